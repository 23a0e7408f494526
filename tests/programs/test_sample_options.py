"""`mp4inspect samples` with the options about times and rows. The values were worked out by hand from ISO/IEC 14496-12
(8.6.1, 8.6.2, 8.6.6, 8.8) and docs/PROGRAMS.md. Nothing is what the program printed."""

import json
import os
import shutil
import subprocess
import tempfile
import unittest

from tests.built import built
from tests.files.faulty import front, moof, moov, stbl, traf, trak, trun
from tests.files.inspected import check_schema, schema
from tests.files.made import be, box, ftyp, full

NAMES = "track,number,offset,size,decode_time,presentation_time,duration,sync,description,timescale\n"
SEGMENTS = "number,offset,size,track,start,duration,timescale\n"


def edit_list(*edits):
    """Returns an `edts` with these edits: the duration in the timescale of the movie, the media time, the rate."""
    return box(b"edts", full(b"elst", 0, 0, be(4, len(edits)) + b"".join(
        be(4, duration, time) + be(2, rate, 0) for duration, time, rate in edits)))


def scaled(track, scale):
    """Returns `track` with another timescale in its `mdhd`."""
    at = track.index(b"mdhd") + 16
    return track[:at] + be(4, scale) + track[at + 4:]


# Three samples of 10 ticks with composition offsets 0, 20 and 0, of which the first is a sync sample. The timescale of
# the media is 1000, and that of the movie 600.
TABLES = stbl([28], [4, 5, 6], 3, False,
              full(b"ctts", 0, 0, be(4, 3, 1, 0, 1, 20, 1, 0)) + full(b"stss", 0, 0, be(4, 1, 1)))


def extended(*tables):
    """Returns an `mvex` with the defaults of these tracks: the track_ID, the duration and the size of a sample."""
    return box(b"mvex", b"".join(full(b"trex", 0, 0, be(4, track, 1, duration, size, 0))
                                 for track, duration, size in tables))


class Options(unittest.TestCase):
    def setUp(self):
        self.folder = tempfile.mkdtemp(prefix="options-")
        self.addCleanup(shutil.rmtree, self.folder)
        self.program = built("mp4_inspect")

    def rows(self, data, *words, status=0, said=""):
        path = os.path.join(self.folder, "a.mp4")
        with open(path, "wb") as file:
            file.write(data)
        done = subprocess.run([self.program, "samples", *words, path], capture_output=True, check=False)
        self.assertEqual((done.stderr.decode().replace(path, "a.mp4"), done.returncode), (said, status))
        return done.stdout.decode()

    def test_timescale(self):
        data = front() + moov(trak(TABLES))
        self.assertEqual(self.rows(data, "--csv"), NAMES
                         + "1,1,28,4,0,0,10,1,1,1000\n1,2,32,5,10,30,10,0,1,1000\n1,3,37,6,20,20,10,0,1,1000\n")
        objects = json.loads(self.rows(data, "--json"))
        self.assertEqual([it["timescale"] for it in objects], [1000] * 3)
        check_schema(objects, schema("samples"), schema("samples"))

    def test_timescale_that_cannot_be_read(self):
        data = front() + moov(trak(TABLES).replace(b"mdhd", b"free"))
        self.assertEqual(self.rows(data, "--csv").splitlines()[1], "1,1,28,4,0,0,10,1,1,")
        self.assertEqual(self.rows(data, "--csv", "--seconds").splitlines()[1], "1,1,28,4,,,,1,1,")
        found = json.loads(self.rows(data, "--json", "--seconds"))
        self.assertEqual([found[0][name] for name in ("decode_time", "presentation_time", "duration", "timescale")],
                         [None] * 4)

    def test_seconds(self):
        data = front() + moov(trak(TABLES))
        self.assertEqual(self.rows(data, "--csv", "--seconds"), NAMES
                         + "1,1,28,4,0.000000,0.000000,0.010000,1,1,1000\n"
                         + "1,2,32,5,0.010000,0.030000,0.010000,0,1,1000\n"
                         + "1,3,37,6,0.020000,0.020000,0.010000,0,1,1000\n")
        self.assertEqual(
            self.rows(data, "--seconds").splitlines()[3],
            "       2            32          5      0.010000           0.030000   0.010000     0            1")

    def test_seconds_are_rounded_to_the_nearest(self):
        # 10 / 30000 = 0.00033333.., 30 / 30000 = 0.001, 20 / 30000 = 0.00066666..
        data = front() + moov(scaled(trak(TABLES), 30000))
        self.assertEqual([line.split(",")[4:7] for line in self.rows(data, "--csv", "--seconds").splitlines()[1:]],
                         [["0.000000", "0.000000", "0.000333"], ["0.000333", "0.001000", "0.000333"],
                          ["0.000667", "0.000667", "0.000333"]])
        # 10 / 4000000 = 0.0000025, a half, which is rounded up; 30 / 4000000 = 0.0000075; 20 / 4000000 = 0.000005
        data = front() + moov(scaled(trak(TABLES), 4000000))
        self.assertEqual([line.split(",")[4:7] for line in self.rows(data, "--csv", "--seconds").splitlines()[1:]],
                         [["0.000000", "0.000000", "0.000003"], ["0.000003", "0.000008", "0.000003"],
                          ["0.000005", "0.000005", "0.000003"]])

    def test_negative_seconds(self):
        table = stbl([28], [4], 1, False, full(b"ctts", 1, 0, be(4, 1, 1, -1500)))
        data = front() + moov(trak(table))
        self.assertEqual(self.rows(data, "--csv", "--seconds").splitlines()[1],
                         "1,1,28,4,0.000000,-1.500000,0.010000,1,1,1000")

    def test_sync(self):
        table = stbl([28], [4, 5, 6], 3, False, full(b"stss", 0, 0, be(4, 2, 1, 3)))
        data = front() + moov(trak(table))
        self.assertEqual(self.rows(data, "--csv", "--sync"),
                         NAMES + "1,1,28,4,0,0,10,1,1,1000\n1,3,37,6,20,20,10,1,1,1000\n")
        self.assertEqual([it["number"] for it in json.loads(self.rows(data, "--json", "--sync"))], [1, 3])
        none = front() + moov(trak(stbl([28], [4], 1, False, full(b"stss", 0, 0, be(4, 0)))))
        self.assertEqual(self.rows(none, "--json", "--sync"), "[\n]\n")

    def test_edits(self):
        # An empty edit of 300/600 seconds, which are 500 ticks of the media, precedes it. The media is shown starting
        # at 10, so a sample is presented at 500 + time - 10. The first sample is not shown, the second (at 30) is
        # presented at 520, the third (at 20) at 510.
        data = front() + moov(trak(TABLES, extra=edit_list((300, -1, 1), (600, 10, 1))))
        self.assertEqual(self.rows(data, "--csv", "--edits"), NAMES
                         + "1,1,28,4,0,,10,1,1,1000\n1,2,32,5,10,520,10,0,1,1000\n1,3,37,6,20,510,10,0,1,1000\n")
        self.assertEqual([line.split(",")[5] for line in self.rows(data, "--csv", "--edits", "--seconds").splitlines()],
                         ["presentation_time", "", "0.520000", "0.510000"])
        self.assertEqual([it["presentation_time"] for it in json.loads(self.rows(data, "--json", "--edits"))],
                         [None, 520, 510])
        # An empty edit of 1 / 600 seconds: 1000 / 600 = 1.66.. units of the media, rounded down, or 0.001667 seconds.
        data = front() + moov(trak(TABLES, extra=edit_list((1, -1, 1), (600, 0, 1))))
        self.assertEqual([line.split(",")[5] for line in self.rows(data, "--csv", "--edits").splitlines()[1:]],
                         ["1", "31", "21"])
        self.assertEqual(
            [line.split(",")[5] for line in self.rows(data, "--csv", "--edits", "--seconds").splitlines()[1:]],
            ["0.001667", "0.031667", "0.021667"])

    def test_edits_without_a_list(self):
        data = front() + moov(trak(TABLES))
        self.assertEqual(self.rows(data, "--csv", "--edits"), self.rows(data, "--csv"))

    def test_edits_that_cannot_be_used(self):
        data = front() + moov(trak(TABLES, extra=edit_list((300, 0, 2))))
        said = "mp4inspect: a.mp4: track 1: the rate of edit 0 is neither 0 nor 1: 2 and 0 / 65536\n"
        self.assertEqual(self.rows(data, "--csv", "--edits", status=1, said=said), NAMES)

    def test_segments(self):
        head = ftyp(b"iso5", b"iso5") + moov(trak(stbl([], [])), extended((1, 10, 5)))
        first = moof(traf(1, 0x20000, b"", trun(0, [], 3)))
        timed = moof(traf(1, 0x20000, b"", full(b"tfdt", 0, 0, be(4, 700)), trun(0, [], 2)))
        data = head + first + box(b"mdat", bytes(15)) + timed + box(b"mdat", bytes(10)) + box(b"free", bytes(4))
        at, then = len(head), len(head) + len(first) + 23
        end = then + len(timed) + 18
        self.assertEqual(self.rows(data, "--segments", "--csv"), SEGMENTS
                         + f"1,{at},{then - at},1,0,30,1000\n2,{then},{end - then},1,700,20,1000\n")
        self.assertEqual(self.rows(data, "--segments", "--csv", "--seconds"), SEGMENTS
                         + f"1,{at},{then - at},1,0.000000,0.030000,1000\n"
                         + f"2,{then},{end - then},1,0.700000,0.020000,1000\n")
        self.assertEqual(self.rows(data, "--segments").splitlines()[1:], [
            f"       1  {at:12}  {then - at:11}           1             0            30",
            f"       2  {then:12}  {end - then:11}           1           700            20"])
        self.assertEqual(json.loads(self.rows(data, "--segments", "--json"))[1], {
            "number": 2, "offset": then, "size": end - then, "track": 1, "start": 700, "duration": 20,
            "timescale": 1000})
        check_schema(json.loads(self.rows(data, "--segments", "--json")), schema("samples"), schema("samples"))

    def test_segments_go_on_where_the_samples_before_end(self):
        # Two samples in the tables last 20, and each fragment has 3 samples of 10.
        head = front() + moov(trak(stbl([28], [1, 1], 2)), extended((1, 10, 5)))
        part = moof(traf(1, 0x20000, b"", trun(0, [], 3))) + box(b"mdat", bytes(15))
        self.assertEqual([line.split(",")[4:6] for line in self.rows(head + part + part, "--segments", "--csv")
                          .splitlines()[1:]], [["20", "30"], ["50", "30"]])

    def test_segments_without_defaults(self):
        head = ftyp(b"iso5", b"iso5") + moov(trak(stbl([], [])))
        part = moof(traf(1, 0x20000, b"", trun(0, [], 3)))
        said = f"mp4inspect: a.mp4: moof at {len(head)}: there is no trex\n"
        self.assertEqual(self.rows(head + part, "--segments", "--csv", status=1, said=said),
                         SEGMENTS + f"1,{len(head)},{len(part)},,,,\n")

    def test_misuse(self):
        for words in (["--track", "1"], ["--sync"], ["--edits"], ["--beyond"]):
            done = subprocess.run([self.program, "samples", "--segments", *words, "a.mp4"], capture_output=True,
                                  check=False)
            self.assertEqual((done.returncode, done.stdout), (2, b""))


if __name__ == "__main__":
    unittest.main()
