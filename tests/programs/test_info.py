"""Runs `mp4inspect info` as a user does, and compares what it writes with a second computation (readers/info.py).

- Lines worked out by hand for a file with two tracks, and those of stored files and of files with one fault each
  (files/inspected.py, files/faulty.py).
- The JSON of each, which is checked against docs/info.schema.json, too.
- The string of each row of rows/codec_strings.txt, in a movie with that sample entry.
- Several files, files that can't be read, files in which values are not known, and names.
- The time for a thousand small files, and for a file with a million samples beside `samples`."""

import json
import math
import re
import resource
import shutil
import struct
import tempfile
import unittest

from tests.built import built
from tests.files import faulty
from tests.files.faulty import front
from tests.files.inspected import called, check_schema, files, load, schema
from tests.files.made import be, box, full, movie, sound, tkhd, track, visual
from tests.programs.test_inspect import Runs, write_file
from tests.readers import info
from tests.readers.codec_strings import rows
from tests.readers.test_info import LINES, MEDIA, table, two_tracks

SOUNDS = {b"mp4a", b"enca", b"Opus", b"fLaC", b"alac", b"ac-3", b"ec-3", b"dtsc", b"dtse", b"dtsh", b"dtsl"}
VIDEOS = {b"avc1", b"avc3", b"hvc1", b"hev1", b"av01", b"vp08", b"vp09", b"mp4v", b"encv", b"dvh1", b"dvhe"}
UNKNOWN = "mp4inspect: -: some values are not known: mp4inspect check says why\n"


def with_entry(code, boxes):
    """Returns a movie with one track, whose sample entry has these boxes. The original format is in a `sinf`."""
    original = boxes.get(b"frma", code)[:4]
    inside = b"".join(box(name, content) for name, content in boxes.items() if name != b"frma")
    if b"frma" in boxes:
        inside += box(b"sinf", box(b"frma", boxes[b"frma"]))
    is_sound = original in SOUNDS
    if is_sound:
        entry = sound(code, 0, 2, 16, 48000 << 16, b"", inside)
    elif original in VIDEOS or code in VIDEOS:
        entry = visual(code, 64, 48, b"", inside)
    else:
        entry = box(code, bytes(6) + be(2, 1) + inside)
    empty = (full(b"stts", 0, 0, be(4, 0)) + full(b"stsc", 0, 0, be(4, 0)) + full(b"stsz", 0, 0, be(4, 0, 0))
             + full(b"stco", 0, 0, be(4, 0)))
    handler = b"soun" if is_sound else b"vide" if original in VIDEOS or code in VIDEOS else b"text"
    return movie(track(1, handler, b"", b"und", [entry], empty))


def million():
    """Returns a movie with a million samples of two bytes each, of which each hundredth is a key frame."""
    count = 1000000
    syncs = be(4, *range(1, count, 100))
    table = (full(b"stts", 0, 0, be(4, 1, count, 1000)) + full(b"stsc", 0, 0, be(4, 1, 1, count, 1))
             + full(b"stsz", 0, 0, be(4, 0, count) + be(4, 2) * count) + full(b"stco", 0, 0, be(4, 1, 8))
             + full(b"stss", 0, 0, be(4, len(syncs) // 4) + syncs))
    return box(b"mdat", bytes(2 * count)) + movie(track(1, b"vide", b"", b"und", [visual(b"avc1", 64, 48, b"", b"")],
                                                        table))


class Info(unittest.TestCase):
    def setUp(self):
        folder = tempfile.mkdtemp(prefix="info-")
        self.addCleanup(shutil.rmtree, folder)
        self.folder, self.runs, self.names = folder, Runs(built("mp4_inspect"), folder), called()

    def compared(self, data, what):
        """Compares the lines and the object about `data` with the second computation."""
        known = info.is_known(info.info(data))
        done = self.runs.run("info", "-", input=data)
        self.runs.same(done.stdout.decode().split("\n"), [*info.lines("-", data, self.names), ""], what)
        self.assertEqual((done.returncode, done.stderr.decode()), (0, "") if known else (1, UNKNOWN), what)
        done = self.runs.run("info", "--json", "-", input=data)
        found = load(done.stdout)
        check_schema(found, schema("info"), schema("info"))
        self.assertEqual(found, [info.as_json("-", data, self.names)], what)
        self.assertEqual(done.returncode, int(not known), what)

    def test_lines(self):
        data = two_tracks()
        write_file(self.folder, "two.mp4", data)
        size = f"{(len(data) + 500) // 1000} kB"
        wanted = [*(it.format(size) for it in LINES), ""]
        self.runs.same(self.runs.out(0, "info", "two.mp4").split("\n"), wanted, "info")

    def test_stored_files(self):
        for name, data in files().items():
            with self.subTest(file=name):
                self.compared(data, name)

    def test_files_with_faults(self):
        """What is not known is left out, and the program ends."""
        for name, data, _ in faulty.cases():
            with self.subTest(file=name):
                done = self.runs.run("info", "--json", "-", input=data)
                check_schema(load(done.stdout), schema("info"), schema("info"))
                self.assertIn(done.returncode, (0, 1))
                self.assertIn(self.runs.run("info", "-", input=data).returncode, (0, 1))

    def object_of(self, data):
        """Returns the object about a file."""
        return load(self.runs.run("info", "--json", "-", input=data).stdout)[0]

    def of_row(self, text, code, boxes):
        """Compares the string of a sample entry with these boxes."""
        self.assertEqual(self.object_of(with_entry(code, boxes))["tracks"][0]["codec"], text)

    def track_of(self, handler, entry, language=b"und"):
        """Returns the object of a track with this entry and without samples."""
        empty = b"".join(full(code, 0, 0, be(4, 0)) for code in (b"stts", b"stsc", b"stco"))
        tables = empty + full(b"stsz", 0, 0, be(4, 0, 0))
        return self.object_of(movie(track(1, handler, b"", language, [entry], tables)))["tracks"][0]

    def test_sound_of_version_2(self):
        """The fields of other versions have 3 channels and 1 Hz. The actual rate is a float."""
        for rate, hertz in ((96000, 96000), (44100.9, 44100), (1, 1), (0.99, 0), (2**32 - 1, 2**32 - 1), (2**32, 0),
                            (-48000, 0), (math.inf, 0), (math.nan, 0), (5e-324, 0)):
            with self.subTest(rate=rate):
                later = be(4, 72) + struct.pack(">d", rate) + be(4, 5, 0x7F000000, 24, 2, 3, 1)
                found = self.track_of(b"soun", sound(b"lpcm", 2, 3, 16, 0x10000, later, b""))
                self.assertEqual(found["sample_rate"], hertz)
                self.assertEqual(found["channels"], {"layout": "5 channels", "full": 5, "low": 0})

    def test_short_sound_of_version_2(self):
        for missing, hertz, channels in ((20, 96000, 5), (21, None, None), (36, None, None)):
            later = be(4, 72) + struct.pack(">d", 96000) + be(4, 5, 0x7F000000, 24, 2, 3, 1)
            found = self.track_of(b"soun", sound(b"lpcm", 2, 3, 16, 0x10000, later[:len(later) - missing], b""))
            self.assertEqual((found["sample_rate"], found["channels"] and found["channels"]["full"]), (hertz, channels))

    def test_rates_of_mlpa(self):
        """An `mlpa` has a rate of 32 bits, and other entries of version 0 have one of 16.16."""
        for code, rate, hertz in ((b"mlpa", 192000, 192000), (b"mlpa", 48000, 48000), (b"alac", 48000 << 16, 48000)):
            found = self.track_of(b"soun", sound(code, 0, 2, 16, rate, b"", b""))
            self.assertEqual((found["codec"], found["sample_rate"]), (code.decode(), hertz))

    def test_codes_that_cannot_be_printed(self):
        found = self.track_of(b"soun", sound(b"ms\0\2", 0, 2, 16, 44100 << 16, b"", b""))
        self.assertEqual((found["entry"], found["codec"]), ("ms\0\2", "0x6d730002"))

    def test_languages(self):
        """The number 0 is English in QuickTime, and 1 is French, but no letters."""
        for letters, language in ((b"```", "eng"), (b"``a", "und"), (b"deu", "deu")):
            found = self.track_of(b"vide", visual(b"avc1", 64, 48, b"", b""), letters)
            self.assertEqual(found["language"], language)

    def test_encryption(self):
        """An `encv` is encrypted, even if nothing says how."""
        scheme = full(b"schm", 0, 0, b"cenc" + be(4, 0x10000))
        for code, boxes, encryption in (
                (b"avc1", b"", None), (b"encv", b"", {"original": None, "scheme": None, "key": None}),
                (b"encv", box(b"sinf", scheme), {"original": None, "scheme": "cenc", "key": None}),
                (b"encv", box(b"sinf", box(b"frma", b"avc1") + scheme),
                 {"original": "avc1", "scheme": "cenc", "key": None})):
            found = self.track_of(b"vide", visual(code, 64, 48, b"", boxes))
            self.assertEqual((found["entry"], found["encryption"]), (code.decode(), encryption))

    def test_edits(self):
        """Two edits of 300 and of 36 units of the movie, which has 600 in a second, and edits that show the media
        starting at unit 1000 or 12000 of 48000, of which there are 4 * 2000."""
        for edits, seconds in (([(300, 0), (36, 5)], 0.56), ([(300, -1), (0, 1000)], 0.646), ([(0, 12000)], 0)):
            elst = full(b"elst", 0, 0, be(4, len(edits)) + b"".join(
                be(4, duration, start % 2**32) + be(2, 1, 0) for duration, start in edits))
            video = track(1, b"vide", b"", b"und", [visual(b"avc1", 64, 48, b"", b"")], table([1] * 4, 2000, MEDIA))
            data = front(4) + movie(box(b"trak", video[8:] + box(b"edts", elst)))
            self.assertEqual(self.object_of(data)["tracks"][0]["duration"]["seconds"], seconds)

    def test_open_edits_of_fragments(self):
        """Four frames last for 512 units each. They are shown in the order 1, 3, 4, 2. An edit without a duration ends
        when the second one has been shown, and not with the last one that is decoded."""
        for version, offsets, start, ticks in ((0, (512, 1536, 0, 0), 512, 2048), (1, (0, 1024, -512, -512), 0, 2048),
                                               (1, (-2048,) * 4, 0, 0), (0, (2**32 - 2048, 0, 0, 0), 0, 2**32 - 1536),
                                               (0, (), 0, 2048), (1, (-512, -512, -512, -1024), 512, 512)):
            trex = box(b"mvex", full(b"trex", 0, 0, be(4, 1, 1, 512, 1, 0)))
            elst = full(b"elst", 0, 0, be(4, 1, 0, start) + be(2, 1, 0))
            empty = b"".join(full(code, 0, 0, be(4, 0)) for code in (b"stts", b"stsc", b"stco"))
            video = track(1, b"vide", b"", b"und", [visual(b"avc1", 64, 48, b"", b"")],
                          empty + full(b"stsz", 0, 0, be(4, 0, 0)))
            run = full(b"trun", version, 0x801 if offsets else 1, be(4, 4, 0, *offsets))
            fragment = full(b"tfhd", 0, 0x20000, be(4, 1)) + full(b"tfdt", 0, 0, be(4, 0)) + run
            data = movie(box(b"trak", video[8:] + box(b"edts", elst)), trex) + box(
                b"moof", full(b"mfhd", 0, 0, be(4, 1)) + box(b"traf", fragment))
            with self.subTest(version=version, offsets=offsets):
                self.compared(data, "a fragment")
                found = self.object_of(data)["tracks"][0]
                self.assertEqual(found["duration"]["ticks"], ticks * 600)
                self.assertEqual(found["media_duration"]["ticks"], 2048)

    def test_open_edits_of_tables(self):
        """Samples are counted with their durations, and with their composition offsets. The edit shows the media
        starting at unit 512."""
        for durations, shifts, ticks in (
                ([(4, 512)], [(1, 512), (1, 1536), (2, 0)], 2048), ([(4, 512)], [(1, 1024)], 1536),
                ([(4, 512)], [(4, -512)], 1024), ([(2, 512), (2, 1024)], [(3, 256), (1, 0)], 2560),
                ([(1, 100), (0, 9), (3, 500)], [(0, 9000), (2, 400), (1, 700), (1, 100), (5, 9000)], 1288),
                ([(4, 512)], [(6, 100)], 1636), ([(4, 512)], [], 1536), ([(2, 512), (2, 0)], [(2, 0)], 512)):
            stts = full(b"stts", 0, 0, be(4, len(durations)) + b"".join(be(4, *row) for row in durations))
            ctts = full(b"ctts", 1, 0, be(4, len(shifts)) + b"".join(be(4, *row) for row in shifts))
            tables = (stts + ctts + full(b"stsc", 0, 0, be(4, 1, 1, 4, 1)) + full(b"stsz", 0, 0, be(4, 1, 4))
                      + full(b"stco", 0, 0, be(4, 1, MEDIA)))
            elst = full(b"elst", 0, 0, be(4, 1, 0, 512) + be(2, 1, 0))
            video = track(1, b"vide", b"", b"und", [visual(b"avc1", 64, 48, b"", b"")], tables)
            data = front(4) + movie(box(b"trak", video[8:] + box(b"edts", elst)))
            with self.subTest(durations=durations, shifts=shifts):
                self.compared(data, "tables")
                self.assertEqual(self.object_of(data)["tracks"][0]["duration"]["ticks"], ticks * 600)

    def test_turns(self):
        one, minus = 0x10000, -0x10000
        for (a, b, c, d), degrees in (((one, 0, 0, one), 0), ((0, one, minus, 0), 90), ((minus, 0, 0, minus), 180),
                                      ((0, minus, one, 0), 270), ((minus, 0, 0, one), None)):
            header = tkhd(1, 0, 0, 0, (a, b, 0, c, d, 0, 0, 0, 0x40000000))
            video = track(1, b"vide", b"", b"und", [visual(b"avc1", 64, 48, b"", b"")], table([1], 1, MEDIA), header)
            self.assertEqual(self.object_of(front(1) + movie(video))["tracks"][0]["rotation"], degrees)

    def test_last_duration(self):
        """No frame follows the last one, so its duration doesn't matter."""
        for runs, rate, is_constant in (([(3, 1001), (1, 5)], 47.952, True), ([(3, 2000), (2, 4000)], 17.143, False)):
            count = sum(samples for samples, _ in runs)
            times = full(b"stts", 0, 0, be(4, len(runs)) + b"".join(be(4, *run) for run in runs))
            tables = (times + full(b"stsc", 0, 0, be(4, 1, 1, count, 1)) + full(b"stsz", 0, 0, be(4, 1, count))
                      + full(b"stco", 0, 0, be(4, 1, MEDIA)))
            video = track(1, b"vide", b"", b"und", [visual(b"avc1", 64, 48, b"", b"")], tables)
            found = self.object_of(front(count) + movie(video))["tracks"][0]["frame_rate"]
            self.assertEqual((found["per_second"], found["constant"]), (rate, is_constant))

    def test_several_files(self):
        """Each file has its lines, and all objects are one array. A file that can't be read is skipped."""
        named = {"plain.mp4": files()["plain"], "newer.mp4": files()["newer"]}
        for name, data in named.items():
            write_file(self.folder, name, data)
        done = self.runs.run("info", "plain.mp4", "none.mp4", "newer.mp4")
        wanted = [line for name, data in named.items() for line in info.lines(name, data, self.names)]
        self.assertEqual(done.returncode, 3)
        self.runs.same(done.stdout.decode().split("\n"), [*wanted, ""], "info")
        done = self.runs.run("info", "--json", "none.mp4", "plain.mp4", "newer.mp4")
        self.assertEqual([it["file"] for it in load(done.stdout)], list(named))

    def test_names(self):
        """The name of a file is escaped in lines, and whole in JSON."""
        name = 'a"\x1b\nb.mp4'
        write_file(self.folder, name, files()["plain"])
        self.assertEqual(json.loads(self.runs.run("info", "--json", name).stdout)[0]["file"], name)
        self.assertTrue(self.runs.run("info", name).stdout.startswith(b'a"\\u{1b}\\nb.mp4  MP4'))

    def seconds(self, *words, **ends):
        """Returns the processor seconds of a run."""
        before = resource.getrusage(resource.RUSAGE_CHILDREN)
        self.runs.run(*words, **ends)
        after = resource.getrusage(resource.RUSAGE_CHILDREN)
        return after.ru_utime + after.ru_stime - before.ru_utime - before.ru_stime

    def test_speed(self):
        """A thousand small files take at most 5 ms each, and a million samples at most twice the time of `samples`. The
        bounds are doubled here, since a build without proof is slower."""
        names = [f"{number}.mp4" for number in range(1000)]
        for name in names:
            write_file(self.folder, name, two_tracks())
        self.assertLess(self.seconds("info", *names), 10)
        write_file(self.folder, "million.mp4", million())
        self.assertLess(self.seconds("info", "million.mp4"), 4 * self.seconds("samples", "million.mp4"))


def add(text, *case):
    """Adds the test of a row with the string `text`."""
    name = "_".join(["test_string", *re.findall(r"\w+", text), *(["encrypted"] if case[0][:3] == b"enc" else [])])
    if hasattr(Info, name):
        name += "_" + "_".join(each.decode() for each in case[1])
    if hasattr(Info, name):
        raise ValueError(f"two tests have the name {name}")
    setattr(Info, name, lambda self: self.of_row(text, *case))


for _, *row in rows():
    add(*row)

if __name__ == "__main__":
    unittest.main()
