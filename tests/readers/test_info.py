"""Compares what info.py computes about files with what was worked out by hand from ISO/IEC 14496-12 and RFC 6381."""

import unittest
from fractions import Fraction

from tests.files.faulty import front
from tests.files.made import be, box, full, movie, sound, tkhd, track, visual
from tests.readers.info import as_json, duration_of, frame_rate, info, lines, shown_ends

# The offset of the media data, after an `ftyp` of 20 bytes and the header of the `mdat`.
MEDIA = 28
TURNED = (0, 0x10000, 0, -0x10000, 0, 0, 0, 0, 0x40000000)
AVC = box(b"avcC", bytes.fromhex("0164001fffe000"))
# AAC LC (2) with 48000 Hz (3) and two channels: 00010 0011 0010 000.
AAC = full(b"esds", 0, 0, bytes.fromhex("0319000100 0411401500000000000000000000000502 1190 060102"))


def table(sizes, delta, offset, syncs=None):
    """Returns tables of samples in one chunk, each of which lasts for `delta` units."""
    listed = b"" if syncs is None else full(b"stss", 0, 0, be(4, len(syncs), *syncs))
    return (full(b"stts", 0, 0, be(4, 1, len(sizes), delta)) + full(b"stsc", 0, 0, be(4, 1, 1, len(sizes), 1))
            + full(b"stsz", 0, 0, be(4, 0, len(sizes), *sizes)) + full(b"stco", 0, 0, be(4, 1, offset)) + listed)


def two_tracks():
    """Returns a file with video of 4 frames of 1/24 s, which is turned, and with sound of 3 * 1024 / 48000 s, of which
    an edit shows 36 / 600 s."""
    video = track(1, b"vide", b"", b"deu", [visual(b"avc1", 640, 480, b"", AVC)],
                  table([100, 50, 50, 50], 2000, MEDIA, [1]), tkhd(1, 640 << 16, 480 << 16, 0, TURNED))
    audio = track(2, b"soun", b"", b"und", [sound(b"mp4a", 0, 2, 16, 48000 << 16, b"", AAC)],
                  table([10, 10, 10], 1024, MEDIA + 250))
    edits = box(b"edts", full(b"elst", 0, 0, be(4, 1, 36, 0) + be(2, 1, 0)))
    return front(280) + movie(video, box(b"trak", audio[8:] + edits))


# 250 bytes in 1/6 s are 12000 bits a second, and 30 bytes in 0.064 s are 3750.
LINES = [
    "two.mp4  MP4 (isom), progressive, moov after the media data, 0.167 s, {}",
    "  1 video  avc1.64001f  640x480 rotated 90  24 fps  0.167 s  12 kb/s  deu  4 samples, 1 key frame",
    "  2 audio  mp4a.40.2    48000 Hz stereo             0.060 s  4 kb/s   und  3 samples"]


class Info(unittest.TestCase):
    def test_lines(self):
        data = two_tracks()
        size = f"{(len(data) + 500) // 1000} kB"
        self.assertEqual(lines("two.mp4", data, {}), [line.format(size) for line in LINES])

    def test_json(self):
        data = two_tracks()
        found = as_json("two.mp4", data, {})
        video, audio = found.pop("tracks")
        self.assertEqual(found, {
            "file": "two.mp4", "size": len(data), "brands": ["isom", "isom"], "fragmented": False, "moov_first": False,
            "seconds": 0.167, "segments": [], "tags": [],
            "stated_duration": {"seconds": 1832519379.627, "ticks": 2**40, "ticks_per_second": 600}})
        self.assertEqual(video, {
            "track_id": 1, "handler": "vide", "kind": "video", "chapters": False, "entry": "avc1",
            "codec": "avc1.64001f", "encryption": None, "samples": 4, "key_frames": 1, "bytes": 250,
            "duration": {"seconds": 0.167, "ticks": 8000, "ticks_per_second": 48000},
            "media_duration": {"seconds": 0.167, "ticks": 8000, "ticks_per_second": 48000}, "bit_rate": 12000,
            "language": "deu", "width": 640, "height": 480, "rotation": 90, "pixel_aspect": None, "colours": None,
            "dynamic_range": None, "mastering": None, "light": None, "references": [],
            "frame_rate": {"per_second": 24, "frames": 48000, "units": 2000, "constant": True}})
        self.assertEqual(audio, {
            "track_id": 2, "handler": "soun", "kind": "audio", "chapters": False, "entry": "mp4a", "codec": "mp4a.40.2",
            "encryption": None, "samples": 3, "key_frames": 3, "bytes": 30,
            "duration": {"seconds": 0.06, "ticks": 36 * 48000, "ticks_per_second": 600 * 48000},
            "media_duration": {"seconds": 0.064, "ticks": 3072, "ticks_per_second": 48000}, "bit_rate": 3750,
            "language": "und", "sample_rate": 48000, "channels": {"layout": "stereo", "full": 2, "low": 0},
            "references": []})

    def test_files_without_a_movie(self):
        self.assertEqual(lines("empty", b"", {}), ["empty  no ftyp, no moov, 0 bytes"])
        self.assertEqual(info(front())["tracks"], [])

    def test_durations(self):
        """Edits are the duration, the media time and the rate. The timescales are 600 and 48000, and the composition
        times end where the decoding times do."""
        for edits, end, seconds in (
                ([], 48000, 1), ([(300, 0, 1)], 48000, Fraction(1, 2)),
                ([(600, -1, 1), (300, 7, 1)], 0, Fraction(3, 2)),
                ([(0, 24000, 1)], 48000, Fraction(1, 2)), ([(0, -1, 1)], 48000, 0), ([(0, 0, 0)], 48000, 0),
                ([(0, 96000, 1)], 48000, 0), ([(0, 0, 1), (300, 0, 1)], 48000, Fraction(1, 2))):
            with self.subTest(edits=edits):
                self.assertEqual(Fraction(*duration_of(edits, 600, 48000, end, end)), seconds)
        self.assertEqual(Fraction(*duration_of([(0, 24000, 1)], 600, 48000, 48000, 72000)), 1)
        self.assertEqual(Fraction(*duration_of([], 600, 48000, 48000, 72000)), 1)

    def test_ends_of_samples(self):
        """Entries are a number of samples, and their duration or their composition offset."""
        for durations, shifts, ends in (
                ([], [], []), ([(4, 10)], [], [40]), ([(4, 10)], [(1, 10), (1, 30), (2, 0)], [20, 50, 40]),
                ([(4, 10)], [(2, -10)], [10, 40]), ([(1, 10), (2, 20)], [(0, 99), (2, 5), (5, 7)], [15, 35, 57])):
            with self.subTest(durations=durations, shifts=shifts):
                self.assertEqual(list(shown_ends(durations, shifts)), ends)

    def test_frame_rates(self):
        for durations, rate in (
                ([], None), ([(1, 5)], None), ([(2, 0)], None), ([(4, 1001)], (30000, 1001, True)),
                ([(2, 1001), (1, 5)], (30000, 1001, True)), ([(1, 10), (0, 7), (2, 20)], (90000, 50, False)),
                ([(3, 10), (2, 20)], (150000, 70, False))):
            with self.subTest(durations=durations):
                self.assertEqual(frame_rate(durations, 30000), rate)


if __name__ == "__main__":
    unittest.main()
