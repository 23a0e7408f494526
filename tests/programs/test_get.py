"""Runs `mp4inspect get` as a user does, over small files that are written out box by box.

- `--raw` and `--content`: the bytes, for paths to one box, to several and to none.
- `--field`: values, members and entries.
- The tree and `--json`, beside those of the whole file.
- Paths that lead nowhere, and texts that are no paths."""

import shutil
import tempfile
import unittest

from tests.built import built
from tests.files.inspected import load
from tests.programs.test_inspect import Runs, write_file


def mdhd(timescale):
    """Returns an `mdhd` of version 0 in the language `und`, three letters of five bits (ISO/IEC 14496-12, 8.4.2)."""
    return (bytes.fromhex("00000020 6d646864 00000000 00000000 00000000") + timescale.to_bytes(4, "big")
            + bytes.fromhex("00000000 55c4 0000"))


# A track is 48 bytes: headers of `trak` and `mdia`, and an `mdhd` of 32 bytes.
TRACK = bytes.fromhex("00000030 7472616b 00000028 6d646961")
FIRST, SECOND = TRACK + mdhd(600), TRACK + mdhd(48000)
INNER = bytes.fromhex("0000000c 66726565 61626364")
FTYP = bytes.fromhex("00000010 66747970 69736f6d 00000200")
MOOV = bytes.fromhex("00000074 6d6f6f76") + FIRST + SECOND + INNER
OUTER = bytes.fromhex("0000000a 66726565 7879")
LAST = bytes.fromhex("00000009 66726565 7a")
MOOF = bytes.fromhex("00000011 6d6f6f66") + LAST
FILE = FTYP + MOOV + OUTER + MOOF

# The bytes at each path.
RAW = {
    "ftyp": FTYP,
    "moov": MOOV,
    "free": OUTER,
    "free[0]": OUTER,
    "moov/free": INNER,
    "moof/free": LAST,
    "moov/trak": FIRST,
    "moov/trak[0]": FIRST,
    "moov/trak[1]": SECOND,
    "moov/trak[1]/mdia/mdhd": mdhd(48000),
    "moov/trak[*]": FIRST + SECOND,
    "moov/trak[*]/mdia/mdhd": mdhd(600) + mdhd(48000),
    "moov/*": FIRST + SECOND + INNER,
    "moov/*/mdia": FIRST[8:] + SECOND[8:],
    "*": FILE,
    "*/free": INNER + LAST,
    "*/free[0]": INNER + LAST,
    "**/free": INNER + OUTER + LAST,
    "**/free[0]": INNER + OUTER + LAST,
    "**/mdhd": mdhd(600) + mdhd(48000),
    "**/trak[1]": SECOND,
    "**/trak/mdia": FIRST[8:] + SECOND[8:],
    "**/mdia/*": mdhd(600) + mdhd(48000),
    "**/moov/free": INNER,
}
# Boxes whose codes have signs of patterns, and the bytes at each path.
SIGNS = bytes.fromhex("00000009 615b2a5d 70 00000009 2a5b2a5d 71 00000009 615b2a5d 72 00000009 5b31325d 73")
ODD = {
    "a[*]": SIGNS[:9],
    "a[*][0]": SIGNS[:9],
    "a[*][1]": SIGNS[18:27],
    "a[*][*]": SIGNS[:9] + SIGNS[18:27],
    "**/a[*]": SIGNS[:9] + SIGNS[18:27],
    "**/a[*][1]": SIGNS[18:27],
    "*[*]": SIGNS[9:18],
    "[12]": SIGNS[27:],
    "*": SIGNS,
}
# The contents at each path.
CONTENTS = {
    "ftyp": FTYP[8:],
    "moov": FIRST + SECOND + INNER,
    "moov/free": b"abcd",
    "**/free": b"abcdxyz",
    "moov/trak[1]/mdia": mdhd(48000),
}
NOWHERE = ["mdat", "moov/trak[2]", "trak", "moov/mdia", "moov/free[1]", "ftyp/free", "**/stco", "**/trak[2]/mdia",
           "moov/trak/*/mdhd/*", "moov/trak[18446744073709551615]"]
# Texts that are no paths, with the reason.
WRONG = {
    "": "part 0 of the path has no code of four characters",
    "moo": "part 0 of the path has no code of four characters",
    "moov/": "part 1 of the path has no code of four characters",
    "moov/trak/x": "part 2 of the path has no code of four characters",
    "**": "part 0 of the path has no code of four characters",
    "moov/**/mdhd": "part 1 of the path has no code of four characters",
    "**/": "part 0 of the path has no code of four characters",
    "[*]": "part 0 of the path has no code of four characters",
    "moov/[*]": "part 1 of the path has no code of four characters",
    "**/moov/[*]": "part 1 of the path has no code of four characters",
    "moov/trak[x]": "part 1 of the path has no number in brackets after its code",
    "moov/trak1": "part 1 of the path has no number in brackets after its code",
    "moov/trak[1][*]": "part 1 of the path has no number in brackets after its code",
    "moov/trak[*][1]": "part 1 of the path has no number in brackets after its code",
    "**/trak[*]x": "part 0 of the path has no number in brackets after its code",
    "moov/trak[18446744073709551616]": "part 1 of the path has no number in brackets after its code",
}
HEADER = "version: 0, flags: 0x000000, creation_time: 0, modification_time: 0, timescale: 48000, duration: 0, "
# A `trak` with two edits: 5000 units starting at 64, and an empty one (ISO/IEC 14496-12, 8.6.6).
ELST = bytes.fromhex("00000028 656c7374 00000000 00000002 00001388 00000040 00010000 00000007 ffffffff 00010000")
# An `hdlr` whose name has an escape character, and a `colr` of BT.709 (8.4.3 and 12.1.5).
HDLR = bytes.fromhex("00000024 68646c72 00000000 00000000 76696465 00000000 00000000 00000000 611b6200")
COLR = bytes.fromhex("00000013 636f6c72 6e636c78 0001 0001 0001 00")


class Get(unittest.TestCase):
    def setUp(self):
        folder = tempfile.mkdtemp(prefix="get-")
        self.addCleanup(shutil.rmtree, folder)
        self.folder, self.runs = folder, Runs(built("mp4_inspect"), folder)

    def bytes_of(self, *words, data=FILE, status=0):
        """Returns what `get` writes for `data`."""
        done = self.runs.run("get", words[0], "-", *words[1:], input=data)
        self.assertEqual((done.returncode, done.stderr), (status, b""), words)
        return done.stdout

    def test_raw(self):
        for path, wanted in RAW.items():
            self.assertEqual(self.bytes_of("--raw", path), wanted, path)

    def test_codes_with_signs(self):
        """`a[*]`, `*[*]` and `[12]` are codes of four characters."""
        for path, wanted in ODD.items():
            self.assertEqual(self.bytes_of("--raw", path, data=SIGNS), wanted, path)

    def test_content(self):
        for path, wanted in CONTENTS.items():
            self.assertEqual(self.bytes_of("--content", path), wanted, path)

    def test_header_of_16_bytes(self):
        data = bytes.fromhex("00000001 6d646174 0000000000000013") + b"abc"
        self.assertEqual(self.bytes_of("--raw", "mdat", data=data + OUTER), data)
        self.assertEqual(self.bytes_of("--content", "mdat", data=data + OUTER), b"abc")

    def test_box_that_is_cut(self):
        """The bytes that are present are written."""
        data = bytes.fromhex("00000001 6d646174 ffffffffffffffff") + b"abc"
        self.assertEqual(self.bytes_of("--raw", "mdat", data=data), data)
        self.assertEqual(self.bytes_of("--content", "mdat", data=data), b"abc")

    def test_box_of_several_pieces(self):
        content = bytes(range(256)) * 10_000 + b"end"
        data = (len(content) + 8).to_bytes(4, "big") + b"mdat" + content
        self.assertEqual(self.bytes_of("--content", "mdat", data=FTYP + data + OUTER), content)
        write_file(self.folder, "large.mp4", FTYP + data)
        self.assertEqual(self.runs.run("get", "--raw", "large.mp4", "mdat").stdout, data)

    def test_field(self):
        for path, field, wanted in (
                ("moov/trak[1]/mdia/mdhd", "timescale", "48000\n"),
                ("moov/trak[*]/mdia/mdhd", "timescale", "600\n48000\n"),
                ("**/*", "timescale", "600\n48000\n"),
                ("moov/trak/mdia/mdhd", "language", "und\n"),
                ("ftyp", "major_brand", "isom\n")):
            self.assertEqual(self.bytes_of("--field=" + field, path).decode(), wanted, path)
        for field, wanted in (("entries[0].media_time", "64\n"), ("entries[1].media_time", "-1\n"),
                              ("entries[1].segment_duration", "7\n")):
            self.assertEqual(self.bytes_of("--field=" + field, "elst", data=ELST).decode(), wanted, field)

    def test_field_by_its_whole_path(self):
        """A code in a list, a number after a plus or zeros, a meaning, and a text that a terminal would obey."""
        for data, path, field, wanted in (
                (FTYP[:3] + b"\x18" + FTYP[4:] + b"isomavc1", "ftyp", "compatible_brands[1]", "avc1\n"),
                (ELST, "elst", "entries[+1].media_time", "-1\n"), (ELST, "elst", "entries[001].media_time", "-1\n"),
                (COLR, "colr", "colour_primaries", "1\n"), (COLR, "colr", "colour_primaries_name", "BT.709\n"),
                (HDLR, "hdlr", "handler_type", "vide\n"), (HDLR, "hdlr", "name", "a\\u{1b}b\n")):
            self.assertEqual(self.bytes_of("--field=" + field, path, data=data).decode(), wanted, field)

    def test_field_beside_a_fault(self):
        """A box with a fault has no fields. The others have theirs."""
        cut = bytes.fromhex("0000000c 6d646864 00000000")
        data = bytes.fromhex("00000054 6d646961") + mdhd(600) + cut + mdhd(48000)
        self.assertEqual(self.bytes_of("--field=timescale", "mdia/mdhd[*]", data=data), b"600\n48000\n")
        said = "mp4inspect: -: mdia/mdhd[1] has no single value timescale\n"
        self.runs.ends(("get", "--field=timescale", "-", "mdia/mdhd[1]"), 1, "", said, input=data)

    def test_field_that_is_missing(self):
        for field in ("tempo", "timescale[0]", "timescale.x", "entries", "", ".", "timescale.", "[0]"):
            said = f"mp4inspect: -: moov/trak/mdia/mdhd has no single value {field}\n"
            self.runs.ends(("get", "--field=" + field, "-", "moov/trak/mdia/mdhd"), 1, "", said, input=FILE)
        for field in ("entries", "entries[2].media_time", "entries[0]", "entries[0", "entries0]",
                      "entries[-1].media_time", "entries[18446744073709551616].media_time", "entries[].media_time",
                      "entry[0].media_time"):
            said = f"mp4inspect: -: elst has no single value {field}\n"
            self.runs.ends(("get", "--field=" + field, "-", "elst"), 1, "", said, input=ELST)

    def test_tree(self):
        self.runs.ends(("get", "-", "moov/trak[1]/mdia"), 0,
                       f"mdia @80 +40\n  mdhd @88 +32 {HEADER}language: \"und\"\n", "", input=FILE)
        self.runs.ends(("get", "-", "**/free"), 0, "free @120 +12 not read (free space)\n"
                       "free @132 +10 not read (free space)\nfree @150 +9 not read (free space)\n", "", input=FILE)

    def test_json(self):
        """The boxes are those of the whole file."""
        [whole] = load(self.runs.out(0, "--json", "-", input=FILE))
        tracks = whole["boxes"][1]["children"]
        for path, wanted in (("moov/trak[1]/mdia", [tracks[1]["children"][0]]), ("moov", [whole["boxes"][1]]),
                             ("moov/*", tracks), ("*", whole["boxes"]),
                             ("**/mdia", [it["children"][0] for it in tracks[:2]])):
            found = load(self.runs.out(0, "get", "--json", "-", path, input=FILE))
            self.assertEqual(found, [{"file": "-", "boxes": wanted}], path)

    def test_fault(self):
        """A box with a fault in the tree makes the status 1."""
        data = FTYP + bytes.fromhex("00000014 6d6f6f76 0000000c 6d646864 00000000")
        self.assertEqual(self.runs.run("get", "-", "moov", input=data).returncode, 1)
        self.assertEqual(self.runs.run("get", "-", "ftyp", input=data).returncode, 0)
        self.assertEqual(self.bytes_of("--raw", "moov/mdhd", data=data), data[24:])

    def test_nowhere(self):
        for path in NOWHERE:
            said = f"mp4inspect: -: no box at {path}\n"
            for words, out in (((), ""), (("--raw",), ""), (("--content",), ""), (("--field=timescale",), ""),
                               (("--json",), '[{"file":"-","boxes":[]}]\n')):
                self.runs.ends(("get", *words, "-", path), 1, out, said, input=FILE)
        self.runs.ends(("get", "--raw", "-", "moov"), 1, "", "mp4inspect: -: no box at moov\n", input=b"")

    def test_no_paths(self):
        for path, why in WRONG.items():
            self.runs.ends(("get", "--raw", "-", path), 2, "", f"mp4inspect: {path}: {why}\n", input=FILE)

    def test_misuse(self):
        write_file(self.folder, "a.mp4", FILE)
        for words in (("a.mp4",), ("--raw", "--content", "a.mp4", "moov"), ("--json", "--raw", "a.mp4", "moov"),
                      ("--field=x", "--raw", "a.mp4", "moov"), ("a.mp4", "moov", "free")):
            done = self.runs.run("get", *words)
            self.assertEqual((done.returncode, done.stdout), (2, b""), words)
        done = self.runs.run("get", "--raw", "none.mp4", "moov")
        self.assertEqual((done.returncode, done.stdout), (3, b""))


if __name__ == "__main__":
    unittest.main()
