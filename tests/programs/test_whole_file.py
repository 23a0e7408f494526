"""Runs the built program mp4boxes over a whole file: a file type, free space, media data with a size of 64 bits, a
movie with all its children, a box of a type that someone else defined, and a last box of size 0. Boxes that the codec
does not read have to be written unchanged. The two headers have to be written as 8 bytes, with their sizes."""

import subprocess
import unittest

from tests.built import built

MEDIA = bytes(range(256)) * 4096


def number(value, width=4):
    return value.to_bytes(width, "big")


def box(name, content):
    """Returns a box with the name `name`, `content` and a header of 8 bytes."""
    return number(8 + len(content)) + name + content


def full(name, content, version=0, flags=0):
    """Returns a box that begins with a version and flags."""
    return box(name, number(version, 1) + number(flags, 3) + content)


def movie():
    """Returns a movie of one video track, whose boxes are all in the form in which they are written."""
    matrix = number(0x10000) + bytes(12) + number(0x10000) + bytes(12) + number(0x40000000)
    units = b"\1\x64\0\x0d\xff\xe1" + number(4, 2) + b"\x67\x64\0\x0d" + b"\1" + number(2, 2) + b"\x68\xee"
    fields = bytes(6) + number(1, 2) + bytes(16) + number(320, 2) + number(240, 2)
    fields += number(0x480000) * 2 + bytes(4) + number(1, 2)
    avc1 = box(b"avc1", fields + bytes(32) + b"\0\x18\xff\xff" + box(b"avcC", units))
    samples = b"".join([
        full(b"stsd", number(1) + avc1),
        full(b"stts", number(1) + number(3) + number(512)),
        full(b"stsc", number(1) + number(1) + number(3) + number(1)),
        full(b"stsz", number(0) + number(3) + number(100) + number(200) + number(300)),
        full(b"stco", number(1) + number(56)),
    ])
    reference = box(b"dinf", full(b"dref", number(1) + full(b"url ", b"", flags=1)))
    media = b"".join([
        full(b"mdhd", number(1) + number(2) + number(12800) + number(1536) + number(0x55C4, 2) + bytes(2)),
        full(b"hdlr", bytes(4) + b"vide" + bytes(12) + b"VideoHandler\0"),
        box(b"minf", full(b"vmhd", bytes(8), flags=1) + reference + box(b"stbl", samples)),
    ])
    times = number(1) + number(2)
    shown = matrix + number(320 << 16) + number(240 << 16)
    track = full(b"tkhd", times + number(1) + bytes(4) + number(120) + bytes(16) + shown, flags=3)
    played = number(1000) + number(120) + number(0x10000) + b"\1\0"
    header = full(b"mvhd", times + played + bytes(10) + matrix + bytes(24) + number(2))
    return box(b"moov", header + box(b"trak", track + box(b"mdia", media)))


def listed(boxes):
    """Returns the output of `list` for `boxes`."""
    lines, at = [], 0
    for piece in boxes:
        name = piece[4:8].decode("ascii")
        lines.append(f"{at} {len(piece)} {name}\n")
        at += len(piece)
    return "".join(lines).encode()


LAST = b"the rest of the file"
FILE_TYPE, FREE = box(b"ftyp", b"isom" + number(512) + b"isomavc1"), box(b"free", b"here")
UUID = box(b"uuid", bytes(range(0x81, 0x91)) + b"of someone else")
LARGE = number(1) + b"mdat" + number(16 + len(MEDIA), 8) + MEDIA
BEFORE = [FILE_TYPE, FREE, LARGE, movie(), UUID, number(0) + b"skip" + LAST]
AFTER = [FILE_TYPE, FREE, box(b"mdat", MEDIA), movie(), UUID, box(b"skip", LAST)]


class WholeFile(unittest.TestCase):
    def compare(self, command, given, wanted):
        ran = subprocess.run([built("mp4_boxes"), command], input=given, capture_output=True, check=False)
        self.assertEqual((ran.returncode, ran.stderr), (0, b""))
        if ran.stdout != wanted:
            self.fail(f"{len(ran.stdout)} bytes, {ran.stdout[:60]}, and not {len(wanted)}, {wanted[:60]}")

    def test_normal_form(self):
        self.compare("normal", b"".join(BEFORE), b"".join(AFTER))

    def test_normal_form_of_the_normal_form(self):
        self.compare("normal", b"".join(AFTER), b"".join(AFTER))

    def test_list(self):
        self.compare("list", b"".join(BEFORE), listed(BEFORE))

    def test_list_of_the_normal_form(self):
        self.compare("list", b"".join(AFTER), listed(AFTER))

    def test_children_of_the_movie(self):
        self.compare("normal", movie()[8:], movie()[8:])


if __name__ == "__main__":
    unittest.main()
