"""Runs the built program mp4boxes over large inputs with ample memory: tables of a million rows, strings, messages and
sets of megabytes, many boxes, and a large box that has no type of its own. Each input is in its normal form, so
`normal` has to write it unchanged. The expected output of `list` was worked out from the lengths of the boxes."""

import subprocess
import unittest

from tests.built import built

ROWS = 1_000_000
PAIRS = 100_000
COUNT = ROWS.to_bytes(4, "big")

# The bytes before the first row, beginning with the box's name, and the number of 32-bit numbers in a row.
TABLES = [
    (b"stco" + bytes(4) + COUNT, 1),
    (b"co64" + bytes(4) + COUNT, 2),
    (b"stts" + bytes(4) + COUNT, 2),
    (b"ctts" + bytes(4) + COUNT, 2),
    (b"stss" + bytes(4) + COUNT, 1),
    (b"stsz" + bytes(8) + COUNT, 1),
    (b"stsc" + bytes(4) + COUNT, 3),
    (b"elst" + bytes(4) + COUNT, 3),
    (b"elst\1" + bytes(3) + COUNT, 5),
    (b"ftypisom" + bytes(4), 1),
]
# A run: the four flags of its lists, in every combination.
TABLES += [(b"trun" + (flags << 8).to_bytes(4, "big") + COUNT, bin(flags).count("1")) for flags in range(1, 16)]

LETTERS = b"abcdefg" * ROWS
STRINGS = [
    b"hdlr" + bytes(8) + b"vide" + bytes(12) + LETTERS + b"\0",
    b"url " + bytes(4) + LETTERS + b"\0",
    b"data" + bytes(8) + LETTERS,
    b"emsg" + bytes(4) + LETTERS + b"\0" + LETTERS + b"\0" + bytes(16) + LETTERS,
]
# As many sets as can be counted, each as large as can be.
SET = b"\xff\xff" + LETTERS[:0xFFFF]
STRINGS += [b"avcC\1\x64\0\x0d\xff\xff" + SET * 31 + b"\xff" + SET * 255, b"free" + LETTERS]


def box(content):
    """Returns a box with `content`, which begins with its name."""
    return (4 + len(content)).to_bytes(4, "big") + content


def rows(width):
    """Returns rows whose first number counts from 1, and whose other numbers are small."""
    numbers = bytearray()
    for row in range(ROWS):
        numbers += (row + 1).to_bytes(4, "big")
        for column in range(1, width):
            numbers += (row % 100 + column).to_bytes(4, "big")
    return bytes(numbers)


def inputs():
    """Returns the inputs, each in its normal form."""
    numbers = {width: rows(width) for width in range(1, 6)}
    found = [box(front + numbers[width]) for front, width in TABLES]
    found += [box(content) for content in STRINGS]
    found.append((box(b"ftypisom\0\0\2\0isommp41") + box(b"stco" + bytes(7) + b"\1\0\0\1\x0b")) * PAIRS)
    found.append(b"".join(found[:10]))
    return found


class LargeInputs(unittest.TestCase):
    @classmethod
    def setUpClass(cls):
        cls.program, cls.inputs = built("mp4_boxes"), inputs()

    def compare(self, command, given, wanted):
        ran = subprocess.run([self.program, command], input=given, capture_output=True, check=False)
        if ran.returncode or ran.stderr or ran.stdout != wanted:
            outcome = f"status {ran.returncode}, {ran.stderr}, {len(ran.stdout)} bytes"
            self.fail(f"{command} {given[4:24]} ({len(given)} bytes): {outcome}")

    def test_normal_form(self):
        for given in self.inputs:
            with self.subTest(front=given[4:24], length=len(given)):
                self.compare("normal", given, given)

    def test_list_of_a_table(self):
        self.compare("list", self.inputs[0], b"0 4000016 stco\n")

    def test_list_of_many_boxes(self):
        lines = "".join(f"{44 * i} 24 ftyp\n{44 * i + 24} 20 stco\n" for i in range(PAIRS))
        self.compare("list", self.inputs[-2], lines.encode())

    def test_list_of_headers_of_16_bytes(self):
        # Each box has 17 bytes, so that the parts of 64 KiB that are read end at different bytes of boxes.
        split = "".join(f"{17 * i} 17 free\n" for i in range(PAIRS))
        self.compare("list", (b"\0\0\0\1free" + bytes(7) + b"\x11a") * PAIRS, split.encode())

    def test_list_of_large_boxes(self):
        mdat = box(b"mdat" + LETTERS)
        n = len(mdat)
        lines = f"0 {n} mdat\n{n} {n} mdat\n{2 * n} {n} mdat\n"
        self.compare("list", mdat * 2 + bytes(4) + mdat[4:], lines.encode())


if __name__ == "__main__":
    unittest.main()
