"""Makes inputs for test_differential: the worked bytes of the tests, cut, grown, swapped and with other numbers.
`Maker` makes them from the boxes of the codec. `MoreMaker` makes them from those of mp4_extra, also in boxes that hold
boxes."""

import glob
import os
import random
import re

from tests.built import TOP
from tests.readers.extra import MORE
from tests.readers.fronts import ALONE, NUMBERED, SOUND, SOUND_ENTRY, VIDEO, VIDEO_ENTRY
from tests.readers.readers import READERS
from tests.rows import rows

SOURCES = os.path.join(TOP, "crates/*/src/**/*.rt")
CONSTANT = re.compile(r'const \w+: \[u8; (\d+)\] =\s*(?:\*b"((?:[^"\\]|\\.)*)"|\[([^\];]*)\]);', re.S)
ESCAPE = re.compile(rb"\\(?:x(..)|\n\s*|(.))", re.S)
# The length of the longest box of the rows that is used.
MOST = 200
LETTERS = {b"0": b"\0", b"n": b"\n", b"r": b"\r", b"t": b"\t"}
CODES = [name.encode() for name in READERS]
MORE_CODES = [name.encode() for name in MORE]
WITH_VERSIONS = [b"mvhd", b"tkhd", b"mdhd", b"mehd", b"tfdt", b"elst", b"emsg"]
ENTRIES = [b"avc1", b"hev1", b"vp09", b"mp4a", b"tx3g"]
BYTES = [0, 1, 2, 3, 4, 5, 6, 0x1F, 0x7F, 0x80, 0x81, 0xC3, 0xE2, 0xF0, 0xFF]
COUNTS = [0, 1, 2, 3, 4, 5, 2**16, 2**28, 2**29 + 1, 2**30, 2**30 + 1, 2**31 - 1, 2**31, 2**32 - 1]
SIZES = [0, 1, 2, 7, 8, 9, 11, 12, 13, 14, 15, 16, 17, 20, 24, 32, 33, 34, 36, 37, 2**31, 2**32 - 1]
LARGE_SIZES = SIZES + [0, 15, 16, 2**32, 2**63, 2**64 - 25, 2**64 - 17, 2**64 - 16, 2**64 - 9, 2**64 - 8, 2**64 - 1]
# Boxes that hold boxes, with the bytes before the first one.
PARENTS = [(code, bytes(front))
           for codes, front in [(ALONE, 0), ([b"meta"], 0), ([b"meta"], 4), (VIDEO, VIDEO_ENTRY), (SOUND, SOUND_ENTRY)]
           for code in codes]
PARENTS += [(code, bytes(front)) for code, front in NUMBERED.items()]
PARENTS += [(b"iinf", b"\1" + bytes(7))]
PARENTS += [(b"mp4a", bytes(8) + b"\0\1" + bytes(34)), (b"enca", bytes(8) + b"\0\2" + bytes(54))]
POSITIONS = [1, 8, 2**32 - 8, 2**32, 2**63, 2**64 - 16, 2**64 - 9, 2**64 - 8, 2**64 - 1]


def unescaped(text):
    def byte(it):
        return bytes([int(it[1], 16)]) if it[1] else LETTERS.get(it[2], it[2] or b"")

    return ESCAPE.sub(byte, text)


def worked_bytes():
    """Returns the constants of the crates that are a box's bytes, and the boxes of the rows that are written as the
    same bytes. There are some of each type, and of versions 0 and 1 where these differ."""
    found = [row.buffer for _, row in rows() if row.written == row.buffer and len(row.buffer) <= MOST]
    found = [buffer for buffer in found if buffer[4:8] in CODES]
    for path in sorted(glob.glob(SOURCES, recursive=True)):
        with open(path, encoding="utf-8") as file:
            for length, text, numbers in CONSTANT.findall(file.read()):
                box = unescaped(text.encode()) if text else bytes(int(it, 0) for it in re.findall(r"\w+", numbers))
                if len(box) != int(length):
                    raise ValueError(f"{path}: {text or numbers} has {len(box)} bytes")
                if box[4:8] in CODES:
                    found.append(box)
    for code in CODES:
        versions = {box[8] for box in found if box[4:8] == code}
        if not versions or code in WITH_VERSIONS and not versions >= {0, 1}:
            raise ValueError(f"there are no worked bytes of {code} in some version")
    return found


def more_worked_bytes():
    """Returns the boxes of the rows that are read as a box of mp4_extra and written as the same bytes. There are some
    of each type."""
    found = [row.buffer for _, row in rows() if row.declared_written == row.buffer and len(row.buffer) <= MOST]
    found = sorted({buffer for buffer in found if buffer[4:8] in MORE_CODES})
    for code in MORE_CODES:
        if not any(box[4:8] == code for box in found):
            raise ValueError(f"there are no worked bytes of {code}")
    return found


VECTORS = worked_bytes()


def of_name(*names):
    return [box for box in VECTORS if box[4:8] in names]


def headers_of(codes):
    """Returns the pattern that finds the headers of boxes with `codes`."""
    return re.compile(b"(?=....(" + b"|".join(codes) + b"))", re.S)


def by_code(vectors):
    """Returns the worked bytes of each type, since there are many more of some types than of others."""
    found = {}
    for box in vectors:
        found.setdefault(box[4:8], []).append(box)
    return found


def box_of(code, content):
    return (8 + len(content)).to_bytes(4, "big") + code + content


class Maker:
    """A maker of inputs, one after the other. The same seed gives the same inputs."""

    vectors, of_code = VECTORS, by_code(VECTORS)
    codes, headers = CODES, headers_of(CODES)

    def __init__(self, seed):
        self.random = random.Random(seed)
        self.choice = self.random.choice

    def below(self, limit):
        return self.random.randrange(limit)

    def some_bytes(self):
        length = self.choice([1, 1, 2, 3, 4, 8, 16, 40])
        one = self.choice([0, 0, 0xFF, None, None])
        return self.random.randbytes(length) if one is None else bytes([one]) * length

    def some_code(self):
        unknown = self.choice([b"free", b"mdat", self.random.randbytes(4)])
        return self.choice([self.choice(self.codes), self.choice(self.codes), unknown])

    def descriptors(self, depth):
        """Returns some descriptors, with lengths that may be wrong. Most have the tags that are read at `depth`."""
        out = b""
        for _ in range(self.choice([0, 1, 1, 1, 2, 3])):
            tag = self.choice([[3, 3, 3, 4], [4, 4, 6, 5, 7], [5, 5, 5, 4, 9], [0]][depth])
            front = {3: 3, 4: 13, 6: 1}.get(tag, 0)
            front = bytes([self.choice(BYTES) if self.below(4) else self.below(256) for _ in range(front)])
            if tag == 5:
                front = self.configuration()
            inner = front + (self.descriptors(depth + 1) if depth < 3 else b"")
            length = len(inner) if self.below(3) else self.choice([0, 1, 2, 3, 13, len(inner) + 1, 127, 128, 2**28 - 1])
            out += bytes([tag]) + self.length_of(length) + inner
        return out

    def length_of(self, length):
        """Returns the encoding of `length`, that of a descriptor. Some have more bytes than needed, or a high bit in
        the fourth."""
        count = self.choice([max(1, (length.bit_length() + 6) // 7), 4])
        digits = [length >> 7 * place & 127 | 128 for place in reversed(range(count))]
        if count < 4 or self.below(8):
            digits[-1] &= 127
        return bytes(digits)

    def configuration(self):
        """Returns the bytes of an audio configuration of each form, and perhaps too few of them."""
        bits = self.random.getrandbits(16) | self.choice([0, 0xF800, 0x0780, 0xF81E])
        return bits.to_bytes(2, "big") + self.random.randbytes(self.choice([0, 1, 3, 4, 5]))

    def worked(self, maker):
        """Returns the worked bytes of a box, of any of the types of `maker`."""
        return self.choice(maker.of_code[self.choice(maker.codes)])

    def nested(self):
        """Returns a box with children or descriptors of several kinds."""
        kind = self.below(4)
        if kind == 0:
            return box_of(b"stsd", self.choice(of_name(b"stsd"))[8:16] + self.mutated(self.choice(of_name(*ENTRIES))))
        if kind == 1:
            return box_of(b"esds", self.random.randbytes(4) + self.descriptors(0))
        pieces = [self.choice(of_name(b"url ", b"dref")) for _ in range(self.below(4))]
        pieces = b"".join(self.mutated(it) if self.below(3) == 0 else it for it in pieces)
        if kind == 2:
            count = self.choice([0, 1, 2, 3, 4, 2**32 - 1])
            return box_of(b"dref", self.random.randbytes(4) + count.to_bytes(4, "big") + pieces)
        return box_of(b"dinf", pieces)

    def size_near(self, length):
        near = self.choice([length, length - 1, length + 1, length + 8, self.below(length + 17)])
        return self.choice([near, near, near, self.choice(SIZES)]) % 2**32

    def large_header(self, box, at):
        """Returns `box` with a header of 16 bytes instead of the one at offset `at`."""
        size = int.from_bytes(box[at:at + 4], "big")
        size = self.choice([size + 8, size + 8, size + 7, size, self.choice(LARGE_SIZES)])
        if at > 0 and self.below(2):
            box = self.fitted(box, 8)
            size = self.choice([size, 2**64 - 1 - at])
        return box[:at] + b"\0\0\0\1" + box[at + 4:at + 8] + (size % 2**64).to_bytes(8, "big") + box[at + 8:]

    def fitted(self, box, more=0):
        """Returns `box` with the number of its bytes, plus `more`, as its size."""
        return (len(box) + more).to_bytes(4, "big") + box[4:]

    def mutated(self, box):
        """Returns `box` with one change."""
        if len(box) < 16:
            return box + self.some_bytes()
        at, kind = self.below(len(box)), self.below(12)
        header = self.choice([it.start() for it in self.headers.finditer(box)] or [0])
        if kind == 0:
            return box[:at]
        if kind == 1:
            return box + self.choice([self.some_bytes(), self.choice(self.vectors)])
        if kind == 2:
            return box[:at] + self.some_bytes() + box[at:]
        if kind == 3:
            return box[:at] + box[at + self.choice([1, 2, 4, 8, 16]):]
        if kind == 4:
            first, second = sorted([at, self.below(len(box))])
            n = min(self.choice([1, 2, 4, 8]), second - first)
            front = box[:first] + box[second:second + n]
            return front + box[first + n:second] + box[first:first + n] + box[second + n:]
        if kind in (5, 6):
            return box[:at] + bytes([self.choice([self.choice(BYTES), self.below(256)])]) + box[at + 1:]
        if kind == 7:
            return box[:header] + self.size_near(len(box) - header).to_bytes(4, "big") + box[header + 4:]
        if kind == 8:
            return self.large_header(box, header)
        if kind == 9:
            at = header + self.choice([8, 12, 12, 12, 16, 16, 20])
            return box[:at] + self.choice([self.choice(COUNTS), self.below(8)]).to_bytes(4, "big") + box[at + 4:]
        if kind == 10:
            number = self.choice([0, 0, 1, 1, 2, 0xFF]) << 24 | self.random.getrandbits(self.choice([0, 6, 12, 12, 24]))
            return box[:header + 8] + number.to_bytes(4, "big") + box[header + 12:]
        return box[:header + 4] + self.some_code() + box[header + 8:]

    def boxes(self):
        """Returns one box, or several one after the other."""
        out = b""
        for _ in range(self.choice([1, 1, 1, 1, 1, 2, 3])):
            box = self.worked(self) if self.below(5) else self.nested()
            for _ in range(self.choice([0, 1, 1, 1, 2, 3])):
                box = self.mutated(box)
            if self.below(4) and len(box) > 8 and box[:4] != b"\0\0\0\1":
                box = self.fitted(box)
            out += box if self.below(16) else box_of(self.some_code(), box)
        return out

    def input(self):
        """Returns a position and the bytes of a buffer. Most boxes are at the front of the buffer."""
        buffer = self.boxes()
        if self.below(10):
            return 0, buffer
        front = self.some_bytes()
        other = self.choice([self.below(len(buffer) + 9), self.choice(POSITIONS)])
        return self.choice([len(front), other]), front + buffer


class MoreMaker(Maker):
    """A maker of inputs from the boxes of mp4_extra. It changes counts at the offsets that these boxes have, and puts
    the boxes into boxes that hold boxes."""

    vectors = more_worked_bytes()
    of_code = by_code(vectors)
    codes, headers = MORE_CODES, headers_of(CODES + MORE_CODES)

    def nested(self, depth=0):
        """Returns a box that holds boxes, some of them of the codec, and some that hold boxes themselves. It may also
        return a box of the codec."""
        if depth == 0 and self.below(2):
            return self.worked(Maker)
        code, front = self.choice(PARENTS)
        boxes = []
        for _ in range(self.choice([0, 1, 1, 2, 3])):
            box = self.worked(self if self.below(3) else Maker)
            if depth < 10 and self.below(2):
                box = self.nested(depth + 1)
            boxes.append(self.mutated(box) if self.below(5) == 0 else box)
        front = self.choice([front, front, front, self.random.randbytes(len(front)), self.some_bytes()])
        box = box_of(code, front + b"".join(boxes))
        for _ in range(self.choice([0, 0, 4, 8, 9, 10]) if depth == 0 else 0):
            code, front = self.choice(PARENTS)
            box = box_of(code, front + box)
        return box

    def mutated(self, box):
        """Returns `box` with one change, also of a count or a size that only these boxes have."""
        if self.below(8) or len(box) < 32:
            return super().mutated(box)
        at = self.choice([10, 14, 17, 18, 20, 24, 28, 30])  # the low bytes of counts and sizes
        return box[:at] + self.choice([self.choice(COUNTS), self.below(8)]).to_bytes(4, "big")[-2:] + box[at + 2:]

    def input(self):
        """Returns a position and the bytes of a buffer. A few boxes end at the largest number, or past it, and so are
        not at the front of the buffer."""
        if self.below(100):
            return super().input()
        front, box = self.some_bytes(), self.worked(self)
        size = 2**64 - self.choice([0, 1, 2, self.below(2 * len(front))]) - self.choice([0, len(front)])
        return len(front), front + b"\0\0\0\1" + box[4:8] + min(size, 2**64 - 1).to_bytes(8, "big") + box[8:]
