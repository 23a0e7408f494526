"""The parts of rows: bytes of boxes, and what is expected of them."""

import collections

from tests.readers.headers import Fault, Header

# The largest size of a box at the front of a buffer: its header has 16 bytes, and the box ends at 2^64 - 1.
LARGEST = 2**64 - 9

END = ("End",)
NO_DREF = ("NotFound", "dref")

# The bytes of a buffer and a position, and what is expected there. A value of None isn't compared.
#
# - `box` and `boxes`: the outcome as one box and as a list of boxes, each with the position of the cursor.
# - `written`: the bytes that the list is written in.
# - `kept_box`, `kept_boxes` and `kept_written`: these three for boxes that are kept.
# - `declared` and `declared_written`: the outcome as one declared box, and the bytes that it is written in.
# - `trees`: the bytes that the list is written in if it is read as trees.
# - `headers`: the number of headers of descriptors that are read.
# - `places`: the places of the boxes, with the position of the cursor.
# - `fields`: the fields in JSON of the one box, or of the last box inside it, by their names and in their order in the
#   syntax of the standard.
FIELDS = """buffer at box boxes written kept_box kept_boxes kept_written declared declared_written trees headers places
    fields"""
Row = collections.namedtuple("Row", FIELDS, defaults=[0, *[None] * 12])


class Box(dict):
    """An expected box: its code, and its fields by their names in the struct."""

    def __init__(self, code, /, **fields):
        super().__init__(fields)
        self.code = code


def outcome(expected):
    """Returns `expected`, values or a fault, in the form that `outcome_of` finds."""
    if isinstance(expected, list):
        return [outcome(box) for box in expected]
    return (expected.code, dict(expected)) if isinstance(expected, Box) else expected


def invalid(text):
    """Returns the fault of invalid data with the text `text`."""
    return ("Invalid", text)


TOO_SMALL = invalid("box size too small")
LARGE_TOO_SMALL = invalid("64-bit box size too small")
PAST_64_BITS = invalid("box end past 64 bits")
WRONG_VERSION = invalid("version must be 0 or 1")
NO_VERSION_1 = invalid("version must be 0")
TOO_MANY_ENTRIES = invalid("count indicates more entries than could fit in the box")
TOO_MANY_BYTES = invalid("count indicates more bytes than could fit in the box")
NOT_FILLED = invalid("entries do not fill the box")
WRONG_SIZE = invalid("size of an entry is too small or too large")
NO_END = invalid("string has no end in the box")
CHILD_TOO_SMALL = invalid("child box too small")
NOT_UTF8 = invalid("invalid utf8")


def larger_child(name):
    """Returns the fault of a child that is larger than its box."""
    return invalid(name + " box contains a box with a larger size than it")


def too_many(name, count="entry_count", rows="entries"):
    """Returns the fault of a count of more rows than the box has room for."""
    return invalid(f"{name} {count} indicates more {rows} than could fit in the box")


def cursor(buffer, at, expected):
    """Returns the position of the cursor after reading the box whose header is at `at`: the end of the box after a
    value, the end of the header after a fault, and `at` after a fault of the header."""
    try:
        header = Header(buffer, at)
    except Fault:
        return at
    return header.start + (8 if isinstance(expected, tuple) else header.size)


def one(buffer, expected, after=None, at=0, headers=None):
    """Expects that the box whose header is at `at` is read as the value `expected` or has this fault, and is kept as
    the same."""
    position = cursor(buffer, at, expected) if after is None else after
    found = outcome(expected), position
    return Row(buffer, at, box=found, kept_box=found, headers=headers)


def listed(buffer, expected, kept_as=None):
    """Expects that the list of the boxes of `buffer` is read as the values `expected` or has this fault. It is kept as
    the same, or as the values `kept_as`."""
    found = outcome(expected), 0 if isinstance(expected, tuple) else len(buffer)
    return Row(buffer, boxes=found, kept_boxes=found if kept_as is None else (outcome(kept_as), len(buffer)))


def placed(buffer, expected, at=0):
    """Expects that the boxes of `buffer` after `at` have the places `expected`, each an offset, a length and a printed
    code."""
    return Row(buffer, at, places=(expected, max(at, len(buffer))))


def refused(buffer, fault, at=0):
    """Expects that the boxes of `buffer` after `at` have the fault `fault`, whether they are read, kept or listed."""
    found = fault, at
    return Row(buffer, at, boxes=found, kept_boxes=found, places=found)


def list_written_as(buffer, values, written, at=0):
    """Expects that the list of the boxes of `buffer` after `at` is read as `values`, and written as the bytes
    `written`."""
    return Row(buffer, at, boxes=(outcome(values), max(at, len(buffer))), written=written)


def written_as(buffer, value, written):
    """Expects that `buffer`, of one box, is read as `value`, by itself and as a list. The list is written as the bytes
    `written`, and is kept as the same."""
    found = outcome(value), cursor(buffer, 0, value)
    of_list = [outcome(value)], len(buffer)
    return Row(buffer, 0, found, of_list, written, found, of_list, written)


def round_trip(buffer, value):
    """Expects that `buffer`, of one box, is read as `value`, by itself and as a list, and that the list is written as
    the same bytes."""
    return written_as(buffer, value, buffer)


def kept(buffer, expected, at=0):
    """Expects that the box whose header is at `at` has no known type, and is kept as the value `expected` or has this
    fault."""
    position = cursor(buffer, at, expected)
    after_header = cursor(buffer, at, END)
    return Row(buffer, at, box=(None, after_header), kept_box=(outcome(expected), position))


def kept_list(buffer, expected, written=None):
    """Expects that the boxes of `buffer` are kept as the values `expected`, and written as the bytes `written`, or have
    this fault."""
    found = outcome(expected), 0 if isinstance(expected, tuple) else len(buffer)
    return Row(buffer, kept_boxes=found, kept_written=written)


def declared(buffer, expected, written=None):
    """Expects that the box of `buffer`, whose type is declared, is read as the value `expected` or has this fault, and
    is written as the bytes `written`."""
    found = outcome(expected), cursor(buffer, 0, expected)
    return Row(buffer, declared=found, declared_written=written)


def declared_as(buffer, value):
    """Expects that the box of `buffer`, whose type is declared, is read as `value`, and is written as the same bytes.
    Wherever the bytes are cut after the header, the outcome is end of input."""
    yield declared(buffer, value, buffer)
    for length in range(8, len(buffer)):
        yield declared(buffer[:length], END)


def fields(buffer, **of_box):
    """Expects that the fields `of_box`, in this order, are shown of the box of `buffer`, or of the last box inside it.
    Pass a name that Python can't write as an argument in a dictionary: `**{"class": 1}`."""
    return Row(buffer, fields=of_box)


def count_and_bytes(code, count, rest):
    """Expects a full box with the fields `count` and `rest`, a count and the bytes up to its end. Expects it without
    these bytes too. The bytes count up from 0x81, after the version."""
    whole = box(code, b"\0", counting(0x81, 0x93))

    def value(bytes_left):
        fields = {count: 0x84858687, rest: list(bytes_left)}
        return Box(code.decode(), version=0, flags=0x818283, **fields)

    yield from declared_as(whole, value(counting(0x88, 0x93)))
    yield from declared_as(box(code, whole[8:16]), value(b""))
    yield declared(changed(whole, {8: 1}), NO_VERSION_1)


def cuts(buffer):
    """Expects end of input wherever `buffer` is cut."""
    for length in range(len(buffer)):
        yield one(buffer[:length], END)


def any_size(buffer, value):
    """Expects that `value` is read with any size: 0, 7, its own, and the largest."""
    for size in (0, 7, len(buffer), LARGEST):
        yield one(resized(buffer, size), value)


def versions_above_1(buffer):
    """Expects that every version above 1 is invalid data."""
    for version in range(2, 256):
        yield one(changed(buffer, {8: version}), WRONG_VERSION)


def one_row_short(buffer, value, length, fault, read=one):
    """Expects the fault of a table that is one row of `length` bytes short: by a byte, by three, and by the whole row.
    A buffer that is too short is end of input, and a size that is too small is `fault`. A larger size has no effect:
    the table is read."""
    size = len(buffer)
    for part in (1, 3, length):
        yield read(buffer[:-part], END)
        yield read(resized(buffer, size - part), fault)
        yield read(resized(buffer, size + part), value)


def large_count(name, *numbers, version=0, flags=0, fault=None):
    """Expects that a count of 2^32 - 1 after `numbers` is invalid data if the size has no room for all rows, and
    otherwise end of input. The rows have no bytes, or too few."""
    head = u32(*numbers, 2**32 - 1)
    for content in (head, head.ljust(88, b"\0")):
        for size, expected in [(100, fault or too_many(name)), (2**32 - 1, fault or too_many(name)), (LARGEST, END)]:
            yield one(full(name.encode(), content, version=version, flags=flags, size=size), expected)


def counting(first, last):
    """Returns the bytes from `first` to `last`, each one more than the one before it."""
    return bytes(range(first, last + 1))


def u8(*numbers):
    return bytes(numbers)


def u16(*numbers):
    return b"".join(number.to_bytes(2, "big") for number in numbers)


def u24(number):
    return number.to_bytes(3, "big")


def u32(*numbers):
    return b"".join(number.to_bytes(4, "big") for number in numbers)


def u64(*numbers):
    return b"".join(number.to_bytes(8, "big") for number in numbers)


def box(code, *contents, size=None):
    """Returns a box with the size `size`, or with the number of its bytes if that is None. A size that 32 bits can't
    hold is in a header of 16 bytes."""
    content = b"".join(contents)
    size = 8 + len(content) if size is None else size
    if size > 2**32 - 1:
        return large(code, content, number=size + 8)
    if size == 1:
        raise ValueError("no header says a size of 1")
    return u32(size) + code + content


def large(code, *contents, number=None):
    """Returns a box with a header of 16 bytes and `number` in it, or the number of its bytes if that is None."""
    content = b"".join(contents)
    return u32(1) + code + u64(16 + len(content) if number is None else number) + content


def full(code, *contents, version=0, flags=0, size=None):
    """Returns a box with version and flags, and the size `size`."""
    return box(code, u8(version), u24(flags), *contents, size=size)


def resized(bytes_of_a_box, size):
    """Returns the bytes of a box with a header of 8 bytes, with the size `size` instead of its own."""
    return box(bytes_of_a_box[4:8], bytes_of_a_box[8:], size=size)


def changed(buffer, places):
    """Returns `buffer` with other bytes at some places, such as `{15: 7}`."""
    out = bytearray(buffer)
    for place, byte in places.items():
        out[place] = byte
    return bytes(out)


def filled(buffer, byte, *places):
    """Returns `buffer` with `byte` at the places of some ranges, such as `range(8, 14)`."""
    return changed(buffer, {place: byte for among in places for place in among})
