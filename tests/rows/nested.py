"""`nest`, a box of entries that have shapes, and entries in them, with times whose width the version
decides. No standard has it."""

from tests.rows.making import (
    END, TOO_MANY_BYTES, WRONG_VERSION, Box, box, changed, counting, declared, declared_as, resized, u16, u32, u64,
)

# Three groups: of three moments, of none, and of one.
FRONT = b"\0\x81\x82\x83"
NARROW = box(
    b"nest", FRONT, u32(3),
    b"\x02\x84\x85", u16(3), b"\x86", counting(0x87, 0x8A), b"\x8b", counting(0x8C, 0x8F),
    b"\x90", counting(0x91, 0x94),
    b"\x01\x95", u16(0),
    b"\0", u16(1), b"\x96", counting(0x97, 0x9A),
    b"\x9b",
)
# These groups in version 1, with times of eight bytes.
WIDE = box(
    b"nest", b"\x01", FRONT[1:], u32(3),
    b"\x02\x84\x85", u16(3), b"\x86", counting(0x87, 0x8E), b"\x8f", counting(0x90, 0x97),
    b"\x98", counting(0x99, 0xA0),
    b"\x01\xa1", u16(0),
    b"\0", u16(1), b"\xa2", counting(0xA3, 0xAA),
    b"\xab",
)


def group(name, *moments):
    return {"name": list(name), "moments": [{"kind": kind, "time": time} for kind, time in moments]}


def nested(version, groups, last):
    return Box("nested", version=version, flags=0x818283, groups=groups, last=last)


GROUPS = [
    group(b"\x84\x85", (0x86, 0x8788898A), (0x8B, 0x8C8D8E8F), (0x90, 0x91929394)), group(b"\x95"),
    group(b"", (0x96, 0x9798999A)),
]
VALUE = nested(0, GROUPS, 0x9B)


def groups_of_moments():
    yield from declared_as(NARROW, VALUE)
    groups = [
        group(b"\x84\x85", (0x86, 0x8788898A8B8C8D8E), (0x8F, 0x9091929394959697), (0x98, 0x999A9B9C9D9E9FA0)),
        group(b"\xa1"), group(b"", (0xA2, 0xA3A4A5A6A7A8A9AA)),
    ]
    yield from declared_as(WIDE, nested(1, groups, 0xAB))
    yield from declared_as(box(b"nest", FRONT, u32(0), b"\x84"), nested(0, [], 0x84))


def another_version():
    yield declared(changed(NARROW, {8: 2}), WRONG_VERSION)
    # With times of eight bytes, what was the last byte is the length of the second group's name.
    yield declared(changed(NARROW, {8: 1}), TOO_MANY_BYTES)


def counts_of_one_more():
    """The bytes after the entries are read as one more entry."""
    for places, expected in [
        ({15: 4}, TOO_MANY_BYTES),
        ({15: 4, 48: 0}, END),
        ({16: 3}, END),
        ({20: 4}, END),
        ({39: 1}, TOO_MANY_BYTES),
        ({42: 2}, END),
    ]:
        yield declared(changed(NARROW, places), expected)


def counts_of_fewer():
    """The bytes after the counted entries are read as what follows the entries. Bytes that are left aren't written."""
    two = nested(0, GROUPS[:2], 0)
    yield declared(changed(NARROW, {15: 2}), two, box(b"nest", FRONT, u32(2), NARROW[16:41]))
    yield declared(changed(NARROW, {15: 0}), nested(0, [], 2), box(b"nest", FRONT, u32(0), b"\x02"))
    yield declared(changed(NARROW, {16: 1}), END)
    yield declared(changed(NARROW, {20: 2}), TOO_MANY_BYTES)
    none = changed(NARROW, {42: 0})
    yield declared(none, nested(0, [*GROUPS[:2], group(b"")], 0x96), box(b"nest", none[8:44]))


def counts_that_no_bytes_are_there_for():
    """Entries are read one after the other, however many are counted."""
    yield declared(changed(NARROW, {12: 0xFF, 13: 0xFF, 14: 0xFF, 15: 0xFF}), TOO_MANY_BYTES)
    yield declared(box(b"nest", FRONT, u32(2**32 - 1)), END)
    yield declared(box(b"nest", FRONT, u32(1), b"\0", u16(65535), b"\x84" * 10), END)


def sizes():
    """The names have to be in the box. Other parts are read even past its end."""
    for size, expected in [
        (17, TOO_MANY_BYTES), (18, TOO_MANY_BYTES), (37, TOO_MANY_BYTES), (38, VALUE), (48, VALUE), (50, VALUE),
    ]:
        yield declared(resized(NARROW, size), expected, NARROW if expected is VALUE else None)


def many_entries():
    """One row has a thousand moments, and another has a group for each number of one byte."""
    moments = [(number % 256, number * 65537) for number in range(1000)]
    many = b"".join(bytes([kind]) + u32(time) for kind, time in moments)
    whole = box(b"nest", FRONT, u32(1), b"\0", u16(1000), many, b"\x84")
    yield declared(whole, nested(0, [group(b"", *moments)], 0x84), whole)
    groups = b"".join(bytes([1, number]) + u16(0) for number in range(256))
    whole = box(b"nest", FRONT, u32(256), groups, b"\x84")
    yield declared(whole, nested(0, [group(bytes([number])) for number in range(256)], 0x84), whole)


def largest_times():
    wide = box(b"nest", b"\x01", FRONT[1:], u32(1), b"\0", u16(1), b"\xff", u64(2**64 - 1), b"\x84")
    yield declared(wide, nested(1, [group(b"", (0xFF, 2**64 - 1))], 0x84), wide)
