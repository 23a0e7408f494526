"""`opts`, a box with fields that are present under some flags: 0x000001, and one of 0x000002 and 0x800000. No standard
has it."""

from tests.rows.making import END, NO_VERSION_1, Box, box, changed, counting, declared, declared_as

BOTH = box(b"opts", b"\0\0\0\x03", counting(0x81, 0x87))


def options(flags, size, kind, last):
    return Box("options", version=0, flags=flags, size=size, kind=kind, last=last)


def fields_under_flags():
    # All flags except those that the fields need.
    none = box(b"opts", b"\0\x7f\xff\xfc\x81")
    yield from declared_as(none, options(0x7FFFFC, None, None, 0x81))
    size = box(b"opts", b"\0\0\0\x01", counting(0x81, 0x85))
    yield from declared_as(size, options(1, 0x81828384, None, 0x85))
    kind = box(b"opts", b"\0\x80\0\0", counting(0x81, 0x83))
    yield from declared_as(kind, options(0x800000, None, 0x8182, 0x83))
    other_flag = box(b"opts", b"\0\0\0\x02", b"\0\x07\0")
    yield from declared_as(other_flag, options(2, None, 7, 0))
    yield from declared_as(BOTH, options(3, 0x81828384, 0x8586, 0x87))


def version_1():
    second = changed(BOTH, {8: 1})
    yield declared(second[:11], END)
    yield declared(second[:12], NO_VERSION_1)
