"""`strs`, a box of strings: two that a byte of 0 ends, and between them a name in a field of four bytes. No standard
has it."""

from tests.rows.making import END, NO_END, Box, box, changed, declared, declared_as, invalid, resized

# A string of two bytes, a name of two, and a string of three.
STRS = box(b"strs", b"\x81\x82\0", b"\x02\x83\x84\0", b"\x85\x86\x87\0")


def strings(scheme, name, value):
    return Box("strings", scheme=list(scheme), name=list(name), value=list(value))


VALUE = strings(b"\x81\x82", b"\x83\x84", b"\x85\x86\x87")


def three_strings():
    yield from declared_as(STRS, VALUE)
    yield from declared_as(box(b"strs", bytes(6)), strings(b"", b"", b""))
    yield from declared_as(changed(STRS, {11: 3}), strings(b"\x81\x82", b"\x83\x84\0", b"\x85\x86\x87"))
    yield from declared_as(box(b"strs", b"\x81\0\x03\0\0\0\xff\0"), strings(b"\x81", b"\0\0\0", b"\xff"))


def bytes_after_a_name_are_left_out():
    yield declared(changed(STRS, {14: 0x88}), VALUE, STRS)


def strings_without_an_end():
    for length, size, expected in [
        (10, 10, NO_END),
        (11, 10, NO_END),
        (11, 11, END),
        (14, 11, END),
        (15, 11, NO_END),
        (18, 18, NO_END),
        (19, 18, NO_END),
    ]:
        yield declared(resized(STRS[:length], size), expected)
    yield declared(changed(STRS, {18: 0x88}), NO_END)


def a_name_that_is_longer_than_its_field():
    yield declared(changed(STRS, {11: 4}), invalid("string is longer than its field"))
