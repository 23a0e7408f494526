"""`rang`, a box with a check: the first number is at most the second. No standard has it."""

from tests.rows.making import END, Box, box, declared, declared_as, invalid, u16

EMPTY = box(b"rang", u16(0x8182, 0x8181))


def a_range_without_its_mark():
    yield from declared_as(box(b"rang", u16(0x8182, 0x8384)), Box("range", least=0x8182, most=0x8384, mark=0))
    yield from declared_as(box(b"rang", u16(2, 2)), Box("range", least=2, most=2, mark=0))


def an_empty_range_is_refused_after_other_faults():
    yield declared(EMPTY[:11], END)
    yield declared(EMPTY, invalid("range is empty"))
