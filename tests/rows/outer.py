"""`outr`, a box with a box `innr` among its fields. No standard has them."""

from tests.rows.making import (
    END, TOO_MANY_BYTES, Box, box, changed, counting, declared, declared_as, invalid, large, resized, u16,
)

OTHER_TYPE = invalid("box of another type than the child's")
LARGER = invalid("child box larger than the box around it")
LONGER = invalid("child box does not end with its fields")

INNER = box(b"innr", b"\x03", counting(0x82, 0x86))
WHOLE = box(b"outr", b"\x81", INNER, u16(0x8788))


def outr(name, number, last=0x8788):
    inner = "inner", {"name": list(name), "number": number}
    return Box("outer", first=0x81, inner=inner, last=last)


def box_among_fields():
    yield from declared_as(WHOLE, outr(b"\x82\x83\x84", 0x8586))
    yield from declared_as(box(b"outr", b"\x81", box(b"innr", b"\0\x82\x83"), u16(0x8788)), outr(b"", 0x8283))
    longest = box(b"innr", b"\xff", b"\x84" * 255, u16(0x8586))
    yield declared(box(b"outr", b"\x81", longest, u16(0x8788)), outr(b"\x84" * 255, 0x8586))


def child_of_another_type():
    yield declared(changed(WHOLE, {16: 0x73}), OTHER_TYPE)
    # The type comes before the size.
    yield declared(changed(WHOLE, {12: 0xFF, 16: 0x73}), OTHER_TYPE)
    yield declared(changed(WHOLE, {16: 0x73})[:16], END)


def child_with_another_size():
    # The fields end before the box does, or after it.
    yield declared(box(b"outr", b"\x81", box(b"innr", b"\x02", counting(0x82, 0x86)), u16(0x8788)), LONGER)
    yield declared(box(b"outr", b"\x81", box(b"innr", b"\x04", counting(0x82, 0x86)), u16(0x8788)), END)
    yield declared(box(b"outr", b"\x81", box(b"innr", b"\x06", counting(0x82, 0x86)), u16(0x8788)), TOO_MANY_BYTES)
    for size in (0, 1, 7, 8):
        yield declared(changed(WHOLE, {12: size}), END)
    # The child is longer, and includes bytes after it.
    yield declared(changed(WHOLE, {12: 15}), LONGER)
    yield declared(changed(WHOLE, {12: 16}), LONGER)


def child_that_is_larger_than_the_box():
    yield declared(changed(WHOLE, {12: 17}), LARGER)
    yield declared(resized(WHOLE, 22), LARGER)
    yield declared(resized(WHOLE, 23), outr(b"\x82\x83\x84", 0x8586), WHOLE)
    yield declared(resized(WHOLE, 26), outr(b"\x82\x83\x84", 0x8586), WHOLE)
    yield declared(changed(resized(WHOLE, 2**32 - 1), {9: 0xFF}), END)


def child_with_a_header_of_16_bytes():
    yield declared(box(b"outr", b"\x81", large(b"innr", b"\0", u16(1)), u16(0x8788)), END)
