"""`data`, a value of metadata: the codec's own box, which has four types, and the declared one, which has all. Its
bytes count up from 0x81."""

from tests.rows.making import (
    END, TOO_SMALL, Box, box, counting, declared_as, fields, filled, invalid, listed, one, resized, round_trip, u8, u16,
    u24, u32, written_as,
)
from tests.rows.values import DATA, data

INVALID_TYPE = invalid("invalid data type")


def counted_bytes(number):
    return box(b"data", u32(number, 0), counting(0x81, 0x83))


def every_type():
    for data_type, number in [("Binary", 0), ("Text", 1), ("Image", 13), ("TempoCpil", 21)]:
        yield round_trip(counted_bytes(number), data(data_type, counting(0x81, 0x83)))


def reserved_bytes_are_ignored():
    counted = counted_bytes(21)
    yield written_as(filled(counted, 0xFF, range(12, 16)), data("TempoCpil", counting(0x81, 0x83)), counted)


def few_bytes():
    yield one(box(b"data", u32(2), size=16), INVALID_TYPE)
    yield one(box(b"data", u32(1), size=16), END)
    yield one(box(b"data", u32(1, 0), size=12), TOO_SMALL)
    yield one(resized(DATA, 16), data("Text", b""))


def text_of_another_type():
    yield listed(box(b"data", u32(9, 0)), INVALID_TYPE)


UNKNOWN = invalid("invalid data type")
TYPES = {0: "Binary", 1: "Text", 13: "Image", 21: "TempoCpil"}


def data_type_has_32_bits():
    """A type of the table with one more bit set is unknown, and so is the number of a type in other bytes."""
    for number, name in TYPES.items():
        yield one(box(b"data", u32(number, 0)), data(name, b""))
        for bit in range(8, 32):
            yield one(box(b"data", u32(number | 1 << bit, 0)), UNKNOWN)
        for shift in (8, 16, 24):
            if number:
                yield one(box(b"data", u32(number << shift, 0)), UNKNOWN)
    yield one(box(b"data", u32(0x01000001, 0)), UNKNOWN)
    yield one(box(b"data", u32(0x0100000D, 0)), UNKNOWN)


def every_other_type_of_a_byte_is_unknown():
    for number in range(256):
        if number not in TYPES:
            yield one(box(b"data", u32(number, 0)), UNKNOWN)


def reserved_bytes_come_before_the_size():
    for size in (8, 11, 12, 15):
        for length in range(8):
            yield one(box(b"data", u32(1, 0)[:length], size=size), END)
        yield one(box(b"data", u32(1, 0), size=size), TOO_SMALL)


def type_comes_before_the_reserved_bytes():
    for size in (8, 12, 15, 16):
        yield one(box(b"data", u32(2), size=size), UNKNOWN)
        yield one(box(b"data", u32(2)[:3], size=size), END)


def declared_of_any_type():
    fields = {"type_set": 0x81, "data_type": 0x828384, "country": 0x8586, "language": 0x8788}
    for value in (counting(0x89, 0x8B), b""):
        yield from declared_as(box(b"data", counting(0x81, 0x88), value), Box("data", **fields, value=list(value)))


def fields_of_texts():
    """QuickTime File Format, "Value atom"."""
    # Has the letters of `eng` as 00101 01110 00111, which is 0x15c7.
    yield fields(box(b"data", u8(0), u24(1), b"US", u16(0x15C7), b"\xc3\xa9"), data_type=1, data_type_name="text",
                 country="US", language="eng", text="é")
    yield fields(box(b"data", u8(0), u24(1), u16(3, 255), b"a\xff"), data_type=1, data_type_name="text", country=3,
                 language=255, text="a\ufffd", text_hex="61ff")
    yield fields(box(b"data", u8(0), u24(13), u16(0, 0), b"\xff\xd8"), data_type=13, data_type_name="JPEG",
                 data_bytes="ffd8")


def fields_of_numbers():
    """QuickTime File Format, "Value atom"."""
    yield fields(box(b"data", u8(0), u24(21), u16(0, 0), b"\xff\x38"), data_type=21, data_type_name="signed integer",
                 number=-200)
    yield fields(box(b"data", u8(0), u24(21), u16(0, 0), b"\x00\x07"), data_type=21, data_type_name="signed integer",
                 number=7, number_hex="0007")
    yield fields(box(b"data", u8(0), u24(22), u16(0, 0), b"\x80\x00\x00\x01"), data_type=22,
                 data_type_name="unsigned integer", number=2147483649)
    yield fields(box(b"data", u8(4), u24(21), u16(0, 0), b"\x05"), type_set=4, data_type=21, data_bytes="05")
    yield fields(box(b"data", u8(0), u24(21), u16(0, 0), b"\x01\x02\x03"), data_type=21,
                 data_type_name="signed integer", data_bytes="010203")


def fields_of_own_types():
    """QuickTime File Format, "Data atom"."""
    yield fields(box(b"data", u32(0, 0), u8(1, 2)), data_type=0, data_type_name="binary", data_bytes="0102")
    yield fields(box(b"data", u32(1, 0), b"abc"), data_type=1, data_type_name="text", text="abc")
    yield fields(box(b"data", u32(13, 0), u8(3, 4)), data_type=13, data_type_name="JPEG", data_bytes="0304")
    # Shows the two bytes too, since one byte is enough for the number.
    yield fields(box(b"data", u32(21, 0), u8(0xFF, 0xFE)), data_type=21, data_type_name="signed integer", number=-2,
                 number_hex="fffe")
    yield fields(box(b"data", u32(21, 0), u8(0, 1, 2)), data_type=21, data_type_name="signed integer",
                 data_bytes="000102")
