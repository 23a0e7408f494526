"""`hdlr`, the handler of a media. The bytes of the fields count up from 0x81, except the name. The codec's own box has
the type and the name as a text. The declared one has all bytes."""

from tests.rows.making import (
    END, Box, box, changed, counting, declared, declared_as, fields, filled, full, invalid, listed, one, resized,
    round_trip, u32, written_as,
)
from tests.rows.utf8 import CHARACTERS, OTHER_BYTES
from tests.rows.values import HDLR, full_box, hdlr

NAME = "B\u00e4nd"
NAME_BYTES = b"B\xc3\xa4nd\0"


def counted_bytes(name):
    return box(b"hdlr", counting(0x81, 0x84), bytes(4), counting(0x85, 0x88), bytes(12), name)


def counted(name):
    return full_box("hdlr", 0x81, 0x828384, handler_type=0x85868788, name=name)


COUNTED, COUNTED_VALUE = counted_bytes(NAME_BYTES), counted(NAME)
TOO_SMALL = invalid("hdlr size too small")


def every_field():
    yield round_trip(COUNTED, COUNTED_VALUE)


def reserved_bytes_and_the_last_are_ignored():
    others = filled(COUNTED, 0xFF, range(12, 16), range(20, 32), range(37, 38))
    yield written_as(others, COUNTED_VALUE, COUNTED)


def name_that_is_not_utf8():
    yield written_as(changed(COUNTED, {34: 0xFF}), counted("null"), counted_bytes(b"null\0"))
    given = full(b"hdlr", bytes(20), b"\xff\0")
    yield written_as(given, hdlr(name="null"), full(b"hdlr", bytes(20), b"null\0"))
    front = u32(0) + b"vide" + bytes(12)
    written = full(b"hdlr", front, b"null\0")
    yield written_as(full(b"hdlr", front, b"\xff\0"), hdlr(b"vide", "null"), written)
    yield round_trip(written, hdlr(b"vide", "null"))


def hdlr_bytes(name):
    """Returns an `hdlr` whose name is the bytes `name`. The byte after the name is not present."""
    return box(b"hdlr", HDLR[8:32], name, size=33 + len(name))


def characters_of_names():
    for given, text in CHARACTERS:
        yield one(hdlr_bytes(given), hdlr(b"vide", text))


def other_bytes_of_names():
    for given in OTHER_BYTES:
        yield one(hdlr_bytes(given), hdlr(b"vide", "null"))


def few_bytes():
    short = full(b"hdlr", u32(0), b"vide")
    for buffer, size, expected in [
        (short, 32, TOO_SMALL),
        (short[:18], 32, END),
        (short, 33, hdlr(b"vide")),
        (short[:19], 33, END),
        (short, 34, END),
    ]:
        yield one(resized(buffer, size), expected)
    # In a list the box needs all of its bytes.
    yield listed(resized(short, 33), END)


def text_of_a_size_without_a_name():
    yield listed(full(b"hdlr", u32(0), b"vide", bytes(12)), TOO_SMALL)


def fields_of_a_name_in_quotes():
    """ISO/IEC 14496-12, 8.4.3."""
    yield fields(
        full(b"hdlr", u32(0), b"vide", bytes(12), b'a "b"\0', version=1, flags=2),
        version=1, flags=2, handler_type="vide", name='a "b"',
    )


WHOLE = box(b"hdlr", counting(0x81, 0x9B))


def whole(name):
    return Box(
        "hdlr", version=0x81, flags=0x828384, component_type=0x85868788, handler_type=0x898A8B8C,
        component_manufacturer=0x8D8E8F90, component_flags=0x91929394, component_flags_mask=0x95969798,
        name=list(name),
    )


def declared_with_every_field():
    yield from declared_as(WHOLE, whole(counting(0x99, 0x9B)))


def declared_with_any_name():
    """It is kept as it is: with an end or a count, with both, or with none."""
    for name in (b"\0", b"ab\0", b"ab", b"\2ab", b"\2ab\0", b"\3ab\0", b"\4ab", b"a\0b\0\0", b"\xff"):
        yield from declared_as(box(b"hdlr", counting(0x81, 0x98), name), whole(name))


def declared_with_other_sizes():
    yield declared(resized(WHOLE, 34), whole(counting(0x99, 0x9A)), resized(WHOLE[:-1], 34))
    yield declared(resized(WHOLE, 33), whole(b"\x99"), resized(WHOLE[:-2], 33))
    yield declared(resized(WHOLE, 36), END)


def declared_without_a_name():
    """The standard has at least the byte of 0 that ends the name (ISO/IEC 14496-12, 8.4.3), and QuickTime its count
    (QuickTime File Format, "Handler reference atoms")."""
    for size in (8, 31, 32):
        yield declared(resized(WHOLE, size), TOO_SMALL)
    yield declared(WHOLE[:32], END)
    yield declared(resized(WHOLE[:32], 32), TOO_SMALL)
    for length in range(8, 32):
        yield declared(resized(WHOLE[:length], length), END)


def fields_of_the_standard():
    """ISO/IEC 14496-12, 8.4.3. Reserved bytes are 0."""
    yield fields(
        full(b"hdlr", u32(0), b"soun", bytes(12), b"Sound\0"), version=0, flags=0, handler_type="soun", name="Sound")


def fields_of_quicktime():
    """QuickTime File Format, "Handler reference atoms". A name that a byte of 0 ends has another form there."""
    yield fields(
        full(b"hdlr", b"mhlrvideappl", u32(3, 4), b"\5Video", flags=2), version=0, flags=2, component_type="mhlr",
        handler_type="vide", component_manufacturer="appl", component_flags=3, component_flags_mask=4, name="Video",
    )
    for at, name, value in ((12, "component_type", "\0\0\0\1"), (20, "component_manufacturer", "\0\0\0\1"),
                            (24, "component_flags", 1), (28, "component_flags_mask", 1)):
        found = {"version": 0, "flags": 0, "component_type": "", "handler_type": "vide", "component_manufacturer": "",
                 "component_flags": "", "component_flags_mask": "", "name": "V", name: value}
        given = changed(full(b"hdlr", u32(0), b"vide", bytes(12), b"V\0"), {at + 3: 1})
        if name == "component_type":
            found["name_hex"] = "5600"
        yield fields(given, **{key: it for key, it in found.items() if it != ""})


def fields_of_names():
    """ISO/IEC 14496-12, 8.4.3: a byte of 0 ends the name. QuickTime: a byte before it is its number of bytes. The bytes
    of other forms are beside the name."""
    for name, text, digits in [
        (b"abc\0", "abc", None), (b"abc", "abc", "616263"), (b"\0", "", None), (b"a", "a", "61"),
        (b"\3abc", "abc", "03616263"), (b"\3abc\0", "abc", "0361626300"), (b"\4abc\0", "abc", "0461626300"),
        (b"\0\0", "", "0000"), (b"\1a", "a", "0161"), (b"\1\0", "", "0100"), (b"\2abc\0", "\2abc", None),
        (b"\5abc\0", "\5abc", None), (b"\2abc", "\2abc", "02616263"), (b"\4abc", "\4abc", "04616263"),
        (b"\2a\xff", "a\ufffd", "0261ff"), (b"\2a\xff\0", "a\ufffd", "0261ff00"), (b"a\xff\0", "a\ufffd", "61ff00"),
        (b"a\0b\0", "a\0b", None), (b"\2ab\0\0", "\2ab\0", None),
    ]:
        found = {"name": text} if digits is None else {"name": text, "name_hex": digits}
        yield fields(
            full(b"hdlr", u32(0), b"vide", bytes(12), name), version=0, flags=0, handler_type="vide", **found)


def fields_of_names_in_quicktime():
    """QuickTime File Format, "Handler reference atoms"."""
    for name, text, digits in [
        (b"\3abc", "abc", None), (b"\3abc\0", "abc", "0361626300"), (b"abc\0", "abc", "61626300"), (b"\0", "", "00"),
        (b"abc", "abc", "616263"), (b"\2a\xff", "a\ufffd", "0261ff"),
    ]:
        found = {"name": text} if digits is None else {"name": text, "name_hex": digits}
        yield fields(
            full(b"hdlr", b"mhlrvide", bytes(12), name), version=0, flags=0, component_type="mhlr",
            handler_type="vide", **found)
