"""`name` of a metadata item: version, flags, and a text up to its end. The bytes of the fields count up from 0x81,
after the version."""

from tests.rows.making import NO_VERSION_1, Box, box, changed, counting, declared, declared_as, fields, full

WHOLE = box(b"name", b"\0", counting(0x81, 0x88))


def value_of(text):
    return Box("name", version=0, flags=0x818283, value=list(text))


def a_text_and_none():
    yield from declared_as(WHOLE, value_of(counting(0x84, 0x88)))
    yield from declared_as(box(b"name", WHOLE[8:12]), value_of(b""))


def version_1():
    yield declared(changed(WHOLE, {8: 1}), NO_VERSION_1)


def fields_of_names():
    """iTunes, metadata."""
    name = full(b"name", b"iTunSMPB", flags=0x02_0304)
    yield fields(box(b"ilst", box(b"----", name)), version=0, flags=131844, value="iTunSMPB")
    # Take bytes that aren't UTF-8.
    name = full(b"name", b"a\xff")
    yield fields(box(b"ilst", box(b"----", name)), version=0, flags=0, value="a\ufffd", value_hex="61ff")
