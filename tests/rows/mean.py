"""`mean` of a metadata item: version, flags, and a text up to its end. The bytes of the fields count up from 0x81,
after the version."""

from tests.rows.making import NO_VERSION_1, Box, box, changed, counting, declared, declared_as, fields, full

WHOLE = box(b"mean", b"\0", counting(0x81, 0x88))


def value_of(text):
    return Box("mean", version=0, flags=0x818283, value=list(text))


def a_text_and_none():
    yield from declared_as(WHOLE, value_of(counting(0x84, 0x88)))
    yield from declared_as(box(b"mean", WHOLE[8:12]), value_of(b""))


def version_1():
    yield declared(changed(WHOLE, {8: 1}), NO_VERSION_1)


def fields_of_a_domain():
    """iTunes, metadata."""
    domain = full(b"mean", b"com.apple.iTunes", flags=0x01_0203)
    yield fields(box(b"ilst", box(b"----", domain)), version=0, flags=66051, value="com.apple.iTunes")
