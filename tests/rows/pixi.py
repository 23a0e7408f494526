"""`pixi`, the bits of a pixel: a count of channels, and a byte for each. The bytes of the fields count up from 0x81,
after the version and around the count."""

from tests.rows.making import (
    END, NO_VERSION_1, TOO_MANY_BYTES, Box, box, changed, counting, declared, declared_as, fields, full, resized, u8,
)

PIXI = box(b"pixi", b"\0", counting(0x81, 0x83), b"\3", counting(0x84, 0x86))


def pixi(bits):
    return Box("pixi", version=0, flags=0x818283, bits_per_channel=list(bits))


def three_channels_and_none():
    yield from declared_as(PIXI, pixi(counting(0x84, 0x86)))
    yield from declared_as(box(b"pixi", PIXI[8:12], b"\0"), pixi(b""))


def other_counts():
    yield declared(changed(PIXI, {12: 4}), TOO_MANY_BYTES)
    yield declared(resized(changed(PIXI, {12: 4}), 17), END)
    yield declared(changed(PIXI, {12: 2}), pixi(b"\x84\x85"), changed(resized(PIXI[:15], 15), {12: 2}))


def version_1():
    yield declared(changed(PIXI, {8: 1}), NO_VERSION_1)


def fields_of_channels():
    """ISO/IEC 23008-12, 6.5.6."""
    yield fields(
        full(b"pixi", u8(3), u8(8, 10, 12), flags=0x01_0203), version=0, flags=66051, bits_per_channel=[8, 10, 12],
    )
    yield fields(full(b"pixi", u8(0)), version=0, flags=0)
