"""`keys`, the keys of metadata: three, with names of five bytes, none and one. The bytes of flags and names count up
from 0x81."""

from tests.rows.making import (
    END, NO_VERSION_1, WRONG_SIZE, Box, changed, counting, declared, declared_as, fields, full, resized, u32,
)

# The keys begin at 16, 29 and 37, each with its size, and the box ends at 46.
NAMED = u32(13) + b"mdta" + counting(0x84, 0x88)
NAMELESS = u32(8) + b"udta"
OTHER = u32(9) + counting(0x89, 0x8C) + b"\x8d"
THREE = full(b"keys", u32(3), NAMED, NAMELESS, OTHER, flags=0x818283)


def key(namespace, value):
    return {"namespace": int.from_bytes(namespace, "big"), "value": list(value)}


KEYS = [key(b"mdta", counting(0x84, 0x88)), key(b"udta", b""), key(counting(0x89, 0x8C), b"\x8d")]


def keys(*entries):
    return Box("keys", version=0, flags=0x818283, entries=list(entries))


def three_keys():
    yield from declared_as(THREE, keys(*KEYS))


def no_key():
    yield from declared_as(full(b"keys", u32(0), flags=0x818283), keys())


def version_1():
    yield declared(changed(THREE, {8: 1}), NO_VERSION_1)


def counts_that_are_too_small():
    """Bytes after the counted keys are left out."""
    for count, after in ((0, 16), (1, 29), (2, 37)):
        written = resized(changed(THREE[:after], {15: count}), after)
        yield declared(changed(THREE, {15: count}), keys(*KEYS[:count]), written)


def counts_that_are_too_large():
    """The input ends. If it goes on, a key ends after the box."""
    for count in (4, 255):
        yield declared(changed(THREE, {15: count}), END)
        yield declared(changed(THREE, {15: count}) + OTHER, WRONG_SIZE)
    yield declared(changed(THREE, {12: 0xFF, 13: 0xFF, 14: 0xFF, 15: 0xFF}), END)


def sizes_below_8():
    """The size counts itself and the namespace."""
    for size in range(8):
        for at in (19, 32, 40):
            yield declared(changed(THREE, {at: size}), WRONG_SIZE)


def sizes_of_other_names():
    """The size is a byte less or more. Bytes of the name or of the next size are then taken for a size that is too
    large."""
    for size in (12, 14):
        yield declared(changed(THREE, {19: size}), WRONG_SIZE)
    # The last byte is left out.
    less = changed(THREE, {40: 8})
    yield declared(less, keys(*KEYS[:2], key(counting(0x89, 0x8C), b"")), resized(less[:-1], 45))
    # The first name goes up to the end of the box.
    more = changed(THREE, {15: 1, 19: 30})
    yield from declared_as(more, keys(key(b"mdta", THREE[24:])))


def sizes_that_end_after_the_box():
    for size in (10, 255):
        yield declared(changed(THREE, {40: size}), WRONG_SIZE)
        yield declared(changed(THREE, {40: size}) + bytes(255), WRONG_SIZE)
    yield declared(changed(THREE, {16: 0xFF, 17: 0xFF, 18: 0xFF, 19: 0xFF}), WRONG_SIZE)
    yield declared(resized(changed(THREE, {40: 10}), 47), END)


def sizes_of_the_box():
    for size in range(38, 46):
        yield declared(resized(THREE, size), WRONG_SIZE)
    for size in (47, 60):
        yield declared(resized(THREE, size), keys(*KEYS), THREE)
    for count, size in ((0, 16), (1, 29), (2, 37)):
        whole = resized(changed(THREE, {15: count}), size)
        yield declared(whole, keys(*KEYS[:count]), whole[:size])


def fields_of_keys():
    """QuickTime File Format, "Metadata item keys atom". The name of the second key isn't UTF-8."""
    yield fields(
        full(
            b"keys",
            u32(3),
            u32(32) + b"mdta" + b"com.apple.quicktime.make",
            u32(12) + b"udta" + b"\xa9nam",
            u32(12) + b"test" + b"cl\xc3\xa9",
            flags=0x01_0203,
        ),
        version=0,
        flags=66051,
        entry_count=3,
        entries=[
            {"Key_namespace": "mdta", "Key_value": "com.apple.quicktime.make"},
            {"Key_namespace": "udta", "Key_value": "\ufffdnam", "Key_value_hex": "a96e616d"},
            {"Key_namespace": "test", "Key_value": "cl\u00e9"},
        ],
    )
