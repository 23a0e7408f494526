"""`lins`, a box of entries that have shapes, up to its end. No standard has it."""

from tests.rows.making import (
    END, NO_END, NOT_FILLED, WRONG_VERSION, Box, box, changed, counting, declared, declared_as, resized, u16,
)

# Three lines: of two moments, of none, and of one; each with a text and a number.
NARROW = box(
    b"lins", b"\0\x81\x82\x83",
    b"\x02\x84", counting(0x85, 0x88), b"\x89", counting(0x8A, 0x8D), b"\x8e\x8f\0", b"\x90\x91",
    b"\0", b"\0", b"\x92\x93",
    b"\x01\x94", counting(0x95, 0x98), b"\x99\0", b"\x9a\x9b",
)
# These lines in version 1, with times of eight bytes.
WIDE = box(
    b"lins", b"\x01\x81\x82\x83",
    b"\x02\x84", counting(0x85, 0x8C), b"\x8d", counting(0x8E, 0x95), b"\x96\x97\0", b"\x98\x99",
    b"\0", b"\0", b"\x9a\x9b",
    b"\x01\x9c", counting(0x9D, 0xA4), b"\xa5\0", b"\xa6\xa7",
)


def line(text, number, *moments):
    moments = [{"kind": kind, "time": time} for kind, time in moments]
    return {"moments": moments, "text": list(text), "number": number}


def lines(version, *all_lines):
    return Box("lines", version=version, flags=0x818283, lines=list(all_lines))


LINES = [
    line(b"\x8e\x8f", 0x9091, (0x84, 0x85868788), (0x89, 0x8A8B8C8D)), line(b"", 0x9293),
    line(b"\x99", 0x9A9B, (0x94, 0x95969798)),
]


def lines_up_to_the_end():
    yield from declared_as(NARROW, lines(0, *LINES))
    wide = [
        line(b"\x96\x97", 0x9899, (0x84, 0x85868788898A8B8C), (0x8D, 0x8E8F909192939495)), line(b"", 0x9A9B),
        line(b"\xa5", 0xA6A7, (0x9C, 0x9D9E9FA0A1A2A3A4)),
    ]
    yield from declared_as(WIDE, lines(1, *wide))


def another_version():
    yield declared(changed(NARROW, {8: 2}), WRONG_VERSION)


def sizes_that_end_after_a_line():
    """The rest is not part of the box. A box that ends before its lines has none."""
    for size, count, written in [(8, 0, 12), (11, 0, 12), (12, 0, 12), (28, 1, 28), (32, 2, 32), (42, 3, 42)]:
        short = box(b"lins", NARROW[8:written])
        yield declared(resized(NARROW, size), lines(0, *LINES[:count]), short)


def sizes_that_end_inside_a_line():
    for size, expected in [
        (13, NO_END),
        (25, NO_END),
        (26, NOT_FILLED),
        (27, NOT_FILLED),
        (29, NO_END),
        (30, NOT_FILLED),
        (31, NOT_FILLED),
        (33, NO_END),
        (39, NO_END),
        (40, NOT_FILLED),
        (41, NOT_FILLED),
        (43, END),
    ]:
        yield declared(resized(NARROW, size), expected)
    # If a line's bytes are missing too, that is the fault.
    yield declared(resized(NARROW[:27], 27), END)


def bytes_after_the_lines():
    """The bytes after the lines are read as a line."""
    yield declared(box(b"lins", NARROW[8:], b"\x9c"), END)
    yield declared(box(b"lins", NARROW[8:], b"\0"), NO_END)
    yield declared(resized(NARROW + b"\0\0\x9c\x9d", 45), NOT_FILLED)
    four = box(b"lins", NARROW[8:], b"\0\0\x9c\x9d")
    yield declared(four, lines(0, *LINES, line(b"", 0x9C9D)), four)


def largest_counts():
    """One row has a count of one byte with all bits set, and another has a thousand lines."""
    moments = [(number, number * 65537) for number in range(255)]
    many = b"".join(bytes([kind]) + time.to_bytes(4, "big") for kind, time in moments)
    whole = box(b"lins", b"\0\x81\x82\x83", b"\xff", many, b"\0", b"\x84\x85")
    yield declared(whole, lines(0, line(b"", 0x8485, *moments)), whole)
    whole = box(b"lins", b"\0\x81\x82\x83", b"".join(b"\0\0" + u16(number) for number in range(1000)))
    yield declared(whole, lines(0, *(line(b"", number) for number in range(1000))), whole)
