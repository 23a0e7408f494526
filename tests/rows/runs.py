"""`runs`, a box of bytes, rows, entries and all that is left. No standard has it."""

from tests.rows.making import (
    END, TOO_MANY_BYTES, TOO_MANY_ENTRIES, Box, box, changed, counting, declared, declared_as, resized, u16,
)

RUNS = box(
    b"runs", b"\x02\x81\x82", b"\0\x02", counting(0x83, 0x88), b"\x01\x8e\x8f", b"\x90\x91\x92",
)
PACKED = {"is_first": True, "kind": 3, "level": 0x28F}
COLORS = [[0x83, 0x84, 0x85], [0x86, 0x87, 0x88]]


def runs(name, entries, rest=b"\x90\x91\x92"):
    return Box("runs", name=list(name), colors=COLORS, entries=[PACKED] * entries, rest=list(rest))


def three_counts_and_what_is_left():
    yield from declared_as(RUNS, runs(b"\x81\x82", 1))


def sizes_that_are_too_small():
    for length, size, expected in [
        (25, 10, TOO_MANY_BYTES),
        (9, 10, TOO_MANY_BYTES),
        (25, 18, TOO_MANY_ENTRIES),
        (25, 21, TOO_MANY_ENTRIES),
        (22, 22, runs(b"\x81\x82", 1, b"")),
        (24, 24, runs(b"\x81\x82", 1, b"\x90\x91")),
    ]:
        yield declared(resized(RUNS[:length], size), expected)


def counts_of_more():
    for at, count, expected in [
        (8, 16, END),
        (8, 17, TOO_MANY_BYTES),
        (12, 4, END),
        (12, 5, TOO_MANY_ENTRIES),
        (19, 3, TOO_MANY_ENTRIES),
    ]:
        yield declared(changed(RUNS, {at: count}), expected)
    entries = [PACKED, {"is_first": True, "kind": 4, "level": 0x91}]
    two = Box("runs", name=[0x81, 0x82], colors=COLORS, entries=entries, rest=[0x92])
    yield declared(changed(RUNS, {19: 2}), two)


def largest_counts_of_bytes():
    whole = box(
        b"runs", b"\xff", b"\x81" * 255, u16(2), counting(0x83, 0x88), b"\xff", b"\x8e\x8f" * 255, b"\x90\x91\x92")
    yield declared(whole, runs(b"\x81" * 255, 255), whole)
