"""Boxes that a tree opens by their codes: sample entries, items of metadata, and a `tmcd`. Each holds a `pasp` and a
`free` after its fields. The slow reader says which of them are opened, and written is what was read."""

from tests.readers.fronts import ITEMS, MORE_SOUND, MORE_VIDEO, SOUND, VIDEO
from tests.rows.making import Row, box, counting, u16

INSIDE = box(b"pasp", counting(0x81, 0x88)) + box(b"free", counting(0x89, 0x8B))


def kept(buffer):
    """Expects that the boxes of `buffer` are written as the same bytes if they are read as trees."""
    return Row(buffer, trees=buffer)


def opened(code, front):
    return kept(box(code, front, INSIDE))


def entries_of_video():
    for code in VIDEO + MORE_VIDEO:
        yield opened(code, counting(0x91, 0x91 + 77))


def entries_of_sound():
    for code in SOUND + MORE_SOUND:
        yield opened(code, bytes(6) + u16(1) + bytes(2) + counting(0x91, 0x91 + 17))
        yield opened(code, bytes(6) + u16(1, 1) + counting(0x91, 0x91 + 33))
        yield opened(code, bytes(6) + u16(1, 2) + counting(0x91, 0x91 + 53))


def entries_of_text_and_others():
    yield opened(b"tx3g", counting(0x91, 0x91 + 37))
    for code in (b"wvtt", b"mp4s", b"urim"):
        yield opened(code, counting(0x91, 0x98))


def items_and_timecodes():
    numbers = [number.to_bytes(4, "big") for number in (0, 1, 0xFF, 0x100, 0xFFFF, 0x10000)]
    signs = [b"\xa9\0\0\0", b"\xa9nam", b"\xa9\xff\xff\xff", b"\xa8\xff\xff\xff", b"\xaa\0\0\0"]
    for code in ITEMS + numbers + signs + [b"tmcd"]:
        yield opened(code, b"")


def boxes_with_other_contents():
    """A text of QuickTime in a `udta`, a `tmcd` in an `stsd`, an entry without boxes, and one that four bytes of 0
    end."""
    yield kept(box(b"udta", box(b"\xa9nam", u16(4, 0x55C4), b"Name")))
    yield kept(box(b"tmcd", bytes(6), u16(1), bytes(18)))
    for code, front in ((b"apch", 78), (b"sowt", 28), (b"tx3g", 38), (b"wvtt", 8)):
        yield kept(box(code, counting(0x81, 0x80 + front)))
        yield kept(box(code, counting(0x81, 0x80 + front - 1)))
        yield kept(box(code, bytes(front), INSIDE, bytes(4)))
