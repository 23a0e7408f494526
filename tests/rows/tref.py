"""`tref`, the tracks to which a track refers: references of three types, to three tracks, to none and to one. The bytes
of the tracks' numbers count up from 0x81."""

from tests.rows.making import (
    END, NOT_FILLED, WRONG_SIZE, Box, box, changed, declared, declared_as, fields, resized, u32,
)

# The references begin at 8, 28 and 36, each with its size, and the box ends at 48.
CHAPTERS = u32(20) + b"chap" + u32(0x81828384, 0x85868788, 0x898A8B8C)
HINTS = u32(8) + b"hint"
DESCRIBED = u32(12) + b"cdsc" + u32(0x8D8E8F90)
TREF = box(b"tref", CHAPTERS, HINTS, DESCRIBED)


def reference(code, *tracks):
    return {"reference_type": int.from_bytes(code, "big"), "track_ids": list(tracks)}


REFERENCES = [
    reference(b"chap", 0x81828384, 0x85868788, 0x898A8B8C), reference(b"hint"), reference(b"cdsc", 0x8D8E8F90),
]


def tref(*references):
    return Box("tref", references=list(references))


def three_references():
    yield from declared_as(TREF, tref(*REFERENCES))


def one_reference():
    """The reference has any type. Another has the size of all references, so that the others are read as its tracks."""
    yield from declared_as(box(b"tref", u32(16), b"\xa1\xa2\xa3\xa4", u32(0xA5A6A7A8, 0xA9AAABAC)),
                           tref(reference(b"\xa1\xa2\xa3\xa4", 0xA5A6A7A8, 0xA9AAABAC)))
    taken = [*REFERENCES[0]["track_ids"], 8, 0x68696E74, 12, 0x63647363, 0x8D8E8F90]
    yield from declared_as(changed(TREF, {11: 40}), tref(reference(b"chap", *taken)))


def no_reference():
    yield from declared_as(box(b"tref"), tref())
    yield from declared_as(box(b"tref", HINTS), tref(reference(b"hint")))


def sizes_below_8():
    """The size counts itself and the type."""
    for size in range(8):
        yield declared(changed(TREF, {11: size}), WRONG_SIZE)
        yield declared(changed(TREF, {31: size}), WRONG_SIZE)
        yield declared(changed(TREF, {39: size}), WRONG_SIZE)


def sizes_that_end_inside_a_track():
    for size in (17, 18, 19, 21, 22, 23):
        yield declared(changed(TREF, {11: size}), NOT_FILLED)
    for size in (9, 10, 11):
        yield declared(changed(TREF, {39: size}), NOT_FILLED)


def sizes_of_other_tracks():
    """The size has a track less, which is then taken for the size of the next reference, or one more, which is that
    size."""
    yield declared(changed(TREF, {11: 16}), WRONG_SIZE)
    yield declared(changed(TREF, {11: 24}), WRONG_SIZE)
    # The code `cdsc` has more bytes than the box, as a size.
    yield declared(changed(TREF, {31: 12}), WRONG_SIZE)


def sizes_that_end_after_the_box():
    for size in (13, 16, 255):
        yield declared(changed(TREF, {39: size}), WRONG_SIZE)
    yield declared(changed(TREF, {39: 16}) + bytes(8), WRONG_SIZE)
    yield declared(changed(TREF, {8: 0xFF, 9: 0xFF, 10: 0xFF, 11: 0xFF}), WRONG_SIZE)
    yield declared(resized(changed(TREF, {39: 16}), 52), END)


def sizes_of_the_box():
    """The box may end after each reference, and not inside one."""
    for size, count in ((8, 0), (28, 1), (36, 2)):
        yield declared(resized(TREF, size), tref(*REFERENCES[:count]), resized(TREF[:size], size))
    for size in (*range(9, 28), *range(29, 36), *range(37, 48)):
        yield declared(resized(TREF, size), WRONG_SIZE)
    for size in (49, 52, 56):
        yield declared(resized(TREF, size), END)
    yield declared(resized(TREF + bytes(4), 52), WRONG_SIZE)


def fields_of_references():
    """ISO/IEC 14496-12, 8.3.3."""
    yield fields(box(b"tref", u32(16), b"cdsc", u32(2, 3), u32(8), b"hint"), references=[
        {"reference_type": "cdsc", "track_IDs": [2, 3]}, {"reference_type": "hint", "track_IDs": []},
    ])
