"""Headers and lists of boxes of any content: sizes of every form, boxes without a type, boxes that are cut, and the
places of boxes."""

from tests.rows import rows
from tests.rows.making import (
    END, LARGE_TOO_SMALL, PAST_64_BITS, TOO_SMALL, Row, box, full, invalid, large, list_written_as, listed, one, placed,
    refused, too_many, u16, u32,
)
from tests.rows.values import ftyp, full_box

FTYP = box(b"ftyp", b"isom", u32(512), b"isommp41")
FTYP_VALUE = ftyp(b"isom", 512, [b"isom", b"mp41"])
STCO = full(b"stco", u32(1, 267))
STCO_VALUE = full_box("stco", entries=[267])
THREE = FTYP + box(b"free") + STCO
MFHD = full(b"mfhd", u32(1))
MFHD_VALUE = full_box("mfhd", sequence_number=1)
FREE = (0, 8, "free")
# The codes that have names, as the layout table has them.
CODES = """
    ftyp free wide mdat moov moof mvex traf mvhd mehd mfhd trex tfhd tfdt trun emsg
    trak tkhd edts elst mdia mdhd hdlr minf vmhd smhd dinf dref
    stbl stsd stts ctts stss stsc stsz stco co64
    avc1 avcC hev1 hvcC vp09 vpcC mp4a esds tx3g
    udta meta ilst data covr desc
""".split()
# Other codes, and their texts. The last ones are not UTF-8, or have characters of several bytes.
OTHER_CODES = [
    (b"url ", "url "), (b"mark", "mark"), (b"hvc1", "hvc1"), (b", } ", ", } "), (b"\0\0\0\0", "\0\0\0\0"),
    (b"\xa9nam", "\ufffdnam"), (b"\xa9day", "\ufffdday"), (b"\xff\xff\xff\xff", "\ufffd\ufffd\ufffd\ufffd"),
    (b"\xf0\x9f\xa6\x80", "\U0001f980"), (b"\xe2\x82\0\xff", "\ufffd\0\ufffd"), (b"a\xc3\xa4b", "a\u00e4b"),
]
# The length of the longest box that is used from the rows of other modules.
MOST = 200


def boxes_of_no_type_are_skipped():
    yield list_written_as(THREE, [FTYP_VALUE, STCO_VALUE], FTYP + STCO)
    for skipped in [
        b"",
        box(b"free"),
        box(b"free", b"1234567"),
        box(b"free", b"12345678"),
        box(b"free", b"123", size=0),
        large(b"mdat", b"\1\2\3"),
        large(b"mdat", b"\1\2\3", number=0),
    ]:
        yield list_written_as(skipped, [], b"")


def boxes_before_a_cut():
    """The last box is whole, or is missing, or is cut after one byte."""
    three = MFHD + box(b"free") + full(b"smhd", u16(0xFFFF, 0))
    yield list_written_as(three, [MFHD_VALUE, full_box("smhd", balance=-1)], three[:16] + three[24:])
    yield list_written_as(three[:24], [MFHD_VALUE], MFHD)
    yield list_written_as(three[:16], [MFHD_VALUE], MFHD)
    yield refused(three[:17], END)


def reading_begins_at_the_position():
    yield list_written_as(THREE, [STCO_VALUE], STCO, at=24)
    yield list_written_as(THREE, [], b"", at=99)


def places_of_boxes_from_the_position_on():
    """Boxes without a type are listed too."""
    three = [(0, 24, "ftyp"), (24, 8, "free"), (32, 20, "stco")]
    yield placed(b"", [])
    yield placed(THREE, three)
    yield placed(THREE, three[1:], at=24)
    yield placed(THREE, [], at=52)
    yield placed(THREE, [], at=99)
    # The header there has the size 0x866 and the code "ree\0".
    yield refused(THREE, END, at=25)


def places_of_large_headers_and_sizes_of_0():
    unknown = bytes([1, 2, 3, 4])
    content = b"\x81\x82\x83"
    yield placed(box(b"free") + large(unknown, content) + box(b"skip"), [FREE, (8, 19, "\1\2\3\4"), (27, 8, "skip")])
    yield placed(box(b"free") + box(unknown, content, size=0), [FREE, (8, 11, "\1\2\3\4")])
    yield placed(box(b"free") + large(unknown, content, number=0), [FREE, (8, 19, "\1\2\3\4")])
    yield placed(large(unknown) + large(b"skip"), [(0, 16, "\1\2\3\4"), (16, 16, "skip")])


def places_of_every_code():
    """A code is printed as its bytes, which are read as UTF-8."""
    codes = [(code.encode(), code) for code in CODES] + OTHER_CODES
    boxes = b"".join(box(code) for code, _ in codes)
    yield placed(boxes, [(8 * number, 8, text) for number, (_, text) in enumerate(codes)])


def box_that_is_listed_may_be_refused_when_it_is_read():
    given = box(b"ftyp", bytes(range(10)))
    yield listed(given, invalid("ftyp size too small or not aligned"))
    yield placed(given, [(0, 18, "ftyp")])


def every_type_in_one_list():
    """The list has boxes of the other modules one after the other, at most two of each type."""
    found = {}
    for _, row in rows(left_out=["frames"]):
        of_type = found.setdefault(row.buffer[4:8], [])
        if row.written == row.kept_written == row.buffer and len(row.buffer) <= MOST and len(of_type) < 2:
            of_type.append(row)
    chosen = [row for of_type in found.values() for row in of_type]
    boxes = b"".join(row.buffer for row in chosen)
    values = [value for row in chosen for value in row.boxes[0]], len(boxes)
    ends = [sum(len(row.buffer) for row in chosen[:number]) for number in range(len(chosen))]
    places = [(at, len(row.buffer), row.buffer[4:8].decode()) for at, row in zip(ends, chosen)]
    yield Row(boxes, boxes=values, written=boxes, kept_boxes=values, kept_written=boxes, places=(places, len(boxes)))


def size_of_0_goes_to_the_end():
    yield list_written_as(FTYP + box(b"mdat", b"\1\2\3", size=0), [FTYP_VALUE], FTYP)
    yield list_written_as(box(b"stco", STCO[8:], size=0), [STCO_VALUE], STCO)
    yield list_written_as(large(b"stco", STCO[8:], number=0), [STCO_VALUE], STCO)
    yield list_written_as(box(b"mfhd", MFHD[8:], size=0), [MFHD_VALUE], MFHD)
    yield list_written_as(large(b"mfhd", MFHD[8:], number=0), [MFHD_VALUE], MFHD)


def sizes_that_are_too_small():
    for size in (2, 7):
        yield refused(box(b"free", size=size), TOO_SMALL)
    for number in (1, 2, 15):
        yield refused(large(b"free", number=number), LARGE_TOO_SMALL)
    # The first fault is that of the first bad box.
    yield refused(box(b"free") + box(b"free", size=2) + box(b"free", size=9), TOO_SMALL)


def size_of_0_has_no_room_past_the_end():
    """The table has two rows, of which the buffer has one."""
    no_room = box(b"stco", u32(0, 2, 267), size=0)
    yield listed(no_room, too_many("stco"))
    yield listed(box(b"free") + no_room, too_many("stco"))


def boxes_that_end_past_64_bits():
    yield refused(box(b"free") + large(b"free", number=2**64 - 1), PAST_64_BITS)
    # The box has the largest number, and is one byte behind the front.
    yield one(b"\0" + large(b"mfhd", u32(0, 1), number=2**64 - 1), PAST_64_BITS, at=1)


def cut_headers():
    header = large(bytes([1, 2, 3, 4]))
    for length in range(16):
        yield one(header[:length], END)


def boxes_that_are_cut():
    for cut in [
        b"\0",
        bytes(7),
        large(b"free")[:8],
        large(b"free")[:15],
        box(b"free", size=9),
        box(b"free", b"1234567", size=16),
        box(b"free", size=2**32 - 1),
        box(b"free") + box(b"free", size=2**32 - 1),
        large(b"free", number=2**64 - 1),
        box(b"free") + box(b"free", size=255) + box(b"free", size=2),
    ]:
        yield refused(cut, END)
