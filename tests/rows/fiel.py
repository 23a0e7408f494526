"""`fiel`, the fields of a video, a box without version: two numbers."""

from tests.rows.making import Box, box, declared_as, fields, u8


def two_numbers():
    yield from declared_as(box(b"fiel", b"\x81\x82"), Box("fiel", fields=0x81, detail=0x82))


def fields_of_orders():
    """QuickTime File Format, "Video sample description extensions"."""
    yield fields(
        box(b"fiel", u8(2, 9)), fields=2, fields_name="interlaced", detail=9,
        detail_name="bottom field shown first, top field stored first",
    )
    yield fields(box(b"fiel", u8(1, 0)), fields=1, fields_name="progressive", detail=0)
