"""`ftyp`, the brands of a file. The bytes of the fields count up from 0x81."""

from tests.rows.making import END, box, counting, fields, invalid, listed, one, resized, round_trip, u32
from tests.rows.values import ftyp


def three_brands():
    given = box(b"ftyp", counting(0x81, 0x94))
    brands = [counting(0x89, 0x8C), counting(0x8D, 0x90), counting(0x91, 0x94)]
    yield round_trip(given, ftyp(counting(0x81, 0x84), 0x85868788, brands))


TWO = box(b"ftyp", b"isom", u32(512), b"isommp41")
NOT_ALIGNED = invalid("ftyp size too small or not aligned")


def two_brands():
    yield round_trip(TWO, ftyp(b"isom", 512, [b"isom", b"mp41"]))


def brand_of_two_bytes():
    given = box(b"ftyp", b"isom", u32(0), b"\0\0")
    yield listed(given, NOT_ALIGNED)


def size_comes_before_the_fields():
    yield one(resized(TWO, 18), NOT_ALIGNED)
    yield one(box(b"ftyp", size=18), NOT_ALIGNED)
    yield one(box(b"ftyp", size=16), END)


def fields_of_two_brands():
    """ISO/IEC 14496-12, 4.3."""
    yield fields(
        box(b"ftyp", b"isom", u32(512), b"mp41avc1"),
        major_brand="isom", minor_version=512, compatible_brands=["mp41", "avc1"],
    )
