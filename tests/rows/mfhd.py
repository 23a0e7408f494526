"""`mfhd`, the header of a movie fragment. The bytes of the fields count up from 0x81."""

from tests.rows.making import box, counting, fields, full, round_trip, u32
from tests.rows.values import full_box


def every_field():
    given = box(b"mfhd", counting(0x81, 0x88))
    yield round_trip(given, full_box("mfhd", 0x81, 0x828384, sequence_number=0x85868788))


def fields_of_a_number():
    """ISO/IEC 14496-12, 8.8.5."""
    yield fields(full(b"mfhd", u32(3), version=1, flags=2), version=1, flags=2, sequence_number=3)
