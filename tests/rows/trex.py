"""`trex`, the defaults of a track's samples in fragments. The bytes of the fields count up from 0x81."""

from tests.rows.making import box, counting, fields, full, round_trip, u32
from tests.rows.values import full_box


def every_field():
    yield round_trip(box(b"trex", counting(0x81, 0x98)), full_box(
        "trex", 0x81, 0x828384, track_id=0x85868788, default_sample_description_index=0x898A8B8C,
        default_sample_duration=0x8D8E8F90, default_sample_size=0x91929394, default_sample_flags=0x95969798,
    ))


def fields_of_all_defaults():
    """ISO/IEC 14496-12, 8.8.3."""
    yield fields(
        full(b"trex", u32(3, 4, 5, 6, 0x10007), version=1, flags=2),
        version=1, flags=2, track_ID=3, default_sample_description_index=4, default_sample_duration=5,
        default_sample_size=6, default_sample_flags=65543,
    )
