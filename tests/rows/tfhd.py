"""`tfhd`, the header of a track fragment. A field is present if its flag is set: each flag by itself, and all together.
Other bits are set beside them. After the flags the bytes of the fields count up from 0x82."""

from tests.rows.making import counting, fields, full, round_trip, u32, u64
from tests.rows.values import full_box

FIELDS = (
    "base_data_offset", "sample_description_index", "default_sample_duration", "default_sample_size",
    "default_sample_flags",
)


def tfhd(last, flags, **fields):
    """Returns a `tfhd` with the flags `flags`, whose bytes count up to `last`, and its value with `fields`."""
    given = full(b"tfhd", counting(0x82, last), version=0x81, flags=flags)
    fields = {**dict.fromkeys(FIELDS), **fields}
    return round_trip(given, full_box("tfhd", 0x81, flags, track_id=0x82838485, **fields))


def no_field():
    yield tfhd(0x85, 0xA5FFC4)


def one_field():
    yield tfhd(0x8D, 0xA5FFC5, base_data_offset=0x86878889_8A8B8C8D)
    yield tfhd(0x89, 0xA5FFC6, sample_description_index=0x86878889)
    yield tfhd(0x89, 0xA5FFCC, default_sample_duration=0x86878889)
    yield tfhd(0x89, 0xA5FFD4, default_sample_size=0x86878889)
    yield tfhd(0x89, 0xA5FFE4, default_sample_flags=0x86878889)


def all_fields():
    yield tfhd(
        0x9D, 0xA5FFFF, base_data_offset=0x86878889_8A8B8C8D, sample_description_index=0x8E8F9091,
        default_sample_duration=0x92939495, default_sample_size=0x96979899, default_sample_flags=0x9A9B9C9D,
    )


def all_fields_without_other_flags():
    given = full(b"tfhd", u32(1), u64(2**33), u32(2, 3, 4, 5), flags=0x3B)
    yield round_trip(given, full_box(
        "tfhd", flags=0x3B, track_id=1, base_data_offset=2**33, sample_description_index=2, default_sample_duration=3,
        default_sample_size=4, default_sample_flags=5,
    ))


def fields_of_all_flags_and_of_none():
    """ISO/IEC 14496-12, 8.8.7."""
    yield fields(
        full(b"tfhd", u32(2), u64(0x1_0000_0003), u32(4, 5, 6, 0x10007), version=1, flags=0x3B),
        version=1, flags=59, track_ID=2, base_data_offset=4294967299, sample_description_index=4,
        default_sample_duration=5, default_sample_size=6, default_sample_flags=65543,
    )
    yield fields(full(b"tfhd", u32(2), version=1, flags=0), version=1, flags=0, track_ID=2)
