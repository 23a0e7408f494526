"""`tfdt`, the decode time of a track fragment. The bytes of the fields count up from 0x81, after the version."""

from tests.rows.making import box, counting, fields, full, round_trip, u8, u64, versions_above_1
from tests.rows.values import full_box

SHORT = box(b"tfdt", u8(0), counting(0x81, 0x87))
LONG = box(b"tfdt", u8(1), counting(0x81, 0x8B))


def every_field():
    yield round_trip(SHORT, full_box("tfdt", 0, 0x818283, base_media_decode_time=0x84858687))
    yield round_trip(LONG, full_box("tfdt", 1, 0x818283, base_media_decode_time=0x84858687_88898A8B))


def other_versions():
    yield from versions_above_1(LONG)


def fields_of_a_late_time():
    """ISO/IEC 14496-12, 8.8.12."""
    given = full(b"tfdt", u64(0x1_0000_0003), version=1, flags=2)
    yield fields(given, version=1, flags=2, baseMediaDecodeTime=4294967299)
