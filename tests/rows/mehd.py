"""`mehd`, the duration of a movie with its fragments. The bytes of the fields count up from 0x81, after the version."""

from tests.rows.making import box, counting, fields, full, round_trip, u8, u64, versions_above_1
from tests.rows.values import full_box

SHORT = box(b"mehd", u8(0), counting(0x81, 0x87))
LONG = box(b"mehd", u8(1), counting(0x81, 0x8B))


def every_field():
    yield round_trip(SHORT, full_box("mehd", 0, 0x818283, fragment_duration=0x84858687))
    yield round_trip(LONG, full_box("mehd", 1, 0x818283, fragment_duration=0x84858687_88898A8B))


def other_versions():
    yield from versions_above_1(LONG)


def duration_of_64_bits():
    yield round_trip(full(b"mehd", u64(2**32), version=1), full_box("mehd", 1, fragment_duration=2**32))


def fields_of_a_long_duration():
    """ISO/IEC 14496-12, 8.8.2."""
    given = full(b"mehd", u64(0x1_0000_0003), version=1, flags=2)
    yield fields(given, version=1, flags=2, fragment_duration=4294967299)
