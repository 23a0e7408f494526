"""`trun`, a run of samples. A field or a list is present if its flag is set: each flag by itself, and all together.
Other bits are set beside them. After the flags and the count the bytes of the fields count up from 0x82."""

from tests.rows.making import (
    END, counting, fields, full, large_count, listed, one, one_row_short, resized, round_trip, too_many, u32,
)
from tests.rows.values import TRUN, trun

TOO_MANY = too_many("trun", "sample_count", "values")
THREE = [0x82838485, 0x86878889, 0x8A8B8C8D]


def counted(last, flags, **fields):
    """Returns a `trun` of three samples with the flags `flags`, whose bytes count up to `last`, and its value with
    `fields`."""
    given = full(b"trun", u32(3), counting(0x82, last), version=0x81, flags=flags)
    return given, trun(flags, 3, version=0x81, **fields)


SIZES, SIZES_VALUE = counted(0x8D, 0xA5F2FA, sample_sizes=THREE)
ALL, ALL_VALUE = counted(
    0xB9, 0xA5FFFF, data_offset=0x82838485 - 2**32, first_sample_flags=0x86878889,
    sample_durations=[0x8A8B8C8D, 0x9A9B9C9D, 0xAAABACAD], sample_sizes=[0x8E8F9091, 0x9E9FA0A1, 0xAEAFB0B1],
    sample_flags=[0x92939495, 0xA2A3A4A5, 0xB2B3B4B5], sample_cts=[0x96979899, 0xA6A7A8A9, 0xB6B7B8B9],
)

TWO_LISTS = full(b"trun", u32(2, 10, 0x01010000, 20, 0x02000000), flags=0x600)
TWO_LISTS_VALUE = trun(0x600, 2, sample_sizes=[10, 20], sample_flags=[0x01010000, 0x02000000])
THREE_LISTS = full(b"trun", u32(2, 2**32 - 8, 0x02000000), u32(1024, 10, 512), u32(1025, 20, 2**32 - 1), flags=0xB05)
THREE_LISTS_VALUE = trun(
    0xB05, 2, data_offset=-8, first_sample_flags=0x02000000, sample_durations=[1024, 1025], sample_sizes=[10, 20],
    sample_cts=[512, 2**32 - 1],
)


def no_field():
    yield round_trip(*counted(0x81, 0xA5F0FA))


def one_field():
    yield round_trip(*counted(0x85, 0xA5F0FB, data_offset=0x82838485 - 2**32))
    yield round_trip(*counted(0x85, 0xA5F0FE, first_sample_flags=0x82838485))


def one_list():
    yield round_trip(*counted(0x8D, 0xA5F1FA, sample_durations=THREE))
    yield round_trip(SIZES, SIZES_VALUE)
    yield round_trip(*counted(0x8D, 0xA5F4FA, sample_flags=THREE))
    yield round_trip(*counted(0x8D, 0xA5F8FA, sample_cts=THREE))


def all_fields_and_lists():
    yield round_trip(ALL, ALL_VALUE)


def one_list_without_other_flags():
    yield round_trip(TRUN, trun(0x201, 2, data_offset=100, sample_sizes=[10, 20]))
    yield round_trip(full(b"trun", u32(1, 1024), flags=0x100), trun(0x100, 1, sample_durations=[1024]))


def more_lists_without_other_flags():
    yield round_trip(TWO_LISTS, TWO_LISTS_VALUE)
    yield round_trip(THREE_LISTS, THREE_LISTS_VALUE)


def no_list_and_the_largest_count():
    yield round_trip(full(b"trun", u32(2**32 - 1)), trun(0, 2**32 - 1))


def many_samples():
    numbers = list(range(1030))
    given = full(b"trun", u32(1030), *(u32(number, number) for number in numbers), flags=0xA00)
    yield round_trip(given, trun(0xA00, 1030, sample_sizes=numbers, sample_cts=numbers))


def one_sample_short():
    yield from one_row_short(SIZES, SIZES_VALUE, 4, TOO_MANY)
    yield from one_row_short(TWO_LISTS, TWO_LISTS_VALUE, 8, TOO_MANY)
    yield from one_row_short(THREE_LISTS, THREE_LISTS_VALUE, 12, TOO_MANY)
    yield from one_row_short(ALL, ALL_VALUE, 16, TOO_MANY)


def large_counts():
    yield from large_count("trun", flags=0x100, fault=TOO_MANY)
    yield from large_count("trun", flags=0xF00, fault=TOO_MANY)


def text_of_a_count_without_room():
    yield listed(full(b"trun", u32(1), flags=0x100), TOO_MANY)


def rows_of_two_lists_have_no_room():
    two_lists = full(b"trun", TRUN[12:], flags=0x301)
    yield one(two_lists, TOO_MANY)
    yield one(two_lists[:16], END)
    yield one(resized(two_lists, 36), END)


def fields_of_two_samples():
    """ISO/IEC 14496-12, 8.8.8. The offsets have a sign in version 1."""
    samples = u32(5, 7, 0x10009, 11, 6, 8, 10, 0xFFFFFFF4)
    for version, offset in [(0, 4294967284), (1, -12)]:
        yield fields(
            full(b"trun", u32(2, 0xFFFFFFFD, 0x10004), samples, version=version, flags=0xF05),
            version=version, flags=3845, sample_count=2, data_offset=-3, first_sample_flags=65540,
            sample_duration=[5, 6], sample_size=[7, 8], sample_flags=[65545, 10],
            sample_composition_time_offset=[11, offset],
        )
    yield fields(full(b"trun", u32(2, 7, 8), flags=0x200), version=0, flags=512, sample_count=2, sample_size=[7, 8])
