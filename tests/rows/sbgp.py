"""`sbgp`, the groups of samples: a parameter only in version 1, and three runs. The bytes of the fields count up from
0x81, after the version and around the count."""

from tests.rows.making import (
    TOO_MANY_ENTRIES, Box, box, counting, declared, declared_as, fields, full, one_row_short, resized, u32,
)

SHORT = box(b"sbgp", b"\0", counting(0x81, 0x87), u32(3), counting(0x8C, 0xA3))
LONG = box(b"sbgp", b"\1", counting(0x81, 0x8B), u32(3), counting(0x8C, 0xA3))
RUNS = [
    {"sample_count": 0x8C8D8E8F, "group_description_index": 0x90919293},
    {"sample_count": 0x94959697, "group_description_index": 0x98999A9B},
    {"sample_count": 0x9C9D9E9F, "group_description_index": 0xA0A1A2A3},
]


def sbgp(version, parameter):
    fields = {"flags": 0x818283, "grouping_type": 0x84858687, "grouping_type_parameter": parameter, "entries": RUNS}
    return Box("sbgp", version=version, **fields)


def version_0_has_no_parameter():
    yield from declared_as(SHORT, sbgp(0, None))


def version_1_has_a_parameter():
    yield from declared_as(LONG, sbgp(1, 0x88898A8B))


def one_run_short():
    yield declared(resized(LONG, 47), TOO_MANY_ENTRIES)
    yield from one_row_short(SHORT, sbgp(0, None), 8, TOO_MANY_ENTRIES, declared)


def fields_of_groups():
    """ISO/IEC 14496-12, 8.9.2."""
    runs = u32(3, 11, 12, 2**32 - 1, 22, 31, 0x10001)
    entries = [
        {"sample_count": 11, "group_description_index": 12},
        {"sample_count": 4294967295, "group_description_index": 22},
        {"sample_count": 31, "group_description_index": 65537},
    ]
    yield fields(
        full(b"sbgp", b"roll", runs, version=0, flags=0x010203),
        version=0, flags=66051, grouping_type="roll", entries=entries,
    )
    yield fields(
        full(b"sbgp", b"roll", u32(7), runs, version=1, flags=0x010203),
        version=1, flags=66051, grouping_type="roll", grouping_type_parameter=7, entries=entries,
    )
