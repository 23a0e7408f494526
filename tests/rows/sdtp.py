"""`sdtp`, how samples depend on one another. The bits of the entries are 11 00 01 10, 01 10 00 11 and 00 11 10 01."""

from tests.rows.making import Box, box, declared_as, fields, full, u8

SDTP = box(b"sdtp", b"\0\x81\x82\x83\xc6\x63\x39")
NAMES = ("is_leading", "sample_depends_on", "sample_is_depended_on", "sample_has_redundancy")
SAMPLES = [dict(zip(NAMES, numbers)) for numbers in [(3, 0, 1, 2), (1, 2, 0, 3), (0, 3, 2, 1)]]


def samples_up_to_the_end():
    yield from declared_as(SDTP, Box("sdtp", version=0, flags=0x818283, entries=SAMPLES))


def fields_of_dependencies():
    """ISO/IEC 14496-12, 8.6.4.3."""
    yield fields(
        full(b"sdtp", u8(0b01_10_11_00, 0b10_11_00_01, 0b11_00_01_10), version=0, flags=0x010203),
        version=0, flags=66051,
        entries=[
            {"is_leading": 1, "sample_depends_on": 2, "sample_is_depended_on": 3, "sample_has_redundancy": 0},
            {"is_leading": 2, "sample_depends_on": 3, "sample_is_depended_on": 0, "sample_has_redundancy": 1},
            {"is_leading": 3, "sample_depends_on": 0, "sample_is_depended_on": 1, "sample_has_redundancy": 2},
        ],
    )
