"""`smhd`, the header of a sound media. The bytes of the fields count up from 0x81."""

from tests.rows.making import box, counting, fields, filled, full, round_trip, u16, written_as
from tests.rows.values import full_box

COUNTED = box(b"smhd", counting(0x81, 0x86), bytes(2))
# A negative balance.
COUNTED_VALUE = full_box("smhd", 0x81, 0x828384, balance=0x8586 - 2**16)


def every_field():
    yield round_trip(COUNTED, COUNTED_VALUE)


def reserved_bytes_are_ignored():
    yield written_as(filled(COUNTED, 0xFF, range(14, 16)), COUNTED_VALUE, COUNTED)


def fields_of_a_negative_balance():
    """ISO/IEC 14496-12, 12.2.2."""
    yield fields(full(b"smhd", u16(0xFF40, 0), version=1, flags=2), version=1, flags=2, balance=-0.75)
