"""`saio`, the places of the information about samples: offsets of 4 bytes in version 0, and of 8 in version 1. The
bytes of the fields count up from 0x81, after the version and around the count."""

from tests.rows.making import (
    TOO_MANY_ENTRIES, WRONG_VERSION, Box, box, changed, counting, declared, declared_as, fields, full, one_row_short,
    u32, u64,
)

SHORT = box(b"saio", b"\0\x80\x82\x83", counting(0x84, 0x8B), u32(3), counting(0x8C, 0x97))
LONG = box(b"saio", b"\1\x80\x82\x82", u32(2), counting(0x83, 0x92))
NO_OFFSETS = box(b"saio", b"\1\0\0\0", u32(0))


def saio(version, flags, kind, parameter, offsets):
    fields = {"aux_info_type": kind, "aux_info_type_parameter": parameter}
    return Box("saio", version=version, flags=flags, **fields, offsets=[{"offset": offset} for offset in offsets])


SHORT_VALUE = saio(0, 0x808283, 0x84858687, 0x88898A8B, [0x8C8D8E8F, 0x90919293, 0x94959697])
LONG_VALUE = saio(1, 0x808282, None, None, [0x83848586_8788898A, 0x8B8C8D8E_8F909192])


def each_version():
    yield from declared_as(SHORT, SHORT_VALUE)
    yield from declared_as(LONG, LONG_VALUE)
    yield from declared_as(NO_OFFSETS, saio(1, 0, None, None, []))


def one_offset_short():
    yield from one_row_short(SHORT, SHORT_VALUE, 4, TOO_MANY_ENTRIES, declared)
    yield from one_row_short(LONG, LONG_VALUE, 8, TOO_MANY_ENTRIES, declared)
    yield declared(changed(LONG, {8: 0, 15: 5}), TOO_MANY_ENTRIES)


def another_version():
    yield declared(changed(LONG, {8: 2}), WRONG_VERSION)


def fields_of_offsets():
    """ISO/IEC 14496-12, 8.7.9."""
    yield fields(
        full(b"saio", u32(3), u32(11, 12, 2**32 - 1), version=0, flags=0x010202),
        version=0, flags=66050, offset=[11, 12, 4294967295],
    )
    yield fields(
        full(b"saio", u32(3), u64(11, 12, 2**64 - 1), version=1, flags=0x010202),
        version=1, flags=66050, offset=[11, 12, 18446744073709551615],
    )
    yield fields(
        full(b"saio", b"cenc", u32(13), u32(1), u32(14), version=0, flags=1),
        version=0, flags=1, aux_info_type="cenc", aux_info_type_parameter=13, offset=[14],
    )
