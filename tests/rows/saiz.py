"""`saiz`, the sizes of the information about samples: one size for all, or a size for each. The bytes of the fields
count up from 0x81, after the version."""

from tests.rows.making import NO_VERSION_1, Box, box, changed, counting, declared, declared_as, fields, full, u8, u32

SAME = box(b"saiz", b"\0\x80\x82\x82", counting(0x83, 0x87))
EACH = box(b"saiz", b"\0\x80\x82\x83", counting(0x84, 0x8B), b"\0", u32(3), counting(0x8C, 0x8E))


def saiz(flags, kind, parameter, size, count, sizes):
    fields = {"aux_info_type": kind, "aux_info_type_parameter": parameter, "default_sample_info_size": size}
    return Box("saiz", version=0, flags=flags, **fields, sample_count=count, sample_info_sizes=sizes)


def one_size_for_all():
    yield from declared_as(SAME, saiz(0x808282, None, None, 0x83, 0x84858687, []))


def three_sizes_of_a_type():
    value = saiz(0x808283, 0x84858687, 0x88898A8B, 0, 3, [0x8C, 0x8D, 0x8E])
    yield from declared_as(EACH, value)


def another_version():
    yield declared(changed(SAME, {8: 1}), NO_VERSION_1)


def fields_of_sizes():
    """ISO/IEC 14496-12, 8.7.8."""
    yield fields(
        full(b"saiz", u8(0), u32(3), u8(11, 12, 255), version=0, flags=0x010202),
        version=0, flags=66050, default_sample_info_size=0, sample_count=3, sample_info_size=[11, 12, 255],
    )
    # There is no list of sizes if one size is that of all samples.
    yield fields(
        full(b"saiz", b"cbcs", u32(13), u8(14), u32(15), version=0, flags=1),
        version=0, flags=1, aux_info_type="cbcs", aux_info_type_parameter=13, default_sample_info_size=14,
        sample_count=15,
    )
