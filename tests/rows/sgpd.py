"""`sgpd`, the descriptions of groups of samples: a length in version 1 and later, and the number of a description in
version 2. The bytes of the fields count up from 0x81, after the version."""

from tests.rows.making import Box, box, changed, counting, declared, declared_as, fields, full, invalid, u8, u16, u32

SGPD = box(b"sgpd", b"\0", counting(0x81, 0x96))
FIELDS = {"flags": 0x818283, "grouping_type": 0x84858687}


def sgpd(version, length, index, count, entries):
    numbers = {"default_length": length, "default_group_description_index": index, "entry_count": count}
    return Box("sgpd", version=version, **FIELDS, **numbers, entries=list(entries))


def each_version():
    for version, numbers, rest in [
        (0, (None, None, 0x88898A8B), counting(0x8C, 0x96)),
        (1, (0x88898A8B, None, 0x8C8D8E8F), counting(0x90, 0x96)),
        (2, (0x88898A8B, 0x8C8D8E8F, 0x90919293), counting(0x94, 0x96)),
    ]:
        buffer = changed(SGPD, {8: version})
        yield from declared_as(buffer, sgpd(version, *numbers, rest))
        front = box(b"sgpd", buffer[8:-len(rest)])
        yield from declared_as(front, sgpd(version, *numbers, b""))


def another_version():
    yield declared(changed(SGPD, {8: 3}), invalid("version is too large"))


def fields_of_known_groups():
    """ISO/IEC 14496-12, 8.9.3, 10.1, 10.4 and 10.5."""
    yield fields(
        full(b"sgpd", b"roll", u32(2, 42), u32(2), u16(2**16 - 2, 258), version=2, flags=41),
        version=2, flags=41, grouping_type="roll", default_length=2, default_group_description_index=42, entry_count=2,
        entries=[{"roll_distance": -2}, {"roll_distance": 258}],
    )
    yield fields(
        full(b"sgpd", b"prol", u32(1), u16(2**16 - 772), version=0, flags=41),
        version=0, flags=41, grouping_type="prol", entry_count=1, entries=[{"roll_distance": -772}],
    )
    # The second description has one byte more than its fields.
    yield fields(
        full(b"sgpd", b"rap ", u32(0), u32(2), u32(1), u8(0x85), u32(2), u8(3, 4), version=1, flags=41),
        version=1, flags=41, grouping_type="rap ", default_length=0, entry_count=2,
        entries=[
            {"description_length": 1, "num_leading_samples_known": 1, "num_leading_samples": 5},
            {"description_length": 2, "data_bytes": "0304"},
        ],
    )
    yield fields(
        full(b"sgpd", b"tele", u32(1), u32(2), u8(0x80, 0x06), version=1, flags=41),
        version=1, flags=41, grouping_type="tele", default_length=1, entry_count=2,
        entries=[{"level_independently_decodable": 1}, {"level_independently_decodable": 0, "reserved": 6}],
    )


# A description of samples that have a vector each, and its fields (ISO/IEC 23001-7, 6).
OF_EACH_SAMPLE = u8(7, 0x19, 1, 8), counting(0x91, 0xA0)
SHOWN_OF_EACH_SAMPLE = {
    "reserved": 7, "crypt_byte_block": 1, "skip_byte_block": 9, "isProtected": 1, "Per_Sample_IV_Size": 8,
    "KID": "9192939495969798999a9b9c9d9e9fa0",
}


def fields_of_encryption():
    """ISO/IEC 14496-12, 8.9.3. ISO/IEC 23001-7, 6."""
    constant = u8(0, 0x5A, 1, 0), counting(0x81, 0x90), u8(3), b"\xaa\xbb\xcc"
    yield fields(
        full(b"sgpd", b"seig", u32(2), *constant, *OF_EACH_SAMPLE, version=0, flags=41),
        version=0, flags=41, grouping_type="seig", entry_count=2,
        entries=[
            {"crypt_byte_block": 5, "skip_byte_block": 10, "isProtected": 1, "Per_Sample_IV_Size": 0,
             "KID": "8182838485868788898a8b8c8d8e8f90", "constant_IV_size": 3, "constant_IV": "aabbcc"},
            SHOWN_OF_EACH_SAMPLE,
        ],
    )


def fields_of_no_encryption():
    """A description has a constant vector only if its samples are protected (ISO/IEC 23001-7, 6). The next one begins
    after its key."""
    clear = u8(0, 0x5A, 0, 0), counting(0x81, 0x90)
    yield fields(
        full(b"sgpd", b"seig", u32(2), *clear, *OF_EACH_SAMPLE, version=0, flags=41),
        version=0, flags=41, grouping_type="seig", entry_count=2,
        entries=[
            {"crypt_byte_block": 5, "skip_byte_block": 10, "isProtected": 0, "Per_Sample_IV_Size": 0,
             "KID": "8182838485868788898a8b8c8d8e8f90"},
            SHOWN_OF_EACH_SAMPLE,
        ],
    )


def fields_of_other_groups():
    """ISO/IEC 14496-12, 8.9.3."""
    yield fields(
        full(b"sgpd", b"abcd", u32(2), u32(2), counting(1, 5), version=1, flags=41),
        version=1, flags=41, grouping_type="abcd", default_length=2, entry_count=2,
        entries=[{"data_bytes": "0102"}, {"data_bytes": "0304"}], data_bytes="05",
    )
    yield fields(
        full(b"sgpd", b"abcd", u32(2), counting(1, 2), version=0, flags=41),
        version=0, flags=41, grouping_type="abcd", entry_count=2, data_bytes="0102",
    )
    # The bytes are too few for the count.
    yield fields(
        full(b"sgpd", b"roll", u32(2), u32(3), u16(1, 2), version=1, flags=41),
        version=1, flags=41, grouping_type="roll", default_length=2, entry_count=3, data_bytes="00010002",
    )
