"""`stz2`, the sizes of samples in few bits: reserved bytes, the number of bits, a count, and bytes. The bytes of the
fields count up from 0x81, after the version and around the reserved bytes."""

from tests.rows.making import NO_VERSION_1, Box, box, changed, counting, declared, declared_as, fields, full, u8, u32

FRONT = b"\0\x81\x82\x83\0\0\0" + counting(0x84, 0x88)
STZ2 = box(b"stz2", FRONT, counting(0x89, 0x8B))


def stz2(sizes):
    return Box("stz2", version=0, flags=0x818283, field_size=0x84, sample_count=0x85868788, entry_sizes=sizes)


def two_numbers_and_bytes():
    yield from declared_as(STZ2, stz2([0x89, 0x8A, 0x8B]))
    yield from declared_as(box(b"stz2", FRONT), stz2([]))


def reserved_bytes_are_left_out():
    yield declared(changed(STZ2, {12: 0xF1, 13: 0xF2, 14: 0xF3}), stz2([0x89, 0x8A, 0x8B]), STZ2)


def another_version():
    yield declared(changed(STZ2, {8: 1}), NO_VERSION_1)


def fields_of_sizes():
    """ISO/IEC 14496-12, 8.7.3.3: sizes of 4, 8 and 16 bits, too few bytes, and sizes of another number of bits."""

    def sizes(bits, count, entries):
        return full(b"stz2", bytes(3), u8(bits), u32(count), entries, version=0, flags=21)

    # Sets the padding after sizes of 4 bits to 7, and adds a byte after those of 8 bits.
    yield fields(
        sizes(4, 3, b"\x12\x37"), version=0, flags=21, field_size=4, sample_count=3, entry_size=[1, 2, 3], padding=7)
    yield fields(
        sizes(8, 2, b"\x07\xfe\x05"), version=0, flags=21, field_size=8, sample_count=2, entry_size=[7, 254],
        data_bytes="05")
    yield fields(
        sizes(16, 2, b"\x12\x34\x56\x78"), version=0, flags=21, field_size=16, sample_count=2,
        entry_size=[4660, 22136])
    yield fields(
        sizes(16, 2, b"\x12\x34\x56"), version=0, flags=21, field_size=16, sample_count=2, data_bytes="123456")
    yield fields(sizes(5, 1, b"\x12"), version=0, flags=21, field_size=5, sample_count=1, data_bytes="12")
