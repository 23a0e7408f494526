"""`avcC`, the configuration of an AVC decoder, with its parameter sets. The bytes count up from 0x81, except the
counts and lengths of sets, which differ from one another. The codec's own box ends after the picture sets. The declared
one also has the format of samples, and the reserved bits.

The bits of the declared box before its sequence sets are 101001 10 and 010 00011, and those of the format are 100001
10, 10010 011 and 10011 101."""

from tests.rows.entry_sizes import value_from
from tests.rows.entry_values import AVCC, AVCC_VALUE, avcc, avcc_bytes
from tests.rows.making import (
    END, TOO_MANY_BYTES, Box, box, changed, counting, cuts, declared, declared_as, fields, one, resized, round_trip, u8,
    u16, written_as,
)

SEQUENCE = [counting(0x85, 0x86), counting(0x87, 0x87), counting(0x88, 0x8A)]
PICTURE = [counting(0x8B, 0x8B), b"", counting(0x8C, 0x8F), counting(0x90, 0x91)]
# Three sequence sets and four picture sets. The bits before the number of sequence sets are ones.
COUNTED = box(
    b"avcC", counting(0x81, 0x84), u8(0xFE),
    u8(0xE3), u16(2), counting(0x85, 0x86), u16(1), counting(0x87, 0x87), u16(3), counting(0x88, 0x8A),
    u8(4), u16(1), counting(0x8B, 0x8B), u16(0), u16(4), counting(0x8C, 0x8F), u16(2), counting(0x90, 0x91),
)


def counted(length_size_minus_one, sequence, picture):
    return avcc(0x81, 0x82, 0x83, 0x84, length_size_minus_one, sequence, picture)


def every_field():
    yield round_trip(COUNTED, counted(2, SEQUENCE, PICTURE))


def every_size_of_lengths():
    """The size of lengths is in the lowest two bits. The other bits are written as ones, and ignored."""
    for size, written in [(0, 0xFC), (1, 0xFD), (2, 0xFE), (3, 0xFF)]:
        value = counted(size, SEQUENCE, PICTURE)
        given = changed(COUNTED, {12: written})
        yield round_trip(given, value)
        for read in (size, size + 0x54, size + 0xA8):
            yield written_as(changed(COUNTED, {12: read}), value, given)


def count_of_sequence_sets_has_five_bits():
    for count in (0x03, 0x23, 0x43, 0x83):
        yield written_as(changed(COUNTED, {13: count}), counted(2, SEQUENCE, PICTURE), COUNTED)


def many_sets():
    """There are 2 bytes for each of 31 and 129 empty sets, and one for the count between them."""
    given = box(b"avcC", counting(0x81, 0x84), u8(0xFF, 0xFF), bytes(62), u8(129), bytes(258))
    yield round_trip(given, counted(3, [b""] * 31, [b""] * 129))


def long_set():
    long = b"\x99" * 0x8182
    given = box(b"avcC", counting(0x81, 0x84), u8(0xFF, 0xE0, 0x01, 0x81, 0x82), long)
    yield round_trip(given, counted(3, [], [long]))


HEAD = u8(1, 0x64, 0, 0x0D, 0xFF)


def counts_of_sets_with_nothing_after_them():
    for count in (1, 2, 31, 255):
        yield one(box(b"avcC", HEAD, u8(count), size=15), END)
    # The high bits of the first count are ignored, and those of the second are not.
    yield one(box(b"avcC", HEAD, b"\xe0\0"), avcc(1, 0x64, 0, 0x0D, 3, [], []))
    yield one(box(b"avcC", HEAD, b"\0\xe0"), END)
    # A set runs past the buffer.
    yield one(box(b"avcC", HEAD, b"\xe1\xff\xff\x67\x64", size=19), END)


def sets_of_zeros(sequence, picture):
    """Returns a configuration of zeros with the sets `sequence` and `picture`. The bits before the size of lengths are
    ones."""
    return round_trip(avcc_bytes(u8(0, 0, 0, 0, 0xFC), sequence, picture), avcc(0, 0, 0, 0, 0, sequence, picture))


def sets_without_bytes():
    yield sets_of_zeros([b""] * 31, [])
    yield sets_of_zeros([], [b""] * 255)


def set_of_65535_bytes():
    yield sets_of_zeros([], [bytes(65535)])


def lengths_of_four_bytes_are_read():
    sequence, picture = [b"\x67\x64\0\x0d"], [b"\x68"]
    yield round_trip(avcc_bytes(HEAD, sequence, picture), avcc(1, 0x64, 0, 0x0D, 3, sequence, picture))


def cut_anywhere():
    yield from cuts(AVCC)


def any_size_is_its_own():
    yield from value_from(AVCC_VALUE, AVCC, 0)


def sets(units):
    return b"".join(u16(len(it)) + it for it in units)


# Has three sequence sets, four picture sets, three extensions of sequence sets, and three bytes.
EXTENSIONS, REST = [counting(0x92, 0x92), b"", counting(0x93, 0x94)], counting(0x95, 0x97)
FRONT = counting(0x81, 0x84) + u8(0xA6, 0x43) + sets(SEQUENCE) + u8(4) + sets(PICTURE)
FORMAT = u8(0x86, 0x93, 0x9D)
WHOLE = box(b"avcC", FRONT, FORMAT, u8(3), sets(EXTENSIONS), REST)
FORMAT_FIELDS = {
    "reserved_before_chroma_format": 0x21, "chroma_format": 2, "reserved_before_luma": 0x12, "bit_depth_luma_minus8": 3,
    "reserved_before_chroma": 0x13, "bit_depth_chroma_minus8": 5,
}
# The places of the profile, and of the counts of sequence sets, picture sets and extensions.
PROFILE, SEQUENCES, PICTURES, EXTENSION_COUNT = 9, 13, 26, 45


def units(found):
    return [{"bytes": list(it)} for it in found]


def whole(extension, profile=0x82):
    config = {
        "configuration_version": 0x81, "avc_profile_indication": profile, "profile_compatibility": 0x83,
        "avc_level_indication": 0x84, "reserved_before_length": 0x29, "length_size_minus_one": 2,
        "reserved_before_sets": 2, "num_of_sequence_parameter_sets": 3,
    }
    return Box(
        "avcc", config=config, sequence_parameter_sets=units(SEQUENCE), picture_parameter_sets=units(PICTURE),
        extension=extension,
    )


def known(extensions, rest):
    found = {"format": FORMAT_FIELDS, "sequence_parameter_set_exts": units(extensions), "rest": list(rest)}
    return "Known", found


def other(rest):
    return "Other", list(rest)


def declared_with_everything():
    yield from declared_as(WHOLE, whole(known(EXTENSIONS, REST)))


def declared_with_the_format_only():
    yield from declared_as(box(b"avcC", FRONT, FORMAT, u8(0)), whole(known([], b"")))


def declared_in_each_profile():
    """Baseline, Main and Extended have no format of samples. All other profiles have it."""
    for profile in (66, 77, 88):
        given = changed(WHOLE, {PROFILE: profile})
        yield declared(given, whole(other(WHOLE[8 + len(FRONT):]), profile), given)
    for profile in (0, 44, 65, 67, 76, 78, 87, 89, 100, 110, 118, 122, 128, 144, 244, 255):
        given = changed(WHOLE, {PROFILE: profile})
        yield declared(given, whole(known(EXTENSIONS, REST), profile), given)


def declared_without_the_format():
    """Old files leave it out. Up to three bytes instead of it are kept."""
    for count in range(4):
        given = box(b"avcC", FRONT, FORMAT[:count])
        yield from declared_as(given, whole(other(FORMAT[:count])))
    baseline = changed(box(b"avcC", FRONT), {PROFILE: 66})
    yield from declared_as(baseline, whole(other(b""), 66))


def declared_with_each_bit():
    """Has only one bit set in each of the five bytes of bits."""
    for bit in range(8):
        length, samples = 1 << bit, 0x80 >> bit
        given = box(b"avcC", u8(0, 100, 0, 0, length, 0xE0 & 1 << bit, 0, samples, samples, length, 0))
        config = {
            "configuration_version": 0, "avc_profile_indication": 100, "profile_compatibility": 0,
            "avc_level_indication": 0, "reserved_before_length": length >> 2, "length_size_minus_one": length & 3,
            "reserved_before_sets": (0xE0 & 1 << bit) >> 5, "num_of_sequence_parameter_sets": 0,
        }
        bits = {
            "reserved_before_chroma_format": samples >> 2, "chroma_format": samples & 3,
            "reserved_before_luma": samples >> 3, "bit_depth_luma_minus8": samples & 7,
            "reserved_before_chroma": length >> 3, "bit_depth_chroma_minus8": length & 7,
        }
        extension = "Known", {"format": bits, "sequence_parameter_set_exts": [], "rest": []}
        yield declared(given, Box(
            "avcc", config=config, sequence_parameter_sets=[], picture_parameter_sets=[], extension=extension), given)


def declared_counts_that_are_too_small():
    """The last extension is taken for other bytes, and the length of a set for the count of picture sets or for the
    format."""
    given = changed(WHOLE, {EXTENSION_COUNT: 2})
    yield declared(given, whole(known(EXTENSIONS[:2], sets(EXTENSIONS[2:]) + REST)), given)
    for place, count in ((SEQUENCES, 0x42), (PICTURES, 3)):
        yield declared(changed(WHOLE, {place: count}), TOO_MANY_BYTES)


def declared_counts_that_are_too_large():
    for place, count in ((SEQUENCES, 0x44), (PICTURES, 5), (EXTENSION_COUNT, 4)):
        yield declared(changed(WHOLE, {place: count}), TOO_MANY_BYTES)
    # Ends after the count of extensions, of which the box has none.
    yield declared(box(b"avcC", FRONT, FORMAT, u8(1)), END)


def declared_lengths_that_are_too_large():
    # Makes the last extension one byte longer than the box.
    given = box(b"avcC", FRONT, FORMAT, u8(1), u16(4), counting(0x92, 0x94))
    yield declared(given, TOO_MANY_BYTES)
    yield declared(changed(given, {47: 3}), whole(known([counting(0x92, 0x94)], b"")), changed(given, {47: 3}))


def declared_with_other_sizes():
    size = len(WHOLE)
    yield declared(resized(WHOLE, size - 1), whole(known(EXTENSIONS, REST[:-1])), resized(WHOLE[:-1], size - 1))
    yield declared(resized(WHOLE, size - 4), TOO_MANY_BYTES)
    yield declared(resized(WHOLE, size + 1), END)


def fields_of_configuration():
    """ISO/IEC 14496-15, 5.3.3.1."""
    # Has ones before the size of lengths, which is 1, before the number of sequence sets, and before 2, 1 and 3.
    front = u8(1, 100, 2, 13, 0xFD, 0xE1) + u16(2) + u8(0x67, 6, 1) + u16(3) + u8(0x68, 7, 8)
    of_front = {
        "configurationVersion": 1, "AVCProfileIndication": 100, "AVCProfileIndication_name": "High",
        "profile_compatibility": 2, "AVCLevelIndication": 13, "lengthSizeMinusOne": 1, "numOfSequenceParameterSets": 1,
        "sequenceParameterSetNALUnit": ["6706"], "numOfPictureParameterSets": 1,
        "pictureParameterSetNALUnit": ["680708"],
    }
    yield fields(box(b"avcC", front), **of_front)
    yield fields(
        box(b"avcC", front, u8(0xFE, 0xF9, 0xFB, 2), u16(1), u8(0x6D), u16(0), u8(9)), **of_front, chroma_format=2,
        bit_depth_luma_minus8=1, bit_depth_chroma_minus8=3, numOfSequenceParameterSetExt=2,
        sequenceParameterSetExtNALUnit=["6d", ""], data_bytes="09",
    )


def fields_of_reserved_bits():
    """ISO/IEC 14496-15, 5.3.3.1: reserved bits that aren't set, and bytes after a configuration of Baseline."""
    none = {
        "sequenceParameterSetNALUnit": [], "numOfPictureParameterSets": 0, "pictureParameterSetNALUnit": [],
    }
    yield fields(
        box(b"avcC", u8(1, 66, 0, 30, 0x03, 0x40, 0, 0xAA, 0xBB)), configurationVersion=1, AVCProfileIndication=66,
        AVCProfileIndication_name="Baseline", profile_compatibility=0, AVCLevelIndication=30, reserved_before_length=0,
        lengthSizeMinusOne=3, reserved_before_sets=2, numOfSequenceParameterSets=0, **none, data_bytes="aabb",
    )
    yield fields(
        box(b"avcC", u8(1, 118, 0, 30, 0xFF, 0xE0, 0, 0x05, 0x0B, 0x14, 0)), configurationVersion=1,
        AVCProfileIndication=118, profile_compatibility=0, AVCLevelIndication=30, lengthSizeMinusOne=3,
        numOfSequenceParameterSets=0, **none, reserved_before_chroma_format=1, chroma_format=1, reserved_before_luma=1,
        bit_depth_luma_minus8=3, reserved_before_chroma=2, bit_depth_chroma_minus8=4, numOfSequenceParameterSetExt=0,
        sequenceParameterSetExtNALUnit=[],
    )
