"""`esds`, the descriptors of an elementary stream: lengths in every form, wrong lengths, audio configurations, cuts and
sizes. The codec's own box keeps some descriptors, and the headers of those that it reads are counted. The declared box
keeps all. In `COUNTED` and `WHOLE` the bytes of the fields count up from 0x81, except those whose fields are some of
their bits."""

from tests.rows.entry_values import (
    AUDIO_CONFIGURATIONS, ESDS, ESDS_VALUE, config, esds, esds_bytes, esds_bytes_of, esds_of, specific,
)
from tests.rows.making import (
    END, LARGEST, NO_VERSION_1, PAST_64_BITS, TOO_MANY_BYTES, WRONG_SIZE, Box, box, changed, counting, declared,
    declared_as, fields, full, invalid, large, one, resized, round_trip, u8, u16, u24, u32, written_as,
)

NOT_FOUND = invalid("ESDescriptor not found")

# The descriptors of stream 1, of low complexity at 48000 hertz in stereo.
STEREO = esds_bytes_of(1, 128000, b"\x11\x90")
STEREO_VALUE = esds_of(1, 128000, specific(2, 3, None, 2))

# The audio configuration has 2 bytes: object type 22, index 13, channels 12.
COUNTED = box(
    b"esds", counting(0x81, 0x84), u8(3, 25), counting(0x85, 0x86), u8(0, 4, 17), u8(0x87, 0x8B), counting(0x88, 0x8A),
    counting(0x8C, 0x93), u8(5, 2, 0xB6, 0xE0, 6, 0, 0),
)


def counted(dec_specific, stream_type=34, up_stream=2):
    """Returns the value of `COUNTED`, with the audio configuration `dec_specific` and the stream type `stream_type`."""
    stream = config(0x87, stream_type, up_stream, 0x88898A, 0x8C8D8E8F, 0x90919293, dec_specific)
    return esds(0x8586, stream, version=0x81, flags=0x828384)


COUNTED_VALUE = counted(specific(22, 13, None, 12))


def configured(content):
    """Returns the bytes of `COUNTED` with an audio configuration of the bytes `content`."""
    n = len(content)
    lengths = {13: 23 + n, 18: 15 + n, 33: n}
    return resized(changed(COUNTED[:34], lengths) + content + u8(6, 0, 0), 37 + n)


def every_field():
    yield round_trip(COUNTED, COUNTED_VALUE)


def descriptors_of_zeros():
    given = box(b"esds", bytes(4), u8(3, 25), bytes(3), u8(4, 17, 0, 1), bytes(11), u8(5, 2, 0, 0, 6, 0, 0))
    yield round_trip(given, esds(0))


def every_form_of_an_audio_configuration():
    for audio, content in [
        ((84, 11, None, 14), b"\xfe\x97\xc0"),
        ((22, 15, 0xC32435, 12), b"\xb7\xe1\x92\x1a\xe0"),
        ((84, 15, 0xA5C317, 14), b"\xfe\x9f\x4b\x86\x2f\xc0"),
    ]:
        yield round_trip(configured(content), counted(specific(*audio)))


def one_bit_of_an_audio_configuration():
    for audio, content in [
        ((1, 0, None, 0), b"\x08\0"),
        ((16, 0, None, 0), b"\x80\0"),
        ((0, 1, None, 0), b"\0\x80"),
        ((0, 8, None, 0), b"\x04\0"),
        ((0, 0, None, 1), b"\0\x08"),
        ((0, 0, None, 8), b"\0\x40"),
    ]:
        yield round_trip(configured(content), counted(specific(*audio)))


def one_bit_of_a_long_audio_configuration():
    for audio, content in [
        ((33, 0, None, 0), b"\xf8\x20\0"),
        ((64, 0, None, 0), b"\xfc\0\0"),
        ((32, 1, None, 0), b"\xf8\x02\0"),
        ((32, 8, None, 0), b"\xf8\x10\0"),
        ((32, 0, None, 1), b"\xf8\0\x20"),
        ((32, 0, None, 8), b"\xf8\x01\0"),
    ]:
        yield round_trip(configured(content), counted(specific(*audio)))


def one_bit_of_a_sampling_rate():
    for audio, content in [
        ((0, 15, 1, 0), b"\x07\x80\0\0\x80"),
        ((0, 15, 0x800000, 0), b"\x07\xc0\0\0\0"),
        ((1, 15, 0, 0), b"\x0f\x80\0\0\0"),
        ((0, 15, 0, 1), b"\x07\x80\0\0\x08"),
    ]:
        yield round_trip(configured(content), counted(specific(*audio)))


def one_bit_of_a_sampling_rate_in_a_long_configuration():
    for audio, content in [
        ((32, 15, 1, 0), b"\xf8\x1e\0\0\x02\0"),
        ((32, 15, 0x800000, 0), b"\xf8\x1f\0\0\0\0"),
        ((33, 15, 0, 0), b"\xf8\x3e\0\0\0\0"),
        ((32, 15, 0, 1), b"\xf8\x1e\0\0\0\x20"),
    ]:
        yield round_trip(configured(content), counted(specific(*audio)))


def stream_types_and_directions():
    """The lowest bit is ignored."""
    for stream_type, up_stream, byte in [(0, 0, 0x01), (0, 2, 0x03), (1, 0, 0x05), (32, 0, 0x81), (63, 2, 0xFF)]:
        value = counted(specific(22, 13, None, 12), stream_type, up_stream)
        given = changed(COUNTED, {20: byte})
        yield round_trip(given, value)
        yield written_as(changed(COUNTED, {20: byte - 1}), value, given)


def reserved_bytes_are_ignored():
    """Reserved bytes are the flags of an elementary stream descriptor, and the content of a sync layer
    configuration."""
    for place in (16, 38):
        yield written_as(changed(COUNTED, {place: 0xA5}), COUNTED_VALUE, COUNTED)


def other_tags():
    """With another tag in a place, no descriptor is found there."""
    yield one(changed(COUNTED, {12: 0x83}), NOT_FOUND)
    yield one(changed(COUNTED, {17: 0x84}), esds(0x8586, version=0x81, flags=0x828384))
    yield one(changed(COUNTED, {32: 0x85}), counted(specific()))


def descriptors_of_encoders():
    """The last three bytes of the third audio configuration are read as a header of length 12928, and so as a gap to
    after the end."""
    decoder = u8(0x40, 0x15) + u24(0) + u32(128000, 128000)
    for stream_length, decoder_length, content in [
        (0x22, 0x14, b"\x11\x90"),
        # The last three bits of an audio configuration are not read.
        (0x22, 0x14, b"\x11\x97"),
        (0x25, 0x17, b"\x11\x90\x56\xe5\0"),
    ]:
        stream = b"\3\x80\x80\x80" + u8(stream_length) + u16(1) + u8(0)
        audio = b"\5\x80\x80\x80" + u8(len(content)) + content
        yield one(
            esds_bytes(stream, b"\4\x80\x80\x80", u8(decoder_length), decoder, audio, b"\6\x80\x80\x80\1\2"),
            STEREO_VALUE, headers=4,
        )
    yield one(STEREO, STEREO_VALUE, headers=4)


def descriptors_are_written_with_short_lengths():
    yield round_trip(STEREO, STEREO_VALUE)


def hundred_descriptors():
    """The first descriptor has 62 of them, and the next ends the reading."""
    yield one(esds_bytes(b"\3\x7f\0\1\0", b"\7\0" * 100), esds(1), headers=64)


def lengths_in_every_form():
    for header, expected in [
        (b"\3\x19", STEREO_VALUE),
        (b"\3\x80\x19", STEREO_VALUE),
        (b"\3\x80\x80\x19", STEREO_VALUE),
        (b"\3\x80\x80\x80\x19", STEREO_VALUE),
        # The high bit of the fourth byte is ignored.
        (b"\3\x80\x80\x80\x99", STEREO_VALUE),
        # A length of 2^28 - 1 goes past the end, where a header is missing.
        (b"\3\xff\xff\xff\xff", END),
    ]:
        yield one(esds_bytes(header, STEREO[14:]), expected, headers=4)


def lengths_of_gaps_in_every_form():
    """The gaps have 300 and more bytes, in an elementary stream descriptor that ends where the gap begins."""
    for header, end in [
        (b"\7\x82\x2c\0\0", 320),
        (b"\7\x81\x80\0\0", 16405),
        (b"\7\x80\x81\x80\0", 16406),
        (b"\7\x81\x80\x80\0", 2097174),
    ]:
        yield one(esds_bytes(b"\3\4\0\1\0", header, size=end), esds(1), headers=2)
        yield one(esds_bytes(b"\3\4\0\1\0", header, size=end + 1), END, headers=2)


def lengths_that_lie():
    """The rows have the lengths of the four descriptors, and what is read: each begins where the content before it
    ended."""
    without_config = esds(1)
    without_specific = esds_of(1, 128000, specific())
    for stream, decoder, audio, sync, expected, headers in [
        (0, 17, 2, 0, without_config, 2),
        (3, 17, 2, 0, without_config, 2),
        (4, 17, 2, 0, STEREO_VALUE, 4),
        (22, 17, 2, 0, STEREO_VALUE, 4),
        (25, 0, 2, 0, without_specific, 4),
        (25, 13, 2, 0, without_specific, 4),
        (25, 14, 2, 0, STEREO_VALUE, 4),
        (25, 17, 0, 0, STEREO_VALUE, 4),
        (25, 17, 127, 0, STEREO_VALUE, 4),
        (25, 17, 2, 127, STEREO_VALUE, 4),
        (26, 17, 2, 0, END, 4),
        (127, 17, 2, 0, END, 4),
        (25, 18, 2, 0, END, 4),
        (25, 127, 2, 0, END, 4),
    ]:
        yield one(changed(STEREO, {13: stream, 18: decoder, 33: audio, 37: sync}), expected, headers=headers)


def decoder_of(object_type):
    """Returns the content of a decoder configuration with the type `object_type`, and zeros otherwise."""
    return u8(object_type, 0x15) + bytes(11)


def last_descriptor_of_a_tag_is_kept():
    def stream_1(object_type, *audio):
        return esds(1, config(object_type, 5, dec_specific=specific(*audio)))

    first, second = b"\3\3\0\1\0", b"\3\3\0\2\0"
    audio, other_audio = b"\5\2\x11\x90", b"\5\2\x19\x90"
    of_41, of_42 = decoder_of(0x41), decoder_of(0x42)
    for descriptors, headers, expected in [
        (first + second, 2, esds(2)),
        # Another tag ends the box.
        (first + b"\7\0" + second, 2, esds(1)),
        # One elementary stream descriptor in another is a gap.
        (b"\3\x08\0\1\0" + second, 2, esds(1)),
        (b"\3\x21\0\1\0\4\x0d" + of_41 + b"\4\x0d" + of_42, 3, stream_1(0x42)),
        (b"\3\x1a\0\1\0\4\x15" + of_41 + audio + other_audio, 4, stream_1(0x41, 3, 3, None, 2)),
        # The second configuration has no audio configuration: it is the default.
        (b"\3\x25\0\1\0\4\x11" + of_41 + audio + b"\4\x0d" + of_42, 4, stream_1(0x42)),
        # The second elementary stream descriptor has no configuration.
        (b"\3\x16\0\1\0\4\x11" + of_41 + audio + second, 4, esds(2)),
        # A gap of 3 bytes in each of the two.
        (
            b"\3\x20\0\1\0\x80\3\4\5\6\4\x16" + of_41 + b"\x81\3\4\5\6" + audio, 5, stream_1(0x41, 2, 3, None, 2),
        ),
    ]:
        yield one(esds_bytes(descriptors), expected, headers=headers)


def headers_before_a_fault_are_counted():
    none = esds_bytes(b"\4\0")
    yield one(none, NOT_FOUND, headers=1)
    yield one(none[:13], END, headers=0)


def headers_of_wrong_sizes_are_counted():
    for size, expected, headers in [
        (0, NOT_FOUND, 0),
        (7, NOT_FOUND, 0),
        (12, NOT_FOUND, 0),
        (13, ESDS_VALUE, 4),
        (15, ESDS_VALUE, 4),
        (16, ESDS_VALUE, 4),
        (42, ESDS_VALUE, 4),
        (44, END, 4),
        (LARGEST, END, 4),
    ]:
        yield one(resized(ESDS, size), expected, headers=headers)


def headers_past_64_bits_are_counted():
    """The box has the largest number, and is one byte behind the front."""
    yield one(b"\0" + large(b"esds", ESDS[8:], number=2**64 - 1), PAST_64_BITS, after=17, at=1, headers=0)


def cut_descriptors():
    """The headers of the descriptors end at 14, 19, 34 and 42."""
    for length in range(8, len(ESDS)):
        yield one(ESDS[:length], END, headers=sum(length >= end for end in (14, 19, 34, 42)))
    for length in range(8):
        yield one(ESDS[:length], END)


def audio_configurations():
    for *audio, content in AUDIO_CONFIGURATIONS:
        for bitrate in (0, 128000):
            yield round_trip(esds_bytes_of(1, bitrate, content), esds_of(1, bitrate, specific(*audio)))


def other_bits_of_an_audio_configuration():
    for content, written, audio in [
        (b"\x11\x97", b"\x11\x90", specific(2, 3, None, 2)),
        (b"\xf8\x40\x5f", b"\xf8\x40\x40", specific(34, 0, None, 2)),
        (b"\x17\x80\x61\xa8\x17", b"\x17\x80\x61\xa8\x10", specific(2, 15, 50000, 2)),
        (b"\xf9\x5e\x01\x86\xa0\xdf", b"\xf9\x5e\x01\x86\xa0\xc0", specific(42, 15, 50000, 6)),
    ]:
        value = esds_of(1, 128000, audio)
        yield written_as(esds_bytes_of(1, 128000, content), value, esds_bytes_of(1, 128000, written))
        yield round_trip(esds_bytes_of(1, 128000, written), value)


def cut_audio_configurations():
    """All bytes of the configuration are expected, whatever follows."""
    for content in (b"\x11\x90", b"\xf8\x40\x40", b"\x17\x80\x61\xa8\x10", b"\xf9\x5e\x01\x86\xa0\xc0"):
        given = esds_bytes_of(1, 128000, content)
        for length in range(34, 34 + len(content)):
            yield one(given[:length], END)


MANY = 3000
GAP = b"\7\0"
DECODER = b"\x41\x15" + bytes(11)
AUDIO = b"\5\2\x11\x90"
WITH_CONFIG = esds(1, config(0x41, 5))
WITH_AUDIO = esds(1, config(0x41, 5, dec_specific=specific(2, 3, None, 2)))


def described(tag, content):
    """Returns a descriptor, with its length in two bytes."""
    return bytes([tag, 0x80 | len(content) >> 7, len(content) & 0x7F]) + content


def stream(es_id, *descriptors):
    """Returns an elementary stream descriptor."""
    return described(3, u16(es_id) + b"\0" + b"".join(descriptors))


def last_of_thousands_of_streams_is_kept():
    streams = [stream(number) for number in range(MANY)]
    yield one(esds_bytes(*streams), esds(MANY - 1), headers=MANY)
    yield one(esds_bytes(*streams, GAP, stream(7)), esds(MANY - 1), headers=MANY + 1)


def thousands_of_gaps_in_a_stream():
    yield one(esds_bytes(stream(1, GAP * MANY, described(4, DECODER))), WITH_CONFIG, headers=MANY + 2)


def thousands_of_gaps_in_a_decoder_configuration():
    configured = described(4, DECODER + GAP * MANY + AUDIO)
    yield one(esds_bytes(stream(1, configured)), WITH_AUDIO, headers=MANY + 3)


def last_of_thousands_of_configurations_is_kept():
    """Each configuration is 16 bytes long, so that a length of two bytes holds a thousand of them."""
    first = described(4, b"\x40" + bytes(12)) * 999
    yield one(esds_bytes(stream(1, first, described(4, DECODER))), WITH_CONFIG, headers=1001)
    audio = b"\5\2\x19\x90" * MANY + AUDIO
    yield one(esds_bytes(stream(1, described(4, DECODER + audio))), WITH_AUDIO, headers=MANY + 3)


def sync_layer_configuration_has_a_byte_whatever_its_length():
    """The descriptor after the byte is read, also where the length goes past it or past the end."""
    for length in (0, 1, 2, 3, 15, 16, 17, 18, 100, 127):
        layers = bytes([6, length, 2])
        yield one(esds_bytes(stream(1, layers, described(4, DECODER))), WITH_CONFIG, headers=3)
        yield one(esds_bytes(stream(1, layers, layers, described(4, DECODER), layers)), WITH_CONFIG, headers=5)


def every_other_tag_is_a_gap():
    for tag in range(256):
        gap = bytes([tag, 2, 0xFF, 0xFF])
        if tag not in (4, 6):
            yield one(esds_bytes(stream(1, gap, described(4, DECODER))), WITH_CONFIG, headers=3)
        if tag != 5:
            yield one(esds_bytes(stream(1, described(4, DECODER + gap + AUDIO))), WITH_AUDIO, headers=4)


def every_other_tag_ends_the_streams():
    for tag in range(256):
        if tag != 3:
            yield one(esds_bytes(stream(1), bytes([tag, 0]), stream(2)), esds(1), headers=2)


def configuration(kind, content, *after, stream=0x17):
    """Returns an `esds` with this object type and these bytes of the decoder, and the fields before its configuration.
    The stream type is 5 in six bits, before the direction 1 and a bit of 1."""
    inside = u8(5, len(content)) + content if content is not None else b""
    inner = u8(4, 13 + len(inside)) + u8(kind, stream) + u24(7) + u32(8, 9) + inside
    return full(b"esds", u8(3, 3 + len(inner) + 3), u16(3), u8(0x0B), inner, u8(6, 1, 2), *after)


def shown(kind, kind_name, content, **audio):
    """Returns the fields of `configuration`."""
    names = {} if kind_name is None else {"objectTypeIndication_name": kind_name}
    decoder = [] if content is None else [{"tag": 5, "tag_name": "DecoderSpecificInfo", "data_bytes": content.hex()}]
    return {
        "version": 0, "flags": 0, "ES_ID": 3, "streamDependenceFlag": 0, "URL_Flag": 0, "OCRstreamFlag": 0,
        "streamPriority": 11, "decConfigDescr": {
            "objectTypeIndication": kind, **names, "streamType": 5, "streamType_name": "audio", "upStream": 1,
            "bufferSizeDB": 7, "maxBitrate": 8, "avgBitrate": 9, **({"AudioSpecificConfig": audio} if audio else {}),
        }, "decoder_descriptors": decoder, "descriptors": [
            {"tag": 6, "tag_name": "SLConfigDescriptor", "predefined": 2, "predefined_name": "MP4 file"}],
    }


def bits(text):
    """Returns the bytes of the bits in `text`, with bits of 0 up to the end of the last byte."""
    digits = text.replace(" ", "")
    count = (len(digits) + 7) // 8
    return int(digits.ljust(8 * count, "0"), 2).to_bytes(count, "big")


# AAC LC, the frequency with index 7, and stereo. The two words that begin an extension are 0x2B7 and 0x548.
LC = "00010 0111 0010"
LC_FIELDS = {
    "audioObjectType": 2, "audioObjectType_name": "AAC LC", "samplingFrequencyIndex": 7, "samplingFrequency": 22050,
    "channelConfiguration": 2, "channelConfiguration_name": "stereo",
}
SBR_WORD, PS_WORD = "01010110111", "10101001000"
# An extension with SBR, and the index 4.
SBR = SBR_WORD + "00101 1 0100"


def sbr(ps=None, index=4, frequency=44100, present=1):
    """Returns the fields of an extension, with the flag of parametric stereo `ps` if it isn't None."""
    names = {"extensionAudioObjectType": 5, "sbrPresentFlag": present, "psPresentFlag": ps,
             "extensionSamplingFrequencyIndex": index, "extensionSamplingFrequency": frequency}
    return {name: value for name, value in names.items() if value is not None}


def with_audio(content, *parts):
    """Expects the fields `parts` of a configuration of MPEG-4 audio in the bits of the text `content`."""
    content = bits(content)
    audio = {name: value for part in parts for name, value in part.items()}
    return fields(configuration(0x40, content), **shown(0x40, "MPEG-4 Audio", content, **audio))


def fields_of_audio():
    """ISO/IEC 14496-3, 1.6.2.1: an object type of 5 or 11 bits, a frequency by its index or in 24 bits, and channels in
    4 bits."""
    yield with_audio("01010 1111 000000000000000000001101 1100", {
        "audioObjectType": 10, "samplingFrequencyIndex": 15, "samplingFrequency": 13, "channelConfiguration": 12})
    yield with_audio("01010 1011 1100", {
        "audioObjectType": 10, "samplingFrequencyIndex": 11, "samplingFrequency": 8000, "channelConfiguration": 12})
    yield with_audio("11111 001010 0011 0111", {
        "audioObjectType": 42, "audioObjectType_name": "USAC", "samplingFrequencyIndex": 3, "samplingFrequency": 48000,
        "channelConfiguration": 7, "channelConfiguration_name": "7.1"})
    yield with_audio("11111 100101 1111 100000010000001000000011 1001", {
        "audioObjectType": 69, "samplingFrequencyIndex": 15, "samplingFrequency": 0x810203, "channelConfiguration": 9})


def fields_of_audio_frequencies():
    """ISO/IEC 14496-3, 1.6.3.4: two indices are reserved."""
    frequencies = [
        96000, 88200, 64000, 48000, 44100, 32000, 24000, 22050, 16000, 12000, 11025, 8000, 7350, None, None,
    ]
    for index, frequency in enumerate(frequencies):
        of_index = {"samplingFrequencyIndex": index, "samplingFrequency": frequency}
        yield with_audio(f"00001 {index:04b} 0001", {"audioObjectType": 1, "audioObjectType_name": "AAC Main"}, {
            name: value for name, value in of_index.items() if value is not None
        }, {"channelConfiguration": 1, "channelConfiguration_name": "mono"})


def fields_of_extended_audio():
    """ISO/IEC 14496-3, 1.6.2.1: SBR and PS with the object type that they extend after them."""
    yield with_audio("00101 0111 0010 0100 00010", LC_FIELDS, sbr())
    yield with_audio("11101 0111 0010 0100 00010", LC_FIELDS, sbr(ps=1))
    yield with_audio("00101 1111 000000000000000010000001 1010 1111 000000000000000010000010 11111 000110", {
        "audioObjectType": 38, "samplingFrequencyIndex": 15, "samplingFrequency": 0x81, "channelConfiguration": 10,
    }, sbr(index=15, frequency=0x82))
    # An extension that follows isn't another one.
    yield with_audio("00101 0111 0010 0100 00010 000" + SBR_WORD + "00101 1 0011", LC_FIELDS, sbr())
    yield with_audio("00101 0111 0010 1101 00010", LC_FIELDS, sbr(index=13, frequency=None))


def fields_of_audio_with_an_extension_after_it():
    """ISO/IEC 14496-3, 1.6.2.1 and 4.4.1: an extension after the configuration of a coder."""
    yield with_audio(LC + "000" + SBR, LC_FIELDS, sbr())
    yield with_audio(LC + "000" + SBR + PS_WORD + "1", LC_FIELDS, sbr(ps=1))
    yield with_audio(LC + "000" + SBR + PS_WORD + "0", LC_FIELDS, sbr(ps=0))
    yield with_audio(LC + "000" + SBR_WORD + "00101 0", LC_FIELDS, sbr(present=0, index=None, frequency=None))
    yield with_audio(
        LC + "000" + SBR_WORD + "00101 1 1111 000000000000000010000011" + PS_WORD + "1", LC_FIELDS,
        sbr(ps=1, index=15, frequency=0x83))
    # The coder depends on another one, and has its delay in 14 bits.
    yield with_audio(LC + "0 1 10101010101010 0" + SBR, LC_FIELDS, sbr())
    # The flag of an extension of the coder, and another one.
    yield with_audio(LC + "0 0 1 0" + SBR, LC_FIELDS, sbr())
    yield with_audio(LC + "1 1 01010101010101 1 1" + SBR + PS_WORD + "1", LC_FIELDS, sbr(ps=1))
    for kind, name in ((1, "AAC Main"), (3, "AAC SSR"), (4, "AAC LTP")):
        yield with_audio(
            f"{kind:05b} 0111 0010 000" + SBR, dict(LC_FIELDS, audioObjectType=kind, audioObjectType_name=name), sbr())


def fields_of_audio_without_an_extension():
    """ISO/IEC 14496-3, 1.6.2.1 and 4.4.1: each of these has other bits between the configuration and an extension, or
    another word."""
    for kind, name in ((6, "AAC Scalable"), (17, "ER AAC LC"), (22, "ER BSAC")):
        yield with_audio(
            f"{kind:05b} 0111 0010 000" + SBR, dict(LC_FIELDS, audioObjectType=kind, audioObjectType_name=name))
    yield with_audio("00010 0111 0000 000" + SBR, dict(
        LC_FIELDS, channelConfiguration=0, channelConfiguration_name="defined in the stream"))
    yield with_audio(LC + "000" + "01010110110" + "00101 1 0100", LC_FIELDS)
    yield with_audio(LC + "000" + SBR_WORD + "00100 1 0100", LC_FIELDS)
    yield with_audio(LC + "000" + SBR + "10101001001" + "1", LC_FIELDS, sbr())


def fields_of_audio_that_ends_early():
    """ISO/IEC 14496-3, 1.6.2.1: a part is shown if all its bits are present."""
    for content in (b"", b"\x11", b"\x57\x80\0\0", b"\xf9\x46", b"\x2b\x92", b"\xff\xff"):
        yield fields(configuration(0x40, content), **shown(0x40, "MPEG-4 Audio", content))
    # The flag of SBR is missing, or the last byte of a frequency, or the flag of PS.
    for cut, *parts in [
        (LC + "000" + SBR_WORD + "00101", LC_FIELDS),
        (LC + "000" + SBR_WORD + "00101 1 1111 0000000000000000100", LC_FIELDS),
        (LC + "000" + SBR + PS_WORD, LC_FIELDS, sbr()),
    ]:
        assert len(cut.replace(" ", "")) % 8 == 0
        yield with_audio(cut, *parts)


def fields_of_other_decoders():
    """ISO/IEC 14496-1, 7.2.6.6.2: only MPEG-4 audio has such a configuration."""
    for kind, name in ((0x6B, "MPEG-1 Audio"), (0xDD, "Vorbis"), (0x67, "MPEG-2 AAC LC"), (0x04, None)):
        for content in (b"\x11\x90", None):
            yield fields(configuration(kind, content), **shown(kind, name, content))
    yield fields(configuration(0x40, None), **shown(0x40, "MPEG-4 Audio", None))
    # Has a byte too few for a configuration.
    yield fields(configuration(0x40, b"\x11"), **shown(0x40, "MPEG-4 Audio", b"\x11"))
    yield fields(configuration(0x40, b"\x11\x90", b"\xab"), **shown(
        0x40, "MPEG-4 Audio", b"\x11\x90", audioObjectType=2, audioObjectType_name="AAC LC", samplingFrequencyIndex=3,
        samplingFrequency=48000, channelConfiguration=2, channelConfiguration_name="stereo"), data_bytes="ab")


def fields_of_streams():
    """ISO/IEC 14496-1, 7.2.6.5: what the three flags say is present. Sizes in four bytes and in two."""
    inner = b"\4\x80\x0d" + u8(0x20, 0x10) + u24(7) + u32(8, 9)
    for flags in range(8):
        first, second, third = flags >> 2, flags >> 1 & 1, flags & 1
        after = u16(0x8485) + u8(flags << 5 | 11) + first * u16(0x8687) + second * b"\2ab" + third * u16(0x8889) + inner
        parts = {"dependsOn_ES_ID": 0x8687, "URLstring": "ab", "OCR_ES_Id": 0x8889}
        yield fields(
            full(b"esds", b"\3\x80\x80\x80" + u8(len(after)), after), version=0, flags=0,
            ES_Descriptor_size_bytes=4, ES_ID=0x8485, streamDependenceFlag=first, URL_Flag=second,
            OCRstreamFlag=third, streamPriority=11,
            **{name: value for (name, value), flag in zip(parts.items(), (first, second, third)) if flag},
            decConfigDescr={
                "size_bytes": 2, "objectTypeIndication": 0x20, "objectTypeIndication_name": "MPEG-4 Visual",
                "streamType": 4, "streamType_name": "visual", "upStream": 0, "reserved": 0, "bufferSizeDB": 7,
                "maxBitrate": 8, "avgBitrate": 9}, decoder_descriptors=[], descriptors=[])


def described_as(*descriptors, of_decoder=b"", inside=()):
    """Expects the fields of an `esds` with descriptors that are shown as `descriptors`, each a pair of bytes and
    fields, after the configuration of a decoder with the descriptors `of_decoder`, shown as `inside`."""
    inner = u8(4, 13 + len(of_decoder)) + u8(0x6C, 0x11) + u24(1) + u32(2, 3) + of_decoder
    after = u16(4) + u8(5) + inner + b"".join(content for content, _ in descriptors)
    return fields(
        full(b"esds", u8(3, len(after)), after), version=0, flags=0, ES_ID=4, streamDependenceFlag=0, URL_Flag=0,
        OCRstreamFlag=0, streamPriority=5, decConfigDescr={
            "objectTypeIndication": 0x6C, "objectTypeIndication_name": "JPEG", "streamType": 4,
            "streamType_name": "visual", "upStream": 0, "bufferSizeDB": 1, "maxBitrate": 2, "avgBitrate": 3},
        decoder_descriptors=list(inside), descriptors=[shown_as for _, shown_as in descriptors])


LAYER_FLAGS = (
    "useAccessUnitStartFlag useAccessUnitEndFlag useRandomAccessPointFlag hasRandomAccessUnitsOnlyFlag usePaddingFlag"
    " useTimeStampsFlag useIdleFlag durationFlag").split()


def layer(content, **of_layer):
    """Returns a configuration of the synchronization layer with these bytes, and its fields."""
    return u8(6, len(content)) + content, {"tag": 6, "tag_name": "SLConfigDescriptor", **of_layer}


def fields_of_synchronization_layers():
    """ISO/IEC 14496-1, 7.3.2.3. The last 16 bits are 1000 11011 00011 and two reserved ones, 11 in the standard."""
    numbers = counting(0x81, 0x8C)
    names = {
        "timeStampResolution": 0x81828384, "OCRResolution": 0x85868788, "timeStampLength": 0x89, "OCRLength": 0x8A,
        "AU_Length": 0x8B, "instantBitrateLength": 0x8C, "degradationPriorityLength": 8, "AU_seqNumLength": 27,
        "packetSeqNumLength": 3,
    }
    for flag in range(8):
        flags = {name: int(number == flag) for number, name in enumerate(LAYER_FLAGS)}
        custom = {"predefined": 0, "predefined_name": "custom", **flags, **names}
        yield described_as(layer(u8(0, 0x80 >> flag) + numbers + b"\x8d\x8f", **custom))
        for reserved in range(3):
            yield described_as(
                layer(u8(0, 0x80 >> flag) + numbers + u8(0x8D, 0x8C + reserved), **custom, reserved=reserved))
    yield described_as(
        layer(u8(0, 0x01) + numbers + b"\x8d\x8f\x91\x92", **custom, data_bytes="9192"))
    # A descriptor is shown by its tag wherever it is.
    content, shown_as = layer(u8(0, 0x01) + numbers + b"\x8d\x8c", **custom, reserved=0)
    yield described_as(of_decoder=content, inside=[shown_as])


def fields_of_other_synchronization_layers():
    """ISO/IEC 14496-1, 7.3.2.3: one is predefined, or has a byte too few."""
    fifteen = counting(0x81, 0x8E)
    yield described_as(layer(b"\0" + fifteen, predefined=0, predefined_name="custom", data_bytes=fifteen.hex()))
    yield described_as(layer(b"\0", predefined=0, predefined_name="custom"))
    yield described_as(layer(b"\1", predefined=1, predefined_name="null SL packet header"))
    yield described_as(layer(b"\2\xab\xcd", predefined=2, predefined_name="MP4 file", data_bytes="abcd"))
    yield described_as(layer(b"\3" + fifteen + b"\x8f", predefined=3, data_bytes=fifteen.hex() + "8f"))
    yield described_as(layer(b"", data_bytes=""))


def fields_of_many_descriptors():
    """ISO/IEC 14496-1, 7.2.2.1: descriptors of the decoder and of the stream, in the order of the file. Audio has no
    configuration if its bytes aren't first."""
    inside = [{"tag": 0x14, "tag_name": "ProfileLevelIndicationIndexDescriptor", "data_bytes": "81"},
              {"tag": 5, "tag_name": "DecoderSpecificInfo", "size_bytes": 3, "data_bytes": "1190"}]
    yield described_as(
        (b"\x0d\4abcd", {"tag": 13, "tag_name": "RegistrationDescriptor", "data_bytes": "61626364"}),
        layer(b"\2", predefined=2, predefined_name="MP4 file"),
        (b"\x43\x80\3eng", {"tag": 67, "tag_name": "LanguageDescriptor", "size_bytes": 2, "data_bytes": "656e67"}),
        (b"\xfe\0", {"tag": 0xFE, "data_bytes": ""}),
        of_decoder=b"\x14\1\x81" + b"\5\x80\x80\2\x11\x90", inside=inside)
    given = u8(4, 22) + u8(0x40, 0x15) + u24(1) + u32(2, 3) + b"\x14\1\x81" + b"\5\x80\x80\2\x11\x90"
    yield fields(
        full(b"esds", u8(3, 27), u16(4), u8(5), given), version=0, flags=0, ES_ID=4, streamDependenceFlag=0,
        URL_Flag=0, OCRstreamFlag=0, streamPriority=5, decConfigDescr={
            "objectTypeIndication": 0x40, "objectTypeIndication_name": "MPEG-4 Audio", "streamType": 5,
            "streamType_name": "audio", "upStream": 0, "bufferSizeDB": 1, "maxBitrate": 2, "avgBitrate": 3},
        decoder_descriptors=inside, descriptors=[])


WRONG_TAG = invalid("descriptor has another tag than the one expected")
LONG_SIZE = invalid("size of a descriptor has more than four bytes")
# The bits are 1 1 1 10101, and 100011 1 0.
CONFIG = u8(0x8D, 0x8E) + counting(0x8F, 0x99) + b"\x9a\x80\x80\2\x9b\x9c" + b"\5\0"
STREAM = b"\x84\x85\xf5\x86\x87" + b"\3\x88\x89\x8a" + b"\x8b\x8c" + b"\4\x15" + CONFIG + b"\6\x80\x80\x80\1\x9d"
WHOLE = box(b"esds", b"\0\x81\x82\x83", b"\3\x80\x28" + STREAM, b"\x9e\x9f")


def descriptor(tag, size_bytes, content):
    return {"tag": tag, "size_bytes": size_bytes, "content": list(content)}


def decoder_config(size_bytes, *descriptors):
    stream_bits = {"stream_type": 35, "up_stream": True, "reserved": False, "buffer_size_db": 0x8F9091}
    return {
        "size_bytes": size_bytes, "object_type_indication": 0x8D, "stream": stream_bits, "max_bitrate": 0x92939495,
        "avg_bitrate": 0x96979899, "descriptors": list(descriptors),
    }


def options(dependence, url, clock, priority=21):
    """Returns the options of a stream with these flags: each of the three says whether one part is present."""
    flags = {"stream_dependence_flag": dependence, "url_flag": url, "ocr_stream_flag": clock}
    return {
        "flags": dict(flags, stream_priority=priority), "depends_on_es_id": 0x8687 if dependence else None,
        "url": [0x88, 0x89, 0x8A] if url else None, "ocr_es_id": 0x8B8C if clock else None,
    }


OF_DECODER = [descriptor(0x9A, 3, b"\x9b\x9c"), descriptor(5, 1, b"")]
OF_STREAM = [descriptor(6, 4, b"\x9d")]
ES = {
    "size_bytes": 2, "es_id": 0x8485, "options": options(True, True, True),
    "decoder_config": decoder_config(1, *OF_DECODER), "descriptors": OF_STREAM,
}


def whole(es, rest):
    return Box("esds", version=0, flags=0x818283, es=es, rest=list(rest))


def declared_with_every_part():
    yield from declared_as(WHOLE, whole(ES, b"\x9e\x9f"))


def declared_in_another_version():
    yield declared(changed(WHOLE, {8: 1}), NO_VERSION_1)


def declared_with_some_flags():
    """Each of the three flags says whether one part is present."""
    for number in range(8):
        flags = [number & 4 != 0, number & 2 != 0, number & 1 != 0]
        parts = [part for part, flag in zip((b"\x86\x87", b"\3\x88\x89\x8a", b"\x8b\x8c"), flags) if flag]
        after = b"\x84\x85" + u8(number << 5 | 21) + b"".join(parts) + b"\4\x0d" + CONFIG[:13]
        es = dict(ES, size_bytes=1, options=options(*flags), descriptors=[], decoder_config=decoder_config(1))
        given = box(b"esds", b"\0\x81\x82\x83", b"\3" + u8(len(after)) + after)
        yield declared(given, whole(es, b""), given)


def declared_without_audio_configuration():
    """The descriptors of a decoder are optional. The codec's own box has an audio configuration of zeros instead."""
    given = box(b"esds", bytes(4), b"\3\x12\0\1\0\4\x0d" + CONFIG[:13])
    es = {"size_bytes": 1, "es_id": 1, "options": options(False, False, False, 0),
          "decoder_config": decoder_config(1), "descriptors": []}
    yield declared(given, Box("esds", version=0, flags=0, es=es, rest=[]), given)


def declared_with_sizes_in_every_form():
    for head, count in [(b"\3\x28", 1), (b"\3\x80\x28", 2), (b"\3\x80\x80\x28", 3), (b"\3\x80\x80\x80\x28", 4)]:
        given = box(b"esds", b"\0\x81\x82\x83", head + STREAM)
        yield declared(given, whole(dict(ES, size_bytes=count), b""), given)
    yield declared(box(b"esds", bytes(4), b"\3\x80\x80\x80\x80", STREAM), LONG_SIZE)
    yield declared(box(b"esds", bytes(4), b"\3\xff\xff\xff\x80", STREAM), LONG_SIZE)


def declared_with_large_sizes():
    """The sizes of the data are below and above 2^7 and 2^14, and one has every byte."""
    for head, count in [
        (b"\x7f", 127), (b"\x81\0", 128), (b"\xff\x7f", 16383), (b"\x81\x80\0", 16384),
        (b"\x84\x84\3", 66051),
    ]:
        data = bytes(number % 253 for number in range(count))
        inner = b"\x84\x85\x15\4\x0d" + CONFIG[:13] + b"\x10" + head + data
        size = len(inner)
        front = u8(*(0x80 | size >> shift & 0x7F for shift in (21, 14, 7)), size & 0x7F)
        given = box(b"esds", b"\0\x81\x82\x83", b"\3" + front + inner)
        es = dict(ES, size_bytes=4, options=options(False, False, False), decoder_config=decoder_config(1),
                  descriptors=[descriptor(0x10, len(head), data)])
        yield declared(given, whole(es, b""), given)


def declared_with_sizes_of_missing_bytes():
    """The box has room for the size, or for one byte less."""
    for head, size in [
        (b"\xff\xff\x7f", 2**21 - 1), (b"\x81\x80\x80\0", 2**21), (b"\x83\x85\x87\x09", 6374281),
        (b"\xff\xff\xff\x7f", 2**28 - 1),
    ]:
        given = box(b"esds", bytes(4), b"\3" + head + STREAM)
        last = 13 + len(head) + size
        yield declared(resized(given, last), END)
        yield declared(resized(given, last - 1), WRONG_SIZE)


def declared_with_other_tags():
    yield declared(changed(WHOLE, {12: 4}), WRONG_TAG)
    yield declared(changed(WHOLE, {26: 5}), WRONG_TAG)


def declared_with_wrong_sizes():
    """The sizes of the stream, of the configuration and of three descriptors are at 14, 27, 44, 48 and 53."""
    for places, expected in [
        ({14: 0x27}, WRONG_SIZE),  # The last descriptor ends after the stream.
        ({14: 0x29}, END),  # A descriptor has a size after the box.
        ({14: 0x2B}, WRONG_SIZE),  # The stream ends after the box.
        ({14: 0x7F}, WRONG_SIZE),
        ({27: 0x0C}, WRONG_SIZE),  # The numbers of the configuration have 13 bytes.
        ({27: 0x14}, WRONG_SIZE),
        ({27: 0x7F}, WRONG_SIZE),
        ({44: 0x7F}, WRONG_SIZE),
        ({48: 1}, WRONG_SIZE),
        ({53: 2}, WRONG_SIZE),
        ({20: 0xFF}, TOO_MANY_BYTES),  # The URL ends after the box.
        ({20: 2}, WRONG_TAG),  # The tag of the configuration is a byte earlier, or later.
        ({20: 4}, WRONG_TAG),
        ({44: 1}, WRONG_SIZE),  # The next descriptor is a byte earlier, or later.
        ({44: 3}, WRONG_SIZE),
    ]:
        yield declared(changed(WHOLE, places), expected)


def declared_with_sizes_of_the_box():
    """The bytes after the descriptor are those up to the end of the box."""
    yield declared(resized(WHOLE, len(WHOLE) - 2), whole(ES, b""), box(b"esds", WHOLE[8:-2]))
    yield declared(resized(WHOLE, len(WHOLE) - 1), whole(ES, b"\x9e"), box(b"esds", WHOLE[8:-1]))
    yield declared(resized(WHOLE, len(WHOLE) - 3), WRONG_SIZE)
    yield declared(resized(WHOLE, len(WHOLE) + 1), END)
