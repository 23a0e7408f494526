"""Short files, and the lines that `mp4inspect` has to print for them. These lines were worked out from the section
"The tree" of docs/PROGRAMS.md and from the standards. A file shows one thing, so that only one wrong definition of
tests/prover/wrong-definitions.txt fails its test."""

from tests.files.made import be, box, full, handler, sound, stsd, visual

UNITY = be(4, 0x10000, 0, 0, 0, 0x10000, 0, 0, 0, 0x40000000)


def texts():
    """Yields texts with characters that are shown by their numbers, beside characters that aren't. C0 and C1 are the
    control characters before the space and after DEL. U+061C, U+200E, U+200F, U+202A to U+202E and U+2066 to U+2069
    are all that have Unicode's Bidi_Control. U+2028 and U+2029 separate lines and paragraphs."""
    for name, text, shown in (
            ("last_of_c0", "\0\x1f !", "\\u{0}\\u{1f} !"),
            ("del", "~\x7f", "~\\u{7f}"),
            ("last_of_c1", "\x80\x9f\xa0\xad", "\\u{80}\\u{9f}\xa0\xad"),
            ("mark_of_arabic", "\u061b\u061c\u061d", "\u061b\\u{61c}\u061d"),
            ("mark_to_the_right", "\u200d\u200e", "\u200d\\u{200e}"),
            ("mark_to_the_left", "\u200f\u2010", "\\u{200f}\u2010"),
            ("separator_of_lines", "\u2027\u2028", "\u2027\\u{2028}"),
            ("override_to_the_left", "\u202e\u202f", "\\u{202e}\u202f"),
            ("isolate_to_the_right", "\u2065\u2066", "\u2065\\u{2066}"),
            ("end_of_an_isolate", "\u2069\u206a", "\\u{2069}\u206a"),
            ("other_characters", "\ufeff\U0001f600", "\ufeff\U0001f600"),
            ("quotes_and_lines", "\"\\\n\t", "\\\"\\\\\\n\\u{9}"),
            ("colour_of_a_terminal", "\x1b[31mred", "\\u{1b}[31mred")):
        data = box(b"data", be(4, 1, 0) + text.encode())
        yield name, data, [f'data @0 +{len(data)} data_type: 1 (text), text: "{shown}"']


def codes():
    """Yields codes of characters, and codes with a byte that is none in Latin-1."""
    for name, code, shown in (
            ("tilde_in_a_code", b"ab~c", "ab~c"), ("first_of_latin_1_in_a_code", b"ab\xa0c", "ab\xa0c"),
            ("last_of_c1_in_a_code", b"ab\x9fc", "0x61629f63"), ("last_of_latin_1_in_a_code", b"\xff\x7e\x20a", "ÿ~ a"),
            ("del_in_a_code", b"\x7fabc", "0x7f616263"), ("last_of_c0_in_a_code", b"a\x1fbc", "0x611f6263"),
            ("first_of_c1_in_a_code", b"\xad\xa9\x80b", "0xada98062")):
        yield name, box(code), [f"{shown} @0 +8 not read"]


def header_of_a_movie(rate, volume):
    return full(b"mvhd", 0, 0, be(4, 0, 0, 600, 9, rate) + be(2, volume) + bytes(10) + UNITY + bytes(24) + be(4, 3))


def header_of_a_track(layer, group, volume):
    return full(b"tkhd", 0, 7, be(4, 0, 0, 1, 0, 9) + bytes(8) + be(2, layer, group, volume, 0) + UNITY
                + be(4, 64 << 16, 48 << 16))


def numbers():
    """Yields negative numbers (ISO/IEC 14496-12, 8.2.2, 8.3.2 and 8.6.6), and dates on both sides of 2^32 seconds: 32
    bits end 15 seconds after 06:28 on 2040-02-06."""
    times = "creation_time: 0, modification_time: 0"
    movie = f"mvhd @0 +108 version: 0, flags: 0x000000, {times}, timescale: 600, duration: 9"
    flags = "flags: 0x000007 (enabled, in_movie, in_preview)"
    track = f"tkhd @0 +92 version: 0, {flags}, {times}, track_ID: 1, duration: 9"
    yield "rate", header_of_a_movie(-0x18000, 0x100), [f"{movie}, rate: -1.5, volume: 1, next_track_ID: 3"]
    yield "volume_of_a_movie", header_of_a_movie(0x10000, -0x40), [f"{movie}, rate: 1, volume: -0.25, next_track_ID: 3"]
    yield "layer", header_of_a_track(-1, -2, 0x100), [
        f"{track}, layer: -1, alternate_group: -2, volume: 1, width: 64, height: 48"]
    yield "volume_of_a_track", header_of_a_track(0, 0, -0x180), [
        f"{track}, layer: 0, alternate_group: 0, volume: -1.5, width: 64, height: 48"]
    yield "media_times", full(b"elst", 0, 0, be(4, 2, 7, -1) + be(2, 1, 0) + be(4, 9, -2) + be(2, 1, 0)), [
        "elst @0 +40 version: 0, flags: 0x000000, entries: 2",
        "    1: segment_duration: 7, media_time: empty, media_rate_integer: 1, media_rate_fraction: 0",
        "    2: segment_duration: 9, media_time: -2, media_rate_integer: 1, media_rate_fraction: 0"]
    yield "dates", full(b"mdhd", 1, 0, be(8, 2**32 - 1, 2**32) + be(4, 600) + be(8, 9) + be(2, 0x15C7, 0)), [
        "mdhd @0 +44 version: 1, flags: 0x000000, creation_time: 2040-02-06T06:28:15Z (4294967295), "
        'modification_time: 2040-02-06T06:28:16Z (4294967296), timescale: 600, duration: 9, language: "eng"']


def languages():
    """Yields languages at the ends of those of the Macintosh and of letters. 0x400 is the letter 1, which is a, and
    twice the letter 0, the character before it."""
    for name, code, shown in (
            ("last_language_of_the_macintosh", 0x3FF, "1023 (Macintosh)"), ("first_letters", 0x400, '"a``"'),
            ("no_language", 0x7FFF, "32767 (unspecified)")):
        yield name, full(b"mdhd", 0, 0, be(4, 0, 0, 600, 9) + be(2, code, 0)), [
            "mdhd @0 +32 version: 0, flags: 0x000000, creation_time: 0, modification_time: 0, timescale: 600, "
            f"duration: 9, language: {shown}"]


def locations():
    yield "location", full(b"url ", 0, 0, b"a.mov\0"), [
        'url  @0 +18 version: 0, flags: 0x000000, location: "a.mov"']


def trees():
    """Yields boxes that the boxes around them decide: a handler of data beside that of the media, the four zero bytes
    that end a `udta`, an `mp4a` that is no sample entry, and an entry of an image sequence with the fields of video."""
    entry = sound(b"abcd", 0, 2, 16, 48000 << 16, b"", b"")
    data = full(b"hdlr", 0, 0, b"dhlr" + b"alis" + bytes(12) + b"\0")
    yield "handler_of_data", box(b"mdia", handler(b"soun", b"") + box(b"minf", data + stsd(entry))), [
        "mdia @0 +134",
        '  hdlr @8 +33 version: 0, flags: 0x000000, handler_type: soun, name: ""',
        "  minf @41 +93",
        '    hdlr @49 +33 version: 0, flags: 0x000000, component_type: dhlr, handler_type: alis, name: "", '
        'name_hex: 00 (1 byte)',
        "    stsd @82 +52 version: 0, flags: 0x000000, entry_count: 1",
        "      abcd @98 +36 data_reference_index: 1, channelcount: 2, samplesize: 16, samplerate: 48000"]
    yield "end_of_a_udta", box(b"udta", bytes(4)), ["udta @0 +12", "  - @8 +4 terminator: 0"]
    yield "mp4a_in_a_wave", box(b"wave", box(b"mp4a", bytes(4))), [
        "wave @0 +20", "  mp4a @8 +12 not read (MPEG-4 sound)"]
    images = visual(b"abcd", 64, 48, b"", b"")
    yield "entry_of_an_image_sequence", box(b"mdia", handler(b"pict", b"") + stsd(images)), [
        "mdia @0 +143",
        '  hdlr @8 +33 version: 0, flags: 0x000000, handler_type: pict, name: ""',
        "  stsd @41 +102 version: 0, flags: 0x000000, entry_count: 1",
        "    abcd @57 +86 data_reference_index: 1, width: 64, height: 48, horizresolution: 72, vertresolution: 72, "
        'frame_count: 1, compressorname: "", depth: 24']


def cases():
    """Returns the name, the bytes and the lines of each file."""
    return [*texts(), *codes(), *numbers(), *languages(), *locations(), *trees()]
