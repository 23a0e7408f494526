"""The part of the slow reader for boxes other than those of the codec. It has their fields as mp4inspect shows them,
under the names of the standards, and as the struct has them. It follows ISO/IEC 14496-1, 14496-3, 14496-12, 14496-14,
14496-15, 14496-30, 23001-7, 23008-12, 3GPP TS 26.245, ETSI TS 102 366, QuickTime's format, iTunes, and the bindings of
AV1, Opus, FLAC, VP8 and VP9, Apple Lossless and Dolby Vision, in the sections that crates/mp4_extra/CALLING.md names.
"""

from tests.readers.headers import Fault, check


class Hex(str):
    """Bytes, as their hexadecimal digits."""


class Code(str):
    """A code, each byte as the character of its number."""


class Named(int):
    """A number with a meaning, and the name of that meaning."""

    def __new__(cls, number, name):
        made = super().__new__(cls, number)
        made.name = name
        return made


class Content:
    """The content of a box, read from its front, and the bytes that it is written in: those that were read, with 0 for
    reserved bytes. Fields are read where they are, even past the end of the box. Lists end with the box.

    A field has the name that the standard gives it. If `raw` is set, the fields are those of the struct: each number
    and each byte unchanged, with the name in brackets if there is one."""

    def __init__(self, data, end=None, raw=False):
        self.data, self.at, self.raw = data, 0, raw
        self.end = len(data) if end is None else end
        self.fields, self.written = {}, b""

    def take(self, length):
        piece = self.data[self.at:self.at + length]
        if len(piece) < length:
            raise Fault("End")
        self.at += length
        self.written += piece
        return piece

    def reserved(self, length):
        self.take(length)
        self.written = self.written[:-length] + bytes(length)

    def put(self, name, value):
        name, _, in_struct = name.rstrip("]").partition(" [")
        self.fields[in_struct if in_struct and self.raw else name] = value

    def number(self, length, signed=False):
        return int.from_bytes(self.take(length), "big", signed=signed)

    def numbers(self, text):
        """Reads fields one after the other. `text` has the bytes of each, with `i` before them if it is signed, and its
        name."""
        for field in text.split(","):
            length, name = field.split(maxsplit=1)
            self.put(name.strip(), self.number(int(length.lstrip("i")), length[0] == "i"))

    def bits(self, text):
        """Reads fields with the numbers of bits in `text`. A field whose name begins with `-` is put only if `raw` is
        set, and is called `reserved` if no name follows the `-`. If its name ends with `=` and a number, it is also put
        if it has another value."""
        widths = [(int(width), name) for width, name in map(str.split, text.split(","))]
        left = sum(width for width, _ in widths)
        value = self.number(left // 8)
        for width, name in widths:
            left -= width
            found = value >> left & 2**width - 1
            name, _, usual = name.partition("=")
            if name[0] != "-" or self.raw or usual and found != int(usual):
                self.put(name.removeprefix("-") or "reserved", found)

    def named(self, meanings):
        """Gives the numbers with the names in `meanings` the meanings that they have there."""
        if not self.raw:
            for name, names in meanings.items():
                number = self.fields[name]
                self.fields[name] = Named(number, names[number]) if number in names else number

    def full(self, versions):
        texts = {1: "version must be 0", 2: "version must be 0 or 1"}
        self.numbers("1 version, 3 flags")
        check(self.fields["version"] < versions, texts.get(versions, "version is too large"))
        return self.fields["version"], self.fields["flags"]

    def as_code(self, piece):
        return int.from_bytes(piece, "big") if self.raw else Code(piece.decode("latin-1"))

    def code(self, name):
        piece = self.take(4)
        self.put(name, self.as_code(piece))
        return piece.decode("latin-1")

    def room(self):
        """Returns the number of bytes up to the end of the box."""
        return max(self.end - self.at, 0)

    def rest(self):
        return self.take(self.room())

    def count(self, length, each, what="entries"):
        """Reads a count of `length` bytes. The entries that it counts, of `each` bytes or more, have to fit in the
        box."""
        found = self.number(length)
        check(found * each <= self.room(), f"count indicates more {what} than could fit in the box")
        return found

    def as_bytes(self, piece):
        return list(piece) if self.raw else Hex(piece.hex())

    def bytes(self, name):
        self.put(name, self.as_bytes(self.rest()))

    def as_string(self, piece):
        """Returns the string `piece`, with U+FFFD for what is not UTF-8."""
        return list(piece) if self.raw else piece.decode("utf-8", "replace")

    def put_string(self, name, piece, end=b""):
        """Puts the string in `piece` before `end`. If it isn't UTF-8, or `end` is missing, also puts its bytes, under
        the name with `_hex` after it."""
        text = piece.removesuffix(end)
        self.put(name, list(piece) if self.raw else self.as_string(text))
        is_text = text.decode("utf-8", "replace").encode() == text
        if not self.raw and not (is_text and text + end == piece):
            self.put(name.partition(" ")[0] + "_hex", Hex(piece.hex()))

    def string(self, name):
        self.put_string(name, self.rest(), b"\0")

    def terminated(self, name):
        """Reads a string that a byte of 0 ends, before the end of the box."""
        length = (self.data.find(b"\0", self.at) + 1 or len(self.data) + 1) - self.at
        check(length <= self.room(), "string has no end in the box")
        self.put_string(name, self.take(length)[:-1])

    def locale(self, name, number, letters):
        """Puts a part of a locale: `letters` if they are letters, and otherwise `number`, the number of a list. It puts
        nothing for 0, which means all."""
        if number:
            self.put(name, letters if letters.isascii() and letters.isalpha() else number)

    def numbers_left(self):
        """Reads the numbers of 4 bytes that fill the rest of the box."""
        check(self.room() % 4 == 0, "entries do not fill the box")
        found = self.rest()
        return [int.from_bytes(found[at:at + 4], "big") for at in range(0, len(found), 4)]

    def sized(self, entry):
        """Reads an entry with the function `entry`, up to the end that a size of 4 bytes gives. The size counts itself.
        Returns the fields of the entry."""
        inner = Content(self.data, self.at, self.raw)
        inner.at = self.at
        inner.end += inner.number(4)
        check(self.at + 4 <= inner.end <= self.end, "size of an entry is too small or too large")
        entry(inner)
        check(inner.at == inner.end, "size of an entry is too small or too large")
        self.at = inner.at
        self.written += inner.written
        return inner.fields

    def expandable(self, read):
        """Reads an expandable size (ISO/IEC 14496-1, 8.3.3), and fields that end where it says with the function
        `read`. Returns the number of bytes of the size, and the fields."""
        size = count = 0
        byte = 128
        while byte >= 128:
            byte, count = self.number(1), count + 1
            check(byte < 128 or count < 4, "size of a descriptor has more than four bytes")
            size = size * 128 + byte % 128
        inner = Content(self.data, self.at + size, self.raw)
        inner.at = self.at
        check(inner.end <= self.end, "size of an entry is too small or too large")
        read(inner)
        check(inner.at == inner.end, "size of an entry is too small or too large")
        self.at = inner.at
        self.written += inner.written
        return count, inner.fields

    def entries(self, name, count, entry):
        """Reads a list of `count` entries. The function `entry` reads each from its front. Returns whether all of them
        are in the box. Reads nothing if they aren't."""
        found, at = [], self.at
        for _ in range(count):
            one = Content(self.data[at:])
            try:
                entry(one)
            except Fault:
                return False
            found.append(one.fields)
            at += one.at
        self.fields[name], self.at = found, at
        return True

    def entry(self, read):
        """Reads the fields of an entry that begins here, with the function `read`."""
        entry = Content(self.data, self.end, self.raw)
        entry.at = self.at
        read(entry)
        self.at = entry.at
        self.written += entry.written
        return entry.fields

    def group(self, name, read):
        """Reads fields with the function `read`, which are members of one field. If `raw` is set, they are fields like
        any other."""
        found = self.entry(read)
        if self.raw:
            self.fields.update(found)
        else:
            self.put(name, found)

    def each_to_end(self, name, read):
        """Reads entries up to the end of the box, where the last one has to end. The function `read` reads the fields
        of each."""
        found = []
        while self.room():
            found.append(self.entry(read))
            check(self.at <= self.end, "entries do not fill the box")
        self.put(name, found)

    def rows(self, name, count, text):
        """Reads a list of `count` entries, each with the fields of `text`, in the form of `numbers`."""
        entries = []
        for _ in range(count):
            entry = Content(self.data)
            entry.at = self.at
            entry.numbers(text)
            self.at = entry.at
            self.written += entry.written
            entries.append(entry.fields)
        self.put(name, entries)


# The channels of a sound (QuickTime File Format, "Audio channel layout atom"). The letters are those of Core Audio.
LAYOUTS = {
    0: "channel descriptions", 0x10000: "channel bitmap", 0x640001: "mono", 0x650002: "stereo",
    0x660002: "stereo headphones", 0x670002: "matrix stereo", 0x680002: "mid-side", 0x690002: "XY",
    0x6A0002: "binaural", 0x6B0004: "Ambisonic B-format", 0x6C0004: "quadraphonic", 0x710003: "L R C",
    0x720003: "C L R", 0x730004: "L R C Cs", 0x740004: "C L R Cs", 0x750005: "L R C Ls Rs", 0x760005: "L R Ls Rs C",
    0x770005: "L C R Ls Rs", 0x780005: "C L R Ls Rs", 0x790006: "L R C LFE Ls Rs", 0x7A0006: "L R Ls Rs C LFE",
    0x7B0006: "L C R Ls Rs LFE", 0x7C0006: "C L R Ls Rs LFE", 0x7D0007: "L R C LFE Ls Rs Cs",
    0x7E0008: "L R C LFE Ls Rs Lc Rc", 0x7F0008: "C Lc Rc L R Ls Rs LFE", 0x800008: "L R C LFE Ls Rs Rls Rrs"}
LABELS = {
    0: "unused", 1: "left", 2: "right", 3: "centre", 4: "LFE", 5: "left surround", 6: "right surround",
    7: "left centre", 8: "right centre", 9: "centre surround", 10: "left surround direct",
    11: "right surround direct", 12: "top centre surround", 13: "vertical height left", 14: "vertical height centre",
    15: "vertical height right", 16: "top back left", 17: "top back centre", 18: "top back right",
    33: "rear surround left", 34: "rear surround right", 42: "mono", 100: "by coordinates", 0xFFFFFFFF: "unknown"}


def alac(c):
    c.full(1)
    c.numbers("4 frameLength, 1 compatibleVersion, 1 bitDepth, 1 pb, 1 mb, 1 kb, 1 numChannels, 2 maxRun,"
              "4 maxFrameBytes, 4 avgBitRate, 4 sampleRate")
    if c.raw or c.room():
        c.bytes("ALACChannelLayoutInfo [channel_layout_info]")


def alis(c):
    c.full(1)
    if c.raw or c.room():
        c.bytes("data_bytes [alias]")


def auxc(c):
    c.full(1)
    c.terminated("aux_type")
    if c.raw or c.room():
        c.bytes("aux_subtype")


def av1c(c):
    c.bits("1 marker, 7 version, 3 seq_profile, 5 seq_level_idx_0, 1 seq_tier_0, 1 high_bitdepth, 1 twelve_bit,"
           "1 monochrome, 1 chroma_subsampling_x, 1 chroma_subsampling_y, 2 chroma_sample_position, 3 -reserved=0,"
           "1 initial_presentation_delay_present, 4 initial_presentation_delay_minus_one")
    if not c.raw and not c.fields["initial_presentation_delay_present"]:
        reserved = c.fields.pop("initial_presentation_delay_minus_one")
        if reserved:
            c.put("reserved_without_delay", reserved)
    c.bytes("configOBUs")


# The names of profiles (ISO/IEC 14496-10, A.2).
PROFILES = {44: "CAVLC 4:4:4 Intra", 66: "Baseline", 77: "Main", 88: "Extended", 100: "High", 110: "High 10",
            122: "High 4:2:2", 244: "High 4:4:4 Predictive"}


def parameter_sets(c, name, count):
    c.put(name, [c.as_bytes(c.take(c.count(2, 1, "bytes"))) for _ in range(count)])


def counted_sets(c, count_name, name):
    count = c.number(1)
    if not c.raw:
        c.put(count_name, count)
    parameter_sets(c, name, count)


def avcc(c):
    c.bits("8 configurationVersion, 8 AVCProfileIndication, 8 profile_compatibility, 8 AVCLevelIndication,"
           "6 -reserved_before_length=63, 2 lengthSizeMinusOne, 3 -reserved_before_sets=7,"
           "5 numOfSequenceParameterSets")
    profile, count = c.fields["AVCProfileIndication"], c.fields["numOfSequenceParameterSets"]
    c.named({"AVCProfileIndication": PROFILES})
    parameter_sets(c, "sequenceParameterSetNALUnit [sequence_parameter_sets]", count)
    counted_sets(c, "numOfPictureParameterSets", "pictureParameterSetNALUnit [picture_parameter_sets]")
    # Has no part for the format of samples in Baseline, Main and Extended (5.3.3.1.2), and in old files of any profile.
    if profile not in (66, 77, 88) and c.room() >= 4:
        c.bits("6 -reserved_before_chroma_format=63, 2 chroma_format, 5 -reserved_before_luma=31,"
               "3 bit_depth_luma_minus8, 5 -reserved_before_chroma=31, 3 bit_depth_chroma_minus8")
        counted_sets(
            c, "numOfSequenceParameterSetExt", "sequenceParameterSetExtNALUnit [sequence_parameter_set_exts]")
    if c.raw or c.room():
        c.bytes("data_bytes [rest]")


def channel(d):
    d.numbers("4 mChannelLabel [channel_label], 4 mChannelFlags [channel_flags]")
    d.named({"mChannelLabel": LABELS})
    for which in range(3):
        number = d.number(4)
        d.put(f"mCoordinates_{which} [coordinates_{which}]", number if d.raw else Hex(f"{number:08x}"))


def chan(c):
    c.full(1)
    c.numbers("4 mChannelLayoutTag [channel_layout_tag], 4 mChannelBitmap [channel_bitmap]")
    c.named({"mChannelLayoutTag": LAYOUTS})
    count = c.count(4, 20)
    if not c.raw:
        c.put("mNumberChannelDescriptions", count)
    c.put("mChannelDescriptions [channel_descriptions]", [c.entry(channel) for _ in range(count)])


def chnl(c):
    version, _ = c.full(2)
    if version:
        c.bits("4 stream_structure, 4 format_ordering, 8 baseChannelCount")
    else:
        c.numbers("1 stream_structure")
    c.named({"stream_structure": {1: "channels", 2: "objects", 3: "channels and objects"}})
    if c.raw or c.room():
        c.bytes("data_bytes [layout]")


# The meanings of the numbers of colours (ISO/IEC 23091-2, 8.1 to 8.3).
COLOURS = {
    "colour_primaries": {
        1: "BT.709", 2: "unspecified", 4: "BT.470 System M", 5: "BT.470 System B, G", 6: "BT.601", 7: "SMPTE ST 240",
        8: "generic film", 9: "BT.2020", 10: "SMPTE ST 428-1", 11: "SMPTE RP 431-2", 12: "SMPTE EG 432-1",
        22: "EBU Tech. 3213-E"},
    "transfer_characteristics": {
        1: "BT.709", 2: "unspecified", 4: "BT.470 System M", 5: "BT.470 System B, G", 6: "BT.601", 7: "SMPTE ST 240",
        8: "linear", 9: "logarithmic, 100:1", 10: "logarithmic, 316.22777:1", 11: "IEC 61966-2-4", 12: "BT.1361",
        13: "IEC 61966-2-1", 14: "BT.2020, 10 bits", 15: "BT.2020, 12 bits", 16: "SMPTE ST 2084", 17: "SMPTE ST 428-1",
        18: "ARIB STD-B67"},
    "matrix_coefficients": {
        0: "identity", 1: "BT.709", 2: "unspecified", 4: "FCC Title 47", 5: "BT.470 System B, G", 6: "BT.601",
        7: "SMPTE ST 240", 8: "YCgCo", 9: "BT.2020 non-constant luminance", 10: "BT.2020 constant luminance",
        11: "SMPTE ST 2085", 12: "chromaticity-derived non-constant luminance",
        13: "chromaticity-derived constant luminance", 14: "ICtCp"},
}


def colr(c):
    kind = c.code("colour_type")
    if kind == "nclx":
        c.bits("16 colour_primaries, 16 transfer_characteristics, 16 matrix_coefficients, 1 full_range_flag,"
               "7 -reserved=0")
        c.named(COLOURS)
        if c.raw:
            del c.fields["colour_type"]
    elif kind == "nclc" and len(c.data) == 10 and not c.raw:
        c.numbers("2 colour_primaries, 2 transfer_characteristics, 2 matrix_coefficients")
        c.named(COLOURS)
    else:
        c.bytes("ICC_profile [data_bytes]" if kind in ("rICC", "prof") else "data_bytes")


def cslg(c):
    version, _ = c.full(2)
    times = ("compositionToDTSShift", "leastDecodeToDisplayDelta", "greatestDecodeToDisplayDelta",
             "compositionStartTime", "compositionEndTime")
    c.numbers(",".join(f"i{8 if version else 4} {time}" for time in times))


# The names of the types of metadata values (QuickTime File Format, "Well-known types").
TYPES = {0: "binary", 1: "text", 2: "UTF-16 text", 13: "JPEG", 14: "PNG", 21: "signed integer", 22: "unsigned integer",
         23: "32-bit float", 24: "64-bit float", 27: "BMP"}


def width_of(number, signed):
    """Returns the number of bytes, 1, 2, 4 or 8, that are enough for `number`."""
    bits = max(number, ~number).bit_length() + 1 if signed else number.bit_length()
    return next(width for width in (1, 2, 4, 8) if bits <= 8 * width)


def data(c):
    if c.raw:
        c.numbers("1 type_set, 3 data_type, 2 country, 2 language")
        c.bytes("value")
        return
    type_set, data_type = c.number(1), c.number(3)
    if type_set:
        c.put("type_set", type_set)
    c.put("data_type", data_type)
    if type_set == 0:
        c.named({"data_type": TYPES})
    country, spoken = c.number(2), c.number(2)
    c.locale("country", country, chr(country >> 8) + chr(country & 0xFF))
    c.locale("language", spoken, "".join(chr(0x60 + it) for it in (spoken >> 10, spoken >> 5 & 31, spoken & 31)))
    value = c.rest()
    if type_set == 0 and data_type == 1:
        c.put_string("text", value)
    elif type_set == 0 and data_type in (21, 22) and len(value) in (1, 2, 4, 8):
        number = int.from_bytes(value, "big", signed=data_type == 21)
        c.put("number", number)
        if width_of(number, data_type == 21) != len(value):
            c.put("number_hex", c.as_bytes(value))
    else:
        c.put("data_bytes", c.as_bytes(value))


def substream(s):
    s.bits("2 fscod, 5 bsid, 1 -reserved_before_asvc=0, 1 asvc, 3 bsmod, 3 acmod, 1 lfeon,"
           "3 -reserved_before_num_dep_sub=0, 4 num_dep_sub, 1 last")
    last = s.fields.pop("last")
    if s.fields["num_dep_sub"]:
        s.fields["chan_loc"] = 256 * last + s.number(1)
    elif last:
        s.fields["reserved_after_num_dep_sub"] = last


def dec3(c):
    c.bits("13 data_rate, 3 num_ind_sub")
    streams, left = [], Content(c.data[c.at:])
    try:
        for _ in range(0 if c.raw else c.fields["num_ind_sub"] + 1):
            one = Content(left.data[left.at:])
            substream(one)
            streams.append(one.fields)
            left.at += one.at
    except Fault:
        streams, left.at = [], 0
    if streams:
        c.fields["substreams"] = streams
        c.at += left.at
    if c.room() or not streams:
        c.bytes("data_bytes [substreams]")


BLOCKS = {0: "STREAMINFO", 1: "PADDING", 2: "APPLICATION", 3: "SEEKTABLE", 4: "VORBIS_COMMENT", 5: "CUESHEET",
          6: "PICTURE", 127: "forbidden"}


def block(b):
    b.bits("1 LastMetadataBlockFlag, 7 BlockType")
    length = b.count(3, 1, "bytes")
    kind, data = b.fields["BlockType"], Content(b.take(length), raw=b.raw)
    b.named({"BlockType": BLOCKS})
    if not b.raw:
        b.put("Length", length)
    if kind == 0 and length == 34 and not b.raw:
        data.bits("16 minimum_block_size, 16 maximum_block_size, 24 minimum_frame_size, 24 maximum_frame_size,"
                  "20 sample_rate, 3 channels, 5 bits_per_sample, 36 total_samples")
        data.fields["channels"] += 1
        data.fields["bits_per_sample"] += 1
        data.bytes("MD5")
    else:
        data.bytes("BlockData")
    b.fields.update(data.fields)


def dfla(c):
    c.full(1)
    c.each_to_end("metadata_blocks", block)


def dops(c):
    c.numbers("1 Version, 1 OutputChannelCount, 2 PreSkip, 4 InputSampleRate, i2 OutputGain, 1 ChannelMappingFamily")
    if c.raw:
        c.bytes("ChannelMapping")
        return
    c.fields["OutputGain"] /= 256
    if c.room() >= 2:
        c.numbers("1 StreamCount, 1 CoupledCount")
        c.bytes("ChannelMapping")
    elif c.room():
        c.bytes("data_bytes")


# The formats of the base layer of Dolby Vision.
BASES = {0: "none", 1: "HDR10", 2: "SDR", 4: "HLG", 6: "Ultra HD Blu-ray HDR10"}


def dolby_vision(c):
    c.bits("8 dv_version_major, 8 dv_version_minor, 7 dv_profile, 6 dv_level, 1 rpu_present_flag, 1 el_present_flag,"
           "1 bl_present_flag, 4 dv_bl_signal_compatibility_id, 28 -reserved=0")
    c.named({"dv_bl_signal_compatibility_id": BASES})
    c.reserved(16)


def elng(c):
    c.full(1)
    c.string("extended_language")


# The orders of two fields (QuickTime File Format, "Video sample description extensions").
ORDERS = {1: "top field first", 6: "bottom field first", 9: "bottom field shown first, top field stored first",
          14: "top field shown first, bottom field stored first"}


def enda(c):
    c.numbers("2 littleEndian")
    c.named({"littleEndian": {0: "big-endian", 1: "little-endian"}})


def fiel(c):
    c.numbers("1 fields, 1 detail")
    c.named({"fields": {1: "progressive", 2: "interlaced"}, "detail": ORDERS})


def gmin(c):
    c.full(1)
    c.numbers("2 graphicsmode [graphics_mode], 2 opcolor_red, 2 opcolor_green, 2 opcolor_blue, i2 balance")
    if not c.raw:
        c.fields["balance"] /= 256
    c.reserved(2)


def set_code(c, name):
    """Reads a code, which is shown unless it is 0. Returns its number."""
    piece = c.take(4)
    if c.raw or any(piece):
        c.put(name, c.as_code(piece))
    return int.from_bytes(piece, "big")


def hdlr(c):
    c.numbers("1 version, 3 flags")
    component = set_code(c, "component_type")
    c.code("handler_type")
    set_code(c, "component_manufacturer")
    c.bits("32 -component_flags=0, 32 -component_flags_mask=0")
    # A byte of 0 ends the name, or a byte before it counts its bytes.
    check(c.room() > 0, "hdlr size too small")
    name = c.rest()
    if c.raw:
        c.put("name", c.as_bytes(name))
    else:
        put_handler_name(c, component, name)


def put_handler_name(c, component, name):
    """Puts the name of a handler. In QuickTime, which has types of components, a byte before the name is its number of
    bytes, and no byte of 0 has to end it. The bytes are beside the name if they have another form."""
    rest = name[1:]
    is_counted = bool(rest) and name[0] in (len(rest), len(rest.removesuffix(b"\0")))
    shown = rest if is_counted else name
    is_ended = shown.endswith(b"\0")
    text = shown.removesuffix(b"\0")
    c.put("name", c.as_string(text))
    is_usual = is_counted and not is_ended if component else is_ended and not is_counted
    if not is_usual or text.decode("utf-8", "replace").encode() != text:
        c.put("name_hex", c.as_bytes(name))


def hmhd(c):
    c.full(1)
    c.numbers("2 maxPDUsize, 2 avgPDUsize, 4 maxbitrate, 4 avgbitrate")
    c.reserved(4)


# The names of tags, object types, kinds of streams and predefined configurations (ISO/IEC 14496-1, 7.2.2.1, 7.2.6.6.2
# and 7.3.2.3.2).
TAGS = {
    1: "ObjectDescriptor", 2: "InitialObjectDescriptor", 3: "ES_Descriptor", 4: "DecoderConfigDescriptor",
    5: "DecoderSpecificInfo", 6: "SLConfigDescriptor", 7: "ContentIdentificationDescriptor",
    8: "SupplementaryContentIdentificationDescriptor", 9: "IPI_DescrPointer", 10: "IPMP_DescriptorPointer",
    11: "IPMP_Descriptor", 12: "QoS_Descriptor", 13: "RegistrationDescriptor", 14: "ES_ID_Inc", 15: "ES_ID_Ref",
    20: "ProfileLevelIndicationIndexDescriptor", 67: "LanguageDescriptor"}
OBJECT_TYPES = {
    0x01: "Systems", 0x02: "Systems 2", 0x20: "MPEG-4 Visual", 0x21: "H.264", 0x22: "H.264 parameter sets",
    0x23: "HEVC", 0x40: "MPEG-4 Audio", 0x60: "MPEG-2 Visual Simple", 0x61: "MPEG-2 Visual Main",
    0x62: "MPEG-2 Visual SNR", 0x63: "MPEG-2 Visual Spatial", 0x64: "MPEG-2 Visual High",
    0x65: "MPEG-2 Visual 4:2:2", 0x66: "MPEG-2 AAC Main", 0x67: "MPEG-2 AAC LC", 0x68: "MPEG-2 AAC SSR",
    0x69: "MPEG-2 Audio", 0x6A: "MPEG-1 Visual", 0x6B: "MPEG-1 Audio", 0x6C: "JPEG", 0x6D: "PNG", 0x6E: "JPEG 2000",
    0xA0: "EVRC", 0xA1: "SMV", 0xA3: "VC-1", 0xA4: "Dirac", 0xA5: "AC-3", 0xA6: "Enhanced AC-3", 0xA9: "DTS",
    0xAD: "Opus", 0xDD: "Vorbis", 0xE1: "QCELP"}
STREAM_TYPES = {
    1: "object descriptors", 2: "clock references", 3: "scene description", 4: "visual", 5: "audio", 6: "MPEG-7",
    7: "IPMP", 8: "object content information", 9: "MPEG-J", 10: "interaction", 11: "IPMP tool"}
PREDEFINED = {0: "custom", 1: "null SL packet header", 2: "MP4 file"}
# The names of object types and channel configurations, and the sampling frequencies (ISO/IEC 14496-3, 1.5.1.1, 1.6.3.5
# and 1.6.3.4).
AUDIO_TYPES = {
    1: "AAC Main", 2: "AAC LC", 3: "AAC SSR", 4: "AAC LTP", 5: "SBR", 6: "AAC Scalable", 7: "TwinVQ", 8: "CELP",
    9: "HVXC", 17: "ER AAC LC", 19: "ER AAC LTP", 20: "ER AAC Scalable", 22: "ER BSAC", 23: "ER AAC LD", 29: "PS",
    30: "MPEG Surround", 32: "Layer-1", 33: "Layer-2", 34: "Layer-3", 36: "ALS", 37: "SLS", 39: "ER AAC ELD",
    42: "USAC"}
CHANNELS = {0: "defined in the stream", 1: "mono", 2: "stereo", 3: "3.0", 4: "4.0", 5: "5.0", 6: "5.1", 7: "7.1"}
FREQUENCIES = [96000, 88200, 64000, 48000, 44100, 32000, 24000, 22050, 16000, 12000, 11025, 8000, 7350]


class BitReader:
    """Reads the bits of `data`. Bits past the end are 0."""

    def __init__(self, data):
        self.text, self.at, self.count = "".join(f"{byte:08b}" for byte in data), 0, 8 * len(data)

    def take(self, width):
        self.at += width
        return int((self.text + "0" * self.at)[self.at - width:self.at] or "0", 2)

    def has(self, width):
        return self.at + width <= self.count

    def object_type(self):
        kind = self.take(5)
        return 32 + self.take(6) if kind == 31 else kind

    def frequency(self, prefix):
        """Returns the fields of a sampling frequency, the names of which begin with `prefix`."""
        index = self.take(4)
        found = self.take(24) if index == 15 else dict(enumerate(FREQUENCIES)).get(index, 0)
        names = [prefix + "amplingFrequencyIndex", prefix + "amplingFrequency"]
        return {names[0]: index, **({names[1]: found} if found else {})}


def audio_config(data):
    """Returns the fields of the configuration of MPEG-4 audio in `data` (ISO/IEC 14496-3, 1.6.2.1), or None if the
    bytes are too few."""
    bits = BitReader(data)
    kind = bits.object_type()
    fields = {"audioObjectType": kind, **bits.frequency("s")}
    channels = fields["channelConfiguration"] = bits.take(4)
    extension = {}
    if kind in (5, 29):
        extension = {"extensionAudioObjectType": 5, "sbrPresentFlag": 1, **({"psPresentFlag": 1} if kind == 29 else {}),
                     **bits.frequency("extensionS")}
        fields["audioObjectType"] = bits.object_type()
    if not bits.has(0):
        return None
    if kind in (1, 2, 3, 4) and channels:
        bits.take(1)
        bits.take(14 * bits.take(1))
        bits.take(bits.take(1))
        extension = signalled(bits)
    fields.update(extension)
    names = {"audioObjectType": AUDIO_TYPES, "channelConfiguration": CHANNELS}
    return {name: Named(value, names[name][value]) if value in names.get(name, {}) else value
            for name, value in fields.items()}


def signalled(bits):
    """Returns the fields of an extension that follows a configuration."""
    if not bits.has(17) or bits.take(11) != 0x2B7 or bits.object_type() != 5:
        return {}
    if not bits.take(1):
        return {"extensionAudioObjectType": 5, "sbrPresentFlag": 0}
    frequency = bits.frequency("extensionS")
    if not bits.has(0):
        return {}
    ps = {"psPresentFlag": bits.take(1)} if bits.has(12) and bits.take(11) == 0x548 else {}
    return {"extensionAudioObjectType": 5, "sbrPresentFlag": 1, **ps, **frequency}


def descriptor(d):
    d.numbers("1 tag")
    count, fields = d.expandable(lambda data: descriptor_data(data, d.fields["tag"]))
    d.named({"tag": TAGS})
    if d.raw or count != 1:
        d.put("size_bytes", count)
    d.fields.update(fields)


def descriptor_data(c, tag):
    if tag != 6 or c.raw or not c.room():
        c.bytes("data_bytes [content]")
        return
    c.numbers("1 predefined")
    if c.fields["predefined"] == 0 and c.room() >= 15:
        c.bits("1 useAccessUnitStartFlag, 1 useAccessUnitEndFlag, 1 useRandomAccessPointFlag,"
               "1 hasRandomAccessUnitsOnlyFlag, 1 usePaddingFlag, 1 useTimeStampsFlag, 1 useIdleFlag, 1 durationFlag,"
               "32 timeStampResolution, 32 OCRResolution, 8 timeStampLength, 8 OCRLength, 8 AU_Length,"
               "8 instantBitrateLength, 4 degradationPriorityLength, 5 AU_seqNumLength, 5 packetSeqNumLength,"
               "2 -reserved=3")
    c.named({"predefined": PREDEFINED})
    if c.room():
        c.bytes("data_bytes")


def decoder_config(c):
    c.numbers("1 objectTypeIndication")
    c.bits("6 streamType, 1 upStream, 1 -reserved=1, 24 bufferSizeDB")
    c.numbers("4 maxBitrate, 4 avgBitrate")
    c.each_to_end("decoder_descriptors [es_decoder_config_descriptors]", descriptor)
    c.named({"objectTypeIndication": OBJECT_TYPES, "streamType": STREAM_TYPES})


def elementary_stream(c):
    c.numbers("2 ES_ID")
    c.bits("1 streamDependenceFlag, 1 URL_Flag, 1 OCRstreamFlag, 5 streamPriority")
    if c.fields["streamDependenceFlag"]:
        c.numbers("2 dependsOn_ES_ID")
    if c.fields["URL_Flag"]:
        c.put_string("URLstring [url]", c.take(c.count(1, 1, "bytes")))
    if c.fields["OCRstreamFlag"]:
        c.numbers("2 OCR_ES_Id")
    check(c.number(1) == 4, WRONG_TAG)
    count, config = c.expandable(decoder_config)
    if c.raw:
        c.put("es_decoder_config_size_bytes", count)
        c.fields.update(config)
    else:
        inside = config.pop("decoder_descriptors")
        size = {"size_bytes": count} if count != 1 else {}
        audio = None
        if config["objectTypeIndication"] == 0x40 and inside and inside[0]["tag"] == 5:
            audio = audio_config(bytes.fromhex(inside[0]["data_bytes"]))
        group = {"AudioSpecificConfig": audio} if audio else {}
        c.put("decConfigDescr", {**size, **config, **group})
        c.put("decoder_descriptors", inside)
    c.each_to_end("descriptors [es_descriptors]", descriptor)


WRONG_TAG = "descriptor has another tag than the one expected"


def esds(c):
    c.full(1)
    check(c.number(1) == 3, WRONG_TAG)
    count, fields = c.expandable(elementary_stream)
    if c.raw or count != 1:
        c.put("ES_Descriptor_size_bytes [es_size_bytes]", count)
    c.fields.update(fields)
    if c.raw or c.room():
        c.bytes("data_bytes [rest]")


def font(c):
    c.numbers("2 font-ID [font_id]")
    c.put_string("font", c.take(c.count(1, 1, "bytes")))


def ftab(c):
    count = c.number(2)
    if not c.raw:
        c.put("entry-count", count)
    c.put("font-entry [entries]", [c.entry(font) for _ in range(count)])


def hvcc(c):
    c.numbers("1 configurationVersion")
    c.bits("2 general_profile_space, 1 general_tier_flag, 5 general_profile_idc,"
           "32 general_profile_compatibility_flags, 48 general_constraint_indicator_flags, 8 general_level_idc")
    if not c.raw:
        c.fields["general_constraint_indicator_flags"] = Hex(f"{c.fields['general_constraint_indicator_flags']:012x}")
    c.bits("4 -reserved_before_segmentation=15, 12 min_spatial_segmentation_idc, 6 -reserved_before_parallelism=63,"
           "2 parallelismType, 6 -reserved_before_chroma_format=63, 2 chroma_format_idc, 5 -reserved_before_luma=31,"
           "3 bit_depth_luma_minus8, 5 -reserved_before_chroma=31, 3 bit_depth_chroma_minus8")
    c.numbers("2 avgFrameRate")
    c.bits("2 constantFrameRate, 3 numTemporalLayers, 1 temporalIdNested, 2 lengthSizeMinusOne")
    c.put("arrays", [c.entry(nal_units) for _ in range(c.number(1))])


# The types of NAL units that an array may have (ISO/IEC 23008-2, Table 7-1).
NAL_UNITS = {32: "VPS", 33: "SPS", 34: "PPS", 39: "prefix SEI", 40: "suffix SEI"}


def nal_units(array):
    """Reads an array of NAL units of one type."""
    array.bits("1 array_completeness, 1 -reserved=0, 6 NAL_unit_type")
    array.named({"NAL_unit_type": NAL_UNITS})
    units = [array.as_bytes(array.take(array.count(2, 1, "bytes"))) for _ in range(array.number(2))]
    array.put("nalUnit [nal_units]", units)


def iloc(c):
    version, _ = c.full(3)
    c.bits("4 offset_size, 4 length_size, 4 base_offset_size, 4 index_size")
    c.numbers(f"{4 if version >= 2 else 2} item_count")
    if c.raw or c.room():
        c.bytes("data_bytes [items]")


def infe(c):
    version, _ = c.full(4)
    c.numbers(f"{4 if version >= 3 else 2} item_ID, 2 item_protection_index")
    kind = c.code("item_type") if version >= 2 else None
    c.terminated("item_name")
    if c.raw:
        c.bytes("strings")
    elif kind == "mime":
        c.string("content_type")
    elif kind == "uri ":
        c.string("item_uri_type")
    elif c.room():
        c.bytes("data_bytes")


def iods(c):
    c.full(1)
    c.bytes("OD [descriptor]")


def ipma(c):
    version, flags = c.full(2)
    wide = flags & 1

    def item(i):
        i.numbers(f"{4 if version else 2} item_ID")
        found = []
        for _ in range(i.count(1, 1 + wide)):
            one = Content(i.data)
            one.at = i.at
            one.bits(f"1 essential, {15 if wide else 7} property_index")
            i.at = one.at
            i.written += one.written
            found.append(one.fields)
        i.put(f"associations [{'long_' * wide}associations]", found)

    count = c.number(4)
    if not c.raw:
        c.put("entry_count", count)
    c.put("entries", [c.entry(item) for _ in range(count)])


def irot(c):
    c.bits("6 -reserved=0, 2 angle")
    c.named({"angle": {
        0: "none", 1: "90 degrees anticlockwise", 2: "180 degrees", 3: "270 degrees anticlockwise"}})


def ispe(c):
    c.full(1)
    c.numbers("4 image_width, 4 image_height")


def key(k):
    k.code("Key_namespace [namespace]")
    k.put_string("Key_value [value]", k.rest())


def keys(c):
    c.full(1)
    c.numbers("4 entry_count")
    c.put("entries", [c.sized(key) for _ in range(c.fields["entry_count"])])
    if c.raw:
        del c.fields["entry_count"]


def kind(c):
    c.full(1)
    c.terminated("schemeURI")
    c.terminated("value")


def item_text(c):
    c.full(1)
    c.put_string("value", c.rest())


def leva(c):
    c.full(1)
    c.numbers("1 level_count")
    if c.raw or c.room():
        c.bytes("data_bytes [levels]")


def mdcv(c):
    for which in range(3):
        c.numbers(",".join(f"2 display_primaries_{axis}_{which} [display_primaries_{which}_{axis}]" for axis in "xy"))
    c.numbers("2 white_point_x, 2 white_point_y, 4 max_display_mastering_luminance, 4 min_display_mastering_luminance")


def mfro(c):
    c.full(1)
    c.numbers("4 parent_size")


def pitm(c):
    version, _ = c.full(2)
    c.numbers(f"{4 if version else 2} item_ID")


def pixi(c):
    c.full(1)
    bits = list(c.take(c.count(1, 1, "bytes")))
    if c.raw or bits:
        c.put("bits_per_channel", bits)


def prft(c):
    version, _ = c.full(2)
    c.numbers(f"4 reference_track_ID, 8 ntp_timestamp, {8 if version else 4} media_time")


# Protection systems (DASH-IF, "Content protection").
SYSTEMS = {
    "edef8ba979d64acea3c827dcd51d21ed": "Widevine", "9a04f07998404286ab92e65be0885f95": "PlayReady",
    "94ce86fb07ff4f43adb893d2fa968ca2": "FairPlay", "1077efecc0b24d02ace33c1e52e2fb4b": "Common",
    "e2719d58a985b3c9781ab030af78d30e": "ClearKey",
}


def pssh(c):
    version, _ = c.full(2)
    system = c.take(16)
    c.put("SystemID", c.as_bytes(system))
    if not c.raw and system.hex() in SYSTEMS:
        c.put("SystemID_name", SYSTEMS[system.hex()])
    if version:
        c.put("KID [key_ids]", [c.as_bytes(c.take(16)) for _ in range(c.count(4, 16))])
    c.put("Data [system_data]", c.as_bytes(c.take(c.count(4, 1, "bytes"))))


def auxiliary(c, versions):
    version, flags = c.full(versions)
    if flags & 1:
        c.code("aux_info_type")
        c.numbers("4 aux_info_type_parameter")
    return version


def saio(c):
    width = 8 if auxiliary(c, 2) else 4
    c.put("offset [offsets]", [c.number(width) for _ in range(c.count(4, width))])


def saiz(c):
    auxiliary(c, 1)
    c.numbers("1 default_sample_info_size, 4 sample_count")
    if c.raw or c.room():
        c.put("sample_info_size [sample_info_sizes]", list(c.rest()))


def sbgp(c):
    version, _ = c.full(2)
    c.code("grouping_type")
    if version:
        c.numbers("4 grouping_type_parameter")
    c.rows("entries", c.count(4, 8), "4 sample_count, 4 group_description_index")


def schm(c):
    _, flags = c.full(1)
    c.code("scheme_type")
    c.numbers("4 scheme_version")
    if flags & 1:
        c.string("scheme_uri")


def sdtp(c):
    c.full(1)
    names = ["is_leading", "sample_depends_on", "sample_is_depended_on", "sample_has_redundancy"]
    c.fields["entries"] = [{name: byte >> 6 - 2 * n & 3 for n, name in enumerate(names)} for byte in c.rest()]


def senc(c):
    c.full(1)
    c.numbers("4 sample_count")
    c.bytes("data_bytes [samples]")


def encryption(d):
    d.bits("8 -reserved=0, 4 crypt_byte_block, 4 skip_byte_block")
    d.numbers("1 isProtected, 1 Per_Sample_IV_Size")
    d.put("KID", Hex(d.take(16).hex()))
    if d.fields["isProtected"] == 1 and d.fields["Per_Sample_IV_Size"] == 0:
        d.numbers("1 constant_IV_size")
        d.put("constant_IV", Hex(d.take(d.fields["constant_IV_size"]).hex()))


GROUPS = {
    "roll": lambda d: d.numbers("i2 roll_distance"), "prol": lambda d: d.numbers("i2 roll_distance"),
    "rap ": lambda d: d.bits("1 num_leading_samples_known, 7 num_leading_samples"),
    "tele": lambda d: d.bits("1 level_independently_decodable, 7 -reserved=0"), "seig": encryption,
}


def description(d, kind, length):
    """Reads the description of a group of `kind`. If `length` is 0, its length is in the 4 bytes before it. If `length`
    is None, its kind decides the length."""
    if length is None:
        check(kind in GROUPS, "its length isn't known")
        GROUPS[kind](d)
        return
    if length == 0:
        d.numbers("4 description_length")
        length = d.fields["description_length"]
    data = Content(d.take(length))
    try:
        check(kind in GROUPS, "its fields aren't known")
        GROUPS[kind](data)
        check(not data.room(), "its length is another")
    except Fault:
        data = Content(data.data)
        data.bytes("data_bytes")
    d.fields.update(data.fields)


def sgpd(c):
    version, _ = c.full(3)
    c.code("grouping_type")
    if version >= 1:
        c.numbers("4 default_length")
    if version >= 2:
        c.numbers("4 default_group_description_index")
    c.numbers("4 entry_count")
    kind, length = c.fields["grouping_type"], c.fields.get("default_length")
    if c.raw or not c.entries("entries", c.fields["entry_count"], lambda d: description(d, kind, length)) or c.room():
        c.bytes("data_bytes [entries]")


def sidx(c):
    version, _ = c.full(2)
    width = 8 if version else 4
    c.numbers(f"4 reference_ID, 4 timescale, {width} earliest_presentation_time, {width} first_offset")
    c.reserved(2)
    c.rows("references", c.count(2, 12), "4 size, 4 subsegment_duration, 4 sap")
    c.put("references [entries]", [
        {"reference_type": entry["size"] >> 31, "referenced_size": entry["size"] & 2**31 - 1,
         "subsegment_duration": entry["subsegment_duration"], "starts_with_SAP": entry["sap"] >> 31,
         "SAP_type": entry["sap"] >> 28 & 7, "SAP_delta_time": entry["sap"] & 2**28 - 1}
        for entry in c.fields.pop("references")])


def entry_front(c):
    """Reads the front that sample entries of all codes have."""
    c.reserved(6)
    c.numbers("2 data_reference_index")


def boxes_after(c):
    """Reads the boxes at the end of a sample entry, as bytes."""
    if c.raw or c.room():
        c.bytes("data_bytes [boxes]")


def srat(c):
    c.full(1)
    c.numbers("4 sampling_rate")


def ssix(c):
    c.full(1)

    def subsegment(s):
        count = s.count(4, 4)
        if not s.raw:
            s.put("range_count", count)
        s.rows("ranges", count, "1 level, 3 range_size")

    count = c.number(4)
    if not c.raw:
        c.put("subsegment_count", count)
    found = [c.entry(subsegment) for _ in range(count)]
    c.put("subsegments", [it["ranges"] for it in found] if c.raw else found)


def stpp(c):
    entry_front(c)
    for name in ("namespace", "schema_location", "auxiliary_mime_types"):
        c.terminated(name)
    boxes_after(c)


def styp(c):
    c.code("major_brand")
    c.numbers("4 minor_version")
    check(c.room() % 4 == 0, "entries do not fill the box")
    brands = c.rest()
    c.fields["compatible_brands"] = [c.as_code(brands[at:at + 4]) for at in range(0, len(brands), 4)]


def stz2(c):
    c.full(1)
    c.reserved(3)
    c.numbers("1 field_size, 4 sample_count")
    bits, count = c.fields["field_size"], c.fields["sample_count"]
    length = (bits * count + 7) // 8
    if c.raw or bits not in (4, 8, 16) or length > c.room():
        c.bytes("data_bytes [entry_sizes]")
        return
    whole, left = int.from_bytes(c.take(length), "big"), 8 * length - bits * count
    c.fields["entry_size"] = [whole >> left + bits * (count - 1 - n) & 2**bits - 1 for n in range(count)]
    if whole & 2**left - 1:
        c.put("padding", whole & 2**left - 1)
    if c.room():
        c.bytes("data_bytes")


def subs(c):
    version, _ = c.full(2)
    width = 4 if version else 2

    def sample(s):
        s.numbers("4 sample_delta")
        s.rows("subsamples", s.count(2, width + 6),
               f"{width} subsample_size, 1 subsample_priority, 1 discardable, 4 codec_specific_parameters")

    count = c.number(4)
    if not c.raw:
        c.put("entry_count", count)
    c.put("entries", [c.entry(sample) for _ in range(count)])


def tcmi(c):
    c.full(1)
    c.numbers("2 text_font, 2 text_face, 2 text_size")
    if c.raw or c.room():
        c.bytes("data_bytes [rest]")


def tenc(c):
    version, _ = c.full(2)
    c.reserved(1)
    if version:
        c.bits("4 default_crypt_byte_block, 4 default_skip_byte_block")
    else:
        c.reserved(1)
    c.numbers("1 default_isProtected, 1 default_Per_Sample_IV_Size")
    c.put("default_KID", c.as_bytes(c.take(16)))
    if c.raw:
        c.bytes("default_constant_IV")
    elif c.room():
        c.numbers("1 default_constant_IV_size")
        c.bytes("default_constant_IV")


def text(c):
    c.numbers(",".join(f"i4 {letter}" for letter in "abucdvxyw"))
    if not c.raw:
        for letter in "abucdvxyw":
            c.fields[letter] /= 2**30 if letter in "uvw" else 2**16


def tfra(c):
    version, _ = c.full(2)
    c.numbers("4 track_ID")
    names = ["length_size_of_traf_num", "length_size_of_trun_num", "length_size_of_sample_num"]
    c.bits("26 -reserved=0, " + ", ".join(f"2 {name}" for name in names))
    c.numbers("4 number_of_entry")
    time = 8 if version else 4
    widths = [time, time] + [c.fields[name] + 1 for name in names]
    if c.raw or sum(widths) * c.fields["number_of_entry"] > c.room():
        c.bytes("data_bytes [entries]")
        return
    entry = ["time", "moof_offset", "traf_number", "trun_number", "sample_number"]
    c.rows("entries", c.fields["number_of_entry"], ",".join(f"{width} {name}" for width, name in zip(widths, entry)))
    if c.room():
        c.bytes("data_bytes")


def reference(r):
    r.code("reference_type")
    r.put("track_IDs", r.numbers_left())


def tref(c):
    found = []
    while c.room():
        found.append(c.sized(reference))
    c.put("references", found)


def urn(c):
    c.full(1)
    c.terminated("name")
    if c.raw:
        c.bytes("location")
    elif c.room():
        c.string("location")


def vpcc(c):
    version, _ = c.full(2)
    c.numbers("1 profile, 1 level")
    if version == 0:
        c.bits("4 bitDepth, 4 colorSpace, 4 chromaSubsampling, 3 transferFunction, 1 videoFullRangeFlag")
    else:
        c.bits("4 bitDepth, 3 chromaSubsampling, 1 videoFullRangeFlag, 8 colourPrimaries, 8 transferCharacteristics,"
               "8 matrixCoefficients")
        c.named({"colourPrimaries": COLOURS["colour_primaries"],
                 "transferCharacteristics": COLOURS["transfer_characteristics"],
                 "matrixCoefficients": COLOURS["matrix_coefficients"]})
    c.named({"chromaSubsampling": {0: "4:2:0 vertical", 1: "4:2:0 colocated", 2: "4:2:2", 3: "4:4:4"}})
    found = c.take(c.count(2, 1, "bytes"))
    if c.raw or found:
        c.put("codecInitializationData", c.as_bytes(found))


def colour_parts(name):
    """Returns a function that reads the parts of a colour. If `raw` is set, their names begin with `name`."""
    return lambda c: c.numbers(", ".join(f"1 {part} [{name}_{part}]" for part in ("red", "green", "blue", "alpha")))


def text_style(c):
    c.numbers("2 startChar [start_char], 2 endChar [end_char], 2 font-ID [font_id],"
              "1 face-style-flags [face_style_flags], 1 font-size [font_size]")
    c.group("text-color-rgba", colour_parts("default_style_text_color_rgba"))


def tx3g(c):
    entry_front(c)
    c.numbers("4 displayFlags [display_flags], i1 horizontal-justification [horizontal_justification],"
              "i1 vertical-justification [vertical_justification]")
    c.group("background-color-rgba", colour_parts("background_color_rgba"))
    c.group("default-text-box", lambda box: box.numbers("i2 top, i2 left, i2 bottom, i2 right"))
    c.group("default-style", text_style)
    if c.raw:
        c.bytes("boxes")
    else:
        c.rest()


def vvcc(c):
    c.full(1)
    c.bits("5 -reserved=31, 2 LengthSizeMinusOne, 1 ptl_present_flag")
    if c.raw or c.room():
        c.bytes("data_bytes [record]")


def wvtt(c):
    entry_front(c)
    boxes_after(c)


MORE = {
    "alac": alac, "chan": chan, "chnl": chnl, "dvcC": dolby_vision, "dvvC": dolby_vision, "enda": enda, "fiel": fiel,
    "mean": item_text, "name": item_text, "srat": srat, "vvcC": vvcc,
    "alis": alis, "avcC": avcc, "hdlr": hdlr, "urn ": urn, "vpcC": vpcc,
    "auxC": auxc, "iloc": iloc, "infe": infe, "ipma": ipma, "irot": irot, "ispe": ispe, "pitm": pitm, "pixi": pixi,
    "imir": lambda c: c.bits("7 -reserved=0, 1 axis"), "sthd": lambda c: c.full(1),
    "gmin": gmin, "hmhd": hmhd, "iods": iods, "leva": leva, "ssix": ssix, "tcmi": tcmi, "text": text,
    "av1C": av1c, "colr": colr, "cslg": cslg, "data": data, "dec3": dec3, "dfLa": dfla, "dOps": dops, "elng": elng,
    "esds": esds, "hvcC": hvcc, "keys": keys, "kind": kind, "mdcv": mdcv,
    "mfro": mfro, "prft": prft, "pssh": pssh, "saio": saio, "saiz": saiz, "sbgp": sbgp, "schm": schm, "sdtp": sdtp,
    "senc": senc, "sgpd": sgpd, "sidx": sidx, "styp": styp, "stz2": stz2, "subs": subs, "tenc": tenc, "tfra": tfra,
    "stpp": stpp, "wvtt": wvtt, "ftab": ftab, "tx3g": tx3g,
    "btrt": lambda c: c.numbers("4 bufferSizeDB, 4 maxBitrate, 4 avgBitrate"),
    "clap": lambda c: c.numbers(
        "4 cleanApertureWidthN, 4 cleanApertureWidthD, 4 cleanApertureHeightN, 4 cleanApertureHeightD, i4 horizOffN,"
        "4 horizOffD, i4 vertOffN, 4 vertOffD"),
    "clli": lambda c: c.numbers("2 max_content_light_level, 2 max_pic_average_light_level"),
    "dac3": lambda c: c.bits("2 fscod, 5 bsid, 3 bsmod, 3 acmod, 1 lfeon, 5 bit_rate_code, 5 -reserved=0"),
    "frma": lambda c: c.code("data_format"), "nmhd": lambda c: c.full(1),
    "pasp": lambda c: c.numbers("4 hSpacing, 4 vSpacing"), "tref": tref,
}


def more_fields(name, content):
    """Returns the fields of a box with the name `name`, in the order of the box. Raises its fault."""
    box = Content(content)
    MORE[name](box)
    return box.fields


class Fields(dict):
    """The fields of a box by the names of the struct, and the bytes that the box is written in."""

    def __init__(self, name, box):
        super().__init__(plain(box.fields))
        self.written = (8 + len(box.written)).to_bytes(4, "big") + name.encode("latin-1") + box.written


def plain(value):
    """Returns `value` in a form that does not depend on how names are written: the names of fields, also in lists, are
    in small letters and without underscores."""
    if isinstance(value, list) and value and isinstance(value[0], dict):
        return [plain(entry) for entry in value]
    if isinstance(value, dict):
        return {field.replace("_", "").lower(): plain(inner) for field, inner in value.items()}
    return value


def extra_box(name, content, size):
    """Reads the box with the name `name` whose content is at the front of `content`. `size` is its size without the
    header."""
    box = Content(content, size, raw=True)
    MORE[name](box)
    return Fields(name, box)
