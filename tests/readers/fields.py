"""The part of the slow reader for boxes of fixed fields and tables. It follows docs/LAYOUT.md only."""

import functools

from tests.readers.headers import Fault, check


class Row:
    """The bytes of a buffer after a box's start, and the box's size."""

    def __init__(self, buffer, start, size):
        check(start + size <= 2**64 - 1, "box end past 64 bits")
        self.buffer, self.start, self.size = buffer, start, size

    def piece(self, offset, length):
        first = self.start + offset
        if length > 0 and first + length > len(self.buffer):
            raise Fault("End")
        return self.buffer[first:first + length]

    def number(self, offset, length, signed=False):
        return int.from_bytes(self.piece(offset, length), "big", signed=signed)

    def numbers(self, offset, length, count, signed=False):
        return [self.number(offset + length * index, length, signed) for index in range(count)]


@functools.cache
def table(text):
    """Returns the fields in `text`, which commas separate. Each field has one offset, or the offsets for versions 0 and
    1. Then comes the number of bytes, or `t` for a time: with `i` before it if signed, and with `x` and a number after
    it for an array. Last comes the name, which is `-` for ignored bytes."""
    fields = []
    for field in text.split(","):
        *offsets, width, name = field.split()
        width, _, count = width.partition("x")
        fields.append(([int(it) for it in offsets], width.lstrip("i"), width[0] == "i", int(count or 0), name))
    return fields


def read_fields(row, fields, version=0):
    values = {}
    for offsets, width, signed, count, name in fields:
        offset = offsets[version if len(offsets) > 1 else 0]
        length = 4 + 4 * version if width == "t" else int(width)
        found = row.numbers(offset, length, count, signed) if count else row.number(offset, length, signed)
        if name == "F":
            values.update(version=found >> 24, flags=found & 0xFFFFFF)
        elif name != "-":
            values[name] = found
    return values


FULL = table("8 4 F")
MATRIX = table("0 i4 a, 4 i4 b, 8 i4 u, 12 i4 c, 16 i4 d, 20 i4 v, 24 i4 x, 28 i4 y, 32 i4 w")
FIXED = {
    "mvhd": table("""8 8 4 F, 12 12 t creation_time, 16 20 t modification_time, 20 28 4 timescale, 24 32 t duration,
        28 40 4 rate, 32 44 2 volume, 34 46 10 -, 44 56 36 matrix, 80 92 24 -, 104 116 4 next_track_id"""),
    "tkhd": table("""8 8 4 F, 12 12 t creation_time, 16 20 t modification_time, 20 28 4 track_id, 24 32 4 -,
        28 36 t duration, 32 44 8 -, 40 52 2 layer, 42 54 2 alternate_group, 44 56 2 volume, 46 58 2 -,
        48 60 36 matrix, 84 96 4 width, 88 100 4 height"""),
    "mdhd": table("""8 8 4 F, 12 12 t creation_time, 16 20 t modification_time, 20 28 4 timescale, 24 32 t duration,
        28 40 2 language"""),
    "mehd": table("8 8 4 F, 12 12 t fragment_duration"),
    "tfdt": table("8 8 4 F, 12 12 t base_media_decode_time"),
    "mfhd": table("8 4 F, 12 4 sequence_number"),
    "smhd": table("8 4 F, 12 i2 balance"),
    "vmhd": table("8 4 F, 12 2 graphics_mode, 14 2x3 op_color"),
    "trex": table("""8 4 F, 12 4 track_id, 16 4 default_sample_description_index, 20 4 default_sample_duration,
        24 4 default_sample_size, 28 4 default_sample_flags"""),
    "hvcC": table("8 1 configuration_version"),
    "vpcC": table("""8 4 F, 12 1 profile, 13 1 level, 14 1 depth_chroma_range, 15 1 color_primaries,
        16 1 transfer_characteristics, 17 1 matrix_coefficients, 18 2 codec_initialization_data_size"""),
    "vp09": table("""8 1 version, 9 3 flags, 12 2 start_code, 14 2 data_reference_index, 16 1x16 reserved0, 32 2 width,
        34 2 height, 36 2x2 horizresolution, 40 2x2 vertresolution, 44 1x4 reserved1, 48 2 frame_count,
        50 1x32 compressorname, 82 2 depth, 84 2 end_code"""),
    "tx3g": table("""8 6 -, 14 2 data_reference_index, 16 4 display_flags, 20 i1 horizontal_justification,
        21 i1 vertical_justification, 22 1x4 bg_color_rgba, 26 i2x4 box_record, 34 1x12 style_record"""),
    "mp4a": table("""8 6 -, 14 2 data_reference_index, 16 8 -, 24 2 channelcount, 26 2 samplesize, 28 4 -,
        32 4 samplerate"""),
    "visual": table("""8 6 -, 14 2 data_reference_index, 16 16 -, 32 2 width, 34 2 height, 36 4 horizresolution,
        40 4 vertresolution, 44 4 -, 48 2 frame_count, 50 32 -, 82 2 depth, 84 2 -"""),
}
TABLES = {
    "stco": (4, None), "co64": (8, None), "stss": (4, None),
    "stts": (8, table("0 4 sample_count, 4 4 sample_delta")),
    "ctts": (8, table("0 4 sample_count, 4 i4 sample_offset")),
    "stsc": (12, table("0 4 first_chunk, 4 4 samples_per_chunk, 8 4 sample_description_index")),
    "elst": (12, table("0 0 t segment_duration, 4 8 t media_time, 8 16 2 media_rate, 10 18 2 media_rate_fraction")),
}


def fixed(row, name):
    """Reads a box of fixed fields with the name `name`."""
    version = 0
    if name in ("mvhd", "tkhd", "mdhd", "mehd", "tfdt"):
        version = read_fields(row, FULL)["version"]
        check(version in (0, 1), "version must be 0 or 1")
    box = read_fields(row, FIXED[name], version)
    if "matrix" in box:
        box["matrix"] = read_fields(Row(box["matrix"].to_bytes(36, "big"), 0, 36), MATRIX)
    if "language" in box:
        box["language"] = "".join(chr(0x60 + (box["language"] >> shift & 0x1F)) for shift in (10, 5, 0))
    if "op_color" in box:
        box["op_color"] = dict(zip(("red", "green", "blue"), box["op_color"]))
    if "bg_color_rgba" in box:
        box["bg_color_rgba"] = dict(zip(("red", "green", "blue", "alpha"), box["bg_color_rgba"]))
    if name == "vpcC":
        bits = box.pop("depth_chroma_range")
        box.update(bit_depth=bits >> 4, chroma_subsampling=bits >> 1 & 7, video_full_range_flag=bool(bits & 1))
    return box


def counted(row, name):
    """Reads a counted table with the name `name`."""
    box = read_fields(row, FULL)
    width, fields = TABLES[name]
    version = 1 if name == "elst" and box["version"] == 1 else 0
    width += 8 * version
    count = row.number(12, 4)
    text = name + " entry_count indicates more entries than could fit in the box"
    check(count <= max(row.size - 16, 0) // width, text)
    rows = row.piece(16, count * width)
    if fields is None:
        box["entries"] = Row(rows, 0, 0).numbers(0, width, count)
    else:
        box["entries"] = [read_fields(Row(rows, width * index, 0), fields, version) for index in range(count)]
    if name == "stsc":
        number_samples(box["entries"])
    return box


def number_samples(entries):
    """Computes the first sample of each of `entries` of a `stsc`: 1 plus all samples of the chunks before its first
    chunk."""
    text = "attempt to calculate stsc sample_id with overflow"
    for index, entry in enumerate(entries):
        sample = 1
        for one, next_one in zip(entries[:index], entries[1:]):
            chunks = next_one["first_chunk"] - one["first_chunk"]
            check(chunks >= 0, text)
            sample += chunks * one["samples_per_chunk"]
        check(sample < 2**32, text)
        entry["first_sample"] = sample


def ftyp(row):
    check(row.size >= 16 and row.size % 4 == 0, "ftyp size too small or not aligned")
    box = read_fields(row, table("8 4 major_brand, 12 4 minor_version"))
    count = (row.size - 16) // 4
    row.piece(16, 4 * count)
    box["compatible_brands"] = row.numbers(16, 4, count)
    return box


def stsz(row):
    box = read_fields(row, table("8 4 F, 12 4 sample_size, 16 4 sample_count"))
    box["sample_sizes"] = []
    if box["sample_size"] == 0:
        count = box["sample_count"]
        check(count <= max(row.size - 20, 0) // 4, "stsz sample_count indicates more values than could fit in the box")
        row.piece(20, 4 * count)
        box["sample_sizes"] = row.numbers(20, 4, count)
    return box


def flagged(row, box, offset, fields):
    """Reads `fields` one after the other, each only if its flag is set. Returns the offset after them."""
    for flag, length, signed, name in fields:
        box[name] = None
        if box["flags"] & flag:
            box[name] = row.number(offset, length, signed)
            offset += length
    return offset


def tfhd(row):
    box = read_fields(row, table("8 4 F, 12 4 track_id"))
    flagged(row, box, 16, [
        (0x01, 8, False, "base_data_offset"), (0x02, 4, False, "sample_description_index"),
        (0x08, 4, False, "default_sample_duration"), (0x10, 4, False, "default_sample_size"),
        (0x20, 4, False, "default_sample_flags")])
    return box


def trun(row):
    box = read_fields(row, table("8 4 F, 12 4 sample_count"))
    count = box["sample_count"]
    o = flagged(row, box, 16, [(0x01, 4, True, "data_offset"), (0x04, 4, False, "first_sample_flags")])
    columns = {0x100: "sample_durations", 0x200: "sample_sizes", 0x400: "sample_flags", 0x800: "sample_cts"}
    present = [name for flag, name in columns.items() if box["flags"] & flag]
    k = 4 * len(present)
    check(count * k <= max(row.size - o, 0), "trun sample_count indicates more values than could fit in the box")
    row.piece(o, count * k)
    for name in columns.values():
        box[name] = []
    for column, name in enumerate(present):
        box[name] = [row.number(o + k * sample + 4 * column, 4) for sample in range(count)]
    return box
