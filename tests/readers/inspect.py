"""Computes the tree of a file a second time, by ISO/IEC 14496-12, QuickTime's format and docs/LAYOUT.md only, to
compare the program mp4inspect with. `tree` gives it as the JSON has it, and `lines` gives the lines of its text. The
faults that `check` writes are in check.py."""

import datetime
import json
import math
import struct

from tests.readers.extra import MORE, Code, Hex, Named, more_fields
from tests.readers.fronts import QUICKTIME_SOUNDS, SOUND_ENTRY, TEXT_ENTRY, VIDEO_ENTRY, bytes_before
from tests.readers.headers import Fault, Header
from tests.readers.readers import READERS, read_row

# The boxes that files have at their top level (ISO/IEC 14496-12, and QuickTime's).
TOPS = b"ftyp styp moov moof mdat meta free skip wide uuid udta sidx ssix prft emsg mfra pdin pnot".split()
DEEPEST = 32
FIXED = {"rate": 16, "volume": 8, "width": 16, "height": 16, "horizresolution": 16, "vertresolution": 16, "balance": 8,
         "samplerate": 16}
# Fields that have a sign (ISO/IEC 14496-12, 8.2.2, 8.3.2 and 8.6.6), and their bits.
SIGNED = {"rate": 32, "volume": 16, "layer": 16, "alternate_group": 16, "media_rate": 16, "media_rate_fraction": 16}
# The names of the standards, where the structs have others: those of any box, and those of one box or descriptor.
STANDARD = {
    "next_track_id": "next_track_ID", "track_id": "track_ID", "graphics_mode": "graphicsmode",
    "base_media_decode_time": "baseMediaDecodeTime", "media_rate": "media_rate_integer", "url": "url ",
    "configuration_version": "configurationVersion", "avc_profile_indication": "AVCProfileIndication",
    "avc_level_indication": "AVCLevelIndication", "length_size_minus_one": "lengthSizeMinusOne",
    "sequence_parameter_sets": "sequenceParameterSetNALUnit", "picture_parameter_sets": "pictureParameterSetNALUnit",
    "avcc": "avcC", "hvcc": "hvcC", "vpcc": "vpcC", "bit_depth": "bitDepth", "chroma_subsampling": "chromaSubsampling",
    "video_full_range_flag": "videoFullRangeFlag", "color_primaries": "colourPrimaries",
    "transfer_characteristics": "transferCharacteristics", "matrix_coefficients": "matrixCoefficients",
    "codec_initialization_data_size": "codecInitializationDataSize", "display_flags": "displayFlags",
    "horizontal_justification": "horizontal-justification", "vertical_justification": "vertical-justification",
    "bg_color_rgba": "background-color-rgba", "box_record": "default-text-box", "style_record": "default-style",
    "es_desc": "ES", "es_id": "ES_ID", "dec_config": "decConfigDescr",
    "object_type_indication": "objectTypeIndication", "stream_type": "streamType", "up_stream": "upStream",
    "buffer_size_db": "bufferSizeDB", "max_bitrate": "maxBitrate", "avg_bitrate": "avgBitrate",
    "dec_specific": "decSpecificInfo",
}
STANDARD_IN = {
    "stco": {"entries": "chunk_offset"}, "co64": {"entries": "chunk_offset"}, "stss": {"entries": "sample_number"},
    "stsz": {"sample_sizes": "entry_size"},
    "trun": {"sample_durations": "sample_duration", "sample_sizes": "sample_size",
             "sample_cts": "sample_composition_time_offset"},
    "dec_specific": {"profile": "audioObjectType", "freq_index": "samplingFrequencyIndex",
                     "sample_rate": "samplingFrequency", "chan_conf": "channelConfiguration"},
}
MATRIX = {"a": 16, "b": 16, "u": 30, "c": 16, "d": 16, "v": 30, "x": 16, "y": 16, "w": 30}
UNITY = {"a": 1, "b": 0, "u": 0, "c": 0, "d": 1, "v": 0, "x": 0, "y": 0, "w": 1}


def number(data, at, length):
    return int.from_bytes(data[at:at + length], "big")


def code(value):
    """Returns the code `value` as the JSON has it: each byte is the character of its number."""
    return value.to_bytes(4, "big").decode("latin-1")


def latin(name):
    return None if name is None else name.decode("latin-1")


def lossy(text):
    """Returns the text `text`, with U+FFFD for each sequence of bytes that is not UTF-8."""
    return text.decode("utf-8", "replace")


def full(data, at):
    return {"version": data[at], "flags": number(data, at + 1, 3)}


def visual(data, at):
    name = lossy(data[at + 43:at + 43 + min(data[at + 42], 31)])
    return {"data_reference_index": number(data, at + 6, 2), "width": number(data, at + 24, 2),
            "height": number(data, at + 26, 2), "horizresolution": number(data, at + 28, 4) / 65536,
            "vertresolution": number(data, at + 32, 4) / 65536, "frame_count": number(data, at + 40, 2),
            "compressorname": name, "depth": number(data, at + 74, 2)}


def sound(data, at, size, front, stsd_version):
    fields = {"data_reference_index": number(data, at + 6, 2)}
    version = number(data, at + 8, 2)
    if stsd_version == 0 and version:
        fields["version"] = version
    fields.update(channelcount=number(data, at + 16, 2), samplesize=number(data, at + 18, 2),
                  samplerate=number(data, at + 24, 4) / 65536)
    if front == QUICKTIME_SOUNDS[1] <= size:
        names = ["samples_per_packet", "bytes_per_packet", "bytes_per_frame", "bytes_per_sample"]
        fields.update((name, number(data, at + 28 + 4 * index, 4)) for index, name in enumerate(names))
    if front == QUICKTIME_SOUNDS[2] <= size:
        fields["audioSampleRate"] = float_in(data[at + 32:at + 40])
        fields.update(numAudioChannels=number(data, at + 40, 4), constBitsPerChannel=number(data, at + 48, 4),
                      formatSpecificFlags=number(data, at + 52, 4), constBytesPerAudioPacket=number(data, at + 56, 4),
                      constLPCMFramesPerAudioPacket=number(data, at + 60, 4))
    return fields


def float_in(data):
    """Returns the number in 8 bytes of IEEE 754, or their hexadecimal digits if they are not a finite number."""
    found, = struct.unpack(">d", data)
    return found if math.isfinite(found) else Hex(data.hex())


def own_texts(name, box, content):
    """Returns the fields of `box`, with the text of its content where the codec keeps the text only if it is UTF-8."""
    if name == "url ":
        box["location"] = lossy(content[4:-1])
    return box


def language(letters):
    """Returns `letters`, those of the code of a language, or the code as a number. Below 0x400 it is the number of a
    language on the Macintosh, and 0x7fff is for no language (QuickTime)."""
    number_ = sum((ord(letter) & 0x1F) << shift for letter, shift in zip(letters, (10, 5, 0)))
    if number_ < 0x400:
        return Named(number_, "Macintosh")
    return Named(number_, "unspecified") if number_ == 0x7FFF else letters


def signed(value, bits):
    return value - 2**bits if value >= 2**(bits - 1) else value


def shown(name, field, version, within=None):
    """Returns the value `field` of the field `name` as the JSON has it."""
    if name in SIGNED:
        field = signed(field, SIGNED[name])
    if name == "language":
        return language(field)
    if name == "matrix":
        return {letter: field[letter] / 2**bits for letter, bits in MATRIX.items()}
    if name in ("horizresolution", "vertresolution") and isinstance(field, list):
        return (field[0] * 65536 + field[1]) / 65536
    if name in FIXED and within not in ("avc1", "hev1", "vp09") or name in ("horizresolution", "vertresolution"):
        return field / 2**FIXED[name]
    if name in ("major_brand", "handler_type"):
        return code(field)
    if name == "compatible_brands":
        return [code(brand) for brand in field]
    if name == "media_time":
        return signed(field, 32 if version == 0 else 64)
    if name == "sample_cts":
        return [offset if version == 0 else signed(offset, 32) for offset in field]
    if name in ("message_data", "compressorname", "reserved0", "reserved1", "style_record"):
        return bytes(field).hex()
    if name in ("sequence_parameter_sets", "picture_parameter_sets"):
        return [bytes(entry["bytes"]).hex() for entry in field]
    if name == "video_full_range_flag":
        return int(field)
    if isinstance(field, dict):
        return fields_of(name, field)
    if isinstance(field, list):
        return [fields_of(name, entry, version) if isinstance(entry, dict) else entry for entry in field]
    return field


def fields_of(name, box, version=None):
    """Returns the fields of a box as the JSON has them: those that are present, in any order."""
    version = box.get("version", version)
    left_out = {name for name, field in box.items() if field is None or name == "sl_config"}
    if name == "trun":
        left_out |= {name for name, field in box.items() if field == []}
    if name == "vmhd":
        colour = {f"opcolor_{part}": field for part, field in box["op_color"].items()}
        box = {**{key: field for key, field in box.items() if key != "op_color"}, **colour}
    names = {**STANDARD, **STANDARD_IN.get(name, {})}
    return {names.get(key, key): shown(key, field, version, name) for key, field in box.items() if key not in left_out}


NOT_MP4 = "this is not an MP4 file: "


def front_text(data):
    """Returns the front of a file: the first eight bytes if they are text, and the first four otherwise."""
    is_text = all(0x20 <= byte < 0x7F for byte in data[:8])
    text = "".join(("\\" if byte in b'"\\' else "") + chr(byte) if 0x20 <= byte < 0x7F else f"\\x{byte:02x}"
                   for byte in data[:8 if is_text else 4])
    return f'"{text}"' if is_text else text


def is_another(name, parent):
    """Returns whether a box with the code `name` in a box with the code `parent` is another one than the box that is
    read: an `mp4a` in a `wave`, an `alac` in an `stsd`, a `text` outside of a `gmhd`, or a `mean` or `name` outside of
    an item of iTunes."""
    if name == b"mp4a":
        return parent == b"wave"
    if name == b"alac":
        return parent == b"stsd"
    if name == b"text":
        return parent != b"gmhd"
    return name in (b"mean", b"name") and parent != b"----"


class Walk:
    """A walk over the boxes of a file."""

    def __init__(self, data):
        self.data, self.handler = data, None
        self.boxes = self.level(0, 0, len(data))

    def brief(self, name, content, end, parent, front, stsd_version):
        """Returns the fields at the front of a box that holds boxes, or None if the box is too short for them."""
        data, size = self.data, end - content
        if parent == b"stsd":
            if front == VIDEO_ENTRY:
                return visual(data, content) if size >= VIDEO_ENTRY else None
            if front in (SOUND_ENTRY, *QUICKTIME_SOUNDS.values()):
                return sound(data, content, size, front, stsd_version) if size >= SOUND_ENTRY else None
            return {"data_reference_index": number(data, content + 6, 2)} if size >= 8 else None
        if name in (b"stsd", b"dref"):
            return dict(full(data, content), entry_count=number(data, content + 4, 4)) if size >= 8 else None
        if name == b"meta" and front == 4:
            return full(data, content)
        return {}

    def leaf(self, name, at, content, end, parent, front, stsd_version):
        """Returns the fields of a box that the walk does not enter, or its fault. Returns neither if the box is not
        read."""
        data = self.data
        if name == b"uuid":
            if end - content < 16:
                return {"fault": "unexpected end of input"}
            digits = data[content:content + 16].hex()
            parts = [digits[:8], digits[8:12], digits[12:16], digits[16:20], digits[20:]]
            return {"fields": {"usertype": "-".join(parts)}}
        is_read = latin(name) in READERS or latin(name) in MORE
        if not is_read or is_another(name, parent):
            if parent != b"stsd":
                return {}
            fields = self.brief(name, content, end, parent, front, stsd_version)
            return {"fault": "unexpected end of input"} if fields is None else {"fields": fields}
        own = data[at:end]
        try:
            header = Header(own, 0)
            header.size = len(own) - header.start
            if header.name in MORE:
                return {"fields": more_fields(header.name, own[header.start + 8:])}
            box = read_row(own, header)
        except Fault as fault:
            words = {"End": "unexpected end of input"}
            kind, *rest = fault.args
            return {"fault": words.get(kind) or rest[0] + (" not found" if kind == "NotFound" else "")}
        return {"fields": fields_of(latin(name), own_texts(latin(name), box, data[content:end]))}

    def level(self, depth, at, end, parent=None, in_entry=False, stsd_version=0):
        """Returns the boxes from the offset `at` to `end`, the end of the content that holds them. In QuickTime the
        boxes of a `udta` and of a sample entry may end with a size of 0 without a code (QuickTime File Format: User
        Data Atoms, Sample Descriptions)."""
        data, boxes = self.data, []
        while at < end:
            left = end - at
            name = data[at + 4:at + 8] if left >= 8 else None
            header = 16 if left >= 8 and number(data, at, 4) == 1 else 8
            box = {"type": latin(name), "position": at, "length": left, "header": left}
            boxes.append(box)
            if data[at:end] == bytes(4) and (parent == b"udta" or in_entry):
                box.update(fields={"terminator": 0}, cut=True)
                return boxes
            if left < header:
                is_short = depth == 0 and at == 0 and name is None
                box.update(fault=NOT_MP4 + f"it has only {left} byte{'' if left == 1 else 's'}" if is_short
                           else "unexpected end of input", cut=True)
                return boxes
            size = number(data, at + 8, 8) if header == 16 else number(data, at, 4)
            if size == 0 and depth == 0:
                size = left
            if size < header:
                box.update(fault="box size too small", cut=True)
                return boxes
            after = min(at + size, end)
            box.update(length=size, header=header)
            self.box(box, depth, name, at + header, after, parent, size > left, stsd_version)
            at = after
        return boxes

    def box(self, box, depth, name, content, end, parent, cut, stsd_version):
        """Adds everything except the header to `box`."""
        front = bytes_before(name, self.data[content:end], parent, self.handler, stsd_version)
        before = None if front is None or end - content < front else front
        outer = self.handler
        if cut:
            is_foreign = box["position"] == 0 and box["header"] == 8 and name not in TOPS
            box.update(fault=NOT_MP4 + f"it begins with {front_text(self.data)}" if is_foreign
                       else "unexpected end of input", cut=True)
        elif before is None:
            box.update(self.leaf(name, box["position"], content, end, parent, front, stsd_version))
        elif depth >= DEEPEST:
            box["deep"] = True
        elif front == TEXT_ENTRY:
            box.update(self.leaf(name, box["position"], content, end, parent, front, stsd_version))
        else:
            fields = self.brief(name, content, end, parent, before, stsd_version)
            box.update({"fault": "unexpected end of input"} if fields is None else {"fields": fields} if fields else {})
        if before is not None and depth < DEEPEST:
            first = min(content + before, end)
            version = self.data[content] if name == b"stsd" else 0
            box["children"] = self.level(depth + 1, first, end, name, parent == b"stsd", version)
        if name == b"mdia":
            self.handler = outer
        if name == b"hdlr" and parent == b"mdia" and not cut:
            self.handler = self.data[content + 8:content + 12] if end - content >= 12 else b"\0\0\0\0"


def in_level(level, front=""):
    """Yields the boxes of a level with their paths, which begin with `front`."""
    types = {}
    for box in level:
        index = types[box["type"]] = types.get(box["type"], -1) + 1
        yield box, front + ("-" if box["type"] is None else code_text(box["type"])) + (f"[{index}]" if index else "")


def located(level, front=""):
    """Yields the boxes of a level and those in them, each with its path."""
    for box, path in in_level(level, front):
        yield box, path
        yield from located(box.get("children", []), path + "/")


def tree(data):
    """Returns the boxes of a file, as the JSON has them. Also sets `deep` where a box is too deep for the walk to
    enter, and `cut` where a box isn't whole."""
    return Walk(data).boxes


def with_names(value):
    """Returns `value` with the meaning of each number that has one, under the number's name with `_name` after it."""
    if isinstance(value, list):
        return [with_names(entry) for entry in value]
    if not isinstance(value, dict):
        return value
    found = {}
    for name, inner in value.items():
        found[name] = with_names(inner)
        if isinstance(inner, Named):
            found[name + "_name"] = inner.name
    return found


def plain(boxes):
    """Returns the boxes without the keys that the JSON doesn't have."""
    found = []
    for box in boxes:
        box = {key: value for key, value in box.items() if key not in ("deep", "cut")}
        if "fields" in box:
            box["fields"] = with_names(box["fields"])
        if "children" in box:
            box["children"] = plain(box["children"])
        found.append(box)
    return found


def every(boxes, around=()):
    """Yields each box, with the boxes around it, in the order of the file."""
    for box in boxes:
        yield box, around
        yield from every(box.get("children", []), (*around, box))


def is_faulty(boxes):
    return any("fault" in box for box, _ in every(boxes))


# ---- the text

DATES = {"creation_time", "modification_time"}
FLAGS = {
    "tkhd": {1: "enabled", 2: "in_movie", 4: "in_preview", 8: "size_is_aspect_ratio"},
    "tfhd": {1: "base_data_offset", 2: "sample_description_index", 8: "default_sample_duration",
             16: "default_sample_size", 32: "default_sample_flags", 0x10000: "duration_is_empty",
             0x20000: "default_base_is_moof"},
    "trun": {1: "data_offset", 4: "first_sample_flags", 0x100: "sample_duration", 0x200: "sample_size",
             0x400: "sample_flags", 0x800: "sample_composition_time_offset"},
    "url ": {1: "same_file"}, "urn ": {1: "same_file"}, "alis": {1: "same_file"}, "schm": {1: "scheme_uri"},
    "saio": {1: "aux_info_type"}, "saiz": {1: "aux_info_type"},
    "senc": {2: "UseSubSampleEncryption"}, "infe": {1: "hidden"}, "ipma": {1: "property_index of 15 bits"},
}
# The channels of a sound, each with its bit (QuickTime File Format, "Audio channel layout atom").
CHANNELS = {
    1: "left", 2: "right", 4: "centre", 8: "LFE", 0x10: "left surround", 0x20: "right surround", 0x40: "left centre",
    0x80: "right centre", 0x100: "centre surround", 0x200: "left surround direct", 0x400: "right surround direct",
    0x800: "top centre surround", 0x1000: "vertical height left", 0x2000: "vertical height centre",
    0x4000: "vertical height right", 0x8000: "top back left", 0x10000: "top back centre", 0x20000: "top back right",
}
# The flags of timed text (3GPP TS 26.245, 5.16).
DISPLAY_FLAGS = {0x20: "scroll_in", 0x40: "scroll_out", 0x800: "continuous_karaoke", 0x20000: "write_text_vertically",
                 0x40000: "fill_text_region"}
SAMPLE_FLAGS = {"default_sample_flags", "first_sample_flags", "sample_flags"}
KINDS = {"vide": "video", "soun": "sound", "text": "text", "sbtl": "subtitles", "subt": "subtitles", "clcp": "captions",
         "hint": "hints", "tmcd": "time code", "meta": "metadata", "pict": "pictures"}
BYTES = {"message_data", "data_bytes", "compressorname", "reserved0", "reserved1", "default-style",
         "sequenceParameterSetNALUnit", "pictureParameterSetNALUnit"}
# The order of fields, where it is not that of the slow reader. Other fields follow these.
ORDERS = {
    "emsg": ["version", "flags", "scheme_id_uri", "value", "timescale", "presentation_time", "presentation_time_delta",
             "event_duration", "id", "message_data"],
    "vpcC": ["version", "flags", "profile", "level", "bitDepth", "colorSpace", "chromaSubsampling", "transferFunction",
             "videoFullRangeFlag", "colourPrimaries", "transferCharacteristics", "matrixCoefficients",
             "codecInitializationDataSize"],
    "decConfigDescr": ["size_bytes", "objectTypeIndication", "streamType", "upStream", "reserved", "bufferSizeDB",
                       "maxBitrate", "avgBitrate", "decSpecificInfo"],
    "trun": ["version", "flags", "sample_count", "data_offset", "first_sample_flags", "samples"],
}
# The names of the parts of a sample.
SAMPLE = ["sample_duration", "sample_size", "sample_flags", "sample_composition_time_offset"]


def code_text(text):
    if all(" " <= c <= "~" or "\xa0" <= c <= "\xff" for c in text):
        return text
    return "0x" + text.encode("latin-1").hex()


def fixed_text(value):
    """Returns the text of a number with at most 30 bits after the point, in full."""
    if value == int(value):
        return str(int(value))
    text = f"{value:.30f}".rstrip("0")
    return text


# Characters that are shown by their numbers: controls, separators of lines, and those of Unicode's Bidi_Control.
ESCAPED = ["\0\x1f", "\x7f\x9f", "\u061c\u061c", "\u200e\u200f", "\u2028\u202e", "\u2066\u2069"]


def is_escaped(c):
    return any(first <= c <= last for first, last in ESCAPED)


def text_text(text):
    found = ""
    for c in text:
        if c in '"\\':
            found += "\\" + c
        elif c == "\n":
            found += "\\n"
        elif is_escaped(c):
            found += f"\\u{{{ord(c):x}}}"
        else:
            found += c
    return f'"{found}"'


def bytes_text(digits):
    count = len(digits) // 2
    shown_ = digits[:48]
    front = shown_ + (".. " if count > 24 else " ") if shown_ else ""
    return f"{front}({count} byte{'' if count == 1 else 's'})"


def flags_text(flags, digits, names):
    named = [name for bit, name in names.items() if flags & bit]
    return f"0x{flags:0{digits}x}" + (f" ({', '.join(named)})" if named else "")


def date_text(seconds):
    most = (datetime.datetime(9999, 12, 31) - datetime.datetime(1904, 1, 1)).days * 86400
    if 0 < seconds < most:
        return f"{(datetime.datetime(1904, 1, 1) + datetime.timedelta(seconds=seconds)).isoformat()}Z ({seconds})"
    return str(seconds)


def value_text(name, value, within):
    if isinstance(value, Hex):
        return bytes_text(value)
    if isinstance(value, Code):
        return code_text(value)
    if isinstance(value, Named):
        return f"{value} ({value.name})"
    if name in DATES:
        return date_text(value)
    if name == "flags":
        return flags_text(value, 6, FLAGS.get(within, {}))
    if name in SAMPLE_FLAGS:
        return flags_text(value, 8, {0x10000: "non_sync"})
    if name == "mChannelBitmap":
        return flags_text(value, 8, CHANNELS)
    if name == "mChannelFlags":
        return flags_text(value, 8, {1: "rectangular", 2: "spherical", 4: "metres"})
    if name == "displayFlags":
        return flags_text(value, 8, DISPLAY_FLAGS)
    if name == "face-style-flags":
        return flags_text(value, 2, {1: "bold", 2: "italic", 4: "underline"})
    if name in ("formatSpecificFlags", "general_profile_compatibility_flags"):
        return flags_text(value, 8, {})
    if name == "media_time":
        return "empty" if value == -1 else str(value)
    if name in ("major_brand", "handler_type"):
        return code_text(value)
    if name == "compatible_brands":
        return " ".join(map(code_text, value)) or "none"
    if name in BYTES and not (name == "compressorname" and within != "vp09"):
        return bytes_text(value)
    if name == "matrix":
        rows = [" ".join(fixed_text(value[letter]) for letter in row) for row in ("abu", "cdv", "xyw")]
        return f"({'; '.join(rows)})"
    if name == "audioSampleRate":
        return repr(value).replace("e+", "e").removesuffix(".0")
    if isinstance(value, float):
        return fixed_text(value)
    if isinstance(value, str):
        return text_text(value)
    return str(value)


def samples(fields):
    """Returns `fields`, those of a run, with its samples instead of its columns."""
    columns = {name: fields.pop(name) for name in SAMPLE if name in fields}
    if columns:
        count = max(map(len, columns.values()))
        fields["samples"] = [{name: column[index] for name, column in columns.items()} for index in range(count)]
    return fields


class Lines:
    """The lines of a tree."""

    def __init__(self, rows, names):
        self.rows, self.names, self.lines = rows, names, []

    def fields(self, fields, within, indent, first=""):
        """Adds the pieces of `fields` after the text `first` to the last line, and adds the lines of their lists."""
        before = first
        for name, value in fields.items():
            if name == "matrix" and value == UNITY:
                continue
            is_list = isinstance(value, list) and name != "compatible_brands"
            if before == "\n":
                self.lines.append(" " * (indent + 2))
            else:
                self.lines[-1] += before
            before = ", "
            if isinstance(value, dict) and name != "matrix":
                self.lines[-1] += f"{name}: {{"
                self.fields(ordered(value, name), name, indent, " ")
                self.lines[-1] += " }"
            elif is_list:
                self.lines[-1] += f"{name}: {len(value)}"
                self.entries(name, value, within, indent)
                if value and self.rows:
                    before = "\n"
            else:
                self.lines[-1] += f"{name}: {value_text(name, value, within)}"

    def entries(self, name, entries, within, indent):
        for index, entry in enumerate(entries[:self.rows]):
            self.lines.append(f"{' ' * (indent + 4)}{index + 1}:")
            if isinstance(entry, dict):
                self.fields(entry, within, indent + 4, " ")
            else:
                self.lines[-1] += " " + value_text(name, entry, within)
        if 0 < self.rows < len(entries):
            self.lines.append(f"{' ' * (indent + 4)}.. {len(entries) - self.rows} more")

    def box(self, box, around, track, is_track):
        name = box["type"]
        indent = 2 * len(around)
        head = f"{' ' * indent}{'-' if name is None else code_text(name)} @{box['position']} +{box['length']}"
        self.lines.append(head)
        called = self.names.get(name)
        if name == "trak":
            words = [f"track {track[0]}"] if track[0] is not None else []
            if any(child["type"] == "tkhd" for child in box.get("children", [])) and is_track and not words:
                words = ["unreadable track_ID"]
            words += [f"{KINDS.get(track[1], 'media')} ({code_text(track[1])})"] if track[1] is not None else []
            self.lines[-1] += " " + ", ".join(words) if words else ""
        if around and around[-1]["type"] == "stsd" and called:
            self.lines[-1] += f" ({called})"
        if "fault" in box:
            self.lines[-1] += f" fault: {box['fault']}"
        elif box.get("deep"):
            self.lines[-1] += " not gone into: in 32 boxes"
        elif "fields" in box:
            leaf = "children" not in box
            self.fields(ordered(box["fields"], name), name if leaf or name != "vp09" else "visual", indent, " ")
        elif "children" not in box:
            self.lines[-1] += " not read" + (f" ({called})" if called else "")


def ordered(fields, name):
    """Returns `fields` in their order, with the samples of a run instead of its columns."""
    fields = samples(dict(fields)) if name == "trun" else fields
    first = [key for key in ORDERS.get(name, []) if key in fields]
    return {key: fields[key] for key in first + [key for key in fields if key not in first]}


def first(boxes, name):
    """Returns the first of `boxes` with the name `name`, or an empty box."""
    return next((box for box in boxes if box["type"] == name), {})


def value_of(box, field):
    """Returns the field `field` of a box, or None if the box can't be read."""
    return box.get("fields", {}).get(field)


def tracks_of(boxes):
    """Returns the tracks among the boxes of a file, each with its track_ID and its handler, by the position of its
    `trak`: those of the first `moov` (ISO/IEC 14496-12, 8.2.1). What can't be read is None."""
    found = {}
    for trak in first(boxes, "moov").get("children", []):
        if trak["type"] == "trak":
            inside = trak.get("children", [])
            media = first(inside, "mdia").get("children", [])
            found[trak["position"]] = (value_of(first(inside, "tkhd"), "track_ID"),
                                       value_of(first(media, "hdlr"), "handler_type"))
    return found


def is_whole(box):
    """Returns whether the whole box is present. It may have another fault."""
    return not box.get("cut")


def lines(boxes, rows, names):
    """Returns the lines of the tree of a file."""
    found, tracks = Lines(rows, names), tracks_of(boxes)
    for box, around in every(boxes):
        found.box(box, around, tracks.get(box["position"], (None, None)), box["position"] in tracks)
    return found.lines


def document(name, boxes):
    return {"file": name, "boxes": plain(boxes)}


def dumps(value):
    return json.dumps(value, ensure_ascii=False)
