"""Reads boxes back from their JSON, by the program test_probe.

The rows of this folder that have the fields of a box give one text each: these fields, and the box is that of the row,
or the last box inside it. What is made has to be written in the bytes of that box. It is made once more with the names
in the opposite order, and once without the derived members. Texts with one thing wrong have to be refused, with the
path of the member and the reason; these were worked out by hand from docs/FIELDS.md.

The JSON that is shown of each box of each row has to give the same box back. The slow reader says how many boxes a row
has."""

import copy
import json
import os
import subprocess
import unittest

from tests.built import TOP, built
from tests.readers.extra import MORE
from tests.readers.headers import Fault, headers
from tests.readers.readers import READERS, outcome, read_boxes
from tests.readers.shown import records, shown, texts_of
from tests.rows import rows
from tests.rows.avcc import COUNTED as COUNTED_AVCC
from tests.rows.esds import COUNTED as COUNTED_ESDS
from tests.rows.hdlr import COUNTED as COUNTED_HDLR
from tests.rows.making import box, counting, full, u32
from tests.rows.mp4a import COUNTED as COUNTED_MP4A
from tests.rows.tx3g import COUNTED as COUNTED_TX3G
from tests.rows.vpcc import COUNTED as COUNTED_VPCC

# The numbers of the texts with the bytes in which the box of an input is written: as a declared box, and in a list of
# the codec's boxes.
WRITTEN = 7
WRITTEN_IN_A_LIST = 2
# The numbers of the texts of a JSON text: the declared box, and the codec's.
DECLARED = 0
CODEC = 1
# Rows with fields that mp4inspect reads from the bytes, and that the codec's box lacks.
NOT_KEPT = {
    "alis::fields_in_a_data_reference", "dinf::fields_of_the_reference_inside", "dref::fields_of_no_references",
    "stsd::fields_of_descriptions", "urn::fields_in_a_data_reference",
}
# The codec's boxes that have other fields in the rows, which mp4inspect reads from the bytes. Each has its code, the
# codec's fields, and its bytes.
COUNTED_URL = {"version": 0x81, "flags": 0x828384, "location": "\u00e9/a"}
URL_BYTES = box(b"url ", counting(0x81, 0x84), b"\xc3\xa9/a\0")
COUNTED_DREF = {"version": 0x85, "flags": 0x868788, "url ": COUNTED_URL}
DREF_BYTES = box(b"dref", counting(0x85, 0x88), u32(1), URL_BYTES)
MP4A = {"data_reference_index": 0x8182, "channelcount": 0x8384, "samplesize": 0x8586, "samplerate": 0x8788898A / 65536}
OWN_FIELDS = [
    (b"url ", COUNTED_URL, URL_BYTES),
    (b"dref", COUNTED_DREF, DREF_BYTES),
    (b"dref", {"version": 0, "flags": 0}, full(b"dref", u32(0))),
    (b"dinf", {"dref": COUNTED_DREF}, box(b"dinf", DREF_BYTES)),
    (b"hvcC", {"configurationVersion": 0x81}, box(b"hvcC", b"\x81")),
    (b"avcC", {
        "configurationVersion": 0x81, "AVCProfileIndication": 0x82, "profile_compatibility": 0x83,
        "AVCLevelIndication": 0x84, "lengthSizeMinusOne": 2, "sequenceParameterSetNALUnit": ["8586", "87", "88898a"],
        "pictureParameterSetNALUnit": ["8b", "", "8c8d8e8f", "9091"],
    }, COUNTED_AVCC),
    (b"esds", {"version": 0x81, "flags": 0x828384, "ES": {"ES_ID": 0x8586, "decConfigDescr": {
        "objectTypeIndication": 0x87, "streamType": 34, "upStream": 2, "bufferSizeDB": 0x88898A,
        "maxBitrate": 0x8C8D8E8F, "avgBitrate": 0x90919293,
        "decSpecificInfo": {"audioObjectType": 22, "samplingFrequencyIndex": 13, "channelConfiguration": 12},
    }}}, COUNTED_ESDS),
    (b"hdlr", {"version": 0x81, "flags": 0x828384, "handler_type": "\x85\x86\x87\x88", "name": "B\u00e4nd"},
     COUNTED_HDLR),
    (b"vpcC", {
        "version": 0x81, "flags": 0x828384, "profile": 0x85, "level": 0x86, "bitDepth": 8, "chromaSubsampling": 3,
        "videoFullRangeFlag": 1, "colourPrimaries": 0x88, "transferCharacteristics": 0x89, "matrixCoefficients": 0x8A,
        "codecInitializationDataSize": 0x8B8C,
    }, COUNTED_VPCC),
    (b"tx3g", {
        "data_reference_index": 0x8182, "displayFlags": 0x83848586, "horizontal-justification": -121,
        "vertical-justification": -120,
        "background-color-rgba": {"red": 0x89, "green": 0x8A, "blue": 0x8B, "alpha": 0x8C},
        "default-text-box": [-29298, -28784, -28270, -27756], "default-style": "95969798999a9b9c9d9e9fa0",
    }, COUNTED_TX3G),
    (b"stsd", {"version": 0xB1, "flags": 0xB2B3B4, "mp4a": MP4A},
     box(b"stsd", counting(0xB1, 0xB4), u32(1), COUNTED_MP4A)),
    (b"stsd", {"version": 0, "flags": 0}, full(b"stsd", u32(0))),
    (b"data", {"data_type": 1, "data_type_name": "text", "text": "\u00e9"},
     box(b"data", u32(1), u32(0), b"\xc3\xa9")),
    (b"data", {"data_type": 21, "data_type_name": "signed integer", "number": -2},
     box(b"data", u32(21), u32(0), b"\xfe")),
    (b"data", {"data_type": 1, "data_type_name": "text", "text": "a\ufffd", "text_hex": "61ff"},
     box(b"data", u32(1), u32(0), b"a\xff")),
    (b"data", {"data_type": 21, "data_type_name": "signed integer", "number": 1, "number_hex": "00000001"},
     box(b"data", u32(21), u32(0), u32(1))),
]
REASONS = {
    "json": "is not JSON",
    "object": "is not an object",
    "array": "is not an array",
    "whole": "is not a whole number that the field can have",
    "number": "is not a number of at most 37 digits",
    "text": "is not a text",
    "hex": "is not a text of pairs of hexadecimal digits",
    "code": "is not a text of four characters below U+0100",
    "range": "does not fit the field",
    "version": "is a version that the box does not have",
    "length": "has a wrong number of bytes",
    "many": "has more entries than the field can count",
    "count": "has a wrong number of entries",
    "zero": "has a zero byte",
    "unknown": "is not a field of this box",
    "twice": "comes twice",
    "missing": "is missing",
    "contradiction": "contradicts its field",
    "kept": "is not kept beside the entry before it",
}
PASP = {"hSpacing": 4, "vSpacing": 3}
PASP_BYTES = bytes.fromhex("00000010706173700000000400000003")
SIDX = {
    "version": 0, "flags": 0, "reference_ID": 1, "timescale": 1000, "earliest_presentation_time": 0, "first_offset": 0,
    "references": [
        {"reference_type": 0, "referenced_size": 100, "subsegment_duration": 5, "starts_with_SAP": 1, "SAP_type": 1,
         "SAP_delta_time": 0},
        {"reference_type": 0, "referenced_size": 200, "subsegment_duration": 6, "starts_with_SAP": 1, "SAP_type": 1,
         "SAP_delta_time": 0},
    ],
}
TENC = {
    "version": 0, "flags": 0, "default_isProtected": 1, "default_Per_Sample_IV_Size": 8,
    "default_KID": "000102030405060708090a0b0c0d0e0f",
}
COLR = {
    "colour_type": "nclx", "colour_primaries": 9, "colour_primaries_name": "BT.2020", "transfer_characteristics": 16,
    "transfer_characteristics_name": "SMPTE ST 2084", "matrix_coefficients": 9,
    "matrix_coefficients_name": "BT.2020 non-constant luminance", "full_range_flag": 0,
}
KIND = {"version": 0, "flags": 0, "schemeURI": "urn:a", "value": "main"}
STYP = {"major_brand": "msdh", "minor_version": 0, "compatible_brands": ["msdh", "msix"]}
GMIN = {
    "version": 0, "flags": 0, "graphicsmode": 64, "opcolor_red": 32768, "opcolor_green": 32768, "opcolor_blue": 32768,
    "balance": 0.5,
}
HDLR = {"version": 0, "flags": 0, "handler_type": "vide", "name": "Video"}
SETS = {
    "configurationVersion": 1, "AVCProfileIndication": 66, "profile_compatibility": 0, "AVCLevelIndication": 30,
    "lengthSizeMinusOne": 3, "numOfSequenceParameterSets": 1, "sequenceParameterSetNALUnit": ["6742"],
    "numOfPictureParameterSets": 1, "pictureParameterSetNALUnit": ["68ce"],
}
# AAC LC at 48000 hertz in stereo.
STREAM = {
    "version": 0, "flags": 0, "ES_ID": 1, "streamDependenceFlag": 0, "URL_Flag": 0, "OCRstreamFlag": 0,
    "streamPriority": 0,
    "decConfigDescr": {
        "objectTypeIndication": 64, "streamType": 5, "upStream": 0, "bufferSizeDB": 0, "maxBitrate": 1, "avgBitrate": 1,
        "AudioSpecificConfig": {
            "audioObjectType": 2, "samplingFrequencyIndex": 3, "samplingFrequency": 48000, "channelConfiguration": 2,
        },
    },
    "decoder_descriptors": [{"tag": 5, "data_bytes": "1190"}],
    "descriptors": [{"tag": 6, "predefined": 2}],
}
MDHD = {
    "version": 0, "flags": 0, "creation_time": 1, "modification_time": 2, "timescale": 1000, "duration": 3,
    "language": "eng",
}
TKHD = {
    "version": 0, "flags": 7, "creation_time": 1, "modification_time": 2, "track_ID": 3, "duration": 4, "layer": 0,
    "alternate_group": 0, "volume": 1.0,
    "matrix": {"a": 1.0, "b": 0.0, "u": 0.0, "c": 0.0, "d": 1.0, "v": 0.0, "x": 0.0, "y": 0.0, "w": 1.0},
    "width": 320.0, "height": 240.0,
}
STSZ = {"version": 0, "flags": 0, "sample_size": 0, "sample_count": 2, "entry_size": [5, 6]}
# Has two chunks of three samples, and then chunks of four, so sample 7 is the first of the second run.
STSC = {"version": 0, "flags": 0, "entries": [
    {"first_chunk": 1, "samples_per_chunk": 3, "sample_description_index": 1, "first_sample": 1},
    {"first_chunk": 3, "samples_per_chunk": 4, "sample_description_index": 1, "first_sample": 7},
]}
ELST = {"version": 0, "flags": 0, "entries": [
    {"segment_duration": 5, "media_time": -1, "media_rate_integer": 1, "media_rate_fraction": 0},
]}
TRUN = {
    "version": 0, "flags": 0xA00, "sample_count": 2, "sample_size": [5, 6], "sample_composition_time_offset": [0, 1],
}
EMSG = {
    "version": 0, "flags": 0, "scheme_id_uri": "urn:a", "value": "1", "timescale": 1000, "presentation_time_delta": 2,
    "event_duration": 3, "id": 4, "message_data": "00ff",
}
AVCC = {
    "configurationVersion": 1, "AVCProfileIndication": 66, "profile_compatibility": 0, "AVCLevelIndication": 30,
    "lengthSizeMinusOne": 3, "sequenceParameterSetNALUnit": ["6742"], "pictureParameterSetNALUnit": ["68ce"],
}
TX3G = {
    "data_reference_index": 1, "displayFlags": 0, "horizontal-justification": 1, "vertical-justification": -1,
    "background-color-rgba": {"red": 0, "green": 0, "blue": 0, "alpha": 255}, "default-text-box": [0, 0, 60, 400],
    "default-style": "000000000001001ffffffff0",
}
ESDS = {"version": 0, "flags": 0, "ES": {"ES_ID": 1, "decConfigDescr": {
    "objectTypeIndication": 64, "streamType": 5, "upStream": 0, "bufferSizeDB": 0, "maxBitrate": 1, "avgBitrate": 1,
    "decSpecificInfo": {"audioObjectType": 2, "samplingFrequencyIndex": 3, "channelConfiguration": 2},
}}}


def without(of_box, *names):
    return {name: value for name, value in of_box.items() if name not in names}


def inside(of_box, name, index, **changes):
    """Returns `of_box` with changes in an entry of the list `name`. A change to None takes a member away."""
    found = copy.deepcopy(of_box)
    entry = found[name][index]
    for key, value in changes.items():
        if value is None:
            del entry[key]
        else:
            entry[key] = value
    return found


def inside_of(of_box, *names, **changes):
    """Returns `of_box` with changes in the object that the names lead to. A change to None takes a member away."""
    found = copy.deepcopy(of_box)
    group = found
    for name in names:
        group = group[name]
    for key, value in changes.items():
        if value is None:
            del group[key]
        else:
            group[key] = value
    return found


def ran(cases):
    """Returns the two texts that the program prints for each case: a code, and a JSON text."""
    inputs = [(int.from_bytes(code, "big"), text.encode("utf-8")) for code, text in cases]
    words = [built("test_probe"), "json"]
    out = subprocess.run(words, input=records(inputs), stdout=subprocess.PIPE, check=True).stdout
    return texts_of(out, len(inputs), 2)


def backs(inputs):
    """Returns the lines that the program prints for each input, a position and bytes."""
    words = [built("test_probe"), "back"]
    out = subprocess.run(words, input=records(inputs), stdout=subprocess.PIPE, check=True).stdout
    return [text.splitlines() for [text] in texts_of(out, len(inputs), 1)]


def boxes_in(buffer, at):
    """Returns the number of boxes in the two lists of `buffer`: the codec's boxes, and the declared ones. A list with a
    fault has no boxes. The lists are those of the slow reader."""
    boxes, _ = read_boxes(buffer, at)
    found = 0 if isinstance(boxes, Fault) else len(boxes)
    try:
        headed = [it for it in headers(buffer, at) if it.name in MORE]
    except Fault:
        return found
    declared = [outcome(buffer, it.name, it.start, it.size, True) for it in headed]
    return found if any(isinstance(it, Fault) for it in declared) else found + len(declared)


def is_back(line):
    """Returns whether a line says that a box is back. The boxes inside a `tx3g` are no fields of it, so it is made
    without them."""
    return line == "same" or line.startswith("Ok(Some(Tx3gBox(") and "boxes: []" in line


def last_box(buffer):
    """Returns the bytes of the last box inside `buffer`, as mp4inspect finds it."""
    words = [built("mp4_inspect"), "--json", "-"]
    printed = subprocess.run(words, input=buffer, stdout=subprocess.PIPE, check=True).stdout
    level, found = json.loads(printed)[0].get("boxes"), None
    while level:
        found = level[-1]
        level = found.get("children")
    return buffer[found["position"]:found["position"] + found["length"]]


def reversed_names(value):
    """Returns `value` with the names of each object in the opposite order."""
    if isinstance(value, dict):
        return {name: reversed_names(it) for name, it in reversed(value.items())}
    return [reversed_names(it) for it in value] if isinstance(value, list) else value


def derived_of(code):
    """Returns the names of the members of a box that follow from others, by docs/boxes.json."""
    def names(members):
        for member in members:
            if "of" in member:
                yield member["name"]
            for inside in ("entries", "fields"):
                if isinstance(member.get(inside), list):
                    yield from names(member[inside])

    with open(os.path.join(TOP, "docs", "boxes.json"), encoding="utf-8") as file:
        boxes = json.load(file)["boxes"]
    return {name for box in boxes if box["code"] == code for name in names(box["fields"])}


def without_derived(value, derived):
    """Returns `value` without the members `derived`, and without the texts and numbers beside their bytes."""
    if isinstance(value, list):
        return [without_derived(it, derived) for it in value]
    if not isinstance(value, dict):
        return value
    left_out = derived | {name[:-4] for name in value if name.endswith("_hex")}
    return {name: without_derived(it, derived) for name, it in value.items() if name not in left_out}


def refusal(path, reason):
    return f"{path or 'the text'} {REASONS[reason]}"


def in_three_forms(fields, derived):
    """Returns the JSON of `fields` as it is shown, with the names in the opposite order, and without the members
    `derived`."""
    forms = (fields, reversed_names(fields), without_derived(fields, derived))
    return [json.dumps(value, ensure_ascii=False) for value in forms]


class Taken(unittest.TestCase):
    def compare(self, cases, kind=DECLARED):
        """Compares what the program prints for cases, each with a code, a JSON text and the expected text. `kind` is
        `DECLARED` or `CODEC`."""
        texts = [texts[kind] for texts in ran([case[:2] for case in cases])]
        wrong = [f"{code} {text}\n  expected: {expected}\n  found:    {found}"
                 for (code, text, expected), found in zip(cases, texts) if found != expected]
        if wrong:
            self.fail("\n".join([f"{len(wrong)} differences in {len(cases)} texts", *wrong]))

    def test_rows(self):
        """The fields of the rows give the bytes of their boxes, whatever the order of names."""
        found = []
        for name, row in rows():
            if row.fields is None:
                continue
            box = last_box(row.buffer)
            if box[4:8].decode("latin-1") in MORE:
                found.append((name, box, row.fields))
        self.assertGreater(len(found), 60)
        written = [texts[WRITTEN] for texts in shown(built("test_probe"), [(0, box) for _, box, _ in found])]
        cases = []
        for (name, box, fields), expected in zip(found, written):
            derived = derived_of(box[4:8].decode("latin-1"))
            cases.extend((box[4:8], text, expected) for text in in_three_forms(fields, derived))
        self.compare(cases)

    def test_rows_of_the_codec(self):
        """The fields of the rows give the bytes of the codec's boxes too."""
        found = [row for name, row in rows()
                 if row.fields is not None and name not in NOT_KEPT and row.buffer[4:8].decode("latin-1") in READERS
                 and row.buffer[4:8].decode("latin-1") not in MORE]
        texts = shown(built("test_probe"), [(row.at, row.buffer) for row in found])
        made = [(row.buffer[4:8], row.fields, written[WRITTEN_IN_A_LIST]) for row, written in zip(found, texts)]
        made += [(code, fields, f"Ok({len(whole)}) {list(whole)}") for code, fields, whole in OWN_FIELDS]
        self.assertEqual(sorted(READERS), sorted({code.decode("latin-1") for code, _, _ in made}))
        self.assertGreater(len(made), 45)
        cases = []
        for code, fields, expected in made:
            forms = in_three_forms(fields, derived_of(code.decode("latin-1")))
            cases.extend((code, text, expected) for text in forms)
        self.compare(cases, CODEC)

    def test_back(self):
        """The JSON that is shown of each box gives the box back."""
        found = list(rows())
        lines = backs([(row.at, row.buffer) for _, row in found])
        wrong = []
        for (name, row), it in zip(found, lines):
            expected = boxes_in(row.buffer, row.at)
            if len(it) != expected or not all(map(is_back, it)):
                wrong.append(f"{name}: {expected}\n" + "\n".join(line[:2000] for line in it))
        self.assertTrue(any(lines))
        if wrong:
            self.fail("\n".join([f"{len(wrong)} differences", *wrong[:40]]))

    def refused(self, code, table, kind=DECLARED):
        """Expects that each object or text of `table` is refused, with a path and a reason."""
        self.compare([(code, it if isinstance(it, str) else json.dumps(it), refusal(path, reason))
                      for it, path, reason in table], kind)

    def test_whole_text(self):
        self.refused(b"pasp", [
            ("", "", "json"),
            ("{", "", "json"),
            ('{"hSpacing": 4,}', "", "json"),
            ("[]", "", "object"),
            ("4", "", "object"),
            ("null", "", "object"),
        ])

    def test_names(self):
        self.refused(b"pasp", [
            (without(PASP, "vSpacing"), "vSpacing", "missing"),
            ({}, "hSpacing", "missing"),
            ({**PASP, "zSpacing": 3}, "zSpacing", "unknown"),
            ({**PASP, "hspacing": 3}, "hspacing", "unknown"),
            ({**PASP, "hSpacing_name": "x"}, "hSpacing_name", "unknown"),
            ('{"hSpacing": 4, "vSpacing": 3, "hSpacing": 4}', "hSpacing", "twice"),
            ('{"a": 1, "b": 2, "hSpacing": 4, "vSpacing": 3}', "a", "unknown"),
        ])

    def test_numbers(self):
        self.refused(b"pasp", [
            ({**PASP, "vSpacing": 2**32}, "vSpacing", "range"),
            ({**PASP, "vSpacing": 2**64}, "vSpacing", "whole"),
            ({**PASP, "vSpacing": -1}, "vSpacing", "whole"),
            ({**PASP, "vSpacing": 1.5}, "vSpacing", "whole"),
            ({**PASP, "vSpacing": "3"}, "vSpacing", "whole"),
            ({**PASP, "vSpacing": None}, "vSpacing", "whole"),
            ({**PASP, "vSpacing": [3]}, "vSpacing", "whole"),
            ({**PASP, "vSpacing": True}, "vSpacing", "whole"),
        ])

    def test_versions(self):
        self.refused(b"tenc", [
            ({**TENC, "version": 2}, "version", "version"),
            ({**TENC, "version": 256}, "version", "range"),
            ({**TENC, "flags": 2**24}, "flags", "range"),
            ({**TENC, "version": 1}, "default_crypt_byte_block", "missing"),
            ({**TENC, "default_crypt_byte_block": 1}, "default_crypt_byte_block", "unknown"),
        ])

    def test_bytes(self):
        self.refused(b"tenc", [
            ({**TENC, "default_KID": "00"}, "default_KID", "length"),
            ({**TENC, "default_KID": "0" * 31}, "default_KID", "hex"),
            ({**TENC, "default_KID": "x" * 32}, "default_KID", "hex"),
            ({**TENC, "default_KID": 0}, "default_KID", "hex"),
            ({**TENC, "default_constant_IV": "ff" * 256}, "default_constant_IV", "length"),
            ({**TENC, "default_constant_IV": "ff", "default_constant_IV_size": 256},
             "default_constant_IV_size", "range"),
            ({**TENC, "default_constant_IV_size": 8}, "default_constant_IV_size", "unknown"),
        ])

    def test_lists(self):
        self.refused(b"sidx", [
            (without(SIDX, "references"), "references", "missing"),
            ({**SIDX, "references": {}}, "references", "array"),
            ({**SIDX, "references": [1]}, "references[0]", "object"),
            (inside(SIDX, "references", 1, SAP_type=8), "references[1].SAP_type", "range"),
            (inside(SIDX, "references", 1, SAP_type=None), "references[1].SAP_type", "missing"),
            (inside(SIDX, "references", 0, sap=1), "references[0].sap", "unknown"),
            ({**SIDX, "references": SIDX["references"][:1] * 65536}, "references", "many"),
            ({**SIDX, "first_offset": 2**32}, "first_offset", "range"),
        ])

    def test_meanings(self):
        self.refused(b"colr", [
            ({**COLR, "colour_primaries": 1}, "colour_primaries_name", "contradiction"),
            ({**COLR, "colour_primaries_name": "BT.709"}, "colour_primaries_name", "contradiction"),
            ({**COLR, "colour_primaries_name": 9}, "colour_primaries_name", "contradiction"),
            ({**COLR, "colour_primaries": 200}, "colour_primaries_name", "contradiction"),
            ({**COLR, "full_range_flag": 2}, "full_range_flag", "range"),
            ({**COLR, "colour_type": "nclc"}, "full_range_flag", "unknown"),
            ({**COLR, "colour_type": "nclxx"}, "colour_type", "code"),
            ({**COLR, "colour_type": "ncl\u0100"}, "colour_type", "code"),
        ])

    def test_texts(self):
        self.refused(b"kind", [
            (without(KIND, "value"), "value", "missing"),
            ({**KIND, "value": 1}, "value", "text"),
            ({**KIND, "value": "a\0b"}, "value", "zero"),
            ({**KIND, "value_hex": "ff"}, "value", "contradiction"),
            ({**KIND, "value": "\ufffd", "value_hex": "f"}, "value_hex", "hex"),
            ({**KIND, "value": "\ufffd", "value_hex": "ff00"}, "value", "contradiction"),
        ])

    def test_codes(self):
        self.refused(b"styp", [
            ({**STYP, "compatible_brands": "msdh"}, "compatible_brands", "array"),
            ({**STYP, "compatible_brands": ["msdh", "x"]}, "compatible_brands[1]", "code"),
            ({**STYP, "major_brand": 4}, "major_brand", "code"),
        ])

    def test_fixed_point(self):
        self.refused(b"gmin", [
            ({**GMIN, "balance": 128}, "balance", "range"),
            ({**GMIN, "balance": -129}, "balance", "range"),
            ({**GMIN, "balance": "0.5"}, "balance", "number"),
            ({**GMIN, "balance": 10**40}, "balance", "number"),
        ])

    def test_handlers(self):
        self.refused(b"hdlr", [
            (without(HDLR, "name"), "name", "missing"),
            ({**HDLR, "name": 1}, "name", "text"),
            ({**HDLR, "name_hex": ""}, "name_hex", "length"),
            ({**HDLR, "name_hex": "0361626364"}, "name", "contradiction"),
            ({**HDLR, "component_type": "mhlr", "name": "a" * 256}, "name", "length"),
            ({**HDLR, "component_type": "mhl"}, "component_type", "code"),
        ])

    def test_parameter_sets(self):
        self.refused(b"avcC", [
            ({**SETS, "numOfSequenceParameterSets": 2}, "sequenceParameterSetNALUnit", "count"),
            ({**SETS, "numOfPictureParameterSets": 2}, "numOfPictureParameterSets", "contradiction"),
            ({**SETS, "chroma_format": 1}, "chroma_format", "unknown"),
            ({**SETS, "AVCProfileIndication": 100, "data_bytes": "00000000"}, "data_bytes", "length"),
            ({**SETS, "AVCProfileIndication": 100, "chroma_format": 1}, "bit_depth_luma_minus8", "missing"),
        ])

    def test_descriptors(self):
        self.refused(b"esds", [
            (inside_of(STREAM, "decConfigDescr", audioObjectType=2), "decConfigDescr.audioObjectType", "unknown"),
            (inside_of(STREAM, "decConfigDescr", avgBitrate=None), "decConfigDescr.avgBitrate", "missing"),
            (inside_of(STREAM, "decConfigDescr", "AudioSpecificConfig", channelConfiguration=1),
             "decConfigDescr.AudioSpecificConfig", "contradiction"),
            (inside_of(STREAM, "decConfigDescr", "AudioSpecificConfig", channels=1),
             "decConfigDescr.AudioSpecificConfig.channels", "unknown"),
            (inside(STREAM, "decoder_descriptors", 0, data_bytes="00" * 128), "decoder_descriptors[0].size_bytes",
             "range"),
            (inside(STREAM, "descriptors", 0, predefined=256), "descriptors[0].predefined", "range"),
            ({**STREAM, "OCR_ES_Id": 1}, "OCR_ES_Id", "unknown"),
            ({**STREAM, "streamDependenceFlag": 1}, "dependsOn_ES_ID", "missing"),
        ])

    def test_headers_of_the_codec(self):
        """A version, a time, a language and a transformation that the box can't have."""
        self.refused(b"mdhd", [
            ({**MDHD, "version": 2}, "version", "version"),
            ({**MDHD, "duration": 2**32}, "duration", "range"),
            ({**MDHD, "language": "en"}, "language", "range"),
            ({**MDHD, "language": "English"}, "language", "range"),
            ({**MDHD, "language": "ENG"}, "language", "range"),
            ({**MDHD, "language": 0x15C7}, "language", "range"),
            ({**MDHD, "language": None}, "language", "whole"),
            ({**MDHD, "language": "eng", "language_name": "Macintosh"}, "language_name", "unknown"),
            ({**MDHD, "language": 5, "language_name": "unspecified"}, "language_name", "contradiction"),
        ], CODEC)
        self.refused(b"tkhd", [
            (inside_of(TKHD, "matrix", a=40000), "matrix.a", "range"),
            (inside_of(TKHD, "matrix", w=2), "matrix.w", "range"),
            (inside_of(TKHD, "matrix", t=0), "matrix.t", "unknown"),
            (inside_of(TKHD, "matrix", d=None), "matrix.d", "missing"),
            ({**TKHD, "matrix": [1]}, "matrix", "object"),
            ({**TKHD, "width": 70000}, "width", "range"),
            ({**TKHD, "layer": 40000}, "layer", "range"),
        ], CODEC)

    def test_tables_of_the_codec(self):
        """Lists whose lengths and first samples have to agree with other fields."""
        self.refused(b"stsz", [
            ({**STSZ, "sample_count": 3}, "entry_size", "count"),
            ({**STSZ, "sample_size": 4}, "entry_size", "count"),
            ({**STSZ, "entry_size": [1, 2**32]}, "entry_size[1]", "range"),
        ], CODEC)
        self.refused(b"stsc", [
            (inside(STSC, "entries", 1, first_sample=8), "entries[1].first_sample", "contradiction"),
            (inside(STSC, "entries", 0, first_sample=0), "entries[0].first_sample", "contradiction"),
            (inside(STSC, "entries", 1, first_chunk=0, first_sample=None), "entries", "range"),
            (inside(STSC, "entries", 1, first_chunk=2**31, first_sample=None), "entries", "range"),
            (inside(STSC, "entries", 1, samples_per_chunk=None), "entries[1].samples_per_chunk", "missing"),
        ], CODEC)
        self.refused(b"elst", [
            (inside(ELST, "entries", 0, segment_duration=2**32), "entries[0].segment_duration", "range"),
            (inside(ELST, "entries", 0, media_time=2**31), "entries[0].media_time", "range"),
            (inside({**ELST, "version": 2}, "entries", 0, media_time=-1), "entries[0].media_time", "range"),
            (inside({**ELST, "version": 1}, "entries", 0, media_time=2**63), "entries[0].media_time", "whole"),
        ], CODEC)

    def test_fragments_of_the_codec(self):
        """Fields that flags turn on or off."""
        self.refused(b"tfhd", [
            ({"version": 0, "flags": 1, "track_ID": 1}, "base_data_offset", "missing"),
            ({"version": 0, "flags": 0, "track_ID": 1, "base_data_offset": 5}, "base_data_offset", "unknown"),
        ], CODEC)
        self.refused(b"trun", [
            ({**TRUN, "sample_size": [1]}, "sample_size", "count"),
            ({**TRUN, "sample_duration": [1, 2]}, "sample_duration", "unknown"),
            (without(TRUN, "sample_size"), "sample_size", "missing"),
            ({**TRUN, "sample_composition_time_offset": [0, -1]}, "sample_composition_time_offset[1]", "whole"),
            ({**TRUN, "version": 1, "sample_composition_time_offset": [0, 2**31]},
             "sample_composition_time_offset[1]", "range"),
        ], CODEC)

    def test_texts_of_the_codec(self):
        self.refused(b"emsg", [
            ({**EMSG, "value": "a\0b"}, "value", "zero"),
            ({**EMSG, "presentation_time": 1}, "presentation_time", "unknown"),
            ({**EMSG, "version": 1}, "presentation_time", "missing"),
            ({**EMSG, "version": 2}, "version", "version"),
        ], CODEC)
        self.refused(b"data", [
            ({"data_type": 2, "data_bytes": "00"}, "data_type", "range"),
            ({"data_type": 21, "number": 2**31}, "number", "range"),
            ({"data_type": 1, "number": 5}, "text", "missing"),
            ({"data_type": 1, "text": "a", "text_hex": "62"}, "text", "contradiction"),
            ({"data_type": 21, "number": 5, "number_hex": "0006"}, "number", "contradiction"),
            ({"data_type": 21, "number": 5, "number_hex": "000005"}, "number_hex", "length"),
            ({"data_type": 21, "number": 5, "data_bytes": "000005"}, "number", "unknown"),
            ({"data_type": 21}, "number", "missing"),
        ], CODEC)

    def test_entries_of_the_codec(self):
        self.refused(b"avcC", [
            ({**AVCC, "lengthSizeMinusOne": 4}, "lengthSizeMinusOne", "range"),
            ({**AVCC, "sequenceParameterSetNALUnit": ["00"] * 32}, "sequenceParameterSetNALUnit", "many"),
            ({**AVCC, "pictureParameterSetNALUnit": ["00"] * 256}, "pictureParameterSetNALUnit", "many"),
            ({**AVCC, "pictureParameterSetNALUnit": ["00" * 65536]}, "pictureParameterSetNALUnit[0]", "length"),
        ], CODEC)
        self.refused(b"tx3g", [
            ({**TX3G, "default-text-box": [1, 2, 3]}, "default-text-box", "count"),
            ({**TX3G, "default-text-box": [1, 2, 3, 2**15]}, "default-text-box[3]", "range"),
            ({**TX3G, "default-style": "00"}, "default-style", "length"),
            (inside_of(TX3G, "background-color-rgba", red=256), "background-color-rgba.red", "range"),
        ], CODEC)
        entry = {"data_reference_index": 1, "channelcount": 2, "samplesize": 16, "samplerate": 48000.0}
        self.refused(b"stsd", [
            ({"version": 0, "flags": 0, "mp4a": entry, "tx3g": TX3G}, "tx3g", "kept"),
            ({"version": 0, "flags": 0, "mp4a": {**entry, "version": 1}}, "mp4a.version", "unknown"),
        ], CODEC)
        self.refused(b"esds", [
            (inside_of(ESDS, "ES", "decConfigDescr", upStream=1), "ES.decConfigDescr.upStream", "range"),
            (inside_of(ESDS, "ES", "decConfigDescr", streamType=64), "ES.decConfigDescr.streamType", "range"),
            (inside_of(ESDS, "ES", "decConfigDescr", "decSpecificInfo", audioObjectType=31),
             "ES.decConfigDescr.decSpecificInfo.audioObjectType", "range"),
            (inside_of(ESDS, "ES", "decConfigDescr", "decSpecificInfo", samplingFrequencyIndex=15),
             "ES.decConfigDescr.decSpecificInfo.samplingFrequency", "missing"),
            (inside_of(ESDS, "ES", "decConfigDescr", "decSpecificInfo", samplingFrequency=5),
             "ES.decConfigDescr.decSpecificInfo.samplingFrequency", "unknown"),
        ], CODEC)

    def test_numbers_of_metadata(self):
        """A number has the least of 1, 2 and 4 bytes that have room for it, unless its bytes are there."""
        def made(content):
            whole = (16 + len(content)).to_bytes(4, "big") + b"data" + bytes([0, 0, 0, 21, 0, 0, 0, 0]) + content
            return f"Ok({len(whole)}) {list(whole)}"

        cases = [(127, "7f"), (-128, "80"), (128, "0080"), (-129, "ff7f"), (32767, "7fff"), (-32768, "8000"),
                 (32768, "00008000"), (-(2**31), "80000000")]
        self.compare([(b"data", json.dumps({"data_type": 21, "number": number}), made(bytes.fromhex(content)))
                      for number, content in cases], CODEC)
        self.compare([
            (b"data", json.dumps({"data_type": 21, "data_bytes": "000102"}), made(b"\0\1\2")),
            (b"data", json.dumps({"data_type": 21, "number": 2, "number_hex": "0002"}), made(b"\0\2")),
            (b"data", json.dumps({"data_type": 21, "number_hex": "0002"}), made(b"\0\2")),
        ], CODEC)

    def test_made(self):
        """Texts that no box is shown as: without derived members, with rounded numbers, with bytes of a text."""
        def made(code, content):
            size = (8 + len(content)).to_bytes(4, "big")
            whole = size + code + content
            return f"Ok({len(whole)}) {list(whole)}"
        kind = bytes.fromhex("00000000") + b"urn:a\0"
        self.compare([
            (b"pasp", json.dumps(PASP), f"Ok(16) {list(PASP_BYTES)}"),
            (b"pasp", ' { "vSpacing" : 3 , "h\\u0053pacing" : 4 } ', f"Ok(16) {list(PASP_BYTES)}"),
            (b"kind", json.dumps({**without(KIND, "value"), "value_hex": "ff"}), made(b"kind", kind + b"\xff\0")),
            (b"kind", json.dumps({**KIND, "value": "\ufffd", "value_hex": "FF"}), made(b"kind", kind + b"\xff\0")),
            (b"gmin", json.dumps({**GMIN, "balance": 0.1}),
             made(b"gmin", bytes.fromhex("00000000 0040 8000 8000 8000 001a 0000"))),
            (b"gmin", json.dumps({**GMIN, "balance": -1}),
             made(b"gmin", bytes.fromhex("00000000 0040 8000 8000 8000 ff00 0000"))),
            (b"styp", json.dumps({**STYP, "major_brand": "\xa9nam"}),
             made(b"styp", b"\xa9nam" + bytes(4) + b"msdhmsix")),
        ])


if __name__ == "__main__":
    unittest.main()
