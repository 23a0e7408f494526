"""Calls `mp4_box_from_json` and `mp4_check_json` of the library for C, from Python.

The fields of each box of tests/rows have to give a box with these fields. Boxes of some fields were worked out from the
standards, byte for byte. Texts with one thing wrong are refused with the reason and the path of the member; these were
worked out by hand from docs/FIELDS.md. The classes of the package write their boxes in the same way."""

import collections
import importlib
import json
import re
import unittest

from tests.built import codec, source
from tests.files.made import be, box, full
from tests.readers.extra import MORE
from tests.readers.headers import Fault, Header, sized
from tests.readers.readers import READERS
from tests.rows import rows
from tests.rows.test_taken import AVCC, COLR, ELST, EMSG, GMIN, KIND, MDHD, OWN_FIELDS, PASP, PASP_BYTES, REASONS
from tests.rows.test_taken import SETS, SIDX, STSZ, STYP, TENC, TRUN, inside, without

# The names of the reasons in the header, by the words of REASONS.
NAMES = {
    "json": "NOT_JSON", "object": "NOT_OBJECT", "array": "NOT_ARRAY", "whole": "NOT_WHOLE", "number": "NOT_NUMBER",
    "text": "NOT_TEXT", "hex": "NOT_HEX", "code": "NOT_CODE", "range": "OUT_OF_RANGE", "version": "NO_VERSION",
    "length": "WRONG_LENGTH", "many": "TOO_MANY", "count": "WRONG_COUNT", "zero": "ZERO_BYTE", "unknown": "UNKNOWN",
    "twice": "TWICE", "missing": "MISSING", "contradiction": "CONTRADICTION", "kept": "NOT_KEPT",
}
# A text for each reason: the code, the fields or the text, the path of the member, and the reason.
REFUSED = [
    (b"pasp", "{", "", "json"),
    (b"pasp", "[]", "", "object"),
    (b"styp", {**STYP, "compatible_brands": "msdh"}, "compatible_brands", "array"),
    (b"pasp", {**PASP, "vSpacing": -1}, "vSpacing", "whole"),
    (b"pasp", {**PASP, "vSpacing": 2**64}, "vSpacing", "whole"),
    (b"pasp", {**PASP, "vSpacing": 2**32}, "vSpacing", "range"),
    (b"gmin", {**GMIN, "balance": "0.5"}, "balance", "number"),
    (b"kind", {**KIND, "value": 1}, "value", "text"),
    (b"tenc", {**TENC, "default_KID": "x" * 32}, "default_KID", "hex"),
    (b"tenc", {**TENC, "default_KID": "00"}, "default_KID", "length"),
    (b"tenc", {**TENC, "version": 2}, "version", "version"),
    (b"styp", {**STYP, "compatible_brands": ["msdh", "x"]}, "compatible_brands[1]", "code"),
    (b"sidx", {**SIDX, "references": SIDX["references"][:1] * 65536}, "references", "many"),
    (b"sidx", inside(SIDX, "references", 1, SAP_type=8), "references[1].SAP_type", "range"),
    (b"sidx", inside(SIDX, "references", 1, SAP_type=None), "references[1].SAP_type", "missing"),
    (b"sidx", inside(SIDX, "references", 0, sap=1), "references[0].sap", "unknown"),
    (b"avcC", {**SETS, "numOfSequenceParameterSets": 2}, "sequenceParameterSetNALUnit", "count"),
    (b"kind", {**KIND, "value": "a\0b"}, "value", "zero"),
    (b"pasp", {**PASP, "zSpacing": 3}, "zSpacing", "unknown"),
    (b"pasp", '{"hSpacing": 4, "vSpacing": 3, "hSpacing": 4}', "hSpacing", "twice"),
    (b"pasp", without(PASP, "vSpacing"), "vSpacing", "missing"),
    (b"colr", {**COLR, "colour_primaries_name": "BT.709"}, "colour_primaries_name", "contradiction"),
    (b"mdhd", {**MDHD, "duration": 2**32}, "duration", "range"),
    (b"mdhd", {**MDHD, "language": "English"}, "language", "range"),
    (b"stsz", {**STSZ, "sample_count": 3}, "entry_size", "count"),
    (b"elst", inside(ELST, "entries", 0, media_time=2**31), "entries[0].media_time", "range"),
    (b"trun", without(TRUN, "sample_size"), "sample_size", "missing"),
    (b"emsg", {**EMSG, "presentation_time": 1}, "presentation_time", "unknown"),
    (b"stsd", {"version": 0, "flags": 0, "mp4a": {
        "data_reference_index": 1, "channelcount": 2, "samplesize": 16, "samplerate": 48000.0,
    }, "mp4a2": {}}, "mp4a2", "unknown"),
]


def number_of(code):
    return int.from_bytes(code, "big")


def front_box(buffer):
    """Returns the code and the bytes of the box at the front, or None if there is no whole one."""
    try:
        header = Header(buffer, 0)
        return header.name, buffer[:header.start + sized(header, buffer)]
    except Fault:
        return None


class FromJson(unittest.TestCase):
    @classmethod
    def setUpClass(cls):
        cls.codec = codec()
        cls.calls = cls.codec.calls

    def fields(self, own):
        try:
            return self.codec.fields(own)
        except self.codec.Mp4Error:
            return None

    def test_each_box(self):
        """The fields of each box of the rows give a box with these fields, and a box in its normal form is the same."""
        same, made_of = collections.Counter(), collections.Counter()
        classes = importlib.import_module("mp4_box_codec._fields").CLASSES
        for _, row in rows():
            found = front_box(row.buffer)
            fields = found and self.fields(found[1])
            if fields is None or found[0] not in READERS and found[0] not in MORE:
                continue
            name, own = found
            made = self.calls.write_fields(number_of(own[4:8]), fields)
            if self.fields(made) != fields:
                self.fail(f"of {own.hex()[:400]}\n  made:   {made.hex()[:400]}\n  fields: {fields}")
            self.assertIsNone(self.calls.check_json(number_of(own[4:8]), json.dumps(fields)))
            made_of[name] += 1
            same[name] += made == own
            # Another class is read and written by a struct of the header.
            if not classes[own[4:8].decode("latin-1")]._is_written:
                value = self.codec.read(own)
                self.assertEqual(self.codec.read(value.write()), value, own.hex()[:400])
        self.assertEqual({*READERS, *MORE} - set(made_of), set(), "no box of these types was made")
        self.assertEqual([name for name in made_of if not same[name]], [], "no box of these types is the same")
        self.assertGreater(sum(same.values()), sum(made_of.values()) // 2)

    def test_worked_boxes(self):
        """Boxes whose bytes were worked out from the standards."""
        for code, fields, expected in (
                (b"pasp", PASP, PASP_BYTES),
                (b"kind", KIND, full(b"kind", 0, 0, b"urn:a\0main\0")),
                (b"styp", STYP, box(b"styp", b"msdh" + be(4, 0) + b"msdhmsix")),
                (b"tenc", TENC, full(b"tenc", 0, 0, bytes([0, 0, 1, 8]) + bytes(range(16)))),
                (b"colr", COLR, box(b"colr", b"nclx" + be(2, 9, 16, 9) + b"\0")),
                (b"sidx", SIDX, full(b"sidx", 0, 0, be(4, 1, 1000, 0, 0) + be(2, 0, 2) + be(
                    4, 100, 5, 0x90000000, 200, 6, 0x90000000))),
                (b"mdhd", MDHD, full(b"mdhd", 0, 0, be(4, 1, 2, 1000, 3) + be(2, 5 << 10 | 14 << 5 | 7, 0))),
                (b"elst", ELST, full(b"elst", 0, 0, be(4, 1, 5, -1) + be(2, 1, 0))),
                (b"stsz", STSZ, full(b"stsz", 0, 0, be(4, 0, 2, 5, 6))),
                (b"trun", TRUN, full(b"trun", 0, 0xA00, be(4, 2, 5, 0, 6, 1))),
                (b"avcC", {**AVCC, "numOfSequenceParameterSets": 1}, box(
                    b"avcC", bytes([1, 66, 0, 30, 0xFF, 0xE1, 0, 2, 0x67, 0x42, 1, 0, 2, 0x68, 0xCE]))),
                *[it for it in OWN_FIELDS if it[0].decode("latin-1") not in MORE]):
            made = self.calls.write_fields(number_of(code), fields)
            self.assertEqual(made.hex(), expected.hex(), code)
            backwards = json.dumps(dict(reversed(fields.items())), indent=1)
            self.assertEqual(self.calls.box_from_json(number_of(code), backwards), made, code)

    def test_reasons(self):
        """Each reason has its number in the header."""
        numbers = {name: int(number) for name, number in re.findall(
            r"MP4_JSON_([A-Z_]+) = (\d+)", source("include", "mp4_box_codec.h"))}
        self.assertEqual(sorted(numbers), sorted(NAMES.values()))
        self.assertEqual(sorted(numbers.values()), [*range(1, len(NAMES) + 1)])
        self.assertEqual({*NAMES} - {"kept"}, {it[3] for it in REFUSED})
        for code, fields, path, reason in REFUSED:
            text = fields if isinstance(fields, str) else json.dumps(fields)
            found = self.calls.check_json(number_of(code), text)
            self.assertEqual(found, (path, numbers[NAMES[reason]], REASONS[reason]), (code, text[:200]))
            with self.assertRaises(self.codec.Mp4Error) as raised:
                self.calls.box_from_json(number_of(code), text)
            self.assertEqual(raised.exception.status, self.codec.INVALID_DATA)
            self.assertEqual(raised.exception.refused, f"{path or 'the text'} {REASONS[reason]}")

    def test_unknown_boxes(self):
        for code in (b"moov", b"free", b"mdat", b"\0\0\0\0", b"abcd"):
            for call in (self.calls.box_from_json, self.calls.check_json):
                with self.assertRaises(self.codec.Mp4Error) as raised:
                    call(number_of(code), "{}")
                self.assertEqual(raised.exception.status, self.codec.UNKNOWN_BOX)

    def test_classes(self):
        """Values of classes without a struct are written. What follows from other fields isn't."""
        pasp = self.codec.Pasp(hSpacing=4, vSpacing=3)
        self.assertEqual(pasp.write(), PASP_BYTES)
        colr = self.codec.read(box(b"colr", b"nclx" + be(2, 9, 16, 9) + b"\0"))
        self.assertEqual(colr.colour_primaries_name, "BT.2020")
        self.assertEqual(colr.replace(colour_primaries=1).write(), box(b"colr", b"nclx" + be(2, 1, 16, 9) + b"\0"))
        sidx = self.codec.read(full(b"sidx", 0, 0, be(4, 1, 1000, 0, 0) + be(2, 0, 1) + be(4, 100, 5, 0x90000000)))
        changed = sidx.replace(references=[*sidx.references, sidx.references[0].replace(referenced_size=200)])
        self.assertEqual(changed.write(), full(b"sidx", 0, 0, be(4, 1, 1000, 0, 0) + be(2, 0, 2) + be(
            4, 100, 5, 0x90000000, 200, 5, 0x90000000)))
        # A number of bytes that isn't theirs is kept, and one that is follows them.
        content = bytes([0, 0, 1, 0]) + bytes(range(16))
        for count, kept in ((8, None), (9, 9)):
            tenc = full(b"tenc", 0, 0, content + bytes([count]) + bytes(8))
            self.assertEqual(self.codec.read(tenc).default_constant_IV_size, kept)
            self.assertEqual(self.codec.read(tenc).write(), tenc)
        tenc = self.codec.read(full(b"tenc", 0, 0, content + bytes([8]) + bytes(8)))
        self.assertEqual(tenc.replace(default_constant_IV=b"a").write(), full(b"tenc", 0, 0, content + b"\1a"))
        kind = self.codec.read(full(b"kind", 0, 0, b"urn:a\0a\xff\0"))
        with self.assertRaisesRegex(self.codec.Mp4Error, "^invalid data: value contradicts its field$"):
            kind.replace(value="b").write()
        self.assertEqual(kind.replace(value="b", value_hex=None).write(), full(b"kind", 0, 0, b"urn:a\0b\0"))


if __name__ == "__main__":
    unittest.main()
