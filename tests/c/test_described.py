"""Compares what `mp4_fields` gives for boxes with what tools/describe.py makes from their declarations: names in their
order, kinds and ranges, and the meanings of numbers. Reads them as the classes for Python too, which lose nothing. The
boxes are those of tests/rows, and some here, so that each member occurs."""

import collections
import dataclasses
import importlib
import json
import os
import re
import unittest

from tests.built import TOP, codec
from tests.rows import rows
from tests.rows.making import box, full, u16, u32, u64

def full_box(version, flags, code, *contents):
    return full(code, *contents, version=version, flags=flags)


# Boxes with the members that no row has. They are worked out from the standards that docs/boxes.json names.
BOXES = [
    # reserved bits in each place, and no delay
    box(b"av1C", b"\x81\x08\x0c\xa9"),
    # BT.2020, PQ and BT.2020 non-constant luminance, and a type that the standard lacks
    box(b"colr", b"nclx", u16(9, 16, 9), b"\x81"), box(b"colr", b"abcd", b"\1\2\3"),
    # a mapping that has no number of coupled streams
    box(b"dOps", b"\1\2", u16(3), u32(48000), u16(0x0180), b"\4\5"),
    # a type of another set, a text that isn't UTF-8, and numbers in as many bytes as they need, and in more
    box(b"data", u32(0x02000001, 0), b"\1"), box(b"data", u32(1, 0), b"\xff"),
    box(b"data", u32(21, 0), b"\xfe"), box(b"data", u32(22, 0), u16(5)),
    # two streams: a stream depends on the second one
    box(b"dec3", u16(192 << 3 | 1), b"\x0f\0\xa1", u32(0x200F0002 | 1 << 9)),
    # the STREAMINFO of a stream of 44,100 Hz, two channels and 16 bits, and another block
    full_box(0, 0, b"dfLa", u32(34), u16(4096, 8192), u32(3)[1:], u32(4)[1:], u64(44100 << 44 | 1 << 41 | 15 << 36 | 5),
             bytes(range(0x81, 0x91)), u32(0x84000002), b"ab"),
    # the most channels and bits
    full_box(0, 0, b"dfLa", u32(0x80000022), u16(1, 1), bytes(6), u64(1 << 44 | 7 << 41 | 31 << 36), bytes(16)),
    full_box(0, 0, b"elng", b"\xff\0"), full_box(0, 1, b"schm", b"cenc", u32(0x10000), b"\xff\0"),
    # a base layer that is shown as HLG, and items with a type that isn't UTF-8
    box(b"dvvC", b"\1\0\x0e\x35\x40", bytes(19)), full_box(2, 0, b"infe", u16(4, 5), b"mime\0\xff\0"),
    full_box(2, 0, b"infe", u16(4, 5), b"uri \0\xff\0"),
    # each kind of description, one with its own length, and entries that are cut
    full_box(1, 0, b"sgpd", b"roll", u32(2, 1), u16(0xFFFE)), full_box(0, 0, b"sgpd", b"rap ", u32(1), b"\x85"),
    full_box(0, 0, b"sgpd", b"tele", u32(1), b"\x86"), full_box(1, 0, b"sgpd", b"abcd", u32(0, 1, 3), b"abc"),
    full_box(1, 0, b"sgpd", b"seig", u32(0, 1, 25), b"\x07\x19\1\0", bytes(range(0x81, 0x91)), b"\4abcd"),
    full_box(1, 0, b"sgpd", b"roll", u32(2, 2), u16(3)),
    # reserved bits of two kinds
    full_box(1, 0, b"sgpd", b"seig", u32(20, 1), b"\xff\x19\1\x08", bytes(16)),
    full_box(1, 0, b"sgpd", b"tele", u32(1, 1), b"\xff"),
    # the system Widevine
    full_box(0, 0, b"pssh", bytes.fromhex("edef8ba979d64acea3c827dcd51d21ed"), u32(1), b"\1"),
    # three sizes of four bits
    full_box(0, 0, b"stz2", u32(4, 3), b"\x12\x34"),
    # numbers of one, two and three bytes, and reserved bits
    full_box(1, 0, b"tfra", u32(7, 0x01000006, 1), u64(8, 9), b"\1", u16(2), u32(3)[1:]),
    box(b"tref", box(b"hint", u32(3, 4))),
]

TYPES = {"integer": int, "number": (int, float), "string": str, "array": list, "object": dict}


def faults(value, schema, path, seen):
    """Returns how `value` differs from `schema`, and adds the members that it has to `seen`."""
    kinds = schema["type"] if isinstance(schema["type"], list) else [schema["type"]]
    if isinstance(value, bool) or not any(isinstance(value, TYPES[it]) for it in kinds):
        return [f"{path}: {value!r} is no {' or '.join(kinds)}"]
    found = []
    if isinstance(value, dict):
        names = [it for it in schema["properties"] if it in value]
        found += [f"{path}: {it} is missing" for it in schema["required"] if it not in value]
        if names != list(value):
            found.append(f"{path}: {list(value)} in place of {names}")
        for name in names:
            seen.add(f"{path}.{name}")
            found += faults(value[name], schema["properties"][name], f"{path}.{name}", seen)
    elif isinstance(value, list):
        for it in value:
            found += faults(it, schema["items"], f"{path}[]", seen)
    elif isinstance(value, str):
        if not re.search(schema.get("pattern", ""), value):
            found.append(f"{path}: {value!r}")
        if not schema.get("minLength", 0) <= len(value) <= schema.get("maxLength", len(value)):
            found.append(f"{path}: {len(value)} characters")
    elif not schema.get("minimum", value) <= value <= schema.get("maximum", value):
        found.append(f"{path}: {value}")
    return found


def members(schema, path):
    """Returns the paths of all members that a schema has."""
    found = set()
    if "properties" in schema:
        for name, inside in schema["properties"].items():
            found |= {f"{path}.{name}"} | members(inside, f"{path}.{name}")
    elif "items" in schema:
        found |= members(schema["items"], f"{path}[]")
    return found


def described(name):
    """Returns what a file of tools/describe.py has."""
    with open(os.path.join(TOP, "docs", name), encoding="utf-8") as file:
        return json.load(file)


def described_boxes():
    """Returns the bytes of all boxes of types in the description, of tests/rows and of this module."""
    codes = {box["code"].encode("latin-1") for box in described("boxes.json")["boxes"]}
    found = [*(bytes(row.buffer) for _, row in rows()), *BOXES]
    return [it for it in dict.fromkeys(found) if it[4:8] in codes]


def other_meanings(value, fields, path):
    """Returns the members whose meaning isn't that of the description."""
    found = []
    tables = {it["name"]: {row["value"]: row["name"] for row in it["meanings"]} for it in fields
              if it["kind"] == "number" and "meanings" in it}
    for it in fields:
        inside = it.get("entries") or it.get("fields")
        if inside and it["name"] in value:
            of = value[it["name"]]
            for part in of if it["kind"] == "list" else [of]:
                found += other_meanings(part, inside, f"{path}.{it['name']}")
        if it["kind"] == "text" and it.get("of") in tables:
            has_one = it.get("when") != "type_set is 0" or "type_set" not in value
            meaning = tables[it["of"]].get(value.get(it["of"])) if has_one else None
            if value.get(it["name"]) != meaning:
                found.append(f"{path}.{it['name']} is {value.get(it['name'])}, and not {meaning}")
    return found


class Described(unittest.TestCase):
    maxDiff = None

    @classmethod
    def setUpClass(cls):
        cls.buffers = [*dict.fromkeys(bytes(row.buffer) for _, row in rows())]

    def test_members_of_classes(self):
        """The module for Python has a class for each box. It has the members of the schema, or those of a struct of the
        header, if there is one."""
        module = codec()
        schemas = described("boxes.schema.json")["$defs"]
        classes = importlib.import_module("mp4_box_codec._fields").CLASSES
        structs = {code for code in schemas if classes[code]._call}
        self.assertEqual(structs, {"avcC", "esds", "hdlr", "tx3g", "vpcC"})
        for code, schema in schemas.items():
            if code in structs:
                continue
            found = {it.metadata.get("name", it.name): it for it in dataclasses.fields(classes[code])}
            self.assertEqual({*found}, {*schema["properties"]}, code)
            needed = {name for name, it in found.items() if it.default is dataclasses.MISSING}
            self.assertLessEqual(needed, {*schema["required"]}, code)
        self.assertEqual(module.read(box(b"pasp", u32(4, 3))), module.Pasp(hSpacing=4, vSpacing=3))
        with self.assertRaisesRegex(module.Mp4Error, "this box is a 'pasp', not a 'btrt'"):
            module.Btrt.read(box(b"pasp", u32(4, 3)))

    def test_classes_of_structs(self):
        """A box that a class has read is written in its normal form."""
        library, count = codec(), collections.Counter()
        classes = importlib.import_module("mp4_box_codec._fields").CLASSES
        for buffer in self.buffers:
            kind, size = classes.get(buffer[4:8].decode("latin-1")), int.from_bytes(buffer[:4], "big")
            if kind is None or not kind._call or not 8 <= size <= len(buffer):
                continue
            try:
                value, normal = kind.read(buffer[:size]), library.normal(buffer[:size])
            except library.Mp4Error:
                continue
            count[kind.code] += 1
            self.assertEqual(value.write(), normal, value)
        self.assertEqual([it for it, kind in classes.items() if kind._call and not count[it]], [])

    def test_rows(self):
        library = codec()
        typed = importlib.import_module("mp4_box_codec._fields")
        schemas = described("boxes.schema.json")["$defs"]
        fields_of = {box["code"]: box["fields"] for box in described("boxes.json")["boxes"]}
        seen, count, found = set(), collections.Counter(), []
        for buffer in [*self.buffers, *BOXES]:
            code = buffer[4:8].decode("latin-1")
            if code in schemas:
                try:
                    fields = library.fields(buffer)
                except library.Mp4Error:
                    continue
                count[code] += 1
                found += faults(fields, schemas[code], code, seen)
                found += other_meanings(fields, fields_of[code], code)
                if typed.CLASSES[code]._call:
                    continue
                value = typed.of_json(typed.CLASSES[code], fields)
                if typed.to_json(value) != fields:
                    found.append(f"{code}: the class has {value}")
        self.assertEqual(found, [])
        self.assertEqual([it for it in schemas if not count[it]], [], "there is no box of these types")
        unseen = set().union(*(members(schema, code) for code, schema in schemas.items())) - seen
        self.assertEqual(sorted(unseen), [], "no box has these members")


if __name__ == "__main__":
    unittest.main()
