#!/usr/bin/env python3
"""Makes the structs for Rust of the boxes of docs/boxes.json, bindings/rust/src/extra.rs.

    tools/rust_structs.py           print the module
    tools/rust_structs.py --write   write the module

A struct has the fields of its box that don't follow from others, under the names of the standard in the case of Rust.
The macro `structs!` of bindings/rust/src/structs.rs makes the code from what this program writes."""

import json
import os
import re
import sys
import textwrap

TOP = os.path.dirname(os.path.dirname(os.path.abspath(__file__)))
sys.path.insert(0, TOP)

from tools.python_classes import DESCRIPTION, WIDTH, is_derived, merged, read, run

MODULE = "bindings/rust/src/extra.rs"
HEAD = '''\
//! Structs for the boxes of docs/FIELDS.md, with all fields of each. tools/rust_structs.py makes this module from
//! docs/boxes.json: do not edit it.
//!
//! `ReadBox` reads them and `WriteBox` writes them, also as JSON. A struct has no fields for what follows from others:
//! counts of entries, and meanings of numbers, for which there are methods. `None` is a field that the box lacks.
//! `None` for reserved bits is the value of the standard. Some of these boxes have a struct in the crate too, which has
//! only the fields of the crate `mp4`: `AvcCBox`, `DataBox`, `EsdsBox`, `HdlrBox`, `HvcCBox`, `Tx3gBox` and `VpccBox`.
//!
//! ```
//! use mp4_box_codec::extra::{ColrBox, PaspBox};
//! use mp4_box_codec::{Error, ReadBox, WriteBox};
//!
//! let pasp = PaspBox { h_spacing: 4, v_spacing: 3 };
//! assert_eq!(pasp.to_bytes()?, b"\\0\\0\\0\\x10pasp\\0\\0\\0\\x04\\0\\0\\0\\x03");
//! let colr = ColrBox::read_box(b"\\0\\0\\0\\x13colrnclx\\0\\x09\\0\\x10\\0\\x09\\0")?;
//! assert_eq!((colr.colour_primaries, colr.colour_primaries_name()), (Some(9), Some("BT.2020")));
//! # Ok::<(), Error>(())
//! ```

use std::fmt;

use crate::members::{show_numbers, take_numbers, Member, Reader, Writer};
use crate::structs::*;
use crate::{Error, Fault, FixedPointI8, FourCC, ReadBox, RgbaColor, WriteBox};

pub use crate::members::Letters;
'''
# Words that the case of letters doesn't show.
WORDS = "OBUs|IDs|URL|OCR|PDU"
KEYWORDS = set("as break const crate dyn else enum extern fn for if impl in let loop match mod move mut pub ref return"
               " self static struct super trait true type unsafe use where while async await box macro yield".split())
# Fixed-point numbers that have a type: by their bits, those after the point, and whether they have a sign.
FIXED = {(16, 8, True): "FixedPointI8", (16, 8, False): "FixedPointU8", (32, 16, False): "FixedPointU16"}
# Conditions of which one always holds.
ALWAYS = ({"version is 0", "version >= 1"}, {"flags & 0x1 is 0", "flags & 0x1"})
COLOUR = [{"name": it, "kind": "number", "bits": 8} for it in ("red", "green", "blue", "alpha")]


def words_in(name):
    """Returns the words of a name of the standards, in small letters."""
    found = re.findall(rf"{WORDS}|[A-Z]+(?![a-z])\d*|[A-Z]?[a-z]+\d*|\d+", name)
    if "".join(found) != re.sub("[-_]", "", name):
        sys.exit(f"{name} has no words")
    return [it.lower() for it in found]


def field_of(name):
    """Returns the name of a field in Rust."""
    found = "_".join(words_in(name))
    return found + "_" * (found in KEYWORDS)


def part_of(owner, field):
    """Returns the name of the struct of a group, or of an entry of a list, whose name is in the plural."""
    words = words_in(field["name"])
    if field["kind"] == "list":
        words[-1] = re.sub("ies$", "y", words[-1]) if words[-1].endswith("ies") else re.sub("s$", "", words[-1])
    return owner + "".join(it.capitalize() for it in words)


def number_of(field):
    """Returns the type of a whole number."""
    if field["bits"] == 1 and field["kind"] == "number":
        return "bool"
    if field.get("signed") and field["bits"] == 64 and "bits_by_version" not in field:
        return "i128"  # from -2^63 to 2^64 - 1
    width = next(it for it in (8, 16, 32, 64) if it >= field["bits"])
    return f"{'i' if field.get('signed') else 'u'}{width}"


def words_of(field, name):
    """Returns what a field is, in words."""
    kind = field["kind"]
    bits = " or ".join(str(it) for it in field.get("bits_by_version", [field.get("bits")])) + " bits"
    if "of" in field:
        return f"The number of bytes of `{field_of(field['of'])}`, if it is another than theirs"
    if "usual" in field and name.startswith("reserved"):
        return f"Reserved, {'1 bit' if bits == '1 bits' else bits}"
    if kind == "number" and bits == "1 bits":
        return "A flag"
    if kind == "number" and number_of(field) == "i128":
        return "A number from -2^63 to 2^64 - 1"
    if kind == "number":
        return f"A {'signed ' if field.get('signed') else ''}number of {bits}" + (
            f", plus {field['added']}" if "added" in field else "")
    if kind == "bytes" and "beside" in field:
        return f"The bytes of `{field_of(field['beside'])}`, if they are not UTF-8"
    if kind == "list" and "of_kind" in field:
        inside = words_of(field["of_kind"], "")
        return {"A code": "Codes", "Bytes": "Bytes of each"}.get(inside) or re.sub(
            "^A number", "Numbers", re.sub(r"^(\d+) bytes", r"\1 bytes of each", inside))
    return {
        "flags": f"Flags of {bits}", "date": "Seconds since the start of 1904", "code": "A code", "text": "A text",
        "fixed": f"A fixed-point number of {bits}, {field.get('fraction_bits')} of them after the point",
        "letters": "Letters, or a number that has none",
        "bytes": f"{field['length']} bytes" if "length" in field else "Bytes", "list": "The entries", "group": "A group",
    }[kind]


def told(field, own, method):
    """Returns the comment of a field."""
    said = words_of(field, field["name"])
    said += f", if {field['when']}" if "when" in field else ", if present" if (
        field.get("optional") and not {"usual", "of", "beside"} & {*field}) else ""
    said += f" (`{field['name']}`)." if own != field["name"] else "."
    said += f" `None` is {field['usual']}." if "usual" in field else ""
    if method:
        said += f" `{method.split()[0]}` returns its meaning."
    elif field.get("meanings"):
        of = {True: lambda it: f"{it:#x}", False: str}[field["kind"] == "flags"]
        said += " " + ", ".join(f"{of(it['value'])}: {it['name']}" for it in field["meanings"]) + "."
    return commented(said, "        ")


def method_of(field, fields):
    """Returns the name of the method that returns the meaning of a number, and the field that has to be 0 for it."""
    when, has = field.get("when"), {(it["name"], it.get("when")) for it in fields}
    under = "" if (field["of"], when) in has else re.match(r"(\w+) is 0$", when)[1]
    return field_of(field["name"]) + (f" unless {field_of(under)}" if under else "")


def commented(text, indent):
    return textwrap.fill(text, WIDTH, initial_indent=f"{indent}/// ", subsequent_indent=f"{indent}/// ")


def listed(items, indent):
    """Returns the lines of items, none of which is broken."""
    lines = []
    for it in items:
        if lines and len(lines[-1]) + 1 + len(it) <= WIDTH:
            lines[-1] += f" {it}"
        else:
            lines.append(" " * indent + it)
    return "\n".join(lines)


def joined(fields):
    """Returns fields with one of each name. One that is present under each condition has none."""
    conditions = {}
    for it in fields:
        conditions.setdefault(it["name"], []).append(it.get("when", ""))
    found = merged(fields)
    for it in found:
        given = conditions[it["name"]]
        if {*given} in ALWAYS:
            del it["when"]
        elif len({*given}) > 1:
            sys.exit(f"{it['name']} has the conditions {given}")
    return found


class Made:
    """The structs of a box: that of the box last, after those of its parts."""

    def __init__(self, box):
        self.owner, self.parts, self.texts = box["type"].removesuffix("Box"), {}, []
        words = f"{box['title']} (`{box['code'].strip()}`, {box['standard']})."
        self.add(box["type"], f" b{json.dumps(box['code'])}", words, box["fields"])

    def type_of(self, field):
        kind = field["kind"]
        if kind in ("number", "flags", "date"):
            return number_of(field)
        if kind == "fixed":
            return FIXED.get((field["bits"], field["fraction_bits"], bool(field.get("signed"))), "f64")
        if kind == "bytes":
            return f"[u8; {field['length']}]" if "length" in field else "Vec<u8>"
        if kind == "list":
            return f"Vec<{self.type_of(field['of_kind']) if 'of_kind' in field else self.part(field)}>"
        if kind == "group":
            return self.part(field)
        return {"code": "FourCC", "letters": "Letters", "text": "String"}[kind]

    def part(self, field):
        """Returns the name of the struct of the fields inside. The same fields have the same struct."""
        inside, name = field.get("entries") or field["fields"], part_of(self.owner, field)
        if inside == COLOUR:
            return "RgbaColor"
        key = json.dumps(inside)
        if key not in self.parts:
            if name in self.parts.values():
                sys.exit(f"two parts are {name}")
            self.parts[key] = name
            own = f"`{field_of(field['name'])}` in a [`{self.owner}Box`]"
            words = f"{'An entry' if field['kind'] == 'list' else 'The fields'} of {own}."
            self.add(name, "", words, inside)
        return self.parts[key]

    def add(self, name, code, words, fields):
        lines, types, derived, owns = [], [], [], set()
        methods = {it["of"]: method_of(it, fields) for it in fields if it["kind"] == "text" and "of" in it}
        for it in joined(fields):
            if is_derived(it):
                derived.append(json.dumps(it["name"]))
                continue
            own, kind, table = field_of(it["name"]), self.type_of(it), it.get("meanings", [])
            if own in owns:
                sys.exit(f"{name} has two fields {own}")
            owns.add(own)
            types.append(kind)
            method = methods.get(it["name"]) if table else None
            kind = f"Option<{kind}>" if it.get("optional") or "when" in it else kind
            line = f"        {own}: {kind} = {json.dumps(it['name'])}"
            if it["kind"] == "list" and it.get("of_kind", {}).get("bits") == 8:
                line += " as numbers"
            if "of" in it:
                line += f" of {field_of(it['of'])}"
            lines.append(told(it, own, method))
            if method:
                rows = listed([f"{row['value']} {json.dumps(row['name'])}," for row in table], 12)
                lines.append(f"{line} => {method} {{\n{rows}\n        }},")
            else:
                lines.append(f"{line},")
        derives = "" if "f64" in types else "    #[derive(Eq, Hash)]\n"
        head = listed([f"{name}{code}", *(["without"] if derived else []), *derived, "{"], 4)
        self.texts.append("\n".join([f"{commented(words, '    ')}\n{derives}{head}", *lines, "    }"]))


def module():
    """Returns the text of the module."""
    boxes = json.loads(read(DESCRIPTION))["boxes"]
    structs = [text for box in boxes for text in Made(box).texts]
    names = listed([f"{it['type'].removesuffix('Box')}({it['type']})," for it in boxes], 4)
    return "\n".join([HEAD, "structs! {", *structs, "}", "", "variants! {", names, "}", ""])


def files():
    """Returns the texts of the files by their paths."""
    return {MODULE: module()}


if __name__ == "__main__":
    run("tools/rust_structs.py", __doc__, module, files)
