#!/usr/bin/env python3
"""Describes the fields of all boxes that declare their names, for other programs.

    tools/describe.py            print the description, which docs/boxes.json keeps
    tools/describe.py --schema   print the JSON schema of the fields of each box, which docs/boxes.schema.json keeps
    tools/describe.py --page     print the page about the fields of each box, docs/FIELDS.md
    tools/describe.py --write    write all three files

tools/python_classes.py makes the classes for Python from the description, and tools/rust_structs.py the structs for
Rust, so run these afterwards.

The description follows the declarations in the sources: the shape of a box, and the names beside it. Tests compare the
files with the sources, and the fields of boxes with the schema.

A field has a `name`, a `kind`, and what its kind adds. A field with `of` is derived: it is the count of another field,
the name of its value, or a text beside its bytes. A field with `when` is present under this condition, and one with
`optional` may be absent.
"""
import functools
import glob
import json
import os
import re
import sys
import textwrap

TOP = os.path.dirname(os.path.dirname(os.path.abspath(__file__)))
SOURCES = "crates/mp4_extra_*/src/*.rt"
COMMON = ("crates/mp4_shown/src/*.rt", SOURCES)
CODES = "crates/mp4_frame/src/codes.rt"
DESCRIPTION = "docs/boxes.json"
SCHEMA = "docs/boxes.schema.json"
PAGE = "docs/FIELDS.md"
TOKEN = re.compile(r'\s*(?:(b?"(?:[^"\\]|\\.)*")|(\w+!?)|(::|.))')
BITS = {"U8": 8, "U16": 16, "U24": 24, "U32": 32, "U64": 64}
SIGNED_BITS = {"I8": 8, "I16": 16, "I32": 32}
# Numbers that have a meaning only under a condition, by which `NamedBy` chooses their name.
MEANT_IF = {"data_type": {"when": "type_set is 0"}}


class Unknown(Exception):
    """A declaration that this program can't follow."""


def read(path):
    with open(os.path.join(TOP, path), encoding="utf-8") as file:
        return file.read()


def paths(*patterns):
    found = [path for pattern in patterns for path in glob.glob(os.path.join(TOP, pattern))]
    return sorted((os.path.relpath(path, TOP) for path in found), key=os.path.basename)


# ---- Types and expressions


def apart(text):
    """Returns the pieces between the commas that aren't inside of brackets."""
    found, depth = [""], 0
    for letter in text:
        depth += (letter in "(<[{") - (letter in ")>]}")
        if letter == "," and depth == 0:
            found.append("")
        else:
            found[-1] += letter
    return [it.strip() for it in found if it.strip()]


def type_of(text):
    """Returns a type as its name and its arguments. A tuple has an empty name."""
    text = text.strip()
    if text.startswith("("):
        return "", [type_of(it) for it in apart(text[1:-1])]
    name, _, inside = text.partition("<")
    return name, [type_of(it) for it in apart(inside[:-1])] if inside else []


class Expression:
    """Reads an expression of a constant: a text, a number, a name, a tuple, a slice, or a call of a macro or variant.

    A text is a `str`, a number an `int`, a tuple and a slice a `tuple`, a name `("name", N)`, and a call
    `("call", NAME, arguments)`."""

    def __init__(self, text):
        self.tokens = [it for it in TOKEN.findall(text) if any(part.strip() for part in it)]
        self.at = 0

    def take(self):
        self.at += 1
        return next(part for part in self.tokens[self.at - 1] if part)

    def next(self):
        return next(part for part in self.tokens[self.at] if part) if self.at < len(self.tokens) else ""

    def list(self, end):
        found = []
        while self.next() != end:
            found.append(self.value())
            if self.next() == ",":
                self.take()
        self.take()
        return tuple(found)

    def value(self):
        token = self.take()
        if token == "&":
            return self.value()
        if token in "([":
            return self.list(")" if token == "(" else "]")
        if token.startswith('"'):
            return token[1:-1]
        if token[0].isdigit():
            return int(token.replace("_", ""), 0)
        while self.next() == "::":
            self.take()
            token = self.take()
        if self.next() == "(":
            self.take()
            return "call", token.rstrip("!"), self.list(")")
        return "name", token


class Source:
    """A source file: its types, constants and impls, without comments."""

    def __init__(self, path):
        self.path, self.raw = path, read(path)
        self.text = re.sub(r"\s+", " ", re.sub(r"^\s*//.*$", "", self.raw, flags=re.M))
        self.types = {name: type_of(it) for name, it in re.findall(r"\btype (\w+) = ([^;]*);", self.text)}
        self.constants = dict(re.findall(r"\bconst (\w+): [^=;]*(?:; ?\w+\][^=;]*)?= ([^;]*);", self.text))

    @functools.lru_cache(maxsize=None)
    def constant(self, name):
        """Returns the value of a constant of this file, or of the one that has it."""
        if name in self.constants:
            return self.resolved(Expression(self.constants[name]).value())
        module = next((of for of, names in re.findall(r"\buse crate::(\w+)::\{?([^;}]*)\}?;", self.text)
                       if name in re.findall(r"\w+", names)), None)
        for other in sources():
            if name in other.constants and other is not self and other.path.endswith(f"/{module}.rt" if module else ""):
                return other.constant(name)
        raise Unknown(f"{self.path}: no constant {name}")

    def resolved(self, value):
        """Returns an expression with the values of constants in place of their names."""
        if isinstance(value, tuple) and value[:1] == ("name",) and len(value) == 2:
            return value if not value[1].isupper() else self.constant(value[1])
        if isinstance(value, tuple) and value[:1] == ("call",):
            inside = tuple(self.resolved(it) for it in value[2])
            return nested(inside) if value[1] == "names_of" else ("call", value[1], inside)
        return tuple(self.resolved(it) for it in value) if isinstance(value, tuple) else value


def nested(values):
    """Returns values as the pairs that `names_of!` makes of them."""
    return (values[0], nested(values[1:])) if values else ()


@functools.lru_cache(maxsize=None)
def sources():
    return tuple(Source(path) for path in paths(*COMMON))


@functools.lru_cache(maxsize=None)
def codes():
    """Returns the codes of boxes by the names of their constants."""
    numbers = re.findall(r"^pub const (\w+): u32 = (0x\w+);", read(CODES), re.M)
    return {name: int(number.replace("_", ""), 16).to_bytes(4, "big").decode("latin-1") for name, number in numbers}


# ---- Fields


def meanings(pairs):
    return {"meanings": [{"value": value, "name": name} for value, name in pairs]} if pairs else {}


def number(name, bits, signed=False):
    """Returns the fields of a number with this name, which is a call of `number!` or a tuple of its three parts."""
    text, look, table = names_of_number(name)
    field = {"name": text, "kind": "number", "bits": bits}
    if signed:
        field["signed"] = True
    kind, argument = look
    if kind == "Named":
        derived = {"name": f"{text}_name", "kind": "text", "of": text, "optional": True, **MEANT_IF.get(text, {})}
        return [{**field, **meanings(table)}, derived]
    if kind == "Flags":
        return [{**field, "kind": "flags", "digits": argument, **meanings(table)}]
    if kind == "Date":
        return [{**field, "kind": "date"}]
    if kind == "Fixed":
        return [{**field, "kind": "fixed", "fraction_bits": argument}]
    if kind == "Hex":
        return [{"name": text, "kind": "bytes", "length": argument}]
    if kind == "Reserved":
        return [{**field, "usual": argument, "optional": True}]
    return [field]


def numbers(names, widths):
    """Returns the fields of numbers with these names and widths in bits."""
    return [field for name, bits in zip(names, widths) for field in number(name, bits)]


def names_of_number(name):
    """Returns a name, its look with an argument, and its table."""
    parts = name[2] if name[:2] == ("call", "number") else name
    look = parts[1] if len(parts) > 1 else ("name", "Plain")
    look = (look[1], None) if look[0] == "name" else (look[1], look[2][0])
    return parts[0], look, parts[2] if len(parts) > 2 else ()


def run(name, length=None):
    """Returns the fields of a run of bytes with this name, a call of `run!`."""
    text, look, *more = name[2]
    look = look[1]
    field = {"name": text, "kind": "bytes"}
    if length is not None:
        field["length"] = length
    if look == "Bytes":
        return [field]
    if look == "SomeBytes":
        return [{**field, "optional": True}]
    if look == "Counted":
        count = {"name": more[0], "kind": "number", "bits": 8, "of": text, "optional": True}
        return [count, {**field, "optional": True}]
    if look == "Numbers":
        return [{"name": text, "kind": "list", "of_kind": {"kind": "number", "bits": 8}, "optional": True}]
    if look in ("Text", "Ended"):
        return [{"name": text, "kind": "text"},
                {"name": f"{text}_hex", "kind": "bytes", "beside": text, "optional": True}]
    raise Unknown(f"the look {look} of bytes")


def listed(name, entries):
    """Returns the fields of a list with this name, a call of `list!`. `entries` has the fields of an entry, or its
    kind."""
    text, look, *more = name[2] if len(name[2]) > 1 else (name[2][0], ("name", "Entries"))
    inside = {"entries": entries} if isinstance(entries, list) else {"of_kind": entries}
    field = {"name": text, "kind": "list", **inside}
    if look[1] == "Counted":
        return [{"name": more[0], "kind": "number", "bits": 32, "of": text}, field]
    if look[1] == "Items" and isinstance(entries, list):
        return [{"name": text, "kind": "list", "of_kind": {key: it for key, it in entries[0].items() if key != "name"}}]
    return [field]


def together(*alternatives):
    """Returns the fields that any alternative has, those that not all always have as optional."""
    found = {}
    for fields in alternatives:
        for field in fields:
            found.setdefault(field["name"], dict(field))
    for name, field in found.items():
        if not all(any(it["name"] == name and not it.get("optional") for it in fields) for fields in alternatives):
            field["optional"] = True
    return list(found.values())


def under(condition, fields):
    return [{**field, "when": field.get("when", condition)} for field in fields]


def optional(fields):
    return [{**field, "optional": True} for field in fields]


class Walk:
    """Walks over the shape of a box and its names together."""

    def __init__(self, source):
        self.source = source

    def fields(self, shape, names):
        """Returns the fields of a value of `shape` under these `names`."""
        name, inside = shape
        if name in OWN:
            return OWN[name](self, names)
        if name in self.source.types:
            return self.fields(self.source.types[name], names)
        if name in BITS or name in SIGNED_BITS:
            return number(names, {**BITS, **SIGNED_BITS}[name], name in SIGNED_BITS)
        walk = getattr(self, f"of_{name.lower() or 'tuple'}", None)
        if not walk:
            raise Unknown(f"{self.source.path}: the shape {name}")
        return walk(inside, names)

    def of_time(self, _, names):
        return [{**field, "bits_by_version": [32, 64]} for field in number(names, 64)]

    def of_signedtime(self, _, names):
        return [{**field, "bits_by_version": [32, 64]} for field in number(names, 64, True)]

    def of_code(self, _, names):
        return [{"name": names, "kind": "code"}]

    def of_codes(self, _, names):
        return [{"name": names, "kind": "list", "of_kind": {"kind": "code"}}]

    def of_numbers(self, _, names):
        return [{"name": names, "kind": "list", "of_kind": {"kind": "number", "bits": 32}}]

    def of_rest(self, _, names):
        return run(names)

    def of_bytes(self, _, names):
        return run(names)

    def of_terminated(self, _, names):
        return run(names)

    def of_pascal(self, inside, names):
        return run(names)

    def of_array(self, inside, names):
        return run(names, int(inside[0][0]))

    def of_zeros(self, *_):
        return []

    def of_tuple(self, inside, names):
        """Walks over the parts of a tuple: all names but those of the last part are the first of a pair."""
        found = []
        for part in inside[:-1]:
            found += self.fields(part, names[0])
            names = names[1]
        return found + self.fields(inside[-1], names)

    def of_last(self, inside, names):
        return self.fields(inside[0], names[0])

    def of_reserved(self, inside, names):
        return self.fields(inside[1], names)

    def of_withsize(self, inside, names):
        return self.fields(inside[0], names)

    def of_full(self, inside, names):
        version, (flags, rest) = names
        return number(version, 8) + number(flags, 24) + self.fields(inside[1], rest)

    def of_if(self, inside, names):
        return under(self.condition(inside[0]), self.fields(inside[1], names))

    def of_orzeros(self, inside, names):
        return under(self.condition(inside[0]), self.fields(inside[1], names))

    def of_bits(self, inside, names):
        widths = self.widths(*(it[0] for it in inside))
        if len(widths) != len(names):
            raise Unknown(f"{self.source.path}: {len(names)} names of {len(widths)} numbers")
        return numbers(names, widths)

    def of_list(self, inside, names):
        return listed(names[0], self.of_bits(inside[1:], names[1]))

    def of_listbyversion(self, inside, names):
        count, entry, numbers, *sizes = inside
        entries = [self.of_bits([entry, numbers, size], names[1]) for size in sizes]
        for field, *others in zip(*entries):
            bits = [it.get("bits") for it in (field, *others)]
            if len({*bits}) > 1:
                field["bits_by_version"], field["bits"] = bits, max(bits)
        return listed(names[0], entries[0])

    def of_toend(self, inside, names):
        return listed(names[0], self.of_bits(inside, names[1]))

    def of_rows(self, inside, names):
        return listed(names, {"kind": "bytes", "length": int(inside[1][0])})

    def of_each(self, inside, names):
        return listed(names, self.entry(inside[1][0]))

    def of_eachtoend(self, inside, names):
        return listed(names, self.entry(inside[0][0]))

    def of_entriesof(self, inside, names):
        return listed(names, self.entry(inside[0][0]))

    def of_group(self, inside, names):
        return [{"name": names[0], "kind": "group", "fields": self.fields(inside[0], names[1])}]

    def of_namedby(self, inside, names):
        return together(*(self.fields(inside[0], it) for it in names))

    def of_nested(self, inside, _):
        shape, constant = re.search(
            rf"impl HasFields for {inside[0][0]} \{{ ghost shown = "
            r"\{ λ view \w\. ⟦<(\w+) as NamedShape>⟧\.shown (\w+)\.now view",
            self.source.text).groups()
        return self.fields(self.source.types[shape], self.source.constant(constant))

    def of_avctail(self, _, name):
        return together(self.of_nested([type_of("AvcExtension")], None), run(name))

    def of_typed(self, inside, names):
        tag = re.search(rf"impl Tag for {inside[0][0]} .*? const TAG: u32 = (\w+);", self.source.text)[1]
        code = self.source.constant(tag).to_bytes(4, "big").decode("latin-1")
        return [{"name": names[0], "kind": "code"}] + under(
            f"{names[0]} is {code}", self.fields(inside[1], names[1][0])) + under(
            f"{names[0]} isn't {code}", self.fields(inside[2], names[1][1]))

    def of_piecesof(self, inside, names):
        pieces, (cut, rest) = names
        return optional(listed(pieces, PIECES[inside[0][0]](self))) + optional(together(run(cut), run(rest)))

    def widths(self, struct, count, size):
        """Returns the widths of the numbers of an entry, in bits."""
        for source in (self.source, *sources()):
            impl = re.search(rf"impl EntryLayout<{count}, {size}> for {struct} \{{(.*?)(?= impl |$)", source.text)
            if impl:
                return source.constant(re.search(r"fn widths\(\) -> \[u8; \w+\] \{ (\w+) \}", impl[1])[1])
        raise Unknown(f"{self.source.path}: no EntryLayout<{count}, {size}> for {struct}")

    def entry(self, struct):
        """Returns the fields of an entry, or its kind."""
        impl = re.search(rf"impl ShownEntry for {struct} \{{(.*?)(?= impl |$)", self.source.text)
        if not impl:
            raise Unknown(f"{self.source.path}: no ShownEntry for {struct}")
        if "= { λ view unit. bytes_item" in impl[1]:
            return {"kind": "bytes"}
        shape, names = re.search(r"⟦<(\w+) as NamedShape>⟧\.shown (\w+)\.now view", impl[1]).groups()
        return self.fields(self.source.types[shape], self.source.constant(names))

    def condition(self, shape):
        name, arguments = shape
        argument = arguments[0][0] if arguments else ""
        if name == "VersionZero":
            return "version is 0"
        if name == "FromVersion":
            return f"version >= {argument}"
        flags = f"flags & {int(argument, 0):#x}"
        return f"{flags} is 0" if name == "WithoutFlags" else flags


# ---- Shapes of one box each: the fields that they show, which a function of the box hands to a sink


def colours(walk):
    names = walk.source.constant("NAMES")
    found = numbers(names[1][0], walk.source.constant("WIDTHS"))
    others = [{"name": it, "kind": "bytes", "when": when} for it, when in zip(names[1][1], (
        f"{names[0]} is rICC or prof", f"{names[0]} is another"))]
    full = [field for field in found if field["name"] in ("full_range_flag", "reserved")]
    return [{"name": names[0], "kind": "code"}] + [
        {**field, "when": f"{names[0]} is nclx" + ("" if field in full else " or nclc")} for field in found] + others


def elementary_stream(walk):
    """Returns the fields of an `esds`. In its shape the flags of the stream stand for its first three bits."""
    found = walk.fields(walk.source.types["EsdsShape"], walk.source.constant("NAMES"))
    flags = {"flags & 0x4": "streamDependenceFlag is 1", "flags & 0x2": "URL_Flag is 1",
             "flags & 0x1": "OCRstreamFlag is 1"}
    return [{**field, "when": flags[field["when"]]} if "when" in field else field for field in found]


def audio(*_):
    source = next(it for it in sources() if it.path.endswith("/audio_config.rt"))
    config = numbers(source.constant("AUDIO"), (7, 4, 24, 4))
    # A field that isn't signalled has a number that these bits don't have.
    extension = [{key: it for key, it in field.items() if key != "usual"}
                 for field in numbers(source.constant("EXTENSION"), (3, 1, 1, 4, 24))]
    name = source.constant("AUDIO_NAME")
    return [{"name": name, "kind": "group", "fields": config + extension, "optional": True}]


def descriptor_content(walk, _):
    constant = walk.source.constant
    layer = numbers(constant("LAYER"), (1,) * 8 + (32, 32, 8, 8, 8, 8, 4, 5, 5, 2))
    return [*under("tag is 6", number(constant("PREDEFINED"), 8)),
            *under("tag is 6 and predefined is 0", layer), *optional(run(constant("CONTENT")))]


def channel_mapping(_, names):
    streams, (coupled, (channels, too_few)) = names
    return optional(number(streams, 8) + number(coupled, 8) + run(channels) + run(too_few))


def flac_block_data(_, names):
    length, (stream_names, (checksum, others)) = names
    stream = numbers(stream_names, (16, 16, 24, 24, 20, 3, 5, 36))
    # The numbers of channels and of bits are stored without 1.
    stream[5]["added"] = stream[6]["added"] = 1
    return number(length, 24) + under("BlockType is 0 and Length is 34", stream + run(checksum)) + under(
        "another BlockType or Length", run(others))


def locale(_, names):
    return [{"name": names, "kind": "letters", "bits": 16, "optional": True}]


def typed_value(_, names):
    text, (number_name, (number_bytes, others)) = names
    values = run(text) + [{"name": number_name, "kind": "number", "bits": 64, "signed": True}] + run(number_bytes)
    return optional(values + run(others))


def sample_sizes(_, names):
    sizes, (padding, (too_few, rest)) = names
    items = {"name": sizes, "kind": "list", "of_kind": {"kind": "number", "bits": 16}}
    return optional([items] + number(padding, 4) + run(too_few) + run(rest))


def streams(walk):
    return together(*(numbers(walk.source.constant(it), walk.source.constant(f"{it}_WIDTHS"))
                      for it in ("STREAM", "PARENT")))


def accesses(walk):
    return numbers(walk.source.constant("ACCESS"), (64, 64, 32, 32, 32))


def descriptions(walk):
    constant = walk.source.constant
    kinds = {
        "roll or prol": number(constant("ROLL_DISTANCE"), 16, True),
        "rap": numbers(constant("LEADING"), (1, 7)),
        "tele": numbers(constant("LEVEL"), (1, 7)),
        "seig": numbers(constant("ENCRYPTION"), (8, 4, 4, 8, 8)) + run(constant("KID"), 16)
        + run(constant("CONSTANT_IV")),
        "another": run(constant("UNKNOWN")),
    }
    found = optional(number(constant("DESCRIPTION_LENGTH"), 32))
    for kind, fields in kinds.items():
        for field in under(f"grouping_type is {kind}", fields):
            known = next((it for it in found if it["name"] == field["name"]), None)
            if known is None:
                found.append(field)
            else:
                known["when"] += f" or {kind}"
                # A kind may have more reserved bits than another.
                known["bits"] = max(known["bits"], field["bits"])
    return found


def protection_system(_, names):
    known = {"name": names[1], "kind": "text", "of": names[0], "optional": True}
    return [{"name": names[0], "kind": "bytes", "length": 16}, known]


def set_code(_, names):
    return [{"name": names, "kind": "code", "optional": True}]


def handler_name(_, names):
    return run(names)


def item_id(_, names):
    return [{**field, "bits_by_version": [16, 32]} for field in number(names, 32)]


OWN = {
    "ItemId": item_id, "NameShown": handler_name, "SetCode": set_code,
    "ProtectionSystem": protection_system,
    "ChannelMapping": channel_mapping, "BlockData": flac_block_data, "Country": locale, "Language": locale,
    "TypedValue": typed_value, "SampleSizes": sample_sizes,
    "AudioShown": audio, "DescriptorContent": descriptor_content,
}
PIECES = {"Streams": streams, "Accesses": accesses, "Descriptions": descriptions}
BOXES = {"Colr": colours, "Esds": elementary_stream}


# ---- Boxes


def code_of(source):
    """Returns the code of the box that a file declares. A code that only this box has is a constant of the file."""
    shared, own = re.search(r"const CODE: u32 = (codes::)?(\w+);", source.text).groups()
    return codes()[own] if shared else source.constant(own).to_bytes(4, "big").decode("latin-1")


def box_in(source):
    """Returns the description of the box that a file declares, or `None` if it declares none."""
    declared = re.search(r"impl DeclaredBox for (\w+) ", source.text)
    if not declared:
        return None
    name = declared[1]
    code = code_of(source)
    told = re.search(rf"((?:^/// .*\n)+)(?:^#.*\n)*^pub struct {name}\b", source.raw, re.M)[1]
    comment = " ".join(line[4:] for line in told.splitlines())
    title, section = re.match(r"(.*?) \(`[^`]*`, ([^)]*)\)", comment).groups()
    walk = Walk(source)
    if name in BOXES:
        fields = BOXES[name](walk)
    else:
        shape, names = re.search(
            rf"impl HasFields for {name} \{{ ghost shown = "
            r"\{ λ view b\. (?:shown_by )?⟦<(\w+) as NamedShape>⟧\.shown (\w+)\.now view",
            source.text).groups()
        fields = walk.fields(source.types[shape], source.constant(names))
    alias = re.search(rf"pub type (\w+) = (?:Declared|Checked)<{name}>;", source.text)[1]
    return {"code": code, "title": title, "standard": section, "source": source.path, "type": alias, "fields": fields}


def is_held(box):
    """Returns whether an `ExtraBox` holds the box."""
    return any(re.search(rf"\b{box['type']}\b", read(path)) for path in paths("crates/mp4_extra_*/src/*_box.rt"))


@functools.lru_cache(maxsize=None)
def boxes():
    """Returns the descriptions of the boxes that an `ExtraBox` holds, by their code."""
    found = [box for source in (Source(path) for path in paths(SOURCES)) if (box := box_in(source)) and is_held(box)]
    return sorted(found, key=lambda box: box["code"].lower())


# ---- The schema

HEX = "^([0-9a-f]{2})*$"
CODE = "^[\u0000-\u00ff]{4}$"


def value_schema(field):
    """Returns the schema of a value."""
    kind = field["kind"]
    if kind in ("number", "flags", "date"):
        bits = field["bits"]
        if field.get("signed"):
            largest = 2 ** bits - 1 if bits == 64 else 2 ** (bits - 1) - 1
            return {"type": "integer", "minimum": -2 ** (bits - 1), "maximum": largest}
        added = field.get("added", 0)
        return {"type": "integer", "minimum": added, "maximum": 2 ** bits - 1 + added}
    if kind == "fixed":
        return {"type": "number"}
    if kind == "code":
        return {"type": "string", "pattern": CODE}
    if kind == "bytes":
        length = 2 * field["length"] if "length" in field else None
        return {"type": "string", "pattern": HEX, **({"minLength": length, "maxLength": length} if length else {})}
    if kind == "text":
        return {"type": "string"}
    if kind == "letters":
        return {"type": ["string", "integer"]}
    if kind == "list":
        items = schema_of(field["entries"]) if "entries" in field else value_schema(field["of_kind"])
        return {"type": "array", "items": items}
    if kind == "group":
        return schema_of(field["fields"])
    raise Unknown(f"the kind {kind}")


def either(one, other):
    """Returns the schema of the values of both schemas, which differ only in their ranges."""
    if not isinstance(one, dict):
        return one
    widest = {"minimum": min, "maximum": max}
    return {key: widest.get(key, either)(it, other[key]) for key, it in one.items()}


def schema_of(fields):
    """Returns the schema of an object with these fields. A field may have other widths under other conditions."""
    required = [field["name"] for field in fields if not field.get("optional") and "when" not in field]
    found = {}
    for field in fields:
        name, schema = field["name"], value_schema(field)
        found[name] = either(found[name], schema) if name in found else schema
    return {"type": "object", "properties": found, "required": required, "additionalProperties": False}


def description():
    return {"description": "The fields of boxes, made from their declarations by tools/describe.py.", "boxes": boxes()}


def schema():
    return {
        "$schema": "https://json-schema.org/draft/2020-12/schema",
        "title": "The fields of boxes",
        "description": "The fields of each box by its code, as mp4inspect --json and the libraries give them.",
        "$defs": {box["code"]: {"title": box["title"], **schema_of(box["fields"])} for box in boxes()},
    }


# ---- The page

HEAD = """\
# The fields of boxes

These are the names under which `mp4inspect --json` and the libraries show the fields of boxes: those of the standards,
as they spell them. [boxes.json](boxes.json) has them for other programs, with the meanings of numbers, and
[boxes.schema.json](boxes.schema.json) is a JSON schema. `tools/describe.py` makes all three from the declarations of
the boxes of `mp4_extra`. The codec's own boxes are shown under the names of [LAYOUT.md](LAYOUT.md).

The structs for Rust are in the module `extra` of the crate ([RUST.md](RUST.md#all-fields-of-a-box)), with the names of
fields in Rust's case: `frameLength` is `frame_length`. The classes for Python have the name of the code, such as `Pasp`
([PYTHON.md](PYTHON.md#boxes)). Those of `avcC`, `esds`, `hdlr`, `tx3g` and `vpcC` have the fields of the header.

A field is present in each box of its type unless the last column says when it is.

## Boxes from JSON

`mp4_box_from_json` of the library writes a box from its JSON, and `mp4remux edit --set` changes one field in it. In
Rattle `ExtraBox::from_json` reads a box back from its JSON, and `read_codec` of `mp4_show` one of the codec's 36 boxes
([how](../crates/mp4_shown/CALLING.md#taking)). The JSON is an object with the fields of the box:

- The names may have any order. A field that is missing, a name that the box doesn't have, and a name that comes
  twice are refused.
- A field without meaning for this version, these flags or this type must be absent.
- These members are *derived*. They may be left out, and are refused if they contradict their field:
    - the count of a list;
    - the meaning of a number, whose name ends in `_name`;
    - `first_sample` in `stsc`;
    - `AudioSpecificConfig` in `esds`, which follows from the first of `decoder_descriptors`;
    - a text or a number beside its bytes, whose name ends in `_hex`.
- Reserved bits may be left out if they have the standard's value. Bytes that are present only if there are some, and
  empty lists of bytes, may be left out.
- A byte that counts the bytes after it, such as `default_constant_IV_size`, may be left out. Another number than
  theirs is kept, since files have such numbers.
- A whole number is written without a point or an exponent. A fixed-point number may have both, up to 37 digits. It is
  rounded to the nearest number that the field can have.
- Bytes are texts of hexadecimal digits, in either case. Codes are texts of four characters, each of the number of its
  byte.

A refusal has the path of the member and a reason: `references[3].SAP_type does not fit the field`.
"""
WIDTH = 120


def words_of(field):
    """Returns the kind of a field in words."""
    kind = field["kind"]
    if "of" in field:
        what = "the number of entries or bytes" if kind == "number" else "the meaning"
        return f"{what} of `{field['of']}`"
    if kind in ("number", "flags", "date", "fixed"):
        bits = " or ".join(str(it) for it in field.get("bits_by_version", [field["bits"]])) + " bits"
        bits = "1 bit" if bits == "1 bits" else bits + (", signed" if field.get("signed") else "")
        bits += f", plus {field['added']}" if "added" in field else ""
        more = {"flags": "flags, ", "date": "seconds since the start of 1904, ", "fixed": "fixed-point number, "}
        after = f", {field['fraction_bits']} after the point" if kind == "fixed" else ""
        return more.get(kind, "number, ") + bits + after
    if kind == "bytes":
        count = f"{field['length']} bytes" if "length" in field else "bytes"
        return count + (f" of the text `{field['beside']}`" if "beside" in field else "")
    if kind == "list" and "of_kind" in field:
        return f"list: each {words_of(field['of_kind'])}"
    return {"code": "code of four characters", "letters": "letters, or a number that has none"}.get(kind, kind)


def presence(field):
    found = ["if " + field["when"]] if "when" in field else []
    if "usual" in field:
        found.append(f"unless it is {field['usual']}")
    return ", ".join(found) or ("sometimes" if field.get("optional") else "")


def rows_of(fields, before=""):
    """Returns the rows of fields, and of the fields inside of them."""
    for field in fields:
        yield f"`{before}{field['name']}` | {words_of(field)} | {presence(field)}".rstrip()
        inside = field.get("entries") or field.get("fields") or []
        yield from rows_of(inside, f"{before}{field['name']}{'[]' if 'entries' in field else ''}.")


def page():
    found = [HEAD]
    for box in boxes():
        title = textwrap.fill(f"{box['title']} ({box['standard']}).", WIDTH)
        found.append(f"## `{box['code']}`\n\n{title}\n\nIn Rattle and in Rust it is a "
                     f"[`{box['type']}`](../{box['source']}).\n\nfield | kind | present\n---|---|---\n"
                     + "\n".join(rows_of(box["fields"])) + "\n")
    return "\n".join(found)


# ---- Files


def text_of(value):
    """Returns a value as JSON, with a line for each field, and for each member that is a value."""
    return lines_of(value, "") + "\n"


def lines_of(value, indent):
    flat = json.dumps(value)
    inside = value.values() if isinstance(value, dict) else value if isinstance(value, list) else ()
    if not inside or len(indent + flat) < 110 and not any(isinstance(it, (dict, list)) for it in inside):
        return flat
    keys = [f"{json.dumps(key)}: " for key in value] if isinstance(value, dict) else [""] * len(value)
    begin, end = "{}" if isinstance(value, dict) else "[]"
    lines = ",\n".join(f"{indent} {key}{lines_of(it, indent + ' ')}" for key, it in zip(keys, inside))
    return f"{begin}\n{lines}\n{indent}{end}"


def files():
    """Returns the texts of the files by their paths."""
    return {DESCRIPTION: text_of(description()), SCHEMA: text_of(schema()), PAGE: page()}


def main():
    words = sys.argv[1:]
    kinds = {"": DESCRIPTION, "--schema": SCHEMA, "--page": PAGE}
    if len(words) > 1 or "".join(words) not in {*kinds, "--write"}:
        if words in (["-h"], ["--help"]):
            return print(__doc__.strip())
        sys.exit(f"tools/describe.py: unexpected {words[0]}; try --help")
    if words == ["--write"]:
        for path, text in files().items():
            with open(os.path.join(TOP, path), "w", encoding="utf-8") as file:
                file.write(text)
    else:
        print(files()[kinds["".join(words)]], end="")


if __name__ == "__main__":
    main()
