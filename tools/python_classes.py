#!/usr/bin/env python3
"""Makes the classes of all boxes for Python, bindings/python/mp4_box_codec/classes.py, and puts their names into the
package.

    tools/python_classes.py           print the module
    tools/python_classes.py --write   write the module, and the names of its classes into the package

A box with a struct in include/mp4_box_codec.h has the fields of the struct, with the lists that the functions take
beside it, since these functions also write the box. The other boxes have the fields of their description in
docs/boxes.json. The tables below say what a type of C doesn't: which numbers are codes, flags or fixed-point numbers,
and what a new value has."""

import json
import keyword
import os
import re
import sys
import textwrap

TOP = os.path.dirname(os.path.dirname(os.path.abspath(__file__)))
DESCRIPTION = "docs/boxes.json"
HEADER = "include/mp4_box_codec.h"
MODULE = "bindings/python/mp4_box_codec/classes.py"
PACKAGE = "bindings/python/mp4_box_codec/__init__.py"
WIDTH = 120

# The codes of the boxes with a struct, by the names of its functions.
CODES = {name: name for name in (
    "ftyp mvhd tkhd mdhd hdlr vmhd smhd dref dinf stts ctts stsc stsz stco co64 stss elst avc1 hev1 vp09 tx3g esds mp4a"
    " stsd mehd trex mfhd tfhd tfdt trun emsg").split()}
CODES.update({"url": "url ", "avcc": "avcC", "vpcc": "vpcC"})
# Fields of structs that are codes, flags or fixed-point numbers: their bits, those after the point, and a sign.
CODE_FIELDS = {"ftyp.major_brand", "hdlr.handler_type"}
FLAG_FIELDS = {"vpcc.video_full_range_flag", "esds.up_stream"}
FIXED = {
    "mvhd.rate": (32, 16, True), "mvhd.volume": (16, 8, True), "tkhd.volume": (16, 8, True),
    "tkhd.width": (32, 16, False), "tkhd.height": (32, 16, False), "smhd.balance": (16, 8, True),
    "horizresolution": (32, 16, False), "vertresolution": (32, 16, False), "mp4a.samplerate": (32, 16, False),
}
# The lists beside a struct.
LISTS = {
    "ftyp": ["compatible_brands: List[str]"], "hdlr": ["name: str"], "url": ["location: str"],
    "emsg": ["scheme_id_uri: str", "value: str", "message_data: bytes"],
    "avcc": ["sequence_parameter_sets: List[bytes]", "picture_parameter_sets: List[bytes]"],
    "dref": ["url: Optional[Url]"], "mp4a": ["esds: Optional[Esds]"], "avc1": ["avcc: AvcC"],
    "vp09": ["vpcc: VpcC"], "stsd": ["entry: Union[Avc1, Hev1, Vp09, Mp4a, Tx3g, None]"],
}
# Members of structs that a class has in another form: numbers of elements, and structs inside.
LEFT_OUT = {"count", "scheme_id_uri_count", "value_count", "message_data_count", "sequence_count", "picture_count",
            "set_bytes", "has_url", "has_esds", "entry", *CODES}
# The values of new fields that aren't 0 or empty.
DEFAULTS = {
    "rate": "1.0", "matrix": "Matrix()", "language": '"und"', "data_reference_index": "1", "horizresolution": "72.0",
    "vertresolution": "72.0", "frame_count": "1", "depth": "24", "end_code": "0xFFFF", "configuration_version": "1",
    "length_size_minus_one": "3", "bit_depth": "8", "samplesize": "16", "default_sample_description_index": "1",
    "vmhd.flags": "1", "url.flags": "1", "mvhd.volume": "1.0", "vpcc.version": "1", "sample_description_index": "1",
    "esds.object_type_indication": "0x40", "esds.stream_type": "5", "esds.profile": "2",
}
# Boxes that are written in another one only: the code of the other box, its field, and the bytes before the box in it.
WITHIN = {
    "url": ("dref", "url", 16), "avc1": ("stsd", "entry", 16), "hev1": ("stsd", "entry", 16),
    "vp09": ("stsd", "entry", 16), "mp4a": ("stsd", "entry", 16), "tx3g": ("stsd", "entry", 16),
    "avcc": ("avc1", "avcc", 86), "vpcc": ("vp09", "vpcc", 86), "esds": ("mp4a", "esds", 36), "dinf": ("", "", 0),
}
# Titles that the header doesn't have beside a struct or a function.
TITLES = {"dinf": "the data references of a track (8.7.1)", "dref": "the data references of a track (8.7.2)"}
HEAD = '''\
"""The classes of all boxes. tools/python_classes.py makes this module from docs/boxes.json and the header: do not edit
it.

The names of fields are those of docs/FIELDS.md and of the structs in `mp4_box_codec.h`. A code is a text of four
characters, a number of one bit a bool, a fixed-point number a float. A field that a box may lack is None.
"""

from dataclasses import dataclass, field
from typing import List, Optional, Sequence, Tuple, Union

from ._fields import Fields, Matrix, Part, listed
from .calls import CttsRow, ElstRow, StscRow, SttsRow, TrunRow
'''


def read(path):
    with open(os.path.join(TOP, path), encoding="utf-8") as file:
        return file.read()


def class_of(code):
    """Returns the name of the class of a box."""
    name = re.sub(r"\W", "_", code.strip())
    return name[:1].upper() + name[1:]


def wrapped(text, indent="    "):
    return "\n".join(textwrap.wrap(text, WIDTH, initial_indent=indent, subsequent_indent=indent))


def table_of(name, values, kind):
    """Returns the line of a table in a class."""
    if kind == "tuple":
        return wrapped(f"{name} = ({', '.join(values)},)")
    items = ", ".join(f'"{key}": {it}' for key, it in values.items())
    return wrapped(f"{name} = {{{items}}}")


# ---- Boxes of the description


def merged(fields):
    """Returns fields with one of each name: with the most bits and all members that any of this name has."""
    found = {}
    for it in fields:
        known = found.setdefault(it["name"], dict(it))
        if known["kind"] != it["kind"]:
            sys.exit(f"{it['name']} is a {known['kind']} and a {it['kind']}")
        if it.get("bits", 0) > known.get("bits", 0):
            known.update({key: it[key] for key in ("bits", "bits_by_version") if key in it})
        if known != it:
            known.update({key: [*known[key], *it[key]] for key in ("entries", "fields") if key in it})
    return [*found.values()]


def is_derived(field):
    """Returns whether a field follows from others, and is left out when a box is written. A byte that counts the bytes
    after it isn't: files have other numbers there, which are kept."""
    return "of" in field and not (field["kind"] == "number" and field["bits"] == 8)


class Described:
    """The classes of a box in the description, in the order in which they are defined."""

    def __init__(self, box):
        self.made = []
        words = f"{box['title']} (`{box['code'].strip()}`, {box['standard']})."
        self.add(class_of(box["code"]), "Fields", words, box["fields"], [f'code = {json.dumps(box["code"])}'])

    def type_of(self, field, owner):
        kind = field["kind"]
        if kind in ("number", "flags", "date"):
            return "bool" if field["bits"] == 1 and kind == "number" else "int"
        if kind == "list" and "of_kind" in field:
            return f"List[{self.type_of(field['of_kind'], owner)}]"
        if kind in ("list", "group"):
            inside = field["entries"] if kind == "list" else field["fields"]
            name = owner + "".join(part[:1].upper() + part[1:] for part in re.split("[-_]", field["name"]))
            words = f"{'An entry' if kind == 'list' else 'The members'} of `{field['name']}`."
            self.add(name, "Part", words, inside, [])
            return f"List[{name}]" if kind == "list" else name
        return {"fixed": "float", "letters": "Union[str, int]", "bytes": "bytes"}.get(kind, "str")

    def add(self, name, base, words, fields, head):
        """Adds a class, after those of the parts inside. Fields that may be absent are None, and come last."""
        bits, codes, counts, always, sometimes = {}, [], {}, [], []
        for it in merged(fields):
            own = re.sub(r"\W", "_", it["name"])
            own += "_" if keyword.iskeyword(own) or own in ("code", "read", "write", "replace") else ""
            of = it.get("of_kind", it)
            if of["kind"] in ("number", "flags", "date") and not (of["bits"] == 1 and of["kind"] == "number"):
                widths = of.get("bits_by_version", [of["bits"]])
                bits[own] = "(" + ", ".join(str(-w if of.get("signed") else w) for w in widths) + ",)"
                bits[own] = bits[own] if len(widths) == 1 else bits[own].replace(",)", ")")
                if "added" in of:
                    bits[own] = f"range({of['added']}, {(1 << of['bits']) + of['added']})"
            if of["kind"] == "code":
                codes.append(json.dumps(own))
            kind = self.type_of(it, name)
            renamed = f', metadata={{"name": "{it["name"]}"}}' if own != it["name"] else ""
            derived = ", compare=False" if is_derived(it) else ""
            if "of" in it and not derived:
                counts[own] = json.dumps(it["of"])
            if it.get("optional") or "when" in it or derived:
                made = f"field(default=None{derived}{renamed})" if derived or renamed else "None"
                sometimes.append(f"{own}: Optional[{kind}] = {made}")
            else:
                always.append(f"{own}: {kind}" + (f" = field({renamed[2:]})" if renamed else ""))
        tables = ([table_of("_bits", bits, "dict")] if bits else []) + (
            [table_of("_codes", codes, "tuple")] if codes else []) + (
            [table_of("_counts", counts, "dict")] if counts else [])
        self.made.append(class_text(name, base, words, head, tables, [*always, *sometimes]))


def class_text(name, base, words, head, tables, members):
    lines = [f"@dataclass(frozen=True)\nclass {name}({base}):", wrapped(f'"""{words}"""')]
    if head or tables:
        lines += ["", *(f"    {it}" for it in head), *tables]
    return "\n".join([*lines, "", *(f"    {it}" for it in members)])


# ---- Boxes of the header


class Header:
    """The structs of the header, and what its comments say."""

    def __init__(self):
        self.text = read(HEADER)
        found = re.findall(r"(?:/\*((?:(?!\*/).)*)\*/\n)?struct mp4_(\w+) \{\n(.*?)\n\};", self.text, re.S)
        self.structs = {name: re.findall(
            r"(?:struct )?(\w+)\s+(\w+)(?:\[(\d+)\])?;", re.sub(r"/\*.*?\*/", "", body, flags=re.S))
            for _, name, body in found}
        self.told = {name: " ".join(words.split()) for words, name, _ in found}
        self.written = {*re.findall(r"^uint32_t mp4_write_(\w+)\(", self.text, re.M)}

    def words(self, name):
        """Returns the title of a box, with its section."""
        said = TITLES.get(name) or self.told.get(f"{name}_box") or " ".join(re.search(
            rf"/\*((?:(?!\*/).)*)\*/\n(?:uint32_t [^;]*;\n)*?uint32_t mp4_{name}\(", self.text, re.S)[1].split())
        section = re.search(r"\(([^()]*)\)", said)[1]
        section = f"ISO/IEC 14496-12, {section}" if re.match(r"\d", section) else section
        # The comment of a function begins with a verb.
        title = re.sub(r"^(\w+:|Reads) ", "", re.sub(r" \([^()]*\)", "", said, count=1)).split(". ")[0].rstrip(".")
        return f"{title[:1].upper()}{title[1:]} (`{CODES[name].strip()}`, {section})."

    def members(self, name):
        """Yields the types, names and lengths of the members of a box, with those of a visual sample entry."""
        table = {"stsz": "stsz_table", "trun": "trun_table"}.get(name, "table")
        own = self.structs.get("dref_box" if name == "dinf" else f"{name}_box") or self.structs[table]
        for kind, member, length in own:
            if kind == "mp4_visual":
                yield from self.structs["visual"]
            elif kind == "mp4_hvcc_box":
                yield from self.structs["hvcc_box"]
            elif member not in LEFT_OUT:
                yield kind, member, length

    def box(self, name):
        """Returns the class of a box."""
        struct = f"mp4_{name}_box" if f"{name}_box" in self.structs else f"mp4_{name}_table"
        struct = struct if struct[4:] in self.structs or name == "dinf" else "mp4_table"
        if name == "dinf":
            members, fixed, codes = ["dref: Dref = field(default_factory=lambda: Dref())"], {}, []
        else:
            members, fixed, codes = self.lines(name)
        head = [f'code = "{CODES[name]}"', f'_call = "{name}"']
        head += ["_is_written = True"] if name in self.written or name in WITHIN else []
        head += ['_within = ("{}", "{}", {})'.format(*WITHIN[name])] if name in WITHIN else []
        head += [] if name == "dinf" else [f'_struct = "{struct}"']
        tables = ([table_of("_fixed", fixed, "dict")] if fixed else []) + (
            [table_of("_codes", codes, "tuple")] if codes else [])
        return class_text(class_of(CODES[name]), "Fields", self.words(name), head, tables, members)

    def lines(self, name):
        """Returns the lines of the fields of a class, its fixed-point numbers and its codes. Version and flags come
        first."""
        found, fixed, codes = [], {}, []
        for kind, member, length in sorted(self.members(name), key=lambda it: ["version", "flags"].index(it[1])
                                           if it[1] in ("version", "flags") else 2):
            path = f"{name}.{member}"
            default = DEFAULTS.get(path) or DEFAULTS.get(member)
            bits = FIXED.get(path) or FIXED.get(member)
            if bits:
                fixed[member] = bits
                found.append(f"{member}: float = {default or '0.0'}")
            elif path in CODE_FIELDS:
                codes.append(f'"{member}"')
                found.append(f'{member}: str = "\\0\\0\\0\\0"')
            elif path in FLAG_FIELDS:
                found.append(f"{member}: bool = False")
            elif member == "matrix":
                found.append("matrix: Matrix = Matrix()")
            elif member == "language":
                found.append('language: str = "und"')
            elif length:
                empty = f"bytes({length})" if kind == "uint8_t" else f"(0,) * {length}"
                found.append(f"{member}: {'bytes' if kind == 'uint8_t' else 'Tuple[int, ...]'} = {empty}")
            else:
                found.append(f"{member}: int = {default or '0'}")
        lists = LISTS.get(name, [])
        if f"{name}_box" not in self.structs:
            row = {"stts": "SttsRow", "ctts": "CttsRow", "stsc": "StscRow", "elst": "ElstRow", "trun": "TrunRow"}
            lists = [f"rows: Sequence[{row.get(name, 'int')}]"]
        for it in lists:
            kind = it.partition(": ")[2]
            empty = {"str": '""', "bytes": 'b""', "AvcC": "field(default_factory=AvcC)",
                     "VpcC": "field(default_factory=VpcC)"}.get(kind, "None")
            empty = "field(default_factory=list)" if kind.startswith("List") else empty
            found.append(f"{it} = {'()' if kind.startswith('Sequence') else empty}")
        return found, fixed, codes


ORDER = ["url", "dref", "dinf", "avcc", "vpcc", "esds", "avc1", "hev1", "vp09", "mp4a", "tx3g", "stsd"]


def module():
    """Returns the text of the module."""
    header = Header()
    names = [*(it for it in sorted(CODES) if it not in ORDER), *ORDER]
    parts = [HEAD, *(f"{header.box(it)}\n" for it in names)]
    made = [class_of(CODES[it]) for it in names]
    for box in json.loads(read(DESCRIPTION))["boxes"]:
        if box["code"] in CODES.values():
            continue
        classes = {}
        for it in Described(box).made:
            classes.setdefault(re.search(r"^class (\w+)", it, re.M)[1], it)
        parts += [f"{it}\n" for it in classes.values()]
        made += [it for it in classes if it not in made]
    every = sorted(made)
    boxes = [it for it in every if any(f"class {it}(Fields)" in part for part in parts)]
    parts.append("listed(\n" + wrapped(", ".join(boxes) + ",") + "\n)\n\n__all__ = [\n"
                 + wrapped(", ".join(f'"{it}"' for it in every) + ",") + "\n]\n")
    return "\n\n".join(parts)


def package(made):
    """Returns the text of the package with the names of the classes of the module `made`."""
    names = re.search(r"__all__ = \[\n(.*)\n\]\n", made, re.S)[1]
    return re.sub(r"(?<=\n__all__ \+= \[\n).*?(?=\]\n)", lambda _: f"{names}\n", read(PACKAGE), flags=re.S)


def files():
    """Returns the texts of the files by their paths."""
    made = module()
    return {MODULE: made, PACKAGE: package(made)}


def run(name, about, shown, made):
    """Runs a program such as this one: prints what `shown` returns, or writes the files that `made` returns."""
    words = sys.argv[1:]
    if words not in ([], ["--write"]):
        if words in (["-h"], ["--help"]):
            return print(about.strip())
        sys.exit(f"{name}: unexpected {words[0]}; try --help")
    if not words:
        return print(shown(), end="")
    for path, text in made().items():
        with open(os.path.join(TOP, path), "w", encoding="utf-8") as file:
            file.write(text)
    return None


if __name__ == "__main__":
    run("tools/python_classes.py", __doc__, module, files)
