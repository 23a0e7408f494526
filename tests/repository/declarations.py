"""Reads the parts of the boxes of mp4_extra from their declarations, in the words of the list in
crates/mp4_extra/CALLING.md: the shape of a box, the fields of its struct, and the widths of its entries."""

import collections
import glob
import os
import re

from tests.built import TOP
from tools.describe import apart, codes, type_of

# The page with the list of the boxes, and their sources.
PAGE = "crates/mp4_extra/CALLING.md"
SOURCES = "crates/mp4_extra_*/src/*.rt"
NUMBERS = {f"U{bits}": f"{bits // 8}" for bits in (8, 16, 24, 32, 64)}
NUMBERS.update((f"I{bits}", f"{bits // 8}, signed") for bits in (8, 16, 32, 64))
# Shapes without arguments that are one field.
FIELDS = {
    **NUMBERS, "Time": "t", "SignedTime": "t, signed", "Code": "code", "Codes": "to the end; each code",
    "Numbers": "to the end; each 4", "Rest": "to the end", "HandlerName": "to the end, at least 1 byte",
    "Terminated": "to a byte of 0",
}
VERSIONS = {1: "version 0", 2: "version 0 or 1", 3: "version 0 to 2", 4: "version 0 to 3"}
# An item of the list: a code, its section, and its parts. Its lines are joined first.
ROW = re.compile(r"^- `(.{4})` \(([^()\n]+)\): (.+)$", re.M)


class Differs(Exception):
    """A difference between a table and a declaration."""


def read(path):
    with open(os.path.join(TOP, path), encoding="utf-8") as file:
        return file.read()


def plain(source):
    """Returns `source` without comments, on one line."""
    return re.sub(r"\s+", " ", re.sub(r"^\s*//.*$", "", source, flags=re.M))


class Declared:
    """The declaration of one box, in its file."""

    def __init__(self, path):
        own = read(path)
        others = re.findall(r"^use crate::(\w+)::", own, re.M)
        others = [read(os.path.join(os.path.dirname(path), f"{it}.rt")) for it in others]
        source = " ".join(map(plain, [own, *others]))
        self.source = source
        self.types = {name: type_of(text) for name, text in re.findall(r"\btype (\w+) = ([^;]*);", source)}
        # A type with the shape of another one.
        same = r"impl Shape for (\w+) \{ type Value = [^;]*; ghost shape = \{ ⟦<(\w+) as Shape>⟧\.shape \};"
        self.types.update((name, self.types[other]) for name, other in re.findall(same, source))
        name, owner = re.search(r"impl DeclaredBox for (\w+) .*? type Shape = (\w+);", source).groups()
        self.shape = self.types[owner]
        self.fields = self.fields_of(name)
        shared, own_code = re.search(r"const CODE: u32 = (codes::)?(\w+);", source).groups()
        number = None if shared else re.search(rf"const {own_code}: u32 = (0x\w+);", source)[1]
        self.code = codes()[own_code] if shared else int(number, 0).to_bytes(4, "big").decode("latin-1")
        self.section = re.search(rf"/// .*?\(`{self.code}`, ([^)]*)\)", own)[1]

    def is_of_section(self, section):
        """Returns whether the struct names `section`, of ISO/IEC 14496-12 unless the section names another source."""
        source, _, number = section.rpartition(", ")
        words = re.compile(r"[A-Z0-9][\w./-]*")
        return {*words.findall(source or "ISO/IEC 14496-12")} <= {*words.findall(self.section)} and (
            self.section.endswith(f", {number}") or not re.search(r"\d", number))

    def fields_of(self, struct):
        """Returns the fields of the struct `struct`, in their order."""
        found = re.search(rf"pub struct {struct} \{{(.*?)\}}", self.source)
        return re.findall(r"pub (\w+):", found[1]) if found else []

    def flat_fields_of(self, struct):
        """Returns the fields of the struct `struct`. A field that is a struct is replaced by its fields."""
        found = re.search(rf"pub struct {struct} \{{(.*?)\}}", self.source)
        for name, kind in re.findall(r"pub (\w+): (\w+)", found[1]) if found else []:
            yield from self.fields_of(kind) or [name]

    @staticmethod
    def numbers_of(impl):
        """Returns the names of the fields that the `numbers` of an impl lists, by the macro or one by one."""
        listed = re.search(r"numbers_of!\(self => ([^)]*)\)", impl)
        if listed:
            return listed[1].replace(" ", "").split(",")
        return re.findall(r"u64::from\(\w+\.(\w+)\)", re.search(r"fn numbers\(&self\) (.*?) fn ", impl)[1])

    def entry(self, struct, count, size):
        """Returns the fields of the entry `struct`, each with its width in bits, from its impls: the one in code, and
        the one for the prover."""
        impl = re.search(rf"impl EntryLayout<{count}, {size}> for {struct} \{{(.*?)(?= impl |$)", self.source)
        if not impl:
            raise Differs(f"{self.code}: {struct} has no EntryLayout<{count}, {size}>")
        constants = dict(re.findall(r"const (\w+): \[u8; \d+\] = \[([^]]*)\]", self.source))
        widths, others = (
            [int(it) for it in constants[re.search(where, impl[1])[1]].split(",") if it.strip()]
            for where in (r"fn widths\(\) -> \[u8; \w+\] \{ (\w+) \}", r"packed \(fields_of (\w+)\)"))
        names = self.numbers_of(impl[1])
        if not widths == others or names != list(self.flat_fields_of(struct)) or len(names) != len(widths):
            raise Differs(f"{self.code}: {struct} has {names} of {widths} bits, for the prover {others}")
        if sum(widths) != 8 * int(size):
            raise Differs(f"{self.code}: {struct} has {sum(widths)} bits in {size} bytes")
        return f"{size}: " + ", ".join(f"{name} {width}" for name, width in zip(names, widths))

    def parts(self):
        """Returns the parts of the box, in the words of the table."""
        return self.all_parts(self.shape, self.fields)

    def parts_of_entry(self, struct):
        """Returns the parts of the entry `struct`, which has a shape."""
        shape = re.search(rf"impl DeclaredEntry for {struct} .*? type Shape = (\w+);", self.source)[1]
        return self.all_parts(self.types[shape], self.fields_of(struct))

    def all_parts(self, shape, fields):
        """Returns the parts of `shape`, each of which is one of `fields`, the fields of a struct."""
        fields = iter(fields)
        found = list(self.parts_of(shape, fields))
        left = list(fields)
        if left:
            raise Differs(f"{self.code}: the shape has no part for {left}")
        return found

    def parts_of(self, shape, fields):
        name, inside = shape
        if name in self.types:
            yield from self.parts_of(self.types[name], fields)
        elif name in ("", "Last"):
            for part in inside:
                yield from self.parts_of(part, fields)
        elif name == "Full":
            version, flags = next(fields, None), next(fields, None)
            if (version, flags) != ("version", "flags"):
                raise Differs(f"{self.code}: version and flags are {version} and {flags}")
            yield VERSIONS[int(inside[0][0])]
            yield "flags"
            yield from self.parts_of(inside[1], fields)
        elif name == "Reserved":
            yield f"reserved ({inside[0][0]})"
            yield from self.parts_of(inside[1], fields)
        elif name == "WithSize":
            yield "size (4)"
            yield from self.parts_of(inside[0], fields)
        elif name == "Tagged":
            tag = re.search(rf"impl DescriptorTag for {inside[0][0]} .*? const TAG: u8 = (\d+);", self.source)[1]
            yield f"tag {tag}"
            yield from self.parts_of(("Expandable", inside[1:]), fields)
        elif name == "Expandable":
            yield f"{next(fields, None)} (of a size in 1 to 4)"
            yield from self.parts_of(inside[0], fields)
        elif name == "Dependent":
            bits, entry, *widths = inside
            yield f"{next(fields, None)} ({self.entry(bits[0], *(it[0] for it in widths))})"
            yield from self.parts_of(entry, fields)
        elif name == "Zeros":
            if inside[0][0] != "0":
                yield f"reserved ({inside[0][0]})"
        else:
            field = next(fields, None)
            yield f"{field} ({self.held(shape)})"

    def held(self, shape):
        """Returns the words for the field with the shape `shape`."""
        name, inside = shape
        names = [it[0] for it in inside]
        if name in self.types:
            return self.held(self.types[name])
        if name in FIELDS and not inside:
            return FIELDS[name]
        if name == "ItemId":
            return f"2 before version {names[0]}, else 4"
        if name == "Array":
            return f"{names[0]} bytes"
        if name == "Bits":
            return self.entry(*names)
        if name == "List":
            return f"count {NUMBERS[names[0]]}; each {self.entry(*names[1:])}"
        if name == "ListByVersion":
            count, entry, numbers, *widths = names
            return "; else ".join(f"count {NUMBERS[count]}; each {self.entry(entry, numbers, it)}" for it in widths)
        if name == "ToEnd":
            return f"to the end; each {self.entry(*names)}"
        if name == "Each":
            return f"count {NUMBERS[names[0]]}; each: {', '.join(self.parts_of_entry(names[1]))}"
        if name == "Counted":
            return f"counted before; each: {', '.join(self.parts_of_entry(names[0]))}"
        if name == "Nested":
            return ", ".join(self.parts_of_entry(names[0]))
        if name == "AvcTail":
            known, least = re.search(
                r"if has_format\(context\.version\) && (\d+) <= left { .*? read_after::<Nested<(\w+)>>",
                self.source).groups()[::-1]
            parts = ", ".join(self.parts_of_entry(known))
            return f"{parts}; by profile, if {least} bytes are left, else to the end"
        if name == "EachToEnd":
            return f"to the end; each: {', '.join(self.parts_of_entry(names[0]))}"
        if name == "Rows":
            return f"count {NUMBERS[names[0]]}; each {names[1]} bytes"
        if name == "Bytes":
            return f"count {self.width(names[0])}; each 1"
        if name == "If":
            return f"{self.held(inside[1])}; {self.condition(inside[0])}"
        if name == "OrZeros":
            return f"{self.held(inside[1])}; {self.condition(inside[0])}, else reserved ({names[2]})"
        if name == "Typed":
            tag = re.search(rf"impl Tag for {names[0]} .*? const TAG: u32 = (\w+);", self.source)[1]
            return f"code; {tag.lower()}: {self.held(inside[1])}; else {self.held(inside[2])}"
        raise Differs(f"{self.code}: no words for the shape {name}")

    def width(self, count):
        """Returns the number of bytes of the count `count`."""
        own = re.search(rf"impl Count for {count} \{{.*? const WIDTH: usize = (\d+);", self.source)
        return own[1] if own else NUMBERS[count]

    def condition(self, shape):
        name, inside = shape
        if name == "VersionZero":
            return "version 0"
        words = {"FromVersion": "from version", "IfFlags": "flag", "WithoutFlags": "without flag"}
        return f"{words[name]} {inside[0][0]}"


def is_held(path):
    """Returns whether a file declares a box that an `ExtraBox` holds."""
    declared = re.search(r"impl DeclaredBox for (\w+)", read(path))
    enums = glob.glob(os.path.join(TOP, "crates/mp4_extra_*/src/*_box.rt"))
    return declared and any(re.search(rf"\b{declared[1]} \w+Box\b", read(enum)) for enum in enums)


def declarations():
    """Returns the declarations of the boxes that an `ExtraBox` holds."""
    found = sorted(glob.glob(os.path.join(TOP, SOURCES)), key=os.path.basename)
    paths = [os.path.relpath(path, TOP) for path in found]
    return [Declared(path) for path in paths if is_held(path)]


def table():
    """Returns the rows of the table, by code: the section and the parts."""
    return {code: (section, apart(parts)) for code, section, parts in ROW.findall(re.sub(r"\n  +", " ", read(PAGE)))}


def different(box, section, said):
    """Returns how a row of the table differs from the declaration of `box`, or None if it doesn't."""
    try:
        parts = box.parts()
    except Differs as fault:
        return str(fault)
    if not said:
        return f"{box.code}: the table has no row of {', '.join(parts)}"
    if not box.is_of_section(section):
        return f"{box.code}: the table has {section}, and the struct {box.section}"
    for at in range(max(len(parts), len(said))):
        one, other = (it[at] if at < len(it) else "nothing" for it in (parts, said))
        if one != other:
            return f"{box.code}: declared is `{one}`, and the table has `{other}`"
    return None


def compare_declarations(show):
    """Compares the table with the declarations. Returns the number of compared parts, and the differences."""
    rows, boxes = table(), declarations()
    found = [different(box, *rows.get(box.code, ("", []))) for box in boxes]
    count = sum(len(rows[box.code][1]) for box, fault in zip(boxes, found) if not fault)
    if show:
        for box, fault in zip(boxes, found):
            print("" if fault else "\n".join(f"{box.code}: {part}" for part in box.parts()))
    extra = rows.keys() - {box.code for box in boxes}
    return count, [fault for fault in found if fault] + [f"{code}: no box is declared" for code in extra]


def planted(parts):
    """Yields wrong copies of a row: for each of `parts` and each way to change it, the name of the way and the changed
    parts."""
    for at, part in enumerate(parts):
        before, after = parts[:at], parts[at + 1:]
        for number in re.finditer(r"\b\d+\b", part):
            wider = f"{part[:number.start()]}{int(number[0]) + 1}{part[number.end():]}"
            yield "width", [*before, wider, *after]
        for name in re.finditer(r"\b[a-z]\w+\b", part):
            yield "name", [*before, f"{part[:name.start()]}another{part[name.end():]}", *after]
        inside = re.search(r"(\w+ \d+), (\w+ \d+)", part)
        if inside and inside[1] != inside[2]:
            yield "order", [*before, part.replace(inside[0], f"{inside[2]}, {inside[1]}"), *after]
        if inside:
            yield "missing", [*before, part.replace(inside[0], inside[2]), *after]
            yield "extra", [*before, part.replace(inside[0], f"{inside[0]}, another 1"), *after]
        if after and after[0] != part:
            yield "order", [*before, after[0], part, *after[1:]]
        yield "missing", before + after
        yield "extra", [*before, part, "another (4)", *after]


def try_planted():
    """Plants each wrong row. Returns their number for each way, and those that no comparison catches."""
    rows, kinds, untold = table(), collections.Counter(), []
    for box in declarations():
        section, said = rows[box.code]
        for kind, parts in planted(said):
            kinds[kind] += 1
            if different(box, section, parts) is None:
                untold.append(f"{box.code}, {kind}: {', '.join(parts)}")
        for other in (f"{section}.1", f"ISO/IEC 1, {section}"):
            kinds["section"] += 1
            if different(box, other, said) is None:
                untold.append(f"{box.code}: {other}")
    return kinds, untold
