"""Compares the tables of docs/LAYOUT.md with the definitions in specs/. It fails if an offset or a number of bytes
differs.

A table is a block of text, with two spaces or more between its cells. A row has the offset and the number of bytes of a
field, like `FIELD (WIDTH bytes at OFFSET)` in a sentence. Version and flags of a full box are compared too, although no
table has them. In a definition, a field that is read is `at OFFSET WIDTH` under the field's name. A field that is
written is a pair `(WIDTH, ..)` of a list, in the order of the bytes. The offsets of both are worked out for times of 4
bytes and, where a table has a second version, of 8. For the counted tables the entries are compared.

The boxes of mp4_extra are declared, and each has a line in a list of crates/mp4_extra/CALLING.md. The parts of the line
are compared with those of the declaration, in their order (declarations.py).

Wrong rows of the boxes of mp4_extra are tried too, each of which has to differ: a width, a name, two parts in the other
order, one left out, one more, another section.

With TEST_SHOW=1 each field that was compared is printed."""

import os
import re
import unittest

from tests.built import TOP
from tests.repository.declarations import Differs, compare_declarations, read, try_planted

# The files of the fields of a box, if these are not only in the file of its name.
FILES = {"avc1": ["Visual"], "hev1": ["Visual"]}
# The lists of written fields whose names differ from that of the box.
WRITTEN = {"avc1": "fields_visual", "hev1": "fields_visual"}
# Rows whose bytes are not in a list of fields: strings, lists, children, and the gaps that need not be present.
NOT_READ = re.compile(r"(reserved|pre_defined)( \(|$)|gap|entry_count|numOf\w+")
ENTRIES = {"stco": 4, "co64": 8, "stss": 4}
# The offset of the numbers of an `emsg` of version 1.
FIRST_NUMBER = 12
# The sentence about the front of each full box.
VERSION_AND_FLAGS = "version (1 byte at 8) and flags (3 bytes at 9), which begin every full box"
# Sections that have no table of offsets.
WITHOUT_OFFSETS = [["dinf"], ["hvcC", "hev1"]]
# Boxes with fields that are present if a flag is set, and whose flags are read before the value.
FLAGGED = {"tfhd": [(9, 3)], "trun": [(9, 3)]}


def check(condition, text):
    if not condition:
        raise Differs(text)


def text_of(path):
    """Returns the text of the file of definitions at `path`, without comments and imports, on one line."""
    lines = [it.split("--")[0] for it in read(path).splitlines() if not it.startswith("use ")]
    return re.sub(r"\s+", " ", " ".join(lines))


def definitions(box):
    """Returns the text of the definitions of the box `box`."""
    names = [*FILES.get(box, []), box.strip().capitalize()]
    found = []
    for crate in sorted(os.listdir(os.path.join(TOP, "crates"))):
        for name in names:
            path = os.path.join("crates", crate, "specs", f"{name}.antt")
            if crate.startswith("mp4_") and crate != "mp4_c_boxes" and os.path.isfile(os.path.join(TOP, path)):
                found.append(text_of(path))
    check(found, f"{box}: no definition")
    text = " ".join(found)
    return text[text.index("value_emsg_1") :] if box == "emsg" else text


def number(text, t):
    """Returns the value of an offset or a width, for times of `t` bytes, or None if it is not a number."""
    text = re.sub(r"time_width (v\.version|long)", "t", text.strip())
    return eval(text, {}, {"t": t, "w": t}) if re.fullmatch(r"[\dtw+*() ]+", text) else None


def fields_read(text, t):
    """Returns the places at which the fields are read: by name, the pairs of offset and width in order."""
    found = {}
    term = r"(\d+|[tw]|\([\dtw+* ]+\))"
    flag = r"number_if at \(is_set flags \w+\) (\d+) (\d+)"
    for place in re.finditer(rf"matrix_at at {term}|\b(at|bytes|numbers) {term} (\d+|t|w)\b|{flag}", text):
        name = re.findall(r"(\w+) (?:=|←) ", text[: place.start()])[-1]
        matrix, function, offset, width, flagged, flagged_width = place.groups()
        pair = (number(matrix or offset or flagged, t), 36 if matrix else number(width or flagged_width, t))
        if function == "numbers":
            pair = (pair[0] + FIRST_NUMBER, pair[1])
        if pair not in found.setdefault(name, []):
            found[name].append(pair)
    return found


def fields_written(text, name, t):
    """Returns the places at which the fields of the list `name` are written, starting at the front of the box: pairs of
    offset and width in order."""
    found = re.search(rf"\b{name}\b[^=]*? (?:\w+ )*= (.*?)(?= (?:abbrev|unfoldable|pub record|record)\b|$)", text)
    check(found, f"no list {name}")
    body = found[1]
    for part, into in re.findall(r"\b((?:start|content)_\w+) (?:v(?:\.\w+)? ?)+()", body):
        inner = re.search(rf"abbrev pub {part} [^=]*= (.*?)(?= abbrev|$)", text)
        body = body.replace(part, inner[1] if inner else part)
    at, pairs = 0, []
    item = r"full_box|fields_matrix|fields_box_record|field_of_array (\d+)|\(([\dt]+|time_width (?:v\.version|long)), "
    for place in re.finditer(item, body):
        whole = place[0]
        widths = {"full_box": [4, 4, 1, 3], "fields_matrix": [36], "fields_box_record": [2, 2, 2, 2]}.get(whole)
        for width in widths or [number(place[1] or place[2], t)]:
            pairs.append((at, width))
            at += width
    return pairs


def rows_of(section):
    """Yields the rows of the tables of `section`: offsets by version, widths, the text of the field, and its
    meaning."""
    head = None
    for line in section.splitlines():
        cells = re.split(r"\s{2,}", line.strip(), maxsplit=len(head) - 1 if head else 0)
        if line.startswith("```"):
            head = None
        elif cells[-1] == "field" and cells[0] in ("at", "v0"):
            head = cells
        elif head:
            field, rest = re.fullmatch(r"((?:\[[^\]]*\]|[^:\[])*)(.*)", cells[-1]).groups()
            yield cells[:-2], cells[-2], field, rest


def all_rows_of(boxes, section):
    """Yields the rows of `section`: version and flags of a full box, those of its tables, and those in sentences."""
    rows = list(rows_of(section))
    if not re.search(r"\b[Nn]ot (a )?full box", section) and not (rows and rows[0][0][0] == "8"):
        yield ["8"], "4", "F", ""
    yield from rows
    if len(boxes) == 1:
        for field, width, at in re.findall(r"(\w+) \((\d+)\s+bytes?\s+at\s+(\d+)\)", section):
            yield [at], width, field, ""


def names_of(field):
    """Returns the names of a field in the struct, or the names of its parts if it has several."""
    inside = re.search(r"\[([^\]]+)\]", field)
    name = inside[1] if inside else re.split(r"[ ,(]", field)[0]
    if ":" in name:
        return [it.strip() for it in name.split(":")[1].split(",")]
    return [name.split(",")[0].strip()] if "," not in name else [it.strip() for it in name.split(",")]


def compare_row(box, at, widths, field, found, written, is_listed, show):
    """Compares a row with the fields that are read, `found`, and those that are written."""
    expected, end = [], at
    for width in widths:
        expected.append((end, width))
        end += width
    if field == "F":
        check((8, 1) in sum(found.values(), []), f"{box}: the version is read elsewhere: {found}")
        check((9, 3) in [*sum(found.values(), []), *FLAGGED.get(box, [])], f"{box}: flags are read elsewhere: {found}")
    elif not NOT_READ.match(field):
        names = names_of(field)
        pairs = [pair for name in names for pair in found.get(name, [])]
        check(pairs == expected, f"{box}: {field} is read at {pairs}, and the table has {expected}")
    if is_listed:
        total = sum(widths)
        inside = [pair for pair in written if at <= pair[0] < at + total]
        check(
            sum(width for _, width in inside) == total and inside[0][0] == at,
            f"{box}: {field} is written at {inside}, and the table has {at} and {total} bytes",
        )
    if show:
        print(f"{box}: {field} at {at}, {widths}")


def compare_section(boxes, section, show):
    """Compares the tables of `section` with the definitions of its boxes. Returns the number of compared rows."""
    count = 0
    for box in boxes:
        text = definitions(box)
        for t in (4, 8):
            found = fields_read(text, t)
            written = fields_written(text, WRITTEN.get(box, f"fields_{box.strip().lower()}"), t)
            for versions, width, field, rest in all_rows_of(boxes, section):
                version = versions[-1] if t == 8 else versions[0]
                widths = [number(it, t) for it in width.split(",")]
                if not version.isdigit() or None in widths:
                    continue
                if len(boxes) > 1 and f"({box})" in field:
                    field = next(it for it in field.split(", ") if f"({box})" in it)
                is_listed = not field.startswith("numOf") and not (box in FLAGGED and "0x" in rest) and box != "emsg"
                compare_row(box, int(version), widths, field, found, written, is_listed, show)
                count += 1
    return count


def compare_entries(section, show):
    """Compares the entries of the counted tables. Returns the number of compared fields."""
    count = 0
    for box, of, entry in re.findall(r"^(\w{4})  [\d.]+ +(\d+(?:; \d+)?)  +(.+)$", section, re.M):
        fields = re.findall(r"(\w+)(?: \[(\w+)\])? \((\d+)(?:; (\d+))?", entry)
        for t in (4, 8):
            expected, at = [], 0
            for name, inside, width, other in fields:
                wide = int(width) if t == 8 or not other else int(other)
                expected.append((inside or name, at, wide))
                at += wide
            lengths = [int(it) for it in of.split("; ")]
            check(at in lengths, f"{box}: entries have {at} bytes, and the table has {of}")
            if box in ENTRIES:
                check(at == ENTRIES[box], f"{box}: entries have {ENTRIES[box]} bytes, and the table has {at}")
                check(re.search(rf"{at}\b", definitions(box)), f"{box}: no entry of {at} bytes is defined")
            else:
                found = fields_read(text_of(f"crates/mp4_tables/specs/{box.capitalize()}Entry.antt"), t)
                for name, offset, wide in expected:
                    check(found.get(name) == [(offset, wide)], f"{box}: {name} is read at {found.get(name)}")
                    count += 1
                    if show:
                        print(f"{box}: {name} at {offset} of an entry, {wide}")
    return count


class Layout(unittest.TestCase):
    def test_version_and_flags(self):
        self.assertIn(VERSION_AND_FLAGS, re.sub(r"\s+", " ", TEXT))

    def test_entries_of_the_counted_tables(self):
        [section] = [it for it in SECTIONS if it.startswith("## Tables\n")]
        self.assertTrue(compare_entries(section, SHOW), "nothing was compared")

    def test_declared_boxes(self):
        count, faults = compare_declarations(SHOW)
        self.assertEqual(faults, [])
        self.assertTrue(count, "nothing was compared")

    def test_wrong_rows_of_declared_boxes(self):
        kinds, untold = try_planted()
        self.assertEqual(untold, [])
        self.assertEqual(set(kinds), {"width", "name", "order", "missing", "extra", "section"})

    def section(self, boxes, section):
        count = compare_section(boxes, section, SHOW)
        self.assertEqual(count > 0, boxes not in WITHOUT_OFFSETS, f"{count} offsets were compared")


def test_of(boxes, section):
    return lambda self: self.section(boxes, section)


TEXT, SHOW = read("docs/LAYOUT.md"), bool(os.environ.get("TEST_SHOW"))
SECTIONS = re.split(r"^(?=##+ )", TEXT, flags=re.M)
for one in SECTIONS:
    codes = re.findall(r"`([\w ]{4})`, ", one.split("\n", 1)[0])
    if one.startswith("### ") and codes:
        setattr(Layout, f"test_{'_'.join(codes).strip()}", test_of(codes, one))

if __name__ == "__main__":
    unittest.main()
