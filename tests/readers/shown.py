"""Reads the texts that the program test_probe prints: values, faults, positions, and written bytes."""

import os
import re
import subprocess

from tests.built import TOP
from tests.readers.extra import MORE

WORD = re.compile(r"-?\w+")
CODE = re.compile(r"(.{1,4}?) / 0x([0-9A-F]{8})", re.S)
NUMBERS = re.compile(r"(\d+(?:, \d+)*)[\])]")
STRING = re.compile(r'"((?:[^"\\]|\\.)*)"', re.S)
ESCAPE = re.compile(r"\\(?:u\{(\w+)\}|(.))")
LETTERS = {"0": "\0", "n": "\n", "r": "\r", "t": "\t"}
FAULTS = {"InvalidData": "Invalid", "BoxNotFound": "NotFound"}
CODES = {
    "major_brand", "compatible_brands", "handler_type", "data_format", "grouping_type", "scheme_type", "aux_info_type",
    "reference_type", "namespace", "item_type", "component_type", "component_manufacturer",
}
# Fields with the same names that are not codes: a number, and a string.
NO_CODES = {("SidxEntry", "reference_type"), ("Stpp", "namespace")}
# The number of texts that are printed for an input.
TEXTS = 14


def names():
    """Returns the names of the box structs with their codes, from docs/LAYOUT.md."""
    with open(os.path.join(TOP, "docs/LAYOUT.md"), encoding="utf-8") as layout:
        section = layout.read().split("\n## Codes\n")[1].split("\n```text\n")[1].split("\n```")[0]
    codes = re.findall(r"\b\w{4}\b|url (?=\")", re.sub(r"^.*?  +", "", section, flags=re.M))
    return {("Vpcc" if it == "vpcC" else it[0].upper() + it[1:].strip()) + "Box": it for it in codes}


NAMES = names()
DECLARED = {name.lower().strip() for name in MORE}


class Printed:
    """A text that `Debug` printed, read from its front. Structs are dictionaries, and lists and tuples are lists."""

    def __init__(self, text):
        self.text, self.at = text, 0

    def take(self, piece):
        if self.text.startswith(piece, self.at):
            self.at += len(piece)
            return True
        return False

    def match(self, pattern):
        found = pattern.match(self.text, self.at)
        if found is None:
            raise ValueError(f"unexpected at {self.at}: {self.text}")
        self.at = found.end()
        return found

    def values(self, end):
        numbers = NUMBERS.match(self.text, self.at)
        if numbers:
            self.at = numbers.end()
            return [int(it) for it in numbers[1].split(", ")]
        found = []
        while not self.take(end):
            found.append(self.value())
            self.take(", ")
        return found

    def value(self):
        if self.take("["):
            return self.values("]")
        if self.take("("):
            return self.values(")")
        if self.text[self.at] == '"':
            return ESCAPE.sub(unescaped, self.match(STRING)[1])
        if self.take("Checked { declared: "):
            found = self.value()
            self.take(" }")
            return found
        if self.take("Declared { fields: "):
            name = self.match(WORD)[0]
            self.take(" { ")
            fields = self.fields(name)
            self.take(" }")
            return name.lower(), fields
        if self.take("DeclaredContainer { fields: "):
            name, fields = self.value()
            self.take(", boxes: ")
            boxes = [named(it) for it in self.value()]
            self.take(" }")
            return name, {**fields, "boxes": boxes}
        word = self.match(WORD)[0]
        if self.take("("):
            inner = self.values(")")
            return inner[0] if word in ("Ok", "Some") else (word, *inner)
        if self.take(" { "):
            return self.fields(word)
        if word.lstrip("-").isdigit():
            return int(word)
        return {"None": None, "true": True, "false": False, "SLConfigDescriptor": {}}.get(word, word)

    def fields(self, word):
        found = {}
        while not self.take(" }"):
            name = self.match(WORD)[0]
            self.take(": ")
            if name in CODES and (word, name) not in NO_CODES:
                found[name] = self.codes() if name == "compatible_brands" else self.code_or_none()
            else:
                found[name] = self.value()
            self.take(", ")
        return found["raw"] if word == "FixedPoint" else found

    def codes(self):
        self.take("[")
        found = []
        while CODE.match(self.text, self.at):
            found.append(self.code())
            self.take(", ")
        self.take("]")
        return found

    def code_or_none(self):
        if self.take("None"):
            return None
        if not self.take("Some("):
            return self.code()
        found = self.code()
        self.take(")")
        return found

    def code(self):
        text, number = self.match(CODE).groups()
        number = int(number, 16)
        if text != number.to_bytes(4, "big").decode("utf-8", "replace"):
            raise ValueError(f"the code {number:#x} is printed as {text!r}")
        return number


def unescaped(found):
    return chr(int(found[1], 16)) if found[1] else LETTERS.get(found[2], found[2])


def named(box):
    """Returns `box` with its code as its name, in small letters for a declared box. A kept box with no type of its own
    has the name `other`."""
    if box is None:
        return None
    if box[0] in ("First", "Second"):
        box = box[1]
    if box[0] == "Other":
        return "other", box[1]
    name, fields = box[1] if isinstance(box[1], tuple) else box
    return NAMES.get(name, name), fields


def fault_of(error):
    """Returns the fault in `error`: its kind, and its text or the code of the missing child."""
    return ("End",) if error == "IoError" else (FAULTS[error[0]], error[1])


def flat(value, path=""):
    """Yields the fields of `value`, a box, and the fields of its structs, each with its full path. None has no fields.
    The number before a value of another type has its own name. Bytes instead of a part are the rest of the box."""
    if isinstance(value, tuple):
        if value[0] in ("Own", "Known"):
            value = value[1]
        else:
            value = {path + "_type": value[1], "data_bytes": value[2]} if len(value) == 3 else {"rest": value[1]}
        path = ""
    if isinstance(value, dict):
        for name, inner in value.items():
            yield from flat(inner, f"{path}.{name}" if path else name)
    elif value is not None:
        yield path, value


def plain(fields):
    """Returns `fields`, those of a declared box, with their names in small letters. A name has those of its structs
    before it only where other fields have the same name. A list of entries with one field is a list of the fields."""
    found = list(flat(fields))
    own = [path.split(".")[-1] for path, _ in found]
    return {
        (name if own.count(name) == 1 else path).replace("_", "").replace(".", ""): entries_of(value)
        for name, (path, value) in zip(own, found)
    }


def entries_of(value):
    if not isinstance(value, list) or not value or not isinstance(value[0], dict):
        return value
    if len(value[0]) == 1:
        return [inner for entry in value for inner in entry.values()]
    return [plain(entry) for entry in value]


def plain_box(box):
    return (box[0], plain(box[1])) if box and box[0] in DECLARED else box


def plain_outcome_of(text):
    """Returns what `outcome_of` finds in `text`, with the fields of declared boxes in the form of `plain`."""
    found, position = outcome_of(text)
    return (list(map(plain_box, found)) if isinstance(found, list) else plain_box(found)), position


def outcome_of(text):
    """Returns the value or the fault in `text`, which the codec printed, and the position of the cursor."""
    text, position = text.rsplit(" ", 1)
    found = Printed(text).value()
    if isinstance(found, tuple) and found[0] == "Err":
        return fault_of(found[1]), int(position)
    return ([named(box) for box in found] if isinstance(found, list) else named(found)), int(position)


def written_of(text):
    """Returns the written bytes of the list, or the fault of writing it. Returns None if `text` is empty, since there
    is no list."""
    if not text:
        return None
    if text.startswith("Err"):
        return fault_of(Printed(text).value()[1])
    length, numbers = text.removeprefix("Ok(").removesuffix("]").split(") [")
    found = bytes(int(number) for number in numbers.split(", ") if number)
    if len(found) != int(length):
        raise ValueError(f"{len(found)} bytes were written, and the call returned {length}")
    return found


def counted_of(text):
    """Returns the result of `read_counted` with the cursor's position, and the number of headers. Returns None if the
    box isn't an `esds`."""
    if not text:
        return None
    text, position, headers = text.rsplit(" ", 2)
    found = Printed(text).value()
    found = fault_of(found[1]) if isinstance(found, tuple) else ("esds", found)
    return (found, int(position)), int(headers)


def text_of_places(found, position):
    """Returns the text that the program prints for boxes at the places `found`, or for the fault `found`, and for the
    position of the cursor."""
    if isinstance(found, tuple):
        text = "Err(IoError)" if found == ("End",) else f'Err(InvalidData("{found[1]}"))'
    else:
        text = ", ".join(f"BoxSpan {{ position: {at}, length: {length}, name: {code} }}" for at, length, code in found)
        text = f"Ok([{text}])"
    return f"{text} {position}"


def structure_of(text):
    """Returns the structure of trees. A container is the word of its line, its code, the number of bytes before its
    first box, and its boxes. Any other box is its word and its code."""
    lines = iter(text.splitlines())

    def box(line):
        kind, code, *numbers = line.split(" ")
        if not numbers:
            return kind, int(code, 16)
        fields, count = map(int, numbers)
        return kind, int(code, 16), fields, [box(next(lines, "")) for _ in range(count)]

    return [box(line) for line in lines]


def records(inputs):
    """Returns `inputs`, each a position and bytes, in the form that the program reads."""
    return b"".join(at.to_bytes(8, "big") + len(buffer).to_bytes(8, "big") + buffer for at, buffer in inputs)


def texts_of(out, count, each=TEXTS):
    """Returns the texts that the program prints for `count` inputs: `each` of them for an input."""
    texts, at = [], 0
    while at < len(out) and len(texts) < each * count:
        end = at + 8 + int.from_bytes(out[at:at + 8], "big")
        texts.append(out[at + 8:end].decode("utf-8"))
        at = end
    if len(texts) != each * count:
        raise ValueError(f"{len(texts)} texts for {count} inputs")
    return [texts[at:at + each] for at in range(0, len(texts), each)]


def shown(program, inputs):
    """Runs `program` with `inputs`, and returns the texts that it prints."""
    out = subprocess.run([program], input=records(inputs), stdout=subprocess.PIPE, check=True).stdout
    return texts_of(out, len(inputs))
