"""The parts that the tests of mp4inspect share: the files that it reads, these files with damage, the names of boxes,
and the check of its JSON against docs/inspect.schema.json."""

import json
import os
import re

from tests.built import TOP
from tests.files.made import made
from tests.files.stored import FILES, stored, stored_names

SIZES = [0, 1, 2, 7, 8, 9, 12, 15, 16, 17, 24, 100, 2**31, 2**32 - 1]
TYPES = {"object": dict, "array": list, "string": str, "boolean": bool, "null": type(None)}


def files():
    """Returns the stored files and the files that are made by hand, by name."""
    found = {name: stored(name) for name in stored_names()}
    found.update(made())
    return found


def text_of_tree(name):
    """Returns the stored text of the tree of the file `name`."""
    with open(os.path.join(FILES, name + ".txt"), encoding="utf-8") as file:
        return file.read()


def called():
    """Returns the names of boxes, from the table of mp4_walk."""
    with open(os.path.join(TOP, "crates/mp4_walk/src/name.rt"), encoding="utf-8") as file:
        text = file.read()
    names = {}
    for code, name in re.findall(r'\(\*b"((?:[^"\\]|\\.)*)", "([^"]*)"\)', text):
        names[code.encode("latin-1").decode("unicode_escape")] = name
    return names


def schema(name):
    with open(os.path.join(TOP, f"docs/{name}.schema.json"), encoding="utf-8") as file:
        return json.load(file)


def load(text):
    """Returns the value of the JSON text `text`, in which no object has a key twice."""
    def unique(pairs):
        found = dict(pairs)
        if len(found) != len(pairs):
            raise ValueError(f"a key comes twice in {pairs}")
        return found
    return json.loads(text, object_pairs_hook=unique)


def is_type(value, name):
    if name == "integer":
        return isinstance(value, int) and not isinstance(value, bool)
    if name == "number":
        return isinstance(value, (int, float)) and not isinstance(value, bool)
    return isinstance(value, TYPES[name])


def fits(value, schema, root):
    """Returns whether `value` fits `schema`."""
    try:
        check_schema(value, schema, root)
    except (StopIteration, ValueError):
        return False
    return True


def check_schema(value, schema, root, path="$"):
    """Raises ValueError unless `value` fits `schema`. It knows only those parts of schemas that
    docs/inspect.schema.json uses."""
    while "$ref" in schema:
        schema = root["$defs"][schema["$ref"].removeprefix("#/$defs/")]
    if "anyOf" in schema:
        schema = next(it for it in schema["anyOf"] if fits(value, it, root))
    wanted = schema.get("type", [])
    wanted = [wanted] if isinstance(wanted, str) else wanted
    if wanted and not any(is_type(value, name) for name in wanted):
        raise ValueError(f"{path}: {value!r} is not {wanted}")
    if isinstance(value, str) and not re.search(schema.get("pattern", ""), value, re.S):
        raise ValueError(f"{path}: {value!r} is not of {schema['pattern']}")
    if isinstance(value, int) and value < schema.get("minimum", value):
        raise ValueError(f"{path}: {value} is less than {schema['minimum']}")
    if isinstance(value, list) and "items" in schema:
        for index, item in enumerate(value):
            check_schema(item, schema["items"], root, f"{path}[{index}]")
    if isinstance(value, dict):
        known = schema.get("properties", {})
        for name in schema.get("required", []):
            if name not in value:
                raise ValueError(f"{path}: {name} is missing")
        for name, member in value.items():
            inner = known.get(name, schema.get("additionalProperties", True))
            if inner is False:
                raise ValueError(f"{path}: {name} is not in the schema")
            if inner is not True:
                check_schema(member, inner, root, f"{path}.{name}")


def damaged(random_, data):
    """Returns the file `data` with some damage: bytes and sizes set, pieces left out, put in and moved."""
    data = bytearray(data)
    for _ in range(random_.choice([1, 1, 1, 2, 3, 8])):
        kind, at = random_.randrange(5), random_.randrange(len(data))
        length = random_.choice([1, 2, 4, 8, 16, 40])
        if kind == 0:
            data[at] = random_.choice([0, 1, 0x20, 0x7F, 0x80, 0xFF, random_.randrange(256)])
        elif kind == 1:
            headers = [found.start() for found in re.finditer(rb"(?=....[a-z]{3}[a-zA-Z0-9 ])", bytes(data), re.S)]
            at = random_.choice(headers or [0])
            data[at:at + 4] = random_.choice(SIZES).to_bytes(4, "big")
        elif kind == 2:
            del data[at:at + length]
        elif kind == 3:
            data[at:at] = random_.randbytes(length)
        else:
            piece = data[at:at + length]
            to = random_.randrange(len(data))
            data[to:to + length] = piece
        if not data:
            return b"\0"
    return bytes(data)
