"""Computes what `mp4inspect diff` prints about two files a second time, from the trees of inspect.py: the objects of
`--json`, and the lines."""

import json

from tests.readers.inspect import code_text, tree, with_names

# The fields that are offsets into the file, by the code of their box (ISO/IEC 14496-12). The items of an `iloc` are
# shown as bytes.
OFFSETS = {"stco": "chunk_offset", "co64": "chunk_offset", "saio": "offset", "tfra": "moof_offset",
           "sidx": "first_offset", "tfhd": "base_data_offset", "iloc": "data_bytes"}
MEDIA = "mdat"
# Fields with an array as one value, and with an object as one value.
VALUES = {"compatible_brands", "default-text-box", "matrix"}
LISTED, SHOWN = 64, 60
MISSING = object()


def name_of(box):
    return "-" if box["type"] is None else code_text(box["type"])


def by_path(boxes, around=""):
    """Yields each box with its path, in the order of the file."""
    earlier = {}
    for box in boxes:
        index = earlier.get(box["type"], 0)
        earlier[box["type"]] = index + 1
        path = f"{around}/{name_of(box)}" if around else name_of(box)
        path += f"[{index}]" if index else ""
        yield path, around, box
        yield from by_path(box.get("children", []), path)


def without(value, name):
    """Returns `value` without all members `name`."""
    if isinstance(value, list):
        return [without(entry, name) for entry in value]
    if isinstance(value, dict):
        return {key: without(inner, name) for key, inner in value.items() if key != name}
    return value


def flat(fields, front=""):
    """Returns the fields and those in groups, each under the names of the groups and its own."""
    found = {}
    for name, value in fields.items():
        if isinstance(value, dict) and name not in VALUES:
            found.update(flat(value, f"{front}{name}."))
        else:
            found[front + name] = value
    return found


def rows(box, offsets):
    """Returns the fields of a box by name, or its fault as a field. Of offsets that are left aside only their number
    counts."""
    fields = {"fault": box["fault"]} if "fault" in box else box.get("fields", {})
    aside = None if offsets else OFFSETS.get(box["type"])
    if isinstance(fields.get(aside), list):
        fields = {**fields, aside: [None] * len(fields[aside])}
    else:
        fields = without(fields, aside)
    return flat(fields)


def is_list(name, value):
    return isinstance(value, list) and name.split(".")[-1] not in VALUES


def shown(value):
    """Returns a value or an entry as the JSON has it."""
    return None if value is MISSING else with_names(value) if isinstance(value, (dict, list)) else value


def field(path, name, first, second):
    """Returns the difference of the field `name`, which a box may lack."""
    if not is_list(name, second if first is MISSING else first):
        return {"path": path, "kind": "field", "field": name, "first": shown(first), "second": shown(second)}
    sides = [[] if it is MISSING else it for it in (first, second)]
    at = 0
    if MISSING not in (first, second):
        at = next((index for index, (one, two) in enumerate(zip(*sides)) if one != two), min(map(len, sides)))
    one, two = (shown(side[at]) if at < len(side) else None for side in sides)
    counts = [None if it is MISSING else len(it) for it in (first, second)]
    return {"path": path, "kind": "list", "field": name, "index": at, "first_count": counts[0],
            "second_count": counts[1], "first": one, "second": two}


def content(data, box, whole):
    start = box["position"] + (0 if whole else box["header"])
    return data[start:box["position"] + box["length"]]


def is_headed(box):
    """Returns whether a box begins with a whole header that says where it ends."""
    return not (box.get("cut") and box["header"] == box["length"])


def pair(path, first, second, files, offsets):
    """Yields the differences of two boxes with the same path."""
    here, there = rows(first, offsets), rows(second, offsets)
    any_ = False
    for name in [*here, *(it for it in there if it not in here)]:
        one, two = here.get(name, MISSING), there.get(name, MISSING)
        if MISSING in (one, two) or one != two:
            any_ = True
            yield field(path, name, one, two)
    media = first["type"] == MEDIA
    sizes = [box["length"] - box["header"] for box in (first, second)]
    if media and sizes[0] != sizes[1]:
        yield {"path": path, "kind": "length", "first_length": sizes[0], "second_length": sizes[1]}
    entered = "children" in first and "children" in second
    if any_ or media or entered or not offsets and first["type"] in OFFSETS:
        return
    whole = not (is_headed(first) and is_headed(second))
    one, two = content(files[0], first, whole), content(files[1], second, whole)
    if whole:
        sizes = [first["length"], second["length"]]
    if one != two or sizes[0] != sizes[1]:
        at = next((index for index, (x, y) in enumerate(zip(one, two)) if x != y), min(len(one), len(two)))
        yield {"path": path, "kind": "content", "at": at, "first_length": sizes[0], "second_length": sizes[1]}


def order(path, first, second, here, there):
    """Yields the difference of the orders of the boxes `first` and `second` inside the boxes at `path`."""
    places = {place: index for index, (place, around, _) in enumerate(there) if around == path}
    partners = [places[place] for place, around, _ in here if around == path and place in places]
    if partners != sorted(partners):
        yield {"path": path, "kind": "order", "first": [box["type"] for box in first][:LISTED],
               "second": [box["type"] for box in second][:LISTED]}


def differences(one, two, offsets=False):
    """Returns the differences of two files, as the JSON has them."""
    files, trees = (one, two), (tree(one), tree(two))
    here, there = (list(by_path(it)) for it in trees)
    firsts, seconds = ({path: box for path, _, box in it} for it in (here, there))
    found = []
    for path, around, box in here:
        if path in seconds:
            found += pair(path, box, seconds[path], files, offsets)
        elif not around or around in seconds:
            found.append({"path": path, "kind": "only_first"})
    for path, around, _ in there:
        if path not in firsts and (not around or around in firsts):
            found.append({"path": path, "kind": "only_second"})
    found += order("", *trees, here, there)
    for path, _, box in here:
        if path in seconds and box.get("children") and seconds[path].get("children"):
            found += order(path, box["children"], seconds[path]["children"], here, there)
    return found


def short(value):
    """Returns a value as a line has it, from its JSON text."""
    if value is None:
        return "-"
    text = value if isinstance(value, str) else json.dumps(value)
    return text if len(text) <= SHOWN else text[:SHOWN] + ".."
