"""The part of the slow reader for trees of boxes. It follows crates/mp4_box_tree/CALLING.md."""

from tests.readers.extra import MORE
from tests.readers.fronts import bytes_before_in_tree
from tests.readers.headers import Fault, headers
from tests.readers.readers import outcome

# The number of levels of containers in a `BoxTree`.
DEPTH = 9


def tree(name, box, depth):
    """Returns the structure of `box`, which has the name `name` and a header of 8 bytes. A container gives `container`,
    its code, the number of bytes before its first box, and its boxes. Any other box gives a word and its code: `extra`
    for a box of mp4_extra, `other` for an unknown type, and `raw` for a box that is kept as its bytes. A box of the
    codec is `codec` or `raw`, but the slow reader doesn't know the bytes that the codec writes for it. So such a box is
    `unsure`, with its bytes."""
    code = int.from_bytes(box[4:8], "big")
    raw = "raw", code
    front = bytes_before_in_tree(box[4:8], box[8:]) if depth else None
    if front is not None:
        if len(box) < 8 + front:
            return raw
        try:
            inner = list(headers(box, 8 + front))
        except Fault:
            return raw
        if not all(it.is_short for it in inner):
            return raw
        boxes = [tree(it.name, box[it.start:it.start + it.size], depth - 1) for it in inner]
        return "container", code, front, boxes
    found = outcome(box, name, 0, len(box), True)
    if isinstance(found, Fault):
        return raw
    if found[0] == "other":
        return "other", code
    if name in MORE:
        return ("extra", code) if found[1].written == box else raw
    return "unsure", code, box


def read_trees(buffer, position):
    """Reads the boxes that begin at `position` as trees. Returns their structure, or the first fault. Also returns the
    position of the cursor after the call."""
    try:
        found = list(headers(buffer, position))
    except Fault as fault:
        return fault, position
    trees = [tree(it.name, short_box(buffer, it), DEPTH) for it in found]
    return trees, max(position, len(buffer))


def fits(trees, found):
    """Returns whether the structure `found`, from the codec, is that of `trees`, where a box that is `unsure` may be
    `codec` or `raw`."""
    return len(trees) == len(found) and all(map(box_fits, trees, found))


def box_fits(box, found):
    if box[0] == "unsure":
        return found in (("codec", box[1]), ("raw", box[1]))
    if box[0] == "container":
        return box[:3] == found[:3] and len(found) == 4 and fits(box[3], found[3])
    return box == found


def short_box(buffer, header):
    """Returns the bytes of the box of `header`, with a header of 8 bytes."""
    content = buffer[header.start + 8:header.start + header.size]
    return (8 + len(content)).to_bytes(4, "big") + header.code + content
