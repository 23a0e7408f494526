"""Compares the trees of boxes that `mp4_extra` reads and writes with the slow reader (trees.py), over files. It
compares the structure of the trees, and their written bytes, which are the bytes that were read. Bytes that cut a box
are refused.

The files are those of the tests of mp4inspect, stored and made by hand, without their media data. The program
test_probe reads them as lists of `BoxTree`: each whole file, and each box of it that holds boxes. In such a box, and in
a list with a box of size 0, a header may become shorter. Then the written bytes have the shorter header.

A box of the codec is read as its type if the codec writes the bytes that were read, which a run over only this box
shows. Otherwise it is kept as its bytes."""

import collections
import functools
import unittest

from tests.built import built
from tests.files.inspected import files
from tests.readers.inspect import every, tree
from tests.readers.shown import shown, structure_of, written_of
from tests.readers.trees import read_trees

# The numbers of the texts for the written bytes of the list and of the trees, and for the structure of the trees.
WRITTEN, TREES, STRUCTURE = 2, 8, 13


def bytes_of(data, box):
    return data[box["position"]:box["position"] + box["length"]]


def pieces(data):
    """Yields the boxes and the bytes of a file without its media data, and of each whole box that holds boxes."""
    boxes = [box for box in tree(data) if box["type"] != "mdat"]
    yield boxes, b"".join(bytes_of(data, box) for box in boxes)
    for box, _ in every(boxes):
        if "children" in box and "cut" not in box:
            yield [box], bytes_of(data, box)


def with_short_header(data, box):
    """Returns the bytes of `box`, with a header of 8 bytes."""
    content = bytes_of(data, box)[box["header"]:]
    return (8 + len(content)).to_bytes(4, "big") + box["type"].encode("latin-1") + content


@functools.cache
def is_lossless(box):
    """Returns whether the codec writes the bytes `box` for the box that it reads from them."""
    [texts] = shown(built("test_probe"), [(0, box)])
    return written_of(texts[WRITTEN]) == box


def sure(trees):
    """Returns a structure in which each box of the codec is known to be `codec` or `raw`."""
    found = []
    for kind, code, *others in trees:
        if kind == "container":
            others = [others[0], sure(others[1])]
        if kind == "unsure":
            kind, others = "codec" if is_lossless(others[0]) else "raw", []
        found.append((kind, code, *others))
    return found


def kinds(trees):
    """Yields the word of each box of a structure."""
    for kind, _, *others in trees:
        yield kind
        if others:
            yield from kinds(others[1])


def wanted_of(data, boxes):
    return b"".join(with_short_header(data, box) for box in boxes)


class Trees(unittest.TestCase):
    def compare(self, data):
        found = list(pieces(data))
        texts = shown(built("test_probe"), [(0, buffer) for _, buffer in found])
        for (boxes, buffer), text in zip(found, texts):
            with self.subTest(boxes=[box["type"] for box in boxes], bytes=buffer.hex()):
                written = written_of(text[TREES])
                if any("cut" in box for box in boxes):
                    self.assertIsInstance(written, tuple, "a box that is cut is read")
                    self.assertEqual(text[STRUCTURE], "")
                else:
                    self.assertEqual(written, wanted_of(data, boxes))
                    self.assertEqual(structure_of(text[STRUCTURE]), sure(read_trees(buffer, 0)[0]))

    def test_each_case_is_in_some_file(self):
        found = collections.Counter()
        for data in files().values():
            for number, (boxes, buffer) in enumerate(pieces(data)):
                if any("cut" in box for box in boxes):
                    found["cut"] += 1
                else:
                    is_same = wanted_of(data, boxes) == buffer
                    found[("box" if number else "file") if is_same else "shorter"] += 1
                    found.update(kinds(sure(read_trees(buffer, 0)[0])))
        self.assertEqual(set(found), {"cut", "file", "box", "shorter", "container", "codec", "extra", "other", "raw"})


def test_of(data):
    return lambda self: self.compare(data)


for name, content in files().items():
    setattr(Trees, f"test_{name}", test_of(content))

if __name__ == "__main__":
    unittest.main()
