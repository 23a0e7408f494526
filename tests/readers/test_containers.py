"""Compares the readers of the tests, mp4inspect and the trees of the library with tests/containers.txt, the list of the
boxes that hold boxes. Each line of it is a test, over a small file with the box of the line. In the box is another one,
at the offset that the line has. If the line says that the box holds no boxes, its content still has some."""

import json
import os
import re
import subprocess
import tempfile
import unittest

from tests.built import built, source
from tests.files.made import box, handler
from tests.readers import fronts
from tests.readers.fronts import bytes_before, bytes_before_in_tree
from tests.readers.inspect import every, plain, tree
from tests.readers.shown import shown, structure_of
from tests.readers.trees import fits, read_trees

STRUCTURE = 13
ENTRIES = b"moov/trak/mdia/minf/stbl/stsd"
FREE = box(b"free")
# The fields before the boxes of those that the list has around others.
FRONTS = {b"meta": 4, b"iref": 4, b"ipro": 6, b"fiin": 6, b"iinf": 6, b"mp4a": 28, b"encv": 78, b"resv": 78}


class Line:
    """A line of the list."""

    def __init__(self, text):
        code, within, media, version, starts, before, in_tree, self.document = text.split(maxsplit=7)
        self.text, self.code = text, code.encode()
        within = re.sub(rb"^stsd\b", ENTRIES, within.encode())
        self.around = [] if within == b"-" else within.split(b"/")
        self.media = None if media == "-" else media.encode()
        self.version = 0 if version == "-" else int(version)
        self.starts = b"" if starts == "-" else bytes.fromhex(starts)
        self.before, self.in_tree = (None if it == "-" else int(it) for it in (before, in_tree))

    def name(self):
        """Returns the name of the test of this line: its first five columns."""
        return re.sub(r"\W+", "_", " ".join(self.text.split()[:5])).strip("_")

    def content(self, before):
        """Returns a content with `before` bytes before a box. Without such a number it is all boxes."""
        return 10 * FREE if before is None else self.starts.ljust(before, b"\0") + FREE

    def file(self):
        """Returns a file with the box of the line, and the position of the content of the box."""
        fronts = {name: bytes(length) for name, length in FRONTS.items()}
        fronts[b"stsd"] = bytes([self.version]) + bytes(7)
        fronts[b"mdia"] = handler(self.media, b"") if self.media else b""
        found, at = box(self.code, self.content(self.before)), 8
        for name in reversed(self.around):
            front = fronts.get(name, b"")
            found, at = box(name, front + found), at + 8 + len(front)
        return found, at


def lines():
    texts = source("tests", "containers.txt").splitlines()
    return [Line(text) for text in texts if text and not text.startswith("#")]


def first_inside(boxes, code, content):
    """Returns the bytes before the first box in the box of `boxes` whose content is at `content`, or None if it has no
    boxes."""
    [found] = [it for it, _ in every(boxes) if it["type"] == code.decode() and it["position"] + 8 == content]
    return found["children"][0]["position"] - content if found.get("children") else None


class Containers(unittest.TestCase):
    def compare(self, line):
        parent = line.around[-1] if line.around else None
        content = line.content(line.before)
        self.assertEqual(bytes_before(line.code, content, parent, line.media, line.version), line.before)
        data, at = line.file()
        self.assertEqual(first_inside(tree(data), line.code, at), line.before)
        with tempfile.TemporaryDirectory() as folder:
            path = os.path.join(folder, "file")
            with open(path, "wb") as file:
                file.write(data)
            ran = subprocess.run([built("mp4_inspect"), "--json", path], stdout=subprocess.PIPE, check=False)
        boxes = json.loads(ran.stdout)[0]["boxes"]
        self.assertEqual(first_inside(boxes, line.code, at), line.before)
        self.assertEqual(boxes, plain(tree(data)))

    def compare_tree(self, line):
        content = line.content(line.in_tree)
        self.assertEqual(bytes_before_in_tree(line.code, content), line.in_tree)
        data = box(line.code, content)
        [text] = shown(built("test_probe"), [(0, data)])
        [found] = structure_of(text[STRUCTURE])
        self.assertEqual(found[2] if found[0] == "container" else None, line.in_tree)
        if line.in_tree is not None:
            self.assertTrue(fits(read_trees(data, 0)[0], [found]), found)

    def test_each_container_has_a_line(self):
        """The boxes of the readers are those of the list."""
        listed = {line.code for line in lines() if line.before is not None}
        known = {*fronts.ALONE, *fronts.NUMBERED, *fronts.VIDEO, *fronts.SOUND, *fronts.OTHERS, b"meta", b"tmcd"}
        in_trees = {*fronts.MORE_VIDEO, *fronts.MORE_SOUND, *fronts.ITEMS}
        known |= {code for code in in_trees if not {*b" \0"} & {*code}}
        self.assertEqual(known - listed, set())
        self.assertEqual(listed - known, {b"abcd"})


def test_of(method, line):
    return lambda self: method(self, line)


for one in lines():
    if hasattr(Containers, f"test_{one.name()}"):
        raise ValueError(f"two lines have one name: {one.text}")
    setattr(Containers, f"test_{one.name()}", test_of(Containers.compare, one))
    setattr(Containers, f"test_{one.name()}_in_a_tree", test_of(Containers.compare_tree, one))

if __name__ == "__main__":
    unittest.main()
