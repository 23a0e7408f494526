"""Runs `mp4inspect check` as a user does, over files with one fault each and files that are close to one
(files/faulty.py), whose lines were worked out by hand from the standards.

- The lines and the status of each, and the objects of `--json`, also beside the second computation
  (readers/check.py).
- `--strict`: the status of files with warnings only.
- `--media`: the same over files with faults of samples (files/faulty_samples.py).
- Several files, in both forms, and files that can't be read.
- The codes, their severities and their order are those of docs/CHECK.md, and each code has a file."""

import json
import os
import re
import shutil
import tempfile
import unittest

from tests.built import TOP, built
from tests.files import faulty, faulty_samples
from tests.files.inspected import check_schema, files, load
from tests.programs.test_inspect import Runs, write_file
from tests.readers import check
from tests.readers.inspect import tree


def documented():
    """Returns the severities of the codes in docs/CHECK.md."""
    with open(os.path.join(TOP, "docs/CHECK.md"), encoding="utf-8") as file:
        return dict(re.findall(r"^- `([a-z0-9-]+)` \((error|warning); ", file.read(), re.M))


class Check(unittest.TestCase):
    def setUp(self):
        folder = tempfile.mkdtemp(prefix="check-")
        self.addCleanup(shutil.rmtree, folder)
        self.folder, self.runs = folder, Runs(built("mp4_inspect"), folder)

    def of_file(self, name, data, wanted):
        """Compares the lines of a file with those that were worked out for it, and all other output."""
        is_wrong = any(not re.match(r"\d+ \S+( \S*)*: warning: ", line) for line in wanted)
        found = self.runs.out(int(is_wrong), "check", "-", input=data)
        self.runs.same(found.split("\n"), [*wanted, ""], f"check, {name}")
        self.runs.out(int(bool(wanted)), "check", "--strict", "-", input=data)
        self.runs.compared(data, f"check, {name}")

    def of_media(self, name, data, wanted):
        """Compares the lines about a file and its samples with those that were worked out for it, and all other
        output."""
        is_wrong = any(": warning: " not in line for line in wanted)
        found = self.runs.out(int(is_wrong), "check", "--media", "-", input=data)
        self.runs.same(found.split("\n"), [*wanted, ""], f"check --media, {name}")
        self.runs.out(int(bool(wanted)), "check", "--media", "--strict", "-", input=data)
        self.runs.compared(data, f"check --media, {name}")

    def test_codes(self):
        """Each code of the document has a file, and no other code is written."""
        found, wanted = {}, documented()
        for name, data, _ in [*faulty.cases(), *faulty_samples.cases()]:
            for fault in check.faults(data, tree(data), True):
                found.setdefault(fault["code"], (fault["severity"], data))
        self.assertEqual({code: severity for code, (severity, _) in found.items()}, wanted)
        self.assertEqual({code for code, severity in wanted.items() if severity == "warning"}, check.WARNINGS)
        for code, (severity, data) in found.items():
            objects = load(self.runs.run("check", "--json", "--media", "-", input=data).stdout)
            self.assertIn((code, severity), [(it["code"], it["severity"]) for it in objects])

    def test_statuses(self):
        """A run that finds only warnings passes, unless they count."""
        cases = {name: data for name, data, _ in faulty.cases()}
        warned, wrong = cases["track 0"], cases["lacks: no mdia"]
        both = cases["overlap: tables that disagree, co64"] if "overlap: tables that disagree, co64" in cases else None
        for data, plain, strict in ((warned, 0, 1), (wrong, 1, 1), (both, 1, 1), (cases["a movie"], 0, 0)):
            if data is not None:
                self.runs.out(plain, "check", "-", input=data)
                self.runs.out(strict, "check", "--strict", "-", input=data)
                self.runs.out(plain, "check", "--json", "-", input=data)
                self.runs.out(strict, "check", "--strict", "--json", "-", input=data)

    def test_several_files(self):
        """The lines of several files have their names, and their objects are one array."""
        named = {"plain.mp4": files()["plain"], "titles.mp4": files()["titles"], "sound.mp4": self.sound(),
                 "warned.mp4": next(data for name, data, _ in faulty.cases() if name == "track 0")}
        found = {name: check.faults(data, tree(data)) for name, data in named.items()}
        for name, data in named.items():
            write_file(self.folder, name, data)
        for order in (list(named), list(reversed(named)), ["sound.mp4", "warned.mp4"], ["sound.mp4", "sound.mp4"]):
            text = self.runs.out(max(check.status(found[name]) for name in order), "check", *order)
            wanted = [f"{name}: {line}" for name in order for line in check.lines(found[name])]
            self.runs.same(text.split("\n"), [*wanted, ""], f"check, {order}")
            text = self.runs.out(max(check.status(found[name]) for name in order), "check", "--json", *order)
            objects = [{"file": name, **fault} for name in order for fault in found[name]]
            self.assertEqual(text, "[" + ",\n".join(
                json.dumps(it, separators=(",", ":"), ensure_ascii=False) for it in objects) + "]\n")
            check_schema(load(text), self.runs.check_schema, self.runs.check_schema)

    def test_files_that_cannot_be_read(self):
        """Other files are checked, and the array is whole."""
        write_file(self.folder, "warned.mp4", next(data for name, data, _ in faulty.cases() if name == "track 0"))
        for words in (["none.mp4", "warned.mp4"], ["warned.mp4", "none.mp4"], ["warned.mp4", "none.mp4", "warned.mp4"]):
            done = self.runs.run("check", "--json", *words)
            self.assertEqual(done.returncode, 3)
            self.assertEqual([it["file"] for it in load(done.stdout)], [name for name in words if name != "none.mp4"])
        write_file(self.folder, "empty.mp4", b"")
        done = self.runs.run("check", "--json", "empty.mp4")
        self.assertEqual((done.returncode, [it["code"] for it in load(done.stdout)]), (1, ["movie-missing"]))

    def test_names(self):
        """The name of a file is escaped in lines, and whole in JSON."""
        name = 'a"\x1b\nb.mp4'
        write_file(self.folder, name, files()["titles"])
        [*objects] = load(self.runs.out(1, "check", "--json", name))
        self.assertEqual({it["file"] for it in objects}, {name})
        text = self.runs.out(1, "check", name, name)
        self.assertTrue(all(line.startswith('a"\\u{1b}\\nb.mp4: ') for line in text.splitlines()))

    @staticmethod
    def sound():
        """Returns a file without a fault."""
        return next(data for name, data, _ in faulty.cases() if name == "a movie")


def add(kind, compare, name, *case):
    """Adds the test `name` of a kind. Raises ValueError if there is another with this name."""
    name = "_".join([kind, *re.findall(r"\w+", name)])
    if hasattr(Check, name):
        raise ValueError(f"two tests have the name {name}")
    setattr(Check, name, lambda self: compare(self, *case))


for one in faulty.cases():
    add("test_file", Check.of_file, one[0], *one)
for one in faulty_samples.cases():
    add("test_media", Check.of_media, one[0], *one)

if __name__ == "__main__":
    unittest.main()
