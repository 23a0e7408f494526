"""Asks each interface about the tracks and samples of the same files, and wants one answer: the tree of mp4inspect as
text and as JSON, `mp4inspect check`, `mp4inspect samples`, a caller in Rattle (`crates/test_probe/src/movie.rt`), and
the library for C as Python and Rust call it. asked.py says what each of them has to say. What `mp4inspect check` and
`mp4inspect info` say of a file is compared with the answers of C, Rust and Python (facts.py).

- The files of movies.py have answers that were worked out by hand. Each file is a test of each interface.
- The answers for stored files, for those of made.py and faulty.py, and for files with damage are computed by
  readers/samples.py. It has to agree with the answers that were worked out by hand.

A test with many files fails with the first differences of each, and with the number of files that differ. A file with
damage is printed as hexadecimal digits.

Settings: COUNT (300 files with damage), SEED."""

import concurrent.futures
import functools
import itertools
import os
import random
import re
import shutil
import subprocess
import tempfile
import unittest

from tests.built import built, codec, number
from tests.files import faulty
from tests.files.inspected import damaged, files
from tests.interfaces.answers import answer
from tests.interfaces import facts
from tests.interfaces.asked import INTERFACES, Asked, callers
from tests.interfaces.movies import cases
from tests.readers.inspect import every, located, tree, value_of

# Files that count more samples than these in a box aren't asked about, since all samples are listed.
MOST = 20000
# The most differences that are printed of a file, and the most files whose differences are printed.
PRINTED = 3, 8


@functools.cache
def folder():
    """Returns a new folder for the files and the caller in Rust."""
    made = tempfile.mkdtemp(prefix="answers-")
    unittest.addModuleCleanup(shutil.rmtree, made)
    return made


NUMBERS = itertools.count()


def asked(data):
    """Writes the file `data`, and returns it to ask interfaces about it."""
    path = os.path.join(folder(), f"{next(NUMBERS)}.mp4")
    with open(path, "wb") as file:
        file.write(data)
    return Asked(built("mp4_inspect"), path, data)


class Answers(unittest.TestCase):
    def prepare(self, interface):
        """Makes what an interface needs before threads ask it."""
        built("mp4_inspect")
        if interface == "rust" and not shutil.which("cargo"):
            self.skipTest("cargo is not on this machine")
        if interface == "rust":
            callers(folder())
        if interface == "c":
            facts.in_c(folder())
        if interface in ("c", "python", "rust"):
            codec()

    def differences(self, interface, data, wanted):
        """Returns the differences of what an interface says of the file `data` from the answer `wanted`."""
        try:
            return list(INTERFACES[interface](asked(data), wanted))
        except (AssertionError, ValueError, subprocess.CalledProcessError) as why:
            return [str(why)]

    def compare(self, interface, name, data, wanted):
        self.prepare(interface)
        found = self.differences(interface, data, wanted)
        if found:
            self.fail("\n".join([name, *found]))

    def compare_all(self, interface, made):
        """Compares the answers about the files `made`, of which each is a name, its bytes, and whether these are
        printed."""
        def differences(one):
            data = one[1]
            if any((value_of(box, "sample_count") or 0) > MOST for box, _ in every(tree(data))):
                return []
            return self.differences(interface, data, answer(data))
        self.prepare(interface)
        made = list(made)
        with concurrent.futures.ThreadPoolExecutor(os.cpu_count()) as workers:
            found = [(*one, texts) for one, texts in zip(made, workers.map(differences, made)) if texts]
        said = [f"{len(found)} of {len(made)} files differ"]
        for name, data, is_printed, texts in found[:PRINTED[1]]:
            said += [name, *texts[:PRINTED[0]]] + [data.hex()] * is_printed
        if found:
            self.fail("\n".join(said))


class ByHand(Answers):
    """The files of movies.py. Each has a test for each interface."""

    def test_second_computation(self):
        for name, data, wanted, _ in cases():
            with self.subTest(name):
                self.assertEqual(answer(data), wanted)


class SameAnswers(Answers):
    """Files whose answers are computed."""

    def of_files(self, interface):
        self.compare_all(interface, ((name, data, False) for name, data in files().items()))

    def of_files_with_one_fault(self, interface):
        self.compare_all(interface, ((name, data, False) for name, data, _ in faulty.cases()))

    def of_files_with_damage(self, interface):
        random_, sound = random.Random(number("SEED", 1)), list({
            **files(), **{name: data for name, data, *_ in cases()}}.values())
        made = [damaged(random_, random_.choice(sound)) for _ in range(number("COUNT", 300))]
        self.compare_all(interface, ((f"{index:05}", data, True) for index, data in enumerate(made)))


class Facts(Answers):
    """What `mp4inspect check` and `mp4inspect info` say of a file: C, Rust and Python say the same."""

    def facts_differ(self, language, data):
        """Returns the differences of what a language says of the file `data` from what mp4inspect says."""
        try:
            return list(facts.differences(language, asked(data), lambda: callers(folder())[1]))
        except (AssertionError, ValueError, subprocess.CalledProcessError) as why:
            return [str(why)]

    def of(self, language, made):
        self.prepare(language)
        with concurrent.futures.ThreadPoolExecutor(os.cpu_count()) as workers:
            found = [*workers.map(lambda one: (one, self.facts_differ(language, one[1])), made)]
        said = [line for (name, data), texts in found if texts for line in (name, *texts[:PRINTED[0]], data.hex())]
        self.assertEqual(said[:30], [])

    def of_files(self, language):
        self.of(language, [*files().items(), *((name, data) for name, data, *_ in cases())])

    def of_files_with_one_fault(self, language):
        self.of(language, [(name, data) for name, data, _ in faulty.cases()])

    def of_files_with_damage(self, language):
        random_, sound = random.Random(number("SEED", 1)), [*files().values()]
        self.of(language, [(f"{index:05}", damaged(random_, random_.choice(sound)))
                           for index in range(number("COUNT", 300))])


class Boxes(unittest.TestCase):
    """Sample entries that hold boxes: each tree shows these."""

    def compare_boxes(self, found, wanted):
        for path, fields in wanted.items():
            self.assertIn(path, found)
            self.assertEqual({name: (found[path] or {}).get(name) for name in fields}, fields, path)

    def tree_as_json(self, data, wanted):
        it = asked(data)
        self.assertEqual(it.reasons, {})
        self.compare_boxes({path: box.get("fields") for box, path in located(it.boxes)}, wanted)

    def python(self, data, wanted):
        module, found = codec(), {}
        for box in asked(data).tree:
            self.assertIn(box.what, (module.LEAF, module.PARENT), box.path)
            # The library reads the fields of some types only, and none of a box before its boxes.
            try:
                found[box.path] = module.fields(box.of(data)) if box.what == module.LEAF else None
            except module.Mp4Error:
                found[box.path] = None
        self.compare_boxes(found, {path: fields if found.get(path) else {} for path, fields in wanted.items()})


def name_of(*words):
    return "_".join(["test", *(re.sub(r"\W+", "_", word).strip("_") for word in words)])


for interface_ in INTERFACES:
    for name_, data_, answer_, _ in cases():
        setattr(ByHand, name_of(name_, "by", interface_), lambda self, all_=(interface_, name_, data_, answer_):
                self.compare(*all_))
    for kind_ in ("of_files", "of_files_with_one_fault", "of_files_with_damage"):
        setattr(SameAnswers, name_of(kind_, "by", interface_), lambda self, interface=interface_, kind=kind_:
                getattr(self, kind)(interface))
for language_ in facts.LANGUAGES:
    for kind_ in ("of_files", "of_files_with_one_fault", "of_files_with_damage"):
        setattr(Facts, name_of(kind_, "by", language_), lambda self, language=language_, kind=kind_:
                getattr(self, kind)(language))
for name_, data_, _, boxes_ in cases():
    for tree_ in ("tree_as_json", "python") if boxes_ else ():
        setattr(Boxes, name_of(name_, "by", tree_), lambda self, tree=tree_, all_=(data_, boxes_):
                getattr(self, tree)(*all_))

if __name__ == "__main__":
    unittest.main()
