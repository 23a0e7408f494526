"""Tries wrong definitions: changes of the layout that definition and code make alike, so that no proof sees them.

Each change of wrong-definitions.txt is made in a copy of the repository. There the tests of the crates, the rows of
test_rows and some inputs of test_differential run without proof, and the rows of the changed box run first. For a
change of what mp4inspect writes, only its rows with fields or its tests of the program run. A test has to fail. If the
change names the tests that are made for it, one of these has to fail. Prints for each change which tests failed, up to
those that catch it, and at the end the changes that no test caught. There must be none.

    python3 -m tests.prover.wrong_definitions [--only WORD] [--apart] [--jobs N] [--list] [--prove]

    --only WORD   only the changes with this word in their line, such as `trex` or `little-endian`
    --apart       each change by itself, with all tests of all crates. Otherwise changes that can't fail one another's
                  tests are made together, and one that no test of its own catches there is tried by itself
    --jobs N      N copies at a time; each takes about two processors and 2 GB
    --list        prints the changes, and that each can be made
    --prove       proves the changed crates instead of running the tests: a change that is proved is consistent. It
                  uses the results that earlier checks kept in out/

It needs about a minute for each run of the tests. It is not part of the gate.
"""
import argparse
import concurrent.futures
import functools
import os
import queue
import re
import shutil
import subprocess
import sys
import tempfile
import unittest

from tests.built import TOP
from tests.readers.compared import (
    differences, fields_otherwise, misplaced, otherwise, outcomes_by_layout, trees_otherwise,
)
from tests.readers.inputs import Maker
from tests.readers.shown import records, texts_of
from tests.rows import rows

CHANGES = os.path.join(TOP, "tests", "prover", "wrong-definitions.txt")
# Three names beside those of the crates: the rows, which the program test_probe reads; the rows with the fields of
# boxes, which the program mp4inspect shows; and the tests of PROGRAM_TESTS, which run mp4inspect. Those whose names
# REMUX matches run mp4remux instead, those whose names LIBRARY matches call the library for C, and those whose names
# PROBE matches run test_probe.
ROWS = "rows"
FIELDS = "fields"
PROGRAMS = "programs"
PROGRAM_TESTS = ["programs.test_inspect", "programs.test_check", "programs.test_info", "programs.test_diff",
                 "programs.test_faststart", "programs.test_edit", "programs.test_fragment", "readers.test_containers",
                 "interfaces.test_one_answer", "interfaces.test_library", "rows.test_taken"]
REMUX = re.compile(r"programs::test_(faststart|edit|fragment)::")
LIBRARY = re.compile(r"programs::(test_library::|\w+::\w+_by_(python|rust)$)")
PROBE = re.compile(r"programs::test_taken::")
# The number of inputs of test_differential that are read with the rows, and the number of bytes that are read at once.
# The text of a longer row may be longer than the output that a run without proof keeps.
INPUTS = 2000
PART = 8000
LONGEST = 33_000
# The rows and the first crate have tests that are named after single boxes. Most changes fail in the rows, and then the
# other tests need not run.
NAMED = [ROWS, "test_boxes"]
TEST_CRATES = [*NAMED, "mp4_vectors"]
# The crates of boxes that no other box uses: their changes are made together, and with no others.
MORE = "mp4_extra"
# The status of `rt try` where a test stops at a fault, such as an index out of bounds.
FAULT = 4
# A change of one of these can fail the tests of the others, since one holds the other or their code is the same.
RELATED = [
    {"url", "dref", "dinf"},
    {"avcc", "avc1", "stsd"},
    {"avc1", "hev1", "stsd"},
    {"hvcc", "hev1", "stsd"},
    {"vpcc", "vp09", "stsd"},
    {"tx3g", "stsd"},
    {"esds", "mp4a", "stsd"},
]
# Changes of code that several boxes use, with the tests that see such a change and none of the others here.
SHARED = {
    "languages": "test_boxes::tests::languages::|rows::mdhd::letters_of_languages",
    "codes": "test_boxes::tests::codes::",
    "strings": "test_boxes::tests::equality::strings",
    "lists": "test_boxes::tests::equality::lists",
    "tables": "rows::(stco|co64|stss|stts|ctts)::one_entry_short",
    "rows": "rows::(stsz::one_size|trun::one_sample)_short",
    "spans": "rows::frames::places_of_",
    "other": "mp4_vectors::tests::kept::|rows::kept::",
    "configurations": "::(configurations|media_tables)::|test_boxes::tests::defaults::default_values",
}


class Change:
    def __init__(self, name, line):
        self.name = name
        self.line = line
        self.edits = []
        self.tests = self.also_fails = None

    def files(self):
        return {edit[0] for edit in self.edits}

    def has_a_single_test(self):
        return self.tests is not None and self.tests.endswith("$")

    def can_fail_tests_of(self, other):
        """Returns whether the change is known to fail the tests that are made for the change `other`."""
        return self.also_fails is not None and re.match(self.also_fails, other.tests) is not None

    def box(self):
        return self.name.split(":")[0]

    def is_of(self, crate):
        """Returns whether the change is only in `crate`, or in others whose names begin with its name."""
        return all(edit[0].split(os.sep)[1].startswith(crate) for edit in self.edits)

    def crates(self):
        """Returns the crates whose tests can see the change, the likeliest first."""
        if self.tests:
            return [self.tests.split("::")[0]]
        return TEST_CRATES

    def caught_by(self, failed):
        """Returns those of the failed tests that catch the change: all, or those that are made for it."""
        return [test for test in failed if self.tests is None or re.match(self.tests, test)]


class Refused(Exception):
    pass


def text_of(line):
    return line.replace("\\n", "\n")


def read_changes():
    changes = []
    file = waiting = None
    with open(CHANGES, encoding="utf-8") as lines:
        for number, line in enumerate(lines, 1):
            line = line.rstrip("\n")
            if not line or line.startswith("#"):
                continue
            key, colon, text = line.partition(":")
            text = text_of(text[1:])
            if key == "change" and colon:
                changes.append(Change(text, number))
                file = None
            elif key == "tests" and changes and not changes[-1].edits:
                changes[-1].tests = text
            elif key == "also fails" and changes and changes[-1].tests and not changes[-1].edits:
                changes[-1].also_fails = text
            elif key == "file" and changes:
                file = os.path.join("crates", text)
            elif key in ("old", "every", "swap") and file and not waiting:
                waiting = (key, text)
            elif key in ("new", "with") and waiting and (key == "with") == (waiting[0] == "swap"):
                changes[-1].edits.append((file, *waiting, text))
                waiting = None
            else:
                sys.exit(f"{CHANGES}:{number}: not expected here: {line}")
    return changes


def places(source, text):
    """Returns the places of `text` in `source`. The two may be broken into lines at different places."""
    words = [re.escape(word) for word in re.split(r"\s+", text)]
    return list(re.finditer(r"\s+".join(words), source))


def only_place(source, text):
    found = places(source, text)
    if len(found) != 1:
        raise Refused(f"occurs {len(found)} times: {text}")
    return found[0].span()


def edited(source, kind, old, new):
    if kind == "every":
        found = places(source, old)
        if not found:
            raise Refused(f"occurs nowhere: {old}")
        for place in reversed(found):
            source = source[: place.start()] + new + source[place.end() :]
        return source
    begin, end = only_place(source, old)
    if kind == "old":
        return source[:begin] + new + source[end:]
    first, second = sorted([(begin, end), only_place(source, new)])
    before, between, after = source[: first[0]], source[first[1] : second[0]], source[second[1] :]
    return before + source[second[0] : second[1]] + between + source[first[0] : first[1]] + after


def made(changes):
    """Returns the changed files, by their names."""
    files = {}
    for change in changes:
        for file, *edit in change.edits:
            try:
                if file not in files:
                    with open(os.path.join(TOP, file), encoding="utf-8") as source:
                        files[file] = source.read()
                files[file] = edited(files[file], *edit)
            except (OSError, Refused) as why:
                raise Refused(f"{change.name}\n  {file}: {why}") from None
    return files


def parts(cases, of_buffer):
    """Yields the cases in parts, so that the output for a part is not too long."""
    part, length = [], 0
    for case in cases:
        if part and length + len(of_buffer(case)) > PART:
            yield part
            part, length = [], 0
        part.append(case)
        length += len(of_buffer(case))
    yield part


class Copy:
    """A copy of the crates, in which changes are made and undone."""

    def __init__(self, folder, with_outputs):
        self.folder = folder

        def left_out(of, names):
            kept = with_outputs and os.path.basename(of) not in TEST_CRATES
            return [] if kept else [name for name in names if name == "out"]

        shutil.copytree(os.path.join(TOP, "crates"), os.path.join(folder, "crates"), ignore=left_out)
        for name in ("tools", "include"):
            shutil.copytree(os.path.join(TOP, name), os.path.join(folder, name))
        for name in ("crates.txt", "HANDLES"):
            shutil.copy(os.path.join(TOP, name), folder)

    def write(self, files):
        for file, source in files.items():
            with open(os.path.join(self.folder, file), "w", encoding="utf-8") as out:
                out.write(source)

    def restore(self, files):
        for file in files:
            shutil.copy(os.path.join(TOP, file), os.path.join(self.folder, file))

    def rt(self, crate, *words):
        how = {"stdin": subprocess.DEVNULL, "stdout": subprocess.PIPE, "stderr": subprocess.STDOUT}
        folder = os.path.join(self.folder, "crates", crate)
        return subprocess.run(["rt", *words], cwd=folder, text=True, errors="replace", **how)

    def outputs(self, program, cases, *arguments):
        """Returns the output of `program` for each of `cases`, or None if it stops at a fault. The program is built
        once and run without proof. Raises Refused if it doesn't compile."""
        with tempfile.TemporaryDirectory(dir=self.folder) as folder:
            for number, case in enumerate(cases):
                with open(os.path.join(folder, f"{number:04}"), "wb") as file:
                    file.write(case)
            crate = os.path.join(self.folder, "crates", program)
            # The interpreter runs for one step: the program that is compiled with checks shows everything.
            words = ["rt", "try", "--steps", "1", "--seconds", "60", "--cases", folder, *arguments]
            ran = subprocess.run(words, cwd=crate, stdin=subprocess.DEVNULL, capture_output=True)
        if ran.returncode == FAULT:
            return None
        found = re.split(rb"(?:^|\n)== \d{4}\n", ran.stdout)
        if ran.returncode or len(found) != len(cases) + 1:
            raise Refused(f"{program}: the program doesn't run\n{ran.stderr.decode('utf-8', 'replace')[-2000:]}")
        return found[1:]

    def failed_rows(self, chosen, count):
        """Returns the names of the tests with a row of `chosen` that differs, and the number of `count` inputs of
        test_differential that differ. Also returns how many of both differ from the slow reader in the places of boxes,
        or in the structure of their trees."""
        maker = Maker(1)
        inputs = [maker.input() for _ in range(count)]
        of_rows = list(parts(chosen, lambda case: case[1].buffer))
        of_inputs = list(parts(inputs, lambda case: case[1])) if inputs else []
        cases = [[(row.at, row.buffer) for _, row in part] for part in of_rows] + of_inputs
        found = self.outputs("test_probe", list(map(records, cases)))
        if found is None:
            return [f"{ROWS}: the program stops at a fault"]
        failed, differ, elsewhere, otherwise_open = {}, 0, 0, 0
        for part, out in zip(of_rows, found):
            for (name, row), texts in zip(part, texts_of(out, len(part))):
                if any(differences(row, texts)):
                    failed[f"{ROWS}::{name}"] = True
                elsewhere += any(misplaced(row.buffer, row.at, texts))
                otherwise_open += any(trees_otherwise(row.buffer, row.at, texts))
        for part, out in zip(of_inputs, found[len(of_rows):]):
            for (at, buffer), texts in zip(part, texts_of(out, len(part))):
                differ += any(otherwise(outcomes_by_layout(buffer, at), texts))
                elsewhere += any(misplaced(buffer, at, texts))
                otherwise_open += any(trees_otherwise(buffer, at, texts))
        if otherwise_open:
            failed[f"{ROWS}::structure_of_trees: {otherwise_open} of {len(chosen) + count} buffers"] = True
        if differ:
            failed[f"differential: {differ} of {count} inputs"] = True
        if elsewhere:
            failed[f"places: {elsewhere} of {len(chosen) + count} buffers"] = True
        return list(failed)

    def failed_fields(self, changes):
        """Returns the names of the tests with a row whose fields are shown otherwise, among those named by `changes`,
        or among all."""
        named = [(f"{FIELDS}::{name}", row) for name, row in rows() if row.fields is not None]
        chosen = [it for it in named if any(change.caught_by([it[0]]) for change in changes)] or named
        found = self.outputs("mp4_inspect", [row.buffer for _, row in chosen], "--", "--json", "-")
        if found is None:
            return [f"{FIELDS}: the program stops at a fault"]
        failed = {}
        for (name, row), out in zip(chosen, found):
            wanted, other = fields_otherwise(row, out.decode("utf-8"))
            if wanted != other:
                failed[name] = True
        return list(failed)

    def build(self, *words):
        """Builds a program or the library without proof. Raises Refused if it doesn't compile."""
        words = [sys.executable, os.path.join(self.folder, "tools", "building.py"), *words]
        ran = subprocess.run(words, stdin=subprocess.DEVNULL, stdout=subprocess.PIPE, stderr=subprocess.STDOUT)
        if ran.returncode:
            raise Refused(f"it doesn't compile\n{ran.stdout.decode('utf-8', 'replace')[-2000:]}")

    def failed_programs(self, changes):
        """Returns the names of the tests of PROGRAM_TESTS made for `changes` that fail with mp4inspect, and with
        mp4remux and the library if one calls them, as these are built here. Raises Refused if they don't compile."""
        named = {name: test for name, test in program_tests().items() if any(it.caught_by([name]) for it in changes)}
        with tempfile.TemporaryDirectory(dir=self.folder) as folder:
            environment = {**os.environ, "TEST_PROGRAMS": folder, "TEST_LIBRARY": os.path.join(folder, "library")}
            self.build("program", "mp4_inspect", os.path.join(folder, "mp4_inspect"))
            if any(REMUX.match(name) for name in named):
                self.build("program", "mp4_remux_program", os.path.join(folder, "mp4_remux_program"))
            if any(map(LIBRARY.match, named)):
                self.build("library", environment["TEST_LIBRARY"])
            if any(map(PROBE.match, named)):
                self.build("program", "test_probe", os.path.join(folder, "test_probe"))
            words = [sys.executable, "-m", "unittest", *named.values()]
            how = {"stdin": subprocess.DEVNULL, "stdout": subprocess.PIPE, "stderr": subprocess.STDOUT}
            ran = subprocess.run(words, cwd=TOP, env=environment, **how)
        said = ran.stdout.decode("utf-8", "replace")
        if not re.search(rf"^Ran {len(named)} tests? in ", said, re.M):
            raise Refused(f"the tests of mp4inspect don't run\n{said[-2000:]}")
        failed = re.findall(r"^(?:FAIL|ERROR): (\w+) \((?:\w+\.)*?(test_\w+)\.", said, re.M)
        return [name for name in named if (name.split("::")[2], name.split("::")[1]) in failed]

    def failed_tests(self, crate, changes=()):
        """Returns the names of the tests of `crate` that fail, and of the rows that can catch `changes`. Raises Refused
        if the crate doesn't compile."""
        if crate == ROWS:
            chosen = rows_for(changes)
            return self.failed_rows(chosen or all_rows(), 0 if chosen else INPUTS)
        if crate == FIELDS:
            return self.failed_fields(changes)
        if crate == PROGRAMS:
            return self.failed_programs(changes)
        ran = self.rt(crate, "try", "--test")
        failed = [f"{crate}::{name}" for name in re.findall(r"^test (\S+) \.\.\. (?!ok)", ran.stdout, re.M)]
        if ran.returncode == FAULT:
            return failed + [f"{crate}: the tests stop at a fault"]
        if not re.search(r"^test result: ", ran.stdout, re.M):
            raise Refused(f"{crate}: the tests don't run\n{ran.stdout[-2000:]}")
        return failed

    def failed(self, changes, everything):
        """Returns the tests that fail with `changes`. With `everything` it runs the tests of all crates. Otherwise it
        stops once the failed tests catch each change, and first runs only those rows that can catch one."""
        files = made(changes)
        self.write(files)
        try:
            found = []
            for crate in crates_for(changes):
                if everything or not enough(changes, found):
                    found += self.failed_tests(crate, () if everything and crate != PROGRAMS else changes)
            if not everything and len(changes) == 1 and not found and not changes[0].tests and rows_for(changes):
                found += self.failed_tests(ROWS)
            return found
        finally:
            self.restore(files)

    def proved(self, change):
        files = made([change])
        self.write(files)
        try:
            for crate in sorted({file.split(os.sep)[1] for file in files}):
                checked = self.rt(crate, "check")
                if checked.returncode:
                    return f"{crate}: {checked.stdout[-2000:]}"
            return None
        finally:
            self.restore(files)


def tests_in(suite):
    for it in suite:
        yield from tests_in(it) if isinstance(it, unittest.TestSuite) else [it]


@functools.cache
def program_tests():
    """Returns the tests of PROGRAM_TESTS: the names by which unittest runs them, by the names that changes have for
    them."""
    found = {}
    for module in PROGRAM_TESTS:
        for it in tests_in(unittest.defaultTestLoader.loadTestsFromName(f"tests.{module}")):
            *_, file, _, name = it.id().split(".")
            found[f"{PROGRAMS}::{file}::{name}"] = it.id()
    return found


def known_boxes():
    """Returns the boxes that have a vector."""
    with open(os.path.join(TOP, "crates", "test_shared", "src", "vectors", "second.rt"), encoding="utf-8") as source:
        return {box.lower() for box in re.findall(r"Second::(\w+) =>", source.read())}


BOXES = known_boxes()


def both_can_be_made(one, other):
    """Returns whether the edits of two changes don't meet in one place."""
    if not one.files() & other.files():
        return True
    try:
        made([one, other])
    except Refused:
        return False
    return True


def go_together(one, other):
    """Returns whether two changes can be made together, so that for each of them a failed test shows that it is
    caught."""
    related = any({one.box(), other.box()} <= boxes for boxes in RELATED)
    if one.is_of(MORE) != other.is_of(MORE):
        return False
    if one.tests or other.tests:
        apart = not (one.tests and other.tests) or one.tests == other.tests or one.crates() != other.crates()
        if apart or one.can_fail_tests_of(other) or other.can_fail_tests_of(one):
            return False
        has_own = one.box() != other.box() or one.has_a_single_test() and other.has_a_single_test()
        return has_own and not related and both_can_be_made(one, other)
    if one.box() in SHARED or other.box() in SHARED:
        return one.box() in SHARED and other.box() in SHARED and one.box() != other.box()
    return one.box() in BOXES and other.box() in BOXES and one.box() != other.box() and not related


def rounds_of(changes):
    """Returns the rounds of changes that are made together. A change that goes with no other has its own round."""
    rounds = []
    for change in changes:
        for members in rounds:
            if all(go_together(it, change) for it in members):
                members.append(change)
                break
        else:
            rounds.append([change])
    return rounds


def catches(test, change):
    """Returns whether the failed test `test` shows, in a round of several changes, that `change` is caught. Such a test
    is made for the change, is a row of its box, is named only after its box, or sees no other change of shared code."""
    if change.tests:
        return bool(change.caught_by([test]))
    if change.box() in SHARED:
        return re.search(SHARED[change.box()], test) is not None
    if test.startswith(f"{ROWS}::"):
        return test.split("::")[1] == change.box()
    return "test_boxes::" in test and BOXES & set(re.split("::|_", test)) == {change.box()}


def all_rows():
    return [(name, row) for name, row in rows() if len(row.buffer) <= LONGEST]


def rows_for(changes):
    """Returns the rows that can catch `changes`, if each change has some. A round of these is much faster than one of
    all rows."""
    if not all(it.tests or it.box() in SHARED or it.box() in BOXES for it in changes):
        return []
    return [row for row in all_rows() if any(catches(f"{ROWS}::{row[0]}", it) for it in changes)]


def told(change, failed):
    """Returns those of the failed tests that show that `change` is caught."""
    return [test for test in failed if catches(test, change)]


def enough(changes, failed):
    """Returns whether no more tests need to run: one fails, or each of several changes is caught by one that does."""
    return all(told(it, failed) for it in changes) if len(changes) > 1 else bool(changes[0].caught_by(failed))


def crates_for(changes):
    """Returns the crates whose tests can see `changes`. If changes of single boxes are made together, only two crates
    can tell them apart."""
    crates = changes[0].crates()
    apart = len(changes) == 1 or changes[0].tests or changes[0].box() in SHARED
    return crates if apart else [crate for crate in crates if crate in NAMED]


def say(change, failed):
    print(f"{'caught' if failed else 'PASSED'}  {change.name}")
    for test in failed:
        print(f"        {test}")
    sys.stdout.flush()


def tried(copies, changes, everything):
    """Tries one round. Returns each change with the tests that caught it, or with the reason why it wasn't tried."""
    copy = copies.get()
    try:
        if len(changes) == 1:
            return [(changes[0], changes[0].caught_by(copy.failed(changes, everything)))]
        failed = copy.failed(changes, False)
        return [(it, told(it, failed) or it.caught_by(copy.failed([it], everything))) for it in changes]
    except Refused as why:
        if len(changes) == 1:
            return [(changes[0], why)]
    finally:
        copies.put(copy)
    # One of them doesn't compile.
    half = len(changes) // 2
    return tried(copies, changes[:half], everything) + tried(copies, changes[half:], everything)


def main():
    parser = argparse.ArgumentParser(description=__doc__, formatter_class=argparse.RawDescriptionHelpFormatter)
    parser.add_argument("--only", default="")
    parser.add_argument("--apart", action="store_true")
    parser.add_argument("--jobs", type=int, default=1)
    parser.add_argument("--list", action="store_true")
    parser.add_argument("--prove", action="store_true")
    given = parser.parse_args()
    changes = [it for it in read_changes() if given.only in it.name]
    for change in changes:
        try:
            made([change])
        except Refused as why:
            sys.exit(f"can't be made: {why}")
        if given.list:
            print(change.name)
    print(f"{len(changes)} changes")
    if given.list or not changes:
        return 0 if changes else 2
    with tempfile.TemporaryDirectory(prefix="wrong-definitions-") as folder:
        copies = queue.Queue()
        for number in range(given.jobs):
            copies.put(Copy(os.path.join(folder, str(number)), given.prove))
        if given.prove:
            copy = copies.get()
            refused = [(it, copy.proved(it)) for it in changes]
            for change, why in refused:
                print(f"proved  {change.name}" if why is None else f"NOT PROVED  {change.name}\n{why}")
            return 1 if any(why is not None for _, why in refused) else 0
        return run(copies, changes, given)


def run(copies, changes, given):
    copy = copies.get()
    crates = {crate for change in changes for crate in change.crates()}
    unchanged = [test for crate in sorted(crates)
                 for test in copy.failed_tests(crate, changes if crate == PROGRAMS else ())]
    copies.put(copy)
    if unchanged:
        sys.exit("without a change these tests fail: " + ", ".join(unchanged))
    rounds = [[it] for it in changes] if given.apart else rounds_of(changes)
    print(f"{len(rounds)} rounds", flush=True)
    passed, untried = [], []
    with concurrent.futures.ThreadPoolExecutor(given.jobs) as workers:
        jobs = [workers.submit(tried, copies, members, given.apart) for members in rounds]
        for job in concurrent.futures.as_completed(jobs):
            for change, failed in job.result():
                if isinstance(failed, Refused):
                    untried.append(change)
                    print(f"NOT TRIED  {change.name}: {failed}", flush=True)
                else:
                    say(change, failed)
                    if not failed:
                        passed.append(change)
    print(f"{len(changes) - len(passed) - len(untried)} caught, {len(passed)} passed, {len(untried)} not tried")
    for change in passed:
        print(f"passed: {change.name}")
    return 1 if passed or untried else 0


if __name__ == "__main__":
    sys.exit(main())
