"""Adds a box in a copy, by the steps of docs/internals/MAP.md, reads and writes it there as tests/rows does, reads it
back from its JSON, and shows it by mp4inspect.

The box is `padb`, the padding bits of samples (ISO/IEC 14496-12, 8.7.6). Its own file, the function that reads its
fields in the slow reader, and its rows are below. In each other file of the crates its lines are copies
of the lines of an existing box, with the names of the new one. A file that the page doesn't name is left unchanged, so
a step that is missing there fails here. The test proves nothing, and takes some minutes.

It counts the lists in src/, specs/ and proofs/ that get an entry, and the lines that the box takes: those of src/ and
specs/, after `rt fmt`, that are neither blank nor comments. More than MOST_LISTS or MOST is a failure.

With TEST_KEEP=FOLDER the copy is made in that folder, and stays.
"""
import concurrent.futures
import glob
import itertools
import os
import re
import shutil
import subprocess
import sys
import tempfile
import unittest

from tests.built import TOP

MAP = os.path.join(TOP, "docs", "internals", "MAP.md")
NEW = "padb"
# The box whose lines are copied.
LIKE = "mfro"
# The largest number of lists of the crates, besides that of the codes, that a box may need an entry in.
MOST_LISTS = 10
# The largest number of lines of code and definitions that a box of a few numbers may take.
MOST = 76
# The function of the slow reader that reads the fields.
READER = '''def padb(c):
    c.full(1)
    c.numbers("4 sample_count")
    c.bytes("pads")


'''
BOX = '''//! The padding bits box.

ghost use Rattle.mp4_declared.specs.OwnBox.{layout_of};
ghost use Rattle.mp4_extra_samples.specs.declared.padb.TheConstants.{NAMES};
ghost use Rattle.mp4_frame.specs.declared.codes.TheConstants as codes;
ghost use Rattle.mp4_shown.specs.TakenShapes.{declared_taken};
ghost use Rattle.std.proofs.Common.{refl, lit<};

use mp4_declared::declaring::*;
use mp4_frame::{Result, codes};
use mp4_shown::taken::{self, Object, TakeFields, TakeShape, take_declared};
use mp4_shown::{FieldSink, HasFields, NamedShape, ShowShape, View, names_of, number, run};
use std::alloc::Global;

/// The padding bits at the end of each sample (`padb`, ISO/IEC 14496-12, 8.7.6).
#[derive(Debug, Drop, PartialEq, Eq)]
pub struct Padb {
    /// 0 in the standard.
    pub version: u8,
    /// 24 bits, 0 in the standard.
    pub flags: u32,
    /// The number of samples.
    pub sample_count: u32,
    /// A byte for each two samples, with half of it for each sample: a reserved bit, and the number of padding bits in
    /// 3 bits.
    pub pads: Entries<u8>,
}

/// The content of the box: version, flags, a number, and bytes up to its end.
pub type PadbShape = Full<1, (U32, Last<Rest>)>;

impl DeclaredBox for Padb {
    ghost use Rattle.mp4_extra_samples.specs.contracts.padb.Padb.{struct};

    type Shape = PadbShape;

    ghost CODE = { codes.PADB };

    ghost layout = { layout_of struct (λ _. tt) (λ _. refl) (lit< tt) };

    const CODE: u32 = codes::PADB;

    fn from_content(found: <PadbShape as Shape>::Value) -> Padb {
        box_of!(found => Padb { version, flags, sample_count, pads })
    }

    fn visit<Q: ShapeVisitor<Self::Shape>>(&self, out: &mut [u8]) -> Q::Answer {
        let parts = parts_of!(self => version, flags, sample_count, pads.as_slice());
        Q::visit(parts, out)
    }

    ghost valid = { refl };
}

/// The names of the fields.
const NAMES: &<PadbShape as NamedShape>::Names = &names_of!(
    number!("version"),
    number!("flags", Flags(6)),
    number!("sample_count"),
    run!("pads", Bytes)
);

impl HasFields for Padb {
    ghost shown = { λ view b. ⟦<PadbShape as NamedShape>⟧.shown NAMES.now view
        (⟦<Padb as DeclaredBox>⟧.layout.content b) };

    ghost whole = { λ view b. ⟦<PadbShape as NamedShape>⟧.whole NAMES.now view
        (⟦<Padb as DeclaredBox>⟧.layout.content b) };

    fn show<K: FieldSink>(&self, view: View, sink: &mut K) -> mp4_shown::Result<()> {
        let parts = parts_of!(self => version, flags, sample_count, pads.as_slice());
        PadbShape::show(NAMES, view, &parts, sink)
    }
}

impl TakeFields for Padb {
    ghost taken = { declared_taken ⟦<Padb as DeclaredBox>⟧.layout (⟦<PadbShape as TakeShape>⟧.taken NAMES.now) };

    fn take(alloc: Global, object: &mut Object<'_>) -> taken::Result<Padb> {
        take_declared::<Padb, PadbShape>(alloc, NAMES, object)
    }
}

impl TryClone for Padb {
    fn try_clone(&self) -> Result<Padb> {
        let pads = self.pads.try_clone()?;
        Ok(Padb { pads, ..*self })
    }
}

/// The padding bits box.
pub type PadbBox = Declared<Padb>;
'''
# Five samples, with 5, 2, 7, 1 and 3 padding bits.
FILE = bytes.fromhex("00000013 70616462 00818283 00000005 527130")
LINE = "padb @0 +19 version: 0, flags: 0x818283, sample_count: 5, pads: 527130 (3 bytes)\n"
ROWS = '''"""`padb`, the padding bits of samples: five samples with 5, 2, 7, 1 and 3 bits. Two samples share a byte."""

from tests.rows.making import Box, box, declared_as, u32

PADB = box(b"padb", b"\\0\\x81\\x82\\x83", u32(5), b"\\x52\\x71\\x30")


def five_samples():
    value = Box("padb", version=0, flags=0x818283, sample_count=5, pads=[0x52, 0x71, 0x30])
    yield from declared_as(PADB, value)
'''


def files():
    """Returns the files that a new box touches, as the page lists them, with the name of the new box for `x`."""
    with open(MAP, encoding="utf-8") as page:
        text = page.read()
    part = re.search(r"^## A new box$(.*?)^## ", text, re.M | re.S).group(1)
    block = re.search(r"^```text\n(.*?)^```$", part, re.M | re.S).group(1)
    found = []
    for line in block.splitlines():
        first, *others = re.split(r"\s{2,}", line)[0].replace("/x.", f"/{NEW}.").split(", ")
        for name in (first, *(os.path.join(os.path.dirname(first), it) for it in others)):
            there = sorted(glob.glob(os.path.join(TOP, name + "**" if name.endswith("/") else name), recursive=True))
            found += [os.path.relpath(it, TOP) for it in there if os.path.isfile(it)] or [name]
    return found


def names(text):
    """Returns `text` with the names of the old box changed to those of the new one."""
    for change in (str.lower, str.capitalize, str.upper):
        text = re.sub(rf"(?<![^\W_]){change(LIKE)}(?=Box\b|Shape\b|\b)", change(NEW), text)
    return text


def with_copies(text):
    """Returns `text` with a copy for the new box after each run of lines and each impl of the old box, and the number
    of copies."""
    impl = rf"^impl [^\n]*\b{LIKE.capitalize()}(?:Box)?\b.*?^}}\n\n?"
    pieces, copies = [], 0
    for piece in re.split(f"({impl})", text, flags=re.M | re.S):
        is_impl = re.fullmatch(impl, piece, re.M | re.S)
        for is_old, lines in itertools.groupby(piece.splitlines(True), lambda it: bool(is_impl) or names(it) != it):
            old = "".join(lines)
            pieces.append(old + names(old) if is_old else old)
            copies += is_old
    return "".join(pieces), copies


def with_answers(text):
    """Returns `text`, a file of proofs, with an answer for the new box after each answer of the old box, and 1 if it
    has some."""
    answers = text.split("\n\n")
    return "\n\n".join(it if names(it) == it else f"{it}\n\n{names(it)}" for it in answers), text != names(text)


def add(folder):
    """Adds the box in a copy. Returns the files that were touched, and the number of lists in src/, specs/ and proofs/
    that got an entry."""
    touched, lists = [], 0
    for file in files():
        path = os.path.join(folder, file)
        if file.endswith(f"mp4_extra_samples/src/{NEW}.rt"):
            text = BOX
        elif file.endswith(f"tests/rows/{NEW}.py"):
            text = ROWS
        elif file == "tests/readers/extra.py":
            with open(path, encoding="utf-8") as old:
                text = old.read().replace(f"def {LIKE}(c):\n", READER + f"def {LIKE}(c):\n")
            text = text.replace(f'"{LIKE}": {LIKE},', f'"{LIKE}": {LIKE}, "{NEW}": {NEW},')
        elif file.startswith("crates/"):
            with open(path, encoding="utf-8") as old:
                before = old.read()
            text, copies = (with_answers if "/proofs/" in file else with_copies)(before)
            if not copies or f"pub const {NEW.upper()}: u32" in before:
                continue
            lists += copies if re.search(r"/(src|specs|proofs)/", file) else 0
        else:
            continue
        with open(path, "w", encoding="utf-8") as new:
            new.write(text)
        touched.append(file)
    return touched, lists


def lines_of(top, file):
    """Returns the number of lines of a file of src/ or specs/ that are neither blank nor comments, or 0 if there is no
    such file."""
    path = os.path.join(top, file)
    if not re.search(r"/(src|specs)/", file) or not os.path.exists(path):
        return 0
    with open(path, encoding="utf-8") as source:
        return sum(not re.match(r"\s*(//|--|$)", line) for line in source)


def copy(folder):
    for part in ("crates.txt", "HANDLES"):
        shutil.copy(os.path.join(TOP, part), folder)
    leave = shutil.ignore_patterns("out")
    for part in ("crates", "docs", "tests", "tools"):
        shutil.copytree(os.path.join(TOP, part), os.path.join(folder, part), ignore=leave)


def run(folder, *words, **environment):
    """Runs a command in a folder of the copy, which has to succeed. Returns its output."""
    ran = subprocess.run(words, cwd=folder, env={**os.environ, **environment}, stdout=subprocess.PIPE,
                         stderr=subprocess.STDOUT, text=True, check=False)
    if ran.returncode:
        raise AssertionError(f"{ran.stdout}\n{' '.join(words)} of the copy failed")
    return ran.stdout


class NewBox(unittest.TestCase):
    def test_the_steps_of_the_page_are_enough(self):
        kept = os.environ.get("TEST_KEEP")
        folder = kept or tempfile.mkdtemp(prefix="new-box-")
        if not kept:
            self.addCleanup(shutil.rmtree, folder, ignore_errors=True)
        os.makedirs(folder, exist_ok=True)
        copy(folder)
        touched, lists = add(folder)
        for crate in sorted({file.split("/")[1] for file in touched if file.startswith("crates/")}):
            run(os.path.join(folder, "crates", crate), "rt", "fmt")
        lines = sum(lines_of(folder, file) - lines_of(TOP, file) for file in touched)
        with concurrent.futures.ThreadPoolExecutor() as builds:
            programs = ("test_probe", "mp4_inspect")
            list(builds.map(lambda it: run(folder, sys.executable, "tools/building.py", "program", it, it), programs))
        rows = f"tests.rows.test_rows.Rows.test_{NEW}_five_samples"
        run(folder, sys.executable, "-m", "unittest", rows, TEST_PROGRAMS=folder)
        with open(os.path.join(folder, "file"), "wb") as made:
            made.write(FILE)
        self.assertEqual(run(folder, "./mp4_inspect", "file"), LINE)
        print(f"new box: {NEW} is read, written and shown. {lists} lists got an entry. {lines} lines of code and "
              f"definitions in {len(touched)} files were added; the page has {len(files())}")
        self.assertLessEqual(lists, MOST_LISTS, "lists that got an entry")
        self.assertLessEqual(lines, MOST, "lines of code and definitions")


if __name__ == "__main__":
    unittest.main()
