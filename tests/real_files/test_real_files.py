"""Runs mp4inspect over real files, which ffmpeg and heif-enc make (making.py), and looks at the boxes of their trees.

- `check --media` finds no fault in them, except in those of `FAULTS`.
- Lines, JSON and samples are those of a second computation (readers/inspect.py, readers/samples.py). The boxes follow
  one another from the beginning of the file to its end, and those in a box up to the end of that box.
- The samples of each track are the packets that ffprobe reads (packets.py).
- `mp4remux faststart` writes each file with a `moov`, except those of `REFUSED`, and ffmpeg copies the same packets
  from what it writes. Encrypted packets are decrypted by ffmpeg, which needs the offsets of the auxiliary information.
- At least `TYPED` of a hundred boxes of the types of the codec and of mp4_extra have their type in trees of boxes, and
  at least `SHOWN` of a hundred boxes that hold more than boxes are shown with fields. The test prints the numbers for
  each code.

A file that can't be made is skipped with the reason. Setting: KEEP (a folder for the files, which are kept)."""

import collections
import os
import shutil
import subprocess
import tempfile
import unittest

from tests.built import built
from tests.programs.test_inspect import NOT_READ, Runs
from tests.readers.extra import MORE
from tests.readers.inspect import code_text, every, tree
from tests.readers.readers import READERS
from tests.readers.shown import shown, structure_of
from tests.readers.test_trees import STRUCTURE, pieces
from tests.real_files import making, packets

# The fewest files that are made where ffmpeg is present.
FEWEST = 40
# The largest file in bytes.
LARGEST = 100000
# The least share of boxes with a type in trees, and of boxes that are shown with fields, in hundredths.
TYPED, SHOWN = 98, 96
# The ways in which a tree keeps a box of a declared type without the type: as bytes, or in a box that it keeps as
# bytes.
UNTYPED = ["raw", "hidden"]
# The files in which `check` finds a fault, though they are right, each with a part of its line.
FAULTS = {
    # QuickTime: each sample of the table is one of sound, and 2,036 of them have 1,024 bytes by the sound description.
    "adpcm_ms.mov": "1 of 1 chunk lies outside the media data",
    # QuickTime: a number of 0 for the table of colours says that it follows in the entry, before the boxes.
    "raw_palette.mov": "box size too small",
}
# The files of which `samples` prints others than the packets, each with a part of its message.
WRONG_SAMPLES = {"adpcm_ms.mov": "past the end of the file"}
# The files of which ffprobe reads no packets, each with a part of its message. ffmpeg writes `saio` before `saiz`.
WITHOUT_PACKETS = {
    "cenc_frag.mp4": "saio atom found without saiz", "cenc_dash.mp4": "saio atom found without saiz",
}
# The files with a `moov` that `mp4remux faststart` refuses, each with a part of its message. The samples of this one
# end after the file.
REFUSED = {"adpcm_ms.mov": "would not be the same"}
folder, reasons, runs = None, {}, None


def setUpModule():
    global folder, runs
    folder = os.path.abspath(os.environ.get("TEST_KEEP") or tempfile.mkdtemp(prefix="real-files-"))
    os.makedirs(folder, exist_ok=True)
    if not os.environ.get("TEST_KEEP"):
        unittest.addModuleCleanup(shutil.rmtree, folder)
    runs = Runs(built("mp4_inspect"), folder)
    reasons.update(making.make_all(folder))


def read(path):
    with open(path, "rb") as file:
        return file.read()


def made():
    """Yields the name and the bytes of each file that could be made."""
    for name, reason in reasons.items():
        for path in [] if reason else making.paths(folder, name):
            yield os.path.relpath(path, folder), read(path)


def hashes(path):
    """Returns what ffmpeg prints of the packets of the file `path`, decrypted if it is encrypted."""
    key = ["-decryption_key", making.KEY]
    words = ["ffmpeg", "-v", "error", *key, "-i", path, "-map", "0", "-c", "copy", "-f", "framehash", "-"]
    done = subprocess.run(words, capture_output=True, check=False)
    return done.returncode, done.stdout


def kinds(structure):
    """Yields the code of each box of a structure, and how it is kept: as a container, with its type, or as its
    bytes."""
    for kind, code, *others in structure:
        yield code.to_bytes(4, "big").decode("latin-1"), {"codec": "typed", "extra": "typed"}.get(kind, kind)
        if others:
            yield from kinds(others[1])


def named(code):
    """Returns the name of the row for `code`. The items of an `ilst` with `keys` have their numbers as codes."""
    if code is None:
        return "no code"
    return "numbers" if code[:3] == "\0\0\0" and code[3] != "\0" else code_text(code)


def counts(files):
    """Returns for each code the number of boxes of `files` by how mp4inspect shows them, and by how they are kept in
    trees. `hidden` are those that mp4inspect finds in boxes that the tree keeps as bytes."""
    found = collections.defaultdict(collections.Counter)
    for data in files:
        boxes, buffer = next(pieces(data))
        [texts] = shown(built("test_probe"), [(0, buffer)])
        for code, kind in kinds(structure_of(texts[STRUCTURE])):
            found[named(code)][kind] += 1
            found[named(code)]["hidden"] -= 1
        for box, _ in every(boxes):
            numbers = found[named(box["type"])]
            numbers[next((key for key in ("fault", "fields", "children") if key in box), "not read")] += 1
            numbers["hidden"] += 1
    return found


def table(found):
    """Returns the lines of a table of `found`. First come the codes with the most boxes that no tree has as a type or a
    container."""
    columns = ["fields", "children", "not read", "fault", "typed", "container", "raw", "other", "hidden"]
    rows = sorted(found.items(), key=lambda row: (-sum(row[1][it] for it in columns[6:]), -row[1]["not read"], row[0]))
    lines = [f"{'':<10}  {'mp4inspect':<37}  in trees", f"{'code':<10}  {'  '.join(columns)}"]
    for code, numbers in rows:
        cells = (str(numbers[it] or "-").rjust(len(it)) for it in columns)
        lines.append(f"{code:<10}  {'  '.join(cells)}")
    return lines


class RealFiles(unittest.TestCase):
    def boxes_tile(self, boxes, at, end):
        """Checks that `boxes` follow one another from `at` to `end`, and the boxes in them."""
        for box in boxes:
            self.assertEqual(box["position"], at, box["type"])
            at += box["length"]
            inner = box.get("children", [])
            if inner:
                self.assertGreaterEqual(inner[0]["position"], box["position"] + box["header"])
                self.boxes_tile(inner, inner[0]["position"], at)
        self.assertEqual(at, end)

    def of_file(self, name, path):
        data = read(path)
        self.assertLess(len(data), LARGEST)
        runs.compared(data, path)
        runs.sampled(data, path)
        boxes = tree(data)
        self.boxes_tile(boxes, 0, len(data))
        found = runs.run("check", "--media", path).stdout.decode()
        if name in FAULTS:
            self.assertIn(FAULTS[name], found, "there is no such fault any more")
        else:
            self.assertEqual(found, "")
        types = {box["type"] for box in boxes}
        if "moov" in types:
            self.of_samples(name, path, "moof" in types)

    def of_samples(self, name, path, is_fragmented):
        """Compares the samples of the file `path` with its packets."""
        listed = runs.run("samples", "--csv", path)
        if name in WRONG_SAMPLES:
            self.assertIn(WRONG_SAMPLES[name], listed.stderr.decode(), "there is no such message any more")
            return
        self.assertEqual((listed.returncode, listed.stderr), (0, b""))
        samples, (found, said) = packets.samples_of(listed.stdout.decode()), packets.packets_of(path)
        if name in WITHOUT_PACKETS:
            self.assertIn(WITHOUT_PACKETS[name], said)
            return
        self.assertEqual(set(samples), set(found), said)
        for track, those in samples.items():
            wrong = list(packets.disagreements(those, found[track], is_fragmented))
            self.assertEqual(wrong[:8], [], f"track {track}")

    def test_fast_start(self):
        """Compares the packets of each file before and after `mp4remux faststart`. Stills and segments have no `moov`,
        and are refused; of the other files only those of `REFUSED` are."""
        program, refused, moved = built("mp4_remux_program"), 0, 0
        for name, data in made():
            path, out = os.path.join(folder, name), os.path.join(folder, "fast.out")
            done = subprocess.run([program, "faststart", path, out], capture_output=True, text=True, check=False)
            has_movie = any(it.get("type") == "moov" for it in tree(data))
            reason = REFUSED.get(name, "") if has_movie else "there is no moov"
            refused += bool(reason)
            with self.subTest(name):
                self.assertEqual(done.returncode, int(bool(reason)), done.stderr)
                if reason:
                    self.assertIn(reason, done.stderr)
                    continue
                moved += " is moved " in done.stdout
                self.assertEqual(len(read(out)), len(data))
                self.assertEqual(hashes(out), hashes(path))
        print(f"real files: faststart moves {moved} of them and refuses {refused}")

    def test_number_of_files(self):
        if shutil.which("ffmpeg") is None:
            self.skipTest("there is no ffmpeg")
        names = {name for name, reason in reasons.items() if not reason}
        self.assertGreaterEqual(len(names), FEWEST)
        print(f"real files: {len(names)} of {len(reasons)} recipes give {len(list(made()))} files")

    def test_boxes_in_trees(self):
        found = counts(data for _, data in made())
        if not found:
            self.skipTest("there is no file")
        print("\n".join(table(found)))
        known = [numbers for code, numbers in found.items() if code in READERS or code in MORE]
        typed, raw = (sum(sum(numbers[it] for it in those) for numbers in known) for those in (["typed"], UNTYPED))
        read_ = [numbers for code, numbers in found.items() if code not in NOT_READ]
        fields, unread = (sum(numbers[it] for numbers in read_) for it in ("fields", "not read"))
        print(f"real files: of {typed + raw} boxes of declared types {typed} have their type in trees; of"
              f" {fields + unread} boxes that hold more than boxes {fields} are shown with fields")
        self.assertGreaterEqual(100 * typed, TYPED * (typed + raw))
        self.assertGreaterEqual(100 * fields, SHOWN * (fields + unread))


def test_of(name):
    def test(self):
        if reasons[name]:
            self.skipTest(f"{name}: {reasons[name]}")
        for path in making.paths(folder, name):
            with self.subTest(os.path.relpath(path, folder)):
                self.of_file(name, path)
    return test


for one in making.recipes():
    setattr(RealFiles, f"test_{one}".replace(".", "_"), test_of(one))

if __name__ == "__main__":
    unittest.main()
