"""Rewrites files by the library, and compares each new file, byte for byte, and each reason of a refusal with those of
`mp4remux`: over all stored files, the files that are made by hand, the movies, and these in fragments, for each
command, in C (rewriting.c, under sanitizers where the compiler has them), in Rust (rewriting.rs) and in Python. The
program and the library plan by the same crate, so what is compared here are the arguments, the pieces and the texts.

Setting: TEST_JOBS."""

import concurrent.futures
import functools
import glob
import os
import re
import shutil
import subprocess
import tempfile
import unittest
import zlib

from tests.built import TOP, built, codec, library, number
from tests.c.test_c import CC, SANITIZERS, STRICT, has
from tests.files.inspected import files
from tests.files.made import box
from tests.interfaces.asked import callers

FOLDER = os.path.join(TOP, "tests", "interfaces")
FREE, MORE = box(b"free", b"new"), box(b"free", b"more")
UDTA = box(b"udta", box(b"abcd", b"text"))
JPEG, PNG = b"\xff\xd8\xffpicture", b"\x89PNG\r\n\x1a\npicture"
SECOND = 10 ** 9


def changes():
    """Yields changes: the options of `mp4remux edit`, of which {0} and so on are the names of files, the bytes of these
    files, and the changes in Python. Those of a list are in the order in which the program makes them."""
    make = codec().Change
    yield ["--remove", "moov/udta"], [], [make.remove("moov/udta")]
    yield ["--remove", "free"], [], [make.remove("free")]
    yield ["--remove", "moov/trak[1]/edts"], [], [make.remove("moov/trak[1]/edts")]
    yield ["--insert", "/:0={0}"], [FREE], [make.insert("/", FREE, 0)]
    yield ["--insert", "/={0}"], [FREE + MORE], [make.insert("/", FREE + MORE)]
    yield ["--insert", "moov={0}"], [UDTA], [make.insert("moov", UDTA)]
    yield ["--insert", "moov/udta:1={0}"], [FREE], [make.insert("moov/udta", FREE, 1)]
    yield ["--insert", "moov/trak/mdia/minf/stbl={0}"], [FREE], [make.insert("moov/trak/mdia/minf/stbl", FREE)]
    yield ["--replace", "ftyp={0}"], [FREE], [make.replace("ftyp", FREE)]
    yield ["--replace", "moov/udta={0}"], [UDTA], [make.replace("moov/udta", UDTA)]
    yield ["--brand", "iso6,abcd"], [], [make.brands(["iso6", "abcd"])]
    yield ["--language", "1=fra"], [], [make.language(1, "fra")]
    yield ["--rotate", "1=90"], [], [make.rotate(1, 90)]
    yield ["--rotate", "2=270"], [], [make.rotate(2, 270)]
    yield ["--enable", "1"], [], [make.enable(1)]
    yield ["--disable", "1"], [], [make.disable(1)]
    yield ["--no-tags"], [], [make.no_tags()]
    yield ["--title", "Blue \u00e9"], [], [make.title("Blue \u00e9")]
    yield ["--tag", "\u00a9alb=Red"], [], [make.tag("\u00a9alb", "Red")]
    yield ["--cover", "{0}"], [JPEG], [make.cover(JPEG)]
    yield ["--cover", "{0}"], [PNG], [make.cover(PNG)]
    yield ["--drop-track", "1"], [], [make.drop_track(1)]
    yield ["--drop-track", "2"], [], [make.drop_track(2)]
    yield (["--remove", "ftyp", "--insert", "/:0={0}", "--insert", "moov:0={1}", "--language", "1=eng", "--title", "A"],
           [FREE, MORE],
           [make.remove("ftyp"), make.insert("/", FREE, 0), make.insert("moov", MORE, 0), make.language(1, "eng"),
            make.title("A")])
    yield (["--remove", "free", "--brand", "isom", "--drop-track", "2"], [],
           [make.remove("free"), make.brands(["isom"]), make.drop_track(2)])


def word(change):
    """Returns a change as rewriting.c and rewriting.rs take it."""
    it = change.row
    return f"{it.kind},{it.track_id},{it.value},{it.number},{it.path.encode().hex()},{it.bytes.hex()}"


def commands():
    """Yields each command: its name, its options, the bytes of the files that these name, the words of rewriting.c and
    rewriting.rs, and the call in Python."""
    module = codec()
    yield "faststart", [], [], [], module.faststart
    for options, named, made in changes():
        yield "edit", options, named, [word(it) for it in made], lambda file, made=made: module.edit(file, made)
    yield "fragment", [], [], ["0"] * 4, module.fragment
    yield ("fragment", ["--duration", "0.5", "--sidx"], [], [str(SECOND // 2), "1", "0", "0"],
           lambda file: module.fragment(file, seconds=0.5, sidx=True))
    yield ("fragment", ["--duration", "1.25", "--mfra"], [], [str(SECOND * 5 // 4), "0", "1", "0"],
           lambda file: module.fragment(file, seconds=1.25, mfra=True))
    yield "defragment", [], [], [], module.defragment
    yield ("cut", ["--from", "0", "--to", "1"], [], ["0", str(SECOND)], lambda file: module.cut(file, 0, 1))
    yield ("cut", ["--from", "0.75", "--to", "1.5"], [], [str(SECOND * 3 // 4), str(SECOND * 3 // 2)],
           lambda file: module.cut(file, 0.75, 1.5))


@functools.cache
def in_c(folder):
    """Compiles rewriting.c with the library into `folder`, with sanitizers if the compiler has them. Returns the
    program."""
    empty, program = os.path.join(folder, "empty"), os.path.join(folder, "rewriting-c")
    with open(f"{empty}.c", "w", encoding="ascii") as text:
        text.write("int main(void) { return 0; }\n")
    flags = SANITIZERS if has(CC, *SANITIZERS, f"{empty}.c", "-o", empty) and has(empty) else []
    archive = os.path.join(library(), "libmp4_box_codec.a")
    words = [CC, *STRICT, *flags, "-O1", "-I", os.path.join(TOP, "include"), os.path.join(FOLDER, "rewriting.c"),
             archive, "-o", program]
    subprocess.run(words, check=True)
    return program


def read(path):
    with open(path, "rb") as file:
        return file.read()


def done_in(line):
    """Returns what `mp4remux` says that it did, as rewriting.c prints it: the numbers of fragments and of samples, and
    the two positions of a moved moov."""
    numbers = [0] * 4
    patterns = (r"(\d+) fragments?\b", r"(\d+) samples$", r"moved from (\d+)", r"moved from .* to (\d+)")
    for at, pattern in enumerate(patterns):
        found = re.search(pattern, line)
        numbers[at] = int(found[1]) if found else 0
    return " ".join(["done", *map(str, numbers)])


def by_program(folder, name, command, options, named):
    """Returns what `mp4remux` does with the file `name`: the new file, or the reason of the refusal as a text, and what
    it says that it did."""
    words, out = [], os.path.join(folder, "out")
    for at, data in enumerate(named):
        with open(os.path.join(folder, str(at)), "wb") as file:
            file.write(data)
    paths = [os.path.join(folder, str(at)) for at in range(len(named))]
    words = [it.format(*paths) for it in options]
    ran = subprocess.run([built("mp4_remux_program"), command, *words, name, out], capture_output=True, check=False)
    if ran.returncode == 0:
        return read(out), done_in(ran.stdout.decode().removesuffix("\n").removeprefix(f"{out}: "))
    said = ran.stderr.decode()
    if ran.returncode != 1 or not said.startswith(f"mp4remux: {name}: "):
        raise AssertionError(f"{command} {words}: {ran.returncode} {said}")
    return said[len(f"mp4remux: {name}: "):].removesuffix("\n"), ""


def by_caller(program, folder, name, command, words):
    """Returns the same of rewriting.c or rewriting.rs."""
    out = os.path.join(folder, "made")
    ran = subprocess.run([program, command, name, out, *words], capture_output=True, check=False)
    said = ran.stdout.decode().removesuffix("\n")
    if ran.returncode != 0 or ran.stderr or not said.startswith(("done ", "refused ")):
        raise AssertionError(f"{program} {command} {words}: {ran.returncode} {said} {ran.stderr.decode()}")
    return (said[len("refused "):], "") if said.startswith("refused ") else (read(out), said)


def by_python(name, call):
    """Returns the same of the package for Python."""
    with codec().File(name) as file:
        try:
            new = call(file)
        except codec().Refused as why:
            return why.reason, ""
        moved = new.moved or (0, 0)
        if sum(map(len, new.parts)) != new.length or len(new.parts) != len(new.pieces):
            raise AssertionError(f"{name}: {new} has other parts")
        return new.tobytes(), f"done {new.fragments} {new.samples} {moved[0]} {moved[1]}"


def in_fragments(found):
    """Returns the fragmented forms of the files that have one."""
    made = {}
    for name, data in found.items():
        try:
            made[f"fragments of {name}"] = codec().fragment(data).tobytes()
        except codec().Refused:
            pass
    return made


class Rewriting(unittest.TestCase):
    @classmethod
    def setUpClass(cls):
        cls.folder = tempfile.mkdtemp(prefix="rewriting-")
        cls.addClassCleanup(shutil.rmtree, cls.folder)
        cls.callers = {"c": in_c(cls.folder)}
        if has("cargo", "--version"):
            cls.callers["rust"] = callers(cls.folder)[2]
        else:
            print("rewriting: cargo is not on this machine: the crate for Rust was not tried")
        cls.names = {}
        paths = glob.glob(os.path.join(TOP, "tests", "files", "movies", "*.mp4"))
        found = {**files(), **{f"movie {os.path.basename(it)}": read(it) for it in paths}}
        found.update(in_fragments(found))
        os.mkdir(os.path.join(cls.folder, "files"))
        for at, (name, data) in enumerate(sorted(found.items())):
            cls.names[name] = os.path.join(cls.folder, "files", str(at))
            with open(cls.names[name], "wb") as file:
                file.write(data)

    def differences(self, name):
        """Returns how often each command succeeds and is refused for a file, and the differences."""
        found, counts, path = [], {}, self.names[name]
        folder = tempfile.mkdtemp(dir=self.folder)
        for command, options, named, words, call in commands():
            wanted = by_program(folder, path, command, options, named)
            answers = {it: by_caller(program, folder, path, command, words) for it, program in self.callers.items()}
            answers["python"] = by_python(path, call)
            for language, answer in answers.items():
                if answer != wanted:
                    shown = [f"{it if isinstance(it, str) else f'{len(it)} bytes, {zlib.crc32(it)}'} {done}"
                             for it, done in (answer, wanted)]
                    found.append(f"{name}: {command} {options} in {language}: {shown[0]}, not {shown[1]}")
            key = command, isinstance(wanted[0], bytes)
            counts[key] = counts.get(key, 0) + 1
        shutil.rmtree(folder)
        return found, counts

    def test_files(self):
        """Each file is rewritten by each command, or refused, as by `mp4remux`."""
        counts = {}
        with concurrent.futures.ThreadPoolExecutor(number("JOBS", os.cpu_count())) as pool:
            for found, those in pool.map(self.differences, self.names):
                self.assertEqual(found, [])
                for key, count in those.items():
                    counts[key] = counts.get(key, 0) + count
        for command in ("faststart", "edit", "fragment", "defragment", "cut"):
            self.assertGreater(counts.get((command, True), 0), 3, f"{command} rewrote too few files: {counts}")
            self.assertGreater(counts.get((command, False), 0), 3, f"{command} refused too few files: {counts}")

    def movie(self, name):
        return os.path.join(TOP, "tests", "files", "movies", f"{name}.mp4")

    def test_segments(self):
        """Fragments with a `styp` each are the segments that `mp4remux fragment --segments` writes, one after the
        other."""
        out = os.path.join(self.folder, "segments")
        words = [built("mp4_remux_program"), "fragment", "--segments", out, self.movie("video")]
        subprocess.run(words, check=True, capture_output=True)
        names = sorted(it for it in os.listdir(out) if it.endswith(".m4s"))
        self.assertGreater(len(names), 1)
        init = [it for it in os.listdir(out) if it.endswith(".mp4")]
        self.assertEqual(len(init), 1, os.listdir(out))
        segments = b"".join(read(os.path.join(out, it)) for it in [*init, *names])
        self.assertEqual(codec().fragment(self.movie("video"), styp=True).tobytes(), segments)

    def test_rows_that_are_no_change(self):
        """The reason has the number of the change, and what is wrong."""
        calls, file = codec().calls, read(self.movie("video"))
        row = calls.ChangeRow
        cases = [
            (row(0), "no kind of change has this number"),
            (row(12), "no kind of change has this number"),
            (row(calls.CHANGE_REMOVE, "moo"), "this is not a path"),
            (row(calls.CHANGE_REMOVE, "/"), "this is not a path"),
            (row(calls.CHANGE_INSERT, "", FREE), "this is not a path"),
            (row(calls.CHANGE_INSERT, "moov", b""), "there is no box"),
            (row(calls.CHANGE_INSERT, "moov", FREE + b"\0"), "these are not whole boxes, each with a size"),
            (row(calls.CHANGE_INSERT, "moov", b"\0\0\0\0free"), "these are not whole boxes, each with a size"),
            (row(calls.CHANGE_REPLACE, "free", FREE + MORE), "this is not one box"),
            (row(calls.CHANGE_REPLACE, "free", b""), "this is not one box"),
            (row(calls.CHANGE_REPLACE, "free", FREE[:-1]), "these are not whole boxes, each with a size"),
            (row(calls.CHANGE_BRANDS, bytes=b""), "these are not codes of four bytes"),
            (row(calls.CHANGE_BRANDS, bytes=b"isomi"), "these are not codes of four bytes"),
            (row(calls.CHANGE_LANGUAGE, bytes=b"DEU", track_id=1), "this is not three lower-case letters"),
            (row(calls.CHANGE_LANGUAGE, bytes=b"\xff\xff\xff", track_id=1), "this is not three lower-case letters"),
            (row(calls.CHANGE_ROTATE, track_id=1, value=45), "this is not 0, 90, 180 or 270"),
            (row(calls.CHANGE_ENABLE, track_id=1, value=2), "this is neither 0 nor 1"),
            (row(calls.CHANGE_TAG, bytes=b"\xff", value=1), "this is not UTF-8"),
            (row(calls.CHANGE_COVER, bytes=b"GIF89a"), "this is neither JPEG nor PNG"),
        ]
        good = row(calls.CHANGE_LANGUAGE, bytes=b"fra", track_id=1)
        for wrong, words in cases:
            for rows in ([wrong], [good, wrong, wrong]):
                with self.assertRaises(codec().Refused) as caught:
                    calls.edit(file, rows)
                self.assertEqual(caught.exception.reason, f"change {len(rows) // 2}: {words}")
                self.assertEqual(caught.exception.status, calls.REFUSED)

    def test_part_of_no_time(self):
        """mp4remux refuses such a part as a misuse."""
        for begin, end in ((1, 1), (1, 0.5), (0, 0)):
            with self.assertRaises(codec().Refused) as caught:
                codec().cut(self.movie("video"), begin, end)
            self.assertEqual(caught.exception.reason, "the part has to end after it begins")

    def test_no_change(self):
        """A file without changes is the same."""
        new = codec().edit(self.movie("video"), [])
        self.assertEqual(new.tobytes(), read(self.movie("video")))

    def test_media_data_are_pieces(self):
        """The media data are ranges of the old file, and all that is new is smaller than its `moov`."""
        path = self.movie("video")
        movie = codec().File(path)
        for new in (codec().faststart(path), codec().edit(path, [codec().Change.title("A")]),
                    codec().fragment(path), codec().cut(path, 0, 1)):
            self.assertLess(len(new.new_bytes), movie["moov"].length + 1000)
            self.assertTrue(any(not it.is_new for it in new.pieces), new.pieces)


if __name__ == "__main__":
    unittest.main()
