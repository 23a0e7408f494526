"""Runs `mp4inspect diff` as a user does.

- Lines, objects and statuses worked out by hand, for small files that differ in one way each.
- Stored files and files made by hand: each beside itself, beside damaged forms of it and beside the next one. The
  objects are compared with a second computation (readers/diff.py) and with docs/diff.schema.json.
- A file and its faststart differ only in the order of boxes.
- Files that can't be read, the standard input, a closed pipe, and names.
- The time for movies of many fragments, and for tops of many boxes.

Settings: COUNT (200 damaged files), SEED."""

import os
import random
import resource
import shutil
import subprocess
import tempfile
import unittest

from tests.built import built, number
from tests.files.inspected import check_schema, damaged, files, load, schema
from tests.files.made import be, box, ftyp, full, handler, mdhd, movie, nested, track, visual
from tests.programs.test_inspect import Runs, write_file
from tests.readers import diff

COUNT, SEED = number("COUNT", 200), number("SEED", 1)


def sized(*sizes):
    return full(b"stsz", 0, 0, be(4, 0, len(sizes), *sizes))


def times(*runs):
    return full(b"stts", 0, 0, be(4, len(runs)) + b"".join(be(4, *run) for run in runs))


def chunks(*offsets, wide=False):
    return full(b"co64" if wide else b"stco", 0, 0, be(4, len(offsets)) + be(8 if wide else 4, *offsets))


def within(*boxes):
    """Returns a `moov` with a track that has these boxes in its table of samples."""
    return nested([b"moov", b"trak", b"mdia", b"minf", b"stbl"], b"".join(boxes))


def entry(time, first, second, other=None):
    """Returns the line about the entries of two `tfra`, with offsets unless these are None."""
    texts = []
    for at, when in ((first, time), (second, other or time)):
        offset = "" if at is None else f'"moof_offset":{at},'
        text = f'{{"time":{when},{offset}"traf_number":1,"trun_number":1,"sample_number":1}}'
        texts.append(text if len(text) <= 60 else text[:60] + "..")
    return f"mfra/tfra: entries[0]: {' | '.join(texts)}; 1 | 1 entries"


STBL = "moov/trak/mdia/minf/stbl"
FTYP = ftyp(b"isom", b"isom", b"mp41")
FREE = box(b"free", b"abcd")
TWO = box(b"moov", nested([b"trak", b"mdia"], mdhd(600, b"und")) + nested([b"trak", b"mdia"], mdhd(48000, b"und")))
ONE = box(b"moov", nested([b"trak", b"mdia"], mdhd(600, b"und")))
SLOWER = box(b"moov", nested([b"trak", b"mdia"], mdhd(600, b"und")) + nested([b"trak", b"mdia"], mdhd(44100, b"deu")))
SIDX = [full(b"sidx", 0, 0, be(4, 1, 600, 0, first, 1, 100, 600, 0x90000000)) for first in (0, 40)]
TFHD = [nested([b"moof", b"traf"], full(b"tfhd", 0, 1, be(4, 1) + be(8, at))) for at in (100, 200)]
TFRA = [nested([b"mfra"], full(b"tfra", 0, 0, be(4, 1, 0, 1) + be(4, time, at) + be(1, 1, 1, 1)))
        for time, at in ((5, 100), (5, 200), (6, 100))]
SAIO = [within(full(b"saio", 0, 0, be(4, len(offsets), *offsets))) for offsets in ((100, 200), (100, 300), (100,))]
ILOC = [box(b"meta", be(4, 0) + full(b"iloc", 0, 0, bytes([0x44, 0]) + be(2, 1, 1, 0, 1) + be(4, at, 10)))
        for at in (100, 200)]
# Two files, the lines about them, and the lines with --offsets if these are others.
CASES = {
    "same": (FTYP + TWO, FTYP + TWO, []),
    "both_empty": (b"", b"", []),
    "empty": (b"", FTYP + FREE, ["+ ftyp", "+ free"]),
    "value": (FTYP, ftyp(b"isom", b"isom", b"avc1"),
              ['ftyp: compatible_brands: ["isom","mp41"] | ["isom","avc1"]']),
    "fields": (TWO, SLOWER, [
        "moov/trak[1]/mdia/mdhd: timescale: 48000 | 44100", "moov/trak[1]/mdia/mdhd: duration: 240000 | 220500",
        'moov/trak[1]/mdia/mdhd: language: "und" | "deu"']),
    "only_first": (TWO + FREE, ONE + FREE, ["- moov/trak[1]"]),
    "only_second": (ONE, TWO + FREE, ["+ moov/trak[1]", "+ free"]),
    "path": (FREE + FREE + box(b"free", b"abxd"), FREE * 3, ["free[2]: the contents differ at byte 2; 4 | 4 bytes"]),
    "longer": (FREE, box(b"free", b"abcdef"), ["free: the contents differ at byte 4; 4 | 6 bytes"]),
    "other_header": (FREE, be(4, 1) + b"free" + be(8, 20) + b"abcd", []),
    "media": (box(b"mdat", b"abcd"), box(b"mdat", b"wxyz"), []),
    "media_length": (box(b"mdat", b"abcd"), box(b"mdat", b"abc"), ["mdat: 4 | 3 bytes of media data"]),
    "media_header": (box(b"mdat", b"abcd"), be(4, 1) + b"mdat" + be(8, 20) + b"abcd", []),
    "list": (within(times((3, 10), (1, 5), (1, 7))), within(times((3, 10), (2, 5))), [
        f'{STBL}/stts: entries[1]: {{"sample_count":1,"sample_delta":5}} | {{"sample_count":2,"sample_delta":5}}; '
        "3 | 2 entries"]),
    "longer_list": (within(times((3, 10))), within(times((3, 10), (1, 5))), [
        f'{STBL}/stts: entries[1]: - | {{"sample_count":1,"sample_delta":5}}; 1 | 2 entries']),
    "sizes": (within(sized(1, 2, 3)), within(sized(1, 2, 4)), [f"{STBL}/stsz: entry_size[2]: 3 | 4; 3 | 3 entries"]),
    "chunks": (within(chunks(100, 200)), within(chunks(100, 300)), [],
               [f"{STBL}/stco: chunk_offset[1]: 200 | 300; 2 | 2 entries"]),
    "more_chunks": (within(chunks(100, 200)), within(chunks(100, 200, 300)),
                    [f"{STBL}/stco: chunk_offset[2]: - | -; 2 | 3 entries"],
                    [f"{STBL}/stco: chunk_offset[2]: - | 300; 2 | 3 entries"]),
    "wide_chunks": (within(chunks(100)), within(chunks(100, wide=True)), [f"- {STBL}/stco", f"+ {STBL}/co64"]),
    "sidx": (*SIDX, [], ["sidx: first_offset: 0 | 40"]),
    "tfhd": (*TFHD, [], ["moof/traf/tfhd: base_data_offset: 100 | 200"]),
    "tfra": (*TFRA[:2], [], [entry(5, 100, 200)]),
    "tfra_time": (TFRA[0], TFRA[2], [entry(5, None, None, 6)], [entry(5, 100, 100, 6)]),
    "saio": (*SAIO[:2], [], [f"{STBL}/saio: offset[1]: 200 | 300; 2 | 2 entries"]),
    "saio_count": (SAIO[0], SAIO[2], [f"{STBL}/saio: offset[1]: - | -; 2 | 1 entries"],
                   [f"{STBL}/saio: offset[1]: 200 | -; 2 | 1 entries"]),
    "iloc": (*ILOC, [], [
        'meta/iloc: data_bytes: "000100000001000000640000000a" | "000100000001000000c80000000a"']),
    "order": (FTYP + ONE + FREE, FTYP + FREE + ONE, ["order of boxes differs: ftyp moov free | ftyp free moov"]),
    "order_inside": (within(times((3, 10)), sized(1)), within(sized(1), times((3, 10))),
                     [f"{STBL}: order of boxes differs: stts stsz | stsz stts"]),
    "order_of_others": (FTYP + ONE + FREE, FREE + ONE, [
        "- ftyp", "order of boxes differs: ftyp moov free | free moov"]),
    "fault": (FREE + be(4, 20) + b"ab", FREE + be(4, 20) + b"ax", [
        "-: the contents differ at byte 5; 6 | 6 bytes"]),
    "cut": (FTYP + FREE[:-1], FTYP + FREE, ['free: fault: "unexpected end of input" | -']),
    "handler": (nested([b"moov", b"trak", b"mdia"], handler(b"vide", b"a\x7f")),
                nested([b"moov", b"trak", b"mdia"], handler(b"vide", b"b")),
                ['moov/trak/mdia/hdlr: name: "a\\u{7f}" | "b"']),
}
# Two files, and the objects about them.
OBJECTS = [
    (FTYP + TWO, ONE + FREE, [
        {"path": "ftyp", "kind": "only_first"}, {"path": "moov/trak[1]", "kind": "only_first"},
        {"path": "free", "kind": "only_second"}]),
    (within(sized(1, 2)), within(sized(1)), [
        {"path": f"{STBL}/stsz", "kind": "field", "field": "sample_count", "first": 2, "second": 1},
        {"path": f"{STBL}/stsz", "kind": "list", "field": "entry_size", "index": 1, "first_count": 2,
         "second_count": 1, "first": 2, "second": None}]),
    (within(sized(1, 2)), within(full(b"stsz", 0, 0, be(4, 1, 2))), [
        {"path": f"{STBL}/stsz", "kind": "field", "field": "sample_size", "first": 0, "second": 1},
        {"path": f"{STBL}/stsz", "kind": "list", "field": "entry_size", "index": 0, "first_count": 2,
         "second_count": 0, "first": 1, "second": None}]),
    (box(b"mdat", b"ab") + FREE, FREE + box(b"mdat"), [
        {"path": "mdat", "kind": "length", "first_length": 2, "second_length": 0},
        {"path": "", "kind": "order", "first": ["mdat", "free"], "second": ["free", "mdat"]}]),
    (FREE, box(b"free", b"aXcdef"), [
        {"path": "free", "kind": "content", "at": 1, "first_length": 4, "second_length": 6}]),
    (be(4, 12) + b"\xa9\xff\0/abcd", b"", [{"path": "0xa9ff002f", "kind": "only_first"}]),
]


class Diff(unittest.TestCase):
    def setUp(self):
        folder = tempfile.mkdtemp(prefix="diff-")
        self.addCleanup(shutil.rmtree, folder)
        self.folder, self.runs = folder, Runs(built("mp4_inspect"), folder)

    def objects(self, first, second, *options):
        """Returns the objects about two files, which fit their schema."""
        write_file(self.folder, "a.mp4", first)
        write_file(self.folder, "b.mp4", second)
        done = self.runs.run("diff", "--json", *options, "a.mp4", "b.mp4")
        found = load(done.stdout)
        check_schema(found, schema("diff"), schema("diff"))
        self.assertEqual((done.returncode, done.stderr), (int(bool(found)), b""))
        return found

    def of_case(self, first, second, lines, with_offsets=None):
        """Compares lines, objects and statuses of a case, also with the files the other way round."""
        for options, wanted in (([], lines), (["--offsets"], lines if with_offsets is None else with_offsets)):
            write_file(self.folder, "a.mp4", first)
            write_file(self.folder, "b.mp4", second)
            text = self.runs.out(int(bool(wanted)), "diff", *options, "a.mp4", "b.mp4")
            self.runs.same(text.split("\n"), [*wanted, ""], "diff")
            self.assertEqual(len(self.objects(first, second, *options)), len(wanted))
            self.assertEqual(len(self.objects(second, first, *options)), len(wanted))
            self.assertEqual(self.objects(first, first, *options), [])

    def compared(self, first, second, what):
        """Compares the objects about two files with the second computation. The fields of a box may be in any order."""
        for options in ([], ["--offsets"]):
            found = self.objects(first, second, *options)
            wanted = diff.differences(first, second, bool(options))
            self.assertEqual([it["path"] for it in found], [it["path"] for it in wanted], what)
            for list_ in (found, wanted):
                list_.sort(key=lambda it: (it["path"], it["kind"], it.get("field", "")))
            for one, two in zip(found, wanted):
                self.assertEqual(one, two, what)
            self.assertEqual(len(found), len(wanted), what)

    def test_objects(self):
        for first, second, wanted in OBJECTS:
            self.assertEqual(self.objects(first, second), wanted)

    def test_files_beside_themselves(self):
        for name, data in files().items():
            with self.subTest(file=name):
                self.assertEqual(self.objects(data, data, "--offsets"), [])

    def test_other_files(self):
        named = list(files().items())
        for (name, data), (other, second) in zip(named, [*named[1:], named[0]]):
            with self.subTest(files=(name, other)):
                self.compared(data, second, (name, other))

    def test_damaged_files(self):
        random_, named = random.Random(SEED), list(files().items())
        for index in range(COUNT):
            name, data = named[index % len(named)]
            other = damaged(random_, data)
            with self.subTest(file=name, index=index):
                pair = (data, other) if random_.random() < 0.5 else (other, data)
                self.compared(*pair, (name, index))

    def test_faststart(self):
        """The moov is moved before the media data, and its chunk offsets grow by its length."""
        media = FTYP + box(b"mdat", bytes(30))
        tables = (times((3, 10)) + full(b"stsc", 0, 0, be(4, 1, 1, 3, 1)) + sized(10, 10, 10) + chunks(len(FTYP) + 8))
        video = track(1, b"vide", b"", b"und", [visual(b"avc1", 64, 48, b"", b"")], tables)
        data = media + movie(video)
        write_file(self.folder, "a.mp4", data)
        subprocess.run([built("mp4_remux_program"), "faststart", "a.mp4", "b.mp4"], cwd=self.folder, check=True)
        line = "order of boxes differs: ftyp mdat moov | ftyp moov mdat\n"
        self.assertEqual(self.runs.out(1, "diff", "a.mp4", "b.mp4"), line)
        first = len(FTYP) + 8
        moved = f"{STBL}/stco: chunk_offset[0]: {first} | {first + len(movie(video))}; 1 | 1 entries\n"
        self.assertEqual(self.runs.out(1, "diff", "--offsets", "a.mp4", "b.mp4"), moved + line)

    def test_inputs(self):
        """One file can be the standard input, as a file or as a pipe, or any other pipe."""
        write_file(self.folder, "a.mp4", TWO)
        self.assertEqual(self.runs.out(0, "diff", "-", "a.mp4", input=TWO), "")
        self.assertEqual(self.runs.out(1, "diff", "a.mp4", "-", input=ONE), "- moov/trak[1]\n")
        with open(os.path.join(self.folder, "a.mp4"), "rb") as file:
            self.assertEqual(self.runs.out(0, "diff", "a.mp4", "-", stdin=file), "")
        for both in (["a.mp4", "a.mp4"], ["/dev/stdin", "a.mp4"]):
            self.assertEqual(self.runs.out(0, "diff", *both, input=TWO), "")

    def test_failures(self):
        """Every failure and misuse has status 2, and a line that says why."""
        write_file(self.folder, "a.mp4", TWO)
        os.mkdir(os.path.join(self.folder, "folder"))
        for arguments, said in (
                (["a.mp4", "none.mp4"], "none.mp4: No such file or directory"),
                (["none.mp4", "a.mp4"], "none.mp4: No such file or directory"),
                (["folder", "a.mp4"], "folder: this is a directory, not a file"),
                (["a.mp4", "/dev/null"], "/dev/null: this is a device, not a file"),
                (["-", "-"], "only one of the two files can be the standard input")):
            done = self.runs.run("diff", *arguments, input=b"")
            self.assertEqual((done.returncode, done.stdout), (2, b""), arguments)
            self.assertIn(said, done.stderr.decode(), arguments)
        for arguments in ([], ["a.mp4"], ["a.mp4", "a.mp4", "a.mp4"], ["--media", "a.mp4", "a.mp4"]):
            self.assertEqual(self.runs.run("diff", *arguments).returncode, 2, arguments)
        with open("/dev/full", "wb") as full_:
            self.assertEqual(self.runs.run("diff", "-", "a.mp4", input=b"", stdout=full_).returncode, 2)

    def test_closed_pipe(self):
        """A closed pipe is no failure, and the status says whether the files differ."""
        write_file(self.folder, "a.mp4", TWO)
        for arguments, data, status in ((["--json"], TWO, 0), ([], ONE, 1)):
            read, write = os.pipe()
            os.close(read)
            with open(write, "wb") as closed:
                done = self.runs.run("diff", *arguments, "a.mp4", "-", input=data, stdout=closed)
            self.assertEqual((done.returncode, done.stderr), (status, b""))

    def seconds(self, *words):
        before = resource.getrusage(resource.RUSAGE_CHILDREN)
        done = self.runs.run(*words)
        after = resource.getrusage(resource.RUSAGE_CHILDREN)
        return after.ru_utime + after.ru_stime - before.ru_utime - before.ru_stime, done

    def test_speed(self):
        """The time grows with the number of boxes, also if no box has a partner."""
        fragment = nested([b"moof", b"traf"], full(b"tfhd", 0, 0, be(4, 1))) + box(b"mdat", b"abcd")
        for name, data in {"a": fragment * 20000, "b": fragment * 20000 + fragment, "c": box(b"skip") * 200000,
                           "d": box(b"free") * 200000}.items():
            write_file(self.folder, f"{name}.mp4", data)
        for one, two, lines in (("a", "b", 2), ("c", "d", 400000)):
            seconds, done = self.seconds("diff", f"{one}.mp4", f"{two}.mp4")
            self.assertEqual(len(done.stdout.split(b"\n")) - 1, lines)
            self.assertLess(seconds, 20)


def add(name, case):
    setattr(Diff, f"test_case_{name}", lambda self: self.of_case(*case))


for each, its in CASES.items():
    add(each, its)

if __name__ == "__main__":
    unittest.main()
