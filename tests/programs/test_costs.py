"""Runs the built program mp4inspect over files that cost many times their length, which docs/ASSURANCE.md lists under
"What hostile files cost". The multiples of its table are upper bounds: a run may write as much as the table says, and
has to write more than half of it. It may have twice as many addresses as the table has memory, since a vector that
grows has two copies for a moment.

Also measures the processor time of each command, and of `mp4remux faststart`, over movies with many tracks and
fragments. It has to be linear in their number. The times of `qt-faststart` are printed beside those of `faststart`, if
it is on the machine.

Setting: LENGTH, the approximate number of bytes of a file (100,000)."""

import os
import re
import shutil
import subprocess
import tempfile
import unittest

from tests.built import built, number, source
from tests.files import faulty
from tests.files.made import be, box, full, nested

PLACE = [b"moov", b"trak", b"mdia", b"minf", b"stbl"]
DEEPEST = [b"moov"] + [b"trak"] * 31
# A number of KiB that is enough for the addresses of a run over a small file.
SMALL_RUN = 8192
# The numbers of tracks of movies. Between the last two the time may grow by GROWTH, twice as much as the tracks, and by
# SPARE seconds, since short runs differ. A run over a movie ends after MOST seconds.
TRACKS, GROWTH, SPARE, MOST = (100, 400, 1600), 8, 0.1, 30
COMMANDS = [[], ["--json"], ["check"], ["samples", "--csv"], ["faststart"]]


def long_paths(content, boxes):
    """Puts `content` inside 31 boxes, each the last of `boxes` boxes with its code."""
    for name in reversed(DEEPEST):
        content = box(name) * (boxes - 1) + box(name, content)
    return content


def costly(length):
    """Returns the files of the table, of about `length` bytes each, by their words in the table."""
    sdtp, stz2 = full(b"sdtp", 0, 0, b"\xFF" * length), full(b"stz2", 0, 0, be(4, 4, 2 * length) + b"\xFF" * length)
    name = be(4, 0, 0) + b"vide" + bytes(12) + b"\1" * length + b"\0"
    count = length // 8
    return {
        "one `sdtp`, inside 31 boxes": nested(DEEPEST, sdtp),
        "one `sdtp`, in an `stbl`": nested(PLACE, sdtp),
        "one `sdtp`": nested(PLACE, sdtp),
        "one `stz2` of 4 bits, inside 31 boxes": nested(DEEPEST, stz2),
        "one `stz2` of 4 bits, in an `stbl`": nested(PLACE, stz2),
        "one `saiz`, inside 31 boxes": nested(DEEPEST, full(b"saiz", 0, 0, b"\0" + be(4, length) + b"\xFF" * length)),
        "one `dfLa` of empty blocks, inside 31 boxes": nested(DEEPEST, full(b"dfLa", 0, 0, bytes(length // 4 * 4))),
        "one `hdlr`, whose name is control characters": box(b"hdlr", name),
        "boxes of 8 bytes": box(b"free") * count,
        "boxes of 8 bytes, codes of control characters": box(b"\1\1\1\1") * count,
        "boxes of 8 bytes, inside 31 others": nested(DEEPEST, box(b"stco") * count),
        "boxes of 8 bytes that are faults, inside 31 others": nested(DEEPEST, box(b"stco") * count),
        "boxes of 8 bytes that are faults, inside 31 others with long paths":
            long_paths(box(b"stco") * count, max(length // 10000, 1)),
    }


def rows():
    """Yields the rows of the table: the content of the file, the words of the command, and the multiples of output and
    memory."""
    table = re.search(r"^what fills the file \| .*\n---.*\n((?:.* \| .*\n)+)", source("docs", "ASSURANCE.md"), re.M)
    for line in table[1].splitlines():
        what, command, output, memory = line.split(" | ")
        yield what, [] if command == "no option" else [command.strip("`")], int(output), int(memory)


def tracks(count):
    """Returns a movie of `count` tracks with a sample each, behind the media data."""
    tables = [faulty.stbl([faulty.MEDIA + index], [1]) for index in range(count)]
    return faulty.front(count) + faulty.moov(*(faulty.trak(it, track_id) for track_id, it in enumerate(tables, 1)))


def fragments(count):
    """Returns a movie of `count` tracks without samples, with a fragment of a sample each, behind the media data. The
    fragments are in as many movie fragments as there are tracks in each."""
    ids, each = range(1, count + 1), int(count**0.5)
    defaults = box(b"mvex", b"".join(full(b"trex", 0, 0, be(4, track_id, 1, 10, 1, 0)) for track_id in ids))
    trafs = [faulty.traf(track_id, 1, be(8, faulty.MEDIA), faulty.trun(0, [1])) for track_id in ids]
    movie = faulty.moov(*(faulty.trak(faulty.stbl([], []), track_id) for track_id in ids), defaults)
    return faulty.front() + movie + b"".join(faulty.moof(*trafs[at:at + each]) for at in range(0, count, each))


def seconds(words):
    """Returns the processor time of a run, which has to succeed: the least of three runs, if they are short."""
    least = MOST
    for _ in range(3):
        with subprocess.Popen(["sh", "-c", f'ulimit -t {MOST} && exec "$@"', "sh", *words], stdout=subprocess.DEVNULL,
                              stderr=subprocess.PIPE) as process:
            said = process.stderr.read()
            _, status, usage = os.wait4(process.pid, 0)
            process.returncode = os.waitstatus_to_exitcode(status)
        if process.returncode:
            raise AssertionError(f"{words}: status {process.returncode}, {said}")
        least = min(least, usage.ru_utime + usage.ru_stime)
        if least > 1:
            break
    return least


def times(make, words):
    """Returns the processor times of the runs over the movies of `make`. `words` returns the command for the path of a
    movie and another path."""
    with tempfile.TemporaryDirectory() as folder:
        took = []
        for count in TRACKS:
            path = os.path.join(folder, f"{count}.mp4")
            with open(path, "wb") as file:
                file.write(make(count))
            took.append(seconds(words(path, path + ".out")))
    return took


def said(words, make, took):
    """Returns the line of some times."""
    return f"{' '.join(words) or 'tree'}, {make.__name__}: " + ", ".join(
        f"{count}: {time:.3f} s" for count, time in zip(TRACKS, took))


class Costs(unittest.TestCase):
    def test_each_file_has_its_row(self):
        self.assertEqual({what for what, *_ in rows()}, set(costly(1000)))

    def test_output_and_memory(self):
        files = costly(number("LENGTH", 100000))
        for what, words, output, memory in rows():
            with self.subTest(file=what, words=words), tempfile.NamedTemporaryFile() as file:
                data = files[what]
                file.write(data)
                file.flush()
                limit = SMALL_RUN + 2 * memory * len(data) // 1024
                limited = ["sh", "-c", 'ulimit -v "$0" && exec "$@"', str(limit)]
                done = subprocess.run([*limited, built("mp4_inspect"), *words, "--", file.name], capture_output=True,
                                      check=False)
                self.assertIn(done.returncode, (0, 1), f"in {limit} KiB: {done.stderr}")
                self.assertEqual(done.stderr, b"")
                found = len(done.stdout) / len(data)
                self.assertTrue(output / 2 < found <= output, f"{found:.1f} times the file is written, not {output}")


class Times(unittest.TestCase):
    def compare(self, make, words):
        """Measures a command over the movies of `make`, and prints the times."""
        program = built("mp4_remux_program" if words == ["faststart"] else "mp4_inspect")
        took = times(make, lambda path, out: [program, *words, "--", path, *[out] * (words == ["faststart"])])
        self.assertLess(took[-1], GROWTH * took[-2] + SPARE, said(words, make, took))
        print(f"costs: {said(words, make, took)}")
        if words == ["faststart"] and shutil.which("qt-faststart"):
            took = times(make, lambda path, out: ["qt-faststart", path, out])
            print(f"costs: {said(['qt-faststart'], make, took)}")


def time_of(make, words):
    return lambda self: self.compare(make, words)


for make_ in (tracks, fragments):
    for words_ in COMMANDS:
        if make_ is not fragments or words_ != ["faststart"]:
            setattr(Times, f"test_{(words_ or ['tree'])[0].strip('-')}_of_{make_.__name__}", time_of(make_, words_))


if __name__ == "__main__":
    unittest.main()
