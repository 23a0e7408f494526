"""Runs the built program mp4inspect as a user does, and compares all that it writes with a second computation
(readers/inspect.py): the lines of trees, JSON, faults, statuses; and the samples of tracks (readers/samples.py).

- Stored files (tests/files/texts/*.hex, as hexadecimal text) and those of made.py, with sample entries of many
  kinds, QuickTime's sound, texts, dates, metadata, and each box of crates/mp4_extra. Their texts are stored in
  tests/files/texts (*.txt), as the second computation has them. The test prints how many boxes are shown with fields.
- Short files, each with lines that were typed by hand (short.py).
- Every beginning of the plain and of the fragmented file, in which each whole box has its lines from the whole file.
- Files with damage.
- The faults of each for `check`, beside a third computation (readers/check.py). Files with one fault each are in
  test_check.py.
- The JSON of each is parsed back and checked against docs/inspect.schema.json.
- Arguments, several files, files and ends that fail, names that are not UTF-8, pipes that are closed, standard input, a
  terminal's width and colours, large files, boxes a thousand deep, boxes that end far away.

Settings: COUNT (300 files with damage), SEED. With TEST_WRITE=1 the stored texts are written, by the second
computation."""

import json
import os
import pty
import random
import re
import resource
import select
import shutil
import subprocess
import tempfile
import threading
import time
import unittest

from tests.built import built, number
from tests.files import made, short
from tests.files.inspected import called, check_schema, damaged, files, load, schema, text_of_tree
from tests.files.made import in_chunks, in_fragment, in_runs
from tests.files.stored import FILES, stored
from tests.readers import check
from tests.readers.inspect import document, every, is_escaped, is_faulty, lines, tree
from tests.readers.samples import segments, written

USAGE = "Usage: "
# Boxes of media and of free space, whose contents are not read. Of a hundred other boxes that have a name, at least
# SHOWN are shown with their fields.
NOT_READ = {"mdat", "free", "skip", "wide"}
SHOWN = 98


def fail(text):
    raise AssertionError(text)


class Runs:
    """Runs of the program, with their number."""

    def __init__(self, program, folder):
        self.program, self.folder, self.count = program, folder, 0
        self.names, self.schema, self.samples_schema = called(), schema("inspect"), schema("samples")
        self.check_schema = schema("check")

    def run(self, *arguments, **ends):
        self.count += 1
        ends.setdefault("stdout", subprocess.PIPE)
        return subprocess.run([self.program, *arguments], stderr=subprocess.PIPE, timeout=120, check=False,
                              cwd=self.folder, **ends)

    def out(self, status, *arguments, **ends):
        """Runs the program, expects `status` and nothing on standard error, and returns the output."""
        done = self.run(*arguments, **ends)
        if done.stderr or done.returncode != status:
            fail(f"{arguments}: status {done.returncode} and not {status}, {done.stderr.decode()}")
        return done.stdout.decode("utf-8")

    def ends(self, arguments, status, out, said, **how):
        """Runs the program with `arguments`, and compares status, output and messages."""
        done = self.run(*arguments, **how)
        if (done.returncode, done.stdout.decode(), done.stderr.decode()) != (status, out, said):
            fail(f"{arguments}: status {done.returncode} and not {status}, {done.stdout.decode()[:400]}, {done.stderr}")

    def same(self, found, wanted, what):
        if found != wanted:
            for one, two in zip(found, wanted):
                if one != two:
                    fail(f"{what}:\n{one}\nand not\n{two}")
            more = max(found, wanted, key=len)[min(len(found), len(wanted))]
            fail(f"{what}: {len(found)} lines and not {len(wanted)}: {more}")

    def compared_text(self, data, what, rows=8):
        """Compares the tree that the program shows for `data` with the second computation. Returns the boxes and the
        lines."""
        boxes = tree(data)
        arguments = [] if rows == 8 else ["--rows", str(rows)]
        text = self.out(int(is_faulty(boxes)), *arguments, "-", input=data)
        wanted = lines(boxes, rows, self.names)
        self.same(text.split("\n"), [*wanted, ""], what)
        return boxes, wanted

    def compared(self, data, what, rows=8):
        """Compares the tree, the JSON and the faults that the program shows for `data` with the second computation.
        Returns the lines."""
        boxes, wanted = self.compared_text(data, what, rows)
        try:
            text = self.out(int(is_faulty(boxes)), "--json", "-", input=data)
            if any(is_escaped(c) for c in text.replace("\n", "")):
                fail(f"{what}, JSON: a character that has to be escaped")
            found = load(text)
            check_schema(found, self.schema, self.schema)
        except ValueError as why:
            fail(f"{what}, JSON: {why}")
        if found != [document("-", boxes)]:
            pair = [[json.dumps(box, sort_keys=True) for box, _ in every(file["boxes"])]
                    for file in (found[0], document("-", boxes))]
            self.same(*pair, what + ", JSON")
        self.checked(data, boxes, what)
        return wanted

    def checked(self, data, boxes, what):
        """Compares the lines and the objects of the faults that the program finds in `data` with the second
        computation."""
        found = check.faults(data, boxes)
        text = self.out(check.status(found), "check", "-", input=data)
        self.same(text.split("\n"), [*check.lines(found), ""], what + ", faults")
        text = self.out(check.status(found, True), "check", "--json", "--strict", "-", input=data)
        objects = load(text)
        check_schema(objects, self.check_schema, self.check_schema)
        self.same([json.dumps(it) for it in objects], [json.dumps({"file": "-", **it}) for it in found],
                  what + ", faults as JSON")
        found = check.faults(data, boxes, True)
        text = self.out(check.status(found), "check", "--media", "-", input=data)
        self.same(text.split("\n"), [*check.lines(found), ""], what + ", faults of samples")

    def sampled(self, data, what, chosen=None, path="-", beyond=False, seconds=False, sync=False, edits=False):
        """Compares the samples that the program shows for `data` in each form with the second computation: rows,
        faults, status."""
        words = [] if chosen is None else ["--track", str(chosen)]
        words += ["--beyond"] if beyond else []
        words += ["--seconds"] if seconds else []
        words += ["--sync"] if sync else []
        words += ["--edits"] if edits else []
        self.listed(data, what, words, lambda form: written(data, form, chosen, beyond, seconds, sync, edits), path)

    def segmented(self, data, what, seconds=False):
        """Compares the segments that the program shows for `data` in each form with the second computation."""
        words = ["--segments", *["--seconds"] * seconds]
        self.listed(data, what, words, lambda form: segments(data, form, seconds))

    def listed(self, data, what, words, computed, path="-"):
        """Compares the rows, the faults and the status of `samples` with `words` in each form with those that
        `computed` returns for the form."""
        ends = {"input": data} if path == "-" else {}
        options = words
        for form, words in (("text", []), ("csv", ["--csv"]), ("json", ["--json"])):
            text, faults_, status = computed(form)
            words += options
            done = self.run("samples", *words, path, **ends)
            if done.returncode != status:
                fail(f"samples {words} of {what}: status {done.returncode} and not {status}, {done.stderr.decode()}")
            self.same(done.stdout.decode().split("\n"), text.split("\n"), f"samples {words} of {what}")
            said = done.stderr.decode().split("\n")[:-1]
            if len(said) != len(faults_):
                fail(f"samples {words} of {what}: {said} and not {faults_}")
            for line, (track, fault) in zip(said, faults_):
                front = f"mp4inspect: {path}: " + ("" if track is None else f"track {track}: ")
                if not line.startswith(front) or fault is not None and line != front + fault:
                    fail(f"samples {words} of {what}: {line} and not {front}{fault}")
            if form == "json":
                check_schema(load(done.stdout.decode()), self.samples_schema, self.samples_schema)


def shown_fields(named):
    """Returns how many boxes of the files `named` are shown with their fields, and how many could be: all with a name
    that can be read, except those that hold only boxes."""
    codes = called().keys() - NOT_READ
    boxes = [box for data in named.values() for box, _ in every(tree(data)) if box["type"] in codes]
    found = sum("fields" in box for box in boxes)
    return found, found + sum(not {"fields", "fault", "children"} & set(box) for box in boxes)


def on_terminal(program, arguments, data, environment):
    """Returns the output of a run on a terminal."""
    parent, child = pty.openpty()
    read, write = os.pipe()
    process = subprocess.Popen([program, *arguments], stdin=read, stdout=child, stderr=subprocess.PIPE, env=environment)
    os.close(child)
    os.close(read)
    os.write(write, data)
    os.close(write)
    found = b""
    while select.select([parent], [], [], 30)[0]:
        try:
            piece = os.read(parent, 65536)
        except OSError:
            break
        if not piece:
            break
        found += piece
    process.communicate()
    os.close(parent)
    return found.decode("utf-8").replace("\r\n", "\n")


def terminals(runs, data):
    """Checks the width and the colours on a terminal."""
    whole = on_terminal(runs.program, ["--wide", "-"], data, {"COLUMNS": "80", "NO_COLOR": "1"})
    if whole.split("\n")[:-1] != lines(tree(data), 8, runs.names):
        fail("a terminal with --wide and NO_COLOR: not the lines of a pipe")
    narrow = on_terminal(runs.program, ["-"], data, {"COLUMNS": "60", "NO_COLOR": "1"})
    long = [line for line in narrow.split("\n") if len(line) > 60 and " " in line.strip()[:-1].split(": ")[-1]]
    if long:
        fail(f"a terminal of 60 columns: {long[0]}")
    if re.sub(r",?\s+", " ", narrow) != re.sub(r",?\s+", " ", whole):
        fail("a terminal of 60 columns: other words than in whole lines")
    for colors, environment in (
            (True, {}), (True, {"NO_COLOR": ""}), (False, {"NO_COLOR": "1"}), (False, {"NO_COLOR": b"\xff"}),
            (False, {"TERM": "dumb"}), (True, {"TERM": "xterm"}), (True, {"TERM": "dumber"})):
        text = on_terminal(runs.program, ["--wide", "-"], data, environment)
        if ("\x1b[" in text) != colors or re.sub("\x1b\\[[0-9]*m", "", text) != whole:
            fail(f"a terminal with {environment}: colours or other words")


def cuts(runs, name):
    """Compares the tree of every beginning of a file, and the JSON and the faults of some, with the second
    computation."""
    data = stored(name)
    whole = {box["position"]: box for box, _ in every(tree(data))}
    for cut in range(1, len(data)):
        what = f"{name}, cut at {cut}"
        if cut % 8:
            boxes, _ = runs.compared_text(data[:cut], what)
        else:
            runs.compared(data[:cut], what)
            boxes = tree(data[:cut])
        found = {box["position"]: box for box, _ in every(boxes)}
        for position, box in whole.items():
            if position + box["length"] <= cut and found.get(position) != box:
                fail(f"{what}: the box at {position} is {found.get(position)}")


def write_file(folder, name, data):
    path = os.path.join(folder, name)
    with open(path, "wb") as file:
        file.write(data)
    return path


def arguments(runs, folder):
    """Checks arguments, several files, and files that can't be read."""
    plain = stored("plain")
    short = plain[:890]
    for words in ([], ["check"], ["--rows"], ["--rows", "x", "plain.mp4"], ["--all", "--rows", "3", "plain.mp4"],
                  ["--no"]):
        done = runs.run(*words)
        if done.returncode != 2 or done.stdout or "try '--help'" not in done.stderr.decode():
            fail(f"misuse {words}: status {done.returncode}, {done.stdout}, {done.stderr.decode()}")
    for words, wanted in ((["--help"], USAGE), (["--version"], "mp4inspect 0.1.0\n"), (["help", "check"], USAGE)):
        if wanted not in runs.out(0, *words):
            fail(f"{words}: not {wanted}")
    boxes = tree(plain)
    text = "\n".join(lines(boxes, 8, runs.names)) + "\n"
    cut = "\n".join(lines(tree(short), 8, runs.names)) + "\n"
    for words, status, wanted in (
            (["plain.mp4"], 0, text), (["--", "check"], 0, text), (["cut.mp4"], 1, cut),
            (["plain.mp4", "cut.mp4"], 1, f"plain.mp4:\n{text}\ncut.mp4:\n{cut}"),
            (["--all", "plain.mp4"], 0, "\n".join(lines(boxes, 10**9, runs.names)) + "\n"),
            (["--rows", "0", "plain.mp4"], 0, "\n".join(lines(boxes, 0, runs.names)) + "\n")):
        if runs.out(status, *words) != wanted:
            fail(f"{words}: not what is wanted")
    found = load(runs.out(1, "--json", "plain.mp4", "cut.mp4"))
    if found != [document("plain.mp4", boxes), document("cut.mp4", tree(short))]:
        fail("the JSON of two files is not that of each")
    wanted = "".join(f"{name}: {line}\n" for name, data in (("plain.mp4", plain), ("cut.mp4", short))
                     for line in check.lines(check.faults(data, tree(data))))
    if runs.out(1, "check", "plain.mp4", "cut.mp4") != wanted:
        fail("the faults of two files are not those of each")
    for words, names in ((["none.mp4", "plain.mp4"], ["none.mp4"]), ([".", "plain.mp4"], ["."])):
        done = runs.run(*words)
        said = done.stderr.decode()
        if done.returncode != 3 or done.stdout.decode() != f"plain.mp4:\n{text}" or names[0] not in said:
            fail(f"{words}: status {done.returncode}, {said}, {done.stdout.decode()[:200]}")
        done = runs.run("--json", *words)
        if done.returncode != 3 or load(done.stdout) != [document("plain.mp4", boxes)]:
            fail(f"--json {words}: status {done.returncode}, {done.stdout[:200]}")
    # There are files with and without a fault, and one with more lines than the program's buffer holds.
    for words in (["plain.mp4"], ["cut.mp4"], ["long.mp4"], ["--json", "plain.mp4"], ["check", "cut.mp4"]):
        with open("/dev/full", "wb") as full:
            done = runs.run(*words, stdout=full)
        if (done.returncode, done.stderr) != (3, b"mp4inspect: write failed\n"):
            fail(f"{words} on a full device: status {done.returncode}, {done.stderr}")
    none = "0 moov: there is no moov, moof, meta or sidx\n"
    write_file(folder, "empty.mp4", b"")
    for words, wanted in ((["empty.mp4"], ""), (["--json", "empty.mp4"], '[{"file":"empty.mp4","boxes":[]}]\n'),
                          (["check", "empty.mp4"], none)):
        done = runs.run(*words)
        said = b"mp4inspect: empty.mp4: this is not an MP4 file: it is empty\n"
        if (done.returncode, done.stdout.decode(), done.stderr) != (1, wanted, said):
            fail(f"an empty file, {words}: status {done.returncode}, {done.stdout}, {done.stderr}")


def names(runs, folder):
    """Checks names that are not UTF-8: they are reported, and the other files are shown. Checks names with control
    characters."""
    plain, cut = (stored("plain"), stored("plain")[:890])
    text, cut_text = ("\n".join(lines(tree(data), 8, runs.names)) + "\n" for data in (plain, cut))
    refused = "this name is not UTF-8, and only names that are can be opened\n"
    cafe, said = b"caf\xe9\x1b.mp4", "mp4inspect: caf\\xe9\\u{1b}.mp4: " + refused
    write_file(folder, os.fsdecode(cafe), plain)
    of_cut, of_plain = ("".join(f"{name}: {line}\n" for line in check.lines(check.faults(data, tree(data))))
                        for name, data in (("cut.mp4", cut), ("plain.mp4", plain)))
    for words, out in (
            (["check", "cut.mp4", cafe, "plain.mp4"], of_cut + of_plain), ([cafe, "plain.mp4"], f"plain.mp4:\n{text}"),
            (["plain.mp4", cafe, "cut.mp4"], f"plain.mp4:\n{text}\ncut.mp4:\n{cut_text}"), ([cafe], ""),
            (["samples", cafe], "")):
        runs.ends(words, 3, out, said)
    done = runs.run("--json", cafe, "plain.mp4")
    wanted = [document("plain.mp4", tree(plain))]
    if (done.returncode, done.stderr.decode()) != (3, said) or load(done.stdout) != wanted:
        fail(f"--json of a name that is not UTF-8: status {done.returncode}, {done.stderr}")
    # A real name is the escaped form of another one. Words that are not UTF-8 are where no name is meant.
    write_file(folder, "caf\\xe9.mp4", plain)
    runs.ends(["caf\\xe9.mp4"], 0, text, "")
    for words in (["--rows", b"\xff", "plain.mp4"], [b"--\xff", "plain.mp4"], ["samples", "plain.mp4", b"\xff"]):
        done = runs.run(*words)
        if done.returncode != 2 or done.stdout or b"\\xff" not in done.stderr or b"\0" in done.stderr:
            fail(f"{words}: status {done.returncode}, {done.stderr}")
    long = b"\xff" + b"x" * 5000
    runs.ends([long], 3, "", f"mp4inspect: \\xff{'x' * 5000}: " + refused)
    odd, shown = "a\x1b[31m\nb\x9b\u202e.mp4", "a\\u{1b}[31m\\nb\\u{9b}\\u{202e}.mp4"
    write_file(folder, odd, cut)
    runs.ends([odd, "plain.mp4"], 1, f"{shown}:\n{cut_text}\nplain.mp4:\n{text}", "")
    runs.ends(["check", odd, "plain.mp4"], 1, of_cut.replace("cut.mp4", shown) + of_plain, "")
    if load(runs.out(1, "--json", odd)) != [document(odd, tree(cut))]:
        fail("the JSON of a name with control characters")
    runs.ends(["none" + odd], 3, "", f"mp4inspect: none{shown}: No such file or directory (os error 2)\n")
    runs.ends([odd + "/x"], 3, "", f"mp4inspect: {shown}/x: Not a directory (os error 20)\n")
    done = runs.run("samples", "plain.mp4", odd)
    if done.returncode != 2 or shown.replace("\\n", "\n") not in done.stderr.decode():
        fail(f"misuse with a name with control characters: {done.returncode}, {done.stderr}")


def closed_pipes(runs, folder):
    """Checks runs into a pipe whose reader is gone. A run ends without a message, with the status of the output until
    then."""
    missing = b"mp4inspect: none.mp4: No such file or directory (os error 2)\n"
    write_file(folder, "sampled.mp4", files()["tables"])
    write_file(folder, "faulty.mp4", made.box(b"stco") * 2000)
    # Messages about samples are written before the pipe is found closed.
    sampled = [(words, runs.run(*words)) for words in (
        ["samples", "sampled.mp4"], ["samples", "--csv", "sampled.mp4"], ["samples", "--json", "sampled.mp4"])]
    for words, status, said in (
            (["plain.mp4"], 0, b""), (["cut.mp4"], 1, b""), (["--json", "plain.mp4"], 0, b""),
            (["--all", "plain.mp4"], 0, b""), (["check", "cut.mp4"], 1, b""), (["--help"], 0, b""),
            (["--version"], 0, b""), *((words, done.returncode, done.stderr) for words, done in sampled),
            # The output of long.mp4 is written while it is read, and its fault is found after that.
            (["long.mp4"], 0, b""), (["check", "faulty.mp4"], 1, b""), (["cut.mp4", "long.mp4"], 1, b""),
            (["long.mp4", "cut.mp4"], 0, b""),
            (["none.mp4", "plain.mp4"], 3, missing), (["none.mp4", "long.mp4", "plain.mp4"], 3, missing),
            (["--json", "cut.mp4", "long.mp4"], 1, b"")):
        read, write = os.pipe()
        os.close(read)
        done = runs.run(*words, stdout=write)
        os.close(write)
        if (done.returncode, done.stderr) != (status, said):
            fail(f"{words} to a closed pipe: status {done.returncode} and not {status}, {done.stderr}")
    # A reader ends once it has a line, and nobody reads the message about a misuse.
    words = f"{runs.program} long.mp4 2> said | head -n 1"
    done = subprocess.run(words, shell=True, cwd=folder, stdout=subprocess.PIPE)
    with open(os.path.join(folder, "said"), "rb") as file:
        said = file.read()
    if done.stdout != b"free @0 +8 not read (free space)\n" or said:
        fail(f"a reader of one line: {done.stdout}, {said}")
    read, write = os.pipe()
    os.close(read)
    status = subprocess.run([runs.program, "--no"], cwd=folder, stderr=write).returncode
    os.close(write)
    if status != 2:
        fail(f"a misuse with a closed pipe as standard error: status {status}")


def reading(runs, folder):
    """Checks files that are pipes, devices or folders, the reasons of failed reads, and the standard input where it is
    a file."""
    plain = stored("plain")
    text = "\n".join(lines(tree(plain), 8, runs.names)) + "\n"
    fifo = os.path.join(folder, "fifo")
    os.mkfifo(fifo)
    for words in (["fifo"], ["fifo", "plain.mp4"]):
        writer = threading.Thread(target=write_file, args=(folder, "fifo", plain))
        writer.start()
        runs.ends(words, 0, text if len(words) == 1 else f"fifo:\n{text}\nplain.mp4:\n{text}", "")
        writer.join()
    read, write = os.pipe()
    os.write(write, plain)
    os.close(write)
    found, wanted = (runs.run("--json", name, pass_fds=(read,)) for name in (f"/dev/fd/{read}", "plain.mp4"))
    os.close(read)
    if load(found.stdout)[0]["boxes"] != load(wanted.stdout)[0]["boxes"] or found.returncode or found.stderr:
        fail(f"a pipe of /dev/fd: {found}")
    with open("/proc/version", "rb") as file:
        piped = runs.run("-", input=file.read())
    named = runs.run("/proc/version")
    if (named.returncode, named.stdout) != (piped.returncode, piped.stdout):
        fail(f"a file of /proc: status {named.returncode}, {named.stdout}, {named.stderr}")
    for path, what in ((".", "this is a directory, not a file{}"), ("/dev/null", "this is a device, not a file"),
                       ("/dev/zero", "this is a device, not a file"),
                       ("/proc/self/mem", "read failed: Input/output error (os error 5)"),
                       ("plain.mp4/x", "Not a directory (os error 20)")):
        for words in ([path], ["check", path], ["--json", path], ["samples", path]):
            hint = "" if "samples" in words else "; -r reads the files in it"
            runs.ends(words, 3, "[]\n" if "--json" in words else "", f"mp4inspect: {path}: {what.format(hint)}\n")
    here = os.open(folder, os.O_RDONLY)
    runs.ends(["-"], 3, "", "mp4inspect: -: read failed: Is a directory (os error 21)\n", stdin=here)
    os.close(here)
    done = subprocess.run([runs.program, "-"], preexec_fn=lambda: os.close(0), capture_output=True)
    if (done.returncode, done.stderr) != (3, b"mp4inspect: -: read failed: Bad file descriptor (os error 9)\n"):
        fail(f"a closed standard input: status {done.returncode}, {done.stderr}")
    # The standard input is read from its current position.
    path = write_file(folder, "behind.mp4", bytes(100) + plain)
    for position in (0, 100):
        with open(path, "rb", buffering=0) as file:
            file.seek(position)
            wanted = runs.run("-", input=(bytes(100) + plain)[position:])
            found = runs.run("-", stdin=file)
        if (found.returncode, found.stdout, found.stderr) != (wanted.returncode, wanted.stdout, wanted.stderr):
            fail(f"the standard input from {position}: status {found.returncode}, {found.stdout}, {found.stderr}")
    # If a file can't be opened and another has a fault, the status is that of the worst.
    for words in (["check", "none.mp4", "cut.mp4"], ["check", "cut.mp4", "none.mp4"], ["none.mp4", "cut.mp4"]):
        if runs.run(*words).returncode != 3:
            fail(f"{words}: not status 3")


def samples(runs, folder, files):
    """Compares the samples of all files, of single tracks, and of a file with random access. Checks misuse, and output
    that fails."""
    for name, data in files.items():
        runs.sampled(data, name)
        for chosen in (0, 1, 2, 4, 7, 9):
            runs.sampled(data, name, chosen)
        runs.sampled(data, name, None, os.path.basename(write_file(folder, "sampled.mp4", data)))
        runs.sampled(data, name, None, "-", True)
        runs.sampled(data, name, seconds=True)
        runs.sampled(data, name, sync=True)
        runs.sampled(data, name, edits=True)
        runs.sampled(data, name, seconds=True, edits=True)
        runs.segmented(data, name)
        runs.segmented(data, name, True)
    runs.sampled(b"", "an empty file")
    data = files["tables"]
    write_file(folder, "sampled.mp4", data)
    for at in range(data.index(b"mvhd"), len(data), 5):
        runs.sampled(data[:at], f"tables, cut at {at}")
    for words in ([], ["--json", "--csv", "sampled.mp4"], ["--track", "x", "sampled.mp4"], ["--all", "sampled.mp4"],
                  ["sampled.mp4", "sampled.mp4"]):
        done = runs.run("samples", *words)
        if done.returncode != 2 or done.stdout or "try '--help'" not in done.stderr.decode():
            fail(f"misuse of samples {words}: status {done.returncode}, {done.stdout}, {done.stderr.decode()}")
    done = runs.run("samples", "none.mp4")
    if done.returncode != 3 or done.stdout or "none.mp4" not in done.stderr.decode():
        fail(f"samples of no file: {done.returncode}, {done.stdout}, {done.stderr}")
    with open("/dev/full", "wb") as full:
        done = runs.run("samples", "sampled.mp4", stdout=full)
    if done.returncode != 3 or b": write failed" not in done.stderr:
        fail(f"samples on a full device: {done.returncode}, {done.stderr}")


# Files that count more samples than are listed, or just as many. Each has the number of rows that are written, and the
# line of each track that has more samples, worked out by hand. The media data of in_chunks begin at 485 with one track
# of one size, and the first moof of in_runs begins at 517 where no sizes are listed.
PAST, REST = "past the end of the file", "not listed (--beyond lists them)"
UNLISTED = [
    ("3,000,000 samples of one size", in_chunks(28, (3000000, 1)), 28,
     [f"track 1: sample 29 ends at 514, {PAST} (513 bytes): this and 2999971 more samples are {REST}"]),
    ("a run of 16,711,682 samples", in_runs(721, [], 11, [(16711682,)]), 72,
     [f"track 1: sample 73 ends at 1320, {PAST} (1310 bytes): this and 16711609 more samples are {REST}"]),
    ("samples up to the end of the file", in_chunks(30, (3, 10)), 3, []),
    ("a sample one byte past the end of the file", in_chunks(29, (3, 10)), 2,
     [f"track 1: sample 3 ends at 515, {PAST} (514 bytes): this sample is not listed (--beyond lists it)"]),
    ("two samples past the end of the file", in_chunks(29, (4, 10)), 2,
     [f"track 1: sample 3 ends at 515, {PAST} (514 bytes): this and 1 more sample are {REST}"]),
    ("two tracks, the first past the end of the file", in_chunks(29, (4, 10), (2, 5)), 4,
     [f"track 1: sample 3 ends at 848, {PAST} (847 bytes): this and 1 more sample are {REST}"]),
    ("two tracks, both past the end of the file", in_chunks(1, (4, 10), (5, 1)), 1,
     [f"track 1: sample 1 ends at 828, {PAST} (819 bytes): this and 3 more samples are {REST}",
      f"track 2: sample 2 ends at 820, {PAST} (819 bytes): this and 3 more samples are {REST}"]),
    ("samples without bytes", in_chunks(8, (3, 0, 4, 0, 0)), 3, []),
    ("samples without bytes at the end of the file", in_chunks(8, (2, 0, 0, 0))[:-8], 2, []),
    ("samples without bytes past the end of the file", in_chunks(8, (2, 0, 0, 0))[:-9], 0,
     [f"track 1: sample 1 ends at 493, {PAST} (492 bytes): this and 1 more sample are {REST}"]),
    ("fragments past the end of the file", in_runs(0, [], 200, [(1,)], [(2,)], [(3, 7, 7, 7)], [(1,)]), 2,
     [f"track 1: sample 3 ends at 981, {PAST} (793 bytes): this and 4 more samples are {REST}"]),
    ("the same, one of which can't be read",
     in_runs(0, [], 200, [(1,)], [(2,)], [(4, 7, 7, 7)], [(1,)]), 2,
     [f"track 1: sample 3 ends at 981, {PAST} (793 bytes): this and 1 more sample are {REST}"]),
    ("fragments whose data follow one another", in_fragment(60, 50, 0, [(3,)], [(1000,)], [(1,)]), 4,
     [f"track 1: sample 5 ends at 767, {PAST} (729 bytes): this and 999 more samples are {REST}"]),
    ("tables past the end of the file, and fragments", in_runs(0, [700, 200], 1, [(5,)]), 0,
     [f"track 1: sample 1 ends at 700, {PAST} (597 bytes): this and 6 more samples are {REST}"]),
    ("the same without trex", in_runs(0, [700, 200], 1, [(5,)]).replace(b"trex", b"free"), 0,
     [f"track 1: sample 1 ends at 700, {PAST} (597 bytes): this and 6 more samples are {REST}"]),
]
# Files with samples without bytes, of which 2^20 in a row are listed. The rest is as in UNLISTED.
EMPTY = [
    ("2^20 samples without bytes", in_runs(0, [], 0, [(1048576,)]), 1048576, []),
    ("2^20 + 1 samples without bytes", in_runs(0, [], 0, [(1048577,)]), 1048576,
     ["track 1: sample 1048577 has no bytes, like the 1048576 samples before it: this sample is not listed (--beyond "
      "lists it)"]),
    ("samples without bytes in tables and fragments", in_runs(0, [0] * 5, 0, [(1048570,)], [(2,), (1,)]), 1048576,
     [f"track 1: sample 1048577 has no bytes, like the 1048576 samples before it: this and 1 more sample are {REST}"]),
    ("samples without bytes around one with bytes", in_runs(0, [], 0, [(1048575,), (1, 1), (9,)]), 1048585, []),
]


def unlisted(runs, folder):
    """Checks which samples of UNLISTED and EMPTY are listed, and the messages about the others. Compares the rows of
    UNLISTED in each form with the second computation, also with --beyond unless there are millions of them. Compares
    some of EMPTY too."""
    for what, data, count, said in UNLISTED + EMPTY:
        name = os.path.basename(write_file(folder, "unlisted.mp4", data))
        for path, ends in (("-", {"input": data}), (name, {})):
            done = runs.run("samples", "--csv", path, **ends)
            found = done.stdout.count(b"\n") - 1, done.stderr.decode().split("\n")[:-1], done.returncode
            if found != (count, [f"mp4inspect: {path}: {line}" for line in said], int(bool(said))):
                fail(f"samples --csv {path} of {what}: {found} and not {count} rows and {said}")
    for what, data, _, said in UNLISTED:
        runs.sampled(data, what)
        if len(data) not in (513, 1310):
            runs.sampled(data, what, None, "-", True)
    what, data, count, _ = EMPTY[1]
    rows = runs.run("samples", "--json", "-", input=data).stdout.split(b"\n")
    if rows[0] != b"[" or rows[-2:] != [b"]", b""] or len(rows) != count + 3 or not rows[-3].endswith(b"}"):
        fail(f"samples --json of {what}: {rows[-3:]}")
    what, data, count, _ = EMPTY[2]
    if runs.run("samples", "--csv", "-", input=data).stdout.decode() != written(data, "csv")[0]:
        fail(f"samples --csv of {what}: not the rows of the second computation")
    if runs.out(0, "samples", "--csv", "--beyond", "-", input=data).count("\n") != count + 3:
        fail(f"samples --csv --beyond of {what}: not all rows")


def large(runs, folder):
    """Checks a file of 3 GiB with a moov at its end, many boxes, deep boxes, and sizes that no file has."""
    table = made.box(b"stsz", bytes(4) + bytes(4) + (10**6).to_bytes(4, "big") + bytes(4 * 10**6))
    moov = made.nested([b"moov", b"trak", b"mdia", b"minf", b"stbl"], table)
    path = os.path.join(folder, "large.mp4")
    with open(path, "wb") as file:
        file.write(made.box(b"ftyp", b"isom\0\0\2\0isom"))
        size = 3 * 2**30
        file.write(b"\0\0\0\1mdat" + size.to_bytes(8, "big"))
        file.seek(size - 16, os.SEEK_CUR)
        file.write(moov)
    begun = time.monotonic()
    limit = lambda: resource.setrlimit(resource.RLIMIT_AS, (40 * 2**20, 40 * 2**20))
    done = subprocess.run([runs.program, path], stdout=subprocess.PIPE, preexec_fn=limit)
    took, text = time.monotonic() - begun, done.stdout.decode()
    runs.count += 1
    if done.returncode or f"mdat @20 +{3 * 2**30} not read" not in text or ".. 999992 more" not in text:
        fail(f"a file of 3 GiB in 40 MiB: status {done.returncode}, {text[:400]}")
    with open(path, "rb") as file:
        again = subprocess.run([runs.program, "-"], stdin=file, stdout=subprocess.PIPE, preexec_fn=limit)
    runs.count += 1
    if (again.returncode, again.stdout) != (0, done.stdout):
        fail(f"a file of 3 GiB as standard input in 40 MiB: status {again.returncode}, {again.stdout[:400]}")
    if took > 1:
        fail(f"a file of 3 GiB took {took:.2f} s")
    os.remove(path)
    data = made.box(b"free") * 100000
    if runs.out(0, "-", input=data) != "".join(f"free @{8 * at} +8 not read (free space)\n" for at in range(100000)):
        fail("100,000 boxes: not their lines")
    found = load(runs.out(0, "--json", "-", input=data))
    if len(found[0]["boxes"]) != 100000:
        fail("100,000 boxes: not in the JSON")
    runs.compared(made.nested([b"moov"] * 1000, b""), "1,000 boxes deep")
    runs.compared(made.nested([b"trak"] * 32, made.box(b"free")), "32 boxes deep")
    runs.compared(b"".join((2**32 - 1).to_bytes(4, "big") + b"moov" for _ in range(20000)), "20,000 boxes that are cut")
    sets = (2**16 - 1).to_bytes(2, "big") + b"\x67" * (2**16 - 1)
    far = made.box(b"avcC", bytes.fromhex("0164000dff0b1b00")) * 20 + b"".join([sets] * 286)
    runs.compared(far, "boxes whose sets would be the bytes after them")
    far = made.box(b"esds", bytes(4) + bytes.fromhex("03ffffff7f")) * 1000 + bytes(1000000)
    runs.compared(far, "boxes whose descriptors would be the bytes after them")
    runs.compared(b"\0\0\0\1stsz" + (2**64 - 1).to_bytes(8, "big") + bytes(12), "a size that no file has")


class Inspect(unittest.TestCase):
    def setUp(self):
        folder = tempfile.mkdtemp(prefix="inspect-")
        self.addCleanup(shutil.rmtree, folder)
        self.folder, self.runs = folder, Runs(built("mp4_inspect"), folder)
        write_file(folder, "plain.mp4", stored("plain"))
        write_file(folder, "cut.mp4", stored("plain")[:890])
        write_file(folder, "check", stored("plain"))
        # The file has more lines than the program's buffer holds.
        write_file(folder, "long.mp4", made.box(b"free") * 100000 + b"\0")

    def of_file(self, name):
        """Compares all output for the file `name`, and compares its tree with the stored text."""
        data = files()[name]
        self.runs.same(self.runs.compared(data, name), text_of_tree(name).split("\n")[:-1], f"{name}, the stored text")
        self.runs.compared(data, f"{name}, 2 rows", 2)

    def of_short_file(self, name, data, wanted):
        """Compares the lines of a short file with those that were typed for it, and all other output."""
        self.runs.same(self.runs.out(0, "-", input=data).split("\n"), [*wanted, ""], name)
        self.runs.compared(data, name)

    def test_each_beginning_of_the_plain_file(self):
        cuts(self.runs, "plain")

    def test_each_beginning_of_the_fragmented_file(self):
        cuts(self.runs, "fragmented")

    def test_files_with_damage(self):
        random_, sound = random.Random(number("SEED", 1)), list(files().values())
        for which in range(number("COUNT", 300)):
            self.runs.compared(damaged(random_, random_.choice(sound)), f"damaged file {which}")

    def test_terminals(self):
        terminals(self.runs, stored("plain"))

    def test_arguments(self):
        arguments(self.runs, self.folder)

    def test_names(self):
        names(self.runs, self.folder)

    def test_closed_pipes(self):
        closed_pipes(self.runs, self.folder)

    def test_reading(self):
        reading(self.runs, self.folder)

    def test_samples(self):
        samples(self.runs, self.folder, files())

    def test_samples_that_are_not_listed(self):
        unlisted(self.runs, self.folder)

    def test_large_files(self):
        large(self.runs, self.folder)

    def test_fields_are_shown(self):
        found, boxes = shown_fields(files())
        self.assertGreaterEqual(100 * found, SHOWN * boxes, f"the fields of {found} of {boxes} boxes are shown")
        print(f"inspect: of {boxes} boxes that can be read and hold more than boxes, {found} are shown with fields")


def add(name, method, *case):
    """Adds the test `name`, which calls `method` with `case`. Raises ValueError if there is another with this name."""
    name = "_".join(["test", *re.findall(r"\w+", name)])
    if hasattr(Inspect, name):
        raise ValueError(f"two tests have the name {name}")
    setattr(Inspect, name, lambda self: method(self, *case))


def setUpModule():
    if os.environ.get("TEST_WRITE"):
        for name, data in files().items():
            text = "\n".join([*lines(tree(data), 8, called()), ""])
            write_file(FILES, f"{name}.txt", text.encode("utf-8"))


for one in files():
    add(f"file_{one}", Inspect.of_file, one)
for one in short.cases():
    add(f"short_{one[0]}", Inspect.of_short_file, *one)

if __name__ == "__main__":
    unittest.main()
