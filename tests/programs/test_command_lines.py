"""Runs `mp4inspect` with command lines that people type, as a user does.

- `-r`: folders stand for the files in them, in the order of their paths, which `find` and `sort` give. Links, pipes and
  names that are not UTF-8 in folders.
- Misspelt commands and options: the program names the right one.
- `--color`, on a terminal and elsewhere.
- The progress of a run over several files, on a terminal. A FIFO makes a run take long."""

import concurrent.futures
import contextlib
import os
import pty
import re
import shutil
import subprocess
import tempfile
import threading
import time
import unittest

from tests.built import built
from tests.files.inspected import load
from tests.files.stored import stored
from tests.programs.test_inspect import Runs, on_terminal, write_file
from tests.programs.test_manuals import Page

PATHS = ("shelf/b.mp4", "shelf/b/z.mp4", "shelf/b/c/y.mp4", "shelf/a.mp4", "shelf/b-1.mp4", "shelf/ä.mp4", "one.mp4")
SECONDS = 1.3


def read_all(screen):
    """Returns the bytes that were written to a terminal that is closed now."""
    shown = b""
    with contextlib.suppress(OSError):
        while part := os.read(screen, 1000):
            shown += part
    os.close(screen)
    return shown


class CommandLines(unittest.TestCase):
    def setUp(self):
        self.folder = tempfile.mkdtemp(prefix="lines-")
        self.addCleanup(shutil.rmtree, self.folder)
        self.runs = Runs(built("mp4_inspect"), self.folder)
        self.plain, self.cut = stored("plain"), stored("plain")[:890]

    def make_shelf(self):
        """Writes the files at `PATHS`, each second one with a fault."""
        os.makedirs(os.path.join(self.folder, "shelf", "b", "c"))
        os.mkdir(os.path.join(self.folder, "shelf", "empty"))
        for number, path in enumerate(PATHS):
            write_file(self.folder, path, self.cut if number % 2 else self.plain)

    def found(self, folder):
        """Returns the files in a folder, sorted by the bytes of their paths."""
        words = f"find {folder} -type f | LC_ALL=C sort"
        return subprocess.run(words, shell=True, cwd=self.folder, check=True, capture_output=True,
                              text=True).stdout.split("\n")[:-1]

    def same_runs(self, words, other):
        """Compares the outputs, messages and statuses of two command lines."""
        one, two = self.runs.run(*words), self.runs.run(*other)
        self.assertEqual((one.stdout, one.stderr, one.returncode), (two.stdout, two.stderr, two.returncode), words)
        return one

    def test_folders(self):
        self.make_shelf()
        files = self.found("shelf")
        self.assertEqual(len(files), 6)
        for command in ([], ["--json"], ["--rows", "1"], ["check"], ["check", "--json"], ["info"], ["info", "--json"]):
            done = self.same_runs([*command, "-r", "shelf"], [*command, *files])
            self.assertEqual(done.returncode, 0 if "info" in command else 1, command)
            self.same_runs([*command, "--recursive", "shelf"], [*command, *files])
            self.same_runs([*command, "-r", "one.mp4", "shelf/b", "shelf/a.mp4"],
                           [*command, "one.mp4", *self.found("shelf/b"), "shelf/a.mp4"])
        self.assertEqual([it["file"] for it in load(self.runs.run("--json", "-r", "shelf/").stdout)], files)
        self.assertEqual([it["file"] for it in load(self.runs.run("--json", "-r", ".").stdout)], self.found("."))

    def test_one_file_in_a_folder(self):
        """A file has a heading with -r even if it is the only one."""
        self.make_shelf()
        text = self.runs.out(0, "one.mp4")
        self.assertEqual(self.runs.out(0, "-r", "one.mp4"), f"one.mp4:\n{text}")
        lines = self.runs.run("check", "shelf/a.mp4").stdout.decode().splitlines()
        self.assertTrue(lines)
        wanted = "".join(f"shelf/a.mp4: {line}\n" for line in lines)
        self.assertEqual(self.runs.run("check", "-r", "shelf/a.mp4").stdout.decode(), wanted)

    def test_folders_without_files(self):
        self.make_shelf()
        self.assertEqual(self.runs.out(0, "-r", "shelf/empty"), "")
        self.assertEqual(self.runs.out(0, "info", "--json", "-r", "shelf/empty"), "[]\n")

    def test_links_and_pipes(self):
        """Links in a folder are not followed, and pipes are not read. A link that is named is followed."""
        self.make_shelf()
        shelf = os.path.join(self.folder, "shelf")
        wanted = self.runs.run("info", "-r", "shelf").stdout
        os.symlink("../one.mp4", os.path.join(shelf, "link.mp4"))
        os.symlink("..", os.path.join(shelf, "up"))
        os.symlink("nowhere", os.path.join(shelf, "broken"))
        os.mkfifo(os.path.join(shelf, "pipe.mp4"))
        self.assertEqual(self.runs.run("info", "-r", "shelf").stdout, wanted)
        os.symlink("shelf/b", os.path.join(self.folder, "linked"))
        files = [path.replace("shelf/b", "linked") for path in self.found("shelf/b")]
        self.same_runs(["info", "-r", "linked"], ["info", *files])

    def test_standard_input(self):
        """`-` is the standard input, even beside a folder of this name."""
        self.make_shelf()
        os.mkdir(os.path.join(self.folder, "-"))
        self.runs.ends(["--json", "-r", "-"], 0, self.runs.out(0, "--json", "one.mp4").replace("one.mp4", "-"), "",
                       input=self.plain)

    def test_what_cannot_be_read(self):
        """The other files are shown, and the status is 3."""
        self.make_shelf()
        wanted = self.runs.run("-r", "shelf").stdout.decode()
        said = "mp4inspect: none: No such file or directory (os error 2)\n"
        self.runs.ends(["-r", "none", "shelf"], 3, wanted, said)
        write_file(self.folder, os.fsdecode(b"shelf/b/caf\xe9.mp4"), self.plain)
        said = "a name in this folder is not UTF-8, and only names that are can be opened\n"
        self.runs.ends(["-r", "shelf"], 3, wanted, f"mp4inspect: shelf/b/: {said}")
        folder = os.path.join(self.folder, "a\x1b")
        os.mkdir(folder)
        write_file(folder, os.fsdecode(b"\xff"), self.plain)
        self.runs.ends(["info", "-r", "a\x1b"], 3, "", f"mp4inspect: a\\u{{1b}}: {said}")

    def test_folders_without_the_option(self):
        self.make_shelf()
        said = "mp4inspect: shelf: this is a directory, not a file"
        for words in (["shelf"], ["info", "shelf"], ["check", "shelf"]):
            self.runs.ends(words, 3, "", f"{said}; -r reads the files in it\n")
        for words in (["samples", "shelf"], ["get", "shelf", "moov"]):
            self.runs.ends(words, 3, "", f"{said}\n")
        for words in (["samples", "-r", "shelf"], ["get", "-r", "shelf", "moov"]):
            self.assertEqual(self.runs.run(*words).returncode, 2)

    def test_deep_folders(self):
        path = os.path.join(self.folder, "deep")
        os.makedirs(os.path.join(path, *["d"] * 500))
        write_file(self.folder, os.path.join(path, *["d"] * 500, "a.mp4"), self.plain)
        self.same_runs(["info", "-r", "deep"], ["info", *self.found("deep")])

    def test_misspelt_commands(self):
        write_file(self.folder, "one.mp4", self.plain)
        for word, command in (("chekc", "check"), ("chek", "check"), ("cheeck", "check"), ("Check", "check"),
                              ("inof", "info"), ("infos", "info"), ("sampels", "samples"), ("sample", "samples"),
                              ("smaple", "samples"), ("gte", "get"), ("hlep", "help")):
            said = f"mp4inspect: {word}: no such file or command; did you mean mp4inspect {command}?\n"
            for words in ([word], [word, "one.mp4"], [word, "none.mp4"], ["--json", word, "one.mp4"]):
                self.runs.ends(words, 2, "", said)

    def test_each_command_is_named(self):
        """Each command of the man page is named for a word in which its first two letters are swapped, and after an
        option, where it is no command."""
        commands = {tag.split()[0] for tag in Page("mp4inspect.1").tagged("COMMANDS")}
        self.assertIn("check", commands)
        for command in commands:
            swapped = command[1] + command[0] + command[2:]
            for words, word in (([swapped], swapped), (["--wide", command, "none.mp4"], command)):
                said = f"mp4inspect: {word}: no such file or command; did you mean mp4inspect {command}?\n"
                self.runs.ends(words, 2, "", said)

    def test_names_that_are_no_commands(self):
        """A file with such a name is shown. A name that is not close to a command is one of a file that is missing."""
        write_file(self.folder, "chekc", self.plain)
        self.assertTrue(self.runs.out(0, "chekc").startswith("ftyp @0"))
        for name in ("chexxk", "infinity", "check.mp4", "./chek", "x", ""):
            said = f"mp4inspect: {name}: No such file or directory (os error 2)\n"
            self.runs.ends([name], 3, "", said)
        # Only the first word can be a command.
        self.runs.ends(["check", "chek"], 3, "", "mp4inspect: chek: No such file or directory (os error 2)\n")

    def test_misspelt_options(self):
        for words, option in ((["--jsn", "a"], "--json"), (["check", "--strct", "a"], "--strict"),
                              (["samples", "--trak", "1", "a"], "--track"), (["get", "--feild", "a", "b"], "--field"),
                              (["info", "--recursve", "a"], "--recursive"), (["--colour", "never", "a"], "--color")):
            done = self.runs.run(*words)
            self.assertEqual((done.returncode, done.stdout), (2, b""))
            self.assertIn(f"a similar argument exists: '{option}'", done.stderr.decode())

    def test_colors(self):
        write_file(self.folder, "one.mp4", self.plain)
        plain = self.runs.out(0, "one.mp4")
        colored = self.runs.out(0, "--color=always", "one.mp4")
        self.assertIn("\x1b[", colored)
        self.assertEqual(re.sub("\x1b\\[[0-9]*m", "", colored), plain)
        for words in (["--color=never"], ["--color", "auto"], ["--color=auto"]):
            self.assertEqual(self.runs.out(0, *words, "one.mp4"), plain)
        moov = self.runs.out(0, "get", "--color=always", "one.mp4", "moov")
        self.assertIn("\x1b[", moov)
        self.assertEqual(re.sub("\x1b\\[[0-9]*m", "", moov), self.runs.out(0, "get", "one.mp4", "moov"))
        for when, environment, wanted in (
                ("never", {}, False), ("auto", {}, True), ("auto", {"NO_COLOR": "1"}, False),
                ("always", {"NO_COLOR": "1"}, True), ("always", {"TERM": "dumb"}, True)):
            words = ["--wide", f"--color={when}", "-"]
            text = on_terminal(self.runs.program, words, self.plain, environment)
            self.assertEqual("\x1b[" in text, wanted, (when, environment))
        done = self.runs.run("--color=red", "one.mp4")
        self.assertEqual(done.returncode, 2)
        self.assertIn("[possible values: always, never, auto]", done.stderr.decode())

    def slow(self, words, seconds=SECONDS, on_screen=False, environment=None):
        """Runs the program over a FIFO that has a file after some seconds. Standard error is a terminal, and the
        standard output too if `on_screen`. Returns what the terminal shows, and the standard output."""
        fifo = os.path.join(self.folder, "fifo")
        os.mkfifo(fifo)
        screen, terminal = pty.openpty()
        with subprocess.Popen([self.runs.program, *words], cwd=self.folder, stderr=terminal,
                              stdout=terminal if on_screen else subprocess.PIPE,
                              env={**os.environ, "TERM": "xterm", **(environment or {})}) as process, \
                concurrent.futures.ThreadPoolExecutor(1) as reader:
            os.close(terminal)
            # The screen is read meanwhile: a terminal that nobody reads holds few bytes.
            shown = reader.submit(read_all, screen)
            timer = threading.Timer(seconds, write_file, (self.folder, "fifo", self.plain))
            timer.start()
            written = b"" if on_screen else process.stdout.read()
            process.wait(60)
            timer.join()
        os.unlink(fifo)
        return shown.result(), written

    def test_progress(self):
        write_file(self.folder, "one.mp4", self.plain)
        files = ["one.mp4", "fifo", "one.mp4"]
        line = b"2 of 3 files\r"
        for command in ([], ["--json"], ["info"], ["check"]):
            shown, written = self.slow([*command, *files])
            self.assertEqual(shown, line + b"\x1b[K", command)
            write_file(self.folder, "fifo", self.plain)
            self.assertEqual(written, self.runs.run(*command, *files).stdout)
            os.unlink(os.path.join(self.folder, "fifo"))
        message = b"mp4inspect: none.mp4: No such file or directory (os error 2)\r\n"
        self.assertEqual(self.slow(["info", "one.mp4", "fifo", "none.mp4"])[0], line + message + b"\x1b[K")
        self.assertGreater(len(message), len(line))

    def test_progress_that_is_not_shown(self):
        """A run that takes less than a second, one file, a dumb terminal, and output among which the line would be."""
        write_file(self.folder, "one.mp4", self.plain)
        files = ["one.mp4", "fifo", "one.mp4"]
        self.assertEqual(self.slow(["check", *files], 0)[0], b"")
        self.assertEqual(self.slow(["check", "fifo"])[0], b"")
        self.assertEqual(self.slow(["check", *files], environment={"TERM": "dumb"})[0], b"")
        for command in ([], ["--json"], ["info"], ["check", "--json"]):
            self.assertNotIn(b" of 3 files", self.slow([*command, *files], on_screen=True)[0])

    def test_progress_among_faults(self):
        """With `check` the lines of faults and the progress can be on one terminal: a line of a file is written before
        the progress, and is longer."""
        write_file(self.folder, "cut.mp4", self.cut)
        write_file(self.folder, "fifo", self.plain)
        faults = self.runs.run("check", "cut.mp4", "fifo").stdout.replace(b"\n", b"\r\n")
        os.unlink(os.path.join(self.folder, "fifo"))
        again = faults[:faults.index(b"fifo: ")]
        shown, _ = self.slow(["check", "cut.mp4", "fifo", "cut.mp4"], on_screen=True)
        self.assertEqual(shown, faults + b"2 of 3 files\r" + again + b"\x1b[K")
        self.assertGreater(min(map(len, again.split(b"\r\n")[:-1])), len("999999 of 999999 files"))

    def test_output_on_a_terminal(self):
        """On a terminal the lines of a file are written before the next file is read."""
        write_file(self.folder, "one.mp4", self.plain)
        os.mkfifo(os.path.join(self.folder, "fifo"))
        screen, terminal = pty.openpty()
        with subprocess.Popen([self.runs.program, "info", "one.mp4", "fifo"], cwd=self.folder, stdout=terminal,
                              stderr=subprocess.PIPE) as process:
            os.close(terminal)
            time.sleep(0.3)
            shown = os.read(screen, 10000)
            write_file(self.folder, "fifo", self.plain)
            process.wait(60)
            process.stderr.close()
        self.assertTrue(shown.startswith(b"one.mp4  MP4"), shown)
        read_all(screen)


if __name__ == "__main__":
    unittest.main()
