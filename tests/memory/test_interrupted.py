"""Runs the built programs while signals seem to interrupt their calls: every other call of read and write fails with
EINTR, by the library interrupt.c. Each run has to end with the status, the output and the messages of a run without
interrupts."""

import os
import random
import shutil
import subprocess
import tempfile
import unittest

from tests.built import TOP, built
from tests.files.stored import stored
from tests.programs.test_faststart import Track, made


def run(words, data, by_file, folder, library):
    """Returns the status, the output and the messages of a run over `data`, which comes from a file or through a
    pipe."""
    environment = {**os.environ, "LD_PRELOAD": library} if library else dict(os.environ)
    how = {"stdout": subprocess.PIPE, "stderr": subprocess.PIPE, "cwd": folder, "env": environment, "timeout": 120}
    if not by_file:
        done = subprocess.run(words, input=data, check=False, **how)
    else:
        with open(os.path.join(folder, "in.mp4"), "rb") as file:
            done = subprocess.run(words, stdin=file, check=False, **how)
    return done.returncode, done.stdout, done.stderr


def read_file(folder):
    """Returns the file that a run has written, and removes it."""
    path = os.path.join(folder, "out.mp4")
    if not os.path.exists(path):
        return None
    with open(path, "rb") as file:
        found = file.read()
    os.remove(path)
    return found


class Interrupted(unittest.TestCase):
    @classmethod
    def setUpClass(cls):
        cls.folder = tempfile.mkdtemp(prefix="interrupted-")
        cls.addClassCleanup(shutil.rmtree, cls.folder, ignore_errors=True)
        cls.library = os.path.join(cls.folder, "interrupt.so")
        words = [os.environ.get("CC") or "cc", "-O2", "-shared", "-fPIC", "-o", cls.library]
        subprocess.run([*words, os.path.join(TOP, "tests", "memory", "interrupt.c"), "-ldl"], check=True)
        with open(os.path.join(TOP, "crates", "mp4_boxes", "stdin"), "rb") as file:
            cls.stream = file.read()
        # The file is longer than the pieces that a program reads or writes at once.
        cls.plain = stored("plain") + b"\0\0\0\x08free" * 20000

    def compare(self, program, words, data):
        """Compares a run that is interrupted with one that is not, over a file and through a pipe."""
        words = [built(program), *words]
        with open(os.path.join(self.folder, "in.mp4"), "wb") as file:
            file.write(data)
        for by_file in (False, True):
            with self.subTest(words=words[1:], by_file=by_file):
                wanted = run(words, data, by_file, self.folder, None)
                written = read_file(self.folder)
                found = run(words, data, by_file, self.folder, self.library)
                if (found, read_file(self.folder)) != (wanted, written):
                    self.fail(f"{str(found)[:300]} and not {str(wanted)[:300]}")

    def test_mp4boxes(self):
        for words, data in ((["normal"], self.stream), (["list"], self.stream), (["list"], self.plain), ([], b"")):
            self.compare("mp4_boxes", words, data)

    def test_mp4inspect(self):
        for words, data in (
                (["-"], self.plain), (["--json", "-"], self.plain), (["check", "-"], self.plain),
                (["samples", "-"], self.plain), (["check", "-"], self.plain[:-1]), (["none.mp4"], b""),
                (["in.mp4"], self.plain), (["--help"], b"")):
            self.compare("mp4_inspect", words, data)

    def test_mp4remux(self):
        for words in (["faststart", "in.mp4", "out.mp4"], ["faststart", "in.mp4", "-"]):
            self.compare("mp4_remux_program", words, self.plain)
        movie = made(random.Random(1), [Track(1, [[100000, 20], [30]]), Track(2, [[5]])])
        for words in (["fragment", "in.mp4", "out.mp4"], ["fragment", "in.mp4", "-"]):
            self.compare("mp4_remux_program", words, movie)


if __name__ == "__main__":
    unittest.main()
