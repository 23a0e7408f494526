"""Runs the commands of docs/COOKBOOK.md as a reader does, in a folder with the stored movies, and compares what they
print with the page: all lines of a block of `console` after a line with `$`, up to the next one. Commands of `sh`
have to succeed.

With TEST_WRITE=1 the outputs are first written into the page."""

import os
import re
import shutil
import subprocess
import tempfile
import unittest

from tests.built import TOP, NamesSkipped, built

PAGE = os.path.join(TOP, "docs", "COOKBOOK.md")
MOVIES = os.path.join(TOP, "tests", "files", "movies")
PROGRAMS = {"mp4inspect": "mp4_inspect", "mp4remux": "mp4_remux_program"}
# The movies that the page is about.
NAMES = ("dash.mp4", "encrypted.mp4", "phone.mp4", "song.m4a")
# The programs that may be missing, and their packages.
TOOLS = {"jq": "jq", "xxd": "xxd", "less": "less"}
BLOCK = re.compile(r"^```(console|sh)\n(.*?)^```", re.M | re.S)
LINES = 200


def printed(page, run):
    """Returns `page` with what its commands print now. `run` returns the output of a command, and its status."""
    def made(block):
        kind, text = block.groups()
        if kind == "sh":
            for command in text.splitlines():
                said, status = run(command)
                if status:
                    raise AssertionError(f"{command}: {said}")
            return block[0]
        commands = re.findall(r"^\$ (.*)\n", text, re.M)
        return "".join(["```console\n", *(f"$ {it}\n{run(it)[0]}" for it in commands), "```"])

    return BLOCK.sub(made, page)


class Cookbook(NamesSkipped, unittest.TestCase):
    def setUp(self):
        self.folder = tempfile.mkdtemp(prefix="cookbook-")
        self.addCleanup(shutil.rmtree, self.folder)
        self.programs = os.path.join(self.folder, "bin")
        self.files = os.path.join(self.folder, "files")
        os.mkdir(self.programs)
        os.mkdir(self.files)
        for name, crate in PROGRAMS.items():
            os.symlink(built(crate), os.path.join(self.programs, name))
        for name in NAMES:
            shutil.copy(os.path.join(MOVIES, name), self.files)

    def run_command(self, command):
        """Returns what a command prints, and its status."""
        environment = {**os.environ, "PATH": f"{self.programs}:{os.environ['PATH']}", "LC_ALL": "C.UTF-8"}
        done = subprocess.run(["bash", "-c", command], cwd=self.files, env=environment, stdin=subprocess.DEVNULL,
                              stdout=subprocess.PIPE, stderr=subprocess.STDOUT, timeout=120, check=False)
        return done.stdout.decode(), done.returncode

    def test_commands(self):
        with open(PAGE, encoding="utf-8") as file:
            page = file.read()
        for tool, package in TOOLS.items():
            self.needs(tool, package)
        found = printed(page, self.run_command)
        if os.environ.get("TEST_WRITE"):
            with open(PAGE, "w", encoding="utf-8") as file:
                file.write(found)
            page = found
        self.assertGreater(len(BLOCK.findall(page)), 12)
        self.assertEqual(page.split("\n"), found.split("\n"))
        self.assertLessEqual(page.count("\n"), LINES)


if __name__ == "__main__":
    unittest.main()
