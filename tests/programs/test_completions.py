"""Compares the completions for bash, zsh and fish with the man pages: they have the same commands and options."""

import os
import re
import subprocess
import tempfile
import unittest

from tests.built import TOP, source
from tests.programs.test_manuals import Page

FOLDER = os.path.join(TOP, "docs", "completions")
SCRIPT = 'source "$0"; COMP_WORDS=("$@"); COMP_CWORD=$(($# - 1)); _$1; printf "%s\\n" "${COMPREPLY[@]}"'
# The programs with commands.
PROGRAMS = ("mp4inspect", "mp4remux")


def completed(*words):
    """Returns the words with which bash completes the last of `words`, a command line, in an empty folder."""
    with tempfile.TemporaryDirectory() as folder:
        words = ["bash", "-c", SCRIPT, os.path.join(FOLDER, f"{words[0]}.bash"), *words]
        return set(subprocess.run(words, cwd=folder, check=True, stdout=subprocess.PIPE, text=True).stdout.split())


def commands_of(page):
    """Returns the commands on a page."""
    return {tag.split()[0] for tag in page.tagged("COMMANDS")}


def options_of(page, part=""):
    """Returns the options in a part of a page, by their long names."""
    return {it for tag in page.tagged("OPTIONS", part) for it in re.findall(r"--[\w-]+", tag)}


class Completions(unittest.TestCase):
    def test_bash(self):
        for name in PROGRAMS:
            page = Page(f"{name}.1")
            commands = commands_of(page)
            self.assertEqual(completed(name, ""), commands | options_of(page))
            self.assertEqual(completed(name, "help", ""), commands - {"help"})
            for command in commands - {"help"}:
                wanted = options_of(page, f"Options of {command}") | {"--help"}
                self.assertEqual(completed(name, command, "--"), wanted, command)

    def test_zsh_and_fish(self):
        for program in PROGRAMS:
            page = Page(f"{program}.1")
            commands = commands_of(page)
            wanted = options_of(page).union(*(options_of(page, f"Options of {it}") for it in commands))
            for name, pattern in ((f"_{program}", r"--([\w-]+)\["), (f"{program}.fish", r" -l ([\w-]+)")):
                text = source("docs", "completions", name)
                self.assertEqual({f"--{it}" for it in re.findall(pattern, text)}, wanted, name)
                for command in commands:
                    self.assertRegex(text, rf"('{command}:|-a {command} )", name)

    def test_mp4boxes(self):
        words = {tag for tag in Page("mp4boxes.1").tagged("DESCRIPTION") if re.fullmatch(r"\w+", tag)}
        for name, pattern in (("mp4boxes.bash", rf"\b({'|'.join(words)})\b"), ("_mp4boxes", r'(\w+)\\:"'),
                              ("mp4boxes.fish", r"-a (\w+)")):
            self.assertEqual(set(re.findall(pattern, source("docs", "completions", name))), words, name)


if __name__ == "__main__":
    unittest.main()
