"""Compares the man pages with what they describe. It fails if a page lacks a command, an option, a function or a
status, or has one that doesn't exist.

- mp4inspect(1) and mp4remux(1) have the commands, arguments and options of `--help`, and of `--help` after each
  command, with the names and defaults of their numbers. They have the environment variables that the program reads,
  the statuses of specs/Outcome.antt of its crate, and 2 for misuse.
- mp4boxes(1) has the words of the usage line, with `<` in the synopsis and in an example of each. It has the statuses
  of crates/mp4_boxes/specs/Outcome.antt.
- The pages of the functions of the library for C are what tools/manuals.py makes from the header. Each function of the
  header is on one of them, with its arguments. mp4_box_codec(3) names these pages, and has the statuses of the header
  with their numbers.
- The header says of each function what it needs, returns and leaves.
- groff lays out each page without a warning."""

import os
import re
import shutil
import subprocess
import unittest

from tests.built import TOP, built, source
from tools import manuals

wrong = []


def compare(page, what, found, expected):
    """Adds to `wrong` each item that is only in `found` or only in `expected`."""
    for it in sorted(expected - found, key=str):
        wrong.append(f"{page} lacks the {what} {it}")
    for it in sorted(found - expected, key=str):
        wrong.append(f"{page} has the {what} {it}, which is not there")


def as_shown(line):
    """Returns a line of a page as it is shown: the text of a request for a font, and nothing for other requests."""
    font = re.match(r"\.([BIR]{1,2}) (.*)", line)
    if font:
        words = [quoted or word for quoted, word in re.findall(r'"([^"]*)"|(\S+)', font[2])]
        line = (" " if len(font[1]) == 1 else "").join(words)
    return "" if line.startswith(".") and not font else line.replace("\\-", "-")


def plain(text):
    """Returns a piece of a page as it is shown."""
    return "\n".join(filter(None, map(as_shown, text.split("\n"))))


class Page:
    """A man page by its sections, with their titles and texts."""

    def __init__(self, name):
        self.name, self.text = name, source("docs", "man", name)
        parts = re.split(r"^\.SH (.*)\n", self.text, flags=re.M)[1:]
        self.sections = dict(zip(parts[::2], parts[1::2]))

    def section(self, title, part=""):
        """Returns the section `title` up to its first part, or its part `part`."""
        pieces = re.split(r'^\.SS "?(.*?)"?\n', self.sections.get(title, ""), flags=re.M)
        return dict(zip(["", *pieces[1::2]], pieces[::2])).get(part, "")

    def tagged(self, title, part=""):
        """Returns the paragraphs with a tag: the tag, as it is shown, and the text."""
        found = re.findall(r"^\.TP\n(.*)\n((?:(?!\.TP|\.PP|\.SS).*\n)*)", self.section(title, part), re.M)
        return {plain(tag): plain(text) for tag, text in found}


def statuses(crate):
    """Returns the statuses of the program `crate`, from its definition."""
    return set(re.findall(r"^status_of .* = (\d+)$", source("crates", crate, "specs", "Outcome.antt"), re.M))


def compare_options(page, name, command, help_text, tags):
    """Compares the options of a command: their names, the names of their numbers, and the defaults of these."""
    said = re.findall(r"^ +((?:-\w, )? *--[\w-]+(?: <[\w.=]+>)?)  +(.*)", help_text, re.M)
    options = {re.sub("[<>]", "", name).strip(): text for name, text in said}
    if command:
        # The page has it once, for all commands.
        options.pop("-h, --help")
    shown = {it for it in tags if it.startswith("-")}
    compare(page.name, f"option of `{command or name}`", shown, set(options))
    for option, text in options.items():
        default = re.search(r"\[default: (.*?)\]", text)
        if default and not re.search(rf"\b{re.escape(default[1])}\b", tags.get(option, "")):
            wrong.append(f"{page.name} doesn't say that {option} is {default[1]} if left out")


def compare_people(program, name, crate):
    """Compares the page of the program `name` with what the program prints about itself."""

    def said(*words):
        return subprocess.run([program, *words], stdout=subprocess.PIPE, text=True, check=True).stdout

    page, whole = Page(f"{name}.1"), said("--help")
    commands = set(re.findall(r"^  (\w+) ", whole.partition("Commands:\n")[2].partition("\n\n")[0], re.M))
    tags = page.tagged("COMMANDS")
    compare(page.name, "command", {tag.split()[0] for tag in tags}, commands)
    synopsis = [" ".join(plain(it).split()) for it in page.sections.get("SYNOPSIS", "").split(".br\n")]
    compare(page.name, "command of the synopsis",
            {it.split()[1] for it in synopsis if re.match(rf"{name} [a-z]+( |$)", it)}, commands)
    for command in ["", *sorted(commands - {"help"})]:
        text = said(*[command] * bool(command), "--help")
        part = f"Options of {command}" if command else ""
        compare_options(page, name, command, text, page.tagged("OPTIONS", part))
        begin = f"{name} {command} " if command else f"{name} ["
        line = next((it for it in synopsis if it.startswith(begin)), "")
        arguments = re.findall(r"^ +<(\w+)>", text.partition("Arguments:\n")[2].partition("\n\n")[0], re.M)
        options = [it for it in re.findall(r"^ +(?:-\w, )?(--[\w-]+)", text, re.M) if it not in ("--help", "--version")]
        for word in [*arguments, *options]:
            if not re.search(rf"(?<![\w-]){word}(?![\w-])", line):
                wrong.append(f"{page.name} lacks {word} in the synopsis of `{name} {command}`")
    sources = "".join(source("crates", crate, "src", it)
                      for it in os.listdir(os.path.join(TOP, "crates", crate, "src")) if it.endswith(".rt"))
    variables = set(re.findall(r'env::var(?:_os)?\(\s*rt,\s*"(\w+)"', sources))
    compare(page.name, "variable", set(page.tagged("ENVIRONMENT")), variables)
    compare(page.name, "status", set(page.tagged("EXIT STATUS")), statuses(crate) | {"2"})


def compare_boxes(program):
    """Compares mp4boxes(1) with the usage line."""
    page = Page("mp4boxes.1")
    usage = subprocess.run([program], stdin=subprocess.DEVNULL, stderr=subprocess.PIPE, text=True, check=False).stderr
    words = set(re.fullmatch(r"usage: mp4boxes ([\w|]+)\n", usage)[1].split("|"))
    compare(page.name, "word", {tag for tag in page.tagged("DESCRIPTION") if re.fullmatch(r"\w+", tag)}, words)
    for title in ("SYNOPSIS", "EXAMPLES"):
        found = set(re.findall(r"mp4boxes (\w+)\s+<\s+\S", plain(page.sections.get(title, ""))))
        compare(page.name, f"word before `<` in {title}", found, words)
    compare(page.name, "status", set(page.tagged("EXIT STATUS")), statuses("mp4_boxes"))


def compare_library():
    """Compares the pages of the library for C with the header."""
    page, header = Page("mp4_box_codec.3"), source("include", "mp4_box_codec.h")
    function = r"uint32_t (mp4_\w+)\(([^;]*)\);"
    declared = [(name, " ".join(given.split())) for name, given in re.findall(rf"^{function}", header, re.M)]
    shown = []
    for name in manuals.PAGES:
        lines = re.findall(r'^\.B "?(.*?)"?$', Page(f"{name}.3").sections.get("SYNOPSIS", ""), re.M)
        shown += [(name, " ".join(given.split())) for name, given in re.findall(function, " ".join(lines))]
    compare("docs/man", "function", {f"{name}({given})" for name, given in shown},
            {f"{name}({given})" for name, given in declared})
    if len(shown) != len(declared):
        wrong.append(f"the pages have {len(shown)} functions, and the header {len(declared)}")
    # The statuses are the first enum of the header.
    first = header.partition("enum {")[2].partition("};")[0]
    numbers = {f"{name} ({number})" for name, number in re.findall(r"^    (MP4_\w+) = (\d+),?$", first, re.M)}
    compare(page.name, "status", set(page.tagged("RETURN VALUE")), numbers)
    compare(page.name, "page", set(page.tagged("DESCRIPTION")), {f"{name}(3)" for name in manuals.PAGES})
    lines = r".*\n(?:   .*\n)*?"
    whole = rf"^   Needs: {lines}   Returns: {lines}   Leaves: (?:.*\n   )*?.* \*/\nuint32_t (\w+)"
    said = re.findall(whole, header, re.M)
    compare("include/mp4_box_codec.h", "whole comment of", set(said), {name for name, _ in declared})


class Manuals(unittest.TestCase):
    def setUp(self):
        wrong.clear()

    def test_mp4inspect(self):
        compare_people(built("mp4_inspect"), "mp4inspect", "mp4_inspect")
        self.assertEqual(wrong, [])

    def test_mp4remux(self):
        compare_people(built("mp4_remux_program"), "mp4remux", "mp4_remux_program")
        self.assertEqual(wrong, [])

    def test_mp4boxes(self):
        compare_boxes(built("mp4_boxes"))
        self.assertEqual(wrong, [])

    def test_library(self):
        compare_library()
        self.assertEqual(wrong, [])

    def test_pages_of_the_header(self):
        for path, text in manuals.files().items():
            self.assertEqual(source(*path.split("/")), text, f"{path}: run tools/manuals.py --write")

    @unittest.skipUnless(shutil.which("groff"), "groff is not on this machine")
    def test_layout(self):
        for name in sorted(os.listdir(os.path.join(TOP, "docs", "man"))):
            words = ["groff", "-man", "-Tutf8", "-ww", "-z", os.path.join(TOP, "docs", "man", name)]
            said = subprocess.run(words, stdout=subprocess.PIPE, stderr=subprocess.STDOUT, text=True, check=False)
            self.assertEqual(said.stdout, "", name)


if __name__ == "__main__":
    unittest.main()
