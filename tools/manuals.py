#!/usr/bin/env python3
"""Makes the man pages of the groups of functions of the library for C from its header.

    tools/manuals.py NAME      print a page, such as mp4_tables.3
    tools/manuals.py --write   write all of them into docs/man

A group is one or two sections of include/mp4_box_codec.h. Each function has its prototype and its comment there: what
it does, and after `Needs:`, `Returns:` and `Leaves:` what it needs, returns and leaves. Tests compare the pages with
the header."""

import os
import re
import sys
import textwrap

TOP = os.path.dirname(os.path.dirname(os.path.abspath(__file__)))
HEADER = os.path.join(TOP, "include", "mp4_box_codec.h")
# The pages: for each what its functions do, and the beginnings of its sections.
PAGES = {
    "mp4_files": ("read files, faults, tracks, samples and boxes of any type", ["Files and streams"]),
    "mp4_rewriting": ("plan a new file as pieces of an old one", ["New files"]),
    "mp4_headers": ("read and write boxes of fixed fields", ["Headers, read", "Headers, written"]),
    "mp4_tables": ("read and write tables of entries", ["Tables, read", "Tables, written"]),
    "mp4_entries": ("read and write boxes of strings, references and sample entries",
                    ["Boxes of strings, references and sample entries, read",
                     "Boxes of strings, references and sample entries, written"]),
}
DATE = "2026-11-28"
# The columns of a prototype in a synopsis.
WIDTH = 66


def plain(comment):
    """Returns the text of a comment without the marks around it and before its lines."""
    return re.sub(r"^ (\*|  ) ?", "", comment.strip("\n"), flags=re.M)


def sections():
    """Returns the sections of the header: for each its title, its text, and its functions. Each function is its name,
    its prototype, and the parts of its comment."""
    with open(HEADER, encoding="utf-8") as file:
        text = file.read()
    found = []
    for title, what, functions in re.findall(
            r"^/\*\n \* ([^.:*]+)[.:] ((?:.*\n)+?) \*/\n((?:(?!^/\*\n).*\n)*)", text, re.M):
        listed = []
        for comment, prototype, name in re.findall(
                r"^/\* ((?:(?!\*/)[^#])*?) \*/\n(uint32_t (\w+)\([^;]*\);)", functions, re.M):
            listed.append((name, " ".join(prototype.split()), plain(comment)))
        found.append((" ".join(title.split()), " ".join(plain(what).split()), listed))
    return found


def roff(text):
    """Returns a text as lines of a page. Names in backticks are in italics."""
    text = text.replace("\\", "\\e").replace("-", "\\-")
    text = re.sub(r"`([^`]*)`", lambda it: f"\\fI{it[1]}\\fR", " ".join(text.split()))
    lines = [line for it in re.sub(r"(?<=[.;]) (?=[A-Z])", "\n", text).split("\n")
             for line in textwrap.wrap(it, 120, break_long_words=False, break_on_hyphens=False)]
    return "\n".join(f"\\&{it}" if it[:1] in (".", "'") else it for it in lines)


def synopsis(prototype):
    """Returns the lines of a prototype, in bold."""
    lines = textwrap.wrap(prototype, WIDTH, subsequent_indent="    ", break_long_words=False)
    return "\n".join([f".B {lines[0]}", *(f'.B "{it}"' for it in lines[1:])])


def described(comment):
    """Returns the paragraph of a function: what it does, and lines that begin with what it needs, returns and
    leaves."""
    parts = re.split(r"\s*\b(Needs|Returns|Leaves): ", comment)
    pieces = [roff(parts[0])]
    for word, text in zip(parts[1::2], parts[2::2]):
        pieces.append(f".br\n{roff(f'{word}: {text}')}")
    return "\n".join(pieces)


def page(name):
    """Returns the text of a page."""
    what, titles = PAGES[name]
    parts = [next(it for it in sections() if it[0] == title) for title in titles]
    functions = [it for _, _, listed in parts for it in listed]
    lines = [f'.TH {name.upper()} 3 {DATE} "mp4-box-codec @VERSION@" "Library Functions"', ".SH NAME",
             ",\n".join(it[0] for it in functions) + f"\n\\- {what}", ".SH SYNOPSIS", ".nf",
             ".B #include <mp4_box_codec.h>"]
    lines += [synopsis(it[1]) for it in functions]
    lines += [".fi", ".SH DESCRIPTION"]
    for title, text, listed in parts:
        lines += [f'.SS "{title}"'] * (len(parts) > 1) + [roff(text[:1].upper() + text[1:])]
        for function, _, comment in listed:
            lines += [".TP", f".B {function}", described(comment)]
    lines += [".SH SEE ALSO"]
    others = [it for it in ["mp4_box_codec", *PAGES] if it != name]
    lines += [f".BR {it} (3)" + "," * (it != others[-1]) for it in others]
    return "\n".join(lines) + "\n"


def files():
    """Returns the texts of the pages by their paths."""
    return {f"docs/man/{name}.3": page(name) for name in PAGES}


def main():
    name = sys.argv[1].removesuffix(".3") if len(sys.argv) == 2 else ""
    if name == "--write":
        for path, text in files().items():
            with open(os.path.join(TOP, path), "w", encoding="utf-8") as file:
                file.write(text)
    elif name in PAGES:
        print(page(name), end="")
    else:
        sys.exit(__doc__)


if __name__ == "__main__":
    main()
