"""Tries wrong bodies: edits of functions under their contracts, each of which the prover has to refuse.

They are wrong-bodies/CRATE/NAME.edit, in the form of the gate's own, crates/CRATE/must-fail/NAME.edit. In a copy
of the crates, edits of different functions are made together and the crate is checked once. An edit is refused if the
checker finds a fault inside the function that the edit changes, or reports that this function isn't proved. Other edits
are tried one by one, and so are edits outside functions, such as those of a constant or a macro. There any refusal by
the prover counts. Prints a line for each edit, and at the end how many were refused.

    python3 -m tests.prover.wrong_bodies [--only WORD] [--all] [--jobs N] [--list]

    --only WORD   only the edits with this word in their crate or name, such as `mp4_text` or `count`
    --all         the edits of crates/*/must-fail too
    --jobs N      N crates at a time, each in a copy of its own
    --list        prints the edits with the functions that they change, and proves nothing

It uses the results that earlier checks kept in out/, and first proves those that are missing: run it after
`rt all check`. It is not part of the gate.
"""
import argparse
import concurrent.futures
import os
import queue
import re
import shutil
import subprocess
import sys
import tempfile

from tests.built import TOP

PARTS = ("src", "specs", "proofs")
# Text that is not code: comments, strings and characters.
NO_CODE = re.compile(
    r'//[^\n]*|/\*.*?\*/|\bb?r(#*)".*?"\1|"(?:\\.|[^"\\])*"|(?<![\w\'])b?\'(?:\\[^\n]+?|[^\\\'\n])\'', re.DOTALL)
BLOCK = re.compile(
    r"^[ \t]*(?:pub(?:\([^)]*\))?\s+)?(?:unsafe\s+)?(impl|trait|macro_rules!)(?=[\s<])([^{;]*)\{", re.MULTILINE)
# The words before a brace that does not yet begin a function's body.
CLAUSE = re.compile(r"\b(requires|ensures|ghost)\b")
# The checker's lines: one with a place, the verdict on a function that isn't proved, and the words for a missing proof
# of another function.
TOLD = re.compile(r"(?:note: )?(?:\./)?((?:src|specs|proofs)/\S+?):(\d+):(\d+): (.*)")
VERDICT = re.compile(r"^fn (\S+): (not proved|no proof)(.*)", re.MULTILINE)
OF_ANOTHER = re.compile(r"it calls|it passes|a call of|it waits")
# The checker's words for a text that it can't read.
UNREAD = re.compile(r"is not in scope|has no field|is no name|operand is missing|expected the end|cannot continue")
# The checker's words for a proof that names something which an edit takes away, and for proofs that cite it.
NOT_ADMITTED = "was not admitted"
OF_NAMES = re.compile(rf"has no field|is not in scope|has no `|{NOT_ADMITTED}")


class Bad(Exception):
    """An edit that can't be made, or that doesn't test a contract."""


class Function:
    def __init__(self, file, name, header, first, last):
        self.file, self.name, self.header = file, name, header
        self.first, self.last = first, last

    def __str__(self):
        return f"{self.file}:{self.first} {self.name}"


def blanked(source):
    """Returns `source` with spaces instead of text that is not code."""
    return NO_CODE.sub(lambda it: re.sub(r"[^\n]", " ", it[0]), source)


def closing(code, at):
    """Returns the place of the bracket that closes the one at `at`."""
    opened = code[at]
    closed = {"(": ")", "{": "}", "[": "]"}[opened]
    depth = 0
    for place in range(at, len(code)):
        depth += (code[place] == opened) - (code[place] == closed)
        if not depth:
            return place
    return len(code) - 1


def end_of_function(code, at):
    """Returns the place of the last character of a function: its body's closing brace, or the semicolon of one without
    a body."""
    at = closing(code, code.index("(", at)) + 1
    mark = at
    while at < len(code):
        if code[at] in "([":
            at = closing(code, at)
        elif code[at] == ";":
            return at
        elif code[at] == "{":
            is_clause = CLAUSE.search(code, mark, at)
            at = closing(code, at)
            if not is_clause:
                return at
            mark = at + 1
        at += 1
    return len(code) - 1


def functions_of(file, source):
    """Returns the functions of `file`, with their lines. Those of macros have no place and are left out."""
    code = blanked(source)
    blocks = [(it.start(), closing(code, it.end() - 1), it[1], it[2]) for it in BLOCK.finditer(code)]
    found = []
    for it in re.finditer(r"\bfn\s+(\w+)", code):
        around = [block for block in blocks if block[0] < it.start() < block[1]]
        if any(kind == "macro_rules!" for _, _, kind, _ in around):
            continue
        # The checker's place of a function is where its attributes begin.
        starts = re.compile(r"\s*").match(code, max(map(code[: it.start()].rfind, ";{}")) + 1).end()
        first, last = (code.count("\n", 0, place) + 1 for place in (starts, end_of_function(code, it.end())))
        found.append(Function(file, it[1], around[-1][2:] if around else None, first, last))
    return found


def function_at(functions, line):
    """Returns the innermost of `functions` that has the line `line`."""
    return max((it for it in functions if it.first <= line <= it.last), key=lambda it: it.first, default=None)


def without_brackets(text):
    """Returns the text without the parts in angle brackets."""
    while re.search(r"<[^<>]*>", text):
        text = re.sub(r"<[^<>]*>", "", text)
    return text


def segment(header):
    """Returns the beginning of the checker's name of an impl or a trait."""
    kind, text = header
    text = without_brackets(text.replace("->", "")).partition(" where ")[0].strip()
    trait, is_trait, of = text.rpartition(" for ")
    if kind == "trait":
        return re.match(r"\w+", text)[0]
    references = len(re.findall("&", of))
    bare = lambda path: (re.findall(r"\w+", path) or [""])[-1]
    return "Ref" * references + bare(of)[:1].upper() + bare(of)[1:] + (bare(trait) if is_trait else "")


def symbols_of(function, symbols):
    """Returns those of the checker's names `symbols` that can be the name of `function`."""
    module = function.file[len("src/") : -len(".rt")].split("/")
    module = [] if module in (["lib"], ["main"]) else [it for it in module if it != "mod"]
    start = "::".join(["", *module, ""])
    found = []
    for symbol in symbols:
        crate, _, path = symbol.partition("::")
        path = f"::{path}"
        if not path.startswith(start):
            continue
        rest = path[len(start) :].split("::")
        if rest[-1] != function.name or len(rest) != 1 + (function.header is not None):
            continue
        if function.header is None or rest[0].startswith(segment(function.header)):
            found.append(symbol)
    return found


class Edit:
    def __init__(self, crate, path):
        self.crate, self.path = crate, path
        self.name = f"{crate}/{os.path.basename(path)[: -len('.edit')]}"
        self.folder = os.path.join(TOP, "crates", crate)
        self.pairs, file, old = [], None, None
        with open(path, encoding="utf-8") as lines:
            for line in lines:
                key, _, text = line.rstrip("\n").partition(":")
                text = text.removeprefix(" ")
                if key == "file":
                    file = text
                elif key == "old":
                    old = text
                elif key == "new" and file and old:
                    self.pairs.append((file, old, text))
                    old = None

    def functions(self):
        """Returns the functions that the edit changes, each once, or none if it changes anything else."""
        files, found = {}, {}
        for file, old, new in self.pairs:
            source = files.get(file) or read(os.path.join(self.folder, file))
            before = source[: source.index(old)]
            first = before.count("\n") + 1
            function = function_at(functions_of(file, source), first) if file.endswith(".rt") else None
            if function is None:
                return []
            found[file, function.first] = function
            files[file] = source.replace(old, new)
        return list(found.values())


def read(file):
    with open(file, encoding="utf-8") as source:
        return source.read()


def made(edits):
    """Returns the files that `edits` of a crate change, by their names."""
    files = {}
    for edit in edits:
        if not edit.pairs:
            raise Bad(f"{edit.name}: has no 'old:' and 'new:' pair")
        for file, old, new in edit.pairs:
            if not file.startswith(tuple(f"{it}/" for it in PARTS)):
                raise Bad(f"{edit.name}: {file} is not below src/, specs/ or proofs/")
            try:
                source = files.get(file) or read(os.path.join(edit.folder, file))
            except OSError as why:
                raise Bad(f"{edit.name}: {why}") from None
            if source.count(old) != 1:
                raise Bad(f"{edit.name}: an 'old:' text is in {file} {source.count(old)} times, and not once")
            files[file] = source.replace(old, new)
    return files


def groups_of(edits):
    """Returns the edits in groups that are made together: those of different functions. An edit without a function is
    by itself."""
    groups, apart = [], []
    for edit in edits:
        changed = {(it.file, it.first) for it in edit.functions()}
        if not changed:
            apart.append([edit])
            continue
        for members, taken in groups:
            if changed & taken:
                continue
            try:
                made([*members, edit])
            except Bad:
                continue
            members.append(edit)
            taken |= changed
            break
        else:
            groups.append(([edit], changed))
    return [members for members, _ in groups] + apart


def crates_below(crate):
    """Returns the repository's crates that `crate` uses, and itself, lowest first."""
    uses = {}
    for line in read(os.path.join(TOP, "crates.txt")).split("\n"):
        name, colon, below = line.partition("#")[0].partition(":")
        if colon:
            uses[name.split()[0]] = below.split()
    found = []

    def add(name):
        for it in uses.get(name, []):
            add(it)
        if name in uses and name not in found:
            found.append(name)

    add(crate)
    return found


class Copy:
    """A copy of the crates, in which edits are made and undone."""

    def __init__(self, folder):
        self.folder = folder
        os.makedirs(folder)
        for name in ("crates.txt", "HANDLES"):
            shutil.copy(os.path.join(TOP, name), folder)
        for crate in os.listdir(os.path.join(TOP, "crates")):
            for part in PARTS:
                source = os.path.join(TOP, "crates", crate, part)
                if os.path.isdir(source):
                    shutil.copytree(source, os.path.join(folder, "crates", crate, part))

    def take_outputs(self, crate):
        """Copies the results that earlier checks kept of `crate` and of those below it."""
        for name in crates_below(crate):
            kept, to = (os.path.join(top, "crates", name, "out") for top in (TOP, self.folder))
            for part in ("rlib", "incremental"):
                if os.path.isdir(os.path.join(kept, part)) and not os.path.exists(os.path.join(to, part)):
                    shutil.copytree(os.path.join(kept, part), os.path.join(to, part))

    def checked(self, crate, edits):
        """Returns the output of `rt check` for `crate` with `edits`."""
        folder, files = os.path.join(self.folder, "crates", crate), made(edits)
        for file, source in files.items():
            with open(os.path.join(folder, file), "w", encoding="utf-8") as out:
                out.write(source)
        how = {"stdin": subprocess.DEVNULL, "stdout": subprocess.PIPE, "stderr": subprocess.STDOUT}
        try:
            ran = subprocess.run(["rt", "check", "--jobs", "1"], cwd=folder, text=True, errors="replace", **how)
        finally:
            for file in files:
                shutil.copy(os.path.join(TOP, "crates", crate, file), os.path.join(folder, file))
        return Said(ran.stdout)


class Place:
    """A place at which the checker finds a fault, and its message there."""

    def __init__(self, told):
        self.file, self.line, self.column, self.what = told[1], int(told[2]), told[3], told[4]

    def __str__(self):
        return f"{self.file}:{self.line}:{self.column}"

    def is_in(self, function):
        return self.file == function.file and function.first <= self.line <= function.last

    def is_of_names(self):
        return self.file.startswith("proofs/") and OF_NAMES.search(self.what) is not None


def first_of(places):
    """Returns the first of `places` whose message is about a contract, or else the first one with its message."""
    telling = [it for it in places if not it.is_of_names()]
    return str(telling[0]) if telling else f"{places[0]} (a proof names what the edit takes away)" if places else None


class Said:
    """The output of a check."""

    def __init__(self, text):
        self.text = text
        self.lines = text.split("\n")
        # The places at which something is not proved, with their messages. Other notes are advice.
        self.places = []
        for line in self.lines:
            told = TOLD.match(line)
            if told and (told[4].startswith("error") or (line.startswith("note: ") and "not proved" in told[4])):
                self.places.append(Place(told))
        self.verdicts = {it[1]: it[3] for it in VERDICT.finditer(text)}

    def is_proved(self):
        return re.search(r"^logic=proved", self.text, re.MULTILINE) is not None

    def is_refused(self):
        return re.search(r"^logic=not-proved", self.text, re.MULTILINE) is not None

    def unread(self):
        """Returns the places at which the front end refuses a text, or the prover can't read one. Then no contract was
        tried."""
        found = []
        for place in self.places:
            told = re.match(r"error(\[)?(?:[^:]*): (?:(`[^`]*`): )?", place.what)
            of_text = told and (told[1] or not told[2] or UNREAD.search(re.sub(r"`[^`]*`", "", place.what)))
            if of_text and not place.file.startswith("proofs/"):
                found.append(place)
        return found

    def why(self):
        """Returns why no contract was tried, or None if one was."""
        found = self.unread()
        if found:
            return f"{found[0]}: {found[0].what}"
        return None if self.is_proved() or self.is_refused() else f"no verdict: {' '.join(self.lines[-4:])[-300:]}"

    def refusal(self, edit, symbols):
        """Returns the place at which a function that `edit` changes is not proved, or None."""
        for function in edit.functions():
            inside = [it for it in self.places if it.is_in(function)]
            found = symbols_of(function, symbols)
            what = self.verdicts.get(found[0]) if len(found) == 1 else None
            if what is not None and not OF_ANOTHER.search(what):
                folder = "/".join(["proofs", *found[0].split("::")[1:], ""])
                own = [it for it in self.places if it.file.startswith(folder)]
                # A proof that cites one that was not admitted shows nothing about this function.
                inside += [it for it in own if NOT_ADMITTED not in it.what]
                if not own:
                    return first_of(inside) or f"fn {found[0]} is not proved"
            if inside:
                return first_of(inside)
        return None

    def waits(self, edit, symbols):
        """Returns whether a function of `edit` was not proved only because another was not."""
        found = [symbol for function in edit.functions() for symbol in symbols_of(function, symbols)]
        return any(symbol in self.verdicts for symbol in found)


class Tried:
    """The outcome of an edit: where it was refused, or why not."""

    def __init__(self, edit, word, what):
        self.edit, self.word = edit, word
        print(f"{word}  {edit.name}: {what}", flush=True)


def tried_alone(copy, edit):
    said = copy.checked(edit.crate, [edit])
    why = said.why()
    if why:
        return Tried(edit, "BAD", why)
    if said.is_proved():
        return Tried(edit, "NOT REFUSED", "the crate is still proved with this edit")
    return Tried(edit, "refused", f"{first_of(said.places) or 'no place is told'} (by itself)")


def tried_together(copy, edits, symbols):
    """Tries edits of different functions. Returns the results, the edits to try together again, and those to try by
    themselves."""
    said = copy.checked(edits[0].crate, edits)
    if said.why():
        unread = said.unread()
        named = [it for it in edits if any(place.is_in(function) for function in it.functions() for place in unread)]
        return [], [it for it in edits if it not in named] if named else [], named or edits
    done, again, alone = [], [], []
    for edit in edits:
        place = said.refusal(edit, symbols)
        if place:
            done.append(Tried(edit, "refused", place))
        elif said.waits(edit, symbols):
            again.append(edit)
        else:
            alone.append(edit)
    return done, again if done else [], alone if done else [*alone, *again]


def tried(copies, crate, edits):
    """Tries the edits of `crate`."""
    copy = copies.get()
    try:
        copy.take_outputs(crate)
        said = copy.checked(crate, [])
        if not said.is_proved():
            why = f"{crate} itself is not proved: {said.why() or said.places[:1]}"
            return [Tried(edit, "NOT TRIED", why) for edit in edits]
        symbols = re.findall(r"^fn (\S+): proved", said.text, re.MULTILINE)
        results, groups = [], groups_of(edits)
        while groups:
            members = groups.pop(0)
            if len(members) == 1:
                results.append(tried_alone(copy, members[0]))
                continue
            done, again, alone = tried_together(copy, members, symbols)
            results += done
            groups += [again] * bool(again) + [[it] for it in alone]
        return results
    finally:
        copies.put(copy)


def edits_of(given):
    """Returns the edits by their crates, lowest crate first, and the edits that can't be made."""
    folders = [os.path.join(TOP, "tests", "prover", "wrong-bodies", "{}")]
    folders += [os.path.join(TOP, "crates", "{}", "must-fail")] * given.all
    crates = []
    for crate in os.listdir(os.path.join(TOP, "crates")):
        crates += [it for it in crates_below(crate) if it not in crates]
    found, bad = {}, []
    for crate in crates:
        for folder in folders:
            folder = folder.format(crate)
            for name in sorted(os.listdir(folder)) if os.path.isdir(folder) else []:
                if not name.endswith(".edit"):
                    continue
                edit = Edit(crate, os.path.join(folder, name))
                if given.only not in edit.name:
                    continue
                try:
                    made([edit])
                    found.setdefault(crate, []).append(edit)
                except Bad as why:
                    bad.append(edit)
                    print(f"BAD  {why}")
    return found, bad


def main():
    parser = argparse.ArgumentParser(description=__doc__, formatter_class=argparse.RawDescriptionHelpFormatter)
    parser.add_argument("--only", default="")
    parser.add_argument("--all", action="store_true")
    parser.add_argument("--jobs", type=int, default=1)
    parser.add_argument("--list", action="store_true")
    given = parser.parse_args()
    found, bad = edits_of(given)
    count = sum(map(len, found.values())) + len(bad)
    if given.list:
        for edit in [it for edits in found.values() for it in edits]:
            print(f"{edit.name}: {', '.join(map(str, edit.functions())) or 'by itself'}")
    print(f"{count} edits", flush=True)
    if given.list or not count:
        return 0 if count and not bad else 2
    results = []
    with tempfile.TemporaryDirectory(prefix="wrong-bodies-") as folder:
        copies = queue.Queue()
        for number in range(min(given.jobs, len(found))):
            copies.put(Copy(os.path.join(folder, str(number))))
        with concurrent.futures.ThreadPoolExecutor(max(given.jobs, 1)) as workers:
            jobs = [workers.submit(tried, copies, crate, edits) for crate, edits in found.items()]
            for job in concurrent.futures.as_completed(jobs):
                results += job.result()
    words = [it.word for it in results] + ["BAD"] * len(bad)
    refused = words.count("refused")
    passed = words.count("NOT REFUSED")
    print(f"{refused} refused, {passed} not refused, {len(words) - refused - passed} not tried")
    for it in results:
        if it.word != "refused":
            print(f"{it.word}: {it.edit.name}")
    return 0 if refused == count else 1


if __name__ == "__main__":
    sys.exit(main())
