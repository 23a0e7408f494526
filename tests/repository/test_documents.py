"""Compares the documents with the tree: what they quote, what they count and what they link to.

- Contracts. Each function in a `text` block of a CALLING.md is in the sources: the same name, signature and clauses,
  none left out. Each `ghost` member and `impl` is there too, or the `impl` is derived. Spaces, lifetimes and the `_`
  of a parameter don't count, nor does the text after two spaces in a line. The type before `::` is `Self`. `X` and
  `XBox` are some type that has the function. `..` in a ghost member matches any text, and so does a clause with one of
  `WORDS`. Each law is named.
- Code. Each block of Rust, C or definitions is in one file of those that its document names. It is compared a paragraph
  at a time, without spaces. Each name of its imports is imported in the file too.
- Counts: the numbers in `sentences`. docs/ARCHITECTURE.md names each crate, and docs/internals/MAP.md each box under
  its crate, with its files. Each box of mp4_extra has a wrong definition and a wrong body of its own.
- Wrong bodies: the table of tests/README.md names each edit that the gate tries, once, and no other.
- The version: VERSION, the C header and the first heading of CHANGELOG.md name the same version.
- Links: each relative link has its file and heading. Each path in backticks exists if it begins with a folder of the
  top.
- Tables: the eight counted tables and `trun` take their rows by `read_table` or `read_rows`, and these two functions
  take them by one call of `ByteCursor::take_rows`.
- Descriptions: docs/boxes.json, docs/boxes.schema.json and docs/FIELDS.md are what tools/describe.py makes from the
  declarations of the boxes. The classes for Python and the structs for Rust are what tools/python_classes.py and
  tools/rust_structs.py make from the first of them. The comment of `mp4_fields` in the header names these boxes.
- Lines: no line of a source or a document has more than 120 columns, except attributes, which `rt fmt` keeps on one
  line.

Each difference is printed with its file and line. With TEST_WRITE=1 the right numbers are first written into these
sentences. `python3 -m tests.repository.lines` prints the lines and the wrong bodies of each crate."""

import functools
import os
import re
import unittest
from pathlib import Path

from tests.rows import rows
from tools import describe, python_classes, rust_structs

TOP = Path(__file__).resolve().parent.parent.parent
WORDS = re.compile(r"\b(as of|the same|the record of|the name of|a clause for each)\b|^== of")
TEXTS = (".md", ".txt")
FENCE = re.compile(r"^```(\w+)\n(.*?)^```", re.M | re.S)
IMPL = re.compile(
    r"^ *(?:pub )?(?:impl\b[^{;]*?|trait )\b(\w+)(?:<[^{\n]*>)?(?:: [^{\n]*)?(?:\s+where[^{]*)?\s*\{", re.M)
BRACES = functools.reduce(lambda inner, _: rf"\{{(?:[^{{}}]|{inner})*\}}", range(6), r"\{[^{}]*\}")
CLAUSE = rf"\b(requires|ensures\*?)\s*(\w*)\s*({BRACES})"
FUNCTION = re.compile(
    r"^( *).*?\bfn (\w+)((?:(?!\b(?:requires|ensures|where)\b)[^{;\[\]]|\[(?:[^\[\]]|\[[^\[\]]*\])*\])*)"
    rf"(?:where(?:(?!\brequires|\bensures)[^{{;])*)?((?:{CLAUSE}\s*)*)", re.M)
IMPORT = re.compile(r"^\s*(?:ghost )?(?:pub )?use ([^;{]*?)(?:\{([^;]*)\}|(\w+))(?: as \w+)?;\n", re.M)
# A path in backticks that begins with a folder of the top, except paths of built files and of a box `x`.
PATH = re.compile(r"`((?:crates|docs|examples|tests|bench|include|tools)/(?!\S*/(?:out|[xX]\.))[\w./*-]+)`")
told = []


def tell(file, at, what):
    told.append((str(file.relative_to(TOP)), read(file).count("\n", 0, at) + 1, what))


@functools.cache
def read(path):
    return path.read_text(encoding="utf-8")


def tree(pattern):
    made = {"out", "__pycache__"}
    return sorted(f for f in TOP.glob(pattern) if f.is_file() and not made & {*f.relative_to(TOP).parts})


@functools.cache
def compact(text):
    text = re.sub(r"'\w+\b(?!')(\s*,\s*)?|\b(pub|final)\b(\([a-z]+\))?|\b_(?=\w+\s*:)", "", text)
    text = re.sub(r"^\s*(//[/!]?|--) ", "", text, flags=re.M)
    text = re.sub(r"\s+", "", text).replace("<>", "").replace(",Error>", ">")
    return re.sub(r"^sem𝓛\((.*)\)$", r"\1", re.sub(r"[,;]([)>\]}])", r"\1", text))


@functools.cache
def sources():
    return re.sub(r"^\s*//.*$", "", "\n".join(map(read, tree("crates/*/src/**/*.rt"))), flags=re.M)


@functools.cache
def functions():
    """Returns the functions by name: the type or trait around a function, its signature, and its clauses (kind, name
    and text)."""
    owners, by_name = [(m.start(), m[1]) for m in IMPL.finditer(sources())], {}
    for m in FUNCTION.finditer(sources()):
        owner = next((name for at, name in reversed(owners) if at < m.start()), "") if m[1] else ""
        clauses = [(kind, name, said[1:-1]) for kind, name, said in re.findall(CLAUSE, m[4])]
        by_name.setdefault(m[2], []).append((owner, m[3], clauses))
    return by_name


def differences(quoted, function):
    given, signature, clauses = quoted
    owner, its_signature, its_clauses = function
    type_name = owner if given in ("X", "XBox") else given

    def plain(text):
        if given in ("X", "XBox"):
            text = re.sub(r"_x\b", "_" + owner.removesuffix("Box").lower(), re.sub(r"\bX(Box)?\b", owner, text))
        type_itself = rf"\b{type_name}(<('?\w+)>)?(?![\w.])" if type_name[:1].isupper() else "(?!)"
        return compact(re.sub(type_itself, "Self", text))

    said = {(kind, name, plain(text)) for kind, name, text in clauses if not WORDS.search(text)}
    there = {(kind, name, plain(text)) for kind, name, text in its_clauses}
    missing = there - said if len(said) == len(clauses) else set()
    return (["signature"] if plain(signature) != plain(its_signature) else []) + [
        f"{kind} {name}: {text}" for kind, name, text in sorted(said - there) + sorted(missing - said)]


def compare_member(file, at, line):
    word, rest = line.split(" ", 1)
    if word == "impl" and " for " in rest:
        trait, types = re.sub(r",? Target = .*|, and .*", "", rest).split(" for ", 1)
        for name in types.split(", "):
            derived = rf"derive\([^)]*\b{re.escape(trait)}\b[^)]*\)\](#\[[^]]*\])*(struct|enum){re.escape(name)}\b"
            if compact(f"{trait} for {name}") not in compact(sources()) and not re.search(derived, compact(sources())):
                tell(file, at, f"impl {trait} for {name}")
    for name, value in (part.split(": ", 1) for part in re.split(r", (?=\w+: )", rest) if word != "impl"):
        value = ".*".join(re.escape(compact(piece)) for piece in value.split(".."))
        if not re.search(rf"ghost{name}(={{|:{{){value}}}" if word == "ghost" else value, compact(sources())):
            tell(file, at, f"{word} {name}")


def compare_contracts(file):
    entries = [None]
    for block in (m for m in FENCE.finditer(read(file)) if m[1] == "text"):
        # A line that is indented by six or more continues the line before it.
        for raw in re.finditer(r"^ {0,5}(\S.*(?:\n {6,}\S.*)*)$", block[2], re.M):
            line, at = re.split(r"\s{2,}", re.sub(r"\n +", " ", raw[1]))[0], block.start(2) + raw.start()
            if fn := re.match(r"fn (?:(\w+)::)?(\w+)(.*)", line):
                entries.append((at, fn[2], (fn[1] or "", fn[3], [])))
            elif re.match(r"(ghost|impl) ", line) or not entries[-1] and re.match("requires|ensures", line):
                compare_member(file, at, line)
                entries.append(None)
            elif clause := re.match(r"(requires|ensures\*?) ?([\w, ]*): (.*)", line):
                entries[-1][2][2].append(clause.groups())
            elif entries[-1] and line.startswith("→"):
                kind, name, said = entries[-1][2][2].pop()
                entries[-1][2][2].append((kind, name, f"{said} {line}"))
            elif entries[-1] and WORDS.search(line):
                entries[-1][2][2].append(("ensures", "", line))
    for name in re.findall(r"^pub fn (\w+)", "\n".join(map(read, file.parent.glob("src/*laws.rt"))), re.M):
        if not re.search(rf"\b{name}\b", read(file)):
            tell(file, 0, f"the law {name} is not named")
    for at, name, quoted in filter(None, entries):
        found = sorted(functions().get(name, []), key=lambda f: f[0] != quoted[0])
        if best := min((differences(quoted, f) for f in found), key=len, default=["there is no such function"]):
            tell(file, at, f"fn {name}: {'; '.join(best)}")



def imports(text):
    return {compact(path + one) for path, names, name in IMPORT.findall(text) for one in (names or name).split(",")}


def is_in(block, source):
    """Returns whether each piece of `block` is in `source`, even where the two are broken into other lines."""
    pieces = re.split(r"\n\s*\n", IMPORT.sub("", block))
    return imports(block) <= imports(source) and all(compact(piece) in compact(source) for piece in pieces)


def compare_code(file):
    languages = ("rust", "c", "text") if file.name == "OWN-BOX.md" else ("rust", "c")
    for block in (m for m in FENCE.finditer(read(file)) if m[1] in languages):
        after = re.match(r"[^`]*`([\w./]+/[\w.]+\.rt)`", f"{read(file)[block.end():]}\n\n".split("\n\n")[1])
        names = [after[1]] if after else re.findall(r"`(\w[\w./-]*)`", read(file)) + ["crates.txt"]
        files = [f for name in names for f in (tree(f"{name}/**/*") if (TOP / name).is_dir() else tree(name))]
        if not any(is_in(block[2], read(f)) for f in files if f.suffix in (".rt", ".antt", ".c", ".txt")):
            tell(file, block.start(), "this code is in no file that the document names")


def edits(crate):
    return len(tree(f"crates/{crate}/must-fail/*.edit")), len(tree(f"tests/prover/wrong-bodies/{crate}/*.edit"))


def sentences(kinds):
    """Returns triples of a file, a sentence in which (n) stands for a number, and these numbers."""
    tests, (gate, script) = [name for name, _ in rows()], edits("*")
    header, changes = read(TOP / "include/mp4_box_codec.h"), read(TOP / "tests/prover/wrong-definitions.txt")
    classes = python_classes.module().count("(Fields):\n")
    structs = rust_structs.module().count('Box b"')
    return [
        ("README.md", "the (n) of the crate `mp4`", kinds),
        ("CHANGELOG.md", "a class with types for each of (n) types of boxes", classes),
        ("docs/PYTHON.md", "There are classes for (n) types", classes),
        ("docs/RUST.md", "The module `extra` has structs for (n) types", structs),
        ("docs/ASSURANCE.md", "prover refuses (n) wrong .*? has the prover refuse (n) wrong bodies more", gate, script),
        ("docs/C.md", "`mp4_box_codec.h` declares (n) functions", header.count("\nuint32_t mp4_")),
        ("docs/OWN-BOX.md", "The codec reads (n) types of boxes", kinds),
        ("tests/README.md", "(n) rows of (n) tests", len(tests), len(set(tests))),
        ("tests/README.md", "makes each of the (n) changes", changes.count("\nchange: ")),
        ("tests/README.md", "So there are (n) .*? (n) of them .*? The other (n) are in", gate + script, gate, script),
    ]


def compare_map(kinds):
    """Checks that docs/ARCHITECTURE.md has a line for each crate, and that MAP.md names each box under its crate."""
    architecture, page = TOP / "docs/ARCHITECTURE.md", TOP / "docs/internals/MAP.md"
    crates, boxes = read(architecture), read(page)[read(page).find("\n## The boxes\n"):]
    for crate in (f.name for f in (TOP / "crates").iterdir()):
        if f"\n`{crate}` | " not in crates:
            tell(architecture, crates.find("## Crates"), f"no line says what {crate} is")
    named = 0
    for crate, said in re.findall(r"^- `(mp4_\w+)`: ([^.]*)\.", boxes[:boxes.find("\n## ", 1)], re.M):
        for box in (code.strip() for code in re.findall(r"`([^`]{4})`", said)):
            named += 1
            parts = (f"src/{box.lower()}.rt", f"specs/{box.capitalize()}.antt", f"specs/{box.capitalize()}Laws.antt")
            for part in (part for part in parts if not (TOP / "crates" / crate / part).is_file()):
                tell(page, read(page).find("## The boxes"), f"`{box}`: there is no crates/{crate}/{part}")
    if named != kinds:
        tell(page, read(page).find("## The boxes"), f"there are {kinds} boxes, and {named} are named")


def compare_more():
    """Checks that each box of mp4_extra has a wrong definition and a wrong body in the file of its name."""
    changes = read(TOP / "tests/prover/wrong-definitions.txt")
    for box in (f for f in tree("crates/mp4_extra_*/src/*.rt") if "\nimpl DeclaredBox for " in read(f)):
        crate = box.parts[-3]
        folders = (f"crates/{crate}/must-fail", f"tests/prover/wrong-bodies/{crate}")
        bodies = [read(f) for folder in folders for f in tree(f"{folder}/*")]
        if not re.search(rf"^change: {box.stem}\b", changes, re.M | re.I):
            tell(box, 0, "no change of tests/prover/wrong-definitions.txt is of this box")
        if not any(body.startswith(f"file: src/{box.name}\n") for body in bodies):
            tell(box, 0, "no edit of tests/prover/wrong-bodies is of this box")


def compare_bodies():
    """Checks that the table of the wrong bodies that the gate tries names each edit of crates/*/must-fail once, and no
    other."""
    page = TOP / "tests/README.md"
    begin = read(page).find("\n### Wrong bodies that the gate tries\n")
    table = read(page)[begin:read(page).find("\n## ", begin)]
    named = re.findall(r"^\|.*\| `(\w+/\w+)` \|$", table, re.M)
    tried = [f"{f.parts[-3]}/{f.stem}" for f in tree("crates/*/must-fail/*.edit")]
    for name in sorted(set(named) ^ set(tried)):
        tell(page, begin, f"{name} is no edit of the gate" if name in named else f"the table lacks the edit {name}")
    for name in sorted(name for name in set(named) if named.count(name) > 1):
        tell(page, begin, f"the table has {name} more than once")


def compare_parts():
    """Checks that `tests/run` has a part for each module of tests."""
    script = TOP / "tests/run"
    for module in tree("tests/*/test_*.py"):
        name = f"{module.parent.name}.{module.stem}"
        if not re.search(rf'suite\("{name}[".]', read(script)):
            tell(script, 0, f"no part runs tests.{name}")


def kinds_of_boxes():
    """Returns the number of types of boxes that the codec reads."""
    return len(re.findall(r"^kinds names\.\w+Box", read(TOP / "crates/mp4_stream/specs/AnyBox.antt"), re.M))


def compare_counts(write):
    """Checks that each of these sentences has the right numbers. With `write` it puts the numbers there."""
    kinds = kinds_of_boxes()
    for name, sentence, *numbers in sentences(kinds):
        pattern = sentence.replace("(n)", r"([\d,]+)").replace(" ", r"\s+")
        said = re.search(pattern, read(TOP / name), re.S)
        if said and [int(n.replace(",", "")) for n in said.groups()] == numbers:
            continue
        if said and write:
            text = read(TOP / name)
            for group in range(len(numbers), 0, -1):
                text = f"{text[:said.start(group)]}{numbers[group - 1]:,}{text[said.end(group):]}"
            (TOP / name).write_text(text, encoding="utf-8")
            read.cache_clear()
        else:
            tell(TOP / name, said.start() if said else 0, f"`{sentence}` has to say {numbers}")


def compare_tables():
    """Checks that each table takes its rows by one of two functions, and each of these by one call of the cursor."""
    for name, function in (("mp4_frame/src/table.rt", "read_table"), ("mp4_tables/src/rows.rt", "read_rows")):
        file = TOP / "crates" / name
        body = re.search(rf"^pub fn {function}<.*?^\}}", read(file), re.M | re.S)
        if not body or re.findall(r"\b(take_rows|take|rows_at|piece_at)::<|\.(take)\(", body[0]) != [("take_rows", "")]:
            tell(file, body.start() if body else 0, f"{function} has to take its rows by one call of take_rows")
    for name in ("stco", "co64", "stts", "ctts", "stss", "stsz", "stsc", "elst", "trun/lists"):
        file = TOP / f"crates/mp4_tables/src/{name}.rt"
        if not re.search(r"\bread_(table|rows)::<", read(file)) or re.search(r"\brows_at::<|\.take\(", read(file)):
            tell(file, 0, "the rows have to come from read_table or read_rows")


def compare_version():
    version = read(TOP / "VERSION").strip()
    names = [("include/mp4_box_codec.h", r'^#define MP4_VERSION "(.*)"$'), ("CHANGELOG.md", r"^## ([^\s,]+)")]
    names += [(f"bindings/{it}", r'^version = "(.*)"$') for it in ("rust/Cargo.toml", "python/pyproject.toml")]
    names += [("bindings/python/mp4_box_codec/_library.py", r'^__version__ = "(.*)"$')]
    for name, pattern in names:
        said = re.search(pattern, read(TOP / name), re.M)
        if not said or said[1] != version:
            tell(TOP / name, said.start() if said else 0, f"the version has to be that of VERSION, {version}")


def anchors(file):
    heads = re.findall(r"^#+ (.*)$", FENCE.sub("", read(file)), re.M)
    return {re.sub(r"[^\w\- ]", "", head.lower()).replace(" ", "-") for head in heads}


def compare_links(file):
    for m in re.finditer(r"\]\((?!\w+://)([^)\s#]*)#?([^)\s]*)\)", read(file)):
        there = (file.parent / m[1]).resolve() if m[1] else file
        if not there.exists() or m[2] and m[2] not in anchors(there):
            tell(file, m.start(), f"there is no {m[0][2:-1]}")
    for m in PATH.finditer(read(file)):
        if not any(TOP.glob(m[1].rstrip("/"))):
            tell(file, m.start(), f"there is no {m[1]}")


def compare_widths():
    found = [*tree("crates/**/*.rt"), *tree("crates/**/*.antt"), *tree("include/*"), *tree("bench/**/*.rs")]
    found += [*tree("bindings/**/*.py"), *tree("bindings/**/*.rs"), *tree("tests/**/*.py"), *tree("**/*.md")]
    found += [*tree("examples/**/*"), *tree("docs/man/*")]
    found += [it for folder in ("bench", "tests", "tests/*", "tools") for it in tree(f"{folder}/*")
              if it.suffix not in (*TEXTS, ".py")]
    for file in found:
        at = 0
        for line in read(file).split("\n"):
            if len(line) > 120 and not re.match(r"\s*#\[", line):
                tell(file, at, f"{len(line)} columns")
            at += len(line) + 1


class Documents(unittest.TestCase):
    def setUp(self):
        told.clear()

    def agree(self):
        """Fails if differences were found, with their list."""
        found = [f"{file}:{line}: {what}" for file, line, what in sorted(told)]
        if found:
            self.fail("\n".join([f"{len(found)} differences", *found]))

    def test_counts(self):
        compare_counts(bool(os.environ.get("TEST_WRITE")))
        self.agree()

    def test_crates_and_boxes_of_the_map(self):
        compare_map(kinds_of_boxes())
        self.agree()

    def test_wrong_definitions_and_bodies_of_boxes_of_mp4_extra(self):
        compare_more()
        self.agree()

    def test_wrong_bodies_of_the_gate(self):
        compare_bodies()
        self.agree()

    def test_rows_of_tables_come_from_two_functions(self):
        compare_tables()
        self.agree()

    def test_parts(self):
        compare_parts()
        self.agree()

    def test_version(self):
        compare_version()
        self.agree()

    def test_widths(self):
        compare_widths()
        self.agree()

    def test_descriptions(self):
        for tool in (describe, python_classes, rust_structs):
            for path, text in tool.files().items():
                self.assertEqual(read(TOP / path), text, f"{path}: run {tool.__name__.replace('.', '/')}.py --write")

    def test_boxes_of_the_header(self):
        """The comment of mp4_fields names the described boxes that have no function."""
        header = read(TOP / "include/mp4_box_codec.h")
        listed = re.search(r"It also reads (alac[^.]*)\.", header)[1]
        codes = [box["code"].strip() for box in describe.boxes()]
        codes = [it for it in codes if f" mp4_{it.lower()}(" not in header]
        self.assertEqual(re.split(r",\s+|\s+and\s+", listed), codes)

    def test_links(self):
        for file in tree("**/*.md"):
            compare_links(file)
        self.agree()

    def test_code(self):
        for file in tree("**/*.md"):
            if file.name in ("CALLING.md", "README.md", "C.md", "OWN-BOX.md"):
                compare_code(file)
        self.agree()

    def contracts(self, file):
        compare_contracts(file)
        self.agree()


def test_of(file):
    return lambda self: self.contracts(file)


for page in tree("**/CALLING.md"):
    setattr(Documents, f"test_contracts_of_{page.parent.name}", test_of(page))

if __name__ == "__main__":
    unittest.main()
