"""Prints the lines of each crate by what they are for, and how many wrong bodies the gate and the script try.

    python3 -m tests.repository.lines"""

from tests.repository.test_documents import TOP, edits, read, tree


def lines_of(crate):
    specs, proofs, code = (set(tree(f"crates/{crate}/{part}/**/*")) for part in ("specs", "proofs", "src"))
    laws = {f for f in specs if f.stem.endswith("Laws")}
    tests = {f for f in code if "tests" in (f.stem, *f.relative_to(TOP).parts)}
    return [sum(read(f).count("\n") for f in part) for part in (specs - laws, laws, proofs, code - tests, tests)]


def main():
    crates = sorted(f.name for f in (TOP / "crates").iterdir())
    rows = [(crate, *lines_of(crate), *edits(crate)) for crate in crates]
    rows.append(("all", *(sum(column) for column in list(zip(*rows))[1:-2]), *edits("*")))
    heads = ("crate", "definitions", "laws", "proofs", "code", "tests", "bodies by the gate", "by the script")
    for row in (heads, *rows):
        print(f"{row[0]:20}", *(f"{cell:>{len(head)}}" for cell, head in zip(row[1:], heads[1:])), sep="  ")


if __name__ == "__main__":
    main()
