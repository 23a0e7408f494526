"""Runs the gate (`rt ci`) for a release, and makes the file PROOF of its packages."""
import hashlib
import os
import re
import subprocess
import time

import building

# The paths whose sums the file PROOF has, beside those of the crates.
SOURCES = ("HANDLES", "VERSION", "bindings", "crates.txt", "docs", "examples", "include", "tools")
UNPROVED = """NOTHING WAS PROVED

These files were compiled without proof, for a first look. They are not those of a release.
"""
PROVED = """What was proved of these files

The gate of the repository (`rt ci`) proved the crates below and their tests: each function meets its contract, is safe,
and returns. docs/PROOFS.md of the commit says what the contracts promise, and docs/ASSURANCE.md what is only tested or
trusted. The prover also refused each wrong body below.
"""


def git(*words):
    """Returns the output of a command of git in the repository."""
    ran = subprocess.run(["git", *words], cwd=building.TOP, capture_output=True, check=False)
    if ran.returncode:
        raise building.Failed(f"git {words[0]} failed: {ran.stderr.decode('utf-8', 'replace').strip()}")
    return ran.stdout.decode("utf-8", "surrogateescape")


def commit():
    """Returns the name of the commit that is checked out, and its time in seconds."""
    name, at = git("log", "-1", "--format=%H %ct").split()
    return name, int(at)


def changes():
    """Returns the paths of files that differ from the commit, or that it doesn't have."""
    return [line[3:] for line in git("status", "--porcelain").split("\n") if line]


def tracked(*paths):
    """Returns the files of the commit at `paths`: a file itself, or the files of a folder."""
    return [it for it in git("ls-files", "-z", "--", *paths).split("\0") if it]


def refuse_changes():
    """Raises Failed if the checkout differs from its commit."""
    if changed := changes():
        raise building.Failed(f"the checkout has changes, such as {changed[0]}: a release is made from a commit")


def refuse_other_version(version):
    """Raises Failed if CHANGELOG.md or a tag contradicts `version`: if CHANGELOG.md doesn't begin with its date, if the
    commit has the tag of another version, or if another commit has the tag of this version."""
    with open(os.path.join(building.TOP, "CHANGELOG.md"), encoding="utf-8") as text:
        head = re.search(r"^## .*$", text.read(), re.M)
    if not head or not re.fullmatch(rf"## {re.escape(version)}, \d{{4}}-\d\d-\d\d", head[0]):
        raise building.Failed(f"CHANGELOG.md has to begin with `## {version}, YEAR-MONTH-DAY`, the date of the release")
    here, wanted = git("tag", "--points-at", "HEAD", "v[0-9]*").split(), f"v{version}"
    if others := [it for it in here if it != wanted]:
        raise building.Failed(f"the commit has the tag {others[0]}, and VERSION is {version}")
    if wanted not in here and git("tag", "--list", wanted).strip():
        raise building.Failed(f"the tag {wanted} is at another commit: check it out, or change VERSION")


def wrong_bodies():
    """Returns what each wrong body that the gate tries does, by CRATE/NAME. Reads the table of tests/README.md."""
    with open(os.path.join(building.TOP, "tests", "README.md"), encoding="utf-8") as page:
        return {edit: does for does, edit in re.findall(r"^\| (.*) \| `(\w+/\w+)` \|$", page.read(), re.M)}


def run_gate(log):
    """Runs the gate, and writes its output to the file `log`. Raises Failed unless the gate proves each crate, and
    refuses each wrong body."""
    env = {**os.environ, "RT_JOBS": str(len(os.sched_getaffinity(0)))}
    with open(log, "wb") as out:
        how = {"cwd": building.TOP, "env": env, "stdin": subprocess.DEVNULL, "stdout": out, "stderr": subprocess.STDOUT}
        status = subprocess.run(["rt", "ci"], check=False, **how).returncode
    with open(log, encoding="utf-8", errors="replace") as text:
        last = text.read().rstrip("\n").rpartition("\n")[2]
    wanted = f"{len(building.read_crates()) + len(wrong_bodies())} passed, 0 failed"
    if status or last != wanted:
        raise building.Failed(f"the gate did not pass: it ends with `{last}`, and not with `{wanted}`; see {log}")


def sum_of(path):
    """Returns a sum of the files of the commit at `path`: the SHA-256 of what sha256sum prints of them."""
    lines = hashlib.sha256()
    for name in tracked(path):
        with open(os.path.join(building.TOP, name), "rb") as file:
            lines.update(f"{hashlib.sha256(file.read()).hexdigest()}  {name}\n".encode())
    return lines.hexdigest()


def record(version, home, files, is_proved):
    """Returns the text of the file PROOF. `home` is the kit's folder. `files` are the programs, the libraries and the
    header by their paths in an installation, each with the path of its file."""
    name, at = commit()
    kit = []
    for part in ("KIT-ID", "WHAT"):
        with open(os.path.join(home, part), encoding="utf-8") as text:
            kit += text.read().strip().split("\n")
    changed = ", with changes that are not committed" if changes() else ""
    date = time.strftime("%Y-%m-%dT%H:%M:%SZ", time.gmtime(at))
    lines = [PROVED if is_proved else UNPROVED, f"Version: {version}", f"Commit: {name} of {date}{changed}"]
    lines += ["", "Kit:", *(f"  {it}" for it in kit)]
    lines += ["", "Programs, libraries and header, without symbols for debuggers (SHA-256):"]
    for path, built in sorted(files.items()):
        with open(built, "rb") as file:
            lines += [f"  {hashlib.sha256(file.read()).hexdigest()}  {path}"]
    crates = sorted(building.read_crates())
    lines += ["", "Sources. The sum of a PATH is what this prints in the repository:",
              "  git ls-files -z PATH | xargs -0 sha256sum | sha256sum"]
    lines += [f"  {sum_of(path)}  {path}" for path in sorted([*SOURCES, *(f"crates/{it}" for it in crates)])]
    if is_proved:
        lines += ["", f"Proved: {len(crates)} crates", *(f"  {it}" for it in crates)]
        tried = wrong_bodies()
        lines += ["", f"Refused: {len(tried)} wrong bodies", *(f"  {it}: {does}" for it, does in sorted(tried.items()))]
    return "\n".join(lines) + "\n"
