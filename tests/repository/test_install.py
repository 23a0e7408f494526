"""Tries tools/install and tools/uninstall in a copy of the repository, with an `rt` that proves nothing and sleeps.

A crate may begin only when those below it have ended, and at most the given number of crates may run at once. The time
of their order, if no crate slowed another, is compared with the time of one after the other. The other tests are:

- An install is interrupted, and is resumed.
- An install whose prover fails reports the failure, and names its log.
- An install without a prover reports this in its first line.
- Several installs run at once.
- The installed files are used, and removed.
- A shell runs the commands that an install prints for a folder whose name has spaces and quotes.
- DESTDIR is set, and a umask hides new files.
- Another program has the name of one of ours. It stays unless --force is given.

The library that is installed is that of TEST_LIBRARY if it is set, otherwise a library with one function."""

import concurrent.futures
import json
import os
import re
import shutil
import signal
import subprocess
import sys
import tempfile
import time
import unittest

from tests.built import TOP

sys.path.insert(0, os.path.join(TOP, "tools"))
import building  # noqa: E402
import placing  # noqa: E402

# The part of a check's seconds for which `rt` sleeps.
PACE = 0.004
# A program instead of `rt`: it notes when it began and ended, and leaves the files that `rt` would leave.
RT = '''#!{python}
import json, os, shutil, sys, time
if sys.argv[1:] == ["doc"]:
    sys.exit(print({kit!r} + "/START-HERE.md"))
name, times = os.path.basename(os.getcwd()), {times!r}
began = time.time()
if name == os.environ.get("RT_FAILS"):
    sys.exit("this crate is refused")
if not os.path.exists("out/proved"):
    time.sleep(times.get(name, {other}) * {pace})
os.makedirs("out", exist_ok=True)
with open("out/proved", "a") as file:
    file.write("proved")
with open({notes!r}, "a") as file:
    file.write(json.dumps([name, began, time.time()]) + "\\n")
if name == "mp4_c":
    shutil.copy({library!r}, "out/libmp4_c.a")
if sys.argv[1] == "run":
    with open("out/" + name, "w") as file:
        file.write("#!/bin/sh\\necho " + name + "\\n")
'''
EXAMPLE = "#include <mp4_box_codec.h>\nint main(void) { return (int)mp4_check((const uint8_t *)\"\", 0); }\n"


def fail(text):
    raise AssertionError(text)


def copied(folder):
    """Copies the files that an install needs to `folder`."""
    for name in ("crates.txt", "VERSION"):
        shutil.copy(os.path.join(TOP, name), folder)
    for name in ("tools", "include", "docs/man", "docs/completions"):
        shutil.copytree(os.path.join(TOP, name), os.path.join(folder, name))
    leave = shutil.ignore_patterns("out", "tests", "must-fail")
    shutil.copytree(os.path.join(TOP, "crates"), os.path.join(folder, "crates"), ignore=leave)


def made_library(folder):
    """Makes a static library with one function of the header in `folder`, and returns its path."""
    source, made = os.path.join(folder, "one.c"), os.path.join(folder, "one.a")
    with open(source, "w", encoding="utf-8") as text:
        text.write("unsigned mp4_check(const void *bytes, unsigned long length) { return bytes == 0 || length; }\n")
        text.write("int inner(void) { return 1; }\n")
    subprocess.run(["cc", "-fPIC", "-c", source, "-o", f"{source}.o"], check=True)
    subprocess.run(["ar", "rcs", made, f"{source}.o"], check=True)
    return made


class Try:
    """A copy of the repository with the other `rt`, and a folder to install into."""

    def __init__(self, work, library):
        self.top, self.prefix, self.notes = (os.path.join(work, it) for it in ("repository", "prefix", "notes"))
        os.makedirs(self.top)
        copied(self.top)
        rt = os.path.join(work, "bin", "rt")
        os.makedirs(os.path.dirname(rt))
        kit = os.path.dirname(subprocess.run(["rt", "doc"], capture_output=True, text=True, check=True).stdout.strip())
        values = {"python": sys.executable, "kit": kit, "pace": PACE}
        values |= {"times": building.SECONDS, "other": building.OTHER}
        with open(rt, "w", encoding="utf-8") as script:
            script.write(RT.format(notes=self.notes, library=library or made_library(work), **values))
        os.chmod(rt, 0o755)
        self.env = {**os.environ, "PATH": f"{os.path.dirname(rt)}:{os.environ['PATH']}"}

    def start(self, *words, to=None, at_once="4", umask=0o022, **more):
        how = {"stdout": subprocess.PIPE, "stderr": subprocess.STDOUT, "text": True}
        words = [os.path.join(self.top, "tools", "install"), to or self.prefix, "--at-once", at_once, *words]

        def first():
            # A script in the background ignores interrupts, and its processes inherit this.
            signal.signal(signal.SIGINT, signal.SIG_DFL)
            os.umask(umask)

        return subprocess.Popen(words, env={**self.env, **more}, preexec_fn=first, **how)

    def install(self, *words, **more):
        ran = self.start(*words, **more)
        said = ran.communicate()[0]
        return ran.returncode, said

    def installed(self, *words, **more):
        """Runs an install, which has to succeed, and returns its output."""
        status, said = self.install(*words, **more)
        if status or "Installed in" not in said:
            fail(f"{words} {more} fails: {said}")
        return said

    def uninstall(self, to=None, **more):
        words, env = [os.path.join(self.top, "tools", "uninstall"), to or self.prefix], {**self.env, **more}
        ran = subprocess.run(words, env=env, stdout=subprocess.PIPE, stderr=subprocess.STDOUT, text=True, check=False)
        return ran.returncode, ran.stdout

    def noted(self):
        if not os.path.exists(self.notes):
            return []
        with open(self.notes, encoding="utf-8") as lines:
            return [json.loads(line) for line in lines]

    def clear(self):
        for name in os.listdir(os.path.join(self.top, "crates")):
            shutil.rmtree(os.path.join(self.top, "crates", name, "out"), ignore_errors=True)
        if os.path.exists(self.notes):
            os.remove(self.notes)


def order(it, at_once):
    """Checks the order in which the crates ran. Returns the number of crates, the seconds of all one after the other,
    and the seconds of the order if each crate begins as soon as it can."""
    crates, noted = building.read_crates(), it.noted()
    began, ended = {name: at for name, at, _ in noted}, {name: at for name, _, at in noted}
    wanted = building.below(crates, [*building.PROGRAMS, building.C_CRATE])
    if sorted(began) != sorted(wanted) or len(noted) != len(wanted):
        fail(f"proved {sorted(began)}, and not {sorted(wanted)}")
    for name in wanted:
        early = [use for use in crates[name].uses if ended[use] > began[name]]
        if early:
            fail(f"{name} began before {early[0]} had ended")
    most = max(sum(began[it] <= at < ended[it] for it in wanted) for at in began.values())
    if most > at_once:
        fail(f"{most} crates were proved at once, and not {at_once}")
    lanes, ends = [0] * at_once, {}
    for name in sorted(wanted, key=began.get):
        lanes.sort()
        ends[name] = max([lanes[0], *(ends[use] for use in crates[name].uses)]) + building.seconds_of(name)
        lanes[0] = ends[name]
    return len(wanted), sum(building.seconds_of(name) for name in wanted), max(ends.values())


def compiled(it, *flags):
    """Compiles a program in C with the installed files, and runs it."""
    with tempfile.TemporaryDirectory() as folder:
        source, program = os.path.join(folder, "example.c"), os.path.join(folder, "example")
        with open(source, "w", encoding="utf-8") as text:
            text.write(EXAMPLE)
        subprocess.run(["cc", "-I", f"{it.prefix}/include", source, *flags, "-o", program], check=True)
        subprocess.run([program], check=True)


def exports(it):
    """Checks the names that the libraries export, and how the shared one is bound."""
    shared, archive = (os.path.join(it.prefix, "lib", f"libmp4_box_codec.{kind}") for kind in ("so", "a"))
    for words in (["nm", "-D", "--defined-only", shared], ["nm", "-g", "--defined-only", archive]):
        named = subprocess.run(words, capture_output=True, text=True, check=True).stdout.split("\n")
        names = [line.split()[-1] for line in named if " " in line]
        if not names or not all(name.startswith("mp4_") for name in names):
            fail(f"{words[-1]} exports {names}")
    entries = subprocess.run(["readelf", "-dW", shared], capture_output=True, text=True, check=True).stdout
    if not any("FLAGS_1" in line and "NOW" in line for line in entries.split("\n")):
        fail(f"the shared library is not bound when it is loaded:\n{entries}")


def files_below(folder):
    """Returns the paths of the files and links in `folder`, relative to it."""
    return sorted(os.path.relpath(os.path.join(at, it), folder) for at, _, files in os.walk(folder) for it in files)


def without_prover(it):
    """Installs without an `rt` in PATH. The first line reports this, and no file is touched."""
    before = files_below(it.prefix)
    has_rt = lambda folder: os.access(os.path.join(folder, "rt"), os.X_OK)
    path = ":".join(folder for folder in it.env["PATH"].split(":") if not has_rt(folder))
    for words in ([], ["--unproved"]):
        status, said = it.install(*words, PATH=path)
        if status == 0 or not said.startswith("install: `rt` is not there") or files_below(it.prefix) != before:
            fail(f"a missing rt is not told in the first line: {said}")


def put_often(path):
    """Puts a file at `path` many times."""
    for number in range(200):
        placing.put(path, b"%d" % number * 1000, 0o644)


def beside_others(it):
    """Installs several times at once, and puts one file into place from several processes. None disturbs another."""
    ran = [it.start(at_once="2") for _ in range(2)]
    for each in ran:
        said = each.communicate()[0]
        if each.returncode or "Installed in" not in said:
            fail(f"installs at once disturb one another: {said}")
    with concurrent.futures.ProcessPoolExecutor(8) as pool:
        path = os.path.join(it.prefix, "often")
        for task in [pool.submit(put_often, path) for _ in range(8)]:
            task.result()
    with open(path, "rb") as file:
        if file.read() != b"199" * 1000:
            fail("a file that was put into place often isn't whole")
    os.remove(path)
    left = [name for name in files_below(it.prefix) if name.endswith(".new") or ".new/" in name]
    if left:
        fail(f"installs at once leave {left}")


def commands_in(said):
    """Returns the commands that an install prints, by their purpose."""
    lines = [line.split(":", 1) for line in said.split("\n") if ":    " in line or line.startswith("Only its faults:")]
    return {line[0]: line[1].split("    (")[0].strip() for line in lines}


def found_by_rust(prefix, work):
    """Checks that the build script of the Rust binding finds the library by the pkg-config file."""
    source, script = os.path.join(TOP, "bindings", "rust", "build.rs"), os.path.join(work, "build-script")
    subprocess.run(["rustc", "--edition", "2021", source, "-o", script], check=True)
    env = {"PATH": os.environ["PATH"], "PKG_CONFIG_PATH": os.path.join(prefix, "lib", "pkgconfig")}
    # pkg-config does not name the folders that it takes for those of the system, such as that of a Debian package.
    for system in ("/usr/lib", os.path.join(prefix, "lib")):
        env["PKG_CONFIG_SYSTEM_LIBRARY_PATH"] = system
        said = subprocess.run([script], env=env, capture_output=True, text=True, check=False).stdout.split("\n")
        if f"cargo:rustc-link-search=native={prefix}/lib" not in said:
            fail(f"the build script of the Rust binding doesn't find the library in {prefix}: {said}")


def quoted(it, work):
    """Installs into a folder with a name for which a shell needs quotes, and runs the commands that are printed."""
    prefix = os.path.join(work, "it's \"my\" f\u00f6lder #1; & more")
    said = it.installed(to=prefix)
    commands, source = commands_in(said), os.path.join(work, "commands")
    os.makedirs(source)
    with open(os.path.join(source, "program.c"), "w", encoding="utf-8") as text:
        text.write(EXAMPLE)
    wanted = ["Show a file", "Only its faults", "A program in C", "The same, static", "Pages", "Remove it"]
    if sorted(commands) != sorted(wanted):
        fail(f"other commands are printed than {wanted}: {said}")
    tools = {"A program in C": "pkg-config", "The same, static": "pkg-config", "Pages": "man"}
    for name in wanted:
        command = commands[name]
        if not shutil.which(tools.get(name, "sh")):
            print(f"install: {tools[name]} is not on this machine: its command was not tried")
            continue
        env = {**it.env, "MANPAGER": "cat"}
        how = {"cwd": it.top if name == "Remove it" else source, "env": env, "capture_output": True, "text": True}
        ran = subprocess.run(["sh", "-c", command], check=False, **how)
        if ran.returncode or name in ("Show a file", "Only its faults") and ran.stdout != "mp4_inspect\n":
            fail(f"this is printed and fails: {command}\n{ran.stdout}{ran.stderr}")
        if command.startswith(("cc", "eval")):
            subprocess.run([os.path.join(source, "a.out")], check=True)
            os.remove(os.path.join(source, "a.out"))
    if files_below(prefix):
        fail(f"{files_below(prefix)} is left after the command that removes it")
    status, said = it.install(to=os.path.join(work, "a,b"))
    if status != 2 or "','" not in said or os.path.exists(os.path.join(work, "a,b")):
        fail(f"a folder that the linker can't search is not refused: {said}")


def staged(it, work):
    """Installs below DESTDIR, under a umask that hides new files, and removes the files there. Nothing is put into the
    prefix itself, although the files name it, and everyone can read all of the files."""
    stage, prefix = os.path.join(work, "stage"), os.path.join(work, "nowhere")
    said = it.installed(to=prefix, umask=0o077, DESTDIR=stage)
    root = stage + prefix
    if os.path.exists(prefix) or not os.path.isdir(root) or root not in said:
        fail(f"an install with DESTDIR is not below it: {said}")
    if files_below(root) != files_below(it.prefix):
        fail("an install with DESTDIR has other files")
    with open(os.path.join(root, "lib", "pkgconfig", "mp4_box_codec.pc"), encoding="utf-8") as text:
        if not text.read().startswith(f"prefix={prefix}\n"):
            fail("the pkg-config file of an install with DESTDIR names another prefix")
    for at, folders, files in os.walk(stage):
        for name in [".", *folders, *files]:
            path = os.path.join(at, name)
            opened = name not in files or "/bin/" in path
            mode = os.lstat(path).st_mode & 0o777
            if not os.path.islink(path) and mode != (0o755 if opened else 0o644):
                fail(f"{path} has the mode {mode:o}")
    status, said = it.uninstall(to=prefix)
    if status == 0 or not files_below(root):
        fail(f"tools/uninstall without DESTDIR finds what is below it: {said}")
    status, said = it.uninstall(to=prefix, DESTDIR=stage)
    if status or files_below(stage):
        fail(f"{files_below(stage)} is left after tools/uninstall with DESTDIR: {said}")


def of_others(it, work):
    """Installs where another program has the name of one of ours. It stays, unless --force is given."""
    prefix = os.path.join(work, "shared")
    other, noted = os.path.join(prefix, "bin", "mp4inspect"), len(it.noted())
    os.makedirs(os.path.dirname(other))
    with open(other, "w", encoding="utf-8") as text:
        text.write("of another")

    def is_other():
        with open(other, encoding="utf-8") as text:
            return files_below(prefix) == ["bin/mp4inspect"] and text.read() == "of another"

    status, said = it.install(to=prefix)
    if status == 0 or other not in said or "--force" not in said or not is_other() or len(it.noted()) != noted:
        fail(f"a program of another is replaced, or is refused only after all is proved: {said}")
    status, said = it.uninstall(to=prefix)
    if status == 0 or not is_other():
        fail(f"a program of another is removed: {said}")
    it.installed("--force", to=prefix)
    if files_below(prefix) != files_below(it.prefix) or is_other():
        fail("--force doesn't replace a program of another")
    status, said = it.uninstall(to=prefix)
    if status or files_below(prefix):
        fail(f"{files_below(prefix)} is left after --force and tools/uninstall: {said}")


def interrupted(it):
    """Interrupts an install, and runs it again. The crates that were proved are not proved again."""
    ran = it.start(at_once="2")
    while len(it.noted()) < 3 and ran.poll() is None:
        time.sleep(0.05)
    ran.send_signal(signal.SIGINT)
    said = ran.communicate()[0]
    if ran.returncode == 0 or "goes on from here" not in said:
        fail(f"an interrupt is not told: {said}")
    done = {name for name, _, _ in it.noted()}
    time.sleep(2)
    if {name for name, _, _ in it.noted()} != done:
        fail("a prover ran on after the interrupt")
    status, said = it.install(at_once="2")
    again = {name: ended - began for name, began, ended in it.noted()}
    if status or not done or any(again[name] > 0.2 for name in done):
        fail(f"it doesn't go on after an interrupt: {said}")


def removed(it):
    """Removes the installed files. A file of another program stays."""
    other = os.path.join(it.prefix, "bin", "other")
    with open(other, "w", encoding="utf-8"):
        pass
    status, said = it.uninstall()
    if status:
        fail(f"tools/uninstall fails: {said}")
    left = [os.path.join(at, file) for at, _, files in os.walk(it.prefix) for file in files]
    if left != [other]:
        fail(f"{left} is left after tools/uninstall")
    status, said = it.uninstall()
    if status == 0 or "nothing is installed" not in said:
        fail("tools/uninstall says nothing where nothing is installed")


HAS_PKG_CONFIG = unittest.skipUnless(shutil.which("pkg-config"), "pkg-config is not on this machine")


class Install(unittest.TestCase):
    @classmethod
    def setUpClass(cls):
        cls.work = tempfile.mkdtemp(prefix="install-")
        cls.addClassCleanup(shutil.rmtree, cls.work, ignore_errors=True)
        given = os.environ.get("TEST_LIBRARY")
        cls.it = Try(cls.work, given and os.path.join(os.path.abspath(given), "libmp4_box_codec.a"))

    def setUp(self):
        if not os.path.exists(os.path.join(self.it.prefix, placing.LISTED)):
            self.it.installed()

    def test_order(self):
        self.it.clear()
        self.it.installed()
        count, alone, took = order(self.it, 4)
        print(f"install: {count} crates take {took} s, and {alone} s one after the other: {took / alone:.2f}")
        self.assertLessEqual(took, 0.65 * alone, "the time of all at once, and of one after the other")

    @HAS_PKG_CONFIG
    def test_program_in_c_by_pkg_config(self):
        env = {**os.environ, "PKG_CONFIG_PATH": os.path.join(self.it.prefix, "lib", "pkgconfig")}
        for library in ("mp4_box_codec", "mp4_box_codec-static"):
            words = ["pkg-config", "--cflags", "--libs", library]
            said = subprocess.run(words, env=env, capture_output=True, text=True, check=True).stdout.split()
            compiled(self.it, *said)
            archive = os.path.join(self.it.prefix, "lib", "libmp4_box_codec.a")
            self.assertEqual(archive in said, library.endswith("static"), said)
            self.assertEqual("-lmp4_box_codec" in said, not library.endswith("static"), said)

    @unittest.skipUnless(shutil.which("man"), "man is not on this machine")
    def test_pages_of_functions(self):
        pages, env = os.path.join(self.it.prefix, "share", "man"), {**os.environ, "MANPAGER": "cat"}
        for name in ("mp4_box_codec", "mp4_find", "mp4_write_stts", "mp4inspect"):
            words = ["man", "-M", pages, name]
            said = subprocess.run(words, env=env, capture_output=True, text=True, check=True).stdout
            self.assertIn(name, re.sub(".\b", "", said), name)

    def test_program_in_c_that_is_static(self):
        compiled(self.it, os.path.join(self.it.prefix, "lib", "libmp4_box_codec.a"))

    def test_exported_names(self):
        exports(self.it)

    def test_installed_programs(self):
        for name in ("mp4boxes", "mp4inspect", "mp4remux"):
            subprocess.run([os.path.join(self.it.prefix, "bin", name)], check=True, stdout=subprocess.DEVNULL)

    def test_missing_prover(self):
        without_prover(self.it)

    def test_installs_at_once(self):
        beside_others(self.it)

    def test_commands_that_are_printed(self):
        quoted(self.it, self.work)

    @HAS_PKG_CONFIG
    @unittest.skipUnless(shutil.which("rustc"), "rustc is not on this machine")
    def test_build_script_of_the_rust_binding(self):
        prefix = os.path.join(self.work, "it's \"my\" f\u00f6lder #2; & more")
        self.it.installed(to=prefix)
        found_by_rust(prefix, self.work)

    def test_destdir(self):
        staged(self.it, self.work)

    def test_files_of_others(self):
        of_others(self.it, self.work)

    def test_refused_crate(self):
        self.it.clear()
        status, said = self.it.install(at_once="2", RT_FAILS="mp4_tables")
        log = os.path.join(self.it.top, "out", "install", "mp4_tables.log")
        self.assertNotEqual(status, 0)
        self.assertIn(log, said)
        with open(log, encoding="utf-8") as text:
            self.assertIn("this crate is refused", text.read())

    def test_interrupt(self):
        self.it.clear()
        interrupted(self.it)

    def test_removal(self):
        removed(self.it)


if __name__ == "__main__":
    unittest.main()
