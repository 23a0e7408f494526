"""Calls the library for C from Rust and Python: the tests and examples of bindings/rust and bindings/python, with those
of docs/RUST.md and docs/PYTHON.md. The library is that of TEST_LIBRARY. Without this setting one is built without
proof."""

import functools
import os
import re
import shutil
import subprocess
import sys
import tempfile
import unittest

from tests.built import TOP, library, source
from tests.c.test_described import described_boxes

RUST = os.path.join("bindings", "rust")


@functools.cache
def version_of(*words):
    """Returns the version that a command prints, or None if it is not on the machine."""
    if not shutil.which(words[0]):
        return None
    ran = subprocess.run([*words, "--version"], capture_output=True, text=True, check=False)
    return ran.stdout.strip() if ran.returncode == 0 else None


def oldest_rust():
    """Returns the version of the oldest compiler that the crate declares to support."""
    return re.search(r'^rust-version = "(.*)"$', source(RUST, "Cargo.toml"), re.M)[1]


def written_examples(folder):
    """Writes docs/PYTHON.md without its fences to a file in `folder`, and returns the path. For doctest a fence would
    belong to the output before it."""
    path = os.path.join(folder, "PYTHON.txt")
    with open(path, "w", encoding="utf-8") as page:
        page.write(re.sub("^```.*$", "", source("docs", "PYTHON.md"), flags=re.M))
    return path


class Bindings(unittest.TestCase):
    def setUp(self):
        self.folder, self.library = tempfile.mkdtemp(prefix="bindings-"), library()
        self.addCleanup(shutil.rmtree, self.folder)

    def succeeds(self, *words, **how):
        """Runs a command, which has to succeed, and returns its output."""
        ran = subprocess.run(words, stdout=subprocess.PIPE, stderr=subprocess.STDOUT, check=False, **how)
        self.assertEqual(ran.returncode, 0, f"{words}: {ran.stdout.decode('utf-8', 'replace')}")
        return ran.stdout

    def other_version(self):
        """Returns the path of a library of another version, 0.2.7. The bindings use nothing of it except its
        version."""
        if not shutil.which("cc"):
            self.skipTest("cc is not on this machine: no library of another version is made")
        path = os.path.join(self.folder, "other.so")
        with open(os.path.join(self.folder, "other.c"), "w", encoding="ascii") as text:
            text.write("unsigned mp4_version(void) { return 2007; }\n")
        self.succeeds("cc", "-shared", "-fPIC", os.path.join(self.folder, "other.c"), "-o", path)
        return path


class Rust(Bindings):
    def cargo(self, cargo, rustc, *words, before=(), command="test", **more):
        """Runs a command of cargo in a copy of the bindings and the documents, and returns its output. The words
        `before` come before it."""
        if not os.path.exists(os.path.join(self.folder, "bindings")):
            for name in ("bindings", "docs"):
                shutil.copytree(os.path.join(TOP, name), os.path.join(self.folder, name))
        env = {**os.environ, "RUSTC": rustc, "RUSTDOC": re.sub("rustc$", "rustdoc", rustc),
               "TEST_MOVIES": os.path.join(TOP, "tests", "files", "movies"),
               "MP4_BOX_CODEC_LIB_DIR": self.library, "CARGO_TARGET_DIR": os.path.join(self.folder, "target"), **more}
        words = [*before, cargo, command, "--offline", *words]
        return self.succeeds(*words, cwd=os.path.join(self.folder, RUST), env=env).decode()

    def passes(self, cargo, rustc):
        """Runs the tests of the crate and the examples, in which a warning is an error too."""
        boxes = os.path.join(self.folder, "boxes.txt")
        with open(boxes, "w", encoding="ascii") as lines:
            lines.writelines(f"{it.hex()}\n" for it in described_boxes())
        said = self.cargo(cargo, rustc, RUSTFLAGS="-D warnings", TEST_BOXES=boxes)
        passed = re.findall(r"^test result: ok. (\d+) passed", said, re.M)
        print(f"bindings: Rust: {'+'.join(passed)} tests passed with {version_of(rustc)}")

    @unittest.skipUnless(version_of("cargo") and version_of("rustc"), "cargo is not on this machine")
    def test_crate(self):
        self.passes("cargo", "rustc")

    @unittest.skipUnless(version_of("cargo") and version_of("rustc"), "cargo is not on this machine")
    def test_library_of_another_version(self):
        # The library is linked when the program runs, and the other one comes before it.
        other, shared = self.other_version(), os.path.join(self.folder, "shared")
        os.mkdir(shared)
        for name in os.listdir(self.library):
            if name.startswith("libmp4_box_codec.so"):
                shutil.copy(os.path.join(self.library, name), shared, follow_symlinks=False)
        self.cargo("cargo", "rustc", "--test", "version", "--no-run", MP4_BOX_CODEC_LIB_DIR=shared)
        before = ["env", f"LD_LIBRARY_PATH={shared}", f"LD_PRELOAD={other}"]
        said = self.cargo("cargo", "rustc", "--test", "version", "--", "--ignored", before=before,
                          MP4_BOX_CODEC_LIB_DIR=shared)
        self.assertIn("1 passed", said)

    @unittest.skipUnless(version_of("cargo") and version_of("rustc"), "cargo is not on this machine")
    def test_package(self):
        # Cargo builds the package from what it has packed.
        self.cargo("cargo", "rustc", "--allow-dirty", command="package", RUSTFLAGS="-D warnings")
        listed = self.cargo("cargo", "rustc", "--allow-dirty", "--list", command="package").split()
        for name in ("README.md", "build.rs", "src/lib.rs", "src/raw.rs"):
            self.assertIn(name, listed)

    @unittest.skipUnless(version_of("cargo") and version_of("rustc"), "cargo is not on this machine")
    def test_documentation(self):
        # A public item without words, or a link that leads nowhere, is an error.
        self.cargo("cargo", "rustc", "--no-deps", command="doc", RUSTDOCFLAGS="-D warnings")

    def test_crate_with_the_oldest_compiler(self):
        # This compiler is that of Debian 12.
        found, oldest = version_of("/usr/bin/cargo") and version_of("/usr/bin/rustc"), oldest_rust()
        if not (found or "").startswith(f"rustc {oldest}."):
            self.skipTest(f"/usr/bin/rustc and cargo are not on this machine as Rust {oldest}")
        self.passes("/usr/bin/cargo", "/usr/bin/rustc")


class Python(Bindings):
    def python(self, *words, cwd=os.path.join(TOP, "bindings", "python"), **more):
        env = {**os.environ, "MP4_BOX_CODEC_LIB": os.path.join(self.library, "libmp4_box_codec.so.0"),
               "PYTHONPATH": os.path.join(TOP, "bindings", "python"), "PYTHONDONTWRITEBYTECODE": "1", **more}
        return self.succeeds(sys.executable, *words, cwd=cwd, env=env)

    def test_module(self):
        self.python("-m", "unittest", "test_mp4_box_codec", "test_numbers")

    def test_examples_of_the_module(self):
        folder = os.path.join(TOP, "bindings", "python", "mp4_box_codec")
        names = [it[:-3] for it in sorted(os.listdir(folder)) if it.endswith(".py") and it != "__init__.py"]
        names = ["mp4_box_codec", *(f"mp4_box_codec.{it}" for it in names)]
        said = self.python("-c", "import doctest, importlib, sys\nfor it in sys.argv[1:]:\n"
                           "    print(*doctest.testmod(importlib.import_module(it)))", *names).decode()
        failed, tried = zip(*(map(int, line.split()) for line in said.splitlines()))
        self.assertEqual(sum(failed), 0, said)
        self.assertGreater(sum(tried), 25)

    def test_examples_of_the_page(self):
        self.python("-m", "doctest", "-o", "ELLIPSIS", written_examples(self.folder), cwd=TOP)

    def refused(self, path, text):
        """Imports the module with the library at `path`, and expects that it refuses the library with the text
        `text`."""
        said = self.python("-c", "try:\n    import mp4_box_codec\nexcept ImportError as why:\n    print(why)\n"
                           "else:\n    print('it is imported')", MP4_BOX_CODEC_LIB=path).decode()
        self.assertIn(text, said)
        self.assertIn("tools/install", said)

    def test_missing_library(self):
        self.refused("/none", "can't be loaded")

    def test_library_of_another_version(self):
        other = self.other_version()
        self.refused(other, f"{other} is version 0.2.7, and this module needs version 0.1.x")


if __name__ == "__main__":
    unittest.main()
