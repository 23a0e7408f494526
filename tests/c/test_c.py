"""Calls every function of the library for C: from C, with sanitizers if the compiler has them, under valgrind, and from
Rust. The header and the library name the same functions, and the examples of docs/C.md are compiled and run.

The library is that of TEST_LIBRARY. Without it both libraries are proved and built, as LLVM does and as Rattle's own
compiler does, which takes long: the gate proves the libraries, and leaves none that can be linked."""

import os
import re
import shutil
import subprocess
import tempfile
import unittest

from tests.built import TOP, source
from tests.files.stored import stored

CC = os.environ.get("CC") or "cc"
STRICT = ["-std=c99", "-pedantic", "-Wall", "-Wextra", "-Werror"]
SANITIZERS = ["-fsanitize=address,undefined", "-fno-sanitize-recover=all"]
# The caller defines these itself: its functions count and refuse requests.
WRAPPED = ["-Wl,--wrap=malloc,--wrap=realloc,--wrap=free"]
CALLERS = ["caller", "samples", "boxes", "writing", "entries", "walk", "fields", "from_json", "info", "rewriting"]
# The arguments of callers.
MOVIES = [os.path.join(TOP, "tests", "files", "movies")]
ARGUMENTS = {"info": MOVIES, "rewriting": MOVIES}
FUNCTIONS = 81


def has(*words):
    """Returns whether the command `words` is on the machine and ends well."""
    return bool(shutil.which(words[0])) and not subprocess.run(words, capture_output=True, check=False).returncode


class Calls:
    """The tests of a library in the folder `library`."""

    library = None

    def setUp(self):
        self.folder = tempfile.mkdtemp(prefix="c-")
        self.addCleanup(shutil.rmtree, self.folder)
        self.archive = os.path.join(self.library, "libmp4_box_codec.a")

    def succeeds(self, *words, **how):
        """Runs a command, which has to succeed, and returns its output."""
        ran = subprocess.run(words, stdout=subprocess.PIPE, stderr=subprocess.STDOUT, check=False, **how)
        self.assertEqual(ran.returncode, 0, f"{words}: {ran.stdout.decode('utf-8', 'replace')}")
        return ran.stdout

    def compiled(self, name, *flags):
        """Compiles the program `name` in C with the library, and returns its path."""
        program = os.path.join(self.folder, name)
        code = os.path.join(TOP, "tests", "c", f"{name}.c")
        self.succeeds(CC, *STRICT, "-O2", "-g", *flags, "-I", self.library, code, self.archive, "-o", program)
        return program

    def call(self, name, *flags):
        """Runs a caller in C, which has to succeed, and prints its last line."""
        said = self.succeeds(self.compiled(name, *flags), *ARGUMENTS.get(name, [])).decode()
        print(f"c: {type(self).__name__}: {said.splitlines()[-1]}")

    def call_under_sanitizers(self, name):
        empty = os.path.join(self.folder, "empty")
        with open(f"{empty}.c", "w", encoding="ascii") as text:
            text.write("int main(void) { return 0; }\n")
        if not has(CC, *SANITIZERS, f"{empty}.c", "-o", empty) or not has(empty):
            self.skipTest(f"{CC} has no sanitizer of addresses")
        self.call(name, *SANITIZERS, *WRAPPED)

    @unittest.skipUnless(has("valgrind", "--version"), "valgrind is not on this machine")
    def test_writing_under_valgrind(self):
        # Valgrind sees whether memory of malloc is read before it is written.
        self.succeeds("valgrind", "-q", "--error-exitcode=9", self.compiled("writing", *WRAPPED))

    @unittest.skipUnless(has("rustc", "--version"), "rustc is not on this machine")
    def test_caller_in_rust(self):
        program = os.path.join(self.folder, "caller")
        code = os.path.join(TOP, "tests", "c", "caller.rs")
        self.succeeds("rustc", "--edition", "2021", "-O", "-D", "warnings", code, "-L", self.library, "-l",
                      "static=mp4_box_codec", "-o", program)
        self.succeeds(program)


def test_of(name):
    return lambda self: self.call(name, *WRAPPED)


def test_under_sanitizers(name):
    return lambda self: self.call_under_sanitizers(name)


for caller in CALLERS:
    setattr(Calls, f"test_{caller}", test_of(caller))
    setattr(Calls, f"test_{caller}_under_sanitizers", test_under_sanitizers(caller))


class Library(Calls, unittest.TestCase):
    """The library of TEST_LIBRARY, or the one that LLVM builds."""

    @classmethod
    def setUpClass(cls):
        if os.environ.get("TEST_LIBRARY"):
            cls.library = os.path.abspath(os.environ["TEST_LIBRARY"])
        else:
            cls.library = tempfile.mkdtemp(prefix="llvm-")
            cls.addClassCleanup(shutil.rmtree, cls.library)
            subprocess.run([os.path.join(TOP, "tools", "build-c"), cls.library], check=True)

    def test_functions_of_the_header(self):
        header = source("include", "mp4_box_codec.h")
        with open(os.path.join(self.library, "mp4_box_codec.h"), encoding="utf-8") as text:
            self.assertEqual(text.read(), header, "the header beside the library")
        declared = re.findall(r"^uint32_t (mp4_[a-z0-9_]*)\(", header, re.M)
        named = self.succeeds("nm", "-g", "--defined-only", self.archive).decode()
        self.assertEqual(len(declared), FUNCTIONS)
        self.assertEqual(sorted(declared), sorted(re.findall(r" [A-Z] (.*)$", named, re.M)))

    def check(self, compiler, *flags):
        """Compiles a file that contains only the header."""
        alone = os.path.join(self.folder, "alone.c")
        with open(alone, "w", encoding="ascii") as text:
            text.write('#include "mp4_box_codec.h"\n')
        self.succeeds(compiler, *flags, "-Wall", "-Wextra", "-Werror", "-fsyntax-only", "-I", self.library, alone)

    def test_header_in_c99(self):
        self.check(CC, "-std=c99", "-pedantic")

    def test_header_in_c89(self):
        self.check(CC, "-std=c89", "-pedantic")

    def test_header_in_c89_without_stdint(self):
        self.check(CC, "-std=c89", "-pedantic", "-DMP4_NO_STDINT")

    @unittest.skipUnless(has("c++", "--version"), "c++ is not on this machine")
    def test_header_in_cpp(self):
        self.check("c++", "-x", "c++")

    def test_examples_of_the_page(self):
        for name in ("example", "tree"):
            code = source("tests", "c", f"{name}.c")
            self.assertTrue(f"```c\n{code}```" in source("docs", "C.md"), f"docs/C.md doesn't show tests/c/{name}.c")

    def file(self):
        """Returns the bytes of a file with a key frame, which the caller of samples writes."""
        return self.succeeds(self.compiled("samples", *WRAPPED), "--file")

    def test_key_frame(self):
        program, file = self.compiled("key_frame"), self.file()
        for time, wanted in (("0", b"abc"), ("19", b"abc"), ("20", b"hijkl"), ("99", b"hijkl")):
            with self.subTest(time=time):
                self.assertEqual(self.succeeds(program, "7", time, input=file).rstrip(b"\n"), wanted)
        ran = subprocess.run([program, "6", "0"], input=file, capture_output=True, check=False)
        self.assertNotEqual(ran.returncode, 0)
        self.assertEqual(ran.stderr, b"key_frame: no track has the track_ID\n")

    def test_written_boxes(self):
        mdhd = b"\0\0\0\x20mdhd" + bytes(14) + b"\x75\x30\0\1\x5f\x90\x15\xc7\0\0"
        stts = b"\0\0\0\x18stts" + bytes(7) + b"\1\0\0\0\x5a\0\0\3\xe8"
        self.assertEqual(self.succeeds(self.compiled("write")), mdhd + stts)

    def test_title(self):
        program, path, out = self.compiled("title"), os.path.join(MOVIES[0], "video.mp4"), f"{self.folder}/out"
        self.succeeds(program, path, out)
        with open(path, "rb") as before, open(out, "rb") as after:
            self.assertEqual(after.read().count(b"Blue"), before.read().count(b"Blue") + 1)
        with open(f"{self.folder}/empty", "wb") as file:
            file.write(b"")
        ran = subprocess.run([program, file.name, out], capture_output=True, check=False)
        self.assertEqual((ran.returncode, ran.stderr), (1, b"there is no moov\n"))

    def test_threads(self):
        with open(os.path.join(self.folder, "file"), "wb") as file:
            file.write(stored("plain"))
        with open(os.path.join(self.folder, "file"), "rb") as file:
            said = self.succeeds(self.compiled("threads", "-pthread"), stdin=file).decode()
        self.assertEqual(said, "threads: 8 threads asked 50 times, and agree\n")

    def test_faults_and_tracks(self):
        program, movies = self.compiled("faults"), MOVIES[0]
        said = self.succeeds(program, os.path.join(movies, "fragments.mp4"))
        self.assertEqual(said, b"video, avc1.64000a, 20 samples\naudio, mp4a.40.2, 9 samples\n")
        path = os.path.join(self.folder, "file")
        with open(path, "wb") as file:
            file.write(b"\0\0\0\x10moov\0\0\0\x09trac")
        ran = subprocess.run([program, path], capture_output=True, check=False)
        self.assertEqual((ran.returncode, ran.stdout),
                         (1, b"0 moov: there is no mvhd\n8 moov/trac: unexpected end of input\n"))

    def test_tree(self):
        path = os.path.join(self.folder, "file")
        with open(path, "wb") as file:
            file.write(self.file())
        listed = self.succeeds(self.compiled("tree"), path).decode()
        self.assertRegex(listed, r"(?m)^      hdlr @", "the hdlr is not three levels deep")

    def test_example(self):
        with open(os.path.join(TOP, "crates", "mp4_boxes", "stdin"), "rb") as file:
            listed = self.succeeds(self.compiled("example"), input=file.read())
        self.assertEqual(listed, b"0 24 0x66747970\n24 8 0x66726565\n32 20 0x7374636f\n")


@unittest.skipIf(os.environ.get("TEST_LIBRARY"), "the library of TEST_LIBRARY is called")
class LibraryByRattle(Calls, unittest.TestCase):
    """The library that Rattle's own compiler builds."""

    @classmethod
    def setUpClass(cls):
        cls.library = tempfile.mkdtemp(prefix="rattle-")
        cls.addClassCleanup(shutil.rmtree, cls.library)
        subprocess.run([os.path.join(TOP, "tools", "build-c"), cls.library, "--backend", "rattle"], check=True)


if __name__ == "__main__":
    unittest.main()
