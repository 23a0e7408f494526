"""The things that the tests run: the built programs and the library for C. Also the settings that tests take from the
environment, which tests/README.md lists."""

import atexit
import functools
import importlib
import os
import shutil
import subprocess
import sys
import tempfile

TOP = os.path.dirname(os.path.dirname(os.path.abspath(__file__)))
# The argument of the run that builds a program.
ARGUMENTS = {"mp4_boxes": "list", "mp4_inspect": "-", "mp4_remux_program": "--version"}


# True if tests also do what takes minutes.
IS_LONG = bool(os.environ.get("TEST_LONG"))


class Failed(Exception):
    pass


class NamesSkipped:
    """Test cases that print which tests they skip and why. Without -v unittest prints only their number."""

    def skipTest(self, reason):
        print(f"{self.id()} is skipped: {reason}", file=sys.stderr)
        super().skipTest(reason)

    def needs(self, tool, package=None):
        """Skips the test on a machine without `tool`, which is in the Debian package `package`."""
        if not shutil.which(tool):
            self.skipTest(f"{tool} is not on this machine (apt-get install {package or tool})")

    def takes_long(self):
        """Skips the test unless TEST_LONG is set."""
        if not IS_LONG:
            self.skipTest("it takes long, and TEST_LONG=1 is not set")


def number(name, default):
    """Returns the number in the environment variable TEST_`name`, or `default` if there is none."""
    return int(os.environ.get(f"TEST_{name}") or default)


def sources():
    """Yields the paths of the files of the crates, without those that builds leave."""
    for folder, folders, files in os.walk(os.path.join(TOP, "crates")):
        if "out" in folders:
            folders.remove("out")
        yield from (os.path.join(folder, file) for file in files)


@functools.cache
def built(program):
    """Returns the path of the built `program`: that in the folder TEST_PROGRAMS, or what the gate left if no source is
    newer. Otherwise `rt run` builds it over the program's stored input, and has to succeed."""
    if os.environ.get("TEST_PROGRAMS"):
        path = os.path.abspath(os.path.join(os.environ["TEST_PROGRAMS"], program))
        if not os.access(path, os.X_OK):
            raise Failed(f"{path} is no program")
        return path
    folder = os.path.join(TOP, "crates", program)
    path = os.path.join(folder, "out", program)
    if os.access(path, os.X_OK):
        made = os.stat(path).st_mtime_ns
        if all(os.lstat(source).st_mtime_ns <= made for source in sources()):
            return path
    print(f"No gate has left crates/{program}/out/{program}: `rt run` proves and builds it.", file=sys.stderr)
    stored = os.path.join(folder, "stdin")
    words = ["rt", "run", "--", *([ARGUMENTS[program]] if program in ARGUMENTS else [])]
    environment = {**os.environ, "RT_SECONDS": "300"}
    with open(stored if os.path.exists(stored) else os.devnull, "rb") as file:
        ran = subprocess.run(words, cwd=folder, env=environment, stdin=file, capture_output=True, check=False)
    if ran.returncode:
        raise Failed(f"{program} doesn't run\n{ran.stderr.decode('utf-8', 'replace')}")
    return path


@functools.cache
def library():
    """Returns the folder of the library for C: TEST_LIBRARY, or a new one, in which it is built without proof."""
    if os.environ.get("TEST_LIBRARY"):
        return os.path.abspath(os.environ["TEST_LIBRARY"])
    folder = tempfile.mkdtemp(prefix="library-")
    atexit.register(shutil.rmtree, folder, ignore_errors=True)
    words = [sys.executable, os.path.join(TOP, "tools", "building.py"), "library", folder, "--sanitized"]
    subprocess.run(words, check=True)
    return folder


def codec():
    """Returns the module of bindings/python, over the library for C."""
    os.environ["MP4_BOX_CODEC_LIB"] = os.path.join(library(), "libmp4_box_codec.so.0")
    sys.path.insert(0, os.path.join(TOP, "bindings", "python"))
    return importlib.import_module("mp4_box_codec")


def source(*path):
    """Returns the text of a file of the repository."""
    with open(os.path.join(TOP, *path), encoding="utf-8") as file:
        return file.read()
