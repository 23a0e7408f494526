"""Runs examples/scan over the stored files, the files of tests/files/made.py, and 2,000 copies of them, and compares
its lines with those of a plain loop.

- On a local cluster of two processes, one of which is killed in the middle.
- By the command of the page for xargs.
- With files that can't be read, and with arguments that are wrong.

With TEST_LONG=1 also:

- On a scheduler with two workers, one of which is killed in the middle.
- With a file that kills every worker which audits it.
- By the command of the page for GNU parallel.

The test needs a Python with `distributed` (apt-get install python3-distributed). It runs with the library of
TEST_LIBRARY, or builds one without proof."""

import collections
import functools
import importlib
import json
import os
import re
import shutil
import signal
import subprocess
import sys
import tempfile
import time
import unittest

from tests.built import TOP, NamesSkipped, codec, library, source
from tests.files.inspected import files

EXAMPLE = os.path.join(TOP, "examples", "scan")
COPIES, SECONDS = 2000, 300


@functools.cache
def python_with_dask():
    """Returns the path of a Python that has `distributed`, or None."""
    for python in (sys.executable, "/usr/bin/python3"):
        if shutil.which(python):
            ran = subprocess.run([python, "-c", "import distributed"], capture_output=True, check=False)
            if ran.returncode == 0:
                return python
    return None


def written(folder):
    """Writes the files and their copies to folders in `folder`. Some of the copies are cut."""
    originals = sorted(files().items())
    for number in range(len(originals) + COPIES):
        name, data = originals[number % len(originals)]
        if number % 7 == 6:
            data = data[:len(data) * (number % 97) // 97]
        path = os.path.join(folder, f"{number // 500}", f"{number:04}-{name}.mp4")
        os.makedirs(os.path.dirname(path), exist_ok=True)
        with open(path, "wb") as file:
            file.write(data)
        yield path


def children(of):
    """Returns the processes that the process `of` started, with their command lines."""
    found = {}
    for name in filter(str.isdigit, os.listdir("/proc")):
        try:
            with open(f"/proc/{name}/stat", encoding="utf-8", errors="replace") as text:
                parent = int(text.read().rpartition(")")[2].split()[1])
            with open(f"/proc/{name}/cmdline", encoding="utf-8", errors="replace") as text:
                found[int(name)] = (parent, text.read())
        except (FileNotFoundError, ProcessLookupError):
            pass
    return {number: words for number, (parent, words) in found.items() if parent == of}


class Scan(NamesSkipped, unittest.TestCase):
    @classmethod
    def setUpClass(cls):
        cls.work = tempfile.mkdtemp(prefix="scan-")
        cls.addClassCleanup(shutil.rmtree, cls.work, ignore_errors=True)
        cls.folder = os.path.join(cls.work, "files")
        paths = [*written(cls.folder)]
        codec()
        sys.path.insert(0, EXAMPLE)
        cls.addClassCleanup(sys.path.remove, EXAMPLE)
        cls.audit = importlib.import_module("audit")
        cls.expected = {path: cls.audit.audit(path) for path in paths}

    def setUp(self):
        self.out = os.path.join(self.work, f"{self.id()}.jsonl")
        self.env = {**os.environ, "MP4_BOX_CODEC_LIB": os.path.join(library(), "libmp4_box_codec.so.0")}
        self.env |= {"PYTHONPATH": os.path.join(TOP, "bindings", "python"), "PYTHONDONTWRITEBYTECODE": "1"}
        self.env |= {"TMPDIR": self.work}

    def start(self, *words, script=EXAMPLE):
        """Starts a scan, and returns its process."""
        python = python_with_dask()
        if not python:
            self.skipTest("python3-distributed is not on this machine (apt-get install python3-distributed)")
        words = [python, os.path.join(script, "scan.py"), *words, "--out", self.out]
        ran = subprocess.Popen(words, env=self.env, stdout=subprocess.PIPE, stderr=subprocess.STDOUT, cwd=self.work)
        self.addCleanup(self.stop, ran)
        return ran

    def stop(self, ran):
        if ran.poll() is None:
            ran.kill()
        ran.communicate()

    def lines(self):
        """Returns what the scan has written: what is found in each file."""
        if not os.path.exists(self.out):
            return []
        with open(self.out, encoding="utf-8") as lines:
            return [json.loads(line) for line in lines if line.endswith("\n")]

    def wait_for_lines(self, ran, count):
        """Waits until the scan has written at least `count` lines, and not yet all."""
        until = time.monotonic() + SECONDS
        while len(self.lines()) < count and ran.poll() is None and time.monotonic() < until:
            time.sleep(0.05)
        self.assertIsNone(ran.poll(), "the scan ended before a worker was killed")
        self.assertLess(len(self.lines()), len(self.expected))

    def wait_for_file(self, path):
        """Waits until a file is present and has its last line."""
        until = time.monotonic() + SECONDS
        while time.monotonic() < until:
            if os.path.exists(path):
                with open(path, encoding="utf-8") as text:
                    if text.read().rstrip().endswith("}"):
                        return
            time.sleep(0.1)
        self.fail(f"{path} is not written")

    def ends(self, ran, status=1):
        """Waits for the end of the scan, and returns its output."""
        said = ran.communicate(timeout=SECONDS)[0].decode("utf-8", "replace")
        self.assertEqual(ran.returncode, status, said)
        return said

    def compare(self, expected):
        """Compares the lines with what the loop finds. Each file has one line."""
        lines = self.lines()
        again = [file for file, count in collections.Counter(it["file"] for it in lines).items() if count > 1]
        self.assertEqual(again, [], "files have more than one line")
        self.assertEqual({it["file"]: it for it in lines}, expected)

    def test_expected(self):
        """Checks a few values that are known of the stored files, so that the loop isn't only compared with itself."""
        by_name = {re.sub(r".*\d{4}-|\.mp4$", "", path): it for path, it in reversed(self.expected.items())}
        track = {"track_ID": 1, "kind": "vide", "codecs": ["avc1"], "seconds": 5.0, "samples": 10}
        fault = {"position": 728, "path": "moov/trak/mdia/minf/stbl/stco",
                 "text": "1 of 1 chunks begin past the end of the file (905 bytes)"}
        found = {"bytes": 905, "seconds": 5.0, "tracks": [track], "fragments": 0, "faults": [fault]}
        self.assertEqual({**by_name["plain"], "file": ""}, {"file": "", **found})
        self.assertEqual(by_name["broken"]["faults"][0]["position"], 32)
        self.assertEqual(by_name["fragmented"]["fragments"], 1)
        self.assertTrue(any(it.get("faults") for it in self.expected.values()))
        self.assertTrue(any("failure" in it for it in self.expected.values()))

    def test_local_cluster_with_a_killed_worker(self):
        ran = self.start(self.folder, "--workers", "2", "--batch", "8")
        self.wait_for_lines(ran, 100)
        workers = [it for it, words in children(ran.pid).items() if "spawn_main" in words]
        self.assertEqual(len(workers), 2)
        os.kill(workers[0], signal.SIGKILL)
        self.assertIn(f"{len(self.expected):,} files, ", self.ends(ran))
        self.compare(self.expected)

    def test_scheduler_with_a_killed_worker(self):
        self.takes_long()
        python, address = python_with_dask(), os.path.join(self.work, "scheduler.json")
        if not python:
            self.skipTest("python3-distributed is not on this machine (apt-get install python3-distributed)")
        started = [["scheduler", "--port", "0", "--no-dashboard", "--scheduler-file", address]]
        started += 2 * [["worker", "--scheduler-file", address, "--nthreads", "1", "--no-nanny", "--no-dashboard"]]
        ran = []
        for kind, *words in started:
            words = [python, "-m", f"distributed.cli.dask_{kind}", *words]
            how = {"stdout": subprocess.DEVNULL, "stderr": subprocess.DEVNULL, "cwd": self.work, "env": self.env}
            ran.append(subprocess.Popen(words, **how))
            self.addCleanup(self.stop, ran[-1])
            self.wait_for_file(address)
        with open(address, encoding="utf-8") as text:
            scan = self.start(self.folder, "--scheduler", json.load(text)["address"], "--batch", "8")
        self.wait_for_lines(scan, 100)
        ran[-1].kill()
        self.ends(scan)
        self.compare(self.expected)

    def test_file_that_kills_workers(self):
        self.takes_long()
        # A copy of the audit ends its process at one file.
        copy, few = os.path.join(self.work, "copy"), dict([*self.expected.items()][:60])
        shutil.copytree(EXAMPLE, copy)
        victim = [*few][30]
        with open(os.path.join(copy, "audit.py"), "a", encoding="utf-8") as text:
            text.write("\n\ndef audit_all(paths):\n"
                       f"    if {victim!r} in paths:\n        os.kill(os.getpid(), 9)\n"
                       "    return [audit(path) for path in paths]\n")
        listed = os.path.join(self.work, "listed")
        with open(listed, "w", encoding="utf-8") as text:
            text.write("".join(f"{path}\n" for path in few))
        self.ends(self.start("--list", listed, "--workers", "2", "--batch", "8", script=copy))
        found = {it["file"]: it for it in self.lines()}
        self.assertIn("KilledWorker", found[victim]["failure"])
        self.compare({**few, victim: found[victim]})

    def test_files_that_cannot_be_read(self):
        fifo, gone = (os.path.join(self.work, it) for it in ("pipe.mp4", "gone.mp4"))
        os.mkfifo(fifo)
        for path in (fifo, self.work):
            self.assertEqual(self.audit.audit(path), {"file": path, "failure": "not a regular file"})
        self.assertIn("No such file", self.audit.audit(gone)["failure"])

    def test_scans_that_cannot_begin(self):
        self.env["DASK_DISTRIBUTED__COMM__TIMEOUTS__CONNECT"] = "1s"
        for words, text in ((["--list", "/nonexistent"], "scan: [Errno 2] No such file"),
                            ([self.folder, "--scheduler", "tcp://127.0.0.1:1"], "scan: Timed out")):
            self.assertIn(text, self.ends(self.start(*words), status=2))

    def command(self, word):
        """Runs the command of the page with this word over a part of the files, and compares its lines."""
        self.needs(word)
        [line] = [it for it in source("examples", "scan", "README.md").split("\n") if f"| {word}" in it]
        line = line.replace("FOLDER", f"{self.folder}/0").replace("audit.py", os.path.join(EXAMPLE, "audit.py"))
        line = line.replace("python3", sys.executable).replace("faults.jsonl", self.out)
        subprocess.run(["sh", "-c", line], env=self.env, cwd=self.work, check=False, stderr=subprocess.DEVNULL)
        self.compare({path: it for path, it in self.expected.items() if path.startswith(f"{self.folder}/0/")})

    def test_xargs(self):
        self.command("xargs")

    def test_parallel(self):
        self.takes_long()
        self.command("parallel")


if __name__ == "__main__":
    unittest.main()
