"""Refuses every request for memory in turn, from outside, to the built programs: once only that request, and once that
request and all after it.

- test_memory writes and reads every vector, by itself and as one stream. After one refusal it has to end with status 0:
  every call has its usual result, at the second try if need be. If all later requests are refused too, it may end with
  status 1: a call is out of memory twice, and nothing else is wrong.
- mp4boxes prints "out of memory" and writes nothing, or does what it does with ample memory.
- mp4remux prints "out of memory", ends with status 3 and leaves no file, or does what it does with ample memory.
- mp4inspect prints "out of memory" after a beginning of its output, and ends with status 3. With --json the beginning
  has nothing of the file. Or it does what it does with ample memory."""

import os
import random
import shutil
import subprocess
import tempfile
import unittest

from tests.built import TOP, built
from tests.programs.test_faststart import Track, made


def stored(crate, name):
    with open(os.path.join(TOP, "crates", crate, name), "rb") as file:
        return file.read()


class RefusedMemory(unittest.TestCase):
    @classmethod
    def setUpClass(cls):
        cls.folder = tempfile.mkdtemp(prefix="refused-")
        cls.addClassCleanup(shutil.rmtree, cls.folder, ignore_errors=True)
        cls.library, cls.counted = (os.path.join(cls.folder, name) for name in ("refuse.so", "requests"))
        words = [os.environ.get("CC") or "cc", "-O2", "-shared", "-fPIC", "-o", cls.library]
        subprocess.run([*words, os.path.join(TOP, "tests", "memory", "refuse.c"), "-ldl"], check=True)

    def run_with(self, words, data, **settings):
        environment = {**os.environ, "LD_PRELOAD": self.library, **settings}
        return subprocess.run(words, input=data, env=environment, capture_output=True, check=False)

    def refusals(self, words, data=b""):
        """Returns a run with ample memory, and the runs with refused memory. Each of these follows the number of
        the refused request and whether all later ones are refused too."""
        ample = self.run_with(words, data, REQUESTS=self.counted)
        self.assertEqual(ample.returncode, 0, f"with ample memory: {ample.stderr}")
        with open(self.counted, encoding="utf-8") as text:
            most = int(text.read())
        self.assertGreater(most, 0, "no memory is asked for")
        runs = [(number, bool(settings), self.run_with(words, data, REFUSE=str(number), **settings))
                for settings in ({}, {"AND_LATER": "1"}) for number in range(1, most + 1)]
        return ample, runs

    def test_every_vector(self):
        _, runs = self.refusals([built("test_memory")])
        for number, and_later, run in runs:
            with self.subTest(request=number, and_later=and_later):
                self.assertIn(run.returncode, (0, 1) if and_later else (0,))
        self.assertEqual(runs[-1][2].returncode, 1, "if the last request is always refused")

    def boxes(self, command, data, wanted):
        """Refuses memory to mp4boxes. It has to write `wanted`, or to write nothing and print that it is out of
        memory."""
        ample, runs = self.refusals([built("mp4_boxes"), command], data)
        self.assertEqual(ample.stdout, wanted)
        for number, and_later, run in runs:
            with self.subTest(request=number, and_later=and_later):
                self.assertIn((run.returncode, run.stdout, run.stderr),
                              [(0, wanted, b""), (1, b"", b"mp4boxes: out of memory\n")])

    def test_mp4boxes_normal(self):
        self.boxes("normal", stored("mp4_boxes", "stdin"), stored("mp4_boxes", "stdout"))

    def test_mp4boxes_list(self):
        self.boxes("list", stored("mp4_boxes", "stdin"), b"0 24 ftyp\n24 8 free\n32 20 stco\n")

    def test_mp4boxes_normal_with_a_box_that_grows(self):
        # The fields of the first box are read past its size, so the written bytes have to be moved.
        self.boxes("normal", b"\0\0\0\x08mfhd\0\0\0\x08free", b"\0\0\0\x10mfhd\0\0\0\x08free\0\0\0\x08free")

    def inspect(self, words, begun):
        """Refuses memory to mp4inspect, which may write a beginning of `begun` before it fails. Returns its output with
        ample memory."""
        ample, runs = self.refusals([built("mp4_inspect"), *words, "-"], stored("mp4_inspect", "stdin"))
        for number, and_later, run in runs:
            with self.subTest(request=number, and_later=and_later):
                if run.returncode == 0:
                    self.assertEqual((run.stdout, run.stderr), (ample.stdout, b""))
                    continue
                self.assertEqual(run.returncode, 3)
                self.assertIn(run.stderr, (b"mp4inspect: out of memory\n", b"mp4inspect: -: out of memory\n"))
                self.assertTrue(begun.startswith(run.stdout), run.stdout)
        return ample.stdout

    def rewrites(self, command, data):
        """Refuses memory to a command of mp4remux over the file `data`, which has to write the same file or none.
        Returns the file."""
        with tempfile.TemporaryDirectory() as folder:
            names = [os.path.join(folder, name) for name in ("in.mp4", "out.mp4")]
            with open(names[0], "wb") as file:
                file.write(data)
            command = [built("mp4_remux_program"), command, *names]

            def left():
                """Returns what a run has left beside in.mp4, and removes it."""
                found = {}
                for name in sorted(os.listdir(folder)):
                    if name != "in.mp4":
                        with open(os.path.join(folder, name), "rb") as file:
                            found[name] = file.read()
                        os.remove(os.path.join(folder, name))
                return found
            ample = self.run_with(command, b"", REQUESTS=self.counted)
            self.assertEqual(ample.returncode, 0, ample.stderr)
            wanted = left()
            with open(self.counted, encoding="utf-8") as text:
                most = int(text.read())
            for settings in ({}, {"AND_LATER": "1"}):
                for number in range(1, most + 1):
                    with self.subTest(command=command[1], request=number, **settings):
                        run = self.run_with(command, b"", REFUSE=str(number), **settings)
                        found = left()
                        if run.returncode == 0:
                            self.assertEqual((run.stdout, run.stderr, found), (ample.stdout, b"", wanted))
                            continue
                        self.assertEqual((run.returncode, run.stdout, found), (3, b"", {}))
                        self.assertTrue(run.stderr.endswith(b"out of memory\n") or b"os error 12" in run.stderr,
                                        run.stderr)
            return wanted["out.mp4"]

    def test_mp4remux(self):
        data = made(random.Random(1), [Track(1, [[10, 20], [30]]), Track(2, [[5]])])
        self.rewrites("faststart", data)
        self.rewrites("defragment", self.rewrites("fragment", data))

    def test_mp4inspect(self):
        wanted = stored("mp4_inspect", "stdout")
        self.assertEqual(self.inspect([], wanted), wanted)

    def test_mp4inspect_json(self):
        self.inspect(["--json"], b"[]\n")


if __name__ == "__main__":
    unittest.main()
