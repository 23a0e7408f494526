"""Runs the built program mp4inspect over damaged files with little memory and little time. It shows each file as text,
as JSON, by `check`, and its samples as JSON, in separate runs with `ulimit -v` and `ulimit -t`. Each run has to end
with status 0 or 1 and with nothing on standard error except faults of tracks. The JSON has to parse, and to fit its
schema in docs. The run for the JSON of the tree has to end with the status of the run for the text.

Small files that count millions of samples are run too, with their samples in each form. Each run writes few rows.

The files are made from the stored files (tests/files/texts/*.hex) and those that are made by hand (made.py), by damage
that a seed determines: bytes and sizes set, pieces left out, put in and moved.

Settings: COUNT (10,000 files; tests/run has 2,000), SEED, MEMORY (KiB of a run: 65,536), SECONDS (of a run: 2)."""

import concurrent.futures
import os
import random
import subprocess
import tempfile
import unittest

from tests.built import built, number
from tests.files.inspected import check_schema, damaged, files, load, schema
from tests.files.made import in_chunks, in_fragment, in_runs

LIMITED = 'ulimit -v "$0" && ulimit -t "$1" && shift && exec "$@"'
# The seconds within which a run has to end, on a machine that has other work.
PATIENCE = 120
FORMS = [["--"], ["--json", "--"], ["check", "--"]]
SAMPLES = [["samples", "--json", "--"], ["samples", "--"], ["samples", "--csv", "--"]]
# Files that count millions of samples, with at most MOST_WRITTEN bytes of output for each. The samples are of one size
# in tables, in a run that lists nothing, in runs one after the other, in tracks one after the other that share 28
# bytes, and in a `traf` after whose data those of the next one begin.
COUNTING = {
    "counting_tables": in_chunks(28, (3000000, 1)), "counting_run": in_runs(721, [], 11, [(16711682,)]),
    "counting_most": in_chunks(28, (2**32 - 1, 1)), "counting_runs": in_runs(28, [], 50, *[[(2**32 - 1,)] * 20] * 5),
    "counting_tracks": in_chunks(28, *[(2**32 - 1, 1)] * 50),
    "counting_base": in_fragment(28, 50, 0, *[[(2**32 - 1,)]] * 2),
}
MOST_WRITTEN = 1 << 18


class Failed(Exception):
    pass


class Runs:
    """Runs of the program over files in a folder, each with limits."""

    def __init__(self, folder):
        self.program, self.folder = built("mp4_inspect"), folder
        self.schema, self.samples_schema = schema("inspect"), schema("samples")
        self.limits = [str(number("MEMORY", 65536)), str(number("SECONDS", 2))]

    def run(self, form, name, may_say=False):
        """Returns the status and the output of a run within the limits. With `may_say` the run may write to standard
        error, and has status 1 if it does."""
        words = ["sh", "-c", LIMITED, *self.limits, self.program, *form, name]
        try:
            done = subprocess.run(words, capture_output=True, timeout=PATIENCE, check=False, cwd=self.folder)
        except subprocess.TimeoutExpired:
            raise Failed(f"{form} takes more than {PATIENCE} s") from None
        said = done.stderr.decode().split("\n")[:-1]
        is_right = done.returncode == int(bool(said)) if may_say else done.returncode in (0, 1) and not said
        if not is_right or not all(line.startswith(f"mp4inspect: {name}: ") for line in said):
            raise Failed(f"{form} ends with status {done.returncode} and says {done.stderr.decode()}")
        return done.returncode, done.stdout

    def samples(self, name):
        """Runs `samples` over the file `name`, as JSON."""
        _, found = self.run(SAMPLES[0], name, True)
        check_schema(load(found), self.samples_schema, self.samples_schema)

    def all_forms(self, name, data):
        """Runs each form over the file `data`, which gets the name `name`."""
        with open(os.path.join(self.folder, name), "wb") as file:
            file.write(data)
        try:
            (text, _), (status, found), _ = (self.run(form, name) for form in FORMS)
            if status != text:
                raise Failed(f"as JSON the status is {status}, as text {text}")
            found = load(found)
            check_schema(found, self.schema, self.schema)
            if [file["file"] for file in found] != [name]:
                raise Failed("the JSON is not that of this file")
            self.samples(name)
            if name in COUNTING:
                for form in SAMPLES:
                    status, found = self.run(form, name, True)
                    if status != 1 or len(found) > MOST_WRITTEN:
                        raise Failed(f"{form} writes {len(found)} bytes, and ends with status {status}")
        except (Failed, ValueError) as why:
            raise AssertionError(f"{name}: {why}; the file is {data.hex()}") from None
        finally:
            os.remove(os.path.join(self.folder, name))


class Damaged(unittest.TestCase):
    def all_forms(self, made):
        """Runs each form over the files `made`, several at a time, until one fails."""
        with tempfile.TemporaryDirectory() as folder, concurrent.futures.ThreadPoolExecutor(os.cpu_count()) as workers:
            runs = Runs(folder)
            try:
                list(workers.map(lambda one: runs.all_forms(*one), made))
            except BaseException:
                workers.shutdown(cancel_futures=True)
                raise

    def test_files_that_count_millions_of_samples(self):
        self.all_forms(COUNTING.items())

    def test_files_with_damage(self):
        random_, sound = random.Random(number("SEED", 1)), list(files().values())
        count = number("COUNT", 10000)
        self.all_forms((f"{which:05}", damaged(random_, random_.choice(sound))) for which in range(count))


if __name__ == "__main__":
    unittest.main()
