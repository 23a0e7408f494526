"""Calls the library for C over many inputs under sanitizers (fuzz.c), and compares some of its results with the slow
reader: the boxes and the tables at the front of the bytes, and the places of the boxes.

A library that was not built for the sanitizer of addresses is called under it too, but then the sanitizer does not see
the accesses of the library itself.

Settings: COUNT (1,000,000 inputs; tests/run has 200,000), SEED, EVERY (each 50th input is compared), JOBS, LIBFUZZER
(inputs of libFuzzer, if clang has it: a fifth of COUNT)."""

import concurrent.futures
import os
import shutil
import subprocess
import tempfile
import time
import unittest

from tests.built import TOP, library, number
from tests.files.stored import stored, stored_names
from tests.readers.extra import MORE
from tests.readers.headers import Fault, Header, check, headers, sized
from tests.readers.inputs import MOST, VECTORS, of_name
from tests.readers.readers import outcome, read_boxes
from tests.rows import rows

SOURCE, CC = os.path.join(TOP, "tests", "c", "fuzz.c"), os.environ.get("CC") or "cc"
SANITIZERS = ["-fsanitize=address,undefined", "-fno-sanitize-recover=all"]
FLAGS = ["-std=c99", "-O1", "-g", "-Wall", "-Wextra", "-Werror", "-I", os.path.join(TOP, "include")]
TABLES = ["stsz", "stco", "co64", "stss", "stts", "ctts", "stsc", "elst", "trun"]
# The order of the counts of fuzz.c: calls that return elements, and structs that a box was read into.
ARRAYS = ["samples", "list", "normal", *TABLES]
STRUCTS = "mvhd tkhd mdhd mehd mfhd smhd vmhd trex tfdt tfhd hvcC hev1 vpcC vp09 tx3g esds mp4a".split()
STATUSES = {"End": 1, "Invalid": 2, "NotFound": 3}
# The fields of a row. The rows of other tables are single numbers.
ROWS = {
    "stts": ["sample_count", "sample_delta"], "ctts": ["sample_count", "sample_offset"],
    "stsc": ["first_chunk", "samples_per_chunk", "sample_description_index", "first_sample"],
    "elst": ["segment_duration", "media_time", "media_rate", "media_rate_fraction"],
}
COLUMNS = ["sample_durations", "sample_sizes", "sample_flags", "sample_cts"]


def status_of(fault):
    return [STATUSES[fault.args[0]]]


def listed(buffer):
    """Returns what mp4_list has to return for `buffer`: the status, the number of boxes, and for each its position,
    length, header and code."""
    found = []
    try:
        for it in headers(buffer, 0):
            length = it.start + it.size - it.begin
            found += [it.begin, length, it.start + 8 - it.begin, int.from_bytes(it.code, "big")]
    except Fault as fault:
        return status_of(fault)
    return [0, len(found) // 4, *found]


def table(name, buffer):
    """Returns what the function of the table `name` has to return for `buffer`: the status, the fields beside the
    elements, and the elements."""
    try:
        header = Header(buffer, 0)
        check(header.name == name, "box of another type")
        found = outcome(buffer, name, header.start, sized(header, buffer))
    except Fault as fault:
        found = fault
    if isinstance(found, Fault):
        return status_of(found)
    box = found[1]
    beside = [box["flags"], box["version"]]
    if name == "stsz":
        rows = box["sample_sizes"]
        return [0, len(rows), box["flags"], box["sample_size"], box["sample_count"], box["version"], *rows]
    if name == "trun":
        columns = [box[it] for it in COLUMNS]
        count = max(map(len, columns))
        rows = [number for row in zip(*(it or [0] * count for it in columns)) for number in row]
        more = [box["sample_count"], box["data_offset"] or 0, box["first_sample_flags"] or 0]
        return [0, count, box["flags"], *more, box["version"], *rows]
    rows = box["entries"]
    flat = [row[it] for row in rows for it in ROWS[name]] if name in ROWS else rows
    return [0, len(rows), *beside, *flat]


def checked(buffer):
    """Returns what mp4_check has to return for `buffer`."""
    found, _ = read_boxes(buffer, 0)
    return status_of(found) if isinstance(found, Fault) else [0]


def compared(path):
    """Compares the results that were written for inputs. Returns the number of inputs, and the differences."""
    count, wrong, buffer = 0, [], b""
    with open(path, encoding="ascii") as lines:
        for line in lines:
            name, *words = line.split()
            if name == "input":
                buffer, count = bytes.fromhex(words[0] if words else ""), count + 1
                continue
            found = [int(word) for word in words]
            expected = {"check": checked, "list": listed}.get(name, lambda it: table(name, it))(buffer)
            if found != expected:
                wrong.append(f"mp4_{name} of {buffer.hex()}\n  library: {found}\n  layout:  {expected}")
    return count, wrong


def compiled(archive, to, compiler, *flags):
    words = [compiler, *FLAGS, *flags, SOURCE, archive, "-o", to]
    return subprocess.run(words, stdout=subprocess.PIPE, stderr=subprocess.STDOUT, text=True, check=False)


def has(work, compiler, *flags):
    """Returns whether the machine has a compiler that makes programs with these flags that run."""
    source = os.path.join(work, "empty.c")
    with open(source, "w", encoding="ascii") as text:
        text.write("int LLVMFuzzerTestOneInput(const char *a, unsigned long b);\n"
                   "int LLVMFuzzerTestOneInput(const char *a, unsigned long b) { return a == 0 && b; }\n"
                   "#ifndef NO_MAIN\nint main(void) { return 0; }\n#endif\n")
    if not shutil.which(compiler):
        return False
    made = subprocess.run([compiler, *flags, source, "-o", f"{source}.out"], capture_output=True, check=False)
    # A program of libFuzzer runs forever if no number is given.
    ran = [f"{source}.out", "-runs=1"]
    return made.returncode == 0 and subprocess.run(ran, capture_output=True, check=False, timeout=60).returncode == 0


def part(program, corpus, inputs, seed, every, out):
    with open(out, "wb") as told:
        words = [program, corpus, str(inputs), str(seed), str(every)]
        ran = subprocess.run(words, stdin=subprocess.DEVNULL, stdout=told, stderr=subprocess.PIPE, check=False)
    said = ran.stderr.decode("utf-8", "replace")
    if ran.returncode:
        return said[-4000:], 0, [], []
    count, wrong = compared(out)
    os.remove(out)
    return "", count, wrong, [int(word) for word in said.split()]


def inputs():
    """Returns the first inputs. Tables come more often than other boxes, and there are boxes that no table holds
    too."""
    boxes = VECTORS + 8 * of_name(*(name.encode() for name in TABLES)) + 40 * [stored(it) for it in stored_names()]
    more = [row.buffer for _, row in rows() if row.declared_written == row.buffer and len(row.buffer) <= MOST]
    return boxes + [buffer for buffer in more if buffer[4:8].decode("latin-1") in MORE]


class Fuzz(unittest.TestCase):
    def setUp(self):
        self.work = tempfile.mkdtemp(prefix="fuzz-")
        self.addCleanup(shutil.rmtree, self.work)
        self.plain, self.sanitized = (os.path.join(library(), f"libmp4_box_codec{it}.a") for it in ("", "-asan"))

    def test_inputs(self):
        corpus, program, began = f"{self.work}/corpus", f"{self.work}/fuzz", time.monotonic()
        with open(corpus, "wb") as file:
            file.writelines(len(box).to_bytes(4, "big") + box for box in inputs())
        flags = SANITIZERS if has(self.work, CC, *SANITIZERS) else []
        if not flags:
            print(f"fuzz: {CC} has no sanitizer of addresses: the inputs are tried without one")
        made = compiled(self.sanitized, program, CC, *flags) if flags and os.path.isfile(self.sanitized) else None
        if made is None or made.returncode:
            print("fuzz: the library is not for this sanitizer of addresses: what it does itself was not looked at")
            made = compiled(self.plain, program, CC, *flags)
        self.assertEqual(made.returncode, 0, made.stdout)
        count, jobs = number("COUNT", 1_000_000), number("JOBS", max(1, len(os.sched_getaffinity(0)) // 2))
        seed, every = number("SEED", 1), number("EVERY", 50)
        with concurrent.futures.ProcessPoolExecutor(jobs) as pool:
            tasks = [pool.submit(part, program, corpus, count // jobs + (job < count % jobs), seed * 1000 + job, every,
                                 f"{self.work}/{job}") for job in range(jobs)]
            found = [task.result() for task in tasks]
        for fault, _, wrong, _ in found:
            if fault or wrong:
                self.fail("\n".join([fault, *wrong[:5]]))
        counts = [sum(numbers) for numbers in zip(*(it[3] for it in found))]
        values = ", ".join(f"{name} {times}" for name, times in zip([*ARRAYS, *STRUCTS], counts[1:]))
        under, seconds = " under sanitizers" if flags else "", time.monotonic() - began
        print(f"fuzz: {counts[0]} inputs{under} in {seconds:.0f} s, {sum(it[1] for it in found)} of them compared with "
              f"the slow reader. With elements, or read: {values}")
        self.assertEqual(counts[0], count)

    def test_libfuzzer(self):
        if not has(self.work, "clang", "-fsanitize=fuzzer", "-DNO_MAIN"):
            self.skipTest("clang's libFuzzer is not on this machine")
        program, folder = os.path.join(self.work, "libfuzzer"), os.path.join(self.work, "inputs")
        # The sanitized library is for the sanitizer of the other compiler. clang's runtime may have another version.
        made = compiled(self.plain, program, "clang", "-fsanitize=fuzzer", "-DNO_MAIN")
        self.assertEqual(made.returncode, 0, made.stdout)
        os.mkdir(folder)
        for at, box in enumerate(VECTORS):
            with open(os.path.join(folder, str(at)), "wb") as file:
                file.write(box)
        runs = number("LIBFUZZER", number("COUNT", 1_000_000) // 5)
        words = [program, f"-runs={runs}", f"-seed={number('SEED', 1)}", "-max_len=512", folder]
        ran = subprocess.run(words, cwd=self.work, stdout=subprocess.PIPE, stderr=subprocess.STDOUT, check=False)
        self.assertEqual(ran.returncode, 0, ran.stdout.decode("utf-8", "replace")[-4000:])


if __name__ == "__main__":
    unittest.main()
