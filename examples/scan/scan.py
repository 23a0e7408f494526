#!/usr/bin/env python3
"""Audits many MP4 files on a Dask cluster, and writes a line of JSON for each: its tracks with their codecs and
durations, and its faults.

    scan.py FOLDER [--scheduler ADDRESS] [--out faults.jsonl]

A file or a worker that fails doesn't stop the scan. The files of a worker that ended are tried again on another one. If
that one ends too, and so on, they are tried last, one at a time. A file that still ends its worker has a line that says
so. The status is 1 if a file has a fault or a failure, and 2 if the scan could not be finished."""

import argparse
import asyncio
import collections
import contextlib
import itertools
import os
import sys
import time

import audit

try:
    import dask
    from distributed import Client, LocalCluster, as_completed
except ImportError as why:
    print(f"scan: {why}: apt-get install python3-distributed", file=sys.stderr)
    sys.exit(2)

# The endings of MP4 files.
ENDINGS = (
    ".mp4", ".m4v", ".m4a", ".m4b", ".m4s", ".mov", ".qt", ".3gp", ".3g2", ".cmfv", ".cmfa", ".cmft", ".f4v", ".ismv",
    ".isma", ".heic", ".heif", ".avif",
)
# The batches of files that wait for each thread of the workers.
WAITING = 4
# The seconds between two lines of progress, on a terminal and elsewhere.
PACE, SLOW_PACE = 0.2, 10


def files_of(lines, paths):
    """Yields the files to audit: those that the `lines` of a list name, those of `paths`, and those with an ending of
    MP4 files in the folders of `paths`."""
    yield from filter(None, (line.rstrip("\n") for line in lines))
    for path in paths:
        if not os.path.isdir(path):
            yield path
        for at, folders, names in os.walk(path, onerror=lambda why: print(f"scan: {why}", file=sys.stderr)):
            folders.sort()
            for name in sorted(names):
                file = os.path.join(at, name)
                if name.lower().endswith(ENDINGS) and os.path.isfile(file):
                    yield file


def batches_of(files, size):
    """Yields the files in lists of `size` files."""
    files = iter(files)
    while batch := list(itertools.islice(files, size)):
        yield batch


class Progress:
    """The number of files that were audited, as a line on standard error."""

    def __init__(self):
        self.files = self.faulty = self.failed = 0
        self.began = self.shown = time.monotonic()
        self.live = sys.stderr.isatty()

    def add(self, found):
        self.files += 1
        self.faulty += bool(found.get("faults"))
        self.failed += "failure" in found
        if time.monotonic() - self.shown >= (PACE if self.live else SLOW_PACE):
            self.show("\r" if self.live else "\n")

    def show(self, end):
        self.shown = time.monotonic()
        rate = self.files / max(self.shown - self.began, 0.001)
        print(f"{self.files:,} files, {self.faulty:,} with faults, {self.failed:,} not read, {rate:,.0f} a second",
              end=end, file=sys.stderr, flush=True)


class Scan:
    """A scan on a cluster. Its files are in batches, of which a few wait for each thread of the workers."""

    def __init__(self, client, batches):
        self.client, self.batches = client, batches
        self.running, self.files = as_completed(), {}
        # The files of batches that failed, and whether they run now, one at a time.
        self.suspects, self.is_last = collections.deque(), False

    def submit(self, batch):
        future = self.client.submit(audit.audit_all, batch, pure=False)
        self.files[future.key] = batch
        self.running.add(future)

    def fill(self):
        """Submits batches until enough of them wait. Workers may join and leave meanwhile. When nothing runs or waits
        any more, submits a suspect."""
        missing = WAITING * max(1, sum(self.client.nthreads().values())) - len(self.files)
        for batch in itertools.islice(self.batches, max(0, missing)):
            self.submit(batch)
        if self.suspects and not self.files:
            self.is_last = True
            self.submit([self.suspects.popleft()])

    def results(self):
        """Yields what is found in each file, once for each."""
        self.fill()
        for future in self.running:
            batch, found = self.files.pop(future.key), []
            try:
                found = future.result()
            except asyncio.CancelledError:
                raise OSError("the scheduler is lost") from None
            except Exception as why:
                # Several workers ended that had the batch, or the audit has an error. Dask counts an end for all that
                # waits for a worker too, so the cause may be a file of another batch. A file that fails while nothing
                # else runs is the cause itself.
                if self.is_last:
                    found = [{"file": batch[0], "failure": f"{type(why).__name__}: {why}"}]
                else:
                    self.suspects.extend(batch)
            yield from found
            self.fill()


def scan(given):
    """Audits the files, writes their lines, and returns whether all files are good."""
    progress = Progress()
    with contextlib.ExitStack() as held:
        how = {"encoding": "utf-8", "errors": "surrogateescape"}
        lines = held.enter_context(open(given.list, **how)) if given.list else ()
        out = sys.stdout if given.out == "-" else held.enter_context(open(given.out, "w", **how))
        # A worker that ends is replaced, and its files are tried again on this number of workers.
        dask.config.set({"distributed.scheduler.allowed-failures": 2})
        cluster = given.scheduler or held.enter_context(LocalCluster(
            n_workers=given.workers, threads_per_worker=1, processes=True, dashboard_address=None))
        client = held.enter_context(Client(cluster))
        client.upload_file(audit.__file__)
        for found in Scan(client, batches_of(files_of(lines, given.paths), given.batch)).results():
            out.write(audit.line_of(found))
            out.flush()
            progress.add(found)
    progress.show("\n")
    return not progress.faulty and not progress.failed


def main():
    parser = argparse.ArgumentParser(description=__doc__, formatter_class=argparse.RawDescriptionHelpFormatter)
    parser.add_argument("paths", nargs="*", metavar="FOLDER", help="audit the MP4 files in this folder, or this file")
    parser.add_argument("--list", metavar="FILE", help="audit the files that the lines of FILE name")
    parser.add_argument("--scheduler", metavar="ADDRESS", help="use the cluster of this scheduler, not a local one")
    parser.add_argument("--workers", type=int, metavar="N", default=os.cpu_count(),
                        help="start N processes for a local cluster")
    parser.add_argument("--batch", type=int, metavar="N", default=32, help="give a worker N files at a time")
    parser.add_argument("--out", metavar="FILE", default="-", help="write the lines to FILE, not to standard output")
    given = parser.parse_args()
    if not given.paths and not given.list:
        parser.error("name a folder, a file or a list of files")
    if given.workers < 1 or given.batch < 1:
        parser.error("--workers and --batch are numbers from 1")
    try:
        sys.exit(0 if scan(given) else 1)
    except OSError as why:
        print(f"scan: {why}", file=sys.stderr)
        sys.exit(2)


if __name__ == "__main__":
    main()
