"""Runs the built program `mp4remux faststart` over handmade files. Reads the written files with readers/samples.py,
which has no code of the codec.

- Every sample has the same bytes, times and description as before, and the moov is before the first mdat. The other
  boxes of the top level are the same bytes, in the same order, except for fields that lead to bytes of the file. In
  the moov only the chunk offsets and those of auxiliary information are changed. A stco with an offset that would not
  fit becomes a co64.
- A file whose moov is before the first mdat already is copied. So is each written file, and a file without mdat.
- OUT can be a pipe. On a terminal the progress is shown.
- Each refusal is expected with its text. Then nothing is written, and existing files are unchanged.
- Files can't be opened, written or renamed, a write fails, and there is little memory.
- OUT is a directory, a FIFO, a socket, a device, a link of each kind, or the file that is read. Its permissions are
  checked.

Settings: COUNT (200 files of random tracks), SEED."""

import contextlib
import os
import pty
import random
import re
import resource
import shutil
import signal
import socket
import stat
import subprocess
import tempfile
import time
import unittest

from tests.built import built, number
from tests.files.made import be, box, ftyp, full, movie, tkhd, track
from tests.readers.samples import File, boxes, disagreement, inner, table_samples, tables_of

OFFSETS = {b"stco": 4, b"co64": 8}
COPIED = "a copy, as no media data are before the moov"
HOLDS = (b"moov", b"trak", b"mdia", b"minf", b"stbl")
MEMORY = 64 << 20
# The text of a table whose count is too large.
STAYS = "its offsets can't be shifted"
MANY = "stts entry_count indicates more entries than could fit in the box"
# The number of tracks of a file, and the most seconds that it takes.
TRACKS, SECONDS = 3200, 10


def fail(text):
    raise AssertionError(text)


class Track:
    """A track: the sizes of the samples of its chunks, the contents of its other tables, and its header. `number` is
    its track_ID, unless the header has another one. A track that `has_tables` is false for has only an `stsd`. If
    `compact` is not None, it is the content of an `stz2` with the sizes, after version and flags."""

    def __init__(self, number, chunks, wide=False, sync=None, shifts=None, one=0, pad=b"", sizes=None, header=None,
                 has_tables=True, compact=None):
        self.number, self.chunks, self.wide, self.sync, self.shifts = number, chunks, wide, sync, shifts
        self.one, self.pad, self.sizes, self.header, self.has_tables = one, pad, sizes, header, has_tables
        self.compact = compact

    def box(self, offsets):
        if not self.has_tables:
            return track(self.number, b"vide", b"", b"eng", [], b"", self.header)
        sizes = [size for chunk in self.chunks for size in chunk] if self.sizes is None else self.sizes
        runs = [be(4, index, len(chunk), 1) for index, chunk in enumerate(self.chunks, 1)]
        table = full(b"stts", 0, 0, be(4, 1, len(sizes), 512))
        if self.shifts is not None:
            table += full(b"ctts", 0, 0, be(4, 1, len(sizes), self.shifts))
        if self.sync is not None:
            table += full(b"stss", 0, 0, be(4, len(self.sync), *self.sync))
        table += full(b"stsc", 0, 0, be(4, len(runs)) + b"".join(runs))
        if self.compact is None:
            table += full(b"stsz", 0, 0, be(4, self.one, len(sizes)) + (b"" if self.one else be(4, *sizes)))
        else:
            table += full(b"stz2", 0, 0, self.compact)
        name = b"co64" if self.wide else b"stco"
        table += full(name, 0, 0, be(4, len(offsets)) + be(OFFSETS[name], *offsets) + self.pad)
        return track(self.number, b"vide", b"", b"eng", [], table, self.header)


def bytes_for(random_, size):
    return bytes(random_.randrange(256) for _ in range(size))


def made(random_, tracks, order=None, front=None, between=b"", behind=b"", long_header=False, no_size=False, inside=b"",
         before=(), after=()):
    """Returns a file: `front`, an mdat with the chunks of the tracks in the order `order`, `between`, the moov, and
    `behind`. The chunks of the tracks in `before` are in a box before the mdat, and those in `after` in an mdat behind
    the moov."""
    if order is None:
        order = [item.number for item in tracks for _ in item.chunks]
    if front is None:
        front = ftyp(b"isom", b"isom", b"avc1")
    pieces, places = {"before": b"", "media": b"", "after": b""}, {item.number: [] for item in tracks}
    left = {item.number: list(item.chunks) for item in tracks}
    for number in order:
        where = "before" if number in before else "after" if number in after else "media"
        pieces[where] += bytes_for(random_, random_.randrange(4))
        places[number].append((where, len(pieces[where])))
        pieces[where] += bytes_for(random_, sum(left[number].pop(0)))
    early = box(b"wide", pieces["before"]) if before else b""
    header = be(4, 1) + b"mdat" + be(8, 16 + len(pieces["media"])) if long_header else be(
        4, 8 + len(pieces["media"])) + b"mdat"
    media = header + pieces["media"]

    def moov(starts):
        return movie(*[item.box([starts[where] + at for where, at in places[item.number]]) for item in tracks])
    size = len(moov({"before": 0, "media": 0, "after": 0})) + len(inside)
    start = len(front) + len(early)
    whole = moov({"before": len(front) + 8, "media": start + len(header),
                  "after": start + len(media) + len(between) + size + 8})
    whole = be(4, 0 if no_size else size) + whole[4:] + inside
    late = box(b"mdat", pieces["after"]) if after else b""
    return front + early + media + between + whole + late + behind


def blank(data, found):
    """Returns the box `found` with zeros for its chunk offsets."""
    code, at, content, _, start = found
    head = data[at:start]
    if code in OFFSETS:
        count = int.from_bytes(content[4:8], "big")
        return head + content[:8] + bytes(OFFSETS[code] * count) + content[8 + OFFSETS[code] * count:]
    if code == b"saio":
        begin, width = 16 if content[3] & 1 else 8, 8 if content[0] else 4
        count = int.from_bytes(content[begin - 4:begin], "big")
        return head + content[:begin] + bytes(width * count) + content[begin + width * count:]
    if code not in HOLDS:
        return head + content
    return head + b"".join(blank(data, it) for it in inner(data, found))


def samples_of(data):
    """Returns the track_ID of each track, or None if its header can't be read, and its samples: the bytes of each, and
    all its columns except its offset."""
    file, found = File(data), []
    for trak in file.tracks:
        number = file.track(trak)[0]
        table = trak
        for code in (b"mdia", b"minf", b"stbl"):
            table = next(it for it in inner(data, table) if it[0] == code)
        tables = tables_of(data, table)
        if disagreement(tables):
            fail(f"track {number}: {disagreement(tables)}")
        samples = [(data[row[0]:row[0] + row[1]], *row[1:]) for row in table_samples(tables)[0]]
        if any(len(row[0]) != row[1] for row in samples):
            fail(f"track {number}: a sample is not in the file")
        found.append((number, samples))
    return found


def iloc(version, sizes, items, moved=0):
    """Returns an iloc (ISO/IEC 14496-12, 8.11.3) with offsets `moved` bytes later, in the form of a picture of version
    0, 1 or 2. `sizes` are those of the offsets, lengths, base offsets and indexes. An item is its kind of place, its
    base offset, and its extents: an index, an offset and a length."""
    offset_size, length_size, base_size, index_size = sizes
    out = bytes([offset_size << 4 | length_size, base_size << 4 | index_size])
    out += be(4 if version == 2 else 2, len(items))
    for number_, (method, base, extents) in enumerate(items, 1):
        by = moved if method == 0 else 0
        out += be(4 if version == 2 else 2, number_) + (be(2, method) if version else b"") + be(2, 0)
        # Without offsets, the base offset is that of the extents. Else it stays, and the offsets count from it.
        out += be(base_size, base + (0 if offset_size else by)) + be(2, len(extents))
        for index, offset, length in extents:
            out += (be(index_size, index) if version else b"") + be(offset_size, offset + by) + be(length_size, length)
    return full(b"iloc", version, 0, out)


def tfra(version, lengths, entries, moved=0):
    """Returns a tfra (8.8.10) with offsets `moved` bytes later. `lengths` are the sizes of the numbers of an entry, and
    an entry is a time and the position of a moof."""
    traf, trun, sample = lengths
    out = be(4, 1, (traf - 1) << 4 | (trun - 1) << 2 | sample - 1, len(entries))
    width = 8 if version else 4
    for time_, offset in entries:
        out += be(width, time_, offset + moved) + be(traf, 1) + be(trun, 2) + be(sample, 3)
    return full(b"tfra", version, 0, out)


def sidx(version, first, parts):
    """Returns a sidx (8.16.3) whose parts begin `first` bytes after it. A part is its kind and its size."""
    width = 8 if version else 4
    out = be(4, 1, 1000) + be(width, 7, first) + be(2, 0, len(parts))
    for kind, size in parts:
        out += be(4, kind << 31 | size, 500, 0x90000001)
    return full(b"sidx", version, 0, out)


def cut(data, count):
    """Returns the box without its last `count` bytes, with the size that it has then."""
    return be(4, len(data) - count) + data[4:len(data) - count]


def compare(name, before, after, behind=b"", then=b""):
    """Checks that `after` is `before` with its moov moved, and with `then` in place of `behind`. Returns the number of
    samples."""
    samples, before = samples_of(before), before.replace(behind, then) if behind else before
    were, are = boxes(before, 0, len(before), True), boxes(after, 0, len(after), True)
    others = [[data[it[1]:it[4]] + it[2] for it in found if it[0] != b"moov"] for data, found in
              ((before, were), (after, are))]
    if others[0] != others[1]:
        fail(f"{name}: other boxes are changed")
    movies = [next(it for it in found if it[0] == b"moov") for found in (were, are)]
    if blank(before, movies[0])[4:] != blank(after, movies[1])[4:]:
        fail(f"{name}: the moov is changed in more than its chunk offsets")
    codes = [it[0] for it in are]
    if codes.index(b"moov") + 1 != codes.index(b"mdat") or len(before) != len(after):
        fail(f"{name}: the moov is not before the first mdat: {codes}")
    if samples != samples_of(after):
        fail(f"{name}: a sample is changed")
    return sum(len(rows) for _, rows in samples_of(after))


class Runs:
    """Runs of the program in a folder, with their number and that of the compared samples."""

    def __init__(self, program, folder):
        self.program, self.folder, self.count, self.samples = program, folder, 0, 0

    def path(self, name):
        return os.path.join(self.folder, name)

    def write(self, name, data):
        with open(self.path(name), "wb") as file:
            file.write(data)

    def read(self, name):
        with open(self.path(name), "rb") as file:
            return file.read()

    def run(self, status, out, error, *names, **given):
        """Runs the program, and expects the status `status`, the output `out` and the messages `error`."""
        self.count += 1
        done = subprocess.run([self.program, "faststart", *names], cwd=self.folder, capture_output=True, text=True,
                              timeout=120, check=False, **given)
        if (done.returncode, done.stdout, done.stderr) != (status, out, error):
            fail(f"{names}: {done.returncode}, {done.stdout!r}, {done.stderr!r}\nand not\n{status}, {out!r}, {error!r}")

    def moves(self, name, data, behind=b"", then=b""):
        """Moves the moov of the file `data`, compares the files, and runs the program over the written file once
        more. The bytes `behind` of the file become `then`."""
        tops = boxes(data, 0, len(data), True)
        movie_at = next(it[1] for it in tops if it[0] == b"moov")
        media_at = next(it[1] for it in tops if it[0] == b"mdat")
        self.write("in.mp4", data)
        self.run(0, f"out.mp4: moov is moved from {movie_at} to {media_at}\n", "", "in.mp4", "out.mp4")
        self.samples += compare(name, data, self.read("out.mp4"), behind, then)
        self.copies("out.mp4")
        if self.read("in.mp4") != data:
            fail(f"{name}: the file that is read is changed")
        if sorted(os.listdir(self.folder)) != ["copy.mp4", "in.mp4", "out.mp4"]:
            fail(f"{name}: {os.listdir(self.folder)}")

    def copies(self, name):
        self.run(0, f"copy.mp4: {COPIED}\n", "", name, "copy.mp4")
        if self.read("copy.mp4") != self.read(name):
            fail(f"{name}: not a copy")

    def refuses(self, data, text, status=1):
        """Checks that the file `data` is refused with the text `text`, that nothing is written, and that existing files
        are unchanged."""
        self.write("in.mp4", data)
        for name in ("none.mp4", "kept.mp4"):
            self.write("kept.mp4", b"kept")
            self.run(status, "", f"mp4remux: in.mp4: {text}\n", "in.mp4", name)
            if os.path.exists(self.path("none.mp4")) or self.read("kept.mp4") != b"kept":
                fail(f"{text}: a file is written")
            if [it for it in os.listdir(self.folder) if it.endswith(".partial")]:
                fail(f"{text}: a partial file is left")
        os.remove(self.path("kept.mp4"))


def tables(random_, number, chunks, wide=False):
    """Returns a track of `chunks` chunks, with sizes of samples from 0 to 40 bytes."""
    sizes = [[random_.choice((0, 1, 7, 40)) for _ in range(random_.randrange(1, 5))] for _ in range(chunks)]
    count = sum(map(len, sizes))
    sync = sorted(random_.sample(range(1, count + 1), random_.randrange(count + 1))) if random_.random() < 0.5 else None
    return Track(number, sizes, wide, sync, random_.choice((None, 0, 1024)))


def moved(runs, random_, files):
    """Checks files whose moov is moved."""
    one, two = Track(1, [[10, 20], [30]]), Track(2, [[5], [6, 7], [8]], wide=True, sync=[1, 3], shifts=256)
    free = box(b"free", b"spare")
    runs.moves("one track", made(random_, [one]))
    runs.moves("two tracks", made(random_, [one, two], [1, 2, 2, 1, 2]))
    runs.moves("boxes between", made(random_, [one, two], [2, 1, 2, 1, 2], between=free + box(b"uuid", bytes(20)),
                                     behind=free + box(b"skip", b"x")))
    runs.moves("free in front", made(random_, [one], front=ftyp(b"isom", b"isom") + free))
    runs.moves("moov in the middle", made(random_, [one, two], [1, 2, 2, 1, 2], after=(2,), behind=free))
    runs.moves("samples in front", made(random_, [one, two], [1, 2, 2, 1, 2], before=(1,), after=(2,)))
    runs.moves("samples in front alone", made(random_, [one, two], [1, 2, 2, 1, 2], before=(2,)))
    runs.moves("a size of 64 bits", made(random_, [one], long_header=True))
    runs.moves("no size", made(random_, [one, two], no_size=True))
    runs.moves("alike sizes", made(random_, [Track(1, [[9, 9], [9]], one=9)]))
    for bits, sizes in ((4, b"\x9a\xb0"), (8, b"\x09\x0a\x0b"), (16, b"\0\x09\0\x0a\0\x0b")):
        compact = Track(1, [[9, 10], [11]], compact=be(4, bits, 3) + sizes)
        runs.moves(f"sizes of {bits} bits", made(random_, [compact, two], [1, 2, 2, 1, 2]))
    runs.moves("no samples", made(random_, [Track(1, []), two]))
    runs.moves("nothing in front", made(random_, [one], front=b""))
    runs.moves("QuickTime", made(random_, [one], front=ftyp(b"qt  ", b"qt  ") + box(b"wide")))
    runs.moves("an empty sample at the end", made(random_, [Track(1, [[4, 0], [0]])]))
    # Bytes after the entries of a table are not offsets.
    runs.moves("bytes after the entries", made(random_, [Track(1, [[10, 20], [30]], pad=be(4, 40, 41))]))
    # Tracks differ by their numbers, whatever their headers are.
    second = tkhd(1)
    for what, header in (("two tracks of one track_ID", second), ("two headers", second + tkhd(2))):
        runs.moves(what, made(random_, [one, Track(2, [[5], [6, 7]], header=header)], [1, 2, 2, 1]))
    # The flags of a reference say that the media data are in the same file.
    for reference in (full(b"alis", 0, 1), full(b"urn ", 0, 1)):
        data = made(random_, [one])
        runs.moves(reference[4:8].decode(), data.replace(full(b"url ", 0, 1), reference))
    runs.moves("a track without tables", made(random_, [Track(1, [], has_tables=False), Track(2, [[5], [6, 7]])]))
    runs.moves("no track", ftyp(b"isom") + box(b"mdat", b"media") + movie())
    for index in range(files):
        items = [tables(random_, number, random_.randrange(1, 6), random_.random() < 0.5)
                 for number in range(1, random_.randrange(2, 5))]
        order = [item.number for item in items for _ in item.chunks]
        random_.shuffle(order)
        parts = [random_.choice((b"", free, box(b"uuid", bytes(16)))) for _ in range(3)]
        numbers = [item.number for item in items]
        some = set(random_.sample(numbers, random_.randrange(len(numbers) + 1)))
        late = set(random_.sample(numbers, random_.randrange(len(numbers) + 1))) - some
        runs.moves(f"file {index}", made(random_, items, order, parts[0], parts[1], parts[2], random_.random() < 0.3,
                                         before=some, after=late))


def refused(runs, random_):
    """Checks files that are refused, each by its text."""
    one, two = Track(1, [[10, 20], [30]]), Track(2, [[5], [6, 7]])
    plain = made(random_, [one, two], [1, 2, 2, 1])
    tops = {it[0]: it for it in boxes(plain, 0, len(plain), True)}
    movie_at = tops[b"moov"][1]
    runs.refuses(plain[:movie_at], "there is no moov")
    runs.refuses(plain + plain[movie_at:], f"there is another moov at {len(plain)}")
    runs.refuses(b"", "there is no moov")
    runs.refuses(plain + b"\0\0\0\x09free", f"there is no whole box at {len(plain)}")
    runs.refuses(plain[:-1], f"there is no whole box at {movie_at}")
    for name, content in ((b"saio", bytes(4) + be(4, 2, 100)), (b"saio", bytes(3)), (b"cmov", b"")):
        other = box(name, content)
        data = made(random_, [one], inside=other)
        runs.refuses(data, f"{name.decode()} at {len(data) - len(other)}: {STAYS}")
    data = made(random_, [one], front=ftyp(b"isom") + box(b"moof"))
    runs.refuses(data, f"moof at {len(ftyp(b'isom'))}: {STAYS}")
    away = plain.index(full(b"url ", 0, 1))
    data = plain[:away + 8] + bytes(4) + plain[away + 12:]
    runs.refuses(data, f"url  at {away}: the media data are in another file")
    for name, flags in ((b"alis", 0), (b"urn ", 0), (b"imdt", 0), (b"rsrc", 1)):
        data = plain[:away] + full(name, 0, flags) + plain[away + 12:]
        runs.refuses(data, f"{name.decode()} at {away}: the media data are in another file")
    # A track is named by its number, counted from 1, and the position of its trak.
    traks = [it[1] for it in inner(plain, tops[b"moov"]) if it[0] == b"trak"]
    lost = "would not be the same"
    # The header of the second track can't be read.
    second = tkhd(2)
    for header in (box(b"free", second[8:]), second[:8] + b"\x02" + second[9:], box(b"tkhd", second[8:60])):
        data = made(random_, [one, Track(2, [[5], [6, 7]], header=header)], [1, 2, 2, 1])
        top = next(it for it in boxes(data, 0, len(data), True) if it[0] == b"moov")
        at = [it[1] for it in inner(data, top) if it[0] == b"trak"][1]
        runs.refuses(data, f"trak 2 at {at}: its track_ID, timescale and handler can't be kept")
    # One sample is in the moov, one continues in it, and one begins before the mdat and ends in it.
    for which in (movie_at + 8, movie_at - 2, tops[b"mdat"][1] - 2):
        at = plain.index(b"stco") + 12
        data = plain[:at] + be(4, which) + plain[at + 4:]
        runs.refuses(data, f"trak 1 at {traks[0]}: sample 1 {lost}")
    at = plain.index(b"stco") + 16
    data = plain[:at] + be(4, movie_at - 29) + plain[at + 4:]
    runs.refuses(data, f"trak 1 at {traks[0]}: sample 3 {lost}")
    at = plain.rindex(b"stco") + 16
    data = plain[:at] + be(4, movie_at - 12) + plain[at + 4:]
    runs.refuses(data, f"trak 2 at {traks[1]}: sample 3 {lost}")
    for at, name in ((plain.rindex(b"stts"), "stts"), (plain.rindex(b"stsc"), "stsc")):
        runs.refuses(plain[:at] + b"free" + plain[at + 4:], f"trak 2 at {traks[1]}: there is no {name}")
    runs.refuses(plain.replace(b"mdia", b"free", 1),
                 f"trak 1 at {traks[0]}: its track_ID, timescale and handler can't be kept")
    runs.refuses(plain.replace(b"stsd", b"free", 1), f"trak 1 at {traks[0]}: there is no stsd")
    runs.refuses(plain.replace(b"minf", b"free", 1), f"trak 1 at {traks[0]}: there is no minf")
    at = plain.rindex(b"stts") + 8
    data = plain[:at] + be(4, 9) + plain[at + 4:]
    runs.refuses(data, f"trak 2 at {traks[1]}: stts at {at - 12}: {MANY}")
    data = made(random_, [one, Track(2, [[10]], sizes=[10, 11])])
    top = next(it for it in boxes(data, 0, len(data), True) if it[0] == b"moov")
    at = [it[1] for it in inner(data, top) if it[0] == b"trak"][1]
    runs.refuses(data, f"trak 2 at {at}: the chunks hold 1 of 2 samples")
    for content, text in ((be(4, 5, 2) + b"\xaa", "field_size must be 4, 8 or 16"),
                          (be(4, 8, 2) + b"\x0a", "sample_count indicates more sizes than could fit in the box")):
        data = made(random_, [one, Track(2, [[10], [10]], compact=content)])
        top = next(it for it in boxes(data, 0, len(data), True) if it[0] == b"moov")
        at = [it[1] for it in inner(data, top) if it[0] == b"trak"][1]
        runs.refuses(data, f"trak 2 at {at}: stz2 at {data.index(b'stz2') - 4}: {text}")


def references(runs, random_):
    """Checks files whose media data are in another file: a reference of any kind lacks the flag of the same file
    (ISO/IEC 14496-12, 8.7.2; an `alis` is QuickTime's)."""
    data = made(random_, [Track(1, [[10, 20], [30]])])
    away = data.index(full(b"url ", 0, 1))
    for code in (b"url ", b"urn ", b"alis"):
        runs.refuses(data.replace(full(b"url ", 0, 1), full(code, 0, 0)),
                     f"{code.decode()} at {away}: the media data are in another file")
        runs.refuses(data.replace(full(b"url ", 0, 1), full(code, 0, 2)),
                     f"{code.decode()} at {away}: the media data are in another file")
    runs.moves("an alis in the same file", data.replace(full(b"url ", 0, 1), full(b"alis", 0, 1)))


def behind_the_movie(runs, random_):
    """Checks files with boxes behind the moov that are refused before it: what they lead to is behind them."""
    one = Track(1, [[10, 20], [30]])
    index = full(b"sidx", 0, 0, be(4, 1, 1000, 0, 0) + be(2, 0, 0))
    fragment = box(b"moof", full(b"mfhd", 0, 0, be(4, 1)) + box(b"traf", full(b"tfhd", 0, 0x20000, be(4, 1))))
    runs.moves("an index behind the moov", made(random_, [one], behind=index))
    defaults = box(b"mvex", full(b"trex", 0, 0, be(4, 1, 1, 0, 0, 0)))
    runs.moves("a fragment behind the moov", made(random_, [one], behind=fragment, inside=defaults))


class Whole:
    """A file whose moov is behind its mdat, without other boxes that lead to bytes of the file. The moov stays as long
    as it is. So the bytes from the mdat up to it are later by its length, `size`, and all others keep their positions.
    The mdat begins at `media`, the moov at `movie`, and the file ends at `end`."""

    def __init__(self, random_):
        self.seed, self.front = random_.random(), ftyp(b"isom", b"isom")
        self.data = self.made()
        self.media, self.end, self.movie = len(self.front), len(self.data), self.data.index(b"moov") - 4
        self.size = self.end - self.movie

    def made(self, front=b"", inside=b""):
        """Returns the file with `front` before its mdat and `inside` in its moov. The mdat is always the same."""
        chunks = [Track(1, [[10, 20], [30]])]
        return made(random.Random(self.seed), chunks, front=self.front + front, inside=inside)


def items_moved(runs, random_):
    """Checks files with an iloc outside the moov and in it. Its items are where their bytes are after the move."""
    file = Whole(random_)
    for version, sizes, base in ((0, (4, 4, 0, 0), 0), (0, (8, 4, 0, 0), 0), (1, (4, 4, 4, 0), 0),
                                 (1, (4, 8, 8, 4), 5), (1, (0, 4, 4, 0), file.media + 8),
                                 (1, (0, 4, 8, 8), file.media + 8), (2, (4, 4, 0, 0), 0), (2, (8, 8, 8, 4), file.media),
                                 (2, (8, 0, 4, 0), 3)):
        extents = [(1, file.media + 8 - base, 4), (2, file.media + 20 - base, 5)]
        items = [(0, base, extents), (0, base, []), (0, base, extents[:1])]
        if version:
            items += [(1, base, [(0, 9, 9)]), (2, 0, [(1, 2, 3)])]
        where, then = (full(b"meta", 0, 0, iloc(version, sizes, items, by)) for by in (0, file.size))
        runs.moves(f"iloc of version {version} with sizes {sizes}", file.data + where, where, then)
    for offset in (3, file.end + 20):
        where = full(b"meta", 0, 0, iloc(1, (4, 4, 0, 0), [(0, 0, [(0, offset, 9)])]))
        runs.moves("an item that stays", file.data + where)
    # The same before the mdat, which is found by its length.
    hole = full(b"meta", 0, 0, iloc(0, (4, 4, 0, 0), [(0, 0, [(0, 0, 9)])]))
    at = file.media + len(hole) + 8
    where, then = (full(b"meta", 0, 0, iloc(0, (4, 4, 0, 0), [(0, 0, [(0, it, 9)])])) for it in (at, at + file.size))
    runs.moves("iloc in front", file.made(where), where, then)
    # Items of the moov, one in the mdat and one in the moov itself, as far from the beginning of the mvhd as before.
    for version, sizes in ((0, (4, 4, 0, 0)), (1, (8, 4, 4, 8)), (2, (0, 4, 8, 0))):
        places = [(0, file.media + 9, [(0, 0, 2)]), (0, file.movie + 20, [(0, 0, 2)])] if sizes[0] == 0 else [
            (0, 0, [(1, file.media + 9, 3), (2, file.movie + 20, 3)])]
        inside = full(b"meta", 0, 0, iloc(version, sizes, places))

        def later(offset, by=file.size + len(inside)):
            return offset and (offset + by if offset < file.movie else offset - file.movie + file.media)
        now = [(method, later(base), [(index, later(offset), length) for index, offset, length in extents])
               for method, base, extents in places]
        runs.moves(f"iloc of version {version} in the moov", file.made(inside=inside), inside,
                   full(b"meta", 0, 0, iloc(version, sizes, now)))


def positions_of_fragments_moved(runs, random_):
    """Checks files with a tfra. The first of its fragments is before the moov, and the second one isn't."""
    file = Whole(random_)
    for version in (0, 1):
        for lengths in ((1, 1, 1), (2, 3, 4), (4, 1, 2)):
            entries = [(10, file.media + 3), (20, file.media + 9)]
            where, then = (box(b"mfra", tfra(version, lengths, entries, by) + full(b"mfro", 0, 0, be(4, 99)))
                           for by in (0, file.size))
            runs.moves(f"tfra of version {version}", file.data + where, where, then)
        where = box(b"mfra", tfra(version, (1, 1, 1), [(10, file.end + 50)]))
        runs.moves("a fragment that stays", file.data + where)


def bases_moved(runs, random_):
    """Checks files with fragments behind the moov. Their base is in the mdat, or it is the moof. The offsets of their
    auxiliary information count from it, and stay."""
    file = Whole(random_)
    defaults = box(b"mvex", full(b"trex", 0, 0, be(4, 1, 1, 0, 0, 0)))
    with_defaults = file.made(inside=defaults)
    for flags, base in ((0, None), (0x20000, None), (1, file.media + 8), (0x20001, file.media + 8)):
        header, later = (full(b"tfhd", 0, flags, be(4, 1) + (b"" if base is None else be(8, base + by)))
                         for by in (0, file.size + len(defaults)))
        for version in (0, 1):
            kind = full(b"saio", version, 1, b"cenc" + be(4, 0, 1) + be(8 if version else 4, 30))
            where, then = (box(b"moof", full(b"mfhd", 0, 0, be(4, 1)) + box(b"traf", it + kind))
                           for it in (header, later))
            runs.moves(f"tfhd with the flags {flags}", with_defaults + where, where, then)


def indexes_moved(runs, random_):
    """Checks files with a sidx before the mdat, which is its first part."""
    file = Whole(random_)
    media = file.movie - file.media
    for version in (0, 1):
        for parts in ([(0, media)], [(0, 20), (1, media - 20)]):
            where, then = (sidx(version, it, parts) for it in (0, file.size))
            runs.moves(f"sidx of version {version} with the parts {parts}", file.made(where), where, then)
        runs.moves(f"empty sidx of version {version}", file.data + sidx(version, 0, []))


def fields_that_stay(runs, random_):
    """Checks that fields which can't be shifted are named by the path and the position of their box."""
    file = Whole(random_)
    for content in (iloc(1, (4, 4, 0, 0), [(0, 0, [(0, file.movie + 9, 9)])]),
                    iloc(1, (4, 4, 0, 0), [(3, 0, [(0, 9, 9)])]),
                    iloc(1, (4, 4, 0, 0), [(0, 0, [(0, 9, 9)])])[:-6],
                    iloc(0, (4, 4, 3, 0), [(0, 0, [(0, 9, 9)])]),
                    iloc(2, (4, 4, 0, 0), [(0, 0, [(0, 9, 9)])]).replace(b"iloc\2", b"iloc\3"),
                    iloc(0, (4, 4, 0, 0), [(0, 0, [(0, 9, 9)])])[:-14] + be(2, 1, 1, 1) + be(4, 9, 9)):
        where = full(b"meta", 0, 0, cut(content, 0))
        runs.refuses(file.data + where, f"meta/iloc at {file.end + 12}: {STAYS}")
    for data, path, at in ((box(b"mfra", tfra(0, (1, 1, 1), [(1, file.movie)])), "mfra/tfra", 8),
                           (box(b"mfra", cut(tfra(0, (1, 1, 1), [(1, 2), (3, 4)]), 8)), "mfra/tfra", 8),
                           (box(b"moof", box(b"traf", full(b"saio", 0, 0, be(4, 1, 9)))), "moof/traf/saio", 16),
                           (box(b"moof", box(b"traf", full(b"tfhd", 0, 1, be(4, 1)))), "moof/traf/tfhd", 16),
                           (box(b"moof", full(b"meta", 0, 0, iloc(0, (4, 4, 0, 0), []))), "moof/meta/iloc", 20),
                           (cut(sidx(0, 10, [(0, 20)]), 10), "sidx", 0)):
        runs.refuses(file.data + data, f"{path} at {file.end + at}: {STAYS}")
    two = b"".join(box(b"traf", full(b"tfhd", 0, 0, be(4, 1)) + full(b"saio", 0, 0, be(4, 1, 9))) for _ in range(2))
    runs.refuses(file.data + box(b"moof", two),
                 f"moof/traf[1]/saio at {file.end + 8 + len(two) // 2 + 24}: {STAYS}")
    # Two parts, of which the second one begins with the moov.
    index = sidx(0, 0, [(0, file.movie - file.media), (0, file.size)])
    runs.refuses(file.made(index), f"sidx at {file.media}: {STAYS}")


def offsets_in(data, found):
    """Returns the code and the offsets of each table of offsets in the box `found`, in the order of the file."""
    code, _, content, _, _ = found
    if code in OFFSETS:
        width, begin = OFFSETS[code], 8
    elif code == b"saio":
        width, begin = 8 if content[0] else 4, 16 if content[3] & 1 else 8
    else:
        return [it for box_ in (inner(data, found) if code in HOLDS else ()) for it in offsets_in(data, box_)]
    count = int.from_bytes(content[begin - 4:begin], "big")
    return [(code, [int.from_bytes(content[begin + width * it:][:width], "big") for it in range(count)])]


def largest_offset(runs):
    """Checks that an offset of a stco may become 2^32 - 1. If one would become larger, the stco becomes a co64, and all
    boxes after it begin 4 bytes later. Other tables stay as they are. Reads only the beginning of each written file."""
    start = len(ftyp(b"isom"))
    media = 2**32 - 100
    begin = start + media

    def moov(offset, own=0):
        whole = movie(Track(1, [[1]]).box([offset]), Track(2, [[1], [1]]).box([start + 16, start + 17]))
        inside = full(b"saio", 1, 0, be(4, 1) + be(8, own))
        return be(4, len(whole) + len(inside)) + whole[4:] + inside
    size = len(moov(0))
    # An offset to the count of the saio, 12 bytes after its beginning.
    own = begin + size - 12
    largest = 2**32 - 1 - size
    for offset, grows in ((largest, 0), (largest + 1, 4)):
        runs.write("in.mp4", ftyp(b"isom") + be(4, 1) + b"mdat" + be(8, media))
        with open(runs.path("in.mp4"), "r+b") as file:
            file.seek(begin)
            file.write(moov(offset, own))
        with subprocess.Popen([runs.program, "faststart", "in.mp4", "-"], cwd=runs.folder, stdout=subprocess.PIPE,
                              stderr=subprocess.DEVNULL) as process:
            front = process.stdout.read(start + size + grows + 16)
        runs.count += 1
        end = start + size + grows
        tables_ = offsets_in(front, next(it for it in boxes(front[:end], 0, end, True) if it[0] == b"moov"))
        wanted = [(b"co64" if grows else b"stco", [offset + size + grows]),
                  (b"stco", [start + 16 + size + grows, start + 17 + size + grows]), (b"saio", [end - 12])]
        if tables_ != wanted or front[end:] != be(4, 1) + b"mdat" + be(8, media):
            fail(f"an offset of {offset}: {tables_} and not {wanted}")
    os.remove(runs.path("in.mp4"))


def ends(runs, random_):
    """Checks files that can't be opened, written or renamed."""
    data = made(random_, [Track(1, [[10, 20], [30]])])
    runs.write("in.mp4", data)
    done = "out.mp4: moov is moved from {} to {}\n"
    tops = {it[0]: it[1] for it in boxes(data, 0, len(data), True)}
    said = done.format(tops[b"moov"], tops[b"mdat"])
    runs.run(3, "", "mp4remux: none.mp4: No such file or directory (os error 2)\n", "none.mp4", "out.mp4")
    runs.run(3, "", "mp4remux: none/out.mp4: No such file or directory (os error 2)\n", "in.mp4", "none/out.mp4")
    # Control characters of names are escaped.
    runs.write("a\x1b.mp4", data)
    runs.run(0, said.replace("out.mp4", "b\\u{1b}.mp4"), "", "a\x1b.mp4", "b\x1b.mp4")
    none = "No such file or directory (os error 2)\n"
    runs.run(3, "", f"mp4remux: none\\u{{1b}}.mp4: {none}", "none\x1b.mp4", "out.mp4")
    runs.run(3, "", f"mp4remux: none\\u{{1b}}/b.mp4: {none}", "in.mp4", "none\x1b/b.mp4")
    for name in ("a\x1b.mp4", "b\x1b.mp4"):
        os.remove(runs.path(name))
    # A file that exists is replaced.
    runs.write("out.mp4", b"old")
    runs.run(0, said, "", "in.mp4", "out.mp4")
    compare("replaced", data, runs.read("out.mp4"))

    def short():
        signal.signal(signal.SIGXFSZ, signal.SIG_IGN)
        resource.setrlimit(resource.RLIMIT_FSIZE, (100, 100))
    runs.write("out.mp4", b"old")
    large = "write failed: File too large (os error 27)\n"
    runs.run(3, "", f"mp4remux: out.mp4: {large}", "in.mp4", "out.mp4", preexec_fn=short)
    runs.run(3, "", f"mp4remux: new.mp4: {large}", "in.mp4", "new.mp4", preexec_fn=short)
    if runs.read("out.mp4") != b"old" or os.path.exists(runs.path("new.mp4")):
        fail("after a failed write a file is there")
    # Nobody may write into a folder.
    os.chmod(runs.folder, 0o555)
    user = {"user": "nobody"} if os.getuid() == 0 else {}
    runs.run(3, "", "mp4remux: new.mp4: Permission denied (os error 13)\n", "in.mp4", "new.mp4", **user)
    os.chmod(runs.folder, 0o755)
    if runs.read("in.mp4") != data or sorted(os.listdir(runs.folder)) != ["in.mp4", "out.mp4"]:
        fail(f"what was there is changed: {os.listdir(runs.folder)}")


NEEDED = "OUT must be a regular file or a new name"


class Nodes:
    """Runs whose OUT is a node of some kind. The names of the folder, their nodes, and the file that is read stay
    unchanged, except the files that a run may write."""

    def __init__(self, runs, data, said):
        self.runs, self.data, self.said = runs, data, said

    def seen(self):
        """Returns the node of each name of the folder: its type, permissions, inode and device, and its target if it is
        a link."""
        found = {}
        for name in os.listdir(self.runs.folder):
            state = os.lstat(self.runs.path(name))
            leads = os.readlink(self.runs.path(name)) if stat.S_ISLNK(state.st_mode) else None
            found[name] = (state.st_mode, state.st_ino, state.st_rdev, leads)
        return found

    def refused(self, text, name="out.mp4", source="in.mp4", status=3, told=None):
        """Checks that OUT is refused with the text `text`, and that everything is unchanged."""
        before = self.seen()
        self.runs.run(status, "", f"mp4remux: {told or name}: {text}\n", source, name)
        if self.seen() != before or self.runs.read("in.mp4") != self.data:
            fail(f"{name}: {text}: something is changed: {before} {self.seen()}")

    def written(self, name, *files):
        """Checks that OUT is written: `files` have the boxes of the file that is read, and no other name is changed."""
        before = self.seen()
        self.runs.run(0, self.said.replace("out.mp4", name), "", "in.mp4", name)
        after = self.seen()
        for file in files:
            compare(name, self.data, self.runs.read(file))
            before.pop(file, None)
            after.pop(file)
        if after != before:
            fail(f"{name}: something else is changed: {before} {after}")

    def node(self, kind, make):
        """Checks that OUT is refused if it is a node of the kind `kind`, or a link to one. `make` creates the node,
        where that is permitted."""
        try:
            make(self.runs.path("node"))
        except PermissionError:
            print(f"faststart: skipped OUT that is a {kind}, which may not be created here")
            return
        self.refused(f"this is a {kind}; {NEEDED}", "node")
        os.symlink("node", self.runs.path("link"))
        self.refused(f"this is a {kind}; {NEEDED}", "link")
        os.remove(self.runs.path("link"))
        if kind == "directory":
            os.rmdir(self.runs.path("node"))
        else:
            os.remove(self.runs.path("node"))


def listening(path):
    """Creates a socket at `path`."""
    with socket.socket(socket.AF_UNIX) as server:
        server.bind(path)


def nodes(runs, random_):
    """Checks each kind of OUT that is not a regular file."""
    data = made(random_, [Track(1, [[10, 20], [30]])])
    runs.write("in.mp4", data)
    tops = {it[0]: it[1] for it in boxes(data, 0, len(data), True)}
    here = Nodes(runs, data, f"out.mp4: moov is moved from {tops[b'moov']} to {tops[b'mdat']}\n")
    here.node("directory", os.mkdir)
    here.node("FIFO", os.mkfifo)
    here.node("socket", listening)
    # These are the numbers of /dev/null and of the first loop device. Neither is ever opened.
    here.node("character device", lambda path: os.mknod(path, stat.S_IFCHR | 0o666, os.makedev(1, 3)))
    here.node("block device", lambda path: os.mknod(path, stat.S_IFBLK | 0o600, os.makedev(7, 0)))

    # A link stays, and the file that it leads to is written.
    runs.write("target.mp4", b"old")
    os.symlink("target.mp4", runs.path("link.mp4"))
    here.written("link.mp4", "target.mp4")
    os.mkdir(runs.path("folder"))
    runs.write("folder/far.mp4", b"old")
    os.symlink("link2.mp4", runs.path("link1.mp4"))
    os.symlink("folder/far.mp4", runs.path("link2.mp4"))
    here.written("link1.mp4")
    compare("a link to a link", data, runs.read("folder/far.mp4"))
    if os.listdir(runs.path("folder")) != ["far.mp4"]:
        fail(f"a file is left beside the target: {os.listdir(runs.path('folder'))}")
    # A link that leads nowhere is not written through.
    os.symlink("nothing.mp4", runs.path("dangling.mp4"))
    here.refused(f"this is a symbolic link to a file that does not exist; {NEEDED}", "dangling.mp4")
    os.symlink("ring.mp4", runs.path("ring.mp4"))
    here.refused("Too many levels of symbolic links (os error 40)", "ring.mp4")

    # OUT is the file that is read, by each of its names.
    same = "this is the file that is read; OUT must be another file"
    here.refused(same, "in.mp4")
    here.refused(same, "./in.mp4")
    os.link(runs.path("in.mp4"), runs.path("hard.mp4"))
    here.refused(same, "hard.mp4")
    here.refused(same, "in.mp4", "hard.mp4")
    os.symlink("hard.mp4", runs.path("soft.mp4"))
    here.refused(same, "soft.mp4")
    os.remove(runs.path("hard.mp4"))
    # OUT is another file, with the same bytes.
    runs.write("alike.mp4", data)
    here.written("alike.mp4", "alike.mp4")

    # IN has to be a regular file.
    os.mkfifo(runs.path("fifo"))
    here.refused("this is a FIFO; IN must be a regular file", "out.mp4", "fifo", told="fifo")
    here.refused("this is a directory; IN must be a regular file", "out.mp4", "folder", told="folder")

    # `-` means the standard input and output, and `./-` a file with this name.
    here.refused("IN must be a file, since it is read twice; ./- is a file of this name", "out.mp4", "-", status=2,
                 told="-")
    here.written("./-", "-")

    # Files that an earlier run left behind, or somebody else made, are unchanged.
    for name in (".mp4remux-0.partial", "out.mp4.partial", "victim"):
        runs.write(name, b"other")
    os.symlink("victim", runs.path(".mp4remux-1.partial"))
    os.symlink("nothing", runs.path(".mp4remux-2.partial"))
    os.mkdir(runs.path(".mp4remux-3.partial"))
    here.written("out.mp4", "out.mp4")
    if any(runs.read(name) != b"other" for name in (".mp4remux-0.partial", "out.mp4.partial", "victim")):
        fail("a file of another run is written")
    # The name has the greatest length.
    longest = "n" * 251 + ".mp4"
    here.written(longest, longest)

    # The permissions are those of the file that is read, whatever the mask and the permissions of an existing OUT.
    for mode in (0o600, 0o640, 0o644, 0o666, 0o444, 0o755, 0o4755):
        for before in (None, 0o600, 0o666):
            os.chmod(runs.path("in.mp4"), mode)
            if os.path.exists(runs.path("out.mp4")):
                os.remove(runs.path("out.mp4"))
            if before is not None:
                runs.write("out.mp4", b"old")
                os.chmod(runs.path("out.mp4"), before)
            runs.run(0, here.said, "", "in.mp4", "out.mp4", preexec_fn=lambda: os.umask(0o027))
            now = stat.S_IMODE(os.lstat(runs.path("out.mp4")).st_mode)
            if now != mode & 0o777:
                fail(f"the file that is read has {mode:o}, and the one that is written {now:o}")


def moved_offset(offset, movie_at, media_at, size):
    """Returns the offset after the moov, of `size` bytes, is moved from `movie_at` to `media_at`."""
    if movie_at <= offset < movie_at + size:
        return offset - movie_at + media_at
    return offset + size if media_at <= offset < movie_at else offset


def auxiliary(runs, random_):
    """Moves moovs with offsets of auxiliary information, of both versions, with and without a type. They lead to each
    part of the file, and to the boundaries of the parts."""
    track_, free = Track(1, [[10, 20], [30]]), box(b"free", b"spare")
    for version, flags in ((0, 0), (1, 0), (0, 1), (1, 1)):
        width, kind = 8 if version else 4, b"cenc" + be(4, 7) if flags else b""
        data = made(random_, [track_], inside=full(b"saio", version, flags, kind + be(4, 9) + bytes(9 * width)),
                    behind=free)
        tops = {it[0]: it for it in boxes(data, 0, len(data), True)}
        media_at, movie_at = tops[b"mdat"][1], tops[b"moov"][1]
        size = len(data) - len(free) - movie_at
        offsets = [0, media_at - 1, media_at, media_at + 9, movie_at - 1, movie_at, movie_at + 101, movie_at + size - 1,
                   movie_at + size]
        begin = movie_at + size - 9 * width
        data = data[:begin] + be(width, *offsets) + data[begin + 9 * width:]
        runs.moves(f"saio of version {version}", data)
        after = runs.read("out.mp4")
        at = begin - movie_at + media_at
        expected = be(width, *(moved_offset(it, movie_at, media_at, size) for it in offsets))
        if after[at:at + 9 * width] != expected:
            fail(f"saio of version {version}: {after[at:at + 9 * width].hex()} and not {expected.hex()}")


def without_media(runs, random_):
    """Copies files without media data, and those in which nothing is before the moov."""
    init = ftyp(b"isom") + movie()
    for data in (init, init + box(b"mdat", b"media"), movie(Track(1, [[5]]).box([0])), init + box(b"free")):
        runs.write("in.mp4", data)
        runs.run(0, f"out.mp4: {COPIED}\n", "", "in.mp4", "out.mp4")
        if runs.read("out.mp4") != data:
            fail("a file without media data: not a copy")


def pipes(runs, random_):
    """Writes to the standard output: what is written to a file, and nothing else."""
    runs.write("in.mp4", made(random_, [Track(1, [[10, 20], [30]]), Track(2, [[5]])]))
    runs.write("init.mp4", ftyp(b"isom") + movie())
    runs.write("bad.mp4", ftyp(b"isom") + box(b"mdat", b"media"))
    for name, status, error in (("in.mp4", 0, b""), ("init.mp4", 0, b""),
                                ("bad.mp4", 1, b"mp4remux: bad.mp4: there is no moov\n")):
        done = subprocess.run([runs.program, "faststart", name, "-"], cwd=runs.folder, capture_output=True, timeout=120,
                              check=False)
        wanted = b""
        if not status:
            subprocess.run([runs.program, "faststart", name, "out.mp4"], cwd=runs.folder, check=True, timeout=120,
                           stdout=subprocess.DEVNULL)
            wanted = runs.read("out.mp4")
        if (done.returncode, done.stdout, done.stderr) != (status, wanted, error):
            fail(f"{name} to a pipe: {done.returncode}, {done.stderr}")
    read, write = os.pipe()
    os.close(read)
    done = subprocess.run([runs.program, "faststart", "in.mp4", "-"], cwd=runs.folder, stdout=write, timeout=120,
                          stderr=subprocess.PIPE, check=False)
    os.close(write)
    if (done.returncode, done.stderr) != (3, b"mp4remux: -: write failed: Broken pipe (os error 32)\n"):
        fail(f"a closed pipe: {done.returncode}, {done.stderr}")
    if sorted(os.listdir(runs.folder)) != ["bad.mp4", "in.mp4", "init.mp4", "out.mp4"]:
        fail(f"files are left: {os.listdir(runs.folder)}")


def progress(runs):
    """Shows on a terminal how much is written, if that takes more than a second, and removes the line at the end. Shows
    nothing if it takes less."""
    start, size = len(ftyp(b"isom")), 3 << 20
    runs.write("in.mp4", ftyp(b"isom") + be(4, size) + b"mdat" + bytes(size - 8) + movie(
        Track(1, [[5]]).box([start + 8])))
    subprocess.run([runs.program, "faststart", "in.mp4", "out.mp4"], cwd=runs.folder, check=True, timeout=120,
                   stdout=subprocess.DEVNULL)
    for seconds in (0, 1.5):
        screen, terminal = pty.openpty()
        with subprocess.Popen([runs.program, "faststart", "in.mp4", "-"], cwd=runs.folder, stdout=subprocess.PIPE,
                              stderr=terminal) as process:
            os.close(terminal)
            # A pipe holds less than a block, so the program waits for the reader.
            time.sleep(seconds)
            written = process.stdout.read()
        shown = b""
        with contextlib.suppress(OSError):
            while part := os.read(screen, 1000):
                shown += part
        os.close(screen)
        is_right = re.fullmatch(rb"(\rmp4remux: \d+ % written)+\r\x1b\[K", shown) if seconds else shown == b""
        if process.returncode or written != runs.read("out.mp4") or not is_right:
            fail(f"{seconds} seconds on a terminal: {process.returncode}, {shown}")


def names(runs, random_):
    """Refuses names that are not UTF-8, and command lines without a command or a file."""
    runs.write("in.mp4", made(random_, [Track(1, [[10]])]))
    refused_ = "this name is not UTF-8, and only names that are can be opened"
    for words in ((b"caf\xe9.mp4", "out.mp4"), ("in.mp4", b"caf\xe9.mp4")):
        runs.run(3, "", f"mp4remux: caf\\xe9.mp4: {refused_}\n", *words)
    for words in ([], ["faststart"], ["faststart", "in.mp4"], ["in.mp4", "out.mp4"]):
        done = subprocess.run([runs.program, *words], cwd=runs.folder, capture_output=True, timeout=120, check=False)
        if done.returncode != 2 or done.stdout or b"Usage: " not in done.stderr:
            fail(f"{words}: {done.returncode}, {done.stdout}, {done.stderr}")
    words = [built("mp4_inspect"), "faststart", "in.mp4", "out.mp4"]
    done = subprocess.run(words, cwd=runs.folder, capture_output=True, timeout=120, check=False)
    text = b"mp4inspect: faststart is a command of mp4remux: mp4remux faststart IN OUT\n"
    if (done.returncode, done.stdout, done.stderr) != (2, b"", text):
        fail(f"mp4inspect faststart: {done.returncode}, {done.stdout}, {done.stderr}")
    if os.listdir(runs.folder) != ["in.mp4"]:
        fail(f"a file is written: {os.listdir(runs.folder)}")


def large(runs):
    """Moves media data that are larger than the memory."""
    start = len(ftyp(b"isom"))
    with open(runs.path("in.mp4"), "wb") as file:
        file.write(ftyp(b"isom") + be(4, 3 * MEMORY) + b"mdat" + b"first")
        file.seek(start + 3 * MEMORY - 5)
        file.write(b"final" + movie(Track(1, [[5], [5]]).box([start + 8, start + 3 * MEMORY - 5])))

    def little():
        resource.setrlimit(resource.RLIMIT_AS, (MEMORY, MEMORY))
    runs.run(0, f"out.mp4: moov is moved from {start + 3 * MEMORY} to {start}\n", "", "in.mp4", "out.mp4",
             preexec_fn=little)
    runs.samples += compare("large", runs.read("in.mp4"), runs.read("out.mp4"))


def many(runs, random_):
    """Moves the moov of a file of many tracks in little time."""
    runs.write("in.mp4", made(random_, [Track(number, [[1, 2], [3]]) for number in range(1, TRACKS + 1)]))
    began = time.monotonic()
    done = subprocess.run([runs.program, "faststart", "in.mp4", "out.mp4"], cwd=runs.folder, capture_output=True,
                          text=True, timeout=120, check=False)
    took = time.monotonic() - began
    if done.returncode or took > SECONDS:
        fail(f"{TRACKS} tracks: {took:.1f} s, status {done.returncode}, {done.stderr!r}")
    runs.samples += compare("many tracks", runs.read("in.mp4"), runs.read("out.mp4"))


class FastStart(unittest.TestCase):
    def setUp(self):
        folder, place = (tempfile.mkdtemp(prefix="faststart-") for _ in range(2))
        for it in (folder, place):
            # The user nobody has to be able to run it.
            os.chmod(it, 0o755)
            self.addCleanup(shutil.rmtree, it)
        self.random = random.Random(number("SEED", 1))
        self.runs = Runs(shutil.copy(built("mp4_remux_program"), place), folder)

    def test_files_that_are_moved(self):
        moved(self.runs, self.random, number("COUNT", 200))
        self.assertGreater(self.runs.samples, 0)

    def test_refusals(self):
        refused(self.runs, self.random)

    def test_references_to_other_files(self):
        references(self.runs, self.random)

    def test_boxes_behind_the_movie(self):
        behind_the_movie(self.runs, self.random)

    def test_items(self):
        items_moved(self.runs, self.random)

    def test_positions_of_fragments(self):
        positions_of_fragments_moved(self.runs, self.random)

    def test_bases_of_fragments(self):
        bases_moved(self.runs, self.random)

    def test_indexes(self):
        indexes_moved(self.runs, self.random)

    def test_fields_that_stay(self):
        fields_that_stay(self.runs, self.random)

    def test_largest_offset(self):
        largest_offset(self.runs)

    def test_ends_that_fail(self):
        ends(self.runs, self.random)

    def test_kinds_of_files(self):
        nodes(self.runs, self.random)

    def test_large_media_data_in_little_memory(self):
        large(self.runs)

    def test_auxiliary_information(self):
        auxiliary(self.runs, self.random)

    def test_files_without_media_data(self):
        without_media(self.runs, self.random)

    def test_pipes(self):
        pipes(self.runs, self.random)

    def test_progress_on_a_terminal(self):
        progress(self.runs)

    def test_names(self):
        names(self.runs, self.random)

    def test_many_tracks(self):
        many(self.runs, self.random)


if __name__ == "__main__":
    unittest.main()
