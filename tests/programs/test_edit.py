"""Runs the built program `mp4remux edit` over handmade files. A tree of the boxes, which has no code of the codec,
makes each new file a second time, and both are compared byte for byte. Compares the samples of the old file and the new
one with readers/samples.py.

- Boxes are removed, inserted and replaced at each place of a file, before and after the media data. Sizes of 32 and 64
  bits and offsets of each kind follow. A stco with an offset that would not fit becomes a co64.
- Each shortcut: brands, languages, rotations, flags of tracks, tags and covers, dropped tracks with tables and
  fragments.
- Fields that are set: numbers, fixed-point numbers, codes, texts, entries and whole lists. The new bytes are worked out
  from the standards.
- Each refusal is expected with its text. Then nothing is written, and existing files are unchanged.
- Wrong values of options, and files that can't be read or have no boxes.
- OUT can be a pipe.
- Random edits of random files.
- Real files of ffmpeg and libheif with pictures, fragments, indexes and encrypted samples.

Settings: COUNT (200 random files), SEED."""

import os
import random
import shutil
import subprocess
import tempfile
import unittest

from tests.built import NamesSkipped, built, number
from tests.files.made import be, box, ftyp, full, handler, movie, tkhd, track
from tests.programs.test_faststart import STAYS, Runs, Track, cut, fail, iloc, made, offsets_in, samples_of, sidx
from tests.programs.test_faststart import tables, tfra
from tests.programs.test_fragment import hashes
from tests.readers.samples import boxes
from tests.real_files import making

# Files of ffmpeg and libheif with fields outside the moov that lead to bytes of the file.
PICTURES = ("still.heic", "thumbnail.heic", "alpha.heic", "libheif.avif")
FRAGMENTED = ("frag_keyframe.mp4", "frag_default_base.mp4", "frag_omit_offset.mp4", "frag_dash.mp4",
              "frag_global_sidx.mp4", "frag_ismv.ismv", "cenc_h264.mp4", "cenc_frag.mp4", "dash_sidx.mpd")
# The boxes that hold boxes, with the number of bytes before the first one.
FRONTS = {b"moov": 0, b"trak": 0, b"mdia": 0, b"minf": 0, b"stbl": 0, b"udta": 0, b"edts": 0, b"dinf": 0, b"mvex": 0,
          b"moof": 0, b"traf": 0, b"meta": 4, b"ilst": 0, b"dref": 8, b"mfra": 0}
WIDTHS = {b"stco": 4, b"co64": 8}
# The text of an offset that has no place any more.
LOST = "an offset leads to what is removed or replaced, or would be too large"
NAM, ART = b"\xa9nam", b"\xa9ART"


class Node:
    """A box of a file: its code, its header without the size, the bytes before its boxes, and its boxes; or a leaf with
    all its bytes. Also the position that it had."""

    def __init__(self, data, at, end, inside):
        size, self.code, self.at, self.long = int.from_bytes(data[at:at + 4], "big"), data[at + 4:at + 8], at, False
        self.open = size == 0
        content = at + 8
        if size == 1:
            size, content, self.long = int.from_bytes(data[at + 8:at + 16], "big"), at + 16, True
        self.end = end if self.open else at + size
        # A moov without a size gets one.
        self.open = self.open and self.code != b"moov"
        front = FRONTS.get(self.code) if inside != b"ilst" else 0
        if front is None:
            self.front, self.boxes = data[content:self.end], []
        else:
            self.front, self.boxes = data[content:content + front], nodes(data, content + front, self.end, self.code)
        self.content = content

    def size(self):
        return (16 if self.long else 8) + len(self.front) + sum(size_of(it) for it in self.boxes)

    def find(self, path):
        """Returns the box at `path` and the list that holds it."""
        return find(self.boxes, path)

    def write(self, at, places):
        """Returns the bytes of the box at position `at`, and adds the ranges of old bytes to `places`."""
        size = self.size()
        if self.long:
            head = be(4, 1) + self.code + be(8, size)
        else:
            head = be(4, 0 if self.open else size) + self.code
        places.append((self.at, self.content + len(self.front), at))
        return head + self.front + written(self.boxes, at + len(head) + len(self.front), places)


def size_of(it):
    return it.size() if isinstance(it, Node) else len(it)


def nodes(data, at, end, inside=b""):
    found = []
    while end - at >= 8:
        found.append(Node(data, at, end, inside))
        at = found[-1].end
    # Such as QuickTime's terminator of a udta.
    return found + ([Rest(data[at:end], at)] if at < end else [])


class Rest(bytes):
    """Bytes after the last box of a level."""

    def __new__(cls, data, at):
        self = bytes.__new__(cls, data)
        self.at = at
        return self


def written(items, at, places):
    out = b""
    for it in items:
        if isinstance(it, Rest):
            places.append((it.at, it.at + len(it), at + len(out)))
        out += it.write(at + len(out), places) if isinstance(it, Node) else bytes(it)
    return out


def find(items, path):
    """Returns the box at a path such as `moov/trak[1]`, and the list that has it."""
    holder = items
    for part in path.split("/"):
        code, _, index = part.partition("[")
        code = code.encode("latin-1")
        meant = [it for it in holder if isinstance(it, Node) and it.code == code][int(index.rstrip("]") or 0)]
        found, inside = meant, holder
        holder = meant.boxes
    return found, inside


def new_place(offset, places):
    for begin, end, at in places:
        if begin <= offset < end:
            return offset - begin + at
    return None


def shift(data, node, at, places):
    """Returns the bytes of `node`, written at position `at` of `data`, with its offsets shifted."""
    for it in node.boxes:
        if isinstance(it, Node):
            begin = next(new for old, _, new in places if old == it.at)
            data = shift(data, it, begin, places)
    begin = at + (16 if node.long else 8)
    if node.code in WIDTHS:
        width, first = WIDTHS[node.code], begin + 8
    elif node.code == b"saio":
        width, first = 8 if node.front[0] else 4, begin + (16 if node.front[3] & 1 else 8)
    else:
        return data
    count = int.from_bytes(data[first - 4:first], "big")
    for which in range(count):
        place = first + width * which
        old = int.from_bytes(data[place:place + width], "big")
        data = data[:place] + be(width, new_place(old, places)) + data[place + width:]
    return data


class Model:
    """A file as boxes, which is edited as the program should do it. Boxes are named by their paths in the file before
    all edits."""

    def __init__(self, data):
        self.data, self.items = data, nodes(data, 0, len(data))
        self.paths = {}

    def at(self, path):
        if path not in self.paths:
            self.paths[path] = find(self.items, path)
        return self.paths[path]

    def level(self, path):
        return self.items if path == "/" else self.at(path)[0].boxes

    def name(self, *paths):
        """Finds boxes before they are edited."""
        for path in paths:
            if path != "/":
                self.at(path)

    def remove(self, path):
        found, inside = self.at(path)
        inside.remove(found)

    def replace(self, path, data):
        found, inside = self.at(path)
        inside[inside.index(found)] = data

    def insert(self, path, data, before=None):
        level = self.level(path)
        if before is None:
            index = len(level) - (1 if level and isinstance(level[-1], Rest) else 0)
        else:
            index = before
        level.insert(index, data)

    def write(self, path, at, data):
        found, _ = self.at(path)
        found.front = found.front[:at] + data + found.front[at + len(data):]

    def done(self):
        """Returns the edited file."""
        places = []
        data = written(self.items, 0, places)
        for it in self.items:
            if isinstance(it, Node) and it.code == b"moov":
                data = shift(data, it, next(new for old, _, new in places if old == it.at), places)
        return data


class Edits(Runs):
    """Runs of `mp4remux edit`."""

    def run(self, status, out, error, *words, **given):
        self.count += 1
        done = subprocess.run([self.program, "edit", *words], cwd=self.folder, capture_output=True, text=True,
                              timeout=120, check=False, **given)
        if (done.returncode, done.stdout, done.stderr) != (status, out, error):
            fail(f"{words}: {done.returncode}, {done.stdout!r}, {done.stderr!r}\nand not\n{status}, {out!r}, {error!r}")

    def edits(self, what, data, expected, *words, dropped=(), count=None):
        """Edits the file `data` and expects the file `expected`. Its tracks keep their samples, without the `dropped`
        ones, by their place. `count` is the number of edits, or None for that of the options."""
        self.write("in.mp4", data)
        count = sum(it.startswith("--") for it in words) if count is None else count
        said = "1 edit is made" if count == 1 else f"{count} edits are made"
        self.run(0, f"out.mp4: {said}\n", "", "in.mp4", "out.mp4", *words)
        after = self.read("out.mp4")
        if after != expected:
            at = next((it for it, (a, b) in enumerate(zip(after, expected)) if a != b), min(len(after), len(expected)))
            fail(f"{what}: {len(after)} bytes and not {len(expected)}; they differ at {at}: "
                 f"{after[at - 8:at + 24].hex()} and not {expected[at - 8:at + 24].hex()}")
        before = [it for index, it in enumerate(samples_of(data)) if index not in dropped]
        if samples_of(after) != before:
            fail(f"{what}: a sample is changed")
        self.samples += sum(len(rows) for _, rows in before)
        if self.read("in.mp4") != data:
            fail(f"{what}: the file that is read is changed")
        if [it for it in os.listdir(self.folder) if it.endswith(".partial")]:
            fail(f"{what}: a partial file is left")

    def refuses(self, data, text, *words, status=1, name="in.mp4"):
        """Checks that the edit is refused with the text `text`, that nothing is written, and that existing files are
        unchanged."""
        self.write("in.mp4", data)
        for out in ("none.mp4", "kept.mp4"):
            self.write("kept.mp4", b"kept")
            self.run(status, "", f"mp4remux: {name}: {text}\n", "in.mp4", out, *words)
            if os.path.exists(self.path("none.mp4")) or self.read("kept.mp4") != b"kept":
                fail(f"{text}: a file is written")
            if [it for it in os.listdir(self.folder) if it.endswith(".partial")]:
                fail(f"{text}: a partial file is left")
        os.remove(self.path("kept.mp4"))


def in_front(data):
    """Returns a file made by `made` with its moov before its mdat, without other changes than those of offsets."""
    model = Model(data)
    moov = next(it for it in model.items if isinstance(it, Node) and it.code == b"moov")
    model.items.remove(moov)
    model.items.insert(next(index for index, it in enumerate(model.items) if it.code == b"mdat"), moov)
    return model.done()


def with_udta(data, content):
    """Returns the file with a udta as the last box of its moov."""
    model = Model(data)
    model.insert("moov", box(b"udta", content))
    return model.done()


def item(key, value, kind=1):
    return box(key, box(b"data", be(4, kind, 0) + value))


def meta(*items):
    head = full(b"hdlr", 0, 0, be(4, 0) + b"mdir" + b"appl" + bytes(9))
    return full(b"meta", 0, 0, head + box(b"ilst", b"".join(items)))


def two_files(random_):
    """Yields a file with two tracks, with its moov behind its media data and before them, and a udta."""
    one, two = Track(1, [[10, 20], [30]]), Track(2, [[5], [6, 7], [8]], wide=True, sync=[1, 3], shifts=256)
    free = box(b"free", b"spare")
    data = made(random_, [one, two], [1, 2, 2, 1, 2], front=ftyp(b"isom", b"isom") + free, between=free,
                behind=box(b"skip", b"x"))
    data = with_udta(data, box(b"name", b"abc") + meta(item(NAM, b"Old"), item(ART, b"Who")) + bytes(4))
    yield "behind", data
    yield "in front", in_front(data)


def boxes_edited(runs, random_):
    """Checks edits of boxes at each place."""
    new = box(b"uuid", bytes(range(16)) + b"new")
    pair = new + box(b"free", b"12345")
    runs.write("new.box", new)
    runs.write("pair.box", pair)
    for where, data in two_files(random_):
        for path in ("free", "skip", "moov/udta", "moov/udta/meta", "moov/udta/name"):
            model = Model(data)
            model.remove(path)
            runs.edits(f"{where}: without {path}", data, model.done(), "--remove", path)
            model = Model(data)
            model.replace(path, new)
            runs.edits(f"{where}: another {path}", data, model.done(), "--replace", f"{path}=new.box")
        for path in ("/", "moov", "moov/trak[1]", "moov/trak/mdia", "moov/trak/mdia/minf/dinf", "moov/udta",
                     "moov/udta/meta", "moov/udta/meta/ilst"):
            model = Model(data)
            model.insert(path, pair)
            runs.edits(f"{where}: two boxes more in {path}", data, model.done(), "--insert", f"{path}=pair.box")
            model = Model(data)
            count = len([it for it in model.level(path) if isinstance(it, Node)])
            for before in range(count):
                model = Model(data)
                model.insert(path, new, before)
                runs.edits(f"{where}: before {path}:{before}", data, model.done(), "--insert",
                           f"{path}:{before}=new.box")
        # Several edits at once are named by the paths before all of them.
        model = Model(data)
        model.name("free", "free[1]", "moov/udta/name", "moov/udta", "moov/trak[1]")
        model.remove("free")
        model.replace("free[1]", new)
        model.remove("moov/udta/name")
        model.insert("moov/trak[1]", new)
        model.insert("moov/udta", new)
        model.insert("moov", pair)
        runs.edits(f"{where}: all at once", data, model.done(), "--insert", "moov=pair.box", "--remove", "free",
                   "--remove", "moov/udta/name", "--replace", "free[1]=new.box", "--insert", "moov/udta=new.box",
                   "--insert", "moov/trak[1]=new.box")
        # Two insertions at one place keep the order of the options.
        model = Model(data)
        model.insert("moov", pair)
        model.insert("moov", new)
        runs.edits(f"{where}: two at one place", data, model.done(), "--insert", "moov=pair.box", "--insert",
                   "moov=new.box")
    # A box without a size ends with the file, and a header of 16 bytes has a size of 64 bits.
    one = Track(1, [[10, 20], [30]])
    data = made(random_, [one], no_size=True)
    model = Model(data)
    model.insert("moov", new)
    runs.edits("a moov without a size", data, model.done(), "--insert", "moov=new.box")
    data = made(random_, [one], long_header=True)
    model = Model(data)
    model.insert("/", new, 0)
    runs.edits("a long mdat", data, model.done(), "--insert", "/:0=new.box")
    content = box(b"name", b"abc")
    long = be(4, 1) + b"udta" + be(8, 16 + len(content)) + content
    model = Model(made(random_, [one]))
    model.insert("moov", long)
    data = model.done()
    model = Model(data)
    model.insert("moov/udta", new)
    runs.edits("a long udta", data, model.done(), "--insert", "moov/udta=new.box")
    # Offsets of auxiliary information lead into the moov, and behind it.
    for version in (0, 1):
        width = 8 if version else 4
        data = made(random_, [one], inside=full(b"saio", version, 0, be(4, 2) + bytes(2 * width)),
                    behind=box(b"free", b"spare"))
        begin = data.index(b"saio") + 12
        moov = data.index(b"moov") - 4
        data = data[:begin] + be(width, data.index(b"mdhd"), data.index(b"spare")) + data[begin + 2 * width:]
        model = Model(data)
        model.insert("moov/trak", new, 0)
        runs.edits(f"saio of version {version} in a moov at {moov}", data, model.done(), "--insert",
                   "moov/trak:0=new.box")


def header_at(model, path):
    """Returns the content of the header at `path`."""
    return model.at(path)[0].front


def shortcuts(runs, random_):
    """Checks each shortcut by the bytes that it should change."""
    turned = {0: (1, 0, 0, 1, 0, 0), 90: (0, 1, -1, 0, "height", 0), 180: (-1, 0, 0, -1, "width", "height"),
              270: (0, -1, 1, 0, 0, "width")}
    sizes = {"width": 640 << 16, "height": 480 << 16}
    for version, matrix_at, language_at in ((0, 40, 20), (1, 52, 32)):
        header = tkhd(1, *sizes.values(), version)
        data = made(random_, [Track(1, [[10, 20], [30]], header=header), Track(2, [[5]])])
        if version:
            model = Model(data)
            path = "moov/trak/mdia/mdhd"
            old = header_at(model, path)
            model.replace(path, full(b"mdhd", 1, 0, be(8, 1, 2) + old[12:16] + be(8, 3) + old[20:]))
            data = model.done()
        for degrees, cells in turned.items():
            a, b, c, d, x, y = (sizes[it] if it in sizes else it << 16 for it in cells)
            model = Model(data)
            model.write("moov/trak/tkhd", matrix_at, be(4, a, b, 0, c, d, 0, x, y, 0x40000000))
            runs.edits(f"turned by {degrees}", data, model.done(), "--rotate", f"1={degrees}")
        model = Model(data)
        model.write("moov/trak/mdia/mdhd", language_at, be(2, 4 << 10 | 5 << 5 | 2))
        runs.edits("another language", data, model.done(), "--language", "1=deb")
        for option, flags in (("--disable", 6), ("--enable", 7)):
            model = Model(data)
            model.write("moov/trak/tkhd", 3, bytes([flags]))
            runs.edits(option, data, model.done(), option, "1")
            data = model.done()
    # An elng would be another language.
    model = Model(data)
    model.insert("moov/trak/mdia", full(b"elng", 0, 0, b"fr\0"))
    data = model.done()
    model = Model(data)
    model.write("moov/trak/mdia/mdhd", 32, be(2, 5 << 10 | 14 << 5 | 7))
    model.remove("moov/trak/mdia/elng")
    runs.edits("without elng", data, model.done(), "--language", "1=eng")
    for where, data in two_files(random_):
        model = Model(data)
        model.replace("ftyp", ftyp(b"iso6", b"isom", b"iso6", b"mp41"))
        runs.edits(f"{where}: brands", data, model.done(), "--brand", "iso6,mp41")
        model = Model(data)
        model.replace("ftyp", ftyp(b"isom", b"isom"))
        runs.edits(f"{where}: the same brand", data, model.done(), "--brand", "isom")
        model = Model(data)
        model.write("moov/trak[1]/tkhd", 3, b"\6")
        model.write("moov/trak/mdia/mdhd", 20, be(2, 5 << 10 | 14 << 5 | 7))
        runs.edits(f"{where}: two tracks", data, model.done(), "--disable", "2", "--language", "1=eng")


def tags(runs, random_):
    """Checks tags in files with and without some."""
    one = Track(1, [[10, 20], [30]])
    title = item(NAM, "Café".encode())
    png = b"\x89PNG\r\n\x1a\n" + bytes(20)
    runs.write("cover.png", png)
    runs.write("cover.jpg", b"\xff\xd8\xff\xe0" + bytes(20))
    plain = made(random_, [one])
    model = Model(plain)
    model.insert("moov", box(b"udta", meta(title)))
    runs.edits("a udta more", plain, model.done(), "--title", "Café")
    data = with_udta(plain, box(b"name", b"abc") + bytes(4))
    model = Model(data)
    model.insert("moov/udta", meta(item(ART, b"Who")))
    runs.edits("a meta more", data, model.done(), "--tag", "©ART=Who")
    data = with_udta(plain, full(b"meta", 0, 0, handler(b"mdir", b"")))
    model = Model(data)
    model.insert("moov/udta/meta", box(b"ilst", item(b"desc", b"a=b")))
    runs.edits("an ilst more", data, model.done(), "--tag", "desc=a=b")
    data = with_udta(plain, meta(item(NAM, b"Old"), item(ART, b"Who")))
    model = Model(data)
    model.replace("moov/udta/meta/ilst/©nam", title)
    model.insert("moov/udta/meta/ilst", item(b"desc", b"") + item(b"covr", png, 14))
    runs.edits("one tag replaced, two more", data, model.done(), "--title", "Café", "--tag", "desc=", "--cover",
               "cover.png")
    model = Model(data)
    model.insert("moov/udta/meta/ilst", item(b"covr", b"\xff\xd8\xff\xe0" + bytes(20), 13))
    runs.edits("the last of two covers", data, model.done(), "--cover", "cover.png", "--cover", "cover.jpg")
    model = Model(data)
    model.remove("moov/udta/meta")
    runs.edits("no tags", data, model.done(), "--no-tags")
    model = Model(data)
    model.name("moov/udta")
    model.remove("moov/udta/meta")
    model.insert("moov/udta", meta(title))
    runs.edits("other tags", data, model.done(), "--no-tags", "--title", "Café")
    texts = box(b"name", b"abc") + box(NAM, b"\0\1\0\0a") + box(ART, b"\0\1\0\0b") + box(NAM, b"\0\1\0\0c") + bytes(4)
    data = with_udta(plain, texts)
    model = Model(data)
    model.name("moov/udta/©nam", "moov/udta/©ART", "moov/udta/©nam[1]")
    model.insert("moov", meta())
    data = model.done()
    model = Model(data)
    for path in ("moov/meta", "moov/udta/©nam[1]", "moov/udta/©ART", "moov/udta/©nam"):
        model.remove(path)
    runs.edits("no texts", data, model.done(), "--no-tags")
    runs.edits("no tags were there", plain, plain, "--no-tags")


def packed(language):
    """Returns three letters as an mdhd has them: five bits each (ISO/IEC 14496-12, 8.4.2.3)."""
    first, second, third = (ord(it) - 0x60 for it in language)
    return be(2, first << 10 | second << 5 | third)


# The rows of `settings`: an option, the path of the box, the byte of its content at which it changes, and the new
# bytes. Fixed-point numbers of rate and width have 16 bits after the point, those of volume 8 (8.2.2, 8.3.2).
FIELDS = [
    ("moov/mvhd.rate=2", "moov/mvhd", 32, be(4, 0x20000)),
    ("moov/mvhd.rate=0.5", "moov/mvhd", 32, be(4, 0x8000)),
    ("moov/mvhd.volume=1", "moov/mvhd", 36, be(2, 0x100)),
    ("moov/mvhd.creation_time=18446744073709551615", "moov/mvhd", 4, be(8, -1)),
    ("moov/mvhd.flags=16777215", "moov/mvhd", 1, be(3, -1)),
    ("moov/trak/tkhd.layer=-3", "moov/trak/tkhd", 32, be(2, -3)),
    ("moov/trak[1]/tkhd.flags=3", "moov/trak[1]/tkhd", 1, be(3, 3)),
    ("moov/trak[1]/tkhd.matrix.a=-1", "moov/trak[1]/tkhd", 40, be(4, -0x10000)),
    ("moov/trak[1]/tkhd.matrix.w=0.5", "moov/trak[1]/tkhd", 72, be(4, 0x20000000)),
    ("moov/trak[1]/tkhd.width=1.5", "moov/trak[1]/tkhd", 76, be(4, 0x18000)),
    ("moov/trak/mdia/mdhd.language=deu", "moov/trak/mdia/mdhd", 20, packed("deu")),
    ('moov/trak/mdia/mdhd.language="fra"', "moov/trak/mdia/mdhd", 20, packed("fra")),
    ("ftyp.minor_version=7", "ftyp", 4, be(4, 7)),
    ("ftyp.major_brand=mp42", "ftyp", 0, b"mp42"),
    ('ftyp.major_brand="a=b."', "ftyp", 0, b"a=b."),
    ("ftyp.compatible_brands[0]=iso6", "ftyp", 8, b"iso6"),
    ("moov/udta/meta/ilst/©nam/data.text=New", "moov/udta/meta/ilst/©nam/data", 8, b"New"),
]


def settings(runs, random_):
    """Checks fields that are set, by the bytes that they should change."""
    for where, data in two_files(random_):
        for option, path, at, new in FIELDS:
            model = Model(data)
            model.write(path, at, new)
            runs.edits(f"{where}: {option}", data, model.done(), "--set", option)
        # Lists and texts of other lengths.
        model = Model(data)
        model.replace("ftyp", ftyp(b"isom", b"iso6", b"mp42", b"\xa9abc"))
        runs.edits(f"{where}: brands", data, model.done(), "--set",
                   'ftyp.compatible_brands=["iso6", "mp42", "\u00a9abc"]')
        model = Model(data)
        model.replace("moov/trak/mdia/hdlr", handler(b"vide", "T\xf6ne".encode()))
        runs.edits(f"{where}: a name", data, model.done(), "--set", "moov/trak/mdia/hdlr.name=T\xf6ne")
        model = Model(data)
        model.replace("moov/udta/meta/ilst/\xa9nam", item(NAM, b"A long title"))
        runs.edits(f"{where}: a title", data, model.done(), "--set",
                   "moov/udta/meta/ilst/\xa9nam/data.text=A long title")
        # A text that JSON has as a number.
        model = Model(data)
        model.replace("moov/udta/meta/ilst/\xa9nam", item(NAM, b"1984"))
        runs.edits(f"{where}: digits", data, model.done(), "--set", 'moov/udta/meta/ilst/\xa9nam/data.text="1984"')
        # Another version has times of 64 bits.
        model = Model(data)
        model.replace("moov/trak/tkhd", tkhd(1, version=1))
        runs.edits(f"{where}: version 1", data, model.done(), "--set", "moov/trak/tkhd.version=1")
        # Several fields of a box, and fields of two boxes. The last value of a field counts.
        model = Model(data)
        model.write("moov/mvhd", 32, be(4, 0x30000) + be(2, 0x80))
        runs.edits(f"{where}: two fields", data, model.done(), "--set", "moov/mvhd.rate=2", "--set",
                   "moov[0]/mvhd.volume=0.5", "--set", "moov/mvhd.rate=3", count=1)
        model.write("moov/trak[1]/tkhd", 34, be(2, 5))
        model.write("moov/trak/tkhd", 3, b"\6")
        runs.edits(f"{where}: two boxes", data, model.done(), "--set", "moov/trak[1]/tkhd.alternate_group=5", "--set",
                   "moov/mvhd.rate=3", "--set", "moov/mvhd.volume=0.5", "--disable", "1", count=3)
    # A text that isn't UTF-8 has its bytes beside it. Each of both is left out if the other one is set.
    plain = made(random_, [Track(1, [[10, 20], [30]])])
    for old, option, new in ((b"a\xff", "value=b", b"b"), (b"a", "value_hex=62ff", b"b\xff"),
                             (b"a\xff", "value_hex=62fe", b"b\xfe")):
        data = with_udta(plain, full(b"kind", 0, 0, b"urn:a\0" + old + b"\0"))
        model = Model(data)
        model.replace("moov/udta/kind", full(b"kind", 0, 0, b"urn:a\0" + new + b"\0"))
        runs.edits(option, data, model.done(), "--set", f"moov/udta/kind.{option}")
    # An entry of a list, in an edit list of two entries (8.6.6).
    rows = be(4, 500, -1) + be(2, 1, 0) + be(4, 5000, 0) + be(2, 1, 0)
    model = Model(plain)
    model.insert("moov/trak", box(b"edts", full(b"elst", 0, 0, be(4, 2) + rows)))
    data = model.done()
    model = Model(data)
    model.write("moov/trak/edts/elst", 8 + 12 + 4, be(4, 512))
    runs.edits("an edit", data, model.done(), "--set", "moov/trak/edts/elst.entries[1].media_time=512")
    model = Model(data)
    model.replace("moov/trak/edts/elst", full(b"elst", 0, 0, be(4, 1, 7, 0) + be(2, 1, 0)))
    runs.edits("one edit", data, model.done(), "--set", 'moov/trak/edts/elst.entries=[{"segment_duration": 7, '
               '"media_time": 0, "media_rate_integer": 1, "media_rate_fraction": 0}]')
    # The meaning of a number is left out if the number is set: type 22 is an unsigned integer, and 21 a signed one.
    data = with_udta(plain, meta(item(NAM, b"\5", 21)))
    for option, at, new in (("number=-5", 8, b"\xfb"), ("data_type=22", 0, be(4, 22))):
        model = Model(data)
        model.write("moov/udta/meta/ilst/\xa9nam/data", at, new)
        runs.edits(option, data, model.done(), "--set", f"moov/udta/meta/ilst/\xa9nam/data.{option}")


def unset(runs, random_):
    """Checks fields that can't be set, each by its text."""
    _, data = next(two_files(random_))
    model = Model(data)

    def at(path):
        return model.at(path)[0].at
    for option, text in (
            ("moov/abcd.x=1", "there is no moov/abcd"),
            ("moov/trak[2]/tkhd.flags=1", "there is no moov/trak[2]/tkhd"),
            ("moov/mvhd.speed=1", "moov/mvhd.speed is not a field of this box"),
            ("moov/mvhd.matrix.q=1", "moov/mvhd.matrix.q is not a field of this box"),
            ("moov/mvhd.matri.a=1", "moov/mvhd.matri.a is missing"),
            ("moov/mvhd.rate[0]=1", "moov/mvhd.rate[0] is missing"),
            ("moov/mvhd.rate.a=1", "moov/mvhd.rate.a is missing"),
            ("moov/mvhd.rate[=1", "moov/mvhd.rate[ is missing"),
            ("moov/mvhd.rate=70000", "moov/mvhd.rate does not fit the field"),
            ("moov/mvhd.rate=fast", "moov/mvhd.rate is not a number of at most 37 digits"),
            ("moov/mvhd.rate=", "moov/mvhd.rate is not a number of at most 37 digits"),
            ("moov/mvhd.timescale=4294967296", "moov/mvhd.timescale does not fit the field"),
            ("moov/mvhd.timescale=-1", "moov/mvhd.timescale is not a whole number that the field can have"),
            ("moov/mvhd.timescale=0.5", "moov/mvhd.timescale is not a whole number that the field can have"),
            ("moov/mvhd.version=2", "moov/mvhd.version is a version that the box does not have"),
            # A time of 2^40 doesn't fit the fields of version 0.
            ("moov/mvhd.version=0", "moov/mvhd.duration does not fit the field"),
            ("moov/trak/mdia/mdhd.language=English", "moov/trak/mdia/mdhd.language does not fit the field"),
            ("moov/mvhd.matrix=1", "moov/mvhd.matrix is not an object"),
            ("ftyp.compatible_brands=isom", "ftyp.compatible_brands is not an array"),
            ("ftyp.compatible_brands[0]=iso",
             "ftyp.compatible_brands[0] is not a text of four characters below U+0100"),
            ("ftyp.compatible_brands[1]=iso6", "ftyp.compatible_brands[1] is missing"),
            ("moov/udta/meta/ilst/\xa9nam/data.text=1984", "moov/udta/meta/ilst/\xa9nam/data.text is not a text"),
            ("moov/udta/meta/ilst/\xa9nam/data.data_type=21", "moov/udta/meta/ilst/\xa9nam/data.number is missing"),
            ("moov/udta/meta/ilst/\xa9nam/data.data_type_name=x",
             "moov/udta/meta/ilst/\xa9nam/data.data_type_name contradicts its field")):
        runs.refuses(data, text, "--set", option)
    for path in ("moov", "free", "moov/udta/name", "moov/udta/meta", "moov/trak/mdia/minf/dinf/dref",
                 "moov/trak/mdia/minf/dinf/dref/url ", "moov/trak/mdia/minf/stbl"):
        runs.refuses(data, f"{path} at {at(path)}: fields of this box can't be set", "--set", f"{path}.flags=1")
    stbl = "moov/trak/mdia/minf/stbl"
    for path in (f"{stbl}/stsz", f"{stbl}/stco"):
        runs.refuses(data, f"{stbl} at {at(stbl)}: no edit may change a sample table", "--set", f"{path}.flags=1")
    trak = f"trak 1 at {at('moov/trak')}: its track_ID, timescale and handler can't be kept"
    for option in ("moov/trak/tkhd.track_ID=9", "moov/trak/mdia/mdhd.timescale=9",
                   "moov/trak/mdia/hdlr.handler_type=soun"):
        runs.refuses(data, trak, "--set", option)
    runs.write("new.box", box(b"free", b"new"))
    for words in (("--replace", "moov/mvhd=new.box"), ("--remove", "moov/mvhd")):
        runs.refuses(data, f"two edits change the same box: the second one begins at {at('moov/mvhd')}", *words,
                     "--set", "moov/mvhd.rate=2")
    # Reserved bytes that are not 0 would become 0.
    model_ = Model(data)
    model_.write("moov/mvhd", 38, b"\1")
    runs.refuses(model_.done(), f"moov/mvhd at {at('moov/mvhd')}: other bytes would change, too: the box is not in its "
                 "normal form", "--set", "moov/mvhd.rate=2")
    short = with_udta(made(random_, [Track(1, [[10]])]), box(b"kind", bytes(2)))
    runs.refuses(short, f"moov/udta/kind at {short.index(b'kind') - 4}: the box can't be read: unexpected end of input",
                 "--set", "moov/udta/kind.value=x")
    runs.refuses(data + b"\0\0\0\x20sidx", f"sidx at {len(data)}: the box is not whole", "--set", "sidx.flags=1")
    fragments = fragmented()
    place = fragments.index(b"moof") - 4
    runs.refuses(fragments, f"moof at {place}: no edit may change a fragment", "--set", "moof/mfhd.sequence_number=9")


def fragmented():
    """Returns a file with two tracks with a sample in tables and fragments, each with a trex."""
    table = (full(b"stts", 0, 0, be(4, 1, 1, 10)) + full(b"stsc", 0, 0, be(4, 1, 1, 1, 1))
             + full(b"stsz", 0, 0, be(4, 0, 1, 4)))
    front = ftyp(b"iso6", b"iso6")

    def moov(first, second):
        tracks = [track(which, b"vide", b"", b"eng", [], table + full(b"stco", 0, 0, be(4, 1, at)))
                  for which, at in ((1, first), (2, second))]
        kept = movie(*tracks)
        more = box(b"mvex", full(b"trex", 0, 0, be(4, 1, 1, 10, 4, 0)) + full(b"trex", 0, 0, be(4, 2, 1, 10, 4, 0)))
        return be(4, len(kept) + len(more)) + kept[4:] + more

    def moof(which):
        def trafs(base):
            return b"".join(box(b"traf", full(b"tfhd", 0, 0x20000, be(4, it)) + full(
                b"trun", 0, 1, be(4, 1, base + 8 + 4 * it - 4))) for it in (1, 2))
        size = len(box(b"moof", full(b"mfhd", 0, 0, be(4, which)) + trafs(0)))
        return box(b"moof", full(b"mfhd", 0, 0, be(4, which)) + trafs(size)) + box(b"mdat", bytes(range(8)))
    start = len(front) + len(moov(0, 0)) + 8
    return front + moov(start, start + 4) + box(b"mdat", b"onetwo!!") + moof(1) + moof(2)


def fields_outside(runs, random_):
    """Edits files with boxes outside the moov that lead to bytes of the file. The expected numbers are those of
    ISO/IEC 14496-12: a field leads to the same byte as before."""
    new = box(b"free", b"new")
    runs.write("new.box", new)
    plain = in_front(made(random_, [Track(1, [[10, 20], [30]])]))
    media, ends, by = plain.index(b"mdat") - 4, len(plain), len(new)
    model = Model(plain)
    model.insert("moov", new)
    moved = model.done()

    def behind(what, where, then):
        runs.edits(what, plain + where, moved + then, "--insert", "moov=new.box")
    for version, sizes, base in ((0, (4, 4, 0, 0), 0), (1, (8, 8, 4, 4), 3), (1, (0, 4, 8, 0), media + 9),
                                 (2, (4, 4, 8, 0), media)):
        items = [(0, base, [(1, media + 9 - base, 4), (2, media + 20 - base, 5)])]
        items += [(1, 0, [(0, 1, 2)]), (2, base, [(1, 2, 3)])] if version else []
        behind(f"iloc of version {version} with sizes {sizes}", full(b"meta", 0, 0, iloc(version, sizes, items)),
               full(b"meta", 0, 0, iloc(version, sizes, items, by)))
    for version in (0, 1):
        behind(f"tfra of version {version}", box(b"mfra", tfra(version, (1, 2, 4), [(9, ends), (11, media)])),
               box(b"mfra", tfra(version, (1, 2, 4), [(9, ends), (11, media)], by)))
        # The index and what it leads to move alike.
        index = sidx(version, 4, [(0, 20), (1, 31)])
        behind(f"sidx of version {version}", index + bytes(3) + b"\x3bfree" + bytes(51), index + bytes(3) + b"\x3bfree"
               + bytes(51))
        # A part grows by what is inserted into it, and so does the distance to the first one.
        parts = [box(b"free", bytes(12)), box(b"skip", bytes(22)), box(b"free", bytes(32))]
        where = sidx(version, 0, [(0, 20), (1, 30), (0, 40)])
        count = len(Model(plain).items)
        for which, first, sizes in ((1, by, (20, 30, 40)), (2, 0, (20 + by, 30, 40)), (3, 0, (20, 30 + by, 40))):
            then = sidx(version, first, list(zip((0, 1, 0), sizes)))
            before, rest = b"".join(parts[:which - 1]), b"".join(parts[which - 1:])
            runs.edits(f"sidx of version {version}, before part {which}", plain + where + before + rest,
                       plain + then + before + new + rest, "--insert", f"/:{count + which}=new.box")
    # Fragments, whose auxiliary information is behind the moof. Their base is a position, the moof, or implied.
    defaults = box(b"mvex", full(b"trex", 0, 0, be(4, 1, 1, 10, 4, 0)))
    model = Model(plain)
    model.insert("moov", defaults)
    data = model.done()
    model = Model(data)
    model.insert("moov", new)
    for flags in (0, 1, 0x20000):
        def moof(begin, flags=flags):
            base = be(8, begin) if flags & 1 else b""
            parts = [full(b"tfhd", 0, flags, be(4, 1) + base), full(b"trun", 0, 1, be(4, 1, 200)),
                     full(b"saio", 1, 1, b"cenc" + be(4, 0, 1) + be(8, 190))]
            head = box(b"moof", full(b"mfhd", 0, 0, be(4, 1)) + box(b"traf", b"".join(parts)))
            return head + box(b"mdat", bytes(192 - len(head)) + b"data" + bytes(9))
        runs.edits(f"saio with the flags {flags} of a tfhd", data + moof(len(data)),
                   model.done() + moof(len(data) + by), "--insert", "moov=new.box")
    # A picture without a moov.
    front, picture = ftyp(b"avif", b"avif"), box(b"mdat", b"picture")

    def photo(moved_):
        kind = handler(b"pict", b"")
        begin = len(front) + len(full(b"meta", 0, 0, kind + iloc(0, (4, 4, 0, 0), [(0, 0, [(0, 0, 0)])]))) + 8
        return full(b"meta", 0, 0, kind + iloc(0, (4, 4, 0, 0), [(0, 0, [(0, begin, 7)])], moved_)) + picture
    runs.write("in.mp4", front + photo(0))
    runs.run(0, "out.mp4: 1 edit is made\n", "", "in.mp4", "out.mp4", "--insert", "/:1=new.box")
    if runs.read("out.mp4") != front + new + photo(by):
        fail("a picture: the items are elsewhere")
    # An item of which the first byte is removed.
    where = full(b"meta", 0, 0, iloc(0, (4, 4, 0, 0), [(0, 0, [(0, ends, 7)])])) + box(b"free", b"x")
    where = full(b"meta", 0, 0, iloc(0, (4, 4, 0, 0), [(0, 0, [(0, ends + len(where) - 1, 7)])])) + box(b"free", b"x")
    runs.refuses(plain + where, f"meta/iloc at {ends + 12}: {STAYS}", "--remove", "free")


def dropped(runs, random_):
    """Drops tracks with tables and with fragments. The rest of the file stays, and the other tracks keep their
    samples."""
    for where, data in two_files(random_):
        for which in (0, 1):
            model = Model(data)
            model.remove(f"moov/trak[{which}]")
            runs.edits(f"{where}: without track {which + 1}", data, model.done(), "--drop-track", str(which + 1),
                       dropped=(which,))
        model = Model(data)
        model.name("moov/trak", "moov/trak[1]")
        model.remove("moov/trak")
        model.remove("moov/trak[1]")
        runs.edits(f"{where}: without tracks", data, model.done(), "--drop-track", "1", "--drop-track", "2",
                   dropped=(0, 1))
    data = fragmented()
    for which in (0, 1):
        model = Model(data)
        model.name("moof", "moof[1]")
        model.remove(f"moov/trak[{which}]")
        model.remove(f"moov/mvex/trex[{which}]")
        for path in ("moof", "moof[1]"):
            model.at(path)[0].boxes[1 + which].code = b"free"
        runs.edits(f"without track {which + 1} and its fragments", data, model.done(), "--drop-track", str(which + 1),
                   dropped=(which,))


def refused(runs, random_):
    """Checks edits that are refused, each by its text."""
    one, two = Track(1, [[10, 20], [30]]), Track(2, [[5], [6, 7]])
    runs.write("new.box", box(b"free", b"new"))
    plain = made(random_, [one, two], [1, 2, 2, 1], behind=box(b"free", b"spare"))
    model = Model(plain)

    def at(path):
        return model.at(path)[0].at
    stbl, trak = "moov/trak/mdia/minf/stbl", "moov/trak[1]/mdia/minf/stbl"
    table = "no edit may change a sample table"
    runs.refuses(plain, "there is no moov/udta", "--remove", "moov/udta")
    runs.refuses(plain, "there is no moov/trak[2]", "--replace", "moov/trak[2]=new.box")
    runs.refuses(plain, "there is no moov/\\x1babc", "--remove", "moov/\x1babc")
    for words in (("--remove", f"{stbl}/stts"), ("--remove", f"{stbl}/stco"), ("--replace", f"{stbl}/stsd=new.box"),
                  ("--insert", f"{stbl}=new.box"), ("--insert", f"{stbl}:0=new.box"), ("--remove", stbl),
                  ("--remove", "moov/trak/mdia/minf"), ("--remove", "moov/trak/mdia"), ("--remove", "moov"),
                  ("--remove", "moov/trak")):
        runs.refuses(plain, f"{stbl} at {at(stbl)}: {table}", *words)
    runs.refuses(plain, f"{trak} at {at(trak)}: {table}", "--remove", f"{trak}/stsz")
    runs.refuses(plain, f"moov/mvhd at {at('moov/mvhd')}: the box holds no boxes, so none can be inserted", "--insert",
                 "moov/mvhd=new.box")
    runs.refuses(plain, "moov has 3 boxes, so none can be inserted before box 3 of it", "--insert", "moov:3=new.box")
    runs.refuses(plain, "/ has 4 boxes, so none can be inserted before box 9 of it", "--insert", "/:9=new.box")
    counted = "boxes are counted there, so none can be inserted or removed"
    runs.refuses(plain, f"moov/trak/mdia/minf/dinf/dref: {counted}", "--insert",
                 "moov/trak/mdia/minf/dinf/dref=new.box")
    path = "moov/trak/mdia/minf/dinf/dref/url "
    runs.refuses(plain, f"{path}: {counted}", "--remove", path)
    twice = "two edits change the same box: the second one begins at"
    for words, begin in ((("--remove", "free", "--replace", "free=new.box"), at("free")),
                         (("--remove", "moov/trak/tkhd", "--rotate", "1=90"), at("moov/trak/tkhd")),
                         (("--remove", "free", "--remove", "free"), at("free"))):
        runs.refuses(plain, f"{twice} {begin}", *words)
    # An insertion into a box that is removed, at its end, where the next box begins.
    data = with_udta(plain, box(b"name", b"abc"))
    end = Model(data).at("moov/udta")[0].end
    runs.refuses(data, f"{twice} {end}", "--remove", "moov/udta", "--insert", "moov/udta=new.box")
    # Boxes that the media need.
    traks = [at("moov/trak"), at("moov/trak[1]")]
    for path in ("moov/trak[1]/tkhd", "moov/trak[1]/mdia/mdhd", "moov/trak[1]/mdia/hdlr"):
        runs.refuses(plain, f"trak 2 at {traks[1]}: its track_ID, timescale and handler can't be kept", "--remove",
                     path)
    runs.refuses(plain, f"stco at {at(stbl + '/stco')}: {LOST}", "--remove", "mdat")
    runs.write("track.box", track(3, b"vide", b"", b"eng", [], b""))
    runs.refuses(plain, "the new file would have 3 tracks, and not 2", "--insert", "moov=track.box")
    runs.refuses(plain, "no track has the track_ID 3", "--drop-track", "3")
    same = made(random_, [one, Track(2, [[5]], header=tkhd(1))])
    runs.refuses(same, "more than one track has the track_ID 1", "--enable", "1")
    no_size = made(random_, [one], no_size=True)
    last = Model(no_size).at("moov")[0].at
    runs.refuses(no_size, f"the box at {last} goes up to the end of the file, so nothing can be inserted after it",
                 "--insert", "/=new.box")
    runs.refuses(plain + b"\0\0\0\x09free", f"there is no whole box at {len(plain)}", "--enable", "1")
    runs.refuses(plain + movie(), f"there is another moov at {len(plain)}", "--enable", "1")
    runs.refuses(plain.replace(full(b"url ", 0, 1), full(b"url ", 0, 0)),
                 f"url  at {plain.index(b'url ') - 4}: the media data are in another file", "--enable", "1")
    # Fields that can't be shifted, and fragments before what is moved. If nothing moves, they are no obstacle.
    for name, path, content in (
            (b"iloc", "meta/iloc", full(b"meta", 0, 0, cut(iloc(1, (4, 4, 0, 0), [(0, 0, [(0, 9, 9)])]), 5))),
            (b"tfra", "mfra/tfra", box(b"mfra", cut(tfra(1, (1, 1, 1), [(1, 2)]), 9))),
            (b"sidx", "sidx", cut(sidx(1, 0, [(0, 9)]), 10)), (b"moof", "moof", box(b"moof"))):
        data = made(random_, [one], front=ftyp(b"isom") + content, behind=box(b"free"))
        place = data.index(name) - 4
        runs.refuses(data, f"{path} at {place}: {STAYS}", "--insert", "moov=new.box")
        model_ = Model(data)
        model_.write("moov/trak/tkhd", 3, b"\6")
        runs.edits(f"{name} where nothing moves", data, model_.done(), "--disable", "1")
    data = fragmented()
    model_ = Model(data)
    model_.insert("/", box(b"free", b"new"))
    runs.edits("a box at the end moves nothing", data, model_.done(), "--insert", "/=new.box")
    place = data.index(b"moof") - 4
    fragment = "no edit may change a fragment"
    for words in (("--remove", "moof"), ("--remove", "moof/mfhd"), ("--insert", "moof/traf=new.box")):
        runs.refuses(data, f"moof at {place}: {fragment}", *words)
    runs.refuses(with_udta(plain, full(b"meta", 0, 0, handler(b"mdta", b""))),
                 f"moov/udta/meta at {Model(with_udta(plain, b'')).at('moov/udta')[0].at + 8}: "
                 "the metadata are not tags of iTunes", "--title", "x")
    # Boxes in another box of the top level than the moov.
    data = plain + full(b"meta", 0, 0, handler(b"mp7t", b"") + box(b"xml ", b"<a/>"))
    for words in (("--remove", "meta/xml "), ("--replace", "meta/hdlr=new.box"), ("--insert", "meta=new.box")):
        runs.refuses(data, f"meta at {len(plain)}: boxes in it can't be edited; only those of the file and those in "
                     "the moov can", *words)
    # A saio with 32 bits can't become one with 64, and an offset into a box that is replaced leads nowhere.
    data = made(random_, [one], inside=full(b"saio", 0, 0, be(4, 1, 0)) + box(b"uuid", bytes(16)))
    at_saio = data.index(b"saio") - 4
    data = data[:at_saio + 16] + be(4, data.index(b"uuid") + 8) + data[at_saio + 20:]
    for words in (("--remove", "moov/uuid"), ("--replace", "moov/uuid=new.box")):
        runs.refuses(data, f"saio at {at_saio}: {LOST}", *words)


def largest_offset(runs):
    """Checks that an offset of a stco may become 2^32 - 1. If one would become larger, the stco becomes a co64, and all
    that is after it is 4 bytes later. Other tables stay as they are. Reads only the beginning of each written file."""
    front, new = ftyp(b"isom"), box(b"free", b"new")
    media = 2**32

    def moov(offset, start):
        return movie(Track(1, [[1]]).box([offset]), Track(2, [[1], [1]]).box([start + 16, start + 17]))
    start = len(front) + len(moov(0, 0))
    runs.write("new.box", new)
    largest = 2**32 - 1 - len(new)
    for offset, grows in ((largest, 0), (largest + 1, 4)):
        runs.write("in.mp4", front + moov(offset, start) + be(4, 1) + b"mdat" + be(8, media))
        with open(runs.path("in.mp4"), "r+b") as file:
            file.truncate(start + media)
        end = start + len(new) + grows
        with subprocess.Popen([runs.program, "edit", "in.mp4", "-", "--insert", "moov:0=new.box"], cwd=runs.folder,
                              stdout=subprocess.PIPE, stderr=subprocess.DEVNULL) as process:
            written_ = process.stdout.read(end + 16)
        runs.count += 1
        moov_ = next(it for it in boxes(written_[:end], 0, end, True) if it[0] == b"moov")
        wanted = [(b"co64" if grows else b"stco", [offset + len(new) + grows]),
                  (b"stco", [end + 16, end + 17])]
        if offsets_in(written_, moov_) != wanted or written_[end:] != be(4, 1) + b"mdat" + be(8, media):
            fail(f"an offset of {offset}: {offsets_in(written_, moov_)} and not {wanted}")
        if written_[len(front) + 8:len(front) + 8 + len(new)] != new:
            fail("the inserted box is not the first one of the moov")
    os.remove(runs.path("in.mp4"))


def by_hand(runs):
    """Edits a file whose bytes are written out here, before and after."""
    media = b"\0\0\0\x0bmdat" + b"abc"
    before = b"\0\0\0\x10ftypisom\0\0\0\0" + media + b"\0\0\0\x14moov" + b"\0\0\0\x0cfree" + b"wxyz"
    runs.write("udta.box", b"\0\0\0\x09udta" + b"?")
    for words, after in (
            (("--remove", "moov/free"), before[:27] + b"\0\0\0\x08moov"),
            (("--remove", "ftyp"), before[16:]),
            (("--replace", "moov/free=udta.box"), before[:27] + b"\0\0\0\x11moov" + b"\0\0\0\x09udta?"),
            (("--insert", "moov:0=udta.box"),
             before[:27] + b"\0\0\0\x1dmoov" + b"\0\0\0\x09udta?" + before[35:]),
            (("--insert", "/:1=udta.box"), before[:16] + b"\0\0\0\x09udta?" + before[16:]),
            (("--brand", "mp41"), b"\0\0\0\x14ftypmp41\0\0\0\0mp41" + before[16:])):
        runs.edits(f"by hand: {words}", before, after, *words)


def misused(runs, random_):
    """Checks wrong values of options, and FILEs that can't be read or have no boxes."""
    data = made(random_, [Track(1, [[10]])], behind=box(b"free", b"spare"))
    new = box(b"free", b"new")
    runs.write("new.box", new)
    path = "expected a path such as moov/udta or moov/trak[1]/edts"
    place = "expected PATH=FILE or PATH:N=FILE, such as moov/udta=name.box or /:1=free.box"
    setting = "expected PATH.FIELD=VALUE, such as moov/mvhd.rate=2 or moov/trak[1]/tkhd.matrix.a=-1"
    for words, text in ((("--remove", "mov"), path), (("--remove", "moov/trak[x]"), path), (("--remove", ""), path),
                        (("--insert", "moov"), place), (("--insert", "moo=new.box"), place),
                        (("--replace", "moov"), "expected PATH=FILE, such as moov/udta=udta.box"),
                        (("--set", "moov/mvhd.rate"), setting), (("--set", "moov/mvhd=2"), setting),
                        (("--set", "moov/mvhd.=2"), setting), (("--set", "mov.rate=2"), setting),
                        (("--brand", "iso"), "expected codes of four characters, separated by commas, such as "
                         "isom,iso6"),
                        (("--language", "1=English"), "expected TRACK=LANGUAGE with three lower-case letters, such as "
                         "1=eng"),
                        (("--rotate", "1=45"), "expected TRACK=DEGREES with 0, 90, 180 or 270, such as 1=90"),
                        (("--enable", "one"), "expected a track_ID, such as 1"),
                        (("--tag", "©nam"), "expected KEY=VALUE with a key of four characters, such as ©alb=Blue")):
        runs.refuses(data, text, *words, status=2, name=" ".join(words))
    runs.refuses(data, "no option asks for an edit; mp4remux edit --help lists them", status=2, name="-")
    none = "No such file or directory (os error 2)"
    for option in ("--insert", "--replace"):
        runs.refuses(data, none, option, "free=none.box", status=3, name="none.box")
    runs.refuses(data, none, "--cover", "none.png", status=3, name="none.png")
    os.mkfifo(runs.path("fifo"))
    runs.refuses(data, "this is a FIFO; FILE must be a regular file", "--replace", "free=fifo", status=3, name="fifo")
    os.remove(runs.path("fifo"))
    for content, text in ((b"", "there is no box"), (b"\0\0\0\0free", "these are not whole boxes, each with a size"),
                          (new[:-1], "these are not whole boxes, each with a size")):
        runs.write("bad.box", content)
        runs.refuses(data, text, "--insert", "moov=bad.box", name="bad.box")
    runs.write("two.box", new + new)
    runs.refuses(data, "this is not one box", "--replace", "free=two.box", name="two.box")
    runs.refuses(data, "this is neither JPEG nor PNG", "--cover", "new.box", name="new.box")


def pipes(runs, random_):
    """Writes to the standard output: what is written to a file, and nothing else."""
    data = made(random_, [Track(1, [[10, 20], [30]])])
    runs.write("in.mp4", data)
    model = Model(data)
    model.write("moov/trak/tkhd", 3, b"\6")
    for words, wanted in ((("--disable", "1"), (0, model.done(), b"")),
                          (("--enable", "2"), (1, b"", b"mp4remux: in.mp4: no track has the track_ID 2\n"))):
        done = subprocess.run([runs.program, "edit", "in.mp4", "-", *words], cwd=runs.folder, capture_output=True,
                              timeout=120, check=False)
        if (done.returncode, done.stdout, done.stderr) != wanted:
            fail(f"{words} to a pipe: {done.returncode}, {done.stderr}")
    if os.listdir(runs.folder) != ["in.mp4"]:
        fail(f"files are left: {os.listdir(runs.folder)}")


def edited(runs, random_, files):
    """Checks random edits of random files."""
    free = box(b"free", b"spare")
    for index in range(files):
        items = [tables(random_, which, random_.randrange(1, 6), random_.random() < 0.5)
                 for which in range(1, random_.randrange(2, 5))]
        # Each sample has bytes, so that each offset leads into the file.
        for it in items:
            it.chunks = [[size + 1 for size in chunk] for chunk in it.chunks]
        order = [it.number for it in items for _ in it.chunks]
        random_.shuffle(order)
        data = made(random_, items, order, between=free, behind=free, long_header=random_.random() < 0.3)
        data = with_udta(data, box(b"name", b"abc") + meta(item(NAM, b"Old")))
        if random_.random() < 0.5:
            data = in_front(data)
        model, words, touched = Model(data), [], set()
        choices = ["free", "free[1]", "moov/udta/name", "moov/udta/meta", "moov/udta/meta/ilst/©nam"]
        levels = ["/", "moov", "moov/trak", "moov/udta", f"moov/trak[{len(items) - 1}]/mdia"]
        model.name(*choices, *levels)
        steps = []
        for step in range(random_.randrange(1, 5)):
            new = box(random_.choice((b"free", b"uuid", b"abcd")), bytes(random_.randrange(40)))
            runs.write(f"{step}.box", new)
            if random_.random() < 0.5:
                path = random_.choice([it for it in choices if it not in touched] or ["free"])
                if path in touched or any(path.startswith(it) or it.startswith(path) for it in touched):
                    continue
                touched.add(path)
                if random_.random() < 0.5:
                    words += ["--remove", path]
                    steps.append((0, lambda path=path: model.remove(path)))
                else:
                    words += ["--replace", f"{path}={step}.box"]
                    steps.append((0, lambda path=path, new=new: model.replace(path, new)))
            else:
                path = random_.choice(levels)
                words += ["--insert", f"{path}={step}.box"]
                steps.append((1, lambda path=path, new=new: model.insert(path, new)))
        if not words:
            continue
        for _, do in steps:
            do()
        runs.edits(f"file {index}: {words}", data, model.done(), *words)


class Edit(unittest.TestCase):
    def setUp(self):
        folder, place = (tempfile.mkdtemp(prefix="edit-") for _ in range(2))
        for it in (folder, place):
            self.addCleanup(shutil.rmtree, it)
        self.random = random.Random(number("SEED", 1))
        self.runs = Edits(shutil.copy(built("mp4_remux_program"), place), folder)

    def test_boxes(self):
        boxes_edited(self.runs, self.random)
        self.assertGreater(self.runs.samples, 0)

    def test_by_hand(self):
        by_hand(self.runs)

    def test_largest_offset(self):
        largest_offset(self.runs)

    def test_shortcuts(self):
        shortcuts(self.runs, self.random)

    def test_settings(self):
        settings(self.runs, self.random)

    def test_unset(self):
        unset(self.runs, self.random)

    def test_tags(self):
        tags(self.runs, self.random)

    def test_fields_outside_the_movie(self):
        fields_outside(self.runs, self.random)

    def test_dropped_tracks(self):
        dropped(self.runs, self.random)

    def test_refusals(self):
        refused(self.runs, self.random)

    def test_misuse(self):
        misused(self.runs, self.random)

    def test_pipes(self):
        pipes(self.runs, self.random)

    def test_random_edits(self):
        edited(self.runs, self.random, number("COUNT", 200))
        self.assertGreater(self.runs.samples, 0)


class RealFiles(NamesSkipped, unittest.TestCase):
    """Files that ffmpeg and libheif make. A box is inserted near the front, and removed again."""

    def setUp(self):
        self.needs("ffmpeg")
        self.folder = tempfile.mkdtemp(prefix="real-edits-")
        self.addCleanup(shutil.rmtree, self.folder)
        self.runs = Edits(built("mp4_remux_program"), self.folder)
        self.runs.write("new.box", box(b"free", b"new"))

    def there_and_back(self, path):
        """Inserts a box behind the first box of the file `path`, and removes it. Returns the path of the file with the
        box."""
        with open(path, "rb") as file:
            data = file.read()
        self.runs.write("in.mp4", data)
        self.runs.run(0, "out.mp4: 1 edit is made\n", "", "in.mp4", "out.mp4", "--insert", "/:1=new.box")
        self.runs.run(0, "back.mp4: 1 edit is made\n", "", "out.mp4", "back.mp4", "--remove", "free")
        self.assertEqual(self.runs.read("back.mp4"), data)
        return os.path.join(self.folder, "out.mp4")

    def test_pictures(self):
        """Each picture looks the same."""
        self.needs("heif-enc", "libheif-examples")
        for name, reason in making.make_all(self.folder, PICTURES).items():
            with self.subTest(name):
                self.assertIsNone(reason)
                path = os.path.join(self.folder, name)
                shown = []
                for each in (path, self.there_and_back(path)):
                    words = ["heif-convert", each, "shown.png"]
                    subprocess.run(words, cwd=self.folder, capture_output=True, check=True)
                    shown.append(self.runs.read("shown.png"))
                self.assertEqual(*shown)

    def test_fragments(self):
        """ffmpeg reads the same packets."""
        for name, reason in making.make_all(self.folder, FRAGMENTED).items():
            self.assertIsNone(reason)
            for path in making.paths(self.folder, name):
                with self.subTest(os.path.basename(path)):
                    self.assertEqual(hashes(self.there_and_back(path), "-c", "copy"), hashes(path, "-c", "copy"))

if __name__ == "__main__":
    unittest.main()
