"""Runs the built program `mp4remux fragment` and `mp4remux defragment` as a user does. It reads the written files with
readers/samples.py, which shares nothing with the codec.

- Every sample has the same bytes, times and description after `fragment`, and after `defragment` of that. Sample groups
  and dependencies, which no proof is about, are also the same after both.
- A fragmented file has the form that docs/REMUX.md promises: where it is cut, which boxes it has, and what the indexes
  say. So has a folder of segments. A joined file has one moov before one mdat.
- Each command reads the stored files, the files that are made by hand, and those that ffmpeg makes, where it is
  installed. What it refuses is compared with a list by file. ffmpeg copies the same packets before and after both
  commands, and decodes the same frames of a fragmented file.
- Each refusal is expected with its text. Then nothing is written.
- Hostile files are refused in little time and memory.

Settings: COUNT (100 files of random tracks), SEED, KEEP (a folder for the files of ffmpeg, which are kept)."""

import os
import random
import re
import resource
import shutil
import signal
import subprocess
import tempfile
import time
import unittest

from tests.built import built, number
from tests.files.inspected import files
from tests.files.made import be, box, ftyp, full, handler, mdhd, movie, nested, stsd, tkhd, visual
from tests.readers.samples import Bad, File, boxes, first, inner
from tests.real_files import making

MEMORY = 64 << 20
# The most seconds for a hostile file, and for a file of many samples.
SECONDS = 10
NONE, PLAIN = "no track has samples", "the file is not fragmented"
# The refusals of the stored files and the files that are made by hand, by command: the end of the message of each.
REFUSED = {
    "fragment": {
        "broken": "there is another moov at 42", "counted": NONE, "decoders": "there is no moov",
        "descriptors": "there is no moov", "fragmented": "mvex at 152: the file is fragmented already",
        "fragments": "there is another moov at 412",
        "groups": "subs at 1147: what it says of samples can't be kept", "hevc": "there is no moov", "indexed": NONE,
        "newer": "trak 1 at 207: there is no stsz", "pictures": "trak 1 at 148: there is no stco",
        "plain": "trak 1 at 140: sample 1 at 1024, of 1 bytes, is not in the file", "quicktime": NONE,
        "segments": "mvex at 916: the file is fragmented already", "signs": "trak 1 at 268: there is no mdia",
        "sounds": NONE, "subtitles": NONE, "tables": "trak 3 at 1538: stts has a duration for 2 of 3 samples",
        "texts": "trak 1 at 28: there is no mdhd", "titles": "trak 2 at 466: there is no stsz",
    },
    "defragment": {
        "broken": "there is another moov at 42", "counted": PLAIN, "decoders": "there is no moov",
        "descriptors": "there is no moov", "fragmented": "trak 1 at 208: there is no mdhd",
        "fragments": "there is another moov at 412", "groups": PLAIN, "hevc": "there is no moov", "indexed": PLAIN,
        "newer": PLAIN, "pictures": PLAIN, "plain": PLAIN, "quicktime": PLAIN, "segments": "there is no trex",
        "signs": PLAIN, "sounds": PLAIN, "subtitles": PLAIN, "tables": PLAIN, "texts": PLAIN, "titles": PLAIN,
    },
}
UNKEPT = "what it says of samples can't be kept"
# The refusals of the files of ffmpeg: the command, the names of the files, and a part of the message.
REAL_REFUSED = (
    ("fragment", r"cenc_(h264|aac|hevc|vp9)\.(mp4|mov)", UNKEPT),
    ("defragment", r"cenc_(frag|dash)\.mp4", UNKEPT),
    # A track of bytes that stand for more samples, as QuickTime has them.
    ("fragment", r"adpcm_ms\.mov", "samples, and has only"),
    ("fragment", r"sequence\.avif", "its offsets can't be shifted"),
    ("fragment", r".*\.(avif|heic)", "there is no moov"),
    # An initialization segment has no samples, and the other segments have no moov.
    ("fragment", r".*/init.*", NONE),
    ("defragment", r".*/(chunk|hls\d|.*Fragments).*", "there is no moov"),
)
# The files whose frames ffmpeg decodes otherwise from fragments: it doesn't apply their edit lists there.
OTHER_FRAMES = ("edit_list_cut.mp4",)


def fail(text):
    raise AssertionError(text)


class Track:
    """A track that is made by hand: a list of samples for each chunk. A sample is its size, its duration, its rendering
    offset and whether it is a sync sample. `descriptions` has the index of the sample description of each chunk."""

    def __init__(self, track, chunks, kind=b"vide", scale=1000, descriptions=None, extra=b"", edits=b"", wide=False,
                 has_sync=None):
        self.number, self.chunks, self.kind, self.scale = track, chunks, kind, scale
        self.descriptions = descriptions or [1] * len(chunks)
        self.extra, self.edits, self.wide = extra, edits, wide
        self.samples = [sample for chunk in chunks for sample in chunk]
        self.has_sync = not all(sample[3] for sample in self.samples) if has_sync is None else has_sync

    def box(self, offsets):
        samples = self.samples
        table = full(b"stts", 0, 0, be(4, len(samples)) + b"".join(be(4, 1, it[1]) for it in samples))
        if any(it[2] for it in samples):
            version = int(any(it[2] < 0 for it in samples))
            table += full(b"ctts", version, 0, be(4, len(samples)) + b"".join(be(4, 1, it[2]) for it in samples))
        if self.has_sync:
            numbers = [index for index, it in enumerate(samples, 1) if it[3]]
            table += full(b"stss", 0, 0, be(4, len(numbers), *numbers))
        runs = [be(4, index, len(chunk), those) for index, (chunk, those) in
                enumerate(zip(self.chunks, self.descriptions), 1)]
        table += full(b"stsc", 0, 0, be(4, len(runs)) + b"".join(runs))
        table += full(b"stsz", 0, 0, be(4, 0, len(samples), *(it[0] for it in samples)))
        table += full(b"co64" if self.wide else b"stco", 0, 0, be(4, len(offsets))
                      + be(8 if self.wide else 4, *offsets))
        entries = [visual(b"avc1", 64, 64, b"", b"") for _ in range(max(self.descriptions, default=1))]
        dinf = box(b"dinf", full(b"dref", 0, 0, be(4, 1) + full(b"url ", 0, 1)))
        minf = box(b"minf", full(b"vmhd", 0, 1, bytes(8)) + dinf
                   + box(b"stbl", stsd(*entries) + table + self.extra))
        media = box(b"mdia", mdhd(self.scale, b"und") + handler(self.kind, b"") + minf)
        return box(b"trak", tkhd(self.number) + self.edits + media)


def bytes_for(random_, size):
    return bytes(random_.randrange(256) for _ in range(size))


def made(random_, tracks, order=None, front=None, behind=b"", between=b""):
    """Returns a file: `front`, an mdat with the chunks of the tracks in the order `order`, `between`, the moov and
    `behind`."""
    order = order or [item.number for item in tracks for _ in item.chunks]
    front = ftyp(b"isom", b"isom", b"avc1") if front is None else front
    media, places, left = b"", {item.number: [] for item in tracks}, {item.number: list(item.chunks) for item in tracks}
    for number_ in order:
        media += bytes_for(random_, random_.randrange(3))
        places[number_].append(len(front) + 8 + len(media))
        media += bytes_for(random_, sum(it[0] for it in left[number_].pop(0)))
    return front + box(b"mdat", media) + between + movie(*[item.box(places[item.number]) for item in tracks]) + behind


def video(groups, size=10, duration=100, per_chunk=3, shifts=None):
    """Returns the chunks of a video with `groups`, the numbers of frames of its groups of pictures."""
    samples = []
    for count in groups:
        for index in range(count):
            shift = shifts[index % len(shifts)] if shifts else 0
            samples.append((size + index, duration, shift, index == 0))
    return [samples[at:at + per_chunk] for at in range(0, len(samples), per_chunk)]


def sound(count, size=7, duration=40, per_chunk=5):
    return [[(size, duration, 0, True)] * min(per_chunk, count - at) for at in range(0, count, per_chunk)]


def samples_of(data):
    """Returns the track_ID, the handler and the timescale of each track, and its samples: the bytes of each, and all
    its columns except its offset."""
    file, found = File(data), []
    if file.faults:
        fail(f"faults: {file.faults}")
    for trak in file.tracks:
        headers = file.headers(trak)
        if any(isinstance(it, Bad) for it in headers):
            fail(f"a header can't be read: {headers}")
        samples = []
        for row in file.of_track(headers[0], file.tables(trak)):
            if row[0] + row[1] > len(data):
                fail(f"track {headers[0]}: a sample is not in the file")
            samples.append((data[row[0]:row[0] + row[1]], *row[1:]))
        found.append((headers, samples))
    return found


def top(data, code):
    return next(it for it in boxes(data, 0, len(data), True) if it[0] == code)


def table_boxes(data):
    """Yields the boxes of the stbl of each track: the code, and the content."""
    for trak in (it for it in inner(data, top(data, b"moov")) if it[0] == b"trak"):
        for code in (b"mdia", b"minf", b"stbl"):
            trak = first(inner(data, trak), code)
        yield [(it[0], it[2]) for it in inner(data, trak)]


def spelled_groups(content, count):
    """Returns the kind of the groups in `content`, that of an sbgp, and the group of each of `count` samples."""
    at = 12 if content[0] else 8
    groups, runs = [], int.from_bytes(content[at:at + 4], "big")
    for index in range(runs):
        row = content[at + 4 + 8 * index:at + 12 + 8 * index]
        groups += [int.from_bytes(row[4:], "big")] * int.from_bytes(row[:4], "big")
    return content[4:at], (groups + [0] * count)[:count]


def extras_of(data):
    """Returns the groups and the dependencies of the samples of each track, in tables."""
    found = []
    for (_, samples), tables in zip(samples_of(data), table_boxes(data)):
        groups = sorted(spelled_groups(content, len(samples)) for code, content in tables if code == b"sbgp")
        found.append((groups, [content[4:] for code, content in tables if code == b"sdtp"]))
    return found


def others_of(data, left_out):
    """Returns the boxes of the top level except those with the codes `left_out`."""
    return [data[it[1]:it[4]] + it[2] for it in boxes(data, 0, len(data), True) if it[0] not in left_out]


MADE = (b"ftyp", b"moov", b"mdat", b"moof", b"sidx", b"ssix", b"mfra", b"styp", b"free", b"skip", b"wide", b"prft")


def grown(data, codes, extra):
    """Returns the file `data` with `extra` after the last box in the first box at the path `codes`."""
    begin, end, places = 0, len(data), []
    for code in codes:
        found = first(boxes(data, begin, end, True), code)
        places.append(found[1])
        begin, end = found[4], found[4] + len(found[2])
    out = bytearray(data[:end] + extra + data[end:])
    for at in places:
        out[at:at + 4] = be(4, int.from_bytes(out[at:at + 4], "big") + len(extra))
    return bytes(out), end


class Fragments:
    """The fragments of a file: for each, the position and the end of its moof and mdat, and its trafs. A traf is its
    track_ID, its time, and the flags of its samples."""

    def __init__(self, data):
        self.data, self.all = data, []
        self.tops = boxes(data, 0, len(data), True)
        file = File(data)
        for number_, it in enumerate(self.tops):
            if it[0] != b"moof":
                continue
            after = self.tops[number_ + 1]
            if after[0] != b"mdat":
                fail(f"{after[0]} after a moof, and not an mdat")
            trafs = []
            for traf in inner(data, it):
                if traf[0] == b"mfhd":
                    if int.from_bytes(traf[2][4:], "big") != len(self.all) + 1:
                        fail("the sequence numbers don't count")
                    continue
                parts = inner(data, traf)
                codes = [part[0] for part in parts]
                if codes[:3] != [b"tfhd", b"tfdt", b"trun"] or set(codes[3:]) > {b"sbgp"}:
                    fail(f"a traf has {codes}")
                header = first(parts, b"tfhd")[2]
                if not header[1] & 2 or header[3] & 1:
                    fail("offsets of a traf don't count from its moof")
                track = int.from_bytes(header[4:8], "big")
                trafs.append((track, int.from_bytes(first(parts, b"tfdt")[2][4:], "big")))
            self.all.append((it[1], after[4] + len(after[2]), trafs))
        self.rows = {number_: [] for number_ in file.fragments}
        for number_, those in file.fragments.items():
            time_ = 0
            for moof, traf, header, base in those:
                samples, _, time_, fault = file.samples(number_, traf, header, base, time_)
                if fault:
                    fail(fault)
                self.rows[number_].append((moof[1], samples))

    def begins(self, track):
        """Returns the first sample of the track in each fragment that has one, by the position of the moof."""
        found = {}
        for at, samples in self.rows.get(track, []):
            found.setdefault(at, samples[0])
        return found


def check_form(name, before, after, lead, segments=False):
    """Checks that `after` is a fragmented form of `before`, whose fragments begin with sync samples of `lead`, and that
    its fragments are aligned over all tracks."""
    tops = [it[0] for it in boxes(after, 0, len(after), True)]
    if tops[0] != b"ftyp" or b"iso6" not in top(after, b"ftyp")[2]:
        fail(f"{name}: {tops}")
    if b"mvex" not in [it[0] for it in inner(after, top(after, b"moov"))]:
        fail(f"{name}: there is no mvex")
    for tables in table_boxes(after):
        codes = [it[0] for it in tables]
        if any(code in codes for code in (b"ctts", b"stss", b"sdtp", b"sbgp", b"co64", b"stz2")):
            fail(f"{name}: the tables are {codes}")
        if any(content[4:].strip(b"\0") for code, content in tables if code in (b"stts", b"stsc", b"stsz", b"stco")):
            fail(f"{name}: tables are not empty")
    if others_of(before, MADE) != others_of(after, MADE):
        fail(f"{name}: other boxes are changed")
    found = Fragments(after)
    starts = found.begins(lead)
    for at, _, _ in found.all[1:]:
        if at not in starts or not starts[at][5]:
            fail(f"{name}: the fragment at {at} doesn't begin with a sync sample of track {lead}")
    scales = {headers[0]: headers[2] for headers, _ in samples_of(after)}
    cuts = [(starts[at][2], scales[lead]) for at, _, _ in found.all[1:]]
    places = [at for at, _, _ in found.all]
    for track, those in found.rows.items():
        for at, samples in those:
            index = places.index(at)
            for sample in samples:
                if index and sample[2] * cuts[index - 1][1] < cuts[index - 1][0] * scales[track]:
                    fail(f"{name}: a sample of track {track} is in a fragment that is too late")
                if index < len(cuts) and sample[2] * cuts[index][1] >= cuts[index][0] * scales[track]:
                    fail(f"{name}: a sample of track {track} is in a fragment that is too early")
    return found


def check_joined(name, before, after):
    """Checks that `after` is a form of `before` without fragments."""
    codes = [it[0] for it in boxes(after, 0, len(after), True)]
    if any(it in codes for it in (b"moof", b"sidx", b"mfra", b"styp")) or codes.count(b"mdat") != 1:
        fail(f"{name}: {codes}")
    if codes[-1] != b"mdat" or codes.index(b"moov") > codes.index(b"mdat"):
        fail(f"{name}: {codes}")
    if b"mvex" in [it[0] for it in inner(after, top(after, b"moov"))]:
        fail(f"{name}: there is an mvex")
    if others_of(before, MADE) != others_of(after, MADE):
        fail(f"{name}: other boxes are changed")


def check_sidx(name, data, lead):
    """Checks that the sidx of `data` leads to its fragments."""
    found, sidx = Fragments(data), top(data, b"sidx")
    content, at = sidx[2], sidx[4] + len(sidx[2])
    track, scale = int.from_bytes(content[4:8], "big"), int.from_bytes(content[8:12], "big")
    count = int.from_bytes(content[30:32], "big")
    if (track, content[0], count) != (lead, 1, len(found.all)):
        fail(f"{name}: the sidx is of track {track} and {count} fragments")
    rows = {}
    for place, samples in found.rows[lead]:
        rows.setdefault(place, []).extend(samples)
    times = [sample[2] + sample[4] for sample in rows[found.all[0][0]]]
    if int.from_bytes(content[12:20], "big") != max(min(times), 0):
        fail(f"{name}: the earliest time of the sidx is wrong")
    for index, (begin, end, _) in enumerate(found.all):
        row = content[32 + 12 * index:44 + 12 * index]
        size, duration, sap = (int.from_bytes(row[it:it + 4], "big") for it in (0, 4, 8))
        samples = rows.get(begin, [])
        wanted = (end - begin, sum(sample[3] for sample in samples), 0x90000000 if samples and samples[0][5] else 0)
        if begin != at or (size, duration, sap) != wanted:
            fail(f"{name}: row {index} of the sidx is {size}, {duration}, {sap:x} at {at}, and not {wanted}")
        at = end
    if scale == 0:
        fail(f"{name}: the sidx has no timescale")


def check_mfra(name, data, lead):
    """Checks that the mfra of `data` leads to its fragments, and that its last bytes lead to it."""
    found, mfra = Fragments(data), top(data, b"mfra")
    if int.from_bytes(data[-4:], "big") != len(data) - mfra[1]:
        fail(f"{name}: the mfro doesn't lead to the mfra")
    content = first(inner(data, mfra), b"tfra")[2]
    count = int.from_bytes(content[12:16], "big")
    rows = [content[16 + 22 * index:38 + 22 * index] for index in range(count)]
    wanted = []
    for begin, _, trafs in found.all:
        of_lead = found.begins(lead).get(begin)
        if of_lead is not None and of_lead[5]:
            traf = [track for track, _ in trafs].index(lead) + 1
            wanted.append(be(8, of_lead[2] + of_lead[4], begin) + be(4, traf) + b"\1\1")
    if content[4:8] != be(4, lead) or rows != wanted:
        fail(f"{name}: the tfra is wrong")


class Runs:
    """Runs of the program in a folder, with the number of the compared samples."""

    def __init__(self, program, folder):
        self.program, self.folder, self.samples = program, folder, 0

    def path(self, name):
        return os.path.join(self.folder, name)

    def write(self, name, data):
        with open(self.path(name), "wb") as file:
            file.write(data)

    def read(self, name):
        with open(self.path(name), "rb") as file:
            return file.read()

    def run(self, *words, **given):
        return subprocess.run([self.program, *words], cwd=self.folder, capture_output=True, text=True, timeout=120,
                              check=False, **given)

    def says(self, status, out, error, *words, **given):
        """Runs the program, and expects the status `status`, the output `out` and the messages `error`."""
        done = self.run(*words, **given)
        if (done.returncode, done.stdout, done.stderr) != (status, out, error):
            fail(f"{words}: {done.returncode}, {done.stdout!r}, {done.stderr!r}\nand not\n{status}, {out!r}, {error!r}")

    def there_and_back(self, name, data, lead=1, fragments=None, options=()):
        """Fragments the file `data`, joins the fragments, and compares the samples of all three files. Returns the
        fragmented file."""
        self.write("in.mp4", data)
        done = self.run("fragment", *options, "in.mp4", "frag.mp4")
        if done.returncode:
            fail(f"{name}: {done.stderr}")
        after = self.read("frag.mp4")
        found = check_form(name, data, after, lead)
        count = len(found.all)
        if fragments is not None and count != fragments:
            fail(f"{name}: {count} fragments, and not {fragments}")
        if done.stdout != f"frag.mp4: {count} fragment{'' if count == 1 else 's'}\n":
            fail(f"{name}: {done.stdout}")
        before = samples_of(data)
        if samples_of(after) != before:
            fail(f"{name}: a sample is changed by fragment")
        self.says(0, f"back.mp4: {count} fragment{'' if count == 1 else 's'} joined, {sum(len(it) for _, it in before)}"
                  " samples\n", "", "defragment", "frag.mp4", "back.mp4")
        back = self.read("back.mp4")
        check_joined(name, data, back)
        if samples_of(back) != before:
            fail(f"{name}: a sample is changed by defragment")
        if extras_of(back) != extras_of(data):
            fail(f"{name}: groups or dependencies are changed: {extras_of(back)} and not {extras_of(data)}")
        if self.read("in.mp4") != data:
            fail(f"{name}: the file that is read is changed")
        # Once more there: what both commands do is the same again.
        self.says(0, done.stdout, "", "fragment", *options, "back.mp4", "frag.mp4")
        if samples_of(self.read("frag.mp4")) != before:
            fail(f"{name}: a sample is changed by the second fragment")
        self.samples += sum(len(it) for _, it in before)
        return after

    def refuses(self, command, data, text, status=1, options=()):
        """Checks that the file `data` is refused with the text `text`, that nothing is written, and that existing files
        are unchanged."""
        self.write("in.mp4", data)
        for name in ("none.mp4", "kept.mp4"):
            self.write("kept.mp4", b"kept")
            self.says(status, "", f"mp4remux: in.mp4: {text}\n", command, *options, "in.mp4", name)
            if os.path.exists(self.path("none.mp4")) or self.read("kept.mp4") != b"kept":
                fail(f"{text}: a file is written")
            if [it for it in os.listdir(self.folder) if it.endswith(".partial")]:
                fail(f"{text}: a partial file is left")
        os.remove(self.path("kept.mp4"))


def random_track(random_, track):
    """Returns a track with random groups of pictures, or a sound."""
    scale = random_.choice((600, 1000, 12800, 48000))
    if random_.random() < 0.4:
        chunks = sound(random_.randrange(1, 40), random_.randrange(1, 9), random_.randrange(1, scale // 10),
                       random_.randrange(1, 6))
        return Track(track, chunks, b"soun", scale)
    groups = [random_.randrange(1, 8) for _ in range(random_.randrange(1, 6))]
    shifts = random_.choice((None, (0,), (200, 500, 0), (0, 100, -100)))
    chunks = video(groups, random_.randrange(0, 20), random_.randrange(1, scale // 4), random_.randrange(1, 5), shifts)
    descriptions = [random_.choice((1, 1, 2)) for _ in chunks]
    return Track(track, chunks, b"vide", scale, descriptions, wide=random_.random() < 0.3)


def groups_of(kind, *runs, version=0):
    """Returns an sbgp and its sgpd."""
    rows = b"".join(be(4, *run) for run in runs)
    parameter = be(4, 9) if version else b""
    descriptions = full(b"sgpd", 1, 0, kind + be(4, 2, 2) + be(2, -1, -2))
    return descriptions + full(b"sbgp", version, 0, kind + parameter + be(4, len(runs)) + rows)


def forms(runs, random_, count):
    """Fragments files of each form, and joins them."""
    one = Track(1, video([5, 5, 3]))
    two = Track(2, sound(40), b"soun", 1000)
    runs.there_and_back("one track", made(random_, [one]), fragments=3)
    runs.there_and_back("two tracks", made(random_, [one, two]), fragments=3)
    order = [1, 2, 2, 1, 2, 1, 2, 2, 1, 2, 1, 2, 2]
    data = made(random_, [one, two], order)
    runs.there_and_back("chunks in turn", data, fragments=3)
    runs.there_and_back("sound first", made(random_, [Track(1, sound(9), b"soun"), Track(2, video([4, 4]))]), 2, 2)
    runs.there_and_back("only sound", made(random_, [Track(1, sound(200), b"soun")]), 1, 4)
    runs.there_and_back("another timescale", made(random_, [one, Track(2, sound(70, duration=1024), b"soun", 48000)]))
    runs.there_and_back("rendering offsets", made(random_, [Track(1, video([6, 6], shifts=(200, 500, 0)))]), 1, 2)
    runs.there_and_back("negative offsets", made(random_, [Track(1, video([6, 6], shifts=(0, 100, -100)))]), 1, 2)
    runs.there_and_back("two descriptions", made(random_, [
        Track(1, video([6, 6]), descriptions=[1, 2, 2, 1]), Track(2, sound(20), b"soun", descriptions=[2, 1, 1, 2])]))
    runs.there_and_back("offsets of 64 bits", made(random_, [Track(1, video([6, 6]), wide=True)]), 1, 2)
    runs.there_and_back("a sample without bytes", made(random_, [Track(1, video([3, 3], size=0))]), 1, 2)
    runs.there_and_back("no sync sample", made(random_, [Track(1, [[(5, 10, 0, False)] * 4])]), 1, 1)
    runs.there_and_back("the first is no sync sample", made(random_, [
        Track(1, [[(5, 10, 0, False)] * 2 + video([2, 2])[0]])]), 1)
    runs.there_and_back("a cover", made(random_, [Track(1, video([1])), Track(2, sound(200), b"soun")]), 2, 4)
    runs.there_and_back("a track without samples", made(random_, [one, Track(2, [], b"soun")]), 1, 3)
    runs.there_and_back("no duration", made(random_, [Track(1, [[(5, 0, 0, True)] * 3])]), 1, 1)
    runs.there_and_back("no ftyp", made(random_, [one], front=b""), 1, 3)
    edits = box(b"edts", full(b"elst", 0, 0, be(4, 1, 1300, 100, 0x10000)))
    runs.there_and_back("an edit list", made(random_, [Track(1, video([5, 5]), edits=edits)]), 1, 2)
    runs.there_and_back("other boxes", made(
        random_, [one], front=ftyp(b"qt  ", b"qt  ") + box(b"wide") + box(b"uuid", bytes(20)),
        between=box(b"free", bytes(9)), behind=box(b"uuid", bytes(17)) + box(b"skip")), 1, 3)
    # Groups and dependencies of samples.
    groups = groups_of(b"rap ", (3, 1), (4, 0), (2, 2)) + groups_of(b"roll", (13, 1), version=1)
    data = made(random_, [Track(1, video([5, 5, 3]), extra=groups)])
    after = runs.there_and_back("groups", data, fragments=3)
    if after.count(b"sbgp") != 5:
        fail(f"the groups of fragments: {after.count(b'sbgp')}")
    for sdtp in (bytes(range(13)), bytes([0x20] + [0x18] * 12)):
        item = Track(1, video([5, 5, 3]), extra=full(b"sdtp", 0, 0, sdtp))
        runs.there_and_back("dependencies", made(random_, [item]))
    # The lengths of fragments.
    long = made(random_, [Track(1, video([5] * 10))])
    for seconds, fragments in (("0.1", 10), ("0.5", 10), ("0.50000001", 5), ("1", 5), ("1.000000000", 5), ("1.2", 4),
                               ("4", 2), ("100", 1)):
        runs.there_and_back(f"{seconds} seconds", long, 1, fragments, ("--duration", seconds))
    runs.there_and_back("half a second of sound", made(random_, [Track(1, sound(50), b"soun")]), 1, 4,
                        ("--duration", "0.5"))
    for index in range(count):
        items = [random_track(random_, number_) for number_ in range(1, random_.randrange(2, 5))]
        order = [item.number for item in items for _ in item.chunks]
        random_.shuffle(order)
        lead = next((it.number for it in items if it.kind == b"vide" and len(it.samples) > 1),
                    next((it.number for it in items if len(it.samples) > 1), items[0].number))
        options = random_.choice(((), ("--duration", "0.3"), ("--duration", "1.5")))
        runs.there_and_back(f"file {index}", made(random_, items, order), lead, None, options)


def indexes(runs, random_):
    """Checks both indexes of fragments."""
    one, two = Track(1, sound(60), b"soun"), Track(2, video([5, 5, 3], shifts=(200, 500, 0)))
    for name, items, lead in (("sound and video", [one, two], 2), ("video", [two], 2), ("sound", [one], 1),
                              ("not a sync sample", [Track(1, [[(5, 10, 50, False)] * 3 + video([2, 2])[0]])], 1)):
        data = made(random_, items)
        for options in (("--sidx",), ("--mfra",), ("--sidx", "--mfra")):
            after = runs.there_and_back(name, data, lead, None, options)
            codes = [it[0] for it in boxes(after, 0, len(after), True)]
            if (b"sidx" in codes, b"mfra" in codes) != ("--sidx" in options, "--mfra" in options):
                fail(f"{name}: {codes}")
            if "--sidx" in options:
                check_sidx(name, after, lead)
            if "--mfra" in options:
                check_mfra(name, after, lead)


def joined(runs, random_):
    """Joins fragments of forms that `fragment` doesn't write."""
    one, two = Track(1, video([5, 5])), Track(2, sound(20), b"soun")
    data = made(random_, [one, two])
    runs.write("in.mp4", data)
    runs.says(0, "frag.mp4: 2 fragments\n", "", "fragment", "in.mp4", "frag.mp4")
    plain = runs.read("frag.mp4")
    wanted = samples_of(data)

    def joins(name, data, count=2, expected=None):
        runs.write("frag.mp4", data)
        total = sum(len(it) for _, it in expected or wanted)
        runs.says(0, f"back.mp4: {count} fragment{'' if count == 1 else 's'} joined, {total} samples\n", "",
                  "defragment", "frag.mp4", "back.mp4")
        back = runs.read("back.mp4")
        check_joined(name, data, back)
        if samples_of(back) != (expected or wanted):
            fail(f"{name}: a sample is changed")
        return back

    joins("two tracks", plain)
    # Durations that are missing, or shorter than the media, are set.
    for missing in (bytes(4), b"\xff" * 4, be(4, 3)):
        at = plain.index(b"mdhd") + 20
        back = joins("durations", plain[:at] + missing + plain[at + 4:])
        if back[back.index(b"mdhd") + 20:][:4] != be(4, 1000):
            fail("the duration of the media is not set")
    # A traf without a tfdt begins where the one before it ends.
    joins("no tfdt", plain.replace(b"tfdt", b"free"))
    joins("boxes behind", plain + box(b"free", b"x") + box(b"mfra"))
    # Samples in tables, and then in fragments.
    tables = made(random_, [Track(1, video([5]))])
    extended = nested((b"mvex",), full(b"trex", 0, 0, be(4, 1, 1, 0, 0, 0)))
    moov = top(tables, b"moov")
    tables = tables[:moov[1]] + box(b"moov", moov[2] + extended)
    rows = be(4, 100, 4, 0x02000000) + be(4, 100, 5, 0x01010000)
    header = full(b"tfhd", 0, 0x20000, be(4, 1))
    moof = box(b"moof", full(b"mfhd", 0, 0, be(4, 1)) + box(b"traf", header + full(
        b"trun", 0, 0x701, be(4, 2, 100) + rows)))
    moof = moof.replace(be(4, 2, 100) + rows, be(4, 2, len(moof) + 8) + rows)
    both = tables + moof + box(b"mdat", b"abcdefghi")
    joins("tables and fragments", both, 1, samples_of(both))


def refused(runs, random_):
    """Checks files that are refused, each by its text."""
    one, two = Track(1, video([3, 3])), Track(2, sound(10), b"soun")
    plain = made(random_, [one, two])
    moov = top(plain, b"moov")
    traks = [it[1] for it in inner(plain, moov) if it[0] == b"trak"]
    for command in ("fragment", "defragment"):
        runs.refuses(command, b"", "there is no moov")
        runs.refuses(command, plain[:moov[1]], "there is no moov")
        runs.refuses(command, plain[:-1], f"there is no whole box at {moov[1]}")
        runs.refuses(command, plain + plain[moov[1]:], f"there is another moov at {len(plain)}")
    runs.refuses("defragment", plain, "the file is not fragmented")
    runs.refuses("fragment", made(random_, [Track(1, [])]), "no track has samples")
    runs.refuses("fragment", ftyp(b"isom") + movie(), "no track has samples")
    runs.write("in.mp4", plain)
    runs.run("fragment", "in.mp4", "frag.mp4")
    fragmented = runs.read("frag.mp4")
    os.remove(runs.path("frag.mp4"))
    mvex = next(it[1] for it in inner(fragmented, top(fragmented, b"moov")) if it[0] == b"mvex")
    runs.refuses("fragment", fragmented, f"mvex at {mvex}: the file is fragmented already")
    # Boxes that can't be kept.
    for extra in (full(b"subs", 0, 0, be(4, 0)), full(b"stsh", 0, 0, be(4, 0)), full(b"saiz", 0, 0, bytes(5)),
                  full(b"padb", 0, 0, be(4, 0)), full(b"stdp", 0, 0), full(b"stps", 0, 0, be(4, 0))):
        data = made(random_, [Track(1, video([3]), extra=extra)])
        runs.refuses("fragment", data, f"{extra[4:8].decode()} at {data.index(extra)}: what it says of samples can't be"
                     " kept")
    sdtp = full(b"sdtp", 0, 0, bytes(3))
    data = made(random_, [Track(1, video([3]), extra=sdtp + sdtp)])
    runs.refuses("fragment", data, f"sdtp at {data.index(sdtp) + len(sdtp)}: a track can have only one")
    iloc = box(b"iloc", bytes(12))
    data = made(random_, [one], behind=full(b"meta", 0, 0, iloc))
    runs.refuses("fragment", data, f"iloc at {len(data) - len(iloc)}: its offsets can't be shifted")
    away = plain.index(full(b"url ", 0, 1))
    data = plain[:away + 8] + bytes(4) + plain[away + 12:]
    runs.refuses("fragment", data, f"url  at {away}: the media data are in another file")
    same = plain.replace(tkhd(2), tkhd(1))
    runs.refuses("fragment", same, f"trak 2 at {traks[1]}: another track has the track_ID 1")
    endless = made(random_, [one], behind=be(4, 0) + b"uuid" + bytes(16))
    runs.refuses("fragment", endless, f"uuid at {len(endless) - 24}: it has no size, and the new file doesn't end with"
                 " it")
    # Samples that are not in the file, and samples that share bytes.
    at = plain.index(b"stco") + 12
    outside = plain[:at] + be(4, len(plain)) + plain[at + 4:]
    runs.refuses("fragment", outside, f"trak 1 at {traks[0]}: sample 1 at {len(plain)}, of 10 bytes, is not in the"
                 " file")
    many = made(random_, [Track(1, [[(400, 10, 0, True)]] * 5)])
    at = many.index(b"stco") + 12
    media = top(many, b"mdat")
    short = many[:media[4]] + many[media[4]:media[4] + 400] + many[media[4] + len(media[2]):]
    short = short.replace(be(4, 8 + len(media[2])) + b"mdat", be(4, 408) + b"mdat")
    at = short.index(b"stco") + 12
    short = short[:at] + be(4, *[media[4]] * 5) + short[at + 20:]
    trak = [it[1] for it in inner(short, top(short, b"moov")) if it[0] == b"trak"][0]
    runs.refuses("fragment", short, f"trak 1 at {trak}: up to sample {len(short) // 400 + 1} the samples have more"
                 " bytes than the file, so some share bytes")
    # Fragments that tables can't express.
    traks = [it[1] for it in inner(fragmented, top(fragmented, b"moov")) if it[0] == b"trak"]
    at = fragmented.index(b"tfdt") + 8
    late = fragmented[:at] + be(8, 90000) + fragmented[at + 8:]
    runs.refuses("defragment", late, f"trak 1 at {traks[0]}: the first sample is decoded at 90000, and tables begin at"
                 " 0")
    at = [it.start() for it in re.finditer(b"tfdt", fragmented)][2] + 8
    gap = fragmented[:at] + be(8, 301) + fragmented[at + 8:]
    runs.refuses("defragment", gap, f"trak 1 at {traks[0]}: sample 4 is decoded at 301, and the one before it ends at"
                 " 300")
    for extra in (full(b"senc", 0, 0, be(4, 0)), full(b"sgpd", 1, 0, b"roll" + be(4, 0, 0)), full(b"subs", 0, 0),
                  box(b"uuid", bytes(16))):
        data, at = grown(fragmented, (b"moof", b"traf"), extra)
        runs.refuses("defragment", data, f"{extra[4:8].decode()} at {at}: what it says of samples can't be kept")
    emsg = full(b"emsg", 0, 0, b"\0\0" + bytes(16))
    runs.refuses("defragment", fragmented + emsg, f"emsg at {len(fragmented)}: what it says of samples can't be kept")
    trex = fragmented.index(b"trex") + 8
    data = fragmented[:trex] + be(4, 7) + fragmented[trex + 4:]
    runs.refuses("defragment", data, "there is no trex")
    # A fragment of no track, and what is too large for the fields of the new boxes.
    data, _ = grown(fragmented, (b"moov", b"mvex"), full(b"trex", 0, 0, be(4, 7, 1, 0, 0, 0)))
    ids = [it.start() + 8 for it in re.finditer(b"tfhd", data)]
    data = data[:ids[1]] + be(4, 7) + data[ids[1] + 4:]
    moof = data.index(b"moof") - 4
    runs.refuses("defragment", data, f"moof at {moof}: the moov has no track with the track_ID 7")
    single = made(random_, [Track(1, video([3, 3]))])
    runs.write("in.mp4", single)
    runs.run("fragment", "in.mp4", "frag.mp4")
    data = bytearray(runs.read("frag.mp4"))
    os.remove(runs.path("frag.mp4"))
    for index, it in enumerate(re.finditer(b"tfhd", bytes(data))):
        # The duration is after the track_ID and the description.
        data[it.start() + 16:it.start() + 20] = be(4, 1 << 31)
        at = data.index(b"tfdt", it.start()) + 8
        data[at:at + 8] = be(8, index * 3 << 31)
    place = data.index(b"tkhd") - 4
    runs.refuses("defragment", bytes(data), f"tkhd at {place}: a duration of {(6 << 31) * 600 // 1000} doesn't fit in"
                 " version 0")
    empty = made(random_, [Track(1, [])])
    data, _ = grown(empty, (b"moov",), nested((b"mvex",), full(b"trex", 0, 0, be(4, 1, 1, 10, 1, 0))))
    trak = [it[1] for it in inner(data, top(data, b"moov")) if it[0] == b"trak"][0]
    run = full(b"trun", 0, 0x801, be(4, 1, 0, 1 << 31))
    moof = box(b"moof", full(b"mfhd", 0, 0, be(4, 1)) + box(b"traf", full(b"tfhd", 0, 0x20000, be(4, 1)) + run))
    runs.refuses("defragment", data + moof, f"trak 1 at {trak}: the rendering offset 2147483648 of sample 1 doesn't fit"
                 " in 32 bits")


def segmented(runs, random_):
    """Writes folders of segments."""
    one, two = Track(1, video([5, 5, 3])), Track(2, sound(40), b"soun")
    data = made(random_, [one, two])
    runs.write("in.mp4", data)
    for name in ("new", "empty"):
        if name == "empty":
            os.mkdir(runs.path(name))
        runs.says(0, f"{name}: init.mp4, 3 segments and playlist.m3u8\n", "", "fragment", "--segments", name, "in.mp4")
        wanted = ["init.mp4", "playlist.m3u8", "segment-1.m4s", "segment-2.m4s", "segment-3.m4s"]
        if sorted(os.listdir(runs.path(name))) != wanted:
            fail(f"{name}: {os.listdir(runs.path(name))}")
        parts = [runs.read(os.path.join(name, it)) for it in ("init.mp4", *wanted[2:])]
        whole = b"".join(parts)
        if samples_of(whole) != samples_of(data):
            fail(f"{name}: a sample is changed")
        for part in parts[1:]:
            if [it[0] for it in boxes(part, 0, len(part), True)] != [b"styp", b"moof", b"mdat"]:
                fail(f"{name}: a segment has other boxes")
        text = runs.read(os.path.join(name, "playlist.m3u8")).decode()
        if text != ("#EXTM3U\n#EXT-X-VERSION:7\n#EXT-X-TARGETDURATION:1\n#EXT-X-PLAYLIST-TYPE:VOD\n"
                    "#EXT-X-INDEPENDENT-SEGMENTS\n#EXT-X-MAP:URI=\"init.mp4\"\n"
                    "#EXTINF:0.500000,\nsegment-1.m4s\n#EXTINF:0.500000,\nsegment-2.m4s\n"
                    "#EXTINF:0.300000,\nsegment-3.m4s\n#EXT-X-ENDLIST\n"):
            fail(f"{name}: {text}")
        mode = os.stat(runs.path("in.mp4")).st_mode
        if any(os.stat(runs.path(os.path.join(name, it))).st_mode != mode for it in wanted):
            fail(f"{name}: other permissions")
    # Names that are not free.
    needed = "DIR must be an empty directory or a new name"
    before = sorted(os.listdir(runs.folder))
    os.symlink("empty", runs.path("link"))
    for name, text in (("new", f"this directory is not empty; {needed}"),
                       ("in.mp4", f"this is a regular file; {needed}"), ("link", f"this is a symbolic link; {needed}"),
                       ("none/new", "No such file or directory (os error 2)")):
        runs.says(3, "", f"mp4remux: {name}: {text}\n", "fragment", "--segments", name, "in.mp4")
    os.remove(runs.path("link"))
    runs.write("bad.mp4", ftyp(b"isom") + movie())
    runs.says(1, "", "mp4remux: bad.mp4: no track has samples\n", "fragment", "--segments", "bad", "bad.mp4")
    os.remove(runs.path("bad.mp4"))
    # A write fails in a segment.
    def little():
        signal.signal(signal.SIGXFSZ, signal.SIG_IGN)
        resource.setrlimit(resource.RLIMIT_FSIZE, (300, 300))
    runs.says(3, "", "mp4remux: short: write failed: File too large (os error 27)\n", "fragment", "--segments", "short",
              "in.mp4", preexec_fn=little)
    if sorted(os.listdir(runs.folder)) != before:
        fail(f"files are left: {os.listdir(runs.folder)}")


def misused(runs, random_):
    """Refuses command lines, and writes to a pipe."""
    runs.write("in.mp4", made(random_, [Track(1, video([3, 3]))]))
    for words in (["fragment"], ["fragment", "in.mp4"], ["defragment", "in.mp4"],
                  ["fragment", "--segments", "new", "in.mp4", "out.mp4"],
                  ["fragment", "--segments", "new", "--sidx", "in.mp4"], ["fragment", "--mfra=1", "in.mp4", "out.mp4"],
                  ["defragment", "--sidx", "in.mp4", "out.mp4"]):
        done = runs.run(*words)
        if done.returncode != 2 or done.stdout or "\nUsage: " not in done.stderr:
            fail(f"{words}: {done.returncode}, {done.stdout}, {done.stderr}")
    text = "expected a number of seconds above 0, with at most nine digits after the point, such as 2.5"
    for word in ("0", "0.0", "x", "1.2.3", "1e3", "", "1.0000000001", "+1", "99999999999", "1,5"):
        told = f"mp4remux: --duration {word}: {text}\n"
        runs.says(2, "", told, "fragment", f"--duration={word}", "in.mp4", "out.mp4")
    same = "mp4remux: -: IN must be a file, since it is read twice; ./- is a file of this name\n"
    runs.says(2, "", same, "fragment", "-", "out.mp4")
    runs.says(2, "", same, "fragment", "--segments", "new", "-")
    runs.says(2, "", same, "defragment", "-", "out.mp4")
    if os.listdir(runs.folder) != ["in.mp4"]:
        fail(f"a file is written: {os.listdir(runs.folder)}")
    runs.says(0, "frag.mp4: 2 fragments\n", "", "fragment", "in.mp4", "frag.mp4")
    for words, wanted in ((["fragment", "in.mp4", "-"], "frag.mp4"), (["defragment", "frag.mp4", "-"], None)):
        done = subprocess.run([runs.program, *words], cwd=runs.folder, capture_output=True, timeout=120, check=False)
        if (done.returncode, done.stderr) != (0, b"") or wanted and done.stdout != runs.read(wanted):
            fail(f"{words}: {done.returncode}, {done.stderr}")
        if samples_of(done.stdout) != samples_of(runs.read("in.mp4")):
            fail(f"{words}: a sample is changed")


def hostile(runs, random_):
    """Refuses hostile files in little time and memory."""
    def little():
        resource.setrlimit(resource.RLIMIT_AS, (MEMORY, MEMORY))

    def ends(name, command, data, text):
        runs.write("in.mp4", data)
        began = time.monotonic()
        done = runs.run(command, "in.mp4", "out.mp4", preexec_fn=little)
        took = time.monotonic() - began
        if done.returncode != 1 or text not in done.stderr or took > SECONDS:
            fail(f"{name}: {done.returncode}, {done.stdout!r}, {done.stderr!r}, {took:.1f} s")

    # 2^32 - 1 samples of one byte in each of many chunks, or of no bytes in a run.
    plain = made(random_, [Track(1, [[(1, 1, 0, True)]] * 1000)])
    at = plain.index(b"stsz") + 8
    many = plain[:at] + be(4, 1, 2**32 - 1) + plain[at + 8:]
    for table in (full(b"stts", 0, 0, be(4, 1, 2**32 - 1, 1)), full(b"stsc", 0, 0, be(4, 1, 1, 5000000, 1))):
        at = many.index(table[4:8]) - 4
        long = int.from_bytes(many[at:at + 4], "big")
        many = many[:at] + table + box(b"free", bytes(long - len(table) - 8)) + many[at + long:]
    ends("many samples", "fragment", many, "samples, and has only")
    run = full(b"trun", 0, 1, be(4, 2**32 - 1, 8))
    moof = box(b"moof", full(b"mfhd", 0, 0, be(4, 1)) + box(b"traf", full(b"tfhd", 0, 0x20000, be(4, 1)) + run))
    extended = nested((b"mvex",), full(b"trex", 0, 0, be(4, 1, 1, 0, 0, 0)))
    moov = box(b"moov", top(plain, b"moov")[2] + extended)
    ends("many samples of a run", "defragment", ftyp(b"isom") + moov + moof * 1000, "samples, and has only")


def hashes(path, *words):
    """Returns the lines of ffmpeg about the packets of the file `path`, or with `words` about its frames. Chapters are
    tracks like all others: ffmpeg would skip the packets that it has read as titles."""
    words = ["ffmpeg", "-v", "error", "-ignore_chapters", "1", "-i", path, "-map", "0", *words, "-f", "framehash", "-"]
    done = subprocess.run(words, capture_output=True, text=True, check=False)
    return done.returncode, done.stdout


def frames(path):
    """Returns the hash of each video frame that ffmpeg decodes from the file `path`."""
    words = ["ffmpeg", "-v", "error", "-i", path, "-map", "0:v:0", "-f", "framehash", "-"]
    done = subprocess.run(words, capture_output=True, text=True, check=False)
    return [line.split(",")[-1].strip() for line in done.stdout.split("\n") if line and line[0] != "#"]


class Fragment(unittest.TestCase):
    def setUp(self):
        folder = tempfile.mkdtemp(prefix="fragment-")
        self.addCleanup(shutil.rmtree, folder)
        self.random = random.Random(number("SEED", 1))
        self.runs = Runs(built("mp4_remux_program"), folder)

    def test_forms(self):
        forms(self.runs, self.random, number("COUNT", 100))
        self.assertGreater(self.runs.samples, 0)

    def test_indexes(self):
        indexes(self.runs, self.random)

    def test_fragments_of_others(self):
        joined(self.runs, self.random)

    def test_refusals(self):
        refused(self.runs, self.random)

    def test_segments(self):
        segmented(self.runs, self.random)

    def test_misuse(self):
        misused(self.runs, self.random)

    def test_hostile_files(self):
        hostile(self.runs, self.random)

    def test_all_files(self):
        """Compares what is refused of the stored files and the files that are made by hand with `REFUSED`."""
        met = {command: set() for command in REFUSED}
        for name, data in files().items():
            for command in ("fragment", "defragment"):
                self.runs.write("in.mp4", data)
                done = self.runs.run(command, "in.mp4", "out.mp4")
                with self.subTest(f"{command} {name}"):
                    self.assertIn(done.returncode, (0, 1), done.stderr)
                    if done.returncode:
                        met[command].add(name)
                        self.assertEqual(done.stderr, f"mp4remux: in.mp4: {REFUSED[command].get(name)}\n")
                        self.assertFalse(os.path.exists(self.runs.path("out.mp4")))
                        continue
                    self.assertEqual(samples_of(self.runs.read("out.mp4")), samples_of(data))
                    os.remove(self.runs.path("out.mp4"))
        self.assertEqual(met, {command: set(those) for command, those in REFUSED.items()})


class RealFiles(unittest.TestCase):
    """Files that ffmpeg makes."""

    @classmethod
    def setUpClass(cls):
        if shutil.which("ffmpeg") is None:
            raise unittest.SkipTest("there is no ffmpeg")
        cls.folder = os.path.abspath(os.environ.get("TEST_KEEP") or tempfile.mkdtemp(prefix="real-fragments-"))
        os.makedirs(cls.folder, exist_ok=True)
        if not os.environ.get("TEST_KEEP"):
            cls.addClassCleanup(shutil.rmtree, cls.folder)
        cls.reasons = making.make_all(cls.folder)
        cls.runs = Runs(built("mp4_remux_program"), tempfile.mkdtemp(prefix="real-fragments-out-"))
        cls.addClassCleanup(shutil.rmtree, cls.runs.folder)

    def made(self):
        for name, reason in self.reasons.items():
            for path in [] if reason else making.paths(self.folder, name):
                yield os.path.relpath(path, self.folder), path

    def writes(self, command, name, path, out):
        """Runs a command over the file `path`. Returns whether it is written, and expects a refusal of `REAL_REFUSED`
        if it isn't."""
        done = self.runs.run(command, path, out)
        self.assertIn(done.returncode, (0, 1), done.stderr)
        told = [text for its, names, text in REAL_REFUSED if its == command and re.fullmatch(names, name)]
        self.assertIn(told[0] if told else "", done.stderr)
        self.assertEqual(done.returncode, 1 if told else 0, done.stderr)
        return not told

    def test_there_and_back(self):
        """Fragments the progressive files and joins the fragmented ones, and each of these back."""
        count = refused = 0
        for name, path in self.made():
            with open(path, "rb") as file:
                data = file.read()
            codes = [it[0] for it in boxes(data, 0, len(data), True)]
            is_fragmented = b"moof" in codes or b"mvex" in data
            order = ("defragment", "fragment") if is_fragmented else ("fragment", "defragment")
            with self.subTest(name):
                if not self.writes(order[0], name, path, "one.mp4"):
                    refused += 1
                    continue
                self.assertEqual(samples_of(self.runs.read("one.mp4")), samples_of(data))
                if not self.writes(order[1], name, self.runs.path("one.mp4"), "two.mp4"):
                    refused += 1
                    continue
                self.assertEqual(samples_of(self.runs.read("two.mp4")), samples_of(data))
                count += 1
                if not is_fragmented:
                    self.assertEqual(hashes(self.runs.path("two.mp4"), "-c", "copy"), hashes(path, "-c", "copy"))
                    before, after = frames(path), frames(self.runs.path("one.mp4"))
                    if name in OTHER_FRAMES:
                        self.assertNotEqual(before, after)
                    else:
                        self.assertEqual(before, after)
        print(f"real files: {count} there and back, {refused} refused")


if __name__ == "__main__":
    unittest.main()
