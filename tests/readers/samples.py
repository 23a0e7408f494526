"""The samples of the tracks of a file a second time, by ISO/IEC 14496-12 only (8.2.1, 8.2.2, 8.3.2, 8.4, 8.6.1, 8.6.2,
8.6.5, 8.6.6, 8.7.3 to 8.7.5, 8.8), to compare `mp4inspect samples` with. It shares no line with the codec, nor with the
other slow readers: tables are spelled out, a value for each sample, and chunks are filled one after the other.

The tracks of a file are those of its first `moov`. If two have the same track_ID, the first has the fragments, and is
the one that `--track` names.

    written(data, form, track, beyond)   the output, the faults as the program prints them, and the status
    segments(data, form, seconds)        the same, of a row for each `moof`
    disagreement(tables)                 how the tables of an `stbl` disagree, as `mp4inspect check` prints it
"""

import fractions
import functools
import itertools
import struct

HEAD = "track,number,offset,size,decode_time,presentation_time,duration,sync,description,timescale\n"
COLUMNS = ["number", "offset", "size", "decode_time", "presentation_time", "duration", "sync", "description"]
WIDTHS = [8, 12, 9, 12, 17, 9, 4, 11]
SEGMENT_COLUMNS = ["number", "offset", "size", "track", "start", "duration"]
SEGMENT_WIDTHS = [8, 12, 11, 10, 12, 12]
# The most samples that are returned in a list, and the most without bytes that are listed in a row.
MOST = 300000
MOST_EMPTY = 2**20


class Bad(Exception):
    """A fault of a track. Its first argument is the text of the message, or None if the codec has the text. Then the
    second argument is the box that can't be read."""


def boxes(data, at, end, is_top=False):
    """Returns the boxes directly in a content: the code, the position, the content, whether the box is whole, and the
    position of the content. The last one may have a code and no content, since its header is cut or its size is too
    small."""
    found = []
    while end - at >= 8:
        size, code = struct.unpack_from(">I4s", data, at)
        content = at + 8
        if size == 1 and end - at >= 16:
            size, content = struct.unpack_from(">Q", data, at + 8)[0], at + 16
        elif size == 0 and is_top:
            size = end - at
        if size < content - at:
            found.append((code, at, b"", False, content))
            break
        found.append((code, at, data[content:min(at + size, end)], at + size <= end, content))
        at += size
    return found


def inner(data, box):
    return boxes(data, box[4], box[4] + len(box[2]))


def first(found, *codes):
    for box in found:
        if box[0] in codes:
            return box
    return None


def entries(box, at, form, count_at=4):
    """Returns the entries of `box`, a counted table: a full box with version and flags, a count, and entries of the
    form `form` that begin at `at`."""
    content, whole = box[2], box[3]
    if not whole or len(content) < count_at + 4:
        raise Bad(None, box)
    count = struct.unpack_from(">I", content, count_at)[0]
    width = struct.calcsize(form)
    if (len(content) - at) // width < count:
        raise Bad(None, box)
    return [struct.unpack_from(form, content, at + width * index) for index in range(count)]


def sizes_of(box):
    """Returns the number of samples of `box`, their one size or 0, and the list of their sizes (8.7.3.2)."""
    content, whole = box[2], box[3]
    if not whole or len(content) < 12:
        raise Bad(None, box)
    one, count = struct.unpack_from(">II", content, 4)
    return (count, one, []) if one else (count, 0, [size for size, in entries(box, 12, ">I", 8)])


def compact_sizes_of(box):
    """Returns the number of samples of `box`, an `stz2`, 0, and the list of their sizes (8.7.3.3). A size is one, two
    or four hexadecimal digits of the content, in their order. Bytes after the last size have no meaning."""
    content, whole = box[2], box[3]
    if not whole or len(content) < 12 or content[0]:
        raise Bad(None, box)
    (count,), digits, width = struct.unpack_from(">I", content, 8), content[12:].hex(), content[7] // 4
    if content[7] not in (4, 8, 16) or len(digits) < width * count:
        raise Bad(None, box)
    return count, 0, [int(digits[at:at + width], 16) for at in range(0, width * count, width)]


def runs_of(box):
    """Returns the entries of `box`, an `stsc`. It can't be read if the number of the first sample of an entry has more
    than 32 bits, or an entry begins before the one before it (docs/LAYOUT.md)."""
    runs, sample = entries(box, 8, ">III"), 1
    for (chunk, samples, _), (after, _, _) in zip(runs, runs[1:]):
        sample += (after - chunk) * samples
        if after < chunk or sample >= 2**32:
            raise Bad(None, box)
    return runs


def tables_of(data, table):
    """Returns the tables directly in `table`, an `stbl`. The sizes are those of the `stsz`, or else of the `stz2`. A
    track with neither and no chunk has no samples."""
    found = inner(data, table)

    def read(code, form, name=None):
        """Returns the entries of the first table with the code `code`. If there is none, it has to have no `name`."""
        box = first(found, code)
        if box is None and name is not None:
            raise Bad(f"there is no {name}")
        return None if box is None else runs_of(box) if code == b"stsc" else entries(box, 8, form)
    sizes = first(found, b"stsz") or first(found, b"stz2")
    counted = (0, 0, []) if sizes is None else (sizes_of if sizes[0] == b"stsz" else compact_sizes_of)(sizes)
    offsets = read(b"stco", ">I") if first(found, b"stco") else read(b"co64", ">Q")
    if sizes is None and not offsets:
        return {"sizes": counted, "runs": [], "offsets": [], "durations": [], "shifts": [], "sync": None}
    for name, box in (("stsz", sizes), ("stco", offsets)):
        if box is None:
            raise Bad(f"there is no {name}")
    tables = {"sizes": counted, "offsets": [offset for offset, in offsets], "runs": read(b"stsc", ">III", "stsc"),
              "durations": read(b"stts", ">II", "stts"), "shifts": read(b"ctts", ">Ii") or []}
    sync = read(b"stss", ">I")
    return {**tables, "sync": sync and [number for number, in sync]}


def disagreement(tables):
    """Returns the message of how `tables` disagree on the samples that `stsz` counts, or None if they agree."""
    (count, one, sizes), runs, offsets = tables["sizes"], tables["runs"], tables["offsets"]
    if not one and len(sizes) != count:
        return f"stsz counts {count} samples and lists {len(sizes)} sizes"
    if runs and runs[0][0] != 1:
        return f"the first entry of stsc begins at chunk {runs[0][0]}"
    for index in range(1, len(runs)):
        if runs[index][0] <= runs[index - 1][0]:
            return f"entry {index} of stsc begins no later than the one before it"
    held = 0
    for index, (chunk, samples, _) in enumerate(runs):
        after = runs[index + 1][0] if index + 1 < len(runs) else len(offsets) + 1
        held += max(min(after, len(offsets) + 1) - chunk, 0) * samples
    if held < count:
        return f"the chunks hold {held} of {count} samples"
    timed = sum(samples for samples, _ in tables["durations"])
    if timed < count:
        return f"stts has a duration for {timed} of {count} samples"
    numbers = tables["sync"] or []
    for index, number in enumerate(numbers):
        if number <= (numbers[index - 1] if index else 0):
            return f"entry {index} of stss is not above the one before it"
    total = one * count if one else sum(sizes)
    for offset in offsets:
        if offset + total >= 2**64:
            return f"a chunk begins at {offset}, and the samples have {total} bytes"
    return None


def table_steps(tables):
    """Yields the samples of tables that agree, one by one: offset, size, time, duration, shift, sync, description."""
    count, one, sizes = tables["sizes"]
    durations, shifts = spelled(tables["durations"]), itertools.chain(spelled(tables["shifts"]), itertools.repeat(0))
    sync = None if tables["sync"] is None else set(tables["sync"])
    index = time = 0
    for number, offset in enumerate(tables["offsets"], 1):
        run = [run for run in tables["runs"] if run[0] <= number][-1:]
        for _ in range(min(run[0][1], count - index) if run else 0):
            size, duration = one or sizes[index], next(durations)
            yield offset, size, time, duration, next(shifts), sync is None or index + 1 in sync, run[0][2]
            offset, time, index = offset + size, time + duration, index + 1


def spelled(runs):
    for count, value in runs:
        yield from itertools.repeat(value, count)


def table_time(tables):
    """Returns the time at which the samples of tables end, and those of the first fragment begin: the sum of all
    durations, or the largest time if it is larger."""
    return min(sum(count * duration for count, duration in tables["durations"]), 2**64 - 1)


def table_samples(tables):
    """Returns the list of the samples of tables that agree, and the end time of the last one."""
    if tables["sizes"][0] > MOST:
        raise Bad("large")
    return list(table_steps(tables)), table_time(tables)


def optional(box, at, flags, *fields):
    """Returns those of `fields` that are present by `flags` in the content of `box`, and the offset after them."""
    values = {}
    for bit, name, form in fields:
        if flags & bit:
            if len(box[2]) < at + struct.calcsize(form):
                raise Bad(None, box)
            values[name], = struct.unpack_from(form, box[2], at)
            at += struct.calcsize(form)
    return values, at


def header_of(box):
    """Returns the fields of `box`, the header of a track fragment (8.8.7)."""
    if box is None:
        raise Bad("there is no tfhd")
    if not box[3] or len(box[2]) < 8:
        raise Bad(None, box)
    flags, track = struct.unpack_from(">I", box[2])[0] & 0xFFFFFF, struct.unpack_from(">I", box[2], 4)[0]
    values, _ = optional(box, 8, flags, (1, "base", ">Q"), (2, "description", ">I"), (8, "duration", ">I"),
                         (16, "size", ">I"), (32, "flags", ">I"))
    return dict(values, track=track, from_moof=bool(flags & 0x20000))


def run_of(box):
    """Returns the fields of `box`, a run of samples (8.8.8), the number of samples that it counts, and the row that it
    lists for each."""
    content, whole = box[2], box[3]
    if not whole or len(content) < 8:
        raise Bad(None, box)
    word, count = struct.unpack_from(">II", content)
    values, at = optional(box, 8, word, (1, "offset", ">i"), (4, "first", ">I"))
    width = 4 * bin(word >> 8 & 15).count("1")
    if len(content) - at < width * count:
        raise Bad(None, box)
    if not width:
        return values, count, itertools.repeat({}, count)
    rows = []
    for _ in range(count):
        row, at = optional(box, at, word, (0x100, "duration", ">I"), (0x200, "size", ">I"), (0x400, "flags", ">I"),
                           (0x800, "shift", ">i" if word >> 24 else ">I"))
        rows.append(row)
    return values, count, rows


def run_steps(header, defaults, runs, base, time, where=""):
    """Yields the samples of the runs of a fragment, one by one. Returns the end of their data, and their end time."""
    at = base
    for number, (values, _, rows) in enumerate(runs):
        at = base + values["offset"] if "offset" in values else at
        for index, row in enumerate(rows):
            begun = {"flags": values["first"]} if index == 0 and "first" in values else {}
            known = {**defaults, **header, **begun, **row}
            if at < 0 or at + known["size"] >= 2**64:
                raise Bad(f"{where}sample {index} of run {number} is outside the file")
            if time + known["duration"] >= 2**64:
                raise Bad(f"{where}sample {index} of run {number} ends past 2^64 - 1")
            yield (at, known["size"], time, known["duration"], known.get("shift", 0), not known["flags"] & 0x10000,
                   known["description"])
            at, time = at + known["size"], time + known["duration"]
    return at, time


def unlisted(sample, number, empty, length):
    """Returns why `sample` of a file of `length` bytes isn't listed, if `empty` samples without bytes come right before
    it. Returns an empty text if the sample is listed."""
    end = sample[0] + sample[1]
    if end > length:
        return f"sample {number} ends at {end}, past the end of the file ({length} bytes)"
    if sample[1] == 0 and empty >= MOST_EMPTY:
        return f"sample {number} has no bytes, like the {MOST_EMPTY} samples before it"
    return ""


def not_listed(more):
    """Returns the message about samples that aren't listed: one, and the `more` samples after it."""
    if more == 0:
        return "this sample is not listed (--beyond lists it)"
    samples = f"{more} more sample are" if more == 1 else f"{more} more samples are"
    return f"this and {samples} not listed (--beyond lists them)"


class File:
    """The tracks of a file, and their fragments by the numbers of tracks, in the order of the file."""

    def __init__(self, data):
        self.data, self.tracks, self.defaults, self.fragments, self.faults, self.lost = data, [], {}, {}, [], []
        top = boxes(data, 0, len(data), True)
        self.moov = first(top, b"moov")
        self.is_movie = any(box[0] in (b"moov", b"moof") for box in top)
        if self.moov is not None:
            self.movie(inner(data, self.moov))
        for box in top:
            if box[0] == b"moof":
                self.fragment(box)

    def movie(self, found):
        """Finds the tracks in `found`, the boxes of the first `moov`, and the defaults in the first `mvex`."""
        self.tracks = [box for box in found if box[0] == b"trak"]
        extends = first(found, b"mvex")
        for trex in inner(self.data, extends) if extends else []:
            if trex[0] != b"trex":
                continue
            if not trex[3] or len(trex[2]) < 24:
                self.faults.append(None)
                continue
            track, *values = struct.unpack_from(">IIIII", trex[2], 4)
            self.defaults.setdefault(track, dict(zip(("description", "duration", "size", "flags"), values)))

    def fragment(self, moof):
        end_before = functools.partial(int, moof[1])
        for traf in inner(self.data, moof):
            if traf[0] != b"traf":
                continue
            try:
                header = header_of(first(inner(self.data, traf), b"tfhd"))
            except Bad as bad:
                self.lost.append((moof, traf, bad))
                self.faults.append(bad.args[0] and f"moof at {moof[1]}: {bad.args[0]}")
                end_before = functools.partial(dict().get, "end")
                continue
            base = header["base"] if "base" in header else moof[1] if header["from_moof"] else end_before()
            self.fragments.setdefault(header["track"], []).append((moof, traf, header, base))
            end_before = functools.partial(self.end, traf, header, base)

    def end(self, traf, header, base):
        """Returns the end of the data of a fragment, or None if it isn't known."""
        if base is None or header["track"] not in self.defaults:
            return None
        try:
            _, runs = self.runs(traf)
        except Bad:
            return None
        last, default = base, {**self.defaults[header["track"]], **header}["size"]
        for values, count, rows in runs:
            last = base + values["offset"] if "offset" in values else last
            last += sum(row.get("size", default) for row in rows) if isinstance(rows, list) else count * default
        return last if 0 <= last < 2**64 else None

    def runs(self, traf):
        """Returns the start time of a fragment, or None if it has none, and the runs of the fragment."""
        parts, time = inner(self.data, traf), None
        clock = first(parts, b"tfdt")
        if clock is not None:
            if not clock[3] or len(clock[2]) < 8:
                raise Bad(None, clock)
            wide = clock[2][0]
            if wide > 1 or wide and len(clock[2]) < 12:
                raise Bad(None, clock)
            time, = struct.unpack_from(">Q" if wide else ">I", clock[2], 4)
        return time, [run_of(box) for box in parts if box[0] == b"trun"]

    def fragment_of(self, track, traf, base, where=""):
        """Returns the start time of a fragment, or None if it has none, and its runs. The fragment needs the defaults
        of its track, and a base of its offsets."""
        begin, runs = self.runs(traf)
        if track not in self.defaults:
            raise Bad("there is no trex")
        if base is None:
            raise Bad(f"the data before a fragment in the {where.removesuffix(': ')} have no known end")
        return begin, runs

    def steps(self, track, traf, header, base, time, where=""):
        """Yields the samples of a fragment, one by one. Returns the end of their data, and their end time."""
        begin, runs = self.fragment_of(track, traf, base, where)
        return (yield from run_steps(header, self.defaults[track], runs, base, time if begin is None else begin, where))

    def samples(self, track, traf, header, base, time):
        """Returns the list of the samples of a fragment, the end of their data, their end time, and the text of a
        fault."""
        samples, steps, fault = [], self.steps(track, traf, header, base, time), None
        try:
            while len(samples) <= MOST:
                samples.append(next(steps))
            raise Bad("large")
        except StopIteration as ended:
            return samples, *ended.value, None
        except Bad as bad:
            fault = bad.args[0]
            if not fault or not fault.startswith("sample"):
                raise
        return samples, None, None, fault

    def of_track(self, number, tables):
        """Yields the samples of a track, one by one."""
        time = table_time(tables)
        yield from table_steps(tables)
        for moof, traf, header, base in self.fragments.get(number, []):
            _, time = yield from self.steps(number, traf, header, base, time, f"moof at {moof[1]}: ")

    def counted(self, number, tables):
        """Counts the samples of the tables and the fragments of a track, without fragments that can't be read."""
        count = tables["sizes"][0]
        for _, traf, _, _ in self.fragments.get(number, []):
            try:
                count += sum(run[1] for run in self.runs(traf)[1])
            except Bad:
                pass
        return count

    def listed(self, number, tables, beyond):
        """Returns the samples of a track that are listed, and a list of its faults, which has at most one."""
        samples, empty = [], 0
        try:
            for sample in self.of_track(number, tables):
                why = "" if beyond else unlisted(sample, len(samples) + 1, empty, len(self.data))
                if why:
                    more = self.counted(number, tables) - len(samples) - 1
                    return samples, [f"{why}: {not_listed(more)}"]
                if beyond and len(samples) == MOST:
                    raise Bad("large")
                empty = 0 if sample[1] else empty + 1
                samples.append(sample)
        except Bad as bad:
            return samples, [bad.args[0]]
        return samples, []

    def headers(self, trak):
        """Returns the track_ID, the handler and the timescale of a track (8.3.2, 8.4.3, 8.4.2). Each is a Bad if it
        can't be read. A handler needs at least a byte of its name."""
        def of(around, code, read):
            if isinstance(around, Bad):
                return around
            box = first(inner(self.data, around), code)
            if box is None:
                return Bad(f"there is no {code.decode()}")
            found = read(box[2], box[2][0] if box[2] else 2) if box[3] else None
            return Bad(None, box) if found is None else found

        def number(narrow, wide):
            """Returns a function that reads the 4 bytes after the times. A content of version 0 has at least `narrow`
            bytes, and one of version 1 at least `wide`."""
            def read(content, version):
                if version > 1 or len(content) < (wide if version else narrow):
                    return None
                return struct.unpack_from(">I", content, 20 if version else 12)[0]
            return read
        media = first(inner(self.data, trak), b"mdia") or Bad("there is no mdia")
        return (of(trak, b"tkhd", number(84, 96)),
                of(media, b"hdlr", lambda content, _: content[8:12] if len(content) >= 25 else None),
                of(media, b"mdhd", number(22, 34)))

    def tables(self, trak):
        """Returns the tables of a track. They have to agree."""
        for code in (b"mdia", b"minf", b"stbl"):
            trak = first(inner(self.data, trak), code)
            if trak is None:
                raise Bad(f"there is no {code.decode()}")
        tables = tables_of(self.data, trak)
        fault = disagreement(tables)
        if fault:
            raise Bad(fault)
        return tables

    def movie_timescale(self):
        """Returns the timescale of the movie (8.2.2)."""
        box = first(inner(self.data, self.moov), b"mvhd")
        if box is None:
            raise Bad("there is no mvhd")
        version = box[2][0] if box[2] else 2
        if not box[3] or version > 1 or len(box[2]) < (112 if version else 100):
            raise Bad(None, box)
        return struct.unpack_from(">I", box[2], 20 if version else 12)[0]

    def edits(self, trak, scale):
        """Returns the timescale of the movie, and the duration, the media time and the rate of each edit of a track
        (8.6.5, 8.6.6). `scale` is the timescale of its media. Without a list or an edit in it, the track has one edit,
        which has no end."""
        movie, found = self.movie_timescale(), []
        if isinstance(scale, Bad):
            raise scale
        parts = first(inner(self.data, trak), b"edts")
        box = parts and first(inner(self.data, parts), b"elst")
        if box is not None:
            version = box[2][0] if box[2] else 2
            if version > 1:
                raise Bad(None, box)
            found = entries(box, 8, ">QqHH" if version else ">IiHH")
        if not movie or not scale or any(time < -1 or rate > 1 or rest for _, time, rate, rest in found):
            raise Bad(None)
        if sum(it[0] for it in found) >= 2**64:
            raise Bad(None)
        return movie, [it[:3] for it in found] or [(0, 0, 1)]

    def track(self, trak, beyond=True, edits=False):
        """Returns the number of a track, its timescale, its edits with the timescale of the movie if `edits` asks for
        them, its heading, its samples, and a list of its faults. It has at most one fault of its edits or samples. If
        its number can't be read, that is another, and it has no fragments."""
        number, name, scale = self.headers(trak)
        title, lost = f"track {number}", []
        if isinstance(number, Bad):
            title, lost, number = f"trak at {trak[1]}", [number.args[0]], None
        if not isinstance(name, Bad):
            is_text = all(0x20 <= byte < 0x7F for byte in name)
            title += ", " + (name.decode() if is_text else str(int.from_bytes(name, "big")))
        read, scale = scale, None if isinstance(scale, Bad) else scale
        if scale is not None:
            title += f", timescale {scale}"
        heading = f"{title}\n" + "  ".join(name.rjust(width) for name, width in zip(COLUMNS, WIDTHS)) + "\n"
        try:
            shown = self.edits(trak, read) if edits else None
            tables = self.tables(trak)
        except Bad as bad:
            return number, scale, None, "", [], [*lost, bad.args[0]]
        samples, found = self.listed(number, tables, beyond)
        return number, scale, shown, heading, samples, lost + found


def in_seconds(time, scale):
    """Returns a time in seconds, rounded to the nearest millionth. A half is rounded away from 0."""
    if not scale:
        return None
    rounded = int(fractions.Fraction(abs(time) * 1000000, scale) + fractions.Fraction(1, 2))
    return f"{'-' if time < 0 else ''}{rounded // 1000000}.{rounded % 1000000:06}"


def presented(movie, edits, scale, time):
    """Returns the seconds after which edits first present the time `time` of the media, or None if none does."""
    begin = fractions.Fraction(0)
    for index, (duration, start, rate) in enumerate(edits):
        lasts, passed = fractions.Fraction(duration, movie), fractions.Fraction(time - start, scale)
        is_open = index + 1 == len(edits) and duration == 0 and rate == 1
        if start >= 0 and (passed == 0 and lasts > 0 if rate == 0 else passed >= 0 and (is_open or passed < lasts)):
            return begin + passed
        begin += lasts
    return None


def presentation(time, scale, shown, seconds):
    """Returns the presentation time of a sample with the composition time `time`, by the edits `shown` or without any.
    It is None if it is unknown."""
    if shown is None:
        return in_seconds(time, scale) if seconds else time
    at = presented(*shown, scale, time) if 0 <= time < 2**64 else None
    if at is None:
        return None
    return in_seconds(at, 1) if seconds else int(at * scale)


def joined(form, names, values):
    """Returns a row as CSV or JSON. A value that isn't known is empty or null."""
    if form == "csv":
        return ",".join("" if value is None else str(value) for value in values) + "\n"
    words = ["null" if value is None else str(value) for value in values]
    return "{" + ", ".join(f'"{name}": {word}' for name, word in zip(names, words)) + "}"


def aligned(values, widths):
    """Returns a row as text. A value that isn't known is a dash."""
    return "  ".join(("-" if value is None else str(value)).rjust(width) for value, width in zip(values, widths)) + "\n"


def whole(form, head, pieces):
    """Returns the output of a form with these rows. `head` is the line of names of CSV."""
    if form == "json":
        return "[" + "".join((",\n" if index else "\n") + piece for index, piece in enumerate(pieces)) + "\n]\n"
    return (head if form == "csv" else "") + "".join(pieces)


def row(form, track, scale, shown, number, sample, seconds):
    """Returns the row of a sample."""
    offset, size, time, duration, shift, is_sync, description = sample
    decoded, lasts = (in_seconds(it, scale) if seconds else it for it in (time, duration))
    values = [number, offset, size, decoded, presentation(time + shift, scale, shown, seconds), lasts, int(is_sync),
              description]
    if form == "text":
        return aligned(values, WIDTHS)
    return joined(form, ["track", *COLUMNS, "timescale"], [track, *values, scale])


def written(data, form, chosen=None, beyond=False, seconds=False, sync=False, edits=False):
    """Returns the output, the faults and the status, with times in seconds, for sync samples only, or with presentation
    times by edit lists. A fault is the track's number, if it is known, and the text, if it is not the codec's."""
    file, pieces, faults = File(data), [], []
    faults += [(None, words) for words in file.faults]
    met = set()
    for trak in file.tracks:
        number, scale, shown, heading, samples, found = file.track(trak, beyond, edits)
        if number is None:
            found = [words and f"trak at {trak[1]}: {words}" for words in found[:1 if chosen is not None else None]]
        if number is None and chosen is not None:
            faults += [(None, words) for words in found]
        elif chosen is None or chosen == number and number not in met:
            if form == "text" and heading:
                pieces.append(("\n" if pieces else "") + heading)
            pieces += [row(form, number, scale, shown, index, sample, seconds)
                       for index, sample in enumerate(samples, 1) if sample[5] or not sync]
            faults += [(number, words) for words in found]
        met.add(number)
        file.fragments.pop(number, None)
    faults += [(number, "there is no trak") for number in sorted(file.fragments) if chosen in (None, number)]
    if chosen is not None and chosen not in met and chosen not in file.fragments:
        faults.append((chosen, "there is no trak"))
    if not file.is_movie:
        faults.append((None, "there is no moov, and no moof"))
    return whole(form, HEAD, pieces), faults, int(bool(faults))


def ends_before(file):
    """Returns the timescale of each track_ID, and the time at which the samples of its tables end. The first track of a
    track_ID counts. A value that can't be read is None."""
    known = {}
    for trak in file.tracks:
        number, _, scale = file.headers(trak)
        if isinstance(number, Bad) or number in known:
            continue
        try:
            table = trak
            for code in (b"mdia", b"minf", b"stbl"):
                table = first(inner(file.data, table), code)
                if table is None:
                    raise Bad(None)
            end = table_time(tables_of(file.data, table))
        except Bad:
            end = None
        known[number] = [None if isinstance(scale, Bad) else scale, end]
    return known


def segments(data, form, seconds=False):
    """Returns the output, the faults and the status of a row for each `moof`, with times in seconds if `seconds`."""
    file, pieces = File(data), []
    faults = [(None, words) for words in file.faults[:len(file.faults) - len(file.lost)]]
    known, top = ends_before(file), boxes(data, 0, len(data), True)
    trafs = {traf[1]: (track, header, base) for track, found in file.fragments.items()
             for _, traf, header, base in found}
    lost = {traf[1]: bad for _, traf, bad in file.lost}
    moofs = [index for index, box in enumerate(top) if box[0] == b"moof"]
    for number, (index, after) in enumerate(zip(moofs, [*moofs[1:], None]), 1):
        moof, first_one = top[index], None
        ends = [box[4] + len(box[2]) for box in [moof, *(box for box in top[index + 1:] if box[0] == b"mdat")]]
        size = (ends[-1] if after is None else top[after][1]) - moof[1]
        for order, traf in enumerate(box for box in inner(data, moof) if box[0] == b"traf"):
            try:
                if traf[1] in lost:
                    raise lost[traf[1]]
                track, header, base = trafs[traf[1]]
                begin, runs = file.fragment_of(track, traf, base, f"moof at {moof[1]}: ")
            except Bad as bad:
                faults.append((None, bad.args[0] and f"moof at {moof[1]}: {bad.args[0]}"))
                continue
            default = {**file.defaults[track], **header}["duration"]
            lasts = sum(sum(it.get("duration", default) for it in rows) if isinstance(rows, list) else count * default
                        for _, count, rows in runs)
            lasts = min(lasts, 2**64 - 1)
            scale, end = known.setdefault(track, [None, None])
            start = end if begin is None else begin
            if order == 0:
                first_one = [track, start, lasts, scale]
            known[track][1] = None if start is None else min(start + lasts, 2**64 - 1)
        track, start, lasts, scale = first_one or [None] * 4
        if seconds:
            start, lasts = (None if it is None else in_seconds(it, scale) for it in (start, lasts))
        values = [number, moof[1], size, track, start, lasts]
        if form == "text":
            pieces.append(aligned(values, SEGMENT_WIDTHS))
        else:
            pieces.append(joined(form, [*SEGMENT_COLUMNS, "timescale"], [*values, scale]))
    if not file.is_movie:
        faults.append((None, "there is no moov, and no moof"))
    if form == "text":
        pieces.insert(0, aligned(SEGMENT_COLUMNS, SEGMENT_WIDTHS))
    return whole(form, ",".join(SEGMENT_COLUMNS) + ",timescale\n", pieces), faults, int(bool(faults))
