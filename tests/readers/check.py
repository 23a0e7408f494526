"""Computes the faults of a file a second time, by docs/CHECK.md and the standards only, to compare `mp4inspect check`
with. `faults` gives them in their order, and `lines` their lines. `media.py` has those of samples. It shares nothing
with the product."""

from tests.readers import media as samples_of
from tests.readers.headers import Fault, Header
from tests.readers.inspect import code_text, first, in_level, value_of
from tests.readers.readers import read_row
from tests.readers.samples import disagreement

# The boxes of which a box has to have one, and those of which it may have at most one (ISO/IEC 14496-12, the quantity
# of each box; 8.5.1 for `stbl`). Of the boxes in one string there is only one in all.
NEEDED = {"moov": ["mvhd cmov rmra"], "trak": ["tkhd", "mdia"], "mdia": ["mdhd", "minf"], "minf": ["stbl"],
          "moof": ["mfhd"], "traf": ["tfhd"], "stbl": ["stsd", "stts", "stsc", "stsz stz2", "stco co64"]}
ONCE = {"moov": "mvhd iods mvex meta udta".split(), "trak": "tkhd tref trgr edts mdia meta udta".split(),
        "mdia": "mdhd hdlr elng minf".split(), "minf": ["vmhd smhd hmhd sthd nmhd gmhd", "dinf", "stbl", "hdlr"],
        "stbl": ["stsz stz2", "stco co64", *"stsd stts ctts cslg stsc stss stsh padb stdp sdtp".split()],
        "moof": "mfhd meta udta".split(), "traf": "tfhd tfdt sdtp meta udta".split()}
FILES = {"moov", "moof", "meta", "sidx"}
WARNINGS = {"box-repeated", "track-id-zero", "chunks-overlap", "media-duration", "track-duration", "movie-duration",
            "decode-time-back", "pcm-frames-cut"}
NOT_MP4, CUT, SMALL = "this is not an MP4 file", "unexpected end of input", "box size too small"
MOST = 2**64 - 1


def is_whole(box):
    """Returns whether the whole box is present. It may have another fault."""
    return not box.get("cut")


def known(version, duration):
    """Returns whether a header of this version has a known duration: not all bits of it are set."""
    return duration != (2**32 if version == 0 else 2**64) - 1


def children(box, name):
    return [inner for inner in box.get("children", []) if inner["type"] == name]


def inside(box, *names):
    """Returns the box at the end of a path of first boxes, or an empty box."""
    for name in names:
        box = first(box.get("children", []), name)
    return box


def below(box):
    """Yields the boxes in a box, at every level."""
    for inner in box.get("children", []):
        yield inner, box
        yield from below(inner)


def compact_fault(fields):
    """Returns why the sizes in the fields of an `stz2` can't be listed, or None if they can (8.7.3.3)."""
    if fields["field_size"] not in (4, 8, 16):
        return "field_size must be 4, 8 or 16"
    return None if "entry_size" in fields else "sample_count indicates more sizes than could fit in the box"


def sizes_in(box):
    """Returns the number of samples, their one size or 0, and the list of their sizes, in an `stsz` or `stz2`. Returns
    None if the sizes of an `stz2` can't be listed."""
    fields = box["fields"]
    if box["type"] == "stsz":
        return fields["sample_count"], fields["sample_size"], fields["entry_size"]
    return None if compact_fault(fields) else (fields["sample_count"], 0, fields["entry_size"])


def tables_of(table):
    """Returns the tables of samples in an `stbl`, the first of each, or None if one is missing or can't be read."""
    found = {}
    for box in table.get("children", []):
        found.setdefault(box["type"], box)
    chunks, sizes = found.get("stco") or found.get("co64"), found.get("stsz") or found.get("stz2")
    parts = [sizes, chunks, found.get("stsc"), found.get("stts")]
    used = [*parts, *(found[name] for name in ("ctts", "stss") if name in found)]
    if None in parts or not all("fields" in box for box in used) or sizes_in(sizes) is None:
        return None
    runs, times = found["stsc"]["fields"], found["stts"]["fields"]
    sync = found["stss"]["fields"]["sample_number"] if "stss" in found else None
    return {"sizes": sizes_in(sizes), "offsets": chunks["fields"]["chunk_offset"], "sync": sync,
            "runs": [(run["first_chunk"], run["samples_per_chunk"], 0) for run in runs["entries"]],
            "durations": [(time["sample_count"], time["sample_delta"]) for time in times["entries"]]}


def chunk_sizes(tables):
    """Returns the number of bytes of each chunk, for tables that agree (8.7.3, 8.7.4)."""
    (count, one, sizes), held, passed, found = tables["sizes"], 0, 0, []
    starts = {run[0]: run[1] for run in tables["runs"]}
    for chunk in range(1, len(tables["offsets"]) + 1):
        held = starts.get(chunk, held)
        samples = min(held, count - passed)
        found.append(one * samples if one else sum(sizes[passed:passed + samples]))
        passed += samples
    return found


class Check:
    """The faults of a file."""

    def __init__(self, data, boxes):
        self.data, self.boxes, self.found, self.length = data, boxes, [], len(data)
        self.media = [(box["position"] + box["header"], min(box["position"] + box["length"], len(data)))
                      for box in boxes if box["type"] == "mdat"]
        self.movie = first(boxes, "moov")
        self.level(boxes, "", None, 0)
        self.tracks()
        self.fragments()
        self.indexes()
        if not FILES & {box["type"] for box in boxes}:
            self.add(0, "moov", "movie-missing", "there is no moov, moof, meta or sidx")

    def add(self, position, path, code, text):
        severity = "warning" if code in WARNINGS else "error"
        self.found.append({"position": position, "path": path, "code": code, "severity": severity, "text": text})

    # ---- single boxes

    def level(self, level, front, parent, depth):
        """Adds the faults of the boxes of a level, whose paths begin with `front`, and of those in them."""
        groups = {}
        for box, path in in_level(level, front):
            self.unreadable(box, path, depth)
            group = next((names for names in ONCE.get(parent, []) if box["type"] in names.split()), None)
            if group in groups:
                self.add(box["position"], path, "box-repeated", f"a {parent} may have only one "
                         f"{', '.join(group.split())}, and there is one before this at {groups[group]}")
            if group:
                groups[group] = box["position"]
            if is_whole(box) and "children" in box:
                has = {inner["type"] for inner in box["children"]}
                for names in NEEDED.get(box["type"], []):
                    if not has & set(names.split()):
                        names = names.split()[:1] if box["type"] == "moov" else names.split()
                        self.add(box["position"], path, "box-missing", f"there is no {' or '.join(names)}")
            self.contents(box, path, parent, depth)
            self.level(box.get("children", []), path + "/", box["type"], depth + 1)

    def unreadable(self, box, path, depth):
        """Adds the fault of a box that can't be read."""
        said, declared = box.get("fault"), box["length"]
        if said is None:
            return
        present = self.length - box["position"]
        if said.startswith(NOT_MP4):
            self.add(box["position"], path, "not-mp4", said)
        elif said == CUT and box.get("cut") and depth == 0 and declared > present:
            lost = f"the file lost its last {declared - present} bytes"
            self.add(box["position"], path, "file-cut",
                     f"{code_text(box['type'])} declares {declared} bytes and {present} are present: {lost}"
                     + ("" if box["type"] == "mdat" else ", or this size is wrong"))
        else:
            code = {CUT: "box-cut", SMALL: "box-too-small"}.get(said) if box.get("cut") else None
            self.add(box["position"], path, code or "box-invalid", said)

    def contents(self, box, path, parent, depth):
        """Adds the faults of the content of a box that is whole."""
        if not is_whole(box):
            return
        fields = box.get("fields")
        if fields and box["type"] == "stz2" and parent == "stbl" and depth == 5 and compact_fault(fields):
            self.add(box["position"], path, "sizes-unlisted", compact_fault(fields))
        if box["type"] == "avcC" and parent in ("avc1", "avc2") and self.lacks_sets(box):
            self.add(box["position"], path, "avc-without-sets",
                     "there is no sequence parameter set or no picture parameter set")

    def lacks_sets(self, box):
        """Returns whether a kind of parameter set is missing in an `avcC`. What follows the sets may be faulty."""
        own = self.data[box["position"]:box["position"] + box["length"]]
        try:
            found = read_row(own, Header(own, 0))
        except Fault:
            return False
        return not found["sequence_parameter_sets"] or not found["picture_parameter_sets"]

    # ---- tracks

    def tracks(self):
        """Adds the faults of the tracks of the first `moov`, and of its header."""
        self.headers, self.away, self.elsewhere, longest = {}, set(), set(), None
        fragmented = bool(children(self.movie, "mvex"))
        header = inside(self.movie, "mvhd")
        for number, trak in enumerate(children(self.movie, "trak")):
            front = f"moov/trak[{number}]" if number else "moov/trak"
            self.track(trak, front, header, fragmented)
            own = inside(trak, "tkhd").get("fields")
            if own and known(own["version"], own["duration"]):
                longest = max(longest or 0, own["duration"])
        fields = header.get("fields")
        if fields and longest is not None and not fragmented:
            self.duration(header, "moov/mvhd", "movie-duration", fields["timescale"], longest,
                          "that of the longest track")

    def duration(self, box, path, code, timescale, found, other):
        """Adds the fault of a duration that differs by a second or more from `found`."""
        fields = box["fields"]
        declared = fields["duration"]
        if not known(fields["version"], declared) or not timescale or abs(declared - found) < timescale:
            return
        self.add(box["position"], path, code,
                 f"the duration is {declared}, and {other} {found}, in ticks of 1/{timescale} s")

    def track(self, trak, front, movie, fragmented):
        """Adds the faults of a track."""
        header, media = inside(trak, "tkhd"), inside(trak, "mdia", "mdhd")
        away = any(parent["type"] == "dref" and is_whole(box) and box["length"] - box["header"] >= 4
                   and not self.data[box["position"] + box["header"] + 3] & 1 for box, parent in below(trak))
        if away:
            self.elsewhere.add(trak["position"])
        table = inside(trak, "mdia", "minf", "stbl")
        tables = tables_of(table) if is_whole(table) else None
        said = disagreement(tables) if tables else None
        end = min(sum(count * delta for count, delta in tables["durations"]), MOST) if tables and not said else None
        if "fields" in header:
            self.header(header, front + "/tkhd", away)
            if "fields" in movie and not fragmented:
                scale = movie["fields"]["timescale"]
                found = self.track_duration(trak, end, media.get("fields"), scale)
                if found is not None:
                    self.duration(header, front + "/tkhd", "track-duration", scale, found,
                                  "that of the edits or the samples")
        if "fields" in media and end is not None and not fragmented:
            self.duration(media, front + "/mdia/mdhd", "media-duration", media["fields"]["timescale"], end,
                          "that of the samples")
        if said:
            self.add(table["position"], front + "/mdia/minf/stbl", "tables-disagree", said)
        box = inside(table, "stco") or inside(table, "co64")
        if away or not box:
            return
        offsets = value_of(box, "chunk_offset") or []
        sizes = chunk_sizes(tables) if tables and not said else [1] * len(offsets)
        self.chunks(box, f"{front}/mdia/minf/stbl/{box['type']}", list(zip(offsets, sizes)))

    def header(self, header, path, away):
        """Adds the fault of the track_ID of a track, and keeps the track if it is the first with it."""
        number = header["fields"]["track_ID"]
        if number == 0:
            self.add(header["position"], path, "track-id-zero",
                     "track_ID 0 is no number of a track; these begin at 1")
        elif number in self.headers:
            self.add(header["position"], path, "track-id-repeated",
                     f"track_ID {number} is that of another track too, whose tkhd is at {self.headers[number]}")
        if number not in self.headers:
            self.headers[number] = header["position"]
            if away:
                self.away.add(number)

    @staticmethod
    def track_duration(trak, end, media, scale):
        """Returns the duration of a track by its edits, or by its samples if it has none, or None if it isn't known."""
        box = inside(trak, "edts", "elst")
        if box and "fields" not in box:
            return None
        edits = value_of(box, "entries") or []
        if edits:
            total = min(sum(edit["segment_duration"] for edit in edits), MOST)
            return total if edits[-1]["segment_duration"] else None
        if end is None or not media or not media["timescale"]:
            return None
        return min(end * scale // media["timescale"], MOST)

    def chunks(self, box, path, chunks):
        """Adds the faults of the chunks of a track."""
        said = self.outside("chunk", chunks)
        if said:
            self.add(box["position"], path, "chunk-outside-media", said)
        shared = [index for index in range(1, len(chunks)) if max(chunks[index - 1][0], chunks[index][0]) < min(
            sum(chunks[index - 1]), sum(chunks[index]))]
        if shared:
            number, (begin, size) = shared[0] + 1, chunks[shared[0] - 1]
            many = "chunk shares" if len(shared) == 1 else "chunks share"
            self.add(box["position"], path, "chunks-overlap",
                     f"{len(shared)} {many} bytes with the chunk before; the first is chunk {number} at offset "
                     f"{chunks[number - 1][0]}, and chunk {number - 1} has the bytes from {begin} to "
                     f"{min(begin + size, MOST)}")

    def outside(self, word, places):
        """Returns the text about chunks or runs that are not in one `mdat`, or None."""
        found = [(index, at, at + size) for index, (at, size) in enumerate(places, 1)
                 if not any(begin <= at and at + size <= last for begin, last in self.media)]
        if not found:
            return None
        count, every = len(found), len(places)
        many = f"{word} lies" if every == 1 else f"{word}s lies" if count == 1 else f"{word}s lie"
        text = f"{count} of {every} {many} outside the media data; the first is {word} {found[0][0]}"
        _, at, end = found[0]
        if at < 0:
            return f"{text}, which begins before the file"
        text += f" at offset {min(at, MOST)}"
        if at >= self.length:
            return f"{text}, past the end of the file ({self.length} bytes)"
        if end > self.length:
            return f"{text}, which ends at {min(end, MOST)}, past the end of the file ({self.length} bytes)"
        for begin, last in self.media:
            if begin <= at < last:
                return f"{text}, which ends at {end}, past the end of its mdat at {last}"
        return f"{text}, which is in no mdat"

    # ---- fragments and indexes

    def fragments(self):
        """Adds the faults of the fragments of all tracks."""
        defaults, times = {}, {}
        for trex in children(inside(self.movie, "mvex"), "trex"):
            if "fields" in trex:
                defaults.setdefault(trex["fields"]["track_ID"], trex["fields"]["default_sample_size"])
        moofs = [box for box in self.boxes if box["type"] == "moof"]
        for number, moof in enumerate(moofs):
            self.before = moof["position"]
            for index, traf in enumerate(children(moof, "traf")):
                front = "moof" + (f"[{number}]" if number else "") + "/traf" + (f"[{index}]" if index else "")
                self.traf(traf, front, moof["position"], defaults, times)

    def traf(self, traf, front, moof, defaults, times):
        """Adds the faults of a fragment."""
        before, self.before = self.before, None
        header, time, runs = inside(traf, "tfhd"), inside(traf, "tfdt"), children(traf, "trun")
        is_read = "fields" in header and all("fields" in box for box in [time, *runs] if box)
        if is_read and is_whole(traf):
            places = self.runs(header["fields"], [run["fields"] for run in runs], moof, before, defaults)
            number = header["fields"]["track_ID"]
            is_absolute = "base_data_offset" in header["fields"] and not self.movie
            if places and number not in self.away and not is_absolute:
                said = self.outside("run", places)
                if said:
                    self.add(traf["position"], front, "run-outside-media", said)
        if "fields" in header and self.movie and header["fields"]["track_ID"] not in self.headers:
            self.add(header["position"], front + "/tfhd", "track-id-unknown",
                     f"track_ID {header['fields']['track_ID']} is that of no track of the moov")
        if is_read and is_whole(traf) and time:
            start, number = time["fields"]["baseMediaDecodeTime"], header["fields"]["track_ID"]
            if start < times.get(number, 0):
                self.add(time["position"], front + "/tfdt", "decode-time-back", f"the fragment starts at {start}, "
                         f"and the fragment of this track before it at {times[number]}")
            times[number] = start

    def runs(self, header, runs, moof, before, defaults):
        """Returns the offset and the size of each run of a fragment, or None if they aren't known, and keeps the end of
        its data (8.8.7, 8.8.8)."""
        base = header.get("base_data_offset")
        if base is None:
            base = moof if header["flags"] & 0x20000 else before
        default = header.get("default_sample_size", defaults.get(header["track_ID"]))
        if base is None or default is None and any(
                len(run.get("sample_size", [])) < run["sample_count"] for run in runs):
            return None
        at, found = base, []
        for run in runs:
            sizes = run.get("sample_size", [])
            at = base + run["data_offset"] if "data_offset" in run else at
            size = sum(sizes) if sizes else run["sample_count"] * (default or 0)
            found.append((at, size))
            at += size
        self.before = at if 0 <= at <= MOST else None
        return found

    def indexes(self):
        """Adds the faults of the indexes of a file with fragments (8.16.3)."""
        if not any(box["type"] == "moof" for box in self.boxes):
            return
        starts = {box["position"] for box in self.boxes} | {self.length}
        for number, box in enumerate(box for box in self.boxes if box["type"] == "sidx"):
            entries = value_of(box, "references") or []
            at = box["position"] + box["length"] + (value_of(box, "first_offset") or 0)
            sizes = [entry["referenced_size"] for entry in entries]
            wrong = [before for before in range(len(sizes) + 1) if at + sum(sizes[:before]) not in starts]
            if entries and wrong:
                many = "subsegment" if wrong[0] == 1 else "subsegments"
                place = min(at + sum(sizes[:wrong[0]]), MOST)
                self.add(box["position"], "sidx" + (f"[{number}]" if number else ""), "index-sizes",
                         f"after {wrong[0]} {many} the index is at {place}, where no box begins and the file doesn't "
                         "end")


def line(fault):
    """Returns the line of a fault."""
    warning = "warning: " if fault["severity"] == "warning" else ""
    return f"{fault['position']} {fault['path']}: {warning}{fault['text']}"


def faults(data, boxes, media=False):
    """Returns the faults of a file, in the order in which `check` writes them, with those of samples if `media`."""
    found = Check(data, boxes)
    if media:
        for fault in samples_of.faults(data, boxes, found.elsewhere, tables_of):
            found.add(*fault)
    return found.found


def lines(found):
    return [line(fault) for fault in found]


def status(found, strict=False):
    """Returns the status with which `check` ends."""
    return int(any(strict or fault["severity"] == "error" for fault in found))
