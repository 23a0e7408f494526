"""The faults of the samples of a file a second time, by docs/CHECK.md and the standards only (ISO/IEC 14496-12, 8.5.2,
8.7, 8.8; 14496-15, 5.3.3, 8.3.3; 23001-7, 10; 23003-5; QuickTime), to compare `mp4inspect check --media` with. It
shares nothing with the product: samples are spelled out, and each NAL unit is cut from the bytes of its sample.

    faults(data, boxes, away)   the faults of the samples; `away` has the positions of tracks in other files"""

from tests.readers.samples import disagreement

AVC, HEVC = {"avc1", "avc2", "avc3", "avc4", "dva1", "dvav"}, {"hvc1", "hev1", "dvh1", "dvhe"}
BYTES = {"in24": 3, "in32": 4, "fl32": 4, "fl64": 8}
BY_SIZE = {"sowt", "twos", "raw "}
CLEAR = {b"cens", b"cbcs"}
MOST = 2**64 - 1


def inner(box, *names):
    """Returns the boxes in a box that have one of these names, or all boxes in it."""
    return [it for it in box.get("children", []) if not names or it["type"] in names]


def first(box, *path):
    """Returns the first box at a path, or an empty box."""
    for name in path:
        box = next(iter(inner(box, name)), {})
    return box


def piece(data, box, at, width):
    """Returns the bytes at an offset of the content of a box, or None if the box or the file ends before them."""
    if not box:
        return None
    begin = box["position"] + box["header"] + at
    end = begin + width
    return data[begin:end] if end <= min(box["position"] + box["length"], len(data)) else None


def number(data, box, at, width):
    found = piece(data, box, at, width)
    return int.from_bytes(found, "big") if found else 0


def rule_of(data, entry, handler, is_old):
    """Returns the rule about samples of an entry, a name and a number, or None."""
    name = entry["type"]
    if name == "encv":
        scheme, original = piece(data, first(entry, "sinf", "schm"), 4, 4), first(entry, "sinf", "frma")
        name = (piece(data, original, 0, 4) or b"").decode("latin-1") if scheme in CLEAR else None
    for names, code, at in ((AVC, "avcC", 4), (HEVC, "hvcC", 21)):
        if name in names:
            byte = piece(data, first(entry, code), at, 1)
            return byte and ("units", byte[0] % 4 + 1)
    channels, bits, version = (number(data, entry, at, 2) for at in (16, 18, 8))
    if name in ("ipcm", "fpcm"):
        bits = number(data, first(entry, "pcmC"), 5, 1)
        return "frames", channels * (0 if bits % 8 else bits // 8)
    if name in BY_SIZE or name in BYTES or name == "lpcm":
        if handler != b"soun":
            return "counted", 0
        if is_old and version == 2:
            return "counted", number(data, entry, 56, 4)
        each = BYTES.get(name) or (0 if bits % 8 or name == "lpcm" else bits // 8)
        return "counted", channels * each
    return None


def rules_of(data, trak):
    """Returns the rule about the samples of each entry of a track."""
    handler, table = b"", {}
    for box in inner(first(trak, "mdia")):
        if box["type"] == "hdlr":
            handler = piece(data, box, 8, 4) or b""
        if box["type"] == "minf":
            table = first(box, "stbl", "stsd")
            break
    is_old = piece(data, table, 0, 1) == b"\0"
    return [rule_of(data, entry, handler, is_old) for entry in inner(table)]


def past_unit(data, begin, end, width):
    """Returns the position of the first NAL unit that ends after its sample, or None."""
    rest = data[begin:end]
    while rest:
        length = int.from_bytes(rest[:width], "big")
        if len(rest) < width or len(rest) - width < length:
            return end - len(rest)
        rest = rest[width + length:]
    return None


class Samples:
    """The faults of the samples of a file."""

    def __init__(self, data, boxes, away, tables_of):
        self.data, self.left, self.found, self.rules = data, len(data), [], {}
        movie = next((box for box in boxes if box["type"] == "moov"), {})
        for index, trak in enumerate(inner(movie, "trak")):
            rules = [] if trak["position"] in away else rules_of(data, trak)
            header = first(trak, "tkhd")
            if "fields" in header:
                self.rules.setdefault(header["fields"]["track_ID"], rules)
            table = first(trak, "mdia", "minf", "stbl")
            tables = tables_of(table) if any(rules) else None
            if tables and not disagreement(tables):
                path = f"moov/trak{f'[{index}]' if index else ''}/mdia/minf/stbl"
                self.look(table, path, rules, self.of_tables(table, tables))
        self.fragments(movie, [box for box in boxes if box["type"] == "moof"])

    @staticmethod
    def of_tables(table, tables):
        """Yields the offset, the size and the number of the entry of each sample of tables that agree."""
        (count, one, sizes), entries = tables["sizes"], first(table, "stsc")["fields"]["entries"]
        starts, held, done = {run["first_chunk"]: run for run in entries}, None, 0
        for chunk, at in enumerate(tables["offsets"], 1):
            held = starts.get(chunk, held)
            for _ in range(min(held["samples_per_chunk"] if held else 0, count - done)):
                size = one or sizes[done]
                yield at, size, held["sample_description_index"]
                at += size
                done += 1

    def look(self, box, path, rules, samples):
        """Adds the faults of samples, up to the first that the file doesn't have."""
        if not any(rules):
            return
        wrong, count = {"nal-units-misfit": [], "pcm-frames-cut": []}, 0
        for at, size, entry in samples:
            if at + size > len(self.data) or max(size, 1) > self.left:
                break
            self.left -= max(size, 1)
            count += 1
            rule, value = (rules[entry - 1] if 0 < entry <= len(rules) else None) or (None, 0)
            if rule == "units":
                past = past_unit(self.data, at, at + size, value)
                if past is not None:
                    wrong["nal-units-misfit"].append((count, at, size, past))
            elif value and size % value and (rule == "frames" or size != 1):
                wrong["pcm-frames-cut"].append((count, at, size, value))
        many = f"{count} sample{'' if count == 1 else 's'}"
        for code, samples in wrong.items():
            if not samples:
                continue
            nth, at, size, value = samples[0]
            place = f"; the first is sample {nth} at offset {at} of {size} byte{'' if size == 1 else 's'}"
            if code == "nal-units-misfit":
                text = f"NAL units don't fill {len(samples)} of {many}{place}, whose unit at {value} ends after it"
            else:
                verb = "has" if len(samples) == 1 else "have"
                text = f"{len(samples)} of {many} {verb} a part of a frame{place}, and a frame has {value} bytes"
            self.found.append((box["position"], path, code, text))

    def fragments(self, movie, moofs):
        """Adds the faults of the samples of fragments (8.8)."""
        defaults = {}
        for trex in inner(first(movie, "mvex"), "trex"):
            if "fields" in trex:
                defaults.setdefault(trex["fields"]["track_ID"], trex["fields"])
        for m, moof in enumerate(moofs):
            end = moof["position"]
            for n, traf in enumerate(inner(moof, "traf")):
                path = f"moof{f'[{m}]' if m else ''}/traf{f'[{n}]' if n else ''}"
                end = self.traf(traf, path, moof["position"], end, defaults)

    def traf(self, traf, path, moof, before, defaults):
        """Adds the faults of the samples of a fragment, and returns the end of its data, or None."""
        header, time, runs = first(traf, "tfhd"), first(traf, "tfdt"), inner(traf, "trun")
        if "fields" not in header or any("fields" not in box for box in [time, *runs] if box):
            return None
        own, number_ = header["fields"], header["fields"]["track_ID"]
        base = own.get("base_data_offset", moof if own["flags"] & 0x20000 else before)
        if base is None or number_ not in defaults:
            return None
        usual, rules = defaults[number_], self.rules.get(number_, [])
        size = own.get("default_sample_size", usual["default_sample_size"])
        found = {"time": time["fields"]["baseMediaDecodeTime"] if time else 0, "size": size,
                 "duration": own.get("default_sample_duration", usual["default_sample_duration"]),
                 "entry": own.get("sample_description_index", usual["default_sample_description_index"])}
        runs = [box["fields"] for box in runs]
        self.look(traf, path, rules, self.of_runs(base, runs, **found))
        end = base
        for run in runs:
            sizes = run.get("sample_size", [])
            end = base + run["data_offset"] if "data_offset" in run else end
            end += sum(sizes) if sizes else run["sample_count"] * size
        return end if 0 <= end <= MOST else None

    @staticmethod
    def of_runs(base, runs, time, size, duration, entry):
        """Yields the offset, the size and the number of the entry of each sample of runs, up to the first that begins
        before the file or ends after 2^64 - 1."""
        at = base
        for run in runs:
            sizes, times = run.get("sample_size", []), run.get("sample_duration", [])
            at = base + run["data_offset"] if "data_offset" in run else at
            for index in range(run["sample_count"]):
                one = sizes[index] if sizes else size
                time += times[index] if times else duration
                if at < 0 or at + one > MOST or time > MOST:
                    return
                yield at, one, entry
                at += one


def faults(data, boxes, away, tables_of):
    """Returns the position, the path, the code and the text of each fault of the samples of a file."""
    return Samples(data, boxes, away, tables_of).found
