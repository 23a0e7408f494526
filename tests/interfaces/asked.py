"""Asks each interface about the movie of a file, and compares what it says with the file's answer. `INTERFACES` has a
function for each: it yields the differences, as texts. A new interface needs its function there. `Answers.prepare` of
test_one_answer.py makes what a function needs before several threads call it.

No interface is compared with texts that its answer doesn't need. Messages of faults have to name the box and the reason
that the tree shows for it."""

import functools
import json
import os
import re
import shutil
import subprocess

from tests.built import TOP, built, codec, library
from tests.interfaces.answers import Problem, Sample, Samples, listed
from tests.readers.check import compact_fault, sizes_in
from tests.readers.inspect import code_text, every, first, value_of
from tests.readers.samples import disagreement, table_steps, unlisted

END, INVALID, NOT_FOUND, NO_TRACK = 1, 2, 3, 101
# The fault of a box that isn't whole, or is too short for its fields. For a box that is smaller than its header, the
# tree and `check` have another text.
CUT, SMALL = "unexpected end of input", "box size too small"
# The statuses of the library for C, by the texts of problems.
STATUSES = {
    "there is no ": NOT_FOUND, r"stsz counts .* and lists": 110, "the first entry of stsc": 111,
    "entry .* of stsc begins no later": 112, "the chunks hold": 114, "stts has a duration for": 115,
    "entry .* of stss": 116, "a chunk begins at": 117, "moof at .* is outside the file": 117,
    "moof at .* ends past": 115, "the data before a fragment": 117,
}
# The statuses of the errors in Rust.
ERRORS = {
    "EndOfInput": END, "InvalidData": INVALID, "BoxNotFound": NOT_FOUND, "TrakNotFound": NO_TRACK,
    "SampleSizesDisagree": 110, "FirstChunkDisagrees": 111, "ChunkOrderDisagrees": 112, "ChunkCountDisagrees": 113,
    "ChunksDisagree": 114, "DurationsDisagree": 115, "SyncSamplesDisagree": 116, "OffsetsDisagree": 117,
}


class Asked:
    """A file, and what interfaces say of it."""

    def __init__(self, program, path, data):
        self.program, self.path, self.data = program, path, data

    def run(self, *words):
        """Runs mp4inspect with `words` over the file. Returns its output and its messages."""
        words = [self.program, *words, "--", self.path]
        done = subprocess.run(words, capture_output=True, stdin=subprocess.DEVNULL, timeout=120, check=False)
        if done.returncode not in (0, 1):
            raise AssertionError(f"{words}: status {done.returncode}, {done.stderr.decode()}")
        return done.stdout.decode(), done.stderr.decode()

    @functools.cached_property
    def boxes(self):
        """The boxes of the tree, as JSON."""
        return json.loads(self.run("--json")[0])[0]["boxes"]

    @functools.cached_property
    def reasons(self):
        """The faults of boxes by their positions: those that the tree shows, and those of the sizes in an `stz2`, whose
        fields the tree shows without a fault."""
        sizes = {box["position"]: compact_fault(box["fields"]) for box, _ in every(self.boxes)
                 if box["type"] == "stz2" and "fields" in box}
        shown = {box["position"]: box["fault"] for box, _ in every(self.boxes) if "fault" in box}
        return {**{position: fault for position, fault in sizes.items() if fault}, **shown}

    @functools.cached_property
    def tree(self):
        """The boxes, as Python finds them."""
        return codec().tree(self.data)


def differ(what, found, wanted):
    """Yields the difference between two values."""
    if found == wanted:
        return
    if isinstance(found, list) and isinstance(wanted, list):
        index = next((at for at, pair in enumerate(zip(found, wanted)) if pair[0] != pair[1]), None)
        if index is None:
            more = max(found, wanted, key=len)[min(len(found), len(wanted)):]
            yield f"{what}: {len(found)} and not {len(wanted)}: {more[:3]}"
        else:
            yield f"{what}, number {index}: {found[index]} and not {wanted[index]}"
    else:
        yield f"{what}: {found} and not {wanted}"


def known(found):
    """Returns a value, or None if it is a problem."""
    return None if isinstance(found, Problem) else found


# ---- the tree


def words_of(line):
    """Returns the track_ID and the handler that the end of a line of a `trak` shows, each None if it doesn't."""
    number, handler = re.search(r"\btrack (\d+)\b", line), re.search(r" \((.{4}|0x[0-9a-f]{8})\)", line)
    return number and int(number[1]), handler and handler[1]


def handler_text(handler):
    return None if known(handler) is None else code_text(handler.decode("latin-1"))


def tree_as_text(asked, answer):
    """The lines of tracks show the track_ID and the handler, if these can be read. Other boxes `trak` show neither."""
    tracks, others, is_first, movies = [], [], False, 0
    for line in asked.run("--rows", "0")[0].splitlines():
        if not line.startswith(" "):
            movies += line.startswith("moov @")
            is_first = line.startswith("moov @") and movies == 1
        found = re.match(r"( +)trak @(\d+) \+\d+(.*)", line)
        if found and is_first and len(found[1]) == 2:
            tracks.append((int(found[2]), *words_of(found[3])))
        elif found and words_of(found[3]) != (None, None):
            others.append(line.strip())
    wanted = [(it.position, known(it.track_id), handler_text(it.handler)) for it in answer.tracks]
    yield from differ("the lines of tracks", tracks, wanted)
    yield from differ("lines of no tracks that show one", others, [])


def field_of(boxes, name, field):
    """Returns the field `field` of the first box with the name `name`, or the problem because of which there is
    none."""
    box = first(boxes, name)
    if not box:
        return Problem(f"there is no {name}")
    return Problem(None, name, box["position"]) if "fault" in box else value_of(box, field)


def shown_tables(trak):
    """Returns the samples of a track by the fields that the tree shows, in the order of readers/samples.py."""
    for name in ("mdia", "minf", "stbl"):
        trak = first(trak.get("children", []), name)
        if not trak:
            return Samples([], Problem(f"there is no {name}"))
    boxes, is_wide = trak.get("children", []), not first(trak.get("children", []), "stco")
    chunks, counted = "co64" if is_wide else "stco", "stsz" if first(trak.get("children", []), "stsz") else "stz2"
    names = [counted, chunks, "stsc", "stts", "ctts", "stss"]
    found = {name: first(boxes, name) for name in names}
    for name in names:
        if "fault" in found[name] or name == counted and found[name] and not sizes_in(found[name]):
            return Samples([], Problem(None, name, found[name]["position"]))
        if name == chunks and not found[counted] and not value_of(found[chunks], "chunk_offset"):
            return Samples([])
        if not found[counted] and name == chunks:
            return Samples([], Problem("there is no stsz"))
        if not found[name] and name not in (counted, "ctts", "stss"):
            return Samples([], Problem("there is no stco" if name == chunks else f"there is no {name}"))
    rows = {name: value_of(found[name], "entries") for name in ("stsc", "stts", "ctts")}
    tables = {
        "sizes": sizes_in(found[counted]), "offsets": value_of(found[chunks], "chunk_offset"),
        "runs": [(it["first_chunk"], it["samples_per_chunk"], it["sample_description_index"]) for it in rows["stsc"]],
        "durations": [(it["sample_count"], it["sample_delta"]) for it in rows["stts"]],
        "shifts": [(it["sample_count"], it["sample_offset"]) for it in rows["ctts"] or []],
        "sync": value_of(found["stss"], "sample_number")}
    fault = disagreement(tables)
    return Samples([], Problem(fault)) if fault else listed(table_steps(tables))


def tree_as_json(asked, answer):
    """The boxes of the first `moov` have the fields of its tracks, or their faults."""
    tracks = []
    for trak in first(asked.boxes, "moov").get("children", []):
        if trak["type"] == "trak":
            boxes = trak.get("children", [])
            media = first(boxes, "mdia")
            handler, timescale = (field_of(media.get("children", []), *names) if media else Problem("there is no mdia")
                                  for names in (("hdlr", "handler_type"), ("mdhd", "timescale")))
            handler = handler if isinstance(handler, Problem) else handler.encode("latin-1")
            tracks.append((trak["position"], field_of(boxes, "tkhd", "track_ID"), handler, timescale,
                           shown_tables(trak)))
    yield from differ("the tracks", tracks, [it[:5] for it in answer.tracks])


# ---- check


def lines_of(found):
    """Returns the lines of `check` by the paths of boxes: for each the positions and the texts."""
    lines = {}
    for line in found.splitlines():
        position, path, text = re.match(r"(\d+) ((?:[^:]|:(?! ))+): (.*)", line).groups()
        lines.setdefault(path, []).append((int(position), text))
    return lines


def around(code):
    """Returns the path in a `trak` of the box that holds the boxes `code`."""
    places = {"tkhd": "", "mdia": "", "hdlr": "/mdia", "mdhd": "/mdia", "minf": "/mdia", "stbl": "/mdia/minf"}
    return places.get(code, "/mdia/minf/stbl")


def reported(lines, trak, problem, reasons):
    """Returns whether `lines` report a problem of the track at the path `trak`. A box that isn't whole has the fault
    that it isn't, and its missing boxes aren't reported."""
    code = problem.code or problem.text.removeprefix("there is no ").split()[0]
    if problem.text is None:
        path = f"{trak}{around(code)}/{code}"
        return (problem.position, reasons.get(problem.position)) in lines.get(path, [])
    if not problem.text.startswith("there is no "):
        return has_text(lines, f"{trak}/mdia/minf/stbl", problem.text) or is_cut(lines, f"{trak}/mdia/minf/stbl")
    return has_text(lines, trak + around(code), "no " + code) or is_cut(lines, trak + around(code))


def has_text(lines, path, text):
    return any(text in found for _, found in lines.get(path, []))


def is_cut(lines, path):
    """Returns whether the box at a path isn't whole. Then its boxes aren't counted, and its tables aren't compared."""
    return has_text(lines, path, CUT) or has_text(lines, path, SMALL)


def check(asked, answer):
    """The problems of the headers and the tables of tracks are reported, and no others. The second track of a track_ID
    is reported, and fragments of no track."""
    lines = lines_of(asked.run("check")[0])
    twice, disagree = [], []
    for number, track in enumerate(answer.tracks):
        trak = f"moov/trak[{number}]" if number else "moov/trak"
        problems = [it for it in (*track[1:4], track.tables.problem) if isinstance(it, Problem)]
        for problem in problems:
            # A track without a handler is no fault, for `check`.
            if problem.text != "there is no hdlr" and not reported(lines, trak, problem, asked.reasons):
                yield f"{trak}: {problem} is not reported"
        for name in ("tkhd", "mdia/hdlr", "mdia/mdhd"):
            for position, text in lines.get(f"{trak}/{name}", []):
                is_known = any(it.position == position and it.text is None for it in problems)
                if not is_known and not re.match("warning: |track_ID", text):
                    yield f"{trak}/{name}: {text}"
        one = answer.first(track.track_id)
        if isinstance(track.track_id, int) and one is not track and track.track_id:
            twice.append(f"{trak}/tkhd: track_ID {track.track_id} is that of another track too")
        text = track.tables.problem and track.tables.problem.text
        if text and not text.startswith("there is no") and not is_cut(lines, f"{trak}/mdia/minf/stbl"):
            disagree.append(f"{trak}: {text}")
    said = [(path, text) for path, found in lines.items() for _, text in found]
    yield from differ("track_IDs that two tracks have", [
        f"{path}: {text.split(', whose')[0]}" for path, text in said if "is that of another track too" in text], twice)
    yield from differ("tables that disagree", [
        f"{path.removesuffix('/mdia/minf/stbl')}: {text}" for path, text in said
        if re.fullmatch(r"moov/trak(\[\d+\])?/mdia/minf/stbl", path) and any(
            re.match(pattern, text) for pattern in STATUSES if pattern != "there is no ")], disagree)
    unknown = [it.track_id for it in answer.trafs if it.track_id is not None and not answer.first(it.track_id)]
    yield from differ("fragments of no track", [
        int(re.match(r"track_ID (\d+) is that of no track", text)[1]) for path, text in said
        if path.endswith("/tfhd") and "is that of no track" in text], unknown if answer.has_moov else [])


# ---- samples


def rows_of(track):
    """Returns the samples of a track before the first problem."""
    if track.tables.problem:
        return Samples([], track.tables.problem)
    return Samples(track.tables.listed + track.fragments.listed, track.fragments.problem)


def limited(samples, length):
    """Returns the samples that are listed, and whether others aren't, since they end past the end of the file."""
    empty = 0
    for number, sample in enumerate(samples, 1):
        if unlisted(sample, number, empty, length):
            return samples[:number - 1], True
        empty = 0 if sample.size else empty + 1
    return samples, False


def names_of(problem, reasons):
    """Returns the texts that a message of a problem has."""
    if problem.text is None:
        reason = reasons.get(problem.position, "?")
        return [problem.code, CUT if reason == SMALL else reason]
    if problem.text.startswith("there is no"):
        return [" ".join(problem.text.split()[:4])]
    return [problem.text]


def messages_of(answer, reasons, length, is_movie):
    """Returns the messages that `samples` has to write: the track_ID of each, and the texts that it has."""
    found = []
    for traf in answer.trafs:
        if traf.track_id is None:
            found.append((None, names_of(traf.problem, reasons)))
    for track in answer.tracks:
        if isinstance(track.track_id, Problem):
            found.append((None, names_of(track.track_id, reasons)))
        rows = rows_of(track)
        if limited(rows.listed, length)[1]:
            found.append((known(track.track_id), ["not listed (--beyond lists"]))
        elif rows.problem:
            found.append((known(track.track_id), names_of(rows.problem, reasons)))
    unknown = {it.track_id for it in answer.trafs if it.track_id is not None and not answer.first(it.track_id)}
    found += [(track_id, ["there is no trak"]) for track_id in unknown]
    return found + [(None, ["there is no moov"])] * (not is_movie)


def table_of(out):
    """Returns the rows of samples in CSV. A track_ID that can't be read is None."""
    return [tuple(int(cell) if cell else None for cell in line.split(",")) for line in out.splitlines()[1:]]


def samples(asked, answer):
    """Each row is of a sample, and the headings show what is known of tracks. There is a message for each track that
    has a problem, and for each fragment of no track. With `--track` the first track of a track_ID has rows."""
    def wanted(track):
        return [(known(track.track_id), number, it.offset, it.size, it.time, it.time + it.shift, it.duration,
                 int(it.is_sync), it.description, known(track.timescale))
                for number, it in enumerate(limited(rows_of(track).listed, len(asked.data))[0], 1)]
    known_tracks = [it for it in answer.tracks if isinstance(it.track_id, int)]
    out, said = asked.run("samples", "--csv")
    yield from differ("the rows of samples", table_of(out), [row for it in answer.tracks for row in wanted(it)])
    for track in known_tracks:
        if answer.first(track.track_id) is not track:
            out, _ = asked.run("samples", "--csv", "--track", str(track.track_id))
            yield from differ(f"the rows of track_ID {track.track_id}", table_of(out), wanted(answer.first(
                track.track_id)))
    headings = [re.fullmatch(r"track (\d+)(?:, (.{4}|\d+))?(?:, timescale (\d+))?", line)
                for line in asked.run("samples")[0].splitlines() if line.startswith("track ")]
    yield from differ("the headings", [(int(it[1]), it[2], it[3] and int(it[3])) for it in headings], [
        (it.track_id, heading_text(it.handler), known(it.timescale)) for it in answer.tracks
        if isinstance(it.track_id, int) and not it.tables.problem])
    left = [line.removeprefix(f"mp4inspect: {asked.path}: ") for line in said.splitlines()]
    is_movie = any(box["type"] in ("moov", "moof") for box in asked.boxes)
    for track_id, texts in messages_of(answer, asked.reasons, len(asked.data), is_movie):
        found = next((line for line in left if all(text in line for text in texts)
                      and line.startswith(f"track {track_id}: ") == (track_id is not None)), None)
        if found is None:
            yield f"no message has {texts}" + ("" if track_id is None else f" of track {track_id}") + f": {left}"
        else:
            left.remove(found)
    # A trex that can't be read is no problem of a track.
    yield from differ("other messages", [line for line in left if not re.match(r"trex\b", line)], [])


def heading_text(handler):
    """Returns the text of a handler in a heading: four characters, or a number if they can't be printed."""
    if known(handler) is None:
        return None
    return handler.decode() if all(0x20 <= byte < 0x7F for byte in handler) else str(int.from_bytes(handler, "big"))


# ---- the library


def status_of(problem, reasons):
    """Returns the status of a problem in the library for C."""
    if problem.text is None:
        reason = reasons.get(problem.position, "")
        return END if reason in (CUT, SMALL) else NOT_FOUND if reason.endswith("not found") else INVALID
    return next(status for text, status in STATUSES.items() if re.match(text, problem.text))


def of_tables(answer, track_id, reasons):
    """Returns what the library says of the samples of a track: a list, or a status."""
    track = answer.first(track_id)
    if track is None:
        return NO_TRACK if answer.has_moov else NOT_FOUND
    return status_of(track.tables.problem, reasons) if track.tables.problem else track.tables.listed


def is_of_box(problem):
    """Returns whether a problem of tables is a box that is missing or has a fault. Then the time at which fragments
    begin is unknown. If tables disagree, their `stts` has it."""
    return problem.text is None or problem.text.startswith("there is no ")


def of_fragments(answer, track_id, reasons):
    """Returns what the library may say of the samples of the fragments of a track. It refuses a file with a `traf` that
    can't be read, since the data of the next one may begin where those end. So it may refuse a file with such a `traf`
    of another track, and it may not. None stands for all."""
    track = answer.first(track_id)
    if track is None:
        return [NO_TRACK if answer.has_moov else NOT_FOUND]
    if track.fragments is None:
        return [status_of(track.tables.problem, reasons)] if is_of_box(track.tables.problem) else None
    faulty = [it for it in answer.trafs if it.problem]
    own = [it for it in faulty if it.track_id in (None, track_id)]
    allowed = [status_of(it.problem, reasons) for it in [*own[:1], *faulty[:1]]]
    if not own:
        problem = track.fragments.problem
        allowed.append(status_of(problem, reasons) if problem else track.fragments.listed)
    return allowed


def samples_differ(calls, answer, reasons):
    """Yields the differences of what the calls of the library return for each track_ID."""
    for track_id in answer.ids():
        tables, fragments = calls(track_id)
        yield from differ(f"the samples of track_ID {track_id}", tables, of_tables(answer, track_id, reasons))
        allowed = of_fragments(answer, track_id, reasons)
        if allowed is not None and fragments not in allowed:
            yield from differ(f"the samples of fragments of track_ID {track_id}", fragments, allowed[0])


def python(asked, answer):
    """The module for Python calls the library for C. Its tree has the boxes that mp4inspect shows. It finds the tracks
    by their paths, and reads the same fields."""
    module = codec()

    def call(function, *words):
        try:
            return function(*words)
        except module.Mp4Error as why:
            return why.status

    def listed_by(function, track_id):
        found = call(function, asked.data, track_id)
        return found if isinstance(found, int) else [
            Sample(it.offset, it.size, it.decode_time, it.duration, it.rendering_offset, it.sync == 1, it.description)
            for it in found]
    yield from samples_differ(lambda track_id: (listed_by(module.samples, track_id),
                                                listed_by(module.fragment_samples, track_id)), answer, asked.reasons)
    boxes = [(it.depth, it.name if it.code else None, it.position, it.length, it.header_length) for it in asked.tree]
    yield from differ("the boxes", boxes, [
        (len(outer), None if box["type"] == "\0\0\0\0" else box["type"], box["position"], box["length"], box["header"])
        for box, outer in every(asked.boxes)])
    names = {"tkhd": "track_ID", "mdia/hdlr": "handler_type", "mdia/mdhd": "timescale"}
    tracks = []
    while (trak := module.find(asked.data, f"moov/trak[{len(tracks)}]")) is not None:
        values = []
        for path, field in names.items():
            place = module.find(asked.data, f"moov/trak[{len(tracks)}]/{path}")
            own = place and asked.data[place.position:place.position + place.length]
            found = call(module.fields, own) if place and place.is_whole else None
            values.append(found[field] if isinstance(found, dict) else None)
        tracks.append((trak.position, *values))
    wanted = [(it.position, known(it.track_id), it.handler.decode("latin-1") if known(it.handler) else None,
               known(it.timescale)) for it in answer.tracks]
    # A box whose header is cut is not found.
    yield from differ("the tracks at paths", tracks, wanted[:len(tracks)] if asked.reasons else wanted)


@functools.cache
def callers(folder):
    """Compiles caller.rs, facts.rs and rewriting.rs with the crate of bindings/rust into `folder`, and returns the
    programs."""
    shutil.copytree(os.path.join(TOP, "bindings", "rust"), os.path.join(folder, "rust"))
    os.makedirs(os.path.join(folder, "rust", "examples"))
    names = "caller", "facts", "rewriting"
    for name in (f"{it}.rs" for it in names):
        shutil.copy(os.path.join(TOP, "tests", "interfaces", name), os.path.join(folder, "rust", "examples"))
    environment = {**os.environ, "MP4_BOX_CODEC_LIB_DIR": library(), "CARGO_TARGET_DIR": os.path.join(folder, "target")}
    words = ["cargo", "build", "--offline", "--quiet", "--examples"]
    subprocess.run(words, cwd=os.path.join(folder, "rust"), env=environment, check=True)
    return [os.path.join(folder, "target", "debug", "examples", name) for name in names]


def rust(asked, answer):
    """The crate for Rust calls the library for C. Its tree has the same boxes as that of Python."""
    ids = [str(it) for it in answer.ids()]
    program = callers(os.path.dirname(asked.path))[0]
    done = subprocess.run([program, asked.path, *ids], capture_output=True, check=True)
    boxes, *lines = done.stdout.decode().splitlines()
    found = {}
    for line in lines:
        track_id, what, rows = line.split(" ", 2)
        error = re.match(r"[A-Z]\w+", rows)
        if error:
            found[int(track_id), what] = ERRORS[error[0]]
        else:
            rows = [list(map(int, row.split(","))) for row in rows.split()]
            found[int(track_id), what] = [Sample(*row[:5], row[5] == 1, row[6]) for row in rows]
    yield from samples_differ(lambda track_id: (found[track_id, "tables"], found[track_id, "fragments"]), answer,
                              asked.reasons)
    wanted = [f"{it.depth},{it.code},{it.position},{it.length}" for it in asked.tree]
    yield from differ("the boxes", boxes.split(), wanted)


def printed(word, reasons):
    """Returns a value that the caller in Rattle prints, or a problem. A fault of a box has to have the reason that the
    tree shows for it. The faults of samples in a `moof` are other problems."""
    if word.startswith("="):
        return word[1:]
    fault = re.fullmatch(r"!(.{4}) at (\d+): (.*)", word, re.S)
    if not fault or fault[1] == "moof":
        return Problem(word[1:])
    reason = reasons.get(int(fault[2]), "?")
    # The tree reads all fields of an hdlr. The reader of tracks reads those of the codec, which tests its size first.
    is_short = fault[1] == "hdlr" and (fault[3], reason) == ("hdlr size too small", CUT)
    if not is_short and fault[3] != (CUT if reason == SMALL else reason):
        raise ValueError(f"{word[1:]}, and not {reason}")
    return Problem(None, fault[1], int(fault[2]))


def listed_in(words, reasons):
    """Returns the samples that the caller in Rattle prints."""
    found = [printed(word, reasons) for word in words]
    problem = found.pop() if found and isinstance(found[-1], Problem) else None
    rows = [list(map(int, row.split(","))) for row in found]
    return Samples([Sample(*row[:5], row[5] == 1, row[6]) for row in rows], problem)


def rattle(asked, answer):
    """A caller in Rattle, the program test_probe, uses the reader of movies and the crate of samples. It lists a file's
    tracks, their samples, and each fragment."""
    data = (0).to_bytes(8, "big") + len(asked.data).to_bytes(8, "big") + asked.data
    done = subprocess.run([built("test_probe"), "movies"], input=data, capture_output=True, check=True, timeout=120)
    tracks, trafs = [], []
    for line in done.stdout[8:].decode("latin-1").splitlines():
        kind, *words = line.split("\t")
        if kind in ("tables", "fragments"):
            tracks[-1][kind] = listed_in(words, asked.reasons)
            continue
        values = [printed(word, asked.reasons) for word in words]
        numbers = [it if isinstance(it, Problem) else int(it) for it in values]
        if kind == "traf":
            trafs.append(tuple(numbers))
        else:
            tracks.append({"headers": tuple(numbers)})
    handlers = [it.handler if isinstance(it.handler, Problem) else int.from_bytes(it.handler, "big")
                for it in answer.tracks]
    yield from differ("the headers of tracks", [it["headers"] for it in tracks], [
        (it.position, it.track_id, handler, it.timescale) for it, handler in zip(answer.tracks, handlers)])
    yield from differ("the samples of tables", [it["tables"] for it in tracks], [it.tables for it in answer.tracks])
    yield from differ("the fragments", trafs, [(it.moof, it.problem or it.track_id) for it in answer.trafs])
    for found, track in zip(tracks, answer.tracks):
        is_first = isinstance(track.track_id, int) and answer.first(track.track_id) is track
        if is_first != ("fragments" in found):
            yield f"the track at {track.position} has fragments: {not is_first}"
        elif is_first and not any(it.problem for it in answer.trafs):
            wanted = track.fragments or Samples([], track.tables.problem)
            if track.fragments or is_of_box(track.tables.problem):
                yield from differ(f"the samples of fragments of the track at {track.position}", found["fragments"],
                                  wanted)


INTERFACES = {
    "tree_as_text": tree_as_text, "tree_as_json": tree_as_json, "check": check, "samples": samples, "python": python,
    "rust": rust, "rattle": rattle,
}
