"""Computes what `mp4inspect info` reports about a file a second time, by ISO/IEC 14496-12 and QuickTime's format only.
`info` returns the values, with exact numbers, `lines` the text, and `as_json` an object of the JSON. The samples are
those of `samples.py`, and the strings of codecs those of `codec_strings.py`."""

import math
import struct
from fractions import Fraction

from tests.readers.codec_strings import string_of
from tests.readers.fronts import bytes_before
from tests.readers.samples import Bad, File, boxes, first, inner, tables_of

# The number of the channels of the full range and of low frequencies in the channel configurations of MPEG-4 audio
# (ISO/IEC 14496-3, 1.6.3.5), and of the full range in the audio coding modes of AC-3 (ETSI TS 102 366, 4.4.2.3).
AAC = {1: (1, 0), 2: (2, 0), 3: (3, 0), 4: (4, 0), 5: (5, 0), 6: (5, 1), 7: (7, 1), 11: (6, 1), 12: (7, 1), 13: (22, 2),
       14: (7, 1)}
AC3 = [2, 1, 2, 3, 3, 4, 4, 5]
TURNS = {(1, 0, 0, 1): 0, (0, 1, -1, 0): 90, (-1, 0, 0, -1): 180, (0, -1, 1, 0): 270}


def number(data, at, length, signed=False):
    return int.from_bytes(data[at:at + length], "big", signed=signed)


def at_path(data, box, *codes):
    """Returns the box at a path of codes inside `box`, or None."""
    for code in codes:
        box = box and first(inner(data, box), code)
    return box


def content(box):
    return None if box is None else box[2]


def rounded(value, scale=1):
    """Returns `value` times `scale`, rounded to a whole number, and up from a half."""
    return (2 * value * scale + 1) // 2


def header_numbers(box):
    """Returns the timescale and the duration of an `mvhd` or `mdhd` (8.2.2 and 8.4.2)."""
    wide = box[0] == 1
    return number(box, 20 if wide else 12, 4), number(box, 24 if wide else 16, 8 if wide else 4)


def edits_of(box):
    """Yields the duration and the media time of each edit (8.6.6), the time as a signed number, and its rate."""
    wide = 8 if box[0] == 1 else 4
    for index in range(number(box, 4, 4)):
        at = 8 + index * (2 * wide + 4)
        yield number(box, at, wide), number(box, at + wide, wide, True), number(box, at + 2 * wide, 2)


def duration_of(edits, movie_scale, media_scale, end, shown):
    """Returns the ticks of the presentation of a track, and those in a second (8.3.2 and 8.6.5). Its media end at
    `end`, and at the composition time `shown`."""
    if not edits:
        return end, media_scale
    ticks = sum(duration for duration, _, _ in edits) * media_scale
    last, time, rate = edits[-1]
    if last == 0 and time != -1 and rate:
        ticks += max(shown - time, 0) * movie_scale
    return ticks, movie_scale * media_scale


def frame_rate(durations, scale):
    """Returns the rate of frames as a fraction, and whether it is constant: the duration of the last frame is no
    distance between frames. `durations` counts frames with one duration each."""
    runs = [list(run) for run in durations if run[0]]
    frames, total = sum(count for count, _ in runs), sum(count * each for count, each in runs)
    if frames < 2:
        return None
    runs[-1][0] -= 1
    distances = {each for count, each in runs if count}
    if len(distances) == 1:
        distance, = distances
        return (scale, distance, True) if distance and scale else None
    return (frames * scale, total, False) if total and scale else None


def letters(code):
    """Returns the letters of a language, `eng` for 0, which is English in QuickTime, or `und` for its other numbers."""
    if code == 0:
        return "eng"
    found = "".join(chr(0x60 + (code >> shift & 31)) for shift in (10, 5, 0))
    return found if found.isalpha() else "und"


def language(data, media, header):
    """Returns the language of the media, or None if it is not known."""
    tag = content(at_path(data, media, b"elng"))
    text = tag[4:].removesuffix(b"\0") if tag else b""
    if text or header is None:
        return text.decode() or None
    return letters(number(header, 32 if header[0] == 1 else 20, 2))


def rotation(header):
    if header is None:
        return None
    at = 52 if header[0] == 1 else 40
    a, b, _, c, d = (number(header, at + 4 * index, 4, True) for index in range(5))
    return TURNS.get(tuple(part / 65536 for part in (a, b, c, d)))


def entry_of(data, table, handler):
    """Returns the code of the first sample entry, its content, the number of bytes before the boxes in it, and these
    boxes by their codes; `sinf` and `wave` give those inside them too."""
    descriptions = at_path(data, table, b"stsd")
    found = descriptions and boxes(data, descriptions[4] + 8, descriptions[4] + len(descriptions[2]))
    if not found:
        return None, b"", None, {}
    code, _, inside, _, at = found[0]
    before = bytes_before(code, inside, b"stsd", handler, descriptions[2][0])
    children = {}

    def put(around):
        for child in around:
            children.setdefault(child[0], child[2])
            if child[0] in (b"sinf", b"wave", b"schi"):
                put(inner(data, child))
    if before is not None:
        put(boxes(data, at + before, at + len(inside)))
    return code, inside, before, children


def sample_rate(code, inside, before):
    """Returns the whole hertz of the sample rate of a sound entry: a float of 64 bits in version 2 of QuickTime, which
    has 64 bytes before its boxes, 32 bits in an `mlpa`, and otherwise 16 bits before 16 of a fraction."""
    if len(inside) < (44 if before == 64 else 28):
        return None
    if before == 64:
        rate, = struct.unpack(">d", inside[32:40])
        return math.floor(rate) if 0 <= rate < 2**32 else 0
    return number(inside, 24, 4 if code == b"mlpa" else 2)


def channels(code, inside, before, children):
    """Returns the channels of the full range and of low frequencies."""
    if code == b"mp4a" and b"esds" in children:
        string = string_of(code, children)
        at = children[b"esds"].find(b"\x05", 17)
        config = children[b"esds"][at + 1:].lstrip(b"\x80")[1:] if at >= 0 else b""
        if string.startswith("mp4a.40.") and len(config) >= 2:
            bits = f"{int.from_bytes(config[:8].ljust(8, bytes(1)), 'big'):064b}"
            bits = bits[11:] if bits[:5] == "11111" else bits[5:]
            bits = bits[28:] if bits[:4] == "1111" else bits[4:]
            if int(bits[:4], 2) in AAC:
                return AAC[int(bits[:4], 2)]
    if code == b"Opus" and b"dOps" in children:
        return children[b"dOps"][1], 0
    if code == b"ac-3" and b"dac3" in children:
        bits = number(children[b"dac3"], 0, 3)
        return AC3[bits >> 11 & 7], bits >> 10 & 1
    if code == b"ec-3" and len(children.get(b"dec3", b"")) > 3:
        return AC3[children[b"dec3"][3] >> 1 & 7], children[b"dec3"][3] & 1
    if len(inside) < (44 if before == 64 else 28):
        return None
    return (number(inside, 40, 4) if before == 64 else number(inside, 16, 2)), 0


def channel_text(count):
    full, low = count
    return {(1, 0): "mono", (2, 0): "stereo"}.get(count, f"{full}.{low}" if low else f"{full} channels")


def picture_of(header, inside, children):
    """Returns what a video entry says about pictures (12.1), and their turn."""
    is_long = len(inside) >= 28
    found = {"width": number(inside, 24, 2) if is_long else None, "height": number(inside, 26, 2) if is_long else None,
             "rotation": rotation(header)}
    pasp, colr, mdcv, clli = (children.get(code) for code in (b"pasp", b"colr", b"mdcv", b"clli"))
    found["pixel_aspect"] = pasp and {"horizontal": number(pasp, 0, 4), "vertical": number(pasp, 4, 4)}
    found["colours"] = None
    if colr and colr[:4] == b"nclx":
        found["colours"] = {"primaries": number(colr, 4, 2), "transfer": number(colr, 6, 2),
                            "matrix": number(colr, 8, 2), "full_range": colr[10] >= 128}
    found["dynamic_range"] = {16: "PQ", 18: "HLG"}.get(found["colours"] and found["colours"]["transfer"])
    found["mastering"] = mdcv and {"max_luminance": number(mdcv, 16, 4), "min_luminance": number(mdcv, 20, 4)}
    found["light"] = clli and {"max_content": number(clli, 0, 2), "max_average": number(clli, 2, 2)}
    return found


def references_of(data, trak):
    """Returns the references of a track: each type, and the track_IDs (8.3.3)."""
    box = at_path(data, trak, b"tref")
    return [{"type": each[0].decode("latin-1"),
             "track_ids": [number(each[2], at, 4) for at in range(0, len(each[2]) - 3, 4)]}
            for each in (inner(data, box) if box else [])]


def encryption_of(code, children):
    """Returns the original code of an encrypted entry, the scheme and the default key (8.12; ISO/IEC 23001-7, 8.2)."""
    if code not in (b"encv", b"enca"):
        return None
    original = children.get(b"frma", code)[:4]
    return {"original": original.decode("latin-1") if original != code else None,
            "scheme": children[b"schm"][4:8].decode("latin-1") if b"schm" in children else None,
            "key": children[b"tenc"][8:24].hex() if b"tenc" in children else None}


def readable(read, *boxes):
    """Returns what `read` returns, and None if a box can't be read."""
    try:
        return read(*boxes)
    except Bad:
        return None


def fragments_of(file, track_id):
    """Yields each `traf` of a track that is a fragment, the time at which it starts, and its runs. It needs a base of
    its offsets, and the defaults of its track."""
    for _, traf, header, base in file.fragments.get(track_id, []):
        found = readable(file.fragment_of, track_id, traf, base)
        if found:
            default = {**file.defaults[track_id], **header}
            yield traf, found[0], [samples_in(default, *run) for run in found[1]]


def samples_in(default, values, count, rows):
    """Returns counts of samples of a run, each with the duration, the size, the flags and the composition offset of one
    sample."""
    if not isinstance(rows, list):
        rest = (default["duration"], default["size"], default["flags"], 0)
        first = (default["duration"], default["size"], values.get("first", default["flags"]), 0)
        return [(1, *first), (count - 1, *rest)] if count else []
    rows = [{**default, **({"flags": values["first"]} if index == 0 and "first" in values else {}), **row}
            for index, row in enumerate(rows)]
    return [(1, row["duration"], row["size"], row["flags"], row.get("shift", 0)) for row in rows]


def shown_ends(durations, shifts):
    """Yields the composition time at which the last one of consecutive samples ends that have one duration and one
    composition offset."""
    shifts, time = [list(shift) for shift in shifts], 0
    for count, duration in durations:
        while count:
            while shifts and shifts[0][0] == 0:
                del shifts[0]
            taken, offset = (min(count, shifts[0][0]), shifts[0][1]) if shifts else (count, 0)
            time, count = time + taken * duration, count - taken
            if shifts:
                shifts[0][0] -= taken
            yield time + offset


def samples_of(data, file, stbl, track_id):
    """Returns what the tables and the fragments of a track say of its samples, and None if the tables can't be read.
    Tables that disagree are counted as they are. `shown` is the largest composition time at which a sample ends."""
    none = {"sizes": (0, 0, []), "durations": [], "shifts": [], "sync": None}
    tables = readable(tables_of, data, stbl) if stbl else none
    if tables is None:
        return None
    count, one, sizes = tables["sizes"]
    keys = count if tables["sync"] is None else sum(1 <= each <= count for each in tables["sync"])
    total, durations = one * count + sum(sizes), list(tables["durations"])
    end = sum(samples * duration for samples, duration in durations)
    shown = max(shown_ends(durations, tables["shifts"]), default=0)
    for _, start, runs in fragments_of(file, track_id):
        listed = [sample for run in runs for sample in run]
        durations += [(samples, duration) for samples, duration, *_ in listed]
        count += sum(samples for samples, *_ in listed)
        keys += sum(samples for samples, _, _, flags, _ in listed if not flags & 0x10000)
        total += sum(samples * size for samples, _, size, *_ in listed)
        end = end if start is None else start
        for samples, duration, _, _, shift in listed:
            end += samples * duration
            shown = max(shown, end + shift) if samples else shown
    return {"samples": count, "key_frames": keys, "bytes": total, "durations": durations, "end": end,
            "shown": max(shown, 0)}


def rates_of(found, scale):
    """Returns the frame rate and the bit rate of samples, or None for one that isn't known."""
    time = sum(samples * duration for samples, duration in found["durations"])
    bits = rounded(Fraction(8 * found["bytes"] * scale, time)) if time and scale else None
    return frame_rate(found["durations"], scale), bits


def track(data, file, trak, movie_scale):
    """Returns what is reported about a track."""
    media = at_path(data, trak, b"mdia")
    track_id, handler, scale = (None if isinstance(each, Bad) else each for each in file.headers(trak))
    header = content(at_path(data, trak, b"tkhd")) if track_id is not None else None
    media_header = content(at_path(data, media, b"mdhd")) if scale is not None else None
    name, scale, stbl = handler and handler.decode("latin-1"), scale or 0, at_path(data, media, b"minf", b"stbl")
    known = samples_of(data, file, stbl, track_id)
    edits = content(at_path(data, trak, b"edts", b"elst"))
    code, inside, before, children = entry_of(data, stbl, handler)
    rate, bits = rates_of(known, scale) if known else (None, None)
    found = {
        "track_id": track_id, "handler": name, "kind": KINDS.get(name),
        "entry": code and code.decode("latin-1"), "codec": None if code is None else shown(string_of(code, children)),
        "encryption": encryption_of(code, children),
        "duration": duration_of(list(edits_of(edits)) if edits else [], movie_scale, scale, known["end"],
                                known["shown"]) if known else (0, 0),
        "media_duration": (known["end"], scale) if known else (0, 0),
        **{each: known and known[each] for each in ("samples", "key_frames", "bytes")},
        "bit_rate": bits, "language": language(data, media, media_header),
    }
    if handler in (b"vide", b"auxv", b"pict") and code:
        found.update(picture_of(header, inside, children), frame_rate=rate)
    if handler == b"soun" and code:
        code = children[b"frma"][:4] if code == b"enca" and b"frma" in children else code
        found.update(sample_rate=sample_rate(code, inside, before), channels=channels(code, inside, before, children))
    is_known = all(each is not None for each in (header, media_header, handler, code, known))
    return dict(found, references=references_of(data, trak), is_known=is_known)


def segments_of(data, tops, file, tracks):
    """Returns the segments by the first `sidx` (8.16.3), or those that begin with a `moof`: the bytes or the position,
    and the duration as ticks and ticks in a second."""
    index = content(first(tops, b"sidx"))
    if index:
        at = 14 + (16 if index[0] == 1 else 8)
        scale, count = number(index, 8, 4), number(index, at, 2)
        rows = [index[at + 2 + 12 * each:] for each in range(count)]
        return [{"bytes": number(row, 0, 4) & 0x7FFFFFFF, "duration": (number(row, 4, 4), scale)} for row in rows]
    found = []
    for moof in (box for box in tops if box[0] == b"moof"):
        trafs = [(traf[1], track_id, runs) for track_id in file.fragments
                 for traf, _, runs in fragments_of(file, track_id) if moof[1] < traf[1] < moof[4] + len(moof[2])]
        _, track_id, runs = min(trafs, default=(0, 0, []))
        ticks = sum(samples * duration for run in runs for samples, duration, *_ in run)
        scale = next((each["media_duration"][1] for each in tracks if each["track_id"] == track_id), 0)
        found.append({"position": moof[1], "duration": (ticks, scale)})
    return found


def tags_of(data, movie):
    """Returns the code of each item in the `ilst` of a movie, and its text or None."""
    items = at_path(data, movie, b"udta")
    meta = at_path(data, items, b"meta")
    if meta is None:
        return []
    # The `meta` of QuickTime has no version and flags.
    skipped = 0 if meta[2][4:8] == b"hdlr" else 4
    listed = first(boxes(data, meta[4] + skipped, meta[4] + len(meta[2])), b"ilst")
    found = []
    for item in inner(data, listed) if listed else []:
        value = content(first(inner(data, item), b"data"))
        is_text = value is not None and value[:4] == b"\0\0\0\1"
        found.append((item[0], value[8:].decode("utf-8", "replace") if is_text else None))
    return found


def info(data):
    """Returns what is reported about a file."""
    tops = boxes(data, 0, len(data), True)
    brands = content(first(tops, b"ftyp"))
    movie, media = first(tops, b"moov"), first(tops, b"mdat")
    file = File(data)
    tracks, stated = [], None
    if movie:
        header = content(at_path(data, movie, b"mvhd"))
        stated = header and header_numbers(header)
        tracks = [track(data, file, trak, stated[0] if stated else 0) for trak in file.tracks]
    chapters = {id_ for each in tracks for row in each["references"] if row["type"] == "chap"
                for id_ in row["track_ids"]}
    for each in tracks:
        each["chapters"] = each["track_id"] in chapters
    return {
        "size": len(data),
        "brands": [brands[at:at + 4].decode("latin-1") for at in (0, *range(8, len(brands) - 3, 4))] if brands else [],
        "fragmented": bool(movie and at_path(data, movie, b"mvex") or first(tops, b"moof")),
        "movie": bool(movie and stated),
        "items": any(box[0] == b"meta" for box in tops), "has_moof": any(box[0] == b"moof" for box in tops),
        "moov_first": None if not movie or not media else movie[1] < media[1],
        "thousandths": max((thousandths_of(*each["duration"]) for each in tracks), default=0), "stated": stated,
        "segments": segments_of(data, tops, file, tracks), "tags": tags_of(data, movie) if movie else [],
        "tracks": tracks,
    }


KINDS = {"vide": "video", "soun": "audio", "subt": "subtitles", "sbtl": "subtitles", "text": "text", "clcp": "captions",
         "tmcd": "timecode", "meta": "metadata", "hint": "hint", "auxv": "auxiliary video", "pict": "picture"}


def thousandths_of(ticks, per_second):
    """Returns the thousandths of a second, or 0 if a second has no tick."""
    return rounded(Fraction(ticks, per_second), 1000) if per_second else 0


def shown(code):
    """Returns a code as it is printed: its characters, or its bytes if one of them can't be printed."""
    if code and not all(" " <= letter <= "~" or "\xa0" <= letter for letter in code):
        return "0x" + code.encode("latin-1").hex()
    return code


def is_known(found):
    """Returns whether there are a movie, fragments or items, and the main values of each track are known."""
    return (found["stated"] is not None or any("position" in each for each in found["segments"])
            or found["has_moof"] or found["items"]) and all(
        each["is_known"] and each["duration"][1] for each in found["tracks"])


def decimal(count):
    return f"{count // 1000}.{count % 1000:03}"


def counted(count, word):
    return f"{count} {word}" + ("" if count == 1 else "s")


def picture(found):
    """Returns the words about pictures: their size, and the rate of frames, without zeros at the end."""
    words = "" if found["width"] is None else f"{found['width']}x{found['height']}"
    if found["rotation"]:
        words += f" rotated {found['rotation']}"
    aspect = found["pixel_aspect"]
    if aspect and aspect["horizontal"] != aspect["vertical"]:
        words += f" pixels {aspect['horizontal']}:{aspect['vertical']}"
    if found["dynamic_range"]:
        words += f" {found['dynamic_range']}"
    if not found["frame_rate"]:
        return words
    frames, units, is_constant = found["frame_rate"]
    rate = decimal(rounded(Fraction(frames, units), 1000)).rstrip("0").rstrip(".")
    return f"{words}  {'' if is_constant else '~'}{rate} fps"


def sound(found):
    rate = "" if found["sample_rate"] is None else f"{found['sample_rate']} Hz"
    return rate + ("" if found["channels"] is None else " " + channel_text(found["channels"]))


def track_words(found):
    """Returns the columns of the line of a track after its kind."""
    about = picture(found) if "width" in found else sound(found) if "sample_rate" in found else ""
    frames = "" if found["samples"] is None else counted(found["samples"], "sample")
    if found["key_frames"] != found["samples"]:
        frames += ", " + counted(found["key_frames"], "key frame")
    rate = "" if found["bit_rate"] is None else f"{rounded(Fraction(found['bit_rate'], 1000))} kb/s"
    codec = found["codec"] or "-"
    if found["encryption"] and found["encryption"]["scheme"]:
        codec += f" ({shown(found['encryption']['scheme'])})"
    ticks, scale = found["duration"]
    duration = decimal(thousandths_of(ticks, scale)) + " s" if scale else ""
    return [codec, about, duration, rate, found["language"] or "", frames]


PICTURES = ["mif1", "msf1", "heic", "heix", "hevc", "hevx", "avif", "avis"]


def lines(name, data, names):
    """Returns the text about a file. `names` has the names of boxes by their codes."""
    found = info(data)
    brands = [shown(brand).rstrip() for brand in dict.fromkeys(found["brands"])]
    timed = found["movie"] or found["fragmented"]
    words = ["MP4" if timed else "no ftyp"]
    if brands:
        words = [{"qt": "QuickTime", **dict.fromkeys(PICTURES, "HEIF")}.get(brands[0], "MP4")]
        words[0] += f" ({', '.join(brands)})"
    words.append("fragmented" if found["fragmented"] else "progressive" if found["movie"] else
                 "no movie" if found["items"] else "no moov")
    if found["fragmented"] and found["segments"]:
        words.append(counted(len(found["segments"]), "segment"))
    if found["moov_first"] is not None:
        words.append(f"moov {'before' if found['moov_first'] else 'after'} the media data")
    if timed:
        words.append(decimal(found["thousandths"]) + " s")
    size = found["size"]
    words.append(f"{rounded(Fraction(size, 1000))} kB" if size > 999 else counted(size, "byte"))
    rows = [["chapters" if each["chapters"] else each["kind"] or shown(each["handler"]) or "-", *track_words(each)]
            for each in found["tracks"]]
    rows = [[f"{number} {row[0]}", *row[1:]] for number, row in enumerate(rows, 1)]
    widths = [max(map(len, column)) for column in zip(*rows)]
    return [f"{name}  {', '.join(words)}"] + [
        "  " + "  ".join(cell.ljust(width) for cell, width in zip(row, widths) if width).rstrip() for row in rows] + [
        f"  {names.get(code.decode('latin-1'), shown(code.decode('latin-1')))}: {text}"
        for code, text in found["tags"] if text is not None]


def seconds(ticks, per_second):
    """Returns a number of seconds with three decimals, and the fraction that it is rounded from."""
    if not per_second:
        return None
    return {"seconds": thousandths_of(ticks, per_second) / 1000, "ticks": ticks, "ticks_per_second": per_second}


def track_json(found):
    """Returns the object of a track."""
    found = dict(found, duration=seconds(*found["duration"]), media_duration=seconds(*found["media_duration"]))
    del found["is_known"]
    if "frame_rate" in found and found["frame_rate"]:
        frames, units, is_constant = found["frame_rate"]
        found["frame_rate"] = {"per_second": rounded(Fraction(frames, units), 1000) / 1000, "frames": frames,
                               "units": units, "constant": is_constant}
    if found.get("channels"):
        full, low = found["channels"]
        found["channels"] = {"layout": channel_text((full, low)), "full": full, "low": low}
    return found


def as_json(name, data, names):
    """Returns the object of a file in the JSON. `names` has the names of boxes by their codes."""
    found = info(data)
    stated = found["stated"]
    return {"file": name, "size": found["size"], "brands": found["brands"], "fragmented": found["fragmented"],
            "moov_first": found["moov_first"], "seconds": found["thousandths"] / 1000,
            "stated_duration": seconds(stated[1], stated[0]) if stated else None,
            "segments": [dict(each, duration=seconds(*each["duration"])) for each in found["segments"]],
            "tags": [{"code": code.decode("latin-1"), "name": names.get(code.decode("latin-1")), "text": text}
                     for code, text in found["tags"]],
            "tracks": [track_json(each) for each in found["tracks"]]}
