"""Files for `mp4inspect check`, each made by hand with the lines that `check` has to write for it. The lines were
worked out from ISO/IEC 14496-12 and QuickTime's format. `cases()` gives the name, the bytes and the lines of each."""

from tests.files.made import be, box, ftyp, full, handler, mdhd, nested, sound, stsd, tkhd, visual

STBL = "moov/trak/mdia/minf/stbl"
SECOND = "moov/trak[1]/mdia/minf/stbl"
MEDIA = 28  # The media data begin after an ftyp of 20 bytes and a header of 8.


def stbl(offsets, sizes, per=1, wide=False, extra=b""):
    """Returns tables of samples of the sizes `sizes`, with `per` of them in each chunk. A pair instead of a list is the
    one size of all, and their number."""
    count = sizes[1] if isinstance(sizes, tuple) else len(sizes)
    table = full(b"stsz", 0, 0, be(4, *sizes) if isinstance(sizes, tuple) else be(4, 0, count, *sizes))
    chunks = full(b"co64", 0, 0, be(4, len(offsets)) + be(8, *offsets)) if wide else full(
        b"stco", 0, 0, be(4, len(offsets), *offsets))
    return box(b"stbl", stsd(visual(b"mp4v", 64, 48, b"", b"")) + full(b"stts", 0, 0, be(4, 1, count, 10))
               + full(b"stsc", 0, 0, be(4, 1, 1, per, 1)) + table + chunks + extra)


def ticks_in(table):
    """Returns the duration of the samples by the first `stts` in `table`, or 0 if there is none."""
    at = table.find(b"stts")
    if at < 0 or not number_at(table, at + 8, 4):
        return 0
    return number_at(table, at + 12, 4) * number_at(table, at + 16, 4)


def number_at(data, at, length):
    return int.from_bytes(data[at:at + length], "big")


def lasting(header, duration):
    """Returns the `mvhd`, `tkhd` or `mdhd` `header` with another duration, if it has one. The largest number is for an
    unknown one."""
    wide = header[8] == 1
    at = {b"tkhd": (28, 36), b"mdhd": (24, 32), b"mvhd": (24, 32)}[header[4:8]][wide]
    width = 8 if wide else 4
    if len(header) < at + width:
        return header
    return header[:at] + be(width, min(duration, 256**width - 1)) + header[at + width:]


def duration_of(track):
    """Returns the duration in the first `tkhd` of `track`, or 0 if there is none."""
    at = track.find(b"tkhd")
    wide = at >= 0 and track[at + 4] == 1
    return 0 if at < 0 else number_at(track, at + (32 if wide else 24), 8 if wide else 4)


def trak(table, number=1, flags=1, header=None, extra=b"", reference=None):
    """Returns a track with these tables, whose durations are those of its samples. Its data reference is `reference`,
    or a `url ` with these flags."""
    dinf = box(b"dinf", full(b"dref", 0, 0, be(4, 1) + (reference or full(b"url ", 0, flags))))
    ticks = ticks_in(table)
    media = box(b"mdia", lasting(mdhd(1000, b"und"), ticks) + handler(b"vide", b"")
                + box(b"minf", full(b"vmhd", 0, 1, bytes(8)) + dinf + table))
    header = tkhd(number) if header is None else header
    return box(b"trak", (lasting(header, ticks * 600 // 1000) if header else b"") + media + extra)


def mvhd():
    return full(b"mvhd", 0, 0, be(4, 0, 0, 600, 0, 0x10000) + be(2, 0x100) + bytes(10)
                + be(4, 0x10000, 0, 0, 0, 0x10000, 0, 0, 0, 0x40000000) + bytes(24) + be(4, 9))


def moov(*tracks):
    """Returns a movie with the duration of its longest track."""
    return box(b"moov", lasting(mvhd(), max([0, *map(duration_of, tracks)])) + b"".join(tracks))


def lost(name, declared, present):
    """Returns what is said of a box of the top level of which the file has only the beginning."""
    cause = "" if name == "mdat" else ", or this size is wrong"
    return (f"{name} declares {declared} bytes and {present} are present: the file lost its last {declared - present} "
            f"bytes{cause}")


def front(media=40):
    """Returns an `ftyp` of 20 bytes and an `mdat` with `media` bytes, which begin at offset MEDIA."""
    return ftyp(b"isom", b"isom") + box(b"mdat", bytes(media))


def at(data, name, nth=0):
    """Returns the position of the box `name` after `nth` others with this name."""
    place = -1
    for _ in range(nth + 1):
        place = data.index(name, place + 1)
    return place - 4


def line(data, name, path, said, nth=0):
    return f"{at(data, name, nth)} {path}: {said}"


def lies(said, many="1 of 1 chunk lies"):
    return f"{many} outside the media data; the first is {said}"


def shares(many, number, offset, begin, end):
    return (f"warning: {many} bytes with the chunk before; the first is chunk {number} at offset {offset}, and chunk "
            f"{number - 1} has the bytes from {begin} to {end}")


def past(what, offset, end, length):
    return f"{what} at offset {offset}, which ends at {end}, past the end of the file ({length} bytes)"


def chunks():
    """Returns cases of chunks at both ends of the media data, in its header, past the file, and in no media data."""
    end = MEDIA + 40
    found = []
    for name, offset, size, said in (
            ("all of it", MEDIA, 40, None), ("the last byte", end - 1, 1, None), ("no bytes at its end", end, 0, None),
            ("no bytes at its front", MEDIA, 0, None),
            ("a byte too many", MEDIA, 41, f", which ends at {end + 1}, past the end of its mdat at {end}"),
            ("behind it", end, 1, ", which is in no mdat"), ("no bytes behind it", end + 1, 0, ", which is in no mdat"),
            ("its header", MEDIA - 1, 1, ", which is in no mdat"), ("before it", 3, 1, ", which is in no mdat"),
            ("no bytes in its header", MEDIA - 1, 0, ", which is in no mdat")):
        for wide in (False, True):
            data = front() + moov(trak(stbl([offset], [size], 1, wide)))
            code = b"co64" if wide else b"stco"
            wanted = line(data, code, f"{STBL}/{code.decode()}", lies(f"chunk 1 at offset {offset}{said}"))
            found.append((f"chunk: {name}, {code.decode()}", data, [wanted] if said else []))
    for name, beyond, size, wide in (
            ("at the end of the file", 0, 1, False), ("at the end of the file", 0, 1, True),
            ("no bytes at the end of the file", 0, 0, False), ("behind the file", 5, 0, True),
            ("far behind", 2**40, 9, True)):
        data = front() + moov(trak(stbl([0], [size], 1, wide)))
        offset = len(data) + beyond
        data = front() + moov(trak(stbl([offset], [size], 1, wide)))
        code = b"co64" if wide else b"stco"
        found.append((f"chunk: {name}, {code.decode()}", data, [line(data, code, f"{STBL}/{code.decode()}", lies(
            f"chunk 1 at offset {offset}, past the end of the file ({len(data)} bytes)"))]))
    # A sample of 40 bytes by an stz2 is all of the media data, and one of 41 is too long.
    whole = stbl([MEDIA], [1])
    place = whole.index(b"stsz") - 4
    for size in (40, 41):
        compact = full(b"stz2", 0, 0, be(4, 8, 1) + bytes([size]))
        data = front() + moov(trak(box(b"stbl", whole[8:place] + compact + whole[place + 24:])))
        wanted = line(data, b"stco", f"{STBL}/stco", lies(
            f"chunk 1 at offset {MEDIA}, which ends at {end + 1}, past the end of its mdat at {end}"))
        found.append((f"chunk: {size} bytes by an stz2", data, [wanted] if size > 40 else []))
    return found


def more_chunks():
    """Returns cases of chunks in files with several `mdat`s, with media data at the end of the file, and with tables
    that disagree."""
    found = []
    # Ten samples of ten bytes in five chunks, in media data at the end of the file. Moved by 16, the last one is cut.
    for moved in (0, 16):
        head = lambda first: ftyp(b"isom", b"isom") + moov(trak(stbl([first + 20 * n for n in range(5)], [10] * 10, 2)))
        first = len(head(0)) + 8
        data = head(first + moved) + box(b"mdat", bytes(100))
        lines = [line(data, b"stco", f"{STBL}/stco", lies(past(
            "chunk 5", first + 96, first + 116, first + 100), "1 of 5 chunks lies"))] if moved else []
        found.append((f"chunks moved by {moved}", data, lines))
    # 119 chunks of 500 bytes, 58 of them before the end of a file that is cut at 40000. The 59th begins at 40090.
    head = lambda first: ftyp(b"isom", b"isom") + moov(trak(stbl(
        [first + 500 * n for n in range(58)] + [40090 + 500 * n for n in range(61)], (500, 119))))
    first = len(head(0)) + 16
    data = head(first) + be(4, 1) + b"mdat" + be(8, 80000) + bytes(40000)
    data = data[:40000]
    found.append(("119 chunks", data, [
        f"{first - 16} mdat: {lost('mdat', 80000, 40000 - first + 16)}",
        line(data, b"stco", f"{STBL}/stco", lies("chunk 59 at offset 40090, past the end of the file (40000 bytes)",
                                                 "61 of 119 chunks lie"))]))
    # Two mdats with a box between them: chunks in each, across both, and between them, in no order.
    media = box(b"mdat", bytes(10)) + box(b"free", bytes(12)) + box(b"mdat", bytes(10))
    data = ftyp(b"isom", b"isom") + media + moov(trak(stbl([66, 28, 30, 46, 74, 38], [2, 10, 9, 1, 2, 0])))
    found.append(("two mdats", data, [
        line(data, b"stco", f"{STBL}/stco", lies(
            "chunk 3 at offset 30, which ends at 39, past the end of its mdat at 38", "2 of 6 chunks lie")),
        line(data, b"stco", f"{STBL}/stco", shares("1 chunk shares", 3, 30, 28, 38))]))
    # An mdat in a udta is not media data of the file.
    data = ftyp(b"isom", b"isom") + moov(trak(stbl([36], [4]))) + box(b"udta", box(b"mdat", bytes(8)))
    inside = len(data) - 8
    data = ftyp(b"isom", b"isom") + moov(trak(stbl([inside], [4]))) + box(b"udta", box(b"mdat", bytes(8)))
    found.append(("an mdat in a udta", data, [
        line(data, b"stco", f"{STBL}/stco", lies(f"chunk 1 at offset {inside}, which is in no mdat"))]))
    # The media of one track are in another file, since its url does not have flag 1. Those of the next track aren't.
    for flags in (0, 2):
        data = front() + moov(trak(stbl([3], [1]), 1, flags), trak(stbl([4], [1]), 2))
        found.append((f"a url of flags {flags}", data, [
            line(data, b"stco", SECOND + "/stco", lies("chunk 1 at offset 4, which is in no mdat"), 1)]))
    data = front() + moov(trak(stbl([3], [1])), trak(stbl([4], [1]), 2, 0))
    found.append(("a url of flags 0 in the second track", data, [
        line(data, b"stco", f"{STBL}/stco", lies("chunk 1 at offset 3, which is in no mdat"))]))
    found.append(("the only url has flags 2", front() + moov(trak(stbl([3], [1]), 1, 2)), []))
    data = front() + moov(trak(stbl([3], [1]), 1, 3))
    found.append(("a url of flags 3", data, [
        line(data, b"stco", f"{STBL}/stco", lies("chunk 1 at offset 3, which is in no mdat"))]))
    # Seven samples in three chunks of two. The tables disagree, so that only one byte of each chunk is checked.
    data = front() + moov(trak(stbl([MEDIA, MEDIA + 39, 4], [9] * 7, 2)))
    found.append(("tables that disagree", data, [
        line(data, b"stbl", STBL, "the chunks hold 6 of 7 samples"),
        line(data, b"stco", f"{STBL}/stco", lies("chunk 3 at offset 4, which is in no mdat", "1 of 3 chunks lies"))]))
    # Such tables in an stbl that is cut are not compared.
    data = front() + moov(trak(stbl([MEDIA], [9] * 7, 2, False, box(b"free", bytes(9)))))
    size = len(data) - at(data, b"moov")
    data, cut = data[:-1], "unexpected end of input"
    found.append(("a cut stbl", data, [line(data, b"moov", "moov", lost("moov", size, size - 1))] + [
        line(data, name, path, cut) for name, path in (
            (b"trak", "moov/trak"), (b"mdia", "moov/trak/mdia"), (b"minf", "moov/trak/mdia/minf"),
            (b"stbl", STBL), (b"free", f"{STBL}/free"))]))
    # There are more chunks than samples, so that the last chunks have no bytes.
    data = front() + moov(trak(stbl([MEDIA, MEDIA + 40, MEDIA + 41], (40, 1))))
    found.append(("chunks without samples", data, [
        line(data, b"stco", f"{STBL}/stco", lies(f"chunk 3 at offset {MEDIA + 41}, which is in no mdat",
                                                 "1 of 3 chunks lies"))]))
    # Sizes that no file has.
    data = front() + moov(trak(stbl([MEDIA], (2**32 - 1, 2**32 - 1), 2**32 - 1)))
    found.append(("2^64 bytes", data, [line(data, b"stco", f"{STBL}/stco", lies(past(
        "chunk 1", MEDIA, MEDIA + (2**32 - 1)**2, len(data))))]))
    return found


def traf(track, flags, fields, *runs):
    return box(b"traf", full(b"tfhd", 0, flags, be(4, track) + fields) + b"".join(runs))


def moof(*trafs):
    return box(b"moof", full(b"mfhd", 0, 0, be(4, 1)) + b"".join(trafs))


def trun(offset, sizes, count=None):
    """Returns a run with the offset `offset`, if it is not None, and with the sizes of its samples or their number."""
    flags = (0 if offset is None else 1) | (0x200 if sizes else 0)
    rest = (b"" if offset is None else be(4, offset)) + be(4, *sizes)
    return full(b"trun", 0, flags, be(4, len(sizes) if count is None else count) + rest)


def fragments():
    """Returns cases of fragments of tracks: runs inside and outside, one after the other, with sizes of each kind, in
    segments."""
    empty = stbl([], [])
    defaults = box(b"mvex", full(b"trex", 0, 0, be(4, 1, 1, 10, 7, 0)) + full(b"trex", 0, 0, be(4, 2, 1, 10, 5, 0)))
    movie = moov(trak(empty), trak(empty, 2), defaults)
    head = ftyp(b"iso5", b"iso5") + movie
    cases_ = []

    def case(name, make, said, front_=head, many="1 of 1 run lies", which=0, more=()):
        """Adds a fragment of runs. Their offsets are counted from the 20 bytes of media data after the fragment."""
        size = len(make(0))
        data = front_ + make(size + 8) + box(b"mdat", bytes(20))
        begin = len(data) - 20
        path = "moof/traf" + (f"[{which}]" if which else "")
        lines = [] if said is None else [
            line(data, b"traf", path, lies(said(begin, len(data), begin - size - 8), many), which)]
        cases_.append((f"fragment: {name}", data, lines + [line(data, *it) for it in more]))

    def far(offset):
        return lambda begin, end, moof_: f"run 1 at offset {moof_ + offset}, past the end of the file ({end} bytes)"

    def over(number, skipped, size):
        return lambda begin, end, moof_: past(f"run {number}", begin + skipped, begin + skipped + size, end)

    case("all of the media", lambda o: moof(traf(1, 0x20000, b"", trun(o, [12, 8]))), None)
    case("a byte too many", lambda o: moof(traf(1, 0x20000, b"", trun(o, [12, 9]))), over(1, 0, 21))
    case("far behind", lambda o: moof(traf(1, 0x20000, b"", trun(5000000, [1]))), far(5000000))
    case("before the file", lambda o: moof(traf(1, 0x20000, b"", trun(-2000000, [1]))),
         lambda begin, end, moof_: "run 1, which begins before the file")
    case("in the moof", lambda o: moof(traf(1, 0x20000, b"", trun(4, [1]))),
         lambda begin, end, moof_: f"run 1 at offset {moof_ + 4}, which is in no mdat")
    case("in the content of the moof", lambda o: moof(traf(1, 0x20000, b"", trun(12, [1]))),
         lambda begin, end, moof_: f"run 1 at offset {moof_ + 12}, which is in no mdat")
    case("two runs", lambda o: moof(traf(1, 0x20000, b"", trun(o, [12]), trun(None, [8]))), None)
    case("two runs, the second too long", lambda o: moof(traf(1, 0x20000, b"", trun(o, [12]), trun(None, [9]))),
         over(2, 12, 9), head, "1 of 2 runs lies")
    case("no samples at the end", lambda o: moof(traf(1, 0x20000, b"", trun(o, [12, 8]), trun(None, []))), None)
    case("the size of the trex, twice", lambda o: moof(traf(1, 0x20000, b"", trun(o, [], 2))), None)
    case("the size of the trex, thrice", lambda o: moof(traf(1, 0x20000, b"", trun(o, [], 3))), over(1, 0, 21))
    case("the size of the other trex", lambda o: moof(traf(2, 0x20000, b"", trun(o, [], 4))), None)
    case("the size of the tfhd", lambda o: moof(traf(1, 0x20010, be(4, 10), trun(o, [], 2))), None)
    case("4 billion samples", lambda o: moof(traf(1, 0x20010, be(4, 2**32 - 1), trun(o, [], 2**32 - 1))),
         over(1, 0, (2**32 - 1)**2))
    # The second traf's offsets count from the end of the data of the first, since the second has no flag.
    case("after the first traf", lambda o: moof(traf(1, 0, b"", trun(o, [12])), traf(2, 0, b"", trun(None, [8]))), None)
    case("after the first traf, too long", lambda o: moof(traf(1, 0, b"", trun(o, [12])),
                                                          traf(2, 0, b"", trun(0, [9]))), over(1, 12, 9), which=1)
    case("an absolute offset", lambda o: moof(traf(1, 1, be(8, 10**6), trun(0, [1]))), lambda begin, end, moof_:
         f"run 1 at offset 1000000, past the end of the file ({end} bytes)")
    styp = box(b"styp", b"msdh" + be(4, 0))
    case("a segment with an absolute offset", lambda o: moof(traf(1, 1, be(8, 10**6), trun(0, [1]))), None, styp)
    case("a segment", lambda o: moof(traf(1, 0x20000, b"", trun(o, [12, 9]))), over(1, 0, 21), styp)
    case("a segment without sizes", lambda o: moof(traf(1, 0x20000, b"", trun(o, [], 9))), None, styp)
    case("a track of no trak", lambda o: moof(traf(7, 0x20000, b"", trun(o, [20]))), None, head, more=[
        (b"tfhd", "moof/traf/tfhd", "track_ID 7 is that of no track of the moov")])
    away = ftyp(b"iso5", b"iso5") + moov(trak(empty, 1, 0), trak(empty, 2), defaults)
    case("media in another file", lambda o: moof(traf(1, 0x20000, b"", trun(5000000, [1]))), None, away)
    case("media of the other track in this file", lambda o: moof(traf(2, 0x20000, b"", trun(5000000, [1]))),
         far(5000000), away)
    return cases_


def kinds():
    """Returns cases of the kinds of files."""
    styp = box(b"styp", b"msdh" + be(4, 0))
    items = full(b"meta", 0, 0, handler(b"pict", b"") + full(b"pitm", 0, 0, be(2, 1)))
    sidx = full(b"sidx", 0, 0, be(4, 1, 1000, 0, 0) + be(2, 0, 0))
    none = "0 moov: there is no moov, moof, meta or sidx"
    return [("pictures", ftyp(b"heic", b"mif1", b"heic") + items + box(b"mdat", bytes(8)), []),
            ("an index of a segment", styp + sidx, []), ("a movie", front() + moov(trak(stbl([MEDIA], [1]))), []),
            ("a fragment", styp + moof(traf(1, 0x20000, b"")), []),
            ("an ftyp", ftyp(b"isom", b"isom"), [none]), ("a udta with a meta", box(b"udta", items), [none])]


def tracks():
    """Returns cases of the numbers of tracks."""
    table = stbl([MEDIA], [1])
    other = at(front() + moov(trak(table, 4)), b"tkhd")
    twice = front() + moov(trak(table, 4), trak(table, 5), trak(table, 4))
    none = front() + moov(trak(table, 0))
    wide = front() + moov(trak(table, 9, 1, tkhd(9, 0, 0, 1)), trak(table, 9))
    said = f"is that of another track too, whose tkhd is at {other}"
    zero = "warning: track_ID 0 is no number of a track; these begin at 1"
    return [("two tracks of a number", twice, [line(twice, b"tkhd", "moov/trak[2]/tkhd", f"track_ID 4 {said}", 2)]),
            ("track 0", none, [line(none, b"tkhd", "moov/trak/tkhd", zero)]),
            ("two tracks of a number, the first in a tkhd of version 1", wide, [
                line(wide, b"tkhd", "moov/trak[1]/tkhd", f"track_ID 9 {said}", 1)]),
            ("two moovs with tracks of other numbers", front() + moov(trak(table, 1)) + moov(trak(table, 2)), [])]


def lacks():
    """Returns cases of boxes that lack a box that they have to have."""
    table = stbl([MEDIA], [1])
    found = []

    def case(name, data, code, path, said, nth=0):
        """Adds a file whose box at `path` lacks the boxes in `said`, or has the fault that it says."""
        lines = [] if said is None else [f"there is no {it}" for it in said] if isinstance(said, list) else [said]
        found.append((f"lacks: {name}", data, [line(data, code, path, it, nth) for it in lines]))

    media = front()
    case("no mvhd", media + box(b"moov", trak(table)), b"moov", "moov", ["mvhd"])
    case("an mvhd in a udta", media + box(b"moov", box(b"udta", mvhd()) + trak(table)), b"moov", "moov", ["mvhd"])
    case("a compressed movie", media + box(b"moov", box(b"cmov", box(b"dcom", b"zlib"))), b"moov", "moov", None)
    case("references to movies", media + box(b"moov", box(b"rmra", b"")), b"moov", "moov", None)
    entries = stsd(visual(b"mp4v", 64, 48, b"", b""))
    case("an stbl of an stsd", media + moov(trak(box(b"stbl", entries))), b"stbl", STBL,
         ["stts", "stsc", "stsz or stz2", "stco or co64"])
    case("an stbl of nothing", media + moov(trak(box(b"stbl"))), b"stbl", STBL,
         ["stsd", "stts", "stsc", "stsz or stz2", "stco or co64"])
    whole = stbl([MEDIA], [1])
    for name, length in ((b"stsd", len(entries)), (b"stts", 24), (b"stsc", 28), (b"stsz", 24), (b"stco", 20)):
        place = whole.index(name) - 4
        rest = whole[8:place] + whole[place + length:]
        said = {b"stsz": "stsz or stz2", b"stco": "stco or co64"}.get(name, name.decode())
        case(f"no {name.decode()}", media + moov(trak(box(b"stbl", rest))), b"stbl", STBL, [said])
    small = full(b"stz2", 0, 0, be(4, 8, 1) + b"\1")
    place = whole.index(b"stsz") - 4
    case("an stz2", media + moov(trak(box(b"stbl", whole[8:place] + small + whole[place + 24:]))), b"stbl", STBL, None)
    for name, content, said in (("of 5 bits", be(4, 5, 1) + b"\1", "field_size must be 4, 8 or 16"),
                                ("of too few bytes", be(4, 16, 1) + b"\1",
                                 "sample_count indicates more sizes than could fit in the box")):
        wrong = full(b"stz2", 0, 0, content)
        case(f"an stz2 {name}", media + moov(trak(box(b"stbl", whole[8:place] + wrong + whole[place + 24:]))), b"stz2",
             f"{STBL}/stz2", said)
    case("a co64", media + moov(trak(stbl([MEDIA], [1], 1, True))), b"stbl", STBL, None)
    case("no tkhd", media + moov(trak(table, 1, 1, b"")), b"trak", "moov/trak", ["tkhd"])
    case("no mdia", media + moov(box(b"trak", tkhd(1))), b"trak", "moov/trak", ["mdia"])
    case("no mdhd", media + moov(box(b"trak", tkhd(1) + box(b"mdia", handler(b"vide", b"") + box(b"minf", table)))),
         b"mdia", "moov/trak/mdia", ["mdhd"])
    clock = mdhd(1000, b"und")
    case("no minf", media + moov(box(b"trak", tkhd(1) + box(b"mdia", clock))), b"mdia", "moov/trak/mdia",
         ["minf"])
    case("no mdhd and no minf", media + moov(box(b"trak", tkhd(1) + box(b"mdia"))), b"mdia", "moov/trak/mdia",
         ["mdhd", "minf"])
    case("no stbl", media + moov(box(b"trak", tkhd(1) + box(b"mdia", clock + box(b"minf")))), b"minf",
         "moov/trak/mdia/minf", ["stbl"])
    case("no mfhd", box(b"moof", traf(1, 0x20000, b"")), b"moof", "moof", ["mfhd"])
    case("no tfhd", moof(box(b"traf")), b"traf", "moof/traf", ["tfhd"])
    cut = media + moov(trak(table))
    cut = cut[:at(cut, b"mdhd")]
    whole_length = len(moov(trak(table)))
    lines = [line(cut, b"moov", "moov", lost("moov", whole_length, len(cut) - len(media)))]
    lines += [line(cut, name, path, "unexpected end of input")
              for name, path in ((b"trak", "moov/trak"), (b"mdia", "moov/trak/mdia"))]
    found.append(("lacks: a movie that is cut", cut, lines))
    return found


def twice():
    """Returns cases of two boxes where there may be only one."""
    found, table = [], stbl([MEDIA], [1])

    def said(parent, names, earlier):
        return f"warning: a {parent} may have only one {names}, and there is one before this at {earlier}"

    def case(parent, names, data, code, path, nth=1, other=None):
        """Adds a file in which the box `code` after `nth` others is one too many. The one before it is `other`."""
        earlier = at(data, code, nth - 1) if other is None else at(data, other)
        found.append((f"twice: {parent}, {code.decode()}", data, [
            line(data, code, path, said(parent, names, earlier), nth)]))

    def put(parent, content):
        """Returns a file with `content` at the end of the box `parent`."""
        data = moov(trak(table))
        place = data.index(parent) - 4
        end = place + int.from_bytes(data[place:place + 4], "big")
        grown = bytearray(data[:end] + content + data[end:])
        for name in (b"moov", b"trak", b"mdia", b"minf", b"stbl"):
            begin = data.index(name) - 4
            size = int.from_bytes(data[begin:begin + 4], "big")
            if begin < end <= begin + size and begin <= place:
                grown[begin:begin + 4] = be(4, size + len(content))
        return front() + bytes(grown)

    empty = {b"stsd": stsd(), b"stts": full(b"stts", 0, 0, be(4, 0)), b"stsc": full(b"stsc", 0, 0, be(4, 0)),
             b"stsz": full(b"stsz", 0, 0, be(4, 0, 0)), b"stz2": full(b"stz2", 0, 0, be(4, 4, 0)),
             b"stco": full(b"stco", 0, 0, be(4, 0)), b"co64": full(b"co64", 0, 0, be(4, 0))}
    names = {b"stsz": "stsz, stz2", b"stz2": "stsz, stz2", b"stco": "stco, co64", b"co64": "stco, co64"}
    for name, content in empty.items():
        other = {b"stz2": b"stsz", b"co64": b"stco"}.get(name)
        case("stbl", names.get(name, name.decode()), put(b"stbl", content), name,
             f"{STBL}/{name.decode()}{'' if other else '[1]'}", 0 if other else 1, other)
    others = {b"ctts": full(b"ctts", 0, 0, be(4, 0)), b"stss": full(b"stss", 0, 0, be(4, 0)),
              b"cslg": full(b"cslg", 0, 0, be(4, 0, 0, 0, 0, 0)), b"stsh": full(b"stsh", 0, 0, be(4, 0)),
              b"padb": full(b"padb", 0, 0, be(4, 0)), b"stdp": full(b"stdp", 0, 0, be(2, 0)),
              b"sdtp": full(b"sdtp", 0, 0, b"\0")}
    for name, content in others.items():
        found.append((f"once: {name.decode()}", put(b"stbl", content), []))
        case("stbl", name.decode(), put(b"stbl", content * 2), name, f"{STBL}/{name.decode()}[1]")
    for content in (full(b"sgpd", 1, 0, b"roll" + be(4, 2, 0)), full(b"sbgp", 0, 0, b"roll" + be(4, 0)),
                    full(b"subs", 0, 0, be(4, 0)), full(b"saiz", 0, 0, b"\1" + be(4, 0)),
                    full(b"saio", 0, 0, be(4, 0)), box(b"free")):
        found.append((f"twice: {content[4:8].decode()} may be", put(b"stbl", content * 2), []))
    minf = "moov/trak/mdia/minf"
    for name in (b"vmhd", b"smhd", b"hmhd", b"sthd", b"nmhd", b"gmhd"):
        content = {b"vmhd": full(b"vmhd", 0, 1, bytes(8)), b"smhd": full(b"smhd", 0, 0, bytes(4)),
                   b"gmhd": box(b"gmhd")}.get(name, full(name, 0, 0, bytes(16 if name == b"hmhd" else 0)))
        again = name == b"vmhd"
        case("minf", "vmhd, smhd, hmhd, sthd, nmhd, gmhd", put(b"minf", content), name,
             f"{minf}/{name.decode()}{'[1]' if again else ''}", int(again), None if again else b"vmhd")
    case("minf", "dinf", put(b"minf", box(b"dinf", full(b"dref", 0, 0, be(4, 0)))), b"dinf", f"{minf}/dinf[1]")
    case("minf", "stbl", put(b"minf", table), b"stbl", f"{minf}/stbl[1]")
    data = full(b"hdlr", 0, 0, b"dhlr" + b"alis" + bytes(12) + b"\0")
    case("minf", "hdlr", put(b"minf", data * 2), b"hdlr", f"{minf}/hdlr[1]", 2)
    mdia = "moov/trak/mdia"
    case("mdia", "mdhd", put(b"mdia", mdhd(1, b"und")), b"mdhd", f"{mdia}/mdhd[1]")
    case("mdia", "hdlr", put(b"mdia", handler(b"vide", b"")), b"hdlr", f"{mdia}/hdlr[1]")
    case("mdia", "elng", put(b"mdia", full(b"elng", 0, 0, b"de\0") * 2), b"elng", f"{mdia}/elng[1]")
    case("mdia", "minf", put(b"mdia", box(b"minf", table)), b"minf", f"{mdia}/minf[1]")
    case("trak", "tkhd", put(b"trak", tkhd(2)), b"tkhd", "moov/trak/tkhd[1]")
    for name in (b"tref", b"trgr", b"edts", b"udta"):
        case("trak", name.decode(), put(b"trak", box(name) * 2), name, f"moov/trak/{name.decode()}[1]")
    items = full(b"meta", 0, 0, handler(b"mdta", b""))
    case("trak", "meta", put(b"trak", items * 2), b"meta", "moov/trak/meta[1]")
    case("trak", "mdia", put(b"trak", box(b"mdia", mdhd(1, b"und") + box(b"minf", table))), b"mdia",
         "moov/trak/mdia[1]")
    case("moov", "mvhd", put(b"moov", mvhd()), b"mvhd", "moov/mvhd[1]")
    for name in (b"iods", b"mvex", b"udta"):
        content = full(b"iods", 0, 0, bytes(4)) if name == b"iods" else box(name)
        case("moov", name.decode(), put(b"moov", content * 2), name, f"moov/{name.decode()}[1]")
    case("moov", "meta", put(b"moov", items * 3), b"meta", "moov/meta[1]")
    data = found[-1][1]
    found[-1][2].append(line(data, b"meta", "moov/meta[2]", said("moov", "meta", at(data, b"meta", 1)), 2))
    found.append(("two tracks", front() + moov(trak(table, 1), trak(table, 2)), []))
    mfhd = full(b"mfhd", 0, 0, be(4, 1))
    for name, content in ((b"mfhd", mfhd), (b"meta", items * 2), (b"udta", box(b"udta") * 2)):
        data = box(b"moof", mfhd + traf(1, 0x20000, b"") + content)
        case("moof", name.decode(), data, name, f"moof/{name.decode()}[1]")
    for name, content in ((b"tfhd", full(b"tfhd", 0, 0x20000, be(4, 1))), (b"tfdt", full(b"tfdt", 0, 0, be(4, 0)) * 2),
                          (b"sdtp", full(b"sdtp", 0, 0) * 2), (b"meta", items * 2), (b"udta", box(b"udta") * 2)):
        case("traf", name.decode(), moof(traf(1, 0x20000, b"", content)), name, f"moof/traf/{name.decode()}[1]")
    found.append(("two runs", moof(traf(1, 0x20000, b"", trun(0, []), trun(0, [])), traf(1, 0x20000, b"")), [
        "24 moof/traf: " + lies("run 1 at offset 0, which is in no mdat", "2 of 2 runs lie")]))
    return found


def ends():
    """Returns cases of the four zero bytes with which QuickTime may end a `udta` and a sample entry. Elsewhere they are
    a header that is cut."""
    found = []

    def case(name, entry, kind=b"vide"):
        table = stbl([MEDIA], [1])
        old = visual(b"mp4v", 64, 48, b"", b"")
        grown = table.replace(stsd(old), stsd(entry))
        grown = be(4, len(grown)) + grown[4:]
        data = front() + moov(trak(grown).replace(handler(b"vide", b""), handler(kind, b"")))
        found.append((f"ends: {name}", data, entry[4:8].decode()))

    case("video", visual(b"jpeg", 64, 48, b"", bytes(4)))
    case("video with a box", visual(b"avc1", 64, 48, b"", box(b"pasp", be(4, 1, 1)) + bytes(4)))
    case("sound", sound(b"sowt", 0, 2, 16, 44100 << 16, b"", bytes(4)), b"soun")
    case("timed text", box(b"tx3g", bytes(6) + be(2, 1) + bytes(30) + bytes(4)), b"sbtl")
    case("WebVTT", box(b"wvtt", bytes(6) + be(2, 1) + box(b"vttC", b"WEBVTT") + bytes(4)), b"text")
    case("systems", box(b"mp4s", bytes(6) + be(2, 1) + bytes(4)), b"odsm")
    good = [(name, data, []) for name, data, _ in found]
    bad = []

    table = trak(stbl([MEDIA], [1]))
    cut = "-: unexpected end of input"
    for name, ending, said in (
            ("three bytes", bytes(3), cut), ("five bytes", bytes(5), cut), ("a number", be(4, 1), cut),
            ("eight bytes", bytes(8), "0x00000000: box size too small"),
            ("four bytes, none before", bytes(4), None), ("four bytes after a box", box(b"free") + bytes(4), None),
            ("four bytes before a box", bytes(4) + box(b"free"), "0x00000008: box size too small")):
        data = front() + moov(table, box(b"udta", ending))
        bad.append((f"udta: {name}", data, [f"{len(data) - len(ending)} moov/udta/{said}"] if said else []))
    for names in ([b"moov"], [b"moov", b"trak"], [b"moov", b"edts"], [b"moov", b"udta", b"ilst"],
                  [b"moov", b"udta", b"ilst", b"abcd"], [b"moov", b"udta", b"dinf"]):
        data = front() + nested(names, bytes(4))
        place, path = len(data) - 4, "/".join(name.decode() for name in names)
        lines = [f"{MEDIA + 40} moov: there is no mvhd"]
        if names[-1] == b"trak":
            lines += [f"{MEDIA + 48} moov/trak: there is no {it}" for it in ("tkhd", "mdia")]
        bad.append((f"no end: {path}", data, [*lines, f"{place} {path}/-: unexpected end of input"]))
    data = front() + moov(table) + bytes(4)
    bad.append(("no end: the file", data, [f"{len(data) - 4} -: unexpected end of input"]))
    return good + bad


def foreign():
    """Returns cases of files that are not MP4 files, and of files that are damaged at their front."""
    none = "0 moov: there is no moov, moof, meta or sidx"
    elf = b"\x7fELF" + bytes([2, 1, 1, 0]) + bytes(56)
    found = []
    for name, data, path, said in (
            ("text", b"Hello world, this is a text.\n", "o wo", 'it begins with "Hello wo"'),
            ("ELF", elf, "0x02010100", r"it begins with \x7fELF"),
            ("PNG", b"\x89PNG\r\n\x1a\n" + bytes(25), "0x0d0a1a0a", r"it begins with \x89PNG"),
            ("quotes", b'a"b\\c"d" and more text', 'c"d"', r'it begins with "a\"b\\c\"d\""'),
            ("a line", b"Hi\nthere, you", "here", r"it begins with Hi\x0at"),
            ("five bytes", b"hello", "-", "it has only 5 bytes"), ("a byte", b"\0", "-", "it has only 1 byte")):
        found.append((f"not MP4: {name}", data, [f"0 {path}: this is not an MP4 file: {said}", none]))
    found.append(("an ftyp that is cut", ftyp(b"isom", b"isom")[:12], [f"0 ftyp: {lost('ftyp', 20, 12)}", none]))
    large = be(4, 2**31) + ftyp(b"isom")[4:] + moov()
    found.append(("a size that is damaged", large, [f"0 ftyp: {lost('ftyp', 2**31, len(large))}", none]))
    other = box(b"abcd", bytes(4)) + front(0)
    found.append(("a code that is damaged", other, [none]))
    late = front(0) + b"Hello world"
    declared = number_at(b"Hell", 0, 4)
    found.append(("text at the end", late, [f"{MEDIA} o wo: {lost('o wo', declared, 11)}", none]))
    return found


def overlaps():
    """Returns cases of chunks that share bytes with the chunk before them."""
    found = []
    for name, offsets, sizes, said in (
            ("one after the other", [MEDIA, MEDIA + 10], [10, 10], None),
            ("a byte", [MEDIA, MEDIA + 9], [10, 10], ("1 chunk shares", 2, MEDIA + 9, MEDIA, MEDIA + 10)),
            ("the first byte, backward", [MEDIA + 9, MEDIA], [10, 10],
             ("1 chunk shares", 2, MEDIA, MEDIA + 9, MEDIA + 19)),
            ("backward, without one", [MEDIA + 10, MEDIA], [10, 10], None),
            ("the same chunk twice", [MEDIA, MEDIA], [10, 10], ("1 chunk shares", 2, MEDIA, MEDIA, MEDIA + 10)),
            ("no bytes in a chunk", [MEDIA, MEDIA + 5], [10, 0], None),
            ("no bytes around a chunk", [MEDIA + 5, MEDIA], [0, 10], None),
            ("two of four", [MEDIA, MEDIA + 10, MEDIA + 15, MEDIA + 16], [10, 10, 10, 10],
             ("2 chunks share", 3, MEDIA + 15, MEDIA + 10, MEDIA + 20)),
            ("not with the chunk before", [MEDIA, MEDIA + 20, MEDIA + 5], [10, 10, 10], None)):
        for wide in (False, True):
            data = front() + moov(trak(stbl(offsets, sizes, 1, wide)))
            code = b"co64" if wide else b"stco"
            found.append((f"overlap: {name}, {code.decode()}", data, [
                line(data, code, f"{STBL}/{code.decode()}", shares(*said))] if said else []))
    # Tables that disagree don't say which bytes a chunk has.
    data = front() + moov(trak(stbl([MEDIA, MEDIA], [9] * 5, 2)))
    found.append(("overlap: tables that disagree", data, [
        line(data, b"stbl", STBL, "the chunks hold 4 of 5 samples"),
        line(data, b"stco", f"{STBL}/stco", shares("1 chunk shares", 2, MEDIA, MEDIA, MEDIA + 1))]))
    return found


def lasts(declared, said, found, scale):
    return f"warning: the duration is {declared}, and {said} {found}, in ticks of 1/{scale} s"


def durations():
    """Returns cases of durations, each a second or nearly a second off, and of those that aren't known. A track has 200
    samples of 10 ticks of 1/1000 s, which are 1200 ticks of the movie."""
    table = stbl([MEDIA], [0] * 200, 200)
    media, tracks, movie = "that of the samples", "that of the edits or the samples", "that of the longest track"
    plain = front() + moov(trak(table))
    found = [("durations: all right", plain, [])]

    def off_by(off):
        return f"{abs(off)} ticks too {'long' if off > 0 else 'short'}"

    def changed(name, duration, data=plain):
        place = at(data, name)
        header = data[place:place + number_at(data, place, 4)]
        return data.replace(header, lasting(header, duration))

    for off, far in ((999, False), (1000, True), (-999, False), (-1000, True), (2**32 - 1 - 2000, False)):
        data = changed(b"mdhd", 2000 + off)
        found.append((f"durations: mdhd {off_by(off)}", data, [
            line(data, b"mdhd", "moov/trak/mdia/mdhd", lasts(2000 + off, media, 2000, 1000))] if far else []))
    for off, far in ((599, False), (600, True), (-599, False), (-600, True)):
        data = changed(b"mvhd", 1200 + off, changed(b"tkhd", 1200 + off))
        found.append((f"durations: tkhd {off_by(off)}", data, [
            line(data, b"tkhd", "moov/trak/tkhd", lasts(1200 + off, tracks, 1200, 600))] if far else []))
        data = changed(b"mvhd", 1200 + off)
        found.append((f"durations: mvhd {off_by(off)}", data, [
            line(data, b"mvhd", "moov/mvhd", lasts(1200 + off, movie, 1200, 600))] if far else []))
    data = changed(b"mvhd", 7, changed(b"tkhd", 2**32 - 1))
    found.append(("durations: tkhd and so mvhd unknown", data, []))
    data = changed(b"mvhd", 2**32 - 1)
    found.append(("durations: mvhd unknown", data, []))
    wide = front() + moov(trak(table, 1, 1, tkhd(1, 0, 0, 1)))
    found.append(("durations: a tkhd of version 1", wide, []))
    data = changed(b"mvhd", 2**32 - 1, changed(b"tkhd", 2**32 - 1, wide))
    found.append(("durations: a tkhd of version 1 with 2^32 - 1", data, [
        line(data, b"tkhd", "moov/trak/tkhd", lasts(2**32 - 1, tracks, 1200, 600))]))
    data = changed(b"mvhd", 2**32 - 1, changed(b"tkhd", 2**64 - 1, wide))
    found.append(("durations: a tkhd of version 1, unknown", data, []))
    # The movie is as long as its longest track, which is the first.
    data = front() + moov(trak(table), trak(stbl([MEDIA], [0] * 10, 10), 2))
    found.append(("durations: two tracks", data, []))
    # Fragments may follow a movie with an mvex.
    defaults = box(b"mvex", full(b"trex", 0, 0, be(4, 1, 1, 10, 7, 0)))
    data = front() + moov(trak(table), defaults)
    data = changed(b"mdhd", 9000, changed(b"tkhd", 9000, changed(b"mvhd", 90000, data)))
    found.append(("durations: a movie with an mvex", data, []))
    # Edits decide, and the last one may have no duration.
    for name, edits, track, said in (
            ("an edit", [600], 600, None), ("two edits", [300, 900], 1200, None),
            ("edits of another duration", [300, 300], 1200, 600), ("an edit that is open", [0], 5000, None),
            ("an open edit before the last", [0, 700], 100, 700), ("no entries", [], 1200, None),
            ("no entries, another duration", [], 1800, 1200)):
        rows = b"".join(be(4, edit, 0) + be(2, 1, 0) for edit in edits)
        elst = box(b"edts", full(b"elst", 0, 0, be(4, len(edits)) + rows))
        data = front() + moov(trak(table, 1, 1, None, elst))
        data = changed(b"mvhd", track, changed(b"tkhd", track, data))
        found.append((f"durations: {name}", data, [
            line(data, b"tkhd", "moov/trak/tkhd", lasts(track, tracks, said, 600))] if said else []))
    elst = box(b"edts", full(b"elst", 0, 0, be(4, 9)))
    data = front() + moov(trak(table, 1, 1, None, elst))
    data = changed(b"mvhd", 5000, changed(b"tkhd", 5000, data))
    said = "elst entry_count indicates more entries than could fit in the box"
    found.append(("durations: an elst that can't be read", data, [line(data, b"elst", "moov/trak/edts/elst", said)]))
    # Tables that disagree, or a timescale of 0, say nothing about durations.
    data = changed(b"mdhd", 90000, front() + moov(trak(stbl([MEDIA], [0] * 4, 3))))
    found.append(("durations: tables that disagree", data, [
        line(data, b"stbl", STBL, "the chunks hold 3 of 4 samples")]))
    still = plain.replace(be(4, 1000, 2000), be(4, 0, 2000))
    found.append(("durations: a timescale of 0", changed(b"mvhd", 9000, changed(b"tkhd", 9000, still)), []))
    return found


def sets():
    """Returns cases of the parameter sets in an `avcC`."""
    found = []

    def avcc(sps, pps):
        counted = lambda units: b"".join(be(2, len(unit)) + unit for unit in units)
        return box(b"avcC", bytes([1, 66, 0, 30, 0xFF, 0xE0 | len(sps)]) + counted(sps) + bytes([len(pps)])
                   + counted(pps))

    old = visual(b"mp4v", 64, 48, b"", b"")
    for code in (b"avc1", b"avc2", b"avc3", b"avc4", b"encv"):
        for name, sps, pps in (("all", [b"g"], [b"h"]), ("no sps", [], [b"h"]), ("no pps", [b"g"], []),
                               ("none", [], []), ("empty ones", [b""], [b""])):
            table = stbl([MEDIA], [1])
            grown = table.replace(stsd(old), stsd(visual(code, 64, 48, b"", avcc(sps, pps))))
            data = front() + moov(trak(be(4, len(grown)) + grown[4:]))
            is_wrong = code in (b"avc1", b"avc2") and not (sps and pps)
            found.append((f"sets: {code.decode()}, {name}", data, [
                line(data, b"avcC", f"{STBL}/stsd/{code.decode()}/avcC",
                     "there is no sequence parameter set or no picture parameter set")] if is_wrong else []))
    # The sets are read even where the extension after them has a fault: a set of 5 bytes, of which none is there.
    faulty = box(b"avcC", bytes([1, 100, 0, 30, 0xFF, 0xE1, 0, 1]) + b"g" + bytes([0, 0xFD, 0xF8, 0xF8, 1, 0, 5]))
    grown = stbl([MEDIA], [1]).replace(stsd(old), stsd(visual(b"avc1", 64, 48, b"", faulty)))
    data = front() + moov(trak(be(4, len(grown)) + grown[4:]))
    found.append(("sets: no pps before a faulty extension", data, [
        line(data, b"avcC", f"{STBL}/stsd/avc1/avcC", said)
        for said in ("count indicates more bytes than could fit in the box",
                     "there is no sequence parameter set or no picture parameter set")]))
    return found


def references():
    """Returns cases of data references of each kind: those whose flag says that the media are in this file, and others.
    The chunk of the track is in no media data."""
    found = []
    table = stbl([3], [1])
    # A `urn ` has a name that a byte of 0 ends.
    for name, fields in ((b"url ", b""), (b"urn ", b"urn:a\0"), (b"alis", b""), (b"rsrc", b""), (b"abcd", b"")):
        for flags, is_here in ((1, True), (0, False), (2, False), (3, True)):
            data = front() + moov(trak(table, reference=full(name, 0, flags, fields)))
            said = lies("chunk 1 at offset 3, which is in no mdat")
            found.append((f"references: {name.decode()}, {flags}", data, [
                line(data, b"stco", f"{STBL}/stco", said)] if is_here else []))
    # A `urn ` without the end of its name can't be read, and its flag still says where the media are.
    for flags, name in ((1, b""), (0, b"urn:a")):
        data = front() + moov(trak(table, reference=full(b"urn ", 0, flags, name)))
        said = [line(data, b"urn ", "moov/trak/mdia/minf/dinf/dref/urn ", "string has no end in the box"),
                line(data, b"stco", f"{STBL}/stco", lies("chunk 1 at offset 3, which is in no mdat"))]
        found.append((f"references: a urn without an end, {flags}", data, said[:1 + flags]))
    # A box of this code in another box is no data reference.
    data = front() + moov(trak(table, 1, 1, None, box(b"udta", full(b"url ", 0, 0))))
    found.append(("references: a url in a udta", data, [
        line(data, b"stco", f"{STBL}/stco", lies("chunk 1 at offset 3, which is in no mdat"))]))
    # The references may follow the sample table.
    whole = trak(table)
    dinf = box(b"dinf", full(b"dref", 0, 0, be(4, 1) + full(b"url ", 0, 0)))
    same = box(b"dinf", full(b"dref", 0, 0, be(4, 1) + full(b"url ", 0, 1)))
    found.append(("references: after the tables", front() + moov(whole.replace(same + table, table + dinf)), []))
    return found


def times():
    """Returns cases of the times of fragments."""
    styp = box(b"styp", b"msdh" + be(4, 0))
    found = []

    def goes_back(time, earlier):
        return f"warning: the fragment starts at {time}, and the fragment of this track before it at {earlier}"

    def part(track, time):
        return traf(track, 0x20000, b"", full(b"tfdt", 0, 0, be(4, time)) if time is not None else b"")

    def case(name, moofs, said=(), path=None, which=0):
        data = styp + b"".join(moof(*(part(*it) for it in trafs)) for trafs in moofs)
        lines = [line(data, b"tfdt", path, goes_back(*said), which)] if said else []
        found.append((f"times: {name}", data, lines))

    case("forward", [[(1, 0)], [(1, 10)], [(1, 20)]])
    case("the same", [[(1, 10)], [(1, 10)]])
    case("back", [[(1, 10)], [(1, 9)]], (9, 10), "moof[1]/traf/tfdt", 1)
    case("back after a fragment without a time", [[(1, 10)], [(1, None)], [(1, 9)]], (9, 10), "moof[2]/traf/tfdt", 1)
    case("two tracks", [[(1, 10)], [(2, 5)], [(1, 20)], [(2, 6)]])
    case("in one moof", [[(1, 10), (2, 20), (1, 5)]], (5, 10), "moof/traf[2]/tfdt", 2)
    case("back once, then on from there", [[(1, 10)], [(1, 4)], [(1, 6)]], (4, 10), "moof[1]/traf/tfdt", 1)
    wide = styp + moof(traf(1, 0x20000, b"", full(b"tfdt", 1, 0, be(8, 2**33)))) + moof(part(1, 7))
    found.append(("times: 64 bits", wide, [line(wide, b"tfdt", "moof[1]/traf/tfdt", goes_back(7, 2**33), 1)]))
    return found


def indexes():
    """Returns cases of the sizes in a segment index."""
    styp = box(b"styp", b"msdh" + be(4, 0))
    segment = moof(traf(1, 0x20000, b""))
    media = box(b"mdat", bytes(12))
    found = []

    def sidx(first, *sizes, kind=0):
        return full(b"sidx", 0, 0, be(4, 1, 1000, 0, first) + be(2, 0, len(sizes)) + b"".join(
            be(4, kind * 2**31 + size, 10, 0) for size in sizes))

    one = len(segment) + len(media)

    def case(name, data, before=None, position=None, path="sidx", which=0):
        many = "subsegment" if before == 1 else "subsegments"
        found.append((f"indexes: {name}", data, [] if before is None else [
            line(data, b"sidx", path, f"after {before} {many} the index is at {position}, where no box begins and the "
                 "file doesn't end", which)]))

    begin = len(styp) + len(sidx(0, 0))
    case("all right", styp + sidx(0, one) + segment + media)
    case("a byte too many", styp + sidx(0, one + 1) + segment + media, 1, begin + one + 1)
    case("a byte too few", styp + sidx(0, one - 1) + segment + media, 1, begin + one - 1)
    case("up to the end of the moof", styp + sidx(0, len(segment)) + segment + media)
    two = begin + 12
    case("two", styp + sidx(0, one, one) + segment + media + segment + media)
    case("two, the first wrong", styp + sidx(0, one + 4, one - 4) + segment + media + segment + media, 1, two + one + 4)
    case("two, the second wrong", styp + sidx(0, one, one - 4) + segment + media + segment + media, 2,
         two + 2 * one - 4)
    case("a gap before the first", styp + sidx(16, one) + box(b"free", bytes(8)) + segment + media)
    case("a gap of another size", styp + sidx(15, one) + box(b"free", bytes(8)) + segment + media, 0, begin + 15)
    case("no subsegments", styp + sidx(7) + segment + media)
    case("no fragments", styp + sidx(0, 99) + media)
    inner = sidx(0, one)
    outer = styp + sidx(0, len(inner) + one, kind=1) + inner + segment + media
    case("an index of an index", outer)
    case("the second of two", styp + sidx(len(inner), one) + sidx(0, one + 2) + segment + media, 1,
         len(styp) + 2 * len(inner) + one + 2, "sidx[1]", 1)
    large = full(b"sidx", 1, 0, be(4, 1, 1000) + be(8, 0, 2**64 - 1) + be(2, 0, 1) + be(4, one, 10, 0))
    case("an offset of 2^64 - 1", styp + large + segment + media, 0, 2**64 - 1)
    return found


def cases():
    return [*chunks(), *more_chunks(), *overlaps(), *references(), *fragments(), *times(), *indexes(), *kinds(),
            *tracks(), *durations(), *sets(), *lacks(), *twice(), *ends(), *foreign()]
