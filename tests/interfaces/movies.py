"""Files of which each interface has to give one answer, with the answers. The answers were worked out by hand from
ISO/IEC 14496-12 and docs/DECISIONS.md: positions are those of codes in the bytes, and nothing is what a program
printed.

`cases()` returns for each file its name, its bytes, its answer, and boxes that trees have to show: their paths and some
of their fields. None of these boxes has a fault."""

from tests.files.faulty import MEDIA, at, front, moof, moov, mvhd, stbl, traf, trak, trun
from tests.files.made import be, box, ftyp, full, handler, mdhd, sound, stsd, tkhd, visual
from tests.interfaces.answers import Answer, Problem, Sample, Samples, Traf, Track

STSD = "moov/trak/mdia/minf/stbl/stsd"
# The samples of `stbl` last 10 ticks each, and the timescale of `trak` is 1000.
SCALE = 1000


def of(data, samples, nth=0, track_id=1, kind=b"vide", fragments=Samples([])):
    """Returns the track of the `trak` after `nth` others, which has these samples or this problem of its tables."""
    if isinstance(samples, Problem):
        return Track(at(data, b"trak", nth), track_id, kind, SCALE, Samples([], samples), None)
    return Track(at(data, b"trak", nth), track_id, kind, SCALE, Samples(samples), fragments)


def two(first=MEDIA):
    """Returns two samples of 10 and 20 bytes, each in its own chunk, starting at offset `first`, and their tables."""
    return [Sample(first, 10, 0, 10), Sample(first + 10, 20, 10, 10)], stbl([first, first + 10], [10, 20])


def trex(track_id, size, duration=10):
    return full(b"trex", 0, 0, be(4, track_id, 1, duration, size, 0))


def fragmented(tables, defaults, *trafs):
    """Returns a movie with one track of `tables`, the boxes `defaults` in an `mvex`, and a `moof` whose trafs are
    `trafs`, followed by 40 bytes of media data. Each of `trafs` is a function of the position of the media data in the
    `moof`. Also returns the positions of the `moof` and of the media data."""
    head = ftyp(b"iso5", b"iso5") + moov(trak(tables), box(b"mvex", b"".join(defaults)))
    size = len(moof(*(make(0) for make in trafs)))
    data = head + moof(*(make(size + 8) for make in trafs)) + box(b"mdat", bytes(40))
    return data, len(head), len(head) + size + 8


def in_second_moov():
    samples, tables = two()
    data = front() + moov() + moov(trak(tables))
    yield "a track in a second moov", data, Answer([]), {}
    data = front() + moov(trak(tables)) + moov(trak(tables, 2))
    yield "a track in each of two moovs", data, Answer([of(data, samples)]), {}
    data = front() + moov(trak(tables)) + moov(trak(tables))
    yield "a track of one track_ID in each of two moovs", data, Answer([of(data, samples)]), {}
    data = front() + moov() + moov(trak(tables), box(b"mvex", trex(1, 5))) + moof(traf(1, 0x20000, b"", trun(8, [], 1)))
    yield "a fragment of a track in a second moov", data, Answer([], [
        Traf(at(data, b"moof"), 1, Problem("there is no trex"))]), {}
    # Boxes `trak` that are not directly in a moov.
    data = front() + moov(box(b"udta", trak(tables)), box(b"edts", trak(tables)))
    yield "a trak in a udta", data, Answer([]), {}


def without_sizes():
    """Yields tracks with no `stsz` and no chunk. They have no samples, except in fragments."""
    empty = [full(b"stts", 0, 0, be(4, 0)), full(b"stsc", 0, 0, be(4, 0)), full(b"stco", 0, 0, be(4, 0))]
    entry = stsd(visual(b"mp4v", 64, 48, b"", b""))
    for name, tables in (("empty tables", empty), ("an stts only", empty[:1]), ("an stsc only", empty[1:2]),
                         ("no tables", [])):
        data, moof_, media = fragmented(box(b"stbl", entry + b"".join(tables)), [trex(1, 7)], lambda begin: traf(
            1, 0x20000, b"", trun(begin, [4, 6]), trun(None, [], 2)))
        samples = [Sample(media, 4, 0, 10), Sample(media + 4, 6, 10, 10), Sample(media + 10, 7, 20, 10),
                   Sample(media + 17, 7, 30, 10)]
        yield f"no stsz, no chunk, one fragment: {name}", data, Answer([of(data, [], fragments=Samples(samples))], [
            Traf(moof_, 1)]), {}
        data = front() + moov(trak(box(b"stbl", entry + b"".join(tables))))
        yield f"no stsz, no chunk: {name}", data, Answer([of(data, [])]), {}
    chunks = box(b"stbl", entry + empty[0] + empty[1] + full(b"stco", 0, 0, be(4, 1, MEDIA)))
    data = front() + moov(trak(chunks))
    yield "no stsz, one chunk", data, Answer([of(data, Problem("there is no stsz"))]), {}
    sizes = box(b"stbl", entry + empty[0] + empty[1] + full(b"stsz", 0, 0, be(4, 0, 0)))
    data = front() + moov(trak(sizes))
    yield "an stsz, no stco", data, Answer([of(data, Problem("there is no stco"))]), {}
    # Of several tables that are missing, the chunk offsets are the first, and then the chunks.
    data = front() + moov(trak(box(b"stbl", entry + full(b"stsz", 0, 0, be(4, 0, 0)))))
    yield "an stsz only", data, Answer([of(data, Problem("there is no stco"))]), {}
    data = front() + moov(trak(box(b"stbl", entry + full(b"stsz", 0, 0, be(4, 0, 0)) + empty[2])))
    yield "an stsz and an stco", data, Answer([of(data, Problem("there is no stsc"))]), {}


def counted_by(sizes, count, offsets):
    """Returns tables of `count` samples, each in its own chunk at one of `offsets`, whose sizes are in the boxes
    `sizes`."""
    return box(b"stbl", stsd(visual(b"mp4v", 64, 48, b"", b"")) + full(b"stts", 0, 0, be(4, 1, count, 10)) + full(
        b"stsc", 0, 0, be(4, 1, 1, 1, 1)) + sizes + full(b"stco", 0, 0, be(4, len(offsets), *offsets)))


def stz2(bits, count, sizes, version=0):
    return full(b"stz2", version, 0, be(4, bits, count) + sizes)


def of_compact_sizes():
    """Yields tracks whose sizes are in an `stz2` (8.7.3.3). The media data of a file are 3,000 bytes."""
    begin = [MEDIA, MEDIA + 9, MEDIA + 19]
    small = [Sample(MEDIA, 9, 0, 10), Sample(MEDIA + 9, 10, 10, 10), Sample(MEDIA + 19, 11, 20, 10)]
    # The second size of a byte is in its lower half. That of the last byte is no size.
    for name, sizes in (("of 4 bits, an odd number", stz2(4, 3, b"\x9a\xb0")),
                        ("of 4 bits, an odd number, the last half used", stz2(4, 3, b"\x9a\xbf")),
                        ("of 4 bits, reserved bytes that are not 0", stz2(0x81828304, 3, b"\x9a\xb0")),
                        ("of 8 bits", stz2(8, 3, b"\x09\x0a\x0b")),
                        ("of 16 bits", stz2(16, 3, b"\0\x09\0\x0a\0\x0b")),
                        ("of 4 bits, one byte more", stz2(4, 3, b"\x9a\xb0\xcd")),
                        ("of 8 bits, one byte more", stz2(8, 3, b"\x09\x0a\x0b\x0c")),
                        ("of 16 bits, one byte more", stz2(16, 3, b"\0\x09\0\x0a\0\x0b\1"))):
        data = front(3000) + moov(trak(counted_by(sizes, 3, begin)))
        yield f"sizes {name}", data, Answer([of(data, small)]), {}
    sizes = stz2(4, 4, b"\xf0\x1e")
    data = front(3000) + moov(trak(counted_by(sizes, 4, [MEDIA, MEDIA + 100, MEDIA + 200, MEDIA + 300])))
    yield "sizes of 4 bits, an even number", data, Answer([of(data, [
        Sample(MEDIA, 15, 0, 10), Sample(MEDIA + 100, 0, 10, 10), Sample(MEDIA + 200, 1, 20, 10),
        Sample(MEDIA + 300, 14, 30, 10)])]), {}
    large = [Sample(MEDIA, 0x102, 0, 10), Sample(MEDIA + 0x102, 0x304, 10, 10)]
    data = front(3000) + moov(trak(counted_by(stz2(16, 2, b"\1\2\3\4"), 2, [MEDIA, MEDIA + 0x102])))
    yield "sizes of 16 bits above 255", data, Answer([of(data, large)]), {}
    data = front(3000) + moov(trak(counted_by(stz2(8, 2, b"\x80\xff"), 2, [MEDIA, MEDIA + 128])))
    yield "sizes of 8 bits above 127", data, Answer([of(data, [
        Sample(MEDIA, 128, 0, 10), Sample(MEDIA + 128, 255, 10, 10)])]), {}
    for name, sizes in (("of 0 bits", stz2(0, 3, b"\x9a\xb0")), ("of 5 bits", stz2(5, 3, b"\x9a\xb0")),
                        ("of 32 bits", stz2(32, 3, bytes(12))), ("of 5 bits, none", stz2(5, 0, b"")),
                        ("of 4 bits, one byte short", stz2(4, 3, b"\x9a")),
                        ("of 8 bits, one byte short", stz2(8, 3, b"\x09\x0a")),
                        ("of 16 bits, one byte short", stz2(16, 3, b"\0\x09\0\x0a\0")),
                        ("of 4 bits, 2^32 - 1 of them", stz2(4, 2**32 - 1, b"\x9a\xb0")),
                        ("in a box of version 1", stz2(4, 3, b"\x9a\xb0", 1)),
                        ("in a box without a count", full(b"stz2", 0, 0, be(4, 4)))):
        data = front(3000) + moov(trak(counted_by(sizes, 3, begin)))
        yield f"sizes {name}", data, Answer([of(data, Problem(None, "stz2", at(data, b"stz2")))]), {}
    # An stsz counts, wherever it is. Of two boxes stz2 the first counts.
    listed, others = full(b"stsz", 0, 0, be(4, 0, 3, 9, 10, 11)), stz2(8, 2, b"\1\2")
    for name, sizes in (("an stsz, and an stz2 of other sizes", listed + others),
                        ("an stz2, and an stsz of other sizes", others + listed),
                        ("an stz2 of 5 bits, and an stsz", stz2(5, 3, b"\1\2") + listed),
                        ("two boxes stz2", stz2(4, 3, b"\x9a\xb0") + others)):
        data = front(3000) + moov(trak(counted_by(sizes, 3, begin)))
        yield name, data, Answer([of(data, small)]), {}
    short = full(b"stsz", 0, 0, be(4, 0, 3, 9, 10))
    data = front(3000) + moov(trak(counted_by(short + stz2(4, 3, b"\x9a\xb0"), 3, begin)))
    yield "an stsz that is too short, and an stz2", data, Answer([
        of(data, Problem(None, "stsz", at(data, b"stsz")))]), {}
    for name, sizes in (("of 4 bits", stz2(4, 0, b"")), ("of 16 bits, with bytes", stz2(16, 0, b"\1\2"))):
        data = front(3000) + moov(trak(counted_by(sizes, 0, [])))
        yield f"no chunk, no sizes {name} in an stz2", data, Answer([of(data, [])]), {}
    entry = stsd(visual(b"mp4v", 64, 48, b"", b""))
    data = front(3000) + moov(trak(box(b"stbl", entry + stz2(4, 0, b""))))
    yield "an stz2 of no sizes, no stco", data, Answer([of(data, Problem("there is no stco"))]), {}
    data = front(3000) + moov(trak(counted_by(stz2(4, 3, b"\x9a\xb0"), 2, begin)))
    yield "an stz2 of three sizes, and durations of two", data, Answer([
        of(data, Problem("stts has a duration for 2 of 3 samples"))]), {}
    # The fragments of such a track begin after its samples.
    data, place, media = fragmented(counted_by(stz2(8, 2, b"\4\5"), 2, [0, 4]), [trex(1, 7)], lambda begin_: traf(
        1, 0x20000, b"", trun(begin_, [6])))
    yield "sizes of 8 bits, and a fragment", data, Answer([of(data, [
        Sample(0, 4, 0, 10), Sample(4, 5, 10, 10)], fragments=Samples([Sample(media, 6, 20, 10)]))], [
            Traf(place, 1)]), {}


def without_track_id():
    samples, tables = two()
    second = tkhd(1, 0, 0, 1)
    second = second[:8] + b"\2" + second[9:]
    short = full(b"tkhd", 0, 7, be(4, 3797824089, 3797824090, 1, 0))
    for name, header in (("a tkhd of version 2", second), ("a tkhd of 28 bytes", short), ("no tkhd", b"")):
        data = front() + moov(trak(tables, 1, 1, header), trak(tables, 2))
        problem = Problem(None, "tkhd", at(data, b"tkhd")) if header else Problem("there is no tkhd")
        yield name, data, Answer([of(data, samples, 0, problem), of(data, samples, 1, 2)]), {}
    # A track_ID that can't be read is that of no track. The first tkhd of a track counts.
    data = front() + moov(trak(tables, 1, 1, second), trak(tables))
    yield "a tkhd of version 2 before another of its number", data, Answer([
        of(data, samples, 0, Problem(None, "tkhd", at(data, b"tkhd"))), of(data, samples, 1)]), {}
    data = front() + moov(trak(tables, 1, 1, second + tkhd(1)))
    yield "two headers in a track, the first of version 2", data, Answer([
        of(data, samples, 0, Problem(None, "tkhd", at(data, b"tkhd")))]), {}
    data = front() + moov(trak(tables, 1, 1, tkhd(3) + tkhd(1)))
    yield "two headers in a track", data, Answer([of(data, samples, 0, 3)]), {}


def of_one_track_id():
    (samples, tables), others = two(), [Sample(MEDIA + 30, 9, 0, 10)]
    last = stbl([MEDIA + 30], [9])
    data = front() + moov(trak(tables, 4), trak(last, 4))
    yield "two tracks of one track_ID", data, Answer([of(data, samples, 0, 4), of(data, others, 1, 4)]), {}
    data = front() + moov(trak(box(b"stbl"), 4), trak(last, 5), trak(tables, 5))
    yield "two tracks of one track_ID, after another", data, Answer([
        of(data, [], 0, 4), of(data, others, 1, 5), of(data, samples, 2, 5)]), {}
    head = ftyp(b"iso5", b"iso5") + moov(trak(tables), trak(last), box(b"mvex", trex(1, 7)))
    data = head + moof(traf(1, 0x20000, b"", trun(0, [3])))
    place = at(data, b"moof")
    fragment = Samples([Sample(place, 3, 20, 10)])
    yield "two tracks of one track_ID, and a fragment", data, Answer([
        of(data, samples, 0, 1, fragments=fragment), of(data, others, 1, 1)], [Traf(place, 1)]), {}


def without_boxes():
    """Yields tracks that lack boxes around their tables. The first one that is missing is the problem."""
    _, tables = two()
    media = mdhd(SCALE, b"und") + handler(b"vide", b"")
    for name, inside in (("mdia", b""), ("minf", box(b"mdia", media)), ("stbl", box(b"mdia", media + box(b"minf")))):
        data = front() + moov(box(b"trak", tkhd(1) + inside), trak(tables, 2))
        problem = Problem(f"there is no {name}")
        first = of(data, problem)
        if name == "mdia":
            first = Track(first.position, 1, problem, problem, *first[4:])
        yield f"a track without {name}", data, Answer([first, of(data, two()[0], 1, 2)]), {}
    data = front() + moov(box(b"trak", tkhd(1) + box(b"minf", tables)))
    lost = Problem("there is no mdia")
    yield "a minf outside of an mdia", data, Answer([
        Track(at(data, b"trak"), 1, lost, lost, Samples([], lost), None)]), {}
    # The tables are those of the first mdia, minf and stbl.
    data = front() + moov(box(b"trak", tkhd(1) + box(b"mdia", media) + box(b"mdia", media + box(b"minf", tables))))
    yield "two mdia", data, Answer([of(data, Problem("there is no minf"))]), {}
    # Neither a handler nor a timescale is needed for samples.
    data = front() + moov(box(b"trak", tkhd(1) + box(b"mdia", box(b"minf", tables))))
    yield "an mdia without headers", data, Answer([Track(at(data, b"trak"), 1, Problem("there is no hdlr"), Problem(
        "there is no mdhd"), Samples(two()[0]))]), {}
    nameless = full(b"hdlr", 0, 0, be(4, 0) + b"vide" + bytes(12))
    clock = full(b"mdhd", 2, 0, bytes(32))
    data = front() + moov(box(b"trak", tkhd(1) + box(b"mdia", clock + nameless + box(b"minf", tables))))
    yield "an hdlr and an mdhd that can't be read", data, Answer([Track(
        at(data, b"trak"), 1, Problem(None, "hdlr", at(data, b"hdlr")), Problem(None, "mdhd", at(data, b"mdhd")),
        Samples(two()[0]))]), {}


def of_fragments():
    samples, tables = two()
    run = lambda *sizes: lambda begin: traf(1, 0x20000, b"", trun(begin, list(sizes)))
    short = lambda begin: box(b"traf", full(b"tfhd", 0, 0x20000))
    lost = lambda begin: box(b"traf", trun(begin, [5]))
    cut = lambda begin: traf(1, 0x20000, b"", full(b"trun", 0, 0x200, be(4, 3, 1, 2)))

    def third(media):
        return [Sample(media, 4, 20, 10), Sample(media, 6, 30, 10)]
    for name, middle, problem in (("a tfhd that is too short", short, None), ("no tfhd", lost, Problem(
            "there is no tfhd"))):
        data, place, media = fragmented(tables, [trex(1, 7)], run(4), middle, run(6))
        samples = two()[0]
        problem = problem or Problem(None, "tfhd", at(data, b"tfhd", 1))
        yield f"a traf between two others: {name}", data, Answer([
            of(data, samples, fragments=Samples(third(media)))], [
                Traf(place, 1), Traf(place, None, problem), Traf(place, 1)]), {}
    data, place, media = fragmented(tables, [trex(1, 7)], run(4), cut, run(6))
    problem = Problem(None, "trun", at(data, b"trun", 1))
    yield "a traf between two others: a trun that is too short", data, Answer([
        of(data, samples, fragments=Samples(third(media)[:1], problem))], [
            Traf(place, 1), Traf(place, 1, problem), Traf(place, 1)]), {}
    # The data of a traf of a track begin where those of the traf before it end, unless it is no fragment.
    after = lambda begin: traf(1, 0, b"", trun(None, [6]))
    data, place, media = fragmented(tables, [trex(1, 7)], run(4), after)
    yield "a traf after another", data, Answer([of(data, samples, fragments=Samples([
        Sample(media, 4, 20, 10), Sample(media + 4, 6, 30, 10)]))], [Traf(place, 1), Traf(place, 1)]), {}
    other = lambda begin: traf(2, 0x20000, b"", trun(begin, [4]))
    data, place, media = fragmented(tables, [trex(1, 7)], other, after)
    lost = Problem(f"the data before a fragment in the moof at {place} have no known end")
    yield "a traf after one of no track", data, Answer([of(data, samples, fragments=Samples([], lost))], [
        Traf(place, 2, Problem("there is no trex")), Traf(place, 1, lost)]), {}
    default = lambda begin: traf(1, 0x20000, b"", trun(begin, [], 2))
    data, place, media = fragmented(tables, [trex(2, 9), trex(1, 7, 3), trex(1, 8, 4)], default)
    yield "a trex twice", data, Answer([of(data, samples, fragments=Samples([
        Sample(media, 7, 20, 3), Sample(media + 7, 7, 23, 3)]))], [Traf(place, 1)]), {}
    # Without an stsz and a chunk there are no samples before the first fragment, whatever the stts counts.
    for name, counts in (("counts samples", be(4, 1, 5, 10)), ("can't be read", be(4, 1))):
        none = box(b"stbl", stsd(visual(b"mp4v", 64, 48, b"", b"")) + full(b"stts", 0, 0, counts))
        data, place, media = fragmented(none, [trex(1, 7)], default)
        yield f"no stsz, no chunk, an stts that {name}", data, Answer([of(data, [], fragments=Samples([
            Sample(media, 7, 0, 10), Sample(media + 7, 7, 10, 10)]))], [Traf(place, 1)]), {}
    data, place, media = fragmented(tables, [trex(1, 7)[:-1], trex(1, 8, 4)], default)
    data = data.replace(trex(1, 7)[:-1], be(4, 31) + trex(1, 7)[4:-1])
    yield "a trex twice, the first too short", data, Answer([of(data, samples, fragments=Samples([
        Sample(media, 8, 20, 4), Sample(media + 8, 8, 24, 4)]))], [Traf(place, 1)]), {}
    # An mvex after the first doesn't count.
    head = ftyp(b"iso5", b"iso5") + moov(trak(tables), box(b"mvex"), box(b"mvex", trex(1, 7)))
    data = head + moof(default(0))
    lost = Problem("there is no trex")
    yield "two mvex", data, Answer([of(data, samples, fragments=Samples([], lost))], [Traf(len(head), 1, lost)]), {}
    # The durations of all tables are passed before the first fragment, also those of more samples than there are.
    long = tables.replace(be(4, 1, 2, 10), be(4, 1, 3, 10))
    data, place, media = fragmented(long, [trex(1, 7)], run(4))
    yield "an stts of more samples than there are", data, Answer([of(data, samples, fragments=Samples([
        Sample(media, 4, 30, 10)]))], [Traf(place, 1)]), {}
    data = moof(traf(1, 0x20000, b"", trun(0, [4])))
    yield "a fragment without a movie", data, Answer([], [Traf(0, 1, Problem("there is no trex"))], False), {}
    yield "no movie", front(), Answer([], [], False), {}


def of_first_boxes():
    """Yields tracks with two boxes of one code, of which the first counts, and files with boxes where they mean
    nothing (8.5.1, 8.8.3, 8.8.6)."""
    samples, tables = two()
    shifted = [Sample(MEDIA, 10, 0, 10, 5, False), Sample(MEDIA + 10, 20, 10, 10, 5)]
    second = b"".join(full(name, 0, 0, be(4, *numbers)) for name, *numbers in (
        (b"ctts", 1, 2, 5), (b"ctts", 1, 2, 6), (b"stss", 1, 2), (b"stss", 1, 1), (b"stts", 1, 2, 99),
        (b"stsc", 1, 1, 1, 7), (b"stsz", 0, 2, 7, 8), (b"stco", 2, MEDIA + 1, MEDIA + 2)))
    data = front() + moov(trak(stbl([MEDIA, MEDIA + 10], [10, 20], 1, False, second)))
    yield "two tables of each code", data, Answer([of(data, shifted)]), {}
    # An stco counts, wherever it is.
    narrow = full(b"stco", 0, 0, be(4, 2, MEDIA, MEDIA + 10))
    data = front() + moov(trak(stbl([MEDIA + 3, MEDIA + 4], [10, 20], 1, True, narrow)))
    yield "a co64 before an stco", data, Answer([of(data, samples)]), {}
    media, other = mdhd(SCALE, b"und") + handler(b"vide", b""), box(b"udta", stbl([MEDIA + 3], [9]))
    data = front() + moov(box(b"trak", tkhd(1) + box(b"mdia", media + other + box(b"minf", tables))))
    yield "an stbl in a udta before the minf", data, Answer([of(data, samples)]), {}
    run = lambda begin: traf(1, 0x20000, b"", trun(begin, [], 2))
    head = ftyp(b"iso5", b"iso5") + moov(trak(tables), box(b"udta", trex(1, 5)), box(b"mvex", trex(1, 7)))
    size = len(moof(run(0)))
    data, begin = head + moof(run(size + 8)) + box(b"mdat", bytes(40)), len(head) + size + 8
    yield "a trex in a udta before the mvex", data, Answer([of(data, samples, fragments=Samples([
        Sample(begin, 7, 20, 10), Sample(begin + 7, 7, 30, 10)]))], [Traf(len(head), 1)]), {}
    data = front() + moov(trak(tables), box(b"mvex", trex(1, 7)), run(0))
    yield "a traf in a moov", data, Answer([of(data, samples)]), {}
    # Sync samples that the track doesn't have are no fault.
    data = front() + moov(trak(stbl([MEDIA, MEDIA + 10], [10, 20], 1, False, full(b"stss", 0, 0, be(4, 2, 1, 9)))))
    yield "an stss of more samples than there are", data, Answer([
        of(data, [samples[0], samples[1]._replace(is_sync=False)])]), {}


def of_runs():
    """Yields fragments with runs of no samples, in no order, with flags of both kinds, and with late times (8.8.7,
    8.8.8, docs/SAMPLES.md)."""
    samples, tables = two()

    def case(name, listed, *trafs):
        data, place, media = fragmented(tables, [trex(1, 7)], *trafs)
        return name, data, Answer([of(data, samples, fragments=listed(media, place))], [
            Traf(place, 1) for _ in trafs]), {}
    # The last run ends before the first one does. The data of the next traf begin there.
    yield case("a traf after one whose last run is in front", lambda media, place: Samples([
        Sample(media + 10, 4, 20, 10), Sample(media, 3, 30, 10), Sample(media + 3, 6, 40, 10)]),
               lambda begin: traf(1, 0x20000, b"", trun(begin + 10, [4]), trun(begin, [3])),
               lambda begin: traf(1, 0, b"", trun(None, [6])))
    # A run of no samples still has a place, which the next one goes on from.
    yield case("a run after one of no samples", lambda media, place: Samples([
        Sample(media, 4, 20, 10), Sample(media + 9, 6, 30, 10)]),
               lambda begin: traf(1, 0x20000, b"", trun(begin, [4]), trun(begin + 9, []), trun(None, [6])))
    # The flags of the first sample take the place of a default only.
    flags = full(b"trun", 0, 0x605, be(4, 2))
    yield case("a run with flags of its first sample and of each", lambda media, place: Samples([
        Sample(media, 4, 20, 10, 0, False), Sample(media + 4, 6, 30, 10)]),
               lambda begin: traf(1, 0x20000, b"", be(4, len(flags) + 24) + flags[4:] + be(
                   4, begin, 0x2000000, 4, 0x10000, 6, 0x2000000)))
    late = full(b"tfdt", 1, 0, be(8, 2**64 - 15))
    yield case("a fragment that ends past 2^64 - 1", lambda media, place: Samples(
        [Sample(media, 4, 2**64 - 15, 10)], Problem(f"moof at {place}: sample 1 of run 0 ends past 2^64 - 1")),
               lambda begin: traf(1, 0x20000, b"", late, trun(begin, [4, 6])))


# An elementary stream of AAC LC, 44,100 Hz, with 2 channels (ISO/IEC 14496-1, 7.2.6; 14496-3, 1.6.2.1).
SPECIFIC = b"\5\2\x12\x10"
ESDS = full(b"esds", 0, 0, b"\3\x19\0\1\0" + b"\4\x11\x40\x15" + bytes(11) + SPECIFIC + b"\6\1\2")


def entry(entries, kind, brand, version=0):
    """Returns a movie of a track with the sample entries `entries`, in an `stsd` of version `version`, and its
    samples."""
    head = ftyp(brand, brand) + box(b"mdat", bytes(40))
    first = len(head) - 40
    samples, tables = two(first)
    old, new = stsd(visual(b"mp4v", 64, 48, b"", b"")), full(b"stsd", version, 0, be(4, len(entries)) + b"".join(
        entries))
    tables = be(4, len(tables) + len(new) - len(old)) + tables[4:].replace(old, new)
    whole = box(b"trak", tkhd(1) + box(b"mdia", mdhd(SCALE, b"und") + handler(kind, b"") + box(b"minf", tables)))
    data = head + box(b"moov", mvhd() + whole)
    return data, Answer([of(data, samples, kind=kind)])


def of_entries():
    """Yields sample entries that hold boxes."""
    words = be(4, 1024, 0, 0, 2)
    for brand in (b"isom", b"qt  ", b"mp42"):
        data, answer = entry([sound(b"mp4a", 1, 2, 16, 44100 << 16, words, ESDS)], b"soun", brand)
        yield f"mp4a of version 1 in an stsd of version 0, brand {brand.decode()}", data, answer, {
            f"{STSD}/mp4a/esds": {"version": 0}}
        long = be(4, 72) + bytes.fromhex("40e5888000000000") + be(4, 2, 0x7F000000, 16, 12, 4, 3)
        data, answer = entry([sound(b"mp4a", 2, 3, 16, 0x10000, long, ESDS)], b"soun", brand)
        yield f"mp4a of version 2 in an stsd of version 0, brand {brand.decode()}", data, answer, {
            f"{STSD}/mp4a/esds": {"version": 0}}
        # ISO's AudioSampleEntryV1 (14496-12, 12.2.3) has the fields of version 0, and its rate in an srat.
        rate = full(b"srat", 0, 0, be(4, 96000))
        data, answer = entry([sound(b"mp4a", 1, 2, 16, 44100 << 16, b"", rate + ESDS)], b"soun", brand, 1)
        yield f"mp4a of version 1 in an stsd of version 1, brand {brand.decode()}", data, answer, {
            f"{STSD}/mp4a/srat": {}, f"{STSD}/mp4a/esds": {"version": 0}}
        data, answer = entry([sound(b"mp4a", 0, 2, 16, 44100 << 16, b"", ESDS)], b"soun", brand)
        yield f"mp4a of version 0, brand {brand.decode()}", data, answer, {f"{STSD}/mp4a/esds": {"version": 0}}
    av1 = box(b"av1C", b"\x81\x04\x0c\x00") + box(b"pasp", be(4, 1, 1))
    for kind in (b"pict", b"auxv", b"vide"):
        data, answer = entry([visual(b"av01", 320, 240, b"libaom", av1)], kind, b"avis")
        yield f"av01 under the handler {kind.decode()}", data, answer, {
            f"{STSD}/av01": {"width": 320, "height": 240}, f"{STSD}/av01/av1C": {"version": 1},
            f"{STSD}/av01/pasp": {"hSpacing": 1, "vSpacing": 1}}
    # A code of video is enough where the handler is another one.
    data, answer = entry([visual(b"hvc1", 320, 240, b"", box(b"pasp", be(4, 4, 3)))], b"meta", b"isom")
    yield "hvc1 under the handler meta", data, answer, {
        f"{STSD}/hvc1": {"width": 320}, f"{STSD}/hvc1/pasp": {"hSpacing": 4, "vSpacing": 3}}


def cases():
    return [*in_second_moov(), *without_sizes(), *of_compact_sizes(), *without_track_id(), *of_one_track_id(),
            *without_boxes(), *of_fragments(), *of_first_boxes(), *of_runs(), *of_entries()]
