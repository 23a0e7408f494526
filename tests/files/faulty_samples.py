"""Files for `mp4inspect check --media`, each made by hand with the lines that it has to write for the samples. The
lines were worked out from ISO/IEC 14496-15, 23003-5 and QuickTime's format. `cases()` gives the name, the bytes and the
lines of each. Without `--media` no line is written for them."""

from tests.files.faulty import MEDIA, STBL, at, moof, moov, trak, traf, trun
from tests.files.made import be, box, ftyp, full, handler, sound, visual

AVC, HEVC = ["avc1", "avc2", "avc3", "avc4", "dva1", "dvav"], ["hvc1", "hev1", "dvh1", "dvhe"]
TRAF = "moof/traf"


def avcc(width):
    """Returns an `avcC` whose lengths have `width` bytes, with a set of each kind."""
    return box(b"avcC", be(1, 1, 66, 0, 10, 0xFC | width - 1, 0xE1) + be(2, 4) + b"\x67\x42\0\x0a" + be(1, 1) + be(2, 2)
               + b"\x68\xce")


def hvcc(width):
    return box(b"hvcC", b"\1" + bytes(12) + bytes.fromhex("f000fcfdf8f80000") + be(1, 0x0C | width - 1, 0))


def video(name, width):
    return visual(name.encode(), 64, 48, b"", (hvcc if name in HEVC else avcc)(width))


def encrypted(scheme, original="avc1"):
    """Returns an entry of AVC with lengths of 4 bytes that is encrypted by a scheme."""
    sinf = box(b"sinf", box(b"frma", original.encode()) + full(b"schm", 0, 0, scheme + be(4, 0x10000)))
    return visual(b"encv", 64, 48, b"", (hvcc if original in HEVC else avcc)(4) + sinf)


def table(entries, offsets, sizes, per=1, runs=None):
    """Returns tables of samples of the sizes `sizes`, or of a number of samples of one size, with `per` of them in each
    chunk. `runs` are the entries of the `stsc` if there are others."""
    one, count = sizes if isinstance(sizes, tuple) else (0, len(sizes))
    listed = [] if isinstance(sizes, tuple) else sizes
    runs = [(1, per, 1)] if runs is None else runs
    return box(b"stbl", full(b"stsd", 0, 0, be(4, len(entries)) + b"".join(entries))
               + full(b"stts", 0, 0, be(4, 1, count, 10))
               + full(b"stsc", 0, 0, be(4, len(runs)) + b"".join(be(4, *run) for run in runs))
               + full(b"stsz", 0, 0, be(4, one, count, *listed))
               + full(b"stco", 0, 0, be(4, len(offsets), *offsets)))


def heard(track):
    """Returns `track` as one of sound."""
    return track.replace(handler(b"vide", b""), handler(b"soun", b""))


def file(media, *tracks):
    return ftyp(b"isom", b"isom") + box(b"mdat", media) + moov(*tracks)


def misfit(many, number, offset, size, unit):
    plural = "" if size == 1 else "s"
    return (f"NAL units don't fill {many}; the first is sample {number} at offset {offset} of {size} byte{plural}, "
            f"whose unit at {unit} ends after it")


def part(many, number, offset, size, frame):
    plural = "" if size == 1 else "s"
    return (f"warning: {many} a part of a frame; the first is sample {number} at offset {offset} of {size} "
            f"byte{plural}, and a frame has {frame} bytes")


def units():
    """Returns cases of one sample of NAL units, with lengths of each width."""
    found = []
    for name in (AVC[0], HEVC[0]):
        for width in (1, 2, 3, 4):
            one, two = be(width, 3) + b"\x65ab", be(width, 2) + b"\x41c"
            whole, second = one + two, MEDIA + width + 3
            for what, sample, unit in (
                    ("two units", whole, None), ("no units", b"", None),
                    ("a unit of a byte", be(width, 1) + b"\x65", None),
                    ("a length of 0", be(width, 0), None), ("a length of 0 before a unit", be(width, 0) + one, None),
                    ("a length of 0 after a unit", one + be(width, 0), None),
                    ("a byte short", whole[:-1], second), ("two bytes short", whole[:-2], second),
                    ("a byte long", whole + b"\1", MEDIA + 2 * width + 5),
                    ("a length that is a byte too many", be(width, 4) + b"\x65ab", MEDIA),
                    ("a length that is a byte too few", be(width, 2) + b"\x65ab\1", MEDIA + width + 2),
                    ("the largest length", be(width, -1) + b"\x65ab", MEDIA),
                    ("only a length", be(width, 1), MEDIA), ("only a byte of a length", b"\1", MEDIA)):
                data = file(sample, trak(table([video(name, width)], [MEDIA], [len(sample)])))
                lines = [] if unit is None else [f"{at(data, b'stbl')} {STBL}: "
                                                 + misfit("1 of 1 sample", 1, MEDIA, len(sample), unit)]
                found.append((f"{name}, lengths of {width}: {what}", data, lines))
    return found


def entries():
    """Returns cases of the codes of entries, of encryption, and of entries without a rule."""
    found, wrong = [], be(4, 9) + b"\x65ab"

    def case(name, data, is_wrong):
        lines = [f"{at(data, b'stbl')} {STBL}: " + misfit("1 of 1 sample", 1, MEDIA, 7, MEDIA)] if is_wrong else []
        found.append((f"entries: {name}", data, lines))

    def of(*entry, index=1, extra=b""):
        return file(wrong, trak(table(entry, [MEDIA], [7], 1, [(1, 1, index)])))

    for name in AVC + HEVC:
        case(name, of(video(name, 4)), True)
    for scheme, is_clear in ((b"cbcs", True), (b"cens", True), (b"cenc", False), (b"cbc1", False), (b"piff", False)):
        for name in ("avc1", "hvc1"):
            case(f"{name} by {scheme.decode()}", of(encrypted(scheme, name)), is_clear)
    case("encrypted mp4v", of(encrypted(b"cbcs", "mp4v")), False)
    case("encv without a sinf", of(visual(b"encv", 64, 48, b"", avcc(4))), False)
    case("mp4v with an avcC", of(visual(b"mp4v", 64, 48, b"", avcc(4))), False)
    case("hvc1 with an avcC", of(visual(b"hvc1", 64, 48, b"", avcc(4))), False)
    case("avc3 without an avcC", of(visual(b"avc3", 64, 48, b"", b"")), False)
    case("the second of two", of(visual(b"mp4v", 64, 48, b"", b""), video("avc1", 4), index=2), True)
    case("the first of two", of(visual(b"mp4v", 64, 48, b"", b""), video("avc1", 4)), False)
    case("the third of two", of(visual(b"mp4v", 64, 48, b"", b""), video("avc1", 4), index=3), False)
    case("number 0", of(video("avc1", 4), index=0), False)
    case("media in another file", file(wrong, trak(table([video("avc1", 4)], [MEDIA], [7]), 1, 0)), False)
    return found


def many():
    """Returns cases of several samples: in chunks, in several tracks, outside the file, and of the same bytes."""
    found, good, wrong = [], be(4, 3) + b"\x65ab", be(4, 9) + b"\x65ab"

    def case(name, data, *said):
        found.append((f"samples: {name}", data, [f"{at(data, b'stbl', n)} {path}: {text}" for n, path, text in said]))

    entry = [video("avc1", 4)]
    case("the second and the last of four", file(good + wrong + good + wrong, trak(
        table(entry, [MEDIA], [7] * 4, 4))), (0, STBL, misfit("2 of 4 samples", 2, MEDIA + 7, 7, MEDIA + 7)))
    case("chunks in another order", file(good + wrong + good, trak(table(
        entry, [MEDIA + 14, MEDIA + 7, MEDIA], [7] * 3))),
         (0, STBL, misfit("1 of 3 samples", 2, MEDIA + 7, 7, MEDIA + 7)))
    case("a sample without bytes", file(wrong, trak(table(entry, [MEDIA], [0, 7], 2))),
         (0, STBL, misfit("1 of 2 samples", 2, MEDIA, 7, MEDIA)))
    case("two tracks", file(good + wrong, trak(table(entry, [MEDIA], [7])), trak(table(entry, [MEDIA + 7], [7]), 2)),
         (1, "moov/trak[1]/mdia/minf/stbl", misfit("1 of 1 sample", 1, MEDIA + 7, 7, MEDIA + 7)))
    case("two entries, and samples of both", file(wrong * 2 + bytes(7), trak(table(
        [visual(b"mp4v", 64, 48, b"", b""), video("avc1", 1)], [MEDIA, MEDIA + 7], [7, 7], 1, [(1, 1, 1), (2, 1, 2)]))),
         (0, STBL, misfit("1 of 2 samples", 2, MEDIA + 7, 7, MEDIA + 10)))
    # 200 samples of the same 40 bytes. The file has fewer bytes than these have in all.
    data = file(be(4, 99) + bytes(36), trak(table(entry, [MEDIA] * 200, [40] * 200)))
    count = len(data) // 40
    shares = [f"{at(data, b'stco')} {STBL}/stco: warning: 199 chunks share bytes with the chunk before; the first is "
              f"chunk 2 at offset {MEDIA}, and chunk 1 has the bytes from {MEDIA} to {MEDIA + 40}"]
    found.append(("samples: of the same bytes", data, shares + [f"{at(data, b'stbl')} {STBL}: " + misfit(
        f"{count} of {count} samples", 1, MEDIA, 40, MEDIA)]))
    # The second sample is past the end of the file, so the third is not looked at.
    data = file(good + wrong, trak(table(entry, [MEDIA, 10**6, MEDIA + 7], [7] * 3)))
    found.append(("samples: past the end of the file", data, [
        f"{at(data, b'stco')} {STBL}/stco: 1 of 3 chunks lies outside the media data; the first is chunk 2 at offset "
        f"1000000, past the end of the file ({len(data)} bytes)"]))
    return found


def old(name, version, channels, bits, extra=b"", children=b""):
    return sound(name, version, channels, bits, 48000 << 16, extra, children)


def pcm():
    """Returns cases of PCM: of QuickTime in each version, and of ISO/IEC 23003-5."""
    found = []
    bits_of = lambda bits: full(b"pcmC", 0, 0, be(1, 1, bits))
    first = lambda channels, each: be(4, 1, each, channels * each, each)
    second = lambda channels, bits, packet: be(4, 72) + be(8, 0) + be(4, channels, 0x7F000000, bits, 12, packet, 1)
    wide = lambda name, channels, bits, packet: sound(name, 2, 3, 16, 0x10000, second(channels, bits, packet), b"")
    for name, entry, frame in (
            ("sowt, 16 bits", old(b"sowt", 0, 2, 16), 4), ("twos, 16 bits", old(b"twos", 0, 1, 16), 2),
            ("twos, 8 bits", old(b"twos", 0, 2, 8), 2), ("raw, 8 bits", old(b"raw ", 0, 3, 8), 3),
            ("sowt, 24 bits", old(b"sowt", 0, 2, 24), 6), ("in24", old(b"in24", 1, 2, 16, first(2, 3)), 6),
            ("in32", old(b"in32", 1, 2, 16, first(2, 4)), 8), ("fl32", old(b"fl32", 1, 1, 16, first(1, 4)), 4),
            ("fl64", old(b"fl64", 1, 2, 16, first(2, 8)), 16), ("lpcm, 24 bits", wide(b"lpcm", 2, 24, 6), 6),
            ("lpcm, 20 bits in 4 bytes", wide(b"lpcm", 2, 20, 8), 8),
            ("sowt of version 2", wide(b"sowt", 6, 16, 12), 12),
            ("ipcm, 16 bits", old(b"ipcm", 0, 2, 16, b"", bits_of(16)), 4),
            ("ipcm, 24 bits", old(b"ipcm", 0, 2, 16, b"", bits_of(24)), 6),
            ("fpcm, 64 bits", old(b"fpcm", 0, 1, 16, b"", bits_of(64)), 8)):
        for what, size in (("a frame", frame), ("three frames", 3 * frame), ("no frame", 0),
                           ("a byte short", frame - 1), ("a byte long", frame + 1), ("a byte", 1)):
            data = file(bytes(3 * frame), heard(trak(table([entry], [MEDIA], [size]))))
            is_wrong = size % frame and (size != 1 or name[:4] in ("ipcm", "fpcm"))
            found.append((f"pcm: {name}, {what}", data, [f"{at(data, b'stbl')} {STBL}: " + part(
                "1 of 1 sample has", 1, MEDIA, size, frame)] if is_wrong else []))
    entry = old(b"sowt", 0, 2, 16)
    for name, sizes, said in (
            ("all of a size", (4, 6), None), ("each frame counted as a byte", (1, 24), None),
            ("all of a wrong size", (6, 4), part("4 of 4 samples have", 1, MEDIA, 6, 4)),
            ("some wrong", [4, 3, 5, 4], part("2 of 4 samples have", 2, MEDIA + 4, 3, 4))):
        count = sizes[1] if isinstance(sizes, tuple) else len(sizes)
        data = file(bytes(24), heard(trak(table([entry], [MEDIA], sizes, count))))
        found.append((f"pcm: {name}", data, [f"{at(data, b'stbl')} {STBL}: {said}"] if said else []))
    for name, entry in (("a picture", None), ("bits that are no bytes", old(b"sowt", 0, 2, 12)),
                        ("no channels", old(b"sowt", 0, 0, 16)), ("lpcm of version 0", old(b"lpcm", 0, 2, 16)),
                        ("ipcm without a pcmC", old(b"ipcm", 0, 2, 16)), ("another code", old(b"ulaw", 0, 2, 16))):
        tables = table([visual(b"raw ", 64, 48, b"", b"") if entry is None else entry], [MEDIA], [7])
        found.append((f"pcm: {name}", file(bytes(7), trak(tables) if entry is None else heard(trak(tables))), []))
    return found


def fragments():
    """Returns cases of samples of fragments."""
    found, good, wrong = [], be(2, 3) + b"\x65ab", be(2, 9) + b"\x65ab"
    defaults = box(b"mvex", full(b"trex", 0, 0, be(4, 1, 1, 10, 5, 0)) + full(b"trex", 0, 0, be(4, 2, 1, 10, 3, 0)))
    head = ftyp(b"iso5", b"iso5") + moov(trak(table([video("hev1", 2)], [], [])), heard(trak(table(
        [old(b"sowt", 0, 1, 16)], [], []), 2)), defaults)

    def case(name, make, media, *said):
        """Adds a fragment. `said` has the index of each traf with a fault, and what is said if its media begin at 0."""
        size = len(make(0))
        data = head + make(size + 8) + box(b"mdat", media)
        begin = len(data) - len(media)
        found.append((f"fragments: {name}", data, [
            f"{at(data, b'traf', n)} {TRAF}{f'[{n}]' if n else ''}: {text(begin)}" for n, text in said]))

    case("two samples", lambda o: moof(traf(1, 0x20000, b"", trun(o, [5, 5]))), good * 2)
    case("the second is wrong", lambda o: moof(traf(1, 0x20000, b"", trun(o, [5, 5]))), good + wrong,
         (0, lambda b: misfit("1 of 2 samples", 2, b + 5, 5, b + 5)))
    case("by the size of the trex", lambda o: moof(traf(1, 0x20000, b"", trun(o, [], 3))), good + wrong * 2,
         (0, lambda b: misfit("2 of 3 samples", 2, b + 5, 5, b + 5)))
    case("in the second run", lambda o: moof(traf(1, 0x20000, b"", trun(o, [5]), trun(None, [5, 5]))), good * 2 + wrong,
         (0, lambda b: misfit("1 of 3 samples", 3, b + 10, 5, b + 10)))
    case("PCM in the second traf, after the first", lambda o: moof(
        traf(1, 0, b"", trun(o, [5])), traf(2, 0, b"", trun(None, [], 2))), good + bytes(6),
         (1, lambda b: part("2 of 2 samples have", 1, b + 5, 3, 2)))
    case("another entry", lambda o: moof(traf(1, 0x20002, be(4, 2), trun(o, [5]))), wrong)
    case("PCM of whole frames", lambda o: moof(traf(2, 0x20010, be(4, 4), trun(o, [], 1))), wrong)
    case("4 billion samples without bytes", lambda o: moof(traf(1, 0x20010, be(4, 0), trun(o, [], 2**32 - 1)),
                                                           traf(1, 0x20000, b"", trun(o, [5]))), wrong)
    return found


def cases():
    return [*units(), *entries(), *many(), *pcm(), *fragments()]
