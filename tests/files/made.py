"""Files that are made by hand for test_inspect, from ISO/IEC 14496-12, 14496-15, 14496-30, the AV1, Opus and encryption
formats and QuickTime's."""


def box(name, content=b""):
    return (8 + len(content)).to_bytes(4, "big") + name + content


def full(name, version, flags, content=b""):
    return box(name, bytes([version]) + flags.to_bytes(3, "big") + content)


def be(width, *values):
    return b"".join((value % 2**(8 * width)).to_bytes(width, "big") for value in values)


def nested(names, content):
    for name in reversed(names):
        content = box(name, content)
    return content


def ftyp(major, *brands):
    return box(b"ftyp", major + be(4, 0x200) + b"".join(brands))


def handler(kind, name):
    return full(b"hdlr", 0, 0, be(4, 0) + kind + bytes(12) + name + b"\0")


def visual(name, width, height, compressor, children):
    fields = bytes(6) + be(2, 1) + bytes(16) + be(2, width, height) + be(4, 0x480000, 0x480000) + bytes(4) + be(2, 1)
    return box(name, fields + bytes([len(compressor)]) + compressor.ljust(31, b"\0") + be(2, 24, 0xFFFF) + children)


def sound(name, version, channels, bits, rate, extra, children):
    fields = bytes(6) + be(2, 1) + be(2, version, 0) + bytes(4) + be(2, channels, bits) + bytes(4) + be(4, rate)
    return box(name, fields + extra + children)


def stsd(*entries):
    return full(b"stsd", 0, 0, be(4, len(entries)) + b"".join(entries))


def tkhd(track, width=0, height=0, version=0, matrix=None):
    times = be(8, 3797824089, 3797824090) if version else be(4, 3797824089, 3797824090)
    matrix = matrix or (0x10000, 0, 0, 0, 0x10000, 0, 0, 0, 0x40000000)
    length = be(8 if version else 4, 90000)
    return full(b"tkhd", version, 7, times + be(4, track, 0) + length + bytes(8) + be(2, 0, 1, 0x100, 0)
                + be(4, *matrix) + be(4, width, height))


def mdhd(scale, language):
    """Returns an `mdhd` whose language is three letters or a number."""
    letters = language if isinstance(language, int) else 0
    for letter in [] if isinstance(language, int) else language:
        letters = letters << 5 | letter - 0x60
    return full(b"mdhd", 0, 0, be(4, 3797824089, 0, scale, 5 * scale) + be(2, letters, 0))


def track(number, kind, name, language, entries, table, header=None, front=b""):
    dinf = box(b"dinf", full(b"dref", 0, 0, be(4, 1) + full(b"url ", 0, 1)))
    minf = box(b"minf", front + dinf + box(b"stbl", stsd(*entries) + table))
    media = box(b"mdia", mdhd(48000, language) + handler(kind, name) + minf)
    return box(b"trak", (header or tkhd(number)) + media)


def movie(*tracks):
    unity = be(4, 0x10000, 0, 0, 0, 0x10000, 0, 0, 0, 0x40000000)
    mvhd = full(b"mvhd", 1, 0, be(8, 3797824089, 0) + be(4, 600) + be(8, 2**40) + be(4, 0x18000) + be(2, 0xC0)
                + bytes(10) + unity + bytes(24) + be(4, len(tracks) + 1))
    return box(b"moov", mvhd + b"".join(tracks))


def newer():
    """Returns a file with entries of AV1, HEVC, Opus, FLAC and encrypted video, none of which the codec reads, and with
    wrong tables."""
    turned = (0, 0x10000, 0, -0x10000, 0, 0, 0x8000, 0, 0x40000000)
    schemes = box(b"sinf", box(b"frma", b"avc1") + full(b"schm", 0, 0, b"cenc" + be(4, 0x10000))
                  + box(b"schi", full(b"tenc", 0, 0, bytes([0, 0, 1, 8]) + bytes(range(16)))))
    video = [visual(b"av01", 1920, 1080, b"libaom", box(b"av1C", b"\x81\x04\x0c\x00")),
             visual(b"hvc1", 3840, 2160, b"", box(b"hvcC", b"\x01" + bytes(22))
                    + box(b"colr", b"nclx" + be(2, 9, 16, 9) + b"\0")),
             visual(b"encv", 640, 480, b"caf\xc3\xa9", schemes)]
    opus = box(b"dOps", bytes([0, 2]) + be(2, 312) + be(4, 48000) + be(2, 0) + b"\0")
    audio = [sound(b"Opus", 0, 2, 16, 48000 << 16, b"", opus),
             sound(b"fLaC", 0, 1, 24, 44100 << 16 | 0x8000, b"", full(b"dfLa", 0, 0, b"\x80" + be(3, 34) + bytes(34)))]
    rows = be(4, 500, -1) + be(2, 1, 0) + be(4, 5000, 1024) + be(2, 1, 0)
    edits = box(b"edts", full(b"elst", 0, 0, be(4, 2) + rows))
    offsets = full(b"stco", 0, 0, be(4, 3) + be(4, 40, 7, 4000000000))
    signed = full(b"ctts", 1, 0, be(4, 2) + be(4, 1, -512) + be(4, 7, 1024))
    header = tkhd(1, 1920 << 16, 1080 << 16, 1, turned)
    one = track(1, b"vide", b"Video \"1\"\n", b"eng", video, signed + offsets, header)
    one = one[:8] + edits + one[8:]
    one = be(4, len(one)) + one[4:]
    two = track(2, b"soun", "Töne".encode(), b"deu", audio, full(b"stz2", 0, 0, be(4, 4, 2) + b"\x12"))
    usual = bytes.fromhex("a2394f525a9b4f14a2446c427c648df4")
    front = ftyp(b"iso6", b"iso6", b"av01", b"\0\1\2\3") + box(b"mdat", bytes(16)) + box(b"uuid", usual + b"abc")
    return front + movie(one, two) + box(b"uuid", usual[:15]) + box(b"skip", b"x")


def quicktime():
    """Returns a QuickTime movie: sound of versions 0, 1 and 2 beside a handler of data, a text track, metadata without
    version and flags, and no brands."""
    wave = box(b"wave", box(b"frma", b"mp4a") + box(b"mp4a", bytes(4)) + box(b"\0\0\0\0"))
    second = be(4, 72) + bytes.fromhex("40e7700000000000") + be(4, 6, 0x7F000000, 24, 12, 18, 1)
    entries = [sound(b"sowt", 0, 2, 16, 44100 << 16, b"", b""),
               sound(b"mp4a", 1, 2, 16, 44100 << 16, be(4, 1024, 0, 0, 2), wave),
               sound(b"lpcm", 2, 3, 16, 0x10000, second, box(b"flap", bytes(12)))]
    text = box(b"text", bytes(6) + be(2, 1) + bytes(43))
    meta = box(b"meta", handler(b"mdta", b"") + box(b"keys", bytes(8)))
    udta = box(b"udta", meta + box(b"\xa9nam", b"\0\3\0\0abc") + box(b"\xa9day", b"\0\4\0\x002024") + bytes(4))
    data = full(b"hdlr", 0, 0, b"dhlr" + b"alis" + bytes(12) + b"\0")
    sounds = track(7, b"soun", b"\6Sounds", b"und", entries, b"", front=data)
    tracks = sounds + track(9, b"text", b"", b"fra", [text], b"")
    return ftyp(b"qt  ") + box(b"wide") + box(b"mdat", bytes(8)) + box(b"moov", tracks + udta)


def titles():
    """Returns a file with timed text, WebVTT, metadata of all kinds, events, and references to another file."""
    tx3g = box(b"tx3g", bytes(6) + be(2, 1) + be(4, 0x20000000) + bytes([1, 0xFF, 1, 2, 3, 4]) + be(2, -1, 2, -3, 4)
               + bytes(range(12)) + box(b"ftab", bytes(2)))
    wvtt = box(b"wvtt", bytes(6) + be(2, 1) + box(b"vttC", b"WEBVTT"))
    other = track(3, b"text", b"Text", b"jpn", [wvtt], full(b"co64", 0, 0, be(4, 1) + be(8, 2**40)))
    other = other.replace(full(b"url ", 0, 1), full(b"url ", 0, 0))
    values = [(b"\xa9too", 1, "Lavf ©\"60\\".encode()), (b"\xa9day", 1, b"\xff\xfe"), (b"tmpo", 21, b"\x00\x78"),
              (b"cpil", 21, b"\xff"), (b"rate", 21, bytes(3)), (b"covr", 14, b"\x89PNG" + bytes(30)),
              (b"trkn", 0, be(2, 0, 3, 12, 0)),
              (b"plID", 0x01000015, be(8, 5)), (b"----", 13, b"")]
    items = b"".join(box(name, box(b"data", be(4, kind, 0) + data)) for name, kind, data in values)
    meta = full(b"meta", 0, 0, handler(b"mdir", b"") + box(b"ilst", items + box(b"gnre", box(b"data", be(4, 0)))))
    events = (full(b"emsg", 1, 0, be(4, 90000) + be(8, 2**33) + be(4, 900, 5) + b"urn:a\0\x31\0\xde\xad")
              + full(b"emsg", 0, 0, b"urn:b\0v\0" + be(4, 1, 2, 3, 4)))
    subtitles = track(1, b"sbtl", b"Sub", b"eng", [tx3g, box(b"tx3g", bytes(10))], b"")
    short = box(b"trak", box(b"mdia", full(b"hdlr", 0, 0, bytes(8))))
    return (ftyp(b"isom", b"isom") + movie(subtitles, other, box(b"trak"), short) + box(b"udta", meta) + events
            + b"\0\0\0\0mdat12345678")


def fragments():
    """Returns a segment with a run of each form, and headers that count more than their boxes have."""
    rows = b"".join(be(4, 100 + n, 200 + n, n << 16, 7 - n) for n in range(3))
    runs = (full(b"trun", 0, 0xF01, be(4, 3, -8) + rows)
            + full(b"trun", 1, 0x805, be(4, 2) + be(4, 16, 0x2000000) + be(4, -5, 6))
            + full(b"trun", 0, 0, be(4, 11)) + full(b"trun", 0, 0x200, be(4, 12) + be(4, *range(12))))
    tfhd = full(b"tfhd", 0, 0x2003B, be(4, 3) + be(8, 2**32) + be(4, 1, 1024, 512, 0x1010000))
    traf = box(b"traf", tfhd + full(b"tfdt", 0, 0, be(4, 77)) + runs)
    moof = box(b"moof", full(b"mfhd", 0, 0, be(4, 2**32 - 1)) + traf)
    short = full(b"stsd", 0, 0)[:-1]
    short = be(4, len(short)) + short[4:]
    media, tables = [b"moov", b"trak", b"mdia"], [b"minf", b"stbl"]
    bad = (nested(media, handler(b"vide", b"") + nested(tables, stsd(box(b"avc1", bytes(9))) + short))
           + nested(media, handler(b"soun", b"") + nested(tables, stsd(box(b"mp4a", bytes(27)))))
           + nested([b"moov", b"meta"], b"\0\0"))
    front = box(b"styp", b"msdh" + be(4, 0)) + moof + box(b"mdat", bytes(3))
    return front + bad + full(b"dref", 0, 0, be(4, 9) + b"\0\0\0")


def tables():
    """Returns a movie of tracks whose tables have everything about each sample. It has runs with all fields, one size
    for all samples and offsets of 64 bits, a duration too few, no samples, and chunks that begin late."""
    entry = visual(b"mp4v", 64, 48, b"", b"")
    media = 24 + 8  # After an ftyp of 24 bytes and the header of the media data.
    runs = (full(b"stts", 0, 0, be(4, 3, 3, 1000, 2, 500, 1, 2000))
            + full(b"ctts", 1, 0, be(4, 3, 2, -100, 1, 0, 2, 700)) + full(b"stss", 0, 0, be(4, 2, 1, 4))
            + full(b"stsc", 0, 0, be(4, 2, 1, 2, 1, 3, 1, 2))
            + full(b"stsz", 0, 0, be(4, 0, 6, 10, 20, 30, 40, 50, 60))
            + full(b"stco", 0, 0, be(4, 4, media, media + 100, media + 40, media + 200)))
    even = (full(b"stts", 0, 0, be(4, 1, 10, 1024)) + full(b"stsc", 0, 0, be(4, 1, 1, 3, 1))
            + full(b"stsz", 0, 0, be(4, 7, 5)) + full(b"co64", 0, 0, be(4, 2) + be(8, media + 300, media + 330)))
    short = (full(b"stts", 0, 0, be(4, 1, 2, 10)) + full(b"stsc", 0, 0, be(4, 1, 1, 3, 1))
             + full(b"stsz", 0, 0, be(4, 0, 3, 1, 2, 3)) + full(b"stco", 0, 0, be(4, 1, media)))
    none = (full(b"stts", 0, 0, be(4, 0)) + full(b"stsc", 0, 0, be(4, 0)) + full(b"stsz", 0, 0, be(4, 0, 0))
            + full(b"stco", 0, 0, be(4, 0)))
    late = (full(b"stts", 0, 0, be(4, 1, 2, 10)) + full(b"stsc", 0, 0, be(4, 1, 2, 3, 1))
            + full(b"stsz", 0, 0, be(4, 1, 2)) + full(b"stco", 0, 0, be(4, 1, media)))
    kinds = [(1, runs), (2, even), (3, short), (5, none), (4, late)]
    return (ftyp(b"isom", b"isom", b"mp42") + box(b"mdat", bytes(400))
            + movie(*(track(number, b"vide", b"", b"und", [entry], table) for number, table in kinds)))


def segments():
    """Returns fragments of two tracks, with each base of data, runs with and without offsets, and times that continue.
    It has a fragment of a track that the movie doesn't have too."""
    none = (full(b"stts", 0, 0, be(4, 0)) + full(b"stsc", 0, 0, be(4, 0)) + full(b"stsz", 0, 0, be(4, 0, 0))
            + full(b"stco", 0, 0, be(4, 0)))
    one = (full(b"stts", 0, 0, be(4, 1, 2, 50)) + full(b"stsc", 0, 0, be(4, 1, 1, 2, 1))
           + full(b"stsz", 0, 0, be(4, 9, 2)) + full(b"stco", 0, 0, be(4, 1, 24)))
    kept = movie(track(1, b"vide", b"", b"und", [visual(b"mp4v", 64, 48, b"", b"")], none),
                 track(2, b"soun", b"", b"und", [sound(b"sowt", 0, 2, 16, 48000 << 16, b"", b"")], one))
    defaults = box(b"mvex", full(b"trex", 0, 0, be(4, 1, 1, 3000, 11, 0x1010000))
                   + full(b"trex", 0, 0, be(4, 2, 3, 1024, 0, 0)))
    moov = be(4, len(kept) + len(defaults)) + kept[4:] + defaults

    def traf(flags, track_, fields, *parts):
        return box(b"traf", full(b"tfhd", 0, flags, be(4, track_) + fields) + b"".join(parts))

    def moof(number, *trafs):
        return box(b"moof", full(b"mfhd", 0, 0, be(4, number)) + b"".join(trafs))

    first = moof(1, traf(0x20000, 1, b"", full(b"tfdt", 1, 0, be(8, 2**33)),
                         full(b"trun", 0, 5, be(4, 3, 300, 0x2000000)), full(b"trun", 1, 0xA00, be(4, 2, 5, -7, 6, 8))),
                 traf(0, 2, b"", full(b"trun", 0, 0x300, be(4, 2, 512, 40, 256, 50))))
    second = moof(2, traf(0x3B, 2, be(8, 2**32) + be(4, 2, 100, 8, 0x10000), full(b"trun", 0, 0, be(4, 3))),
                  traf(0, 1, b"", full(b"trun", 0, 0x401, be(4, 2, -4, 0, 0x10000)), full(b"trun", 0, 0, be(4, 0))),
                  traf(0x20000, 7, b"", full(b"trun", 0, 0, be(4, 1))))
    third = moof(3, traf(0x20000, 1, b"", full(b"trun", 0, 1, be(4, 2, -2000000))),
                 traf(0, 2, b"", full(b"trun", 0, 0, be(4, 2))))
    return ftyp(b"iso5", b"iso5", b"dash") + moov + first + box(b"mdat", bytes(40)) + second + third


def pictures():
    """Returns a track of AV1 video with all boxes about how it is shown and encrypted, in the versions with the most
    fields."""
    shown = (box(b"av1C", b"\x81\x25\x9e\x17" + b"\x0a\x0b") + box(b"pasp", be(4, 40, 33))
             + box(b"clap", be(4, 1919, 2, 1079, 3, -1, 4, 5, 6)) + box(b"colr", b"nclx" + be(2, 9, 16, 8) + b"\x80")
             + box(b"colr", b"prof" + b"\1\2\3") + box(b"colr", b"nclc" + be(2, 1, 2, 3)) + box(b"colr", b"ab\0d\7")
             + box(b"clli", be(2, 1000, 400)) + box(b"mdcv", be(2, *range(13250, 13258)) + be(4, 10000000, 50))
             + box(b"btrt", be(4, 70000, 6000000, 5000000)))
    key, system = bytes(range(16)), bytes.fromhex("edef8ba979d64acea3c827dcd51d21ed")
    scheme = (box(b"frma", b"av01") + full(b"schm", 0, 1, b"cbcs" + be(4, 0x10000) + "https://é.example/\0".encode())
              + box(b"schi", full(b"tenc", 1, 0, b"\0\x19\1\0" + key + b"\4\xaa\xbb\xcc\xdd")
                    + full(b"tenc", 0, 0, b"\xff\xff\1\x08" + key)))
    table = (full(b"cslg", 0, 0, be(4, 5, -6, 7, -8, 2**31 - 1)) + full(b"cslg", 1, 0, be(8, 2**32, -2, 3, -(2**40), 0))
             + full(b"sdtp", 0, 0, b"\x1b\x24\0") + full(b"stz2", 0, 0, be(4, 4, 3) + b"\x12\x30")
             + full(b"stz2", 0, 0, be(4, 8, 2) + b"\7\xff") + full(b"stz2", 0, 0, be(4, 16, 1) + b"\x12\x34")
             + full(b"stz2", 0, 0, be(4, 4, 3) + b"\x12") + full(b"stz2", 0, 0, be(4, 5, 1) + b"\x12")
             + full(b"sbgp", 1, 0, b"seig" + be(4, 7, 2, 3, 1, 2, 0x10001)) + full(b"sbgp", 0, 0, b"roll" + be(4, 0))
             + full(b"sgpd", 2, 0, b"roll" + be(4, 2, 1, 1) + b"\xff\xfe")
             + full(b"sgpd", 1, 0, b"rap " + be(4, 1, 1) + b"\x80") + full(b"sgpd", 0, 0, b"tele" + be(4, 1) + b"\x40")
             + full(b"subs", 1, 9, be(4, 1, 2) + be(2, 1) + be(4, 300) + b"\1\0" + be(4, 0))
             + full(b"saiz", 0, 1, b"cenc" + be(4, 5) + b"\0" + be(4, 3) + b"\x10\x12\x14")
             + full(b"saiz", 0, 0, b"\x08" + be(4, 9)) + full(b"saio", 1, 1, b"cenc" + be(4, 5, 1) + be(8, 2**33))
             + full(b"saio", 0, 0, be(4, 2, 17, 18)) + full(b"senc", 0, 2, be(4, 1) + key[:8] + be(2, 1, 5) + be(4, 6)))
    entry = visual(b"encv", 1920, 1080, b"", shown + box(b"sinf", scheme))
    one = track(1, b"vide", b"", b"und", [entry], table)
    refers = (box(b"tref", box(b"cdsc", be(4, 2, 3)) + box(b"chap", be(4, 4))) + box(b"tref")
              + box(b"tref", box(b"hint")) + box(b"tref", box(b"hint", be(4, 1) + b"\0")))
    pssh = full(b"pssh", 1, 0, system + be(4, 2) + key + key[::-1] + be(4, 3) + b"abc") + full(
        b"pssh", 0, 0, system + be(4, 0))
    return ftyp(b"iso6", b"av01") + movie(be(4, len(one) + len(refers)) + one[4:] + refers) + pssh


def indexed():
    """Returns a file with sound of three kinds, a track of no kind, keys, and the boxes with the places of the parts of
    segments."""
    entries = [sound(b"ac-3", 0, 6, 16, 48000 << 16, b"", box(b"dac3", b"\x50\x3d\x20")),
               sound(b"ec-3", 0, 6, 16, 48000 << 16, b"", box(b"dec3", b"\x1d\xc1\x20\x0f\x02\x08")),
               sound(b"Opus", 0, 6, 16, 48000 << 16, b"", box(b"dOps", b"\0\6" + be(2, 312) + be(4, 44100)
                                                           + be(2, -896) + b"\1\4\2\0\4\1\2\3\5")),
               sound(b"fLaC", 0, 2, 16, 48000 << 16, b"", full(b"dfLa", 0, 0, b"\x80" + be(3, 2) + b"\x10\x11"))]
    tags = full(b"elng", 0, 0, b"de-CH-1996\0") + full(b"elng", 0, 0, b"\xff") + full(b"nmhd", 0, 0)
    keys = (full(b"keys", 0, 0, be(4, 2, 17) + b"mdtacom.a.key" + be(4, 10) + b"\xa9abc\xff\0")
            + full(b"keys", 0, 0, be(4, 2, 17) + b"mdtacom.a.key") + full(b"keys", 0, 0, be(4, 1, 7) + b"mdta"))
    kinds = full(b"kind", 0, 0, b"urn:mpeg:dash:role:2011\0main\0") + full(b"kind", 0, 0, b"\xff\0\0")
    styp = box(b"styp", b"msdh" + be(4, 1) + b"msdhmsix")
    long, short = (2**31 + 500, 9000, 5 * 2**28 + 77), (400, 8000, 2**31 + 2**28)
    sidx = (full(b"sidx", 1, 0, be(4, 3, 90000) + be(8, 2**32, 2**33) + be(2, 0, 2) + be(4, *long, *short))
            + full(b"sidx", 0, 0, be(4, 4, 1000, 5, 6) + be(2, 0, 0)))
    prft = full(b"prft", 1, 24, be(4, 3) + be(8, 16 * 2**58 + 1, 2**40)) + full(b"prft", 0, 0, be(4, 4, 5, 6, 7))
    first = be(4, 0, 800) + b"\1\1\1"
    tfra = (full(b"tfra", 0, 0, be(4, 3, 0, 2) + first + be(4, 9000, 1600) + b"\2\3\4")
            + full(b"tfra", 1, 0, be(4, 3, 0x1B, 1) + be(8, 2**33, 2**34) + be(2, 258) + be(3, 65539) + be(4, 2**31))
            + full(b"tfra", 0, 0, be(4, 3, 0, 2) + first))
    mfro = full(b"mfro", 0, 0, be(4, 24 + len(tfra)))
    sound_track = track(3, b"soun", b"", b"und", entries, b"", front=tags)
    return (styp + sidx + prft + movie(sound_track) + keys + box(b"udta", kinds) + box(b"mfra", tfra + mfro))


def counted():
    """Returns a QuickTime movie with sound of version 2 and with handlers whose names are counted and not. The rates
    are whole, have a fraction, or are not numbers."""
    rates = ["40e5888000000000", "40e5888333333333", "4341c37937e08000", "7ff0000000000000", "fff8000000000001"]
    counts = be(4, 2, 0x7F000000, 16, 12, 4, 3)
    entries = [sound(b"lpcm", 2, 3, 16, 0x10000, be(4, 72) + bytes.fromhex(rate) + counts, b"") for rate in rates]
    names = [b"\5Video", b"\5Video\0", b"\6Video\0", b"\4Video\0", b"\7Video\0", b"\5Vide\xff", b"\0", b"\0\0", b"V",
             b""]
    handlers = [full(b"hdlr", 1, 2, be(4, 3) + b"vide" + bytes(12) + name) for name in names]
    return ftyp(b"qt  ") + movie(track(2, b"soun", b"", b"und", entries, b"")) + box(b"udta", b"".join(handlers))


def sounds():
    """Returns streams of Enhanced AC-3 and blocks of FLAC. Of each there are three that differ, a stream cut short, one
    too few, and none."""
    first, second, third = b"\xa0\xbf\x00", b"\x22\x44\x0b\x45", b"\x4c\x13\x02\x8a"
    front = be(2, 952 << 3 | 2)
    streams = [front + first + second + third + b"\x01\x10", front + third + first + second, front + first + second,
               front + first + third + second[:3], be(2, 640 << 3) + b"\x21\xc4\xe1", be(2, 640 << 3)]
    entries = [sound(b"ec-3", 0, 6, 16, 48000 << 16, b"", box(b"dec3", stream)) for stream in streams]
    info = (be(2, 4096, 4608) + be(3, 14, 0x2345) + be(8, 44100 << 44 | 1 << 41 | 23 << 36 | 0x812345678)
            + bytes(range(0x81, 0x91)))
    whole = b"\0" + be(3, 34) + info
    blocks = [whole + b"\4" + be(3, 3) + b"abc" + b"\x81" + be(3, 2) + b"\1\2", whole[:3] + b"\x21" + info[:33],
              whole + b"\x7f" + be(3, 0) + b"\x89" + be(3, 1) + b"\5", whole + b"\x81" + be(3, 3) + b"\1\2",
              whole + b"\x81\0\0", b""]
    entries += [sound(b"fLaC", 0, 2, 24, 44100 << 16, b"", full(b"dfLa", 0, 0, block)) for block in blocks]
    return ftyp(b"isom", b"isom") + movie(track(2, b"soun", b"", b"und", entries, b""))


def groups():
    """Returns groups of samples of each kind, with lengths in each place, and the parts of samples. Some have one too
    few."""
    key = bytes(range(0x81, 0x91))
    own, shared = b"\0\x19\1\x08" + key, b"\0\x5a\1\0" + key + b"\3\xaa\xbb\xcc"

    def counted(*entries):
        return b"".join(be(4, len(entry)) + entry for entry in entries)

    kinds = [(1, b"roll", be(4, 2, 3) + be(2, -1, 258, -32768)), (2, b"prol", be(4, 2, 1, 1) + be(2, -772)),
             (1, b"roll", be(4, 3, 2) + b"\1\2\3\4\5\6"), (1, b"roll", be(4, 2, 3) + be(2, 1, 2)),
             (1, b"rap ", be(4, 0, 3) + counted(b"\x85", b"\x03", b"\x80")), (0, b"rap ", be(4, 2) + b"\x81\x7f"),
             (1, b"tele", be(4, 1, 3) + b"\x80\x7f\xff"), (0, b"tele", be(4, 3) + b"\x80\x7f"),
             (1, b"seig", be(4, 0, 3) + counted(own, shared, own[:19])), (0, b"seig", be(4, 2) + shared + own),
             (1, b"seig", be(4, 20, 2) + own + shared[:20]), (0, b"seig", be(4, 2) + own + shared[:-1]),
             (1, b"abcd", be(4, 0, 3) + counted(b"xyz", b"", b"\1\2")), (1, b"abcd", be(4, 2, 2) + b"\1\2\3\4"),
             (0, b"abcd", be(4, 2) + b"\1\2"), (1, b"abcd", be(4, 0, 2) + counted(b"xyz") + be(4, 2) + b"\1"),
             (1, b"abcd", be(4, 0, 1) + be(3, 1))]
    table = b"".join(full(b"sgpd", version, 0, kind + fields) for version, kind, fields in kinds)
    parts = [(300, b"\1\2", 3), (400, b"\4\1", 2**31), (500, b"\xff\0", 7)]
    for version in (0, 1):
        pieces = [be(4 if version else 2, size) + bits + be(4, parameters) for size, bits, parameters in parts]
        whole = be(4, 9) + be(2, 3) + b"".join(pieces) + be(4, 8) + be(2, 0) + be(4, 2**31) + be(2, 1) + pieces[2]
        table += b"".join(full(b"subs", version, 5, be(4, count) + rows)
                          for count, rows in ((3, whole), (2, whole), (4, whole), (3, whole[:-1]), (0, b"")))
    many = be(4, 1) + be(2, 10) + b"".join(be(2, 20 + n) + b"\1\0" + be(4, n) for n in range(10))
    table += full(b"subs", 0, 0, be(4, 1) + many)
    entry = visual(b"mp4v", 64, 48, b"", b"")
    return ftyp(b"iso6", b"iso6") + movie(track(1, b"vide", b"", b"und", [entry], table))


def hevc():
    """Returns configurations of HEVC: with arrays of NAL units, with a NAL unit and with an array that don't fit in the
    box, and cut before its arrays."""
    front = (b"\x01\x22" + be(4, 0x20000000) + be(6, 0x900000000000) + b"\x99" + be(2, 0xF00C)
             + b"\xff\xfd\xfa\xfb" + be(2, 25 * 256) + b"\x5f")
    sets = b"\xa0" + be(2, 1, 4) + b"\x40\x01\x0c\x01"
    messages = b"\x27" + be(2, 3, 3) + b"\x4e\x01\x05" + be(2, 0, 30) + bytes(range(0x80, 0x9E))
    return (box(b"hvcC", front + b"\2" + sets + messages) + box(b"hvcC", front + b"\1" + messages[:-1])
            + box(b"hvcC", front + b"\2" + sets) + box(b"hvcC", front))


def decoders():
    """Returns configurations of AVC and of VP9, and references to media data:

    - AVC: High 10 with the format of samples and an extension of a set, and with bytes after them; High without the
      format, and with three bytes instead of it; Baseline with four bytes; a picture set that doesn't fit in the box.
    - VP9: version 1 with and without bytes for the decoder, version 0 of the drafts, version 2.
    - References: by URL, by URN with and without a location and with one that doesn't end, by an alias of five bytes,
      and by none."""
    sets = b"\xff\xe1" + be(2, 4) + b"\x67\x6e\0\x1f" + b"\1" + be(2, 3) + b"\x68\xee\x06"
    ten, high, base = b"\1\x6e\0\x1f" + sets, b"\1\x64\0\x28" + sets, b"\1\x42\xc0\x1e" + sets
    samples = b"\xfd\xfa\xfa\1" + be(2, 2) + b"\x6d\x99"
    avc = [ten + samples, ten + samples + b"\7\6\5", high, high + b"\xfd\xf8\xf8", base + b"\xfd\xf8\xf8\0",
           high[:-1]]
    vp9 = [b"\2\x1f\xa3\x09\x10\x09" + be(2, 0), b"\1\x0a\x86\1\1\1" + be(2, 3) + b"\xaa\xbb\xcc"]
    vpcc = [full(b"vpcC", 1, 0, it) for it in vp9] + [full(b"vpcC", 0, 0, b"\2\x1f\xa5\x13" + be(2, 1) + b"\xdd"),
                                                   full(b"vpcC", 2, 0, vp9[0])]
    places = [full(b"url ", 0, 1), full(b"urn ", 0, 0, b"urn:a\0http://b\0"), full(b"urn ", 0, 1, b"urn:c\0"),
              full(b"urn ", 0, 0, b"urn:d\0e"), full(b"urn ", 0, 0, b"urn:f"), full(b"alis", 0, 0, b"\1\2\3\4\5"),
              full(b"alis", 0, 1)]
    return (b"".join(box(b"avcC", it) for it in avc) + b"".join(vpcc)
            + box(b"dinf", full(b"dref", 0, 0, be(4, len(places)) + b"".join(places))))


def subtitles():
    """Returns entries of subtitles and other text:

    - XML subtitles: with a box after their strings, with strings only, with a string that isn't UTF-8, one string too
      few, and cut;
    - WebVTT, one of them cut;
    - timed text: with all flags and fonts, one of them not UTF-8, with too many fonts, without boxes, and cut;
    - a time code and text, beside the boxes with these codes that describe how such media look;
    - entries outside of an `stsd`."""
    front = bytes(6) + be(2, 3)
    rates = box(b"btrt", be(4, 70000, 60000, 50000))
    strings = [b"http://www.w3.org/ns/ttml urn:b\0https://a.example/ttml.xsd\0image/png font/woff\0" + rates,
               b"urn:a\0\0\0", b"\xff\0urn:s\0\0\1", b"urn:a\0urn:s\0", b""]
    xml = [box(b"stpp", front + it) for it in strings] + [box(b"stpp", front[:7])]
    cues = box(b"vttC", b"WEBVTT") + box(b"vlab", b"urn:v") + rates
    texts = [box(b"wvtt", front + cues), box(b"wvtt", front), box(b"wvtt", front[:7])]
    look = (front + be(4, 0x608E0) + bytes([1, 0xFF, 9, 8, 7, 6]) + be(2, -1, 2, -3, 4, 0, 0, 258)
            + bytes([7, *range(5)]))
    fonts = be(2, 1) + b"\x0aSans-Serif" + be(2, 258) + b"\3\xffSf"
    tables = [box(b"ftab", be(2, count) + fonts) for count in (2, 3)]
    timed = [box(b"tx3g", look + it) for it in (tables[0] + rates, tables[1], b"")] + [box(b"tx3g", look[:37])]
    code = front + be(4, 0, 3, 30000, 1001) + bytes([30, 0]) + box(b"name", be(2, 4, 0) + b"Reel")
    text = front + be(4, 1, -1) + be(2, *range(1, 8)) + bytes(8) + be(2, 8, 9) + bytes(3) + be(2, 10, 11, 12)
    tcmi = full(b"tcmi", 0, 0, be(2, 1, 2, 3, 0) + be(2, *range(4, 10)) + b"\4Font")
    place = be(4, 0x10000, 0x8000, 0, -0x8000, 0x20000, 0, 0x50000, -0x60000, 0x40000000)
    graphics = full(b"gmin", 0, 0, be(2, 64, 0x8000, 0x8001, 0x8002, 0xFE80, 0))
    media = box(b"gmhd", graphics + box(b"tmcd", tcmi) + box(b"text", place))
    codes = [box(b"tmcd", code), box(b"tmcd", front[:7])]
    words = [box(b"text", text + b"\4Text"), box(b"text", front[:7])]
    tracks = [track(1, b"subt", b"", b"und", xml, b""), track(2, b"text", b"", b"und", texts, b""),
              track(3, b"tmcd", b"", b"und", codes, b"", front=media),
              track(4, b"text", b"", b"und", words, b"", front=media), track(5, b"sbtl", b"", b"und", timed, b"")]
    return ftyp(b"qt  ", b"qt  ") + movie(*tracks) + xml[1] + texts[0] + codes[0] + words[0] + timed[0]


def in_chunks(media, *tracks):
    """Returns a movie with `tracks`, numbered from 1, each with its samples in one chunk. At its end are `media` bytes,
    at which all chunks begin. A track is the number of its samples, their one size or 0, and their sizes."""
    def moov(at):
        tables = [full(b"stts", 0, 0, be(4, 1, count, 1)) + full(b"stsc", 0, 0, be(4, 1, 1, count, 1))
                  + full(b"stsz", 0, 0, be(4, size, count, *sizes)) + full(b"stco", 0, 0, be(4, 1, at))
                  for count, size, *sizes in tracks]
        return movie(*(track(number, b"vide", b"", b"und", [], table) for number, table in enumerate(tables, 1)))
    front = ftyp(b"isom")
    return front + moov(len(front) + len(moov(0)) + 8) + box(b"mdat", bytes(media))


def in_runs(media, listed, default, *fragments):
    """Returns a movie whose track 1 has the sizes `listed` of samples in its tables, in a chunk at 0. It has each of
    `fragments` in its own `moof`, at which the data of the fragment begin, and `media` bytes at its end. A fragment is
    a list of runs, each the number of its samples, and their sizes if they aren't `default`."""
    moofs = b"".join(fragment(0x20000, [runs]) for runs in fragments)
    return begun_by(listed, default) + moofs + box(b"mdat", bytes(media))


def in_fragment(media, default, flags, *fragments):
    """Returns a movie like `in_runs`, without samples in tables, and with all fragments in one `moof`. Each has the
    flags `flags` in its `tfhd`."""
    return begun_by([], default) + fragment(flags, fragments) + box(b"mdat", bytes(media))


def begun_by(listed, default):
    table = (full(b"stts", 0, 0, be(4, 1, len(listed), 1)) + full(b"stsc", 0, 0, be(4, 1, 1, len(listed), 1))
             + full(b"stsz", 0, 0, be(4, 0, len(listed), *listed)) + full(b"stco", 0, 0, be(4, 1, 0)))
    kept = movie(track(1, b"vide", b"", b"und", [], table))
    defaults = box(b"mvex", full(b"trex", 0, 0, be(4, 1, 1, 1, default, 0)))
    return ftyp(b"isom") + be(4, len(kept) + len(defaults)) + kept[4:] + defaults


def fragment(flags, fragments):
    trafs = [box(b"traf", full(b"tfhd", 0, flags, be(4, 1)) + b"".join(
        full(b"trun", 0, 0x200 if sizes else 0, be(4, count, *sizes)) for count, *sizes in runs)) for runs in fragments]
    return box(b"moof", full(b"mfhd", 0, 0, be(4, 1)) + b"".join(trafs))


def signs():
    """Returns a file with the least and the greatest number in every field that has a sign, and the last dates."""
    unity = be(4, 0x10000, 0, 0, 0, 0x10000, 0, 0, 0, 0x40000000)
    turned = be(4, -0x18000, -1, -(2**30), 0, -0x10000, 0, -(2**31), 2**31 - 1, 0x40000000)
    later = full(b"mvhd", 1, 0, be(8, 2**33, 255485051999) + be(4, 600) + be(8, 9) + be(4, -(2**31)) + be(2, -(2**15))
                 + bytes(10) + turned + bytes(24) + be(4, 3))
    last = full(b"mvhd", 1, 0, be(8, 255485059200, 2**64 - 1) + be(4, 600) + be(8, 9) + be(4, 2**31 - 1)
                + be(2, 2**15 - 1) + bytes(10) + unity + bytes(24) + be(4, 3))

    def header(track_, layer, group, volume, matrix):
        return full(b"tkhd", 0, 7, be(4, 0, 0, track_, 0, 9) + bytes(8) + be(2, layer, group, volume, 0) + matrix
                    + be(4, -(2**16), 2**31))

    short = full(b"elst", 0, 0, be(4, 3) + be(4, 9, -3) + be(2, -1, 1) + be(4, 9, -(2**31))
                 + be(2, -(2**15), -(2**15)) + be(4, 2**32 - 1, 2**31 - 1) + be(2, 2**15 - 1, -1))
    long = full(b"elst", 1, 0, be(4, 2) + be(8, 2**63, -2) + be(2, 0, 2**15 - 1) + be(8, 9, -1) + be(2, -2, 0))
    balances = b"".join(full(b"smhd", 0, 0, be(2, balance, 0)) for balance in (-0x80, -(2**15), 2**15 - 1))
    offsets = (full(b"ctts", 1, 0, be(4, 2, 1, -1, 2, 2**31 - 1))
               + full(b"trun", 1, 0x801, be(4, 2, -(2**31), -1, 2**31 - 1)))
    tracks = (box(b"trak", header(1, 3, 4, 0x180, unity) + box(b"edts", short))
              + box(b"trak", header(2, -(2**15), 2**15 - 1, 2**15 - 1, turned) + box(b"edts", long)))
    return ftyp(b"isom", b"isom") + box(b"moov", later + last + tracks) + balances + offsets


def texts():
    """Returns a file with texts that are not UTF-8, languages by letters and by numbers, and the countries and
    languages of metadata."""
    names = [b"\x1aApple Video Media Handler\xaa", b"Apple Sound Media Handler\xaa\0", b"\xf0\x9f\x98\0",
             b"\xed\xa0\x80\xe2\x82\xac\xc0\xaf\0", b"\xff"]
    handlers = b"".join(full(b"hdlr", 0, 0, b"mhlrvide" + bytes(12) + name) for name in names)
    entries = [visual(b"avc1", 64, 48, b"S\x9arenson", b""), visual(b"hvc1", 64, 48, b"\xe9" * 31, b""),
               visual(b"mp4v", 64, 48, b"caf\xc3\xa9", b"")]
    places = [b"", b"\0", b"caf\x8e.mov\0", b"file:///a\x1b[31m\xff\0", b"no end"]
    places = box(b"dinf", full(b"dref", 0, 0, be(4, len(places)) + b"".join(
        full(b"url ", 0, 0, place) for place in places) + full(b"url ", 0, 0)[:4] + b"url \0\0\0"))
    values = [(1, 0, 0, b"T\x9ane\xff\xfe"), (1, 0, 0, b"\xe2\x80"), (1, 0x5553, 0x15C7, b"a"), (21, 3, 255, b"\7"),
              (13, 0x4100, 0x7FFF, b"b"), (0, 0x7A7A, 0x421, b"c"), (1, 0x5A41, 0x1C20, b"d"),
              (1, 0xFFFF, 0x95C7, b"e"), (1, 0, 0x6B5A, b"f"), (1, 0x4742, 0, b"g")]
    items = b"".join(box(b"\xa9nam", box(b"data", be(4, kind) + be(2, country, spoken) + text))
                     for kind, country, spoken, text in values)
    meta = full(b"meta", 0, 0, handler(b"mdir", b"") + box(b"ilst", items))
    spoken = b"".join(mdhd(1000, code) for code in (0, 1, 0x7FFE, 0x8000, 0xFFFF, b"eng", b"zzz"))
    tags = full(b"elng", 0, 0, b"d\xe9\0") + full(b"kind", 0, 0, b"urn:\x8e\0\xff\0")
    event = full(b"emsg", 0, 0, b"urn:\xe2\x80\xae\0\xc2\x9b\0" + be(4, 1, 2, 3, 4))
    media = box(b"mdia", full(b"hdlr", 0, 0, b"mhlrvide" + bytes(12) + names[0])
                + box(b"minf", places + box(b"stbl", stsd(*entries))))
    moov = box(b"moov", box(b"trak", tkhd(1) + media) + box(b"udta", meta + handlers + spoken + tags))
    return ftyp(b"qt  ", b"qt  ") + moov + event


def made():
    """Returns the files, by name."""
    return {"counted": counted(), "sounds": sounds(), "groups": groups(), "pictures": pictures(),
            "indexed": indexed(), "tables": tables(), "segments": segments(), "hevc": hevc(), "newer": newer(),
            "quicktime": quicktime(), "titles": titles(), "fragments": fragments(), "subtitles": subtitles(),
            "signs": signs(), "texts": texts(), "decoders": decoders()}
