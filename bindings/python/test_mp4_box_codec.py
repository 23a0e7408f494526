"""Calls each function with bytes that were worked out from docs/LAYOUT.md, with faults, and with buffers."""

import array
import io
import struct
import unittest

from mp4_box_codec import _library, calls as codec


def table_box(name, version, flags, *numbers):
    """Returns a box of this name with version, flags and a content of numbers of 32 bits."""
    head = struct.pack(">I4sI", 12 + 4 * len(numbers), name.encode(), version << 24 | flags)
    return head + struct.pack(f">{len(numbers)}I", *numbers)


def boxed(name, *parts):
    return struct.pack(">I4s", 8 + sum(map(len, parts)), name.encode()) + b"".join(parts)


class Calls(unittest.TestCase):
    def test_spans(self):
        file = b"\0\0\0\x08free\0\0\0\x01mdat\0\0\0\0\0\0\0\x12ab\0\0\0\0wide"
        found = codec.list(file)
        places = [(it.position, it.length, it.name) for it in found]
        self.assertEqual(places, [(0, 8, "free"), (8, 18, "mdat"), (26, 8, "wide")])
        self.assertEqual([bytes(it.of(file)) for it in found], [file[:8], file[8:26], file[26:]])
        self.assertEqual(bytes(found[1].content_of(file)), b"ab")
        self.assertEqual(codec.list(b""), [])

    def test_trees(self):
        file = b"\0\0\0\x20moov\0\0\0\x08trak\0\0\0\x10trak\0\0\0\x08mdia\0\0\0\x07free"
        found = codec.tree(file)
        paths = [(it.depth, it.position, it.length, it.path) for it in found]
        expected = [(0, 0, 32, "moov"), (1, 8, 8, "moov/trak"), (1, 16, 16, "moov/trak[1]")]
        self.assertEqual(paths, [*expected, (2, 24, 8, "moov/trak[1]/mdia"), (0, 32, 8, "free")])
        self.assertEqual([it.what for it in found], [codec.PARENT] * 4 + [codec.SMALL])
        self.assertEqual((found[2].children, bytes(found[2].of(file))), (24, file[16:32]))
        self.assertEqual(codec.tree(io.BytesIO(file)), found)
        self.assertEqual(codec.tree(b""), [])
        self.assertEqual([it.what for it in codec.tree(b"free")], [codec.NO_HEADER])
        self.assertEqual([(it.what, it.length) for it in codec.tree(b"\0\0\0\x09free")], [(codec.CUT, 9)])
        self.assertEqual([path for path, _ in codec.boxes(file[:32])], [it.path for it in found[:4]])
        with self.assertRaisesRegex(codec.Mp4Error, "invalid data"):
            [*codec.boxes(file)]
        with self.assertRaisesRegex(codec.Mp4Error, "unexpected end of input"):
            [*codec.boxes(file[:31])]

    def test_tables_of_one_number(self):
        given = (0x81, 0x828384, 2, 0x85868788, 0x898A8B8C)
        expected = codec.Table(0x81, 0x828384, array.array("I", [0x85868788, 0x898A8B8C]))
        self.assertEqual(codec.stco(table_box("stco", *given)), expected)
        self.assertEqual(codec.stss(table_box("stss", *given)), expected)
        expected = codec.Table(0, 1, array.array("Q", [0x8182838485868788]))
        self.assertEqual(codec.co64(table_box("co64", 0, 1, 1, 0x81828384, 0x85868788)), expected)

    def test_tables_of_rows(self):
        found = codec.stts(table_box("stts", 0, 0, 2, 3, 4, 5, 0xFFFFFFFF))
        self.assertEqual(found, codec.Table(0, 0, [(3, 4), (5, 0xFFFFFFFF)]))
        found = codec.ctts(table_box("ctts", 1, 0, 1, 3, 0xFFFFFFFE))
        self.assertEqual(found, codec.Table(1, 0, [(3, -2)]))
        found = codec.stsc(table_box("stsc", 0, 0, 2, 1, 4, 1, 3, 5, 2))
        self.assertEqual(found.rows, [(1, 4, 1, 1), (3, 5, 2, 9)])
        found = codec.elst(table_box("elst", 0, 0, 1, 7, 0xFFFFFFFF, 0x00010002))
        self.assertEqual(found.rows, [(7, -1, 1, 2)])

    def test_sizes_and_runs(self):
        self.assertEqual(codec.stsz(table_box("stsz", 0, 0, 0, 2, 8, 9)), (0, 0, 0, 2, array.array("I", [8, 9])))
        self.assertEqual(codec.stsz(table_box("stsz", 0, 0, 6, 2)), (0, 0, 6, 2, array.array("I")))
        found = codec.trun(table_box("trun", 1, 0xB05, 1, 0xFFFFFFFD, 4, 5, 6, 7))
        self.assertEqual(found, (1, 0xB05, 1, -3, 4, [(5, 6, 0, 7)]))
        self.assertEqual(codec.trun(table_box("trun", 0, 0, 9)).sample_count, 9)

    def test_fields(self):
        box = table_box("stss", 0, 0x828384, 2, 1, 0xFFFFFFFF)
        self.assertEqual(codec.fields(box), {"version": 0, "flags": 0x828384, "sample_number": [1, 0xFFFFFFFF]})
        box = table_box("mfro", 0, 0, 0x81828384)
        self.assertEqual(codec.fields(memoryview(box + box)), {"version": 0, "flags": 0, "parent_size": 0x81828384})
        matrix = (0x10000, 0, 0, 0, 0x8000, 0, 0, 0, 0x40000000)
        head = table_box("tkhd", 0, 7, 1, 2, 3, 0, 4, 0, 0, 0xFFFE0005, 0x01000000, *matrix, 10, 1 << 31)
        fields = codec.fields(head)
        self.assertEqual((fields["matrix"]["d"], fields["volume"], fields["height"]), (0.5, 1, 32768))
        for wrong, status in [(box[:15], codec.END_OF_INPUT), (table_box("mfro", 1, 0, 0), codec.INVALID_DATA),
                              (boxed("dinf"), codec.BOX_NOT_FOUND), (boxed("moov"), codec.UNKNOWN_BOX)]:
            with self.assertRaises(codec.Mp4Error) as fault:
                codec.fields(wrong)
            self.assertEqual(fault.exception.status, status)

    def test_headers(self):
        box = table_box("mehd", 1, 0x828384, 0x85868788, 0x898A8B8C)
        expected = codec.Mehd(0x85868788898A8B8C, 0x828384, 1)
        self.assertEqual((codec.mehd(box), codec.write_mehd(expected)), (expected, box))
        box = table_box("mdhd", 0, 7, 0x81828384, 0x85868788, 0x898A8B8C, 0x8D8E8F90, 0x15C70000)
        expected = codec.Mdhd(0x81828384, 0x85868788, 0x8D8E8F90, 7, 0x898A8B8C, "eng", 0)
        self.assertEqual((codec.mdhd(box), codec.write_mdhd(expected)), (expected, box))
        matrix = (1, 2, 3, 4, 5, 6, 7, 8, -9)
        numbers = [it & 0xFFFFFFFF for it in matrix]
        box = table_box("tkhd", 0, 7, 1, 2, 3, 0, 4, 0, 0, 0xFFFE0005, 0x01020000, *numbers, 10, 11)
        expected = codec.Tkhd(1, 2, 4, 7, 3, matrix, 10, 11, -2, 5, 0x102, 0)
        self.assertEqual((codec.tkhd(box), codec.write_tkhd(expected)), (expected, box))
        with self.assertRaisesRegex(codec.Mp4Error, "invalid data"):
            codec.write_mehd(codec.Mehd(1, 1 << 24, 1))
        with self.assertRaisesRegex(codec.Mp4Error, "invalid data"):
            codec.mvhd(box)

    def test_written_tables(self):
        boxes = [
            ("stco", 0x81, 0x828384, 2, 0x85868788, 0x898A8B8C), ("co64", 0, 1, 1, 0x81828384, 0x85868788),
            ("stss", 0, 0, 0), ("stts", 0, 0, 2, 3, 4, 5, 0xFFFFFFFF), ("ctts", 1, 0, 1, 3, 0xFFFFFFFE),
            ("stsc", 0, 0, 2, 1, 4, 1, 3, 5, 2), ("elst", 0, 0, 1, 7, 0xFFFFFFFF, 0x00010002),
            ("stsz", 0, 0, 0, 2, 8, 9), ("trun", 1, 0xB05, 1, 0xFFFFFFFD, 4, 5, 6, 7),
        ]
        for given in boxes:
            name, box = given[0], table_box(*given)
            self.assertEqual(getattr(codec, f"write_{name}")(getattr(codec, name)(box)), box)
        with self.assertRaisesRegex(codec.Mp4Error, "invalid data"):
            codec.write_stsz(codec.stsz(table_box("stsz", 0, 0, 0, 2, 8, 9))._replace(sample_count=3))

    def test_tables_of_a_file(self):
        stts, free = table_box("stts", 0, 0, 1, 3, 10), b"\0\0\0\x08free"
        stbl = struct.pack(">I4s", 8 + len(stts) + len(free), b"stbl") + free + stts
        self.assertEqual(codec.tables(stbl + stbl), {"stbl/stts": codec.stts(stts), "stbl[1]/stts": codec.stts(stts)})

    def test_a_track(self):
        tables = [
            table_box("stsz", 0, 0, 0, 3, 3, 4, 5), table_box("stsc", 0, 0, 1, 1, 2, 1),
            table_box("stco", 0, 0, 2, 100, 107), table_box("stts", 0, 0, 1, 3, 10), table_box("stss", 0, 0, 2, 1, 3),
        ]
        head = table_box("tkhd", 0, 7, 0, 0, 7, *[0] * 17)
        media = [table_box("mdhd", 0, 0, 0, 0, 1000, 30, 0), table_box("hdlr", 0, 0, 0, 0x76696465, 0, 0, 0) + b"\0"]
        media[1] = struct.pack(">I", len(media[1])) + media[1][4:]
        file = boxed("moov", boxed("trak", head, boxed("mdia", *media, boxed("minf", boxed("stbl", *tables)))))
        found = [(it.offset, it.size, it.decode_time, it.chunk, it.sync) for it in codec.samples(file, 7)]
        self.assertEqual(found, [(100, 3, 0, 1, 1), (103, 4, 10, 1, 0), (107, 5, 20, 2, 1)])
        with self.assertRaisesRegex(codec.Mp4Error, "no track has the track_ID"):
            codec.samples(file, 8)
        place = codec.find(file, "moov/trak/mdia/minf/stbl/stts")
        self.assertEqual(place, (file.index(b"stts") - 4, 24, 8, 0x73747473, 1))
        self.assertIsNone(codec.find(file, "moov/trak[1]"))
        self.assertRaises(codec.Mp4Error, codec.find, file, "moov/trak[")
        self.assertEqual(codec.version(), 1000)

    def test_fragments(self):
        heads = [table_box("tkhd", 0, 7, 0, 0, track, *[0] * 17) for track in (1, 2)]
        durations = table_box("stts", 0, 0, 2, 1, 60, 2, 20)
        tables = [table_box("stsz", 0, 0, 9, 3), table_box("stsc", 0, 0, 1, 1, 3, 1), table_box("stco", 0, 0, 1, 0)]
        tracks = [boxed("trak", head, boxed("mdia", boxed("minf", boxed("stbl", *boxes))))
                  for head, boxes in zip(heads, [[], [*tables, durations]])]
        defaults = [table_box("trex", 0, 0, 1, 1, 10, 4, 0), table_box("trex", 0, 0, 2, 1, 7, 5, 0x10000)]
        movie = boxed("moov", *tracks, boxed("mvex", *defaults))
        run = table_box("trun", 0, 0x201, 2, 140, 3, 6)
        first = boxed("traf", table_box("tfhd", 0, 0, 1), table_box("tfdt", 0, 0, 1000), run)
        second = boxed("traf", table_box("tfhd", 0, 0, 2), table_box("trun", 0, 0, 3))
        file = movie + boxed("moof", table_box("mfhd", 0, 0, 1), first, second) + boxed("mdat", bytes(24))
        data = len(movie) + 140

        def found(track):
            return [(it.offset, it.size, it.decode_time, it.sync) for it in codec.fragment_samples(file, track)]

        self.assertEqual(found(1), [(data, 3, 1000, 1), (data + 3, 6, 1010, 1)])
        self.assertEqual(found(2), [(data + 9 + 5 * at, 5, 100 + 7 * at, 0) for at in range(3)])
        with self.assertRaisesRegex(codec.Mp4Error, "no track has the track_ID"):
            codec.fragment_samples(file, 3)

    def test_versions(self):
        """A library is for the module if both have the same major and minor version: here 0.1 and 12.34."""
        for version in (1000, 1001, 1999):
            self.assertTrue(_library.is_for(version, "0.1.0"), version)
            self.assertTrue(_library.is_for(version, "0.1.7"), version)
        for version in (0, 999, 2000, 10000, 11000, 1000000, 1001000, 100001000, 4294967295):
            self.assertFalse(_library.is_for(version, "0.1.0"), version)
        self.assertTrue(_library.is_for(12034056, "12.34.0"))
        for version in (12033056, 12035056, 11034056, 13034056, 1234000, 12340000):
            self.assertFalse(_library.is_for(version, "12.34.0"), version)
        self.assertTrue(_library.is_for(codec.version(), _library.__version__))

    def test_faults(self):
        def status(call, data):
            with self.assertRaises(codec.Mp4Error) as caught:
                call(data)
            return caught.exception.status

        for call in (codec.check, codec.normal):
            self.assertEqual(status(call, b"\0\0\0\x08dinf"), codec.BOX_NOT_FOUND)
        stco = table_box("stco", 0, 0, 1, 2)
        for length in range(len(stco)):
            self.assertEqual(status(codec.stco, stco[:length]), codec.END_OF_INPUT)
        self.assertEqual(status(codec.stss, stco), codec.INVALID_DATA)
        self.assertIsNone(codec.check(stco))
        self.assertEqual(codec.normal(stco), stco)
        self.assertRaises(BufferError, codec.list, memoryview(stco)[::2])
        self.assertRaises(TypeError, codec.list, "text")

    def test_buffers(self):
        stco = table_box("stco", 0, 0, 1, 2)
        for data in (bytearray(stco), memoryview(stco), array.array("B", stco)):
            self.assertEqual(codec.stco(data).rows, array.array("I", [2]))
        data = bytearray(stco)
        codec.list(data)
        data.append(0)  # It is no longer held.

    def test_many_rows(self):
        rows = codec.stss(table_box("stss", 0, 0, 1_000_000, *range(1, 1_000_001))).rows
        self.assertEqual(rows, array.array("I", range(1, 1_000_001)))

    def test_strings(self):
        def boxed(name, content):
            return struct.pack(">I4s", 8 + len(content), name.encode()) + content

        def both(code, box, **fields):
            found = getattr(codec, code)(box)
            self.assertEqual({**found._asdict(), **fields}, found._asdict())
            self.assertEqual(getattr(codec, f"write_{code}")(found), box)
            return found

        both("ftyp", boxed("ftyp", b"iso6\x81\x82\x83\x84isomavc1"), major_brand=0x69736F36, minor_version=0x81828384,
             compatible_brands=[0x69736F6D, 0x61766331])
        hdlr = boxed("hdlr", b"\x85\x86\x87\x88\0\0\0\0vide" + bytes(12) + "Vid\u00e9o".encode() + b"\0")
        named = both("hdlr", hdlr, version=0x85, flags=0x868788, handler_type=0x76696465, name="Vid\u00e9o")
        with self.assertRaises(codec.Mp4Error):
            codec.write_hdlr(named._replace(flags=1 << 24))
        self.assertEqual(codec.data(boxed("data", b"\0\0\0\x0D\0\0\0\0\xFF\xD8")), (13, b"\xFF\xD8"))
        url = boxed("url ", b"\x85\x86\x87\x88a/b\0")
        found = both("dref", boxed("dref", b"\x95\x96\x97\x98\0\0\0\1" + url), version=0x95, flags=0x969798)
        self.assertEqual(found.url, codec.url(url))
        self.assertEqual((found.url.flags, found.url.version, found.url.location), (0x868788, 0x85, "a/b"))
        self.assertEqual(codec.dinf(boxed("dinf", codec.write_dref(found))), found)
        both("dref", boxed("dref", b"\x95\x96\x97\x98\0\0\0\0"), url=None)
        numbers = struct.pack(">4I", 0x81828384, 0x91929394, 0xA1A2A3A4, 0xB1B2B3B4)
        emsg = boxed("emsg", b"\0\x86\x87\x88urn:x\0v1\0" + numbers + b"\1\xFF")
        both("emsg", emsg, version=0, timescale=0x81828384, presentation_time_delta=0x91929394, presentation_time=0,
             event_duration=0xA1A2A3A4, id=0xB1B2B3B4, scheme_id_uri="urn:x", value="v1", message_data=b"\1\xFF")

    def test_sample_entries(self):
        def boxed(name, content):
            return struct.pack(">I4s", 8 + len(content), name.encode()) + content

        def entry(inside):
            box = boxed("stsd", b"\x71\x72\x73\x74\0\0\0\1" + inside)
            found = codec.stsd(box)
            self.assertEqual((found.version, found.flags, codec.write_stsd(found)), (0x71, 0x727374, box))
            return found.entry

        visual = bytes(6) + b"\x81\x82" + bytes(16) + b"\x83\x84\x85\x86" + bytes(48) + b"\xFF\xFF"
        avcc = boxed("avcC", b"\x81\x64\x92\x1F\xFE\xE2\0\3\x67\x64\x1F\0\1\x41\1\0\2\x68\xEE")
        avc1 = boxed("avc1", visual + avcc)
        found = entry(avc1)
        self.assertEqual((found, found.avcc), (codec.avc1(avc1), codec.avcc(avcc)))
        self.assertEqual(found.avcc.sequence_parameter_sets, [b"\x67\x64\x1F", b"\x41"])
        self.assertEqual(found.avcc.picture_parameter_sets, [b"\x68\xEE"])
        self.assertEqual((found.visual.width, found.visual.height), (0x8384, 0x8586))
        hev1 = boxed("hev1", visual + b"\0\0\0\x09hvcC\xB7")
        self.assertEqual(entry(hev1), codec.hev1(hev1))
        sound = bytes(6) + b"\x81\x82" + bytes(8) + b"\x83\x84\x85\x86" + bytes(4) + b"\x91\x92\x93\x94"
        mp4a = boxed("mp4a", sound)
        self.assertEqual(entry(mp4a), codec.mp4a(mp4a))
        self.assertIsNone(codec.mp4a(mp4a).esds)
        tx3g = boxed("tx3g", bytes(6) + bytes(range(0x81, 0x81 + 32)))
        self.assertEqual(entry(tx3g), codec.tx3g(tx3g))
        self.assertEqual(codec.tx3g(tx3g).style_record, bytes(range(0x95, 0xA1)))
        empty = boxed("stsd", b"\x71\x72\x73\x74\0\0\0\0")
        self.assertEqual((codec.stsd(empty).entry, codec.write_stsd(codec.stsd(empty))), (None, empty))


if __name__ == "__main__":
    unittest.main()
