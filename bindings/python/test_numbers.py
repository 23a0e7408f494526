"""Writes each field of each box with the smallest and the largest number that it holds, and with those next to them,
which have to be refused by name. Does so with each argument of each call, with values that are not numbers, and with
lists that change while they are read. The fields are copied by hand from mp4_box_codec.h: `u24` holds 0 to 2^24 - 1,
`i16` holds -2^15 to 2^15 - 1, and `9 i32` is a list of nine numbers."""

import array
import collections
import enum
import io
import re
import unittest

from mp4_box_codec import calls as codec

TIMES = "creation_time u64, modification_time u64, duration u64, flags u24, "
FRAGMENT = "track_id u32, sample_description_index u32, default_sample_duration u32, default_sample_size u32"
VISUAL = ("horizresolution u32, vertresolution u32, data_reference_index u16, width u16, height u16, frame_count u16,"
          " depth u16")
# The boxes of fixed fields. Times have 64 bits, as in version 1.
HEADERS = {
    "mvhd": TIMES + "timescale u32, rate u32, matrix 9 i32, next_track_id u32, volume u16, version u1",
    "tkhd": TIMES + "track_id u32, matrix 9 i32, width u32, height u32, layer i16, alternate_group i16, volume u16,"
                    " version u1",
    "mdhd": TIMES + "timescale u32, language text, version u1",
    "mehd": "fragment_duration u64, flags u24, version u1",
    "mfhd": "flags u24, sequence_number u32, version u8",
    "smhd": "flags u24, balance i16, version u8",
    "vmhd": "flags u24, graphics_mode u16, red u16, green u16, blue u16, version u8",
    "trex": "flags u24, track_id u32, default_sample_description_index u32, default_sample_duration u32,"
            " default_sample_size u32, default_sample_flags u32, version u8",
    "tfdt": "base_media_decode_time u64, flags u24, version u1",
    "tfhd": "base_data_offset u64, flags u24, " + FRAGMENT + ", default_sample_flags u32, version u8",
}
TIMED = ("mvhd", "tkhd", "mdhd", "mehd", "tfdt")
# The fields of a row, and those of the table beside them.
TABLES = {
    "stco": ("u32", "flags u24, version u8"),
    "co64": ("u64", "flags u24, version u8"),
    "stss": ("u32", "flags u24, version u8"),
    "stts": ("sample_count u32, sample_delta u32", "flags u24, version u8"),
    "ctts": ("sample_count u32, sample_offset i32", "flags u24, version u8"),
    "stsc": ("first_chunk u32, samples_per_chunk u32, sample_description_index u32", "flags u24, version u8"),
    "elst": ("segment_duration u64, media_time i64, media_rate u16, media_rate_fraction u16", "flags u24, version u8"),
    "stsz": ("u32", "flags u24, sample_size u32, sample_count u32, version u8"),
    "trun": ("duration u32, size u32, flags u32, composition_offset i32",
             "flags u24, sample_count u32, data_offset i32, first_sample_flags u32, version u8"),
}
# The boxes of strings, without these. A field of a part of a box has a path.
OTHERS = {
    "ftyp": "major_brand u32, minor_version u32",
    "hdlr": "flags u24, handler_type u32, version u8",
    "dref": "flags u24, version u8, url.flags u24, url.version u8",
    "emsg": "presentation_time u64, presentation_time_delta u32, timescale u32, event_duration u32, id u32, flags u24,"
            " version u1",
    "stsd": "flags u24, version u8",
}
# The entries of an stsd.
ENTRIES = {
    "avc1": ", ".join(f"visual.{it}" for it in VISUAL.split(", ")) + ", avcc.configuration_version u8,"
            " avcc.avc_profile_indication u8, avcc.profile_compatibility u8, avcc.avc_level_indication u8,"
            " avcc.length_size_minus_one u2",
    "hev1": ", ".join(f"visual.{it}" for it in VISUAL.split(", ")) + ", hvcc.configuration_version u8",
    "vp09": "flags u24, start_code u16, data_reference_index u16, width u16, height u16, horizresolution 2 u16,"
            " vertresolution 2 u16, frame_count u16, depth u16, end_code u16, version u8, reserved0 16 u8,"
            " reserved1 4 u8, compressorname 32 u8, vpcc.flags u24, vpcc.codec_initialization_data_size u16,"
            " vpcc.version u8, vpcc.profile u8, vpcc.level u8, vpcc.bit_depth u4, vpcc.chroma_subsampling u3,"
            " vpcc.video_full_range_flag u1, vpcc.color_primaries u8, vpcc.transfer_characteristics u8,"
            " vpcc.matrix_coefficients u8",
    "mp4a": "samplerate u32, data_reference_index u16, channelcount u16, samplesize u16, esds.flags u24,"
            " esds.buffer_size_db u24, esds.max_bitrate u32, esds.avg_bitrate u32, esds.sample_rate u24,"
            " esds.es_id u16, esds.version u8, esds.object_type_indication u8, esds.stream_type u6, esds.up_stream up,"
            " esds.profile profile, esds.freq_index u4, esds.chan_conf u4",
    "tx3g": "display_flags u32, data_reference_index u16, box_record 4 i16, horizontal_justification i8,"
            " vertical_justification i8, bg_color_rgba 4 u8, style_record 12 u8",
}
# Fields that don't hold all numbers of some bits: the numbers that are written, and others.
SPECIAL = {"up": ([0, 2], [-1, 1, 3]), "profile": ([0, 30, 32, 95], [-1, 31, 96])}
# Values that are not numbers: each number field refuses them.
NO_NUMBERS = (None, True, False, 1.0, "1", b"1", [], [1], 1j, object())


class Seven(enum.IntEnum):
    """An int of another class."""
    SEVEN = 7


class Index:
    """A number that is not an int."""

    def __index__(self):
        return 7


class Growing(list):
    """A list with five more elements each time it is read, and a length that grows by 2,000 each time it is asked."""
    reads = asked = 0

    def __len__(self):
        self.asked += 1
        return super().__len__() + 2000 * (self.asked - 1)

    def __iter__(self):
        self.reads += 1
        first = [*super().__iter__()]
        return iter(first + first[:1] * 5 * (self.reads - 1))


def fields_of(text):
    """Yields the fields of a text: the path, how many numbers it has (0 if it is not a list), and the kind of each."""
    for it in text.split(", "):
        path, *count, kind = it.split()
        yield path, int(count[0]) if count else 0, kind


def numbers_of(kind):
    """Returns numbers that a field of a kind holds, the ends among them, and numbers that it doesn't."""
    if kind in SPECIAL:
        return SPECIAL[kind]
    bits = int(kind[1:])
    low, high = (-2 ** (bits - 1), 2 ** (bits - 1) - 1) if kind[0] == "i" else (0, 2 ** bits - 1)
    return [low, high], [low - 1, high + 1, high + 1 + 2 ** 64, 2 ** 80]


def named(name, fields):
    """Makes a named tuple, of named tuples where a value is a dict."""
    values = [named(it, its) if isinstance(its, dict) else its for it, its in fields.items()]
    return collections.namedtuple(name, fields)(*values)


def zeros(name, text, more):
    """Makes a named tuple of the fields of a text, with a part for each path, and of `more`. Other numbers are 0."""
    made = {**more}
    for path, count, kind in fields_of(text):
        *parts, last = path.split(".")
        part = made
        for it in parts:
            part = part.setdefault(it, {})
        part.setdefault(last, [0] * count if count else "eng" if kind == "text" else 0)
    return named(name, made)


def at(value, path):
    """Returns the value at a path, of which a part may be the index of a list."""
    for part in path.split("."):
        value = value[int(part)] if part.isdigit() else getattr(value, part)
    return value


def replaced(value, path, it):
    """Returns `value` with another value at a path."""
    first, _, rest = path.partition(".")
    its = replaced(at(value, first), rest, it) if rest else it
    if first.isdigit():
        return value[:int(first)] + [its] + value[int(first) + 1:]
    return value._replace(**{first: its})


def paths_of(value):
    """Returns the paths of the numbers in a tuple of tuples, and of its lists of numbers, which aren't empty."""
    found = set()
    for name, it in value._asdict().items():
        if hasattr(it, "_asdict"):
            found |= {f"{name}.{path}" for path in paths_of(it)}
        elif it is not None and not isinstance(it, str) and it not in ([], b""):
            found.add(name)
    return found


def shown(path):
    """Returns a path as messages show it."""
    return re.sub(r"\.(\d+)", r"[\1]", path)


def both(name):
    """Returns a function that writes a box and reads it again."""
    write, read = getattr(codec, f"write_{name}"), getattr(codec, name)
    return lambda value: read(write(value))


def header(name):
    """Makes a header, of version 1 if it has times, and with all flags of optional fields in a tfhd."""
    return zeros(name, HEADERS[name], {"tfhd": {"flags": 0x3B}, **dict.fromkeys(TIMED, {"version": 1})}.get(name, {}))


def table(name, rows=0):
    """Makes a table with `rows` rows of zeros and all flags of their fields, or one that needs no rows."""
    of = getattr(codec, f"{name.capitalize()}Row", None)
    one = of(*[0] * len(of._fields)) if of else 0
    more = {"stsz": {"sample_size": 0 if rows else 1, "sample_count": rows}, "elst": {"version": 1},
            "trun": {"flags": 0xF05 if rows else 5, "sample_count": rows}}.get(name, {})
    return zeros(name, TABLES[name][1], {"rows": [one] * rows, **more})


def strings(name, **more):
    """Makes a box of empty strings."""
    texts = {"ftyp": {"compatible_brands": []}, "hdlr": {"name": ""}, "dref": {"url": {"location": ""}},
             "emsg": {"version": 1, "scheme_id_uri": "", "value": "", "message_data": b""}, "stsd": {"entry": None}}
    return zeros(name, OTHERS[name], {**texts[name], **more})


def entry(name):
    more = {"avc1": {"avcc": {"sequence_parameter_sets": [], "picture_parameter_sets": []}},
            "mp4a": {"esds": {"freq_index": 15}}}
    return zeros(name.capitalize(), ENTRIES[name], more.get(name, {}))


def both_entries(value):
    return codec.stsd(codec.write_stsd(codec.Stsd(0, 0, value))).entry


class Numbers(unittest.TestCase):
    def refused(self, text, call, *given):
        with self.assertRaises(codec.Mp4Error, msg=text) as fault:
            call(*given)
        self.assertEqual(fault.exception.status, codec.INVALID_DATA)
        self.assertIn(f"invalid data: {text}", str(fault.exception))

    def try_field(self, name, through, base, path, kind):
        allowed, others = numbers_of(kind)
        named = f"{name}.{shown(path)}"
        for number in allowed:
            with self.subTest(named, number=number):
                self.assertEqual(at(through(replaced(base, path, number)), path), number)
        for number in (*others, *NO_NUMBERS):
            with self.subTest(named, number=number):
                self.refused(f"{named} is {number!r}, not ", through, replaced(base, path, number))

    def try_fields(self, name, through, base, text):
        for path, count, kind in fields_of(text):
            if kind != "text":
                for it in [f"{path}.{index}" for index in range(count)] or [path]:
                    self.try_field(name, through, base, it, kind)
            for wrong in [[0] * (count - 1), [0] * (count + 1), [], 0, None] if count else []:
                text = f"{name}.{path} is {wrong!r}"[:80]
                with self.subTest(text):
                    self.refused(text, through, replaced(base, path, wrong))

    def test_all_are_tried(self):
        """Each writer has its row above, with all of its fields."""
        writers = [it[6:] for it in dir(codec) if it.startswith("write_") and it != "write_fields"]
        self.assertEqual(sorted(writers), sorted([*HEADERS, *TABLES, *OTHERS]))
        for name, text in HEADERS.items():
            fields = getattr(codec, name.capitalize())._fields
            self.assertEqual(sorted(fields), sorted(it for it, _, _ in fields_of(text)))
        found = {**{it: both(it)(strings(it)) for it in OTHERS}, **{it: both_entries(entry(it)) for it in ENTRIES}}
        for name, text in {**OTHERS, **ENTRIES}.items():
            self.assertEqual(paths_of(found[name]), {it for it, _, _ in fields_of(text)}, name)

    def test_headers(self):
        for name, text in HEADERS.items():
            self.try_fields(name, both(name), header(name), text)

    def test_tables(self):
        for name, (row, head) in TABLES.items():
            self.try_fields(name, both(name), table(name), head)
            if row in ("u32", "u64"):
                self.try_field(name, both(name), table(name, 2), "rows.1", row)
            else:
                rows = ", ".join(f"rows.1.{it}" for it in row.split(", "))
                self.try_fields(name, both(name), table(name, 2), rows)

    def test_strings(self):
        for name, text in OTHERS.items():
            for it in text.split(", "):
                version = {"version": 0} if it.startswith("presentation_time_delta") else {}
                self.try_fields(name, both(name), strings(name, **version), it)
        for number in (0, 2 ** 32 - 1):
            brands = [1, number]
            self.assertEqual(both("ftyp")(strings("ftyp", compatible_brands=brands)).compatible_brands, brands)
        for number in (-1, 2 ** 32, *NO_NUMBERS):
            given = strings("ftyp", compatible_brands=[1, number])
            self.refused(f"ftyp.compatible_brands[1] is {number!r}, not ", codec.write_ftyp, given)

    def test_entries(self):
        for name, text in ENTRIES.items():
            self.try_fields("stsd.entry", both_entries, entry(name), text)
        for wrong in (5, "avc1", b"avc1", header("mdhd"), ()):
            self.refused(f"stsd.entry is {wrong!r}"[:60], both_entries, wrong)

    def test_times(self):
        """Times of another version than 1 have 32 bits."""
        times = {"mvhd": TIMES, "tkhd": TIMES, "mdhd": TIMES, "mehd": "fragment_duration u64",
                 "tfdt": "base_media_decode_time u64"}
        for name, text in times.items():
            for path, _, kind in fields_of(text.replace(", flags u24, ", "")):
                self.try_field(name, both(name), header(name)._replace(version=0), path, "u32")
        for path, kind in (("rows.1.segment_duration", "u32"), ("rows.1.media_time", "i32")):
            for version in (0, 2, 255):
                self.try_field("elst", both("elst"), table("elst", 2)._replace(version=version), path, kind)

    def test_first_samples(self):
        """The numbers of first samples aren't in the bytes, but in the array that is passed."""
        given = table("stsc", 2)
        for number in (0, 2 ** 32 - 1):
            self.assertEqual(codec.write_stsc(replaced(given, "rows.1.first_sample", number)), codec.write_stsc(given))
        for number in (-1, 2 ** 32, *NO_NUMBERS):
            wrong = replaced(given, "rows.1.first_sample", number)
            self.refused(f"stsc.rows[1].first_sample is {number!r}, not ", codec.write_stsc, wrong)
        rows = [codec.StscRow(1, 4, 1), (3, 5, 2)]
        self.assertEqual([it[3] for it in both("stsc")(given._replace(rows=rows)).rows], [1, 9])

    def test_languages(self):
        """Languages that are read can be written, even if they are a number of QuickTime, where 0 is English."""
        media = header("mdhd")
        for language in ("eng", "aaa", "zzz", "und", "```", "\x7f\x7f\x7f", "`ab"):
            self.assertEqual(both("mdhd")(media._replace(language=language)).language, language)
        wrong = ("\u00e9\u00e8", "\u00e9\u00e8\u00e9", "\u4e2d\u6587\u5b57", "en", "engl", "ENG", "Eng", "en1", "e g",
                 "", "eng\0", "en\0", "e\0g", b"eng", None, 5, ["e", "n", "g"])
        for language in wrong:
            self.refused(f"mdhd.language is {language!r}, not three letters from a to z", codec.write_mdhd,
                         media._replace(language=language))

    def test_whole_numbers(self):
        """Any object with `__index__` is a number, such as those of other libraries."""
        for number in (Seven.SEVEN, Index()):
            self.assertEqual(both("mdhd")(header("mdhd")._replace(timescale=number)).timescale, 7)
            self.assertEqual(both("stco")(table("stco")._replace(rows=[1, number])).rows, array.array("I", [1, 7]))
            with self.assertRaisesRegex(codec.Mp4Error, "no track|box not found"):
                codec.samples(b"", number)
        for rows in (array.array("I", [1, 2]), (1, 2), iter([1, 2]), range(1, 3), memoryview(array.array("I", [1, 2]))):
            self.assertEqual(both("stco")(table("stco")._replace(rows=rows)).rows, array.array("I", [1, 2]))
        self.refused("mfhd.sequence_number is ", codec.write_mfhd, header("mfhd")._replace(sequence_number=10 ** 5000))

    def test_rows(self):
        for name in TABLES:
            for wrong in (None, 5, b"\0\0\0\1", bytearray(4)):
                given = table(name)._replace(rows=wrong)
                self.refused(f"{name}.rows is {wrong!r}, not a list of rows", getattr(codec, f"write_{name}"), given)
        for name, fewest, most in (("stts", 2, 2), ("ctts", 2, 2), ("stsc", 3, 4), ("elst", 4, 4), ("trun", 4, 4)):
            for count in (0, fewest - 1, most + 1):
                given = table(name, 2)._replace(rows=[(0,) * most, (0,) * count])
                self.refused(f"{name}.rows[1] is {(0,) * count!r}, not a row", getattr(codec, f"write_{name}"), given)
            for wrong in (5, None):
                given = table(name, 2)._replace(rows=[(0,) * most, wrong])
                self.refused(f"{name}.rows[1] is {wrong!r}, not a row", getattr(codec, f"write_{name}"), given)

    def test_parts_that_are_missing(self):
        for name in [*HEADERS, *TABLES, *OTHERS]:
            for wrong in (None, 5, "text", codec.Span(0, 8, 8, 0)):
                self.refused(f"{name}.", getattr(codec, f"write_{name}"), wrong)
        self.refused("stsz.sample_size is missing", codec.write_stsz, codec.Table(0, 0, []))
        self.refused("tkhd.track_id is missing", codec.write_tkhd, header("mdhd"))
        for path in ("visual", "avcc"):
            self.refused(f"stsd.entry.{path}.", both_entries, entry("avc1")._replace(**{path: None}))
        self.assertIsNone(both_entries(entry("mp4a")._replace(esds=None)).esds)
        self.assertIsNone(both("dref")(strings("dref")._replace(url=None)).url)

    def test_texts(self):
        texts = (("hdlr", "name", False), ("dref", "url.location", False), ("emsg", "scheme_id_uri", True),
                 ("emsg", "value", True))
        for name, path, whole in texts:
            given = strings(name)
            self.assertEqual(at(both(name)(replaced(given, path, "\u00e9\U0001f600")), path), "\u00e9\U0001f600")
            for wrong in (None, 5, b"name", True, ["a"], "\ud800", *(["a\0b"] if whole else [])):
                write = getattr(codec, f"write_{name}")
                self.refused(f"{name}.{path} is {wrong!r}, not a text", write, replaced(given, path, wrong))
        for data in (b"\1\2", bytearray(b"\1\2"), array.array("B", [1, 2]), memoryview(b"\1-\2")[::2]):
            self.assertEqual(both("emsg")(strings("emsg", message_data=data)).message_data, b"\1\2")
        for wrong in (None, 5, "text", [1, 2], [300]):
            self.refused(f"emsg.message_data is {wrong!r}, not bytes", codec.write_emsg,
                         strings("emsg", message_data=wrong))

    def test_parameter_sets(self):
        for path, most in (("sequence_parameter_sets", 31), ("picture_parameter_sets", 255)):
            for sets in ([], [b""], [bytes(65535)], [b"\1\2", bytearray(b"\3")], [b"\1"] * most):
                given = replaced(entry("avc1"), f"avcc.{path}", sets)
                self.assertEqual(at(both_entries(given), f"avcc.{path}"), sets)
            named = f"stsd.entry.avcc.{path}"
            wrong = (
                ([b""] * (most + 1), f"{named} is "), ([b"", bytes(65536)], f"the length of {named}[1] is 65536, "),
                (5, f"{named} is 5, "), (b"\1", f"{named}[0] is 1, "), (["a"], f"{named}[0] is 'a', "),
            )
            for sets, text in wrong:
                self.refused(text, both_entries, replaced(entry("avc1"), f"avcc.{path}", sets))

    def test_arguments(self):
        for call in (codec.samples, codec.fragment_samples):
            for number in (0, 2 ** 32 - 1):
                with self.assertRaisesRegex(codec.Mp4Error, "^box not found$|^no track has the track_ID$"):
                    call(b"\0\0\0\x08moov", number)
            for number in (-1, 2 ** 32, 2 ** 32 + 1, -(2 ** 32) + 1, *NO_NUMBERS):
                self.refused(f"track_id is {number!r}, not ", call, b"\0\0\0\x08moov", number)
        for status in (0, 2 ** 32 - 1):
            self.assertTrue(codec.status_text(status))
        for status in (-1, 2 ** 32, *NO_NUMBERS):
            self.refused(f"status is {status!r}, not ", codec.status_text, status)
        for path in (None, 5, b"moov", True, "\ud800", ["moov"]):
            self.refused(f"path is {path!r}, not a text", codec.find, b"", path)

    def test_files(self):
        class File(io.BytesIO):
            length, given = 8, b""

            def seek(self, position, whence=0):
                return self.length if whence else super().seek(position)

            def read(self, count=-1):
                return self.given

        for length in (-1, 2 ** 64, 2 ** 70, *NO_NUMBERS):
            File.length = length
            self.refused(f"the length of the file is {length!r}, not ", codec.tree, File())
        for length in (8, 2 ** 64 - 1):
            File.length, File.given = length, b"\0\0\0\0free" + bytes(20)
            self.assertEqual([it.length for it in codec.tree(File())], [length])
        for given in (None, 5, "text"):
            File.length, File.given = 8, given
            self.refused(f"what the file reads is {given!r}, not bytes", codec.tree, File())

    def test_lists_that_grow(self):
        """Each list is read once."""
        def same(write, base, path, elements):
            growing = Growing(elements)
            self.assertEqual(write(replaced(base, path, growing)), write(replaced(base, path, elements)), path)
            self.assertEqual(growing.reads, 1, path)

        for name in TABLES:
            given = table(name, 3)
            same(getattr(codec, f"write_{name}"), given, "rows", given.rows)
        same(codec.write_ftyp, strings("ftyp"), "compatible_brands", [1, 2, 3])
        for name in ("mvhd", "tkhd"):
            same(getattr(codec, f"write_{name}"), header(name), "matrix", [*range(9)])
        for name, text in ENTRIES.items():
            for path, count, _ in fields_of(text):
                if count:
                    same(lambda it: codec.write_stsd(codec.Stsd(0, 0, it)), entry(name), path, [*range(count)])
        for path in ("avcc.sequence_parameter_sets", "avcc.picture_parameter_sets"):
            same(lambda it: codec.write_stsd(codec.Stsd(0, 0, it)), entry("avc1"), path, [b"\1", b"\2\3"])


if __name__ == "__main__":
    unittest.main()
