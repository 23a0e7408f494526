"""Tries the package of bindings/python: its classes with numbers that fit and others, files in each form, samples as
columns, errors with their places, writing, and damaged input. Runs the programs of examples/python on stored files,
looks for the library in each place, and checks the types by mypy.

Settings: COUNT (20,000 damaged boxes, and a hundredth of that in damaged files), SEED."""

import builtins
import concurrent.futures
import dataclasses
import decimal
import fractions
import importlib.util
import inspect
import io
import mmap
import os
import random
import shutil
import subprocess
import sys
import tempfile
import time
import typing
import unittest

from tests.built import TOP, codec, library, number
from tests.files import inspected
from tests.files.made import be, box, ftyp, full, handler, nested
from tests.files.stored import stored, stored_names

PACKAGE = os.path.join(TOP, "bindings", "python")
EXAMPLES = os.path.join(TOP, "examples", "python")
MOVIES = os.path.join(TOP, "tests", "files", "movies")
# Values that are not numbers.
NO_NUMBERS = (True, 1.0, "1", b"1", [], object())


def movie(name):
    """Returns the path of a stored movie."""
    return os.path.join(MOVIES, f"{name}.mp4")


def bytes_of(name):
    with open(movie(name), "rb") as file:
        return file.read()


def plain(hint):
    """Returns a type without None."""
    inside = [it for it in typing.get_args(hint) if it is not type(None)]
    return inside[0] if typing.get_origin(hint) is typing.Union and len(inside) == 1 else hint


def smallest(kind):
    """Returns an instance of a class with zeros and empty values."""
    hints, values = typing.get_type_hints(kind), {}
    for field in dataclasses.fields(kind):
        hint = plain(hints[field.name])
        if field.default is dataclasses.MISSING and field.default_factory is dataclasses.MISSING:
            empty = "abcd" if field.name in kind._codes else None
            values[field.name] = empty or (smallest(hint) if dataclasses.is_dataclass(hint) else
                                           [] if typing.get_origin(hint) is list else
                                           0 if typing.get_origin(hint) is typing.Union else hint())
    return kind(**values)


class Python(unittest.TestCase):
    @classmethod
    def setUpClass(cls):
        cls.module = codec()
        cls.fields = importlib.import_module("mp4_box_codec._fields")
        cls.calls = cls.module.calls

    def setUp(self):
        self.folder = tempfile.mkdtemp(prefix="python-")
        self.addCleanup(shutil.rmtree, self.folder)

    def path(self, name):
        return os.path.join(self.folder, name)

    def refused(self, text, call, *words, **more):
        """Calls `call`, and expects an error whose text has `text`."""
        with self.assertRaises(self.module.Mp4Error) as caught:
            call(*words, **more)
        self.assertIn(text, str(caught.exception))
        return caught.exception


class Classes(Python):
    def parts(self):
        """Returns the classes of all boxes and of the parts inside."""
        classes = importlib.import_module("mp4_box_codec.classes")
        return [getattr(classes, it) for it in classes.__all__]

    def test_import_of_everything(self):
        names = {name: it for name, it in vars(self.module).items() if name in self.module.__all__}
        self.assertEqual({*self.module.__all__} & {*dir(builtins)}, set())
        self.assertEqual([it for it in names if it.startswith("_")], [])
        self.assertLessEqual({kind.__name__ for kind in self.fields.CLASSES.values()}, {*names})
        self.assertEqual(len(self.module.__all__), len({*self.module.__all__}))

    def test_numbers(self):
        """Each number takes the smallest and the largest value of its bits, and refuses those next to them."""
        tried = 0
        for kind in self.parts():
            base, hints = smallest(kind), typing.get_type_hints(kind)
            for field in dataclasses.fields(kind):
                name, path = field.name, f"{kind.__name__.lower()}.{field.name} is "
                for version in (0, 1) if hasattr(base, "version") and name != "version" else (None,):
                    of = base if version is None else base.replace(version=version)
                    allowed = self.numbers(of, name, plain(hints[name]))
                    if allowed is None:
                        continue
                    tried += 1
                    low, high = allowed
                    for value in (low, high):
                        self.assertEqual(getattr(of.replace(**{name: value}), name), value, path)
                    for value in (low - 1, high + 1, 2 ** 80, -(2 ** 80), *NO_NUMBERS):
                        self.refused(path, of.replace, **{name: value})
        self.assertGreater(tried, 400)

    def numbers(self, value, name, hint):
        """Returns the smallest and the largest number of a field, or None for a field that isn't a whole number."""
        if hint is not int:
            return None
        if isinstance(value._bits.get(name), range):
            return value._bits[name][0], value._bits[name][-1]
        if name in value._bits:
            bits = value._bits[name][min(getattr(value, "version", 255), len(value._bits[name]) - 1)]
            return (-(1 << -bits - 1), (1 << -bits - 1) - 1) if bits < 0 else (0, (1 << bits) - 1)
        version = getattr(value, "version", 0)
        held = [self.calls.numbers_of(it, name, version) for it in (value._struct, "mp4_visual_box", "mp4_hvcc_box")]
        allowed = next(filter(None, held)).allowed
        return allowed[0], allowed[-1]

    def test_other_values(self):
        m = self.module
        tries = [
            (m.Tkhd, "width", 65536.0), (m.Tkhd, "width", -0.001), (m.Tkhd, "width", float("nan")),
            (m.Tkhd, "width", 10 ** 400), (m.Tkhd, "width", float("inf")),
            (m.Tkhd, "width", "640"), (m.Tkhd, "volume", 128.0), (m.Mvhd, "rate", -32769.0), (m.Smhd, "balance", True),
            (m.Ftyp, "major_brand", "iso"), (m.Ftyp, "major_brand", 5), (m.Hdlr, "handler_type", "vid\u0100"),
            (m.Hdlr, "name", b"name"), (m.VpcC, "video_full_range_flag", 1), (m.Esds, "up_stream", 2),
            (m.Avc1, "avcc", None), (m.Dinf, "dref", m.Url()), (m.Hdlr, "version", None),
        ]
        for kind, name, value in tries:
            self.refused(f"{kind.__name__.lower()}.{name} is ", kind, **{name: value})
        self.refused("mvhd.matrix[2] is 2.0, not a number from -2.0 to ", m.Mvhd(matrix=m.Matrix(u=2.0)).write)
        self.refused("ftyp.compatible_brands[1] is ", m.Ftyp(compatible_brands=["isom", "abcde"]).write)
        self.refused("pssh.KID[0] is '00', not bytes", self.fields.to_json, smallest(m.Pssh).replace(KID=["00"]))
        self.refused("saio.offset[1] is -1", self.fields.to_json, smallest(m.Saio).replace(offset=[0, -1]))
        self.refused("degrees is 45, not 0, 90, 180 or 270", m.Matrix.turned, 45)

    def test_written_values(self):
        """A value is written and read again as it was: with numbers that have a fraction or a sign."""
        m, half = self.module, 0.5
        self.assertEqual(m.Pasp(4, 3).write(), box(b"pasp", be(4, 4, 3)))
        values = [
            m.Pasp(4, 3), m.Clap(1, 2, 3, 4, -5, 6, -7, 8), m.Kind(version=0, flags=0, schemeURI="urn:a", value="b"),
            m.Mvhd(rate=-half, volume=-1.5, matrix=m.Matrix(a=-1.25, u=-half, w=1.0), timescale=1000),
            m.Tkhd(width=640.5, height=65535.75, volume=-half, layer=-1, flags=7), m.Smhd(balance=-1.0),
            m.Elst(rows=[m.ElstRow(5, -1, 1, 0), m.ElstRow(5, 2 ** 31 - 1, 1, 0)]),
            m.Elst(version=1, rows=[m.ElstRow(2 ** 40, -1, 1, 0), m.ElstRow(5, -(2 ** 63), 1, 0)]),
            m.Ctts(version=1, rows=[m.CttsRow(1, -5)]), m.Hdlr(handler_type="\xa9too", name="T\xf6ne"),
            m.Ftyp(major_brand="qt  ", compatible_brands=["qt  "]), m.Dinf(m.Dref(url=m.Url(location="a/b", flags=0))),
            m.Stsd(entry=m.Mp4a(samplerate=44100.0, channelcount=6, esds=m.Esds(freq_index=4, chan_conf=6))),
            m.Vp09(width=8, horizresolution=72.25, vpcc=m.VpcC(video_full_range_flag=True, chroma_subsampling=1)),
            m.Avc1(avcc=m.AvcC(sequence_parameter_sets=[b"\x67"], picture_parameter_sets=[b"\x68", b""])),
            m.Tx3g(box_record=(-1, 2, -3, 4), horizontal_justification=-1), m.Hev1(width=16, configuration_version=1),
            m.Esds(up_stream=True, profile=2), m.Dref(), m.Emsg(scheme_id_uri="urn:x", message_data=b"\0\1"),
        ]
        for value in values:
            self.assertEqual(m.read(value.write()), value)
        runs = [m.TrunRow(0, 0, 0, -7), m.TrunRow(0, 0, 0, 2 ** 31 - 1)]
        for version in (0, 1):
            found = m.Trun.read(m.Trun(version=version, flags=0x800, rows=runs).write())
            self.assertEqual((found.rows, found.sample_count), (runs, 2))
        self.assertEqual(m.Elst(rows=[m.ElstRow(5, -1, 1, 0)]).write()[20:24], b"\xff\xff\xff\xff")

    def test_growing_list(self):
        """A list that changes while it is read is read once."""
        class Growing(list):
            def __iter__(self):
                first = [*super().__iter__()]
                self.extend(["more"])
                return iter(first)

        found = self.module.Ftyp.read(self.module.Ftyp(compatible_brands=Growing(["isom", "avc1"])).write())
        self.assertEqual(found.compatible_brands, ["isom", "avc1"])


class Files(Python):
    def test_forms_of_a_file(self):
        """A path, a file, a file that isn't of the system, and bytes of each kind have the same boxes."""
        import pathlib
        path, data = movie("video"), bytes_of("video")
        with open(path, "rb") as file, mmap.mmap(file.fileno(), 0, access=mmap.ACCESS_READ) as mapped:
            file.read(100)
            forms = [path, pathlib.Path(path), file, io.BytesIO(data), data, bytearray(data), memoryview(data), mapped]
            for form in forms:
                with self.module.File(form) as found:
                    self.assertEqual([it.path for it in found.walk()][:3], ["ftyp", "free", "mdat"], form)
                    self.assertEqual(bytes(found["ftyp"].data), data[:32])
                    self.assertEqual(found.tracks[0].codec, "avc1.64000a")
                    del found
        for wrong in (None, 5, object(), [1]):
            self.refused("not a path, a binary file or bytes", self.module.File, wrong)
        self.assertRaises(FileNotFoundError, self.module.File, self.path("none"))
        with self.module.File(path) as found:
            front, track = found["ftyp"], found.tracks[0]
        for call in (lambda: front.data, lambda: front.fields, lambda: track.samples, lambda: found.data):
            self.assertRaisesRegex(ValueError, "^the file is closed$", call)
        with open(self.path("empty"), "wb"):
            pass
        with self.module.File(self.path("empty")) as found:
            self.assertEqual((found.children, found.tracks, found.movie), ([], [], None))

    def test_trees(self):
        """The tree has the boxes of the flat list, with the boxes inside."""
        for name in stored_names():
            data = stored(name)
            found = [*self.module.File(data).walk()]
            flat = self.module.tree(data)
            with open(self.path("file"), "wb") as file:
                file.write(data)
            self.assertEqual(self.module.tree(self.path("file")), flat)
            self.assertEqual([(it.path, it.position, it.length) for it in found],
                             [(it.path, it.position, it.length) for it in flat])
            for it in found:
                self.assertIn(it, it.parent.children if it.parent else self.module.File.children.fget(it.file))

    def test_paths(self):
        file = self.module.File(nested([b"moov"], box(b"trak", b"") + box(b"trak", box(b"free"))))
        self.assertEqual(file["moov/trak[1]/free"].position, 24)
        self.assertEqual(file["moov"]["trak[1]"]["free"].path, "moov/trak[1]/free")
        self.assertIsNone(file.find("moov/trak[2]"))
        self.assertIsNone(file.find("moov/trak/free"))
        for path in ("", "moo", "moov/", "moov[", "moov[-1]", "moov[a]"):
            self.refused("not codes of four characters", file.find, path)
        self.assertEqual(self.refused("moov at 0: box not found: there is no 'free'", file["moov"].__getitem__,
                                      "free").status, self.module.BOX_NOT_FOUND)
        self.refused("the file: box not found: there is no 'moof'", file.__getitem__, "moof")

    def test_places_of_errors(self):
        m = self.module
        file = m.File(ftyp(b"isom") + nested([b"moov", b"trak"], full(b"tkhd", 2, 0, bytes(80)) + box(b"free")))
        error = self.refused("moov/trak/tkhd at 32: invalid data", lambda: file["moov/trak/tkhd"].fields)
        self.assertEqual((error.status, error.position, error.path), (m.INVALID_DATA, 32, "moov/trak/tkhd"))
        error = self.refused("moov/trak/free at 124: ", lambda: file["moov/trak/free"].fields)
        self.assertEqual(error.status, m.UNKNOWN_BOX)
        self.refused("moov/trak/tkhd at 32: invalid data: this box is a 'tkhd', not a 'mdhd'",
                     lambda: file["moov/trak/tkhd"].read(m.Mdhd))
        cut = m.File(bytes_of("video")[:1700])
        self.assertEqual(cut["moov"].fault, "it ends at 1857, and the file ends at 1700")
        error = self.refused("moov/trak at ", lambda: m.File(nested([b"moov"], box(b"trak"))).tracks[0].samples)
        self.assertEqual((error.status, error.position), (m.BOX_NOT_FOUND, 8))
        self.refused("the new box has 33 bytes, not 16", lambda: file.changed({file["ftyp"]: bytes(33)}))

    def test_faults(self):
        """The faults of files, worked out from docs/CHECK.md."""
        m = self.module
        file = m.File(ftyp(b"isom") + nested([b"moov", b"trak"], full(b"tkhd", 2, 0, bytes(80)) + box(b"free")))
        self.assertEqual(file.faults(), [
            m.Fault(16, "moov", "box-missing", "error", "there is no mvhd"),
            m.Fault(24, "moov/trak", "box-missing", "error", "there is no mdia"),
            m.Fault(32, "moov/trak/tkhd", "box-invalid", "error", "version must be 0 or 1")])
        two = nested([b"moof"], 2 * full(b"mfhd", 0, 0, be(4, 1)))
        self.assertEqual(m.File(two).faults(), [
            m.Fault(24, "moof/mfhd[1]", "box-repeated", "warning",
                    "a moof may have only one mfhd, and there is one before this at 8")])
        self.assertEqual([it.code for it in m.File(b"").faults()], ["movie-missing"])
        self.assertEqual(m.File(bytes_of("video")).faults(), [])
        cut = m.File(bytes_of("video")[:1700]).faults()
        self.assertEqual((cut[0].path, cut[0].position, cut[0].code), ("moov", 950, "file-cut"))
        with self.assertRaises(dataclasses.FrozenInstanceError):
            cut[0].code = ""
        found = self.calls.check_file(two)
        self.assertEqual(found, [self.calls.Fault(24, "moof/mfhd[1]", 6, self.calls.WARNING, found[0].text)])
        self.assertEqual([self.calls.fault_name(it) for it in (0, 1, 22, 25)], ["", "not-mp4", "index-sizes", ""])
        self.refused("code is -1, not ", self.calls.fault_name, -1)

    def test_facts_of_files(self):
        m = self.module
        facts = [(it.brands, it.seconds, it.is_fragmented, it.is_progressive, it.moov_first) for it in (
            m.File(bytes_of(name)) for name in ("video", "sound", "fragments"))]
        self.assertEqual(facts, [
            (["isom", "isom", "iso2", "avc1", "mp41"], 2.0, False, True, False),
            (["isom", "isom", "iso2", "mp41"], 1.0, False, True, False),
            (["iso5", "iso5", "iso6", "mp41"], 2.0, True, False, True)])
        empty = m.File(b"")
        self.assertEqual((empty.brands, empty.seconds, empty.is_progressive, empty.moov_first), ([], 0.0, False, None))
        [track] = m.File(bytes_of("video")).tracks
        self.assertEqual((track.bit_rate, track.frame_rate, track.sample_count, track.key_frame_count, track.format),
                         (3608, 10, 20, 2, "avc1"))
        self.assertEqual((track.scheme, track.kid, track.is_encrypted), ("", None, False))
        kid = bytes(range(16))
        sinf = box(b"sinf", box(b"frma", b"avc1") + full(b"schm", 0, 0, b"cenc" + be(4, 0x10000))
                   + box(b"schi", full(b"tenc", 0, 0, bytes([0, 0, 1, 8]) + kid)))
        from tests.files import made
        entry = made.visual(b"encv", 8, 16, b"", sinf)
        [track] = m.File(made.movie(made.track(3, b"vide", b"", b"fra", [entry], b""))).tracks
        self.assertEqual((track.scheme, track.kid, track.format, track.codec, track.is_encrypted),
                         ("cenc", kid, "avc1", "avc1", True))
        self.assertEqual((track.rotation, track.frame_rate, track.bit_rate, track.seconds), (0, None, 0, 0.0))

    def test_tracks(self):
        with self.module.File(movie("fragments")) as file:
            video, sound = file.tracks
            self.assertEqual(
                [(it.id, it.kind, it.codec, it.timescale, it.duration, it.language, it.is_encrypted, len(it.samples))
                 for it in (video, sound)],
                [(1, "video", "avc1.64000a", 10240, 20480, "deu", False, 20),
                 (2, "audio", "mp4a.40.2", 8000, 9600, "und", False, 9)])
            self.assertEqual((video.width, video.height, video.rotation, video.seconds), (32, 32, 0, 2.0))
            self.assertEqual((sound.channels, sound.sample_rate, sound.width), (1, 8000.0, 0))
            whole = self.module.File(movie("video")).tracks[0]
            self.assertEqual([bytes(video.data(it)) for it in video.samples],
                             [bytes(whole.data(it)) for it in whole.samples])
            del video, sound
        # Media that are in the file for a part only.
        data = bytes_of("video")
        moov = data[950:1857]
        track = self.module.File(moov).tracks[0]
        self.refused("moov/trak at 116: unexpected end of input: the sample ends at ", track.data, track.samples[19])

    def test_entries(self):
        """Codecs, channels and protection of sample entries, worked out from their standards."""
        from tests.files import made
        hevc = (b"\x01\x22" + be(4, 0x60000000) + be(6, 0x900000000000) + b"\x99" + b"\xf0\0\xfc\xfd\xf8\xf8\0\0\x0f\0")
        mp4a = bytes.fromhex("031900010004114015000000000000000000000005021190060102")
        cases = [
            (b"vide", made.visual(b"hvc1", 64, 48, b"", box(b"hvcC", hevc)), "hvc1.2.6.H153.90", (64, 48, 0, 0.0)),
            (b"vide", made.visual(b"av01", 8, 16, b"", box(b"av1C", b"\x81\x2d\xcc\0")), "av01.1.13H.10",
             (8, 16, 0, 0.0)),
            (b"vide", made.visual(b"vp09", 8, 16, b"", full(b"vpcC", 1, 0, b"\2\x29\xa2\1\1\1\0\0")), "vp09.02.41.10",
             (8, 16, 0, 0.0)),
            (b"vide", made.visual(b"encv", 8, 16, b"", box(b"sinf", box(b"frma", b"avc1"))), "avc1", (8, 16, 0, 0.0)),
            (b"soun", made.sound(b"ac-3", 0, 2, 16, 48000 << 16, b"", box(b"dac3", b"\x10\x3d\x20")), "ac-3",
             (0, 0, 6, 48000.0)),
            (b"soun", made.sound(b"ec-3", 0, 2, 16, 48000 << 16, b"", box(b"dec3", be(2, 640 << 3) + b"\x20\x0f\0")),
             "ec-3", (0, 0, 6, 48000.0)),
            (b"soun", made.sound(b"Opus", 0, 6, 16, 48000 << 16, b"", b""), "Opus", (0, 0, 6, 48000.0)),
            (b"soun", made.sound(b"mp4a", 0, 2, 16, 44100 << 16, b"", full(b"esds", 0, 0, mp4a)), "mp4a.40.2",
             (0, 0, 2, 44100.0)),
            (b"soun", made.sound(b"lpcm", 2, 3, 16, 0x10000, be(4, 72) + bytes.fromhex("40e7700000000000")
                                 + be(4, 6, 0x7F000000, 24, 12, 18, 1), b""), "lpcm", (0, 0, 6, 48000.0)),
        ]
        for kind, entry, codec_string, shape in cases:
            track = self.module.File(made.movie(made.track(3, kind, b"", b"fra", [entry], b""))).tracks[0]
            found = (track.width, track.height, track.channels, track.sample_rate)
            self.assertEqual((track.codec, found, track.language), (codec_string, shape, "fra"), entry)
            self.assertEqual(track.is_encrypted, b"sinf" in entry)
        for number, language in ((0, "eng"), (0x7FFF, "und")):
            data = made.movie(made.track(3, b"soun", b"", number, [], b""))
            self.assertEqual(self.module.File(data).tracks[0].language, language)
        self.assertEqual([it.tracks[0].rotation for it in map(self.module.File, (
            made.movie(made.track(1, b"vide", b"", b"und", [made.visual(b"avc1", 8, 16, b"", b"")], b"",
                                  header=made.tkhd(1, matrix=matrix)))
            for matrix in ((0, 1 << 16, 0, -1 << 16, 0, 0, 0, 0, 1 << 30),
                           (-1 << 16, 0, 0, 0, -1 << 16, 0, 0, 0, 1 << 30),
                           (1 << 17, 0, 0, 0, 1 << 16, 0, 0, 0, 1 << 30))))], [90, 180, None])

    def test_codec_strings(self):
        """The string of a codec is that of `mp4inspect info`, over the rows of codec_strings.txt."""
        from tests.programs.test_info import with_entry
        from tests.readers.codec_strings import rows
        for number, text, code, boxes in rows():
            with self.subTest(line=number):
                self.assertEqual(self.module.File(with_entry(code, boxes)).tracks[0].codec, text)

    def test_codes_of_two_boxes(self):
        """The box around it decides which box has a code: each has its own class, or none."""
        from tests.files import made
        m = self.module
        cookie = full(b"alac", 0, 0, be(4, 4096) + bytes([0, 16, 40, 10, 14, 2]) + be(2, 255) + be(4, 0, 0, 44100))
        sound = made.sound(b"alac", 0, 2, 16, 44100 << 16, b"", cookie)
        front = box(b"gmhd", box(b"text", be(4, 1 << 16, 0, 0, 0, 1 << 16, 0, 0, 0, 1 << 30)))
        item = box(b"----", full(b"mean", 0, 0, b"com") + full(b"name", 0, 0, b"n") + full(b"data", 0, 1, be(4, 0)))
        meta = full(b"meta", 0, 0, handler(b"mdir", b"") + box(b"ilst", item))
        tracks = [made.track(1, b"soun", b"", b"und", [sound], b""),
                  made.track(2, b"text", b"", b"und", [box(b"text", bytes(60))], b"", front=front)]
        file = m.File(made.movie(*tracks) + nested([b"moov", b"udta"], box(b"name", b"ab") + box(b"mean") + meta))
        entries = file["moov/trak/mdia/minf/stbl/stsd"], file["moov/trak[1]/mdia/minf/stbl/stsd"]
        self.assertEqual((entries[0]["alac"].fields.samplerate, file.tracks[0].codec), (44100.0, "alac"))
        self.assertEqual((entries[0]["alac/alac"].fields.frameLength, entries[0]["alac/alac"].fields.pb), (4096, 40))
        self.assertEqual(file["moov/trak[1]/mdia/minf/gmhd/text"].fields.w, 1.0)
        self.assertEqual(self.refused("", lambda: entries[1]["text"].fields).status, m.UNKNOWN_BOX)
        udta = file["moov[1]/udta"]
        item = udta["meta/ilst/----"]
        self.assertEqual((item["mean"].fields.value, item["name"].fields.value), ("com", "n"))
        for code in ("name", "mean"):
            self.assertEqual(self.refused("", lambda: udta[code].fields).status, m.UNKNOWN_BOX)
            self.assertIsNone(m.class_of(code, "udta"))
        self.assertEqual((m.class_of("mp4a", "stsd"), m.class_of("mp4a", "wave")), (m.Mp4a, None))
        self.assertEqual({it.code for it in file.faults()}, {"box-missing", "movie-duration"})

    def test_entries_of_any_code(self):
        """A sample entry is written as it was read, and refuses numbers that it can't hold."""
        from tests.files import made
        m, inside = self.module, box(b"hvcC", bytes(23)) + box(b"pasp", be(4, 1, 1))
        data = made.visual(b"hvc1", 65535, 48, b"name", inside)
        entry = m.VisualEntry.read(data)
        self.assertEqual(entry, m.VisualEntry("hvc1", 65535, 48, boxes=inside, compressorname=b"name"))
        self.assertEqual(entry.write(), data)
        for version, more in ((0, b""), (1, bytes(range(16))), (2, bytes(range(36)))):
            data = made.sound(b"Opus", version, 6, 24, 48000 << 16, more, inside)
            sound = m.SoundEntry.read(data)
            self.assertEqual((sound.channelcount, sound.samplerate, sound.more, sound.boxes),
                             (6, 48000.0, more, inside))
            self.assertEqual(sound.write(), data)
            self.refused("a sample entry of 35 bytes, not of 36 at least", m.SoundEntry.read, box(b"Opus", bytes(27)))
        for name, value in (("width", 65536), ("height", -1), ("depth", True), ("horizresolution", -1.0),
                            ("format", "hvc")):
            self.refused(f"visualentry.{name} is ", entry.replace, **{name: value})
        self.refused("visualentry.compressorname is ", entry.replace(compressorname=bytes(32)).write)
        self.refused("soundentry.more is b'ab', not 16 bytes", m.SoundEntry("sowt", version=1, more=b"ab").write)
        # In an `stsd` of version 1 an entry of version 1 has the fields of version 0.
        data = made.sound(b"ipcm", 1, 6, 24, 48000 << 16, b"", box(b"free"))
        file = m.File(nested([b"moov", b"trak", b"mdia"], made.handler(b"soun", b"") + nested(
            [b"minf", b"stbl"], full(b"stsd", 1, 0, be(4, 1) + data))))
        self.assertEqual(file.tracks[0].entry.fields, m.SoundEntry("ipcm", 6, 48000.0, box(b"free"), 1, 24, 1))
        self.assertEqual(file.tracks[0].entry.fields.write(), data)
        file = m.File(made.made()["newer"])
        self.assertEqual([type(it.fields).__name__ for track in file.tracks for it in track.entries],
                         ["VisualEntry"] * 3 + ["SoundEntry"] * 2)

    def test_large_file(self):
        """The tracks of a file of 2 GB are listed in little memory."""
        data = bytes_of("video")
        with open(self.path("large.mp4"), "wb") as file:
            file.write(data[:40] + be(4, 1) + b"mdat" + be(8, 2 ** 31))
            file.seek(40 + 2 ** 31)
            file.write(data[950:])
        code = ("import resource, sys, mp4_box_codec as m\n"
                "before = resource.getrusage(resource.RUSAGE_SELF).ru_maxrss\n"
                "print(m.File(sys.argv[1]).tracks[0].codec, len(m.File(sys.argv[1]).tracks[0].samples))\n"
                "print(resource.getrusage(resource.RUSAGE_SELF).ru_maxrss - before)")
        env = {**os.environ, "PYTHONPATH": PACKAGE, "PYTHONDONTWRITEBYTECODE": "1"}
        said = subprocess.run([sys.executable, "-c", code, self.path("large.mp4")], env=env, stdout=subprocess.PIPE,
                              text=True, check=True).stdout.split()
        self.assertEqual(said[:2], ["avc1.64000a", "20"])
        self.assertLess(int(said[2]), 8192)

    def test_threads(self):
        """Eight threads read one file."""
        with self.module.File(movie("fragments")) as file:
            def read(_):
                return [(it.codec, it.samples.offset.tolist(), str(file["moov/mvhd"].fields)) for it in file.tracks]

            with concurrent.futures.ThreadPoolExecutor(8) as workers:
                found = [*workers.map(read, range(80))]
            self.assertEqual(found, [found[0]] * 80)

    def test_damaged_input(self):
        """Boxes and files with wrong bytes, cut or not, give values or an Mp4Error: the classes refuse no box that the
        library reads."""
        chance, m = random.Random(number("SEED", 1)), self.module
        files = [*inspected.files().values(), *map(bytes_of, ("video", "fragments"))]
        boxes = [bytes(it.data) for data in files for it in m.File(data).walk() if it.code in self.fields.CLASSES]

        def damaged(data):
            changed = bytearray(data)
            for _ in range(chance.randrange(1, 4)):
                changed[chance.randrange(len(changed))] = chance.choice((0, 1, 0x7F, 0x80, 0xFF, chance.randrange(256)))
            return changed[:chance.randrange(len(changed) + 1)] if chance.random() < 0.2 else changed

        count = number("COUNT", 20000)
        for at in range(count):
            data = damaged(chance.choice(boxes))
            try:
                value = m.read(data)
                if not value._call and at % 4 == 0:
                    self.assertEqual(self.fields.to_json(value), self.calls.fields(data))
            except m.Mp4Error:
                kind = self.fields.CLASSES.get(data[4:8].decode("latin-1"))
                if kind:
                    call = getattr(self.calls, kind._call) if kind._call else self.calls.fields
                    self.assertRaises(m.Mp4Error, call, data)
        for _ in range(count // 100):
            file = m.File(damaged(chance.choice(files)))
            file.faults()
            for track in file.tracks:
                for name in ("id", "kind", "codec", "width", "channels", "rotation", "language", "seconds", "begin"):
                    try:
                        getattr(track, name)
                    except m.Mp4Error as why:
                        self.assertIsNotNone(why.position, why)
                try:
                    [track.data(it) for it in track.samples[:100]]
                except (m.Mp4Error, MemoryError):
                    pass


class Columns(Python):
    def test_columns(self):
        with self.module.File(movie("video")) as file:
            samples = file.tracks[0].samples
        listed = [*samples]
        self.assertEqual(listed, self.module.samples(bytes_of("video"), 1))
        columns = {name: getattr(samples, name) for name in self.module.Sample._fields}
        for name, column in columns.items():
            self.assertEqual(column.tolist(), [getattr(it, name) for it in listed], name)
            self.assertEqual((len(column), column.readonly), (20, True))
        self.assertIs(listed[0].sync, True)
        self.assertEqual(samples.key_frames, [0, 10])
        self.assertEqual(samples.presentation_time.tolist(), [it.presentation_time for it in listed])
        self.assertEqual((samples[3], samples[-1], samples[2:5][1], len(samples[::-1])),
                         (listed[3], listed[-1], listed[3], 20))
        self.assertEqual([*samples[::-3]], listed[::-3])
        for index in (20, -21):
            self.assertRaises(IndexError, samples.__getitem__, index)
        self.assertEqual(samples, samples[:])
        huge = (self.module.Stts(rows=[self.module.SttsRow(2 ** 32 - 1, 1)]).write() + self.module.Stsc(
            rows=[self.module.StscRow(1, 2 ** 32 - 1, 1)]).write() + self.module.Stsz(
                sample_size=1, sample_count=2 ** 32 - 1).write() + self.module.Stco(rows=[0]).write())
        trak = self.module.Tkhd(track_id=1).write() + box(b"mdia", self.module.Mdhd(timescale=1).write() + nested(
            [b"minf", b"stbl"], huge))
        track = self.module.File(nested([b"moov", b"trak"], trak)).tracks[0]
        self.assertEqual(track.sample_count, 2 ** 32 - 1)
        self.assertNotEqual(samples, samples[1:])
        self.assertEqual([samples.at(it) for it in (-1, 0, 1023, 1024, 2 ** 63)], [-1, 0, 0, 1, 19])
        self.assertEqual([samples.key_frame_at(it) for it in (-1, 9 * 1024, 10 * 1024, 2 ** 63)], [-1, 0, 10, 10])

    @unittest.skipUnless(importlib.util.find_spec("numpy"), "numpy is not on this machine")
    def test_columns_of_numpy(self):
        import numpy
        samples = self.module.File(movie("video")).tracks[0].samples
        found = numpy.asarray(samples.size)
        self.assertTrue(numpy.shares_memory(found, numpy.asarray(samples.offset)) or found.base is not None)
        self.assertEqual((found.dtype, found.tolist()), (numpy.uint32, samples.size.tolist()))

    def test_seconds_of_a_sample(self):
        """A sample takes at most 0.5 microseconds."""
        m, count = self.module, 400000
        tables = (m.Stts(rows=[m.SttsRow(count, 10)]).write() + m.Stsc(rows=[m.StscRow(1, count, 1)]).write()
                  + m.Stsz(rows=[7] * count).write() + m.Stco(rows=[100]).write())
        media = m.Mdhd(timescale=1000).write() + m.Hdlr(handler_type="vide").write()
        data = nested([b"moov", b"trak"], m.Tkhd(track_id=1).write() + box(b"mdia", media + nested(
            [b"minf", b"stbl"], tables)))
        track = m.File(data).tracks[0]
        times = []
        for _ in range(3):
            began = time.process_time()
            samples = track.samples
            columns = samples.offset, samples.size, samples.decode_time
            times.append(time.process_time() - began)
        self.assertEqual([it[count - 1] for it in columns], [100 + 7 * (count - 1), 7, 10 * (count - 1)])
        self.assertLess(min(times) / count, 0.5e-6)


class Writing(Python):
    def test_written_movie(self):
        m, out = self.module, io.BytesIO()
        with m.Writer(out) as writer:
            sets = m.AvcC(sequence_parameter_sets=[b"\x67\1\2\3"], picture_parameter_sets=[b"\x68"])
            entry = m.Avc1(width=64, height=48, avcc=sets)
            video = writer.add_track(entry, 90000, width=64, height=48, begin=3000)
            sound = writer.add_track(m.Mp4a(samplerate=48000.0, channelcount=2), 48000, handler="soun", language="eng")
            video.add(b"key frame", 3000, rendering_offset=3000)
            video.add(b"second", 3000, rendering_offset=6000, sync=False)
            sound.add(b"sound", 1024)
            video.add(b"third", 1500, rendering_offset=-1500, sync=False)
        file = m.File(out.getvalue())
        self.assertEqual(file.faults(), [])
        one, other = file.tracks
        self.assertEqual([bytes(one.data(it)) for it in one.samples], [b"key frame", b"second", b"third"])
        self.assertEqual([(it.decode_time, it.rendering_offset, it.duration, it.sync, it.chunk) for it in one.samples],
                         [(0, 3000, 3000, 1, 1), (3000, 6000, 3000, 0, 1), (6000, -1500, 1500, 0, 2)])
        self.assertEqual([bytes(other.data(it)) for it in other.samples], [b"sound"])
        self.assertEqual((one.begin, one.duration, other.language, other.samples.sync.tolist()),
                         (3000, 7500, "eng", [True]))
        self.assertEqual(file["mdat"].content.tobytes(), b"key framesecondsoundthird")

    def test_refused_samples(self):
        m = self.module
        with m.Writer(io.BytesIO()) as writer:
            self.refused("timescale is 0, not ", writer.add_track, m.Avc1(), 0)
            self.refused("mdhd.timescale is -1, not ", writer.add_track, m.Avc1(), -1)
            self.refused("entry is 5, not bytes", writer.add_track, 5, 1000)
            self.refused("handler is 'video', not a code", writer.add_track, m.Avc1(), 1000, handler="video")
            track = writer.add_track(m.Avc1(), 1000)
            self.refused("duration is -1, not ", track.add, b"", -1)
            self.refused("the sample is 'text', not bytes", track.add, "text", 1)
            self.refused("rendering_offset is 2147483648, not ", track.add, b"", 1, rendering_offset=2 ** 31)
        with self.assertRaises(KeyError):
            with m.Writer(self.path("out.mp4")) as writer:
                raise KeyError
        self.assertIsNone(m.File(self.path("out.mp4")).movie)

    def test_units(self):
        units = self.module.units
        self.assertEqual([bytes(it) for it in units(b"\2ab\0\1c", 1)], [b"ab", b"", b"c"])
        self.assertEqual([bytes(it) for it in units(b"\0\2ab", 2)], [b"ab"])
        for data in (b"\0\0\0\3ab", b"\0", b"\0\0\0"):
            self.refused("unexpected end of input: a NAL unit ends at ", lambda: [*units(data)])
        self.refused("length_size is 3, not 1, 2 or 4", lambda: [*units(b"", 3)])


class Programs(Python):
    def run_program(self, name, *words, **more):
        """Runs a program of examples/python, and returns its output."""
        env = {**os.environ, "PYTHONPATH": PACKAGE, "PYTHONDONTWRITEBYTECODE": "1", **more}
        ran = subprocess.run([sys.executable, os.path.join(EXAMPLES, f"{name}.py"), *words], env=env, text=True,
                             stdout=subprocess.PIPE, stderr=subprocess.STDOUT, check=False)
        self.assertEqual(ran.returncode, 0, ran.stdout)
        return ran.stdout

    def test_length_of_the_programs(self):
        for name in os.listdir(EXAMPLES):
            with open(os.path.join(EXAMPLES, name), encoding="utf-8") as file:
                self.assertLessEqual(len(file.readlines()), 30, name)

    def test_tracks(self):
        said = self.run_program("tracks", movie("video"), movie("sound"))
        self.assertEqual(said.replace(MOVIES + os.sep, ""), (
            "video.mp4: track 1: video, avc1.64000a, deu, 2 s, 20 samples, 2 of them key frames, clear, 32x32, "
            "turned by 0 degrees\nsound.mp4: track 1: audio, mp4a.40.2, und, 1 s, 9 samples, 9 of them key frames, "
            "clear, 1 channel(s) of 8000 Hz\n"))

    def test_stream(self):
        """The stream has the units of ffmpeg's, which has the parameter sets again before each key frame."""
        self.run_program("stream", movie("video"), self.path("out.264"))
        with open(self.path("out.264"), "rb") as file:
            units = file.read().split(b"\0\0\0\1")[1:]
        self.assertEqual([it[0] for it in units[:4]], [0x67, 0x68, 0x65, 0x41])
        with self.module.File(movie("video")) as file:
            self.assertEqual(b"".join(it.to_bytes(4, "big") + unit for unit in units[2:] for it in [len(unit)]),
                             b"".join(bytes(file.tracks[0].data(it)) for it in file.tracks[0].samples))
        self.assertEqual(self.decoded(self.path("out.264")), self.decoded(movie("video")))

    def decoded(self, path, *words):
        """Returns the digests of the pictures or the sound of a file as ffmpeg decodes it, or None without ffmpeg."""
        if not shutil.which("ffmpeg"):
            return None
        words = ["ffmpeg", "-v", "error", "-i", path, *words, "-f", "framemd5", "-"]
        said = subprocess.run(words, stdout=subprocess.PIPE, text=True, check=True).stdout
        return [line.split(",")[-1] for line in said.splitlines() if not line.startswith("#")]

    def test_playlist(self):
        said = self.run_program("playlist", movie("fragments"), "fragments.mp4").splitlines()
        self.assertEqual(said, [
            "#EXTM3U", "#EXT-X-VERSION:7", "#EXT-X-PLAYLIST-TYPE:VOD", "#EXT-X-TARGETDURATION:1",
            '#EXT-X-MAP:URI="fragments.mp4",BYTERANGE="1242@0"', "#EXTINF:1.000,", "#EXT-X-BYTERANGE:1926@1242",
            "fragments.mp4", "#EXTINF:1.000,", "#EXT-X-BYTERANGE:891@3168", "fragments.mp4", "#EXT-X-ENDLIST"])
        if shutil.which("ffmpeg"):
            shutil.copy(movie("fragments"), self.folder)
            with open(self.path("list.m3u8"), "w", encoding="ascii") as file:
                file.write("\n".join(said))
            self.assertEqual(self.decoded(self.path("list.m3u8"), "-map", "0:v"),
                             self.decoded(movie("fragments"), "-map", "0:v"))

    def test_edit(self):
        self.run_program("edit", movie("video"), self.path("out.mp4"), "fra", "90")
        with self.module.File(self.path("out.mp4")) as file:
            track = file.tracks[0]
            self.assertEqual((track.language, track.rotation, track.begin), ("fra", 90, 2048))
            changed = [at for at, pair in enumerate(zip(bytes(file.data), bytes_of("video"))) if pair[0] != pair[1]]
            header, media = track.box["tkhd"], track.box["mdia/mdhd"]
            within = [*range(header.position, header.position + header.length),
                      *range(media.position, media.position + media.length)]
            self.assertLessEqual({*changed}, {*within})

    def test_mux(self):
        self.run_program("mux", self.path("out.mp4"), movie("video"), movie("sound"))
        with self.module.File(self.path("out.mp4")) as file:
            self.assertEqual(file.faults(), [])
            for track, name in zip(file.tracks, ("video", "sound")):
                source = self.module.File(movie(name)).tracks[0]
                self.assertEqual([bytes(track.data(it)) for it in track.samples],
                                 [bytes(source.data(it)) for it in source.samples])
                self.assertEqual((track.codec, track.begin, track.timescale, track.language),
                                 (source.codec, source.begin, source.timescale, source.language))
        for kind, name in (("v", "video"), ("a", "sound")):
            self.assertEqual(self.decoded(self.path("out.mp4"), "-map", f"0:{kind}"), self.decoded(movie(name)))


class NewFiles(Python):
    """New files from each form of an old one. tests/interfaces/test_rewriting.py compares them with those of
    mp4remux."""

    def test_sources(self):
        data, wanted = bytes_of("video"), self.module.faststart(bytes_of("video")).tobytes()
        with open(movie("video"), "rb") as file, mmap.mmap(file.fileno(), 0, access=mmap.ACCESS_READ) as mapped:
            for source in (movie("video"), file, mapped, data, bytearray(data), memoryview(data), io.BytesIO(data),
                           self.module.File(data), self.module.File(movie("video"))):
                new = self.module.faststart(source)
                self.assertEqual(new.tobytes(), wanted, source)
                self.assertEqual(b"".join(new.parts), wanted, source)
                del new

    def test_writing(self):
        class Slow(io.RawIOBase):
            """A file that takes seven bytes at a time."""

            def __init__(self):
                self.taken = b""

            def writable(self):
                return True

            def write(self, data):
                self.taken += bytes(data[:7])
                return min(len(data), 7)

        new, out = self.module.edit(movie("video"), [self.module.Change.title("Blue")]), Slow()
        new.write(out)
        self.assertEqual((out.taken, new.length), (new.tobytes(), len(out.taken)))
        with open(self.path("out.mp4"), "wb") as file:
            new.write(file)
        with open(self.path("out.mp4"), "rb") as file:
            self.assertEqual(file.read(), out.taken)

    def test_closed_file(self):
        with self.module.File(movie("video")) as file:
            new = self.module.faststart(file)
        self.assertRaises(ValueError, new.tobytes)

    def test_boxes_as_values(self):
        m, data = self.module, bytes_of("video")
        header = m.Ftyp(major_brand="isom", minor_version=1, compatible_brands=["iso5", "avc1"])
        by_value, by_bytes = (m.edit(data, [m.Change.replace("ftyp", it)]).tobytes()
                              for it in (header, header.write()))
        self.assertEqual(by_value, by_bytes)
        self.assertEqual(m.File(by_value)["ftyp"].fields, header)
        inserted = m.edit(data, [m.Change.insert("/", header, 0)]).tobytes()
        self.assertEqual(inserted, header.write() + data[:32] + inserted[len(header.write()) + 32:])

    def test_refused_values(self):
        m, data = self.module, bytes_of("video")
        change = m.Change
        for text, made in (
                ("brands[1] is 'is', not a code of four characters", lambda: change.brands(["isom", "is"])),
                ("brands is 5, not a list of codes", lambda: change.brands(5)),
                ("code is 5, not a code of four characters", lambda: change.tag(5, "")),
                ("text is 5, not a text", lambda: change.title(5)),
                ("picture is 'x', not bytes", lambda: change.cover("x")),
                ("boxes is 'x', not bytes", lambda: change.insert("moov", "x")),
                ("changes[0].path is 5, not a text", lambda: m.edit(data, [change.remove(5)])),
                ("changes[0].number is -1, not a number", lambda: m.edit(data, [change.insert("/", b"", -1)])),
                ("changes[1].track_id is 4294967296,", lambda: m.edit(data, [change.no_tags(), change.enable(2**32)])),
                ("changes[0].value is 1.0, not a number", lambda: m.edit(data, [change.rotate(1, 1.0)])),
                ("changes[0].row is missing", lambda: m.edit(data, [5])),
                ("changes is 5, not a list of changes", lambda: m.edit(data, 5)),
                ("begin is 'x', not a number of seconds", lambda: m.cut(data, "x", 1)),
                ("end is nan, not a number of seconds", lambda: m.cut(data, 0, float("nan"))),
                ("begin is -1000000000, not a number", lambda: m.cut(data, -1, 1)),
                ("seconds is inf, not a number of seconds", lambda: m.fragment(data, seconds=float("inf"))),
                ("source is 5, not a path", lambda: m.faststart(5))):
            self.assertEqual(self.refused(text, made).status, m.INVALID_DATA)
        refused = self.refused("no track has the track_ID 7", m.edit, data, [change.enable(7)])
        self.assertEqual((type(refused), refused.status, refused.reason, str(refused)),
                         (m.Refused, m.REFUSED, "no track has the track_ID 7", "no track has the track_ID 7"))

    def test_times(self):
        m, data = self.module, bytes_of("video")
        wanted = m.cut(data, 0.5, 1.5).tobytes()
        for begin, end in ((fractions.Fraction(1, 2), fractions.Fraction(3, 2)),
                           (decimal.Decimal("0.5"), decimal.Decimal("1.5"))):
            self.assertEqual(m.cut(data, begin, end).tobytes(), wanted)
        self.assertEqual(m.calls.cut(data, 5 * 10 ** 8, 15 * 10 ** 8).length, len(wanted))


class Places(Python):
    """The library is found in the folder of the package, as in a wheel, then by pkg-config, then in the folder of a
    variable, and then in `~/.local/lib`."""

    def found(self, package, **settings):
        """Returns the path of the library that the package in the folder `package` loads."""
        env = {name: it for name, it in os.environ.items() if not name.startswith(("MP4_BOX_", "PKG_CONFIG"))}
        # Without PKG_CONFIG_LIBDIR pkg-config would name a library that is installed on the machine.
        env.update({"PYTHONPATH": package, "HOME": self.folder, "PYTHONDONTWRITEBYTECODE": "1",
                    "PKG_CONFIG_LIBDIR": self.path("none"), **settings})
        ran = subprocess.run([sys.executable, "-c", "import mp4_box_codec as m; print(m.calls._library._name)"],
                             cwd=self.folder, env=env, capture_output=True, text=True, check=False)
        return ran.stdout.strip() or ran.stderr.splitlines()[-1]

    def copied(self, name):
        """Copies the library into a new folder, and returns the path of the copy."""
        os.makedirs(self.path(name), exist_ok=True)
        return shutil.copy(os.path.join(library(), "libmp4_box_codec.so.0"), self.path(name))

    def other(self, path):
        """Puts a library of version 0.2.7 at `path`."""
        subprocess.run(["cc", "-shared", "-fPIC", "-x", "c", "-", "-o", path], check=True, text=True,
                       input="unsigned mp4_version(void) { return 2007; }\n")

    def test_order(self):
        package = self.path("package")
        shutil.copytree(os.path.join(PACKAGE, "mp4_box_codec"), os.path.join(package, "mp4_box_codec"))
        folder, configured = self.copied("folder"), self.copied("a folder")
        with open(self.path("mp4_box_codec.pc"), "w", encoding="ascii") as file:
            file.write(f"Name: x\nDescription: x\nVersion: 1\nLibs: -L{self.folder}/a\\ folder -lmp4_box_codec\n")
        by_folder = {"MP4_BOX_CODEC_LIB_DIR": self.path("folder")}
        by_config = {"PKG_CONFIG_PATH": self.folder} if shutil.which("pkg-config") else {}
        home = self.copied(".local/lib")
        if not os.path.exists(os.path.join(sys.prefix, "lib", "libmp4_box_codec.so.0")):
            self.assertEqual(self.found(package), home)
        self.assertEqual(self.found(package, **by_folder), folder)
        if by_config:
            self.assertEqual(self.found(package, **by_config, **by_folder), configured)
        own = self.copied("package/mp4_box_codec")
        self.assertEqual(self.found(package, **by_config, **by_folder), own)
        self.assertEqual(self.found(package, MP4_BOX_CODEC_LIB=folder, **by_config), folder)
        if shutil.which("cc"):
            # A library of another version is passed over.
            self.other(own)
            self.assertEqual(self.found(package, **by_folder), folder)
            self.assertIn("ImportError", self.found(package, MP4_BOX_CODEC_LIB=own))


class Types(Python):
    @unittest.skipUnless(shutil.which("mypy"), "mypy is not on this machine")
    def test_types(self):
        """mypy finds no fault in the package and the programs, with all its checks."""
        names = [os.path.join(EXAMPLES, it) for it in sorted(os.listdir(EXAMPLES))]
        with open(self.path("wrong.py"), "w", encoding="utf-8") as file:
            file.write("from mp4_box_codec import *\nMdhd(timescale='1')\nFile('x').tracks[0].width + ''\n")
        for words, faults in ((["-p", "mp4_box_codec"], 0), (["--scripts-are-modules", *names], 0), ([file.name], 2)):
            ran = subprocess.run(["mypy", "--strict", "--cache-dir", self.path("cache"), *words], cwd=PACKAGE,
                                 env={**os.environ, "MYPYPATH": PACKAGE}, stdout=subprocess.PIPE,
                                 stderr=subprocess.STDOUT, text=True, check=False)
            self.assertEqual(ran.stdout.count(": error: "), faults, ran.stdout)

    def test_documented(self):
        """Each public name has a documentation."""
        for name in self.module.__all__:
            it = getattr(self.module, name)
            self.assertTrue(inspect.getdoc(it), name)
            if inspect.isclass(it):
                lacking = [member for member, value in vars(it).items() if not member.startswith("_") and
                           (callable(value) or isinstance(value, property)) and not inspect.getdoc(value)]
                self.assertEqual(lacking, [], name)


if __name__ == "__main__":
    unittest.main()
