"""Calls the library for C, from Python: the texts of its statuses, where the boxes inside a box begin, the boxes at
paths, and new files. What is expected is by include/mp4_box_codec.h and tests/containers.txt."""

import os
import re
import unittest

from tests.built import TOP, codec, source
from tests.files.made import be, box, full, movie, nested, tkhd, track, visual
from tests.interfaces.answers import Sample, Samples
from tests.interfaces.movies import cases
from tests.readers.test_containers import lines

# Words of the text of each status, which the texts of the others don't have.
TEXTS = {
    0: "done", 1: "end of input", 2: "invalid data", 3: "box not found", 12: "memory", 100: "too few places",
    101: "track_ID", 102: "not read", 103: "no such new file",
    110: "number of sizes", 111: "stsc begins at another chunk", 112: "stsc begins no later", 113: "2^32 chunks",
    114: "the chunks hold", 115: "stts has a duration", 116: "stss", 117: "too far out",
}


def movie_bytes(name):
    """Returns the bytes of a stored movie."""
    with open(os.path.join(TOP, "tests", "files", "movies", f"{name}.mp4"), "rb") as file:
        return file.read()


def number_of(code):
    return int.from_bytes(code, "big")


def value_of(track, name):
    """Returns what a track of Python answers, or None for an error."""
    try:
        return getattr(track, name)
    except codec().Mp4Error:
        return None


class Library(unittest.TestCase):
    def test_texts_of_statuses(self):
        for status in TEXTS:
            text = codec().status_text(status)
            self.assertEqual([it for it, words in TEXTS.items() if words in text], [status], text)

    def test_tracks_of_files(self):
        """`File` lists the tracks and samples of the files of movies.py."""
        compared = 0
        for name, data, answer, _ in cases():
            tracks = codec().File(data).tracks
            self.assertEqual([it.box.position for it in tracks], [it.position for it in answer.tracks], name)
            for track, wanted in zip(tracks, answer.tracks):
                known = [it if isinstance(it, int) else None for it in (wanted.track_id, wanted.timescale)]
                kind = wanted.handler.decode("latin-1") if isinstance(wanted.handler, bytes) else None
                found = [value_of(track, it) for it in ("id", "timescale", "handler")]
                self.assertEqual(found, [*known, kind], name)
                is_first = answer.first(wanted.track_id) is wanted
                fragments = wanted.fragments if is_first else Samples([])
                listed = value_of(track, "samples")
                if wanted.tables.problem or known[0] is None or fragments is None or fragments.problem:
                    self.assertIsNone(listed, name)
                elif listed is not None or not any(it.problem for it in answer.trafs):
                    compared += 1
                    self.assertEqual([
                        Sample(it.offset, it.size, it.decode_time, it.duration, it.rendering_offset, it.sync,
                               it.description) for it in listed], [*wanted.tables.listed, *fragments.listed], name)
        self.assertGreater(compared, 30)

    def test_codes_of_faults(self):
        """The numbers and the words of codes, by include/mp4_box_codec.h."""
        calls, words = codec().calls, {}
        for word, number in re.findall(r"MP4_FAULT_([A-Z0-9_]+) = (\d+)", source("include", "mp4_box_codec.h")):
            words[int(number)] = word.lower().replace("_", "-")
        self.assertEqual({it: calls.fault_name(it) for it in range(1, len(words) + 1)}, words)
        # The file lost its end: the number of its first fault is that of file-cut.
        self.assertEqual(calls.check_file(box(b"free") + be(4, 9) + b"free")[0].code, 2)

    def test_reasons_of_json(self):
        """The numbers of reasons, by include/mp4_box_codec.h: a name that no field has, and one that comes twice."""
        check, pasp = codec().calls.check_json, number_of(b"pasp")
        both = '"hSpacing": 4, "vSpacing": 3'
        self.assertIsNone(check(pasp, f"{{{both}}}"))
        self.assertEqual(check(pasp, f'{{{both}, "zSpacing": 3}}')[:2], ("zSpacing", 15))
        self.assertEqual(check(pasp, f'{{{both}, "hSpacing": 4}}')[:2], ("hSpacing", 16))

    def test_facts_of_a_movie(self):
        """Encrypted video of 8 by 16 pixels, turned by 90 degrees, whose chunk has two samples of 5 and 7 bytes."""
        key = bytes(range(16))
        sinf = box(b"sinf", box(b"frma", b"avc1") + full(b"schm", 0, 0, b"cenc" + be(4, 0x10000))
                   + box(b"schi", full(b"tenc", 0, 0, bytes([0, 0, 1, 8]) + key)))
        tables = (full(b"stts", 0, 0, be(4, 1, 2, 1000)) + full(b"stsc", 0, 0, be(4, 1, 1, 2, 1))
                  + full(b"stsz", 0, 0, be(4, 0, 2, 5, 7)) + full(b"stco", 0, 0, be(4, 1, 0))
                  + full(b"stss", 0, 0, be(4, 1, 1)))
        header = tkhd(4, matrix=(0, 1 << 16, 0, -1 << 16, 0, 0, 0, 0, 1 << 30))
        entry = visual(b"encv", 8, 16, b"", sinf)
        file = movie(track(4, b"vide", b"", b"fra", [entry], tables, header=header)) + box(b"mdat")
        info = codec().calls.info(file)
        [found] = info.tracks
        self.assertEqual((info.order, info.is_fragmented, info.has_items, list(info.brands)), (1, False, False, []))
        self.assertEqual((found.track_id, found.kind, found.codec, found.language), (4, "video", "avc1", "fra"))
        self.assertEqual(found.samples[:4], (2, 1, 12, 2000))
        self.assertEqual(found.picture, (8, 16, 0, 0, 90, True))
        self.assertEqual(found.protection, (number_of(b"avc1"), number_of(b"cenc"), key, True, True))
        self.assertEqual((found.entry, found.handler), (number_of(b"encv"), number_of(b"vide")))
        self.assertEqual((found.has_samples, found.has_picture, found.has_sound), (True, True, False))

    def first_box_in(self, line):
        """Checks that the walk says where the first box inside begins, after the fields before it."""
        data, content = line.file()
        [found] = [it.children for it in codec().tree(data) if it.position + it.header_length == content]
        self.assertEqual(found, 0 if line.before is None else content + line.before)

    def test_box_in_32_others(self):
        """The walk does not enter a box that is in 32 others. The box is whole."""
        deep = nested([b"moov"] * 33, box(b"free"))
        self.assertTrue(codec().find(deep, "/".join(["moov"] * 33)).is_whole)
        self.assertFalse(codec().find(deep[:-1], "/".join(["moov"] * 33)).is_whole)
        self.assertIsNone(codec().find(deep, "/".join(["moov"] * 33 + ["free"])))

    def test_path_of_six_parts(self):
        data = nested([b"moov", b"trak", b"mdia", b"minf", b"stbl"], box(b"free") + box(b"free", b"x"))
        self.assertEqual(codec().find(data, "moov/trak/mdia/minf/stbl/free[1]").position, 48)


def test_of(line):
    return lambda self: self.first_box_in(line)


for one in lines():
    setattr(Library, f"test_first_box_in_{one.name()}", test_of(one))

class NewFiles(unittest.TestCase):
    """New files of stored movies. test_rewriting.py compares them with those of mp4remux."""

    def test_insertion_after_the_last_box(self):
        file, new = movie_bytes("video"), box(b"free", b"new")
        self.assertEqual(codec().edit(file, [codec().Change.insert("/", new)]).tobytes(), file + new)

    def test_positions_of_a_moved_movie(self):
        file = movie_bytes("video")
        found = codec().calls.faststart(file)
        self.assertEqual((found.moved_from, found.moved_to), (file.find(b"moov") - 4, file.find(b"mdat") - 4))

    def test_kinds_of_changes(self):
        file = codec().defragment(movie_bytes("fragments")).tobytes()
        [first, second] = codec().File(file).tracks
        left = codec().edit(file, [codec().Change.drop_track(second.id)]).tobytes()
        self.assertEqual([it.id for it in codec().File(left).tracks], [first.id])

    def test_least_duration_of_fragments(self):
        file = movie_bytes("video")
        self.assertEqual([codec().fragment(file, seconds=it).fragments for it in (None, 1.5)], [2, 1])

    def test_counts_of_joined_fragments(self):
        file = movie_bytes("fragments")
        found = codec().defragment(file)
        self.assertEqual((found.fragments, found.samples), (file.count(b"moof"), 29))


if __name__ == "__main__":
    unittest.main()
