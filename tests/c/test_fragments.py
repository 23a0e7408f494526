"""Compares `mp4_fragment_samples`, called from Python, with the second computation of the samples of tracks
(readers/samples.py), over the files of files/made.py up to each moof, and over those with one bit changed. The library
refuses a file with a traf that can't be read, and the second computation continues after it. So a changed file may be
refused."""

import unittest

from tests.built import codec
from tests.files.made import made
from tests.readers.samples import Bad, File, boxes, table_time


def expected(data, track):
    """Returns the samples of the fragments of a track of the first movie, or None if there is a fault, in the tables of
    the track too, or no track."""
    file, samples = File(data), []
    movies = [box for box in boxes(data, 0, len(data), True) if box[0] == b"moov"]
    tracks = [trak for trak in file.tracks if file.track(trak)[0] == track]
    if len(movies) != 1 or not tracks:
        return None
    try:
        time = table_time(file.tables(tracks[0]))
    except Bad:
        return None
    for _, traf, header, base in file.fragments.get(track, []):
        if base is None:
            return None
        try:
            more, _, time, fault = file.samples(track, traf, header, base, time)
        except Bad:
            return None
        if fault:
            return None
        samples += more
    return samples


class Fragments(unittest.TestCase):
    @classmethod
    def setUpClass(cls):
        cls.codec = codec()

    def compare(self, what, data, track, is_whole):
        """Compares the samples of a track. Returns whether there were some."""
        wanted = expected(data, track)
        if wanted is None:
            return False
        try:
            rows = self.codec.fragment_samples(data, track)
        except self.codec.Mp4Error as why:
            self.assertFalse(is_whole, f"{what}: {why}")
            return False
        found = [(it.offset, it.size, it.decode_time, it.duration, it.rendering_offset, it.sync == 1, it.description)
                 for it in rows]
        self.assertEqual(found, wanted, what)
        return len(wanted) > 0

    def test_files_up_to_each_moof(self):
        count = 0
        for name, data in made().items():
            moofs = [box[1] for box in boxes(data, 0, len(data), True) if box[0] == b"moof"]
            for end in [*moofs, len(data)]:
                for track in range(1, 4):
                    count += self.compare(f"{name} up to {end}, track {track}", data[:end], track, True)
        self.assertGreaterEqual(count, 2, "tracks with samples")

    def test_files_with_one_bit_changed(self):
        count = 0
        for name, data in made().items():
            begin = data.find(b"moof")
            for at in range(max(begin - 4, 0), len(data)) if begin >= 0 else []:
                for bit in (0, 5):
                    other = bytearray(data)
                    other[at] ^= 1 << bit
                    for track in range(1, 4):
                        count += self.compare(f"{name}, bit {bit} at {at}, track {track}", bytes(other), track, False)
        self.assertGreater(count, 100, "tracks with samples")


if __name__ == "__main__":
    unittest.main()
