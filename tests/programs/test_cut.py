"""Runs the built program `mp4remux cut` as a user does. It reads the written files with readers/samples.py, which
shares nothing with the codec.

- Each track of the new file has the run of samples that docs/REMUX.md promises, by a second implementation of the rule
  here, with fractions, and in some cases worked by hand: with tables and with fragments, with edit lists, with
  rendering offsets, and with random tracks and times.
- The new edit lists present the time from `--from` to `--to`, worked by hand, and the durations of the headers agree.
- Sample groups and dependencies are cut with their samples.
- Files that ffmpeg makes are cut, where it is installed. ffprobe shows the times of the new file, and the packets that
  ffmpeg copies are a run of those of the old file.
- Each refusal is expected with its text. Then nothing is written.

Settings: COUNT (100 files of random tracks), SEED."""

import fractions
import os
import random
import shutil
import subprocess
import tempfile
import unittest

from tests.built import built, number
from tests.files.made import be, box, ftyp, full, movie
from tests.programs.test_fragment import (Runs, Track, extras_of, fail, groups_of, made, random_track, samples_of,
                                          sound, top, video)
from tests.readers.samples import File, boxes, first, inner
from tests.real_files import making

# The timescale of the movies that these tests make.
MOVIE_SCALE = 600


def ticks(milliseconds):
    """Returns a time in the timescale of the movie."""
    whole, rest = divmod(milliseconds * MOVIE_SCALE, 1000)
    if rest:
        fail(f"{milliseconds} milliseconds are no whole number of ticks")
    return whole


def edts(*edits):
    """Returns an edts with these edits: the duration in milliseconds, and the time of the media."""
    rows = b"".join(be(4, ticks(duration), time) + be(2, 1, 0) for duration, time in edits)
    return box(b"edts", full(b"elst", 0, 0, be(4, len(edits)) + rows))


def edits_of(data):
    """Returns the timescale of the movie, and the edits of each track: the duration and the time of the media."""
    file = File(data)
    lists = [file.edits(trak, file.headers(trak)[2]) for trak in file.tracks]
    return lists[0][0], [[edit[:2] for edit in edits] for _, edits in lists]


def origins_of(data):
    """Returns the time of the media of each track that is presented at 0. A delay is rounded down."""
    file, found = File(data), []
    for trak in file.tracks:
        scale = file.headers(trak)[2]
        movie_scale, edits = file.edits(trak, scale)
        delay = sum(edit[0] for edit in edits[:-1])
        found.append(edits[-1][1] - delay * scale // movie_scale)
    return found


def runs_of(data, begin, end):
    """Returns the numbers of the first sample and of that after the last one of each track, by the rule: times are
    fractions of a second."""
    tracks, origins = samples_of(data), origins_of(data)

    def shown(index):
        (_, _, scale), samples = tracks[index]
        return [max(fractions.Fraction(it[2] + it[4] - origins[index], scale), 0) for it in samples]

    def last(index, passes, none):
        samples = tracks[index][1]
        found = [place for place, time in enumerate(shown(index)) if passes(time, samples[place])]
        return found[-1] if found else none

    lead = next(index for index, (headers, _) in enumerate(tracks) if headers[1] in (b"vide", "vide"))
    start = last(lead, lambda time, sample: sample[5] and time <= begin, None)
    moment = shown(lead)[start]
    return [(last(index, lambda time, sample: sample[5] and time <= moment, 0),
             last(index, lambda time, sample: time < end, -1) + 1) for index in range(len(tracks))]


def check_runs(name, before, after, runs):
    """Checks that the tracks of the file `after` have these runs of the samples of `before`."""
    for (old, were), (new, are), (begin, end) in zip(samples_of(before), samples_of(after), runs):
        if old != new or len(are) != end - begin:
            fail(f"{name}: {new} with {len(are)} samples, and not {old} with {end - begin}")
        shift = were[begin][2]
        wanted = [(*it[:2], it[2] - shift, *it[3:]) for it in were[begin:end]]
        if are != wanted:
            place = next(index for index, pair in enumerate(zip(are, wanted)) if pair[0] != pair[1])
            fail(f"{name}: sample {place} is {are[place][1:]}, and not {wanted[place][1:]}")


def durations_of(data):
    """Returns the durations of the mvhd, and of the tkhd and mdhd of each track."""
    def at(content, place):
        return int.from_bytes(content[place + 8:place + 16] if content[0] else content[place:place + 4], "big")

    parts = inner(data, top(data, b"moov"))
    found = []
    for trak in (it for it in parts if it[0] == b"trak"):
        boxes_ = inner(data, trak)
        media = inner(data, first(boxes_, b"mdia"))
        found.append((at(first(boxes_, b"tkhd")[2], 20), at(first(media, b"mdhd")[2], 16)))
    return at(first(parts, b"mvhd")[2], 16), found


class Cuts:
    """Runs of the command in a folder."""

    def __init__(self, runs):
        self.runs = runs

    def cut(self, name, data, begin, end, wanted=None):
        """Cuts the file `data` from `begin` to `end`, in seconds, and checks the runs of its samples. `wanted` are
        their numbers, worked by hand. Returns the new file."""
        self.runs.write("in.mp4", data)
        done = self.runs.run("cut", "--from", begin, "--to", end, "in.mp4", "out.mp4")
        if done.returncode or done.stderr:
            fail(f"{name}: {done.returncode}, {done.stderr}")
        after = self.runs.read("out.mp4")
        rule = runs_of(data, fractions.Fraction(begin), fractions.Fraction(end))
        if wanted is not None and rule != wanted:
            fail(f"{name}: the runs are {rule}, and not {wanted}")
        check_runs(name, data, after, rule)
        if done.stdout != f"out.mp4: {sum(last - first_ for first_, last in rule)} samples\n":
            fail(f"{name}: {done.stdout}")
        codes = [it[0] for it in boxes(after, 0, len(after), True)]
        if codes.count(b"mdat") != 1 or b"moof" in codes or codes[-1] != b"mdat":
            fail(f"{name}: {codes}")
        if self.runs.read("in.mp4") != data:
            fail(f"{name}: the file that is read is changed")
        return after

    def edits(self, name, data, begin, end, runs, edits, durations):
        """Cuts the file `data`, and checks its runs, edits and durations against typed values.
        Durations of the movie are in milliseconds."""
        after = self.cut(name, data, begin, end, runs)
        wanted = ([[(ticks(duration), time) for duration, time in those] for those in edits],
                  (ticks(durations[0]), [(ticks(shown), media) for shown, media in durations[1]]))
        found = edits_of(after)[1], durations_of(after)
        if found != wanted:
            fail(f"{name}: {found}, and not {wanted}")
        return after

    def both(self, name, data, begin, end, runs=None):
        """Cuts the file `data`, and the same file with fragments, and compares both parts."""
        one = self.cut(name, data, begin, end, runs)
        self.runs.write("in.mp4", data)
        done = self.runs.run("fragment", "in.mp4", "frag.mp4")
        if done.returncode:
            fail(f"{name}: {done.stderr}")
        two = self.cut(f"{name}, with fragments", self.runs.read("frag.mp4"), begin, end, runs)
        if samples_of(one) != samples_of(two) or edits_of(one) != edits_of(two):
            fail(f"{name}: the parts are not the same")
        return one


def by_hand(cuts, random_):
    """Cuts files, and compares the parts with typed samples and edits."""
    one, two = Track(1, video([4, 4, 4])), Track(2, sound(40), b"soun")
    data = made(random_, [one, two])
    # The frames begin at 0, 100, .., and every fourth is a sync sample. The sounds begin at 0, 40, ..
    cuts.edits("a part", data, "0.5", "0.9", [(4, 9), (10, 23)], [[(400, 100)], [(400, 100)]],
               (400, [(400, 500), (400, 520)]))
    cuts.edits("from a sync sample", data, "0.4", "0.8", [(4, 8), (10, 20)], [[(400, 0)], [(400, 0)]],
               (400, [(400, 400), (400, 400)]))
    cuts.edits("just before a sync sample", data, "0.399999999", "0.8", [(0, 8), (0, 20)],
               [[(400, 399)], [(400, 399)]], (400, [(400, 800), (400, 800)]))
    cuts.edits("just after a frame", data, "0", "0.400000001", [(0, 5), (0, 11)], [[(400, 0)], [(400, 0)]],
               (400, [(400, 500), (400, 440)]))
    cuts.edits("all", data, "0", "2", [(0, 12), (0, 40)], [[(1200, 0)], [(1600, 0)]],
               (1600, [(1200, 1200), (1600, 1600)]))
    # Frames are presented in another order than they are decoded: at 100, 400, 200, 300, 500, 800, 600, 700.
    shifts = (100, 300, 0, 0)
    late = made(random_, [Track(1, video([4, 4], shifts=shifts))])
    cuts.edits("rendering offsets", late, "0.6", "0.75", [(4, 8)], [[(150, 200)]], (150, [(150, 400)]))
    cuts.edits("the end in decode order", late, "0.1", "0.3", [(0, 3)], [[(200, 100)]], (200, [(200, 300)]))
    # Edit lists: the media of the video are presented starting at 100, and the sound after a gap of 80.
    moved = Track(1, video([4, 4], shifts=shifts), edits=edts((0, 100)))
    delayed = Track(2, sound(20), b"soun", edits=edts((80, -1), (0, 0)))
    data = made(random_, [moved, delayed])
    cuts.edits("edit lists", data, "0.45", "0.7", [(4, 8), (8, 16)], [[(250, 150)], [(250, 50)]],
               (250, [(250, 400), (250, 320)]))
    cuts.edits("a gap stays", data, "0", "0.3", [(0, 4), (0, 6)], [[(300, 100)], [(80, -1), (220, 0)]],
               (300, [(300, 400), (300, 240)]))
    short = Track(1, video([4, 4]), edits=edts((500, 100)))
    cuts.edits("the old list ends", made(random_, [short]), "0.3", "5", [(4, 8)], [[(200, 0)]], (200, [(200, 400)]))
    # Another timescale: the sounds begin at 0, 1024 / 48000, ..; 0.4 is in the one that begins at 18 * 1024.
    fine = Track(2, sound(70, duration=1024), b"soun", 48000)
    cuts.edits("another timescale", made(random_, [one, fine]), "0.5", "0.9", [(4, 9), (18, 43)],
               [[(400, 100)], [(400, 24000 - 18 * 1024)]], (400, [(400, 500), (400, 25 * 1024)]))
    # A second video also begins with a sync sample.
    second = Track(2, video([3, 3, 3], duration=90))
    cuts.cut("two videos", made(random_, [one, second]), "0.5", "0.9", [(4, 9), (3, 9)])


def extras(cuts, random_):
    """Cuts groups and dependencies with their samples."""
    numbers = groups_of(b"roll", (3, 1), (4, 2), (2, 1))
    sdtp = full(b"sdtp", 0, 0, bytes([0x20, 0x18, 0x14] * 4))
    data = made(random_, [Track(1, video([4, 4, 4]), extra=numbers + sdtp)])
    groups, dependencies = extras_of(data)[0]
    after = cuts.cut("groups", data, "0.5", "0.9", [(4, 9)])
    kind, those = groups[0]
    if extras_of(after) != [([(kind, those[4:9])], [dependencies[0][4:9]])]:
        fail(f"groups: {extras_of(after)}")


def at_random(cuts, random_, count):
    """Cuts files of random tracks at random times."""
    done = 0
    for index in range(count):
        tracks = [random_track(random_, place + 1) for place in range(random_.randrange(1, 4))]
        if not any(it.kind == b"vide" and it.samples[0][3] for it in tracks):
            continue
        data = made(random_, tracks)
        longest = max(sum(it[1] for it in track.samples) / track.scale for track in tracks)
        begin = random_.choice((0, random_.random() * longest))
        end = begin + random_.random() * longest
        words = f"{begin:.{random_.randrange(10)}f}", f"{end:.9f}"
        cuts.runs.write("in.mp4", data)
        told = cuts.runs.run("cut", "--from", words[0], "--to", words[1], "in.mp4", "out.mp4")
        if told.returncode == 0:
            cuts.both(f"random {index}", data, *words)
            done += 1
        elif told.returncode not in (1, 2) or not told.stderr.startswith("mp4remux: "):
            fail(f"random {index}: {told.stderr}")
    if done < count // 4:
        fail(f"only {done} of {count} random files are cut")


def refused(cuts, random_):
    """Checks files that are refused, each by its text."""
    def refuses(data, text, begin="0", end="1"):
        cuts.runs.refuses("cut", data, text, options=("--from", begin, "--to", end))

    def place(data, index=0):
        return [it[1] for it in inner(data, top(data, b"moov")) if it[0] == b"trak"][index]

    one, two = Track(1, video([4, 4])), Track(2, sound(10), b"soun")
    data = made(random_, [one, two])
    at, other = place(data), place(data, 1)
    refuses(b"", "there is no moov")
    refuses(ftyp(b"isom") + movie(), "there is no video")
    refuses(made(random_, [two]), "there is no video")
    refuses(data, f"trak 1 at {at}: it ends before the part begins", "0.8", "1")
    refuses(data, f"trak 1 at {at}: it ends before the part begins", "1000000", "2000000")
    refuses(data, f"trak 2 at {other}: none of its samples is in the part", "0.5", "0.7")
    empty = made(random_, [one, Track(2, [], b"soun")])
    refuses(empty, f"trak 2 at {place(empty, 1)}: none of its samples is in the part")
    late = made(random_, [Track(1, video([4], shifts=(200,)))])
    refuses(late, f"trak 1 at {place(late)}: no sync sample is presented when the part begins, or earlier", "0.1")
    none = made(random_, [Track(1, [[(5, 100, 0, False)] * 4])])
    refuses(none, f"trak 1 at {place(none)}: no sync sample is presented when the part begins, or earlier")
    for edits in (edts((100, 0), (100, 300)), edts((100, -1))):
        listed = made(random_, [Track(1, video([4]), edits=edits)])
        refuses(listed, f"trak 1 at {place(listed)}: its edit list doesn't present one range of the media")
    for extra in (full(b"subs", 0, 0, be(4, 0)), full(b"saiz", 0, 0, bytes(5))):
        kept = made(random_, [Track(1, video([3]), extra=extra)])
        refuses(kept, f"{extra[4:8].decode()} at {kept.index(extra)}: what it says of samples can't be kept")


def misused(cuts, random_):
    """Refuses command lines, and writes to a pipe."""
    runs = cuts.runs
    runs.write("in.mp4", made(random_, [Track(1, video([3, 3]))]))
    for words in (["cut"], ["cut", "in.mp4", "out.mp4"], ["cut", "--from", "1", "in.mp4", "out.mp4"],
                  ["cut", "--from", "0", "--to", "1", "in.mp4"]):
        done = runs.run(*words)
        if done.returncode != 2 or done.stdout or "\nUsage: " not in done.stderr:
            fail(f"{words}: {done.returncode}, {done.stdout}, {done.stderr}")
    text = "expected a number of seconds, with at most nine digits after the point, such as 2.5"
    for word in ("x", "1.2.3", "1e3", "", "1.0000000001", "+1", "99999999999", "1,5", "0:10"):
        runs.says(2, "", f"mp4remux: --from {word}: {text}\n", "cut", f"--from={word}", "--to=1", "in.mp4", "out.mp4")
        runs.says(2, "", f"mp4remux: --to {word}: {text}\n", "cut", "--from=0", f"--to={word}", "in.mp4", "out.mp4")
    for begin, end in (("1", "1"), ("2", "1.5"), ("0", "0")):
        runs.says(2, "", f"mp4remux: --to {end}: expected a time after --from\n", "cut", "--from", begin, "--to", end,
                  "in.mp4", "out.mp4")
    same = "mp4remux: -: IN must be a file, since it is read twice; ./- is a file of this name\n"
    runs.says(2, "", same, "cut", "--from", "0", "--to", "1", "-", "out.mp4")
    if os.listdir(runs.folder) != ["in.mp4"]:
        fail(f"a file is written: {os.listdir(runs.folder)}")
    words = ["cut", "--from", "0.3", "--to", "0.5", "in.mp4"]
    runs.says(0, "out.mp4: 2 samples\n", "", *words, "out.mp4")
    done = subprocess.run([runs.program, *words, "-"], cwd=runs.folder, capture_output=True, timeout=120, check=False)
    if (done.returncode, done.stdout, done.stderr) != (0, runs.read("out.mp4"), b""):
        fail(f"{words}: {done.returncode}, {done.stderr}")


def packets(path, stream):
    """Returns the hash of each packet of a stream by ffmpeg."""
    done = subprocess.run(["ffmpeg", "-v", "error", "-i", path, "-map", f"0:{stream}", "-c", "copy", "-f", "framehash",
                           "-hash", "md5", "-"], capture_output=True, text=True, timeout=60, check=True)
    return [line.split(",")[5].strip() for line in done.stdout.splitlines() if not line.startswith("#")]


def probed(path, entries):
    done = subprocess.run(["ffprobe", "-v", "error", "-show_entries", entries, "-of", "csv=p=0", path],
                          capture_output=True, text=True, timeout=60, check=True)
    return done.stdout.split()


class Cut(unittest.TestCase):
    def setUp(self):
        folder = tempfile.mkdtemp(prefix="cut-")
        self.addCleanup(shutil.rmtree, folder)
        self.random = random.Random(number("SEED", 1))
        self.cuts = Cuts(Runs(built("mp4_remux_program"), folder))

    def test_by_hand(self):
        by_hand(self.cuts, self.random)

    def test_groups_and_dependencies(self):
        extras(self.cuts, self.random)

    def test_random_tracks(self):
        at_random(self.cuts, self.random, number("COUNT", 100))

    def test_refusals(self):
        refused(self.cuts, self.random)

    def test_misuse(self):
        misused(self.cuts, self.random)


class RealFiles(unittest.TestCase):
    """Files that ffmpeg makes."""

    @classmethod
    def setUpClass(cls):
        if shutil.which("ffmpeg") is None or shutil.which("ffprobe") is None:
            raise unittest.SkipTest("there is no ffmpeg")
        cls.folder = tempfile.mkdtemp(prefix="real-cuts-")
        cls.addClassCleanup(shutil.rmtree, cls.folder)
        cls.cuts = Cuts(Runs(built("mp4_remux_program"), cls.folder))
        sources = ["-f", "lavfi", "-i", "testsrc2=size=64x64:rate=25:duration=4", "-f", "lavfi", "-i",
                   "sine=duration=4:sample_rate=44100"]
        for name, options in (("plain.mp4", []), ("b_frames.mp4", ["-bf", "2"]),
                              ("fragmented.mp4", ["-bf", "2", "-movflags", "frag_keyframe+empty_moov"])):
            subprocess.run(["ffmpeg", "-v", "error", *sources, "-c:v", "mpeg4", "-g", "10", "-c:a", "aac",
                            *making.SAME.split(), *options, os.path.join(cls.folder, name)], timeout=60, check=True)

    def test_parts(self):
        """ffprobe shows that a part begins at 0 and lasts as long as was asked, and its packets are a run of the old
        ones."""
        for name in ("plain.mp4", "b_frames.mp4", "fragmented.mp4"):
            with self.subTest(name):
                data = self.cuts.runs.read(name)
                self.cuts.cut(name, data, "1.1", "2.7")
                path = self.cuts.runs.path("out.mp4")
                self.assertEqual(float(probed(path, "format=duration")[0]), 1.6)
                for stream in (0, 1):
                    old, new = packets(self.cuts.runs.path(name), stream), packets(path, stream)
                    begin = old.index(new[0])
                    self.assertEqual(new, old[begin:begin + len(new)])

    def test_first_frame(self):
        """The first frame that ffmpeg shows of a part is that of the old file at that time."""
        name = "b_frames.mp4"
        data = self.cuts.runs.read(name)
        self.cuts.cut(name, data, "1.12", "2")

        def frames(path, *words):
            done = subprocess.run(["ffmpeg", "-v", "error", "-i", path, *words, "-map", "0:v", "-f", "framehash",
                                   "-hash", "md5", "-"], capture_output=True, text=True, timeout=60, check=True)
            return [line.split(",")[-1].strip() for line in done.stdout.splitlines() if not line.startswith("#")]

        old, new = frames(self.cuts.runs.path(name)), frames(self.cuts.runs.path("out.mp4"))
        # A frame lasts 0.04 seconds.
        self.assertEqual(new[:20], old[28:48])


if __name__ == "__main__":
    unittest.main()
