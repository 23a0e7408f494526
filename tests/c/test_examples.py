"""Compiles the programs of examples/c, examples/cpp and examples/rust, and runs them over stored files, over files that
are made here, and over files of ffmpeg. The programs in C and Rust have the same names and arguments, and have to write
the same bytes.

The library is that of TEST_LIBRARY. Without this setting one is built without proof."""

import atexit
import functools
import os
import re
import shutil
import subprocess
import tempfile
import unittest

from tests.built import TOP, library, source
from tests.c.test_c import CC, SANITIZERS, STRICT, has
from tests.files.made import be, box, ftyp, full, movie, track, visual
from tests.files.stored import stored

NAMES = ["tracks", "elementary", "playlist", "edit", "mux"]
# The most lines of a program in C or Rust, and of a page.
MOST, MOST_OF_MUX_IN_C, MOST_OF_A_PAGE = 60, 120, 200
START = b"\0\0\0\1"
# A stream: parameter sets, a message, a key frame of two slices, and another picture.
SPS, PPS, MESSAGE = bytes.fromhex("6764000dacd94141"), bytes.fromhex("68eb8f20"), bytes.fromhex("0605010280")
KEY, MORE, NEXT = bytes.fromhex("658884210077"), bytes.fromhex("650811"), bytes.fromhex("419a24")


def in_fragments():
    """Returns a file of one track, whose samples of half a second are in three fragments: 2, 3 and 1."""
    tables = b"".join(full(name, 0, 0, bytes(4 * words)) for name, words in
                      ((b"stts", 1), (b"stsc", 1), (b"stsz", 2), (b"stco", 1)))
    entry = visual(b"avc1", 320, 240, b"", box(b"avcC", bytes.fromhex("0164000dffe000")))
    defaults = box(b"mvex", full(b"trex", 0, 0, be(4, 1, 1, 24000, 4, 0)))
    file = ftyp(b"iso5", b"dash") + movie(track(1, b"vide", b"", b"eng", [entry], tables), defaults)
    for number, count in enumerate((2, 3, 1)):
        run = full(b"tfhd", 0, 0x20000, be(4, 1)) + full(b"trun", 0, 1, be(4, count, 76))
        file += box(b"moof", full(b"mfhd", 0, 0, be(4, number + 1)) + box(b"traf", run))
        file += box(b"mdat", bytes(4 * count))
    return file


def compiled(folder, compiler, path, *flags):
    """Compiles a program in C or C++ with the library into `folder`, and returns its path."""
    program = os.path.join(folder, os.path.basename(path) + ".out")
    words = [compiler, *flags, "-O1", "-g", "-I", library(), os.path.join(TOP, path),
             os.path.join(library(), "libmp4_box_codec.a"), "-lm", "-o", program]
    subprocess.run(words, check=True)
    return program


def made_in_c(folder):
    """Compiles the programs in C, with sanitizers if the compiler has them."""
    empty = os.path.join(folder, "empty")
    with open(f"{empty}.c", "w", encoding="ascii") as text:
        text.write("int main(void) { return 0; }\n")
    flags = SANITIZERS if has(CC, *SANITIZERS, f"{empty}.c", "-o", empty) and has(empty) else []
    return {name: compiled(folder, CC, f"examples/c/{name}.c", *STRICT, *flags) for name in NAMES}


def made_in_rust(folder):
    """Compiles the programs in Rust. A warning is an error."""
    for name in ("bindings/rust", "examples/rust"):
        leave = shutil.ignore_patterns("target")
        shutil.copytree(os.path.join(TOP, name), os.path.join(folder, name), ignore=leave)
    target = os.path.join(folder, "target")
    env = {**os.environ, "MP4_BOX_CODEC_LIB_DIR": library(), "CARGO_TARGET_DIR": target, "RUSTFLAGS": "-D warnings"}
    words = ["cargo", "build", "--offline", "--quiet"]
    subprocess.run(words, cwd=os.path.join(folder, "examples", "rust"), env=env, check=True)
    return {name: os.path.join(target, "debug", name) for name in NAMES}


@functools.cache
def languages():
    """Returns a folder, and the programs of each language by their names."""
    folder = tempfile.mkdtemp(prefix="examples-")
    atexit.register(shutil.rmtree, folder, ignore_errors=True)
    found = {"c": made_in_c(folder)}
    if has("cargo", "--version"):
        found["rust"] = made_in_rust(folder)
    else:
        print("examples: cargo is not on this machine: the programs in Rust were not tried")
    return folder, found


def run(*words):
    # A program that fails doesn't free its memory.
    env = {**os.environ, "ASAN_OPTIONS": "detect_leaks=0"}
    return subprocess.run(words, capture_output=True, env=env, check=False)


class Programs(unittest.TestCase):
    """Runs the programs of each language."""

    def setUp(self):
        self.folder, self.languages = languages()

    def path(self, name, data=None):
        """Returns the path of a file in the folder of this test, and writes `data` to it."""
        folder = os.path.join(self.folder, self.id())
        os.makedirs(folder, exist_ok=True)
        path = os.path.join(folder, name)
        if data is not None:
            with open(path, "wb") as file:
                file.write(data)
        return path

    def runs(self, name, *words):
        """Runs a program in each language, which has to succeed. Returns the output, which has to be the same."""
        said = {}
        for language, programs in self.languages.items():
            ran = run(programs[name], *words)
            self.assertEqual((ran.returncode, ran.stderr), (0, b""), f"{language}: {name} {words}")
            said[language] = ran.stdout.decode()
        self.assertEqual(len(set(said.values())), 1, said)
        return said["c"]

    def writes(self, name, *words):
        """Runs a program that writes the file of its last word, in each language. Returns the bytes, which have to be
        the same."""
        made = {}
        for language, programs in self.languages.items():
            out = self.path(f"{name}-{language}")
            ran = run(programs[name], *words, out)
            self.assertEqual((ran.returncode, ran.stderr), (0, b""), f"{language}: {name} {words}")
            with open(out, "rb") as file:
                made[language] = file.read()
        self.assertEqual(len(set(made.values())), 1, {language: data.hex() for language, data in made.items()})
        return made["c"]

    def refuses(self, text, name, *words, error=None):
        """Runs a program in each language, which has to fail with `text` in its message. In Rust it may have the error
        `error` of the crate in its place."""
        for language, programs in self.languages.items():
            ran = run(programs[name], *words)
            self.assertNotEqual(ran.returncode, 0, f"{language}: {name} {words}")
            self.assertIn(error or text if language == "rust" else text, ran.stderr.decode(), f"{name} {words}")


class Examples(Programs):
    def test_lines(self):
        for name in NAMES:
            for path in (f"examples/c/{name}.c", f"examples/rust/{name}.rs"):
                most = MOST_OF_MUX_IN_C if path == "examples/c/mux.c" else MOST
                self.assertLessEqual(source(path).count("\n"), most, path)
        for path in ("docs/C.md", "docs/RUST.md", "docs/PYTHON.md"):
            self.assertLessEqual(source(path).count("\n"), MOST_OF_A_PAGE, path)

    def test_tracks(self):
        plain = self.path("plain.mp4", stored("plain"))
        self.assertEqual(self.runs("tracks", plain),
                         "track 1: video, avc1.64000d, und, 320 x 240, 5.000 s, 10 samples\n")
        made = self.path("made.mp4", in_fragments())
        self.assertEqual(self.runs("tracks", made),
                         "track 1: video, avc1.64000d, eng, 320 x 240, 3.000 s, 6 samples\n")

    def test_tracks_of_a_damaged_file(self):
        damaged = stored("plain").replace(b"mdhd", b"mdhx")
        self.assertEqual(self.runs("tracks", self.path("damaged.mp4", damaged)),
                         "track 1: video, avc1.64000d, , 320 x 240, 0.000 s, 10 samples\n")

    def test_edit(self):
        path = os.path.join(TOP, "tests", "files", "movies", "video.mp4")
        with open(path, "rb") as opened:
            file = opened.read()
        edited = self.writes("edit", path, "1", "fra")
        at = file.find(b"mdhd") + 4 + 20
        self.assertEqual(edited, file[:at] + be(2, 6 << 10 | 18 << 5 | 1) + file[at + 2:])
        self.assertIn(", fra, ", self.runs("tracks", self.path("edited.mp4", edited)))
        self.refuses("no track has the track_ID 2", "edit", path, "2", "fra", self.path("none"))
        self.refuses("change 0: this is not three lower-case letters", "edit", path, "1", "FR", self.path("none"))
        plain = self.path("plain.mp4", stored("plain"))
        self.refuses("sample 1 would not be the same", "edit", plain, "1", "fra", self.path("none"))

    def test_stream_that_is_muxed(self):
        stream = (b"\0\0\0\1" + SPS + b"\0\0\1" + PPS + b"\0\0\0\1" + MESSAGE + b"\0\0\1" + KEY + b"\0\0\1" + MORE
                  + b"\0\0\0\0\1" + NEXT + b"\0\0")
        muxed = self.writes("mux", self.path("stream", stream), "320", "240", "25")
        media = b"".join(be(4, len(unit)) + unit for unit in (KEY, MORE, NEXT))
        self.assertIn(box(b"mdat", media), muxed)
        self.assertIn(full(b"stss", 0, 0, be(4, 1, 1)), muxed)
        self.assertIn(full(b"stsz", 0, 0, be(4, 0, 2, len(KEY) + len(MORE) + 8, len(NEXT) + 4)), muxed)
        self.assertIn(full(b"stco", 0, 0, be(4, 1, muxed.find(media))), muxed)
        path = self.path("muxed.mp4", muxed)
        self.assertEqual(self.runs("tracks", path),
                         "track 1: video, avc1.64000d, und, 320 x 240, 0.080 s, 2 samples\n")
        units = self.writes("elementary", path, "1")
        self.assertEqual(units, b"".join(START + unit for unit in (SPS, PPS, KEY, MORE, NEXT)))
        words = [self.path("short", START + KEY), "320", "240", "25", self.path("none")]
        self.refuses("a parameter set is missing", "mux", *words, error="EndOfInput")

    def test_stream_of_a_file_that_is_cut(self):
        plain = self.path("plain.mp4", stored("plain"))
        self.refuses("a sample is not in the file", "elementary", plain, "1", self.path("none"))
        self.refuses("track_ID", "elementary", plain, "2", self.path("none"))

    def test_playlist(self):
        file = in_fragments()
        begins = [it.start() - 4 for it in re.finditer(b"moof", file)]
        lines = ["#EXTM3U", "#EXT-X-VERSION:7", "#EXT-X-TARGETDURATION:2", "#EXT-X-PLAYLIST-TYPE:VOD",
                 f'#EXT-X-MAP:URI="made.mp4",BYTERANGE="{begins[0]}@0"']
        for begin, end, seconds in zip(begins, [*begins[1:], len(file)], ("1.0", "1.5", "0.5")):
            lines += [f"#EXTINF:{seconds}00000,", f"#EXT-X-BYTERANGE:{end - begin}@{begin}", "made.mp4"]
        said = self.runs("playlist", self.path("made.mp4", file), "1")
        self.assertEqual(said.split("\n"), [*lines, "#EXT-X-ENDLIST", ""])

    def test_words_that_are_missing(self):
        for name in NAMES:
            self.refuses("usage: ", name)

    @unittest.skipUnless(has("c++", "--version"), "c++ is not on this machine")
    def test_spans_in_cpp(self):
        flags = ["-std=c++17", "-pedantic", "-Wall", "-Wextra", "-Werror"]
        program = compiled(self.folder, "c++", "examples/cpp/boxes.cpp", *flags)
        said = run(program, self.path("file", stored("plain"))).stdout.decode().split("\n")
        self.assertEqual(said[:2], ["ftyp 0 24", "moov 24 847"])
        self.assertEqual(said[-3:], ["moov/trak[0]: 9 samples of 512", "moov/trak[0]: 1 samples of 1024", ""])
        ran = run(program, self.path("file", stored("plain")[:-30]))
        self.assertEqual((ran.returncode, ran.stderr), (1, b"unexpected end of input\n"))


@unittest.skipUnless(has("ffmpeg", "-hide_banner", "-h", "encoder=libx264"), "ffmpeg is not on this machine")
class RealFiles(Programs):
    """Files of a second that ffmpeg makes. It has to decode the same pictures from what the programs write."""

    def pictures(self, path, *options):
        """Returns the bytes of all pictures of a file."""
        words = ["ffmpeg", "-v", "error", *options, "-i", path, "-vsync", "passthrough", "-f", "rawvideo", "-"]
        return subprocess.run(words, capture_output=True, check=True).stdout

    def made(self, name, *options):
        path = self.path(name)
        words = ["ffmpeg", "-v", "error", "-f", "lavfi", "-i", "testsrc=size=64x48:rate=25:duration=1", "-c:v"]
        words += ["libx264", "-preset", "ultrafast", "-pix_fmt", "yuv420p", "-g", "10", *options, "-y", path]
        subprocess.run(words, check=True)
        return path, self.pictures(path)

    def test_stream_and_mux(self):
        path, pictures = self.made("movie.mp4")
        self.assertEqual(len(pictures), 25 * 64 * 48 * 3 // 2)
        stream = self.path("stream.h264", self.writes("elementary", path, "1"))
        self.assertEqual(self.pictures(stream), pictures)
        muxed = self.path("muxed.mp4", self.writes("mux", stream, "64", "48", "25"))
        self.assertEqual(self.pictures(muxed), pictures)
        entries = "stream=codec_name,width,height,nb_frames"
        said = run("ffprobe", "-v", "error", "-show_entries", entries, "-of", "csv=p=0", muxed)
        self.assertEqual((said.stdout, said.stderr), (b"h264,64,48,25\n", b""))

    def test_playlist_that_plays(self):
        path, pictures = self.made("parts.mp4", "-movflags", "frag_keyframe+empty_moov+default_base_moof")
        playlist = self.path("parts.m3u8", self.runs("playlist", path, "1").encode())
        self.assertEqual(self.pictures(playlist, "-allowed_extensions", "ALL"), pictures)
        stream = self.path("stream.h264", self.writes("elementary", path, "1"))
        self.assertEqual(self.pictures(stream), pictures)


if __name__ == "__main__":
    unittest.main()
