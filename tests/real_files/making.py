"""Makes real files with ffmpeg, and a few with heif-enc of libheif, from the test sources of ffmpeg.

    python3 -m tests.real_files.making FOLDER [NAME]..    makes the files with these names, or all, and prints them

recipes.txt has a line for each file. Words in capital letters stand for other arguments:

- `VIDEO` and `SOUND` are a source of one second, `LONG_VIDEO` and `LONG_SOUND` one of three seconds, `SURROUND` has six
  channels, and `H263_VIDEO`, `DNX_VIDEO` and others the size that a codec needs.
- `TEXTS`, `CHAPTERS` and `COVER` are files that are made first. `COVER_FILE` and `ALPHA_FILE` are the names of images.
- `TAGS` and `CENC` are options. `FILE(NAME)` is another file of the list.

A recipe for segments makes a folder with the name of its list. The folder also has a joined file for each stream: its
initialization segment, and its other segments after it.

A file that can't be made here has a reason: the program is missing, or the first line of its error."""

import concurrent.futures
import os
import re
import shlex
import shutil
import subprocess
import sys

HERE = os.path.dirname(os.path.abspath(__file__))
SECONDS = 60
# The endings of recipes for segments, which are those of their lists.
LISTS = (".mpd", ".m3u8", ".ism")
# Options that keep times, versions and the number of processors out of the files.
SAME = "-fflags +bitexact -flags:v +bitexact -flags:a +bitexact -threads 1"
SURROUND = "|".join(f"0.1*sin({300 + 100 * channel}*2*PI*t)" for channel in range(6))
TEXTS = """1
00:00:00,200 --> 00:00:00,500
First line

2
00:00:00,600 --> 00:00:00,900
<i>Second</i> and <b>last</b> line
"""
CHAPTERS = """;FFMETADATA1
[CHAPTER]
TIMEBASE=1/1000
START=0
END=400
title=First chapter
[CHAPTER]
TIMEBASE=1/1000
START=400
END=1000
title=Zweites Kapitel: Käse
"""
TAGS = {
    "title": "Title", "artist": "Artist", "album": "Album", "album_artist": "Others", "composer": "Composer",
    "genre": "Rock", "date": "2026-11-28", "track": "3/12", "disc": "1/2", "comment": "Comment", "copyright": "2026",
    "description": "Description", "lyrics": "Lyrics", "grouping": "Group", "encoder": "Nobody", "compilation": "1",
    "show": "Show", "episode_id": "E1", "season_number": "4", "episode_sort": "5", "network": "Network",
    "media_type": "9", "hd_video": "1", "gapless_playback": "1", "tempo": "120", "rating": "4", "keywords": "a,b",
    "location": "+12.3456-098.7654/", "make": "Maker", "model": "Model", "year": "2026",
}


def generated(kind, text):
    """Returns the arguments for an input that the filter `text` generates."""
    return ["-f", "lavfi", "-i", f"{kind}={text}"]


def video(size="64x64", duration=1):
    return generated("testsrc", f"size={size}:rate=10:duration={duration},format=yuv420p")


def sound(duration=1):
    return generated("sine", f"frequency=440:sample_rate=44100:duration={duration}")


# The key of encrypted files.
KEY = "76a6c65c5ea762046bd749a2e632ccbb"
WORDS = {
    "VIDEO": video(), "LONG_VIDEO": video(duration=3), "H263_VIDEO": video("128x96"), "DNX_VIDEO": video("256x120"),
    "SVQ_VIDEO": video("160x120"), "CINEFORM_VIDEO": video("128x96"), "SOUND": sound(), "LONG_SOUND": sound(3),
    "SURROUND": generated("aevalsrc", f"{SURROUND}:channel_layout=5.1:sample_rate=48000:duration=1"),
    "TEXTS": ["-i", "texts.srt"], "CHAPTERS": ["-i", "chapters.txt"], "COVER": ["-i", "cover.png"],
    "COVER_FILE": ["cover.png"], "ALPHA_FILE": ["alpha.png"],
    "TAGS": [word for name, text in TAGS.items() for word in ("-metadata", f"{name}={text}")],
    "CENC": shlex.split(f"-encryption_scheme cenc-aes-ctr -encryption_key {KEY}"
                        " -encryption_kid a7e61c373e219033c21091fa607bf3b8"),
}


def recipes():
    """Returns the words of each recipe, by the name of its file."""
    with open(os.path.join(HERE, "recipes.txt"), encoding="utf-8") as file:
        lines = re.sub(r"\n +", " ", re.sub(r"^#.*\n", "", file.read(), flags=re.M))
    found = {}
    for name, *words in filter(None, map(shlex.split, lines.split("\n"))):
        if name in found:
            raise ValueError(f"{name} comes twice")
        found[name] = words
    return found


def spelled(words):
    """Returns the words of a recipe with other arguments for those in capital letters."""
    found = []
    for word in words:
        other = re.fullmatch(r"FILE\((.*)\)", word)
        found += WORDS.get(word, [other[1] if other else word])
    return found


def run(folder, words):
    """Runs a program in `folder`. Returns why it failed, or None."""
    if shutil.which(words[0]) is None:
        return f"there is no {words[0]}"
    try:
        ran = subprocess.run(words, cwd=folder, stdin=subprocess.DEVNULL, stdout=subprocess.DEVNULL,
                             stderr=subprocess.PIPE, timeout=SECONDS, check=False)
    except subprocess.TimeoutExpired:
        return f"{words[0]} takes more than {SECONDS} seconds"
    said = [line for line in ran.stderr.decode("utf-8", "replace").split("\n") if line and "[info]" not in line]
    return f"{words[0]}: {said[0] if said else ran.returncode}" if ran.returncode else None


def made_by(name, words):
    """Returns the command for the file `name` by the words of its recipe."""
    if words[0] == "heif-enc":
        return [words[0], "-o", name, *spelled(words[1:])]
    if name.endswith(LISTS):
        name = os.path.join(name, name)
    return ["ffmpeg", "-nostdin", "-v", "error", "-y", *spelled(words), *SAME.split(), name]


def join(folder):
    """Joins the initialization segment of each stream in `folder` with its other segments."""
    parts = sorted(os.listdir(folder))
    for first in (it for it in parts if it.startswith("init")):
        stream = re.search(r"\d*(?=\.)", first)[0]
        others = [it for it in parts if it.endswith(".m4s") and not it.startswith("init")
                  and (not stream or f"stream{stream}-" in it)]
        with open(os.path.join(folder, f"joined{stream}.mp4"), "wb") as joined:
            for part in [first, *sorted(others, key=lambda it: [int(number) for number in re.findall(r"\d+", it)])]:
                with open(os.path.join(folder, part), "rb") as file:
                    joined.write(file.read())


def make(folder, name, words):
    """Makes the file `name`, or the segments of the list `name`. Returns why it can't be made, or None."""
    path = os.path.join(folder, name)
    if name.endswith(LISTS):
        os.makedirs(path, exist_ok=True)
    reason = run(folder, made_by(name, words))
    if reason and os.path.isfile(path):
        os.remove(path)
    if not reason and name.endswith(LISTS):
        join(path)
    return reason


def make_all(folder, names=None):
    """Makes the files with the names `names`, or all, in `folder`. Returns for each name None, or why it can't be
    made."""
    for name, text in (("texts.srt", TEXTS), ("chapters.txt", CHAPTERS)):
        with open(os.path.join(folder, name), "w", encoding="utf-8") as file:
            file.write(text)
    for name, form in (("cover.png", "rgb24"), ("alpha.png", "rgba,colorchannelmixer=aa=0.5")):
        run(folder, ["ffmpeg", "-v", "error", "-y", *video(), "-vf", f"format={form}", "-frames:v", "1", name])
    wanted = {name: words for name, words in recipes().items() if names is None or name in names}
    reasons = {}
    with concurrent.futures.ThreadPoolExecutor(os.cpu_count()) as workers:
        for is_copy in (False, True):
            those = [name for name, words in wanted.items() if ("FILE(" in " ".join(words)) == is_copy]
            reasons.update(zip(those, workers.map(lambda name: make(folder, name, wanted[name]), those)))
    return reasons


def paths(folder, name):
    """Returns the paths of the files that the recipe `name` has made in `folder`, without lists, and without the copies
    of the `moof` boxes that a server of Smooth Streaming reads."""
    path = os.path.join(folder, name)
    if os.path.isfile(path):
        return [path]
    found = [os.path.join(around, file) for around, _, files in os.walk(path) for file in files]
    return sorted(it for it in found if not it.endswith((*LISTS, ".ismc", "Manifest")) and "FragmentInfo" not in it)


def main():
    folder, *names = sys.argv[1:]
    os.makedirs(folder, exist_ok=True)
    for name, reason in make_all(folder, names or None).items():
        if reason:
            print(f"{name} can't be made: {reason}")
        for path in [] if reason else paths(folder, name):
            print(f"{os.path.relpath(path, folder)}: {os.path.getsize(path)} bytes")


if __name__ == "__main__":
    if len(sys.argv) < 2:
        sys.exit(__doc__)
    main()
