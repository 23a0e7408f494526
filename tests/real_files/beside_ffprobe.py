"""Compares `mp4inspect info` with ffprobe and mediainfo over real files (making.py). Run it by hand:

    python3 -m tests.real_files.beside_ffprobe [FOLDER]

FOLDER keeps the files, which are made there if it is empty. For each file it compares the duration, and for each track
the codec, dimensions, rotation, sample rate, channels, duration, frame rate, bit rate, number of samples and language.
It prints a row for each value of which ffprobe or mediainfo has another one, and the numbers of files and values.
"""

import json
import os
import subprocess
import sys
import tempfile
from fractions import Fraction

from tests.built import built
from tests.real_files import making

# The codec strings of the codecs that ffprobe names, as far as the name says. `PROFILES` has the others.
CODECS = {
    "aac": "mp4a.40.2", "ac3": "ac-3", "eac3": "ec-3", "opus": "Opus", "flac": "fLaC", "alac": "alac", "vp8": "vp08",
    "mov_text": "tx3g", "dts": "dtsc", "mjpeg": "mp4v.6C", "png": "mp4v.6D", "jpeg2000": "mp4v.6E", "mp3": "mp4a.6B",
    "mp2": "mp4a.6B", "vorbis": "mp4a.DD", "mpeg1video": "mp4v.6A", "truehd": "mlpa",
}
# The number in the codec string for each profile that ffprobe names.
PROFILES = {
    "h264": {
        "Constrained Baseline": "42", "Baseline": "42", "Main": "4d", "High": "64",
        "High 10": "6e", "High 10 Intra": "6e",
        "High 4:2:2": "7a", "High 4:2:2 Intra": "7a", "High 4:4:4 Predictive": "f4", "High 4:4:4 Intra": "f4",
    },
    "hevc": {"Main": "1", "Main 10": "2", "Rext": "4"},
    "av1": {"Main": "0", "High": "1", "Professional": "2"},
    "vp9": {f"Profile {it}": f"0{it}" for it in range(4)},
}


def output(*words):
    """Returns what a program writes as JSON, or nothing if it takes too long."""
    try:
        ran = subprocess.run(words, capture_output=True, check=False, timeout=60)
    except subprocess.TimeoutExpired:
        return {}
    return json.loads(ran.stdout or "{}")


def number(text):
    """Returns a number in a text, or None."""
    try:
        return float(Fraction(str(text)))
    except (ValueError, ZeroDivisionError):
        return None


def expected(stream):
    """Returns the codec string that ffprobe's values of a track stand for, or None for a codec without one here."""
    name, profile, level = stream.get("codec_name"), stream.get("profile"), stream.get("level", 0)
    number_of_profile = PROFILES.get(name, {}).get(profile)
    if name in PROFILES and number_of_profile is None:
        return None
    if name == "h264":
        return f"{number_of_profile}..{level:02x}"
    if name == "hevc":
        return f".{number_of_profile}.*L{level}"
    if name == "av1":
        return f"av01.{number_of_profile}.{level:02}"
    return f"vp09.{number_of_profile}." if name == "vp9" else CODECS.get(name)


def has_codec(codec, wanted):
    """Returns whether a codec string is as ffprobe's values say."""
    if wanted is None or codec is None:
        return wanted is None
    if ".*" in wanted:
        profile, level = wanted.split(".*")
        return profile in codec and level in codec
    if ".." in wanted:
        profile, level = wanted.split("..")
        return codec[5:7].lower() == profile and codec[9:11].lower() == level
    return codec.startswith(wanted)


def of_ffprobe(stream):
    """Returns the values of a track that ffprobe reads."""
    turned = [it["rotation"] for it in stream.get("side_data_list", []) if "rotation" in it]
    is_video = stream.get("codec_type") == "video"
    rate = number(stream.get("avg_frame_rate")) if is_video else None
    return {
        "codec": expected(stream), "width": stream.get("width"), "height": stream.get("height"),
        "rotation": -turned[0] % 360 if turned else 0 if is_video else None,
        "sample_rate": number(stream.get("sample_rate")), "channels": stream.get("channels"),
        "duration": number(stream.get("duration")), "frame_rate": rate,
        "bit_rate": number(stream.get("bit_rate")), "samples": number(stream.get("nb_read_packets")),
        "language": stream.get("tags", {}).get("language"),
    }


def of_mediainfo(track):
    """Returns the values of a track that mediainfo reads."""
    return {
        "width": number(track.get("Sampled_Width", track.get("Width"))), "rotation": number(track.get("Rotation")),
        "height": number(track.get("Sampled_Height", track.get("Height"))),
        "sample_rate": number(track.get("SamplingRate")), "channels": number(track.get("Channels")),
        "duration": number(track.get("Duration")),
        "frame_rate": number(track.get("FrameRate")) if track.get("@type") == "Video" else None,
        "bit_rate": number(track.get("BitRate")),
    }


def of_info(track):
    """Returns the values of a track that mp4inspect reads."""
    channels, rate, duration = track.get("channels"), track.get("frame_rate"), track.get("duration")
    return {
        "codec": track.get("codec"), "width": track.get("width"), "height": track.get("height"),
        "rotation": track.get("rotation"), "sample_rate": track.get("sample_rate"),
        "channels": channels and channels["full"] + channels["low"], "duration": duration and duration["seconds"],
        "frame_rate": rate and rate["per_second"], "bit_rate": track.get("bit_rate"), "samples": track.get("samples"),
        "language": track.get("language"),
    }


def agree(name, ours, theirs):
    """Returns whether two values agree: numbers within a thousandth of them, or within 2 thousandths of a second."""
    if theirs is None or name == "language":
        return theirs is None or ours == theirs
    if name == "codec":
        return has_codec(ours, theirs)
    return ours is not None and abs(ours - theirs) <= max(0.002 if name == "duration" else 0, abs(theirs) / 1000)


def tracks_of(path, program):
    """Returns, for each track of a file by its number, its values in mp4inspect, ffprobe and mediainfo."""
    info = output(program, "info", "--json", path)
    if not info or not info[0]["tracks"]:
        return
    probed = output("ffprobe", "-v", "quiet", "-of", "json", "-show_streams", "-count_packets", path)
    media = output("mediainfo", "--Output=JSON", path)
    streams = {int(it["id"], 16): it for it in probed.get("streams", []) if "id" in it}
    found = {int(it["ID"]): it for it in (media.get("media") or {}).get("track", []) if it.get("ID", "").isdigit()}
    for track in info[0]["tracks"]:
        at = track["track_id"]
        yield at, of_info(track), of_ffprobe(streams.get(at, {})), of_mediainfo(found.get(at, {}))


def main():
    folder = os.path.abspath(sys.argv[1]) if sys.argv[1:] else tempfile.mkdtemp(prefix="real-files-")
    os.makedirs(folder, exist_ok=True)
    if not os.listdir(folder):
        making.make_all(folder)
    program = built("mp4_inspect")
    files = values = 0
    for place, _, names in sorted(os.walk(folder)):
        for name in sorted(names):
            path = os.path.join(place, name)
            rows = list(tracks_of(path, program))
            files += bool(rows)
            for at, ours, probed, media in rows:
                for key, value in ours.items():
                    values += 1
                    theirs = probed.get(key), media.get(key)
                    if not all(agree(key, value, it) for it in theirs):
                        print(f"{name} track {at} {key}: {value}, ffprobe {theirs[0]}, mediainfo {theirs[1]}")
    print(f"{files} files with tracks, {values} values")


if __name__ == "__main__":
    main()
