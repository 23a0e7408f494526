"""Asks the library what `mp4inspect check` and `mp4inspect info` say of a file: in C (facts.c), in Rust (facts.rs) and
in Python. All answers are lines in the form of facts.c. `wanted` makes those of the programs from their JSON, and
`differences` compares those of a language with them."""

import functools
import json
import os
import subprocess
from decimal import Decimal

from tests.built import TOP, codec, library
from tests.interfaces.asked import differ

FOLDER = os.path.join(TOP, "tests", "interfaces")
MOST = 2**64 - 1


def text(found):
    return "." + (found or "").encode("utf-8", "surrogatepass").hex()


def code(found):
    """Returns the digits of a code, of which each character is a byte. 0 stands for none."""
    return (found or "\0\0\0\0").encode("latin-1").hex()


def duration(ticks, scale):
    """Returns a duration down to nanoseconds."""
    return f"{ticks // scale}.{ticks % scale * 10**9 // scale:09}" if scale else "-"


def joined(*values):
    return "/".join(str(it) for it in values)


def fault_line(position, word, severity, path, words):
    return f"fault {position} {word} {severity} {text(path)} {text(words)}"


def file_line(length, milliseconds, is_fragmented, order, brands):
    return " ".join(["file", *map(str, (length, milliseconds, int(is_fragmented), order)), *brands])


def wanted_track(found):
    """Returns the line of a track of `mp4inspect info --json`."""
    length, media, rate = found["duration"], found["media_duration"], found.get("frame_rate")
    samples = picture = sound = protection = "-"
    if found["samples"] is not None:
        totals = [found["samples"], found["key_frames"], found["bytes"], min(found["bit_rate"] or 0, MOST)]
        samples = joined(*totals, *([media["ticks"], media["ticks_per_second"]] if media else []))
    if "width" in found:
        aspect = found["pixel_aspect"] or {"horizontal": 0, "vertical": 0}
        turn = "" if found["rotation"] is None else found["rotation"]
        rates = [min(rate["frames"], MOST), rate["units"], int(rate["constant"])] if rate else []
        size = f"{found['width'] or 0}x{found['height'] or 0}"
        picture = joined(size, f"{aspect['horizontal']}:{aspect['vertical']}", turn, *rates)
    if "sample_rate" in found:
        channels = found["channels"] or {"full": 0, "low": 0}
        sound = joined(found["sample_rate"] or 0, channels["full"], channels["low"])
    if found["encryption"]:
        sealed = found["encryption"]
        protection = joined(code(sealed["original"]), code(sealed["scheme"]), sealed["key"] or "")
    return " ".join(["track", str(found["track_id"] or 0), code(found["handler"]), code(found["entry"]),
                     *map(text, (found["kind"], found["codec"], found["language"])),
                     duration(min(length["ticks"], MOST), length["ticks_per_second"]) if length else "-",
                     samples, picture, sound, protection])


def wanted(asked):
    """Returns the lines that mp4inspect gives for a file."""
    known = json.loads(asked.run("info", "--json")[0], parse_float=Decimal)[0]
    found = [fault_line(it["position"], it["code"], it["severity"], it["path"], it["text"])
             for it in json.loads(asked.run("check", "--json")[0])]
    order = {True: 1, False: 2, None: 0}[known["moov_first"]]
    milliseconds = min(int(known["seconds"] * 1000), MOST)
    return [*found, file_line(known["size"], milliseconds, known["fragmented"], order, map(code, known["brands"])),
            *map(wanted_track, known["tracks"])]


def track_line(it):
    """Returns the line of a track of the module `calls`."""
    sums, turn = it.samples, it.picture.rotation if it.picture.has_rotation else ""
    samples = picture = sound = protection = "-"
    if it.has_samples:
        samples = joined(sums.sample_count, sums.key_frames, sums.bytes, sums.bit_rate,
                         *([sums.end, it.timescale] if it.timescale else []))
    if it.has_picture:
        rates = [sums.frames, sums.frame_units, int(sums.is_constant)] if sums.frame_units else []
        picture = joined(f"{it.picture.width}x{it.picture.height}", f"{it.picture.h_spacing}:{it.picture.v_spacing}",
                         turn, *rates)
    if it.has_sound:
        sound = joined(*it.sound)
    if it.protection.is_encrypted:
        original = 0 if it.protection.original == it.entry else it.protection.original
        protection = joined(f"{original:08x}", f"{it.protection.scheme:08x}",
                            it.protection.kid.hex() if it.protection.has_kid else "")
    return " ".join(["track", str(it.track_id), f"{it.handler:08x}", f"{it.entry:08x}",
                     *map(text, (it.kind, it.codec, it.language)), duration(it.duration, it.duration_scale), samples,
                     picture, sound, protection])


def python(asked):
    """The module for Python. Its classes say the same as its calls."""
    calls, file = codec().calls, codec().File(asked.data)
    faults = [fault_line(it.position, it.code, it.severity, it.path, it.text) for it in file.faults()]
    info = calls.info(asked.data)
    order = {True: 1, False: 2, None: 0}[file.moov_first]
    brands = [f"{it:08x}" for it in info.brands]
    by_classes = [(it.codec, it.language, it.sample_count, it.is_encrypted) for it in file.tracks]
    by_calls = [(it.codec, it.language, it.samples.sample_count, it.protection.is_encrypted) for it in info.tracks]
    if (by_classes, file.brands) != (by_calls, [bytes.fromhex(it).decode("latin-1") for it in brands]):
        raise AssertionError(f"{by_classes} and not {by_calls}")
    milliseconds = info.milliseconds
    return [*faults, file_line(info.length, milliseconds, info.is_fragmented, order, brands),
            *map(track_line, info.tracks)]


@functools.cache
def in_c(folder):
    """Compiles facts.c with the library into `folder`, and returns the program."""
    program = os.path.join(folder, "facts-c")
    archive = os.path.join(library(), "libmp4_box_codec.a")
    words = [os.environ.get("CC") or "cc", "-std=gnu99", "-O1", "-Wall", "-Wextra", "-Werror", "-I",
             os.path.join(TOP, "include"), os.path.join(FOLDER, "facts.c"), archive, "-o", program]
    subprocess.run(words, check=True)
    return program


def lines_of(program, asked):
    """Returns the lines of a program. It writes texts of other bytes than UTF-8 as they are."""
    done = subprocess.run([program, asked.path], capture_output=True, check=True, timeout=120)
    found = []
    for line in done.stdout.decode("ascii").splitlines():
        words = [text(bytes.fromhex(it[1:]).decode("utf-8", "replace")) if it.startswith(".") else it
                 for it in line.split(" ")]
        found.append(" ".join(words))
    return found


def differences(language, asked, rust):
    """Yields the differences of what a language says of a file from what mp4inspect says. `rust` returns the program
    in Rust."""
    program = {"c": lambda: in_c(os.path.dirname(asked.path)), "rust": rust}.get(language)
    found = lines_of(program(), asked) if program else python(asked)
    yield from differ(f"the facts in {language}", found, wanted(asked))


LANGUAGES = ("c", "rust", "python")
