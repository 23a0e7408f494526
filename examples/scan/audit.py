#!/usr/bin/env python3
"""Audits MP4 files by the package mp4_box_codec, and prints a line of JSON for each: its tracks with their codecs and
durations, and its faults.

    audit.py FILE..

A file that can't be read has a `failure` instead. The status is 1 if a file has a fault or a failure."""

import json
import os
import stat
import sys

from mp4_box_codec import CUT, LEAF, NO_HEADER, OUT_OF_MEMORY, SMALL, Mp4Error, calls, class_of

# The faults of a box that the walk over a file finds.
FAULTS = {
    CUT: "the box ends after the enclosing box or after the file",
    SMALL: "the size of the box is smaller than its header",
    NO_HEADER: "the header of the box is cut",
}
# The most faults that are reported of a file. A hostile file may have millions.
MOST_FAULTS = 100
# The durations that stand for an unknown one: 0 in files with fragments, and the largest of versions 0 and 1.
UNKNOWN = (0, 2**32 - 1, 2**64 - 1)
# The boxes that are read into values. The fields of the others are read too, but only for faults.
VALUES = {it: getattr(calls, it.strip()) for it in ("mvhd", "mehd", "tkhd", "mdhd", "hdlr", "url ")}
VALUES.update(calls.TABLES)


def seconds_of(duration, timescale):
    """Returns a duration in seconds, or None if it is unknown."""
    return round(duration / timescale, 3) if timescale and duration not in UNKNOWN else None


def names_of(box):
    """Returns the codes of a box and of the boxes around it, from the outside."""
    return [part.partition("[")[0] for part in box.path.split("/")]


class Audit:
    """What is found in one file."""

    def __init__(self, file):
        self.file, self.length = file, os.fstat(file.fileno()).st_size
        self.seconds, self.fragments, self.tracks, self.faults = None, 0, [], []
        # The timescale of the movie, and whether the file has the media data of the last track.
        self.timescale, self.is_here = 0, False

    def read(self, position, count):
        self.file.seek(position)
        return self.file.read(count)

    def fault(self, box, text):
        self.faults.append({"position": box.position, "path": box.path, "text": text})

    def is_terminator(self, box):
        """Returns whether `box` is the four zero bytes with which QuickTime may end a `udta` or a sample entry."""
        around = names_of(box)[:-1]
        return (around[-1:] == ["udta"] or around[-2:-1] == ["stsd"]) and (
            box.length == 4 and self.read(box.position, 4) == bytes(4))

    def value_of(self, box):
        """Returns what the package reads of a box, or None if it reads no boxes of this type, or if the box has a
        fault."""
        if class_of(box.name, box.parent.to_bytes(4, "big").decode("latin-1")) is None:
            return None
        try:
            return VALUES.get(box.name, calls.fields)(self.read(box.position, box.length))
        except Mp4Error as why:
            if why.status == OUT_OF_MEMORY:
                raise MemoryError(str(why)) from None
            self.fault(box, str(why))
            return None

    def visit(self, box):
        """Takes from a box what is reported of its file."""
        names = names_of(box)
        if box.what in FAULTS and not self.is_terminator(box):
            self.fault(box, FAULTS[box.what])
        self.fragments += names == ["moof"]
        # Only the first `moov` has tracks.
        if box.path.startswith("moov/trak") and names[1:] == ["trak"]:
            self.tracks.append({"track_ID": None, "kind": None, "codecs": [], "seconds": None, "samples": None})
            self.is_here = False
        in_track = self.tracks and box.path.startswith("moov/trak")
        if in_track and names[-2:-1] == ["stsd"] and box.code:
            self.tracks[-1]["codecs"].append(box.name)
        value = self.value_of(box) if box.what == LEAF else None
        if value is not None and box.path == "moov/mvhd":
            self.timescale, self.seconds = value.timescale, seconds_of(value.duration, value.timescale)
        if value is not None and box.path == "moov/mvex/mehd":
            self.seconds = seconds_of(value.fragment_duration, self.timescale)
        if value is not None and in_track:
            self.take(box, value, self.tracks[-1])

    def take(self, box, value, track):
        """Takes from a box what is reported of its track."""
        if box.name == "tkhd":
            track["track_ID"] = value.track_id
        elif box.name == "mdhd":
            track["seconds"] = seconds_of(value.duration, value.timescale)
        elif box.name == "hdlr" and "mdia" in names_of(box)[-2:]:
            track["kind"] = value.handler_type.to_bytes(4, "big").decode("latin-1")
        elif box.name == "url ":
            self.is_here = value.flags & 1 == 1
        elif box.name == "stsz":
            track["samples"] = value.sample_count
        elif box.name == "stz2":
            track["samples"] = value["sample_count"]
        elif box.name in ("stco", "co64"):
            outside = sum(it >= self.length for it in value.rows) if self.is_here else 0
            if outside:
                self.fault(box, f"{outside} of {len(value.rows)} chunks begin past the end of the file "
                                f"({self.length} bytes)")

    def report(self):
        """Returns what is reported of the file after all boxes were visited."""
        left_out = len(self.faults) - MOST_FAULTS
        return {
            "bytes": self.length, "seconds": self.seconds, "tracks": self.tracks, "fragments": self.fragments,
            "faults": self.faults[:MOST_FAULTS], **({"faults_left_out": left_out} if left_out > 0 else {}),
        }


def audit(path):
    """Returns what is found in the file at `path`: the members of its line."""
    try:
        if not stat.S_ISREG(os.stat(path).st_mode):
            return {"file": path, "failure": "not a regular file"}
        with open(path, "rb") as file:
            found = Audit(file)
            if not found.length:
                return {"file": path, "failure": "the file is empty"}
            # `File` would map the file into memory, and end the process if the file becomes shorter meanwhile.
            for box in calls.tree(file):
                found.visit(box)
            return {"file": path, **found.report()}
    except (OSError, MemoryError, Mp4Error) as why:
        return {"file": path, "failure": str(why) or type(why).__name__}


def audit_all(paths):
    """Returns what is found in each file."""
    return [audit(path) for path in paths]


def is_bad(found):
    """Returns whether a file has a fault or a failure."""
    return bool(found.get("faults")) or "failure" in found


def line_of(found):
    """Returns the line of a file."""
    return json.dumps(found) + "\n"


def main():
    if len(sys.argv) < 2:
        sys.exit(__doc__)
    status = 0
    for path in sys.argv[1:]:
        found = audit(path)
        status |= is_bad(found)
        # One call writes the whole line, so that the lines of several processes stay whole in one file.
        os.write(1, line_of(found).encode())
    sys.exit(status)


if __name__ == "__main__":
    main()
