"""Compares the samples that `mp4inspect samples --csv` prints with the packets that ffprobe reads.

A packet of ffprobe is a sample: offset, size, key flag, decode time and presentation time in the timescale of the
track. ffprobe is run so that it changes nothing in them: without edit lists, which would move times and leave packets
out, without chapters, which would hide the packets of their track, and without parsers and times of its own. So all
samples are compared, those before an edit and those that prime a decoder too. What differs nevertheless is ffprobe's:

- If a composition offset is negative, ffprobe lets no packet be shown before it is decoded. It subtracts the largest
  such offset from all decode times of the track, or adds it to all presentation times of its fragments.
- Samples of uncompressed sound that have a duration of 1 are joined. A packet has as many as its size holds.
- It has no duration for most packets, and works out that of the last one from the track. So the duration of a sample
  is compared with the time up to the next packet, and the last is not compared.
- Cover art is a stream without a track, and so is an image."""

import csv
import io
import json
import subprocess

WORDS = ["ffprobe", "-v", "error", "-ignore_editlist", "1", "-ignore_chapters", "1", "-fflags", "+noparse+nofillin",
         "-show_entries", "stream=index,id:packet=stream_index,pts,dts,duration,size,pos,flags", "-of", "json"]
NAMES = ["offset", "size", "decode_time", "presentation_time", "sync", "duration"]


def packets_of(path):
    """Returns the packets of each track of the file `path`, by the track's number. Also returns what ffprobe says of
    the file if it reads no stream."""
    ran = subprocess.run([*WORDS, path], capture_output=True, check=False)
    found = json.loads(ran.stdout or "{}")
    tracks = {stream["index"]: int(stream.get("id", "0"), 0) for stream in found.get("streams", [])}
    packets = {}
    for packet in found.get("packets", []):
        packets.setdefault(tracks[packet["stream_index"]], []).append(packet)
    packets.pop(0, None)
    return packets, ran.stderr.decode("utf-8", "replace").strip()


def samples_of(text):
    """Returns the samples of each track in `text`, the output of `mp4inspect samples --csv`, by the track's number."""
    tracks = {}
    for row in csv.DictReader(io.StringIO(text)):
        tracks.setdefault(int(row["track"]), []).append({name: int(field) for name, field in row.items()})
    return tracks


def joined(samples, packet):
    """Returns the number of samples at the front of `samples` that `packet` joins: 1, or the number that its size
    holds if each has a duration of 1."""
    if samples[0]["size"] == int(packet["size"]) or samples[0]["duration"] != 1:
        return 1
    size = count = 0
    while size < int(packet["size"]) and count < len(samples) and samples[count]["duration"] == 1:
        if samples[count]["offset"] != samples[0]["offset"] + size:
            break
        size, count = size + samples[count]["size"], count + 1
    return count


def disagreements(samples, packets, is_fragmented):
    """Yields how the samples of a track and its packets differ."""
    shift = max(0, *(sample["decode_time"] - sample["presentation_time"] for sample in samples))
    before, after = (0, shift) if is_fragmented else (shift, 0)
    at = 0
    for number, packet in enumerate(packets, 1):
        if at == len(samples):
            yield f"there are {len(packets)} packets, and packet {number} is after the last sample"
            return
        count = joined(samples[at:at + 65536], packet)
        those, at = samples[at:at + count], at + count
        wanted = [those[0]["offset"], sum(sample["size"] for sample in those), those[0]["decode_time"] - before,
                  those[0]["presentation_time"] + after, those[0]["sync"]]
        found = [int(packet["pos"]), int(packet["size"]), packet["dts"], packet["pts"], int("K" in packet["flags"])]
        if number < len(packets):
            wanted.append(sum(sample["duration"] for sample in those))
            found.append(packet.get("duration") or packets[number]["dts"] - packet["dts"])
        for name, one, two in zip(NAMES, wanted, found):
            if one != two:
                yield f"sample {those[0]['number']} has the {name} {one}, and packet {number} has {two}"
        if len({(sample["presentation_time"] - sample["decode_time"], sample["sync"]) for sample in those}) > 1:
            yield f"the samples of packet {number}, from {those[0]['number']} on, are not alike"
    if at < len(samples):
        yield f"there are {len(samples)} samples, and the {len(packets)} packets end with sample {at}"
