"""Writes the AVC or HEVC video of a movie as an elementary stream, which decoders and ffmpeg read:
python3 stream.py MOVIE OUT"""

import sys

from mp4_box_codec import AvcC, File, HvcC, units

START = b"\0\0\0\1"
with File(sys.argv[1]) as movie, open(sys.argv[2], "wb") as out:
    track = next(it for it in movie.tracks if it.format in ("avc1", "avc3", "hvc1", "hev1"))
    if track.format.startswith("avc"):
        avc = track.entry["avcC"].read(AvcC)
        sets, length_size = [*avc.sequence_parameter_sets, *avc.picture_parameter_sets], avc.length_size_minus_one + 1
    else:
        hevc = track.entry["hvcC"].read(HvcC)
        sets, length_size = [unit for it in hevc.arrays for unit in it.nalUnit], hevc.lengthSizeMinusOne + 1
    for unit in sets:
        out.write(START + unit)
    for sample in track.samples:
        for unit in units(track.data(sample), length_size):
            out.write(START + unit)
