"""Writes a movie with the first track of each of several movies, such as a video and its sound:
python3 mux.py OUT MOVIE.."""

import heapq
import sys
from typing import Iterator, Tuple

from mp4_box_codec import File, Sample, Track, TrackWriter, Writer


def timed(track: Track, made: TrackWriter) -> Iterator[Tuple[float, int, Sample, Track, TrackWriter]]:
    """Yields the samples of a track with their times in seconds."""
    for sample in track.samples:
        yield sample.decode_time / track.timescale, made.id, sample, track, made


with Writer(sys.argv[1]) as movie:
    sources = [File(name).tracks[0] for name in sys.argv[2:]]
    copies = [timed(it, movie.copy_track(it)) for it in sources]
    for _, _, sample, track, made in heapq.merge(*copies):
        made.add(track.data(sample), sample.duration, rendering_offset=sample.rendering_offset, sync=sample.sync)
