"""Lists the tracks of movies: python3 tracks.py MOVIE.."""

import sys

from mp4_box_codec import File

for name in sys.argv[1:]:
    with File(name) as movie:
        for track in movie.tracks:
            shape = {"video": f"{track.width}x{track.height}, turned by {track.rotation} degrees",
                     "audio": f"{track.channels} channel(s) of {track.sample_rate} Hz"}.get(track.kind, "")
            print(f"{name}: track {track.id}: {track.kind}, {track.codec}, {track.language}, {track.seconds:g} s, "
                  f"{track.sample_count} samples, {track.key_frame_count} of them key frames",
                  "encrypted" if track.is_encrypted else "clear", shape, sep=", ")
