"""Prints a playlist (HLS, RFC 8216) of a movie of fragments, which stays one file: python3 playlist.py MOVIE URL"""

import bisect
import math
import sys

from mp4_box_codec import File

name, url = sys.argv[1:]
with File(name) as movie:
    track, boxes = movie.tracks[0], movie.children
    begins = [it.position for it in boxes if it.code == "moof"]
    ends = [*begins[1:], next((it.position for it in boxes if it.code == "mfra"), movie.length)]
    seconds = [0.0] * len(begins)
    for sample in track.samples:
        seconds[bisect.bisect(begins, sample.offset) - 1] += sample.duration / track.timescale
    print("#EXTM3U", "#EXT-X-VERSION:7", "#EXT-X-PLAYLIST-TYPE:VOD", sep="\n")
    print(f"#EXT-X-TARGETDURATION:{math.ceil(max(seconds))}")
    print(f'#EXT-X-MAP:URI="{url}",BYTERANGE="{begins[0]}@0"')
    for begin, end, length in zip(begins, ends, seconds):
        print(f"#EXTINF:{length:.3f},", f"#EXT-X-BYTERANGE:{end - begin}@{begin}", url, sep="\n")
    print("#EXT-X-ENDLIST")
