"""Sets the language and the turn of the first track of a movie: python3 edit.py MOVIE OUT LANGUAGE DEGREES

The new file is pieces of the old one and new bytes, so that the samples are copied from the file itself."""

import sys

from mp4_box_codec import Change, File, edit

source, out, language, degrees = sys.argv[1:]
with File(source) as movie:
    track = movie.tracks[0].id
    new = edit(movie, [Change.language(track, language), Change.rotate(track, int(degrees))])
    with open(out, "wb") as file:
        new.write(file)
