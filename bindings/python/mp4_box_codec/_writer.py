"""Writes movies: the samples of tracks, and the boxes that say where they are."""

import itertools
import os
from typing import Any, BinaryIO, Callable, Dict, List, Sequence, Tuple, Union

from . import _fields, calls, classes
from ._entries import SoundEntry, VisualEntry
from ._fields import container
from ._file import Box
from ._track import Track
from .calls import CttsRow, ElstRow, StscRow, SttsRow

_MEDIA: Dict[str, Callable[[], bytes]] = {
    "vide": lambda: classes.Vmhd().write(), "soun": lambda: classes.Smhd().write()}
# The units of a second in which the header of a movie counts.
_SCALE = 1000


def _runs(values: Sequence[int]) -> List[Tuple[int, int]]:
    """Returns how often each value follows itself."""
    return [(len([*its]), value) for value, its in itertools.groupby(values)]


class TrackWriter:
    """A track of a movie that is written. `Writer.add_track` makes it."""

    def __init__(self, movie: "Writer", number: int, entry: bytes, media: classes.Mdhd, handler: str,
                 size: Tuple[float, float], begin: int) -> None:
        self._movie, self._entry, self._media, self._handler, self._size = movie, entry, media, handler, size
        self._begin = begin
        self.id = number
        self._sizes: List[int] = []
        self._durations: List[int] = []
        self._offsets: List[int] = []
        self._keys: List[int] = []
        self._chunks: List[List[int]] = []

    def add(self, data: Any, duration: int, *, rendering_offset: int = 0, sync: bool = True) -> None:
        """Writes a sample. Add samples in decoding order, and those of several tracks in the order in which a player
        needs them. Times are in the timescale of the track."""
        sample = calls._bytes(data, "the sample")
        calls._number(duration, calls._ALL[calls.u32], "duration")
        calls._number(rendering_offset, calls._ALL[calls.i32], "rendering_offset")
        calls._number(len(sample), calls._ALL[calls.u32], "the length of the sample")
        offset, is_next = self._movie._add(self.id, sample)
        if is_next and self._chunks:
            self._chunks[-1][1] += 1
        else:
            self._chunks.append([offset, 1])
        self._sizes.append(len(sample))
        self._durations.append(duration)
        self._offsets.append(rendering_offset)
        if sync:
            self._keys.append(len(self._sizes))

    @property
    def _seconds(self) -> float:
        return sum(self._durations) / self._media.timescale

    def _tables(self) -> List[bytes]:
        found = [classes.Stts(rows=[SttsRow(*it) for it in _runs(self._durations)]).write()]
        if any(self._offsets):
            version = int(min(self._offsets) < 0)
            found.append(classes.Ctts(version=version, rows=[CttsRow(*it) for it in _runs(self._offsets)]).write())
        rows: List[StscRow] = []
        first = 1
        for many, of_each in _runs([it for _, it in self._chunks]):
            rows.append(StscRow(first, of_each, 1))
            first += many
        sizes = classes.Stsz(sample_count=len(self._sizes), rows=self._sizes)
        found += [classes.Stsc(rows=rows).write(), sizes.write()]
        chunks = [it for it, _ in self._chunks]
        is_long = bool(chunks) and chunks[-1] >= 1 << 32
        found.append(classes.Co64(rows=chunks).write() if is_long else classes.Stco(rows=chunks).write())
        if len(self._keys) < len(self._sizes):
            found.append(classes.Stss(rows=self._keys).write())
        return found

    def _box(self) -> bytes:
        """Returns the `trak`, with an edit unless it begins at 0."""
        length, duration = sum(self._durations), round(self._seconds * _SCALE)
        header = classes.Tkhd(
            version=int(duration >= 1 << 32), flags=3, track_id=self.id, duration=duration, width=self._size[0],
            height=self._size[1], volume=float(self._handler == "soun"))
        edits: List[bytes] = []
        if self._begin:
            row = ElstRow(duration, self._begin, 1, 0)
            edits = [container("edts", classes.Elst(version=header.version, rows=[row]).write())]
        media = self._media.replace(version=int(length >= 1 << 32), duration=length)
        kind = _MEDIA.get(self._handler, lambda: container("nmhd", bytes(4)))()
        entries = container("stsd", bytes(4), (1).to_bytes(4, "big"), self._entry)
        data = container("dinf", classes.Dref(url=classes.Url()).write())
        return container("trak", header.write(), *edits, container(
            "mdia", media.write(), classes.Hdlr(handler_type=self._handler).write(), container(
                "minf", kind, data, container("stbl", entries, *self._tables()))))


class Writer:
    """Writes a movie to a path or a binary file that can seek: the samples as they are added, and then its `moov`. Use
    it in a `with` block, or call `close`. If the block ends by an exception, the file has no `moov`."""

    def __init__(self, file: Union[str, "os.PathLike[str]", BinaryIO], *, brands: Sequence[str] = ("isom",)) -> None:
        brands = [*brands]
        front = classes.Ftyp(major_brand=brands[0], minor_version=512, compatible_brands=brands).write()
        self._is_own = isinstance(file, (str, os.PathLike))
        self._file: Any = open(file, "wb") if isinstance(file, (str, os.PathLike)) else file
        self._tracks: List[TrackWriter] = []
        self._last = 0
        self._begin = len(front)
        # The header of the media data has a size of 64 bits, which `close` writes.
        self._end = self._begin + 16
        self._file.write(front + (1).to_bytes(4, "big") + b"mdat" + bytes(8))

    def add_track(self, entry: Any, timescale: int, *, handler: str = "vide", language: str = "und", width: float = 0,
                  height: float = 0, begin: int = 0) -> TrackWriter:
        """Adds a track whose samples are all of one sample entry: a box of another file, its bytes, or a value of a
        class such as `Avc1` or `VisualEntry`. The track begins with the time `begin` of its media."""
        if isinstance(entry, Box):
            entry = entry.data
        is_class = isinstance(entry, (_fields.Fields, VisualEntry, SoundEntry))
        written = entry.write() if is_class else calls._bytes(entry, "entry")
        media = classes.Mdhd(timescale=timescale, language=language)
        if timescale == 0:
            raise calls._refused("timescale", timescale, "a number of units in a second")
        _fields.number_of(handler, "handler")
        calls._number(begin, calls._ALL[calls.u32], "begin")
        self._tracks.append(TrackWriter(self, len(self._tracks) + 1, written, media, handler, (width, height), begin))
        return self._tracks[-1]

    def copy_track(self, track: Track) -> TrackWriter:
        """Adds a track like one of another file, with its first sample entry, and without its samples."""
        return self.add_track(
            track.entry, track.timescale, handler=track.handler, language=track.media.language, width=track.width,
            height=track.height, begin=track.begin)

    def _add(self, track: int, sample: bytes) -> Tuple[int, bool]:
        """Writes a sample. Returns its offset, and whether the sample before it is of the same track."""
        offset, is_next = self._end, self._last == track
        self._file.write(sample)
        self._end, self._last = self._end + len(sample), track
        return offset, is_next

    def close(self) -> None:
        """Writes the `moov`. No sample can be added after it."""
        if self._file is None:
            return
        seconds = max((it._seconds for it in self._tracks), default=0.0)
        duration = round(seconds * _SCALE)
        header = classes.Mvhd(version=int(duration >= 1 << 32), timescale=_SCALE, duration=duration,
                              next_track_id=len(self._tracks) + 1)
        self._file.write(container("moov", header.write(), *(it._box() for it in self._tracks)))
        self._file.seek(self._begin + 8)
        self._file.write((self._end - self._begin).to_bytes(8, "big"))
        self._drop()

    def _drop(self) -> None:
        if self._is_own:
            self._file.close()
        self._file = None

    def __enter__(self) -> "Writer":
        return self

    def __exit__(self, kind: Any, *_: Any) -> None:
        if kind is None:
            self.close()
        else:
            self._drop()
