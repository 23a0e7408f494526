"""The samples of a track, as columns."""

import array
import bisect
import ctypes
import typing
from typing import Any, Iterator, List, Sequence, Union, overload

from . import calls
from .calls import NO_ROOM, OK, Mp4Error, Sample

_BYTES = ctypes.sizeof(calls._SAMPLE)


def _column(name: str, letter: str, words: str) -> Any:
    """Returns a property that shows one member of all samples, without a copy."""
    begin, width = getattr(calls._SAMPLE, name).offset, getattr(calls._SAMPLE, name).size

    def column(self: "Samples") -> "memoryview":
        found: "memoryview" = typing.cast(Any, self._rows).cast(letter)[begin // width::_BYTES // width]
        return found

    column.__doc__ = words
    return property(column)


class Samples(Sequence[Sample]):
    """The samples of a track in decoding order: a sequence of `Sample`, whose members are also columns.

    A column is a `memoryview` of numbers: it has an index, a length and `tolist()`, and NumPy takes it without a copy
    (`numpy.asarray(samples.size)`). Times are in the timescale of the media."""

    offset: "memoryview" = _column("offset", "Q", "The offsets of the samples in the file.")
    size: "memoryview" = _column("size", "I", "The sizes of the samples, in bytes.")
    decode_time: "memoryview" = _column("decode_time", "Q", "The times at which the samples are decoded.")
    rendering_offset: "memoryview" = _column(
        "rendering_offset", "q", "The times at which the samples are shown, from their decoding times.")
    duration: "memoryview" = _column("duration", "I", "The durations of the samples.")
    description: "memoryview" = _column("description", "I", "The numbers of the sample entries, counted from 1.")
    chunk: "memoryview" = _column("chunk", "I", "The numbers of the chunks, or of the runs in a fragment, from 1.")
    sync: "memoryview" = _column("sync", "?", "Whether the samples are key frames.")

    def __init__(self, rows: Any) -> None:
        """Takes the memory of an array of the struct `mp4_sample`."""
        self._rows = memoryview(rows).cast("B").toreadonly()

    @property
    def presentation_time(self) -> "array.array[int]":
        """The times at which the samples are shown, without the edits of the track."""
        return array.array("q", map(int.__add__, self.decode_time, self.rendering_offset))

    @property
    def key_frames(self) -> List[int]:
        """The indices of the key frames."""
        return [at for at, sync in enumerate(self.sync) if sync]

    def at(self, time: int) -> int:
        """Returns the index of the sample that is decoded at a time: the last one whose decoding time is not after it,
        or -1 if there is none."""
        return bisect.bisect_right(typing.cast(Any, self.decode_time), time) - 1

    def key_frame_at(self, time: int) -> int:
        """Returns the index of the last key frame whose decoding time is not after `time`, or -1 if there is none."""
        found = self.at(time)
        while found >= 0 and not self.sync[found]:
            found -= 1
        return found

    def __len__(self) -> int:
        return len(self._rows) // _BYTES

    @overload
    def __getitem__(self, index: int) -> Sample: ...
    @overload
    def __getitem__(self, index: slice) -> "Samples": ...

    def __getitem__(self, index: Union[int, slice]) -> Union[Sample, "Samples"]:
        if isinstance(index, slice):
            chosen = [self._rows[at * _BYTES:(at + 1) * _BYTES] for at in range(*index.indices(len(self)))]
            return Samples(b"".join(chosen))
        at = range(len(self))[index]
        return Sample._make(calls._packed(calls._SAMPLE).unpack_from(self._rows, at * _BYTES))

    def __iter__(self) -> Iterator[Sample]:
        return map(Sample._make, calls._packed(calls._SAMPLE).iter_unpack(self._rows))

    def __eq__(self, other: object) -> bool:
        return isinstance(other, Samples) and bool(self._rows == other._rows)

    __hash__ = None  # type: ignore[assignment]

    def __repr__(self) -> str:
        return f"Samples({len(self)} samples)"


def _counted(function: Any, data: Any, track_id: int) -> int:
    """Returns the number of samples that a call lists."""
    count, nothing = calls.size(), calls.u64()
    with calls._Bytes(data) as (address, length):
        status = function(address, length, track_id, ctypes.addressof(nothing), 0, ctypes.addressof(count))
    if status not in (OK, NO_ROOM):
        raise Mp4Error(status)
    return int(count.value)


_CALLS = [calls._function(f"mp4_{it}", ctypes.c_void_p, calls.size, calls.u32, ctypes.c_void_p, calls.size,
                          ctypes.c_void_p) for it in ("samples", "fragment_samples")]


def samples_of(data: Any, track_id: int) -> Samples:
    """Returns the samples of the first track with a track_ID in the bytes of a file: those of its tables, and then
    those of its fragments."""
    number = calls._number(track_id, calls._ALL[calls.u32], "track_id")
    counts = [_counted(function, data, number) for function in _CALLS]
    rows = (ctypes.c_char * max(_BYTES * sum(counts), 1))()
    count, begin = calls.size(), ctypes.addressof(rows)
    for function, room in zip(_CALLS, counts):
        with calls._Bytes(data) as (address, length):
            status = function(address, length, number, begin, room, ctypes.addressof(count)) if room else OK
        if status != OK:
            raise Mp4Error(status)
        begin += _BYTES * room
    return Samples(memoryview(rows).cast("B")[:_BYTES * sum(counts)])
