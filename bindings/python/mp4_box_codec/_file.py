"""Files as trees of boxes."""

import functools
import mmap
import os
from dataclasses import dataclass
from typing import Any, BinaryIO, Dict, Iterator, List, NoReturn, Optional, Type, TypeVar, Union

from . import _fields, calls
from ._entries import SoundEntry, VisualEntry
from .calls import BOX_NOT_FOUND, CUT, NO_HEADER, SMALL, UNKNOWN_BOX, Mp4Error
from ._track import Track

F = TypeVar("F", bound=_fields.Part)
# The classes of sample entries by the handler of their media.
_ENTRIES = {"vide": VisualEntry, "pict": VisualEntry, "auxv": VisualEntry, "soun": SoundEntry}
# A file is a path, a binary file that can seek, or an object with a buffer.
Source = Union[str, "os.PathLike[str]", BinaryIO, bytes, bytearray, memoryview, mmap.mmap]


@dataclass(frozen=True)
class Fault:
    """A fault of a file: the position and the path of the box that has it, its code such as `box-cut`, which never
    changes, its severity `error` or `warning`, and what is wrong. docs/CHECK.md explains the codes."""
    position: int
    path: str
    code: str
    severity: str
    text: str


class Box:
    """A box of a file. `position` is that of its header, and `length` counts the header. A box that is cut has a
    `fault`, and `data` are the bytes that the file has."""

    __slots__ = ("file", "path", "code", "position", "length", "header_length", "handler", "parent", "children",
                 "fault", "_what")

    def __init__(self, file: "File", found: calls.Box, offset: int, parent: Optional["Box"]) -> None:
        self.file, self.path, self.code = file, found.path, _fields.code_of(found.code)
        self.position, self.length = found.position + offset, found.length
        self.header_length, self.handler = found.header_length, _fields.code_of(found.handler)
        self.parent, self._what = parent, found.what
        self.children: List[Box] = []
        self.fault = self._fault()

    def _fault(self) -> Optional[str]:
        if self._what == CUT:
            within = self.parent.position + self.parent.length if self.parent else self.file.length
            around = f"the {self.parent.code!r} around it ends at" if self.parent else "the file ends at"
            return f"it ends at {self.position + self.length}, and {around} {min(within, self.file.length)}"
        if self._what == SMALL:
            return f"its size is smaller than its header of {self.header_length} bytes"
        return f"{self.length} bytes are no header, which has 8" if self._what == NO_HEADER else None

    @property
    def data(self) -> memoryview:
        """The bytes of the box, including its header."""
        return self.file.bytes_at(self.position, self.length)

    @property
    def content(self) -> memoryview:
        """The bytes after the header."""
        return self.data[self.header_length:]

    @property
    def fields(self) -> _fields.Part:
        """The fields of the box, in the class of its type. Sample entries of video and sound without a class of their
        own are a `VisualEntry` or a `SoundEntry`. For another box without a class this raises an Mp4Error with the
        status UNKNOWN_BOX."""
        entry = _ENTRIES.get(self.handler) if self.parent and self.parent.code == "stsd" else None
        kind = self._class() or entry
        if kind is None:
            self._refuse(Mp4Error(UNKNOWN_BOX))
        return self.read(kind)

    def _class(self) -> Optional[Type[_fields.Fields]]:
        return _fields.class_of(self.code, self.parent.code if self.parent else "")

    def read(self, kind: Type[F]) -> F:
        """Returns the fields of the box as an instance of `kind`, which has to be the class of its type."""
        more = (self.parent.content[0],) if kind is SoundEntry and self.parent and self.parent.content else ()
        try:
            found: F = kind.read(self.data, *more)  # type: ignore[attr-defined]
            return found
        except Mp4Error as why:
            self._refuse(why)

    def _refuse(self, why: Mp4Error) -> NoReturn:
        """Raises an error with the place of the box, and with the fault of the box if the error has no reason."""
        refused = why.refused or self.fault or ""
        raise Mp4Error(why.status, refused, position=self.position, path=self.path) from None

    def find(self, path: str) -> Optional["Box"]:
        """Returns the box at a path inside this box, such as `mdia/mdhd` or `trak[1]`, or None if there is none."""
        found: Optional[Box] = self
        for part in path.split("/"):
            code, bracket, number = part.partition("[")
            is_number = number[-1:] == "]" and number.isascii() and number[:-1].isdigit()
            at = int(number[:-1]) if is_number else -1 if bracket else 0
            if len(code) != 4 or at < 0:
                raise calls._refused("path", path, "codes of four characters with '/' between them")
            inside = [it for it in found.children if it.code == code] if found else []
            found = inside[at] if at < len(inside) else None
        return found

    def __getitem__(self, path: str) -> "Box":
        """Returns the box at a path inside this box. If there is none, the Mp4Error has the status BOX_NOT_FOUND."""
        found = self.find(path)
        if found is None:
            raise Mp4Error(BOX_NOT_FOUND, f"there is no {path!r}", position=self.position, path=self.path)
        return found

    def walk(self) -> Iterator["Box"]:
        """Yields the box and all boxes inside, each followed by those inside of it."""
        yield self
        for it in self.children:
            yield from it.walk()

    def __repr__(self) -> str:
        return f"<Box {self.path} at {self.position}, {self.length} bytes>"


class File:
    """A file with boxes: a path, a binary file that can seek, or an object with a buffer, such as `bytes`.

    A file of the system is mapped into memory, so that only what is used is read. Use it in a `with` block, or call
    `close`.

    >>> File(bytes.fromhex("00000010 6d6f6f76 00000008 7472616b")).children[0].children
    [<Box moov/trak at 8, 8 bytes>]
    """

    def __init__(self, source: Source) -> None:
        self._opened: List[Any] = []
        self._boxes: Optional[List[Box]] = None
        self._tracks: Optional[List[Track]] = None
        self._movie: Optional[Box] = None
        self._view: Optional[memoryview] = self._viewed(source)
        self.length = len(self._view)

    def _viewed(self, source: Any) -> memoryview:
        """Returns the bytes of a source, without a copy if there is a way."""
        if isinstance(source, (str, os.PathLike)):
            with open(source, "rb") as file:
                return self._viewed(file)
        try:
            return memoryview(source).cast("B")
        except TypeError:
            pass
        try:
            mapped = mmap.mmap(source.fileno(), 0, access=mmap.ACCESS_READ)
        except (AttributeError, OSError, ValueError):  # It isn't a file of the system, or an empty one.
            try:
                source.seek(0)
                return memoryview(calls._bytes(source.read(), "what the file reads"))
            except AttributeError:
                raise calls._refused("source", source, "a path, a binary file or bytes") from None
        self._opened.append(mapped)
        return memoryview(mapped)

    def close(self) -> None:
        """Closes what was opened. Bytes of boxes that are still used keep the file in memory until they are freed."""
        self._view = None
        for it in reversed(self._opened):
            try:
                it.close()
            except BufferError:
                pass
        self._opened = []

    def __enter__(self) -> "File":
        return self

    def __exit__(self, *_: Any) -> None:
        self.close()

    @property
    def data(self) -> memoryview:
        """The bytes of the file."""
        if self._view is None:
            raise ValueError("the file is closed")
        return self._view

    def bytes_at(self, position: int, length: int) -> memoryview:
        """Returns bytes of the file: those of the `length` at `position` that it has."""
        return self.data[position:position + length]

    def _walked(self, begin: int, data: memoryview) -> List[Box]:
        """Returns the boxes at the top level of `data`, with those inside. The data are at `begin` in the file."""
        top: List[Box] = []
        around: List[Box] = []
        for found in calls.tree(data):
            del around[found.depth:]
            box = Box(self, found, begin, around[-1] if around else None)
            (around[-1].children if around else top).append(box)
            around.append(box)
        return top

    @property
    def children(self) -> List[Box]:
        """The boxes at the top level, in order. Each has its own `children`."""
        if self._boxes is None:
            self._boxes = self._walked(0, self.data)
        return self._boxes

    def walk(self) -> Iterator[Box]:
        """Yields all boxes of the file, each followed by those inside."""
        for it in self.children:
            yield from it.walk()

    def find(self, path: str) -> Optional[Box]:
        """Returns the box at a path such as `moov/trak[1]/mdia/mdhd`, or None if there is none. `[1]` is the second box
        with its code in the box around it."""
        root = Box.__new__(Box)
        root.children = self.children
        return root.find(path)

    def __getitem__(self, path: str) -> Box:
        """Returns the box at a path. If there is none, the Mp4Error has the status BOX_NOT_FOUND."""
        found = self.find(path)
        if found is None:
            raise Mp4Error(BOX_NOT_FOUND, f"there is no {path!r}", path="")
        return found

    @property
    def movie(self) -> Optional[Box]:
        """The first `moov` of the file, or None. To find it, only headers of the top level are read."""
        if self._movie is None:
            place = calls.find(self.data, "moov")
            if place is not None:
                inside = self.bytes_at(place.position, place.length)
                self._movie = self._walked(place.position, inside)[0]
        return self._movie

    @property
    def tracks(self) -> List[Track]:
        """The tracks of the first `moov`, in order. A file without one has none."""
        if self._tracks is None:
            traks = [it for it in self.movie.children if it.code == "trak"] if self.movie else []
            self._tracks = [Track(it, number) for number, it in enumerate(traks)]
        return self._tracks

    @functools.cached_property
    def _info(self) -> calls.FileInfo:
        """The file, as the library knows it."""
        return calls.info(self.data)

    @property
    def brands(self) -> List[str]:
        """The brands of the file: the major brand, then the compatible brands."""
        return [_fields.code_of(it) for it in self._info.brands]

    @property
    def seconds(self) -> float:
        """The duration of the longest track, rounded to thousandths of a second."""
        return self._info.milliseconds / 1000

    @property
    def is_fragmented(self) -> bool:
        """Whether the movie may have fragments, or the file has some."""
        return self._info.is_fragmented

    @property
    def is_progressive(self) -> bool:
        """Whether the file has a movie without fragments."""
        return self._info.has_movie and not self._info.is_fragmented

    @property
    def moov_first(self) -> Optional[bool]:
        """Whether the first `moov` is before the media data. It is None without one of them."""
        return {calls.MOOV_FIRST: True, calls.MOOV_LAST: False}.get(self._info.order)

    def faults(self) -> List[Fault]:
        """Returns the faults that `mp4inspect check` finds, in its order: those of single boxes, of tracks, of
        fragments and of indexes."""
        severities = {calls.ERROR: "error", calls.WARNING: "warning"}
        return [Fault(it.position, it.path, calls.fault_name(it.code), severities[it.severity], it.text)
                for it in calls.check_file(self.data)]

    def changed(self, changes: Dict[Box, Union[_fields.Fields, bytes]]) -> bytearray:
        """Returns the bytes of the file with some boxes replaced. A box has to keep its length, so that no size and no
        offset in the file changes."""
        found = bytearray(self.data)
        for box, given in changes.items():
            new = given.write() if isinstance(given, _fields.Fields) else calls._bytes(given, "the new box")
            if len(new) != box.length:
                raise Mp4Error(calls.INVALID_DATA, f"the new box has {len(new)} bytes, not {box.length}",
                               position=box.position, path=box.path)
            found[box.position:box.position + box.length] = new
        return found


def units(sample: Any, length_size: int = 4) -> Iterator[memoryview]:
    """Yields the NAL units of a sample of AVC or HEVC video. Before each is its length in `length_size` bytes.

    >>> [bytes(it) for it in units(b"\\0\\0\\0\\2ab\\0\\0\\0\\1c")]
    [b'ab', b'c']
    """
    view, at = memoryview(sample).cast("B"), 0
    calls._number(length_size, calls._Numbers(calls.u8, (1, 2, 4), "1, 2 or 4"), "length_size")
    while at < len(view):
        begin = at + length_size
        at = begin + int.from_bytes(view[at:begin], "big")
        if at > len(view):
            raise Mp4Error(calls.END_OF_INPUT, f"a NAL unit ends at {at} in a sample of {len(view)} bytes")
        yield view[begin:at]
