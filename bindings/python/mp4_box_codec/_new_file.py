"""New files: what `mp4remux` writes, without a copy of the media data."""

from dataclasses import dataclass
from decimal import Decimal
from fractions import Fraction
from typing import Any, BinaryIO, List, Optional, Sequence, Tuple, Union

from . import _fields, calls
from ._file import File, Source
from .calls import ChangeRow, Refused

Refused.__module__ = __package__
# A time in seconds, and a box as its bytes or as an instance of its class.
Seconds = Union[int, float, Fraction, Decimal]
Written = Union[_fields.Fields, bytes, bytearray, memoryview]


class NewFile:
    """A new file, as pieces of an old file and new bytes. `faststart`, `edit`, `fragment`, `defragment` and `cut` make
    it. The old file has to stay as it is, and open, until the new one is written."""

    def __init__(self, file: File, found: calls.NewFile) -> None:
        self._file, self._found = file, found

    @property
    def parts(self) -> List[memoryview]:
        """The bytes of the pieces, in their order and without a copy: those of the old file, and new ones."""
        new = memoryview(self._found.new_bytes)
        return [new[it.position:it.position + it.length] if it.is_new else self._file.bytes_at(it.position, it.length)
                for it in self._found.pieces]

    @property
    def pieces(self) -> List[calls.Piece]:
        """The pieces: positions and lengths. Those that are new are positions in `new_bytes`."""
        return self._found.pieces

    @property
    def new_bytes(self) -> bytes:
        """The new bytes, one piece after the other."""
        return self._found.new_bytes

    @property
    def length(self) -> int:
        """The number of bytes."""
        return self._found.length

    @property
    def fragments(self) -> int:
        """The number of fragments that `fragment` makes or `defragment` joins."""
        return self._found.fragments

    @property
    def samples(self) -> int:
        """The number of samples in the new tables of `defragment`, or in the part of `cut`."""
        return self._found.samples

    @property
    def moved(self) -> Optional[Tuple[int, int]]:
        """The old and the new position of the `moov` that `faststart` moves, or None if the new file is a copy."""
        places = self._found.moved_from, self._found.moved_to
        return places if places[0] != places[1] else None

    def write(self, file: BinaryIO) -> None:
        """Writes the bytes to a binary file, which must not be the old one."""
        for part in self.parts:
            while part:
                written = file.write(part)
                part = part[written:] if isinstance(written, int) else part[:0]

    def tobytes(self) -> bytes:
        """Returns the bytes."""
        return b"".join(self.parts)

    def __repr__(self) -> str:
        return f"<NewFile of {self.length} bytes in {len(self.pieces)} pieces>"


def _box(given: Any, name: str) -> bytes:
    """Returns a box of the caller as its bytes."""
    return given.write() if isinstance(given, _fields.Fields) else calls._bytes(given, name)


def _number_of(code: str, name: str) -> int:
    """Returns the number of a code of four characters."""
    return int.from_bytes(_code(code, name), "big")


def _code(given: Any, name: str) -> bytes:
    """Returns the bytes of a code of four characters, each with the number of its byte."""
    try:
        code = str.encode(given, "latin-1")
    except (TypeError, UnicodeEncodeError):
        code = b""
    if len(code) != 4:
        raise calls._refused(name, given, "a code of four characters")
    return code


@dataclass(frozen=True)
class Change:
    """A change of a file that `edit` makes, such as `Change.remove("moov/udta")`. A path is that of `File.find`. A
    track is that with the track_ID."""
    row: ChangeRow

    @classmethod
    def remove(cls, path: str) -> "Change":
        """Removes the box at a path."""
        return cls(ChangeRow(calls.CHANGE_REMOVE, path))

    @classmethod
    def insert(cls, path: str, boxes: Written, before: Optional[int] = None) -> "Change":
        """Inserts boxes into the box at a path, or into the file if that is `/`: before the box of the number `before`
        inside, counted from 0, or after the last one."""
        number = calls.LAST if before is None else before
        return cls(ChangeRow(calls.CHANGE_INSERT, path, _box(boxes, "boxes"), number))

    @classmethod
    def replace(cls, path: str, box: Written) -> "Change":
        """Replaces the box at a path by another one."""
        return cls(ChangeRow(calls.CHANGE_REPLACE, path, _box(box, "box")))

    @classmethod
    def brands(cls, brands: Sequence[str]) -> "Change":
        """Sets the major brand to the first of these, and adds those that are missing to the compatible brands."""
        codes = [_code(it, f"brands[{at}]") for at, it in enumerate(calls._copied(brands, "brands", "a list of codes"))]
        return cls(ChangeRow(calls.CHANGE_BRANDS, bytes=b"".join(codes)))

    @classmethod
    def language(cls, track_id: int, language: str) -> "Change":
        """Sets the language of a track to three lower-case letters, such as `deu`."""
        text = calls._text(language, "language")
        return cls(ChangeRow(calls.CHANGE_LANGUAGE, bytes=text, track_id=track_id))

    @classmethod
    def rotate(cls, track_id: int, degrees: int) -> "Change":
        """Turns the pictures of a track clockwise by 0, 90, 180 or 270 degrees."""
        return cls(ChangeRow(calls.CHANGE_ROTATE, track_id=track_id, value=degrees))

    @classmethod
    def enable(cls, track_id: int) -> "Change":
        """Enables a track."""
        return cls(ChangeRow(calls.CHANGE_ENABLE, track_id=track_id, value=1))

    @classmethod
    def disable(cls, track_id: int) -> "Change":
        """Disables a track."""
        return cls(ChangeRow(calls.CHANGE_ENABLE, track_id=track_id))

    @classmethod
    def no_tags(cls) -> "Change":
        """Removes the tags of the movie."""
        return cls(ChangeRow(calls.CHANGE_NO_TAGS))

    @classmethod
    def title(cls, text: str) -> "Change":
        """Sets the title."""
        return cls.tag("\xa9nam", text)

    @classmethod
    def tag(cls, code: str, text: str) -> "Change":
        """Sets the tag of iTunes with a code, such as `\xa9alb`, to a text."""
        return cls(ChangeRow(calls.CHANGE_TAG, bytes=calls._text(text, "text"), value=_number_of(code, "code")))

    @classmethod
    def cover(cls, picture: Any) -> "Change":
        """Sets the cover to the bytes of a picture, a JPEG or PNG."""
        return cls(ChangeRow(calls.CHANGE_COVER, bytes=calls._bytes(picture, "picture")))

    @classmethod
    def drop_track(cls, track_id: int) -> "Change":
        """Drops a track, with its samples in fragments."""
        return cls(ChangeRow(calls.CHANGE_DROP_TRACK, track_id=track_id))


def _opened(source: Union[File, Source]) -> File:
    """Returns a file of the caller, or one that is opened here."""
    return source if isinstance(source, File) else File(source)


def _nanoseconds(given: Seconds, name: str) -> int:
    """Returns a time in seconds as nanoseconds, rounded."""
    try:
        number = round(Fraction(given) * 10 ** 9)
    except (TypeError, ValueError, OverflowError):
        raise calls._refused(name, given, "a number of seconds") from None
    return calls._number(number, calls._ALL[calls.u64], name)


def faststart(source: Union[File, Source]) -> NewFile:
    """Returns the file with its `moov` before its media data: what `mp4remux faststart` writes. Every offset leads to
    the same byte. If no media data are before the `moov`, the new file is a copy."""
    file = _opened(source)
    return NewFile(file, calls.faststart(file.data))


def edit(source: Union[File, Source], changes: Sequence[Change]) -> NewFile:
    """Returns the file with some changes: what `mp4remux edit` writes. Every sample of every track is kept, except
    those of tracks that are dropped, and offsets lead to the same bytes. Paths and numbers are those of the file before
    all changes."""
    rows = [calls._field(it, "row", f"changes[{at}]")
            for at, it in enumerate(calls._copied(changes, "changes", "a list of changes"))]
    file = _opened(source)
    return NewFile(file, calls.edit(file.data, rows))


def fragment(source: Union[File, Source], *, seconds: Optional[Seconds] = None, sidx: bool = False,
             mfra: bool = False, styp: bool = False) -> NewFile:
    """Returns the file with all samples in fragments: what `mp4remux fragment` writes. Each fragment but the last
    lasts `seconds` at least. Without that a video is cut at each sync sample, and other media every two seconds. The
    others ask for a `sidx` before the fragments, an `mfra` after them, and a `styp` before each."""
    file, least = _opened(source), 0 if seconds is None else _nanoseconds(seconds, "seconds")
    return NewFile(file, calls.fragment(file.data, least, sidx, mfra, styp))


def defragment(source: Union[File, Source]) -> NewFile:
    """Returns the file with all samples in tables: what `mp4remux defragment` writes."""
    file = _opened(source)
    return NewFile(file, calls.defragment(file.data))


def cut(source: Union[File, Source], begin: Seconds, end: Seconds) -> NewFile:
    """Returns the part of the file between two times of the presentation in seconds: what `mp4remux cut` writes. It
    begins with a sync sample of the video, and an edit list hides what is before `begin`."""
    file = _opened(source)
    return NewFile(file, calls.cut(file.data, _nanoseconds(begin, "begin"), _nanoseconds(end, "end")))
