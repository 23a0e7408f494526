"""The calls of libmp4_box_codec, a function for each, with numbers and codes as in the header `mp4_box_codec.h`. The
classes of `mp4_box_codec` are over these.

You can pass bytes as any object with a buffer: `bytes`, a `bytearray`, a `memoryview`, an `mmap.mmap` of a file. The
module doesn't copy them, so no other thread may write to them during a call; docs/PYTHON.md has all rules.

>>> from mp4_box_codec import calls
>>> stts = bytes.fromhex("00000018 73747473 00000000 00000001 00000003 0000000a")
>>> calls.list(stts)
[Span(position=0, length=24, header_length=8, code=1937011827)]
>>> calls.list(stts)[0].name
'stts'
>>> calls.stts(stts).rows
[SttsRow(sample_count=3, sample_delta=10)]

Rows of one number are an array of the module `array`:

>>> calls.stss(bytes.fromhex("00000018 73747373 00000000 00000002 00000001 00000006"))
Table(version=0, flags=0, rows=array('I', [1, 6]))

A fault is an Mp4Error, whose `status` is a number of the header:

>>> calls.check(stts[:20])
Traceback (most recent call last):
mp4_box_codec.Mp4Error: unexpected end of input
"""

import array
import collections
import ctypes
import functools
import json
import operator
import os
from struct import Struct, calcsize
from typing import Any, Callable, Dict, Iterator, List, NamedTuple, Optional, Tuple, Union

from ._library import load

OK, END_OF_INPUT, INVALID_DATA, BOX_NOT_FOUND, OUT_OF_MEMORY, NO_ROOM = 0, 1, 2, 3, 12, 100
NO_TRACK, UNKNOWN_BOX, REFUSED = 101, 102, 103
# The severities of a Fault, and the values of `order` of a FileInfo: where the first moov is.
ERROR, WARNING = 1, 2
ORDER_UNKNOWN, MOOV_FIRST, MOOV_LAST = range(3)
# The values of `what` of a Box: the state of a box, or of the place where one should begin.
LEAF, PARENT, TOO_DEEP, CUT, SMALL, NO_HEADER = range(6)
# The values of `kind` of a ChangeRow, and the `number` of an insertion after the last box.
(CHANGE_REMOVE, CHANGE_INSERT, CHANGE_REPLACE, CHANGE_BRANDS, CHANGE_LANGUAGE, CHANGE_ROTATE, CHANGE_ENABLE,
 CHANGE_NO_TAGS, CHANGE_TAG, CHANGE_COVER, CHANGE_DROP_TRACK) = range(1, 12)
LAST = 2 ** 64 - 1

u8, u16, u32, u64, size = ctypes.c_uint8, ctypes.c_uint16, ctypes.c_uint32, ctypes.c_uint64, ctypes.c_size_t
i8, i16, i32, i64 = ctypes.c_int8, ctypes.c_int16, ctypes.c_int32, ctypes.c_int64


class Mp4Error(ValueError):
    """An error of a call, with a status of the library. If the module refuses a value before it calls the library, the
    status is INVALID_DATA, and the text names the field, the value, and what was expected. `position` and `path` are
    those of the box in its file, or None if the bytes are of no file."""

    def __init__(
        self, status: int, refused: str = "", *, position: Optional[int] = None, path: Optional[str] = None
    ) -> None:
        text = status_text(status) + (f": {refused}" if refused else "")
        place = path or ("the file" if path == "" else "")
        place += f" at {position}" if position is not None and path != "" else ""
        super().__init__(f"{place}: {text}" if place else text)
        self.status, self.refused, self.position, self.path = status, refused, position, path

    def at(self, position: int, path: str) -> "Mp4Error":
        """Returns this error with the place of a box."""
        return Mp4Error(self.status, self.refused, position=position, path=path)


class Refused(Mp4Error):
    """There is no such new file. `reason` is the line that `mp4remux` prints."""

    def __init__(self, reason: str) -> None:
        super().__init__(REFUSED, reason)
        self.reason = reason

    def __str__(self) -> str:
        return self.reason


class _Numbers(NamedTuple):
    """The numbers that a field holds: its type in C, the numbers themselves, and their name in messages."""
    kind: Any
    allowed: Any
    words: str


@functools.lru_cache(maxsize=None)
def _numbers(kind: Any, bits: int) -> _Numbers:
    """Returns the numbers of `bits` bits, signed if `kind` is."""
    low = -(1 << bits - 1) if kind(-1).value < 0 else 0
    high = low + (1 << bits) - 1
    return _Numbers(kind, range(low, high + 1), f"a number from {low} to {high}")


# All numbers of a type of C.
_ALL = {kind: _numbers(kind, 8 * ctypes.sizeof(kind)) for kind in (u8, u16, u32, u64, i8, i16, i32, i64)}
# The numbers of fields that hold fewer numbers than their type of C, such as the flags of a box.
_u1, _u2, _u3, _u4, _u6 = (_numbers(u8, bits) for bits in (1, 2, 3, 4, 6))
_u24 = _numbers(u32, 24)
_up_stream = _Numbers(u8, (0, 2), "0 or 2")
_object_type = _Numbers(u8, (*range(31), *range(32, 96)), "a number from 0 to 95 without 31")
# A time has 64 bits in version 1 of its box, else 32. These two are recognized by their identity.
_time, _signed_time = _Numbers(*_numbers(u64, 64)), _Numbers(*_numbers(i64, 64))
_short_time = _Numbers(u64, range(1 << 32), f"{_numbers(u64, 32).words} (a time has 64 bits in version 1 only)")
_short_signed_time = _Numbers(
    i64, _numbers(i32, 32).allowed, f"{_numbers(i32, 32).words} (a time has 64 bits in version 1 only)")


def _refused(name: str, given: Any, wanted: str) -> Mp4Error:
    """Returns the error that `given`, called `name`, isn't the kind of value that the field needs."""
    try:
        shown = repr(given)
    except Exception:  # It has no text, as an int of more digits than Python shows.
        shown = f"of the type {type(given).__name__}"
    return Mp4Error(INVALID_DATA, f"{name} is {shown if len(shown) <= 80 else shown[:80] + '..'}, not {wanted}")


def _number(given: Any, numbers: _Numbers, name: str) -> int:
    """Returns `given`, one of `numbers`, as an int. Refuses other numbers, bools, and values that aren't whole."""
    try:
        number = None if isinstance(given, bool) else int(operator.index(given))
    except TypeError:
        number = None
    if number is None or number not in numbers.allowed:
        raise _refused(name, given, numbers.words)
    return number


def _copied(given: Any, name: str, wanted: str) -> List[Any]:
    """Copies a list of the caller. The module then uses the copy, since the list itself may change meanwhile."""
    try:
        return [*given]
    except TypeError:
        raise _refused(name, given, wanted) from None


def _numbers_of(given: List[Any], numbers: _Numbers, name: str) -> List[int]:
    """Returns the elements of `given`, each of them one of `numbers`. In `name` the index of an element is `{}`."""
    allowed = numbers.allowed
    if {*map(type, given)} == {int} and min(given) in allowed and max(given) in allowed:
        return given
    return [_number(it, numbers, name.format(at)) for at, it in enumerate(given)]


def _bytes(given: Any, name: str) -> bytes:
    """Copies the bytes of an object with a buffer."""
    try:
        return memoryview(given).tobytes()
    except TypeError:
        raise _refused(name, given, "bytes") from None


def _text(given: Any, name: str, zeros: bool = True) -> bytes:
    """Returns a text in UTF-8. Refuses one with a zero, unless `zeros` are allowed."""
    try:
        text = str.encode(given)
    except (TypeError, UnicodeEncodeError):
        raise _refused(name, given, "a text") from None
    if not zeros and 0 in text:
        raise _refused(name, given, "a text without a zero")
    return text


def _language(given: Any, name: str) -> bytes:
    """Returns the three letters of a language. Their five bits also hold the six characters around `a` to `z`, which
    `mdhd` returns for the numbers of languages in QuickTime files: a language that was read can be written."""
    if not isinstance(given, str) or len(given) != 3 or not all("`" <= it <= "\x7f" for it in given):
        raise _refused(name, given, "three letters from a to z")
    return str.encode(given)


def _field(value: Any, field: str, name: str) -> Any:
    """Returns a field of a named tuple. Refuses a tuple without it."""
    try:
        return getattr(value, field)
    except AttributeError:
        raise Mp4Error(INVALID_DATA, f"{name}.{field} is missing") from None


def _name(code: int) -> str:
    """Returns the four characters of a code, each with the number of its byte."""
    return code.to_bytes(4, "big").decode("latin-1")


class Span(NamedTuple):
    """The position of a box: the offset of its first byte, its length including its header, the length of the header,
    and its code as a number."""
    position: int
    length: int
    header_length: int
    code: int

    @property
    def name(self) -> str:
        """The four characters of the code, each with the number of its byte."""
        return _name(self.code)

    def of(self, listed: Any) -> memoryview:
        """Returns the bytes of the box, including its header, in the bytes that were listed."""
        return memoryview(listed).cast("B")[self.position:self.position + self.length]

    def content_of(self, listed: Any) -> memoryview:
        """Returns the bytes after the header: the boxes inside, if the box contains only boxes."""
        return self.of(listed)[self.header_length:]


class Place(NamedTuple):
    """A box at a path: the fields of a span, and `is_whole`, which is False if the box is cut, or if the `length` that
    its header states is smaller than the header."""
    position: int
    length: int
    header_length: int
    code: int
    is_whole: bool


class Box(NamedTuple):
    """A box of a file, at any level. In its path `[1]` is the second box with its code in the enclosing box, and no
    number is the first. `length` is the length that its header states. `children` is the position of the first box
    inside, or 0. `depth` is the number of boxes around it. `parent` is the code of the enclosing box, and `handler` the
    handler of the enclosing media, or 0. `what` is LEAF, PARENT or TOO_DEEP for a whole box, and else CUT, SMALL or
    NO_HEADER."""
    path: str
    position: int
    length: int
    header_length: int
    children: int
    depth: int
    code: int
    parent: int
    handler: int
    what: int
    stsd_version: int

    @property
    def name(self) -> str:
        """The four characters of the code, each with the number of its byte."""
        return _name(self.code)

    def of(self, data: Any) -> memoryview:
        """Returns the bytes of the box, including its header, in the bytes of the file: those that the file has."""
        return memoryview(data).cast("B")[self.position:self.position + self.length]


class Sample(NamedTuple):
    """A sample of a track, with its offset in the file. Times are in the timescale of the media; `description` and
    `chunk` count from 1, and `sync` is True for a sync sample."""
    offset: int
    decode_time: int
    rendering_offset: int
    size: int
    duration: int
    description: int
    chunk: int
    sync: bool

    @property
    def presentation_time(self) -> int:
        """The time at which the sample is shown, without the edits of the track."""
        return self.decode_time + self.rendering_offset


class Fault(NamedTuple):
    """A fault of a file: the position and the path of the box that has it, the number of its code, its severity ERROR
    or WARNING, and what is wrong."""
    position: int
    path: str
    code: int
    severity: int
    text: str


class JsonFault(NamedTuple):
    """What is wrong with the JSON of a box. `path` is that of the member, such as `references[3].SAP_type`, or empty
    for the whole text. `reason` is a number of the header, and `text` is for people."""
    path: str
    reason: int
    text: str


class TrackSamples(NamedTuple):
    """The samples of a track. `end` is the time at which the last one ends, in the timescale. `frames` frames in
    `frame_units` seconds are the frame rate; both are 0 without one. `bit_rate` is that of a second on average."""
    sample_count: int
    key_frames: int
    bytes: int
    end: int
    bit_rate: int
    frames: int
    frame_units: int
    is_constant: bool


class TrackSound(NamedTuple):
    """The sound of a track: the sample rate in hertz, the channels of the full range, and those of low frequencies."""
    sample_rate: int
    channels: int
    low_channels: int


class TrackPicture(NamedTuple):
    """The pictures of a track: their size in pixels, the shape of a pixel, and the degrees by which a player turns them
    clockwise. `has_rotation` is False if the matrix of the track does something else."""
    width: int
    height: int
    h_spacing: int
    v_spacing: int
    rotation: int
    has_rotation: bool


class TrackProtection(NamedTuple):
    """The encryption of a track: the code of the sample entry before it was encrypted, the scheme as a code, and the
    default KID."""
    original: int
    scheme: int
    kid: bytes
    is_encrypted: bool
    has_kid: bool


class TrackInfo(NamedTuple):
    """A track that `mp4inspect info` reports. A number that is not known is 0, and a text is then empty. The duration
    by the edits is `duration` / `duration_scale` seconds."""
    kind: str
    codec: str
    language: str
    samples: TrackSamples
    duration: int
    duration_scale: int
    sound: TrackSound
    picture: TrackPicture
    track_id: int
    handler: int
    timescale: int
    entry: int
    protection: TrackProtection
    has_samples: bool
    has_picture: bool
    has_sound: bool


class FileInfo(NamedTuple):
    """A file that `mp4inspect info` reports. `brands` begins with the major brand, and `milliseconds` is the duration
    of the longest track."""
    length: int
    milliseconds: int
    is_fragmented: bool
    has_movie: bool
    has_items: bool
    order: int
    brands: "array.array[int]"
    tracks: List[TrackInfo]


class Piece(NamedTuple):
    """A piece of a new file: the position of its first byte, in the old file or in the new bytes, its length, and
    whether it is in the new bytes."""
    position: int
    length: int
    is_new: bool


class NewFile(NamedTuple):
    """A new file: its pieces, the new bytes, and its length. `fragments` are made or joined, and `samples` are in new
    tables or in a part. A moov is moved from `moved_from` to `moved_to`; both are 0 if it isn't."""
    pieces: List[Piece]
    new_bytes: bytes
    length: int
    fragments: int
    samples: int
    moved_from: int
    moved_to: int


class ChangeRow(NamedTuple):
    """A change of a file. The header says which fields each kind has: CHANGE_REMOVE to CHANGE_DROP_TRACK."""
    kind: int
    path: str = ""
    bytes: bytes = b""
    number: int = LAST
    track_id: int = 0
    value: int = 0


class SttsRow(NamedTuple):
    """A run of samples with the same duration, in the timescale of the media."""
    sample_count: int
    sample_delta: int


class CttsRow(NamedTuple):
    """A run of samples with the same composition offset, in the timescale of the media; signed in every version."""
    sample_count: int
    sample_offset: int


class StscRow(NamedTuple):
    """A run of chunks with the same number of samples each. All numbers count from 1; `first_sample` is computed."""
    first_chunk: int
    samples_per_chunk: int
    sample_description_index: int
    first_sample: int = 0


class ElstRow(NamedTuple):
    """An edit. An empty edit has the `media_time` -1."""
    segment_duration: int
    media_time: int
    media_rate: int
    media_rate_fraction: int


class TrunRow(NamedTuple):
    """The fields that a run of a track fragment has for one sample; the others are 0. The composition offset is signed
    in every version."""
    duration: int
    size: int
    flags: int
    composition_offset: int


Rows = Union["array.array[int]", List[SttsRow], List[CttsRow], List[StscRow], List[ElstRow]]


class Table(NamedTuple):
    """A table: the version and flags of its box, and its rows as an array of numbers or a list."""
    version: int
    flags: int
    rows: Any


class Sizes(NamedTuple):
    """The sizes of samples. If `sample_size` is 0, `rows` has the size of each sample; else it is the size of all."""
    version: int
    flags: int
    sample_size: int
    sample_count: int
    rows: "array.array[int]"


class Run(NamedTuple):
    """The samples of a run of a track fragment. Its flags say which fields it has (8.8.8); the others are 0."""
    version: int
    flags: int
    sample_count: int
    data_offset: int
    first_sample_flags: int
    rows: List[TrunRow]


# A type checker wants the names of `collections.namedtuple` in the source.
_named: Any = collections.namedtuple
_STRUCTS: Dict[str, Any] = {}


def _struct(name: str, **fields: Any) -> Any:
    """Defines a struct of the header. Each field is a type of C, or the numbers that it holds if they are fewer."""
    narrow = {field: it for field, it in fields.items() if isinstance(it, _Numbers)}
    types = [(field, it.kind if isinstance(it, _Numbers) else it) for field, it in fields.items()]
    _STRUCTS[name] = type(name, (ctypes.Structure,), {"_fields_": types, "_narrow_": narrow})
    return _STRUCTS[name]


def numbers_of(name: str, field: str, version: int) -> Optional[_Numbers]:
    """Returns the numbers that a field of the struct `name` holds in a version of its box, if it holds one number."""
    made = _STRUCTS[name]
    kind = dict(made._fields_).get(field)
    return _holds(made, field, kind, version) if kind in _ALL else None


def _holds(struct: Any, field: str, kind: Any, version: Any) -> _Numbers:
    """Returns the numbers that `field`, of the type `kind`, holds in a version of its box."""
    numbers: _Numbers = struct._narrow_.get(field) or _ALL[kind]
    if version == 1:
        return numbers
    return _short_time if numbers is _time else _short_signed_time if numbers is _signed_time else numbers


# The structs of the header, in its order.
_SPAN = _struct("mp4_span", position=u64, length=u64, header_length=u64, code=u32)
_PLACE = _struct("mp4_place", position=u64, length=u64, header_length=u64, code=u32, is_whole=u8)
_BOX = _struct("mp4_box", position=u64, length=u64, header_length=u64, children=u64, depth=u64, code=u32, parent=u32,
               handler=u32, what=u8, stsd_version=u8)
_LEVEL = _struct("mp4_walk_level", end=u64, parent=u32, handler=u32, stsd_version=u8)
_WALK = _struct("mp4_walk", position=u64, wanted=u64, length=u64, count=u64, levels=_LEVEL * 33)
_SAMPLE = _struct("mp4_sample", offset=u64, decode_time=u64, rendering_offset=i64, size=u32, duration=u32,
                  description=u32, chunk=u32, sync=u8)
_TABLE = _struct("mp4_table", count=size, flags=_u24, version=u8)
_STSZ = _struct("mp4_stsz_table", count=size, flags=_u24, sample_size=u32, sample_count=u32, version=u8)
_TRUN = _struct("mp4_trun_table", count=size, flags=_u24, sample_count=u32, data_offset=i32, first_sample_flags=u32,
                version=u8)
_STTS = _struct("mp4_stts_row", sample_count=u32, sample_delta=u32)
_CTTS = _struct("mp4_ctts_row", sample_count=u32, sample_offset=i32)
_STSC = _struct("mp4_stsc_row", first_chunk=u32, samples_per_chunk=u32, sample_description_index=u32, first_sample=u32)
_ELST = _struct("mp4_elst_row", segment_duration=_time, media_time=_signed_time, media_rate=u16,
                media_rate_fraction=u16)
_RUN = _struct("mp4_trun_row", duration=u32, size=u32, flags=u32, composition_offset=i32)
_PART = _struct("mp4_text_part", position=size, length=size)
_FAULT = _struct("mp4_fault", position=u64, path=_PART, text=_PART, code=u32, severity=u32)
_FAULTS = _struct("mp4_fault_table", count=size, text_bytes=size)
_JSON_FAULT = _struct("mp4_json_fault", path=_PART, text=_PART, text_bytes=size, reason=u32)
_TRACK_SAMPLES = _struct("mp4_track_samples", sample_count=u64, key_frames=u64, bytes=u64, end=u64, bit_rate=u64,
                         frames=u64, frame_units=u64, is_constant=u8)
_TRACK_PICTURE = _struct("mp4_track_picture", width=u16, height=u16, h_spacing=u32, v_spacing=u32, rotation=u16,
                         has_rotation=u8)
_TRACK_SOUND = _struct("mp4_track_sound", sample_rate=u64, channels=u32, low_channels=u32)
_TRACK_PROTECTION = _struct("mp4_track_protection", original=u32, scheme=u32, kid=u8 * 16, is_encrypted=u8, has_kid=u8)
_TRACK_INFO = _struct("mp4_track_info", kind=_PART, codec=_PART, language=_PART, samples=_TRACK_SAMPLES, duration=u64,
                      duration_scale=u64, sound=_TRACK_SOUND, picture=_TRACK_PICTURE, track_id=u32, handler=u32,
                      timescale=u32, entry=u32, protection=_TRACK_PROTECTION, has_samples=u8, has_picture=u8,
                      has_sound=u8)
_FILE_INFO = _struct("mp4_file_info", brand_count=size, track_count=size, text_bytes=size, length=u64,
                     milliseconds=u64, is_fragmented=u8, has_movie=u8, has_items=u8, order=u8)
_PIECE = _struct("mp4_piece", position=u64, length=u64, is_new=u8)
_NEW_FILE = _struct("mp4_new_file", piece_count=size, new_bytes=size, text_bytes=size, length=u64, fragments=u64,
                    samples=u64, moved_from=u64, moved_to=u64)
_CHANGE = _struct("mp4_change", path=_PART, bytes=_PART, number=u64, kind=u32, track_id=u32, value=u32)
_FRAGMENT_OPTIONS = _struct("mp4_fragment_options", least=u64, has_sidx=u8, has_mfra=u8, has_styp=u8)
# Numbers that are returned as an array, by the letter of their type in an array.
_ARRAYS = {u8: "B", u32: "I", u64: "Q"}


class _Buffer(ctypes.Structure):
    """Python's Py_buffer."""
    _fields_ = [
        ("buf", ctypes.c_void_p), ("obj", ctypes.py_object), ("len", ctypes.c_ssize_t), ("itemsize", ctypes.c_ssize_t),
        ("readonly", ctypes.c_int), ("ndim", ctypes.c_int), ("format", ctypes.c_char_p), ("shape", ctypes.c_void_p),
        ("strides", ctypes.c_void_p), ("suboffsets", ctypes.c_void_p), ("internal", ctypes.c_void_p),
    ]


class _Bytes:
    """The address and the length of a buffer, while it is held. The address is never 0."""

    def __init__(self, data: Any) -> None:
        self.data, self.buffer = data, _Buffer()

    def __enter__(self) -> Tuple[int, int]:
        ctypes.pythonapi.PyObject_GetBuffer(ctypes.py_object(self.data), ctypes.byref(self.buffer), 0)
        return self.buffer.buf or ctypes.addressof(self.buffer), self.buffer.len

    def __exit__(self, *_: Any) -> None:
        ctypes.pythonapi.PyBuffer_Release(ctypes.byref(self.buffer))


_library = load()


def _function(name: str, *types: Any) -> Callable[..., int]:
    found: Any = getattr(_library, name)
    found.argtypes, found.restype = types, u32
    function: Callable[..., int] = found
    return function


def _filled(name: str, row: Any, summary: Any, *more: Any) -> Callable[..., Tuple[Any, Any]]:
    """Returns a call that fills an array and a summary. It calls the library twice: for the number of rows, and for the
    rows. `more` are the types of further arguments, which follow the bytes."""
    function = _function(name, ctypes.c_void_p, size, *more, ctypes.c_void_p, size, ctypes.c_void_p)

    def call(data: Any, *given: Any) -> Tuple[Any, Any]:
        rows, found = (row * 1)(), summary()
        with _Bytes(data) as (address, length):
            status = function(address, length, *given, ctypes.addressof(rows), 0, ctypes.addressof(found))
            count = getattr(found, "count", None) if summary is not size else found.value
            if status == NO_ROOM:
                rows = (row * count)()
                status = function(address, length, *given, ctypes.addressof(rows), count, ctypes.addressof(found))
        if status != OK:
            raise Mp4Error(status)
        return (rows if count else ()), found

    return call


_LETTER = {u8: "B", u16: "H", u32: "I", u64: "Q", i32: "i", i64: "q"}


def _packed(row: Any) -> Struct:
    """Returns how the module `struct` unpacks a struct of the header."""
    text, end = "=", 0
    for field, kind in row._fields_:
        text += "x" * (getattr(row, field).offset - end) + ("?" if field in ("sync", "is_new") else _LETTER[kind])
        end = calcsize(text)
    return Struct(text + "x" * (ctypes.sizeof(row) - end))


def _listed(rows: Any, into: Any, row: Any) -> Any:
    """Returns the rows as an array of numbers, or as a list of named tuples."""
    if row in _ARRAYS:
        found = array.array(_ARRAYS[row])
        found.frombytes(bytes(rows))
        return found
    return [*map(into._make, _packed(row).iter_unpack(bytes(rows)))]


def _table(name: str, row: Any, into: Any, words: str) -> Callable[[Any], Table]:
    """Returns a function that reads the table at the front of bytes, which begin with the header of its box."""
    fill = _filled(f"mp4_{name}", row, _TABLE)

    def read(data: Any) -> Table:
        rows, found = fill(data)
        return Table(found.version, found.flags, _listed(rows, into, row))

    read.__name__, read.__doc__ = name, f"The {words}. Of the box at the front of the bytes, header included."
    return read


stco = _table("stco", u32, None, "offsets of the chunks (8.7.5), in bytes from the front of the file")
co64 = _table("co64", u64, None, "offsets of the chunks (8.7.5), in bytes from the front of the file")
stss = _table("stss", u32, None, "numbers of the sync samples (8.6.2), counted from 1")
stts = _table("stts", _STTS, SttsRow, "durations of the samples (8.6.1.2)")
ctts = _table("ctts", _CTTS, CttsRow, "composition offsets of the samples (8.6.1.3)")
stsc = _table("stsc", _STSC, StscRow, "chunks of the samples (8.7.4)")
_elst = _table("elst", _ELST, ElstRow, "edits of a track (8.6.6)")
_stsz, _trun = _filled("mp4_stsz", u32, _STSZ), _filled("mp4_trun", _RUN, _TRUN)
_list, _normal = _filled("mp4_list", _SPAN, size), _filled("mp4_normal", u8, size)
_fields = _filled("mp4_fields", u8, size)
_check = _function("mp4_check", ctypes.c_void_p, size)
_find = _function("mp4_find", ctypes.c_void_p, size, ctypes.c_char_p, size, ctypes.POINTER(_PLACE))
_walk_begin = _function("mp4_walk_begin", u64, ctypes.POINTER(_WALK))
_walk_next = _function("mp4_walk_next", ctypes.c_char_p, size, ctypes.POINTER(_WALK), ctypes.POINTER(_BOX))
_samples, version = _filled("mp4_samples", _SAMPLE, size, u32), _function("mp4_version")
_fragment_samples = _filled("mp4_fragment_samples", _SAMPLE, size, u32)
_check_file = _function("mp4_check_file", ctypes.c_void_p, size, ctypes.c_void_p, size, ctypes.c_void_p, size,
                        ctypes.c_void_p)
_info = _function("mp4_info", ctypes.c_void_p, size, ctypes.c_void_p, size, ctypes.c_void_p, size, ctypes.c_void_p,
                  size, ctypes.c_void_p)
# The three arrays of a new file and its struct, after the arguments of a call.
_FILLED = (ctypes.c_void_p, size) * 3 + (ctypes.c_void_p,)
_faststart = _function("mp4_faststart", ctypes.c_void_p, size, *_FILLED)
_edit = _function("mp4_edit", ctypes.c_void_p, size, ctypes.c_void_p, size, ctypes.c_char_p, size, *_FILLED)
_fragment = _function("mp4_fragment", ctypes.c_void_p, size, ctypes.POINTER(_FRAGMENT_OPTIONS), *_FILLED)
_defragment = _function("mp4_defragment", ctypes.c_void_p, size, *_FILLED)
_cut = _function("mp4_cut", ctypes.c_void_p, size, u64, u64, *_FILLED)
_box_from_json = _function("mp4_box_from_json", u32, ctypes.c_char_p, size, ctypes.c_void_p, size, ctypes.c_void_p)
_check_json = _function("mp4_check_json", u32, ctypes.c_char_p, size, ctypes.c_void_p, size, ctypes.c_void_p)
_fault_name = _function("mp4_fault_name", u32, ctypes.c_char_p, size, ctypes.POINTER(size))
_status_text = _function("mp4_status_text", u32, ctypes.c_char_p, size, ctypes.POINTER(size))


def status_text(status: int) -> str:
    """Returns the meaning of a status.

    >>> status_text(NO_TRACK)
    'no track has the track_ID'
    """
    text, count = ctypes.create_string_buffer(200), size()
    _status_text(_number(status, _ALL[u32], "status"), text, len(text), count)
    return text.raw[:count.value].decode("ascii")


def fault_name(code: int) -> str:
    """Returns the word of the code of a fault, or an empty text if no code has this number.

    >>> fault_name(3)
    'box-cut'
    """
    text, count = ctypes.create_string_buffer(200), size()
    _fault_name(_number(code, _ALL[u32], "code"), text, len(text), count)
    return text.raw[:count.value].decode("ascii")


def _part(text: bytes, part: Any) -> str:
    """Returns a part of the texts that a call filled."""
    return text[part.position:part.position + part.length].decode("utf-8", "replace")


def _arrays(function: Callable[..., int], data: Any, found: Any, kinds: Dict[str, Any], *more: Any) -> List[Any]:
    """Calls a function that fills several arrays and the struct `found`: first for the numbers of elements, and then
    for the elements. `kinds` has the types of the elements by the members of `found` that count them. `more` are
    further arguments, which follow the bytes. Returns the arrays, each of which has one element at least."""
    counts = [0] * len(kinds)
    with _Bytes(data) as (address, length):
        for _ in range(2):
            made = [(kind * max(count, 1))() for kind, count in zip(kinds.values(), counts)]
            given = [it for one, count in zip(made, counts) for it in (ctypes.addressof(one), count)]
            status = function(address, length, *more, *given, ctypes.addressof(found))
            if status != NO_ROOM:
                break
            counts = [getattr(found, it) for it in kinds]
    if status == REFUSED:
        raise Refused(bytes(made[-1])[:found.text_bytes].decode("utf-8", "replace"))
    if status != OK:
        raise Mp4Error(status)
    return made


def check_file(data: Any) -> List[Fault]:
    """Returns the faults that `mp4inspect check` finds in the bytes of a file, in its order.

    >>> check_file(bytes.fromhex("00000010 6d6f6f76 00000009 74726163"))[1]
    Fault(position=8, path='moov/trac', code=3, severity=1, text='unexpected end of input')
    """
    found = _FAULTS()
    rows, text = _arrays(_check_file, data, found, {"count": _FAULT, "text_bytes": u8})
    texts = bytes(text)
    return [Fault(it.position, _part(texts, it.path), it.code, it.severity, _part(texts, it.text))
            for it in rows[:found.count]]


def _members(struct: Any, into: Any) -> Any:
    """Returns a struct of the header as the named tuple `into`, whose flags are bools."""
    flags = {name for name, kind in into.__annotations__.items() if kind is bool}
    values = {name: getattr(struct, name) for name in into._fields}
    return into(**{name: bool(it) if name in flags else bytes(it) if isinstance(it, ctypes.Array) else it
                   for name, it in values.items()})


def _track_of(struct: Any, texts: bytes) -> TrackInfo:
    """Returns a track as a named tuple, with its texts."""
    found: TrackInfo = _members(struct, TrackInfo)
    return found._replace(
        kind=_part(texts, struct.kind), codec=_part(texts, struct.codec), language=_part(texts, struct.language),
        samples=_members(struct.samples, TrackSamples), sound=_members(struct.sound, TrackSound),
        picture=_members(struct.picture, TrackPicture), protection=_members(struct.protection, TrackProtection))


def info(data: Any) -> FileInfo:
    """Returns what `mp4inspect info` knows of the bytes of a file. A box with a fault counts as missing.

    >>> found = info(bytes.fromhex("00000014 66747970 69736f6d 00000200 61766331"))
    >>> found.length, [code.to_bytes(4, "big") for code in found.brands], found.has_movie, found.tracks
    (20, [b'isom', b'avc1'], False, [])
    """
    found = _FILE_INFO()
    kinds = {"brand_count": u32, "track_count": _TRACK_INFO, "text_bytes": u8}
    brands, tracks, text = _arrays(_info, data, found, kinds)
    texts = bytes(text)
    return FileInfo(
        found.length, found.milliseconds, bool(found.is_fragmented), bool(found.has_movie), bool(found.has_items),
        found.order, _listed((u32 * found.brand_count)(*brands[:found.brand_count]), None, u32),
        [_track_of(it, texts) for it in tracks[:found.track_count]])


def _planned(function: Callable[..., int], data: Any, *more: Any) -> NewFile:
    """Returns the new file that a call plans. `more` are the arguments of the call that follow the bytes."""
    found = _NEW_FILE()
    kinds = {"piece_count": _PIECE, "new_bytes": u8, "text_bytes": u8}
    rows, new, _ = _arrays(function, data, found, kinds, *more)
    pieces = _listed(rows, Piece, _PIECE)[:found.piece_count]
    return NewFile(pieces, bytes(new)[:found.new_bytes], found.length, found.fragments, found.samples,
                   found.moved_from, found.moved_to)


def faststart(data: Any) -> NewFile:
    """Returns the file with its moov before its media data: what `mp4remux faststart` writes.

    >>> file = bytes.fromhex("00000008 6d646174 00000008 6d6f6f76")
    >>> faststart(file).pieces
    [Piece(position=8, length=8, is_new=False), Piece(position=0, length=8, is_new=False)]
    """
    return _planned(_faststart, data)


def _change(at: int, given: Any, parts: bytearray) -> Any:
    """Returns a change as a struct, and appends its bytes to `parts`."""
    made, name = _CHANGE(), f"changes[{at}]"
    for field in ("number", "kind", "track_id", "value"):
        number = _number(_field(given, field, name), _ALL[dict(_CHANGE._fields_)[field]], f"{name}.{field}")
        setattr(made, field, number)
    texts = {"path": _text(_field(given, "path", name), f"{name}.path"),
             "bytes": _bytes(_field(given, "bytes", name), f"{name}.bytes")}
    for field, text in texts.items():
        setattr(made, field, _PART(len(parts), len(text)))
        parts += text
    return made


def edit(data: Any, changes: Any) -> NewFile:
    """Returns the file with some changes, each a ChangeRow: what `mp4remux edit` writes.

    >>> file = bytes.fromhex("00000008 6d6f6f76 00000008 66726565")
    >>> edit(file, [ChangeRow(CHANGE_REMOVE, "free")]).pieces
    [Piece(position=0, length=8, is_new=True)]
    """
    parts = bytearray()
    rows = [_change(at, it, parts) for at, it in enumerate(_copied(changes, "changes", "a list of changes"))]
    made = (_CHANGE * max(len(rows), 1))(*rows)
    return _planned(_edit, data, ctypes.addressof(made), len(rows), bytes(parts), len(parts))


def fragment(data: Any, least: int = 0, has_sidx: bool = False, has_mfra: bool = False,
             has_styp: bool = False) -> NewFile:
    """Returns the file with all samples in fragments: what `mp4remux fragment` writes. Each fragment but the last has
    `least` nanoseconds at least. If that is 0, a video is cut at each sync sample, and other media every two
    seconds."""
    options = _FRAGMENT_OPTIONS(_number(least, _ALL[u64], "least"), bool(has_sidx), bool(has_mfra), bool(has_styp))
    return _planned(_fragment, data, options)


def defragment(data: Any) -> NewFile:
    """Returns the file with all samples in tables: what `mp4remux defragment` writes."""
    return _planned(_defragment, data)


def cut(data: Any, begin: int, end: int) -> NewFile:
    """Returns the part of the file between two times in nanoseconds: what `mp4remux cut` writes."""
    return _planned(_cut, data, _number(begin, _ALL[u64], "begin"), _number(end, _ALL[u64], "end"))


def elst(data: Any) -> Table:
    """Returns the edits of a track (8.6.6) in the elst at the front of the bytes."""
    found = _elst(data)
    if found.version == 1:
        return found
    return found._replace(rows=[it._replace(media_time=i32(it.media_time).value) for it in found.rows])


def stsz(data: Any) -> Sizes:
    """Returns the sizes of the samples (8.7.3.2) in the stsz at the front of the bytes."""
    rows, it = _stsz(data)
    return Sizes(it.version, it.flags, it.sample_size, it.sample_count, _listed(rows, None, u32))


def trun(data: Any) -> Run:
    """Returns the samples of a run of a track fragment (8.8.8) in the trun at the front of the bytes."""
    rows, it = _trun(data)
    listed = _listed(rows, TrunRow, _RUN)
    return Run(it.version, it.flags, it.sample_count, it.data_offset, it.first_sample_flags, listed)


def _written(function: Callable[..., int], *given: Any) -> bytes:
    """Returns the bytes that a call writes. It calls the library twice: for their number, and for the bytes."""
    length, out = size(), (u8 * 1)()
    status = function(*given, ctypes.addressof(out), 0, ctypes.addressof(length))
    if status == NO_ROOM:
        out = (u8 * length.value)()
        status = function(*given, ctypes.addressof(out), length.value, ctypes.addressof(length))
    if status != OK:
        raise Mp4Error(status)
    return bytes(out)


# Fields with numbers of elements, which are those of the lists in a named tuple.
_COUNTS = ("count", "scheme_id_uri_count", "value_count", "message_data_count", "sequence_count", "picture_count")
# Parts that a box may lack, and the field that says whether it has them.
_PARTS = ("url", "esds")
_COUNTED = (*_COUNTS, "set_bytes", *(f"has_{it}" for it in _PARTS))
_ENTRIES = ("avc1", "hev1", "vp09", "mp4a", "tx3g")
_LETTERS = ctypes.c_char * 4


def _array_of(kind: Any, given: Any, name: str) -> Any:
    """Returns an array of the type `kind`, filled with a list of the caller that has as many numbers."""
    numbers, wanted = _ALL[kind._type_], f"{kind._length_} numbers"
    copied = _copied(given, name, wanted)
    if len(copied) != kind._length_:
        raise _refused(name, given, wanted)
    return kind(*_numbers_of(copied, numbers, f"{name}[{{}}]"))


def _struct_of(struct: Any, value: Any, name: str, **given: Any) -> Any:
    """Returns a struct of the header with the fields of the named tuple `value`, which messages call `name`. Fields in
    `given` replace those of `value`. Counts stay 0."""
    found, values = struct(), {}
    for field, _ in struct._fields_:
        if field not in _COUNTED:
            values[field] = given[field] if field in given else _field(value, field, name)
    for field, it in values.items():
        kind, named = dict(struct._fields_)[field], f"{name}.{'entry' if field in _ENTRIES else field}"
        if it is None and field in (*_PARTS, *_ENTRIES):
            continue
        if issubclass(kind, ctypes.Structure):
            it = _struct_of(kind, it, named)
        elif kind is _LETTERS:
            it = _language(it, named)
        elif issubclass(kind, ctypes.Array):
            it = _array_of(kind, it, named)
        else:
            it = _number(it, _holds(struct, field, kind, values.get("version")), named)
        setattr(found, field, it)
        if field in _PARTS:
            setattr(found, f"has_{field}", 1)
    return found


def _box(name: str, words: str, **fields: Any) -> Tuple[Any, Callable[[Any], Any], Callable[[Any], bytes]]:
    """Returns the named tuple of a box of fixed fields, and the functions that read and write the box."""
    struct = _struct(f"mp4_{name}_box", **fields)
    made = _named(name.capitalize(), fields)
    made.__doc__ = f"{words}; fixed-point numbers are raw."
    reads = _function(f"mp4_{name}", ctypes.c_void_p, size, ctypes.c_void_p)
    writes = _function(f"mp4_write_{name}", ctypes.c_void_p, ctypes.c_void_p, size, ctypes.c_void_p)

    def plain(value: Any) -> Any:
        if isinstance(value, bytes):
            return value.decode("latin-1")
        return tuple(value) if isinstance(value, ctypes.Array) else value

    def read(data: Any) -> Any:
        found = struct()
        with _Bytes(data) as (address, length):
            status = reads(address, length, ctypes.addressof(found))
        if status != OK:
            raise Mp4Error(status)
        return made(*(plain(getattr(found, it)) for it in fields))

    def write(value: Any) -> bytes:
        given = _struct_of(struct, value, name)
        return _written(writes, ctypes.addressof(given))

    read.__name__, read.__doc__ = name, f"{words}. Of the box at the front of the bytes, header included."
    write.__name__, write.__doc__ = f"write_{name}", "The bytes of the box, header included."
    return made, read, write


_TIMES = {"creation_time": _time, "modification_time": _time, "duration": _time, "flags": _u24}
Mvhd, mvhd, write_mvhd = _box(
    "mvhd", "Properties of the whole movie (8.2.2)", **_TIMES, timescale=u32, rate=u32, matrix=i32 * 9,
    next_track_id=u32, volume=u16, version=_u1)
Tkhd, tkhd, write_tkhd = _box(
    "tkhd", "Properties of a track (8.3.2)", **_TIMES, track_id=u32, matrix=i32 * 9, width=u32, height=u32, layer=i16,
    alternate_group=i16, volume=u16, version=_u1)
Mdhd, mdhd, write_mdhd = _box(
    "mdhd", "Properties of the media of a track (8.4.2)", **_TIMES, timescale=u32, language=_LETTERS,
    version=_u1)
Mehd, mehd, write_mehd = _box(
    "mehd", "The duration of a movie with fragments (8.8.2)", fragment_duration=_time, flags=_u24, version=_u1)
Mfhd, mfhd, write_mfhd = _box("mfhd", "The number of a fragment (8.8.5)", flags=_u24, sequence_number=u32, version=u8)
Smhd, smhd, write_smhd = _box("smhd", "The balance of sound (12.2.2)", flags=_u24, balance=i16, version=u8)
Vmhd, vmhd, write_vmhd = _box(
    "vmhd", "How video is composed (12.1.2)", flags=_u24, graphics_mode=u16, red=u16, green=u16, blue=u16, version=u8)
Trex, trex, write_trex = _box(
    "trex", "The defaults for the samples of fragments (8.8.3)", flags=_u24, track_id=u32,
    default_sample_description_index=u32, default_sample_duration=u32, default_sample_size=u32,
    default_sample_flags=u32, version=u8)
Tfdt, tfdt, write_tfdt = _box(
    "tfdt", "When the first sample of a fragment is decoded (8.8.12)", base_media_decode_time=_time, flags=_u24,
    version=_u1)
Tfhd, tfhd, write_tfhd = _box(
    "tfhd", "The track of a fragment (8.8.7)", base_data_offset=u64, flags=_u24, track_id=u32,
    sample_description_index=u32, default_sample_duration=u32, default_sample_size=u32, default_sample_flags=u32,
    version=u8)


def _array(kind: Any, numbers: Any) -> Any:
    """Returns an array of the numbers. It has one element if there are none."""
    if kind is u8:
        return (u8 * max(len(numbers), 1)).from_buffer_copy(numbers or b"\0")
    return (kind * max(len(numbers), 1))(*numbers)


def _rows_of(given: Any, row: Any, into: Any, name: str, version: int) -> List[Any]:
    """Copies the rows of a table: numbers, named tuples of the class `into`, or values from which one can be made."""
    if isinstance(given, (bytes, bytearray)):
        raise _refused(name, given, "a list of rows")
    rows = _copied(given, name, "a list of rows")
    if row in _ARRAYS:
        return _numbers_of(rows, _ALL[row], f"{name}[{{}}]")
    for at, it in enumerate(rows):
        try:
            rows[at] = it if type(it) is into else into(*it)
        except TypeError:
            raise _refused(f"{name}[{at}]", it, f"a row of {', '.join(into._fields)}") from None
    fields = zip(row._fields_, zip(*rows))
    columns = [_numbers_of([*its], _holds(row, it, kind, version), f"{name}[{{}}].{it}") for (it, kind), its in fields]
    return [*zip(*columns)]


def _writes_table(name: str, row: Any, table: Any, into: Any = None) -> Callable[[Any], bytes]:
    """Returns a function that writes a table in the form in which it is read."""
    function = _function(
        f"mp4_write_{name}", ctypes.c_void_p, ctypes.c_void_p, size, ctypes.c_void_p, size, ctypes.c_void_p)

    def write(value: Any) -> bytes:
        head = _struct_of(table, value, name)
        rows = _rows_of(_field(value, "rows", name), row, into, f"{name}.rows", head.version)
        if row is _ELST and head.version != 1:
            rows = [(duration, time & 0xFFFFFFFF, *rate) for duration, time, *rate in rows]
        given = _array(row, rows)
        return _written(function, ctypes.addressof(head), ctypes.addressof(given), len(rows))

    write.__name__, write.__doc__ = f"write_{name}", "The bytes of the table, header included."
    return write


write_stco, write_co64 = _writes_table("stco", u32, _TABLE), _writes_table("co64", u64, _TABLE)
write_stss, write_stts = _writes_table("stss", u32, _TABLE), _writes_table("stts", _STTS, _TABLE, SttsRow)
write_ctts, write_stsc = _writes_table("ctts", _CTTS, _TABLE, CttsRow), _writes_table("stsc", _STSC, _TABLE, StscRow)
write_elst, write_stsz = _writes_table("elst", _ELST, _TABLE, ElstRow), _writes_table("stsz", u32, _STSZ)
write_trun = _writes_table("trun", _RUN, _TRUN, TrunRow)


def _tuple_of(struct: Any, **given: Any) -> Any:
    """Returns a struct of the header as a named tuple, without counts. The given fields replace those of the struct, or
    are added."""
    kind, fields = type(struct), {}
    for name, _ in kind._fields_:
        if name in given:
            fields[name] = given.pop(name)
            continue
        value = getattr(struct, name)
        if isinstance(value, ctypes.Array):
            value = bytes(value) if value._type_ is u8 else tuple(value)
        fields[name] = _tuple_of(value) if isinstance(value, ctypes.Structure) else value
    fields = {name: it for name, it in {**fields, **given}.items() if name not in _COUNTS and it is not ...}
    key = (kind, *fields)
    if key not in _NAMED:
        _NAMED[key] = _named(kind.__name__[4:-4].capitalize(), fields)
    return _NAMED[key](**fields)


_NAMED: Dict[Any, Any] = {}
_FTYP = _struct("mp4_ftyp_box", count=size, major_brand=u32, minor_version=u32)
_HDLR = _struct("mp4_hdlr_box", count=size, flags=_u24, handler_type=u32, version=u8)
_DATA = _struct("mp4_data_box", count=size, data_type=u32)
_URL = _struct("mp4_url_box", count=size, flags=_u24, version=u8)
_DREF = _struct("mp4_dref_box", url=_URL, flags=_u24, version=u8, has_url=u8)
_EMSG = _struct("mp4_emsg_box", scheme_id_uri_count=size, value_count=size, message_data_count=size,
                presentation_time=u64, presentation_time_delta=u32, timescale=u32, event_duration=u32, id=u32,
                flags=_u24, version=_u1)
_AVCC = _struct("mp4_avcc_box", sequence_count=size, picture_count=size, set_bytes=size, configuration_version=u8,
                avc_profile_indication=u8, profile_compatibility=u8, avc_level_indication=u8, length_size_minus_one=_u2)
_VISUAL = _struct("mp4_visual_box", horizresolution=u32, vertresolution=u32, data_reference_index=u16, width=u16,
                  height=u16, frame_count=u16, depth=u16)
_AVC1 = _struct("mp4_avc1_box", avcc=_AVCC, visual=_VISUAL)
_HVCC = _struct("mp4_hvcc_box", configuration_version=u8)
_HEV1 = _struct("mp4_hev1_box", visual=_VISUAL, hvcc=_HVCC)
_VPCC = _struct("mp4_vpcc_box", flags=_u24, codec_initialization_data_size=u16, version=u8, profile=u8, level=u8,
                bit_depth=_u4, chroma_subsampling=_u3, video_full_range_flag=_u1, color_primaries=u8,
                transfer_characteristics=u8, matrix_coefficients=u8)
_VP09 = _struct("mp4_vp09_box", vpcc=_VPCC, flags=_u24, start_code=u16, data_reference_index=u16, width=u16, height=u16,
                horizresolution=u16 * 2, vertresolution=u16 * 2, frame_count=u16, depth=u16, end_code=u16, version=u8,
                reserved0=u8 * 16, reserved1=u8 * 4, compressorname=u8 * 32)
_TX3G = _struct("mp4_tx3g_box", display_flags=u32, data_reference_index=u16, box_record=i16 * 4,
                horizontal_justification=i8, vertical_justification=i8, bg_color_rgba=u8 * 4, style_record=u8 * 12)
_ESDS = _struct("mp4_esds_box", flags=_u24, buffer_size_db=_u24, max_bitrate=u32, avg_bitrate=u32, sample_rate=_u24,
                es_id=u16, version=u8, object_type_indication=u8, stream_type=_u6, up_stream=_up_stream,
                profile=_object_type, freq_index=_u4, chan_conf=_u4)
_MP4A = _struct("mp4_mp4a_box", esds=_ESDS, samplerate=u32, data_reference_index=u16, channelcount=u16, samplesize=u16,
                has_esds=u8)
_STSD = _struct("mp4_stsd_box", avc1=_AVC1, hev1=_HEV1, vp09=_VP09, mp4a=_MP4A, tx3g=_TX3G, flags=_u24, entry=u32,
                version=u8)


def _parts(name: str, struct: Any, *kinds: Any) -> Callable[[Any, Callable[[Any], Tuple[int, ...]]], Tuple[Any, Any]]:
    """Returns a call that fills a struct and several arrays. It calls the library twice: for the struct, which has the
    lengths of the arrays, and for the arrays."""
    arrays = [it for _ in kinds for it in (ctypes.c_void_p, size)]
    function = _function(f"mp4_{name}", ctypes.c_void_p, size, *arrays, ctypes.c_void_p)

    def call(data: Any, counts_of: Callable[[Any], Tuple[int, ...]]) -> Tuple[Any, Any]:
        found, counts = struct(), (0,) * len(kinds)
        with _Bytes(data) as (address, length):
            for _ in range(2):
                filled = [(kind * max(count, 1))() for kind, count in zip(kinds, counts)]
                places = [it for pair in zip(map(ctypes.addressof, filled), counts) for it in pair]
                status = function(address, length, *places, ctypes.addressof(found))
                if status != NO_ROOM:
                    break
                counts = counts_of(found)
        if status != OK:
            raise Mp4Error(status)
        return found, [it[:count] for it, count in zip(filled, counts)]

    return call


def _reads(name: str, struct: Any, words: str) -> Callable[[Any], Any]:
    fill = _parts(name, struct)

    def read(data: Any) -> Any:
        return _tuple_of(fill(data, lambda _: ())[0])

    read.__name__, read.__doc__ = name, f"{words}. Of the box at the front of the bytes, header included."
    return read


hvcc = _reads("hvcc", _HVCC, "The configuration of an HEVC decoder (ISO/IEC 14496-15, 8.3.3.1)")
hev1 = _reads("hev1", _HEV1, "The sample entry of HEVC video (ISO/IEC 14496-15, 8.4.1)")
vpcc = _reads("vpcc", _VPCC, "The configuration of a VP9 decoder (VP Codec ISO Media File Format Binding)")
vp09 = _reads("vp09", _VP09, "The sample entry of VP9 video (VP Codec ISO Media File Format Binding)")
tx3g = _reads("tx3g", _TX3G, "The sample entry of timed text (3GPP TS 26.245, 5.16)")
esds = _reads("esds", _ESDS, "The descriptors of MPEG-4 audio (ISO/IEC 14496-14, 5.6)")
_ftyp, _hdlr = _filled("mp4_ftyp", u32, _FTYP), _filled("mp4_hdlr", u8, _HDLR)
_data, _url = _filled("mp4_data", u8, _DATA), _filled("mp4_url", u8, _URL)
_dref, _dinf = _parts("dref", _DREF, u8), _parts("dinf", _DREF, u8)
_emsg, _mp4a = _parts("emsg", _EMSG, u8, u8, u8), _parts("mp4a", _MP4A)
_avcc, _avc1, _stsd = (_parts(*it, size, u8) for it in (("avcc", _AVCC), ("avc1", _AVC1), ("stsd", _STSD)))


def ftyp(data: Any) -> Any:
    """Returns the brands of a file (4.3) in the ftyp at the front of the bytes.

    >>> ftyp(bytes.fromhex("00000014 66747970 69736f6d 00000200 61766331"))
    Ftyp(major_brand=1769172845, minor_version=512, compatible_brands=[1635148593])
    """
    rows, it = _ftyp(data)
    return _tuple_of(it, compatible_brands=[*rows])


def hdlr(data: Any) -> Any:
    """Returns the kind of media of a track, and the name of its handler (8.4.3)."""
    rows, it = _hdlr(data)
    return _tuple_of(it, name=bytes(rows).decode())


def data(data: Any) -> Any:
    """Returns the value of a metadata item (QuickTime's metadata), as bytes."""
    rows, it = _data(data)
    return _tuple_of(it, value=bytes(rows))


def url(data: Any) -> Any:
    """Returns the location of media data (8.7.2)."""
    rows, it = _url(data)
    return _tuple_of(it, location=bytes(rows).decode())


def _references(fill: Any, data: Any) -> Any:
    it, (location,) = fill(data, lambda found: (found.url.count,))
    where = _tuple_of(it.url, location=bytes(location).decode()) if it.has_url else None
    return _tuple_of(it, url=where, has_url=...)


def dref(data: Any) -> Any:
    """Returns the data references of a track (8.7.2), of which the codec keeps the last url."""
    return _references(_dref, data)


def dinf(data: Any) -> Any:
    """Returns the data references in a dinf (8.7.1)."""
    return _references(_dinf, data)


def emsg(data: Any) -> Any:
    """Returns an event message (ISO/IEC 23009-1, 5.10.3.3)."""
    it, texts = _emsg(data, lambda found: (found.scheme_id_uri_count, found.value_count, found.message_data_count))
    scheme, value, message = map(bytes, texts)
    return _tuple_of(it, scheme_id_uri=scheme.decode(), value=value.decode(), message_data=message)


def _sets_of(it: Any, lengths: Any, together: Any) -> Any:
    """Returns the configuration of an AVC decoder, with the sets that were read."""
    sets, rest = [], bytes(together)
    for length in lengths:
        sets.append(rest[:length])
        rest = rest[length:]
    sequence, picture = sets[:it.sequence_count], sets[it.sequence_count:]
    return _tuple_of(it, set_bytes=..., sequence_parameter_sets=sequence, picture_parameter_sets=picture)


def _lengths_of(it: Any) -> Tuple[int, ...]:
    return it.sequence_count + it.picture_count, it.set_bytes


def avcc(data: Any) -> Any:
    """Returns the configuration of an AVC decoder (ISO/IEC 14496-15, 5.3.3.1)."""
    it, sets = _avcc(data, _lengths_of)
    return _sets_of(it, *sets)


def avc1(data: Any) -> Any:
    """Returns the sample entry of AVC video (ISO/IEC 14496-15, 5.4.2)."""
    it, sets = _avc1(data, lambda found: _lengths_of(found.avcc))
    return _tuple_of(it, avcc=_sets_of(it.avcc, *sets))


def _sound_of(it: Any) -> Any:
    return _tuple_of(it, esds=_tuple_of(it.esds) if it.has_esds else None, has_esds=...)


def mp4a(data: Any) -> Any:
    """Returns the sample entry of MPEG-4 audio (ISO/IEC 14496-14, 5.6)."""
    return _sound_of(_mp4a(data, lambda _: ())[0])


Stsd = collections.namedtuple("Stsd", "version flags entry")
Stsd.__doc__ = "The first sample entry of a track (8.5.2): its fields, named by its type; None if it isn't read."


def stsd(data: Any) -> Stsd:
    """Returns the first sample entry of a track (8.5.2), if it is avc1, hev1, vp09, mp4a or tx3g."""
    it, sets = _stsd(data, lambda found: _lengths_of(found.avc1.avcc))
    name = _name(it.entry)
    entry = None
    if name == "avc1":
        entry = _tuple_of(it.avc1, avcc=_sets_of(it.avc1.avcc, *sets))
    elif name == "mp4a":
        entry = _sound_of(it.mp4a)
    elif name in _ENTRIES:
        entry = _tuple_of(getattr(it, name))
    return Stsd(it.version, it.flags, entry)


def _writes(name: str, *kinds: Any) -> Callable[..., bytes]:
    """Returns a call that writes a struct and arrays. The lists of the arrays are copies of the module."""
    arrays = [it for _ in kinds for it in (ctypes.c_void_p, size)]
    function = _function(f"mp4_write_{name}", ctypes.c_void_p, *arrays, ctypes.c_void_p, size, ctypes.c_void_p)

    def write(struct: Any, *lists: Any) -> bytes:
        held = [_array(kind, it) for kind, it in zip(kinds, lists)]
        places = [part for array, it in zip(held, lists) for part in (ctypes.addressof(array), len(it))]
        return _written(function, ctypes.addressof(struct), *places)

    return write


_write_ftyp, _write_hdlr, _write_dref = _writes("ftyp", u32), _writes("hdlr", u8), _writes("dref", u8)
_write_emsg, _write_stsd = _writes("emsg", u8, u8, u8), _writes("stsd", size, u8)


def write_ftyp(value: Any) -> bytes:
    """Returns the bytes of an ftyp, including its header."""
    struct, name = _struct_of(_FTYP, value, "ftyp"), "ftyp.compatible_brands"
    return _write_ftyp(struct, _rows_of(_field(value, "compatible_brands", "ftyp"), u32, None, name, 0))


def write_hdlr(value: Any) -> bytes:
    """Returns the bytes of an hdlr, including its header."""
    return _write_hdlr(_struct_of(_HDLR, value, "hdlr"), _text(_field(value, "name", "hdlr"), "hdlr.name"))


def write_dref(value: Any) -> bytes:
    """Returns the bytes of a dref, including its header."""
    url = _field(value, "url", "dref")
    struct = _struct_of(_DREF, value, "dref", url=url)
    location = b"" if url is None else _text(_field(url, "location", "dref.url"), "dref.url.location")
    return _write_dref(struct, location)


def write_emsg(value: Any) -> bytes:
    """Returns the bytes of an emsg, including its header."""
    struct, names = _struct_of(_EMSG, value, "emsg"), ("scheme_id_uri", "value")
    texts = [_text(_field(value, it, "emsg"), f"emsg.{it}", zeros=False) for it in names]
    return _write_emsg(struct, *texts, _bytes(_field(value, "message_data", "emsg"), "emsg.message_data"))


def _sets_given(avcc: Any, field: str, most: int) -> List[bytes]:
    """Copies the parameter sets of an avcC. Refuses more than `most` sets, and a set of 2^16 bytes or more."""
    given, name, wanted = _field(avcc, field, _AVCC_GIVEN), f"{_AVCC_GIVEN}.{field}", f"a list of at most {most} sets"
    copied = _copied(given, name, wanted)
    if len(copied) > most:
        raise _refused(name, given, wanted)
    sets = [_bytes(it, f"{name}[{at}]") for at, it in enumerate(copied)]
    for at, it in enumerate(sets):
        _number(len(it), _ALL[u16], f"the length of {name}[{at}]")
    return sets


_AVCC_GIVEN = "stsd.entry.avcc"


def write_stsd(value: Stsd) -> bytes:
    """Returns the bytes of an stsd, including its header."""
    entry = _field(value, "entry", "stsd")
    name = type(entry).__name__.lower()
    if entry is not None and name not in _ENTRIES:
        raise _refused("stsd.entry", entry, f"one of {', '.join(_ENTRIES)}, or None")
    code = 0 if entry is None else int.from_bytes(name.encode(), "big")
    entries = {it: entry if it == name else None for it in _ENTRIES}
    struct, sequence, picture = _struct_of(_STSD, value, "stsd", entry=code, **entries), [], []
    if name == "avc1":
        avcc = _field(entry, "avcc", "stsd.entry")
        sequence = _sets_given(avcc, "sequence_parameter_sets", 31)
        picture = _sets_given(avcc, "picture_parameter_sets", 255)
    struct.avc1.avcc.sequence_count, struct.avc1.avcc.picture_count = len(sequence), len(picture)
    sets = sequence + picture
    return _write_stsd(struct, [len(it) for it in sets], b"".join(sets))


def check(data: Any) -> None:
    """Reads all boxes of the bytes. The error is that of the first fault. It skips boxes of types that the codec
    doesn't read, so it doesn't look into a `moov`."""
    with _Bytes(data) as (address, length):
        status = _check(address, length)
    if status != OK:
        raise Mp4Error(status)


def normal(data: Any) -> bytes:
    """Returns the boxes of the bytes in their normal form. Boxes of types that the codec doesn't read don't change."""
    return bytes(_normal(data)[0])


def list(data: Any) -> List[Span]:
    """Lists the boxes at the top level of the bytes, in their order. It reads only their headers."""
    found: List[Span] = _listed(_list(data)[0], Span, _SPAN)
    return found


def fields(data: Any) -> Dict[str, Any]:
    """Returns the fields of the box at the front of the bytes by their names, like `mp4inspect --json`. It reads all
    types of boxes for which the module has a function, and those that the header `mp4_box_codec.h` lists. For another
    type it raises an Mp4Error with the status UNKNOWN_BOX.

    >>> fields(bytes.fromhex("00000010 70617370 00000004 00000003"))
    {'hSpacing': 4, 'vSpacing': 3}
    """
    found: Dict[str, Any] = json.loads(bytes(_fields(data)[0]))
    return found


def check_json(code: int, text: str) -> Optional[JsonFault]:
    """Returns why `box_from_json` refuses the JSON of a box, or None if it doesn't.

    >>> check_json(0x70617370, '{"hSpacing": 4294967296, "vSpacing": 3}')
    JsonFault(path='hSpacing', reason=9, text='does not fit the field')
    """
    number, given, found, places = _number(code, _ALL[u32], "code"), _text(text, "text"), _JSON_FAULT(), 0
    for _ in range(2):
        out = (u8 * max(places, 1))()
        status = _check_json(number, given, len(given), ctypes.addressof(out), places, ctypes.addressof(found))
        if status != NO_ROOM:
            break
        places = found.text_bytes
    if status != OK:
        raise Mp4Error(status)
    if not found.reason:
        return None
    texts = bytes(out)
    return JsonFault(_part(texts, found.path), found.reason, _part(texts, found.text))


def box_from_json(code: int, text: str) -> bytes:
    """Returns the box of a code whose fields are the text of a JSON object, under the names of `fields`. If that is
    refused, the error names the member and the reason.

    >>> box_from_json(0x70617370, '{"hSpacing": 4, "vSpacing": 3}').hex(" ", 4)
    '00000010 70617370 00000004 00000003'
    """
    number, given = _number(code, _ALL[u32], "code"), _text(text, "text")
    try:
        return _written(_box_from_json, number, given, len(given))
    except Mp4Error as error:
        found = check_json(code, text) if error.status == INVALID_DATA else None
        if found is None:
            raise
        raise Mp4Error(INVALID_DATA, f"{found.path or 'the text'} {found.text}") from None


def write_fields(code: int, values: Any) -> bytes:
    """Returns the box of a code with these fields: a dictionary such as `fields` returns.

    >>> write_fields(0x70617370, {"hSpacing": 4, "vSpacing": 3}).hex(" ", 4)
    '00000010 70617370 00000004 00000003'
    """
    return box_from_json(code, json.dumps(values, ensure_ascii=False))


def find(data: Any, path: str) -> Optional[Place]:
    """Returns the box at `path` in the bytes of a file, such as `moov/trak[1]/mdia/mdhd`, or None if there is none or
    its header isn't whole."""
    place, text = _PLACE(), _text(path, "path")
    with _Bytes(data) as (address, length):
        status = _find(address, length, text, len(text), place)
    if status == BOX_NOT_FOUND:
        return None
    if status != OK:
        raise Mp4Error(status)
    return Place(place.position, place.length, place.header_length, place.code, place.is_whole == 1)


def samples(data: Any, track_id: int) -> List[Sample]:
    """Returns the samples of the first track with a track_ID (8.3.2) in the bytes of a file, by the tables of its
    `stbl`. A track without `stsz`, `stz2` and chunks has none."""
    found: List[Sample] = _listed(_samples(data, _number(track_id, _ALL[u32], "track_id"))[0], Sample, _SAMPLE)
    return found


def fragment_samples(data: Any, track_id: int) -> List[Sample]:
    """Returns the samples of all fragments of the first track with a track_ID (8.8) in the bytes of a file, in the
    order of the file. Their `chunk` is the number of the run in its fragment, counted from 1. Without a `tfdt` the
    times of a fragment continue those of the fragment before it; those of the first fragment begin where the samples
    of the track's tables end, by `stts`.

    >>> fragment_samples(b"", 1)
    Traceback (most recent call last):
    mp4_box_codec.Mp4Error: box not found
    """
    number = _number(track_id, _ALL[u32], "track_id")
    found: List[Sample] = _listed(_fragment_samples(data, number)[0], Sample, _SAMPLE)
    return found


TABLES: Dict[str, Callable[[Any], Any]] = {
    "stts": stts, "ctts": ctts, "stsc": stsc, "stsz": stsz, "stco": stco, "co64": co64, "stss": stss, "elst": elst,
    "trun": trun,
}


def _reader(file: Any) -> Tuple[int, Callable[[int, int], bytes]]:
    """Returns the length of a file, and a function that reads a number of bytes at a position."""
    try:
        whole = memoryview(file).cast("B")
    except TypeError:
        def read(position: int, count: int) -> bytes:
            file.seek(position)
            found: bytes = file.read(count)
            return found

        return file.seek(0, os.SEEK_END), read
    return len(whole), lambda position, count: bytes(whole[position:position + count])


def tree(file: Any) -> List[Box]:
    """Returns all boxes of a file, each followed by the boxes inside. The file is its bytes, or a path or a binary file
    that can seek, of which it reads only headers and the bytes that say where the boxes inside begin. A fault is an
    element whose `what` names it.

    >>> movie = bytes.fromhex("00000020 6d6f6f76 00000008 7472616b 00000010 7472616b 00000008 6d646961")
    >>> [(it.path, it.position, it.length) for it in tree(movie)]
    [('moov', 0, 32), ('moov/trak', 8, 8), ('moov/trak[1]', 16, 16), ('moov/trak[1]/mdia', 24, 8)]
    >>> import io
    >>> tree(io.BytesIO(movie)) == tree(movie)
    True
    """
    if isinstance(file, (str, os.PathLike)):
        with open(file, "rb") as opened:
            return tree(opened)
    length, read = _reader(file)
    walk, box = _WALK(), _BOX()
    found: List[Box] = []
    around: List[Tuple[str, Dict[int, int]]] = [("", {})]
    status = _walk_begin(_number(length, _ALL[u64], "the length of the file"), walk)
    while status == OK and walk.wanted:
        given = _bytes(read(walk.position, walk.wanted), "what the file reads")
        status = _walk_next(given, len(given), walk, box)
        if status == OK:
            del around[box.depth + 1:]
            path, counts = around[-1]
            number = counts[box.code] = counts.get(box.code, -1) + 1
            name = _name(box.code) if box.code else ""
            path += name + (f"[{number}]" if number else "")
            found.append(Box(path, *(getattr(box, it) for it, _ in _BOX._fields_)))
            around.append((f"{path}/", {}))
    if status != OK:
        raise Mp4Error(status)
    return found


def boxes(data: Any) -> Iterator[Tuple[str, memoryview]]:
    """Yields each box of the bytes of a file with its path and its bytes, as `tree` finds them. Raises an Mp4Error if
    there is no whole box.

    >>> movie = bytes.fromhex("00000020 6d6f6f76 00000008 7472616b 00000010 7472616b 00000008 6d646961")
    >>> [(path, len(box)) for path, box in boxes(movie)]
    [('moov', 32), ('moov/trak', 8), ('moov/trak[1]', 16), ('moov/trak[1]/mdia', 8)]
    """
    for box in tree(data):
        if box.what in (CUT, SMALL, NO_HEADER):
            raise Mp4Error(INVALID_DATA if box.what == SMALL else END_OF_INPUT)
        yield box.path, box.of(data)


def tables(data: Any) -> Dict[str, Any]:
    """Returns the tables of a file by their paths.

    >>> stbl = bytes.fromhex("00000020 7374626c 00000018 73747473 00000000 00000001 00000003 0000000a")
    >>> tables(stbl)
    {'stbl/stts': Table(version=0, flags=0, rows=[SttsRow(sample_count=3, sample_delta=10)])}
    """
    named = ((path, bytes(box[4:8]).decode("latin-1"), box) for path, box in boxes(data))
    return {path: TABLES[name](box) for path, name, box in named if name in TABLES}
