"""What the classes of `classes` share: they are made from the values that the library returns, checked, and written."""

import dataclasses
import functools
import json
import math
import types
import typing
from typing import Any, Callable, ClassVar, Dict, List, NamedTuple, Optional, Tuple, Type, TypeVar, Union

from . import calls
from .calls import INVALID_DATA, UNKNOWN_BOX, Mp4Error

F = TypeVar("F", bound="Fields")
N = TypeVar("N", bound="Part")
C = TypeVar("C", bound=Callable[..., Any])


def _cached(function: C) -> C:
    """Has a function keep what it returned."""
    return typing.cast(C, functools.lru_cache(maxsize=None)(function))


class Matrix(NamedTuple):
    """The transformation of a video: a point (p, q) is shown at (a p + c q + x, b p + d q + y)."""
    a: float = 1.0
    b: float = 0.0
    u: float = 0.0
    c: float = 0.0
    d: float = 1.0
    v: float = 0.0
    x: float = 0.0
    y: float = 0.0
    w: float = 1.0

    @classmethod
    def turned(cls, degrees: int, width: float = 0, height: float = 0) -> "Matrix":
        """Returns the matrix that turns pictures clockwise by 0, 90, 180 or 270 degrees. Pictures of this width and
        height stay at the top left.

        >>> Matrix.turned(90, 640, 360)[:8]
        (0.0, 1.0, 0.0, -1.0, 0.0, 0.0, 360.0, 0.0)
        """
        turns = {0: cls(), 90: cls(0.0, 1.0, 0.0, -1.0, 0.0, 0.0, float(height)),
                 180: cls(-1.0, 0.0, 0.0, 0.0, -1.0, 0.0, float(width), float(height)),
                 270: cls(0.0, -1.0, 0.0, 1.0, 0.0, 0.0, 0.0, float(width))}
        if degrees not in turns:
            raise calls._refused("degrees", degrees, "0, 90, 180 or 270")
        return turns[degrees]


# The bits after the point of the numbers of a matrix.
_POINTS = (16, 16, 30, 16, 16, 30, 16, 16, 30)


@_cached
def _hints(made: Any) -> Dict[str, Any]:
    """Returns the types of the fields of a class, in order."""
    found = typing.get_type_hints(made)
    return {it.name: found[it.name] for it in dataclasses.fields(made)}


@_cached
def _plain(hint: Any) -> Any:
    """Returns a type without None."""
    inside = [it for it in getattr(hint, "__args__", ()) if it is not type(None)]
    return inside[0] if getattr(hint, "__origin__", None) is Union and len(inside) == 1 else hint


def _inside(hint: Any) -> Any:
    """Returns the type of the elements of a list, or None for another type."""
    return hint.__args__[0] if getattr(hint, "__origin__", None) is list else None


def code_of(number: int) -> str:
    """Returns the four characters of a code, each with the number of its byte."""
    return number.to_bytes(4, "big").decode("latin-1")


def number_of(code: str, name: str = "the code") -> int:
    """Returns the number of a code of four characters."""
    if not isinstance(code, str) or len(code) != 4 or max(code) > "\xff":
        raise calls._refused(name, code, "a code of four characters")
    return int.from_bytes(code.encode("latin-1"), "big")


def _fixed(value: Any, bits: Tuple[int, int, bool], name: str) -> int:
    """Returns the fixed-point number nearest to `value`, with `bits` bits, some of them after the point, as it is
    stored."""
    width, point, signed = bits
    low, high = (-1 << width - 1, (1 << width - 1) - 1) if signed else (0, (1 << width) - 1)
    is_whole = isinstance(value, int) and not isinstance(value, bool)
    is_number = is_whole or isinstance(value, float) and math.isfinite(value)
    stored = round(value * (1 << point)) if is_number else None
    if stored is None or not low <= stored <= high:
        raise calls._refused(name, value, f"a number from {low / (1 << point)} to {high / (1 << point)}")
    return int(stored)


def _signed(value: int, bits: Tuple[int, int, bool]) -> int:
    """Returns a stored number with its sign, if it has one."""
    width, _, signed = bits
    return value - (1 << width) if signed and value >= 1 << width - 1 else value


@_cached
def _plan(made: Any) -> List[Tuple[str, Any, bool, str]]:
    """Returns the fields of a class whose values are checked: the name, the type, whether a value may be None, and the
    name for messages."""
    owner = made.__name__.lower()
    found = [(name, _plain(hint), _plain(hint) is not hint, f"{owner}.{name}") for name, hint in _hints(made).items()]
    return [it for it in found if isinstance(it[1], type) and issubclass(it[1], (int, float, str, Part))]


@_cached
def _held(struct: str, name: str, version: int) -> Any:
    """Returns the numbers that a field of a struct holds. A sample entry of video has its common fields in a struct of
    their own."""
    found = (calls.numbers_of(it, name, version) for it in (struct, "mp4_visual_box", "mp4_hvcc_box"))
    return next(filter(None, found))


class Part:
    """The fields of a part of a box. A value can't be changed: `replace` makes another."""

    # The bits of numbers by the version of the box, negative if they are signed, or the numbers themselves.
    _bits: ClassVar[Dict[str, Union[Tuple[int, ...], range]]] = {}
    # The bits of fixed-point numbers, those of them after the point, and whether they have a sign.
    _fixed: ClassVar[Dict[str, Tuple[int, int, bool]]] = {}
    # Fields whose text is a code.
    _codes: ClassVar[Tuple[str, ...]] = ()
    # Numbers of bytes, by the fields with the bytes: None if the box has as many.
    _counts: ClassVar[Dict[str, str]] = {}
    # The struct of the header, if the library reads the box into one.
    _struct: ClassVar[str] = ""

    def replace(self: N, **changes: Any) -> N:
        """Returns a copy with other values of some fields."""
        made: N = dataclasses.replace(typing.cast(Any, self), **changes)
        return made

    def __post_init__(self) -> None:
        version = _version(self)
        if isinstance(version, bool) or not isinstance(version, int):
            raise calls._refused(f"{type(self).__name__.lower()}.version", version, "a number")
        for name, kind, may_lack, path in _plan(type(self)):
            value = getattr(self, name)
            if value is not None or not may_lack:
                _checked(self, value, kind, name, path, version)


def _version(part: Any) -> int:
    """Returns the version that decides how many bits a number has: for a part without one the largest."""
    version: int = getattr(part, "version", 255)
    return version


def _checked(part: Part, value: Any, kind: Any, name: str, path: str, version: int) -> None:
    """Refuses a value that a field can't hold. Lists are checked when they are written, since they may change."""
    if kind is int:
        numbers = part._bits.get(name)
        if isinstance(numbers, range):
            calls._number(value, calls._Numbers(calls.u64, numbers, f"from {numbers[0]} to {numbers[-1]}"), path)
        elif numbers:
            bits = numbers[max(0, min(version, len(numbers) - 1))]
            held = calls._numbers(calls.i64 if bits < 0 else calls.u64, abs(bits))
            if type(value) is not int or value not in held.allowed:
                calls._number(value, held, path)
        elif part._struct:
            held = _held(part._struct, name, min(version, 2))
            if type(value) is not int or value not in held.allowed:
                calls._number(value, held, path)
    elif kind is bool:
        if not isinstance(value, bool):
            raise calls._refused(path, value, "True or False")
    elif kind is float and name in part._fixed:
        _fixed(value, part._fixed[name], path)
    elif kind is str:
        if name in part._codes:
            number_of(value, path)
        elif not isinstance(value, str):
            raise calls._refused(path, value, "a text")
    elif isinstance(kind, type) and issubclass(kind, Part) and not isinstance(value, kind):
        raise calls._refused(path, value, f"a {kind.__name__}")


class Fields(Part):
    """The fields of a box. The classes of all boxes are made from this one, each with the code of its boxes."""

    code: ClassVar[str] = ""
    # The function of `calls` that reads the box, and whether another writes it.
    _call: ClassVar[str] = ""
    _is_written: ClassVar[bool] = False
    # If it is written in another box only: the code of that box, its field, and the bytes before this box in it.
    _within: ClassVar[Tuple[str, str, int]] = ("", "", 0)

    @classmethod
    def read(cls: Type[F], data: Any) -> F:
        """Returns the fields of the box at the front of the bytes, which begin with its header."""
        with memoryview(data) as view:
            found = bytes(view.cast("B")[4:8]).decode("latin-1")
        if len(found) == 4 and found != cls.code:
            raise Mp4Error(INVALID_DATA, f"this box is a {found!r}, not a {cls.code!r}")
        if cls._call:
            return _of_raw(cls, getattr(calls, cls._call)(data))
        return of_json(cls, calls.fields(data))

    def write(self) -> bytes:
        """Returns the bytes of the box, including its header. What follows from other fields is left out: counts of
        lists and meanings of numbers."""
        if not self._is_written:
            return calls.write_fields(number_of(self.code), to_json(self, derived=False))
        outer, field, begin = self._within
        if outer:
            made: Any = CLASSES[outer]
            return bytes(made(**{field: self}).write()[begin:])
        if self.code == "dinf":
            return container("dinf", getattr(self, "dref").write())
        written: bytes = getattr(calls, f"write_{self._call}")(_to_raw(self))
        return written


def container(code: str, *contents: Any) -> bytes:
    """Returns a box with the code `code` that holds `contents`: boxes, or other bytes.

    >>> container("moov", container("trak"), b"abcd").hex(" ", 4)
    '00000014 6d6f6f76 00000008 7472616b 61626364'
    """
    number = number_of(code)
    inside = b"".join(calls._bytes(it, f"content {at} of {code!r}") for at, it in enumerate(contents))
    if len(inside) + 8 >= 1 << 32:
        raise Mp4Error(INVALID_DATA, f"a {code!r} of {len(inside) + 8} bytes has no size of 32 bits")
    return (len(inside) + 8).to_bytes(4, "big") + number.to_bytes(4, "big") + inside


# ---- Boxes of the header: a struct, and lists beside it


def _of_raw(made: Type[N], raw: Any) -> N:
    """Returns the fields of a named tuple that a call returned."""
    values = {}
    for name, hint in _hints(made).items():
        if made.__name__ == "Dinf":
            return made(dref=_of_raw(_plain(hint), raw))  # type: ignore[call-arg]
        # A sample entry of video has its common fields in the part `visual`.
        inside = raw if hasattr(raw, name) else raw.visual if hasattr(raw.visual, name) else raw.hvcc
        value, kind = getattr(inside, name), _plain(hint)
        values[name] = value if kind is int else _value_of(value, kind, made._fixed.get(name))
    return made(**values)


def _value_of(value: Any, kind: Any, fixed: Any) -> Any:
    if value is None:
        return None
    if kind is Matrix:
        return Matrix(*(it / (1 << point) for it, point in zip(value, _POINTS)))
    if fixed:
        stored = value[0] << 16 | value[1] if isinstance(value, tuple) else value
        return _signed(stored, fixed) / (1 << fixed[1])
    if kind is bool:
        return bool(value)
    if kind is str and isinstance(value, int):
        return code_of(value)
    if _inside(kind) is str:
        return [*map(code_of, value)]
    if isinstance(kind, type) and issubclass(kind, Part):
        return _of_raw(kind, value)
    if getattr(kind, "__origin__", None) is Union and hasattr(value, "_fields"):  # The entry of an stsd.
        return _of_raw(next(it for it in typing.cast(Any, kind).__args__ if it.__name__ == type(value).__name__), value)
    return value


def _to_raw(part: Part) -> Any:
    """Returns the fields as the calls take them."""
    owner = type(part).__name__.lower()
    values: Dict[str, Any] = {}
    for name, hint in _hints(type(part)).items():
        values[name] = _raw_of(part, getattr(part, name), _plain(hint), name, f"{owner}.{name}")
    rows = values.get("rows")
    if "sample_count" in values and rows and not values["sample_count"]:
        values["sample_count"] = len(rows)
    made: Any = type(owner, (types.SimpleNamespace,), {})
    inside = types.SimpleNamespace(**values)
    return made(**{"visual": inside, "hvcc": inside, **values})


def _raw_of(part: Part, value: Any, kind: Any, name: str, path: str) -> Any:
    if value is None:
        return None
    if kind is Matrix:
        given = calls._copied(value, path, "nine numbers")
        if len(given) != 9:
            raise calls._refused(path, value, "nine numbers")
        return [_fixed(it, (32, point, True), f"{path}[{at}]") for at, (it, point) in enumerate(zip(given, _POINTS))]
    if name in part._fixed:
        width, point, _ = part._fixed[name]
        stored = _fixed(value, part._fixed[name], path)
        if type(part).__name__ == "Vp09":
            return [stored >> 16, stored & 0xFFFF]
        held = calls.numbers_of(part._struct, name, 0)
        return stored if held is None or stored in held.allowed else stored & (1 << width) - 1
    if kind is bool:
        return 2 if name == "up_stream" and value else int(value)
    if kind is str and name in part._codes:
        return number_of(value, path)
    if _inside(kind) is str:
        return [number_of(it, f"{path}[{at}]") for at, it in enumerate(calls._copied(value, path, "a list of codes"))]
    return _to_raw(value) if isinstance(value, Part) else value


# ---- Boxes that the library shows as JSON


def of_json(made: Type[N], fields: Any) -> N:
    """Returns the fields of an object of JSON."""
    names = _names(made)
    values = {name: _parsed(fields[names[name]], _plain(hint))
              for name, hint in _hints(made).items() if names[name] in fields}
    for count, of in made._counts.items():
        if count in values and values.get(of) is not None and values[count] == len(values[of]):
            del values[count]
    return made(**values)


@_cached
def _names(made: Any) -> Dict[str, str]:
    """Returns the names in JSON of the fields of a class."""
    return {it.name: it.metadata.get("name", it.name) for it in dataclasses.fields(made)}


def _parsed(value: Any, kind: Any) -> Any:
    if kind is bool:
        return bool(value)
    if kind is bytes:
        return bytes.fromhex(value)
    if kind is float:
        return float(value)
    inside = _inside(kind)
    if inside:
        return [_parsed(it, inside) for it in value]
    return of_json(kind, value) if isinstance(kind, type) and issubclass(kind, Part) else value


def to_json(part: Part, derived: bool = True) -> Dict[str, Any]:
    """Returns the fields as the library shows them as JSON, in the order of the class, without those that follow from
    others if `derived` is False. Refuses numbers in lists that don't fit."""
    found: Dict[str, Any] = {}
    names, left_out = _names(type(part)), () if derived else _derived(type(part))
    for name, hint in _hints(type(part)).items():
        value = getattr(part, name)
        counted = getattr(part, part._counts[name]) if name in part._counts and derived else None
        if value is None and counted is not None:
            value = len(counted)
        if value is not None and name not in left_out:
            path = f"{type(part).__name__.lower()}.{name}"
            found[names[name]] = _shown(part, value, _plain(hint), name, path, derived)
    return found


@_cached
def _derived(made: Any) -> Tuple[str, ...]:
    """Returns the fields of a class that follow from others. They don't count when values are compared."""
    return tuple(it.name for it in dataclasses.fields(made) if not it.compare)


def _shown(part: Part, value: Any, kind: Any, name: str, path: str, derived: bool) -> Any:
    inside = _inside(kind)
    if inside:
        copied = calls._copied(value, path, "a list")
        for at, it in enumerate(copied):
            _checked(part, it, inside, name, f"{path}[{at}]", _version(part))
        return [_shown(part, it, inside, name, f"{path}[{at}]", derived) for at, it in enumerate(copied)]
    if kind is bytes:
        return calls._bytes(value, path).hex()
    if kind is bool:
        return int(value)
    return to_json(value, derived) if isinstance(value, Part) else value


def text_of(part: Part) -> str:
    """Returns the fields as a text of JSON."""
    return json.dumps(to_json(part), separators=(",", ":"))


CLASSES: Dict[str, Type[Fields]] = {}


def listed(*made: Type[Fields]) -> None:
    """Adds classes to those that `read` knows."""
    CLASSES.update((it.code, it) for it in made)


# Codes that are also those of other boxes: the box around each box of the class, or around each other box.
_ONLY_IN = {"text": "gmhd", "mean": "----", "name": "----"}
_NOT_IN = {"alac": "stsd", "mp4a": "wave"}


def class_of(code: str, around: str) -> Optional[Type[Fields]]:
    """Returns the class of the boxes with the code `code` in a box with the code `around`, or None if there is none.
    The same code may be that of another box elsewhere, such as `alac`, which is also a sample entry.

    >>> class_of("name", "----"), class_of("name", "udta")
    (<class 'mp4_box_codec.classes.Name'>, None)
    """
    is_another = code in _ONLY_IN and around != _ONLY_IN[code] or code in _NOT_IN and around == _NOT_IN[code]
    return None if is_another else CLASSES.get(code)


def read(data: Any) -> Fields:
    """Returns the fields of the box at the front of the bytes, as the class of its type. For a box of a type without a
    class it raises an Mp4Error with the status UNKNOWN_BOX.

    >>> read(bytes.fromhex("00000010 70617370 00000004 00000003"))
    Pasp(hSpacing=4, vSpacing=3)
    """
    with memoryview(data) as view:
        code = bytes(view.cast("B")[4:8]).decode("latin-1")
    if code in CLASSES:
        return CLASSES[code].read(data)
    raise Mp4Error(calls.END_OF_INPUT if len(code) < 4 else UNKNOWN_BOX)


