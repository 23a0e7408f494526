"""Sample entries of video and sound with any code: their common fields, and the boxes inside as bytes."""

import struct
from dataclasses import dataclass
from typing import Any, ClassVar, Dict, Tuple, Union

from . import _fields, calls
from .calls import END_OF_INPUT, INVALID_DATA, Mp4Error

# The header of a box of the code 0, 6 reserved bytes, and the numbers after them.
_VISUAL = struct.Struct(">8x6xH16xHHIIIH32sHH")
_SOUND = struct.Struct(">8x6xHH6xHHHHI")
# The bytes after the fields of version 0 that the versions 1 and 2 of QuickTime's sound have.
_MORE = {0: 0, 1: 16, 2: 36}


def _content(data: Any, least: int) -> Tuple[str, bytes]:
    """Returns the code and the bytes of the box at the front of `data`, which has at least `least` bytes."""
    given = calls._bytes(data, "the sample entry")
    size = int.from_bytes(given[:4], "big")
    if len(given) < 8 or size > len(given):
        raise Mp4Error(END_OF_INPUT)
    if size < least:
        raise Mp4Error(INVALID_DATA, f"a sample entry of {size} bytes, not of {least} at least")
    return given[4:8].decode("latin-1"), given[:size]


@dataclass(frozen=True)
class VisualEntry(_fields.Part):
    """A sample entry of video with the code `format` (ISO/IEC 14496-12, 12.1.3). `boxes` are the bytes of the boxes
    inside, such as an `hvcC`."""

    _bits: ClassVar[Dict[str, Union[Tuple[int, ...], range]]] = {
        "data_reference_index": (16,), "width": (16,), "height": (16,), "frame_count": (16,), "depth": (16,)}
    _fixed: ClassVar[Dict[str, Tuple[int, int, bool]]] = {
        "horizresolution": (32, 16, False), "vertresolution": (32, 16, False)}
    _codes: ClassVar[Tuple[str, ...]] = ("format",)

    format: str
    width: int = 0
    height: int = 0
    boxes: bytes = b""
    data_reference_index: int = 1
    horizresolution: float = 72.0
    vertresolution: float = 72.0
    frame_count: int = 1
    compressorname: bytes = b""
    depth: int = 24

    @classmethod
    def read(cls, data: Any) -> "VisualEntry":
        """Returns the fields of the sample entry at the front of the bytes."""
        code, content = _content(data, _VISUAL.size)
        index, width, height, across, down, _, frames, name, depth, _ = _VISUAL.unpack_from(content)
        return cls(code, width, height, content[_VISUAL.size:], index, across / 65536, down / 65536, frames,
                   name[1:1 + min(name[0], 31)], depth)

    def write(self) -> bytes:
        """Returns the bytes of the sample entry, including its header."""
        name = calls._bytes(self.compressorname, "visualentry.compressorname")
        if len(name) > 31:
            raise calls._refused("visualentry.compressorname", name, "at most 31 bytes")
        across, down = (_fields._fixed(getattr(self, it), self._fixed[it], f"visualentry.{it}")
                        for it in ("horizresolution", "vertresolution"))
        front = _VISUAL.pack(self.data_reference_index, self.width, self.height, across, down, 0, self.frame_count,
                             bytes([len(name)]) + name, self.depth, 0xFFFF)
        return _fields.container(self.format, front[8:], self.boxes)


@dataclass(frozen=True)
class SoundEntry(_fields.Part):
    """A sample entry of sound with the code `format` (ISO/IEC 14496-12, 12.2.3). `boxes` are the bytes of the boxes
    inside. `more` has the bytes that versions 1 and 2 of QuickTime add to the fields: 16 or 36."""

    _bits: ClassVar[Dict[str, Union[Tuple[int, ...], range]]] = {
        "data_reference_index": (16,), "channelcount": (16,), "samplesize": (16,), "version": (16,)}
    _fixed: ClassVar[Dict[str, Tuple[int, int, bool]]] = {"samplerate": (32, 16, False)}
    _codes: ClassVar[Tuple[str, ...]] = ("format",)

    format: str
    channelcount: int = 2
    samplerate: float = 0.0
    boxes: bytes = b""
    data_reference_index: int = 1
    samplesize: int = 16
    version: int = 0
    more: bytes = b""

    @classmethod
    def read(cls, data: Any, stsd_version: int = 0) -> "SoundEntry":
        """Returns the fields of the sample entry at the front of the bytes. Its versions 1 and 2 are those of QuickTime
        if the version of the `stsd` is 0."""
        code, content = _content(data, _SOUND.size)
        index, version, channels, bits, _, _, rate = _SOUND.unpack_from(content)
        end = _SOUND.size + (0 if stsd_version else _MORE.get(version, 0))
        _content(data, end)
        return cls(code, channels, rate / 65536, content[end:], index, bits, version, content[_SOUND.size:end])

    def write(self) -> bytes:
        """Returns the bytes of the sample entry, including its header."""
        more = calls._bytes(self.more, "soundentry.more")
        if len(more) not in (0, _MORE.get(self.version, 0)):
            raise calls._refused("soundentry.more", more, f"{_MORE.get(self.version, 0)} bytes")
        rate = _fields._fixed(self.samplerate, self._fixed["samplerate"], "soundentry.samplerate")
        front = _SOUND.pack(self.data_reference_index, self.version, self.channelcount, self.samplesize, 0, 0, rate)
        return _fields.container(self.format, front[8:], more, self.boxes)
