"""The tracks of a movie, with what a program asks of them first."""

import typing
from fractions import Fraction
from typing import List, Optional

from . import _fields, calls, classes
from .calls import Mp4Error
from ._samples import Samples, samples_of

if typing.TYPE_CHECKING:
    from ._file import Box


class Track:
    """A track: a `trak` of the movie. Its kind, codec, duration, pictures, sound and numbers of samples are those of
    `mp4inspect info`. A number that is not known is 0, and a text is then empty."""

    def __init__(self, box: "Box", number: int) -> None:
        self.box = box
        self._number = number
        self._samples: Optional[Samples] = None

    @property
    def _info(self) -> calls.TrackInfo:
        """The track, as the library knows it."""
        return self.box.file._info.tracks[self._number]

    @property
    def id(self) -> int:
        """The track_ID."""
        return self.box["tkhd"].read(classes.Tkhd).track_id

    @property
    def handler(self) -> str:
        """The code of the kind of media, such as `vide`."""
        return self.box["mdia/hdlr"].read(classes.Hdlr).handler_type

    @property
    def kind(self) -> str:
        """The kind of media: `video`, `audio`, `subtitles`, `text`, `captions`, `timecode`, `metadata`, `hint`,
        `auxiliary video` or `picture`, or the code of another handler."""
        return self._info.kind or (_fields.code_of(self._info.handler) if self._info.handler else "")

    @property
    def media(self) -> classes.Mdhd:
        """The header of the media."""
        return self.box["mdia/mdhd"].read(classes.Mdhd)

    @property
    def timescale(self) -> int:
        """The number of units of time in a second, for durations and times of samples."""
        return self.media.timescale

    @property
    def duration(self) -> int:
        """The duration of the media in its timescale: the end of the last sample."""
        return self._info.samples.end

    @property
    def seconds(self) -> float:
        """The duration of the track in seconds, by its edits, or of its media without edits."""
        return self._info.duration / self._info.duration_scale if self._info.duration_scale else 0.0

    @property
    def language(self) -> str:
        """The language of the media: the tag of an `elng`, such as `de-CH`, else three letters such as `deu`. It is
        `und` for most languages of the Macintosh, which are numbers."""
        return self._info.language

    @property
    def entries(self) -> List["Box"]:
        """The sample entries, which describe how samples are coded."""
        found = self.box.find("mdia/minf/stbl/stsd")
        return found.children if found else []

    @property
    def entry(self) -> "Box":
        """The first sample entry. If there is none, the Mp4Error has the status BOX_NOT_FOUND."""
        if not self.entries:
            raise Mp4Error(calls.BOX_NOT_FOUND, "there is no sample entry", position=self.box.position,
                           path=self.box.path)
        return self.entries[0]

    @property
    def begin(self) -> int:
        """The time of the media with which the track begins, by its first edit that isn't empty: 0 without edits."""
        edits = self.box.find("edts/elst")
        rows = edits.read(classes.Elst).rows if edits else []
        return next((it.media_time for it in rows if it.media_time >= 0), 0)

    @property
    def is_encrypted(self) -> bool:
        """Whether the first sample entry is encrypted."""
        return self._info.protection.is_encrypted

    @property
    def scheme(self) -> str:
        """The scheme of the encryption, such as `cenc`."""
        return _fields.code_of(self._info.protection.scheme) if self._info.protection.scheme else ""

    @property
    def kid(self) -> Optional[bytes]:
        """The default KID of the encryption: 16 bytes, or None if it is not known."""
        return self._info.protection.kid if self._info.protection.has_kid else None

    @property
    def format(self) -> str:
        """The code of the first sample entry, or of the one that was encrypted. It is empty without an entry."""
        return _fields.code_of(self._info.protection.original) if self._info.entry else ""

    @property
    def codec(self) -> str:
        """The codec and its profile as web pages and playlists name them (RFC 6381), such as `avc1.64001f`."""
        return self._info.codec

    @property
    def width(self) -> int:
        """The width of the pictures in pixels, 0 for other media."""
        return self._info.picture.width

    @property
    def height(self) -> int:
        """The height of the pictures in pixels, 0 for other media."""
        return self._info.picture.height

    @property
    def rotation(self) -> Optional[int]:
        """The degrees by which a player turns the pictures clockwise: 0, 90, 180 or 270. It is None for other media,
        and if the matrix of the track does something else."""
        return self._info.picture.rotation if self._info.picture.has_rotation else None

    @property
    def frame_rate(self) -> Optional[Fraction]:
        """The frames of a second: a constant rate, or the average. It is None with fewer than two samples."""
        samples = self._info.samples
        return Fraction(samples.frames, samples.frame_units) if samples.frame_units else None

    @property
    def bit_rate(self) -> int:
        """The bits of a second, on average."""
        return self._info.samples.bit_rate

    @property
    def channels(self) -> int:
        """The number of channels of sound, with those of low frequencies, 0 for other media."""
        return self._info.sound.channels + self._info.sound.low_channels

    @property
    def sample_rate(self) -> int:
        """The sample rate of sound in whole hertz, 0 for other media."""
        return self._info.sound.sample_rate

    @property
    def sample_count(self) -> int:
        """The number of samples that the track counts. To find it takes no memory for samples, so compare it with what
        you expect before you list the samples of a file that you don't trust."""
        return self._info.samples.sample_count

    @property
    def key_frame_count(self) -> int:
        """The number of samples that are key frames."""
        return self._info.samples.key_frames

    @property
    def samples(self) -> Samples:
        """All samples: those of the tables of the track, and then those of its fragments. They are listed once. If two
        tracks have one track_ID, the first has the fragments."""
        if self._samples is None:
            try:
                # Without the other tracks, a track whose track_ID an earlier one has too is the first one.
                alone = _fields.container("moov", self.box.data) if self._has_earlier() else self.box.file.data
                self._samples = samples_of(alone, self.id)
            except Mp4Error as why:
                raise why if why.path else why.at(self.box.position, self.box.path) from None
        return self._samples

    def _has_earlier(self) -> bool:
        """Returns whether an earlier track of the movie has the same track_ID, and with it the fragments."""
        for it in self.box.file.tracks:
            if it.box.position >= self.box.position:
                return False
            try:
                if it.id == self.id:
                    return True
            except Mp4Error:
                continue
        return False

    def data(self, sample: calls.Sample) -> memoryview:
        """Returns the bytes of a sample. Raises an Mp4Error if the file ends before them."""
        found = self.box.file.bytes_at(sample.offset, sample.size)
        if len(found) < sample.size:
            raise Mp4Error(calls.END_OF_INPUT, f"the sample ends at {sample.offset + sample.size}, and the file at "
                           f"{self.box.file.length}", position=self.box.position, path=self.box.path)
        return found

    def __repr__(self) -> str:
        return f"<Track {self.box.path} at {self.box.position}>"
