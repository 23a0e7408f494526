"""The classes of all boxes. tools/python_classes.py makes this module from docs/boxes.json and the header: do not edit
it.

The names of fields are those of docs/FIELDS.md and of the structs in `mp4_box_codec.h`. A code is a text of four
characters, a number of one bit a bool, a fixed-point number a float. A field that a box may lack is None.
"""

from dataclasses import dataclass, field
from typing import List, Optional, Sequence, Tuple, Union

from ._fields import Fields, Matrix, Part, listed
from .calls import CttsRow, ElstRow, StscRow, SttsRow, TrunRow


@dataclass(frozen=True)
class Co64(Fields):
    """The offsets of the chunks in 64 bits, in bytes from the front of the file (`co64`, ISO/IEC 14496-12, 8.7.5)."""

    code = "co64"
    _call = "co64"
    _is_written = True
    _struct = "mp4_table"

    version: int = 0
    flags: int = 0
    rows: Sequence[int] = ()


@dataclass(frozen=True)
class Ctts(Fields):
    """The composition offsets of the samples (`ctts`, ISO/IEC 14496-12, 8.6.1.3)."""

    code = "ctts"
    _call = "ctts"
    _is_written = True
    _struct = "mp4_table"

    version: int = 0
    flags: int = 0
    rows: Sequence[CttsRow] = ()


@dataclass(frozen=True)
class Elst(Fields):
    """The edits of a track (`elst`, ISO/IEC 14496-12, 8.6.6)."""

    code = "elst"
    _call = "elst"
    _is_written = True
    _struct = "mp4_table"

    version: int = 0
    flags: int = 0
    rows: Sequence[ElstRow] = ()


@dataclass(frozen=True)
class Emsg(Fields):
    """An event message (`emsg`, ISO/IEC 23009-1, 5.10.3.3)."""

    code = "emsg"
    _call = "emsg"
    _is_written = True
    _struct = "mp4_emsg_box"

    version: int = 0
    flags: int = 0
    presentation_time: int = 0
    presentation_time_delta: int = 0
    timescale: int = 0
    event_duration: int = 0
    id: int = 0
    scheme_id_uri: str = ""
    value: str = ""
    message_data: bytes = b""


@dataclass(frozen=True)
class Ftyp(Fields):
    """The brands of a file (`ftyp`, ISO/IEC 14496-12, 4.3)."""

    code = "ftyp"
    _call = "ftyp"
    _is_written = True
    _struct = "mp4_ftyp_box"
    _codes = ("major_brand",)

    major_brand: str = "\0\0\0\0"
    minor_version: int = 0
    compatible_brands: List[str] = field(default_factory=list)


@dataclass(frozen=True)
class Hdlr(Fields):
    """The kind of media of a track (`hdlr`, ISO/IEC 14496-12, 8.4.3)."""

    code = "hdlr"
    _call = "hdlr"
    _is_written = True
    _struct = "mp4_hdlr_box"
    _codes = ("handler_type",)

    version: int = 0
    flags: int = 0
    handler_type: str = "\0\0\0\0"
    name: str = ""


@dataclass(frozen=True)
class Mdhd(Fields):
    """Properties of the media of a track (`mdhd`, ISO/IEC 14496-12, 8.4.2)."""

    code = "mdhd"
    _call = "mdhd"
    _is_written = True
    _struct = "mp4_mdhd_box"

    version: int = 0
    flags: int = 0
    creation_time: int = 0
    modification_time: int = 0
    duration: int = 0
    timescale: int = 0
    language: str = "und"


@dataclass(frozen=True)
class Mehd(Fields):
    """The duration of a movie with fragments (`mehd`, ISO/IEC 14496-12, 8.8.2)."""

    code = "mehd"
    _call = "mehd"
    _is_written = True
    _struct = "mp4_mehd_box"

    version: int = 0
    flags: int = 0
    fragment_duration: int = 0


@dataclass(frozen=True)
class Mfhd(Fields):
    """The number of a fragment (`mfhd`, ISO/IEC 14496-12, 8.8.5)."""

    code = "mfhd"
    _call = "mfhd"
    _is_written = True
    _struct = "mp4_mfhd_box"

    version: int = 0
    flags: int = 0
    sequence_number: int = 0


@dataclass(frozen=True)
class Mvhd(Fields):
    """Properties of the whole movie (`mvhd`, ISO/IEC 14496-12, 8.2.2)."""

    code = "mvhd"
    _call = "mvhd"
    _is_written = True
    _struct = "mp4_mvhd_box"
    _fixed = {"rate": (32, 16, True), "volume": (16, 8, True)}

    version: int = 0
    flags: int = 0
    creation_time: int = 0
    modification_time: int = 0
    duration: int = 0
    timescale: int = 0
    rate: float = 1.0
    matrix: Matrix = Matrix()
    next_track_id: int = 0
    volume: float = 1.0


@dataclass(frozen=True)
class Smhd(Fields):
    """The balance between left and right (`smhd`, ISO/IEC 14496-12, 12.2.2)."""

    code = "smhd"
    _call = "smhd"
    _is_written = True
    _struct = "mp4_smhd_box"
    _fixed = {"balance": (16, 8, True)}

    version: int = 0
    flags: int = 0
    balance: float = 0.0


@dataclass(frozen=True)
class Stco(Fields):
    """The offsets of the chunks, in bytes from the front of the file (`stco`, ISO/IEC 14496-12, 8.7.5)."""

    code = "stco"
    _call = "stco"
    _is_written = True
    _struct = "mp4_table"

    version: int = 0
    flags: int = 0
    rows: Sequence[int] = ()


@dataclass(frozen=True)
class Stsc(Fields):
    """The chunks of the samples (`stsc`, ISO/IEC 14496-12, 8.7.4)."""

    code = "stsc"
    _call = "stsc"
    _is_written = True
    _struct = "mp4_table"

    version: int = 0
    flags: int = 0
    rows: Sequence[StscRow] = ()


@dataclass(frozen=True)
class Stss(Fields):
    """The numbers of the sync samples, counted from 1 (`stss`, ISO/IEC 14496-12, 8.6.2)."""

    code = "stss"
    _call = "stss"
    _is_written = True
    _struct = "mp4_table"

    version: int = 0
    flags: int = 0
    rows: Sequence[int] = ()


@dataclass(frozen=True)
class Stsz(Fields):
    """The sizes of the samples, in bytes (`stsz`, ISO/IEC 14496-12, 8.7.3.2)."""

    code = "stsz"
    _call = "stsz"
    _is_written = True
    _struct = "mp4_stsz_table"

    version: int = 0
    flags: int = 0
    sample_size: int = 0
    sample_count: int = 0
    rows: Sequence[int] = ()


@dataclass(frozen=True)
class Stts(Fields):
    """The durations of the samples (`stts`, ISO/IEC 14496-12, 8.6.1.2)."""

    code = "stts"
    _call = "stts"
    _is_written = True
    _struct = "mp4_table"

    version: int = 0
    flags: int = 0
    rows: Sequence[SttsRow] = ()


@dataclass(frozen=True)
class Tfdt(Fields):
    """The time at which the first sample of a track fragment is decoded (`tfdt`, ISO/IEC 14496-12, 8.8.12)."""

    code = "tfdt"
    _call = "tfdt"
    _is_written = True
    _struct = "mp4_tfdt_box"

    version: int = 0
    flags: int = 0
    base_media_decode_time: int = 0


@dataclass(frozen=True)
class Tfhd(Fields):
    """The track of a fragment, and defaults for its samples (`tfhd`, ISO/IEC 14496-12, 8.8.7)."""

    code = "tfhd"
    _call = "tfhd"
    _is_written = True
    _struct = "mp4_tfhd_box"

    version: int = 0
    flags: int = 0
    base_data_offset: int = 0
    track_id: int = 0
    sample_description_index: int = 1
    default_sample_duration: int = 0
    default_sample_size: int = 0
    default_sample_flags: int = 0


@dataclass(frozen=True)
class Tkhd(Fields):
    """Properties of a track (`tkhd`, ISO/IEC 14496-12, 8.3.2)."""

    code = "tkhd"
    _call = "tkhd"
    _is_written = True
    _struct = "mp4_tkhd_box"
    _fixed = {"width": (32, 16, False), "height": (32, 16, False), "volume": (16, 8, True)}

    version: int = 0
    flags: int = 0
    creation_time: int = 0
    modification_time: int = 0
    duration: int = 0
    track_id: int = 0
    matrix: Matrix = Matrix()
    width: float = 0.0
    height: float = 0.0
    layer: int = 0
    alternate_group: int = 0
    volume: float = 0.0


@dataclass(frozen=True)
class Trex(Fields):
    """The defaults for the samples of a track's fragments (`trex`, ISO/IEC 14496-12, 8.8.3)."""

    code = "trex"
    _call = "trex"
    _is_written = True
    _struct = "mp4_trex_box"

    version: int = 0
    flags: int = 0
    track_id: int = 0
    default_sample_description_index: int = 1
    default_sample_duration: int = 0
    default_sample_size: int = 0
    default_sample_flags: int = 0


@dataclass(frozen=True)
class Trun(Fields):
    """The samples of a run of a track fragment (`trun`, ISO/IEC 14496-12, 8.8.8)."""

    code = "trun"
    _call = "trun"
    _is_written = True
    _struct = "mp4_trun_table"

    version: int = 0
    flags: int = 0
    sample_count: int = 0
    data_offset: int = 0
    first_sample_flags: int = 0
    rows: Sequence[TrunRow] = ()


@dataclass(frozen=True)
class Vmhd(Fields):
    """How video is composed with what is below it (`vmhd`, ISO/IEC 14496-12, 12.1.2)."""

    code = "vmhd"
    _call = "vmhd"
    _is_written = True
    _struct = "mp4_vmhd_box"

    version: int = 0
    flags: int = 1
    graphics_mode: int = 0
    red: int = 0
    green: int = 0
    blue: int = 0


@dataclass(frozen=True)
class Url(Fields):
    """The location of media data (`url`, ISO/IEC 14496-12, 8.7.2)."""

    code = "url "
    _call = "url"
    _is_written = True
    _within = ("dref", "url", 16)
    _struct = "mp4_url_box"

    version: int = 0
    flags: int = 1
    location: str = ""


@dataclass(frozen=True)
class Dref(Fields):
    """The data references of a track (`dref`, ISO/IEC 14496-12, 8.7.2)."""

    code = "dref"
    _call = "dref"
    _is_written = True
    _struct = "mp4_dref_box"

    version: int = 0
    flags: int = 0
    url: Optional[Url] = None


@dataclass(frozen=True)
class Dinf(Fields):
    """The data references of a track (`dinf`, ISO/IEC 14496-12, 8.7.1)."""

    code = "dinf"
    _call = "dinf"
    _is_written = True
    _within = ("", "", 0)

    dref: Dref = field(default_factory=lambda: Dref())


@dataclass(frozen=True)
class AvcC(Fields):
    """The configuration of an AVC decoder (`avcC`, ISO/IEC 14496-15, 5.3.3.1)."""

    code = "avcC"
    _call = "avcc"
    _is_written = True
    _within = ("avc1", "avcc", 86)
    _struct = "mp4_avcc_box"

    configuration_version: int = 1
    avc_profile_indication: int = 0
    profile_compatibility: int = 0
    avc_level_indication: int = 0
    length_size_minus_one: int = 3
    sequence_parameter_sets: List[bytes] = field(default_factory=list)
    picture_parameter_sets: List[bytes] = field(default_factory=list)


@dataclass(frozen=True)
class VpcC(Fields):
    """The configuration of a VP9 decoder (`vpcC`, VP Codec ISO Media File Format Binding)."""

    code = "vpcC"
    _call = "vpcc"
    _is_written = True
    _within = ("vp09", "vpcc", 86)
    _struct = "mp4_vpcc_box"

    version: int = 1
    flags: int = 0
    codec_initialization_data_size: int = 0
    profile: int = 0
    level: int = 0
    bit_depth: int = 8
    chroma_subsampling: int = 0
    video_full_range_flag: bool = False
    color_primaries: int = 0
    transfer_characteristics: int = 0
    matrix_coefficients: int = 0


@dataclass(frozen=True)
class Esds(Fields):
    """The descriptors of MPEG-4 audio (`esds`, ISO/IEC 14496-14, 5.6)."""

    code = "esds"
    _call = "esds"
    _is_written = True
    _within = ("mp4a", "esds", 36)
    _struct = "mp4_esds_box"

    version: int = 0
    flags: int = 0
    buffer_size_db: int = 0
    max_bitrate: int = 0
    avg_bitrate: int = 0
    sample_rate: int = 0
    es_id: int = 0
    object_type_indication: int = 0x40
    stream_type: int = 5
    up_stream: bool = False
    profile: int = 2
    freq_index: int = 0
    chan_conf: int = 0


@dataclass(frozen=True)
class Avc1(Fields):
    """AVC video (`avc1`, ISO/IEC 14496-15, 5.4.2)."""

    code = "avc1"
    _call = "avc1"
    _is_written = True
    _within = ("stsd", "entry", 16)
    _struct = "mp4_avc1_box"
    _fixed = {"horizresolution": (32, 16, False), "vertresolution": (32, 16, False)}

    horizresolution: float = 72.0
    vertresolution: float = 72.0
    data_reference_index: int = 1
    width: int = 0
    height: int = 0
    frame_count: int = 1
    depth: int = 24
    avcc: AvcC = field(default_factory=AvcC)


@dataclass(frozen=True)
class Hev1(Fields):
    """HEVC video (`hev1`, ISO/IEC 14496-15, 8.4.1)."""

    code = "hev1"
    _call = "hev1"
    _is_written = True
    _within = ("stsd", "entry", 16)
    _struct = "mp4_hev1_box"
    _fixed = {"horizresolution": (32, 16, False), "vertresolution": (32, 16, False)}

    horizresolution: float = 72.0
    vertresolution: float = 72.0
    data_reference_index: int = 1
    width: int = 0
    height: int = 0
    frame_count: int = 1
    depth: int = 24
    configuration_version: int = 1


@dataclass(frozen=True)
class Vp09(Fields):
    """VP9 video (`vp09`, VP Codec ISO Media File Format Binding)."""

    code = "vp09"
    _call = "vp09"
    _is_written = True
    _within = ("stsd", "entry", 16)
    _struct = "mp4_vp09_box"
    _fixed = {"horizresolution": (32, 16, False), "vertresolution": (32, 16, False)}

    version: int = 0
    flags: int = 0
    start_code: int = 0
    data_reference_index: int = 1
    width: int = 0
    height: int = 0
    horizresolution: float = 72.0
    vertresolution: float = 72.0
    frame_count: int = 1
    depth: int = 24
    end_code: int = 0xFFFF
    reserved0: bytes = bytes(16)
    reserved1: bytes = bytes(4)
    compressorname: bytes = bytes(32)
    vpcc: VpcC = field(default_factory=VpcC)


@dataclass(frozen=True)
class Mp4a(Fields):
    """MPEG-4 audio (`mp4a`, ISO/IEC 14496-14, 5.6)."""

    code = "mp4a"
    _call = "mp4a"
    _is_written = True
    _within = ("stsd", "entry", 16)
    _struct = "mp4_mp4a_box"
    _fixed = {"samplerate": (32, 16, False)}

    samplerate: float = 0.0
    data_reference_index: int = 1
    channelcount: int = 0
    samplesize: int = 16
    esds: Optional[Esds] = None


@dataclass(frozen=True)
class Tx3g(Fields):
    """Timed text (`tx3g`, ISO/IEC 14496-12, 3GPP TS 26.245, 5.16)."""

    code = "tx3g"
    _call = "tx3g"
    _is_written = True
    _within = ("stsd", "entry", 16)
    _struct = "mp4_tx3g_box"

    display_flags: int = 0
    data_reference_index: int = 1
    box_record: Tuple[int, ...] = (0,) * 4
    horizontal_justification: int = 0
    vertical_justification: int = 0
    bg_color_rgba: bytes = bytes(4)
    style_record: bytes = bytes(12)


@dataclass(frozen=True)
class Stsd(Fields):
    """The first sample entry of a track, if it is of one of these five types (`stsd`, ISO/IEC 14496-12, 8.5.2)."""

    code = "stsd"
    _call = "stsd"
    _is_written = True
    _struct = "mp4_stsd_box"

    version: int = 0
    flags: int = 0
    entry: Union[Avc1, Hev1, Vp09, Mp4a, Tx3g, None] = None


@dataclass(frozen=True)
class Alac(Fields):
    """The configuration of an Apple Lossless decoder (`alac`, ALAC, "Magic cookie description")."""

    code = "alac"
    _bits = {"version": (8,), "flags": (24,), "frameLength": (32,), "compatibleVersion": (8,), "bitDepth": (8,), "pb":
    (8,), "mb": (8,), "kb": (8,), "numChannels": (8,), "maxRun": (16,), "maxFrameBytes": (32,), "avgBitRate": (32,),
    "sampleRate": (32,)}

    version: int
    flags: int
    frameLength: int
    compatibleVersion: int
    bitDepth: int
    pb: int
    mb: int
    kb: int
    numChannels: int
    maxRun: int
    maxFrameBytes: int
    avgBitRate: int
    sampleRate: int
    ALACChannelLayoutInfo: Optional[bytes] = None


@dataclass(frozen=True)
class Alis(Fields):
    """A reference to media data by a Macintosh alias (`alis`, QuickTime File Format, "Data reference atoms")."""

    code = "alis"
    _bits = {"version": (8,), "flags": (24,)}

    version: int
    flags: int
    data_bytes: Optional[bytes] = None


@dataclass(frozen=True)
class AuxC(Fields):
    """The role of an auxiliary image (`auxC`, ISO/IEC 23008-12, 6.5.8)."""

    code = "auxC"
    _bits = {"version": (8,), "flags": (24,)}

    version: int
    flags: int
    aux_type: str
    aux_type_hex: Optional[bytes] = None
    aux_subtype: Optional[bytes] = None


@dataclass(frozen=True)
class Av1C(Fields):
    """The configuration of an AV1 decoder (`av1C`, AV1 Codec ISO Media File Format Binding, 2.3)."""

    code = "av1C"
    _bits = {"version": (7,), "seq_profile": (3,), "seq_level_idx_0": (5,), "chroma_sample_position": (2,), "reserved":
    (3,), "initial_presentation_delay_minus_one": (4,), "reserved_without_delay": (4,)}

    marker: bool
    version: int
    seq_profile: int
    seq_level_idx_0: int
    seq_tier_0: bool
    high_bitdepth: bool
    twelve_bit: bool
    monochrome: bool
    chroma_subsampling_x: bool
    chroma_subsampling_y: bool
    chroma_sample_position: int
    initial_presentation_delay_present: bool
    configOBUs: bytes
    reserved: Optional[int] = None
    initial_presentation_delay_minus_one: Optional[int] = None
    reserved_without_delay: Optional[int] = None


@dataclass(frozen=True)
class Btrt(Fields):
    """The bit rates of the media of a sample entry (`btrt`, ISO/IEC 14496-12, 8.5.2.2)."""

    code = "btrt"
    _bits = {"bufferSizeDB": (32,), "maxBitrate": (32,), "avgBitrate": (32,)}

    bufferSizeDB: int
    maxBitrate: int
    avgBitrate: int


@dataclass(frozen=True)
class ChanMChannelDescriptions(Part):
    """An entry of `mChannelDescriptions`."""

    _bits = {"mChannelLabel": (32,), "mChannelFlags": (32,)}

    mChannelLabel: int
    mChannelFlags: int
    mCoordinates_0: bytes
    mCoordinates_1: bytes
    mCoordinates_2: bytes
    mChannelLabel_name: Optional[str] = field(default=None, compare=False)


@dataclass(frozen=True)
class Chan(Fields):
    """The channels of a sound (`chan`, QuickTime File Format, "Audio channel layout atom")."""

    code = "chan"
    _bits = {"version": (8,), "flags": (24,), "mChannelLayoutTag": (32,), "mChannelBitmap": (32,),
    "mNumberChannelDescriptions": (32,)}

    version: int
    flags: int
    mChannelLayoutTag: int
    mChannelBitmap: int
    mChannelDescriptions: List[ChanMChannelDescriptions]
    mChannelLayoutTag_name: Optional[str] = field(default=None, compare=False)
    mNumberChannelDescriptions: Optional[int] = field(default=None, compare=False)


@dataclass(frozen=True)
class Chnl(Fields):
    """The channels of a sound (`chnl`, ISO/IEC 14496-12, 12.2.4)."""

    code = "chnl"
    _bits = {"version": (8,), "flags": (24,), "stream_structure": (8,), "format_ordering": (4,), "baseChannelCount":
    (8,)}

    version: int
    flags: int
    stream_structure: Optional[int] = None
    stream_structure_name: Optional[str] = field(default=None, compare=False)
    format_ordering: Optional[int] = None
    baseChannelCount: Optional[int] = None
    data_bytes: Optional[bytes] = None


@dataclass(frozen=True)
class Clap(Fields):
    """The part of a video's pictures to show (`clap`, ISO/IEC 14496-12, 12.1.4)."""

    code = "clap"
    _bits = {"cleanApertureWidthN": (32,), "cleanApertureWidthD": (32,), "cleanApertureHeightN": (32,),
    "cleanApertureHeightD": (32,), "horizOffN": (-32,), "horizOffD": (32,), "vertOffN": (-32,), "vertOffD": (32,)}

    cleanApertureWidthN: int
    cleanApertureWidthD: int
    cleanApertureHeightN: int
    cleanApertureHeightD: int
    horizOffN: int
    horizOffD: int
    vertOffN: int
    vertOffD: int


@dataclass(frozen=True)
class Clli(Fields):
    """The brightness of a video's pictures (`clli`, ISO/IEC 14496-12, 12.1.6)."""

    code = "clli"
    _bits = {"max_content_light_level": (16,), "max_pic_average_light_level": (16,)}

    max_content_light_level: int
    max_pic_average_light_level: int


@dataclass(frozen=True)
class Colr(Fields):
    """The colours of a video (`colr`, ISO/IEC 14496-12, 12.1.5)."""

    code = "colr"
    _bits = {"colour_primaries": (16,), "transfer_characteristics": (16,), "matrix_coefficients": (16,), "reserved":
    (7,)}
    _codes = ("colour_type",)

    colour_type: str
    colour_primaries: Optional[int] = None
    colour_primaries_name: Optional[str] = field(default=None, compare=False)
    transfer_characteristics: Optional[int] = None
    transfer_characteristics_name: Optional[str] = field(default=None, compare=False)
    matrix_coefficients: Optional[int] = None
    matrix_coefficients_name: Optional[str] = field(default=None, compare=False)
    full_range_flag: Optional[bool] = None
    reserved: Optional[int] = None
    ICC_profile: Optional[bytes] = None
    data_bytes: Optional[bytes] = None


@dataclass(frozen=True)
class Cslg(Fields):
    """The relation of a track's composition times to its decoding times (`cslg`, ISO/IEC 14496-12, 8.6.1.4)."""

    code = "cslg"
    _bits = {"version": (8,), "flags": (24,), "compositionToDTSShift": (-32, -64), "leastDecodeToDisplayDelta": (-32,
    -64), "greatestDecodeToDisplayDelta": (-32, -64), "compositionStartTime": (-32, -64), "compositionEndTime": (-32,
    -64)}

    version: int
    flags: int
    compositionToDTSShift: int
    leastDecodeToDisplayDelta: int
    greatestDecodeToDisplayDelta: int
    compositionStartTime: int
    compositionEndTime: int


@dataclass(frozen=True)
class Dac3(Fields):
    """The configuration of an AC-3 decoder (`dac3`, ETSI TS 102 366, F.4)."""

    code = "dac3"
    _bits = {"fscod": (2,), "bsid": (5,), "bsmod": (3,), "acmod": (3,), "bit_rate_code": (5,), "reserved": (5,)}

    fscod: int
    bsid: int
    bsmod: int
    acmod: int
    lfeon: bool
    bit_rate_code: int
    reserved: Optional[int] = None


@dataclass(frozen=True)
class Data(Fields):
    """The value of a metadata item, of any type (`data`, QuickTime File Format, "Value atom")."""

    code = "data"
    _bits = {"type_set": (8,), "data_type": (24,), "number": (-64,)}

    data_type: int
    type_set: Optional[int] = None
    data_type_name: Optional[str] = field(default=None, compare=False)
    country: Optional[Union[str, int]] = None
    language: Optional[Union[str, int]] = None
    text: Optional[str] = None
    text_hex: Optional[bytes] = None
    number: Optional[int] = None
    number_hex: Optional[bytes] = None
    data_bytes: Optional[bytes] = None


@dataclass(frozen=True)
class Dec3Substreams(Part):
    """An entry of `substreams`."""

    _bits = {"fscod": (2,), "bsid": (5,), "bsmod": (3,), "acmod": (3,), "reserved_before_num_dep_sub": (3,),
    "num_dep_sub": (4,), "chan_loc": (9,)}

    fscod: int
    bsid: int
    asvc: bool
    bsmod: int
    acmod: int
    lfeon: bool
    num_dep_sub: int
    reserved_before_asvc: Optional[bool] = None
    reserved_before_num_dep_sub: Optional[int] = None
    reserved_after_num_dep_sub: Optional[bool] = None
    chan_loc: Optional[int] = None


@dataclass(frozen=True)
class Dec3(Fields):
    """The configuration of an Enhanced AC-3 decoder (`dec3`, ETSI TS 102 366, F.6)."""

    code = "dec3"
    _bits = {"data_rate": (13,), "num_ind_sub": (3,)}

    data_rate: int
    num_ind_sub: int
    substreams: Optional[List[Dec3Substreams]] = None
    data_bytes: Optional[bytes] = None


@dataclass(frozen=True)
class DfLaMetadataBlocks(Part):
    """An entry of `metadata_blocks`."""

    _bits = {"BlockType": (7,), "Length": (24,), "minimum_block_size": (16,), "maximum_block_size": (16,),
    "minimum_frame_size": (24,), "maximum_frame_size": (24,), "sample_rate": (20,), "channels": range(1, 9),
    "bits_per_sample": range(1, 33), "total_samples": (36,)}

    LastMetadataBlockFlag: bool
    BlockType: int
    Length: int
    BlockType_name: Optional[str] = field(default=None, compare=False)
    minimum_block_size: Optional[int] = None
    maximum_block_size: Optional[int] = None
    minimum_frame_size: Optional[int] = None
    maximum_frame_size: Optional[int] = None
    sample_rate: Optional[int] = None
    channels: Optional[int] = None
    bits_per_sample: Optional[int] = None
    total_samples: Optional[int] = None
    MD5: Optional[bytes] = None
    BlockData: Optional[bytes] = None


@dataclass(frozen=True)
class DfLa(Fields):
    """The configuration of a FLAC decoder (`dfLa`, Encapsulation of FLAC in ISO Base Media File Format, 3.3.2)."""

    code = "dfLa"
    _bits = {"version": (8,), "flags": (24,)}

    version: int
    flags: int
    metadata_blocks: List[DfLaMetadataBlocks]


@dataclass(frozen=True)
class DOps(Fields):
    """The configuration of an Opus decoder (`dOps`, Encapsulation of Opus in ISO Base Media File Format, 4.3.2)."""

    code = "dOps"
    _bits = {"Version": (8,), "OutputChannelCount": (8,), "PreSkip": (16,), "InputSampleRate": (32,),
    "ChannelMappingFamily": (8,), "StreamCount": (8,), "CoupledCount": (8,)}

    Version: int
    OutputChannelCount: int
    PreSkip: int
    InputSampleRate: int
    OutputGain: float
    ChannelMappingFamily: int
    StreamCount: Optional[int] = None
    CoupledCount: Optional[int] = None
    ChannelMapping: Optional[bytes] = None
    data_bytes: Optional[bytes] = None


@dataclass(frozen=True)
class DvcC(Fields):
    """The configuration of Dolby Vision in profiles up to 7 (`dvcC`, Dolby Vision Streams Within the ISO Base Media
    File Format, "Configuration boxes")."""

    code = "dvcC"
    _bits = {"dv_version_major": (8,), "dv_version_minor": (8,), "dv_profile": (7,), "dv_level": (6,),
    "dv_bl_signal_compatibility_id": (4,), "reserved": (28,)}

    dv_version_major: int
    dv_version_minor: int
    dv_profile: int
    dv_level: int
    rpu_present_flag: bool
    el_present_flag: bool
    bl_present_flag: bool
    dv_bl_signal_compatibility_id: int
    dv_bl_signal_compatibility_id_name: Optional[str] = field(default=None, compare=False)
    reserved: Optional[int] = None


@dataclass(frozen=True)
class DvvC(Fields):
    """The configuration of Dolby Vision in profiles 8 to 10 (`dvvC`, Dolby Vision Streams Within the ISO Base Media
    File Format, "Configuration boxes")."""

    code = "dvvC"
    _bits = {"dv_version_major": (8,), "dv_version_minor": (8,), "dv_profile": (7,), "dv_level": (6,),
    "dv_bl_signal_compatibility_id": (4,), "reserved": (28,)}

    dv_version_major: int
    dv_version_minor: int
    dv_profile: int
    dv_level: int
    rpu_present_flag: bool
    el_present_flag: bool
    bl_present_flag: bool
    dv_bl_signal_compatibility_id: int
    dv_bl_signal_compatibility_id_name: Optional[str] = field(default=None, compare=False)
    reserved: Optional[int] = None


@dataclass(frozen=True)
class Elng(Fields):
    """The language of a track's media (`elng`, ISO/IEC 14496-12, 8.4.6)."""

    code = "elng"
    _bits = {"version": (8,), "flags": (24,)}

    version: int
    flags: int
    extended_language: str
    extended_language_hex: Optional[bytes] = None


@dataclass(frozen=True)
class Enda(Fields):
    """The order of the bytes of a sound's samples (`enda`, QuickTime File Format, "Endian atom")."""

    code = "enda"
    _bits = {"littleEndian": (16,)}

    littleEndian: int
    littleEndian_name: Optional[str] = field(default=None, compare=False)


@dataclass(frozen=True)
class Fiel(Fields):
    """The fields of a video (`fiel`, QuickTime File Format, "Video sample description extensions")."""

    code = "fiel"
    _bits = {"fields": (8,), "detail": (8,)}

    fields: int
    detail: int
    fields_name: Optional[str] = field(default=None, compare=False)
    detail_name: Optional[str] = field(default=None, compare=False)


@dataclass(frozen=True)
class Frma(Fields):
    """The format of media before a transformation such as encryption (`frma`, ISO/IEC 14496-12, 8.12.2)."""

    code = "frma"
    _codes = ("data_format",)

    data_format: str


@dataclass(frozen=True)
class FtabFontEntry(Part):
    """An entry of `font-entry`."""

    _bits = {"font_ID": (16,)}

    font_ID: int = field(metadata={"name": "font-ID"})
    font: str
    font_hex: Optional[bytes] = None


@dataclass(frozen=True)
class Ftab(Fields):
    """The fonts of a timed text (`ftab`, 3GPP TS 26.245, 5.16)."""

    code = "ftab"
    _bits = {"entry_count": (32,)}

    font_entry: List[FtabFontEntry] = field(metadata={"name": "font-entry"})
    entry_count: Optional[int] = field(default=None, compare=False, metadata={"name": "entry-count"})


@dataclass(frozen=True)
class Gmin(Fields):
    """The media information of tracks other than video and sound (`gmin`, QuickTime File Format, "Base media info
    atom")."""

    code = "gmin"
    _bits = {"version": (8,), "flags": (24,), "graphicsmode": (16,), "opcolor_red": (16,), "opcolor_green": (16,),
    "opcolor_blue": (16,)}

    version: int
    flags: int
    graphicsmode: int
    opcolor_red: int
    opcolor_green: int
    opcolor_blue: int
    balance: float


@dataclass(frozen=True)
class Hmhd(Fields):
    """The media header of hints (`hmhd`, ISO/IEC 14496-12, 12.4.2)."""

    code = "hmhd"
    _bits = {"version": (8,), "flags": (24,), "maxPDUsize": (16,), "avgPDUsize": (16,), "maxbitrate": (32,),
    "avgbitrate": (32,)}

    version: int
    flags: int
    maxPDUsize: int
    avgPDUsize: int
    maxbitrate: int
    avgbitrate: int


@dataclass(frozen=True)
class HvcCArrays(Part):
    """An entry of `arrays`."""

    _bits = {"NAL_unit_type": (6,)}

    array_completeness: bool
    NAL_unit_type: int
    nalUnit: List[bytes]
    reserved: Optional[bool] = None
    NAL_unit_type_name: Optional[str] = field(default=None, compare=False)


@dataclass(frozen=True)
class HvcC(Fields):
    """The configuration of an HEVC decoder (`hvcC`, ISO/IEC 14496-15, 8.3.3.1)."""

    code = "hvcC"
    _bits = {"configurationVersion": (8,), "general_profile_space": (2,), "general_profile_idc": (5,),
    "general_profile_compatibility_flags": (32,), "general_level_idc": (8,), "reserved_before_segmentation": (4,),
    "min_spatial_segmentation_idc": (12,), "reserved_before_parallelism": (6,), "parallelismType": (2,),
    "reserved_before_chroma_format": (6,), "chroma_format_idc": (2,), "reserved_before_luma": (5,),
    "bit_depth_luma_minus8": (3,), "reserved_before_chroma": (5,), "bit_depth_chroma_minus8": (3,), "avgFrameRate":
    (16,), "constantFrameRate": (2,), "numTemporalLayers": (3,), "lengthSizeMinusOne": (2,)}

    configurationVersion: int
    general_profile_space: int
    general_tier_flag: bool
    general_profile_idc: int
    general_profile_compatibility_flags: int
    general_constraint_indicator_flags: bytes
    general_level_idc: int
    min_spatial_segmentation_idc: int
    parallelismType: int
    chroma_format_idc: int
    bit_depth_luma_minus8: int
    bit_depth_chroma_minus8: int
    avgFrameRate: int
    constantFrameRate: int
    numTemporalLayers: int
    temporalIdNested: bool
    lengthSizeMinusOne: int
    arrays: List[HvcCArrays]
    reserved_before_segmentation: Optional[int] = None
    reserved_before_parallelism: Optional[int] = None
    reserved_before_chroma_format: Optional[int] = None
    reserved_before_luma: Optional[int] = None
    reserved_before_chroma: Optional[int] = None


@dataclass(frozen=True)
class Iloc(Fields):
    """The places of items (`iloc`, ISO/IEC 14496-12, 8.11.3)."""

    code = "iloc"
    _bits = {"version": (8,), "flags": (24,), "offset_size": (4,), "length_size": (4,), "base_offset_size": (4,),
    "index_size": (4,), "item_count": (16, 32)}

    version: int
    flags: int
    offset_size: int
    length_size: int
    base_offset_size: int
    index_size: int
    item_count: int
    data_bytes: Optional[bytes] = None


@dataclass(frozen=True)
class Imir(Fields):
    """The mirroring of an image (`imir`, ISO/IEC 23008-12, 6.5.12)."""

    code = "imir"
    _bits = {"reserved": (7,)}

    axis: bool
    reserved: Optional[int] = None


@dataclass(frozen=True)
class Infe(Fields):
    """An item (`infe`, ISO/IEC 14496-12, 8.11.6)."""

    code = "infe"
    _bits = {"version": (8,), "flags": (24,), "item_ID": (16, 32), "item_protection_index": (16,)}
    _codes = ("item_type",)

    version: int
    flags: int
    item_ID: int
    item_protection_index: int
    item_name: str
    item_type: Optional[str] = None
    item_name_hex: Optional[bytes] = None
    content_type: Optional[str] = None
    content_type_hex: Optional[bytes] = None
    item_uri_type: Optional[str] = None
    item_uri_type_hex: Optional[bytes] = None
    data_bytes: Optional[bytes] = None


@dataclass(frozen=True)
class Iods(Fields):
    """The description of an MPEG-4 presentation (`iods`, ISO/IEC 14496-14, 5.1)."""

    code = "iods"
    _bits = {"version": (8,), "flags": (24,)}

    version: int
    flags: int
    OD: bytes


@dataclass(frozen=True)
class IpmaEntriesAssociations(Part):
    """An entry of `associations`."""

    _bits = {"property_index": (15,)}

    essential: bool
    property_index: int


@dataclass(frozen=True)
class IpmaEntries(Part):
    """An entry of `entries`."""

    _bits = {"item_ID": (16, 32)}

    item_ID: int
    associations: Optional[List[IpmaEntriesAssociations]] = None


@dataclass(frozen=True)
class Ipma(Fields):
    """The properties of items (`ipma`, ISO/IEC 23008-12, 9.3.1)."""

    code = "ipma"
    _bits = {"version": (8,), "flags": (24,), "entry_count": (32,)}

    version: int
    flags: int
    entries: List[IpmaEntries]
    entry_count: Optional[int] = field(default=None, compare=False)


@dataclass(frozen=True)
class Irot(Fields):
    """The rotation of an image (`irot`, ISO/IEC 23008-12, 6.5.10)."""

    code = "irot"
    _bits = {"reserved": (6,), "angle": (2,)}

    angle: int
    reserved: Optional[int] = None
    angle_name: Optional[str] = field(default=None, compare=False)


@dataclass(frozen=True)
class Ispe(Fields):
    """The size of an image (`ispe`, ISO/IEC 23008-12, 6.5.3)."""

    code = "ispe"
    _bits = {"version": (8,), "flags": (24,), "image_width": (32,), "image_height": (32,)}

    version: int
    flags: int
    image_width: int
    image_height: int


@dataclass(frozen=True)
class KeysEntries(Part):
    """An entry of `entries`."""

    _codes = ("Key_namespace",)

    Key_namespace: str
    Key_value: str
    Key_value_hex: Optional[bytes] = None


@dataclass(frozen=True)
class Keys(Fields):
    """The keys of the metadata items in an `ilst` (`keys`, QuickTime File Format, "Metadata item keys atom")."""

    code = "keys"
    _bits = {"version": (8,), "flags": (24,), "entry_count": (32,)}

    version: int
    flags: int
    entries: List[KeysEntries]
    entry_count: Optional[int] = field(default=None, compare=False)


@dataclass(frozen=True)
class Kind(Fields):
    """The role of a track (`kind`, ISO/IEC 14496-12, 8.10.4)."""

    code = "kind"
    _bits = {"version": (8,), "flags": (24,)}

    version: int
    flags: int
    schemeURI: str
    value: str
    schemeURI_hex: Optional[bytes] = None
    value_hex: Optional[bytes] = None


@dataclass(frozen=True)
class Leva(Fields):
    """The levels into which fragments are divided (`leva`, ISO/IEC 14496-12, 8.8.13)."""

    code = "leva"
    _bits = {"version": (8,), "flags": (24,), "level_count": (8,)}

    version: int
    flags: int
    level_count: int
    data_bytes: Optional[bytes] = None


@dataclass(frozen=True)
class Mdcv(Fields):
    """The display on which a video was mastered (`mdcv`, ISO/IEC 14496-12, 12.1.7)."""

    code = "mdcv"
    _bits = {"display_primaries_x_0": (16,), "display_primaries_y_0": (16,), "display_primaries_x_1": (16,),
    "display_primaries_y_1": (16,), "display_primaries_x_2": (16,), "display_primaries_y_2": (16,), "white_point_x":
    (16,), "white_point_y": (16,), "max_display_mastering_luminance": (32,), "min_display_mastering_luminance": (32,)}

    display_primaries_x_0: int
    display_primaries_y_0: int
    display_primaries_x_1: int
    display_primaries_y_1: int
    display_primaries_x_2: int
    display_primaries_y_2: int
    white_point_x: int
    white_point_y: int
    max_display_mastering_luminance: int
    min_display_mastering_luminance: int


@dataclass(frozen=True)
class Mean(Fields):
    """The domain of the name of a metadata item (`mean`, iTunes, metadata)."""

    code = "mean"
    _bits = {"version": (8,), "flags": (24,)}

    version: int
    flags: int
    value: str
    value_hex: Optional[bytes] = None


@dataclass(frozen=True)
class Mfro(Fields):
    """The size of the enclosing `mfra` (`mfro`, ISO/IEC 14496-12, 8.8.11)."""

    code = "mfro"
    _bits = {"version": (8,), "flags": (24,), "parent_size": (32,)}

    version: int
    flags: int
    parent_size: int


@dataclass(frozen=True)
class Name(Fields):
    """The name of a metadata item (`name`, iTunes, metadata)."""

    code = "name"
    _bits = {"version": (8,), "flags": (24,)}

    version: int
    flags: int
    value: str
    value_hex: Optional[bytes] = None


@dataclass(frozen=True)
class Nmhd(Fields):
    """The media header of tracks whose type of media defines no other (`nmhd`, ISO/IEC 14496-12, 8.4.5.2)."""

    code = "nmhd"
    _bits = {"version": (8,), "flags": (24,)}

    version: int
    flags: int


@dataclass(frozen=True)
class Pasp(Fields):
    """The aspect ratio of a video's pixels (`pasp`, ISO/IEC 14496-12, 12.1.4)."""

    code = "pasp"
    _bits = {"hSpacing": (32,), "vSpacing": (32,)}

    hSpacing: int
    vSpacing: int


@dataclass(frozen=True)
class Pitm(Fields):
    """The item to show first, such as the main image of a file (`pitm`, ISO/IEC 14496-12, 8.11.4)."""

    code = "pitm"
    _bits = {"version": (8,), "flags": (24,), "item_ID": (16, 32)}

    version: int
    flags: int
    item_ID: int


@dataclass(frozen=True)
class Pixi(Fields):
    """The number and the size of an image's channels (`pixi`, ISO/IEC 23008-12, 6.5.6)."""

    code = "pixi"
    _bits = {"version": (8,), "flags": (24,), "bits_per_channel": (8,)}

    version: int
    flags: int
    bits_per_channel: Optional[List[int]] = None


@dataclass(frozen=True)
class Prft(Fields):
    """The time at which a producer made a part of the media (`prft`, ISO/IEC 14496-12, 8.16.5)."""

    code = "prft"
    _bits = {"version": (8,), "flags": (24,), "reference_track_ID": (32,), "ntp_timestamp": (64,), "media_time": (32,
    64)}

    version: int
    flags: int
    reference_track_ID: int
    ntp_timestamp: int
    media_time: int


@dataclass(frozen=True)
class Pssh(Fields):
    """The data that a content protection system needs (`pssh`, ISO/IEC 23001-7, 8.1)."""

    code = "pssh"
    _bits = {"version": (8,), "flags": (24,)}

    version: int
    flags: int
    SystemID: bytes
    Data: bytes
    SystemID_name: Optional[str] = field(default=None, compare=False)
    KID: Optional[List[bytes]] = None


@dataclass(frozen=True)
class Saio(Fields):
    """The offsets of the samples' auxiliary information (`saio`, ISO/IEC 14496-12, 8.7.9)."""

    code = "saio"
    _bits = {"version": (8,), "flags": (24,), "aux_info_type_parameter": (32,), "offset": (32, 64)}
    _codes = ("aux_info_type",)

    version: int
    flags: int
    offset: List[int]
    aux_info_type: Optional[str] = None
    aux_info_type_parameter: Optional[int] = None


@dataclass(frozen=True)
class Saiz(Fields):
    """The sizes of the samples' auxiliary information (`saiz`, ISO/IEC 14496-12, 8.7.8)."""

    code = "saiz"
    _bits = {"version": (8,), "flags": (24,), "aux_info_type_parameter": (32,), "default_sample_info_size": (8,),
    "sample_count": (32,), "sample_info_size": (8,)}
    _codes = ("aux_info_type",)

    version: int
    flags: int
    default_sample_info_size: int
    sample_count: int
    aux_info_type: Optional[str] = None
    aux_info_type_parameter: Optional[int] = None
    sample_info_size: Optional[List[int]] = None


@dataclass(frozen=True)
class SbgpEntries(Part):
    """An entry of `entries`."""

    _bits = {"sample_count": (32,), "group_description_index": (32,)}

    sample_count: int
    group_description_index: int


@dataclass(frozen=True)
class Sbgp(Fields):
    """The assignment of samples to groups, for one kind of grouping (`sbgp`, ISO/IEC 14496-12, 8.9.2)."""

    code = "sbgp"
    _bits = {"version": (8,), "flags": (24,), "grouping_type_parameter": (32,)}
    _codes = ("grouping_type",)

    version: int
    flags: int
    grouping_type: str
    entries: List[SbgpEntries]
    grouping_type_parameter: Optional[int] = None


@dataclass(frozen=True)
class Schm(Fields):
    """The scheme that protects the media (`schm`, ISO/IEC 14496-12, 8.12.5)."""

    code = "schm"
    _bits = {"version": (8,), "flags": (24,), "scheme_version": (32,)}
    _codes = ("scheme_type",)

    version: int
    flags: int
    scheme_type: str
    scheme_version: int
    scheme_uri: Optional[str] = None
    scheme_uri_hex: Optional[bytes] = None


@dataclass(frozen=True)
class SdtpEntries(Part):
    """An entry of `entries`."""

    _bits = {"is_leading": (2,), "sample_depends_on": (2,), "sample_is_depended_on": (2,), "sample_has_redundancy":
    (2,)}

    is_leading: int
    sample_depends_on: int
    sample_is_depended_on: int
    sample_has_redundancy: int


@dataclass(frozen=True)
class Sdtp(Fields):
    """The dependencies between the samples of a track (`sdtp`, ISO/IEC 14496-12, 8.6.4.3)."""

    code = "sdtp"
    _bits = {"version": (8,), "flags": (24,)}

    version: int
    flags: int
    entries: List[SdtpEntries]


@dataclass(frozen=True)
class Senc(Fields):
    """The encryption parameters of each sample (`senc`, ISO/IEC 23001-7, 7.2.1)."""

    code = "senc"
    _bits = {"version": (8,), "flags": (24,), "sample_count": (32,)}

    version: int
    flags: int
    sample_count: int
    data_bytes: bytes


@dataclass(frozen=True)
class SgpdEntries(Part):
    """An entry of `entries`."""

    _bits = {"description_length": (32,), "roll_distance": (-16,), "num_leading_samples": (7,), "reserved": (8,),
    "crypt_byte_block": (4,), "skip_byte_block": (4,), "isProtected": (8,), "Per_Sample_IV_Size": (8,),
    "constant_IV_size": (8,)}
    _counts = {"constant_IV_size": "constant_IV"}

    description_length: Optional[int] = None
    roll_distance: Optional[int] = None
    num_leading_samples_known: Optional[bool] = None
    num_leading_samples: Optional[int] = None
    level_independently_decodable: Optional[bool] = None
    reserved: Optional[int] = None
    crypt_byte_block: Optional[int] = None
    skip_byte_block: Optional[int] = None
    isProtected: Optional[int] = None
    Per_Sample_IV_Size: Optional[int] = None
    KID: Optional[bytes] = None
    constant_IV_size: Optional[int] = None
    constant_IV: Optional[bytes] = None
    data_bytes: Optional[bytes] = None


@dataclass(frozen=True)
class Sgpd(Fields):
    """The descriptions of sample groups of one kind (`sgpd`, ISO/IEC 14496-12, 8.9.3)."""

    code = "sgpd"
    _bits = {"version": (8,), "flags": (24,), "default_length": (32,), "default_group_description_index": (32,),
    "entry_count": (32,)}
    _codes = ("grouping_type",)

    version: int
    flags: int
    grouping_type: str
    entry_count: int
    default_length: Optional[int] = None
    default_group_description_index: Optional[int] = None
    entries: Optional[List[SgpdEntries]] = None
    data_bytes: Optional[bytes] = None


@dataclass(frozen=True)
class SidxReferences(Part):
    """An entry of `references`."""

    _bits = {"referenced_size": (31,), "subsegment_duration": (32,), "SAP_type": (3,), "SAP_delta_time": (28,)}

    reference_type: bool
    referenced_size: int
    subsegment_duration: int
    starts_with_SAP: bool
    SAP_type: int
    SAP_delta_time: int


@dataclass(frozen=True)
class Sidx(Fields):
    """The sizes and durations of the parts of a segment (`sidx`, ISO/IEC 14496-12, 8.16.3)."""

    code = "sidx"
    _bits = {"version": (8,), "flags": (24,), "reference_ID": (32,), "timescale": (32,), "earliest_presentation_time":
    (32, 64), "first_offset": (32, 64)}

    version: int
    flags: int
    reference_ID: int
    timescale: int
    earliest_presentation_time: int
    first_offset: int
    references: List[SidxReferences]


@dataclass(frozen=True)
class Srat(Fields):
    """The sample rate of a sound, if the 16 bits of its sample entry can't hold it (`srat`, ISO/IEC 14496-12,
    12.2.3)."""

    code = "srat"
    _bits = {"version": (8,), "flags": (24,), "sampling_rate": (32,)}

    version: int
    flags: int
    sampling_rate: int


@dataclass(frozen=True)
class SsixSubsegmentsRanges(Part):
    """An entry of `ranges`."""

    _bits = {"level": (8,), "range_size": (24,)}

    level: int
    range_size: int


@dataclass(frozen=True)
class SsixSubsegments(Part):
    """An entry of `subsegments`."""

    _bits = {"range_count": (32,)}

    ranges: List[SsixSubsegmentsRanges]
    range_count: Optional[int] = field(default=None, compare=False)


@dataclass(frozen=True)
class Ssix(Fields):
    """The levels of the bytes of subsegments (`ssix`, ISO/IEC 14496-12, 8.16.4)."""

    code = "ssix"
    _bits = {"version": (8,), "flags": (24,), "subsegment_count": (32,)}

    version: int
    flags: int
    subsegments: List[SsixSubsegments]
    subsegment_count: Optional[int] = field(default=None, compare=False)


@dataclass(frozen=True)
class Sthd(Fields):
    """The media header of subtitles (`sthd`, ISO/IEC 14496-12, 12.6.2)."""

    code = "sthd"
    _bits = {"version": (8,), "flags": (24,)}

    version: int
    flags: int


@dataclass(frozen=True)
class Stpp(Fields):
    """The sample entry of subtitles in XML (`stpp`, ISO/IEC 14496-12, 12.6.3)."""

    code = "stpp"
    _bits = {"data_reference_index": (16,)}

    data_reference_index: int
    namespace: str
    schema_location: str
    auxiliary_mime_types: str
    namespace_hex: Optional[bytes] = None
    schema_location_hex: Optional[bytes] = None
    auxiliary_mime_types_hex: Optional[bytes] = None
    data_bytes: Optional[bytes] = None


@dataclass(frozen=True)
class Styp(Fields):
    """The specifications that a segment conforms to (`styp`, ISO/IEC 14496-12, 8.16.2)."""

    code = "styp"
    _bits = {"minor_version": (32,)}
    _codes = ("major_brand", "compatible_brands",)

    major_brand: str
    minor_version: int
    compatible_brands: List[str]


@dataclass(frozen=True)
class Stz2(Fields):
    """The sizes of samples in 4, 8 or 16 bits each (`stz2`, ISO/IEC 14496-12, 8.7.3.3)."""

    code = "stz2"
    _bits = {"version": (8,), "flags": (24,), "field_size": (8,), "sample_count": (32,), "entry_size": (16,), "padding":
    (4,)}

    version: int
    flags: int
    field_size: int
    sample_count: int
    entry_size: Optional[List[int]] = None
    padding: Optional[int] = None
    data_bytes: Optional[bytes] = None


@dataclass(frozen=True)
class SubsEntriesSubsamples(Part):
    """An entry of `subsamples`."""

    _bits = {"subsample_size": (16, 32), "subsample_priority": (8,), "discardable": (8,), "codec_specific_parameters":
    (32,)}

    subsample_size: int
    subsample_priority: int
    discardable: int
    codec_specific_parameters: int


@dataclass(frozen=True)
class SubsEntries(Part):
    """An entry of `entries`."""

    _bits = {"sample_delta": (32,)}

    sample_delta: int
    subsamples: List[SubsEntriesSubsamples]


@dataclass(frozen=True)
class Subs(Fields):
    """The parts of samples (`subs`, ISO/IEC 14496-12, 8.7.7)."""

    code = "subs"
    _bits = {"version": (8,), "flags": (24,), "entry_count": (32,)}

    version: int
    flags: int
    entries: List[SubsEntries]
    entry_count: Optional[int] = field(default=None, compare=False)


@dataclass(frozen=True)
class Tcmi(Fields):
    """The look of a time code (`tcmi`, QuickTime File Format, "Timecode media information atom")."""

    code = "tcmi"
    _bits = {"version": (8,), "flags": (24,), "text_font": (16,), "text_face": (16,), "text_size": (16,)}

    version: int
    flags: int
    text_font: int
    text_face: int
    text_size: int
    data_bytes: Optional[bytes] = None


@dataclass(frozen=True)
class Tenc(Fields):
    """The encryption parameters of a track's samples (`tenc`, ISO/IEC 23001-7, 8.2)."""

    code = "tenc"
    _bits = {"version": (8,), "flags": (24,), "default_crypt_byte_block": (4,), "default_skip_byte_block": (4,),
    "default_isProtected": (8,), "default_Per_Sample_IV_Size": (8,), "default_constant_IV_size": (8,)}
    _counts = {"default_constant_IV_size": "default_constant_IV"}

    version: int
    flags: int
    default_isProtected: int
    default_Per_Sample_IV_Size: int
    default_KID: bytes
    default_crypt_byte_block: Optional[int] = None
    default_skip_byte_block: Optional[int] = None
    default_constant_IV_size: Optional[int] = None
    default_constant_IV: Optional[bytes] = None


@dataclass(frozen=True)
class Text(Fields):
    """The place of text (`text`, QuickTime File Format, "Text media information atom")."""

    code = "text"

    a: float
    b: float
    u: float
    c: float
    d: float
    v: float
    x: float
    y: float
    w: float


@dataclass(frozen=True)
class TfraEntries(Part):
    """An entry of `entries`."""

    _bits = {"time": (64,), "moof_offset": (64,), "traf_number": (32,), "trun_number": (32,), "sample_number": (32,)}

    time: int
    moof_offset: int
    traf_number: int
    trun_number: int
    sample_number: int


@dataclass(frozen=True)
class Tfra(Fields):
    """The positions of a track's random access samples in fragments (`tfra`, ISO/IEC 14496-12, 8.8.10)."""

    code = "tfra"
    _bits = {"version": (8,), "flags": (24,), "track_ID": (32,), "reserved": (26,), "length_size_of_traf_num": (2,),
    "length_size_of_trun_num": (2,), "length_size_of_sample_num": (2,), "number_of_entry": (32,)}

    version: int
    flags: int
    track_ID: int
    length_size_of_traf_num: int
    length_size_of_trun_num: int
    length_size_of_sample_num: int
    number_of_entry: int
    reserved: Optional[int] = None
    entries: Optional[List[TfraEntries]] = None
    data_bytes: Optional[bytes] = None


@dataclass(frozen=True)
class TrefReferences(Part):
    """An entry of `references`."""

    _bits = {"track_IDs": (32,)}
    _codes = ("reference_type",)

    reference_type: str
    track_IDs: List[int]


@dataclass(frozen=True)
class Tref(Fields):
    """The references of a track to other tracks (`tref`, ISO/IEC 14496-12, 8.3.3)."""

    code = "tref"

    references: List[TrefReferences]


@dataclass(frozen=True)
class Urn(Fields):
    """A reference to media data by a name (`urn`, ISO/IEC 14496-12, 8.7.2)."""

    code = "urn "
    _bits = {"version": (8,), "flags": (24,)}

    version: int
    flags: int
    name: str
    name_hex: Optional[bytes] = None
    location: Optional[str] = None
    location_hex: Optional[bytes] = None


@dataclass(frozen=True)
class VvcC(Fields):
    """The configuration of a VVC decoder (`vvcC`, ISO/IEC 14496-15, 11.2.4.2)."""

    code = "vvcC"
    _bits = {"version": (8,), "flags": (24,), "reserved": (5,), "LengthSizeMinusOne": (2,)}

    version: int
    flags: int
    LengthSizeMinusOne: int
    ptl_present_flag: bool
    reserved: Optional[int] = None
    data_bytes: Optional[bytes] = None


@dataclass(frozen=True)
class Wvtt(Fields):
    """The sample entry of WebVTT (`wvtt`, ISO/IEC 14496-30, 7.5)."""

    code = "wvtt"
    _bits = {"data_reference_index": (16,)}

    data_reference_index: int
    data_bytes: Optional[bytes] = None


listed(
    Alac, Alis, AuxC, Av1C, Avc1, AvcC, Btrt, Chan, Chnl, Clap, Clli, Co64, Colr, Cslg, Ctts, DOps, Dac3, Data, Dec3,
    DfLa, Dinf, Dref, DvcC, DvvC, Elng, Elst, Emsg, Enda, Esds, Fiel, Frma, Ftab, Ftyp, Gmin, Hdlr, Hev1, Hmhd, HvcC,
    Iloc, Imir, Infe, Iods, Ipma, Irot, Ispe, Keys, Kind, Leva, Mdcv, Mdhd, Mean, Mehd, Mfhd, Mfro, Mp4a, Mvhd, Name,
    Nmhd, Pasp, Pitm, Pixi, Prft, Pssh, Saio, Saiz, Sbgp, Schm, Sdtp, Senc, Sgpd, Sidx, Smhd, Srat, Ssix, Stco, Sthd,
    Stpp, Stsc, Stsd, Stss, Stsz, Stts, Styp, Stz2, Subs, Tcmi, Tenc, Text, Tfdt, Tfhd, Tfra, Tkhd, Tref, Trex, Trun,
    Tx3g, Url, Urn, Vmhd, Vp09, VpcC, VvcC, Wvtt,
)

__all__ = [
    "Alac", "Alis", "AuxC", "Av1C", "Avc1", "AvcC", "Btrt", "Chan", "ChanMChannelDescriptions", "Chnl", "Clap", "Clli",
    "Co64", "Colr", "Cslg", "Ctts", "DOps", "Dac3", "Data", "Dec3", "Dec3Substreams", "DfLa", "DfLaMetadataBlocks",
    "Dinf", "Dref", "DvcC", "DvvC", "Elng", "Elst", "Emsg", "Enda", "Esds", "Fiel", "Frma", "Ftab", "FtabFontEntry",
    "Ftyp", "Gmin", "Hdlr", "Hev1", "Hmhd", "HvcC", "HvcCArrays", "Iloc", "Imir", "Infe", "Iods", "Ipma", "IpmaEntries",
    "IpmaEntriesAssociations", "Irot", "Ispe", "Keys", "KeysEntries", "Kind", "Leva", "Mdcv", "Mdhd", "Mean", "Mehd",
    "Mfhd", "Mfro", "Mp4a", "Mvhd", "Name", "Nmhd", "Pasp", "Pitm", "Pixi", "Prft", "Pssh", "Saio", "Saiz", "Sbgp",
    "SbgpEntries", "Schm", "Sdtp", "SdtpEntries", "Senc", "Sgpd", "SgpdEntries", "Sidx", "SidxReferences", "Smhd",
    "Srat", "Ssix", "SsixSubsegments", "SsixSubsegmentsRanges", "Stco", "Sthd", "Stpp", "Stsc", "Stsd", "Stss", "Stsz",
    "Stts", "Styp", "Stz2", "Subs", "SubsEntries", "SubsEntriesSubsamples", "Tcmi", "Tenc", "Text", "Tfdt", "Tfhd",
    "Tfra", "TfraEntries", "Tkhd", "Tref", "TrefReferences", "Trex", "Trun", "Tx3g", "Url", "Urn", "Vmhd", "Vp09",
    "VpcC", "VvcC", "Wvtt",
]
