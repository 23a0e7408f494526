"""Boxes that rows expect, whole. The bytes of some of them were worked out from the layout table."""

from tests.rows.making import Box, box, full, u32, u64


def number_of(code):
    """Returns a code as a number."""
    return int.from_bytes(code, "big")


def full_box(code, version=0, flags=0, **fields):
    return Box(code, version=version, flags=flags, **fields)


def other(code, content=b""):
    """Returns a box of no known type, which is kept."""
    return Box("other", code=number_of(code), content=list(content))


def matrix(*numbers):
    """Returns a matrix of nine numbers, of which the highest bit is the sign."""
    signed = [number - (number >> 31 << 32) for number in numbers]
    return dict(zip("abucdvxyw", signed))


def ftyp(major_brand, minor_version, compatible_brands):
    brands = [number_of(brand) for brand in compatible_brands]
    return Box("ftyp", major_brand=number_of(major_brand), minor_version=minor_version, compatible_brands=brands)


def hdlr(handler_type=b"\0\0\0\0", name=""):
    return full_box("hdlr", handler_type=number_of(handler_type), name=name)


def data(data_type, data_bytes):
    return Box("data", data_type=data_type, data_bytes=list(data_bytes))


def emsg(scheme_id_uri="foo", value="foo", message_data=b"", **fields):
    """Returns an event of version 0, with a time relative to its segment."""
    common = {"timescale": 48000, "event_duration": 200, "id": 8}
    common.update(presentation_time=None, presentation_time_delta=100)
    texts = {"scheme_id_uri": scheme_id_uri, "value": value, "message_data": list(message_data)}
    return full_box("emsg", **{**common, **texts, **fields})


def url(flags=0, location=""):
    return full_box("url ", flags=flags, location=location)


def dref(child, flags=0):
    return full_box("dref", flags=flags, url=child)


def dinf(child):
    return Box("dinf", dref=child)


def stsc(*runs):
    """Returns runs of chunks: first chunk, samples per chunk, and first sample. All have the first description."""
    names = ("first_chunk", "samples_per_chunk", "first_sample")
    return full_box("stsc", entries=[dict(zip(names, run), sample_description_index=1) for run in runs])


def elst(version, segment_duration, media_time):
    """Returns an edit list with one edit of normal speed."""
    times = {"segment_duration": segment_duration, "media_time": media_time}
    return full_box("elst", version=version, entries=[dict(times, media_rate=1, media_rate_fraction=0)])


def trun(flags, sample_count, version=0, **fields):
    """Returns a run of samples with the fields in `fields`, and no others."""
    lists = {"sample_durations": [], "sample_sizes": [], "sample_flags": [], "sample_cts": []}
    none = {"data_offset": None, "first_sample_flags": None}
    return full_box("trun", version, flags, sample_count=sample_count, **{**none, **lists, **fields})


# Boxes of the location `a`.
URL = full(b"url ", b"a\0")
DREF_URL = full(b"dref", u32(1), URL)
DINF_URL = box(b"dinf", DREF_URL)

DATA = box(b"data", u32(1, 0), b"test_data")
HDLR = full(b"hdlr", u32(0), b"vide", bytes(12), b"VideoHandler\0")
EMSG = full(b"emsg", b"foo\0foo\0", u32(48000, 100, 200, 8), b"\1\2\3")
EMSG_LONG = full(b"emsg", u32(48000), u64(50000), u32(200, 8), b"foo\0foo\0\3\2\1", version=1)
TRUN = full(b"trun", u32(2, 100, 10, 20), flags=0x201)

# The matrices of boxes whose bytes count up, in versions 0 and 1.
SHORT_MATRIX = matrix(
    0x9A9B9C9D, 0x9E9FA0A1, 0xA2A3A4A5, 0xA6A7A8A9, 0xAAABACAD, 0xAEAFB0B1, 0xB2B3B4B5, 0xB6B7B8B9, 0xBABBBCBD,
)
LONG_MATRIX = matrix(
    0xA6A7A8A9, 0xAAABACAD, 0xAEAFB0B1, 0xB2B3B4B5, 0xB6B7B8B9, 0xBABBBCBD, 0xBEBFC0C1, 0xC2C3C4C5, 0xC6C7C8C9,
)
