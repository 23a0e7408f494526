"""`prft`, the time at which a producer made a part of the media. The bytes of the fields count up from 0x81, after the
version."""

from tests.rows.making import Box, box, counting, declared_as, fields, full, u32, u64

SHORT = box(b"prft", b"\0", counting(0x81, 0x93))
LONG = box(b"prft", b"\1", counting(0x81, 0x97))
FIELDS = {"flags": 0x818283, "reference_track_id": 0x84858687, "ntp_timestamp": 0x88898A8B_8C8D8E8F}


def version_0():
    yield from declared_as(SHORT, Box("prft", version=0, **FIELDS, media_time=0x90919293))


def version_1_has_a_longer_time():
    yield from declared_as(LONG, Box("prft", version=1, **FIELDS, media_time=0x90919293_94959697))


def fields_of_times():
    """ISO/IEC 14496-12, 8.16.5."""
    yield fields(
        full(b"prft", u32(5), u64(0xE0000000_80000000), u32(6), version=0, flags=24),
        version=0, flags=24, reference_track_ID=5, ntp_timestamp=16140901066643341312, media_time=6,
    )
    yield fields(
        full(b"prft", u32(5), u64(0xE0000000_80000000), u64(0x1_00000006), version=1, flags=24),
        version=1, flags=24, reference_track_ID=5, ntp_timestamp=16140901066643341312, media_time=4294967302,
    )
