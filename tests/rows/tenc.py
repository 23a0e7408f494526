"""`tenc`, how samples are encrypted: a pattern only in version 1, and at the end a vector for all samples or none. The
bytes of the fields count up from 0x81, after the version and between reserved bytes."""

from tests.rows.making import Box, box, changed, counting, declared, declared_as, fields, full, u8

SHORT = box(b"tenc", b"\0\x81\x82\x83\0\0", counting(0x85, 0x96))
LONG = box(b"tenc", b"\1\x81\x82\x83\0", counting(0x84, 0x96), b"\x03\x97\x98\x99")


def tenc(version, pattern, vector):
    fields = {"flags": 0x818283, "default_pattern": pattern, "default_is_protected": 0x85}
    sizes = {"default_per_sample_iv_size": 0x86, "default_kid": list(counting(0x87, 0x96))}
    return Box("tenc", version=version, **fields, **sizes, default_constant_iv=list(vector))


def version_0_has_no_pattern():
    yield from declared_as(SHORT, tenc(0, None, b""))


def reserved_bytes_are_left_out():
    yield declared(changed(SHORT, {12: 0xF1, 13: 0xF2}), tenc(0, None, b""), SHORT)


def version_1_has_a_pattern():
    pattern = {"default_crypt_byte_block": 8, "default_skip_byte_block": 4}
    yield from declared_as(LONG, tenc(1, pattern, b"\x03\x97\x98\x99"))


def fields_of_the_encryption_of_tracks():
    """ISO/IEC 23001-7, 8.2."""
    numbers = u8(3, 8) + counting(0x11, 0x20)
    shown = {
        "default_isProtected": 3,
        "default_Per_Sample_IV_Size": 8,
        "default_KID": "1112131415161718191a1b1c1d1e1f20",
    }
    yield fields(full(b"tenc", u8(0, 0), numbers, flags=0x01_0203), version=0, flags=66051, **shown)
    yield fields(
        full(b"tenc", u8(0, 0x29), numbers, u8(4), b"\xa1\xa2\xa3\xa4", version=1, flags=0x01_0203),
        version=1,
        flags=66051,
        default_crypt_byte_block=2,
        default_skip_byte_block=9,
        **shown,
        default_constant_IV_size=4,
        default_constant_IV="a1a2a3a4",
    )
