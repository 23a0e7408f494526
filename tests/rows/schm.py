"""`schm`, the scheme of a protection, with an address if flag 1 is set. The bytes of the fields count up."""

from tests.rows.making import Box, box, counting, declared_as, fields, full, u32

PLAIN = box(b"schm", b"\0\x80\x82\x86", counting(0x87, 0x8E))
WITH_ADDRESS = box(b"schm", b"\0\x80\x82\x85", counting(0x87, 0x8E), b"uv\0")


def schm(flags, address):
    return Box("schm", version=0, flags=flags, scheme_type=0x8788898A, scheme_version=0x8B8C8D8E, scheme_uri=address)


def no_address():
    yield from declared_as(PLAIN, schm(0x808286, None))


def an_address_of_two_letters():
    yield from declared_as(WITH_ADDRESS, schm(0x808285, list(b"uv\0")))


def fields_of_schemes():
    """ISO/IEC 14496-12, 8.12.5."""
    numbers = b"cenc" + u32(0x1_0000)
    shown = {"scheme_type": "cenc", "scheme_version": 65536}
    yield fields(full(b"schm", numbers, flags=0x01_0202), version=0, flags=66050, **shown)
    with_text = full(b"schm", numbers, b"https://example.org\0", flags=1)
    yield fields(with_text, version=0, flags=1, **shown, scheme_uri="https://example.org")
    # Take bytes that aren't UTF-8.
    with_bytes = full(b"schm", numbers, b"u\xc3\0", flags=1)
    yield fields(with_bytes, version=0, flags=1, **shown, scheme_uri="u\ufffd", scheme_uri_hex="75c300")
