"""`infe`, an item: its number has 4 bytes in version 3, and 2 in the others, and it has a type since version 2. The
bytes of the fields count up from 0x81, after the version."""

from tests.rows.making import NO_END, Box, box, changed, counting, declared, declared_as, fields, full, invalid, u16

OLD = box(b"infe", b"\0", counting(0x81, 0x89), b"\0", counting(0x8A, 0x8C))
NAMED = box(b"infe", b"\2", counting(0x81, 0x8D), b"\0", counting(0x8E, 0x90))
LONG = box(b"infe", b"\3", counting(0x81, 0x8F), b"\0")
MIME = box(b"infe", b"\2", counting(0x81, 0x87), b"mime", b"\x88\0text/plain\0gzip\0")


def infe(version, number, index, kind, name, strings):
    fields = {"item_id": number, "item_protection_index": index, "item_type": kind}
    return Box("infe", version=version, flags=0x818283, **fields, item_name=list(name), strings=list(strings))


NAMED_VALUE = infe(2, 0x8485, 0x8687, 0x88898A8B, b"\x8c\x8d", b"\x8e\x8f\x90")


def each_version():
    old = infe(0, 0x8485, 0x8687, None, b"\x88\x89", b"\x8a\x8b\x8c")
    yield from declared_as(OLD, old)
    yield from declared_as(changed(OLD, {8: 1}), Box("infe", **{**old, "version": 1}))
    yield from declared_as(NAMED, NAMED_VALUE)
    yield from declared_as(LONG, infe(3, 0x84858687, 0x8889, 0x8A8B8C8D, b"\x8e\x8f", b""))


def a_media_type():
    value = infe(2, 0x8485, 0x8687, 0x6D696D65, b"\x88", b"text/plain\0gzip\0")
    yield from declared_as(MIME, value)


def a_name_without_an_end():
    yield declared(changed(NAMED, {22: 0x91}), NO_END)


def version_4():
    yield declared(changed(NAMED, {8: 4}), invalid("version is too large"))


def fields_of_items():
    """ISO/IEC 14496-12, 8.11.6."""
    for kind, strings, shown in [
        (b"hvc1", b"", {}),
        (b"mime", b"application/rdf+xml\0", {"content_type": "application/rdf+xml"}),
        (b"uri ", b"urn:x\0", {"item_uri_type": "urn:x"}),
        (b"av01", b"\1\2", {"data_bytes": "0102"}),
    ]:
        yield fields(
            full(b"infe", u16(4, 5), kind, b"a name\0", strings, version=2, flags=0x01_0203),
            version=2, flags=66051, item_ID=4, item_protection_index=5, item_type=kind.decode(), item_name="a name",
            **shown,
        )
    # Has no type in version 1.
    yield fields(
        full(b"infe", u16(4, 5), b"a name\0", b"text/plain\0", version=1),
        version=1, flags=0, item_ID=4, item_protection_index=5, item_name="a name",
        data_bytes="746578742f706c61696e00",
    )
