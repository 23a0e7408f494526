"""`elng`, the language of a track, as a tag. The flags count up from 0x81."""

from tests.rows.making import NO_VERSION_1, Box, box, changed, declared, declared_as, fields, full

ELNG = box(b"elng", b"\0\x81\x82\x83en-US\0")


def a_string():
    yield from declared_as(ELNG, Box("elng", version=0, flags=0x818283, extended_language=list(b"en-US\0")))


def another_version():
    yield declared(changed(ELNG, {8: 1}), NO_VERSION_1)


def fields_of_languages():
    """ISO/IEC 14496-12, 8.4.6."""
    for language, shown in [
        (b"de-CH\0", {"extended_language": "de-CH"}),
        # Leave out the byte of 0 at the end.
        (b"fr", {"extended_language": "fr", "extended_language_hex": "6672"}),
        # Take bytes that aren't UTF-8.
        (b"a\xff\0", {"extended_language": "a\ufffd", "extended_language_hex": "61ff00"}),
        (b"it\0\0", {"extended_language": "it\0"}),
        (b"", {"extended_language": "", "extended_language_hex": ""}),
    ]:
        yield fields(full(b"elng", language, flags=0x01_0203), version=0, flags=66051, **shown)
