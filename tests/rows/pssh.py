"""`pssh`, the data that a protection system needs: keys only in version 1, and data. The bytes of the fields count up
from 0x81, after the version and between the counts."""

from tests.rows.making import (
    END, TOO_MANY_BYTES, TOO_MANY_ENTRIES, Box, box, counting, declared, declared_as, fields, full, resized, u32,
)

SYSTEM = counting(0x84, 0x93)
HEAD = b"\x81\x82\x83", SYSTEM
SHORT = box(b"pssh", b"\0", *HEAD, u32(3), b"\x94\x95\x96")
KEYS = [counting(0x94, 0xA3), counting(0xA4, 0xB3), counting(0xB4, 0xC3)]
TWO_KEYS = box(b"pssh", b"\1", *HEAD, u32(2), *KEYS[:2], u32(1), b"\xb4")
THREE_KEYS = box(b"pssh", b"\1", *HEAD, u32(3), *KEYS, u32(1), b"\xc4")


def pssh(version, keys, data):
    keys = keys and [list(key) for key in keys]
    fields = {"flags": 0x818283, "system_id": list(SYSTEM), "key_ids": keys, "system_data": list(data)}
    return Box("pssh", version=version, **fields)


def version_0_has_data_alone():
    yield from declared_as(SHORT, pssh(0, None, b"\x94\x95\x96"))


def version_1_has_keys():
    yield from declared_as(TWO_KEYS, pssh(1, KEYS[:2], b"\xb4"))
    yield from declared_as(THREE_KEYS, pssh(1, KEYS, b"\xc4"))


def version_1_has_keys_that_may_be_none():
    yield from declared_as(box(b"pssh", b"\1", *HEAD, u32(0, 0)), pssh(1, [], b""))


def sizes_that_are_too_small():
    yield declared(resized(TWO_KEYS, 63), TOO_MANY_ENTRIES)
    yield declared(resized(TWO_KEYS, 68), TOO_MANY_BYTES)
    yield declared(resized(TWO_KEYS[:31], 69), END)


def fields_of_systems():
    """ISO/IEC 23001-7, 8.1."""
    system = counting(0x21, 0x30)
    data = u32(3) + b"\xb1\xb2\xb3"
    shown = {"flags": 66051, "SystemID": "2122232425262728292a2b2c2d2e2f30"}
    yield fields(full(b"pssh", system, data, flags=0x01_0203), version=0, **shown, Data="b1b2b3")
    no_key = full(b"pssh", system, u32(0), data, version=1, flags=0x01_0203)
    yield fields(no_key, version=1, **shown, KID=[], Data="b1b2b3")
    keys = 16 * b"\x31" + 16 * b"\x32" + 16 * b"\x33"
    three_keys = full(b"pssh", system, u32(3), keys, data, version=1, flags=0x01_0203)
    yield fields(three_keys, version=1, **shown, KID=[16 * "31", 16 * "32", 16 * "33"], Data="b1b2b3")


# The UUIDs of systems as https://dashif.org/identifiers/content_protection lists them, and one in which the last bit
# of Widevine's differs.
SYSTEMS = {
    "edef8ba979d64acea3c827dcd51d21ed": "Widevine", "9a04f07998404286ab92e65be0885f95": "PlayReady",
    "94ce86fb07ff4f43adb893d2fa968ca2": "FairPlay", "1077efecc0b24d02ace33c1e52e2fb4b": "Common",
    "e2719d58a985b3c9781ab030af78d30e": "ClearKey", "edef8ba979d64acea3c827dcd51d21ec": None,
}


def fields_of_systems_with_names():
    """Expects that a system is followed by its name if it has one."""
    for system, name in SYSTEMS.items():
        named = {"SystemID_name": name} if name else {}
        buffer = full(b"pssh", bytes.fromhex(system), u32(3), b"\xb1\xb2\xb3", flags=0x01_0203)
        yield fields(buffer, version=0, flags=66051, SystemID=system, **named, Data="b1b2b3")
