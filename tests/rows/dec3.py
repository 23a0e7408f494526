"""`dec3`, how to decode Enhanced AC-3 sound. The bits of the front are 1001001011101 101."""

from tests.rows.making import Box, box, declared_as, fields

DEC3 = box(b"dec3", b"\x92\xed\x81\x82\x83\x84")
CONFIG = {"data_rate": 0x125D, "num_ind_sub": 5}


def two_bytes_of_bits_and_bytes():
    yield from declared_as(DEC3, Box("dec3", config=CONFIG, substreams=[0x81, 0x82, 0x83, 0x84]))
    yield from declared_as(box(b"dec3", b"\x92\xed"), Box("dec3", config=CONFIG, substreams=[]))


def fields_of_streams():
    """ETSI TS 102 366, F.6."""
    # Begins with the bits 0001110111000 010. Has three streams:
    # - 10 10000 0 1 011 111 1 000 0000 0
    # - 00 10001 0 0 100 010 0 000 0101 1 01000101
    # - 01 00110 1 0 001 101 1 111 0000 1
    front, streams = b"\x1d\xc2", b"\xa0\xbf\x00\x22\x44\x0b\x45\x4d\x1b\xe1"
    yield fields(box(b"dec3", front, streams, b"\x01\x10"), data_rate=952, num_ind_sub=2, substreams=[
        {"fscod": 2, "bsid": 16, "asvc": 1, "bsmod": 3, "acmod": 7, "lfeon": 1, "num_dep_sub": 0},
        {"fscod": 0, "bsid": 17, "asvc": 0, "bsmod": 4, "acmod": 2, "lfeon": 0, "num_dep_sub": 5, "chan_loc": 325},
        {
            "fscod": 1, "bsid": 6, "reserved_before_asvc": 1, "asvc": 0, "bsmod": 1, "acmod": 5, "lfeon": 1,
            "reserved_before_num_dep_sub": 7, "num_dep_sub": 0, "reserved_after_num_dep_sub": 1,
        },
    ], data_bytes="0110")
    yield fields(box(b"dec3", front, streams[:7]), data_rate=952, num_ind_sub=2, data_bytes="a0bf0022440b45")
