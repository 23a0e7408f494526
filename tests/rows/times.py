"""Boxes with times: the version is checked only after version and flags are present."""

from tests.rows.making import END, WRONG_VERSION, box, full, one

NAMES = [b"mvhd", b"tkhd", b"mdhd", b"mehd", b"tfdt"]


def cut_in_its_flags(code):
    """With 1 to 3 bytes of version and flags the outcome is end of input, whatever the version."""
    for version in (0, 1, 2, 255):
        front = bytes([version, 0, 0])
        for length in range(4):
            yield one(box(code, front[:length]), END)
            yield one(box(code, front[:length], size=120), END)


def flags_come_before_the_version():
    for code in NAMES:
        yield from cut_in_its_flags(code)


def version_comes_before_the_times():
    for code in NAMES:
        for version in (2, 3, 128, 255):
            yield one(full(code, version=version), WRONG_VERSION)
            yield one(full(code, bytes(100), version=version), WRONG_VERSION)
