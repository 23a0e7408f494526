"""`senc`, how each sample is encrypted."""

from tests.rows.making import count_and_bytes, fields, full, u32


def a_count_and_bytes():
    yield from count_and_bytes(b"senc", "sample_count", "samples")


def fields_of_the_encryption_of_samples():
    """ISO/IEC 23001-7, 7.2.1. The box doesn't give the size of the vectors, so its samples are bytes."""
    samples = full(b"senc", u32(3), b"\xc1\xc2\xc3", flags=2)
    yield fields(samples, version=0, flags=2, sample_count=3, data_bytes="c1c2c3")
    yield fields(full(b"senc", u32(3), flags=2), version=0, flags=2, sample_count=3, data_bytes="")
