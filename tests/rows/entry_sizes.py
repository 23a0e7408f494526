"""Sample entries that are read with sizes and forms of headers other than their own."""

from tests.rows.making import LARGE_TOO_SMALL, LARGEST, PAST_64_BITS, cuts, large, larger_child, one, resized, u32, u64

# Sizes around those of a header and of the children: 9, 20 and 36.
SIZES = [0, 7, 8, 9, 15, 16, 19, 20, 35, 36, 37, LARGEST]


def value_from(value, buffer, least):
    """Yields `value` with every size of at least `least`, and invalid data with every smaller size."""
    too_large = larger_child(value.code)
    for size in SIZES:
        yield one(resized(buffer, size), value if size >= least else too_large)
    # The number in a header of 16 bytes counts these too. It is 0 or at least 16, and the size is 8 less.
    for number, size in [(0, 0), (16, 8), (43, 35), (44, 36), (2**64 - 1, LARGEST)]:
        yield one(large(buffer[4:8], buffer[8:], number=number), value if size >= least else too_large)
    for number in (7, 15):
        yield one(large(buffer[4:8], buffer[8:], number=number), LARGE_TOO_SMALL)


def with_child(buffer, number):
    """Returns the bytes of an entry with the size `number` in the header of its child."""
    return buffer[:86] + u32(number) + buffer[90:]


def with_large_child(buffer, number):
    """Returns the bytes of an entry whose child has a header of 16 bytes with `number` in it."""
    return with_child(buffer, 1)[:94] + u64(number) + buffer[94:]


def sizes_of_child(value, buffer):
    """Expects `value` where the child is no larger than the entry and ends below 2^64, and otherwise invalid data. In
    an entry of the largest size the content of the child begins at 110."""
    too_large = larger_child(value.code)
    for number, expected in [(0, value), (7, value), (15, value), (16, value), (2**32 - 1, too_large)]:
        yield one(with_child(buffer, number), expected)
        yield one(resized(with_child(buffer, number), LARGEST), value)
    for number, expected, expected_in_largest in [
        (0, value, value),
        (7, LARGE_TOO_SMALL, LARGE_TOO_SMALL),
        (15, LARGE_TOO_SMALL, LARGE_TOO_SMALL),
        (16, value, value),
        (2**64 - 95, too_large, value),
        (2**64 - 94, too_large, PAST_64_BITS),
        (2**64 - 1, too_large, PAST_64_BITS),
    ]:
        yield one(with_large_child(buffer, number), expected)
        yield one(resized(with_large_child(buffer, number), LARGEST), expected_in_largest)
    with_16 = with_large_child(buffer, 16)
    yield from cuts(resized(with_16, len(with_16)))
