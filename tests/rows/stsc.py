"""`stsc`, the samples of chunks. The first samples of chunks are computed when a box is read. The bytes of the fields
count up, from 0x81 and from 0x11; the first chunks differ by a few, so that the first samples fit."""

from tests.rows.making import (
    END, any_size, box, counting, fields, full, invalid, large_count, listed, one, one_row_short, round_trip, too_many,
    u32,
)
from tests.rows.values import full_box, stsc

OVERFLOW = invalid("attempt to calculate stsc sample_id with overflow")
NAMES = ("first_chunk", "samples_per_chunk", "sample_description_index", "first_sample")


def counted(*runs):
    """Returns four runs of chunks and what is read of them: first chunk, samples per chunk, description and first
    sample."""
    given = box(b"stsc", counting(0x81, 0x84), u32(4), *(u32(*run[:3]) for run in runs))
    return given, full_box("stsc", 0x81, 0x828384, entries=[dict(zip(NAMES, run)) for run in runs])


# The first sample of the fourth run is counted from the samples of all three before it.
COUNTED, COUNTED_VALUE = counted(
    (0x81828384, 0x05060708, 0x898A8B8C, 1),
    (0x81828387, 0x11121314, 0x8D8E8F90, 1 + 3 * 0x05060708),
    (0x81828389, 0x15161718, 0x91929394, 1 + 3 * 0x05060708 + 2 * 0x11121314),
    (0x8182838A, 0x95969798, 0x999A9B9C, 1 + 3 * 0x05060708 + 2 * 0x11121314 + 0x15161718),
)


def four_runs():
    yield round_trip(COUNTED, COUNTED_VALUE)


def runs_of_no_chunks():
    """The next run begins at the same chunk."""
    yield round_trip(*counted(
        (0x81828384, 0x85868788, 0x898A8B8C, 1),
        (0x81828384, 0x05060708, 0x8D8E8F90, 1),
        (0x81828384, 0x11121314, 0x91929394, 1),
        (0x81828386, 0x95969798, 0x999A9B9C, 1 + 2 * 0x11121314),
    ))


def one_run_short():
    yield from one_row_short(COUNTED, COUNTED_VALUE, 12, too_many("stsc"))


def large_counts():
    yield from large_count("stsc")


def text_of_a_count_without_room():
    text = "stsc entry_count indicates more entries than could fit in the box"
    yield listed(full(b"stsc", u32(1)), invalid(text))


def empty_table_of_any_size():
    yield from any_size(full(b"stsc", u32(0)), stsc())


def stsc_bytes(*runs):
    return full(b"stsc", u32(len(runs)), *(u32(*run) for run in runs))


def last_first_sample():
    bytes_of_last = stsc_bytes((1, 4294967294, 1), (2, 1, 1))
    yield round_trip(bytes_of_last, stsc((1, 4294967294, 1), (2, 1, 4294967295)))


def first_samples_are_computed():
    yield one(stsc_bytes((1, 4294967295, 1), (2, 1, 1)), OVERFLOW)
    back = stsc_bytes((2, 1, 1), (1, 1, 1))
    yield one(back, OVERFLOW)
    yield one(back[:39], END)
    yield listed(back, OVERFLOW)


MANY = 1000


def runs(*given):
    """Returns a `stsc` with the runs `given`: first chunk, and samples per chunk."""
    return full(b"stsc", u32(len(given)), *(u32(*run, 1) for run in given))


def samples_of_a_power_of_two():
    """The first sample of the second run would be 1 plus a power of two. Modulo any smaller power it is 1."""
    for power in range(32, 63):
        gap = power // 2
        yield one(runs((0, 1 << power - gap), (1 << gap, 1)), OVERFLOW)
    yield one(runs((0, 2**32 - 1), (2**32 - 1, 1)), OVERFLOW)


def samples_of_several_runs():
    """Each run has fewer than 2^32 samples, and all together have a multiple of 2^40 and a few more."""
    yield one(runs(*((number, 2**31) for number in range(513))), OVERFLOW)
    yield one(runs((0, 2**32 - 1), (1, 1), (2, 1)), OVERFLOW)


def samples_of_a_thousand_runs():
    given = [(number, number % 5 + 1) for number in range(1, MANY + 1)]
    samples = [1]
    for _, count in given:
        samples.append(samples[-1] + count)
    value = stsc(*((*run, sample) for run, sample in zip(given, samples)))
    yield round_trip(runs(*given), value)
    yield one(runs(*given, (MANY - 1, 1)), OVERFLOW)


def fields_of_two_runs():
    """ISO/IEC 14496-12, 8.7.4. The first samples are computed: four chunks of four samples are before the second."""
    yield fields(full(b"stsc", u32(2, 3, 4, 5, 7, 8, 9), version=1, flags=2), version=1, flags=2, entries=[
        {"first_chunk": 3, "samples_per_chunk": 4, "sample_description_index": 5, "first_sample": 1},
        {"first_chunk": 7, "samples_per_chunk": 8, "sample_description_index": 9, "first_sample": 17},
    ])
