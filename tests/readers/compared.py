"""Compares the output of the program test_probe for an input with what a row expects, and with what the slow reader
finds."""

import json
from functools import partial

from tests.readers.extra import Fields
from tests.readers.headers import Fault, headers
from tests.readers.readers import places, read_box, read_boxes, read_more
from tests.readers.shown import counted_of, outcome_of, plain_outcome_of, structure_of, text_of_places, written_of
from tests.readers.trees import fits, read_trees, short_box

# The words for each text of the program. `TEXTS` has the function that reads the text.
LOOKED_AT = [
    "one box", "the list", "written", "one kept box", "the kept list", "written as it was kept", "one declared box",
    "written as declared", "written as trees", "counted",
]
TEXTS = [
    outcome_of, outcome_of, written_of, outcome_of, outcome_of, written_of, outcome_of, written_of, written_of,
    counted_of,
]
# The calls of the slow reader, each with the number of the program's text for the same call.
CALLS = {
    "box": (read_box, 0), "boxes": (read_boxes, 1),
    "kept box": (partial(read_box, keep=True), 3), "kept boxes": (partial(read_boxes, keep=True), 4),
}
# The calls for the boxes of mp4_extra.
read_all_boxes = partial(read_boxes, keep=True, more=True)
MORE_CALLS = {"declared box": (read_more, 6), "all boxes": (read_all_boxes, 10)}
# The codes of the boxes of example_boxes::shapes, which test_probe reads as declared boxes. The slow reader doesn't.
TEST_CODES = (b"lins", b"nest", b"numb", b"opts", b"rang", b"runs", b"strs", b"trep", b"outr")
# The numbers of the texts for the written bytes of trees, for the places of boxes, and for the structure of trees.
WRITTEN_TREES, PLACES, STRUCTURE = 8, 12, 13


def parsed(read, text):
    try:
        return read(text)
    except (ValueError, KeyError) as why:
        return f"{why}: {text!r}"


def differences(row, texts):
    """Yields each difference between `texts`, which the program printed, and what `row` expects: words, the expected
    value, and the value found."""
    counted = None if row.headers is None else (row.box, row.headers)
    for words, expected, read, text in zip(LOOKED_AT, [*row[2:-3], counted], TEXTS, texts):
        found = parsed(read, text) if expected is not None else None
        if found != expected:
            yield words, expected, found
    if row.places is not None and texts[PLACES] != text_of_places(*row.places):
        yield "places by hand", row.places, texts[PLACES]


def pairs_of(value):
    """Returns `value` with each dictionary as a list of pairs, and each number with a fraction as its text."""
    if isinstance(value, dict):
        return [[name, pairs_of(it)] for name, it in value.items()]
    if isinstance(value, list):
        return [pairs_of(it) for it in value]
    return repr(value) if isinstance(value, float) else value


def fields_otherwise(row, printed):
    """Returns the fields that `row` expects, and those that `mp4inspect --json` printed of the box, or of the last box
    inside it. Both are texts of pairs, so that the order of names counts."""
    pairs = json.loads(printed, object_pairs_hook=lambda found: list(map(list, found)), parse_float=str)
    level = dict(pairs[0]).get("boxes")
    while level:
        found = dict(level[-1])
        level = found.get("children")
    return json.dumps(pairs_of(row.fields)), json.dumps(found.get("fields"))


def outcome_by_layout(read, buffer, position):
    """Returns the value or the fault that the slow reader `read` finds, and the position of the cursor."""
    found, after = read(buffer, position)
    return found.args if isinstance(found, Fault) else found, after


def outcomes_by_layout(buffer, position, calls=CALLS):
    """Returns what the slow reader finds with each of `calls`."""
    return {call: outcome_by_layout(read, buffer, position) for call, (read, _) in calls.items()}


def otherwise(outcomes, texts):
    """Yields each difference between the codec and the slow reader: the call, the codec's text, and what the slow
    reader found. It is also a difference if the slow reader reads another list from the bytes that the codec wrote."""
    for call, expected in outcomes.items():
        read, number = CALLS[call]
        if parsed(outcome_of, texts[number]) != expected:
            yield call, texts[number], expected
        if isinstance(expected[0], list):
            written = parsed(written_of, texts[number + 1])
            again = outcome_by_layout(read, written, 0)[0] if isinstance(written, bytes) else written
            if again != expected[0]:
                yield "written, " + call, texts[number + 1], expected


def misplaced(buffer, position, texts):
    """Yields the difference in the places of the boxes, in the form of `otherwise`, if there is one."""
    expected = outcome_by_layout(places, buffer, position)
    if texts[PLACES] != text_of_places(*expected):
        yield "places", texts[PLACES], expected


def is_written_in(value, written):
    """Returns whether the boxes `value` may be written as `written`. A box whose bytes the slow reader knows has
    exactly these bytes. For any other box, the slow reader reads the same box from the bytes."""
    if not isinstance(written, bytes) or outcome_by_layout(read_all_boxes, written, 0)[0] != value:
        return False
    for _, box in value:
        size = int.from_bytes(written[:4], "big")
        if isinstance(box, Fields) and box.written != written[:size]:
            return False
        written = written[size:]
    return True


def more_otherwise(outcomes, buffer, position, texts):
    """Yields the differences in the boxes of mp4_extra and in trees, in the form of `otherwise`."""
    for call, (value, after) in outcomes.items():
        _, number = MORE_CALLS[call]
        if value is None and buffer[position + 4:position + 8] in TEST_CODES:
            continue
        if call == "declared box" and (value is None or is_fault(value) and after == position):
            # A box of another type, or a header with a fault.
            found, expected = texts[number], ""
        else:
            found, expected = parsed(plain_outcome_of, texts[number]), (value, after)
            boxes = value if isinstance(value, list) else [value]
            if not is_fault(value) and not is_written_in(boxes, parsed(written_of, texts[number + 1])):
                yield "written, " + call, texts[number + 1], expected
        if found != expected:
            yield call, texts[number], expected
    yield from trees_otherwise(buffer, position, texts)


def trees_otherwise(buffer, position, texts):
    """Yields the differences in trees, in the form of `otherwise`: in their structure, and in their written bytes,
    which are the bytes that were read, except for headers."""
    expected, _ = outcome_by_layout(read_trees, buffer, position)
    if is_fault(expected):
        written, is_right = expected, texts[STRUCTURE] == ""
    else:
        written = b"".join(short_box(buffer, header) for header in headers(buffer, position))
        found = parsed(structure_of, texts[STRUCTURE])
        is_right = isinstance(found, list) and fits(expected, found)
    if parsed(written_of, texts[WRITTEN_TREES]) != written:
        yield "written, trees", texts[WRITTEN_TREES], written
    if not is_right:
        yield "structure, trees", texts[STRUCTURE], expected


def is_fault(outcome):
    return isinstance(outcome, tuple) and outcome[0] in ("End", "Invalid", "NotFound")
