"""Compares the codec with the slow reader over many inputs: the boxes of the codec with one that follows
docs/LAYOUT.md only (readers.py), those of mp4_extra with one that follows the standards (extra.py).

The inputs are the worked bytes of the tests, cut, grown, swapped and with other sizes, counts, versions and bytes. The
codec and the slow reader each read an input as one box and as a list of boxes. The codec does so in the program
test_probe, by `BoxHeader::read` with `AnyBox::read_named`, and by `read_boxes`. Both readings are repeated with boxes
of other types kept, as `KeptBox`es. The test compares:

- values, field by field;
- faults, by their kind and text;
- the cursor's position after the call;
- the list that the slow reader reads from the written bytes of a list, which has to be the same list;
- the places of the boxes that `list_boxes` gives, or its fault.

For the boxes of mp4_extra the inputs are these boxes, beside those of the codec and in boxes that hold boxes. Each is
read as one box of mp4_extra, as a list of `AllBoxes`, and as a list of `BoxTree`. The structure of the trees is
compared: the containers with their numbers of bytes of fields, the boxes that are read as their types, and those that
are kept as bytes. The boxes are written too. Those of mp4_extra have to give the bytes that the slow reader expects,
and trees the bytes that were read, except for headers.

Settings: COUNT (100,000 inputs, and 50,000 for mp4_extra), SEED, JOBS."""

import collections
import concurrent.futures
import os
import time
import unittest

from tests.built import built, number
from tests.readers.compared import CALLS, MORE_CALLS, is_fault, misplaced, more_otherwise, otherwise
from tests.readers.compared import outcomes_by_layout
from tests.readers.extra import MORE
from tests.readers.headers import Fault
from tests.readers.inputs import Maker, MoreMaker
from tests.readers.readers import READERS
from tests.readers.shown import shown
from tests.readers.trees import DEPTH, read_trees

CHUNK = 2500
KINDS = ["container", "extra", "unsure", "other", "raw"]
TREES = [*KINDS, *(f"depth {depth}" for depth in range(1, DEPTH + 2))]
# The number of differences that are printed.
MOST = 10


def tried(program, seed, count, more):
    """Compares the codec with the slow reader over `count` inputs. Returns how often each kind of outcome came up, and
    the differences."""
    maker = MoreMaker(seed) if more else Maker(seed)
    inputs = [maker.input() for _ in range(count)]
    kinds, differences = collections.Counter(), []
    for (position, buffer), texts in zip(inputs, shown(program, inputs)):
        outcomes = outcomes_by_layout(buffer, position, MORE_CALLS if more else CALLS)
        for call, expected in outcomes.items():
            kinds.update(kinds_of(call, expected[0]))
        if more:
            kinds.update(kinds_of_trees(read_trees(buffer, position)[0]))
        found = more_otherwise(outcomes, buffer, position, texts) if more else otherwise(outcomes, texts)
        for call, text, expected in [*found, *misplaced(buffer, position, texts)]:
            found = f"  codec:  {text!r}\n  layout: {expected}"
            differences.append(f"{call} at {position} of {buffer.hex()}\n{found}")
    return kinds, differences


def kinds_of(call, outcome):
    """Returns the words under which `outcome` is counted."""
    if is_fault(outcome):
        return [(call, "fault", ": ".join(outcome))]
    if isinstance(outcome, list):
        return [(call, "value", "")] + [(call, "of name", name) for name, _ in outcome]
    return [(call, "of name", outcome[0]), (call, "value", "")] if outcome else [(call, "unknown", "")]


def kinds_of_trees(trees):
    """Returns the words under which `trees` are counted."""
    if isinstance(trees, Fault):
        return kinds_of("trees", trees.args)
    found, left = [("trees", "value", "")], [(box, 1) for box in trees]
    while left:
        box, depth = left.pop()
        found += [("trees", "of name", box[0]), ("trees", "of name", f"depth {depth}")]
        if box[0] == "container":
            left += [(it, depth + 1) for it in box[3]]
    return found


def say(count, kinds, seconds, more):
    print(f"{count} inputs in {seconds:.0f} seconds, each read as one box and as a list of boxes")
    for call in [*MORE_CALLS, "trees"] if more else CALLS:
        mine = {key[1:]: times for key, times in kinds.items() if key[0] == call}
        texts = {text: times for (kind, text), times in mine.items() if kind == "fault"}
        skipped = f", {mine['unknown', '']} boxes of unknown names" if ("unknown", "") in mine else ""
        print(f"{call}: {mine.get(('value', ''), 0)} values{skipped}, {sum(texts.values())} faults")
        for text, times in sorted(texts.items(), key=lambda it: -it[1]):
            print(f"  {times:6} {text}")
        declared = sorted(name.lower().strip() for name in MORE)
        names = {"declared box": declared, "all boxes": [*READERS, *declared, "other"], "trees": TREES}
        names = names.get(call, [*READERS, "other"] if "kept" in call else READERS)
        read = {name: mine.get(("of name", name), 0) for name in names}
        print("  boxes read: " + ", ".join(f"{name} {times}" for name, times in sorted(read.items())))


class Differential(unittest.TestCase):
    def compare(self, inputs, more):
        program, seed, began = built("test_probe"), number("SEED", 1), time.monotonic()
        counts = [min(CHUNK, inputs - at) for at in range(0, inputs, CHUNK)]
        kinds, differences = collections.Counter(), []
        with concurrent.futures.ProcessPoolExecutor(number("JOBS", os.cpu_count())) as workers:
            seeds = [f"{seed}.{part}" for part in range(len(counts))]
            every = [program] * len(counts), seeds, counts, [more] * len(counts)
            for counted, found in workers.map(tried, *every):
                kinds += counted
                differences += found
        say(inputs, kinds, time.monotonic() - began, more)
        if differences:
            self.fail("\n".join([f"{len(differences)} differences", *differences[:MOST]]))

    def test_boxes_of_the_codec(self):
        self.compare(number("COUNT", 100_000), False)

    def test_boxes_of_mp4_extra(self):
        self.compare(number("COUNT", 50_000), True)


if __name__ == "__main__":
    unittest.main()
