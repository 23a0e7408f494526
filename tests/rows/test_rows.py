"""Compares what the codec reads from rows of bytes with what was worked out.

The rows are in the modules of this folder, one for each box. Each of their functions is a test here, with the name of
its module and its own. The program test_probe reads the rows of a test in one run: by `BoxHeader::read` with
`AnyBox::read_named` and with `KeptBox::read_named`, by `read_boxes` and `read_boxes_as::<KeptBox>`, and by
`EsdsBox::read_counted`. It writes the lists by `write_boxes`, and gives the places of the boxes by `list_boxes`.

These are compared with the slow reader, even if a row doesn't have them: the places of the boxes, the structure of the
list's trees, and the written bytes of the trees. Values are compared whole, and faults by their kind and text. The
cursor's position after the call is compared too.

Some rows have the fields of a box, with their names and their order as in the syntax of the standards. These are
compared with what `mp4inspect --json` prints of the box."""

import subprocess
import unittest

from tests.built import built
from tests.readers.compared import differences, fields_otherwise, misplaced, trees_otherwise
from tests.readers.shown import shown
from tests.rows import tests

# The largest number of letters that are printed of one thing.
MOST = 4000


def said(thing):
    text = thing.hex() if isinstance(thing, bytes) else str(thing)
    return text if len(text) <= MOST else f"{text[:MOST]}.. ({len(text)} letters)"


class Rows(unittest.TestCase):
    def compare(self, found):
        """Compares what the codec reads from the rows `found` with what they expect."""
        self.assertTrue(found, "there is no row")
        told = []
        for row, texts in zip(found, shown(built("test_probe"), [(row.at, row.buffer) for row in found])):
            others = [*misplaced(row.buffer, row.at, texts), *trees_otherwise(row.buffer, row.at, texts)]
            others = ((words, wanted, text) for words, text, wanted in others)
            for words, expected, other in [*differences(row, texts), *others]:
                told.append(f"{words} at {row.at} of {said(row.buffer)}\n"
                            f"  expected: {said(expected)}\n  found:    {said(other)}")
            if row.fields is not None:
                words = [built("mp4_inspect"), "--json", "-"]
                printed = subprocess.run(words, input=row.buffer, stdout=subprocess.PIPE, check=True).stdout
                expected, other = fields_otherwise(row, printed.decode("utf-8"))
                if other != expected:
                    told.append(f"fields of {said(row.buffer)}\n  expected: {expected}\n  found:    {other}")
        if told:
            self.fail("\n".join([f"{len(told)} differences in {len(found)} rows", *told]))


def test_of(generator):
    return lambda self: self.compare(list(generator()))


for module, name, generator in tests():
    setattr(Rows, f"test_{module}_{name}", test_of(generator))

if __name__ == "__main__":
    unittest.main()
