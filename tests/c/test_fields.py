"""Compares `mp4_fields`, called from Python, with the slow reader: the fields of the box at the front of the bytes, or
the status of its fault. The bytes are those of tests/rows, which has some of each type, and some of the inputs of
tests/readers/test_differential.py. They are cut where the box ends, so that nothing after it is read.

Settings: COUNT (5,000 inputs beside the rows), SEED."""

import collections
import unittest

from tests.built import codec, number
from tests.readers.extra import MORE, more_fields
from tests.readers.headers import Fault, Header, sized
from tests.readers.inputs import Maker
from tests.readers.inspect import fields_of, own_texts, with_names
from tests.readers.readers import READERS, read_row
from tests.rows import rows


def read(own):
    """Returns the fields of the box `own`."""
    header = Header(own, 0)
    header.size = len(own) - header.start
    if header.name in MORE:
        return with_names(more_fields(header.name, own[header.start + 8:]))
    box = read_row(own, header)
    return with_names(fields_of(header.name, own_texts(header.name, box, own[header.start + 8:])))


class Fields(unittest.TestCase):
    @classmethod
    def setUpClass(cls):
        cls.codec = codec()
        cls.statuses = {"End": cls.codec.END_OF_INPUT, "Invalid": cls.codec.INVALID_DATA,
                        "NotFound": cls.codec.BOX_NOT_FOUND}

    def expected(self, buffer):
        """Returns the name of the box at the front, its fields or the status, and the bytes that the library gets."""
        try:
            header = Header(buffer, 0)
        except Fault as fault:
            return None, self.statuses[fault.args[0]], buffer
        if header.name not in READERS and header.name not in MORE:
            return None, self.codec.UNKNOWN_BOX, buffer
        try:
            buffer = buffer[:header.start + sized(header, buffer)]
            return header.name, read(buffer), buffer
        except Fault as fault:
            return header.name, self.statuses[fault.args[0]], buffer

    def found(self, buffer):
        try:
            return self.codec.fields(buffer)
        except self.codec.Mp4Error as why:
            return why.status

    def test_fields(self):
        maker, read_of = Maker(number("SEED", 1)), collections.Counter()
        buffers = [row.buffer for _, row in rows()] + [maker.input()[1] for _ in range(number("COUNT", 5000))]
        for buffer in buffers:
            name, wanted, buffer = self.expected(buffer)
            found = self.found(buffer)
            if found != wanted:
                self.fail(f"of {buffer.hex()[:400]}\n  library: {found}\n  layout:  {wanted}")
            read_of[name] += isinstance(wanted, dict)
        missing = {*READERS, *MORE} - {name for name, count in read_of.items() if count}
        self.assertEqual(missing, set(), "no box of these types was read")


if __name__ == "__main__":
    unittest.main()
