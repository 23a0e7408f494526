"""Compares the strings in tests/rows/codec_strings.txt, published or worked out, with those of codec_strings.py."""

import unittest

from tests.readers.codec_strings import rows, string_of


class CodecStrings(unittest.TestCase):
    def test_rows_have_the_strings_that_are_computed(self):
        for number, text, code, boxes in rows():
            with self.subTest(line=number):
                self.assertEqual(string_of(code, boxes), text)


if __name__ == "__main__":
    unittest.main()
