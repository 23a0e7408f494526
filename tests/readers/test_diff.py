"""Compares what diff.py computes about two files with what was worked out by hand (programs/test_diff.py)."""

import unittest

from tests.programs.test_diff import CASES, OBJECTS
from tests.readers.diff import differences


class Diff(unittest.TestCase):
    def test_objects(self):
        for first, second, wanted in OBJECTS:
            self.assertEqual(differences(first, second), wanted)

    def test_cases(self):
        """Each difference is one line."""
        for name, (first, second, lines, *others) in CASES.items():
            with self.subTest(case=name):
                found = differences(first, second)
                self.assertEqual([line.removeprefix("- ").removeprefix("+ ").split(":")[0] for line in lines
                                  if not line.startswith("order")], [it["path"] for it in found if it["path"]])
                self.assertEqual(len(found), len(lines))
                self.assertEqual(len(differences(first, second, True)), len(others[0] if others else lines))
                self.assertEqual(differences(first, first, True), [])


if __name__ == "__main__":
    unittest.main()
