"""The rows of pieces: that texts and changes are what they are said to be, and that a program which answers otherwise fails
each test."""
from __future__ import annotations

import json
import unittest

import piece_rows
from piece_rows import CHANGES, EVENTS, PIECES, RUNS, SENT, ended, is_text, written
from scratch import stubbed

# Prints the same to each line.
ALIKE = "#!/bin/sh\nwhile read -r line; do echo alike; done\n"
SILENT = "#!/bin/sh\ncat > /dev/null\n"
ENDING = "#!/bin/sh\ncat > /dev/null\nexit 1\n"


class Texts(unittest.TestCase):
    def test_lines_are_as_they_are_written(self) -> None:
        """Each is compact JSON with sorted keys."""
        for line in (*EVENTS, *PIECES, *SENT):
            self.assertEqual(line, json.dumps(json.loads(line), separators=(",", ":"), sort_keys=True, ensure_ascii=False))

    def test_each_change_is_one_of_some_line(self) -> None:
        for old, new in CHANGES:
            with self.subTest(old, new=new):
                self.assertNotEqual(old, new)
                self.assertTrue(any(old in line for line in (*EVENTS, *SENT)))

    def test_a_half_letter_is_no_text(self) -> None:
        self.assertEqual((is_text("é".encode()), is_text("é".encode()[:1])), (True, False))

    def test_runs_are_laid_behind_what_was_counted(self) -> None:
        for runs in RUNS:
            lines = ended(*runs.one)
            self.assertEqual(lines[:-1], written(*runs.one))
            self.assertEqual(lines[-1], 'piece {"end":{"last":4750,"lines":0}}')


class Failing(unittest.TestCase):
    def test_each_test_fails(self) -> None:
        tests = [
            test for group in (piece_rows.Pieces, piece_rows.Policies, piece_rows.Sameness, piece_rows.Restored,
                               piece_rows.Transfers)
            for test in unittest.defaultTestLoader.loadTestsFromTestCase(group)]
        self.assertEqual(len(tests), 14)
        for program in (ALIKE, SILENT, ENDING):
            with stubbed(program):
                for test in tests:
                    with self.subTest(str(test), program=program):
                        result = unittest.TestResult()
                        test.run(result)
                        self.assertTrue(result.failures or result.errors)


if __name__ == "__main__":
    unittest.main()
