"""The rows of snapshots' texts: how their texts are laid, and that a program which answers otherwise fails each of them."""
from __future__ import annotations

import json
import unittest

import snapshot_rows
from scratch import stubbed
from snapshot_rows import COUNTS, SNAPSHOT, STORIES, TEXTS, Count, counted, laid, shown, text_of_replies

# Opens everything, writes nothing and answers nothing.
SILENT = "#!/bin/sh\ncat > /dev/null\n"
# Refuses everything for the same reason.
REFUSING = "#!/bin/sh\ncat > /dev/null\necho 'wfserve: line 1: no' >&2\nexit 2\n"


class Laid(unittest.TestCase):
    def test_a_snapshot_has_its_lines_counted(self) -> None:
        lines = laid(SNAPSHOT).splitlines()
        self.assertEqual(json.loads(lines[-1]), {"end": {"last": 4750, "lines": len(lines) - 1}})
        self.assertEqual(len(lines), 33)

    def test_lines_are_as_they_are_written(self) -> None:
        """Each is compact JSON with sorted keys, but for those that are no line of a snapshot."""
        for lines in (laid(SNAPSHOT), snapshot_rows.OTHER, *(one for row in COUNTS for one in row.texts())):
            for line in lines.splitlines():
                self.assertEqual(line, json.dumps(json.loads(line), separators=(",", ":"), sort_keys=True))

    def test_counts_of_each_shard(self) -> None:
        self.assertEqual(counted(Count(), Count(4, 2), dispatched=9), snapshot_rows.COUNTED)

    def test_damaged_lines_are_in_their_texts_or_behind_them(self) -> None:
        for title, rows in TEXTS.items():
            for place, row in enumerate(rows):
                with self.subTest(title, place=place):
                    self.assertTrue(row.fault is None or 1 <= row.fault[0] <= row.text.count("\n") + 1)


class Replies(unittest.TestCase):
    def test_lines_are_numbered_and_sorted(self) -> None:
        self.assertEqual(text_of_replies([{"ok": "none"}, {"no": 2, "error": "NotFound"}]),
                         '{"line":1,"ok":"none"}\n{"error":"NotFound","line":2,"no":2}\n')

    def test_a_history_has_the_events_of_lines(self) -> None:
        self.assertEqual([event["id"] for event in shown(2, snapshot_rows.CLOSED)["events"]], [1, 2, 3, 4, 5])


class Failing(unittest.TestCase):
    """Each row of a test fails where the program does something else."""

    def failures(self, program: str, test: unittest.TestCase) -> int:
        result = unittest.TestResult()
        with stubbed(program):
            test.run(result)
        self.assertEqual(result.errors, [])
        return len(result.failures)

    def test_texts_that_are_not_written_again_and_texts_that_are_not_refused(self) -> None:
        rows = sum(map(len, TEXTS.values()))
        for program in (SILENT, REFUSING):
            self.assertEqual(self.failures(program, snapshot_rows.Texts("test_texts")), rows)
            self.assertEqual(self.failures(program, snapshot_rows.Texts("test_other_settings_are_named")), 2)
            self.assertEqual(self.failures(program, snapshot_rows.CountsOfTwo("test_counts")), len(COUNTS))

    def test_stories_that_are_answered_otherwise(self) -> None:
        for program in (SILENT, REFUSING):
            for name in ("test_replies_and_what_is_left", "test_they_are_the_same_from_a_snapshot_after_each_line"):
                self.assertEqual(self.failures(program, snapshot_rows.Stories(name)), len(STORIES))


if __name__ == "__main__":
    unittest.main()
