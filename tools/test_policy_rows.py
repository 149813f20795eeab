"""The rows of starts: that each status and policy has its row, and that a program which answers otherwise fails each of them."""
from __future__ import annotations

import json
import unittest

import policy_rows
from policy_rows import CLOSED_BY_STATUS, OPEN, REUSE, STARTS, closed, status_of
from scratch import stubbed

# Starts a run whatever there is, and refuses all.
STARTING = "#!/bin/sh\ncat > /dev/null\necho '{\"ok\":\"started\"}'\necho '{\"status\":\"Running\"}'\n"
REFUSING = STARTING.replace("ok", "error").replace("Running", "Completed")


class Rows(unittest.TestCase):
    def test_each_status_has_each_policy(self) -> None:
        seen = [(status_of(row), row.reuse, row.conflict) for row in STARTS if row.latest]
        for reuse in REUSE:
            for conflict in OPEN:
                self.assertIn(("Running", reuse, conflict), seen)
            for status in CLOSED_BY_STATUS:
                self.assertIn((status, reuse, "UseExisting"), seen)

    def test_a_closed_run_ends_with_its_last_event(self) -> None:
        for status, (attributes, _) in CLOSED_BY_STATUS.items():
            events = [json.loads(line) for line in closed(status, attributes).splitlines()]
            self.assertEqual([event["id"] for event in events], [1, 2, 3, 4, 5])
            self.assertEqual((events[-1]["type"], events[-1]["attrs"]), (f"WorkflowExecution{status}", attributes))


class Failing(unittest.TestCase):
    def test_starts_that_are_answered_otherwise(self) -> None:
        for program in (STARTING, REFUSING):
            result = unittest.TestResult()
            with stubbed(program):
                policy_rows.Starts("test_starts").run(result)
            self.assertEqual((result.errors, len(result.failures)), ([], len(STARTS)))


if __name__ == "__main__":
    unittest.main()
