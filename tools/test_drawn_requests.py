"""Drawn requests: that they are the same in each run, what is learned of replies, and that a program which answers
otherwise, or ends, fails each test."""
from __future__ import annotations

import json
import sys
import unittest
import unittest.mock
from pathlib import Path

sys.path.insert(0, str(Path(__file__).resolve().parent))
import drawn_requests
from drawn_knowledge import Hint, Known, Taken, ordinal_in
from drawn_lines import TEMPLATES, Draws, drawn_line, filled, numbered
from drawn_requests import DELIVERIES, REPLIES, kind_of
from journal_program import Tested
from scratch import Scratch
from wfserve.ids import TaskKind, run_id, token_text

# The program as it ends where the two say other things.
DIFFERING = "#!/bin/sh\nread -r line\necho 'the two say other things' >&2\nexit 1\n"
# Answers everything alike.
STALE = "#!/bin/sh\nread -r line\nwhile read -r line; do echo '{\"ok\":\"stale\"}'; echo; done\n"
UNKNOWN = STALE.replace("stale", "unheard")
TESTS = [drawn_requests.Alone("test_one_shard"), drawn_requests.Alone("test_second_of_two"),
         drawn_requests.ByRule("test_a_thousand_requests"), drawn_requests.Together("test_two_shards"),
         drawn_requests.OutOfOrder("test_transfers_out_of_order_change_nothing")]


class Drawn(unittest.TestCase):
    def test_numbers(self) -> None:
        """By hand: the state after 1 is 7,806,831,264,735,756,412, whose upper 31 bits are 908,834,773."""
        draws = Draws(1)
        self.assertEqual((draws.below(2**31), draws.state), (7_806_831_264_735_756_412 >> 33, 7_806_831_264_735_756_412))

    def test_lines_are_steps_of_a_record(self) -> None:
        """Each is JSON with sorted keys, and the second time the same."""
        for home in (None, 0, 1):
            lines = []
            for _ in range(2):
                draws, known = Draws(21), Known(0)
                draws.home = home
                lines.append([drawn_line(draws, known, number) for number in range(200)])
            self.assertEqual(*lines)
            for line in lines[0]:
                self.assertEqual(line, json.dumps(json.loads(line), separators=(",", ":"), sort_keys=True))

    def test_templates_can_be_drawn(self) -> None:
        draws = Draws.for_two(1)
        for name, template in TEMPLATES.items():
            for _ in range(50):
                self.assertNotIn("$", filled(template, draws, Known(0).tasks(draws)), name)

    def test_workflow_ids(self) -> None:
        self.assertEqual([numbered(number) for number in (0, 7, 8, 15)], ["order-0", "order-7", "payment-0", "payment-7"])


class Learned(unittest.TestCase):
    RUN = run_id(1, 0, 7)

    def test_tasks_that_wait(self) -> None:
        known = Known(0)
        self.assertEqual(ordinal_in(self.RUN), 7)
        known.learn("started", {"run": self.RUN}, None)
        events = [{"id": 2, "type": "WorkflowTaskScheduled", "attrs": {"attempt": 3}},
                  {"id": 9, "type": "ActivityTaskScheduled", "attrs": {}}]
        known.learn("history", {"run": self.RUN, "events": events}, None)
        known.learn("fired retry ready", {"run": self.RUN, "event": 9}, None)
        known.learn("dispatch", {"number": 4}, Hint("activity", 0, 7, 9, 2))
        self.assertEqual(known.hints, [Hint("workflow", 0, 7, 2, 1), Hint("workflow", 0, 7, 2, 3),
                                       Hint("activity", 0, 7, 9, 1), Hint("activity", 0, 7, 9, 1),
                                       Hint("activity", 0, 7, 9, 2)])
        self.assertEqual(known.dispatched, 4)

    def test_tasks_that_were_taken(self) -> None:
        known = Known(0)
        reply = {"run": self.RUN, "token": token_text(TaskKind.ACTIVITY, 7, 9, 2)}
        known.learn("activity task", reply, None)
        self.assertEqual((known.attempts, known.next), ([Taken(0, 7, 9, 2)], "report"))
        known.learn("fired retry ready", {"run": self.RUN, "event": 9}, None)
        self.assertEqual(known.hints, [Hint("activity", 0, 7, 9, 3)])
        known.learn("heartbeat", {"cancel_requested": True}, None)
        self.assertEqual(known.next, "cancel")


class Kinds(unittest.TestCase):
    def test_replies_alike_are_told_by_what_was_asked(self) -> None:
        for op, reply, kind in (
            ("complete_activity", {"ok": "completed"}, "activity completed"), ("timer_turn", {"ok": "none"}, "nothing due"),
            ("complete_workflow_task", {"ok": "completed"}, "completed"), ("next_transfer", {"ok": "none"}, "no transfer"),
            ("signal", {"ok": "signaled"}, "signaled"), ("signal_with_start", {"ok": "signaled", "run": ""}, "signaled run"),
            ("acknowledge", {"ok": "already"}, "already counted"), ("deliver", {"ok": "already"}, "already delivered"),
            ("start_task", {"ok": "task", "activity_id": ""}, "activity task"),
            ("timer_turn", {"ok": "fired", "class": "retry_ready"}, "fired retry ready"),
            ("start", {"error": "InvalidArgument", "field": "workflow_id"}, "another shard's workflow"),
        ):
            self.assertEqual(kind_of(op, reply), kind)
            self.assertIn(kind, REPLIES | DELIVERIES)
        self.assertNotIn(kind_of("start", {"error": "Busy"}), REPLIES | DELIVERIES)


class Failing(Scratch):
    FILES = {"differing": DIFFERING, "stale": STALE, "unknown": UNKNOWN}

    def test_each_test_fails(self) -> None:
        for name in self.FILES:
            (self.top / name).chmod(0o755)
            tests = TESTS if name != "stale" else [TESTS[2], TESTS[4]]
            for test in tests:
                with self.subTest(f"{name}: {test.id()}"), unittest.mock.patch.object(Tested, "program", self.top / name):
                    result = unittest.TestResult()
                    test.run(result)
                    self.assertFalse(result.wasSuccessful())


if __name__ == "__main__":
    unittest.main()
