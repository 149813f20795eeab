"""Plans of lanes and rows of records: how a plan is laid, and that a program which answers otherwise fails each test."""
from __future__ import annotations

import sys
import unittest
import unittest.mock
from pathlib import Path

sys.path.insert(0, str(Path(__file__).resolve().parent))
import lane_plans
import record_rows
from journal_program import Tested
from lane_plans import Lane, Phase, alone, laid, rounds
from scratch import Scratch

SILENT = "#!/bin/sh\ncat > /dev/null\n"
REFUSING = "#!/bin/sh\ncat > /dev/null\necho 'wfserve: line 1: no' >&2\nexit 2\n"
TESTS = [module.__dict__[name](test) for module, names in (
    (lane_plans, ["Plans"]), (record_rows, ["Texts", "Lanes"])) for name in names
    for test in unittest.defaultTestLoader.getTestCaseNames(module.__dict__[name])]

# How many rows a test has, each of which fails by itself.
ROWS = {"test_a_text_is_written_again": 3, "test_a_torn_last_line_is_left_away": len(record_rows.SIGNALS) + 1,
        "test_a_line_that_is_no_step": len(record_rows.BAD_LINES)}


class Laid(unittest.TestCase):
    def test_the_lines_of_each_lane_are_spread_over_a_phase(self) -> None:
        one, other = {"op": "a"}, {"op": "b"}
        lines = laid(Phase([Lane([one] * 4, ""), Lane([other] * 2, "")]))
        self.assertEqual([line["op"] for line in lines], list("aabaab"))
        self.assertEqual([line["lane"] for line in lines], [0, 0, 1, 0, 0, 1])

    def test_rounds_have_moments(self) -> None:
        self.assertEqual(rounds(2, {"op": "a"}), [{"op": "a", "at": 0}, {"op": "a", "at": 1}])

    def test_all_answers_of_one_alone_count(self) -> None:
        self.assertEqual(alone("started", {"op": "a"}, {"op": "b"}).counted, 2)


class Answers(unittest.TestCase):
    """The answers of a phase: another one is a fault, and so is one that counts too often."""

    PHASE = Phase([Lane([{"op": "a"}], "started", ("AlreadyStarted",)), Lane([{"op": "a"}], "started", ())], 1)

    def check(self, *replies: lane_plans.Line) -> None:
        lane_plans.Plans().check(self.PHASE, [{"lane": 0}, {"lane": 1}], list(replies))

    def test_answers(self) -> None:
        started, refused = {"ok": "started"}, {"error": "AlreadyStarted"}
        self.check(refused, started)
        for replies in ((started, refused), (started, started), (refused, {"ok": "none"})):
            with self.subTest(replies), self.assertRaises(AssertionError):
                self.check(*replies)

    def test_steps_of_the_records(self) -> None:
        def step(number: int, at: int) -> lane_plans.Line:
            return {"pass": number, "request": {"at": at}}
        lane_plans.Plans().assert_steps([[step(0, 1), step(1, 0), step(0, 1)]], [2, 1])
        for record in ([step(0, 1), step(1, 0)], [step(0, 1), step(1, 0), step(0, 0)], [step(2, 1)]):
            with self.subTest(record), self.assertRaises(AssertionError):
                lane_plans.Plans().assert_steps([record], [2, 1])


class Met(unittest.TestCase):
    """Lanes that are served one after another have not met, nor has a history that was read at its ends alone."""

    PLANS = lane_plans.Plans()

    def came(self, passes: list[int], lengths: list[int]) -> lane_plans.Came:
        replies = [{"events": [{}] * length} for length in lengths]
        return lane_plans.Came([{}, *replies], [[], [{"pass": number} for number in passes]])

    def test_lanes_that_take_turns(self) -> None:
        one_after_another, in_turn = [0] * 50 + [1] * 50, [0, 1] * 50
        self.assertTrue(self.PLANS.have_met(self.came(in_turn, [1, 5, 9])))
        self.assertFalse(self.PLANS.have_met(self.came(one_after_another, [1, 5, 9])))
        self.assertFalse(self.PLANS.have_met(self.came(in_turn, [1, 1, 9])))

    def test_lanes_that_never_meet_fail(self) -> None:
        tried = unittest.mock.Mock(return_value=self.came([0] * 50 + [1] * 50, [1, 1, 9]))
        with unittest.mock.patch.object(lane_plans.Plans, "read_and_written", tried):
            with self.assertRaisesRegex(AssertionError, "each lane was served after the others"):
                self.PLANS.test_a_history_is_read_while_four_lanes_write_it()
        self.assertEqual(tried.call_count, lane_plans.Plans.TRIES)


class Failing(Scratch):
    FILES = {"silent": SILENT, "refusing": REFUSING}

    def test_each_test_fails(self) -> None:
        for name in self.FILES:
            (self.top / name).chmod(0o755)
            for test in TESTS:
                with self.subTest(f"{name}: {test.id()}"), unittest.mock.patch.object(Tested, "program", self.top / name):
                    result = unittest.TestResult()
                    test.run(result)
                    self.assertEqual(len(result.failures), ROWS.get(test._testMethodName, 1))


if __name__ == "__main__":
    unittest.main()
