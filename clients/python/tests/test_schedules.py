"""What tools/schedules.py finds wrong with the steps that three lanes are printed to have made."""

import unittest

from support import add_tools

add_tools()
import schedules

LINES = [
    {"op": "signal", "workflow_id": "a", "name": "n", "at": 1, "lane": 0},
    {"op": "history", "workflow_id": "b", "at": 2, "lane": 1},
    {"op": "timer_turn", "shard": 0, "at": 3, "lane": 0},
]
REPLIES = ["signaled", "a history", "none"]


def step(ticket, lane, shard, **request):
    return {"pass": lane, "request": request, "shard": shard, "ticket": ticket}


STEPS = [
    step(1, 1, 1, at=2, op="history", workflow_id="b"),
    step(2, 0, 0, at=1, input="", name="n", op="signal", workflow_id="a"),
    step(3, 0, 0, at=3, op="timer_turn"),
]


def entries(*steps):
    return [{"pass": step["pass"], "request": step["request"]} for step in steps]


class Schedules(unittest.TestCase):
    def ordered(self, steps):
        return schedules.in_order_of_steps(LINES, REPLIES, steps)

    def test_lines_stand_in_the_order_of_their_steps(self):
        self.assertEqual([schedules.home(line) for line in LINES], [0, 1, 0])
        self.assertEqual(self.ordered(STEPS), [(LINES[at], REPLIES[at]) for at in (1, 0, 2)])

    def test_steps_that_are_not_those_of_the_lines_are_found(self):
        first, second, third = STEPS
        wrong = {
            "the step number 2": [first, {**third, "ticket": 3}],
            "not what its lane asked next": [first, {**third, "ticket": 2}, {**second, "ticket": 3}],
            "no step": [first, second],
        }
        for said, steps in wrong.items():
            with self.assertRaisesRegex(ValueError, said):
                self.ordered(steps)
        for other in ({"shard": 1}, {"pass": 2}, {"request": {**second["request"], "name": "m"}}):
            with self.assertRaisesRegex(ValueError, "not what its lane asked next"):
                self.ordered([first, {**second, **other}, third])
        with self.assertRaisesRegex(ValueError, "not what its lane asked next"):
            self.ordered([*STEPS, {**third, "ticket": 4}])

    def test_a_record_has_the_steps_of_its_shard(self):
        first, second, third = STEPS
        schedules.check_records([entries(second, third), entries(first)], STEPS)
        for records in ([entries(second), entries(first)], [entries(third, second), entries(first)],
                        [entries(second, third), entries(first, first)]):
            with self.assertRaises(ValueError):
                schedules.check_records(records, STEPS)


if __name__ == "__main__":
    unittest.main()
