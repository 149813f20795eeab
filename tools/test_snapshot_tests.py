"""How texts of snapshots are damaged, and what drawn lines learn from replies."""
from __future__ import annotations

import random
import unittest

import snapshot_lines
from snapshot_lines import Drawn
from snapshot_tests import alone, kinds_in, piece_of
from wfserve.ids import TaskKind, run_id, token_text

TEXT = b'{"head":1}\n{"gone":2}\n{"gone":2}\n{"end":3}\n'


class Damages(unittest.TestCase):
    def test_lines_are_left_out_and_doubled(self) -> None:
        found = dict(snapshot_lines.without_lines(b"a\nb\n"))
        self.assertEqual(found, {"no line 1": b"b\n", "line 1 twice": b"a\na\nb\n",
                                 "no line 2": b"a\n", "line 2 twice": b"a\nb\nb\n"})

    def test_lines_that_are_the_same_are_not_swapped(self) -> None:
        found = dict(snapshot_lines.swapped(TEXT))
        self.assertEqual(list(found), ["lines 1 and 2 swapped", "lines 3 and 4 swapped"])
        self.assertEqual(found["lines 1 and 2 swapped"], b'{"gone":2}\n{"head":1}\n{"gone":2}\n{"end":3}\n')

    def test_what_is_cut_is_a_beginning(self) -> None:
        found = [text for _, text in snapshot_lines.cut(TEXT, random.Random(1), 5)]
        self.assertTrue(all(TEXT.startswith(text) and text != TEXT for text in found))
        for place in (0, 11, 22, 33, len(TEXT) - 1):
            self.assertIn(TEXT[:place], found)

    def test_what_is_changed_or_longer_is_another_text(self) -> None:
        found = [text for _, text in snapshot_lines.changed(TEXT, random.Random(1), 500)]
        self.assertNotIn(TEXT, found)
        self.assertEqual({len(text) - len(TEXT) for text in found}, {-1, 0, 1})
        self.assertTrue(all(text.startswith(TEXT) and text != TEXT for _, text in snapshot_lines.longer(TEXT)))


class Kinds(unittest.TestCase):
    def test_what_a_line_is(self) -> None:
        self.assertEqual(piece_of(b'{"at":0,"attrs":{},"id":1,"type":"TimerFired"}'), ("event", "TimerFired"))
        self.assertEqual(piece_of(b'{"note":{"kind":"beat"}}'), ("note", "beat"))
        self.assertEqual(piece_of(b'{"kind":"signal_external","to":1,"transfer":{}}'), ("transfer", ""))
        self.assertEqual(kinds_in([TEXT])["gone", ""], 2)


class Cases(unittest.TestCase):
    TEXT = """Words about them.
## one
@ cuts but 1
$ --shards 2
> {"op":"a"}
>
< {"line":1}
## two
> {"op":"b"}
## three
@ cuts
$ --passes 2
> {"op":"c"}
> {"op":"d"}
"""

    def test_those_that_may_be_cut(self) -> None:
        found = snapshot_lines.cases_in("file", self.TEXT)
        self.assertEqual(found, [("file: one", ["--shards", "2"], [b'{"op":"a"}\n', b"\n"])])

    def test_there_are_some(self) -> None:
        self.assertGreater(len(snapshot_lines.all_cases()), 50)


class Words(unittest.TestCase):
    def test_one_pass_and_room_for_all_that_waits(self) -> None:
        self.assertEqual(alone(["--shards", "3", "--passes", "3", "--capacity", "3"]),
                         ["--shards", "3", "--passes", "1", "--capacity", "1024"])


class Learned(unittest.TestCase):
    def test_commands_name_what_a_history_shows(self) -> None:
        drawn, run = Drawn(1, 1), run_id(1, 0, 7)
        drawn.learn({"ok": "history", "run": run, "events": [{"id": 5, "type": "ActivityTaskScheduled", "attrs": {}}]})
        token, other = token_text(TaskKind.WORKFLOW, 7, 2, 1), token_text(TaskKind.ACTIVITY, 7, 6, 1)
        drawn.learn({"ok": "task", "token": token, "run": run})
        drawn.learn({"ok": "task", "token": other, "run": run, "activity_id": "a"})
        self.assertEqual((list(drawn.tasks), list(drawn.activities)), ([token], [other]))
        found = [drawn.command(run) for _ in range(200)]
        timer = next(command["timer_id"] for command in found if command["type"] == "StartTimer")
        self.assertIn({"type": "CancelTimer", "timer_id": timer}, found)
        for event in (5, 6):
            self.assertIn({"type": "RequestCancelActivityTask", "scheduled": event}, found)
        self.assertNotIn("RequestCancelActivityTask", [drawn.command("another")["type"] for _ in range(200)])

    def test_the_same_seed_draws_the_same_lines(self) -> None:
        drawn = [[Drawn(3, 2).line() for _ in range(50)] for _ in range(2)]
        self.assertEqual(drawn[0], drawn[1])


if __name__ == "__main__":
    unittest.main()
