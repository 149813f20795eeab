#!/usr/bin/env python3
"""Texts of records as rows of data, each given to the built program; and what lanes leave and print.

    tools/record_rows.py PROGRAM

PROGRAM is the built `wfserve`, as `rt ci` leaves it in crates/wfserve/out. A text that is opened is written again as its
whole lines, and one with a line that is no step is refused by that line's number. The steps of several lanes stand in one
list after the last reply, and each shard's record is its part of that list. The status is 1 where a test fails.
"""
from __future__ import annotations

import json
import pathlib
import subprocess
import sys
import tempfile
import unittest

from journal_program import SECONDS, Line, Tested, run_rows, start, text
from lane_plans import HISTORY, POLL

# A start, and two signals, the later one at an earlier moment.
SIGNALS = b"""\
{"pass":0,"request":{"at":0,"conflict":"Fail","input":"","op":"start","request_id":"r1","reuse":"AllowDuplicate",\
"run_timeout":0,"task_queue":"main","task_timeout":0,"workflow_id":"a","workflow_type":"w"}}
{"pass":0,"request":{"at":50,"input":"","name":"s","op":"signal","workflow_id":"a"}}
{"pass":0,"request":{"at":40,"input":"","name":"s","op":"signal","workflow_id":"a"}}
"""
# A workflow from its start to its end: its task is dispatched, taken and completed.
WORKFLOW = b"""\
{"pass":0,"request":{"at":0,"conflict":"Fail","input":"","op":"start","request_id":"r1","reuse":"AllowDuplicate",\
"run_timeout":0,"task_queue":"main","task_timeout":0,"workflow_id":"a","workflow_type":"w"}}
{"pass":0,"request":{"at":0,"op":"next_dispatch"}}
{"pass":0,"request":{"at":0,"number":1,"op":"dispatched"}}
{"pass":0,"request":{"at":0,"attempt":1,"event":2,"kind":"workflow","op":"start_task","run":1}}
{"pass":0,"request":{"at":0,"commands":[{"result":"x","type":"CompleteWorkflowExecution"}],\
"op":"complete_workflow_task","token":"AQEAAAAAAAAAAAABAAAAAAAAAAIAAAAB"}}
{"pass":0,"request":{"at":0,"op":"describe","workflow_id":"a"}}
"""
# A line as an earlier time wrote it, with a whole factor in a policy, and as it is written now.
OLDER_LINE = b"""\
{"pass":0,"request":{"at":0,"commands":[{"activity_id":"x","activity_type":"w","heartbeat":0,"input":"",\
"retry":{"attempts":3,"factor":2,"initial":1000,"maximum":0,"non_retryable":[]},"schedule_to_close":0,\
"schedule_to_start":0,"start_to_close":10000,"task_queue":"main","type":"ScheduleActivityTask"}],\
"op":"complete_workflow_task","token":"AQEAAAAAAAAAAAABAAAAAAAAAAIAAAAB"}}
"""
NEWER_LINE = b"""\
{"pass":0,"request":{"at":0,"commands":[{"activity_id":"x","activity_type":"w","heartbeat":0,"input":"",\
"retry":{"attempts":3,"coefficient":200,"initial":1000,"maximum":0,"non_retryable":[]},"schedule_to_close":0,\
"schedule_to_start":0,"start_to_close":10000,"task_queue":"main","type":"ScheduleActivityTask"}],\
"op":"complete_workflow_task","token":"AQEAAAAAAAAAAAABAAAAAAAAAAIAAAAB"}}
"""
# Lines that are no step, and why.
BAD_LINES = {
    "nothing": b'',
    "no JSON": b'x',
    "no UTF-8": b'\xff',
    "a pass over 255": b'{"pass":256,"request":{"at":0,"op":"timer_turn"}}',
    "no pass": b'{"request":{"at":0,"op":"timer_turn"}}',
    "no request": b'{"pass":0}',
    "a blank": b'{"pass":0, "request":{"at":0,"op":"timer_turn"}}',
    "a carriage return": b'{"pass":0,"request":{"at":0,"op":"timer_turn"}}\r',
    "keys in another order": b'{"request":{"at":0,"op":"timer_turn"},"pass":0}',
    "a key more": b'{"pass":0,"request":{"at":0,"op":"timer_turn","shard":0}}',
    "a default left out": b'{"pass":0,"request":{"op":"timer_turn"}}',
    "an unknown operation": b'{"pass":0,"request":{"at":0,"op":"turn"}}',
    "a policy with a coefficient and a factor": b"""\
{"pass":0,"request":{"at":0,"commands":[{"activity_id":"x","activity_type":"w","heartbeat":0,"input":"",\
"retry":{"attempts":3,"coefficient":200,"factor":2,"initial":1000,"maximum":0,"non_retryable":[]},\
"schedule_to_close":0,"schedule_to_start":0,"start_to_close":10000,"task_queue":"main",\
"type":"ScheduleActivityTask"}],"op":"complete_workflow_task","token":"AQEAAAAAAAAAAAABAAAAAAAAAAIAAAAB"}}""",
    "two policies in two spellings": b"""\
{"pass":0,"request":{"at":0,"commands":[{"activity_id":"x","activity_type":"w","heartbeat":0,"input":"",\
"retry":{"attempts":3,"factor":2,"initial":1000,"maximum":0,"non_retryable":[]},"schedule_to_close":0,\
"schedule_to_start":0,"start_to_close":10000,"task_queue":"main","type":"ScheduleActivityTask"},{"activity_id":"y",\
"activity_type":"w","heartbeat":0,"input":"","retry":{"attempts":3,"coefficient":200,"initial":1000,"maximum":0,\
"non_retryable":[]},"schedule_to_close":0,"schedule_to_start":0,"start_to_close":10000,"task_queue":"main",\
"type":"ScheduleActivityTask"}],"op":"complete_workflow_task","token":"AQEAAAAAAAAAAAABAAAAAAAAAAIAAAAB"}}""",
}
# Each has a shard and a lane of its own, in these records.
STARTED = """\
{"pass":%d,"request":{"at":0,"conflict":"Fail","input":"","op":"start","reuse":"AllowDuplicate","run_timeout":0,\
"task_queue":"main","task_timeout":0,"workflow_id":"%s","workflow_type":"w"}}
"""
OF_TWO = [STARTED % (number, name) for number, name in enumerate("ab")]
TOKENS = ("AQEAAAAAAAAAAAABAAAAAAAAAAIAAAAB", "AQEAAQAAAAAAAAABAAAAAAAAAAIAAAAB")
LANES, TIMES = 4, 25


class Records(unittest.TestCase):
    """The program in a folder, beside records."""

    def setUp(self) -> None:
        folder = tempfile.TemporaryDirectory()
        self.addCleanup(folder.cleanup)
        self.given, self.left = pathlib.Path(folder.name, "given"), pathlib.Path(folder.name, "left")
        self.given.mkdir()
        self.left.mkdir()

    def lay(self, *texts: bytes) -> None:
        """The records of the shards, and no others."""
        for path in [*self.given.iterdir(), *self.left.iterdir()]:
            path.unlink()
        for number, one in enumerate(texts):
            self.path(number).write_bytes(one)

    def path(self, shard: int) -> pathlib.Path:
        return self.given / f"shard-{shard:02}.rec"

    def ran(self, lines: list[Line], *words: str) -> subprocess.CompletedProcess[str]:
        return subprocess.run([Tested.program, *words], input=text(lines), capture_output=True, text=True, timeout=SECONDS)

    def served(self, lines: list[Line], *words: str) -> str:
        """What is printed to lines none of which is refused."""
        done = self.ran(lines, *words)
        self.assertEqual((done.returncode, done.stderr), (0, ""))
        return done.stdout

    def texts(self) -> list[bytes]:
        return [path.read_bytes() for path in sorted(self.left.iterdir())]


class Texts(Records):
    def assert_written(self, given: bytes, left: bytes) -> None:
        """A text is opened, and written as this one."""
        self.lay(given)
        done = self.ran([], "--load", str(self.given), "--save", str(self.left))
        self.assertEqual((done.returncode, done.stdout, done.stderr, self.texts()), (0, "", "", [left]))

    def test_a_text_is_written_again(self) -> None:
        for given in (SIGNALS, WORKFLOW, b""):
            with self.subTest(given):
                self.assert_written(given, given)

    def test_a_torn_last_line_is_left_away(self) -> None:
        """Each beginning of a text has the steps of its whole lines."""
        for end in range(len(SIGNALS) + 1):
            with self.subTest(end=end):
                torn = SIGNALS[:end]
                self.assert_written(torn, torn[:torn.rfind(b"\n") + 1])

    def test_a_factor_counts_as_a_coefficient(self) -> None:
        """A line of an earlier time is the step that it was then, and is written as it is now."""
        self.assert_written(OLDER_LINE, NEWER_LINE)

    def test_a_line_that_is_no_step(self) -> None:
        """The first one is told by its number, whatever stands after it."""
        for about, line in BAD_LINES.items():
            with self.subTest(about):
                self.lay(SIGNALS + line + b"\ny\n")
                done = self.ran([], "--load", str(self.given), "--save", str(self.left))
                fault = f"wfserve: {self.path(0)}: line 4 is no step of a record\n"
                self.assertEqual((done.returncode, done.stdout, done.stderr, self.texts()), (2, "", fault, []))


class Lanes(Records):
    """Records and steps of several lanes."""

    def test_records_are_left_and_opened_again(self) -> None:
        words = ["--shards", "2", "--passes", "2"]
        self.served([start("a"), {**start("b"), "lane": 1}], *words, "--save", str(self.left))
        left = self.texts()
        self.assertEqual(left, [one.encode() for one in OF_TWO])
        self.lay(*left)
        self.assertEqual(self.served([], *words, "--load", str(self.given), "--save", str(self.left)), "")
        self.assertEqual(self.texts(), left)

    def test_tasks_that_wait_are_taken_again(self) -> None:
        """Both by the second lane, in the order of the shards."""
        self.lay(*(one.encode() for one in OF_TWO))
        lines = [{**POLL, "lane": 1}, {**POLL, "lane": 1}, {"barrier": True}, POLL]
        said = self.served(lines, "--shards", "2", "--passes", "2", "--load", str(self.given))
        wanted = [{"attempt": 1, "line": number + 1, "ok": "task", "run": f"00000000-0001-800{number}-8000-000000000001",
                   "started": 3, "token": TOKENS[number], "workflow_id": "ab"[number]} for number in (0, 1)]
        self.assertEqual(said, text([*wanted, {"line": 4, "ok": "empty"}]))

    def test_tasks_that_their_queue_has_no_room_for(self) -> None:
        self.lay(*(one.encode() for one in OF_TWO))
        done = self.ran([start("c")], "--shards", "2", "--passes", "2", "--capacity", "1", "--load", str(self.given))
        fault = "wfserve: more tasks wait in the records than their queues hold: raise --capacity\n"
        self.assertEqual((done.returncode, done.stdout, done.stderr), (2, "", fault))

    def test_steps_of_all_lanes_stand_in_one_list(self) -> None:
        """Each of them once, under its ticket, and each shard's record is its part of the list, in order."""
        lines = [{**HISTORY, "at": time, "lane": lane, "workflow_id": "ab"[time % 2]}
                 for time in range(TIMES) for lane in range(LANES)]
        words = ["--shards", "2", "--passes", str(LANES), "--trace", "--save", str(self.left)]
        said = [json.loads(line) for line in self.ran(lines, *words).stdout.splitlines()]
        self.assertEqual([reply.get("line") for reply in said[:len(lines)]], [*range(1, len(lines) + 1)])
        steps = said[len(lines):]
        self.assertEqual([step.pop("ticket") for step in steps], [*range(1, len(lines) + 1)])
        records = [[json.loads(line) for line in one.splitlines()] for one in self.texts()]
        for shard, record in enumerate(records):
            own = [step for step in steps if step["shard"] == shard]
            self.assertEqual([{**step, "shard": shard} for step in record], own)
        self.assertEqual(sum(map(len, records)), len(lines))

    def test_as_many_lanes_as_there_may_be(self) -> None:
        """All are served, and after a barrier each sees what another one did."""
        lanes = 256
        starts = [{**start(f"w{lane}"), "lane": lane} for lane in range(lanes)]
        reads = [{"lane": lane, "op": "describe", "workflow_id": f"w{(lane + 1) % lanes}"} for lane in range(lanes)]
        said = self.served([*starts, {"barrier": True}, *reads], "--shards", "64", "--passes", str(lanes))
        replies = [json.loads(line) for line in said.splitlines()]
        self.assertEqual([reply["ok"] for reply in replies], ["started"] * lanes + ["described"] * lanes)
        self.assertEqual({reply["status"] for reply in replies[lanes:]}, {"Running"})


if __name__ == "__main__":
    sys.exit(run_rows(__name__, sys.argv[1:]))
