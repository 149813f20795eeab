#!/usr/bin/env python3
"""Lanes of the built program that ask the same service at the same time, by plans: that all get through, that nothing of
what they do is lost, and what the records then have.

    tools/lane_plans.py PROGRAM

PROGRAM is the built `wfserve`, as `rt ci` leaves it in crates/wfserve/out. A lane is a thread with a pass of its own. The
lanes of a phase ask at the same time, and the next phase begins once all of them are answered. The status is 1 where a
test fails.
"""
from __future__ import annotations

import collections
import json
import pathlib
import subprocess
import sys
import tempfile
import unittest
from typing import Iterable, NamedTuple, Optional

from journal_program import SECONDS, Line, Tested, run_rows, start, text
from wfserve.ids import TaskKind, token_text

SIGNAL = {"name": "s", "op": "signal", "workflow_id": "a"}
HISTORY = {"op": "history", "workflow_id": "a"}
DISPATCH = {"op": "dispatch_turn", "shard": 0}
POLL = {"op": "poll_workflow_task", "task_queue": "main"}
TURN = {"op": "timer_turn", "shard": 0}
TRANSFER = {"from": 0, "op": "transfer_turn", "to": 1}
# The token of the first task of the first run of the first shard.
TOKEN = token_text(TaskKind.WORKFLOW, 1, 2, 1, 0)


class Lane(NamedTuple):
    """What a lane asks in a phase, one after another, and what it may be answered: all that counts, and what doesn't."""

    lines: list[Line]
    wanted: str
    others: tuple[str, ...] = ()


class Phase(NamedTuple):
    """Lanes that ask at the same time, and how many of their answers count over all of them, where that is known."""

    lanes: list[Lane]
    counted: Optional[int] = None


class Came(NamedTuple):
    """The replies of a plan, and each shard's record, a step a line."""

    replies: list[Line]
    records: list[list[Line]]


def alone(wanted: str, *lines: Line) -> Phase:
    """One lane asks while no other does, and each of its answers counts."""
    return Phase([Lane(list(lines), wanted)], len(lines))


def rounds(count: int, *lines: Line) -> list[Line]:
    """So many rounds of the lines, at moments that count from 0 on."""
    return [{**line, "at": number} for number in range(count) for line in lines]


def laid(phase: Phase) -> list[Line]:
    """The lines of a phase: those of each lane are spread over it, so that what the program reads at once has some of
    each."""
    spread = [((place + 1) / len(lane.lines), number, place) for number, lane in enumerate(phase.lanes)
              for place in range(len(lane.lines))]
    return [{**phase.lanes[number].lines[place], "lane": number} for _, number, place in sorted(spread)]


def name_of(reply: Line) -> str:
    """What a reply says, in a word."""
    return reply["error"] if "error" in reply else reply["ok"]


class Plans(unittest.TestCase):
    # How many signals each lane sends whose history is read meanwhile, how often it is read, and how many events a run has.
    WRITES, READS, EVENTS = 1000, 100, 21_000
    # Lanes have met where so many steps of a record come after one of another lane, and readings of a history had so many
    # lengths. Of several hundred and fourteen on a free machine; on a busy one a lane may come after the other for once.
    TURNS, LENGTHS, TRIES = 20, 3, 20

    def went(self, phases: Iterable[Phase], *words: str) -> Came:
        """Has the program go through phases. Each answer is one that its lane may be given, and so many count."""
        script: list[Line] = []
        spans = []
        for phase in phases:
            first = len(script)
            script += laid(phase)
            spans.append((phase, first, script[first:]))
            script.append({"barrier": True})
        with tempfile.TemporaryDirectory() as folder:
            done = subprocess.run([Tested.program, *words, "--save", folder], input=text(script), capture_output=True,
                                  text=True, timeout=SECONDS)
            self.assertEqual((done.returncode in (0, 1), done.stderr), (True, ""))
            files = sorted(pathlib.Path(folder).iterdir())
            records = [[json.loads(line) for line in path.read_text().splitlines()] for path in files]
        replies = {reply["line"]: reply for reply in map(json.loads, done.stdout.splitlines())}
        self.assertEqual(len(replies), sum("op" in line for line in script))
        for phase, first, asked in spans:
            self.check(phase, asked, [replies[first + place + 1] for place in range(len(asked))])
        return Came([replies[number] for number in sorted(replies)], records)

    def check(self, phase: Phase, asked: list[Line], replies: list[Line]) -> None:
        """The answers of one phase."""
        counted = 0
        for line, reply in zip(asked, replies):
            lane = phase.lanes[line["lane"]]
            self.assertIn(name_of(reply), (lane.wanted, *lane.others), (line, reply))
            counted += name_of(reply) == lane.wanted
        if phase.counted is not None:
            self.assertEqual(counted, phase.counted)

    def have_met(self, came: Came) -> bool:
        """Whether lanes took turns on a shard, and a history was read between its ends."""
        passes = [[step["pass"] for step in record] for record in came.records]
        turns = max(sum(one != other for one, other in zip(record, record[1:])) for record in passes)
        lengths = {len(reply["events"]) for reply in came.replies if "events" in reply}
        return turns >= self.TURNS and len(lengths) >= self.LENGTHS

    def assert_steps(self, records: list[list[Line]], steps: list[int]) -> None:
        """The passes made so many steps each, the first pass first, none was made besides, and in no record do the
        moments of a pass fall."""
        made = collections.Counter(step["pass"] for record in records for step in record)
        self.assertEqual(made, dict(enumerate(steps)))
        for record in records:
            for number in made:
                moments = [step["request"]["at"] for step in record if step["pass"] == number]
                self.assertEqual(moments, sorted(moments))

    def test_four_lanes_signal_on_four_shards(self) -> None:
        """Five workflows lie on the four shards of four, and each lane signals all of them in turn."""
        ids = "abcde"
        signals = Lane(rounds(600, *({**SIGNAL, "workflow_id": name} for name in ids)), "signaled")
        phases = [alone("started", *map(start, ids)), Phase([signals] * 4, 12_000)]
        came = self.went(phases, "--shards", "4", "--passes", "4")
        self.assert_steps(came.records, [3005, 3000, 3000, 3000])

    def test_two_lanes_start_one_workflow(self) -> None:
        """One begins the workflow's first run, and the other finds that very run: there is no second one."""
        starts = [Lane([{**start("a"), "request_id": name}], "started", ("AlreadyStarted",)) for name in ("r1", "r2")]
        runs = [f"00000000-0001-8000-8000-00000000000{number}" for number in (1, 2)]
        reads = [{"op": "describe", "run": run, "workflow_id": "a"} for run in runs]
        phases = [Phase(starts, 1), Phase([Lane([reads[0]], "described"), Lane([reads[1]], "NotFound")], 2)]
        came = self.went(phases, "--shards", "2", "--passes", "2")
        self.assertEqual([reply["run"] for reply in came.replies[:2]], [runs[0]] * 2)
        self.assertEqual([len(record) for record in came.records], [4, 0])
        self.assert_steps(came.records, [2, 2])

    def test_two_lanes_hand_tasks_on(self) -> None:
        """Each task comes through a queue that is often full and often empty, and none comes twice."""
        count, room = 300, 16
        starts = alone("started", *(start(f"w{number}") for number in range(count)))
        # Each round after the first takes as many as the queue holds, in whatever order the lanes come.
        handing = Phase([Lane([DISPATCH] * 2 * room, "dispatched", ("QueueFull", "none")),
                         Lane([POLL] * 2 * room, "task", ("empty",))])
        turns = 3 * count // room
        script = [starts, *[handing] * turns, alone("none", DISPATCH), alone("empty", POLL)]
        came = self.handed(script, str(room))
        self.assertEqual(collections.Counter(map(name_of, came.replies[count:-2]))["dispatched"], count)
        runs = [reply["run"] for reply in came.replies if name_of(reply) == "task"]
        self.assertEqual((len(runs), len(set(runs))), (count, count))

    def handed(self, phases: list[Phase], room: str) -> Came:
        return self.went(phases, "--passes", "2", "--capacity", room)

    def test_two_lanes_let_runs_come_and_go(self) -> None:
        """Runs of one workflow close at once, and are kept for five milliseconds. While they come, turns delete what
        closed so long before the last one, and then the others, each once."""
        begin = {**start("a"), "reuse": "AllowDuplicateFailedOnly"}
        coming = Lane(rounds(1000, begin, {"op": "terminate", "workflow_id": "a"}), "terminated", ("started",))
        going = Lane([TURN] * 2000, "fired", ("none",))
        # What was not deleted meanwhile is deleted now; with both the turns delete all but the last five.
        later = Phase([going])
        last = {**TURN, "at": 1005}
        phases = [Phase([coming, going]), later, alone("history", HISTORY),
                  Phase([Lane([last] * 6, "fired", ("none",))], 5), alone("NotFound", HISTORY)]
        came = self.went(phases, "--passes", "2", "--retention", "5")
        said = collections.Counter(map(name_of, came.replies))
        self.assertEqual([said["started"], said["terminated"], said["fired"]], [1000] * 3)
        gone = [reply["run"] for reply in came.replies if name_of(reply) == "fired"]
        self.assertEqual(len(set(gone)), 1000)

    def test_a_history_is_read_while_four_lanes_write_it(self) -> None:
        """They signal one workflow, a millisecond apart, and a fifth one reads its history meanwhile. Each reading has
        the events that are there, by their numbers. And that they met is seen, in one of some tries."""
        if not any(self.have_met(self.read_and_written()) for _ in range(self.TRIES)):
            self.fail(f"in {self.TRIES} tries each lane was served after the others")

    def read_and_written(self) -> Came:
        """One workflow, which four lanes signal while a fifth one reads its history."""
        writing = Lane(rounds(self.WRITES, SIGNAL), "signaled")
        reading = Lane([HISTORY] * self.READS, "history")
        phases = [alone("started", start("a")), Phase([writing] * 4 + [reading], 4 * self.WRITES + self.READS),
                  Phase([Lane([], "")] * 4 + [Lane([HISTORY], "history")], 1)]
        came = self.went(phases, "--passes", "5")
        for reply in came.replies:
            if "events" in reply:
                self.assertEqual([event["id"] for event in reply["events"]], [*range(1, len(reply["events"]) + 1)])
        self.assertEqual(len(came.replies[-1]["events"]), 4 * self.WRITES + 2)
        self.assert_steps(came.records, [self.WRITES + 1, *[self.WRITES] * 3, self.READS + 1])
        return came

    def test_two_lanes_deliver_signals(self) -> None:
        """The first shard's workflow signals that of the second fifty times, and two lanes deliver. Each signal comes
        once and in its order, whichever lane delivers it."""
        signals = [{"name": f"s{number}", "type": "SignalExternalWorkflowExecution", "workflow_id": "b"}
                   for number in range(1, 51)]
        delivering = Lane([TRANSFER] * 100, "accepted", ("already_delivered", "already", "none"))
        phases = [alone("started", start("a"), start("b")), alone("dispatched", DISPATCH), alone("task", POLL),
                  alone("completed", {"commands": signals, "op": "complete_workflow_task", "token": TOKEN}),
                  Phase([delivering] * 2, 50), alone("none", TRANSFER),
                  alone("history", {"op": "history", "workflow_id": "b"})]
        came = self.went(phases, "--shards", "2", "--passes", "2")
        events = came.replies[-1]["events"]
        self.assertEqual([event["attrs"]["name"] for event in events[2:]], [f"s{number}" for number in range(1, 51)])

    def test_a_history_of_thousands_of_events(self) -> None:
        """None of them is refused."""
        signals = [SIGNAL] * (self.EVENTS - 2)
        came = self.went([alone("started", start("a")), alone("signaled", *signals), alone("history", HISTORY)])
        self.assertEqual([event["id"] for event in came.replies[-1]["events"]], [*range(1, self.EVENTS + 1)])
        self.assert_steps(came.records, [self.EVENTS])


if __name__ == "__main__":
    sys.exit(run_rows(__name__, sys.argv[1:]))
