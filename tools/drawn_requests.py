#!/usr/bin/env python3
"""Asks a shard by tables and the plain program the same drawn requests, each of them after all earlier ones.

    tools/drawn_requests.py PROGRAM

PROGRAM is the built program of tests/above, as tools/unproved_tests.py leaves it: by its mode `compare` it ends where the
two say other things. Here requests are drawn, by what was answered to the earlier ones, so that each kind of reply and of
event comes; one that never does is said, or it would be taken for compared. What is drawn is the same in each run. The
status is 1 where a test fails.
"""
from __future__ import annotations

import collections
import json
import subprocess
import sys
import unittest
from typing import Iterable, Optional

from drawn_lines import CHILDREN, ORDERS, Draws, drawn_line, line_of, numbered
from drawn_knowledge import Hint, Known, Tasks, taken_in
from journal_program import Line, Tested, run_rows

# All kinds of reply that drawn requests get.
REPLIES = frozenset("""\
started
existing
signaled
repeated
signaled run
repeated run
cancel requested
terminated
history
described
workflow task
stale
completed
task failed
failed
activity task
activity completed
retrying
activity failed
activity canceled
heartbeat
nothing due
fired execution timeout
fired run timeout
fired workflow task
fired user timer
fired schedule to close
fired schedule to start
fired heartbeat
fired start to close
fired retry ready
fired retention
dispatch
no dispatch
counted
already counted
counted out of order
already started
not found
unknown task queue
cancellation already requested
another shard's workflow
bad token
""".splitlines())
# All kinds of reply to what a transfer's turn asks, but for those that dispatches have too.
DELIVERIES = frozenset(["transfer", "no transfer", "accepted", "already delivered", "delivered out of order"])
# All kinds of event that drawn histories have.
EVENTS = frozenset("""\
WorkflowExecutionStarted
WorkflowExecutionCompleted
WorkflowExecutionFailed
WorkflowExecutionTimedOut
WorkflowExecutionCanceled
WorkflowExecutionTerminated
WorkflowExecutionContinuedAsNew
WorkflowExecutionCancelRequested
WorkflowExecutionSignaled
WorkflowTaskScheduled
WorkflowTaskStarted
WorkflowTaskCompleted
WorkflowTaskTimedOut
WorkflowTaskFailed
ActivityTaskScheduled
ActivityTaskStarted
ActivityTaskCompleted
ActivityTaskFailed
ActivityTaskTimedOut
ActivityTaskCancelRequested
ActivityTaskCanceled
TimerStarted
TimerFired
TimerCanceled
MarkerRecorded
""".splitlines())
# All kinds of event that tell of children and of other workflows.
OUTWARD = frozenset("""\
StartChildWorkflowExecutionInitiated
StartChildWorkflowExecutionFailed
ChildWorkflowExecutionStarted
ChildWorkflowExecutionCompleted
ChildWorkflowExecutionFailed
ChildWorkflowExecutionCanceled
ChildWorkflowExecutionTimedOut
ChildWorkflowExecutionTerminated
SignalExternalWorkflowExecutionInitiated
SignalExternalWorkflowExecutionFailed
ExternalWorkflowExecutionSignaled
RequestCancelExternalWorkflowExecutionInitiated
RequestCancelExternalWorkflowExecutionFailed
ExternalWorkflowExecutionCancelRequested
""".splitlines())
# What a thousand requests by a short rule get.
BY_RULE = frozenset(["started", "signaled", "cancel requested", "terminated", "history", "already started", "not found",
                     "repeated"])

# Replies whose texts are those of other operations too.
OF_OPERATIONS = {
    ("complete_activity", "completed"): "activity completed",
    ("fail_activity", "failed"): "activity failed",
    ("cancel_activity", "canceled"): "activity canceled",
    ("timer_turn", "none"): "nothing due",
    ("next_dispatch", "taken"): "dispatch",
    ("next_dispatch", "none"): "no dispatch",
    ("next_transfer", "taken"): "transfer",
    ("next_transfer", "none"): "no transfer",
    ("deliver", "accepted"): "accepted",
    ("deliver", "already"): "already delivered",
    ("deliver", "out_of_order"): "delivered out of order",
    **{(op, ok): name for op in ("dispatched", "acknowledge") for ok, name in (
        ("acknowledged", "counted"), ("already", "already counted"), ("out_of_order", "counted out of order"))},
}
REFUSALS = {
    "AlreadyStarted": "already started", "NotFound": "not found", "UnknownTaskQueue": "unknown task queue",
    "CancellationAlreadyRequested": "cancellation already requested", "InvalidToken": "bad token",
}


def kind_of(op: str, reply: Line) -> str:
    """Which kind of reply it is."""
    if "error" in reply:
        if reply["error"] == "InvalidArgument":
            return {"workflow_id": "another shard's workflow", "token": "bad token"}.get(reply["field"], reply["field"])
        return REFUSALS.get(reply["error"], reply["error"])
    ok = reply["ok"]
    if (op, ok) in OF_OPERATIONS:
        return OF_OPERATIONS[op, ok]
    if ok == "task":
        return "activity task" if "activity_id" in reply else "workflow task"
    if ok == "fired":
        return f"fired {reply['class']}".replace("_", " ")
    return ok.replace("_", " ") + (" run" if ok in ("signaled", "repeated") and "run" in reply else "")


class Side:
    """A shard of one or of two, and what its workers know of it. Each line goes to the program."""

    def __init__(self, test: unittest.TestCase, shard: int, shards: int, retention: int,
                 seen: collections.Counter[str]) -> None:
        self.shard, self.seen, self.known = shard, seen, Known(shard)
        self.program = subprocess.Popen([Tested.program, "compare"], stdin=subprocess.PIPE, stdout=subprocess.PIPE,
                                        stderr=subprocess.PIPE, text=True)
        test.addCleanup(self.stop)
        self.say(f"shard {shard} {shards} {retention}")
        # The step that followed of the last reply, if one did.
        self.following = ""

    def say(self, line: str) -> None:
        assert self.program.stdin is not None
        self.program.stdin.write(line + "\n")
        self.program.stdin.flush()

    def close(self) -> None:
        """It has ended with status 0, and complained of nothing."""
        _, errors = self.program.communicate()
        if self.program.returncode or errors:
            raise AssertionError(f"{self.program.returncode}: {errors}")

    def stop(self) -> None:
        """Whatever it was at."""
        if self.program.returncode is None:
            self.program.kill()
            self.program.communicate()

    def ask(self, line: str) -> tuple[str, Line]:
        """The kind of the reply to a line, and the reply. It is counted, and learned from."""
        self.say(line)
        assert self.program.stdout is not None
        reply, self.following = self.program.stdout.readline(), self.program.stdout.readline().rstrip("\n")
        if not reply:
            self.close()
            raise AssertionError(f"no reply to {line}")
        said = json.loads(reply)
        kind = kind_of(json.loads(line)["request"]["op"], said)
        if kind not in REPLIES | DELIVERIES:
            raise AssertionError(f"a reply of no kind that is awaited, {kind}: {reply}")
        self.seen[kind] += 1
        for event in said.get("events", ()):
            self.seen[event["type"]] += 1
        self.known.learn(kind, said, self.hint())
        return kind, said

    def hint(self) -> Optional[Hint]:
        """The task that a dispatch's reply leads to."""
        task = json.loads(self.following)["request"] if self.following else {}
        if task.get("op") != "start_task":
            return None
        return Hint(task["kind"], self.shard, task["run"], task["event"], task["attempt"])


def retention(seed: int) -> int:
    """For how long runs that have closed are kept with a seed, so that many are gone before the last request: with half
    of the seeds, none."""
    return Draws(seed).below(3000) + 1 if seed % 2 else 0


class Alone(unittest.TestCase):
    """One shard at a time, with no other beside it: what it sends is never read."""

    COUNT = 480

    def seen(self, shard: int, shards: int, seeds: Iterable[int]) -> collections.Counter[str]:
        seen: collections.Counter[str] = collections.Counter()
        for seed in seeds:
            side, draws = Side(self, shard, shards, retention(seed), seen), Draws(seed)
            for number in range(self.COUNT):
                side.ask(drawn_line(draws, side.known, number))
            side.close()
        return seen

    def test_one_shard(self) -> None:
        """All kinds of event, and of reply but one for another shard's workflow IDs."""
        seen = self.seen(0, 1, range(1, 23))
        self.assertEqual((REPLIES | EVENTS) - {*seen}, {"another shard's workflow"})

    def test_second_of_two(self) -> None:
        """About half of the workflow IDs belong to the first shard."""
        seen = self.seen(1, 2, range(6, 22))
        self.assertEqual((REPLIES | EVENTS) - {*seen}, {"TimerCanceled"})


class ByRule(unittest.TestCase):
    """A thousand requests that a short rule makes, so that anyone can make the same ones."""

    ASKED = (
        '"conflict":"Fail","input":"","op":"start","reuse":"AllowDuplicate","run_timeout":0,"task_queue":"main",'
        '"task_timeout":0,"workflow_id":"k%d","workflow_type":"w"',
        '"input":"","name":"s","op":"signal","workflow_id":"k%d"', '"op":"request_cancel","workflow_id":"k%d"',
        '"op":"terminate","reason":"","workflow_id":"k%d"', '"op":"history","workflow_id":"k%d"',
    )

    def test_a_thousand_requests(self) -> None:
        """The nth has the moment n. The value after one is 1,103,515,245 times it and 12,345, modulo 2^31."""
        seen: collections.Counter[str] = collections.Counter()
        side, value = Side(self, 0, 1, 0, seen), 1
        for number in range(1000):
            value = (value * 1_103_515_245 + 12_345) % 2**31
            asked = self.ASKED[value // 2**20 % 5] % (value // 2**16 % 8)
            side.ask('{"pass":0,"request":{"at":%d,%s}}' % (number + 1, asked))
        side.close()
        self.assertEqual(BY_RULE - {*seen}, set())


class OutOfOrder(unittest.TestCase):
    """Transfers that the second of two shards is given by hand, out of their order and twice: they change nothing but
    its last moment."""

    START = ('"conflict":"Fail","input":"","op":"start","reuse":"AllowDuplicate","run_timeout":0,"task_queue":"main",'
             '"task_timeout":0,"workflow_id":"b","workflow_type":"w"')
    SIGNAL = '"input":"","name":"s","op":"signal","workflow_id":"b"'
    HISTORY = '"op":"history","workflow_id":"b"'
    # A signal from a workflow of the first shard.
    DELIVERY = ('"op":"deliver","transfer":{"content":{"from_run":"00000000-0001-8000-8000-000000000001","initiated":%d,'
                '"input":"","name":"s","workflow_id":"b"},"from":0,"kind":"signal_external","number":%d}')
    # All that can be read of the shard.
    READS = (HISTORY, '"op":"describe","workflow_id":"b"', '"op":"next_transfer","to":0', '"op":"next_dispatch"')
    # The moment of each delivery, its number, its reply, and whether reads show a change.
    STEPS = ((2, 1, "accepted", True), (7, 3, "delivered out of order", False), (7, 1, "already delivered", False),
             (7, 3, "delivered out of order", False), (7, 2, "accepted", True), (7, 3, "accepted", True),
             (7, 2, "already delivered", False))

    def setUp(self) -> None:
        self.side = Side(self, 1, 2, 0, collections.Counter())

    def ask(self, at: int, asked: str) -> tuple[str, Line]:
        return self.side.ask('{"pass":0,"request":{"at":%d,%s}}' % (at, asked))

    def deliver(self, at: int, number: int) -> str:
        return self.ask(at, self.DELIVERY % (number + 4, number))[0]

    def read(self) -> list[tuple[Line, str]]:
        """All replies, at a moment that is never the last one."""
        return [(self.ask(0, asked)[1], self.side.following) for asked in self.READS]

    def test_transfers_out_of_order_change_nothing(self) -> None:
        before = self.read()
        self.assertEqual(self.ask(1, self.START)[0], "started")
        read = self.read()
        self.assertNotEqual(read, before)
        for at, number, wanted, changes in self.STEPS:
            with self.subTest(at=at, number=number):
                self.assertEqual(self.deliver(at, number), wanted)
                before, read = read, self.read()
                self.assertEqual(read != before, changes)
        # A signal of an earlier moment stands at the moment of the last refused transfer.
        self.assertEqual(self.deliver(9, 9), "delivered out of order")
        self.assertEqual(self.ask(8, self.SIGNAL)[0], "signaled")
        last = self.ask(0, self.HISTORY)[1]["events"][-1]
        self.assertEqual((last["id"], last["at"], last["type"]), (6, 9, "WorkflowExecutionSignaled"))
        self.side.close()


class Two:
    """Two shards of one service, whose runs start children on both, and signal and cancel each other."""

    COUNT = 240

    def __init__(self, test: unittest.TestCase, seed: int, seen: collections.Counter[str]) -> None:
        self.sides = [Side(test, shard, 2, retention(seed), seen) for shard in (0, 1)]
        self.draws = Draws.for_two(seed)

    def tasks(self, shard: int) -> Tasks:
        return self.sides[shard].known.tasks(self.draws)

    def ask_by(self, shard: int, at: int, template: str, tasks: Tasks) -> tuple[str, Line]:
        """Asks one of the two what a template stands for."""
        return self.sides[shard].ask(line_of(at, template, self.draws, tasks))

    def near(self, number: int) -> int:
        """Most of the time this number, now and then the one before it or the one two after it. The one after it could
        be the next one, and would stand for a transfer that was never carried."""
        return {0: max(number - 1, 0), 1: number + 2}.get(self.draws.below(16), number)

    def carry(self, at: int) -> None:
        """Carries the next transfer: it is read, delivered and counted. Now and then a turn stops before its end, so
        that the next one says the same again, and now and then a number is not the next one."""
        one, other = self.draws.below(2), self.draws.below(2)
        front = '{"pass":0,"request":{"at":%d,' % at
        kind, reply = self.sides[one].ask(f'{front}"op":"next_transfer","to":{other}}}}}')
        if kind != "transfer" or self.draws.one_in(8):
            return
        delivery = json.loads(self.sides[one].following)
        delivery["request"]["at"] = at
        delivery["request"]["transfer"]["number"] = self.near(reply["number"])
        line = json.dumps(delivery, separators=(",", ":"), ensure_ascii=False)
        kind, _ = self.sides[other].ask(line)
        if kind not in ("accepted", "already delivered") or self.draws.one_in(8):
            return
        number = self.near(reply["number"])
        self.sides[one].ask(f'{front}"number":{number},"op":"acknowledge","to":{other}}}}}')

    def work(self, at: int) -> None:
        """Takes the next task of one of the two shards, and completes it where it is a workflow task."""
        shard = self.draws.below(2)
        tasks = self.tasks(shard)
        kind, reply = self.ask_by(shard, at, "NEXT_DISPATCH", tasks)
        hint = self.sides[shard].hint()
        if kind != "dispatch" or hint is None:
            return
        tasks = tasks._replace(dispatch=reply["number"], waiting=hint)
        self.ask_by(shard, at, "DISPATCHED", tasks)
        kind, reply = self.ask_by(shard, at, "START_TASK", tasks)
        if kind == "workflow task":
            self.ask_by(shard, at, "COMPLETE", tasks._replace(task=taken_in(reply), asked=0))

    def begin(self, at: int) -> None:
        """Starts a workflow or terminates a child on one of the two, or has a deadline fire there."""
        shard = self.draws.below(2)
        self.draws.home = shard
        tasks = self.tasks(shard)
        drawn = self.draws.below(6)
        template = "TIMER_TURN" if drawn < 2 else "TERMINATE_CHILD" if drawn < 4 else "START"
        self.ask_by(shard, at, template, tasks)

    def ask_next(self, number: int) -> None:
        """Asks one of the two what is drawn next."""
        shard = self.draws.below(2)
        self.draws.home = shard
        self.sides[shard].ask(drawn_line(self.draws, self.sides[shard].known, number * 4))

    def go_through(self) -> None:
        """Carries transfers, serves tasks, begins something, asks what is drawn next; and reads all histories."""
        for number in range(self.COUNT):
            drawn = self.draws.below(8)
            if drawn < 3:
                self.carry(number * 20)
            elif drawn < 6:
                self.work(number * 20)
            elif drawn == 6:
                self.begin(number * 20)
            else:
                self.ask_next(number)
        for number in range(ORDERS + CHILDREN):
            for side in self.sides:
                side.ask('{"pass":0,"request":{"at":%d,"op":"history","workflow_id":"%s"}}' % (
                    self.COUNT * 20, numbered(number)))
        for side in self.sides:
            side.close()


class Together(unittest.TestCase):
    def test_two_shards(self) -> None:
        """All that a transfer's turn can be answered, and all events of children and of other workflows."""
        seen: collections.Counter[str] = collections.Counter()
        for seed in range(1, 33):
            Two(self, seed, seen).go_through()
        self.assertEqual((DELIVERIES | OUTWARD) - {*seen}, set())


if __name__ == "__main__":
    sys.exit(run_rows(__name__, sys.argv[1:]))
