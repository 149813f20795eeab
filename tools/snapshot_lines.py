"""Drawn lines that bring a service into every state that a snapshot has to keep, and ways to damage a text.

What a line needs, as a task's token or the event that scheduled an activity, is drawn from what was answered before.
"""
from __future__ import annotations

import collections
import pathlib
import random
import re
import sys
from collections.abc import Callable, Iterator
from typing import Any, NamedTuple

import client_package
from wfserve.ids import run_of_token, token_of

TOP = client_package.CLIENT.parent.parent
sys.path.insert(0, str(TOP / "bench"))
import soak  # noqa: E402

Line = dict[str, Any]

SHARDS, WORKFLOWS, SERVICE = 3, 6, 1
QUEUES = ("main", "other")
# One line in so many comes after a leap of the moments, by which deadlines are over.
LEAP = 40
FEED = b"\n"


def reads(at: int) -> list[Line]:
    """What every workflow's latest run is asked at the end."""
    names = [f"w{number}" for number in range(WORKFLOWS)]
    return [{"op": op, "workflow_id": name, "at": at} for name in names for op in ("describe", "history")]


class Case(NamedTuple):
    """A case of the program `cases` that may be cut: its title, its words and its lines."""

    title: str
    words: list[str]
    lines: list[bytes]


def cases_in(name: str, text: str) -> list[Case]:
    """The cases of a file that may be cut after each line and that one lane serves."""
    found = []
    for part in re.split(r"(?m)^## ", text)[1:]:
        words = [word for line in re.findall(r"(?m)^\$ (.*)$", part) for word in line.split()]
        lines = [line.encode() + FEED for line in re.findall(r"(?m)^>(?: (.*))?$", part)]
        if re.search(r"(?m)^@ cuts", part) and "--passes" not in words and len(lines) > 1:
            found.append(Case(f"{name}: {part.splitlines()[0]}", words, lines))
    return found


def all_cases() -> list[Case]:
    """Those of all files."""
    files: list[pathlib.Path] = sorted((TOP / "tests/cases/data").glob("*.cases"))
    return [case for file in files for case in cases_in(file.stem, file.read_text(encoding="utf-8"))]


class Drawn(soak.Drawn):
    """Lines of every kind over few workflows, so that they meet each other in every state."""

    def __init__(self, seed: int, lanes: int):
        super().__init__(seed)
        self.lanes, self.number = lanes, 0
        # Lines of a round that was begun.
        self.rest: collections.deque[Line] = collections.deque()
        # Of each run the events that scheduled its activities, and the ids of timers that it was told to start.
        self.scheduled: dict[str, list[int]] = {}
        self.timers: dict[str, list[str]] = {}

    def name(self) -> str:
        return f"w{self.random.randrange(WORKFLOWS)}"

    def queue(self) -> str:
        return self.random.choice(QUEUES)

    def shard(self) -> int:
        return self.random.randrange(SHARDS)

    def fresh(self, letter: str) -> str:
        """An id that was not drawn before, or now and then one that may be in use."""
        if self.random.randrange(12):
            self.number += 1
        return f"{letter}{self.number}"

    def asked_once(self) -> Line:
        return self.random.choice([{}, {"request_id": f"r{self.random.randrange(6)}"}])

    def start(self) -> Line:
        given = {"run_timeout": self.random.choice([0, 0, 0, 3_000]),
                 "task_timeout": self.random.choice([0, 0, 0, 400]),
                 "conflict": self.random.choice(["Fail", *soak.CONFLICT, "UseExisting", "Fail"])}
        if self.random.randrange(6) == 0:
            given["execution_timeout"] = 6_000
        return {**super().start(), **given, "input": "i" * self.random.randrange(4)}

    def activity(self) -> Line:
        retry = {"initial": self.random.randrange(1, 400), "coefficient": self.random.choice([100, 150, 300]),
                 "attempts": self.random.choice([0, 2, 3]), "non_retryable": self.random.choice([[], ["bad"]])}
        return {
            "type": "ScheduleActivityTask", "activity_id": self.fresh("a"), "activity_type": "drawn",
            "task_queue": self.queue(), "input": "x", "start_to_close": self.random.choice([300, 5_000]),
            "schedule_to_close": self.random.choice([0, 0, 4_000]),
            "schedule_to_start": self.random.choice([0, 0, 900]),
            "heartbeat": self.random.choice([0, 400]), **self.random.choice([{}, {"retry": retry}]),
        }

    def child(self) -> Line:
        close = self.random.choice(["Terminate", "RequestCancel", "Abandon"])
        name = self.random.choice([self.name(), self.fresh("c"), self.fresh("c")])
        return {"type": "StartChildWorkflowExecution", "workflow_id": name, "workflow_type": "child",
                "task_queue": self.queue(), "parent_close": close, "reuse": self.random.choice(soak.REUSE)}

    def timer(self, run: str) -> Line:
        timer = self.fresh("t")
        self.timers.setdefault(run, []).append(timer)
        return {"type": "StartTimer", "timer_id": timer, "duration": self.random.randrange(1, 900)}

    def command(self, run: str) -> Line:
        """A command for a task of a run."""
        known, timers = self.scheduled.get(run, []), self.timers.get(run, [])
        kinds: list[Callable[[], Line]] = [
            self.activity, self.activity, self.activity, self.child, self.child, lambda: self.timer(run),
            lambda: {"type": "RecordMarker", "name": "drawn", "details": "m" * self.random.randrange(9)},
            lambda: {"type": "SignalExternalWorkflowExecution", "workflow_id": self.name(), "name": "hello"},
            lambda: {"type": "RequestCancelExternalWorkflowExecution", "workflow_id": self.name()},
        ]
        # The latest are most likely in use still.
        if known:
            kinds += [lambda: {"type": "RequestCancelActivityTask", "scheduled": self.random.choice(known[-3:])}]
        if timers:
            kinds += [lambda: {"type": "CancelTimer", "timer_id": self.random.choice(timers[-3:])}] * 2
        return self.random.choice(kinds)()

    def closing(self) -> list[Line]:
        """A command that closes the run, or, most often, none."""
        kinds: list[Line] = [
            {"type": "CompleteWorkflowExecution", "result": "done"},
            {"type": "FailWorkflowExecution", "message": "drawn"},
            {"type": "CancelWorkflowExecution", "details": "drawn"},
            {"type": "ContinueAsNewWorkflowExecution", "input": "again"},
        ]
        return [self.random.choice(kinds)] if self.random.randrange(6) == 0 else []

    def completion(self) -> Line:
        line = self.with_token(self.tasks, "complete_workflow_task")
        run = run_of_token(line["token"], SERVICE)
        return {**line, "commands": [self.command(run) for _ in range(self.random.randrange(1, 5))] + self.closing()}

    def turn(self) -> Line:
        kind, stop = self.random.randrange(5), self.random.choice([{}, {}, {}, {}, {"stop": 1}, {"stop": 2}])
        if kind == 0:
            return {"op": "timer_turn", "shard": self.shard()}
        if kind < 3:
            return {"op": "transfer_turn", "from": self.shard(), "to": self.shard(), **stop}
        return {"op": "dispatch_turn", "shard": self.shard(), **stop}

    def round(self) -> Line:
        """The first of some turns on all shards, the others of which come next, and of polls after dispatches."""
        shards, kind = range(SHARDS), self.random.randrange(8)
        if kind == 0:
            lines = [{"op": "timer_turn", "shard": shard} for shard in shards]
        elif kind < 4:
            lines = [{"op": "transfer_turn", "from": one, "to": other} for one in shards for other in shards]
        else:
            lines = [{"op": "dispatch_turn", "shard": shard} for shard in shards for _ in range(2)]
            polls = ("poll_workflow_task", "poll_activity_task", "poll_activity_task")
            lines += [{"op": op, "task_queue": queue} for op in polls for queue in QUEUES]
        self.rest.extend(lines)
        return self.rest.popleft()

    def report(self) -> Line:
        """What a worker says about an attempt that it took, or took before."""
        beat = {"op": "heartbeat", "token": self.random.choice(self.activities), "details": f"d{self.at}"}
        kind = self.random.randrange(9)
        if kind < 5:
            return beat
        if kind == 5:
            return self.with_token(self.activities, "complete_activity", result="done")
        if kind == 6:
            return self.with_token(self.activities, "cancel_activity", details="c")
        kinds: list[Line] = [{}, {}, {}, {"error_type": "bad"}, {"non_retryable": True}]
        return self.with_token(self.activities, "fail_activity", message="m", **self.random.choice(kinds))

    def line(self) -> Line:
        self.at += self.random.randrange(20)
        if self.random.randrange(LEAP) == 0:
            self.at += self.random.choice([400, 2_000])
            self.rest.extend({"op": "timer_turn", "shard": shard} for shard in range(SHARDS) for _ in range(2))
        line = self.rest.popleft() if self.rest else self.drawn_line()
        return {**line, "at": self.at, "lane": self.random.randrange(self.lanes)}

    def drawn_line(self) -> Line:
        draws: list[tuple[int, Callable[[], Line]]] = [
            (9, self.start),
            (8, lambda: {"op": "signal", "workflow_id": self.name(), "name": "hello", **self.asked_once()}),
            (4, lambda: {**self.start(), "op": "signal_with_start", "name": "both"}),
            (3, lambda: {"op": "request_cancel", "workflow_id": self.name(), **self.asked_once()}),
            (1, lambda: {"op": "terminate", "workflow_id": self.name(), "reason": "drawn"}),
            (4, lambda: {"op": "poll_workflow_task", "task_queue": self.queue()}),
            (4, lambda: {"op": "poll_activity_task", "task_queue": self.queue()}),
            (40 if self.tasks else 0, self.completion),
            (2 if self.tasks else 0, lambda: self.with_token(self.tasks, "fail_workflow_task", message="drawn")),
            (40 if self.activities else 0, self.report),
            (1, lambda: {"op": "describe", "workflow_id": self.name()}),
            (5, lambda: {"op": "history", "workflow_id": self.name()}),
            (12, self.turn),
            (6, self.round),
        ]
        (draw,) = self.random.choices([draw for _, draw in draws], [weight for weight, _ in draws])
        line = draw()
        if line["op"] == "signal_with_start":
            line.pop("conflict", None)
        return line

    def learn(self, reply: Line) -> None:
        """Keeps a task's token, and which activities a run has, by these and by its history."""
        super().learn(reply)
        token = token_of(reply["token"]) if "activity_id" in reply else None
        if token is not None:
            self.scheduled.setdefault(reply["run"], []).append(token.event)
        elif reply.get("ok") == "history":
            scheduled = [event["id"] for event in reply["events"] if event["type"] == "ActivityTaskScheduled"]
            self.scheduled[reply["run"]] = scheduled


def lines_of(text: bytes) -> list[bytes]:
    """The lines of a text, each with its line feed."""
    return text.splitlines(keepends=True)


def without_lines(text: bytes) -> Iterator[tuple[str, bytes]]:
    """The text without each of its lines, and with each twice, by a name that says so. None is a snapshot."""
    lines = lines_of(text)
    for place, line in enumerate(lines):
        yield f"no line {place + 1}", b"".join(lines[:place] + lines[place + 1:])
        yield f"line {place + 1} twice", b"".join(lines[:place] + [line, *lines[place:]])


def swapped(text: bytes) -> Iterator[tuple[str, bytes]]:
    """The text with each two lines next to each other swapped, where they differ."""
    lines = lines_of(text)
    for place, (one, other) in enumerate(zip(lines, lines[1:])):
        if one != other:
            rest = [*lines[:place], other, one, *lines[place + 2:]]
            yield f"lines {place + 1} and {place + 2} swapped", b"".join(rest)


def cut(text: bytes, draws: random.Random, count: int) -> Iterator[tuple[str, bytes]]:
    """The text up to the end of each line but the last, and up to drawn bytes."""
    ends = [at + 1 for at, byte in enumerate(text[:-1]) if byte == FEED[0]]
    for end in sorted({0, len(text) - 1, *ends, *(draws.randrange(len(text)) for _ in range(count))}):
        yield f"the first {end} bytes", text[:end]


def longer(text: bytes) -> Iterator[tuple[str, bytes]]:
    """The text with something after its end."""
    last = lines_of(text)[-1]
    for more in (FEED, b" ", b"\0", b"{}", b"{}\n", last, last[:-1]):
        yield f"{more!r} after the end", text + more


def changed(text: bytes, draws: random.Random, count: int) -> Iterator[tuple[str, bytes]]:
    """The text with one drawn byte another, or one more, or one less."""
    for _ in range(count):
        place, byte = draws.randrange(len(text)), bytes([draws.choice(b'\0\n "{}0179:,aetz\x7f\x80\xff')])
        kinds = [text[:place] + byte + text[place + 1:], text[:place] + byte + text[place:],
                 text[:place] + text[place + 1:]]
        kind = draws.randrange(len(kinds))
        if kinds[kind] != text:
            what = ("another", "one more", "none")[kind]
            yield f"{what} at byte {place}, by {byte!r}", kinds[kind]
