"""What workers know of a shard whose requests are drawn: the tasks that may wait, and those that were taken."""
from __future__ import annotations

from typing import NamedTuple, Optional

import client_package  # noqa: F401
from drawn_lines import Draws
from journal_program import Line
from wfserve.ids import token_of


class Hint(NamedTuple):
    """A task that may wait on a shard."""

    kind: str
    shard: int
    run: int
    event: int
    attempt: int


class Taken(NamedTuple):
    """A task that was taken, as its token names it."""

    shard: int
    run: int
    event: int
    attempt: int


class Tasks(NamedTuple):
    """Tasks that a request may name, drawn once for each request."""

    # A workflow task that was taken.
    task: Taken
    # The event of the activity of its run that may be asked to cancel, or 0.
    asked: int
    # An attempt of an activity that was taken.
    attempt: Taken
    waiting: Hint
    # The number of a dispatch.
    dispatch: int


# What a worker does next, by what was answered. After anything else it looks at a history.
NEXT = {
    "started": "take", "workflow task": "complete", "activity task": "report", "completed": "report",
    "not found": "start",
}


def ordinal_in(run: str) -> int:
    """The number of a run on its shard."""
    return int(run.replace("-", "")[16:], 16) % 2**62


def taken_in(reply: Line) -> Taken:
    """The task that a reply hands out."""
    token = token_of(reply["token"])
    assert token is not None
    return Taken(token.shard, token.run, token.event, token.attempt)


def recent(count: int, draws: Draws) -> Optional[int]:
    """One of the last four places of a list of that length, the last one most often."""
    place = count - 1 - (draws.below(4) if draws.one_in(4) else 0)
    return place if place >= 0 else None


def one_of(taken: list[Taken], draws: Draws) -> Taken:
    """One of the last tasks that were taken, most of which were ended, now and then another one."""
    place = recent(len(taken), draws)
    drawn = taken[place] if place is not None else Taken(0, draws.below(3), 2, 1)
    return drawn._replace(event=drawn.event + draws.below(3)) if draws.one_in(16) else drawn


class Known:
    """The hints and tokens that replies of a shard gave, old ones too, and the number of the last dispatch."""

    def __init__(self, shard: int) -> None:
        self.next, self.shard, self.dispatched = "look", shard, 0
        self.hints: list[Hint] = []
        self.tokens: list[Taken] = []
        self.attempts: list[Taken] = []

    def learn(self, kind: str, reply: Line, hint: Optional[Hint]) -> None:
        """Learns from a reply: a run's first task, the last tasks that a history shows, the attempt that a deadline
        queues, a dispatch, and a token."""
        self.next = "take" if kind.startswith("fired ") else NEXT.get(kind, "look")
        if kind == "started":
            self.hints.append(Hint("workflow", self.shard, ordinal_in(reply["run"]), 2, 1))
        elif kind == "history":
            waiting = [found for found in (self.waiting_task(reply), self.waiting_activity(reply)) if found]
            self.next = "take" if waiting else "wake"
            self.hints += waiting
        elif kind == "workflow task":
            self.tokens.append(taken_in(reply))
        elif kind == "activity task":
            self.attempts.append(taken_in(reply))
        elif kind == "heartbeat" and reply["cancel_requested"]:
            self.next = "cancel"
        elif kind == "fired retry ready":
            run = ordinal_in(reply["run"])
            tried = [taken.attempt for taken in self.attempts if (taken.run, taken.event) == (run, reply["event"])]
            self.hints.append(Hint("activity", self.shard, run, reply["event"], (tried or [0])[-1] + 1))
        elif kind == "dispatch" and hint is not None:
            self.dispatched = reply["number"]
            self.hints.append(hint)

    def waiting_task(self, history: Line) -> Optional[Hint]:
        """The last workflow task that a history shows, where it waits to be taken."""
        found = None
        for event in history["events"]:
            if event["type"] == "WorkflowTaskScheduled":
                run, attempt = ordinal_in(history["run"]), event["attrs"]["attempt"]
                found = Hint("workflow", self.shard, run, event["id"], attempt)
            elif event["type"] == "WorkflowTaskStarted":
                found = None
        return found

    def waiting_activity(self, history: Line) -> Optional[Hint]:
        """The first attempt of the last activity that a history shows, where none was taken."""
        run = ordinal_in(history["run"])
        taken = {one.event for one in self.attempts if one.run == run}
        events = [event["id"] for event in history["events"] if event["type"] == "ActivityTaskScheduled"]
        found = [number for number in events if number not in taken]
        return Hint("activity", self.shard, run, found[-1], 1) if found else None

    def tasks(self, draws: Draws) -> Tasks:
        """The tasks that the next request may name."""
        task = one_of(self.tokens, draws)
        asked = self.scheduled(draws, task.run)
        attempt = one_of(self.attempts, draws)
        waiting = self.hint(draws)
        if waiting.shard != self.shard:
            # No shard has a run of that ordinal.
            waiting = waiting._replace(run=0)
        dispatch = {0: max(self.dispatched - 1, 0), 1: self.dispatched + 1}.get(draws.below(6), self.dispatched)
        return Tasks(task, asked, attempt, waiting, dispatch)

    def hint(self, draws: Draws) -> Hint:
        """One of the last hints, now and then another one, or none that is there."""
        if draws.one_in(8):
            return self.guess(draws)
        place = recent(len(self.hints), draws)
        drawn = self.hints[place] if place is not None else Hint("workflow", 0, draws.below(3), draws.below(4), 1)
        if draws.one_in(8):
            drawn = drawn._replace(attempt=drawn.attempt + 1)
        if draws.one_in(16):
            drawn = drawn._replace(kind="activity" if drawn.kind == "workflow" else "workflow")
        if draws.one_in(16):
            drawn = drawn._replace(shard=drawn.shard ^ 1)
        return drawn

    def guess(self, draws: Draws) -> Hint:
        """The first attempt of an activity that one of the first events of a run may have scheduled."""
        task = one_of(self.tokens, draws)
        return Hint("activity", task.shard, task.run, 5 + draws.below(10), 1)

    def scheduled(self, draws: Draws, run: int) -> int:
        """The event of the activity of this run whose attempt was taken last, or 0; now and then that of another
        task."""
        if draws.one_in(8):
            return self.hint(draws).event
        return ([0] + [taken.event for taken in self.attempts if taken.run == run])[-1]
