"""A history as the code of its workflow learned of it: one turn for each completed workflow task."""

from __future__ import annotations

from dataclasses import dataclass, field
from typing import Iterator, List, Optional

from wfserve.errors import WfserveError
from wfserve.events import NOTHING_WRONG
from wfserve.types import Event, Json

from .commands import is_recorded_command


@dataclass
class Turn:
    """What the code learns before it goes on, at which moment, and what its commands wrote then.

    `completed` is the event of the completed task. Of the task in hand there is none, and nothing
    that was written.
    """

    news: List[Event]
    moment: int
    completed: Optional[int] = None
    # How many events the history had when a worker took the task.
    length: int = 0
    recorded: List[Event] = field(default_factory=list)
    # Whether the code has gone on with it already, while it was in hand.
    has_run: bool = False


class Outdated(WfserveError):
    """A task that was in hand was not completed: what was learned with it doesn't count."""


class Turns:
    """The turns of a history that grows. A task that failed or whose time was over is none: what it asked for had no
    effect, and what it knew is known to the next one."""

    def __init__(self) -> None:
        self._news: List[Event] = []
        self._started: Optional[Event] = None
        # The last one that was completed, whose commands' events follow; and one that was in hand at the last event.
        self._turn: Optional[Turn] = None
        self._in_hand: Optional[Turn] = None

    def of(self, events: List[Event]) -> Iterator[Turn]:
        """The turns that these further events bring. One that was in hand before comes once more, completed."""
        for event in events:
            if event["type"] == "WorkflowTaskCompleted":
                if self._turn is not None:
                    yield self._turn
                self._complete(event)
            else:
                self._note(event)
        if self._turn is not None:
            completed, self._turn = self._turn, None
            yield completed
        if self._started is not None and self._in_hand is None:
            self._in_hand = Turn(self._news, moment_of(self._started), length=length_at(self._started))
            self._news = []
            yield self._in_hand

    def _complete(self, event: Event) -> None:
        if self._in_hand is not None:
            self._turn, self._in_hand = self._in_hand, None
            self._turn.completed, self._turn.has_run = event["id"], True
        else:
            length = length_at(self._started)
            self._turn, self._news = Turn(self._news, moment_of(self._started), event["id"], length), []
        self._started = None

    def _note(self, event: Event) -> None:
        kind = event["type"]
        if kind == "WorkflowTaskStarted":
            self._started = event
        elif kind in ("WorkflowTaskFailed", "WorkflowTaskTimedOut"):
            if self._in_hand is not None:
                raise Outdated(f"the task of event {event['id']} was not completed")
            self._started = None
        elif is_recorded_command(event):
            recorded_by(self._turn, event)
        elif kind != "WorkflowTaskScheduled":
            self._news.append(event)


def turns(events: List[Event]) -> Iterator[Turn]:
    """The turns of a whole history."""
    return Turns().of(events)


def moment_of(started: Optional[Event]) -> int:
    """The moment at which a worker took the task that completed now."""
    if started is None:
        raise ValueError("this is no history: a task completed that was not started")
    return int(started["at"])


def length_at(started: Optional[Event]) -> int:
    """How many events there were when a task was taken: its event's id counts them."""
    return 0 if started is None else int(started["id"])


def up_to_now(events: List[Event]) -> List[Event]:
    """The history as a worker would be given it now: where no task is in hand, as if one had just been taken."""
    last = events[-1]
    if last["type"] == "WorkflowTaskStarted":
        return events
    return [*events, {"id": last["id"] + 1, "at": last["at"], "type": "WorkflowTaskStarted", "attrs": {}}]


def recorded_by(turn: Optional[Turn], event: Event) -> None:
    """Notes what a command of the completed task wrote."""
    if turn is None:
        raise ValueError(f"this is no history: event {event['id']} follows no completed task")
    turn.recorded.append(event)


def faults_of(events: List[Event]) -> List[Event]:
    """The tasks that failed by a fault of the code since the last one that was completed."""
    found: List[Json] = []
    for event in reversed(events):
        if event["type"] == "WorkflowTaskCompleted":
            break
        if event["type"] == "WorkflowTaskFailed" and event["attrs"]["cause"] != NOTHING_WRONG:
            found.insert(0, event)
    return found


def same_history(events: List[Event]) -> List[Event]:
    """Events to compare by: a retry policy's growth is left out, which has two forms."""
    return [{**event, "attrs": comparable(event["attrs"])} for event in events]


def comparable(attrs: Json) -> Json:
    retry = attrs.get("retry")
    if not isinstance(retry, dict):
        return attrs
    return {**attrs, "retry": {k: v for k, v in retry.items() if k not in ("factor", "coefficient")}}
