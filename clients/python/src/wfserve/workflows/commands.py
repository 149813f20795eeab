"""Commands, and the events that they write: what of a command has to be as the history has it."""

from __future__ import annotations

import json
from dataclasses import dataclass
from typing import Any, Callable, Dict, List, Optional, Sequence

from wfserve.types import Event, Json

from .errors import NonDeterminism


# For each type of a command its event's type, and the members that say what was asked. How it is
# to be done (a queue, timeouts, a retry policy) may change from one version of the code to the next.
KINDS = {
    "ScheduleActivityTask": ("ActivityTaskScheduled", ("activity_id", "activity_type", "input")),
    "RequestCancelActivityTask": ("ActivityTaskCancelRequested", ("scheduled",)),
    "StartTimer": ("TimerStarted", ("timer_id", "duration")),
    "CancelTimer": ("TimerCanceled", ("timer_id",)),
    "RecordMarker": ("MarkerRecorded", ("name", "details")),
    "StartChildWorkflowExecution": (
        "StartChildWorkflowExecutionInitiated", ("workflow_id", "workflow_type", "input"),
    ),
    "SignalExternalWorkflowExecution": (
        "SignalExternalWorkflowExecutionInitiated", ("workflow_id", "run", "name", "input"),
    ),
    "RequestCancelExternalWorkflowExecution": (
        "RequestCancelExternalWorkflowExecutionInitiated", ("workflow_id", "run"),
    ),
    "CompleteWorkflowExecution": ("WorkflowExecutionCompleted", ("result",)),
    "FailWorkflowExecution": ("WorkflowExecutionFailed", ("message",)),
    "CancelWorkflowExecution": ("WorkflowExecutionCanceled", ("details",)),
    "ContinueAsNewWorkflowExecution": ("WorkflowExecutionContinuedAsNew", ()),
}
EVENTS = {event: members for event, members in KINDS.values()}
# Members that codecs may have made other texts of.
ENCODED = ("input", "result", "details")
Plain = Callable[[str], str]


def as_it_is(text: str) -> str:
    """A text that no codec has touched."""
    return text


@dataclass(eq=False)
class Command:
    """A command as a workflow asks for it. Two of them with the same members are two commands."""

    type: str
    members: Dict[str, Any]
    # Who learns which event the command wrote: an operation of the code, where there is one.
    operation: Optional[Any] = None

    def line(self) -> Json:
        """The command as a completion has it."""
        return {"type": self.type, **self.members}

    @property
    def event_type(self) -> str:
        return KINDS[self.type][0]

    def said(self) -> Dict[str, Any]:
        """What of it has to be as in its event."""
        return said_of(self.members, KINDS[self.type][1])


def said_of(members: Json, names: Sequence[str]) -> Json:
    """Members that are absent are as empty texts."""
    return {name: members.get(name, "") for name in names}


def meaning_of(said: Json, plain: Plain) -> Json:
    """What is said, without what codecs made of its values."""
    return {name: plain(value) if name in ENCODED else value for name, value in said.items()}


def is_recorded_command(event: Event) -> bool:
    """Whether an event was written by a command."""
    return event["type"] in EVENTS


def described(event_type: str, said: Dict[str, Any]) -> str:
    about = ", ".join(f"{name} {json.dumps(value, ensure_ascii=False)}" for name, value in said.items() if value != "")
    return f"{event_type} ({about})" if about else event_type


def asked(command: Optional[Command]) -> str:
    return "nothing more" if command is None else described(command.event_type, command.said())


def has(event: Optional[Event]) -> str:
    if event is None:
        return "no command behind it"
    return described(event["type"], said_of(event["attrs"], EVENTS[event["type"]]))


def agrees(command: Optional[Command], event: Optional[Event], plain: Plain = as_it_is) -> bool:
    if command is None or event is None:
        return False
    if command.event_type != event["type"]:
        return False
    asked_for, has_said = command.said(), said_of(event["attrs"], EVENTS[event["type"]])
    return asked_for == has_said or meaning_of(asked_for, plain) == meaning_of(has_said, plain)


def match(commands: List[Command], recorded: List[Event], completed: int, plain: Plain = as_it_is) -> None:
    """Holds what the code asked for to what the history has behind a completed workflow task."""
    for i in range(max(len(commands), len(recorded))):
        command = commands[i] if i < len(commands) else None
        event = recorded[i] if i < len(recorded) else None
        if command is None or event is None or not agrees(command, event, plain):
            at = event["id"] if event else recorded[-1]["id"] if recorded else completed
            raise NonDeterminism(at, has(event), asked(command))
        if command.operation is not None:
            command.operation.opened(event["id"])
