"""What a workflow asks for and waits for: activities, timers, children, and words to other workflows."""

from __future__ import annotations

import enum
from typing import TYPE_CHECKING, Any, Optional

from wfserve.types import Event, Json

from .commands import Command
from .errors import ActivityFailed, ActivityTimedOut, Cancelled, ChildFailed, NoSuchWorkflow
from .loop import Future


if TYPE_CHECKING:
    from .replay import Replay


class Cancellation(enum.Enum):
    """What becomes of an activity or a child whose workflow gives it up, or is cancelled itself."""

    # It is asked to cancel, and the code gets Cancelled at once.
    TRY_CANCEL = "TryCancel"
    # It is asked to cancel, and the code waits for its end, whatever that is. The run doesn't close before.
    WAIT_CANCELLATION_COMPLETED = "WaitCancellationCompleted"
    # It isn't asked, and the code gets Cancelled at once.
    ABANDON = "Abandon"


class Operation(Future):
    """A command, and what comes of it. It can be awaited, and cancelled."""

    # The key by which later events name the event that the command wrote.
    key = ""

    def __init__(self, replay: "Replay", command: Command, cancellation: Cancellation = Cancellation.TRY_CANCEL):
        super().__init__(replay.loop)
        self.replay = replay
        self.command = command
        command.operation = self
        self.event: Optional[int] = None
        self.cancellation = cancellation
        self._cancelling = False
        self._asked_to_cancel: Optional[Command] = None
        # What its value is made into.
        self.hint: Any = Any
        replay.ask(command)

    def opened(self, event: int) -> None:
        """The command wrote this event."""
        self.event = event
        self.replay.operations[self.key, event] = self

    def cancel_command(self) -> Optional[Command]:
        """What asks the service to give it up."""
        return None

    def cancel(self) -> None:
        """Gives it up, as its `cancellation` says. Who waits for it gets Cancelled; what has ended stays as it ended."""
        if self.done or self._cancelling:
            return
        if self.event is None:
            self.replay.take_back(self.command)
            self.set_fault(Cancelled())
            return
        end = self.replay.end_in_this_turn(self)
        if end is not None:
            self.ended(end)
            return
        self._cancelling = True
        if self.cancellation is not Cancellation.ABANDON:
            self._ask_to_cancel()
        if self.cancellation is Cancellation.WAIT_CANCELLATION_COMPLETED:
            self.replay.ending.add(self)
        else:
            self.set_fault(Cancelled())

    def _ask_to_cancel(self) -> None:
        self._asked_to_cancel = self.cancel_command()
        if self._asked_to_cancel is not None:
            self.replay.ask(self._asked_to_cancel)

    def ended(self, event: Event) -> None:
        """An event ended it. A cancellation that the service did not hear of yet is taken back."""
        if self._asked_to_cancel is not None:
            self.replay.take_back(self._asked_to_cancel)
        self.replay.ending.discard(self)
        self.settle(event["type"], event["attrs"])

    def set_cancelled(self, fault: Exception) -> None:
        """A fault that its cancellation led to: Cancelled, from that fault."""
        cancelled = Cancelled(str(fault))
        cancelled.__cause__ = fault
        self.set_fault(cancelled)

    def take_result(self, text: str) -> None:
        """Its value by the text of a result, as the hint says; where it can't be made, that is its fault."""
        try:
            # What a codec does, as reading a blob, is no decision of the code, which may be at its step now.
            self.set_value(self.replay.loop.guard.lifted(lambda: self.replay.converter.value_of(text, self.hint)))
        except (TypeError, ValueError) as fault:
            self.set_fault(fault)

    def settle(self, event_type: str, attrs: Json) -> None:
        """Its value or fault by the event that ended it."""
        raise NotImplementedError


class Timer(Operation):
    """Is done once its time is over; its value is None."""

    key = "started"

    def cancel_command(self) -> Command:
        return Command("CancelTimer", {"timer_id": self.command.members["timer_id"]})

    def settle(self, event_type: str, attrs: Json) -> None:
        if event_type == "TimerFired":
            self.set_value(None)


class Activity(Operation):
    """Is done once an attempt has ended it: its value, ActivityFailed, ActivityTimedOut or Cancelled."""

    key = "scheduled"

    def cancel_command(self) -> Command:
        return Command("RequestCancelActivityTask", {"scheduled": self.event})

    def settle(self, event_type: str, attrs: Json) -> None:
        if event_type == "ActivityTaskCompleted":
            self.take_result(attrs["result"])
        elif event_type == "ActivityTaskFailed":
            self._fail(ActivityFailed(attrs["message"], attrs.get("error_type"), attrs["retry"]))
        elif event_type == "ActivityTaskTimedOut":
            self._fail(ActivityTimedOut(attrs["timeout"], attrs["retry"]))
        elif event_type == "ActivityTaskCanceled":
            self.set_fault(Cancelled(attrs.get("details", "")))

    def _fail(self, fault: ActivityFailed) -> None:
        """An attempt that failed, and wasn't made again since the activity was cancelled, is cancelled."""
        if self._cancelling and fault.reason == "CancelRequested":
            self.set_cancelled(fault)
        else:
            self.set_fault(fault)


class Child(Operation):
    """A child workflow; `run` is its run once it has started."""

    key = "initiated"
    HOW = {
        "ChildWorkflowExecutionFailed": "failed",
        "ChildWorkflowExecutionCanceled": "canceled",
        "ChildWorkflowExecutionTimedOut": "timed out",
        "ChildWorkflowExecutionTerminated": "terminated",
        "StartChildWorkflowExecutionFailed": "not started",
    }

    def __init__(self, replay: "Replay", command: Command, cancellation: Optional[Cancellation] = None):
        default = Cancellation.TRY_CANCEL if replay.loop.older else Cancellation.WAIT_CANCELLATION_COMPLETED
        super().__init__(replay, command, cancellation or default)
        self.workflow_id = command.members["workflow_id"]
        self.run: Optional[str] = None

    def cancel_command(self) -> Command:
        return Command("RequestCancelExternalWorkflowExecution", {"workflow_id": self.workflow_id})

    def settle(self, event_type: str, attrs: Json) -> None:
        if event_type == "ChildWorkflowExecutionCompleted":
            self.take_result(attrs["result"])
            return
        how = self.HOW[event_type]
        said = attrs.get("message") or attrs.get("details") or attrs.get("cause") or how
        fault = ChildFailed(f"the child {self.workflow_id}: {said}", how)
        if self._cancelling and how == "canceled":
            self.set_cancelled(fault)
        else:
            self.set_fault(fault)


class Word(Operation):
    """A signal or a request to cancel to another workflow. Once it is sent it can't be taken back."""

    key = "initiated"

    def cancel(self) -> None:
        """Nobody waits for it any longer. What was sent is not taken back."""
        if self.loop.older:
            self.set_fault(Cancelled())
        else:
            super().cancel()

    def settle(self, event_type: str, attrs: Json) -> None:
        if event_type.endswith("Failed"):
            self.set_fault(NoSuchWorkflow(f"{self.command.members['workflow_id']} is not open"))
        else:
            self.set_value(None)
