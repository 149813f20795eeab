"""What goes wrong with a workflow, an activity or the code of one."""

from __future__ import annotations

from typing import Any, Optional, Sequence

from wfserve.errors import WfserveError
from wfserve.types import Json


class Cancelled(BaseException):
    """A workflow or an activity was asked to cancel. Raised where it waits, once.

    No `except Exception` catches it. Where an activity failed once it was asked to cancel, that is its cause."""


class Failure(WfserveError):
    """What a workflow may expect to go wrong. One that it doesn't catch fails the workflow."""


class WorkflowFailed(Failure):
    """A workflow raises it to fail with a message."""


class ActivityFailed(Failure):
    """An activity that isn't tried again. `reason` is its retry state, `error_type` the failure's type."""

    def __init__(self, message: str, error_type: Optional[str] = None, reason: Optional[str] = None):
        super().__init__(message)
        self.error_type = error_type
        self.reason = reason


class ActivityTimedOut(ActivityFailed):
    """An activity's time is over; `timeout` says which one."""

    def __init__(self, timeout: str, reason: Optional[str] = None):
        super().__init__(f"the activity timed out ({timeout})", None, reason)
        self.timeout = timeout


class ChildFailed(Failure):
    """A child that did not complete. `how`: failed, canceled, timed out, terminated or not started."""

    def __init__(self, message: str, how: str):
        super().__init__(message)
        self.how = how


class NoSuchWorkflow(Failure):
    """The workflow that was to be signaled or canceled is not open."""


class NonRetryable(WfserveError):
    """An activity raises it to fail without being tried again."""


class AttemptOver(WfserveError):
    """An activity's attempt was taken from it: it timed out, or its workflow has closed."""


class NotHere(WfserveError):
    """A worker has no code of this type."""


class NonDeterminism(WfserveError):
    """The code asks for something else than the history has."""

    def __init__(self, event: int, has: str, asked: str):
        super().__init__(f"event {event}: the history has {has}, and the code asked for {asked}")
        self.event = event
        self.has = has
        self.asked = asked


class ContinueAsNew(BaseException):
    """Ends a run, and begins the next one of its workflow. `Context.continue_as_new` raises it."""

    def __init__(self, arguments: Sequence[Any], members: Json, with_signals: bool):
        super().__init__("continue as new")
        self.arguments = arguments
        self.members = members
        self.with_signals = with_signals


class ReplayOver(BaseException):
    """The replay in which some code waited has ended: nothing more can be asked there."""


class BadCommand(WfserveError):
    """A workflow's code asks for what the service would refuse."""


class ForbiddenCall(WfserveError):
    """A workflow's code called what isn't the same in its next replay."""


class Blocked(BaseException):
    """A workflow's code took nearly all of its task's time without waiting for anything. Raised in it."""

    def __init__(self) -> None:
        super().__init__("the code blocked its worker for most of its task's time")
