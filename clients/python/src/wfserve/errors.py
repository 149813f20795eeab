"""What goes wrong between a caller, a service and its log. `WfserveError` is the base of all errors of the package."""

from __future__ import annotations

from typing import Optional

from wfserve.types import Reply, Request


class WfserveError(Exception):
    """The base of all errors of this package."""


# What a call meets.


class Refused(WfserveError):
    """The service refused a call. Nothing of it took effect.

    `name` is the refusal, as NotFound or InvalidArgument; docs/PROFILE.md lists them by operation.
    """

    def __init__(self, request: Request, reply: Reply):
        self.request = request
        self.reply = reply
        self.line: int = reply["line"]
        self.name: str = reply["error"]
        # Which field an InvalidArgument is about, and which run an AlreadyStarted.
        self.field: Optional[str] = reply.get("field")
        self.run: Optional[str] = reply.get("run")
        about = f" ({self.field})" if self.field else ""
        super().__init__(f"line {self.line}: {request['op']}: {self.name}{about}")


class Ended(WfserveError):
    """The program ended while a reply was awaited, or said what is no reply to the line."""


class Unavailable(WfserveError):
    """The call was not served now. One with a request id can be made again."""

    @property
    def passes(self) -> bool:
        """Whether the same call may be served later."""
        return True


class CallLost(Unavailable):
    """The connection was lost. The call may have taken effect."""


class NotTrusted(Unavailable):
    """No connection by TLS: one end doesn't trust the other's certificate. The call was not made."""

    @property
    def passes(self) -> bool:
        """A certificate is the same when it is looked at again."""
        return False


class NotServed(Unavailable):
    """The server answered no reply. Where it was busy (503), nothing took effect."""

    # The caller makes more calls than it may; the server failed, or something in front of it; is busy; has no room.
    AWAY = (429, 500, 502, 503, 504, 507)

    def __init__(self, status: int, said: str):
        super().__init__(f"status {status}: {said}")
        self.status = status

    @property
    def passes(self) -> bool:
        """Whether the same call may be served later."""
        return self.status in self.AWAY


# What who waits for a workflow meets.


class NotCompleted(WfserveError):
    """A workflow ended otherwise than by a value: `status` is Failed, Canceled, Terminated or TimedOut."""

    def __init__(self, workflow_id: str, status: str, message: str):
        super().__init__(f"{workflow_id}: {status}: {message}" if message else f"{workflow_id}: {status}")
        self.workflow_id = workflow_id
        self.status = status
        self.message = message


class StillRunning(WfserveError):
    """A workflow had not ended by the time for which its result was waited for."""


# What a log meets.


class LogFault(WfserveError):
    """What a log of lines refuses."""


class LogDamaged(LogFault):
    """The log is not as it was written. It was left as it is."""


class JournalDamaged(LogDamaged):
    """A journal is nothing that was written or that a crash left. `at` is how many bytes before it are whole batches."""

    def __init__(self, path: str, at: int):
        super().__init__(f"{path}: damaged at byte {at}")
        self.at = at


class CheckpointDamaged(LogDamaged):
    """A journal's checkpoint or one of its snapshots is not as it was written, or the journal doesn't go on from it."""


class JournalCompacted(LogFault):
    """What was asked of a journal is in snapshots by now, and not in the journal any more."""


class OtherJournal(LogFault):
    """A file is no journal of this version, or a line in it is no step."""


class NoJournal(LogFault):
    """A file is named where the folder of a journal is wanted. It may be a log, of which `wf move-log` makes a journal."""


class LogInUse(LogFault):
    """Another program has the log open."""


class LogFull(LogFault):
    """There is no room for the lines. None of them was kept, and none took effect."""


class LogBroken(LogFault):
    """What lies on the disk is not known. Nothing more is written; the log has to be opened again."""


class OtherSettings(LogFault):
    """The log is of a service with other settings."""


class RefusedSettings(LogFault):
    """The program serves no service with these settings, so no log is begun with them."""


class NotCompacted(LogFault):
    """The log or the journal could not be compacted. It is as it was."""


class NotMoved(LogFault):
    """A log could not be made a journal, or a journal a log. It is as it was."""


class CompactionRuns(NotCompacted):
    """Another process compacts the journal now."""


class NotOpened(LogFault):
    """The program refuses the records or snapshots that the log goes on from."""
