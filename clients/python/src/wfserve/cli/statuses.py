"""What an exit status of `wf` says, and which one a fault ends it with."""

from __future__ import annotations

import enum

from wfserve.errors import NotCompleted, Refused, StillRunning, Unavailable
from wfserve.workflows.handlers import NoSuchQuery


class Status(enum.IntEnum):
    """The exit statuses."""

    DONE = 0
    # The workflow that was waited for did not complete, or code disagrees with a history.
    FAILED = 1
    # What was asked is no command, or a file or an argument is wrong.
    USAGE = 2
    # There is no such workflow, run, task queue or query.
    NOT_FOUND = 3
    # The service refused it: as a start of a workflow that is open.
    REFUSED = 4
    # The service is not there, or takes no calls now.
    AWAY = 5
    # The workflow had not ended by the time that --timeout gave it.
    RUNNING = 6


MEANINGS = (
    (Status.DONE, "done"),
    (Status.FAILED, "the workflow that was waited for did not complete, or code disagrees with a history"),
    (Status.USAGE, "the words are no command, or a file or an argument is wrong"),
    (Status.NOT_FOUND, "there is no such workflow, run, task queue or query"),
    (Status.REFUSED, "the service refused it, as a start of a workflow that is open"),
    (Status.AWAY, "the service is not there, or takes no calls now"),
    (Status.RUNNING, "the workflow is still running after --timeout"),
)
NOT_THERE = ("NotFound", "UnknownTaskQueue")


def status_of(fault: Exception) -> Status:
    """The status that a fault ends the command with."""
    if isinstance(fault, NotCompleted):
        return Status.FAILED
    if isinstance(fault, StillRunning):
        return Status.RUNNING
    if isinstance(fault, NoSuchQuery):
        return Status.NOT_FOUND
    if isinstance(fault, Refused):
        return Status.NOT_FOUND if fault.name in NOT_THERE else Status.REFUSED
    if isinstance(fault, Unavailable):
        return Status.NOT_FOUND if getattr(fault, "status", 0) == 404 else Status.AWAY
    return Status.USAGE


def text_of_statuses() -> str:
    """The statuses and what they say, for a help text."""
    return "Exit statuses:\n" + "\n".join(f"  {int(status)}  {meaning}" for status, meaning in MEANINGS)
