"""What an attempt knows of its activity: a record, as its task and the history tell it."""

from __future__ import annotations

from dataclasses import dataclass
from typing import Any

from wfserve.calls import Calls, Task
from wfserve.errors import WfserveError
from wfserve.ids import token_of
from wfserve.types import Json

from .values import Retry


@dataclass(frozen=True)
class ActivityInfo:
    """An attempt of an activity. Moments are milliseconds since 1970, and timeouts milliseconds; 0 is none.

    `heartbeat_details` are those that an earlier attempt told last. The timeouts are as the workflow gave them:
    `schedule_to_close` counts from `scheduled` on, `start_to_close` and `heartbeat` for each attempt.
    """

    workflow_id: str
    run: str
    activity_id: str
    activity_type: str
    task_queue: str
    attempt: int
    heartbeat_details: Any
    scheduled: int
    schedule_to_start: int
    start_to_close: int
    schedule_to_close: int
    heartbeat: int
    retry: Retry


def scheduled_event(service: Calls, task: Task) -> Json:
    """The event that scheduled the activity, which the history has."""
    token = token_of(task.token)
    if token is None:
        raise WfserveError(f"the token of {task.activity_id} names no event")
    event: Json = service.history_from(task.workflow_id, task.run, token.event)[0]
    return event


def info_of(task: Task, event: Json, details: Any) -> ActivityInfo:
    """The record of an attempt."""
    attrs = event["attrs"]
    return ActivityInfo(
        task.workflow_id, task.run, task.activity_id, task.activity_type, attrs["task_queue"], task.attempt, details,
        event["at"], attrs.get("schedule_to_start", 0), attrs.get("start_to_close", 0),
        attrs.get("schedule_to_close", 0), attrs.get("heartbeat", 0), retry_of(attrs.get("retry", {})),
    )


def retry_of(members: Json) -> Retry:
    """A retry policy as an event has it."""
    default = Retry()
    return Retry(
        members.get("initial", default.initial), members.get("coefficient", 200) / 100,
        members.get("maximum", default.maximum), members.get("attempts", default.attempts),
        tuple(members.get("non_retryable", ())),
    )
