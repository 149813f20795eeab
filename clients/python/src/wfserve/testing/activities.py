"""An activity alone: called as a worker calls it, with an attempt to ask, and without a service."""

from __future__ import annotations

import inspect
from typing import Any, Callable, List

from wfserve.calls import Calls, Task
from wfserve.types import Reply
from wfserve.workflows.converter import JSON, Converter
from wfserve.workflows.coroutines import Coroutines
from wfserve.workflows.current_attempt import Attempt, called
from wfserve.workflows.definitions import type_of


class ActivityEnvironment(Calls):
    """What an activity has around it: `heartbeats` are the details that it told.

    Set `cancel_requested`, and its next heartbeat raises Cancelled.
    """

    def __init__(self, attempt: int = 1, details: Any = None, converter: Converter = JSON):
        self.heartbeats: List[Any] = []
        self.cancel_requested = False
        self._attempt = attempt
        self._details = details
        self._converter = converter

    # What `attempt().info` has beside: the attributes of the event that scheduled the activity.
    SCHEDULED = {"task_queue": "main", "start_to_close": 0, "schedule_to_close": 0, "schedule_to_start": 0, "heartbeat": 0}

    def call(self, op: str, **fields: Any) -> Reply:
        """Stands in for the service, which an activity asks for nothing but a heartbeat."""
        self.heartbeats.append(self._converter.value_of(fields.get("details") or ""))
        return {"line": 1, "ok": "heartbeat", "cancel_requested": self.cancel_requested}

    def run(self, activity: Callable[..., Any], *arguments: Any) -> Any:
        """The activity's value: arguments and result go through the converter, as they would through a history."""
        task = Task({
            "token": "", "run": "00000000-0001-8000-8000-000000000001", "workflow_id": "test", "attempt": self._attempt,
            "activity_id": "1", "activity_type": type_of(activity), "input": self._converter.input_of(arguments),
            "details": self._converter.text_of(self._details),
        })
        attempt = Attempt(self, task, self._converter, scheduled=lambda: {"at": 0, "attrs": self.SCHEDULED})
        made = called(activity, attempt, self._converter.arguments_of(task.input, activity))
        if not inspect.isawaitable(made):
            return made
        coroutines = Coroutines()
        try:
            return coroutines.result(made, attempt)
        finally:
            coroutines.close()
