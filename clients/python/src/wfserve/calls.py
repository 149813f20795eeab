"""The calls of a service, and one that is spoken with by pipes: a line for each call, and its reply line.

    from wfserve.calls import Service

    with Service(["./serve"]) as service:
        run = service.start("order-17", "Order")
        print(service.history("order-17"))
"""

from __future__ import annotations

import json
import subprocess
import threading
from types import TracebackType
from typing import Any, List, Mapping, Optional, Protocol, Sequence, Type

from wfserve.errors import Ended, Refused
from wfserve.types import Event, Json, Reply, Request


class HasMoment(Protocol):
    """What says at which moment a call is made, in milliseconds."""

    @property
    def now(self) -> int:
        """The moment."""


class Clock:
    """The moments that calls are made at, in milliseconds. They are handed in, so a run can be repeated."""

    def __init__(self, now: int = 0):
        self.now = now

    def advance(self, milliseconds: int) -> None:
        """Goes on by so many."""
        self.now += milliseconds


class Task:
    """A task that a worker polled: a workflow task, or an activity's attempt."""

    def __init__(self, reply: Reply):
        self.token: str = reply["token"]
        self.run: str = reply["run"]
        self.workflow_id: str = reply["workflow_id"]
        self.attempt: int = reply["attempt"]
        # Of a workflow task the event that it was started by, which is the last one of the history; else 0.
        self.started: int = reply.get("started", 0)
        # Those of an activity, empty for a workflow task: what it is, and what its last attempt's heartbeat told.
        self.activity_id: str = reply.get("activity_id", "")
        self.activity_type: str = reply.get("activity_type", "")
        self.input: str = reply.get("input", "")
        self.details: Optional[str] = reply.get("details")


def request_of(op: str, at: int, fields: Mapping[str, Any]) -> Request:
    """What a call asks; fields that are None are left out."""
    request: Request = {"op": op, "at": at}
    request.update((name, value) for name, value in fields.items() if value is not None)
    return request


def text_of(request: Request) -> str:
    """The line of a request."""
    return json.dumps(request, separators=(",", ":"))


def answered(request: Request, reply: Reply) -> Reply:
    """The reply, or Refused where it is a refusal."""
    if "error" in reply:
        raise Refused(request, reply)
    return reply


def from_event(text: str, first: int) -> str:
    """The text of a history's reply without the events before one: they needn't be read to be left out.

    Keys stand in their order, `id` before `type`, and no text has quotes that aren't escaped. So what an event ends
    with stands there once. A text that looks otherwise stays whole.
    """
    before = text.rfind(f'"id":{first - 1},"type":"')
    end = text.find('"},{', before) if before >= 0 else -1
    return '{"events":[' + text[end + 3:] if end >= 0 and text.startswith('{"events":[') else text


class Calls:
    """The calls of a service, each over one line. What speaks with the program has `call`."""

    def call(self, op: str, **fields: Any) -> Reply:
        """The reply to one line; fields that are None are left out. A refusal raises Refused."""
        raise NotImplementedError

    # Workflows.

    def start(self, workflow_id: str, workflow_type: str, task_queue: str = "main", **fields: Any) -> str:
        """Starts a workflow; fields as in docs/PROFILE.md (input, request_id, reuse, run_timeout, ..). Its run."""
        reply = self.call(
            "start", workflow_id=workflow_id, workflow_type=workflow_type, task_queue=task_queue, **fields
        )
        return str(reply["run"])

    def signal(
        self, workflow_id: str, name: str, input: Optional[str] = None, run: Optional[str] = None,
        request_id: Optional[str] = None,
    ) -> bool:
        """Signals a workflow. False where a signal with this request id was there before."""
        reply = self.call(
            "signal", workflow_id=workflow_id, name=name, input=input, run=run, request_id=request_id
        )
        return bool(reply["ok"] == "signaled")

    def signal_with_start(
        self, workflow_id: str, workflow_type: str, name: str, task_queue: str = "main", **fields: Any
    ) -> str:
        """Signals the open run of a workflow ID, or starts one and signals it. Its run."""
        reply = self.call(
            "signal_with_start", workflow_id=workflow_id, workflow_type=workflow_type, task_queue=task_queue,
            name=name, **fields
        )
        return str(reply["run"])

    def request_cancel(
        self, workflow_id: str, run: Optional[str] = None, request_id: Optional[str] = None
    ) -> bool:
        """Asks a workflow to cancel. False where this request id asked it before."""
        reply = self.call("request_cancel", workflow_id=workflow_id, run=run, request_id=request_id)
        return bool(reply["ok"] == "cancel_requested")

    def terminate(self, workflow_id: str, run: Optional[str] = None, reason: Optional[str] = None) -> None:
        """Ends a workflow at once."""
        self.call("terminate", workflow_id=workflow_id, run=run, reason=reason)

    def history(self, workflow_id: str, run: Optional[str] = None) -> List[Event]:
        """The events of a run, the latest where none is named."""
        events: List[Event] = self.call("history", workflow_id=workflow_id, run=run)["events"]
        return events

    def history_from(self, workflow_id: str, run: str, first: int) -> List[Event]:
        """The events of a run from the one of this id on; none where it has fewer."""
        return self.history(workflow_id, run)[first - 1:]

    def describe(self, workflow_id: str, run: Optional[str] = None) -> Reply:
        """A run in numbers, and its status."""
        return self.call("describe", workflow_id=workflow_id, run=run)

    def describe_end(self, workflow_id: str, run: Optional[str], seconds: float) -> Reply:
        """A description, for which a server waits until the run has closed, so many seconds at most.

        Elsewhere it is answered at once."""
        return self.describe(workflow_id, run)

    # Workers.

    def poll_workflow_task(self, task_queue: str = "main") -> Optional[Task]:
        """A workflow task of the queue, or None where none waits or the one that did is over."""
        return self._poll("poll_workflow_task", task_queue)

    def poll_activity_task(self, task_queue: str = "main") -> Optional[Task]:
        """An activity's attempt of the queue, in the same way."""
        return self._poll("poll_activity_task", task_queue)

    def _poll(self, op: str, task_queue: str) -> Optional[Task]:
        while True:
            reply = self.call(op, task_queue=task_queue)
            if reply["ok"] == "task":
                return Task(reply)
            if reply["ok"] == "empty":
                return None

    def complete_workflow_task(self, task: Task, commands: Sequence[Json]) -> Optional[str]:
        """Says what the workflow does next. The cause where a command is at fault, else None."""
        return self.call("complete_workflow_task", token=task.token, commands=commands).get("cause")

    def fail_workflow_task(self, task: Task, message: Optional[str] = None) -> None:
        """Says that a workflow task can't be done. It is tried again."""
        self.call("fail_workflow_task", token=task.token, message=message)

    def complete_activity(self, task: Task, result: Optional[str] = None) -> None:
        """Says what an attempt came to."""
        self.call("complete_activity", token=task.token, result=result)

    def fail_activity(
        self, task: Task, message: Optional[str] = None, error_type: Optional[str] = None,
        non_retryable: Optional[bool] = None,
    ) -> Optional[int]:
        """Fails an attempt. The moment of the next one, or None where there is none."""
        return self.call(
            "fail_activity", token=task.token, message=message, error_type=error_type,
            non_retryable=non_retryable,
        ).get("ready")

    def cancel_activity(self, task: Task, details: Optional[str] = None) -> None:
        """Says that an attempt ended since the workflow asked it to cancel."""
        self.call("cancel_activity", token=task.token, details=details)

    def heartbeat(self, task: Task, details: Optional[str] = None) -> bool:
        """Tells that an attempt goes on. True where the workflow has asked it to cancel."""
        return bool(self.call("heartbeat", token=task.token, details=details)["cancel_requested"])

    # What makes the service go on: tasks are handed to their queues, and deadlines fire.

    def dispatch_turn(self, shard: int = 0) -> bool:
        """Hands the shard's next task to its queue. False where none waits."""
        return bool(self.call("dispatch_turn", shard=shard)["ok"] != "none")

    def transfer_turn(self, source: int = 0, to: int = 0) -> bool:
        """Delivers what the one shard sent the other next. False where nothing waits."""
        return bool(self.call("transfer_turn", **{"from": source, "to": to})["ok"] != "none")

    def timer_turn(self, shard: int = 0) -> Optional[Reply]:
        """Lets the shard's first deadline fire. The reply, or None where none is due."""
        reply = self.call("timer_turn", shard=shard)
        return None if reply["ok"] == "none" else reply


def dispatched(service: Calls, shard: int) -> bool:
    """Hands the shard's next task to its queue. False where none waits, or its queue is full now."""
    try:
        return service.dispatch_turn(shard)
    except Refused as refused:
        # There is room again once tasks were polled.
        if refused.name == "QueueFull":
            return False
        raise


class Service(Calls):
    """A running wfserve. Each method writes one line and reads its reply; a refusal raises Refused."""

    def __init__(self, command: Sequence[str], clock: Optional[HasMoment] = None):
        self.clock: HasMoment = clock or Clock()
        self._line = 0
        # Threads speak one after another.
        self._turn = threading.Lock()
        self._program = subprocess.Popen(
            list(command), stdin=subprocess.PIPE, stdout=subprocess.PIPE, text=True, encoding="utf-8"
        )
        assert self._program.stdin is not None and self._program.stdout is not None
        self._input, self._output = self._program.stdin, self._program.stdout

    def __enter__(self) -> "Service":
        return self

    def __exit__(
        self, kind: Optional[Type[BaseException]], fault: Optional[BaseException], trace: Optional[TracebackType],
    ) -> None:
        self.close()

    def close(self) -> int:
        """Ends the input and waits for the program. Its status: 0, or 1 where a reply was a refusal."""
        if not self._input.closed:
            self._input.close()
        status = self._program.wait()
        self._output.close()
        return status

    def call(self, op: str, **fields: Any) -> Reply:
        """The reply to one line; fields that are None are left out."""
        with self._turn:
            request = request_of(op, self.clock.now, fields)
            self._line += 1
            reply = self._exchange(text_of(request))
            if reply.get("line") != self._line:
                raise Ended(f"line {self._line}: the reply is to another line: {reply}")
        return answered(request, reply)

    def _exchange(self, line: str) -> Reply:
        try:
            self._input.write(line + "\n")
            self._input.flush()
            text = self._output.readline()
        except BrokenPipeError:
            text = ""
        if not text.endswith("\n"):
            raise Ended(f"line {self._line}: the program ended with status {self._program.wait()}")
        reply: Reply = json.loads(text)
        return reply
