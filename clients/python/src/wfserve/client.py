"""Starts workflows and asks about them: a client, and a handle for each workflow.

    from wfserve.client import Client

    with Client("http://127.0.0.1:7233") as client:
        handle = client.start(order, "order-17", "49.90 EUR", id="order-17")
        handle.signal("shipped")
        print(handle.result())

A workflow is named by its function or by its type. Durations are whole milliseconds, as `seconds(30)` gives them, but
for `timeout`, which is in seconds as elsewhere in Python. Each call raises Refused where the service refuses it, and
Unavailable where it isn't there.
"""

from __future__ import annotations

import math
import time
import uuid
from types import TracebackType
from typing import Any, Callable, List, Optional, Sequence, Type, Union

from wfserve.calls import Calls
from wfserve.descriptions import Description, described
from wfserve.errors import NotCompleted, StillRunning
from wfserve.events import STATUS
from wfserve.http import HttpService, pauses
from wfserve.types import Event, Json
from wfserve.workflows.converter import JSON, Converter
from wfserve.workflows.definitions import Named, type_of
from wfserve.workflows.interceptors import ClientCall, Interceptors, chained
from wfserve.workflows.replay import answer_of
from wfserve.workflows.typed import result_hint

# Seconds between two looks at a workflow whose result is waited for.
FIRST_LOOK, LAST_LOOK = 0.02, 0.5
CONTINUED = "ContinuedAsNew"


class Client:
    """A service's workflows, over HTTP or over any other `Calls`.

    `queue` is the task queue that workflows are started in where none is named. `token` is the server's, where it
    wants one. `interceptors` stand around each call, the first one outermost.
    """

    def __init__(
        self, service: Union[str, Calls], queue: str = "main", token: Optional[str] = None,
        converter: Converter = JSON, interceptors: Interceptors = (),
    ):
        self.service = HttpService(service, token) if isinstance(service, str) else service
        self.queue = queue
        # What waits between two looks at a workflow, for so many seconds. Tests let time jump there.
        self.pause: Callable[[float], Any] = time.sleep
        self.converter = converter.with_blobs(self.service)
        self.interceptors = tuple(interceptors)

    def __enter__(self) -> Client:
        return self

    def __exit__(
        self, kind: Optional[Type[BaseException]], fault: Optional[BaseException], trace: Optional[TracebackType],
    ) -> None:
        self.close()

    def close(self) -> None:
        """Closes the connections to a server."""
        if isinstance(self.service, HttpService):
            self.service.close()

    def start(
        self, workflow: Named, *arguments: Any, id: str, queue: Optional[str] = None, request_id: Optional[str] = None,
        **options: Any,
    ) -> WorkflowHandle:
        """Starts a workflow. Refused (AlreadyStarted) where one of this id is open, unless `conflict` says otherwise.

        `options` are those of a start in docs/PROFILE.md: `reuse` (AllowDuplicate, AllowDuplicateFailedOnly,
        RejectDuplicate), `conflict` (Fail, UseExisting, TerminateExisting), and `run_timeout`, `task_timeout` and
        `execution_timeout` in milliseconds. A start with the `request_id` of an earlier one is that one.
        """
        call = ClientCall("start", id, None, type_of(workflow), list(arguments), {
            "queue": queue or self.queue, "request_id": request_id or str(uuid.uuid4()), **options,
        })
        return self.handle(id, self.asked(call, self._start), result_hint(workflow))

    def _start(self, call: ClientCall) -> str:
        """Its run."""
        options = dict(call.options)
        queue = options.pop("queue")
        return self.service.start(
            call.id, call.workflow_type, queue, input=self.converter.input_of(call.arguments), **options,
        )

    def execute(self, workflow: Named, *arguments: Any, id: str, timeout: Optional[float] = None, **options: Any) -> Any:
        """Starts a workflow and waits for its result, as `start` and then `result` do."""
        return self.start(workflow, *arguments, id=id, **options).result(timeout)

    def signal_with_start(
        self, workflow: Named, *arguments: Any, id: str, signal: str, value: Any = None, queue: Optional[str] = None,
        **options: Any,
    ) -> WorkflowHandle:
        """Signals the open workflow of this id, or starts one and signals it."""
        call = ClientCall("signal_with_start", id, None, type_of(workflow), list(arguments), {
            "queue": queue or self.queue, "request_id": str(uuid.uuid4()), "signal": signal, "value": value, **options,
        })
        return self.handle(id, self.asked(call, self._signal_with_start), result_hint(workflow))

    def _signal_with_start(self, call: ClientCall) -> str:
        """Its run."""
        options = dict(call.options)
        queue, signal, value = (options.pop(name) for name in ("queue", "signal", "value"))
        return self.service.signal_with_start(
            call.id, call.workflow_type, signal, queue, input=self.converter.input_of(call.arguments),
            signal_input=self.converter.text_of(value), **options,
        )

    def asked(self, call: ClientCall, make: Callable[[ClientCall], Any]) -> Any:
        """What a call comes to, by way of the interceptors."""
        return chained(self.interceptors, "client", make)(call)

    def handle(self, id: str, run: Optional[str] = None, hint: Any = Any) -> WorkflowHandle:
        """A handle for a workflow that is there: for this run, or for the latest one. It asks nothing.

        `hint` is the type that the result is made into.
        """
        return WorkflowHandle(self, id, run, hint)

    def list(self, search: str = "", status: str = "") -> List[Json]:
        """The runs that a server knows, the latest first, at most 200: those whose id has a text, of a status.

        A TypeError where the client speaks with no server.
        """
        rows: List[Json] = self._server().read("/api/workflows", search=search, status=status)["workflows"]
        return rows

    def queues(self) -> Json:
        """What a server knows of its task queues, in `queues`: what waits, what workers have, who polls.

        A TypeError where the client speaks with no server.
        """
        return self._server().read("/api/queues")

    def _server(self) -> HttpService:
        if not isinstance(self.service, HttpService):
            raise TypeError("only a server has lists of workflows and of task queues")
        return self.service


class WorkflowHandle:
    """One workflow: `id`, and `run` where a run is meant and not the latest one."""

    def __init__(self, client: Client, id: str, run: Optional[str] = None, hint: Any = Any):
        self.id = id
        self.run = run
        self._client = client
        self._service = client.service
        self._converter = client.converter
        # What the result is made into.
        self._hint = hint

    def __repr__(self) -> str:
        return f"WorkflowHandle(id={self.id!r}, run={self.run!r})"

    def result(self, timeout: Optional[float] = None) -> Any:
        """Waits for the workflow's end, over all runs that it goes on in, and gives its value.

        NotCompleted where it ended otherwise; StillRunning after `timeout` seconds, where that is given.
        """
        return self._asked("result", lambda call: self._result(call.run, timeout))

    def _asked(self, name: str, make: Callable[[ClientCall], Any], arguments: Sequence[Any] = (), **options: Any) -> Any:
        """What a call on this workflow comes to, by way of the client's interceptors."""
        call = ClientCall(name, self.id, self.run, "", list(arguments), options)
        return self._client.asked(call, make)

    def _result(self, run: Optional[str], timeout: Optional[float]) -> Any:
        late = None if timeout is None else time.monotonic() + timeout
        while True:
            last = self._end(run, late)
            if STATUS[last["type"]] != CONTINUED:
                return self._value(last)
            run = last["attrs"]["new_run"]

    def _end(self, run: Optional[str], late: Optional[float]) -> Event:
        """The last event of a run that has closed."""
        for pause in pauses(FIRST_LOOK, LAST_LOOK):
            begun = time.monotonic()
            reply = self._service.describe_end(self.id, run, math.inf if late is None else max(late - begun, 0))
            if reply["status"] in STATUS.values():
                return self._service.history(self.id, reply["run"])[-1]
            now = time.monotonic()
            if late is not None and now + pause > late:
                raise StillRunning(f"{self.id} is still running")
            # A server that has waited needs no pause.
            if not isinstance(self._service, HttpService) or now - begun < pause:
                self._client.pause(pause)
        raise AssertionError("pauses have no end")

    def _value(self, last: Event) -> Any:
        status, attrs = STATUS[last["type"]], last["attrs"]
        if status == "Completed":
            return self._converter.value_of(attrs["result"], self._hint)
        said = attrs.get("message") or attrs.get("reason") or self._converter.value_of(attrs.get("details", "")) or ""
        raise NotCompleted(self.id, status, str(said))

    def signal(self, name: str, value: Any = None, request_id: Optional[str] = None) -> None:
        """Signals it. With the `request_id` of an earlier signal it is that one."""
        def make(call: ClientCall) -> None:
            text = self._converter.text_of(call.arguments[0])
            self._service.signal(self.id, call.options["signal"], text, self.run, call.options["request_id"])

        self._asked("signal", make, [value], signal=name, request_id=request_id or str(uuid.uuid4()))

    def cancel(self) -> None:
        """Asks it to cancel: its code gets Cancelled where it waits."""
        self._asked("cancel", lambda call: self._service.request_cancel(self.id, self.run, str(uuid.uuid4())))

    def terminate(self, reason: str = "") -> None:
        """Ends it at once, without its code."""
        def make(call: ClientCall) -> None:
            self._service.terminate(self.id, self.run, call.options["reason"] or None)

        self._asked("terminate", make, reason=reason)

    def history(self) -> List[Event]:
        """Its events."""
        return self._service.history(self.id, self.run)

    def query(self, workflow: Callable[..., Any], name: str, *arguments: Any) -> Any:
        """What its code answers to a query now, as it says by `ctx.on_query`.

        The history is read, and the code replayed here: who asks needs it. No event is written, and no worker has
        to be there. NoSuchQuery where the code answers none of this name.
        """
        def make(call: ClientCall) -> Any:
            reply = self._service.call("history", workflow_id=self.id, run=self.run)
            return answer_of(
                workflow, reply["events"], reply["run"], call.options["query"], call.arguments, self._converter,
                self._client.interceptors,
            )

        return self._asked("query", make, arguments, query=name)

    def describe(self) -> Description:
        """What it is, how it stands, and what is pending: of an activity its attempt and the last failure."""
        found: Description = self._asked("describe", lambda call: described(self._service, self.id, self.run))
        return found
