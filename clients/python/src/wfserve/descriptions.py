"""How a workflow stands: what it is, how long its history is, and what is pending and why."""

from __future__ import annotations

from dataclasses import dataclass, field, fields
from typing import Any, List, Optional, Type, TypeVar

from wfserve import events as meaning
from wfserve.calls import Calls
from wfserve.errors import NotServed
from wfserve.http import HttpService
from wfserve.types import Event, Json

Record = TypeVar("Record")
# So many milliseconds after its last poll a queue counts as one that nobody polls, as on the page.
ALONE = 60_000


@dataclass(frozen=True)
class Pending:
    """An activity, a timer, a child or a workflow task that has not ended. Moments are milliseconds since 1970.

    `state` says of a workflow task whether a worker has it, and of an activity what a server saw of it, as what follows
    does; it is empty for others, and where no server is asked. `next_try` is the moment from which on a worker may take
    the next attempt, and `due` the one at which a timer fires.
    """

    kind: str
    id: str
    event: int
    since: int
    attempt: Optional[int] = None
    state: Optional[str] = None
    next_try: Optional[int] = None
    last_failure: Optional[str] = None
    last_failure_type: Optional[str] = None
    heartbeat: Optional[str] = None
    heartbeat_at: Optional[int] = None
    due: Optional[int] = None


@dataclass(frozen=True)
class Description:
    """A run. `status` is Running, Completed, Failed, Canceled, Terminated, TimedOut or ContinuedAsNew.

    `stuck` says what is wrong where its workflow task fails: `attempt`, `cause` and `message`. `closed` is the
    moment at which it closed, where it has. `pending_workflow_task` is the workflow task that waits or that a worker
    has, and `pending` are the activities, timers and children that have not ended.
    """

    id: str
    run: str
    type: str
    status: str
    queue: str
    started: int
    closed: Optional[int]
    length: int
    input: str
    stuck: Optional[Json] = None
    parent_run: Optional[str] = None
    continued_from: Optional[str] = None
    pending: List[Pending] = field(default_factory=list)
    pending_workflow_task: Optional[Pending] = None


def described(service: Calls, workflow_id: str, run: Optional[str]) -> Description:
    """A run, or the latest one. A server is asked for what it saw of attempts."""
    if isinstance(service, HttpService):
        run = run or str(service.describe(workflow_id)["run"])
        answer = service.read("/api/workflows", workflow_id, run)
        events, pending, stuck = answer["events"], answer["pending"], answer["workflow"].get("stuck")
        return description_of(workflow_id, run, events, pending, stuck, service)
    reply = service.call("history", workflow_id=workflow_id, run=run)
    events = reply["events"]
    pending = meaning.pending(events) if meaning.status_of(events) == meaning.RUNNING else []
    return description_of(workflow_id, reply["run"], events, pending, None, None)


def pending_task(events: List[Event], server: Optional[HttpService]) -> Optional[Pending]:
    """The workflow task of a run that has not ended: whether a worker has it, and else where it waits."""
    for task in meaning.open_tasks(events):
        if task.kind == meaning.WORKFLOW:
            state = "a worker has it" if task.begun else waits_in(task.queue, server)
            return Pending("workflow task", str(task.event), task.event, task.since, state=state)
    return None


def waits_in(queue: str, server: Optional[HttpService]) -> str:
    """Where a workflow task waits, and where a server is asked, whether nobody polls there."""
    said = f"waits for a worker in the queue {queue}"
    if server is None:
        return said
    try:
        answer = server.read("/api/queues")
    except NotServed:
        # An earlier server doesn't know.
        return said
    for it in answer["queues"]:
        is_it = (it["queue"], it["kind"]) == (queue, meaning.WORKFLOW)
        polled = it["last_poll"] is not None and answer["now"] - it["last_poll"] < ALONE
        if is_it and it["polls"] == 0 and not polled:
            return f"{said}, which no worker polls"
    return said


def with_moment_of(it: Json, events: List[Event]) -> Json:
    """What is pending, and of a timer the moment at which it fires."""
    if it["kind"] != "timer":
        return it
    return {**it, "due": it["since"] + events[it["event"] - 1]["attrs"]["duration"]}


def description_of(
    workflow_id: str, run: str, events: List[Event], pending: List[Json], stuck: Optional[Json],
    server: Optional[HttpService],
) -> Description:
    """What the events of a run say, and what a server has seen of it."""
    first, last, status = events[0], events[-1], meaning.status_of(events)
    attrs = first["attrs"]
    return Description(
        workflow_id, run, attrs["workflow_type"], status, attrs["task_queue"], first["at"],
        None if status == meaning.RUNNING else last["at"], len(events), attrs["input"], stuck,
        attrs.get("parent_run"), attrs.get("continued_from"),
        [known(Pending, with_moment_of(it, events)) for it in pending], pending_task(events, server),
    )


def known(kind: Type[Record], values: Json) -> Record:
    """A record of the values that it has fields for: a later server may say more."""
    names = {it.name for it in fields(kind)}
    chosen: Any = {name: value for name, value in values.items() if name in names}
    return kind(**chosen)
