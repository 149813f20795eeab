"""What the types of events mean: which event opens what, which one ends it, and how a run closes.

An event that belongs to an earlier one names it by an attribute, its *key*: `scheduled`, `started` or `initiated`,
whose value is the earlier event's id. In the tree tools/generate.py writes the tables.
"""

from __future__ import annotations

from typing import Any, Dict, FrozenSet, List, NamedTuple, Optional, Tuple

from wfserve.types import Event

SCHEDULED, STARTED, INITIATED = "scheduled", "started", "initiated"


class Opening(NamedTuple):
    """What an event opens: the key by which others name it, its kind, and the attribute that says which one it is."""

    key: str
    kind: str
    name: str


# What opens a bar of a picture, and something that may be pending.
OPENINGS: Dict[str, Opening] = {
    "WorkflowTaskScheduled": Opening(SCHEDULED, "task", "attempt"),
    "ActivityTaskScheduled": Opening(SCHEDULED, "activity", "activity_id"),
    "TimerStarted": Opening(STARTED, "timer", "timer_id"),
    "StartChildWorkflowExecutionInitiated": Opening(INITIATED, "child", "workflow_id"),
}

# What ends what a picture has a bar of: by which key it names the workflow task, activity, timer or child.
ENDS: Dict[str, str] = {
    "WorkflowTaskCompleted": SCHEDULED,
    "WorkflowTaskFailed": SCHEDULED,
    "WorkflowTaskTimedOut": SCHEDULED,
    "ActivityTaskCompleted": SCHEDULED,
    "ActivityTaskFailed": SCHEDULED,
    "ActivityTaskTimedOut": SCHEDULED,
    "ActivityTaskCanceled": SCHEDULED,
    "TimerFired": STARTED,
    "TimerCanceled": STARTED,
    "ChildWorkflowExecutionCompleted": INITIATED,
    "ChildWorkflowExecutionFailed": INITIATED,
    "ChildWorkflowExecutionCanceled": INITIATED,
    "ChildWorkflowExecutionTimedOut": INITIATED,
    "ChildWorkflowExecutionTerminated": INITIATED,
    "StartChildWorkflowExecutionFailed": INITIATED,
}

# What a workflow's code learns of: the end of what it asked for. A timer that it canceled itself is no news.
SETTLES: Dict[str, str] = {
    "ActivityTaskCompleted": SCHEDULED,
    "ActivityTaskFailed": SCHEDULED,
    "ActivityTaskTimedOut": SCHEDULED,
    "ActivityTaskCanceled": SCHEDULED,
    "TimerFired": STARTED,
    "ChildWorkflowExecutionCompleted": INITIATED,
    "ChildWorkflowExecutionFailed": INITIATED,
    "ChildWorkflowExecutionCanceled": INITIATED,
    "ChildWorkflowExecutionTimedOut": INITIATED,
    "ChildWorkflowExecutionTerminated": INITIATED,
    "StartChildWorkflowExecutionFailed": INITIATED,
    "ExternalWorkflowExecutionSignaled": INITIATED,
    "SignalExternalWorkflowExecutionFailed": INITIATED,
    "ExternalWorkflowExecutionCancelRequested": INITIATED,
    "RequestCancelExternalWorkflowExecutionFailed": INITIATED,
}

# The status that each closing event leaves a run with.
STATUS: Dict[str, str] = {
    "WorkflowExecutionCompleted": "Completed",
    "WorkflowExecutionFailed": "Failed",
    "WorkflowExecutionCanceled": "Canceled",
    "WorkflowExecutionTerminated": "Terminated",
    "WorkflowExecutionContinuedAsNew": "ContinuedAsNew",
    "WorkflowExecutionTimedOut": "TimedOut",
}

RUNNING = "Running"
# A workflow task that failed for this cause says nothing of the code: the next one knows what came meanwhile.
NOTHING_WRONG = "UnhandledCommand"
# The cause of a task that its worker failed; other causes are faults that the service found in its commands.
WORKERS_OWN = "WorkflowWorkerUnhandledFailure"
PENDING_KINDS: FrozenSet[str] = frozenset(("activity", "timer", "child"))


def status_of(events: List[Event]) -> str:
    """The status of a run with these events."""
    return STATUS.get(events[-1]["type"], RUNNING)


def ended_by(event: Event) -> Optional[Tuple[str, int]]:
    """The key and the id of the event whose activity, timer, child or task this one ends; None where it ends none."""
    key = ENDS.get(event["type"])
    return None if key is None else (key, event["attrs"][key])


def pending(events: List[Event]) -> List[Dict[str, Any]]:
    """The activities, timers and children of a run that have not ended: kind, id, event and since when (ms)."""
    ended = {ended_by(event) for event in events}
    found = []
    for event in events:
        opening = OPENINGS.get(event["type"])
        if opening is None or opening.kind not in PENDING_KINDS or (opening.key, event["id"]) in ended:
            continue
        found.append({
            "kind": opening.kind, "id": event["attrs"][opening.name], "event": event["id"], "since": event["at"],
        })
    return found


# The kinds of task.
WORKFLOW, ACTIVITY = "workflow", "activity"


class Open(NamedTuple):
    """A task of an open run that has not ended: its kind, its queue, its event, since when, and whether it was begun."""

    kind: str
    queue: str
    event: int
    since: int
    begun: bool


def open_tasks(events: List[Event]) -> List[Open]:
    """The tasks of a run that have not ended. Whether an activity was begun its history doesn't say before its end."""
    if status_of(events) != RUNNING:
        return []
    scheduled: Dict[int, Event] = {}
    task: Optional[Open] = None
    own = events[0]["attrs"].get("task_queue", "")
    for event in events:
        kind, attrs = event["type"], event["attrs"]
        if kind == "ActivityTaskScheduled":
            scheduled[event["id"]] = event
        elif kind.startswith("ActivityTask") and kind in ENDS:
            scheduled.pop(attrs["scheduled"], None)
        elif kind == "WorkflowTaskScheduled":
            task = Open(WORKFLOW, attrs.get("task_queue", own), event["id"], event["at"], False)
        elif kind == "WorkflowTaskStarted" and task is not None:
            task = task._replace(since=event["at"], begun=True)
        elif kind.startswith("WorkflowTask"):
            task = None
    found = [Open(ACTIVITY, it["attrs"].get("task_queue", own), it["id"], it["at"], False) for it in scheduled.values()]
    return [task, *found] if task is not None else found
