"""The runs that the server knows of, and what their histories said when they were last read.

A run is known by the reply to its start, by the commands that begin children and continue runs, by the
histories that name it, and after a compaction by the records. A history is read again only where a line
since may have changed it.
"""

from __future__ import annotations

from dataclasses import dataclass, field
from typing import Any, Callable, Dict, Iterable, List, Optional, Tuple

from wfserve.events import NOTHING_WRONG, Open, open_tasks, status_of
from wfserve.ids import run_of_token, service_of
from wfserve.operations import READS
from wfserve.types import Event, Json, Reply, Request


# What the list calls a run that is open, and whose code or worker fails again and again.
STUCK = "Stuck"
BEGINS_RUNS = {"StartChildWorkflowExecution", "ContinueAsNewWorkflowExecution"}
# What may begin a run, take one away, or change others than the one that it names.
TELLS_RUNS = {"start", "signal_with_start", "transfer_turn", "timer_turn"}
# So often a run that was begun elsewhere is looked for.
MOST_LOOKS = 100
MOST_BEGUN = 100_000


def stuck_task(events: List[Event]) -> Optional[Event]:
    """What is wrong with an open run's workflow task: it failed, or its time was over twice and more."""
    attempt, wrong = 1, None
    for event in reversed(events):
        kind, attrs = event["type"], event["attrs"]
        if kind == "WorkflowTaskCompleted":
            break
        if kind == "WorkflowTaskScheduled" and wrong is None:
            attempt = max(attempt, attrs["attempt"])
        if kind in ("WorkflowTaskFailed", "WorkflowTaskTimedOut") and wrong is None:
            wrong = {
                "cause": attrs.get("cause", "its time was over"), "message": attrs.get("message", ""),
                "since": event["at"],
            }
    if wrong is None or wrong["cause"] == NOTHING_WRONG or (not wrong["message"] and attempt < 3):
        return None
    return {"attempt": attempt, **wrong}


@dataclass
class Entry:
    """A run of a workflow, and what its history said when it was last read.

    Its type and its start are not known before that, where nobody saw it begin.
    """

    workflow_id: str
    run: str
    workflow_type: str
    started: int
    status: str = "Running"
    length: int = 0
    last: str = ""
    last_at: int = 0
    stuck: Optional[Json] = None
    # The tasks of an open run that have not ended.
    tasks: List[Open] = field(default_factory=list)
    # Whether a line since may have changed it, and how many transfers had been accepted when it was read.
    changed: bool = True
    transfers: int = 0

    def is_shown(self, status: str) -> bool:
        """Whether a list of this status has it. One that is stuck is running too."""
        return not status or self.status == status or (status == STUCK and self.stuck is not None)

    def take(self, events: List[Event]) -> None:
        """Takes a history that was read."""
        first, last = events[0], events[-1]
        self.workflow_type, self.started = first["attrs"]["workflow_type"], first["at"]
        self.status, self.length = status_of(events), len(events)
        self.last, self.last_at = last["type"], last["at"]
        self.stuck = stuck_task(events) if self.status == "Running" else None
        self.tasks = open_tasks(events)

    def row(self) -> Json:
        """What the list shows of it."""
        row = {
            "workflow_id": self.workflow_id, "run": self.run, "type": self.workflow_type, "status": self.status,
            "started": self.started, "last": self.last, "last_at": self.last_at or self.started, "length": self.length,
        }
        return {**row, "stuck": self.stuck} if self.stuck else row


def commands_in(request: Request) -> Iterable[Request]:
    """The commands of a completion."""
    commands = request.get("commands")
    return (command for command in commands if isinstance(command, dict)) if isinstance(commands, list) else ()


class Workflows:
    """Told each request and its reply, it knows which runs there are, and which may have changed."""

    def __init__(self) -> None:
        self._service = 1
        self._entries: Dict[Tuple[str, str], Entry] = {}
        self._by_run: Dict[str, Entry] = {}
        self._by_workflow: Dict[str, List[Entry]] = {}
        # The entries from the latest start on, where they are in this order.
        self._ordered: Optional[List[Entry]] = None
        # How many transfers were accepted. Nobody sees what they change.
        self._transfers = 0
        # Workflow IDs a run of which was begun by another one, and how often it was looked for.
        self._begun: Dict[str, int] = {}

    def observe(self, request: Request, reply: Reply) -> None:
        op = request.get("op")
        if "error" in reply or op in READS:
            return
        if op in TELLS_RUNS:
            self._observe_runs(op, request, reply)
        if "token" in request:
            run = run_of_token(str(request["token"]), self._service)
            if op == "complete_workflow_task":
                self._observe_commands(request, run)
            self._change(run)
        if "run" in reply:
            self._change(reply["run"])
        workflow_id = request.get("workflow_id")
        if isinstance(workflow_id, str):
            for entry in self._by_workflow.get(workflow_id, ()):
                entry.changed = True

    def _observe_runs(self, op: Any, request: Request, reply: Reply) -> None:
        """Notes what begins runs, takes them away, or may change others."""
        if op in ("start", "signal_with_start") and reply.get("ok") == "started":
            self.add(request["workflow_id"], reply["run"], request["workflow_type"], request.get("at", 0))
        if op == "transfer_turn" and reply.get("ok") == "accepted":
            self._transfers += 1
        if op == "timer_turn" and reply.get("class") == "retention":
            self.remove(reply["run"])

    def _observe_commands(self, request: Request, run: Optional[str]) -> None:
        """Remembers which workflows the commands begin a run of."""
        for command in commands_in(request):
            if command.get("type") not in BEGINS_RUNS:
                continue
            parent = self.find_run(run)
            child = command.get("type") == "StartChildWorkflowExecution"
            workflow_id = command.get("workflow_id") if child else parent and parent.workflow_id
            if isinstance(workflow_id, str):
                self._begun[workflow_id] = 0
                if len(self._begun) > MOST_BEGUN:
                    # Nobody looks at the list. Histories name these too.
                    del self._begun[next(iter(self._begun))]

    def add(self, workflow_id: str, run: str, workflow_type: str = "", started: int = 0) -> Entry:
        entry = self._by_run.get(run)
        if entry is None:
            entry = Entry(workflow_id, run, workflow_type, started)
            self._service = service_of(run)
            self._entries[workflow_id, run] = self._by_run[run] = entry
            self._by_workflow.setdefault(workflow_id, []).append(entry)
            self._ordered = None
        return entry

    def remove(self, run: str) -> None:
        """Forgets a run that was taken away."""
        entry = self._by_run.pop(run, None)
        if entry is not None:
            del self._entries[entry.workflow_id, run]
            self._by_workflow[entry.workflow_id].remove(entry)
            if not self._by_workflow[entry.workflow_id]:
                del self._by_workflow[entry.workflow_id]
            self._ordered = None

    def take(self, entry: Entry, events: List[Event]) -> None:
        """Takes the history of a run, and adds the runs that its new events name."""
        started, known = entry.started, entry.length
        entry.take(events)
        if entry.started != started:
            self._ordered = None
        for event in events[known:]:
            self._add_named(entry, event)

    def _add_named(self, entry: Entry, event: Event) -> None:
        kind, attrs, at = event["type"], event["attrs"], event["at"]
        if kind == "WorkflowExecutionStarted" and "continued_from" in attrs:
            self.add(entry.workflow_id, attrs["continued_from"], started=at)
        elif kind == "WorkflowExecutionContinuedAsNew":
            self.add(entry.workflow_id, attrs["new_run"], attrs["workflow_type"], at)
        elif kind == "ChildWorkflowExecutionStarted":
            self.add(attrs["workflow_id"], attrs["run"], started=at)

    # Runs that were begun by others.

    def looked_for(self) -> List[str]:
        """The workflow IDs whose latest run may be one that nobody saw."""
        return list(self._begun)

    def found(self, workflow_id: str, run: Optional[str]) -> None:
        """Tells the latest run of a workflow ID that was looked for. A start that is on its way shows none, or an older one."""
        if run is not None and run not in self._by_run:
            self.add(workflow_id, run)
            self._begun.pop(workflow_id, None)
        elif self._begun.get(workflow_id, 0) < MOST_LOOKS:
            self._begun[workflow_id] = self._begun.get(workflow_id, 0) + 1
        else:
            self._begun.pop(workflow_id, None)

    # What changed.

    def _change(self, run: Optional[str]) -> None:
        entry = None if run is None else self._by_run.get(run)
        if entry is not None:
            entry.changed = True

    def is_stale(self, entry: Entry) -> bool:
        """Whether a run may have gone on since its history was read. One that has closed doesn't."""
        return entry.status == "Running" and (entry.changed or entry.transfers != self._transfers)

    def reading(self, entry: Entry) -> None:
        """Tells that the history of a run is being read."""
        entry.changed, entry.transfers = False, self._transfers

    # What is shown.

    def find(self, workflow_id: str, run: str) -> Optional[Entry]:
        return self._entries.get((workflow_id, run))

    def find_run(self, run: Optional[str]) -> Optional[Entry]:
        """The entry of a run, whatever its workflow ID is."""
        return None if run is None else self._by_run.get(run)

    def search(
        self, text: str, status: str, most: int, also: Callable[[Entry], bool] = lambda entry: True,
    ) -> List[Entry]:
        """The latest whose ID has this text and that have this status, or may have it: those are stale.

        `also` is asked of an entry that was read: its type and its start are known then.
        """
        if self._ordered is None:
            self._ordered = sorted(self._entries.values(), key=lambda entry: entry.started)[::-1]
        found = []
        for entry in self._ordered:
            if text in entry.workflow_id and (self.is_stale(entry) or (entry.is_shown(status) and also(entry))):
                found.append(entry)
            if len(found) == most:
                break
        return found
