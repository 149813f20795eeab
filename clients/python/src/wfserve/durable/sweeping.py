"""Deletes the blobs beside a log or a journal that no history names any more.

Which workflows there are, the log's lines and the snapshots or records tell. Of each workflow ID the latest run is asked for, with the
runs that its history names. An earlier run may be kept beside it, for as long as the retention after its end, and nobody
knows its run id. So each sweep counts what is named as put at its moment, and only what was not put for the retention and a
day goes. Where the last sweep was longer ago than a day, one of these runs may have gone by unseen: then all blobs count as
put, and nothing is deleted.
"""

from __future__ import annotations

import json
import os
from typing import Iterable, Iterator, List, Optional, Protocol, Sequence, Set, Tuple

from wfserve.blobs import FolderStore, names_in
from wfserve.snapshots import begins_run, run_of
from wfserve.types import Event, Reply, Request

from .settings import Settings

# What no history names is kept for so long beside the retention: a call that will name it may be on its way.
GRACE_SECONDS = 86_400.0
# The file in the folder of the blobs that has the moment of the last sweep.
MARK = "swept"
# So many histories are in memory at a time, and so many descriptions.
HISTORIES, DESCRIPTIONS = 20, 1_000
# Only lines with one of these may begin a run, beside those of a snapshot.
BEGINS = (b'"start"', b'"signal_with_start"', b'"start_child"', b'"StartChildWorkflowExecution"')
# A workflow ID, and a run where one is known.
Named = Tuple[str, str]


class Readable(Protocol):
    """A service whose log or journal can be read."""

    @property
    def settings(self) -> Settings:
        """What it was opened with."""

    def requests(self) -> Iterable[bytes]:
        """The lines of its snapshots or records, and of its log."""

    def read_all(self, requests: Sequence[Request]) -> List[Reply]:
        """The replies to reads, refusals as the replies that they are."""


def sweep(service: Readable, store: FolderStore, now: float) -> int:
    """Deletes what no history names, at a moment in seconds since 1970. How many blobs these were.

    Without a retention histories are kept for ever, and with them all blobs.
    """
    retention = service.settings.retention / 1_000
    if not retention or next(store.names(), None) is None:
        return 0
    last = last_sweep(store)
    for name in named(service):
        store.touch(name, now)
    count = 0
    if last is not None and now - last <= GRACE_SECONDS:
        count = store.delete_before(now - retention - GRACE_SECONDS)
    else:
        for name in store.names():
            store.touch(name, now)
    mark(store, now)
    return count


def last_sweep(store: FolderStore) -> Optional[float]:
    """The moment of the last sweep. None where there was none."""
    try:
        return os.stat(store.folder / MARK).st_mtime
    except FileNotFoundError:
        return None


def mark(store: FolderStore, now: float) -> None:
    """Has the store know the moment of a sweep."""
    path = store.folder / MARK
    path.touch(0o600)
    os.utime(path, (now, now))


def named(service: Readable) -> Set[str]:
    """The hashes of all blobs that the histories of the service name."""
    found: Set[str] = set()
    seen: Set[str] = set()
    left = latest(service)
    while left:
        part, left = left[:HISTORIES], left[HISTORIES:]
        seen.update(run for _, run in part)
        replies = service.read_all([{"op": "history", "workflow_id": it, "run": run} for it, run in part])
        for (workflow_id, _), reply in zip(part, replies):
            # One that is gone meanwhile names nothing.
            events: List[Event] = reply.get("events", [])
            found |= names_in(json.dumps(events))
            left += [it for it in runs_in(workflow_id, events) if it[1] not in seen]
        left = list(dict.fromkeys(left))
    return found


def latest(service: Readable) -> List[Named]:
    """The latest run of each workflow ID that a line begins."""
    ids = sorted({workflow_id for line in service.requests() for workflow_id in begun_in(line)})
    found = []
    for begin in range(0, len(ids), DESCRIPTIONS):
        part = ids[begin:begin + DESCRIPTIONS]
        replies = service.read_all([{"op": "describe", "workflow_id": it} for it in part])
        found += [(workflow_id, reply["run"]) for workflow_id, reply in zip(part, replies) if "run" in reply]
    return found


def begun_in(line: bytes) -> Iterator[str]:
    """The workflow IDs of which a line may begin a run: a log's line is a request, and a record's has one.

    A snapshot's lines have none, but for the first event of each run.
    """
    if begins_run(line):
        yield run_of(line, 0).workflow_id
    if not any(word in line for word in BEGINS):
        return
    entry = json.loads(line)
    request = entry["request"] if isinstance(entry.get("request"), dict) else entry
    transfer = request.get("transfer")
    commands = request.get("commands")
    beginnings = [request, *(commands if isinstance(commands, list) else [])]
    if isinstance(transfer, dict):
        beginnings.append(transfer.get("content"))
    for it in beginnings:
        if isinstance(it, dict) and isinstance(it.get("workflow_id"), str):
            yield it["workflow_id"]


def runs_in(workflow_id: str, events: Sequence[Event]) -> Iterator[Named]:
    """The runs that a history names: those that it goes on from and in, and its children."""
    for event in events:
        kind, attrs = event["type"], event["attrs"]
        if kind == "WorkflowExecutionStarted" and "continued_from" in attrs:
            yield workflow_id, attrs["continued_from"]
        elif kind == "WorkflowExecutionContinuedAsNew":
            yield workflow_id, attrs["new_run"]
        elif kind == "ChildWorkflowExecutionStarted":
            yield attrs["workflow_id"], attrs["run"]
