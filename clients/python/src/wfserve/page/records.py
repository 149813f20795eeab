"""Which runs there are, by the snapshots or records that a compacted log goes on from, or by those of a journal.

A snapshot has the runs of a shard with their workflow IDs, up to its moment. A record has the requests of a shard and not
their replies: what may have begun a run stands in it, and whether it did is asked of the service. Runs have the ordinals
1, 2, 3 .. of their shard in the order in which they began, so the run of the next ordinal is that of the first request that
it can be of.
"""

from __future__ import annotations

import json
from dataclasses import dataclass
from typing import Dict, Iterable, Iterator, List, Optional, Protocol, Sequence

from wfserve.durable.settings import Settings
from wfserve.ids import run_id, run_of_token
from wfserve.snapshots import begins_run, gone_in, run_of
from wfserve.types import Reply, Request

from .listing import Workflows, commands_in


# Only a record's lines with one of these may begin a run.
ENTRY = b'{"pass":'
MARKS = (b'"op":"start"', b'"op":"signal_with_start"', b'"kind":"start_child"', b'"ContinueAsNewWorkflowExecution"')
ASKED_AT_ONCE = 1_000


@dataclass
class Beginning:
    """A request that may have begun a run, or a run of a snapshot. One that continues a run names that in the place of its
    workflow ID."""

    workflow_id: Optional[str]
    workflow_type: str
    at: int
    continues: Optional[str] = None
    # Of a run of a snapshot its ordinal, and else 0.
    ordinal: int = 0


def beginning_in(request: Request, service: int) -> Optional[Beginning]:
    """What a record's request may have begun."""
    op, at = request["op"], request["at"]
    if op in ("start", "signal_with_start"):
        return Beginning(request["workflow_id"], request["workflow_type"], at)
    if op == "deliver" and request["transfer"]["kind"] == "start_child":
        child = request["transfer"]["content"]
        return Beginning(child["workflow_id"], child["workflow_type"], at)
    for command in commands_in(request):
        if command["type"] == "ContinueAsNewWorkflowExecution":
            return Beginning(None, command.get("workflow_type", ""), at, run_of_token(request["token"], service))
    return None


def beginnings(record: Iterable[bytes], service: int) -> Iterator[Beginning]:
    """What may have begun a run, in the order of the lines of a shard's snapshot and record."""
    ordinal = 0
    for line in record:
        ordinal += gone_in(line)
        if begins_run(line):
            ordinal += 1
            run = run_of(line, ordinal)
            yield Beginning(run.workflow_id, run.workflow_type, run.at, ordinal=ordinal)
        elif line.startswith(ENTRY) and any(mark in line for mark in MARKS):
            found = beginning_in(json.loads(line)["request"], service)
            if found is not None:
                yield found


class Listable(Protocol):
    """A service whose shards' snapshots or records can be read."""

    @property
    def settings(self) -> Settings:
        """What it was opened with."""

    def read_all(self, requests: Sequence[Request]) -> List[Reply]:
        """The replies to reads, refusals as the replies that they are."""

    def record_lines(self) -> Iterable[Iterable[bytes]]:
        """The lines of each shard's snapshot or record."""


class Recorded:
    """Finds the runs of the records, and adds them to the list."""

    def __init__(self, service: Listable, workflows: Workflows):
        self._service = service
        self._workflows = workflows
        # The workflow ID of each run that is known.
        self._known: Dict[str, str] = {}

    def add_all(self) -> None:
        for shard, record in enumerate(self._service.record_lines()):
            found = list(beginnings(record, self._service.settings.service))
            self._ask_latest({it.workflow_id for it in found if it.workflow_id is not None and not it.ordinal})
            if self._service.settings.retention:
                self._add_kept(shard, [it for it in found if it.ordinal])
                self._add_latest(found)
            else:
                self._add_in_order(shard, found)

    def _ask_latest(self, workflow_ids: Iterable[str]) -> None:
        """Learns the latest run of each workflow ID."""
        asked: List[str] = list(workflow_ids)
        for begin in range(0, len(asked), ASKED_AT_ONCE):
            part = asked[begin:begin + ASKED_AT_ONCE]
            replies = self._service.read_all([{"op": "describe", "workflow_id": it} for it in part])
            for workflow_id, reply in zip(part, replies):
                if "run" in reply:
                    self._known[reply["run"]] = workflow_id

    def _add_kept(self, shard: int, found: List[Beginning]) -> None:
        """Adds the runs of a snapshot but for those that were deleted since."""
        for begin in range(0, len(found), ASKED_AT_ONCE):
            part = [(it, run_id(self._service.settings.service, shard, it.ordinal)) for it in found[begin:][:ASKED_AT_ONCE]]
            asked = [{"op": "describe", "workflow_id": it.workflow_id, "run": run} for it, run in part]
            for (it, run), reply in zip(part, self._service.read_all(asked)):
                if it.workflow_id is not None and "error" not in reply:
                    self._workflows.add(it.workflow_id, run, it.workflow_type, it.at)

    def _add_latest(self, found: List[Beginning]) -> None:
        """Of what a retention deleted nothing is known, and so not whose ordinals these were."""
        latest = {workflow_id: run for run, workflow_id in self._known.items()}
        for it in found:
            if it.workflow_id in latest:
                self._workflows.add(it.workflow_id, latest[it.workflow_id], it.workflow_type, it.at)

    def _add_in_order(self, shard: int, found: List[Beginning]) -> None:
        ordinal = 1
        for it in found:
            ordinal = it.ordinal or ordinal
            run = run_id(self._service.settings.service, shard, ordinal)
            workflow_id = it.workflow_id if it.continues is None else self._known.get(it.continues)
            if workflow_id is not None and (it.ordinal or self._is_of(run, workflow_id)):
                self._known[run] = workflow_id
                self._workflows.add(workflow_id, run, it.workflow_type, it.at)
                ordinal += 1

    def _is_of(self, run: str, workflow_id: str) -> bool:
        """Whether a run is one of this workflow ID."""
        if run in self._known:
            return self._known[run] == workflow_id
        asked = {"op": "describe", "workflow_id": workflow_id, "run": run}
        return "error" not in self._service.read_all([asked])[0]
