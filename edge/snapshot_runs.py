"""Which runs a shard's snapshot has, for the list of workflows."""

from __future__ import annotations

import json
from dataclasses import dataclass
from typing import Iterable, Iterator

import python_client  # noqa: F401 (it says where the next one lies)
from wfserve.ids import run_id

# Every line with one of these begins a run, or says how many were deleted there.
HEAD, GONE, FIRST = b'{"head":', b'{"gone":', b'"id":1,"type":"WorkflowExecutionStarted"}'


@dataclass
class Found:
    """A run of a workflow, as the event says that began it."""

    workflow_id: str
    run: str
    workflow_type: str
    started: int


def runs_in(snapshot: Iterable[bytes]) -> Iterator[Found]:
    """The runs of a snapshot that were not deleted, by their ordinals: they stand in this order."""
    service = shard = 0
    ordinal = 1
    for line in snapshot:
        if line.startswith(HEAD):
            head = json.loads(line)["head"]
            service, shard = head["service"], head["shard"]
        elif line.startswith(GONE):
            ordinal += json.loads(line)["gone"]
        elif line.rstrip().endswith(FIRST):
            event = json.loads(line)
            attrs = event["attrs"]
            yield Found(attrs["workflow_id"], run_id(service, shard, ordinal), attrs["workflow_type"], event["at"])
            ordinal += 1
