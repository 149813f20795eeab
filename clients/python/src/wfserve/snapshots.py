"""What can be read of a shard's snapshot without the program: its runs, and its last moment.

docs/PROFILE.md has the lines of a snapshot. An event stands in one as a history shows it, so the first event of a run tells
its workflow ID and its type. The program checks all of a snapshot; here lines are believed.
"""

from __future__ import annotations

import json
import os
import re
from dataclasses import dataclass
from typing import Any, Dict, Iterable, Iterator, Tuple

from wfserve.errors import LogDamaged
from wfserve.types import Json

# How a line ends and begins that begins a run, or that stands for runs which were deleted. A text has its quotes escaped.
BEGINS = b'"id":1,"type":"WorkflowExecutionStarted"}\n'
EVENT, GONE = b'{"at":', b'{"gone":'
LAST = re.compile(rb'\{"end":\{"last":([0-9]{1,20}),"lines":[0-9]{1,20}\}\}\n')
# The last line is shorter.
LAST_BYTES = 100


@dataclass(frozen=True)
class SnapshotRun:
    """A run of a shard: the place at which it began among the shard's runs, from 1 on, and what it began as."""

    ordinal: int
    workflow_id: str
    workflow_type: str
    at: int


def begins_run(line: bytes) -> bool:
    """Whether a line of a snapshot is the first event of a run. None of a record or a log is."""
    return line.startswith(EVENT) and line.endswith(BEGINS)


def run_of(line: bytes, ordinal: int) -> SnapshotRun:
    """The run that a line begins."""
    event: Dict[str, Any] = json.loads(line)
    return SnapshotRun(ordinal, event["attrs"]["workflow_id"], event["attrs"]["workflow_type"], event["at"])


def gone_in(line: bytes) -> int:
    """How many runs that were deleted a line stands for; 0 for another line."""
    return int(json.loads(line)["gone"]) if line.startswith(GONE) else 0


def runs_in(lines: Iterable[bytes]) -> Iterator[SnapshotRun]:
    """The runs that a snapshot's lines have, in the order of their ordinals."""
    ordinal = 0
    for line in lines:
        ordinal += gone_in(line)
        if begins_run(line):
            ordinal += 1
            yield run_of(line, ordinal)


def head_and_last(path: str) -> Tuple[Json, int]:
    """What a snapshot says in its first line and in its last one: what the shard was opened with, and its last moment."""
    with open(path, "rb") as file:
        first = file.readline(LAST_BYTES * 10)
        file.seek(max(os.fstat(file.fileno()).st_size - LAST_BYTES, 0))
        ends = file.read()
    last = LAST.fullmatch(ends[ends.rfind(b"\n", 0, -1) + 1:])
    try:
        head = json.loads(first)["head"]
    except (ValueError, KeyError, TypeError):
        head = None
    if last is None or not isinstance(head, dict):
        raise LogDamaged(f"{path}: damaged: it is no snapshot")
    return head, int(last[1])


def last_moment_of(path: str) -> int:
    """The moment of the last step of the shard that a snapshot is of."""
    return head_and_last(path)[1]
