"""Task queues: what waits in each, what workers have, and who polls. For the page, and nothing is decided by it.

What waits is known from the histories of the runs that are open, as the list has read them, and from what was seen of
attempts. So it is what the service would hand out, whatever lies in its queues.
"""

from __future__ import annotations

from dataclasses import dataclass
from typing import Callable, Dict, Iterable, List, Optional, Tuple

from wfserve.events import ACTIVITY, WORKFLOW, Open
from wfserve.operations import POLLS
from wfserve.types import Json, Reply, Request

# Which tasks a poll asks for.
POLLED = {"poll_workflow_task": WORKFLOW, "poll_activity_task": ACTIVITY}


@dataclass
class Row:
    """What the page shows of a queue's tasks of one kind. Moments are in milliseconds."""

    queue: str
    kind: str
    # Polls that wait for a task now, and when a worker asked for one last; None where that isn't known.
    polls: Optional[int] = None
    last_poll: Optional[int] = None
    waiting: int = 0
    # Since when the first of those waits.
    oldest: Optional[int] = None
    # Activities that are tried again later.
    later: int = 0
    at_work: int = 0

    def add(self, task: Open, attempt: Json, now: int) -> None:
        """Counts a task, with what was seen of its attempts."""
        if task.begun or attempt.get("state") == "a worker has it":
            self.at_work += 1
        elif (attempt.get("next_try") or 0) > now:
            self.later += 1
        else:
            since = attempt.get("next_try") or task.since
            self.waiting += 1
            self.oldest = since if self.oldest is None else min(self.oldest, since)


class LastPolls:
    """Told each request and its reply, it knows when each queue was polled last."""

    ops = frozenset(POLLS)

    def __init__(self) -> None:
        self._last: Dict[Tuple[str, str], int] = {}

    def observe(self, request: Request, reply: Reply) -> None:
        """Takes in a line."""
        op = request.get("op")
        if op in POLLS and "ok" in reply and isinstance(request.get("at"), int):
            self._last[str(request.get("task_queue")), POLLED[str(op)]] = request["at"]

    def items(self) -> Iterable[Tuple[Tuple[str, str], int]]:
        """Queues and kinds, and the moments."""
        return self._last.items()


def queue_rows(
    names: Iterable[str], tasks: Iterable[Tuple[str, Open]], attempt_of: Callable[[str, int], Json],
    polls: Optional[Dict[Tuple[str, str], int]], last: Iterable[Tuple[Tuple[str, str], int]], now: int,
) -> List[Json]:
    """A row for each queue and kind: those that are named, and those that tasks wait in. `tasks` are runs and tasks."""
    rows = {(name, kind): Row(name, kind) for name in names for kind in (WORKFLOW, ACTIVITY)}
    for run, task in tasks:
        row = rows.setdefault((task.queue, task.kind), Row(task.queue, task.kind))
        row.add(task, attempt_of(run, task.event) if task.kind == ACTIVITY else {}, now)
    for place, moment in last:
        if place in rows:
            rows[place].last_poll = moment
    for place, row in rows.items():
        row.polls = None if polls is None else polls.get(place, 0)
    return [vars(rows[place]) for place in sorted(rows)]
