#!/usr/bin/env python3
"""What is decided of a start, as rows of data: by the status and the request id of the workflow ID's latest run, both
policies and the request id that is given.

    tools/policy_rows.py PROGRAM

PROGRAM is the built `wfserve`, as `rt ci` leaves it in crates/wfserve/out. It goes on from a snapshot with the latest run,
so that a run which was continued is the latest one too. The status is 1 where a test fails.
"""
from __future__ import annotations

import json
import sys
from typing import NamedTuple

from journal_program import Line, run_rows
from snapshot_rows import CLOSED, OTHER, WAITING, OfTexts, asked, laid, run, started, text_of_replies

REUSE = ("AllowDuplicate", "AllowDuplicateFailedOnly", "RejectDuplicate")
NEW, SAME, EXISTING, TERMINATED, REFUSED = "new", "same", "existing", "terminate, then new", "refused"

# What is decided by each conflict policy where the latest run is open, by whichever reuse policy.
OPEN = {"Fail": REFUSED, "UseExisting": EXISTING, "TerminateExisting": TERMINATED}
# What is decided by each reuse policy where the latest run has closed so, and what its last event carries.
COMPLETED: Line = {"result": "done"}
CONTINUED: Line = {"input": "", "new_run": run(2), "task_queue": "main", "workflow_type": "w"}
CLOSED_BY_STATUS: dict[str, tuple[Line, tuple[str, str, str]]] = {
    "Completed": (COMPLETED, (NEW, REFUSED, REFUSED)),
    "ContinuedAsNew": (CONTINUED, (NEW, REFUSED, REFUSED)),
    "Failed": ({"message": "f"}, (NEW, NEW, REFUSED)),
    "TimedOut": ({}, (NEW, NEW, REFUSED)),
    "Terminated": ({"reason": "r"}, (NEW, NEW, REFUSED)),
    "Canceled": ({"details": ""}, (NEW, NEW, REFUSED)),
}
# The latest run's request id, the given one, and what is decided where policies refuse.
REQUESTS = (("r1", "r1", SAME), ("r1", "r2", REFUSED), ("r1", "", REFUSED), ("", "r1", REFUSED), ("", "", REFUSED))


class Start(NamedTuple):
    """The lines of the latest run, the policies and the request id that are given, and what is decided."""

    latest: str
    reuse: str
    conflict: str
    given: str
    decided: str


def closed(status: str, attributes: Line) -> str:
    """The lines of a run that has closed so."""
    last = {"at": 2000, "attrs": attributes, "id": 5, "type": f"WorkflowExecution{status}"}
    return CLOSED[:CLOSED.rindex('{"at":2000')] + json.dumps(last, separators=(",", ":"), sort_keys=True) + "\n"


def requested(request_id: str) -> str:
    """The line before the events of a run that was started with a request id."""
    return f'{{"request_id":"{request_id}"}}\n' if request_id else ""


OPEN_RUN = WAITING.replace('"workflow_id":"e"', '"workflow_id":"a"')
STARTS = [
    *(Start(OPEN_RUN, reuse, conflict, "", decided) for conflict, decided in OPEN.items() for reuse in REUSE),
    *(Start(closed(status, attributes), reuse, "UseExisting", "", one)
      for status, (attributes, decided) in CLOSED_BY_STATUS.items() for reuse, one in zip(REUSE, decided)),
    *(Start(requested(first) + latest, "RejectDuplicate", "Fail", given, decided)
      for first, given, decided in REQUESTS for latest in (OPEN_RUN, CLOSED)),
    Start("", "RejectDuplicate", "Fail", "r1", NEW),
]


def reply_to(row: Start) -> Line:
    """What is answered to the start."""
    if row.decided in (SAME, EXISTING):
        return {"ok": "existing", "run": run(1)}
    if row.decided == REFUSED:
        return {"error": "AlreadyStarted", "no": 3, "run": run(1)}
    return {"ok": "started", "run": run(2) if row.latest else run(1)}


class Starts(OfTexts):
    def test_starts(self) -> None:
        """Each is answered so. The latest run keeps its status but where it is terminated."""
        for row in STARTS:
            with self.subTest(row):
                self.lay(laid([row.latest]), OTHER)
                given = {"request_id": row.given} if row.given else {}
                done = self.opened([started("a", reuse=row.reuse, conflict=row.conflict, **given),
                                    asked("describe", "a", run=run(1))])
                reply, described = done.printed.decode().splitlines(keepends=True)
                self.assertEqual(reply, text_of_replies([reply_to(row)]))
                self.assertEqual(json.loads(described)["status"], "Terminated" if row.decided == TERMINATED else status_of(row))


def status_of(row: Start) -> str:
    """The status of the first run where a start leaves it."""
    last = json.loads(row.latest.splitlines()[-1])["type"] if row.latest else ""
    closing = last.removeprefix("WorkflowExecution")
    return closing if closing in CLOSED_BY_STATUS else "Running"


def main(given: list[str]) -> int:
    return run_rows(__name__, given, f"policy_rows: {len(STARTS)} starts")


if __name__ == "__main__":
    sys.exit(main(sys.argv[1:]))
