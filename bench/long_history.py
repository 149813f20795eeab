#!/usr/bin/env python3
"""What a long history costs its worker: the processor time of one workflow that calls activities one after another.

    bench/long_history.py [EVENTS..]    1,000, 2,000 and 5,000 by default

The service stands in for one over HTTP: it has the history as a text, adds the events that a completion makes, and
gives the text as a server does. So all that is measured is the worker's: reading texts, and running the code.
"""
from __future__ import annotations

import json
import pathlib
import sys
import time
from typing import Any

sys.path.insert(0, str(pathlib.Path(__file__).resolve().parent.parent / "tools"))
import client_package  # noqa: E402, F401
from wfserve.calls import Calls, from_event  # noqa: E402
from wfserve.workflows import JumpingClock, Worker, input_of, seconds, workflow  # noqa: E402

# An activity is scheduled, started and completed, and a workflow task follows: six events.
EVENTS_OF_AN_ACTIVITY = 6
TASK = {"ok": "task", "token": "", "run": "r", "workflow_id": "w", "attempt": 1, "line": 1}


def work(number):
    return number


@workflow
async def long(ctx, count):
    total = 0
    for number in range(count):
        total += await ctx.activity(work, number, start_to_close=seconds(60))
    return total


class StandIn(Calls):
    """One run of one workflow. Each completion's activity is done at once, and the next task is there."""

    def __init__(self, count: int):
        self.texts: list[str] = []
        self.over = False
        self.add("WorkflowExecutionStarted", {
            "workflow_id": "w", "workflow_type": "long", "task_queue": "main", "input": input_of([count]), "task_timeout": 10_000,
        })
        self.add_task()

    def add(self, kind: str, attrs: dict[str, Any]) -> int:
        event = {"at": 1, "attrs": attrs, "id": len(self.texts) + 1, "type": kind}
        self.texts.append(json.dumps(event, separators=(",", ":")))
        return len(self.texts)

    def add_task(self) -> None:
        scheduled = self.add("WorkflowTaskScheduled", {"attempt": 1})
        self.add("WorkflowTaskStarted", {"scheduled": scheduled})

    def call(self, op: str, **fields: Any) -> dict[str, Any]:
        if op == "poll_workflow_task":
            return {"ok": "empty"} if self.over else {**TASK, "started": len(self.texts)}
        if op == "history":
            return json.loads(self.text())
        if op == "complete_workflow_task":
            self.complete(fields["commands"][0])
        return {"ok": "completed", "line": 1}

    def text(self) -> str:
        return '{"events":[' + ",".join(self.texts) + '],"line":1,"ok":"history","run":"r"}'

    def history_from(self, workflow_id: str, run: str, first: int) -> list[dict[str, Any]]:
        events = json.loads(from_event(self.text(), first))["events"]
        return [event for event in events if event["id"] >= first]

    def complete(self, command: dict[str, Any]) -> None:
        self.add("WorkflowTaskCompleted", {"scheduled": 1, "started": 1})
        self.over = command["type"] == "CompleteWorkflowExecution"
        if not self.over:
            scheduled = self.add("ActivityTaskScheduled", {**command, "type": None})
            self.add("ActivityTaskStarted", {"scheduled": scheduled})
            self.add("ActivityTaskCompleted", {"scheduled": scheduled, "result": "1"})
            self.add_task()


def measured(events: int, kept_runs: int) -> tuple[int, float]:
    """How many events there were, and the processor time of the worker, in seconds."""
    service = StandIn(events // EVENTS_OF_AN_ACTIVITY)
    worker = Worker(service, workflows=[long], activities=[], clock=JumpingClock(), kept_runs=kept_runs)
    begun = time.process_time()
    worker.work()
    return len(service.texts), time.process_time() - begun


def main(words: list[str]) -> None:
    print("| Events | Each task replayed from the first event, s | Runs kept, s |\n|---|---|---|")
    for events in [int(word) for word in words] or [1_000, 2_000, 5_000]:
        length, replayed = measured(events, 0)
        print(f"| {length:,} | {replayed:.2f} | {measured(events, 1)[1]:.2f} |", flush=True)


if __name__ == "__main__":
    main(sys.argv[1:])
