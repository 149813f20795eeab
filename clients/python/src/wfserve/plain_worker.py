"""A worker of a few lines: a workflow is a function from a history to the commands that come next.

It shows what a worker does and no more. `wfserve.workflows` is the one to use.
"""

from __future__ import annotations

from typing import Callable, Dict, List, Optional

from wfserve.calls import Calls, Task, dispatched
from wfserve.errors import WfserveError
from wfserve.types import Event, Json


class AttemptFailed(WfserveError):
    """An activity raises it to fail its attempt, with a message for the history."""


class PlainWorker:
    """Polls one task queue, and lets the shards go on.

    `workflows` has for each workflow type a function from a history to the commands that come next, and
    `activities` for each activity type one from its task to its result.
    """

    def __init__(
        self, service: Calls, task_queue: str = "main", shards: int = 1,
        workflows: Optional[Dict[str, Callable[[List[Event]], List[Json]]]] = None,
        activities: Optional[Dict[str, Callable[[Task], Optional[str]]]] = None,
    ):
        self.service = service
        self.task_queue = task_queue
        self.shards = shards
        self.workflows = workflows or {}
        self.activities = activities or {}

    def run_until_idle(self) -> None:
        """Works until nothing is left to do at this moment."""
        while self._turn_shards() + self._work():
            pass

    def _turn_shards(self) -> int:
        """How many tasks were handed over, and deadlines fired."""
        turns = 0
        for shard in range(self.shards):
            while self.service.timer_turn(shard):
                turns += 1
            while dispatched(self.service, shard):
                turns += 1
        return turns

    def _work(self) -> int:
        """How many tasks were done."""
        done = 0
        while (task := self.service.poll_workflow_task(self.task_queue)) is not None:
            self._decide(task)
            done += 1
        while (task := self.service.poll_activity_task(self.task_queue)) is not None:
            self._attempt(task)
            done += 1
        return done

    def _decide(self, task: Task) -> None:
        history = self.service.history(task.workflow_id, task.run)
        decide = self.workflows[history[0]["attrs"]["workflow_type"]]
        self.service.complete_workflow_task(task, decide(history))

    def _attempt(self, task: Task) -> None:
        try:
            result = self.activities[task.activity_type](task)
        except AttemptFailed as failed:
            self.service.fail_activity(task, str(failed))
        else:
            self.service.complete_activity(task, result)
