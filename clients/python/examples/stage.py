"""Plays a scenario of workflows in its own time: a service, its turns, and workers that may be killed."""

from __future__ import annotations

from typing import Callable, Optional, Sequence

from wfserve.calls import Calls
from wfserve.errors import Unavailable
from wfserve.workflows import Driver, JumpingClock, Worker, input_of, text_of
from wfserve.workflows.definitions import type_of

CLOSED = ("Completed", "Failed", "Canceled", "Terminated", "TimedOut")


class WorkerKilled(BaseException):
    """The worker is gone between two of its lines."""


class Fragile(Calls):
    """A service for a worker that is killed before the line of this number, counted over all workers."""

    def __init__(self, service: Calls, kill_before: Optional[int] = None):
        self._service = service
        self.kill_before = kill_before
        self.lines = 0

    def call(self, op, **fields):
        self.lines += 1
        if self.lines == self.kill_before:
            raise WorkerKilled()
        return self._service.call(op, **fields)


class Stage:
    """`module` has WORKFLOWS, ACTIVITIES and QUEUES; `fresh_workers` throws the workers away before every task."""

    def __init__(
        self, service: Calls, clock: JumpingClock, module, shards: int = 1,
        fragile: Optional[Fragile] = None, fresh_workers: bool = False,
    ):
        self.service = service
        self.clock = clock
        self.driver = Driver(service, shards)
        self._module = module
        self._for_workers = fragile or service
        self._fresh = fresh_workers
        self._workers = [self._worker(queue) for queue in module.QUEUES]

    def _worker(self, queue: str) -> Worker:
        return Worker(self._for_workers, queue, self._module.WORKFLOWS, self._module.ACTIVITIES, self.clock)

    def start(self, workflow: Callable, *arguments, id: str, **fields) -> str:
        return self.service.start(
            id, type_of(workflow), self._module.QUEUES[0], input=input_of(arguments), request_id=f"start {id}", **fields
        )

    def signal(self, workflow_id: str, name: str, value=None) -> None:
        self.service.signal(workflow_id, name, text_of(value), request_id=f"{name} {workflow_id}")

    def work(self) -> None:
        """Works until nothing is left to do at this moment."""
        while self.driver.turn() + sum(self._work_once(i) for i in range(len(self._workers))):
            pass

    def _work_once(self, i: int) -> int:
        if self._fresh:
            self._workers[i] = self._worker(self._workers[i].queue)
        try:
            return int(self._workers[i].work_once())
        except WorkerKilled:
            self._workers[i] = self._worker(self._workers[i].queue)
        except Unavailable:
            # The worker goes on, and doesn't know what became of its call.
            pass
        self._look_out()
        return 1

    def _look_out(self) -> None:
        """A task was left, whose time will be over within the next minute."""
        for later in range(10_000, 60_001, 10_000):
            self.clock.expect(self.clock.now + later)

    def until(self, moment: int) -> None:
        """Works up to a moment."""
        self.clock.expect(moment)
        self.work()
        while self.clock.now < moment:
            self.clock.jump()
            self.work()

    def until_closed(self, *workflow_ids: str, jumps: int = 2_000) -> None:
        """Works until these workflows have closed. Where nothing is expected, five seconds go by."""
        for _ in range(jumps):
            self.work()
            if all(self.service.describe(it)["status"] in CLOSED for it in workflow_ids):
                return
            self.clock.jump(5_000)
        raise TimeoutError(f"these have not closed by {self.clock.now}: {', '.join(workflow_ids)}")


def ends(service: Calls, workflow_ids: Sequence[str]) -> dict:
    """How each workflow ended."""
    found = {}
    for workflow_id in workflow_ids:
        last = service.history(workflow_id)[-1]
        found[workflow_id] = (last["type"], last["attrs"])
    return found


def histories(service: Calls, workflow_ids: Sequence[str]) -> list:
    """The replies with the history of each run of these workflows, the first run of each first."""
    found = []
    for workflow_id in workflow_ids:
        runs = [service.call("history", workflow_id=workflow_id)]
        while before := runs[0]["events"][0]["attrs"].get("continued_from"):
            runs.insert(0, service.call("history", workflow_id=workflow_id, run=before))
        found += [{name: value for name, value in reply.items() if name != "line"} for reply in runs]
    return found
