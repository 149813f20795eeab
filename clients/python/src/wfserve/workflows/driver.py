"""Lets the shards of a service go on: tasks are handed to their queues, deadlines fire, and what one
shard sends to another is delivered. Nothing of this happens by itself."""

from __future__ import annotations

import logging
import threading
from typing import Callable, Iterable, Protocol

from wfserve.calls import Calls, dispatched
from wfserve.errors import LogFull, Unavailable

from .clocks import Clock


LOG = logging.getLogger("wfserve.workflows")
# How many seconds until a service that isn't there is tried again.
UNAVAILABLE_PAUSE = 1.0


class DoesWork(Protocol):
    """What does tasks that wait, as a worker does."""

    def work(self) -> int:
        """Does what waits. How many tasks that was."""


class Driver:
    """Makes the dispatch, timer and transfer turns of all shards."""

    def __init__(self, service: Calls, shards: int = 1):
        self.service = service
        self.shards = shards

    def turn(self) -> int:
        """Makes turns until none has anything to do at this moment. How many had."""
        made = 0
        while found := self._timers() + self._transfers() + self._dispatches():
            made += found
        return made

    def _timers(self) -> int:
        return sum(repeated(lambda: self.service.timer_turn(shard) is not None) for shard in range(self.shards))

    def _dispatches(self) -> int:
        return sum(repeated(lambda: dispatched(self.service, shard)) for shard in range(self.shards))

    def _transfers(self) -> int:
        shards = range(self.shards)
        return sum(
            repeated(lambda: self.service.transfer_turn(source, to)) for source in shards for to in shards
        )

    def run(self, stop: threading.Event, pause: float = 0.02) -> None:
        """Makes turns by the wall's clock until it is told to stop. Where the service isn't there, it tries again."""
        while not stop.is_set():
            try:
                made = self.turn()
            except (Unavailable, LogFull) as fault:
                LOG.warning("the service is not there: %s", fault)
                made = stop.wait(UNAVAILABLE_PAUSE)
            if not made:
                stop.wait(pause)


def repeated(turn: Callable[[], bool]) -> int:
    """How often the turn had something to do, until it had not."""
    count = 0
    while turn():
        count += 1
    return count


def run_until_idle(driver: Driver, workers: Iterable[DoesWork]) -> None:
    """Works until nothing is left to do at this moment."""
    workers = list(workers)
    while driver.turn() + sum(worker.work() for worker in workers):
        pass


def run_until_closed(
    driver: Driver, workers: Iterable[DoesWork], clock: Clock, workflow_id: str, step: int = 1_000,
) -> str:
    """Works, and goes on to what is due next, until the workflow has closed. How it ended."""
    workers = list(workers)
    while True:
        run_until_idle(driver, workers)
        status = str(driver.service.describe(workflow_id)["status"])
        if status not in ("Running", "ContinuedAsNew"):
            return status
        clock.jump(step)
