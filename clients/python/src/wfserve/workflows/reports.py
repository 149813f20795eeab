"""What a worker tells the service of a task: it is told until it is heard, some of it at a later moment."""

from __future__ import annotations

import heapq
import itertools
import logging
import threading
import time
from types import TracebackType
from typing import Any, Callable, List, Optional, Tuple, Type, Union

from wfserve.errors import LogFull, Refused, Unavailable
from wfserve.http import pauses

from .clocks import Clock


LOG = logging.getLogger("wfserve.workflows")
# Seconds between a report and the same one again, while the service is away.
FIRST_PAUSE, LONGEST_PAUSE = 0.2, 10.0
# Seconds until a service that is away is asked again for a task.
FIRST_LOOK, LAST_LOOK = 0.2, 5.0
# For how many seconds a worker that was told to stop tries to tell what it has.
GRACE = 10.0


class ToldOrFailed:
    """An event that is set where another one is, or where one of several loops has failed."""

    def __init__(self, told: threading.Event):
        self._told, self._failed = told, threading.Event()

    def set(self) -> None:
        self._failed.set()

    def is_set(self) -> bool:
        return self._told.is_set() or self._failed.is_set()

    def wait(self, timeout: float) -> bool:
        self._told.wait(timeout)
        return self.is_set()


Stop = Union[threading.Event, ToldOrFailed]


class TaskOver:
    """What a worker says of a task that is over is refused as NotFound, and of no interest.

    It is also what a second report is answered whose first one was taken, though its reply was lost.
    """

    def __enter__(self) -> "TaskOver":
        return self

    def __exit__(
        self, kind: Optional[Type[BaseException]], fault: Optional[BaseException], trace: Optional[TracebackType],
    ) -> bool:
        return isinstance(fault, Refused) and fault.name == "NotFound"


class Reports:
    """Tells the results of activities: an effect that nobody hears of would be made again."""

    def __init__(self) -> None:
        self.stop: Stop = threading.Event()
        # How many could not be told.
        self.lost = 0
        # When it was seen first that the worker was told to stop.
        self._stopped: Optional[float] = None

    def tell(self, about: str, report: Callable[[], Any]) -> Any:
        """Makes a report, and again with growing pauses while the service is away.

        The service says when the attempt's time is over. Only a worker that was told to stop gives up before.
        """
        for pause in pauses(FIRST_PAUSE, LONGEST_PAUSE):
            try:
                return report()
            except (Unavailable, LogFull) as fault:
                if not getattr(fault, "passes", True) or self._gives_up():
                    self.lost += 1
                    LOG.error("%s: its result could not be told, and is lost: %s", about, fault)
                    raise
                LOG.warning("%s: the service is not there, its result is told later: %s", about, fault)
            if self.stop.is_set():
                time.sleep(pause)
            else:
                self.stop.wait(pause)
        raise AssertionError("pauses have no end")

    def _gives_up(self) -> bool:
        """Whether the worker was told to stop some time ago."""
        if not self.stop.is_set():
            return False
        self._stopped = self._stopped or time.monotonic()
        return time.monotonic() > self._stopped + GRACE


class Absence:
    """How often a service was not there: what is said of that, and the pause until it is asked again."""

    def __init__(self) -> None:
        self._times = 0
        self._pauses = pauses(FIRST_LOOK, LAST_LOOK)

    def pause(self, fault: Exception) -> float:
        """For how many seconds. The log says it at the first time, the second, the fourth, and so on."""
        self._times += 1
        if not self._times & (self._times - 1):
            LOG.warning("the service is not there: %s", fault)
        return next(self._pauses)

    def ended(self) -> None:
        """The service is there."""
        if self._times:
            LOG.warning("the service is there again")
            self._times, self._pauses = 0, pauses(FIRST_LOOK, LAST_LOOK)


class Later:
    """Reports that wait for their moments, by the clock that the worker has."""

    def __init__(self, clock: Clock):
        self._clock = clock
        self._numbers = itertools.count()
        self._waiting: List[Tuple[int, int, Callable[[], Any]]] = []
        self._changed = threading.Condition()

    def put(self, moment: int, report: Callable[[], Any]) -> None:
        self._clock.expect(moment)
        with self._changed:
            heapq.heappush(self._waiting, (moment, next(self._numbers), report))
            self._changed.notify_all()

    def tell_due(self) -> bool:
        """Makes the first report whose moment has come. False where there is none."""
        with self._changed:
            if not self._waiting or self._waiting[0][0] > self._clock.now:
                return False
            report = heapq.heappop(self._waiting)[2]
        with TaskOver():
            report()
        return True

    def wait(self, longest: float) -> None:
        """Waits for the next moment, and at most for so many seconds."""
        with self._changed:
            left = (self._waiting[0][0] - self._clock.now) / 1_000 if self._waiting else longest
            if left > 0:
                self._changed.wait(min(left, longest))
