"""How a worker comes to its end: what is in hand has a time to end, and then is interrupted."""

from __future__ import annotations

import threading
import time
from typing import Callable, Optional, Set

from wfserve.errors import WfserveError


class WorkerStops(WfserveError):
    """The worker was told to stop, and the time that an activity had to end is over: another worker makes it."""


class Ending:
    """Tells attempts that their worker stops, and after `grace` seconds interrupts them. None never does."""

    def __init__(self, grace: Optional[float] = None):
        self.grace = grace
        self.told = threading.Event()
        # When what is in hand was interrupted, by the steady clock.
        self._over: Optional[float] = None
        self._interrupts: Set[Callable[[], None]] = set()
        self._lock = threading.Lock()

    @property
    def is_over(self) -> bool:
        """Whether attempts are to end now."""
        return self._over is not None

    def is_long_over(self, seconds: float) -> bool:
        """Whether attempts were interrupted so many seconds ago."""
        return self._over is not None and time.monotonic() > self._over + seconds

    def tell(self) -> None:
        """The worker was told to stop."""
        self.told.set()

    def interrupt(self) -> None:
        """The time of what is in hand is over."""
        with self._lock:
            self._over = time.monotonic()
            interrupts = list(self._interrupts)
        for it in interrupts:
            it()

    def add(self, interrupt: Callable[[], None]) -> None:
        """Has this called once the time is over, as long as it isn't removed."""
        with self._lock:
            self._interrupts.add(interrupt)
            is_over = self._over is not None
        if is_over:
            interrupt()

    def remove(self, interrupt: Callable[[], None]) -> None:
        """What it would interrupt has ended."""
        with self._lock:
            self._interrupts.discard(interrupt)


class Pace:
    """At most so many a second, one after another; None is no limit."""

    def __init__(self, per_second: Optional[float]):
        if per_second is not None and per_second <= 0:
            raise ValueError(f"{per_second} a second are none")
        self._gap = 0.0 if per_second is None else 1 / per_second
        self._next = 0.0
        self._lock = threading.Lock()

    def left(self) -> float:
        """In how many seconds the next one may begin; 0 takes its place."""
        with self._lock:
            now = time.monotonic()
            if now < self._next:
                return self._next - now
            self._next = now + self._gap
            return 0.0

    def began(self) -> None:
        """What took its place began now: it may have waited for a while."""
        with self._lock:
            self._next = max(self._next, time.monotonic() + self._gap)

    def give_back(self) -> None:
        """What took its place did not begin."""
        with self._lock:
            self._next -= self._gap
