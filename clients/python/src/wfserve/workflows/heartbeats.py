"""Heartbeats of attempts: each attempt tells one in so long at most, and the latest details are told in the end.

Between two that are told an attempt's heartbeats only leave their details. A thread tells these once it is time, so
that no attempt times out which has beaten in time. What the service answered there is raised by the next heartbeat.
"""

from __future__ import annotations

import heapq
import itertools
import logging
import threading
import time
from typing import Callable, List, Optional, Tuple

from wfserve.calls import Calls, Task
from wfserve.errors import LogFull, Refused, Unavailable

from .errors import AttemptOver, Cancelled


LOG = logging.getLogger("wfserve.workflows")
# Which part of a heartbeat's timeout lies between two that are told.
SHARE = 0.8
# So many seconds at most: by its answer an attempt learns that it is to cancel. Without a timeout it is this long.
LONGEST, WITHOUT_TIMEOUT = 60.0, 1.0


def interval_of(timeout: int) -> float:
    """How many seconds lie between two heartbeats that are told, by the timeout in milliseconds; 0 is none."""
    return min(timeout / 1_000 * SHARE, LONGEST) if timeout else WITHOUT_TIMEOUT


class Sender:
    """Calls what is due on a thread of its own, which is there while something waits."""

    def __init__(self) -> None:
        self._waiting: List[Tuple[float, int, Callable[[], None]]] = []
        self._numbers = itertools.count()
        self._changed = threading.Condition()
        self._is_running = False

    def put(self, due: float, send: Callable[[], None]) -> None:
        """Has it called at a moment of the steady clock."""
        with self._changed:
            heapq.heappush(self._waiting, (due, next(self._numbers), send))
            if not self._is_running:
                self._is_running = True
                threading.Thread(target=self._run, name="heartbeats", daemon=True).start()
            self._changed.notify()

    def _run(self) -> None:
        while (send := self._next()) is not None:
            send()

    def _next(self) -> Optional[Callable[[], None]]:
        """What is due next, once it is due; None where nothing waits."""
        with self._changed:
            while self._waiting:
                left = self._waiting[0][0] - time.monotonic()
                if left <= 0:
                    return heapq.heappop(self._waiting)[2]
                self._changed.wait(left)
            self._is_running = False
            return None


class Pulse:
    """The heartbeats of one attempt. `timeout` says its heartbeat's timeout in milliseconds, and is asked once.

    `sender` is None where each is to be told at once, as where time jumps. `interrupt` is called once, where the
    service has said that the attempt is to end.
    """

    def __init__(self, service: Calls, task: Task, timeout: Callable[[], int], sender: Optional[Sender]):
        self.interrupt: Callable[[], None] = lambda: None
        self._service, self._task, self._timeout, self._sender = service, task, timeout, sender
        self._lock = threading.Lock()
        self._interval: Optional[float] = None
        # When the last one was told, and whether one is being told or waits for its time.
        self._told_at: Optional[float] = None
        self._is_planned = False
        # The details that wait to be told.
        self._left: Optional[str] = None
        self._end: Optional[BaseException] = None
        self._is_over = False

    def beat(self, text: str, may_block: bool = True) -> None:
        """Tells details, or leaves them to be told. Raises what the service said of an earlier one, or of this one."""
        with self._lock:
            self._left = text
        if self._sender is None or (may_block and self._is_due_here()):
            self.tell()
        else:
            self._plan(self._sender)
        if self._end is not None:
            raise self._end

    def _is_due_here(self) -> bool:
        """Whether one is told by the activity itself, which must not wait until its timeout is read."""
        return self._told_at is None or (self._interval is not None and self._is_due())

    def _is_due(self) -> bool:
        """Whether it is told at once: the first one, and one that comes long enough after the last."""
        return self._told_at is None or time.monotonic() >= self._told_at + self._seconds()

    def _seconds(self) -> float:
        """How long two that are told lie apart. Where the timeout can't be asked for, as long as without one."""
        if self._interval is None:
            try:
                self._interval = interval_of(self._timeout())
            except (Unavailable, LogFull, Refused) as fault:
                LOG.info("%s: its timeout can't be read: %s", self._task.activity_id, fault)
                return WITHOUT_TIMEOUT
        return self._interval

    def _plan(self, sender: Sender) -> None:
        """Has the details told by the sender, which asks for the time that is left: nothing is read here."""
        with self._lock:
            if self._is_planned or self._is_over:
                return
            self._is_planned = True
        sender.put(0.0, lambda: self._tell_planned(sender))

    def _tell_planned(self, sender: Sender) -> None:
        if not self._is_due() and not self._is_over:
            sender.put((self._told_at or 0.0) + self._seconds(), lambda: self._tell_planned(sender))
            return
        with self._lock:
            self._is_planned = False
        try:
            self.tell()
        except Exception as fault:
            LOG.error("%s: a heartbeat was refused: %s", self._task.activity_id, fault)

    def tell(self) -> None:
        """Tells the details that are left, if there are any."""
        with self._lock:
            text, self._left = self._left, None
            if text is None or self._is_over or isinstance(self._end, AttemptOver):
                return
            self._told_at = time.monotonic()
        end = self._answer(text)
        if end is not None:
            is_first, self._end = self._end is None, end
            if is_first:
                self.interrupt()

    def _answer(self, text: str) -> Optional[BaseException]:
        """By what the attempt ends, as the service says. Where that is away the details are left."""
        try:
            return Cancelled() if self._service.heartbeat(self._task, text) else None
        except (Unavailable, LogFull) as fault:
            LOG.warning("%s: the service is not there to hear a heartbeat: %s", self._task.activity_id, fault)
            with self._lock:
                self._left = text if self._left is None else self._left
            return None
        except Refused as refused:
            if refused.name != "NotFound":
                raise
            return AttemptOver(f"attempt {self._task.attempt} of {self._task.activity_id} is over")

    def stop(self) -> Optional[str]:
        """Nothing more is told. The details that were left."""
        with self._lock:
            self._is_over = True
            return self._left

    @property
    def end(self) -> Optional[BaseException]:
        """By what the service had the attempt end, if it had."""
        return self._end
