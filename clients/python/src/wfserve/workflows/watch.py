"""Watches workflows' code: code that blocks is named, and in the end it is interrupted, so that its worker goes on."""

from __future__ import annotations

import ctypes
import itertools
import logging
import sys
import threading
import time
import traceback
from types import FrameType, TracebackType
from typing import Iterator, Optional, Set, Type

from .errors import Blocked

LOG = logging.getLogger("wfserve.workflows")
# After so many seconds code is named that has not come to its next wait.
NAMED_AFTER = 2.0
# What of its task's time it may take before it is interrupted.
SHARE = 0.8
LOOK_EVERY = 0.25
HERE = __file__.rpartition("/")[0]


class Watched:
    """The code of one task, on the thread that enters this."""

    def __init__(self, watch: "Watch", workflow_id: str, timeout: int):
        self.workflow_id = workflow_id
        self.thread = threading.get_ident()
        self.begun = time.monotonic()
        self.longest = timeout / 1_000 * SHARE
        self.named = False
        self.interrupted = False
        self._watch = watch

    def __enter__(self) -> "Watched":
        self._watch.begin(self)
        return self

    def __exit__(
        self, kind: Optional[Type[BaseException]], fault: Optional[BaseException], trace: Optional[TracebackType],
    ) -> None:
        try:
            self._watch.end(self)
            if self.interrupted and kind is not Blocked:
                self._await_interruption()
        except Blocked:
            # It came while this ended, and hits nothing more.
            self._watch.end(self)

    def _await_interruption(self) -> None:
        """The code came to its end while it was interrupted: the interruption must not hit what comes next."""
        try:
            while True:
                time.sleep(0.001)
        except Blocked:
            pass

    def look(self) -> None:
        """Names the code, or interrupts it, where it has taken so long."""
        took = time.monotonic() - self.begun
        if took > NAMED_AFTER and not self.named:
            self.named = True
            LOG.error(
                "%s has blocked its worker for %.0f s: a workflow's code waits by its context alone, and works in "
                "activities. It is at:\n%s", self.workflow_id, took, place_of(self.thread),
            )
        if took > self.longest and not self.interrupted:
            self.interrupted = True
            ctypes.pythonapi.PyThreadState_SetAsyncExc(ctypes.c_ulong(self.thread), ctypes.py_object(Blocked))


class Watch:
    """Looks at all code that runs in this process, on a thread of its own that ends with the process."""

    def __init__(self) -> None:
        self._watched: Set[Watched] = set()
        self._changed = threading.Condition()
        self._thread: Optional[threading.Thread] = None

    def of(self, workflow_id: str, timeout: int) -> Watched:
        """For `with`: watches the code of one task on this thread."""
        return Watched(self, workflow_id, timeout)

    def begin(self, watched: Watched) -> None:
        with self._changed:
            self._watched.add(watched)
            if self._thread is None or not self._thread.is_alive():
                self._thread = threading.Thread(target=self._run, name="workflows watch", daemon=True)
                self._thread.start()
            elif len(self._watched) == 1:
                self._changed.notify()

    def end(self, watched: Watched) -> None:
        with self._changed:
            self._watched.discard(watched)

    def _run(self) -> None:
        while True:
            with self._changed:
                while not self._watched:
                    self._changed.wait()
                for watched in list(self._watched):
                    watched.look()
            time.sleep(LOOK_EVERY)


def place_of(thread: int) -> str:
    """Where the code of a workflow on a thread is, from the workflow's own function on."""
    calls = list(calls_of(sys._current_frames().get(thread)))
    outside = itertools.dropwhile(is_of_the_client, calls)
    own = list(itertools.takewhile(lambda call: not is_of_the_client(call), outside)) or calls
    return "".join(traceback.format_list(own[::-1]))


def calls_of(frame: Optional[FrameType]) -> Iterator[traceback.FrameSummary]:
    """The calls that a thread is in, the innermost first."""
    while frame is not None:
        yield traceback.FrameSummary(frame.f_code.co_filename, frame.f_lineno, frame.f_code.co_name)
        frame = frame.f_back


def is_of_the_client(call: traceback.FrameSummary) -> bool:
    return call.filename.startswith(HERE)


WATCH = Watch()
