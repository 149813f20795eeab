"""Runs activities that are an `async def`: on one event loop, on a thread that is there as long as the process."""

from __future__ import annotations

import asyncio
import concurrent.futures
import threading
from typing import Any, Awaitable, Callable, Optional

from .current_attempt import Attempt


class Coroutines:
    """The loop of a worker's coroutines. It is made with the first of them."""

    def __init__(self) -> None:
        self._loop: Optional[asyncio.AbstractEventLoop] = None
        self._lock = threading.Lock()

    def result(self, made: Awaitable[Any], attempt: Attempt) -> Any:
        """What it comes to. It is cancelled, as asyncio does it, where the attempt is to end."""
        loop = self._running()

        async def run() -> Any:
            attempt.interrupted_by(canceller(loop, asyncio.current_task()))
            return await made

        try:
            # The coroutine's task is made with the context of here, in which the attempt is the current one.
            with attempt.current():
                future = asyncio.run_coroutine_threadsafe(run(), loop)
            return future.result()
        except (asyncio.CancelledError, concurrent.futures.CancelledError):
            raise attempt.why_cancelled() from None

    def _running(self) -> asyncio.AbstractEventLoop:
        with self._lock:
            if self._loop is None:
                self._loop = asyncio.new_event_loop()
                threading.Thread(target=self._loop.run_forever, name="activities", daemon=True).start()
            return self._loop

    def close(self) -> None:
        """Ends the loop, where nothing runs on it any more."""
        with self._lock:
            loop, self._loop = self._loop, None
        if loop is not None:
            loop.call_soon_threadsafe(loop.stop)


def canceller(loop: asyncio.AbstractEventLoop, task: "Optional[asyncio.Task[Any]]") -> Callable[[], None]:
    """What cancels a task of a loop, from another thread."""

    def cancel() -> None:
        if task is not None:
            loop.call_soon_threadsafe(task.cancel)

    return cancel
