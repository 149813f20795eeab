"""What an activity's function may ask of the attempt that calls it."""

from __future__ import annotations

import asyncio
import contextlib
import contextvars
import functools
import logging
from typing import Any, Callable, Iterator, MutableMapping, Optional, Sequence, Tuple

from wfserve.calls import Calls, Task
from wfserve.types import Json

from .activity_info import ActivityInfo, info_of, scheduled_event
from .converter import JSON, Converter
from .heartbeats import Pulse, Sender
from .shutdown import Ending, WorkerStops
from .values import checked_text


# What an activity says by `attempt().logger`.
CODE_LOG = logging.getLogger("wfserve.workflows.activities")
_current: "contextvars.ContextVar[Attempt]" = contextvars.ContextVar("attempt")


class Attempt:
    """One attempt of an activity."""

    def __init__(
        self, service: Calls, task: Task, converter: Converter = JSON, sender: Optional[Sender] = None,
        ending: Optional[Ending] = None, scheduled: Optional[Callable[[], Json]] = None,
    ):
        self._converter = converter
        self._task = task
        self._ending = ending or Ending()
        self._scheduled = scheduled or (lambda: scheduled_event(service, task))
        self._pulse = Pulse(service, task, lambda: self.info.heartbeat, sender)
        self._interrupt: Callable[[], None] = lambda: None
        self.number: int = task.attempt
        self.workflow_id: str = task.workflow_id
        self.run: str = task.run
        self.activity_id: str = task.activity_id
        # What the last heartbeat of an earlier attempt told.
        self.details: Any = converter.value_of(task.details or "")

    @property
    def key(self) -> str:
        """The same for all attempts of this activity, and for no other one: what to make an effect once by."""
        return f"{self.run}/{self.activity_id}"

    @functools.cached_property
    def info(self) -> ActivityInfo:
        """The attempt as a record: also its queue, its timeouts and its retry policy. The first time it is asked,
        the history is read for the event that has these."""
        return info_of(self._task, self._scheduled(), self.details)

    @property
    def logger(self) -> "AttemptLogger":
        """A logger that names the workflow, the activity and the attempt in each line."""
        return AttemptLogger(CODE_LOG, self)

    @property
    def worker_stops(self) -> bool:
        """Whether the worker was told to stop: what takes long does well to end, and to go on in the next attempt."""
        return self._ending.told.is_set()

    def heartbeat(self, details: Any = None) -> None:
        """Tells that the attempt goes on. Raises Cancelled where the workflow asked it to cancel, AttemptOver where the
        attempt was taken from it, and WorkerStops where its worker's time is over.

        At most one in four fifths of the heartbeat's timeout is told, and of those between the last one: so it may be
        called often. Where the service is away the activity goes on. In an `async def` it blocks nothing: there the
        coroutine is cancelled where it waits.
        """
        text = checked_text(self._converter.text_of(details), "the details of a heartbeat")
        self._pulse.beat(text, may_block=not is_on_a_loop())
        if self._ending.is_over:
            raise WorkerStops(f"the worker of attempt {self.number} of {self.activity_id} stops")

    # For the worker that made it.

    @contextlib.contextmanager
    def current(self) -> Iterator[None]:
        """Within it `attempt()` is this one."""
        mark = _current.set(self)
        try:
            yield
        finally:
            _current.reset(mark)

    def interrupted_by(self, interrupt: Callable[[], None]) -> None:
        """Has this called once, where the attempt is to end."""
        self._interrupt = interrupt
        self._pulse.interrupt = interrupt
        self._ending.add(interrupt)

    def why_cancelled(self) -> BaseException:
        """What an attempt ends by whose coroutine was cancelled."""
        if self._pulse.end is not None:
            return self._pulse.end
        if self._ending.is_over:
            return WorkerStops(f"the worker of attempt {self.number} of {self.activity_id} stops")
        return RuntimeError(f"the coroutine of {self.activity_id} was cancelled by itself")

    def ended(self) -> Optional[str]:
        """The function has ended. The details that it left, and that the service has not heard."""
        self._ending.remove(self._interrupt)
        return self._pulse.stop()


class AttemptLogger(logging.LoggerAdapter):  # type: ignore[type-arg]
    """A logger of an activity's code."""

    def __init__(self, logger: logging.Logger, made: Attempt):
        named = {"workflow_id": made.workflow_id, "activity_id": made.activity_id, "attempt": made.number}
        super().__init__(logger, named)
        self._about = f"{made.workflow_id}: attempt {made.number} of {made.activity_id}"

    def process(self, msg: Any, kwargs: MutableMapping[str, Any]) -> Tuple[Any, MutableMapping[str, Any]]:
        return f"{self._about}: {msg}", {**kwargs, "extra": {**(self.extra or {}), **kwargs.get("extra", {})}}


def is_on_a_loop() -> bool:
    """Whether the code that asks runs on an event loop, which it must not block."""
    try:
        asyncio.get_running_loop()
        return True
    except RuntimeError:
        return False


def attempt() -> Attempt:
    """The attempt that calls the function in which this is asked."""
    return _current.get()


def called(function: Callable[..., Any], made: Attempt, arguments: Sequence[Any]) -> Any:
    """The function's value for these arguments, called by this attempt."""
    with made.current():
        return function(*arguments)
