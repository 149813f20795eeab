"""Calls an activity's function for an attempt, and tells the service what came of it."""

from __future__ import annotations

import inspect
import logging
import threading
from typing import Any, Callable, Dict, Optional, Set

from wfserve.calls import Calls, Task
from wfserve.errors import Refused

from .clocks import Clock, WallClock
from .converter import JSON, Converter
from .coroutines import Coroutines
from .current_attempt import Attempt, called
from .errors import AttemptOver, Cancelled, NonRetryable, NotHere
from .heartbeats import Sender
from .interceptors import ActivityCall, Interceptors, chained
from .reports import Reports
from .shutdown import Ending, WorkerStops
from .values import checked_text, clipped


LOG = logging.getLogger("wfserve.workflows")


class BadResult(NonRetryable):
    """An activity gave what no history can hold. Its effect was made, so it isn't tried again."""


class Attempts:
    """The activities of a worker, by their types."""

    def __init__(
        self, service: Calls, activities: Dict[str, Callable[..., Any]], clock: Clock, reports: Reports,
        converter: Converter = JSON, interceptors: Interceptors = (), ending: Optional[Ending] = None,
    ):
        self.ending = ending or Ending()
        # The threads that have an attempt in hand.
        self._busy: Set[int] = set()
        self._service = service
        self._converter = converter
        self._activities = activities
        self._clock = clock
        self._reports = reports
        self._interceptors = interceptors
        # Where time jumps, it stands still while an activity works: each heartbeat is told then.
        self._sender = Sender() if isinstance(clock, WallClock) else None
        self._coroutines = Coroutines()

    @property
    def in_hand(self) -> int:
        """How many attempts are in hand."""
        return len(self._busy)

    def is_busy(self, thread: Optional[int]) -> bool:
        """Whether a thread has an attempt in hand."""
        return thread in self._busy

    def close(self) -> None:
        """Ends the loop of coroutines."""
        self._coroutines.close()

    def make(self, task: Task) -> None:
        """Calls the function, and reports its result, its failure or that it was cancelled."""
        thread = threading.get_ident()
        self._busy.add(thread)
        try:
            self._make(task, Attempt(self._service, task, self._converter, self._sender, self.ending))
        finally:
            self._busy.discard(thread)

    def _make(self, task: Task, attempt: Attempt) -> None:
        try:
            try:
                result = self._result(task, attempt)
            finally:
                left = attempt.ended()
        except Cancelled as cancelled:
            self._report_cancelled(task, cancelled)
        except AttemptOver:
            LOG.info("attempt %s of %s was taken from its worker", task.attempt, task.activity_id)
        except (Exception, SystemExit) as fault:
            self._report_failure(task, left, fault)
        else:
            self._tell(task, lambda: self._service.complete_activity(task, result))

    def _result(self, task: Task, attempt: Attempt) -> str:
        if self.ending.is_over:
            # It came while the worker stopped.
            raise WorkerStops(f"the worker that took {task.activity_id} stops")
        function = self._activities.get(task.activity_type)
        if function is None:
            raise NotHere(f"this worker has no activity {task.activity_type}")
        call = ActivityCall(attempt, task.activity_type, self._converter.arguments_of(task.input, function))
        return result_text(task.activity_type, self._value(function, call), self._converter)

    def _value(self, function: Callable[..., Any], call: ActivityCall) -> Any:
        """The function's value, and what stands around it."""
        if inspect.iscoroutinefunction(function):
            made = chained(self._interceptors, "async_activity", lambda it: awaited(function, it))(call)
        else:
            made = chained(self._interceptors, "activity", lambda it: called(function, it.attempt, it.arguments))(call)
        # A plain function may give a coroutine too, as one that stands in for another.
        return self._coroutines.result(made, call.attempt) if inspect.isawaitable(made) else made

    def _report_cancelled(self, task: Task, cancelled: Cancelled) -> None:
        try:
            self._tell(task, lambda: self._service.cancel_activity(task, clipped(str(cancelled))))
        except Refused as refused:
            # Only what was asked to cancel can say that it is cancelled.
            if refused.name != "InvalidArgument":
                raise
            self._tell(task, lambda: self._service.fail_activity(
                task, f"{task.activity_type} raised Cancelled, and was not asked to cancel", error_type="Cancelled",
            ))

    def _report_failure(self, task: Task, left: Optional[str], fault: BaseException) -> None:
        """Tells a failure, and before it the details that the next attempt goes on from."""
        if left is not None:
            self._tell(task, lambda: self._service.heartbeat(task, left))
        ready: Optional[int] = self._tell(task, lambda: self._service.fail_activity(
            task, clipped(str(fault)), error_type=clipped(type(fault).__name__),
            non_retryable=True if isinstance(fault, NonRetryable) else None,
        ))
        if ready is not None:
            self._clock.expect(ready)

    def _tell(self, task: Task, report: Callable[[], Any]) -> Any:
        return self._reports.tell(f"{task.workflow_id}: attempt {task.attempt} of {task.activity_id}", report)


async def awaited(function: Callable[..., Any], call: ActivityCall) -> Any:
    """The value of an `async def` for these arguments."""
    return await function(*call.arguments)


def result_text(activity_type: str, value: Any, converter: Converter = JSON) -> str:
    """A result as a history has it."""
    try:
        return checked_text(converter.text_of(value), f"the result of {activity_type}")
    except (TypeError, ValueError, RecursionError) as fault:
        raise BadResult(str(fault) if isinstance(fault, ValueError) else f"{activity_type} gave no JSON: {fault}") from fault
