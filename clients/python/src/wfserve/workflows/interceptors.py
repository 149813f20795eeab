"""What stands around the calls of a client, the workflows and the activities of a worker: a chain of interceptors.

    class Timed(Interceptor):
        def activity(self, call, go_on):
            began = time.monotonic()
            try:
                return go_on(call)
            finally:
                print(call.activity_type, time.monotonic() - began)

    Worker(service, .., interceptors=[Timed()])

The first of a list is the outermost. Each is handed a record of the call, and `go_on`, which makes it: it may change
the record, look at what comes of it, or answer in its place. What stands around a workflow's code is such code
itself: it runs again in each replay, asks for nothing by itself, and `call.ctx.is_replaying` says whether it is one.
"""

from __future__ import annotations

import functools
from dataclasses import dataclass, field
from typing import TYPE_CHECKING, Any, Awaitable, Callable, Dict, List, Optional, Sequence

if TYPE_CHECKING:
    from .context import Context
    from .current_attempt import Attempt


@dataclass
class ActivityCall:
    """An attempt of an activity that a worker makes."""

    attempt: Attempt
    activity_type: str
    arguments: List[Any]


@dataclass
class WorkflowCall:
    """A run's code, from its first event on."""

    ctx: Context
    workflow_type: str
    arguments: List[Any]


@dataclass
class SignalCall:
    """A signal that a handler takes."""

    ctx: Context
    name: str
    value: Any


@dataclass
class QueryCall:
    """A query that the code answers."""

    ctx: Context
    name: str
    arguments: List[Any]


@dataclass
class ClientCall:
    """What a client asks for: `name` is start, signal_with_start, signal, cancel, terminate, query, describe or result.

    `arguments` are those of the workflow, of the signal (one value) or of the query. `options` are the other words
    of the method, as `queue`, `signal` and `reason`.
    """

    name: str
    id: str
    run: Optional[str] = None
    workflow_type: str = ""
    arguments: List[Any] = field(default_factory=list)
    options: Dict[str, Any] = field(default_factory=dict)


class Interceptor:
    """Goes on with each call as it is. Override what you want to stand around."""

    def activity(self, call: ActivityCall, go_on: Callable[[ActivityCall], Any]) -> Any:
        """An attempt of a plain function, on the worker's thread."""
        return go_on(call)

    async def async_activity(self, call: ActivityCall, go_on: Callable[[ActivityCall], Awaitable[Any]]) -> Any:
        """An attempt of an `async def`, on the worker's event loop."""
        return await go_on(call)

    async def workflow(self, call: WorkflowCall, go_on: Callable[[WorkflowCall], Awaitable[Any]]) -> Any:
        """The code of a run."""
        return await go_on(call)

    async def signal(self, call: SignalCall, go_on: Callable[[SignalCall], Awaitable[Any]]) -> Any:
        """A handler of a signal."""
        return await go_on(call)

    def query(self, call: QueryCall, go_on: Callable[[QueryCall], Any]) -> Any:
        """An answer to a query."""
        return go_on(call)

    def client(self, call: ClientCall, go_on: Callable[[ClientCall], Any]) -> Any:
        """A call of a client, or of one of its handles."""
        return go_on(call)


Interceptors = Sequence[Interceptor]


def chained(interceptors: Interceptors, method: str, last: Callable[[Any], Any]) -> Callable[[Any], Any]:
    """A function of a call's record, by which the first interceptor is asked, and in the end `last`."""
    go_on = last
    for it in reversed(interceptors):
        go_on = functools.partial(_asked, getattr(it, method), go_on)
    return go_on


def _asked(method: Callable[[Any, Callable[[Any], Any]], Any], go_on: Callable[[Any], Any], call: Any) -> Any:
    return method(call, go_on)
