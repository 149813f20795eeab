"""Handlers of a workflow's signals and queries, and conditions that its code waits for."""

from __future__ import annotations

import inspect
from typing import Any, Callable, Coroutine, Dict, List, Optional

from wfserve.errors import WfserveError

from .errors import ContinueAsNew, Failure
from .loop import Future, Loop, Task
from .typed import typed_arguments


Handler = Callable[..., Any]
# A cancelled handler ends alone.
ENDS_RUNS = (Exception, ContinueAsNew)


class ConditionTimedOut(Failure, TimeoutError):
    """A condition did not hold by the time that was given it."""


class NoSuchQuery(WfserveError):
    """The workflow's code answers no query of this name."""


class Condition(Future):
    """Is done once a function of no arguments says so. It is asked whenever the code of the workflow has gone on."""

    def __init__(self, loop: Loop, holds: Callable[[], Any]):
        super().__init__(loop)
        self._holds = holds
        if not self.look():
            loop.conditions.append(self)

    def look(self) -> bool:
        """Ends it where it holds, or where the function fails. Whether it has ended now."""
        if self.done:
            return False
        try:
            if self.loop.step(self._holds):
                self.set_value(None)
        except Exception as fault:
            self.set_fault(fault)
        return self.done


class Handlers:
    """What the code of a workflow has to handle signals and to answer queries with."""

    def __init__(
        self, loop: Loop, handled: Callable[[Handler, str, Any], Coroutine[Any, Any, Any]],
        answered: Callable[[Handler, str, List[Any]], Any],
    ):
        self._loop = loop
        # The coroutine of a handler, and the answer of a query, with what stands around them.
        self._handled, self._answered = handled, answered
        self._signals: Dict[str, Handler] = {}
        self._queries: Dict[str, Handler] = {}
        self._running: List[Task] = []

    # Signals.

    def add(self, name: str, handler: Handler) -> None:
        """From now on signals of this name are handled so. ValueError where they are already."""
        if name in self._signals:
            raise ValueError(f"signals named {name!r} have a handler already")
        self._signals[name] = handler

    def handles(self, name: str) -> bool:
        """Whether signals of this name have a handler."""
        return name in self._signals

    def handle(self, name: str, value: Any) -> None:
        """Lets the handler of a signal run beside the code, from its beginning on in the order of the signals."""
        task = self._loop.task(self._handled(self._signals[name], name, value))
        # A fault of it is nobody's to wait for: it is the workflow's.
        task.heard = True
        self._running.append(task)

    @property
    def all_finished(self) -> bool:
        """Whether no handler is under way."""
        return all(task.done for task in self._running)

    def fault(self) -> Optional[BaseException]:
        """What a handler ends the run by, if one does: its fault, or that it goes on in a new run."""
        self._running = [task for task in self._running if not task.done or isinstance(task.fault, ENDS_RUNS)]
        return next((task.fault for task in self._running if task.done), None)

    # Queries.

    def add_query(self, name: str, answer: Handler) -> None:
        """From now on a query of this name is answered so."""
        self._queries[name] = answer

    def answer(self, name: str, arguments: List[Any]) -> Any:
        """The answer to a query. NoSuchQuery where the code has none."""
        if name not in self._queries:
            known = ", ".join(sorted(self._queries)) or "none"
            raise NoSuchQuery(f"the workflow answers no query named {name!r}; it answers {known}")
        return self._loop.step(lambda: self._answered(self._queries[name], name, arguments))


async def called(handler: Handler, value: Any) -> None:
    """Calls a handler of a signal with its value, or without where it takes none."""
    made = handler(*typed_arguments(handler, [value])) if takes_value(handler) else handler()
    if inspect.isawaitable(made):
        await made


def takes_value(handler: Handler) -> bool:
    """Whether a handler can be called with one value."""
    try:
        inspect.signature(handler).bind(None)
        return True
    except TypeError:
        return False
