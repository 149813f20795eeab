"""A loop that runs coroutines in an order that depends on nothing but what happened to them."""

from __future__ import annotations

from collections import deque
from contextlib import suppress
from typing import TYPE_CHECKING, Any, Callable, Coroutine, Deque, Generator, List, Optional

from .errors import Cancelled, ContinueAsNew, ReplayOver
from .guard import Guard

if TYPE_CHECKING:
    from .handlers import Condition
    from .scopes import Scope


class Loop:
    """Runs what can go on, first come, first served. `older` are the rules of earlier versions of this client."""

    def __init__(self, older: bool = False):
        self.older = older
        self.closed = False
        self.guard = Guard()
        self.is_guarded = True
        # The task whose code runs now.
        self.current: Optional[Task] = None
        self.tasks: List[Task] = []
        self.conditions: List[Condition] = []
        self._ready: Deque[Callable[[], None]] = deque()

    def soon(self, step: Callable[[], None]) -> None:
        self._ready.append(step)

    def run(self) -> None:
        """Runs until everything waits, and no condition holds."""
        while True:
            while self._ready:
                self._ready.popleft()()
            if not self._is_condition_met():
                return

    def _is_condition_met(self) -> bool:
        """Looks at all conditions that are waited for, in their order. Whether one of them holds now."""
        met = [condition.look() for condition in self.conditions]
        self.conditions = [condition for condition in self.conditions if not condition.done]
        return any(met)

    def step(self, go_on: Callable[[], Any]) -> Any:
        """Lets code go on, under the guard where it is told to be."""
        if not self.is_guarded:
            return go_on()
        with self.guard:
            return go_on()

    def task(self, coroutine: Coroutine[Any, Any, Any]) -> "Task":
        task = Task(self, coroutine)
        self.tasks.append(task)
        return task

    def close(self) -> None:
        """Ends what still waits. Its code can ask for nothing any more."""
        self.closed = True
        for task in self.tasks:
            task.close()


class Future:
    """What will have a value, or a fault."""

    def __init__(self, loop: Loop):
        self.loop = loop
        self.done = False
        self.value: Any = None
        self.fault: Optional[BaseException] = None
        # Whether somebody waits for it, or has asked for its result.
        self.heard = False
        self._callbacks: List[Callable[[], None]] = []

    def set_value(self, value: Any) -> None:
        """It is done, with this value. What was done before stays so."""
        if not self.done:
            self.value = value
            self._finish()

    def set_fault(self, fault: BaseException) -> None:
        """It is done, by this fault. What was done before stays so."""
        if not self.done:
            self.fault = fault
            self._finish()

    def _finish(self) -> None:
        self.done = True
        callbacks, self._callbacks = self._callbacks, []
        for callback in callbacks:
            callback()

    def when_done(self, callback: Callable[[], None]) -> None:
        """Calls it at once where it is done already."""
        self.heard = True
        if self.done:
            callback()
        else:
            self._callbacks.append(callback)

    def result(self) -> Any:
        """Its value. What it failed by is raised."""
        self.heard = True
        if self.fault is not None:
            raise self.fault
        return self.value

    @property
    def told(self) -> bool:
        """Whether its code, or who waits for it, learned that it was cancelled."""
        return isinstance(self.fault, Cancelled)

    def cancel(self) -> None:
        """Gives it up: who waits for it gets Cancelled."""
        self.set_fault(Cancelled())

    def __await__(self) -> Generator["Future", None, Any]:
        if self.loop.closed:
            raise ReplayOver()
        if not self.done:
            yield self
        return self.result()


class Task(Future):
    """A coroutine that goes on whenever what it waits for is done."""

    def __init__(self, loop: Loop, coroutine: Coroutine[Any, Any, Any]):
        super().__init__(loop)
        # The scopes that its code is in, the innermost last.
        self.scopes: List[Scope] = []
        self._coroutine = coroutine
        self._awaited: Optional[Future] = None
        self._begun = False
        # Whether Cancelled is thrown at its next step.
        self._cancelled = False
        # Cancellations that its code has not learned of: of a scope, or (None) of the whole task.
        self._owed: List[Optional[Scope]] = []
        self._told = False
        loop.soon(self._step)

    @property
    def told(self) -> bool:
        return self._told or super().told

    @property
    def name(self) -> str:
        return str(getattr(self._coroutine, "__qualname__", type(self._coroutine).__name__))

    def _step(self) -> None:
        if self.done:
            return
        self.loop.current, self._begun = self, True
        try:
            self._await(self._resumed())
        except StopIteration as stop:
            self.set_value(stop.value)
        except (Exception, Cancelled, ContinueAsNew) as fault:
            self.set_fault(fault)
        finally:
            self.loop.current = None

    def _resumed(self) -> Any:
        """Lets the coroutine go on, and gives what it waits for next."""
        awaited, self._awaited = self._awaited, None
        if self._cancelled:
            self._cancelled, self._told = False, True
            return self.loop.step(lambda: self._coroutine.throw(Cancelled()))
        if awaited is not None and awaited.told:
            self._learn()
        return self.loop.step(lambda: self._coroutine.send(None))

    def _await(self, awaited: Any) -> None:
        if not isinstance(awaited, Future):
            raise TypeError("a workflow awaits nothing but what its context gives; for asyncio.sleep that is ctx.timer")
        self._awaited = awaited
        awaited.when_done(lambda: self.loop.soon(self._step))
        if any(self._reaches(scope) for scope in self._owed):
            awaited.cancel()

    # Cancellations.

    def cancel(self) -> None:
        """Cancels what it waits for, so that it learns of it there. What is done already is given to it first,
        and where that wait ends with a value all the same, it learns at its next one."""
        if self.done:
            return
        if self.loop.older:
            self._cancel_by_older_rules()
        elif not self._begun:
            self._cancelled = True
        else:
            self.cancel_within(None)

    def _cancel_by_older_rules(self) -> None:
        if self._awaited is None or self._awaited.done:
            self._cancelled = True
        else:
            self._awaited.cancel()

    def cancel_within(self, scope: "Optional[Scope]") -> None:
        """Cancels what its code does in a scope; None is all that it does."""
        self._owed.append(scope)
        if self._awaited is not None and not self._awaited.done and self._reaches(scope):
            self._awaited.cancel()

    def leave(self, scope: "Scope") -> None:
        """Its code has left a scope."""
        self.scopes.remove(scope)
        self._owed = [owed for owed in self._owed if owed is not scope]

    def _within(self, scope: "Optional[Scope]") -> "List[Scope]":
        """The scopes inside of a scope that its code is in; all of them for None."""
        return self.scopes if scope is None else self.scopes[self.scopes.index(scope) + 1:]

    def _reaches(self, scope: "Optional[Scope]") -> bool:
        """Whether a cancellation of a scope reaches the code where it is: no shield is between them."""
        return not any(inner.shield for inner in self._within(scope))

    def learn_at_once(self) -> bool:
        """Whether it was cancelled as a whole, and its code has not learned of that: it learns now, shielded or not."""
        if None not in self._owed:
            return False
        self.take_as_told()
        return True

    def take_as_told(self) -> None:
        """Its code has learned that it is cancelled as a whole."""
        self._owed = [owed for owed in self._owed if owed is not None]
        self._told = True
        for scope in self.scopes:
            scope.passes_on = True

    def _learn(self) -> None:
        """Its code learns of the cancellations that reach it."""
        for owed in [owed for owed in self._owed if self._reaches(owed)]:
            self._owed.remove(owed)
            self._told = self._told or owed is None
            for inner in self._within(owed):
                inner.passes_on = True

    def close(self) -> None:
        """Ends its code where it stands, without a word of what that raises."""
        with suppress(Exception, Cancelled, ContinueAsNew, ReplayOver):
            self._coroutine.close()
