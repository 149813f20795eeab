"""Scopes of cancellation: parts of a workflow's code that are cancelled by themselves, or not at all."""

from __future__ import annotations

from types import TracebackType
from typing import Optional, Type

from .errors import Cancelled
from .loop import Loop, Task


class Scope:
    """A part of a workflow's code, as `with ctx.scope() as scope:`.

    `scope.cancel()` raises Cancelled where the code in it waits; that ends at the scope, and
    `scope.cancelled` says so. In one with a shield the code isn't cancelled from outside. It learns
    of that where it waits first after the scope.
    """

    def __init__(self, loop: Loop, shield: bool = False):
        self.shield = shield
        self.cancelled = False
        # Whether something around the scope was cancelled too, so that Cancelled doesn't end here.
        self.passes_on = False
        self._loop = loop
        self._task: Optional[Task] = None

    def __enter__(self) -> "Scope":
        if self._loop.current is None or self._task is not None:
            raise RuntimeError("a scope is entered once, by the code of a workflow")
        self._task = self._loop.current
        self._task.scopes.append(self)
        return self

    def __exit__(
        self, kind: Optional[Type[BaseException]], fault: Optional[BaseException], trace: Optional[TracebackType],
    ) -> bool:
        assert self._task is not None
        self._task.leave(self)
        return isinstance(fault, Cancelled) and self.cancelled and not self.passes_on

    def cancel(self) -> None:
        """Cancels what the code in it does. Where it was left already, nothing happens."""
        if self._task is not None and self in self._task.scopes and not self.cancelled:
            self.cancelled = True
            self._task.cancel_within(self)
