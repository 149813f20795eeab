"""Several that are waited for at once, and one that is kept from being cancelled."""

from __future__ import annotations

from typing import Any, List, NamedTuple, Optional

from .errors import Cancelled
from .loop import Future, Loop, Task


class Several(Future):
    """Waits for some of its parts. Where it is cancelled, so are they, and it is done once all of them are."""

    def __init__(self, loop: Loop, parts: List[Future]):
        super().__init__(loop)
        self._parts = parts
        self._cancelling = False
        self._taken = False
        for part in parts:
            part.when_done(self._look)

    @property
    def told(self) -> bool:
        return super().told or self._cancelling and any(part.told for part in self._parts if isinstance(part, Task))

    def _look(self) -> None:
        if self.done:
            return
        if not self._cancelling:
            self._look_for_end()
        elif all(part.done for part in self._parts):
            self._end_cancelled()

    def result(self) -> Any:
        """Takes its value, and so the signals that are in it."""
        value = super().result()
        self._taken = True
        for part in self._counting():
            part.result()
        return value

    def cancel(self) -> None:
        """Gives up all its parts, and ends once they have ended."""
        if self.done and not self._taken and not self.loop.older:
            self._give_up()
        if self.done or self._cancelling:
            return
        if self.loop.older:
            self.set_fault(Cancelled())
        self._cancelling = True
        self._cancel_parts()
        self._look()

    def _cancel_parts(self) -> None:
        for part in self._parts:
            if not part.done:
                part.cancel()

    def _give_up(self, but: Optional[Future] = None) -> None:
        """Cancels all parts. Signals that came to some of them stay for the next one who asks."""
        for part in self._parts:
            if part is not but:
                part.cancel()

    def _end_in_vain(self) -> None:
        """Ends it with a fault of a part, one that is no cancellation where there is one."""
        faults = [part.fault for part in self._parts if part.fault is not None]
        self.set_fault(next((fault for fault in faults if not isinstance(fault, Cancelled)), Cancelled()))
        self._give_up()

    def _counting(self) -> List[Future]:
        """The parts whose values are in its own."""
        raise NotImplementedError

    def _look_for_end(self) -> None:
        """Ends it where enough of its parts are done."""
        raise NotImplementedError

    def _end_cancelled(self) -> None:
        """Ends it where it was cancelled and all parts have ended."""
        raise NotImplementedError


class Gathered(Several):
    """The values of several, in their order, or the first fault, which cancels the others."""

    def __init__(self, loop: Loop, parts: List[Future]):
        super().__init__(loop, parts)
        self._look()

    def _counting(self) -> List[Future]:
        return self._parts

    def _look_for_end(self) -> None:
        failed = next((part for part in self._parts if part.done and part.fault is not None), None)
        if failed is not None and failed.fault is not None:
            self.set_fault(failed.fault)
            if self.loop.older:
                self._cancel_parts()
            else:
                self._give_up(but=failed)
        elif all(part.done for part in self._parts):
            self.set_value([part.value for part in self._parts])

    def _end_cancelled(self) -> None:
        if all(part.fault is None for part in self._parts):
            self.set_value([part.value for part in self._parts])
        else:
            self._end_in_vain()


class First(NamedTuple):
    """Which of several was done first, and its value."""

    # A tuple has a method of this name, which nobody asks for here.
    index: int  # type: ignore[assignment]
    value: Any


class FirstOf(Several):
    """The first of several that is done. The others are given up."""

    def _counting(self) -> List[Future]:
        return [self._parts[self.value.index]]

    def _look_for_end(self) -> None:
        index = next((i for i, part in enumerate(self._parts) if part.done), None)
        if index is None:
            return
        winner = self._parts[index]
        if winner.fault is not None:
            self.set_fault(winner.fault)
        else:
            self.set_value(First(index, winner.value))
        self._give_up(but=winner)

    def _end_cancelled(self) -> None:
        index = next((i for i, part in enumerate(self._parts) if part.fault is None), None)
        if index is None:
            self._end_in_vain()
        else:
            self.set_value(First(index, self._parts[index].value))
            self._give_up(but=self._parts[index])


class Shielded(Future):
    """Ends as another one does. Where it is cancelled, the other one goes on."""

    def __init__(self, loop: Loop, inner: Future):
        super().__init__(loop)
        self._inner = inner
        inner.when_done(self._look)

    def _look(self) -> None:
        if self.done:
            return
        if self._inner.fault is not None:
            self.set_fault(self._inner.fault)
        else:
            self.set_value(self._inner.result())
