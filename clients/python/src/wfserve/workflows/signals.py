"""The signals of a run: each is taken once, in the order in which they came."""

from __future__ import annotations

from bisect import insort
from collections import Counter
from dataclasses import dataclass, field
from typing import Any, Dict, List, Optional, Tuple

from .errors import Cancelled
from .handlers import Handlers
from .loop import Future, Loop


@dataclass(frozen=True, order=True)
class Came:
    """A signal's number among those of its run, and its value."""

    number: int
    value: Any = field(compare=False)


class Signal(Future):
    """The next signal of a name. Where nobody takes it, it waits for the next one who asks."""

    def __init__(self, inbox: "Inbox", name: str):
        super().__init__(inbox.loop)
        self._inbox = inbox
        self.name = name
        self.taken = False
        self.number = 0

    def give(self, came: Came) -> None:
        """This signal came for it."""
        self.number = came.number
        self.set_value(came.value)

    @property
    def is_awaited(self) -> bool:
        """Whether somebody waits for it."""
        return bool(self._callbacks)

    def result(self) -> Any:
        """The signal's value, which nobody else gets then. Cancelled where it was given up."""
        self.taken = True
        return super().result()

    def cancel(self) -> None:
        """Waits for it no longer. A signal that came and was not taken is left for the next who asks."""
        if not self.done:
            self._inbox.forget(self)
            self.set_fault(Cancelled())
        elif not self.taken and self.fault is None:
            self.taken = True
            if not self.loop.older:
                # Who looks at it all the same must not have what another one gets.
                self.fault = Cancelled()
            self._inbox.give_back(self.name, Came(self.number, self.value))


class Signals:
    """The signals of a name that came, and that nobody has taken."""

    def __init__(self, inbox: "Inbox", name: str):
        self._inbox = inbox
        self._name = name

    def __len__(self) -> int:
        return len(self._inbox.waiting_values(self._name))

    @property
    def count(self) -> int:
        """How many there are."""
        return len(self)

    def drain(self) -> List[Any]:
        """Takes all of them, in the order in which they came."""
        waiting = self._inbox.waiting_values(self._name)
        taken = [came.value for came in waiting]
        waiting.clear()
        return taken


class Inbox:
    """The signals of a run, by their names."""

    def __init__(self, loop: Loop, handlers: Handlers):
        self.loop = loop
        self.handlers = handlers
        self._count = 0
        self._values: Dict[str, List[Came]] = {}
        self._waiting: Dict[str, List[Signal]] = {}
        # Signals that got a value, which may be given back.
        self._given: List[Signal] = []

    def take_over(self, name: str) -> List[Any]:
        """Takes the signals of a name that wait, for a handler that gets all later ones too."""
        return Signals(self, name).drain()

    def next(self, name: str) -> Signal:
        """The next signal of a name that nobody has: one that waits, or the one that comes."""
        signal = Signal(self, name)
        values = self.waiting_values(name)
        if values:
            self._give(signal, values.pop(0))
        else:
            self._waiting.setdefault(name, []).append(signal)
        return signal

    def waiting_values(self, name: str) -> List[Came]:
        """The signals of a name that came and that nobody has."""
        return self._values.setdefault(name, [])

    def deliver(self, name: str, value: Any) -> None:
        """A signal came: for its handler, for the first who waits for one, or for the next who asks."""
        self._count += 1
        if self.handlers.handles(name):
            self.handlers.handle(name, value)
            return
        came, signal = Came(self._count, value), self._next_waiting(name)
        if signal is None:
            self.waiting_values(name).append(came)
        else:
            self._give(signal, came)

    def give_back(self, name: str, came: Came) -> None:
        """A signal that was kept for someone who gave up: it has its old place again."""
        signal = self._next_waiting(name)
        if signal is not None:
            self._give(signal, came)
        elif self.loop.older:
            self.waiting_values(name).insert(0, came)
        else:
            insort(self.waiting_values(name), came)

    def forget(self, signal: Signal) -> None:
        """Nobody waits for this one any longer."""
        waiting = self._waiting.get(signal.name, [])
        if signal in waiting:
            waiting.remove(signal)

    def left(self) -> List[Tuple[str, Any]]:
        """The names and values of the signals that nobody took, in the order in which they came."""
        left = [(signal.number, signal.name, signal.value) for signal in self._given if not signal.taken]
        for name, values in self._values.items():
            left += [(came.number, name, came.value) for came in values]
        return [(name, value) for _, name, value in sorted(left, key=lambda it: it[0])]

    def _next_waiting(self, name: str) -> Optional[Signal]:
        """Who gets the next signal: the first that somebody waits for, or else the first that was asked for."""
        waiting = self._waiting.setdefault(name, [])
        if not waiting:
            return None
        awaited = [] if self.loop.older else [signal for signal in waiting if signal.is_awaited]
        signal = (awaited or waiting)[0]
        waiting.remove(signal)
        return signal

    def _give(self, signal: Signal, came: Came) -> None:
        self._given = [given for given in self._given if not given.taken]
        self._given.append(signal)
        signal.give(came)


def told_of(left: List[Tuple[str, Any]]) -> str:
    """How many signals of which name were left."""
    counts = Counter(name for name, _ in left)
    return ", ".join(f"{count} of {name!r}" for name, count in sorted(counts.items()))
