"""Runs that a worker knows: their code stays where it waits, and goes on by the events that are new.

A run is dropped at any doubt, and then replayed from its first event as before: where the history does not go on from
the task that was completed here, where anything is raised, and where there are more runs than are kept. And so it is
at its second task, and whenever its history has doubled: code that isn't the same twice is found early, and all of
these replays together cost about as much as the last one.
"""

from __future__ import annotations

import threading
from collections import OrderedDict
from dataclasses import dataclass
from typing import List, Optional

from wfserve.types import Event

from .replay import Replay


@dataclass
class Kept:
    """A replay, the last event that it knows (that a worker took the task which it then completed), and for how many
    milliseconds the code of a task may run."""

    replay: Replay
    last: Event
    timeout: int

    def goes_on_by(self, events: List[Event]) -> bool:
        """Whether these events, from the last known one on, begin with the end of that task, and another is in hand."""
        return (
            len(events) > 2 and events[0] == self.last and events[1]["type"] == "WorkflowTaskCompleted"
            and events[-1]["type"] == "WorkflowTaskStarted"
        )

    def has_doubled(self, length: int) -> bool:
        """Whether a history of so many events has one binary digit more than before: then it is replayed as a whole."""
        return length.bit_length() > int(self.last["id"]).bit_length()


class KeptRuns:
    """At most so many runs, by their ids. The one that had no task for the longest time is dropped first."""

    def __init__(self, most: int):
        self._most = most
        self._kept: "OrderedDict[str, Kept]" = OrderedDict()
        self._changed = threading.Lock()

    def __len__(self) -> int:
        return len(self._kept)

    def __contains__(self, run: str) -> bool:
        return run in self._kept

    def __del__(self) -> None:
        # Code that waits ends here, and not where its memory happens to be given back.
        self.clear()

    def take(self, run: str) -> Optional[Kept]:
        """The run, which is no longer kept; None where it isn't known."""
        with self._changed:
            return self._kept.pop(run, None)

    def put(self, run: str, kept: Kept) -> None:
        """Keeps a run whose task was completed. One whose code has come to its end isn't kept."""
        if not self._most or kept.replay.has_closed or kept.replay.loop.closed:
            return
        with self._changed:
            self._kept[run] = kept
            dropped = self._kept.popitem(last=False)[1] if len(self._kept) > self._most else None
        if dropped is not None:
            dropped.replay.close()

    def clear(self) -> None:
        """Drops all runs."""
        with self._changed:
            dropped = list(self._kept.values())
            self._kept.clear()
        for kept in dropped:
            kept.replay.close()
