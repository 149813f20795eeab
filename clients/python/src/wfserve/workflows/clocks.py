"""The moments at which calls are made: the wall's, or those that a test hands in."""

from __future__ import annotations

import heapq
import time
from typing import List, Optional, Union


class Expecting:
    """Knows moments at which something may be due."""

    def __init__(self) -> None:
        self._moments: List[int] = []

    def expect(self, moment: int) -> None:
        """Something may be due then."""
        heapq.heappush(self._moments, moment)

    def _next(self, now: int) -> Optional[int]:
        """The next expected moment behind this one."""
        while self._moments and self._moments[0] <= now:
            heapq.heappop(self._moments)
        return self._moments[0] if self._moments else None


class WallClock(Expecting):
    """Milliseconds since 1970."""

    def __init__(self) -> None:
        super().__init__()
        self._ahead = 0

    @property
    def now(self) -> int:
        """This moment, in milliseconds since 1970."""
        return time.time_ns() // 1_000_000 + self._ahead

    def go_on_from(self, moment: int) -> None:
        """Is no earlier than a moment at which something was done: the wall's clock may have been ahead then."""
        self._ahead += max(moment - self.now, 0)

    def expect(self, moment: int) -> None:
        """Something may be due then. Nobody may ever jump, so what is over is forgotten here too."""
        self._next(self.now)
        super().expect(moment)

    def jump(self, most: int = 1_000) -> None:
        """Sleeps until the next expected moment, and at most so long."""
        now = self.now
        following = self._next(now)
        time.sleep(min(most, following - now if following is not None else most) / 1_000)


class JumpingClock(Expecting):
    """Stands still while there is something to do, and jumps to the next moment at which something may be due."""

    def __init__(self, now: int = 0):
        super().__init__()
        self.now = now

    def jump(self, most: int = 0) -> None:
        """Goes to the next expected moment, and where there is none on by `most`."""
        following = self._next(self.now)
        self.now = self.now + most if following is None else following


Clock = Union[JumpingClock, WallClock]
