"""What a service is opened with."""

from __future__ import annotations

from dataclasses import dataclass
from typing import List, Sequence


@dataclass(frozen=True)
class Settings:
    """What a service is opened with."""

    shards: int = 1
    service: int = 1
    queues: Sequence[str] = ("main",)
    # How many tasks wait in a queue at most. A journal doesn't say it; a log's may grow, and never falls.
    capacity: int = 1024
    # For how many milliseconds a workflow that has closed is kept; 0 for ever.
    retention: int = 0

    def options(self) -> List[str]:
        """The program's options for it."""
        return [
            "--shards", str(self.shards), "--service", str(self.service),
            "--queues", ",".join(self.queues), "--capacity", str(self.capacity),
            "--retention", str(self.retention),
        ]
