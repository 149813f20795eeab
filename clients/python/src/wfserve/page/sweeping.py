"""What deletes a server's blobs, once no history names them."""

from __future__ import annotations

import asyncio
import json
import logging
import sys
import time
from typing import Dict, FrozenSet, Iterator, Protocol, Set

from wfserve.blobs import names_in
from wfserve.errors import WfserveError

from .asking import Serves, asked, look_for_begun
from .listing import Entry, Workflows


LOG = logging.getLogger("wfserve.blobs")
# What no history names is kept for a day and the retention: a call that will name it may be on its way.
GRACE_SECONDS = 86_400.0
# Seconds between two sweeps: a quarter of the retention, within these.
SHORTEST, LONGEST = 60.0, 21_600.0


class Swept(Protocol):
    """A store of blobs that is swept. Moments are in seconds since 1970."""

    def names(self) -> Iterator[str]:
        """The hashes of all blobs that are there, or some name where there is any."""

    def touch(self, name: str, moment: float) -> None:
        """A history named it at that moment."""

    def delete_before(self, moment: float) -> int:
        """Deletes what was put and named last before that moment. How many these were."""


class Sweeper:
    """Deletes the blobs that no history of the server names, where there is a retention (in milliseconds).

    A blob goes once the retention and a day are over in which it was neither put nor named. So long a run may be kept
    that the list doesn't know any more.
    """

    def __init__(self, serves: Serves, workflows: Workflows, store: Swept, retention: int):
        self._serves = serves
        self._workflows = workflows
        self._store = store
        self._seconds = retention / 1_000
        # What runs that have closed name: their histories stay as they are.
        self._closed: Dict[str, FrozenSet[str]] = {}

    async def run(self) -> None:
        """Sweeps from time to time, until it is cancelled."""
        while self._seconds:
            await asyncio.sleep(min(max(self._seconds / 4, SHORTEST), LONGEST))
            try:
                await self.sweep(time.time())
            except (WfserveError, OSError) as fault:
                LOG.warning("blobs were not looked through: %s", fault)

    async def sweep(self, now: float) -> int:
        """Looks through all histories and blobs, at a moment in seconds since 1970. How many were deleted."""
        loop = asyncio.get_running_loop()
        if not await loop.run_in_executor(None, lambda: next(self._store.names(), None)):
            return 0
        names = await self._named()
        return await loop.run_in_executor(None, self._delete, names, now)

    def _delete(self, names: Set[str], now: float) -> int:
        for name in names:
            self._store.touch(name, now)
        return self._store.delete_before(now - self._seconds - GRACE_SECONDS)

    async def _named(self) -> Set[str]:
        """The hashes of all blobs that histories name, also those of runs that other runs began."""
        await look_for_begun(self._serves, self._workflows, sys.maxsize)
        found: Set[str] = set()
        seen: Set[str] = set()
        # Histories that are read may name further runs.
        while entries := [entry for entry in self._workflows.search("", "", sys.maxsize) if entry.run not in seen]:
            for entry in entries:
                seen.add(entry.run)
                found |= self._closed[entry.run] if entry.run in self._closed else await self._read(entry)
        self._closed = {run: names for run, names in self._closed.items() if run in seen}
        return found

    async def _read(self, entry: Entry) -> FrozenSet[str]:
        """What a run's history names. One that is gone names nothing."""
        self._workflows.reading(entry)
        reply = await asked(self._serves, "history", entry.workflow_id, entry.run)
        if "error" in reply:
            return frozenset()
        self._workflows.take(entry, reply["events"])
        names = names_in(json.dumps(reply["events"]))
        if entry.status != "Running":
            self._closed[entry.run] = names
        return names
