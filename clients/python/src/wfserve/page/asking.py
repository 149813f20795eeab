"""Reads that the page makes for itself: of histories, and of the runs that others began."""

from __future__ import annotations

import asyncio
import json
from typing import Dict, Optional, Protocol, Sequence, Tuple

from wfserve.types import Reply, Request

from .listing import Workflows


class Waiter:
    """Waits for a reply by a future."""

    def __init__(self) -> None:
        self.future: "asyncio.Future[bytes]" = asyncio.get_running_loop().create_future()

    def answer(self, text: bytes) -> None:
        """Takes the reply's text."""
        if not self.future.done():
            self.future.set_result(text)

    def fail(self, fault: Exception) -> None:
        """Learns that there is none."""
        if not self.future.done():
            self.future.set_exception(fault)


class Moment(Protocol):
    """The moment of who serves, in milliseconds."""

    def now(self) -> int:
        """The moment."""


class Counted(Protocol):
    """The polls that wait."""

    def counts(self) -> Dict[Tuple[str, str], int]:
        """How many polls wait, by their operation and their queue."""


class Serves(Protocol):
    """Who serves, as the page asks it."""

    @property
    def moments(self) -> Moment:
        """Its moment."""

    @property
    def polls(self) -> Counted:
        """The polls that wait there."""

    @property
    def queues(self) -> Sequence[str]:
        """The task queues that it has."""

    def submit(self, request: Request, begin: bytes, receiver: Waiter) -> None:
        """Asks a call, whose text without its last brace is `begin`. The receiver gets the reply, or why there is none."""


async def asked(serves: Serves, op: str, workflow_id: str, run: Optional[str] = None) -> Reply:
    """The reply to a read."""
    named = {} if run is None else {"run": run}
    request, waiter = {"op": op, "workflow_id": workflow_id, **named}, Waiter()
    serves.submit(request, json.dumps(request).encode()[:-1], waiter)
    reply: Reply = json.loads(await waiter.future)
    return reply


async def look_for_begun(serves: Serves, workflows: Workflows, most: int) -> None:
    """Asks for the runs that others began, at most so many: children, and those that continue a run."""
    wanted = workflows.looked_for()[:most]
    replies = await asyncio.gather(*[asked(serves, "describe", workflow_id) for workflow_id in wanted])
    for workflow_id, reply in zip(wanted, replies):
        workflows.found(workflow_id, reply.get("run"))
