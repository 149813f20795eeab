#!/usr/bin/env python3
"""The page of a compiled edge: the list of workflows and their histories, as clients/python shows them.

    page.py SOCKET EDGE LINES

wfedge starts it, hands the requests for pages on to SOCKET, and answers on the sockets EDGE, by HTTP, and LINES, by
JSON lines, what the page asks. What changed since the list was shown last the page learns from the edge's feed; which
runs there were before, it learns from the snapshots or the records of a log that was compacted. Where the service has a
retention, it says which blobs no history names any more. It ends with its input.
"""

from __future__ import annotations

import asyncio
import http.client
import json
import os
import signal
import socket as sockets
import sys
import threading
import time
from dataclasses import dataclass
from typing import Dict, Iterable, Iterator, List, Optional, Tuple

import python_client  # noqa: F401 (it says where the next ones lie)
from aiohttp import ClientSession, UnixConnector, web
from wfserve.page.attempts import Attempts
from wfserve.page.backlog import LastPolls
from wfserve.page.faults import answer_faults
from wfserve.page.listing import Workflows
from wfserve.page.pages import Pages
from wfserve.page.records import Recorded
from wfserve.page.sweeping import Sweeper

import snapshot_runs

HERE = "http://localhost"
# So many blobs are named in one request.
NAMES_AT_ONCE = 10_000
# So often what the log goes on from is read, where it is deleted meanwhile.
MOST_READINGS = 5


class Moment:
    """The edge's moment, as it was told last."""

    def __init__(self):
        self.last = 0

    def now(self) -> int:
        return self.last


@dataclass
class Settings:
    """What a page needs of the service's settings. The retention is in milliseconds."""

    service: int
    retention: int
    queues: List[str]


class Polls:
    """The polls that wait, as the edge told of them last."""

    def __init__(self):
        self.told: List[list] = []

    def counts(self) -> Dict[Tuple[str, str], int]:
        """How many polls wait, by their operation and their queue."""
        return {(op, queue): count for op, queue, count in self.told}


class Records:
    """The snapshots or records that the edge's log goes on from, and the edge, which is asked by lines."""

    def __init__(self, said: dict, lines: str):
        self.settings = Settings(said["service"], said["retention"], said["queues"])
        self._files, self._lines = said["files"], lines

    def add_all(self, workflows: Workflows) -> None:
        """Adds the runs that they have to a list."""
        if not all(path.endswith(".snap") for path in self._files):
            Recorded(self, workflows).add_all()
            return
        for path in self._files:
            with open(path, "rb") as snapshot:
                for found in snapshot_runs.runs_in(snapshot):
                    workflows.add(found.workflow_id, found.run, found.workflow_type, found.started)

    def record_lines(self) -> Iterator[Iterable[bytes]]:
        """The lines of each shard's record."""
        for path in self._files:
            with open(path, "rb") as record:
                yield record

    def read_all(self, requests: List[dict]) -> List[dict]:
        """The replies to reads."""
        with sockets.socket(sockets.AF_UNIX) as socket:
            socket.connect(self._lines)
            lines = b"".join(json.dumps(request).encode() + b"\n" for request in requests)
            # A socket holds only so much, and the edge reads no further where nobody takes its replies.
            asking = threading.Thread(target=socket.sendall, args=(lines,), daemon=True)
            asking.start()
            with socket.makefile("rb") as replies:
                found = [json.loads(replies.readline()) for _ in requests]
            asking.join()
            return found


class Edge:
    """The edge, as the pages ask it: they hand in calls, and want its moment and its settings. What it tells of
    workflows, of attempts and of polls is noted here."""

    def __init__(self, session: ClientSession, lines: str):
        self.moments, self.workflows, self.attempts = Moment(), Workflows(), Attempts()
        self.polls, self.last_polls = Polls(), LastPolls()
        # What the log goes on from, and its settings, once they were asked for.
        self.kept: Optional[Records] = None
        self._session, self._lines = session, lines
        # Until where it was told of runs that began and of attempts; None before the records were read.
        self._next: Optional[int] = None
        self._asking = asyncio.Lock()
        self._tasks: set = set()

    @property
    def queues(self) -> List[str]:
        """The task queues, once the settings were asked for."""
        return self.kept.settings.queues if self.kept is not None else []

    def submit(self, request: dict, begin: bytes, receiver) -> None:
        """Asks a call. The receiver gets the reply, or why there is none."""
        task = asyncio.create_task(self._ask(begin + b"}", receiver))
        self._tasks.add(task)
        task.add_done_callback(self._tasks.discard)

    async def _ask(self, body: bytes, receiver) -> None:
        try:
            asked = self._session.post(f"{HERE}/calls", data=body, headers={"Content-Type": "application/json"})
            async with asked as answer:
                text = await answer.read()
                if answer.status != 200:
                    raise OSError(f"status {answer.status}: {text[:200]!r}")
            receiver.answer(text)
        except Exception as fault:
            receiver.fail(fault)

    async def catch_up(self) -> None:
        """Learns what changed since it was told last."""
        async with self._asking:
            if self._next is None:
                await self._read_records()
            async with self._session.get(f"{HERE}/feed?from={self._next}") as answer:
                said = await answer.json()
        self.moments.last, self._next = said["moment"], said["next"]
        self.polls.told = said["polls"]
        for request, reply in said["pairs"]:
            self.workflows.observe(request, reply)
            self.attempts.observe(request, reply)
            self.last_polls.observe(request, reply)
        if said["all"]:
            for entry in self.workflows.search("", "", sys.maxsize):
                entry.changed = True

    async def _read_records(self) -> None:
        """Learns which runs the snapshots or the records have. After two compactions meanwhile they are gone, and there are
        later ones."""
        for left in reversed(range(MOST_READINGS)):
            async with self._session.get(f"{HERE}/records") as answer:
                self.kept = Records(await answer.json(), self._lines)
            try:
                await asyncio.get_running_loop().run_in_executor(None, self.kept.add_all, self.workflows)
                break
            except FileNotFoundError:
                if not left:
                    raise
        self._next = 0


class Here(http.client.HTTPConnection):
    """A connection to the edge's socket."""

    def __init__(self, path: str):
        super().__init__("localhost")
        self._path = path

    def connect(self) -> None:
        self.sock = sockets.socket(sockets.AF_UNIX)
        self.sock.connect(self._path)


class BlobsOfEdge:
    """The edge's blobs, as a sweep asks for them. The edge deletes them itself, so none is deleted while it is put again."""

    def __init__(self, edge_socket: str):
        self._edge, self._named = edge_socket, []

    def names(self) -> Iterator[str]:
        """A name, where there is any blob."""
        return iter(["some"] if self._asked("GET")["any"] else [])

    def touch(self, name: str, moment: float) -> None:
        """A history named it at that moment, which is now."""
        self._named.append(name)

    def delete_before(self, moment: float) -> int:
        """Deletes what was put and named last before that moment, in seconds since 1970. How many these were."""
        named, self._named = self._named, []
        # What is named is told first, in several requests: a body has only so many bytes.
        for begin in range(0, len(named), NAMES_AT_ONCE):
            self._asked("POST", {"named": named[begin:begin + NAMES_AT_ONCE], "at": int(time.time()), "before": 0})
        return int(self._asked("POST", {"named": [], "at": 0, "before": max(int(moment), 0)})["deleted"])

    def _asked(self, method: str, body: Optional[dict] = None) -> dict:
        connection = Here(self._edge)
        try:
            text = None if body is None else json.dumps(body)
            connection.request(method, "/blobs", text, {"Content-Type": "application/json"})
            answer = connection.getresponse()
            said = answer.read()
        finally:
            connection.close()
        if answer.status != 200:
            raise OSError(f"status {answer.status}: {said[:200]!r}")
        return json.loads(said)


class Sweeping(Sweeper):
    """Deletes the edge's blobs once no history names them."""

    def __init__(self, edge: Edge, store: BlobsOfEdge, retention: int):
        super().__init__(edge, edge.workflows, store, retention)
        self._edge = edge

    async def sweep(self, now: float) -> int:
        """Looks through all histories and blobs. How many were deleted."""
        await self._edge.catch_up()
        return await super().sweep(now)


async def sweep_blobs(edge: Edge, edge_socket: str) -> None:
    """Deletes blobs from time to time, where the service has a retention."""
    await edge.catch_up()
    if edge.kept is not None:
        await Sweeping(edge, BlobsOfEdge(edge_socket), edge.kept.settings.retention).run()


def application(edge: Edge) -> web.Application:
    """The pages over an edge."""

    @web.middleware
    async def catch_up(request: web.Request, handler):
        if not request.path.startswith("/page/"):
            await edge.catch_up()
        return await handler(request)

    app = web.Application(middlewares=[answer_faults, catch_up])
    app.router.add_routes(Pages(edge, edge.workflows, edge.attempts, edge.last_polls).routes())
    return app


async def end_of_input() -> None:
    """Returns once the edge, which holds this process's input, has ended."""
    loop = asyncio.get_running_loop()
    await loop.run_in_executor(None, sys.stdin.buffer.read)


async def serve(socket: str, edge_socket: str, lines: str) -> None:
    async with ClientSession(connector=UnixConnector(edge_socket, limit=0)) as session:
        edge = Edge(session, lines)
        runner = web.AppRunner(application(edge))
        await runner.setup()
        os.umask(0o177)
        await web.UnixSite(runner, socket).start()
        sweeping = asyncio.create_task(sweep_blobs(edge, edge_socket))
        await end_of_input()
        sweeping.cancel()
        # Nobody asks any more.
        os._exit(0)


if __name__ == "__main__":
    # Ctrl-C in a terminal is the edge's, which ends this process.
    signal.signal(signal.SIGINT, signal.SIG_IGN)
    asyncio.run(serve(*sys.argv[1:4]))
