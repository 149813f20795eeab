"""The pages: the list of workflows, a workflow's history, and what their scripts ask for.

A workflow's texts go to the page as JSON, and its script puts them there as text; the picture of a
history is an image, in which no script runs.
"""

from __future__ import annotations

import asyncio
import pathlib
from typing import Callable, List, Tuple

from aiohttp import web

from wfserve import picture
from wfserve.events import pending
from wfserve.types import Event, Json

from .asking import Serves, asked, look_for_begun
from .attempts import Attempts
from .backlog import POLLED, LastPolls, queue_rows
from .listing import Entry, Workflows


HERE = pathlib.Path(__file__).resolve().parent
MOST_ROWS = 200
# So many runs are read for one request of the list; the next request goes on.
MOST_READS = 2_000
LAST_MOMENT = 10**15
POLICY = (
    "default-src 'none'; script-src 'self'; style-src 'self'; img-src 'self'; connect-src 'self'; "
    "form-action 'none'; frame-ancestors 'none'; base-uri 'none'"
)
PICTURE_POLICY = "default-src 'none'; style-src 'unsafe-inline'"
KINDS = {"js": "text/javascript", "css": "text/css", "html": "text/html"}


def number_of(request: web.Request, name: str, default: int) -> int:
    """A whole number of a request's query. 400 where it is none."""
    text = request.query.get(name, "")
    if not text:
        return default
    if not text.isascii() or not text.isdigit() or len(text) > 16:
        raise web.HTTPBadRequest(text=f"{name} is a whole number")
    return int(text)


def filter_of(request: web.Request) -> Callable[[Entry], bool]:
    """What the list is asked for beside a text and a status: a type, and between which moments a run was started."""
    kind = request.query.get("type", "")
    first, last = number_of(request, "from", 0), number_of(request, "until", LAST_MOMENT)
    return lambda entry: (not kind or entry.workflow_type == kind) and first <= entry.started <= last


class Pages:
    """What the server answers a browser."""

    def __init__(
        self, serves: Serves, workflows: Workflows, attempts: Attempts, last_polls: LastPolls,
    ):
        self._serves = serves
        self._workflows = workflows
        self._attempts = attempts
        self._last_polls = last_polls

    def routes(self) -> List[web.RouteDef]:
        return [
            web.get("/", self.index),
            web.get("/page/{file}", self.file),
            web.get("/workflows/{workflow_id}/{run}", self.workflow),
            web.get("/workflows/{workflow_id}/{run}/picture.svg", self.picture),
            web.get("/queues", self.queue_page),
            web.get("/api/queues", self.queues),
            web.get("/api/workflows", self.rows),
            web.get("/api/workflows/{workflow_id}/{run}", self.history),
            web.get("/api/workflows/{workflow_id}/{run}/history.json", self.download),
        ]

    # Files.

    async def index(self, request: web.Request) -> web.Response:
        return self._answer_file("index.html")

    async def workflow(self, request: web.Request) -> web.Response:
        return self._answer_file("workflow.html")

    async def queue_page(self, request: web.Request) -> web.Response:
        return self._answer_file("queues.html")

    async def file(self, request: web.Request) -> web.Response:
        return self._answer_file(request.match_info["file"])

    def _answer_file(self, name: str) -> web.Response:
        files = {path.name: path for path in (HERE / "files").iterdir()}
        if name not in files:
            raise web.HTTPNotFound()
        kind = KINDS[name.rpartition(".")[2]]
        headers = {"Content-Security-Policy": POLICY, "X-Content-Type-Options": "nosniff", "Cache-Control": "no-cache"}
        return web.Response(
            text=files[name].read_text(encoding="utf-8"), content_type=kind, charset="utf-8", headers=headers
        )

    # What the scripts ask for.

    async def rows(self, request: web.Request) -> web.Response:
        """The latest workflows of a search, with their status."""
        text, status = request.query.get("search", ""), request.query.get("status", "")
        also, skipped = filter_of(request), number_of(request, "skip", 0)
        await self._look_for_begun()
        entries = await self._found(text, status, also, skipped + MOST_ROWS)
        shown = [entry.row() for entry in entries if entry.is_shown(status) and also(entry)]
        return web.json_response({"workflows": shown[skipped:]})

    async def _found(self, text: str, status: str, also: Callable[[Entry], bool], most: int) -> List[Entry]:
        """The latest entries of a search, as they are now."""
        entries, left = self._workflows.search(text, status, most, also), MOST_READS
        # One whose history was read may not be of this status, and then the next ones are looked at.
        while left > 0 and (stale := [entry for entry in entries if self._workflows.is_stale(entry)]):
            await self._read_all(stale)
            left -= len(stale)
            entries = self._workflows.search(text, status, most, also)
        return entries

    async def history(self, request: web.Request) -> web.Response:
        """A history, or its events after one, or only that it is as long as before."""
        entry, events = await self._entry(request)
        row = entry.row()
        if request.query.get("length") == str(entry.length):
            return web.json_response({"workflow": row})
        events = events or await self._events(entry)
        found = [] if row["status"] != "Running" else self._pending(entry.run, events)
        parent = self._workflows.find_run(events[0]["attrs"].get("parent_run"))
        named = {} if parent is None else {"parent": {"workflow_id": parent.workflow_id, "run": parent.run}}
        new, now = events[number_of(request, "after", 0):], self._serves.moments.now()
        return web.json_response({"workflow": row, "events": new, "pending": found, "now": now, **named})

    def _pending(self, run: str, events: List[Event]) -> List[Json]:
        """What has not ended, and of activities their queue, and what was seen of their attempts."""
        found = []
        for it in pending(events):
            queue = events[it["event"] - 1]["attrs"].get("task_queue")
            found.append({**it, **({"queue": queue} if queue else {}), **self._attempts.of(run, it["event"])})
        return found

    async def download(self, request: web.Request) -> web.Response:
        """A history as a file: the reply that has it, as `wf replay` reads it."""
        workflow_id, run = request.match_info["workflow_id"], request.match_info["run"]
        reply = await asked(self._serves, "history", workflow_id, run)
        if "error" in reply:
            raise web.HTTPNotFound(text=f"there is no run {run} of {workflow_id}")
        headers = {"Content-Disposition": f'attachment; filename="{run}.json"', "Cache-Control": "no-cache"}
        return web.json_response(reply, headers=headers)

    async def queues(self, request: web.Request) -> web.Response:
        """The task queues: what waits in each, what workers have, and who polls."""
        await self._look_for_begun()
        entries = await self._found("", "Running", lambda entry: True, MOST_READS)
        tasks = [(entry.run, task) for entry in entries for task in entry.tasks]
        counts = {(queue, POLLED[op]): count for (op, queue), count in self._serves.polls.counts().items()}
        rows = queue_rows(
            self._serves.queues, tasks, self._attempts.of, counts, self._last_polls.items(), self._serves.moments.now(),
        )
        return web.json_response({"queues": rows, "now": self._serves.moments.now(), "runs": len(entries)})

    async def picture(self, request: web.Request) -> web.Response:
        entry, events = await self._entry(request)
        events = events or await self._events(entry)
        now = self._serves.moments.now() if entry.status == "Running" else None
        return web.Response(
            text=picture.picture_file(events, now), content_type="image/svg+xml",
            headers={"Content-Security-Policy": PICTURE_POLICY, "Cache-Control": "no-cache"},
        )

    async def _entry(self, request: web.Request) -> Tuple[Entry, List[Event]]:
        """The run that a path names, as it is now, and its history where it was read for that."""
        workflow_id, run = request.match_info["workflow_id"], request.match_info["run"]
        entry = self._workflows.find(workflow_id, run)
        if entry is not None and not self._workflows.is_stale(entry):
            return entry, []
        entry = entry or Entry(workflow_id, run, "", 0)
        events = await self._read(entry)
        return self._workflows.find(workflow_id, run) or entry, events

    async def _events(self, entry: Entry) -> List[Json]:
        """The history of a run. A run that is gone leaves the list."""
        reply = await asked(self._serves, "history", entry.workflow_id, entry.run)
        if "error" in reply:
            self._workflows.remove(entry.run)
            raise web.HTTPNotFound(text=f"there is no run {entry.run} of {entry.workflow_id}")
        events: List[Event] = reply["events"]
        return events

    async def _read(self, entry: Entry) -> List[Json]:
        """Reads a history that may have changed, for the list."""
        self._workflows.reading(entry)
        events = await self._events(entry)
        self._workflows.take(self._workflows.add(entry.workflow_id, entry.run), events)
        return events

    async def _read_all(self, entries: List[Entry]) -> None:
        """Reads the histories of these runs. Some may be gone by now."""
        for found in await asyncio.gather(*[self._read(entry) for entry in entries], return_exceptions=True):
            if isinstance(found, Exception) and not isinstance(found, web.HTTPNotFound):
                raise found

    async def _look_for_begun(self) -> None:
        """Asks for the runs that others began."""
        await look_for_begun(self._serves, self._workflows, MOST_READS)
