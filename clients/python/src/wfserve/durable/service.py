"""A service that survives being killed: its program keeps a journal in a folder, and goes on from there.

    from wfserve.durable import DurableService

    with DurableService(["../../serve"], "orders") as service:
        service.start("order-17", "Order", request_id="order-17-start")

The program commits the steps of all lines that it has read to the journal, with one sync, and answers only then
(docs/JOURNAL.md). So a call that was answered is on the disk. Threads may call at once: one sync serves all lines that
wait for it. A call that was not answered may have taken effect or not; one with a request id can be made again, and takes
effect once. A read is a step too, and waits for a sync; it is asked at no moment, so it moves no later event.

A journal grows with every step. A compaction puts snapshots in the place of its steps. It comes by itself, in a process
of its own, and calls go on meanwhile. A disk that is full ends the program: calls are answered by Ended, and the service
has to be opened again.

Texts of over 4,096 bytes, up to 2 MB, lie in a folder beside the journal's: orders.blobs. A client and a worker put them
there by themselves (`blobs`), and each is synced before a line names it.
"""

from __future__ import annotations

import threading
import time
from collections import deque
from concurrent.futures import Future
from dataclasses import dataclass, field
from types import TracebackType
from typing import Any, Deque, Iterable, Iterator, List, Optional, Sequence, Type

from wfserve.blobs import store_beside
from wfserve.calls import Calls, Clock, HasMoment, answered, request_of, text_of
from wfserve.errors import Ended
from wfserve.operations import READS
from wfserve.types import Reply, Request

from .background import Compaction
from .journaled import JournaledProgram
from .settings import Settings
from .sweeping import sweep


@dataclass
class Asked:
    """A call on its way: its line, and the reply once it is there."""

    line: bytes
    reply: "Future[Reply]" = field(default_factory=Future)


def line_of(request: Request) -> bytes:
    """What the program is given for a call. A read is asked at no moment, so that it sets none."""
    if request.get("op") in READS:
        request = {name: value for name, value in request.items() if name != "at"}
    return text_of(request).encode()


class DurableService(Calls):
    """The calls of Service, kept in the journal of a folder. It may be called by many threads.

    The folder is made where there is none. `settings` are those of a new journal; one that is there has to have the same,
    but for the capacity. None takes the journal's, or the defaults. `blobs` keeps long texts: `sweep_blobs` deletes there.
    `compaction` says when the journal is compacted by itself; with None it is compacted by `compact` alone.

    What can't be opened is a LogFault: LogInUse, JournalDamaged, CheckpointDamaged, OtherSettings, OtherJournal,
    RefusedSettings, NoJournal where a log's file is named, or NotOpened with the program's text.
    """

    def __init__(
        self, command: Sequence[str], folder: str, settings: Optional[Settings] = None, clock: Optional[HasMoment] = None,
        compaction: Optional[Compaction] = Compaction(),
    ):
        self.clock: HasMoment = clock or Clock()
        self.blobs = store_beside(folder)
        self._changed = threading.Condition()
        # Calls that wait to be written, and those that wait for their replies.
        self._asked: Deque[Asked] = deque()
        self._sent: Deque[Asked] = deque()
        # Why nothing more is asked.
        self._closed: Optional[Exception] = None
        self._status: Optional[int] = None
        self._kept = JournaledProgram(command, folder, settings, compaction)
        self.last_moment = self._kept.last_moment
        self._threads = [threading.Thread(target=it, daemon=True) for it in (self._write_lines, self._read_replies)]
        for thread in self._threads:
            thread.start()

    def __enter__(self) -> "DurableService":
        return self

    def __exit__(
        self, kind: Optional[Type[BaseException]], fault: Optional[BaseException], trace: Optional[TracebackType],
    ) -> None:
        self.close()

    @property
    def settings(self) -> Settings:
        """What the service was opened with."""
        return self._kept.settings

    @property
    def size(self) -> int:
        """How many bytes the journal has since its last compaction, zeros that were made ahead among them."""
        return self._kept.size

    @property
    def records_size(self) -> int:
        """How many bytes the snapshots have that the journal goes on from; 0 where it was never compacted."""
        return self._kept.records_size

    def record_lines(self) -> Iterable[Iterable[bytes]]:
        """Of each shard the lines of its snapshot, where there is one, and of all its steps since."""
        return self._kept.record_lines()

    def requests(self) -> Iterator[bytes]:
        """The lines of all snapshots, and all steps since. What is asked meanwhile may be there or not."""
        for record in self.record_lines():
            yield from record

    def sweep_blobs(self, now: Optional[float] = None) -> int:
        """Deletes the long texts beside the journal that no history names any more. How many these were.

        It wants a retention, and to be called at least once a day: as every hour, by a thread. A text goes once the
        retention and a day are over in which it was neither put nor named. The histories of all workflows are read for
        it, and these reads are steps. `now` is in seconds since 1970.
        """
        return sweep(self, self.blobs, time.time() if now is None else now)

    def read_all(self, requests: Sequence[Request]) -> List[Reply]:
        """The replies to reads, refusals as the replies that they are."""
        return [reply.result() for reply in [self.send(request) for request in requests]]

    # Calls.

    def call(self, op: str, **fields: Any) -> Reply:
        """The reply to a call, once its step is on the disk. Refused, or Ended where the program has ended."""
        request = request_of(op, self.clock.now, fields)
        return answered(request, self.send(request).result())

    def send(self, request: Request) -> "Future[Reply]":
        """Asks without waiting: the reply comes to the future, a refusal as the reply that it is.

        A reply's `line` counts the calls since the opening, from 1.
        """
        if request.get("barrier") is True or request.get("lane", 0) != 0:
            raise ValueError("a service with a journal has one lane here, and no barriers")
        asked = Asked(line_of(request))
        # Nobody can call back what is written.
        asked.reply.set_running_or_notify_cancel()
        with self._changed:
            if self._closed is not None:
                raise self._closed
            self._asked.append(asked)
            self._changed.notify_all()
        return asked.reply

    def _write_lines(self) -> None:
        """Hands what is asked to the program. One thread does this."""
        while lines := self._next_lines():
            self._kept.program.write(lines)
        self._kept.program.end_input()

    def _next_lines(self) -> List[bytes]:
        """The lines of all calls that wait, or none where nothing more is asked."""
        with self._changed:
            self._changed.wait_for(lambda: self._asked or self._closed is not None)
            asked = list(self._asked)
            self._asked.clear()
            self._sent.extend(asked)
        return [it.line for it in asked]

    def _read_replies(self) -> None:
        """Gives each call its reply. One thread does this."""
        number = 0
        try:
            while True:
                number += 1
                reply = self._kept.program.reply(number)
                with self._changed:
                    asked = self._sent.popleft()
                asked.reply.set_result(reply)
        except Exception as fault:
            self._end(fault)

    def _end(self, fault: Exception) -> None:
        """The program has ended: nobody waits for it any longer."""
        with self._changed:
            self._closed = self._closed or fault
            left = [*self._sent, *self._asked]
            self._sent.clear()
            self._asked.clear()
            self._changed.notify_all()
        for asked in left:
            asked.reply.set_exception(fault)

    def close(self) -> int:
        """Answers what was asked, and ends the program and a compaction that runs. The program's status."""
        if self._status is None:
            with self._changed:
                self._closed = self._closed or Ended("the service was closed")
                self._changed.notify_all()
            for thread in self._threads:
                thread.join()
            self._status = self._kept.close()
        return self._status

    def compact(self) -> None:
        """Puts snapshots in the place of the journal's steps, by a process of its own. It comes by itself too.

        Calls go on meanwhile, and the program with its queues stays. NotCompacted where it can't be done: the service then
        goes on as it was.
        """
        self._kept.compactor.compact()
