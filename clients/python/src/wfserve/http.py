"""Speaks with a service over HTTP, as the compiled edge serves one. It needs nothing but Python.

    from wfserve.http import HttpService

    service = HttpService("http://127.0.0.1:7233", wait=20_000)
    service.start("order-17", "order", request_id="order-17-start")

An address with https is spoken to by TLS; `tls_context` names an authority of one's own.

It may be called by many threads; each has a connection of its own.

A call that can't count twice is made again where its reply was lost, or the server is away: one that reads,
one that bears a request id or a task's token, and a poll, which bears a key by which the server gives the task
again that it took. Where a report on a task is answered NotFound then,
either the lost one was taken or the task's time was over.
"""

from __future__ import annotations

import functools
import http.client
import json
import random
import ssl
import threading
import time
import urllib.parse
import uuid
from types import TracebackType
from typing import Any, Dict, Iterator, List, Optional, Set, Tuple, Type

from wfserve.blobs import BlobDamaged, BlobMissing, BlobsNotKept, name_of
from wfserve.calls import Calls, answered, from_event
from wfserve.errors import CallLost, NotServed, NotTrusted
from wfserve.operations import POLLS, READS
from wfserve.types import Event, Json, Reply, Request

# What makes a call count once.
MARKS = ("request_id", "token")
# Seconds between a call and the same call made again: twice as many each time, up to the longest.
FIRST_PAUSE, LONGEST_PAUSE = 0.05, 2.0
# For so many seconds the server waits for a run's end before it is asked again.
MOST_WAIT = 20.0
# What a server answers that has no such path, or no such blob.
NOT_THERE = (404, 405)
# Faults of TLS where the other end just went away.
CUT_OFF = (ssl.SSLEOFError, ssl.SSLZeroReturnError, ssl.SSLWantReadError, ssl.SSLWantWriteError)
# For how many seconds a call is made again, a heartbeat, for which an activity waits, and a poll.
PATIENCE, HEARTBEAT_PATIENCE, POLL_PATIENCE = 60.0, 1.0, 5.0


def pauses(first: float = FIRST_PAUSE, longest: float = LONGEST_PAUSE) -> Iterator[float]:
    """Growing pauses in seconds, each drawn between a half and the whole: so that clients don't come all at once."""
    pause = first
    while True:
        yield pause * (0.5 + random.random() / 2)
        pause = min(2 * pause, longest)


def counts_once(request: Request) -> bool:
    """Whether a call may be made again without counting twice."""
    return request["op"] in READS or request["op"] in POLLS or any(mark in request for mark in MARKS)


def answer_to(
    connection: http.client.HTTPConnection, method: str, path: str, body: Optional[bytes], headers: Dict[str, str],
) -> http.client.HTTPResponse:
    """The answer to a request, also where it came before all was sent and the other end read no more."""
    try:
        connection.request(method, path, body, headers)
    except (BrokenPipeError, ConnectionResetError) as cut:
        if connection.sock is None:
            # It was cut off while it was connected, as by a server that is killed just then.
            raise
        try:
            return connection.getresponse()
        except (OSError, http.client.HTTPException):
            raise cut from None
    return connection.getresponse()


def tls_context(ca: Optional[str] = None, client_cert: Optional[str] = None) -> ssl.SSLContext:
    """How https is spoken. The server's certificate has to be signed by one in the PEM file `ca`, or by one that the
    system trusts, and to be of the host that the address names. `client_cert` is a PEM file with a certificate and its
    key, for a server that wants one. OSError where a file can't be read, ssl.SSLError where it has no certificate."""
    context = ssl.create_default_context(cafile=ca)
    if client_cert:
        context.load_cert_chain(client_cert)
    return context


class HttpService(Calls):
    """The calls of Service, over HTTP. The server's clock says when.

    A poll waits for `wait` milliseconds. A call that counts once is made again for `patience` seconds. `context` says
    whom an address with https trusts: whom the system does, where none is given.
    """

    def __init__(
        self, url: str, token: Optional[str] = None, wait: int = 0, timeout: float = 60,
        patience: float = PATIENCE, context: Optional[ssl.SSLContext] = None,
    ):
        parts = urllib.parse.urlsplit(url)
        if parts.scheme not in ("http", "https") or not parts.hostname:
            raise ValueError(f"{url} is no address as http://127.0.0.1:7233")
        self.url = url
        self._context = (context or tls_context()) if parts.scheme == "https" else None
        self._host, self._port = parts.hostname, parts.port
        self._headers = {"Content-Type": "application/json"}
        if token:
            self._headers["Authorization"] = f"Bearer {token}"
        self._wait = wait
        self._timeout = timeout + wait / 1_000
        self._patience = patience
        self._hopeless = threading.Event()
        self._own = threading.local()
        self._open: Set[http.client.HTTPConnection] = set()

    def __enter__(self) -> "HttpService":
        return self

    def __exit__(
        self, kind: Optional[Type[BaseException]], fault: Optional[BaseException], trace: Optional[TracebackType],
    ) -> None:
        self.close()

    def call(self, op: str, **fields: Any) -> Reply:
        """The reply to a call, made again where it counts once. CallLost or NotServed where that was in vain."""
        request: Request = {"op": op, **{name: value for name, value in fields.items() if value is not None}}
        if op in POLLS and self._wait:
            request["wait"] = self._wait
        return answered(request, json.loads(self._served(request)))

    def describe_end(self, workflow_id: str, run: Optional[str], seconds: float) -> Reply:
        """A description, for which the server waits until the run has closed, so many seconds at most.

        An earlier server doesn't wait."""
        wait = min(seconds, MOST_WAIT, self._timeout / 2)
        return self.call("describe", workflow_id=workflow_id, run=run, wait=int(wait * 1_000) or None)

    def history_from(self, workflow_id: str, run: str, first: int) -> List[Event]:
        """The events of a run from the one of this id on. Those before it are not read out of the answer."""
        request: Request = {"op": "history", "workflow_id": workflow_id, "run": run}
        text = self._served(request)
        events: List[Event] = answered(request, json.loads(from_event(text, first)))["events"]
        return [event for event in events if event["id"] >= first]

    def read(self, *parts: str, **query: str) -> Json:
        """What the server answers a GET of a path of these parts as JSON: what its page shows. Made again as a read.

        The first part is a path of its own; what is odd in the others is quoted.
        """
        path = "/".join([parts[0], *(urllib.parse.quote(part, safe="") for part in parts[1:])])
        asked = {name: value for name, value in query.items() if value}
        text = self._until_served("GET", f"{path}?{urllib.parse.urlencode(asked)}" if asked else path)
        answer: Json = json.loads(text)
        return answer

    @functools.cached_property
    def blobs(self) -> "HttpBlobs":
        """The server's store of texts that are too long for a history."""
        return HttpBlobs(self)

    def _until_served(self, method: str, path: str, body: Optional[bytes] = None, **headers: str) -> str:
        """The answer to a request that counts once, made again for as long as the service has patience."""
        late = time.monotonic() + self._patience
        for pause in pauses():
            try:
                return self._answered(method, path, body, headers)
            except (CallLost, NotServed) as fault:
                if not fault.passes or time.monotonic() + pause > late or self._hopeless.wait(pause):
                    raise
        raise AssertionError("pauses have no end")

    def _served(self, request: Request) -> str:
        """The reply's text. Makes a call again where it was not served, if that can't count twice."""
        body, op = json.dumps(request).encode(), request["op"]
        key = {"Idempotency-Key": uuid.uuid4().hex} if op in POLLS else {}
        most = HEARTBEAT_PATIENCE if op == "heartbeat" else POLL_PATIENCE if op in POLLS else self._patience
        late = time.monotonic() + min(self._patience, most) if counts_once(request) else 0.0
        for pause in pauses():
            try:
                return self._answered("POST", "/calls", body, key)
            except (CallLost, NotServed) as fault:
                if not fault.passes or time.monotonic() + pause > late or self._hopeless.wait(pause):
                    raise
        raise AssertionError("pauses have no end")

    def _answered(self, method: str, path: str, body: Optional[bytes], headers: Dict[str, str]) -> str:
        """The text of an answer that is a reply. NotServed says what else there was."""
        status, text = self._exchange(method, path, body, headers)
        if status != 200:
            raise NotServed(status, text)
        return text

    def _exchange(self, method: str, path: str, body: Optional[bytes], headers: Dict[str, str]) -> Tuple[int, str]:
        connection = self._connection()
        try:
            response = answer_to(connection, method, path, body, {**self._headers, **headers})
            return response.status, response.read().decode()
        except (OSError, http.client.HTTPException, AttributeError, ValueError) as fault:
            # Where another thread has closed the connection meanwhile, http.client finds its file gone or closed. A
            # certificate's fault is a ValueError too.
            is_closed = isinstance(fault, (AttributeError, ValueError)) and not isinstance(fault, OSError)
            if is_closed and not self._hopeless.is_set():
                raise
            self._own.connection = None
            self._open.discard(connection)
            connection.close()
            said = f"{self.url}: {type(fault).__name__}: {fault}"
            if isinstance(fault, ssl.SSLError) and not isinstance(fault, CUT_OFF):
                raise NotTrusted(said) from fault
            raise CallLost(said) from fault

    def _connection(self) -> http.client.HTTPConnection:
        connection: Optional[http.client.HTTPConnection] = getattr(self._own, "connection", None)
        if connection is None:
            connection = self._own.connection = self._new_connection()
            self._open.add(connection)
        return connection

    def _new_connection(self) -> http.client.HTTPConnection:
        if self._context is None:
            return http.client.HTTPConnection(self._host, self._port, timeout=self._timeout)
        return http.client.HTTPSConnection(self._host, self._port, timeout=self._timeout, context=self._context)

    def give_up(self) -> None:
        """From now on no call is made again: those that wait for that fail."""
        self._hopeless.set()

    def close(self) -> None:
        """Closes the connections of all threads, and gives up what waits to be made again."""
        self.give_up()
        while self._open:
            self._open.pop().close()

    # Blobs.

    def put_blob(self, name: str, data: bytes) -> None:
        """Has the server keep bytes by their hash. BlobsNotKept where it keeps none."""
        try:
            self._until_served("PUT", f"/blobs/{name}", data, **{"Content-Type": "application/octet-stream"})
        except NotServed as fault:
            if fault.status in NOT_THERE:
                raise BlobsNotKept(
                    f"a text has {len(data)} bytes, and at most 4096 where the server keeps no blobs: hand on where it lies"
                ) from fault
            raise

    def get_blob(self, name: str) -> bytes:
        """The bytes of a hash. BlobMissing where the server has none of it."""
        try:
            return self._until_served("GET", f"/blobs/{name}").encode()
        except NotServed as fault:
            if fault.status in NOT_THERE:
                raise BlobMissing(f"the server has no blob {name}") from fault
            raise


class HttpBlobs:
    """The blobs of a server, as a store."""

    def __init__(self, service: HttpService):
        self._service = service

    def put(self, name: str, data: bytes) -> None:
        """Keeps these bytes, whose hash this is."""
        self._service.put_blob(name, data)

    def get(self, name: str) -> bytes:
        """The bytes of this hash."""
        data = self._service.get_blob(name)
        if name_of(data) != name:
            raise BlobDamaged(f"the blob {name} is damaged")
        return data
