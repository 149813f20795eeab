"""Logs as the compiled edge keeps them, written by tests: of the lines of a service that keeps nothing itself."""

import json
import os
import pathlib
import subprocess

from support.programs import BUILT
from wfserve.calls import Calls, Clock, Service, request_of, text_of
from wfserve.durable import Settings
from wfserve.durable.edge_log import framed, header_of, lines_in, read_header, records_folder
from wfserve.errors import Refused
from wfserve.operations import READS


def write_log(path, lines, settings=Settings(), generation=0):
    """Writes a log of these lines: requests, or their texts."""
    texts = [line if isinstance(line, bytes) else text_of(line).encode() for line in lines]
    pathlib.Path(path).write_bytes(framed([header_of(settings, generation), *texts]))


def asked_of(path, requests):
    """The replies to these requests of a program that has served a log, without the numbers of their lines."""
    header, *lines = lines_in(str(path))
    settings, generation = read_header(header, str(path))
    load = ["--load", records_folder(str(path), generation)] if generation else []
    given = [*lines, *(text_of(request).encode() for request in requests)]
    text = b"".join(line + b"\n" for line in given)
    ran = subprocess.run([str(BUILT), *settings.options(), *load], input=text, stdout=subprocess.PIPE)
    replies = [json.loads(reply) for reply in ran.stdout.splitlines()]
    assert len(replies) == len(given), ran
    return [{**reply, "line": 0} for reply in replies[len(lines):]]


class Logged(Calls):
    """A service whose lines are put into a log at its end. One that is there is gone on with."""

    def __init__(self, path, settings=Settings(), clock=None):
        self.path, self.clock = str(path), clock or Clock()
        found = list(lines_in(self.path)) if os.path.exists(self.path) else [header_of(settings)]
        self.settings, self.generation = read_header(found[0], self.path)
        self.lines = found[1:]
        self._service = Service([*self._words(), *self._load()], Clock())
        for line in self.lines:
            self._made(json.loads(line))

    def __enter__(self):
        return self

    def __exit__(self, *_):
        self._service.close()
        write_log(self.path, self.lines, self.settings, self.generation)

    def _words(self):
        return [str(BUILT), *self.settings.options()]

    def _load(self):
        return ["--load", records_folder(self.path, self.generation)] if self.generation else []

    def _made(self, request):
        """The reply to a request, refusals too."""
        self._service.clock.now = request["at"]
        try:
            return self._service.call(request["op"], **{name: request[name] for name in request if name not in ("op", "at")})
        except Refused as refused:
            return refused.reply

    def call(self, op, **fields):
        request = request_of(op, self.clock.now, fields)
        reply = self._made(request)
        if op not in READS:
            self.lines.append(text_of(request).encode())
        if "error" in reply:
            raise Refused(request, reply)
        return reply

    def compact(self, how="--snapshot"):
        """Has the log go on from snapshots, or from records as an earlier version made them."""
        folder = records_folder(self.path, self.generation + 1)
        os.mkdir(folder, 0o700)
        given = b"".join(line + b"\n" for line in self.lines)
        subprocess.run([*self._words(), *self._load(), how, folder], input=given, stdout=subprocess.DEVNULL)
        assert os.listdir(folder)
        self.generation, self.lines = self.generation + 1, []
        self._service.close()
        self._service = Service([*self._words(), *self._load()], Clock())
