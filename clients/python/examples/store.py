"""python3 -m examples.store PROGRAM: writes the stored histories and talks of the examples anew.

Histories are what the tests compare with, and what `python3 -m wfserve.workflows replay` checks code against.
A talk is each line of a scenario with its reply: what stands in for the program where it isn't built.
"""

import importlib
import json
import pathlib
import sys
from unittest import mock

from .stage import Stage, histories
from wfserve.calls import Calls, Service, answered, request_of
from wfserve.errors import Refused
from wfserve.workflows import JumpingClock


NAMES = ("order", "payment", "provisioning", "booking", "children")
TALKED = ("order", "payment", "provisioning", "booking")
FOLDER = pathlib.Path(__file__).resolve().parent
HISTORIES, TALKS = FOLDER / "histories", FOLDER / "talks"


class Recorder(Calls):
    """A service whose lines and replies are taken down."""

    def __init__(self, service):
        self._service = service
        self.talk = []

    def call(self, op, **fields):
        request = request_of(op, self._service.clock.now, fields)
        try:
            reply = self._service.call(op, **fields)
        except Refused as refused:
            self.talk.append([request, refused.reply])
            raise
        self.talk.append([request, reply])
        return reply


class Talk(Calls):
    """Gives the replies of a stored talk, to the very lines that it has."""

    def __init__(self, talk, clock):
        self._talk = iter(talk)
        self._clock = clock

    def call(self, op, **fields):
        request = request_of(op, self._clock.now, fields)
        line, reply = next(self._talk)
        if request != line:
            raise AssertionError(f"the line is {request}, and the talk has {line}")
        return answered(request, reply)


def play(name, service, clock):
    """The histories that an example's scenario leaves."""
    module = importlib.import_module(f"examples.{name}")
    with mock.patch("examples.provisioning.new_secret", lambda: "0" * 32):
        module.scenario(Stage(service, clock, module))
    return histories(service, module.IDS)


def recorded(name, program):
    """The histories, and the talk that led to them."""
    clock = JumpingClock()
    with Service(program, clock) as service:
        recorder = Recorder(service)
        return play(name, recorder, clock), recorder.talk


def stored(name, folder=HISTORIES):
    with open(folder / f"{name}.jsonl", encoding="utf-8") as lines:
        return [json.loads(line) for line in lines]


def write(name, folder, values):
    folder.mkdir(exist_ok=True)
    with open(folder / f"{name}.jsonl", "w", encoding="utf-8") as written:
        for value in values:
            written.write(json.dumps(value, separators=(",", ":"), ensure_ascii=False) + "\n")


def main(program):
    for name in NAMES:
        found, talk = recorded(name, program)
        write(name, HISTORIES, found)
        if name in TALKED:
            write(name, TALKS, talk)


if __name__ == "__main__":
    main(sys.argv[1:])
