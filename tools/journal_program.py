"""What the tests of the built program with a journal share: their command line, lines, replies, and what a journal has."""
from __future__ import annotations

import argparse
import json
import pathlib
import random
import re
import subprocess
import sys
import threading
import time
import unittest
from typing import Any

import client_package  # noqa: F401
from wfserve.counts import counted
from wfserve.journal import Journal

Line = dict[str, Any]

ROOT = pathlib.Path(__file__).resolve().parent.parent
# A reply comes at once, on a machine that is busy too.
SECONDS = 300
# What the program says of an opening that took long.
RESTORED = re.compile(r"^wfserve: .*/journal: \d+ steps? restored\n", re.MULTILINE)
# The byte that each batch begins with, and values that are put in the place of a byte, among them that one.
BEGIN = b"\x1d"
VALUES = (0, 29, 30, 10, 65, 255)
# Drawn lines are served by so many shards, and are of so many workflows.
SHARDS, WORKFLOWS = 4, 40
OF_SHARDS = ["--shards", str(SHARDS)]
OF_OTHERS = re.compile(r"(?<=\")[0-9a-f]{8}(-[0-9a-f]{4}){3}-[0-9a-f]{12}(?=\")|(?<=\"at\": )[0-9]+(?=[,}])")
# So many lines are handed in before their replies come.
AHEAD = 100


class Tested:
    """What the command line says: the program that is tested, the seed of what is drawn, and how much is tried."""

    program = ROOT / "crates/wfserve/out/wfserve"
    seed = random.randrange(1_000_000)
    kills = 0
    rounds = 0
    # Of bytes and calls one in so many is tried.
    every = 1


def asked_of(module: str) -> argparse.ArgumentParser:
    """The command line of a script of tests, which begins with PROGRAM."""
    options = argparse.ArgumentParser(
        description=sys.modules[module].__doc__, formatter_class=argparse.RawDescriptionHelpFormatter)
    options.add_argument("program", type=pathlib.Path)
    return options


def program_in(options: argparse.ArgumentParser, given: list[str]) -> argparse.Namespace:
    """What a command line asks for. Its program, which has to be there, is tested from now on."""
    asked = options.parse_args(given)
    if not asked.program.is_file():
        options.error(f"there is no program {asked.program}")
    Tested.program = asked.program.resolve()
    return asked


def status_of(module: str) -> int:
    """Runs the tests of a script, and says which were skipped, and why. The status: 0 where all passed, and else 1."""
    run = unittest.main(module=module, argv=[sys.argv[0]], exit=False)
    for test, why in run.result.skipped:
        print(f"skipped: {test.id()}: {why}", flush=True)
    return 0 if run.result.wasSuccessful() else 1


def run_rows(module: str, given: list[str], said: str = "") -> int:
    """Runs the tests of a script whose command line is PROGRAM alone, once this was said. The status."""
    program_in(asked_of(module), given)
    if said:
        print(said, flush=True)
    return status_of(module)


def run_tests(module: str, given: list[str], number: str, default: int) -> int:
    """Runs the tests of a script, whose command line is PROGRAM [--seed S] and one number of Tested. The status.

    The seed is said first, so that it is known whatever happens then.
    """
    options = asked_of(module)
    options.add_argument(f"--{number}", type=int, default=default)
    options.add_argument("--seed", type=int, default=Tested.seed)
    asked = program_in(options, given)
    Tested.seed = asked.seed
    setattr(Tested, number, getattr(asked, number))
    many = f", {counted(Tested.kills, 'kill')}" if number == "kills" else ""
    print(f"{pathlib.Path(str(sys.modules[module].__file__)).stem}: seed {Tested.seed}{many}", flush=True)
    return status_of(module)


def text(lines: list[Line]) -> str:
    return "".join(json.dumps(line, separators=(",", ":")) + "\n" for line in lines)


def start(workflow_id: str) -> Line:
    return {"op": "start", "task_queue": "main", "workflow_id": workflow_id, "workflow_type": "w"}


def words(folder: str, *more: str) -> list[str]:
    return [str(Tested.program), "--journal", folder, *more]


def ran(lines: list[Line], folder: str, *more: str, **settings: Any) -> subprocess.CompletedProcess[str]:
    """What the program does that is given these lines, and then the end of its input."""
    return subprocess.run(
        words(folder, *more), input=text(lines), capture_output=True, text=True, timeout=SECONDS, **settings)


def served(lines: list[Line], folder: str, *more: str) -> list[Line]:
    """The replies to lines, none of which ends the program."""
    done = ran(lines, folder, *more)
    if done.returncode > 1 or RESTORED.sub("", done.stderr):
        raise AssertionError(f"status {done.returncode}: {done.stderr}")
    return replies_in(done.stdout)


def replies_in(printed: str) -> list[Line]:
    """The whole reply lines, without their lines' numbers, which begin anew with each program."""
    found = [json.loads(line) for line in printed.splitlines(keepends=True) if line.endswith("\n")]
    return [{key: value for key, value in reply.items() if key not in ("line", "no")} for reply in found]


def steps_in(folder: str) -> int:
    """How many steps a journal has, which has to be as the program or a crash left it. 0 where there is none yet."""
    path = pathlib.Path(folder, "journal")
    if not path.exists():
        return 0
    with Journal(str(path)) as journal:
        return sum(1 for _ in journal.steps())


def drawn_lines(draws: random.Random, count: int, passes: int) -> list[Line]:
    """Lines each of which makes one step, on one of the shards, at moments that never go back, by a workflow's lane."""
    lines: list[Line] = []
    for at in range(count):
        number = draws.randrange(WORKFLOWS)
        workflow_id = f"w{number}"
        kind = draws.randrange(10)
        if kind < 3:
            line = {**start(workflow_id), "request_id": f"r{at}"}
        elif kind < 7:
            given = {"request_id": f"r{at}", "input": "x" * draws.randrange(200)}
            line = {"op": "signal", "name": "s", "workflow_id": workflow_id, **given}
        elif kind < 8:
            line = {"op": "terminate", "workflow_id": workflow_id, "reason": "r"}
        else:
            line = {"op": "history", "workflow_id": workflow_id}
        lines.append({**line, "at": at, **({"lane": number % passes} if passes > 1 else {})})
    return lines


def beside_others(replies: list[Line]) -> list[Line]:
    """Replies without what depends on the lines of other workflows: run ids, and the moments of a shard's steps."""
    return json.loads(OF_OTHERS.sub("0", json.dumps(replies)))


def histories(at: int) -> list[Line]:
    """Lines that ask for the histories of all workflows of drawn lines, at a moment."""
    return [{"op": "history", "workflow_id": f"w{number}", "at": at} for number in range(WORKFLOWS)]


class Fed:
    """A program that is fed lines by tens, so that there are many batches, and whose replies are read.

    `pause` is how many seconds pass from ten lines to the next ten, at least.
    """

    def __init__(self, lines: list[Line], folder: str, more: list[str], pause: float = 0):
        self._lines, self._read, self._pause = lines, b"", pause
        self._came = threading.Condition()
        self._ended = False
        self.began = time.monotonic()
        # When its first reply and its last one came.
        self.times: list[float] = []
        self._program = subprocess.Popen(
            words(folder, *more), stdin=subprocess.PIPE, stdout=subprocess.PIPE, stderr=subprocess.DEVNULL, bufsize=0)
        self._threads = [threading.Thread(target=work) for work in (self._gather, self._feed)]
        for thread in self._threads:
            thread.start()

    def _gather(self) -> None:
        assert self._program.stdout is not None
        for part in iter(lambda: self._program.stdout.read(65_536), b""):
            with self._came:
                self._read += part
                self.times = [*self.times[:1], time.monotonic()]
                self._came.notify_all()
        with self._came:
            self._ended = True
            self._came.notify_all()

    def _feed(self) -> None:
        stream: Any = self._program.stdin
        try:
            for first in range(0, len(self._lines), 10):
                # On a machine that is busy too, a program that is killed has not served all lines at once.
                self.wait_for(first - AHEAD)
                stream.write(text(self._lines[first:first + 10]).encode())
                time.sleep(self._pause)
            stream.close()
        except (BrokenPipeError, ValueError):
            return

    def wait_for(self, replies: int) -> None:
        """Returns once so many replies were read, or the program has ended."""
        with self._came:
            while self._read.count(b"\n") < replies and not self._ended:
                self._came.wait()

    def kill(self) -> None:
        """Ends it at once."""
        self._program.kill()

    def killed(self) -> list[Line]:
        """Ends it at once. The replies that were read."""
        self.kill()
        return self._all()

    def served(self) -> list[Line]:
        """Lets it come to its end. Its replies."""
        return self._all()

    def _all(self) -> list[Line]:
        for thread in self._threads:
            thread.join()
        with self._program as program:
            program.wait()
        return replies_in(self._read.decode())


class InLanes(unittest.TestCase):
    """Tests over drawn lines, which so many lanes serve."""

    passes = 1

    @property
    def more(self) -> list[str]:
        """The options of the program."""
        return [*OF_SHARDS, "--passes", str(self.passes)]

    def shown(self, replies: list[Line]) -> list[Line]:
        """What is compared of replies. With several lanes, lines of other workflows are served before or after."""
        return replies if self.passes == 1 else beside_others(replies)
