"""Runs of the gate's phases side by side, and of the proofs beside them.

A phase begins as soon as what it needs is there, writes into a file, and is printed once it has ended. The proofs' lines
are printed as they come, but for the last one, with which the gate ends.
"""
from __future__ import annotations

import contextlib
import dataclasses
import os
import queue
import signal
import subprocess
import sys
import tempfile
import threading
import time
from pathlib import Path
from typing import IO, Callable

import gate_means
import gate_progress

TOP = Path(__file__).resolve().parent.parent
# So much lower is the priority of what only fills idle processors: beside proofs it still has a quarter of one's time.
NICE = 5
A_SECOND, A_MINUTE = 1.0, 60.0
# How long what is ended may take to end by itself.
GRACE = 20


@dataclasses.dataclass(frozen=True)
class Phase:
    """A phase: its name in the table, and its words for tools/gate. It begins once these crates are through in this tree, and
    these other phases and runs have passed."""

    name: str
    words: tuple[str, ...]
    crates: tuple[str, ...] = ()
    after: tuple[str, ...] = ()
    is_nice: bool = False
    # Where it fails, all ends.
    ends_all: bool = False


@dataclasses.dataclass(frozen=True)
class Proofs:
    """A run of `rt ci`: its name in the table, the crates that it is asked for, and variables that it gets. Of the one that
    decides, over all crates, the programs are in this tree."""

    name: str
    crates: tuple[str, ...] = ()
    variables: tuple[tuple[str, str], ...] = ()


@dataclasses.dataclass(frozen=True)
class Row:
    """How a phase ended, for the table."""

    name: str
    seconds: float
    result: str


@dataclasses.dataclass
class Running:
    """A phase that runs: its process, where it writes to, and when it began."""

    phase: Phase
    process: subprocess.Popen[bytes]
    said: IO[str]
    began: float


def started(command: list[str], said: IO[str] | int, nice: int, variables: tuple[tuple[str, str], ...] = ()) -> subprocess.Popen[bytes]:
    """Starts a command in a group of its own, so that all of it can be ended; in this session, since priorities count in one."""
    nicely = ["nice", "-n", str(nice), *command] if nice else command
    return subprocess.Popen(nicely, cwd=TOP, stdin=subprocess.DEVNULL, stdout=said, stderr=subprocess.STDOUT, process_group=0,
                            env={**os.environ, **dict(variables)})


def end(process: subprocess.Popen[bytes]) -> None:
    """Ends a process that was started, with all that it started, also in groups of their own."""
    below = [process.pid]
    for parent in below:
        below += children_of(parent)
    for sent in (signal.SIGTERM, signal.SIGKILL):
        for started_by_it in below:
            with contextlib.suppress(ProcessLookupError):
                os.kill(started_by_it, sent)
        with contextlib.suppress(subprocess.TimeoutExpired):
            process.wait(timeout=GRACE)


def children_of(process: int) -> list[int]:
    """The processes that one has started, and that are its children still."""
    found: list[int] = []
    for listed in Path(f"/proc/{process}/task").glob("*/children"):
        with contextlib.suppress(OSError):
            found += [int(child) for child in listed.read_text(encoding="ascii").split()]
    return found


class Follower:
    """The runs of proofs, one after another: their lines, and which crates are through."""

    def __init__(self, runs: list[Proofs], progress: gate_progress.Progress, decides: str):
        self.waiting, self.progress, self.decides = list(runs), progress, decides
        self.lines: queue.Queue[str | None] = queue.Queue()
        self.process: subprocess.Popen[bytes] | None = None
        self.run = runs[0]
        self.began = 0.0
        # The crates that are through in this tree, and the last line, which isn't printed yet.
        self.through: set[str] = set()
        self.last = ""

    def begin(self) -> None:
        self.run = self.waiting.pop(0)
        self.began, self.through = time.monotonic(), set()
        self.process = started(["rt", "ci", *self.run.crates], subprocess.PIPE, 0, self.run.variables)
        threading.Thread(target=self.read, args=(self.process.stdout,), daemon=True).start()

    def read(self, said: IO[bytes]) -> None:
        with said:
            for line in said:
                self.lines.put(line.decode(errors="replace"))
        self.lines.put(None)

    def take(self, line: str) -> None:
        """Takes a line: it is printed once another one comes."""
        self.print_last()
        self.last = line
        self.progress.note(line)
        if self.run.name == self.decides:
            self.through |= gate_progress.through_in(line, self.progress.crates)

    def print_last(self) -> None:
        sys.stdout.write(self.last)
        sys.stdout.flush()
        self.last = ""

    def ended(self) -> tuple[Row, int]:
        """Notes the end of a run: its row, and its status. The last line of the one that decides is kept."""
        assert self.process is not None
        status, said = self.process.wait(), self.last.strip()
        if self.run.name != self.decides:
            self.print_last()
        self.process = None
        return Row(self.run.name, time.monotonic() - self.began, said or f"status {status}"), status


class Gate:
    """A run of all phases beside the proofs."""

    def __init__(self, phases: list[Phase], proofs: Follower, told: Callable[[], str], every: float = A_MINUTE):
        self.waiting, self.proofs, self.told, self.every = list(phases), proofs, told, every
        self.running: list[Running] = []
        self.rows: list[Row] = []
        self.passed: set[str] = set()
        self.could_not: dict[str, None] = {}
        self.bodies = self.status = 0
        self.is_over = False

    def go(self) -> int:
        """Runs all. The status: that of the proofs, or 1 where only another phase failed."""
        self.proofs.begin()
        told = time.monotonic()
        try:
            while not self.is_over and (self.proofs.process or self.running or self.ready()):
                self.begin()
                self.wait()
                if self.proofs.process and time.monotonic() - told > self.every:
                    told = time.monotonic()
                    print(self.told(), file=sys.stderr, flush=True)
        finally:
            for it in self.running:
                end(it.process)
                it.said.close()
            if self.proofs.process:
                end(self.proofs.process)
        self.rows += [Row(phase.name, 0.0, "not run") for phase in self.waiting]
        return self.status

    def ready(self) -> list[Phase]:
        """The phases that can begin."""
        return [phase for phase in self.waiting
                if self.proofs.through.issuperset(phase.crates) and self.passed.issuperset(phase.after)]

    def begin(self) -> None:
        for phase in self.ready():
            self.waiting.remove(phase)
            said = tempfile.TemporaryFile("w+", errors="replace")
            process = started([gate_means.python(), "tools/gate", *phase.words], said, NICE if phase.is_nice else 0)
            self.running.append(Running(phase, process, said, time.monotonic()))

    def wait(self) -> None:
        """Waits for a second, or for lines of the proofs, and notes what has ended."""
        try:
            line = self.proofs.lines.get(timeout=A_SECOND)
            while line is not None:
                self.proofs.take(line)
                line = self.proofs.lines.get_nowait()
            self.end_proofs()
        except queue.Empty:
            pass
        for it in [it for it in self.running if it.process.poll() is not None]:
            self.running.remove(it)
            self.end_phase(it)

    def end_proofs(self) -> None:
        """Notes the end of a run of proofs, and begins the next one, also after one that failed: the last one decides."""
        name = self.proofs.run.name
        row, status = self.proofs.ended()
        self.rows.append(row)
        self.passed |= set() if status else {name}
        self.status = status if name == self.proofs.decides and status else self.status
        if self.proofs.waiting:
            self.proofs.begin()

    def end_phase(self, it: Running) -> None:
        """Prints what a phase said, now that it has ended, and notes how it did."""
        it.said.seek(0)
        for line in it.said:
            sys.stdout.write(line)
            self.note(line)
        it.said.close()
        result = "FAILED" if it.process.returncode else "passed"
        print(f"gate: {it.phase.name}: {result}", flush=True)
        self.rows.append(Row(it.phase.name, time.monotonic() - it.began, result))
        if not it.process.returncode:
            self.passed.add(it.phase.name)
            return
        self.status = self.status or 1
        self.is_over = self.is_over or it.phase.ends_all

    def note(self, line: str) -> None:
        """Notes what a phase's line says for the gate's last lines."""
        if line.startswith(gate_means.COULD_NOT):
            self.could_not[line[len(gate_means.COULD_NOT):].strip()] = None
        tried = gate_progress.SAID.match(line)
        self.bodies += int(tried[4] or 0) if tried else 0
