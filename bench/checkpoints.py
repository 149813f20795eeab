#!/usr/bin/env python3
"""What a snapshot costs the built program, beside the record of all steps: bytes, seconds to write and to open, memory.

Usage: bench/checkpoints.py [--program PROGRAM] [--folder DIR] [--workflows N] [--more M] [--rounds R]

N workflows are open (100,000), each with ten events: its start, its task and eight signals. M further steps for each
(0) read and change nothing, as those of a service that has run for long: the record keeps them, and a snapshot doesn't.
The service is served as lines, and its records and snapshots are saved. Then it is opened from the snapshots, from the
records, and from the snapshots once more to write them again, which has to give the same bytes. All files lie in a
folder of their own in DIR, which should be on the disk that is meant. Each is made R times (3), by turns. Of times the
shortest counts, since other work only adds to them, and of memory the most that was held. A fact is an event.
"""
from __future__ import annotations

import argparse
import os
import pathlib
import subprocess
import sys
import tempfile
import time
from collections.abc import Iterator
from typing import Any, NamedTuple

import first_path
from journal import text_of

EVENTS = 10
# A start makes two events.
SIGNALS = EVENTS - 2
# The tasks of all workflows wait, and records are refused with more of them in a queue than it takes.
CAPACITY, QUEUES = 65_536, 4


class Cost(NamedTuple):
    """What a run of the program took."""

    seconds: float
    bytes_held: int


def lines(workflows: int, more: int) -> Iterator[bytes]:
    """The lines that open so many workflows, and ask each so often how it stands."""
    for number in range(workflows):
        name = f"order-{number}"
        queue = f"q{number * QUEUES // workflows}"
        yield text_of({**first_path.start(name), "at": number, "task_queue": queue})
        for signal in range(SIGNALS):
            own: dict[str, Any] = {"at": number, "request_id": f"paid-{signal}", "workflow_id": name}
            yield text_of({"name": "paid", "op": "signal", **own})
        for _ in range(more):
            yield text_of({"at": number, "op": "describe", "workflow_id": name})


class Bench:
    """The program, and a folder on the disk that is meant."""

    def __init__(self, said: argparse.Namespace, folder: pathlib.Path):
        self.rounds, self.folder = said.rounds, folder
        queues = ",".join(f"q{number}" for number in range(QUEUES))
        self.words = [str(said.program), "--capacity", str(CAPACITY), "--queues", queues]

    def made(self, name: str) -> pathlib.Path:
        folder = self.folder / name
        folder.mkdir(exist_ok=True)
        return folder

    def ran(self, given: pathlib.Path, *more: str | pathlib.Path) -> Cost:
        """What the program takes that is given the lines of a file."""
        with open(given, "rb") as file:
            began = time.monotonic()
            program = subprocess.Popen([*self.words, *map(str, more)], stdin=file, stdout=subprocess.DEVNULL,
                                       stderr=subprocess.DEVNULL)
            _, status, used = os.wait4(program.pid, 0)
            spent = time.monotonic() - began
        program.returncode = os.waitstatus_to_exitcode(status)
        if program.returncode:
            sys.exit(f"checkpoints: the program ended with status {program.returncode}")
        return Cost(spent, used.ru_maxrss * 1024)

    def opened(self, *ways: list[str | pathlib.Path]) -> list[Cost]:
        """The least seconds and the most memory of each of some ways to open, by turns."""
        none = self.folder / "none"
        none.write_bytes(b"")
        found: list[list[Cost]] = [[] for _ in ways]
        for _ in range(self.rounds):
            for costs, way in zip(found, ways):
                costs.append(self.ran(none, *way))
        return [Cost(min(cost.seconds for cost in costs), max(cost.bytes_held for cost in costs)) for costs in found]


def told(title: str, facts: int, cost: Cost) -> None:
    print(f"  {title}: {cost.seconds:.2f} s, {facts / cost.seconds:,.0f} facts a second, "
          f"{cost.bytes_held / 1e6:,.1f} MB held at most", flush=True)


def measure(bench: Bench, workflows: int, more: int) -> None:
    given, facts = bench.folder / "lines", EVENTS * workflows
    records, snapshots, again = bench.made("records"), bench.made("snapshots"), bench.made("again")
    with open(given, "wb") as file:
        file.writelines(lines(workflows, more))
    served = bench.ran(given, "--save", records, "--snapshot", snapshots)
    sizes = [sum(path.stat().st_size for path in folder.iterdir()) for folder in (records, snapshots)]
    print(f"{workflows:,} open workflows of {EVENTS} events, {more} steps more of each: {facts:,} facts", flush=True)
    print(f"  the record has {sizes[0] / 1e6:,.1f} MB, the snapshot {sizes[1] / 1e6:,.1f} MB, "
          f"{sizes[1] / facts:.0f} bytes a fact; served and both saved in {served.seconds:.2f} s")
    by_snapshot, by_record, written, bare = bench.opened(
        ["--load", snapshots], ["--load", records], ["--load", snapshots, "--snapshot", again], [])
    if any((again / path.name).read_bytes() != path.read_bytes() for path in snapshots.iterdir()):
        sys.exit("checkpoints: what was loaded is written otherwise")
    print(f"  opened with nothing: {bare.seconds:.2f} s, {bare.bytes_held / 1e6:,.1f} MB held at most", flush=True)
    told("opened from the record of all steps", facts, by_record)
    told("opened from the snapshot", facts, by_snapshot)
    told("opened so, and written again", facts, written)
    writing = max(written.seconds - by_snapshot.seconds, 1e-9)
    print(f"  writing alone: {writing:.2f} s, {facts / writing:,.0f} facts a second; opened from the snapshot "
          f"{by_record.seconds / by_snapshot.seconds:.2f} times as fast as from the record", flush=True)


def main() -> int:
    options = argparse.ArgumentParser(description=__doc__, formatter_class=argparse.RawDescriptionHelpFormatter)
    options.add_argument("--program", type=pathlib.Path, default=first_path.PROGRAM)
    options.add_argument("--folder", type=pathlib.Path, default=tempfile.gettempdir())
    options.add_argument("--workflows", type=int, default=100_000)
    options.add_argument("--more", type=int, default=0)
    options.add_argument("--rounds", type=int, default=3)
    said = options.parse_args()
    if not os.access(said.program, os.X_OK):
        sys.exit(f"checkpoints: {said.program} is not built; `rt run` in crates/wfserve builds it")
    if not 1 <= said.workflows <= CAPACITY * QUEUES:
        options.error(f"--workflows is 1 to {CAPACITY * QUEUES:,}")
    print(f"load {os.getloadavg()[0]:.1f} on {os.cpu_count()} processors", flush=True)
    with tempfile.TemporaryDirectory(dir=said.folder) as folder:
        measure(Bench(said, pathlib.Path(folder)), said.workflows, said.more)
    print(f"load {os.getloadavg()[0]:.1f}", flush=True)
    return 0


if __name__ == "__main__":
    sys.exit(main())
