#!/usr/bin/env python3
"""A service that runs for long: a workflow a second, each kept for an hour after it closed, by a clock that jumps.

Usage: bench/year.py [--program PROGRAM] [--folder DIR] [--days N] [--hours H]

It serves N days (1) with a journal, and after each H hours (6) of them the journal is compacted while the next ones are
served. A workflow is started, its task is taken, it is terminated, and a timer turn deletes one that closed an hour ago:
six steps. Lines are handed in as fast as the program takes them, by a pipe of up to 1 MiB. A compaction is the command of
its own that users have, and the part after the next one waits for its end.

Printed are the memory of the program, the room of the journal on the disk and the bytes of the snapshots after each such
part, or some fifty of them, and how long a compaction took. At the end come the seconds that went into serving and into
waiting for compactions, and those of an opening, beside those of a service that only ran for one hour. What is held must
not grow with the days: the status is 1 where the last part has more than 1.2 times the memory or the room of the second
one, or opens in more than 3 times the hour's time and half a second.
"""
from __future__ import annotations

import argparse
import contextlib
import fcntl
import os
import pathlib
import subprocess
import sys
import tempfile
import threading
import time
from collections.abc import Iterator
from concurrent.futures import ThreadPoolExecutor
from typing import IO, NamedTuple

import first_path
from journal import resident, text_of

ROOT = pathlib.Path(__file__).resolve().parent.parent
HOUR = 3_600
SECOND = 1_000
RETENTION = HOUR * SECOND
LINES = 5
GROWTH, OPENING, HALF_A_SECOND = 1.2, 3.0, 0.5
# The lines of so many workflows are written at once, and a pipe takes and gives so many bytes where it can.
AT_ONCE, PIPE = 1_000, 1 << 20
ERROR = b'\n{"error"'
# So many parts are printed, and a few more.
PRINTED = 48


class Held(NamedTuple):
    """What a service holds after a part of its time, in bytes, and the seconds that the last compaction took."""

    memory: int
    room: int
    snapshots: int
    compaction: float


def template() -> bytes:
    """The lines of the workflow of a second, and of the turn that deletes one of an hour ago: its number and moment left out."""
    name, at = "order-%(second)d", "%(at)d"
    lines = b"".join(map(text_of, (
        {**first_path.start(name), "at": at},
        {"op": "dispatch_turn", "at": at, "shard": 0},
        {"op": "poll_workflow_task", "at": at, "task_queue": "main"},
        {"op": "terminate", "at": at, "workflow_id": name},
        {"op": "timer_turn", "at": at, "shard": 0},
    )))
    return lines.replace(b'"%(at)d"', b"%(at)d")


OF_A_SECOND = template()


def workflows(first: int, last: int) -> bytes:
    """The lines of these seconds."""
    return b"".join(OF_A_SECOND % {b"second": second, b"at": second * SECOND} for second in range(first, last))


def write_all(stream: IO[bytes], data: bytes) -> None:
    """Writes to a pipe, which may take a part at once."""
    left = memoryview(data)
    while left:
        left = left[stream.write(left):]


def widen(stream: IO[bytes]) -> None:
    """Has a pipe take more than the 64 KiB that it takes by default, where the system lets it."""
    with contextlib.suppress(OSError):
        fcntl.fcntl(stream, fcntl.F_SETPIPE_SZ, PIPE)


def on_disk(path: pathlib.Path) -> int:
    """The room that a file takes on the disk, in bytes: holes take none."""
    return path.stat().st_blocks * 512 if path.is_file() else 0


class Service:
    """A program that serves with a journal in a folder."""

    def __init__(self, program: str, folder: pathlib.Path):
        self.folder = folder
        self.words = [program, "--journal", str(folder), "--retention", str(RETENTION)]
        self.program = subprocess.Popen(self.words, stdin=subprocess.PIPE, stdout=subprocess.PIPE, bufsize=0)
        for stream in (self.program.stdin, self.program.stdout):
            assert stream
            widen(stream)
        self.compacting = [sys.executable, "-m", "wfserve.journal", str(folder), "--compact", program]
        # How long it served.
        self.seconds = 0.0

    def serve(self, first: int, last: int) -> None:
        """Serves the workflows of these seconds."""
        stream, began = self.program.stdin, time.monotonic()
        assert stream

        def feed() -> None:
            # A program that ends is told of by who reads its replies.
            with contextlib.suppress(BrokenPipeError):
                for second in range(first, last, AT_ONCE):
                    write_all(stream, workflows(second, min(second + AT_ONCE, last)))
        writer = threading.Thread(target=feed, daemon=True)
        writer.start()
        self.read(LINES * (last - first))
        writer.join()
        self.seconds += time.monotonic() - began

    def read(self, count: int) -> None:
        """Reads so many replies, none of which may be a refusal."""
        assert self.program.stdout
        end = b"\n"
        while count > 0:
            data = os.read(self.program.stdout.fileno(), PIPE)
            count -= data.count(b"\n")
            text = end + data
            if not data:
                sys.exit("year: the program ended before it answered all lines")
            if ERROR in text:
                sys.exit(f"year: {text[text.find(ERROR):].split()[0].decode()}")
            end = text[1 - len(ERROR):]

    def compacted(self) -> float:
        """Compacts the journal, by a process of its own. The seconds that it took."""
        began = time.monotonic()
        path = {"PYTHONPATH": str(ROOT / "clients" / "python" / "src")}
        done = subprocess.run(self.compacting, env={**os.environ, **path}, stdout=subprocess.DEVNULL)
        if done.returncode:
            sys.exit(f"year: a compaction ended with status {done.returncode}")
        return time.monotonic() - began

    def snapshots(self) -> int:
        return sum(on_disk(path) for path in self.folder.glob("checkpoint-*/*.snap"))

    def held(self, compaction: float) -> Held:
        return Held(resident(self.program.pid), on_disk(self.folder / "journal"), self.snapshots(), compaction)

    def end(self) -> float:
        """Ends the program, and says how many seconds another one takes to open the journal."""
        assert self.program.stdin
        self.program.stdin.close()
        self.program.wait()
        began = time.monotonic()
        subprocess.run(self.words, stdin=subprocess.DEVNULL, stdout=subprocess.DEVNULL, check=True)
        return time.monotonic() - began


def served(service: Service, hours: int, every: int) -> Iterator[Held]:
    """What the service holds after each part, whose compaction runs beside the next part."""
    waited, running = 0.0, None
    with ThreadPoolExecutor(1) as beside:
        for part in range(0, hours, every):
            service.serve(part * HOUR, min(part + every, hours) * HOUR)
            began = time.monotonic()
            spent = running.result() if running is not None else 0.0
            waited += time.monotonic() - began
            yield service.held(spent)
            running = beside.submit(service.compacted)
        if running is not None:
            running.result()
    yield service.held(service.compacted())
    print(f"served in {service.seconds:.0f} s, and {waited:.0f} s more were spent waiting for compactions", flush=True)


def said(title: str, held: Held) -> None:
    print(f"{title:>12}: {held.memory / 1e6:8.1f} MB of memory, {held.room / 1e6:8.1f} MB of journal, "
          f"{held.snapshots / 1e6:6.1f} MB of snapshots, {held.compaction:5.1f} s for a compaction", flush=True)


def main() -> int:
    words = argparse.ArgumentParser(description="a service that runs for long, with compactions of its journal")
    words.add_argument("--program", default=str(first_path.PROGRAM))
    words.add_argument("--folder", type=pathlib.Path, default=pathlib.Path(tempfile.gettempdir()))
    words.add_argument("--days", type=int, default=1)
    words.add_argument("--hours", type=int, default=6)
    asked = words.parse_args()
    with tempfile.TemporaryDirectory(dir=asked.folder) as name:
        one, many = pathlib.Path(name) / "one", pathlib.Path(name) / "many"
        one.mkdir()
        many.mkdir()
        hour = Service(asked.program, one)
        hour.serve(0, HOUR)
        opened_hour = hour.end()
        service, parts = Service(asked.program, many), []
        of_all = 24 * asked.days
        apart = max(1, of_all // asked.hours // PRINTED)
        for number, held in enumerate(served(service, of_all, asked.hours), 1):
            parts.append(held)
            hours = number * asked.hours
            if number <= 2 or number % apart == 0 or hours > of_all:
                said(f"after {hours} h" if hours <= of_all else "at the end", held)
        opened = service.end()
    print(f"opened: {opened_hour:.2f} s after one hour, {opened:.2f} s after {asked.days} days")
    second, last = parts[min(1, len(parts) - 1)], parts[-1]
    grew = last.memory > GROWTH * second.memory or last.room > GROWTH * second.room
    return int(grew or opened > OPENING * opened_hour + HALF_A_SECOND)


if __name__ == "__main__":
    sys.exit(main())
