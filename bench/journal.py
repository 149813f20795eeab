#!/usr/bin/env python3
"""What a journal costs the built program, each beside what it is compared with, in turn and in one run.

Usage: bench/journal.py [--program PROGRAM] [--folder DIR] [--scale S] [--rounds N] [PART..]

    lines      lines of a file, read 2 MiB at a time in parts of 256 KiB: with a journal, and without one
    batches    the same lines by a pipe, so that one read gives 64 KiB at most
    lanes      the same lines of a file over 16 shards in eight lanes, read 2 MiB at a time
    caller     a caller who waits for each reply, beside one of a C program that writes as many bytes over zeros and
               syncs each; and what of it is the journal's: both again where nothing is written
    opening    how many entries a second a journal is opened at, and the memory that this takes
    memory     the memory after the first tenth of some steps and after all, with a retention and a journal

Without PART all are made. S makes all counts that many times as large (1: 200,000 lines, 10,000,000 steps in `memory`).
The journal lies in a folder of its own in DIR, which should be on the disk that is meant. Of each pair N rounds are
made by turns, and all are printed: of times the shortest counts, since other work only adds to them. Where the speed of
the machine varies, the median of the rounds' shares says more, since the two of a round are made right after one
another. Under each row stands its share, the aim, and whether that is met. The status is 1 where an aim is missed.
"""
from __future__ import annotations

import argparse
import json
import os
import pathlib
import statistics
import subprocess
import sys
import tempfile
import threading
import time
from collections.abc import Callable, Iterator
from typing import Any

import first_path

ROOT = pathlib.Path(__file__).resolve().parent.parent
LINES, CALLS, ENTRIES, STEPS = 200_000, 5_000, 1_000_000, 10_000_000
# What is aimed at.
SHARE, LANES_SHARE, CALLED_SHARE, OPENED, GROWTH = 0.85, 0.8, 1.0, 300_000, 1.2
# The rows of several lanes.
LANES, SHARDS = 8, 16
# How many runs are kept at most after they closed. Of fewer runs it is fewer.
KEPT = 1_000
# Lines of a run that comes and goes, and its steps: a dispatch turn makes two.
RUN_LINES, RUN_STEPS = 19, 20
missed: list[str] = []


def text_of(line: dict[str, Any]) -> bytes:
    return json.dumps(line, separators=(",", ":")).encode() + b"\n"


def orders(count: int, lanes: int = 1) -> Iterator[bytes]:
    """Starts, and nine signals for each: all of an order in one lane."""
    for number in range(count // 10):
        name = f"order-{number}"
        lane = {"lane": number % lanes} if lanes > 1 else {}
        yield text_of({**first_path.start(name), "at": number, **lane})
        for signal in range(9):
            own = {"at": number, "request_id": f"paid-{signal}", "workflow_id": name}
            yield text_of({"name": "paid", "op": "signal", **own, **lane})


def aim(title: str, reached: float, wanted: float) -> None:
    """Says whether an aim is met, which is at least so much."""
    good = reached >= wanted
    print(f"  {title}: {reached:,.2f}, aimed at {wanted:,.2f}: {'met' if good else 'MISSED'}", flush=True)
    if not good:
        missed.append(title)


class Bench:
    """The program, and folders on the disk that is meant."""

    def __init__(self, said: argparse.Namespace):
        self.program, self.rounds, self.scale = str(said.program), said.rounds, said.scale
        self.folder = pathlib.Path(said.folder)

    def count(self, number: int) -> int:
        return max(10, int(number * self.scale))

    def words(self, *more: str) -> list[str]:
        return [self.program, "--capacity", "65536", *more]

    def in_folder(self, work: Callable[[str], float]) -> float:
        """What some work takes that is done with a folder of its own."""
        with tempfile.TemporaryDirectory(dir=self.folder) as folder:
            return work(folder)

    def by_turns(self, *works: Callable[[], float]) -> list[list[float]]:
        """Seconds of each kind of work, all kinds each round."""
        rounds = [[work() for work in works] for _ in range(self.rounds)]
        return [list(spent) for spent in zip(*rounds)]

    # Many lines.

    def served(self, lines: pathlib.Path, *more: str, piped: bool = False) -> float:
        """The seconds that the program takes for the lines of a file, which a pipe may hand to it."""
        with open(lines, "rb") as file:
            source = subprocess.Popen(["cat"], stdin=file, stdout=subprocess.PIPE) if piped else None
            began = time.monotonic()
            done = subprocess.run(
                self.words(*more), stdin=source.stdout if source else file, stdout=subprocess.DEVNULL)
            spent = time.monotonic() - began
            if source is not None:
                source.wait()
        if done.returncode > 1:
            sys.exit(f"journal: the program ended with status {done.returncode}")
        return spent

    def many(self, title: str, wanted: float, *more: str, piped: bool = False, lanes: int = 1) -> None:
        count = self.count(LINES)
        with tempfile.TemporaryDirectory() as made:
            lines = pathlib.Path(made, "lines")
            lines.write_bytes(b"".join(orders(count, lanes)))
            kept, plain = self.by_turns(
                lambda: self.in_folder(lambda folder: self.served(lines, *more, "--journal", folder, piped=piped)),
                lambda: self.served(lines, *more, piped=piped))
        print(f"{title}: {count:,} lines; lines a second with a journal {rates(count, kept)}, "
              f"without {rates(count, plain)}")
        shares = [without / with_one for without, with_one in zip(plain, kept)]
        print(f"  the rounds' shares: {statistics.median(shares):.2f} in the median, "
              f"{min(shares):.2f} to {max(shares):.2f}")
        aim("share of the speed without", min(plain) / min(kept), wanted)

    def lines(self) -> None:
        self.many("one lane, lines of a file", SHARE)

    def batches(self) -> None:
        self.many("one lane, lines of a pipe", SHARE, piped=True)

    def lanes(self) -> None:
        words = ["--shards", str(SHARDS), "--passes", str(LANES)]
        self.many(f"{LANES} lanes over {SHARDS} shards, lines of a file", LANES_SHARE, *words, lanes=LANES)

    # One line at a time.

    def called(self, words: list[str], count: int) -> float:
        """The seconds of calls of a program, each of which waits for its reply."""
        with subprocess.Popen(words, stdin=subprocess.PIPE, stdout=subprocess.PIPE, bufsize=0) as program:
            assert program.stdin and program.stdout
            program.stdin.write(text_of({**first_path.start("order"), "at": 0}))
            program.stdout.read(65_536)
            began = time.monotonic()
            for number in range(count):
                program.stdin.write(text_of({"at": number, "name": "paid", "op": "signal", "workflow_id": "order"}))
                program.stdout.read(65_536)
            spent = time.monotonic() - began
            program.stdin.close()
        return spent

    def caller(self) -> None:
        count = self.count(CALLS)
        entry = b'00{"pass":0,"request":{"at":1000,"input":"","name":"paid","op":"signal","workflow_id":"order"}}\n'
        size = len(entry) + 34
        with tempfile.TemporaryDirectory() as made:
            writer = f"{made}/over_zeros"
            subprocess.run(["cc", "-O2", "-o", writer, ROOT / "bench/over_zeros.c"], check=True)

            def written(folder: str) -> float:
                words = [writer, f"{folder}/file", str(count), str(size)]
                return float(subprocess.run(words, capture_output=True, text=True, check=True).stdout)

            def c_called(size: int) -> float:
                # The first call is not timed.
                return self.in_folder(lambda folder: self.called(
                    [writer, f"{folder}/file", str(count + 1), str(size), "called"], count))

            calls, by_c, unkept, unwritten = self.by_turns(
                lambda: self.in_folder(lambda folder: self.called(self.words("--journal", folder), count)),
                lambda: c_called(size),
                lambda: self.called(self.words(), count),
                lambda: c_called(0))
            writes = [self.in_folder(written) for _ in range(self.rounds)]
        print(f"a caller who waits for each reply: {count:,} calls of {size} bytes in the file; a second "
              f"{rates(count, calls)}; of a C program {rates(count, by_c)}; its writes and syncs with no caller "
              f"{rates(count, writes)}")
        kept, c_kept, plain, c_plain = (min(spent) / count * 1e6 for spent in (calls, by_c, unkept, unwritten))
        print(f"  a call takes {kept:.1f} µs, and {plain:.1f} without a journal; of C {c_kept:.1f}, and {c_plain:.1f} "
              f"where nothing is written: so {kept - plain:.1f} for the journal, of C {c_kept - c_plain:.1f}")
        aim("share of the speed of C", min(by_c) / min(calls), CALLED_SHARE)

    # Opening.

    def opening(self) -> None:
        count = self.count(ENTRIES)
        with tempfile.TemporaryDirectory(dir=self.folder) as folder:
            with tempfile.TemporaryDirectory() as made:
                lines = pathlib.Path(made, "lines")
                with open(lines, "wb") as file:
                    file.writelines(orders(count))
                self.served(lines, "--journal", folder)
            size = os.path.getsize(f"{folder}/journal")
            spent, most = [], 0
            for _ in range(self.rounds):
                began = time.monotonic()
                most = max(most, self.opened(folder))
                spent.append(time.monotonic() - began)
        print(f"opened again: {count:,} entries, {size / 1e6:,.1f} MB; entries a second {rates(count, spent)}; "
              f"{most / 1e6:,.1f} MB held at most, {most / size:.1f} times the file")
        aim("entries a second", count / min(spent), OPENED)

    def opened(self, folder: str) -> int:
        """Opens a journal, and ends. The most memory that was held, in bytes."""
        program = subprocess.Popen(
            self.words("--journal", folder), stdin=subprocess.DEVNULL, stdout=subprocess.DEVNULL,
            stderr=subprocess.DEVNULL)
        _, status, used = os.wait4(program.pid, 0)
        program.returncode = os.waitstatus_to_exitcode(status)
        if program.returncode:
            sys.exit(f"journal: the program ended with status {program.returncode}")
        return used.ru_maxrss * 1024

    # Memory.

    def memory(self) -> None:
        """Runs come, are signaled, have their task taken, end, and are deleted."""
        runs = max(20, self.count(STEPS) // RUN_STEPS)
        retention = str(min(KEPT, runs // 20))
        with tempfile.TemporaryDirectory(dir=self.folder) as folder, subprocess.Popen(
            self.words("--journal", folder, "--retention", retention), stdin=subprocess.PIPE, stdout=subprocess.PIPE,
        ) as program:
            assert program.stdin and program.stdout
            stream = program.stdin

            def feed() -> None:
                for number in range(runs):
                    stream.write(come_and_go(number))
                stream.flush()
            writer = threading.Thread(target=feed)
            writer.start()
            first = last = 0
            for number, reply in enumerate(program.stdout, 1):
                if reply.startswith(b'{"error"'):
                    sys.exit(f"journal: {reply!r}")
                if number == RUN_LINES * (runs // 10):
                    first = resident(program.pid)
                if number == RUN_LINES * runs:
                    # It ends with its input, so that stays open until now.
                    last = resident(program.pid)
                    stream.close()
            writer.join()
            size = os.path.getsize(f"{folder}/journal")
        print(f"memory: {RUN_STEPS * runs:,} steps, {size / 1e6:,.1f} MB in the journal; "
              f"{first / 1e6:,.1f} MB after the first tenth, {last / 1e6:,.1f} MB after all")
        aim("1.2 times the first, by the last", GROWTH * first / last, 1.0)


def come_and_go(number: int) -> bytes:
    """The lines of a run that begins, is signaled, has its task taken and ends; and a turn that deletes one."""
    at, name = number, f"order-{number}"
    signals = ({"op": "signal", "at": at, "name": f"s{count}", "workflow_id": name} for count in range(RUN_LINES - 5))
    return b"".join(map(text_of, (
        {**first_path.start(name), "at": at},
        {"op": "dispatch_turn", "at": at, "shard": 0},
        {"op": "poll_workflow_task", "at": at, "task_queue": "main"},
        *signals,
        {"op": "terminate", "at": at, "workflow_id": name},
        {"op": "timer_turn", "at": at, "shard": 0},
    )))


def resident(number: int) -> int:
    """The memory of a process now, in bytes."""
    with open(f"/proc/{number}/status", encoding="ascii") as status:
        told = next(line for line in status if line.startswith("VmRSS:"))
    return int(told.split()[1]) * 1024


def rates(count: int, spent: list[float]) -> str:
    return ", ".join(f"{count / seconds:,.0f}" for seconds in spent)


def main() -> int:
    parts = ["lines", "batches", "lanes", "caller", "opening", "memory"]
    options = argparse.ArgumentParser(description=__doc__, formatter_class=argparse.RawDescriptionHelpFormatter)
    options.add_argument("--program", type=pathlib.Path, default=first_path.PROGRAM)
    options.add_argument("--folder", type=pathlib.Path, default=tempfile.gettempdir())
    options.add_argument("--scale", type=float, default=1.0)
    options.add_argument("--rounds", type=int, default=3)
    options.add_argument("parts", nargs="*", metavar="PART", help=", ".join(parts))
    said = options.parse_args()
    if not os.access(said.program, os.X_OK):
        sys.exit(f"journal: {said.program} is not built; `rt run` in crates/wfserve builds it")
    print(f"load {os.getloadavg()[0]:.1f} on {os.cpu_count()} processors", flush=True)
    bench = Bench(said)
    for part in said.parts or parts:
        if part not in parts:
            sys.exit(f"journal: {part} is none of {', '.join(parts)}")
        getattr(bench, part)()
    print(f"load {os.getloadavg()[0]:.1f}", flush=True)
    return 1 if missed else 0


if __name__ == "__main__":
    sys.exit(main())
