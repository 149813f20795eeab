#!/usr/bin/env python3
"""What runs leave that come and go: the memory of the built program with a retention and without one, and
how long a turn takes that takes a long history away.

Usage: bench/retention.py [RUNS..]   (default: 250000 1000000)

Each run is started and terminated, and a timer turn follows, which takes the run before it away where
there is a retention. The resident memory is read once all lines are answered; the bytes of a run are those by
which it grows from one size to the next. Three requests of each run stand in the record, and are counted with
it. Of long histories one turn is timed, from its line to its reply, the shortest of three programs.
`rt run` in crates/wfserve builds the program.
"""
import json
import os
import subprocess
import sys
import threading
import time

import first_path

LENGTHS = [1_000, 10_000, 100_000]


def text_of(line):
    return (json.dumps(line, separators=(",", ":")) + "\n").encode()


def come_and_go(count):
    """The lines of so many runs, the nth of which begins, has its task taken and ends at the moment 2n."""
    for number in range(count):
        at = 2 * number
        yield text_of({**first_path.start(f"order-{number}"), "at": at})
        yield text_of({"op": "dispatch_turn", "at": at, "shard": 0})
        yield text_of({"op": "poll_workflow_task", "at": at, "task_queue": "main"})
        yield text_of({"op": "terminate", "at": at, "workflow_id": f"order-{number}"})
        yield text_of({"op": "timer_turn", "at": at, "shard": 0})


def refused(count):
    """As many steps with the same texts, of which none makes a run: what their record takes. A dispatch
    turn and a poll are three steps without texts there, and timer turns have none either."""
    for number in range(count):
        at = 2 * number
        yield text_of({**first_path.start(f"order-{number}"), "at": at, "task_queue": "none"})
        for _ in range(3):
            yield text_of({"op": "timer_turn", "at": at, "shard": 0})
        yield text_of({"op": "terminate", "at": at, "workflow_id": f"order-{number}"})
        yield text_of({"op": "timer_turn", "at": at, "shard": 0})


class Program:
    """The built program, over its two pipes."""

    def __init__(self, *options):
        self.process = subprocess.Popen(
            [first_path.PROGRAM, *options], stdin=subprocess.PIPE, stdout=subprocess.PIPE
        )

    def answer(self, lines, count):
        """Gives it lines, and reads the reply to each. The last one."""
        def write():
            for line in lines:
                self.process.stdin.write(line)
            self.process.stdin.flush()

        writer = threading.Thread(target=write)
        writer.start()
        reply = b""
        for _ in range(count):
            reply = self.process.stdout.readline()
        writer.join()
        return json.loads(reply)

    def resident(self):
        with open(f"/proc/{self.process.pid}/status") as status:
            told = next(line for line in status if line.startswith("VmRSS:"))
        return int(told.split()[1]) * 1024

    def end(self):
        self.process.stdin.close()
        self.process.stdout.read()
        if self.process.wait() > 1:
            sys.exit(f"retention: the program ended with status {self.process.returncode}")


def take(lines, count, options):
    """The memory after so many runs, in bytes, and the seconds of a run."""
    program = Program(*options)
    begun = time.monotonic()
    program.answer(lines(count), sum(1 for _ in lines(1)) * count)
    seconds = (time.monotonic() - begun) / count
    taken = program.resident()
    program.end()
    return taken, seconds


def seconds_of_turn(length):
    """How long the turn takes that takes a history of so many signals away, once its reply is read."""
    program = Program("--retention", "1")
    lines = [first_path.start("order")]
    lines += [{"op": "signal", "workflow_id": "order", "name": "paid"} for _ in range(length)]
    lines.append({"op": "terminate", "workflow_id": "order"})
    program.answer(map(text_of, lines), len(lines))
    begun = time.monotonic()
    reply = program.answer([text_of({"op": "timer_turn", "at": 1, "shard": 0})], 1)
    seconds = time.monotonic() - begun
    if reply.get("class") != "retention":
        sys.exit(f"retention: the turn was answered {reply}")
    program.end()
    return seconds


def main():
    sizes = sorted(int(word) for word in sys.argv[1:]) or [250_000, 1_000_000]
    if not os.access(first_path.PROGRAM, os.X_OK):
        sys.exit(f"retention: {first_path.PROGRAM} is not built; run `rt run` in its folder")
    print(f"load {os.getloadavg()[0]:.2f} on {os.cpu_count()} processors", flush=True)
    for name, lines, options in (("kept", come_and_go, []), ("deleted", come_and_go, ["--retention", "1"]),
                                 ("their record alone", refused, [])):
        before = None
        for count in sizes:
            taken, seconds = take(lines, count, options)
            each = f", {(taken - before[1]) / (count - before[0]):,.0f} bytes each" if before else ""
            print(f"{name}: {count:,} runs, {taken / 1e6:.1f} MB{each}, {seconds * 1e6:.1f} us each", flush=True)
            before = count, taken
    for length in LENGTHS:
        seconds = min(seconds_of_turn(length) for _ in range(3))
        print(f"a turn that takes {length:,} signals away: {seconds * 1e6:,.0f} us", flush=True)


if __name__ == "__main__":
    main()
