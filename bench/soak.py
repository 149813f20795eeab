#!/usr/bin/env python3
"""Serves drawn calls of every kind over several lanes for a while, and then reads everything twice.

Usage: bench/soak.py [SECONDS [SEED]]   (default: 600 seconds, a seed by the clock)

Eight lanes over sixteen shards serve starts, signals, cancellations, terminations, polls, completions
with drawn commands, activities' ends, reads and turns of every kind. What a call needs, as a task's
token, is drawn from what was answered before. With every second seed what has closed is kept for half
a second of the lines' moments alone. At the end every workflow's history is read, and the records are
saved. A program that is opened from these has to answer the same histories, and to save the same
records. The memory that was held is printed beside the bytes of the records.
"""
import collections
import json
import pathlib
import random
import resource
import subprocess
import sys
import tempfile
import threading
import time

import records

LANES, SHARDS, QUEUES = 8, 16, 4
WORKFLOWS, BATCH = 400, 2_000
KEPT_TOKENS = 3_000
RETENTION = 500
# Thousands of replies come within a second, on a machine that is busy too.
REPLY_SECONDS = 300
SETTINGS = ["--passes", str(LANES), "--shards", str(SHARDS), "--capacity", "65536"]
SETTINGS += ["--queues", ",".join(f"q{number}" for number in range(QUEUES))]
REUSE = ["AllowDuplicate", "AllowDuplicateFailedOnly", "RejectDuplicate"]
CONFLICT = ["Fail", "UseExisting", "TerminateExisting"]


class Drawn:
    """Draws lines, of which some need what was answered before."""

    def __init__(self, seed):
        self.random = random.Random(seed)
        self.tasks = collections.deque(maxlen=KEPT_TOKENS)
        self.activities = collections.deque(maxlen=KEPT_TOKENS)
        self.at = 0

    def name(self):
        return f"w{self.random.randrange(WORKFLOWS)}"

    def queue(self):
        return f"q{self.random.randrange(QUEUES)}"

    def shard(self):
        return self.random.randrange(SHARDS)

    def start(self):
        return {
            "op": "start",
            "workflow_id": self.name(),
            "workflow_type": "drawn",
            "task_queue": self.queue(),
            "reuse": self.random.choice(REUSE),
            "conflict": self.random.choice(CONFLICT),
            "request_id": f"r{self.random.randrange(10_000)}",
            "run_timeout": self.random.choice([0, 0, 5_000]),
        }

    def with_token(self, tokens, op, **fields):
        if not tokens:
            return self.start()
        place = self.random.randrange(len(tokens))
        tokens.rotate(-place)
        return {"op": op, "token": tokens.popleft(), **fields}

    def command(self):
        number = self.random.randrange(40)
        kinds = [
            {"type": "StartTimer", "timer_id": f"t{number}", "duration": self.random.randrange(1, 2_000)},
            {"type": "CancelTimer", "timer_id": f"t{number}"},
            {
                "type": "ScheduleActivityTask",
                "activity_id": f"a{number}",
                "activity_type": "drawn",
                "task_queue": self.queue(),
                "start_to_close": 1_000,
                "schedule_to_close": 5_000,
                "heartbeat": self.random.choice([0, 500]),
            },
            {"type": "RecordMarker", "name": "drawn", "details": "m" * number},
            {
                "type": "StartChildWorkflowExecution",
                "workflow_id": self.name(),
                "workflow_type": "child",
                "task_queue": self.queue(),
            },
            {"type": "SignalExternalWorkflowExecution", "workflow_id": self.name(), "name": "hello"},
            {"type": "RequestCancelExternalWorkflowExecution", "workflow_id": self.name()},
        ]
        return self.random.choice(kinds)

    def completion(self):
        commands = [self.command() for _ in range(self.random.randrange(3))]
        end = self.random.randrange(12)
        if end == 0:
            commands.append({"type": "CompleteWorkflowExecution", "result": "done"})
        elif end == 1:
            commands.append({"type": "FailWorkflowExecution", "message": "drawn"})
        elif end == 2:
            commands.append({"type": "ContinueAsNewWorkflowExecution"})
        return self.with_token(self.tasks, "complete_workflow_task", commands=commands)

    def turn(self):
        kind = self.random.randrange(4)
        if kind == 0:
            return {"op": "timer_turn", "shard": self.shard()}
        if kind == 1:
            return {"op": "transfer_turn", "from": self.shard(), "to": self.shard()}
        return {"op": "dispatch_turn", "shard": self.shard()}

    def line(self):
        draws = [
            (10, self.start),
            (10, lambda: {"op": "signal", "workflow_id": self.name(), "name": "hello", "input": "x"}),
            (3, lambda: {**self.start(), "op": "signal_with_start", "name": "hello"}),
            (1, lambda: {"op": "request_cancel", "workflow_id": self.name()}),
            (1, lambda: {"op": "terminate", "workflow_id": self.name(), "reason": "drawn"}),
            (25, lambda: {"op": "poll_workflow_task", "task_queue": self.queue()}),
            (12, lambda: {"op": "poll_activity_task", "task_queue": self.queue()}),
            (22, self.completion),
            (2, lambda: self.with_token(self.tasks, "fail_workflow_task", message="drawn")),
            (5, lambda: self.with_token(self.activities, "complete_activity", result="done")),
            (3, lambda: self.with_token(self.activities, "fail_activity", message="drawn")),
            (1, lambda: self.with_token(self.activities, "cancel_activity")),
            (2, lambda: {"op": "describe", "workflow_id": self.name()}),
            (1, lambda: {"op": "history", "workflow_id": self.name()}),
            (60, self.turn),
        ]
        (draw,) = self.random.choices([draw for _, draw in draws], [weight for weight, _ in draws])
        line = draw()
        if line.get("op") == "signal_with_start":
            line.pop("conflict", None)
        return {**line, "at": self.at, "lane": self.random.randrange(LANES)}

    def learn(self, reply):
        """Keeps a task's token."""
        if reply.get("ok") == "task":
            tokens = self.activities if "activity_id" in reply else self.tasks
            tokens.append(reply["token"])


class Program:
    """The program, whose replies are taken by a thread of their own."""

    def __init__(self, wfserve, words):
        self.process = subprocess.Popen(
            [wfserve, *SETTINGS, *words], stdin=subprocess.PIPE, stdout=subprocess.PIPE
        )
        self.replies, self.came = collections.deque(), threading.Semaphore(0)
        self.reader = threading.Thread(target=self.read, daemon=True)
        self.reader.start()

    def read(self):
        for line in self.process.stdout:
            self.replies.append(line)
            self.came.release()

    def serve(self, lines):
        """Serves the lines, and returns their replies, in whatever order they came."""
        text = "".join(json.dumps(line, separators=(",", ":")) + "\n" for line in lines)
        self.process.stdin.write(text.encode() + b'{"barrier":true}\n')
        self.process.stdin.flush()
        return [self.reply() for _ in lines]

    def reply(self):
        if not self.came.acquire(timeout=REPLY_SECONDS):
            self.process.kill()
            sys.exit(f"soak: a reply did not come within {REPLY_SECONDS} seconds")
        return json.loads(self.replies.popleft())

    def end(self):
        self.process.stdin.close()
        self.reader.join()
        status = self.process.wait()
        if status not in (0, 1) or self.replies:
            sys.exit(f"soak: status {status}, {len(self.replies)} replies nobody asked for")


def histories(program):
    """The history of each workflow, as the program answers it."""
    lines = [{"op": "history", "workflow_id": f"w{number}"} for number in range(WORKFLOWS)]
    found = sorted(program.serve(lines), key=lambda reply: reply.pop("line"))
    return found


def kept(folder):
    return [(folder / f"shard-{shard:02}.rec").read_bytes() for shard in range(SHARDS)]


def main():
    seconds = int(sys.argv[1]) if len(sys.argv) > 1 else 600
    seed = int(sys.argv[2]) if len(sys.argv) > 2 else int(time.time())
    drawn, answers, lines = Drawn(seed), collections.Counter(), 0
    wfserve, retention = records.program(), ["--retention", str(seed % 2 * RETENTION)]
    with tempfile.TemporaryDirectory() as folder:
        first, again = pathlib.Path(folder, "first"), pathlib.Path(folder, "again")
        first.mkdir()
        again.mkdir()
        program = Program(wfserve, [*retention, "--save", str(first)])
        ends = time.monotonic() + seconds
        while time.monotonic() < ends:
            drawn.at += 20
            for reply in program.serve([drawn.line() for _ in range(BATCH)]):
                answers[reply.get("ok") or reply["error"]] += 1
                drawn.learn(reply)
            lines += BATCH
        read = histories(program)
        program.end()
        held = resource.getrusage(resource.RUSAGE_CHILDREN).ru_maxrss
        opened = Program(wfserve, [*retention, "--load", str(first), "--save", str(again)])
        read_again = histories(opened)
        opened.end()
        saved = kept(first)
        steps = sum(text.count(b"\n") for text in saved)
        print(f"seed {seed}, {' '.join(retention)}: {lines} lines in {seconds} s, {steps} steps, "
              f"{sum(map(len, saved)) / 1e6:.1f} MB of records, {held / 1e3:.1f} MB held at most")
        print(", ".join(f"{name} {count}" for name, count in answers.most_common()))
        if read != read_again:
            sys.exit("soak: opened from the records, another history is answered")
        # Reads are steps: the second time each shard's record has those of this reading more.
        for before, after in zip(saved, kept(again)):
            if not after.startswith(before):
                sys.exit("soak: opened from the records, others are saved")
        print("the same histories and records, once opened again")


if __name__ == "__main__":
    main()
