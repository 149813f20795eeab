#!/usr/bin/env python3
"""What whole workflows cost by lines: started, handed to their task queue, polled and completed; with
activities that fail once and are tried again; and the same over several lanes.

Usage: bench/queues.py [--instructions | --first] [SCALE..]
(default: 1 4, times 12,500 workflows, 5,000 activities, and 12,500 starts with three signals each)

Times are processor times of the built program and times by the clock, the shortest of three runs; with
--instructions they are instructions instead, counted by callgrind over a tenth of the work. With --first
the program goes before all others (`chrt -r 10`), and each new thread has a core as soon as one is idle. The
program is crates/wfserve/out/wfserve, which `rt run` builds in that folder.
"""
import json
import os
import re
import resource
import subprocess
import sys
import tempfile
import time

HERE = os.path.dirname(os.path.abspath(__file__))
sys.path.insert(0, os.path.join(HERE, "..", "tools"))
import client_package  # noqa: E402, F401
from wfserve.ids import TaskKind, shard_of, token_text  # noqa: E402

PROGRAM = os.path.join(HERE, "..", "crates", "wfserve", "out", "wfserve")
RUNS = 3
WORKFLOW, ACTIVITY = TaskKind.WORKFLOW, TaskKind.ACTIVITY
LANE_SHARDS, QUEUES = 16, 8


class Script:
    """Lines of workflows over some shards; a shard's lines go to one lane, and to one queue."""

    def __init__(self, shards=1, lanes=1):
        self.shards, self.lanes = shards, lanes
        self.runs = [0] * shards
        self.lines = []

    def queue(self, shard):
        return f"q{shard % QUEUES}"

    def add(self, home, op, **fields):
        self.lines.append({"op": op, "lane": home % QUEUES % self.lanes, **fields})

    def begin(self, number):
        """Starts a workflow, and polls its first task: its shard, and the number of its run there."""
        name = f"order-{number}"
        shard = shard_of(name, self.shards)
        self.runs[shard] += 1
        self.add(shard, "start", workflow_id=name, workflow_type="order", task_queue=self.queue(shard))
        self.add(shard, "dispatch_turn", shard=shard)
        self.add(shard, "poll_workflow_task", task_queue=self.queue(shard))
        return shard, self.runs[shard]

    def complete(self, shard, run, event, commands, at=0):
        self.add(shard, "complete_workflow_task", token=token_text(WORKFLOW, run, event, 1, shard), commands=commands, at=at)

    def attempts(self, shard, tokens, end, at):
        """Hands attempts to their queue, polls them, and ends each."""
        for _ in tokens:
            self.add(shard, "dispatch_turn", shard=shard, at=at)
        for _ in tokens:
            self.add(shard, "poll_activity_task", task_queue=self.queue(shard), at=at)
        for text in tokens:
            self.add(shard, end, token=text, at=at)


def workflows(count, shards=1, lanes=1):
    """Workflows that complete at their first task: four lines each."""
    script = Script(shards, lanes)
    for number in range(count):
        shard, run = script.begin(number)
        script.complete(shard, run, 2, [{"type": "CompleteWorkflowExecution", "result": "done"}])
    return script.lines


def activities(count, shards=1, lanes=1):
    """Ten activities a workflow, each of which fails once, waits, and is completed: seven lines for each of them."""
    script, each = Script(shards, lanes), 10
    for number in range(count // each):
        shard, run = script.begin(number)
        schedule = [{"type": "ScheduleActivityTask", "activity_id": f"a{k}", "task_queue": script.queue(shard),
                     "start_to_close": 60_000} for k in range(each)]
        at = number * 2_000
        script.complete(shard, run, 2, schedule, at)
        tokens = [[token_text(ACTIVITY, run, 5 + k, attempt, shard) for k in range(each)] for attempt in (1, 2)]
        script.attempts(shard, tokens[0], "fail_activity", at)
        for _ in range(each):
            script.add(shard, "timer_turn", shard=shard, at=at + 1_000)
        script.attempts(shard, tokens[1], "complete_activity", at + 1_000)
        script.add(shard, "dispatch_turn", shard=shard)
        script.add(shard, "poll_workflow_task", task_queue=script.queue(shard))
        script.complete(shard, run, 7 + each, [{"type": "CompleteWorkflowExecution", "result": "done"}])
    return script.lines


def signals(count, shards=1, lanes=1):
    """Starts, and three signals for each: four lines."""
    script = Script(shards, lanes)
    for number in range(count):
        name = f"order-{number}"
        shard = shard_of(name, shards)
        script.add(shard, "start", workflow_id=name, workflow_type="order", task_queue=script.queue(shard))
        for k in range(3):
            script.add(shard, "signal", workflow_id=name, name=f"s{k}", input="some text")
    return script.lines


CASES = [(workflows, 12_500), (activities, 5_000), (signals, 12_500)]


def run(words, path):
    """One run: processor time, time by the clock, and what was written."""
    before, began = resource.getrusage(resource.RUSAGE_CHILDREN), time.monotonic()
    with open(path, "rb") as lines:
        done = subprocess.run(words, stdin=lines, capture_output=True)
    took, after = time.monotonic() - began, resource.getrusage(resource.RUSAGE_CHILDREN)
    if done.returncode != 0:
        first = next((line for line in done.stdout.splitlines() if b'"error"' in line), b"")
        sys.exit(f"queues: status {done.returncode}, {done.stderr.decode()} {first.decode()}")
    used = after.ru_utime + after.ru_stime - before.ru_utime - before.ru_stime
    return used, took, done.stdout


def instructions(words, path):
    with open(path, "rb") as lines:
        done = subprocess.run(["valgrind", "--tool=callgrind", "--callgrind-out-file=/dev/null"] + words,
                              stdin=lines, capture_output=True, text=True)
    return int(re.search(r"Collected : (\d+)", done.stderr).group(1))


def measure(name, lines, words, path, counts):
    with open(path, "w") as file:
        file.writelines(json.dumps(line, separators=(",", ":")) + "\n" for line in lines)
    if counts:
        print(f"{name}: {len(lines)} lines, {instructions(words, path) / len(lines):.0f} instructions a line", flush=True)
        return
    runs = [run(words, path) for _ in range(RUNS)]
    stale = runs[0][2].count(b'"stale"') + runs[0][2].count(b'"empty"') + runs[0][2].count(b'"none"')
    if stale:
        sys.exit(f"queues: {name}: {stale} replies are stale, empty or none")
    used, took = min(r[0] for r in runs), min(r[1] for r in runs)
    print(f"{name}: {len(lines)} lines, {used / len(lines) * 1e6:.1f} us/line of processor time, "
          f"{len(lines) / took:.0f} lines a second", flush=True)


def main():
    counts = "--instructions" in sys.argv[1:]
    tenth = 10 if counts else 1
    before = ["chrt", "-r", "10"] if "--first" in sys.argv[1:] else []
    scales = [float(word) for word in sys.argv[1:] if word[0] != "-"] or [1, 4]
    if not os.access(PROGRAM, os.X_OK):
        sys.exit(f"queues: {PROGRAM} is not built; `rt run` in its folder builds it")
    names = ",".join(f"q{number}" for number in range(QUEUES))
    print(f"load {os.getloadavg()[0]:.1f} on {os.cpu_count()} processors")
    with tempfile.TemporaryDirectory() as folder:
        path = os.path.join(folder, "lines")
        for case, least in CASES:
            for size in [int(scale * least) for scale in scales]:
                measure(f"{size} {case.__name__}", case(size // tenth), before + [PROGRAM, "--queues", names], path, counts)
        for lanes in () if counts else (1, 2, 4, 8):
            words = before + [PROGRAM, "--queues", names, "--shards", str(LANE_SHARDS), "--passes", str(lanes)]
            for case, least in CASES:
                measure(f"{4 * least} {case.__name__} on {LANE_SHARDS} shards, {lanes} lanes",
                        case(4 * least, LANE_SHARDS, lanes), words, path, counts)


if __name__ == "__main__":
    main()
