#!/usr/bin/env python3
"""Runs three lanes on two shards under many schedules, and asks each time the one-lane program.

    tools/schedules.py [--runs N] [--seed S] PROGRAM

PROGRAM is the built `wfserve` (tools/build_program.py builds it). Each run serves drawn lines with
three lanes, where threads give the processor away at drawn places (tools/yield_often.c), prints all
steps in the order of their tickets (`--trace`) and saves the records. Then:

- the steps are the lines of each lane, once and in their order, and nothing else, and their tickets
  count from 1;
- each record has just the steps on its shard, in their order;
- the one-lane program, given the lines in the order of the steps, answers each of them as its lane was
  answered, histories among them, and prints the same steps;
- opened from the records it answers every history as at the end of that.

With three of four seeds runs that have closed are kept for one to three of the lines' ten moments alone.
Any other end fails the run, and its seed is printed.
"""
import argparse
import collections
import concurrent.futures
import json
import os
import pathlib
import random
import subprocess
import sys
import tempfile

import client_package  # noqa: F401
from wfserve import ids

ROOT = pathlib.Path(__file__).resolve().parent.parent
LANES, SHARDS, LINES = 3, 2, 24
NAMES = ["a", "b", "c", "d"]
# A run takes some hundredths of a second, on a machine that is busy too.
RUN_SECONDS = 300
SETTINGS = ["--shards", str(SHARDS)]


def shard_of(workflow_id):
    return ids.shard_of(workflow_id, SHARDS)


def drawn(source):
    """One line, of those that are one step on one shard."""
    name = source.choice(NAMES)
    start = {
        "workflow_id": name,
        "workflow_type": "drawn",
        "task_queue": "main",
        "reuse": "AllowDuplicate",
        "run_timeout": source.choice([0, 5]),
    }
    lines = [
        {"op": "start", **start, "conflict": source.choice(["Fail", "UseExisting", "TerminateExisting"])},
        {"op": "signal", "workflow_id": name, "name": str(source.randrange(100))},
        {"op": "signal", "workflow_id": name, "name": "once", "request_id": "r"},
        {"op": "signal_with_start", **start, "name": "both"},
        {"op": "request_cancel", "workflow_id": name},
        {"op": "terminate", "workflow_id": name},
        {"op": "history", "workflow_id": name},
        {"op": "describe", "workflow_id": name},
        {"op": "timer_turn", "shard": source.randrange(SHARDS)},
    ]
    (line,) = source.choices(lines, weights=[6, 8, 4, 4, 1, 1, 5, 2, 3])
    return {**line, "at": source.randrange(10), "lane": source.randrange(LANES)}


def home(line):
    return line["shard"] if line["op"] == "timer_turn" else shard_of(line["workflow_id"])


def is_asked(line, request):
    """Whether a record's request is what a line asks: it has the line's fields, and defaults besides."""
    fields = {key: value for key, value in line.items() if key not in ("lane", "shard")}
    return all(request.get(key) == value for key, value in fields.items())


def texts(lines):
    return "".join(json.dumps(line, separators=(",", ":")) + "\n" for line in lines).encode()


def served(program, words, lines, allocator=None, seed=0):
    """The replies to the lines, without their numbers, and the steps that are printed after them."""
    environment = {"LD_PRELOAD": str(allocator), "YIELD_SEED": str(seed)} if allocator else {}
    done = subprocess.run(
        [str(program), *SETTINGS, *words],
        input=texts(lines), capture_output=True, env=environment, timeout=RUN_SECONDS,
    )
    # On a machine that is busy, it says how many steps were restored.
    errors = [line for line in done.stderr.decode().splitlines() if not line.endswith(" steps restored")]
    if done.returncode not in (0, 1) or errors:
        raise ValueError(f"status {done.returncode}: {errors}")
    said = [json.loads(line) for line in done.stdout.splitlines()]
    replies, steps = said[: len(lines)], said[len(lines) :]
    if [reply.get("line") for reply in replies] != list(range(1, len(lines) + 1)):
        raise ValueError(f"{len(said)} lines are printed, and not first a reply to each of {len(lines)}")
    for reply in replies:
        del reply["line"]
    return replies, steps


def in_order_of_steps(lines, replies, steps):
    """The lines and replies in the order in which the steps were made."""
    waiting = collections.defaultdict(collections.deque)
    for line, reply in zip(lines, replies):
        waiting[line["lane"]].append((line, reply))
    ordered = []
    for ticket, step in enumerate(steps, 1):
        own = waiting[step["pass"]]
        if step["ticket"] != ticket:
            raise ValueError(f"{step} is the step number {ticket}")
        if not own or home(own[0][0]) != step["shard"] or not is_asked(own[0][0], step["request"]):
            raise ValueError(f"{step} is not what its lane asked next")
        ordered.append(own.popleft())
    if any(waiting.values()):
        raise ValueError("a line that was answered is no step")
    return ordered


def check_records(records, steps):
    """Each shard's record has the steps on it, in their order, and nothing else."""
    for shard, entries in enumerate(records):
        if entries != [{key: step[key] for key in ("pass", "request")} for step in steps if step["shard"] == shard]:
            raise ValueError(f"the record of shard {shard} has not just the steps on it")


def asked(steps):
    """Of each step its shard and its request."""
    return [(step["shard"], step["request"]) for step in steps]


def attempt(program, allocator, seed):
    """Runs one schedule, and returns what is wrong with it."""
    source = random.Random(seed)
    lines = [drawn(source) for _ in range(LINES)]
    with tempfile.TemporaryDirectory() as folder:
        try:
            kept = ["--retention", str(seed % 4)]
            words = [*kept, "--passes", str(LANES), "--trace", "--save", folder]
            replies, steps = served(program, words, lines, allocator, seed)
            records = [
                [json.loads(line) for line in pathlib.Path(folder, f"shard-{shard:02}.rec").open()]
                for shard in range(SHARDS)
            ]
            check_records(records, steps)
            ordered = in_order_of_steps(lines, replies, steps)
            reads = [{"op": "history", "workflow_id": name} for name in NAMES]
            alone = [{**line, "lane": 0} for line, _ in ordered] + reads
            again, same = served(program, [*kept, "--trace"], alone)
            if again[: len(ordered)] != [reply for _, reply in ordered]:
                return "the one-lane program answers otherwise", None
            if asked(same[: len(ordered)]) != asked(steps):
                return "the one-lane program makes other steps", None
            if served(program, [*kept, "--load", folder], reads)[0] != again[len(ordered) :]:
                return "opened from the records it answers otherwise", None
        except (ValueError, subprocess.TimeoutExpired) as fault:
            return str(fault), None
    turns = sum(before["pass"] != after["pass"] for entries in records for before, after in zip(entries, entries[1:]))
    return None, turns


def main():
    parser = argparse.ArgumentParser(description=__doc__.split("\n")[0])
    parser.add_argument("--runs", type=int, default=10_000, help="how many schedules, 10,000 by default")
    parser.add_argument("--seed", type=int, default=0, help="that of the first, 0 by default; each further has one more")
    parser.add_argument("program", type=pathlib.Path, help="the built wfserve")
    told = parser.parse_args()
    if told.runs < 1 or not told.program.is_file():
        parser.error("it takes a run or more, and a program that is there")
    program, seeds = told.program.resolve(), range(told.seed, told.seed + told.runs)
    wrong, turns = 0, 0
    with tempfile.TemporaryDirectory() as folder:
        allocator = pathlib.Path(folder, "yield_often.so")
        source = ROOT / "tools" / "yield_often.c"
        subprocess.run(["cc", "-O2", "-shared", "-fPIC", "-o", allocator, source], check=True)
        with concurrent.futures.ThreadPoolExecutor(len(os.sched_getaffinity(0))) as pool:
            tried = pool.map(lambda seed: attempt(program, allocator, seed), seeds)
            for seed, (fault, count) in zip(seeds, tried):
                turns += count or 0
                if fault:
                    wrong += 1
                    print(f"seed {seed}: {fault}")
    print(f"{told.runs} schedules, {turns / told.runs:.1f} turns from one lane to another in each; {wrong} went wrong")
    return 1 if wrong else 0


if __name__ == "__main__":
    sys.exit(main())
