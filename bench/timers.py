#!/usr/bin/env python3
"""What timers cost the built program: one workflow with many timers of one moment, and many workflows
with one timer each, all fired by timer turns, so that growth shows.

Usage: bench/timers.py [WORKFLOWS..]   (default: 10000 100000, those with one timer each)

Times are differences of processor times, each the shortest of three runs: without the completions,
with them, and with the turns too. The program is built by `rt run` in crates/wfserve, or by ./serve.
"""
import os
import sys

from first_path import PROGRAM
from workflow_tasks import completed, seconds, starts, taken

TIMERS = [2500, 10_000]
DURATION = 1000


def timers(count):
    return [{"type": "StartTimer", "timer_id": f"timer-{number}", "duration": DURATION} for number in range(count)]


def turns(count):
    """Turns by which so many timers fire."""
    return [{"at": DURATION, "op": "timer_turn", "shard": 0}] * count


def main():
    if not os.access(PROGRAM, os.X_OK):
        sys.exit(f"timers: {PROGRAM} is not built; `rt run` in crates/wfserve builds it")
    print(f"load {os.getloadavg()[0]:.2f} on {os.cpu_count()} processors", flush=True)
    sizes = [int(word) for word in sys.argv[1:]] or [10_000, 100_000]
    for workflows, each in [(1, count) for count in TIMERS] + [(count, 1) for count in sizes]:
        begun = starts(workflows) + taken(workflows)
        started = begun + completed(workflows, timers(each))
        fired = started + turns(workflows * each)
        before, between, after = (seconds(it) for it in (begun, started, fired))
        print(f"{workflows} workflows with {each} timers each: a completion takes "
              f"{(between - before) / workflows * 1e3:.3f} ms, a turn {(after - between) / (workflows * each) * 1e6:.2f} us", flush=True)


if __name__ == "__main__":
    main()
