#!/usr/bin/env python3
"""What starting a workflow, taking its first task and completing it cost the built program, a line, at
several sizes, so that growth shows.

Usage: bench/workflow_tasks.py [WORKFLOWS..]   (default: 25000 50000)

Times are differences of processor times, each the shortest of three runs: of the starts alone, of these
and the tasks taken, and of all. The program is built by `rt run` in crates/wfserve, or by ./serve.
"""
import os
import sys
import tempfile

from first_path import PROGRAM, best_time, start, write_lines

sys.path.insert(0, os.path.join(os.path.dirname(os.path.abspath(__file__)), "..", "tools"))
import client_package  # noqa: E402, F401
from wfserve.ids import TaskKind, token_text  # noqa: E402


def token(run, event=2, attempt=1):
    """The token of a workflow task of the first shard, by its run, the event that scheduled it and its attempt."""
    return token_text(TaskKind.WORKFLOW, run, event, attempt)


def starts(count):
    return [start(f"order-{number}") for number in range(count)]


def taken(count):
    """Each task is handed to its queue, and taken by a poll."""
    pair = [{"op": "dispatch_turn", "shard": 0}, {"op": "poll_workflow_task", "task_queue": "main"}]
    return pair * count


def completed(count, commands=()):
    """Each workflow's first task is completed by these commands."""
    return [{"op": "complete_workflow_task", "token": token(run), "commands": list(commands)} for run in range(1, count + 1)]


def seconds(lines):
    """The processor time that the program takes for the lines."""
    with tempfile.TemporaryDirectory() as folder:
        path = os.path.join(folder, "lines")
        write_lines(lines, path)
        return best_time([PROGRAM], path)[0]


def main():
    if not os.access(PROGRAM, os.X_OK):
        sys.exit(f"workflow_tasks: {PROGRAM} is not built; `rt run` in crates/wfserve builds it")
    print(f"load {os.getloadavg()[0]:.2f} on {os.cpu_count()} processors", flush=True)
    print("workflows: ns of a start, of the two lines by which a task is taken, of a completion")
    for size in [int(word) for word in sys.argv[1:]] or [25_000, 50_000]:
        lines, before, times = [], 0.0, []
        for more in (starts(size), taken(size), completed(size)):
            lines += more
            now = seconds(lines)
            times.append((now - before) / size * 1e9)
            before = now
        print(f"{size}: " + ", ".join(f"{it:.0f}" for it in times), flush=True)


if __name__ == "__main__":
    main()
