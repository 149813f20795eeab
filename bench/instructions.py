#!/usr/bin/env python3
"""How many instructions a line costs the built program and the floor, counted by callgrind.

Usage: bench/instructions.py [--parts N]

Each case runs at two sizes, and a line's instructions are those by which the sum grows from one size
to the next: they don't depend on the machine's load, and what is done once falls away. Polls and
completions come after the starts and dispatch turns of 1,024 workflows, and completions after their
polls as well. An activity's four lines hand it to its queue, take it, say a heartbeat and complete it. A
read is counted by the events that it writes. `--parts N` prints the N functions that take most of a
line, with what they call. Valgrind has to be there; `rt run` in crates/wfserve and crates/line_floor builds
both programs.
"""
import os
import re
import subprocess
import sys
import tempfile

import first_path
import queues

WORKFLOWS = 1_024
FEW, MANY = 10, 500


def polls(count):
    """So many polls that find a task."""
    lines = first_path.starts(WORKFLOWS)
    lines += [{"op": "dispatch_turn", "shard": 0}] * WORKFLOWS
    return lines + [{"op": "poll_workflow_task", "task_queue": "main"}] * count


def completions(count, command):
    """So many completions of tasks that were polled, each with this command."""
    return polls(WORKFLOWS) + [{"op": "complete_workflow_task", "commands": [command],
                                "token": queues.token_text(queues.WORKFLOW, run, 2, 1, 0)}
                               for run in range(1, count + 1)]


def timers(count):
    return completions(count, {"type": "StartTimer", "timer_id": "shipping", "duration": 3_600_000})


def activities(count):
    """Completions whose command has a retry policy, so that their lines are nested once more."""
    return completions(count, {"type": "ScheduleActivityTask", "activity_id": "payment", "task_queue": "main",
                               "start_to_close": 30_000, "retry": {"initial": 1_000, "attempts": 5}})


def attempts(activities, count):
    """One run with so many activities, of which `count` are taken, say a heartbeat and are completed."""
    commands = [{"type": "ScheduleActivityTask", "activity_id": f"a{number}", "task_queue": "main",
                 "start_to_close": 30_000} for number in range(activities)]
    tokens = [queues.token_text(queues.ACTIVITY, 1, 5 + number, 1, 0) for number in range(count)]
    lines = [first_path.start("order"), {"op": "dispatch_turn", "shard": 0},
             {"op": "poll_workflow_task", "task_queue": "main"},
             {"op": "complete_workflow_task", "commands": commands, "token": queues.token_text(queues.WORKFLOW, 1, 2, 1, 0)}]
    for token in tokens:
        lines += [{"op": "dispatch_turn", "shard": 0}, {"op": "poll_activity_task", "task_queue": "main"},
                  {"op": "heartbeat", "token": token}, {"op": "complete_activity", "token": token}]
    return lines


def of_few(count):
    return attempts(FEW, count)


def of_many(count):
    return attempts(MANY, count)


CASES = [("a start", first_path.starts, 5_000, 10_000),
         ("a start that replaces a run", first_path.replacements, 5_000, 10_000),
         ("a signal", first_path.signals, 5_000, 10_000),
         ("a poll that finds a task", polls, 24, WORKFLOWS),
         ("a completion that starts a timer", timers, 24, WORKFLOWS),
         ("a completion that schedules an activity", activities, 24, WORKFLOWS),
         (f"the four lines of an activity, of {FEW} in its run", of_few, 2, FEW),
         (f"the four lines of an activity, of {MANY} in its run", of_many, 2, FEW)]
READS = 10
COUNT = re.compile(r"^ *([\d,]+) \([ \d.]+%\) +(?:\S*:)?(.*?)(?: \[.*\])?$")


def counted(words, path, folder):
    """The instructions of each function of one run with all that it calls, and of all."""
    kept = os.path.join(folder, "counted")
    with open(path, "rb") as lines:
        subprocess.run(["valgrind", "--tool=callgrind", f"--callgrind-out-file={kept}", *words],
                       stdin=lines, stdout=subprocess.PIPE, stderr=subprocess.DEVNULL, check=True)
    told = subprocess.run(["callgrind_annotate", "--inclusive=yes", "--threshold=100", kept],
                          capture_output=True, text=True, check=True).stdout
    parts = {}
    for line in told.splitlines():
        found = COUNT.match(line)
        if found:
            name = found.group(2)
            parts[name] = parts.get(name, 0) + int(found.group(1).replace(",", ""))
    return parts


def grown(words, lines, path, folder):
    """The counts at each of two sizes."""
    counts = []
    for some in lines:
        first_path.write_lines(some, path)
        counts.append(counted(words, path, folder))
    return counts


def told(name, counts, steps, most):
    before, after = counts
    whole = (after["PROGRAM TOTALS"] - before["PROGRAM TOTALS"]) / steps
    print(f"{name}: {whole:,.0f} instructions", flush=True)
    shares = {part: (after[part] - before.get(part, 0)) / steps for part in after if part != "PROGRAM TOTALS"}
    for part, share in sorted(shares.items(), key=lambda kept: -kept[1])[:most]:
        print(f"    {share:10,.0f} {part}")


def main():
    most = int(sys.argv[2]) if sys.argv[1:2] == ["--parts"] else 0
    with tempfile.TemporaryDirectory() as folder:
        path = os.path.join(folder, "lines")
        for name, case, small, large in CASES:
            lines = [case(small), case(large)]
            told(name, grown([first_path.PROGRAM], lines, path, folder), large - small, most)
            told(f"the floor of {name}", grown([first_path.FLOOR, "80", "0"], lines, path, folder), large - small, 0)
        signals = first_path.signals(5_000)
        reads = [signals + [{"op": "history", "workflow_id": "order"}] * count for count in (READS, 2 * READS)]
        told("an event of a read", grown([first_path.PROGRAM], reads, path, folder), READS * 5_002, most)


if __name__ == "__main__":
    main()
