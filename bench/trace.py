#!/usr/bin/env python3
"""What --trace costs the built program: the same lines with it and without it.

Usage: bench/trace.py [LINES..]   (default: 25000 100000)

The lines are starts of workflows of their own, and signals of one workflow: with one shard and one pass,
and with 16 shards and four passes, whose records are merged. Times are processor times, in and under the
kernel, the shortest of three runs, and memory is the most that was held; each is given for a step, as the
difference of the two programs. `rt run` in crates/wfserve builds the program.
"""
import os
import subprocess
import sys
import tempfile

import first_path

CASES = [("starts", first_path.starts), ("signals", lambda count: first_path.signals(count - 1))]
SHAPES = [("one shard, one pass", 1, 1), ("16 shards, four passes", 16, 4)]


def in_lanes(lines, passes):
    """The first line, a barrier, and the others dealt to so many lanes, one after another."""
    dealt = [dict(line, lane=number % passes) for number, line in enumerate(lines)]
    return [dealt[0], {"barrier": True}, *dealt[1:]]


def most_held(words, path):
    """The most memory that the program held over the lines, in bytes."""
    with open(path, "rb") as lines:
        program = subprocess.Popen(words, stdin=lines, stdout=subprocess.DEVNULL)
        _, status, used = os.wait4(program.pid, 0)
    if os.waitstatus_to_exitcode(status) != 0:
        sys.exit(f"trace: {words}: it ended with status {os.waitstatus_to_exitcode(status)}")
    program.returncode = 0
    return used.ru_maxrss * 1024


def measure(name, shape, shards, passes, lines, path):
    first_path.write_lines(in_lanes(lines, passes), path)
    words = [first_path.PROGRAM, "--shards", str(shards), "--passes", str(passes)]
    plain, written = first_path.best_time(words, path)
    traced, both = first_path.best_time([*words, "--trace"], path)
    steps = both.count(b"\n") - written.count(b"\n")
    if steps != len(lines):
        sys.exit(f"trace: {name}: {len(lines)} lines, and {steps} steps are printed")
    held = most_held([*words, "--trace"], path) - most_held(words, path)
    print(f"{name}, {shape}: {steps:,} steps, {plain:.3f} s without, {traced:.3f} s with; of a step "
          f"{(traced - plain) / steps * 1e6:.2f} us, {(len(both) - len(written)) / steps:.0f} bytes written, "
          f"{held / steps:.0f} bytes held", flush=True)


def main():
    counts = [int(word) for word in sys.argv[1:]] or [25_000, 100_000]
    if not os.access(first_path.PROGRAM, os.X_OK):
        sys.exit(f"trace: {first_path.PROGRAM} is not built; run `rt run` in its folder")
    print(f"load {os.getloadavg()[0]:.1f}")
    with tempfile.TemporaryDirectory() as folder:
        for shape, shards, passes in SHAPES:
            for name, case in CASES:
                for count in counts:
                    measure(name, shape, shards, passes, case(count), os.path.join(folder, "lines"))


if __name__ == "__main__":
    main()
