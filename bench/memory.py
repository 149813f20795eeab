#!/usr/bin/env python3
"""What a run and an event take in the memory of the built program, each at two sizes.

Usage: bench/memory.py [SCALE..]   (default: 1 4 16, times 3,125 starts, 5,000 signals and 2,500 workflows)

The resident memory of the program is read once it has answered all lines, and the bytes of a line
are those by which it grows from one size to the next: what the program takes besides, as its code and
its buffers, so falls away. Each line's request stands in its shard's record, and is counted with it.
`rt run` in crates/wfserve builds the program.
"""
import json
import os
import subprocess
import sys
import threading

import first_path


def workflows(count):
    """Workflows that are started and signaled once."""
    lines = []
    for number in range(count):
        name = f"order-{number}"
        lines.append(first_path.start(name))
        lines.append({"op": "signal", "workflow_id": name, "name": "paid", "request_id": f"paid-{number}"})
    return lines


def repeated(count):
    """One start again and again, under its request id: nothing stays of it but its place in the record."""
    return [first_path.start("order-12345")] * count


CASES = [("a start of a workflow of its own", first_path.starts, 3_125, 1),
         ("a start that is repeated, its record alone", repeated, 3_125, 1),
         ("a signal of one workflow", first_path.signals, 5_000, 1),
         ("a start and a signal of a workflow of its own", workflows, 2_500, 2)]


def resident(lines):
    """The memory that the program has once it has answered all lines, in bytes."""
    with subprocess.Popen([first_path.PROGRAM], stdin=subprocess.PIPE, stdout=subprocess.PIPE) as program:
        text = "".join(json.dumps(line, separators=(",", ":")) + "\n" for line in lines).encode()
        writer = threading.Thread(target=lambda: (program.stdin.write(text), program.stdin.flush()))
        writer.start()
        for _ in lines:
            program.stdout.readline()
        writer.join()
        with open(f"/proc/{program.pid}/status") as status:
            told = next(line for line in status if line.startswith("VmRSS:"))
        program.stdin.close()
        program.stdout.read()
        if program.wait() != 0:
            sys.exit(f"memory: the program ended with status {program.returncode}")
    return int(told.split()[1]) * 1024


def main():
    scales = sorted(float(word) for word in sys.argv[1:]) or [1, 4, 16]
    if not os.access(first_path.PROGRAM, os.X_OK):
        sys.exit(f"memory: {first_path.PROGRAM} is not built; run `rt run` in its folder")
    for name, case, size, lines_each in CASES:
        before = None
        for scale in scales:
            lines = case(int(size * scale))
            count, took = len(lines) // lines_each, resident(lines)
            each = f", {(took - before[1]) / (count - before[0]):,.0f} bytes each" if before else ""
            print(f"{name}: {count:,} of them, {took / 1e6:.1f} MB{each}", flush=True)
            before = count, took


if __name__ == "__main__":
    main()
