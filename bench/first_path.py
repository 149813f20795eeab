#!/usr/bin/env python3
"""What a line costs the built program, each case at several sizes, so that growth shows, and beside
it the floor: a program that only reads the same lines, parses them with serde_json and writes as
many bytes.

Usage: bench/first_path.py [SCALE..]   (default: 1 2 4, times 12,500 starts and 5,000 signals)

Times are processor times, in and under the kernel, the shortest of three runs. Both programs are
built by `rt run` in their folders, crates/wfserve and crates/line_floor; ./serve builds the first.
"""
import json
import os
import resource
import subprocess
import sys
import tempfile

HERE = os.path.dirname(os.path.abspath(__file__))
PROGRAM = os.path.join(HERE, "..", "crates", "wfserve", "out", "wfserve")
FLOOR = os.path.join(HERE, "..", "crates", "line_floor", "out", "line_floor")
RUNS = 3


def start(workflow_id):
    return {"op": "start", "workflow_id": workflow_id, "workflow_type": "order",
            "task_queue": "main", "request_id": "request-" + workflow_id}


def starts(count):
    """Starts of `count` different workflows."""
    return [start(f"order-{number}") for number in range(count)]


def replacements(count):
    """Starts of one workflow, each of which terminates the run of the one before."""
    return [dict(start("order"), request_id=f"request-{number}", conflict="TerminateExisting")
            for number in range(count)]


def signals(count):
    """One workflow with `count` signals."""
    lines = [start("order")]
    lines += [{"op": "signal", "workflow_id": "order", "name": "paid", "request_id": f"signal-{number}"}
              for number in range(count)]
    return lines


def reads(count):
    """The same with ten reads of the history at its end."""
    return signals(count) + [{"op": "history", "workflow_id": "order"}] * 10


CASES = [("starts of different workflows", starts, 12_500),
         ("starts that replace one workflow's run", replacements, 12_500),
         ("signals of one workflow", signals, 5_000),
         ("the same and ten reads", reads, 5_000)]


def processor_time():
    used = resource.getrusage(resource.RUSAGE_CHILDREN)
    return used.ru_utime + used.ru_stime


def best_time(words, path):
    """The shortest of a few runs over the lines, in seconds, and what was written."""
    best, written = None, b""
    for _ in range(RUNS):
        began = processor_time()
        with open(path, "rb") as lines:
            done = subprocess.run(words, stdin=lines, capture_output=True)
        took = processor_time() - began
        if done.returncode != 0:
            sys.exit(f"first_path: {words[0]}: status {done.returncode}, {done.stderr.decode()}")
        best, written = min(took, best or took), done.stdout
    return best, written


def write_lines(lines, path):
    with open(path, "w") as file:
        file.writelines(json.dumps(line, separators=(",", ":")) + "\n" for line in lines)


def measure(name, lines, path):
    write_lines(lines, path)
    took, written = best_time([PROGRAM], path)
    replies = written.count(b"\n")
    if replies != len(lines):
        sys.exit(f"first_path: {name}: {len(lines)} lines, {replies} replies")
    each, rest = divmod(len(written), len(lines))
    floor, filler = best_time([FLOOR, str(each), str(rest)], path)
    if len(filler) != len(written):
        sys.exit(f"first_path: {name}: the floor wrote {len(filler)} bytes, not {len(written)}")
    print(f"{name}: {len(lines)} lines, {took:.3f} s, {took / len(lines) * 1e6:.1f} us/line, "
          f"{len(written) / 1e6:.1f} MB written, floor {floor:.3f} s, {took / floor:.1f} times the floor",
          flush=True)


def main():
    scales = [float(word) for word in sys.argv[1:]] or [1, 2, 4]
    for program in (PROGRAM, FLOOR):
        if not os.access(program, os.X_OK):
            sys.exit(f"first_path: {program} is not built; run `rt run` in its folder")
    print(f"load {os.getloadavg()[0]:.1f}")
    with tempfile.TemporaryDirectory() as folder:
        for name, case, size in CASES:
            for scale in scales:
                measure(name, case(int(size * scale)), os.path.join(folder, "lines"))


if __name__ == "__main__":
    main()
