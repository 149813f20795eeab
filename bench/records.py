#!/usr/bin/env python3
"""What a step costs that is saved in a record and loaded again, at two sizes, so that growth shows.

Usage: bench/records.py [STEPS..]   (default: 50000 200000)

Each tenth step starts a workflow, and the others signal it; all of their tasks wait. They are served as lines, then served and saved,
then loaded with no line after them, and loaded and saved again, which has to give the same bytes.
Times are processor times, in and under the kernel, the shortest of three runs. Where crates/wfserve
has no built program, tools/build_program.py builds one.
"""
import os
import pathlib
import subprocess
import sys
import tempfile

import first_path

ROOT = pathlib.Path(__file__).resolve().parent.parent
BUILT = ROOT / "out" / "build" / "crates" / "wfserve" / "out" / "wfserve"
RUNS = 3


def program():
    """The path of the built program."""
    if os.access(first_path.PROGRAM, os.X_OK):
        return first_path.PROGRAM
    if not BUILT.exists() and subprocess.run([ROOT / "tools" / "build_program.py", "wfserve"]).returncode:
        sys.exit("records: the program was not built")
    return str(BUILT)


def lines_of(steps):
    """A start of each workflow, and nine signals."""
    for number in range(steps // 10):
        name = f"order-{number}"
        yield first_path.start(name)
        for count in range(9):
            yield {"op": "signal", "workflow_id": name, "name": "paid", "request_id": f"paid-{count}"}


def best_time(words, path):
    """The shortest of a few runs over the lines of a file, in seconds."""
    best = None
    for _ in range(RUNS):
        began = first_path.processor_time()
        with open(path, "rb") as lines:
            done = subprocess.run(words, stdin=lines, stdout=subprocess.DEVNULL)
        took = first_path.processor_time() - began
        if done.returncode != 0:
            sys.exit(f"records: {' '.join(words)}: status {done.returncode}")
        best = min(took, best or took)
    return best


def measure(wfserve, steps, folder):
    lines, none = folder / "lines", folder / "none"
    first, again = folder / "first", folder / "again"
    for made in (first, again):
        made.mkdir(exist_ok=True)
    first_path.write_lines(lines_of(steps), lines)
    none.write_bytes(b"")
    words = [wfserve, "--capacity", "65536"]
    served = best_time(words, lines)
    saved = best_time([*words, "--save", str(first)], lines)
    loaded = best_time([*words, "--load", str(first)], none)
    both = best_time([*words, "--load", str(first), "--save", str(again)], none)
    record = (first / "shard-00.rec").read_bytes()
    if record.count(b"\n") != steps or record != (again / "shard-00.rec").read_bytes():
        sys.exit("records: what was loaded is saved otherwise")
    each = 1e6 / steps
    print(f"{steps} steps: {len(record) / steps:.0f} bytes a step; served {served * each:.2f} us a step, "
          f"saved after that {(saved - served) * each:.2f}, loaded {loaded * each:.2f}, loaded and saved "
          f"{both * each:.2f}; loading goes {served / loaded:.2f} times as fast as serving", flush=True)


def main():
    sizes = [int(word) for word in sys.argv[1:]] or [50_000, 200_000]
    wfserve = program()
    print(f"load {os.getloadavg()[0]:.1f}")
    with tempfile.TemporaryDirectory() as folder:
        for steps in sizes:
            measure(wfserve, steps, pathlib.Path(folder))


if __name__ == "__main__":
    main()
