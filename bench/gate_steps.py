#!/usr/bin/env python3
"""Steps per second of threads on the gate's slots, beside the same counters under locks, twice over.

Usage: bench/gate_steps.py [STEPS] [PROGRAM]
(default: 200,000 steps a thread, and crates/gate_bench/out/gate_bench, which `rt run` in that crate builds)
"""
import os
import subprocess
import sys

HERE = os.path.dirname(os.path.abspath(__file__))
PROGRAM = os.path.join(HERE, "..", "crates", "gate_bench", "out", "gate_bench")
RUNS = 2


def main():
    steps = sys.argv[1] if len(sys.argv) > 1 else "200000"
    program = sys.argv[2] if len(sys.argv) > 2 else PROGRAM
    if not os.access(program, os.X_OK):
        sys.exit(f"gate_steps: {program} is not built; `rt run` in crates/gate_bench builds it")
    for number in range(1, RUNS + 1):
        load = os.getloadavg()[0]
        print(f"run {number} of {RUNS}, load {load:.2f} on {os.cpu_count()} processors", flush=True)
        if subprocess.run([program, steps]).returncode != 0:
            sys.exit("gate_steps: the program failed")


if __name__ == "__main__":
    main()
