#!/usr/bin/env python3
"""Runs what takes no memory while every allocation is refused: the second halves of steps, leaving a shard, a
meeting and the close, and calls of the leaves.

    tools/without_memory.py PROGRAM WORD..

PROGRAM is the built one of tests/above or tests/below, as tools/unproved_tests.py leaves it. The test that these words ask
it for says where it is to take no memory; the allocator (tools/refuse_nth.c) refuses all there, and counts what it refused. The status
is 1 where the test fails, where an allocation was asked for there, or where nothing was run there.
"""
from __future__ import annotations

import os
import pathlib
import struct
import subprocess
import sys
import tempfile

ROOT = pathlib.Path(__file__).resolve().parent.parent
# What the allocator tells: how many allocations were asked for, how often it refused all, and how many then.
TOLD = struct.Struct("=qqq")
SECONDS = 300


def told_by(command: list[str], allocator: pathlib.Path) -> tuple[int, int, int]:
    """Runs a test, and returns its status, how often all was refused, and how many allocations were."""
    with tempfile.TemporaryFile() as told:
        told.truncate(TOLD.size)
        environment = {"LD_PRELOAD": str(allocator), "REFUSED_TOLD": str(told.fileno())}
        done = subprocess.run(command, env={**os.environ, **environment}, pass_fds=[told.fileno()], timeout=SECONDS)
        _, begun, refused = TOLD.unpack(told.read(TOLD.size))
    return done.returncode, begun, refused


def is_as_said(command: list[str], allocator: pathlib.Path) -> bool:
    """Whether the test passes, and asks for nothing where it says so, once at least."""
    status, begun, refused = told_by(command, allocator)
    print(f"{command[-1]}: {begun} times all memory was refused, and {refused} allocations were asked for there")
    return status == 0 and begun > 0 and refused == 0


def main() -> int:
    if len(sys.argv) < 3 or not pathlib.Path(sys.argv[1]).is_file():
        sys.exit(__doc__)
    with tempfile.TemporaryDirectory() as folder:
        allocator = pathlib.Path(folder, "refuse_nth.so")
        source = ROOT / "tools" / "refuse_nth.c"
        subprocess.run(["cc", "-O2", "-shared", "-fPIC", "-o", allocator, source], check=True)
        return 0 if is_as_said([str(pathlib.Path(sys.argv[1]).resolve()), *sys.argv[2:]], allocator) else 1


if __name__ == "__main__":
    sys.exit(main())
