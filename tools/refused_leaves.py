#!/usr/bin/env python3
"""Refuses each allocation of the leaves' calls, once a run: texts and IDs, tokens, deadlines, transfers, and lines that
are read and written.

    tools/refused_leaves.py TESTS

TESTS is the built tests of tests/below, as tools/unproved_tests.py leaves them. One of them makes each call again where it was refused,
and looks at what that leaves and at what it answers then. It says from where on the allocator (tools/refuse_nth.c)
counts. The status is 1 where the test fails, where a refused call was not made again, or where nothing was counted.
"""
from __future__ import annotations

import os
import pathlib
import struct
import subprocess
import sys
import tempfile

ROOT = pathlib.Path(__file__).resolve().parent.parent
TEST = "leaves::refused::each_call_is_made_again"
# What the allocator tells first: how many allocations were asked for.
TOLD = struct.Struct("=q")
SECONDS = 60


def told_by(tests: pathlib.Path, allocator: pathlib.Path, refused: int) -> tuple[int, int]:
    """Runs the test with an allocation refused, 0 being none: its status, and how many allocations it asked for."""
    with tempfile.TemporaryFile() as told:
        told.truncate(os.sysconf("SC_PAGE_SIZE"))
        environment = {"LD_PRELOAD": str(allocator), "REFUSED_WITHIN": "1", "REFUSED_TOLD": str(told.fileno())}
        if refused:
            environment["REFUSED_ALLOCATION"] = str(refused)
        done = subprocess.run(
            [tests, TEST], env={**os.environ, **environment}, pass_fds=[told.fileno()], timeout=SECONDS,
            capture_output=True, text=True, errors="replace")
        if done.returncode:
            print(done.stdout + done.stderr, end="")
        return done.returncode, TOLD.unpack(told.read(TOLD.size))[0]


def fault_of(tests: pathlib.Path, allocator: pathlib.Path, refused: int, count: int) -> str | None:
    """What went wrong with this allocation refused, of as many as there are where none is."""
    status, asked = told_by(tests, allocator, refused)
    if status:
        return f"with allocation {refused} of {count} refused the test ended with status {status}"
    if asked <= count:
        return f"with allocation {refused} of {count} refused no more were asked for: its call was not made again"
    return None


def main() -> int:
    if len(sys.argv) != 2 or not pathlib.Path(sys.argv[1]).is_file():
        sys.exit(__doc__)
    tests = pathlib.Path(sys.argv[1]).resolve()
    with tempfile.TemporaryDirectory() as folder:
        allocator = pathlib.Path(folder, "refuse_nth.so")
        source = ROOT / "tools" / "refuse_nth.c"
        subprocess.run(["cc", "-O2", "-shared", "-fPIC", "-o", allocator, source], check=True)
        status, count = told_by(tests, allocator, 0)
        faults = [fault_of(tests, allocator, refused, count) for refused in range(1, count + 1)]
    found = [fault for fault in faults if fault]
    print("\n".join([*found, f"{count} allocations of the leaves' calls were refused, one a run"]))
    return 0 if status == 0 and count > 0 and not found else 1


if __name__ == "__main__":
    sys.exit(main())
