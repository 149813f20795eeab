#!/usr/bin/env python3
"""Hostile use of the built program for some minutes: a soak, lines that nobody means well with, each
allocation of whole cases refused, and drawn schedules. tools/unproved_tests.py refuses those of calls.

    tools/hostile_use.py

`rt ci` leaves the program where this looks for it, in crates/wfserve/out/wfserve. What is drawn is drawn
anew each day. The status is 1 where a part found something, where its program isn't built, and where it
doesn't end in its time: then it is stopped, and nothing is known of what it looks for. A part that wants
a C compiler is skipped where there is none, which is said. A longer run of each is made by hand.
"""
import collections
import datetime
import pathlib
import shutil
import signal
import subprocess
import sys
import tempfile
import os

ROOT = pathlib.Path(__file__).resolve().parent.parent
PROGRAM = ROOT / "crates/wfserve/out/wfserve"
SOAK_SECONDS, SCHEDULES, REFUSED_SECONDS = 20, 300, 300
# Forty times what a part takes on a quiet machine, and more than it waits for a reply: it only ends what hangs.
LIMIT_SECONDS = 1_800

Part = collections.namedtuple("Part", "title command programs compiles")


def parts(today):
    """What is run: with Python, from seeds and places that the day gives."""
    day, seed = str(today.toordinal()), today.strftime("%Y%m%d")
    refused = ["tools/refused_allocations.py", "--within", str(REFUSED_SECONDS), "--day", day]
    schedules = ["tools/schedules.py", "--runs", str(SCHEDULES), "--seed", seed]
    return [
        Part(f"a soak of {SOAK_SECONDS} s", ["bench/soak.py", str(SOAK_SECONDS), seed], [PROGRAM], False),
        Part("hostile lines", ["bench/hostile.py"], [PROGRAM], False),
        Part("each allocation refused", [*refused, "--program", str(PROGRAM)], [PROGRAM], True),
        Part(f"{SCHEDULES} schedules", [*schedules, str(PROGRAM)], [PROGRAM], True),
    ]


def has_compiler():
    """Whether an allocator can be compiled here, as the parts that refuse memory or yield do it."""
    if not shutil.which("cc"):
        return False
    with tempfile.TemporaryDirectory() as folder:
        for source in ("refuse_nth.c", "yield_often.c"):
            call = ["cc", "-O2", "-shared", "-fPIC", "-o", f"{folder}/tried.so", ROOT / "tools" / source]
            if subprocess.run(call, capture_output=True, timeout=LIMIT_SECONDS).returncode:
                return False
    return True


def not_built(part):
    """The programs of a part that aren't built."""
    return [str(program.relative_to(ROOT)) for program in part.programs if not os.access(program, os.X_OK)]


def failed(part, limit):
    """Runs a part, with all that it starts. Whether it found something, or did not end in its time."""
    call = [sys.executable, *part.command]
    with subprocess.Popen(call, cwd=ROOT, stdin=subprocess.DEVNULL, start_new_session=True) as run:
        try:
            status = run.wait(timeout=limit)
        except subprocess.TimeoutExpired:
            os.killpg(run.pid, signal.SIGKILL)
            print(f"== {part.title}: STOPPED after {limit} s: what it looks for is not known", flush=True)
            return True
    print(f"== {part.title}: {f'FOUND SOMETHING, status {status}' if status else 'nothing found'}", flush=True)
    return status != 0


def main():
    compiles, found = has_compiler(), []
    for part in parts(datetime.date.today()):
        if not_built(part):
            print(f"== {part.title}: NOT RUN: there is no {', no '.join(not_built(part))}", flush=True)
            found.append(part.title)
        elif part.compiles and not compiles:
            print(f"skipped: {part.title}: there is no C compiler for its allocator", flush=True)
        else:
            print(f"== {part.title}", flush=True)
            found += [part.title] if failed(part, LIMIT_SECONDS) else []
    return 1 if found else 0


if __name__ == "__main__":
    sys.exit(main())
