#!/usr/bin/env python3
"""Runs the tests of this folder class by class, each in a process of its own with a limit on its time.

    by_class.py [--each SECONDS] [--all SECONDS] [WORD..]    the classes whose names have one of these words, or all

Each test's name is printed as it begins. A class whose time is over is ended with all that it started, and says first
where each of its threads was, and what its servers said. The status is 1 where a class failed, or was not run as the time
for all was over.
"""

from __future__ import annotations

import argparse
import os
import pathlib
import signal
import subprocess
import sys
import time
import unittest
from typing import Iterator, List

HERE = pathlib.Path(__file__).resolve().parent
# A class whose time is over has so long to say where its threads are.
GRACE = 20
# Where a class is run: its time, and its name. Where its time is over, its servers tell what they said.
ONE = """
import faulthandler, os, sys, threading, unittest

def over():
    faulthandler.dump_traceback()
    if "support.served" in sys.modules:
        sys.modules["support.served"].tell_all()
    os._exit(1)

late = threading.Timer(float(sys.argv[1]), over)
late.daemon = True
late.start()
faulthandler.dump_traceback_later(float(sys.argv[1]) + 10, exit=True)
unittest.main(module=None, argv=["unittest", "-v", sys.argv[2]])
"""


def cases_in(suite: unittest.TestSuite) -> Iterator[unittest.TestCase]:
    """The tests of a suite, in their order."""
    for it in suite:
        if isinstance(it, unittest.TestSuite):
            yield from cases_in(it)
        else:
            yield it


def names() -> List[str]:
    """The classes of this folder's tests, as unittest is asked for them, and modules that can't be imported."""
    found = {}
    for case in cases_in(unittest.TestLoader().discover(str(HERE))):
        kind = type(case)
        cannot = kind.__module__ == "unittest.loader"
        found[case.id().rpartition(".")[2] if cannot else f"{kind.__module__}.{kind.__qualname__}"] = None
    return list(found)


def end_all(process: subprocess.Popen) -> None:
    """Ends a process and all that it started."""
    try:
        os.killpg(process.pid, signal.SIGKILL)
    except ProcessLookupError:
        pass
    process.wait()


def run(name: str, most: float) -> str:
    """Runs a class. How it ended, in one word."""
    print(f"== {name}", flush=True)
    words = [sys.executable, "-c", ONE, str(most), name]
    with subprocess.Popen(words, cwd=HERE, start_new_session=True) as process:
        begun = time.monotonic()
        try:
            status = process.wait(timeout=most + GRACE)
        except subprocess.TimeoutExpired:
            status = None
        finally:
            # What it started and did not end goes with it too.
            end_all(process)
    took = time.monotonic() - begun
    is_over = status is None or (status != 0 and took >= most)
    said = "passed" if status == 0 else "its time was over" if is_over else "FAILED"
    print(f"{name}: {took:.0f} s, {said}", flush=True)
    return said


def main(words: List[str]) -> int:
    """Runs the classes that are asked for."""
    options = argparse.ArgumentParser(prog="by_class.py", description="Runs tests class by class.")
    options.add_argument("--each", type=float, default=150, help="the most seconds of a class")
    options.add_argument("--all", type=float, default=1_800, help="the most seconds of all classes together")
    options.add_argument("words", nargs="*", help="parts of names")
    named = options.parse_args(words)
    # Ended by a signal, it ends the class that runs, with all that this started.
    signal.signal(signal.SIGTERM, lambda *_: sys.exit(1))
    late, wrong = time.monotonic() + named.all, []
    for name in names():
        if named.words and not any(word in name for word in named.words):
            continue
        left = late - time.monotonic()
        said = run(name, min(named.each, left)) if left > GRACE else "not run"
        if said != "passed":
            wrong.append(f"{name} ({said})")
    print(f"FAILED: {', '.join(wrong)}" if wrong else "all classes passed", flush=True)
    return 1 if wrong else 0


if __name__ == "__main__":
    sys.exit(main(sys.argv[1:]))
