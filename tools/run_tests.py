#!/usr/bin/env python3
"""Runs the unittest tests of a folder, and says of those that are skipped how many, of which class, and why.

    tools/run_tests.py FOLDER [SECONDS]     in so many seconds, if they are given

Tests that only wait for the built program, or for a server, are counted alone: `tools/gate clients` and `tools/gate edge`
run them. The status is 1 where a test fails or can't be loaded. Where they take too long it is 1 too, and standard error has
what each thread was at.
"""
from __future__ import annotations

import faulthandler
import os
import sys
import unittest
from pathlib import Path

# Tests of this folder's tools import their own modules first.
sys.path[:] = [path for path in sys.path if Path(path or ".").resolve() != Path(__file__).resolve().parent]
# How the reasons begin of tests that wait, and what these wait for.
WAITING = {"wfserve is not built": "the built program", "no loopback, no Python with aiohttp": "a server"}


def named(test: object) -> str:
    """The class of a test that was skipped, also in a part of it, or what of the class was."""
    whole = getattr(test, "test_case", test)
    name = whole.id() if isinstance(whole, unittest.TestCase) else str(test)
    return name.rpartition(".")[0] if isinstance(whole, unittest.TestCase) else name


def waits_for(why: str) -> str:
    """What a test waits for that is skipped for this reason, or nothing."""
    return next((what for begins, what in WAITING.items() if why.startswith(begins)), "")


def told(skipped: list[tuple[object, str]]) -> list[str]:
    """A line for each class and reason, but for those that wait."""
    counts: dict[str, int] = {}
    for test, why in skipped:
        if not waits_for(why):
            counts[f"{named(test)}: {why}"] = counts.get(f"{named(test)}: {why}", 0) + 1
    waiting = {what: sum(waits_for(why) == what for _, why in skipped) for what in WAITING.values()}
    lines = [f"gate: skipped: {count} of {what}" for what, count in sorted(counts.items())]
    return lines + [f"gate: {count} tests wait for {what}" for what, count in waiting.items() if count]


def main(words: list[str]) -> int:
    folder = str(Path(words[0]).resolve())
    os.chdir(folder)
    if len(words) > 1:
        faulthandler.dump_traceback_later(float(words[1]), exit=True)
    loader = unittest.TestLoader()
    tests = loader.discover(folder, top_level_dir=folder)
    result = unittest.TextTestRunner(verbosity=0, warnings="default").run(tests)
    faulthandler.cancel_dump_traceback_later()
    print("".join(f"{line}\n" for line in told(result.skipped)), end="", flush=True)
    return 0 if result.wasSuccessful() and result.testsRun else 1


if __name__ == "__main__":
    sys.exit(main(sys.argv[1:]))
