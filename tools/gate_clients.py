#!/usr/bin/env python3
"""The client's tests that want the built program: which modules these are, and a run of them.

    tools/gate_clients.py          prints the modules' names
    tools/gate_clients.py run      runs them with the program that WFSERVE names; says which modules took long, and by
                                   class what was skipped. Tests that want a server are left to tools/gate edge, which
                                   builds one

A module belongs to them where one of its tests or classes is marked by `needs_program` (clients/python/tests/support/
programs.py), also by inheritance. So the gate runs a new module without a list that names it. Status 0, 1 where a test
fails or can't be loaded, and 2 where there is no program. Where they take too long it ends with 1, and standard
error has what each thread was at.
"""
from __future__ import annotations

import faulthandler
import os
import subprocess
import sys
import time
import unittest
from collections import Counter
from collections.abc import Iterator
from pathlib import Path

TOP = Path(__file__).resolve().parent.parent
TESTS = TOP / "clients/python/tests"
# Three times what they took beside proofs, at a load of 9.
SECONDS = 2800
# A module that takes so many is named.
SLOW = 10


def loaded(folder: Path) -> list[unittest.TestCase]:
    """All tests of a folder. One that can't be loaded ends this, so that none is left out unseen."""
    loader = unittest.TestLoader()
    tests = list(flat(loader.discover(str(folder), top_level_dir=str(folder))))
    if loader.errors:
        sys.exit("\n".join(loader.errors))
    return tests


def flat(tests: unittest.TestSuite) -> Iterator[unittest.TestCase]:
    """The single tests of a suite."""
    for test in tests:
        if isinstance(test, unittest.TestSuite):
            yield from flat(test)
        else:
            yield test


def wants_program(test: unittest.TestCase) -> bool:
    """Whether it or its class is marked by `needs_program`."""
    method = getattr(test, test._testMethodName)
    return getattr(test, "wants_program", False) or getattr(method, "wants_program", False)


def wants_server(test: unittest.TestCase) -> bool:
    """Whether it or its class is marked by `needs_server`."""
    method = getattr(test, test._testMethodName)
    return getattr(test, "wants_server", False) or getattr(method, "wants_server", False)


def modules(tests: list[unittest.TestCase]) -> list[str]:
    """The modules in which a test wants the program, by name."""
    return sorted({type(test).__module__ for test in tests if wants_program(test)})


class OfModule(unittest.TestSuite):
    """The tests of a module. It knows how many seconds they took."""

    def __init__(self, name: str, tests: list[unittest.TestCase]):
        super().__init__(test for test in tests if type(test).__module__ == name and not wants_server(test))
        self.name = name
        self.seconds = 0.0

    def run(self, result: unittest.TestResult, debug: bool = False) -> unittest.TestResult:
        began = time.monotonic()
        super().run(result, debug)
        self.seconds = time.monotonic() - began
        return result


def slow(parts: list[OfModule]) -> list[str]:
    """The modules that took long, the slowest first."""
    listed = sorted((part for part in parts if part.seconds >= SLOW), key=lambda part: -part.seconds)
    return [f"{part.seconds:.0f} s of {part.name}" for part in listed]


def named(test: unittest.TestCase) -> str:
    """The class of a test that was skipped, also in a part of it, or what of the class was."""
    whole = getattr(test, "test_case", test)
    return whole.id().rpartition(".")[0] if isinstance(whole, unittest.TestCase) else whole.id()


def skipped(result: unittest.TestResult) -> Counter[str]:
    """How many tests of each class were skipped for which reason."""
    return Counter(f"{named(test)}: {why}" for test, why in result.skipped)


def run(folder: Path, seconds: float = SECONDS) -> int:
    """Runs all tests of the modules that want the program, in so many seconds. The status."""
    program = os.environ.get("WFSERVE", "")
    if not Path(program).is_file():
        print(f"gate: WFSERVE names no program: {program!r}", file=sys.stderr)
        return 2
    tests = loaded(folder)
    parts = [OfModule(name, tests) for name in modules(tests)]
    wanted = unittest.TestSuite(parts)
    print(f"gate: {wanted.countTestCases()} tests of {len(parts)} modules want the program", flush=True)
    print(f"gate: {sum(map(wants_server, tests))} tests that want a server are left to tools/gate edge", flush=True)
    # Once their time is over, standard error has the test that this was at, and the status is 1.
    faulthandler.dump_traceback_later(seconds, exit=True)
    result = unittest.TextTestRunner(verbosity=0, warnings="default").run(wanted)
    faulthandler.cancel_dump_traceback_later()
    for line in slow(parts):
        print(f"gate: {line}", flush=True)
    for what, count in sorted(skipped(result).items()):
        print(f"gate: skipped: {count} of {what}", flush=True)
    return 0 if result.wasSuccessful() and result.testsRun else 1


def command(folder: Path = TESTS, seconds: float = SECONDS) -> list[str]:
    """What runs them, for a process of its own in their folder."""
    return [sys.executable, str(Path(__file__).resolve()), "run", str(folder), str(seconds)]


def phase(program: Path, folder: Path = TESTS, seconds: float = SECONDS) -> int:
    """Runs them with this program, in so many seconds. 0 where all passed."""
    environment = {**os.environ, "WFSERVE": str(program)}
    return subprocess.run(command(folder, seconds), cwd=folder, env=environment).returncode


def main(words: list[str]) -> int:
    # This folder has modules with names of the client's tests.
    sys.path[:] = [path for path in sys.path if Path(path or ".").resolve() != TOP / "tools"]
    folder = Path(words[1]) if len(words) > 1 else TESTS
    if words[:1] == ["run"]:
        return run(folder, float(words[2]) if len(words) > 2 else SECONDS)
    if words:
        print(__doc__.strip())
        return 0 if words[0] in ("-h", "--help") else 2
    print("\n".join(modules(loaded(folder))))
    return 0


if __name__ == "__main__":
    sys.exit(main(sys.argv[1:]))
