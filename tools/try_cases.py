#!/usr/bin/env python3
"""Runs cases before anything is proved: by the program of tests/above, and by `wfserve`, each compiled without proofs.

    tools/try_cases.py [NAME..]    the cases of tests/cases/data/NAME.cases; without a name those of all files

It compiles each for some minutes of processor time where a source is newer (`tools/unproved.py`), and then runs the cases:
by calls, and as scripts (`tools/case_rows.py`). Each has to say what tests/cases/stdout lists, and none may be missing. The
status is 0 then, 1 where a case fails or is missing, and 2 where nothing could be run. The gate runs all of them by calls,
and as scripts with the proved program.
"""
from __future__ import annotations

import re
import sys

import build_program
import case_rows
import unproved
import unproved_tests

CASES = build_program.ROOT / "tests" / "cases"
LINE = re.compile(r"([\w.]+\.cases: .*: .*)$")


def wanted(names: list[str]) -> list[str]:
    """The lines that the program has to print for these files, in its order."""
    lines = (CASES / "stdout").read_text(encoding="utf-8").splitlines()
    return [line for line in lines if line.partition(":")[0] in names]


def said_in(printed: str) -> list[str]:
    """The lines that say what became of a case."""
    return [found[1] for found in map(LINE.match, printed.splitlines()) if found]


def faults_of(said: list[str], names: list[str]) -> list[str]:
    """What differs between the lines that were printed and those that have to be."""
    lines = wanted(names)
    return [line for line in said if line not in lines] + [f"missing: {line}" for line in lines if line not in said]


def main(words: list[str]) -> int:
    if words in (["-h"], ["--help"]):
        print(__doc__.strip())
        return 0
    every = (CASES / "args").read_text(encoding="utf-8").split()
    names = [word if word.endswith(".cases") else f"{word}.cases" for word in words] or every
    unknown = [name for name in names if name not in every]
    if unknown:
        print(f"try_cases: tests/cases/args has no {', '.join(unknown)}", file=sys.stderr)
        return 2
    try:
        calls, wfserve = unproved.built("tests_above"), unproved.built("wfserve", checks=unproved.Checks.MEMORY)
    except unproved.NotBuilt as why:
        print(f"try_cases: {why}", file=sys.stderr)
        return 2
    said = unproved_tests.printed(calls, ["cases", *names], "", CASES / "data")
    faults = [*faults_of(said_in(said), names), *case_rows.faults_in(wfserve, names)[1]]
    print("\n".join(faults) if faults else f"{len(wanted(names))} cases passed, none of them proved")
    return 1 if faults else 0


if __name__ == "__main__":
    sys.exit(main(sys.argv[1:]))
