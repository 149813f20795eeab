#!/usr/bin/env python3
"""Compiles the crates of tests/ without proofs, and runs them: tests whose clauses nobody reads.

    tools/unproved_tests.py            all of it
    tools/unproved_tests.py below      tests/below: functions of leaves and journals
    tools/unproved_tests.py above      tests/above: functions of calls, and of scripts over devices that fail; what its program
                                       is asked by files and lines: cases, replies, drawn requests, pieces; and cases of
                                       which each allocation is refused

A program that is newer than all sources of its crates is not compiled again. They lie in out/unproved. Each function of the
sources is run, in a folder and a process of its own. The status is 0 where all passed, 1 where one didn't, and 2 where
nothing could be run.
"""
from __future__ import annotations

import datetime
import os
import re
import shutil
import subprocess
import sys
import tempfile
from concurrent.futures import ThreadPoolExecutor
from pathlib import Path
from typing import Callable

import build_program
import unproved

TOOLS = Path(__file__).resolve().parent
# A function of tests/below, and one of tests/above, where each public one of these files is a test.
TEST = re.compile(r"^#\[test\]\nfn (\w+)\(", re.MULTILINE)
PUBLIC, OF_TESTS = re.compile(r"^pub\(crate\) fn (\w+)", re.MULTILINE), ("calls.rs", "scripts.rs")
# Fifty times what the longest takes on a quiet machine.
SECONDS = 600
# In so many seconds one allocation in so many of all cases is refused, from another one on each day.
REFUSED_SECONDS = 300


def tests_below() -> list[str]:
    """The names of the tests of tests/below, each behind those of its modules."""
    folder = unproved.folder_of("tests_below")
    return sorted("::".join([*file.relative_to(folder).with_suffix("").parts, name])
                  for file in folder.rglob("*.rs") for name in TEST.findall(file.read_text(encoding="utf-8")))


def tests_above() -> list[str]:
    """The names of those of tests/above."""
    folder = unproved.folder_of("tests_above")
    return [name for file in OF_TESTS for name in PUBLIC.findall((folder / file).read_text(encoding="utf-8"))]


def fault_of(command: list[str | Path]) -> str:
    """Why a test did not pass, or nothing."""
    with tempfile.TemporaryDirectory() as folder:
        try:
            ran = subprocess.run(command, cwd=folder, stdin=subprocess.DEVNULL, capture_output=True, text=True,
                                 errors="replace", timeout=SECONDS)
        except subprocess.TimeoutExpired:
            return f"{command[-1]}: no end within {SECONDS} s"
    return f"{command[-1]}: status {ran.returncode}\n{(ran.stdout + ran.stderr).strip()}" if ran.returncode else ""


def functions(crate: str, command: list[str | Path], names: list[str]) -> list[str]:
    """Runs each test of a crate, by its name behind the command, and says how many passed. What went wrong."""
    with ThreadPoolExecutor(os.cpu_count()) as at_once:
        faults = [fault for fault in at_once.map(lambda name: fault_of([*command, name]), names) if fault]
    print(f"unproved_tests: {crate}: {len(names) - len(faults)} of {len(names)} tests passed", flush=True)
    return faults if names else [f"{crate}: the sources have no test"]


def printed(program: Path, words: list[str], given: str, folder: Path) -> str:
    """What the program prints in a copy of a folder, and its status and what it says on standard error where these speak."""
    with tempfile.TemporaryDirectory() as name:
        shutil.copytree(folder, name, dirs_exist_ok=True)
        ran = subprocess.run([program, *words], cwd=name, input=given, capture_output=True, text=True, errors="replace",
                             timeout=SECONDS)
    return ran.stdout + ran.stderr + (f"status {ran.returncode}\n" if ran.returncode else "")


def differing(title: str, wanted: str, got: str) -> list[str]:
    """The first line in which something else was printed."""
    pairs = zip([*wanted.splitlines(), "the end"], [*got.splitlines(), "the end"])
    return next(([f"{title}: wanted {one}, got {other}"] for one, other in pairs if one != other), [])


def rows(program: Path) -> list[str]:
    """What differs of all that the program prints by its modes."""
    above, cases = unproved.folder_of("tests_above"), build_program.ROOT / unproved.FOLDER / "cases"
    files = (cases / "args").read_text(encoding="utf-8").split()
    faults = []
    for mode, words, given, wanted in (
        ("cases", files, None, cases / "stdout"),
        ("compare", [], above / "compare.stdin", above / "compare.stdout"),
        ("replies", [], None, above / "replies.stdout"),
    ):
        text = given.read_text(encoding="utf-8") if given else ""
        said = printed(program, [mode, *words], text, cases / "data")
        faults += differing(mode, wanted.read_text(encoding="utf-8"), said)
    print(f"unproved_tests: cases by calls, replies and rows: {len(faults)} faults", flush=True)
    return faults


def scripts(*commands: list[str | Path]) -> list[str]:
    """Runs scripts over the programs, of which those that refuse memory compile an allocator. Those that found something."""
    if not shutil.which("cc"):
        return ["there is no C compiler (cc): no memory was refused"]
    return [f"{command[0]} found something" for command in commands
            if subprocess.run([sys.executable, TOOLS / command[0], *command[1:]], stdin=subprocess.DEVNULL).returncode]


def below() -> list[str]:
    tests = unproved.built("tests_below", tests=True)
    return [*functions("tests_below", [tests], tests_below()), *scripts(
        ["refused_leaves.py", tests], ["without_memory.py", tests, "leaves::without_memory::what_takes_no_memory"])]


def above() -> list[str]:
    program, day = unproved.built("tests_above"), str(datetime.date.today().toordinal())
    refused = ["--within", str(REFUSED_SECONDS), "--day", day]
    return [*functions("tests_above", [program, "test"], tests_above()), *rows(program), *scripts(
        ["drawn_requests.py", program], ["piece_rows.py", program],
        ["without_memory.py", program, "test", "what_takes_no_memory"],
        ["refused_allocations.py", *refused, "--calls", program])]


PARTS: dict[str, Callable[[], list[str]]] = {"below": below, "above": above}


def main(words: list[str]) -> int:
    if words[:1] in (["-h"], ["--help"]) or not all(word in PARTS for word in words):
        print((__doc__ or "").strip())
        return 0 if words[:1] in (["-h"], ["--help"]) else 2
    try:
        faults = [fault for part in words or PARTS for fault in PARTS[part]()]
    except unproved.NotBuilt as why:
        print(f"unproved_tests: {why}", file=sys.stderr)
        return 2
    print("\n".join([*faults, f"unproved_tests: {len(faults)} faults"]))
    return 1 if faults else 0


if __name__ == "__main__":
    sys.exit(main(sys.argv[1:]))
