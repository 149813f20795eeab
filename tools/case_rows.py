#!/usr/bin/env python3
"""Gives the built program the cases of tests/cases/data as scripts, and compares what it answers.

    tools/case_rows.py PROGRAM [NAME..]    the cases of NAME.cases; without a name those of all files

PROGRAM is the built `wfserve`, as `rt ci` leaves it in crates/wfserve/out. Each case that has lines alone is a script,
also without the line feed of its last line. Where it says `@ cuts` the program is also ended after each of its lines,
saves its records, and is begun again from these; all records have to be saved alike once they were loaded. By the
service's calls the program `cases` runs them: a case that is run by neither is a fault here. tests/cases/README.md says
how a case is written. The status is 1 where one fails.
"""
from __future__ import annotations

import concurrent.futures
import os
import resource
import shutil
import signal
import subprocess
import sys
import tempfile
from dataclasses import dataclass, field
from pathlib import Path
from typing import Iterator, Optional

import build_program

CASES = build_program.ROOT / "tests" / "cases"
# A line that is not answered, and counts.
BARRIER = b'{"barrier":true}\n'
SAVED, SAVED_AGAIN = "records", "records_again"
SECONDS = 300


@dataclass
class Case:
    """What the program is given, and what it has to answer."""

    file: str
    name: str
    words: list[str] = field(default_factory=list)
    lines: list[bytearray] = field(default_factory=list)
    room: Optional[int] = None
    # The lines after which it isn't cut; none where it is cut after no line.
    whole_behind: Optional[list[int]] = None
    recorded: list[int] = field(default_factory=list)
    wanted: list[str] = field(default_factory=list)
    status: str = "0"
    # Whether it has what no line asks for, so that calls alone can make it.
    has_calls: bool = False

    @property
    def title(self) -> str:
        return f"{self.file}: {self.name}"

    def is_cut_behind(self, line: int) -> bool:
        return self.whole_behind is not None and line not in self.whole_behind

    def script(self, first: int, last: int) -> bytes:
        """The lines from one place to another, which keep their numbers: a barrier stands for each line before them."""
        return BARRIER * first + b"".join(bytes(line) + b"\n" for line in self.lines[first:last])

    def pseudo_line(self, words: list[str]) -> None:
        """Notes what no line of a script says."""
        if words[0] == "cuts" and words[1:2] in ([], ["but"]):
            self.whole_behind = [int(word) for word in words[2:]]
        elif words[0] == "steps":
            self.recorded = [int(word) for word in words[1:]]
        elif words[0] == "room":
            self.room = int(words[1])
        elif words[0] in ("skip", "start_task", "start_activity_task"):
            self.has_calls = True
        else:
            raise ValueError(words[0])

    def add(self, marker: str, rest: str) -> None:
        """Notes what a line of the file says. A ValueError or an IndexError where that is nothing."""
        count, _, text = rest.partition(" ")
        if marker == "$":
            self.words += rest.split(" ")
        elif marker == ">":
            self.lines.append(bytearray(rest.encode()))
        elif marker == "+":
            self.lines[-1] += text.encode() * int(count)
        elif marker == "*":
            self.lines[-1] += "".join(text.replace("#", str(number + 1)) for number in range(int(count))).encode()
        elif marker == "%":
            self.lines[-1] += bytes.fromhex(text) * int(count)
        elif marker == "@":
            self.pseudo_line(rest.split(" "))
        elif marker in ("<", "!"):
            self.wanted.append(f"{marker} {rest}".rstrip(" ") if not rest else f"{marker} {rest}")
        elif marker == "=":
            self.status = rest
        elif marker not in ("", "#"):
            raise ValueError(marker)


def cases_in(file: str, text: str) -> list[Case]:
    """The cases of a file. What stands before the first of them is passed over."""
    cases: list[Case] = []
    for place, line in enumerate(text.split("\n"), 1):
        marker, _, rest = line.partition(" ")
        if marker == "##":
            cases.append(Case(file, rest))
        elif cases:
            try:
                cases[-1].add(marker, rest)
            except (ValueError, IndexError) as fault:
                raise SystemExit(f"case_rows: {file}: line {place} says nothing that a case can say") from fault
    return cases


@dataclass
class Ended:
    """What the program wrote, and its status; of several runs one after another, and the highest status."""

    output: bytes = b""
    errors: bytes = b""
    status: int = 0

    def add(self, output: bytes, errors: bytes, status: int) -> None:
        self.output += output
        self.errors += errors
        self.status = max(self.status, status)

    def transcript(self) -> list[str]:
        """Line by line, as a case says it."""
        lines = [f"{marker} {line}" if line else marker for marker, text in (("<", self.output), ("!", self.errors))
                 for line in text.decode(errors="replace").replace("\r\n", "\n").removesuffix("\n").split("\n") if text]
        return [*lines, f"= {self.status}"]


def limit(room: int) -> None:
    """A file takes so many bytes, and then none."""
    signal.signal(signal.SIGXFSZ, signal.SIG_IGN)
    resource.setrlimit(resource.RLIMIT_FSIZE, (room, room))


class Run:
    """One case in a folder of its own, with all files that cases read."""

    def __init__(self, program: Path, case: Case, folder: Path) -> None:
        self.program, self.case, self.folder = program, case, folder
        left_out = shutil.ignore_patterns("*.cases")
        shutil.copytree(CASES / "data", folder, ignore=left_out, dirs_exist_ok=True)

    def run(self, ended: Ended, script: bytes, *more: str) -> None:
        """Runs the program over a script, with more words on its command line."""
        room = self.case.room
        with tempfile.TemporaryFile() as output:
            done = subprocess.run(
                [self.program, *self.case.words, *more], cwd=self.folder, input=script, stdout=output,
                stderr=subprocess.PIPE, env={}, timeout=SECONDS,
                preexec_fn=None if room is None else lambda: limit(room))
            output.seek(0)
            ended.add(output.read(), done.stderr, done.returncode)

    def differing(self, by: str, ended: Ended) -> Iterator[str]:
        """The first line in which something else came, if there is one."""
        wanted, got = [*self.case.wanted, f"= {self.case.status}"], ended.transcript()
        for place in range(max(len(wanted), len(got))):
            pair = [lines[place] if place < len(lines) else "" for lines in (wanted, got)]
            if pair[0] != pair[1]:
                yield f"{self.case.title}: differs {by}\n  wanted {pair[0]}\n  got    {pair[1]}"
                return

    def as_script(self) -> Iterator[str]:
        """The whole script. Without its last line feed it is no other where its last line is empty."""
        script = self.case.script(0, len(self.case.lines))
        given = [("as a script", script)]
        if script.removesuffix(b"\n") not in (b"", script) and not script.endswith(b"\n\n"):
            given.append(("as a script without its last line feed", script.removesuffix(b"\n")))
        for by, text in given:
            ended = Ended()
            self.run(ended, text)
            yield from self.differing(by, ended)

    def texts(self, name: str) -> dict[str, bytes]:
        """The records of a folder."""
        return {path.name: path.read_bytes() for path in sorted((self.folder / name).iterdir())}

    def cut(self, line: int) -> Iterator[str]:
        """The program is ended after this line, and goes on from its records."""
        for name in (SAVED, SAVED_AGAIN):
            shutil.rmtree(self.folder / name, ignore_errors=True)
            (self.folder / name).mkdir()
        ended = Ended()
        self.run(ended, self.case.script(0, line), "--save", SAVED)
        self.run(ended, self.case.script(line, len(self.case.lines)), "--load", SAVED, "--save", SAVED_AGAIN)
        yield from self.differing(f"cut behind line {line}", ended)

    def cuts(self) -> Iterator[str]:
        """The same of each line; and the records of all lines are saved alike once they were loaded."""
        lines = len(self.case.lines)
        for line in range(1, lines + 1):
            if self.case.is_cut_behind(line):
                yield from self.cut(line)
        if lines and self.case.is_cut_behind(lines):
            saved = self.texts(SAVED)
            if not saved or saved != self.texts(SAVED_AGAIN):
                yield f"{self.case.title}: saved otherwise once it was loaded"
            counts = [saved.get(f"shard-{shard:02}.rec", b"").count(b"\n") for shard in range(len(self.case.recorded))]
            if counts != self.case.recorded:
                yield f"{self.case.title}: its records have other numbers of steps: {counts}"

    def faults(self) -> list[str]:
        return [*self.as_script(), *self.cuts()]


def faults_of(program: Path, case: Case, called: set[str]) -> list[str]:
    """What differs of a case that is a script; one that isn't has to be among those that calls make."""
    if case.has_calls:
        return [] if case.title in called else [f"{case.title}: it is run in no form"]
    with tempfile.TemporaryDirectory() as folder:
        return Run(program, case, Path(folder)).faults()


def called_in(stdout: str) -> set[str]:
    """The titles of the cases that are made by calls, by what `cases` has to print."""
    return {line.removesuffix(": ok") for line in stdout.splitlines() if line.endswith(": ok")}


def faults_in(program: Path, files: list[str]) -> tuple[int, list[str]]:
    """How many cases the files have, and what differs of them."""
    cases = [case for file in files for case in cases_in(file, (CASES / "data" / file).read_text(encoding="utf-8"))]
    called = called_in((CASES / "stdout").read_text(encoding="utf-8"))
    with concurrent.futures.ThreadPoolExecutor(os.cpu_count()) as threads:
        found = threads.map(lambda case: faults_of(program, case, called), cases)
        return len(cases), [fault for faults in found for fault in faults]


def main(words: list[str]) -> int:
    if not words or words[0] in ("-h", "--help"):
        print(__doc__.strip())
        return 0 if words else 2
    every = (CASES / "args").read_text(encoding="utf-8").split()
    files = [word if word.endswith(".cases") else f"{word}.cases" for word in words[1:]] or every
    unknown = [file for file in files if file not in every]
    if unknown:
        print(f"case_rows: tests/cases/args has no {', '.join(unknown)}", file=sys.stderr)
        return 2
    count, faults = faults_in(Path(words[0]).resolve(), files)
    print("\n".join([*faults, f"case_rows: {count} cases, {len(faults)} faults"]))
    return 1 if faults or not count else 0


if __name__ == "__main__":
    sys.exit(main(sys.argv[1:]))
