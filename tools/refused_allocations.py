#!/usr/bin/env python3
"""Refuses each allocation of programs in turn, and looks at what the service makes of it.

    tools/refused_allocations.py [--within SECONDS --day D] [--calls CALLS] [--program PROGRAM]

CALLS is the built program of tests/above (tools/unproved_tests.py leaves it), PROGRAM the
built `wfserve`; one at least is named. Of each case in ROWS every allocation is refused, once a run: for CALLS, which makes
the service's calls and tells what each answers and leaves, and for PROGRAM, which is given the same lines. Where
that would take longer than SECONDS, by the time that a few runs take, every Kth is refused, from the one on
that the number D of a day gives: so K days on end refuse all of them.

CALLS ends with status 2 where memory was refused outside of the service, as of its own texts. Else a call
that was refused leaves each run's history and description as they were, or as the parts of a turn that were
done leave them; made again it is answered as if nothing had been refused, and so is each call after it. Two
passes make the calls in turn. At the end all is read as if nothing had been refused, and so it is of a service
that is opened from the records of the same lines.

PROGRAM ends with status 2, and has written a beginning of its undisturbed output and saved nothing: an
older file of records stays. Or it asked for the growth again, and all is as if nothing had been
refused. Any other end fails the run.
"""
import argparse
import collections
import concurrent.futures
import json
import math
import os
import pathlib
import re
import subprocess
import sys
import tempfile
import time

ROOT = pathlib.Path(__file__).resolve().parent.parent
DATA = ROOT / "tests" / "cases" / "data"
ROWS = {
    "whole_workflows.cases": [
        "activity retried until exhausted",
        "canceled firing",
        "completed workflow",
        "conflict policies",
        "continue as new",
        "faulty completion changes nothing",
        "signal held then flushed",
        "unhandled command",
    ],
    "policies.cases": ["a completed run and the policies of reuse"],
    "children.cases": [
        "a child is terminated with its parent on another shard",
        "a child lives on the shard of its workflow ID",
    ],
    "transfer_turns.cases": ["the parts of a turn"],
    "retention.cases": ["of one workflow ID the older run goes first"],
}
OLDER = "an older file\n"
COUNT_BYTES = 8
# A run takes some hundredths of a second, on a machine that is busy too.
RUN_SECONDS = 300
TIMED_RUNS = 80


def text_of(file, name):
    """Returns the lines of a case, without how it is cut."""
    text = (DATA / file).read_text(encoding="utf-8")
    parts = re.split(r"(?m)^## ", text)
    found = [part for part in parts if part.split("\n")[0] == name]
    if len(found) != 1:
        sys.exit(f"refused_allocations: {file} has {len(found)} cases with the name {name}")
    return [line for line in found[0].split("\n")[1:] if not line.startswith("@ cuts")]


def behind(marker, lines):
    """What the lines of a case say that begin with this marker."""
    return [line[2:] for line in lines if line[:2] == f"{marker} "]


def ids_in(said):
    """The workflow IDs that a line names, whatever its parts."""
    if isinstance(said, dict):
        own = [said["workflow_id"]] if "workflow_id" in said else []
        return own + [found for part in said.values() for found in ids_in(part)]
    return [found for part in said for found in ids_in(part)] if isinstance(said, list) else []


class Subject:
    """What is run with an allocation refused."""

    def __init__(self, title, allocator):
        self.title = title
        self.allocator = allocator

    def run(self, refused, folder, call, given):
        """Runs the program, and returns its status, output, errors and how many allocations it asked for."""
        with tempfile.TemporaryFile() as told:
            told.truncate(COUNT_BYTES)
            environment = {"LD_PRELOAD": str(self.allocator), "REFUSED_TOLD": str(told.fileno())}
            if refused:
                environment["REFUSED_ALLOCATION"] = str(refused)
            done = subprocess.run(
                call,
                cwd=folder,
                input=given,
                capture_output=True,
                env=environment,
                pass_fds=[told.fileno()],
                timeout=RUN_SECONDS,
            )
            count = int.from_bytes(told.read(COUNT_BYTES), sys.byteorder)
        return done.returncode, done.stdout, done.stderr, count


class Calls(Subject):
    """The program that makes a case's calls by the service's calls."""

    def __init__(self, program, allocator, title, lines):
        super().__init__(f"calls of {title}", allocator)
        self.program = program
        self.words = [f"$ {words}" for words in behind("$", lines)]
        self.steps = [line for line in lines if line[:2] in ("> ", "@ ")]
        self.replies = behind("<", lines)
        ids = dict.fromkeys(ids_in([json.loads(line) for line in behind(">", lines)]))
        reads = [{"op": op, "workflow_id": name} for name in ids for op in ("history", "describe")]
        self.reads = [f"> {json.dumps(read)}" for read in reads]
        self.known = {}

    def told(self, refused, steps):
        """Has the calls made, and returns the status, what was told and how many allocations were asked for."""
        with tempfile.TemporaryDirectory() as folder:
            path = pathlib.Path(folder, "row.cases")
            text = "\n".join(["## calls", *self.words, *steps, "## reads", *self.reads, ""])
            path.write_text(text, encoding="utf-8")
            call = [str(self.program), "cases", f"--tell={path.name}"]
            status, output, errors, count = self.run(refused, folder, call, b"")
        return status, [line[2:] for line in output.decode().splitlines() if line[:2] == "< "], errors, count

    def read_behind(self, steps):
        """What is read after these steps where nothing is refused."""
        key = "\n".join(steps)
        if key not in self.known:
            told = self.told(None, steps)[1]
            self.known[key] = told[told.index("at the end") + 1 :][: len(self.reads)]
        return self.known[key]

    def may_leave(self, place):
        """What may be read after the call at a place that was refused."""
        yield self.read_behind(self.steps[:place])
        if self.op(place) == "transfer_turn":
            turn = {**json.loads(self.steps[place][2:]), "stop": 2}
            yield self.read_behind([*self.steps[:place], f"> {json.dumps(turn)}"])

    def op(self, place):
        """What is asked at a place: the word of the line, or that of a step that no line asks for."""
        marker, _, said = self.steps[place].partition(" ")
        return json.loads(said).get("op") if marker == ">" else said.split(" ")[0]

    def waiting(self):
        """The places of the steps that are answered, each with its reply."""
        places = [place for place in range(len(self.steps)) if self.op(place) not in (None, "skip")]
        return collections.deque(zip(places, self.replies))

    def attempt(self, refused):
        status, told, errors, count = self.told(refused, self.steps)
        if status == 2 and refused and b"memory" in errors:
            return count, "outside of the service", None
        if status or errors:
            return count, None, f"status {status}, {told!r}, {errors!r}"
        return count, *self.judged(told)

    def judged(self, told):
        """Returns where memory was refused, or what is wrong."""
        place = "nowhere"
        noted = [line for line in told if line.startswith("refused as ")]
        lines = collections.deque(line for line in told if line not in noted)
        if noted:
            place = noted[0].removeprefix("refused ")
            is_late = "at the end" in told[: told.index(noted[0])]
            place += " again" if is_late and place == "as a service was opened" else ""
        wanted, refused = self.waiting(), None
        while lines and lines[0] != "at the end":
            line = lines.popleft()
            if not wanted:
                return None, f"one reply too many: {line}"
            at, reply = wanted[0]
            if line == "refused in a call":
                refused = self.op(at)
                place = f"in a call, {refused}"
                left = [lines.popleft() for _ in self.reads]
                if left not in self.may_leave(at):
                    return None, f"what a refused call left, line {at + 1}: {left}"
            elif line == reply or (refused, line) == ("transfer_turn", reply.replace("accepted", "already")):
                # A delivery whose turn was refused after it is answered as done before.
                wanted.popleft()
            elif (refused, line) != ("dispatch_turn", f'{{"line":{at + 1},"ok":"stale"}}'):
                # Behind a dispatch turn that was refused a hint may wait twice, and the poll is made again.
                return None, f"another reply: {line}"
        end = self.read_behind(self.steps)
        again = ["opened again", *end] if all(step[0] == ">" for step in self.steps) else []
        if wanted or list(lines) != ["at the end", *end, *again]:
            return None, f"another end: {list(lines)}, {len(wanted)} replies are missing"
        return place, None


class Program(Subject):
    """The program with a case's lines as its standard input, and a folder in which records are saved."""

    def __init__(self, program, allocator, title, lines):
        super().__init__(f"script of {title}", allocator)
        self.program = program
        self.words = [word for words in behind("$", lines) for word in words.split(" ")]
        self.given = "".join(line + "\n" for line in behind(">", lines)).encode()
        self.whole = None

    def attempt(self, refused):
        with tempfile.TemporaryDirectory() as folder:
            saved = pathlib.Path(folder, "records", "shard-00.rec")
            saved.parent.mkdir()
            saved.write_text(OLDER)
            call = [str(self.program), *self.words, "--save", "records"]
            status, output, errors, count = self.run(refused, folder, call, self.given)
            record = saved.read_bytes()
            beside = sorted(path.name for path in saved.parent.iterdir())
        return count, *self.judged(refused, (status, output, errors, record, beside))

    def judged(self, refused, came):
        """Returns where memory was refused, or what is wrong."""
        if not refused:
            self.whole = came
            good = came[0] in (0, 1) and came[3] != OLDER.encode()
            return ("nowhere", None) if good else (None, f"undisturbed: {came!r}")
        status, output, errors, record, _ = came
        if came == self.whole:
            return "a growth that was asked again", None
        is_beginning = self.whole[1].startswith(output)
        if status == 2 and is_beginning and b"memory" in errors and record == OLDER.encode():
            return "ended by it, an older file kept", None
        if status == 2 and is_beginning and b"memory" in errors and record == self.whole[3]:
            return "ended by it, once records were saved", None
        return None, repr(came)


def at_once():
    return concurrent.futures.ThreadPoolExecutor(len(os.sched_getaffinity(0)))


def attempted(subject, refused):
    """Where a subject was refused this allocation, and the fault of that run."""
    try:
        _, place, fault = subject.attempt(refused)
    except subprocess.TimeoutExpired:
        return None, f"no end within {RUN_SECONDS} s"
    return place, fault


def counted(subject):
    """How many allocations an undisturbed run of a subject asks for, and its fault."""
    count, _, fault = subject.attempt(None)
    return count, fault or (None if count else "no allocation was counted")


def spread_over(counts):
    """Subjects and allocations for a few runs, spread over all."""
    subjects = list(counts.items())
    for number in range(TIMED_RUNS):
        subject, count = subjects[number % len(subjects)]
        yield subject, 1 + number * count // TIMED_RUNS


def step_within(seconds, counts):
    """Every how manyth allocation can be refused in so many seconds, by the time that a few runs take."""
    began = time.monotonic()
    with at_once() as pool:
        list(pool.map(lambda run: attempted(*run), spread_over(counts)))
    each = (time.monotonic() - began) / TIMED_RUNS
    return max(1, math.ceil(sum(counts.values()) * each / seconds))


def tried(subject, count, every, first):
    """Refuses allocations of a subject in turn. Returns how often each place came, and the faults."""
    numbers = range(first, count + 1, every)
    places, faults = collections.Counter(), []
    with at_once() as pool:
        for number, (place, fault) in zip(numbers, pool.map(lambda one: attempted(subject, one), numbers)):
            places[place] += 1
            if fault:
                faults.append(f"{subject.title}, allocation {number}: {fault}")
    print(f"{subject.title}: {len(numbers)} of {count} allocations")
    for place, times in places.most_common():
        print(f"  {times:6} {place or 'FAULTS'}", flush=True)
    return places, faults


def subjects_of(programs, allocator):
    """Each program, behind what is made of it, with each of the cases."""
    for file, names in ROWS.items():
        for name in names:
            for subject, program in programs:
                yield subject(program.resolve(), allocator, name, text_of(file, name))


def refuse_all(subjects, within, day):
    """Refuses the allocations of all subjects, and returns how many runs there were, and the faults."""
    told = {subject: counted(subject) for subject in subjects}
    faults = [f"{subject.title}: {fault}" for subject, (_, fault) in told.items() if fault]
    counts = {subject: count for subject, (count, fault) in told.items() if not fault}
    every = step_within(within, counts) if within and counts else 1
    first = 1 + day % every
    if every > 1:
        print(f"only one in {every} of {sum(counts.values())} allocations, from number {first} on")
    runs = 0
    for subject, count in counts.items():
        places, wrong = tried(subject, count, every, first)
        runs += sum(places.values())
        faults += wrong
    return runs, faults


def main():
    parser = argparse.ArgumentParser(description=__doc__.split("\n")[0])
    parser.add_argument("--within", type=int, help="how many seconds it may take; without it all are refused")
    parser.add_argument("--day", type=int, default=0, help="a number that says which are refused where not all are")
    parser.add_argument("--calls", type=pathlib.Path, help="the built program of tests/above")
    parser.add_argument("--program", type=pathlib.Path, help="the built wfserve")
    told = parser.parse_args()
    programs = [(subject, program) for subject, program in ((Calls, told.calls), (Program, told.program)) if program]
    for _, program in programs:
        if not program.is_file():
            parser.error(f"no such program: {program}")
    if not programs:
        parser.error("--calls or --program names what is run")
    with tempfile.TemporaryDirectory() as folder:
        allocator = pathlib.Path(folder, "refuse_nth.so")
        source = ROOT / "tools" / "refuse_nth.c"
        subprocess.run(["cc", "-O2", "-shared", "-fPIC", "-o", allocator, source], check=True)
        subjects = list(subjects_of(programs, allocator))
        runs, faults = refuse_all(subjects, told.within, told.day)
    print(f"{runs} runs, {len(faults)} faults")
    for fault in faults[:20]:
        print(fault)
    return 1 if faults else 0


if __name__ == "__main__":
    sys.exit(main())
