"""How far a run of proofs is, and how many minutes are left.

A run has parts that end one after another: a crate's proof, its tests, its wrong bodies. What is left is told by a model: each
crate takes its share of tools/costs.txt, as many at once as there are processors, and first those with the longest chain of
others above them. How fast this machine is on this day is seen from what the crates that are through have taken.
"""
from __future__ import annotations

import copy
import json
import re
import sys
import threading
import time
from collections.abc import Callable, Iterable, Mapping
from pathlib import Path
from typing import NamedTuple, TextIO

import costs

KEPT = Path(__file__).resolve().parent.parent / "out" / "times"
A_MINUTE = 60.0
# A part is named by its crate and by what was made of it.
SAID = re.compile(r"rt: (\w+)(?:(: its tests are)|(: trying its must-fail edits \((\d+)\)))? ?"
                  r"(proved|is kept: |NOT PROVED)?")
LAST = re.compile(r"(\d+) passed, (\d+) failed$")
# Before this share of a run is through, its own speed says little.
LEAST_SHARE = 0.02
# By how much of a run's work what a crate took counts half.
HALF_SHARE = 0.25
# What of a proof is done by one job, however many it gets, and how many it gets at most.
ALONE, MOST_JOBS = 0.3, 4


class Stage(NamedTuple):
    """Crates that are proved together, and whether one gets more than one job where processors are idle."""

    crates: tuple[str, ...]
    gets_jobs: bool


def seconds_of(cost: float, jobs: int) -> float:
    """How long a proof takes with so many jobs."""
    return cost * (ALONE + (1 - ALONE) / jobs)


def lines_of(top: Path) -> dict[str, float]:
    """The lines of each crate's sources, by which `rt ci` tells which chain is the longest."""
    files = sorted(top.glob("crates/*/src/**/*.rt"))
    counts: dict[str, float] = {}
    for file in files:
        name = file.relative_to(top / "crates").parts[0]
        counts[name] = counts.get(name, 0.0) + file.read_bytes().count(b"\n")
    return counts


def chains(crates: Iterable[str], below: Mapping[str, list[str]], cost: Mapping[str, float]) -> dict[str, float]:
    """The cost of the longest chain that begins with each crate and goes up. Crates come lowest first."""
    behind = {name: 0.0 for name in crates}
    for name in reversed(list(behind)):
        behind[name] += cost.get(name, 0.0)
        for other in below[name]:
            if other in behind:
                behind[other] = max(behind[other], behind[name])
    return behind


class Schedule:
    """A stage while it is under way: which crates are proved now, and since when, as far as one can tell."""

    def __init__(self, stage: Stage, below: Mapping[str, list[str]], cost: Mapping[str, float], processors: int,
                 lines: Mapping[str, float] | None = None):
        self.stage, self.processors, self.cost = stage, processors, cost
        self.order = {name: -behind for name, behind in chains(stage.crates, below, lines or cost).items()}
        self.waits = {name: {other for other in below[name] if other in self.order} for name in stage.crates}
        self.left = set(stage.crates)
        # Of each crate that is proved: since when, and with how many jobs.
        self.running: dict[str, tuple[float, int]] = {}

    def copy(self) -> Schedule:
        other = copy.copy(self)
        other.waits = {name: {*waits} for name, waits in self.waits.items() if name in self.left}
        other.left, other.running = {*self.left}, {**self.running}
        return other

    def begin(self, now: float) -> None:
        """Begins crates for which processors are idle, first those with the longest chain above them."""
        ready = sorted((name for name in self.left if not self.waits[name]), key=lambda name: (self.order[name], name))
        for place, name in enumerate(ready):
            idle = self.processors - sum(jobs for _, jobs in self.running.values())
            if idle <= 0:
                break
            jobs = max(1, min(MOST_JOBS, idle // (len(ready) - place))) if self.stage.gets_jobs else 1
            self.running[name] = now, jobs
            self.left.remove(name)

    def end(self, name: str, now: float) -> tuple[float, int]:
        """Notes that a crate is through, and begins others. Since when it was proved, and with how many jobs. Where another one was
        taken to be proved in its place, that one waits."""
        if name not in self.running:
            swapped = max(self.running, key=lambda it: (self.running[it], it), default=None)
            self.running[name] = self.running.pop(swapped) if swapped else (now, 1)
            self.left.discard(name)
            self.left |= {swapped} if swapped else set()
        began = self.running.pop(name)
        for waits in self.waits.values():
            waits.discard(name)
        self.begin(now)
        return began

    def ends(self, now: float, slower: float = 1.0) -> list[tuple[float, str]]:
        """When each crate that isn't through will be, where all take so many times as long as they cost."""
        ahead, ended = self.copy(), []
        ahead.begin(now)
        due = {name: max(at, now) for name, at in ahead.due(slower).items()}
        while due:
            name = min(due, key=lambda it: (due[it], it))
            now = due.pop(name)
            ended.append((now, name))
            ahead.end(name, now)
            due |= {it: at for it, at in ahead.due(slower).items() if it not in due}
        return ended

    def due(self, slower: float) -> dict[str, float]:
        """When the crates that are proved now are through."""
        return {name: began + slower * seconds_of(self.cost[name], jobs) for name, (began, jobs) in self.running.items()}


class Model:
    """What is left of a run whose crates are proved stage by stage."""

    def __init__(self, stages: list[Stage], below: Mapping[str, list[str]], cost: Mapping[str, float], processors: int,
                 lines: Mapping[str, float] | None = None):
        self.stages, self.below, self.processors, self.lines = stages, below, processors, lines
        self.cost = {name: cost.get(name, costs.UNKNOWN) for stage in stages for name in stage.crates}

    def left(self, ended: Iterable[tuple[str, float]], kept: Iterable[str], now: float) -> float:
        """How many seconds are left, `now` seconds after the beginning, once these crates have ended, each at its time. Some of
        them were kept, as an earlier run proved them."""
        cost = self.cost | dict.fromkeys(kept, 0.0)
        schedules = [Schedule(stage, self.below, cost, self.processors, self.lines) for stage in self.stages]
        slower = self.slower(schedules, ended, cost)
        at = now
        for schedule in schedules:
            at = max([at for at, _ in schedule.ends(at, slower)], default=at)
        return at - now

    def slower(self, schedules: list[Schedule], ended: Iterable[tuple[str, float]], cost: Mapping[str, float]) -> float:
        """Takes over what has ended, and gives how many times as long as their costs these crates took."""
        whole, through = sum(cost.values()) or 1.0, 0.0
        took = expected = 0.0
        schedules[0].begin(0.0)
        for name, at in ended:
            schedule = next((it for it in schedules if name in it.left or name in it.running), None)
            if schedule:
                began, jobs = schedule.end(name, at)
                # A machine that others share is faster or slower by and by: what ended long ago counts less.
                fades = 0.5 ** (cost[name] / (HALF_SHARE * whole))
                took = took * fades + (at - began if cost[name] else 0.0)
                expected = expected * fades + seconds_of(cost[name], jobs)
                through += cost[name]
        for earlier, later in zip(schedules, schedules[1:]):
            if not earlier.left and not earlier.running and not later.running:
                later.begin(max([at for name, at in ended if name in earlier.order], default=0.0))
        return took / expected if through > LEAST_SHARE * whole else 1.0


def write_times(path: Path, course: list[tuple[str, float]], whole: float) -> None:
    """Keeps what a run took, for tools/costs.py: of each part the seconds from the run's beginning to its end."""
    path.parent.mkdir(parents=True, exist_ok=True)
    path.write_text(json.dumps({"parts": course, "whole": whole}), encoding="utf-8")


def in_minutes(seconds: float) -> str:
    return f"{max(1, round(seconds / 60))} min left"


class Progress:
    """How far a run of `rt ci` is, by the lines that it prints."""

    def __init__(self, crates: Iterable[str], clock: Callable[[], float] = time.monotonic):
        self.crates = set(crates)
        self.clock, self.began = clock, clock()
        self.proved: set[str] = set()
        self.kept: set[str] = set()
        self.failed: set[str] = set()
        # Each part that is through, and when, in seconds after the beginning.
        self.course: list[tuple[str, float]] = []
        self.wrong_bodies = 0
        self.is_whole = False

    def note(self, line: str) -> None:
        """Notes which part a line says is through. What it says about tests and wrong bodies proves no crate."""
        self.is_whole = self.is_whole or bool(LAST.match(line))
        said = SAID.match(line)
        if not said or said[1] not in self.crates or not (said[3] or said[5]):
            return
        self.wrong_bodies += int(said[4] or 0)
        part = f"{said[1]} {'tests' if said[2] else 'wrong bodies' if said[3] else 'proof'}"
        if part not in dict(self.course):
            self.course.append((part, self.clock() - self.began))
        if not said[2] and not said[3] and said[1] not in self.done():
            {"p": self.proved, "i": self.kept, "N": self.failed}[said[5][0]].add(said[1])

    def done(self) -> set[str]:
        """The crates that are through, also those that aren't proved."""
        return self.proved | self.kept | self.failed

    def left(self, model: Model) -> float:
        """How many seconds are left by this model."""
        ended = [(part.removesuffix(" proof"), at) for part, at in self.course if part.endswith(" proof")]
        return model.left(ended, self.kept, self.clock() - self.began)

    def __str__(self) -> str:
        done = f"{len(self.proved | self.kept)} of {len(self.crates)} crates proved"
        kept = f", {len(self.kept)} of them by an earlier run" if self.kept else ""
        failed = f", NOT PROVED: {' '.join(sorted(self.failed))}" if self.failed else ""
        return done + kept + failed


def through_in(line: str, crates: Iterable[str]) -> set[str]:
    """The crate that a line says is through, with its program in place, if it is one of these."""
    said = SAID.match(line)
    return {said[1]} & {*crates} if said and said[5] in ("proved", "is kept: ") and not said[2] and not said[3] else set()


def told(progress: Progress, model: Model | None) -> str:
    """The line that says how far a run is."""
    left = f", {in_minutes(progress.left(model))}" if model else ""
    return f"gate: {progress} in {(progress.clock() - progress.began) / 60:.0f} min{left}"


def follow(lines: Iterable[str], out: TextIO, progress: Progress, every: float = A_MINUTE, kept: Path | None = None,
           model: Model | None = None) -> None:
    """Hands the lines of a run on as they come. Meanwhile standard error says how far it is.

    What the run took is kept in a file, where one is named, the run came to its end and proved all from nothing.
    """
    over = threading.Event()

    def tell() -> None:
        while not over.wait(every):
            print(told(progress, model), file=sys.stderr, flush=True)

    telling = threading.Thread(target=tell, daemon=True)
    telling.start()
    try:
        for line in lines:
            progress.note(line)
            out.write(line)
            out.flush()
    finally:
        over.set()
        telling.join()
    keep(progress, kept)


def keep(progress: Progress, path: Path | None) -> None:
    """Keeps what a run took, where it came to its end and proved all from nothing."""
    if path and progress.is_whole and progress.proved == progress.crates:
        write_times(path, progress.course, progress.clock() - progress.began)
