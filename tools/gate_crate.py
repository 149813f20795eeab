"""The gate of single crates, on a copy of them and of what they stand on, in which their wrong bodies end in `.edit`.

So `rt ci` tries these there, and none at the top of the tree. It takes from the work that is kept on the machine what is
proved already. What was tried is read from its lines, body by body: one that can't be applied or read, or of which nothing
is known, is as much a failure as one that is not refused.
"""
from __future__ import annotations

import contextlib
import os
import re
import shutil
import subprocess
import sys
import tempfile
from collections.abc import Callable, Iterable, Iterator
from pathlib import Path

import above
import build_program
import costs
import gate_progress
import rests_on
import tried

TOP = build_program.ROOT
REFUSED = re.compile(r"rt: must-fail (\w+)/([\w.-]+)\.edit: refused, as it must be")
# How many that were not refused are named.
NAMED = 20

Follow = Callable[[Iterable[str], list[str]], None]


def listed(names: list[str]) -> list[str]:
    """These crates and all of the tree that they stand on, lowest first."""
    _, below = build_program.lines_of_crates()
    found: list[str] = []
    for name in names:
        if name not in found:
            build_program.needed(name, below, found)
    return found


@contextlib.contextmanager
def copied(names: list[str]) -> Iterator[Path]:
    """A copy of these crates and of all that they stand on, without what builds left. It is gone afterwards."""
    with tempfile.TemporaryDirectory(prefix="gate-crates-") as folder:
        copy(names, Path(folder))
        yield Path(folder)


def copy(names: list[str], to: Path) -> None:
    """Makes the copy in this folder. Crates that they stand on have no wrong bodies there."""
    lines, _ = build_program.lines_of_crates()
    crates = listed(names)
    for name in crates:
        left_out = ("out",) if name in names else ("out", "must-fail")
        shutil.copytree(TOP / "crates" / name, to / "crates" / name, ignore=shutil.ignore_patterns(*left_out))
    (to / "crates.txt").write_text("".join(f"{lines[name]}\n" for name in crates), encoding="utf-8")
    shutil.copy(TOP / "HANDLES", to / "HANDLES")
    # It is the top of a repository, wherever it lies.
    (to / ".git").mkdir()


def refused_in(lines: Iterable[str]) -> set[tuple[str, str]]:
    """The wrong bodies that a run's lines say were refused: their crates and names."""
    return {(found[1], found[2]) for found in map(REFUSED.match, lines) if found}


def model_of(names: list[str]) -> gate_progress.Model:
    """What a run over these crates is expected to take."""
    _, below = build_program.lines_of_crates()
    crates = listed(names)
    stage = gate_progress.Stage(tuple(crates), "RT_JOBS" not in os.environ)
    return gate_progress.Model([stage], below, costs.read(TOP), len(os.sched_getaffinity(0)), gate_progress.lines_of(TOP))


def expected(names: list[str]) -> str:
    """What a run over these crates takes where nothing is kept, and which crates above them a change of contracts opens."""
    _, below = build_program.lines_of_crates()
    cost, crates = costs.read(TOP), listed(names)
    bodies = sum(costs.of_bodies(cost.get(name, costs.UNKNOWN), len(tried.bodies_of(name, TOP))) for name in names)
    higher = above.above_all(names, below)
    lines = [f"gate: the proofs of {counted(crates)} take {in_words(crates, cost)} of a processor, less where work is kept, and wrong "
             f"bodies {minutes(bodies)}",
             f"gate: with other contracts, definitions or private fields, {counted(higher)} above are proved again too, in "
             f"{in_words(higher, cost)}"]
    return "\n".join(lines + [f"gate:   {name}, {minutes(cost.get(name, costs.UNKNOWN))}" for name in higher])


def counted(names: list[str]) -> str:
    return "1 crate" if len(names) == 1 else f"{len(names)} crates"


def in_words(names: list[str], cost: dict[str, float]) -> str:
    return minutes(sum(cost.get(name, costs.UNKNOWN) for name in names))


def minutes(seconds: float) -> str:
    return f"{seconds / 60:.0f} min" if seconds >= 60 else f"{seconds:.0f} s"


def run(names: list[str], number: int, follow: Follow) -> int:
    """Proves these crates and all below them, and tries all of their wrong bodies, as the gate's run of this number, or the
    next one. 0 where all passed, and each was refused.

    The note has then a line of this run for each crate of which all were refused, as its files were when they were copied.
    """
    commit = tried.commit_of(TOP)
    with copied(names) as top:
        tree, kit = rests_on.Tree(top), tried.kit_of()
        wanted = {name: {body.stem for body in tried.bodies_of(name, top)} for name in dict.fromkeys(names)}
        sums = {name: tried.sums_of(name, tree, kit) for name in wanted if wanted[name]}
        for body in top.glob("crates/*/must-fail/*.md"):
            body.rename(body.with_suffix(".edit"))
        status, lines = over(top, names, follow)
    refused = refused_in(lines)
    left = {name: sorted(body for body in wanted[name] if (name, body) not in refused) for name in sums}
    tried.note({name: sums[name] for name in sums if not left[name]}, commit, number, TOP)
    return told({name: bodies for name, bodies in left.items() if bodies}, sum(map(len, wanted.values())), status)


def over(top: Path, names: list[str], follow: Follow) -> tuple[int, list[str]]:
    """Runs `rt ci` over a copy. Its status, and its lines."""
    lines: list[str] = []

    def kept(said: Iterable[str]) -> Iterator[str]:
        for line in said:
            lines.append(line)
            yield line

    with subprocess.Popen(["rt", "ci"], cwd=top, stdin=subprocess.DEVNULL, stdout=subprocess.PIPE, text=True, errors="replace") as ran:
        assert ran.stdout is not None
        follow(kept(ran.stdout), listed(names))
    return ran.returncode, lines


def told(left: dict[str, list[str]], count: int, status: int) -> int:
    """Says what came of it, and gives the status."""
    bodies = [f"{name}/{body}" for name, found in sorted(left.items()) for body in found]
    if bodies:
        more = f" and {len(bodies) - NAMED} more" if len(bodies) > NAMED else ""
        print(f"gate: FAILED: {len(bodies)} of {count} wrong bodies were not refused, or not tried: {', '.join(bodies[:NAMED])}{more}")
    else:
        print(f"gate: all {count} wrong bodies were refused")
    if status:
        print(f"gate: FAILED: rt ci over the copy ended with status {status}")
    sys.stdout.flush()
    return 1 if bodies or status else 0
