#!/usr/bin/env python3
"""The whole gate, as `.ci/run` runs it: all phases of tools/gate, each as soon as what it needs is there.

    tools/gate_run.py            runs it
    tools/gate_run.py --model    prints how many minutes the proofs take by the model, in one run and in two

The proofs are one run of `rt ci` over the whole tree, which decides. On three processors and more another one goes before
it, over all crates but the last ones of the longest chain. That one gives each crate one job, which keeps all processors
busy while many crates wait. The last ones then get the jobs that are free, and take what the first one proved.

Beside them runs the quick phase, whose failure ends all; what needs no program; and then, with a lower priority, wrong
bodies of crates that are proved. A phase that needs a program begins once its crate is through. What a phase could not do
here comes last, by name: with CI=true that fails the gate (tools/gate_means.py).
"""
from __future__ import annotations

import os
import shutil
import signal
import subprocess
import sys
import time
from pathlib import Path

import build_program
import costs
import gate_means
import gate_progress
import tried
from gate_phases import Follower, Gate, Phase, Proofs, Row

TOP = Path(__file__).resolve().parent.parent
# The first of the last crates of the longest chain. This one and all above it get the jobs that are free.
LAST_FROM = "lanes"
# A check takes 1 to 4 GiB. `rt ci` reckons with more, and by itself leaves processors idle.
GIB_FOR_A_PROOF = 4
# So many processors are kept busy by one job a crate to the end.
FEW_PROCESSORS = 2
PROOFS, FIRST = "proofs", "first proofs"
# Other crates of the chain at which a run could be cut.
CUTS = ("script", LAST_FROM, "checkpoints", "wfserve_run")
# `programs` and the like need what the proofs of these crates leave in this tree.
PHASES = (
    Phase("quick", ("quick",), ends_all=True),
    Phase("edge", ("edge-build",), is_nice=True),
    Phase("tests", ("tests",), is_nice=True),
    Phase("programs", ("programs",), crates=("wfserve",)),
    Phase("clients", ("clients",), crates=("wfserve",)),
    Phase("sockets", ("edge-sockets",), crates=("wfserve",), after=("edge",)),
    Phase("hostile", ("hostile",), after=(PROOFS,)),
)


def runs_of_proofs(below: dict[str, list[str]], processors: int, gib: int, can_keep: bool, last_from: str = LAST_FROM) -> list[Proofs]:
    """The runs of `rt ci`. The last one is over all crates, and decides."""
    if "RT_JOBS" in os.environ or gib < GIB_FOR_A_PROOF * processors:
        return [Proofs(PROOFS)]
    one_job_each = ("RT_JOBS", str(processors))
    last = {last_from}
    for name in lowest_first(below):
        last |= {name} if last.intersection(below[name]) else set()
    first = tuple(name for name in below if name not in last)
    if processors <= FEW_PROCESSORS or not can_keep or len(first) == len(below):
        return [Proofs(PROOFS, variables=(one_job_each,))]
    # With CI=true it takes no names, since such a run isn't the gate.
    return [Proofs(FIRST, first, (one_job_each, ("CI", ""))), Proofs(PROOFS)]


def lowest_first(below: dict[str, list[str]]) -> list[str]:
    """All crates, each behind those that it stands on."""
    order: list[str] = []
    for name in below:
        if name not in order:
            build_program.needed(name, below, order)
    return order


def model_of(runs: list[Proofs], below: dict[str, list[str]], processors: int) -> gate_progress.Model:
    """What the runs of proofs are expected to take. Of two, the second one proves what the first one left."""
    order, stages = lowest_first(below), []
    for run in runs:
        names = [name for name in order if (name in run.crates or not run.crates) and not any(name in stage.crates for stage in stages)]
        stages.append(gate_progress.Stage(tuple(names), "RT_JOBS" not in {**os.environ, **dict(run.variables)}))
    return gate_progress.Model(stages, below, costs.read(TOP), processors, gate_progress.lines_of(TOP))


def reckoned(below: dict[str, list[str]]) -> str:
    """What the proofs take by the model, in minutes of the machine of tools/costs.txt, in one run and cut at each of these crates."""
    lines = []
    for processors in (2, 4, 8):
        one = gate_progress.Stage(tuple(lowest_first(below)), False)
        models = {"one run": gate_progress.Model([one], below, costs.read(TOP), processors, gate_progress.lines_of(TOP))}
        for cut in CUTS if processors > FEW_PROCESSORS else ():
            models[f"cut at {cut}"] = model_of(runs_of_proofs(below, processors, 1_000, True, cut), below, processors)
        lines.append(f"{processors} processors: " + ", ".join(f"{name} {model.left((), (), 0.0) / 60:.0f}" for name, model in models.items()))
    return "\n".join(lines)


def gib_free() -> int:
    """The memory that is free, in GiB."""
    lines = Path("/proc/meminfo").read_text(encoding="ascii").splitlines()
    return next((int(line.split()[1]) >> 20 for line in lines if line.startswith("MemAvailable:")), 0)


def keeps() -> bool:
    """Whether what one run of `rt ci` proves is kept for the next one: beside the toolchain, in a folder that can be written."""
    folder = Path(shutil.which("rt") or "/").resolve().parent.parent.parent / "rattle-kept"
    return os.access(folder if folder.is_dir() else folder.parent, os.W_OK)


def bodies_of(runs: list[Proofs]) -> list[Phase]:
    """The phases that try the wrong bodies that are due: of crates of the first run once that has passed, and of the others
    at the end. They are numbered as one run, whatever is noted meanwhile."""
    due = tried.due(TOP)
    for name, why in sorted(due.items()):
        print(f"gate: wrong bodies of {name} are due: {why}", flush=True)
    number, phases, left = str(tried.next_run(tried.read(TOP))), [], sorted(due)
    for run in runs:
        names = [name for name in left if name in run.crates or not run.crates]
        left = [name for name in left if name not in names]
        if names:
            words = ("bodies", "--run", number, *names)
            phases.append(Phase(f"wrong bodies after the {run.name}", words, after=(run.name,), is_nice=True))
    return phases


def table(rows: list[Row]) -> str:
    lines = [f"| {row.name} | {row.seconds / 60:.0f} | {row.result} |" for row in rows]
    return "\n".join(["", "| Phase | Minutes | Result |", "|---|---|---|", *lines])


def row_of(minutes: float, bodies: int, last: str) -> str:
    """A row of the gate's table in docs/MEASUREMENTS.md. The yardstick is the proof of one crate with one job, which the
    gate doesn't make: it stays to be filled in."""
    found = gate_progress.LAST.match(last)
    parts = f"{found[2]} of {int(found[1]) + int(found[2])}" if found else "ended early"
    tree = subprocess.run(["git", "describe", "--always", "--dirty"], cwd=TOP, capture_output=True, text=True).stdout.strip()
    spent = os.times()
    processors = (spent.user + spent.system + spent.children_user + spent.children_system) / 60
    return f"| {tree or 'unknown'} | not measured | {minutes:.0f} | {processors:.0f} | {bodies} | {parts} |"


def tell(gate: Gate, minutes: float, why_not_installed: str) -> int:
    """Says how all phases ended, and what could not be done. The status."""
    status, could_not = gate.status, [*gate.could_not]
    print(table(gate.rows))
    print(f"\nA row of the table in docs/MEASUREMENTS.md, The gate:\n{row_of(minutes, gate.bodies, gate.proofs.last)}")
    changed = subprocess.run(["git", "status", "--porcelain", "--", tried.KEPT], cwd=TOP, capture_output=True, text=True).stdout
    if changed:
        print(f"{tried.KEPT} says now what this run tried: commit it with what it ran over")
    if why_not_installed:
        print(f"gate: not all that the phases need was installed: {why_not_installed}")
    for what in could_not:
        print(f"{gate_means.COULD_NOT}{what}")
    if gate.is_over:
        print("gate: FAILED: the quick phase, and with it all ended")
    print(f"\n{gate.proofs.last}", end="", flush=True)
    return status


def main(words: list[str]) -> int:
    os.chdir(TOP)
    if words == ["--model"]:
        print(reckoned(build_program.lines_of_crates()[1]))
        return 0
    # Ended by a signal, it ends what it started.
    signal.signal(signal.SIGTERM, lambda *_: sys.exit(1))
    sys.stdout.reconfigure(errors="replace")
    began = time.monotonic()
    why_not_installed = gate_means.install()
    crates, below = build_program.lines_of_crates()
    processors = len(os.sched_getaffinity(0))
    runs = runs_of_proofs(below, processors, gib_free(), keeps())
    progress, model = gate_progress.Progress(crates), model_of(runs, below, processors)
    gate = Gate([*PHASES, *bodies_of(runs)], Follower(runs, progress, PROOFS), lambda: gate_progress.told(progress, model))
    gate.go()
    gate_progress.keep(progress, gate_progress.KEPT / "proofs.json")
    return tell(gate, (time.monotonic() - began) / 60, why_not_installed)


if __name__ == "__main__":
    sys.exit(main(sys.argv[1:]))
