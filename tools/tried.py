#!/usr/bin/env python3
"""Which wrong bodies a run of the gate tries: those of crates that have changed since all of theirs were refused, and
besides a quarter of the others, those that were tried longest ago.

    tools/tried.py             says which crates are due, and why; status 1 where the note can't be read or names a crate
                               that has no wrong bodies
    tools/tried.py --due       their names alone

A wrong body is a file `must-fail/*.md`. tools/tried.txt has a line for each crate of which all of them were refused, which
runs of the gate write: the crate's name; sums of its own files, of what they rest on in the crates below
(tools/rests_on.py), and of the toolchain's name, as they were then; the run's number; and the commit that it ran over,
with `+` where crates had changes that were not committed. Two runs over one commit try the same.
"""
from __future__ import annotations

import argparse
import fcntl
import hashlib
import shutil
import subprocess
import sys
from collections.abc import Iterable
from pathlib import Path
from typing import NamedTuple

import costs
from rests_on import Tree

TOP = Path(__file__).resolve().parent.parent
KEPT = "tools/tried.txt"
PARTS = ("src", "specs", "proofs", "must-fail")
# By how many runs each wrong body is tried, where no crate changes.
RUNS = 4
HEAD = (
    "# Written by runs of the gate, and committed with what they ran over. tools/tried.py says what it is.\n"
    "# crate, its own files, what they rest on below, toolchain, run, commit\n"
)
# What is said of a part of a sum that has changed.
CHANGED = {"own": "its own files have changed", "below": "what they rest on below has changed", "kit": "the toolchain has changed"}


class Sums(NamedTuple):
    """Sums of all that says whether a crate's wrong bodies are refused."""

    own: str
    below: str
    kit: str


class Tried(NamedTuple):
    """When all wrong bodies of a crate were refused: the sums, the run's number, and its commit."""

    sums: Sums
    run: int
    commit: str


def bodies_of(name: str, top: Path = TOP) -> list[Path]:
    """A crate's wrong bodies."""
    return sorted((top / "crates" / name / "must-fail").glob("*.md"))


def with_bodies(top: Path = TOP) -> list[str]:
    """The crates that have wrong bodies."""
    return sorted({path.parts[-3] for path in top.glob("crates/*/must-fail/*.md")})


def summed(parts: Iterable[bytes]) -> str:
    found = hashlib.sha256()
    for part in parts:
        found.update(hashlib.sha256(part).digest())
    return found.hexdigest()[:12]


def kit_of() -> str:
    """A sum of the toolchain's name, or `-` where there is none."""
    if not shutil.which("rt"):
        return "-"
    said = subprocess.run(["rt", "version"], stdin=subprocess.DEVNULL, capture_output=True, check=True)
    return summed([said.stdout.strip()])


def sums_of(name: str, tree: Tree, kit: str) -> Sums:
    """The sums of a crate as it is."""
    folder = tree.top / "crates" / name
    files = sorted(path for part in PARTS for path in (folder / part).rglob("*") if path.is_file())
    own = [tree.lines[name].encode()] + [part for file in files for part in (str(file.relative_to(folder)).encode(), file.read_bytes())]
    return Sums(summed(own), summed(part.encode() for pair in tree.reached(name) for part in pair), kit)


def read(top: Path = TOP) -> dict[str, Tried]:
    """What the note says of each crate. A line that is none of it is an error."""
    text = (top / KEPT).read_text(encoding="utf-8") if (top / KEPT).is_file() else ""
    found: dict[str, Tried] = {}
    for number, line in enumerate(text.splitlines(), 1):
        words = line.split()
        if not words or line.startswith("#"):
            continue
        if len(words) != 6 or not words[4].isdecimal() or words[0] in found:
            raise ValueError(f"{KEPT}:{number}: not a crate's name, three sums, a run's number and a commit, once for each crate: {line}")
        found[words[0]] = Tried(Sums(*words[1:4]), int(words[4]), words[5])
    return found


def write(found: dict[str, Tried], top: Path = TOP) -> None:
    lines = [f"{name} {' '.join(tried.sums)} {tried.run} {tried.commit}\n" for name, tried in sorted(found.items())]
    (top / KEPT).write_text(HEAD + "".join(lines), encoding="utf-8")


def note(sums: dict[str, Sums], commit: str, run: int = 0, top: Path = TOP) -> None:
    """Notes that all wrong bodies of these crates were refused, as they were with these sums, by the run of this number, or the
    next one. Lines of crates that have none any more go. Two may note at once."""
    if not sums:
        return
    with (top / KEPT).open("a", encoding="utf-8") as held:
        fcntl.flock(held, fcntl.LOCK_EX)
        found = read(top)
        run = run or next_run(found)
        found |= {name: Tried(those, run, commit) for name, those in sums.items()}
        names = with_bodies(top)
        write({name: tried for name, tried in found.items() if name in names}, top)


def next_run(found: dict[str, Tried]) -> int:
    """The number of the run after all that the note has."""
    return 1 + max([tried.run for tried in found.values()], default=0)


def commit_of(top: Path = TOP) -> str:
    """The commit of a tree, with `+` where its crates have other changes; `-` where it has none."""
    def git(*words: str) -> str:
        return subprocess.run(["git", *words], cwd=top, stdin=subprocess.DEVNULL, capture_output=True, text=True).stdout.strip()
    head = git("rev-parse", "--short=8", "HEAD")
    return (head + "+" * bool(git("status", "--porcelain", "--", "crates", "crates.txt"))) if head else "-"


def why_due(tried: Tried | None, now: Sums) -> str:
    """Why a crate's wrong bodies have to be tried, or nothing. Without a toolchain its part says nothing."""
    if tried is None:
        return "no run has tried them"
    parts = [part for part in Sums._fields if getattr(tried.sums, part) != getattr(now, part)]
    return ", ".join(CHANGED[part] for part in parts if part != "kit" or now.kit != "-")


def due(top: Path = TOP, tree: Tree | None = None, kit: str | None = None) -> dict[str, str]:
    """The crates whose wrong bodies the next run tries, and why."""
    tree, kit = tree or Tree(top), kit_of() if kit is None else kit
    names, found = with_bodies(top), read(top)
    changed = {name: why_due(found.get(name), sums_of(name, tree, kit)) for name in names}
    changed = {name: why for name, why in changed.items() if why}
    waiting = {name: found[name] for name in names if name not in changed}
    chosen = oldest(waiting, costs_of(names, top), next_run(found))
    return changed | {name: f"they were tried longest ago, by run {found[name].run}" for name in chosen}


def costs_of(names: list[str], top: Path = TOP) -> dict[str, float]:
    """What all wrong bodies of each crate cost, in seconds of tools/costs.txt."""
    known = costs.read(top)
    return {name: costs.of_bodies(known.get(name, costs.UNKNOWN), len(bodies_of(name, top))) for name in names}


def oldest(waiting: dict[str, Tried], cost: dict[str, float], run: int) -> list[str]:
    """Of the crates that haven't changed, those that were tried longest ago, as many as come closest to a quarter of all costs.

    One that would wait for a fifth run is among them whatever it costs."""
    order = sorted(waiting, key=lambda name: (waiting[name].run, name))
    share, chosen, spent = sum(cost.values()) / RUNS, [], 0.0
    for name in order:
        if waiting[name].run > run - RUNS and spent + cost[name] / 2 > share:
            break
        chosen.append(name)
        spent += cost[name]
    return chosen


def faults(top: Path = TOP) -> list[str]:
    """What is wrong with the note, and with the names of wrong bodies."""
    try:
        found = read(top)
    except ValueError as error:
        return [str(error)]
    names = with_bodies(top)
    lines = [f"{KEPT}: there is no crate {name} with wrong bodies" for name in found if name not in names]
    others = sorted(path for path in top.glob("crates/*/must-fail/*") if path.suffix != ".md")
    return lines + [f"{path.relative_to(top)}: a wrong body is a file NAME.md" for path in others]


def look(top: Path = TOP) -> int:
    """Says which crates are due, and what is wrong with the note. 1 where something is, and else 0."""
    wrong = faults(top)
    for fault in wrong:
        print(fault)
    if wrong:
        return 1
    kit = kit_of()
    if kit == "-":
        print("there is no rt here: whether the toolchain is another one now, isn't looked at")
    found = due(top, kit=kit)
    for name, why in sorted(found.items()):
        print(f"due: {name}, {len(bodies_of(name, top))} wrong bodies: {why}")
    print(f"the gate's next run tries the wrong bodies of {len(found)} of {len(with_bodies(top))} crates")
    return 0


def main(words: list[str]) -> int:
    options = argparse.ArgumentParser(
        prog="tools/tried.py", description=__doc__, formatter_class=argparse.RawDescriptionHelpFormatter)
    options.add_argument("--due", action="store_true")
    asked = options.parse_args(words)
    if not asked.due:
        return look()
    print("\n".join(sorted(due())))
    return 0


if __name__ == "__main__":
    sys.exit(main(sys.argv[1:]))
