#!/usr/bin/env python3
"""Lists the crates that stand above one: those that are proved anew when its definitions or contracts change.

    tools/above.py CRATE        lowest first, each with the seconds that docs/MEASUREMENTS.md has for it

The seconds are of one machine, with one job: read them as parts of the sum. A crate without a row of its own there
is one of the small ones, and has `-`. A change of bodies alone, whose contracts stay, opens no crate above.
"""
from __future__ import annotations

import difflib
import sys
from typing import NamedTuple

import build_program
import docs_claims

MEASURED = build_program.ROOT / "docs" / "MEASUREMENTS.md"
HEAD = ["Crate", "Proof", "Checks once more"]


class Seconds(NamedTuple):
    """What a crate takes: its proof, and with it its wrong bodies, tests and programs. A part may be unknown."""

    proof: int | None
    whole: int | None


def number(cell: str) -> int | None:
    digits = cell.replace(",", "")
    return int(digits) if digits.isdigit() else None


def measured(text: str) -> dict[str, Seconds]:
    """The seconds of each crate that has a row of its own in the table of the gate."""
    rows = docs_claims.table_with(text, HEAD)
    return {row[0]: Seconds(number(row[1]), number(row[-1])) for row in rows if row[0].isidentifier()}


def above(crate: str, below: dict[str, list[str]]) -> list[str]:
    """The crates that stand on this one, over however many others, lowest first."""
    return above_all([crate], below)


def above_all(crates: list[str], below: dict[str, list[str]]) -> list[str]:
    """The crates that stand on one of these and are none of them, lowest first."""
    order: list[str] = []
    for name in below:
        if name not in order:
            build_program.needed(name, below, order)
    standing = {*crates}
    for name in order:
        if standing.intersection(below[name]):
            standing.add(name)
    return [name for name in order if name in standing and name not in crates]


def shown(seconds: int | None) -> str:
    return "-" if seconds is None else f"{seconds:,}"


def table(names: list[str], known: dict[str, Seconds]) -> list[str]:
    """A line for each crate, and their sums."""
    rows = [(name, known.get(name, Seconds(None, None))) for name in names]
    lines = [f"{'crate':24}{'proof, s':>10}{'all of it, s':>14}"]
    lines += [f"{name:24}{shown(seconds.proof):>10}{shown(seconds.whole):>14}" for name, seconds in rows]
    proofs = sum(seconds.proof or 0 for _, seconds in rows)
    wholes = sum(seconds.whole or 0 for _, seconds in rows)
    unknown = sum(1 for _, seconds in rows if seconds.whole is None)
    return lines + [f"{'together':24}{proofs:>10,}{wholes:>14,}", f"without figures: {unknown} of {len(rows)} crates"]


def main(words: list[str]) -> int:
    _, below = build_program.lines_of_crates()
    if words in (["-h"], ["--help"]):
        print(__doc__.strip())
        return 0
    if len(words) != 1:
        print("usage: tools/above.py CRATE", file=sys.stderr)
        return 2
    crate = words[0]
    if crate not in below:
        near = difflib.get_close_matches(crate, below, 3)
        hint = f"; did you mean {' or '.join(near)}?" if near else ""
        print(f"above: crates.txt has no crate {crate}{hint}", file=sys.stderr)
        return 2
    names = above(crate, below)
    print(f"{len(names)} of {len(below)} crates stand above {crate}" + (", lowest first:" if names else ""))
    if names:
        print("\n".join(table(names, measured(MEASURED.read_text(encoding="utf-8")))))
    return 0


if __name__ == "__main__":
    sys.exit(main(sys.argv[1:]))
