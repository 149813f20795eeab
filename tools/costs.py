"""What each crate costs the gate: tools/costs.txt has the seconds of processor time of its proof, tests and programs.

They are of one machine: another one, or the same on another day, takes so many times as long for all of them, more or
less. So they say how a run's time is shared among crates, and how long it takes once some of it is through.
"""
from __future__ import annotations

from pathlib import Path

TOP = Path(__file__).resolve().parent.parent
KEPT = "tools/costs.txt"
# What a crate without a line is taken to cost.
UNKNOWN = 100.0


def read(top: Path = TOP) -> dict[str, float]:
    """The seconds of each crate. Those that were reckoned, and not timed, have `~`."""
    text = (top / KEPT).read_text(encoding="utf-8") if (top / KEPT).is_file() else ""
    lines = [line.split() for line in text.splitlines() if line.strip() and not line.startswith("#")]
    return {name: float(seconds.lstrip("~")) for name, seconds in lines}


def of_bodies(proof: float, count: int) -> float:
    """What so many wrong bodies of a crate cost: its check once more, and over that one for each and one after them.

    Of nine crates that were timed, with 3 to 14 wrong bodies, this is 0.85 to 1.1 of what they took.
    """
    return proof + (count + 1) * (10 + 0.08 * proof) if count else 0.0
