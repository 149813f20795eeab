"""What `wf` prints: tables for people, JSON for programs."""

from __future__ import annotations

import json
from typing import Any, List, Sequence

# What a terminal takes for more than text is shown as its number.
CONTROLS = {number: f"\\x{number:02x}" for number in (*range(32), *range(127, 160))}


def plain(text: Any) -> str:
    """A text that came from anywhere, on one line and without what moves a terminal's cursor."""
    return str(text).translate(CONTROLS)


def print_json(value: Any) -> None:
    """A value as JSON on one line."""
    print(json.dumps(value, ensure_ascii=False))


def print_table(heads: Sequence[str], rows: Sequence[Sequence[Any]]) -> None:
    """Rows under their heads, each column as wide as it has to be."""
    texts: List[List[str]] = [list(heads), *[[plain(cell) for cell in row] for row in rows]]
    widths = [max(len(row[column]) for row in texts) for column in range(len(heads))]
    for row in texts:
        print("  ".join(cell.ljust(width) for cell, width in zip(row, widths)).rstrip())


def print_pairs(pairs: Sequence[Sequence[Any]]) -> None:
    """Names and values, without those that say nothing."""
    said = [(str(name), plain(value)) for name, value in pairs if value not in (None, "")]
    width = max((len(name) for name, _ in said), default=0)
    for name, value in said:
        print(f"{name.ljust(width)}  {value}")
