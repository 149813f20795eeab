"""What words of a command line say: values for workflows, durations, moments."""

from __future__ import annotations

import argparse
import datetime
import json
import re
from typing import Any

UNITS = {"ms": 1, "s": 1_000, "m": 60_000, "h": 3_600_000, "d": 86_400_000}
DURATION = re.compile(r"(\d+(?:\.\d+)?)(ms|s|m|h|d)")


def value_of_word(word: str) -> Any:
    """A value: JSON where the word is JSON, and else the word as a text. So 42 is a number, and '"42"' a text."""
    try:
        return json.loads(word)
    except ValueError:
        return word


def duration(word: str) -> int:
    """The milliseconds of a word as 30s, 5m, 1.5h, 2d or 250ms."""
    found = DURATION.fullmatch(word)
    if found is None:
        raise argparse.ArgumentTypeError(f"{word} is no duration as 30s, 5m, 1.5h, 2d or 250ms")
    return round(float(found[1]) * UNITS[found[2]])


def moment(milliseconds: int) -> str:
    """A moment for people, in UTC."""
    at = datetime.datetime.fromtimestamp(milliseconds / 1_000, datetime.timezone.utc)
    return at.strftime("%Y-%m-%d %H:%M:%S.%f")[:-3] + "Z"


def span(milliseconds: int) -> str:
    """A duration for people, in its largest two units."""
    parts, left = [], max(milliseconds, 0)
    for unit, size in sorted(UNITS.items(), key=lambda it: -it[1]):
        if left >= size:
            parts.append(f"{left // size}{unit}")
            left %= size
    return " ".join(parts[:2]) or "0s"
