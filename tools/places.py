#!/usr/bin/env python3
"""Counts in how many files of crates and tests something stands that was added: a setting, a field of a start, a class of deadlines.

    tools/places.py            the table of docs/CHANGING.md, of recent ones
    tools/places.py --write    puts it there
    tools/places.py WORD..     each file that has one of these words, what it is, and how often it has them

A file whose places are all in parts that tools/generate.py writes counts as written by the table of fields, and is none of
the others. Words are counted as whole ones, also in comments. It needs Python 3.11, which reads TOML.
"""
from __future__ import annotations

import argparse
import collections
import re
import sys
from pathlib import Path
from typing import Iterator, NamedTuple

import generate

TOP = Path(__file__).resolve().parent.parent
SHOWN_IN = "docs/CHANGING.md"
SHOWN = re.compile(r"^\| What was added \|.*\n(?:\|.*\n)+", re.MULTILINE)
TESTS = re.compile(r"(_tests|_bench|_counter)$|^(line_floor|service_model_journal|service_model_answer)$")
KINDS = ("definitions", "code", "proofs", "tests and cases")
OF_FOLDER = {"specs": "definitions", "src": "code", "proofs": "proofs"}


class Added(NamedTuple):
    """Something that was added, and the words by which its places are known."""

    what: str
    words: tuple[str, ...]


RECENT = (
    Added("a setting: `retention`", ("retention",)),
    Added("a field of a start: `execution_timeout`", ("execution_timeout",)),
    Added("a class of deadlines: `ExecutionTimeout`", ("ExecutionTimeout",)),
)


class Place(NamedTuple):
    """A file that has such a word: what it is, how often, and how often outside of the parts that are generated."""

    path: str
    kind: str
    count: int
    by_hand: int


def kind_of(path: Path) -> str | None:
    """What a file below crates/ or tests/ is, by its crate and its folder: one of KINDS, or none of them."""
    if path.suffix not in (".rt", ".rs", ".antt", ".cases") or path.parts[2:3] == ("out",):
        return None
    if path.parts[0] == "tests" or TESTS.search(path.parts[1]):
        return "tests and cases"
    return OF_FOLDER.get(path.parts[2]) if len(path.parts) > 3 else None


def without_parts(text: str, parts: list[generate.Part]) -> str:
    """A file's text but for the parts that are generated."""
    for part in parts:
        place = generate.place_of(text, part)
        if place:
            text = text[:place[0]] + text[place[1]:]
    return text


def places(words: tuple[str, ...], parts: dict[str, list[generate.Part]], top: Path = TOP) -> Iterator[Place]:
    """The files below crates/ and tests/ that have one of these words."""
    looked_for = re.compile(rf"\b(?:{'|'.join(map(re.escape, words))})\b")
    for path in sorted(path for folder in ("crates", "tests") for path in (top / folder).rglob("*")):
        kind = kind_of(path.relative_to(top))
        if not kind:
            continue
        text, name = path.read_text(encoding="utf-8"), str(path.relative_to(top))
        count = len(looked_for.findall(text))
        if count:
            yield Place(name, kind, count, len(looked_for.findall(without_parts(text, parts.get(name, [])))))


def generated(top: Path = TOP) -> dict[str, list[generate.Part]]:
    """The parts that are generated, by their files."""
    parts = collections.defaultdict(list)
    for part in generate.parts_of(generate.read_table(top)):
        parts[part.path].append(part)
    return parts


def table(top: Path = TOP) -> list[str]:
    """A row for each that was added: how many files have it, by what they are."""
    parts = generated(top)
    rows = [f"| What was added | Files | written by the table | {' | '.join(KINDS)} |", f"|---|---|---|{'---|' * len(KINDS)}"]
    for added in RECENT:
        found = list(places(added.words, parts, top))
        by_hand = collections.Counter(place.kind for place in found if place.by_hand)
        cells = [len(found), len(found) - by_hand.total(), *(by_hand[kind] for kind in KINDS)]
        rows.append(f"| {added.what} | {' | '.join(map(str, cells))} |")
    return rows


def faults(text: str, top: Path = TOP) -> list[str]:
    """The rows that a text should have and hasn't."""
    lines = text.splitlines()
    return [f"a row that tools/places.py --write puts there is not there: {row}" for row in table(top) if row not in lines]


def write(rows: list[str], path: Path) -> None:
    """Puts the table in the place of the one that a document has."""
    text, count = SHOWN.subn("\n".join(rows) + "\n", path.read_text(encoding="utf-8"))
    if count != 1:
        raise LookupError(f"{path}: it has {count} such tables, and not one")
    path.write_text(text, encoding="utf-8")


def main(words: list[str]) -> int:
    options = argparse.ArgumentParser(
        prog="tools/places.py", description=__doc__, formatter_class=argparse.RawDescriptionHelpFormatter)
    options.add_argument("--write", action="store_true")
    options.add_argument("words", nargs="*", metavar="WORD")
    asked = options.parse_args(words)
    if asked.words:
        for place in places(tuple(asked.words), generated()):
            print(f"{place.count:4} {place.by_hand:4} by hand  {place.kind:16} {place.path}")
    elif asked.write:
        write(table(), TOP / SHOWN_IN)
    else:
        print("\n".join(table()))
    return 0


if __name__ == "__main__":
    sys.exit(main(sys.argv[1:]))
