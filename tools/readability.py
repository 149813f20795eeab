#!/usr/bin/env python3
"""How long the sentences of the documents are.

    tools/readability.py [FILE..] [--over WORDS]    a line for each document, and each sentence of more words (40)

Without a file it looks at all Markdown files of the repository but those below crates/. A sentence ends at a full
stop, a question mark or an exclamation mark, and with its paragraph, its item of a list or its cell of a table. A text
in back quotes counts as one word, and a link as the words of its text. Headings, pictures and code are no sentences.
The status is 1 where a sentence is longer than the limit.
"""
from __future__ import annotations

import argparse
import re
import statistics
import subprocess
import sys
from pathlib import Path
from typing import Iterator, NamedTuple

TOP = Path(__file__).resolve().parent.parent
MOST_WORDS = 40
FENCE = re.compile(r"^\s*```")
ITEM = re.compile(r"^\s*(?:[-*]|\d+\.)\s+")
# After a mark, a closing bracket, quote or emphasis may stand; what comes next begins no lower-case word's middle.
END = re.compile(r"(?<=[.?!])[)\"*_]*\s+")
CODE = re.compile(r"`[^`]*`")
LINK = re.compile(r"\[([^\]]*)\]\([^)]*\)")
WORD = re.compile(r"\w+(?:['.,-]\w+)*")


class Sentence(NamedTuple):
    """A sentence of a document: the line where its paragraph begins (from 1), its words, and its text."""

    line: int
    words: int
    text: str


def is_code(line: str) -> bool:
    """Whether a line belongs to a block of code by its four blanks. An item's further paragraph has two or three."""
    return line.startswith("    ") and not ITEM.match(line)


def paragraphs(text: str) -> Iterator[tuple[int, str]]:
    """The paragraphs, items and cells of a document, each with the line where it begins."""
    begun, held, is_fenced = 0, [], False
    for number, line in enumerate([*text.splitlines(), ""], 1):
        if FENCE.match(line):
            is_fenced = not is_fenced
        is_apart = is_fenced or FENCE.match(line) or is_code(line) or line.startswith(("#", "|"))
        if held and (is_apart or not line.strip() or ITEM.match(line)):
            yield begun, " ".join(held)
            held = []
        if not is_apart and line.strip():
            begun = begun if held else number
            held.append(ITEM.sub("", line).strip())
        if line.startswith("|") and not is_fenced and set(line) - set("|-: "):
            yield from ((number, cell.strip()) for cell in line.strip().strip("|").split("|"))


def words_of(sentence: str) -> int:
    """How many words a sentence has. A text in back quotes is one."""
    return len(WORD.findall(LINK.sub(r"\1", sentence)))


def sentences(text: str) -> list[Sentence]:
    """The sentences of a document, in order."""
    return [
        Sentence(line, words_of(part), part)
        for line, paragraph in paragraphs(text)
        for part in END.split(CODE.sub("X", paragraph))
        if words_of(part)
    ]


def too_long(text: str, most: int = MOST_WORDS) -> list[Sentence]:
    """The sentences of a document that have more words than this."""
    return [sentence for sentence in sentences(text) if sentence.words > most]


def documents() -> list[Path]:
    """The documents that are held to the limit: all Markdown files that git knows or would add, but those below
    crates/, which are sources' own."""
    listed = subprocess.run(["git", "ls-files", "--cached", "--others", "--exclude-standard", "*.md"],
                            cwd=TOP, capture_output=True, text=True, check=True)
    return [TOP / name for name in listed.stdout.splitlines()
            if (TOP / name).is_file() and not name.startswith("crates/")]


def main(words: list[str]) -> int:
    options = argparse.ArgumentParser(
        prog="tools/readability.py", description=__doc__, formatter_class=argparse.RawDescriptionHelpFormatter)
    options.add_argument("files", nargs="*", type=Path, metavar="FILE")
    options.add_argument("--over", type=int, default=MOST_WORDS, metavar="WORDS")
    asked = options.parse_args(words)
    found = 0
    for file in asked.files or documents():
        text = file.read_text(encoding="utf-8")
        lengths = [sentence.words for sentence in sentences(text)] or [0]
        name = file.resolve()
        name = name.relative_to(TOP) if name.is_relative_to(TOP) else file
        print(f"{name}: {len(lengths)} sentences, half of them of at most {statistics.median(lengths):.0f} words, "
              f"the longest of {max(lengths)}")
        for sentence in too_long(text, asked.over):
            found += 1
            print(f"  line {sentence.line}, {sentence.words} words: {sentence.text[:100]}")
    return 1 if found else 0


if __name__ == "__main__":
    sys.exit(main(sys.argv[1:]))
