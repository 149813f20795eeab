#!/usr/bin/env python3
"""Words of this project that a stranger stumbles over, and the field's words for them.

    tools/plain_words.py                      lists them in the documents
    tools/plain_words.py --comments PATH..    lists them in the comments of the sources there
    tools/plain_words.py .. --count           says only how often each stands there
    tools/plain_words.py .. --write           puts the field's word where one word always fits, and lists the others

Texts in back quotes, blocks of code and addresses are left alone: they name what is in the tree. The status is 1
where a word is left. tools/check_docs.py holds the documents to this list; those below crates/ are sources' comments.
"""
from __future__ import annotations

import argparse
import collections
import re
import sys
from pathlib import Path
from typing import Callable, Iterator, NamedTuple

import docs_paths
import readability



class Word(NamedTuple):
    """A word to avoid: what finds it, what to write, and the one text that always fits, if there is one."""

    pattern: re.Pattern[str]
    better: str
    always: str | None = None


def word(pattern: str, better: str, always: str | None = None) -> Word:
    """A word to avoid. Where its pattern has a blank, a line may end."""
    spaced = pattern.replace(" ", r"\s+")
    return Word(re.compile(rf"\b(?:{spaced})\b", re.IGNORECASE), better, always)


# Of place, `behind` is plain English: behind a gate, a box, a lock or a flag.
PLACE = (r"behind(?! (?:(?:a|an|the|one|its|their|each|that) )?"
         r"(?:gates?\b|box(?:es)?\b|`Mutex`|mutex\b|locks?\b|proxy\b|flag\b))")
WORDS = (
    word(PLACE, "after"),
    word(r"(?:tak(?:e|es|ing|en)|took) (?:\w+ ){0,4}away", "delete (a run), remove (anything else)"),
    word(r"for want of memory", "out of memory, when memory runs out", "when memory runs out"),
    word(r"want of memory", "out of memory"),
    word(r"held back", "buffered", "buffered"),
    word(r"h(?:old|olds|olding|eld) (?:\w+ ){0,2}back", "buffer, buffered"),
    word(r"(?:say|says|said|saying) of", "report on, say about"),
    word(r"by the machine", "depending on the machine"),
    word(r"left away", "dropped, left out", "dropped"),
    word(r"(?:left|leave|leaves|leaving) (?:\w+ ){0,2}away", "drop, leave out"),
    word(r"call(?:s|ed|ing)? (?:\w+ ){0,2}off", "cancel"),
)


class Found(NamedTuple):
    """A word that was found: in which line (from 1), as it stands there, and what to write."""

    line: int
    text: str
    better: str


def plain_parts(text: str) -> Iterator[tuple[int, int]]:
    """Where a text is prose: between texts in back quotes, addresses of links and blocks of code."""
    begun = 0
    for left_alone in re.finditer(r"(?ms)^\s*```.*?^\s*```$|^    [^\n]*$|`[^`\n]*`|\]\([^)\s]*\)", text):
        yield begun, left_alone.start()
        begun = left_alone.end()
    yield begun, len(text)


def found_in(text: str) -> list[Found]:
    """The words of the list that stand in the prose of a text, in their order."""
    masked = list(re.sub(r"[^\n]", "\0", text))
    for begin, end in plain_parts(text):
        masked[begin:end] = text[begin:end]
    # What stands after a word may be in back quotes, as in "behind a `Mutex`".
    prose = "".join(masked)
    hits = [(hit.start(), hit[0], one.better) for one in WORDS for hit in one.pattern.finditer(text)
            if prose[hit.start():hit.end()] == hit[0]]
    kept: list[tuple[int, str, str]] = []
    for start, hit, better in sorted(hits, key=lambda one: (one[0], -len(one[1]))):
        if not kept or start >= kept[-1][0] + len(kept[-1][1]):
            kept.append((start, hit, better))
    return [Found(text.count("\n", 0, start) + 1, hit, better) for start, hit, better in kept]


def replaced(text: str) -> str:
    """The text with the field's word wherever one word always fits."""
    parts, at = [], 0
    for begin, end in plain_parts(text):
        part = text[begin:end]
        for one in WORDS:
            if one.always is not None:
                part = one.pattern.sub(one.always, part)
        parts += [text[at:begin], part]
        at = end
    return "".join(parts)


def replaced_in_comments(text: str, suffix: str) -> str:
    """A source with the field's words in its comments. Code stays as it is."""
    lines = text.splitlines(keepends=True)
    return "".join(replaced(line) if docs_paths.COMMENT[suffix].match(line.rstrip("\n")) else line for line in lines)


def comments_by_line(text: str, suffix: str) -> str:
    """The comments of a source, each in its line, and empty lines in the place of code."""
    matches = (docs_paths.COMMENT[suffix].match(line) for line in text.splitlines())
    return "\n".join(found[1].strip() if found else "" for found in matches)


def sources(paths: list[Path]) -> list[Path]:
    """The sources of crates at or below these paths, and the documents beside them, without what builds left there."""
    found = [path for given in paths for path in ([given] if given.is_file() else sorted(given.rglob("*")))]
    return [path for path in found if path.suffix in (*docs_paths.COMMENT, ".md") and "out" not in path.parts]


def main(words: list[str]) -> int:
    options = argparse.ArgumentParser(
        prog="tools/plain_words.py", description=__doc__, formatter_class=argparse.RawDescriptionHelpFormatter)
    options.add_argument("--comments", nargs="+", type=Path, metavar="PATH")
    options.add_argument("--count", action="store_true")
    options.add_argument("--write", action="store_true")
    asked = options.parse_args(words)
    counts: collections.Counter[str] = collections.Counter()
    for file in sources(asked.comments) if asked.comments else readability.documents():
        text, is_source = file.read_text(encoding="utf-8"), file.suffix in docs_paths.COMMENT
        change: Callable[[str], str] = (
            (lambda old, end=file.suffix: replaced_in_comments(old, end)) if is_source else replaced)
        if asked.write and change(text) != text:
            text = change(text)
            file.write_text(text, encoding="utf-8")
        for hit in found_in(comments_by_line(text, file.suffix) if is_source else text):
            counts[hit.text.lower()] += 1
            if not asked.count:
                print(f"{file}:{hit.line}: {hit.text}: write {hit.better}")
    for hit, number in sorted(counts.items()) if asked.count else ():
        print(f"{number:6} {hit}")
    print(f"{sum(counts.values())} words that a stranger stumbles over", file=sys.stderr)
    return 1 if counts else 0


if __name__ == "__main__":
    sys.exit(main(sys.argv[1:]))
