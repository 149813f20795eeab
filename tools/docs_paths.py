"""The files of crates that documents and comments of sources cite: `specs/Name`, `crate/specs/Name.word`,
`src/file.rt` and the like. Each is looked up in its crate.

A comment's crate is its file's, and a document's that of the table row where the path stands, unless the path names
one. Where none is named, some crate has to have the file.
"""
from __future__ import annotations

import re
from pathlib import Path
from typing import Iterator, NamedTuple

import docs_claims

COMMENT = {".rt": re.compile(r"^\s*//[/!]?(?: |$)(.*)"), ".antt": re.compile(r"^\s*--(?: |$)(.*)")}
FOLDERS = {"specs": ".antt", "proofs": ".antt", "src": ".rt", "must-fail": ".md"}
ENDS = tuple(FOLDERS.values())
CITED = re.compile(
    r"(?<![\w./*-])(?:crates/)?(?:(\w+)/)?(" + "|".join(FOLDERS) + r")/"
    r"(\{[^{}]*\}|[\w-]+(?:/[\w-]+)*)(?!\*)(\.(?:antt|rt|md)\b|\.\{[^{}]*\}|\.[A-Za-z_][\w'-]*)?"
)


class Cited(NamedTuple):
    """A place that a text cites: of a crate, or of any, names in a folder, and words that these define."""

    text: str
    crate: str
    folder: str
    names: list[str]
    words: list[str]


def comments_of(text: str, suffix: str) -> str:
    """The comments of a source, with a line's end only where code lies between them."""
    pattern, blocks, is_open = COMMENT[suffix], [], False
    for line in text.splitlines():
        found = pattern.match(line)
        if found:
            blocks.append(f" {found[1]}" if is_open else f"\n{found[1]}")
        is_open = bool(found)
    return "".join(blocks)


def without_comments(text: str, suffix: str) -> str:
    """The lines of a text that are no comments, where it is a source of a crate; else all of it."""
    pattern = COMMENT.get(suffix)
    return "\n".join(line for line in text.splitlines() if not pattern.match(line)) if pattern else text


def cited_in(text: str) -> Iterator[Cited]:
    """The places that a text cites."""
    for found in CITED.finditer(text):
        crate, folder, names, tail = found.groups(default="")
        words = [] if tail in ENDS else docs_claims.parts_of(tail[1:])
        listed = [name for name in docs_claims.parts_of(names) if name not in ("", "..")]
        yield Cited(found[0], crate, folder, listed, [word for word in words if word not in ("", "..")])


def places_of(cited: Cited, name: str, crate: str, top: Path) -> list[Path]:
    """The files and folders of a crate, or of any, that this name can mean."""
    folder, end = f"crates/{crate or '*'}/{cited.folder}", FOLDERS[cited.folder]
    patterns = [f"{folder}/{name}", f"{folder}/{name}{end}", f"{folder}/**/{name}{end}"]
    return [path for pattern in patterns for path in top.glob(pattern)]


def faults_of(cited: Cited, context: str, top: Path) -> list[str]:
    """What is not there of a cited place. Libraries of the toolchain are not looked at."""
    if cited.crate and cited.crate not in docs_claims.crates_of(top):
        return []
    crate, faults = cited.crate or context, []
    for name in cited.names:
        places = places_of(cited, name, crate, top)
        if not places:
            faults.append(f"no such file of {crate or 'any crate'}: {cited.folder}/{name} (in {cited.text})")
        files = [place for place in places if place.suffix == ".antt"]
        faults += [f"no such word in {cited.folder}/{name}: {word} (in {cited.text})"
                   for word in cited.words if files and not docs_claims.defines(files, word)]
    return faults


def faults_of_source(text: str, path: Path, top: Path) -> list[str]:
    """What the comments of a crate's source cite that isn't there."""
    context = path.relative_to(top / "crates").parts[0]
    return [fault for cited in cited_in(comments_of(text, path.suffix)) for fault in faults_of(cited, context, top)]


def crate_of_row(line: str, top: Path) -> str:
    """The crate that a row of a table is about: the first cell that is a crate's name, if one is."""
    cells = [cell.strip().strip("`") for cell in line.strip().strip("|").split("|")[:2]] if line.startswith("|") else []
    return next((cell for cell in cells if cell in docs_claims.crates_of(top)), "")


def faults_of_document(text: str, top: Path) -> list[str]:
    """What a document, without its blocks of code, cites of crates that isn't there."""
    return [fault for line in text.splitlines() for quoted in docs_claims.QUOTED.findall(line)
            for cited in cited_in(quoted) for fault in faults_of(cited, crate_of_row(line, top), top)]
