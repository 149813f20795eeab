#!/usr/bin/env python3
"""Checks what the documents cite: paths and links exist, names in back quotes stand in the tree.

    tools/check_docs.py        prints what isn't there, a line each, and fails if there is anything

A name in back quotes, of a document or of a comment in a source of a crate, is looked for word by word in all
files that are no documents, without such comments. A file or a lemma is looked up in its crate (docs_paths.py).
Names of the toolchain, of its libraries and of Temporal's SDK are listed in tools/known_names.txt. Each file of definitions says in its
first line whether it is meaning or proof. docs/ARCHITECTURE.md lists the former, and has the table that
lines_to_believe.py prints: on how many lines each promise rests. docs/CHANGING.md has the table of places.py: in how
many files something stands that was added.

docs/rules.ini says where each rule of docs/PROFILE.md stands, and docs/TRACE.md is written from it (docs_rules.py).
Each of these places has to be there. So have the rules that the head of a source file names. What else the documents
claim about crates, calls, clauses and options is looked up by docs_claims.py. A note says where they name another
toolchain than the one that is here. No text of the tree may hold what a merge leaves where two sides differ.

No sentence of a document has more than 40 words (readability.py), and none has a word that a stranger stumbles over
(plain_words.py), nor has a comment of a crate's source. Documents below crates/ are held to neither yet.
"""
from __future__ import annotations

import re
import shutil
import subprocess
import sys
from pathlib import Path

import docs_claims
import docs_paths
import docs_rules
import lines_to_believe
import places
import plain_words
import readability
from docs_claims import QUOTED
from docs_rules import KINDS, missing_beside_rules  # noqa: F401 (tests of the documents read KINDS here)

TOP = Path(__file__).resolve().parent.parent
ROOTS = ("bench/", "clients/", "crates/", "docs/", "examples/", "tools/")
NAME = re.compile(r"[A-Za-z_][\w.:/-]*")
BRACED = re.compile(r"[A-Za-z_][\w.:/-]*\{[\w, .-]*\}[\w.-]*")
IN_CRATE = re.compile(r"(\w+)/((?:src|data|must-fail)/[\w./-]+)")
WORD = re.compile(r"[A-Za-z_][\w-]*")
LINK = re.compile(r"\]\(([^)#\s]+)[^)]*\)")
ANCHOR = re.compile(r"\]\(([^)#\s]*)#([^)\s]+)\)")
HEADING = re.compile(r"^#+ (.+?)\s*$", re.MULTILINE)
MERGE = re.compile(r"^(?:<{7} .*|\|{7} .*|={7}|>{7} .*)$")


def tracked() -> list[Path]:
    """All files of the repository that git knows or would add."""
    listed = subprocess.run(
        ["git", "ls-files", "--cached", "--others", "--exclude-standard"],
        cwd=TOP, capture_output=True, text=True, check=True,
    )
    return [TOP / line for line in listed.stdout.splitlines() if (TOP / line).is_file()]


def is_wrong_body(file: Path) -> bool:
    """Whether a file is a wrong body, which ends as a document does."""
    return file.parent.name == "must-fail"


def left_of_merges(file: Path) -> list[str]:
    """The lines of a text that a merge left where its two sides differ."""
    try:
        lines = file.read_text().splitlines()
    except UnicodeDecodeError:
        return []
    return [f"line {number} is left of a merge: {line}"
            for number, line in enumerate(lines, 1) if MERGE.fullmatch(line)]


def words_of(files: list[Path]) -> set[str]:
    """All words that stand in the files, but for comments of sources, and the parts of their paths."""
    found: set[str] = set()
    for file in files:
        found.update(WORD.findall(str(file.relative_to(TOP))))
        try:
            found.update(WORD.findall(docs_paths.without_comments(file.read_text(), file.suffix)))
        except UnicodeDecodeError:
            pass
    return found


def is_path(name: str) -> bool:
    return name.startswith(ROOTS) and not any(letter in name for letter in "*<>{} ")


def is_there(name: str) -> bool:
    """Whether the file of a crate is there that a name like `shard/src/starts.rt` is of. Other names say no file."""
    found = IN_CRATE.fullmatch(name)
    return not found or any((TOP / "crates" / found[1] / f"{found[2]}{end}").exists() for end in ("", ".rt"))


def missing_of(quoted: str, words: set[str]) -> list[str]:
    """What is not there of a text in back quotes."""
    if is_path(quoted):
        return [] if (TOP / quoted).exists() else [f"no such path: {quoted}"]
    if not NAME.fullmatch(quoted) and not BRACED.fullmatch(quoted):
        return []
    names = docs_claims.expanded(quoted)
    return [f"no such file: {name} (in `{quoted}`)" for name in names if not is_there(name)] + [
        f"no such name: {word} (in `{quoted}`)"
        for name in names for word in WORD.findall(name) if word not in words
    ]


def slug(heading: str) -> str:
    """How a link names a heading: in small letters, a hyphen for each blank, and no other marks."""
    return re.sub(r"[^\w -]", "", heading.lower()).replace(" ", "-")


def wrong_anchors(document: Path, text: str) -> list[str]:
    """The links to headings, of this document or of another one, that aren't there."""
    faults = []
    for name, anchor in ANCHOR.findall(text):
        file = document.parent / name if name else document
        if not name.startswith("http") and file.suffix == ".md" and file.is_file():
            headings = {slug(heading) for heading in HEADING.findall(file.read_text(encoding="utf-8"))}
            faults += [] if anchor in headings else [f"no such heading: {name}#{anchor}"]
    return faults


def missing_in(document: Path, words: set[str]) -> list[str]:
    """What a document cites that isn't there."""
    text = re.sub(r"(?ms)^(```|    ).*?$", "", document.read_text())
    missing = wrong_anchors(document, text)
    for link in LINK.findall(text):
        if "://" not in link and not (document.parent / link).exists():
            missing.append(f"no such file: {link}")
    for quoted in QUOTED.findall(text):
        missing += missing_of(quoted, words)
    return missing + docs_claims.wrong_lemmas(text, TOP) + docs_paths.faults_of_document(text, TOP)


def missing_in_comments(source: Path, words: set[str]) -> list[str]:
    """What the comments of a crate's source cite that isn't there."""
    text = source.read_text()
    quoted = QUOTED.findall(docs_paths.comments_of(text, source.suffix))
    return [fault for name in quoted for fault in missing_of(name, words)] + docs_paths.faults_of_source(
        text, source, TOP)


def is_specification(file: Path) -> bool:
    """A file of definitions that clauses cite, of a crate that is no test's."""
    crate, folder = file.parts[-3:-1] if len(file.parts) > 3 else ("", "")
    return (file.suffix == ".antt" and folder == "specs" and file.name != "Lib.antt"
            and not crate.endswith(("_tests", "_bench")))


def wrong_markers(files: list[Path]) -> list[str]:
    """Files of definitions that don't say what they are, or aren't listed, and counts that are out of date."""
    specifications = [file for file in files if is_specification(file)]
    wrong = [f"{file.relative_to(TOP)}: its first line says neither MEANING nor INNER nor PROOF"
             for file in specifications if not file.read_text().startswith(("-- MEANING", "-- INNER", "-- PROOF"))]
    meaning = [file for file in specifications if file.read_text().startswith("-- MEANING")]
    architecture = (TOP / "docs/ARCHITECTURE.md").read_text()
    names = [str(file.relative_to(TOP / "crates").with_suffix("")) for file in meaning]
    unsaid = docs_claims.not_to_be_believed(architecture, names) + lines_to_believe.faults(architecture)
    uncounted = places.faults((TOP / "docs/CHANGING.md").read_text())
    return wrong + [f"docs/ARCHITECTURE.md: {fault}" for fault in unsaid] + [f"docs/CHANGING.md: {fault}" for fault in uncounted]


def hard_to_read(document: Path) -> list[str]:
    """What of a document is hard to read: its long sentences, and words that the field says in another way."""
    text = document.read_text(encoding="utf-8")
    long = [f"line {one.line}: a sentence of {one.words} words, more than {readability.MOST_WORDS}: {one.text[:60]}"
            for one in readability.too_long(text)]
    return long + [f"line {one.line}: {one.text}: write {one.better}" for one in plain_words.found_in(text)]


def kit_here() -> str:
    """What the toolchain says that it is, or nothing where it isn't there."""
    if not shutil.which("rt"):
        return ""
    return subprocess.run(["rt", "version"], capture_output=True, text=True, check=True).stdout


def faults_of_claims() -> list[str]:
    """What single documents claim of the code that isn't so."""
    claims = {
        "README.md": [docs_claims.wrong_promises],
        "docs/ARCHITECTURE.md": [docs_claims.crates_without_a_row],
        "docs/PROVED.md": [docs_claims.wrong_contracts, docs_claims.wrong_waits],
        "docs/PROFILE.md": [docs_claims.unnamed],
        "docs/TRACE.md": [missing_beside_rules],
    }
    return [f"{name}: {fault}" for name, looks in claims.items() for look in looks
            for fault in look((TOP / name).read_text(), TOP)]


def other_kits(documents: list[Path]) -> list[str]:
    """Documents that name another toolchain than the one that is here. That is no fault: what was proved with the
    one they name was proved with it, and the gate says what passes with this one."""
    kit = kit_here()
    return [f"{document.relative_to(TOP)}: {kit_named}" for document in documents if kit
            for kit_named in docs_claims.other_kits(document.read_text(), kit)]


def unplain_comments(file: Path) -> list[str]:
    """Words in the comments of a crate's source that a stranger stumbles over."""
    comments = plain_words.comments_by_line(file.read_text(encoding="utf-8"), file.suffix)
    return [f"line {one.line}: {one.text}: write {one.better}" for one in plain_words.found_in(comments)]


def main() -> int:
    files = tracked()
    documents = [file for file in files if file.suffix == ".md" and not is_wrong_body(file)]
    known = (TOP / "tools/known_names.txt").read_text().split()
    sources = [file for file in files if file not in documents and file.name != "rules.ini"]
    words = words_of(sources).union(known)
    faults = [f"{file.relative_to(TOP)}: {fault}" for file in files for fault in left_of_merges(file)]
    faults += wrong_markers(files) + docs_rules.faults() + faults_of_claims()
    faults += [f"{document.relative_to(TOP)}: {fault}" for document in readability.documents()
               for fault in hard_to_read(document)]
    faults += [f"{file.relative_to(TOP)}: {fault}" for file in files if file.suffix == ".rt"
               for fault in docs_claims.wrong_heads(file.read_text(), TOP, docs_rules.code_name(file))]
    faults += [f"{document.relative_to(TOP)}: {fault}"
               for document in documents for fault in missing_in(document, words)]
    faults += [f"{file.relative_to(TOP)}: {fault}" for file in files
               if file.suffix in docs_paths.COMMENT and TOP / "crates" in file.parents
               for fault in missing_in_comments(file, words) + unplain_comments(file)]
    for note in other_kits(documents):
        print(f"note: {note}", file=sys.stderr)
    for fault in faults:
        print(fault)
    if faults:
        print(f"faults of the documents: {len(faults)}", file=sys.stderr)
    return 1 if faults else 0


if __name__ == "__main__":
    sys.exit(main())
