#!/usr/bin/env python3
"""Counts how many lines of definitions each promise rests on.

    tools/lines_to_believe.py                     prints the table that docs/ARCHITECTURE.md has
    tools/lines_to_believe.py --write             puts it there, in the place of the one that is there
    tools/lines_to_believe.py --files PROMISE     the files that a promise reaches, with their lines, most first
    tools/lines_to_believe.py --unreached         the definitions of meaning that no promise reaches

A promise begins with definitions by name, or with the clauses of public calls. From there each word is followed to
the definition that it names, through the `specs` files of all crates. What counts are the lines of files marked
MEANING, without imports, comments and blank lines. A word that is the name of a definition and of something local
counts as the definition, so a count may be some lines too high and is never too low.
"""
from __future__ import annotations

import argparse
import collections
import re
import sys
from pathlib import Path
from typing import Iterable, Iterator, NamedTuple

import docs_claims

TOP = Path(__file__).resolve().parent.parent
SHOWN_IN = "docs/ARCHITECTURE.md"
SHOWN = re.compile(r"^\| What is promised \|.*\n(?:\|.*\n)*", re.MULTILINE)
ARROW = "◌"
DEFINED = re.compile(r"( *)(?:(?:abbrev|unfoldable) )?pub (?:(?:record|data) )?(?!mod |use )(\S+)")
PRIVATE = re.compile(r"( *)([A-Za-z_][\w'-]*) : ")
MODULE = re.compile(r"( *)module _ ")
MAKER = re.compile(r" +([A-Z]\w*) : ")
FIELD = re.compile(r"^ +pub (\w+) :", re.MULTILINE)
IMPORT = re.compile(
    r"^ *(?:ghost )?(pub )?use Rattle\.(\w+)\.specs\.(\w+)(?:\.\{([^}]*)\}| as (\w+))?;?$", re.MULTILINE)
TOKEN = re.compile(r"[A-Za-z_][\w'-]*|[^\w\s(){}\[\];,.]+")
MEMBER = re.compile(r"\b(\w+)\.([A-Za-z_][\w'-]*)")
TRAIT = re.compile(r"^pub trait .*?^\}", re.MULTILINE | re.DOTALL)
MODEL = re.compile(r"^impl(?:<[^{]*?>)? Model for.*?^\}", re.MULTILINE | re.DOTALL)


class Name(NamedTuple):
    """A definition's crate, its file in that crate's `specs`, and its name there."""

    crate: str
    file: str
    word: str

    def __str__(self) -> str:
        return f"{self.crate}/{self.file}: {self.word}"


class Calls(NamedTuple):
    """The public calls of crates with which a promise begins: those of these names, or all but some."""

    crates: tuple[str, ...]
    names: tuple[str, ...] = ()
    but: tuple[str, ...] = ()


class Promise(NamedTuple):
    """A promise, and with what it begins: calls, and definitions written as `crate/File: word`."""

    title: str
    roots: tuple[Calls | str, ...]


HANDED_OUT = ("try_hand_out", "hand_out", "survey", "has_seen_all")
LAWS_OF_SERVICE = ("histories_are_in_order",)
HEADLINE = (
    "service/Headline: LeavesARecord", "service/Headline: IsSequential", "service/Headline: MeetAndAgree",
)
LAWS = (
    Calls(("service_model", "service_model_laws")), Calls(("service",), LAWS_OF_SERVICE),
    "script/OpeningLaws: OpensEmpty", "script/RecordLaws: RecordsGrow", "script/RecordLaws: RecordsTellContents",
    "script/RecordLaws: RecordsTellSteps",
)
PROMISES = (
    Promise("the headline, sentence by sentence", HEADLINE),
    Promise("the calls of a service", (Calls(("service",), but=HANDED_OUT + LAWS_OF_SERVICE),)),
    Promise("records that are handed out, and one moment of all shards", (Calls(("service",), HANDED_OUT),)),
    Promise("a script of one lane", (Calls(("script",), ("run_one", "run_from", "run_resumed", "print_trace")),)),
    Promise("a script of several lanes", (Calls(("lanes",), ("run_lanes", "run_lanes_from", "run_lanes_resumed")),)),
    Promise("records: their text, reading it, and the one history of several",
            (Calls(("task_token", "wire_record_steps", "record_text", "trace_text", "history", "service_history")),)),
    Promise("the file of a journal", (Calls(("journal_disk", "journal_frames", "journal_file")),)),
    Promise("a script with a journal, and what is found in one",
            (Calls(("script",), ("run_journaled", "run_resumed_journaled")), Calls(("journal_text",)))),
    Promise("the same of several lanes", (Calls(("lanes",), ("run_lanes_journaled", "run_lanes_resumed_journaled")),)),
    Promise("snapshots, and services that go on from them",
            (Calls(("wire_record_events", "snapshot_pieces", "shard_snapshot", "snapshot_writing", "checkpoint_history", "checkpoints")),)),
    Promise("the command line", (Calls(("script_settings", "wfserve_run")),)),
    Promise("laws of the definitions", LAWS),
)


class Scope:
    """What the words of a file may name: definitions that it imports by name, and whole files by another one.

    It hands on the imports that it makes public, and the makers of its `data`, each of which names its type."""

    def __init__(self, text: str):
        self.names: dict[str, Name] = {}
        self.files: dict[str, tuple[str, str]] = {}
        self.handed_on: dict[str, Name] = {}
        for is_public, crate, file, listed, alias in IMPORT.findall(text):
            if not listed:
                self.files[alias or file] = (crate, file)
            for item in docs_claims.parts_of(listed):
                there, _, here = item.partition(" as ")
                self.names[here or there] = Name(crate, file, there)
                if is_public:
                    self.handed_on[here or there] = Name(crate, file, there)

    def cited(self, text: str) -> Iterator[Name]:
        """The definitions that a text names by what the file imports."""
        tokens = tokens_of(text)
        for word, name in self.names.items():
            if is_used(word, tokens):
                yield name
        for alias, word in MEMBER.findall(text):
            if alias in self.files:
                yield Name(*self.files[alias], word)


def tokens_of(text: str) -> set[str]:
    """The words and operators of a text, without the names of fields that are read or declared."""
    return set(TOKEN.findall(FIELD.sub("", re.sub(r"(?<=\w)\.[A-Za-z_][\w'-]*", "", text))))


def is_used(word: str, tokens: set[str]) -> bool:
    """Whether a name is among tokens: an operator by all of its parts."""
    return all(part in tokens for part in word.split(ARROW) if part)


def blocks_of(text: str) -> Iterator[tuple[str, list[str]]]:
    """The definitions of a file with their lines. The head of a module of parameters is one named `module`.

    A definition ends where a line that is indented no deeper than its first one begins another."""
    word, lines, depth = "", [], 0
    for line in text.splitlines():
        if not line.strip() or line.lstrip().startswith(("--", "use ", "pub use ")):
            continue
        module = MODULE.match(line)
        begun = DEFINED.match(line) or PRIVATE.match(line)
        if module or (begun and (not word or len(begun[1]) <= depth or word == "module")):
            if word:
                yield word, lines
            word, lines, depth = ("module", [], len(module[1])) if module else (begun[2], [], len(begun[1]))
        lines.append(line)
    if word:
        yield word, lines


class Definitions:
    """All definitions of the crates that are no tests, and which of them each one names."""

    def __init__(self, top: Path = TOP):
        self.top = top
        self.texts: dict[Name, str] = collections.defaultdict(str)
        self.sizes: collections.Counter[Name] = collections.Counter()
        self.meaning: set[tuple[str, str]] = set()
        self.scopes: dict[tuple[str, str], Scope] = {}
        self.words: dict[tuple[str, str], list[str]] = collections.defaultdict(list)
        for path in sorted(top.glob("crates/*/specs/*.antt")):
            crate = path.parent.parent.name
            if path.name != "Lib.antt" and not crate.endswith(("_tests", "_bench")):
                self.read(crate, path.stem, path.read_text(encoding="utf-8"))

    def read(self, crate: str, file: str, text: str) -> None:
        self.scopes[crate, file] = Scope(text)
        if text.startswith("-- MEANING"):
            self.meaning.add((crate, file))
        for word, lines in blocks_of(text):
            name = Name(crate, file, word)
            self.texts[name] += "\n".join(lines) + "\n"
            self.sizes[name] += len(lines)
            if lines[0].lstrip().startswith("pub data "):
                makers = [found[1] for found in map(MAKER.match, lines[1:]) if found]
                self.scopes[crate, file].handed_on.update(dict.fromkeys(makers, name))
            self.words[crate, file].append(word)

    def found(self, name: Name) -> Name | None:
        """Where a definition stands that is imported by this name."""
        while name not in self.texts:
            handed_on = self.scopes[name[:2]].handed_on if name[:2] in self.scopes else {}
            if name.word not in handed_on:
                return None
            name = handed_on[name.word]
        return name

    def named_by(self, name: Name) -> Iterator[Name]:
        """The definitions that one names, in its own file and in others."""
        text, tokens, scope = self.texts[name], tokens_of(self.texts[name]), self.scopes[name[:2]]
        for word in (*self.words[name[:2]], *scope.handed_on):
            if word == "module" or is_used(word, tokens):
                yield name._replace(word=word)
        yield from scope.cited(text)

    def reached(self, roots: Iterable[Name]) -> set[Name]:
        """The roots, and all that they name."""
        seen: set[Name] = set()
        waiting = list(roots)
        while waiting:
            name = self.found(waiting.pop())
            if name and name not in seen:
                seen.add(name)
                waiting += self.named_by(name)
        return seen

    def lines(self, names: Iterable[Name]) -> int:
        """How many lines of meaning these definitions have."""
        return sum(self.sizes[name] for name in names if name[:2] in self.meaning)

    def roots_of(self, promise: Promise) -> Iterator[Name]:
        """The definitions with which a promise begins. A call or a definition that isn't there is an error."""
        for root in promise.roots:
            if isinstance(root, Calls):
                for crate in root.crates:
                    yield from self.cited_by_calls(crate, root.names, root.but)
                continue
            place, _, word = root.partition(": ")
            found = self.found(Name(*place.split("/"), word))
            if not found:
                raise LookupError(f"no such definition: {root}")
            yield found

    def cited_by_calls(self, crate: str, names: tuple[str, ...], but: tuple[str, ...] = ()) -> Iterator[Name]:
        """What the clauses of public calls name: of these, or of all but some with the crate's traits and models."""
        missing = {*names, *but}
        for text in docs_claims.sources_of(crate, self.top):
            heads = [] if names else [found[0] for look in (TRAIT, MODEL) for found in look.finditer(text)]
            for head in docs_claims.HEAD.finditer(text):
                if head[1] == "pub ":
                    missing.discard(head[2])
                if head[1] == "pub " and head[2] not in but and (not names or head[2] in names):
                    heads.append(docs_claims.head_of(text[head.start():]))
            yield from Scope(text).cited("\n".join(heads))
        if missing:
            raise LookupError(f"no such call of {crate}: {', '.join(sorted(missing))}")


def table(definitions: Definitions) -> list[str]:
    """The table of all promises: what each reaches, and what it reaches with those above it."""
    rows = ["| What is promised | Lines | With those above |", "|---|---|---|"]
    together: set[Name] = set()
    for promise in PROMISES:
        reached = definitions.reached(definitions.roots_of(promise))
        together |= reached
        rows.append(f"| {promise.title} | {definitions.lines(reached):,} | {definitions.lines(together):,} |")
    every = definitions.lines(definitions.texts)
    return rows + [f"| what none of these reaches | {every - definitions.lines(together):,} | {every:,} |"]


def faults(text: str, top: Path = TOP) -> list[str]:
    """The rows that a text should have and hasn't."""
    try:
        rows = table(Definitions(top))
    except LookupError as missing:
        return [f"tools/lines_to_believe.py: {missing.args[0]}"]
    lines = text.splitlines()
    return [f"a row that tools/lines_to_believe.py --write puts there is not there: {row}"
            for row in rows if row not in lines]


def write(rows: list[str], path: Path) -> None:
    """Puts the table in the place of the one that a document has."""
    text, count = SHOWN.subn("\n".join(rows) + "\n", path.read_text(encoding="utf-8"))
    if count != 1:
        raise LookupError(f"{path}: it has {count} tables of promises, and not one")
    path.write_text(text, encoding="utf-8")


def print_files(definitions: Definitions, names: Iterable[Name]) -> None:
    sizes: collections.Counter[tuple[str, str]] = collections.Counter()
    for name in names:
        sizes[name[:2]] += definitions.sizes[name]
    for (crate, file), lines in sizes.most_common():
        print(f"{lines:5}  {crate}/{file}{'' if (crate, file) in definitions.meaning else ' (PROOF)'}")


def print_unreached(definitions: Definitions) -> None:
    reached = {name for promise in PROMISES for name in definitions.reached(definitions.roots_of(promise))}
    for name in definitions.texts:
        if name not in reached and name[:2] in definitions.meaning:
            print(f"{definitions.sizes[name]:5}  {name}")


def main() -> int:
    options = argparse.ArgumentParser(description="How many lines of definitions each promise rests on.")
    options.add_argument("--files", metavar="PROMISE", help="list the files that a promise reaches, by its first words")
    options.add_argument("--write", action="store_true", help=f"put the table into {SHOWN_IN}")
    options.add_argument("--unreached", action="store_true", help="list the definitions that no promise reaches")
    asked = options.parse_args()
    definitions = Definitions()
    if asked.files:
        chosen = [promise for promise in PROMISES if promise.title.startswith(asked.files)]
        if len(chosen) != 1:
            options.error("PROMISE begins one of: " + "; ".join(promise.title for promise in PROMISES))
        print_files(definitions, definitions.reached(definitions.roots_of(chosen[0])))
    elif asked.unreached:
        print_unreached(definitions)
    elif asked.write:
        write(table(definitions), TOP / SHOWN_IN)
    else:
        print("\n".join(table(definitions)))
    return 0


if __name__ == "__main__":
    sys.exit(main())
