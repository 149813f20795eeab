#!/usr/bin/env python3
"""What the refusal of a crate's wrong bodies rests on in the crates below it.

    tools/rests_on.py CRATE     prints the names of all of it

A wrong body breaks a contract of its crate. What that contract says is told in definitions of crates below, and what
the body has at hand are the heads of the calls and types that it uses there. So what counts are these heads, and the
definitions that their words and those of the crate's own files reach, through any number of crates. Bodies, comments,
blank lines and lemmas of the crates below don't count: no lemma that is proved makes a wrong body right.

A name counts wherever it may be meant: a method by its name at each type that may be at hand. So something may count
that changes nothing, and nothing is left out.
"""
from __future__ import annotations

import collections
import functools
import re
import sys
from pathlib import Path
from typing import Iterable, Iterator, NamedTuple

import build_program
from lines_to_believe import Definitions, Name, Scope

TOP = Path(__file__).resolve().parent.parent
WORD = re.compile(r"[A-Za-z_]\w*")
COMMENT = re.compile(r"^[ \t]*//.*$|[ \t]+// [^\"\n]*$", re.MULTILINE)
# How a line of a function's head begins that stands no deeper than its first one.
GOES_ON = ("{", ")", ">", "where")
MODIFIERS = r"(?:pub(?:\([a-z]+\))? )?(?:ghost |unsafe |const )*"
FUNCTION = re.compile(rf"( *){MODIFIERS}fn (\w+)")
PUBLIC_CALL = re.compile(r" *pub (?:ghost |unsafe |const )*fn (\w+)")
ITEM = re.compile(r"(?:pub|fn|impl|struct|enum|trait|type|const|static|mod|use|ghost|unsafe|unfoldable)\b")
TYPE = re.compile(r"(pub )?(?:pub\([a-z]+\) )?(?:unfoldable )?(?:struct|enum|trait|type|const|static) (\w+)")
IMPORTED = re.compile(r"^use (?:\w+::)+(\w+) as (\w+)|\b(\w+) as (\w+)", re.MULTILINE)
DECLARED = re.compile(
    r"^ *(?:ghost )?(?:pub )?use Rattle\.(\w+)\.specs\.declared\.([\w.]+?)(?:\.\{([^}]*)\}| as (\w+))?;?$", re.MULTILINE)


class Typed(NamedTuple):
    """A type, trait or constant of a crate."""

    crate: str
    word: str


class Text(NamedTuple):
    """A part of a source that counts: the file where it stands, and what it says there."""

    file: Path
    said: str


class Called(NamedTuple):
    """The head of a public call of a crate: in its file, and the types by which it is called, if any."""

    crate: str
    owners: frozenset[str]
    head: Text


def without_bodies(text: str) -> str:
    """A source without its functions' bodies, as the formatter lays them out: each ends as deep as its head begins."""
    kept: list[str] = []
    head = end = None
    for line in text.splitlines():
        if end is not None:
            end = None if line == end else end
            continue
        kept.append(line)
        begun = FUNCTION.match(line)
        if begun:
            head = begun[1]
        elif head is not None and is_beyond(line, head):
            head = None
        if head is not None and opens_body(line, head):
            head, end = None, head + "}"
    return "\n".join(kept)


def is_beyond(line: str, head: str) -> bool:
    """Whether a line stands no deeper than a head and is no part of it: its end, or what opens its body."""
    said = line.lstrip()
    return bool(said) and len(line) - len(said) <= len(head) and not said.startswith(GOES_ON)


def opens_body(line: str, head: str) -> bool:
    """Whether the body of a function begins behind this line. Its clauses stand deeper than its head."""
    return line.startswith(head) and line[len(head):len(head) + 1] != " " and (line == head + "{" or line.endswith(" {"))


def items_of(text: str) -> Iterator[list[str]]:
    """The items of a source that stand at its left edge, each with the attributes before it."""
    item: list[str] = []
    for line in text.splitlines():
        if (ITEM.match(line) or line.startswith("#[")) and any(not said.startswith("#[") for said in item):
            yield item
            item = []
        if line.strip():
            item.append(line)
    if item:
        yield item


def methods_of(item: list[str]) -> Iterator[list[str]]:
    """The parts of an `impl`: first all that is no function, and then each function."""
    rest: list[str] = []
    parts, part = [rest], rest
    for line in item:
        if FUNCTION.match(line):
            part = []
            parts.append(part)
        elif part is not rest and is_beyond(line, "    "):
            part = rest
        part.append(line)
    yield from parts


class Coded:
    """What the sources of one crate declare: its types, and its public calls by name."""

    def __init__(self, crate: str, top: Path):
        self.crate = crate
        self.types: dict[str, list[Text]] = collections.defaultdict(list)
        self.public: set[str] = set()
        self.calls: dict[str, list[Called]] = collections.defaultdict(list)
        for file in sorted((top / "crates" / crate / "src").rglob("*.rt")):
            for item in items_of(without_bodies(COMMENT.sub("", file.read_text(encoding="utf-8")))):
                self.read(item, file)

    def read(self, item: list[str], file: Path) -> None:
        first = next((line for line in item if not line.startswith("#[")), "")
        declared = TYPE.match(first)
        called = PUBLIC_CALL.match(first)
        if called:
            self.calls[called[1]].append(Called(self.crate, frozenset(), Text(file, "\n".join(item))))
        elif first.startswith(("impl", "unsafe impl")):
            self.read_impl(item, file)
        elif declared:
            self.types[declared[2]].append(Text(file, "\n".join(item)))
            self.public |= {declared[2]} if declared[1] else set()

    def read_impl(self, item: list[str], file: Path) -> None:
        """What is implemented counts for each type that its head names. Of a type's own calls only those that are used do."""
        head = " ".join(item).partition("{")[0]
        owners = frozenset(word for word in WORD.findall(head) if word[0].isupper())
        if re.search(r"\bfor\b", head):
            for owner in owners:
                self.types[owner].append(Text(file, "\n".join(item)))
            return
        rest, *methods = methods_of(item)
        for owner in owners:
            self.types[owner].append(Text(file, "\n".join(rest)))
        for method in methods:
            called = PUBLIC_CALL.match(method[0])
            if called:
                self.calls[called[1]].append(Called(self.crate, owners, Text(file, head + "\n".join(method))))


def declared_in(text: str) -> dict[str, Typed]:
    """The types of sources that a text imports as they are declared, by each name under which it does."""
    found = {}
    for crate, path, listed, alias in DECLARED.findall(text):
        words = [word for word in path.split(".") if word[0].isupper()]
        names = [item.rpartition(" as ")[2].strip() for item in listed.split(",")] if listed else [alias or path.split(".")[-1]]
        for word in words[:1] or names:
            found.update({name: Typed(crate, word) for name in names if name})
    return found


class Tree:
    """All crates of a tree, and what each one has at hand below it."""

    def __init__(self, top: Path = TOP):
        self.top = top
        self.lines, self.directly = build_program.lines_of_crates(top)
        self.definitions = Definitions(top)
        self.coded = {crate: Coded(crate, top) for crate in self.directly}
        self.scopes: dict[Path, Scope] = {}
        self.declared: dict[Path, dict[str, Typed]] = {}

    @functools.lru_cache(maxsize=None)
    def below(self, crate: str) -> frozenset[str]:
        """The crates of the tree that one stands on, over however many others."""
        return frozenset(build_program.needed(crate, self.directly, [])) - {crate}

    def scope(self, file: Path) -> tuple[Scope, dict[str, Typed]]:
        """What the words of a file may name."""
        if file not in self.scopes:
            text = file.read_text(encoding="utf-8") if file.is_file() else ""
            self.scopes[file], self.declared[file] = Scope(text), declared_in(text)
        return self.scopes[file], self.declared[file]

    @functools.lru_cache(maxsize=None)
    def named_by(self, name: Name) -> frozenset[Name | Typed]:
        """The definitions and the declared types that a definition names."""
        file = self.top / "crates" / name.crate / "specs" / f"{name.file}.antt"
        text = self.definitions.texts[name]
        return frozenset(self.definitions.named_by(name)) | frozenset(types_in(text, self.scope(file)[1]))

    def cited(self, text: Text) -> Iterator[Name | Typed]:
        """The definitions, and the types as they are declared, that a part of a source names."""
        scope, declared = self.scope(text.file)
        yield from scope.cited(text.said)
        yield from types_in(text.said, declared)

    def reached(self, crate: str) -> list[tuple[str, str]]:
        """All that counts for a crate: what each part of it is called, and its text."""
        return sorted(Walk(self, crate).found)


def types_in(text: str, declared: dict[str, Typed]) -> Iterator[Typed]:
    """The types that a text names by one of these names, also where it names a part of one."""
    words = set(WORD.findall(text))
    return (typed for name, typed in declared.items() if name in words)


class Walk:
    """What one crate reaches in those below it."""

    def __init__(self, tree: Tree, crate: str):
        self.tree, self.below = tree, tree.below(crate)
        self.found: set[tuple[str, str]] = set()
        self.definitions: set[Name] = set()
        self.calls: set[Called] = set()
        self.types: set[Typed] = set()
        self.waiting: list[Name | Typed] = []
        folder = tree.top / "crates" / crate
        files = [file for part in ("src", "specs", "proofs") for file in sorted((folder / part).rglob("*")) if file.is_file()]
        texts = {file: file.read_text(encoding="utf-8", errors="replace") for file in files}
        self.words = {word for file, text in texts.items() if file.suffix == ".rt" for word in WORD.findall(COMMENT.sub("", text))}
        for file, text in texts.items():
            self.waiting += tree.cited(Text(file, text))
        self.take_words(self.words)
        for name in self.words:
            self.take_calls(name, lambda call: not call.owners)
        while self.waiting:
            self.take(self.waiting.pop())

    def take(self, name: Name | Typed) -> None:
        if isinstance(name, Typed):
            self.take_type(name)
            return
        found = self.tree.definitions.found(name)
        if found and found.crate in self.below and found not in self.definitions:
            self.definitions.add(found)
            self.found.add((str(found), self.tree.definitions.texts[found]))
            self.waiting += self.tree.named_by(found)

    def take_words(self, words: Iterable[str]) -> None:
        """Takes the public types of crates below that have such names."""
        for crate in self.below:
            coded = self.tree.coded[crate]
            self.waiting += [Typed(crate, word) for word in coded.public.intersection(words) if Typed(crate, word) not in self.types]

    def take_text(self, title: str, text: Text) -> None:
        self.found.add((title, text.said))
        self.waiting += self.tree.cited(text)
        self.take_words(WORD.findall(text.said))

    def take_type(self, typed: Typed) -> None:
        """Takes a type with what it implements, and those of its own calls whose names the crate has."""
        if typed in self.types or typed.crate not in self.below:
            return
        self.types.add(typed)
        coded = self.tree.coded[typed.crate]
        for text in coded.types.get(typed.word, ()):
            self.take_text(f"{typed.crate}: {typed.word}", text)
        for name in self.words.intersection(coded.calls):
            self.take_calls(name, lambda call: call.crate == typed.crate and typed.word in call.owners)

    def take_calls(self, name: str, is_meant) -> None:
        """Takes the heads of calls of this name that may be meant."""
        for crate in self.below:
            for call in self.tree.coded[crate].calls.get(name, ()):
                if call not in self.calls and is_meant(call):
                    self.calls.add(call)
                    self.take_text(f"{crate}: {name}", call.head)


def main(words: list[str]) -> int:
    tree = Tree()
    if len(words) != 1 or words[0] not in tree.directly:
        print(__doc__.strip() if words in (["-h"], ["--help"]) else "usage: tools/rests_on.py CRATE", file=sys.stderr)
        return 0 if words in (["-h"], ["--help"]) else 2
    print("\n".join(dict.fromkeys(title for title, _ in tree.reached(words[0]))))
    return 0


if __name__ == "__main__":
    sys.exit(main(sys.argv[1:]))
