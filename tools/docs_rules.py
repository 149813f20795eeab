#!/usr/bin/env python3
"""Where each rule of docs/PROFILE.md stands in the tree: its code, definition, examples, cases and wrong bodies.

    tools/docs_rules.py             what docs/rules.ini says that isn't so, a line each
    tools/docs_rules.py RULE..      where these rules stand, as `tools/docs_rules.py H3`
    tools/docs_rules.py --write     writes docs/TRACE.md, the same for all rules, in tables
    tools/docs_rules.py --heads     lists the source files whose head names a part of PROFILE, with the numbers of
                                    the rules that they are code of; with --write these stand in the heads then

docs/rules.ini is written by hand: a section for each rule, under its number, with a line for each reference. It has
the rules of PROFILE in their order, and each reference has to be there. docs/TRACE.md is written from it and from the
first words of each rule. tools/check_docs.py holds all three to each other.
"""
from __future__ import annotations

import argparse
import configparser
import re
import sys
from pathlib import Path
from typing import NamedTuple

TOP = Path(__file__).resolve().parent.parent
QUOTED = re.compile(r"`([^`\n]+)`")
KINDS = ("Definition", "Example", "Case", "Wrong body")
PLACES = {
    "Definition": "crates/{}/specs/{}.antt",
    "Example": "crates/service_model/proofs/{}.antt",
    "Case": "tests/cases/data/{}.cases",
    "Wrong body": "crates/{}/must-fail/{}.md",
}
BESIDE = re.compile("\\. ".join(f"{kind}: (.+?)" for kind in KINDS) + "\\.")
REFERENCES = re.compile(r"`[^`]+`(, `[^`]+`)*")
CODE = re.compile(r"(\w+)/([\w/]+\.rt)")
PART = re.compile(r"## (.+?)(?: \(.*)?$")
ROW = re.compile(r"\| ([A-Z]\d+) \| (.*) \|$")
# The lines of a source's head that name its part of PROFILE, and what stands beside that.
HEAD_OF_PART = re.compile(r"(?<=//! )(.*)\bRule: PROFILE, .*\n(?://! .*\n)*")
PARAGRAPH = re.compile(r"(?:- )?\*\*([A-Z]\d+)\*\* (.*)")
# How many words of a rule TRACE shows at most.
SHOWN_WORDS = 10
HEAD = """# Where each rule stands

`tools/docs_rules.py --write` writes this page from `docs/rules.ini`: change that file, and never this one. \
[PROFILE](PROFILE.md) has the rules. `tools/docs_rules.py H3` prints one row.

| Column | What it is | How it is named |
|---|---|---|
| Code | the files that do what the rule says | `shard/signals.rt` is `crates/shard/src/signals.rt` |
| Definition | what the rule means, as the proofs take it | `service_model/Signals: signal` is `signal` in \
`crates/service_model/specs/Signals.antt` |
| Example | what the definitions give for a few steps, worked out by hand and proved | `TaskRows: repeated_signal` is \
that one in `crates/service_model/proofs/TaskRows.antt` |
| Case | what the program is given and answers, tested | `signals: a repeated signal` is the case of that title in \
`tests/cases/data/signals.cases` |
| Wrong body | a mutant: a deliberate bug in the code or in a definition, which the proofs must reject | \
`timeouts: fires_before_its_moment` is `crates/timeouts/must-fail/fires_before_its_moment.md` |

A `-` says that there is nothing of that kind. Some references stand at several rules.
"""


class Rule(NamedTuple):
    """A rule of PROFILE: its number, the part in which it stands, and its text."""

    number: str
    part: str
    text: str


def has_line(file: Path, pattern: str) -> bool:
    return re.search(pattern, file.read_text(encoding="utf-8"), re.MULTILINE) is not None


def fault_of_reference(kind: str, reference: str, top: Path) -> str | None:
    """What is wrong with `place: name`, the reference of this kind that a rule has."""
    place, colon, name = reference.partition(": ")
    parts = place.split("/")
    if not colon or len(parts) != (2 if kind == "Definition" else 1):
        return f"no reference to a {kind.lower()}: {reference}"
    file = PLACES[kind].format(*parts, name)
    if not (top / file).is_file():
        return f"no such {kind.lower()}: {reference} ({file})"
    word = re.escape(name)
    pattern = {
        "Definition": rf"^ *((abbrev|unfoldable) pub|pub (data|record)) {word}(?![\w'])",
        "Example": rf"^pub {word}(?![\w'])",
        "Case": rf"^## {word}$",
        "Wrong body": r"^new: ",
    }[kind]
    return None if has_line(top / file, pattern) else f"no such {kind.lower()}: {reference} (in {file})"


def fault_of_code(reference: str, top: Path) -> str | None:
    """What is wrong with `crate/file.rt`, a file of code that a rule has."""
    found = CODE.fullmatch(reference)
    if not found:
        return f"no reference to code: {reference}"
    return None if (top / "crates" / found[1] / "src" / found[2]).is_file() else f"no such file of code: {reference}"


def faults_of_cells(cells: list[str], top: Path) -> list[str]:
    """What is wrong with the four cells of a rule: of each, references with commas between them, or `-`."""
    faults = []
    for kind, cell in zip(KINDS, cells):
        if cell == "-":
            continue
        if not REFERENCES.fullmatch(cell):
            faults.append(f"neither references nor -, as a {kind.lower()}: {cell}")
            continue
        found = [fault_of_reference(kind, reference, top) for reference in QUOTED.findall(cell)]
        faults += [fault for fault in found if fault]
    return faults


def cells_of(line: str) -> list[str]:
    return [cell.strip() for cell in line.strip().strip("|").split("|")]


def missing_beside_rules(text: str, top: Path = TOP) -> list[str]:
    """What the rules of a text have beside them that isn't there."""
    faults = []
    width = 0
    for line in text.splitlines():
        if line.startswith("|"):
            cells = cells_of(line)
            if tuple(cells[-4:]) == KINDS:
                width = len(cells)
            elif width and not set(line) <= set("|-: "):
                if len(cells) != width:
                    faults.append(f"{len(cells)} cells where there are {width}: {line[:60]}")
                else:
                    faults += faults_of_cells(cells[-4:], top)
            continue
        width = 0
        if line.lstrip().startswith("Definition:"):
            below = BESIDE.fullmatch(line.strip())
            faults += faults_of_cells(list(below.groups()), top) if below else [f"no line below a rule: {line[:60]}"]
    return faults


def rules_in(profile: str) -> list[Rule]:
    """The rules of PROFILE, in their order."""
    part, rules = "", []
    for line in profile.splitlines():
        heading = PART.fullmatch(line)
        part = heading[1] if heading else part
        found = ROW.fullmatch(line) or PARAGRAPH.fullmatch(line)
        if found:
            text = ", ".join(cell for cell in cells_of(found[2]) if cell) if line.startswith("|") else found[2]
            rules.append(Rule(found[1], part, text))
    return rules


def references_in(text: str) -> dict[str, dict[str, list[str]]]:
    """What docs/rules.ini says: of each rule's number its references, by their kinds (`code` and those of KINDS)."""
    parser = configparser.ConfigParser(delimiters=("=",), interpolation=None)
    parser.read_string(text)
    return {number: {kind: value.split("\n")[1:] for kind, value in parser[number].items()}
            for number in parser.sections()}


def faults_of_rule(number: str, references: dict[str, list[str]], top: Path) -> list[str]:
    """What one section of docs/rules.ini says and isn't so."""
    faults = [f"{number}: no such key: {key}" for key in references
              if key != "code" and key.capitalize() not in KINDS]
    found = [fault_of_code(one, top) for one in references.get("code", [])]
    found += [fault_of_reference(kind, one, top) for kind in KINDS for one in references.get(kind.lower(), [])]
    return faults + [f"{number}: {fault}" for fault in found if fault]


def faults_of_rules(profile: str, ini: str, top: Path = TOP) -> list[str]:
    """What docs/rules.ini says and isn't so, and where its rules aren't those of PROFILE in their order."""
    numbers, references = [rule.number for rule in rules_in(profile)], references_in(ini)
    faults = [f"two rules of one number: {number}" for number in sorted(set(numbers)) if numbers.count(number) > 1]
    faults += [f"no section for the rule {number}" for number in numbers if number not in references]
    faults += [f"PROFILE has no rule {number}" for number in references if number not in numbers]
    if not faults and numbers != list(references):
        faults.append("the rules are not in PROFILE's order")
    return faults + [fault for number, one in references.items() for fault in faults_of_rule(number, one, top)]


def first_words(text: str) -> str:
    """The first words of a rule, without marks that a table or a link needs."""
    plain = re.sub(r"\[([^\]]*)\]\([^)]*\)", r"\1", text).replace("**", "")
    words = re.split(r"(?<=[.:;])\s", plain)[0].rstrip(".:;").split()
    return " ".join(words[:SHOWN_WORDS]) + (" .." if len(words) > SHOWN_WORDS else "")


def cell(references: list[str]) -> str:
    return ", ".join(f"`{one}`" for one in references) or "-"


def row(rule: Rule, references: dict[str, list[str]]) -> str:
    """A rule's row in TRACE."""
    columns = [f"**{rule.number}** {first_words(rule.text)}"]
    columns += [cell(references.get(kind.lower(), [])) for kind in ("Code", *KINDS)]
    return "| " + " | ".join(columns) + " |"


def trace(profile: str, ini: str) -> str:
    """The text of docs/TRACE.md."""
    references, lines, part = references_in(ini), [HEAD], ""
    for rule in rules_in(profile):
        if rule.part != part:
            part = rule.part
            lines += [f"\n## {part}\n", f"| Rule | Code | {' | '.join(KINDS)} |", "|---" * 6 + "|"]
        lines.append(row(rule, references.get(rule.number, {})))
    return "\n".join(lines).replace("\n\n\n", "\n\n") + "\n"


def code_name(file: Path) -> str:
    """How a file of code is named in docs/rules.ini: `shard/signals.rt` is crates/shard/src/signals.rt."""
    crate, _, rest = str(file).rpartition("crates/")[2].partition("/src/")
    return f"{crate}/{rest}"


def rules_of_files(ini: str) -> dict[str, list[str]]:
    """For each file of code, as `crate/file.rt`, the rules that it is code of, in their order."""
    found: dict[str, list[str]] = {}
    for number, references in references_in(ini).items():
        for file in references.get("code", []):
            found.setdefault(file, []).append(number)
    return found


def with_numbers(source: str, numbers: list[str]) -> str:
    """A source whose head names its rules by their numbers, in the place of its part of PROFILE and all beside it."""
    return HEAD_OF_PART.sub(rf"\g<1>Rules: {', '.join(numbers)}.\n", source, count=1)


def heads(ini: str, top: Path, writes: bool) -> list[str]:
    """The source files whose head names a part of PROFILE, each with its rules. They get the numbers where asked."""
    known, lines = rules_of_files(ini), []
    for file in sorted((top / "crates").glob("*/src/**/*.rt")):
        text = file.read_text(encoding="utf-8")
        if not HEAD_OF_PART.search(text):
            continue
        numbers = known.get(code_name(file), [])
        lines.append(f"{file.relative_to(top)}: {', '.join(numbers) or 'no rule has it as its code'}")
        if writes and numbers:
            file.write_text(with_numbers(text, numbers), encoding="utf-8")
    return lines


def faults(top: Path = TOP) -> list[str]:
    """What is wrong with docs/rules.ini and docs/TRACE.md."""
    profile, ini = ((top / "docs" / name).read_text(encoding="utf-8") for name in ("PROFILE.md", "rules.ini"))
    found = [f"docs/rules.ini: {fault}" for fault in faults_of_rules(profile, ini, top)]
    written = (top / "docs/TRACE.md").read_text(encoding="utf-8") if (top / "docs/TRACE.md").is_file() else ""
    if written != trace(profile, ini):
        found.append("docs/TRACE.md: not what docs/rules.ini gives; tools/docs_rules.py --write writes it anew")
    return found


def shown(number: str, profile: str, ini: str) -> str:
    """Where a rule stands, a line for each reference, or that there is no such rule."""
    rule = next((one for one in rules_in(profile) if one.number == number), None)
    if not rule:
        return f"PROFILE has no rule {number}"
    lines = [f"{number} ({rule.part}): {rule.text}"]
    lines += [f"  {kind}: {one}" for kind, all_of in references_in(ini).get(number, {}).items() for one in all_of]
    return "\n".join(lines)


def main(words: list[str]) -> int:
    options = argparse.ArgumentParser(
        prog="tools/docs_rules.py", description=__doc__, formatter_class=argparse.RawDescriptionHelpFormatter)
    options.add_argument("rules", nargs="*", metavar="RULE")
    options.add_argument("--write", action="store_true")
    options.add_argument("--heads", action="store_true")
    asked = options.parse_args(words)
    profile, ini = ((TOP / "docs" / name).read_text(encoding="utf-8") for name in ("PROFILE.md", "rules.ini"))
    if asked.rules:
        print("\n".join(shown(number, profile, ini) for number in asked.rules))
        return 0
    if asked.heads:
        print("\n".join(heads(ini, TOP, asked.write)))
        return 0
    if asked.write:
        (TOP / "docs/TRACE.md").write_text(trace(profile, ini), encoding="utf-8")
    found = faults()
    print("\n".join(found), end="\n" if found else "")
    return 1 if found else 0


if __name__ == "__main__":
    sys.exit(main(sys.argv[1:]))
