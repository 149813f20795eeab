"""What the documents claim of the code, beside names that stand in the tree: crates, calls and their
clauses, calls that may wait, operations and options, lemmas of a file, and what has to be believed.

tools/check_docs.py prints what isn't so. Each function here answers the faults that it found, a line each.
"""
from __future__ import annotations

import functools
import re
from pathlib import Path

import docs_rules

QUOTED = re.compile(r"`([^`\n]+)`")
HEAD = re.compile(r"^ *(pub(?:\([a-z]+\))? )?(?:ghost )?(?:unsafe )?fn (\w+)", re.MULTILINE)
TYPE = re.compile(r"^ *pub (?:struct|enum|trait) (\w+)", re.MULTILINE)
NAMES = {
    "operation": ("wire_requests/specs/Ops.antt", r'^op_name .* = codes "(\w+)"'),
    "command": ("wire_requests/specs/Commands.antt", r'^type_name .* = codes "(\w+)"'),
    "event": ("wf_event/specs/Kinds.antt", r'^kind_name .* = codes "(\w+)"'),
    "refusal": ("wf_event_values/specs/Names.antt", r'^refusal_name .* = codes "(\w+)"'),
    "cause": ("wf_event_values/specs/Names.antt", r'^cause_name .* = codes "(\w+)"'),
    "deadline": ("wf_event_values/specs/Names.antt", r'^class_name .* = codes "(\w+)"'),
    "option": ("script_settings/src/words.rt", r'^ *let .* with_(?:option|flag)\(alloc, command, "(\w+)"'),
}
IN_A_ROW = ("operation", "command", "event")
WAITING_CRATES = ("gate", "matching", "service", "script", "lanes", "checkpoints")


def parts_of(text: str) -> list[str]:
    return [part.strip() for part in text.strip("{}").split(",")]


def expanded(quoted: str) -> list[str]:
    """`A::{b, c}` is `A::b` and `A::c`; anything else is itself."""
    braced = re.fullmatch(r"([^{}]*)\{([^{}]*)\}([^{}]*)", quoted)
    if not braced:
        return [quoted]
    before, names, after = braced.groups()
    return [f"{before}{name}{after}" for name in parts_of(names)]


def tables_of(text: str) -> list[list[list[str]]]:
    """The tables of a text, each with its rows of cells, the head first."""
    tables: list[list[list[str]]] = []
    is_inside = False
    for line in text.splitlines():
        if not line.startswith("|"):
            is_inside = False
            continue
        if not is_inside:
            tables.append([])
        is_inside = True
        if set(line) - set("|-: "):
            tables[-1].append([cell.strip() for cell in line.strip().strip("|").split("|")])
    return tables


def table_with(text: str, head: list[str]) -> list[list[str]]:
    """The rows of the table with this head."""
    return next((table[1:] for table in tables_of(text) if table[0][: len(head)] == head), [])


@functools.lru_cache(maxsize=None)
def crates_of(top: Path) -> list[str]:
    lines = (top / "crates.txt").read_text().splitlines()
    return [re.split(r"[ :]", line)[0] for line in lines if line.strip() and not line.startswith("#")]


def crates_without_a_row(text: str, top: Path) -> list[str]:
    """The table of crates has each crate of crates.txt, and no other one."""
    listed = [
        name.strip()
        for row in table_with(text, ["Layer", "Crate"])
        for name in re.sub(r"\([^)]*\)", "", row[1]).split(",")
    ]
    crates = crates_of(top)
    faults = [f"no row for the crate {crate}" for crate in crates if crate not in listed]
    faults += [f"no such crate: {name}" for name in listed if name not in crates]
    return faults + [f"two rows for the crate {name}" for name in sorted(set(listed)) if listed.count(name) > 1]


class Call:
    """A function's head: its clauses' names, what it cites, and whether it may wait."""

    def __init__(self, name: str, is_public: bool, head: str):
        self.name, self.is_public = name, is_public
        ensures = re.findall(r"\bensures (?:([\w-]+) )?\{", head)
        self.clauses = [clause for clause in ensures if clause]
        self.unnamed = ensures.count("")
        self.words = set(re.findall(r"\w+", head))
        self.may_wait = "Wait" in self.words


def head_of(text: str) -> str:
    """The head of the function with which a text begins: up to its body, or to the end of its declaration."""
    lines = []
    for line in text.splitlines():
        lines.append(line)
        ends_here = line.endswith(" {") and not re.search(r"\b(ensures|requires)\b", line)
        if line.strip() in ("{", "{}") or ends_here or line.endswith((";", " {}")):
            break
    return "\n".join(lines)


@functools.lru_cache(maxsize=None)
def sources_of(crate: str, top: Path) -> list[str]:
    return [file.read_text() for file in sorted((top / "crates" / crate / "src").rglob("*.rt"))]


@functools.lru_cache(maxsize=None)
def calls_of(crate: str, top: Path) -> list[Call]:
    return [
        Call(found[2], found[1] == "pub ", head_of(text[found.start():]))
        for text in sources_of(crate, top)
        for found in HEAD.finditer(text)
    ]


@functools.lru_cache(maxsize=None)
def types_of(crate: str, top: Path) -> set[str]:
    return {name for text in sources_of(crate, top) for name in TYPE.findall(text)}


def blocks_of(text: str) -> list[str]:
    """The definitions of a file, each with the lines below it up to the next one."""
    return re.split(r"^ *(?=pub record |abbrev pub |unfoldable pub )", text, flags=re.MULTILINE)


@functools.lru_cache(maxsize=None)
def records_of(top: Path) -> dict[str, set[str]]:
    """The fields that clauses can name: of each record, and of each word that stands for records. Both have those
    of the records that they cite, too."""
    fields: dict[str, set[str]] = {}
    cited: dict[str, set[str]] = {}
    for file in top.glob("crates/*/specs/**/*.antt"):
        for block in blocks_of(file.read_text()):
            name = re.match(r"(?:abbrev|unfoldable) pub (\w+)|pub record (\w+)", block)
            if not name:
                continue
            word = name[1] or name[2]
            cited.setdefault(word, set()).update(re.findall(r"\w+", block))
            if name[2]:
                fields.setdefault(word, set()).update(re.findall(r"^ *pub (\w+) :", block, re.MULTILINE))
    known = {word: set().union(*(fields[name] for name in names.intersection(fields)))
             for word, names in cited.items()}
    return {word: names for word, names in known.items() if names}


def is_named(call: Call, name: str) -> bool:
    """Whether a name is the call's, or begins it, as `try_` does."""
    return call.name.startswith(name) if name.endswith("_") else call.name == name


def calls_named(cell: str, calls: list[Call], types: set[str]) -> tuple[list[Call], list[str]]:
    """The calls that a cell names, all calls where it names a type, and which of its names there are not."""
    named: list[Call] = []
    missing = []
    for quoted in QUOTED.findall(cell):
        for name in expanded(quoted):
            last = re.sub(r"<.*>", "", name).split("::")[-1]
            found = [call for call in calls if is_named(call, last)]
            if not found and last not in types:
                missing.append(f"no such call: {name}")
            named += found or calls
    return named, missing


def faults_of_clauses(cell: str, named: list[Call], records: dict[str, set[str]]) -> list[str]:
    """What a cell says about the clauses of these calls and isn't so."""
    if cell == "the only one":
        return [f"not the only clause: of {call.name}" for call in named
                if call.is_public and len(call.clauses) + call.unnamed > 1]
    known = {clause for call in named for clause in call.clauses}
    cited = {word for call in named for word in call.words}
    cited.update(word for quoted in QUOTED.findall(cell) for word in [quoted] if word in records)
    for record in cited.intersection(records):
        known |= records[record] | {record}
    plain = [quoted for quoted in QUOTED.findall(cell) if re.fullmatch(r"[a-z_]+", quoted)]
    return [f"no such clause: {clause}" for clause in plain if clause not in known]


def wrong_contracts(text: str, top: Path) -> list[str]:
    """In the table of contracts, crates, calls and clauses that are not there."""
    faults, crates, records = [], [], records_of(top)
    for cells in table_with(text, ["Crate", "Call"]):
        if len(cells) != 4:
            faults.append(f"{len(cells)} cells where there are 4: {cells[:2]}")
            continue
        if cells[0]:
            crates = re.split(r",? ", cells[0].split(", for ")[0])
        unknown = [crate for crate in crates if crate not in crates_of(top)]
        faults += [f"no such crate: {crate}" for crate in unknown]
        if unknown:
            continue
        calls = [call for crate in crates for call in calls_of(crate, top)]
        types = set().union(*(types_of(crate, top) for crate in crates))
        named, missing = calls_named(cells[1], calls, types)
        faults += [f"{', '.join(crates)}: {fault}" for fault in missing + faults_of_clauses(cells[3], named, records)]
    return faults


def wrong_promises(text: str, top: Path) -> list[str]:
    """Clauses that a table of promises names as `clauses of CALLS (NAMES)` and that these calls don't have."""
    pattern = re.compile(r"clauses? of ((?:`\w+`(?:, | and )?)+) \(((?:`\w+`(?:, )?)+)\)")
    calls = [call for crate in crates_of(top) for call in calls_of(crate, top)]
    records, faults = records_of(top), []
    tables = [table for table in tables_of(text) if table[0] == ["", "Where it is said"]]
    if not tables:
        return ["no table says where promises stand"]
    for row in (row for table in tables for row in table[1:]):
        for names, clauses in pattern.findall(row[1]):
            named, missing = calls_named(names, calls, set())
            faults += missing + [f"{names}: {fault}" for fault in faults_of_clauses(clauses, named, records)]
        for record, field in re.findall(r"`([A-Z]\w+)`, `(\w+)`", row[1]):
            if field not in records.get(record, ()):
                faults.append(f"no such field: {record}.{field}")
    return faults


def wrong_waits(text: str, top: Path) -> list[str]:
    """The calls of which a text says that they may wait are those that have that leave."""
    said = re.search(r"the calls that may wait \((.*?)\)", text)
    if not said:
        return ["it names no calls that may wait"]
    listed = {name.split("::")[-1] for quoted in QUOTED.findall(said[1]) for name in expanded(quoted)}
    waiting = [call for crate in WAITING_CRATES for call in calls_of(crate, top) if call.may_wait]
    unsaid = {call.name for call in waiting if call.is_public} - listed
    never = listed - {call.name for call in waiting} - set(crates_of(top))
    return [f"it may wait, and isn't named: {name}" for name in sorted(unsaid)] + [
        f"it never waits: {name}" for name in sorted(never)
    ]


def unnamed(text: str, top: Path) -> list[str]:
    """Operations, commands and events that have no row in a text, and options and names that it doesn't have."""
    tables = [table for table in tables_of(text) if table[0][0] in ("op", "Type")]
    rows = {name.strip() for table in tables for row in table for name in row[0].split(",")}
    faults = []
    for kind, (file, pattern) in NAMES.items():
        names = re.findall(pattern, (top / "crates" / file).read_text(), re.MULTILINE)
        if not names:
            faults.append(f"no {kind} is found in crates/{file}")
        for name in names:
            written = f"--{name}" if kind == "option" else name
            if kind in IN_A_ROW and name not in rows:
                faults.append(f"no row for the {kind} {name}")
            elif not re.search(rf"(?<![\w-]){written}(?!\w)", text):
                faults.append(f"no word of the {kind} {written}")
    return faults


def is_file_cited(file: str, cited: str) -> bool:
    """Whether a path with braces, `*` for a part of a name and `..` for all others names this file."""
    crate, _, specs = cited.partition("/specs")
    if not re.fullmatch(crate.replace("*", r"\w*"), file.split("/")[0]):
        return False
    names = parts_of(specs.lstrip("/")) if specs else [".."]
    return ".." in names or file.split("/")[2] in names


def not_to_be_believed(text: str, meaning: list[str]) -> list[str]:
    """The files of meaning, as `crate/specs/File`, that the list in `What must be believed` leaves out."""
    part = re.search(r"^## What must be believed$(.*?)^## ", text, re.MULTILINE | re.DOTALL)
    if not part:
        return ["there is no part `What must be believed`"]
    items = re.findall(r"^\d+\. (.*)$", part[1], re.MULTILINE)
    cited = [quoted for item in items for quoted in QUOTED.findall(item)]
    return [f"not in the list of what must be believed: {file}" for file in meaning
            if not any(is_file_cited(file, one) for one in cited)]


def files_named(context: str, name: str, top: Path) -> list[Path]:
    """The files of definitions or proofs of this name, of the crate where one is said."""
    return list(top.glob(f"crates/{context or '*'}/proofs/**/{name}.antt")) + list(
        top.glob(f"crates/{context or '*'}/specs/**/{name}.antt"))


def defines(files: list[Path], word: str) -> bool:
    """Whether one of the files defines a word: a lemma, a definition, a record or a field of one."""
    pattern = rf"^ *((abbrev|unfoldable) )?(pub )?((data|record) )?{re.escape(word)}(?![\w'-])"
    return any(re.search(pattern, file.read_text(), re.MULTILINE) for file in files)


def faults_of_lemmas(quoted: str, crate: str, top: Path) -> list[str]:
    """What is not there of `File.{a, b}-law`, `File.a` or `crate/proofs/{File, File}`."""
    path = re.fullmatch(r"(\w+)[./](?:proofs|specs)(?:[./](\w+|\{[^}]*\})(?:\.(.+))?)?", quoted)
    lemma = re.fullmatch(r"([A-Z]\w+)\.(\{[^}]*\}[\w-]*|[\w-]+)", quoted)
    if not path and not lemma:
        return []
    crate = path[1] if path else crate
    names = parts_of((path[2] or "") if path else lemma[1])
    words = expanded((path[3] or "") if path else lemma[2])
    faults = []
    for name in names:
        if name in ("", "..", "antt"):
            continue
        files = files_named(crate, name, top)
        if not files and path:
            faults.append(f"no such file of {crate}: {name} (in `{quoted}`)")
        faults += [f"no such word in {name}: {word} (in `{quoted}`)"
                   for word in words if files and word not in ("", "..", "antt") and not defines(files, word)]
    return faults


def wrong_lemmas(text: str, top: Path) -> list[str]:
    """The lemmas that a text cites by their files, in a bullet of a crate those of that crate."""
    crates, faults = crates_of(top), []
    for line in text.splitlines():
        begins = re.match(r"- `(\w+)[./]proofs`: ", line)
        crate = begins[1] if begins and begins[1] in crates else ""
        for quoted in QUOTED.findall(line):
            faults += faults_of_lemmas(quoted, crate, top)
    return faults


HEAD_OF_RULES = re.compile(r"Rule: PROFILE, (.+?)\. Definition: (.+?)\. Rows: (.+?)\. Cases: (.+?)\.$")
STANDS_IN = {
    "definition": "crates/{}/specs/{}.antt",
    "row": "crates/service_model/proofs/{}.antt",
    "case": "tests/cases/data/{}.cases",
}


RULES_OF_HEAD = re.compile(r"Rules: ([A-Z]\d+(?:, [A-Z]\d+)*)\.")
# What a part of PROFILE was called when heads of sources were written that cite it.
EARLIER_PARTS = {"Runs that are taken away": "Deleted runs"}


@functools.lru_cache(maxsize=None)
def profile_of(top: Path) -> str:
    return (top / "docs/PROFILE.md").read_text(encoding="utf-8")


def parts_of_profile(top: Path) -> set[str]:
    """The parts of PROFILE, without what stands after their names in brackets."""
    return set(re.findall(r"^## (.+?)(?: \(.*)?$", profile_of(top), re.MULTILINE))


@functools.lru_cache(maxsize=None)
def rules_of_files(top: Path) -> dict[str, list[str]]:
    return docs_rules.rules_of_files((top / "docs/rules.ini").read_text(encoding="utf-8"))


def wrong_numbers(numbers: list[str], top: Path, file: str) -> list[str]:
    """Which of these numbers, of the head of a file as `crate/file.rt`, are no rules of PROFILE, or not those that
    docs/rules.ini has for the file."""
    known = {rule.number for rule in docs_rules.rules_in(profile_of(top))}
    faults = [f"no such rule of PROFILE: {number}" for number in numbers if number not in known]
    listed = rules_of_files(top).get(file, [])
    if not faults and file and numbers != listed:
        faults.append(f"its head has the rules {', '.join(numbers)}, and docs/rules.ini {', '.join(listed) or 'none'}")
    return faults


def wrong_heads(text: str, top: Path, file: str = "") -> list[str]:
    """What a source's head says about its rules and isn't so. It names them by their numbers, as `Rules: H3, W2.`, or
    by their part of PROFILE with definitions, rows and cases. A definition without a crate is one of service_model."""
    head = " ".join(line[4:] for line in text.splitlines() if line.startswith("//! "))
    numbers = RULES_OF_HEAD.search(head)
    if numbers:
        return wrong_numbers(parts_of(numbers[1]), top, file)
    if "Rule:" not in head:
        return []
    said = HEAD_OF_RULES.search(head)
    if not said:
        return ["its head names no rule, definition, rows and cases"]
    parts = parts_of_profile(top)
    faults = [f"no such part of PROFILE: {part}" for part in parts_of(said[1])
              if EARLIER_PARTS.get(part, part) not in parts]
    for kind, names in zip(STANDS_IN, said.groups()[1:]):
        for name in parts_of(names) if names != "-" else []:
            place = ("service_model/" + name).split("/")[-2:] if kind == "definition" else [name]
            if not (top / STANDS_IN[kind].format(*place)).is_file():
                faults.append(f"no such {kind}: {name}")
    return faults


def other_kits(text: str, version: str) -> list[str]:
    """The kits that a text names beside the one that is there."""
    kits = set(re.findall(r"rattle-kit-\w+", text)) - set(re.findall(r"rattle-kit-\w+", version))
    return [f"another kit than {version.strip()}: {kit}" for kit in sorted(kits)]
