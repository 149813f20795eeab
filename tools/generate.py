#!/usr/bin/env python3
"""Writes what follows mechanically from the fields of requests, commands, transfers and events.

    tools/generate.py            says which parts of the sources are not what tools/fields.toml gives; 1 if there are any
    tools/generate.py --write    writes these parts anew
    tools/generate.py --parts    lists all parts that are generated, a line each

A part is a run of lines without an empty line between: a struct, its destructor, a record of limits, the rows of a
record's line, the function that writes them, the one that shows that they are within their limits. It is found in its
file by its first line, and stands there as a programmer would write it: nothing marks it. Of lemmas that have a line
for each request, such a line is a part of its own. The files of tools/fields
have a row for each field, and tools/fields.toml says how each kind of field is written in each kind of part.
`tools/gate quick` compares.

It needs Python 3.11, which reads TOML.
"""
from __future__ import annotations

import argparse
import re
import sys
import textwrap
from pathlib import Path
from typing import Any, Callable, Iterator, NamedTuple

try:
    import tomllib
except ModuleNotFoundError:
    sys.exit("generate: this wants Python 3.11 or later, which reads TOML")

TOP = Path(__file__).resolve().parent.parent
TABLE = "tools/fields.toml"
TYPES = "tools/fields"
# Where the client says what events mean, and the status of a run that no event has closed.
HISTORIES, RUNNING = "clients/python/src/wfserve/events.py", "Running"
# Where the servers say which keys a start has, and a signal with start too.
PYTHON_STARTS, EDGE_STARTS = "clients/python/src/wfserve/operations.py", "edge/src/call/operations.rs"
# Rust's formatter breaks a line that is longer, and a pattern's fields that are.
WIDTH = 100
PATTERN_WIDTH = 18
# So are a call's arguments.
CALL_WIDTH = 60
# A line of definitions is filled up to here, where the table doesn't say how many rows stand in each.
ROW_WIDTH = 120
# A record of definitions stands on one line up to here, and any line of them.
RECORD_WIDTH = 126
DEFINITION_WIDTH = 140
# What a part of a type is called where the table says nothing else: by its stem, in words or in one capitalized word.
NAMES = {
    "limits": "Is{camel}", "rows": "{stem}_rows", "put": "put_{stem}", "known": "known_{stem}",
    "members": "{stem}_members", "event": "put_{stem}", "fields_of": "{stem}_of", "reader": "{stem}",
    "back": "{stem}_back",
}


class Part(NamedTuple):
    """A part of a file: which file, the line with which it begins, and its text without a last line feed. A part of one
    line is found by how that line begins. A file is one of crates/, or of the client by its path from the top."""

    file: str
    head: str
    text: str
    is_line: bool = False

    @property
    def path(self) -> str:
        """The file's path from the top of the repository."""
        return self.file if self.file.startswith(("clients/", "edge/")) else f"crates/{self.file}"


class Field(NamedTuple):
    """A field of a type: its name, its kind, its key in a line, the name of the local that reads it, whether it may be
    missing in a line and then has its kind's default, and whether its key is no name of a field (`Field`)."""

    name: str
    kind: str
    key: str
    local: str
    has_default: bool
    is_keyed: bool


Table = dict[str, Any]


def fields_of(kind: Table) -> list[Field]:
    """The fields of a type, in their order in the struct: `name kind`, `default` where the field may be missing in a
    line, `keyed` where its key is no name of a field, and `key=` and `local=` where these differ from the name."""
    fields = []
    for row in kind["fields"]:
        name, which, *others = row.split()
        other = dict(one.split("=") for one in others if "=" in one)
        fields.append(Field(name, which, other.get("key", name), other.get("local", name), "default" in others,
                            "keyed" in others))
    return fields


def said_of(kind: Table, part: str, table: Table) -> Table:
    """What the table says about a part of a type: what holds in its group, but for what the type says itself."""
    stem = kind.get("stem", "")
    said = {"name": NAMES[part].format(stem=stem, camel=camel(stem)), **table["group"][kind["group"]][part]}
    said |= kind.get(part, {})
    return {key: said_word(value, kind, said) for key, value in said.items()}


def said_word(value: Any, kind: Table, said: Table) -> Any:
    """A text of the table with the names of the type and of its value in it; a list of texts, each so."""
    if isinstance(value, list):
        return [said_word(one, kind, said) for one in value]
    return value.replace("TYPE", kind["name"]).replace("OF", said.get("of", "")) if isinstance(value, str) else value


def filled(template: str, key: str, value: str, local: str = "") -> str:
    return template.replace("KEY", key).replace("VALUE", value).replace("LOCAL", local)


def file_of(kind: Table, table: Table) -> str:
    """The file of a type's struct."""
    return kind.get("file", table["group"][kind["group"]]["file"])


def struct(kind: Table, table: Table) -> Part:
    head = f"pub struct {kind['name']} {{"
    lines = []
    for field in fields_of(kind):
        lines += [f"    /// {line}" for line in kind.get("comments", {}).get(field.name, [])]
        lines.append(f"    pub {field.name}: {table['kind'][field.kind]['rust']},")
    return Part(file_of(kind, table), head, "\n".join([head, *lines, "}"]))


def destructor(kind: Table, table: Table) -> Part:
    """The written `Drop` of a struct, which is proved once and not in each crate that drops one."""
    name = kind["name"]
    patterns = [f"{field.name}: _" for field in fields_of(kind)]
    head = f"impl Drop for {name} {{"
    if len(", ".join(patterns)) <= PATTERN_WIDTH:
        taken = [f"        let {name} {{ {', '.join(patterns)} }} = self;"]
    else:
        taken = [f"        let {name} {{", *(f"            {pattern}," for pattern in patterns), "        } = self;"]
    return Part(file_of(kind, table), head, "\n".join([head, "    fn drop(self) {", *taken, "    }", "}"]))


def limits(kind: Table, table: Table) -> Part:
    """The record that says that a value is within the limits of its fields' types."""
    said, kinds = said_of(kind, "limits", table), table["kind"]
    head = f"pub record {said['name']} ({said['of']} : {kind['name']}) : Type 0 where"
    lines = [f"  pub {field.name} : {filled(kinds[field.kind]['limit'], field.name, said['of'] + '.' + field.name)}"
             for field in fields_of(kind) if "limit" in kinds[field.kind]]
    return Part(said["file"], head, "\n".join([head, *lines]))


def members(kind: Table, of: str, part: str, kinds: Table) -> list[str]:
    """How each member of a record's line is written in such a part, in the order of the keys' bytes."""
    every = {field.key: (kinds[field.kind][part], f"{of}.{field.name}") for field in fields_of(kind)
             if part in kinds[field.kind]}
    every |= {key: (kinds[which][part], value) for key, which, value in kind.get("also", [])}
    return [filled(template, key, value).replace("OF", of) for key, (template, value) in sorted(every.items())]


def broken(written: list[str], counts: list[int]) -> list[list[str]]:
    """Rows by lines: so many in each as the table says, and where it doesn't fit any more, as many as fit."""
    if sum(counts) == len(written):
        ends = [sum(counts[:place + 1]) for place in range(len(counts))]
        return [written[end - count:end] for end, count in zip(ends, counts)]
    lines: list[list[str]] = [[]]
    for row in written:
        if lines[-1] and len("    ∷ " + " ∷ ".join([*lines[-1], row])) > ROW_WIDTH:
            lines.append([])
        lines[-1].append(row)
    return lines


def event_members(kind: Table, table: Table) -> Part:
    """The members of an event's attributes, as a definition, in the order of the struct."""
    said = said_of(kind, "members", table)
    head = f"unfoldable pub {said['name']} : {kind['name']} → Members → Members"
    written = [filled(table["kind"][field.kind]["member"], field.key, f"a.{field.name}") for field in fields_of(kind)]
    lines = [" ▸ ".join(line) for line in broken(written, kind.get("lines", []))]
    body = [f"    ms ▸ {lines[0]}", *(f"    ▸ {line}" for line in lines[1:])]
    return Part(said["file"], head, "\n".join([head, f"{said['name']} a ms =", *body]))


def event_writer(kind: Table, table: Table) -> Part:
    """The function that writes the members of an event's attributes, in the order of the keys' bytes."""
    said, defined = said_of(kind, "event", table), said_of(kind, "members", table)["name"]
    is_copied = kind.get("copied", False)
    call = signature(f"{said['seen']}fn {said['name']}", ["page: &mut Page", f"attributes: {'' if is_copied else '&'}"
                                                           f"{kind['name']}"])
    ensures = ["    ensures { OnOk result (sheet_of page.new", f"        ≡ add_members ({defined} "
               f"attributes{'' if is_copied else '.now'} no_members) (sheet_of page.old)) }}"]
    written = members(kind, "attributes", "event", table["kind"])
    body = [f"    {line}?;" for line in written[:-1]] + [f"    {written[-1]}"]
    return Part(said["file"], call[0], "\n".join([*call, *ensures, "{", *body, "}"]))


def line_fields(kind: Table, table: Table) -> Part:
    """What a line's fields are read as, as a definition: their faults are looked for in the order of the struct."""
    said, fields = said_of(kind, "fields_of", table), fields_of(kind)
    head = f"unfoldable pub {said['name']} : Data → Result {said['as']} Refusal"
    body = [f"  {field.name} ← {defined_as(field, table['kind'][field.kind], said['of'])}"
            for field in read_order(kind, said)]
    whole = f"  Ok (record {{ {'; '.join(f'{field.name} = {field.name}' for field in fields)} }})"
    ends = ["  Ok (record {", *(f"    {field.name} = {field.name};" for field in fields), "  })"]
    end = [whole] if len(whole) <= RECORD_WIDTH else ends
    return Part(said["file"], head, "\n".join([head, f"{said['name']} {said['of']} = do", *body, *end]))


def text_lines(kind: Table, table: Table) -> Iterator[Part]:
    """The lines of the lemma that the texts of a record's line are UTF-8: one for each request of this type."""
    said = table["group"][kind["group"]]["utf8"]
    every = {field.key: filled(table["kind"][field.kind]["utf8"], field.name, f"{said['of']}.{field.name}")
             for field in fields_of(kind) if "utf8" in table["kind"][field.kind]}
    every |= {key: table["kind"][which]["utf8"] for key, which, _ in kind.get("also", [])}
    facts = nested([every[key] for key in sorted(every)])
    for variant in kind["lemmas"]:
        head = said["head"].replace("VARIANT", variant)
        yield Part(said["file"], head, f"{head} {facts}", is_line=True)


def plain_lines(kind: Table, table: Table) -> Iterator[Part]:
    """The lines of the lemma that a record's line is one of plain values: what may be missing is named before."""
    said = table["group"][kind["group"]]["plain"]
    named = [(field, table["kind"][field.kind]["plain"]) for field in fields_of(kind)
             if "plain" in table["kind"][field.kind]]
    lets = "".join(f"let {field.name} = {filled(template, field.name, said['of'] + '.' + field.name)} in "
                   for field, template in named)
    facts = [said["fact"], *(field.name for field, _ in named)]
    facts += [how["also_plain"] for how in (table["kind"][field.kind] for field, _ in named) if "also_plain" in how]
    for variant in kind["lemmas"]:
        head = said["head"].replace("VARIANT", variant)
        yield Part(said["file"], head, f"{head} {lets}search ({', '.join(facts)})", is_line=True)


def plain_row_lines(kind: Table, table: Table) -> Iterator[Part]:
    """The lines of the lemma that the values of rows are plain: one for each variant of this type."""
    said = table["group"][kind["group"]]["plain_rows"]
    facts = [filled(table["kind"][field.kind]["plain_row"], field.name, f"{said['of']}.{field.name}")
             for field in sorted(fields_of(kind), key=lambda field: field.key)]
    for variant in kind["lemmas"]:
        head = said["head"].replace("VARIANT", variant)
        yield Part(said["file"], head, f"{head} {nested(facts)}", is_line=True)


def variant_lines(kind: Table, table: Table) -> Iterator[Part]:
    """The lines that say of each variant of this type what is said of the type: in definitions and lemmas."""
    for said in table["group"][kind["group"]].get("lines", []):
        words = {part.upper(): said_of(kind, part, table)["name"] for part in said["names"]}
        text = re.sub("|".join(words) or "$^", lambda found: words[found[0]], said["text"])
        for variant in kind["lemmas"]:
            head = said["head"].replace("VARIANT", variant)
            yield Part(said["file"], head, f"{head} {text}", is_line=True)


def nested(facts: list[str]) -> str:
    """Facts of a list's members, one within another."""
    return "tt" if not facts else "".join(f"({fact}, " for fact in facts) + "tt" + ")" * len(facts)


def read_back(kind: Table, table: Table) -> Part:
    """The lemma that what was written as a record's line is read as it was: field by field, in the reader's order."""
    said, defined = said_of(kind, "back", table), said_of(kind, "rows", table)["name"]
    reads, limit = said_of(kind, "fields_of", table)["name"], said_of(kind, "limits", table)["name"]
    words = {"LIMIT": limit, "READS": reads, "ROWS": defined}
    claim = re.sub("|".join(words), lambda found: words[found[0]], said["claim"])
    head = f"{said['seen']}{said['name']} : {claim}"
    order = read_order(kind, said_of(kind, "fields_of", table))
    steps = [back_step(field, table["kind"][field.kind], said["of"]) for field in order]
    body = [f"    {'(' if place else ''}then _ ({step})" for place, step in enumerate(steps)]
    return Part(said["file"], head, "\n".join([
        head, f"unfolding {reads} {defined}", f"{said['name']} {said['with']} =",
        f"    let rows = {defined} {said['given']} in", *body, f"    refl{')' * (len(steps) - 1)}"]))


def back_step(field: Field, kind: Table, of: str) -> str:
    """How a lemma says that one field is read as it was written."""
    value, name = f"{of}.{field.name}", place_in(field)
    if "step_back" in kind:
        return filled(kind["step_back"], field.key, value)
    back = filled(kind["back"], field.name, value).replace("FIELD", "field.Line" if field.is_keyed else name)
    if field.is_keyed and field.kind.startswith("if_"):
        return f"if_keyed_is {kind['of']} {kind['data']} {name} rows {value} refl refl ({back}) h.{field.name}"
    if field.is_keyed:
        return f"keyed_is {kind['of']} {name} rows _ {value} refl refl {back if back == 'refl' else f'({back})'}"
    if "left_out" in kind:
        return f"left_out_is {kind['of']} {kind['empty']} {name} rows _ {value} refl refl ({back})"
    if not field.kind.startswith("if_"):
        how = f"default_is {kind['of']} {kind['empty']}" if field.has_default else f"required_is {kind['of']}"
        return f"{how} {name} rows _ {value} refl refl {back if back == 'refl' else f'({back})'}"
    return f"optional_is {kind['of']} {kind['data']} {name} rows {value} refl refl ({back}) h.{field.name}"


def read_order(kind: Table, said: Table) -> list[Field]:
    """The fields in the order in which they are read: that of the struct, or of the keys where the table says so."""
    return sorted(fields_of(kind), key=lambda field: field.key) if said.get("by_keys") else fields_of(kind)


def place_in(field: Field) -> str:
    """What the definitions call the place of a field in a line."""
    return f'(codes "{field.key}")' if field.is_keyed else f"field.{camel(field.key)}"


def taken(field: Field, kind: Table) -> str:
    """How the definitions take a field from a line."""
    if field.is_keyed:
        return f"{'if_keyed' if field.kind.startswith('if_') else 'keyed'} {kind['of']}"
    if field.has_default:
        return f"or_default {kind['of']} {kind['empty']}"
    return f"{'optional' if field.kind.startswith('if_') else 'required'} {kind['of']}"


def defined_as(field: Field, kind: Table, of: str) -> str:
    """What the definitions say a field is in a line."""
    if "defined" in kind:
        return filled(kind["defined"], field.key, "").replace("OF", of)
    return f"{taken(field, kind)} {place_in(field)} {of}"


def camel(words: str) -> str:
    return "".join(word.capitalize() for word in words.split("_"))


def line_reader(kind: Table, table: Table) -> Part:
    """The function that reads a line's fields, in the order in which the definitions look for their faults."""
    said, defined, kinds = said_of(kind, "reader", table), said_of(kind, "fields_of", table), table["kind"]
    module, value = Path(defined["file"]).stem, said["of"]
    head = f"#[tactic(auto, unfolding(crate::specs::{module}::{defined['name']}))]"
    name, takes = f"{said['seen']}fn {said['name']}{said['generic']}", ["alloc: Global", f"{value}: {said['takes']}"]
    call = signature(name, takes, f"Result<{kind['name']}, Refusal>")
    order = read_order(kind, defined)
    body = [f"    {how['before']}" for how in (kinds[field.kind] for field in order) if "before" in how]
    for field in order:
        body += [f"    {line}" for line in field_reader(field, kinds[field.kind], said)]
    names = [made_of(field, kinds[field.kind]) for field in fields_of(kind)]
    made = [f"    Ok({kind['name']} {{ {', '.join(names)} }})"] if len(", ".join(names)) <= PATTERN_WIDTH else [
        f"    Ok({kind['name']} {{", *(f"        {name}," for name in names), "    })"]
    ensures = f"    ensures {{ Gives result ({defined['name']} ({said['stands']})) }}"
    return Part(said["file"], head, "\n".join([head, *call, ensures, "{", *body, *made, "}"]))


def field_reader(field: Field, kind: Table, said: Table) -> list[str]:
    """The lines that read one field into a local. A default that makes the call too wide gets a local before."""
    local = kind.get("read_into", field.name) + (f": {kind['read_as']}" if "read_as" in kind else "")
    place = f'"{field.key}"' if field.is_keyed else f"Field::{camel(field.key)}"
    how, before = "" if "read" in kind else taken(field, kind).split()[0], []
    arguments = ["alloc", said["of"], place, *([kind["empty_value"]] if field.has_default else [])]
    if field.has_default and field.kind == "text" and "texts" in said:
        how, arguments = said["texts"], arguments[:-1]
    if len(", ".join(arguments)) > CALL_WIDTH:
        before, arguments[-1] = [f"let by_default = {arguments[-1]};"], "by_default"
    whole = filled(kind["read"], field.key, said["of"]) if "read" in kind else f"{how}({', '.join(arguments)})"
    return [*before, f"let {local} = {whole}?;"]


def made_of(field: Field, kind: Table) -> str:
    """How a field's value is taken from its local, where the struct is made."""
    if "made" not in kind:
        return field.name
    return f"{field.name}: {filled(kind['made'], field.key, '', kind.get('read_into', field.name))}"


def signature(name: str, takes: list[str], gives: str = "Result<(), AllocError>") -> list[str]:
    """The head of a function that may refuse or run out of memory, broken as Rust's formatter does."""
    end = f") -> {gives}"
    whole = f"{name}({', '.join(takes)}{end}"
    return [whole] if len(whole) <= WIDTH else [f"{name}(", *(f"    {one}," for one in takes), end]


def rows(kind: Table, table: Table) -> Part:
    """The rows of a record's line, as a definition."""
    said = said_of(kind, "rows", table)
    head = f"unfoldable pub {said['name']} : {said['takes']}"
    written = [*members(kind, said["of"], "row", table["kind"]), "[]"]
    lines = [" ∷ ".join(line) for line in broken(written, kind.get("lines", []))]
    body = [f"    {lines[0]}", *(f"    ∷ {line}" for line in lines[1:])]
    return Part(said["file"], head, "\n".join([head, f"{said['name']} {said['given']} =", *body]))


def writer(kind: Table, table: Table) -> Part:
    """The function that writes the rows of a record's line."""
    said, defined = said_of(kind, "put", table), said_of(kind, "rows", table)["name"]
    head = ("#[tactic(auto, unfolding(wire_record_rows::specs::Rows::add_row, wire_record_rows::specs::Rows::add_rows, "
            f"crate::specs::Trees::{defined}))]")
    call = signature(f"{said['seen']}fn {said['name']}", said["takes"])
    ensures = ["    ensures { OnOk result (sheet_of page.new",
               f"        ≡ add_rows ({defined} {said['given']}) (sheet_of page.old)) }}"]
    written = members(kind, said["of"], "put", table["kind"])
    body = [f"    {line}?;" for line in written[:-1]] + [f"    {written[-1]}"]
    return Part(said["file"], head, "\n".join([head, *call, *ensures, "{", *body, "}"]))


def known(kind: Table, table: Table) -> Part:
    """The function that shows that a value that there is, is within the limits of its type."""
    said, kinds = said_of(kind, "known", table), table["kind"]
    value, is_copied = said["of"], kind.get("copied", False)
    head = f"fn {said['name']}({value}: {'' if is_copied else '&'}{kind['name']})"
    limit = said_of(kind, "limits", table)["name"]
    ensures = f"    ensures {{ {limit} {value}{'' if is_copied else '.now'} }}"
    body = [f"    {filled(kinds[field.kind]['known'], field.name, value + '.' + field.name, field.local)};"
            for field in fields_of(kind) if "known" in kinds[field.kind]]
    return Part(said["file"], head, "\n".join([head, ensures, "{", *body, "}"]))


def arm(left: str, right: str) -> list[str]:
    """An arm of a match in a method, broken as Rust's formatter does."""
    whole = f"            {left} => {right},"
    return [whole] if len(whole) <= WIDTH else [f"            {left} =>", f"                {right},"]


def variants_of(listed: Table) -> list[tuple[str, str]]:
    """The variants of an enum, each with what it carries: nothing, or a type."""
    return [(name, carried.strip()) for name, _, carried in (row.partition(" ") for row in listed["variants"])]


def drops(listed: Table) -> Part:
    head, name = f"impl Drop for {listed['name']} {{", listed["name"]
    arms = [line for variant, carried in variants_of(listed)
            for line in [f"            {name}::{variant}{'(_)' if carried else ''} => {{}}"]]
    return Part(listed["file"], head, "\n".join(
        [head, "    fn drop(self) {", "        match self {", *arms, "        }", "    }", "}"]))


def variants(listed: Table) -> Part:
    """The enum itself."""
    head = f"pub enum {listed['name']} {{"
    lines = []
    for variant, carried in variants_of(listed):
        lines += [f"    /// {line}" for line in listed.get("comments", {}).get(variant, [])]
        whole = f"    {variant}{f'({carried})' if carried else ''},"
        lines += [whole] if len(whole) <= WIDTH else [f"    {variant}(", f"        {carried},", "    ),"]
    return Part(listed["file"], head, "\n".join([head, *lines, "}"]))


def clone_arm(name: str, variant: str, carried: str, is_copied: bool) -> list[str]:
    """An arm that copies a variant, broken as Rust's formatter does: the inner call first, and then the outer one."""
    left, made = f"            {name}::{variant}", f"{name}::{variant}"
    if not carried:
        return [f"{left} => Ok({made}),"]
    value = "*a" if is_copied else "a.clone()?"
    if len(whole := f"{left}(a) => Ok({made}({value})),") <= WIDTH:
        return [whole]
    if not is_copied and len(begin := f"{left}(a) => Ok({made}(") <= WIDTH:
        return [begin, f"                {value},", "            )),"]
    return [f"{left}(a) => Ok(", f"                {made}({value}),", "            ),"]


def clones(listed: Table) -> Part:
    """How a value of an enum is copied. What a variant carries is copied as it lies where the table says so."""
    name, copied = listed["name"], listed["copied"]
    head = "    fn clone(&self) -> Result<Self, AllocError> {"
    arms = [line for variant, carried in variants_of(listed)
            for line in clone_arm(name, variant, carried, carried in copied)]
    return Part(listed["file"], head, "\n".join([head, "        match self {", *arms, "        }", "    }", "}"]))


def kinds_enum(listed: Table) -> Part:
    head = "pub enum Kind {"
    return Part(listed["kinds"], head, "\n".join([head, *(f"    {name}," for name, _ in variants_of(listed)), "}"]))


def kind_names(listed: Table) -> Part:
    head = "impl Kind {"
    arms = [line for name, _ in variants_of(listed) for line in arm(f"Kind::{name}", f'"{name}"')]
    return Part(listed["kinds"], head, "\n".join([
        head, "    /// The kind's name on the wire.", "    pub fn name(self) -> &'static str",
        "        ensures { result.now ≡ kind_name self }", "    {", "        match self {", *arms,
        "        }", "    }", "}"]))


def rows_of(listed: Table) -> list[tuple[str, str]]:
    """The variants of a list of names, each with its name."""
    return [(variant, word) for variant, word in (row.split() for row in listed["variants"])]


def names(listed: Table) -> Iterator[Part]:
    """A list of names: the enum, its names on the wire, what the definitions say these are, and what reads them."""
    for part in listed.get("parts", ["enum", "name", "definition"]):
        yield from NAME_MAKERS[part](listed)


def names_enum(listed: Table) -> Iterator[Part]:
    head = f"{listed.get('seen', 'pub ')}enum {listed['name']} {{"
    yield Part(listed["file"], head, "\n".join([head, *(f"    {variant}," for variant, _ in rows_of(listed)), "}"]))


def names_method(listed: Table) -> Iterator[Part]:
    """The method that gives a value's name."""
    name, head = listed["name"], f"impl {listed['name']} {{"
    arms = [line for variant, word in rows_of(listed) for line in arm(f"{name}::{variant}", f'"{word}"')]
    yield Part(listed["file"], head, "\n".join([
        head, *([f"    /// {listed['said']}"] if "said" in listed else []),
        f"    {listed.get('seen', 'pub ')}fn name(self) -> &'static str",
        f"        ensures {{ result.now ≡ {listed['function']} self }}", "    {", "        match self {", *arms,
        "        }", "    }", "}"]))


def names_function(listed: Table) -> Iterator[Part]:
    """The function that gives a value's name, where the type is another crate's: `of` is what it calls the value."""
    name, value = listed["name"], listed["of"]
    head = f"pub(crate) fn {listed['function']}({value}: {name}) -> &'static str"
    arms = [f'        {name}::{variant} => "{word}",' for variant, word in rows_of(listed)]
    yield Part(listed["read"]["file"], head, "\n".join([
        head, f"    ensures {{ result.now ≡ {listed['function']} {value} }}", "{", f"    match {value} {{", *arms,
        "    }", "}"]))


def names_definition(listed: Table) -> Iterator[Part]:
    head = f"abbrev pub {listed['function']} : {listed['name']} → List ℕ"
    prefix = f"{listed['prefix']}." if listed["prefix"] else ""
    yield Part(listed["definition"], head, "\n".join([head, *(
        f'{listed["function"]} {prefix}{variant} = codes "{word}"' for variant, word in rows_of(listed))]))


def named_arm(value: str, word: str) -> list[str]:
    """An arm that reads a name, broken as Rust's formatter does."""
    whole = f'        "{word}" => Some({value}),'
    return [whole] if len(whole) <= WIDTH else [f'        "{word}" => Some(', f"            {value},", "        ),"]


def names_reader(listed: Table) -> Iterator[Part]:
    """The function that reads a name, and what the definitions say of it."""
    name, read = listed["name"], listed["read"]
    function, prefix = read["function"], read.get("prefix", listed["prefix"])
    head = f"fn {function}(name: &str) -> Option<{name}>"
    arms = [line for variant, word in rows_of(listed) for line in named_arm(f"{name}::{variant}", word)]
    yield Part(read["file"], head, "\n".join([
        head, f"    ensures {{ result ≡ {function} name.now }}", "{", "    match name {", *arms, "        _ => None,",
        "    }", "}"]))
    head = f"abbrev pub {function} : List ℕ → Option {name}"
    every = [f"{prefix}.{variant}" if prefix else variant for variant, _ in rows_of(listed)]
    body = [f"{function} = named {listed['function']} ({' ∷ '.join([*every, '[]'])})"]
    if len(body[0]) > DEFINITION_WIDTH:
        first, *others = (" ∷ ".join(line) for line in broken([*every, "[])"], read.get("lines", [])))
        body = [f"{function} =", f"    named {listed['function']} ({first}", *(f"    ∷ {line}" for line in others)]
    yield Part(read["definition"], head, "\n".join([head, *body]))


NAME_MAKERS: dict[str, Callable[[Table], Iterator[Part]]] = {
    "enum": names_enum, "name": names_method, "name_function": names_function, "definition": names_definition,
    "read": names_reader,
}


def variant_readers(listed: Table, table: Table) -> Iterator[Part]:
    """What reads a variant by its kind: the function and its definition. A variant that carries no struct of the table
    has a field of its own, whose row stands in `fields`."""
    read, name = listed["read"], listed["name"]
    types, kinds = {kind["name"]: kind for kind in table["type"]}, table["kind"]
    arms: list[str] = []
    lines: list[str] = []
    for variant, carried in variants_of(listed):
        kind = f"{read['prefix']}.{variant}" if read["prefix"] else variant
        if not carried:
            arms.append(f"        {read['kind']}::{variant} => Ok({name}::{variant}),")
            lines.append(f"{read['defined']} {kind} d = Ok {read['made']}.{variant}")
            continue
        if variant in read.get("fields", {}):
            field, = fields_of({"fields": [read["fields"][variant]]})
            arms += [f"        {read['kind']}::{variant} => {{",
                     *(f"            {line}" for line in field_reader(field, kinds[field.kind], read)),
                     f"            Ok({name}::{variant}({field.name}))", "        }"]
            reads = defined_as(field, kinds[field.kind], "d")
        else:
            of_type = types[carried.removeprefix("Boxed<").removesuffix(">")]
            call, reads = read.get("calls", {}).get(variant, (
                f"{said_of(of_type, 'reader', table)['name']}(alloc, {read['of']})?",
                f"{said_of(of_type, 'fields_of', table)['name']} d"))
            arms += boxed_arm(read, name, variant, call) if carried.startswith("Boxed<") else read_arm(
                f"{read['kind']}::{variant}", f"{name}::{variant}", call, read)
        made = f"(λ {read['as']}. Ok ({read['made']}.{variant} {read['as']}))"
        lines.append(f"{read['defined']} {kind} d = {reads} >>= {made}")
    call = signature(read["call"], read["takes"], f"Result<{name}, Refusal>")
    ensures = f"    ensures {{ Gives result ({read['stands']}) }}"
    yield Part(read["file"], call[0], "\n".join([
        *call, ensures, "{", f"    match {read['matches']} {{", *arms, "    }", "}"]))
    head = f"abbrev pub {read['defined']} : {read['kind']} → Data → Result {name} Refusal"
    yield Part(read["definition"], head, "\n".join([head, *lines]))


def boxed_arm(read: Table, name: str, variant: str, value: str) -> list[str]:
    """An arm that reads a struct and puts it into a box."""
    return [f"        {read['kind']}::{variant} => {{", f"            let {read['local']} = Boxed::new(alloc, {value})?;",
            f"            Ok({name}::{variant}({read['local']}))", "        }"]


def read_arm(kind: str, variant: str, value: str, read: Table) -> list[str]:
    """An arm that reads a struct. One that is too wide has a block, with a local where the table names one, or is
    broken within the innermost call."""
    whole = f"        {kind} => Ok({variant}({value})),"
    if len(whole) <= WIDTH:
        return [whole]
    if "local" in read:
        local = read["local"]
        return [f"        {kind} => {{", f"            let {local} = {value};", f"            Ok({variant}({local}))",
                "        }"]
    if not read.get("within", False):
        return [f"        {kind} => {{", f"            Ok({variant}({value}))", "        }"]
    call, arguments = value.removesuffix(")?").split("(")
    return [f"        {kind} => Ok({variant}({call}(", f"            {arguments},", "        )?)),"]


def content_kinds(listed: Table) -> Iterator[Part]:
    """Which kind a value is of, where its kinds are a list of names: the function, and its definition."""
    of, name = listed["kind_of"], listed["name"]
    head = f"pub(crate) fn kind_of({of['of']}: &{name}) -> {of['kind']}"
    arms = [f"        {name}::{variant}(_) => {of['kind']}::{variant}," for variant, _ in variants_of(listed)]
    yield Part(of["file"], head, "\n".join([
        head, f"    ensures {{ result ≡ kind_of {of['of']}.now }}", "{", f"    match {of['of']} {{", *arms,
        "    }", "}"]))
    head = f"abbrev pub kind_of : {name} → {of['kind']}"
    yield Part(of["definition"], head, "\n".join([head, *(
        f"kind_of ({of['made']}.{variant} {of['as']}) = kind.{variant}" for variant, _ in variants_of(listed))]))


def kinds_as_names(listed: Table) -> Table:
    """The kinds of an enum's variants, as a list of names that is read."""
    return {"name": "Kind", "function": "kind_name", "prefix": "kind", "read": listed["kind_read"],
            "variants": [f"{variant} {variant}" for variant, _ in variants_of(listed)]}


def kind_calls(listed: Table) -> Part:
    head = f"impl {listed['name']} {{"
    arms = [line for name, carried in variants_of(listed)
            for line in arm(f"{listed['name']}::{name}{'(_)' if carried else ''}", f"Kind::{name}")]
    return Part(listed["kinds"], head, "\n".join([
        head, "    /// The kind of the event that carries this.", "    pub fn kind(&self) -> Kind",
        "        ensures { result ≡ kind_of self.now }", "    {", "        match self {", *arms,
        "        }", "    }", "}"]))


def kind_definitions(listed: Table) -> Iterator[Part]:
    """What the definitions say is the kind of each variant, and the name of each kind."""
    file, every = listed["kind_definitions"], variants_of(listed)
    head = f"abbrev pub kind_of : {listed['name']} → Kind"
    yield Part(file, head, "\n".join([head, *(
        f"kind_of {f'(event.{name} a)' if carried else f'event.{name}'} = kind.{name}" for name, carried in every)]))
    head = "abbrev pub kind_name : Kind → List ℕ"
    yield Part(file, head, "\n".join([head, *(f'kind_name kind.{name} = codes "{name}"' for name, _ in every)]))


def python_table(head: str, rows: list[str]) -> Part:
    """A table of the client that reads histories."""
    return Part(HISTORIES, head, "\n".join([head, *(f"    {row}," for row in rows), "}"]))


def endings(table: Table) -> Iterator[Part]:
    """Which event opens what in a history, which one ends it, and which status a run has that an event closes."""
    openings = table["opening"]
    yield python_table("OPENINGS: Dict[str, Opening] = {", [
        f'"{it["event"]}": Opening({it["key"].upper()}, "{it["kind"]}", "{it["name"]}")' for it in openings if "kind" in it])
    yield python_table("ENDS: Dict[str, str] = {", [
        f'"{end}": {it["key"].upper()}' for it in openings if "kind" in it for end in it["ends"]])
    yield python_table("SETTLES: Dict[str, str] = {", [
        f'"{end}": {it["key"].upper()}' for it in openings for end in settled_by(it)])
    statuses, = (listed for listed in table["names"] if listed["name"] == "Status")
    yield python_table("STATUS: Dict[str, str] = {", [
        f'"WorkflowExecution{word}": "{word}"' for _, word in rows_of(statuses) if word != RUNNING])


def settled_by(opening: Table) -> list[str]:
    """The ends that a workflow's code learns of."""
    said = opening.get("settles", [])
    return opening["ends"] if said is True else said


def start_keys(table: Table) -> Iterator[Part]:
    """The keys that a start and a signal with start have, for the edge and the Python client."""
    named = {kind["name"]: [field.key for field in fields_of(kind)] for kind in table["type"]}
    keys = [key for key in named["Start"] if key in named["SignalWithStart"]]
    lines = textwrap.wrap(" ".join(keys), ROW_WIDTH - 8)
    texts = [f'    "{line}{" " if line != lines[-1] else ""}"' for line in lines]
    yield Part(PYTHON_STARTS, "_START = (", "\n".join(["_START = (", *texts, ")"]))
    head = "const START: &[&str] = &["
    yield Part(EDGE_STARTS, head, "\n".join([head, *(f'    "{key}",' for key in keys), "];"]))


MAKERS: dict[str, Callable[[Table, Table], Part]] = {
    "limits": limits, "rows": rows, "put": writer, "known": known, "members": event_members, "event": event_writer,
    "fields_of": line_fields, "reader": line_reader, "back": read_back,
}


# Lines for each variant of a type.
LINE_MAKERS: dict[str, Callable[[Table, Table], Iterator[Part]]] = {
    "utf8": text_lines, "plain": plain_lines, "plain_rows": plain_row_lines, "lines": variant_lines,
}


def parts_of(table: Table) -> Iterator[Part]:
    """All parts that the table gives."""
    for kind in table["type"]:
        yield struct(kind, table)
        if kind.get("drop", table["group"][kind["group"]].get("drop", False)):
            yield destructor(kind, table)
        yield from (MAKERS[part](kind, table) for part in kind.get("parts", []))
        for lemma, lines in LINE_MAKERS.items():
            if "lemmas" in kind and lemma in table["group"][kind["group"]]:
                yield from lines(kind, table)
    for listed in table["enum"]:
        yield variants(listed)
        yield drops(listed)
        if "copied" in listed:
            yield clones(listed)
        if "kinds" in listed:
            yield from (kinds_enum(listed), kind_names(listed), kind_calls(listed))
            yield from kind_definitions(listed)
        if "kind_read" in listed:
            yield from names_reader(kinds_as_names(listed))
        if "read" in listed:
            yield from variant_readers(listed, table)
        if "kind_of" in listed:
            yield from content_kinds(listed)
    for listed in table["names"]:
        yield from names(listed)
    yield from endings(table)
    yield from start_keys(table)


def place_of(text: str, part: Part) -> tuple[int, int] | None:
    """Where a part stands in a file: from its first line to the next empty line, or the end of its one line. None
    where it isn't there once."""
    begins = part.head + (" " if part.is_line else "\n")
    begin = 0 if text.startswith(begins) else text.find(f"\n{begins}") + 1
    if (not begin and not text.startswith(begins)) or f"\n{begins}" in text[begin + len(part.head):]:
        return None
    end = text.find("\n" if part.is_line else "\n\n", begin)
    return begin, end if end >= 0 else len(text.rstrip("\n"))


def look(table: Table, top: Path, writes: bool) -> list[str]:
    """The parts that stand in the files in another way than the table gives. They are written where that is asked."""
    faults = []
    for part in parts_of(table):
        path = top / part.path
        text = path.read_text(encoding="utf-8") if path.is_file() else ""
        place = place_of(text, part)
        if not place:
            faults.append(f"{part.path}: there is not one part that begins: {part.head}")
        elif text[place[0]:place[1]] != part.text:
            faults.append(f"{part.path}: not what {TABLE} gives: {part.head}")
            if writes:
                path.write_text(text[:place[0]] + part.text + text[place[1]:], encoding="utf-8")
    return faults


def read_table(top: Path = TOP) -> Table:
    """The whole table: kinds and groups of tools/fields.toml, and the lists of each file of tools/fields."""
    table = tomllib.loads((top / TABLE).read_text(encoding="utf-8"))
    for file in sorted((top / TYPES).glob("*.toml")):
        for key, listed in tomllib.loads(file.read_text(encoding="utf-8")).items():
            table.setdefault(key, []).extend(listed)
    return table


def types_in(name: str, top: Path = TOP) -> list[Table]:
    """The types of a file of tools/fields."""
    found: list[Table] = tomllib.loads((top / TYPES / f"{name}.toml").read_text(encoding="utf-8"))["type"]
    return found


def main(words: list[str]) -> int:
    options = argparse.ArgumentParser(
        prog="tools/generate.py", description=__doc__, formatter_class=argparse.RawDescriptionHelpFormatter)
    options.add_argument("--write", action="store_true")
    options.add_argument("--parts", action="store_true")
    asked = options.parse_args(words)
    table = read_table()
    if asked.parts:
        parts = list(parts_of(table))
        print("\n".join(f"{part.path}: {part.head} ({part.text.count(chr(10)) + 1} lines)" for part in parts))
        print(f"{len(parts)} parts, {sum(part.text.count(chr(10)) + 1 for part in parts):,} lines", file=sys.stderr)
        return 0
    faults = look(table, TOP, asked.write)
    print("\n".join(faults), end="\n" if faults else "")
    return 1 if faults and not asked.write else 0


if __name__ == "__main__":
    sys.exit(main(sys.argv[1:]))
