#!/usr/bin/env python3
"""Writes docs/openapi.json, the server's HTTP interface, from the table of operations in docs/PROFILE.md.

    tools/http_api.py            says whether docs/openapi.json is what this writes; 1 if it isn't
    tools/http_api.py --write    writes it

PROFILE's table has each operation with its fields and replies. What kind of value a field has stands in tools/fields,
but for what no record has; this and the kinds' own schemas stand here, and so do the paths that are no calls. A test of the client holds the file against a server that runs.
"""
from __future__ import annotations

import json
import re
import sys
from pathlib import Path
from typing import Any

import client_package  # noqa: F401 (it says where the next ones lie)
import generate
from wfserve import __version__
from wfserve.operations import STATUSES

TOP = Path(__file__).resolve().parent.parent
FILE = TOP / "docs/openapi.json"
PROFILE = TOP / "docs/PROFILE.md"
Json = dict[str, Any]
# These may be left out, though the table names no default: the policies' own stand in their rules.
DEFAULTED = ("reuse", "conflict")
POLLS = ("poll_workflow_task", "poll_activity_task")
LONGEST, MOST_MOMENT, MOST_SHARD = 10**12, 10**15, 63

TEXT: Json = {"type": "string", "description": "at most 4,096 bytes of UTF-8"}
ID: Json = {"type": "string", "minLength": 1, "maxLength": 255, "description": "1 to 255 bytes of UTF-8"}
RUN: Json = {"type": "string", "description": "a run id"}
NUMBER: Json = {"type": "integer", "minimum": 0}
FLAG: Json = {"type": "boolean"}
SPAN: Json = {"type": "integer", "minimum": 0, "maximum": LONGEST, "description": "milliseconds; 0 is none"}
SHARD: Json = {"type": "integer", "minimum": 0, "maximum": MOST_SHARD}


def one_of(*names: str) -> Json:
    return {"type": "string", "enum": list(names)}


KINDS: dict[str, Json] = {
    **dict.fromkeys(("id", "if_id"), ID), **dict.fromkeys(("text", "if_text"), TEXT), "if_run": RUN, "flag": FLAG,
    **dict.fromkeys(("span", "span_unless_0"), SPAN),
    "reuse": one_of("AllowDuplicate", "AllowDuplicateFailedOnly", "RejectDuplicate"),
    "conflict": one_of("Fail", "UseExisting", "TerminateExisting"),
}
FIELDS: dict[str, Json] = {
    **{field.key: KINDS[field.kind] for asked in generate.types_in("requests") for field in generate.fields_of(asked)
       if field.kind in KINDS},
    **dict.fromkeys(("result", "details"), TEXT), "token": {"type": "string", "description": "the token of a task"},
    "commands": {"type": "array", "maxItems": 10_000, "items": {"$ref": "#/components/schemas/Command"}},
    **dict.fromkeys(("shard", "from", "to"), SHARD), "stop": {"type": "integer", "minimum": 0, "maximum": 2},
}
# What a reply has, where that is no number.
REPLIES: dict[str, Json] = {
    **dict.fromkeys(("run", "token", "workflow_id", "activity_id", "activity_type", "input", "details", "cause",
                     "class", "retry", "status"), {"type": "string"}),
    "cancel_requested": FLAG, "events": {"type": "array", "items": {"$ref": "#/components/schemas/Event"}},
}
WAIT: Json = {"type": "integer", "minimum": 0, "maximum": 60_000}
# What these operations wait for.
WAITS = {
    **dict.fromkeys(POLLS, "for how many milliseconds it waits for a task"),
    "describe": "for how many milliseconds it waits until the run has closed",
}


def table() -> list[list[str]]:
    """The rows of PROFILE's table of operations."""
    text = PROFILE.read_text(encoding="utf-8")
    rows = text[text.index("| op | fields (default) | reply |"):].split("\n\n")[0].splitlines()[2:]
    return [[cell.strip() for cell in row.strip("|").split("|")] for row in rows]


def fields_of(cell: str, rows: dict[str, str]) -> list[tuple[str, bool]]:
    """The fields of an operation, and whether each has to be there."""
    found: list[tuple[str, bool]] = []
    as_other = re.match(r"as (\w+) without (\w+), then (.*)", cell)
    if as_other:
        found = [it for it in fields_of(rows[as_other[1]], rows) if it[0] != as_other[2]]
        cell = as_other[3]
    for part in cell.split(", "):
        named = re.fullmatch(r"(\w+)(\??)( \(.*\))?", part)
        assert named, f"{PROFILE.name}: no field: {part}"
        found.append((named[1], not (named[2] or named[3] or named[1] in DEFAULTED)))
    return found


def replies_of(cell: str) -> list[Json]:
    """What an operation is answered, a schema for each `ok`."""
    found = []
    for part in cell.split("; "):
        oks = re.findall(r"`(\w+)`", part)
        rest = re.sub(r"`\w+`|each with|where (?:it|stop) is \d", "", part)
        keys = re.findall(r"(\w+)(\??)", rest)
        for ok in oks:
            found.append(reply_schema(ok, keys))
    return found


def reply_schema(ok: str, keys: list[tuple[str, str]]) -> Json:
    members = {"ok": {"type": "string", "enum": [ok]}, "line": NUMBER, **{key: REPLIES.get(key, NUMBER) for key, _ in keys}}
    required = ["ok", "line", *(key for key, optional in keys if not optional)]
    return {"type": "object", "properties": members, "required": required, "additionalProperties": False}


def content(schema: Json) -> Json:
    return {"application/json": {"schema": schema}}


def answer(description: str, schema: Json) -> Json:
    return {"description": description, "content": content(schema)}


def ref(name: str) -> Json:
    return {"$ref": f"#/components/schemas/{name}"}


FAULTS = {
    400: "BadCall: the body is no call", 401: "NoToken", 403: "WrongHost, or NotPermitted: the token lacks a right",
    408: "SlowBody", 413: "the body is too long", 415: "NotJson: the content type isn't application/json",
    429: "TooManyCalls: call again after Retry-After", 500: "the server, its log or its program is at fault",
    503: "Busy or Draining: call again after Retry-After", 507: "LogFull: the disk is full",
}
KEY = {
    "name": "Idempotency-Key", "in": "header", "required": False,
    "schema": {"type": "string", "pattern": r"^[!#-\[\]-~]{1,200}$"},
    "description": "a text of the call's own: made again with it, the call counts once and has the same reply",
}


def faults(refusals: bool) -> dict[str, Json]:
    """The answers that are no reply, and with them the refusals where these have statuses of their own."""
    statuses = {*FAULTS, 422, *(STATUSES.values() if refusals else ())}
    kind = "Refused" if refusals else "Fault"
    return {str(status): {"$ref": f"#/components/responses/{kind}{status}"} for status in sorted(statuses)}


def responses() -> Json:
    """What paths are answered that is no reply, or a refusal, by its status."""
    said = {**FAULTS, 422: "KeyReused: another call was made with this Idempotency-Key"}
    found = {f"Fault{status}": answer(text, ref("Fault")) for status, text in said.items()}
    for status in sorted({*said, *STATUSES.values()}):
        names = [name for name, its in STATUSES.items() if its == status]
        texts = [said[status]] if status in said else []
        schema: Json = ref("Refusal") if names else ref("Fault")
        if names and texts:
            schema = {"anyOf": [ref("Refusal"), ref("Fault")]}
        found[f"Refused{status}"] = answer("; ".join([*texts, *names]), schema)
    return found


def operation(op: str, fields: list[tuple[str, bool]], replies: list[Json]) -> Json:
    members = {name: FIELDS[name] for name, _ in fields}
    if op in WAITS:
        members["wait"] = {**WAIT, "description": WAITS[op]}
    body: Json = {"type": "object", "properties": members}
    required = [name for name, needed in fields if needed]
    if required:
        body["required"] = required
    return {"post": {
        "operationId": op, "parameters": [KEY], "requestBody": {"required": True, "content": content(body)},
        "responses": {"200": answer("its reply", {"oneOf": replies} if len(replies) > 1 else replies[0]), **faults(True)},
    }}


def any_call() -> Json:
    body = {"type": "object", "properties": {"op": {"type": "string"}}, "description": "an operation's fields, and `op`"}
    said = "its reply, also where that is a refusal"
    reply = {"anyOf": [ref("Reply"), ref("Refusal")]}
    return {"post": {
        "operationId": "call", "parameters": [KEY], "requestBody": {"required": True, "content": content(body)},
        "responses": {"200": answer(said, reply), **faults(False)},
    }}


def got(name: str, said: str, schema: Json, parameters: list[Json] | None = None, more: Json | None = None) -> Json:
    """A path that is read."""
    return {"get": {"operationId": name, "parameters": parameters or [], "responses": {
        "200": answer(said, schema), **(more or {}),
    }}}


def query(name: str, description: str) -> Json:
    return {"name": name, "in": "query", "required": False, "schema": {"type": "string"}, "description": description}


def in_path(name: str) -> Json:
    return {"name": name, "in": "path", "required": True, "schema": {"type": "string"}}


def listing(names: str, *extra: str) -> Json:
    """An object that has at least these members."""
    return {"type": "object", "required": names.split(), "properties": {name: {} for name in (*names.split(), *extra)}}


def others() -> Json:
    """The paths that are no calls."""
    health = listing("status lines bytes clock_ahead queue_full compacting")
    run = [in_path("workflow_id"), in_path("run")]
    gone = {"404": answer("there is no such run", ref("Fault"))}
    compact = {"type": "object", "properties": {"capacity": {"type": "integer", "minimum": 0, "maximum": 65_536}}}
    return {
        "/compact": {"post": {
            "operationId": "compact", "requestBody": {"required": True, "content": content(compact)},
            "responses": {"200": answer("the log was compacted", listing("ok lines bytes records capacity")),
                          **{status: it for status, it in faults(False).items() if status not in ("422", "507")}},
        }},
        "/health/live": got("live", "it runs", listing("status")),
        "/health/ready": got("ready", "calls are taken", health, more={"503": answer("they aren't: `status` says why", health)}),
        "/metrics": {"get": {"operationId": "metrics", "responses": {
            "200": {"description": "counts and times for Prometheus", "content": {"text/plain": {"schema": {"type": "string"}}}},
        }}},
        "/blobs/{hash}": {**blob_put(), **blob_get()},
        "/api/workflows": got(
            "list_workflows", "the latest runs", listing("workflows"),
            [
                query("search", "a text that the workflow ID has"), query("status", "a status, or Stuck"),
                query("type", "a workflow type"), query("from", "the first moment of a start, in milliseconds"),
                query("until", "the last one"), query("skip", "how many of the latest are left out"),
            ],
            {"400": answer("a number is none", ref("Fault"))},
        ),
        "/api/workflows/{workflow_id}/{run}": got(
            "show_run", "a run's history, and what is pending", listing("workflow", "events", "pending", "parent"),
            [*run, query("length", "events that are known: where there are no more, only `workflow` is answered"),
             query("after", "leaves the events up to this one out")], gone,
        ),
        "/api/workflows/{workflow_id}/{run}/history.json": got(
            "download_history", "the reply that has the history, as a file", ref("Reply"), run, gone,
        ),
        "/api/queues": got("list_queues", "what waits in each task queue, and who polls", listing("queues now runs")),
    }


BYTES: Json = {"application/octet-stream": {"schema": {"type": "string", "format": "binary"}}}
HASH: Json = {"name": "hash", "in": "path", "required": True, "schema": {"type": "string", "pattern": "^[0-9a-f]{64}$"},
              "description": "the SHA-256 of the bytes"}


def blob_put() -> Json:
    said = {"404": "NoBlob: the path names no hash", "408": "SlowBody", "413": "BlobTooLarge: over 2,097,152 bytes",
            "422": "OtherHash: the bytes have another hash", "507": "BlobsFull: there is no room"}
    answers = {"200": answer("it is on the disk", listing("ok bytes")),
               **{status: answer(text, ref("Fault")) for status, text in said.items()}}
    return {"put": {"operationId": "put_blob", "parameters": [HASH], "requestBody": {"required": True, "content": BYTES},
                    "responses": answers}}


def blob_get() -> Json:
    answers = {"200": {"description": "the bytes", "content": BYTES}, "404": answer("NoBlob", ref("Fault"))}
    return {"get": {"operationId": "get_blob", "parameters": [HASH], "responses": answers}}


def schemas() -> Json:
    text = {"type": "string"}
    event = {"at": NUMBER, "attrs": {"type": "object"}, "id": NUMBER, "type": text}
    refusal = {"error": {"type": "string", "enum": list(STATUSES)}, "line": NUMBER, "no": NUMBER, "field": text, "run": RUN}
    return {
        "Command": {"type": "object", "required": ["type"], "properties": {"type": text},
                    "description": "a command of docs/PROFILE.md, as ScheduleActivityTask"},
        "Event": {"type": "object", "required": list(event), "properties": event, "additionalProperties": False},
        "Reply": {"type": "object", "required": ["ok", "line"], "properties": {"ok": text, "line": NUMBER}},
        "Refusal": {"type": "object", "required": ["error", "line", "no"], "properties": refusal,
                    "additionalProperties": False, "description": "a reply by which the service refuses a call"},
        "Fault": {"type": "object", "required": ["error", "said"], "properties": {"error": text, "said": text},
                  "additionalProperties": False, "description": "an answer that is no reply of the service"},
    }


def document() -> Json:
    """The whole file."""
    rows = {op: fields for op, fields, _ in table()}
    calls = {f"/calls/{op}": operation(op, fields_of(fields, rows), replies_of(replies)) for op, fields, replies in table()}
    return {
        "openapi": "3.0.3",
        "info": {"title": "wfserve", "version": __version__,
                 "description": "Calls of a workflow service. docs/HTTP.md tells it, docs/PROFILE.md has the rules."},
        "servers": [{"url": "http://127.0.0.1:7233"}],
        "security": [{}, {"token": []}],
        "paths": {"/calls": any_call(), **calls, **others()},
        "components": {
            "securitySchemes": {"token": {"type": "http", "scheme": "bearer"}}, "schemas": schemas(), "responses": responses(),
        },
    }


def text() -> str:
    return json.dumps(document(), indent=1) + "\n"


def main(words: list[str]) -> int:
    if words == ["--write"]:
        FILE.write_text(text(), encoding="utf-8")
    elif words:
        print(__doc__.strip())
        return 0 if words[0] in ("-h", "--help") else 2
    elif not FILE.is_file() or FILE.read_text(encoding="utf-8") != text():
        print(f"{FILE.relative_to(TOP)} is not what tools/http_api.py writes: tools/http_api.py --write writes it")
        return 1
    return 0


if __name__ == "__main__":
    sys.exit(main(sys.argv[1:]))
