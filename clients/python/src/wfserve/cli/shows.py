"""The commands that only look: list, show, describe, tasks, trace; and call, which makes any call."""

from __future__ import annotations

import argparse
import dataclasses
import json
import pathlib
import sys
from typing import List

from wfserve.client import Client
from wfserve.descriptions import Description, Pending
from wfserve.picture import page, picture_file
from wfserve.types import Json
from wfserve.workflows.loading import named, workflow_named

from .output import plain, print_json, print_pairs, print_table
from .statuses import Status
from .words import moment, span, value_of_word
from .workflows import add_id


STATUSES = ("Running", "Stuck", "Completed", "Failed", "Canceled", "Terminated", "TimedOut", "ContinuedAsNew")


def add_list(parser: argparse.ArgumentParser) -> None:
    parser.add_argument("text", nargs="?", default="", help="what a workflow ID has in it")
    parser.add_argument("--status", choices=STATUSES, default="", help="only those of this status")


def list_workflows(args: argparse.Namespace, client: Client) -> Status:
    """The runs that the server knows, the latest first, at most 200."""
    rows = client.list(args.text, args.status)
    if args.json:
        for row in rows:
            print_json(row)
    else:
        heads = ("ID", "TYPE", "STATUS", "STARTED", "EVENTS", "RUN")
        print_table(heads, [
            (row["workflow_id"], row["type"], "Stuck" if row.get("stuck") else row["status"], moment(row["started"]),
             row["length"], row["run"]) for row in rows
        ])
    return Status.DONE


def show(args: argparse.Namespace, client: Client) -> Status:
    """A workflow's history, an event a line."""
    events = client.handle(args.id, args.run).history()
    if args.json:
        for event in events:
            print_json(event)
    else:
        print_table(("EVENT", "AT", "TYPE", "SAYS"), [
            (event["id"], moment(event["at"]), event["type"], said_of(event["attrs"])) for event in events
        ])
    return Status.DONE


def said_of(attrs: Json) -> str:
    """What an event says, without what is empty."""
    return ", ".join(
        f"{name} {value if isinstance(value, str) else json.dumps(value, ensure_ascii=False)}"
        for name, value in attrs.items() if value not in ("", 0, [])
    )


def describe(args: argparse.Namespace, client: Client) -> Status:
    """How a workflow stands, and why what is pending is."""
    found = client.handle(args.id, args.run).describe()
    if args.json:
        print_json(dataclasses.asdict(found))
        return Status.DONE
    print_pairs(pairs_of(found))
    if pending := pending_in(found):
        print()
        print_table(("PENDING", "ID", "SINCE", "WHY"), [(it.kind, it.id, moment(it.since), why(it)) for it in pending])
    return Status.DONE


def pending_in(found: Description) -> List[Pending]:
    """All that has not ended, the workflow task first."""
    task = found.pending_workflow_task
    return [*([task] if task else []), *found.pending]


def pairs_of(found: Description) -> List[List[object]]:
    stuck = found.stuck or {}
    return [
        ["id", found.id], ["run", found.run], ["type", found.type], ["status", "Stuck" if stuck else found.status],
        ["queue", found.queue], ["started", moment(found.started)],
        ["closed", moment(found.closed) if found.closed else ""],
        ["took", span(found.closed - found.started) if found.closed else ""],
        ["events", found.length], ["input", found.input], ["parent run", found.parent_run],
        ["continues", found.continued_from], ["task fails", stuck.get("message") or stuck.get("cause", "")],
    ]


def why(it: Pending) -> str:
    """Why something is pending, as far as the server saw it."""
    parts = [it.state] if it.state else []
    if it.attempt is not None:
        parts.append(f"attempt {it.attempt}")
    if it.next_try is not None:
        parts.append(f"to be tried at {moment(it.next_try)}")
    if it.last_failure is not None:
        kind = f"{it.last_failure_type}: " if it.last_failure_type else ""
        parts.append(f"the last one failed: {kind}{it.last_failure}")
    if it.heartbeat:
        parts.append(f"its heartbeat told {it.heartbeat}")
    if it.due is not None:
        parts.append(f"fires at {moment(it.due)}")
    return ", ".join(parts)


def tasks(args: argparse.Namespace, client: Client) -> Status:
    """What is pending in the runs that are open, and runs whose workflow task fails."""
    rows = client.list(args.text, "Running")
    found = [client.handle(row["workflow_id"], row["run"]).describe() for row in rows]
    if args.json:
        for one in found:
            print_json({"id": one.id, "run": one.run, "stuck": one.stuck, **pending_json(one)})
        return Status.DONE
    table = [(one.id, "workflow task", "", stuck_text(one.stuck)) for one in found if one.stuck]
    table += [(one.id, it.kind, it.id, why(it)) for one in found for it in pending_in(one) if not is_told(one, it)]
    print_table(("WORKFLOW", "PENDING", "ID", "WHY"), table)
    return Status.DONE


def queues(args: argparse.Namespace, client: Client) -> Status:
    """What waits in each task queue, what workers have, and who polls."""
    answer = client.queues()
    if args.json:
        for it in answer["queues"]:
            print_json(it)
        return Status.DONE
    print_table(("QUEUE", "TASKS OF", "WAITING", "SINCE", "LATER", "AT WORK", "POLLS", "LAST POLL"), [
        (
            it["queue"], it["kind"], it["waiting"], moment(it["oldest"]) if it["oldest"] else "", it["later"], it["at_work"],
            "unknown" if it["polls"] is None else it["polls"], moment(it["last_poll"]) if it["last_poll"] else "none seen",
        ) for it in answer["queues"]
    ])
    return Status.DONE


def add_nothing(parser: argparse.ArgumentParser) -> None:
    """Such a command has no words of its own."""


def pending_json(found: Description) -> Json:
    task = found.pending_workflow_task
    return {
        "pending": [dataclasses.asdict(it) for it in found.pending],
        "pending_workflow_task": dataclasses.asdict(task) if task else None,
    }


def is_told(one: Description, it: Pending) -> bool:
    """Whether a row says it already: that the workflow task fails."""
    return one.stuck is not None and it.kind == "workflow task"


def stuck_text(stuck: Json) -> str:
    return f"it fails, at attempt {stuck['attempt']}: {stuck['message'] or stuck['cause']}"


def add_tasks(parser: argparse.ArgumentParser) -> None:
    parser.add_argument("text", nargs="?", default="", help="what a workflow ID has in it")


def add_trace(parser: argparse.ArgumentParser) -> None:
    add_id(parser)
    parser.add_argument("--out", metavar="FILE", help="an .svg or .html file; else HTML goes to standard output")


def trace(args: argparse.Namespace, client: Client) -> Status:
    """Draws a workflow's history: events down, time across."""
    reply = client.service.call("history", workflow_id=args.id, run=args.run)
    is_picture = bool(args.out) and args.out.endswith(".svg")
    text = picture_file(reply["events"]) if is_picture else page(reply)
    if args.out:
        pathlib.Path(args.out).write_text(text, encoding="utf-8")
    else:
        sys.stdout.write(text)
    return Status.DONE


def add_query(parser: argparse.ArgumentParser) -> None:
    parser.add_argument("workflow", type=named, help="MODULE:WORKFLOW, whose code answers")
    add_id(parser)
    parser.add_argument("name", help="the query's name")
    parser.add_argument("argument", nargs="*", help="an argument: JSON, or else a text as it stands")


def query(args: argparse.Namespace, client: Client) -> Status:
    """What a workflow's code answers to a query: it is replayed here, and no event is written."""
    words = [value_of_word(word) for word in args.argument]
    print_json(client.handle(args.id, args.run).query(workflow_named(args.workflow), args.name, *words))
    return Status.DONE


def add_call(parser: argparse.ArgumentParser) -> None:
    parser.add_argument("line", help="a line of docs/PROFILE.md, as '{\"op\":\"describe\",\"workflow_id\":\"order-17\"}'")


def call(args: argparse.Namespace, client: Client) -> Status:
    """Makes any call, and prints its reply."""
    try:
        request = json.loads(args.line)
        op = request.pop("op")
    except (ValueError, KeyError, AttributeError, TypeError):
        raise ValueError(f"{plain(args.line)} is no JSON object with an op") from None
    print_json(client.service.call(op, **request))
    return Status.DONE
