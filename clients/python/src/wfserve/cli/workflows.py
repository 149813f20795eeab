"""The commands that change workflows or wait for them: start, execute, result, signal, cancel, terminate."""

from __future__ import annotations

import argparse
import inspect
import sys
from typing import Any, Optional, Sequence

from wfserve.client import Client, WorkflowHandle
from wfserve.types import Json
from wfserve.workflows.definitions import type_of
from wfserve.workflows.loading import workflow_named
from wfserve.workflows.values import input_of

from .output import plain, print_json
from .statuses import Status
from .words import duration, value_of_word


REUSE = ("AllowDuplicate", "AllowDuplicateFailedOnly", "RejectDuplicate")
CONFLICT = ("Fail", "UseExisting", "TerminateExisting")


def add_start(parser: argparse.ArgumentParser) -> None:
    """The words of a start."""
    parser.add_argument("type", help="the workflow's type, or MODULE:WORKFLOW, which is looked up first")
    parser.add_argument("id", help="the workflow ID")
    parser.add_argument("argument", nargs="*", help="an argument: JSON, or else a text as it stands")
    parser.add_argument("--queue", default="main", help="the task queue, main by default")
    parser.add_argument("--reuse", choices=REUSE, help="what becomes of it where one of this id has closed")
    parser.add_argument("--conflict", choices=CONFLICT, help="what becomes of it where one of this id is open")
    for name, what in (("run", "a run"), ("execution", "all its runs"), ("task", "a workflow task")):
        parser.add_argument(f"--{name}-timeout", type=duration, metavar="TIME", help=f"how long {what} may take, as 30s or 2h")


def add_timeout(parser: argparse.ArgumentParser) -> None:
    parser.add_argument("--timeout", type=float, metavar="SECONDS", help="for how long to wait; without it for ever")


def add_id(parser: argparse.ArgumentParser) -> None:
    """A workflow, and where one is meant its run."""
    parser.add_argument("id", help="the workflow ID")
    parser.add_argument("--run", help="the run, where the latest is not meant")


def add_signal(parser: argparse.ArgumentParser) -> None:
    add_id(parser)
    parser.add_argument("name", help="the signal's name")
    parser.add_argument("value", nargs="?", help="its value: JSON, or else a text as it stands")


def add_terminate(parser: argparse.ArgumentParser) -> None:
    add_id(parser)
    parser.add_argument("--reason", default="", help="why, for the history")


def start(args: argparse.Namespace, client: Client) -> Status:
    """Starts a workflow. The same start again is that one; another one of an open id is refused."""
    reply = started(args, client)
    if reply["ok"] == "existing":
        return say_existing(args, client, reply)
    if args.json:
        print_json({"id": args.id, "run": reply["run"]})
    else:
        print(reply["run"])
    return Status.DONE


def started(args: argparse.Namespace, client: Client) -> Json:
    """The reply to a start, whose request id is the workflow ID: made twice it is one."""
    fields = {
        name: value for name in ("reuse", "conflict", "run_timeout", "execution_timeout", "task_timeout")
        if (value := getattr(args, name)) is not None
    }
    values = [value_of_word(word) for word in args.argument]
    return client.service.call(
        "start", workflow_id=args.id, workflow_type=type_named(args.type, values), task_queue=args.queue,
        input=client.converter.encoded(input_of(values)), request_id=args.id, **fields,
    )


def type_named(text: str, values: Sequence[Any]) -> str:
    """A workflow's type. MODULE:WORKFLOW has to be there, and to take so many arguments: ValueError else."""
    if ":" not in text:
        return text
    workflow = workflow_named(text)
    try:
        inspect.signature(workflow).bind(None, *values)
    except TypeError as fault:
        raise ValueError(f"{text}: {fault}") from None
    return type_of(workflow)


def say_existing(args: argparse.Namespace, client: Client, reply: Json) -> Status:
    """Says how a workflow was started that is there already: refused where that was in another way."""
    began = client.service.history(args.id, reply["run"])[0]["attrs"]
    values = [value_of_word(word) for word in args.argument]
    asked = client.converter.encoded(input_of(values))
    same = (began["workflow_type"], began["input"]) == (type_named(args.type, values), asked)
    if args.json:
        print_json({"id": args.id, "run": reply["run"], "existing": True, "same": same})
    else:
        print(reply["run"])
    how = "" if same else f", as {plain(began['workflow_type'])} with the input {plain(began['input']) or 'of none'}"
    print(f"wf: {args.id} was started before{how}: nothing was started now", file=sys.stderr)
    return Status.DONE if same else Status.REFUSED


def execute(args: argparse.Namespace, client: Client) -> Status:
    """Starts a workflow, or finds the one of the same start, and prints its result."""
    run = started(args, client)["run"]
    return print_result(args, client.handle(args.id, run))


def result(args: argparse.Namespace, client: Client) -> Status:
    """Waits for a workflow's end, and prints its result as JSON."""
    return print_result(args, client.handle(args.id, args.run))


def print_result(args: argparse.Namespace, handle: WorkflowHandle) -> Status:
    """A text stands there as it is, but for --json; any other value is JSON."""
    value: Any = handle.result(args.timeout)
    if isinstance(value, str) and not args.json:
        print(plain(value))
    else:
        print_json(value)
    return Status.DONE


def signal(args: argparse.Namespace, client: Client) -> Status:
    """Signals a workflow."""
    value: Optional[Any] = None if args.value is None else value_of_word(args.value)
    client.handle(args.id, args.run).signal(args.name, value)
    return said(args, "signaled")


def cancel(args: argparse.Namespace, client: Client) -> Status:
    """Asks a workflow to cancel."""
    client.handle(args.id, args.run).cancel()
    return said(args, "asked to cancel")


def terminate(args: argparse.Namespace, client: Client) -> Status:
    """Ends a workflow at once."""
    client.handle(args.id, args.run).terminate(args.reason)
    return said(args, "terminated")


def said(args: argparse.Namespace, what: str) -> Status:
    if args.json:
        print_json({"id": args.id, "done": what})
    else:
        print(f"{args.id}: {what}")
    return Status.DONE
