"""The commands of `wf`: their words, what each does, and the status that a fault ends it with."""

from __future__ import annotations

import argparse
import sys
from dataclasses import dataclass
from typing import Callable, Dict, List, Optional

from wfserve import __version__
from wfserve.client import Client
from wfserve.errors import CallLost, Refused, WfserveError

from .code import add_replay, add_work, replay, work
from .completion import add_completion, completion
from .connection import add_connection, service_of
from .dev import add_dev, dev
from .moves import add_move_journal, add_move_log, journal_to_log, log_to_journal
from .output import plain, print_json
from .serve import add_compact_log, add_serve, compact_log, serve
from .shows import (
    add_call, add_list, add_nothing, add_query, add_tasks, add_trace, call, describe, list_workflows, query, queues, show,
    tasks, trace,
)
from .statuses import Status, status_of, text_of_statuses
from .tokens import add_token, token
from .workflows import (
    add_id, add_signal, add_start, add_terminate, add_timeout, cancel, execute, result, signal, start, terminate,
)


Parser = argparse.ArgumentParser
# What the words for it may be at fault by.
FAULTS = (WfserveError, OSError, ValueError, TypeError, ImportError, AttributeError, KeyError)


@dataclass(frozen=True)
class Command:
    """A command: `asks` asks a server, and `runs` needs none, or makes its own connection."""

    help: str
    add: Callable[[Parser], None]
    asks: Optional[Callable[[argparse.Namespace, Client], Status]] = None
    runs: Optional[Callable[[argparse.Namespace], Status]] = None
    # Whether it hands on words that it doesn't know itself.
    hands_on: bool = False


def add_execute(parser: Parser) -> None:
    add_start(parser)
    add_timeout(parser)


def add_result(parser: Parser) -> None:
    add_id(parser)
    add_timeout(parser)


COMMANDS: Dict[str, Command] = {
    "dev": Command("serve workflows on this machine, with a page", add_dev, runs=dev),
    "serve": Command("serve workflows with a page, by the proved program", add_serve, runs=serve, hands_on=True),
    "work": Command("work for a server, by a module's workflows and activities", add_work, runs=work),
    "start": Command("start a workflow", add_start, start),
    "execute": Command("start a workflow, and wait for its result", add_execute, execute),
    "result": Command("wait for a workflow's result", add_result, result),
    "list": Command("the latest workflows", add_list, list_workflows),
    "show": Command("a workflow's history", add_id, show),
    "describe": Command("how a workflow stands, and why what is pending is", add_id, describe),
    "tasks": Command("what is pending in the workflows that are open", add_tasks, tasks),
    "queues": Command("what waits in the task queues, and who polls them", add_nothing, queues),
    "query": Command("what a workflow's code answers to a query", add_query, query),
    "signal": Command("signal a workflow", add_signal, signal),
    "cancel": Command("ask a workflow to cancel", add_id, cancel),
    "terminate": Command("end a workflow at once", add_terminate, terminate),
    "trace": Command("draw a workflow's history", add_trace, trace),
    "replay": Command("check a workflow's code against stored histories", add_replay, runs=replay),
    "call": Command("make any call, as docs/PROFILE.md has them", add_call, call),
    "compact-log": Command("put snapshots in the place of a log's lines, while nobody serves it", add_compact_log, runs=compact_log),
    "move-log": Command("make a journal of a server's log, or of an earlier client's", add_move_log, runs=log_to_journal),
    "move-journal": Command("make a server's log of a journal", add_move_journal, runs=journal_to_log),
    "token": Command("make a token with a name and rights, for a server's file of tokens", add_token, runs=token),
    "completion": Command("what a shell needs to complete these words", add_completion, runs=completion),
}
# A workflow that has closed takes none of these.
OF_OPEN_ONES = ("signal", "cancel", "terminate")
# These print nothing that --json would change, or always print JSON.
WITHOUT_JSON = ("dev", "serve", "work", "replay", "trace", "query", "call", "token", "completion")


def make_parser() -> Parser:
    """The words of all commands."""
    parser = Parser(
        prog="wf", description="Workflows from the command line.", epilog=text_of_statuses(),
        formatter_class=argparse.RawDescriptionHelpFormatter,
    )
    parser.add_argument("--version", action="version", version=f"wf {__version__}")
    parts = parser.add_subparsers(dest="command", required=True, metavar="COMMAND")
    parsers = {name: parts.add_parser(name, help=it.help, description=it.help + ".") for name, it in COMMANDS.items()}
    for name, it in COMMANDS.items():
        it.add(parsers[name])
        if it.asks or name == "work":
            add_connection(parsers[name])
        if name not in WITHOUT_JSON:
            parsers[name].add_argument("--json", action="store_true", help="print JSON, a line each")
    parsers["completion"].set_defaults(parsers=parsers, helps={name: it.help for name, it in COMMANDS.items()})
    return parser


def run(words: List[str]) -> int:
    """Runs a command. What goes wrong is said on standard error, and in the status."""
    parser = make_parser()
    args, more = parser.parse_known_args(words)
    args.more = more
    command = COMMANDS[args.command]
    if args.more and not command.hands_on:
        parser.error(f"unrecognized arguments: {' '.join(args.more)}")
    # Code of one's own is looked for where the command is called.
    sys.path.insert(0, "")
    try:
        return int(done(command, args))
    except BrokenPipeError:
        # Who reads what is printed has read enough.
        sys.stderr.close()
        return int(Status.DONE)
    except KeyboardInterrupt:
        return 130
    except FAULTS as fault:
        return int(say_fault(args, fault))


def done(command: Command, args: argparse.Namespace) -> Status:
    """What the command came to."""
    if command.asks is None:
        assert command.runs is not None
        return command.runs(args)
    with Client(service_of(args)) as client:
        return command.asks(args, client)


def say_fault(args: argparse.Namespace, fault: Exception) -> Status:
    """Says a fault, for --json as JSON on standard output too."""
    status = status_of(fault)
    if getattr(args, "json", False):
        print_json({"error": type(fault).__name__, "said": str(fault), "status": int(status)})
    print(f"wf: {plain(said_of(args, fault))}", file=sys.stderr)
    return status


def said_of(args: argparse.Namespace, fault: Exception) -> str:
    """A fault for a person: what isn't there by its name, and what to do where no server answers."""
    text = f"{type(fault).__name__}: {fault}"
    if isinstance(fault, Refused) and fault.name == "NotFound" and getattr(args, "id", None) is not None:
        what = "open workflow" if args.command in OF_OPEN_ONES else "workflow"
        run = f" with the run {args.run}" if getattr(args, "run", None) else ""
        return f"there is no {what} {args.id}{run} ({text})"
    if isinstance(fault, CallLost):
        return f"no server answers there: wf dev starts one, and --url or WFSERVE_URL names another ({text})"
    # A sentence of this package, or of Python's, that says it all.
    return str(fault) if type(fault) is ValueError else text
