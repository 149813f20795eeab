"""Workflows from the command line.

    python3 -m wfserve.workflows replay FILE.jsonl MODULE:WORKFLOW      checks code against stored histories
    python3 -m wfserve.workflows work URL MODULE                        works for a server until it is stopped
    python3 -m wfserve.workflows start URL MODULE:WORKFLOW ID [JSON..]  starts a workflow there

FILE has replies as wfserve prints them, or is a folder of such files; each history of that workflow among
them is replayed. Status 0 where the code agrees with all of them, 1 where it does not, 2 where there is none
or it can't be read.
MODULE has its workflows in WORKFLOWS and its activities in ACTIVITIES.

`work` ends with 0 where it was told to stop, once what it has in hand is done; with 2 where what it was given
is wrong, as a queue that the service doesn't have; and with 1 where something else kept it from going on, or
the result of an activity could not be told.
`start` says the run. Where the workflow was started before it says so, and ends with 1 if that was another
type or another input. 2 where nothing was started.
"""

from __future__ import annotations

import argparse
import json
import logging
import pathlib
import sys
from typing import Any, List, Optional

from wfserve.errors import Refused, Unavailable
from wfserve.http import HttpService
from wfserve.types import Json

from .definitions import type_of
from .errors import NonDeterminism
from .loading import named, workflow_named
from .stored import CodeFails, said_of_replay
from .values import input_of
from .working import WAIT, work_until_stopped


# For how many seconds a start is tried.
START_PATIENCE = 3.0


def checked(said: argparse.Namespace) -> int:
    """`replay`: says whether the code agrees. The status."""
    try:
        print(said_of_replay(workflow_named(said.workflow), said.workflow, said.file))
    except (NonDeterminism, CodeFails) as fault:
        print(f"{said.workflow} disagrees with {said.file}: {fault}")
        return 1
    return 0


def work(said: argparse.Namespace) -> int:
    """`work`: workers for workflows and activities, until the process is told to stop. The status."""
    return work_until_stopped(HttpService(said.url, token_of(said), wait=WAIT), said.module, said.queue, said.threads)


def start(said: argparse.Namespace) -> int:
    """`start`: says the workflow's run, and whether it was there. The status."""
    name, text = type_of(workflow_named(said.workflow)), input_of([value_of_word(word) for word in said.argument])
    with HttpService(said.url, token_of(said), patience=START_PATIENCE) as service:
        reply = service.call(
            "start", workflow_id=said.id, workflow_type=name, task_queue=said.queue, input=text, request_id=said.id
        )
        print(reply["run"])
        if reply["ok"] != "existing":
            return 0
        return say_existing(said.id, name, text, service.history(said.id, reply["run"])[0]["attrs"])


def say_existing(workflow_id: str, name: str, text: str, began: Json) -> int:
    """Says of a workflow that was there how it was started. 1 where that was in another way."""
    as_asked = (began["workflow_type"], began["input"]) == (name, text)
    how = "" if as_asked else f", as {began['workflow_type']} with the input {began['input'] or 'of none'}"
    print(f"workflows: {workflow_id} was started before{how}: nothing was started now", file=sys.stderr)
    return 0 if as_asked else 1


def value_of_word(word: str) -> Any:
    """The value of an argument, which is JSON."""
    try:
        return json.loads(word)
    except ValueError:
        quoted = "'" + json.dumps(word) + "'"
        raise ValueError(f"the argument {word} is no JSON; a text has quotes of its own: {quoted}") from None


def token_of(said: argparse.Namespace) -> Optional[str]:
    """The token of --token-file, if one was given."""
    return pathlib.Path(said.token_file).read_text(encoding="utf-8").strip() if said.token_file else None


def threads_of(text: str) -> int:
    """A number of threads."""
    if not text.isdigit() or not 1 <= int(text) <= 1_000:
        raise argparse.ArgumentTypeError(f"{text} is no number from 1 to 1,000")
    return int(text)


def words_of(words: List[str]) -> argparse.Namespace:
    parser = argparse.ArgumentParser(prog="python3 -m wfserve.workflows")
    commands = parser.add_subparsers(required=True)
    checking = commands.add_parser("replay", help="check code against stored histories")
    checking.add_argument("file", help="replies, a line each; histories among them are replayed")
    checking.add_argument("workflow", type=named, help="MODULE:WORKFLOW")
    checking.set_defaults(does=checked)
    working = commands.add_parser("work", help="work for a server")
    working.add_argument("url", help="the server's address, as http://127.0.0.1:7233")
    working.add_argument("module", help="a module with WORKFLOWS and ACTIVITIES")
    working.add_argument("--threads", type=threads_of, default=2, help="for workflow tasks, and as many for activities")
    working.set_defaults(does=work)
    starting = commands.add_parser("start", help="start a workflow")
    starting.add_argument("url", help="the server's address, as http://127.0.0.1:7233")
    starting.add_argument("workflow", type=named, help="MODULE:WORKFLOW")
    starting.add_argument("id", help="the workflow ID; a second start of it is none")
    starting.add_argument("argument", nargs="*", help="an argument of the workflow, as JSON")
    starting.set_defaults(does=start)
    for command in (working, starting):
        command.add_argument("--queue", default="main", help="the task queue, main by default")
        command.add_argument("--token-file", help="a file with the server's token, where it wants one")
    return parser.parse_args(words)


def main(words: List[str]) -> int:
    said = words_of(words)
    sys.path.insert(0, "")
    try:
        return int(said.does(said))
    except (OSError, ValueError, TypeError, ImportError, AttributeError, KeyError, Refused, Unavailable) as fault:
        print(f"workflows: {type(fault).__name__}: {fault}", file=sys.stderr)
        return 2


if __name__ == "__main__":
    logging.basicConfig(level=logging.WARNING, format="%(asctime)s %(message)s")
    sys.exit(main(sys.argv[1:]))
