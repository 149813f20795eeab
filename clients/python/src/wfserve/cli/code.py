"""The commands that run code of one's own: work, and replay."""

from __future__ import annotations

import argparse

from wfserve.blobs import Blobs, FolderStore
from wfserve.http import PATIENCE
from wfserve.workflows.converter import Converter
from wfserve.workflows.errors import NonDeterminism
from wfserve.workflows.loading import named, workflow_named
from wfserve.workflows.stored import CodeFails, said_of_replay
from wfserve.workflows.working import WAIT, work_until_stopped

from .connection import service_of
from .statuses import Status


MOST_THREADS = 1_000
MOST_GRACE = 1_000_000


def add_work(parser: argparse.ArgumentParser) -> None:
    parser.add_argument("module", help="a module with its workflows in WORKFLOWS and its activities in ACTIVITIES")
    parser.add_argument("--queue", default="main", help="the task queue, main by default")
    parser.add_argument("--threads", type=threads, default=2, help="for workflow tasks, and as many for activities; 2")
    parser.add_argument(
        "--grace", type=grace, metavar="SECONDS", help="how long activities may go on after SIGTERM; without it to their end",
    )


def threads(word: str) -> int:
    """A number of threads."""
    if not word.isdigit() or not 1 <= int(word) <= MOST_THREADS:
        raise argparse.ArgumentTypeError(f"{word} is no number from 1 to {MOST_THREADS}")
    return int(word)


def grace(word: str) -> float:
    """A number of seconds."""
    try:
        seconds = float(word)
    except ValueError:
        seconds = -1.0
    if not 0 <= seconds <= MOST_GRACE:
        raise argparse.ArgumentTypeError(f"{word} is no number of seconds up to {MOST_GRACE}")
    return seconds


def work(args: argparse.Namespace) -> Status:
    """Works for a server until SIGTERM or SIGINT comes; what is in hand is done first."""
    with service_of(args, WAIT, PATIENCE) as service:
        return Status(work_until_stopped(service, args.module, args.queue, args.threads, args.grace))


def add_replay(parser: argparse.ArgumentParser) -> None:
    parser.add_argument("place", help="a file of replies, or a folder of such files: their histories are replayed")
    parser.add_argument("workflow", type=named, help="MODULE:WORKFLOW")
    parser.add_argument("--blobs", metavar="FOLDER", help="the folder of the longer texts beside the log, as orders.log.blobs")


def replay(args: argparse.Namespace) -> Status:
    """Checks a workflow's code against stored histories, as before a deployment."""
    try:
        converter = Converter(Blobs(FolderStore(args.blobs))) if args.blobs else Converter()
        print(said_of_replay(workflow_named(args.workflow), args.workflow, args.place, converter))
    except (NonDeterminism, CodeFails) as fault:
        print(f"{args.workflow} disagrees with {args.place}: {fault}")
        return Status.FAILED
    return Status.DONE
