"""The commands `move-log` and `move-journal`: what a server keeps becomes a journal, and a journal what a server keeps."""

from __future__ import annotations

import argparse

from wfserve.counts import counted
from wfserve.durable import Settings, move_journal, move_log
from wfserve.testing.program import find_program

from .output import print_json
from .statuses import Status


def add_program(parser: argparse.ArgumentParser) -> None:
    """The word that names the program."""
    parser.add_argument("--program", help="wfserve; else WFSERVE, or the one that was built in this tree")


def add_move_log(parser: argparse.ArgumentParser) -> None:
    """The words of move-log."""
    parser.add_argument("log", help="the log's file, which nobody serves; it is left as it is")
    parser.add_argument("folder", help="the folder of the new journal; it is made where there is none")
    add_program(parser)


def add_move_journal(parser: argparse.ArgumentParser) -> None:
    """The words of move-journal."""
    parser.add_argument("folder", help="the folder of the journal, which nobody serves; it is left as it is")
    parser.add_argument("log", help="the file of the new log")
    parser.add_argument(
        "--capacity", type=int, default=Settings.capacity, help="how many tasks wait in a queue at most, 1,024 by default",
    )
    add_program(parser)


def log_to_journal(args: argparse.Namespace) -> Status:
    """Makes a journal of a log."""
    steps = move_log([args.program or find_program()], args.log, args.folder)
    say(args, f"{args.folder}: a journal of {counted(steps, 'step')}; put {args.log} away: only one of the two goes on", steps)
    return Status.DONE


def journal_to_log(args: argparse.Namespace) -> Status:
    """Makes a log of a journal."""
    steps = move_journal(args.folder, args.log, args.capacity, [args.program or find_program()])
    say(args, f"{args.log}: a log of {counted(steps, 'step')}; put {args.folder} away: only one of the two goes on", steps)
    return Status.DONE


def say(args: argparse.Namespace, text: str, steps: int) -> None:
    """Says what was done, for --json as JSON."""
    if args.json:
        print_json({"ok": "moved", "steps": steps})
    else:
        print(text)
