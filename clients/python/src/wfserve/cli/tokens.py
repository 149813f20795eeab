"""`wf token new`: draws a token for a server's file of tokens, and prints it once. The file has its hash alone."""

from __future__ import annotations

import argparse
import hashlib
import os
import pathlib
import re
import secrets
from typing import List

from .statuses import Status

NAME = re.compile(r"(?=.*[A-Za-z0-9])[A-Za-z0-9._-]{1,64}", re.ASCII)
RIGHTS = ("read", "work", "start", "operate", "peer")
# So many bytes of a token are drawn.
DRAWN = 32


def right(word: str) -> str:
    """A right: one of the known ones; `work` may name task queues behind a colon."""
    name, colon, queues = word.partition(":")
    if name not in RIGHTS or (colon and (name != "work" or "" in queues.split(",") or re.search(r"\s", queues))):
        raise argparse.ArgumentTypeError(f"{word} is no right: {', '.join(RIGHTS)}, or work:QUEUE,QUEUE")
    return word


def name_of_token(word: str) -> str:
    """A name under which calls are noted."""
    if NAME.fullmatch(word) is None:
        raise argparse.ArgumentTypeError(f"{word} is no name: 1 to 64 letters, digits, dots, - and _")
    return word


def add_token(parser: argparse.ArgumentParser) -> None:
    """The words of `wf token`."""
    parser.add_argument("part", choices=("new",), help="draw a token, and write its line into the file")
    parser.add_argument("name", type=name_of_token, help="whose token it is, as the log of access names him")
    parser.add_argument(
        "rights", metavar="RIGHT", nargs="+", type=right, help="read, work, work:QUEUE,QUEUE, start, operate, peer"
    )
    parser.add_argument("--file", required=True, help="the server's --tokens; made where it isn't there")


def token(args: argparse.Namespace) -> Status:
    """`wf token new`: the token on standard output."""
    drawn = secrets.token_urlsafe(DRAWN)
    add_line(pathlib.Path(args.file), args.name, args.rights, drawn)
    print(drawn)
    return Status.DONE


def add_line(file: pathlib.Path, name: str, rights: List[str], drawn: str) -> None:
    """Adds a token's line to a file, which is its owner's alone where it is new. ValueError where the name is there."""
    named = {right.partition(":")[0] for right in rights}
    if len(named) < len(rights):
        raise ValueError("a right stands there twice")
    before = file.read_text(encoding="utf-8") if file.exists() else "# name, hash of the token, rights\n"
    if any(line.split()[:1] == [name] for line in before.splitlines()):
        raise ValueError(f"{file} has a token of the name {name}: take its line out first")
    if not before.endswith("\n"):
        before += "\n"
    digest = hashlib.sha256(drawn.encode()).hexdigest()
    replace(file, f"{before}{name} sha256:{digest} {' '.join(rights)}\n")


def replace(file: pathlib.Path, text: str) -> None:
    """Puts a text in the place of a file, in one step: a server that reads it meanwhile finds one or the other."""
    beside = file.with_name(f"{file.name}.new")
    mode = file.stat().st_mode & 0o777 if file.exists() else 0o600
    with open(os.open(beside, os.O_WRONLY | os.O_CREAT | os.O_TRUNC, 0o600), "w", encoding="utf-8") as out:
        os.fchmod(out.fileno(), mode)
        out.write(text)
        out.flush()
        os.fsync(out.fileno())
    os.replace(beside, file)
