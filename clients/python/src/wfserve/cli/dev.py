"""The command `dev`: a server with a page, within minutes of a clone, by a program that may not be proved yet."""

from __future__ import annotations

import argparse
import fcntl
import os
import pathlib
import subprocess
import sys
from typing import List, Optional, Tuple

from .serve import BUILD_EDGE, EDGE, PROVED, become, found_server, is_built, needed_tree
from .statuses import Status

UNPROVED = "out/unproved/wfserve"
BUILD = "tools/unproved_program.py"
PROVE = "tools/build_program.py"
# What the proofs beside a server say.
PROVING = "out/proving.log"


def add_dev(parser: argparse.ArgumentParser) -> None:
    parser.add_argument("--program", help="wfserve; else WFSERVE, the proved one of this tree, or one without proofs")
    parser.add_argument("--log", help="the file that keeps the service; without it nothing is kept")
    parser.add_argument("--port", default="7233", help="the port of the server and its page, 7233 by default")
    parser.add_argument("--queues", help="task queues, with commas between them; main by default")
    parser.add_argument("--shards", help="how many shards a new log has, 1 by default")
    parser.add_argument(
        "--prove", action="store_true",
        help="besides, prove and build the program at the lowest priority, which takes an hour or two: for the next start",
    )


def is_newer_than_sources(program: pathlib.Path, top: pathlib.Path) -> bool:
    """Whether a program is there, and no source of a crate is newer."""
    if not program.is_file():
        return False
    built = program.stat().st_mtime
    sources = [top / "crates.txt", *(path for kind in ("rt", "antt") for path in (top / "crates").rglob(f"*.{kind}"))]
    return all(path.stat().st_mtime <= built for path in sources if "out" not in path.relative_to(top).parts)


def chosen_program(named: Optional[str], top: pathlib.Path) -> Tuple[str, bool]:
    """The program to serve with, and whether it has to be built first: one without proofs."""
    if named:
        return named, False
    if is_newer_than_sources(top / PROVED, top):
        return str(top / PROVED), False
    return str(top / UNPROVED), True


def build(program: str, top: pathlib.Path) -> bool:
    """Builds the program without proofs, where it is older than a source. Whether it is there now."""
    return subprocess.run([sys.executable, str(top / BUILD), program]).returncode == 0


def at_last() -> None:
    """This process takes only what others leave."""
    os.nice(19)


def prove_beside(top: pathlib.Path) -> "Optional[subprocess.Popen[bytes]]":
    """Begins to prove and build the program, at the lowest priority. The process that does, which outlives this one;
    None where another one is at it already, by a lock of the file of what it says."""
    said = top / PROVING
    said.parent.mkdir(parents=True, exist_ok=True)
    with open(said, "a", encoding="utf-8") as file:
        try:
            fcntl.flock(file, fcntl.LOCK_EX | fcntl.LOCK_NB)
        except BlockingIOError:
            return None
        words = [sys.executable, str(top / PROVE), "wfserve"]
        # Its standard output is this very file, and keeps the lock until it ends.
        return subprocess.Popen(
            words, stdin=subprocess.DEVNULL, stdout=file, stderr=file, start_new_session=True, preexec_fn=at_last,
        )


def build_edge(top: pathlib.Path) -> None:
    """Builds the compiled edge where it isn't there, as root with what it needs. ValueError where that fails."""
    if os.environ.get("WFEDGE") or is_built(str(top / EDGE)):
        return
    say(f"compiling the edge, which takes some minutes: {BUILD_EDGE}")
    # What it says belongs to no output.
    if subprocess.run([str(top / BUILD_EDGE)], stdout=2).returncode:
        raise ValueError(f"the compiled edge is not built: {BUILD_EDGE} says why")


def options_of(args: argparse.Namespace) -> List[str]:
    """The edge's options."""
    words = ["--port", args.port]
    for name in ("log", "queues", "shards"):
        if getattr(args, name):
            words += [f"--{name}", getattr(args, name)]
    return words


def dev(args: argparse.Namespace) -> Status:
    """Serves until it is told to stop. This process becomes the server."""
    top = needed_tree()
    build_edge(top)
    server = found_server(top)
    program, is_unproved = chosen_program(args.program or os.environ.get("WFSERVE"), top)
    if is_unproved:
        if not build(program, top):
            return Status.USAGE
        say("this program is not proved: it is the same code, with checks in the place of proofs, and slower")
        say_of_proofs(args.prove, top)
    if not args.log:
        say("nothing is kept: --log FILE names a file that keeps the service")
    return become(server.words(program, options_of(args)))


def say_of_proofs(prove: bool, top: pathlib.Path) -> None:
    """Begins the proofs where that is asked for, and says so or how it is done."""
    if not prove:
        say("wf serve, or --prove here, proves and builds it; the next start then takes that one")
    elif (proving := prove_beside(top)) is None:
        say(f"it is being proved and built already: {PROVING} says how far it is")
    else:
        say(f"process {proving.pid} proves and builds it beside: {PROVING} says how far it is; the next start takes it")


def say(text: str) -> None:
    """Says something on standard error."""
    print(f"wf: {text}", file=sys.stderr, flush=True)
