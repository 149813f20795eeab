"""The commands `serve` and `compact-log`: the compiled edge with its page, by the proved program."""

from __future__ import annotations

import argparse
import http.client
import json
import os
import pathlib
import re
import subprocess
import sys
from dataclasses import dataclass
from typing import Dict, List, Optional, Sequence

from wfserve.counts import counted
from wfserve.errors import NotCompacted
from wfserve.types import Json

from .output import print_json
from .statuses import Status

# From this file to the top of the repository, where the package is run out of the tree.
DEPTH = 5
PROVED = "out/build/crates/wfserve/out/wfserve"
# What proves and builds the program where that was not done, and serves the lines of its input.
SERVE = "serve"
NEEDS = "aiohttp"
EDGE, PAGE, BUILD_EDGE = "edge/target/release/wfedge", "edge/page.py", "edge/setup.sh"
SERVING = re.compile(r"serving http://(\S+):([0-9]+)/\n")
# A compaction has so many seconds. It has to load and to write all that the service has.
LONG = 86_400.0


def tree_of(file: str) -> Optional[pathlib.Path]:
    """The repository that this file lies in; None where the package is installed elsewhere."""
    path = pathlib.Path(file).resolve()
    top = path.parents[DEPTH] if len(path.parents) > DEPTH else path.parent
    return top if (top / "crates.txt").is_file() else None


def needed_tree() -> pathlib.Path:
    """The repository. ValueError where this package lies in none."""
    top = tree_of(__file__)
    if top is None:
        raise ValueError("the compiled edge is served out of a tree of wfserve, which this package doesn't lie in")
    return top


def python_for_page() -> str:
    """The first Python that has what the page needs. ValueError where there is none."""
    for python in (sys.executable, "/usr/bin/python3"):
        ran = subprocess.run([python, "-c", f"import {NEEDS}"], stdout=subprocess.DEVNULL, stderr=subprocess.DEVNULL)
        if ran.returncode == 0:
            return python
    raise ValueError(f"no Python here has {NEEDS}, which the page needs: clients/python/setup.sh installs it")


def environment() -> Dict[str, str]:
    """The environment of the server: it finds this very package."""
    package = str(pathlib.Path(__file__).resolve().parents[2])
    others = [path for path in os.environ.get("PYTHONPATH", "").split(os.pathsep) if path and path != package]
    return {**os.environ, "PYTHONPATH": os.pathsep.join([package, *others])}


@dataclass(frozen=True)
class Server:
    """What serves: the compiled edge, a Python for its page, and the repository."""

    edge: str
    python: str
    top: pathlib.Path

    def words(self, program: str, options: Sequence[str]) -> List[str]:
        """The command that serves by a program, with these options of the edge."""
        page = ["--page", self.python, "--page", str(self.top / PAGE)]
        return [self.edge, *page, "--program", program, *options]


def is_built(edge: str) -> bool:
    """Whether there is an edge that can be started."""
    return os.access(edge, os.X_OK) and os.path.isfile(edge)


def found_server(top: pathlib.Path) -> Server:
    """The server of this tree; WFEDGE names another edge. ValueError where a part of it is missing."""
    edge = os.environ.get("WFEDGE") or str(top / EDGE)
    if not is_built(edge):
        raise ValueError(f"there is no compiled edge {edge}: {BUILD_EDGE} builds it")
    return Server(edge, python_for_page(), top)


def proved_program(named: Optional[str], top: pathlib.Path) -> Optional[str]:
    """The program that is named here or by WFSERVE, or the proved one, which is proved and built first where that was not
    done. None where that fails."""
    program = named or os.environ.get("WFSERVE")
    if program:
        return program
    # No lines and no replies: this only builds it.
    if subprocess.run([str(top / SERVE)], stdin=subprocess.DEVNULL).returncode:
        return None
    return str(top / PROVED)


def add_serve(parser: argparse.ArgumentParser) -> None:
    """The words of `serve`. All others are the edge's."""
    parser.add_argument("--program", help="wfserve; else WFSERVE, or the proved one of this tree, which is built where it isn't")
    parser.epilog = (
        f"All other options are the edge's, as --log FILE, --port PORT, --queues NAMES and --retention MS: {EDGE} --help lists "
        "them. WFEDGE names another edge."
    )


def serve(args: argparse.Namespace) -> Status:
    """Serves until it is told to stop. This process becomes the server."""
    top = needed_tree()
    server = found_server(top)
    program = proved_program(args.program, top)
    return Status.USAGE if program is None else become(server.words(program, args.more))


def become(words: List[str]) -> Status:
    """Goes on as the server."""
    sys.stdout.flush()
    os.execve(words[0], words, environment())


def add_compact_log(parser: argparse.ArgumentParser) -> None:
    """The words of `compact-log`."""
    parser.add_argument("log", help="the log's file, which nobody serves")
    parser.add_argument("--program", help="wfserve; else WFSERVE, or the proved one of this tree, which is built where it isn't")


def compact_log(args: argparse.Namespace) -> Status:
    """Puts snapshots in the place of a log's lines. The log is served meanwhile, on a free port of this machine."""
    if not os.path.isfile(args.log):
        raise ValueError(f"{args.log}: there is no such log")
    top = needed_tree()
    server, program = found_server(top), proved_program(args.program, top)
    if program is None:
        return Status.USAGE
    said = compacted([server.edge, "--program", program, "--log", args.log, "--port", "0"], args.log)
    if args.json:
        print_json(said)
    else:
        lines, size = counted(said["lines"], "line"), counted(said["bytes"], "byte")
        print(f"{lines}, {size}; now {counted(said['records'], 'byte')} of snapshots")
    return Status.DONE


def compacted(words: Sequence[str], log: str) -> Json:
    """What an edge says of a compaction of its log, for which alone it is started. NotCompacted where there is none."""
    serving = subprocess.Popen(words, stdout=subprocess.PIPE, text=True)
    try:
        assert serving.stdout is not None
        found = SERVING.fullmatch(serving.stdout.readline())
        if found is None:
            raise NotCompacted(f"{log}: it is not served")
        connection = http.client.HTTPConnection(found[1], int(found[2]), timeout=LONG)
        connection.request("POST", "/compact", b"{}", {"Content-Type": "application/json"})
        answer = connection.getresponse()
        text = answer.read()
        connection.close()
    finally:
        serving.terminate()
        serving.communicate()
    if answer.status != 200:
        raise NotCompacted(f"{log}: status {answer.status}: {text.decode(errors='replace')}")
    said: Json = json.loads(text)
    return said
