"""The programs that the tests speak with: wfserve where it is built, and one that gives counted replies.

WFSERVE names another program than the one that ./serve builds.
"""

import os
import pathlib
import socket
import subprocess
import sys
import tempfile
import unittest

from support import ROOT

BUILT = pathlib.Path(os.environ.get("WFSERVE", ROOT / "out/build/crates/wfserve/out/wfserve"))
NOT_BUILT = "wfserve is not built: ./serve builds it"


def needs_program(tested):
    """Skips a test, or a class of tests, where no program is built, and marks it: the gate runs each module that has such
    a mark once more when the program is there (tools/gate_clients.py)."""
    tested.wants_program = True
    return tested if BUILT.exists() else unittest.skip(NOT_BUILT)(tested)


def memory_folder():
    """A folder for logs of tests that kill programs but not the machine: in memory where that can be had."""
    return tempfile.TemporaryDirectory(dir="/dev/shm" if os.access("/dev/shm", os.W_OK) else None)


def program_file(folder, text, name="program"):
    """A program of these lines, as a file that can be started. One that runs by this name keeps its own: a file that is
    executed can't be written."""
    path = pathlib.Path(folder) / name
    written = path.with_name(f"{name}.new")
    written.write_text(text, encoding="utf-8")
    written.chmod(0o755)
    written.replace(path)
    return str(path)


# A program that answers each line with its number, and the line itself. Turns have nothing to do, polls
# find nothing, and a line that says "slow" takes a while.
COUNTING = [sys.executable, "-S", "-c", """
import json, sys, time
for number, line in enumerate(sys.stdin, 1):
    ok = "none" if '_turn"' in line else "empty" if '"poll_' in line else "signaled"
    time.sleep(0.3 if "slow" in line else 0)
    print(json.dumps({"line": number, "ok": ok, "said": line.strip()}), flush=True)
"""]
# The same with a journal, in which nothing is written.
JOURNALING = [*COUNTING[:3], """
import os, sys
open(os.path.join(sys.argv[sys.argv.index("--journal") + 1], "journal"), "ab").close()
""" + COUNTING[3]]


def python_with_aiohttp():
    """The first Python that the page can run on, or None."""
    for python in (sys.executable, "/usr/bin/python3"):
        try:
            ran = subprocess.run([python, "-c", "import aiohttp"], stderr=subprocess.DEVNULL)
        except OSError:
            continue
        if ran.returncode == 0:
            return python
    return None


def has_loopback():
    """Whether a client here can speak with a server here."""
    try:
        with socket.create_server(("127.0.0.1", 0)) as server, socket.create_connection(server.getsockname()):
            return True
    except OSError:
        return False


# The compiled edge, and what its page is served by.
EDGE = pathlib.Path(os.environ.get("WFEDGE", ROOT / "edge/target/release/wfedge"))
PAGE = ROOT / "edge/page.py"
PYTHON = python_with_aiohttp() if has_loopback() else None
NO_SERVER = "no loopback, no Python with aiohttp (clients/python/setup.sh installs it), or no compiled edge (edge/setup.sh builds it)"


def needs_server(tested):
    """Skips a test, or a class of tests, where there is no server, and marks it: the gate runs those with the mark once it has
    built the edge (edge/tests/test_client_suites.py)."""
    tested.wants_server = True
    return tested if PYTHON and EDGE.exists() else unittest.skip(NO_SERVER)(tested)


def server_words(program, *options):
    """The command of a server by this program, with options of the edge."""
    return [str(EDGE), "--page", str(PYTHON), "--page", str(PAGE), "--program", str(program), *options]
