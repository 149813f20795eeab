#!/usr/bin/env python3
"""Does a newcomer's first day on a fresh Debian, from README and the tutorial alone, with a clock.

    tools/first_day.py FOLDER [--no-edge]    makes a Debian in FOLDER, which is not there yet

As root, with `debootstrap` and a network, where this machine has the toolchain. What is committed is cloned there.
Each command stands in README.md or docs/TUTORIAL.md, word by word. A workflow of one's own is begun, killed with its
server, and ends; then come an order without a proof, a program that keeps its own log, and the compiled edge. It prints
how long each step took, as a table. The status is 0 where a workflow survived a kill within ten minutes and all else
went well. Nothing stays mounted and nothing goes on when it ends. FOLDER takes 1.5 GB, and may be deleted then.
"""
from __future__ import annotations

import argparse
import contextlib
import os
import re
import shutil
import socket
import subprocess
import sys
import time
import urllib.request
from pathlib import Path
from typing import Iterator

TOP = Path(__file__).resolve().parent.parent
SUITE, MIRROR = "bookworm", "http://deb.debian.org/debian"
PORT, URL = 7233, "http://127.0.0.1:7233/"
# A workflow has to survive a kill within so many seconds of the first command.
AIM = 600
# So long a step may take on a machine that is very busy.
MOST = 1_800
CLONE, MINE = "/root/wfserve", "/root/mine"
README, TUTORIAL = (TOP / "README.md", TOP / "docs/TUTORIAL.md")
# What is typed, and the document that has it.
PACKAGES, SETUP, DEV = "apt-get install git python3", "clients/python/setup.sh", "./wf dev --log greetings.log"
WORK, START, RESULT = "wf work greeting", "wf start greeting:greeting hello-{} World", "wf result hello-{}"
DESCRIBE, TEST = "wf describe hello-{}", "python3 -m unittest test_greeting"
TRY = "./try examples/order.jsonl --queues orders,payments"
SURVIVE = "python3 clients/python/examples/survive.py out/unproved/wfserve orders"
SERVED = "./wf dev --log orders.log"
TYPED = {
    README: [PACKAGES, SETUP, SERVED, TRY, SURVIVE],
    TUTORIAL: [SETUP, DEV, WORK, *(line.format(1) for line in (START, DESCRIBE, RESULT)), START.format(2), DESCRIBE.format(2),
               RESULT.format(2), TEST],
}


def lines_of(document: Path) -> list[str]:
    """The commands of a document: its indented lines, without what a `#` says of them."""
    found = re.findall(r"(?m)^ {4}(\S.*)$", document.read_text(encoding="utf-8"))
    return [re.sub(r"\s+# .*$", "", line) for line in found]


def file_in(name: str) -> str:
    """A file that the tutorial has written."""
    text = TUTORIAL.read_text(encoding="utf-8").split(f"Write {name}:\n\n")[1]
    kept = re.match(r"(?:(?: {4}.*)?\n)+", text)
    assert kept is not None
    lines = [line[4:] for line in kept[0].splitlines()]
    return "\n".join(line for line in lines if line != TEST).rstrip("\n") + "\n"


class Day:
    """A Debian in a folder, and how long each step took there."""

    def __init__(self, root: Path) -> None:
        self.root, self.began = root, time.monotonic()
        self.rows: list[tuple[str, float]] = []
        self.kit = Path(shutil.which("rt") or "").resolve().parents[1]
        self.path = f"{self.kit}/bin:/usr/local/sbin:/usr/local/bin:/usr/sbin:/usr/bin:/sbin:/bin"

    @contextlib.contextmanager
    def step(self, title: str) -> Iterator[None]:
        """A step with a title, which is timed."""
        print(f"== {title}", file=sys.stderr, flush=True)
        began = time.monotonic()
        yield
        self.rows.append((title, time.monotonic() - began))

    def words(self, line: str, folder: str) -> list[str]:
        """What runs a line in a folder there, as root's shell would. The process becomes that of the line's program."""
        more = f"export PATH={CLONE}:$PATH PYTHONPATH={CLONE}/clients/python/src; " if folder == MINE else ""
        plain = ["env", "-i", "HOME=/root", "LANG=C.UTF-8", "DEBIAN_FRONTEND=noninteractive", f"PATH={self.path}"]
        return ["chroot", str(self.root), *plain, "bash", "-c", f"{more}cd {folder} && exec {line}"]

    def run(self, line: str, folder: str = CLONE) -> str:
        """What a line prints. Where it fails, what it said is shown, and the day ends."""
        ran = subprocess.run(self.words(line, folder), stdin=subprocess.DEVNULL, capture_output=True, text=True, timeout=MOST)
        if ran.returncode:
            raise SystemExit(f"first_day: {line}: status {ran.returncode}\n{ran.stdout[-2_000:]}{ran.stderr[-4_000:]}")
        return ran.stdout

    def begin(self, line: str, folder: str, said: str) -> subprocess.Popen[str]:
        """Begins a line that goes on, and waits until it prints this."""
        process = subprocess.Popen(self.words(line, folder), stdin=subprocess.DEVNULL, stdout=subprocess.PIPE, text=True)
        assert process.stdout is not None
        printed = process.stdout.readline()
        if said not in printed:
            raise SystemExit(f"first_day: {line}: it printed {printed!r}")
        return process


def make(day: Day) -> None:
    """Makes the Debian, and has the toolchain and this repository be seen there."""
    words = ["debootstrap", "--variant=minbase", SUITE, str(day.root), MIRROR]
    subprocess.run(words, check=True, stdout=subprocess.DEVNULL)
    shutil.copy("/etc/resolv.conf", day.root / "etc/resolv.conf")
    subprocess.run(["mount", "-t", "proc", "proc", str(day.root / "proc")], check=True)
    for place, seen in ((Path("/dev"), Path("/dev")), (day.kit, day.kit), (TOP, Path("/srv/origin"))):
        inside = day.root / str(seen).lstrip("/")
        inside.mkdir(parents=True, exist_ok=True)
        subprocess.run(["mount", "--bind", str(place), str(inside)], check=True)


def look_at_page() -> None:
    """Fetches the page, as a browser does."""
    with urllib.request.urlopen(URL, timeout=MOST) as answer:
        page = answer.read().decode()
    if "<title>Workflows</title>" not in page:
        raise SystemExit(f"first_day: {URL} is no page: {page[:200]!r}")


def own_workflow(day: Day) -> None:
    """The tutorial: a workflow of one's own, its kill, and its test."""
    mine = day.root / MINE.lstrip("/")
    mine.mkdir()
    for name in ("greeting.py", "test_greeting.py"):
        (mine / name).write_text(file_in(name), encoding="utf-8")
    with day.step(f"`{DEV}`: compiled, and a server with a page"):
        server = day.begin(DEV, CLONE, f"serving {URL}")
        look_at_page()
    with day.step("a first workflow"):
        worker = day.begin(WORK, MINE, "working on main")
        day.run(START.format(1), MINE)
        day.run(DESCRIBE.format(1), MINE)
        assert day.run(RESULT.format(1), MINE) == "Hello, World\n"
    with day.step("a second one, killed with its server and its worker, goes on"):
        day.run(START.format(2), MINE)
        assert worker.stdout is not None
        assert [worker.stdout.readline() for _ in range(2)] == ["greeting World\n"] * 2
        for process in (worker, server):
            process.kill()
            process.wait()
        server = day.begin(DEV, CLONE, f"serving {URL}")
        assert "Running" in day.run(DESCRIBE.format(2), MINE)
        worker = day.begin(WORK, MINE, "working on main")
        assert day.run(RESULT.format(2), MINE) == "Hello, World\n"
    day.rows.append(("**all until here**", time.monotonic() - day.began))
    with day.step("its test"):
        day.run(TEST, MINE)
    for process in (worker, server):
        process.terminate()
        print(process.communicate()[0], end="", file=sys.stderr)


def other_ways(day: Day) -> None:
    """What else README has a newcomer do without a proof."""
    with day.step(f"`{TRY}`"):
        assert day.run(TRY).count("\n") == 23
    with day.step("`survive.py`, killed while it waits, and started again"):
        first = day.begin(SURVIVE, CLONE, "charging card 42")
        journal, late = day.root / CLONE.lstrip("/") / "orders/journal", time.monotonic() + MOST
        while b"StartTimer" not in journal.read_bytes() and time.monotonic() < late:
            time.sleep(0.1)
        first.kill()
        first.wait()
        assert day.run(SURVIVE) == "shipped with receipt 4711\n"


def first_day(root: Path) -> int:
    """Makes a Debian and does the day there. The status."""
    day = Day(root)
    with day.step("`debootstrap --variant=minbase bookworm`"):
        make(day)
    day.began = time.monotonic()
    with day.step(f"`apt-get update`, `{PACKAGES}`"):
        day.run("apt-get update -q", "/root")
        day.run(f"{PACKAGES} -q -y", "/root")
    with day.step("the clone"):
        day.run(f"git clone -q /srv/origin {CLONE}", "/root")
    with day.step(f"`{SETUP}`"):
        day.run(SETUP)
    own_workflow(day)
    until_survived = next(seconds for title, seconds in day.rows if title.startswith("**"))
    other_ways(day)
    print("| Step | Seconds |\n|---|---|")
    for title, seconds in day.rows:
        print(f"| {title} | {seconds:.0f} |")
    print(f"\nload {os.getloadavg()[0]:.1f}; a workflow survived a kill after {until_survived:.0f} s, and the aim is {AIM}")
    return 0 if until_survived <= AIM else 1


def is_free(port: int) -> bool:
    """Whether nobody listens here."""
    with socket.socket() as tried:
        return tried.connect_ex(("127.0.0.1", port)) != 0


def main(words: list[str]) -> int:
    options = argparse.ArgumentParser(prog="tools/first_day.py", description=__doc__, formatter_class=argparse.RawTextHelpFormatter)
    options.add_argument("folder", type=Path, help="where the Debian is made")
    options.add_argument("--no-edge", action="store_true", help="leaves the compiled edge out, which takes minutes")
    options.add_argument("--inside", action="store_true", help=argparse.SUPPRESS)
    asked = options.parse_args(words)
    missing = [name for name in ("debootstrap", "rt", "unshare", "chroot") if not shutil.which(name)]
    if os.geteuid() != 0 or missing or asked.folder.exists() or not is_free(PORT):
        print(f"first_day: it wants root, {', '.join(missing) or 'nothing more'}, a folder that is not there, and port {PORT}", file=sys.stderr)
        return 2
    if not asked.inside:
        # With mounts and processes of its own, which end with it.
        own = ["unshare", "--mount", "--pid", "--fork", "--kill-child", "--mount-proc"]
        return subprocess.run([*own, sys.executable, __file__, *words, "--inside"]).returncode
    return first_day(asked.folder.resolve(), not asked.no_edge)


if __name__ == "__main__":
    sys.exit(main(sys.argv[1:]))
