#!/usr/bin/env python3
"""The built program with a journal on a file system that loses what was not synced: after syncs that fail and after kills
it is started again, calls are answered, and power is lost.

    tools/power_loss.py PROGRAM [--seed S] [--rounds N]

PROGRAM is the built `wfserve`. The file system lies on a file in memory, of which a copy is what a loss of power leaves:
what the system had not written yet is not in it. A sync fails where that memory is full below the file system. The seed
of what is drawn is printed. The status is 1 where a test fails. It wants root, losetup, mount, mkfs.ext4, mkfs.ext2,
e2fsck and filefrag, and cc for planted faults, and is skipped by name elsewhere.
"""
from __future__ import annotations

import contextlib
import json
import os
import pathlib
import random
import re
import shutil
import signal as signals
import subprocess
import sys
import tempfile
import time
import unittest
from collections import Counter
from collections.abc import Iterator
from typing import Any, NamedTuple

from journal_faults import fresh, parsed
from journal_program import BEGIN, RESTORED, ROOT, Line, Tested, run_tests, start, text, words
from wfserve.compacting import compact

BLOCK = 4_096
IMAGE_BYTES = 24 << 20
STORE_BYTES = IMAGE_BYTES + (1 << 20)
# So many blocks of a journal are written next, and before these are so many signals are answered at most.
SOON, MOST_SIGNALS = 24, 40
# Signals that are one batch of several pages.
MANY, LARGE = 4, 4_000
# What a program is told where its sync failed.
FAILED = re.compile(r"/journal: .*\(os error (5|28)\)$")
NEEDED = ("losetup", "mount", "umount", "mkfs.ext4", "mkfs.ext2", "e2fsck", "filefrag")
KINDS = ("ext4", "ext2")
# A row of what filefrag lists: the first and the last block on the device.
EXTENT = re.compile(r"^ *\d+: +\d+\.\. +\d+: +(\d+)\.\. +(\d+):", re.MULTILINE)
# In so many rounds a fault that was planted is to be found.
TRIES = 12
SETTINGS = {1: [], 4: ["--passes", "4", "--shards", "4"]}


def run(*command: Any) -> None:
    subprocess.run([str(word) for word in command], check=True, capture_output=True)


class Store:
    """A file system on a file in memory, which can be full below it, and whose power can be lost."""

    def __init__(self, folder: pathlib.Path, kind: str) -> None:
        self.kind, self.memory, self.top, self.copy = kind, folder / "memory", folder / "top", folder / "copy"
        self.image, self.filler = self.memory / "image", self.memory / "filler"
        self.memory.mkdir()
        self.top.mkdir()
        run("mount", "-t", "tmpfs", "-o", f"size={STORE_BYTES}", "tmpfs", self.memory)
        self.image.write_bytes(b"\0" * IMAGE_BYTES)
        lazy = ",lazy_itable_init=0,lazy_journal_init=0" if kind == "ext4" else ""
        run(f"mkfs.{kind}", "-q", "-F", "-b", BLOCK, "-E", f"nodiscard{lazy}", self.image)
        # Each of its blocks has room, also those of which the file system was told nothing.
        self.image.write_bytes(self.image.read_bytes())
        self.mount()

    def mount(self) -> None:
        run("mount", "-t", self.kind, "-o", "loop", self.image, self.top)

    def close(self) -> None:
        subprocess.run(["umount", "-l", self.top], capture_output=True)
        subprocess.run(["umount", "-l", self.memory], capture_output=True)

    def fill(self, path: pathlib.Path) -> None:
        """Leaves no room for what is written over the zeros of this file, as on a thin volume that is full."""
        run("sync", "-f", self.top)
        with open(self.image, "rb") as image:
            for number in self.blocks_of(path):
                if not any(os.pread(image.fileno(), BLOCK, number * BLOCK)):
                    run("fallocate", "-p", "-o", number * BLOCK, "-l", BLOCK, self.image)
        with open(self.filler, "wb", buffering=0) as filler, contextlib.suppress(OSError):
            while True:
                filler.write(b"\1" * BLOCK)

    def blocks_of(self, path: pathlib.Path) -> list[int]:
        """The first blocks of the device that a file has."""
        listed = subprocess.run(["filefrag", "-v", f"-b{BLOCK}", path], capture_output=True, text=True, check=True)
        runs = [(int(first), int(last)) for first, last in EXTENT.findall(listed.stdout)]
        return [number for first, last in runs for number in range(first, last + 1)][:SOON]

    def make_room(self) -> None:
        self.filler.unlink()

    def keep_copy(self) -> None:
        """Keeps what is on the device at this moment."""
        shutil.copyfile(self.image, self.copy)

    def go_on_with_copy(self) -> None:
        """Nobody has a file open any more, and power is lost: what was kept is all that there is."""
        run("umount", self.top)
        self.image.write_bytes(self.copy.read_bytes())
        if self.kind == "ext2":
            # Its status is 1 where it repaired something.
            subprocess.run(["e2fsck", "-fy", self.image], capture_output=True, check=False)
        self.mount()


class Serving:
    """The program over a journal, which is given one call after another."""

    def __init__(self, folder: pathlib.Path, passes: int, **environment: str) -> None:
        # It ends with the test, also where this fails.
        self.program = subprocess.Popen(
            words(str(folder), *SETTINGS[passes]), stdin=subprocess.PIPE, stdout=subprocess.PIPE, stderr=subprocess.PIPE,
            bufsize=0, env={**os.environ, **environment},
        )

    def send(self, lines: list[Line]) -> None:
        """Hands calls in, all at once."""
        assert self.program.stdin
        with contextlib.suppress(BrokenPipeError):
            self.program.stdin.write(text(lines).encode())

    def reply(self) -> Line | None:
        """The next reply, where the program gives one."""
        assert self.program.stdout
        said = self.program.stdout.readline()
        return json.loads(said) if said.endswith(b"\n") else None

    def call(self, line: Line) -> Line | None:
        self.send([line])
        return self.reply()

    def kill(self) -> None:
        self.program.kill()
        self.program.communicate()

    def ended(self) -> tuple[int, str]:
        """How it ended once its input did, and what it said."""
        _, said = self.program.communicate()
        return self.program.returncode, RESTORED.sub("", said.decode())


class Plan(NamedTuple):
    """What happens in a round, before power is lost."""

    # Whether a sync fails, and else the program is killed.
    sync_fails: bool
    # When the journal is compacted: before it is opened again, after that, or never.
    compacted: str
    # How many signals are sent then, before the history is read.
    signals: int
    # Whether it is opened twice.
    twice: bool
    # Whether the history is shown by a program that loads the folder, and serves no journal.
    loads: bool
    passes: int

    @staticmethod
    def drawn(draws: random.Random) -> Plan:
        return Plan(
            draws.random() < 0.6, draws.choice(("before", "after", "never", "never")), draws.randrange(4),
            draws.random() < 0.3, draws.random() < 0.25, draws.choice(tuple(SETTINGS)))


class Round:
    """One journal, from its first call to what is found after the loss of power."""

    def __init__(self, draws: random.Random, store: Store, plan: Plan) -> None:
        self.draws, self.store, self.plan = draws, store, plan
        self.folder = store.top / "kept"
        self.folder.mkdir()
        run("sync", "-f", store.top)
        self.sent: list[str] = []
        self.answered: list[str] = []
        self.read: list[Line] = []
        self.came: list[str] = []

    def play(self, **planted: str) -> str:
        """What is wrong with what is found in the end; nothing where all that was answered is there."""
        self.fail()
        if self.plan.compacted == "before":
            self.compact()
        serving = None if self.plan.loads else self.go_on(**planted)
        if serving:
            serving.program.send_signal(signals.SIGSTOP)
            time.sleep(0.01)
        else:
            self.read = self.shown(**planted)
        self.store.keep_copy()
        if serving:
            serving.kill()
        self.store.go_on_with_copy()
        return self.wrong()

    def next_signal(self, size: int = 0) -> Line:
        """A signal with an input of so many bytes."""
        name = f"s{len(self.sent)}"
        self.sent.append(name)
        line = {"op": "signal", "workflow_id": "a", "name": name, "request_id": name, "at": len(self.sent)}
        return {**line, "input": "x" * size}

    def signal(self, serving: Serving, count: int = 1, size: int = 0) -> bool:
        """Sends signals, which are one batch. Whether all were answered."""
        lines = [self.next_signal(size) for _ in range(count)]
        serving.send(lines)
        for line in lines:
            reply = serving.reply()
            if reply is None:
                return False
            assert reply.get("ok") == "signaled", reply
            self.answered.append(line["name"])
        return True

    def history(self, serving: Serving) -> list[Line]:
        """The events of the workflow; none where the program gives no reply."""
        reply = serving.call({"op": "history", "workflow_id": "a", "at": len(self.sent)})
        return reply.get("events", []) if reply else []

    def fail(self) -> None:
        """A program answers some calls. Then its sync fails, or it is killed."""
        serving = Serving(self.folder, self.plan.passes)
        serving.call({**start("a"), "at": 0, "request_id": "a"})
        for _ in range(self.draws.randrange(1, 8)):
            assert self.signal(serving), serving.ended()
        if self.plan.sync_fails:
            self.fail_sync(serving)
        else:
            self.kill(serving)

    def align(self, serving: Serving) -> None:
        """Has the next batch begin with a block: a loop device takes a write for done of which only the first blocks were."""
        batches = (self.folder / "journal").read_bytes().rstrip(b"\0")
        last = len(batches) - batches.rindex(BEGIN) - len(f"{self.sent[-1] * 2}{len(self.sent)}")
        following = last + len(f"s{len(self.sent)}" * 2 + str(len(self.sent) + 1))
        assert self.signal(serving, 1, -(len(batches) + following) % BLOCK), serving.ended()
        assert len((self.folder / "journal").read_bytes().rstrip(b"\0")) % BLOCK == 0

    def fail_sync(self, serving: Serving) -> None:
        self.align(serving)
        self.store.fill(self.folder / "journal")
        for _ in range(MOST_SIGNALS):
            # Of a batch on several pages the next batch brings the last one to the device, and no other.
            if not self.signal(serving, MANY, LARGE):
                break
        status, said = serving.ended()
        assert status == 2 and FAILED.search(said.strip()), (status, said)
        self.store.make_room()
        self.came.append("a sync that failed")

    def kill(self, serving: Serving) -> None:
        """Calls are on their way meanwhile."""
        for _ in range(self.draws.randrange(1, 4)):
            serving.send([self.next_signal(LARGE) for _ in range(self.draws.choice((1, MANY)))])
        time.sleep(self.draws.uniform(0, 0.002))
        serving.kill()
        self.came.append("a kill")

    def go_on(self, **planted: str) -> Serving:
        """It is started again, and answers calls."""
        if self.plan.twice:
            Serving(self.folder, self.plan.passes, **planted).ended()
        serving = Serving(self.folder, self.plan.passes, **planted)
        for _ in range(self.plan.signals):
            assert self.signal(serving), serving.ended()
        if self.plan.compacted == "after":
            self.compact()
        self.read = self.history(serving)
        assert self.read, serving.ended()
        return serving

    def shown(self, **planted: str) -> list[Line]:
        """The events of the workflow as a program shows them that loads the folder."""
        line = {"op": "history", "workflow_id": "a", "at": len(self.sent)}
        done = subprocess.run(
            [Tested.program, "--load", self.folder, *SETTINGS[self.plan.passes]], input=text([line]).encode(),
            capture_output=True, env={**os.environ, **planted}, check=False)
        assert done.returncode == 0, done.stderr
        return json.loads(done.stdout)["events"]

    def compact(self) -> None:
        if compact(str(self.folder), [str(Tested.program)]):
            self.came.append("a compaction")

    def wrong(self) -> str:
        """What of the answers is not on the device, or how the program does not go on from it."""
        if not (self.folder / "journal").is_file():
            return "the journal is gone"
        after = Serving(self.folder, self.plan.passes)
        events = self.history(after)
        status, said = after.ended()
        if status > 1 or not events:
            return f"status {status}: {said.strip()}"
        names = [event["attrs"]["name"] for event in events if "Signaled" in event["type"]]
        lost = [name for name in self.answered if name not in names]
        if lost or events[:len(self.read)] != self.read or names != [name for name in self.sent if name in names]:
            return f"lost: {lost}; {len(self.read)} events were read, and now there are {len(events)}"
        return ""


class PowerIsLost(unittest.TestCase):
    """What was answered after a failed sync or a kill is on the device, and so is what was read."""

    def setUp(self) -> None:
        lacking = [name for name in NEEDED if not shutil.which(name)]
        if os.geteuid() or lacking:
            self.skipTest(f"no file system can be made here: {', '.join(lacking) or 'it wants root'}")

    def test_what_was_answered_is_there(self) -> None:
        draws, came = random.Random(Tested.seed), Counter[str]()
        for number in range(Tested.rounds):
            kind = KINDS[number % len(KINDS)]
            with made(kind) as store:
                one = Round(draws, store, Plan.drawn(draws))
                self.assertEqual(one.play(), "", f"seed {Tested.seed}, round {number}, {kind}: {one.plan}")
            came.update(one.came)
        print(f"power_loss: in {Tested.rounds} rounds {dict(came)}", flush=True)
        if Tested.rounds >= 20:
            for what in ("a sync that failed", "a kill", "a compaction"):
                self.assertGreater(came[what], 0, what)

    def test_planted_faults_are_seen(self) -> None:
        """Some of what an opening does is left out, by a library that is preloaded."""
        served = Plan(sync_fails=True, compacted="never", signals=2, twice=False, loads=False, passes=1)
        shown = served._replace(loads=True)
        with preloaded() as library:
            # Neither; the batch is written again and not synced; a sync alone; only the zeros are written, and synced.
            for left_out, plan in (("WS", shown), ("S", shown), ("W", served), ("B", served)):
                with self.subTest(left_out=left_out):
                    self.assertNotEqual(self.first_found(plan, library, left_out), "", f"seed {Tested.seed}")

    def test_the_name_of_a_new_journal_is_on_the_disk(self) -> None:
        """It is synced before the first reply. These file systems keep it with the file itself, so its loss can't be seen."""
        with preloaded() as library:
            self.assertLess(self.done_by(library).index("N"), self.done_by(library).index("T"))
            self.assertNotIn("N", self.done_by(library, OPENING_WITHOUT="N"))

    def done_by(self, library: str, **environment: str) -> str:
        """What a program does that begins a journal, by letters."""
        with fresh() as folder, tempfile.TemporaryFile() as told:
            subprocess.run(
                words(str(folder)), input=text([start("a")]).encode(), capture_output=True, check=True, pass_fds=(told.fileno(),),
                env={**os.environ, "LD_PRELOAD": library, "TOLD_WRITES": str(told.fileno()), **environment})
            told.seek(0)
            return "".join(done.kind for done in parsed(told.read()))

    def first_found(self, plan: Plan, library: str, left_out: str) -> str:
        """What is found to be wrong in the first of some rounds in which something is."""
        draws = random.Random(Tested.seed)
        for _ in range(TRIES):
            with made(KINDS[0]) as store:
                found = Round(draws, store, plan).play(LD_PRELOAD=library, OPENING_WITHOUT=left_out)
            if found:
                return found
        return ""


@contextlib.contextmanager
def preloaded() -> Iterator[str]:
    """The library that fails calls, built."""
    if not shutil.which("cc"):
        raise unittest.SkipTest("there is no C compiler")
    with tempfile.TemporaryDirectory() as folder:
        library = pathlib.Path(folder, "failing.so")
        run("cc", "-O1", "-shared", "-fPIC", "-o", library, ROOT / "tools/failing_file.c", "-ldl")
        yield str(library)


@contextlib.contextmanager
def made(kind: str) -> Iterator[Store]:
    """A new file system of this kind."""
    with tempfile.TemporaryDirectory() as folder:
        store = Store(pathlib.Path(folder), kind)
        try:
            yield store
        finally:
            store.close()


if __name__ == "__main__":
    sys.exit(run_tests(__name__, sys.argv[1:], "rounds", 200))
