#!/usr/bin/env python3
"""A journal is compacted while the built program serves it, and both are killed: nothing that was answered is lost.

    tools/compaction_kills.py PROGRAM [--kills N] [--seed S]

PROGRAM is the built `wfserve`, as `rt ci` leaves it in crates/wfserve/out. N is how many kills there are (300), each at a
drawn moment of a compaction: of the process that compacts, whose program then goes on alone; of both; of the program that
serves; or of all three. What is served next is as if nothing had been killed or compacted, and the next compaction removes
what was left over. The seed is printed; with the same one the same lines are served. The status is 1 where a test fails.
"""
from __future__ import annotations

import contextlib
import os
import pathlib
import random
import signal as signals
import subprocess
import sys
import tempfile
import time
import unittest

import client_package
from journal_program import OF_SHARDS, Fed, InLanes, Line, Tested, drawn_lines, histories, ran, run_tests, served, start
from wfserve.checkpoint import read_checkpoint
from wfserve.journal import Journal, journal_in, last_moment_in

LINES = 600
KINDS = ("who compacts", "it and its program", "who serves", "all")
# All lines are handed in within so many of a compaction's times, at least.
TIMES = 15
# One compaction in so many is let be, and tells how long the next ones may take.
LET_BE = 4
# What a compaction says that finds the program of another one at work.
RUNS = "another process compacts this journal"
LEFT = ("checkpoint", "compaction.lock", "journal")


class Compacting:
    """A process that compacts the journal in a folder."""

    def __init__(self, folder: str):
        words = [sys.executable, "-m", "wfserve.journal", folder, "--compact", str(Tested.program)]
        self._process = subprocess.Popen(
            words, env=client_package.environment(), stdout=subprocess.DEVNULL, stderr=subprocess.PIPE, text=True,
            start_new_session=True)

    @property
    def is_running(self) -> bool:
        return self._process.poll() is None

    def kill(self, program_too: bool) -> None:
        """Ends it at once, its program with it or left alone."""
        # It may have ended.
        with contextlib.suppress(ProcessLookupError):
            if program_too:
                os.killpg(self._process.pid, signals.SIGKILL)
            self._process.kill()
        self._process.communicate()

    def ended(self) -> str:
        """Lets it come to its end. What it said against it, or nothing."""
        _, said = self._process.communicate()
        return said.strip() if self._process.returncode else ""


def compacted(folder: str) -> float:
    """Compacts the journal in a folder, once no other compaction runs. How many seconds the last one took."""
    while True:
        began = time.monotonic()
        said = Compacting(folder).ended()
        if not said:
            return time.monotonic() - began
        if RUNS not in said:
            raise AssertionError(said)
        time.sleep(0.05)


def kept_in(folder: str) -> int:
    """How many lines a journal has kept: the moment of each is its number, from 1 on, and each makes a step."""
    return last_moment_in(journal_in(folder)) if os.path.exists(journal_in(folder)) else 0


class Killed(InLanes):
    """What was answered is there when the program is started again, however often the journal was compacted or that killed."""

    share = 0.7

    def test_no_answered_step_is_lost_or_doubled(self) -> None:
        most = max(int(self.share * Tested.kills), 1)
        self.draws = random.Random(Tested.seed)
        drawn = drawn_lines(self.draws, LINES, self.passes)
        self.lines = [{**line, "at": at} for at, line in enumerate(drawn, 1)]
        self.measure()
        self.numbers: list[int] = []
        self.during = done = 0
        while done < most:
            with tempfile.TemporaryDirectory() as folder:
                done += self.serve_under_kills(folder, most - done)
                self.check_all(folder)
        print(f"compaction_kills: {self.passes} lanes: {self.during} of {done} kills came while a journal was compacted; "
              f"the journals came to checkpoints {self.numbers}", flush=True)
        if done >= 30:
            # Most are meant to.
            self.assertGreater(3 * self.during, done, f"seed {Tested.seed}")
            self.assertGreater(max(self.numbers), 2, f"seed {Tested.seed}")

    def measure(self) -> None:
        """Serves all lines by one lane and undisturbed, and compacts then."""
        with tempfile.TemporaryDirectory() as quiet:
            self.undisturbed = self.shown(Fed([{**line, "lane": 0} for line in self.lines], quiet, OF_SHARDS).served())
            self.histories = self.shown(served(histories(LINES + 1), quiet, *self.more))
            self.seconds = compacted(quiet)
            self.assertEqual(self.shown(served(histories(LINES + 1), quiet, *self.more)), self.histories)

    def check_all(self, folder: str) -> None:
        """The histories of a journal are those of the one that nobody disturbed, before and after it is compacted."""
        self.assertEqual(self.shown(served(histories(LINES + 1), folder, *self.more)), self.histories, f"seed {Tested.seed}")
        compacted(folder)
        self.assertEqual(self.shown(served(histories(LINES + 1), folder, *self.more)), self.histories, f"seed {Tested.seed}")
        compacted(folder)
        found = read_checkpoint(folder)
        assert found is not None
        names = sorted(name for name in os.listdir(folder) if name not in LEFT)
        self.assertEqual(names, [f"checkpoint-{found.number}"], f"seed {Tested.seed}")
        self.numbers.append(found.number)

    def serve_under_kills(self, folder: str, most: int) -> int:
        """Serves all lines, at most so many times killed. How many kills there were."""
        done = 0
        while done < most:
            before = kept_in(folder)
            if before == len(self.lines):
                return done
            fed = Fed(self.lines[before:], folder, self.more, pause=10 * TIMES * self.seconds / LINES)
            fed.wait_for(self.draws.randrange(1, 2 + (len(self.lines) - before) // TIMES))
            is_served = True
            while is_served and done < most:
                kind = self.draws.choice(KINDS)
                done += self.kill_one(folder, fed, kind)
                is_served = kind in KINDS[:2]
            self.check_replies(folder, before, self.shown(fed.killed()))
        before = kept_in(folder)
        rest = self.shown(served(self.lines[before:], folder, *self.more))
        self.assertEqual(rest, self.undisturbed[before:], f"seed {Tested.seed}")
        return done

    def kill_one(self, folder: str, fed: Fed, kind: str) -> int:
        """Compacts the journal, and kills one of these or all at a drawn moment. How many kills that were."""
        compacting, began = Compacting(folder), time.monotonic()
        if self.draws.randrange(LET_BE) == 0:
            said = compacting.ended()
            self.assertTrue(not said or RUNS in said, said)
            self.seconds = (self.seconds + time.monotonic() - began) / 2
            return 0
        time.sleep(self.draws.uniform(0, self.seconds))
        self.during += compacting.is_running
        if kind in ("who serves", "all"):
            fed.kill()
        if kind == "who serves":
            said = compacting.ended()
            self.assertTrue(not said or RUNS in said, said)
        else:
            compacting.kill(program_too=kind != "who compacts")
        return 1

    def check_replies(self, folder: str, before: int, replies: list[Line]) -> None:
        where = f"seed {Tested.seed}"
        self.assertEqual(replies, self.undisturbed[before:before + len(replies)], where)
        self.assertLessEqual(before + len(replies), kept_in(folder), where)


class KilledWithLanes(Killed):
    """The same with eight lanes, each of which serves the lines of some workflows."""

    passes = 8
    share = 0.3


class Damaged(unittest.TestCase):
    """A folder of which something is not as it was written is refused by name, and left as it is."""

    def setUp(self) -> None:
        folder = tempfile.TemporaryDirectory()
        self.addCleanup(folder.cleanup)
        self.folder = pathlib.Path(folder.name)
        for number in range(30):
            served([{**start(f"w{number}"), "input": "x" * 900}], folder.name)
        compacted(folder.name)
        served([start("later")], folder.name)

    def files(self) -> dict[str, bytes]:
        paths = [path for path in self.folder.rglob("*") if path.is_file()]
        return {str(path.relative_to(self.folder)): path.read_bytes() for path in paths}

    def refused(self, fault: str, changed: dict[str, bytes | None]) -> None:
        """The program ends with status 2 and this fault where these files are others, or not there, and leaves all as it is."""
        before = self.files()
        for name, data in changed.items():
            path = self.folder / name
            path.unlink() if data is None else path.write_bytes(data)
        found = self.files()
        done = ran([start("late")], str(self.folder))
        self.assertEqual((done.returncode, done.stdout), (2, ""), fault)
        self.assertRegex(done.stderr, fault)
        self.assertEqual(self.files(), found)
        for name in changed:
            (self.folder / name).write_bytes(before[name])

    def test_damage_is_refused_by_name(self) -> None:
        draws, before = random.Random(Tested.seed), self.files()
        snapshot = "checkpoint-1/shard-00.snap"
        for name, fault in (("checkpoint", "/checkpoint: "), (snapshot, "shard-00.snap: .*other bytes")):
            data = before[name]
            for _ in range(20):
                place = draws.randrange(len(data))
                other = data[:place] + bytes([data[place] ^ draws.randrange(1, 256)]) + data[place + 1:]
                with self.subTest(name, place=place, seed=Tested.seed):
                    self.refused(fault, {name: other})
            self.refused(fault, {name: data + b"\n"})
        self.refused("shard-00.snap: ", {snapshot: None})
        end = before["journal"].index(Journal(str(self.folder / "journal")).bytes_of(
            Journal(str(self.folder / "journal")).batches[1]))
        for place in (end - 1, end - 2, end - 33):
            journal = before["journal"]
            self.refused("no such batch ends at byte", {"journal": journal[:place] + b"x" + journal[place + 1:]})
        self.assertEqual(served([{"op": "describe", "workflow_id": "later"}], str(self.folder))[0]["ok"], "described")

    def test_without_its_checkpoint_a_journal_with_a_hole_is_damaged(self) -> None:
        """It is never taken for one that a crash left."""
        data = (self.folder / "journal").read_bytes()
        if b"\0" * 8_192 not in data.rstrip(b"\0"):
            self.skipTest("the file system makes no holes")
        (self.folder / "checkpoint").unlink()
        done = ran([start("late")], str(self.folder))
        self.assertEqual((done.returncode, done.stdout), (2, ""))
        self.assertRegex(done.stderr, r"journal: damaged at byte \d+")
        self.assertEqual((self.folder / "journal").read_bytes(), data)


if __name__ == "__main__":
    sys.exit(run_tests(__name__, sys.argv[1:], "kills", 300))
