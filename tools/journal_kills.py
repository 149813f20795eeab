#!/usr/bin/env python3
"""The built program with a journal: killed, on a full disk, opened by others and with other settings.

    tools/journal_kills.py PROGRAM [--kills N] [--seed S]

PROGRAM is the built `wfserve`, as `rt ci` leaves it in crates/wfserve/out. N is how often it is killed (60): one time
in six while it opens, and else after a drawn number of replies and a drawn part of the time that some batches take,
which is measured first. The seed is printed; with the same one the same lines are served, and the kills come after as
many replies. Where the program's journal serves several lanes, all of it is made with eight of them too. The status is
1 where a test fails. tools/journal_faults.py has the tests of disks that fail.
"""
from __future__ import annotations

import fcntl
import os
import pathlib
import random
import re
import resource
import signal as signals
import subprocess
import sys
import tempfile
import time
import unittest
from collections.abc import Callable

from journal_program import (
    BEGIN, OF_SHARDS, SECONDS, SHARDS, VALUES, WORKFLOWS, Fed, InLanes, Line, Tested, drawn_lines, histories, ran, replies_in,
    run_tests, served, start, steps_in, text, words,
)
from wfserve.journal import JournalSettings, framed

LINES = 1_500
SETTINGS = JournalSettings(("main",), 0, 1, SHARDS)
FEW_ZEROS = 300_000
# A kill comes after at most this share of the lines that are left, so that a journal is opened some ten times.
SHARE = 0.3
# One kill in so many comes while the program opens.
OPENING = 6
# What the program reads of a file at once, and what of it is one batch. So many lines are more than one such read.
READ, PART = 2_097_152, 262_144
# Of several lanes that is one batch. So many steps are committed beside the next read, and a pipe may hold their lines.
LARGE, PIPE = 3_000, 1_048_576
FILE_LINES, FILE_KILLS = 20_000, 8


def taken_in(replies: list[Line]) -> list[str]:
    """The workflow IDs of the tasks that were taken, in their order."""
    return [reply["workflow_id"] for reply in replies if reply.get("ok") == "task"]


def limit_to(most: int) -> Callable[[], None]:
    """What a program does before it begins, so that each of its files takes at most so many bytes."""
    def limit() -> None:
        signals.signal(signals.SIGXFSZ, signals.SIG_IGN)
        resource.setrlimit(resource.RLIMIT_FSIZE, (most, most))
    return limit


class Killed(InLanes):
    """What was answered is there when the program is started again, once, whenever it was killed."""

    def test_no_answered_step_is_lost_or_doubled(self) -> None:
        self.draws = random.Random(Tested.seed)
        self.lines = drawn_lines(self.draws, LINES, self.passes)
        with tempfile.TemporaryDirectory() as quiet:
            # Undisturbed, by one lane.
            fed = Fed([{**line, "lane": 0} for line in self.lines], quiet, OF_SHARDS)
            self.undisturbed = self.shown(fed.served())
            # How long an opening takes, and then a batch of lines.
            self.opening, last = (came - fed.began for came in fed.times)
            self.batch = 10 * (last - self.opening) / LINES
            shown = self.shown(served(histories(LINES), quiet, *self.more))
        self.told = done = journals = 0
        while done < Tested.kills:
            with tempfile.TemporaryDirectory() as folder:
                journals += 1
                if journals % 3:
                    # Begun with fewer zeros than the program makes, which it goes through at each opening.
                    begun = framed(SETTINGS.text()) + b"\0" * FEW_ZEROS
                    pathlib.Path(folder, "journal").write_bytes(begun)
                done += self.serve_under_kills(folder, Tested.kills - done)
                self.assertEqual(self.shown(served(histories(LINES), folder, *self.more)), shown, f"seed {Tested.seed}")
        print(f"journal_kills: {self.passes} lanes: {self.told} of {done} kills came after some replies, and not all",
              flush=True)
        if done >= 30:
            # Five in six are meant to.
            self.assertGreater(3 * self.told, done, f"seed {Tested.seed}")

    def killed_once(self, folder: str, left: list[Line]) -> list[Line]:
        """The replies of a program that is killed while it opens, or after some replies and a moment more."""
        fed = Fed(left, folder, self.more)
        if self.draws.randrange(OPENING) == 0:
            time.sleep(self.draws.uniform(0, 1.2 * self.opening))
        else:
            fed.wait_for(self.draws.randrange(1, 2 + int(SHARE * len(left))))
            time.sleep(self.draws.uniform(0, 3 * self.batch))
        return fed.killed()

    def serve_under_kills(self, folder: str, most: int) -> int:
        """Serves all lines, at most so many times killed. How often it was."""
        for number in range(most):
            before = steps_in(folder)
            replies = self.shown(self.killed_once(folder, self.lines[before:]))
            now = steps_in(folder)
            self.told += 0 < len(replies) and now < len(self.lines)
            where = f"seed {Tested.seed}, kill {number} of this journal"
            self.assertEqual(replies, self.undisturbed[before:before + len(replies)], where)
            self.assertLessEqual(before + len(replies), now, where)
            self.assertLessEqual(now, len(self.lines), where)
            if now == len(self.lines):
                return number + 1
        before = steps_in(folder)
        rest = self.shown(served(self.lines[before:], folder, *self.more))
        self.assertEqual(rest, self.undisturbed[before:], f"seed {Tested.seed}")
        return most


class KilledWithLanes(Killed):
    """The same with eight lanes, each of which serves the lines of some workflows."""

    passes = 8


class OfAFile(InLanes):
    """A file is read by megabytes, and served and committed part by part."""

    # What is one batch of a file.
    batch = PART

    def setUp(self) -> None:
        draws = random.Random(Tested.seed)
        self.lines = [self.in_lane(number, start(f"w{number}")) for number in range(WORKFLOWS)]
        for at in range(FILE_LINES):
            given = {"at": at, "request_id": f"r{at}", "input": "x" * draws.randrange(120)}
            number = draws.randrange(WORKFLOWS)
            self.lines.append(self.in_lane(number, {"op": "signal", "name": "s", "workflow_id": f"w{number}", **given}))
        self.draws = draws
        folder = tempfile.TemporaryDirectory()
        self.addCleanup(folder.cleanup)
        self.file = pathlib.Path(folder.name, "lines.jsonl")
        self.file.write_text(text(self.lines))
        done = subprocess.run(
            [Tested.program, *self.more, self.file], capture_output=True, text=True, timeout=SECONDS)
        self.undisturbed = self.shown(replies_in(done.stdout))
        self.assertEqual((done.returncode, len(self.undisturbed)), (0, len(self.lines)))

    def in_lane(self, number: int, line: Line) -> Line:
        """The line of this workflow, in its lane where there are several."""
        return {**line, "lane": number % self.passes} if self.passes > 1 else line

    def answered(self, folder: str, seconds: float) -> list[Line]:
        """The replies of a program that serves the file with a journal, and is killed after so many seconds."""
        printed = pathlib.Path(folder, "replies")
        with printed.open("wb") as replies, subprocess.Popen([*words(folder, *self.more), self.file], stdout=replies) as program:
            try:
                program.wait(seconds)
            except subprocess.TimeoutExpired:
                program.kill()
        return self.shown(replies_in(printed.read_text()))

    def go_on(self, folder: str, kept: int) -> None:
        """What comes after the lines whose steps a journal has is answered as if nothing had been."""
        self.assertEqual(self.shown(served(self.lines[kept:], folder, *self.more)), self.undisturbed[kept:])

    def test_each_part_is_a_batch(self) -> None:
        with tempfile.TemporaryDirectory() as folder:
            self.assertEqual(self.answered(folder, SECONDS), self.undisturbed)
            self.assertEqual(steps_in(folder), len(self.lines))
            reads, rest = divmod(self.file.stat().st_size, READ)
            parts = reads * READ // self.batch + -(-rest // self.batch)
            # The settings are a batch too.
            self.assertEqual(pathlib.Path(folder, "journal").read_bytes().count(BEGIN), 1 + parts)

    def test_no_answered_step_is_lost_or_doubled(self) -> None:
        began = time.monotonic()
        with tempfile.TemporaryDirectory() as folder:
            self.answered(folder, SECONDS)
        whole, inside = time.monotonic() - began, 0
        for number in range(FILE_KILLS):
            with self.subTest(kill=number, seed=Tested.seed), tempfile.TemporaryDirectory() as folder:
                replies = self.answered(folder, self.draws.uniform(0, whole))
                now = steps_in(folder)
                inside += 0 < now < len(self.lines)
                self.assertEqual(replies, self.undisturbed[:len(replies)])
                self.assertLessEqual(len(replies), now)
                self.go_on(folder, now)
        print(f"journal_kills: {inside} of {FILE_KILLS} kills came while a file was served", flush=True)

    def test_a_part_that_finds_no_room_is_not_answered(self) -> None:
        for _ in range(3):
            most = self.draws.randrange(self.file.stat().st_size)
            with self.subTest(bytes=most, seed=Tested.seed), tempfile.TemporaryDirectory() as folder:
                done = subprocess.run([*words(folder, *self.more), self.file], capture_output=True, text=True,
                                      timeout=SECONDS, preexec_fn=limit_to(most))
                self.assertEqual(done.returncode, 2)
                self.assertRegex(done.stderr, re.escape(f"wfserve: {folder}/journal: ") + ".*File too large")
                told, kept = self.shown(replies_in(done.stdout)), steps_in(folder)
                self.assertLessEqual(len(told), kept)
                self.assertEqual(told, self.undisturbed[:len(told)])
                self.go_on(folder, kept)


class OfAFileInLanes(OfAFile):
    """The same with eight lanes: what a read gave is one batch, and is committed while the next read is served."""

    passes, batch = 8, READ

    def test_a_large_batch_is_answered_while_nothing_more_comes(self) -> None:
        """A pipe that holds many lines gives them at once, and stays open."""
        reads, writes = os.pipe()
        fcntl.fcntl(writes, fcntl.F_SETPIPE_SZ, PIPE)
        lines = self.lines[:LARGE]
        os.write(writes, text(lines).encode())
        with tempfile.TemporaryDirectory() as folder, os.fdopen(writes, "wb") as ours, subprocess.Popen(
            words(folder, *self.more), stdin=reads, stdout=subprocess.PIPE, text=True
        ) as program:
            os.close(reads)
            assert program.stdout is not None
            told = replies_in("".join(program.stdout.readline() for _ in lines))
            self.assertEqual(self.shown(told), self.undisturbed[:LARGE])
            self.assertEqual(steps_in(folder), LARGE)
            ours.close()
            self.assertEqual(program.stdout.read(), "")


class FullDisk(unittest.TestCase):
    """A journal's file may take so many bytes, and then none."""

    def test_nothing_is_answered_that_is_not_on_the_disk(self) -> None:
        """The program ends with status 2 and a text, and goes on from what is there once there is room again."""
        draws = random.Random(Tested.seed)
        lines = [start(f"w{number}") for number in range(20)]
        with tempfile.TemporaryDirectory() as quiet:
            undisturbed = served(lines, quiet)
            size = pathlib.Path(quiet, "journal").stat().st_size
        for most in [0, 1, size - 1, *(draws.randrange(size) for _ in range(12))]:
            with self.subTest(bytes=most, seed=Tested.seed), tempfile.TemporaryDirectory() as folder:
                done = ran(lines, folder, preexec_fn=limit_to(most))
                self.assertEqual(done.returncode, 2, done.stdout)
                self.assertRegex(done.stderr, re.escape(f"wfserve: {folder}/journal: ") + ".*File too large")
                told, kept = replies_in(done.stdout), steps_in(folder)
                self.assertLessEqual(len(told), kept)
                self.assertEqual(told + served(lines[len(told):][kept - len(told):], folder),
                                 told + undisturbed[kept:])


class Opened(unittest.TestCase):
    """A journal is opened by one program, with the settings that it was begun with, whatever waits."""

    def fresh(self) -> str:
        folder = tempfile.TemporaryDirectory()
        self.addCleanup(folder.cleanup)
        return folder.name

    def refused(self, folder: str, fault: str, *more: str) -> None:
        """The program ends with status 2 and this fault, and leaves the file as it is."""
        file = pathlib.Path(folder, "journal")
        before = file.read_bytes()
        done = ran([start("late")], folder, *more)
        self.assertEqual((done.returncode, done.stdout, done.stderr), (2, "", f"wfserve: {file}: {fault}\n"))
        self.assertEqual(file.read_bytes(), before)

    def test_other_settings_are_refused_by_name(self) -> None:
        folder = self.fresh()
        served([start("a")], folder, "--shards", "2", "--queues", "main,other", "--retention", "1000")
        own = ("--shards", "2", "--queues", "main,other", "--retention", "1000")
        for place, value, name in ((1, "3", "shards"), (3, "main", "queues"), (5, "1001", "retention")):
            words_ = [*own[:place], value, *own[place + 1:]]
            with self.subTest(name):
                self.refused(folder, f"the journal is of another --{name}", *words_)
        self.refused(folder, "the journal is of another --service", *own, "--service", "2")
        read = served([{"op": "history", "workflow_id": "a"}], folder, *own, "--capacity", "7")
        self.assertEqual(read[0]["ok"], "history")

    def test_what_is_refused_is_left_as_it_is_with_a_torn_batch_too(self) -> None:
        """A batch that a crash left unfinished becomes zeros, but not for a program that is refused."""
        folder = self.fresh()
        served([start("a")], folder)
        file = pathlib.Path(folder, "journal")
        whole = file.read_bytes().rstrip(b"\0")
        file.write_bytes(whole + BEGIN + b"00{" + b"\0" * 99)
        self.refused(folder, "the journal is of another --service", "--service", "2")
        self.refused(folder, "the journal is of another --shards", "--shards", "3")
        self.assertEqual(served([], folder), [])
        self.assertEqual(file.read_bytes(), whole + b"\0" * 103)

    def test_the_last_batch_is_written_again_and_nothing_changes(self) -> None:
        folder = self.fresh()
        served([start("a")], folder)
        file = pathlib.Path(folder, "journal")
        before = file.read_bytes()
        os.utime(file, (0, 0))
        self.assertEqual(served([], folder), [])
        self.assertGreater(file.stat().st_mtime, 0)
        self.assertEqual(file.read_bytes(), before)

    def test_a_second_program_is_refused(self) -> None:
        folder = self.fresh()
        with subprocess.Popen(words(folder), stdin=subprocess.PIPE, stdout=subprocess.PIPE) as first:
            assert first.stdin is not None and first.stdout is not None
            first.stdin.write(text([start("a")]).encode())
            first.stdin.flush()
            first.stdout.readline()
            self.refused(folder, "another process has this journal open")
            first.stdin.close()
        self.assertEqual(served([{"op": "history", "workflow_id": "a"}], folder)[0]["ok"], "history")

    def test_damage_is_refused_with_its_place(self) -> None:
        """Another byte in a batch that is not the last one, drawn two hundred times."""
        folder, draws = self.fresh(), random.Random(Tested.seed)
        for number in range(4):
            served([start(f"w{number}")], folder)
        file = pathlib.Path(folder, "journal")
        # Some of the zeros are enough.
        whole = file.read_bytes().rstrip(b"\0") + b"\0" * 99
        last = whole.rstrip(b"\0").rindex(BEGIN)
        for _ in range(200):
            place = draws.randrange(last)
            changed = bytearray(whole)
            changed[place] = draws.choice([value for value in VALUES if value != whole[place]])
            file.write_bytes(changed)
            done = ran([start("late")], folder)
            with self.subTest(place=place, byte=changed[place], seed=Tested.seed):
                self.assertEqual((done.returncode, done.stdout), (2, ""))
                self.assertRegex(done.stderr, re.escape(f"wfserve: {file}: ") + r"damaged at byte \d+\n")
                self.assertEqual(file.read_bytes(), changed)

    def test_more_tasks_wait_than_a_queue_holds(self) -> None:
        """Of three tasks one is in the full queue. Opened again, it is there, and the others come by their turns."""
        folder = self.fresh()
        turn = {"op": "dispatch_turn", "shard": 0}
        poll = {"op": "poll_workflow_task", "task_queue": "main"}
        said = served([start("a"), start("b"), start("c"), turn, turn], folder, "--capacity", "1")
        self.assertEqual([said[3].get("ok"), said[4].get("error")], ["dispatched", "QueueFull"])
        for _ in range(2):
            self.assertEqual(served([turn], folder, "--capacity", "1")[0].get("error"), "QueueFull")
        said = served([poll, poll, turn, poll, turn, poll, poll], folder, "--capacity", "1")
        self.assertEqual(taken_in(said), ["a", "b", "c"])
        self.assertEqual([said[1].get("ok"), said[6].get("ok")], ["empty", "empty"])

    def test_a_lower_capacity_takes_what_waits(self) -> None:
        """Three hints are in a queue that takes one: no other one is pushed until fewer than one waits."""
        folder = self.fresh()
        turn = {"op": "dispatch_turn", "shard": 0}
        poll = {"op": "poll_workflow_task", "task_queue": "main"}
        served([start("a"), start("b"), start("c"), turn, turn, turn], folder, "--capacity", "3")
        said = served([start("d"), turn, poll, turn, poll, turn, poll, turn, poll], folder, "--capacity", "1")
        self.assertEqual(taken_in(said), ["a", "b", "c", "d"])
        self.assertEqual([said[number].get("error") for number in (1, 3, 5)], ["QueueFull"] * 3)
        self.assertEqual(said[7].get("ok"), "dispatched")


if __name__ == "__main__":
    sys.exit(run_tests(__name__, sys.argv[1:], "kills", 60))
