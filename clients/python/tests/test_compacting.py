"""A journal is compacted: at drawn places, killed at every call of the system, beside another compaction, with faults.

A program stands in for wfserve here, whose snapshots say which steps they are made of; tools/compaction_kills.py has the
built program. WFSERVE_SEED draws other journals.
"""

import contextlib
import errno
import fcntl
import io
import os
import pathlib
import random
import signal
import subprocess
import sys
import threading
import time
import unittest
from unittest import mock

from support.journals import MAKER, SETTINGS, Journals, step
from wfserve.checkpoint import read_checkpoint
from wfserve.compacting import compact, punched
from wfserve.errors import CheckpointDamaged, CompactionRuns, JournalDamaged, NotCompacted
from wfserve.frames import framed
from wfserve.journal import JournalSettings, copy_journal, main

SEED = int(os.environ.get("WFSERVE_SEED", random.randrange(1 << 32)))
LEFT = ["checkpoint", "compaction.lock", "journal"]
# What Python tells of before the system is called. Others are of Python alone.
CALLS = ("open", "os.", "shutil.", "fcntl.", "subprocess.Popen", "mmap.", "ctypes.call_function")


def drawn_texts(draws, count, first=1):
    """Batches of some steps on both shards, some of them large."""
    at, texts = first, []
    for _ in range(count):
        steps = []
        for _ in range(draws.randrange(1, 4)):
            steps.append((draws.randrange(2), at, b"x" * draws.choice([1, 9, 300, 9_000])))
            at += 1
        texts.append(b"".join(step(*it) for it in sorted(steps)))
    return texts


class Compacted(Journals):
    def names(self):
        return sorted(os.listdir(self.folder))

    def test_snapshots_take_the_place_of_batches(self):
        self.begin([step(0, 1) + step(1, 2), step(1, 3)])
        before, size = self.steps(), self.size()
        done = self.compact()
        self.assertEqual((done.number, done.kept), (1, None))
        self.assertEqual(self.names(), ["checkpoint", "checkpoint-1", "compaction.lock", "journal"])
        found = read_checkpoint(self.folder)
        self.assertEqual((found.end, found.settings, found.size), (size, SETTINGS, done.snapshots))
        self.assertEqual(done.covered, size - len(framed(SETTINGS.text())))
        self.assertEqual(self.steps(), before)
        with self.read() as journal:
            self.assertEqual(len(journal.batches), 1)

    def test_nothing_new_is_nothing_done(self):
        for data in (b"", b"\0" * 100, framed(SETTINGS.text()) + b"\0" * 10):
            self.write("journal", data)
            self.assertIsNone(self.compact())
            self.assertEqual(self.names(), ["compaction.lock", "journal"])
        self.begin([step(0, 1)])
        self.compact()
        self.assertIsNone(self.compact())
        self.assertEqual(self.number(), 1)

    def test_drawn_journals_at_drawn_places(self):
        for number in range(6):
            with self.subTest(number, seed=SEED):
                draws = random.Random(SEED + number)
                self.setUp()
                self.begin([])
                at = 1
                for _ in range(draws.randrange(2, 6)):
                    texts = drawn_texts(draws, draws.randrange(9), at)
                    at += 100
                    self.append(texts)
                    before = self.steps()
                    if draws.randrange(3):
                        self.compact()
                    self.assertEqual(self.steps(), before)
                self.assertEqual(self.number_of_steps(), sum(map(len, self.steps())))

    def number_of_steps(self):
        moments = [at for shard in self.steps() for at, _ in shard]
        return len(set(moments))

    def test_the_room_is_given_back_and_offsets_stay(self):
        draws = random.Random(SEED)
        self.begin(drawn_texts(draws, 300), zeros=5_000)
        size, before, last = os.path.getsize(self.path), self.steps(), self.size()
        room = os.stat(self.path).st_blocks
        done = self.compact()
        if done.kept is not None:
            self.skipTest(f"no holes here: {done.kept}")
        self.assertEqual(os.path.getsize(self.path), size)
        self.assertLess(os.stat(self.path).st_blocks * 512, 60_000)
        self.assertGreater(room * 512, 300_000)
        self.assertEqual(self.steps(), before)
        data = pathlib.Path(self.path).read_bytes()
        self.assertEqual(read_checkpoint(self.folder).end, last)
        self.assertTrue(data.startswith(framed(SETTINGS.text())))
        # The batch before the checkpoint is there as a whole.
        self.assertTrue(data[:last].endswith(framed(data[data.rfind(b"\x1d") + 1:last - 33])))

    def test_without_its_checkpoint_a_journal_with_a_hole_is_damaged(self):
        """Whatever the last batch is: never one that a crash left, or a journal that was begun."""
        for size in (1, 100, 4_000, 5_000, 9_000, 70_000):
            for first in (1, 3_800, 3_900, 3_950, 4_000, 8_000):
                with self.subTest(size=size, first=first):
                    self.begin([step(0, 1, b"f" * first), *[step(0, 2, b"m" * 7_000)] * 3, step(1, 3, b"l" * size)])
                    if self.compact().kept is not None:
                        self.skipTest("no holes here")
                    os.rename(f"{self.folder}/checkpoint", f"{self.folder}/lost")
                    before = self.names()
                    for read in (self.read, lambda: self.read(live=True), self.compact, lambda: copy_journal(self.path, "copy")):
                        with self.assertRaises(JournalDamaged):
                            read()
                    # Its snapshots may be all that there is.
                    self.assertEqual(self.names(), before)
                    self.setUp()

    def test_settings_of_many_bytes_stay_whole(self):
        settings = JournalSettings(tuple(f"{number:02d}" + "q" * 240 for number in range(60)), 0, 1, 1)
        self.begin([step(0, at, b"x" * 5_000) for at in range(1, 20)], settings=settings)
        before = self.steps()
        self.compact()
        self.append([step(0, 50)])
        with self.read() as journal:
            self.assertEqual(journal.settings, settings)
        self.assertEqual(self.steps(), [before[0] + [(50, "a")]])

    def test_a_file_that_takes_no_holes_keeps_its_room(self):
        self.begin([step(0, at, b"x" * 5_000) for at in range(1, 9)])
        with mock.patch("wfserve.compacting.punched", return_value="Operation not supported"):
            with contextlib.redirect_stdout(io.StringIO()) as said, contextlib.redirect_stderr(io.StringIO()) as wrong:
                self.assertEqual(main([self.folder, "--compact", *MAKER]), 0)
        self.assertRegex(said.getvalue(), r"checkpoint 1: \d+ bytes of batches became \d+ bytes of snapshots\n")
        self.assertIn("journal: the file keeps its room on the disk: Operation not supported", wrong.getvalue())
        # Once it can, it is given back, though nothing is new.
        room = os.stat(self.path).st_blocks
        self.assertIsNone(self.compact())
        self.assertLessEqual(os.stat(self.path).st_blocks, room)
        reader, writer = os.pipe()
        self.addCleanup(os.close, reader)
        self.addCleanup(os.close, writer)
        self.assertIsInstance(punched(reader, 0, 4_096), str)

    def test_what_is_written_meanwhile_comes_after_it(self):
        self.begin([step(0, 1)])
        done = []
        thread = threading.Thread(target=lambda: done.append(self.compact(None, "--wait", "1")))
        thread.start()
        while not os.path.exists(f"{self.folder}/checkpoint-1"):
            time.sleep(0.01)
        self.append([step(1, 2), step(0, 3)])
        thread.join()
        self.assertEqual(done[0].number, 1)
        with self.read() as journal:
            self.assertEqual(list(journal.texts()), [step(1, 2), step(0, 3)])
        self.assertEqual(self.steps(), [[(1, "a"), (3, "a")], [(2, "a")]])

    def test_nobody_else_may_read_snapshots(self):
        self.begin([step(0, 1)])
        os.chmod(self.path, 0o640)
        self.addCleanup(os.umask, os.umask(0))
        self.compact()
        modes = [os.stat(os.path.join(self.folder, name)).st_mode & 0o777
                 for name in ("checkpoint", "checkpoint-1", "checkpoint-1/shard-00.snap", "compaction.lock")]
        self.assertEqual(modes, [0o640, 0o700, 0o600, 0o600])


class Locked(Journals):
    def setUp(self):
        super().setUp()
        self.begin([step(0, 1)])

    def test_one_compacts_at_a_time(self):
        with open(f"{self.folder}/compaction.lock", "w") as file:
            fcntl.flock(file, fcntl.LOCK_EX)
            with self.assertRaisesRegex(CompactionRuns, "compaction.lock: another process compacts this journal"):
                self.compact()
        self.assertEqual(self.compact().number, 1)

    def test_a_program_that_outlives_who_compacts_keeps_the_lock(self):
        """So nobody writes snapshots into a folder that it still writes to."""
        words = [sys.executable, "-m", "wfserve.journal", self.folder, "--compact", *MAKER, "--wait", "1.5"]
        compacting = subprocess.Popen(words)
        while not os.path.exists(f"{self.folder}/checkpoint-1"):
            time.sleep(0.01)
        time.sleep(0.3)
        compacting.kill()
        compacting.wait()
        with self.assertRaises(CompactionRuns):
            self.compact()
        while True:
            try:
                self.assertEqual(self.compact().number, 1)
                break
            except CompactionRuns:
                time.sleep(0.05)
        self.assertEqual(self.steps(), [[(1, "a")], []])

    def test_it_waits_until_a_program_has_opened_the_journal(self):
        opening = os.open(self.folder, os.O_RDONLY)
        fcntl.flock(opening, fcntl.LOCK_EX)
        thread = threading.Thread(target=self.compact)
        thread.start()
        while not os.path.exists(f"{self.folder}/checkpoint-1/shard-01.snap"):
            time.sleep(0.01)
        time.sleep(0.3)
        self.assertEqual(self.number(), 0)
        os.close(opening)
        thread.join()
        self.assertEqual(self.number(), 1)


class Faults(Journals):
    def setUp(self):
        super().setUp()
        self.begin([step(0, 1)])
        self.compact()
        self.append([step(1, 2)])
        self.before = self.files()

    def files(self):
        """All files of the folder, with what they have."""
        found = [path for path in pathlib.Path(self.folder).rglob("*") if path.is_file()]
        return {str(path.relative_to(self.folder)): path.read_bytes() for path in found}

    def refused(self, fault, text, *more):
        with self.assertRaisesRegex(fault, text):
            self.compact(None, *more)
        self.assertEqual(self.files(), self.before)

    def test_a_program_that_fails_leaves_all_as_it_was(self):
        self.refused(NotCompacted, "checkpoint-2: something was wrong", "--fault", "something was wrong")
        self.refused(NotCompacted, "checkpoint-2: the program made no snapshots of this journal", "--forget")
        with self.assertRaisesRegex(NotCompacted, "nobody: No such file or directory"):
            compact(self.folder, [f"{self.folder}/nobody"])
        with self.assertRaisesRegex(NotCompacted, "status 1"):
            compact(self.folder, ["false"])
        with self.assertRaisesRegex(NotCompacted, r"shard-00.snap: No such file"):
            compact(self.folder, ["true"])
        self.assertEqual(self.files(), self.before)
        self.assertEqual(self.compact().number, 2)

    def test_a_disk_that_fails_leaves_all_as_it_was(self):
        for name in ("os.link", "os.rename", "os.fsync", "os.mkdir", "os.fdatasync", "os.fchmod"):
            if name == "os.link":
                continue
            with self.subTest(name), mock.patch(name, side_effect=OSError(errno.ENOSPC, "No space left on device")):
                self.refused(NotCompacted, "No space left on device")
        with mock.patch("os.link", side_effect=OSError(errno.EXDEV, "Invalid cross-device link")):
            self.assertEqual(self.compact().number, 2)
        self.assertEqual(self.steps(), [[(1, "a")], [(2, "a")]])

    def test_what_is_damaged_is_refused_by_name(self):
        for name, fault, text in (
            ("checkpoint", CheckpointDamaged, "checkpoint: damaged"),
            ("checkpoint-1/shard-01.snap", NotCompacted, "shard-01.snap: the checkpoint was made with a snapshot of other bytes"),
            ("journal", JournalDamaged, "damaged at byte 0"),
        ):
            path = pathlib.Path(self.folder, name)
            data = path.read_bytes()
            path.write_bytes(data[:9] + b"x" + data[10:])
            self.before = self.files()
            with self.subTest(name):
                self.refused(fault, text)
            path.write_bytes(data)

    def test_only_its_owner_compacts_a_journal(self):
        with mock.patch("os.geteuid", return_value=os.geteuid() + 1):
            self.refused(NotCompacted, "it is another user's, who alone may compact it")

    def test_what_is_no_folder_of_a_journal(self):
        with self.assertRaisesRegex(NotCompacted, "nowhere/compaction.lock: No such file or directory"):
            compact(f"{self.folder}/nowhere", MAKER)
        os.mkdir(f"{self.folder}/empty")
        with self.assertRaisesRegex(NotCompacted, "empty/journal: No such file or directory"):
            compact(f"{self.folder}/empty", MAKER)
        with contextlib.redirect_stderr(io.StringIO()) as said, self.assertRaises(SystemExit):
            main([f"{self.folder}/checkpoint", "--compact", "true"])
        self.assertIn("takes a journal's folder", said.getvalue())


class Killed(Journals):
    """A compaction that ends at any of its calls of the system leaves a journal with all its steps, which is compacted next."""

    def killed(self, at):
        """Compacts in a process that is killed before its call number `at`. Whether it came to that."""
        child = os.fork()
        if child == 0:
            left = [at]

            def hook(event, arguments):
                if event.startswith(CALLS):
                    left[0] -= 1
                    if left[0] == 0:
                        os.kill(os.getpid(), signal.SIGKILL)

            try:
                sys.addaudithook(hook)
                self.compact()
            finally:
                os._exit(0)
        _, status = os.waitpid(child, 0)
        return os.WIFSIGNALED(status)

    def settle(self):
        """Waits for a program that outlives who was killed."""
        while True:
            try:
                return self.compact()
            except CompactionRuns:
                time.sleep(0.02)

    def test_at_each_call(self):
        draws = random.Random(SEED)
        at, numbers = 0, set()
        while True:
            at += 1
            self.setUp()
            texts = drawn_texts(draws, 12)
            self.begin(texts[:4])
            self.compact()
            self.append(texts[4:8])
            before = self.steps()
            was_killed = self.killed(at)
            numbers.add(self.number())
            self.assertEqual(self.steps(), before, f"seed {SEED}, call {at}")
            # The program that serves goes on.
            self.append(texts[8:])
            whole = self.steps()
            self.settle()
            self.assertEqual(self.steps(), whole, f"seed {SEED}, call {at}")
            names = [name for name in os.listdir(self.folder) if name not in LEFT]
            self.assertEqual(names, [f"checkpoint-{self.number()}"], f"call {at}")
            if not was_killed:
                break
        self.assertGreater(at, 40)
        self.assertEqual(numbers, {1, 2})


if __name__ == "__main__":
    unittest.main()
