"""Checkpoints of a journal, read and written: what they are, damage, and copies of a journal that has one.

WFSERVE_SEED draws other journals.
"""

import contextlib
import io
import json
import os
import pathlib
import random
import shutil
import unittest
from dataclasses import replace

from support.journals import SETTINGS, Journals, step
from wfserve.checkpoint import Checkpoint, SnapshotFile, check_snapshots, read_checkpoint, settled
from wfserve.errors import CheckpointDamaged, JournalCompacted, JournalDamaged, LogDamaged, OtherJournal
from wfserve.frames import framed
from wfserve.journal import Journal, copy_folder, copy_journal, first_settings, last_moment_in, main
from wfserve.snapshots import SnapshotRun, head_and_last, runs_in
from wfserve.sums import Sums, plain

SEED = int(os.environ.get("WFSERVE_SEED", random.randrange(1 << 32)))


class Sum(unittest.TestCase):
    def test_they_are_the_plain_ones(self):
        draws = random.Random(SEED)
        for size in [0, 1, 999, 1_000, 1_001, 16_383, 16_384, 16_385, *(draws.randrange(100_000) for _ in range(20))]:
            for text in (draws.randbytes(size), b"\xff" * size):
                sums, cut = Sums(), draws.randrange(size + 1)
                sums.add(text[:cut])
                sums.add(text[cut:])
                self.assertEqual((sums.bytes, sums.sums), plain(text), f"seed {SEED}")


class File(Journals):
    def test_its_bytes(self):
        checkpoint = Checkpoint(SETTINGS, 7, 300, "ab" * 16, (SnapshotFile(1, "c" * 32), SnapshotFile(2, "d" * 32)))
        head = '{"bytes":300,"check":"%s","checkpoint":1,"number":7}\n' % ("ab" * 16)
        lines = head + "".join('{"bytes":%d,"check":"%s","shard":%d}\n' % (shard + 1, "cd"[shard] * 32, shard) for shard in (0, 1))
        self.assertEqual(checkpoint.data(), framed(SETTINGS.text()) + framed(lines.encode()) + b"\0")
        self.write("checkpoint", checkpoint.data())
        self.assertEqual(read_checkpoint(self.folder), checkpoint)
        self.assertEqual(checkpoint.paths("x"), ["x/checkpoint-7/shard-00.snap", "x/checkpoint-7/shard-01.snap"])

    def test_any_other_byte_is_damage(self):
        checkpoint = Checkpoint(SETTINGS, 7, 300, "ab" * 16, (SnapshotFile(1, "c" * 32), SnapshotFile(2, "d" * 32)))
        data = checkpoint.data()
        for place in range(len(data)):
            for value in {0, 29, 30, 10, 65, 255, data[place] ^ 1} - {data[place]}:
                self.refused(data[:place] + bytes([value]) + data[place + 1:])
        for other in (b"", b"\0", data[:-1], data + b"\0", data + data, *(data[:cut] for cut in range(0, len(data), 7))):
            self.refused(other)

    def refused(self, data):
        self.write("checkpoint", data)
        with self.assertRaises(CheckpointDamaged) as caught:
            read_checkpoint(self.folder)
        self.assertIn(f"{self.folder}/checkpoint: damaged", str(caught.exception))

    def test_values_that_none_has_are_damage(self):
        good = Checkpoint(SETTINGS, 7, 300, "a" * 32, (SnapshotFile(1, "c" * 32), SnapshotFile(2, "d" * 32)))
        snapshots = good.snapshots
        for bad in (
            replace(good, number=0), replace(good, number=True), replace(good, number="7"), replace(good, end=99),
            replace(good, end=300.0), replace(good, check="A" * 32), replace(good, check="a" * 31), replace(good, check=1),
            replace(good, snapshots=snapshots[:1]), replace(good, snapshots=()), replace(good, snapshots=snapshots * 2),
            replace(good, snapshots=(SnapshotFile(-1, "c" * 32), snapshots[1])),
            replace(good, snapshots=(SnapshotFile(1, "c" * 33), snapshots[1])),
        ):
            with self.subTest(bad):
                self.refused(bad.data())
        swapped = good.data().replace(b'"shard":0', b'"shard":1', 1)
        self.refused(swapped)

    def test_a_later_version_is_told(self):
        text = b'{"bytes":300,"check":"%s","checkpoint":2,"number":7}\n' % (b"a" * 32)
        self.write("checkpoint", framed(SETTINGS.text()) + framed(text) + b"\0")
        with self.assertRaisesRegex(OtherJournal, "checkpoint: no checkpoint of this version"):
            read_checkpoint(self.folder)


class Read(Journals):
    """A journal of three batches of steps, the first two of which its checkpoint has."""

    def setUp(self):
        super().setUp()
        self.texts = [step(0, 1) + step(1, 2), step(1, 3, b"b"), step(0, 4, b"c")]
        self.begin(self.texts[:2])
        self.compact()
        self.append(self.texts[2:])

    def test_steps_are_those_since(self):
        with Journal(self.path) as journal:
            self.assertEqual((journal.settings, journal.torn), (SETTINGS, False))
            self.assertEqual(list(journal.texts()), self.texts[2:])
            self.assertEqual(journal.records_since(), [[step(0, 4, b"c")[2:]], []])
            self.assertEqual((journal.begin, journal.end), (journal.checkpoint.end, self.size()))
            with self.assertRaisesRegex(JournalCompacted, "its records begin with snapshots"):
                journal.records()
        self.assertEqual((first_settings(self.path), last_moment_in(self.path)), (SETTINGS, 4))

    def test_the_last_moment_may_be_a_snapshots(self):
        self.compact()
        self.assertEqual(last_moment_in(self.path), 4)

    def test_its_snapshots(self):
        paths = read_checkpoint(self.folder).paths(self.folder)
        with open(paths[1], "rb") as file:
            self.assertEqual(list(runs_in(file)), [SnapshotRun(1, "a", "w", 2), SnapshotRun(2, "b", "w", 3)])
        self.assertEqual(head_and_last(paths[1]), ({"retention": 0, "service": 1, "shard": 1, "shards": 2}, 3))
        lines = [b'{"gone":2}\n', b'{"at":9,"attrs":{"workflow_id":"x","workflow_type":"t"},"id":1,"type":"WorkflowExecutionStarted"}\n']
        self.assertEqual(list(runs_in(lines)), [SnapshotRun(3, "x", "t", 9)])
        for text in (b"", b"{}\n", b'{"head":{}}\n', b'{"end":{"last":1,"lines":1}}\n', b'{"head":{}}\n{"end":{"last":1,"lines":1}}'):
            with self.assertRaisesRegex(LogDamaged, "it is no snapshot"):
                head_and_last(self.write("x", text))

    def test_what_a_crash_leaves_and_damage_after_it(self):
        data = pathlib.Path(self.path).read_bytes().rstrip(b"\0")
        self.write("journal", data + framed(step(0, 5))[:-9] + b"\0" * 20)
        with Journal(self.path) as journal:
            self.assertTrue(journal.torn)
            self.assertEqual(list(journal.texts()), self.texts[2:])
        self.write("journal", data + b"x\0")
        with self.assertRaisesRegex(JournalDamaged, f"damaged at byte {len(data)}"):
            Journal(self.path)
        with Journal(self.path, live=True) as journal:
            self.assertEqual(len(journal.batches), 2)

    def test_a_journal_that_does_not_go_on_from_it_is_refused(self):
        data, checkpoint = pathlib.Path(self.path).read_bytes(), read_checkpoint(self.folder)
        for place in range(checkpoint.end - 33, checkpoint.end):
            self.write("journal", data[:place] + b"x" + data[place + 1:])
            with self.assertRaisesRegex(CheckpointDamaged, f"no such batch ends at byte {checkpoint.end}"):
                Journal(self.path)
        for shorter in (data[:checkpoint.end - 1], framed(SETTINGS.text()) + b"\0" * 5_000):
            self.write("journal", shorter)
            with self.assertRaises(CheckpointDamaged):
                Journal(self.path)
        self.write("journal", framed(replace(SETTINGS, service=2).text()) + data[checkpoint.end:])
        with self.assertRaisesRegex(CheckpointDamaged, "the checkpoint is of another journal: its settings are others"):
            Journal(self.path)
        for other in (b"", b"\0" * 9, b"x" + data[1:]):
            self.write("journal", other)
            with self.assertRaisesRegex(JournalDamaged, "damaged at byte 0"):
                Journal(self.path)

    def test_a_journal_under_another_name_has_none(self):
        shutil.copyfile(self.path, f"{self.folder}/other")
        with Journal(f"{self.folder}/other") as journal:
            self.assertEqual((journal.checkpoint, list(journal.texts())), (None, self.texts))

    def test_a_compaction_meanwhile_is_told(self):
        with Journal(self.path) as journal:
            texts = journal.texts()
            self.assertEqual(next(texts), self.texts[2])
            self.compact()
            with self.assertRaisesRegex(JournalCompacted, "read it again"):
                list(journal.texts())

    def test_what_is_read_across_a_compaction_is_read_again(self):
        seen = []

        def read(checkpoint):
            seen.append(checkpoint.number)
            if len(seen) == 1:
                self.compact()
                raise FileNotFoundError("the former snapshots")
            if len(seen) == 2:
                self.append([step(1, 5)])
                self.compact()
            return checkpoint.number

        self.assertEqual((settled(self.path, read), seen), (3, [1, 2, 3]))
        with self.assertRaises(FileNotFoundError):
            settled(self.path, lambda checkpoint: open(f"{self.folder}/nothing"))

    def test_it_is_shown(self):
        said = io.StringIO()
        with contextlib.redirect_stdout(said):
            self.assertEqual(main([self.path]), 0)
            self.assertEqual(main([self.folder]), 0)
        lines = said.getvalue().splitlines()
        self.assertEqual(lines[:3], lines[3:])
        self.assertEqual(json.loads(lines[1])["checkpoint"], 1)
        self.assertIn('"workflow_id":"c"', lines[2])


class Copied(Journals):
    def test_a_copy_is_a_folder_that_says_the_same(self):
        draws = random.Random(SEED)
        texts = [step(draws.randrange(2), at, b"x" * draws.randrange(3_000)) for at in range(1, 40)]
        self.begin(texts[:30])
        self.compact()
        self.append(texts[30:])
        for number, count in enumerate((copy_journal(self.path, f"{self.folder}/copy-0"), copy_folder(self.path, f"{self.folder}/copy-1"))):
            copy = f"{self.folder}/copy-{number}"
            self.assertEqual(count, 10)
            self.assertEqual(sorted(os.listdir(copy)), ["checkpoint", "checkpoint-1", "journal"])
            self.assertLess(os.path.getsize(f"{copy}/journal"), 60_000)
            with Journal(f"{copy}/journal") as journal:
                self.assertEqual(list(journal.texts()), texts[30:], f"seed {SEED}")
                check_snapshots(journal.checkpoint, copy)
            self.assertEqual(self.steps(copy), self.steps(), f"seed {SEED}")
            self.assertEqual(os.stat(f"{copy}/checkpoint-1/shard-00.snap").st_nlink, 1)
        # A copy is compacted as any other journal is, and so is a copy of a copy.
        self.compact(f"{self.folder}/copy-0")
        copy_folder(f"{self.folder}/copy-0/journal", f"{self.folder}/copy-2")
        self.assertEqual(self.steps(f"{self.folder}/copy-2"), self.steps(), f"seed {SEED}")

    def test_one_batch_is_told_as_one(self):
        self.begin([])
        said = io.StringIO()
        with contextlib.redirect_stdout(said):
            self.assertEqual(main([self.path, "--copy", f"{self.folder}/file"]), 0)
        self.assertEqual(said.getvalue(), "1 batch\n")

    def test_without_a_checkpoint_it_is_a_file_or_a_folder_as_is_asked_for(self):
        self.begin([step(0, 1)])
        said = io.StringIO()
        with contextlib.redirect_stdout(said):
            self.assertEqual(main([self.path, "--copy", f"{self.folder}/file"]), 0)
            self.assertEqual(main([self.folder, "--copy", f"{self.folder}/whole/"]), 0)
        self.assertEqual(said.getvalue(), "2 batches\n2 batches\n")
        file = pathlib.Path(self.folder, "file").read_bytes()
        self.assertEqual(file, framed(SETTINGS.text()) + framed(step(0, 1)) + b"\0")
        self.assertEqual(os.listdir(f"{self.folder}/whole"), ["journal"])
        self.assertEqual(pathlib.Path(self.folder, "whole/journal").read_bytes(), file)

    def test_nothing_is_written_over_and_nothing_damaged_is_copied(self):
        self.begin([step(0, 1)])
        self.compact()
        os.mkdir(f"{self.folder}/copy")
        with self.assertRaises(FileExistsError):
            copy_folder(self.path, f"{self.folder}/copy")
        snapshot = pathlib.Path(self.folder, "checkpoint-1/shard-01.snap")
        data = snapshot.read_bytes()
        for other in (data[:-1] + b"x", data[:-1], None):
            if other is None:
                snapshot.unlink()
            else:
                snapshot.write_bytes(other)
            with contextlib.redirect_stderr(io.StringIO()) as said:
                self.assertEqual(main([self.folder, "--copy", f"{self.folder}/other"]), 2)
            self.assertIn("shard-01.snap", said.getvalue())
            self.assertEqual([name for name in os.listdir(self.folder) if name.startswith("other")], [])


if __name__ == "__main__":
    unittest.main()
