"""Texts that are too long for a history, over a journal and without a server: they lie beside it.

WFSERVE_SEED draws other texts.
"""

import os
import pathlib
import random
import stat
import sys
import tempfile
import unittest
from unittest import mock

from support.programs import BUILT, JOURNALING
from test_blobs import texts_of
from test_durable import Journaled
from wfserve.blobs import MOST_BYTES, BlobDamaged, BlobTooLarge, copy_blobs, name_of, names_in, store_beside
from wfserve.client import Client
from wfserve.durable import DurableService, move_journal, move_log
from wfserve.durable.program import Program
from wfserve.workflows import Worker, run, seconds, workflow
from wfserve.workflows.clocks import JumpingClock
from wfserve.workflows.driver import Driver, run_until_closed

SEED = int(os.environ.get("WFSERVE_SEED", random.randrange(1 << 32)))
LONG = 100_000
TEXT = random.Random(SEED).randbytes(LONG // 2).hex()


def reverse(text):
    return text[::-1]


@workflow
async def reversed_twice(ctx, text):
    """Has long texts as an input, an activity's input and result, a signal's value and the result."""
    once = await ctx.activity(reverse, text, start_to_close=seconds(5))
    told = await ctx.signal("told")
    return [await ctx.activity(reverse, once, start_to_close=seconds(5)), told]


def files_in(folder):
    return sorted(path for path in pathlib.Path(folder).rglob("*") if path.is_file())


class Beside(unittest.TestCase):
    """Where they lie, and when: over a program that counts its lines."""

    def setUp(self):
        folder = tempfile.TemporaryDirectory()
        self.addCleanup(folder.cleanup)
        self.kept = pathlib.Path(folder.name) / "kept"
        self.service = DurableService(JOURNALING, str(self.kept))
        self.addCleanup(self.service.close)

    def signal(self, value):
        return Client(self.service).handle("w").signal("told", value)

    def test_a_store_lies_beside_the_folder(self):
        beside = self.kept.parent / "kept.blobs"
        for path in (str(self.kept), f"{self.kept}/", os.path.relpath(self.kept)):
            self.assertEqual(store_beside(path).folder, beside)
        self.assertEqual((self.service.blobs.folder, beside.exists()), (beside, False))

    def test_a_short_text_makes_no_file_and_a_long_one_is_its_owners_alone(self):
        self.signal("x" * 4_000)
        self.assertFalse(self.service.blobs.folder.exists())
        self.signal(TEXT)
        found = files_in(self.service.blobs.folder)
        self.assertEqual([path.read_text() for path in found], [f'"{TEXT}"'])
        self.assertEqual(stat.S_IMODE(found[0].stat().st_mode), 0o600)

    def test_it_is_on_the_disk_before_a_line_names_it(self):
        named, real, synced = [], Program.write, set()

        def fsync(descriptor, real=os.fsync):
            real(descriptor)
            synced.add(os.stat(descriptor).st_ino)

        def write(program, lines):
            for name in names_in(b"".join(lines).decode()):
                path = self.service.blobs.folder / name[:2] / name
                named.append({path.stat().st_ino, path.parent.stat().st_ino} <= synced)
            return real(program, lines)

        with mock.patch("os.fsync", fsync), mock.patch.object(Program, "write", write):
            self.signal(TEXT)
        self.assertEqual(named, [True], f"seed {SEED}")

    def test_where_it_can_not_be_kept_no_call_is_made(self):
        with mock.patch("wfserve.blobs.os.replace", side_effect=OSError(28, "no room")), self.assertRaises(OSError):
            self.signal(TEXT)
        with self.assertRaisesRegex(BlobTooLarge, f"at most {MOST_BYTES}"):
            self.signal("x" * MOST_BYTES)
        self.assertEqual(files_in(self.service.blobs.folder), [])
        self.signal(TEXT)
        self.assertEqual(self.service.call("signal", name="next")["line"], 2)

    def test_all_of_a_store_is_copied_and_what_was_changed_is_found(self):
        names = {f'"{TEXT[number:]}"' for number in range(3)}
        for number in range(3):
            self.signal(TEXT[number:])
        other = store_beside(str(self.kept.parent / "other"))
        self.assertEqual([copy_blobs(self.service.blobs, other) for _ in range(2)], [3, 3])
        self.assertEqual({other.get(name).decode() for name in other.names()}, names)
        files_in(self.service.blobs.folder)[1].write_text("changed")
        with self.assertRaises(BlobDamaged):
            copy_blobs(self.service.blobs, other)


class InWorkflows(Journaled):
    """A workflow with long texts, whose worker and service are new ones at each turn."""

    def setUp(self):
        super().setUp()
        self.clock = JumpingClock()
        self.begin()

    def on(self, path):
        """A service that was opened anew, a client and a worker that know nothing of what was there."""
        service = self.open(path, clock=self.clock)
        worker = Worker(service, workflows=[reversed_twice], activities=[reverse], clock=self.clock)
        return service, Client(service), worker

    def begun(self):
        """Starts the workflow and works until it waits for its signal."""
        service, client, worker = self.on(self.kept)
        with service:
            client.start(reversed_twice, TEXT, id="w", request_id="w")
            driver = Driver(service)
            while driver.turn() + worker.work():
                pass
            self.assertEqual(service.describe("w")["status"], "Running")

    def ended(self, path):
        """Sends the signal, and works until the workflow has closed. Its history."""
        service, client, worker = self.on(path)
        with service:
            client.handle("w").signal("told", {"said": TEXT})
            self.assertEqual(run_until_closed(Driver(service), [worker], self.clock, "w"), "Completed")
            self.assertEqual(client.handle("w").result(), [TEXT, {"said": TEXT}], f"seed {SEED}")
            return service.history("w")

    def test_long_texts_survive_an_opening(self):
        print(f"\nblobs beside a journal: seed {SEED}", file=sys.stderr)
        self.begun()
        history = self.ended(self.kept)
        self.assertLess(max(map(len, texts_of(history))), 200)
        self.assertEqual(names_in(str(history)), {path.name for path in files_in(f"{self.kept}.blobs")})
        self.assertEqual(os.listdir(self.kept), ["journal"])

    def test_they_go_with_a_journal_that_becomes_a_log_and_a_journal_again(self):
        self.begun()
        with self.open(compaction=None) as service:
            service.compact()
        other = str(self.folder / "other")
        move_journal(self.kept, self.log, command=[str(BUILT)])
        move_log([str(BUILT)], self.log, other)
        for path in (self.kept, other):
            with self.subTest(path=path):
                self.ended(path)

    def test_a_move_is_refused_where_one_of_them_was_changed(self):
        self.begun()
        other = str(self.folder / "other")
        move_journal(self.kept, self.log)
        for store in (self.log, self.kept):
            files_in(f"{store}.blobs")[0].write_text("changed")
        with self.assertRaises(BlobDamaged):
            move_log([str(BUILT)], self.log, other)
        with self.assertRaises(BlobDamaged):
            move_journal(self.kept, f"{self.log}.2")
        self.assertFalse(os.path.exists(f"{other}/journal") or os.path.exists(f"{self.log}.2"))

    def test_run_uses_the_same_folder(self):
        @workflow
        async def returns(ctx, text):
            return text

        self.assertEqual(run([str(BUILT)], self.kept, returns, [], "w", TEXT), TEXT)
        with self.open() as service:
            self.assertEqual(Client(service).handle("w").result(), TEXT)
            names = {name_of(text.encode()) for text in (f'["{TEXT}"]', f'"{TEXT}"')}
            self.assertEqual(set(service.blobs.names()), names)


if __name__ == "__main__":
    unittest.main()
