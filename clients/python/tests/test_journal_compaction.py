"""A journal is compacted while a service is used: by itself and when it is told to. What is read of it is as before.

WFSERVE_SEED draws other calls.
"""

import os
import pathlib
import random
import tempfile
import threading
import time
import unittest
from unittest import mock

from support.programs import BUILT
from test_durable import IDS, TWO, Journaled, made_up_call
from wfserve.calls import Clock
from wfserve.checkpoint import read_checkpoint
from wfserve.durable import Compaction, DurableService, Settings
from wfserve.durable.background import bytes_since
from wfserve.errors import CheckpointDamaged, Ended, NotCompacted, OtherJournal
from wfserve.journal import Journal, framed
from wfserve.page.listing import Workflows
from wfserve.page.records import Recorded

SEED = int(os.environ.get("WFSERVE_SEED", random.randrange(1 << 32)))
NEVER = Compaction(size=1 << 60, seconds=1e9)


class Compacted(Journaled):
    def number(self):
        found = read_checkpoint(self.kept)
        return found.number if found is not None else 0

    def waits(self, until, seconds=60):
        """Whether something comes to hold in time."""
        late = time.monotonic() + seconds
        while not until() and time.monotonic() < late:
            time.sleep(0.05)
        return until()


class WhenItIsTold(Compacted):
    def test_it_goes_on_where_it_was(self):
        self.begin()
        with self.open(clock=Clock(7), compaction=None) as service:
            service.start("a", "w", input="x", request_id="q")
            service.dispatch_turn()
            token = service.poll_workflow_task().token
            service.signal("a", "go", request_id="s")
            before = service.history("a")
            self.assertEqual(service.records_size, 0)
            service.compact()
            self.assertGreater(service.records_size, 500)
            self.assertEqual(service.history("a"), before)
            service.start("b", "w")
        self.assertEqual(sorted(os.listdir(self.kept)), ["checkpoint", "checkpoint-1", "compaction.lock", "journal"])
        with self.open(compaction=None) as service:
            self.assertEqual((service.history("a"), service.last_moment), (before, 7))
            self.assertFalse(service.signal("a", "go", request_id="s"))
            service.call("complete_workflow_task", token=token, commands=[])
            self.assertEqual(service.describe("b")["status"], "Running")
            after = service.history("a")
            service.compact()
            service.compact()
        with self.open(compaction=None) as service:
            self.assertEqual((service.history("a"), service.last_moment), (after, 7))
            self.assertEqual(service.settings, Settings())
        # Asking is a step.
        self.assertEqual(self.number(), 2)

    def test_calls_go_on_while_it_is_compacted(self):
        self.begin(TWO)
        with self.open(settings=TWO, clock=Clock(1), compaction=None) as service:
            calls = [0]

            def call():
                while not done.is_set():
                    service.call("signal_with_start", workflow_id="a", workflow_type="w", task_queue="main", name=str(calls[0]))
                    calls[0] += 1

            done = threading.Event()
            thread = threading.Thread(target=call)
            thread.start()
            self.waits(lambda: calls[0] > 5)
            before = calls[0]
            service.compact()
            during = calls[0] - before
            done.set()
            thread.join()
            self.assertGreater(during, 1)
        with self.open(compaction=None) as service:
            names = [it["attrs"]["name"] for it in service.history("a") if it["type"] == "WorkflowExecutionSignaled"]
            self.assertEqual(names, [str(number) for number in range(calls[0])])

    def test_what_can_not_be_done_is_told(self):
        self.begin()
        with self.open(compaction=None) as service:
            service.start("a", "w")
            with mock.patch.object(service._kept.compactor, "_command", ["false"]):
                with self.assertRaisesRegex(NotCompacted, "checkpoint-1: the program ended with status 1"):
                    service.compact()
            self.assertEqual(sorted(os.listdir(self.kept)), ["compaction.lock", "journal"])
            service.compact()
        with self.assertRaisesRegex(Ended, "the service was closed"):
            service.compact()

    def test_damage_has_a_name(self):
        self.begin()
        with self.open(compaction=None) as service:
            service.start("a", "w")
            service.compact()
        snapshot = pathlib.Path(self.kept, "checkpoint-1/shard-00.snap")
        data = snapshot.read_bytes()
        snapshot.write_bytes(data.replace(b'"a"', b'"b"'))
        with self.assertRaisesRegex(CheckpointDamaged, "shard-00.snap: the checkpoint was made with a snapshot of other bytes"):
            self.open()
        snapshot.unlink()
        with self.assertRaisesRegex(CheckpointDamaged, "shard-00.snap: No such file"):
            self.open()
        snapshot.write_bytes(data)
        journal = pathlib.Path(self.kept, "journal")
        journal.write_bytes(framed(Journal(str(journal)).settings.text()) + b"\0")
        with self.assertRaisesRegex(CheckpointDamaged, "journal: the checkpoint is of another journal"):
            self.open()
        pathlib.Path(self.kept, "checkpoint").write_bytes(b"\0")
        with self.assertRaisesRegex(OtherJournal, "no checkpoint of this version"):
            self.open()

    def test_the_list_is_made_of_a_compacted_journal(self):
        """The runs that a server would show are those that it would show of one that was never compacted."""
        draw = random.Random(SEED)
        for retention in (0, 5_000):
            with self.subTest(retention=retention, seed=SEED):
                self.setUp()
                settings = Settings(shards=2, retention=retention)
                self.begin(settings)
                with self.open(self.kept, settings, Clock(1), compaction=None) as service:
                    for number in range(150):
                        service.clock.now += 10
                        made_up_call(service, draw, draw.choice(IDS), number)
                        if number % 9 == 0:
                            service.send({"op": "terminate", "at": service.clock.now, "workflow_id": draw.choice(IDS)}).result()
                        if number == 80:
                            whole = self.listed(service)
                            service.compact()
                            self.assertLessEqual(whole, self.listed(service))
                    whole = self.listed(service)
                    service.compact()
                    self.assertLessEqual(whole, self.listed(service))
                    lines = list(service.requests())
                self.assertTrue(any(b'"head"' in line for line in lines))

    def listed(self, service):
        found = Workflows()
        Recorded(service, found).add_all()
        return {(entry.workflow_id, entry.run, entry.workflow_type) for entry in found.search("", "", 10_000)}


class ByItself(Compacted):
    def setUp(self):
        super().setUp()
        patched = mock.patch("wfserve.durable.background.LOOK", 0.05)
        patched.start()
        self.addCleanup(patched.stop)

    def test_by_the_size_of_its_batches(self):
        self.begin()
        with self.open(clock=Clock(1), compaction=Compaction(size=2_000)) as service:
            for number in range(40):
                service.start(f"w{number}", "w", input="x" * 100)
            self.assertTrue(self.waits(lambda: self.number() > 0))
            number, size = self.number(), service.records_size
            service.start("late", "w")
            time.sleep(0.5)
            # So few bytes are not worth it, beside snapshots that have more than what makes it worth it at first.
            self.assertLess(bytes_since(self.kept, read_checkpoint(self.kept)), size)
            self.assertLessEqual(self.number(), number + 1)
        with self.open(compaction=NEVER) as service:
            self.assertEqual(service.describe("w39")["status"], "Running")
            self.assertEqual(service.describe("late")["status"], "Running")

    def test_by_time(self):
        self.begin()
        with self.open(compaction=Compaction(seconds=0.3)) as service:
            service.start("a", "w")
            self.assertTrue(self.waits(lambda: self.number() == 1))
            # Nothing new is no reason.
            time.sleep(1)
            self.assertEqual(self.number(), 1)
            service.start("b", "w")
            self.assertTrue(self.waits(lambda: self.number() == 2))

    def test_not_where_it_is_off(self):
        self.begin()
        with self.open(compaction=None) as service:
            service.start("a", "w")
            self.assertIsNone(service._kept.compactor._watching)
        self.assertEqual(Compaction(), Compaction(64 << 20, 86_400.0))

    def test_what_goes_wrong_is_told_and_it_is_tried_again(self):
        self.begin()
        words = ["sh", "-c", 'case "$*" in *--load*) test -e "$1/may" || { echo no >&2; exit 2; };; esac; shift; exec "$0" "$@"',
                 str(BUILT), str(self.folder)]
        with mock.patch("wfserve.durable.background.LOOK_AFTER_FAULT", 0.05), self.assertLogs("wfserve.journal", "WARNING") as said:
            with self.open_by(words, Compaction(size=1)) as service:
                service.start("a", "w")
                self.assertTrue(self.waits(lambda: len(said.output) > 1))
                self.assertEqual(self.number(), 0)
                pathlib.Path(self.folder, "may").touch()
                self.assertTrue(self.waits(lambda: self.number() > 0))
        self.assertIn("the journal goes on uncompacted: ", said.output[0])
        self.assertIn("checkpoint-1: no", said.output[0])

    def open_by(self, words, compaction):
        service = DurableService(words, self.kept, compaction=compaction)
        self.addCleanup(service.close)
        return service

    def test_a_service_that_is_closed_ends_its_compaction(self):
        self.begin()
        words = ["sh", "-c", 'case "$*" in *--load*) exec sleep 1000;; esac; exec "$0" "$@"', str(BUILT)]
        service = self.open_by(words, Compaction(size=1))
        service.start("a", "w")
        self.assertTrue(self.waits(lambda: os.path.exists(f"{self.kept}/checkpoint-1")))
        began = time.monotonic()
        service.close()
        self.assertLess(time.monotonic() - began, 60)
        with self.open(compaction=None) as service:
            self.assertEqual(service.describe("a")["status"], "Running")
            service.compact()
        self.assertEqual(sorted(os.listdir(self.kept)), ["checkpoint", "checkpoint-1", "compaction.lock", "journal"])


class Since(unittest.TestCase):
    def test_bytes_are_counted_up_to_the_last_batch(self):
        with tempfile.TemporaryDirectory() as folder:
            path = pathlib.Path(folder, "journal")
            for data in (b"", b"\0" * 9, b"x\x1e", b"x\x1e" + b"\0" * (3 << 20)):
                path.write_bytes(data)
                self.assertEqual(bytes_since(folder, None), len(data.rstrip(b"\0")))


if __name__ == "__main__":
    unittest.main()
