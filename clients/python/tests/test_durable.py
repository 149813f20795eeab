"""The service over a journal: it goes on where it was. Against a program that counts its lines, and against wfserve where
it is built.

WFSERVE_SEED draws other calls.
"""

import contextlib
import json
import os
import pathlib
import random
import signal
import stat
import sys
import tempfile
import threading
import unittest

from support.programs import BUILT, JOURNALING, needs_program
from support.survived import killed_and_paid_once
from wfserve.calls import Clock
from wfserve.durable import DurableService, Settings
from wfserve.durable.journaled import fault_of, journal_settings
from wfserve.errors import (
    Ended, JournalDamaged, LogInUse, NoJournal, NotOpened, OtherJournal, OtherSettings, Refused, RefusedSettings,
)
from wfserve.journal import Journal, framed
from wfserve.page.listing import Workflows
from wfserve.page.records import Recorded

SEED = int(os.environ.get("WFSERVE_SEED", random.randrange(1 << 32)))
IDS = [f"w{number}" for number in range(5)]
TWO = Settings(shards=2, capacity=4)

# The program, where a file may have 4,096 bytes.
FULL = ["sh", "-c", 'trap "" XFSZ; ulimit -f 8; exec "$0" "$@"', str(BUILT)]


class InAFolder(unittest.TestCase):
    """Has a folder for journals, and the path of one."""

    program = [str(BUILT)]

    def setUp(self):
        folder = tempfile.TemporaryDirectory()
        self.addCleanup(folder.cleanup)
        self.folder = pathlib.Path(folder.name)
        self.kept = str(self.folder / "kept")
        self.log = str(self.folder / "a.log")

    def open(self, path=None, settings=None, clock=None, **more):
        service = DurableService(self.program, path or self.kept, settings, clock, **more)
        self.addCleanup(service.close)
        return service


class Counted(InAFolder):
    program = JOURNALING

    def test_a_folder_is_made_that_its_owner_alone_can_read(self):
        self.open(f"{self.kept}/").close()
        self.assertEqual(stat.S_IMODE(os.stat(self.kept).st_mode), 0o700)
        with self.assertRaises(FileNotFoundError):
            self.open(f"{self.folder}/none/kept")

    def test_a_log_is_refused_by_the_command_that_moves_it(self):
        pathlib.Path(self.log).write_bytes(b'dd1f6c4a 110 {"format":1}\n')
        with self.assertRaisesRegex(NoJournal, f"a.log: a file, .* `wf move-log {self.log} FOLDER` makes a journal of it"):
            self.open(self.log)
        self.assertEqual(os.listdir(self.folder), ["a.log"])

    def test_a_reply_counts_the_calls_since_the_opening(self):
        for _ in range(2):
            with self.open(clock=Clock(5)) as service:
                replies = [service.call("signal", name=name) for name in "ab"]
                self.assertEqual([reply["line"] for reply in replies], [1, 2])
                self.assertEqual(json.loads(replies[1]["said"]), {"op": "signal", "at": 5, "name": "b"})

    def test_a_read_is_asked_at_no_moment(self):
        with self.open(clock=Clock(5)) as service:
            for op in ("history", "describe"):
                self.assertEqual(json.loads(service.call(op, workflow_id="w")["said"]), {"op": op, "workflow_id": "w"})

    def test_lanes_and_barriers_are_refused(self):
        with self.open() as service:
            for more in ({"lane": 1}, {"barrier": True}):
                with self.assertRaisesRegex(ValueError, "one lane here, and no barriers"):
                    service.send({"op": "signal", "at": 1, **more})

    def test_settings_that_the_program_refuses_have_a_name(self):
        self.program = [*JOURNALING[:3], "import sys; sys.exit('wfserve: --shards 65 is out of range')"]
        with self.assertRaisesRegex(RefusedSettings, "--shards 65 is out of range"):
            self.open(settings=Settings(shards=65))

    def test_threads_get_their_own_replies(self):
        service, wrong = self.open(), []

        def calls(thread):
            for number in range(200):
                said = json.loads(service.call("signal", name=f"{thread} {number}")["said"])
                if said["name"] != f"{thread} {number}":
                    wrong.append(said)

        threads = [threading.Thread(target=calls, args=(thread,)) for thread in range(8)]
        for thread in threads:
            thread.start()
        for thread in threads:
            thread.join()
        self.assertEqual(wrong, [])
        self.assertEqual(service.call("signal", name="last")["line"], 1_601)

    def test_what_was_asked_before_it_is_closed_is_answered(self):
        service = self.open()
        asked = [service.send({"op": "signal", "at": 1, "name": f"slow {number}"}) for number in range(3)]
        self.assertEqual(service.close(), 0)
        self.assertEqual([reply.result(0)["line"] for reply in asked], [1, 2, 3])
        with self.assertRaisesRegex(Ended, "the service was closed"):
            service.signal("w", "late")

    def test_a_program_that_ends_is_told_and_its_journal_opens_again(self):
        self.program = [*JOURNALING[:3], JOURNALING[3].replace("    ok =", "    if number == 3: sys.exit()\n    ok =")]
        service = self.open()
        service.signal("w", "a")
        for _ in range(2):
            with self.assertRaisesRegex(Ended, "line 2: the program ended with status 0"):
                service.signal("w", "b")
        service.close()
        self.program = JOURNALING
        self.open().signal("w", "b")


def made_up_call(service, draw, workflow_id, number):
    """A start, a signal, a turn, or a worker's step of a workflow that has a timer."""
    op, refused = draw.choice(["start", "signal", "dispatch_turn", "timer_turn", "work", "work"]), contextlib.suppress(Refused)
    if op == "start":
        with refused:
            service.start(workflow_id, "w")
    elif op == "signal":
        with refused:
            service.signal(workflow_id, f"s{number}")
    elif op == "work":
        task = service.poll_workflow_task()
        if task is not None:
            timer = {"type": "StartTimer", "timer_id": str(number), "duration": draw.randrange(1, 100_000)}
            with refused:
                service.complete_workflow_task(task, [timer])
    else:
        service.call(op, shard=0)


@needs_program
class Journaled(InAFolder):
    def setUp(self):
        super().setUp()
        os.mkdir(self.kept)

    def begin(self, settings=Settings(), zeros=60_000):
        """Begins the journal with few zeros: a build without proofs takes a second to go through 4 MiB."""
        pathlib.Path(self.kept, "journal").write_bytes(framed(journal_settings(settings).text()) + b"\0" * zeros)

    def histories(self, path):
        """What all histories show, and whether a request id counts again."""
        with self.open(path) as service:
            requests = [{"op": op, "workflow_id": name} for name in IDS for op in ("history", "describe")]
            return [{**reply, "line": 0} for reply in service.read_all(requests)]


class Opened(Journaled):
    def test_it_goes_on_where_it_was(self):
        self.begin()
        with self.open(clock=Clock(7)) as service:
            service.start("a", "w", input="x", request_id="q")
            service.dispatch_turn()
            token = service.poll_workflow_task().token
            service.signal("a", "go", request_id="s")
            before = service.history("a")
        with self.open() as service:
            self.assertEqual((service.history("a"), service.last_moment), (before, 7))
            self.assertFalse(service.signal("a", "go", request_id="s"))
            service.call("complete_workflow_task", token=token, commands=[])
            self.assertEqual(service.history("a")[4]["type"], "WorkflowExecutionSignaled")
        self.assertEqual(os.listdir(self.kept), ["journal"])

    def test_an_opening_makes_no_step(self):
        self.begin()
        for _ in range(3):
            self.open().close()
        with Journal(f"{self.kept}/journal") as journal:
            self.assertEqual(len(journal.batches), 1)

    def test_its_settings_are_kept(self):
        settings = Settings(shards=3, service=9, queues=("orders", "payments"), capacity=7, retention=86_400_000)
        self.open(settings=settings).close()
        self.assertEqual(self.open().settings, Settings(3, 9, ("orders", "payments"), 1024, 86_400_000))

    def test_what_is_refused_has_a_name(self):
        self.begin()
        file = pathlib.Path(self.kept, "journal")
        with self.open(clock=Clock(1)) as service:
            service.start("a", "w")
            with self.assertRaisesRegex(LogInUse, "another process has this journal open"):
                self.open()
        data = file.read_bytes()
        with self.assertRaisesRegex(OtherSettings, "the journal is of another --retention"):
            self.open(settings=Settings(retention=5))
        with self.assertRaises(RefusedSettings):
            self.open(str(self.folder / "other"), Settings(shards=65))
        file.write_bytes(data[:9] + b"x" + data[10:])
        with self.assertRaisesRegex(JournalDamaged, "damaged at byte 0"):
            self.open()
        file.write_bytes(framed(b"{}\n") + b"\0")
        for settings in (None, Settings()):
            with self.assertRaisesRegex(OtherJournal, "no journal of this version"):
                self.open(settings=settings)
        file.unlink()
        file.mkdir()
        with self.assertRaisesRegex(NotOpened, "Is a directory"):
            self.open(settings=Settings())
        self.assertIsInstance(fault_of("j", "wfserve: j: batch 3 has a line that is no step", Ended("")), OtherJournal)

    def test_a_refusal_is_raised_and_the_service_goes_on(self):
        self.begin()
        service = self.open()
        with self.assertRaisesRegex(Refused, "line 1: history: NotFound"):
            service.history("nobody")
        service.start("a", "w")
        self.assertEqual((service.records_size, service.close()), (0, 1))

    def test_reads_leave_no_trace_in_later_histories(self):
        print(f"\nreads: seed {SEED}", file=sys.stderr)
        draw = random.Random(SEED)
        self.begin()
        with self.open(clock=Clock(1_000)) as service:
            for number in range(400):
                # A read that set a moment would move the events that follow it.
                service.clock.now = draw.randrange(1_000, 1_000_000)
                made_up_call(service, draw, draw.choice(IDS), number)
                service.clock.now = 10_000_000
                for op in ("history", "describe"):
                    service.send({"op": op, "at": 10_000_000, "workflow_id": draw.choice(IDS)}).result()
            before = [service.history(workflow_id) for workflow_id in IDS]
        self.assertLess(max(event["at"] for events in before for event in events), 1_000_000)
        with self.open(compaction=None) as service:
            self.assertEqual([service.history(workflow_id) for workflow_id in IDS], before)
            service.compact()
            self.assertEqual([service.history(workflow_id) for workflow_id in IDS], before)

    def test_threads_get_their_own_replies(self):
        self.begin()
        with self.open(clock=Clock(1)) as service:
            runs = {}

            def start(thread):
                for number in range(30):
                    name = f"{thread} {number}"
                    runs[name] = service.start(name, "w")

            threads = [threading.Thread(target=start, args=(thread,)) for thread in range(6)]
            for thread in threads:
                thread.start()
            for thread in threads:
                thread.join()
            self.assertEqual(len(set(runs.values())), 180)
        with self.open() as service:
            for name, run in runs.items():
                self.assertEqual(service.call("describe", workflow_id=name)["run"], run)

    def test_a_program_that_is_killed_is_opened_again(self):
        self.begin()
        service = self.open()
        service.start("a", "w", request_id="q")
        os.kill(service._kept.program.pid, signal.SIGKILL)
        with self.assertRaisesRegex(Ended, "the program ended with status -9"):
            while True:
                service.signal("a", "s", request_id="s")
        service.close()
        with self.open() as service:
            service.signal("a", "s", request_id="s")
            signals = [it for it in service.history("a") if it["type"] == "WorkflowExecutionSignaled"]
            self.assertEqual(len(signals), 1)

    def test_a_full_disk_loses_nothing_that_was_answered(self):
        self.begin(zeros=random.Random(SEED).randrange(2_000, 3_900))
        service, answered = DurableService(FULL, self.kept, clock=Clock(1)), 0
        with self.assertRaisesRegex(Ended, "File too large"):
            while True:
                service.call("signal_with_start", workflow_id="a", workflow_type="w", task_queue="main", name=str(answered))
                answered += 1
        self.assertEqual(service.close(), 2)
        with self.open() as service:
            names = [it["attrs"]["name"] for it in service.history("a") if it["type"] == "WorkflowExecutionSignaled"]
        self.assertEqual(names[:answered], [str(number) for number in range(answered)], f"seed {SEED}")
        self.assertGreater(answered, 2)
        # The last call may have been kept.
        self.assertIn(len(names), (answered, answered + 1))

    def test_an_order_that_is_killed_goes_on_and_is_paid_once(self):
        self.begin()
        killed_and_paid_once(self, self.kept)


class Listed(Journaled):
    def test_the_list_is_made_of_a_journal(self):
        """The runs that a server would show of a journal are those that it would show of the same log."""
        draw = random.Random(SEED)
        self.begin(TWO)
        with self.open(self.kept, TWO, Clock(1)) as service:
            for number in range(200):
                service.clock.now += 10
                made_up_call(service, draw, draw.choice(IDS), number)
                if number % 9 == 0:
                    service.send({"op": "terminate", "at": service.clock.now, "workflow_id": draw.choice(IDS)}).result()
            found, runs = Workflows(), set()
            Recorded(service, found).add_all()
            for name in IDS:
                run = service.send({"op": "describe", "workflow_id": name}).result().get("run")
                while run is not None:
                    runs.add((name, run))
                    begun = service.call("history", workflow_id=name, run=run)["events"][0]
                    run = begun["attrs"].get("continued_from")
        shown = {(entry.workflow_id, entry.run) for entry in found.search("", "", 10_000)}
        self.assertLessEqual(runs, shown, f"seed {SEED}")
        self.assertGreater(len(shown), len(runs), f"seed {SEED}")


if __name__ == "__main__":
    unittest.main()
