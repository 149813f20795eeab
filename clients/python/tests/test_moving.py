"""A log as the compiled edge keeps it becomes a journal, and a journal a log.

WFSERVE_SEED draws other calls.
"""

import contextlib
import dataclasses
import io
import json
import os
import pathlib
import random
import resource
import signal
import sys
import unittest

from support.logs import Logged, asked_of, write_log
from support.programs import BUILT
from test_durable import IDS, TWO, Journaled, made_up_call
from wfserve.calls import Clock
from wfserve.cli import main
from wfserve.durable import Settings, move_journal, move_log
from wfserve.durable.edge_log import held
from wfserve.errors import Ended, JournalCompacted, LogDamaged, LogFault, LogInUse, NotMoved

SEED = int(os.environ.get("WFSERVE_SEED", random.randrange(1 << 32)))
READS = [{"op": op, "workflow_id": name} for name in IDS for op in ("history", "describe")]


class Moved(Journaled):
    """A log with drawn calls becomes a journal, and that becomes a log again."""

    def fill(self, service, draw, count=150):
        for number in range(count):
            service.clock.now += draw.randrange(1_000)
            made_up_call(service, draw, draw.choice(IDS), number)

    def logged(self, draw, count=150, settings=TWO):
        """A log with drawn calls. One that is there is gone on with."""
        with Logged(self.log, settings, Clock(1_000)) as service:
            self.fill(service, draw, count)

    def journaled(self, draw):
        with self.open(self.kept, TWO, Clock(1_000)) as service:
            self.fill(service, draw)

    def test_a_log_becomes_a_journal_and_a_log_again(self):
        print(f"\nmoved logs: seed {SEED}", file=sys.stderr)
        draw = random.Random(SEED)
        self.logged(draw)
        data = pathlib.Path(self.log).read_bytes()
        self.assertGreater(move_log([str(BUILT)], self.log, self.kept), 100)
        self.assertEqual(os.listdir(self.kept), ["journal"])
        self.assertEqual(pathlib.Path(self.log).read_bytes(), data)
        self.assertEqual(self.histories(self.kept), asked_of(self.log, READS))
        self.journaled(draw)
        before = self.histories(self.kept)
        other = str(self.folder / "b.log")
        self.assertGreater(move_journal(self.kept, other), 200)
        self.assertEqual(asked_of(other, READS), before)

    def test_a_compacted_log_becomes_a_journal_and_a_log_again(self):
        """What goes on from snapshots is moved by snapshots."""
        draw = random.Random(SEED)
        self.logged(draw)
        with Logged(self.log) as service:
            service.compact()
        self.logged(draw)
        before = asked_of(self.log, READS)
        os.mkdir(f"{self.kept}/journal.new")
        os.mkdir(f"{self.kept}/checkpoint-1")
        self.assertEqual(move_log([str(BUILT)], self.log, self.kept), 0)
        self.assertEqual(sorted(os.listdir(self.kept)), ["checkpoint", "checkpoint-1", "journal"])
        self.assertEqual(self.histories(self.kept), before, f"seed {SEED}")
        self.journaled(draw)
        with self.open(self.kept) as service:
            self.assertGreater(service.last_moment, 1_000)
        before = self.histories(self.kept)
        other = str(self.folder / "b.log")
        with self.assertRaisesRegex(JournalCompacted, "the journal was compacted: give the program"):
            move_journal(self.kept, other)
        self.assertGreater(move_journal(self.kept, other, command=[str(BUILT)]), 100)
        self.assertEqual(sorted(os.listdir(self.folder)), ["a.log", "a.log.records-1", "b.log", "b.log.records-1", "kept"])
        self.assertEqual(asked_of(other, READS), before, f"seed {SEED}")

    def test_a_log_that_goes_on_from_records_is_moved_by_records(self):
        draw = random.Random(SEED)
        # A load of records is refused where more tasks wait than a queue holds.
        self.logged(draw, settings=dataclasses.replace(TWO, capacity=1_024))
        with Logged(self.log) as service:
            service.compact("--save")
        self.logged(draw, 50)
        self.assertGreater(move_log([str(BUILT)], self.log, self.kept), 100)
        self.assertEqual(self.histories(self.kept), asked_of(self.log, READS), f"seed {SEED}")

    def test_lines_of_an_early_client_are_served_as_they_were(self):
        """Its log had reads, and its settings no retention; a line may be none of the program's."""
        start = {"op": "start", "at": 3, "workflow_id": "w0", "workflow_type": "w", "task_queue": "main"}
        read = {"op": "history", "at": 9, "workflow_id": "w0", "x": [1]}
        deep = b'{"op":"history","n":' + b"[" * 200_000 + b"]" * 200_000 + b"}"
        write_log(self.log, [start, read, deep, {"op": "signal", "at": 4, "workflow_id": "w0", "name": "s"}])
        data = pathlib.Path(self.log).read_bytes()
        write_log(self.log, [])
        header = pathlib.Path(self.log).read_bytes()
        self.assertIn(b',"retention":0', header)
        self.assertEqual(move_log([str(BUILT)], self.log, str(self.folder / "empty")), 0)
        pathlib.Path(self.log).write_bytes(data)
        move_log([str(BUILT)], self.log, self.kept)
        with self.open() as service:
            # The read set the moment of its shard, so the signal's event has it.
            self.assertEqual([event["at"] for event in service.history("w0")][-1], 9)

    def test_only_what_is_not_there_is_begun(self):
        with self.assertRaisesRegex(LogFault, "no such log"):
            move_log([str(BUILT)], self.log, self.kept)
        write_log(self.log, [])
        with self.open() as service:
            with self.assertRaisesRegex(LogFault, "a journal already"):
                move_log([str(BUILT)], self.log, self.kept)
            with self.assertRaisesRegex(LogFault, "a log already"):
                move_journal(self.kept, self.log)
            with self.assertRaisesRegex(LogInUse, "another process has this log open"):
                move_journal(self.kept, f"{self.log}.2")
            service.start("a", "w")
        self.assertFalse(os.path.exists(f"{self.log}.2"))

    def test_a_log_that_is_served_or_damaged_is_not_moved(self):
        write_log(self.log, [{"op": "timer_turn", "at": 1, "shard": 0}] * 2)
        with held(self.log), self.assertRaisesRegex(LogInUse, "another process has this log open"):
            move_log([str(BUILT)], self.log, self.kept)
        data = pathlib.Path(self.log).read_bytes()
        pathlib.Path(self.log).write_bytes(data.replace(b'"shard":0', b'"shard":1', 1))
        with self.assertRaisesRegex(LogDamaged, "line 2, at byte [0-9]+, is damaged"):
            move_log([str(BUILT)], self.log, self.kept)
        pathlib.Path(self.log).write_bytes(b"")
        with self.assertRaisesRegex(LogDamaged, "no settings"):
            move_log([str(BUILT)], self.log, self.kept)
        self.assertFalse(os.path.exists(f"{self.kept}/journal"))

    def test_what_the_program_refuses_is_said(self):
        write_log(self.log, [], Settings(shards=65))
        with self.assertRaisesRegex(NotMoved, "--shards is out of range"):
            move_log([str(BUILT)], self.log, self.kept)

    def test_a_move_that_fails_begins_nothing(self):
        self.logged(random.Random(SEED), 20)
        limit = resource.getrlimit(resource.RLIMIT_FSIZE)
        former = signal.signal(signal.SIGXFSZ, signal.SIG_IGN)
        # The settings alone take more than that, however few steps the drawn calls made.
        resource.setrlimit(resource.RLIMIT_FSIZE, (100, limit[1]))
        try:
            with self.assertRaises((LogFault, Ended, OSError), msg=f"seed {SEED}"):
                move_log([str(BUILT)], self.log, self.kept)
        finally:
            resource.setrlimit(resource.RLIMIT_FSIZE, limit)
            signal.signal(signal.SIGXFSZ, former)
        self.assertFalse(os.path.exists(f"{self.kept}/journal"))
        move_log([str(BUILT)], self.log, self.kept)
        self.assertEqual(self.histories(self.kept), asked_of(self.log, READS))

    def wf(self, *words):
        with contextlib.redirect_stdout(io.StringIO()) as out, contextlib.redirect_stderr(io.StringIO()) as err:
            status = main(list(words))
        return status, out.getvalue(), err.getvalue()

    def test_the_commands_move_both_ways(self):
        self.logged(random.Random(SEED), 30)
        folder, program = str(self.folder / "new"), ["--program", str(BUILT)]
        status, out, err = self.wf("move-log", self.log, folder, *program)
        self.assertRegex(out, f"^{folder}: a journal of [0-9]+ steps; put {self.log} away: only one of the two goes on\n$")
        self.assertEqual((status, err), (0, ""))
        self.assertEqual(self.histories(folder), asked_of(self.log, READS))
        other = str(self.folder / "b.log")
        self.assertEqual(json.loads(self.wf("move-journal", folder, other, "--json", *program)[1])["ok"], "moved")
        self.assertEqual(asked_of(other, READS), self.histories(folder))
        status, out, err = self.wf("move-log", other, folder, *program)
        self.assertEqual((status, out), (2, ""))
        self.assertIn("there is a journal already", err)


if __name__ == "__main__":
    unittest.main()
