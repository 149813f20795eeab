"""Tables of PostgreSQL that are compacted while they are served: with kills, hangs and cuts at drawn moments, by themselves,
without a call that waits, and of earlier versions.

Each generation's lines, given to a program by hand that goes on from its snapshots, give the replies that clients had, and
the snapshots of the next one. WFSERVE_SEED draws other moments, WFEDGE_TAKEOVERS more of them. WFEDGE_CALLS has the longest
wait of a call measured, of a table that has so many calls: by hand alone, since another load of the machine stretches it.
"""

import os
import pathlib
import random
import statistics
import sys
import tempfile
import threading
import time
import unittest
from concurrent.futures import ThreadPoolExecutor

from the_edge import WFEDGE, needs_edge

from by_hand import replies_of
from support.programs import BUILT, needs_program
from support.served import until
from tables import CLIENTS, HOUR, PATIENCE, SEED, Caller, OverATable, needs_client, needs_postgres
from wfserve.durable.edge_log import header_of

# In seconds: a program without proofs writes snapshots slowly.
LONG = 600
CALLS = int(os.environ.get("WFEDGE_CALLS", 0))
# The edge's role has no other table, and may delete what it likes.
GENERATION = "select max(generation) from wfserve_starts"
CONNECTIONS = "select count(*) from pg_stat_activity where usename = 'edge'"
# No piece of a compaction is taken from now on.
REFUSE = """
    create function refuse() returns trigger language plpgsql as $$ begin raise exception 'refused'; end $$;
    create trigger refuse before insert on wfserve_records execute function refuse()
"""
WITHIN = [f"{kind} within a compaction" for kind in ("kill", "programs", "hang", "connections", "follower", "database")]


def start(caller, name, **fields):
    """Starts a workflow."""
    caller.call(f"start-{name}", op="start", workflow_id=name, workflow_type="T", task_queue="main", task_timeout=HOUR, **fields)


class OfTables(OverATable):
    def generation(self):
        """How often the table was compacted."""
        return int(self.database.rows(GENERATION)[0] or 0)

    def one(self, *options):
        """One edge, which leads."""
        self.machines, self.options = (None,), options
        return self.leader(self.nodes(WFEDGE))

    def caller_of(self, node, number=0):
        """Makes calls to one edge."""
        caller = Caller([node], number, threading.Event())
        self.addCleanup(caller.close)
        return caller

    def names(self, caller, names):
        """The statuses of workflows."""
        return [caller.call(f"describe-{name}-{time.monotonic()}", op="describe", workflow_id=name).get("status") for name in names]


@needs_edge
@needs_program
@needs_postgres
@needs_client
class Disturbed(OfTables):
    options = ("--compact-bytes", "0")

    def test_nothing_is_lost_or_doubled_where_compactions_are_disturbed(self):
        print(f"\ntables compacted under load: seed {SEED}", file=sys.stderr)
        draw = random.Random(SEED)
        kinds = ["compact", *draw.sample(WITHIN, len(WITHIN)), "kill"]
        had = self.disturbed(WFEDGE, kinds, draw)
        print(f"tables compacted under load: {self.generation()} generations", file=sys.stderr)
        self.assertGreater(len(had), CLIENTS)
        self.assertGreater(self.generation(), 0)
        self.assertEqual(self.wrong_in(had), ([], [], []))


@needs_edge
@needs_program
@needs_postgres
@needs_client
class ByThemselves(OfTables):
    options = ("--compact-bytes", "20000", "--compact-seconds", "0")

    def test_nothing_is_lost_or_doubled_where_tables_are_compacted_by_themselves(self):
        print(f"\ntables compacted by themselves: seed {SEED}", file=sys.stderr)
        kinds = ["awaited", "kill", "programs", "awaited", "follower", "kill"]
        # Each compaction by itself wants twice the snapshots of the one before: one more takes three times as long.
        self.takeovers = min(self.takeovers, len(kinds))
        had = self.disturbed(WFEDGE, kinds, random.Random(SEED))
        print(f"tables compacted by themselves: {self.generation()} generations", file=sys.stderr)
        self.assertGreater(self.generation(), 0)
        self.assertEqual(self.wrong_in(had), ([], [], []))

    def do(self, kind, leader, draw):
        """Disturbs a leader, or waits until one has compacted the table."""
        if kind == "awaited":
            generation = self.generation()
            until(lambda: self.generation() > generation, LONG)
        else:
            super().do(kind, leader, draw)

    def test_an_old_table_is_compacted_and_one_of_no_limits_never(self):
        node = self.one("--compact-bytes", "0", "--compact-seconds", "1")
        caller = self.caller_of(node)
        for number in range(30):
            start(caller, f"w{number}", input="x" * 300)
        until(lambda: self.generation() > 0, LONG)
        node.stop()
        node = self.one("--compact-bytes", "0", "--compact-seconds", "0")
        generation, caller = self.generation(), self.caller_of(node)
        for number in range(30):
            start(caller, f"more{number}", input="x" * 300)
        time.sleep(1.5)
        self.assertEqual(self.generation(), generation)
        self.assertEqual(self.names(caller, ["w0", "more29"]), ["Running", "Running"])


@needs_edge
@needs_program
@needs_postgres
@needs_client
class Waits(OfTables):
    def stands_still(self, word):
        """A program that stands still where it is started with this word: the files that say when it does, and that it may go on."""
        path, begun, goes_on = (self.folder / f"{name}{word}" for name in ("program", "begun", "goes-on"))
        path.write_text(f'#!/bin/sh\ncase "$*" in *{word}*) touch "{begun}"; while [ ! -e "{goes_on}" ]; do sleep 0.02; done;; esac\n'
                        f'exec {BUILT} "$@"\n')
        path.chmod(0o755)
        return path, begun, goes_on

    def test_no_call_waits_for_a_compaction(self):
        """While the program that writes snapshots stands still calls are answered, and while the next one loads them."""
        for word in ("--snapshot", "--load"):
            self.database.make_anew()
            path, begun, goes_on = self.stands_still(word)
            node = self.one("--compact-bytes", "0", "--program", str(path))
            caller = self.caller_of(node)
            start(caller, "w")
            with ThreadPoolExecutor(1) as pool:
                asked = pool.submit(node.compact)
                until(begun.exists, LONG)
                for number in range(20):
                    caller.call(f"signal-{number}", op="signal", workflow_id="w", name=f"s{number}")
                task = caller.call("poll", op="poll_workflow_task", task_queue="main", wait=20_000)
                self.assertEqual((task["workflow_id"], asked.done()), ("w", False))
                goes_on.touch()
                self.assertEqual(asked.result()[0], 200)
            caller.call("signal-last", op="signal", workflow_id="w", name="last")
            caller.close()
            base = int(self.database.rows("select convert_from(data, 'UTF8') from wfserve_records where name = 'base'")[0])
            header = int(self.database.rows("select number from wfserve_starts")[0])
            if word == "--load":
                # The snapshots were written before those calls, one batch each, which lie between them and the header.
                self.assertGreater(header - base, 20)
            node.stop()

    def test_a_compaction_closes_its_connections_also_where_it_comes_to_nothing(self):
        node = self.one("--compact-bytes", "0")
        caller = self.caller_of(node)
        start(caller, "w")
        self.database.rows(REFUSE)
        self.assertNotEqual(node.compact()[0], 200)
        self.has_connections_of_a_leader()
        self.assertEqual((self.generation(), self.names(caller, ["w"])), (0, ["Running"]))
        self.database.rows("drop trigger refuse on wfserve_records")
        self.assertEqual(node.compact()[0], 200)
        self.has_connections_of_a_leader()
        self.assertEqual((self.generation(), self.names(caller, ["w"])), (1, ["Running"]))

    def has_connections_of_a_leader(self):
        """Waits until an edge has just those two by which it leads."""
        until(lambda: self.database.rows(CONNECTIONS) == ["2"], PATIENCE)

    @unittest.skipUnless(CALLS, "measured by hand: WFEDGE_CALLS says of how many calls")
    def test_the_longest_wait_of_a_call(self):
        """By hand alone: no other load of the machine may stretch the wait. That none waits is tested above by what happens."""
        node = self.one("--compact-bytes", "0")
        with ThreadPoolExecutor(CLIENTS) as pool:
            made = [pool.submit(self.fill, node, number) for number in range(CLIENTS)]
            for it in made:
                it.result()
        caller, stop, waits = self.caller_of(node), threading.Event(), []
        with ThreadPoolExecutor(2) as pool:
            calling = pool.submit(self.signal, caller, stop, waits)
            time.sleep(1)
            begun = time.monotonic()
            status, said = node.compact()
            took = time.monotonic() - begun
            stop.set()
            calling.result()
        self.assertEqual(status, 200)
        before = [wait for at, wait in waits if at < begun]
        within = [wait for at, wait in waits if at >= begun]
        print(f"\na compaction of {said['lines']} lines: {took:.2f} s, {len(within)} calls meanwhile; a call took "
              f"{1000 * statistics.median(before):.1f} ms before (most {1000 * max(before):.1f}), meanwhile "
              f"{1000 * statistics.median(within):.1f} ms (most {1000 * max(within):.1f})", file=sys.stderr)
        caller.close()
        self.assertGreater(len(within), 5)
        self.assertLess(max(within), max(took / 2, 0.5))

    def fill(self, node, number):
        """Makes a client's part of the calls."""
        caller = self.caller_of(node, number + 1)
        for count in range(CALLS // CLIENTS):
            start(caller, f"w{number}-{count}")

    def signal(self, caller, stop, waits):
        """Makes calls one after the other: when each was answered, and how long that took."""
        count = 0
        while not stop.is_set():
            count, begun = count + 1, time.monotonic()
            caller.call(f"signal-{count}", op="signal", workflow_id="w0-0", name="s")
            waits.append((time.monotonic(), time.monotonic() - begun))
            stop.wait(0.005)


@needs_edge
@needs_program
@needs_postgres
@needs_client
class OfEarlierVersions(OfTables):
    def begun(self):
        """A table that has some workflows, and nobody who serves it. What waits in it."""
        node, names = self.one("--compact-bytes", "0"), [f"w{number}" for number in range(8)]
        caller = self.caller_of(node)
        for name in names:
            start(caller, name)
        node.stop()
        return names

    def compacted_before(self, option):
        """Compacts a table as earlier versions did: from the snapshots on, or the records, lines follow the header."""
        with tempfile.TemporaryDirectory(dir=self.folder) as folder:
            it, = self.database.generations(folder)
            made = pathlib.Path(folder) / "made"
            made.mkdir()
            replies_of(BUILT, it.settings, it.lines, [option, str(made)])
            pieces = [(path.name, path.read_bytes()) for path in sorted(made.iterdir())] + [("end", b"")]
        self.assertEqual(len(pieces), 3)
        epoch = self.database.rows("select epoch from wfserve_leader")[0]
        for number, (name, data) in enumerate(pieces, 1):
            self.database.rows(f"insert into wfserve_records values ({epoch}, 1, {number}, '{name}', '\\x{data.hex()}')")
        header = header_of(it.settings, 1).hex()
        last = int(self.database.rows("select max(number) from wfserve_log")[0])
        self.database.rows(f"insert into wfserve_starts values (1, {last + 1}, {epoch}, now());"
                           f"insert into wfserve_log values ({last + 1}, {epoch}, '\\x{header}')")

    def test_tables_that_earlier_versions_compacted_are_opened(self):
        for option in ("--snapshot", "--save"):
            self.database.make_anew()
            names = self.begun()
            self.compacted_before(option)
            self.opened(names, 1)

    def test_a_table_from_before_all_compactions_is_opened(self):
        names = self.begun()
        self.database.rows("drop table wfserve_starts, wfserve_records")
        self.opened(names, 0)

    def opened(self, names, generation):
        """Opens a table of this generation, compacts it twice and opens it again."""
        for compacted in range(3):
            node = self.one("--compact-bytes", "0")
            self.assertEqual(self.generation(), generation + compacted)
            caller = self.caller_of(node)
            self.assertEqual(self.names(caller, names), ["Running"] * len(names))
            start(caller, f"also{compacted}")
            names = [*names, f"also{compacted}"]
            if compacted < 2:
                self.assertEqual(node.compact()[0], 200)
            caller.call(f"late{compacted}", op="signal", workflow_id=names[0], name="late")
            node.stop()
        node = self.one("--compact-bytes", "0")
        caller = self.caller_of(node)
        polled = [caller.call(f"poll-{number}", op="poll_workflow_task", task_queue="main", wait=20_000) for number in range(len(names))]
        self.assertEqual(sorted(task["workflow_id"] for task in polled), sorted(names))
        # Else it is started again where its database is made anew.
        node.stop()


if __name__ == "__main__":
    unittest.main()
