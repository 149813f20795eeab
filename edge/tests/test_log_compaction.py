"""Logs that are compacted while they are served: under load, with kills at drawn moments, by themselves, and of earlier versions.

Each generation's lines, given to a program by hand that goes on from its snapshots, give the replies that clients had, and
the snapshots of the next one. WFSERVE_SEED draws other moments, and WFEDGE_COMPACTIONS more of them; WFEDGE_PACE has clients
rest for longer between two calls, in seconds, as for a slow program.
"""

import http.client
import json
import os
import pathlib
import random
import shutil
import sys
import threading
import time
import unittest
from concurrent.futures import ThreadPoolExecutor

from the_edge import needs_edge, program_of

from by_hand import left_undone, replies_of, sweep_of
from support.programs import BUILT, needs_program
from support.served import has_ended, kill_all, until
from wfserve.durable.edge_log import begin_log, read_header
from wfserve.errors import Refused
from test_log import ByHttp, ByLines, Client
from test_server import WithAServer

SEED = int(os.environ.get("WFSERVE_SEED", random.randrange(1 << 32)))
COMPACTIONS = int(os.environ.get("WFEDGE_COMPACTIONS", 5))
PACE = float(os.environ.get("WFEDGE_PACE", 0.01))
CLIENTS, SHARDS = 6, 3
HOUR = 3_600_000
# Calls that are made again at the end, by their keys.
AGAIN = 60
# In seconds: a program without proofs writes snapshots slowly.
LONG = 600


def lines_in(path):
    """The settings of a log, how often it was compacted, and its lines. It may be served meanwhile."""
    lines = []
    for piece in pathlib.Path(path).read_bytes().splitlines(keepends=True):
        if piece.endswith(b"\n"):
            lines.append(piece[:-1].split(b" ", 2)[2])
    settings, generation = read_header(lines[0], str(path))
    return settings, generation, lines[1:]


def load_of(folder):
    """The words that open what lies in a folder."""
    return ["--load", str(folder)] if folder else []


def texts_in(folder):
    """The snapshots in a folder."""
    return {path.name: path.read_bytes() for path in pathlib.Path(folder).glob("shard-*.snap")}


def overlap(before, after):
    """How many lines the end of one log has in common with the beginning of the next."""
    for count in range(min(len(before), len(after)), 0, -1):
        if before[-count:] == after[:count]:
            return count
    return 0


class Remembering(Client):
    """A client that remembers its calls by their keys."""

    def __init__(self, *words):
        super().__init__(*words, PACE)
        self.by_key = {}

    def call(self, key, **request):
        reply = super().call(key, **request)
        self.by_key[f"{self._number}-{key}"] = (request, self.had[-1])
        return reply


class Archive:
    """The generations of a log, of which the edge keeps the last two."""

    def __init__(self, log, folder):
        self._log, self._folder = pathlib.Path(log), folder
        folder.mkdir()

    def keep(self):
        """Keeps the generations that are there, but for the log that goes on."""
        for path in self._log.parent.glob(f"{self._log.name}.generation-*"):
            number = int(path.name.rpartition("-")[2])
            # While a compaction is under way it is a second name of the log.
            if number < lines_in(self._log)[1] and not (self._folder / f"log-{number}").exists():
                shutil.copy(path, self._folder / f"log-{number}")
        for path in self._log.parent.glob(f"{self._log.name}.records-*"):
            number = int(path.name.rpartition("-")[2])
            kept = self._folder / f"records-{number}"
            if number <= lines_in(self._log)[1] and not kept.exists():
                shutil.copytree(path, kept)

    def all(self):
        """The settings, the lines, and the folder of the snapshots, of each generation."""
        self.keep()
        settings, last, _ = lines_in(self._log)
        logs = [self._folder / f"log-{number}" for number in range(last)] + [self._log]
        found = [lines_in(path) for path in logs]
        assert [generation for _, generation, _ in found] == list(range(last + 1)), "a generation is gone"
        folders = [None] + [self._folder / f"records-{number}" for number in range(1, last + 1)]
        return [(settings, lines, folder) for (settings, _, lines), folder in zip(found, folders)]


@needs_edge
@needs_program
class UnderLoad(WithAServer):
    def test_nothing_is_lost_or_doubled_over_compactions_and_kills(self):
        print(f"\nlogs compacted under load: seed {SEED}", file=sys.stderr)
        draw, stop = random.Random(SEED), threading.Event()
        path = f"{self.log}.lines"
        server = self.serve("--shards", str(SHARDS), "--socket", path, "--capacity", "65536", "--compact-bytes", "0")
        archive = Archive(self.log, self.folder / "archive")
        ways = [ByLines(path) if number % 2 else ByHttp(server) for number in range(CLIENTS)]
        with ThreadPoolExecutor(CLIENTS + 2) as pool:
            clients = [Remembering(way, number, stop, SEED) for number, way in enumerate(ways)]
            working = [pool.submit(client.run) for client in clients]
            try:
                counts = self.disturb(server, archive, draw, pool)
            finally:
                stop.set()
            for it in working:
                it.result()
        time.sleep(1)
        had = [text for client in clients for text in client.had]
        self.again(server, clients, draw)
        self.assertEqual(server.stop(), 0)
        generations = archive.all()
        print(f"logs compacted under load: {counts}, {len(generations)} generations, {len(had)} replies", file=sys.stderr)
        self.assertGreater(len(generations), 2)
        self.look(generations, had)

    def disturb(self, server, archive, draw, pool):
        """Has the log compacted again and again, and kills the edge or its program meanwhile."""
        counts = {"compacted": 0, "edge": 0, "program": 0, "none": 0}
        for turn in range(COMPACTIONS):
            time.sleep(0.3 + draw.random() / 2)
            asked = pool.submit(self.compact, server)
            # Each kind at least once, and the last one is left alone.
            kind = ["edge", "none", "program", *[draw.choice(["edge", "program", "none"]) for _ in range(turn)]][turn]
            kind = "none" if turn == COMPACTIONS - 1 else kind
            counts[kind] += 1
            time.sleep(draw.random() / 2)
            if kind == "edge":
                server.kill()
                server.start()
            elif kind == "program" and (program := program_of(server.process.pid)) is not None:
                kill_all(program)
            counts["compacted"] += asked.result() == 200
            server.go_on(LONG)
            until(lambda: server.read("/health/ready")["compacting"] is False, LONG)
            archive.keep()
        self.assertEqual(server.own_ends, [])
        return counts

    def compact(self, server):
        """Asks a compaction. The answer's status; None where there is none."""
        try:
            return server.asked("POST", "/compact", b"{}")[0]
        except (OSError, http.client.HTTPException):
            return None

    def again(self, server, clients, draw):
        """Calls that are made again are answered as they were, by an edge that was started again."""
        server.kill()
        server.start()
        known = {key: it for client in clients for key, it in client.by_key.items() if "poll" not in key}
        self.assertGreater(len(known), AGAIN)
        # By the way by which it was made: with another one its text has other blanks, and is another call.
        ways = [ByHttp(server), ByLines(f"{self.log}.lines")]
        for key in draw.sample(sorted(known), AGAIN):
            request, text = known[key]
            self.assertEqual(ways[int(key.partition("-")[0]) % 2].ask(request, key), text)
        for way in ways:
            way.close()

    def look(self, generations, had):
        """What clients had, beside what the generations give."""
        replies, once = {}, []
        followers = [*generations[1:], (None, [], None)]
        for (settings, lines, folder), (_, after, next_folder) in zip(generations, followers):
            count = len(lines) - overlap(lines, after)
            turns = sweep_of(settings, lines)
            found = replies_of(BUILT, settings, [*lines, *turns], load_of(folder))
            for text in found[:len(lines)]:
                replies.setdefault(json.loads(text)["line"], set()).add(text)
            once += lines[:count]
            if next_folder is not None:
                # The next one's snapshots are those of the lines that it doesn't have.
                made = self.folder / f"by-hand-{next_folder.name}"
                made.mkdir()
                replies_of(BUILT, settings, lines[:count], [*load_of(folder), "--snapshot", str(made)])
                self.assertEqual(texts_in(made), texts_in(next_folder))
        self.assertEqual(left_undone(turns, found), [])
        for text in had:
            self.assertIn(text, replies[json.loads(text)["line"]])
        moments = [json.loads(line)["at"] for line in once]
        self.assertEqual(moments, sorted(moments))
        keys = [line.rpartition(b'"call":')[2].partition(b",")[0] for line in once if b'"call":' in line]
        keys = [key for key in keys if b"-poll-" not in key]
        self.assertEqual(len(keys), len(set(keys)))


@needs_edge
@needs_program
class Compacted(WithAServer):
    def folder_of(self, generation):
        return pathlib.Path(f"{self.log}.records-{generation}")

    def generation(self):
        return lines_in(self.log)[1]

    def has(self, client, workflow_id):
        """Whether there is a run of a workflow."""
        try:
            return bool(client.describe(workflow_id))
        except Refused:
            return False

    def test_all_that_waits_is_handed_out_after_a_compaction_and_a_restart(self):
        """Tasks in their queues, and tasks whose queue had no room, of which no dispatch was counted."""
        server = self.serve("--shards", "2", "--queues", "main,more", "--capacity", "4", "--compact-bytes", "0")
        client = server.client()
        for number in range(16):
            client.start(f"w{number}", "T", task_queue=("main", "more")[number % 2], task_timeout=HOUR)
        for restarted in range(2):
            self.assertEqual(server.asked("POST", "/compact", b"{}")[0], 200)
            waiting = b"".join(texts_in(self.folder_of(restarted + 1)).values())
            self.assertGreater(waiting.count(b'{"dispatch":'), 0)
            server.kill()
            server.start()
        client, found = server.client(wait=20_000), set()
        for number in range(16):
            found.add(client.poll_workflow_task(("main", "more")[number % 2]).workflow_id)
        self.assertEqual(found, {f"w{number}" for number in range(16)})
        self.assertEqual(server.read("/health/ready")["queue_full"], False)

    def test_the_end_of_a_run_is_told_on_another_shard_after_a_compaction(self):
        """Which shards had to do with each other the snapshots say."""
        server = self.serve("--shards", "4", "--compact-bytes", "0")
        client = server.client(wait=20_000)
        client.start("p", "T", task_timeout=HOUR)
        task = client.poll_workflow_task()
        child = {"type": "StartChildWorkflowExecution", "workflow_type": "T", "task_queue": "main"}
        commands = [{**child, "workflow_id": f"c{number}"} for number in range(6)]
        client.call("complete_workflow_task", token=task.token, commands=commands)
        until(lambda: all(self.has(client, f"c{number}") for number in range(6)))
        self.assertEqual(server.asked("POST", "/compact", b"{}")[0], 200)
        server.kill()
        server.start()
        client = server.client()
        client.terminate("p")
        until(lambda: all(client.describe(f"c{number}")["status"] == "Terminated" for number in range(6)), 8)

    def test_a_long_log_is_compacted_by_itself_and_an_old_one(self):
        server = self.serve("--compact-bytes", "20000", "--compact-seconds", "0")
        client = server.client()
        for number in range(150):
            client.start(f"w{number}", "T", input="x" * 300)
        until(lambda: self.generation() > 0, LONG)
        until(lambda: server.read("/health/ready")["compacting"] is False, LONG)
        # It grows with what is kept, so the log may grow as far.
        size = sum(len(text) for text in texts_in(self.folder_of(self.generation())).values())
        self.assertGreater(size, 20_000)
        self.assertLess(server.read("/health/ready")["bytes"], 2 * size)
        server.stop()
        generation = self.generation()
        # By time it is where a sixteenth of what it is compacted at was written.
        other = self.serve("--compact-bytes", "0", "--compact-seconds", "1")
        client = other.client()
        for number in range(40):
            client.start(f"more{number}", "T", input="x" * 300)
        client.start("last", "T")
        until(lambda: self.generation() > generation, LONG)
        other.stop()
        never = self.serve("--compact-bytes", "0", "--compact-seconds", "0")
        self.assertEqual(never.client().describe("last")["status"], "Running")

    def test_what_a_retention_deleted_is_in_no_snapshot_any_more(self):
        server = self.serve("--retention", "300", "--compact-bytes", "0")
        client, sizes = server.client(), []
        client.start("kept", "T")
        for number in range(20):
            client.start(f"w{number}", "T", input="x" * 500)
        for turn in range(2):
            if turn == 1:
                for number in range(20):
                    client.terminate(f"w{number}")
                until(lambda: not any(self.has(client, f"w{number}") for number in range(20)))
            self.assertEqual(server.asked("POST", "/compact", b"{}")[0], 200)
            sizes.append(sum(len(text) for text in texts_in(self.folder_of(turn + 1)).values()))
        self.assertLess(5 * sizes[1], sizes[0])
        server.kill()
        server.start()
        self.assertEqual([row["workflow_id"] for row in server.read("/api/workflows")["workflows"]], ["kept"])

    def test_keys_are_known_after_many_compactions_and_restarts(self):
        server, had = self.serve("--compact-bytes", "0"), {}
        for turn in range(4):
            key, body = f"k{turn}", json.dumps({"op": "start", "workflow_id": f"w{turn}", "workflow_type": "T", "task_queue": "main"})
            had[key] = (body, server.asked("POST", "/calls", body.encode(), {"Idempotency-Key": key})[2])
            self.assertEqual(server.asked("POST", "/compact", b"{}")[0], 200)
            if turn % 2:
                server.kill()
                server.start()
            for key, (body, text) in had.items():
                self.assertEqual(server.asked("POST", "/calls", body.encode(), {"Idempotency-Key": key})[2], text)
        self.assertEqual(server.asked("POST", "/calls", b'{"op":"terminate","workflow_id":"w0"}', {"Idempotency-Key": "k0"})[0], 422)
        self.assertEqual(self.generation(), 4)

    def test_a_generation_of_records_is_opened_and_becomes_snapshots(self):
        server = self.serve("--shards", "2", "--capacity", "4")
        client = server.client(wait=20_000)
        for number in range(12):
            client.start(f"w{number}", "T", task_timeout=HOUR)
        server.stop()
        # As an earlier version compacted it.
        settings, _, lines = lines_in(self.log)
        self.folder_of(1).mkdir(0o700)
        replies_of(BUILT, settings, lines, ["--save", str(self.folder_of(1))])
        self.log.unlink()
        begin_log(str(self.log), settings, 1)
        server.start()
        self.assertEqual(sorted(path.suffix for path in self.folder_of(1).iterdir()), [".rec", ".rec"])
        self.assertIn("the queues have room for", server.said.read_text())
        names = {f"w{number}" for number in range(12)}
        self.assertEqual({row["workflow_id"] for row in server.read("/api/workflows")["workflows"]}, names)
        self.assertEqual(server.asked("POST", "/compact", b"{}")[0], 200)
        self.assertEqual(set(texts_in(self.folder_of(2))), {"shard-00.snap", "shard-01.snap"})
        server.kill()
        server.start()
        self.assertEqual({row["workflow_id"] for row in server.read("/api/workflows")["workflows"]}, names)
        client = server.client(wait=20_000)
        self.assertEqual({client.poll_workflow_task().workflow_id for _ in range(12)}, names)

    def test_no_call_waits_for_a_compaction(self):
        """While the program that writes snapshots stands still, calls are answered."""
        path, goes_on = self.folder / "writes slowly", self.folder / "goes on"
        path.write_text(
            f'#!/bin/sh\ncase "$*" in *--snapshot*) while [ ! -e "{goes_on}" ]; do sleep 0.02; done;; esac\nexec {BUILT} "$@"\n')
        path.chmod(0o755)
        server = self.serve("--compact-bytes", "0", program=str(path))
        client = server.client(wait=20_000)
        client.start("w", "T", task_timeout=HOUR)
        with ThreadPoolExecutor(1) as pool:
            asked = pool.submit(server.asked, "POST", "/compact", b"{}")
            until(lambda: server.read("/health/ready")["compacting"])
            for number in range(20):
                client.signal("w", f"s{number}")
            self.assertEqual(client.poll_workflow_task().workflow_id, "w")
            self.assertFalse(asked.done())
            goes_on.touch()
            self.assertEqual(asked.result()[0], 200)
        names = [event["attrs"]["name"] for event in client.history("w") if event["type"] == "WorkflowExecutionSignaled"]
        self.assertEqual(names, [f"s{number}" for number in range(20)])

    def test_what_an_edge_was_writing_that_is_killed_ends_with_it(self):
        """Later it would write into a folder that is another compaction's by then."""
        path, begun = self.folder / "writes for ever", self.folder / "begun"
        path.write_text(f'#!/bin/sh\ncase "$*" in *--snapshot*) echo $$ > "{begun}"; exec sleep 600;; esac\nexec {BUILT} "$@"\n')
        path.chmod(0o755)
        server = self.serve("--compact-bytes", "0", program=str(path))
        server.client().start("w", "T")
        with ThreadPoolExecutor(1) as pool:
            asked = pool.submit(UnderLoad.compact, self, server)
            until(lambda: begun.exists() and begun.read_text().strip())
            server.kill()
            self.assertIsNone(asked.result())
        writer = int(begun.read_text())
        until(lambda: has_ended(writer))
        server.start()
        self.assertEqual(server.client().describe("w")["status"], "Running")
        self.assertFalse(self.folder_of(1).exists())


if __name__ == "__main__":
    unittest.main()
