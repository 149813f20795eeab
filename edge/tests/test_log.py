"""The log of an edge that is killed under load, given to a program by hand, gives the replies that clients had.

WFSERVE_SEED draws other points, and WFEDGE_KILLS more of them: in rounds, each over a log of its own. An edge that is
started again serves its whole log, and would be killed before it had come to the end of a long one.
"""

import http.client
import json
import os
import pathlib
import random
import resource
import signal
import socket
import sys
import threading
import time
import unittest
from concurrent.futures import ThreadPoolExecutor

from the_edge import needs_edge, program_of, reply_by_key

from by_hand import left_undone, lines_of, replies_of, sweep_of
from support.programs import BUILT, needs_program
from wfserve.durable import DurableService, move_journal, move_log
from wfserve.durable.edge_log import lines_in
from test_server import WithAServer

SEED = int(os.environ.get("WFSERVE_SEED", random.randrange(1 << 32)))
KILLS = int(os.environ.get("WFEDGE_KILLS", 15))
# So many kills a round has.
ROUND = 50
CLIENTS, SHARDS = 8, 4
HOUR = 3_600_000
# Between two tries of a call, in seconds; and for how long one is tried.
LONGEST_PAUSE, PATIENCE = 0.1, 120


class ByLines:
    """Asks by lines, and connects again where the edge is away. A call that was not answered is made again."""

    def __init__(self, path):
        self._path, self._replies = path, None

    def ask(self, body, key):
        if self._replies is None:
            self._connect()
        self._socket.sendall(json.dumps({**body, "call": key}).encode() + b"\n")
        text = self._replies.readline()
        if not text.endswith(b"\n"):
            raise OSError("the edge hung up")
        return None if b'"status":' in text and "status" in json.loads(text) else text[:-1]

    def _connect(self):
        self._socket = socket.socket(socket.AF_UNIX)
        self._socket.settimeout(20)
        try:
            self._socket.connect(self._path)
        except OSError:
            self._socket.close()
            raise
        self._replies = self._socket.makefile("rb")

    def close(self):
        if self._replies is not None:
            self._replies.close()
            self._socket.close()
        self._replies = None


class ByHttp:
    """The same by HTTP."""

    def __init__(self, server):
        self._server, self._connection = server, None

    def ask(self, body, key):
        if self._connection is None:
            self._connection = http.client.HTTPConnection(self._server.host, self._server.port, timeout=20)
        return reply_by_key(self._connection, json.dumps(body), key, (500, 503, 507))

    def close(self):
        if self._connection is not None:
            self._connection.close()
        self._connection = None


class Client:
    """Runs workflows, and keeps each reply's text."""

    def __init__(self, way, number, stop, seed, pace=0.0):
        # It rests for so many seconds before each call: so a log stays short where a program is quick.
        self._way, self._number, self._stop, self._pace = way, number, stop, pace
        self._draw = random.Random(f"{seed} {number}")
        self.had, self.again = [], 0

    def call(self, key, **request):
        time.sleep(self._pace)
        late, pause = time.monotonic() + PATIENCE, 0.01
        while True:
            try:
                text = self._way.ask(request, f"{self._number}-{key}")
                if text is not None:
                    self.had.append(text)
                    return json.loads(text)
            except (OSError, http.client.HTTPException):
                self._way.close()
            if time.monotonic() > late:
                raise AssertionError(f"{request}: no answer in {PATIENCE} s")
            self.again += 1
            time.sleep(pause * (0.5 + self._draw.random()))
            pause = min(2 * pause, LONGEST_PAUSE)

    def run(self):
        """Starts workflows and completes tasks until it is told to stop. Some workflows begin a child elsewhere."""
        count = 0
        while not self._stop.is_set():
            count += 1
            name = f"{self._number}-{count}"
            self.call(f"start-{count}", op="start", workflow_id=name, workflow_type="T",
                      task_queue="main", task_timeout=HOUR)
            self.call(f"signal-{count}", op="signal", workflow_id=name, name="s", input="x" * self._draw.randrange(200))
            for part in range(2):
                task = self.call(f"poll-{count}-{part}", op="poll_workflow_task", task_queue="main", wait=500)
                if task["ok"] == "task":
                    commands = self.commands(task["workflow_id"])
                    self.call(f"done-{count}-{part}", op="complete_workflow_task", token=task["token"], commands=commands)
        self._way.close()
        return self

    def commands(self, workflow_id):
        done = {"type": "CompleteWorkflowExecution", "result": workflow_id}
        if workflow_id.startswith("child") or self._draw.random() < 0.5:
            return [done]
        return [{"type": "StartChildWorkflowExecution", "workflow_id": f"child-{workflow_id}-{self._draw.randrange(1 << 30)}",
                 "workflow_type": "T", "task_queue": "main", "parent_close_policy": "Abandon"}, done]


@needs_edge
@needs_program
class ByHand(WithAServer):
    def disturb(self, server, draw, stop, clients, kills):
        """Kills the edge or its program at drawn moments, and lets clients go on until they had many replies."""
        counts = {"edge": 0, "program": 0}
        for _ in range(kills):
            time.sleep(0.1 + draw.random() / 3)
            self.keep(server)
            kind = draw.choice(["edge", "edge", "program"])
            counts[kind] += 1
            if kind == "edge":
                server.kill()
                server.start()
                continue
            program = program_of(server.process.pid)
            if program is not None:
                os.kill(program, signal.SIGKILL)
        late = time.monotonic() + 60
        while sum(len(client.had) for client in clients) <= 10 * kills and time.monotonic() < late:
            self.keep(server)
            time.sleep(0.05)
        time.sleep(0.5)
        stop.set()
        while not self.keep(server) and time.monotonic() < late:
            time.sleep(0.05)
        return counts

    def keep(self, server):
        """Starts an edge again that has ended: its program was killed each time before it had come back. Whether it serves."""
        if server.process.poll() is not None:
            server.process.stdout.close()
            server.start()
        try:
            return server.asked("GET", "/health/ready")[0] == 200
        except (OSError, http.client.HTTPException):
            return False

    def test_what_clients_had_is_what_the_log_gives(self):
        print(f"\nlogs by hand: seed {SEED}", file=sys.stderr)
        for number in range(max(KILLS // ROUND, 1)):
            self.log = self.folder / f"log-{number}"
            self.round(min(KILLS, ROUND), f"{SEED} {number}")

    def round(self, kills, seed):
        """So many kills, and what the clients had then, beside what the log gives."""
        path, stop = f"{self.log}.lines", threading.Event()
        server = self.serve("--shards", str(SHARDS), "--socket", path, "--capacity", "65536")
        ways = [ByLines(path) if number % 2 else ByHttp(server) for number in range(CLIENTS)]
        with ThreadPoolExecutor(CLIENTS + 1) as pool:
            clients = [Client(way, number, stop, seed) for number, way in enumerate(ways)]
            working = [pool.submit(client.run) for client in clients]
            counts = self.disturb(server, random.Random(seed), stop, clients, kills)
            for it in working:
                it.result()
        time.sleep(1)
        self.assertEqual(server.stop(), 0)
        had, again = [text for client in clients for text in client.had], sum(client.again for client in clients)
        print(f"logs by hand: {counts}, {len(had)} replies, {again} calls made again", file=sys.stderr)
        self.assertGreater(len(had), 10 * kills)
        self.look(had)

    def look(self, had):
        """What clients had, beside what the log gives a program by hand."""
        settings, lines = lines_of(self.log)
        turns = sweep_of(settings, lines)
        replies = replies_of(BUILT, settings, [*lines, *turns])
        for text in had:
            self.assertEqual(text, replies[json.loads(text)["line"] - 1])
        # Moments never go back, and no turn is missing.
        moments = [json.loads(line)["at"] for line in lines]
        self.assertEqual((moments, left_undone(turns, replies)), (sorted(moments), []))
        # Each call that has a key, but polls, is in the log once.
        keys = [line.rpartition(b'"call":')[2].partition(b",")[0] for line in lines if b'"call":' in line]
        once = [key for key in keys if b"-poll-" not in key]
        self.assertEqual(len(once), len(set(once)))

    def test_a_log_becomes_a_journal_and_a_log_again(self):
        """A client goes on where the edge ended, and the edge where the client did."""
        server, kept = self.serve(), str(self.folder / "kept")
        run = server.client().start("w", "T")
        server.stop()
        move_log([str(BUILT)], str(self.log), kept)
        with DurableService([str(BUILT)], kept) as service:
            self.assertEqual((service.describe("w")["status"], service.describe("w")["run"]), ("Running", run))
            service.call("signal", workflow_id="w", name="by the client", at=int(time.time() * 1_000))
        self.log.rename(self.folder / "former")
        move_journal(kept, str(self.log), command=[str(BUILT)])
        server.start()
        self.assertEqual(server.client().history("w")[-1]["attrs"]["name"], "by the client")


@needs_edge
class FullDisk(WithAServer):
    def test_a_disk_that_is_full_at_any_byte_keeps_whole_lines_or_none(self):
        server = self.serve(program=self.double())
        server.asked("POST", "/calls", b'{"op":"signal","name":"first"}')
        begun = self.log.stat().st_size
        refused = served = 0
        for more in range(0, 300, 7):
            resource.prlimit(server.process.pid, resource.RLIMIT_FSIZE, (begun + more, resource.RLIM_INFINITY))
            status = server.asked("POST", "/calls", f'{{"op":"signal","name":"n{more}"}}'.encode())[0]
            self.assertIn(status, (200, 507))
            refused, served = refused + (status == 507), served + (status == 200)
        resource.prlimit(server.process.pid, resource.RLIMIT_FSIZE, (resource.RLIM_INFINITY, resource.RLIM_INFINITY))
        self.assertEqual(server.asked("POST", "/calls", b'{"op":"signal","name":"last"}')[0], 200)
        self.assertGreater(refused, 0)
        self.assertEqual(server.stop(), 0)
        text = pathlib.Path(self.log).read_bytes()
        self.assertEqual((text.count(b'"name":"n'), text.count(b'"last"')), (served, 1))
        self.assertEqual(len(list(lines_in(str(self.log)))) - 1, text.count(b'"op"'))


if __name__ == "__main__":
    unittest.main()
