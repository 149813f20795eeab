"""A second program that follows the log, and takes the place of one that is killed: with calls under way, again and again.

WFSERVE_SEED draws other moments. WFEDGE_PACE has clients rest for longer between two calls, in seconds.
"""

import os
import random
import signal
import sys
import threading
import time
import unittest
from concurrent.futures import ThreadPoolExecutor

from the_edge import needs_edge, program_of, programs_of

from by_hand import left_undone, lines_of, replies_of, sweep_of
from support.programs import BUILT, needs_program
from support.served import kill_all, until
from test_log import ByHttp, ByLines, Client
from test_server import WithAServer

SEED = int(os.environ.get("WFSERVE_SEED", random.randrange(1 << 32)))
KILLS, BOTH, CLIENTS, SHARDS = 6, 6, 4, 2
# In seconds: a program without proofs serves a log slowly. So clients rest between two calls.
LONG, PACE = 300, float(os.environ.get("WFEDGE_PACE", 0.01))


@needs_edge
@needs_program
class Standby(WithAServer):
    def has_standby(self, server):
        """Whether a second program follows closely."""
        return "\nwfserve_standby 1\n" in server.asked("GET", "/metrics")[2]

    def restarts(self, server):
        """How often a program has taken the place of another one."""
        said = server.asked("GET", "/metrics")[2]
        return int(said.split("\nwfserve_program_restarts_total ")[1].split("\n")[0])

    def test_what_clients_had_is_what_the_log_gives(self):
        print(f"\na second program: seed {SEED}", file=sys.stderr)
        draw, stop, path = random.Random(SEED), threading.Event(), f"{self.log}.lines"
        server = self.serve("--shards", str(SHARDS), "--socket", path, "--capacity", "65536", "--queues", "main,other",
                            "--standby", "yes", "--compact-bytes", "0")
        with ThreadPoolExecutor(CLIENTS) as pool:
            ways = [ByLines(path) if number % 2 else ByHttp(server) for number in range(CLIENTS)]
            clients = [Client(way, number, stop, SEED, PACE) for number, way in enumerate(ways)]
            working = [pool.submit(client.run) for client in clients]
            try:
                for _ in range(KILLS):
                    self.kill(server, draw)
            finally:
                stop.set()
            for it in working:
                it.result()
        self.assertIn(self.restarts(server), range(1, KILLS + 1))
        self.assertEqual(server.own_ends, [])
        time.sleep(1)
        self.assertEqual(server.stop(), 0)
        had = [text for client in clients for text in client.had]
        settings, lines = lines_of(self.log)
        turns = sweep_of(settings, lines)
        replies = replies_of(BUILT, settings, [*lines, *turns])
        self.assertEqual([text for text in had if text not in replies], [])
        self.assertEqual(left_undone(turns, replies), [])

    def kill(self, server, draw):
        """Kills the older one of the programs, once there are two: it serves, unless the other one was started while this one
        could not be had soon enough."""
        until(lambda: self.has_standby(server), LONG)
        time.sleep(draw.random() / 4)
        kill_all(program_of(server.process.pid))
        server.go_on(LONG)

    def test_it_takes_the_place_at_once_also_after_compactions(self):
        """No other program is started for that: there is none under its name meanwhile."""
        path, away = self.folder / "program", self.folder / "away"
        path.write_text(f'#!/bin/sh\nexec {BUILT} "$@"\n')
        path.chmod(0o755)
        server = self.serve("--standby", "yes", "--compact-bytes", "0", program=str(path))
        client = server.client()
        client.start("w", "T")
        for number in range(3):
            client.signal("w", f"s{number}", request_id=f"s{number}")
            # Who served before a compaction may be about to end.
            until(lambda: self.has_standby(server) and len(programs_of(server.process.pid)) == 2)
            serving, following = programs_of(server.process.pid)
            path.rename(away)
            os.kill(serving, signal.SIGKILL)
            client.signal("w", f"t{number}", request_id=f"t{number}")
            self.assertEqual(programs_of(server.process.pid), [following])
            away.rename(path)
            self.assertEqual(server.asked("POST", "/compact", b"{}")[0], 200)
        names = [event["attrs"]["name"] for event in client.history("w") if event["type"] == "WorkflowExecutionSignaled"]
        self.assertEqual(names, [f"{letter}{number}" for number in range(3) for letter in "st"])

    def test_one_that_is_killed_itself_is_missed_by_nobody(self):
        server = self.serve("--standby", "yes", "--compact-bytes", "0")
        client = server.client()
        client.start("w", "T")
        until(lambda: self.has_standby(server))
        os.kill(programs_of(server.process.pid)[1], signal.SIGKILL)
        client.signal("w", "one", request_id="one")
        until(lambda: "the second program ended" in server.said.read_text())
        until(lambda: not self.has_standby(server))
        os.kill(program_of(server.process.pid), signal.SIGKILL)
        client.signal("w", "two", request_id="two")
        self.assertEqual((self.restarts(server), len(client.history("w"))), (1, 4))
        self.assertEqual(server.stop(), 0)

    def test_both_may_be_killed_at_once(self):
        """Also one that has served all there is, so that it would not be missed before it is asked."""
        print(f"\nboth programs: seed {SEED}", file=sys.stderr)
        draw = random.Random(f"{SEED} both")
        for count in range(BOTH):
            self.log = self.folder / f"log-{count}"
            server = self.serve("--standby", "yes", "--compact-bytes", "0")
            server.client().start("w", "T")
            until(lambda: self.has_standby(server), LONG)
            time.sleep(draw.random())
            kill_all(*programs_of(server.process.pid))
            server.go_on(LONG)
            self.assertEqual((server.own_ends, server.client().describe("w")["status"]), ([], "Running"))
            self.assertEqual(server.stop(), 0)

    def test_without_one_the_program_is_started_again(self):
        server = self.serve("--standby", "no")
        client = server.client()
        client.start("w", "T")
        self.assertEqual(len(programs_of(server.process.pid)), 1)
        os.kill(program_of(server.process.pid), signal.SIGKILL)
        client.signal("w", "one", request_id="one")
        self.assertEqual((self.restarts(server), len(programs_of(server.process.pid))), (1, 1))


if __name__ == "__main__":
    unittest.main()
