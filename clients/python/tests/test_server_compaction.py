"""A log that a server compacts by itself while it serves: nothing is lost or doubled, and no call waits long.

WFSERVE_SEED draws other calls.
"""

import json
import os
import random
import sys
import threading
import time
import unittest

from support.programs import needs_program, needs_server
from support.served import until
from test_server import WithAServer

SEED = int(os.environ.get("WFSERVE_SEED", random.randrange(1 << 32)))
CLIENTS = 4
HOUR = 3_600_000
# So many replies by keys a server keeps.
MOST_REPLIES = 100_000
# A client rests so many seconds after a call: the program beside has to come near on a busy machine too.
REST = 0.01
# So long a call may take in seconds, on a machine that has much else to do.
LONG = 20
# So many compactions are waited for, and so many seconds. One takes some tenths, and a minute by a program without proofs on
# a machine that is very busy: there are fewer then, and one at least.
COMPACTIONS, LATE = 4, 6 * LONG


def names_of(events):
    """The names of the signals in a history, in their order."""
    return [event["attrs"]["name"] for event in events if event["type"] == "WorkflowExecutionSignaled"]


@needs_server
@needs_program
class Served(WithAServer):
    def test_a_server_compacts_by_itself_under_load_and_after_a_restart_gives_the_same_replies(self):
        server = self.serve("--compact-bytes", "3000", "--compact-seconds", "0", "--queues", "main")
        stop, waits, had, failed = threading.Event(), [], {}, []

        def run(thread):
            number = 0
            while not stop.is_set():
                number += 1
                begun = time.monotonic()
                status, text = self.signal(server, thread, number)
                waits.append(time.monotonic() - begun)
                if status != 200:
                    failed.append(text)
                    return
                had[thread, number] = text
                time.sleep(REST)

        threads = [threading.Thread(target=run, args=(number,)) for number in range(CLIENTS)]
        for thread in threads:
            thread.start()
        late = time.monotonic() + LATE
        while self.compactions(server) < COMPACTIONS and time.monotonic() < late:
            time.sleep(0.05)
        stop.set()
        for thread in threads:
            thread.join()
        print(
            f"\na server compacted by itself: {self.compactions(server):g} times, {len(had)} calls, the longest took "
            f"{max(waits):.3f} s", file=sys.stderr,
        )
        self.assertEqual(failed, [])
        self.assertGreaterEqual(self.compactions(server), 1)
        self.assertLess(max(waits), LONG)
        server.kill()
        server.start()
        draw = random.Random(SEED)
        # A quick machine makes more calls than the server keeps replies of.
        kept = sorted(list(had)[-MOST_REPLIES // 2:])
        for thread, number in draw.sample(kept, min(50, len(kept))):
            self.assertEqual(self.signal(server, thread, number), (200, had[thread, number]), f"seed {SEED}")
        client = server.client()
        for thread in range(CLIENTS):
            names = names_of(client.history(f"w{thread}"))
            self.assertEqual(names, [f"{number}" for number in range(1, len(names) + 1)])
            self.assertEqual(len(names), sum(it == thread for it, _ in had))
        self.assertEqual(server.stop(), 0)

    def signal(self, server, thread, number):
        """The status and the text of an answer."""
        body = json.dumps({
            "op": "signal_with_start", "workflow_id": f"w{thread}", "workflow_type": "T", "task_queue": "main",
            "name": f"{number}",
        })
        status, _, text = server.asked("POST", "/calls", body.encode(), {"Idempotency-Key": f"{thread}:{number}"})
        return status, text

    def compactions(self, server):
        return server.gauge("compactions_total")

    def test_attempts_are_shown_after_compactions_and_restarts(self):
        server = self.serve("--compact-bytes", "0")
        client = server.client(wait=20_000)
        run = client.start("w", "T", task_timeout=HOUR)
        charge = {"type": "ScheduleActivityTask", "activity_id": "charge", "activity_type": "Charge", "task_queue": "main",
                  "start_to_close": HOUR, "retry": {"initial": HOUR, "coefficient": 100, "attempts": 3}}
        client.call("complete_workflow_task", token=client.poll_workflow_task().token, commands=[charge])
        token = client.call("poll_activity_task", task_queue="main", wait=20_000)["token"]
        client.call("heartbeat", token=token, details="half of it")
        client.call("fail_activity", token=token, message="no answer", error_type="OSError")
        told = server.read(f"/api/workflows/w/{run}")["pending"]
        self.assertEqual((told[0]["attempt"], told[0]["last_failure"], told[0]["heartbeat"]), (2, "no answer", "half of it"))
        for _ in range(2):
            self.assertEqual(server.asked("POST", "/compact", b"{}")[0], 200)
            server.kill()
            server.start()
            self.assertEqual(server.read(f"/api/workflows/w/{run}")["pending"], told)

    def test_the_end_of_a_run_is_told_on_another_shard_after_a_compaction(self):
        """Which shards had to do with each other the snapshots say."""
        server = self.serve("--shards", "4", "--compact-bytes", "0")
        client = server.client(wait=20_000)
        client.start("p", "T", task_timeout=HOUR)
        child = {"type": "StartChildWorkflowExecution", "workflow_type": "T", "task_queue": "main"}
        commands = [{**child, "workflow_id": f"c{number}"} for number in range(6)]
        client.call("complete_workflow_task", token=client.poll_workflow_task().token, commands=commands)
        until(lambda: len(server.read("/api/workflows")["workflows"]) == 7)
        self.assertEqual(server.asked("POST", "/compact", b"{}")[0], 200)
        server.kill()
        server.start()
        client = server.client()
        client.terminate("p")
        until(lambda: all(client.describe(f"c{number}")["status"] == "Terminated" for number in range(6)))

    def test_a_server_is_told_when_to_compact(self):
        for words in (["--compact-bytes", "-1"], ["--compact-seconds", "1.5"], ["--compact-bytes", ""]):
            with self.assertRaisesRegex(AssertionError, "takes a (whole )?number"):
                self.serve(*words)


if __name__ == "__main__":
    unittest.main()
