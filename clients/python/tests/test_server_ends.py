"""Descriptions that wait until a run has closed, and results over HTTP that are waited for at the server."""

import json
import sys
import threading
import time
import unittest
from concurrent.futures import ThreadPoolExecutor

from support.programs import needs_program, needs_server, program_file
from support.served import PATIENCE, until
from test_server import WithAServer
from wfserve.client import Client
from wfserve.errors import NotCompleted, StillRunning

# A program whose one run is closed by a signal of this name. The status is what a text says too that says nothing here.
CLOSING = f"""#!{sys.executable} -S
import json, sys
status, said = "Running", '"status":"Running"'
for number, line in enumerate(sys.stdin, 1):
    request = json.loads(line)
    op = request["op"]
    if op == "signal" and request["name"] == "close":
        status = "Completed"
    more = {{"run": said, "status": status, "wait": request.get("wait", 0)}} if op == "describe" else {{}}
    ok = "described" if more else "none" if op.endswith("_turn") else "empty" if op.startswith("poll_") else "signaled"
    print(json.dumps({{"line": number, "ok": ok, **more}}, separators=(",", ":")), flush=True)
"""


def described(wait):
    return json.dumps({"op": "describe", "workflow_id": "w", "wait": wait})


@needs_server
class Waiting(WithAServer):
    def closing(self, *options):
        return self.serve(*options, program=program_file(self.folder, CLOSING))

    def test_it_is_answered_once_the_run_has_closed(self):
        server = self.closing()
        with ThreadPoolExecutor(3) as pool:
            asked = [pool.submit(server.asked, "POST", "/calls", described(60_000)),
                     pool.submit(server.asked, "POST", "/calls/describe", '{"workflow_id":"w","wait":60000}'),
                     pool.submit(server.client().describe_end, "w", None, 60)]
            until(lambda: server.gauge("ends_waiting") == 3)
            server.client().signal("w", "another one")
            self.assertFalse(any(it.done() for it in asked))
            begun = time.monotonic()
            server.client().signal("w", "close")
            (first, _, text), (second, _, other), reply = (it.result(PATIENCE) for it in asked)
        self.assertLess(time.monotonic() - begun, 30)
        self.assertEqual((first, second), (200, 200))
        # The program knows of no wait.
        for said in (json.loads(text), json.loads(other), reply):
            self.assertEqual((said["status"], said["wait"]), ("Completed", 0))
        self.assertEqual(server.gauge("ends_waiting"), 0)
        self.assertNotIn(b"describe", self.log.read_bytes())

    def test_it_is_answered_at_once_where_it_has_closed_and_after_its_time_where_it_has_not(self):
        server = self.closing()
        begun = time.monotonic()
        self.assertEqual(json.loads(server.asked("POST", "/calls", described(700))[2])["status"], "Running")
        self.assertGreaterEqual(time.monotonic() - begun, 0.7)
        self.assertEqual(json.loads(server.asked("POST", "/calls", described(0))[2])["status"], "Running")
        server.client().signal("w", "close")
        begun = time.monotonic()
        self.assertEqual(json.loads(server.asked("POST", "/calls", described(60_000))[2])["status"], "Completed")
        self.assertLess(time.monotonic() - begun, 30)
        for wait in (-1, 60_001, "long", True):
            self.assertEqual(server.asked("POST", "/calls", described(wait))[0], 400, wait)

    def test_one_whose_client_has_hung_up_waits_no_longer(self):
        server = self.closing()
        client = server.client()
        connection = client._connection()
        connection.request("POST", "/calls", described(60_000), {"Content-Type": "application/json"})
        until(lambda: server.gauge("ends_waiting") == 1)
        connection.close()
        until(lambda: server.gauge("ends_waiting") == 0)

    def test_a_server_that_stops_answers_what_it_knows(self):
        server = self.closing()
        with ThreadPoolExecutor(1) as pool:
            asked = pool.submit(server.asked, "POST", "/calls", described(60_000))
            until(lambda: server.gauge("ends_waiting") == 1)
            server.process.terminate()
            status, _, text = asked.result(PATIENCE)
        self.assertEqual((status, json.loads(text)["status"], server.process.wait(PATIENCE)), (200, "Running", 0))
        server.stop()

    def test_no_more_wait_than_may(self):
        server = self.closing("--queue-limit", "1")
        with ThreadPoolExecutor(1) as pool:
            asked = pool.submit(server.asked, "POST", "/calls", described(60_000))
            until(lambda: server.gauge("ends_waiting") == 1)
            status, _, text = server.asked("POST", "/calls", described(60_000))
            self.assertEqual((status, json.loads(text)["error"]), (503, "Busy"))
            # One call at a time is taken, and the one that waits makes some too.
            until(lambda: server.asked("POST", "/calls", b'{"op":"signal","name":"close"}')[0] == 200)
            self.assertEqual(asked.result(PATIENCE)[0], 200)


@needs_server
@needs_program
class Results(WithAServer):
    def test_a_result_is_waited_for_at_the_server(self):
        server = self.serve("--shards", "2")
        client, faults = Client(server.client()), []
        client.service.start("w", "T")

        def wait():
            try:
                client.handle("w").result()
            except NotCompleted as fault:
                faults.append(str(fault))

        waiting = threading.Thread(target=wait)
        waiting.start()
        until(lambda: server.gauge("ends_waiting") == 1)
        server.client().terminate("w", reason="by hand")
        waiting.join(PATIENCE)
        self.assertEqual(faults, ["w: Terminated: by hand"])
        client.service.start("v", "T")
        begun = time.monotonic()
        with self.assertRaises(StillRunning):
            client.handle("v").result(timeout=1)
        self.assertGreaterEqual(time.monotonic() - begun, 0.5)


if __name__ == "__main__":
    unittest.main()
