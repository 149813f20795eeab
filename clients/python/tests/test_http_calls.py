"""The client over HTTP: which calls it makes again, for how long, and what it keeps open."""

import http.server
import itertools
import json
import threading
import time
import unittest
from unittest import mock

from support.programs import has_loopback
from support.served import until
from wfserve import http as http_calls
from wfserve.calls import Task
from wfserve.errors import CallLost, NotServed, Refused, Unavailable
from wfserve.http import HttpService

TASK = Task({"token": "T", "run": "r", "workflow_id": "w", "attempt": 1})
DROPPED = "dropped"


class Scripted(http.server.BaseHTTPRequestHandler):
    """Answers each call as the server's script says; after its end, that it was signaled."""

    protocol_version = "HTTP/1.1"

    def do_POST(self):
        self.server.asked.append(json.loads(self.rfile.read(int(self.headers["Content-Length"]))))
        self.server.keys.append(self.headers["Idempotency-Key"])
        answer = self.server.script.pop(0) if self.server.script else {"ok": "signaled"}
        if answer == DROPPED:
            self.close_connection = True
            return
        status, body = (answer, b"away") if isinstance(answer, int) else (200, json.dumps({"line": 1, **answer}).encode())
        self.send_response(status)
        self.send_header("Content-Length", str(len(body)))
        self.end_headers()
        self.wfile.write(body)

    def log_message(self, *_):
        pass


@unittest.skipUnless(has_loopback(), "no loopback")
class HttpCalls(unittest.TestCase):
    def setUp(self):
        self.server = http.server.ThreadingHTTPServer(("127.0.0.1", 0), Scripted)
        self.server.daemon_threads = True
        self.server.script, self.server.asked, self.server.keys = [], [], []
        serving = threading.Thread(target=self.server.serve_forever, args=(0.02,), daemon=True)
        serving.start()
        self.addCleanup(self.server.server_close)
        self.addCleanup(self.server.shutdown)
        self.service = self.client()

    def client(self, **more):
        client = HttpService(f"http://127.0.0.1:{self.server.server_port}", **more)
        self.addCleanup(client.close)
        return client

    def answers(self, *script):
        self.server.script[:], self.server.asked[:], self.server.keys[:] = script, [], []

    def test_what_counts_once_is_made_again_until_it_is_answered(self):
        calls = {
            "signal": lambda: self.service.signal("w", "go", request_id="r"),
            "start": lambda: self.service.start("w", "T", request_id="r"),
            "complete_workflow_task": lambda: self.service.complete_workflow_task(TASK, []),
            "fail_workflow_task": lambda: self.service.fail_workflow_task(TASK, "no"),
            "complete_activity": lambda: self.service.complete_activity(TASK, "1"),
            "fail_activity": lambda: self.service.fail_activity(TASK, "no"),
            "cancel_activity": lambda: self.service.cancel_activity(TASK),
            "heartbeat": lambda: self.service.heartbeat(TASK),
            "describe": lambda: self.service.describe("w"),
            "history": lambda: self.service.history("w"),
        }
        reply = {"ok": "signaled", "run": "r", "cancel_requested": False, "events": []}
        for op, call in calls.items():
            for away in ((DROPPED, 503), (500, 502), (504, 507)):
                with self.subTest(op, away=away):
                    self.answers(*away, reply)
                    call()
                    self.assertEqual([request["op"] for request in self.server.asked], [op] * 3)
                    self.assertEqual(self.server.asked[0], self.server.asked[2])

    def test_what_could_count_twice_is_made_once(self):
        for call in (
            lambda: self.service.signal("w", "go"), lambda: self.service.terminate("w"),
        ):
            self.answers(DROPPED)
            with self.assertRaises(CallLost):
                call()
            self.answers(503)
            with self.assertRaises(NotServed):
                call()
            self.assertEqual(len(self.server.asked), 1)

    def test_a_poll_is_made_again_with_its_key(self):
        for poll in (self.service.poll_activity_task, self.service.poll_workflow_task):
            for away in ((DROPPED, 503), (500, DROPPED)):
                self.answers(*away, {"ok": "empty"}, {"ok": "empty"})
                self.assertIsNone(poll())
                self.assertIsNone(poll())
                self.assertEqual(len(self.server.asked), 4)
                first, again, last, other = self.server.keys
                self.assertEqual((first, first), (again, last))
                self.assertNotIn(other, (None, first))
        self.answers({"ok": "signaled"})
        self.service.signal("w", "go", request_id="r")
        self.assertEqual(self.server.keys, [None])

    def test_what_is_refused_is_not_made_again(self):
        for status in (400, 401, 413):
            self.answers(status)
            with self.assertRaises(NotServed) as refused:
                self.service.complete_activity(TASK)
            self.assertFalse(refused.exception.passes)
            self.assertEqual(len(self.server.asked), 1)
        self.answers({"error": "NotFound"})
        with self.assertRaises(Refused):
            self.service.complete_activity(TASK)

    def test_patience_ends(self):
        service = self.client(patience=2)
        self.answers(*[503] * 1_000)
        begun = time.monotonic()
        with self.assertRaises(NotServed):
            service.complete_activity(TASK)
        self.assertLess(time.monotonic() - begun, 30)
        self.assertIn(len(self.server.asked), range(2, 60))

    def test_an_activity_does_not_wait_long_for_its_heartbeat(self):
        self.answers(*[503] * 1_000)
        begun = time.monotonic()
        with self.assertRaises(NotServed):
            self.service.heartbeat(TASK)
        self.assertLess(time.monotonic() - begun, http_calls.HEARTBEAT_PATIENCE + 30)

    def test_pauses_grow_up_to_the_longest_and_are_not_all_the_same(self):
        for drawn, share in ((0.0, 0.5), (1.0, 1.0)):
            with mock.patch("random.random", lambda: drawn):
                found = list(itertools.islice(http_calls.pauses(1, 5), 5))
            self.assertEqual(found, [share * pause for pause in (1, 2, 4, 5, 5)])

    def test_closing_ends_what_is_made_again(self):
        self.answers(*[503] * 1_000)
        faults = []

        def call():
            try:
                self.service.complete_activity(TASK)
            except Unavailable as fault:
                faults.append(fault)

        calling = threading.Thread(target=call)
        calling.start()
        until(lambda: self.server.asked)
        self.service.close()
        calling.join(60)
        self.assertEqual(len(faults), 1)

    def test_what_http_client_meets_in_a_closed_connection_is_a_lost_call(self):
        for met in (AttributeError("'NoneType' object has no attribute 'close'"), ValueError("I/O operation on closed file")):
            with mock.patch("wfserve.http.answer_to", side_effect=met):
                with self.assertRaises(type(met)):
                    self.service.complete_activity(TASK)
                self.service.give_up()
                with self.assertRaises(CallLost):
                    self.service.complete_activity(TASK)
            self.service._hopeless.clear()

    def test_connections_that_were_lost_are_not_kept(self):
        self.answers(*[DROPPED] * 5)
        self.service.signal("w", "go", request_id="r")
        self.assertEqual(len(self.service._open), 1)


if __name__ == "__main__":
    unittest.main()
