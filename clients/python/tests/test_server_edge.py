"""The server's edge: health, how it stops, faults as JSON, tokens, names, and connections that say nothing."""

import json
import resource
import select
import socket
import sys
import threading
import time
import unittest
import urllib.parse
from concurrent.futures import ThreadPoolExecutor

from support.programs import BUILT, needs_program, needs_server
from support.served import PATIENCE, until
from test_server import TOKEN, WithAServer, posted

# Answers a history with an event that has nothing.
TOO_LITTLE = """
import json, sys
for number, line in enumerate(sys.stdin, 1):
    events = {"events": [{}]} if "history" in line else {}
    print(json.dumps({"line": number, "ok": "none", **events}), flush=True)
"""


def answer_on(connection):
    """The status and the JSON of the next answer on a connection."""
    data = b""
    while b"\r\n\r\n" not in data:
        data += connection.recv(4096)
    head, _, body = data.partition(b"\r\n\r\n")
    length = int(next(line.split(b":")[1] for line in head.split(b"\r\n") if line.lower().startswith(b"content-length")))
    while len(body) < length:
        body += connection.recv(4096)
    return int(head.split()[1]), json.loads(body)


@needs_server
class Health(WithAServer):
    def test_it_is_live_and_ready(self):
        server = self.serve(program=self.double())
        self.assertEqual(server.read("/health/live"), {"status": "live"})
        server.client().signal("w", "s")
        status, _, text = server.asked("GET", "/health/ready")
        said = json.loads(text)
        self.assertEqual((status, said["status"], said["clock_ahead"], said["queue_full"]), (200, "ready", 0, False))
        self.assertGreaterEqual(said["lines"], 1)

    def test_a_full_disk_is_said_until_there_is_room(self):
        # Its files may have so many bytes, and no more.
        server = self.serve("--read-timeout", "5", program=self.double())
        client = server.client()
        resource.prlimit(server.process.pid, resource.RLIMIT_FSIZE, (self.log.stat().st_size, resource.RLIM_INFINITY))
        status = server.asked("POST", "/calls", b'{"op":"signal","name":"x"}')[0]
        self.assertEqual((status, server.asked("GET", "/health/ready")[0]), (507, 503))
        self.assertEqual(server.read("/health/ready")["status"], "full")
        self.assertEqual(server.asked("POST", "/calls", b'{"op":"describe","workflow_id":"w"}')[0], 200)
        resource.prlimit(server.process.pid, resource.RLIMIT_FSIZE, (resource.RLIM_INFINITY, resource.RLIM_INFINITY))
        self.assertTrue(client.signal("w", "x"))
        self.assertEqual(server.asked("GET", "/health/ready")[0], 200)

    def test_health_wants_no_token_and_all_else_does(self):
        server = self.serve("--host", "0.0.0.0", "--token-file", self.token_file(), program=self.double())
        for path, status in (("/health/live", 200), ("/health/ready", 200), ("/health", 401), ("/api/workflows", 401)):
            self.assertEqual(server.asked("GET", path)[0], status, path)
        self.assertEqual(server.asked("POST", "/health/ready", b"{}")[0], 405)


@needs_server
class Stopped(WithAServer):
    def connected(self, server, call):
        connection = socket.create_connection((server.host, server.port), timeout=PATIENCE)
        self.addCleanup(connection.close)
        connection.sendall(posted(call))
        return connection

    def ready_on(self, connection):
        """The status, and whether calls are taken, as a connection is told that was there before."""
        connection.sendall(b"GET /health/ready HTTP/1.1\r\nHost: 127.0.0.1\r\n\r\n")
        status, said = answer_on(connection)
        return status, said["status"]

    def ended(self, server):
        """The status of a server that was told to stop."""
        status = server.process.wait(timeout=PATIENCE)
        server.stop()
        return status

    def test_calls_on_their_way_are_answered_and_polls_end(self):
        server = self.serve(program=self.double())
        slow = [self.connected(server, {"op": "signal", "name": f"slow {number}"}) for number in range(3)]
        poll = self.connected(server, {"op": "poll_activity_task", "task_queue": "main", "wait": 60_000})
        server.has_polls(1)
        until(lambda: self.log.read_bytes().count(b'"slow ') == 3)
        begun = time.monotonic()
        server.process.terminate()
        for connection in slow:
            status, reply = answer_on(connection)
            self.assertEqual((status, reply["ok"]), (200, "signaled"))
        self.assertEqual(answer_on(poll)[1]["ok"], "empty")
        self.assertEqual(self.ended(server), 0)
        self.assertLess(time.monotonic() - begun, 30)
        self.assertEqual(self.log.read_bytes().count(b'"slow '), 3)

    def test_while_it_stops_no_call_is_taken(self):
        server = self.serve(program=self.double())
        other = socket.create_connection((server.host, server.port), timeout=PATIENCE)
        self.addCleanup(other.close)
        other.sendall(posted({"op": "signal", "name": "before"}))
        self.assertEqual(answer_on(other)[0], 200)
        # These take some seconds.
        slow = [self.connected(server, {"op": "signal", "name": f"slow {number}"}) for number in range(16)]
        until(lambda: self.log.read_bytes().count(b'"slow ') == 16)
        server.process.terminate()
        until(lambda: self.ready_on(other) == (503, "draining"))
        other.sendall(posted({"op": "signal", "name": "late"}))
        status, said = answer_on(other)
        self.assertEqual((status, said["error"]), (503, "Draining"))
        self.assertEqual(self.ready_on(other), (503, "draining"))
        for connection in slow:
            self.assertEqual(answer_on(connection)[0], 200)
        self.assertEqual(self.ended(server), 0)
        self.assertNotIn(b'"late"', self.log.read_bytes())


@needs_server
class Answers(WithAServer):
    def test_faults_are_json(self):
        server = self.serve(program=self.double())
        for method, path, body, status, name in (
            ("GET", "/nothing", None, 404, "NotFound"), ("GET", "/page/../server.py", None, 404, "NotFound"),
            ("GET", "/calls", None, 405, "MethodNotAllowed"), ("PUT", "/calls", b"{}", 405, "MethodNotAllowed"),
            ("POST", "/calls", b" " * 1_048_577, 413, "RequestEntityTooLarge"),
            ("POST", "/compact", b" " * 1_048_577, 413, "RequestEntityTooLarge"),
        ):
            answer = server.asked(method, path, body)
            self.assertEqual((answer[0], json.loads(answer[2])["error"]), (status, name), path)
            self.assertTrue(answer[1]["Content-Type"].startswith("application/json"))

    def test_a_fault_of_the_server_is_json_and_said(self):
        """The page is a process of its own, and says its faults by the edge."""
        path = self.folder / "says too little"
        path.write_text(f"#!{sys.executable}\n{TOO_LITTLE}", encoding="utf-8")
        path.chmod(0o755)
        server = self.serve(program=str(path))
        status, _, text = server.asked("GET", "/workflows/w/00000000-0001-8000-8000-000000000001/picture.svg")
        self.assertEqual((status, json.loads(text)["error"]), (500, "Fault"))
        self.assertIn("picture.svg", server.said.read_text())
        self.assertEqual(server.asked("GET", "/health/live")[0], 200)

    def test_a_log_is_compacted_by_json_alone(self):
        server = self.serve(program=self.double())
        self.assertEqual(server.asked("POST", "/compact", b"", {"Content-Type": "text/plain"})[0], 415)
        self.assertEqual(server.asked("GET", "/compact")[0], 405)

    def test_names_and_schemes_in_any_case(self):
        server = self.serve(program=self.double())
        for host, status in (
            ("LOCALHOST", 200), (f"LocalHost:{server.port}", 200), ("127.0.0.1", 200), ("EVIL.test", 403),
            ("127.0.0.1.evil.test", 403),
            ("127.0.0.1:80@evil.test", 403), ("evil.test:127.0.0.1", 403), ("", 403),
        ):
            self.assertEqual(server.asked("GET", "/api/workflows", headers={"Host": host})[0], status, host)
        server.stop()
        server = self.serve("--token-file", self.token_file(), program=self.double())
        self.assertEqual(server.asked("GET", "/", headers={"Host": "localhost:no port"})[0], 403)
        for scheme, status in (("Bearer", 200), ("bearer", 200), ("BEARER", 200), ("Basic", 401), ("", 401)):
            self.assertEqual(server.asked("GET", "/", headers={"Authorization": f"{scheme} {TOKEN}"})[0], status, scheme)

    def test_a_token_is_sent_to_no_other_server(self):
        server = self.serve("--token-file", self.token_file(), program=self.double())
        word = urllib.parse.quote(TOKEN)
        for path in ("//evil.test/", "///evil.test/", "/\\evil.test/", "/%5cevil.test/", "//evil.test:80/x", "/workflows/a/b"):
            status, headers, _ = server.asked("GET", f"{path}?token={word}")
            self.assertIn(status, (303, 400), path)
            if status == 303:
                self.assertRegex(headers["Location"], r"^/[^/\\]", path)

    def test_a_body_that_does_not_come_is_waited_for_only_so_long(self):
        server = self.serve("--read-timeout", "5", program=self.double())
        connections = [socket.create_connection((server.host, server.port), timeout=60) for _ in range(20)]
        for number, connection in enumerate(connections):
            self.addCleanup(connection.close)
            connection.sendall((b"", posted({"op": "signal"})[:-3])[number % 2])
        self.assertTrue(server.client().signal("w", "beside them"))
        # None of them is told anything yet.
        self.assertEqual(select.select(connections, [], [], 0)[0], [])
        # Half of them never said what they want, the others never all of it.
        self.assertEqual([self.end_of(it) for it in connections], [b"", b"HTTP/1.1 408"] * 10)

    def end_of(self, connection):
        try:
            return connection.recv(12)
        except ConnectionResetError:
            return b""


@needs_server
@needs_program
class CompactedByCommand(WithAServer):
    def test_a_compaction_is_finished_before_the_server_ends(self):
        path, goes_on = self.folder / "writes slowly", self.folder / "goes on"
        path.write_text(
            f'#!/bin/sh\ncase "$*" in *--snapshot*) while [ ! -e "{goes_on}" ]; do sleep 0.02; done;; esac\nexec {BUILT} "$@"\n')
        path.chmod(0o755)
        server = self.serve(program=str(path))
        server.client().start("w", "T")
        with ThreadPoolExecutor(1) as pool:
            asked = pool.submit(server.asked, "POST", "/compact", b"{}")
            until(lambda: server.read("/health/ready")["compacting"])
            server.process.terminate()
            goes_on.touch()
            self.assertEqual(asked.result()[0], 200)
        self.assertEqual(server.process.wait(timeout=PATIENCE), 0)
        server.stop()
        server.start()
        self.assertEqual([row["workflow_id"] for row in server.read("/api/workflows")["workflows"]], ["w"])

    def test_queues_get_room_while_they_are_served_and_when_a_log_is_opened(self):
        """Snapshots are never refused for what waits, so queues get room only where that is asked."""
        server = self.serve("--shards", "2", "--queues", "main,more", "--capacity", "2")
        client = server.client()
        for number in range(8):
            client.start(f"w{number}", "T")
        for body in (b"", b"[]", b'{"capacity":true}', b'{"capacity":-1}', b'{"capacity":65537}', b'{"capacity":"8"}', b"[" * 100_000):
            self.assertEqual(server.asked("POST", "/compact", body)[0], 400, body[:40])
        for body, capacity in ((b"{}", 2), (b'{"capacity":32}', 32), (b'{"capacity":16}', 32)):
            status, _, text = server.asked("POST", "/compact", body)
            self.assertEqual((status, json.loads(text)["capacity"]), (200, capacity), text)
        server.stop()
        # What isn't named is the log's own.
        other = self.serve("--capacity", "64")
        self.assertEqual(json.loads(other.asked("POST", "/compact", b"{}")[2])["capacity"], 64)
        found = {other.client(wait=20_000).poll_workflow_task().workflow_id for _ in range(8)}
        self.assertEqual(found, {f"w{number}" for number in range(8)})
        other.stop()
        with self.assertRaisesRegex(AssertionError, "the log's shards is 2, and not 1"):
            self.serve("--shards", "1")

    def test_a_log_is_compacted_while_it_is_served(self):
        server, stop, wrong = self.serve(), threading.Event(), []

        def calls(thread):
            client, number = server.client(), 0
            while not stop.is_set():
                number += 1
                try:
                    client.call("signal_with_start", workflow_id=f"w{thread}", workflow_type="T", task_queue="main",
                                name=str(number), request_id=f"{thread} {number}")
                except Exception as fault:
                    wrong.append(fault)
                    return
            counts[thread] = number

        counts = [0] * 4
        threads = [threading.Thread(target=calls, args=(thread,)) for thread in range(4)]
        for thread in threads:
            thread.start()
        for _ in range(3):
            status, _, text = server.asked("POST", "/compact", b"{}")
            self.assertEqual((status, json.loads(text)["ok"]), (200, "compacted"))
        stop.set()
        for thread in threads:
            thread.join()
        self.assertEqual(wrong, [])
        client = server.client()
        for thread, count in enumerate(counts):
            names = [e["attrs"]["name"] for e in client.history(f"w{thread}") if e["type"] == "WorkflowExecutionSignaled"]
            self.assertEqual(names, [str(number + 1) for number in range(count)])


if __name__ == "__main__":
    unittest.main()
