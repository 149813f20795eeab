"""JSON lines on a Unix socket: their order, keys, faults, and clients that are cut off, hang up or never read."""

import json
import os
import pathlib
import signal as signals
import socket
import stat
import time
import unittest
from concurrent.futures import ThreadPoolExecutor

from the_edge import needs_edge

from support.programs import BUILT, needs_program
from support.served import PATIENCE, until
from test_server import WithAServer


class WithASocket(WithAServer):
    def setUp(self):
        super().setUp()
        self.path = str(self.folder / "lines")

    def served(self, *options, program=None):
        return self.serve("--socket", self.path, *options, program=program or self.double())

    def connected(self):
        connection = socket.socket(socket.AF_UNIX)
        self.addCleanup(connection.close)
        connection.settimeout(PATIENCE)
        connection.connect(self.path)
        return connection

    def asked(self, *requests):
        """The replies to requests of a connection of their own."""
        return answers(self.connected(), *requests)


def answers(connection, *requests):
    """The replies to requests, which are sent at once."""
    connection.sendall(b"".join(json.dumps(request).encode() + b"\n" for request in requests))
    replies = connection.makefile("rb")
    return [json.loads(replies.readline()) for _ in requests]


def signal(name, **more):
    return {"op": "signal", "name": name, **more}


@needs_edge
class Lines(WithASocket):
    def test_replies_come_in_the_order_of_the_calls(self):
        self.served()
        replies = self.asked(*[signal(f"number {number}") for number in range(500)])
        self.assertEqual([json.loads(reply["said"])["name"] for reply in replies], [f"number {n}" for n in range(500)])

    def test_a_key_is_a_member_and_stays_in_the_line(self):
        server = self.served()
        first = self.asked(signal("a", call="k"))
        self.assertEqual(self.asked(signal("a", call="k"), signal("a", call="k")), first * 2)
        said = json.loads(first[0]["said"])
        self.assertEqual((said["call"], list(said)), ("k", ["op", "name", "call", "at"]))
        self.assertEqual(server.asked("POST", "/calls", b'{"op": "signal", "name": "a"}', {"Idempotency-Key": "k"})[0], 422)
        server.kill()
        server.start()
        self.assertEqual(self.asked(signal("a", call="k")), first)

    def test_faults_have_a_status(self):
        self.served()
        connection = self.connected()
        connection.sendall(b'{"op":"signal","name":"a","name":"b"}\n[1]\n{\n\n')
        wrong = answers(connection, signal("a", call=7), signal("a", call="no key"), signal("good"))
        replies = [wrong.pop(0) for _ in range(3)]
        replies += wrong
        self.assertEqual([reply["status"] for reply in replies], [400] * 3)
        self.assertIn("comes twice", replies[0]["said"])

    def test_lines_that_are_refused_at_once_are_all_answered(self):
        """None of them is answered later, so nothing else has the rest of them read."""
        server = self.served()
        for count, length in ((140, 1_000), (150, 1_000), (50_000, 0)):
            connection = self.connected()
            with ThreadPoolExecutor(1) as pool:
                # All that its socket holds is there before any of it is read.
                server.process.send_signal(signals.SIGSTOP)
                sending = pool.submit(connection.sendall, (b"[" + b" " * length + b"]\n") * count)
                time.sleep(0.2)
                server.process.send_signal(signals.SIGCONT)
                replies = connection.makefile("rb")
                self.assertEqual({json.loads(replies.readline())["status"] for _ in range(count)}, {400})
                sending.result()
        self.assertEqual(self.asked(signal("after them"))[0]["ok"], "signaled")

    def test_a_line_that_is_too_long_ends_its_connection(self):
        self.served()
        connection = self.connected()
        # It is told so, also where it sends on.
        connection.sendall(b"{" + b" " * 3_000_000)
        data = connection.makefile("rb").read()
        self.assertEqual(json.loads(data)["status"], 400)
        self.assertEqual(self.asked(signal("after it"))[0]["ok"], "signaled")

    def test_a_line_that_is_cut_at_any_byte_is_no_call(self):
        server, whole = self.served(), json.dumps(signal("cut")).encode()
        for size in range(len(whole) + 1):
            self.connected().sendall(whole[:size])
        self.asked(signal("after them"))
        self.assertEqual(server.stop(), 0)
        self.assertNotIn(b'"cut"', self.log.read_bytes())

    def test_the_socket_is_its_owners_and_goes_with_the_edge(self):
        server = self.served()
        self.assertEqual(stat.S_IMODE(os.stat(self.path).st_mode), 0o600)
        self.log = self.folder / "other.log"
        with self.assertRaisesRegex(AssertionError, "lines: Address already in use|lines: Address in use"):
            self.served()
        server.kill()
        self.assertTrue(os.path.exists(self.path))
        self.log = self.folder / "third.log"
        other = self.served()
        self.assertEqual(self.asked(signal("a"))[0]["ok"], "signaled")
        self.assertEqual((other.stop(), os.path.exists(self.path)), (0, False))

    def test_a_file_that_is_no_socket_is_left(self):
        pathlib.Path(self.path).write_text("mine", encoding="utf-8")
        with self.assertRaises(AssertionError):
            self.served()
        self.assertEqual(pathlib.Path(self.path).read_text(encoding="utf-8"), "mine")

    def test_many_calls_are_taken_before_an_answer_is_read(self):
        """More than both directions of a socket hold: the edge reads on where it can't write."""
        self.served()
        calls = [signal(f"{number} {'x' * 30_000}") for number in range(128)]
        replies = answers(self.connected(), *calls)
        self.assertEqual([json.loads(reply["said"])["name"] for reply in replies], [call["name"] for call in calls])

    def test_a_client_that_never_reads_holds_nobody_up(self):
        server = self.served()
        silent = [self.connected() for _ in range(3)]
        for connection in silent:
            connection.settimeout(0.3)
            with self.assertRaises(TimeoutError):
                while True:
                    connection.sendall(json.dumps(signal("x" * 1_000)).encode() + b"\n")
        begun = time.monotonic()
        self.assertEqual(self.asked(signal("beside them"))[0]["ok"], "signaled")
        self.assertLess(time.monotonic() - begun, 30)
        status = pathlib.Path(f"/proc/{server.process.pid}/status").read_text(encoding="utf-8")
        self.assertLess(int(status.split("VmRSS:")[1].split()[0]), 200_000)

    def test_calls_on_their_way_are_answered_where_it_is_told_to_stop(self):
        server = self.served()
        connection = self.connected()
        connection.sendall(b"".join(json.dumps(signal(f"slow {n}")).encode() + b"\n" for n in range(3)))
        poll = self.connected()
        poll.sendall(json.dumps({"op": "poll_activity_task", "task_queue": "main", "wait": 60_000}).encode() + b"\n")
        server.has_polls(1)
        until(lambda: self.log.read_bytes().count(b'"slow ') == 3)
        server.process.terminate()
        replies = connection.makefile("rb")
        self.assertEqual([json.loads(replies.readline())["ok"] for _ in range(3)], ["signaled"] * 3)
        self.assertEqual(json.loads(poll.makefile("rb").readline())["ok"], "empty")
        self.assertEqual(server.process.wait(timeout=PATIENCE), 0)
        server.stop()


@needs_edge
@needs_program
class Polls(WithASocket):
    def test_a_poll_gets_a_task_and_others_on_its_connection_follow(self):
        server = self.served(program=str(BUILT))
        poll = self.connected()
        asked = [{"op": "poll_workflow_task", "task_queue": "main", "wait": 60_000}, {"op": "describe", "workflow_id": "w"}]
        poll.sendall(b"".join(json.dumps(request).encode() + b"\n" for request in asked))
        server.has_polls(1)
        until(lambda: 'op="describe"' in server.asked("GET", "/metrics")[2])
        start = {"op": "start", "workflow_id": "w", "workflow_type": "T", "task_queue": "main"}
        self.assertEqual(self.asked(start)[0]["ok"], "started")
        replies = poll.makefile("rb")
        self.assertEqual(json.loads(replies.readline())["ok"], "task")
        # The description was asked before the workflow was started.
        self.assertEqual(json.loads(replies.readline())["error"], "NotFound")

    def test_a_client_that_ends_its_calls_waits_for_their_answers(self):
        self.served(program=str(BUILT))
        poll = self.connected()
        poll.sendall(json.dumps({"op": "poll_workflow_task", "task_queue": "main", "wait": 700}).encode() + b"\n")
        poll.shutdown(socket.SHUT_WR)
        self.assertEqual(json.loads(poll.makefile("rb").read())["ok"], "empty")

    def test_a_poll_of_a_client_that_hung_up_takes_no_task(self):
        server = self.served(program=str(BUILT))
        gone = self.connected()
        gone.sendall(json.dumps({"op": "poll_workflow_task", "task_queue": "main", "wait": 60_000}).encode() + b"\n")
        server.has_polls(1)
        gone.close()
        start = {"op": "start", "workflow_id": "w", "workflow_type": "T", "task_queue": "main"}
        task = {"op": "poll_workflow_task", "task_queue": "main", "wait": 20_000}
        self.assertEqual([reply["ok"] for reply in self.asked(start, task)], ["started", "task"])


if __name__ == "__main__":
    unittest.main()
