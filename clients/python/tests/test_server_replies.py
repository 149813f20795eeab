"""Replies by a key: each call counts once and its reply can be had again, over restarts and kills, cuts and hang-ups.

WFSERVE_SEED draws other points, and WFSERVE_KILLS more of them.
"""

import http.client
import json
import os
import random
import re
import resource
import signal
import socket
import sys
import threading
import time
import unittest
from collections import Counter
from concurrent.futures import ThreadPoolExecutor

from support.programs import needs_program, needs_server
from support.served import program_of
from test_server import WithAServer

SEED = int(os.environ.get("WFSERVE_SEED", random.randrange(1 << 32)))
KILLS = int(os.environ.get("WFSERVE_KILLS", 12))
CLIENTS = 8
# No task's time is over, however long a server that is killed takes to be back.
HOUR = 3_600_000
JSON = {"Content-Type": "application/json"}


class Client:
    """Makes calls with keys until each is answered; a lost connection is nothing to it."""

    def __init__(self, server, draw):
        self._server, self._draw = server, draw
        self.again = 0

    def call(self, key, **request):
        """The reply, and its text."""
        body, late = json.dumps(request).encode(), time.monotonic() + 60
        while True:
            try:
                status, text = self._asked(key, body)
                if status == 200:
                    return json.loads(text), text
                if status not in (500, 503, 507):
                    raise AssertionError(f"{status}: {text}")
            except (OSError, http.client.HTTPException):
                pass
            if time.monotonic() > late:
                raise AssertionError(f"{key}: no answer in a minute")
            self.again += 1
            time.sleep(self._draw.random() / 50)

    def _asked(self, key, body):
        connection = http.client.HTTPConnection(self._server.host, self._server.port, timeout=60)
        try:
            connection.request("POST", "/calls", body, {**JSON, "Idempotency-Key": key})
            if self._draw.random() < 0.1:
                raise OSError("hung up before the answer")
            answer = connection.getresponse()
            return answer.status, answer.read()
        finally:
            connection.close()


@needs_server
@needs_program
class Disturbed(WithAServer):
    """Server and program are killed and hang at drawn points, and clients hang up: each call by key counts once."""

    def workflows(self, server, number, stop):
        """Starts workflows, takes tasks and completes them until it is told to stop. Its replies by their keys."""
        draw, had, count = random.Random(f"{SEED} {number}"), {}, 0
        client = Client(server, draw)

        def call(key, **request):
            reply, had[key] = client.call(key, **request)
            return reply

        while not stop.is_set():
            count += 1
            name = f"{number}-{count}"
            call(f"start-{name}", op="start", workflow_id=name, workflow_type="T", task_queue="main", task_timeout=HOUR)
            task = call(f"poll-{name}", op="poll_workflow_task", task_queue="main", wait=10_000)
            if task["ok"] == "task":
                done = {"type": "CompleteWorkflowExecution", "result": name}
                call(f"done-{name}", op="complete_workflow_task", token=task["token"], commands=[done])
        return had, client.again

    def disturb(self, server, draw, stop):
        """Kills the server or its program, takes the disk away from it, or has one of them hang for a while."""
        counts = Counter()
        for _ in range(KILLS):
            time.sleep(0.05 + draw.random() / 5)
            self.keep(server)
            kind = draw.choice(["server", "server", "program", "program", "disk", "hang"])
            counts[kind] += 1
            if kind == "server":
                server.kill()
                server.start()
            elif kind == "program":
                tell(program_of(server.process.pid), draw.choice([signal.SIGKILL, signal.SIGTERM]))
            elif kind == "disk":
                limit_files(server.process.pid, self.log.stat().st_size + draw.randrange(2_000))
                time.sleep(draw.random() / 5)
                limit_files(server.process.pid, resource.RLIM_INFINITY)
            else:
                hung = draw.choice([server.process.pid, program_of(server.process.pid)])
                tell(hung, signal.SIGSTOP)
                time.sleep(draw.random() / 5)
                tell(hung, signal.SIGCONT)
        time.sleep(0.5)
        stop.set()
        late = time.monotonic() + 60
        while not self.keep(server) and time.monotonic() < late:
            time.sleep(0.05)
        return ", ".join(f"{count} of {kind}" for kind, count in sorted(counts.items()))

    def keep(self, server):
        """Starts a server again that has ended: its program was killed each time before it had come back. Whether it serves."""
        if server.process.poll() is not None:
            server.process.stdout.close()
            server.start()
        try:
            return server.asked("GET", "/health/ready")[0] == 200
        except (OSError, http.client.HTTPException):
            return False

    def test_each_call_by_key_is_answered_once(self):
        print(f"\ndisturbed servers: seed {SEED}", file=sys.stderr)
        server, stop = self.serve("--shards", "2"), threading.Event()
        with ThreadPoolExecutor(CLIENTS + 1) as pool:
            working = [pool.submit(self.workflows, server, number, stop) for number in range(CLIENTS)]
            disturbances = self.disturb(server, random.Random(SEED), stop)
            found = [it.result() for it in working]
        had = {key: text for replies, _ in found for key, text in replies.items()}
        again = sum(count for _, count in found)
        print(f"disturbed servers: {disturbances}; {len(had)} calls, {again} made again", file=sys.stderr)
        self.assertGreater(again, KILLS)
        started = [json.loads(text) for key, text in had.items() if key.startswith("start")]
        self.assertEqual({reply["ok"] for reply in started}, {"started"})
        self.assertEqual(len({reply["run"] for reply in started}), len(started))
        tokens = [json.loads(text)["token"] for key, text in had.items() if b'"ok":"task"' in text]
        self.assertEqual(len(set(tokens)), len(tokens))
        for key, text in had.items():
            if key.startswith("done"):
                self.assertEqual(json.loads(text).get("ok"), "completed", (key, text))
        # The log itself says the same, by the keys that its lines bear, once for each call but for polls.
        server.stop()
        lines = self.log.read_bytes().splitlines()
        kept = [line for line in lines if b'"call":"start' in line or b'"call":"done' in line]
        self.assertEqual(len(kept), len({line.rpartition(b'"call":')[2].partition(b",")[0] for line in kept}))
        server.start()
        for key, text in random.Random(SEED).sample(sorted(had.items()), min(len(had), 50)):
            if b'"ok":"empty"' not in text:
                self.assertIn(text, self.again(server, key), key)

    def again(self, server, key):
        """What the server says once more, asked by any of the calls that the key may be of."""
        kind, name = key.split("-", 1)
        line = next(line for line in self.log.read_bytes().splitlines() if b'"call":"%s"' % key.encode() in line)
        request = json.loads(line.split(b" ", 2)[2])
        body = json.dumps({name: value for name, value in request.items() if name not in ("call", "at")})
        return server.asked("POST", "/calls", body, {"Idempotency-Key": key})[2].encode()


def tell(pid, number):
    """Sends a signal to a process that may be gone by now."""
    try:
        os.kill(pid, number)
    except (ProcessLookupError, TypeError):
        pass


def limit_files(pid, size):
    """Lets a process, which may be gone by now, write files of so many bytes."""
    try:
        resource.prlimit(pid, resource.RLIMIT_FSIZE, (size, resource.RLIM_INFINITY))
    except ProcessLookupError:
        pass


@needs_server
class Sockets(WithAServer):
    """Requests that come in pieces, are cut off, or come too slowly."""

    def request(self, name, key="k"):
        body = json.dumps({"op": "signal", "name": name}).encode()
        head = f"POST /calls HTTP/1.1\r\nHost: 127.0.0.1\r\nIdempotency-Key: {key}\r\n"
        return f"{head}Content-Type: application/json\r\nContent-Length: {len(body)}\r\n\r\n".encode() + body

    def answered(self, connection):
        """The status and the text of one answer."""
        data = b""
        while b"\r\n\r\n" not in data:
            piece = connection.recv(4_096)
            if not piece:
                return 0, data
            data += piece
        head, _, body = data.partition(b"\r\n\r\n")
        length = int(head.lower().split(b"content-length:")[1].split(b"\r\n")[0])
        while len(body) < length:
            body += connection.recv(4_096)
        return int(head.split()[1]), body

    def test_a_request_that_is_cut_at_any_byte_counts_once_or_not_at_all(self):
        server = self.serve(program=self.double())
        whole = self.request("cut")
        for size in range(len(whole)):
            with socket.create_connection((server.host, server.port)) as connection:
                connection.sendall(self.request("cut", f"k{size}")[:size])
        with socket.create_connection((server.host, server.port)) as connection:
            connection.sendall(self.request("after them"))
            self.assertEqual(self.answered(connection)[0], 200)
        self.assertNotIn(b'"cut"', self.log.read_bytes())
        self.assertEqual((server.stop(), server.said.read_text()), (0, ""))

    def test_a_request_may_come_byte_by_byte_and_several_at_once(self):
        server = self.serve(program=self.double())
        with socket.create_connection((server.host, server.port)) as connection:
            for byte in self.request("slowly", "a"):
                connection.sendall(bytes([byte]))
            self.assertEqual(self.answered(connection)[0], 200)
            connection.sendall(b"".join(self.request(f"number {number}", f"b{number}") for number in range(20)))
            with connection.makefile("rb") as answers:
                for number in range(20):
                    head = {}
                    self.assertIn(b"200", answers.readline())
                    while (line := answers.readline().strip()):
                        name, _, value = line.lower().partition(b":")
                        head[name] = value
                    said = json.loads(json.loads(answers.read(int(head[b"content-length"])))["said"])
                    self.assertEqual(said["name"], f"number {number}")

    def test_many_bad_calls_at_once_are_each_refused(self):
        server, count = self.serve(program=self.double()), 3_000
        bad = b"POST /calls HTTP/1.1\r\nHost: 127.0.0.1\r\nContent-Type: application/json\r\nContent-Length: 1\r\n\r\n{"
        with socket.create_connection((server.host, server.port), timeout=60) as connection:
            sending = threading.Thread(target=connection.sendall, args=(bad * count + self.request("last"),))
            sending.start()
            data = b""
            while b"signaled" not in data:
                data += connection.recv(1 << 16)
            sending.join()
        self.assertEqual((data.count(b"HTTP/1.1 400"), data.count(b"HTTP/1.1 200")), (count, 1))
        self.assertEqual((server.stop(), server.said.read_text()), (0, ""))

    def test_what_is_no_plain_call_is_answered_on_the_same_connection(self):
        """After a body in chunks the edge closes the connection: what is in front of it may have read another length."""
        server = self.serve(program=self.double())
        body = self.request("in chunks", "c").split(b"\r\n\r\n", 1)[1]
        head = b"POST /calls HTTP/1.1\r\nHost: 127.0.0.1\r\nContent-Type: application/json\r\n"
        with socket.create_connection((server.host, server.port), timeout=60) as connection:
            connection.sendall(self.request("first", "a"))
            self.assertEqual(self.answered(connection)[0], 200)
            connection.sendall(b"GET /health/live HTTP/1.1\r\nHost: 127.0.0.1\r\n\r\n")
            self.assertEqual(json.loads(self.answered(connection)[1]), {"status": "live"})
            connection.sendall(head + b"Transfer-Encoding: chunked\r\n\r\n%x\r\n%s\r\n0\r\n\r\n" % (len(body), body))
            self.assertEqual(self.answered(connection)[0], 200)
            self.assertEqual(connection.recv(1), b"")
        # Of two lengths the one in chunks counts, and nothing follows it on that connection.
        for lengths, status in (
            (b"Content-Length: 9\r\nTransfer-Encoding: chunked", 400), (b"Transfer-Encoding: chunked\r\nContent-Length: 9", 200),
        ):
            sent = head + lengths + b"\r\n\r\n%x\r\n%s\r\n0\r\n\r\n" % (len(body), body)
            with socket.create_connection((server.host, server.port), timeout=60) as connection:
                connection.sendall(sent + self.request("smuggled"))
                self.assertEqual((self.answered(connection)[0], connection.recv(1)), (status, b""))
            # What is not in chunks is no body: the connection ends, with a word or without.
            with socket.create_connection((server.host, server.port), timeout=60) as connection:
                connection.sendall(head + lengths + b"\r\n\r\n" + body)
                self.assertIn(self.answered(connection)[0], (0, 400))
        self.assertEqual((self.log.read_bytes().count(b'"name"'), self.log.read_bytes().count(b"smuggled")), (3, 0))

    def test_a_call_in_two_pieces_is_answered_as_a_whole_one(self):
        """Whether the second piece comes at once, or so late that hyper waits for it."""
        server, heads = self.serve(program=self.double()), set()
        for pause in (0, 0.2):
            with socket.create_connection((server.host, server.port), timeout=60) as connection:
                for number, cut in enumerate((1, 30, -5, 1_000)):
                    request, answer = self.request(f"piece {number}", f"k{number}-{pause}"), b""
                    connection.sendall(request[:cut])
                    time.sleep(pause)
                    connection.sendall(request[cut:])
                    while not answer.endswith(b"}"):
                        answer += connection.recv(4_096)
                    heads.add(re.sub(rb"(length|date): [^\r]*", rb"\1", answer.partition(b"\r\n\r\n")[0]))
        self.assertEqual((len(heads), self.log.read_bytes().count(b'"piece ')), (1, 8), heads)

    def test_keys_over_http(self):
        server = self.serve(program=self.double())

        def asked(name, key):
            return server.asked("POST", "/calls", f'{{"op":"signal","name":"{name}"}}', {"Idempotency-Key": key})

        first = asked("a", "k")
        self.assertEqual((first[0], asked("a", "k")[2]), (200, first[2]))
        self.assertEqual([asked("b", "k")[0], json.loads(asked("b", "k")[2])["error"]], [422, "KeyReused"])
        self.assertEqual(asked("b", "no key")[0], 400)
        server.kill()
        server.start()
        self.assertEqual(asked("a", "k")[2], first[2])
        self.assertEqual(asked("b", "k")[0], 422)

    def test_who_is_refused_for_now_is_told_when_to_come_again(self):
        server = self.serve("--queue-limit", "1", program=self.double())
        with ThreadPoolExecutor(6) as pool:
            body = b'{"op":"signal","name":"slow"}'
            answers = list(pool.map(lambda _: server.asked("POST", "/calls", body), range(6)))
        refused = [headers for status, headers, _ in answers if status == 503]
        self.assertGreater(len(refused), 0)
        self.assertEqual({headers["Retry-After"] for headers in refused}, {"1"})

    def test_what_is_counted(self):
        server = self.serve(program=self.double())
        client = server.client()
        for _ in range(3):
            client.signal("w", "s")
        server.asked("POST", "/calls", b'{"op":"signal","name":"a"}', {"Idempotency-Key": "k"})
        server.asked("POST", "/calls", b'{"op":"signal","name":"a"}', {"Idempotency-Key": "k"})
        for op in (7, 'a"} 1'):
            server.asked("POST", "/calls", json.dumps({"op": op}))
        status, headers, text = server.asked("GET", "/metrics")
        self.assertEqual((status, headers["Content-Type"].split(";")[0]), (200, "text/plain"))
        said = dict(line.rsplit(" ", 1) for line in text.splitlines() if not line.startswith("#"))
        self.assertEqual(said['wfserve_calls_total{op="signal",answer="ok"}'], "4")
        self.assertEqual(said['wfserve_calls_total{op="unknown",answer="ok"}'], "2")
        self.assertEqual((said["wfserve_replies_again_total"], said["wfserve_call_seconds_count"]), ("1", "6"))
        self.assertEqual((said["wfserve_ready"], said["wfserve_calls_waiting"]), ("1", "0"))
        self.assertGreaterEqual(float(said["wfserve_log_lines"]), 4)
        self.assertGreater(float(said["wfserve_program_bytes"]), 100_000)
        buckets = [int(value) for name, value in said.items() if name.startswith("wfserve_call_seconds_bucket")]
        self.assertEqual((buckets, buckets[-1]), (sorted(buckets), 6))


if __name__ == "__main__":
    unittest.main()
