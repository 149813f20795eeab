"""What the compiled edge refuses by name, its page as a process beside it, and how it stops."""

import contextlib
import hashlib
import json
import os
import pathlib
import signal
import socket
import subprocess
import tempfile
import time
import unittest

from the_edge import HERE, WFEDGE, needs_edge, program_of

from support.programs import BUILT, needs_program
from test_server import TOKEN, WithAServer

CALL = b'{"op":"signal","name":"a"}'
HOUR = 3_600_000
# So many bytes a request's head may have.
HEAD = 16_384
# So many seconds a process may take that does its work at once where the machine has nothing else to do.
PATIENCE = 60


def answer_to(server, data):
    """The status and the text of the answer to bytes, on a connection of its own."""
    with socket.create_connection((server.host, server.port), timeout=PATIENCE) as connection:
        connection.sendall(data)
        text = b""
        while (piece := connection.recv(1 << 16)):
            text += piece
    head, _, body = text.partition(b"\r\n\r\n")
    return int(head.split()[1]) if head else 0, body.decode()


def posted(body, *headers, path="/calls", length=None):
    """A request with these headers."""
    lines = [f"POST {path} HTTP/1.1", "Connection: close", f"Content-Length: {len(body) if length is None else length}", *headers]
    return "\r\n".join(lines).encode() + b"\r\n\r\n" + body


@needs_edge
class Refused(WithAServer):
    HOST, JSON = "Host: 127.0.0.1", "Content-Type: application/json"

    def test_what_a_page_of_another_site_could_send_is_refused_by_name(self):
        server = self.serve(program=self.double())
        for headers, status, name in (
            ((self.HOST, self.JSON), 200, "signaled"),
            ((self.HOST, "Content-Type: text/plain"), 415, "NotJson"),
            ((self.HOST, "Content-Type: application/x-www-form-urlencoded"), 415, "NotJson"),
            ((self.HOST,), 415, "NotJson"),
            (("Host: evil.test", self.JSON), 403, "WrongHost"),
            ((self.JSON,), 403, "WrongHost"),
            ((self.HOST, "Host: evil.test", self.JSON), 403, "WrongHost"),
        ):
            self.assertEqual((status, name in (text := answer_to(server, posted(CALL, *headers))[1])), (status, True), text)
        status, text = answer_to(server, posted(CALL, self.HOST, self.JSON, path="http://evil.test/calls"))
        self.assertEqual((status, json.loads(text)["error"]), (403, "WrongHost"))

    def test_bodies_that_two_readers_could_take_in_two_ways_are_refused(self):
        server = self.serve(program=self.double())
        deep = "[" * 22 + "]" * 22
        for body, said in (
            ('{"op":"signal","name":"a","name":"b"}', "comes twice"),
            ('{"op":"signal","name":"a","n\\u0061me":"b"}', "comes twice"),
            ('{"op":"complete_workflow_task","commands":[{"type":"a","type":"b"}]}', "comes twice"),
            (f'{{"op":"signal","input":{deep}}}', "20 deep"),
            ('{"op":"signal","input":NaN}', "no JSON"),
            ('{"op":"signal"}{"op":"signal"}', "no JSON"),
            ('[{"op":"signal"}]', "no object"),
        ):
            status, _, text = server.asked("POST", "/calls", body.encode())
            self.assertEqual((status, json.loads(text)["error"], said in text), (400, "BadCall", True), text)
        self.assertNotIn(b'"signal"', self.log.read_bytes())

    def test_it_is_refused_by_name_on_the_paths_of_operations_and_blobs_too(self):
        server = self.serve(program=self.double())
        deep, name = "[" * 22 + "]" * 22, "0" * 64
        plain, evil = "Content-Type: text/plain", "Host: evil.test"
        for method, path, headers, body, status, said in (
            ("POST", "/calls/signal", (self.HOST, plain), b'{"name":"a"}', 415, "NotJson"),
            ("POST", "/calls/signal", (evil, self.JSON), b'{"name":"a"}', 403, "WrongHost"),
            ("POST", "/calls/signal", (self.HOST, self.JSON), b'{"name":"a","name":"b"}', 400, "comes twice"),
            ("POST", "/calls/signal", (self.HOST, self.JSON), b'{"op":"signal","name":"a"}', 400, "comes twice"),
            ("POST", "/calls/signal", (self.HOST, self.JSON), f'{{"input":{deep}}}'.encode(), 400, "20 deep"),
            ("POST", "/calls/signal", (self.HOST, self.JSON), b" " * 1_048_577, 413, "RequestEntityTooLarge"),
            ("PUT", f"/blobs/{name}", (evil, self.JSON), b"text", 403, "WrongHost"),
            ("PUT", f"/blobs/{name}", (self.HOST, self.JSON), b"x" * 2_097_153, 413, "BlobTooLarge"),
        ):
            asked = posted(body, *headers, path=path).replace(b"POST", method.encode(), 1)
            found, text = answer_to(server, asked)
            self.assertEqual((found, said in text), (status, True), text)
        self.assertNotIn(b'"signal"', self.log.read_bytes())
        self.assertFalse(pathlib.Path(f"{self.log}.blobs").exists())

    def test_what_is_cut_at_any_byte_counts_once_or_not_at_all(self):
        server, text = self.serve(program=self.double()), b"a text that is put"
        path = f"/blobs/{hashlib.sha256(text).hexdigest()}"
        put = posted(text, self.HOST, path=path).replace(b"POST", b"PUT", 1)
        for whole in (posted(b'{"name":"cut"}', self.HOST, self.JSON, path="/calls/signal"), put):
            for size in range(len(whole)):
                with socket.create_connection((server.host, server.port), timeout=PATIENCE) as connection:
                    connection.sendall(whole[:size])
        self.assertEqual(server.asked("POST", "/calls/signal", b'{"name":"after them"}')[0], 200)
        self.assertEqual(server.asked("GET", path)[0], 404)
        self.assertNotIn(b'"cut"', self.log.read_bytes())
        self.assertEqual(answer_to(server, put)[0], 200)
        self.assertEqual((server.asked("GET", path)[0], server.stop(), server.said.read_text()), (200, 0, ""))

    def test_heads_that_are_too_long_or_no_http_are_refused(self):
        server = self.serve(program=self.double())
        begun = posted(CALL, self.HOST, self.JSON, "X: ")
        room = HEAD - (len(begun) - len(CALL))
        for more, status in ((0, 200), (1, 431), (100, 431), (60_000, 431), (200_000, 431)):
            asked = posted(CALL, self.HOST, self.JSON, "X: " + "x" * (room + more))
            self.assertEqual(answer_to(server, asked)[0], status, more)
        said = json.loads(answer_to(server, posted(CALL, self.HOST, self.JSON, "X: " + "x" * (room + 1)))[1])
        self.assertEqual(said["error"], "HeadTooLong")
        for data in (b"PRI * HTTP/2.0\r\n\r\nSM\r\n\r\n", b"\x16\x03\x01\x00\r\n\r\n", b"GET / HTTP/9.9\r\n\r\n"):
            self.assertIn(answer_to(server, data)[0], (0, 400), data)
        self.assertEqual(server.asked("POST", "/calls", CALL)[0], 200)

    def test_what_the_page_asks_nobody_else_may(self):
        server = self.serve(program=self.double())
        for path in ("/feed?from=0", "/records"):
            self.assertEqual(server.asked("GET", path)[0], 404, path)

    def test_a_token_is_wanted_of_the_page_too(self):
        server = self.serve("--host", "0.0.0.0", "--token-file", self.token_file(), program=self.double())
        self.assertEqual(server.asked("GET", "/api/workflows")[0], 401)
        bearer = {"Authorization": f"Bearer {TOKEN}"}
        self.assertEqual(server.asked("GET", "/api/workflows", headers=bearer)[0], 200)

    def test_options_that_are_wrong_are_named(self):
        for words, said in (
            (["--port", "x", "--program", "p"], "--port takes a whole number"),
            (["--nothing", "x"], "there is no option --nothing"), ([], "--program is missing"),
            (["--program", str(self.folder / "none"), "--port", "0"], "the program refuses --shards 1"),
        ):
            ran = subprocess.run([str(WFEDGE), *words], capture_output=True, text=True, timeout=PATIENCE)
            self.assertEqual((ran.returncode, ran.stdout), (2, ""))
            self.assertIn(said, ran.stderr)


def children_of(pid):
    found = []
    for children in pathlib.Path(f"/proc/{pid}/task").glob("*/children"):
        # A thread may have ended meanwhile.
        with contextlib.suppress(OSError):
            found += [int(child) for child in children.read_text(encoding="utf-8").split()]
    return found


def is_page(pid):
    try:
        words = pathlib.Path(f"/proc/{pid}/cmdline").read_bytes()
        # A process that is just being started has the edge's own words.
        return b"page.py" in words and b"--program" not in words
    except OSError:
        return False


def page_of(pid, former=None):
    """The page of an edge that was asked for one, once it is there, and is another one than this."""
    late = time.monotonic() + PATIENCE
    while time.monotonic() < late:
        for child in children_of(pid):
            if is_page(child) and child != former:
                return child
        time.sleep(0.05)
    raise AssertionError("there is no page")


def end_page(pid):
    """Kills the page of an edge, and returns once another one is started."""
    former = page_of(pid)
    os.kill(former, signal.SIGKILL)
    page_of(pid, former)


@needs_edge
@needs_program
class PageProcess(WithAServer):
    def rows(self, server):
        return [row["workflow_id"] for row in server.read("/api/workflows")["workflows"]]

    def test_a_page_that_ends_is_started_again_and_knows_all(self):
        server = self.serve("--shards", "2")
        client = server.client()
        for number in range(3):
            client.start(f"before-{number}", "T")
        server.asked("POST", "/compact", b"{}")
        server.kill()
        server.start()
        client.start("after", "T", request_id="after")
        self.assertEqual(sorted(self.rows(server)), ["after", "before-0", "before-1", "before-2"])
        end_page(server.process.pid)
        client.signal("after", "s", request_id="s")
        self.assertEqual(sorted(self.rows(server)), ["after", "before-0", "before-1", "before-2"])
        self.assertIn("the page ended", server.said.read_text())

    def test_attempts_are_shown_also_by_an_edge_or_a_page_that_was_started_anew(self):
        """And after compactions: snapshots have no messages of failures."""
        server = self.serve("--compact-bytes", "0")
        client = server.client(wait=20_000)
        run = client.start("w", "T", task_timeout=HOUR)
        task = client.poll_workflow_task()
        charge = {"type": "ScheduleActivityTask", "activity_id": "charge", "activity_type": "Charge", "task_queue": "main",
                  "start_to_close": HOUR, "retry": {"initial": HOUR, "coefficient": 100, "attempts": 3}}
        other = {**charge, "activity_id": "other"}
        client.call("complete_workflow_task", token=task.token, commands=[charge, other])
        tokens = {}
        for _ in range(2):
            reply = client.call("poll_activity_task", task_queue="main", wait=20_000)
            tokens[reply["activity_id"]] = reply["token"]
        client.call("heartbeat", token=tokens["charge"], details="half of it")
        client.call("fail_activity", token=tokens["charge"], message="no answer", error_type="OSError")
        told = {"attempt": 2, "last_failure": "no answer", "last_failure_type": "OSError", "heartbeat": "half of it"}
        for again in ("", "page", "edge", "compacted", "compacted twice"):
            if again == "page":
                end_page(server.process.pid)
            elif again.startswith("compacted"):
                self.assertEqual(server.asked("POST", "/compact", b"{}")[0], 200)
            if again not in ("", "page"):
                server.kill()
                server.start()
            found = {it["id"]: it for it in self.pending(server, run)}
            self.assertEqual({name: found["charge"].get(name) for name in told}, told, again)
            self.assertEqual(found["charge"]["next_try"] - found["charge"]["since"], HOUR)
            self.assertEqual((found["other"]["attempt"], found["other"]["state"]), (1, "a worker has it"), again)
        client.close()
        server.client().call("complete_activity", token=tokens["other"], result="done")
        self.assertEqual([it["id"] for it in self.pending(server, run)], ["charge"])

    def pending(self, server, run):
        return server.read(f"/api/workflows/w/{run}")["pending"]

    def test_a_page_that_can_not_start_is_said_at_once(self):
        words = [str(WFEDGE), "--program", str(BUILT), "--log", str(self.log), "--port", "0", "--page", "/bin/false"]
        with open(self.folder / "said", "w", encoding="utf-8") as said:
            process = subprocess.Popen(words, stdout=subprocess.PIPE, stderr=said, text=True)
        self.addCleanup(process.stdout.close)
        self.addCleanup(process.wait)
        self.addCleanup(process.terminate)
        port = int(process.stdout.readline().rstrip("/\n").rpartition(":")[2])
        begun = time.monotonic()
        for _ in range(5):
            with socket.create_connection(("127.0.0.1", port), timeout=PATIENCE) as connection:
                connection.sendall(b"GET / HTTP/1.1\r\nHost: localhost\r\nConnection: close\r\n\r\n")
                self.assertTrue(connection.recv(100).startswith(b"HTTP/1.1 503"))
        self.assertLess(time.monotonic() - begun, 25)
        self.assertIn("the page ended", (self.folder / "said").read_text(encoding="utf-8"))

    def test_what_changed_is_shown_at_once(self):
        server = self.serve()
        client = server.client()
        for number in range(20):
            client.start("w", "T", request_id=f"{number}")
            found = server.read("/api/workflows")["workflows"]
            self.assertEqual((len(found), found[0]["status"]), (number + 1, "Running"))
            client.terminate("w")
            self.assertEqual(server.read("/api/workflows")["workflows"][0]["status"], "Terminated")

    def test_it_begins_when_it_is_asked_for_and_ends_with_the_edge(self):
        for end in ("kill", "stop"):
            server = self.serve()
            self.assertEqual([child for child in children_of(server.process.pid) if is_page(child)], [])
            self.rows(server)
            page = page_of(server.process.pid)
            getattr(server, end)()
            late = time.monotonic() + PATIENCE
            while pathlib.Path(f"/proc/{page}").exists() and time.monotonic() < late:
                time.sleep(0.05)
            self.assertFalse(pathlib.Path(f"/proc/{page}").exists(), end)

    def test_an_edge_without_a_page_serves_calls(self):
        words = [str(WFEDGE), "--program", str(BUILT), "--log", str(self.log), "--port", "0"]
        process = subprocess.Popen(words, stdout=subprocess.PIPE, text=True)
        self.addCleanup(process.stdout.close)
        self.addCleanup(process.wait)
        self.addCleanup(process.terminate)
        port = int(process.stdout.readline().rstrip("/\n").rpartition(":")[2])
        with socket.create_connection(("127.0.0.1", port), timeout=PATIENCE) as connection:
            connection.sendall(b"GET / HTTP/1.1\r\nHost: localhost\r\nConnection: close\r\n\r\n")
            self.assertTrue(connection.recv(100).startswith(b"HTTP/1.1 404"))


# Looks through blobs once, as the page's process does. Its words: the edge's sockets for HTTP and for lines.
SWEEP = """
import asyncio, sys, time
import page

async def main(socket, lines):
    async with page.ClientSession(connector=page.UnixConnector(socket, limit=0)) as session:
        edge = page.Edge(session, lines)
        await edge.catch_up()
        print(await page.Sweeping(edge, page.BlobsOfEdge(socket), edge.kept.settings.retention).sweep(time.time()))

asyncio.run(main(*sys.argv[1:]))
"""


@needs_edge
@needs_program
class BlobsThatNobodyNames(WithAServer):
    def test_they_are_deleted_once_they_are_old(self):
        server, octets = self.serve("--retention", str(HOUR)), {"Content-Type": "application/octet-stream"}
        named, other, young = (hashlib.sha256(text).hexdigest() for text in (b"named", b"other", b"young"))
        for name, text in ((named, b"named"), (other, b"other"), (young, b"young")):
            self.assertEqual(server.asked("PUT", f"/blobs/{name}", text, octets)[0], 200)
        # Where there is a retention, the page's process is there without being asked for.
        page_of(server.process.pid)
        server.client().start("w", "T", input=f"blob:{named}:5")
        folder = pathlib.Path(f"{self.log}.blobs")
        for name in (named, other):
            os.utime(folder / name[:2] / name, (1, 1))
        # One that was killed leaves its folder, and another process may have its number.
        folders = pathlib.Path(tempfile.gettempdir()).glob(f"wfedge-{server.process.pid}-*")
        found = max(folders, key=lambda it: it.stat().st_mtime)
        words = [os.environ["WFEDGE_PYTHON"], "-c", SWEEP, str(found / "edge"), str(found / "lines")]
        ran = subprocess.run(words, cwd=HERE.parent, capture_output=True, text=True, timeout=PATIENCE)
        self.assertEqual((ran.stdout, ran.stderr), ("1\n", ""))
        self.assertEqual([server.asked("GET", f"/blobs/{it}")[0] for it in (named, other, young)], [200, 404, 200])
        self.assertEqual(server.asked("POST", "/blobs", b"0")[0], 404)


@needs_edge
class BlobsOnAFullDisk(WithAServer):
    def test_nothing_is_kept_and_later_ones_are(self):
        server = self.serve(program=self.double())
        text, octets = b"x" * 50_000, {"Content-Type": "application/octet-stream"}
        path = f"/blobs/{hashlib.sha256(text).hexdigest()}"
        for most, status in ((20_000, 507), (100_000, 200)):
            subprocess.run(["prlimit", f"--pid={server.process.pid}", f"--fsize={most}:"], check=True)
            found, _, said = server.asked("PUT", path, text, octets)
            self.assertEqual((found, json.loads(said).get("error")), (status, "BlobsFull" if status == 507 else None))
            files = [it.stat().st_size for it in pathlib.Path(f"{self.log}.blobs").rglob("*") if it.is_file()]
            self.assertEqual(files, [50_000] if status == 200 else [])


@needs_edge
@needs_program
class Stopped(WithAServer):
    def test_a_program_that_hangs_is_killed_where_the_edge_is_told_to_stop(self):
        server = self.serve()
        server.client().start("w", "T")
        program = program_of(server.process.pid)
        os.kill(program, signal.SIGSTOP)
        begun = time.monotonic()
        self.assertEqual(server.stop(), 0)
        self.assertLess(time.monotonic() - begun, PATIENCE)
        self.assertFalse(pathlib.Path(f"/proc/{program}").exists())
        self.assertIn("did not end with its input", server.said.read_text())
        server.start()
        self.assertEqual(server.client().describe("w")["status"], "Running")


if __name__ == "__main__":
    unittest.main()
