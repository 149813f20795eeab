"""The server: what it refuses, long polls, workers, and fifty clients that hang up in the middle of a call.

WFSERVE_SEED draws other clients.
"""

import json
import logging
import os
import pathlib
import random
import socket
import subprocess
import sys
import threading
import time
import unittest
from concurrent.futures import ThreadPoolExecutor

from support import CLIENT
from support.programs import BUILT, COUNTING, memory_folder, needs_program, needs_server, program_file, server_words
from support.served import PATIENCE, Server, until
from examples import children
from wfserve.errors import CallLost, NotServed, Refused
from wfserve.ids import run_id, run_of_token
from wfserve.page.listing import Workflows
from wfserve.workflows import Retry, Worker, input_of, seconds, workflow

SEED = int(os.environ.get("WFSERVE_SEED", random.randrange(1 << 32)))
CLIENTS, CALLS = 50, 12
TOKEN = "a token of some length"


class WithAServer(unittest.TestCase):
    def setUp(self):
        folder = memory_folder()
        self.addCleanup(folder.cleanup)
        self.folder = pathlib.Path(folder.name)
        self.log = self.folder / "a.log"

    def serve(self, *options, program=str(BUILT)):
        server = Server(program, self.log, *options)
        self.addCleanup(self._end, server)
        return server

    def _end(self, server):
        """Ends a server. That of a test which failed tells what it said."""
        if not getattr(self._outcome, "success", True):
            print(server.account(), file=sys.stderr)
        if server.process.poll() is None:
            server.stop()

    def double(self):
        """The counting program, as a file."""
        return program_file(self.folder, f"#!{COUNTING[0]} -S{COUNTING[3]}", "double")

    def token_file(self, token=TOKEN):
        path = self.folder / "token"
        path.write_text(token + "\n", encoding="utf-8")
        return str(path)


@needs_server
class Guarded(WithAServer):
    def test_bodies_that_are_no_calls_are_refused(self):
        server = self.serve(program=self.double())
        cases = [
            (b"{", {}, 400, "BadCall"),
            (b"[1]", {}, 400, "BadCall"),
            (b"[" * 100_000, {}, 400, "BadCall"),
            (b'{"op":"poll_workflow_task","task_queue":"main","wait":-1}', {}, 400, "BadCall"),
            (b'{"op":"poll_workflow_task","task_queue":"main","wait":"long"}', {}, 400, "BadCall"),
            (b'{"op":"signal"}', {"Content-Type": "text/plain"}, 415, "NotJson"),
            (b'{"op":"signal"}', {"Host": "evil.example"}, 403, "WrongHost"),
            (b" " * 1_048_577, {}, 413, ""),
        ]
        for body, headers, status, name in cases:
            answer = server.asked("POST", "/calls", body, headers)
            self.assertEqual(answer[0], status, body[:80])
            self.assertIn(name, answer[2])
        self.assertEqual(server.asked("GET", "/page/../server.py")[0], 404)
        self.assertEqual(server.stop(), 0)

    def test_the_moment_and_the_lane_are_the_servers(self):
        server = self.serve(program=self.double())
        reply = server.client().call("signal", name="s", at=10**14, lane=3, barrier=True)
        said = json.loads(reply["said"])
        self.assertEqual(set(said), {"op", "at", "name"})
        self.assertLess(abs(said["at"] - time.time() * 1_000), 60_000)

    def test_more_calls_than_may_wait_are_refused(self):
        server = self.serve("--queue-limit", "4", program=self.double())

        def call(number):
            try:
                server.client().signal("w", f"slow {number}")
                return 200
            except NotServed as refused:
                return refused.status

        with ThreadPoolExecutor(12) as pool:
            statuses = list(pool.map(call, range(12)))
        self.assertEqual(set(statuses), {200, 503})
        self.assertEqual(call(12), 200)

    def test_another_address_needs_a_token(self):
        command = server_words(self.double(), "--port", "0")
        for options, said in (
            (["--host", "0.0.0.0"], "--host 0.0.0.0 needs a --token-file"),
            (["--token-file", self.token_file("short")], "less than 16 characters"),
        ):
            ran = subprocess.run([*command, *options], stderr=subprocess.PIPE, stdout=subprocess.PIPE, text=True)
            self.assertEqual(ran.returncode, 2)
            self.assertIn(said, ran.stderr)

    def test_a_token_lets_in_and_nothing_else_does(self):
        server = self.serve("--host", "0.0.0.0", "--token-file", self.token_file(), program=self.double())
        for path in ("/", "/api/workflows", "/page/page.css", "/?token=wrong"):
            self.assertEqual(server.asked("GET", path)[0], 401, path)
        self.assertEqual(server.asked("POST", "/calls", b'{"op":"signal"}')[0], 401)
        self.assertEqual(server.asked("POST", "/calls?token=" + TOKEN.replace(" ", "%20"), b'{"op":"signal"}')[0], 401)
        self.assertEqual(server.asked("GET", "/", headers={"Authorization": f"Bearer {TOKEN}"})[0], 200)
        self.assertTrue(server.client(token=TOKEN).signal("w", "s"))
        status, headers, _ = server.asked("GET", "/?token=" + TOKEN.replace(" ", "%20"))
        self.assertEqual((status, headers["Location"]), (303, "/"))
        self.assertIn("HttpOnly", headers["Set-Cookie"])
        cookie = headers["Set-Cookie"].split(";")[0]
        self.assertEqual(server.asked("GET", "/", headers={"Cookie": cookie})[0], 200)

    def test_a_program_that_ends_ends_the_server(self):
        path = self.folder / "ends"
        path.write_text("#!/bin/sh\nread line || exit 0\nexit 3\n", encoding="utf-8")
        path.chmod(0o755)
        server = self.serve(program=str(path))
        self.assertEqual(server.process.wait(timeout=PATIENCE), 2)
        self.assertIn("the program ended with status 3", server.said.read_text())
        server.stop()

    def test_settings_that_the_program_refuses_are_said_and_nothing_is_served(self):
        path = self.folder / "refuses"
        path.write_text("#!/bin/sh\necho 'refuses: no such shards' >&2\nexit 2\n", encoding="utf-8")
        path.chmod(0o755)
        with self.assertRaisesRegex(AssertionError, "(?s)no such shards.*refuses --shards 65 .*: status 2"):
            self.serve("--shards", "65", program=str(path))
        self.assertEqual(self.log.read_bytes(), b"")

    def test_nothing_is_logged_for_pages_that_show_nothing_new(self):
        server = self.serve(program=self.double())
        before = self.log.read_bytes()
        for _ in range(20):
            server.asked("GET", "/")
            server.read("/api/workflows?search=a")
        self.assertNotIn(b"history", self.log.read_bytes()[len(before):])


def say(word):
    return f"said {word}"


@workflow
async def spoken(ctx, word):
    await ctx.timer(50)
    await ctx.signal("go")
    return await ctx.activity(say, word, start_to_close=seconds(10), retry=Retry(initial=100))


class Listed(unittest.TestCase):
    def test_a_run_that_was_taken_away_is_listed_no_more(self):
        workflows = Workflows()
        for number in (1, 2):
            asked = {"op": "start", "workflow_id": "w", "workflow_type": "spoken", "at": number}
            workflows.observe(asked, {"line": number, "ok": "started", "run": run_id(1, 0, number)})
        fired = {"class": "retention", "due": 9, "event": 3, "line": 3, "ok": "fired", "run": run_id(1, 0, 1)}
        for _ in range(2):
            workflows.observe({"op": "timer_turn", "shard": 0, "at": 9}, fired)
            self.assertIsNone(workflows.find("w", run_id(1, 0, 1)))
            self.assertEqual([entry.run for entry in workflows.search("", "", 10)], [run_id(1, 0, 2)])


@needs_server
@needs_program
class Served(WithAServer):
    def test_a_workflow_is_gone_once_its_retention_is_over(self):
        server = self.serve("--retention", "1500")
        client = server.client()
        client.start("w", "spoken")
        client.start("kept", "spoken")
        client.terminate("w")
        self.assertEqual(client.describe("w")["status"], "Terminated")
        self.wait(lambda: [row["workflow_id"] for row in server.read("/api/workflows")["workflows"]] == ["kept"])
        with self.assertRaises(Refused):
            client.history("w")
        client.start("w", "spoken", reuse="RejectDuplicate")

    def test_a_long_poll_gets_the_task_when_it_comes(self):
        server = self.serve()
        found = []
        poller = threading.Thread(target=lambda: found.append(server.client(wait=60_000).poll_workflow_task()))
        poller.start()
        server.has_polls(1)
        begun = time.monotonic()
        run = server.client().start("w", "spoken")
        poller.join()
        self.assertLess(time.monotonic() - begun, 30)
        self.assertEqual(found[0].run, run)
        self.assertEqual(run_of_token(found[0].token, 1), run)
        self.assertIsNone(server.client(wait=100).poll_workflow_task())

    def test_a_poll_of_a_client_that_hung_up_takes_no_task(self):
        server = self.serve()
        gone = socket.create_connection((server.host, server.port))
        gone.sendall(posted({"op": "poll_workflow_task", "task_queue": "main", "wait": 60_000}))
        server.has_polls(1)
        gone.close()
        server.client().start("w", "spoken")
        self.assertIsNotNone(server.client(wait=20_000).poll_workflow_task())

    def test_workers_over_http_run_workflows(self):
        server, stop = self.serve(), threading.Event()
        workers = [Worker(server.client(wait=500), workflows=[spoken]) for _ in range(2)]
        workers += [Worker(server.client(wait=500), activities=[say]) for _ in range(2)]
        threads = [threading.Thread(target=worker.run, args=(stop,)) for worker in workers]
        for thread in threads:
            thread.start()
        try:
            client = server.client()
            for number in range(10):
                client.start(f"w{number}", "spoken", input=input_of([number]), request_id=f"start {number}")
                client.signal(f"w{number}", "go", request_id=f"go {number}")
            self.wait(lambda: all(client.describe(f"w{number}")["status"] == "Completed" for number in range(10)))
        finally:
            stop.set()
            for thread in threads:
                thread.join()
        self.assertEqual(client.history("w7")[-1]["attrs"]["result"], '"said 7"')

    def test_a_worker_from_the_command_line(self):
        server = self.serve()
        words = [sys.executable, "-m", "wfserve.workflows"]
        worker = subprocess.Popen(
            [*words, "work", server.url, "examples.booking", "--threads", "1"], cwd=CLIENT, stdout=subprocess.PIPE, text=True
        )
        self.addCleanup(worker.stdout.close)
        self.addCleanup(worker.wait)
        self.addCleanup(worker.kill)
        self.assertEqual(worker.stdout.readline(), f"working on main of {server.url}\n")
        start = [*words, "start", server.url, "examples.booking:booking", "booking-1", '"a trip without cars"']
        runs = {subprocess.run(start, cwd=CLIENT, stdout=subprocess.PIPE, text=True, check=True).stdout for _ in range(2)}
        self.assertEqual(len(runs), 1)
        client = server.client()
        self.wait(lambda: client.describe("booking-1")["status"] == "Completed")
        self.assertIn("no hotel for a trip without cars", client.history("booking-1")[-1]["attrs"]["result"])

    def wait(self, holds):
        until(holds)

    def test_a_server_that_is_killed_goes_on(self):
        server = self.serve()
        client = server.client()
        run = client.start("w", "spoken", request_id="start")
        client.signal("w", "go", request_id="go")
        server.kill()
        server.start()
        # The client's connection is gone: what can't count twice is asked again, and nothing else.
        self.assertFalse(client.signal("w", "go", request_id="go"))
        server.kill()
        server.start()
        with self.assertRaises(CallLost):
            client.signal("w", "go")
        rows = server.read("/api/workflows")["workflows"]
        self.assertEqual([(row["workflow_id"], row["run"], row["status"]) for row in rows], [("w", run, "Running")])

    def test_what_is_no_operation_is_answered_as_the_program_does(self):
        server = self.serve()
        for op in (None, [], {}, 7, "nothing"):
            status, _, text = server.asked("POST", "/calls", json.dumps({"op": op}).encode())
            self.assertEqual((status, json.loads(text)["error"]), (200, "InvalidArgument"), op)

    def test_children_on_other_shards(self):
        server, stop = self.serve("--shards", "3"), threading.Event()
        worker = Worker(server.client(wait=100), workflows=children.WORKFLOWS, activities=children.ACTIVITIES)
        working = threading.Thread(target=worker.run, args=(stop,))
        working.start()
        try:
            client = server.client()
            client.start("parent-1", "parent", input=input_of([12]))
            self.wait(lambda: client.describe("parent-1")["status"] == "Completed")
        finally:
            stop.set()
            working.join()
        result = json.loads(client.history("parent-1")[-1]["attrs"]["result"])
        self.assertEqual(result, {"children": 12, "sum": sum(number * number for number in range(12))})
        runs = {e["attrs"]["run"][15:18] for e in client.history("parent-1") if e["type"] == "ChildWorkflowExecutionStarted"}
        self.assertEqual(runs, {"000", "001", "002"})

    def test_a_worker_outlives_its_server(self):
        logging.getLogger("wfserve.workflows").setLevel(logging.CRITICAL)
        server, stop = self.serve(), threading.Event()
        worker = threading.Thread(target=Worker(server.client(), workflows=[spoken], activities=[say]).run, args=(stop,))
        worker.start()
        try:
            client = server.client()
            client.start("w", "spoken", input=input_of(["again"]), request_id="start")
            server.kill()
            time.sleep(0.2)
            server.start()
            client.signal("w", "go", request_id="go")
            self.wait(lambda: client.describe("w")["status"] == "Completed")
        finally:
            stop.set()
            worker.join()

    def test_the_list_is_searched_by_id_and_status(self):
        server = self.serve()
        client = server.client()
        for name in ("order-1", "order-2", "payment-1"):
            client.start(name, "spoken")
        client.terminate("order-2", reason="a mistake")
        for search, found in (
            ("", ["payment-1", "order-2", "order-1"]), ("search=order", ["order-2", "order-1"]),
            ("status=Running", ["payment-1", "order-1"]), ("search=order&status=Terminated", ["order-2"]),
            ("search=x", []),
        ):
            rows = server.read(f"/api/workflows?{search}")["workflows"]
            self.assertEqual([row["workflow_id"] for row in rows], found, search)
        self.assertEqual(rows, [])

    def test_a_history_is_read_again_only_where_it_changed(self):
        server = self.serve()
        client = server.client()
        run = client.start("a b/ü", "spoken")
        path = f"/api/workflows/a%20b%2F%C3%BC/{run}"
        first = server.read(path)
        self.assertEqual([event["type"] for event in first["events"]][:2], ["WorkflowExecutionStarted", "WorkflowTaskScheduled"])
        self.assertEqual(set(server.read(f"{path}?length={len(first['events'])}")), {"workflow"})
        client.signal("a b/ü", "go", "<script>")
        self.assertEqual(len(server.read(path)["events"]), len(first["events"]) + 1)
        picture = server.asked("GET", path.replace("/api", "") + "/picture.svg")
        self.assertEqual(picture[1]["Content-Type"].split(";")[0], "image/svg+xml")
        self.assertNotIn("<script", picture[2])
        self.assertEqual(server.asked("GET", "/workflows/a/no-run/picture.svg")[0], 404)


def posted(call):
    body = json.dumps(call).encode()
    return (
        b"POST /calls HTTP/1.1\r\nHost: 127.0.0.1\r\nContent-Type: application/json\r\nContent-Length: "
        + str(len(body)).encode() + b"\r\n\r\n" + body
    )


@needs_server
@needs_program
class FiftyClients(WithAServer):
    """Each client signals a workflow of its own, hangs up in the middle of drawn calls, and makes them again."""

    def test_each_call_takes_effect_once(self):
        print(f"\nfifty clients: seed {SEED}", file=sys.stderr)
        server = self.serve()
        begun = time.monotonic()
        with ThreadPoolExecutor(CLIENTS) as pool:
            lost = list(pool.map(lambda number: self.client(server, number), range(CLIENTS)))
        took = time.monotonic() - begun
        print(
            f"fifty clients: {CLIENTS * (CALLS + 1)} calls, {sum(lost)} hung up, {took:.1f} s", file=sys.stderr
        )
        self.assertGreater(sum(lost), CLIENTS)
        self.assertEqual(server.said.read_text(), "")
        client = server.client()
        for number in range(CLIENTS):
            events = client.history(f"w{number}")
            signals = [e["attrs"]["name"] for e in events if e["type"] == "WorkflowExecutionSignaled"]
            self.assertEqual(signals, [f"s{call}" for call in range(CALLS)])

    def client(self, server, number):
        """Makes its calls in order. How many it hung up in."""
        draw, lost, client = random.Random(f"{SEED} {number}"), 0, server.client()
        client.start(f"w{number}", "spoken", request_id=f"start {number}")
        for call in range(CALLS):
            request = {"op": "signal", "workflow_id": f"w{number}", "name": f"s{call}", "request_id": f"{number} {call}"}
            while draw.random() < 0.4:
                self.hang_up(server, posted(request), draw)
                lost += 1
            client.call(**request)
        client.close()
        return lost

    def hang_up(self, server, data, draw):
        with socket.create_connection((server.host, server.port)) as connection:
            connection.sendall(data[:draw.randint(0, len(data))])
            time.sleep(draw.choice([0, 0.002]))


if __name__ == "__main__":
    unittest.main()
