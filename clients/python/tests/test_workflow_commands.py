"""python3 -m wfserve.workflows: what `work` and `start` say, and with which status they end."""

import contextlib
import http.server
import io
import os
import pathlib
import signal
import subprocess
import sys
import threading
import time
import unittest

from support import CLIENT
from support.programs import BUILT, memory_folder, needs_program, needs_server
from support.served import Server
from wfserve.workflows.__main__ import main, value_of_word, workflow_named


# A workflow whose activity is at work for a while.
SLOW = """
import pathlib, time
from wfserve.workflows import seconds, workflow

def work():
    pathlib.Path("begun").write_text("")
    time.sleep(1)

@workflow
async def slow(ctx):
    await ctx.activity(work, start_to_close=seconds(60))

WORKFLOWS, ACTIVITIES = [slow], [work]
"""


def said(*words):
    """The status of a command, and what it prints and complains."""
    out, err = io.StringIO(), io.StringIO()
    with contextlib.redirect_stdout(out), contextlib.redirect_stderr(err):
        status = main(list(words))
    return status, out.getvalue(), err.getvalue()


class WithoutAServer(unittest.TestCase):
    """What is wrong is said before anybody is asked."""

    URL = "http://127.0.0.1:1"

    def test_a_workflow_that_no_module_has_is_refused(self):
        status, out, err = said("start", self.URL, "examples.order:odrer", "w")
        self.assertEqual((status, out), (2, ""))
        self.assertEqual(err, "workflows: ValueError: examples.order has no workflow odrer; it has order\n")
        for name in ("charge", "QUEUES", "nothing"):
            with self.assertRaisesRegex(ValueError, f"has no workflow {name}"):
                workflow_named(f"examples.order:{name}")
        self.assertEqual(said("start", self.URL, "examples.nosuch:order", "w")[0], 2)

    def test_an_argument_that_is_no_json_is_refused_with_the_quotes_that_it_wants(self):
        status, _, err = said("start", self.URL, "examples.order:order", "w", "order-17")
        self.assertEqual(status, 2)
        self.assertIn("""the argument order-17 is no JSON; a text has quotes of its own: '"order-17"'""", err)
        self.assertEqual([value_of_word(word) for word in ('"a"', "7", "[1]", "null")], ["a", 7, [1], None])

    def test_a_number_of_threads_is_one(self):
        for count in ("0", "-1", "many", "1001"):
            with contextlib.redirect_stderr(io.StringIO()) as err, self.assertRaises(SystemExit) as ended:
                main(["work", self.URL, "examples.order", "--threads", count])
            self.assertEqual(ended.exception.code, 2)
            self.assertIn("no number from 1 to 1,000", err.getvalue())


@needs_server
@needs_program
class WithAServer(unittest.TestCase):
    def setUp(self):
        folder = memory_folder()
        self.addCleanup(folder.cleanup)
        self.folder = pathlib.Path(folder.name)
        self.server = Server(str(BUILT), self.folder / "log")
        self.addCleanup(lambda: self.server.process.poll() is None and self.server.stop())

    def start(self, *arguments, workflow="examples.order:order"):
        return said("start", self.server.url, workflow, "order-17", *arguments)

    def work(self, *words, url=None, cwd=CLIENT):
        command = [sys.executable, "-m", "wfserve.workflows", "work", url or self.server.url, *words]
        worker = subprocess.Popen(
            command, cwd=cwd, stdout=subprocess.PIPE, stderr=subprocess.PIPE, text=True
        )
        self.addCleanup(worker.stdout.close)
        self.addCleanup(worker.stderr.close)
        self.addCleanup(worker.wait)
        self.addCleanup(worker.kill)
        return worker

    def test_a_second_start_says_that_the_workflow_was_there(self):
        status, run, err = self.start('"order-17"', '"1 EUR"')
        self.assertEqual((status, err), (0, ""))
        self.assertEqual(
            self.start('"order-17"', '"1 EUR"'),
            (0, run, "workflows: order-17 was started before: nothing was started now\n"),
        )

    def test_a_start_of_something_else_than_was_started_is_no_success(self):
        _, run, _ = self.start('"order-17"', '"1 EUR"')
        status, again, err = self.start('"order-17"', '"2 EUR"')
        self.assertEqual((status, again), (1, run))
        self.assertEqual(
            err, 'workflows: order-17 was started before, as order with the input ["order-17","1 EUR"]: nothing was started now\n'
        )
        status, again, err = self.start(workflow="examples.booking:booking")
        self.assertEqual((status, again), (1, run))
        self.assertIn("as order with the input", err)

    def test_a_queue_that_is_not_there_is_said_and_ends_with_2(self):
        worker = self.work("examples.order", "--queue", "nosuch")
        _, err = worker.communicate(timeout=60)
        self.assertEqual(worker.returncode, 2)
        self.assertRegex(err, "^workflows: Refused: .*UnknownTaskQueue")
        self.assertNotIn("Traceback", err)

    def test_a_module_that_has_no_workflows_or_a_bad_activity_ends_with_2(self):
        for module in ("examples.nosuch", "examples.store"):
            worker = self.work(module)
            _, err = worker.communicate(timeout=60)
            self.assertEqual(worker.returncode, 2, err)
            self.assertTrue(err.startswith("workflows: "), err)

    def test_what_keeps_a_worker_from_going_on_is_shown_and_ends_with_1(self):
        class Garbled(http.server.BaseHTTPRequestHandler):
            def do_POST(self):
                # What is left unread would reset the connection.
                self.rfile.read(int(self.headers["Content-Length"]))
                self.send_response(200)
                self.end_headers()
                self.wfile.write(b"this is no reply")

            def log_message(self, *_):
                pass

        garbled = http.server.ThreadingHTTPServer(("127.0.0.1", 0), Garbled)
        serving = threading.Thread(target=garbled.serve_forever, args=(0.02,), daemon=True)
        serving.start()
        self.addCleanup(garbled.server_close)
        self.addCleanup(garbled.shutdown)
        worker = self.work("examples.order", url=f"http://127.0.0.1:{garbled.server_port}")
        _, err = worker.communicate(timeout=60)
        self.assertEqual(worker.returncode, 1)
        self.assertIn("JSONDecodeError", err)

    def test_a_result_that_could_not_be_told_is_said_and_ends_with_1(self):
        (self.folder / "slow.py").write_text(SLOW)
        with self.server.client() as client:
            client.start("w", "slow", request_id="w")
        worker = self.work("slow", "--threads", "1", cwd=self.folder)
        while not (self.folder / "begun").exists():
            time.sleep(0.05)
        self.server.kill()
        worker.terminate()
        _, err = worker.communicate(timeout=100)
        self.assertIn("w: attempt 1 of 1: its result could not be told, and is lost", err)
        self.assertEqual(worker.returncode, 1)

    def test_a_worker_that_is_told_to_stop_ends_with_0(self):
        for number in (signal.SIGTERM, signal.SIGINT):
            worker = self.work("examples.order")
            self.assertIn("working on main", worker.stdout.readline())
            begun = time.monotonic()
            os.kill(worker.pid, number)
            _, err = worker.communicate(timeout=60)
            self.assertEqual((worker.returncode, err), (0, ""))
            self.assertLess(time.monotonic() - begun, 30)


if __name__ == "__main__":
    unittest.main()
