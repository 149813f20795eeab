"""What a workflow's code may not do is refused by name, and code that blocks is named and interrupted."""

import asyncio
import collections
import datetime
import logging
import os
import pathlib
import random
import secrets
import socket
import subprocess
import sys
import threading
import time
import unittest
import uuid
from datetime import datetime as imported
from time import time as imported_time
from unittest import mock

from support.programs import needs_program
from support.workflow_fixture import WithAService
from wfserve.workflows import check, seconds, watch, workflow
from wfserve.workflows.errors import Blocked, ForbiddenCall
from wfserve.workflows.guard import Guard
from wfserve.workflows.replay import commands_of
from wfserve.workflows.watch import Watch


def zone(name):
    """A time zone, where this Python and this machine have them."""
    try:
        import zoneinfo
        return zoneinfo.ZoneInfo(name)
    except (ImportError, LookupError):
        return datetime.timezone.utc


FORBIDDEN = {
    "time.time": (time.time, imported_time),
    "time.monotonic": (time.monotonic,),
    "time.sleep": (lambda: time.sleep(0),),
    "datetime.now": (datetime.datetime.now, imported.now, lambda: imported.now(datetime.timezone.utc)),
    "datetime.utcnow": (datetime.datetime.utcnow,),
    "date.today": (datetime.date.today,),
    "random.random": (random.random,),
    "random.getrandbits": (lambda: random.randint(1, 6), lambda: random.choice("abc"), lambda: random.shuffle([1, 2, 3])),
    "uuid.uuid1": (uuid.uuid1,),
    "uuid.uuid4": (uuid.uuid4,),
    "os.urandom": (lambda: os.urandom(8), secrets.token_hex),
    "os.getpid": (os.getpid,),
    "os.listdir": (lambda: os.listdir("/"),),
    "os.stat": (lambda: os.path.exists("/"),),
    "open": (lambda: open(__file__), lambda: pathlib.Path(__file__).read_text()),
    "socket.socket": (socket.socket,),
    "socket.create_connection": (lambda: socket.create_connection(("127.0.0.1", 1)),),
    "subprocess.Popen": (lambda: subprocess.run(["true"]),),
    "threading.Thread.start": (lambda: threading.Thread(target=print).start(),),
    "asyncio.get_running_loop": (asyncio.get_running_loop,),
}
ALLOWED = {
    "a random generator of its own": lambda: random.Random(7).random(),
    "a moment that is given": lambda: imported(2026, 1, 1) + datetime.timedelta(days=1),
    "an id of a name": lambda: uuid.uuid5(uuid.NAMESPACE_URL, "order-17"),
    "a log": lambda: logging.getLogger("workflows.test").error("said"),
    "a time zone": lambda: imported(2026, 1, 1, tzinfo=zone("Europe/Berlin")).isoformat(),
    "an import": lambda: __import__("colorsys"),
    "what is sorted, counted and joined": lambda: ",".join(sorted(map(str, collections.Counter("abc").values()))),
}


class Guarded(unittest.TestCase):
    def setUp(self):
        logging.getLogger("wfserve.workflows").setLevel(logging.CRITICAL)
        self.addCleanup(logging.getLogger("wfserve.workflows").setLevel, logging.NOTSET)

    def test_what_differs_in_the_next_replay_is_refused_by_its_name(self):
        for name, calls in FORBIDDEN.items():
            for call in calls:
                with self.subTest(name), self.assertRaises(ForbiddenCall) as refused:
                    with Guard():
                        call()
                said = str(refused.exception)
                self.assertTrue(said.startswith(f"{name} in a workflow's code"), said)
                self.assertRegex(said, "ctx[.]|activity")

    def test_what_is_the_same_is_not(self):
        for name, call in ALLOWED.items():
            with self.subTest(name), Guard():
                call()

    def test_other_threads_and_what_comes_after_are_free(self):
        moments = []
        begin, end = threading.Event(), threading.Event()

        def other():
            begin.wait(10)
            moments.append(time.time())
            end.set()

        thread = threading.Thread(target=other)
        thread.start()
        with Guard():
            begin.set()
            while not end.is_set():
                pass
        thread.join()
        self.assertLess(moments[0], time.time() + 1)

    def test_code_that_catches_it_is_noted(self):
        guard = Guard()
        with guard:
            try:
                time.time()
            except Exception:
                pass
        self.assertIsInstance(guard.fault, ForbiddenCall)

    def test_a_profiler_that_is_there_stays(self):
        def profile(*_):
            pass

        sys.setprofile(profile)
        try:
            with Guard():
                time.time()
            self.assertIs(sys.getprofile(), profile)
        finally:
            sys.setprofile(None)


@workflow
async def sleeps(ctx):
    await asyncio.sleep(1)


@workflow
async def gathers(ctx):
    await asyncio.gather(ctx.timer(1), ctx.timer(1))


@workflow
async def catches(ctx):
    """It doesn't get away with catching it."""
    try:
        late = time.time()
    except Exception:
        late = 0
    await ctx.activity(echo, late, start_to_close=seconds(5))


class Money:
    """No dataclass, and nothing that JSON has."""

    def __init__(self, cents):
        self.cents = cents


@workflow
async def odd_argument(ctx):
    await ctx.activity(echo, Money(5), start_to_close=seconds(5))


@workflow
async def keyword_argument(ctx):
    await ctx.activity(echo, value=1, start_to_close=seconds(5))


@workflow
async def never_waits(ctx):
    while True:
        ctx.now


@workflow
async def made_once(ctx):
    name = ctx.once(lambda: uuid.uuid4().hex)
    took = ctx.unguarded(time.monotonic)
    return [name, await ctx.activity(echo, name, start_to_close=seconds(5)), took > 0]


def echo(value):
    return value


@needs_program
class InWorkflows(WithAService):
    WORKFLOWS = [sleeps, gathers, catches, odd_argument, keyword_argument, made_once, never_waits]
    ACTIVITIES = [echo]

    def test_the_failed_task_says_what_to_use(self):
        wanted = {
            sleeps: "ForbiddenCall: asyncio.sleep in a workflow's code is not the same in its next replay: use ctx.timer",
            gathers: "ForbiddenCall: asyncio.gather in a workflow's code",
            catches: "ForbiddenCall: time.time in a workflow's code is not the same in its next replay: the moment of a "
                     "workflow is ctx.now",
            odd_argument: "TypeError: Object of type Money is not JSON serializable; a dataclass of what is",
            keyword_argument: "got an unexpected keyword argument 'value'",
        }
        for function, said in wanted.items():
            with self.subTest(function.__name__):
                self.setUp()
                self.start(function)
                self.idle()
                failed = [e["attrs"]["message"] for e in self.service.history("w") if e["type"] == "WorkflowTaskFailed"]
                self.assertEqual(len(failed), 1)
                self.assertIn(said, failed[0])

    def test_an_endless_loop_fails_its_task_by_its_line_and_the_worker_goes_on(self):
        self.service.start("w", "never_waits", request_id="w", task_timeout=400)
        self.start(made_once, id="v")
        self.idle()
        failed = [e["attrs"]["message"] for e in self.service.history("w") if e["type"] == "WorkflowTaskFailed"]
        self.assertRegex(failed[0], "blocked its worker for most of its task's time, at line [0-9]+ of .*[.]py")
        self.assertEqual(self.service.describe("v")["status"], "Completed")

    def test_what_is_made_once_and_what_decides_nothing_may_be_anything(self):
        self.start(made_once)
        status, (name, again, took) = self.ended()
        self.assertEqual((status, name == again, took), ("Completed", True, True))


@workflow
async def measured(ctx):
    """It looks at the time, and decides nothing by it: as code that was there before there was a guard."""
    time.time()
    await ctx.activity(echo, 1, start_to_close=seconds(5))
    return "done"


class InThePast(unittest.TestCase):
    """What the code did before was decided, and is held to the history; `check` says all that is not allowed."""

    EVENTS = [
        {"id": number, "at": 0, "type": kind, "attrs": attrs} for number, (kind, attrs) in enumerate((
            ("WorkflowExecutionStarted", {"workflow_id": "w", "workflow_type": "measured", "task_queue": "main", "input": ""}),
            ("WorkflowTaskScheduled", {}), ("WorkflowTaskStarted", {}), ("WorkflowTaskCompleted", {}),
            ("ActivityTaskScheduled", {"activity_id": "1", "activity_type": "echo", "input": "[1]"}),
            ("ActivityTaskStarted", {}), ("ActivityTaskCompleted", {"scheduled": 5, "result": "1"}),
            ("WorkflowTaskScheduled", {}), ("WorkflowTaskStarted", {}),
        ), 1)
    ]

    def test_runs_go_on_whose_code_has_passed_what_is_not_allowed(self):
        commands = commands_of(measured, self.EVENTS, "r")
        self.assertEqual([command.type for command in commands], ["CompleteWorkflowExecution"])
        with self.assertRaises(ForbiddenCall):
            commands_of(measured, self.EVENTS[:3], "r")

    def test_a_check_against_histories_says_all_of_it(self):
        with self.assertRaisesRegex(ForbiddenCall, "time.time in a workflow's code"):
            check(measured, self.EVENTS, "r")


class Watched(unittest.TestCase):
    def setUp(self):
        for name, value in (("NAMED_AFTER", 0.2), ("LOOK_EVERY", 0.02)):
            patch = mock.patch.object(watch, name, value)
            patch.start()
            self.addCleanup(patch.stop)
        self.watch = Watch()

    def block(self, seconds, until=lambda: False):
        late = time.monotonic() + seconds
        while time.monotonic() < late and not until():
            pass

    def test_code_that_blocks_is_named_by_its_line(self):
        with self.assertLogs("wfserve.workflows", "ERROR") as logged, self.watch.of("order-17", 600_000) as watched:
            self.block(60, lambda: watched.named)
            self.block(0.2)
        self.assertEqual(len(logged.output), 1)
        self.assertIn("order-17 has blocked its worker for", logged.output[0])
        self.assertRegex(logged.output[0], r'test_workflow_guard.py", line \d+, in block')

    def test_code_that_blocks_for_most_of_its_tasks_time_is_interrupted(self):
        begun = time.monotonic()
        with self.assertLogs("wfserve.workflows", "ERROR"), self.assertRaises(Blocked), self.watch.of("order-17", 1_000):
            self.block(60)
        took = time.monotonic() - begun
        self.assertTrue(0.8 <= took < 30, took)

    def test_code_that_waits_in_time_is_left_alone(self):
        with mock.patch.object(watch, "NAMED_AFTER", 1.5), self.assertLogs("wfserve.workflows", "ERROR") as logged:
            logging.getLogger("wfserve.workflows").error("the first")
            for _ in range(60):
                with self.watch.of("order-17", 100_000):
                    time.sleep(0.03)
        self.assertEqual(len(logged.output), 1)

    def test_an_interruption_hits_nothing_after_the_code(self):
        for _ in range(10):
            try:
                with self.watch.of("order-17", 1) as watched:
                    self.until_interrupted(watched)
            except Blocked:
                pass
        self.block(0.1)

    def until_interrupted(self, watched):
        while not watched.interrupted:
            watched.begun += 0


if __name__ == "__main__":
    unittest.main()
