"""Workers: no result is lost, no run spins, and what is wrong is said."""

import asyncio
import collections
import itertools
import os
import threading
import time
import unittest
from unittest import mock

from support.programs import BUILT, memory_folder, needs_program
from support.workflow_fixture import WithAService
from wfserve.calls import Calls, Clock, Service
from wfserve.durable import DurableService
from wfserve.errors import CallLost, NotServed, Refused, Unavailable
from wfserve.workflows import (
    ActivityFailed, Cancelled, Driver, Retry, WallClock, Worker, attempt, days, run, run_until_closed, seconds,
    workflow,
)

CALLED = collections.Counter()
# What happens while the activity `at_work` is at work.
MEANWHILE = []
COUNT = itertools.count()


def charge():
    CALLED["charge"] += 1
    return "receipt"


def takes(value):
    return value


def in_parts(parts):
    """Pays part by part, and fails once after the last."""
    for part in range(attempt().details or 0, parts):
        CALLED[f"part {part}"] += 1
        attempt().heartbeat(part + 1)
    if attempt().number == 1:
        raise ConnectionError("the line went down")
    return attempt().details


def imagined():
    CALLED["imagined"] += 1
    return complex(1, 2)


def too_long():
    CALLED["too_long"] += 1
    return "x" * 5_000


def gives_a_coroutine():
    async def inner():
        return 1
    CALLED["gives_a_coroutine"] += 1
    return inner()


def ends_the_process():
    raise SystemExit(3)


def says_it_was_cancelled():
    raise Cancelled("by itself")


def asks_wrongly():
    raise Refused({"op": "signal"}, {"line": 1, "error": "InvalidArgument", "field": "name"})


def long_details():
    attempt().heartbeat("x" * 5_000)


async def asynchronous(value):
    await asyncio.sleep(0.001)
    CALLED["asynchronous"] += 1
    return [value, attempt().number]


async def many():
    yield 1


@workflow
async def one(ctx, activity, attempts=2):
    try:
        return await ctx.activity(activity, start_to_close=seconds(50), retry=Retry(initial=10, attempts=attempts))
    except ActivityFailed as failed:
        return [failed.error_type, failed.reason, str(failed)]


@workflow
async def takes_one(ctx, activity, value):
    arguments = [value] if activity == "asynchronous" else []
    return await ctx.activity(activity, *arguments, start_to_close=seconds(50))


@workflow
async def parts(ctx, count):
    return await ctx.activity(in_parts, count, start_to_close=seconds(50), retry=Retry(initial=10, attempts=2))


def keyed():
    CALLED[attempt().key] += 1
    if attempt().number == 1:
        raise ConnectionError("again")


@workflow
async def keys(ctx):
    for _ in range(2):
        await ctx.activity(keyed, start_to_close=seconds(5), retry=Retry(initial=10))


@workflow
async def five(ctx):
    for _ in range(5):
        await ctx.activity(charge, start_to_close=seconds(5))


@workflow
async def unheard(ctx):
    async def fails():
        raise KeyError("nobody waits for this")
    ctx.task(fails())
    return await ctx.activity(charge, start_to_close=seconds(5))


class Away(Calls):
    """A service that is away for some calls of an operation: before they take effect, or after that."""

    def __init__(self, service, op, *faults):
        self._service, self._op, self.faults = service, op, list(faults)

    def call(self, op, **fields):
        if op != self._op or not self.faults:
            return self._service.call(op, **fields)
        fault = self.faults.pop(0)
        if fault == "after":
            self._service.call(op, **fields)
        raise CallLost("the reply was lost") if fault in ("before", "after") else fault


@needs_program
class Results(WithAService):
    WORKFLOWS = [one, parts, unheard, keys, takes_one]
    ACTIVITIES = [
        charge, keyed, in_parts, imagined, too_long, gives_a_coroutine, ends_the_process, says_it_was_cancelled, asks_wrongly,
        long_details, asynchronous,
    ]

    def setUp(self):
        super().setUp()
        CALLED.clear()
        patch = mock.patch("wfserve.workflows.reports.FIRST_PAUSE", 0.001)
        patch.start()
        self.addCleanup(patch.stop)

    def played(self, away):
        worker = Worker(away, workflows=self.WORKFLOWS, activities=self.ACTIVITIES, clock=self.clock)
        status = run_until_closed(self.driver, [worker], self.clock, "w")
        return status, self.service.history("w")[-1]["attrs"].get("result")

    def test_a_result_is_told_until_it_is_heard(self):
        for faults in (["before"] * 5, ["after"], ["before", "after"], [NotServed(503, "busy"), NotServed(500, "ended")]):
            with self.subTest(faults):
                self.setUp()
                self.start(one, "charge")
                away = Away(self.service, "complete_activity", *faults)
                self.assertEqual(self.played(away), ("Completed", '"receipt"'))
                self.assertEqual((CALLED["charge"], away.faults), (1, []))

    def test_a_failure_is_told_until_it_is_heard(self):
        self.start(parts, 2)
        away = Away(self.service, "fail_activity", "before", "after")
        self.assertEqual(self.played(away), ("Completed", "2"))
        self.assertEqual(CALLED, {"part 0": 1, "part 1": 1})

    def test_heartbeats_that_are_not_heard_fail_no_attempt_and_are_told_before_its_failure(self):
        self.start(parts, 3)
        away = Away(self.service, "heartbeat", "before", "after", "before")
        self.assertEqual(self.played(away), ("Completed", "3"))
        self.assertEqual(CALLED, {"part 0": 1, "part 1": 1, "part 2": 1})

    def test_a_worker_that_was_told_to_stop_gives_up_after_a_while(self):
        self.start(one, "charge")
        self.decide()
        worker = Worker(Away(self.service, "complete_activity", *["before"] * 10_000), activities=[charge], clock=self.clock)
        worker._reports.stop.set()
        with mock.patch("wfserve.workflows.reports.GRACE", 0.05), self.assertRaises(Unavailable):
            worker.work_once()

    def test_a_result_that_no_history_can_hold_fails_the_activity_once(self):
        wanted = {
            "imagined": "imagined gave no JSON: Object of type complex is not JSON serializable",
            "too_long": "the result of too_long has 5002 bytes, and a text has at most 4096",
        }
        for name, said in wanted.items():
            with self.subTest(name):
                self.setUp()
                self.start(one, name, 0)
                status, (error_type, reason, message) = self.ended()
                self.assertEqual((status, error_type, reason), ("Completed", "BadResult", "NonRetryableFailure"))
                self.assertIn(said, message)
                self.assertEqual(CALLED[name], 1)

    def test_a_coroutine_is_awaited_whether_its_function_says_so_or_not(self):
        for name, wanted in (("asynchronous", [7, 1]), ("gives_a_coroutine", 1)):
            with self.subTest(name):
                self.setUp()
                self.start(takes_one, name, 7)
                self.assertEqual(self.ended(), ("Completed", wanted))
                self.assertEqual(CALLED[name], 1)

    def test_what_an_activity_raises_never_ends_its_worker(self):
        wanted = {
            "ends_the_process": "SystemExit", "says_it_was_cancelled": "Cancelled", "asks_wrongly": "Refused",
            "long_details": "ValueError", "nosuch": "NotHere",
        }
        for name, kind in wanted.items():
            with self.subTest(name):
                self.setUp()
                self.start(one, name)
                status, (error_type, reason, _) = self.ended()
                self.assertEqual((status, error_type, reason), ("Completed", kind, "MaximumAttemptsReached"))

    def test_all_attempts_of_an_activity_have_one_key_and_no_other_has_it(self):
        for id in ("w", "v"):
            self.start(keys, id=id)
            self.assertEqual(self.ended(id)[0], "Completed")
        self.assertEqual(sorted(CALLED.values()), [2, 2, 2, 2])

    def test_a_coroutine_that_failed_and_that_nobody_waited_for_is_told(self):
        self.start(unheard)
        said = self.warned(self.ended)
        self.assertEqual(said, ["w: unheard.<locals>.fails failed, and nobody waited for it: KeyError('nobody waits for this')"])


class Registered(unittest.TestCase):
    def worker(self, **more):
        return Worker(Calls(), **more)

    def test_an_activity_that_gives_many_values_is_refused_at_once(self):
        with self.assertRaisesRegex(TypeError, "the activity many is an 'async def' that yields"):
            self.worker(activities=[many])

    def test_two_of_one_name_are_refused(self):
        def charge():
            return "another"

        with self.assertRaisesRegex(ValueError, "two activities are named charge"):
            self.worker(activities=[globals()["charge"], charge])
        self.worker(activities=[charge, charge])


@workflow
async def too_long_an_input(ctx):
    await ctx.activity(charge, "x" * 5_000, start_to_close=seconds(5))


@workflow
async def half_a_millisecond(ctx):
    await ctx.timer(1.5)


@workflow
async def another_each_time(ctx):
    await ctx.activity(takes, next(COUNT), start_to_close=seconds(5))
    await ctx.timer(next(COUNT))


@workflow
async def no_timeout(ctx):
    await ctx.activity(charge)


@workflow
async def no_json(ctx):
    await ctx.activity(charge, complex(1, 2), start_to_close=seconds(5))


@workflow
async def no_end(ctx):
    raise KeyError(f"a bug, {next(COUNT)} times")


@workflow
async def too_long_a_result(ctx):
    return "x" * 5_000


@workflow
async def twice_the_same_id(ctx):
    ctx.timer(seconds(100), id="t")
    await ctx.timer(seconds(100), id="t")


@workflow
async def bad_retry(ctx):
    await ctx.activity(charge, start_to_close=seconds(5), retry=Retry(initial=5_000, maximum=100))


@workflow
async def no_policy(ctx):
    await ctx.child(five, parent_close="Abandoned")


@needs_program
class Stuck(WithAService):
    """A run whose code is at fault is tried again with growing pauses, whatever it says and whoever tries it."""

    WORKFLOWS = [
        too_long_an_input, half_a_millisecond, another_each_time, no_timeout, no_json, no_end, too_long_a_result,
        twice_the_same_id, bad_retry, no_policy,
    ]
    ACTIVITIES = [charge, takes]
    SAID = {
        "too_long_an_input": "BadCommand: input of ScheduleActivityTask charge has 5004 bytes, and a text has at most 4096",
        "half_a_millisecond": "BadCommand: duration of StartTimer is a whole number of milliseconds, as seconds(1.5) gives one, and not 1.5",
        "another_each_time": "event ",
        "no_timeout": "BadCommand: ScheduleActivityTask charge has neither start_to_close nor schedule_to_close",
        "no_json": "TypeError: Object of type complex is not JSON serializable",
        "no_end": "KeyError: 'a bug",
        "too_long_a_result": "BadCommand: result of CompleteWorkflowExecution has 5002 bytes",
        "bad_retry": "BadCommand: the maximum of retry of ScheduleActivityTask charge is less than its initial wait",
        "twice_the_same_id": "",
        "no_policy": "BadCommand: parent_close of StartChildWorkflowExecution five is one of Terminate, RequestCancel, Abandon",
    }

    def failed(self):
        return [e for e in self.service.history("w") if e["type"] == "WorkflowTaskFailed"]

    def minute(self, worker_of, jump=500):
        """A minute goes by, with a worker for each look, or always the same."""
        for _ in range(60_000 // jump):
            # What spins has so many tasks at one moment that the first look doesn't end.
            for _ in range(50):
                if not self.driver.turn() + worker_of().work_once():
                    break
            self.clock.now += jump

    def test_it_is_paused_whatever_it_says_and_whichever_worker_has_it(self):
        for function in self.WORKFLOWS:
            always = None
            for fresh in (False, True):
                with self.subTest(function.__name__, fresh=fresh):
                    self.setUp()
                    always = self.worker()
                    self.start(function)
                    self.minute(self.worker if fresh else lambda: always)
                    failed = self.failed()
                    self.assertIn(len(failed), range(1, 13))
                    self.assertLess(len(self.service.history("w")), 70)
                    self.assertIn(self.SAID[function.__name__], failed[0]["attrs"]["message"])
                    self.assertEqual(self.service.describe("w")["status"], "Running")

    def test_what_the_service_would_refuse_is_said_once(self):
        for function in (too_long_an_input, half_a_millisecond, no_timeout, too_long_a_result, bad_retry, no_policy):
            with self.subTest(function.__name__):
                self.setUp()
                self.start(function)
                self.minute(self.worker)
                self.assertEqual(len(self.failed()), 1)
                self.assertEqual(self.types().count("WorkflowTaskTimedOut"), 5)

    def test_the_pauses_grow_up_to_the_tasks_timeout(self):
        self.start(no_end)
        worker = self.worker()
        self.minute(lambda: worker)
        moments = [event["at"] for event in self.failed()]
        self.assertEqual(moments, [0, 1_000, 3_000, 7_000, 15_000])
        timed_out = [e["at"] for e in self.service.history("w") if e["type"] == "WorkflowTaskTimedOut"]
        self.assertEqual(timed_out, [25_000, 35_000, 45_000, 55_000])

    def test_the_log_says_that_it_is_stuck_less_and_less_often(self):
        self.start(no_end)
        worker = self.worker()
        said = [line for line in self.warned(lambda: self.minute(lambda: worker)) if "is stuck" in line]
        self.assertIn("w is stuck, at attempt 1 of its task: KeyError: 'a bug", said[0])
        self.assertEqual(len(said), 4)

    def test_the_log_has_the_lines_of_the_code_and_none_of_the_package(self):
        self.start(no_end)
        worker = self.worker()
        said = "\n".join(self.warned(lambda: self.minute(lambda: worker)))
        self.assertRegex(said, r'(?m)^  File ".*test_workflow_worker.py", line [0-9]+, in no_end$')
        self.assertNotIn(f"wfserve{os.sep}workflows", said)

    def test_where_no_code_was_called_there_are_no_lines(self):
        self.start(no_end, 1)
        worker = self.worker()
        said = "\n".join(self.warned(lambda: self.minute(lambda: worker)))
        self.assertIn("TypeError: no_end() takes 1 positional argument but 2 were given", said)
        self.assertNotIn("Traceback", said)

    def test_mended_code_goes_on_at_the_next_attempt(self):
        self.start(no_end)
        worker = self.worker()
        self.minute(lambda: worker)

        async def mended(ctx):
            return "mended"

        mended.__name__ = "no_end"
        before = self.clock.now
        workers = [self.worker(workflows=[workflow(mended)])]
        self.assertEqual(run_until_closed(self.driver, workers, self.clock, "w"), "Completed")
        self.assertLessEqual(self.clock.now - before, 10_000)

    def test_other_runs_go_on_meanwhile(self):
        self.start(no_end)
        worker = Worker(self.service, workflows=[no_end, five], activities=[charge], clock=self.clock)
        self.start(five, id="five")
        for _ in range(200):
            if not self.driver.turn() + worker.work_once():
                break
        self.assertEqual(self.service.describe("five")["status"], "Completed")
        self.assertEqual(self.clock.now, 0)


@workflow
async def rings(ctx):
    await ctx.timer(seconds(0.05))
    return "rang"


@needs_program
class Local(unittest.TestCase):
    def test_a_log_whose_clock_was_ahead_goes_on(self):
        with memory_folder() as folder:
            log = f"{folder}/log"
            with DurableService([str(BUILT)], log, clock=Clock(WallClock().now + days(1))) as service:
                service.start("earlier", "rings", request_id="earlier")
            found = []
            running = threading.Thread(
                target=lambda: found.append(run([str(BUILT)], log, rings, [], "w")), daemon=True
            )
            running.start()
            running.join(60)
            self.assertEqual(found, ["rang"])


class Waiting(Calls):
    """A service whose polls wait for eight seconds, as a server's do."""

    def __init__(self, service):
        self._service = service

    def call(self, op, **fields):
        late = time.monotonic() + 8
        while True:
            reply = self._service.call(op, **fields)
            if reply.get("ok") != "empty" or time.monotonic() > late:
                return reply
            time.sleep(0.005)


@needs_program
class Running(unittest.TestCase):
    """Workers on threads, by the wall's clock."""

    def setUp(self):
        self.service = Service([str(BUILT)], WallClock())
        self.addCleanup(self.service.close)
        self.stop = threading.Event()
        self.faults = []

    def begin(self, *loops):
        def run(loop):
            try:
                loop(self.stop)
            except Exception as fault:
                self.faults.append(fault)

        threads = [threading.Thread(target=run, args=(loop,)) for loop in loops]
        for thread in threads:
            thread.start()
        self.addCleanup(lambda: [thread.join(60) for thread in threads])
        self.addCleanup(self.stop.set)
        return threads

    def test_a_worker_of_both_kinds_looks_for_both_at_once(self):
        worker = Worker(Waiting(self.service), workflows=[five], activities=[charge])
        self.begin(Driver(self.service).run, worker.run)
        begun = time.monotonic()
        self.service.start("w", "five", request_id="w")
        while self.service.describe("w")["status"] == "Running":
            # One after another they would take five waits.
            self.assertLess(time.monotonic() - begun, 36)
            time.sleep(0.02)

    def test_a_queue_that_is_not_there_ends_the_worker(self):
        worker = Worker(self.service, "nosuch", workflows=[five], activities=[charge])
        thread, = self.begin(worker.run)
        thread.join(60)
        self.assertFalse(thread.is_alive())
        self.assertEqual(self.faults[0].name, "UnknownTaskQueue")
        self.assertFalse(self.stop.is_set(), "others were told to stop")

    def test_a_service_that_is_away_is_asked_again_and_the_log_says_it_now_and_then(self):
        asked = itertools.count(1)

        class Gone(Calls):
            def call(self, op, **fields):
                if next(asked) <= 20:
                    raise CallLost("refused")
                return {"ok": "empty"}

        with self.assertLogs("wfserve.workflows", "WARNING") as logged, mock.patch("wfserve.workflows.reports.FIRST_LOOK", 0):
            self.begin(Worker(Gone(), workflows=[five]).run)
            late = time.monotonic() + 60
            while len(logged.output) < 6 and time.monotonic() < late:
                time.sleep(0.02)
        said = [record.getMessage() for record in logged.records]
        self.assertEqual(said, ["the service is not there: refused"] * 5 + ["the service is there again"])

    def test_a_token_that_is_wrong_ends_the_worker(self):
        class Closed(Calls):
            def call(self, op, **fields):
                raise NotServed(401, "no token")

        thread, = self.begin(Worker(Closed(), workflows=[five]).run)
        thread.join(60)
        self.assertEqual(str(self.faults[0]), "status 401: no token")


if __name__ == "__main__":
    unittest.main()
