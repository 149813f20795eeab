"""Workflows as code against wfserve: each thing that they can ask for, and what goes wrong."""

import itertools
import logging
import threading
import time
import unittest

from support.programs import BUILT, needs_program
from wfserve.calls import Service
from wfserve.workflows import (
    ActivityFailed, ActivityTimedOut, AttemptOver, Cancelled, ChildFailed, Driver, JumpingClock, NoSuchWorkflow,
    NonRetryable, Retry, WallClock, Worker, WorkflowFailed, attempt, days, hours, input_of, run_until_closed,
    run_until_idle, seconds, text_of, value_of, workflow,
)

CALLS = []
# How often a task fails in a minute before it is left until its time is over, and how many tasks there are then.
MOST_FAILURES, PAUSED = 11, range(7, 14)
# What happens while an activity is at work, one after another.
MEANWHILE = []


def say(*words):
    CALLS.append(words)
    return " ".join(map(str, words))


def fail(word):
    raise ValueError(f"no {word}")


def refuse(word):
    raise NonRetryable(f"never {word}")


def beat(times):
    """Goes on from what the last attempt told; tells how often it was tried."""
    begun = attempt().details or 0
    for i in range(begun, times):
        attempt().heartbeat(i + 1)
        if i == 1 and attempt().number == 1:
            raise ConnectionError("interrupted")
    return {"begun": begun, "attempts": attempt().number}


def stopped():
    """Goes on until its workflow asks it to cancel."""
    for i in range(100):
        MEANWHILE[i]()
        attempt().heartbeat(i)
    return "never stopped"


def overtaken():
    """Its time is over before it tells that it goes on."""
    if attempt().number == 1:
        MEANWHILE[0]()
        try:
            attempt().heartbeat()
        except AttemptOver as over:
            CALLS.append(("over", str(over)))
            raise
    return attempt().number


def too_long():
    return "x" * 5_000


@workflow
async def taken_in_order(ctx):
    first = await ctx.signal("s")
    second = await ctx.signal("s")
    done = await ctx.first(ctx.signal("s"), ctx.signal("other"))
    return [first, second, done.index, done.value, await ctx.signal("s")]


@workflow
async def tried(ctx):
    try:
        await ctx.activity(fail, "bread", start_to_close=10, retry=Retry(initial=100, attempts=3))
    except ActivityFailed as failed:
        first = [str(failed), failed.error_type, failed.reason]
    try:
        await ctx.activity(fail, "bread", start_to_close=10, retry=Retry(non_retryable=["ValueError"]))
    except ActivityFailed as failed:
        second = failed.reason
    try:
        await ctx.activity(refuse, "bread", start_to_close=10)
    except ActivityFailed as failed:
        third = [str(failed), failed.reason]
    return [first, second, third]


@workflow
async def timed_out(ctx):
    try:
        await ctx.activity("nobody", start_to_close=10, schedule_to_start=500, queue="other")
    except ActivityTimedOut as late:
        return [late.timeout, late.reason, ctx.now]


@workflow
async def beating(ctx):
    return await ctx.activity(beat, 4, start_to_close=seconds(5), heartbeat=seconds(1))


@workflow
async def stopping(ctx):
    """Its activity is asked to cancel, and the workflow waits to see it stop."""
    activity = ctx.activity(stopped, start_to_close=seconds(5))
    await ctx.signal("stop")
    activity.cancel()
    await ctx.timer(10)


@workflow
async def too_late(ctx):
    return await ctx.activity(overtaken, start_to_close=100, retry=Retry(initial=10))


@workflow
async def overlong(ctx):
    await ctx.activity(too_long, start_to_close=10)


@workflow
async def elsewhere(ctx):
    return await ctx.activity(say, "elsewhere", start_to_close=10, queue="other")


@workflow
async def year(ctx):
    for _ in range(52):
        await ctx.timer(days(7))
    return ctx.now


@workflow
async def counted(ctx, left):
    if left == 0:
        return "done"
    ctx.continue_as_new(left - 1)


@workflow
async def failing(ctx):
    raise WorkflowFailed("it can't be done")


@workflow
async def undone(ctx):
    """Its activity is asked to cancel, and so is its timer; then it undoes, and is canceled."""
    try:
        await ctx.gather(ctx.activity("nobody", start_to_close=10, queue="other"), ctx.timer(hours(1)))
    except Cancelled:
        await ctx.activity(say, "undone", start_to_close=10)
        raise


@workflow
async def waiting(ctx, name="go"):
    return await ctx.signal(name)


@workflow
async def family(ctx):
    """One child is told to go on, one is canceled, one fails."""
    told, cancelled, bad = (
        ctx.child(waiting, id="told"), ctx.child(waiting, id="canceled", parent_close="Abandon"), ctx.child(failing),
    )
    await ctx.timer(10)
    await ctx.signal_workflow("told", "go", {"value": 7})
    await ctx.cancel_workflow("canceled")
    faults = []
    for child in (cancelled, bad):
        try:
            await child
        except ChildFailed as fault:
            faults.append([str(fault), fault.how])
    try:
        await ctx.signal_workflow("nobody", "go")
    except NoSuchWorkflow as fault:
        faults.append(str(fault))
    return [await told, told.run is not None, faults]


@workflow
async def beside(ctx):
    """Coroutines of one workflow run beside each other, in an order that is always the same."""
    async def steps(name):
        said = []
        for i in range(2):
            said.append(await ctx.activity(say, name, i, start_to_close=10))
        return said
    return await ctx.gather(steps("a"), steps("b"), ctx.timer(5))


serial = itertools.count(1)


@workflow
async def remembered(ctx):
    number = ctx.once(lambda: next(serial))
    draw = ctx.random.random()
    await ctx.timer(10)
    again = ctx.once(lambda: next(serial))
    await ctx.timer(10)
    return [number, again, draw]


@workflow
async def called_off(ctx):
    """A timer fires in the turn in which a signal cancels it, and an activity is given up at once."""
    done = await ctx.first(ctx.signal("go"), ctx.timer(100))
    ctx.activity(say, "never", start_to_close=10).cancel()
    return done.index


ALL = [
    taken_in_order, tried, timed_out, beating, stopping, too_late, overlong, elsewhere, year, counted, failing, undone, waiting, family, beside,
    remembered, called_off,
]
ACTIVITIES = [say, fail, refuse, beat, stopped, overtaken, too_long]


@needs_program
class Workflows(unittest.TestCase):
    shards = 1

    def setUp(self):
        CALLS.clear()
        logging.getLogger("wfserve.workflows").setLevel(logging.CRITICAL)
        self.clock = JumpingClock()
        self.service = Service([str(BUILT), "--queues", "main,other", "--shards", str(self.shards)], self.clock)
        self.addCleanup(self.service.close)
        self.driver = Driver(self.service, self.shards)
        self.worker = Worker(self.service, "main", ALL, ACTIVITIES, self.clock)

    def start(self, function, *arguments, id="w"):
        self.service.start(id, function.__name__, input=input_of(arguments))
        self.idle()

    def idle(self):
        run_until_idle(self.driver, [self.worker])

    def ended(self, id="w"):
        """How a workflow ends, and its result or message."""
        status = run_until_closed(self.driver, [self.worker], self.clock, id)
        attrs = self.service.history(id)[-1]["attrs"]
        return status, value_of(attrs.get("result") or attrs.get("message") or "")

    def types(self, id="w"):
        return [event["type"] for event in self.service.history(id)]

    def test_signals_are_taken_once_and_in_order(self):
        self.start(taken_in_order)
        for i in range(3):
            self.service.signal("w", "s", text_of(i))
        self.service.signal("w", "other")
        self.service.signal("w", "s", text_of("last"))
        self.assertEqual(self.ended(), ("Completed", [0, 1, 0, 2, "last"]))

    def test_an_activity_is_tried_again_as_its_policy_says(self):
        self.start(tried)
        self.assertEqual(self.ended(), ("Completed", [
            ["no bread", "ValueError", "MaximumAttemptsReached"], "NonRetryableFailure",
            ["never bread", "NonRetryableFailure"],
        ]))
        self.assertEqual(self.clock.now, 100 + 200)

    def test_an_activity_that_nobody_takes_times_out(self):
        self.start(timed_out)
        self.assertEqual(self.ended(), ("Completed", ["ScheduleToStart", "Timeout", 500]))

    def test_the_next_attempt_learns_what_the_last_one_told(self):
        self.start(beating)
        self.assertEqual(self.ended(), ("Completed", {"begun": 2, "attempts": 2}))

    def test_an_activity_learns_by_its_heartbeat_that_it_is_to_stop(self):
        other = Worker(self.service, "main", ALL, clock=self.clock)
        MEANWHILE[:] = [
            lambda: None,
            lambda: self.service.signal("w", "stop"),
            lambda: run_until_idle(self.driver, [other]),
        ]
        self.start(stopping)
        self.assertEqual(self.ended()[0], "Completed")
        types = self.types()
        self.assertLess(types.index("ActivityTaskCancelRequested"), types.index("ActivityTaskCanceled"))
        self.assertIn("ActivityTaskStarted", types)

    def test_an_attempt_that_was_taken_away_says_nothing(self):
        def overtake():
            self.clock.now += 500
            self.driver.turn()

        MEANWHILE[:] = [overtake]
        self.start(too_late)
        self.assertEqual(self.ended(), ("Completed", 2))
        self.assertEqual(CALLS, [("over", "attempt 1 of 1 is over")])

    def test_a_result_that_is_too_long_fails_the_activity(self):
        self.start(overlong)
        status, message = self.ended()
        self.assertEqual(status, "Failed")
        self.assertIn("the result of too_long has 5002 bytes, and a text has at most 4096", message)

    def test_an_activity_has_a_queue_of_its_own(self):
        self.start(elsewhere)
        self.assertEqual(CALLS, [])
        workers = [self.worker, Worker(self.service, "other", activities=[say], clock=self.clock)]
        self.assertEqual(run_until_closed(self.driver, workers, self.clock, "w"), "Completed")
        self.assertEqual(CALLS, [("elsewhere",)])

    def test_a_year_of_timers_takes_no_time(self):
        begun = time.monotonic()
        self.start(year)
        self.assertEqual(self.ended(), ("Completed", days(364)))
        # A year would take a year; a busy machine takes some seconds.
        self.assertLess(time.monotonic() - begun, 300)

    def test_a_run_continues_as_new(self):
        self.start(counted, 3)
        self.assertEqual(self.ended(), ("Completed", "done"))
        self.assertIn("continued_from", self.service.history("w")[0]["attrs"])

    def test_a_cancellation_is_an_exception_that_can_be_answered(self):
        self.start(undone)
        self.service.request_cancel("w")
        self.assertEqual(self.ended()[0], "Canceled")
        self.assertEqual(CALLS, [("undone",)])
        types = self.types()
        for kind in ("ActivityTaskCancelRequested", "ActivityTaskCanceled", "TimerCanceled"):
            self.assertIn(kind, types)

    def test_children_and_other_workflows(self):
        self.start(family)
        self.assertEqual(self.ended(), ("Completed", [
            {"value": 7}, True,
            [["the child canceled: canceled", "canceled"], ["the child w/3: it can't be done", "failed"],
             "nobody is not open"],
        ]))

    def test_coroutines_run_beside_each_other(self):
        self.start(beside)
        self.assertEqual(self.ended(), ("Completed", [["a 0", "a 1"], ["b 0", "b 1"], None]))
        self.assertEqual(CALLS, [("a", 0), ("b", 0), ("a", 1), ("b", 1)])

    def test_a_value_is_made_once(self):
        self.start(remembered)
        status, (number, again, draw) = self.ended()
        self.assertEqual(again, number + 1)
        self.start(remembered, id="v")
        self.assertNotEqual(self.ended("v")[1][2], draw)

    def test_a_timer_that_fired_meanwhile_is_not_canceled(self):
        self.start(called_off)
        self.service.dispatch_turn()
        self.service.signal("w", "go")
        self.clock.now = 100
        self.service.timer_turn()
        self.assertEqual(self.ended(), ("Completed", 0))
        self.assertNotIn("ActivityTaskScheduled", self.types())
        self.assertNotIn("TimerCanceled", self.types())
        self.assertEqual(self.types().count("WorkflowTaskFailed"), 0)

    def test_what_comes_while_a_workflow_ends_is_learned_first(self):
        """A completion that doesn't know of a signal is refused, and the next attempt knows it."""
        self.start(waiting)
        self.service.signal("w", "go", text_of(1))
        self.driver.turn()
        task = self.service.poll_workflow_task()
        events = self.service.history("w")
        self.service.signal("w", "go", text_of(2))
        self.worker._decide(task, events)
        self.assertEqual(self.ended(), ("Completed", 1))
        self.assertEqual(self.types().count("WorkflowTaskFailed"), 1)


class WorkflowsOnThreeShards(Workflows):
    """The same, with transfers between shards."""

    shards = 3


@needs_program
class Mended(unittest.TestCase):
    """Code that disagrees with a history waits for mended code, and makes no loop of failures."""

    def setUp(self):
        logging.getLogger("wfserve.workflows").setLevel(logging.CRITICAL)
        CALLS.clear()
        self.clock = JumpingClock()
        self.service = Service([str(BUILT)], self.clock)
        self.addCleanup(self.service.close)
        self.driver = Driver(self.service)

    def worker(self, function):
        function.__name__ = "changing"
        return Worker(self.service, workflows=[workflow(function)], activities=[say], clock=self.clock)

    def begin(self, function):
        self.service.start("w", "changing")
        worker = self.worker(function)
        run_until_idle(self.driver, [worker])
        self.service.signal("w", "go")

    def failures(self):
        """The messages and causes of failed tasks; the same one says no more."""
        found = [e["attrs"] for e in self.service.history("w") if e["type"] == "WorkflowTaskFailed"]
        self.assertLessEqual(len(found), MOST_FAILURES)
        return sorted({attrs["message"] or attrs["cause"] for attrs in found})

    def pauses(self, worker):
        """How many tasks the workflow has after a minute of a worker whose code is wrong."""
        for _ in range(60):
            run_until_idle(self.driver, [worker])
            self.clock.now += 1_000
        return sum(event["type"] == "WorkflowTaskScheduled" for event in self.service.history("w"))

    async def right(ctx):
        await ctx.timer(hours(1))
        return await ctx.signal("go")

    async def wrong(ctx):
        await ctx.activity(say, "now", start_to_close=10)

    async def less(ctx):
        await ctx.signal("never")

    async def marking(ctx):
        """It doesn't get away with catching what is told it."""
        try:
            ctx.once(lambda: CALLS.append("made again"))
        except Exception:
            pass
        await ctx.timer(hours(1))

    async def marking_late(ctx):
        timer = ctx.timer(hours(1))
        ctx.once(lambda: CALLS.append("made again"))
        await timer

    async def raising(ctx):
        await ctx.timer(hours(1))
        raise KeyError("a mistake")

    async def faulty(ctx):
        timer = ctx.timer(hours(1))
        await ctx.signal("go")
        ctx.timer(5, id="1")
        await timer

    def test_it_waits_with_pauses_and_goes_on_when_it_is_mended(self):
        said = {
            Mended.wrong: 'event 5: the history has TimerStarted (timer_id "1", duration 3600000), and the code asked '
                          'for ActivityTaskScheduled (activity_id "1", activity_type "say", input "[\\"now\\"]")',
            Mended.less: 'event 5: the history has TimerStarted (timer_id "1", duration 3600000), and the code asked '
                         'for nothing more',
            Mended.marking: 'event 5: the history has TimerStarted (timer_id "1", duration 3600000), and the code '
                            'asked for MarkerRecorded (name "once 1")',
            Mended.marking_late: 'event 5: the history has no command behind it, and the code asked for '
                                 'MarkerRecorded (name "once 1")',
        }
        for code, message in said.items():
            with self.subTest(message):
                self.setUp()
                self.begin(Mended.right)
                tasks = self.pauses(self.worker(code))
                self.assertEqual(self.failures(), [message])
                self.assertEqual(CALLS, [])
                self.assertIn(tasks, PAUSED)
                status = run_until_closed(self.driver, [self.worker(Mended.right)], self.clock, "w")
                self.assertEqual(status, "Completed")

    def test_a_mistake_of_the_code_fails_its_task_and_not_the_workflow(self):
        self.begin(Mended.right)
        self.clock.now += hours(2)
        self.assertIn(self.pauses(self.worker(Mended.raising)), PAUSED)
        self.assertEqual(self.failures(), ["KeyError: 'a mistake'"])
        self.assertEqual(
            run_until_closed(self.driver, [self.worker(Mended.right)], self.clock, "w"), "Completed"
        )

    def test_commands_that_are_at_fault_are_not_sent_again_and_again(self):
        self.begin(Mended.faulty)
        self.assertIn(self.pauses(self.worker(Mended.faulty)), PAUSED)
        self.assertEqual(self.failures(), ["StartTimerDuplicateId"])
        self.assertEqual(self.service.describe("w")["status"], "Running")

    def test_a_workflow_without_code_waits(self):
        self.service.start("w", "unknown")
        self.assertIn(self.pauses(self.worker(Mended.right)), PAUSED)
        self.assertEqual(self.failures(), ["this worker has no workflow unknown"])


@needs_program
class FullQueues(unittest.TestCase):
    def test_tasks_wait_until_their_queue_has_room(self):
        service = Service([str(BUILT), "--capacity", "1"], JumpingClock())
        self.addCleanup(service.close)
        for number in range(5):
            service.start(f"w{number}", "counted", input=input_of([0]))
        driver = Driver(service)
        self.assertEqual(driver.turn(), 1)
        run_until_idle(driver, [Worker(service, workflows=[counted], clock=service.clock)])
        statuses = [service.describe(f"w{number}")["status"] for number in range(5)]
        self.assertEqual(statuses, ["Completed"] * 5)


@needs_program
class AtTheWallsClock(unittest.TestCase):
    def test_several_workers_and_a_driver_on_threads(self):
        @workflow
        async def quick(ctx, number):
            await ctx.timer(20)
            return await ctx.activity(say, "number", number, start_to_close=seconds(5))

        service, stop = Service([str(BUILT)], WallClock()), threading.Event()
        self.addCleanup(service.close)
        works = [Driver(service).run, *[Worker(service, workflows=[quick], activities=[say]).run for _ in range(3)]]
        threads = [threading.Thread(target=work, args=(stop,)) for work in works]
        for thread in threads:
            thread.start()
        try:
            for number in range(20):
                service.start(f"w{number}", "quick", input=input_of([number]))
            self.until(lambda: all(service.describe(f"w{n}")["status"] == "Completed" for n in range(20)))
        finally:
            stop.set()
            for thread in threads:
                thread.join()
        for number in range(20):
            self.assertEqual(service.history(f"w{number}")[-1]["attrs"]["result"], f'"number {number}"')

    def until(self, holds):
        late = time.monotonic() + 60
        while not holds():
            self.assertLess(time.monotonic(), late)
            time.sleep(0.02)


if __name__ == "__main__":
    unittest.main()
