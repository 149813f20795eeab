"""wfserve.testing: time that jumps, mocks, an activity alone, a replayer; and the test that the documents show."""

import dataclasses
import json
import os
import pathlib
import tempfile
import time
import unittest
from unittest import mock

from support import CLIENT
from support.programs import BUILT, needs_program
from wfserve.errors import NotCompleted
from wfserve.testing import (
    ActivityEnvironment, NoProgram, NothingHappens, Replayer, TaskFailed, WorkflowEnvironment, find_program,
)
from wfserve.workflows import (
    Cancelled, Failure, NonDeterminism, NonRetryable, Retry, activity, attempt, days, hours, seconds, workflow,
)


@dataclasses.dataclass
class Money:
    cents: int


@activity(name="Charge")
def charge(amount: Money) -> Money:
    raise AssertionError("the test has no bank")


def ship(order_id):
    return f"{order_id} is on its way"


@workflow
async def order(ctx, order_id, amount: Money):
    paid = await ctx.activity(charge, amount, start_to_close=seconds(30), retry=Retry(attempts=3, non_retryable=["KeyError"]))
    done = await ctx.first(ctx.timer(days(2)), ctx.signal("call off"))
    if done.index == 1:
        return "called off"
    return [paid.cents, await ctx.activity(ship, order_id, start_to_close=seconds(30))]


@workflow
async def waits(ctx):
    return await ctx.signal("never sent")


@workflow
async def broken(ctx):
    await ctx.timer(seconds(1))
    return {}["nothing"]


@workflow
async def naps(ctx):
    for _ in range(3):
        await ctx.timer(hours(1))
    return ctx.now


def copies(files):
    done = []
    for number, name in enumerate(files):
        attempt().heartbeat(number)
        done.append(name.upper())
    return done


@needs_program
class Environment(unittest.TestCase):
    def environment(self, *workflows, activities=()):
        env = WorkflowEnvironment(workflows, activities, [str(BUILT)])
        self.addCleanup(env.close)
        return env

    def test_what_the_documents_show(self):
        from examples import order_test
        with mock.patch.dict(os.environ, {"WFSERVE": str(BUILT)}):
            order_test.test_an_order_that_is_called_off_gets_its_money_back()

    def test_days_take_no_time(self):
        env, begun = self.environment(order, activities=[charge, ship]), time.monotonic()
        env.mock(charge, lambda amount: Money(amount.cents - 1))
        self.assertEqual(env.execute(order, "order-17", Money(100), id="order-17"), [99, "order-17 is on its way"])
        self.assertEqual(env.clock.now, days(2))
        self.assertLess(time.monotonic() - begun, 30)
        self.assertEqual(env.calls["Charge"], [[Money(100)]])

    def test_an_activity_that_fails_is_tried_again(self):
        env = self.environment(order, activities=[charge, ship])
        answers = iter([OSError("away"), OSError("away"), Money(5)])

        def answer(amount):
            given = next(answers)
            if isinstance(given, Exception):
                raise given
            return given

        env.mock(charge, answer)
        self.assertEqual(env.execute(order, "o", Money(5))[0], 5)
        self.assertEqual(len(env.calls["Charge"]), 3)

    def test_exceptions_and_values_as_answers(self):
        env = self.environment(order, activities=[charge, ship])
        env.mock(charge, KeyError("declined"))
        with self.assertRaisesRegex(NotCompleted, "test: Failed: 'declined'"):
            env.execute(order, "o", Money(5))
        env.mock(charge, Money(7))
        env.mock(ship, "by train")
        self.assertEqual(env.execute(order, "o", Money(5), id="next"), [7, "by train"])

    def test_signals_in_the_middle_of_a_wait(self):
        env = self.environment(order, activities=[charge, ship])
        env.mock("Charge", Money(1))
        handle = env.start(order, "o", Money(5))
        env.sleep(hours(3))
        self.assertEqual((env.clock.now, handle.describe().pending[0].kind), (hours(3), "timer"))
        handle.signal("call off")
        self.assertEqual(handle.result(), "called off")
        self.assertEqual(env.clock.now, hours(3))

    def test_a_wait_for_what_never_comes_is_said(self):
        env = self.environment(waits)
        with self.assertRaisesRegex(NothingHappens, "at 0 ms nothing is due: test waits for a signal or a condition"):
            env.execute(waits)

    def test_a_fault_of_the_code_is_raised_and_not_tried_for_ever(self):
        env = self.environment(broken)
        with self.assertLogs("wfserve.workflows", "WARNING"), self.assertRaisesRegex(TaskFailed, "test: KeyError: 'nothing'"):
            env.execute(broken)

    def test_a_timeout_of_a_run(self):
        env = self.environment(waits)
        with self.assertRaisesRegex(NotCompleted, "test: TimedOut"):
            env.execute(waits, run_timeout=hours(5))
        self.assertEqual(env.clock.now, hours(5))

    def test_several_workflows_share_the_time(self):
        env = self.environment(naps, waits)
        first = env.start(naps, id="first")
        env.sleep(hours(1))
        second = env.start(naps, id="second")
        self.assertEqual((first.result(), second.result()), (hours(3), hours(4)))


class Alone(unittest.TestCase):
    def test_an_activity_and_its_heartbeats(self):
        env = ActivityEnvironment()
        self.assertEqual(env.run(copies, ["a", "b"]), ["A", "B"])
        self.assertEqual(env.heartbeats, [0, 1])

    def test_an_activity_that_is_asked_to_cancel(self):
        env = ActivityEnvironment()
        env.cancel_requested = True
        with self.assertRaises(Cancelled):
            env.run(copies, ["a"])

    def test_a_later_attempt_has_what_the_earlier_one_told(self):
        env = ActivityEnvironment(attempt=3, details={"at": 7})
        self.assertEqual(env.run(lambda: [attempt().number, attempt().details]), [3, {"at": 7}])

    def test_arguments_are_made_by_hints(self):
        def half(amount: Money):
            if amount.cents % 2:
                raise NonRetryable("odd")
            return Money(amount.cents // 2)

        self.assertEqual(ActivityEnvironment().run(half, Money(8)), Money(4))
        with self.assertRaises(NonRetryable):
            ActivityEnvironment().run(half, Money(7))


class Replays(unittest.TestCase):
    HISTORIES = CLIENT / "examples/histories"

    def test_a_folder_of_histories(self):
        from examples import booking, children, older, order as ordered, payment, provisioning
        codes = [it for module in (booking, children, older, ordered, payment, provisioning) for it in module.WORKFLOWS]
        names = {}
        for code in codes:
            names.setdefault(code.__name__, code)
        with tempfile.TemporaryDirectory() as folder:
            count = 0
            for name in ("order", "payment", "booking"):
                text = (self.HISTORIES / f"{name}.jsonl").read_text(encoding="utf-8")
                (pathlib.Path(folder) / f"{name}.jsonl").write_text(text, encoding="utf-8")
                count += len(text.splitlines())
            self.assertEqual(Replayer(names.values()).replay(folder), count)
            with self.assertRaisesRegex(KeyError, "has a history of"):
                Replayer([ordered.order]).replay(folder)

    def test_a_history_that_disagrees(self):
        from examples import order as ordered
        file = self.HISTORIES / "order.jsonl"
        self.assertGreater(Replayer([ordered.order]).replay(str(file)), 0)
        with mock.patch("examples.order.hours", lambda count: 7), self.assertRaises(NonDeterminism):
            Replayer([ordered.order]).replay(str(file))

    def test_what_is_no_history_is_passed_over(self):
        with tempfile.TemporaryDirectory() as folder:
            (pathlib.Path(folder) / "a.jsonl").write_text(json.dumps({"ok": "signaled", "line": 1}) + "\n", encoding="utf-8")
            self.assertEqual(Replayer([waits]).replay(folder), 0)


class Programs(unittest.TestCase):
    def test_the_one_that_is_named(self):
        with mock.patch.dict(os.environ, {"WFSERVE": "mine"}):
            self.assertEqual(find_program(), "mine")

    def test_none_is_said_with_what_builds_one(self):
        with mock.patch.dict(os.environ), mock.patch("wfserve.testing.program.PLACES", ()):
            os.environ.pop("WFSERVE", None)
            with self.assertRaisesRegex(NoProgram, "tools/unproved_program.py"):
                find_program()

    def test_errors_are_no_failures_of_workflows(self):
        for error in (NothingHappens, TaskFailed, NoProgram):
            self.assertFalse(issubclass(error, Failure))


if __name__ == "__main__":
    unittest.main()
