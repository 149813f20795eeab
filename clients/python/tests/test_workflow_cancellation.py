"""Cancellations: what the history has comes first, and what moves money or compensates is waited for."""

import importlib
import unittest

from support.programs import needs_program
from support.workflow_fixture import WithAService
from examples import older, store
from wfserve.workflows import Cancellation, Cancelled, NonDeterminism, attempt, check, hours, seconds, workflow
from wfserve.workflows.replay import Replay

DONE = []
# What happens while the activity `interrupted` is at work.
MEANWHILE = []


def charge():
    DONE.append("charge")
    return "receipt 4711"


def undo(what):
    DONE.append(f"undo {what}")


def interrupted(outcome):
    """Ends as it is told, once its workflow was asked to cancel."""
    for act in MEANWHILE:
        act()
    if outcome == "done":
        return "done all the same"
    if outcome == "failed":
        raise ConnectionError("the line went down")
    attempt().heartbeat()


@workflow
async def paid(ctx):
    receipt = None
    try:
        receipt = await ctx.activity(charge, start_to_close=seconds(5))
        await ctx.signal("never")
    except Cancelled:
        return f"refunded {receipt}"


@workflow
async def waits(ctx, outcome):
    """Waits for a cancelled activity, and learns of the cancellation where it waits next, if not there."""
    said = []
    try:
        said.append(await ctx.activity(
            interrupted, outcome, start_to_close=seconds(5), cancellation=Cancellation.WAIT_CANCELLATION_COMPLETED,
        ))
        await ctx.timer(hours(1))
    except Cancelled as cancelled:
        said += ["cancelled", type(cancelled.__cause__).__name__]
    return said


@workflow
async def abandons(ctx):
    try:
        await ctx.activity(charge, start_to_close=seconds(5), cancellation=Cancellation.ABANDON)
    except Cancelled:
        return "left alone"


@workflow
async def child(ctx):
    try:
        await ctx.timer(hours(1))
    except Cancelled:
        await ctx.activity(undo, ctx.workflow_id, start_to_close=seconds(5))
        raise


@workflow
async def parent(ctx):
    await ctx.child(child, id="child")


@workflow
async def parent_of_two(ctx):
    await ctx.gather(ctx.child(child, id="child"), ctx.child(child, id="child-2"))


@workflow
async def parent_in_a_hurry(ctx):
    """Gives its child up and ends: the run closes once the child has."""
    return (await ctx.first(ctx.child(child, id="child"), ctx.timer(seconds(1)))).index


@workflow
async def parent_that_does_not_wait(ctx):
    await ctx.child(child, id="child", cancellation=Cancellation.TRY_CANCEL)


@workflow
async def shields(ctx):
    charging = ctx.activity(charge, start_to_close=seconds(5))
    try:
        await ctx.shield(charging)
    except Cancelled:
        return f"{await charging}, and it was asked to cancel"


@workflow
async def scoped(ctx):
    """One part is cancelled by itself, and the other one is not cancelled from outside."""
    with ctx.scope() as part:
        ctx.task(cancels(ctx, part))
        await ctx.timer(hours(1))
    with ctx.scope(shield=True):
        receipt = await ctx.activity(charge, start_to_close=seconds(5))
    try:
        await ctx.timer(hours(1))
    except Cancelled:
        return [part.cancelled, receipt]


async def cancels(ctx, scope):
    await ctx.timer(seconds(1))
    scope.cancel()


@workflow
async def told_once(ctx):
    """A cancellation of the whole passes a scope that was cancelled too."""
    said = []
    try:
        with ctx.scope() as part:
            ctx.task(cancels(ctx, part))
            await ctx.activity(
                interrupted, "cancelled", start_to_close=seconds(50), heartbeat=seconds(50),
                cancellation=Cancellation.WAIT_CANCELLATION_COMPLETED,
            )
        said.append("after the scope")
    except Cancelled:
        said.append("cancelled")
    await ctx.timer(seconds(1))
    return said


@workflow
async def goes_on(ctx, shield):
    """Goes on in a new run for each charge. A cancellation that comes with the charge is not lost with the run."""
    with ctx.scope(shield=shield):
        receipt = await ctx.activity(charge, start_to_close=seconds(5))
    try:
        ctx.continue_as_new(shield)
    except Cancelled:
        return f"refunded {receipt}"


@workflow
async def goes_on_after_a_child(ctx, gone_on=False):
    """It has come to its end, and its run waits for the end of the child that it gave up."""
    if not gone_on:
        await ctx.first(ctx.child(child, id="child"), ctx.timer(seconds(1)))
        ctx.continue_as_new(True)
    try:
        await ctx.signal("never")
    except Cancelled:
        return "cancelled in the next run"


@workflow
async def given_up(ctx, by):
    """A charge in a coroutine that is given up where a signal or a timer comes first."""
    receipts = []

    async def pay():
        receipts.append(await ctx.activity(charge, start_to_close=seconds(5)))

    done = await ctx.first(pay(), ctx.signal("call off") if by == "signal" else ctx.timer(seconds(1)))
    await ctx.timer(1)
    return [done.index, receipts]


@workflow
async def words(ctx):
    """A word that was asked for in the task of the cancellation is not sent."""
    await ctx.signal("go")
    try:
        await ctx.signal_workflow("other", "hello")
    except Cancelled:
        return "not sent"


@needs_program
class Cancellations(WithAService):
    WORKFLOWS = [
        paid, waits, abandons, child, parent, parent_of_two, parent_in_a_hurry, parent_that_does_not_wait, shields, scoped,
        told_once, words, goes_on, goes_on_after_a_child,
        given_up,
    ]
    ACTIVITIES = [charge, undo, interrupted]

    def setUp(self):
        super().setUp()
        DONE.clear()
        MEANWHILE.clear()

    def cancel_while_at_work(self):
        """The activity's workflow is cancelled, and decides, while the activity is at work."""
        MEANWHILE[:] = [lambda: self.service.request_cancel("w"), self.decide]

    def test_a_charge_that_is_in_the_history_is_known_to_the_compensation(self):
        for order in ("cancel first", "charge first"):
            with self.subTest(order):
                self.setUp()
                self.start(paid)
                self.decide()
                task = self.service.poll_activity_task()
                if order == "cancel first":
                    self.service.request_cancel("w")
                self.service.complete_activity(task, '"receipt 4711"')
                if order == "charge first":
                    self.service.request_cancel("w")
                self.assertEqual(self.ended(), ("Completed", "refunded receipt 4711"))

    def test_an_activity_is_waited_for_and_its_end_is_known(self):
        wanted = {
            "done": ["done all the same", "cancelled", "NoneType"],
            "cancelled": ["cancelled", "NoneType"],
            "failed": ["cancelled", "ActivityFailed"],
        }
        for outcome, said in wanted.items():
            with self.subTest(outcome):
                self.setUp()
                self.cancel_while_at_work()
                self.start(waits, outcome)
                self.assertEqual(self.ended(), ("Completed", said))
                self.assertIn("ActivityTaskCancelRequested", self.types())

    def test_an_abandoned_activity_is_not_asked_to_cancel(self):
        self.start(abandons)
        self.decide()
        self.service.request_cancel("w")
        self.decide()
        self.assertEqual(self.ended(), ("Completed", "left alone"))
        self.assertNotIn("ActivityTaskCancelRequested", self.types())

    def test_a_cancelled_parents_children_compensate_before_it_closes(self):
        for function, children in ((parent, ["child"]), (parent_of_two, ["child", "child-2"])):
            with self.subTest(function.__name__):
                self.setUp()
                self.start(function)
                self.idle()
                self.service.request_cancel("w")
                self.assertEqual(self.ended()[0], "Canceled")
                self.assertEqual(sorted(DONE), [f"undo {name}" for name in children])
                for name in children:
                    self.assertEqual(self.types(name)[-1], "WorkflowExecutionCanceled")
                self.assertEqual(self.types().count("ChildWorkflowExecutionCanceled"), len(children))

    def test_a_run_closes_once_the_child_that_it_gave_up_has(self):
        self.start(parent_in_a_hurry)
        self.assertEqual(self.ended(), ("Completed", 1))
        self.assertEqual(DONE, ["undo child"])
        self.assertEqual(self.types("child")[-1], "WorkflowExecutionCanceled")

    def test_a_parent_may_choose_not_to_wait(self):
        self.start(parent_that_does_not_wait)
        self.idle()
        self.service.request_cancel("w")
        self.assertEqual(self.ended()[0], "Canceled")
        self.assertEqual(self.types("child")[-1], "WorkflowExecutionTerminated")

    def test_what_a_shield_has_goes_on(self):
        self.start(shields)
        self.decide()
        self.service.request_cancel("w")
        self.assertEqual(self.ended(), ("Completed", "receipt 4711, and it was asked to cancel"))
        self.assertNotIn("ActivityTaskCancelRequested", self.types())

    def test_a_scope_is_cancelled_by_itself_and_a_shielded_one_is_not_from_outside(self):
        self.start(scoped)
        self.idle()
        self.clock.now += 1_000
        self.decide()
        self.service.request_cancel("w")
        self.assertEqual(self.ended(), ("Completed", [True, "receipt 4711"]))
        self.assertEqual(DONE, ["charge"])
        self.assertIn("TimerCanceled", self.types())

    def test_a_cancellation_from_outside_does_not_end_at_a_scope(self):
        def ring():
            self.clock.now += 1_000

        MEANWHILE[:] = [ring, self.decide, lambda: self.service.request_cancel("w"), self.decide]
        self.start(told_once)
        self.assertEqual(self.ended(), ("Completed", ["cancelled"]))

    def test_a_run_that_goes_on_in_a_new_one_loses_no_cancellation(self):
        for shield in (False, True):
            with self.subTest(shield=shield):
                self.setUp()
                self.start(goes_on, shield)
                self.decide()
                task = self.service.poll_activity_task()
                self.service.request_cancel("w")
                if shield:
                    self.decide()
                self.service.complete_activity(task, '"receipt 4711"')
                self.assertEqual(self.ended(), ("Completed", "refunded receipt 4711"))

    def test_the_next_run_is_asked_where_the_code_of_this_one_has_ended(self):
        self.start(goes_on_after_a_child)
        self.idle()
        self.clock.now += 1_000
        self.decide()
        self.service.request_cancel("w")
        self.decide()
        self.assertEqual(DONE, [])
        self.assertEqual(self.ended(), ("Completed", "cancelled in the next run"))
        self.assertEqual(DONE, ["undo child"])

    def test_what_ended_in_the_task_in_which_it_is_given_up_has_its_end(self):
        def ring():
            self.clock.now += 1_000
            self.service.timer_turn()

        others = {"signal": lambda: self.service.signal("w", "call off"), "timer": ring}
        wanted = {("signal", True): 1, ("signal", False): 1, ("timer", True): 0, ("timer", False): 1}
        for (by, charge_first), index in wanted.items():
            with self.subTest(by, charge_first=charge_first):
                self.setUp()
                self.start(given_up, by)
                self.decide()
                task = self.service.poll_activity_task()
                acts = [lambda: self.service.complete_activity(task, '"receipt 4711"'), others[by]]
                for act in acts if charge_first else acts[::-1]:
                    act()
                self.assertEqual(self.ended(), ("Completed", [index, ["receipt 4711"]]))
                self.assertNotIn("ActivityTaskCancelRequested", self.types())

    def test_a_word_that_was_not_sent_is_taken_back(self):
        self.start(words)
        self.idle()
        self.service.signal("w", "go")
        self.service.request_cancel("w")
        self.assertEqual(self.ended(), ("Completed", "not sent"))
        self.assertNotIn("SignalExternalWorkflowExecutionInitiated", self.types())


class Older(unittest.TestCase):
    """Histories that an earlier version of this client made are replayed by the rules of their time."""

    def stored(self):
        for reply in store.stored("older"):
            function = getattr(older, reply["events"][0]["attrs"]["workflow_type"])
            yield function, reply["events"], reply["run"]

    def test_the_code_agrees_with_them_wherever_a_worker_took_a_task(self):
        replayed = 0
        for function, events, run in self.stored():
            check(function, events, run)
            for i, event in enumerate(events):
                if event["type"] == "WorkflowTaskStarted":
                    check(function, events[:i + 1], run)
                    replayed += 1
        self.assertGreater(replayed, 10)

    def test_by_the_present_rules_they_would_disagree(self):
        disagree = set()
        for function, events, run in self.stored():
            try:
                Replay(function, events, run).run()
            except NonDeterminism:
                disagree.add(function.__name__)
        self.assertEqual(disagree, {"called_off", "paid", "parent", "counted"})

    def test_code_that_agrees_by_neither_rules_is_told_by_the_present_ones(self):
        events, run = next((events, run) for function, events, run in self.stored() if function is older.paid)
        other = importlib.import_module("examples.order").order
        with self.assertRaises(TypeError):
            check(other, events, run)
        with self.assertRaisesRegex(NonDeterminism, "the code asked for ActivityTaskScheduled"):
            check(changed, events, run)


@workflow
async def changed(ctx):
    await ctx.activity("another", start_to_close=seconds(5))


if __name__ == "__main__":
    unittest.main()
