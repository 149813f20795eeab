"""Handlers of signals and queries, conditions, patches, and what a run knows of itself. The fixture has a new
worker at each step, so each of them is replayed at every task; and once more at the end, under the guard."""

import logging
import unittest

from support.programs import needs_program
from support.workflow_fixture import WithAService
from wfserve.calls import Calls
from wfserve.client import Client
from wfserve.workflows import (
    ConditionTimedOut, Failure, NoSuchQuery, NonDeterminism, WorkflowFailed, activity, check, hours, input_of, seconds,
    workflow,
)
from wfserve.workflows.info import SUGGESTED_LENGTH, info_of


def charge(amount):
    return f"receipt of {amount}"


@activity(name="Charge.v2")
def charge_anew(amount):
    return f"new receipt of {amount}"


@workflow(name="Approval")
async def approval(ctx, amount):
    approved, notes = [], []
    ctx.on_signal("approve", approved.append)
    ctx.on_signal("note", notes.append)
    ctx.on_query("state", lambda: {"approved": approved, "notes": len(notes)})
    try:
        await ctx.wait_condition(lambda: len(approved) >= 2, timeout=hours(1))
    except TimeoutError:
        return {"paid": False, "approved": approved}
    return {"paid": await ctx.activity(charge, amount, start_to_close=seconds(9)), "notes": notes}


@workflow
async def asks(ctx):
    """Its handler waits: for an activity, and one of its calls may be under way while another one begins."""
    receipts = []

    async def pay(amount):
        receipts.append(await ctx.activity(charge_anew, amount, start_to_close=seconds(9)))

    ctx.on_signal("pay", pay)
    ctx.on_signal("stop", lambda: receipts.append("stopped"))
    await ctx.wait_condition(lambda: "stopped" in receipts)
    await ctx.wait_condition(lambda: ctx.all_handlers_finished)
    return receipts


@workflow
async def breaks(ctx, how):
    def broken(value):
        raise {"failure": WorkflowFailed, "mistake": KeyError}[how](value)

    ctx.on_signal("go", broken)
    await ctx.timer(hours(1))
    return "not heard of"


@workflow
async def goes_on(ctx, count=0):
    def count_on():
        ctx.continue_as_new(count + 1)

    if count < 2:
        ctx.on_signal("next", count_on)
    await ctx.wait_condition(lambda: count == 2)
    return count


@workflow
async def registers_late(ctx):
    await ctx.timer(seconds(5))
    found = []
    ctx.on_signal("s", found.append)
    found.append("registered")
    await ctx.wait_condition(lambda: len(found) == 4)
    return found


@workflow
async def condition_that_fails(ctx):
    await ctx.wait_condition(lambda: {}["nothing"])


@workflow
async def gives_up(ctx):
    condition = ctx.task(ctx.wait_condition(lambda: False))
    done = await ctx.first(condition, ctx.timer(seconds(1)))
    await ctx.timer(seconds(1))
    return [done.index, condition.done]


@workflow
async def knows_itself(ctx):
    lengths = [ctx.info.history_length]
    ctx.logger.warning("at %d events", ctx.info.history_length)
    for _ in range(3):
        await ctx.timer(seconds(1))
        lengths.append(ctx.info.history_length)
        ctx.logger.warning("at %d events", ctx.info.history_length)
    info = ctx.info
    return {"lengths": lengths, "type": info.workflow_type, "queue": info.task_queue, "timeout": info.task_timeout,
            "new": info.continue_as_new_suggested, "run": info.run == ctx.run}


@workflow(name="patched")
async def before_the_patch(ctx):
    await ctx.timer(seconds(1))
    await ctx.timer(seconds(2))
    return "old"


@workflow(name="patched")
async def with_the_patch(ctx):
    await ctx.timer(seconds(1))
    if ctx.patched("ask the bank"):
        await ctx.activity(charge, 1, start_to_close=seconds(9))
        return ["new", ctx.patched("ask the bank")]
    await ctx.timer(seconds(2))
    return ["old", ctx.patched("ask the bank")]


@workflow(name="patched")
async def after_the_patch(ctx):
    await ctx.timer(seconds(1))
    ctx.deprecate_patch("ask the bank")
    await ctx.activity(charge, 1, start_to_close=seconds(9))
    return ["new", True]


@needs_program
class Handled(WithAService):
    WORKFLOWS = [approval, asks, breaks, goes_on, registers_late, condition_that_fails, gives_up, knows_itself]
    ACTIVITIES = [charge, charge_anew]

    def start(self, function, *arguments, id="w"):
        return Client(self.service).start(function, *arguments, id=id)

    def replays(self, function, id="w"):
        """The code agrees with what the history is by now."""
        reply = self.service.call("history", workflow_id=id)
        check(function, reply["events"], reply["run"])

    def test_signals_are_handled_until_a_condition_holds(self):
        handle = self.start(approval, 49)
        self.assertEqual(self.service.history("w")[0]["attrs"]["workflow_type"], "Approval")
        for who in ("ann", "bob"):
            handle.signal("note", {"from": who})
            self.idle()
            handle.signal("approve", who)
        self.assertEqual(self.ended(), ("Completed", {"paid": "receipt of 49", "notes": [{"from": "ann"}, {"from": "bob"}]}))
        self.replays(approval)

    def test_a_condition_that_does_not_hold_in_time(self):
        self.start(approval, 49).signal("approve", "ann")
        self.assertEqual(self.ended(), ("Completed", {"paid": False, "approved": ["ann"]}))
        self.assertEqual(self.clock.now, hours(1))
        self.assertTrue(issubclass(ConditionTimedOut, Failure))
        self.replays(approval)

    def test_all_signals_of_a_task_are_handled_before_the_code_goes_on(self):
        handle = self.start(approval, 49)
        for name in ("approve", "note", "approve", "note"):
            handle.signal(name, name)
        self.assertEqual(self.ended()[1]["notes"], ["note", "note"])

    def test_a_query_is_answered_from_the_history_and_writes_nothing(self):
        handle = self.start(approval, 49)
        self.assertEqual(handle.query(approval, "state"), {"approved": [], "notes": 0})
        handle.signal("approve", "ann")
        self.assertEqual(handle.query(approval, "state"), {"approved": ["ann"], "notes": 0})
        before = self.service.history("w")
        self.idle()
        handle.signal("note", 1)
        self.assertEqual(handle.query(approval, "state"), {"approved": ["ann"], "notes": 1})
        handle.signal("approve", "bob")
        self.ended()
        self.assertEqual(handle.query(approval, "state"), {"approved": ["ann", "bob"], "notes": 1})
        self.assertEqual([event["type"] for event in before], self.types()[:len(before)])
        self.assertFalse([kind for kind in self.types() if "Query" in kind])
        with self.assertRaisesRegex(NoSuchQuery, "no query named 'total'; it answers state"):
            handle.query(approval, "total")

    def test_handlers_that_wait_are_beside_each_other(self):
        handle = self.start(asks)
        handle.signal("pay", 1)
        self.decide()
        handle.signal("pay", 2)
        handle.signal("stop")
        self.decide()
        self.assertEqual(self.types().count("ActivityTaskScheduled"), 2)
        self.assertEqual(self.service.history("w")[-1]["type"], "ActivityTaskScheduled")
        scheduled = [e["attrs"]["activity_type"] for e in self.service.history("w") if e["type"] == "ActivityTaskScheduled"]
        self.assertEqual(scheduled, ["Charge.v2", "Charge.v2"])
        self.assertEqual(self.ended(), ("Completed", ["stopped", "new receipt of 1", "new receipt of 2"]))
        self.replays(asks)

    def test_a_failure_of_a_handler_fails_the_workflow(self):
        self.start(breaks, "failure").signal("go", "declined")
        self.assertEqual(self.ended(), ("Failed", "declined"))
        self.replays(breaks)

    def test_a_mistake_in_a_handler_fails_the_task(self):
        self.start(breaks, "mistake").signal("go", "oops")
        self.idle()
        failed = [event for event in self.service.history("w") if event["type"] == "WorkflowTaskFailed"]
        self.assertIn("KeyError: 'oops'", failed[0]["attrs"]["message"])

    def test_a_handler_that_goes_on_in_a_new_run(self):
        handle = self.start(goes_on)
        for _ in range(2):
            self.idle()
            self.service.signal("w", "next")
            self.idle()
        self.assertEqual(handle.result(), 2)
        self.assertEqual(len({run["run"] for run in (self.service.call("history", workflow_id="w"),)} | {handle.run}), 2)

    def test_signals_that_came_before_their_handler(self):
        handle = self.start(registers_late)
        for number in (1, 2):
            handle.signal("s", number)
        self.idle()
        self.clock.now = seconds(5)
        self.idle()
        handle.signal("s", 3)
        self.assertEqual(self.ended(), ("Completed", ["registered", 1, 2, 3]))
        self.replays(registers_late)

    def test_a_condition_whose_function_fails(self):
        self.start(condition_that_fails)
        self.idle()
        failed = [event for event in self.service.history("w") if event["type"] == "WorkflowTaskFailed"]
        self.assertIn("KeyError: 'nothing'", failed[0]["attrs"]["message"])

    def test_a_condition_that_is_given_up(self):
        self.start(gives_up)
        self.assertEqual(self.ended(), ("Completed", [1, True]))
        self.replays(gives_up)

    def test_what_a_run_knows_of_itself_and_says_once(self):
        logger = logging.getLogger("wfserve.workflows")
        level, logger.level = logger.level, logging.NOTSET
        self.addCleanup(logger.setLevel, level)
        self.start(knows_itself)
        with self.assertLogs("wfserve.workflows.code", "WARNING") as said:
            status, result = self.ended()
        events = self.service.history("w")
        started = [event["id"] for event in events if event["type"] == "WorkflowTaskStarted"]
        self.assertEqual((status, result["lengths"]), ("Completed", started))
        self.assertEqual(result, {"lengths": started, "type": "knows_itself", "queue": "main", "timeout": 10_000,
                                  "new": False, "run": True})
        self.assertEqual([it.getMessage() for it in said.records], [f"w: at {length} events" for length in started])
        self.replays(knows_itself)

    def test_a_long_history_suggests_a_new_run(self):
        first = {"at": 1, "attrs": {"workflow_id": "w", "workflow_type": "t", "task_queue": "main"}}
        self.assertFalse(info_of(first, "r", SUGGESTED_LENGTH - 1).continue_as_new_suggested)
        self.assertTrue(info_of(first, "r", SUGGESTED_LENGTH).continue_as_new_suggested)


@needs_program
class Patched(WithAService):
    """A workflow whose code changes while its runs are open: each goes on by the code that its tasks have seen."""

    ACTIVITIES = [charge]

    def begun(self, *codes):
        """The result of a run whose tasks are done by these codes, one after another; the last one does the rest."""
        self.service.start("w", "patched", request_id="w", input=input_of([]))
        for code in codes[:-1]:
            self.idle(self.worker([code], [charge]))
            self.clock.jump(seconds(1))
        self.WORKFLOWS = [codes[-1]]
        return self.ended()

    def replayed(self, function):
        reply = self.service.call("history", workflow_id="w")
        check(function, reply["events"], reply["run"])

    def markers(self):
        return [event["attrs"]["name"] for event in self.service.history("w") if event["type"] == "MarkerRecorded"]

    def test_a_run_that_comes_there_first_takes_the_new_way(self):
        self.assertEqual(self.begun(with_the_patch), ("Completed", ["new", True]))
        self.assertEqual(self.markers(), ["patch ask the bank"])
        self.replayed(with_the_patch)

    def test_so_does_one_that_began_before_the_change_and_comes_there_after_it(self):
        self.assertEqual(self.begun(before_the_patch, with_the_patch), ("Completed", ["new", True]))
        self.assertEqual(self.markers(), ["patch ask the bank"])

    def test_one_that_came_by_before_the_change_takes_the_old_way(self):
        self.assertEqual(self.begun(before_the_patch, before_the_patch, with_the_patch), ("Completed", ["old", False]))
        self.assertEqual(self.markers(), [])
        self.replayed(with_the_patch)

    def test_without_the_patch_the_change_would_disagree(self):
        self.begun(before_the_patch)
        with self.assertRaises(NonDeterminism):
            self.replayed(after_the_patch)

    def test_a_patch_that_all_runs_have_is_deprecated(self):
        self.begun(with_the_patch)
        self.replayed(after_the_patch)
        with self.assertRaises(NonDeterminism):
            self.replayed(before_the_patch)

    def test_new_runs_of_a_deprecated_patch_have_no_marker(self):
        self.assertEqual(self.begun(after_the_patch), ("Completed", ["new", True]))
        self.assertEqual(self.markers(), [])


class Named(unittest.TestCase):
    def test_names_that_are_given_and_those_that_are_not(self):
        from wfserve.workflows.definitions import type_of
        self.assertEqual([type_of(it) for it in (approval, asks, charge, charge_anew, "Other")],
                         ["Approval", "asks", "charge", "Charge.v2", "Other"])

    def test_what_can_not_be_one(self):
        async def beside():
            yield 1

        with self.assertRaisesRegex(TypeError, "the activity beside is an 'async def' that yields"):
            activity(name="Beside")(beside)
        with self.assertRaisesRegex(TypeError, "the workflow charge is no 'async def'"):
            workflow(name="Charge")(charge)
        with self.assertRaisesRegex(ValueError, "the name of charge is empty"):
            activity(name="")(charge)

    def test_two_of_one_name(self):
        from wfserve.workflows import Worker
        with self.assertRaisesRegex(ValueError, "two workflows are named patched"):
            Worker(Calls(), workflows=[before_the_patch, with_the_patch])


if __name__ == "__main__":
    unittest.main()
