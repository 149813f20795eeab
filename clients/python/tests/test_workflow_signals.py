"""Signals are handed over all at once, and none of them is lost without a word."""

import unittest

from support.programs import needs_program
from support.workflow_fixture import WithAService
from wfserve.workflows import Cancelled, hours, seconds, text_of, workflow


@workflow
async def summed(ctx, seen=()):
    """Takes all signals that are there, and goes on in a new run until three were seen."""
    seen = [*seen, await ctx.signal("number"), *ctx.signals("number").drain()]
    if len(seen) < 3:
        ctx.continue_as_new(seen)
    return seen


@workflow
async def one_a_run(ctx, seen=()):
    """Takes one signal in each run, and hands on the others."""
    seen = [*seen, await ctx.signal("number")]
    if len(seen) < 3:
        ctx.continue_as_new(seen, with_signals=True)
    return seen


@workflow
async def forgetful(ctx):
    await ctx.signal("number")
    ctx.continue_as_new()


@workflow
async def closes(ctx):
    return await ctx.signal("number")


@workflow
async def looked_at(ctx):
    """Asks for a signal that it never waits for: that one doesn't get what another one waits for."""
    forgotten = ctx.signal("number")
    counts = [ctx.signals("number").count]
    first = await ctx.signal("number")
    return [*counts, first, ctx.signals("number").count, ctx.signals("number").drain(), forgotten.done]


@workflow
async def given_back(ctx):
    """Two signals that came for what was given up keep their order."""
    both = ctx.gather(ctx.signal("number"), ctx.signal("number"), ctx.timer(hours(1)))
    await ctx.first(both, ctx.signal("go"))
    return ctx.signals("number").drain()


@workflow
async def beside_a_timer(ctx):
    return list(await ctx.first(ctx.timer(seconds(1)), ctx.signal("number")))


@workflow
async def flagged(ctx):
    """Something beside the main code looks for a signal."""
    called_off = []

    async def look():
        called_off.append(await ctx.signal("call off"))

    ctx.task(look())
    await ctx.activity("work", start_to_close=seconds(5))
    return "called off" if called_off else "shipped"


@workflow
async def done_and_given_up(ctx):
    """Both are done when the code looks, and the first of them counts."""
    both = ctx.gather(ctx.signal("number"), ctx.signal("number"))
    await ctx.timer(seconds(1))
    done = await ctx.first(ctx.signal("go"), both)
    try:
        await both
    except Cancelled:
        return [done.index, ctx.signals("number").drain()]


@needs_program
class Signals(WithAService):
    WORKFLOWS = [summed, one_a_run, forgetful, closes, looked_at, given_back, beside_a_timer, flagged, done_and_given_up]

    def send(self, *values, name="number"):
        for value in values:
            self.service.signal("w", name, text_of(value))

    def test_all_signals_of_a_task_are_there_before_the_code_goes_on(self):
        self.start(summed)
        self.send(1, 2, 3)
        self.assertEqual(self.ended(), ("Completed", [1, 2, 3]))

    def test_a_run_hands_on_the_signals_that_nobody_took(self):
        self.start(one_a_run)
        self.send(1, 2, 3)
        self.assertEqual(self.ended(), ("Completed", [1, 2, 3]))
        self.assertIn("continued_from", self.service.history("w")[0]["attrs"])

    def test_the_log_says_which_signals_nobody_took(self):
        for function in (closes, forgetful):
            with self.subTest(function.__name__):
                self.setUp()
                self.start(function)
                self.send(1, 2, 3)
                self.send("x", name="other")
                self.assertEqual(
                    self.warned(self.idle), ["w closes with signals that nobody took: 2 of 'number', 1 of 'other'"]
                )

    def test_nothing_is_said_where_all_were_taken_or_handed_on(self):
        self.start(one_a_run)
        self.send(1, 2, 3)
        self.assertEqual(self.warned(self.ended), [])

    def test_who_waits_comes_before_who_only_asked(self):
        self.start(looked_at)
        self.idle()
        self.send(1, 2, 3)
        self.assertEqual(self.ended(), ("Completed", [0, 1, 1, [3], True]))

    def test_signals_that_are_given_back_keep_their_order(self):
        self.start(given_back)
        self.idle()
        self.send(1, 2)
        self.send("now", name="go")
        self.assertEqual(self.ended(), ("Completed", [1, 2]))

    def test_of_a_timer_and_a_signal_in_one_task_the_signal_comes_first(self):
        for order in (("timer", "signal"), ("signal", "timer")):
            with self.subTest(order):
                self.setUp()
                self.start(beside_a_timer)
                self.idle()
                for what in order:
                    if what == "signal":
                        self.send(7)
                    else:
                        self.clock.now += 1_000
                        self.service.timer_turn()
                self.assertEqual(self.ended(), ("Completed", [1, 7]))

    def test_what_is_beside_the_main_code_has_its_signal_before_that_goes_on(self):
        self.start(flagged)
        self.decide()
        task = self.service.poll_activity_task()
        self.service.complete_activity(task)
        self.send("now", name="call off")
        self.assertEqual(self.ended(), ("Completed", "called off"))

    def test_signals_of_what_was_done_and_given_up_stay(self):
        self.start(done_and_given_up)
        self.idle()
        self.send(1, 2)
        self.send("now", name="go")
        self.assertEqual(self.ended(), ("Completed", [0, [1, 2]]))


if __name__ == "__main__":
    unittest.main()
