"""Runs that a worker keeps: it goes on by the events that are new, does the same as one that replays all of them, and
replays all of them at any doubt. The tests of other modules are made once more here, by workers that stay."""

import json
import random
import unittest
from unittest import mock

from support.programs import needs_program
from support.workflow_fixture import WithAService
from wfserve.calls import Calls, from_event
from wfserve.workflows import Worker, seconds, workflow
from wfserve.workflows.history import Outdated, Turns, turns
from wfserve.workflows.kept_runs import Kept, KeptRuns
from wfserve.workflows.replay import replayed

import test_workflow_cancellation
import test_workflow_handlers
import test_workflow_signals
import test_workflow_values

STEPS = 12


def add(a, b):
    return a + b


@workflow
async def steps(ctx, count):
    total = 0
    for number in range(count):
        total = await ctx.activity(add, total, number, start_to_close=seconds(9))
    return total


@workflow
async def many_kinds(ctx):
    """Waits for each kind of what a workflow can wait for, and uses what has to be the same in each replay."""
    found = [ctx.once(lambda: random.Random(7).random()), ctx.random.random()]
    ctx.on_signal("handled", found.append)
    for number in range(4):
        done = await ctx.first(ctx.timer(seconds(2)), ctx.signal("call"))
        found += [done.index, ctx.now, ctx.random.random(), ctx.info.history_length]
        found.append(await ctx.activity(add, number, 1, start_to_close=seconds(9)))
        found.append(ctx.patched(f"patch {number}"))
        found.append(await ctx.child(child, number))
    return found


@workflow
async def child(ctx, number):
    await ctx.timer(seconds(1))
    return 10 * number


class Counting(Calls):
    """Counts how many events a worker is given."""

    def __init__(self, service):
        self.service = service
        self.events = 0

    def call(self, op, **fields):
        reply = self.service.call(op, **fields)
        self.events += len(reply.get("events", ()))
        return reply

    def history_from(self, workflow_id, run, first):
        found = self.service.history_from(workflow_id, run, first)
        self.events += len(found)
        return found


class Staying(WithAService):
    """Workers stay from one task to the next, where they have the same code."""

    def worker(self, workflows=None, activities=None):
        made = super().worker(workflows, activities)
        known = self.__dict__.setdefault("_workers", {})
        return known.setdefault((self.service, tuple(made._workflows.values()), tuple(made._activities.values())), made)


class KeptHandled(Staying, test_workflow_handlers.Handled):
    pass


class KeptPatched(Staying, test_workflow_handlers.Patched):
    pass


class KeptValues(test_workflow_values.PlayedHidden):
    def worker(self, workflows=None, activities=None):
        if getattr(self, "_of", None) is not self.service:
            self._of, self._worker = self.service, super().worker(workflows, activities)
        return self._worker


def kept(*modules):
    """Test cases over the fixture of these modules, by workers that stay."""
    for module in modules:
        for name, case in vars(module).items():
            if isinstance(case, type) and issubclass(case, WithAService) and case is not WithAService:
                yield f"Kept{module.__name__.title().replace('_', '')}{name}", type(f"Kept{name}", (Staying, case), {})


globals().update(kept(test_workflow_signals, test_workflow_cancellation))


@needs_program
class Kepts(WithAService):
    WORKFLOWS, ACTIVITIES = [steps, many_kinds, child], [add]

    def played(self, function, *arguments, act=lambda number: None, **options):
        """The history of a workflow that one worker plays, and how many whole histories it replayed."""
        self.start(function, *arguments)
        worker = Worker(self.service, "main", self.WORKFLOWS, self.ACTIVITIES, self.clock, **options)
        with mock.patch("wfserve.workflows.worker.replayed", wraps=replayed) as whole:
            for number in range(40):
                self.idle(worker)
                act(number)
                self.clock.jump(seconds(1))
            self.idle(worker)
        return self.service.history("w"), whole.call_count

    def test_a_run_is_replayed_whenever_its_history_has_doubled(self):
        events, count = self.played(steps, STEPS)
        lengths = {event["id"].bit_length() for event in events if event["type"] == "WorkflowTaskStarted"}
        self.assertEqual((events[-1]["attrs"]["result"], count), (str(sum(range(STEPS))), len(lengths)))
        self.assertLess(count, STEPS / 2)

    def test_without_kept_runs_each_task_replays(self):
        events, count = self.played(steps, STEPS, kept_runs=0)
        self.assertEqual((events[-1]["attrs"]["result"], count), (str(sum(range(STEPS))), STEPS + 1))

    def test_histories_are_the_same(self):
        def act(number):
            if number in (1, 3, 4, 7):
                self.service.signal("w", "handled" if number % 2 else "call", str(number))

        kept_events, count = self.played(many_kinds, act=act)
        self.assertEqual(kept_events[-1]["type"], "WorkflowExecutionCompleted")
        tasks = [event for event in kept_events if event["type"] == "WorkflowTaskStarted"]
        self.assertLess(count, len(tasks))
        self.setUp()
        self.assertEqual(self.played(many_kinds, act=act, kept_runs=0)[0], kept_events)

    def test_tasks_cost_what_is_new(self):
        costs = []
        for count in (10, 20, 40):
            self.setUp()
            self.start(steps, count)
            counting = Counting(self.service)
            self.idle(Worker(counting, "main", self.WORKFLOWS, self.ACTIVITIES, self.clock))
            costs.append(counting.events)
        self.assertLess(costs[1], 3 * costs[0])
        self.assertLess(costs[2], 3 * costs[1])

    def test_two_workers_that_take_turns(self):
        self.start(steps, STEPS)
        workers = [Worker(self.service, "main", self.WORKFLOWS, self.ACTIVITIES, self.clock) for _ in range(2)]
        with mock.patch("wfserve.workflows.worker.replayed", wraps=replayed) as whole:
            for number in range(4 * STEPS):
                self.driver.turn()
                workers[number % 3 % 2].work_once()
            self.idle(*workers)
        self.assertEqual(self.service.history("w")[-1]["attrs"]["result"], str(sum(range(STEPS))))
        self.assertLess(whole.call_count, STEPS)

    def test_a_task_that_ran_out_is_a_doubt(self):
        self.start(steps, 3)
        worker = Worker(self.service, "main", self.WORKFLOWS, self.ACTIVITIES, self.clock)
        self.driver.turn()
        worker.work_once()
        self.driver.turn()
        worker.work_once()
        self.driver.turn()
        # Somebody else takes the next task, and is never heard of again.
        self.assertIsNotNone(self.service.poll_workflow_task("main"))
        self.clock.now += seconds(11)
        with mock.patch("wfserve.workflows.worker.replayed", wraps=replayed) as whole:
            self.idle(worker)
        self.assertEqual(self.service.history("w")[-1]["attrs"]["result"], "3")
        self.assertGreater(whole.call_count, 0)
        self.assertIn("WorkflowTaskTimedOut", self.types())

    def test_what_a_failed_task_knew_is_forgotten(self):
        self.start(steps, 3)
        worker = Worker(self.service, "main", self.WORKFLOWS, self.ACTIVITIES, self.clock)
        self.idle(worker)
        other = Worker(self.service, "main", [child], [], self.clock)
        self.setUp()
        self.start(steps, 3)
        self.driver.turn()
        other.service = self.service
        with self.assertLogs("wfserve.workflows", "WARNING"):
            Worker(self.service, "main", [child], [], self.clock).work_once()
        self.assertIn("WorkflowTaskFailed", self.types())
        self.assertEqual(self.ended(), ("Completed", 3))

    def test_code_that_disagrees_is_found_by_a_fresh_replay(self):
        self.start(steps, 3)
        worker = Worker(self.service, "main", self.WORKFLOWS, self.ACTIVITIES, self.clock)
        self.driver.turn()
        worker.work_once()
        self.driver.turn()
        worker.work_once()
        kept_run = next(iter(worker._kept._kept.values()))
        kept_run.replay.commands.clear()
        with mock.patch("wfserve.workflows.worker.replayed", wraps=replayed) as whole:
            self.idle(worker)
        self.assertGreater(whole.call_count, 0)
        self.assertEqual(self.ended(), ("Completed", 3))


class Limits(unittest.TestCase):
    def replay(self):
        return mock.Mock(has_closed=False, loop=mock.Mock(closed=False))

    def test_the_one_that_waited_longest_goes_first(self):
        runs, replays = KeptRuns(2), [self.replay() for _ in range(3)]
        for number, replay in enumerate(replays):
            runs.put(str(number), Kept(replay, {}, 1))
        self.assertEqual((len(runs), "0" in runs, "2" in runs), (2, False, True))
        replays[0].close.assert_called_once_with()
        self.assertIs(runs.take("1").replay, replays[1])
        self.assertIsNone(runs.take("1"))
        runs.clear()
        replays[2].close.assert_called_once_with()

    def test_what_has_ended_is_not_kept(self):
        runs, closed, over = KeptRuns(2), self.replay(), self.replay()
        closed.has_closed, over.loop.closed = True, True
        runs.put("a", Kept(closed, {}, 1))
        runs.put("b", Kept(over, {}, 1))
        self.assertEqual(len(runs), 0)


class Events(unittest.TestCase):
    """Turns of a history that grows, and texts that are cut: at every place the same as of the whole."""

    def history(self, draw, tasks):
        """Drawn tasks: completed with commands and news after them, failed, or run out."""
        events = [{"type": "WorkflowExecutionStarted", "attrs": {"s": 'a "id":3,"type":" b'}}]
        for _ in range(tasks):
            events += [{"type": "WorkflowTaskScheduled"}, {"type": "WorkflowTaskStarted"}]
            end = draw.choice(["WorkflowTaskCompleted"] * 4 + ["WorkflowTaskFailed", "WorkflowTaskTimedOut"])
            events.append({"type": end})
            if end == "WorkflowTaskCompleted":
                events += [{"type": "TimerStarted"} for _ in range(draw.randrange(3))]
            events += [{"type": draw.choice(["TimerFired", "WorkflowExecutionSignaled"])} for _ in range(draw.randrange(1, 4))]
        events += [{"type": "WorkflowTaskScheduled"}, {"type": "WorkflowTaskStarted"}]
        return [{"at": 10 * number, "attrs": {}, **event, "id": number} for number, event in enumerate(events, 1)]

    def said(self, found):
        """What turns bring, each once: one that was in hand comes again when it is completed."""
        return [(turn.news, turn.moment, turn.completed, turn.recorded, turn.length) for turn in found]

    def test_a_history_that_grows_has_the_same_turns(self):
        for seed in range(60):
            draw = random.Random(seed)
            events = self.history(draw, draw.randrange(1, 7))
            whole = self.said(turns(events))
            started = [event["id"] for event in events if event["type"] == "WorkflowTaskStarted"]
            cuts = sorted({cut for cut in started if draw.random() < 0.6} | {len(events)})
            grown, found, begin = Turns(), [], 0
            try:
                for cut in cuts:
                    found += [turn for turn in grown.of(events[begin:cut]) if turn not in found]
                    begin = cut
            except Outdated:
                failed = {"WorkflowTaskFailed", "WorkflowTaskTimedOut"}
                self.assertTrue(any(events[cut]["type"] in failed for cut in cuts if cut < len(events)), seed)
                continue
            self.assertEqual(self.said(found), whole, seed)

    def test_a_text_is_cut_before_each_event(self):
        draw = random.Random(3)
        events = self.history(draw, 5)
        for event in events:
            event["attrs"] = {"text": draw.choice(['"},{', '"id":4,"type":"x"},{"at":', "\\", 'plain', '","id":2']), "n": [{"id": 1}]}
        reply = {"events": events, "line": 3, "ok": "history", "run": "r"}
        in_order = {**reply, "events": [dict(sorted(event.items())) for event in events]}
        text = json.dumps(in_order, separators=(",", ":"))
        for first in range(1, len(events) + 3):
            found = json.loads(from_event(text, first))
            self.assertEqual([it for it in found["events"] if it["id"] >= first], events[first - 1:], first)
            self.assertEqual({**found, "events": None}, {**reply, "events": None})
        self.assertLess(len(from_event(text, len(events))), 200)
        refusal = '{"error":"NotFound","line":3,"no":4}'
        self.assertEqual(from_event(refusal, 3), refusal)


if __name__ == "__main__":
    unittest.main()
