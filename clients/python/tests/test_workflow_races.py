"""Drawn races: signals that come while a run goes on in a new one, cancellations that come with completions, and
replies that are lost. Nothing that came is lost or doubled, and every replay agrees.

WFSERVE_SEED draws others, WFSERVE_DRAWN more of them.
"""

import collections
import contextlib
import json
import os
import random
import sys
import unittest
from unittest import mock

from support.drawn import ToldAtOnce
from support.programs import BUILT, needs_program
from wfserve.calls import Calls, Service
from wfserve.errors import CallLost, Refused
from wfserve.workflows import (
    Cancellation, Cancelled, Driver, JumpingClock, NonDeterminism, Retry, Worker, attempt, check, input_of, seconds,
    text_of, value_of, workflow,
)
from wfserve.workflows.replay import Replay

SEED = int(os.environ.get("WFSERVE_SEED", random.randrange(1 << 32)))
DRAWN = int(os.environ.get("WFSERVE_DRAWN", 6)) * 25
MOST_LOST = 15
# The receipts that were given, and those that were refunded.
PAID, REFUNDED = [], []


def pay(number):
    PAID.append(number)
    return f"receipt {number}"


def refund(receipts):
    REFUNDED.append(receipts)


def hold(text):
    attempt().heartbeat(text)
    return text


@workflow
async def child(ctx, number):
    """Pays in a child, which refunds where it is cancelled."""
    receipt = None
    try:
        receipt = await paying(ctx, number)
        return receipt
    except Cancelled:
        with ctx.scope(shield=True):
            await ctx.activity(refund, [receipt], start_to_close=seconds(20))
        raise


@workflow
async def raced(ctx, plan, seen=()):
    """Pays for each signal that it takes, and goes on in a new run now and then. Cancelled, it refunds what it paid."""
    seen, receipts = list(seen), []
    try:
        while True:
            seen.append(await next_number(ctx, plan))
            if plan["drains"]:
                seen += ctx.signals("number").drain()
            await paid_by(ctx, plan["by"], seen[-1], receipts)
            if len(receipts) == plan["a_run"]:
                with ctx.scope(shield=True):
                    await ctx.activity(hold, "end", start_to_close=seconds(20))
                ctx.continue_as_new(plan, seen, with_signals=True)
    except Cancelled:
        with ctx.scope(shield=True):
            await ctx.activity(refund, receipts, start_to_close=seconds(20))
        return {"seen": seen + ctx.signals("number").drain(), "receipts": receipts}


async def next_number(ctx, plan):
    """The next signal; it is waited for anew now and then."""
    while plan["waits anew"]:
        done = await ctx.first(ctx.timer(5), ctx.signal("number"))
        if done.index == 1:
            return done.value
    return await ctx.signal("number")


async def paid_by(ctx, how, number, receipts):
    if how == "child":
        receipts.append(await ctx.child(child, number))
    elif how == "shield":
        with ctx.scope(shield=True):
            await noted(ctx, number, receipts)
    elif how == "beside":
        await beside(ctx, number, receipts)
    elif how == "two":
        await ctx.gather(noted(ctx, number, receipts), noted(ctx, number, receipts))
    elif how == "in time":
        await in_time(ctx, number, receipts)
    elif how == "tried":
        await noted(ctx, number, receipts, Cancellation.TRY_CANCEL)
    elif how == "tried in time":
        await ctx.first(noted(ctx, number, receipts, Cancellation.TRY_CANCEL), ctx.timer(1))
    elif how == "scope":
        with ctx.scope() as part:
            ctx.task(ended(ctx, part))
            await noted(ctx, number, receipts)
    else:
        await noted(ctx, number, receipts)


async def noted(ctx, number, receipts, cancellation=Cancellation.WAIT_CANCELLATION_COMPLETED):
    receipts.append(await paying(ctx, number, cancellation))


async def in_time(ctx, number, receipts):
    """What was given up goes on until it ends; whether it paid is known then."""
    paying_it = ctx.task(noted(ctx, number, receipts))
    try:
        await ctx.first(paying_it, ctx.timer(1))
    finally:
        with ctx.scope(shield=True), contextlib.suppress(Cancelled):
            await paying_it


async def ended(ctx, scope):
    await ctx.timer(1)
    scope.cancel()


async def beside(ctx, number, receipts):
    """What is waited for together has no value where it is cancelled; each part may have one."""
    paid = paying(ctx, number)
    try:
        await ctx.gather(paid, ctx.timer(1))
    finally:
        if paid.done and paid.fault is None:
            receipts.append(paid.result())


def paying(ctx, number, cancellation=Cancellation.WAIT_CANCELLATION_COMPLETED):
    return ctx.activity(
        pay, number, start_to_close=seconds(20), retry=Retry(initial=10), cancellation=cancellation,
    )


HOW = ["activity", "child", "shield", "beside", "two", "in time", "scope", "tried", "tried in time"]


WORKFLOWS, ACTIVITIES = [raced, child], [pay, refund, hold]


class Losing(Calls):
    """A service whose replies are lost now and then: the call took effect, or it did not."""

    def __init__(self, service, draw):
        self._service, self._draw = service, draw
        self.lost = 0

    def call(self, op, **fields):
        fate = self._draw.random() if self.lost < MOST_LOST else 1
        if fate < 0.02:
            self.lost += 1
            raise CallLost("the call was lost")
        reply = self._service.call(op, **fields)
        if fate < 0.04:
            self.lost += 1
            raise CallLost("the reply was lost")
        return reply


class Race:
    """One workflow, and what a client, workers and the turns do to it in a drawn order."""

    def __init__(self, seed):
        self.draw = random.Random(seed)
        self.clock = JumpingClock()
        self.service = Service([str(BUILT)], self.clock)
        self.losing = Losing(self.service, self.draw)
        self.driver = Driver(self.service)
        self.by = self.draw.choice(HOW)
        self.sent = 0

    def played(self):
        """Plays it to its end. The result."""
        self.service.start("w", "raced", input=input_of([self.plan()]), request_id="start")
        for _ in range(self.draw.randint(5, 200)):
            self.step()
        self.service.request_cancel("w", request_id="cancel")
        for _ in range(self.draw.randint(0, 5)):
            self.step()
        return self.ended()

    def played_by_an_earlier_client_first(self):
        """Plays it with workers of an earlier version, and then with those of this one."""
        self.service.start("w", "raced", input=input_of([self.plan()]), request_id="start")
        with mock.patch("wfserve.workflows.worker.replayed", by_older_rules):
            for _ in range(self.draw.randint(20, 100)):
                self.step()
            if self.draw.random() < 0.5:
                self.service.request_cancel("w", request_id="cancel")
                self.step()
        for _ in range(100):
            self.step()

    def plan(self):
        return {"drains": self.draw.random() < 0.5, "waits anew": self.draw.random() < 0.3,
                "a_run": self.draw.randint(1, 3), "by": self.by}

    def step(self):
        self.draw.choices((self.signal, self.turn, self.turns, self.decide, self.work, self.wait), (3, 5, 5, 6, 6, 1))[0]()

    def signal(self):
        try:
            self.service.signal("w", "number", text_of(self.sent), request_id=f"signal {self.sent}")
            self.sent += 1
        except Refused:
            pass

    def turn(self):
        """One turn, so that what the next steps do comes between the parts of this."""
        self.draw.choice((self.driver._timers, self.driver._transfers, self.driver._dispatches))()

    def turns(self):
        self.driver.turn()

    def decide(self):
        """A worker takes a workflow task, and perhaps something comes while it decides."""
        self.worked(Worker(Between(self.losing, self), workflows=WORKFLOWS, clock=self.clock))

    def work(self):
        self.worked(Worker(self.losing, activities=ACTIVITIES, clock=self.clock))

    def worked(self, worker):
        try:
            worker.work_once()
        except CallLost:
            pass

    def wait(self):
        self.clock.now += self.draw.choice([1, 10, 1_000, 25_000])

    def ended(self):
        for _ in range(2_000):
            self.driver.turn()
            self.decide()
            self.work()
            if self.service.describe("w")["status"] not in ("Running", "ContinuedAsNew"):
                return self.service.history("w")[-1]
            self.clock.now += 100
        raise TimeoutError(f"it has not closed: {self.service.history('w')[-6:]}")


def by_older_rules(function, events, run, **more):
    """What a worker of an earlier version of this client finds."""
    replay = Replay(function, events, run, older=True, **more)
    return replay, replay.run()


class Between(Calls):
    """What a worker asks a service: between its history and its completion something may come."""

    def __init__(self, service, race):
        self._service, self._race = service, race

    def call(self, op, **fields):
        if op == "complete_workflow_task" and self._race.draw.random() < 0.3:
            self._race.draw.choice((self._race.signal, self._race.work, self._race.turn))()
        return self._service.call(op, **fields)


def given_up(by, events):
    """The activities of a history that the code asked to cancel, and didn't wait for: the events that scheduled them."""
    asked = [e["attrs"]["scheduled"] for e in events if e["type"] == "ActivityTaskCancelRequested"]
    return asked if by.startswith("tried") else []


def receipts_of(events, but=()):
    """The receipts that a history has, but for those of some activities."""
    kinds = ("ActivityTaskCompleted", "ChildWorkflowExecutionCompleted")
    results = [value_of(event["attrs"]["result"]) for event in events
               if event["type"] in kinds and event["attrs"].get("scheduled") not in but]
    return [result for result in results if isinstance(result, str) and result.startswith("receipt")]


@needs_program
class Races(ToldAtOnce):
    def test_nothing_that_came_is_lost_or_doubled(self):
        print(f"\ndrawn races: seed {SEED}", file=sys.stderr)
        told = collections.Counter()
        for number in range(DRAWN):
            with self.subTest(number=number):
                PAID.clear()
                REFUNDED.clear()
                race = Race(f"{SEED} {number}")
                self.addCleanup(race.service.close)
                self.look(race, race.played(), told)
        print(f"drawn races: {DRAWN} workflows, {dict(told)}", file=sys.stderr)
        for kind in ("signals", "runs", "lost replies", "receipts refunded", "tasks that knew too little", "children"):
            self.assertGreater(told[kind], 0, kind)

    def test_runs_of_an_earlier_client_go_on(self):
        told = collections.Counter()
        for number in range(DRAWN):
            with self.subTest(number=number):
                race = Race(f"{SEED} earlier {number}")
                self.addCleanup(race.service.close)
                race.played_by_an_earlier_client_first()
                self.look_at_rules(race, told)
        print(f"drawn races of two versions: {dict(told)}", file=sys.stderr)
        self.assertGreater(told["runs by older rules"], 0)

    def look_at_rules(self, race, told):
        """The code agrees with each run, by the rules of its time, and no task failed since it didn't."""
        for run, events in self.histories(race):
            messages = [event["attrs"].get("message", "") for event in events if event["type"] == "WorkflowTaskFailed"]
            self.assertEqual([message for message in messages if message.startswith("event ")], [])
            self.look_at_replays(raced, run, events)
            told["runs"] += 1
            try:
                Replay(raced, events, run).run()
            except NonDeterminism:
                told["runs by older rules"] += 1

    def look(self, race, last, told):
        runs = self.histories(race)
        self.assertEqual(last["type"], "WorkflowExecutionCompleted", last)
        result = json.loads(last["attrs"]["result"])
        self.assertEqual(result["seen"], list(range(race.sent)))
        self.look_at_receipts(race.by, result, runs[-1][1])
        for run, events in runs:
            self.look_at_replays(raced, run, events)
            told["tasks that knew too little"] += sum(e["attrs"].get("cause") == "UnhandledCommand" for e in events)
        for run, events in self.children(race, runs):
            told["children"] += 1
            self.look_at_replays(child, run, events)
            self.assertIn(events[-1]["type"], ("WorkflowExecutionCompleted", "WorkflowExecutionCanceled"))
            if events[-1]["type"] == "WorkflowExecutionCanceled":
                told["cancelled children"] += 1
                self.assertIn(receipts_of(events) or [None], REFUNDED)
        told.update({"signals": race.sent, "runs": len(runs), "lost replies": race.losing.lost,
                     "receipts refunded": len(result["receipts"])})

    def look_at_receipts(self, by, result, events):
        """Each receipt that the last run's history has was known to the code that refunds, but for those of
        activities that were asked to cancel, and that the code didn't wait for."""
        self.assertEqual(sorted(result["receipts"]), sorted(receipts_of(events, given_up(by, events))))
        self.assertIn(result["receipts"], REFUNDED)

    def look_at_replays(self, function, run, events):
        for i, event in enumerate(events):
            if event["type"] == "WorkflowTaskStarted":
                check(function, events[:i + 1], run)

    def histories(self, race):
        """The runs of the workflow, the first one first."""
        replies = [race.service.call("history", workflow_id="w")]
        while before := replies[0]["events"][0]["attrs"].get("continued_from"):
            replies.insert(0, race.service.call("history", workflow_id="w", run=before))
        return [(reply["run"], reply["events"]) for reply in replies]

    def children(self, race, runs):
        for _, events in runs:
            for event in events:
                if event["type"] == "ChildWorkflowExecutionStarted":
                    reply = race.service.call("history", workflow_id=event["attrs"]["workflow_id"], run=event["attrs"]["run"])
                    yield reply["run"], reply["events"]


if __name__ == "__main__":
    unittest.main()
