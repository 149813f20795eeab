"""Workflows drawn from a seed, with and without crashes of workers and of the service, and with replies that are
lost: what they come to is the same. And drawn races, of what comes while a workflow decides: nothing of it is lost.

WFSERVE_SEED draws others, WFSERVE_DRAWN more of them.
"""

import collections
import json
import os
import pathlib
import random
import sys
import unittest

from support.drawn import ToldAtOnce
from support.programs import BUILT, memory_folder, needs_program
from examples.stage import Fragile, Stage, WorkerKilled
from wfserve.calls import Calls
from wfserve.durable import DurableService, Settings
from wfserve.errors import CallLost, Ended, Refused
from wfserve.workflows import (
    ActivityFailed, Cancelled, ChildFailed, JumpingClock, NonRetryable, Retry, WorkflowFailed, attempt, days, hours,
    seconds, workflow,
)

SEED = int(os.environ.get("WFSERVE_SEED", random.randrange(1 << 32)))
DRAWN = int(os.environ.get("WFSERVE_DRAWN", 6))
SETTINGS = Settings(shards=2, queues=("main", "nobody"))
MOST_CRASHES = 12
TOPS = ["top-0", "top-1", "top-2"]


def flaky(name, fails):
    if attempt().number <= fails:
        raise ConnectionError(f"{name} failed")
    return f"did {name}"


def refuse(name):
    raise NonRetryable(f"{name} is refused")


async def in_turn(ctx, plan):
    return [await STEPS[kind](ctx, *words) for kind, *words in plan]


@workflow
async def drawn(ctx, plan):
    """Plays the steps of a plan; what each came to is its result."""
    try:
        return await in_turn(ctx, plan)
    except Cancelled:
        return ["canceled", await activity(ctx, f"undoing of {ctx.workflow_id}", 0)]


@workflow
async def waiting(ctx):
    return await ctx.signal("never")


@workflow
async def failing(ctx, why):
    raise WorkflowFailed(why)


async def activity(ctx, name, fails):
    return await ctx.activity(flaky, name, fails, start_to_close=seconds(20), retry=Retry(initial=100, maximum=1_000))


async def refused(ctx, name):
    try:
        await ctx.activity(refuse, name, start_to_close=seconds(20))
    except ActivityFailed as failed:
        return str(failed)


async def timer(ctx, duration):
    await ctx.timer(duration)
    return "rang"


async def signal(ctx, name):
    return await ctx.signal(name)


async def signal_in_time(ctx, name):
    return list(await ctx.first(ctx.timer(days(100)), ctx.signal(name)))


async def no_signal_in_time(ctx, duration):
    return list(await ctx.first(ctx.signal("never"), ctx.timer(duration)))


async def child(ctx, id, plan):
    return await ctx.child(drawn, plan, id=id)


async def failed_child(ctx, id, why):
    try:
        await ctx.child(failing, why, id=id)
    except ChildFailed as failed:
        return str(failed)


async def given_up(ctx, id, duration):
    """A child and an activity that would go on for ever are canceled after a while, which takes a while."""
    both = ctx.gather(ctx.child(waiting, id=id), ctx.activity("nobody", start_to_close=1, queue="nobody"))
    done = await ctx.first(both, ctx.timer(duration))
    await ctx.timer(hours(1))
    return done.index


async def until_canceled(ctx):
    await ctx.signal("never")


async def together(ctx, *plans):
    return await ctx.gather(*[in_turn(ctx, plan) for plan in plans])


async def word_to_itself(ctx, name):
    await ctx.signal_workflow(ctx.workflow_id, name, ctx.once(lambda: f"word {name}"))
    return await ctx.signal(name)


STEPS = {step.__name__: step for step in (
    activity, refused, timer, signal, signal_in_time, no_signal_in_time, child, failed_child, given_up, together,
    word_to_itself, until_canceled,
)}
WORKFLOWS, ACTIVITIES, QUEUES = [drawn, waiting, failing], [flaky, refuse], ("main",)


class Plans:
    """Draws plans, and the signals and cancellations that a client sends to them."""

    def __init__(self, seed):
        self._draw = random.Random(seed)
        self._names = 0
        self.signals = []
        self.tops = {top: self._plan(top, 2) for top in TOPS}
        self.cancelled = [top for top in TOPS if self._draw.random() < 0.3]
        for top in self.cancelled:
            self.tops[top].append(["until_canceled"])

    def _name(self, kind):
        self._names += 1
        return f"{kind}-{self._names}"

    def _plan(self, owner, depth):
        return [self._step(owner, depth) for _ in range(self._draw.randint(1, 4))]

    def _step(self, owner, depth):
        simple = ["activity", "refused", "timer", "signal", "signal_in_time", "no_signal_in_time", "failed_child",
                  "given_up", "word_to_itself"]
        kind = self._draw.choice(simple + ["child", "together"] * 2 if depth else simple)
        if kind in ("signal", "signal_in_time"):
            name = self._name("signal")
            self.signals.append((owner, name))
            return [kind, name]
        if kind == "activity":
            return [kind, self._name("work"), self._draw.choice([0, 0, 1, 2])]
        if kind in ("timer", "no_signal_in_time"):
            return [kind, self._draw.randint(1, hours(1))]
        if kind == "child":
            id = self._name("child")
            return [kind, id, self._plan(id, depth - 1)]
        if kind == "together":
            return [kind, *[self._plan(owner, depth - 1) for _ in range(2)]]
        more = {"failed_child": ["it failed"], "given_up": [self._draw.randint(seconds(60), hours(1))]}
        return [kind, self._name(kind), *more.get(kind, [])]


class Crashing(Calls):
    """A service with a log, whose program is killed before some lines and within some."""

    def __init__(self, log, clock, draw, rate):
        self._log, self._draw, self._rate = log, draw, rate
        self.clock = clock
        self.service = self._open()
        self.crashes = collections.Counter()

    def _open(self):
        return DurableService([str(BUILT)], self._log, SETTINGS, self.clock)

    def drawn(self, rate):
        """Whether it is time for a crash; there are only so many in a run."""
        return sum(self.crashes.values()) < MOST_CRASHES and self._draw.random() < rate

    def _kill(self, kind):
        self.crashes[kind] += 1
        self.service._kept.program._process.kill()

    def _reopen(self):
        self.service.close()
        self.service = self._open()

    def call(self, op, **fields):
        """Raises Ended where the program was killed within the line: it was logged, and takes effect."""
        if self.drawn(self._rate):
            self._kill("service between lines")
            self._reopen()
        if not self.drawn(self._rate / 2):
            return self.service.call(op, **fields)
        answer = self.service.send({"op": op, "at": self.clock.now, **{k: v for k, v in fields.items() if v is not None}})
        self._kill("service within a line")
        try:
            reply = answer.result()
        finally:
            self._reopen()
        if "error" in reply:
            raise Refused({"op": op}, reply)
        return reply


class Patient(Calls):
    """What a client and the turns do: a line that got no reply is made again."""

    def __init__(self, crashing):
        self._crashing = crashing

    def call(self, op, **fields):
        while True:
            try:
                return self._crashing.call(op, **fields)
            except Ended:
                pass


class Mortal(Fragile):
    """What a worker has: it is gone with the service, and now and then by itself."""

    def __init__(self, crashing, rate):
        super().__init__(crashing)
        self._crashing, self._rate = crashing, rate

    def call(self, op, **fields):
        if self._crashing.drawn(self._rate):
            self._crashing.crashes["worker"] += 1
            raise WorkerKilled()
        try:
            reply = super().call(op, **fields)
        except Ended:
            self._expect(fields)
            raise WorkerKilled() from None
        if self._crashing.drawn(self._rate / 2):
            self._crashing.crashes["reply"] += 1
            self._expect(fields)
            raise CallLost("the reply was lost")
        return reply

    def _expect(self, fields):
        """The clock has to know of the timers of a completion that took effect."""
        for command in fields.get("commands", ()):
            self._crashing.clock.expect(self._crashing.clock.now + command.get("duration", 0))


def played(plans, seed, rate):
    """The histories of all workflows of some plans, and the crashes that there were."""
    draw, clock = random.Random(seed), JumpingClock()
    with memory_folder() as folder:
        crashing = Crashing(str(pathlib.Path(folder) / "log"), clock, draw, rate)
        try:
            module, patient = sys.modules[__name__], Patient(crashing)
            stage = Stage(patient, clock, module, SETTINGS.shards, fragile=Mortal(crashing, 5 * rate))
            send(stage, plans)
            return histories(patient), crashing.crashes
        finally:
            crashing.service.close()


def send(stage, plans):
    """Starts the workflows, sends them signals hours apart, and cancels those that wait for it."""
    for top, plan in plans.tops.items():
        stage.start(drawn, plan, id=top)
    left = list(plans.signals)
    while left:
        stage.until(stage.clock.now + hours(2))
        left = [signal for signal in left if not taken(stage.service, *signal)]
    stage.until(stage.clock.now + days(3))
    for top in plans.cancelled:
        stage.service.request_cancel(top, request_id=f"cancel {top}")
    stage.until_closed(*TOPS)


def taken(service, owner, name):
    """Whether a workflow took a signal; a child may not be started yet."""
    try:
        service.signal(owner, name, json.dumps(f"value of {name}"), request_id=name)
    except Refused:
        return False
    return True


def histories(service):
    """The histories of the tops, and of the children that these have, and so on."""
    found, left = {}, list(TOPS)
    while left:
        workflow_id = left.pop()
        events = found[workflow_id] = service.history(workflow_id)
        left += [
            event["attrs"]["workflow_id"] for event in events if event["type"] == "StartChildWorkflowExecutionInitiated"
        ]
    return found


NOT_COMPARED = {
    "activity_id", "timer_id", "scheduled", "started", "initiated", "taken", "attempt", "run", "name", "parent_run",
    "parent_event",
}


def happened(events):
    """What a history tells but for attempts: no workflow tasks, no moments, no ids, in no order."""
    return collections.Counter(
        (event["type"], json.dumps({k: v for k, v in event["attrs"].items() if k not in NOT_COMPARED}, sort_keys=True))
        for event in events if not event["type"].startswith("WorkflowTask")
    )


@needs_program
class Drawn(ToldAtOnce):
    def test_crashes_change_nothing_but_attempts(self):
        print(f"\ndrawn workflows: seed {SEED}", file=sys.stderr)
        crashes, kinds = collections.Counter(), collections.Counter()
        for number in range(DRAWN):
            plans = Plans(f"{SEED} {number}")
            calm, none = played(plans, 0, 0)
            self.assertFalse(none)
            for events in calm.values():
                kinds.update(event["type"] for event in events)
            for run, rate in enumerate((0.01, 0.05)):
                found, had = played(plans, f"{SEED} {number} {run}", rate)
                crashes.update(had)
                self.compare(calm, found, f"plans {number}, crashes {run}")
        print(f"drawn workflows: {dict(crashes)}; {sum(kinds.values())} events without crashes", file=sys.stderr)
        self.assertEqual(len(crashes), 4)

    def compare(self, calm, found, told):
        """What happened is the same, and how each ended. An opening puts the tasks that wait into their queues run after run, so
        these may be taken in another order than before it."""
        self.assertEqual(set(calm), set(found), told)
        for workflow_id, events in calm.items():
            self.assertEqual(happened(events), happened(found[workflow_id]), f"{told}: {workflow_id}")
            ends = [(it[-1]["type"], it[-1]["attrs"]) for it in (events, found[workflow_id])]
            self.assertEqual(ends[0], ends[1], f"{told}: {workflow_id}")

    def test_a_service_that_is_killed_between_lines_changes_nothing_that_happens(self):
        crashes = 0
        for number in range(DRAWN // 2):
            plans = Plans(f"{SEED} {number}")
            calm, _ = played(plans, 0, 0)
            between, had = played_between(plans, f"{SEED} {number}")
            crashes += had["service between lines"]
            self.compare(calm, between, f"seed {SEED}, plans {number}")
        # Short plans may have none.
        self.assertGreater(crashes, 0, f"seed {SEED}")


def played_between(plans, seed):
    """As `played`, with no kill but those between lines."""
    class Between(Crashing):
        def call(self, op, **fields):
            if self.drawn(self._rate):
                self._kill("service between lines")
                self._reopen()
            return self.service.call(op, **fields)

    draw, clock = random.Random(seed), JumpingClock()
    with memory_folder() as folder:
        crashing = Between(str(pathlib.Path(folder) / "log"), clock, draw, 0.02)
        try:
            send(Stage(crashing, clock, sys.modules[__name__], SETTINGS.shards), plans)
            return histories(crashing), crashing.crashes
        finally:
            crashing.service.close()


if __name__ == "__main__":
    unittest.main()
