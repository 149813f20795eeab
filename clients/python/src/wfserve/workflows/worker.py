"""Polls a task queue, runs workflows' code over their histories, and calls activities."""

from __future__ import annotations

import functools
import logging
import os
import threading
import time
import traceback
from typing import Any, Callable, Dict, Iterable, List, Optional, Sequence, Set, Tuple

from wfserve.calls import Calls, Task
from wfserve.errors import LogFull, Refused, Unavailable
from wfserve.events import NOTHING_WRONG, WORKERS_OWN
from wfserve.operations import POLLS
from wfserve.types import Event

from .attempts import Attempts
from .clocks import Clock, WallClock
from .commands import Command
from .converter import JSON, Converter
from .definitions import activities_by_type, workflows_by_type
from .driver import UNAVAILABLE_PAUSE
from .errors import BadCommand, Blocked, NonDeterminism, NotHere
from .history import faults_of
from .interceptors import Interceptors
from .kept_runs import Kept, KeptRuns
from .limits import COMMANDS_LIMIT, DURATIONS
from .replay import Replay, replayed
from .reports import Absence, Later, Reports, Stop, TaskOver, ToldOrFailed
from .shutdown import Ending, Pace
from .signals import told_of
from .values import clipped
from .watch import WATCH


LOG = logging.getLogger("wfserve.workflows")
# How many milliseconds the second failure of a task is delayed; each later one twice as long.
FIRST_PAUSE = 1_000
# How many runs a worker keeps, whose code goes on by the events that are new.
KEPT_RUNS = 500
# How many runs a worker remembers of which it said that they are stuck.
# What lies below is no code of a workflow.
PACKAGE = os.path.dirname(os.path.dirname(os.path.abspath(__file__))) + os.sep
MOST_STUCK = 10_000
# So often a worker that stops looks whether all has ended, and so long it waits after what was interrupted, in seconds.
LOOK_SECONDS, LAST_SECONDS = 0.05, 2.0


class Worker:
    """Works on one task queue. Runs whose tasks it completed are kept, `kept_runs` of them, and go on by what is new;
    0 replays each task from the first event.

    A task whose code disagrees with the history, or is at fault in another way, is failed with a
    message, and the service has it tried again at once. From the second time on a worker delays the
    failure, longer each time by the failures in the history, and in the end until the task's
    time is over. So no run spins, whichever worker has it, and mended code goes on.

    `run` has a thread for each slot: so many tasks of workflows and so many activities are in hand at a time, and at
    most `activities_per_second` begin. `interceptors` stand around all of it, the first one outermost. Once it is told
    to stop, what is in hand has `grace` seconds to end; then coroutines are cancelled, heartbeats raise WorkerStops, and
    what still doesn't end is left. Without a grace it is waited for.
    """

    def __init__(
        self, service: Calls, queue: str = "main", workflows: Iterable[Callable[..., Any]] = (),
        activities: Iterable[Callable[..., Any]] = (), clock: Optional[Clock] = None, converter: Converter = JSON,
        kept_runs: int = KEPT_RUNS, interceptors: Interceptors = (), workflow_slots: int = 1, activity_slots: int = 1,
        activities_per_second: Optional[float] = None, grace: Optional[float] = None,
    ):
        self.service = service
        self.queue = queue
        self.clock = clock or WallClock()
        self._workflows = workflows_by_type(workflows)
        self._activities = activities_by_type(activities)
        self._reports = Reports()
        self._later = Later(self.clock)
        self._converter = converter.with_blobs(service)
        self._kept = KeptRuns(kept_runs)
        self._interceptors = tuple(interceptors)
        self._slots = at_least_one(workflow_slots), at_least_one(activity_slots)
        self._pace, self._grace = Pace(activities_per_second), grace
        # The threads that poll or have a task in hand.
        self._working: Set[int] = set()
        self._attempts = Attempts(
            service, self._activities, self.clock, self._reports, self._converter, self._interceptors, Ending(grace),
        )
        # How many faults this worker has met in a run since its last completed task.
        self._stuck: Dict[str, int] = {}

    @property
    def lost(self) -> int:
        """How many results of activities it could not tell before it had to stop, or did not wait for."""
        return self._reports.lost

    def work(self) -> int:
        """Does what waits in the queue. How many tasks that was."""
        done = 0
        while self.work_once():
            done += 1
        return done

    def work_once(self) -> bool:
        """Does the next task that waits, if there is one."""
        return self._later.tell_due() or self._decide_one() or self._attempt_one()

    def run(self, stop: threading.Event, pause: float = 0.02) -> None:
        """Works until it is told to stop, on workflows and on activities at the same time.

        Where the service can't be reached, it tries again. A task in hand is finished first."""
        ends = ToldOrFailed(stop)
        self._reports.stop = ends
        self._attempts.ending = Ending(self._grace)
        kinds = ((self._decide_one, self._workflows), (self._attempt_one, self._activities))
        loops = [
            functools.partial(self._work_on, kind, ends, pause)
            for (kind, has), slots in zip(kinds, self._slots) if has for _ in range(slots)
        ]
        ways = [functools.partial(self._tell_later, ends), functools.partial(self._end_in_time, ends)]
        try:
            run_together([*loops, *ways], ends, self._may_leave)
        finally:
            self._reports.lost += self._attempts.in_hand
            self._kept.clear()
            self._attempts.close()

    def _may_leave(self, thread: threading.Thread) -> bool:
        """Whether a thread is no longer waited for: its activity goes on though it was interrupted some time ago."""
        return self._attempts.ending.is_long_over(LAST_SECONDS) and self._attempts.is_busy(thread.ident)

    def _end_in_time(self, stop: ToldOrFailed) -> None:
        """Tells attempts that the worker stops, and interrupts those that take longer than they have.

        Their time begins once nobody polls any more: a task that a poll had taken by then has as much.
        """
        while not stop.is_set():
            stop.wait(UNAVAILABLE_PAUSE)
        ending = self._attempts.ending
        ending.tell()
        if ending.grace is None:
            return
        while len(self._working) > self._attempts.in_hand:
            time.sleep(LOOK_SECONDS)
        late = time.monotonic() + ending.grace
        while self._working and time.monotonic() < late:
            time.sleep(LOOK_SECONDS)
        ending.interrupt()

    def _work_on(self, kind: Callable[[], bool], stop: ToldOrFailed, pause: float) -> None:
        thread = threading.get_ident()
        self._working.add(thread)
        try:
            self._work_until(kind, stop, pause)
        finally:
            self._working.discard(thread)

    def _work_until(self, kind: Callable[[], bool], stop: ToldOrFailed, pause: float) -> None:
        absence = Absence()
        while not stop.is_set():
            try:
                worked = kind()
                absence.ended()
                if not worked:
                    stop.wait(pause)
            except (Unavailable, LogFull) as fault:
                if not getattr(fault, "passes", True):
                    raise
                stop.wait(absence.pause(fault))
            except Refused as refused:
                # A queue that isn't there stays so; of another refusal the next task knows nothing.
                if refused.request["op"] in POLLS:
                    raise
                LOG.error("what the worker said was refused: %s", refused)
                stop.wait(UNAVAILABLE_PAUSE)

    def _tell_later(self, stop: ToldOrFailed) -> None:
        while not stop.is_set():
            try:
                if not self._later.tell_due():
                    self._later.wait(UNAVAILABLE_PAUSE)
            except (Unavailable, LogFull, Refused) as fault:
                LOG.warning("a failure could not be told: %s", fault)

    # Workflow tasks.

    def _decide_one(self) -> bool:
        task = self.service.poll_workflow_task(self.queue) if self._workflows else None
        if task is None:
            return False
        with TaskOver():
            if not self._decide_known(task):
                events = self.service.history(task.workflow_id, task.run)
                if events[-1]["type"] == "WorkflowTaskStarted":
                    self._decide(task, events)
        return True

    def _decide_known(self, task: Task) -> bool:
        """Goes on with a run that is kept, by its new events. False where it has to be replayed from its first one."""
        kept = self._kept.take(task.run)
        if kept is None:
            return False
        if kept.has_doubled(task.started):
            kept.replay.close()
            return False
        try:
            events = self.service.history_from(task.workflow_id, task.run, kept.last["id"])
            commands = self._gone_on(task, kept, events)
        except Blocked as blocked:
            # Its replay would block as well.
            kept.replay.close()
            self._fail(task, self.service.history(task.workflow_id, task.run), blocked)
            return True
        except BaseException:
            kept.replay.close()
            raise
        if commands is None:
            kept.replay.close()
            return False
        self._tell(task, events, kept.timeout, kept.replay, commands)
        return True

    def _gone_on(self, task: Task, kept: Kept, events: List[Event]) -> Optional[List[Command]]:
        """What a kept run asks for next. None at any doubt: a replay of the whole history says what is wrong."""
        if not kept.goes_on_by(events):
            return None
        try:
            with WATCH.of(task.workflow_id, kept.timeout):
                return within_limit(kept.replay.go_on(events[1:]))
        except Exception as fault:
            LOG.info("%s is replayed from its first event: %s", task.workflow_id, fault)
            return None

    def _decide(self, task: Task, events: List[Event]) -> None:
        timeout = task_timeout(events)
        try:
            with WATCH.of(task.workflow_id, timeout):
                replay, commands = self._replayed(task, events)
        except (Exception, Blocked) as fault:
            self._fail(task, events, fault)
            return
        self._tell(task, events, timeout, replay, commands)

    def _replayed(self, task: Task, events: List[Event]) -> Tuple[Replay, List[Command]]:
        kind = events[0]["attrs"]["workflow_type"]
        if kind not in self._workflows:
            raise NotHere(f"this worker has no workflow {kind}")
        replay, commands = replayed(
            self._workflows[kind], events, task.run, converter=self._converter, interceptors=self._interceptors,
        )
        try:
            return replay, within_limit(commands)
        except BadCommand:
            replay.close()
            raise

    def _tell(
        self, task: Task, events: List[Event], timeout: int, replay: Replay, commands: List[Command],
    ) -> None:
        """Completes a task by what the code asks for, and keeps the run where it goes on."""
        # Commands in which the service found a fault may be the same again.
        faults = faults_of(events)
        if faults and faults[-1]["attrs"]["cause"] != WORKERS_OWN:
            replay.close()
            pause = min(pause_after(len(faults)), timeout * 4 // 5)
            self._later.put(self.clock.now + pause, lambda: self._complete(task, events, replay, commands))
            return
        try:
            if self._complete(task, events, replay, commands):
                self._kept.put(task.run, Kept(replay, events[-1], timeout))
        finally:
            if task.run not in self._kept:
                replay.close()

    def _complete(self, task: Task, events: List[Event], replay: Replay, commands: List[Command]) -> bool:
        """Completes a task. Whether the service took it."""
        try:
            cause = self.service.complete_workflow_task(task, [command.line() for command in commands])
        except Refused as refused:
            if refused.name != "InvalidArgument":
                raise
            self._fail(task, self.service.history(task.workflow_id, task.run), refused)
            return False
        if cause is None:
            self._stuck.pop(task.run, None)
            self._expect(commands)
            warn_of(task, replay)
        elif cause != NOTHING_WRONG:
            self._say_stuck(task, f"its commands are at fault: {cause}")
        return cause is None

    def _fail(self, task: Task, events: List[Event], fault: BaseException) -> None:
        """Fails a task: at once the first time, and then after a pause, or not before its time is over. That the
        code asks for what the service would refuse is said once: no other worker is better off."""
        message = said_of(fault)
        self._say_stuck(task, message, fault)
        pause = pause_after(len(faults_of(events)))
        timeout = task_timeout(events)
        if not pause:
            self.service.fail_workflow_task(task, clipped(message))
        elif pause < timeout and not isinstance(fault, BadCommand):
            self._later.put(self.clock.now + pause, lambda: self.service.fail_workflow_task(task, clipped(message)))
        else:
            self.clock.expect(self.clock.now + timeout)

    def _say_stuck(self, task: Task, message: str, fault: Optional[BaseException] = None) -> None:
        """Says in the log that a run doesn't go on: at the first fault, the second, the fourth, and so on."""
        if len(self._stuck) >= MOST_STUCK:
            self._stuck.clear()
        count = self._stuck[task.run] = self._stuck.get(task.run, 0) + 1
        if count & (count - 1):
            return
        LOG.warning("%s is stuck, at attempt %s of its task: %s", task.workflow_id, task.attempt, message)
        if fault is not None and not isinstance(fault, (NonDeterminism, NotHere, Refused)):
            if trace := trace_of(fault):
                LOG.warning("%s", trace)

    def _expect(self, commands: List[Command]) -> None:
        """A clock that jumps has to know what may be due."""
        for command in commands:
            for name in DURATIONS:
                if command.members.get(name):
                    self.clock.expect(self.clock.now + command.members[name])

    # Activities.

    def _attempt_one(self) -> bool:
        if not self._activities:
            return False
        while left := self._pace.left():
            if self._reports.stop.wait(min(left, UNAVAILABLE_PAUSE)):
                return False
        task = self.service.poll_activity_task(self.queue)
        if task is None:
            self._pace.give_back()
            return False
        self._pace.began()
        with TaskOver():
            self._attempts.make(task)
        return True


def at_least_one(slots: int) -> int:
    """A number of slots. ValueError where it is less than one."""
    if slots < 1:
        raise ValueError(f"a worker has at least one slot, and not {slots}")
    return slots


def never(thread: threading.Thread) -> bool:
    """No thread is left."""
    return False


def run_together(
    loops: Sequence[Callable[[], None]], stop: Stop, may_leave: Callable[[threading.Thread], bool] = never,
) -> None:
    """Runs loops on threads until all have ended. What one of them raises ends the others, and is raised.

    `may_leave` is asked whether a thread that goes on is waited for no longer.
    """
    faults: List[BaseException] = []

    def run(loop: Callable[[], None]) -> None:
        try:
            loop()
        except BaseException as fault:
            faults.append(fault)
            stop.set()

    threads = [threading.Thread(target=run, args=(loop,), daemon=True) for loop in loops]
    for thread in threads:
        thread.start()
    for thread in threads:
        while thread.is_alive() and not may_leave(thread):
            thread.join(LOOK_SECONDS)
    if faults:
        raise faults[0]


def within_limit(commands: List[Command]) -> List[Command]:
    """The commands, where the service takes so many."""
    if len(commands) > COMMANDS_LIMIT:
        raise BadCommand(f"one task asks for {len(commands)} things, and at most {COMMANDS_LIMIT} are taken")
    return commands


def pause_after(faults: int) -> int:
    """For how many milliseconds a failure is delayed, where the history has so many."""
    return FIRST_PAUSE << (faults - 1) if faults else 0


def task_timeout(events: List[Event]) -> int:
    """How long a workflow task of a run may take, in milliseconds."""
    return int(events[0]["attrs"]["task_timeout"])


def warn_of(task: Task, replay: Replay) -> None:
    """Says what a run that closes leaves: signals that nobody took, and failures that nobody heard of."""
    if replay.left:
        LOG.warning("%s closes with signals that nobody took: %s", task.workflow_id, told_of(replay.left))
    if replay.has_closed:
        for lost in replay.unheard():
            LOG.warning("%s: %s failed, and nobody waited for it: %r", task.workflow_id, lost.name, lost.fault)


def said_of(fault: BaseException) -> str:
    """A fault of the code as the history tells it."""
    if isinstance(fault, Refused):
        return f"a command is refused: {fault}"
    if isinstance(fault, (NonDeterminism, NotHere)):
        return str(fault)
    if isinstance(fault, Blocked):
        place = traceback.extract_tb(fault.__traceback__)[-1]
        return f"{fault}, at line {place.lineno} of {place.filename}"
    return f"{type(fault).__name__}: {fault}"


def trace_of(fault: BaseException) -> str:
    """Where a fault came up in a workflow's code, without the lines of this package. Empty where it is none of its."""
    found = traceback.TracebackException.from_exception(fault)
    at: Optional[traceback.TracebackException] = found
    frames = 0
    while at is not None:
        own = [frame for frame in at.stack if not frame.filename.startswith(PACKAGE)]
        at.stack, frames = traceback.StackSummary.from_list(own), frames + len(own)
        at = at.__cause__ or at.__context__
    return "".join(found.format()) if frames else ""
