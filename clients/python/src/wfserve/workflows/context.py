"""What a workflow's code sees: what it asks for, its moment, and its randomness."""

from __future__ import annotations

import logging
import random
from typing import TYPE_CHECKING, Any, Callable, Coroutine, Dict, List, NoReturn, Optional, Sequence, Union

from wfserve.types import Json

from .commands import Command
from .definitions import Named, type_of
from .errors import Cancelled, ContinueAsNew, ReplayOver
from .handlers import Condition, ConditionTimedOut
from .info import ReplayLogger, WorkflowInfo, info_of
from .loop import Future, Task
from .operations import Activity, Cancellation, Child, Timer, Word
from .scopes import Scope
from .signals import Signal, Signals
from .together import FirstOf, Gathered, Shielded
from .typed import result_hint
from .values import Retry, retry_members


if TYPE_CHECKING:
    from .replay import Replay

# What a workflow's code says by `ctx.logger`.
CODE_LOG = logging.getLogger("wfserve.workflows.code")
# What the names of markers of patches begin with.
PATCH = "patch "
Awaited = Union[Future, Coroutine]


def given(**members: Any) -> Json:
    """The members that say something: no empty text, no duration of 0, no empty policy."""
    return {name: value for name, value in members.items() if value not in (None, "", 0, {})}


class Context:
    """Handed to a workflow as its first argument. Durations are in milliseconds."""

    def __init__(self, replay: "Replay", started: Json, run: str):
        self._started = started
        attrs = started["attrs"]
        self.workflow_id: str = attrs["workflow_id"]
        self.workflow_type: str = attrs["workflow_type"]
        self.task_queue: str = attrs["task_queue"]
        self.run = run
        # The run that began this one as its child, or that went on as this one.
        self.parent_run: Optional[str] = attrs.get("parent_run")
        self.continued_from: Optional[str] = attrs.get("continued_from")
        self.random = random.Random(run)
        self._replay = replay
        self._counts: Dict[str, int] = {}
        # What was answered of each patch.
        self._patches: Dict[str, bool] = {}

    @property
    def now(self) -> int:
        """The moment at which the task was taken by a worker, as the history has it."""
        return self._replay.turn.moment

    @property
    def cancel_requested(self) -> bool:
        """Whether the run was asked to cancel, as far as the code has been told."""
        return self._replay.cancel_requested

    @property
    def is_replaying(self) -> bool:
        """Whether the code does here what it did before. For what decides nothing, as a span or a measurement."""
        return self._replay.is_in_the_past

    @property
    def info(self) -> WorkflowInfo:
        """The run as its history tells it: its ids, its timeouts, how long its history is."""
        return info_of(self._started, self.run, self._replay.turn.length)

    @property
    def logger(self) -> ReplayLogger:
        """A logger that is silent in a replay: each line is said where its code comes for the first time."""
        return ReplayLogger(CODE_LOG, self._replay, self.workflow_id)

    def _asking(self) -> "Replay":
        if self._replay.loop.closed:
            raise ReplayOver()
        return self._replay

    def _counted(self, kind: str) -> str:
        """The next number of a kind. The code asks in one order, so numbers name what it asks for."""
        self._counts[kind] = self._counts.get(kind, 0) + 1
        return str(self._counts[kind])

    # What a workflow asks for.

    def activity(
        self, activity: Named, *arguments: Any, start_to_close: int = 0, schedule_to_close: int = 0,
        schedule_to_start: int = 0, heartbeat: int = 0, retry: Retry = Retry(),
        queue: Optional[str] = None, id: Optional[str] = None,
        cancellation: Cancellation = Cancellation.TRY_CANCEL,
    ) -> Activity:
        """Has a worker call a function. Its value, by the hint of what it gives, or ActivityFailed, or ActivityTimedOut.

        One of start_to_close and schedule_to_close has to be given. `cancellation` says whether the code
        waits for its end where it is cancelled: it does for what moves money, to know whether it was moved."""
        number = self._counted("activity")
        members = {
            "activity_id": id or number, "activity_type": type_of(activity),
            "task_queue": queue or self.task_queue,
        }
        members.update(given(
            input=self._input_of(arguments), start_to_close=start_to_close, schedule_to_close=schedule_to_close,
            schedule_to_start=schedule_to_start, heartbeat=heartbeat, retry=retry_members(retry),
        ))
        made = Activity(self._asking(), Command("ScheduleActivityTask", members), cancellation)
        made.hint = result_hint(activity)
        return made

    def timer(self, duration: int, id: Optional[str] = None) -> Timer:
        """Is done after so long; at once where that is 0 or less."""
        number = self._counted("timer")
        command = Command("StartTimer", {"timer_id": id or number, "duration": max(duration, 1)})
        return Timer(self._asking(), command)

    def signal(self, name: str) -> Signal:
        """The value of the next signal of this name."""
        return self._asking().inbox.next(name)

    def signals(self, name: str) -> Signals:
        """The signals of this name that came and that nobody has taken: how many there are, and all of them."""
        return Signals(self._asking().inbox, name)

    def on_signal(self, name: str, handler: Callable[..., Any]) -> None:
        """Has all signals of a name handled by a function of their value: those that came, and those to come.

        A plain function or an `async def`, which may wait for what the context gives. Its fault is the workflow's.
        """
        replay = self._asking()
        waiting = replay.inbox.take_over(name)
        replay.handlers.add(name, handler)
        for value in waiting:
            replay.handlers.handle(name, value)

    def on_query(self, name: str, answer: Callable[..., Any]) -> None:
        """Has queries of a name answered by a function, which changes nothing. `WorkflowHandle.query` asks them."""
        self._asking().handlers.add_query(name, answer)

    @property
    def all_handlers_finished(self) -> bool:
        """Whether no handler of a signal is under way: to be waited for before a run ends."""
        return self._replay.handlers.all_finished

    async def wait_condition(self, holds: Callable[[], Any], timeout: int = 0) -> None:
        """Waits until a function of no arguments says that it holds, as handlers of signals make it.

        ConditionTimedOut, which is a TimeoutError, after so many milliseconds; 0 waits for ever.
        """
        condition = Condition(self._asking().loop, holds)
        if not timeout or condition.done:
            await condition
        elif (await self.first(condition, self.timer(timeout))).index:
            raise ConditionTimedOut(f"the condition did not hold within {timeout} ms")

    def child(
        self, workflow: Named, *arguments: Any, id: Optional[str] = None, queue: Optional[str] = None,
        parent_close: str = "Terminate", reuse: str = "AllowDuplicate", run_timeout: int = 0,
        task_timeout: int = 0, cancellation: Optional[Cancellation] = None,
    ) -> Child:
        """Starts another workflow, and waits for its end: its value, or ChildFailed.

        Where it is cancelled, the code waits for its end, unless another `cancellation` is given."""
        number = self._counted("child")
        members = {
            "workflow_id": id or f"{self.workflow_id}/{number}", "workflow_type": type_of(workflow),
            "task_queue": queue or self.task_queue, "parent_close": parent_close, "reuse": reuse,
        }
        members.update(given(input=self._input_of(arguments), run_timeout=run_timeout, task_timeout=task_timeout))
        made = Child(self._asking(), Command("StartChildWorkflowExecution", members), cancellation)
        made.hint = result_hint(workflow)
        return made

    def signal_workflow(self, workflow_id: str, name: str, value: Any = None, run: Optional[str] = None) -> Word:
        """Signals another workflow. Done once it has the signal; NoSuchWorkflow where it isn't open."""
        text = self.unguarded(lambda: self._replay.converter.text_of(value))
        members = {"workflow_id": workflow_id, "name": name, **given(input=text, run=run)}
        return Word(self._asking(), Command("SignalExternalWorkflowExecution", members))

    def cancel_workflow(self, workflow_id: str, run: Optional[str] = None) -> Word:
        """Asks another workflow to cancel."""
        members = {"workflow_id": workflow_id, **given(run=run)}
        return Word(self._asking(), Command("RequestCancelExternalWorkflowExecution", members))

    def once(self, make: Callable[[], Any]) -> Any:
        """A value that is made once and remembered in the history: for what is not the same twice."""
        name = f"once {self._counted('once')}"
        replay = self._asking()
        details = replay.recorded_marker(name)
        if details is None:
            details = str(replay.loop.guard.lifted(lambda: replay.converter.text_of(make())))
        text = details
        replay.ask(Command("RecordMarker", {"name": name, "details": text}))
        return replay.loop.guard.lifted(lambda: replay.converter.value_of(text))

    def unguarded(self, make: Callable[[], Any]) -> Any:
        """A value of what a workflow's code may not do otherwise, made again in each replay: for what decides
        nothing, as a measurement of the code itself."""
        return self._asking().loop.guard.lifted(make)

    def patched(self, id: str) -> bool:
        """Whether code that was changed takes its new way, as `if ctx.patched("ask the bank first"):`.

        So does a run that comes here for the first time, and a marker remembers it. A run whose tasks came by here
        before the change takes the old way, each time that it is asked.
        """
        if id not in self._patches:
            self._patches[id] = self._asking().patch(PATCH + id)
        return self._patches[id]

    def deprecate_patch(self, id: str) -> None:
        """In the place of `patched`, once no run is left that takes the old way: markers of it agree still."""
        self._asking().patch_that_was(PATCH + id)

    def continue_as_new(
        self, *arguments: Any, workflow: Optional[Named] = None, queue: Optional[str] = None,
        with_signals: bool = False,
    ) -> NoReturn:
        """Ends this run, and begins the next one of this workflow with a history of its own.

        `with_signals` hands on the signals that nobody took; they and the arguments are one input, which
        has its limit. Without it a worker's log says how many were left. Raises Cancelled in a run that was
        asked to cancel, where the code has not learned of that yet: the next run would not be asked."""
        if self._asking().learns_of_cancellation():
            raise Cancelled()
        raise ContinueAsNew(
            arguments, given(task_queue=queue, workflow_type=type_of(workflow) if workflow else None), with_signals,
        )

    def _input_of(self, arguments: Sequence[Any]) -> str:
        """Arguments as an input. What a codec does, as drawing a key, is no decision of the code."""
        return str(self.unguarded(lambda: self._replay.converter.input_of(arguments)))

    # Several at once.

    def task(self, coroutine: Coroutine[Any, Any, Any]) -> Task:
        """Lets a coroutine of this workflow run beside the others."""
        return self._asking().loop.task(coroutine)

    def gather(self, *awaited: Awaited) -> Gathered:
        """All values, in their order. The first fault is raised, and cancels the others."""
        return Gathered(self._asking().loop, self._futures(awaited))

    def first(self, *awaited: Awaited) -> FirstOf:
        """The index and the value of the first that is done. The others are cancelled; a signal that
        nobody took stays for the next one who asks."""
        return FirstOf(self._asking().loop, self._futures(awaited))

    def shield(self, awaited: Awaited) -> Shielded:
        """Waits for it. Where the code that waits is cancelled, it gets Cancelled, and what it waited for goes on."""
        return Shielded(self._asking().loop, self._futures([awaited])[0])

    def scope(self, shield: bool = False) -> Scope:
        """For `with`: a part of the code that can be cancelled by itself, or with a shield not from outside."""
        return Scope(self._asking().loop, shield)

    def _futures(self, awaited: Sequence[Awaited]) -> List[Future]:
        return [it if isinstance(it, Future) else self.task(it) for it in awaited]
