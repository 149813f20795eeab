"""Runs a workflow's code over a history: what the history has is answered from it, and what comes
next becomes the commands. Code that asks for something else than the history has is found.

All signals that a workflow task brought are handed to the code before it goes on, then what ended, in the
order of the history, and a request to cancel last. What ended in a task has its end there also where the
code gives it up. Earlier versions of this client took all events in their order, and waited for no child that
was cancelled. Which rules a run has is in its history: a run goes on by these older rules if its completed
tasks agree with them, and not with the present ones.
"""

from __future__ import annotations

from typing import Any, Callable, Coroutine, Dict, List, Optional, Set, Tuple, TypeVar

from wfserve.events import SETTLES
from wfserve.types import Event, Json

from .commands import Command, has, match
from .context import Context
from .converter import JSON, Converter
from .errors import Cancelled, ContinueAsNew, Failure, NonDeterminism
from .handlers import Handlers, called
from .history import Turn, Turns, up_to_now
from .interceptors import Interceptors, QueryCall, SignalCall, WorkflowCall, chained
from .limits import check_command
from .loop import Loop, Task
from .operations import Child, Operation
from .signals import Inbox
from .values import clipped


# What is handed to the code before all else.
FIRST = ("WorkflowExecutionStarted", "WorkflowExecutionSignaled")
CANCEL = "WorkflowExecutionCancelRequested"


Result = TypeVar("Result")


class Replay:
    """One run of the code over one history."""

    def __init__(
        self, function: Callable[..., Any], events: List[Event], run: str, older: bool = False, guards_all: bool = False,
        converter: Converter = JSON, interceptors: Interceptors = (),
    ):
        self.loop = Loop(older)
        self.converter = converter
        # Code is guarded where it comes for the first time. What it did before has been decided, and is matched.
        self._guards_all = guards_all
        self.handlers = Handlers(self.loop, self._signal_handled, self._query_answered)
        self._interceptors = interceptors
        self.inbox = Inbox(self.loop, self.handlers)
        self.operations: Dict[Tuple[str, int], Operation] = {}
        # What was cancelled, and has to end before the run may close.
        self.ending: Set[Operation] = set()
        # The signals that nobody had taken when the run closed.
        self.left: List[Tuple[str, Any]] = []
        self.commands: List[Command] = []
        # Before the first one there is nothing, and nothing was done.
        self.turn = Turn([], 0)
        self.cancel_requested = False
        # What ended by an event of this turn, by that event.
        self._ends: Dict[Tuple[str, int], Json] = {}
        # Whether this turn brought a request to cancel that the code has not been handed.
        self._cancel_comes = False
        # Whether it was asked to cancel once its code had come to its end.
        self._cancel_came_late = False
        self._function = function
        self._events = events
        self._turns = Turns()
        self._context = Context(self, events[0], run)
        self._begun: Optional[Task] = None
        self.has_closed = False
        self._disagreement: Optional[NonDeterminism] = None

    def run(self) -> List[Command]:
        """The commands that complete the task in hand; none where no task is in hand. The replay is over then."""
        try:
            return self._take_all(self._events)
        finally:
            self.close()

    def begin(self) -> List[Command]:
        """As `run`, but the code stays where it waits, for `go_on` or `close`."""
        return self.go_on(self._events)

    def go_on(self, events: List[Event]) -> List[Command]:
        """The commands that complete the next task in hand, by the events that have come since."""
        self._events = []
        try:
            return self._take_all(events)
        except BaseException:
            self.close()
            raise

    def close(self) -> None:
        """Ends the code where it waits."""
        self.loop.close()

    def _take_all(self, events: List[Event]) -> List[Command]:
        for turn in self._turns.of(events):
            self._take(turn)
        return self.commands if self.turn.completed is None else []

    def query(self, name: str, arguments: List[Any]) -> Any:
        """What the code answers to a query now. It goes on as far as it can, and nothing that it asks for is told."""
        try:
            self._take_all(up_to_now(self._events))
            return self.handlers.answer(name, arguments)
        finally:
            self.close()

    @property
    def is_in_the_past(self) -> bool:
        """Whether the turn that it is at was completed: what goes wrong there is a disagreement."""
        return self.turn.completed is not None

    @property
    def _main(self) -> Task:
        """The code of the workflow, which the first event began."""
        if self._begun is None:
            raise ValueError("this is no history: it does not begin with WorkflowExecutionStarted")
        return self._begun

    def unheard(self) -> List[Task]:
        """The coroutines that failed, and that nobody has waited for."""
        return [
            task for task in self.loop.tasks
            if task is not self._begun and isinstance(task.fault, Exception) and not task.heard
        ]

    def learns_of_cancellation(self) -> bool:
        """For code that ends this run and goes on in a new one: whether it was asked to cancel, and doesn't know it.

        The new run would not be asked. So the code learns of it now, also of a request that this task brought."""
        if self._cancel_comes:
            self._cancel_comes, self.cancel_requested = False, True
            self._main.take_as_told()
            return True
        return self._main.learn_at_once()

    # What the code asks for.

    def ask(self, command: Command) -> None:
        if not self.is_in_the_past:
            check_command(command.type, command.members)
        self.commands.append(command)

    def end_in_this_turn(self, operation: Operation) -> Optional[Json]:
        """The event of this turn that ends it, where there is one."""
        return None if operation.event is None else self._ends.get((operation.key, operation.event))

    def take_back(self, command: Command) -> None:
        """Forgets a command that was asked for in this turn."""
        if command in self.commands:
            self.commands.remove(command)

    def recorded_marker(self, name: str) -> Optional[str]:
        """What a marker of this turn remembers; None where the code comes here for the first time."""
        for event in self.turn.recorded:
            if event["type"] == "MarkerRecorded" and event["attrs"]["name"] == name:
                return str(event["attrs"]["details"])
        if self.is_in_the_past:
            self._disagree(f"MarkerRecorded (name \"{name}\")")
        return None

    def patch(self, name: str) -> bool:
        """Whether the code takes what a patch brought: where it comes there for the first time, and where it did."""
        if self.is_in_the_past and not self._has_marker(name):
            return False
        self.ask(Command("RecordMarker", {"name": name, "details": ""}))
        return True

    def patch_that_was(self, name: str) -> None:
        """The code takes what a patch brought, and says so no more; a marker of it is let be."""
        if self.is_in_the_past and self._has_marker(name):
            self.ask(Command("RecordMarker", {"name": name, "details": ""}))

    def _has_marker(self, name: str) -> bool:
        return any(
            event["type"] == "MarkerRecorded" and event["attrs"]["name"] == name for event in self.turn.recorded
        )

    def _disagree(self, asked: str) -> None:
        """The code asks for what this turn of the history doesn't have. It can't catch that."""
        left = self.turn.recorded[len(self.commands):]
        if left:
            self._disagreement = NonDeterminism(left[0]["id"], has(left[0]), asked)
        else:
            last = self.turn.recorded[-1]["id"] if self.turn.recorded else self.turn.completed or 0
            self._disagreement = NonDeterminism(last, has(None), asked)
        raise self._disagreement

    # Turns.

    def _take(self, turn: Turn) -> None:
        if not turn.has_run:
            self._go_through(turn)
        if turn.completed is not None:
            match(self.commands, turn.recorded, turn.completed, self.converter.plain)

    def _go_through(self, turn: Turn) -> None:
        """Hands the code what a turn brings, and lets it go on."""
        self.turn, self.commands = turn, []
        self.loop.is_guarded = self._guards_all or not self.is_in_the_past
        if self.loop.older:
            self._take_one_by_one(turn.news)
        else:
            self._take_in_order(turn.news)
        if self.loop.guard.fault is not None:
            raise self.loop.guard.fault
        self._close()
        if self._disagreement is not None:
            raise self._disagreement

    def _take_in_order(self, news: List[Event]) -> None:
        """Hands the code the signals, then what ended, and a request to cancel last."""
        signals = [event for event in news if event["type"] in FIRST]
        cancels = [event for event in news if event["type"] == CANCEL]
        others = [event for event in news if event["type"] not in (*FIRST, CANCEL)]
        self._cancel_comes = bool(cancels)
        self._ends = {end_of(event): event for event in others if event["type"] in SETTLES}
        for event in signals:
            self._learn(event)
        self.loop.run()
        self._take_one_by_one([*others, *cancels])

    def _take_one_by_one(self, news: List[Event]) -> None:
        for event in news:
            self._learn(event)
            self.loop.run()

    def _learn(self, event: Event) -> None:
        kind, attrs = event["type"], event["attrs"]
        if kind == "WorkflowExecutionStarted":
            self._begin(attrs)
        elif kind == "WorkflowExecutionSignaled":
            self.inbox.deliver(attrs["name"], self.converter.value_of(attrs["input"]))
        elif kind == CANCEL:
            self.cancel_requested = True
            if self._cancel_comes or self.loop.older:
                self._cancel_comes = False
                self._cancel_came_late = self._main.done
                self._main.cancel()
        elif kind == "ChildWorkflowExecutionStarted":
            child = self.operations.get(("initiated", attrs["initiated"]))
            if isinstance(child, Child):
                child.run = attrs["run"]
        elif kind in SETTLES:
            self._settle(event)

    def _begin(self, attrs: Json) -> None:
        signals: List[Tuple[str, Any]] = []
        if attrs.get("continued_from"):
            arguments, signals = self.converter.parts_of_input(attrs["input"], self._function)
        else:
            arguments = self.converter.arguments_of(attrs["input"], self._function, 1)
        for name, value in signals:
            self.inbox.deliver(name, value)
        self._begun = self.loop.task(self._code(arguments))

    # What stands around the code.

    def _code(self, arguments: List[Any]) -> Coroutine[Any, Any, Any]:
        """The code of the workflow."""
        if not self._interceptors:
            made: Coroutine[Any, Any, Any] = self._function(self._context, *arguments)
            return made
        around = chained(self._interceptors, "workflow", lambda it: self._function(it.ctx, *it.arguments))
        made = around(WorkflowCall(self._context, self._context.workflow_type, arguments))
        made.__qualname__ = self._function.__qualname__
        return made

    def _signal_handled(self, handler: Callable[..., Any], name: str, value: Any) -> Coroutine[Any, Any, Any]:
        around = chained(self._interceptors, "signal", lambda it: called(handler, it.value))
        made: Coroutine[Any, Any, Any] = around(SignalCall(self._context, name, value))
        return made

    def _query_answered(self, answer: Callable[..., Any], name: str, arguments: List[Any]) -> Any:
        around = chained(self._interceptors, "query", lambda it: answer(*it.arguments))
        return around(QueryCall(self._context, name, arguments))

    def _settle(self, event: Event) -> None:
        """What a request to cancel a child came to is nobody's."""
        operation = self.operations.get(end_of(event))
        if operation is not None:
            operation.ended(event)

    def _close(self) -> None:
        """How the workflow ends, where its code has come to its end, or a handler of its signals has failed."""
        broken = self.handlers.fault()
        if self.has_closed or self.ending or not (broken or self._main.done):
            return
        self.has_closed = True
        self.left = self.inbox.left()
        self._end(broken or self._main.fault)

    def _end(self, fault: Optional[BaseException]) -> None:
        """What closes the run, by the fault that ended its code; None is no fault."""
        if fault is None:
            self.ask(Command("CompleteWorkflowExecution", {"result": self.converter.text_of(self._main.value)}))
        elif isinstance(fault, ContinueAsNew):
            if self._cancel_came_late and not self.loop.older:
                # Its code waited for the end of a child alone. The next run is asked in its place.
                self.ask(Command("RequestCancelExternalWorkflowExecution", {"workflow_id": self._context.workflow_id}))
            self.ask(Command("ContinueAsNewWorkflowExecution", self._continued(fault)))
        elif isinstance(fault, Cancelled) and self.cancel_requested:
            self.ask(Command("CancelWorkflowExecution", {"details": ""}))
        elif isinstance(fault, (Failure, Cancelled)):
            self.ask(Command("FailWorkflowExecution", {"message": clipped(str(fault) or "cancelled")}))
        else:
            raise fault

    def _continued(self, asked: ContinueAsNew) -> Json:
        """The members of the command to continue as new."""
        text = self.converter.input_of(asked.arguments)
        if asked.with_signals and self.left:
            text, self.left = self.converter.input_with_signals(asked.arguments, self.left), []
        return {**({"input": text} if text else {}), **asked.members}


def end_of(event: Event) -> Tuple[str, int]:
    """By which key and which event an event names the operation that it ends."""
    key = SETTLES[event["type"]]
    return key, event["attrs"][key]


def replayed(
    function: Callable[..., Any], events: List[Event], run: str, guards_all: bool = False, converter: Converter = JSON,
    interceptors: Interceptors = (),
) -> Tuple[Replay, List[Command]]:
    """A replay by the rules that the history agrees with, and what the code asks for next. It may go on."""
    return by_its_rules(function, events, run, lambda replay: replay.begin(), guards_all, converter, interceptors)


def by_its_rules(
    function: Callable[..., Any], events: List[Event], run: str, act: Callable[[Replay], Result], guards_all: bool = False,
    converter: Converter = JSON, interceptors: Interceptors = (),
) -> Tuple[Replay, Result]:
    """What is done with a replay by the present rules, or by the older ones where the history agrees with these alone."""
    words: Json = {"guards_all": guards_all, "converter": converter, "interceptors": interceptors}
    replay = Replay(function, events, run, **words)
    try:
        return replay, act(replay)
    except Exception:
        if not replay.is_in_the_past:
            raise
        older = Replay(function, events, run, older=True, **words)
        try:
            return older, act(older)
        except Exception:
            if not older.is_in_the_past:
                raise
        raise


def answer_of(
    function: Callable[..., Any], events: List[Event], run: str, name: str, arguments: List[Any],
    converter: Converter = JSON, interceptors: Interceptors = (),
) -> Any:
    """What the code of a workflow answers to a query, by its history. No event is written."""

    def asked(replay: Replay) -> Any:
        return replay.query(name, arguments)

    return by_its_rules(function, events, run, asked, converter=converter, interceptors=interceptors)[1]


def commands_of(function: Callable[..., Any], events: List[Event], run: str) -> List[Command]:
    """What the code of a workflow asks for next, by its history."""
    replay, commands = replayed(function, events, run)
    replay.close()
    return commands


def check(function: Callable[..., Any], events: List[Event], run: str, converter: Converter = JSON) -> None:
    """Raises NonDeterminism where the code asks for something else than the history has, and ForbiddenCall where
    it calls anywhere what is not the same twice."""
    replayed(function, events, run, guards_all=True, converter=converter)[0].close()
