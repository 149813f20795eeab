"""A service of a test's own, in which time jumps to the next moment at which something is due."""

from __future__ import annotations

import functools
from types import TracebackType
from typing import Any, Callable, Dict, Iterable, List, Optional, Sequence, Type

from wfserve.blobs import MemoryStore
from wfserve.calls import Service
from wfserve.client import Client, WorkflowHandle
from wfserve.errors import WfserveError
from wfserve.workflows.clocks import JumpingClock
from wfserve.workflows.converter import JSON, Converter
from wfserve.workflows.definitions import Named, activities_by_type, type_of
from wfserve.workflows.driver import Driver, run_until_idle
from wfserve.workflows.history import faults_of
from wfserve.workflows.interceptors import Interceptors
from wfserve.workflows.worker import Worker

from .program import find_program


# Options of a start by which something is due later.
TIMEOUTS = ("run_timeout", "execution_timeout")


class NothingHappens(WfserveError):
    """A workflow is waited for, and nothing is due: it waits for a signal that nobody sends, or for an activity."""


class TaskFailed(WfserveError):
    """The code of a workflow is at fault: its task failed, and would be tried again and again."""


class WorkflowEnvironment:
    """A program, a worker and a client, for one test. Its time begins at 0, and stands still while code runs.

    `client` starts workflows, and its handles' `result()` lets time jump as far as it has to. `clock.now` is the
    moment, in milliseconds.
    """

    def __init__(
        self, workflows: Iterable[Callable[..., Any]], activities: Iterable[Callable[..., Any]] = (),
        program: Optional[Sequence[str]] = None, converter: Converter = JSON, interceptors: Interceptors = (),
    ):
        self.clock, self.blobs = JumpingClock(), MemoryStore()
        self.calls: Dict[str, List[List[Any]]] = {}
        self._workflows = list(workflows)
        self._activities = activities_by_type(activities)
        # Long texts are kept in memory, as a server would keep them in files.
        self._converter = converter = converter.with_blobs(self)
        self._interceptors = interceptors
        self.service = Service(program or [find_program()], self.clock)
        self.client = Client(self.service, converter=converter, interceptors=interceptors)
        self.client.pause = lambda _: self._step()
        self._driver = Driver(self.service)
        self._started: List[WorkflowHandle] = []
        self._make_worker()

    def __enter__(self) -> WorkflowEnvironment:
        return self

    def __exit__(
        self, kind: Optional[Type[BaseException]], fault: Optional[BaseException], trace: Optional[TracebackType],
    ) -> None:
        self.close()

    def close(self) -> None:
        """Ends the program."""
        self.service.close()

    def _make_worker(self) -> None:
        """A new worker replays what another one has begun, and goes on from there."""
        self._worker = Worker(
            self.service, workflows=self._workflows, activities=self._activities.values(), clock=self.clock,
            converter=self._converter, interceptors=self._interceptors,
        )

    # Workflows.

    def start(self, workflow: Named, *arguments: Any, id: str = "test", **options: Any) -> WorkflowHandle:
        """Starts a workflow, as `Client.start` does. Nothing happens before it is waited for."""
        handle = self.client.start(workflow, *arguments, id=id, **options)
        for name in TIMEOUTS:
            if options.get(name):
                self.clock.expect(self.clock.now + options[name])
        self._started.append(handle)
        return handle

    def execute(self, workflow: Named, *arguments: Any, id: str = "test", **options: Any) -> Any:
        """Starts a workflow and gives its result. NotCompleted where it ends otherwise."""
        return self.start(workflow, *arguments, id=id, **options).result()

    def run_until_idle(self) -> None:
        """Lets all happen that can happen at this moment. TaskFailed where a workflow's code is at fault."""
        run_until_idle(self._driver, [self._worker])
        for handle in self._started:
            self._look_for_faults(handle)

    def sleep(self, milliseconds: int) -> None:
        """Lets so much time go by, and all happen that is due in it."""
        until = self.clock.now + milliseconds
        self.clock.expect(until)
        self.run_until_idle()
        while self.clock.now < until:
            self.clock.jump()
            self.run_until_idle()

    def _step(self) -> None:
        """Goes on to the next moment at which something is due."""
        length = self._length()
        self.run_until_idle()
        if self._length() != length:
            return
        before = self.clock.now
        self.clock.jump()
        if self.clock.now == before:
            raise NothingHappens(f"at {before} ms nothing is due: {self._waiting()}")

    def _length(self) -> int:
        return sum(self.service.describe(handle.id)["length"] for handle in self._started)

    def _waiting(self) -> str:
        """What the workflows that are open wait for."""
        found = [handle.describe() for handle in self._started]
        return "; ".join(
            f"{it.id} waits for {', '.join(f'{one.kind} {one.id}' for one in it.pending) or 'a signal or a condition'}"
            for it in found if it.status == "Running"
        )

    def _look_for_faults(self, handle: WorkflowHandle) -> None:
        faults = faults_of(self.service.history(handle.id))
        if faults:
            attrs = faults[-1]["attrs"]
            raise TaskFailed(f"{handle.id}: {attrs.get('message') or attrs['cause']}")

    # Activities.

    def mock(self, activity: Named, answer: Any) -> None:
        """From now on an activity gives this answer: a function is called with its arguments, an exception is
        raised, and any other value is the result. `calls` has the arguments of each attempt, by the activity's type."""
        name = type_of(activity)
        original = activity if callable(activity) else self._activities.get(name)
        self._activities[name] = self._mocked(name, original, answer)
        self._make_worker()

    def _mocked(self, name: str, original: Optional[Callable[..., Any]], answer: Any) -> Callable[..., Any]:
        made = self.calls.setdefault(name, [])

        def mocked(*arguments: Any) -> Any:
            made.append(list(arguments))
            if isinstance(answer, BaseException):
                raise answer
            return answer(*arguments) if callable(answer) else answer

        if original is not None:
            # Its arguments are made by the hints of the function that it stands for.
            functools.update_wrapper(mocked, original)
        mocked.type_name = name  # type: ignore[attr-defined]
        return mocked
