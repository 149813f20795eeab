"""Keeps a workflow's code from what isn't the same in the next replay: the time, chance, files, sockets, threads.

While the code runs, each call on its thread is looked at, by whatever name it was imported. Of what isn't
allowed an error names what to use instead. Code that catches it gets no further: the replay has noted it.
"""

from __future__ import annotations

import builtins
import datetime
import random
import socket
import subprocess
import sys
import threading
import uuid
from types import FrameType, TracebackType
from typing import Any, Callable, Dict, Optional, Tuple, Type

from .errors import ForbiddenCall

IN_ACTIVITY = "do it in an activity"
TIME = "the moment of a workflow is ctx.now, and ctx.timer waits"
CHANCE = "use ctx.random, or ctx.once for a value that is made once"
THREADS = "use ctx.task for coroutines beside each other, and an activity for work"
TASKS = "use ctx.timer, ctx.task, ctx.gather and ctx.first"
# Functions in C, by the modules that have them.
FORBIDDEN: Dict[str, Dict[str, str]] = {
    "time": dict.fromkeys(
        ("time", "time_ns", "monotonic", "monotonic_ns", "perf_counter", "perf_counter_ns", "process_time", "sleep"), TIME
    ),
    "posix": {
        "urandom": CHANCE, "getrandom": CHANCE, "getpid": IN_ACTIVITY, "fork": THREADS,
        **dict.fromkeys(("open", "listdir", "scandir", "stat", "remove", "rename", "mkdir", "system"), IN_ACTIVITY),
    },
    "io": dict.fromkeys(("open", "open_code"), IN_ACTIVITY),
    "_io": dict.fromkeys(("open", "open_code"), IN_ACTIVITY),
    "_thread": dict.fromkeys(("start_new_thread", "start_joinable_thread"), THREADS),
    "_posixsubprocess": {"fork_exec": IN_ACTIVITY},
    "_uuid": {"generate_time_safe": CHANCE},
    "_asyncio": dict.fromkeys(("get_running_loop", "get_event_loop", "_get_running_loop"), TASKS),
}
# Methods of classes in C: those of dates, and what the module `random` does by its hidden generator.
DATE_METHODS = ("now", "utcnow", "today")
# Functions in Python, which say more than the functions in C that they call.
NAMED: Dict[int, Tuple[str, str]] = {
    id(function.__code__): (name, instead) for name, function, instead in (
        ("uuid.uuid1", uuid.uuid1, CHANCE),
        ("uuid.uuid4", uuid.uuid4, CHANCE),
        ("socket.socket", socket.socket.__init__, IN_ACTIVITY),
        ("socket.create_connection", socket.create_connection, IN_ACTIVITY),
        ("subprocess.Popen", subprocess.Popen.__init__, IN_ACTIVITY),
        ("threading.Thread.start", threading.Thread.start, THREADS),
    )
}
# Modules whose own calls are no decision of the code: logs have times, and imports and time zones read files.
FREE = ("logging", "importlib", "zipimport", "zoneinfo", "linecache", "traceback", "warnings")


def asyncio_names() -> Dict[int, Tuple[str, str]]:
    """What of asyncio code reaches for, where somebody has imported it."""
    asyncio = sys.modules.get("asyncio")
    names = ("sleep", "gather", "wait_for", "wait", "create_task", "ensure_future", "run")
    functions = [getattr(asyncio, name) for name in names] if asyncio else []
    return {id(function.__code__): (f"asyncio.{function.__name__}", TASKS) for function in functions}


class Guard:
    """Looks at the calls of one thread while it is entered. What was not allowed first is its `fault`."""

    def __init__(self) -> None:
        self.fault: Optional[ForbiddenCall] = None
        self._named = {**NAMED, **asyncio_names()}
        self._base: Optional[FrameType] = None
        self._lifted = False

    def __enter__(self) -> "Guard":
        # A profiler that is there keeps its place.
        if sys.getprofile() is None:
            self._base = sys._getframe(1)
            sys.setprofile(self._look)
        return self

    def __exit__(
        self, kind: Optional[Type[BaseException]], fault: Optional[BaseException], trace: Optional[TracebackType],
    ) -> None:
        if self._base is not None:
            sys.setprofile(None)
            self._base = None

    def lifted(self, make: Callable[[], Any]) -> Any:
        """What a function gives that may do anything: its value is kept in the history."""
        before, self._lifted = self._lifted, True
        try:
            return make()
        finally:
            self._lifted = before

    def _look(self, frame: FrameType, event: str, called: Any) -> None:
        if event == "c_call":
            instead = forbidden(called)
            if instead is not None:
                self._refuse(frame, name_of(called), instead)
        elif event == "call":
            found = self._named.get(id(frame.f_code))
            if found is not None:
                self._refuse(frame.f_back, *found)

    def _refuse(self, frame: Optional[FrameType], name: str, instead: str) -> None:
        if self._lifted or self._is_free(frame):
            return
        fault = ForbiddenCall(f"{name} in a workflow's code is not the same in its next replay: {instead}")
        self.fault = self.fault or fault
        raise fault

    def _is_free(self, frame: Optional[FrameType]) -> bool:
        """Whether a call is made by a module whose calls are no decision of the code, or by a finalizer."""
        while frame is not None and frame is not self._base:
            module = frame.f_globals.get("__name__", "").partition(".")[0]
            if module in FREE or frame.f_code.co_name == "__del__":
                return True
            frame = frame.f_back
        return False


def forbidden(called: Any) -> Optional[str]:
    """What to use instead of a function in C; None where it is allowed."""
    owner = getattr(called, "__self__", None)
    if owner is random._inst:
        return CHANCE
    if isinstance(owner, type):
        return TIME if issubclass(owner, datetime.date) and called.__name__ in DATE_METHODS else None
    module = FORBIDDEN.get(called.__module__)
    return module.get(called.__name__) if module else None


def name_of(called: Any) -> str:
    owner = getattr(called, "__self__", None)
    if owner is random._inst:
        return f"random.{called.__name__}"
    of = owner.__name__ if isinstance(owner, type) else called.__module__.strip("_").replace("posix", "os")
    name = str(called.__name__)
    return name if called is builtins.open else f"{of}.{name}"
