"""Runs one workflow to its end, over a service of its own that survives being killed."""

from __future__ import annotations

from typing import Any, Callable, Iterable, Sequence

from wfserve.durable import DurableService

from .clocks import WallClock
from .converter import JSON
from .definitions import type_of
from .driver import Driver, run_until_closed
from .errors import Failure
from .worker import Worker


def run(
    command: Sequence[str], folder: str, workflow: Callable[..., Any], activities: Iterable[Callable[..., Any]], workflow_id: str,
    *arguments: Any,
) -> Any:
    """The workflow's value, or Failure. Killed at any moment and run again with the same folder, it goes on.

    The folder has the service's journal, and is made where there is none. Texts that are too long for a history lie in a
    folder beside it, with its name and `.blobs` after it.
    """
    clock = WallClock()
    with DurableService(command, folder, clock=clock) as service:
        clock.go_on_from(service.last_moment)
        converter = JSON.with_blobs(service)
        service.start(workflow_id, type_of(workflow), input=converter.input_of(arguments), request_id=workflow_id)
        worker = Worker(service, workflows=[workflow], activities=activities, clock=clock, converter=converter)
        status = run_until_closed(Driver(service), [worker], clock, workflow_id)
        last = service.history(workflow_id)[-1]["attrs"]
    if status != "Completed":
        raise Failure(f"{workflow_id}: {status}: {last.get('message', '')}")
    return converter.value_of(last["result"])
