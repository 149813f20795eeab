"""What a workflow's code may know of its run, and a logger that is silent in a replay."""

from __future__ import annotations

import logging
from dataclasses import dataclass
from typing import TYPE_CHECKING, Any, MutableMapping, Optional, Tuple

from wfserve.types import Event

if TYPE_CHECKING:
    from .replay import Replay

# From so many events on a run does well to go on in a new one: each task reads and replays all of them.
SUGGESTED_LENGTH = 4_096


@dataclass(frozen=True)
class WorkflowInfo:
    """A run as its history tells it: the same in each replay. Moments and durations are in milliseconds."""

    workflow_id: str
    run: str
    workflow_type: str
    task_queue: str
    started: int
    # How many events the history had when a worker took the task that is in hand.
    history_length: int
    # 0 where there is none.
    run_timeout: int
    task_timeout: int
    parent_run: Optional[str]
    continued_from: Optional[str]

    @property
    def continue_as_new_suggested(self) -> bool:
        """Whether the history is so long that the run should go on in a new one."""
        return self.history_length >= SUGGESTED_LENGTH


def info_of(first: Event, run: str, length: int) -> WorkflowInfo:
    """A run by its first event, where its history has so many."""
    attrs = first["attrs"]
    return WorkflowInfo(
        attrs["workflow_id"], run, attrs["workflow_type"], attrs["task_queue"], first["at"], length,
        attrs.get("run_timeout", 0), attrs.get("task_timeout", 0), attrs.get("parent_run"), attrs.get("continued_from"),
    )


class ReplayLogger(logging.LoggerAdapter):  # type: ignore[type-arg]
    """A logger of a workflow's code. What the code said before, when its history was made, it doesn't say again."""

    def __init__(self, logger: logging.Logger, replay: "Replay", workflow_id: str):
        super().__init__(logger, {"workflow_id": workflow_id})
        self._replay = replay
        self._workflow_id = workflow_id

    def isEnabledFor(self, level: int) -> bool:
        return not self._replay.is_in_the_past and super().isEnabledFor(level)

    def process(self, msg: Any, kwargs: MutableMapping[str, Any]) -> Tuple[Any, MutableMapping[str, Any]]:
        return f"{self._workflow_id}: {msg}", kwargs
