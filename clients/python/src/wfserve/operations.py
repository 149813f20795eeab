"""The operations that a service is asked for by lines, and the keys that each of them has, as docs/PROFILE.md lists them."""

from __future__ import annotations

from typing import Dict, FrozenSet

_START = (
    "workflow_id workflow_type task_queue input request_id reuse run_timeout task_timeout execution_timeout"
)

_KEYS = {
    "start": f"{_START} conflict",
    "signal": "workflow_id run name input request_id",
    "signal_with_start": f"{_START} name signal_input",
    "request_cancel": "workflow_id run request_id",
    "terminate": "workflow_id run reason",
    "complete_workflow_task": "token commands",
    "fail_workflow_task": "token message",
    "complete_activity": "token result",
    "fail_activity": "token message error_type non_retryable",
    "cancel_activity": "token details",
    "heartbeat": "token details",
    "history": "workflow_id run",
    "describe": "workflow_id run",
    "timer_turn": "shard",
    "dispatch_turn": "shard stop",
    "transfer_turn": "from to stop",
    "poll_workflow_task": "task_queue",
    "poll_activity_task": "task_queue",
}
# Beside `op`, `at` and `lane`, which each line may have.
KEYS: Dict[str, FrozenSet[str]] = {op: frozenset(keys.split()) for op, keys in _KEYS.items()}
# These change nothing.
READS = ("history", "describe")
POLLS = ("poll_workflow_task", "poll_activity_task")
# The HTTP status of each refusal, where the path names the call's operation: POST /calls/start. docs/HTTP.md has this table.
STATUSES: Dict[str, int] = {
    "InvalidArgument": 422, "InvalidToken": 422, "NotFound": 404, "UnknownTaskQueue": 404, "AlreadyStarted": 409,
    "CancellationAlreadyRequested": 409, "QueueFull": 503, "Busy": 503, "NoMemory": 507,
}
