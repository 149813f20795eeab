"""Workflows as code: an `async def` that is run over its history, and activities, plain functions or `async def`.

    from wfserve.workflows import Retry, Worker, hours, seconds, workflow

    def charge(order_id):
        return "receipt 4711"

    @workflow
    async def order(ctx, order_id):
        receipt = await ctx.activity(charge, order_id, start_to_close=seconds(30), retry=Retry(attempts=5))
        done = await ctx.first(ctx.timer(hours(1)), ctx.signal("call off"))
        return {"receipt": receipt, "shipped": done.index == 0}

No proof covers it. It rests on what the service promises: a history that was shown stays as it is, a
token counts once, and a completion takes effect whole or not at all.
"""

from .activity_info import ActivityInfo
from .clocks import JumpingClock, WallClock
from .context import Context
from .converter import Codec, Converter, Gzip
from .current_attempt import attempt
from .definitions import activity, workflow
from .driver import Driver, run_until_closed, run_until_idle
from .errors import (
    ActivityFailed, ActivityTimedOut, AttemptOver, Cancelled, ChildFailed, Failure, NoSuchWorkflow, NonDeterminism,
    NonRetryable, WorkflowFailed,
)
from .handlers import ConditionTimedOut, NoSuchQuery
from .info import WorkflowInfo
from .interceptors import ActivityCall, ClientCall, Interceptor, QueryCall, SignalCall, WorkflowCall
from .local import run
from .operations import Cancellation
from .replay import check
from .scopes import Scope
from .shutdown import WorkerStops
from .values import Retry, days, hours, input_of, minutes, seconds, text_of, value_of
from .worker import Worker

__all__ = [
    "ActivityCall", "ActivityFailed", "ActivityInfo", "ActivityTimedOut", "AttemptOver", "Cancellation", "Cancelled",
    "ChildFailed", "ClientCall", "Codec", "ConditionTimedOut", "Context", "Converter", "Driver", "Failure", "Gzip",
    "Interceptor", "JumpingClock", "NoSuchQuery", "NoSuchWorkflow", "NonDeterminism", "NonRetryable", "QueryCall",
    "Retry", "Scope", "SignalCall", "WallClock", "Worker", "WorkerStops", "WorkflowCall", "WorkflowFailed",
    "WorkflowInfo", "activity", "attempt", "check", "days", "hours", "input_of", "minutes", "run", "run_until_closed",
    "run_until_idle", "seconds", "text_of", "value_of", "workflow",
]
