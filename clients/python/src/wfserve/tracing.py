"""Spans of OpenTelemetry, where it is installed: of a client's calls, of workflows, of activities and of handlers.

    from wfserve.tracing import Tracing

    tracing = Tracing()
    client, worker = Client(url, interceptors=[tracing]), Worker(service, .., interceptors=[tracing])

A call of a client is a span where it is made. What a run does is one trace of its own, whose id follows from the run's:
so its spans are found together, whichever worker made them, and nothing of a trace stands in a history. A span of a
workflow says when its code began and when it ended, and is left out in a replay.

Tests make spans of a stand-in, and of the package itself only where opentelemetry-sdk is there.
"""

from __future__ import annotations

import contextlib
import hashlib
from typing import Any, Awaitable, Callable, Dict, Iterator, Optional

from wfserve.workflows.interceptors import ActivityCall, ClientCall, Interceptor, QueryCall, SignalCall, WorkflowCall


def ids_of(run: str) -> "tuple[int, int]":
    """The id of the trace of a run, and that of the span which all its spans are below. Neither is 0."""
    digest = hashlib.sha256(run.encode()).digest()
    return int.from_bytes(digest[:16], "big") | 1, int.from_bytes(digest[16:24], "big") | 1


def context_of_run(run: str) -> Any:
    """The context in which a span of a run begins. ImportError where OpenTelemetry is not installed."""
    from opentelemetry import trace

    trace_id, span_id = ids_of(run)
    flags = trace.TraceFlags(trace.TraceFlags.SAMPLED)
    parent = trace.SpanContext(trace_id, span_id, is_remote=True, trace_flags=flags)
    return trace.set_span_in_context(trace.NonRecordingSpan(parent))


def tracer_of_the_process() -> Any:
    """The tracer by which spans are made. ImportError, which says what to install, where there is none."""
    try:
        from opentelemetry import trace
    except ImportError:
        raise ImportError("tracing wants OpenTelemetry: pip install opentelemetry-api opentelemetry-sdk") from None
    return trace.get_tracer("wfserve")


class Tracing(Interceptor):
    """Makes a span of each call. `tracer` is another one than that of the process."""

    def __init__(self, tracer: Any = None, context_of: Optional[Callable[[str], Any]] = None):
        self._tracer = tracer if tracer is not None else tracer_of_the_process()
        self._context_of = context_of or context_of_run

    @contextlib.contextmanager
    def _span(self, name: str, run: Optional[str], attributes: Dict[str, Any]) -> Iterator[Any]:
        """A span: of a run's trace, or where none is named of the caller's. A fault is noted there by the tracer."""
        context = None if run is None else self._context_of(run)
        said = {f"wfserve.{key}": value for key, value in attributes.items() if value not in (None, "")}
        with self._tracer.start_as_current_span(name, context=context, attributes=said) as span:
            yield span

    def client(self, call: ClientCall, go_on: Callable[[ClientCall], Any]) -> Any:
        """A span where the call is made."""
        name = f"{call.name} {call.workflow_type}".strip()
        attributes = {"workflow_id": call.id, "run": call.run, "workflow_type": call.workflow_type}
        with self._span(name, None, attributes) as span:
            result = go_on(call)
            if call.name in ("start", "signal_with_start"):
                span.set_attribute("wfserve.run", str(result))
            return result

    def activity(self, call: ActivityCall, go_on: Callable[[ActivityCall], Any]) -> Any:
        """A span of an attempt, in the trace of its run."""
        with self._span(f"activity {call.activity_type}", call.attempt.run, about(call)):
            return go_on(call)

    async def async_activity(self, call: ActivityCall, go_on: Callable[[ActivityCall], Awaitable[Any]]) -> Any:
        """The same of an `async def`."""
        with self._span(f"activity {call.activity_type}", call.attempt.run, about(call)):
            return await go_on(call)

    async def workflow(self, call: WorkflowCall, go_on: Callable[[WorkflowCall], Awaitable[Any]]) -> Any:
        """A span where the code begins, and one where it ends: it waits for days between, and on other workers."""
        self._mark(call.ctx, f"workflow {call.workflow_type} begins")
        try:
            result = await go_on(call)
        except Exception as fault:
            self._mark(call.ctx, f"workflow {call.workflow_type} fails", type(fault).__name__)
            raise
        self._mark(call.ctx, f"workflow {call.workflow_type} completes")
        return result

    async def signal(self, call: SignalCall, go_on: Callable[[SignalCall], Awaitable[Any]]) -> Any:
        """A span where a handler of a signal begins."""
        self._mark(call.ctx, f"signal {call.name}")
        return await go_on(call)

    def query(self, call: QueryCall, go_on: Callable[[QueryCall], Any]) -> Any:
        """A span where a query is answered, also by a replay."""
        self._mark(call.ctx, f"query {call.name}", in_replays=True)
        return go_on(call)

    def _mark(self, ctx: Any, name: str, fault: Optional[str] = None, in_replays: bool = False) -> None:
        """A span of no duration, where the code comes for the first time. A tracer reads clocks, so it is unguarded."""
        if ctx.is_replaying and not in_replays:
            return
        attributes = {"workflow_id": ctx.workflow_id, "run": ctx.run, "fault": fault}

        def make() -> None:
            with self._span(name, ctx.run, attributes):
                pass

        ctx.unguarded(make)


def about(call: ActivityCall) -> Dict[str, Any]:
    """What a span says of an attempt."""
    made = call.attempt
    return {
        "workflow_id": made.workflow_id, "run": made.run, "activity_id": made.activity_id,
        "activity_type": call.activity_type, "attempt": made.number,
    }
