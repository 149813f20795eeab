"""Interceptors around activities, workflows, handlers and a client's calls; spans of a tracer."""

import asyncio
import contextlib
import importlib.util
import unittest

from support.programs import BUILT, needs_program
from wfserve.client import Client
from wfserve.errors import NotCompleted
from wfserve.testing import WorkflowEnvironment
from wfserve.tracing import Tracing, ids_of
from wfserve.workflows import Interceptor, Retry, WorkflowFailed, attempt, minutes, seconds, workflow


def charge(amount):
    if attempt().number == 1:
        raise ConnectionError("again")
    return amount


async def ship(name):
    await asyncio.sleep(0)
    return name.upper()


@workflow
async def order(ctx, amount):
    told = []
    ctx.on_signal("note", told.append)
    ctx.on_query("told", lambda more: [*told, more])
    paid = await ctx.activity(charge, amount, start_to_close=seconds(5))
    await ctx.timer(minutes(1))
    return [paid, await ctx.activity(ship, "box", start_to_close=seconds(5)), told]


@workflow
async def refused(ctx):
    await ctx.activity(charge, 1, start_to_close=seconds(5), retry=Retry(attempts=1))


@workflow
async def fails(ctx):
    raise WorkflowFailed("as told")


class Noted(Interceptor):
    """Notes what it stands around, by its name."""

    def __init__(self, name, noted):
        self._name, self._noted = name, noted

    def _note(self, what):
        self._noted.append(f"{self._name} {what}")

    def activity(self, call, go_on):
        self._note(f"{call.activity_type} {call.attempt.number} {call.arguments}")
        return go_on(call)

    async def async_activity(self, call, go_on):
        self._note(f"async {call.activity_type}")
        return await go_on(call)

    async def workflow(self, call, go_on):
        if not call.ctx.is_replaying:
            self._note(f"{call.workflow_type} begins")
        return await go_on(call)

    async def signal(self, call, go_on):
        self._note(f"signal {call.name} {call.value}")
        await go_on(call)

    def query(self, call, go_on):
        self._note(f"query {call.name}")
        return go_on(call)

    def client(self, call, go_on):
        self._note(f"client {call.name} {call.id}")
        return go_on(call)


class Changing(Interceptor):
    """Changes what it stands around."""

    def activity(self, call, go_on):
        call.arguments = [it * 10 for it in call.arguments]
        return go_on(call) + 1

    async def async_activity(self, call, go_on):
        return (await go_on(call)) + "!"

    async def workflow(self, call, go_on):
        call.arguments = [call.arguments[0] + 1]
        return {"value": await go_on(call)}

    async def signal(self, call, go_on):
        call.value = f"<{call.value}>"
        await go_on(call)

    def query(self, call, go_on):
        return ["asked", *go_on(call)]

    def client(self, call, go_on):
        if call.name == "start":
            call.arguments = [call.arguments[0] + 4]
        return go_on(call)


@needs_program
class Chains(unittest.TestCase):
    def environment(self, *interceptors):
        env = WorkflowEnvironment([order, refused, fails], [charge, ship], [str(BUILT)], interceptors=interceptors)
        self.addCleanup(env.close)
        return env

    def test_the_first_is_the_outermost_and_each_call_goes_by_all(self):
        noted = []
        env = self.environment(Noted("outer", noted), Noted("inner", noted))
        handle = env.start(order, 5, id="w")
        handle.signal("note", "hello")
        self.assertEqual(handle.result(), [5, "BOX", ["hello"]])
        self.assertEqual(handle.query(order, "told", "more"), ["hello", "more"])
        self.assertEqual(noted[::2], [it.replace("inner", "outer") for it in noted[1::2]])
        self.assertTrue(all(it.startswith("outer") for it in noted[::2]))
        seen = [it[len("outer "):] for it in noted[::2]]
        self.assertEqual([it for it in seen if it.startswith("client")], [
            "client start w", "client signal w", "client result w", "client query w",
        ])
        for once in ("order begins", "charge 1 [5]", "charge 2 [5]", "async ship", "query told"):
            self.assertEqual(seen.count(once), 1, once)
        # The code runs again in each replay, and so do handlers.
        self.assertGreaterEqual(seen.count("signal note hello"), 1)

    def test_they_may_change_what_is_asked_and_what_comes_of_it(self):
        env = self.environment(Changing())
        handle = env.start(order, 5, id="w")
        handle.signal("note", "hello")
        # 5, and 4 by the client, and 1 by the workflow; ten times of it, and 1 by the activity.
        self.assertEqual(handle.result(), {"value": [101, "BOX!", ["<hello>"]]})
        self.assertEqual(handle.query(order, "told", "more"), ["asked", "<hello>", "more"])

    def test_without_any_all_is_as_it_was(self):
        self.assertEqual(self.environment().execute(order, 5), [5, "BOX", []])

    def test_a_fault_of_one_is_that_of_the_call(self):
        class Refusing(Interceptor):
            def client(self, call, go_on):
                raise PermissionError(call.name)

        client = Client(self.environment().service, interceptors=[Refusing()])
        for call, name in (
            (lambda: client.start(order, 1, id="w"), "start"), (lambda: client.handle("w").cancel(), "cancel"),
            (lambda: client.handle("w").terminate(), "terminate"), (lambda: client.handle("w").describe(), "describe"),
            (lambda: client.signal_with_start(order, 1, id="w", signal="note"), "signal_with_start"),
        ):
            with self.assertRaisesRegex(PermissionError, name):
                call()


class FakeTracer:
    """Notes spans: name, context, attributes, and the fault by which each ended."""

    def __init__(self):
        self.spans = []

    @contextlib.contextmanager
    def start_as_current_span(self, name, context=None, attributes=None):
        span = FakeSpan(name, context, dict(attributes))
        self.spans.append(span)
        try:
            yield span
        except BaseException as fault:
            span.fault = type(fault).__name__
            raise


class FakeSpan:
    def __init__(self, name, context, attributes):
        self.name, self.context, self.attributes, self.fault = name, context, attributes, None

    def set_attribute(self, name, value):
        self.attributes[name] = value


@needs_program
class Spans(unittest.TestCase):
    def setUp(self):
        self.tracer = FakeTracer()
        tracing = Tracing(self.tracer, context_of=lambda run: f"trace of {run}")
        self.env = WorkflowEnvironment([order, refused, fails], [charge, ship], [str(BUILT)], interceptors=[tracing])
        self.addCleanup(self.env.close)

    def names(self):
        return [span.name for span in self.tracer.spans]

    def test_calls_attempts_and_code_have_spans_and_a_replay_has_none(self):
        handle = self.env.start(order, 5, id="w")
        handle.signal("note", "hello")
        handle.result()
        handle.query(order, "told", "more")
        run = self.env.service.describe("w")["run"]
        spans = {span.name: span for span in self.tracer.spans}
        for once in (
            "start order", "signal", "result", "query", "workflow order begins", "workflow order completes",
            "activity ship", "query told",
        ):
            self.assertEqual(self.names().count(once), 1, once)
        self.assertEqual(self.names().count("activity charge"), 2)
        self.assertEqual([span.fault for span in self.tracer.spans if span.name == "activity charge"], ["ConnectionError", None])
        self.assertEqual(spans["start order"].attributes["wfserve.run"], run)
        for name in ("activity ship", "workflow order begins", "query told"):
            self.assertEqual(spans[name].context, f"trace of {run}", name)
        self.assertIsNone(spans["start order"].context)
        self.assertEqual(spans["activity charge"].attributes["wfserve.attempt"], 2)

    def test_a_workflow_that_fails_has_its_fault(self):
        with self.assertRaises(NotCompleted):
            self.env.execute(fails)
        span = next(span for span in self.tracer.spans if span.name == "workflow fails fails")
        self.assertEqual(span.attributes["wfserve.fault"], "WorkflowFailed")


class Ids(unittest.TestCase):
    def test_each_run_has_a_trace_of_its_own(self):
        first, second = ids_of("a"), ids_of("b")
        self.assertEqual(first, ids_of("a"))
        self.assertTrue(set(first).isdisjoint(second))
        for trace_id, span_id in (first, second):
            self.assertTrue(0 < trace_id < 1 << 128 and 0 < span_id < 1 << 64)

    def test_what_is_not_installed_is_said(self):
        if importlib.util.find_spec("opentelemetry") is not None:
            self.skipTest("opentelemetry is installed")
        with self.assertRaisesRegex(ImportError, "pip install opentelemetry-api"):
            Tracing()

    def test_a_span_of_the_real_package_is_in_the_trace_of_its_run(self):
        try:
            from opentelemetry.sdk.trace import TracerProvider
        except ImportError:
            self.skipTest("opentelemetry-sdk is not installed")
        tracing = Tracing(TracerProvider().get_tracer("test"))
        with tracing._span("name", "run", {}) as span:
            self.assertEqual(span.get_span_context().trace_id, ids_of("run")[0])


if __name__ == "__main__":
    unittest.main()
