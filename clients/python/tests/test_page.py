"""The page in Chromium: the list, task queues, histories, also long ones, that go on by themselves, and the buttons.

WFSERVE_PICTURE and WFSERVE_FOLDED_PICTURE name files for pictures of a history, as it is and folded.
"""

import json
import os
import pathlib
import sys
import time
import unittest

from support.browser import CHROMIUM, Browser
from support.programs import memory_folder, needs_program, needs_server, program_file
from support.served import Server
from wfserve.ids import run_id
from wfserve.workflows import Retry, Worker, attempt, hours, input_of, seconds, workflow
from test_server import TOKEN, WithAServer

SECONDS = 60
MARKUP = "<img src=x onerror=\"document.title='taken over'\">"


def charge(order_id):
    """The provider does not answer at first."""
    if attempt().number < 3:
        raise ConnectionError("the provider did not answer")
    return f"receipt of {order_id}"


@workflow
async def order(ctx, order_id):
    receipt = await ctx.activity(charge, order_id, start_to_close=seconds(30), retry=Retry(initial=400))
    done = await ctx.first(ctx.timer(hours(1)), ctx.signal("call off"))
    return {"receipt": receipt, "shipped": done.index == 0}


@workflow
async def parent(ctx, continued=False):
    if not continued:
        ctx.child(child, id="c 1", parent_close="Abandon")
        await ctx.signal("go on")
        ctx.continue_as_new(True)
    await ctx.signal("end")


@workflow
async def child(ctx):
    await ctx.signal("end")


@needs_server
@needs_program
@unittest.skipUnless(CHROMIUM, "chromium is not here")
class Page(WithAServer):
    def setUp(self):
        super().setUp()
        self.server = self.serve()
        self.client = self.server.client()
        self.worker = Worker(self.client, workflows=[order], activities=[charge])
        self.browser = Browser()
        self.addCleanup(self.browser.close)

    def start(self, workflow_id):
        return self.client.start(workflow_id, "order", input=input_of([workflow_id]), request_id=f"start {workflow_id}")

    def texts(self, selector):
        return self.browser.value(f"[...document.querySelectorAll({selector!r})].map((it) => it.innerText)")

    def work_until(self, expression):
        """Works, as the page shows what comes of it."""
        late = time.monotonic() + SECONDS
        while time.monotonic() < late:
            self.worker.work()
            try:
                if self.browser.value(expression):
                    return
            except RuntimeError:
                pass
        self.browser.wait(expression)

    def test_the_list_shows_workflows_and_is_searched(self):
        for name in ("order-1", "order-2", MARKUP):
            self.start(name)
        self.client.terminate("order-2")
        self.browser.open(self.server.url)
        self.browser.wait("document.querySelectorAll('#rows tr').length === 3")
        self.assertEqual(self.texts("#rows td:nth-child(1)"), [MARKUP, "order-2", "order-1"])
        self.assertEqual(self.texts("#rows td:nth-child(3)"), ["Running", "Terminated", "Running"])
        self.assertEqual(self.browser.value("document.querySelectorAll('#rows img').length"), 0)
        self.browser.value("(() => { const it = document.getElementById('text'); it.value = 'order'; "
                           "it.dispatchEvent(new Event('input', { bubbles: true })); })()")
        self.browser.wait("document.querySelectorAll('#rows tr').length === 2")
        self.start("order-3")
        self.browser.wait("document.querySelectorAll('#rows tr').length === 3")
        self.browser.value("document.querySelector('#rows a').click()")
        self.browser.wait("document.title === 'order-3'")

    def test_a_history_goes_on_and_its_buttons_work(self):
        run = self.start("order-17")
        self.browser.open(f"{self.server.url}workflows/order-17/{run}")
        self.work_until("document.body.innerText.includes('timer 1, since event')")
        self.browser.wait("document.querySelector('#picture img').naturalWidth > 500")
        self.browser.value("document.getElementById('signal-input').value = 'found it cheaper'")
        self.browser.value("document.getElementById('signal-name').value = 'call off'")
        self.browser.value("document.querySelector('#signal button').click()")
        self.browser.wait("document.body.innerText.includes('WorkflowExecutionSignaled')")
        self.browser.wait("document.getElementById('said').innerText === 'signal: signaled'")
        if "WFSERVE_PICTURE" in os.environ:
            self.browser.picture(os.environ["WFSERVE_PICTURE"])
        self.client.signal("order-17", "note", MARKUP)
        self.browser.wait("document.getElementById('events').innerText.includes('onerror')")
        self.assertIn(MARKUP, self.browser.value("document.getElementById('events').innerText"))
        self.work_until("document.getElementById('status').innerText === 'Completed'")
        self.browser.wait("document.getElementById('actions').hidden")
        signals = [e for e in self.client.history("order-17") if e["type"] == "WorkflowExecutionSignaled"]
        self.assertEqual([event["attrs"]["input"] for event in signals], ["found it cheaper", MARKUP])
        self.assertEqual(self.browser.value("document.title"), "order-17")

    def test_a_workflow_is_canceled_and_terminated_by_buttons(self):
        for button, kind in (("cancel", "WorkflowExecutionCancelRequested"), ("terminate", "WorkflowExecutionTerminated")):
            run = self.start(f"to {button}")
            self.browser.open(f"{self.server.url}workflows/to%20{button}/{run}")
            self.browser.wait(f"document.title === 'to {button}'")
            self.browser.value(f"document.querySelector('#{button} button').click()")
            if button == "terminate":
                self.browser.wait("document.querySelector('#terminate button').innerText === 'Terminate at once?'")
                self.assertEqual(self.client.describe("to terminate")["status"], "Running")
                self.browser.value("document.querySelector('#terminate button').click()")
            self.browser.wait(f"document.body.innerText.includes('{kind}')")

    def test_runs_link_to_those_that_they_began_and_that_began_them(self):
        worker = Worker(self.client, workflows=[parent, child])
        first = self.client.start("p/1", "parent", request_id="p")
        self.wait(worker, lambda: self.runs("c 1"))
        self.client.signal("p/1", "go on", request_id="go on")
        self.wait(worker, lambda: len(self.runs("p/1")) == 2)
        (begun,), (second,) = self.runs("c 1"), set(self.runs("p/1")) - {first}
        pages = {run: f"/workflows/{name}/{run}" for name, run in (("p%2F1", first), ("p%2F1", second), ("c%201", begun))}
        for place in ("#events a", "#others a"):
            self.assertEqual(self.links(pages[first], place, 2), [pages[second], pages[begun]])
            self.assertEqual(self.links(pages[second], place, 1), [pages[first]])
        self.assertEqual(self.links(pages[begun], "#parent a", 1), [pages[first]])

    def runs(self, workflow_id):
        return [row["run"] for row in self.server.read("/api/workflows")["workflows"] if row["workflow_id"] == workflow_id]

    def wait(self, worker, holds):
        late = time.monotonic() + SECONDS
        while not holds():
            self.assertLess(time.monotonic(), late)
            worker.work()

    def links(self, path, selector, count):
        """Where the links of a page lead, once it has so many."""
        self.browser.open(self.server.url.rstrip("/") + path)
        found = f"[...document.querySelectorAll('{selector}')].map((it) => new URL(it.href).pathname)"
        self.browser.wait(f"location.pathname === '{path}' && {found}.length === {count}")
        return self.browser.value(found)

    def test_a_run_that_is_stuck_is_shown_so(self):
        run = self.start("order-1")
        client = self.server.client(wait=60_000)
        for _ in range(2):
            client.fail_workflow_task(client.poll_workflow_task(), f"a fault {MARKUP}")
        self.browser.open(self.server.url)
        self.browser.wait("document.querySelectorAll('#rows tr').length === 1")
        self.assertEqual(self.texts("#rows td:nth-child(3)"), ["Stuck"])
        self.browser.open(f"{self.server.url}workflows/order-1/{run}")
        self.browser.wait("document.getElementById('status').innerText === 'Stuck'")
        said = self.browser.value("document.getElementById('stuck').innerText")
        self.assertEqual(said, f"Its workflow task fails, at attempt 3 now: WorkflowWorkerUnhandledFailure: a fault {MARKUP}")
        self.assertFalse(self.browser.value("document.getElementById('actions').hidden"))


    def test_the_list_is_filtered_by_type_and_by_time(self):
        self.start("order-1")
        self.client.start("other-1", "other")
        self.browser.open(self.server.url)
        self.browser.wait("document.querySelectorAll('#rows tr').length === 2")
        self.enter("kind", "other")
        self.browser.wait("document.querySelectorAll('#rows tr').length === 1")
        self.assertEqual(self.texts("#rows td:nth-child(1)"), ["other-1"])
        self.enter("kind", "")
        self.enter("from", "2100-01-01T00:00")
        self.browser.wait("document.querySelectorAll('#rows tr').length === 0")
        self.enter("from", "2000-01-01T00:00")
        self.browser.wait("document.querySelectorAll('#rows tr').length === 2")
        self.enter("until", "2001-01-01T00:00")
        self.browser.wait("document.querySelectorAll('#rows tr').length === 0")

    def enter(self, field, value):
        """Fills in a field, as a person does."""
        self.browser.value(
            f"(() => {{ const it = document.getElementById('{field}'); it.value = '{value}'; "
            "it.dispatchEvent(new Event('input', { bubbles: true })); })()"
        )

    def test_why_an_activity_is_pending_and_what_waits_in_its_queue(self):
        run = self.start("order-1")
        Worker(self.client, workflows=[order]).work()
        self.wait(Worker(self.client, workflows=[order]), lambda: len(self.client.history("order-1")) > 4)
        self.browser.open(f"{self.server.url}workflows/order-1/{run}")
        self.browser.wait("document.getElementById('pending').innerText.includes('attempt 1 waits for a worker that polls main')")
        self.browser.open(f"{self.server.url}queues")
        self.browser.wait("[...document.querySelectorAll('#rows tr')].some((it) => it.innerText.startsWith('main\tactivities\t1'))")
        self.wait(self.worker, lambda: self.pending(run) and self.pending(run)[0].get("last_failure"))
        self.browser.open(f"{self.server.url}workflows/order-1/{run}")
        self.browser.wait("document.getElementById('pending').innerText.includes('the provider did not answer')")
        self.assertIn("the last one failed: ConnectionError", self.browser.value("document.getElementById('pending').innerText"))

    def pending(self, run):
        return self.server.read(f"/api/workflows/order-1/{run}")["pending"]

    def test_a_history_is_folded_and_downloaded(self):
        run = self.start("order-1")
        self.browser.open(f"{self.server.url}workflows/order-1/{run}")
        self.work_until("document.body.innerText.includes('timer 1, since event')")
        self.browser.value("document.querySelector('#views input[value=folded]').click()")
        rows = "[...document.querySelectorAll('#events tr')].map((it) => it.innerText)"
        self.browser.wait(f"{rows}.some((it) => it.includes('activity 1') && it.includes('Completed'))")
        self.assertTrue(self.browser.value(f"{rows}.some((it) => it.includes('timer 1') && it.includes('Pending'))"))
        row = "[...document.querySelectorAll('#events tr')].find((it) => it.innerText.includes('activity 1'))"
        self.browser.value(f"{row}.querySelector('button').click()")
        self.browser.wait("document.getElementById('events').innerText.includes('ActivityTaskCompleted')")
        if "WFSERVE_FOLDED_PICTURE" in os.environ:
            self.browser.picture(os.environ["WFSERVE_FOLDED_PICTURE"])
        path = self.browser.value("new URL(document.getElementById('download').href).pathname")
        status, headers, text = self.server.asked("GET", path)
        self.assertEqual((status, headers["Content-Disposition"]), (200, f'attachment; filename="{run}.json"'))
        self.assertEqual(json.loads(text)["events"], self.client.history("order-1"))


# Answers a history from a file, and all else as if there was nothing to do.
LONG = """#!{python} -S
import json, sys
events = open({path!r}).read()
for number, line in enumerate(sys.stdin, 1):
    if '"op":"history"' in line.replace(" ", ""):
        print('{{"events":%s,"line":%d,"ok":"history","run":"{run}"}}' % (events, number), flush=True)
    else:
        ok = "none" if '_turn"' in line else "empty" if '"poll_' in line else "signaled"
        print(json.dumps({{"line": number, "ok": ok}}), flush=True)
"""
EVENTS, ROWS = 10_000, 100
RUN, CHILD_RUN = run_id(1, 0, 0), run_id(1, 0, 1)


def long_history(count):
    """So many events: a workflow's beginning, and then activities, timers and children by turns."""
    events = []

    def add(kind, **attrs):
        events.append({"at": 1_000 * len(events), "attrs": attrs, "id": len(events) + 1, "type": kind})
        return len(events)

    add("WorkflowExecutionStarted", workflow_id="w", workflow_type="order", task_queue="main", input="[1]", run_timeout=0,
        task_timeout=10_000)
    for number in range(count):
        activity = add("ActivityTaskScheduled", activity_id=str(number), activity_type="charge", task_queue="main", input="[1]")
        add("ActivityTaskStarted", scheduled=activity, attempt=1 + number % 2, taken=0)
        add("ActivityTaskCompleted", scheduled=activity, result="1")
        timer = add("TimerStarted", timer_id=str(number), duration=1_000)
        begun = {"workflow_type": "ship", "task_queue": "main", "input": ""}
        child = add("StartChildWorkflowExecutionInitiated", workflow_id=f"c{number}", **begun)
        add("ChildWorkflowExecutionStarted", initiated=child, workflow_id=f"c{number}", run=CHILD_RUN)
        add("TimerFired", timer_id=str(number), started=timer)
        add("ChildWorkflowExecutionFailed", initiated=child, run=CHILD_RUN, message="no")
        if len(events) >= count:
            return events[:count]
    raise AssertionError("never")


def slowness():
    """How many seconds a second of this process takes, while others share the machine."""
    wall, used = time.monotonic(), time.process_time()
    while time.process_time() < used + 0.05:
        pass
    return max(1.0, (time.monotonic() - wall) / 0.05)


@needs_server
@unittest.skipUnless(CHROMIUM, "chromium is not here")
class LongHistories(unittest.TestCase):
    @classmethod
    def setUpClass(cls):
        folder = memory_folder()
        cls.addClassCleanup(folder.cleanup)
        path = pathlib.Path(folder.name) / "events.json"
        path.write_text(json.dumps(long_history(EVENTS)), encoding="utf-8")
        program = program_file(folder.name, LONG.format(python=sys.executable, path=str(path), run=RUN))
        cls.server = Server(program, pathlib.Path(folder.name) / "a.log")
        cls.addClassCleanup(cls.server.stop)
        cls.browser = Browser()
        cls.addClassCleanup(cls.browser.close)

    def setUp(self):
        self.show()

    def show(self):
        """Opens the page anew. After how many milliseconds the history was shown."""
        self.browser.open("about:blank")
        self.browser.open(f"{self.server.url}workflows/w/{RUN}")
        return int(self.browser.wait("document.body.dataset.shown", 300))

    def rows(self):
        return self.browser.value("[...document.querySelectorAll('#events tr td:first-child')].map((it) => it.innerText)")

    def test_ten_thousand_events_are_shown_within_a_second_the_newest_first(self):
        self.assertEqual(self.rows(), [str(number) for number in range(EVENTS, EVENTS - ROWS, -1)])
        limit = slowness()
        took = [self.show() for _ in range(3)]
        limit = max(limit, slowness())
        print(f"{EVENTS} events were shown after {took} ms, where a second takes {limit:.1f}")
        self.assertLess(min(took), 1_000 * limit)
        self.assertEqual(self.browser.value("document.querySelectorAll('#picture img').length"), 0)
        self.assertLess(self.browser.value("document.querySelectorAll('*').length"), 5_000)

    def test_its_pages_are_turned(self):
        self.browser.value("document.getElementById('older').click()")
        self.assertEqual(self.rows()[0], str(EVENTS - ROWS))
        self.assertEqual(
            self.browser.value("document.getElementById('place').innerText"), "101 to 200 of 10000, the newest first",
        )
        self.browser.value("document.getElementById('newer').click()")
        self.assertEqual(self.rows()[0], str(EVENTS))
        self.assertTrue(self.browser.value("document.getElementById('newer').disabled"))
        self.browser.value("page = 99; showRows()")
        self.assertEqual((self.rows()[-1], len(self.rows())), ("1", ROWS))
        self.assertTrue(self.browser.value("document.getElementById('older').disabled"))

    def test_folded_it_has_a_row_for_each_activity_timer_and_child(self):
        self.browser.value("document.querySelector('#views input[value=folded]').click()")
        groups = self.browser.value(
            "folded(events).slice(0, 7).map((it) => [it.about, it.type, it.status, it.events.map((one) => one.id)])"
        )
        self.assertEqual(groups, [
            ["WorkflowExecutionStarted", "", "", [1]],
            ["activity 0", "charge", "Completed", [2, 3, 4]],
            ["timer 0", "", "Fired", [5, 8]],
            ["child c0", "ship", "Failed", [6, 7, 9]],
            ["activity 1, attempt 2", "charge", "Completed", [10, 11, 12]],
            ["timer 1", "", "Fired", [13, 16]],
            ["child c1", "ship", "Failed", [14, 15, 17]],
        ])
        self.assertEqual(self.browser.value("folded(events).reduce((sum, it) => sum + it.events.length, 0)"), EVENTS)
        self.assertEqual(len(self.rows()), ROWS)

    def test_light_and_dark_can_be_read(self):
        for scheme in ("light", "dark"):
            self.browser.prefer(scheme)
            faint = self.browser.value(CONTRASTS)
            self.assertEqual([it for it in faint if it[1] < 4.5], [], scheme)
            self.assertGreater(len(faint), 5)
        light, dark = (self.background(scheme) for scheme in ("light", "dark"))
        self.assertNotEqual(light, dark)

    def background(self, scheme):
        self.browser.prefer(scheme)
        return self.browser.value("getComputedStyle(document.body).backgroundColor")


# The contrast of each kind of text to the page, by the formula of WCAG.
CONTRASTS = """(() => {
  const light = (text) => {
    const parts = text.match(/[0-9.]+/g).slice(0, 3).map((it) => it / 255)
      .map((it) => (it <= 0.04045 ? it / 12.92 : ((it + 0.055) / 1.055) ** 2.4));
    return 0.2126 * parts[0] + 0.7152 * parts[1] + 0.0722 * parts[2];
  };
  const page = light(getComputedStyle(document.body).backgroundColor);
  const found = {};
  const kinds = ["Running", "Completed", "Failed", "Canceled", "Stuck"].map((it) => {
    const made = document.createElement("span");
    made.className = `status ${it}`;
    document.body.append(made);
    return made;
  });
  for (const it of [...kinds, ...document.querySelectorAll("a, td, th, dt, dd, h1, code, label")]) {
    const text = light(getComputedStyle(it).color);
    found[`${it.tagName} ${it.className}`] = (Math.max(text, page) + 0.05) / (Math.min(text, page) + 0.05);
  }
  kinds.forEach((it) => it.remove());
  return Object.entries(found);
})()"""


@needs_server
@needs_program
@unittest.skipUnless(CHROMIUM, "chromium is not here")
class ByAnotherName(WithAServer):
    """Over plain HTTP by a name that is not this machine's own a browser gives pages less."""

    def test_buttons_work(self):
        server = self.serve("--host", "0.0.0.0", "--token-file", self.token_file())
        client = server.client(token=TOKEN)
        browser = Browser(hosts=["orders.test"])
        self.addCleanup(browser.close)
        browser.open(f"http://orders.test:{server.port}/?token={TOKEN.replace(' ', '%20')}")
        browser.wait("document.title === 'Workflows'")
        self.assertFalse(browser.value("isSecureContext"))
        for form, kind in (("signal", "WorkflowExecutionSignaled"), ("cancel", "WorkflowExecutionCancelRequested")):
            run = client.start(f"to {form}", "order")
            browser.open(f"http://orders.test:{server.port}/workflows/to%20{form}/{run}")
            browser.wait(f"document.title === 'to {form}'")
            browser.value("document.getElementById('signal-name').value = 'call off'")
            browser.value(f"document.querySelector('#{form} button').click()")
            browser.wait(f"document.body.innerText.includes('{kind}')")

    def test_a_server_that_ends_is_said_by_its_buttons(self):
        server = self.serve()
        client = server.client()
        self.addCleanup(client.close)
        run = client.start("w", "order")
        browser = Browser()
        self.addCleanup(browser.close)
        browser.open(f"{server.url}workflows/w/{run}")
        browser.wait("document.title === 'w'")
        server.kill()
        browser.value("document.querySelector('#cancel button').click()")
        browser.wait("document.getElementById('said').innerText.includes('TypeError')")


if __name__ == "__main__":
    unittest.main()
