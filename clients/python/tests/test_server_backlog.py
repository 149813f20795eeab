"""What the server says of task queues: what waits in each, what workers have, and who polls."""

import threading
import time
import unittest

from support.programs import needs_program, needs_server
from test_server import WithAServer
from wfserve.events import open_tasks
from wfserve.page.backlog import LastPolls, queue_rows
from wfserve.workflows import Retry, Worker, attempt, hours, seconds, workflow


def events_of(*kinds):
    """A history of these types and attributes."""
    first = ("WorkflowExecutionStarted", {"task_queue": "main"})
    return [{"at": 10 * n, "attrs": attrs, "id": n, "type": kind} for n, (kind, attrs) in enumerate((first, *kinds), 1)]


TASK = ("WorkflowTaskScheduled", {"attempt": 1, "task_queue": "main"})
STARTED = ("WorkflowTaskStarted", {"scheduled": 2})
DONE = ("WorkflowTaskCompleted", {"scheduled": 2, "started": 3})
CHARGE = ("ActivityTaskScheduled", {"activity_id": "1", "task_queue": "payments"})


class OpenTasks(unittest.TestCase):
    def found(self, *kinds):
        return [(it.kind, it.queue, it.event, it.since, it.begun) for it in open_tasks(events_of(*kinds))]

    def test_a_workflow_task_waits_and_is_begun_and_ends(self):
        self.assertEqual(self.found(), [])
        self.assertEqual(self.found(TASK), [("workflow", "main", 2, 20, False)])
        self.assertEqual(self.found(TASK, STARTED), [("workflow", "main", 2, 30, True)])
        for end in ("Completed", "Failed", "TimedOut"):
            self.assertEqual(self.found(TASK, STARTED, (f"WorkflowTask{end}", DONE[1])), [])

    def test_an_activity_is_there_until_it_ends(self):
        self.assertEqual(self.found(TASK, STARTED, DONE, CHARGE), [("activity", "payments", 5, 50, False)])
        for end in ("Completed", "Failed", "TimedOut", "Canceled"):
            self.assertEqual(self.found(TASK, STARTED, DONE, CHARGE, (f"ActivityTask{end}", {"scheduled": 5})), [])

    def test_a_run_that_has_closed_has_none(self):
        self.assertEqual(self.found(TASK, STARTED, DONE, CHARGE, ("WorkflowExecutionTerminated", {"reason": ""})), [])


class Rows(unittest.TestCase):
    def rows(self, attempts=None, polls=None, last=(), now=1_000):
        tasks = [("r", it) for it in open_tasks(events_of(TASK, CHARGE, CHARGE, CHARGE))]
        found = queue_rows(["main"], tasks, lambda run, event: (attempts or {}).get(event, {}), polls, last, now)
        return {(it["queue"], it["kind"]): it for it in found}

    def test_each_queue_that_is_named_or_waited_in_has_its_rows(self):
        rows = self.rows()
        self.assertEqual(list(rows), [("main", "activity"), ("main", "workflow"), ("payments", "activity")])
        self.assertEqual((rows["main", "workflow"]["waiting"], rows["main", "workflow"]["oldest"]), (1, 20))
        self.assertEqual((rows["payments", "activity"]["waiting"], rows["payments", "activity"]["oldest"]), (3, 30))
        self.assertEqual((rows["main", "activity"]["waiting"], rows["main", "activity"]["polls"]), (0, None))

    def test_what_a_worker_has_and_what_is_tried_later_does_not_wait(self):
        attempts = {3: {"state": "a worker has it"}, 4: {"next_try": 2_000}, 5: {"next_try": 900}}
        row = self.rows(attempts)["payments", "activity"]
        self.assertEqual((row["waiting"], row["at_work"], row["later"], row["oldest"]), (1, 1, 1, 900))

    def test_polls(self):
        polls = LastPolls()
        polls.observe({"op": "poll_activity_task", "task_queue": "payments", "at": 700}, {"ok": "empty"})
        polls.observe({"op": "poll_activity_task", "task_queue": "payments", "at": 800}, {"error": "UnknownTaskQueue"})
        polls.observe({"op": "poll_activity_task", "task_queue": "elsewhere", "at": 800}, {"ok": "empty"})
        polls.observe({"op": "start", "task_queue": "payments", "at": 900}, {"ok": "started"})
        rows = self.rows(polls={("payments", "activity"): 4}, last=polls.items())
        self.assertEqual((rows["payments", "activity"]["polls"], rows["payments", "activity"]["last_poll"]), (4, 700))
        self.assertEqual((rows["main", "workflow"]["polls"], rows["main", "workflow"]["last_poll"]), (0, None))
        self.assertNotIn(("elsewhere", "activity"), rows)


def charge():
    if attempt().number == 1:
        raise ConnectionError("later")


@workflow
async def order(ctx):
    await ctx.activity(charge, start_to_close=seconds(30), retry=Retry(initial=hours(1)))


@needs_server
@needs_program
class OverTheServer(WithAServer):
    def test_an_activity_that_is_tried_again_in_an_hour(self):
        server = self.serve()
        client = server.client()
        client.start("w", "order")
        self.assertEqual(self.row(server, "workflow")["waiting"], 1)
        Worker(client, workflows=[order]).work()
        self.assertEqual((self.row(server, "workflow")["waiting"], self.row(server, "activity")["waiting"]), (0, 1))
        Worker(client, activities=[charge]).work()
        row = self.row(server, "activity")
        self.assertEqual((row["waiting"], row["later"], row["polls"]), (0, 1, 0))
        self.assertIsNotNone(row["last_poll"])
        client.terminate("w")
        self.assertEqual(self.row(server, "activity")["later"], 0)

    def test_polls_that_wait_are_counted(self):
        server = self.serve()
        client = server.client(wait=20_000)
        polling = [threading.Thread(target=client.poll_activity_task) for _ in range(2)]
        for thread in polling:
            thread.start()
        late = time.monotonic() + 60
        while self.row(server, "activity")["polls"] != 2:
            self.assertLess(time.monotonic(), late)
            time.sleep(0.05)
        self.assertEqual(self.row(server, "workflow")["polls"], 0)
        self.assertIsNotNone(self.row(server, "activity")["last_poll"])
        server.stop()
        for thread in polling:
            thread.join(60)

    def row(self, server, kind):
        return next(it for it in server.read("/api/queues")["queues"] if (it["queue"], it["kind"]) == ("main", kind))

    def test_the_list_by_type_time_and_place(self):
        server = self.serve()
        client = server.client()
        for number in range(3):
            client.start(f"w{number}", "order" if number else "other")

        def ids(query):
            return [it["workflow_id"] for it in server.read(f"/api/workflows?{query}")["workflows"]]

        self.assertEqual(ids(""), ["w2", "w1", "w0"])
        self.assertEqual((ids("type=order"), ids("type=other&search=w"), ids("type=none")), (["w2", "w1"], ["w0"], []))
        self.assertEqual((ids("skip=1"), ids("skip=9")), (["w1", "w0"], []))
        started = server.read("/api/workflows?search=w1")["workflows"][0]["started"]
        self.assertIn("w1", ids(f"from={started}&until={started}"))
        self.assertEqual((ids(f"until={started - 100_000}"), ids(f"from={started + 100_000_000}")), ([], []))
        for wrong in ("skip=-1", "from=x", "until=1.5"):
            self.assertEqual(server.asked("GET", f"/api/workflows?{wrong}")[0], 400, wrong)

    def test_events_after_one_and_a_file(self):
        server = self.serve()
        client = server.client()
        run = client.start("w", "order")
        path = f"/api/workflows/w/{run}"
        events = client.history("w")
        self.assertEqual(server.read(path)["events"], events)
        self.assertEqual(server.read(f"{path}?after=1")["events"], events[1:])
        self.assertEqual(server.read(f"{path}?after=99")["events"], [])
        self.assertNotIn("events", server.read(f"{path}?after=1&length={len(events)}"))
        self.assertEqual(server.read(f"{path}/history.json")["events"], events)
        self.assertEqual(server.asked("GET", "/api/workflows/w/none/history.json")[0], 404)


if __name__ == "__main__":
    unittest.main()
