"""Client and handles over a service of stored answers: what they ask, and what becomes of each end."""

import unittest
from unittest import mock

from support.programs import BUILT, needs_program
from wfserve.calls import Calls, Service, answered
from wfserve.client import Client
from wfserve.descriptions import ALONE, Pending, known, pending_task
from wfserve.errors import NotCompleted, NotServed, Refused, StillRunning
from wfserve.workflows import workflow

FIRST = {"id": 1, "at": 5, "type": "WorkflowExecutionStarted", "attrs": {
    "workflow_id": "w", "workflow_type": "order", "task_queue": "main", "input": "[1]", "task_timeout": 10_000}}


@workflow
async def order(ctx, amount):
    return amount


TASK = {"id": 2, "at": 6, "type": "WorkflowTaskScheduled", "attrs": {"attempt": 1, "task_queue": "main"}}
TAKEN = {"id": 3, "at": 7, "type": "WorkflowTaskStarted", "attrs": {"scheduled": 2}}


class Stored(Calls):
    """Answers with what it was given, in order, and notes what it was asked. The last answer stays."""

    def __init__(self, **answers):
        self.answers = {op: list(found) for op, found in answers.items()}
        self.asked = []

    def call(self, op, **fields):
        self.asked.append({"op": op, **{name: value for name, value in fields.items() if value is not None}})
        found = self.answers[op]
        return answered(self.asked[-1], {"line": 1, **(found.pop(0) if len(found) > 1 else found[0])})


def ended(kind, **attrs):
    """The history of a run that ended so."""
    return {"ok": "history", "run": "r", "events": [FIRST, {"id": 2, "at": 9, "type": kind, "attrs": attrs}]}


def closed(status, history):
    """A service whose workflow runs at the first look, and has ended at the second."""
    return Stored(describe=[{"status": "Running", "run": "r"}, {"status": status, "run": "r"}], history=[history])


class Results(unittest.TestCase):
    def test_a_value(self):
        service = closed("Completed", ended("WorkflowExecutionCompleted", result='{"state":"paid"}'))
        self.assertEqual(Client(service).handle("w").result(), {"state": "paid"})
        self.assertEqual([it["op"] for it in service.asked], ["describe", "describe", "history"])

    def test_no_value(self):
        service = closed("Completed", ended("WorkflowExecutionCompleted", result=""))
        self.assertIsNone(Client(service).handle("w").result())

    def test_other_ends(self):
        for status, kind, attrs, said in (
            ("Failed", "WorkflowExecutionFailed", {"message": "declined"}, "w: Failed: declined"),
            ("Canceled", "WorkflowExecutionCanceled", {"details": ""}, "w: Canceled"),
            ("Canceled", "WorkflowExecutionCanceled", {"details": "called off"}, "w: Canceled: called off"),
            ("Terminated", "WorkflowExecutionTerminated", {"reason": "by hand"}, "w: Terminated: by hand"),
            ("TimedOut", "WorkflowExecutionTimedOut", {}, "w: TimedOut"),
        ):
            with self.subTest(status=status), self.assertRaises(NotCompleted) as raised:
                Client(closed(status, ended(kind, **attrs))).handle("w").result()
            self.assertEqual((str(raised.exception), raised.exception.status), (said, status))

    def test_a_run_that_goes_on_in_another_one_is_followed(self):
        service = Stored(
            describe=[{"status": "ContinuedAsNew", "run": "r"}, {"status": "Running", "run": "s"},
                      {"status": "Completed", "run": "s"}],
            history=[ended("WorkflowExecutionContinuedAsNew", new_run="s"), ended("WorkflowExecutionCompleted", result="7")],
        )
        self.assertEqual(Client(service).handle("w", "r").result(), 7)
        self.assertEqual([it.get("run") for it in service.asked], ["r", "r", "s", "s", "s"])

    def test_one_that_is_still_running_by_then(self):
        with self.assertRaises(StillRunning):
            Client(Stored(describe=[{"status": "Running", "run": "r"}])).handle("w").result(timeout=0.05)

    def test_one_that_is_not_there(self):
        with self.assertRaises(Refused):
            Client(Stored(describe=[{"error": "NotFound", "no": 1}])).handle("w").result()


class Asked(unittest.TestCase):
    def test_a_start(self):
        service = Stored(start=[{"ok": "started", "run": "r"}])
        handle = Client(service, queue="orders").start(order, 49, id="w", run_timeout=1_000, conflict="UseExisting")
        asked = service.asked[0]
        self.assertEqual((handle.id, handle.run), ("w", "r"))
        self.assertRegex(asked.pop("request_id"), "^[0-9a-f-]{36}$")
        self.assertEqual(asked, {
            "op": "start", "workflow_id": "w", "workflow_type": "order", "task_queue": "orders", "input": "[49]",
            "run_timeout": 1_000, "conflict": "UseExisting",
        })

    def test_a_start_of_a_type_that_is_named(self):
        service = Stored(start=[{"ok": "started", "run": "r"}], describe=[{"status": "Completed", "run": "r"}],
                         history=[ended("WorkflowExecutionCompleted", result='"done"')])
        self.assertEqual(Client(service).execute("elsewhere", id="w", request_id="once"), "done")
        self.assertEqual(service.asked[0], {
            "op": "start", "workflow_id": "w", "workflow_type": "elsewhere", "task_queue": "main", "input": "",
            "request_id": "once"})

    def test_words_to_a_workflow(self):
        service = Stored(signal=[{"ok": "signaled"}], request_cancel=[{"ok": "cancel_requested"}], terminate=[{"ok": "terminated"}],
                         signal_with_start=[{"ok": "started", "run": "r"}])
        with mock.patch("uuid.uuid4", return_value="drawn"):
            client = Client(service)
            handle = client.handle("w", "r")
            handle.signal("shipped", {"by": "ship"})
            handle.cancel()
            handle.terminate("by hand")
            client.signal_with_start(order, 49, id="w", signal="shipped", value=1)
        self.assertEqual(service.asked, [
            {"op": "signal", "workflow_id": "w", "name": "shipped", "input": '{"by":"ship"}', "run": "r", "request_id": "drawn"},
            {"op": "request_cancel", "workflow_id": "w", "run": "r", "request_id": "drawn"},
            {"op": "terminate", "workflow_id": "w", "run": "r", "reason": "by hand"},
            {"op": "signal_with_start", "workflow_id": "w", "workflow_type": "order", "task_queue": "main", "name": "shipped",
             "input": "[49]", "signal_input": "1", "request_id": "drawn"},
        ])

    def test_only_a_server_has_a_list(self):
        with self.assertRaises(TypeError):
            Client(Stored()).list()

    def test_what_a_later_server_says_is_left_out(self):
        found = known(Pending, {"kind": "timer", "id": "1", "event": 2, "since": 3, "colour": "blue"})
        self.assertEqual(found, Pending("timer", "1", 2, 3))


@needs_program
class OverPipes(unittest.TestCase):
    def test_a_description_without_a_server(self):
        with Service([str(BUILT)]) as service:
            handle = Client(service).start(order, 49, id="w")
            found = handle.describe()
            self.assertEqual((found.id, found.run, found.type, found.status), ("w", handle.run, "order", "Running"))
            self.assertEqual((found.input, found.length, found.pending, found.closed), ("[49]", 2, [], None))
            self.assertEqual(found.pending_workflow_task.state, "waits for a worker in the queue main")
            with self.assertRaises(Refused) as refused:
                Client(service).start(order, 50, id="w")
            self.assertEqual(refused.exception.name, "AlreadyStarted")
            handle.terminate("enough")
            self.assertEqual(handle.describe().status, "Terminated")
            self.assertEqual([event["type"] for event in handle.history()][-1], "WorkflowExecutionTerminated")



class WorkflowTasks(unittest.TestCase):
    """A workflow task that waits is pending too: where it waits, and whether a server knows of nobody who polls there."""

    def state(self, events, server=None):
        found = pending_task(events, server)
        return found and (found.kind, found.event, found.since, found.state)

    def server(self, **row):
        """A server whose queue is so. It is the moment 100,000."""
        row = {"queue": "main", "kind": "workflow", "polls": 0, "last_poll": None, **row}
        return mock.Mock(read=lambda path: {"now": 100_000, "queues": [{**row, "kind": "activity", "polls": 1}, row]})

    def test_it_waits_or_a_worker_has_it_or_there_is_none(self):
        waits = "waits for a worker in the queue main"
        self.assertEqual(self.state([FIRST, TASK]), ("workflow task", 2, 6, waits))
        self.assertEqual(self.state([FIRST, TASK, TAKEN]), ("workflow task", 2, 7, "a worker has it"))
        self.assertIsNone(self.state([FIRST]))
        self.assertIsNone(self.state(ended("WorkflowExecutionTerminated", reason="")["events"]))

    def test_a_server_knows_whether_nobody_polls(self):
        last = 100_000 - ALONE
        for row, alone in (({}, True), ({"last_poll": last}, True), ({"last_poll": last + 1}, False), ({"polls": 1}, False),
                           ({"polls": None}, False), ({"queue": "other"}, False)):
            state = self.state([FIRST, TASK], self.server(**row))[3]
            self.assertEqual(state.endswith("which no worker polls"), alone, row)
        earlier = mock.Mock(read=mock.Mock(side_effect=NotServed(404, "Not Found")))
        self.assertEqual(self.state([FIRST, TASK], earlier)[3], "waits for a worker in the queue main")


if __name__ == "__main__":
    unittest.main()
