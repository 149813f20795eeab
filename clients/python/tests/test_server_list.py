"""The list: children, runs that continue others, what a compaction left, and workflows whose code fails.

WFSERVE_SEED draws other calls.
"""

import os
import random
import sys
import tempfile
import threading
import time
import unittest

from support.logs import Logged, write_log
from support.programs import BUILT, needs_program, needs_server
from support.served import until
from wfserve.calls import Clock
from wfserve.durable import DurableService, Settings
from wfserve.errors import Refused
from wfserve.ids import run_id
from wfserve.page.listing import Workflows, stuck_task
from wfserve.page.records import Recorded
from wfserve.workflows import Driver, Worker, input_of, workflow
from test_server import WithAServer

SEED = int(os.environ.get("WFSERVE_SEED", random.randrange(1 << 32)))


@workflow
async def parent(ctx, count):
    for number in range(count):
        ctx.child(child, id=f"{ctx.workflow_id}-child-{number}", parent_close="Abandon")
    await ctx.signal("end")


@workflow
async def child(ctx):
    await ctx.signal("end")


@workflow
async def chain(ctx, left):
    if left > 0:
        ctx.continue_as_new(left - 1)
    await ctx.signal("end")


@workflow
async def broken(ctx):
    raise KeyError("a fault of the code")


def event(number, kind, **attrs):
    return {"id": number, "type": kind, "at": 10 * number, "attrs": attrs}


def tasks(*ends):
    """A history whose workflow tasks ended so, each at its attempt, and the last of which waits."""
    events, attempt = [event(1, "WorkflowExecutionStarted")], 1
    for kind, attrs in ends:
        events.append(event(len(events) + 1, "WorkflowTaskScheduled", attempt=attempt))
        events.append(event(len(events) + 1, kind, **attrs))
        attempt = 1 if kind == "WorkflowTaskCompleted" else attempt + 1
    return [*events, event(len(events) + 1, "WorkflowTaskScheduled", attempt=attempt)]


FAILED = ("WorkflowTaskFailed", {"cause": "WorkflowWorkerUnhandledFailure", "message": "KeyError: 'x'"})
UNHANDLED = ("WorkflowTaskFailed", {"cause": "UnhandledCommand", "message": ""})
TIMED_OUT = ("WorkflowTaskTimedOut", {})
COMPLETED = ("WorkflowTaskCompleted", {})


class Stuck(unittest.TestCase):
    def test_a_run_is_stuck_where_its_task_fails_or_is_over_twice(self):
        for ends, attempt in (
            ((), None), ((COMPLETED,), None), ((TIMED_OUT,), None), ((UNHANDLED,), None), ((FAILED, COMPLETED), None),
            ((FAILED,), 2), ((COMPLETED, FAILED, FAILED), 3), ((TIMED_OUT, TIMED_OUT), 3), ((FAILED, TIMED_OUT), 3),
        ):
            found = stuck_task(tasks(*ends))
            self.assertEqual(found and found["attempt"], attempt, ends)
        said = stuck_task(tasks(COMPLETED, FAILED))
        self.assertEqual((said["cause"], said["message"]), ("WorkflowWorkerUnhandledFailure", "KeyError: 'x'"))

    def test_runs_that_a_retention_deleted_are_not_added_again(self):
        workflows = Workflows()
        entry = workflows.add("w", run_id(1, 0, 2), "chain", 5)
        events = [{**event(1, "WorkflowExecutionStarted", workflow_type="chain", continued_from=run_id(1, 0, 1))}]
        workflows.take(entry, events)
        self.assertEqual(len(workflows.search("", "", 10)), 2)
        workflows.remove(run_id(1, 0, 1))
        workflows.take(entry, [*events, event(2, "WorkflowTaskScheduled", attempt=1)])
        self.assertEqual([it.run for it in workflows.search("", "", 10)], [run_id(1, 0, 2)])


@needs_program
class InRecords(unittest.TestCase):
    """What the records of drawn calls show is what there is: starts that are refused, children, runs that continue others."""

    IDS = [f"w{number}" for number in range(8)] + [f"child-{number}" for number in range(9)]

    def test_the_runs_of_records_are_all_that_there_are(self):
        print(f"\nruns of records: seed {SEED}", file=sys.stderr)
        draw = random.Random(SEED)
        with tempfile.TemporaryDirectory() as folder:
            settings = Settings(shards=2, capacity=4)
            with DurableService([str(BUILT)], f"{folder}/kept", settings, Clock(1), compaction=None) as service:
                driver = Driver(service, 2)
                for _ in range(300):
                    service.clock.advance(10)
                    self.make_one(service, driver, draw)
                service.compact()
                found = Workflows()
                Recorded(service, found).add_all()
                runs = self.all_runs(service)
        self.assertGreater(len(runs), 60)
        self.assertEqual({(entry.workflow_id, entry.run) for entry in found.search("", "", 10_000)}, runs)

    def all_runs(self, service):
        """Each ordinal of each shard, until one is nobody's, is asked for under each workflow ID."""
        runs = set()
        for shard in range(2):
            for ordinal in range(1, 1_000):
                run = run_id(1, shard, ordinal)
                asked = [service.send({"op": "describe", "workflow_id": it, "run": run}) for it in self.IDS]
                owners = [it for it, reply in zip(self.IDS, asked) if "error" not in reply.result()]
                if not owners:
                    break
                runs.add((owners[0], run))
        return runs

    def make_one(self, service, driver, draw):
        """A start that may be refused, a termination, or a worker's step."""
        workflow_id = f"w{draw.randrange(8)}"
        op = draw.choice(["start", "start", "start", "terminate", "work", "work"])
        if op == "start":
            policies = {"conflict": draw.choice(["Fail", "UseExisting", "TerminateExisting"]),
                        "reuse": draw.choice(["AllowDuplicate", "AllowDuplicateFailedOnly", "RejectDuplicate"])}
            start = {"workflow_id": workflow_id, "workflow_type": draw.choice("ab"), "task_queue": "main", **policies}
            service.send({"op": "start", "at": service.clock.now, **start}).result()
        elif op == "terminate":
            service.send({"op": "terminate", "at": service.clock.now, "workflow_id": workflow_id}).result()
        else:
            driver.turn()
            self.work(service, draw)

    def work(self, service, draw):
        task = service.poll_workflow_task()
        if task is None:
            return
        child = {"type": "StartChildWorkflowExecution", "workflow_id": f"child-{draw.randrange(9)}", "workflow_type": "c",
                 "task_queue": "main", "parent_close": draw.choice(["Abandon", "Terminate"])}
        commands = [child] * draw.randrange(2)
        end = draw.choice([None, "ContinueAsNewWorkflowExecution", "CompleteWorkflowExecution"])
        if end is not None:
            commands.append({"type": end})
        service.complete_workflow_task(task, commands)


@needs_server
@needs_program
class Lists(WithAServer):
    def work(self, client, done):
        """Has a worker work until something is so."""
        stop = threading.Event()
        worker = Worker(client, workflows=[parent, child, chain, broken])
        working = threading.Thread(target=worker.run, args=(stop,))
        working.start()
        try:
            until(done)
        finally:
            stop.set()
            working.join()

    def rows(self, server, search=""):
        return server.read(f"/api/workflows?{search}")["workflows"]

    def found(self, server, search=""):
        return sorted((row["workflow_id"], row["type"], row["status"]) for row in self.rows(server, search))

    def start_all(self, server):
        """A parent of three, a chain of four runs, and a workflow that was started twice."""
        client = server.client(wait=100)
        client.start("p", "parent", input=input_of([3]), request_id="p")
        client.start("c", "chain", input=input_of([3]), request_id="c")
        client.start("again", "child")
        client.terminate("again")
        client.start("again", "child")
        self.work(client, lambda: self.found(server) == self.ALL)
        return client

    ALL = [
        ("again", "child", "Running"), ("again", "child", "Terminated"), ("c", "chain", "ContinuedAsNew"),
        ("c", "chain", "ContinuedAsNew"), ("c", "chain", "ContinuedAsNew"), ("c", "chain", "Running"),
        ("p", "parent", "Running"), ("p-child-0", "child", "Running"), ("p-child-1", "child", "Running"),
        ("p-child-2", "child", "Running"),
    ]

    def test_children_and_runs_that_continue_others_are_listed(self):
        server = self.serve("--shards", "2")
        self.start_all(server)
        self.assertEqual(self.found(server), self.ALL)
        self.assertEqual(self.found(server, "search=child-1"), [("p-child-1", "child", "Running")])
        self.assertEqual(self.found(server, "search=c&status=ContinuedAsNew"), [("c", "chain", "ContinuedAsNew")] * 3)

    def test_they_are_listed_after_a_restart_and_after_a_compaction(self):
        server = self.serve("--shards", "2")
        self.start_all(server)
        for compacted in (False, True, True):
            if compacted:
                status, _, text = server.asked("POST", "/compact", b"{}")
                self.assertEqual(status, 200, text)
            server.stop()
            server.start()
            self.assertEqual(self.found(server), self.ALL)
        # A program that opens records for longer than a second says how far it is.
        said = server.said.read_text().splitlines()
        self.assertEqual([line for line in said if not line.endswith("steps restored")], [])

    def test_a_log_that_an_earlier_server_compacted_is_listed(self):
        with Logged(self.log, clock=Clock(1_000)) as service:
            for number in range(30):
                workflow_id, kind = f"w{number % 7}", "child" if number % 2 else "chain"
                service.start(workflow_id, kind, conflict="TerminateExisting")
                # This one begins no run, so it has no ordinal.
                with self.assertRaisesRegex(Refused, "AlreadyStarted"):
                    service.start(workflow_id, "no")
            service.compact("--save")
        server = self.serve()
        rows = self.rows(server)
        self.assertEqual(len({(row["workflow_id"], row["run"]) for row in rows}), 30)
        self.assertEqual({row["type"] for row in rows}, {"child", "chain"})
        self.assertEqual(sum(row["status"] == "Running" for row in rows), 7)

    def test_with_a_retention_the_latest_runs_of_a_compacted_log_are_listed(self):
        server = self.serve("--retention", "500")
        client = server.client()
        for _ in range(3):
            client.start("w", "child")
            client.terminate("w")
            client.start("kept", "child", conflict="UseExisting")
            time.sleep(0.6)
        client.start("w", "child")
        self.assertEqual(server.asked("POST", "/compact", b"{}")[0], 200)
        server.stop()
        server.start()
        until(lambda: self.found(server) == [("kept", "child", "Running"), ("w", "child", "Running")])

    def test_a_workflow_whose_code_fails_is_shown_as_stuck(self):
        server = self.serve()
        client = server.client(wait=100)
        client.start("b", "broken", request_id="b")
        client.start("fine", "child", request_id="fine")
        with self.assertLogs("wfserve.workflows", "WARNING"):
            self.work(client, lambda: [row["workflow_id"] for row in self.rows(server, "status=Stuck")] == ["b"])
        row = self.rows(server, "search=b")[0]
        self.assertEqual(row["status"], "Running")
        self.assertIn("a fault of the code", row["stuck"]["message"])
        self.assertEqual({row["workflow_id"] for row in self.rows(server, "status=Running")}, {"b", "fine"})
        self.assertNotIn("stuck", self.rows(server, "search=fine")[0])

    def test_a_status_is_found_after_many_others(self):
        asked = {"op": "start", "at": int(time.time() * 1_000), "workflow_type": "child", "task_queue": "main"}
        starts = [{**asked, "workflow_id": f"w{number}"} for number in range(500)]
        ended = {"op": "terminate", "at": asked["at"], "workflow_id": "first"}
        write_log(self.log, [{**asked, "workflow_id": "first"}, ended, *starts])
        server = self.serve()
        self.assertEqual(self.found(server, "status=Terminated"), [("first", "child", "Terminated")])


if __name__ == "__main__":
    unittest.main()
