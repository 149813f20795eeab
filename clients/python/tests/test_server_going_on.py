"""What makes the service go on by itself: full queues, a server that starts again, and clocks that are set."""

import threading
import time
import unittest

from support.logs import Logged, write_log
from support.programs import needs_program, needs_server
from support.served import until
from wfserve.calls import Clock
from wfserve.workflows import Worker, seconds, workflow
from test_server import WithAServer

DAY = 86_400_000


@workflow
async def naps(ctx):
    await ctx.timer(seconds(1))
    return "awake"


@needs_server
@needs_program
class GoingOn(WithAServer):
    def test_a_poll_finds_what_waits_after_hints_of_what_is_over(self):
        server = self.serve("--capacity", "2")
        client = server.client(wait=60_000)
        for name in "abcde":
            client.start(name, "naps", request_id=name)
        for name in "abcd":
            client.terminate(name)
        # All that has room is in the queue by now, and nothing else is asked.
        time.sleep(0.3)
        begun = time.monotonic()
        self.assertEqual(client.poll_workflow_task().workflow_id, "e")
        self.assertLess(time.monotonic() - begun, 30)

    def test_a_full_queue_is_emptied_by_polls_alone(self):
        server = self.serve("--capacity", "2")
        client = server.client(wait=10_000)
        for number in range(9):
            client.start(f"w{number}", "naps")
        until(lambda: server.read("/health/ready")["queue_full"])
        found = {client.poll_workflow_task().workflow_id for _ in range(9)}
        self.assertEqual(found, {f"w{number}" for number in range(9)})
        self.assertFalse(server.read("/health/ready")["queue_full"])

    def test_what_was_not_handed_over_before_a_kill_is_so_after_it(self):
        start = {"op": "start", "workflow_id": "w", "workflow_type": "naps", "task_queue": "main"}
        write_log(self.log, [{**start, "at": int(time.time() * 1_000)}])
        task = self.serve().client(wait=10_000).poll_workflow_task()
        self.assertEqual(task.workflow_id, "w")

    def test_timers_fire_after_a_call_while_the_clock_was_a_day_ahead(self):
        ahead = int(time.time() * 1_000) + DAY
        with Logged(self.log, clock=Clock(ahead)) as service:
            service.start("before", "naps")
            service.compact()
        server, stop = self.serve(), threading.Event()
        self.assertIn("ahead of this machine's clock", server.said.read_text())
        self.assertGreater(server.read("/health/ready")["clock_ahead"], DAY - 60_000)
        client = server.client(wait=100)
        worker = threading.Thread(target=Worker(client, workflows=[naps]).run, args=(stop,))
        worker.start()
        try:
            late = time.monotonic() + 60
            while client.describe("before")["status"] == "Running" and time.monotonic() < late:
                time.sleep(0.1)
        finally:
            stop.set()
            worker.join()
        events = client.history("before")
        self.assertEqual(events[-1]["type"], "WorkflowExecutionCompleted")
        self.assertLess(abs(events[-1]["at"] - ahead), 60_000)
        begun = next(event["at"] for event in events if event["type"] == "TimerStarted")
        fired = next(event["at"] for event in events if event["type"] == "TimerFired")
        self.assertGreaterEqual(fired - begun, 1_000)


if __name__ == "__main__":
    unittest.main()
