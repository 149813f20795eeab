"""A service with its turns and workers, for tests of workflows as code."""

import logging
import unittest

from support.programs import BUILT
from wfserve.calls import Service
from wfserve.workflows import Driver, JumpingClock, Worker, input_of, run_until_closed, run_until_idle, value_of


class WithAService(unittest.TestCase):
    """Plays workflows in the time of a clock that jumps. A subclass has WORKFLOWS and ACTIVITIES."""

    WORKFLOWS, ACTIVITIES = [], []

    def setUp(self):
        logging.getLogger("wfserve.workflows").setLevel(logging.CRITICAL)
        self.addCleanup(logging.getLogger("wfserve.workflows").setLevel, logging.NOTSET)
        self.clock = JumpingClock()
        self.service = Service([str(BUILT)], self.clock)
        self.addCleanup(self.service.close)
        self.driver = Driver(self.service)

    def worker(self, workflows=None, activities=None):
        return Worker(
            self.service, "main", self.WORKFLOWS if workflows is None else workflows,
            self.ACTIVITIES if activities is None else activities, self.clock,
        )

    def start(self, function, *arguments, id="w"):
        self.service.start(id, function.__name__, input=input_of(arguments), request_id=f"start {id}")

    def idle(self, *workers):
        """Works until nothing is left to do now, by a worker of all that there is, or by these."""
        run_until_idle(self.driver, workers or [self.worker()])

    def decide(self):
        """Works on workflows alone: activities wait."""
        self.idle(self.worker(activities=[]))

    def ended(self, id="w"):
        """How a workflow ends, and its result or message."""
        status = run_until_closed(self.driver, [self.worker()], self.clock, id)
        attrs = self.service.history(id)[-1]["attrs"]
        return status, value_of(attrs.get("result") or attrs.get("message") or "")

    def warned(self, act):
        """What the workers' log says while this is done."""
        with self.assertLogs("wfserve.workflows", "WARNING") as logged:
            logging.getLogger("wfserve.workflows").warning("the first")
            act()
        return [record.getMessage() for record in logged.records][1:]

    def types(self, id="w"):
        return [event["type"] for event in self.service.history(id)]
