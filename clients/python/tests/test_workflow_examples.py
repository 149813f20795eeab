"""The examples as code: their stored histories, workers that remember nothing, and workers that are killed.

WFSERVE_SEED draws other points for the example that is too long to be killed everywhere.
"""

import contextlib
import importlib
import io
import os
import random
import sys
import unittest
from unittest import mock

from support.programs import BUILT, needs_program
from examples import store
from examples.stage import Fragile, Stage, ends
from wfserve.calls import Service
from wfserve.workflows import JumpingClock, check
from wfserve.workflows.__main__ import main as workflows_main
from wfserve.workflows.history import same_history

PROGRAM = [str(BUILT)]
SEED = int(os.environ.get("WFSERVE_SEED", random.randrange(1 << 32)))
# So many points are drawn where there are more.
MOST_POINTS = 60
WORKFLOWS = {
    "order": "order", "payment": "payment", "provisioning": "provisioning", "booking": "booking", "children": "parent",
}


def fixed_secret():
    return mock.patch("examples.provisioning.new_secret", lambda: "0" * 32)


def played(name, kill_before=None, **stage):
    """How an example's workflows end, and how many lines its workers made."""
    module = importlib.import_module(f"examples.{name}")
    clock = JumpingClock()
    with Service(PROGRAM, clock) as service:
        fragile = Fragile(service, kill_before)
        module.scenario(Stage(service, clock, module, fragile=fragile, **stage))
        return ends(service, module.IDS), fragile.lines, store.histories(service, module.IDS)


def comparable(replies):
    return [(reply["run"], same_history(reply["events"])) for reply in replies]


class Stored(unittest.TestCase):
    """What needs no program: the code agrees with the histories that are stored."""

    def replay(self, *words):
        said = io.StringIO()
        with contextlib.redirect_stdout(said), contextlib.redirect_stderr(said):
            status = workflows_main(["replay", *words])
        return status, said.getvalue()

    def test_a_workflow_is_named_by_its_module_and_its_name(self):
        for named in ("examples.order", "examples.order:", ":order"):
            said = io.StringIO()
            with contextlib.redirect_stderr(said), self.assertRaises(SystemExit) as ended:
                workflows_main(["replay", "a file", named])
            self.assertEqual(ended.exception.code, 2)
            self.assertIn(f"{named} is no MODULE:WORKFLOW", said.getvalue())

    def test_a_server_that_is_not_there_is_said(self):
        said_of = {"http://127.0.0.1:1": "CallLost", "https://127.0.0.1:1": "CallLost", "ftp://127.0.0.1:1": "no address as"}
        for url, wrong in said_of.items():
            said = io.StringIO()
            with contextlib.redirect_stderr(said):
                self.assertEqual(workflows_main(["start", url, "examples.order:order", "w"]), 2)
            self.assertRegex(said.getvalue(), f"^workflows: .*{wrong}")

    def test_each_examples_code_agrees_with_its_histories(self):
        for name, workflow in WORKFLOWS.items():
            file = str(store.HISTORIES / f"{name}.jsonl")
            status, said = self.replay(file, f"examples.{name}:{workflow}")
            self.assertEqual(status, 0, said)
            self.assertIn(f"examples.{name}:{workflow} agrees with", said)

    def test_a_history_agrees_wherever_a_worker_took_a_task(self):
        for name, workflow in WORKFLOWS.items():
            function = getattr(importlib.import_module(f"examples.{name}"), workflow)
            for reply in store.stored(name):
                events = reply["events"]
                taken = [i for i, event in enumerate(events) if event["type"] == "WorkflowTaskStarted"]
                for i in taken[::1 + len(taken) // 50]:
                    check(function, events[:i + 1], reply["run"])

    def test_other_code_disagrees_and_says_where(self):
        file = str(store.HISTORIES / "order.jsonl")
        with mock.patch("examples.order.hours", lambda count: 7):
            status, said = self.replay(file, "examples.order:order")
        self.assertEqual(status, 1)
        self.assertIn(
            'event 11: the history has TimerStarted (timer_id "1", duration 3600000), '
            'and the code asked for TimerStarted (timer_id "1", duration 7)', said,
        )

    def test_code_that_fails_is_told(self):
        file = str(store.HISTORIES / "order.jsonl")
        with mock.patch("examples.order.hours", lambda count: {}["hours"]):
            status, said = self.replay(file, "examples.order:order")
        self.assertEqual(status, 1)
        self.assertIn("it raises KeyError: 'hours'", said)

    def test_each_scenario_makes_the_lines_of_its_stored_talk(self):
        for name in store.TALKED:
            clock = JumpingClock()
            talk = store.Talk(store.stored(name, store.TALKS), clock)
            self.assertEqual(comparable(store.play(name, talk, clock)), comparable(store.stored(name)), name)

    def test_a_file_without_a_history_of_the_workflow_is_a_fault(self):
        file = str(store.HISTORIES / "order.jsonl")
        for words in ([file, "examples.booking:booking"], [file, "examples.nothing:it"], ["no such file", "examples.order:order"]):
            self.assertEqual(self.replay(*words)[0], 2)


@needs_program
class Played(unittest.TestCase):
    def test_histories_are_those_that_are_stored(self):
        for name in store.NAMES:
            self.assertEqual(comparable(store.recorded(name, PROGRAM)[0]), comparable(store.stored(name)), name)

    def test_a_worker_that_remembers_nothing_leaves_the_same_histories(self):
        for name in store.NAMES:
            with fixed_secret():
                _, _, found = played(name, fresh_workers=True)
            self.assertEqual(comparable(found), comparable(store.stored(name)), name)

    def test_a_worker_that_is_killed_between_any_two_lines_comes_to_the_same_end(self):
        print(f"\nkilled workers: seed {SEED}", file=sys.stderr)
        draw = random.Random(SEED)
        for name in store.NAMES:
            with fixed_secret():
                wanted, lines, _ = played(name)
                points = range(1, lines + 1)
                if len(points) > MOST_POINTS and name == "children":
                    points = draw.sample(points, 5)
                elif len(points) > MOST_POINTS:
                    points = sorted(draw.sample(points, MOST_POINTS))
                for point in points:
                    self.assertEqual(played(name, kill_before=point)[0], wanted, f"{name}, killed before line {point}")


if __name__ == "__main__":
    unittest.main()
