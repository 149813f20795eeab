"""Tests of workflows: a service whose time jumps, activities that are mocked, histories that are replayed.

    from wfserve.testing import WorkflowEnvironment

    def test_an_order_is_shipped():
        with WorkflowEnvironment([order], [charge]) as env:
            env.mock(charge, "receipt 1")
            assert env.execute(order, "49.90 EUR") == "shipped with receipt 1"

It runs the program itself: that of WFSERVE, the proved one of the tree, or the one that tools/unproved_program.py
builds. So a test sees what production does. An hour of a timer takes as long as the code that follows it.
"""

from .activities import ActivityEnvironment
from .environment import NothingHappens, TaskFailed, WorkflowEnvironment
from .program import NoProgram, find_program
from .replayer import Replayer

__all__ = [
    "ActivityEnvironment", "NoProgram", "NothingHappens", "Replayer", "TaskFailed", "WorkflowEnvironment", "find_program",
]
