"""Long texts beside a journal that no history names any more are deleted where somebody sweeps."""

import json
import os
import tempfile
import unittest

from support.programs import BUILT, needs_program
from test_blobs import RUNS, drawn, history_of
from wfserve.blobs import FolderStore, name_of
from wfserve.calls import Clock
from wfserve.durable import DurableService, Settings
from wfserve.durable.sweeping import MARK, begun_in, sweep

DAY, LONG = 86_400, 10_000


class Fake:
    """A service of some lines and histories."""

    def __init__(self):
        self.settings = Settings(retention=10_000)
        self.lines, self.histories, self.latest, self.asked = [], {}, {}, 0

    def requests(self):
        return [json.dumps(line).encode() for line in self.lines]

    def read_all(self, requests):
        return [self._read(request) for request in requests]

    def _read(self, request):
        self.asked += 1
        run = request.get("run") or self.latest.get(request["workflow_id"])
        if request["op"] == "describe":
            return {"ok": "described", "run": run} if run else {"error": "NotFound"}
        return {"ok": "history", "events": self.histories[run]} if run in self.histories else {"error": "NotFound"}


class Swept(unittest.TestCase):
    def setUp(self):
        folder = tempfile.TemporaryDirectory()
        self.addCleanup(folder.cleanup)
        self.store, self.service = FolderStore(f"{folder.name}/blobs"), Fake()
        self.names = {}

    def put(self, name):
        """A blob that was put long ago. The text that names it."""
        data = drawn(LONG, name).encode()
        self.store.put(name_of(data), data)
        self.store.touch(name_of(data), 0)
        self.names[name_of(data)] = name
        return f"blob:{name_of(data)}:{LONG}"

    def add(self, name, begins=True, more=()):
        """A workflow whose latest run names a blob of its name, and where a line begins it."""
        self.service.latest[name] = RUNS[name]
        self.service.histories[RUNS[name]] = history_of(self.put(name), more=more)
        if begins:
            self.service.lines.append({"op": "start", "workflow_id": name, "at": 1})

    def left(self):
        return {self.names[name] for name in self.store.names()}

    def sweep(self, now):
        return sweep(self.service, self.store, now)

    def test_what_no_history_names_goes_after_the_retention_and_a_day(self):
        self.add("open")
        self.put("early")
        # The first sweep takes nothing: a run may be kept that nobody knows.
        self.assertEqual((self.sweep(100 * DAY), self.left()), (0, {"open", "early"}))
        self.assertEqual((self.sweep(101 * DAY), self.left()), (0, {"open", "early"}))
        self.assertEqual((self.sweep(101 * DAY + 11), self.left()), (1, {"open"}))
        # The retention deletes the run.
        self.service.histories.clear()
        self.assertEqual((self.sweep(102 * DAY), self.left()), (0, {"open"}))
        self.assertEqual((self.sweep(102 * DAY + 30), self.left()), (1, set()))

    def test_after_a_long_pause_nothing_goes(self):
        self.add("open")
        self.put("early")
        self.sweep(100 * DAY)
        self.assertEqual((self.sweep(102 * DAY), self.left()), (0, {"open", "early"}))
        self.assertEqual((self.sweep(103 * DAY), self.left()), (0, {"open", "early"}))
        self.assertEqual((self.sweep(103 * DAY + 20), self.left()), (1, {"open"}))

    def test_runs_are_found_by_lines_records_commands_and_histories(self):
        child = ("ChildWorkflowExecutionStarted", {"initiated": 2, "workflow_id": "child", "run": RUNS["child"]})
        follower = ("WorkflowExecutionContinuedAsNew", {"new_run": RUNS["next"], "workflow_type": "W", "input": ""})
        self.add("open", more=[child])
        self.add("child", begins=False, more=[follower])
        self.add("next", begins=False)
        for name in ("closed", "later"):
            self.add(name, begins=False)
        self.service.lines += [
            {"op": "complete_workflow_task", "commands": [{"type": "StartChildWorkflowExecution", "workflow_id": "closed"}]},
            {"pass": 0, "request": {"op": "deliver", "transfer": {"kind": "start_child", "content": {"workflow_id": "later"}}}},
        ]
        self.put("early")
        self.sweep(100 * DAY)
        self.sweep(101 * DAY)
        self.assertEqual((self.sweep(101 * DAY + 20), self.left()), (1, {"open", "child", "next", "closed", "later"}))

    def test_lines_that_begin_nothing_name_nothing(self):
        for line in (b'{"op":"signal","workflow_id":"w","name":"start"}', b'{"op":"describe"}', b'{"op":"start","workflow_id":7}'):
            self.assertLessEqual(set(begun_in(line)), {"w"})

    def test_without_a_retention_or_blobs_nothing_is_read(self):
        self.assertEqual((self.sweep(DAY), self.service.asked), (0, 0))
        self.add("open")
        self.service.settings = Settings()
        self.assertEqual((self.sweep(DAY), self.service.asked, (self.store.folder / MARK).exists()), (0, 0, False))


@needs_program
class OverAJournal(unittest.TestCase):
    def test_it_is_so_over_a_journal_and_a_compacted_one(self):
        for is_compacted in (False, True):
            with self.subTest(is_compacted=is_compacted), tempfile.TemporaryDirectory() as folder:
                self.look(f"{folder}/kept", is_compacted)

    def look(self, path, is_compacted):
        clock = Clock(1_000)
        with DurableService([str(BUILT)], path, Settings(retention=10_000), clock=clock) as service:
            texts = {name: drawn(LONG, name).encode() for name in ("named", "early")}
            for data in texts.values():
                service.blobs.put(name_of(data), data)
            service.start("w", "T", input=f"blob:{name_of(texts['named'])}:{LONG}")
            if is_compacted:
                service.compact()
            now = os.stat(service.blobs.folder).st_mtime
            found = [service.sweep_blobs(now + later) for later in (0, DAY, DAY + 20, DAY + 30)]
            self.assertEqual((found, list(service.blobs.names())), ([0, 0, 1, 0], [name_of(texts["named"])]))
            service.terminate("w")
            clock.now += 20_000
            while service.call("timer_turn", shard=0)["ok"] != "none":
                pass
            self.assertEqual([service.sweep_blobs(now + later) for later in (2 * DAY, 2 * DAY + 60)], [0, 1])
            self.assertEqual(list(service.blobs.names()), [])


if __name__ == "__main__":
    unittest.main()
