"""Kills the driver and the program at drawn points, again and again, and looks for what is lost or doubled: over journals, of
which half are compacted by themselves meanwhile, with texts that lie beside them. A compaction that runs outlives its driver.

WFSERVE_SEED and WFSERVE_KILLS draw other points, and more of them.
"""

import os
import random
import signal
import subprocess
import sys
import tempfile
import time
import unittest
from concurrent.futures import ThreadPoolExecutor
from dataclasses import dataclass, field

from support import TESTS, kill_driver
from support.programs import BUILT, needs_program
from wfserve.blobs import Blobs, MemoryStore, names_in, store_beside
from wfserve.calls import Service
from wfserve.checkpoint import read_checkpoint
from wfserve.durable import DurableService
from wfserve.errors import Refused
from wfserve.journal import Journal

SEED = int(os.environ.get("WFSERVE_SEED", random.randrange(1 << 32)))
KILLS = int(os.environ.get("WFSERVE_KILLS", 240))
JOURNALS, THREADS = 8, 6
# A thread's calls on a journal: enough that a dozen and more are answered between two kills.
CALLS = max(40, 3 * KILLS // 5)


@dataclass
class Disturbed:
    """The folder of a journal, whose driver is killed so many times before all its calls are answered."""

    folder: str
    seed: str
    kills: int
    compacted: bool = False
    answers: set = field(default_factory=set)
    killed: int = 0
    opened: int = 0

    def run(self):
        draw = random.Random(self.seed)
        while not self.round(draw):
            pass
        return self

    def round(self, draw):
        """Runs the driver up to a drawn point. True where it was not killed, and all is answered."""
        counts = [sum(thread == i for thread, _ in self.answers) for i in range(THREADS)]
        left = THREADS * CALLS - len(self.answers)
        rounds = self.kills - self.killed
        # The driver is killed at the opening, or after so many answers and so much time more.
        point = draw.randrange(2 + left // rounds) if rounds else None
        more = draw.choice([0, draw.random() / 1000, draw.random() / 20])
        command = [sys.executable, "-S", str(TESTS / "support/kill_driver.py"), str(BUILT), self.folder, self.seed]
        driver = subprocess.Popen(
            [*command, str(int(self.compacted)), str(THREADS), str(CALLS), *map(str, counts)],
            stdout=subprocess.PIPE, start_new_session=True, text=True,
        )
        done = self.listen(driver, point)
        if not done:
            time.sleep(more)
            os.killpg(driver.pid, signal.SIGKILL)
            self.killed += 1
        done = self.listen(driver, None) or done
        driver.stdout.close()
        return driver.wait() == 0 and done

    def listen(self, driver, point):
        """Takes down answers until so many came, or the driver's end. True where it was done."""
        heard = 0
        while point is None or heard < point:
            line = driver.stdout.readline()
            if not line.endswith("\n"):
                return False
            if line == "done\n":
                return True
            if line == "open\n":
                self.opened += 1
                continue
            self.answers.add(tuple(map(int, line.split())))
            heard += 1
        return False


def kept_requests(folder):
    """The requests of a journal that were made under an id, in their order. It was never compacted."""
    with Journal(os.path.join(folder, "journal")) as journal:
        requests = [step.entry["request"] for step in journal.steps()]
    return [request for request in requests if "request_id" in request]


def histories(service, workflow_ids):
    """The history of each workflow, or that there is none."""
    found = {}
    for workflow_id in sorted(workflow_ids):
        try:
            found[workflow_id] = service.history(workflow_id)
        except Refused as refused:
            found[workflow_id] = refused.name
    return found


def undisturbed(requests, workflow_ids):
    """The histories that a service without a journal has after each of these calls was made once."""
    with Service([str(BUILT)]) as service:
        for request in requests:
            fields = {name: value for name, value in request.items() if name not in ("op", "at")}
            service.clock.now = request["at"]
            try:
                service.call(request["op"], **fields)
            except Refused:
                pass
        return histories(service, workflow_ids)


def without_order(found):
    """Histories without what depends on the order of calls of several threads: moments, and the numbers of runs."""
    return {
        workflow_id: events if isinstance(events, str) else [
            {**event, "at": 0, "attrs": {**event["attrs"], "first_run": ""}} for event in events
        ]
        for workflow_id, events in found.items()
    }


@needs_program
class Killed(unittest.TestCase):
    def test_no_answered_call_is_lost_and_none_counts_twice(self):
        print(f"\nkill test: seed {SEED}", file=sys.stderr)
        begun = time.monotonic()
        with tempfile.TemporaryDirectory() as folder, ThreadPoolExecutor(4) as pool:
            runs = [
                Disturbed(os.path.join(folder, str(i)), f"{SEED}-{i}", KILLS // JOURNALS, i % 2 == 1)
                for i in range(JOURNALS)
            ]
            list(pool.map(Disturbed.run, runs))
            for run in runs:
                self.check(run)
            compacted = [read_checkpoint(run.folder).number for run in runs if run.compacted]
        killed, answers = sum(run.killed for run in runs), sum(len(run.answers) for run in runs)
        opened = sum(run.opened for run in runs)
        print(
            f"kill test: {killed} kills, {killed + JOURNALS - opened} of them before the journal was open again, "
            f"{answers} calls answered, compacted {compacted} times, {time.monotonic() - begun:.0f} s",
            file=sys.stderr,
        )
        self.assertGreaterEqual(killed, JOURNALS * (KILLS // JOURNALS) // 2)

    def check(self, run):
        # The driver's answers are all calls: none is left.
        self.assertEqual(run.answers, {(thread, number) for thread in range(THREADS) for number in range(CALLS)})
        blobs = Blobs(MemoryStore())
        scripts = [kill_driver.script(run.seed, thread, CALLS) for thread in range(THREADS)]
        wanted = [kill_driver.with_short_input(request, blobs) for script in scripts for request in script]
        workflow_ids = {request["workflow_id"] for request in wanted}
        with DurableService([str(BUILT)], run.folder, compaction=None) as service:
            found = histories(service, workflow_ids)
        if run.compacted:
            # The snapshots don't have the requests. Each thread's workflows are its own.
            self.assertEqual(without_order(found), without_order(undisturbed(wanted, workflow_ids)))
        else:
            self.assertEqual(found, undisturbed(self.firsts(run, wanted), workflow_ids))
        self.look_at_texts(run, names_in(str(found)), {blobs.decode(request.get("input", "")) for request in wanted})

    def look_at_texts(self, run, names, texts):
        """All that histories name lies beside the journal, as a call had it."""
        store = store_beside(run.folder)
        self.assertGreater(len(names), THREADS)
        self.assertEqual(names - set(store.names()), set(), "a text is lost")
        self.assertLessEqual({store.get(name).decode() for name in names}, texts)

    def firsts(self, run, wanted):
        """Each call as the journal has it first. It may have been made again: then it took effect once."""
        wanted, firsts = {request["request_id"]: request for request in wanted}, {}
        for request in kept_requests(run.folder):
            asked = wanted[request["request_id"]]
            # A journal has every default written out.
            self.assertEqual({name: request[name] for name in asked}, asked)
            firsts.setdefault(request["request_id"], asked)
        self.assertEqual(set(firsts), set(wanted), "an answered call is missing")
        return firsts.values()


if __name__ == "__main__":
    unittest.main()
