"""Orders under kills: two hundred at once over three workers and two shards, while workers, the server and its
program are killed. Every order ends right: no signal is lost, no charge is made twice but by a worker that was
killed within it or could not tell it in time, and what was not shipped is refunded.

WFSERVE_SEED draws others. WFSERVE_KILLS is how many kills there are, 50 without it; more of them are made in
rounds of 50, each over WFSERVE_ORDERS orders, 200 without it.
"""

import collections
import json
import os
import pathlib
import random
import subprocess
import sys
import threading
import time
import unittest
from concurrent.futures import ThreadPoolExecutor

from support import TESTS, orders
from support.programs import BUILT, memory_folder, needs_program, needs_server
from support.served import Server, kill_all
from wfserve.errors import Refused
from wfserve.workflows import input_of, text_of

SEED = int(os.environ.get("WFSERVE_SEED", random.randrange(1 << 32)))
ORDERS = int(os.environ.get("WFSERVE_ORDERS", 200))
KILLS = int(os.environ.get("WFSERVE_KILLS", 50))
ROUNDS = max(KILLS // 50, 1)
WORKERS, CLIENTS = 3, 8
# Seconds for which the orders may go on after the last kill.
LATEST = 400
# A charge that began so many seconds before the server was away is told after it.
CHARGE_SECONDS = 1
# A server that was back for so many seconds was told what waited.
MOMENT = 0.5
# What is killed, and how often beside the others.
KINDS, SHARES = ("worker", "server", "program"), (4, 1, 1)
ENDS = ("shipped", "shipped", "shipped", "cancelled", "timeout", "declined")


def drawn_plan(draw):
    """What happens to an order. `end` is what a client does to it, `pause` how long it waits for that."""
    end = draw.choice(ENDS)
    return {
        "end": end, "failures": draw.choice([0, 0, 1, 2]), "declined": end == "declined",
        "parcels": [draw.randint(1, 4) for _ in range(draw.choice([0, 1, 1, 2]))],
        "patience": draw.randint(100, 3_000) if end == "timeout" else 0,
        "notes": draw.randint(1, 4), "pause": draw.uniform(0, 6),
    }


class Orders:
    """The clients: they start the orders, and signal and cancel them."""

    def __init__(self, server, seed):
        draw = random.Random(f"{seed} orders")
        self.plans = {f"order-{number}": drawn_plan(draw) for number in range(ORDERS)}
        self._server = server
        self._own = threading.local()

    @property
    def client(self):
        if not hasattr(self._own, "client"):
            self._own.client = self._server.client(patience=120)
        return self._own.client

    def run(self):
        with ThreadPoolExecutor(CLIENTS) as pool:
            list(pool.map(self.start, self.plans))
            begun = time.monotonic()
            by_pause = sorted(self.plans, key=lambda name: self.plans[name]["pause"])
            list(pool.map(lambda name: self.act(name, begun), by_pause))

    def start(self, name):
        self.client.start(
            name, "order", input=input_of([self.plans[name]]), request_id=f"start {name}", task_timeout=orders.TASK_TIMEOUT,
        )

    def act(self, name, begun):
        plan = self.plans[name]
        time.sleep(max(begun + plan["pause"] - time.monotonic(), 0))
        if plan["end"] == "cancelled":
            self.told(lambda: self.client.request_cancel(name, request_id=f"cancel {name}"))
        if plan["end"] in ("shipped", "cancelled"):
            for number in range(plan["notes"]):
                self.told(lambda: self.client.signal(name, "note", text_of(number), request_id=f"{name} note {number}"))
                if number == 0:
                    self.told(lambda: self.client.signal(name, "shipped", request_id=f"{name} shipped"))

    def told(self, call):
        """An order that was cancelled may have closed."""
        try:
            call()
        except Refused as refused:
            if refused.name != "NotFound":
                raise

    def statuses(self):
        with ThreadPoolExecutor(CLIENTS) as pool:
            return dict(zip(self.plans, pool.map(lambda name: self.client.describe(name)["status"], self.plans)))


class Killer:
    """Kills workers, the server and its program, and starts them again."""

    def __init__(self, server, folder, seed):
        self.server = server
        self.kills = collections.Counter()
        self.killed = set()
        # For how many seconds the server was away at most: it serves its whole log again. When it was back last, and
        # since when it had been away then.
        self.longest_away, self._back, self._since = 0.0, 0.0, 0.0
        self._draw = random.Random(f"{seed} kills")
        # Whether all kills were made, and whether it was told to stop.
        self.is_over, self.told = threading.Event(), threading.Event()
        self._ledger = folder / "ledger"
        self._said = open(folder / "workers.said", "wb")
        self.workers = [self._worker() for _ in range(WORKERS)]

    def _worker(self):
        command = [sys.executable, str(TESTS / "support/orders.py"), self.server.url, str(self._ledger)]
        return subprocess.Popen(command, stdout=self._said, stderr=self._said)

    def run(self):
        """Kills so many, and then watches the server until it is told to stop."""
        try:
            for _ in range(KILLS // ROUNDS):
                time.sleep(self._draw.uniform(0.05, 0.8))
                self._kill(self._draw.choices(KINDS, SHARES)[0])
        finally:
            self.is_over.set()
        while not self.told.wait(0.2):
            self.server.go_on(LATEST)

    def _kill(self, kind):
        self.kills[kind] += 1
        pause = self._draw.choice([0, 0, 0.3, 1])
        if kind == "worker":
            number = self._draw.randrange(WORKERS)
            self._end(self.workers[number])
            time.sleep(pause)
            self.workers[number] = self._worker()
            return
        begun = time.monotonic()
        if kind == "program":
            # With it all else that the server has started: a second program, a page.
            kill_all(*children_of(self.server.process.pid))
        else:
            self.server.kill()
            time.sleep(pause)
            self.server.start()
        self.server.go_on(LATEST)
        self._was_away(begun)

    def _was_away(self, begun):
        """The server was away since then; where it had been back for a moment only, since before that."""
        if begun - self._back > MOMENT:
            self._since = begun
        self._back = time.monotonic()
        self.longest_away = max(self.longest_away, self._back - self._since)

    def _end(self, worker):
        self.killed.add(worker.pid)
        worker.kill()
        worker.wait()

    def stop(self):
        for worker in self.workers:
            worker.terminate()
        for worker in self.workers:
            worker.wait(LATEST)
        self._said.close()


def children_of(pid):
    """The processes that this one has started."""
    found = []
    for path in pathlib.Path("/proc").glob("[0-9]*/stat"):
        try:
            fields = path.read_text().rpartition(")")[2].split()
        except OSError:
            continue
        if int(fields[1]) == pid:
            found.append(int(path.parent.name))
    return found


@needs_server
@needs_program
@unittest.skipUnless(pathlib.Path("/proc/self/stat").exists(), "no /proc, which says what the server's program is")
class UnderKills(unittest.TestCase):
    def test_every_order_ends_right(self):
        print(f"\norders under kills: seed {SEED}", file=sys.stderr)
        self.told, begun = collections.Counter(), time.monotonic()
        for number in range(ROUNDS):
            with memory_folder() as folder:
                self.round(pathlib.Path(folder), f"{SEED} {number}")
        print(
            f"orders under kills: {ROUNDS * ORDERS} orders, {dict(self.told)}, {time.monotonic() - begun:.0f} s", file=sys.stderr
        )

    def round(self, folder, seed):
        server = Server(str(BUILT), folder / "log", "--shards", "2")
        try:
            clients, killer = Orders(server, seed), Killer(server, folder, seed)
            try:
                self.disturb(clients, killer)
            finally:
                killer.stop()
            self.entries = [json.loads(line) for line in (folder / "ledger").read_text().splitlines()]
            self.look(clients, killer)
        except BaseException:
            print(server.account(), file=sys.stderr)
            raise
        finally:
            if server.process.poll() is None:
                server.stop()

    def disturb(self, clients, killer):
        """Runs the clients and the killer until all orders have closed. Where the killer fails, the clients do too."""
        with ThreadPoolExecutor(1) as pool:
            killing = pool.submit(killer.run)
            killing.add_done_callback(lambda done: done.exception() and killer.server.give_up())
            try:
                clients.run()
                killer.is_over.wait()
                self.wait(clients)
            finally:
                killer.told.set()
                killing.result()
        self.assertEqual(killer.server.own_ends, [], "the server ended by itself")

    def wait(self, clients):
        """Waits until all orders have closed."""
        late = time.monotonic() + LATEST
        while True:
            left = [name for name, status in clients.statuses().items() if status in ("Running", "ContinuedAsNew")]
            if not left:
                return
            if time.monotonic() > late:
                last = [e["type"] for e in clients.client.history(left[0])[-5:]]
                self.fail(f"these have not ended: {left}; {left[0]}, {clients.plans[left[0]]}, has {last}")
            time.sleep(1)

    def look(self, clients, killer):
        """What the orders came to, and what the ledger has of them."""
        self.assertEqual(sum(killer.kills.values()), KILLS // ROUNDS)
        for name, plan in clients.plans.items():
            with self.subTest(name, plan=plan):
                self.told[self.look_at(clients.client, name, plan)] += 1
        self.told.update(self.look_at_charges(killer))
        self.look_at_attempts()
        self.told["effects"] += len(self.entries)
        self.told.update({f"kills of {kind}": count for kind, count in killer.kills.items()})

    def made(self, what, name):
        return sum(entry["what"] == what and entry["order"] == name for entry in self.entries)

    def look_at(self, client, name, plan):
        """Looks at one order. How it ended."""
        last = client.history(name)[-1]
        state = {"WorkflowExecutionCanceled": "canceled"}.get(last["type"])
        if state is None:
            self.assertEqual(last["type"], "WorkflowExecutionCompleted")
            result = json.loads(last["attrs"]["result"])
            state = result["state"]
        allowed = {"shipped": {"shipped"}, "timeout": {"not shipped in time"}, "declined": {"declined"},
                   "cancelled": {"canceled", "shipped"}}
        self.assertIn(state, allowed[plan["end"]])
        if state == "shipped":
            self.assertEqual(result["notes"], list(range(plan["notes"])))
            self.assertGreaterEqual(self.made("charge", name), 1)
        self.look_at_what_was_given_back(name, state)
        self.look_at_parcels(client, name, plan, state)
        self.look_at_signals(client, name)
        return state

    def look_at_what_was_given_back(self, name, state):
        charged, refunded = self.made("charge", name), self.made("refund", name)
        if state == "shipped":
            self.assertEqual((refunded, self.made("release", name)), (0, 0))
            return
        if charged:
            moves = [entry["what"] for entry in self.entries if entry["order"] == name and entry["what"] in ("charge", "refund")]
            self.assertEqual(moves[-1], "refund", "a charge was not refunded")
        if self.made("reserve", name):
            self.assertGreaterEqual(self.made("release", name), 1)
        if state == "declined":
            self.assertEqual((charged, refunded), (0, 0))

    def look_at_parcels(self, client, name, plan, state):
        """A child completes, or undoes what it did; none is terminated."""
        for number, parts in enumerate(plan["parcels"]):
            parcel = orders.parcel_id(name, number)
            packed = {entry["part"] for entry in self.entries if entry["what"] == "pack" and entry["order"] == parcel}
            if not packed and state in ("canceled", "declined"):
                continue
            end = client.history(parcel)[-1]["type"]
            self.assertIn(end, ("WorkflowExecutionCompleted", "WorkflowExecutionCanceled"))
            if state in ("shipped", "not shipped in time"):
                self.assertEqual((end, packed), ("WorkflowExecutionCompleted", set(range(parts))))
            if state != "shipped":
                self.assertGreaterEqual(self.made("unpack", parcel), 1)

    def look_at_signals(self, client, name):
        """No run has a signal twice."""
        run = None
        while True:
            events = client.history(name, run)
            sent = [(e["attrs"]["name"], e["attrs"]["input"]) for e in events if e["type"] == "WorkflowExecutionSignaled"]
            self.assertEqual(len(sent), len(set(sent)))
            run = events[0]["attrs"].get("continued_from")
            if run is None:
                return

    def look_at_charges(self, killer):
        """How many charges were made again, and why. Who made one of these before was killed within it, and did nothing
        more; or the server was away for so long that a charge's time was over before it could be told."""
        last, by_order, told = {}, collections.defaultdict(list), collections.Counter()
        for entry in self.entries:
            last[tuple(entry["worker"])] = entry
            if entry["what"] == "charge":
                by_order[entry["order"]].append(entry)
        for charge in [charge for charges in by_order.values() for charge in charges[:-1]]:
            pid, thread = charge["worker"]
            if pid not in killer.killed:
                said = f"made twice by a worker that lived: {charge}; the server was away for {killer.longest_away:.1f} s at most"
                self.assertGreater(killer.longest_away, orders.CHARGE_TIMEOUT / 1_000 - CHARGE_SECONDS, said)
                told["charges made again, which could not be told in time"] += 1
                continue
            self.assertEqual(last[pid, thread], charge, "made twice, and its worker had gone on")
            told["charges made again after a kill"] += 1
        return told

    def look_at_attempts(self):
        """No attempt was handed to two workers, or twice to one."""
        begun = collections.Counter(
            (entry["run"], entry["activity"], entry["attempt"]) for entry in self.entries if entry["what"] == "asked for a charge"
        )
        self.assertEqual([it for it, count in begun.items() if count > 1], [])


if __name__ == "__main__":
    unittest.main()
