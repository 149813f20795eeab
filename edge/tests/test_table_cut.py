"""Two machines and a database, each with a network of its own: leaders are killed, hang, are cut off from all others, and
compact the log meanwhile.

WFEDGE_TAKEOVERS says how many takeovers each round has, WFEDGE_ROUNDS how many rounds, each of which begins with an empty
database. WFEDGE_RESULTS names a file to which a line is added for each round.
"""

import json
import os
import random
import sys
import unittest

from the_edge import WFEDGE, needs_edge

from network import Network, needs_network
from support.programs import needs_program
from tables import CLIENTS, SEED, Database, OverATable, needs_client, needs_postgres, shown

ROUNDS = int(os.environ.get("WFEDGE_ROUNDS", 1))
RESULTS = os.environ.get("WFEDGE_RESULTS")
# Of twelve disturbances so many are of each kind, in drawn orders.
KINDS = ["kill"] * 6 + ["cut", "hang", "compact", *(f"{kind} within a compaction" for kind in ("kill", "hang", "cut"))]


@needs_edge
@needs_program
@needs_postgres
@needs_client
@needs_network
class CutOff(OverATable):
    def setUp(self):
        self.network = Network(2)
        self.addCleanup(self.network.close)
        self.machines = self.network.machines
        super().setUp()
        self.address = f"postgres://edge@{self.network.host}:{self.database.port}/orders"

    def new_database(self):
        return Database(self.folder / "one", host=self.network.host)

    def test_no_answer_is_lost_and_no_call_is_made_twice(self):
        all_waits, count, again = {}, 0, 0
        for number in range(ROUNDS):
            draw = random.Random(f"{SEED} {number}")
            kinds = [kind for _ in range(1 + self.takeovers // len(KINDS)) for kind in draw.sample(KINDS, len(KINDS))]
            print(f"\ntwo machines: seed {SEED}, round {number}, load {os.getloadavg()[0]:.1f}", file=sys.stderr)
            if number:
                self.database.make_anew()
            had = self.disturbed(WFEDGE, kinds, draw)
            self.assertGreater(len(had), CLIENTS)
            wrong = self.wrong_in(had)
            count, again = count + len(had), again + self.again
            for kind, found in self.waits.items():
                all_waits.setdefault(kind, []).extend(found)
            self.tell(number, had, wrong)
            self.assertEqual(wrong, ([], [], []))
        print(f"all rounds: {shown(all_waits)}; {count} replies, {again} calls made again, 0 lost, 0 doubled", file=sys.stderr)

    def tell(self, number, had, wrong):
        """Adds a line of results for a round."""
        if RESULTS:
            lost, doubled, left = (len(it) for it in wrong)
            said = {"seed": SEED, "round": number, "clients": CLIENTS, "replies": len(had), "again": self.again, "lost": lost,
                    "doubled": doubled, "left": left, "load": os.getloadavg()[0], "waits": self.waits}
            with open(RESULTS, "a", encoding="utf-8") as results:
                results.write(json.dumps(said) + "\n")


if __name__ == "__main__":
    unittest.main()
