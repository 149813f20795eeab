"""Nothing that a client sends stops the server: each operation with each of its keys of each wrong kind, and a restart."""

import collections
import http.client
import json
import re
import unittest

from support import ROOT
from support.logs import write_log
from support.programs import needs_program, needs_server
from wfserve.operations import KEYS
from test_server import WithAServer

DEEP = "[" * 900 + "]" * 900
# Values as JSON: of each kind, and of each that some reader of JSON stumbles over.
WRONG = [
    "null", "true", "0", "-1", "1.5", "1e400", "1" * 400, '""', '"x"', '"\\ud800"', '"\\u0000"', "[]", "[1]", '[{"type":[]}]',
    "{}", '{"a":{}}', DEEP, "NaN",
]
# With these the operation would be served.
RIGHT = {
    "workflow_id": '"w"', "workflow_type": '"T"', "task_queue": '"main"', "name": '"n"', "shard": "0", "from": "0", "to": "0",
    "commands": "[]", "token": '"AQEAAAAAAAAAAAABAAAAAAAAAAIAAAAB"',
}
# As lines had them that an earlier server took.
POISON = ['"workflow_id":[]', '"workflow_id":{}', '"commands":[1]', '"commands":[[]]', '"token":{}', f'"n":{DEEP}']


def bodies():
    """Each operation with each key, its own or another's, that has each wrong value."""
    every = sorted(set().union(*KEYS.values())) + ["at", "wait", "lane", "barrier", "nothing"]
    for op, keys in KEYS.items():
        for key in every:
            members = {name: RIGHT[name] for name in keys if name in RIGHT}
            for value in WRONG if key in keys or key == "wait" else ("[]", "1"):
                said = {**members, key: value}
                yield "{" + f'"op":"{op}",' + ",".join(f'"{name}":{it}' for name, it in said.items()) + "}"


class Read(unittest.TestCase):
    def test_the_operations_are_those_of_the_profile(self):
        text = (ROOT / "docs/PROFILE.md").read_text(encoding="utf-8")
        table = text[text.index("| op | fields (default) | reply |"):].split("\n\n")[0].splitlines()[2:]
        found = {}
        for row in table:
            op, fields, _ = [cell.strip() for cell in row.strip("|").split("|", 2)]
            found[op] = set(re.findall(r"[a-z_]+", re.sub(r"\(.*?\)", "", fields)))
        found["signal_with_start"] -= {"as", "without", "conflict", "then"}
        found["signal_with_start"] |= KEYS["start"] - {"conflict"}
        found["signal_with_start"].discard("start")
        self.assertEqual(found, {op: set(keys) for op, keys in KEYS.items()})


@needs_server
@needs_program
class Sent(WithAServer):
    def test_each_wrong_value_is_answered_and_the_server_starts_again(self):
        server = self.serve()
        run = server.client().start("w", "T")
        statuses = collections.Counter()
        connection = http.client.HTTPConnection(server.host, server.port, timeout=30)
        for body in bodies():
            connection.request("POST", "/calls", body, {"Content-Type": "application/json"})
            answer = connection.getresponse()
            statuses[answer.status] += 1
            self.assertIsInstance(json.loads(answer.read()), dict)
            self.assertIn(answer.status, (200, 400), body[:200])
        connection.close()
        self.assertGreater(statuses[200], 1_000)
        self.assertEqual((server.stop(), server.said.read_text()), (0, ""))
        server.start()
        rows = server.read("/api/workflows")["workflows"]
        self.assertIn(("w", run), [(row["workflow_id"], row["run"]) for row in rows])
        self.assertEqual(server.said.read_text(), "")

    def test_a_log_with_lines_that_an_earlier_server_took_is_served(self):
        lines = [
            f'{{"op":"{op}","at":1,"shard":0,{poison}}}'.encode()
            for op in ("timer_turn", "dispatch_turn", "describe", "history") for poison in POISON
        ]
        write_log(self.log, [*lines, b'{"op":"start","at":1,"workflow_id":"w","workflow_type":"T","task_queue":"main"}'])
        server = self.serve()
        self.assertEqual([row["workflow_id"] for row in server.read("/api/workflows")["workflows"]], ["w"])


if __name__ == "__main__":
    unittest.main()
