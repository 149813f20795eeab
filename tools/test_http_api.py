"""docs/openapi.json is what tools/http_api.py writes, and has each operation with the fields that it has."""
import json
import unittest

import http_api
from wfserve.operations import KEYS


class Written(unittest.TestCase):
    def test_the_file_is_what_the_tool_writes(self):
        self.assertEqual(http_api.FILE.read_text(encoding="utf-8"), http_api.text())

    def test_each_operation_is_there_with_its_fields(self):
        paths = json.loads(http_api.text())["paths"]
        found = {}
        for path, it in paths.items():
            if path.startswith("/calls/"):
                body = it["post"]["requestBody"]["content"]["application/json"]["schema"]
                found[path[len("/calls/"):]] = frozenset(body["properties"]) - {"wait"}
        self.assertEqual(found, KEYS)

    def test_what_is_required_and_what_replies_have(self):
        start = http_api.fields_of("workflow_id, input (empty), request_id?, reuse", {})
        self.assertEqual(start, [("workflow_id", True), ("input", False), ("request_id", False), ("reuse", False)])
        both = http_api.fields_of("as start without input, then name", {"start": "workflow_id, input (empty)"})
        self.assertEqual(both, [("workflow_id", True), ("name", True)])
        replies = http_api.replies_of("`a`, `b`, each with number; `c` run, details?; `d` number where stop is 1; `e`")
        self.assertEqual([(it["properties"]["ok"]["enum"], it["required"]) for it in replies], [
            (["a"], ["ok", "line", "number"]), (["b"], ["ok", "line", "number"]), (["c"], ["ok", "line", "run"]),
            (["d"], ["ok", "line", "number"]), (["e"], ["ok", "line"]),
        ])

    def test_a_field_that_can_not_be_read_is_said(self):
        with self.assertRaises(AssertionError):
            http_api.fields_of("workflow_id; run", {})


if __name__ == "__main__":
    unittest.main()
