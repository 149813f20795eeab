"""What docs/openapi.json says is what a server that runs answers: statuses and bodies of each operation."""

import json
import unittest

from support import ROOT
from support.programs import needs_program, needs_server
from test_server import TOKEN, WithAServer
from wfserve.blobs import name_of
from wfserve.operations import KEYS

KINDS = {"object": dict, "array": list, "string": str, "integer": int, "boolean": bool}


class Described:
    """docs/openapi.json, and whether an answer is as it says."""

    def __init__(self):
        self.document = json.loads((ROOT / "docs/openapi.json").read_text(encoding="utf-8"))

    def refs(self, it):
        """What a reference names."""
        while "$ref" in it:
            found = self.document
            for part in it["$ref"].split("/")[1:]:
                found = found[part]
            it = found
        return it

    def answers(self, method, path):
        return self.document["paths"][path][method.lower()]["responses"]

    def faults(self, method, path, status, text):
        """What in an answer isn't as the file says, a line each."""
        answers = self.answers(method, path)
        if str(status) not in answers:
            return [f"no status {status}"]
        content = self.refs(answers[str(status)])["content"]
        if "application/json" not in content:
            return []
        return self.wrong(content["application/json"]["schema"], json.loads(text), "the body")

    def wrong(self, schema, value, place):
        schema = self.refs(schema)
        for choice in ("oneOf", "anyOf"):
            if choice in schema:
                met = [not self.wrong(it, value, place) for it in schema[choice]]
                fits = sum(met) == 1 if choice == "oneOf" else any(met)
                return [] if fits else [f"{place}: {value} is none of {len(met)}"]
        kind = KINDS.get(schema.get("type"), object)
        if not isinstance(value, kind) or (kind is int and isinstance(value, bool)):
            return [f"{place}: {value!r} is no {schema['type']}"]
        if "enum" in schema and value not in schema["enum"]:
            return [f"{place}: {value!r} is none of {schema['enum']}"]
        if kind is list:
            return [fault for it in value for fault in self.wrong(schema.get("items", {}), it, f"{place}[]")]
        return self.wrong_members(schema, value, place) if kind is dict else []

    def wrong_members(self, schema, value, place):
        members = schema.get("properties", {})
        found = [f"{place}: no {name}" for name in schema.get("required", ()) if name not in value]
        if schema.get("additionalProperties") is False:
            found += [f"{place}: {name} is not described" for name in value if name not in members]
        for name in value.keys() & members.keys():
            found += self.wrong(members[name], value[name], f"{place}.{name}")
        return found


class Checks(unittest.TestCase):
    """The check itself finds what is wrong."""

    def test_what_is_not_described_is_a_fault(self):
        described = Described()
        good = '{"line":1,"ok":"signaled"}'
        self.assertEqual(described.faults("POST", "/calls/signal", 200, good), [])
        for status, text in (
            (200, '{"line":1,"ok":"started"}'), (200, '{"line":"1","ok":"signaled"}'), (200, '{"ok":"signaled"}'),
            (200, '{"line":1,"ok":"signaled","more":1}'), (404, '{"error":"Missing","line":1,"no":2}'), (201, good),
            (409, '{"error":"NoToken","said":"no"}'),
        ):
            self.assertNotEqual(described.faults("POST", "/calls/signal", status, text), [], text)


@needs_server
@needs_program
class Statuses(WithAServer):
    def setUp(self):
        super().setUp()
        self.described = Described()
        self.server = self.serve("--queues", "main", "--capacity", "1")
        self.seen = set()

    def ask(self, op, status=200, expected=None, **fields):
        """The reply to a call by its own path, which has to be described, and as expected."""
        found, headers, text = self.server.asked("POST", f"/calls/{op}", json.dumps(fields).encode())
        reply = json.loads(text)
        self.assertEqual(self.described.faults("POST", f"/calls/{op}", found, text), [], (op, text))
        self.assertEqual((found, reply.get("ok") or reply["error"]), (status, expected or reply.get("ok")), (op, fields))
        self.assertEqual(headers.get("Retry-After"), "1" if found == 503 else None)
        self.seen.add(op)
        return reply

    def poll(self, op):
        return self.ask(op, 200, "task", task_queue="main", wait=60_000)["token"]

    def test_each_operation_by_its_path(self):
        began = {"workflow_type": "W", "task_queue": "main"}
        run = self.ask("start", 200, "started", workflow_id="w", **began)["run"]
        self.assertEqual(self.ask("start", 409, "AlreadyStarted", workflow_id="w", **began)["run"], run)
        self.ask("start", 404, "UnknownTaskQueue", workflow_id="w", workflow_type="W", task_queue="other")
        self.assertEqual(self.ask("start", 422, "InvalidArgument", workflow_id="w")["field"], "workflow_type")
        self.ask("signal", 200, "signaled", workflow_id="w", name="n", request_id="s")
        self.ask("signal", 200, "repeated", workflow_id="w", name="n", request_id="s")
        self.ask("signal", 404, "NotFound", workflow_id="nobody", name="n")
        self.ask("signal_with_start", 200, "signaled", workflow_id="w", name="n", **began)
        self.work(run)
        self.ask("request_cancel", 200, "cancel_requested", workflow_id="w", request_id="c")
        self.ask("request_cancel", 409, "CancellationAlreadyRequested", workflow_id="w", request_id="d")
        self.ask("terminate", 200, "terminated", workflow_id="w", reason="enough")
        self.ask("terminate", 404, "NotFound", workflow_id="w")
        self.ask("describe", 404, "NotFound", workflow_id="nobody")
        self.assertEqual(self.ask("describe", workflow_id="w", expected="described")["status"], "Terminated")
        self.assertEqual(self.ask("history", workflow_id="w", expected="history")["run"], run)
        self.ask("timer_turn", 200, "none", shard=0)
        self.ask("timer_turn", 422, "InvalidArgument", shard=7)
        self.ask("transfer_turn", 200, "none", **{"from": 0, "to": 0})
        self.fill()
        self.assertEqual(self.seen, set(KEYS))

    def work(self, run):
        """Has workers make what they can say."""
        self.ask("complete_workflow_task", 422, "InvalidToken", token="none", commands=[])
        self.ask("fail_workflow_task", 200, "failed", token=self.poll("poll_workflow_task"), message="no")
        scheduled = [
            {"type": "ScheduleActivityTask", "activity_id": name, "activity_type": "A", "task_queue": "main",
             "start_to_close": 60_000} for name in "abc"
        ]
        token = self.poll("poll_workflow_task")
        self.ask("complete_workflow_task", 200, "completed", token=token, commands=scheduled)
        self.ask("complete_workflow_task", 404, "NotFound", token=token, commands=[])
        first, second, third = (self.poll("poll_activity_task") for _ in "abc")
        self.assertFalse(self.ask("heartbeat", token=first, expected="heartbeat")["cancel_requested"])
        self.ask("cancel_activity", 422, "InvalidArgument", token=first)
        self.ask("complete_activity", 200, "completed", token=first, result="1")
        self.ask("complete_activity", 404, "NotFound", token=first)
        self.ask("fail_activity", 200, "retrying", token=second, message="no")
        self.ask("fail_activity", 200, "failed", token=third, message="no", non_retryable=True)
        self.ask("poll_workflow_task", 404, "UnknownTaskQueue", task_queue="other")

    def fill(self):
        """Has a queue with room for one task be full."""
        for name in ("x", "y"):
            self.ask("start", 200, "started", workflow_id=name, workflow_type="W", task_queue="main")
        # The server's own turns make it full, and a turn of a caller finds it so.
        self.ask("dispatch_turn", 503, "QueueFull", shard=0)

    def test_the_path_of_all_calls_answers_refusals_by_200(self):
        calls = ({"op": "signal", "workflow_id": "nobody", "name": "n"}, {"op": "start"}, {"op": "nothing"}, {})
        for call in calls:
            status, _, text = self.server.asked("POST", "/calls", json.dumps(call).encode())
            self.assertEqual((status, "error" in json.loads(text)), (200, True))
            self.assertEqual(self.described.faults("POST", "/calls", status, text), [])

    def test_bodies_that_are_no_calls(self):
        for body, headers, status, name in (
            (b"{", {}, 400, "BadCall"), (b"[]", {}, 400, "BadCall"), (b"", {}, 400, "BadCall"),
            (b'{"op":"signal"}', {}, 400, "BadCall"), (b'{"op":"start"}', {}, 400, "BadCall"),
            (b"{}", {"Content-Type": "text/plain"}, 415, "NotJson"), (b" { } ", {}, 422, "InvalidArgument"),
            (b" " * 1_048_577, {}, 413, "RequestEntityTooLarge"), (b"{}", {"Host": "evil.example"}, 403, "WrongHost"),
        ):
            found, _, text = self.server.asked("POST", "/calls/signal", body, headers)
            self.assertEqual((found, json.loads(text)["error"]), (status, name), body[:40])
            self.assertEqual(self.described.faults("POST", "/calls/signal", found, text), [])

    def test_paths_that_name_no_operation(self):
        for path in ("/calls/nothing", "/calls/", "/calls/start/more", "/calls/Start"):
            status, _, text = self.server.asked("POST", path, b"{}")
            self.assertEqual((status, "error" in json.loads(text)), (404, True), path)
        self.assertEqual(self.server.asked("GET", "/calls/start")[0], 405)

    def test_a_key_counts_on_both_paths(self):
        key = {"Idempotency-Key": "k"}
        body = b'{"workflow_id":"w","workflow_type":"W","task_queue":"main"}'
        first = self.server.asked("POST", "/calls/start", body, key)
        again = self.server.asked("POST", "/calls/start", body, key)
        same = self.server.asked("POST", "/calls", b'{"op":"start",' + body[1:], key)
        self.assertEqual([first[0], again[0], same[0]], [200] * 3)
        self.assertEqual(first[2], again[2])
        self.assertEqual(first[2], same[2])
        status, _, text = self.server.asked("POST", "/calls/start", body.replace(b"W", b"V"), key)
        self.assertEqual((status, json.loads(text)["error"]), (422, "KeyReused"))
        self.assertEqual(self.described.faults("POST", "/calls/start", status, text), [])

    def test_what_is_read_is_as_described(self):
        run = self.ask("start", workflow_id="w", workflow_type="W", task_queue="main", expected="started")["run"]
        real = {
            "/api/workflows/{workflow_id}/{run}": [f"/api/workflows/w/{run}", "/api/workflows/w/none"],
            "/api/workflows/{workflow_id}/{run}/history.json": [f"/api/workflows/w/{run}/history.json"],
            "/api/workflows": ["/api/workflows", "/api/workflows?skip=x", "/api/workflows?type=W&from=1"],
            "/blobs/{hash}": [f"/blobs/{name_of(b'text')}", f"/blobs/{name_of(b'another')}"],
        }
        for asked, text_of_it in ((real["/blobs/{hash}"][0], b"text"), (real["/blobs/{hash}"][1], b"text")):
            status, _, text = self.server.asked("PUT", asked, text_of_it)
            self.assertEqual(self.described.faults("PUT", "/blobs/{hash}", status, text), [], text)
        for path, it in self.described.document["paths"].items():
            for asked in real.get(path, [path]) if "get" in it else ():
                status, _, text = self.server.asked("GET", asked)
                self.assertEqual(self.described.faults("GET", path, status, text), [], asked)
        status, _, text = self.server.asked("POST", "/compact", b"{}")
        self.assertEqual(self.described.faults("POST", "/compact", status, text), [], text)


@needs_server
class Tokens(WithAServer):
    def test_each_path_wants_the_token(self):
        described = Described()
        server = self.serve("--host", "0.0.0.0", "--token-file", self.token_file(), program=self.double())
        for path in ("/calls", "/calls/signal", "/compact"):
            status, _, text = server.asked("POST", path, b"{}")
            self.assertEqual((status, described.faults("POST", path, status, text)), (401, []))
        bearing = {"Authorization": f"Bearer {TOKEN}"}
        self.assertEqual(server.asked("POST", "/calls/signal", b"{}", bearing)[0], 200)


if __name__ == "__main__":
    unittest.main()
