"""python3 -m unittest: the client against a program that gives stored replies, and against wfserve where it is built."""

import json
import os
import sys
import tempfile
import unittest

from support.programs import BUILT, needs_program
from examples import by_lines
from wfserve.calls import Clock, Service
from wfserve.errors import Ended, Refused

# A program that writes down each line that it reads and answers with the next of its stored replies.
ECHO = """
import sys
replies, lines = sys.argv[1:3]
with open(lines, "w") as written:
    for reply in open(replies):
        line = sys.stdin.readline()
        if not line:
            break
        written.write(line)
        written.flush()
        sys.stdout.write(reply)
        sys.stdout.flush()
sys.exit(3)
"""


class Stored(unittest.TestCase):
    def setUp(self):
        self.folder = tempfile.TemporaryDirectory()
        self.addCleanup(self.folder.cleanup)

    def service(self, *replies, clock=None):
        replies_file = os.path.join(self.folder.name, "replies")
        self.lines_file = os.path.join(self.folder.name, "lines")
        with open(replies_file, "w", encoding="utf-8") as written:
            written.writelines(reply + "\n" for reply in replies)
        service = Service([sys.executable, "-c", ECHO, replies_file, self.lines_file], clock)
        self.addCleanup(service.close)
        return service

    def lines(self):
        with open(self.lines_file, encoding="utf-8") as written:
            return [json.loads(line) for line in written]

    def test_a_call_is_one_line_at_its_moment(self):
        service = self.service('{"line":1,"ok":"started","run":"r"}', '{"line":2,"ok":"signaled"}', clock=Clock(5))
        self.assertEqual(service.start("a", "w", request_id="q"), "r")
        service.clock.advance(2)
        self.assertTrue(service.signal("a", "s"))
        self.assertEqual(self.lines(), [
            {"op": "start", "at": 5, "workflow_id": "a", "workflow_type": "w", "task_queue": "main", "request_id": "q"},
            {"op": "signal", "at": 7, "workflow_id": "a", "name": "s"},
        ])

    def test_a_refusal_says_its_line(self):
        service = self.service(
            '{"line":1,"ok":"signaled"}',
            '{"error":"InvalidArgument","field":"run_timeout","line":2,"no":1}',
            '{"line":3,"ok":"repeated"}',
        )
        service.signal("a", "s")
        with self.assertRaises(Refused) as caught:
            service.start("a", "w", run_timeout=-1)
        self.assertEqual((caught.exception.line, caught.exception.name), (2, "InvalidArgument"))
        self.assertEqual(str(caught.exception), "line 2: start: InvalidArgument (run_timeout)")
        self.assertFalse(service.signal("a", "s"))

    def test_a_reply_to_another_line_is_none(self):
        service = self.service('{"line":2,"ok":"signaled"}')
        with self.assertRaises(Ended):
            service.signal("a", "s")

    def test_a_program_that_ends_is_told(self):
        service = self.service('{"line":1,"ok":"signaled"}')
        service.signal("a", "s")
        with self.assertRaisesRegex(Ended, "line 2: the program ended with status 3"):
            service.signal("a", "s")

    def test_a_stale_hint_is_passed_over(self):
        service = self.service(
            '{"line":1,"ok":"stale"}',
            '{"attempt":1,"line":2,"ok":"task","run":"r","started":3,"token":"t","workflow_id":"a"}',
            '{"line":3,"ok":"empty"}',
        )
        self.assertEqual(service.poll_workflow_task().token, "t")
        self.assertIsNone(service.poll_workflow_task())


@needs_program
class Built(unittest.TestCase):
    def types(self, calls_off):
        return [event["type"] for event in by_lines.run([str(BUILT)], calls_off)]

    def test_an_order_is_paid_at_the_third_attempt_and_shipped(self):
        history = by_lines.run([str(BUILT)], calls_off=False)
        taken = [event["attrs"] for event in history if event["type"] == "ActivityTaskStarted"]
        self.assertEqual([attrs["attempt"] for attrs in taken], [3])
        self.assertEqual(history[-1]["type"], "WorkflowExecutionCompleted")

    def test_an_order_is_called_off(self):
        types = self.types(calls_off=True)
        self.assertIn("TimerCanceled", types)
        self.assertEqual(types[-1], "WorkflowExecutionCanceled")


if __name__ == "__main__":
    unittest.main()
