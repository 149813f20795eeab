"""What the server says of an activity that is pending: its attempt, the last failure, the next try, a heartbeat."""

import unittest

import support
from wfserve.ids import TaskKind, run_id, token_text
from wfserve.page import attempts
from wfserve.page.attempts import Attempts

support.add_paths()
RUN = run_id(1, 2, 7)


class Seen(unittest.TestCase):
    def setUp(self):
        self.attempts = Attempts()

    def tell(self, op, reply, at=0, event=5, attempt=1, kind=TaskKind.ACTIVITY, **fields):
        token = token_text(kind, 7, event, attempt, shard=2)
        if op == "poll_activity_task":
            reply = {**reply, "token": token}
        else:
            fields["token"] = token
        self.attempts.observe({"op": op, "at": at, **fields}, reply)

    def taken(self, attempt, at=0, **more):
        self.tell("poll_activity_task", {"ok": "task", "attempt": attempt}, at, attempt=attempt, **more)

    def test_nothing_is_known_before_an_attempt_was_taken(self):
        self.assertEqual(self.attempts.of(RUN, 5), {})
        self.assertEqual(self.attempts.of("no run id", 5), {})

    def test_an_attempt_that_a_worker_has(self):
        self.taken(1, at=30)
        self.assertEqual(self.attempts.of(RUN, 5), {"attempt": 1, "state": attempts.STARTED, "since": 30})
        self.assertEqual((self.attempts.of(RUN, 6), self.attempts.of(run_id(1, 2, 8), 5)), ({}, {}))

    def test_an_attempt_that_failed_and_the_next_one(self):
        self.taken(1)
        self.tell("heartbeat", {"ok": "heartbeat", "cancel_requested": False}, 40, details='{"at":3}')
        self.tell("fail_activity", {"ok": "retrying", "attempt": 2, "ready": 99}, 50, message="away", error_type="OSError")
        waits = {"attempt": 2, "state": attempts.WAITS, "since": 50, "next_try": 99, "last_failure": "away",
                 "last_failure_type": "OSError", "heartbeat": '{"at":3}', "heartbeat_at": 40}
        self.assertEqual(self.attempts.of(RUN, 5), waits)
        self.taken(2, at=100)
        has = {**waits, "state": attempts.STARTED, "since": 100}
        del has["next_try"]
        self.assertEqual(self.attempts.of(RUN, 5), has)

    def test_what_ended_is_forgotten(self):
        for op, reply in (("complete_activity", {"ok": "completed"}), ("cancel_activity", {"ok": "canceled"}),
                          ("fail_activity", {"ok": "failed", "retry": "MaximumAttemptsReached"})):
            self.taken(1)
            self.tell(op, reply)
            self.assertEqual(self.attempts.of(RUN, 5), {}, op)

    def test_refusals_and_other_tasks_say_nothing(self):
        self.taken(1, at=30)
        for reply in ({"error": "NotFound"}, {"error": "InvalidArgument"}):
            self.tell("fail_activity", reply, 50, message="late")
        self.tell("heartbeat", {"ok": "heartbeat"}, 60, kind=TaskKind.WORKFLOW)
        self.attempts.observe({"op": "heartbeat", "token": "no token"}, {"ok": "heartbeat"})
        self.attempts.observe({"op": "poll_activity_task"}, {"ok": "empty"})
        self.assertEqual(self.attempts.of(RUN, 5), {"attempt": 1, "state": attempts.STARTED, "since": 30})

    def test_no_more_than_so_many_are_remembered(self):
        most, attempts.MOST_KEPT = attempts.MOST_KEPT, 3
        self.addCleanup(setattr, attempts, "MOST_KEPT", most)
        for event in range(10, 14):
            self.taken(1, event=event)
        self.assertEqual([bool(self.attempts.of(RUN, event)) for event in range(10, 14)], [False, True, True, True])


if __name__ == "__main__":
    unittest.main()
