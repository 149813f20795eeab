"""Attempts of activities without a service: heartbeats and when they are told, coroutines, how a worker stops, its pace."""

import asyncio
import threading
import time
import unittest
from unittest import mock

from support import add_paths

add_paths()
from wfserve.calls import Calls, Task
from wfserve.errors import CallLost, Refused
from wfserve.ids import TaskKind, run_id, token_text
from wfserve.testing import ActivityEnvironment
from wfserve.workflows import AttemptOver, Cancelled, Retry, WallClock, Worker, WorkerStops, attempt
from wfserve.workflows.heartbeats import LONGEST, WITHOUT_TIMEOUT, Pulse, Sender, interval_of
from wfserve.workflows.shutdown import Ending, Pace

RUN = run_id(1, 0, 0)
SECONDS = 60
SCHEDULED = {"id": 5, "at": 77, "type": "ActivityTaskScheduled", "attrs": {
    "activity_id": "1", "activity_type": "work", "task_queue": "main", "input": "", "heartbeat": 10_000,
    "start_to_close": 60_000, "schedule_to_close": 0, "schedule_to_start": 4_000,
    "retry": {"attempts": 3, "coefficient": 150, "initial": 10, "maximum": 0, "non_retryable": ["OSError"]},
}}


def task_of(number=1, kind="work", text=""):
    return Task({
        "token": token_text(TaskKind.ACTIVITY, 0, 5, number), "run": RUN, "workflow_id": "w", "attempt": number,
        "activity_id": "1", "activity_type": kind, "input": text,
    })


class Told(Calls):
    """A service that hands out tasks, and notes what it is told. `answers` are those to heartbeats."""

    def __init__(self, tasks=(), answers=()):
        self.tasks, self.answers = list(tasks), list(answers)
        self.told, self.reads = [], 0
        self._lock = threading.Lock()

    def call(self, op, **fields):
        with self._lock:
            return self._answer(op, fields)

    def _answer(self, op, fields):
        if op == "poll_activity_task":
            if not self.tasks:
                return {"line": 1, "ok": "empty"}
            return {"line": 1, "ok": "task", **vars(self.tasks.pop(0))}
        if op == "history":
            self.reads += 1
            return {"line": 1, "ok": "history", "events": [{}] * 4 + [SCHEDULED], "run": RUN}
        self.told.append((op, fields.get("details") or fields.get("result") or fields.get("error_type")))
        answer = self.answers.pop(0) if op == "heartbeat" and self.answers else False
        if isinstance(answer, Exception):
            raise answer
        return {"line": 1, "ok": op, "cancel_requested": answer}

    def ops(self):
        return [op for op, _ in self.told]


class HeldSender(Sender):
    """Keeps what is to be called, for a test that lets time go by."""

    def __init__(self):
        super().__init__()
        self.held = []

    def put(self, due, send):
        self.held.append((due, send))

    def send_due(self, now):
        due, self.held = [it for it in self.held if it[0] <= now], [it for it in self.held if it[0] > now]
        for _, send in due:
            send()


class Heartbeats(unittest.TestCase):
    def setUp(self):
        self.now = 100.0
        patch = mock.patch("wfserve.workflows.heartbeats.time.monotonic", lambda: self.now)
        patch.start()
        self.addCleanup(patch.stop)
        self.service, self.sender = Told(), HeldSender()
        self.timeouts = []
        self.pulse = Pulse(self.service, task_of(), self.timeout, self.sender)

    def timeout(self):
        self.timeouts.append(1)
        return 10_000

    def details(self):
        return [details for _, details in self.service.told]

    def test_so_much_lies_between_two(self):
        self.assertEqual([interval_of(it) for it in (0, 1_000, 10_000, 10**9)], [WITHOUT_TIMEOUT, 0.8, 8.0, LONGEST])

    def test_the_first_is_told_at_once_and_of_the_next_the_last_one_in_time(self):
        for number in range(50):
            self.pulse.beat(str(number))
            self.now += 0.1
        # Its timeout is read by the sender, for which the activity doesn't wait.
        self.assertEqual((self.details(), len(self.timeouts)), (["0"], 0))
        self.sender.send_due(self.now)
        self.assertEqual((self.details(), len(self.timeouts)), (["0"], 1))
        # 8 seconds after the first one.
        self.now = 107.9
        self.sender.send_due(self.now)
        self.assertEqual(self.details(), ["0"])
        self.now = 108.0
        self.sender.send_due(self.now)
        self.assertEqual(self.details(), ["0", "49"])
        self.now = 115.9
        self.pulse.beat("later")
        self.assertEqual(self.details(), ["0", "49"])
        self.now = 116.0
        self.pulse.beat("now")
        self.assertEqual(self.details(), ["0", "49", "now"])

    def test_one_alone_reads_no_timeout(self):
        self.pulse.beat("0")
        self.assertEqual((self.details(), self.timeouts, self.sender.held), (["0"], [], []))

    def test_what_is_told_once_the_attempt_has_ended_is_nothing(self):
        self.pulse.beat("0")
        self.pulse.beat("1")
        self.assertEqual(self.pulse.stop(), "1")
        self.now += 100
        self.sender.send_due(self.now)
        self.assertEqual(self.details(), ["0"])

    def test_the_answer_to_one_that_was_told_later_is_raised_by_the_next(self):
        for answer, kind in ((True, Cancelled), (Refused({"op": "heartbeat"}, {"line": 1, "error": "NotFound"}), AttemptOver)):
            with self.subTest(kind):
                self.setUp()
                interrupted = []
                self.pulse.interrupt = lambda: interrupted.append(1)
                self.service.answers = [False, answer]
                self.pulse.beat("0")
                self.pulse.beat("1")
                self.now += 9
                self.sender.send_due(self.now)
                self.sender.send_due(self.now)
                self.assertEqual((self.details(), interrupted), (["0", "1"], [1]))
                with self.assertRaises(kind):
                    self.pulse.beat("2")

    def test_one_that_was_asked_to_cancel_goes_on_to_beat(self):
        self.service.answers = [True, True]
        with self.assertRaises(Cancelled):
            self.pulse.beat("0")
        self.now += 9
        with self.assertRaises(Cancelled):
            self.pulse.beat("cleaning up")
        self.sender.send_due(self.now)
        self.assertEqual(self.details(), ["0", "cleaning up"])
        self.now += 9
        with self.assertRaises(Cancelled):
            self.pulse.beat("cleaned up")
        self.assertEqual(self.details(), ["0", "cleaning up", "cleaned up"])

    def test_where_the_service_is_away_the_details_stay(self):
        self.service.answers = [CallLost("gone")]
        self.pulse.beat("0")
        self.assertEqual(self.pulse.stop(), "0")

    def test_within_a_loop_nothing_is_told_or_read_by_the_one_who_beats(self):
        self.pulse.beat("0", may_block=False)
        self.pulse.beat("1", may_block=False)
        self.assertEqual((self.details(), self.timeouts), ([], []))
        self.sender.send_due(self.now)
        self.assertEqual(self.details(), ["1"])

    def test_without_a_sender_each_is_told(self):
        pulse = Pulse(self.service, task_of(), self.timeout, None)
        for number in range(3):
            pulse.beat(str(number), may_block=bool(number))
        self.assertEqual(self.details(), ["0", "1", "2"])


class Senders(unittest.TestCase):
    def test_it_calls_what_is_due_in_its_order_and_begins_again(self):
        sender, called = Sender(), []
        for _ in range(2):
            done = threading.Event()
            now = time.monotonic()
            sender.put(now + 0.06, done.set)
            sender.put(now + 0.03, lambda: called.append("second"))
            sender.put(0.0, lambda: called.append("first"))
            self.assertTrue(done.wait(SECONDS))
            self.assertEqual(called, ["first", "second"])
            called.clear()


class WithAWorker(unittest.TestCase):
    def run_worker(self, service, activities, meanwhile, **more):
        """Has a worker work until `meanwhile` returns. How long it took to stop, in seconds."""
        worker, stop = Worker(service, activities=activities, **more), threading.Event()
        working = threading.Thread(target=worker.run, args=(stop, 0.001))
        working.start()
        try:
            meanwhile()
        finally:
            stop.set()
            begun = time.monotonic()
            working.join(SECONDS)
        self.assertFalse(working.is_alive())
        return worker, time.monotonic() - begun


class Coroutines(WithAWorker):
    def test_many_are_in_hand_at_a_time(self):
        together, most = [], []

        async def work():
            together.append(1)
            most.append(len(together))
            while len(most) < 5:
                await asyncio.sleep(0.001)
            together.pop()
            return attempt().number

        service = Told([task_of(number) for number in range(1, 6)])
        self.run_worker(service, [work], lambda: self.await_told(service, 5), activity_slots=5)
        self.assertEqual(sorted(result for _, result in service.told), list("12345"))
        self.assertEqual(max(most), 5)

    def await_told(self, service, count):
        late = time.monotonic() + SECONDS
        while len(service.told) < count:
            self.assertLess(time.monotonic(), late)
            time.sleep(0.001)

    def test_one_is_cancelled_where_it_waits(self):
        seen = []

        async def work():
            attempt().heartbeat("here")
            try:
                await asyncio.sleep(SECONDS)
            except asyncio.CancelledError:
                seen.append("cancelled")
                raise

        service = Told([task_of()], [True])
        self.run_worker(service, [work], lambda: self.await_told(service, 2))
        self.assertEqual((service.ops(), seen), (["heartbeat", "cancel_activity"], ["cancelled"]))

    def test_one_that_cancels_itself_fails(self):
        async def work():
            raise asyncio.CancelledError()

        service = Told([task_of()])
        self.run_worker(service, [work], lambda: self.await_told(service, 1))
        self.assertEqual(service.told, [("fail_activity", "RuntimeError")])

    def test_alone_in_a_test(self):
        async def work(value):
            attempt().heartbeat(value)
            await asyncio.sleep(0)
            return value + 1

        env = ActivityEnvironment()
        self.assertEqual((env.run(work, 4), env.heartbeats), (5, [4]))


class Stopping(WithAWorker):
    def test_what_is_in_hand_has_time_to_end_and_learns_that_it_should(self):
        begun = threading.Event()

        def work():
            begun.set()
            while not attempt().worker_stops:
                time.sleep(0.001)
            return "ended in time"

        service = Told([task_of(), task_of(2)])
        worker, _ = self.run_worker(service, [work], lambda: begun.wait(SECONDS), grace=SECONDS)
        self.assertEqual((service.told, worker.lost), ([("complete_activity", '"ended in time"')], 0))

    def test_after_it_heartbeats_raise_and_coroutines_are_cancelled(self):
        begun = threading.Event()

        def work():
            begun.set()
            while True:
                attempt().heartbeat()
                time.sleep(0.001)

        async def waits():
            begun.set()
            await asyncio.sleep(SECONDS)

        waits.type_name = "work"
        for activity in (work, waits):
            begun.clear()
            service = Told([task_of()])
            worker, _ = self.run_worker(service, [activity], lambda: begun.wait(SECONDS), grace=0.05)
            self.assertEqual([it for it in service.told if it[0] != "heartbeat"], [("fail_activity", "WorkerStops")])
            self.assertEqual(worker.lost, 0)

    def test_what_does_not_end_is_left_and_counted(self):
        begun, end = threading.Event(), threading.Event()
        self.addCleanup(end.set)

        def work():
            begun.set()
            end.wait(SECONDS)

        service = Told([task_of()])
        with mock.patch("wfserve.workflows.worker.LAST_SECONDS", 0.05):
            worker, took = self.run_worker(service, [work], lambda: begun.wait(SECONDS), grace=0.05)
        self.assertEqual((service.told, worker.lost), ([], 1))
        self.assertLess(took, SECONDS / 2)

    def test_a_task_that_comes_once_the_time_is_over_is_another_workers(self):
        service, called = Told([task_of()]), []

        def work():
            called.append(1)

        worker = Worker(service, activities=[work])
        worker._attempts.ending.interrupt()
        self.assertEqual(worker.work(), 1)
        self.assertEqual((service.told, called), ([("fail_activity", "WorkerStops")], []))

    def test_a_poll_that_waits_is_waited_for_also_after_the_time_is_over(self):
        polled, end = threading.Event(), threading.Event()
        service = Told()

        def call(op, **fields):
            polled.set()
            end.wait(SECONDS)
            return {"line": 1, "ok": "empty"}

        service.call = call
        worker, stop = Worker(service, activities=[lambda: None], grace=0), threading.Event()
        working = threading.Thread(target=worker.run, args=(stop, 0.001))
        with mock.patch("wfserve.workflows.worker.LAST_SECONDS", 0):
            working.start()
            self.assertTrue(polled.wait(SECONDS))
            stop.set()
            working.join(0.3)
            self.assertTrue(working.is_alive())
            end.set()
            working.join(SECONDS)
        self.assertEqual((working.is_alive(), worker.lost), (False, 0))

    def test_a_task_that_a_poll_takes_as_the_worker_stops_has_its_time(self):
        polled, end = threading.Event(), threading.Event()
        service = Told([task_of()])
        answer = service._answer

        def answered(op, fields):
            if op == "poll_activity_task":
                polled.set()
                end.wait(SECONDS)
            return answer(op, fields)

        service._answer = answered

        def work():
            time.sleep(0.01)
            return attempt().worker_stops

        worker, stop = Worker(service, activities=[work], grace=SECONDS), threading.Event()
        working = threading.Thread(target=worker.run, args=(stop, 0.001))
        working.start()
        self.assertTrue(polled.wait(SECONDS))
        stop.set()
        time.sleep(0.2)
        end.set()
        working.join(SECONDS)
        self.assertEqual((service.told, worker.lost), ([("complete_activity", "true")], 0))

    def test_what_is_added_once_the_time_is_over_is_interrupted_at_once(self):
        ending, interrupted = Ending(), []

        def removed():
            interrupted.append("removed")

        ending.add(removed)
        ending.add(lambda: interrupted.append("first"))
        ending.remove(removed)
        ending.interrupt()
        ending.add(lambda: interrupted.append("second"))
        self.assertEqual(interrupted, ["first", "second"])


class Paces(WithAWorker):
    def test_so_many_a_second_begin(self):
        now = [10.0]
        with mock.patch("wfserve.workflows.shutdown.time.monotonic", lambda: now[0]):
            pace, begun = Pace(10), 0
            for _ in range(1_000):
                if pace.left() == 0:
                    begun += 1
                now[0] += 0.005
        self.assertIn(begun, range(48, 52))

    def test_one_that_waited_begins_when_it_begins(self):
        now = [10.0]
        with mock.patch("wfserve.workflows.shutdown.time.monotonic", lambda: now[0]):
            pace = Pace(1)
            self.assertEqual(pace.left(), 0)
            now[0] += 20
            pace.began()
            self.assertEqual(pace.left(), 1)

    def test_one_that_did_not_begin_takes_no_place(self):
        pace = Pace(0.001)
        self.assertEqual(pace.left(), 0)
        pace.give_back()
        self.assertEqual(pace.left(), 0)
        self.assertGreater(pace.left(), 900)

    def test_without_a_pace_there_is_no_limit(self):
        pace = Pace(None)
        self.assertEqual([pace.left() for _ in range(100)], [0] * 100)

    def test_a_worker_keeps_it(self):
        begun = []

        def work():
            begun.append(time.monotonic())

        service = Told([task_of(number) for number in range(1, 6)])

        def until_all():
            late = time.monotonic() + SECONDS
            while len(service.told) < 5 and time.monotonic() < late:
                time.sleep(0.001)

        self.run_worker(service, [work], until_all, activities_per_second=20, activity_slots=3)
        self.assertEqual(len(begun), 5)
        self.assertGreater(max(begun) - min(begun), 4 * 0.05 - 0.01)

    def test_numbers_that_are_none_are_refused(self):
        for wrong in ({"activity_slots": 0}, {"workflow_slots": -1}, {"activities_per_second": 0}):
            with self.assertRaises(ValueError):
                Worker(Told(), **wrong)


class Info(unittest.TestCase):
    def test_an_attempt_as_a_record(self):
        found = []

        def work():
            found.append((attempt().info, attempt().info))
            return attempt().info.heartbeat

        service = Told([task_of(2)])
        Worker(service, activities=[work], clock=WallClock()).work()
        info, again = found[0]
        self.assertIs(info, again)
        self.assertEqual((service.told, service.reads), ([("complete_activity", "10000")], 1))
        self.assertEqual(
            (info.workflow_id, info.run, info.activity_id, info.activity_type, info.task_queue, info.attempt),
            ("w", RUN, "1", "work", "main", 2),
        )
        self.assertEqual(
            (info.scheduled, info.schedule_to_start, info.start_to_close, info.schedule_to_close, info.heartbeat),
            (77, 4_000, 60_000, 0, 10_000),
        )
        self.assertEqual((info.retry, info.heartbeat_details), (Retry(10, 1.5, 0, 3, ("OSError",)), None))

    def test_its_logger_names_it(self):
        def work():
            attempt().logger.warning("half of it is %s", "done")

        with self.assertLogs("wfserve.workflows.activities", "WARNING") as logged:
            Worker(Told([task_of(3)]), activities=[work]).work()
        record = logged.records[0]
        self.assertEqual(record.getMessage(), "w: attempt 3 of 1: half of it is done")
        self.assertEqual((record.workflow_id, record.activity_id, record.attempt), ("w", "1", 3))

    def test_in_a_test(self):
        env = ActivityEnvironment(attempt=4, details="so far")
        info = env.run(lambda: vars(attempt().info) and attempt().info.heartbeat_details)
        self.assertEqual(info, "so far")


class Details(unittest.TestCase):
    def test_those_that_were_left_are_told_before_a_failure(self):
        def work():
            for part in range(5):
                attempt().heartbeat(part)
            raise WorkerStops("enough")

        service = Told([task_of()])
        Worker(service, activities=[work], clock=WallClock()).work()
        self.assertEqual(service.told, [("heartbeat", "0"), ("heartbeat", "4"), ("fail_activity", "WorkerStops")])


if __name__ == "__main__":
    unittest.main()
