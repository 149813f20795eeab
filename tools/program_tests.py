#!/usr/bin/env python3
"""What is tested of the built program alone, since no case says it: that it answers a line before it waits
for the next one, scripts of as many lines as a service is asked for in a day, which records a script leaves
and how another goes on from them, also where the disk is full, and that the steps of threads stand in order in
one history.

    tools/program_tests.py PROGRAM

PROGRAM is the built `wfserve`, as `rt ci` leaves it in crates/wfserve/out. The status is 1 where a test fails.
"""
import collections
import json
import os
import pathlib
import queue
import resource
import shutil
import signal as signals
import subprocess
import sys
import tempfile
import threading
import unittest

import client_package  # noqa: F401
from wfserve import __version__
from wfserve.ids import TaskKind, token_text

ROOT = pathlib.Path(__file__).resolve().parent.parent
# A reply comes at once, on a machine that is busy too.
SECONDS = 120
PROGRAM = ROOT / "crates/wfserve/out/wfserve"


def text(lines):
    return "".join(json.dumps(line, separators=(",", ":")) + "\n" for line in lines)


def start(workflow_id, **more):
    return {"op": "start", "task_queue": "main", "workflow_id": workflow_id, "workflow_type": "w", **more}


def poll(**more):
    return {"op": "poll_workflow_task", "task_queue": "main", **more}


def signal(at):
    return {"at": at, "name": "s", "op": "signal", "workflow_id": "a"}


def token(shard, run):
    """The token of a run's first workflow task."""
    return token_text(TaskKind.WORKFLOW, run, 2, 1, shard)


def ran(lines, *words, **environment):
    """What the program does that is given these lines."""
    return subprocess.run(
        [PROGRAM, *words], input=text(lines), capture_output=True, text=True, timeout=SECONDS,
        env={**os.environ, **environment},
    )


def served(lines, *words, **environment):
    """The replies to lines none of which is refused."""
    done = ran(lines, *words, **environment)
    if done.returncode or done.stderr:
        raise AssertionError(f"status {done.returncode}: {done.stderr}")
    return [json.loads(line) for line in done.stdout.splitlines()]


class Version(unittest.TestCase):
    """The version of the program, which is the package's."""

    def test_the_version_is_printed(self):
        for words in (["--version"], ["-V"], ["--shards", "2", "--version"]):
            with self.subTest(words=words):
                done = ran([], *words)
                self.assertEqual((done.returncode, done.stdout, done.stderr), (0, f"wfserve {__version__}\n", ""))

    def test_help_has_it_too(self):
        self.assertIn(f" Version {__version__}.\n", ran([], "--help").stderr)

    def test_standard_output_that_is_full_is_a_fault(self):
        with open("/dev/full", "wb") as full:
            done = subprocess.run([PROGRAM, "--version"], stdout=full, stderr=subprocess.PIPE, timeout=SECONDS)
        self.assertEqual(done.returncode, 2)
        self.assertIn(b"standard output", done.stderr)


class Typist(unittest.TestCase):
    """A user who types a line only once the replies to all earlier ones are shown."""

    def test_the_program_answers_before_it_waits(self):
        shown = queue.Queue()
        with subprocess.Popen([PROGRAM], stdin=subprocess.PIPE, stdout=subprocess.PIPE) as program:
            reader = threading.Thread(target=lambda: [shown.put(line) for line in program.stdout], daemon=True)
            reader.start()
            for line in (b'{"op":"history","workflow_id":"a"}\n', b"x\n", b'{"op":"history","workflow_id":"a"}\n'):
                program.stdin.write(line)
                program.stdin.flush()
                try:
                    self.assertIn(b'"error"', shown.get(timeout=SECONDS))
                except queue.Empty:
                    program.kill()
                    self.fail("no reply came before the next line was typed")
            program.stdin.close()
            self.assertEqual(program.wait(SECONDS), 1)
            reader.join(SECONDS)
        self.assertTrue(shown.empty())


class Texts(unittest.TestCase):
    """Tokens and run ids as they were written by hand, which the program writes and reads."""

    # Of run 1 of shard 0: those of the workflow's tasks at events 2 and 7, and of the activity's first and third attempt.
    TOKENS = ("AQEAAAAAAAAAAAABAAAAAAAAAAIAAAAB", "AQEAAAAAAAAAAAABAAAAAAAAAAcAAAAB",
              "AQIAAAAAAAAAAAABAAAAAAAAAAUAAAAB", "AQIAAAAAAAAAAAABAAAAAAAAAAUAAAAD")
    # A service, the first run of its first shard, and of its second.
    RUNS = (("1", "00000000-0001-8000-8000-000000000001", "00000000-0001-8001-8000-000000000001"),
            ("281474976710655", "ffffffff-ffff-8000-8000-000000000001", "ffffffff-ffff-8001-8000-000000000001"))
    # Of runs that are not there: all bits of service, shard and ordinal, and none.
    OTHERS = ("ffffffff-ffff-8fff-bfff-ffffffffffff", "00000000-0000-8000-8000-000000000000")

    def test_tokens(self):
        """Each is handed out, and taken back."""
        retry = {"attempts": 3, "coefficient": 200, "initial": 1, "maximum": 0, "non_retryable": []}
        activity = {"activity_id": "x", "activity_type": "t", "retry": retry, "start_to_close": 10, "task_queue": "main",
                    "type": "ScheduleActivityTask"}
        turn, take = {"op": "dispatch_turn", "shard": 0}, {"op": "poll_activity_task", "task_queue": "main"}
        lines = [start("a"), turn, poll(),
                 {"op": "complete_workflow_task", "token": self.TOKENS[0], "commands": [activity]},
                 {"op": "signal", "name": "s", "workflow_id": "a"}, turn, take, turn, poll()]
        for attempt in (1, 2):
            lines += [{"op": "fail_activity", "token": token_text(TaskKind.ACTIVITY, 1, 5, attempt), "message": "m"}]
            at = 9 * attempt
            lines += [{"at": at, "op": "timer_turn", "shard": 0}, {"at": at, **turn}, {"at": at, **take}]
        lines += [{"op": "complete_activity", "token": self.TOKENS[3], "result": "r"},
                  {"op": "complete_workflow_task", "token": self.TOKENS[1], "commands": []}]
        replies = served(lines)
        handed = [reply["token"] for reply in replies if "token" in reply]
        self.assertEqual([handed[place] for place in (0, 2, 1, 4)], [*self.TOKENS])
        self.assertEqual([reply["ok"] for reply in replies[-2:]], ["completed", "completed"])

    def test_run_ids(self):
        """Each is answered to a start, and names the run."""
        for service, *runs in self.RUNS:
            words = ["--service", service, "--shards", "2"]
            reads = [{"op": "describe", "run": run, "workflow_id": name} for run, name in zip(runs, "ab")]
            with self.subTest(service=service):
                self.assertEqual([reply["run"] for reply in served([start("a"), start("b"), *reads], *words)], runs * 2)

    def test_run_ids_at_their_limits(self):
        """They name no run, and are written as they were read."""
        for run in self.OTHERS:
            read = {"op": "describe", "run": run, "workflow_id": "a"}
            with self.subTest(run):
                reply, step = [json.loads(line) for line in ran([start("a"), read], "--trace").stdout.splitlines()][1::2]
                self.assertEqual((reply["error"], step["request"]["run"]), ("NotFound", run))


class ManyLines(unittest.TestCase):
    """As many tasks, deadlines and transfers as a service is asked for in a day, none of which is refused."""

    TASKS, RUNS, SENDERS, SIGNALS = 10_000, 5_000, 5, 2_000

    def assert_counts(self, replies, **counts):
        """So many replies have the value of a key that is named."""
        for name, count in counts.items():
            key, _, value = name.partition("_")
            self.assertEqual(sum(reply.get(key) == value for reply in replies), count, name)

    def timing_out(self):
        return [start(f"w{number}", run_timeout=1000) for number in range(self.RUNS)]

    def turns(self, at):
        return [{"at": at, "op": "timer_turn", "shard": 0}] * self.RUNS

    def test_ten_thousand_tasks_are_taken(self):
        lines = []
        for number in range(self.TASKS):
            lines += [start(f"w{number}"), {"op": "dispatch_turn", "shard": 0}, poll()]
        self.assert_counts(served(lines), ok_dispatched=self.TASKS, ok_task=self.TASKS)

    def test_five_thousand_runs_time_out(self):
        self.assert_counts(served(self.timing_out() + self.turns(2000)), class_run_timeout=self.RUNS)

    def test_ten_thousand_timers_fire_in_order(self):
        """Timers of one completion that are due at one moment fire as they were started, and then none does."""
        timers = [{"type": "StartTimer", "timer_id": f"t{number}", "duration": 5} for number in range(self.TASKS)]
        completion = {"op": "complete_workflow_task", "token": token(0, 1), "commands": timers}
        # none fires before its moment
        turns = [{"at": 4, "op": "timer_turn", "shard": 0}, *[{"at": 5, "op": "timer_turn", "shard": 0}] * (self.TASKS + 1)]
        replies = served([start("a"), {"op": "dispatch_turn", "shard": 0}, poll(), completion] + turns)[4:]
        # the first four events are the run's start, and its task scheduled, started and completed
        self.assertEqual([reply.get("event") for reply in replies], [None, *range(5, self.TASKS + 5), None])
        self.assertEqual([replies[0]["ok"], replies[-1]["ok"]], ["none", "none"])

    def test_five_thousand_runs_come_and_go(self):
        """They time out and are deleted, and then each workflow begins anew."""
        again = [start(f"w{number}", reuse="RejectDuplicate") for number in range(self.RUNS)]
        lines = self.timing_out() + self.turns(2000) + self.turns(3000) + again
        replies = served(lines, "--retention", "1000")
        self.assert_counts(replies, class_run_timeout=self.RUNS, class_retention=self.RUNS, ok_started=2 * self.RUNS)

    def test_ten_thousand_signals_are_sent(self):
        """To one workflow, by completions with as many as a run may have pending, and each is answered."""
        signal = {"type": "SignalExternalWorkflowExecution", "workflow_id": "target", "name": "s"}
        lines, transfers = [], 2 * self.SENDERS * self.SIGNALS
        for number in range(self.SENDERS):
            lines += [start(f"w{number}"), {"op": "dispatch_turn", "shard": 0}, poll()]
        for run in range(1, self.SENDERS + 1):
            commands = [signal] * self.SIGNALS
            lines.append({"op": "complete_workflow_task", "token": token(0, run), "commands": commands})
        lines.append(start("target"))
        lines += [{"from": 0, "op": "transfer_turn", "to": 0}] * transfers
        lines.append({"op": "describe", "workflow_id": "target"})
        replies = served(lines)
        self.assert_counts(replies, ok_accepted=transfers, ok_completed=self.SENDERS)
        self.assertEqual(replies[-1]["length"], self.SENDERS * self.SIGNALS + 2)


# A script, the records that it leaves, those of the first shard first, and what a further one is answered that
# goes on from them.
Reopened = collections.namedtuple("Reopened", "before records after replies")

STARTED = (
    '{{"pass":0,"request":{{"at":0,"conflict":"Fail","input":"","op":"start",{0}"reuse":"AllowDuplicate",'
    '"run_timeout":0,"task_queue":"main","task_timeout":0,"workflow_id":"{1}","workflow_type":"w"}}}}\n'
)
DISPATCHED = '{"pass":0,"request":{"at":0,"op":"next_dispatch"}}\n{"pass":0,"request":{"at":0,"number":1,"op":"dispatched"}}\n'
TAKEN = '{"pass":0,"request":{"at":0,"attempt":1,"event":2,"kind":"workflow","op":"start_task","run":1}}\n'
SIGNALED = '{{"pass":0,"request":{{"at":{0},"input":"","name":"s","op":"signal","workflow_id":"a"}}}}\n'
RUN_A, RUN_B = "00000000-0001-8000-8000-000000000001", "00000000-0001-8001-8000-000000000001"
TASK_A = (
    '{{"attempt":1,"line":{0},"ok":"task","run":"' + RUN_A + '","started":3,'
    '"token":"AQEAAAAAAAAAAAABAAAAAAAAAAIAAAAB","workflow_id":"a"}}\n'
)
TASK_B = (
    '{{"attempt":1,"line":{0},"ok":"task","run":"' + RUN_B + '","started":3,'
    '"token":"AQEAAQAAAAAAAAABAAAAAAAAAAIAAAAB","workflow_id":"b"}}\n'
)
TURN = {"op": "dispatch_turn", "shard": 0}

REOPENED = {
    "a task that was dispatched waits in its queue again": Reopened(
        [start("a", request_id="r1"), TURN],
        [STARTED.format('"request_id":"r1",', "a") + DISPATCHED],
        [poll(), poll()],
        TASK_A.format(1) + '{"line":2,"ok":"empty"}\n',
    ),
    "a task that was not dispatched waits too, and its dispatch comes later": Reopened(
        [start("a")],
        [STARTED.format("", "a")],
        [poll(), TURN, poll()],
        TASK_A.format(1) + '{"line":2,"number":1,"ok":"dispatched"}\n{"line":3,"ok":"stale"}\n',
    ),
    "a task that was taken does not wait": Reopened(
        [start("a"), TURN, poll()],
        [STARTED.format("", "a") + DISPATCHED + TAKEN],
        [poll(), start("a")],
        '{"line":1,"ok":"empty"}\n{"error":"AlreadyStarted","line":2,"no":3,"run":"' + RUN_A + '"}\n',
    ),
    "a signal at an earlier moment is recorded with that moment": Reopened(
        [start("a", request_id="r1"), signal(50), signal(40)],
        [STARTED.format('"request_id":"r1",', "a") + SIGNALED.format(50) + SIGNALED.format(40)],
        [{"op": "describe", "workflow_id": "a"}],
        '{"activities":0,"cancels":0,"children":0,"held":0,"length":4,"line":1,"ok":"described","run":"' + RUN_A + '",'
        '"signals":0,"status":"Running","timers":0}\n',
    ),
    "tasks of two shards wait in the order of the shards": Reopened(
        [start("b"), start("a")],
        [STARTED.format("", "a"), STARTED.format("", "b")],
        [poll(), poll()],
        TASK_A.format(1) + TASK_B.format(2),
    ),
}


class Reopening(unittest.TestCase):
    """Scripts that go on from the records of others."""

    def setUp(self):
        self.folder = tempfile.TemporaryDirectory()
        self.addCleanup(self.folder.cleanup)

    def fresh(self, name):
        folder = pathlib.Path(self.folder.name, name)
        folder.mkdir()
        return folder

    def records(self, folder):
        return [path.read_text() for path in sorted(folder.iterdir())]

    def left_by(self, row):
        """The folder in which the records of a row's lines are saved."""
        saved = self.fresh("saved")
        served(row.before, "--shards", str(len(row.records)), "--save", saved)
        return saved

    def each_row(self):
        for name, row in REOPENED.items():
            with self.subTest(name):
                yield row, ["--shards", str(len(row.records))]
                for folder in pathlib.Path(self.folder.name).iterdir():
                    for path in folder.iterdir():
                        path.unlink()
                    folder.rmdir()

    def test_records_are_left_and_opened_again(self):
        """They are the row's, and so they are where nothing more is read."""
        for row, words in self.each_row():
            saved, again = self.left_by(row), self.fresh("again")
            self.assertEqual(self.records(saved), row.records)
            done = ran([], *words, "--load", saved, "--save", again)
            self.assertEqual((done.returncode, done.stdout, done.stderr), (0, "", ""))
            self.assertEqual(self.records(again), row.records)

    def test_scripts_go_on_from_records(self):
        """What they are answered is the row's, and what they do comes after what was done."""
        for row, words in self.each_row():
            saved, again = self.left_by(row), self.fresh("again")
            done = ran(row.after, *words, "--load", saved, "--save", again)
            self.assertEqual((done.returncode, done.stdout), (int('"error"' in row.replies), row.replies))
            self.assertEqual(len(self.records(again)), len(row.records))
            for after, before in zip(self.records(again), row.records):
                self.assertTrue(after.startswith(before))

    def test_records_that_do_not_fit_are_refused(self):
        """Of two tasks that wait on one shard. That there is one record of each shard is looked for in the folder."""
        saved = self.fresh("saved")
        served([start("a"), start("c")], "--save", saved)
        for words, fault in (
            (["--capacity", "1"], "more tasks wait in the records than their queues hold: raise --capacity"),
            (["--shards", "2"], f"{saved}/shard-01.rec: No such file or directory (os error 2)"),
            (["--shards", "2", "--capacity", "1"], f"{saved}/shard-01.rec: No such file or directory (os error 2)"),
            (["--capacity", "0"], "--capacity is out of range"),
            (["--shards", "0"], "--shards is out of range"),
        ):
            with self.subTest(words):
                done = ran([start("a"), start("c")], *words, "--load", saved)
                self.assertEqual((done.returncode, done.stdout, done.stderr), (2, "", f"wfserve: {fault}\n"))


class FullDisk(unittest.TestCase):
    """Records that are saved where a file takes so many bytes, and then none."""

    def saved(self, folder, most=None):
        """What the program does that goes on from a folder's records, and saves them there with a start more."""
        def limit():
            if most is not None:
                signals.signal(signals.SIGXFSZ, signals.SIG_IGN)
                resource.setrlimit(resource.RLIMIT_FSIZE, (most, most))
        return subprocess.run(
            [PROGRAM, "--load", folder, "--save", folder], input=text([start("b")]), capture_output=True, text=True,
            timeout=SECONDS, preexec_fn=limit,
        )

    def test_older_records_stay(self):
        """At each byte the script ends with a fault once its line is answered, and the older file has its name."""
        with tempfile.TemporaryDirectory() as folder:
            record = pathlib.Path(folder, "shard-00.rec")
            served([start("a")], "--save", folder)
            older, whole = record.read_text(), self.saved(folder).stdout
            newer = record.read_text()
            record.write_text(older)
            for most in range(len(newer)):
                with self.subTest(bytes=most):
                    done = self.saved(folder, most)
                    self.assertEqual((done.returncode, done.stdout), (2, whole), done.stderr)
                    self.assertIn("File too large", done.stderr)
                    self.assertEqual(record.read_text(), older)
            self.assertEqual(self.saved(folder, len(newer)).returncode, 0)
            self.assertEqual(record.read_text(), newer)


class OneHistory(unittest.TestCase):
    """Transfer turns from each of two shards to the other, by four threads at the same time."""

    # How many signals each shard's workflow sends the other one's.
    COUNT = 50
    # An answer goes back for each signal.
    TRANSFERS = 2 * COUNT
    SCHEDULES = 20

    def lines(self):
        barrier, lines = {"barrier": True}, [start("a"), start("b")]
        for shard in (0, 1):
            lines += [{"op": "dispatch_turn", "shard": shard}, poll()]
        for shard, other in ((0, "b"), (1, "a")):
            signal = {"type": "SignalExternalWorkflowExecution", "workflow_id": other}
            commands = [{**signal, "name": f"s{number}"} for number in range(1, self.COUNT + 1)]
            lines.append({"op": "complete_workflow_task", "token": token(shard, 1), "commands": commands})
        lines.append(barrier)
        for _ in range(self.TRANSFERS):
            lines += [self.turn(lane // 2, lane=lane) for lane in range(4)]
        # Answers to signals that came once the other direction's lanes had ended.
        for shard in (0, 1, 0):
            lines += [barrier, *[self.turn(shard)] * (self.TRANSFERS + 1)]
        return lines

    def turn(self, shard, lane=0):
        return {"op": "transfer_turn", "from": shard, "lane": lane, "to": 1 - shard}

    def schedules(self):
        """What the processor is given away by, for each run; nothing where there is no C compiler."""
        if not shutil.which("cc"):
            return [{}]
        folder = tempfile.TemporaryDirectory()
        self.addCleanup(folder.cleanup)
        allocator = pathlib.Path(folder.name, "yield_often.so")
        call = ["cc", "-O2", "-shared", "-fPIC", "-o", allocator, ROOT / "tools/yield_often.c"]
        subprocess.run(call, check=True)
        return [{}, *({"LD_PRELOAD": str(allocator), "YIELD_SEED": str(seed)} for seed in range(self.SCHEDULES))]

    def test_transfers_stand_in_order(self):
        """Every delivery stands after the step that issued its transfer, and every acknowledgement after the
        step that accepted it; at the end all transfers have come to where they were sent."""
        for environment in self.schedules():
            with self.subTest(environment):
                self.check_one_history(environment)

    def check_one_history(self, environment):
        lines = self.lines()
        said = served(lines, "--shards", "2", "--passes", "4", "--trace", **environment)
        replies = [line for line in said if "line" in line]
        steps = [line for line in said if "ticket" in line]
        self.assertEqual(len(replies), sum("op" in line for line in lines))
        self.assertEqual(len(replies) + len(steps), len(said))
        # The last turn each way found none.
        self.assertEqual([replies[-1]["ok"], replies[-self.TRANSFERS - 2]["ok"]], ["none", "none"])
        self.assertEqual([step["ticket"] for step in steps], list(range(1, len(steps) + 1)))
        self.assertEqual({step["pass"] for step in steps}, set(range(4)))
        issued, accepted, acknowledged = [0, 0], [0, 0], [0, 0]
        names: list[list[str]] = [[], []]
        for step in steps:
            request, own = step["request"], step["shard"]
            if request["op"] == "complete_workflow_task":
                issued[own] += self.COUNT
            elif request["op"] == "deliver":
                number = request["transfer"]["number"]
                self.assertLessEqual(number, issued[1 - own], step)
                if number == accepted[own] + 1:
                    accepted[own] = number
                    # A signal is answered by a transfer back.
                    if request["transfer"]["kind"] == "signal_external":
                        issued[own] += 1
                        names[own].append(request["transfer"]["content"]["name"])
            elif request["op"] == "acknowledge":
                self.assertLessEqual(request["number"], accepted[1 - own], step)
                acknowledged[own] = max(acknowledged[own], request["number"])
        self.assertEqual(acknowledged, [self.TRANSFERS] * 2)
        self.assertEqual(names, [[f"s{number}" for number in range(1, self.COUNT + 1)]] * 2)


def main():
    global PROGRAM
    if len(sys.argv) != 2 or not pathlib.Path(sys.argv[1]).is_file():
        sys.exit(__doc__)
    PROGRAM = pathlib.Path(sys.argv[1]).resolve()
    unittest.main(argv=sys.argv[:1], verbosity=0)


if __name__ == "__main__":
    main()
