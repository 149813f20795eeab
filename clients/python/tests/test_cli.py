"""The command wf: what it prints, and with which status it ends; and which program `wf dev` takes."""

import argparse
import contextlib
import io
import json
import os
import pathlib
import re
import subprocess
import sys
import tempfile
import threading
import time
import unittest
from unittest import mock

from support import CLIENT, ROOT
from support.logs import write_log
from support.programs import BUILT, memory_folder, needs_program, needs_server
from support.served import Server
from wfserve.cli import dev, main, serve, statuses
from wfserve.cli.commands import COMMANDS
from wfserve.cli.output import plain
from wfserve.cli.words import duration, moment, span, value_of_word

GREETING = """
import time
from wfserve.workflows import Retry, WorkflowFailed, attempt, hours, seconds, workflow

def greet(name):
    if attempt().number < 2:
        raise RuntimeError("not yet")
    return f"hello {name}"

def late(name):
    raise RuntimeError("the bank is closed")

@workflow
async def hello(ctx, name):
    return await ctx.activity(greet, name, start_to_close=seconds(10), retry=Retry(initial=10))

@workflow
async def declined(ctx):
    raise WorkflowFailed("the card was declined")

@workflow
async def waits(ctx):
    ctx.on_query("twice", lambda number=1: {"waits": 2 * number})
    return {"got": await ctx.signal("shipped")}

@workflow
async def stays(ctx):
    await ctx.activity(late, "x", start_to_close=seconds(10), retry=Retry(initial=hours(1)))

@workflow
async def rests(ctx):
    await ctx.timer(hours(1))

WORKFLOWS, ACTIVITIES = [hello, declined, waits, stays, rests], [greet, late]
"""


def ran(*words):
    """The status of a command, what it prints and what it complains."""
    out, err = io.StringIO(), io.StringIO()
    path = list(sys.path)
    with contextlib.redirect_stdout(out), contextlib.redirect_stderr(err):
        try:
            status = main(list(words))
        except SystemExit as ended:
            status = ended.code
    sys.path[:] = path
    return status, out.getvalue(), err.getvalue()


class Words(unittest.TestCase):
    def test_values_are_json_where_they_are_and_else_texts(self):
        for word, value in (("42", 42), ('"42"', "42"), ("49.90 EUR", "49.90 EUR"), ('{"a":[1]}', {"a": [1]}),
                            ("null", None), ("", ""), ("order-17", "order-17")):
            self.assertEqual(value_of_word(word), value)

    def test_durations(self):
        for word, milliseconds in (("250ms", 250), ("30s", 30_000), ("1.5h", 5_400_000), ("2d", 172_800_000), ("0s", 0)):
            self.assertEqual(duration(word), milliseconds)
        for word in ("30", "s", "-1s", "1w", ""):
            with self.assertRaises(argparse.ArgumentTypeError):
                duration(word)

    def test_moments_and_spans_for_people(self):
        self.assertEqual(moment(1_000), "1970-01-01 00:00:01.000Z")
        for milliseconds, text in ((0, "0s"), (5, "5ms"), (61_001, "1m 1s"), (90_000_000, "1d 1h"), (-3, "0s")):
            self.assertEqual(span(milliseconds), text)

    def test_what_moves_a_cursor_is_shown_as_its_number(self):
        self.assertEqual(plain("a\n\x1b[31mb\x9b"), "a\\x0a\\x1b[31mb\\x9b")


class Statuses(unittest.TestCase):
    def test_every_status_is_explained(self):
        self.assertEqual([status for status, _ in statuses.MEANINGS], list(statuses.Status))
        said = ran("--help")[1]
        for status, meaning in statuses.MEANINGS:
            self.assertIn(f"  {int(status)}  {meaning}", said)

    def test_words_that_are_no_command(self):
        for words in ([], ["nothing"], ["start", "hello"], ["start", "t", "i", "--run-timeout", "30"], ["replay", "f", "nocolon"],
                      ["work", "m", "--grace", "-1"], ["work", "m", "--grace", "soon"], ["work", "m", "--threads", "0"]):
            status, out, err = ran(*words)
            self.assertEqual((status, out), (2, ""), words)
            self.assertIn("usage: wf", err)

    def test_a_server_that_is_not_there(self):
        with mock.patch("wfserve.cli.connection.PATIENCE", 0.1):
            for words in (["list"], ["describe", "w"], ["start", "t", "w"]):
                status, _, err = ran(*words, "--url", "http://127.0.0.1:1")
                self.assertEqual(status, 5, words)
                self.assertRegex(err, "^wf: no server answers there: wf dev starts one, .*CallLost: http://127.0.0.1:1: ")

    def test_what_is_no_call(self):
        for line in ("{", "[]", "{}", "7"):
            status, _, err = ran("call", line, "--url", "http://127.0.0.1:1")
            self.assertEqual(status, 2, line)
            self.assertIn("no JSON object with an op", err)


class Completion(unittest.TestCase):
    def test_each_shell_gets_every_command(self):
        for shell in ("bash", "zsh", "fish"):
            status, out, _ = ran("completion", shell)
            self.assertEqual(status, 0)
            for name in COMMANDS:
                self.assertIn(name, out)
            self.assertIn("run-timeout", out)

    def test_bash_completes_commands_and_options(self):
        script = ran("completion", "bash")[1]
        for typed, word, wanted in (("wf des", "des", "describe"), ("wf start --con", "--con", "--conflict")):
            words = " ".join(typed.split())
            asked = f"{script}\nCOMP_WORDS=({words}); COMP_CWORD={typed.count(' ')}; _wf; echo ${{COMPREPLY[@]}}"
            said = subprocess.run(["bash", "-c", asked], capture_output=True, text=True, check=True)
            self.assertEqual((said.stdout.strip(), said.stderr), (wanted, ""))


class InATree(unittest.TestCase):
    """A tree with a proved program and an edge, which are files alone."""

    def setUp(self):
        folder = tempfile.TemporaryDirectory()
        self.addCleanup(folder.cleanup)
        self.top = pathlib.Path(folder.name)
        for name in ("crates/wfserve/src", "out/build/crates/wfserve/out"):
            (self.top / name).mkdir(parents=True)
        self.source, self.proved = self.top / "crates/wfserve/src/main.rt", self.top / dev.PROVED
        for file, at in ((self.top / "crates.txt", 100), (self.source, 100), (self.proved, 200)):
            file.write_text("")
            os.utime(file, (at, at))
        self.edge = self.top / serve.EDGE
        self.edge.parent.mkdir(parents=True)
        self.edge.write_text("")
        self.edge.chmod(0o755)
        self.enter(mock.patch.dict(os.environ))
        for name in ("WFSERVE", "WFEDGE"):
            os.environ.pop(name, None)
        self.enter(mock.patch("wfserve.cli.serve.tree_of", return_value=self.top))

    def enter(self, patch):
        self.addCleanup(patch.stop)
        return patch.start()

    def page_words(self):
        """The first words of a server of this tree."""
        return [str(self.edge), "--page", "python", "--page", str(self.top / serve.PAGE)]

    def became(self, *words):
        """What the process became, or None, and what it said."""
        said = io.StringIO()
        with mock.patch("os.execve", side_effect=SystemExit) as becomes, contextlib.redirect_stderr(said), \
                mock.patch("wfserve.cli.serve.python_for_page", return_value="python"), contextlib.suppress(SystemExit):
            main(list(words))
        err = said.getvalue()
        if becomes.call_args is None:
            return None, err
        self.assertIn(str(CLIENT / "src"), becomes.call_args[0][2]["PYTHONPATH"])
        return becomes.call_args[0][1], err


class Dev(InATree):
    """Which program a server is started with, and which edge."""

    def test_the_proved_program_is_taken_where_it_is_newer_than_its_sources(self):
        self.assertEqual(dev.chosen_program(None, self.top), (str(self.proved), False))
        os.utime(self.source, (300, 300))
        self.assertEqual(dev.chosen_program(None, self.top), (str(self.top / dev.UNPROVED), True))
        self.proved.unlink()
        self.assertEqual(dev.chosen_program(None, self.top), (str(self.top / dev.UNPROVED), True))

    def test_a_program_that_is_named_is_taken(self):
        self.assertEqual(dev.chosen_program("mine", self.top), ("mine", False))

    def test_it_becomes_the_server_and_says_what_it_is(self):
        with mock.patch("wfserve.cli.dev.build", return_value=True) as builds:
            os.utime(self.source, (300, 300))
            words, err = self.became("dev", "--port", "0", "--queues", "a,b")
        program = str(self.top / dev.UNPROVED)
        builds.assert_called_once_with(program, self.top)
        self.assertEqual(words, [*self.page_words(), "--program", program, "--port", "0", "--queues", "a,b"])
        self.assertIn("this program is not proved", err)
        self.assertIn("nothing is kept", err)

    def test_an_edge_that_is_missing_is_compiled_first(self):
        self.edge.unlink()
        (self.top / "edge/setup.sh").write_text(f"#!/bin/sh\necho compiling; cp /bin/true {self.edge}\n", encoding="utf-8")
        (self.top / "edge/setup.sh").chmod(0o755)
        words, err = self.became("dev", "--program", "mine")
        self.assertEqual(words[0], str(self.edge))
        self.assertIn("compiling the edge, which takes some minutes: edge/setup.sh", err)
        # The second time it is there.
        self.assertNotIn("compiling", self.became("dev", "--program", "mine")[1])
        self.edge.unlink()
        (self.top / "edge/setup.sh").write_text("#!/bin/sh\nexit 2\n", encoding="utf-8")
        words, err = self.became("dev", "--program", "mine")
        self.assertEqual(words, None)
        self.assertIn("the compiled edge is not built: edge/setup.sh says why", err)

    def test_the_program_is_proved_beside_by_one_at_a_time(self):
        (self.top / "tools").mkdir()
        goes_on = self.top / "goes on"
        text = "import os, pathlib, sys, time\nprint(sys.argv[1], os.nice(0), flush=True)\n" \
            f"while not pathlib.Path({str(goes_on)!r}).exists(): time.sleep(0.02)\n"
        (self.top / dev.PROVE).write_text(text, encoding="utf-8")
        said = self.top / dev.PROVING
        first = dev.prove_beside(self.top)
        self.assertIsNone(dev.prove_beside(self.top))
        late = time.monotonic() + 60
        while not said.read_text().endswith("\n"):
            self.assertLess(time.monotonic(), late)
            time.sleep(0.02)
        goes_on.touch()
        self.assertEqual(first.wait(60), 0)
        self.assertEqual(dev.prove_beside(self.top).wait(60), 0)
        # Under a tool that has its own priority the proof is that much nicer.
        self.assertEqual(said.read_text(), f"wfserve {min(19, os.nice(0) + 19)}\n" * 2)

    def test_without_aiohttp_it_says_what_installs_it(self):
        with mock.patch("wfserve.cli.serve.NEEDS", "no_such_module"):
            status, _, err = ran("dev", "--program", "mine")
        self.assertEqual(status, 2)
        self.assertIn("clients/python/setup.sh", err)


class Serve(InATree):
    def test_all_its_options_are_the_edges(self):
        more = ["--log", "a log", "--standby=no", "--port", "0"]
        words, err = self.became("serve", "--program", "mine", *more)
        self.assertEqual((words, err), ([*self.page_words(), "--program", "mine", *more], ""))

    def test_the_proved_program_is_built_where_none_is_named(self):
        (self.top / "serve").write_text(f"#!/bin/sh\ncat > /dev/null; echo built >> {self.top}/said\n", encoding="utf-8")
        (self.top / "serve").chmod(0o755)
        words, _ = self.became("serve", "--log", "x")
        self.assertEqual(words, [*self.page_words(), "--program", str(self.proved), "--log", "x"])
        self.assertEqual((self.top / "said").read_text(), "built\n")
        (self.top / "serve").write_text("#!/bin/sh\nexit 2\n", encoding="utf-8")
        self.assertEqual(self.became("serve", "--log", "x")[0], None)
        self.assertEqual(ran("serve", "--log", "x")[0], 2)

    def test_another_edge_and_another_program_may_be_named(self):
        os.environ.update(WFEDGE="/bin/true", WFSERVE="another")
        words, _ = self.became("serve")
        self.assertEqual((words[0], words[-1]), ("/bin/true", "another"))
        os.environ["WFEDGE"] = "/nowhere"
        self.assertIn("there is no compiled edge /nowhere: edge/setup.sh builds it", self.became("serve")[1])

    def test_words_that_another_command_does_not_know_are_refused(self):
        with self.assertRaises(SystemExit), contextlib.redirect_stderr(io.StringIO()) as err:
            main(["result", "w", "--standby", "no"])
        self.assertIn("unrecognized arguments: --standby no", err.getvalue())

    def test_it_is_served_out_of_a_tree_alone(self):
        with mock.patch("wfserve.cli.serve.tree_of", return_value=None):
            self.assertIn("served out of a tree of wfserve", self.became("serve")[1])


class Script(unittest.TestCase):
    def test_the_tree_is_found_from_the_package(self):
        self.assertEqual(serve.tree_of(serve.__file__), ROOT)
        for part in (dev.BUILD, dev.PROVE, serve.SERVE, serve.PAGE, serve.BUILD_EDGE):
            self.assertTrue((ROOT / part).is_file(), part)
        self.assertIsNone(serve.tree_of("/tmp/site-packages/wfserve/cli/serve.py"))

    def test_it_runs_without_an_installation(self):
        kept = {name: value for name, value in os.environ.items() if name != "PYTHONPATH"}
        said = subprocess.run([ROOT / "wf", "--version"], cwd="/", env=kept, capture_output=True, text=True, check=True)
        self.assertRegex(said.stdout, r"^wf \d+\.\d+\.\d+\n$")


@needs_program
@needs_server
class OverAServer(unittest.TestCase):
    """A server and a worker for all tests of the class."""

    @classmethod
    def setUpClass(cls):
        folder = memory_folder()
        cls.addClassCleanup(folder.cleanup)
        cls.folder = pathlib.Path(folder.name)
        (cls.folder / "greeting.py").write_text(GREETING, encoding="utf-8")
        cls.server = Server(str(BUILT), cls.folder / "log", "--queues", "main,alone")
        cls.addClassCleanup(cls.server.stop)
        cls.url = ["--url", cls.server.url.rstrip("/")]
        words = [sys.executable, "-m", "wfserve.cli", "work", "greeting", "--threads", "1", "--grace", "30", *cls.url]
        cls.worker = subprocess.Popen(words, cwd=cls.folder, stdout=subprocess.PIPE, text=True)
        cls.worker.stdout.readline()
        cls.addClassCleanup(cls.end_worker)

    @classmethod
    def end_worker(cls):
        cls.worker.terminate()
        cls.worker.wait()
        cls.worker.stdout.close()

    def setUp(self):
        before = os.getcwd()
        os.chdir(self.folder)
        self.addCleanup(os.chdir, before)

    def wf(self, *words):
        return ran(*words, *self.url)

    def wait(self, *words, holds):
        """What a command prints once that holds."""
        late = time.monotonic() + 60
        while time.monotonic() < late:
            said = self.wf(*words)
            if holds(said):
                return said
            time.sleep(0.05)
        self.fail(f"it never held: {said}")

    def test_a_workflow_is_started_and_its_result_is_printed(self):
        status, out, err = self.wf("start", "greeting:hello", "hello-1", "World")
        self.assertEqual((status, err), (0, ""))
        self.assertRegex(out, r"^[0-9a-f-]{36}\n$")
        self.assertEqual(self.wf("result", "hello-1"), (0, "hello World\n", ""))
        self.assertEqual(self.wf("result", "hello-1", "--json"), (0, '"hello World"\n', ""))

    def test_the_same_start_is_one_and_another_one_is_refused(self):
        first = self.wf("start", "hello", "hello-2", "World")
        again = self.wf("start", "hello", "hello-2", "World")
        self.assertEqual((again[0], again[1]), (0, first[1]))
        self.assertIn("hello-2 was started before: nothing was started now", again[2])
        other = self.wf("start", "hello", "hello-2", "Moon")
        self.assertEqual(other[0], 4)
        self.assertIn('as hello with the input ["World"]', other[2])
        said = json.loads(self.wf("start", "hello", "hello-2", "Moon", "--json")[1])
        self.assertEqual((said["existing"], said["same"]), (True, False))

    def test_execute_waits(self):
        self.assertEqual(self.wf("execute", "hello", "hello-3", "7"), (0, "hello 7\n", ""))

    def test_a_workflow_that_fails_has_a_status_of_its_own(self):
        status, out, err = self.wf("execute", "declined", "declined-1")
        self.assertEqual((status, out), (1, ""))
        self.assertEqual(err, "wf: NotCompleted: declined-1: Failed: the card was declined\n")

    def test_signals_cancellations_and_terminations(self):
        self.wf("start", "waits", "waits-1")
        self.assertEqual(self.wf("result", "waits-1", "--timeout", "0.2")[0], 6)
        self.assertEqual(self.wf("signal", "waits-1", "shipped", '{"by":"ship"}'), (0, "waits-1: signaled\n", ""))
        self.assertEqual(json.loads(self.wf("result", "waits-1")[1]), {"got": {"by": "ship"}})
        for verb, status in (("cancel", "Canceled"), ("terminate", "Terminated")):
            self.wf("start", "waits", f"{verb}-1")
            self.assertEqual(self.wf(verb, f"{verb}-1")[0], 0)
            code, _, err = self.wf("result", f"{verb}-1")
            self.assertEqual((code, status in err), (1, True), err)

    def test_a_query_is_answered_by_the_code(self):
        self.wf("start", "waits", "asked-1")
        self.assertEqual(self.wf("query", "greeting:waits", "asked-1", "twice", "21"), (0, '{"waits": 42}\n', ""))
        status, _, err = self.wf("query", "greeting:waits", "asked-1", "thrice")
        self.assertEqual((status, err), (3, "wf: NoSuchQuery: the workflow answers no query named 'thrice'; it answers twice\n"))

    def test_why_an_activity_is_pending(self):
        self.wf("start", "stays", "stays-1")
        said = self.wait("describe", "stays-1", holds=lambda it: "the last one failed" in it[1])
        self.assertRegex(said[1], "(?m)^status +Running$")
        self.assertIn("attempt 2, to be tried at ", said[1])
        self.assertIn("the last one failed: RuntimeError: the bank is closed", said[1])
        row = next(line for line in self.wf("tasks", "stays")[1].splitlines() if line.startswith("stays-1"))
        queued = [json.loads(line) for line in self.wf("queues", "--json")[1].splitlines()]
        later = next(it["later"] for it in queued if (it["queue"], it["kind"]) == ("main", "activity"))
        self.assertGreaterEqual(later, 1)
        self.assertRegex(self.wf("queues")[1], "(?m)^main +activity +0 ")
        self.assertIn("the bank is closed", row)
        found = json.loads(self.wf("describe", "stays-1", "--json")[1])["pending"][0]
        self.assertEqual((found["kind"], found["attempt"], found["last_failure_type"]), ("activity", 2, "RuntimeError"))
        self.assertGreater(found["next_try"], time.time() * 1_000)

    def test_lists_histories_and_pictures(self):
        self.wf("execute", "hello", "shown-1", "World")
        status, out, _ = self.wf("list", "shown", "--status", "Completed")
        self.assertEqual(status, 0)
        self.assertRegex(out, r"(?m)^shown-1 +hello +Completed ")
        self.assertEqual([json.loads(line)["workflow_id"] for line in self.wf("list", "shown", "--json")[1].splitlines()], ["shown-1"])
        shown = self.wf("show", "shown-1")[1].splitlines()
        self.assertRegex(shown[-1], r'WorkflowExecutionCompleted +result "hello World"')
        events = [json.loads(line) for line in self.wf("show", "shown-1", "--json")[1].splitlines()]
        self.assertEqual(len(events), len(shown) - 1)
        self.assertEqual(self.wf("trace", "shown-1", "--out", "picture.svg")[0], 0)
        self.assertTrue(pathlib.Path("picture.svg").read_text(encoding="utf-8").startswith("<svg"))
        self.assertIn("<!doctype html>", self.wf("trace", "shown-1")[1])

    def test_what_is_not_there(self):
        for words, said in (
            (["describe", "no-such"], "there is no workflow no-such (Refused"),
            (["result", "no-such"], "there is no workflow no-such (Refused"),
            (["signal", "no-such", "s"], "there is no open workflow no-such (Refused"),
            (["show", "no-such", "--run", "00000000-0001-8000-8000-000000000009"],
             "there is no workflow no-such with the run 00000000-0001-8000-8000-000000000009 (Refused"),
            (["start", "hello", "elsewhere", "--queue", "no-such"], "Refused: "),
        ):
            status, _, err = self.wf(*words)
            self.assertEqual(status, 3, words)
            self.assertIn(f"wf: {said}", err)

    def test_a_start_by_a_module_wants_the_arguments_of_its_workflow(self):
        for words, said in (([], "missing a required argument: 'name'"), (["a", "b"], "too many positional arguments")):
            status, _, err = self.wf("start", "greeting:hello", "argued-1", *words)
            self.assertEqual((status, said in err), (2, True), err)
        self.assertEqual(self.wf("describe", "argued-1")[0], 3)

    def test_a_task_that_no_worker_takes_and_a_timer_say_so(self):
        self.wf("start", "hello", "alone-1", "World", "--queue", "alone")
        self.assertRegex(self.wf("describe", "alone-1")[1], "workflow task .* waits for a worker in the queue alone, which no")
        self.assertIn("which no worker polls", self.wf("tasks", "alone")[1])
        self.wf("start", "rests", "rests-1")
        said = self.wait("describe", "rests-1", holds=lambda it: "fires at" in it[1])[1]
        self.assertRegex(said, "(?m)^timer +1 +.* fires at [0-9]{4}-")
        found = json.loads(self.wf("describe", "rests-1", "--json")[1])["pending"][0]
        self.assertEqual(found["due"] - found["since"], 3_600_000)

    def test_a_fault_is_json_where_json_is_asked_for(self):
        status, out, _ = self.wf("describe", "no-such", "--json")
        self.assertEqual(json.loads(out)["status"], status)

    def test_any_call(self):
        self.wf("execute", "hello", "called-1", "World")
        status, out, _ = self.wf("call", '{"op":"describe","workflow_id":"called-1"}')
        self.assertEqual((status, json.loads(out)["status"]), (0, "Completed"))
        self.assertEqual(self.wf("call", '{"op":"describe"}')[0], 4)

    def test_stored_histories_are_replayed_from_a_folder(self):
        folder = pathlib.Path("histories")
        folder.mkdir()
        self.wf("execute", "hello", "stored-1", "World")
        line = self.wf("call", '{"op":"history","workflow_id":"stored-1"}')[1]
        (folder / "a.jsonl").write_text(line, encoding="utf-8")
        (folder / "notes.txt").write_text("no history", encoding="utf-8")
        status, out, _ = ran("replay", "histories", "greeting:hello")
        self.assertEqual((status, out), (0, "greeting:hello agrees with 1 history of histories\n"))
        (folder / "a.jsonl").write_text(line.replace("World", "Moon", 1), encoding="utf-8")
        status, out, _ = ran("replay", "histories", "greeting:hello")
        self.assertEqual(status, 1)
        self.assertRegex(out, "^greeting:hello disagrees with histories: event 5: ")

    def test_a_long_argument_lies_beside_the_log_and_its_history_is_replayed_with_it(self):
        name = "World" * 2_000
        self.assertEqual(self.wf("execute", "hello", "long-1", name), (0, f"hello {name}\n", ""))
        self.assertEqual(self.wf("start", "hello", "long-1", name)[0], 0)
        line = self.wf("call", '{"op":"history","workflow_id":"long-1"}')[1]
        self.assertNotIn(name, line)
        pathlib.Path("long.jsonl").write_text(line, encoding="utf-8")
        said = (0, "greeting:hello agrees with 1 history of long.jsonl\n", "")
        self.assertEqual(ran("replay", "long.jsonl", "greeting:hello", "--blobs", f"{self.folder / 'log'}.blobs"), said)
        self.assertEqual(ran("replay", "long.jsonl", "greeting:hello", "--blobs", "nowhere")[0], 1)


@needs_program
@needs_server
class Compacts(unittest.TestCase):
    def test_a_log_that_nobody_serves_is_compacted(self):
        with memory_folder() as folder:
            log = pathlib.Path(folder) / "a log"
            write_log(log, [{"op": "start", "at": 1, "workflow_id": "w", "workflow_type": "T", "task_queue": "main"}])
            words = ["compact-log", str(log), "--program", str(BUILT)]
            status, out, err = ran(*words)
            self.assertEqual((status, err), (0, ""))
            self.assertRegex(out, r"^\d+ lines?, \d+ bytes; now \d+ bytes of snapshots\n$")
            self.assertTrue((log.parent / "a log.records-1/shard-00.snap").is_file())
            self.assertEqual(json.loads(ran(*words, "--json")[1])["ok"], "compacted")
            server = Server(str(BUILT), log)
            self.assertEqual(server.client().describe("w")["status"], "Running")
            # It is served by now, and waited for no longer than the edge waits for a log.
            status, _, err = ran(*words)
            self.assertEqual((status, "it is not served" in err), (2, True))
            server.stop()
        status, _, err = ran("compact-log", "/nowhere/a.log", "--program", str(BUILT))
        self.assertEqual((status, "there is no such log" in err), (2, True))


@needs_program
@needs_server
class DevServes(unittest.TestCase):
    def test_a_server_with_a_page(self):
        words = [ROOT / "wf", "dev", "--port", "0", "--program", str(BUILT)]
        served = subprocess.Popen(words, cwd="/", stdout=subprocess.PIPE, stderr=subprocess.PIPE, text=True)
        said = []
        reader = threading.Thread(target=lambda: said.append(served.stdout.readline()))
        reader.start()
        reader.join(60)
        served.terminate()
        _, err = served.communicate()
        self.assertRegex(said[0], r"^serving http://127\.0\.0\.1:\d+/\n$")
        self.assertEqual(served.returncode, 0)
        self.assertTrue(re.search("nothing is kept", err))


if __name__ == "__main__":
    unittest.main()
