"""docs/TUTORIAL.md, done word by word: its files are written, its commands run, and the plug is pulled."""

import os
import pathlib
import re
import signal
import subprocess
import sys
import time
import unittest

from support import CLIENT, ROOT
from support.programs import BUILT, memory_folder, needs_program, needs_server
from support.served import Server

TUTORIAL = (ROOT / "docs/TUTORIAL.md").read_text(encoding="utf-8")
# So long the workflow waits there, and here.
WAITS, SHORT = "seconds(20)", "seconds(3)"


def file_in(name):
    """The text of a file that the tutorial has: the lines that follow the word to write it."""
    lines = TUTORIAL.split(f"Write {name}:\n\n")[1].split("\n")
    end = next(number for number, line in enumerate(lines) if line and not line.startswith("    "))
    text = "\n".join(line[4:] for line in lines[:end])
    # A command may follow in the same block, after an empty line.
    return re.sub(r"\n\n+python3 [^\n]*\n*$", "\n", text)


class Steps(unittest.TestCase):
    def test_each_file_is_python_and_each_command_is_one_of_wf(self):
        from wfserve.cli.commands import COMMANDS

        for name in ("greeting.py", "test_greeting.py"):
            compile(file_in(name), name, "exec")
        commands = re.findall(r"(?m)^    (?:\./)?wf ([a-z]+)", TUTORIAL)
        self.assertEqual(commands, ["dev", "work", "start", "describe", "result", "start", "describe", "result"])
        self.assertLessEqual(set(commands), set(COMMANDS))


@needs_program
@needs_server
class Done(unittest.TestCase):
    def setUp(self):
        folder = memory_folder()
        self.addCleanup(folder.cleanup)
        self.folder = pathlib.Path(folder.name)
        for name in ("greeting.py", "test_greeting.py"):
            text = file_in(name).replace(WAITS, SHORT)
            self.assertIn(SHORT, text)
            (self.folder / name).write_text(text, encoding="utf-8")
        self.server = Server(str(BUILT), self.folder / "greetings.log")
        self.addCleanup(self.server.stop)
        self.environment = {
            **os.environ, "PYTHONPATH": str(CLIENT / "src"), "WFSERVE": str(BUILT), "WFSERVE_URL": self.server.url.rstrip("/"),
        }

    def wf(self, line):
        """What a command of the tutorial prints, which has it as it stands here."""
        self.assertIn(f"    {line}\n", TUTORIAL)
        words = [sys.executable, "-m", "wfserve.cli", *line.split()[1:]]
        return subprocess.run(words, cwd=self.folder, env=self.environment, stdout=subprocess.PIPE, text=True, check=True).stdout

    def work(self):
        """A worker, once it has said that it works."""
        words = [sys.executable, "-m", "wfserve.cli", "work", "greeting"]
        worker = subprocess.Popen(words, cwd=self.folder, env=self.environment, stdout=subprocess.PIPE, text=True)
        self.addCleanup(self.end, worker)
        self.assertIn("working on main", worker.stdout.readline())
        return worker

    def end(self, worker):
        worker.kill()
        worker.communicate()

    def until_it_rests(self, line):
        """Waits until the activity is done. Whether the workflow is done too, as on a machine that is very busy."""
        late = time.monotonic() + 60
        while not re.search("fires at|Completed", said := self.wf(line)):
            self.assertLess(time.monotonic(), late, said)
            time.sleep(0.05)
        return "Completed" in said

    def test_a_workflow_of_ones_own_survives_a_kill(self):
        worker = self.work()
        self.assertRegex(self.wf("wf start greeting:greeting hello-1 World"), "^[0-9a-f-]{36}\n$")
        self.until_it_rests("wf describe hello-1")
        self.assertEqual(self.wf("wf result hello-1"), "Hello, World\n")
        self.assertEqual(worker.stdout.readline(), "greeting World\n")
        self.wf("wf start greeting:greeting hello-2 World")
        self.assertEqual(worker.stdout.readline(), "greeting World\n")
        is_done = self.until_it_rests("wf describe hello-2")
        worker.send_signal(signal.SIGKILL)
        self.server.kill()
        self.server.start()
        self.assertIn("Completed" if is_done else "Running", self.wf("wf describe hello-2"))
        worker = self.work()
        self.assertEqual(self.wf("wf result hello-2"), "Hello, World\n")
        # The greeting was made once: the second worker prints nothing.
        worker.terminate()
        self.assertEqual(worker.communicate(timeout=60)[0], "")

    def test_the_test_passes(self):
        line = "python3 -m unittest test_greeting"
        self.assertIn(f"    {line}\n", TUTORIAL)
        words = [sys.executable, *line.split()[1:]]
        ran = subprocess.run(words, cwd=self.folder, env=self.environment, stderr=subprocess.PIPE, text=True)
        self.assertIn("Ran 1 test", ran.stderr)
        self.assertEqual(ran.returncode, 0, ran.stderr)


if __name__ == "__main__":
    unittest.main()
