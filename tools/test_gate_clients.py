"""Which modules of the client's tests the gate runs with the program, and what is said of such a run."""
from __future__ import annotations

import os
import re
import subprocess
import sys
import time
import unittest
from pathlib import Path

sys.path.insert(0, str(Path(__file__).resolve().parent))
import gate_clients
from scratch import Scratch

OF_CLASS = """
import unittest
from support.programs import BUILT, needs_program

@needs_program
class Served(unittest.TestCase):
    def test_that_it_is_there(self):
        self.assertTrue(BUILT.is_file())
"""
OF_METHOD = """
import unittest
from support.programs import needs_program

class Mixed(unittest.TestCase):
    def test_without(self):
        pass

    @unittest.skip("there is no browser")
    @needs_program
    def test_with(self):
        pass
"""
ALONE = """
import unittest

class Alone(unittest.TestCase):
    def test_nothing(self):
        self.fail("it wants no program")
"""
OF_SERVER = """
import unittest
from support.programs import needs_program

@needs_program
class OverAServer(unittest.TestCase):
    wants_server = True

    def test_that_is_left_out(self):
        self.fail("another phase runs it")
"""
HANGS = """
import time, unittest
from support.programs import needs_program

class Hanging(unittest.TestCase):
    @needs_program
    def test_that_hangs(self):
        time.sleep(100)
"""
HEIR = """
import test_of_class

class Heir(test_of_class.Served):
    pass
"""
FILES = {
    "tests/support/__init__.py": "import pathlib\nROOT = pathlib.Path('/nowhere')\n",
    "tests/support/programs.py": (gate_clients.TESTS / "support/programs.py").read_text(encoding="utf-8"),
    "tests/test_of_class.py": OF_CLASS,
    "tests/test_of_method.py": OF_METHOD,
    "tests/test_alone.py": ALONE,
    "tests/test_heir.py": HEIR,
    "tests/test_of_server.py": OF_SERVER,
}


class Chosen(Scratch):
    FILES = FILES

    def ran(self, program: str) -> subprocess.CompletedProcess[str]:
        folder = self.top / "tests"
        return subprocess.run(gate_clients.command(folder), cwd=folder, env={**os.environ, "WFSERVE": program},
                              capture_output=True, text=True, timeout=120)

    def test_marked_classes_methods_and_heirs_are_run_and_no_others(self) -> None:
        ran = self.ran(sys.executable)
        self.assertEqual(ran.returncode, 0, ran.stderr)
        self.assertEqual(ran.stdout.splitlines(), [
            "gate: 4 tests of 4 modules want the program",
            "gate: 1 tests that want a server are left to tools/gate edge",
            "gate: skipped: 1 of test_of_method.Mixed: there is no browser",
        ])

    def test_one_that_fails_and_one_that_can_not_be_loaded_are_told_by_the_status(self) -> None:
        (self.top / "tests/test_of_class.py").write_text(OF_CLASS.replace("assertTrue", "assertFalse"), encoding="utf-8")
        self.assertEqual(self.ran(sys.executable).returncode, 1)
        (self.top / "tests/test_more.py").write_text("import no_such_module\n", encoding="utf-8")
        ran = self.ran(sys.executable)
        self.assertEqual((ran.returncode, ran.stdout), (1, ""))
        self.assertIn("no_such_module", ran.stderr)

    def test_where_their_time_is_over_the_test_that_runs_is_told(self) -> None:
        (self.top / "tests/test_hangs.py").write_text(HANGS, encoding="utf-8")
        code = ("import sys; from pathlib import Path; import gate_clients\n"
                "sys.exit(gate_clients.phase(Path(sys.executable), Path(sys.argv[1]), 8))")
        ran = subprocess.run([sys.executable, "-c", code, self.top / "tests"], cwd=gate_clients.TOP / "tools",
                             capture_output=True, text=True, timeout=120)
        self.assertEqual(ran.returncode, 1, ran.stderr)
        self.assertRegex(ran.stderr, "test_hangs.py\", line \\d+ in test_that_hangs\n")
        self.assertIn("Timeout (0:00:08)!", ran.stderr)

    def test_those_that_took_long_are_named(self) -> None:
        parts = [gate_clients.OfModule(name, []) for name in ("test_a", "test_b", "test_c")]
        for part, seconds in zip(parts, (gate_clients.SLOW, 0.5, 61)):
            part.seconds = seconds
        self.assertEqual(gate_clients.slow(parts), ["61 s of test_c", "10 s of test_a"])

        class Sleeping(unittest.TestCase):
            def runTest(self) -> None:
                time.sleep(0.05)

        part = gate_clients.OfModule(__name__, [Sleeping(), Sleeping()])
        self.assertTrue(part.run(unittest.TestResult()).wasSuccessful())
        self.assertGreaterEqual(part.seconds, 0.1)

    def test_without_a_program_nothing_is_run(self) -> None:
        ran = self.ran(str(self.top / "none"))
        self.assertEqual((ran.returncode, ran.stdout), (2, ""))
        self.assertIn("WFSERVE names no program", ran.stderr)


class OfTheClient(unittest.TestCase):
    """The rule finds all that is there, and nothing of it escapes."""

    def test_each_module_that_uses_the_mark_is_found(self) -> None:
        listed = subprocess.run([sys.executable, gate_clients.__file__], capture_output=True, text=True, check=True)
        texts = {path.stem: path.read_text(encoding="utf-8") for path in gate_clients.TESTS.glob("test_*.py")}
        marked = {name for name, text in texts.items() if re.search(r"^\s*@needs_program$", text, re.MULTILINE)}
        self.assertGreater(len(marked), 30)
        self.assertEqual(marked - set(listed.stdout.split()), set())
        # Those that want a server are marked too, for the phase that builds one.
        served = {name for name, text in texts.items() if re.search(r"^\s*@needs_server$", text, re.MULTILINE)}
        self.assertGreater(len(served), 15)
        # No test looks by itself whether the program is there: it would be skipped without a mark.
        looking = re.compile(r"(BUILT|EDGE)\.(exists|is_file)\(|os\.environ\.get\(\"WFSERVE\"")
        self.assertEqual([name for name, text in texts.items() if looking.search(text)], [])


if __name__ == "__main__":
    unittest.main()
