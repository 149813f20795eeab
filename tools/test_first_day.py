"""The first day on a fresh Debian: what is typed there stands in the documents. The day itself is done by hand."""

import contextlib
import io
import sys
import unittest
from pathlib import Path

sys.path.insert(0, str(Path(__file__).resolve().parent))
import first_day


class Typed(unittest.TestCase):
    def test_each_command_stands_in_its_document(self):
        for document, typed in first_day.TYPED.items():
            for line in typed:
                self.assertIn(line, first_day.lines_of(document), document.name)

    def test_no_command_of_the_tutorial_is_left_out(self):
        """But the lines that set the path, which each of its shells has."""
        text = first_day.TUTORIAL.read_text(encoding="utf-8")
        written = {line for name in ("greeting.py", "test_greeting.py") for line in first_day.file_in(name).splitlines()}
        commands = [line for line in first_day.lines_of(first_day.TUTORIAL) if line not in written]
        self.assertEqual(commands[2], "export PATH=CLONE:$PATH PYTHONPATH=CLONE/clients/python/src")
        self.assertEqual(set(commands) - {commands[2]}, set(first_day.TYPED[first_day.TUTORIAL]))
        self.assertIn("clients/python/src", text)

    def test_files_are_those_of_the_tutorial(self):
        for name in ("greeting.py", "test_greeting.py"):
            compile(first_day.file_in(name), name, "exec")
        self.assertTrue(first_day.file_in("greeting.py").endswith("WORKFLOWS, ACTIVITIES = [greeting], [greet]\n"))
        self.assertNotIn("python3", first_day.file_in("test_greeting.py"))


class Refused(unittest.TestCase):
    def test_a_folder_that_is_there_is_not_written_to(self):
        said = io.StringIO()
        with contextlib.redirect_stderr(said):
            self.assertEqual(first_day.main([str(first_day.TOP)]), 2)
        self.assertIn("a folder that is not there", said.getvalue())


if __name__ == "__main__":
    unittest.main()
