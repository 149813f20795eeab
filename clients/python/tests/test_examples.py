"""The examples are cases of the gate: their lines stand there once more, and must be the same. And each case has
its line in what the program that runs them has to print."""

import subprocess
import unittest

from support import ROOT
from support.programs import BUILT, needs_program
from support.stored_cases import CASES, cases_of

# Of each example the file of cases, and the case's name.
EXAMPLES = {
    "order.jsonl": ("examples", "an order"),
    "payment.jsonl": ("examples", "a payment"),
    "provisioning.jsonl": ("examples", "a site"),
    "order_and_payment.jsonl": ("examples", "an order and its payment"),
    "signals.jsonl": ("examples", "a signal that is sent twice"),
    "retention.jsonl": ("examples", "an order that is kept for a day"),
    "start_and_history.jsonl": ("whole_workflows", "start and history"),
}


class Examples(unittest.TestCase):
    def test_each_example_is_a_case(self):
        self.assertEqual({path.name for path in (ROOT / "examples").iterdir()}, set(EXAMPLES))
        for example, (file, name) in EXAMPLES.items():
            lines = (ROOT / "examples" / example).read_text(encoding="utf-8").splitlines()
            self.assertEqual(cases_of(file)[name].lines, lines, example)

    @needs_program
    def test_each_example_is_answered_as_its_case(self):
        for example, (file, name) in EXAMPLES.items():
            with self.subTest(example=example):
                case = cases_of(file)[name]
                ran = subprocess.run(
                    [BUILT, *case.words, ROOT / "examples" / example], capture_output=True, text=True,
                )
                self.assertEqual(ran.stdout.splitlines(), case.replies)


class Cases(unittest.TestCase):
    def test_each_case_has_its_line_of_output(self):
        files = (CASES / "args").read_text(encoding="utf-8").split()
        self.assertEqual(set(files), {path.name for path in (CASES / "data").glob("*.cases")})
        cases = {f"{file}: {name}": case for file in files for name, case in cases_of(file.split(".")[0]).items()}
        *lines, last = (CASES / "stdout").read_text(encoding="utf-8").splitlines()
        self.assertEqual([line.rpartition(": ")[0] for line in lines], list(cases))
        self.assertEqual(last, f"{len(cases)} cases, 0 failed")
        for line in lines:
            title, _, outcome = line.rpartition(": ")
            # Calls can't make what stands in files or goes to several lanes, nor print to what gets full.
            alone = cases[title].words or title.endswith(": standard output that is full")
            self.assertIn(outcome, ("ok", "by the program alone") if alone else ("ok",), title)

    def test_no_file_has_two_cases_of_one_name(self):
        for path in (CASES / "data").glob("*.cases"):
            names = [line for line in path.read_text(encoding="utf-8").splitlines() if line.startswith("## ")]
            self.assertEqual(len(names), len(set(names)), path.name)


if __name__ == "__main__":
    unittest.main()
