"""Cases before a proof, by a program that stands in and prints what a test says."""

import contextlib
import io
import sys
import unittest
from pathlib import Path

sys.path.insert(0, str(Path(__file__).resolve().parent))
import try_cases
from scratch import Scratch

# Prints what is in a file, once the files that its arguments name are there.
PROGRAM = """#!/bin/sh
[ "$1" = cases ] && shift && cat "$@" one/shard-00.rec > /dev/null && cat "$PRINTS"
"""
STDOUT = "starts.cases: a start: ok\nstarts.cases: a second: ok\nlines.cases: a line: ok\n3 cases, 0 failed\n"
PASSED = "starts.cases: a start: ok\nstarts.cases: a second: ok\n2 cases, 0 failed\n"


class Cases(Scratch):
    FILES = {
        "cases/stdout": STDOUT, "cases/args": "starts.cases\nlines.cases\n", "cases/data/lines.cases": "",
        "cases/data/starts.cases": "## a start\n", "cases/data/one/shard-00.rec": "", "program": PROGRAM,
    }

    def setUp(self):
        super().setUp()
        self.differs: list[str] = []
        (self.top / "program").chmod(0o755)
        self.replace(try_cases, CASES=self.top / "cases")
        self.replace(try_cases.unproved, built=lambda name, **_: self.top / "program")
        self.replace(try_cases.case_rows, faults_in=lambda program, names: (len(names), self.differs))

    def ran(self, *words: str, prints: str = PASSED) -> tuple:
        (self.top / "prints").write_text(prints, encoding="utf-8")
        with self.with_toolchain(PRINTS=str(self.top / "prints")):
            with contextlib.redirect_stdout(io.StringIO()) as out, contextlib.redirect_stderr(io.StringIO()):
                status = try_cases.main(list(words))
        return status, out.getvalue().splitlines()

    def test_cases_that_pass(self):
        self.assertEqual(self.ran("starts"), (0, ["2 cases passed, none of them proved"]))
        self.assertEqual(self.ran("starts.cases")[0], 0)
        self.assertEqual(self.ran(prints=STDOUT), (0, ["3 cases passed, none of them proved"]))

    def test_a_case_that_fails_or_is_missing(self):
        failed = PASSED.replace("a second: ok", "a second: line 2 of the replies differs")
        self.assertEqual(self.ran("starts", prints=failed), (
            1, ["starts.cases: a second: line 2 of the replies differs", "missing: starts.cases: a second: ok"]))
        self.assertEqual(self.ran(), (1, ["missing: lines.cases: a line: ok"]))

    def test_a_case_that_fails_as_a_script(self):
        self.differs = ["starts.cases: a start: differs as a script"]
        self.assertEqual(self.ran("starts"), (1, self.differs))

    def test_what_can_not_be_run(self):
        def none(name, **_):
            raise try_cases.unproved.NotBuilt("it does not compile")

        self.assertEqual(self.ran("start")[0], 2)
        self.replace(try_cases.unproved, built=none)
        self.assertEqual(self.ran("starts")[0], 2)


if __name__ == "__main__":
    unittest.main()
