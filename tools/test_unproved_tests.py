"""The tests that no proof covers, by programs that stand in: what fails, what is missing and what prints something else."""

import contextlib
import io
import sys
import unittest
from pathlib import Path

sys.path.insert(0, str(Path(__file__).resolve().parent))
import unproved_tests
from scratch import Scratch

TESTS = """#!/bin/sh
echo "assertion failed: $1"
[ "$1" != "$FAILS" ]
"""
PROGRAM = """#!/bin/sh
case $1 in
cases) cat "$2" "$3" ;;
compare) cat ;;
replies) echo "$REPLY_LINE" ;;
esac
exit "$STATUS"
"""
SOURCE = "#[test]\nfn one(rt: HostRuntime) {\n}\n\nfn helper() {}\n\n#[test]\nfn two(rt: HostRuntime) {\n}\n"


class Tests(Scratch):
    FILES = {
        "tests/below/leaves/numbers.rs": SOURCE, "tests/below/lib.rs": "mod leaves;\n", "bin/tests": TESTS,
        "bin/program": PROGRAM, "tests/above/main.rs": "", "tests/above/compare.stdin": "a line\n",
        "tests/above/compare.stdout": "a line\n", "tests/above/replies.stdout": "a reply\n",
        "tests/cases/args": "a.cases\nb.cases\n", "tests/cases/stdout": "a: ok\nb: ok\n", "tests/cases/data/a.cases": "a: ok\n",
        "tests/cases/data/b.cases": "b: ok\n", "crates.txt": "",
    }
    def setUp(self):
        super().setUp()
        self.replace(unproved_tests.build_program, ROOT=self.top)
        for name in ("tests", "program"):
            (self.top / "bin" / name).chmod(0o755)

    def functions(self, fails=""):
        with self.with_toolchain(FAILS=fails), contextlib.redirect_stdout(io.StringIO()) as out:
            command = [self.top / "bin/tests"]
            return unproved_tests.functions("tests_below", command, unproved_tests.tests_below()), out.getvalue()

    def rows(self, reply="a reply", status="0"):
        with self.with_toolchain(REPLY_LINE=reply, STATUS=status), contextlib.redirect_stdout(io.StringIO()):
            return unproved_tests.rows(self.top / "bin/program")

    def test_functions_that_pass_are_counted(self):
        self.assertEqual(self.functions(), ([], "unproved_tests: tests_below: 2 of 2 tests passed\n"))

    def test_a_function_that_fails(self):
        faults, said = self.functions(fails="leaves::numbers::two")
        self.assertEqual(faults, [
            "leaves::numbers::two: status 1\nassertion failed: leaves::numbers::two"])
        self.assertIn("1 of 2 tests passed", said)

    def test_no_function_at_all(self):
        (self.top / "tests/below/leaves/numbers.rs").write_text("")
        self.assertEqual(self.functions()[0], ["tests_below: the sources have no test"])

    def test_a_function_without_an_end(self):
        (self.top / "bin/tests").write_text("#!/bin/sh\nexec sleep 60\n")
        self.replace(unproved_tests, SECONDS=0.5)
        self.assertEqual(self.functions()[0][0], "leaves::numbers::one: no end within 0.5 s")

    def test_each_public_function_of_two_files_is_a_test(self):
        for file in ("calls", "scripts"):
            text = f"pub(crate) fn of_{file}<R>(rt: &R) {{\n}}\n\nfn helper() {{}}\n\npub(crate) fn last_{file}(rt: &R) {{}}\n"
            (self.top / f"tests/above/{file}.rs").write_text(text)
        self.assertEqual(unproved_tests.tests_above(), ["of_calls", "last_calls", "of_scripts", "last_scripts"])

    def test_what_the_program_prints(self):
        self.assertEqual(self.rows(), [])
        self.assertEqual(self.rows(reply="another"), ["replies: wanted a reply, got another"])
        self.assertEqual(self.rows(status="1"), [
            f"{mode}: wanted the end, got status 1" for mode in ("cases", "compare", "replies")])
        (self.top / "tests/cases/stdout").write_text("a: ok\nb: ok\nc: ok\n")
        self.assertEqual(self.rows(), ["cases: wanted c: ok, got the end"])

    def test_the_status(self):
        def none(name, tests=False):
            raise unproved_tests.unproved.NotBuilt("it does not compile")

        self.replace(unproved_tests, PARTS={"good": lambda: [], "bad": lambda: ["a fault"]})
        with contextlib.redirect_stdout(io.StringIO()), contextlib.redirect_stderr(io.StringIO()):
            self.assertEqual([unproved_tests.main(words) for words in (["good"], ["bad"], [], ["other"])], [0, 1, 1, 2])
            self.replace(unproved_tests.unproved, built=none)
            self.replace(unproved_tests, PARTS={"above": unproved_tests.above})
            self.assertEqual(unproved_tests.main([]), 2)


if __name__ == "__main__":
    unittest.main()
