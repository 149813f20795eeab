"""Cases as scripts: how they are read, and that a program which answers otherwise fails each form of one."""
from __future__ import annotations

import sys
import unittest
from pathlib import Path

sys.path.insert(0, str(Path(__file__).resolve().parent))
import case_rows
from case_rows import Case, Ended, cases_in, faults_of
from scratch import Scratch

TEXT = """\
What stands here is no case.
## a case
# a comment
$ --shards 2
$
> a
+ 2 b
* 2 #,
% 1 ff 0a
> c
@ cuts but 1
@ steps 2
< {"line":1}
<
! no
= 1
## by calls
@ start_task shard 0 run 1 event 2 attempt 1 at 0
"""
# Gives each line back, and fails where there is none. What it is given to save it saves.
ECHO = """\
#!/bin/sh
for word; do [ "$last" = --save ] && to=$word; last=$word; done
tee "${to:-.}/shard-00.rec"
"""


def cut_case() -> Case:
    """Two lines, whose replies are the lines."""
    lines = [bytearray(b"a"), bytearray(b"b")]
    return Case("file.cases", "two lines", lines=lines, whole_behind=[1], recorded=[2], wanted=["< a", "< b"])


class Reading(unittest.TestCase):
    def test_what_a_case_says(self) -> None:
        case, calls = cases_in("file.cases", TEXT)
        self.assertEqual((case.title, case.words), ("file.cases: a case", ["--shards", "2", ""]))
        self.assertEqual(case.script(0, 2), b"abb1,2,\xff\n\nc\n")
        self.assertEqual(case.script(1, 2), case_rows.BARRIER + b"c\n")
        self.assertEqual([case.is_cut_behind(line) for line in (1, 2)], [False, True])
        self.assertEqual((case.recorded, case.wanted, case.status), ([2], ['< {"line":1}', "<", "! no"], "1"))
        self.assertEqual((case.has_calls, calls.has_calls), (False, True))

    def test_a_line_that_says_nothing(self) -> None:
        for line in ("? what", "+ 1 b", "@ cut", "@ cuts but x", "@ room x", "% 1 no"):
            with self.subTest(line), self.assertRaises(SystemExit):
                cases_in("file.cases", f"## a case\n{line}\n")

    def test_all_cases_are_read(self) -> None:
        for name in (case_rows.CASES / "args").read_text().split():
            self.assertTrue(cases_in(name, (case_rows.CASES / "data" / name).read_text()))

    def test_a_transcript(self) -> None:
        ended = Ended(b"a\n\nb", b"c\n", 2)
        self.assertEqual(ended.transcript(), ["< a", "<", "< b", "! c", "= 2"])


class Failing(Scratch):
    FILES = {"cases/data/one/shard-00.rec": "", "program": ECHO, "other": "#!/bin/sh\ncat > /dev/null\n"}

    def setUp(self) -> None:
        super().setUp()
        self.replace(case_rows, CASES=self.top / "cases")
        for name in ("program", "other"):
            (self.top / name).chmod(0o755)

    def test_a_case_that_passes(self) -> None:
        case = cut_case()
        case.whole_behind = None
        self.assertEqual(faults_of(self.top / "program", case, set()), [])

    def test_each_form_fails(self) -> None:
        """The stub tells its barriers too, so what it answers behind a cut is another text, and saved otherwise."""
        self.assertEqual([fault.splitlines()[0] for fault in faults_of(self.top / "program", cut_case(), set())], [
            "file.cases: two lines: differs cut behind line 2", "file.cases: two lines: saved otherwise once it was loaded"])
        faults = [fault.splitlines()[0] for fault in faults_of(self.top / "other", cut_case(), set())]
        self.assertEqual(faults[:3], [f"file.cases: two lines: differs {by}" for by in (
            "as a script", "as a script without its last line feed", "cut behind line 2")])
        self.assertEqual(len(faults), 5)

    def test_other_numbers_of_steps(self) -> None:
        case = cut_case()
        case.recorded = [3]
        self.assertIn("file.cases: two lines: its records have other numbers of steps: [2]",
                      faults_of(self.top / "program", case, set()))

    def test_a_case_that_nobody_runs(self) -> None:
        case = cases_in("file.cases", TEXT)[1]
        program = self.top / "program"
        self.assertEqual(faults_of(program, case, {"file.cases: by calls"}), [])
        self.assertEqual(faults_of(program, case, set()), ["file.cases: by calls: it is run in no form"])
        self.assertEqual(case_rows.called_in("a: b: ok\na: c: by the program alone\n2 cases, 0 failed\n"), {"a: b"})


if __name__ == "__main__":
    unittest.main()
