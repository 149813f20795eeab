"""The gate's phases begin once what they need is there, and its last lines say how each ended and what could not be done."""
from __future__ import annotations

import contextlib
import io
import os
import subprocess
import sys
import time
import unittest
import unittest.mock
from pathlib import Path

sys.path.insert(0, str(Path(__file__).resolve().parent))
import gate_phases
import gate_progress
import gate_run
import tried
from gate_phases import Follower, Gate, Phase, Proofs
from scratch import Scratch

BELOW = {"low": [], "lanes": ["low", "json"], "beside": ["low"], "top": ["lanes", "beside"]}
# What it is asked for, and when something of it is through, is written into a file, in the order in which it happened.
RT = """#!/bin/sh
# Waits for a file, at most some seconds.
wait_for() {
    left=600
    while [ ! -e "$1" ] && [ $left -gt 0 ]; do sleep 0.05; left=$((left - 1)); done
}
echo "rt $*, ${RT_JOBS:-no jobs}, ${CI:-no CI}" >> "$SEEN"
if [ $# -gt 1 ]; then
    echo "rt: low proved"
    [ -z "$FIRST_WAITS" ] || { wait_for "$SEEN.$FIRST_WAITS"; sleep 0.5; }
    echo "1 passed, 0 failed (low and the crates below alone: not the gate)"
    exit 0
fi
echo "rt: low is kept: an earlier run"
wait_for "$SEEN.quick"
sleep "${LANES_AFTER:-0}"
echo "rt: lanes proved"
echo "lanes is through" >> "$SEEN"
[ -z "$WAITS" ] || wait_for "$SEEN.$WAITS"
echo "rt: top ${TOP_IS:-proved}"
echo "all is through" >> "$SEEN"
echo "${LAST:-4 passed, 0 failed}"
exit ${STATUS:-0}
"""
GATE = """
import os, sys, time
name, seen = sys.argv[1], os.environ["SEEN"]
with open(seen, "a") as out:
    out.write(f"{name} begins\\n")
print(f"== {name}", flush=True)
if name == os.environ.get("HANGS"):
    # As a command with a limit on its time, which has a group of its own.
    import subprocess
    child = subprocess.Popen(["timeout", "100", "sleep", "99"])
    open(f"{seen}.pid", "w").write(f"{os.getpid()} {child.pid}")
    child.wait()
if "HANGS" in os.environ and name == os.environ.get("FAILS"):
    # It fails once the other one hangs.
    late = time.monotonic() + 30
    while not os.path.exists(f"{seen}.pid") and time.monotonic() < late:
        time.sleep(0.05)
    time.sleep(0.2)
if name == os.environ.get("LACKS"):
    print("gate: could not be done here: its browser: chromium is not here")
open(f"{seen}.{name}", "w").close()
print("rt: low: trying its must-fail edits (3)" if name == "bodies" else "", flush=True)
sys.exit(name == os.environ.get("FAILS"))
"""
PHASES = (Phase("quick", ("quick",), ends_all=True), Phase("early", ("early",), crates=("lanes",)),
          Phase("later", ("later",), after=("early",)), Phase("last", ("last",), after=(gate_run.PROOFS,)))


class Runs(unittest.TestCase):
    def runs(self, processors: int = 4, gib: int = 24, can_keep: bool = True) -> list[Proofs]:
        with unittest.mock.patch.dict(os.environ):
            os.environ.pop("RT_JOBS", None)
            return gate_run.runs_of_proofs(BELOW, processors, gib, can_keep)

    def test_on_four_processors_the_last_of_the_chain_are_left_to_a_second_run(self) -> None:
        self.assertEqual(self.runs(), [
            Proofs("first proofs", ("low", "beside"), (("RT_JOBS", "4"), ("CI", ""))), Proofs("proofs")])

    def test_on_two_or_where_nothing_is_kept_one_run_gives_each_crate_one_job(self) -> None:
        for processors, can_keep in ((2, True), (4, False)):
            self.assertEqual(self.runs(processors, 24, can_keep), [Proofs("proofs", (), (("RT_JOBS", str(processors)),))])

    def test_with_little_memory_or_jobs_that_are_given_the_toolchain_chooses(self) -> None:
        self.assertEqual(self.runs(4, 15), [Proofs("proofs")])
        with unittest.mock.patch.dict(os.environ, RT_JOBS="3"):
            self.assertEqual(gate_run.runs_of_proofs(BELOW, 4, 24, True), [Proofs("proofs")])

    def test_the_model_has_each_crate_in_the_run_that_proves_it(self) -> None:
        with unittest.mock.patch.dict(os.environ):
            os.environ.pop("RT_JOBS", None)
            stages = gate_run.model_of(self.runs(), BELOW, 4).stages
        self.assertEqual([(stage.crates, stage.gets_jobs) for stage in stages],
                         [(("low", "beside"), False), (("lanes", "top"), True)])

    def test_this_tree_has_such_a_chain(self) -> None:
        _, below = gate_run.build_program.lines_of_crates()
        first, whole = gate_run.runs_of_proofs(below, 4, 24, True)
        self.assertEqual(whole.crates, ())
        left = [name for name in below if name not in first.crates]
        self.assertTrue({"lanes", "checkpoints", "wfserve_run", "wfserve"} <= {*left})
        for name in first.crates:
            self.assertEqual([other for other in below[name] if other in left], [])


class Reckoned(unittest.TestCase):
    def test_two_runs_gain_on_four_processors_of_this_tree(self) -> None:
        printed = subprocess.run([sys.executable, gate_run.__file__, "--model"], capture_output=True, text=True, check=True).stdout
        lines = dict(line.split(": ") for line in printed.splitlines())
        self.assertRegex(lines["2 processors"], r"^one run \d+$")
        minutes = dict(part.rsplit(" ", 1) for part in lines["4 processors"].split(", "))
        self.assertLess(int(minutes[f"cut at {gate_run.LAST_FROM}"]), int(minutes["one run"]))
        self.assertEqual(len(minutes), 1 + len(gate_run.CUTS))


class Bodies(unittest.TestCase):
    def phases(self, runs: list[Proofs]) -> list[Phase]:
        due = {"low": "it changed", "lanes": "it changed", "top": "it waited"}
        with contextlib.ExitStack() as stack:
            for name, value in {"due": due, "read": {}, "next_run": 7}.items():
                stack.enter_context(unittest.mock.patch.object(tried, name, return_value=value))
            stack.enter_context(contextlib.redirect_stdout(io.StringIO()))
            return gate_run.bodies_of(runs)

    def test_they_come_behind_the_run_that_proves_their_crate_as_one_run_of_the_note(self) -> None:
        phases = self.phases([Proofs(gate_run.FIRST, ("low", "beside")), Proofs(gate_run.PROOFS)])
        self.assertEqual([(phase.words, phase.after, phase.is_nice) for phase in phases], [
            (("bodies", "--run", "7", "low"), (gate_run.FIRST,), True),
            (("bodies", "--run", "7", "lanes", "top"), (gate_run.PROOFS,), True)])
        self.assertEqual([phase.words[3:] for phase in self.phases([Proofs(gate_run.PROOFS)])], [("lanes", "low", "top")])


class Run(Scratch):
    FILES = {"tools/gate": GATE, "tools/tried.txt": ""}
    RT = RT

    def setUp(self) -> None:
        super().setUp()
        self.seen = self.top / "seen"
        self.replace(gate_phases, TOP=self.top, A_SECOND=0.05)
        self.replace(gate_run, TOP=self.top)
        subprocess.run(["git", "init", "-q"], cwd=self.top, check=True)

    def ran(self, *phases: Phase, **variables: str) -> tuple[int, list[str], list[str]]:
        """The status of a run, what it said, and what began and was through, in order."""
        runs = [Proofs(gate_run.FIRST, ("low", "beside"), (("RT_JOBS", "4"), ("CI", ""))), Proofs(gate_run.PROOFS)]
        with self.with_toolchain(**{"SEEN": str(self.seen), "CI": "true", **variables}):
            os.environ.pop("RT_JOBS", None)
            with contextlib.redirect_stdout(io.StringIO()) as out:
                progress = gate_progress.Progress(BELOW)
                gate = Gate([*(phases or PHASES)], Follower(runs, progress, gate_run.PROOFS), lambda: "gate: goes on")
                gate.go()
                status = gate_run.tell(gate, 12.0, variables.get("WHY", ""))
        return status, out.getvalue().splitlines(), self.seen.read_text(encoding="utf-8").splitlines()

    def test_each_phase_begins_once_what_it_needs_is_there(self) -> None:
        status, said, seen = self.ran(*PHASES, WAITS="later", LANES_AFTER="0.7")
        self.assertEqual(status, 0, said)
        self.assertLess(seen.index("lanes is through"), seen.index("early begins"))
        self.assertLess(seen.index("early begins"), seen.index("later begins"))
        self.assertLess(seen.index("later begins"), seen.index("all is through"))
        self.assertLess(seen.index("all is through"), seen.index("last begins"))
        self.assertEqual(said[-1], "4 passed, 0 failed")

    def test_the_first_run_has_names_and_jobs_and_the_second_one_neither(self) -> None:
        _, _, seen = self.ran()
        self.assertEqual([line for line in seen if line.startswith("rt ")],
                         ["rt ci low beside, 4, no CI", "rt ci, no jobs, true"])

    def test_a_program_of_the_first_run_is_not_in_this_tree(self) -> None:
        # The first run says that it has proved it, and waits for the quick phase to end before the second one says so.
        early, quick = Phase("early", ("early",), crates=("low",)), Phase("quick", ("quick",), after=(gate_run.FIRST,))
        _, _, seen = self.ran(early, quick, Phase("first", ("first",)), FIRST_WAITS="first")
        self.assertLess(seen.index("rt ci, no jobs, true"), seen.index("early begins"))

    def test_a_table_has_how_each_ended(self) -> None:
        _, said, _ = self.ran(Phase("wrong bodies", ("bodies",), after=(gate_run.FIRST,)), *PHASES)
        table = said[said.index("|---|---|---|"):]
        for row in ("| quick | 0 | passed |", "| wrong bodies | 0 | passed |", "| last | 0 | passed |",
                    "| proofs | 0 | 4 passed, 0 failed |"):
            self.assertIn(row, table)
        self.assertRegex("\n".join(table), r"\n\| unknown \| not measured \| 12 \| \d+ \| 3 \| 0 of 4 \|\n")

    def test_a_row_of_a_run_that_ended_early_says_so(self) -> None:
        self.assertRegex(gate_run.row_of(12.4, 0, "rt: stopped\n"), r"^\| unknown \| not measured \| 12 \| \d+ \| 0 \| ended early \|$")
        self.assertRegex(gate_run.row_of(12.4, 2, "1 passed, 2 failed\n"), r"\| 2 \| 2 of 3 \|$")

    def test_a_phase_that_fails_fails_the_gate_and_those_behind_it_are_not_run(self) -> None:
        status, said, seen = self.ran(FAILS="early")
        self.assertEqual(status, 1)
        self.assertIn("| early | 0 | FAILED |", said)
        self.assertIn("| later | 0 | not run |", said)
        self.assertIn("last begins", seen)
        self.assertEqual(said[-1], "4 passed, 0 failed")

    def test_proofs_that_fail_are_the_status_and_nothing_that_needs_them_begins(self) -> None:
        status, said, seen = self.ran(STATUS="3", LAST="3 passed, 1 failed", TOP_IS="NOT PROVED")
        self.assertEqual((status, said[-1]), (3, "3 passed, 1 failed"))
        self.assertIn("| last | 0 | not run |", said)
        self.assertNotIn("last begins", seen)

    def test_the_quick_phase_ends_all_that_runs(self) -> None:
        began = time.monotonic()
        hangs = Phase("hanging", ("hanging",))
        status, said, _ = self.ran(hangs, *PHASES, FAILS="quick", HANGS="hanging", WAITS="never")
        self.assertLess(time.monotonic() - began, 60)
        self.assertEqual(status, 1)
        self.assertIn("gate: FAILED: the quick phase, and with it all ended", said)
        for pid in (self.top / "seen.pid").read_text(encoding="utf-8").split():
            # One that its parent can't wait for any more is a zombie until it is reaped.
            stat = Path("/proc", pid, "stat")
            self.assertTrue(not stat.exists() or ") Z " in stat.read_text(encoding="utf-8"), pid)

    def test_what_could_not_be_done_and_not_be_installed_is_said_last_by_name(self) -> None:
        status, said, _ = self.ran(LACKS="early", WHY="apt-get update ended with status 100")
        self.assertEqual(status, 0)
        self.assertEqual(said[-4:-2], ["gate: not all that the phases need was installed: apt-get update ended with status 100",
                                       "gate: could not be done here: its browser: chromium is not here"])

    def test_a_note_that_changed_wants_to_be_committed(self) -> None:
        said = "tools/tried.txt says now what this run tried: commit it with what it ran over"
        self.assertIn(said, self.ran()[1])
        for call in (["add", "-A"], ["-c", "user.name=a", "-c", "user.email=b", "commit", "-q", "-m", "all"]):
            subprocess.run(["git", *call], cwd=self.top, check=True)
        self.assertNotIn(said, self.ran()[1])


if __name__ == "__main__":
    unittest.main()
