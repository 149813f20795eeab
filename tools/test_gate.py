"""Phases of the gate, with a toolchain that only says what it was asked."""

import contextlib
import importlib.machinery
import importlib.util
import io
import os
import subprocess
import sys
import tempfile
import time
import unittest
import unittest.mock
from pathlib import Path

TOOLS = Path(__file__).resolve().parent
sys.path.insert(0, str(TOOLS))
LOADER = importlib.machinery.SourceFileLoader("gate", str(TOOLS / "gate"))
gate = importlib.util.module_from_spec(importlib.util.spec_from_loader("gate", LOADER))
sys.dont_write_bytecode = True
LOADER.exec_module(gate)

SAID = """rt: low is kept: an earlier run on this machine proved the same files over the same libraries
== high
fn high::call: proved
rt: high proved
rt: high: its tests are NOT PROVED
rt: high: trying its must-fail edits (2)
rt: wide NOT PROVED: its library high failed
2 passed, 1 failed
"""
# What it is called with comes first, so that what it prints last is what the caller has to end with.
RT = """#!/bin/sh
if [ "$1" = version ]; then echo "kit 1"; exit 0; fi
echo "asked: $*"
printf '%s' "$SAID"
exit 3
"""


class Followed(unittest.TestCase):
    def test_what_is_proved_and_what_is_not(self):
        progress = gate.Progress(["low", "high", "wide", "last"])
        self.assertEqual(str(progress), "0 of 4 crates proved")
        for line in SAID.splitlines():
            progress.note(line)
        self.assertEqual(str(progress), "2 of 4 crates proved, 1 of them by an earlier run, NOT PROVED: wide")

    def test_lines_are_handed_on_and_how_far_it_is_is_said_meanwhile(self):
        progress, out, error = gate.Progress(["low", "high"]), io.StringIO(), io.StringIO()

        def lines():
            for line in SAID.splitlines(keepends=True):
                yield line
            given_up = time.monotonic() + 60
            while "2 of 2 crates proved" not in error.getvalue() and time.monotonic() < given_up:
                time.sleep(0.01)

        with contextlib.redirect_stderr(error):
            gate.follow(lines(), out, progress, every=0.01)
        self.assertEqual(out.getvalue(), SAID)
        self.assertRegex(error.getvalue(), r"gate: 2 of 2 crates proved, 1 of them by an earlier run.* in 0 min\n")


class Run(unittest.TestCase):
    """The gate as a program."""

    def setUp(self):
        folder = tempfile.TemporaryDirectory()
        self.addCleanup(folder.cleanup)
        self.folder = folder.name
        toolchain = Path(self.folder, "rt")
        toolchain.write_text(RT)
        toolchain.chmod(0o755)

    def ran(self, *words, path=None, text=""):
        where = {"PATH": f"{self.folder}:{os.environ['PATH']}" if path is None else path, "SAID": SAID}
        return subprocess.run([sys.executable, str(TOOLS / "gate"), *words], input=text, capture_output=True, text=True,
                              env={**os.environ, **where}, timeout=120)

    def test_proofs_end_with_the_status_and_the_last_line_of_the_toolchain(self):
        ran = self.ran("proofs")
        self.assertEqual((ran.returncode, ran.stdout), (3, "asked: ci\n" + SAID))

    def test_crates_are_proved_in_a_copy_and_what_was_not_tried_there_is_named(self):
        ran = self.ran("crate", "retry", "timeouts")
        self.assertEqual((ran.returncode, ran.stdout.count("asked: ci\n" + SAID)), (1, 1))
        before, _, _ = ran.stdout.partition("asked: ci")
        self.assertRegex(before, r"^gate: the proofs of \d+ crates take \d+ min of a processor, less .*, and wrong bodies \d+ min\n"
                                 r"gate: with other contracts, .*, \d+ crates above are proved again too, in \d+ min\n"
                                 r"gate:   mutable_state, \d+ min\n(?:gate:   .*\n)*gate:   wfserve, \d+ s\n")
        self.assertRegex(ran.stdout, r"gate: FAILED: (\d+) of \1 wrong bodies were not refused, or not tried: retry/")
        self.assertEqual(ran.stdout.splitlines()[-1], "gate: FAILED: rt ci over the copy ended with status 3")

    def test_lines_of_another_run_are_handed_on(self):
        ran = self.ran("follow", text=SAID)
        self.assertEqual((ran.returncode, ran.stdout), (0, SAID))

    def test_what_can_not_be_run_is_said(self):
        for words, path, said in [
            (["crate", "shrd"], None, "crates.txt has no crate shrd"),
            (["proofs"], self.folder + "/none", "there is no rt here"),
            (["everything"], None, "invalid choice"),
        ]:
            with self.subTest(words=words):
                ran = self.ran(*words, path=path)
                self.assertEqual((ran.returncode, ran.stdout), (2, ""))
                self.assertIn(said, ran.stderr)

    def test_an_edge_that_can_not_be_built_is_skipped_by_name(self):
        for phase in (gate.edge, gate.edge_sockets, gate.gate_edge.build):
            out = io.StringIO()
            with contextlib.redirect_stdout(out), unittest.mock.patch.object(gate.gate_edge, "REGISTRY", Path(self.folder)):
                self.assertEqual(phase(), 0)
            self.assertRegex(out.getvalue(), "skipped: the compiled edge: .*the crate tokio, no the crate hyper")

    def test_each_quick_part_runs_after_one_that_failed(self):
        out = io.StringIO()
        statuses = {"a": 0, "b": 1, "c": 5, "d": 0}
        parts = [(name, ".", ["sh", "-c", f"exit {status}"]) for name, status in statuses.items()]
        nothing = unittest.mock.patch.object(gate, "CHECKED", ())
        with contextlib.redirect_stdout(out), nothing, unittest.mock.patch.object(gate, "QUICK", parts):
            self.assertEqual(gate.quick(), 1)
        self.assertTrue(out.getvalue().endswith("gate: FAILED: b, c\n"), out.getvalue())
        with contextlib.redirect_stdout(out), nothing, unittest.mock.patch.object(gate, "QUICK", parts[:1]):
            self.assertEqual(gate.quick(), 0)

    def test_what_a_check_needs_and_is_not_there_is_said(self):
        parts = [("types", ".", ["false"]), ("names", ".", ["no-such-program", "src"])]
        out = io.StringIO()
        with contextlib.redirect_stdout(out), unittest.mock.patch.object(gate, "QUICK", ()):
            with unittest.mock.patch.object(gate, "CHECKED", parts):
                self.assertEqual(gate.quick(), 1)
        self.assertEqual(out.getvalue(), "== types\ngate: skipped: names: there is no no-such-program here\ngate: FAILED: types\n")


if __name__ == "__main__":
    unittest.main()
