"""tools/timeline.py, ./serve and ./try: what they draw, build and hand on. No proof is run: the toolchain and the
build are stood in for by scripts that write down how they were called."""

import json
import os
import pathlib
import re
import shutil
import subprocess
import sys
import tempfile
import unittest
import xml.etree.ElementTree as xml

from support import ROOT, add_tools
from support.programs import BUILT, needs_program
from support.stored_cases import cases_of
from wfserve import picture as timeline

add_tools()
import build_program


def replies_of_case(file, name):
    return cases_of(file)[name].replies


def run(words, **more):
    return subprocess.run([str(word) for word in words], capture_output=True, text=True, **more)


class Timeline(unittest.TestCase):
    def drawn(self, lines):
        return run([sys.executable, ROOT / "tools/timeline.py"], input="".join(f"{line}\n" for line in lines))

    def test_bars_go_from_what_opened_to_what_ended(self):
        events = json.loads(replies_of_case("examples", "an order")[-1])["events"]
        bars = {event: (bar.kind, bar.begin, bar.taken, bar.end, bar.attempt)
                for event, bar in timeline.bars_of(events).items()}
        self.assertEqual(bars, {
            2: ("task", 0, 0, 0, 1),
            5: ("activity", 0, 3700, 4000, 3),
            8: ("task", 4000, 4000, 4100, 1),
            11: ("timer", 4100, 4100, 60100, 1),
            13: ("task", 60000, 60000, 60100, 1),
        })

    def test_a_bar_that_nothing_ended_stays_open(self):
        events = json.loads(replies_of_case("examples", "an order")[-1])["events"]
        bars = timeline.bars_of(events[:5])
        self.assertEqual((bars[5].taken, bars[5].end), (None, None))

    def test_what_is_pending_goes_on_until_now(self):
        events = json.loads(replies_of_case("examples", "an order")[-1])["events"][:11]
        picture = timeline.picture(events, now=events[-1]["at"] + 60_000)
        rows = {11: timeline.TOP + 10 * timeline.ROW - 5}
        bars = re.findall(rf'<rect x="([0-9.]+)" y="{rows[11]}" width="([0-9.]+)"[^>]*fill-opacity="([0-9.]+)"', picture)
        # A timer that is pending is with nobody, so it is light; it reaches to the right end, which is now.
        self.assertEqual([opacity for _, _, opacity in bars], ["0.25"])
        self.assertAlmostEqual(float(bars[0][0]) + float(bars[0][1]), timeline.LEFT + timeline.WIDTH, delta=0.2)
        self.assertGreater(float(bars[0][1]), timeline.WIDTH * 0.9)

    def test_texts_of_any_kind_are_shown_in_pictures(self):
        events = json.loads(replies_of_case("examples", "an order")[-1])["events"]
        for text in ('x' * 20 + '<&">' * 3, "x" * 23 + "&" * 9, "\x01\x00\x1f\ufffe\uffff", "\ud800", "\U0001f600", "]]>"):
            for event in events:
                event["attrs"]["name"] = text
            picture = xml.fromstring(timeline.picture_file(events, 100_000))
            shown = ["".join(it.itertext()) for it in picture.iter("{http://www.w3.org/2000/svg}tspan")]
            wanted = re.sub("[\x00-\x08\x0b-\x1f\ud800-\udfff\ufffe\uffff]", "\ufffd", text[:timeline.LETTERS])
            self.assertEqual(shown, [wanted] * len(events))

    def test_events_that_were_held_back_have_rings(self):
        replies = replies_of_case("whole_workflows", "signal held then flushed")
        events = json.loads(replies[-1])["events"]
        signals = {event["id"] for event in events if event["type"] == "WorkflowExecutionSignaled"}
        self.assertEqual(timeline.held_back(events), signals)
        self.assertEqual(self.drawn(replies).stdout.count('class="ring"'), len(signals))

    def test_the_page_shows_the_last_history(self):
        replies = replies_of_case("examples", "an order and its payment")
        ran = self.drawn(replies)
        history = [json.loads(line) for line in replies if '"ok":"history"' in line][-1]
        self.assertEqual((ran.returncode, ran.stderr), (0, ""))
        self.assertIn(f"<h1>Run {history['run']}</h1>", ran.stdout)
        picture = xml.fromstring(ran.stdout[ran.stdout.index("<svg"):ran.stdout.index("</svg>") + len("</svg>")])
        titles = [part.text for part in picture.iter("{http://www.w3.org/2000/svg}title")]
        self.assertEqual(len(titles), len(history["events"]))

    def test_a_text_of_a_workflow_is_no_html(self):
        attrs = {"name": "</text><script>alert(1)</script>", "input": '"&<'}
        event = {"at": 0, "attrs": attrs, "id": 1, "type": "WorkflowExecutionSignaled"}
        ran = self.drawn([json.dumps({"ok": "history", "run": "<r>", "events": [event]})])
        self.assertNotIn("<script>", ran.stdout)
        self.assertIn("&lt;r&gt;", ran.stdout)

    def test_replies_without_a_history_are_a_fault(self):
        for lines in (['{"line":1,"ok":"signaled"}'], [], ["no reply"], ["7"]):
            with self.subTest(lines=lines):
                ran = self.drawn(lines)
                self.assertEqual((ran.returncode, ran.stdout), (1, ""))
                self.assertRegex(ran.stderr, "^timeline: ")

    def test_the_tour_shows_the_order(self):
        events = json.loads(replies_of_case("examples", "an order")[-1])["events"]
        drawn = re.sub(r"^<svg[^>]*>", "", timeline.picture(events))
        self.assertIn(drawn, (ROOT / "docs/order.svg").read_text(encoding="utf-8"))


class InAFolder(unittest.TestCase):
    """A folder with the scripts, in which other programs stand for the toolchain and the build."""

    def setUp(self):
        folder = tempfile.TemporaryDirectory()
        self.addCleanup(folder.cleanup)
        self.top = pathlib.Path(folder.name)
        for name in ("tools", "bin", "crates/wfserve/src", "out/build/crates/wfserve/out"):
            (self.top / name).mkdir(parents=True)
        for name in ("serve", "try"):
            shutil.copy(ROOT / name, self.top / name)
        (self.top / "crates.txt").write_text("wfserve:\n")
        self.source = self.top / "crates/wfserve/src/main.rt"
        self.source.write_text("")
        self.program = self.top / "out/build/crates/wfserve/out/wfserve"

    def script(self, path, text):
        path.write_text(f"#!/bin/sh\n{text}\n")
        path.chmod(0o755)


class Serve(InAFolder):
    NAME = "serve"
    # What the script answers by itself.
    ANSWERED = {"--help": "usage: ", "--version": "wfserve, sources of "}
    SAYS = 'echo "served $*"; cat; exit 1'

    def setUp(self):
        super().setUp()
        built = self.top / "built.sh"
        self.script(built, self.SAYS)
        (self.top / "tools/build_program.py").write_text(
            f"import shutil, sys\nassert sys.argv[1:] == ['wfserve']\nprint('building', file=sys.stderr)\n"
            f"shutil.copy({str(built)!r}, {str(self.program)!r})\n"
        )

    def serve(self):
        return run([self.top / "serve", "--shards", "2", "a file"], input="a line\n", cwd="/")

    def test_it_builds_what_is_missing_and_hands_on_all(self):
        ran = self.serve()
        self.assertEqual((ran.returncode, ran.stdout), (1, "served --shards 2 a file\na line\n"))
        self.assertEqual(ran.stderr, "building\n")
        self.assertEqual(self.serve().stderr, "")

    def test_it_builds_again_what_is_older_than_a_source(self):
        self.serve()
        later = self.program.stat().st_mtime + 10
        for changed in (self.source, self.top / "crates.txt"):
            os.utime(changed, (later, later))
            self.assertEqual(self.serve().stderr, "building\n", changed)
            os.utime(changed, (1, 1))
        kept = self.top / "crates/wfserve/out/kept"
        kept.parent.mkdir()
        kept.write_text("")
        os.utime(kept, (later, later))
        self.assertEqual(self.serve().stderr, "")

    def test_help_and_version_build_nothing_and_are_no_fault(self):
        for word, said in self.ANSWERED.items():
            ran = run([self.top / self.NAME, word], cwd="/")
            self.assertEqual((ran.returncode, ran.stderr), (0, ""), word)
            self.assertIn(said, ran.stdout)
        self.assertFalse(self.program.exists())

    def test_it_serves_nothing_where_the_build_fails(self):
        (self.top / "tools/build_program.py").write_text("raise SystemExit(3)\n")
        ran = self.serve()
        self.assertEqual((ran.returncode, ran.stdout), (3, ""))


@needs_program
class Help(unittest.TestCase):
    def test_it_lists_the_options_that_the_program_has(self):
        said, has = run([ROOT / "serve", "--help"]).stdout, run([BUILT, "--help"])
        options = set(re.findall("--[a-z]+", has.stdout + has.stderr)) - {"--help", "--version"}
        self.assertGreater(len(options), 5)
        self.assertEqual(set(re.findall("--[a-z]+", said)), options)


class Build(unittest.TestCase):
    def built(self, *words, path):
        return run([sys.executable, ROOT / "tools/build_program.py", *words], env={**os.environ, "PATH": path})

    def test_a_program_has_to_be_named_and_the_toolchain_has_to_be_there(self):
        for words in ([], ["no_such_crate"], ["wfserve", "cases"]):
            ran = self.built(*words, path=os.environ["PATH"])
            self.assertEqual((ran.returncode, ran.stdout), (2, ""))
            self.assertIn("usage", ran.stderr)
        ran = self.built("wfserve", path="/nowhere")
        self.assertEqual((ran.returncode, ran.stderr), (2, "build: there is no rt here, the command of the Rattle toolchain\n"))


    def test_a_second_program_leaves_the_first(self):
        with tempfile.TemporaryDirectory() as made:
            crates = pathlib.Path(made)
            for path in ("a/src/main.rt", "a/out/a", "a/out/kept", "a/out/rlib/b", "b/src/lib.rt", "b/out/kept"):
                (crates / path).parent.mkdir(parents=True, exist_ok=True)
                (crates / path).write_text("")
            for folder in crates.iterdir():
                build_program.leave_program(folder)
            left = [path.relative_to(crates).as_posix() for path in crates.rglob("*") if path.is_file()]
            self.assertEqual(left, ["a/out/a"])
            self.assertFalse((crates / "a/src").exists() or (crates / "b").exists())


class Try(InAFolder):
    """The program is kept where the build without proofs leaves it, which stands in here."""

    def setUp(self):
        super().setUp()
        (self.top / "lines").write_text("a line\n")
        unproved = self.top / "out/unproved/wfserve"
        self.built = self.top / "built.sh"
        (self.top / "tools/unproved_program.py").write_text(
            "import pathlib, shutil, sys\nassert sys.argv[1:] == [] and sys.stdin.read() == ''\n"
            f"if not pathlib.Path({str(self.built)!r}).exists():\n    raise SystemExit(2)\n"
            f"pathlib.Path({str(unproved.parent)!r}).mkdir(exist_ok=True)\n"
            f"print('compiling', file=sys.stderr)\nshutil.copy({str(self.built)!r}, {str(unproved)!r})\n"
        )

    def tried(self, words, status=0):
        self.script(self.built, f'pwd; echo "ran $*"; cat; echo said >&2; exit {status}')
        return run([self.top / "try", *words], cwd=self.top)

    def test_it_runs_the_file_and_says_that_this_is_not_proved(self):
        for status in (0, 1, 2):
            ran = self.tried(["lines", "--queues", "orders"], status)
            folder, *printed = ran.stdout.splitlines()
            self.assertEqual(printed, ["ran --queues orders", "a line"])
            self.assertEqual(ran.returncode, status)
            self.assertRegex(ran.stderr, "^compiling\nsaid\ntry: this run is not proved; ")
            # It ran in a folder of its own, which is gone.
            self.assertNotEqual(pathlib.Path(folder), self.top.resolve())
            self.assertFalse(pathlib.Path(folder).exists())

    def test_what_does_not_compile_is_not_run(self):
        ran = run([self.top / "try", "lines"], cwd=self.top)
        self.assertEqual((ran.returncode, ran.stdout, ran.stderr), (2, "", ""))

    def test_a_file_has_to_be_named_first(self):
        for words in ([], ["--queues", "orders", "lines"]):
            ran = self.tried(words)
            self.assertEqual((ran.returncode, ran.stdout), (2, ""))
            self.assertIn("usage", ran.stderr)

    def test_what_is_no_file_is_refused_before_anything_is_compiled(self):
        for word in ("no such file", "tools"):
            ran = self.tried([word])
            self.assertEqual((ran.returncode, ran.stdout), (2, ""))
            self.assertEqual(ran.stderr, f"try: {word}: no file that can be read\n")


if __name__ == "__main__":
    unittest.main()
