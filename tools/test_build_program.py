"""A build proves the last crates of the longest chain one after another, and says how many minutes are left."""
from __future__ import annotations

import contextlib
import io
import json
import sys
import unittest
from pathlib import Path

sys.path.insert(0, str(Path(__file__).resolve().parent))
import build_program
from scratch import Scratch

# Says which crates are in the folder in which it proves all.
RT = """#!/bin/sh
echo "$(basename "$PWD"): $*, $(tr '\\n' ' ' < "$TOP/build/crates.txt")" >> "$ASKED"
if [ "$1" = all ]; then
    for folder in *; do echo "== $folder"; echo "fn f: proved"; done
fi
[ "$1" != "$FAILS" ]
"""
BELOW = {"low": [], "beside": ["low"], "lanes": ["low"], "top": ["lanes", "beside"]}
NAMES = ["low", "beside", "lanes", "top"]


class Building(Scratch):
    RT = RT
    FILES = {
        "tools/costs.txt": "low 60\nbeside 60\nlanes ~600\ntop 600\n",
        **{f"crates/{name}/src/lib.rt": "1\n" for name in NAMES}, **{f"build/crates/{name}/src/lib.rt": "1\n" for name in NAMES},
        "HANDLES": "none\n",
    }

    def setUp(self) -> None:
        super().setUp()
        self.kept = self.top / "times/build-top.json"
        self.lines = {name: f"{name}: {' '.join(BELOW[name])}" for name in NAMES}
        self.replace(build_program, ROOT=self.top, BUILD=self.top / "build", at_once=lambda: 4)

    def prove(self, fails: str = "none", names: list[str] | None = None) -> tuple[str | None, list[str], list[str]]:
        """What a build came to, what it said, and what the toolchain was asked."""
        asked = self.top / "asked"
        asked.write_text("", encoding="utf-8")
        with self.with_toolchain(ASKED=str(asked), FAILS=fails, TOP=str(self.top)):
            with contextlib.redirect_stderr(io.StringIO()) as error:
                failure = build_program.prove(names or NAMES, self.lines, BELOW, self.kept)
        return failure, error.getvalue().splitlines(), asked.read_text(encoding="utf-8").splitlines()

    def folders(self) -> list[str]:
        return sorted(path.name for path in (self.top / "build/crates").iterdir())

    def test_the_last_crates_of_the_chain_are_proved_by_all_processors_one_after_another(self) -> None:
        failure, said, asked = self.prove()
        self.assertIsNone(failure)
        self.assertEqual(asked, [
            "crates: all check --jobs 4, low:  beside: low ",
            "lanes: lib --jobs 4, low:  beside: low lanes: low top: lanes beside ",
            "top: check --jobs 4, low:  beside: low lanes: low top: lanes beside ",
        ])
        self.assertEqual([line.partition(",")[0] for line in said], [
            "build: 1 of 4: beside", "build: 2 of 4: low", "build: 3 of 4: lanes", "build: 4 of 4: top"])
        self.assertEqual(self.folders(), sorted(NAMES))

    def test_with_few_processors_or_without_such_a_chain_all_are_proved_side_by_side(self) -> None:
        _, _, asked = self.prove(names=["low", "beside"])
        self.assertEqual(asked, ["crates: all check --jobs 4, low:  beside: low "])
        self.replace(build_program, at_once=lambda: 2)
        _, _, asked = self.prove()
        self.assertEqual([line.partition(",")[0] for line in asked], ["crates: all check --jobs 2"])

    def test_one_that_fails_ends_it_and_all_lie_where_they_were(self) -> None:
        for fails, calls in (("all", 1), ("lib", 2), ("check", 3)):
            failure, _, asked = self.prove(fails=fails)
            self.assertEqual((failure is None, len(asked), self.folders()), (False, calls, sorted(NAMES)))

    def test_what_a_build_that_was_killed_left_aside_is_put_back(self) -> None:
        (self.top / "build/last").mkdir()
        (self.top / "build/crates/lanes").rename(self.top / "build/last/lanes")
        (self.top / "build/last/lanes/out").mkdir()
        build_program.copy(NAMES, self.lines)
        self.assertEqual(self.folders(), sorted(NAMES))
        self.assertTrue((self.top / "build/crates/lanes/out").is_dir())

    def test_minutes_are_told_by_the_costs_of_the_crates(self) -> None:
        build = build_program.Build(NAMES, [], BELOW, self.kept)
        self.assertEqual(build.how_far("low"), "0 of 4: low, 21 min left")

    def test_what_a_first_build_took_is_kept(self) -> None:
        self.prove()
        self.assertEqual([part for part, _ in json.loads(self.kept.read_text(encoding="utf-8"))["parts"]],
                         ["beside proof", "low proof", "lanes proof", "top proof"])

    def test_what_a_failed_build_and_one_that_goes_on_took_is_not(self) -> None:
        self.assertIsNotNone(self.prove(fails="check")[0])
        self.assertFalse(self.kept.exists())
        (self.top / "build/crates/low/out").mkdir()
        self.assertIsNone(self.prove()[0])
        self.assertFalse(self.kept.exists())


if __name__ == "__main__":
    unittest.main()
