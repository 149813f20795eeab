"""How far a run is, and what is left of it: by a model of the crates' costs, and by how fast the run is."""
from __future__ import annotations

import io
import json
import random
import sys
import unittest
from pathlib import Path

sys.path.insert(0, str(Path(__file__).resolve().parent))
import build_program
import costs
import gate_progress
import gate_run
from gate_progress import Model, Progress, Stage
from scratch import Scratch

SAID = """rt: low proved
rt: high proved
rt: high: its tests are proved
rt: high: trying its must-fail edits (7)
rt: high: its tests passed
4 passed, 0 failed
"""
PARTS = ["low proof", "high proof", "high tests", "high wrong bodies"]
BELOW = {"a": [], "b": ["a"], "c": ["a"], "d": ["b", "c"]}
COST = {"a": 60.0, "b": 300.0, "c": 60.0, "d": 120.0}
# What whole runs took from nothing, on four processors.
RECORDED = sorted((Path(__file__).resolve().parent / "recorded").glob("*.json"))


def model(stages: list[Stage] | None = None, processors: int = 2) -> Model:
    return Model(stages or [Stage(tuple(BELOW), False)], BELOW, COST, processors)


class Left(unittest.TestCase):
    def test_a_run_goes_as_the_machine_has_processors(self) -> None:
        stage = Stage(tuple(BELOW), False)
        for processors, ends in ((2, [(60, "a"), (120, "c"), (360, "b"), (480, "d")]), (1, [(60, "a"), (360, "b"), (420, "c"), (540, "d")])):
            self.assertEqual(gate_progress.Schedule(stage, BELOW, COST, processors).ends(0.0), ends)

    def test_where_nothing_is_through_it_is_the_whole_of_the_model(self) -> None:
        self.assertEqual(model().left((), (), 0.0), 480.0)
        self.assertEqual(model().left((), (), 30.0), 450.0)

    def test_a_run_that_is_half_as_fast_has_twice_as_much_left(self) -> None:
        self.assertEqual(model().left([("a", 120.0)], (), 120.0), 840.0)
        self.assertEqual(model().left([("a", 120.0), ("c", 240.0), ("b", 720.0)], (), 720.0), 240.0)

    def test_while_nothing_ends_the_time_counts_down_until_the_next_one_is_late(self) -> None:
        ended = [("a", 60.0), ("c", 120.0)]
        self.assertEqual([model().left(ended, (), now) for now in (120.0, 240.0, 360.0, 720.0)], [360.0, 240.0, 120.0, 120.0])

    def test_what_is_kept_takes_no_time_and_says_nothing_of_the_speed(self) -> None:
        self.assertEqual(model().left([("a", 1.0), ("b", 1.0)], ("a", "b"), 1.0), 180.0)
        self.assertEqual(model().left([(name, 1.0) for name in BELOW], BELOW, 1.0), 0.0)

    def test_one_that_ends_before_another_that_was_taken_to_run_stands_in_its_place(self) -> None:
        self.assertEqual(model(processors=1).left([("a", 60.0), ("c", 120.0)], (), 120.0), 420.0)

    def test_the_last_crates_get_the_processors_that_are_idle(self) -> None:
        stages = [Stage(("a", "b", "c"), False), Stage(("d",), True)]
        last = gate_progress.seconds_of(120.0, 2)
        self.assertLess(last, 120.0)
        self.assertEqual(model(stages).left((), (), 0.0), 360 + last)
        ended = [("a", 60.0), ("c", 120.0), ("b", 360.0)]
        self.assertAlmostEqual(model(stages).left(ended, (), 370.0), last - 10)

    def test_a_crate_without_a_cost_has_one(self) -> None:
        self.assertEqual(Model([Stage(("a", "new"), False)], BELOW | {"new": ["a"]}, COST, 2).left((), (), 0.0), 60.0 + costs.UNKNOWN)


class Replayed(unittest.TestCase):
    """From a tenth of the work on, what is said to be left is within a third of what it comes to."""

    def holds(self, model: Model, course: list[tuple[float, str]]) -> None:
        """Looks at each moment at which a crate ended, and in the middle between two. At the very end, when a twentieth of the
        time is left, it is within a twentieth of that time."""
        names = {name for _, name in course}
        kept = [name for name in model.cost if name not in names]
        work, whole, ended, before = sum(model.cost[name] for name in names), course[-1][0], [], 0.0
        for at, name in course:
            if sum(model.cost[it] for it, _ in ended) >= work / 10:
                for now in ((before + at) / 2, at):
                    said = model.left([*((name, 0.0) for name in kept), *ended], kept, now)
                    self.assertLessEqual(abs(said - (whole - now)), max((whole - now) / 3, whole / 20), (name, now, said, whole - now))
            ended.append((name, at))
            before = at

    def test_machines_of_any_speed_whose_crates_take_more_or_less_than_they_did(self) -> None:
        _, below = build_program.lines_of_crates()
        names, known = gate_run.lowest_first(below), costs.read()
        for seed in range(12):
            drawn = random.Random(seed)
            speed = drawn.uniform(0.3, 4.0)
            real = {name: known[name] * speed * drawn.uniform(0.8, 1.2) for name in names}
            stage = Stage(tuple(names), False)
            with self.subTest(seed=seed):
                self.holds(Model([stage], below, known, 4), gate_progress.Schedule(stage, below, real, 4).ends(0.0))

    @unittest.skipUnless(RECORDED, "no run of the gate was recorded yet: out/times/proofs.json of one goes into tools/recorded")
    def test_recorded_runs(self) -> None:
        _, below = build_program.lines_of_crates()
        model = gate_run.model_of(gate_run.runs_of_proofs(below, 4, 24, True), below, 4)
        for file in RECORDED:
            run = json.loads(file.read_text(encoding="utf-8"))
            course = [(float(at), part.removesuffix(" proof")) for part, at in run["parts"] if part.endswith(" proof")]
            with self.subTest(file=file.name):
                self.holds(model, [(at, name) for at, name in course if name in below])


class Kept(Scratch):
    def setUp(self) -> None:
        super().setUp()
        self.path = self.top / "times" / "proofs.json"

    def followed(self, text: str, crates: tuple[str, ...] = ("low", "high")) -> Progress:
        seconds = iter(range(0, 1_000_000, 10))
        progress = Progress(crates, clock=lambda: float(next(seconds)))
        gate_progress.follow(text.splitlines(keepends=True), io.StringIO(), progress, 3600.0, self.path)
        return progress

    def test_a_run_from_nothing_that_came_to_its_end_is_kept(self) -> None:
        progress = self.followed(SAID)
        self.assertEqual(([part for part, _ in progress.course], progress.wrong_bodies), (PARTS, 7))
        kept = json.loads(self.path.read_text(encoding="utf-8"))
        self.assertEqual([part for part, _ in kept["parts"]], PARTS)
        ends = [at for _, at in kept["parts"]]
        self.assertEqual(sorted(set(ends)), ends)
        self.assertGreaterEqual(kept["whole"], ends[-1])

    def test_other_runs_are_not(self) -> None:
        for text in (SAID.replace("rt: low proved", "rt: low is kept: proved before"), SAID.replace("4 passed", "end"),
                     SAID.replace("rt: low proved", "rt: low NOT PROVED")):
            with self.subTest(text=text):
                self.followed(text)
                self.assertFalse(self.path.exists())

    def test_what_a_second_run_takes_of_the_first_one_was_proved_by_it(self) -> None:
        progress = self.followed("rt: low proved\n1 passed, 0 failed (low and the crates below alone: not the gate)\n")
        self.assertFalse(progress.is_whole)
        for line in ("rt: low is kept: an earlier run\n", "rt: high proved\n", "2 passed, 0 failed\n"):
            progress.note(line)
        self.assertEqual((progress.proved, progress.kept, progress.is_whole), ({"low", "high"}, set(), True))

    def test_the_line_of_a_minute_says_what_is_left(self) -> None:
        seconds = iter([0.0, 60.0, 120.0, 120.0, 120.0])
        progress = Progress(BELOW, clock=lambda: next(seconds))
        progress.note("rt: a proved\n")
        self.assertEqual(gate_progress.told(progress, None), "gate: 1 of 4 crates proved in 2 min")

    def test_a_crate_is_through_once_its_program_is_in_place(self) -> None:
        crates = {"low", "high"}
        for line, through in (("rt: low proved", {"low"}), ("rt: low is kept: an earlier run", {"low"}), ("rt: low NOT PROVED", set()),
                              ("rt: low: its tests are proved", set()), ("rt: low: trying its must-fail edits (7)", set()),
                              ("rt: other proved", set()), ("== low", set())):
            self.assertEqual(gate_progress.through_in(line, crates), through, line)


if __name__ == "__main__":
    unittest.main()
