"""Which wrong bodies are due: those of crates that changed since all were refused, and the quarter that waited longest."""
from __future__ import annotations

import contextlib
import io
import subprocess
import sys
import unittest
from pathlib import Path

sys.path.insert(0, str(Path(__file__).resolve().parent))
import rests_on
import tried
from scratch import Scratch
from tried import Sums, Tried

HEAD = "//! Of it.\n\nghost use Rattle.{}.specs.Words.{{{}}};\n\nfn f() -> u8\n    ensures {{ result ≡ {} }}\n{{\n    1\n}}\n"
DEFINED = "use Rattle.{below}.specs.Words.{{{used}}}\n\n-- a word\nabbrev pub {word} : ℕ\n{word} = {used}\n"
RT = "#!/bin/sh\n[ \"$1\" = version ] && echo \"${KIT:-kit 1}\"\n"
# Four crates, each over the one before it.
FILES = {
    "crates.txt": "one:\ntwo: one\nthree: two\nfour: three\n",
    "tools/costs.txt": "# Of them.\none 100\ntwo 100\nthree 100\nfour ~100\n",
    "tools/tried.txt": "",
    "crates/one/specs/Words.antt": "-- a word\nabbrev pub first : ℕ\nfirst = 1\n",
    "crates/two/specs/Words.antt": DEFINED.format(below="one", used="first", word="second"),
    "crates/three/specs/Words.antt": DEFINED.format(below="two", used="second", word="third"),
    "crates/four/src/lib.rt": HEAD.format("three", "third", "third"),
    "crates/four/must-fail/twice.md": "file: src/lib.rt\nold:     1\nnew:     2\n",
    "crates/two/must-fail/other.md": "file: specs/Words.antt\nold: = first\nnew: = 2\n",
}


class Note(Scratch):
    FILES, RT = FILES, RT

    def due(self, kit: str = "kit 1") -> dict[str, str]:
        """The crates that are due for another reason than that they waited."""
        with self.with_toolchain(KIT=kit):
            return {name: why for name, why in tried.due(self.top).items() if "longest ago" not in why}

    def note(self, *names: str) -> None:
        with self.with_toolchain():
            tree, kit = rests_on.Tree(self.top), tried.kit_of()
            tried.note({name: tried.sums_of(name, tree, kit) for name in names}, "0123abcd", 0, self.top)

    def change(self, name: str, old: str, new: str) -> None:
        file = self.top / "crates" / name
        text = file.read_text(encoding="utf-8")
        self.assertEqual(text.count(old), 1, old)
        file.write_text(text.replace(old, new), encoding="utf-8")

    def look(self) -> tuple[int, list[str]]:
        with self.with_toolchain(), contextlib.redirect_stdout(io.StringIO()) as out:
            status = tried.look(self.top)
        return status, out.getvalue().splitlines()

    def test_crates_without_a_line_are_due(self) -> None:
        self.assertEqual(self.due(), {"four": "no run has tried them", "two": "no run has tried them"})
        self.note("four")
        self.assertEqual(list(self.due()), ["two"])
        self.note("two")
        self.assertEqual(self.due(), {})

    def test_a_definition_three_crates_below_makes_a_crate_due_and_a_comment_does_not(self) -> None:
        self.note("two", "four")
        self.change("one/specs/Words.antt", "-- a word", "-- the first word\n")
        self.assertEqual(self.due(), {})
        self.change("one/specs/Words.antt", "first = 1", "first = 2")
        self.assertEqual(self.due(), dict.fromkeys(("two", "four"), tried.CHANGED["below"]))

    def test_each_change_of_its_own_files_does(self) -> None:
        for path, text in {"src/lib.rt": "fn g() {}\n", "specs/Own.antt": "-- MEANING\n", "proofs/g/Answers.antt": "x\n",
                           "must-fail/twice.md": "new: 3\n", "must-fail/thrice.md": "new: 4\n"}.items():
            self.note("two", "four")
            file = self.top / "crates/four" / path
            file.parent.mkdir(parents=True, exist_ok=True)
            with file.open("a", encoding="utf-8") as out:
                out.write(text)
            with self.subTest(path=path):
                self.assertEqual(self.due(), {"four": tried.CHANGED["own"]})

    def test_what_builds_leave_and_crates_above_change_nothing(self) -> None:
        self.note("two", "four")
        for path in ("crates/four/out/kept", "crates/three/src/lib.rt"):
            (self.top / path).parent.mkdir(parents=True, exist_ok=True)
            (self.top / path).write_text("fn g() {}\n", encoding="utf-8")
        self.assertEqual(self.due(), {})

    def test_another_toolchain_makes_all_due(self) -> None:
        self.note("two", "four")
        self.assertEqual(self.due("kit 2"), dict.fromkeys(("two", "four"), tried.CHANGED["kit"]))

    def test_a_line_is_of_the_run_and_its_commit_and_goes_with_the_last_wrong_body(self) -> None:
        self.note("two", "four")
        self.note("four")
        found = tried.read(self.top)
        self.assertEqual({name: (line.run, line.commit) for name, line in found.items()},
                         {"two": (1, "0123abcd"), "four": (2, "0123abcd")})
        (self.top / "crates/four/must-fail/twice.md").unlink()
        self.note("two")
        self.assertEqual(list(tried.read(self.top)), ["two"])

    def test_due_crates_are_told_and_no_fault(self) -> None:
        self.note("two")
        self.change("one/specs/Words.antt", "first = 1", "first = 2")
        self.assertEqual(self.look(), (0, [
            "due: four, 1 wrong bodies: no run has tried them",
            f"due: two, 1 wrong bodies: {tried.CHANGED['below']}",
            "the gate's next run tries the wrong bodies of 2 of 2 crates",
        ]))

    def test_what_is_no_note_is_a_fault(self) -> None:
        self.note("two", "four")
        kept = self.top / tried.KEPT
        good = kept.read_text(encoding="utf-8")
        for line, said in (("lone 1 2 3 4 a\n", "no crate lone with wrong bodies"), ("two 1 2 3 4 a\n", "once for each crate"),
                           ("one two\n", "not a crate's name"), ("one 1 2 3 x a\n", "not a crate's name")):
            kept.write_text(good + line, encoding="utf-8")
            status, lines = self.look()
            with self.subTest(line=line):
                self.assertEqual((status, len(lines)), (1, 1))
                self.assertIn(said, lines[0])

    def test_a_wrong_body_of_another_ending_is_a_fault(self) -> None:
        (self.top / "crates/four/must-fail/thrice.edit").write_text("new: 4\n", encoding="utf-8")
        self.assertEqual(self.look(), (1, ["crates/four/must-fail/thrice.edit: a wrong body is a file NAME.md"]))

    def test_the_commit_of_a_tree_says_whether_crates_were_changed(self) -> None:
        self.assertEqual(tried.commit_of(self.top), "-")
        for call in (["init", "-q"], ["add", "-A"], ["-c", "user.name=a", "-c", "user.email=b", "commit", "-q", "-m", "all"]):
            subprocess.run(["git", *call], cwd=self.top, check=True)
        self.assertRegex(tried.commit_of(self.top), "^[0-9a-f]{8}$")
        (self.top / "tools/tried.txt").write_text("# other\n", encoding="utf-8")
        self.assertRegex(tried.commit_of(self.top), "^[0-9a-f]{8}$")
        self.change("one/specs/Words.antt", "first = 1", "first = 2")
        self.assertRegex(tried.commit_of(self.top), r"^[0-9a-f]{8}\+$")


class Quarter(unittest.TestCase):
    COSTS = {name: cost for name, cost in zip("abcdefghijkl", (9, 5, 4, 4, 3, 3, 2, 2, 1, 1, 1, 1))}

    def noted(self, run: int) -> dict[str, Tried]:
        return {name: Tried(Sums("1", "2", "3"), run, "a") for name in self.COSTS}

    def test_each_is_tried_by_every_fourth_run_at_a_quarter_of_the_costs(self) -> None:
        found = self.noted(1)
        waits, spent = [], []
        for run in range(2, 40):
            chosen = tried.oldest(found, self.COSTS, run)
            waits += [run - found[name].run for name in chosen]
            spent.append(sum(self.COSTS[name] for name in chosen))
            found |= {name: found[name]._replace(run=run) for name in chosen}
        self.assertTrue(all(run > 40 - 1 - tried.RUNS for run in (line.run for line in found.values())))
        self.assertLessEqual(max(waits), tried.RUNS)
        self.assertAlmostEqual(sum(spent) / len(spent), sum(self.COSTS.values()) / tried.RUNS, delta=0.7)
        self.assertLessEqual(max(spent), 1.5 * sum(self.COSTS.values()) / tried.RUNS)

    def test_as_many_as_come_closest_to_a_quarter(self) -> None:
        found = {name: Tried(Sums("1", "2", "3"), 3, "a") for name in "abcd"}
        self.assertEqual(tried.oldest(found, {"a": 8, "b": 3, "c": 2, "d": 27}, 4), ["a", "b"])
        self.assertEqual(tried.oldest(found, {"a": 8, "b": 5, "c": 0, "d": 27}, 4), ["a"])

    def test_the_note_alone_says_which(self) -> None:
        found = self.noted(3) | {"k": Tried(Sums("1", "2", "3"), 1, "a"), "c": Tried(Sums("1", "2", "3"), 2, "a")}
        self.assertEqual(tried.oldest(found, self.COSTS, 4), ["k", "c"])
        self.assertEqual(tried.oldest(dict(reversed(found.items())), self.COSTS, 4), ["k", "c"])

    def test_a_crate_that_waited_for_three_runs_is_tried_whatever_it_costs(self) -> None:
        found = self.noted(4) | {name: Tried(Sums("1", "2", "3"), 1, "a") for name in "abcde"}
        self.assertEqual(tried.oldest(found, self.COSTS, 5), list("abcde"))


class OfThisTree(unittest.TestCase):
    def test_the_note_names_crates_with_wrong_bodies(self) -> None:
        self.assertEqual(tried.faults(), [])
        self.assertGreater(len(tried.with_bodies()), 50)


if __name__ == "__main__":
    unittest.main()
