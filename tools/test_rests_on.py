"""What counts of the crates below is what contracts say and reach there, and nothing else."""
from __future__ import annotations

import re
import sys
import unittest
from pathlib import Path

sys.path.insert(0, str(Path(__file__).resolve().parent))
import docs_claims
import rests_on
from scratch import Scratch

WORDS = """-- MEANING: words
use Rattle.std.specs.Prelude.{ℕ}

-- how far a step goes
abbrev pub stride : ℕ
stride = 2

abbrev pub unread : ℕ
unread = 0
"""
RULES = """-- MEANING: rules
use Rattle.words.specs.Words.{stride}
use Rattle.words.specs.declared.turn.Turn.TheVariants.{Left}

abbrev pub moved : ℕ → ℕ
moved n = facing faced (n + stride)

abbrev pub faced : Turn
faced = Left
"""
TURN = """//! A turn.

/// Which way.
pub enum Turn {
    Left,
    Right,
}
"""
CALLS = """//! Calls.

ghost use Rattle.rules.specs.Rules.{moved, faced};
ghost use Rattle.words.specs.declared.gait.Gait.TheVariants as gait;

pub struct Walker {
    steps: usize,
}

impl Model for Walker {
    ghost Value = { ℕ };

    ghost view = { λ w. w.steps };
}

impl Walker {
    /// Goes on.
    #[inline]
    pub fn walk(&mut self, by: usize) -> usize
        requires { by ≡ 1 }
        ensures { result ≡ moved self.old }
        ensures { gait.Slow ≡ gait.Slow }
    {
        // One more.
        self.steps += by; // and no less
        self.steps
    }

    pub fn rest(&self) -> bool
        ensures { result ≡ true }
    {
        true
    }
}

/// By its generics, as the formatter lays them out.
pub fn raced<
    A: Walks,
    B: Walks,
>(
    first: A,
    second: B,
) -> bool
where
    A: Sized,
{
    first.walk() > second.walk()
}
"""
HIGH = """//! It walks.

use calls::Walker;

pub fn far(mut walker: Walker) -> usize
    ensures { result ≡ 0 }
{
    walker.walk(1)
}
"""
FILES = {
    "crates.txt": "words:\nrules: words\ncalls: words rules\nhigh: calls\nbeside:\n",
    "crates/words/specs/Words.antt": WORDS,
    "crates/words/src/turn.rt": TURN,
    "crates/words/src/gait.rt": "/// How fast.\npub(crate) enum Gait {\n    Slow,\n}\n",
    "crates/rules/specs/Rules.antt": RULES,
    "crates/rules/proofs/Lemmas.antt": "moves : moved 0 ≡ 2\nmoves = refl\n",
    "crates/calls/src/walker.rt": CALLS,
    "crates/high/src/lib.rt": HIGH,
    "crates/beside/specs/Words.antt": WORDS,
}


class Reached(Scratch):
    FILES = FILES

    def reached(self) -> list[tuple[str, str]]:
        return rests_on.Tree(self.top).reached("high")

    def changes(self, name: str, old: str, new: str) -> bool:
        """Whether a change of a file changes what counts for the highest crate. It is undone."""
        file, before = self.top / "crates" / name, self.reached()
        text = file.read_text(encoding="utf-8")
        self.assertEqual(text.count(old), 1, old)
        file.write_text(text.replace(old, new), encoding="utf-8")
        try:
            return self.reached() != before
        finally:
            file.write_text(text, encoding="utf-8")

    def test_what_contracts_say_and_reach_through_three_crates_counts(self) -> None:
        for name, old, new in (
            ("words/specs/Words.antt", "stride = 2", "stride = 3"),
            ("words/src/turn.rt", "    Right,", "    Right,\n    Back,"),
            ("words/src/gait.rt", "    Slow,", "    Slow,\n    Fast,"),
            ("rules/specs/Rules.antt", "(n + stride)", "(stride + n)"),
            ("calls/src/walker.rt", "by ≡ 1", "by ≡ 2"),
            ("calls/src/walker.rt", "by: usize)", "by: u64)"),
            ("calls/src/walker.rt", "λ w. w.steps", "λ w. suc w.steps"),
            ("calls/src/walker.rt", "    steps: usize", "    steps: u64"),
        ):
            with self.subTest(name=name, new=new):
                self.assertTrue(self.changes(name, old, new))

    def test_comments_bodies_lemmas_and_what_is_not_at_hand_do_not(self) -> None:
        for name, old, new in (
            ("words/specs/Words.antt", "-- how far a step goes", "-- how far it goes\n\n-- a step"),
            ("words/specs/Words.antt", "unread = 0", "unread = 1"),
            ("words/src/turn.rt", "/// Which way.", "/// Where to."),
            ("rules/proofs/Lemmas.antt", "refl", "sym refl"),
            ("calls/src/walker.rt", "// One more.\n        self.steps += by; // and no less", "self.steps = self.steps + by;\n\n"),
            ("calls/src/walker.rt", "/// Goes on.", "/// Goes on and on."),
            ("calls/src/walker.rt", "result ≡ true", "result ≡ false"),
            ("calls/src/walker.rt", "first.walk() > second.walk()", "if first.walk() {\n        true\n    }"),
            ("beside/specs/Words.antt", "stride = 2", "stride = 3"),
        ):
            with self.subTest(name=name, new=new):
                self.assertFalse(self.changes(name, old, new))

    def test_a_call_counts_once_its_name_is_used(self) -> None:
        before = self.reached()
        file = self.top / "crates/high/src/lib.rt"
        file.write_text(HIGH.replace("walker.walk(1)", "walker.rest(); calls::raced(walker, walker)"), encoding="utf-8")
        titles = {title for title, _ in set(self.reached()) - set(before)}
        self.assertEqual(titles, {"calls: rest", "calls: raced"})

    def test_nothing_below_is_nothing(self) -> None:
        self.assertEqual(rests_on.Tree(self.top).reached("words"), [])


class OfThisTree(unittest.TestCase):
    def test_each_public_call_is_found_and_no_line_of_a_body(self) -> None:
        tree = rests_on.Tree()
        for crate, coded in tree.coded.items():
            sources = docs_claims.sources_of(crate, tree.top)
            calls = sum(len(re.findall(r"^ *pub (?:ghost |unsafe |const )*fn ", text, re.MULTILINE)) for text in sources)
            heads = [call.head.said for found in coded.calls.values() for call in found]
            types = [text.said for found in coded.types.values() for text in found]
            with self.subTest(crate=crate):
                self.assertEqual(len(heads), calls)
                self.assertNotRegex("\n".join(heads + types), r"(?m)^\s*(?:let|return|if|while|match) ")
                self.assertNotRegex("\n".join(heads + types), r"(?m)^\s*//")

    def test_a_definition_far_below_counts_for_a_script(self) -> None:
        titles = {title for title, _ in rests_on.Tree().reached("script")}
        self.assertIn("service_model_types: Settings", titles)
        self.assertTrue(any(title.startswith("service_model/Signals: ") for title in titles))


if __name__ == "__main__":
    unittest.main()
