"""Lines to believe are counted by following words, and a table that is out of date is a fault."""

import sys
import tempfile
import unittest
from pathlib import Path

sys.path.insert(0, str(Path(__file__).resolve().parent))
import docs_claims
import lines_to_believe
from lines_to_believe import Calls, Definitions, Name, Promise

FILES = {
    "low/specs/Words.antt": """-- MEANING: words
use Rattle.std.specs.Prelude.{ℕ}

-- two lines, and an operator
abbrev pub ◌▸◌ : ℕ → ℕ → ℕ
m ▸ n = m

-- three
pub data Home : Type 0 where
  Shard : ℕ → Home
  Nowhere : Home

abbrev pub moved : ℕ → ℕ
moved n = n ▸ n

abbrev pub unread : ℕ
unread = 0
""",
    "low/specs/Onward.antt": "-- MEANING: handed on\npub use Rattle.low.specs.Words.{moved}\n",
    "low/specs/Steps.antt": "-- PROOF: of the way there\nabbrev pub shown : ℕ\nshown = 1\n",
    "high/specs/Calls.antt": """-- MEANING: calls
use Rattle.low.specs.Words.{unread, Nowhere as there}
use Rattle.low.specs.Onward as on
use Rattle.low.specs.Steps.{shown}

module _ {A : Type 0} where
  pub record Answered (x : View) : Type 0 where
    pub moved : on.moved x.unread ≡ 1
    pub home : x.home ≡ there

  abbrev pub Seen : ℕ
  Seen = shown
""",
    "high/specs/Lib.antt": "pub mod Calls\n",
    "high_tests/specs/Rows.antt": "-- MEANING: no promise\nabbrev pub row : ℕ\nrow = 1\n",
    "high/src/calls.rt": """ghost use Rattle.high.specs.Calls.{Answered, Seen};

pub fn serve(x: &View) -> u64
    ensures ok { Answered x.now }
{
    0
}

fn within() -> u64
    ensures ok { Seen ≡ result }
{
    1
}

pub fn look() -> u64
    ensures ok { Seen ≡ result }
{
    1
}
""",
}


class LinesToBelieve(unittest.TestCase):
    def setUp(self):
        docs_claims.sources_of.cache_clear()
        folder = tempfile.TemporaryDirectory()
        self.addCleanup(folder.cleanup)
        self.top = Path(folder.name)
        for name, text in FILES.items():
            path = self.top / "crates" / name
            path.parent.mkdir(parents=True, exist_ok=True)
            path.write_text(text, encoding="utf-8")
        self.definitions = Definitions(self.top)

    def reached(self, *roots):
        return self.definitions.reached(self.definitions.roots_of(Promise("", roots)))

    def test_what_a_call_promises_is_followed_to_its_end(self):
        words = {str(name) for name in self.reached(Calls(("high",), ("serve",)))}
        self.assertEqual(words, {"high/Calls: Answered", "high/Calls: module", "low/Words: Home", "low/Words: moved",
                                 "low/Words: ◌▸◌"})

    def test_lines_of_meaning_count_and_no_others(self):
        self.assertEqual(self.definitions.lines(self.reached("low/Words: moved")), 4)
        self.assertEqual(self.definitions.lines(self.reached("low/Words: Home")), 3)
        self.assertEqual(self.definitions.lines(self.reached("high/Calls: Seen")), 3)
        self.assertIn(Name("low", "Steps", "shown"), self.reached("high/Calls: Seen"))
        self.assertEqual(self.definitions.lines(self.definitions.texts), 9 + 6)

    def test_a_function_of_the_crate_alone_promises_nothing(self):
        self.assertNotIn(Name("high", "Calls", "Seen"), self.reached(Calls(("high",), ("serve",))))
        self.assertIn(Name("high", "Calls", "Seen"), self.reached(Calls(("high",))))

    def test_calls_that_are_left_out_promise_nothing(self):
        self.assertNotIn(Name("high", "Calls", "Seen"), self.reached(Calls(("high",), but=("look",))))
        self.assertIn(Name("high", "Calls", "Answered"), self.reached(Calls(("high",), but=("look",))))

    def test_a_root_that_is_gone_is_an_error(self):
        calls = Calls(("high",), ("served",)), Calls(("high",), ("within",)), Calls(("high",), but=("looks",))
        for root in ("low/Words: move", "low/Word: moved", *calls):
            with self.subTest(root=root), self.assertRaises(LookupError):
                self.reached(root)

    def test_a_table_that_is_out_of_date_is_a_fault(self):
        docs_claims.sources_of.cache_clear()
        rows = lines_to_believe.table(Definitions())
        self.assertEqual(lines_to_believe.faults("\n".join(rows)), [])
        wrong = rows[:2] + [rows[2][:-2] + "0 |"] + rows[3:]
        self.assertEqual(len(lines_to_believe.faults("\n".join(wrong))), 1)

    def test_a_table_is_written_over_the_one_that_is_there(self):
        page = self.top / "page.md"
        page.write_text("Before.\n\n| What is promised | Lines |\n|---|---|\n| old | 1 |\n\n| other | table |\n")
        lines_to_believe.write(["| What is promised | Lines |", "|---|---|", "| new | 2 |"], page)
        self.assertEqual(page.read_text(), "Before.\n\n| What is promised | Lines |\n|---|---|\n| new | 2 |\n\n"
                         "| other | table |\n")
        page.write_text("No table.\n")
        with self.assertRaises(LookupError):
            lines_to_believe.write(["| What is promised | Lines |"], page)


if __name__ == "__main__":
    unittest.main()
