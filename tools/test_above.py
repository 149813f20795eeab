"""Which crates stand above one, and the seconds that are known of them."""

import sys
import unittest
from pathlib import Path

sys.path.insert(0, str(Path(__file__).resolve().parent))
import above
import build_program
from above import Seconds

BELOW = {"program": ["calls", "clap"], "words": [], "calls": ["rules"], "rules": ["words", "json"], "lines": ["words"]}
TEXT = """
| Crate | Proof | Checks once more | Wrong bodies | Tests | Sum |
|---|---|---|---|---|---|
| calls | 480 | 473 | 472 (9) |  | 1,425 |
| program |  |  |  | 477 | 477 |
| 40 others | 2,118 | 881 | 1,317 (72) | 804 | 5,120 |
"""


class Above(unittest.TestCase):
    def test_all_crates_above_come_lowest_first(self):
        self.assertEqual(above.above("rules", BELOW), ["calls", "program"])
        self.assertEqual(above.above("words", BELOW), ["rules", "calls", "program", "lines"])
        self.assertEqual(above.above("program", BELOW), [])

    def test_in_this_tree_each_crate_stands_behind_those_that_it_uses(self):
        _, below = build_program.lines_of_crates()
        names = above.above("step_record", below)
        self.assertIn("wfserve", names)
        for place, name in enumerate(names):
            self.assertEqual([other for other in below[name] if other in names[place:]], [])

    def test_seconds_are_those_of_the_crates_own_row(self):
        known = above.measured(TEXT)
        self.assertEqual(known, {"calls": Seconds(480, 1425), "program": Seconds(None, 477)})
        lines = above.table(["rules", "calls", "program"], known)
        self.assertEqual([line.split() for line in lines[1:-1]],
                         [["rules", "-", "-"], ["calls", "480", "1,425"], ["program", "-", "477"],
                          ["together", "480", "1,902"]])
        self.assertEqual(lines[-1], "without figures: 1 of 3 crates")

    def test_the_measurements_have_such_a_table(self):
        known = above.measured(above.MEASURED.read_text(encoding="utf-8"))
        self.assertGreater(len(known), 15)
        self.assertIsNotNone(known["service"].proof)


if __name__ == "__main__":
    unittest.main()
