"""What the documents show of the code is the code."""

import unittest

from support import ROOT, add_tools

add_tools()
import check_docs

HEAD = "| Rule | Definition | Example | Case | Wrong body |\n|---|---|---|---|---|\n"
RULE = ["`service_model/Signals: signal`", "`TaskRows: repeated_signal`", "`signals: a repeated signal`",
        "`shard: repeated_signal_adds_an_event`"]


def text_of(path):
    return (ROOT / path).read_text(encoding="utf-8")


def indented(lines):
    return "".join(f"    {line}\n" if line else "\n" for line in lines)


def part(path, first, last):
    """The lines of a file from the one that begins so to the one that ends so, with one empty line for two."""
    lines = text_of(path).splitlines()
    begin = next(i for i, line in enumerate(lines) if line.startswith(first))
    end = next(i for i, line in enumerate(lines) if i >= begin and line.endswith(last))
    return indented("\n".join(lines[begin:end + 1]).replace("\n\n\n", "\n\n").split("\n"))


class Documents(unittest.TestCase):
    def test_the_readme_shows_the_order_that_survives(self):
        shown = part("clients/python/examples/survive.py", "from wfserve.workflows import", "shipped with {receipt}\"")
        self.assertIn(shown, text_of("README.md"))

    def test_the_tour_shows_the_order_as_code(self):
        shown = part("clients/python/examples/order.py", "@workflow", "\"refund\": refunded}")
        self.assertIn(shown, text_of("docs/TOUR.md"))


    def test_the_tour_shows_a_test_of_ten_lines(self):
        shown = part("clients/python/examples/order_test.py", "def test_an_order", "minutes(5)")
        self.assertIn("assert", shown)
        self.assertLessEqual(len(shown.splitlines()), 10)
        self.assertIn(shown, text_of("docs/TOUR.md"))


class RulesAndWhatStandsBeside(unittest.TestCase):
    """tools/check_docs.py says of each reference that is not there that it isn't."""

    def faults(self, cells):
        table = check_docs.missing_beside_rules(HEAD + "| A rule. | " + " | ".join(cells) + " |\n")
        line = ". ".join(f"{kind}: {cell}" for kind, cell in zip(check_docs.KINDS, cells))
        below = check_docs.missing_beside_rules("A rule.\n\n  " + line + ".\n")
        self.assertEqual(table, below)
        return table

    def test_each_rule_says_where_it_stands_and_nothing_is_missing(self):
        text = text_of("docs/TRACE.md")
        self.assertGreater(text.count("| Definition | Example | Case | Wrong body |"), 5)
        self.assertEqual(check_docs.missing_beside_rules(text), [])

    def test_what_is_there_is_no_fault(self):
        self.assertEqual(self.faults(RULE), [])
        self.assertEqual(self.faults(["-", "-", "-", "-"]), [])
        self.assertEqual(self.faults([f"{RULE[0]}, `wf_event/Role: role`"] + RULE[1:]), [])

    def test_a_reference_that_is_not_there_is_a_fault(self):
        wrong = {
            0: ["`service_model/Signal: signal`", "`service/Signals: signal`", "`service_model/Signals: signa`",
                "`service_model/Signals: by_decision`", "`Signals: signal`"],
            1: ["`TaskRow: repeated_signal`", "`TaskRows: repeated_signals`", "`TaskRows: Step`"],
            2: ["`signal: a repeated signal`", "`signals: a repeated`", "`signals: a repeated signal.`",
                "`starts: a repeated signal`"],
            3: ["`shard: repeated_signal_adds_events`", "`shard_steps: repeated_signal_adds_an_event`"],
        }
        for column, references in wrong.items():
            for reference in references + [RULE[column].replace(": ", " "), "none", "", "- `a`", "`-`"]:
                with self.subTest(column=check_docs.KINDS[column], reference=reference):
                    cells = RULE[:column] + [reference] + RULE[column + 1:]
                    self.assertNotEqual(check_docs.missing_beside_rules(
                        HEAD + "| A rule. | " + " | ".join(cells) + " |\n"), [])
                    if reference:
                        self.assertNotEqual(self.faults(cells), [])

    def test_each_of_several_references_is_looked_for(self):
        two = ["`signals: a repeated signal`, `signals: no such signal`", "`signals: b`, `signals: c`"]
        self.assertEqual([len(self.faults(RULE[:2] + [cell] + RULE[3:])) for cell in two], [1, 2])

    def test_a_rule_without_its_cells_is_a_fault(self):
        for row in ("| A rule. |", "| A rule. | - | - | - |", "| A | rule. | - | - | - | - |"):
            with self.subTest(row=row):
                self.assertEqual(len(check_docs.missing_beside_rules(HEAD + row + "\n")), 1)
        for line in ("Definition: -.", "Definition: -. Example: -. Case: -.",
                     "Definition: -. Case: -. Example: -. Wrong body: -."):
            with self.subTest(line=line):
                self.assertEqual(len(check_docs.missing_beside_rules(line + "\n")), 1)

    def test_other_tables_are_left_alone(self):
        other = "| Name | When |\n|---|---|\n| `a: b` | never |\n"
        self.assertEqual(check_docs.missing_beside_rules(other), [])
        self.assertEqual(check_docs.missing_beside_rules(HEAD + "\n" + other), [])


if __name__ == "__main__":
    unittest.main()
