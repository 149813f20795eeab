"""docs/rules.ini, docs/PROFILE.md and docs/TRACE.md say the same, and what is made untrue in one of them is found."""

import sys
import tempfile
import unittest
from pathlib import Path

sys.path.insert(0, str(Path(__file__).resolve().parent))
import docs_claims
import docs_rules

PROFILE = """# The rules
## Histories (Temporal, Events)

| | Rule |
|---|---|
| H1 | A signal writes an event. It is the only one. |
| H2 | Latest [run](#runs) | open |  |

**H3** `start` names a queue: any.

- **H4** A list of rules that goes on and on and on and on.

## Lines (ours)
| L | no rule |
"""
INI = """# a comment
[H1]
code =
    shard/signals.rt
definition =
    service_model/Signals: signal
    wf_event/Role: role
example =
    TaskRows: repeated_signal
case =
    signals: a repeated signal
wrong body =
    shard: repeated_signal_adds_an_event

[H2]

[H3]

[H4]
"""


class Rules(unittest.TestCase):
    def faults(self, old: str, new: str) -> list:
        self.assertIn(old, PROFILE + INI)
        self.assertEqual(docs_rules.faults_of_rules(PROFILE, INI), [])
        return docs_rules.faults_of_rules(PROFILE.replace(old, new, 1), INI.replace(old, new, 1))

    def test_the_rules_of_a_text_in_their_order(self):
        self.assertEqual([(rule.number, rule.part, rule.text) for rule in docs_rules.rules_in(PROFILE)], [
            ("H1", "Histories", "A signal writes an event. It is the only one."),
            ("H2", "Histories", "Latest [run](#runs), open"),
            ("H3", "Histories", "`start` names a queue: any."),
            ("H4", "Histories", "A list of rules that goes on and on and on and on."),
        ])

    def test_a_reference_that_is_not_there_is_a_fault(self):
        for old, new in [
            ("shard/signals.rt", "shard/signal.rt"), ("shard/signals.rt", "signals.rt"),
            ("shard/signals.rt", "shard/src/signals.rt"), ("Signals: signal", "Signals: signalled"),
            ("wf_event/Role: role", "Role: role"), ("TaskRows: r", "TaskRow: r"),
            ("signals: a repeated", "signals: the repeated"), ("adds_an_event", "adds_no_event"),
            ("wrong body =", "mutant ="), ("example =", "examples ="),
        ]:
            with self.subTest(new=new):
                self.assertEqual(len(self.faults(old, new)), 1)

    def test_rules_that_differ_are_a_fault(self):
        for old, new, count in [
            ("[H4]", "[H5]", 2), ("[H4]\n", "", 1), ("| H2 |", "| H1 |", 2), ("**H3**", "**H4**", 2),
            ("[H2]\n\n[H3]", "[H3]\n\n[H2]", 1),
        ]:
            with self.subTest(new=new):
                self.assertEqual(len(self.faults(old, new)), count)

    def test_the_table_has_a_row_for_each_rule(self):
        text = docs_rules.trace(PROFILE, INI)
        self.assertIn("\n## Histories\n\n| Rule | Code | Definition | Example | Case | Wrong body |\n", text)
        self.assertIn("\n| **H1** A signal writes an event | `shard/signals.rt` | `service_model/Signals: signal`, "
                      "`wf_event/Role: role` | `TaskRows: repeated_signal` | `signals: a repeated signal` | "
                      "`shard: repeated_signal_adds_an_event` |\n", text)
        self.assertIn("\n| **H2** Latest run, open | - | - | - | - | - |\n", text)
        self.assertIn("\n| **H4** A list of rules that goes on and on and .. | -", text)
        self.assertEqual(docs_rules.missing_beside_rules(text), [])

    def test_a_rule_is_shown_with_all_that_stands_beside_it(self):
        lines = docs_rules.shown("H1", PROFILE, INI).splitlines()
        self.assertEqual(lines[0], "H1 (Histories): A signal writes an event. It is the only one.")
        self.assertEqual(lines[1:3], ["  code: shard/signals.rt", "  definition: service_model/Signals: signal"])
        self.assertEqual(docs_rules.shown("H9", PROFILE, INI), "PROFILE has no rule H9")

    def test_the_head_of_a_source_names_rules_by_their_numbers(self):
        top = docs_rules.TOP
        self.assertEqual(docs_claims.wrong_heads("//! A file. Rules: H3, W2.\n", top), [])
        self.assertEqual(docs_claims.wrong_heads("//! A file. Rules: H3,\n//! W99.\n", top),
                         ["no such rule of PROFILE: W99"])
        self.assertEqual(docs_claims.wrong_heads("//! Rules: H3.\n", top, "shard/signals.rt"), [])
        self.assertEqual(docs_claims.wrong_heads("//! Rules: H4.\n", top, "shard/signals.rt"),
                         ["its head has the rules H4, and docs/rules.ini H3"])
        self.assertEqual(len(docs_claims.wrong_heads("//! Rules: H3.\n", top, "shard/reads.rs")), 1)

    def test_heads_get_the_numbers_of_their_rules(self):
        head = ("//! Signals.\n//!\n//! Rule: PROFILE, Histories. Definition: Signals,\n//! Role. Rows: TaskRows. "
                "Cases: signals,\n//! starts.\n\nuse a::b;\n")
        with tempfile.TemporaryDirectory() as folder:
            file = Path(folder, "crates/shard/src/signals.rt")
            file.parent.mkdir(parents=True)
            file.write_text(head)
            other = Path(folder, "crates/shard/src/more/other.rt")
            other.parent.mkdir()
            other.write_text(head)
            lines = docs_rules.heads(INI, Path(folder), writes=True)
            self.assertEqual(lines, ["crates/shard/src/more/other.rt: no rule has it as its code",
                                     "crates/shard/src/signals.rt: H1"])
            self.assertEqual(file.read_text(), "//! Signals.\n//!\n//! Rules: H1.\n\nuse a::b;\n")
            self.assertEqual(other.read_text(), head)

    def test_each_head_that_names_a_part_has_rules(self):
        ini = (docs_rules.TOP / "docs/rules.ini").read_text(encoding="utf-8")
        lines = docs_rules.heads(ini, docs_rules.TOP, writes=False)
        self.assertEqual([line for line in lines if "no rule" in line], [])

    def test_the_documents_agree(self):
        self.assertEqual(docs_rules.faults(), [])


if __name__ == "__main__":
    unittest.main()
