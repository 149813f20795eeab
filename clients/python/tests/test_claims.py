"""What tools/docs_claims.py finds: nothing in the documents as they are, and each claim that is made untrue."""

import tempfile
import unittest
from pathlib import Path

from support import ROOT, add_tools

add_tools()
import check_docs
import docs_claims


def text_of(path):
    return (ROOT / path).read_text(encoding="utf-8")


class Claims(unittest.TestCase):
    """Of each look: that it finds nothing in the document as it is, and what it finds in one that was changed."""

    def faults(self, look, path, old, new):
        text = text_of(path)
        self.assertEqual(look(text, ROOT), [])
        self.assertIn(old, text)
        return look(text.replace(old, new, 1), ROOT)

    def test_a_crate_without_a_row_and_a_row_without_a_crate(self):
        look, path = docs_claims.crates_without_a_row, "docs/ARCHITECTURE.md"
        self.assertEqual(self.faults(look, path, "| | task_token |", "| | task_tokens |"),
                         ["no row for the crate task_token", "no such crate: task_tokens"])
        self.assertEqual(self.faults(look, path, "| | task_token |", "| | task_token, matching |"),
                         ["two rows for the crate matching"])

    def test_a_contract_that_is_not_there(self):
        look, path = docs_claims.wrong_contracts, "docs/PROVED.md"
        wrong = {
            "| retry |": "| retries |",
            "`wait_after`": "`wait_behind`",
            "`value`, `one_open`": "`value`, `two_open`",
            "| `pushed`, `popped`, `stood` |": "| the only one |",
            "`IsTried` or `IsServedBy`: `own`,": "`IsTried` or `IsServedBy`: `mine`,",
        }
        for old, new in wrong.items():
            with self.subTest(new=new):
                self.assertNotEqual(self.faults(look, path, old, new), [])

    def test_a_promise_that_no_clause_makes(self):
        look = docs_claims.wrong_promises
        wrong = {
            "clauses of `meet` (`met`, `hints`)": "clauses of `meet` (`met`, `popped`)",
            "clauses of `close` (`queues`) and": "clauses of `closes` (`queues`) and",
            "clause (`IsSequential`, `kept`)": "clause (`IsSequential`, `keeps`)",
        }
        for old, new in wrong.items():
            with self.subTest(new=new):
                self.assertEqual(len(self.faults(look, "README.md", old, new)), 1)

    def test_calls_that_may_wait(self):
        look, path = docs_claims.wrong_waits, "docs/PROVED.md"
        self.assertEqual(self.faults(look, path, "`Gate::step`, ", "`Gate::try_step`, "),
                         ["it may wait, and isn't named: step", "it never waits: try_step"])
        self.assertEqual(len(look("Nothing waits.", ROOT)), 1)

    def test_what_can_be_asked_and_is_not_written(self):
        look, path = docs_claims.unnamed, "docs/PROFILE.md"
        wrong = {
            "\n| heartbeat | token": "\n| heartbeats | token",
            "\n| CancelTimer | timer_id": "\n| CancelTimers | timer_id",
            "| TimerFired, TimerCanceled |": "| TimerFired |",
        }
        for old, new in wrong.items():
            with self.subTest(new=new):
                self.assertEqual(len(self.faults(look, path, old, new)), 1)
        for word in ("--capacity", "--retention", "--journal", "--trace", "QueueFull", "CommandAfterClose", "retry_ready"):
            with self.subTest(word=word):
                self.assertEqual(len(look(text_of(path).replace(word, "-"), ROOT)), 1)

    def test_a_file_that_must_be_believed_and_is_not_listed(self):
        text = text_of("docs/ARCHITECTURE.md")
        believed = ["gate/specs/AtClose", "wire_lines/specs/Lines", "timeouts/specs/Members", "wf_event/specs/Role"]
        self.assertEqual(docs_claims.not_to_be_believed(text, believed), [])
        self.assertEqual(len(docs_claims.not_to_be_believed(text, ["gate/specs/SlotRule", "shard/specs/View"])), 2)
        self.assertEqual(len(docs_claims.not_to_be_believed("Nothing.", believed)), 1)

    def test_lemmas_and_files_that_are_not_there(self):
        there = ["- `gate.proofs`: `Growth`", "`wf_event/specs/Role.role`", "`Deciding.outcome_in`",
                 "- `transfer.proofs`: `ContentLemmas.{with_all_sent-cons, with_all_sent-nil}`"]
        for line in there:
            self.assertEqual(docs_claims.wrong_lemmas(line, ROOT), [], line)
        wrong = ["`gate/specs/Pass`", "`gate/specs/{Passes, Pass}`", "`wf_event/specs/Role.rule`",
                 "`Deciding.outcome_out`", "- `gate.proofs`: `Growth.with_all_sent-cons`",
                 "`ContentLemmas.{with_all_sent-cons, sent}`"]
        for line in wrong:
            with self.subTest(line=line):
                self.assertEqual(len(docs_claims.wrong_lemmas(line, ROOT)), 1)

    def test_the_head_of_a_file_of_rules(self):
        look, path = docs_claims.wrong_heads, "crates/shard/src/starts.rt"
        self.assertEqual(self.faults(look, path, "Rules: I1,", "Rules: I99,"), ["no such rule of PROFILE: I99"])
        text = text_of(path)
        self.assertEqual(look(text, ROOT, "shard/starts.rt"), [])
        for other in ("Rules: I2, I1", "Rules: I2", "Rules: I1, I2, I2"):
            said = look(text.replace("Rules: I1, I2", other), ROOT, "shard/starts.rt")
            self.assertRegex(said[0], "^its head has the rules")

    def test_a_head_that_names_its_part_of_the_profile(self):
        head = "//! Rule: PROFILE, Workflow IDs. Definition: Starts. Rows: TaskRows. Cases: starts, policies.\n"
        self.assertEqual(docs_claims.wrong_heads(head, ROOT), [])
        for old, new, fault in (
            ("PROFILE, Workflow IDs", "PROFILE, IDs", "no such part of PROFILE: IDs"),
            ("Definition: Starts", "Definition: Begins", "no such definition: Begins"),
            ("Rows: TaskRows", "Rows: StartRows", "no such row: StartRows"),
            ("starts, policies", "starts, policy", "no such case: policy"),
            ("Cases:", "Tests:", "its head names no rule, definition, rows and cases"),
        ):
            self.assertEqual(docs_claims.wrong_heads(head.replace(old, new), ROOT), [fault])

    def test_another_kit(self):
        self.assertEqual(docs_claims.other_kits("With rattle-kit-1a.", "rattle-kit-1a logic 0\n"), [])
        self.assertEqual(len(docs_claims.other_kits("With rattle-kit-1a.", "rattle-kit-1b logic 0\n")), 1)


class Names(unittest.TestCase):
    """Names in back quotes."""

    def test_what_is_cited_has_to_stand_in_the_tree(self):
        words = {"Service", "serve", "try_serve", "gate", "src", "rt", "meet", "close"}
        there = ["Service::{serve, try_serve}", "gate/src/meet.rt", "gate/src/{meet, close}.rt", "docs/PROFILE.md",
                 "not a name: anything"]
        for quoted in there:
            self.assertEqual(check_docs.missing_of(quoted, words), [], quoted)
        wrong = ["Service::{serve, try_serves}", "Service::serves", "docs/PROFILES.md", "gate/src/{meet, serve}.rt"]
        for quoted in wrong:
            with self.subTest(quoted=quoted):
                self.assertEqual(len(check_docs.missing_of(quoted, words)), 1)


class Merges(unittest.TestCase):
    """What a merge leaves where its two sides differ."""

    def faults(self, text):
        with tempfile.TemporaryDirectory() as folder:
            file = Path(folder, "page.md")
            file.write_bytes(text)
            return check_docs.left_of_merges(file)

    def test_each_line_that_a_merge_leaves_is_a_fault(self):
        for line in ("<" * 7 + " HEAD", "|" * 7 + " base", "=" * 7, ">" * 7 + " 0123abc"):
            with self.subTest(line=line):
                self.assertEqual(self.faults(f"one\n{line}\ntwo\n".encode()), [f"line 2 is left of a merge: {line}"])

    def test_what_only_looks_like_it_is_none(self):
        for line in ("<" * 7, "  " + "=" * 7, "=" * 8, "a " + ">" * 7 + " b", ""):
            self.assertEqual(self.faults(f"one\n{line}\ntwo\n".encode()), [], line)
        self.assertEqual(self.faults(b"\xff\n" + b"=" * 7 + b"\n"), [])


if __name__ == "__main__":
    unittest.main()
