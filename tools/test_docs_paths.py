"""Paths and names that comments of sources and documents cite are looked up where they have to be."""

import sys
import tempfile
import unittest
from pathlib import Path

sys.path.insert(0, str(Path(__file__).resolve().parent))
import check_docs
import docs_claims
import docs_paths

FILES = {
    "crates.txt": "low:\nhigh: low std_io\n",
    "crates/low/specs/Records.antt": "-- MEANING: records\nabbrev pub past : ℕ\npast = 0\n",
    "crates/low/src/open.rt": "fn open() {}\n",
    "crates/high/specs/Rules.antt": "-- MEANING: rules\nabbrev pub rule : ℕ\nrule = 0\n",
    "crates/high/proofs/close/gather/Answers.antt": "use a.b.{c}\n",
    "crates/high/proofs/Lemmas.antt": "pub grows : ℕ\ngrows = 0\n",
    "crates/high/must-fail/forgets.md": "new: 1\n",
}
THERE = (
    "specs/Rules", "`specs/Rules.antt`", "specs/Rules.rule", "low/specs/Records", "low/specs/{Records, ..}",
    "low/specs/Records.{past}", "low/src/open.rt", "crates/low/src/open", "proofs/close/gather", "proofs/Lemmas.grows",
    "must-fail/forgets", "std_io/specs/Writer", "in `proofs/`", "proofs/*Rows", "either specs or proofs",
)
NOT_THERE = (
    "specs/Records", "specs/Rule", "`specs/Rules.antts`", "specs/Rules.rules", "low/specs/{Records, Rules}",
    "low/specs/Records.{past, later}", "low/src/close.rt", "src/open.rt", "proofs/close/other", "proofs/Lemmas.grow",
    "must-fail/forget",
)


class Paths(unittest.TestCase):
    def setUp(self):
        folder = tempfile.TemporaryDirectory()
        self.addCleanup(folder.cleanup)
        self.top = Path(folder.name)
        for name, text in FILES.items():
            path = self.top / name
            path.parent.mkdir(parents=True, exist_ok=True)
            path.write_text(text, encoding="utf-8")
        self.source = self.top / "crates/high/src/lib.rt"

    def faults(self, comment):
        return docs_paths.faults_of_source(f"//! What it does:\n//! {comment}.\nfn f() {{}}\n", self.source, self.top)

    def test_what_a_comment_cites_of_its_crate_or_of_one_that_it_names(self):
        for text in THERE:
            with self.subTest(text=text):
                self.assertEqual(self.faults(text), [])
        for text in NOT_THERE:
            with self.subTest(text=text):
                self.assertEqual(len(self.faults(text)), 1)

    def test_all_kinds_of_comments_are_read_and_no_code(self):
        for line in ("//! see specs/Rule", "    /// see specs/Rule", "// see specs/Rule"):
            self.assertEqual(len(docs_paths.faults_of_source(line, self.source, self.top)), 1, line)
        lemmas = self.top / "crates/high/proofs/Lemmas.antt"
        self.assertEqual(len(docs_paths.faults_of_source("  -- see specs/Rule", lemmas, self.top)), 1)
        self.assertEqual(docs_paths.faults_of_source('let a = "specs/Rule";', self.source, self.top), [])

    def test_a_list_that_goes_over_two_lines_of_a_comment(self):
        text = "// low/specs/{Records,\n// Rules}\n"
        self.assertEqual(len(docs_paths.faults_of_source(text, self.source, self.top)), 1)

    def test_a_document_names_the_crate_in_its_path_or_in_its_row(self):
        self.assertEqual(docs_paths.faults_of_document("| layer | high | `specs/Rules` |", self.top), [])
        self.assertEqual(len(docs_paths.faults_of_document("| layer | low | `specs/Rules` |", self.top)), 1)
        self.assertEqual(docs_paths.faults_of_document("Any crate's `specs/Rules`, and specs/None.", self.top), [])
        self.assertEqual(len(docs_paths.faults_of_document("No crate's `specs/None`.", self.top)), 1)

    def test_a_name_that_stands_in_comments_alone_is_not_there(self):
        code = self.top / "crates/low/src/open.rt"
        code.write_text("// closed by `no_such_call_anywhere`\nfn opened() {}\n")
        text = docs_paths.without_comments(code.read_text(), ".rt")
        self.assertEqual(check_docs.missing_of("opened", set(check_docs.WORD.findall(text))), [])
        self.assertEqual(len(check_docs.missing_of("no_such_call_anywhere", set(check_docs.WORD.findall(text)))), 1)

    def test_the_tree_has_comments_that_cite_files(self):
        crates = docs_claims.crates_of(check_docs.TOP)
        comments = [docs_paths.comments_of(file.read_text(encoding="utf-8"), ".rt")
                    for crate in crates for file in (check_docs.TOP / "crates" / crate / "src").rglob("*.rt")]
        self.assertGreater(sum(len(list(docs_paths.cited_in(text))) for text in comments), 3)


if __name__ == "__main__":
    unittest.main()
