"""Files that name what was added are counted by what they are, and those that are generated apart."""

import contextlib
import io
import sys
import unittest
from pathlib import Path

sys.path.insert(0, str(Path(__file__).resolve().parent))
import generate
import places
from places import Place
from scratch import Scratch

WRITTEN = "pub struct Start {\n    retention: Span,\n}"
FILES = {
    "crates/low/src/lib.rt": f"{WRITTEN}\n\nfn f() {{}}\n",
    "crates/low/src/more.rt": f"{WRITTEN}\n\n// the retention, and retentions\n",
    "crates/low/specs/Words.antt": "-- retention, and once more: retention\n",
    "crates/low/proofs/f/Answers.antt": "retention\n",
    "crates/low/out/kept.rt": "retention\n",
    "crates/low/must-fail/a.md": "retention\n",
    "crates/low_tests/src/lib.rt": "retention\n",
    "tests/above/main.rs": "retention\n",
    "tests/cases/data/some.cases": "retention\n",
    "docs/CHANGING.md": "Before.\n\n| What was added | Files |\n|---|---|\n| old | 1 |\n\nAfter.\n",
}


class Places(Scratch):
    FILES = FILES

    def setUp(self):
        super().setUp()
        parts = [generate.Part(f"low/src/{name}.rt", "pub struct Start {", WRITTEN) for name in ("lib", "more")]
        self.replace(places, TOP=self.top, generated=lambda top: {part.path: [part] for part in parts})

    def test_each_file_says_what_it_is_and_what_of_it_is_generated(self):
        found = list(places.places(("retention",), places.generated(self.top), self.top))
        self.assertEqual(found, [
            Place("crates/low/proofs/f/Answers.antt", "proofs", 1, 1),
            Place("crates/low/specs/Words.antt", "definitions", 2, 2),
            Place("crates/low/src/lib.rt", "code", 1, 0),
            Place("crates/low/src/more.rt", "code", 2, 1),
            Place("crates/low_tests/src/lib.rt", "tests and cases", 1, 1),
            Place("tests/above/main.rs", "tests and cases", 1, 1),
            Place("tests/cases/data/some.cases", "tests and cases", 1, 1),
        ])

    def test_a_document_has_the_table_or_lacks_its_rows(self):
        document = self.top / "docs/CHANGING.md"
        rows = places.table(self.top)
        self.assertEqual(rows[2], "| a setting: `retention` | 7 | 1 | 1 | 1 | 1 | 3 |")
        self.assertEqual(len(places.faults(document.read_text(), self.top)), len(rows))
        places.write(rows, document)
        self.assertEqual(places.faults(document.read_text(), self.top), [])
        self.assertTrue(document.read_text().startswith("Before.\n\n| What") and document.read_text().endswith("|\n\nAfter.\n"))

    def test_a_document_without_such_a_table_is_refused(self):
        document = self.top / "docs/CHANGING.md"
        document.write_text("no table\n")
        with self.assertRaises(LookupError):
            places.write(places.table(self.top), document)
        self.assertEqual(document.read_text(), "no table\n")

    def test_words_are_listed_with_their_files(self):
        with contextlib.redirect_stdout(io.StringIO()) as out:
            self.replace(places, generated=lambda top=None: {}, places=lambda words, parts: [Place("crates/a", "code", 3, 2)])
            self.assertEqual(places.main(["retention"]), 0)
        self.assertEqual(out.getvalue(), "   3    2 by hand  code             crates/a\n")


if __name__ == "__main__":
    unittest.main()
