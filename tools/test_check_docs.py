"""Links to headings, and what is hard to read, are looked for in each document."""

import sys
import tempfile
import unittest
from pathlib import Path

sys.path.insert(0, str(Path(__file__).resolve().parent))
import check_docs

OTHER = "# Another page\n\n## Deleted runs (Temporal, Retention Period)\n\n### What `wfserve --trace` prints\n"
THERE = ("[here](#the-promise-written-out)", "[a](other.md#deleted-runs-temporal-retention-period)",
         "[b](other.md#another-page)", "[c](other.md#what-wfserve---trace-prints)", "[d](https://a.b/c.md#d)",
         "[e](none.md#any)", "[f](other.md)")
NOT_THERE = ("[here](#the-promise)", "[a](other.md#deleted-runs)", "[b](other.md#Another-page)")


class Anchors(unittest.TestCase):
    def setUp(self):
        folder = tempfile.TemporaryDirectory()
        self.addCleanup(folder.cleanup)
        self.page = Path(folder.name, "page.md")
        self.page.write_text("# A page\n\n## The promise, written out\n", encoding="utf-8")
        Path(folder.name, "other.md").write_text(OTHER, encoding="utf-8")

    def test_headings_that_are_there(self):
        for link in THERE:
            with self.subTest(link=link):
                self.assertEqual(check_docs.wrong_anchors(self.page, link), [])

    def test_headings_that_are_not(self):
        for link in NOT_THERE:
            with self.subTest(link=link):
                self.assertEqual(len(check_docs.wrong_anchors(self.page, link)), 1)

    def test_what_is_hard_to_read_is_said_by_its_line(self):
        self.page.write_text(f"Short.\n\n{'word ' * 41}end.\n\nIt stands behind that.\n", encoding="utf-8")
        faults = check_docs.hard_to_read(self.page)
        self.assertEqual([fault.partition(":")[0] for fault in faults], ["line 3", "line 5"])


if __name__ == "__main__":
    unittest.main()
