"""Words that a stranger stumbles over are found where they are prose, and nowhere else."""

import sys
import tempfile
import unittest
from pathlib import Path

sys.path.insert(0, str(Path(__file__).resolve().parent))
import plain_words

LEFT_ALONE = (
    "many shards behind one gate", "behind a `Mutex` that nobody takes", "it lies behind boxes", "left, and gone away",
    "`signals: a signal that is held back`", "[here](#what-is-held-back)", "    what is held back\n", "hold it, then go",
    "```\nbehind it\n```\n", "what a machine says. Of these two are left",
)
FOUND = {
    "It comes behind the events.": "behind",
    "A run is taken\naway.": "taken\naway",
    "Runs are Taken Away by a turn.": "Taken Away",
    "It takes it away.": "takes it away",
    "refused for want of memory": "for want of memory",
    "by want of memory": "want of memory",
    "An event is held back.": "held back",
    "what a worker says of it": "says of",
    "A last line is left away.": "left away",
    "a signal that calls it off": "calls it off",
}


class Words(unittest.TestCase):
    def test_what_is_left_alone(self):
        for text in LEFT_ALONE:
            with self.subTest(text=text):
                self.assertEqual(plain_words.found_in(text), [])

    def test_what_is_found(self):
        for text, word in FOUND.items():
            with self.subTest(text=text):
                self.assertEqual([one.text for one in plain_words.found_in(text)], [word])

    def test_each_is_found_in_its_line(self):
        text = "It is held back.\n`held back`\n\nbehind it, and behind a gate\n"
        found = [(one.line, one.text) for one in plain_words.found_in(text)]
        self.assertEqual(found, [(1, "held back"), (4, "behind")])

    def test_only_what_always_fits_is_replaced(self):
        text = "refused for want of memory, `for want of memory`, held back, taken away\n"
        replaced = "refused when memory runs out, `for want of memory`, buffered, taken away\n"
        self.assertEqual(plain_words.replaced(text), replaced)

    def test_of_a_source_only_comments_are_looked_at_and_changed(self):
        source = '/// Refused for want of memory.\nlet said = "for want of memory"; // it\n'
        self.assertEqual(plain_words.replaced_in_comments(source, ".rt"),
                         '/// Refused when memory runs out.\nlet said = "for want of memory"; // it\n')
        found = plain_words.found_in(plain_words.comments_by_line(source, ".rt"))
        self.assertEqual([(one.line, one.text) for one in found], [(1, "for want of memory")])

    def test_sources_are_looked_for_below_a_folder_and_builds_are_not(self):
        with tempfile.TemporaryDirectory() as folder:
            for name in ("src/a.rt", "specs/B.antt", "out/src/c.rt", "src/d.txt", "README.md"):
                Path(folder, name).parent.mkdir(parents=True, exist_ok=True)
                Path(folder, name).write_text("", encoding="utf-8")
            found = [str(path.relative_to(folder)) for path in plain_words.sources([Path(folder)])]
            self.assertEqual(found, ["README.md", "specs/B.antt", "src/a.rt"])


if __name__ == "__main__":
    unittest.main()
