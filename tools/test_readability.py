"""Sentences of documents, and how long they are."""

import sys
import unittest
from pathlib import Path

sys.path.insert(0, str(Path(__file__).resolve().parent))
import readability

TEXT = """# A heading of many words is no sentence. It has no end

One two three. Four `five six seven` eight!
This goes on over
two lines.

- An item [with a link](docs/of-many-words.md) ends here
- (In brackets it ends.) And so on: with a colon it goes on.

    code is. no sentence
```
a picture. of nothing
```
| A cell | another one. Of two |
|---|---|
| 1 | it's 1,024 or 0.5 |
"""
WORDS = [(3, 3), (3, 3), (3, 6), (7, 7), (8, 4), (8, 9), (14, 2), (14, 2), (14, 2), (16, 1), (16, 4)]


class Sentences(unittest.TestCase):
    def test_where_each_begins_and_how_many_words_it_has(self):
        self.assertEqual([(one.line, one.words) for one in readability.sentences(TEXT)], WORDS)

    def test_only_those_over_the_limit_are_too_long(self):
        text = " ".join(["word"] * 40) + ". " + " ".join(["word"] * 41) + "."
        self.assertEqual([one.words for one in readability.too_long(text)], [41])
        self.assertEqual([one.words for one in readability.too_long(text, 39)], [40, 41])

    def test_an_item_that_follows_a_paragraph_begins_anew(self):
        text = "A paragraph\n- an item\n  that goes on\n1. another\n"
        self.assertEqual([one.text for one in readability.sentences(text)],
                         ["A paragraph", "an item that goes on", "another"])


if __name__ == "__main__":
    unittest.main()
