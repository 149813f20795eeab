"""What ids and tokens say, and which event ends which: held against README, and against the tables that the program has."""

import re
import unittest

from support import ROOT
from wfserve import events, ids

SHOWN = "AQEAAAAAAAAAAAABAAAAAAAAAAIAAAAB"


class Ids(unittest.TestCase):
    def test_a_token_that_readme_shows(self):
        self.assertIn(SHOWN, (ROOT / "README.md").read_text(encoding="utf-8"))
        token = ids.Token(ids.TaskKind.WORKFLOW, shard=0, run=1, event=2, attempt=1)
        self.assertEqual((ids.token_of(SHOWN), token.text()), (token, SHOWN))
        self.assertEqual(ids.run_of_token(SHOWN, 1), "00000000-0001-8000-8000-000000000001")
        self.assertEqual(ids.service_of("00000000-0001-8000-8000-000000000001"), 1)

    def test_what_is_no_token(self):
        for text in ("", "A", SHOWN[:-4], SHOWN + "AAAA", "*" * 32, "\u00fc" * 32):
            self.assertIsNone(ids.token_of(text), text)

    def test_a_token_of_a_shard_that_is_not_there(self):
        text = ids.token_text(ids.TaskKind.ACTIVITY, run=7, event=5, attempt=2, shard=3)
        self.assertEqual((ids.shard_of_token(text, 4), ids.shard_of_token(text, 3)), (3, None))

    def test_numbers_at_their_limits_come_back(self):
        for run, event, attempt, shard in ((0, 0, 0, 0), (2**62 - 1, 2**64 - 1, 2**32 - 1, 2**12 - 1)):
            token = ids.Token(ids.TaskKind.ACTIVITY, shard, run, event, attempt)
            self.assertEqual(ids.token_of(token.text()), token)
            self.assertEqual(ids.service_of(ids.run_id(2**48 - 1, shard, run)), 2**48 - 1)


class Events(unittest.TestCase):
    TABLES = (ROOT / "tools/fields/events.toml").read_text(encoding="utf-8")

    def fields_of(self, name):
        """The fields of a type of the program's tables, each with its own type."""
        found = re.search(rf'^name = "{name}"\n(.*?)(?=^\[\[|\Z)', self.TABLES, re.DOTALL | re.MULTILINE)
        self.assertIsNotNone(found, f"no type is named {name}")
        return dict(re.findall(r'^    "(\w+) ?(?:Boxed<)?(\w*)>?(?: [\w ]+)?"', found[1], re.MULTILINE))

    def keys_of(self, event):
        """The fields of an event."""
        return self.fields_of(self.fields_of("Attributes")[event])

    def test_each_end_has_the_key_by_which_it_is_found(self):
        for name, key in {**events.ENDS, **events.SETTLES}.items():
            self.assertIn(key, self.keys_of(name), name)

    def test_each_opening_has_its_name(self):
        for event, opening in events.OPENINGS.items():
            self.assertIn(opening.name, self.keys_of(event), event)

    def test_every_event_that_closes_a_run_has_a_status(self):
        names = {name for name in self.fields_of("Attributes") if name.startswith("WorkflowExecution")}
        open_runs = {"WorkflowExecutionStarted", "WorkflowExecutionSignaled", "WorkflowExecutionCancelRequested"}
        self.assertEqual(set(events.STATUS), names - open_runs)

    def test_what_is_pending(self):
        history = [
            {"id": 1, "at": 10, "type": "ActivityTaskScheduled", "attrs": {"activity_id": "a"}},
            {"id": 2, "at": 11, "type": "TimerStarted", "attrs": {"timer_id": "t"}},
            {"id": 3, "at": 12, "type": "ActivityTaskStarted", "attrs": {"scheduled": 1}},
            {"id": 4, "at": 13, "type": "TimerFired", "attrs": {"started": 2}},
            {"id": 5, "at": 14, "type": "WorkflowTaskScheduled", "attrs": {"attempt": 1}},
        ]
        self.assertEqual(events.pending(history), [{"kind": "activity", "id": "a", "event": 1, "since": 10}])
        self.assertEqual(events.status_of(history), "Running")


if __name__ == "__main__":
    unittest.main()
