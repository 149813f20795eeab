"""The picture of a trace: of one that the program prints, and of lines that are written down here."""

import json
import re
import unittest
import xml.etree.ElementTree as xml

from support import add_tools
from support.stored_cases import cases_of
from wfserve import picture as timeline, trace_picture

add_tools()


def step(ticket, shard, op, by=0, **request):
    return {"pass": by, "request": {"at": 0, "op": op, **request}, "shard": shard, "ticket": ticket}


TURN = [
    step(1, 0, "next_transfer", to=1),
    step(2, 1, "history", by=1, workflow_id="<b>"),
    step(3, 1, "deliver", transfer={"content": {}, "from": 0, "kind": "signal_external", "number": 1}),
    step(4, 0, "acknowledge", number=1, to=1),
]


def drawn(steps):
    """The texts beside the steps of a picture, and its arrows, each from a place to a place."""
    picture = xml.fromstring(trace_picture.picture(steps))
    space = "{http://www.w3.org/2000/svg}"
    said = ["".join(text.itertext()).strip() for text in picture.iter(f"{space}text") if text.get("class") == "said"]
    arrows = [path.get("d") for path in picture.iter(f"{space}path") if "marker-end" in path.keys()]
    ends = [re.findall(r"[\d.]+ [\d.]+", arrow) for arrow in arrows]
    return said, [(one[0], one[-1]) for one in ends]


class TracePicture(unittest.TestCase):
    def test_steps_stand_in_the_order_of_their_tickets(self):
        steps = trace_picture.steps_in([{"line": 1, "ok": "none"}, *reversed(TURN)])
        self.assertEqual([one["ticket"] for one in steps], [1, 2, 3, 4])

    def test_a_transfer_goes_from_its_reading_over_its_delivery_to_its_acknowledgement(self):
        self.assertEqual(trace_picture.transfers_in(TURN), [(0, 2, 3)])

    def test_a_turn_that_ended_early_has_one_arrow(self):
        self.assertEqual(trace_picture.transfers_in(TURN[:3]), [(0, 2, None)])

    def test_a_turn_that_is_made_again_has_arrows_of_its_own(self):
        again = [*TURN[:3], step(4, 0, "next_transfer", to=1), {**TURN[2], "ticket": 5}, {**TURN[3], "ticket": 6}]
        self.assertEqual(trace_picture.transfers_in(again), [(0, 2, None), (3, 4, 5)])

    def test_turns_of_two_lanes_are_kept_apart(self):
        other = [{**one, "pass": 1} for one in (TURN[0], TURN[2], TURN[3])]
        self.assertEqual(trace_picture.transfers_in([TURN[0], other[0], TURN[2], other[1], other[2], TURN[3]]),
                         [(0, 2, 5), (1, 3, 4)])

    def test_the_page_shows_each_step_and_no_markup_of_its_texts(self):
        page = timeline.page_of([json.dumps(one) for one in TURN[:3]])
        self.assertEqual(page.count("<circle"), 3)
        self.assertIn("shard 1", page)
        self.assertNotIn("<b>", page)

    def test_a_child_on_another_shard_as_the_program_prints_it(self):
        lines = cases_of("trace")["the parts of turns and a poll, and a child on the other shard"].replies
        steps = trace_picture.steps_in(timeline.said_in(lines))
        said, arrows = drawn(steps)
        self.assertEqual(said, [
            "start a", "next_dispatch", "dispatched 1", "start_task workflow, run 1", "complete_workflow_task run 1",
            "next_transfer to shard 1", "deliver start_child 1", "acknowledge 1",
        ])
        read, delivered, acknowledged = (f"{x} {y}" for x, y in (trace_picture.place(steps, row) for row in (5, 6, 7)))
        self.assertEqual(arrows, [(read, delivered), (delivered, acknowledged)])

    def test_a_transfer_within_a_shard_goes_round_the_steps_between(self):
        transfer = {**TURN[2]["request"]["transfer"], "from": 1}
        steps = [step(1, 1, "next_transfer", to=1), TURN[1], step(3, 1, "deliver", transfer=transfer)]
        said, arrows = drawn(steps)
        self.assertEqual(len(said), 3)
        self.assertEqual(len(arrows), 1)
        self.assertIn(" Q", trace_picture.picture(steps))

    def test_long_texts_end_where_the_column_does(self):
        said, _ = drawn([step(1, 0, "request_cancel", workflow_id="w" * 255)])
        self.assertEqual(said, ["request_cancel " + "w" * (trace_picture.LETTERS - len("request_cancel"))])

    def test_without_steps_there_has_to_be_a_history(self):
        with self.assertRaisesRegex(timeline.NothingToDraw, "neither a history nor a trace"):
            timeline.page_of(['{"line":1,"ok":"none"}'])


if __name__ == "__main__":
    unittest.main()
