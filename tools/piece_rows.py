#!/usr/bin/env python3
"""What no line of a script asks, as rows of data: pieces of snapshots that are read and compared, shards that are restored
piece by piece, runs that are the same or aren't, and transfers that come again or too early.

    tools/piece_rows.py PROGRAM

PROGRAM is the built program of tests/above, as tools/unproved_tests.py leaves it. The lines of its mode `compare` are told
in its source. `tools/pieces` has pieces of every kind, texts that are those of none, and what is changed in a line so that one
field is another. The status is 1 where a test fails.
"""
from __future__ import annotations

import json
import subprocess
import sys
import unittest
from pathlib import Path
from typing import NamedTuple

from drawn_requests import kind_of
from journal_program import SECONDS, Line, Tested, run_rows
from snapshot_rows import (
    ACTIVITY_COMPLETED, BEGUN, CLOSED, COUNTED, DISPATCH, HELD, LAST, NOTES, SIGNAL_REQUEST, SIGNALED, SNAPSHOT,
    START_REQUEST, Count, counted, end, signal, transfer)
from wfserve.ids import run_id

TEXTS = Path(__file__).resolve().parent / "pieces"


def lines_of(name: str) -> list[str]:
    """The lines of a file of texts."""
    return (TEXTS / name).read_text(encoding="utf-8").split("\n")[:-1]


# Events of each kind, as histories show them; dispatches and transfers of each kind, as snapshots have them; and lines
# of a snapshot, with one of each kind at least.
EVENTS, SENT, PIECES = lines_of("events.jsonl"), lines_of("sent.jsonl"), lines_of("pieces.jsonl")
# Each is a piece's text but for one thing: a space, an order of keys, a spelling, a key too many, a key that lacks, a null,
# half a parent, a value beyond its limit, another kind's name, details of what is no heartbeat.
NO_EVENTS, NO_PIECES = lines_of("no_events.txt"), lines_of("no_pieces.txt")
# What stands in a line, and what is put there so that one field is another. A digit or a letter before a value makes another
# one of it.
CHANGES = [(old, new) for old, _, new in (line.partition("|") for line in lines_of("changes.txt"))]


class Rows(unittest.TestCase):
    def told(self, lines: list[str]) -> list[str]:
        """What the program prints to these lines."""
        done = subprocess.run([Tested.program, "compare"], input="".join(line + "\n" for line in lines), capture_output=True,
                              text=True, timeout=SECONDS)
        self.assertEqual((done.returncode, done.stderr), (0, ""))
        return done.stdout.split("\n")[:-1]

    def assert_told(self, rows: list[tuple[str, str]]) -> None:
        """The program prints to each of these lines what stands beside it."""
        told = self.told([line for line, _ in rows])
        self.assertEqual(len(told), len(rows))
        for (line, wanted), said in zip(rows, told):
            with self.subTest(line):
                self.assertEqual(said, wanted)


# ---- pieces and their lines

class Pieces(Rows):
    def test_lines_of_each_kind_are_read_and_written_again(self) -> None:
        self.assertEqual([len(EVENTS), len(PIECES), len(SENT)], [45, 15, 10])
        self.assert_told([(f"read {line}", "again") for line in (*EVENTS, *PIECES, *SENT)])

    def test_texts_of_no_piece(self) -> None:
        self.assertEqual([len(NO_EVENTS), len(NO_PIECES)], [14, 25])
        self.assert_told([(f"read {line}", "no piece") for line in (*NO_EVENTS, *NO_PIECES)])

    def test_an_event_with_another_byte_is_another_or_none(self) -> None:
        """At each place; where that leaves no UTF-8, `tools/snapshot_rows.py` has the line."""
        changed = []
        for line in EVENTS:
            text = line.encode()
            for place in range(len(text)):
                for byte in (b"0", b'"'):
                    one = text[:place] + byte + text[place + 1:]
                    changed += [one.decode()] if is_text(one) else []
        told = self.told([f"read {line}" for line in changed])
        self.assertEqual(len(told), len(changed))
        self.assertEqual({*told}, {"again", "no piece"})

    def test_pieces_are_counted_up_to_an_end_or_a_fault(self) -> None:
        whole = "".join(line + "\t" for line in PIECES)
        self.assert_told([
            (f"count {whole}", "15 end"), (f"count {whole[:-1]}", "14 cut"), ("count ", "0 end"),
            ("count " + "".join(line + "\t" for line in NO_PIECES), "0 no piece"), (f"count {whole * 100}", "1500 end"),
        ])


def is_text(one: bytes) -> bool:
    try:
        one.decode()
    except UnicodeDecodeError:
        return False
    return True


class Sameness(Rows):
    """Events, transfers and dispatches that are found the same, and such as differ in one field or in their kind."""

    def test_all_are_the_same_as_themselves_alone(self) -> None:
        pieces = [*EVENTS, *SENT]
        self.assertEqual(len(pieces), 55)
        self.assert_told([(f"same {one}\t{other}", "same" if number == place else "others")
                          for number, one in enumerate(pieces) for place, other in enumerate(pieces)])

    def test_another_field_makes_another(self) -> None:
        """Where the changed line is that of a piece."""
        for lines, count in ((EVENTS, 238), (SENT, 51)):
            changed = [f"same {line}\t{line.replace(old, new, 1)}" for line in lines for old, new in CHANGES if old in line]
            told = self.told(changed)
            self.assertEqual(len(told), len(changed))
            self.assertLessEqual({*told}, {"others", "no piece"})
            self.assertEqual(told.count("others"), count)


# An initial interval, a coefficient, a maximum, the attempts, how many types aren't tried again, and whether a policy may be
# so.
POLICIES = [
    (0, 200, 0, 0, 0, False), (1000000000001, 200, 0, 0, 0, False), (1000, 0, 0, 0, 0, False), (1000, 99, 0, 0, 0, False),
    (1000, 100001, 0, 0, 0, False), (1000, 200, 999, 0, 0, False), (1000, 200, 1000000000001, 0, 0, False),
    (1000, 200, 0, 4294967296, 100, False), (1000, 200, 0, 0, 101, False), (1, 100, 1, 4294967295, 100, True),
    (1, 100000, 1, 4294967295, 100, True),
]


class Policies(Rows):
    def test_policies_by_their_ranges(self) -> None:
        """Each as that of an activity's event."""
        event = next(json.loads(line) for line in EVENTS if '"retry":{' in line)
        rows = []
        for initial, coefficient, maximum, attempts, types, is_good in POLICIES:
            event["attrs"]["retry"] = {"attempts": attempts, "coefficient": coefficient, "initial": initial,
                                       "maximum": maximum, "non_retryable": [""] * types}
            rows.append((f"read {compact(event)}", "again" if is_good else "no piece"))
        self.assert_told(rows)


def compact(said: Line) -> str:
    """A line as the program writes it."""
    return json.dumps(said, separators=(",", ":"), sort_keys=True, ensure_ascii=False)


# ---- shards that are restored piece by piece

def written(*parts: str) -> list[str]:
    """Asks that these lines be written behind what was counted."""
    return [f"piece {line}" for part in (COUNTED, *parts) for line in part.splitlines()]


def ended(*parts: str, last: int = LAST) -> list[str]:
    """Asks that a snapshot of them be ended."""
    return [*written(*parts), f"piece {end(last, 0)}".rstrip("\n")]


# The third attempt ended, and the fourth isn't queued yet.
ENDED = '{"note":{"activity":6,"at":3900,"kind":"ended","times":1}}\n'
OTHER_BEAT = '{"note":{"activity":6,"at":3800,"details":"half of that","kind":"beat","times":1}}\n'
OTHER_REQUEST = '{"request_id":"signal-0"}\n'
# A signal in the place of the one with a request id.
UNNAMED = signal(11)
CANCEL_ASKED = '{"at":4200,"attrs":{"by":"client"},"id":11,"type":"WorkflowExecutionCancelRequested"}\n'
CANCEL_ASKED_ELSEWHERE = CANCEL_ASKED.replace("client", "external")

ONE = (BEGUN, SIGNALED, NOTES)
ALL = (START_REQUEST, BEGUN, SIGNAL_REQUEST, SIGNALED, NOTES, HELD)
ASKED = (*ONE, CANCEL_ASKED)
COMPLETED = (*ONE, ACTIVITY_COMPLETED)


class Runs(NamedTuple):
    """The lines of two runs, and whether these are the same beside their events."""

    one: tuple[str, ...]
    other: tuple[str, ...]
    are_same: bool


RUNS = [
    Runs(ALL, ALL, True),
    Runs(ASKED, ASKED, True),
    Runs(COMPLETED, COMPLETED, True),
    Runs(ONE, (*ONE, UNNAMED), True),
    Runs(ONE, (START_REQUEST, *ONE), False),
    Runs(ONE, (BEGUN, SIGNAL_REQUEST, SIGNALED, NOTES), False),
    Runs(ONE, (BEGUN, SIGNALED), False),
    Runs(ONE, (*ONE, ENDED), False),
    Runs(ONE, (*ONE, OTHER_BEAT), False),
    Runs(ONE, COMPLETED, False),
    Runs(ONE, (BEGUN, NOTES), False),
    Runs(ONE, ASKED, False),
    Runs(ASKED, (*ONE, CANCEL_ASKED_ELSEWHERE), False),
    Runs((BEGUN, SIGNAL_REQUEST, SIGNALED, NOTES), (BEGUN, OTHER_REQUEST, SIGNALED, NOTES), False),
]

# The task that waits and was handed to its queue.
COUNTED_TASK = DISPATCH.replace('"run":5', '"run":4')


def step_of(request: Line) -> str:
    """The line of a step."""
    return compact({"pass": 0, "request": request})


def kinds_in(steps: list[Line], told: list[str]) -> list[str]:
    """Of which kind the replies to steps are. Beside each stands the step that follows of it."""
    replies = map(json.loads, told[::2])
    return [kind_of(step["op"], reply) for step, reply in zip(steps, replies, strict=True)]


def acknowledged(number: int) -> Line:
    """The other shard's acknowledgement of a transfer."""
    return {"at": LAST, "number": number, "op": "acknowledge", "to": 1}


def next_to(shard: int) -> Line:
    """The next transfer to a shard."""
    return {"at": LAST, "op": "next_transfer", "to": shard}


def delivered(number: int) -> Line:
    """A transfer of the other shard: a child that couldn't be started."""
    content = {"initiated": 5, "parent_run": run_id(1, 0, 3)}
    transfer = {"content": content, "from": 1, "kind": "child_start_failed", "number": number}
    return {"at": LAST, "op": "deliver", "transfer": transfer}


# What the shard is asked one after another, and of which kind its reply is.
STEPS = [
    (acknowledged(2), "already counted"), (acknowledged(4), "counted out of order"), (acknowledged(3), "counted"),
    (delivered(4), "already delivered"), (delivered(6), "delivered out of order"), (delivered(5), "accepted"),
]


class Restored(Rows):
    def assert_written(self, parts: list[str]) -> None:
        self.assertEqual({*parts[1:]}, {"written"})
        self.assertEqual(parts[0], "begun")

    def test_what_no_line_asks_is_answered(self) -> None:
        """Transfers that come again or too early, and all tasks that wait."""
        pieces = written(*SNAPSHOT)
        told = self.told([*pieces, f"restored {LAST}", *(f"asked {step_of(step)}" for step, _ in STEPS)])
        self.assert_written(told[:len(pieces)])
        told = told[len(pieces):]
        self.assertEqual(told[:2], [COUNTED_TASK.rstrip("\n"), DISPATCH.rstrip("\n")])
        self.assertEqual(kinds_in([step for step, _ in STEPS], told[2:]), [kind for _, kind in STEPS])

    def test_runs(self) -> None:
        for runs in RUNS:
            with self.subTest(runs):
                one, other = ended(*runs.one), ended(*runs.other)
                told = self.told([*one, *other])
                self.assertEqual((told[len(one) - 1], told[-1]), ("alone", "same" if runs.are_same else "others"))
                self.assert_written(told[:len(one) - 1])
                self.assert_written(told[len(one):-1])

    def test_an_end_before_the_last_step_is_refused(self) -> None:
        self.assertEqual(self.told(ended(CLOSED, last=2000))[-1], "alone")
        self.assertEqual(self.told(ended(CLOSED, last=1999))[-1], "8 run")

    def test_nothing_is_written_after_a_fault(self) -> None:
        told = self.told(ended(START_REQUEST, SIGNAL_REQUEST, BEGUN, last=0))
        self.assertEqual(told, ["begun", "written", *["4 order"] * (len(BEGUN.splitlines()) + 2)])


# ---- transfers that are issued, delivered and acknowledged

# What the first of two shards counts of the second, and two transfers to it that wait.
NONE_COUNTED = counted(Count(), Count())
TWO_WAIT = [transfer(1, number, 0) for number in (1, 2)]
# A number that is acknowledged one after another, what is said about it, and the number of the first transfer that isn't
# acknowledged then.
ACKNOWLEDGED = [
    (2, "counted out of order", 1), (1, "counted", 2), (1, "already counted", 2), (2, "counted", None),
    (2, "already counted", None), (3, "counted out of order", None), (0, "already counted", None),
]
# A number that is delivered one after another, and what is said about it.
DELIVERED = [
    (2, "delivered out of order"), (1, "accepted"), (3, "delivered out of order"), (1, "already delivered"), (2, "accepted"),
    (3, "accepted"), (2, "already delivered"), (0, "already delivered"),
]


def signaled(number: int) -> Line:
    """A transfer of the other shard: a signal to a workflow that isn't there. What is answered is a transfer to it."""
    content = {"from_run": run_id(1, 1, 1), "initiated": 5, "input": "", "name": "s", "workflow_id": "a"}
    return {**delivered(number), "transfer": {"content": content, "from": 1, "kind": "signal_external", "number": number}}


class Transfers(Rows):
    def test_acknowledgements_are_counted_in_order(self) -> None:
        """Two wait. Where none does, there is no first one; nor is there one to the shard itself."""
        pieces = [f"piece {line}" for part in (NONE_COUNTED, *TWO_WAIT) for line in part.splitlines()]
        steps = [step for number, _, _ in ACKNOWLEDGED for step in (acknowledged(number), next_to(1))] + [next_to(0)]
        told = self.told([*pieces, f"restored {LAST}", *(f"asked {step_of(step)}" for step in steps)])[len(pieces):]
        kinds = [kind for _, kind, first in ACKNOWLEDGED for kind in (kind, "no transfer" if first is None else "transfer")]
        self.assertEqual(kinds_in(steps, told), [*kinds, "no transfer"])
        firsts = [json.loads(reply).get("number") for reply in told[2:-2:4]]
        self.assertEqual(firsts, [first for _, _, first in ACKNOWLEDGED])

    def test_numbers_go_on_after_what_was_acknowledged(self) -> None:
        """Each transfer is the first one once it is issued, and none comes after it."""
        steps = [step for number in (1, 2, 3) for step in (
            next_to(1), signaled(number), next_to(1), acknowledged(number), next_to(1))]
        told = self.told(["shard 0 2 0", *map(step_of, steps)])
        self.assertEqual(kinds_in(steps, told), ["no transfer", "accepted", "transfer", "counted", "no transfer"] * 3)
        self.assertEqual([json.loads(reply)["number"] for reply in told[4::10]], [1, 2, 3])

    def test_each_number_is_accepted_once(self) -> None:
        steps = [delivered(number) for number, _ in DELIVERED]
        told = self.told(["shard 0 2 0", *map(step_of, steps)])
        self.assertEqual(kinds_in(steps, told), [kind for _, kind in DELIVERED])


if __name__ == "__main__":
    sys.exit(run_rows(__name__, sys.argv[1:]))
