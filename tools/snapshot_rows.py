#!/usr/bin/env python3
"""Texts of snapshots as rows of data, each given to the built program: which line it refuses and why, and what it answers
once it has opened one.

    tools/snapshot_rows.py PROGRAM

PROGRAM is the built `wfserve`, as `rt ci` leaves it in crates/wfserve/out. A text that is opened has to be written again
to the byte, and one that is refused has to leave all files. What is answered of a snapshot with a run in the middle of
much stands here line by line, and has to be the same from a further snapshot after each of these lines. The status is 1
where a test fails.
"""
from __future__ import annotations

import json
import pathlib
import shutil
import sys
from typing import NamedTuple, Optional

from journal_program import Line, run_rows, text
from snapshot_tests import NOT_OF_ONE_MOMENT, OTHER_SETTINGS, Folder, Ran, names, put_in, ran, texts_in
from wfserve.ids import TaskKind, run_id, token_text

# ---- a snapshot of the first of two shards: a run was deleted, one has closed, one is in the middle of much, and two
# were only begun. The task of one of those was handed to its queue, and that of the other was not.

HEAD = """\
{"head":{"retention":86400000,"service":1,"shard":0,"shards":2}}
"""
COUNTED = """\
{"counted":{"dispatched":9,"transfers":[{"accepted":0,"acknowledged":0},{"accepted":4,"acknowledged":2}]}}
"""
GONE = """\
{"gone":1}
"""
# The earlier run of the workflow ID `a`.
CLOSED = """\
{"at":1000,"attrs":{"input":"","run_timeout":0,"task_queue":"main","task_timeout":10000,"workflow_id":"a",\
"workflow_type":"w"},"id":1,"type":"WorkflowExecutionStarted"}
{"at":1000,"attrs":{"attempt":1,"task_queue":"main"},"id":2,"type":"WorkflowTaskScheduled"}
{"at":1100,"attrs":{"scheduled":2},"id":3,"type":"WorkflowTaskStarted"}
{"at":2000,"attrs":{"scheduled":2,"started":3},"id":4,"type":"WorkflowTaskCompleted"}
{"at":2000,"attrs":{"result":"done"},"id":5,"type":"WorkflowExecutionCompleted"}
"""
START_REQUEST = """\
{"request_id":"start-2"}
"""
# The later run of the workflow ID `a`, up to the first signal.
BEGUN = """\
{"at":3000,"attrs":{"input":"again","run_timeout":0,"task_queue":"main","task_timeout":10000,"workflow_id":"a",\
"workflow_type":"w"},"id":1,"type":"WorkflowExecutionStarted"}
{"at":3000,"attrs":{"attempt":1,"task_queue":"main"},"id":2,"type":"WorkflowTaskScheduled"}
{"at":3100,"attrs":{"scheduled":2},"id":3,"type":"WorkflowTaskStarted"}
{"at":3200,"attrs":{"scheduled":2,"started":3},"id":4,"type":"WorkflowTaskCompleted"}
{"at":3200,"attrs":{"duration":60000,"timer_id":"t1"},"id":5,"type":"TimerStarted"}
{"at":3200,"attrs":{"activity_id":"x","activity_type":"t","heartbeat":1000,"input":"","retry":{"attempts":5,\
"coefficient":200,"initial":100,"maximum":1000,"non_retryable":[]},"schedule_to_close":100000,"schedule_to_start":0,\
"start_to_close":5000,"task_queue":"main"},"id":6,"type":"ActivityTaskScheduled"}
{"at":3200,"attrs":{"input":"i","name":"s","workflow_id":"b"},"id":7,"type":"SignalExternalWorkflowExecutionInitiated"}
"""
SIGNAL_REQUEST = """\
{"request_id":"signal-1"}
"""
# What its history shows from the first signal on: a task was started.
SIGNALED = """\
{"at":4000,"attrs":{"input":"","name":"go on"},"id":8,"type":"WorkflowExecutionSignaled"}
{"at":4000,"attrs":{"attempt":1,"task_queue":"main"},"id":9,"type":"WorkflowTaskScheduled"}
{"at":4100,"attrs":{"scheduled":9},"id":10,"type":"WorkflowTaskStarted"}
"""
# Two attempts of its activity ended, and the third sent a heartbeat.
NOTES = """\
{"note":{"activity":6,"at":3500,"kind":"ended","times":2}}
{"note":{"activity":6,"at":3600,"kind":"ready","times":1}}
{"note":{"activity":6,"at":3700,"kind":"taken","times":1}}
{"note":{"activity":6,"at":3800,"details":"half of it","kind":"beat","times":1}}
"""
# A second signal came while the task is started.
HELD = """\
{"request_id":"signal-2"}
{"at":4200,"attrs":{"input":"","name":"stop"},"id":11,"type":"WorkflowExecutionSignaled"}
"""
HANDED_OVER = """\
{"at":4500,"attrs":{"input":"","run_timeout":0,"task_queue":"main","task_timeout":10000,"workflow_id":"c",\
"workflow_type":"w"},"id":1,"type":"WorkflowExecutionStarted"}
{"at":4500,"attrs":{"attempt":1,"task_queue":"main"},"id":2,"type":"WorkflowTaskScheduled"}
"""
WAITING = """\
{"at":4700,"attrs":{"input":"","run_timeout":0,"task_queue":"main","task_timeout":10000,"workflow_id":"e",\
"workflow_type":"w"},"id":1,"type":"WorkflowExecutionStarted"}
{"at":4700,"attrs":{"attempt":1,"task_queue":"main"},"id":2,"type":"WorkflowTaskScheduled"}
"""
DISPATCH = """\
{"dispatch":{"attempt":1,"event":2,"kind":"workflow","queue":"main","run":5,"shard":0}}
"""
TRANSFER = """\
{"to":1,"transfer":{"content":{"from_run":"00000000-0001-8000-8000-000000000003","initiated":7,"input":"i","name":"s",\
"workflow_id":"b"},"from":0,"kind":"signal_external","number":3}}
"""

SNAPSHOT = [GONE, CLOSED, START_REQUEST, BEGUN, SIGNAL_REQUEST, SIGNALED, NOTES, HELD, HANDED_OVER, WAITING, DISPATCH,
            TRANSFER]
LAST = 4750


def end(last: int, lines: int) -> str:
    """The last line of a snapshot."""
    return f'{{"end":{{"last":{last},"lines":{lines}}}}}\n'


def ended(lines: str, last: int = LAST) -> str:
    """Some lines, and the last one, which counts them."""
    return lines + end(last, lines.count("\n"))


def laid(parts: list[str], last: int = LAST) -> str:
    """The snapshot with these lines between its first two and its last one."""
    return ended("".join([HEAD, COUNTED, *parts]), last)


def head(shard: int) -> str:
    """The first line of the snapshot of one of two shards."""
    return HEAD.replace('"shard":0', f'"shard":{shard}')


class Count(NamedTuple):
    """How many transfers of another shard were accepted, and how many of those to it were acknowledged."""

    accepted: int = 0
    acknowledged: int = 0


def counted(*counts: Count, dispatched: int = 0) -> str:
    """The second line of a snapshot, with a count for each shard."""
    said = {"dispatched": dispatched, "transfers": [count._asdict() for count in counts]}
    return json.dumps({"counted": said}, separators=(",", ":")) + "\n"


def transfer(to: int, number: int, sender: int) -> str:
    """The line of a transfer that says that a child could not be started."""
    content = {"initiated": 5, "parent_run": run_id(1, 0, 3)}
    said = {"content": content, "from": sender, "kind": "child_start_failed", "number": number}
    return json.dumps({"to": to, "transfer": said}, separators=(",", ":")) + "\n"


# The other shard's snapshot. Of what it issued the first shard has accepted one more than is acknowledged.
OTHER = ended(head(1) + counted(Count(2, 3), Count()) + "".join(transfer(0, number, 1) for number in (4, 5, 6)), 0)


def signal(number: int) -> str:
    """A signal as the event of this number."""
    return f'{{"at":4200,"attrs":{{"input":"","name":"stop"}},"id":{number},"type":"WorkflowExecutionSignaled"}}\n'


# ---- texts that restore no shard, and others

ORDER = "a line of its kind may not stand there"
COUNT = "there is not a count for each shard"
FACT = "it does not fit its run"
RUN = "the run before it does not fit the others of its workflow ID, or the last moment"
ISSUE = "it is another shard's, or not the next one"
LINES = "the snapshot has another number of lines"
NO_PIECE = "it is no line of a snapshot"
CUT = "the snapshot ends early"

FIRED = '{"at":4200,"attrs":{"started":4,"timer_id":"t1"},"id":8,"type":"TimerFired"}\n'
# A note on what is no activity.
NOTED = '{"note":{"activity":5,"at":3500,"kind":"taken","times":1}}\n'
# The end of a task that isn't started.
COMPLETED = '{"at":4700,"attrs":{"scheduled":2,"started":3},"id":3,"type":"WorkflowTaskCompleted"}\n'
BEGUN_AGAIN = """\
{"at":4700,"attrs":{"input":"","run_timeout":0,"task_queue":"main","task_timeout":10000,"workflow_id":"f","workflow_type":"w"},\
"id":3,"type":"WorkflowExecutionStarted"}
"""
SIXTH = '{"at":2000,"attrs":{"input":"","name":"late"},"id":6,"type":"WorkflowExecutionSignaled"}\n'
# A run of the workflow ID `a` that closed at 2001.
CLOSED_LATER = """\
{"at":1000,"attrs":{"input":"","run_timeout":0,"task_queue":"main","task_timeout":10000,"workflow_id":"a","workflow_type":"w"},\
"id":1,"type":"WorkflowExecutionStarted"}
{"at":2001,"attrs":{"reason":"r"},"id":2,"type":"WorkflowExecutionTerminated"}
"""
# The activity completed while the workflow task is started.
ACTIVITY_COMPLETED = """\
{"at":4200,"attrs":{"attempt":3,"scheduled":6,"taken":3700},"id":11,"type":"ActivityTaskStarted"}
{"at":4200,"attrs":{"result":"done","scheduled":6},"id":12,"type":"ActivityTaskCompleted"}
"""
OTHERS_DISPATCH = DISPATCH.replace('"shard":0', '"shard":1')


def scheduled(text: str) -> str:
    """An event with this input. What stands there for a byte that is none of UTF-8 is written as the byte."""
    return (f'{{"at":7,"attrs":{{"activity_id":"x","activity_type":"t","heartbeat":4,"input":"{text}","retry":{{"attempts":5,'
            '"coefficient":600,"initial":7,"maximum":8,"non_retryable":["b","a"]},"schedule_to_close":3,"schedule_to_start":1,'
            '"start_to_close":2,"task_queue":"main"},"id":5,"type":"ActivityTaskScheduled"}\n')


class Text(NamedTuple):
    """The text of the first shard's snapshot, and the first damaged line of it with what is wrong there. None where it is
    opened."""

    text: str
    fault: Optional[tuple[int, str]] = None


TEXTS: dict[str, list[Text]] = {
    "pieces come in their order": [
        Text(laid([])),
        Text(laid([signal(11)]), (3, ORDER)),
        Text(laid([signal(1)]), (3, ORDER)),
        Text(laid([NOTES]), (3, ORDER)),
        Text(laid([BEGUN, SIGNALED, signal(11)])),
        Text(laid([BEGUN, SIGNALED, signal(12)]), (13, ORDER)),
        Text(laid([BEGUN, SIGNALED, signal(11), signal(11)]), (14, ORDER)),
        Text(laid([BEGUN, SIGNALED, signal(11), signal(12)])),
        Text(laid([HEAD]), (3, ORDER)),
        Text(laid([COUNTED]), (3, ORDER)),
    ],
    "a request id comes before its event": [
        Text(laid([START_REQUEST, BEGUN])),
        Text(laid([START_REQUEST, SIGNAL_REQUEST, BEGUN]), (4, ORDER)),
        Text(laid([START_REQUEST, GONE]), (4, ORDER)),
        Text(laid([START_REQUEST, DISPATCH]), (4, ORDER)),
        Text(laid([START_REQUEST, TRANSFER]), (4, ORDER)),
        Text(laid([BEGUN, SIGNAL_REQUEST, NOTES]), (11, ORDER)),
        Text(laid([BEGUN, SIGNAL_REQUEST]), (11, ORDER)),
    ],
    "what waits comes after all runs": [
        Text(laid([WAITING, DISPATCH, TRANSFER])),
        Text(laid([DISPATCH, WAITING]), (4, ORDER)),
        Text(laid([DISPATCH, GONE]), (4, ORDER)),
    ],
    "there is a count for each shard": [
        Text(ended(HEAD + counted(Count())), (2, COUNT)),
        Text(ended(HEAD + counted(Count(), Count(), Count())), (2, COUNT)),
    ],
    "facts fit their run": [
        Text(laid([BEGUN, FIRED]), (10, FACT)),
        Text(laid([BEGUN, NOTES])),
        Text(laid([BEGUN, NOTED]), (10, FACT)),
        Text(laid([WAITING, COMPLETED]), (5, FACT)),
        Text(laid([WAITING, BEGUN_AGAIN]), (5, FACT)),
        Text(laid([CLOSED, SIXTH]), (8, FACT)),
        Text(laid([BEGUN, SIGNAL_REQUEST, SIGNALED, SIGNAL_REQUEST, signal(11)]), (15, FACT)),
        Text(laid([BEGUN, SIGNAL_REQUEST, SIGNALED, HELD])),
        Text(laid([BEGUN, SIGNALED, NOTES, ACTIVITY_COMPLETED])),
    ],
    "runs fit the earlier ones of their workflow": [
        Text(laid([CLOSED, BEGUN, WAITING])),
        Text(laid([BEGUN, CLOSED]), (15, RUN)),
        Text(laid([WAITING, HANDED_OVER, WAITING]), (9, RUN)),
        Text(laid([BEGUN, BEGUN, DISPATCH]), (17, RUN)),
        Text(laid([CLOSED, CLOSED_LATER])),
        Text(laid([CLOSED, CLOSED])),
        Text(laid([CLOSED_LATER, CLOSED]), (10, RUN)),
    ],
    "the last moment is no earlier than any": [
        Text(laid([CLOSED], 2000)),
        Text(laid([CLOSED], 1999), (8, RUN)),
    ],
    "what waits is the shard's own": [
        Text(laid([OTHERS_DISPATCH]), (3, ISSUE)),
        Text(laid([transfer(1, 3, 0)])),
        Text(laid([transfer(1, 3, 1)]), (3, ISSUE)),
        Text(laid([transfer(2, 3, 0)]), (3, ISSUE)),
        Text(laid([transfer(1, 2, 0)]), (3, ISSUE)),
        Text(laid([transfer(1, 4, 0)]), (3, ISSUE)),
        Text(laid([transfer(0, 3, 0)]), (3, ISSUE)),
    ],
    "a text that ends early is cut": [
        Text(laid(SNAPSHOT)),
        Text("", (1, CUT)),
        Text(HEAD, (2, CUT)),
        Text(HEAD + COUNTED + CLOSED, (8, CUT)),
        Text(HEAD + COUNTED + "{", (3, CUT)),
    ],
    "the first damaged line is named": [
        Text(HEAD + COUNTED + CLOSED + end(2000, 7)),
        Text(HEAD + COUNTED + CLOSED + end(2000, 8), (8, LINES)),
        Text(HEAD + COUNTED + CLOSED + end(2000, 7) + CLOSED, (9, ORDER)),
        Text(HEAD + COUNTED + "{}\n" + CLOSED, (3, NO_PIECE)),
        Text(laid(["{}\n"]), (3, NO_PIECE)),
        Text(COUNTED + HEAD, (1, ORDER)),
        Text(HEAD + CLOSED, (2, ORDER)),
        Text(HEAD + COUNTED + DISPATCH + BEGUN, (4, ORDER)),
    ],
    # Either of its two bytes is another one.
    "a letter of which a byte lacks is none": [
        Text(laid([scheduled("é")]), (3, ORDER)),
        *(Text(laid([scheduled(text)]), (3, NO_PIECE)) for text in ("0\udca9", '"\udca9', "\udcc30", '\udcc3"')),
    ],
}


# ---- what two shards count of each other's transfers, and whether such snapshots are opened

class Counts(NamedTuple):
    """Two snapshots: what the first counts of the second, how many transfers it has issued to it, and what the second
    counts of the first and of itself."""

    first: Count
    issued: int
    second: Count
    own: Count
    is_opened: bool

    def texts(self) -> list[str]:
        waiting = [transfer(1, number, 0) for number in range(self.first.acknowledged + 1, self.issued + 1)]
        return [ended(HEAD + counted(Count(), self.first) + "".join(waiting)),
                ended(head(1) + counted(self.second, self.own))]


COUNTS = [
    # In order: no more are acknowledged than accepted, and no more accepted than issued.
    Counts(Count(0, 0), 0, Count(0, 0), Count(), True),
    Counts(Count(0, 1), 3, Count(2, 0), Count(), True),
    Counts(Count(0, 3), 3, Count(3, 0), Count(), True),
    Counts(Count(0, 2), 3, Count(1, 0), Count(), False),
    Counts(Count(0, 2), 3, Count(4, 0), Count(), False),
    # The second has accepted 5, has issued 3 and knows of these that they were accepted: no other counts go with it.
    Counts(Count(3, 5), 5, Count(5, 3), Count(), True),
    Counts(Count(2, 5), 5, Count(5, 3), Count(), False),
    Counts(Count(4, 5), 5, Count(5, 3), Count(), False),
    Counts(Count(3, 4), 4, Count(5, 3), Count(), False),
    Counts(Count(3, 6), 6, Count(5, 3), Count(), False),
    # So it is with what it counts of itself.
    Counts(Count(3, 5), 5, Count(5, 3), Count(1, 0), False),
    Counts(Count(3, 5), 5, Count(5, 3), Count(0, 1), False),
    Counts(Count(3, 5), 5, Count(5, 3), Count(1, 1), True),
]


# ---- what is answered after the snapshot

def run(ordinal: int) -> str:
    return run_id(1, 0, ordinal)


def workflow_token(ordinal: int, event: int, attempt: int) -> str:
    return token_text(TaskKind.WORKFLOW, ordinal, event, attempt)


def activity_token(attempt: int) -> str:
    """The token of an attempt of the activity that is in use."""
    return token_text(TaskKind.ACTIVITY, 3, 6, attempt)


def asked(op: str, workflow_id: str, **more: object) -> Line:
    return {"op": op, "workflow_id": workflow_id, **more}


def started(workflow_id: str, **more: object) -> Line:
    return asked("start", workflow_id, task_queue="main", workflow_type="w", **more)


def signaled(request_id: str) -> Line:
    return asked("signal", "a", name="again", request_id=request_id)


def completed(token: str, *commands: Line) -> Line:
    return {"op": "complete_workflow_task", "token": token, "commands": [*commands]}


def beat(attempt: int) -> Line:
    return {"op": "heartbeat", "token": activity_token(attempt), "details": "all of it"}


def sent(sender: int, to: int) -> Line:
    return {"op": "transfer_turn", "from": sender, "to": to}


def fired(**more: int) -> Line:
    return {"op": "timer_turn", "shard": 0, **more}


POLL: Line = {"op": "poll_workflow_task", "task_queue": "main"}
POLL_ACTIVITY: Line = {"op": "poll_activity_task", "task_queue": "main"}
HAND_OVER: Line = {"op": "dispatch_turn", "shard": 0}
COMPLETED_ACTIVITY: Line = {"op": "complete_activity", "token": activity_token(3), "result": "d"}

NOT_FOUND: Line = {"error": "NotFound", "no": 2}
NONE: Line = {"ok": "none"}
EMPTY: Line = {"ok": "empty"}
HEARTBEAT_IS_DUE: Line = {"ok": "fired", "class": "heartbeat", "due": 4800, "event": 6, "run": run(3)}


def described(ordinal: int, status: str, length: int, **counts: int) -> Line:
    """The reply that describes a run of which nothing is in use or buffered but what is named."""
    none = dict.fromkeys(("activities", "cancels", "children", "held", "signals", "timers"), 0)
    return {"ok": "described", "run": run(ordinal), "status": status, "length": length, **none, **counts}


def shown(ordinal: int, *lines: str) -> Line:
    """The reply with the history that some lines of a snapshot have."""
    events = [json.loads(line) for line in "".join(lines).splitlines()]
    return {"ok": "history", "run": run(ordinal), "events": events}


def task(ordinal: int, workflow_id: str) -> Line:
    """The reply to a poll that takes the first task of a run."""
    return {"ok": "task", "attempt": 1, "run": run(ordinal), "started": 3, "token": workflow_token(ordinal, 2, 1),
            "workflow_id": workflow_id}


def event(number: int, kind: str, at: int, **attributes: object) -> str:
    return json.dumps({"at": at, "attrs": attributes, "id": number, "type": kind}) + "\n"


class Story(NamedTuple):
    """Lines with their replies, of shards that this snapshot and the other one restore, and what both count then."""

    said: list[tuple[Line, Line]]
    text: str = laid(SNAPSHOT)
    left: tuple[str, str] = (COUNTED, counted(Count(2, 3), Count()))


# What the later run of `a` has in use at the beginning.
IN_USE = {"activities": 1, "signals": 1, "timers": 1}
STOPPED = {"input": "", "name": "stop"}
# The workflow task of that run is completed, and cancels the timer. The signal that was buffered comes then, and after
# it the end of the activity with the attempt and the moment by which it was taken.
TAKEN = [
    event(11, "WorkflowTaskCompleted", 4750, scheduled=9, started=10),
    event(12, "TimerCanceled", 4750, started=5, timer_id="t1"),
    event(13, "WorkflowExecutionSignaled", 4200, **STOPPED),
    event(14, "ActivityTaskStarted", 4750, attempt=3, scheduled=6, taken=3700),
    event(15, "ActivityTaskCompleted", 4750, result="d", scheduled=6),
    event(16, "WorkflowTaskScheduled", 4750, attempt=1, task_queue="main"),
]
# It is over before the timer fires.
TIMED_OUT = [
    event(11, "WorkflowTaskTimedOut", 63199, scheduled=9, started=10),
    event(12, "WorkflowExecutionSignaled", 4200, **STOPPED),
    event(13, "ActivityTaskStarted", 4750, attempt=3, scheduled=6, taken=3700),
    event(14, "ActivityTaskCompleted", 4750, result="d", scheduled=6),
    event(15, "WorkflowTaskScheduled", 63199, attempt=2, task_queue="main"),
    event(16, "TimerFired", 63200, started=5, timer_id="t1"),
]
# The workflow to which the run has sent a signal isn't there.
ANSWERED = [
    event(11, "WorkflowTaskCompleted", 4750, scheduled=9, started=10),
    event(12, "WorkflowExecutionSignaled", 4200, **STOPPED),
    event(13, "SignalExternalWorkflowExecutionFailed", 4750, cause="ExternalWorkflowExecutionNotFound", initiated=7),
    event(14, "WorkflowTaskScheduled", 4750, attempt=1, task_queue="main"),
]

STORIES = {
    "runs are what they were": Story([
        (asked("describe", "a", run=run(1)), NOT_FOUND),
        (asked("describe", "a", run=run(2)), described(2, "Completed", 5)),
        (asked("describe", "a", run=run(3)), described(3, "Running", 10, held=1, **IN_USE)),
        (asked("describe", "a", run=run(6)), NOT_FOUND),
        (asked("describe", "a"), described(3, "Running", 10, held=1, **IN_USE)),
        (asked("describe", "b"), NOT_FOUND),
        (asked("describe", "c"), described(4, "Running", 2)),
        (asked("describe", "e"), described(5, "Running", 2)),
        (started("g"), {"ok": "started", "run": run(6)}),
    ]),
    "histories show the same events": Story([
        (asked("history", "a", run=run(2)), shown(2, CLOSED)),
        (asked("history", "a", run=run(3)), shown(3, BEGUN, SIGNALED)),
        (asked("history", "c"), shown(4, HANDED_OVER)),
        (asked("history", "e"), shown(5, WAITING)),
    ]),
    "request ids are known": Story([
        (started("a", request_id="start-2"), {"ok": "existing", "run": run(3)}),
        (started("a", request_id="start-1"), {"error": "AlreadyStarted", "no": 3, "run": run(3)}),
        (started("c", request_id="start-2"), {"error": "AlreadyStarted", "no": 3, "run": run(4)}),
        (signaled("signal-1"), {"ok": "repeated"}),
        (signaled("signal-2"), {"ok": "repeated"}),
        (signaled("signal-3"), {"ok": "signaled"}),
        (asked("describe", "a"), described(3, "Running", 10, held=2, **IN_USE)),
    ]),
    "tasks that were taken go on": Story([
        (completed(workflow_token(2, 2, 1)), NOT_FOUND),
        (completed(workflow_token(3, 2, 1)), NOT_FOUND),
        (completed(workflow_token(3, 9, 2)), NOT_FOUND),
        (completed(workflow_token(4, 2, 1)), NOT_FOUND),
        ({"op": "complete_activity", "token": activity_token(2), "result": "d"}, NOT_FOUND),
        (COMPLETED_ACTIVITY, {"ok": "completed"}),
        (completed(workflow_token(3, 9, 1), {"type": "CancelTimer", "timer_id": "t1"}), {"ok": "completed"}),
        (asked("history", "a"), shown(3, BEGUN, SIGNALED, *TAKEN)),
        (asked("describe", "a"), described(3, "Running", 16, signals=1)),
    ]),
    "a timer that was started fires": Story([
        (COMPLETED_ACTIVITY, {"ok": "completed"}),
        (fired(at=63199), {"ok": "fired", "class": "workflow_task", "due": 14100, "event": 9, "run": run(3)}),
        (fired(at=63199), NONE),
        (fired(at=63200), {"ok": "fired", "class": "user_timer", "due": 63200, "event": 5, "run": run(3)}),
        (fired(at=63200), NONE),
        (asked("history", "a"), shown(3, BEGUN, SIGNALED, *TIMED_OUT)),
    ]),
    "a signal to another workflow is answered": Story([
        (sent(0, 1), {"ok": "accepted", "number": 3}),
        (sent(1, 0), {"ok": "already", "number": 4}),
        (sent(1, 0), {"ok": "accepted", "number": 5}),
        (sent(1, 0), {"ok": "accepted", "number": 6}),
        (sent(1, 0), {"ok": "accepted", "number": 7}),
        (sent(1, 0), NONE),
        (asked("describe", "a"), described(3, "Running", 10, held=2, activities=1, timers=1)),
        (completed(workflow_token(3, 9, 1)), {"ok": "completed"}),
        (asked("history", "a"), shown(3, BEGUN, SIGNALED, *ANSWERED)),
    ], left=(counted(Count(), Count(7, 3), dispatched=9), counted(Count(3, 7), Count()))),
    "an activity is at its third attempt": Story([
        (beat(2), NOT_FOUND),
        (beat(4), NOT_FOUND),
        (beat(3), {"ok": "heartbeat", "cancel_requested": False}),
    ]),
    "the next attempt has what the last heartbeat said": Story([
        ({"op": "fail_activity", "token": activity_token(3), "message": "m"}, {"ok": "retrying", "attempt": 4, "ready": 5150}),
        (fired(at=5150), {"ok": "fired", "class": "retry_ready", "due": 5150, "event": 6, "run": run(3)}),
        (HAND_OVER, {"ok": "dispatched", "number": 10}),
        (HAND_OVER, {"ok": "dispatched", "number": 11}),
        (POLL_ACTIVITY, {"ok": "task", "activity_id": "x", "activity_type": "t", "attempt": 4, "details": "half of it",
                         "input": "", "run": run(3), "token": activity_token(4), "workflow_id": "a"}),
    ], left=(counted(Count(), Count(4, 2), dispatched=11), counted(Count(2, 3), Count()))),
    "an activity whose end is buffered is over": Story([
        (asked("describe", "a"), described(1, "Running", 10, held=2, activities=0, signals=1, timers=1)),
        ({**beat(3), "token": token_text(TaskKind.ACTIVITY, 1, 6, 3)}, NOT_FOUND),
    ], laid([BEGUN, SIGNALED, NOTES, ACTIVITY_COMPLETED])),
    "tasks wait where they waited": Story([
        (POLL, task(4, "c")),
        (POLL, EMPTY),
        (HAND_OVER, {"ok": "dispatched", "number": 10}),
        (POLL, task(5, "e")),
        (POLL, EMPTY),
        (HAND_OVER, NONE),
    ], left=(counted(Count(), Count(4, 2), dispatched=10), counted(Count(2, 3), Count()))),
    "transfers wait where they waited": Story([
        (sent(0, 0), NONE),
        (sent(0, 1), {"ok": "accepted", "number": 3}),
        (sent(0, 1), NONE),
    ], left=(counted(Count(), Count(4, 3), dispatched=9), counted(Count(3, 3), Count()))),
    "deliveries go on where they were": Story([
        (sent(1, 0), {"ok": "already", "number": 4}),
        (sent(1, 0), {"ok": "accepted", "number": 5}),
    ], left=(counted(Count(), Count(5, 2), dispatched=9), counted(Count(2, 5), Count()))),
    "deadlines are what they were": Story([
        (fired(), NONE),
        (fired(at=4799), NONE),
        (fired(at=4800), HEARTBEAT_IS_DUE),
    ]),
}


def text_of_replies(replies: list[Line]) -> str:
    """Replies as the program prints them, each with the number of its line."""
    numbered = [{**reply, "line": number} for number, reply in enumerate(replies, 1)]
    return "".join(json.dumps(reply, separators=(",", ":"), sort_keys=True) + "\n" for reply in numbered)


class OfTexts(Folder):
    """A test that loads snapshots of two shards."""

    SETTINGS = {"--service": "1", "--shards": "2", "--retention": "86400000"}

    def setUp(self) -> None:
        super().setUp()
        self.loaded, self.out = self.folder / "loaded", self.folder / "out"

    def lay(self, *texts: str) -> None:
        """Has these snapshots be loaded, and older ones lie where others are written."""
        for folder in (self.loaded, self.out):
            shutil.rmtree(folder, ignore_errors=True)
        put_in(self.loaded, [one.encode(errors="surrogateescape") for one in texts])
        put_in(self.out, [b"older\n" for _ in texts])

    def words(self, **others: str) -> list[str | pathlib.Path]:
        """The command line that loads the snapshots and writes others, with some other settings."""
        settings = {**self.SETTINGS, **{f"--{name}": value for name, value in others.items()}}
        return [*(word for setting in settings.items() for word in setting), "--load", self.loaded, "--snapshot", self.out]

    def opened(self, lines: list[Line]) -> Ran:
        """What the program does that goes on from the snapshots with these lines, and leaves what it loaded."""
        before = texts_in(self.loaded)
        done = ran(text(lines).encode(), *self.words())
        self.assertEqual(texts_in(self.loaded), before)
        return done

    def assert_written_again(self, *texts: str) -> None:
        """The snapshots are opened, and what is written of them is the same."""
        self.assertEqual(self.opened([]), Ran(b"", 0, ""))
        self.assertEqual([one.decode() for one in texts_in(self.out)], [*texts])


class Texts(OfTexts):
    """Each text is opened and written again, or its first damaged line is named."""

    def test_texts(self) -> None:
        first = self.loaded / names("snap")[0]
        for title, rows in TEXTS.items():
            for place, row in enumerate(rows):
                with self.subTest(title, place=place):
                    self.lay(row.text, OTHER)
                    if row.fault is None:
                        self.assert_written_again(row.text, OTHER)
                    else:
                        self.refused(f"{first}: line {row.fault[0]}: {row.fault[1]}", *self.words())

    def test_other_settings_are_named(self) -> None:
        self.lay(laid([CLOSED], 2000), OTHER)
        for setting, value in (("service", "2"), ("retention", "1000")):
            with self.subTest(setting):
                fault = f"{self.loaded / names('snap')[0]}: line 1: {OTHER_SETTINGS}"
                self.refused(fault, *self.words(**{setting: value}))


class CountsOfTwo(OfTexts):
    """What a shard counts is read from its snapshot: two that don't count alike are refused."""

    def test_counts(self) -> None:
        for row in COUNTS:
            with self.subTest(row):
                texts = row.texts()
                self.lay(*texts)
                if row.is_opened:
                    self.assert_written_again(*texts)
                else:
                    self.refused(f"{self.loaded}: {NOT_OF_ONE_MOMENT}", *self.words())


class Stories(OfTexts):
    """What is answered after a snapshot, in one go and from a further snapshot after each line."""

    def test_replies_and_what_is_left(self) -> None:
        for title, story in STORIES.items():
            with self.subTest(title):
                replies = [reply for _, reply in story.said]
                self.lay(story.text, OTHER)
                done = self.opened([line for line, _ in story.said])
                self.assertEqual(done.printed.decode(), text_of_replies(replies))
                self.assertEqual((done.status, done.said), (int(any("error" in reply for reply in replies)), ""))
                second_lines = tuple(one.decode().splitlines(keepends=True)[1] for one in texts_in(self.out))
                self.assertEqual(second_lines, story.left)

    def test_they_are_the_same_from_a_snapshot_after_each_line(self) -> None:
        for title, story in STORIES.items():
            with self.subTest(title):
                self.lay(story.text, OTHER)
                for line, reply in story.said:
                    done = self.opened([line])
                    self.assertEqual((done.printed.decode(), done.said), (text_of_replies([reply]), ""), line)
                    self.lay(*(one.decode() for one in texts_in(self.out)))


def main(given: list[str]) -> int:
    rows = sum(map(len, TEXTS.values())) + len(COUNTS)
    return run_rows(__name__, given, f"snapshot_rows: {rows} texts, {len(STORIES)} stories")


if __name__ == "__main__":
    sys.exit(main(sys.argv[1:]))
