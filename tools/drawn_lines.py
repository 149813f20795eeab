"""Requests that are drawn as steps of a record: few workflow IDs and request ids, moments that go back, unknown
queues, run ids of this shard and of others, and tasks that wait, were taken, or were ended long ago. Durations are such
that many deadlines are due."""
from __future__ import annotations

from typing import TYPE_CHECKING, Callable, Optional

import client_package  # noqa: F401
from wfserve.ids import TaskKind, run_id, token_text

if TYPE_CHECKING:
    from drawn_knowledge import Known, Taken, Tasks

# How many workflow IDs one shard alone is asked for; how many there are of two shards, beside those of children; and
# how many of children.
WORKFLOWS, ORDERS, CHILDREN = 3, 8, 8

# Requests and commands as a record has them, after the moment. A dollar and a letter stand for what is drawn there.
TEMPLATES = {
    "START": (
        '"conflict":"$g",$e"input":"$i","op":"start",$r"reuse":"$u","run_timeout":$x,"task_queue":"$q",'
        '"task_timeout":$y,"workflow_id":"$s","workflow_type":"order"'
    ),
    "SIGNAL": '"input":"$i","name":"paid","op":"signal",$r$R"workflow_id":"$w"',
    "SIGNAL_WITH_START": (
        '$e"input":"$i","name":"paid","op":"signal_with_start",$r"reuse":"$u","run_timeout":$x,'
        '"signal_input":"$i","task_queue":"$q","task_timeout":$y,"workflow_id":"$s",'
        '"workflow_type":"order"'
    ),
    "REQUEST_CANCEL": '"op":"request_cancel",$r$R"workflow_id":"$w"',
    "TERMINATE": '"op":"terminate","reason":"$i",$R"workflow_id":"$w"',
    # A child, on whichever shard it is asked.
    "TERMINATE_CHILD": '"op":"terminate","reason":"$i","workflow_id":"$c"',
    "HISTORY": '"op":"history",$R"workflow_id":"$w"',
    "DESCRIBE": '"op":"describe",$R"workflow_id":"$w"',
    "START_TASK": '$S',
    "COMPLETE": '"commands":[$C],"op":"complete_workflow_task","token":"$T"',
    "FAIL_TASK": '"message":"$i","op":"fail_workflow_task","token":"$T"',
    "COMPLETE_ACTIVITY": '"op":"complete_activity","result":"$i","token":"$A"',
    "FAIL_ACTIVITY": '$m"message":"$i","non_retryable":$b,"op":"fail_activity","token":"$A"',
    "CANCEL_ACTIVITY": '"details":"$i","op":"cancel_activity","token":"$A"',
    "HEARTBEAT": '"details":"$i","op":"heartbeat","token":"$A"',
    "TIMER_TURN": '"op":"timer_turn"',
    "NEXT_DISPATCH": '"op":"next_dispatch"',
    "DISPATCHED": '"number":$N,"op":"dispatched"',
    "MARK": '{"details":"$i","name":"mark","type":"RecordMarker"}',
    "TIMER": '{"duration":$d,"timer_id":"$t","type":"StartTimer"}',
    # One that fires late.
    "LATE_TIMER": '{"duration":$l,"timer_id":"$t","type":"StartTimer"}',
    "CANCEL_TIMER": '{"timer_id":"$t","type":"CancelTimer"}',
    "CANCEL_TASK": '{"scheduled":$V,"type":"RequestCancelActivityTask"}',
    # An activity, seldom one with no limit to close.
    "ACTIVITY": (
        '{"activity_id":"$a","activity_type":"charge","heartbeat":$y,"input":"$i",'
        '"retry":{"attempts":$n,"coefficient":$f,"initial":$p,"maximum":0,"non_retryable":["fatal"]},'
        '"schedule_to_close":$x,"schedule_to_start":$z,"start_to_close":$k,"task_queue":"$q",'
        '"type":"ScheduleActivityTask"}'
    ),
    # The commands that end their run.
    "COMPLETE_RUN": '{"result":"$i","type":"CompleteWorkflowExecution"}',
    "FAIL_RUN": '{"message":"$i","type":"FailWorkflowExecution"}',
    "CANCEL_RUN": '{"details":"$i","type":"CancelWorkflowExecution"}',
    # A child, some of which time out soon.
    "CHILD": (
        '{"input":"$i","parent_close":"$h","reuse":"$v","run_timeout":$x,"task_queue":"$q",'
        '"task_timeout":$y,"type":"StartChildWorkflowExecution","workflow_id":"$c",'
        '"workflow_type":"payment"}'
    ),
    "SIGNAL_OTHER": (
        '{"input":"$i","name":"paid",$R"type":"SignalExternalWorkflowExecution","workflow_id":"$o"}'
    ),
    "CANCEL_OTHER": '{$R"type":"RequestCancelExternalWorkflowExecution","workflow_id":"$o"}',
    # A run to follow, which takes over most of what the last one was given.
    "CONTINUE": '{"input":"$i",$X$Q$Y"type":"ContinueAsNewWorkflowExecution"$W}',
}


class Draws:
    """Numbers drawn one after another, the same in each run: a linear congruential generator of 64 bits, with Knuth's
    constants for MMIX."""

    def __init__(self, seed: int) -> None:
        self.state = seed % 2**64
        # With the first 10 seeds runs are not asked to cancel, terminated, continued as new or started by signals,
        # since runs that end early seldom come to the rarer ends of activities.
        self.has_ends = seed > 10
        # Half of the commands start and cancel timers. With the first 20 seeds few do, and a timer is seldom in use
        # when it is to be canceled.
        self.has_timers = seed > 20
        # The one of two shards that is drawn for; none where there is one alone.
        self.home: Optional[int] = None

    @classmethod
    def for_two(cls, seed: int) -> Draws:
        """Draws for two shards, whose runs start children and turn to other workflows. Seeds that follow each other are
        spread over all numbers, so that what they draw is not alike."""
        draws = cls(seed * 11_400_714_819_323_198_485)
        draws.has_ends, draws.has_timers, draws.home = True, False, 0
        return draws

    def below(self, limit: int) -> int:
        """The next number, which is below the limit."""
        self.state = (self.state * 6_364_136_223_846_793_005 + 1_442_695_040_888_963_407) % 2**64
        return (self.state >> 33) % limit

    def one_in(self, count: int) -> bool:
        """One of so many draws is true."""
        return self.below(count) == 0

    def has_others(self) -> bool:
        """Whether runs start children, and signal or cancel other workflows."""
        return self.home is not None

    def workflow(self, limit: int) -> int:
        """A number for a workflow ID. Of two shards the even ones belong to the first, the odd ones to the second: most
        of the time it belongs to the shard that these draws are for."""
        drawn = self.below(limit)
        if self.home is None or self.one_in(8):
            return drawn
        return drawn - drawn % 2 + self.home

    def span(self, limit: int) -> int:
        """A duration below the limit, none half of the time."""
        return 0 if self.one_in(2) else self.below(limit)

    def seldom(self, count: int, word: str, other: str) -> str:
        """This word once in so many draws, else the other one."""
        return word if self.one_in(count) else other


def numbered(number: int) -> str:
    """The workflow ID of this number: first those that no other starts, then those of children."""
    return f"payment-{number - ORDERS}" if number >= ORDERS else f"order-{number}"


# ---- what is drawn for a letter


def started(draws: Draws) -> str:
    """A workflow that no other starts, of the shard that is asked."""
    return f"order-{draws.workflow(ORDERS if draws.has_others() else WORKFLOWS)}"


def workflow(draws: Draws) -> str:
    """A workflow of the shard that is asked, perhaps a child."""
    if draws.has_others() and draws.one_in(2):
        return f"payment-{draws.workflow(CHILDREN)}"
    return started(draws)


def other(draws: Draws) -> str:
    """A workflow of any shard, perhaps a child."""
    if draws.has_others() and draws.one_in(2):
        return f"payment-{draws.below(CHILDREN)}"
    return f"order-{draws.below(ORDERS if draws.has_others() else WORKFLOWS)}"


def conflict(draws: Draws) -> str:
    drawn = draws.below(16)
    if drawn == 0 and draws.has_ends:
        return "TerminateExisting"
    return "UseExisting" if drawn == 1 else "Fail"


def error_type(draws: Draws) -> str:
    drawn = draws.below(8)
    return '"error_type":"fatal",' if drawn == 0 else '"error_type":"busy",' if drawn <= 3 else ""


def queue_of_next(draws: Draws) -> str:
    drawn = draws.below(64)
    return '"task_queue":"nobody",' if drawn == 0 else '"task_queue":"main",' if drawn <= 15 else ""


def run_of(draws: Draws) -> str:
    """A sixth of the requests name a run."""
    if not draws.one_in(6):
        return ""
    service = 2 if draws.one_in(8) else 1
    shard = draws.below(2)
    return f'"run":"{run_id(service, shard, draws.below(WORKFLOWS + 7))}",'


PARTS: dict[str, Callable[[Draws], object]] = {
    "a": lambda draws: f"activity-{draws.below(16)}",
    "b": lambda draws: draws.seldom(16, "true", "false"),
    "c": lambda draws: f"payment-{draws.below(CHILDREN)}",
    "d": lambda draws: draws.below(100),
    "e": lambda draws: f'"execution_timeout":{1 + draws.below(1999)},' if draws.one_in(16) else "",
    "f": lambda draws: 100 * (1 + draws.below(3)),
    "g": conflict,
    "h": lambda draws: ("Terminate", "RequestCancel", "Abandon")[draws.below(3)],
    "i": lambda draws: draws.below(1000),
    "k": lambda draws: draws.below(400),
    "l": lambda draws: 1000 + draws.below(1000),
    "m": error_type,
    "n": lambda draws: draws.below(4),
    "o": other,
    "p": lambda draws: 1 + draws.below(50),
    "q": lambda draws: draws.seldom(16, "nobody", "main"),
    "r": lambda draws: "" if draws.one_in(4) else f'"request_id":"request-{draws.below(4)}",',
    "s": started,
    "t": lambda draws: f"timer-{draws.below(4)}",
    "u": lambda draws: draws.seldom(16, "RejectDuplicate", "AllowDuplicate"),
    "v": lambda draws: draws.seldom(4, "RejectDuplicate", "AllowDuplicate"),
    "w": workflow,
    "x": lambda draws: draws.span(1000),
    "y": lambda draws: draws.span(200),
    "z": lambda draws: draws.span(400),
    "Q": queue_of_next,
    "R": run_of,
    "W": lambda draws: draws.seldom(4, ',"workflow_type":"invoice"', ""),
    "X": lambda draws: f'"run_timeout":{draws.span(1000)},' if draws.one_in(2) else "",
    "Y": lambda draws: f'"task_timeout":{draws.span(200)},' if draws.one_in(2) else "",
}


def token(kind: int, task: Taken) -> str:
    return token_text(kind, task.run, task.event, task.attempt, task.shard)


def known_part(tasks: Tasks, letter: str) -> object:
    """What stands for a letter that names a task; none where it names none."""
    if letter == "S":
        waiting = tasks.waiting
        return (f'"attempt":{waiting.attempt},"event":{waiting.event},"kind":"{waiting.kind}","op":"start_task",'
                f'"run":{waiting.run}')
    if letter in "AT":
        return token(TaskKind.ACTIVITY, tasks.attempt) if letter == "A" else token(TaskKind.WORKFLOW, tasks.task)
    return {"N": tasks.dispatch, "V": tasks.asked}.get(letter)


def filled(template: str, draws: Draws, tasks: Tasks) -> str:
    """A template, with what is drawn in the place of its letters."""
    front, *parts = template.split("$")
    text = front
    for part in parts:
        said = commands(draws, tasks) if part[0] == "C" else known_part(tasks, part[0])
        text += f"{PARTS[part[0]](draws) if said is None else said}{part[1:]}"
    return text


# ---- which request or command is drawn


def end(draws: Draws) -> str:
    """A command that ends its run."""
    return ("COMPLETE_RUN", "FAIL_RUN", "CANCEL_RUN")[draws.below(3)]


def outward(draws: Draws) -> str:
    """A command that another shard carries out."""
    drawn = draws.below(8)
    return "CHILD" if drawn <= 4 else "SIGNAL_OTHER" if drawn <= 6 else "CANCEL_OTHER"


def command(draws: Draws, asked: int) -> str:
    """A marker, a timer or an activity most of the time, seldom one that asks another workflow to cancel, and else one
    that closes. An activity that is asked to cancel is the one of this event, 0 for none."""
    if draws.has_timers and draws.one_in(2):
        return "CANCEL_TIMER" if draws.one_in(2) else "LATE_TIMER"
    if draws.has_others() and draws.one_in(2):
        return outward(draws)
    if draws.has_others() and draws.one_in(4):
        return end(draws)
    drawn = draws.below(28 if draws.has_ends else 26)
    if 6 <= drawn <= 13 and asked > 0:
        return "CANCEL_TASK"
    if 22 <= drawn <= 24:
        return end(draws)
    return first_within(drawn, ((1, "MARK"), (4, "TIMER"), (5, "CANCEL_TIMER"), (21, "ACTIVITY"), (25, "CANCEL_OTHER"),
                                (27, "CONTINUE")))


def commands(draws: Draws, tasks: Tasks) -> str:
    """One or two commands."""
    text = filled(TEMPLATES[command(draws, tasks.asked)], draws, tasks)
    if draws.one_in(2):
        return text
    return f"{text},{filled(TEMPLATES[command(draws, tasks.asked)], draws, tasks)}"


def first_within(drawn: int, rows: tuple[tuple[int, str], ...]) -> str:
    """The name of the first row whose number is not below what was drawn."""
    return next(name for last, name in rows if drawn <= last)


def report(draws: Draws) -> str:
    """What a worker says about an attempt."""
    return first_within(draws.below(8), ((0, "COMPLETE_ACTIVITY"), (2, "FAIL_ACTIVITY"), (3, "CANCEL_ACTIVITY"),
                                         (7, "HEARTBEAT")))


def any_operation(draws: Draws) -> str:
    drawn = draws.below(38 if draws.has_ends else 33)
    if 22 <= drawn <= 26:
        return report(draws)
    return first_within(drawn, (
        (2, "START"), (5, "SIGNAL"), (8, "START_TASK"), (10, "COMPLETE"), (11, "FAIL_TASK"), (14, "HISTORY"),
        (21, "TIMER_TURN"), (28, "NEXT_DISPATCH"), (31, "DISPATCHED"), (32, "DESCRIBE"), (34, "SIGNAL_WITH_START"),
        (36, "REQUEST_CANCEL"), (37, "TERMINATE")))


def operation(draws: Draws, following: str) -> str:
    """Most of the time what comes next in a run."""
    if draws.one_in(3):
        return any_operation(draws)
    if following == "wake":
        return "TIMER_TURN" if draws.one_in(3) else "SIGNAL"
    if following == "report":
        return report(draws)
    return {"start": "START", "look": "HISTORY", "take": "START_TASK", "complete": "COMPLETE",
            "cancel": "CANCEL_ACTIVITY"}[following]


def line_of(at: int, template: str, draws: Draws, tasks: Tasks) -> str:
    """A record's line of what is asked at a moment."""
    return f'{{"pass":0,"request":{{"at":{at},{filled(TEMPLATES[template], draws, tasks)}}}}}'


def drawn_line(draws: Draws, known: Known, number: int) -> str:
    """A request whose moment is near that of the step with this number."""
    at = number * 5 + draws.below(30)
    tasks = known.tasks(draws)
    # A shard that has served nothing has no dispatch.
    template = "NEXT_DISPATCH" if number == 0 else operation(draws, known.next)
    return line_of(at, template, draws, tasks)
