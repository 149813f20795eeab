"""What the edge saw of activities' attempts: the history has none of it before an activity ends.

An attempt that is tried again writes no event. The edge sees each line and its reply, so it knows the attempt, how
the last one failed, when the next one is ready and what was told by a heartbeat. A compaction keeps that beside the
snapshots (edge/src). What is asked for here is shown, and decides nothing.
"""

from __future__ import annotations

from collections import OrderedDict
from dataclasses import asdict, dataclass
from typing import Any, Dict, Optional, Tuple

from wfserve.ids import TaskKind, numbers_of, token_of
from wfserve.types import Json, Reply, Request

# So many activities are known. The one of which nothing was heard for the longest time is forgotten first.
MOST_KEPT = 10_000
ENDS = ("complete_activity", "cancel_activity")
# The shard, the run's number there, and the event that scheduled the activity.
Activity = Tuple[int, int, int]
WAITS, STARTED = "waits for a worker", "a worker has it"


def activity_of(text: str) -> Optional[Activity]:
    """The activity that a token names; None where it is no activity's."""
    token = token_of(text)
    if token is None or token.kind != TaskKind.ACTIVITY:
        return None
    return token.shard, token.run, token.event


@dataclass
class Attempt:
    """What was seen of an activity last. Moments are in milliseconds."""

    attempt: int = 1
    state: str = WAITS
    # Since when it is in this state.
    since: int = 0
    # From when on the next attempt may be taken, where one waits for that.
    next_try: Optional[int] = None
    last_failure: Optional[str] = None
    last_failure_type: Optional[str] = None
    heartbeat: Optional[str] = None
    heartbeat_at: Optional[int] = None


class Attempts:
    """Told each request and its reply, it knows the attempts of the activities that are pending."""

    ops = frozenset({"poll_activity_task", "fail_activity", "heartbeat", *ENDS})

    def __init__(self) -> None:
        self._found: "OrderedDict[Activity, Attempt]" = OrderedDict()
        self._told: Dict[str, Any] = {
            "fail_activity": self._failed, "heartbeat": self._beat, **dict.fromkeys(ENDS, self._ended),
        }

    def observe(self, request: Request, reply: Reply) -> None:
        """Takes in a line."""
        op = request.get("op")
        if op == "poll_activity_task" and reply.get("ok") == "task":
            self._taken(request, reply)
        elif op in self._told and "ok" in reply:
            key = activity_of(str(request.get("token", "")))
            if key is not None:
                self._told[op](key, request, reply)

    def of(self, run: str, event: int) -> Json:
        """What is known of the activity that an event of this run scheduled, without what isn't known."""
        numbers = numbers_of(run)
        found = None if numbers is None else self._found.get((*numbers, event))
        return {name: value for name, value in asdict(found).items() if value is not None} if found else {}

    def _taken(self, request: Request, reply: Reply) -> None:
        key = activity_of(reply["token"])
        if key is not None:
            found = self._kept(key)
            found.attempt, found.state, found.since = reply["attempt"], STARTED, request.get("at", 0)
            found.next_try = None

    def _failed(self, key: Activity, request: Request, reply: Reply) -> None:
        if reply["ok"] != "retrying":
            self._ended(key, request, reply)
            return
        found = self._kept(key)
        found.attempt, found.state, found.since = reply["attempt"], WAITS, request.get("at", 0)
        found.next_try = reply["ready"]
        found.last_failure, found.last_failure_type = request.get("message"), request.get("error_type")

    def _beat(self, key: Activity, request: Request, reply: Reply) -> None:
        found = self._kept(key)
        found.heartbeat, found.heartbeat_at = request.get("details"), request.get("at", 0)

    def _ended(self, key: Activity, request: Request, reply: Reply) -> None:
        self._found.pop(key, None)

    def _kept(self, key: Activity) -> Attempt:
        found = self._found.setdefault(key, Attempt())
        self._found.move_to_end(key)
        if len(self._found) > MOST_KEPT:
            self._found.popitem(last=False)
        return found
