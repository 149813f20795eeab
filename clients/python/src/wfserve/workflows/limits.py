"""What the service takes of a command: looked at where the code asks for it, so that a fault names its line."""

from __future__ import annotations

from typing import Any, Dict

from .errors import BadCommand
from .values import checked_text

ID_LIMIT = 255
DURATION_LIMIT = 10**12
COMMANDS_LIMIT = 10_000
IDS = {"activity_id", "timer_id", "workflow_id", "task_queue"}
DURATIONS = {
    "duration", "schedule_to_start", "start_to_close", "schedule_to_close", "heartbeat", "run_timeout", "task_timeout",
}
POLICIES = {
    "parent_close": ("Terminate", "RequestCancel", "Abandon"),
    "reuse": ("AllowDuplicate", "AllowDuplicateFailedOnly", "RejectDuplicate"),
}
# The least and the greatest number of each member of a retry policy.
RETRY_RANGES = {
    "initial": (1, DURATION_LIMIT), "coefficient": (100, 100_000), "maximum": (0, DURATION_LIMIT), "attempts": (0, 2**32 - 1),
}
RETRY_TYPES_LIMIT = 100


def check_command(command_type: str, members: Dict[str, Any]) -> None:
    """Raises BadCommand where the service would refuse the command, by the member's name."""
    about = f"{command_type} {members.get('activity_type') or members.get('workflow_type') or ''}".strip()
    try:
        check_members(about, command_type, members)
    except (TypeError, ValueError) as fault:
        raise BadCommand(str(fault)) from None


def check_members(about: str, command_type: str, members: Dict[str, Any]) -> None:
    for name, value in members.items():
        check_member(f"{name} of {about}", name, value)
    if command_type == "ScheduleActivityTask" and not {"start_to_close", "schedule_to_close"} & set(members):
        raise ValueError(f"{about} has neither start_to_close nor schedule_to_close: one of them has to end its attempts")


def check_member(about: str, name: str, value: Any) -> None:
    if name in DURATIONS:
        check_number(about, value, 0, DURATION_LIMIT, " of milliseconds, as seconds(1.5) gives one")
    elif name == "retry":
        check_retry(about, value)
    elif name in POLICIES:
        if value not in POLICIES[name]:
            raise ValueError(f"{about} is one of {', '.join(POLICIES[name])}, and not {value!r}")
    elif name == "scheduled":
        check_number(about, value, 1, 2**64 - 1)
    elif name in IDS:
        if not 1 <= len(checked_text(value, about).encode()) <= ID_LIMIT:
            raise ValueError(f"{about} has 1 to {ID_LIMIT} bytes, and not {len(value.encode())}: {value[:80]!r}")
    else:
        checked_text(value, about)


def check_number(about: str, value: Any, least: int, most: int, more: str = "") -> None:
    if type(value) is not int:
        raise TypeError(f"{about} is a whole number{more}, and not {value!r}")
    if not least <= value <= most:
        raise ValueError(f"{about} is from {least} to {most}, and not {value}")


def check_retry(about: str, members: Dict[str, Any]) -> None:
    for name, value in members.items():
        if name == "non_retryable":
            for kind in value:
                checked_text(kind, f"a type of non_retryable of {about}")
        else:
            check_number(f"{name} of {about}", value, *RETRY_RANGES[name])
    if len(members.get("non_retryable", ())) > RETRY_TYPES_LIMIT:
        raise ValueError(f"{about} names more than {RETRY_TYPES_LIMIT} types that are not tried again")
    if 0 < members.get("maximum", 0) < members.get("initial", 1_000):
        raise ValueError(f"the maximum of {about} is less than its initial wait")
