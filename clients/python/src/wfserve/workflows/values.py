"""Values as texts of a history, and durations. A value is JSON; no value is the empty text."""

from __future__ import annotations

import json
from dataclasses import dataclass
from typing import Any, List, Sequence, Tuple

from wfserve.types import Json

from .typed import json_of


TEXT_LIMIT = 4_096


def text_of(value: Any) -> str:
    """A value as JSON: without a hint a tuple comes back as a list, a dataclass as its fields, and any key as a text."""
    if value is None:
        return ""
    try:
        return json.dumps(value, separators=(",", ":"), ensure_ascii=False, default=json_of)
    except TypeError as fault:
        raise TypeError(f"{fault}; a dataclass of what is may be handed on") from None


def checked_text(text: Any, about: str) -> str:
    """The text, where it is one that a history can hold."""
    if not isinstance(text, str):
        raise TypeError(f"{about} is a text, and not {text!r}")
    length = len(text.encode())
    if length > TEXT_LIMIT:
        raise ValueError(f"{about} has {length} bytes, and a text has at most {TEXT_LIMIT}: hand on where it lies")
    return text


def value_of(text: str) -> Any:
    """The value; a text that is no JSON, as a person writes one, is the text itself."""
    if text == "":
        return None
    try:
        return json.loads(text)
    except ValueError:
        return text


def input_of(arguments: Sequence[Any]) -> str:
    """Arguments as an input: their list, or the empty text where there is none."""
    return text_of(list(arguments)) if arguments else ""


# The keys of an input that has signals with it: those that the run before left.
ARGUMENTS, SIGNALS = "arguments", "signals that nobody took"


def input_with_signals(arguments: Sequence[Any], signals: Sequence[Tuple[str, Any]]) -> str:
    """The input of a run that goes on, with signals that the run before leaves it."""
    return text_of({ARGUMENTS: list(arguments), SIGNALS: [list(signal) for signal in signals]})


def parts_of_input(text: str) -> Tuple[List[Any], List[Tuple[str, Any]]]:
    """The arguments of a run that goes on, and the signals that the run before left."""
    value = value_of(text)
    if isinstance(value, dict) and set(value) == {ARGUMENTS, SIGNALS}:
        return value[ARGUMENTS], [(name, signal) for name, signal in value[SIGNALS]]
    return arguments_of(text), []


def arguments_of(text: str) -> List[Any]:
    """The arguments of an input: those of a list, or the one value that it is."""
    value = value_of(text)
    if value is None:
        return []
    return value if isinstance(value, list) else [value]


def clipped(text: str) -> str:
    """As much of a message as a history takes."""
    return text.encode("utf-8", "replace")[:TEXT_LIMIT].decode("utf-8", "ignore")


def seconds(count: float) -> int:
    """So many seconds in whole milliseconds, as all durations are given."""
    return round(count * 1_000)


def minutes(count: float) -> int:
    """So many minutes in milliseconds."""
    return seconds(60 * count)


def hours(count: float) -> int:
    """So many hours in milliseconds."""
    return minutes(60 * count)


def days(count: float) -> int:
    """So many days of 24 hours in milliseconds."""
    return hours(24 * count)


@dataclass(frozen=True)
class Retry:
    """How an activity is tried again. Waits are in milliseconds; 0 attempts are no limit."""

    initial: int = 1_000
    coefficient: float = 2.0
    maximum: int = 0
    attempts: int = 0
    non_retryable: Sequence[str] = ()


def retry_members(retry: Retry) -> Json:
    """A retry policy as a line has it. Members that are the service's own defaults are left out."""
    members: Json = {}
    if retry.initial != 1_000:
        members["initial"] = retry.initial
    if retry.coefficient != 2.0:
        members["coefficient"] = hundredths(retry.coefficient)
    if retry.maximum:
        members["maximum"] = retry.maximum
    if retry.attempts:
        members["attempts"] = retry.attempts
    if retry.non_retryable:
        members["non_retryable"] = list(retry.non_retryable)
    return members


def hundredths(coefficient: float) -> int:
    """A coefficient as the service takes it: in whole hundredths."""
    count = round(coefficient * 100)
    if abs(count - coefficient * 100) > 1e-6:
        raise ValueError(f"the coefficient of a retry policy has two decimals at most, and not {coefficient}")
    return count
