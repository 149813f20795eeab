"""Values by type hints: what JSON has is made into dataclasses, enums and the like, and these into JSON."""

from __future__ import annotations

import collections.abc
import dataclasses
import datetime
import decimal
import enum
import functools
import inspect
import types
import typing
import uuid
from typing import Any, Callable, Dict, List, Tuple, Union

from wfserve.counts import counted

# Types that JSON has as texts, and what makes one of a text.
TEXTS: Dict[Any, Callable[[str], Any]] = {
    datetime.datetime: datetime.datetime.fromisoformat, datetime.date: datetime.date.fromisoformat,
    uuid.UUID: uuid.UUID, decimal.Decimal: decimal.Decimal,
}
LISTS = (list, collections.abc.Sequence, collections.abc.Iterable)
MAPPINGS = (dict, collections.abc.Mapping)
# `int | str` has a type of its own, from Python 3.10 on.
UNIONS = {Union, getattr(types, "UnionType", Union)}
# Of so many functions and classes hints are remembered. Code may make functions anew in each replay.
MOST_KNOWN = 1_024
ANYTHING = (Any, object, None, inspect.Parameter.empty)


def json_of(value: Any) -> Any:
    """What of a value JSON has: the fields of a dataclass or a Pydantic model, an enum's value, a date's text."""
    if dataclasses.is_dataclass(value) and not isinstance(value, type):
        return {it.name: getattr(value, it.name) for it in dataclasses.fields(value)}
    if isinstance(value, enum.Enum):
        return value.value
    if isinstance(value, (datetime.datetime, datetime.date)):
        return value.isoformat()
    if isinstance(value, (uuid.UUID, decimal.Decimal)):
        return str(value)
    for dump in ("model_dump", "dict"):
        if hasattr(value, dump) and (hasattr(type(value), "model_fields") or hasattr(type(value), "__fields__")):
            return getattr(value, dump)()
    raise TypeError(f"Object of type {type(value).__name__} is not JSON serializable")


def typed(value: Any, hint: Any) -> Any:
    """A value of JSON as a hint says. What a hint says nothing about stays as it is.

    TypeError or ValueError where a dataclass, an enum or a text of a date can't be made of it.
    """
    if value is None or hint in ANYTHING:
        return value
    origin, parts = typing.get_origin(hint), typing.get_args(hint)
    if origin in UNIONS:
        return of_union(value, parts)
    if origin is not None:
        return of_container(value, origin, parts)
    if dataclasses.is_dataclass(hint):
        return of_dataclass(value, hint)
    if isinstance(hint, type) and issubclass(hint, enum.Enum):
        return hint(value)
    if hint in TEXTS:
        return TEXTS[hint](value)
    for validate in ("model_validate", "parse_obj"):
        if hasattr(hint, validate):
            return getattr(hint, validate)(value)
    return value


def of_union(value: Any, parts: Tuple[Any, ...]) -> Any:
    """A value as the first of several types that it can be made into."""
    for part in parts:
        try:
            made = typed(value, part)
        except (TypeError, ValueError, KeyError):
            continue
        if part not in (int, float, str, bool) or isinstance(made, part):
            return made
    return value


def of_container(value: Any, origin: Any, parts: Tuple[Any, ...]) -> Any:
    """A list, a tuple, a set or a mapping, whose members are made as their hints say."""
    if origin in MAPPINGS and isinstance(value, dict) and parts:
        return {of_key(name, parts[0]): typed(it, parts[1]) for name, it in value.items()}
    if not isinstance(value, list):
        return value
    if origin is tuple and parts and parts[-1] is not Ellipsis:
        if len(value) != len(parts):
            raise TypeError(f"a tuple of {len(parts)} is not made of {counted(len(value), 'value')}")
        return tuple(typed(it, part) for it, part in zip(value, parts))
    members = [typed(it, parts[0] if parts else Any) for it in value]
    return members if origin in LISTS else origin(members) if origin in (tuple, set, frozenset) else value


def of_key(name: str, hint: Any) -> Any:
    """A key of a mapping: JSON has numbers there as texts."""
    return hint(name) if hint in (int, float) else typed(name, hint)


def of_dataclass(value: Any, kind: Any) -> Any:
    """A dataclass of its fields. Keys that it has no field for are left out, as a later version may have more."""
    if not isinstance(value, dict):
        raise TypeError(f"{value!r} is no {kind.__name__}")
    hints = hints_in(kind)
    names = [it.name for it in dataclasses.fields(kind) if it.init]
    return kind(**{name: typed(value[name], hints.get(name, Any)) for name in names if name in value})


@functools.lru_cache(maxsize=MOST_KNOWN)
def hints_in(of: Any) -> Dict[str, Any]:
    """The type hints of a class or a function; none where they name what isn't there at run time."""
    try:
        return typing.get_type_hints(of)
    except (NameError, TypeError, AttributeError):
        return {}


@functools.lru_cache(maxsize=MOST_KNOWN)
def parameter_hints(function: Callable[..., Any], skipped: int = 0) -> Tuple[List[Any], Any]:
    """The hints of a function's arguments by their places, without the first ones, and that of all further ones."""
    hints, found, further = hints_in(function), [], Any
    try:
        parameters = inspect.signature(function).parameters.values()
    except (TypeError, ValueError):
        return [], Any
    for parameter in parameters:
        if parameter.kind is inspect.Parameter.VAR_POSITIONAL:
            further = hints.get(parameter.name, Any)
        elif parameter.kind in (inspect.Parameter.POSITIONAL_ONLY, inspect.Parameter.POSITIONAL_OR_KEYWORD):
            found.append(hints.get(parameter.name, Any))
    return found[skipped:], further


def result_hint(named: Any) -> Any:
    """What a function gives, by its hint; anything where none is given, or only a name."""
    return hints_in(named).get("return", Any) if callable(named) else Any


def typed_arguments(function: Callable[..., Any], arguments: List[Any], skipped: int = 0) -> List[Any]:
    """Arguments as the function's hints say; `skipped` are those that it is given before them."""
    hints, further = parameter_hints(function, skipped)
    return [typed(it, hints[i] if i < len(hints) else further) for i, it in enumerate(arguments)]
