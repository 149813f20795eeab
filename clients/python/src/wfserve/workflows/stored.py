"""Stored histories: files of replies, a line each, and whether a workflow's code agrees with them."""

from __future__ import annotations

import json
import pathlib
from typing import Any, Callable, Iterable, Iterator, List

from wfserve.counts import counted
from wfserve.errors import WfserveError
from wfserve.types import Reply

from .converter import JSON, Converter
from .definitions import type_of
from .errors import NonDeterminism
from .replay import check


SUFFIXES = (".json", ".jsonl")


class CodeFails(WfserveError):
    """The code raised what no workflow may."""


def histories(lines: Iterable[str], workflow_type: str) -> Iterator[Reply]:
    """The histories of a workflow type among replies."""
    for line in lines:
        reply = json.loads(line)
        if reply.get("ok") == "history" and reply["events"][0]["attrs"]["workflow_type"] == workflow_type:
            yield reply


def files_of(place: str) -> List[pathlib.Path]:
    """A file, or those of a folder that have the name of one with histories, by their names."""
    path = pathlib.Path(place)
    if not path.is_dir():
        return [path]
    return sorted(file for file in path.iterdir() if file.suffix in SUFFIXES)


def replay_one(function: Callable[..., Any], reply: Reply, converter: Converter = JSON) -> None:
    """Runs the code over one history. NonDeterminism where it asks for something else than the history has."""
    try:
        check(function, reply["events"], reply["run"], converter)
    except NonDeterminism:
        raise
    except Exception as fault:
        raise CodeFails(f"it raises {type(fault).__name__}: {fault}") from fault


def replay_file(function: Callable[..., Any], file: pathlib.Path, converter: Converter = JSON) -> int:
    """How many histories of a file agree. NonDeterminism or CodeFails at the first that does not."""
    count = 0
    with open(file, encoding="utf-8") as lines:
        for reply in histories(lines, type_of(function)):
            replay_one(function, reply, converter)
            count += 1
    return count


def replay(function: Callable[..., Any], place: str, converter: Converter = JSON) -> int:
    """How many histories of a file, or of a folder's files, agree with a workflow's code."""
    return sum(replay_file(function, file, converter) for file in files_of(place))


def said_of_replay(function: Callable[..., Any], name: str, place: str, converter: Converter = JSON) -> str:
    """What agrees, in words. ValueError where the file or the folder has no history of the workflow."""
    count = replay(function, place, converter)
    if count == 0:
        raise ValueError(f"{place} has no history of {name}")
    return f"{name} agrees with {counted(count, 'history', 'histories')} of {place}"
