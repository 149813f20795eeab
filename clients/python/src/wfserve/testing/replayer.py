"""Replays stored histories over the code of now: what to do before each deployment."""

from __future__ import annotations

import json
from typing import Any, Callable, Iterable

from wfserve.workflows.converter import JSON, Converter
from wfserve.workflows.definitions import workflows_by_type
from wfserve.workflows.replay import check
from wfserve.workflows.stored import files_of


class Replayer:
    """Workflows by their types. NonDeterminism says where one asks for something else than a history has."""

    def __init__(self, workflows: Iterable[Callable[..., Any]], converter: Converter = JSON):
        self._workflows = workflows_by_type(workflows)
        self._converter = converter

    def replay(self, place: str) -> int:
        """How many histories of a file of replies, or of a folder of such files, agree.

        A history of another type is a KeyError: its code is gone, or was forgotten here.
        """
        count = 0
        for file in files_of(place):
            for line in file.read_text(encoding="utf-8").splitlines():
                count += self._replay_line(line, str(file))
        return count

    def _replay_line(self, line: str, file: str) -> int:
        """1 where the line is a history, which agrees then; 0 where it is another reply."""
        reply = json.loads(line)
        if reply.get("ok") != "history":
            return 0
        kind = reply["events"][0]["attrs"]["workflow_type"]
        if kind not in self._workflows:
            raise KeyError(f"{file} has a history of {kind}, and no workflow of this type is here")
        check(self._workflows[kind], reply["events"], reply["run"], self._converter)
        return 1
