"""The cases of the gate, as tests of Python read them: tests/cases/README.md says how one is written."""

import dataclasses
from typing import Dict, List

from support import ROOT

CASES = ROOT / "tests/cases"


@dataclasses.dataclass
class Case:
    """The words of its command line, its lines, and the replies that they must have."""

    words: List[str] = dataclasses.field(default_factory=list)
    lines: List[str] = dataclasses.field(default_factory=list)
    replies: List[str] = dataclasses.field(default_factory=list)


def cases_of(file: str) -> Dict[str, Case]:
    """The cases of a file, by their names."""
    found, case = {}, Case()
    for line in (CASES / "data" / f"{file}.cases").read_text(encoding="utf-8").splitlines():
        marker, text = line[:1], line[2:]
        if line.startswith("## "):
            case = found[line[3:]] = Case()
        elif marker == "$":
            case.words += text.split(" ")
        elif marker == ">":
            case.lines.append(text)
        elif marker == "<":
            case.replies.append(text)
    return found
