"""The command `wf`: starts a server, starts workflows, and shows what becomes of them. `wf --help` lists it all."""

from __future__ import annotations

import sys
from typing import List, Optional

from .commands import run


def main(words: Optional[List[str]] = None) -> int:
    """Runs the command that these words ask for, those of the process where none are given. Its exit status."""
    return run(sys.argv[1:] if words is None else words)
