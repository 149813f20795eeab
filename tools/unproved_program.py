#!/usr/bin/env python3
"""Builds wfserve without proofs, with the checks that `rt try` compiles in.

    tools/unproved_program.py [FILE]    leaves it as FILE, out/unproved/wfserve where none is named

It is the code that ./serve proves and builds, some two hundred times slower: each access of memory is checked, and it
stops at a fault that a proof rules out (`tools/unproved.py`). One to two minutes of processor time. A program that is newer
than all sources of its crates is not built again. Status 0, or 2 where nothing was built.
"""
from __future__ import annotations

import sys
from pathlib import Path

import unproved

NAME = "wfserve"


def main(words: list[str]) -> int:
    if words[:1] in (["-h"], ["--help"]) or len(words) > 1:
        print((__doc__ or "").strip())
        return 0
    program = Path(words[0]) if words else unproved.kept() / NAME
    try:
        unproved.ensure(NAME, program, checks=unproved.Checks.MEMORY)
    except unproved.NotBuilt as why:
        print(f"unproved: {why}", file=sys.stderr)
        return 2
    return 0


if __name__ == "__main__":
    sys.exit(main(sys.argv[1:]))
