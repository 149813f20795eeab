"""The program that tests run against."""

from __future__ import annotations

import os
import pathlib

from wfserve.errors import WfserveError

PLACES = ("out/build/crates/wfserve/out/wfserve", "out/unproved/wfserve")


class NoProgram(WfserveError):
    """There is no program to test against."""


def find_program() -> str:
    """The program of WFSERVE, or the one that was built in the tree that this package lies in. NoProgram without one."""
    named = os.environ.get("WFSERVE")
    if named:
        return named
    here = pathlib.Path(__file__).resolve()
    tops = [top for top in here.parents if (top / "crates.txt").is_file()]
    for program in (top / place for top in tops for place in PLACES):
        if program.is_file():
            return str(program)
    raise NoProgram("no wfserve is built: WFSERVE names one, and tools/unproved_program.py builds one in two to three minutes")
