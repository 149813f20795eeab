"""What tests share. Importing it puts the package and the examples where this process and those that it starts find
them, so that tests run in the tree without an installation: `python3 -m unittest` in clients/python/tests."""

import os
import pathlib
import sys

TESTS = pathlib.Path(__file__).resolve().parents[1]
CLIENT = TESTS.parent
# The top of the repository.
ROOT = CLIENT.parents[1]
EXAMPLES = CLIENT / "examples"
PATHS = [str(CLIENT / "src"), str(CLIENT), str(TESTS)]


def add_paths() -> None:
    """Puts the folders before all others, here and for programs that are started."""
    sys.path[:0] = [path for path in PATHS if path not in sys.path]
    others = [path for path in os.environ.get("PYTHONPATH", "").split(os.pathsep) if path and path not in PATHS]
    os.environ["PYTHONPATH"] = os.pathsep.join([*PATHS, *others])


def add_tools() -> None:
    """Lets tests import what lies in tools/."""
    if str(ROOT / "tools") not in sys.path:
        sys.path.append(str(ROOT / "tools"))


add_paths()
