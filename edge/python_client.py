"""Where the Python package and its tests lie: the one place in which edge/ names them."""

import os
import pathlib
import sys

EDGE = pathlib.Path(__file__).resolve().parent
ROOT = EDGE.parent
CLIENT = ROOT / "clients/python"
PACKAGE = CLIENT / "src"
TESTS = CLIENT / "tests"


def add_paths(*folders: pathlib.Path) -> None:
    """Puts folders before all others, here and for programs that are started."""
    paths = [str(folder) for folder in folders]
    sys.path[:0] = [path for path in paths if path not in sys.path]
    others = [path for path in os.environ.get("PYTHONPATH", "").split(os.pathsep) if path and path not in paths]
    os.environ["PYTHONPATH"] = os.pathsep.join([*paths, *others])


add_paths(PACKAGE)
