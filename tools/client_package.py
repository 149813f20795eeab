"""Lets tools and benchmarks import the Python client out of the tree: `import client_package` stands before `wfserve`."""
import os
import sys
from pathlib import Path

CLIENT = Path(__file__).resolve().parent.parent / "clients" / "python"
SRC = CLIENT / "src"


def environment() -> dict[str, str]:
    """The environment of a process that imports the client."""
    others = [path for path in os.environ.get("PYTHONPATH", "").split(os.pathsep) if path and path != str(SRC)]
    return {**os.environ, "PYTHONPATH": os.pathsep.join([str(SRC), *others])}


if str(SRC) not in sys.path:
    sys.path.insert(0, str(SRC))
