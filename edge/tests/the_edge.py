"""The compiled edge for tests: where it is, and the client's tests beside it."""

import os
import pathlib
import sys
import unittest

HERE = pathlib.Path(__file__).resolve().parent
sys.path.insert(0, str(HERE.parent))

import python_client  # noqa: E402

python_client.add_paths(python_client.TESTS)

from support import programs  # noqa: E402
from support.served import children_of, program_of, programs_of  # noqa: E402, F401 (tests here take them by this name)

# Another edge than the one that setup.sh builds is named by WFEDGE.
WFEDGE = programs.EDGE
needs_edge = unittest.skipUnless(WFEDGE.exists(), "wfedge is not built: edge/setup.sh builds it")
if programs.PYTHON:
    os.environ["WFEDGE_PYTHON"] = programs.PYTHON


def reply_by_key(connection, body, key, silent, **headers):
    """The text that a call by this key is answered. None where the status is one of those that say to ask again."""
    headers = {"Content-Type": "application/json", "Idempotency-Key": key, **headers}
    connection.request("POST", "/calls", body, headers)
    answer = connection.getresponse()
    text = answer.read()
    if answer.status not in (200, *silent):
        raise AssertionError(f"{answer.status}: {text}")
    return text if answer.status == 200 else None
