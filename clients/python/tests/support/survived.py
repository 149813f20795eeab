"""An order whose process is killed while its card is charged, and that goes on from what is kept of it."""

import os
import pathlib
import subprocess
import sys
import tempfile
import time
import unittest

from support import CLIENT, EXAMPLES
from support.programs import BUILT


# So long the example waits, and here.
WAITS, SHORT = "seconds(10)", "seconds(3)"


def killed_and_paid_once(test: unittest.TestCase, kept: str) -> None:
    """Kills the example with its log or journal at this path, and finds that it ends with the one receipt."""
    text = (EXAMPLES / "survive.py").read_text(encoding="utf-8")
    test.assertIn(f"timer({WAITS})", text)
    with tempfile.TemporaryDirectory() as folder:
        script = pathlib.Path(folder) / "survive.py"
        script.write_text(text.replace(WAITS, SHORT), encoding="utf-8")
        killed_while_it_waits(test, [sys.executable, str(script), str(BUILT), kept])


def killed_while_it_waits(test: unittest.TestCase, call: "list[str]") -> None:
    """Kills it once the card was charged, and lets it go on."""
    environment = {**os.environ, "PYTHONPATH": str(CLIENT / "src")}
    first = subprocess.Popen(call, env=environment, stdout=subprocess.PIPE, text=True)
    test.assertEqual(first.stdout.readline(), "charging card 42\n")
    time.sleep(1)
    first.kill()
    first.communicate()
    second = subprocess.run(call, env=environment, stdout=subprocess.PIPE, text=True, check=True)
    test.assertEqual(second.stdout, "shipped with receipt 4711\n")
