"""For tests of the tools: a folder with files and a toolchain of the test's own, and a program that is a script."""
from __future__ import annotations

import contextlib
import os
import tempfile
import unittest
import unittest.mock
from collections.abc import Iterator
from pathlib import Path
from types import ModuleType
from typing import Any

from journal_program import Tested


@contextlib.contextmanager
def stubbed(program: str) -> Iterator[None]:
    """A block in which the tested program is this script."""
    with tempfile.TemporaryDirectory() as folder:
        stub = Path(folder, "program")
        stub.write_text(program, encoding="utf-8")
        stub.chmod(0o755)
        with unittest.mock.patch.object(Tested, "program", stub):
            yield


class Scratch(unittest.TestCase):
    """A test with a folder `top`, in which FILES lie, and `bin/rt`, which is the script RT."""

    FILES: dict[str, str] = {}
    RT = "#!/bin/sh\n"

    def setUp(self) -> None:
        folder = tempfile.TemporaryDirectory()
        self.addCleanup(folder.cleanup)
        self.top = Path(folder.name)
        for name, text in {**self.FILES, "bin/rt": self.RT}.items():
            (self.top / name).parent.mkdir(parents=True, exist_ok=True)
            (self.top / name).write_text(text, encoding="utf-8")
        (self.top / "bin/rt").chmod(0o755)

    def replace(self, module: ModuleType, **names: Any) -> None:
        """Gives names of a module other values until the test's end."""
        for name, value in names.items():
            patch = unittest.mock.patch.object(module, name, value)
            patch.start()
            self.addCleanup(patch.stop)

    def with_toolchain(self, **variables: str) -> Any:
        """A block in which `rt` is the script, and the environment has these variables."""
        path = f"{self.top / 'bin'}:{os.environ['PATH']}"
        return unittest.mock.patch.dict(os.environ, {"PATH": path, **variables})
