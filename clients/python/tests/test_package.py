"""The package: it has one base of errors, each module loads alone, and installed it needs nothing of the tree."""

import importlib
import importlib.util
import inspect
import os
import pathlib
import pkgutil
import re
import shutil
import subprocess
import sys
import tempfile
import unittest

from support import CLIENT
import wfserve
from wfserve.errors import WfserveError

# They end or cancel what runs, and no `except Exception` may catch them.
NO_EXCEPTIONS = {"Blocked", "Cancelled", "ContinueAsNew", "ReplayOver"}
# These need aiohttp.
WANTING = ("wfserve.page.faults", "wfserve.page.pages")


def module_names():
    return [found.name for found in pkgutil.walk_packages(wfserve.__path__, "wfserve.")]


def loaded():
    """The modules of the package that this Python has all that they need for."""
    for name in module_names():
        try:
            yield importlib.import_module(name)
        except ModuleNotFoundError as missing:
            if name not in WANTING or missing.name.partition(".")[0] != "aiohttp":
                raise


def silent_in(module):
    """The public names of a module, and of its classes, that have no word on what they are."""
    own = [name for name, it in vars(module).items() if getattr(it, "__module__", None) == module.__name__]
    for name in getattr(module, "__all__", own):
        it = getattr(module, name)
        if name.startswith("_") or not (inspect.isclass(it) or inspect.isfunction(it)):
            continue
        if not (it.__doc__ if inspect.isclass(it) else inspect.getdoc(it)):
            yield f"{module.__name__}.{name}"
        for inner, found in vars(it).items() if inspect.isclass(it) else ():
            is_code = inspect.isfunction(getattr(found, "__func__", found)) or isinstance(found, property)
            if is_code and not inner.startswith("_") and not inspect.getdoc(getattr(it, inner)):
                yield f"{module.__name__}.{name}.{inner}"


class Package(unittest.TestCase):
    def test_errors_have_one_base(self):
        own = {
            thing for module in loaded() for thing in vars(module).values()
            if inspect.isclass(thing) and issubclass(thing, BaseException) and thing.__module__.startswith("wfserve")
        }
        self.assertGreater(len(own), 25)
        self.assertEqual({it.__name__ for it in own if not issubclass(it, WfserveError)}, NO_EXCEPTIONS)

    def test_each_module_says_what_it_is(self):
        for module in loaded():
            self.assertTrue(module.__doc__, module.__name__)

    def test_all_that_is_public_says_what_it_is(self):
        """Of the modules that the package's page lists: each function, class, method and property."""
        table = (CLIENT / "README.md").read_text(encoding="utf-8").split("## What is in it")[1].split("\n\n`wfserve")[0]
        names = re.findall(r"`(wfserve\.[a-z_]+)`", table)
        self.assertGreater(len(names), 12)
        silent = [it for name in names for it in silent_in(importlib.import_module(name))]
        self.assertEqual(silent, [])

    def test_a_module_that_needs_nothing_loads_with_nothing(self):
        names = [name for name in module_names() if name not in WANTING and not name.endswith("__main__")]
        self.assertGreater(len(names), 40)
        code = "import sys\nsys.modules['aiohttp'] = None\n"
        code += "".join(f"import {name}\n" for name in names)
        subprocess.run([sys.executable, "-S", "-c", code], check=True)

    def test_the_version_is_that_of_the_changelog(self):
        changes = (CLIENT.parents[1] / "CHANGELOG.md").read_text(encoding="utf-8")
        self.assertIn(f"\n## {wfserve.__version__}", changes)


def can_install():
    """Whether this Python can build a package without a network."""
    return all(importlib.util.find_spec(name) for name in ("pip", "setuptools", "wheel"))


@unittest.skipUnless(can_install(), "this Python has no pip, setuptools and wheel")
class Installed(unittest.TestCase):
    @classmethod
    def setUpClass(cls):
        cls.folder = tempfile.TemporaryDirectory()
        cls.addClassCleanup(cls.folder.cleanup)
        source, cls.target = pathlib.Path(cls.folder.name) / "source", pathlib.Path(cls.folder.name) / "target"
        shutil.copytree(CLIENT, source, ignore=shutil.ignore_patterns("__pycache__", "build", "*.egg-info", "tests"))
        words = ["install", "-q", "--no-build-isolation", "--no-index", "--no-deps", "--target", cls.target, source]
        subprocess.run([sys.executable, "-m", "pip", *words], check=True, capture_output=True)

    def ran(self, *words):
        """What this Python says of the installed package alone."""
        environment = {**os.environ, "PYTHONPATH": str(self.target)}
        ran = subprocess.run([sys.executable, *words], cwd="/", env=environment, capture_output=True, text=True, check=True)
        return ran.stdout

    def test_it_is_the_same_version(self):
        said = self.ran("-c", "import wfserve; print(wfserve.__version__, wfserve.__file__)")
        self.assertEqual(said, f"{wfserve.__version__} {self.target / 'wfserve/__init__.py'}\n")

    def test_commands_run_without_the_tree(self):
        self.assertIn("replay", self.ran("-m", "wfserve.workflows", "--help"))

    def test_the_page_and_the_mark_for_types_come_along(self):
        for part in ("py.typed", "page/files/index.html", "page/files/workflow.js", "page/files/page.css"):
            self.assertTrue((self.target / "wfserve" / part).is_file(), part)

    def test_a_history_is_drawn_without_the_tree(self):
        code = ("from wfserve.picture import picture\n"
                "print(picture([{'id': 1, 'at': 0, 'type': 'WorkflowExecutionStarted', 'attrs': {}}]))")
        self.assertIn("WorkflowExecutionStarted", self.ran("-c", code))


if __name__ == "__main__":
    unittest.main()
