"""What a phase can't do for want of something is said by name, and fails it with CI=true: each phase, without its means."""
from __future__ import annotations

import contextlib
import io
import os
import shutil
import subprocess
import sys
import unittest
import unittest.mock
from pathlib import Path

sys.path.insert(0, str(Path(__file__).resolve().parent))
import gate_edge
import gate_means
import hostile_use
from gate_means import COULD_NOT
from scratch import Scratch

TOOLS = Path(__file__).resolve().parent
TOP = TOOLS.parent
# A module of tests as the client and the edge have them: one that passes, and one of a class that lacks something.
TESTS = """
import unittest

class Whole(unittest.TestCase):
    def test_it(self):
        pass

@unittest.skip({why!r})
class Lacking(unittest.TestCase):
    def test_one(self):
        pass

    def test_two(self):
        \"\"\"With a line of its own.\"\"\"
"""
NO_SERVER = "no loopback, or no Python with aiohttp (clients/python/setup.sh installs it)"
NO_PAGE = "chromium is not here"
NO_WHEEL = "this Python has no pip, setuptools and wheel"
NO_POSTGRES = "PostgreSQL is not here: apt-get install postgresql"
# Runs a function of tools/gate without parts of it.
GATE = """
import importlib.machinery, importlib.util, sys
sys.path.insert(0, {tools!r})
loader = importlib.machinery.SourceFileLoader("gate", {tools!r} + "/gate")
gate = importlib.util.module_from_spec(importlib.util.spec_from_loader("gate", loader))
loader.exec_module(gate)
gate.QUICK = ()
sys.exit(gate.{call})
"""
APT = "#!/bin/sh\necho \"apt-get $*\" >> \"$ASKED\"\necho \"it says: $1\"\n[ \"$1\" != \"$FAILS\" ]\n"


class Lacking(Scratch):
    def path_of(self, *programs: str) -> str:
        """A PATH with these programs alone."""
        folder = self.top / "few"
        folder.mkdir(exist_ok=True)
        for program in programs:
            (folder / program).symlink_to(shutil.which(program) or f"/usr/bin/{program}")
        return str(folder)

    def within(self, command: list[str], ci: str, path: str = os.environ["PATH"], folder: Path = TOP) -> tuple[int, list[str]]:
        """The status of a phase's command, and what it says that it could not do."""
        code = "import sys, pathlib, gate_means; sys.exit(gate_means.within(sys.argv[2:], pathlib.Path(sys.argv[1])))"
        ran = subprocess.run([sys.executable, "-c", code, str(folder), *command], cwd=TOOLS, capture_output=True, text=True, timeout=300,
                             env={**os.environ, "CI": ci, "PATH": path, "PYTHONDONTWRITEBYTECODE": "1"})
        self.assertEqual(ran.stderr, "")
        return ran.returncode, [line[len(COULD_NOT):] for line in ran.stdout.splitlines() if line.startswith(COULD_NOT)]

    def is_red_alone_in_ci(self, command: list[str], *could_not: str, path: str = os.environ["PATH"], folder: Path = TOP) -> None:
        for ci, status in (("", 0), ("true", 1)):
            with self.subTest(ci=ci):
                self.assertEqual(self.within(command, ci, path, folder), (status, [*could_not]))

    def call(self, call: str) -> list[str]:
        return [sys.executable, "-c", GATE.format(tools=str(TOOLS), call=call)]

    def folder_of(self, why: str) -> Path:
        folder = self.top / "tests"
        folder.mkdir(exist_ok=True)
        (folder / "test_of_it.py").write_text(TESTS.format(why=why), encoding="utf-8")
        return folder

    def test_quick_without_a_checker_of_types_and_names(self) -> None:
        self.is_red_alone_in_ci(
            self.call("quick()"), "the client's types: there is no mypy here", "the client's code: there is no ruff here",
            "the client's names: there is no pyflakes3 here", path=self.path_of("python3"))

    def test_quick_without_wheel_and_clients_without_aiohttp_or_a_browser(self) -> None:
        for why in (NO_WHEEL, NO_SERVER, NO_PAGE):
            folder = self.folder_of(why)
            with self.subTest(why=why):
                self.is_red_alone_in_ci([sys.executable, str(TOOLS / "run_tests.py"), str(folder)], f"2 of test_of_it.Lacking: {why}")

    def test_tests_that_only_wait_for_the_program_are_counted(self) -> None:
        folder = self.folder_of("wfserve is not built: ./serve builds it")
        command = [sys.executable, str(TOOLS / "run_tests.py"), str(folder)]
        self.assertEqual(self.within(command, "true"), (0, []))
        self.assertIn("gate: 2 tests wait for the built program", subprocess.run(command, capture_output=True, text=True).stdout)

    def test_the_edge_without_cargo(self) -> None:
        path = self.path_of("python3", "env")
        for phase in ("edge-build", "edge-sockets"):
            status, could_not = self.within([sys.executable, "tools/gate", "within", phase], "true", path)
            self.assertEqual((status, len(could_not)), (1, 1))
            self.assertRegex(could_not[0], "the compiled edge: there is no cargo")

    def test_the_edge_without_crates(self) -> None:
        code = self.call("gate_edge.build()")
        code[2] = code[2].replace("gate.QUICK = ()", f"gate.gate_edge.REGISTRY = gate.Path({str(self.top)!r})")
        status, could_not = self.within(code, "true")
        self.assertEqual((status, len(could_not)), (1, 1))
        self.assertIn("the compiled edge: there is no the crate tokio, no the crate hyper", could_not[0])

    def test_sockets_without_postgres(self) -> None:
        folder = self.folder_of(NO_POSTGRES)
        shutil.copy(TOP / "edge/tests/by_class.py", folder / "by_class.py")
        self.is_red_alone_in_ci([sys.executable, "by_class.py"], f"test_of_it.Lacking: {NO_POSTGRES}", folder=folder)

    def test_programs_without_a_compiler(self) -> None:
        folder = self.folder_of("there is no C compiler")
        code = (f"import sys; sys.path[:0] = [{str(TOOLS)!r}, {str(folder)!r}]; sys.argv[1:] = []\n"
                "import journal_program; sys.exit(journal_program.status_of('test_of_it'))")
        self.is_red_alone_in_ci([sys.executable, "-c", code], *(
            f"test_of_it.Lacking.test_{name}: there is no C compiler" for name in ("one", "two")))

    def test_what_no_package_brings_is_said_and_no_failure(self) -> None:
        for why in ("no namespaces of the network can be made here: as root, with iproute2", "opentelemetry is installed",
                    "no file can be mounted here: it wants root, losetup, mkfs.ext4 and mount"):
            command = [sys.executable, str(TOOLS / "run_tests.py"), str(self.folder_of(why))]
            self.assertEqual(self.within(command, "true"), (0, [f"2 of test_of_it.Lacking: {why}"]))

    def test_a_phase_that_fails_keeps_its_status(self) -> None:
        self.assertEqual(self.within(["sh", "-c", "echo 'gate: skipped: it: why'; exit 3"], "true"), (3, ["it: why"]))


class Hostile(Scratch):
    FILES = {"tool.py": "import sys, time\ntime.sleep(float(sys.argv[1]))\nsys.exit(int(sys.argv[2]))\n", "program": "#!/bin/sh\n"}

    def main(self, *parts: hostile_use.Part, compiles: bool = True) -> tuple[int, list[str]]:
        (self.top / "program").chmod(0o755)
        self.replace(hostile_use, ROOT=self.top, LIMIT_SECONDS=1, parts=lambda today: parts, has_compiler=lambda: compiles)
        with contextlib.redirect_stdout(io.StringIO()) as out:
            status = hostile_use.main()
        return status, out.getvalue().splitlines()

    def part(self, title: str, seconds: float = 0, status: int = 0, program: str = "program", compiles: bool = False) -> hostile_use.Part:
        return hostile_use.Part(title, ["tool.py", str(seconds), str(status)], [self.top / program], compiles)

    def test_all_of_it(self) -> None:
        self.assertEqual(self.main(self.part("a"), self.part("b")), (0, ["== a", "== a: nothing found", "== b", "== b: nothing found"]))
        self.assertEqual(self.main(self.part("a", status=3), self.part("b"))[0], 1)

    def test_without_a_program_it_fails(self) -> None:
        self.assertEqual(self.main(self.part("a", program="none"), self.part("b")),
                         (1, ["== a: NOT RUN: there is no none", "== b", "== b: nothing found"]))

    def test_a_part_that_runs_over_its_time_is_no_success(self) -> None:
        self.assertEqual(self.main(self.part("a", seconds=60)), (1, ["== a", "== a: STOPPED after 1 s: what it looks for is not known"]))

    def test_without_a_compiler_a_part_is_skipped_by_name(self) -> None:
        status, lines = self.main(self.part("a", compiles=True), compiles=False)
        self.assertEqual((status, lines), (0, ["skipped: a: there is no C compiler for its allocator"]))
        skips = gate_means.Skips()
        skips.note(lines[0] + "\n")
        with unittest.mock.patch.dict(os.environ, CI="true"):
            self.assertTrue(skips.fail())


class Installed(Scratch):
    FILES = {"bin/apt-get": APT}

    def installed(self, packages: list[str], fails: str = "") -> tuple[str, list[str], list[str]]:
        """What became of it, what apt-get was asked, and what was said."""
        (self.top / "bin/apt-get").chmod(0o755)
        (self.top / "asked").write_text("", encoding="utf-8")
        self.replace(gate_means, lacking=lambda: iter(packages))
        self.replace(gate_means.os, geteuid=lambda: 0)
        with self.with_toolchain(ASKED=str(self.top / "asked"), FAILS=fails), contextlib.redirect_stdout(io.StringIO()) as out:
            why = gate_means.install()
        return why, (self.top / "asked").read_text(encoding="utf-8").splitlines(), out.getvalue().splitlines()

    def test_where_all_is_there_nothing_is_asked(self) -> None:
        self.assertEqual(self.installed([]), ("", [], []))

    def test_what_is_lacking_is_installed_at_once(self) -> None:
        self.assertEqual(self.installed(["mypy", "chromium", "mypy"]), ("", [
            "apt-get update -q", "apt-get install -q -y --no-install-recommends chromium mypy"], ["gate: installs chromium mypy"]))

    def test_a_failure_is_told_with_what_was_said(self) -> None:
        for step, asked in (("update", 1), ("install", 2)):
            why, calls, said = self.installed(["mypy"], fails=step)
            self.assertEqual((why, len(calls), said[-1]), (f"apt-get {step} ended with status 1", asked, f"it says: {step}"))

    def test_only_root_installs(self) -> None:
        self.replace(gate_means.os, geteuid=lambda: 1000)
        self.replace(gate_means, lacking=lambda: iter(["mypy"]))
        (self.top / "bin/apt-get").chmod(0o755)
        with self.with_toolchain(), contextlib.redirect_stdout(io.StringIO()):
            self.assertEqual(gate_means.install(), "only root installs packages: apt-get install mypy")

    def test_packages_are_those_of_what_is_not_here(self) -> None:
        self.replace(gate_edge, REGISTRY=self.top)
        with unittest.mock.patch.dict(os.environ, PATH=str(self.top / "bin")):
            packages = {*gate_means.lacking()}
        self.assertLessEqual({"mypy", "pyflakes3", "chromium", "rustfmt", "librust-tokio-dev", "librust-serde-json-dev",
                              "librust-tokio-postgres-dev"}, packages)

    def test_all_that_setup_of_the_edge_installs_is_among_them(self) -> None:
        words = (TOP / "edge/setup.sh").read_text(encoding="utf-8").replace("(", " ").replace(")", " ").split()
        listed = {word for word in words if word.startswith("librust-")}
        named = {f"librust-{name.replace('_', '-')}-dev" for name in gate_edge.CRATES + gate_edge.CLIENT}
        self.assertEqual(listed, named)


if __name__ == "__main__":
    unittest.main()
