"""What the gate's phases need and Debian has: what of it isn't here, and its installation.

A phase says by name what it could not do. Where CI is `true` in the environment that fails the gate, since nobody is there
who would read it: but for what no package brings, as a namespace of the network or a mount.
"""
from __future__ import annotations

import os
import re
import shutil
import subprocess
import sys
from collections.abc import Iterable, Iterator
from pathlib import Path

import gate_edge

DEBIAN_PYTHON = "/usr/bin/python3"
# Modules of Python that tests and servers import, and Debian's packages of them.
MODULES = {
    "aiohttp": "python3-aiohttp", "httptools": "python3-httptools", "uvloop": "python3-uvloop", "pydantic": "python3-pydantic",
    "cryptography": "python3-cryptography", "pip": "python3-pip", "setuptools": "python3-setuptools", "wheel": "python3-wheel",
}
# Commands, and Debian's packages of them.
COMMANDS = {
    "mypy": "mypy", "pyflakes3": "pyflakes3", "cc": "gcc", "cargo": "cargo", "cargo-fmt": "rustfmt", "cargo-clippy": "rust-clippy",
    gate_edge.DEBIAN: "cargo", "chromium": "chromium", "ip": "iproute2", "mkfs.ext4": "e2fsprogs", "losetup": "mount",
}
POSTGRES = "postgresql"
# So long the installation may take, of some hundred megabytes.
SECONDS = 1_200
# What is said where something isn't done: by the gate, by a tool, by unittest of a test that it names before.
SKIPPED = re.compile(r"(?:gate: )?skipped: (.+)$")
OF_TEST = re.compile(r"(?:.* )?\((?:[\w.]+\.)?(\w+\.\w+)\.\w+\)")
TEST_SKIPPED = re.compile(r".*\.\.\. skipped (['\"])(.*)\1$")
# Reasons that no package of Debian mends, and tests that are run by hand alone.
EXCUSED = re.compile(
    r"there is no ruff|opentelemetry|measured by hand|makes no holes|no holes here|no namespaces of the network"
    r"|no run of the gate was recorded yet|no file can be mounted here|on a machine as slow as this one|no loopback$|no /proc")
COULD_NOT = "gate: could not be done here: "


def is_ci() -> bool:
    """Whether what can't be done here fails the gate."""
    return os.environ.get("CI") == "true"


def imports(python: str, module: str) -> bool:
    """Whether this Python has a module."""
    code = f"import importlib.util, sys; sys.exit(importlib.util.find_spec({module!r}) is None)"
    return subprocess.run([python, "-c", code], stdin=subprocess.DEVNULL, capture_output=True).returncode == 0


def python() -> str:
    """The Python that the phases run on: Debian's where it has what its server imports and this one hasn't."""
    if not imports(sys.executable, "aiohttp") and os.access(DEBIAN_PYTHON, os.X_OK) and imports(DEBIAN_PYTHON, "aiohttp"):
        return DEBIAN_PYTHON
    return sys.executable


def lacking() -> Iterator[str]:
    """Debian's packages of what isn't here."""
    code = "import importlib.util\n" + "\n".join(
        f"print({package!r} if importlib.util.find_spec({module!r}) is None else '')" for module, package in MODULES.items())
    asked = subprocess.run([DEBIAN_PYTHON, "-c", code], stdin=subprocess.DEVNULL, capture_output=True, text=True)
    yield from asked.stdout.split()
    yield from (package for command, package in COMMANDS.items() if not shutil.which(command))
    yield from (f"librust-{name.replace('_', '-')}-dev" for name in gate_edge.CRATES + gate_edge.CLIENT if not gate_edge.has_crate(name))
    if not shutil.which("initdb") and not any(Path("/usr/lib/postgresql").glob("*/bin/initdb")):
        yield POSTGRES


def install() -> str:
    """Installs what isn't here, as root on Debian. What became of it where something is still lacking, or nothing."""
    packages = sorted(set(lacking())) if os.access(DEBIAN_PYTHON, os.X_OK) and shutil.which("apt-get") else []
    if not packages:
        return ""
    print(f"gate: installs {' '.join(packages)}", flush=True)
    if os.geteuid() != 0:
        return f"only root installs packages: apt-get install {' '.join(packages)}"
    for call in (["apt-get", "update", "-q"], ["apt-get", "install", "-q", "-y", "--no-install-recommends", *packages]):
        why = failed(call)
        if why:
            return why
    return ""


def failed(call: list[str]) -> str:
    """Runs a command, and prints what it said where it fails. Why it failed, or nothing."""
    quiet = {**os.environ, "DEBIAN_FRONTEND": "noninteractive"}
    try:
        ran = subprocess.run(call, stdin=subprocess.DEVNULL, stdout=subprocess.PIPE, stderr=subprocess.STDOUT, text=True,
                             errors="replace", env=quiet, timeout=SECONDS)
    except subprocess.TimeoutExpired:
        return f"{' '.join(call[:2])} took more than {SECONDS} s"
    if not ran.returncode:
        return ""
    print("\n".join(ran.stdout.splitlines()[-20:]), flush=True)
    return f"{' '.join(call[:2])} ended with status {ran.returncode}"


class Skips:
    """What the lines of a phase say that it could not do, each once."""

    def __init__(self) -> None:
        self.found: dict[str, None] = {}
        self.test = ""

    def note(self, line: str) -> None:
        line = line.rstrip("\n")
        named = OF_TEST.match(line)
        if named:
            self.test = named[1]
        skipped, of_test = SKIPPED.match(line), TEST_SKIPPED.match(line)
        if skipped:
            self.found[skipped[1]] = None
        elif of_test:
            self.found[f"{self.test}: {of_test[2]}"] = None

    def told(self) -> list[str]:
        """A line for each."""
        return [COULD_NOT + what for what in self.found]

    def fail(self) -> bool:
        """Whether they fail the phase."""
        return is_ci() and any(not EXCUSED.search(what) for what in self.found)


def hand_on(lines: Iterable[str]) -> Skips:
    """Prints the lines of a phase as they come. What they say that it could not do."""
    skips = Skips()
    for line in lines:
        sys.stdout.write(line)
        sys.stdout.flush()
        skips.note(line)
    return skips


def within(command: list[str], folder: Path) -> int:
    """Runs a phase as a program of its own, and says last what it could not do. Its status, or 1 where that fails it."""
    with subprocess.Popen(command, cwd=folder, stdout=subprocess.PIPE, stderr=subprocess.STDOUT, text=True,
                          errors="replace") as run:
        assert run.stdout is not None
        skips = hand_on(run.stdout)
    print("".join(f"{line}\n" for line in skips.told()), end="")
    if skips.fail():
        print("gate: FAILED: with CI=true all of a phase is done, and this was not", flush=True)
    return run.returncode or int(skips.fail())
