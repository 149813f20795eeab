"""The gate's phase for the compiled edge: built, laid out, looked over and tested, where cargo and its crates are there."""
from __future__ import annotations

import os
import shutil
import subprocess
import sys
import time
from pathlib import Path

TOP = Path(__file__).resolve().parent.parent
EDGE = TOP / "edge"
REGISTRY = Path("/usr/share/cargo/registry")
CRATES = (
    "tokio", "hyper", "httparse", "httpdate", "serde", "serde_derive", "serde_json", "crc32fast", "libc", "mio", "sha2",
    "tokio-rustls", "rustls-pemfile",
)
CLIENT = ("tokio-postgres", "tokio-native-tls", "native-tls")
# Thirty times what each takes on a quiet machine: beside proofs a build has a lower priority than they.
SECONDS = 5_400
# The tests over sockets run class by class, those of the client that want a server among them. So long each of these may
# take, and all of them.
CLASS_SECONDS, SOCKETS_SECONDS = 600, 2_800
# By hand more is drawn, by these names.
DRAWN = {
    "WFEDGE_KILLS": "10", "WFEDGE_TAKEOVERS": "6",
    # A machine that stalls for two seconds exchanges no leader.
    "WFEDGE_SILENCE": "4000",
}
BUILD = ["cargo", "build", "--release", "--offline"]
# Debian's compiler, for which the edge is written. Another one that comes first on the path takes more.
DEBIAN = "/usr/bin/cargo"
DEBIANS_CHECK = [DEBIAN, "check", "-q", "--offline", "--all-targets"]
LOOKED_OVER = ["cargo", "clippy", "-q", "--offline", "--all-targets", "--", "-D", "warnings"]
# A part's title, its command, and what has to be there for it.
CARGO = (
    ("the build", BUILD, ""),
    ("the layout", ["cargo", "fmt", "--check"], "cargo-fmt"),
    ("what clippy finds", LOOKED_OVER, "cargo-clippy"),
    ("its own tests", ["cargo", "test", "-q", "--offline"], ""),
    ("what Debian's compiler says", DEBIANS_CHECK, DEBIAN),
)
# The edge with a client of PostgreSQL, in the place of the one without, and one with a fault that its tests find.
POSTGRES = (
    ("the build with PostgreSQL", [*BUILD, "--bin", "wfedge"], ""),
    ("a build with a planted fault", [*BUILD, "--features", "planted", "--bin", "wfedge-planted"], ""),
    ("the layout of the client", ["cargo", "fmt", "--check"], "cargo-fmt"),
    ("what clippy finds in the client", LOOKED_OVER, "cargo-clippy"),
    ("the client's own tests", ["cargo", "test", "-q", "--offline"], ""),
    ("what Debian's compiler says of the client", DEBIANS_CHECK, DEBIAN),
)


def missing() -> list[str]:
    """What has to be installed before the edge can be built."""
    return ([] if shutil.which("cargo") else ["cargo"]) + [f"the crate {name}" for name in CRATES if not has_crate(name)]


def has_crate(name: str) -> bool:
    """Whether a crate is installed."""
    return REGISTRY.is_dir() and any(path.name.rpartition("-")[0] == name for path in REGISTRY.glob(f"{name}-*"))


def run(title: str, command: list[str], folder: Path, environment: dict[str, str], seconds: int = SECONDS) -> bool:
    """Runs a part with a limit on its time, and says how long it took."""
    print(f"== {title}", flush=True)
    begun = time.monotonic()
    ran = subprocess.run(["timeout", str(seconds), *command], cwd=folder, env={**os.environ, **environment})
    print(f"gate: {title}: {time.monotonic() - begun:.0f} s, {'passed' if ran.returncode == 0 else 'FAILED'}", flush=True)
    return ran.returncode == 0


def compiler(cargo: str) -> dict[str, str]:
    """The variables for a cargo: where it builds, and Debian's own compiler for Debian's."""
    target = EDGE / "target"
    if cargo == DEBIAN:
        return {"CARGO_TARGET_DIR": str(target / "debian"), "RUSTC": str(Path(DEBIAN).with_name("rustc"))}
    return {"CARGO_TARGET_DIR": str(target)}


def failed_in(parts: tuple[tuple[str, list[str], str], ...], folder: Path) -> list[str]:
    """Runs these parts in a folder. The titles of those that failed."""
    failed = []
    for title, command, tool in parts:
        if tool and not shutil.which(tool):
            print(f"gate: skipped: {title}: there is no {tool}")
        elif not run(title, command, folder, compiler(command[0])):
            failed.append(title)
    return failed


def can_build() -> bool:
    """Whether the edge can be built here. Where it can't, it is said why."""
    lacking = missing()
    if lacking:
        print(f"gate: skipped: the compiled edge: there is no {', no '.join(lacking)}: edge/setup.sh installs it", flush=True)
    return not lacking


def build() -> int:
    """Builds the edge, and runs those of its tests that need no program. 0 where all passed, or it can't be built here."""
    if not can_build():
        return 0
    failed = failed_in(CARGO, EDGE)
    without = [name for name in CLIENT if not has_crate(name)]
    if without:
        print(f"gate: skipped: the edge over PostgreSQL: there is no crate {', no '.join(without)}: edge/setup.sh postgres installs it")
    else:
        failed += failed_in(POSTGRES, EDGE / "postgres")
    return told(failed)


def sockets(program: Path) -> int:
    """Tests the edge that was built, over sockets, with this program. 0 where all passed, or it can't be built here."""
    if not can_build():
        return 0
    named = os.environ.get("WFSERVE", str(program))
    tests = [sys.executable, "by_class.py", "--each", str(CLASS_SECONDS), "--all", str(SOCKETS_SECONDS)]
    shorter = {name: count for name, count in DRAWN.items() if name not in os.environ}
    passed = run("tests over sockets", tests, EDGE / "tests", {"WFSERVE": named, **shorter}, SOCKETS_SECONDS + 60)
    return told([] if passed else ["tests over sockets"])


def phase(program: Path) -> int:
    """Both, one after the other. 0 where all passed, or the edge can't be built here."""
    return build() or sockets(program)


def told(failed: list[str]) -> int:
    """Says what failed, and gives the status."""
    print(f"gate: FAILED: {', '.join(failed)}" if failed else "gate: the compiled edge passed", flush=True)
    return 1 if failed else 0
