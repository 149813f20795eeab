"""Compiles programs and tests without proofs, with the checks that `rt try` compiles in, and keeps them.

That takes minutes where proofs take an hour. It is done over a copy of the sources, in which the crates of tests/ stand
beside the others: `rt ci` proves each crate of crates.txt, and takes a source of Rattle nowhere else. So their files end
in `.rs` here, and in `.rt` there.

`rt try` writes a module for LLVM, has it compiled without any optimization and with a check of each access of memory, links
and runs it, and keeps no file. So a file is given a second name as soon as it is whole, and the run is ended. That is the
linked program, or the module, which the toolchain's own clang then compiles: with some optimization, and
without the checks of memory. That leaves those of code: an index, a sum, a cast, a division, `unreachable!` and `prove!`.
Such a program is some hundred times faster. And another allocator can be put before the C library's, as where memory is
refused; the checks of memory have one of their own.
"""
from __future__ import annotations

import contextlib
import enum
import fcntl
import os
import re
import shutil
import signal
import subprocess
import sys
import tempfile
import time
from pathlib import Path
from typing import Iterator

import build_program

# The crates that no proof covers: each is a folder of this one, whose name it has behind this prefix.
FOLDER, PREFIX = "tests", "tests_"
LOOK_SECONDS = 0.02
# `rt try` first has its compiler tried on a module of some hundred bytes.
TRIED_BYTES = 4096
# How the toolchain compiles and links. Without these words its clang may make other code of a module than Rattle means.
COMPILED = """--target=x86_64-unknown-linux-gnu -march=x86-64 -mllvm -no-trap-after-noreturn -ffunction-sections
    -fdata-sections -mllvm -trap-unreachable -mllvm -no-x86-call-frame-opt -mllvm -disable-machine-licm
    -mllvm -disable-postra-machine-licm -mllvm -sink-common-insts=false --no-default-config -no-canonical-prefixes
    -fno-crash-diagnostics -Werror -fPIE -O1 -c -x ir""".split()
LINKED = """-m elf_x86_64 -pie --dynamic-linker /lib64/ld-linux-x86-64.so.2 --as-needed -z relro -z now -z noexecstack
    --eh-frame-hdr --gc-sections --no-dependent-libraries --build-id=sha1 --fatal-warnings""".split()
BEFORE = ("Scrt1.o", "crti.o", "crtbeginS.o")
BEHIND = ("libm.so.6", "libc.so.6", "libc_nonshared.a", "ld-linux-x86-64.so.2", "libgcc.a", "libgcc_s.so.1", "crtendS.o",
          "crtn.o")


# What a run is given, so that it takes longer than a look at its folder does. Its answer is not looked at.
LINES = "".join(f'{{"op":"describe","workflow_id":"w{number}"}}\n' for number in range(5_000))


class Checks(enum.Enum):
    """What a program checks as it runs."""

    CODE = "its own code"
    MEMORY = "its code and each access of memory"


class NotBuilt(Exception):
    """Why a program could not be built."""


def kept() -> Path:
    """The folder in which what was built lies."""
    return build_program.ROOT / "out" / "unproved"


# ---- the crates and their sources

def lines_of_crates() -> dict[str, str]:
    """The lines of all crates: those of crates.txt, and those of the crates of tests."""
    lines, file = build_program.lines_of_crates()[0], build_program.ROOT / FOLDER / "uses.txt"
    for line in file.read_text(encoding="utf-8").splitlines() if file.is_file() else ():
        if line and not line.startswith("#"):
            lines[re.split("[ :]", line)[0]] = line
    return lines


def needed(name: str) -> list[str]:
    """A crate and those of the repository that it stands on, lowest first."""
    below = {crate: line.partition(":")[2].split() for crate, line in lines_of_crates().items()}
    return list(build_program.needed(name, below, []))


def folder_of(name: str) -> Path:
    """The folder of a crate's sources, here."""
    tests = build_program.ROOT / FOLDER / name.removeprefix(PREFIX)
    return tests if name.startswith(PREFIX) and tests.is_dir() else build_program.ROOT / "crates" / name / "src"


def sources(name: str) -> list[Path]:
    """The sources of a crate and of all that it stands on, and what says which these are."""
    folders = [folder_of(crate) for crate in needed(name)]
    lists = [build_program.ROOT / "crates.txt", build_program.ROOT / FOLDER / "uses.txt"]
    return [file for file in lists if file.is_file()] + [
        file for folder in folders for file in folder.rglob("*") if file.suffix in (".rt", ".rs")]


def is_fresh(name: str, program: Path) -> bool:
    """Whether the program of a crate is there, and newer than its sources."""
    return program.is_file() and all(file.stat().st_mtime <= program.stat().st_mtime for file in sources(name))


def lay_out(name: str, top: Path) -> None:
    """Lays out a tree with the sources of a crate and of all that it stands on."""
    lines, listed = lines_of_crates(), needed(name)
    for crate in listed:
        own = folder_of(crate)
        for file in own.rglob("*.r[st]"):
            copied = top / "crates" / crate / "src" / file.relative_to(own).with_suffix(".rt")
            copied.parent.mkdir(parents=True, exist_ok=True)
            shutil.copy(file, copied)
    (top / "crates.txt").write_text("".join(f"{lines[crate]}\n" for crate in listed), encoding="utf-8")
    shutil.copy(build_program.ROOT / "HANDLES", top / "HANDLES")


# ---- what `rt try` makes

def is_whole(file: Path, checks: Checks) -> bool:
    """Whether a file that `rt try` makes is a program that was linked, or a module that is being compiled."""
    if checks is Checks.MEMORY:
        return True
    return file.stat().st_size > TRIED_BYTES and any(file.parent.glob("module-*.o.tmp"))


def is_caught(folder: Path, kept: Path, checks: Checks) -> bool:
    """Gives what is to be kept in this folder a second name, once it is whole."""
    name = "program" if checks is Checks.MEMORY else "module.bc"
    for file in folder.glob(f"*/rattle-native*/{name}"):
        with contextlib.suppress(FileNotFoundError):
            if is_whole(file, checks):
                os.link(file, kept)
                return True
    return False


def end_check(run: subprocess.Popen[bytes]) -> None:
    """Ends the check that `rt try` begins beside it, which only looks for names that a proof would refuse."""
    with contextlib.suppress(OSError, ValueError, IndexError):
        for child in Path(f"/proc/{run.pid}/task/{run.pid}/children").read_text(encoding="ascii").split():
            words = Path(f"/proc/{child}/cmdline").read_bytes().split(b"\0")
            if words[0].endswith(b"/rattle") and words[1] == b"check":
                os.kill(int(child), signal.SIGKILL)


def catch(crate: Path, tests: bool, kept: Path, checks: Checks) -> None:
    """Has `rt try` make the program of a crate, or of its tests, or its module, which then has this name."""
    with tempfile.TemporaryDirectory(dir=kept.parent) as name:
        given, said = Path(name, "lines"), Path(name, "said")
        given.write_text(LINES, encoding="utf-8")
        with open(given, "rb") as lines, open(said, "wb") as errors:
            run = subprocess.Popen(["rt", "try", "--steps", "1", *["--test"] * tests], cwd=crate, stdin=lines,
                                   stdout=subprocess.DEVNULL, stderr=errors, env={**os.environ, "TMPDIR": name})
            has_ended = False
            try:
                while not is_caught(Path(name), kept, checks) and not has_ended:
                    end_check(run)
                    time.sleep(LOOK_SECONDS)
                    has_ended = run.poll() is not None
            finally:
                run.send_signal(signal.SIGTERM)
                run.wait()
        if not kept.is_file():
            told = said.read_text(encoding="utf-8", errors="replace")
            raise NotBuilt(told[-2_000:] or f"rt try ended with status {run.returncode}")


# ---- the program

def toolchain() -> Path:
    """The folder of the toolchain that `rt` belongs to."""
    folder = Path(shutil.which("rt") or "rt").resolve().parent.parent
    if not (folder / "toolchain" / "bin" / "clang").is_file():
        raise NotBuilt(f"{folder} is no toolchain with a clang of its own")
    return folder


def compile_module(module: Path, program: Path) -> None:
    """Compiles and links a module to a program."""
    kit, compiled = toolchain(), module.with_suffix(".o")
    tools, libraries = kit / "toolchain" / "bin", kit / "toolchain" / "lib"
    own = sorted((kit / "c").glob("lib*_c.a"))
    commands: list[list[str | Path]] = [
        [tools / "clang", f"--sysroot={kit / 'toolchain'}", *COMPILED, module, "-o", compiled],
        [tools / "ld.lld", *LINKED, "-o", program, *(libraries / name for name in BEFORE), compiled, *own,
         *(libraries / name for name in BEHIND)],
    ]
    for command in commands:
        ran = subprocess.run(command, capture_output=True, text=True, errors="replace")
        if ran.returncode:
            raise NotBuilt(ran.stderr[-2_000:] or f"{command[0]} ended with status {ran.returncode}")


def build(name: str, program: Path, tests: bool, checks: Checks) -> None:
    """Leaves the program of a crate under this name, or that of its tests."""
    program.parent.mkdir(parents=True, exist_ok=True)
    began = time.time()
    # Not in this tree: `rt ci` refuses sources that no crate of it has, and may run meanwhile.
    with tempfile.TemporaryDirectory(prefix="unproved-") as folder:
        top, linked = Path(folder, "tree"), Path(folder, "program")
        lay_out(name, top)
        made = linked if checks is Checks.MEMORY else Path(folder, "module.bc")
        catch(top / "crates" / name, tests, made, checks)
        if checks is Checks.CODE:
            compile_module(made, linked)
        # A source that was changed meanwhile is newer.
        os.utime(linked, (began, began))
        beside = program.with_name(f"{program.name}.new")
        shutil.copy2(linked, beside)
        beside.replace(program)


@contextlib.contextmanager
def alone(program: Path) -> Iterator[None]:
    """A block in which no other process builds this program."""
    program.parent.mkdir(parents=True, exist_ok=True)
    with open(program.with_name(f"{program.name}.lock"), "w", encoding="utf-8") as lock:
        fcntl.flock(lock, fcntl.LOCK_EX)
        yield


def ensure(name: str, program: Path, *, tests: bool = False, checks: Checks = Checks.CODE) -> None:
    """Builds the program of a crate, or that of its tests, unless it is newer than its sources. NotBuilt says why not."""
    with alone(program):
        if is_fresh(name, program):
            return
        if not shutil.which("rt"):
            raise NotBuilt("there is no rt here, the command of the Rattle toolchain")
        print(f"unproved: compiling {program.name} without proofs, which takes minutes", file=sys.stderr, flush=True)
        build(name, program, tests, checks)


def built(name: str, *, tests: bool = False, checks: Checks = Checks.CODE) -> Path:
    """The program of a crate of the sources that are here, or that of its tests. NotBuilt says why there is none."""
    program = kept() / (f"{name}_tests" if tests else name)
    ensure(name, program, tests=tests, checks=checks)
    return program
