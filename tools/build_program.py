#!/usr/bin/env python3
"""Proves and builds one program of this repository, and says on standard error how far it is.

    tools/build_program.py NAME

The program and the crates below it are copied to out/build, where crates that don't stand on each
other are proved side by side. The last ones of the longest chain stand on each other: these are proved
one after another, each with all processors. The program then is out/build/crates/NAME/out/NAME. How
many minutes are left is told by what each crate costs (tools/costs.txt), and by how fast this build is.
"""
import contextlib
import os
import pathlib
import shutil
import subprocess
import sys

import costs
import gate_progress

ROOT = pathlib.Path(__file__).resolve().parent.parent
BUILD = ROOT / "out" / "build"
PARTS = ("src", "specs", "proofs")
# A proof takes up to this much memory.
BYTES_FOR_A_PROOF = 4 << 30
# The first of the last crates of the longest chain.
LAST_FROM = "lanes"
# Where the last crates lie while the others are proved, since `rt all` proves all crates of a folder.
ASIDE = "last"


def lines_of_crates(root=None):
    """Returns the line of crates.txt for each crate, and the crates that it stands on."""
    lines, below = {}, {}
    for line in ((root or ROOT) / "crates.txt").read_text().splitlines():
        line = line.split("#")[0].strip()
        if line:
            head, _, names = line.partition(":")
            name = head.split()[0]
            lines[name], below[name] = line, names.split()
    return lines, below


def needed(name, below, found):
    """Adds to found the crate and those of the repository that it stands on, lowest first."""
    for other in below[name]:
        if other in below and other not in found:
            needed(other, below, found)
    found.append(name)
    return found


def leave_program(folder):
    """Removes a crate that an earlier build needed, but for the program that it linked."""
    out = folder / "out"
    program = out / folder.name
    if not program.is_file():
        shutil.rmtree(folder)
        return
    for path in [*out.iterdir(), *folder.iterdir()]:
        if path.is_dir() and path != out:
            shutil.rmtree(path)
        elif path.is_file() and path != program:
            path.unlink()


def copy(names, lines):
    """Copies the crates' sources. What an earlier build kept in out/ folders stays."""
    kept = BUILD / "crates"
    kept.mkdir(parents=True, exist_ok=True)
    put_back()
    for folder in kept.iterdir():
        if folder.name not in names:
            leave_program(folder)
    for name in names:
        for part in PARTS:
            shutil.rmtree(kept / name / part, ignore_errors=True)
            if (ROOT / "crates" / name / part).is_dir():
                shutil.copytree(ROOT / "crates" / name / part, kept / name / part)
    write_list(names, lines)
    shutil.copy(ROOT / "HANDLES", BUILD / "HANDLES")


def at_once():
    """Returns how many proofs the machine has processors and memory for."""
    memory = os.sysconf("SC_PAGE_SIZE") * os.sysconf("SC_PHYS_PAGES")
    return max(1, min(len(os.sched_getaffinity(0)), memory // BYTES_FOR_A_PROOF))


def split(names, below):
    """Returns the crates without the last ones of the longest chain, and these, lowest first each."""
    last = {LAST_FROM} & set(names)
    for name in names:
        last |= {name} if last.intersection(below[name]) else set()
    return [name for name in names if name not in last], [name for name in names if name in last]


@contextlib.contextmanager
def set_aside(names, lines, last):
    """A block in which the last crates are not among the others. What a build that was killed left aside is put back."""
    aside, kept = BUILD / ASIDE, BUILD / "crates"
    aside.mkdir(exist_ok=True)
    for name in last:
        (kept / name).rename(aside / name)
    write_list([name for name in names if name not in last], lines)
    try:
        yield
    finally:
        put_back()
        write_list(names, lines)


def put_back():
    """Puts crates back that lie aside."""
    for folder in (BUILD / ASIDE).glob("*"):
        shutil.rmtree(BUILD / "crates" / folder.name, ignore_errors=True)
        folder.rename(BUILD / "crates" / folder.name)


def write_list(names, lines):
    """Writes the list of the crates that are proved."""
    (BUILD / "crates.txt").write_text("".join(f"{lines[name]}\n" for name in names))


class Build:
    """A build of these crates, lowest first: what is through, and how many minutes are left."""

    def __init__(self, names, last, below, kept):
        self.names, self.kept = names, kept
        self.progress = gate_progress.Progress(names)
        stages = [gate_progress.Stage(tuple(name for name in names if name not in last), False),
                  gate_progress.Stage(tuple(last), True)]
        self.model = gate_progress.Model(stages, below, costs.read(ROOT), at_once())
        self.is_first = not any((BUILD / "crates" / name / "out").is_dir() for name in names)

    def run(self, call, folder):
        """Runs a call of the toolchain, and says which crates it has proved. Returns its last lines if it fails."""
        said = []
        with subprocess.Popen(
            call, cwd=folder, stdin=subprocess.DEVNULL, stdout=subprocess.PIPE, stderr=subprocess.STDOUT, text=True
        ) as run:
            for line in run.stdout:
                said.append(line)
                if line.startswith("== "):
                    self.note(line[3:].strip())
        return ("".join(said[-30:]) or f"{' '.join(call)} ended with status {run.returncode}\n") if run.returncode else None

    def note(self, name):
        """Says that a crate is through."""
        if name in self.progress.crates and name not in self.progress.proved:
            self.progress.note(f"rt: {name} proved")
            print(f"build: {self.how_far(name)}", file=sys.stderr, flush=True)

    def how_far(self, name):
        """Says which crate is through, how many are, and how many minutes are left."""
        left = gate_progress.in_minutes(self.progress.left(self.model))
        return f"{len(self.progress.proved)} of {len(self.names)}: {name}, {left}"

    def keep(self):
        """Keeps what a first build took. One that goes on from an earlier one says nothing about that."""
        if self.is_first:
            self.progress.is_whole = True
            gate_progress.keep(self.progress, self.kept)


def prove(names, lines, below, kept):
    """Proves the crates, and prints a line for each that is through. Returns the last lines if one fails."""
    first, last = split(names, below)
    if at_once() < 3 or len(last) < 2:
        first, last = names, []
    build = Build(names, last, below, kept)
    with set_aside(names, lines, last):
        failure = build.run(["rt", "all", "check", "--jobs", str(at_once())], BUILD / "crates") if first else None
    for name in last if not failure else ():
        call = ["rt", "check" if name == names[-1] else "lib", "--jobs", str(at_once())]
        failure = build.run(call, BUILD / "crates" / name)
        if failure:
            break
        build.note(name)
    if not failure:
        build.keep()
    return failure


def link(name):
    """Links the proved program. Returns what was printed if that fails."""
    call = ["rt", "run", "--", "--no-such-option"]
    run = subprocess.run(
        call,
        cwd=BUILD / "crates" / name,
        stdin=subprocess.DEVNULL,
        stdout=subprocess.PIPE,
        stderr=subprocess.STDOUT,
        text=True,
    )
    program = BUILD / "crates" / name / "out" / name
    return None if program.exists() else run.stdout


def refusal(words, below):
    """Why nothing can be built, if so."""
    if len(words) != 1 or words[0] not in below:
        return "usage: tools/build_program.py NAME, which is a program of crates.txt"
    if shutil.which("rt") is None:
        return "build: there is no rt here, the command of the Rattle toolchain"
    return None


def main(words):
    lines, below = lines_of_crates()
    refused = refusal(words, below)
    if refused:
        print(refused, file=sys.stderr)
        return 2
    name = words[0]
    names = needed(name, below, [])
    copy(names, lines)
    print(
        f"build: proving {name} and the {len(names) - 1} crates below it, {at_once()} at a time;"
        " the first time that takes some 140 minutes of processor time, 40 on four quiet cores",
        file=sys.stderr,
    )
    failure = prove(names, lines, below, gate_progress.KEPT / f"build-{name}.json") or link(name)
    if failure:
        print(failure, end="", file=sys.stderr)
        print("build: the build failed", file=sys.stderr)
    return 2 if failure else 0


if __name__ == "__main__":
    sys.exit(main(sys.argv[1:]))
