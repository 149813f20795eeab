#!/usr/bin/env python3
"""Says which sources of crates `rt fmt` would lay out otherwise. `rt ci` refuses such crates, an hour later.

    tools/layout.py [CRATE..]            all crates without a name, those of tests/ among them; the status is 1 where a
                                         file differs
    tools/layout.py --write [CRATE..]    lays them out

It lays out a copy, so without --write no source is changed. `rt fmt` in a crate's folder changes its sources too, but those
of tests/, which no crate of crates.txt has.
"""
from __future__ import annotations

import filecmp
import shutil
import subprocess
import sys
import tempfile
from concurrent.futures import ThreadPoolExecutor
from pathlib import Path
from typing import Iterator

import build_program
import unproved

TOP = build_program.ROOT
PARTS = ("src", "specs", "proofs")
# Each is a process of its own that reads little.
AT_ONCE = 2


def files_of(name: str) -> Iterator[tuple[Path, Path]]:
    """The sources of a crate, each with the place that it has in the crate's folder of a copy."""
    own = unproved.folder_of(name)
    for file in own.rglob("*.rs"):
        yield file, Path("src") / file.relative_to(own).with_suffix(".rt")
    for part in PARTS:
        for file in (TOP / "crates" / name / part).rglob("*"):
            if file.is_file():
                yield file, file.relative_to(TOP / "crates" / name)


def copy(name: str, room: Path) -> Path:
    """Copies the sources of a crate to a folder of its own, which no other crate's lock concerns."""
    folder = room / "crates" / name
    for file, place in files_of(name):
        (folder / place).parent.mkdir(parents=True, exist_ok=True)
        shutil.copy(file, folder / place)
    return folder


def differing(name: str, room: Path, write: bool) -> list[str]:
    """The files of a crate that are laid out otherwise, or what the toolchain said if it could not lay them out."""
    folder = copy(name, room)
    ran = subprocess.run(["rt", "fmt"], cwd=folder, stdin=subprocess.DEVNULL, capture_output=True, text=True)
    if ran.returncode:
        last = (ran.stdout + ran.stderr).strip().splitlines()[-1:]
        return [f"{name}: rt fmt ended with status {ran.returncode}: {' '.join(last)}"]
    found = sorted((file, place) for file, place in files_of(name)
                   if not filecmp.cmp(folder / place, file, shallow=False))
    for file, place in found if write else ():
        shutil.copyfile(folder / place, file)
    return [f"{file.relative_to(TOP)}: rt fmt lays it out otherwise" for file, _ in found]


def look(names: list[str], write: bool) -> list[str]:
    """What is laid out otherwise in these crates, in their order."""
    with tempfile.TemporaryDirectory(prefix="layout-") as folder, ThreadPoolExecutor(AT_ONCE) as at_once:
        room = Path(folder)
        text = "".join(f"{line}\n" for line in unproved.lines_of_crates().values())
        (room / "crates.txt").write_text(text, encoding="utf-8")
        return [fault for faults in at_once.map(lambda name: differing(name, room, write), names) for fault in faults]


def main(words: list[str]) -> int:
    if words in (["-h"], ["--help"]):
        print((__doc__ or "").strip())
        return 0
    if not shutil.which("rt"):
        print("layout: there is no rt here, the command of the Rattle toolchain: not looked at")
        return 0
    write, every = words[:1] == ["--write"], list(unproved.lines_of_crates())
    names = words[write:] or every
    unknown = [name for name in names if name not in every]
    if unknown:
        print(f"layout: there is no crate {', '.join(unknown)}", file=sys.stderr)
        return 2
    faults = look(names, write)
    print("\n".join(faults), end="\n" if faults else "")
    return 1 if faults and not write else 0


if __name__ == "__main__":
    sys.exit(main(sys.argv[1:]))
