"""Checkpoints of a journal: snapshots that stand for all its batches up to some byte. The files in its folder:

    orders/journal            the journal
    orders/checkpoint         which snapshots count, and from which byte of the journal on its batches follow them
    orders/checkpoint-7/      these snapshots, one of each shard: shard-00.snap, shard-01.snap ..

`checkpoint` is in the form of a journal (docs/JOURNAL.md): the journal's own first batch, a batch of lines, and a zero.
compacting.py makes them, and the program goes on from them.
"""

from __future__ import annotations

import json
import os
import re
import shutil
from dataclasses import dataclass, replace
from typing import Callable, Iterable, List, Optional, Sequence, Tuple, TypeVar

from wfserve.errors import CheckpointDamaged, LogFault, OtherJournal
from wfserve.frames import AROUND, CHECK_LETTERS, END, PIECE, Bytes, JournalSettings, framed, settings_in, sync_names, text_at
from wfserve.sums import Sums
from wfserve.types import Json

FORM = 1
LETTERS = re.compile("[a-p]{%d}" % CHECK_LETTERS)
FOLDER = re.compile(r"checkpoint-([1-9][0-9]{0,18})")
Found = TypeVar("Found")


@dataclass(frozen=True)
class SnapshotFile:
    """What a checkpoint says of a snapshot: how many bytes its file has, and their check."""

    size: int
    check: str


@dataclass(frozen=True)
class Checkpoint:
    """Which snapshots a journal goes on from, and where."""

    settings: JournalSettings
    number: int
    # All batches that end at this byte or before are in the snapshots, and the check of the one that ends there.
    end: int
    check: str
    # By the shards.
    snapshots: Tuple[SnapshotFile, ...]

    @property
    def size(self) -> int:
        """How many bytes its snapshots have."""
        return sum(snapshot.size for snapshot in self.snapshots)

    def with_snapshots(self, snapshots: Iterable[SnapshotFile]) -> "Checkpoint":
        """The same with these snapshots."""
        return replace(self, snapshots=tuple(snapshots))

    def head(self) -> str:
        """The first line of its second batch: which checkpoint it is, and where the journal goes on."""
        return line_of({"bytes": self.end, "check": self.check, "checkpoint": FORM, "number": self.number})

    def data(self) -> bytes:
        """The bytes of its file."""
        rows = [{"bytes": it.size, "check": it.check, "shard": shard} for shard, it in enumerate(self.snapshots)]
        text = self.head() + "".join(map(line_of, rows))
        return framed(self.settings.text()) + framed(text.encode()) + b"\0"

    def folder(self, folder: str) -> str:
        """The folder of its snapshots, in that of the journal."""
        return os.path.join(folder, f"checkpoint-{self.number}")

    def paths(self, folder: str) -> List[str]:
        """The files of its snapshots, by the shards."""
        return [snapshot_in(self.folder(folder), shard) for shard in range(len(self.snapshots))]

    def ends_in(self, journal: Bytes) -> bool:
        """Whether a journal has the end of the batch after which it goes on."""
        return journal[self.end - CHECK_LETTERS - 1:self.end] == self.check.encode() + END


def line_of(row: Json) -> str:
    """A line of a checkpoint."""
    return json.dumps(row, separators=(",", ":"), sort_keys=True) + "\n"


def checkpoint_in(folder: str) -> str:
    """The path of the checkpoint in a journal's folder."""
    return os.path.join(folder, "checkpoint")


def snapshot_in(folder: str, shard: int) -> str:
    """The path of a shard's snapshot in a folder of snapshots."""
    return os.path.join(folder, f"shard-{shard:02d}.snap")


def number_in(name: str) -> int:
    """The number of a folder of snapshots, by its name; 0 for another name."""
    found = FOLDER.fullmatch(name)
    return int(found[1]) if found else 0


def parsed(data: bytes, path: str) -> Checkpoint:
    """The checkpoint whose file has these bytes. They have to be those that it writes."""
    first = text_at(data, 0)
    second = None if first is None else text_at(data, len(first) + AROUND)
    if first is None or second is None:
        raise CheckpointDamaged(f"{path}: damaged: it is no checkpoint")
    try:
        head, *rest = [json.loads(line) for line in second.splitlines()]
        if head["checkpoint"] != FORM:
            raise OtherJournal(f"{path}: no checkpoint of this version")
        snapshots = tuple(SnapshotFile(row["bytes"], row["check"]) for row in rest)
        found = Checkpoint(settings_in(first, path), head["number"], head["bytes"], head["check"], snapshots)
        if found.data() == data and is_sound(found, len(first) + AROUND):
            return found
    except (ValueError, KeyError, TypeError):
        pass
    raise CheckpointDamaged(f"{path}: damaged: it is no checkpoint")


def is_sound(found: Checkpoint, least: int) -> bool:
    """Whether its values are those of a checkpoint of a journal whose first batch has so many bytes."""
    numbers = [found.number, found.end, *(it.size for it in found.snapshots)]
    checks = [found.check, *(it.check for it in found.snapshots)]
    return (
        all(type(number) is int for number in numbers) and found.number > 0 and found.end >= least
        and min(it.size for it in found.snapshots) >= 0 and len(found.snapshots) == found.settings.shards
        and all(LETTERS.fullmatch(check) for check in checks)
    )


def read_checkpoint(folder: str) -> Optional[Checkpoint]:
    """The checkpoint in a journal's folder. None where it was never compacted."""
    path = checkpoint_in(folder)
    try:
        with open(path, "rb") as file:
            data = file.read()
    except FileNotFoundError:
        return None
    return parsed(data, path)


def beside(journal: str) -> Optional[Checkpoint]:
    """The checkpoint of a journal's file, which has one only under its own name."""
    folder, name = os.path.split(os.path.abspath(journal))
    return read_checkpoint(folder) if name == "journal" else None


def settled(journal: str, read: Callable[[Optional[Checkpoint]], Found]) -> Found:
    """What `read` finds with the checkpoint of a journal, where no compaction came between."""
    while True:
        checkpoint = beside(journal)
        try:
            found = read(checkpoint)
        except (LogFault, OSError):
            if beside(journal) == checkpoint:
                raise
            continue
        if beside(journal) == checkpoint:
            return found


# Snapshots.


def measured(path: str) -> SnapshotFile:
    """What a checkpoint says of the snapshot in this file."""
    sums, size = Sums(), 0
    with open(path, "rb") as file:
        for piece in iter(lambda: file.read(PIECE), b""):
            sums.add(piece)
            size += len(piece)
    return SnapshotFile(size, sums.letters().decode())


def check_snapshots(checkpoint: Checkpoint, folder: str) -> None:
    """Refuses snapshots in a journal's folder that are not there, or have other bytes than the checkpoint says."""
    for path, wanted in zip(checkpoint.paths(folder), checkpoint.snapshots):
        try:
            found = os.path.getsize(path) == wanted.size and measured(path) == wanted
        except FileNotFoundError:
            raise CheckpointDamaged(f"{path}: the checkpoint was made with this snapshot, which is not there") from None
        if not found:
            raise CheckpointDamaged(f"{path}: the checkpoint was made with a snapshot of other bytes")


def put_snapshots(sources: Sequence[str], folder: str, linked: bool) -> None:
    """Puts snapshots into a new folder, as copies that are on the disk, or as further names of the same files."""
    os.mkdir(folder, 0o700)
    for source in sources:
        target = os.path.join(folder, os.path.basename(source))
        if not (linked and is_linked(source, target)):
            shutil.copyfile(source, target)
            with open(target, "rb") as file:
                os.fsync(file.fileno())
    sync_names(folder)


def is_linked(source: str, target: str) -> bool:
    """Whether a file could be given a further name."""
    try:
        os.link(source, target)
        return True
    except OSError:
        return False
