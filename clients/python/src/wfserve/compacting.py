"""Compacts a journal, also while the program serves it: snapshots take the place of its batches up to some byte.

    from wfserve.compacting import compact

    compact("orders", ["./serve"])

The program that serves goes on meanwhile. A second one makes snapshots of the journal's batches by now: of those since the
last checkpoint, and of its snapshots. Then a file takes another one's place by one renaming, and from that moment on the
new snapshots count (checkpoint.py); before it the former ones do. At last the room of what nobody reads any more is given
back: former snapshots are removed, and the journal gets a hole in the place of its batches. So its offsets stay.

The files beside the journal meanwhile, which a compaction that was killed leaves and the next one removes:

    orders/compaction.lock    held while a journal is compacted, also by the program that makes snapshots
    orders/compaction.new/    the journal since the last checkpoint, with its snapshots, which that program loads
    orders/checkpoint-8/      the new snapshots, before they count
    orders/checkpoint.new     the new checkpoint, before it counts
"""

from __future__ import annotations

import ctypes
import fcntl
import os
import shutil
import subprocess
from contextlib import contextmanager
from dataclasses import dataclass
from typing import Iterator, List, Optional, Sequence

from wfserve.checkpoint import Checkpoint, checkpoint_in, measured, number_in, read_checkpoint, snapshot_in
from wfserve.errors import CompactionRuns, NotCompacted
from wfserve.frames import CHECK_LETTERS, END, START, Batch, JournalSettings, framed, mapped, sync_names
from wfserve.journal import MOMENT, Journal, journal_in, write_folder
from wfserve.snapshots import head_and_last

# What a hole may be made of, and what the file's beginning keeps.
BLOCK = 4_096
KEEP_SIZE, PUNCH_HOLE = 1, 2


@dataclass(frozen=True)
class Compacted:
    """What came of a compaction."""

    # That of the new checkpoint.
    number: int
    # How many bytes of batches became part of the snapshots, and how many bytes all snapshots have.
    covered: int
    snapshots: int
    # Why the journal's file keeps its room on the disk. None where it was given back.
    kept: Optional[str]


def compact(folder: str, command: Sequence[str]) -> Optional[Compacted]:
    """Compacts the journal in a folder by a program, also while another one serves it. None where nothing new is in it.

    It may be killed at any moment: the journal is then as it was, or compacted. NotCompacted where it can't be done, and
    then the journal is as it was; CompactionRuns where another process compacts it; JournalDamaged or CheckpointDamaged
    where something is damaged.
    """
    try:
        with compaction_lock(folder) as lock, Journal(journal_in(folder), live=True) as journal:
            # The journal is sound, so what its checkpoint doesn't name is nobody's.
            remove_leftovers(folder)
            try:
                return _compacted(folder, command, lock, journal)
            finally:
                remove_leftovers(folder)
    except OSError as fault:
        raise NotCompacted(f"{fault.filename or folder}: {fault.strerror}") from fault


@contextmanager
def compaction_lock(folder: str) -> Iterator[int]:
    """Holds the lock of who compacts. Its file is handed on to the program, which may outlive a compaction that is killed."""
    path = os.path.join(folder, "compaction.lock")
    file = os.open(path, os.O_RDWR | os.O_CREAT, 0o600)
    try:
        try:
            fcntl.flock(file, fcntl.LOCK_EX | fcntl.LOCK_NB)
        except BlockingIOError:
            raise CompactionRuns(f"{path}: another process compacts this journal") from None
        yield file
    finally:
        os.close(file)


@contextmanager
def folder_lock(folder: str) -> Iterator[None]:
    """Holds the lock under which a journal is opened: it waits for a program that opens it now."""
    file = os.open(folder, os.O_RDONLY | os.O_DIRECTORY)
    try:
        fcntl.flock(file, fcntl.LOCK_EX)
        yield
    finally:
        os.close(file)


def remove_leftovers(folder: str) -> None:
    """Removes what a compaction that was killed left, and snapshots that don't count any more."""
    checkpoint = read_checkpoint(folder)
    for name in os.listdir(folder):
        path = os.path.join(folder, name)
        if name == "compaction.new" or number_in(name) not in (0, checkpoint.number if checkpoint is not None else 0):
            shutil.rmtree(path)
        elif name == "checkpoint.new":
            os.remove(path)


def _compacted(folder: str, command: Sequence[str], lock: int, journal: Journal) -> Optional[Compacted]:
    former, settings = journal.checkpoint, journal.settings
    if settings is None:
        return None
    if journal.end == journal.begin:
        if former is not None:
            with folder_lock(folder):
                give_back(folder, former)
        return None
    check_is_own(journal, settings)
    # What snapshots stand for has to be on the disk.
    write_again(journal, journal.batches[-1])
    source = os.path.join(folder, "compaction.new")
    write_folder(journal, source, linked=True)
    check = journal.bytes_of(journal.batches[-1])[-CHECK_LETTERS - 1:-1].decode()
    following = Checkpoint(settings, former.number + 1 if former is not None else 1, journal.end, check, ())
    target = following.folder(folder)
    make_snapshots(command, settings, source, target, lock)
    keep_private(target)
    following = following.with_snapshots(map(measured, checked_snapshots(settings, target, last_moment(journal))))
    kept = hand_over(folder, following)
    return Compacted(following.number, journal.end - journal.begin, following.size, kept)


def check_is_own(journal: Journal, settings: JournalSettings) -> None:
    """Refuses a journal that the program would not open, and one whose owner could not read what is written here."""
    if journal.bytes_of(journal.batches[0]) != framed(settings.text()):
        raise NotCompacted(f"{journal.path}: its settings are not as the program writes them")
    if os.stat(journal.path).st_uid != os.geteuid():
        raise NotCompacted(f"{journal.path}: it is another user's, who alone may compact it")


def last_moment(journal: Journal) -> int:
    """The greatest moment of the steps that a compaction covers."""
    return max((int(found[1]) for text in journal.texts() for found in MOMENT.finditer(text)), default=0)


def write_again(journal: Journal, batch: Batch) -> None:
    """Has the disk keep the batches up to this one, which is written over itself.

    Of a batch whose sync failed the system may have the only copy, and take it for written.
    """
    with open(journal.path, "r+b") as file:
        file.seek(batch.begin)
        file.write(journal.bytes_of(batch))
        file.flush()
        os.fdatasync(file.fileno())


def options_of(settings: JournalSettings) -> List[str]:
    """The program's options for a journal with these settings."""
    return [
        "--shards", str(settings.shards), "--service", str(settings.service), "--queues", ",".join(settings.queues),
        "--retention", str(settings.retention),
    ]


def make_snapshots(command: Sequence[str], settings: JournalSettings, source: str, target: str, lock: int) -> None:
    """Has a program load a journal and write snapshots of it into a new folder, on the disk."""
    os.mkdir(target, 0o700)
    words = [*command, *options_of(settings), "--load", source, "--snapshot", target]
    program = subprocess.Popen(
        words, stdin=subprocess.DEVNULL, stdout=subprocess.DEVNULL, stderr=subprocess.PIPE, pass_fds=[lock],
    )
    try:
        _, said = program.communicate()
    except BaseException:
        program.kill()
        program.communicate()
        raise
    if program.returncode:
        text = said.decode(errors="replace").strip() or f"the program ended with status {program.returncode}"
        raise NotCompacted(f"{target}: {text}")


def keep_private(folder: str) -> None:
    """Lets nobody else read a folder of snapshots: they have all that workflows were given. The disk keeps that too."""
    for path in [os.path.join(folder, name) for name in os.listdir(folder)]:
        os.chmod(path, 0o600)
        sync_names(path)
    sync_names(folder)


def checked_snapshots(settings: JournalSettings, folder: str, moment: int) -> List[str]:
    """The files of the snapshots that a program made, which have to be of this journal up to this moment."""
    paths = [snapshot_in(folder, shard) for shard in range(settings.shards)]
    found = [head_and_last(path) for path in paths]
    wanted = {"retention": settings.retention, "service": settings.service, "shards": settings.shards}
    heads = [{**wanted, "shard": shard} for shard in range(settings.shards)]
    if [head for head, _ in found] != heads or max(last for _, last in found) < moment:
        raise NotCompacted(f"{folder}: the program made no snapshots of this journal")
    return paths


def hand_over(folder: str, checkpoint: Checkpoint) -> Optional[str]:
    """Has the journal go on from a checkpoint, in one step, and gives back what it doesn't need any more.

    Why the journal's file keeps its room on the disk; None where it was given back.
    """
    path, beside = checkpoint_in(folder), checkpoint_in(folder) + ".new"
    sync_names(folder)
    with folder_lock(folder):
        with open(os.open(beside, os.O_WRONLY | os.O_CREAT | os.O_EXCL, 0o600), "wb") as file:
            file.write(checkpoint.data())
            os.fchmod(file.fileno(), os.stat(journal_in(folder)).st_mode & 0o777)
            file.flush()
            os.fsync(file.fileno())
        os.rename(beside, path)
        sync_names(folder)
        return give_back(folder, checkpoint)


def give_back(folder: str, checkpoint: Checkpoint) -> Optional[str]:
    """Removes snapshots that don't count any more, and makes a hole in the place of what snapshots stand for."""
    for name in os.listdir(folder):
        if 0 < number_in(name) < checkpoint.number:
            shutil.rmtree(os.path.join(folder, name))
    path = journal_in(folder)
    with open(path, "r+b") as file:
        journal = mapped(file)
        # The first batch stays whole, and the one before the checkpoint: so a journal without its checkpoint is told as damaged.
        begin = max(journal.find(END) + 1, BLOCK) + BLOCK - 1
        end = journal.rfind(START, 0, checkpoint.end)
        return punched(file.fileno(), begin // BLOCK * BLOCK, end // BLOCK * BLOCK)


def punched(file: int, begin: int, end: int) -> Optional[str]:
    """Gives back a file's room on the disk from one byte to another. Why it can't be given back; None where it was."""
    if end <= begin:
        return None
    libc = ctypes.CDLL(None, use_errno=True)
    # With 64 bits for an offset on every machine, where the library tells these apart.
    punch = getattr(libc, "fallocate64", None) or getattr(libc, "fallocate", None)
    if punch is None:
        return "this system makes no holes in files"
    punch.argtypes = [ctypes.c_int, ctypes.c_int, ctypes.c_longlong, ctypes.c_longlong]
    if punch(file, KEEP_SIZE | PUNCH_HOLE, begin, end - begin) == 0:
        return None
    return os.strerror(ctypes.get_errno())
