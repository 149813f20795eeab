"""A program with a journal, which keeps itself.

The program commits what one read gave to the journal in its folder, and answers only then (docs/JOURNAL.md). So a
call that was answered is on the disk, and the program needs no lines again when it is opened: it goes on from its
journal. Replies are not in a journal. Who has to know those of an earlier time, as a server that gives a call's
reply again under its key, wants a log.

It is compacted while the program serves, from time to time by itself (background.py): snapshots take the place of its
first batches, and an opening takes as long as what is alive and what came since then.
"""

from __future__ import annotations

import os
import re
from itertools import chain
from typing import BinaryIO, Iterable, Iterator, List, Optional, Sequence, Tuple, Type

from wfserve.checkpoint import Checkpoint, beside, settled
from wfserve.errors import (
    CheckpointDamaged, Ended, JournalDamaged, LogFault, LogInUse, NoJournal, NotOpened, OtherJournal, OtherSettings,
    RefusedSettings,
)
from wfserve.frames import sync_names
from wfserve.journal import Journal, JournalSettings, first_settings, journal_in, last_moment_in

from .background import Compaction, Compactor
from .program import Program
from .settings import Settings

# What the program says of a journal that it doesn't open, and what that is here.
DAMAGED = re.compile(r"damaged at byte ([0-9]+)")
SNAPSHOT = re.compile(r"checkpoint-[0-9]+/shard-[0-9]{2}\.snap: ")
FAULTS: Tuple[Tuple[str, Type[LogFault]], ...] = (
    ("another process has this journal open", LogInUse),
    ("the journal is of another --", OtherSettings),
    ("no journal of this version", OtherJournal),
    ("no checkpoint of this version", OtherJournal),
    ("the checkpoint is of another journal", CheckpointDamaged),
    ("has a line that is no step", OtherJournal),
    ("is out of range", RefusedSettings),
    ("--queues takes", RefusedSettings),
)


def settings_from(found: JournalSettings, capacity: int = Settings.capacity) -> Settings:
    """A journal's settings, with room in the queues for so many tasks, which a journal doesn't say."""
    return Settings(found.shards, found.service, found.queues, capacity, found.retention)


def journal_settings(settings: Settings) -> JournalSettings:
    """What a journal has of these settings."""
    return JournalSettings(tuple(settings.queues), settings.retention, settings.service, settings.shards)


class JournaledProgram:
    """A program that has opened the journal in a folder. Its settings are those that are wanted, or the journal's.

    The first opening makes the folder and the journal. What is refused is a LogFault: NoJournal where a file is named, and
    by the program LogInUse, JournalDamaged, CheckpointDamaged, OtherSettings, OtherJournal, RefusedSettings, or NotOpened
    with its text.
    """

    def __init__(
        self, command: Sequence[str], folder: str, wanted: Optional[Settings], compaction: Optional[Compaction] = None,
    ):
        make_folder(folder)
        self.path = journal_in(folder)
        found = None if wanted is not None else first_settings(self.path)
        self.settings = wanted or (settings_from(found) if found is not None else Settings())
        self.program = self._opened([*command, *self.settings.options(), "--journal", folder])
        self.last_moment = last_moment_in(self.path)
        self.compactor = Compactor(folder, command, compaction)

    def _opened(self, words: List[str]) -> Program:
        program = Program(words)
        try:
            program.check_opened()
            return program
        except Ended as ended:
            program.kill()
            raise fault_of(self.path, program.said(), ended) from ended

    @property
    def size(self) -> int:
        """How many bytes the journal has since its checkpoint, zeros that were made ahead among them."""
        checkpoint = beside(self.path)
        return os.path.getsize(self.path) - (checkpoint.end if checkpoint is not None else 0)

    @property
    def records_size(self) -> int:
        """How many bytes the snapshots have that the journal goes on from."""
        checkpoint = beside(self.path)
        return checkpoint.size if checkpoint is not None else 0

    def record_lines(self) -> List[Iterable[bytes]]:
        """The lines of each shard's snapshot, where there is one, and then of its record, of all that was answered by now."""
        def found(_: Optional[Checkpoint]) -> List[Iterable[bytes]]:
            with Journal(self.path, live=True) as journal:
                records = journal.records_since()
                if journal.checkpoint is None:
                    return list(records)
                files = [open(path, "rb") for path in journal.checkpoint.paths(journal.folder)]
                return [chain(lines_of(file), record) for file, record in zip(files, records)]

        return settled(self.path, found)

    def close(self) -> int:
        """Ends the program, which has answered all that it was asked, and a compaction that runs. Its status."""
        self.compactor.close()
        self.program.end_input()
        return self.program.wait()


def make_folder(path: str) -> None:
    """Makes the folder of a journal where there is none. NoJournal where a file is in its place, as a log."""
    if os.path.isdir(path):
        return
    if os.path.lexists(path):
        raise NoJournal(
            f"{path}: a file, and no journal's folder: where it is a log, `wf move-log {path} FOLDER` makes a journal of it"
        )
    os.mkdir(path, 0o700)
    sync_names(os.path.dirname(os.path.abspath(path)))


def lines_of(file: BinaryIO) -> Iterator[bytes]:
    """The lines of a file that is open."""
    with file:
        yield from file


def fault_of(path: str, said: str, ended: Ended) -> LogFault:
    """What a program came to that did not open a journal, by what it said."""
    damaged = DAMAGED.search(said)
    if damaged is not None:
        return JournalDamaged(path, int(damaged[1]))
    for text, fault in FAULTS:
        if text in said:
            return fault(said)
    if SNAPSHOT.search(said):
        return CheckpointDamaged(said)
    return NotOpened(f"{path}: {ended}")
