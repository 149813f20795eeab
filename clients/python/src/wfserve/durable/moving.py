"""A log of the compiled edge, or of an earlier client, becomes a journal, and a journal a log.

Nobody may serve either meanwhile. What was never compacted is moved by its records, all steps from the first on. What goes
on from snapshots is moved by snapshots.
"""

from __future__ import annotations

import json
import os
import shutil
import subprocess
from typing import Iterable, List, Optional, Sequence

from wfserve.blobs import copy_blobs, store_beside
from wfserve.calls import text_of
from wfserve.checkpoint import Checkpoint, check_snapshots, checkpoint_in, measured, number_in, put_snapshots, snapshot_in
from wfserve.errors import JournalCompacted, LogDamaged, LogFault, NotMoved, OtherJournal
from wfserve.frames import check_of, framed, sync_names, write_synced
from wfserve.journal import Journal, journal_in, write_folder, write_journal

from .edge_log import begin_log, held, is_snapshot, lines_in, read_header, record_files, records_folder
from .journaled import JournaledProgram, journal_settings, make_folder, settings_from
from .settings import Settings


def move_log(command: Sequence[str], log: str, folder: str) -> int:
    """Begins the journal in a folder with all that a log has. How many steps its batches have.

    The folder is made where there is none, and may have no journal. The log is left as it is: put it away, since only one of
    the two goes on. Its calls' keys are given up, and its long texts are copied beside the folder. The journal is there
    under its name once all of it is on the disk and the program has opened it. That of a log which goes on from snapshots
    begins with a checkpoint, and has no steps yet. BlobDamaged where a long text was changed on the disk, LogInUse where the
    log is served: no journal is begun.
    """
    if os.path.exists(journal_in(folder)):
        raise LogFault(f"{journal_in(folder)}: there is a journal already")
    if not os.path.isfile(log):
        raise LogFault(f"{log}: there is no such log")
    make_folder(folder)
    beside = os.path.join(folder, "journal.new")
    shutil.rmtree(beside, ignore_errors=True)
    os.mkdir(beside, 0o700)
    with held(log):
        steps = _written(command, log, beside)
        copy_blobs(store_beside(log), store_beside(folder))
    _put(beside, folder)
    shutil.rmtree(beside)
    return steps


def _put(beside: str, folder: str) -> None:
    """Puts a journal with what it goes on from into its folder, the journal last."""
    for name in os.listdir(folder):
        if number_in(name):
            shutil.rmtree(os.path.join(folder, name))
    names = sorted(name for name in os.listdir(beside) if number_in(name) or name == "checkpoint")
    for name in [*names, "journal"]:
        os.rename(os.path.join(beside, name), os.path.join(folder, name))
        sync_names(folder)


def _written(command: Sequence[str], log: str, folder: str) -> int:
    """Writes a journal of what a log's lines leave, and has the program open it. How many steps its batches have.

    The lines are not served with the journal: a queue is opened from it with other hints than from a log's records,
    so some of them might be answered otherwise than they were.
    """
    header, *lines = list(lines_in(log)) or [b""]
    if not header:
        raise LogDamaged(f"{log}: the log has no settings")
    settings, generation = read_header(header, log)
    words = [*command, *settings.options()]
    if generation:
        words += ["--load", records_folder(log, generation)]
    steps = 0
    if any(map(is_snapshot, record_files(log, generation))):
        _write_checkpoint(words, settings, lines, folder)
    else:
        saved = os.path.join(folder, "records")
        _save([*words, "--save", saved], lines, saved)
        records = [_lines_of(os.path.join(saved, name)) for name in sorted(os.listdir(saved))]
        write_journal(journal_in(folder), journal_settings(settings), records)
        steps = sum(map(len, records))
    JournaledProgram(command, folder, settings).close()
    return steps


def _write_checkpoint(words: Sequence[str], settings: Settings, lines: Iterable[bytes], folder: str) -> None:
    """Writes a journal without steps, and a checkpoint of the snapshots that the lines leave."""
    found = journal_settings(settings)
    text = found.text()
    write_journal(journal_in(folder), found, [])
    following = Checkpoint(found, 1, len(framed(text)), check_of(text).decode(), ())
    target = following.folder(folder)
    _save([*words, "--snapshot", target], lines, target)
    paths = [snapshot_in(target, shard) for shard in range(settings.shards)]
    write_synced(checkpoint_in(folder), [following.with_snapshots(map(measured, paths)).data()])


def _save(words: Sequence[str], lines: Iterable[bytes], folder: str) -> None:
    """Has a program serve lines and leave its records or snapshots in a new folder, on the disk."""
    shutil.rmtree(folder, ignore_errors=True)
    os.mkdir(folder, 0o700)
    given = b"".join(_for_replay(line) + b"\n" for line in lines)
    ran = subprocess.run(words, input=given, stdout=subprocess.DEVNULL, stderr=subprocess.PIPE)
    # A script with a refusal among its replies ends with status 1, a fault with 2.
    if ran.returncode not in (0, 1):
        raise NotMoved(f"{folder}: {ran.stderr.decode(errors='replace').strip() or ran.returncode}")
    for name in os.listdir(folder):
        os.chmod(os.path.join(folder, name), 0o600)
    sync_names(folder)


def _for_replay(line: bytes) -> bytes:
    """What the program is given for a line of a log. One of an early time has reads, and a history is long: a description
    sets the same moment on the same shard, and changes as little."""
    if b'"history"' not in line:
        return line
    try:
        request = json.loads(line)
    except (ValueError, RecursionError):
        return line
    if request.get("op") != "history":
        return line
    named = {name: request[name] for name in ("workflow_id", "run") if isinstance(request.get(name), str)}
    return text_of({"op": "describe", "at": request.get("at", 0), **named}).encode()


def _lines_of(path: str) -> List[bytes]:
    """The lines of a record's file."""
    with open(path, "rb") as record:
        return record.readlines()


def move_journal(
    folder: str, log: str, capacity: int = Settings.capacity, command: Optional[Sequence[str]] = None,
) -> int:
    """Begins a log of the compiled edge with all that the journal in a folder has. How many steps the journal's batches have.

    There must be no such log. It goes on as one that was compacted, from records, or from snapshots where the journal was
    compacted: the program of `command` makes these then, where there are steps since. The long texts are copied beside it.
    The journal is left as it is: put it away, since only one of the two goes on. LogInUse where a program has it open, and
    BlobDamaged where a long text was changed on the disk: no log is begun.
    """
    if os.path.exists(log):
        raise LogFault(f"{log}: there is a log already")
    with held(journal_in(folder)), Journal(journal_in(folder)) as journal:
        if journal.settings is None:
            raise OtherJournal(f"{journal.path}: the journal has no settings")
        settings = settings_from(journal.settings, capacity)
        records = journal.records_since()
        if journal.checkpoint is not None and any(records) and command is None:
            raise JournalCompacted(f"{journal.path}: the journal was compacted: give the program, which makes snapshots of it")
        copy_blobs(store_beside(folder), store_beside(log))
        target = records_folder(log, 1)
        shutil.rmtree(target, ignore_errors=True)
        if journal.checkpoint is None:
            _write_records(target, records)
        elif command is None:
            check_snapshots(journal.checkpoint, folder)
            put_snapshots(journal.checkpoint.paths(folder), target, linked=False)
        else:
            _write_snapshots([*command, *settings.options()], journal, target)
    begin_log(log, settings, 1)
    return sum(map(len, records))


def _write_records(folder: str, records: List[List[bytes]]) -> None:
    """Writes the records of shards as `--save` does, into a new folder."""
    os.mkdir(folder, 0o700)
    for shard, record in enumerate(records):
        write_synced(os.path.join(folder, f"shard-{shard:02d}.rec"), record)
    sync_names(os.path.dirname(os.path.abspath(folder)))


def _write_snapshots(words: Sequence[str], journal: Journal, folder: str) -> None:
    """Has a program write snapshots of a journal that was compacted, into a new folder."""
    source = f"{folder}.journal"
    shutil.rmtree(source, ignore_errors=True)
    try:
        write_folder(journal, source)
        _save([*words, "--load", source, "--snapshot", folder], [], folder)
    finally:
        shutil.rmtree(source, ignore_errors=True)
