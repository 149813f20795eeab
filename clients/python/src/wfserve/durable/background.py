"""Compacts a journal from time to time, by a process of its own, while its program serves.

The process has a lower priority and reads the journal's file. So no call waits for it, but for the disk. It may be killed at
any moment (../compacting.py), and goes on to its end where the process is killed that started it.
"""

from __future__ import annotations

import logging
import os
import pathlib
import signal
import subprocess
import sys
import threading
import time
from dataclasses import dataclass
from typing import Dict, Optional, Sequence

import wfserve
from wfserve.checkpoint import Checkpoint, checkpoint_in, read_checkpoint
from wfserve.errors import Ended, LogFault, NotCompacted
from wfserve.frames import END, PIECE
from wfserve.journal import journal_in

LOG = logging.getLogger("wfserve.journal")
# How many seconds from one look at the journal's size to the next, and after a compaction that failed.
LOOK, LOOK_AFTER_FAULT = 5.0, 300.0
# The priority of the process, where its parent's isn't lower still.
NICE = 10


@dataclass(frozen=True)
class Compaction:
    """When a journal is compacted by itself: as soon as one of these holds, and there is anything new."""

    # What came since the last compaction has so many bytes, and as many as its snapshots.
    size: int = 64 << 20
    # So many seconds are over since the last compaction, or since the opening where there was none.
    seconds: float = 86_400.0


def with_package() -> Dict[str, str]:
    """An environment in which a process finds the package where this one has it."""
    paths = [str(pathlib.Path(wfserve.__file__).parents[1]), os.environ.get("PYTHONPATH", "")]
    return {**os.environ, "PYTHONPATH": os.pathsep.join(path for path in paths if path)}


def bytes_since(folder: str, checkpoint: Optional[Checkpoint]) -> int:
    """About how many bytes the batches of a journal have since its checkpoint, which the program may write to."""
    begin = checkpoint.end if checkpoint is not None else 0
    with open(journal_in(folder), "rb") as file:
        at = os.fstat(file.fileno()).st_size
        while at > begin:
            start = max(at - PIECE, begin)
            file.seek(start)
            last = file.read(at - start).rfind(END)
            if last >= 0:
                return start + last + 1 - begin
            at = start
    return 0


class Compactor:
    """Compacts the journal in a folder by a program, by itself where there is a rule for it, until it is closed."""

    def __init__(self, folder: str, command: Sequence[str], rule: Optional[Compaction]):
        self._folder = folder
        self._command = list(command)
        self._rule = rule
        self._began = time.time()
        self._one = threading.Lock()
        self._closed = threading.Event()
        self._process: Optional["subprocess.Popen[bytes]"] = None
        # What was said of the file's room, which is said once.
        self._noted = ""
        self._watching: Optional[threading.Thread] = None
        if rule is not None:
            self._watching = threading.Thread(target=self._watch, args=(rule,), daemon=True)
            self._watching.start()

    def _watch(self, rule: Compaction) -> None:
        rest = LOOK
        while not self._closed.wait(rest):
            rest = LOOK
            try:
                if self._is_due(rule):
                    self.compact()
            except (LogFault, Ended, OSError) as fault:
                rest = LOOK_AFTER_FAULT
                if not self._closed.is_set():
                    LOG.warning("the journal goes on uncompacted: %s", fault)

    def _is_due(self, rule: Compaction) -> bool:
        checkpoint = read_checkpoint(self._folder)
        since = bytes_since(self._folder, checkpoint)
        if checkpoint is None:
            return since >= rule.size or (since > 0 and time.time() - self._began >= rule.seconds)
        passed = time.time() - os.stat(checkpoint_in(self._folder)).st_mtime
        return since >= max(rule.size, checkpoint.size) or (since > 0 and passed >= rule.seconds)

    def compact(self) -> None:
        """Compacts it now, or once a compaction that runs is over. NotCompacted where it can't be done."""
        with self._one:
            if self._closed.is_set():
                raise Ended("the service was closed")
            self._process = self._started()
            _, errors = self._process.communicate()
            status, said = self._process.returncode, errors.decode(errors="replace").strip()
        if status:
            raise NotCompacted(said.replace("journal: ", "", 1) or f"{self._folder}: status {status}")
        if said and said != self._noted:
            self._noted = said
            LOG.warning("%s", said)

    def _started(self) -> "subprocess.Popen[bytes]":
        words = [sys.executable, "-m", "wfserve.journal", self._folder, "--compact", *self._command]
        process = subprocess.Popen(
            words, env=with_package(), stdin=subprocess.DEVNULL, stdout=subprocess.DEVNULL, stderr=subprocess.PIPE,
            start_new_session=True,
        )
        os.setpriority(os.PRIO_PROCESS, process.pid, max(NICE, os.getpriority(os.PRIO_PROCESS, 0)))
        return process

    def close(self) -> None:
        """Compacts no more. A compaction that runs is ended, and leaves the journal as it was or compacted."""
        self._closed.set()
        while self._one.locked():
            self._kill()
            self._closed.wait(0)
            time.sleep(0.01)
        if self._watching is not None:
            self._watching.join()

    def _kill(self) -> None:
        """Ends the process that compacts, and the program that it started."""
        process = self._process
        if process is not None and process.returncode is None:
            try:
                os.killpg(process.pid, signal.SIGKILL)
            except ProcessLookupError:
                pass
