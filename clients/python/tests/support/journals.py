"""Journals that tests write themselves, and compact by a program that stands in for wfserve."""

import json
import os
import pathlib
import sys
import tempfile
import unittest

from support import snapshot_maker
from wfserve.checkpoint import read_checkpoint
from wfserve.compacting import compact
from wfserve.frames import framed
from wfserve.journal import Journal, JournalSettings

MAKER = [sys.executable, "-S", snapshot_maker.SCRIPT]
SETTINGS = JournalSettings(("main",), 0, 1, 2)
ENTRY = b'{"pass":0,"request":{"at":%d,"op":"history","workflow_id":"%s"}}\n'


def step(shard, at, workflow_id=b"a"):
    """The line of a step."""
    return b"%02d" % shard + ENTRY % (at, workflow_id)


class Journals(unittest.TestCase):
    """A folder with a journal."""

    def setUp(self):
        folder = tempfile.TemporaryDirectory()
        self.addCleanup(folder.cleanup)
        self.folder = folder.name
        self.path = f"{self.folder}/journal"

    def write(self, name, data):
        path = os.path.join(self.folder, name)
        pathlib.Path(path).write_bytes(data)
        return path

    def begin(self, texts, zeros=1_000, settings=SETTINGS):
        """Begins the journal with batches of these texts."""
        self.write("journal", b"".join(map(framed, [settings.text(), *texts])) + b"\0" * zeros)

    def size(self):
        """How many bytes the journal has up to its last batch."""
        return len(pathlib.Path(self.path).read_bytes().rstrip(b"\0"))

    def append(self, texts, zeros=1_000):
        """Adds batches as the program does: over its zeros, at the same place."""
        at = self.size()
        with open(self.path, "r+b") as file:
            file.seek(at)
            file.write(b"".join(map(framed, texts)) + b"\0" * zeros)

    def compact(self, folder=None, *more):
        return compact(folder or self.folder, [*MAKER, *more])

    def steps(self, folder=None):
        """What a journal has of each shard: moments and workflow IDs, by its snapshots and its steps since then."""
        runs = snapshot_maker.runs_of(folder or self.folder)
        found = [[json.loads(run) for run in shard] for shard in runs]
        return [[(run["at"], run["attrs"]["workflow_id"]) for run in shard] for shard in found]

    def number(self):
        """The number of the checkpoint; 0 where there is none."""
        checkpoint = read_checkpoint(self.folder)
        return checkpoint.number if checkpoint is not None else 0

    def read(self, **more):
        return Journal(self.path, **more)
