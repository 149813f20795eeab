"""Stands in for wfserve where a journal is compacted: it makes snapshots of a journal's folder, of which each step is a run.

    snapshot_maker.py [--wait SECONDS] [--fault TEXT] [--forget] OPTIONS --load FOLDER --snapshot FOLDER

So tests see which steps a checkpoint has. It waits before it writes, ends with a fault, or forgets the former snapshots.
"""

import argparse
import json
import os
import sys
import time

sys.path.insert(0, os.path.join(os.path.dirname(os.path.abspath(__file__)), "../../src"))

from wfserve.checkpoint import check_snapshots, snapshot_in  # noqa: E402
from wfserve.journal import Journal, journal_in  # noqa: E402

SCRIPT = os.path.abspath(__file__)


def line(row):
    return json.dumps(row, separators=(",", ":"), sort_keys=True).encode() + b"\n"


def run_line(entry):
    attrs = {"workflow_id": entry["request"]["workflow_id"], "workflow_type": "w"}
    return line({"at": entry["request"]["at"], "attrs": attrs, "id": 1, "type": "WorkflowExecutionStarted"})


def runs_of(folder):
    """Of each shard the lines of the runs that its snapshot and the batches since stand for."""
    with Journal(journal_in(folder)) as journal:
        runs = [[] for _ in range(journal.settings.shards)]
        if journal.checkpoint is not None:
            check_snapshots(journal.checkpoint, folder)
            for found, path in zip(runs, journal.checkpoint.paths(folder)):
                with open(path, "rb") as file:
                    found += file.readlines()[2:-1]
        for step in journal.steps():
            runs[step.shard].append(run_line(step.entry))
        return runs


def snapshot(said, shard, runs):
    head = {"retention": said.retention, "service": said.service, "shard": shard, "shards": said.shards}
    counted = {"dispatched": 0, "transfers": [{"accepted": 0, "acknowledged": 0}] * said.shards}
    last = max((json.loads(run)["at"] for run in runs), default=0)
    end = {"last": last, "lines": len(runs) + 2}
    return b"".join([line({"head": head}), line({"counted": counted}), *runs, line({"end": end})])


def main(words):
    parser = argparse.ArgumentParser(allow_abbrev=False)
    for name in ("--shards", "--service", "--retention"):
        parser.add_argument(name, type=int)
    for name in ("--queues", "--load", "--snapshot", "--fault"):
        parser.add_argument(name)
    parser.add_argument("--wait", type=float, default=0)
    parser.add_argument("--forget", action="store_true")
    said = parser.parse_args(words)
    time.sleep(said.wait)
    if said.fault:
        sys.exit(said.fault)
    for shard, runs in enumerate(runs_of(said.load)):
        path = snapshot_in(said.snapshot, shard)
        with open(path + ".new", "wb") as file:
            file.write(snapshot(said, shard, [] if said.forget else runs))
            os.fsync(file.fileno())
        os.rename(path + ".new", path)


if __name__ == "__main__":
    main(sys.argv[1:])
