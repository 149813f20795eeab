#!/usr/bin/env python3
"""What children and signals to other workflows cost by lines, over 16 shards: a parent starts 500
children (a sender sends 500 signals) in one completion, and each transfer and each answer is brought to
its shard by a turn of its own.

Usage: bench/transfers.py [COUNT..]   (default: 12,500 and 50,000 children, and as many signals)

Times are processor times of the built program, in and under the kernel, the shortest of three runs;
memory is the most that it held. The program is crates/wfserve/out/wfserve, which `rt run` builds in that
folder.
"""
import json
import os
import subprocess
import sys
import tempfile

HERE = os.path.dirname(os.path.abspath(__file__))
sys.path.insert(0, os.path.join(HERE, "..", "tools"))
import client_package  # noqa: E402, F401
from wfserve import ids  # noqa: E402

PROGRAM = os.path.join(HERE, "..", "crates", "wfserve", "out", "wfserve")
RUNS = 3
SHARDS = 16
EACH = 500


def shard_of(workflow_id):
    return ids.shard_of(workflow_id, SHARDS)


def token(run, shard):
    """The token of a run's first workflow task."""
    return ids.token_text(ids.TaskKind.WORKFLOW, run, 2, 1, shard)


class Script:
    """Lines of a service, and how many transfers wait between each two of its shards."""

    def __init__(self):
        self.lines = []
        self.runs = [0] * SHARDS
        self.waiting = {}

    def add(self, op, **fields):
        self.lines.append({"op": op, **fields})

    def start(self, workflow_id):
        shard = shard_of(workflow_id)
        self.runs[shard] += 1
        self.add("start", workflow_id=workflow_id, workflow_type="order", task_queue=f"q{shard}")
        return shard, self.runs[shard]

    def begin(self, workflow_id, commands):
        """Starts a workflow, whose first task is completed by these commands."""
        shard, run = self.start(workflow_id)
        self.add("dispatch_turn", shard=shard)
        self.add("poll_workflow_task", task_queue=f"q{shard}")
        self.add("complete_workflow_task", token=token(run, shard), commands=commands)
        for command in commands:
            to = shard_of(command["workflow_id"])
            self.waiting[shard, to] = self.waiting.get((shard, to), 0) + 1

    def deliver(self):
        """Turns for all that waits, and for the answers to it."""
        for back in (False, True):
            for (sender, other), count in sorted(self.waiting.items()):
                here, there = (other, sender) if back else (sender, other)
                for _ in range(count):
                    self.add("transfer_turn", **{"from": here, "to": there})
        self.waiting = {}


def children(count):
    """Parents that start `count` children."""
    script = Script()
    for parent in range(count // EACH):
        commands = [{"type": "StartChildWorkflowExecution", "workflow_id": f"payment-{parent}-{n}",
                     "workflow_type": "payment", "task_queue": "q0"} for n in range(EACH)]
        script.begin(f"order-{parent}", commands)
    script.deliver()
    return script.lines


def signals(count):
    """Senders that send `count` signals to 64 workflows."""
    script = Script()
    others = [f"account-{n}" for n in range(64)]
    for sender in range(count // EACH):
        commands = [{"type": "SignalExternalWorkflowExecution", "workflow_id": others[n % 64],
                     "name": "paid"} for n in range(EACH)]
        script.begin(f"order-{sender}", commands)
    for other in others:
        script.start(other)
    script.deliver()
    return script.lines


def run(path):
    """Processor time in seconds, most memory in MB, and what was written, of one run over the lines."""
    words = [PROGRAM, "--shards", str(SHARDS), "--capacity", "65536",
             "--queues", ",".join(f"q{n}" for n in range(SHARDS))]
    with open(path, "rb") as lines, tempfile.TemporaryFile() as written:
        process = subprocess.Popen(words, stdin=lines, stdout=written)
        _, status, used = os.wait4(process.pid, 0)
        process.returncode = os.waitstatus_to_exitcode(status)
        if process.returncode != 0:
            sys.exit(f"transfers: status {process.returncode}")
        written.seek(0)
        return used.ru_utime + used.ru_stime, used.ru_maxrss / 1024, written.read()


def measure(name, count, lines, path):
    with open(path, "w") as file:
        file.writelines(json.dumps(line, separators=(",", ":")) + "\n" for line in lines)
    turns = sum(line["op"] == "transfer_turn" for line in lines)
    best = None
    for _ in range(RUNS):
        took, memory, written = run(path)
        accepted = written.count(b'"ok":"accepted"')
        if accepted != turns:
            sys.exit(f"transfers: {name}: {turns} turns, {accepted} accepted")
        best = min(took, best or took)
    print(f"{count} {name}: {turns} turns, {best:.3f} s, {best / turns * 1e6:.1f} us/turn, "
          f"{memory:.0f} MB", flush=True)


def main():
    counts = [int(word) for word in sys.argv[1:]] or [12_500, 50_000]
    if not os.access(PROGRAM, os.X_OK):
        sys.exit(f"transfers: {PROGRAM} is not built; run `rt run` in its folder")
    print(f"load {os.getloadavg()[0]:.1f}")
    with tempfile.TemporaryDirectory() as folder:
        for name, case in (("children", children), ("signals to other workflows", signals)):
            for count in counts:
                measure(name, count, case(count), os.path.join(folder, "lines"))


if __name__ == "__main__":
    main()
