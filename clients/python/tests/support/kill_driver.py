"""Makes calls on a service with a journal until it is killed, or all are answered: what test_kill.py kills.

    kill_driver.py PROGRAM FOLDER SEED COMPACTED THREADS CALLS ANSWERED..

Each thread makes its own calls in order, each with a request id, and goes on behind those that were
ANSWERED before. Each answer is told by one line: the thread, and the call's number. Some inputs are too long for a history,
and lie beside the journal. Where COMPACTED is 1 the journal is compacted by itself again and again meanwhile.
"""

import os
import random
import sys
import threading

from wfserve.blobs import Blobs
from wfserve.durable import Compaction, DurableService, Settings, background

SETTINGS = Settings(shards=1, queues=("main",))
# One input in so many is longer than a history's text, by its number.
LONG = 7
OFTEN = Compaction(size=4_000)


def input_of(thread, number):
    """The input of a call."""
    return f"input {number}" if number % LONG else f"long {thread} {number} " * 1_000


def drawn_call(draw, thread, number):
    """One call of a thread's script. Its workflows are its own; its moment is its number's."""
    workflow_id = f"w{thread}-{draw.randrange(1 + number // 12)}"
    request = {"at": number, "workflow_id": workflow_id, "request_id": f"{thread}:{number}"}
    op = draw.choice(["start", "signal", "signal", "signal_with_start", "signal_with_start", "request_cancel"])
    if op in ("start", "signal_with_start"):
        request.update(workflow_type="Killed", task_queue="main")
    if op in ("signal", "signal_with_start"):
        request.update(name=f"signal {number}")
    if op != "request_cancel":
        request.update(input=input_of(thread, number))
    return {"op": op, **request}


def script(seed, thread, calls):
    """The calls of a thread, drawn from the seed."""
    draw = random.Random(f"{seed} {thread}")
    return [drawn_call(draw, thread, number) for number in range(calls)]


def with_short_input(request, blobs):
    """A call as the program is given it: a long input lies beside the journal, and the call names it."""
    return {**request, "input": blobs.encode(request["input"])} if "input" in request else request


def run_thread(service, thread, requests, answered):
    blobs = Blobs(service.blobs)
    for number in range(answered, len(requests)):
        service.send(with_short_input(requests[number], blobs)).result()
        os.write(1, f"{thread} {number}\n".encode())


def main():
    program, folder, seed, compacted, threads, calls = sys.argv[1:7]
    answered = [int(count) for count in sys.argv[7:]]
    background.LOOK = background.LOOK_AFTER_FAULT = 0.02
    with DurableService([program], folder, SETTINGS, compaction=OFTEN if compacted == "1" else None) as service:
        os.write(1, b"open\n")
        running = [
            threading.Thread(target=run_thread, args=(service, i, script(seed, i, int(calls)), answered[i]))
            for i in range(int(threads))
        ]
        for thread in running:
            thread.start()
        for thread in running:
            thread.join()
    os.write(1, b"done\n")


if __name__ == "__main__":
    main()
