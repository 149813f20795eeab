#!/usr/bin/env python3
"""Calls a second of the client in Python: straight to the program, through a journal, and over HTTP.

    tools/calls_a_second.py PROGRAM [FOLDER]

Each call signals a workflow, with a request id. Journals and logs lie in FOLDER, on whose disk their syncs depend.
"""
import pathlib
import sys
import tempfile
import threading
import time

import client_package

sys.path.append(str(client_package.CLIENT / "tests"))

from support.served import Server  # noqa: E402
from wfserve.calls import Service  # noqa: E402
from wfserve.durable import DurableService  # noqa: E402

SECONDS = 5


def signals(service, thread, until, made):
    """Signals a workflow of the thread's own until it is time."""
    service.start(f"w{thread}", "Measured", request_id=f"start {thread}")
    count = 0
    while time.monotonic() < until:
        service.signal(f"w{thread}", "s", request_id=f"{thread} {count}")
        count += 1
    made.append(count)


def measured(name, service, threads):
    """Calls for some seconds from so many threads, and says how many that were a second. How many they were."""
    made, until = [], time.monotonic() + SECONDS
    running = [threading.Thread(target=signals, args=(service, i, until, made)) for i in range(threads)]
    for thread in running:
        thread.start()
    for thread in running:
        thread.join()
    print(f"{name}, {threads} {'thread' if threads == 1 else 'threads'}: {sum(made) / SECONDS:,.0f} calls a second", flush=True)
    return sum(made)


def through_a_journal(program, folder, threads):
    """The same where the program keeps itself."""
    kept = str(folder / f"{threads}.journal")
    with DurableService([program], kept) as service:
        count = measured("through a journal", service, threads)
    begun = time.monotonic()
    with DurableService([program], kept):
        print(f"    opened again: {count / (time.monotonic() - begun):,.0f} lines a second", flush=True)


def over_http(program, folder, threads):
    server = Server(program, folder / f"http-{threads}.log")
    try:
        measured("over HTTP, through the log", server.client(), threads)
    finally:
        server.stop()


def main(program, folder):
    with Service([program]) as service:
        measured("straight to the program", service, 1)
    for threads in (1, 16, 64):
        through_a_journal(program, folder, threads)
    for threads in (1, 16, 50):
        over_http(program, folder, threads)


if __name__ == "__main__":
    if len(sys.argv) not in (2, 3):
        sys.exit("usage: tools/calls_a_second.py PROGRAM [FOLDER]")
    with tempfile.TemporaryDirectory(dir=sys.argv[2] if sys.argv[2:] else None) as made:
        main(sys.argv[1], pathlib.Path(made))
