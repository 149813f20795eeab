"""Workers of a module, for a server, until the process is told to stop."""

from __future__ import annotations

import functools
import importlib
import signal
import threading
import traceback
from typing import Any, Optional

from wfserve.errors import Refused, Unavailable
from wfserve.http import HttpService

from .reports import GRACE
from .worker import Worker, run_together


# How many milliseconds a worker's poll waits for a task. So long it may take to stop.
WAIT = 5_000


def work_until_stopped(
    service: HttpService, module_name: str, queue: str, threads: int, grace: Optional[float] = None,
) -> int:
    """Works on WORKFLOWS and ACTIVITIES of a module, with so many threads for each kind of task, by its INTERCEPTORS.

    Once it is told to stop, activities have `grace` seconds to end; without one they are waited for.

    0 once SIGTERM or SIGINT came and what was in hand is done; 1 where something kept it from going on, or the
    result of an activity could not be told. Refused where the queue is not there.
    """
    module = importlib.import_module(module_name)
    stop = threading.Event()
    interceptors = getattr(module, "INTERCEPTORS", ())
    workers = [
        Worker(service, queue, module.WORKFLOWS, module.ACTIVITIES, interceptors=interceptors, grace=grace)
        for _ in range(threads)
    ]

    def end(*_: Any) -> None:
        stop.set()
        giving_up = threading.Timer(GRACE + (grace or 0), service.give_up)
        giving_up.daemon = True
        giving_up.start()

    for number in (signal.SIGINT, signal.SIGTERM):
        signal.signal(number, end)
    print(f"working on {queue} of {service.url}", flush=True)
    try:
        run_together([functools.partial(worker.run, stop) for worker in workers], stop)
    except (Refused, Unavailable):
        raise
    except Exception:
        traceback.print_exc()
        return 1
    return 1 if any(worker.lost for worker in workers) else 0
