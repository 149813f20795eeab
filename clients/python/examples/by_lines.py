"""An order: a payment that is tried three times, a wait for shipping, and a signal that calls it off.

    python3 clients/python/examples/by_lines.py ./serve
"""

import sys
from pathlib import Path

# In the tree the package is found without an installation.
sys.path.append(str(Path(__file__).resolve().parents[1] / "src"))

from wfserve.calls import Clock, Service
from wfserve.plain_worker import AttemptFailed, PlainWorker

HOUR = 3_600_000


def order(history):
    """What an order does next, by what its history has: pay, then wait an hour, unless it is called off."""
    types = [event["type"] for event in history]
    signals = [e["attrs"]["name"] for e in history if e["type"] == "WorkflowExecutionSignaled"]
    if "ActivityTaskScheduled" not in types:
        return [{
            "type": "ScheduleActivityTask", "activity_id": "payment", "activity_type": "Charge",
            "task_queue": "main", "input": "49.90 EUR", "start_to_close": 30_000,
            "retry": {"initial": 1_000, "coefficient": 200, "attempts": 5},
        }]
    if "ActivityTaskFailed" in types:
        return [{"type": "FailWorkflowExecution", "message": "the card was declined"}]
    if "TimerFired" in types:
        return [{"type": "CompleteWorkflowExecution", "result": "shipped"}]
    if "call off" in signals:
        cancel = [{"type": "CancelTimer", "timer_id": "shipping"}] if "TimerStarted" in types else []
        return cancel + [{"type": "CancelWorkflowExecution", "details": "called off"}]
    if "ActivityTaskCompleted" in types and "TimerStarted" not in types:
        return [{"type": "StartTimer", "timer_id": "shipping", "duration": HOUR}]
    return []


def charge(task):
    """A payment whose provider answers at the third attempt."""
    if task.attempt < 3:
        raise AttemptFailed("the provider did not answer")
    return "receipt 4711"


def run(command, calls_off):
    """The events of an order, called off while it waits for shipping or not."""
    clock = Clock()
    with Service(command, clock) as service:
        worker = PlainWorker(service, workflows={"Order": order}, activities={"Charge": charge})
        service.start("order-17", "Order", request_id="order-17-start")
        for _ in range(4):
            worker.run_until_idle()
            clock.advance(5_000)
        if calls_off:
            service.signal("order-17", "call off", request_id="call-1")
        worker.run_until_idle()
        clock.advance(HOUR)
        worker.run_until_idle()
        return service.history("order-17")


if __name__ == "__main__":
    for event in run(sys.argv[1:] or ["../../serve"], calls_off=True):
        print(f"{event['id']:3}  {event['at']:>9}  {event['type']}")
