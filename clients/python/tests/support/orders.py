"""Orders that move money, and a worker of them: what test_orders.py starts, kills, and looks at afterwards.

    orders.py URL LEDGER

Each effect is a line of the ledger, which stands for the bank, the warehouse and the carrier. It takes an
effect as often as it is made: so what was made twice is seen.
"""

from __future__ import annotations

import json
import logging
import os
import signal
import sys
import threading
import time

from wfserve.http import HttpService
from wfserve.workflows import ActivityFailed, Cancellation, Cancelled, Retry, Worker, attempt, hours, seconds, workflow

LEDGER = ""
WAIT, WORKERS = 1_000, 2
TASK_TIMEOUT = seconds(3)
# A charge whose worker lives is told before its time is over, where the server isn't away for so long. It is where its
# program takes as long for the log: one without proofs serves some thousand lines a second, and less on a busy machine.
CHARGE_TIMEOUT = seconds(30)
PATIENT = {"start_to_close": seconds(4), "retry": Retry(initial=50, maximum=500)}


class CardDeclined(Exception):
    """The bank says no, and will say so again."""


def entry(what: str, order: str, **more) -> None:
    """Writes an effect, in one write: it is in the ledger or it is not."""
    made = attempt()
    line = {
        "what": what, "order": order, "worker": [os.getpid(), threading.get_ident()], "run": made.run,
        "activity": made.activity_id, "attempt": made.number, **more,
    }
    ledger = os.open(LEDGER, os.O_WRONLY | os.O_APPEND | os.O_CREAT, 0o600)
    try:
        os.write(ledger, (json.dumps(line) + "\n").encode())
    finally:
        os.close(ledger)


def reserve(order: str) -> str:
    entry("reserve", order)
    return f"place of {order}"


def release(order: str) -> None:
    entry("release", order)


def charge(order: str, failures: int, declined: bool) -> str:
    """The provider doesn't answer at first. It takes a while to charge, and a while to say so."""
    entry("asked for a charge", order)
    time.sleep(0.01)
    if attempt().number <= failures:
        raise ConnectionError("the provider did not answer")
    if declined:
        raise CardDeclined("the card was declined")
    entry("charge", order)
    time.sleep(0.25)
    return f"receipt of {order}"


def refund(order: str) -> None:
    entry("refund", order)


def pack(parcel: str, parts: int) -> int:
    """Goes on from the part that the last heartbeat told."""
    for part in range(attempt().details or 0, parts):
        entry("pack", parcel, part=part)
        time.sleep(0.02)
        attempt().heartbeat(part + 1)
    return parts


def unpack(parcel: str) -> None:
    entry("unpack", parcel)


@workflow
async def parcel(ctx, parts):
    try:
        return await ctx.activity(
            pack, ctx.workflow_id, parts, start_to_close=seconds(8), heartbeat=seconds(4),
            retry=Retry(initial=50, maximum=500), cancellation=Cancellation.WAIT_CANCELLATION_COMPLETED,
        )
    except Cancelled:
        await ctx.activity(unpack, ctx.workflow_id, **PATIENT)
        raise


@workflow
async def order(ctx, plan, notes=None):
    """Reserves, charges, packs, waits for the carrier, and then takes notes, a new run for each.

    `plan` says what happens to it; an order that isn't shipped gives back all that it took."""
    try:
        if notes is None:
            ended = await before_shipping(ctx, plan)
            if ended is not None:
                return ended
            notes = []
        return await after_shipping(ctx, plan, notes)
    except Cancelled:
        with ctx.scope(shield=True):
            await given_back(ctx, plan)
        raise


async def before_shipping(ctx, plan):
    """None where it was shipped, or else how the order ends."""
    await ctx.activity(reserve, ctx.workflow_id, **PATIENT)
    try:
        await ctx.activity(
            charge, ctx.workflow_id, plan["failures"], plan["declined"], start_to_close=CHARGE_TIMEOUT,
            retry=Retry(initial=50, maximum=500, non_retryable=["CardDeclined"]),
            cancellation=Cancellation.WAIT_CANCELLATION_COMPLETED,
        )
    except ActivityFailed as failed:
        await ctx.activity(release, ctx.workflow_id, **PATIENT)
        return {"state": "declined", "why": str(failed)}
    await ctx.gather(*[
        ctx.child(parcel, parts, id=parcel_id(ctx.workflow_id, number), task_timeout=TASK_TIMEOUT)
        for number, parts in enumerate(plan["parcels"])
    ])
    done = await ctx.first(ctx.signal("shipped"), ctx.timer(plan["patience"] or hours(1)))
    if done.index == 1:
        await given_back(ctx, plan)
        return {"state": "not shipped in time"}
    return None


async def after_shipping(ctx, plan, notes):
    """A note that was sent again, since its reply was lost, comes twice if the order went on in a new run meanwhile."""
    while len(notes) < plan["notes"]:
        number = await ctx.signal("note")
        if number not in notes:
            ctx.continue_as_new(plan, [*notes, number], with_signals=True)
    return {"state": "shipped", "notes": notes}


async def given_back(ctx, plan):
    await ctx.activity(refund, ctx.workflow_id, **PATIENT)
    await ctx.activity(release, ctx.workflow_id, **PATIENT)
    for number in range(len(plan["parcels"])):
        await ctx.activity(unpack, parcel_id(ctx.workflow_id, number), **PATIENT)


def parcel_id(order_id: str, number: int) -> str:
    return f"{order_id}/parcel-{number}"


WORKFLOWS, ACTIVITIES = [order, parcel], [reserve, release, charge, refund, pack, unpack]


def main(url: str, ledger: str) -> None:
    global LEDGER
    LEDGER = ledger
    logging.basicConfig(level=logging.WARNING, format="%(asctime)s %(process)d %(message)s")
    stop = threading.Event()
    signal.signal(signal.SIGTERM, lambda *_: stop.set())
    service = HttpService(url, wait=WAIT)
    workers = [threading.Thread(target=Worker(service, "main", WORKFLOWS, ACTIVITIES).run, args=(stop,)) for _ in range(WORKERS)]
    for worker in workers:
        worker.start()
    # It ends with who started it.
    parent = os.getppid()
    while not stop.wait(0.5):
        if os.getppid() != parent:
            stop.set()
    for worker in workers:
        worker.join()


if __name__ == "__main__":
    main(*sys.argv[1:])
