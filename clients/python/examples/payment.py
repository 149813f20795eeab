"""A payment in parts: an activity tells how far it is, and its next attempt goes on from there."""

from wfserve.workflows import ActivityFailed, Cancelled, Retry, attempt, minutes, seconds, workflow

QUEUES = ("main",)
PARTS = 5


def pay(payment_id):
    """Pays part by part. The bank's line goes down once, after the second part."""
    paid = attempt().details or 0
    for part in range(paid + 1, PARTS + 1):
        attempt().heartbeat(part)
        if part == 2 and attempt().number == 1:
            raise ConnectionError("the bank's line went down")
    return {"payment": payment_id, "parts": PARTS}


def collect(payment_id):
    """Collects until it is asked to cancel."""
    attempt().heartbeat("collecting")
    raise ConnectionError("nothing was paid in yet")


@workflow
async def payment(ctx, payment_id):
    paid = await ctx.activity(
        pay, payment_id, start_to_close=minutes(5), heartbeat=seconds(10), retry=Retry(attempts=4)
    )
    rest = ctx.activity(collect, payment_id, start_to_close=seconds(20), retry=Retry(initial=5_000))
    try:
        await ctx.first(rest, ctx.timer(minutes(10)))
    except (ActivityFailed, Cancelled):
        return {**paid, "rest": "called off"}
    return {**paid, "rest": "given up"}


WORKFLOWS, ACTIVITIES = [payment], [pay, collect]

IDS = ["payment-1", "payment-2"]


def scenario(stage):
    stage.start(payment, "p-1", id="payment-1")
    stage.start(payment, "p-2", id="payment-2")
    stage.until(minutes(3))
    stage.service.request_cancel("payment-2", request_id="cancel payment-2")
    stage.until_closed(*IDS)
