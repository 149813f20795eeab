"""An order: a payment that is tried until the provider answers, a wait for shipping, and a signal that calls it off."""

from wfserve.workflows import ActivityFailed, Retry, attempt, hours, minutes, seconds, workflow

QUEUES = ("main",)


def charge(order_id, amount):
    """A payment whose provider answers at the third attempt."""
    if attempt().number < 3:
        raise ConnectionError("the provider did not answer")
    return f"receipt of {order_id}: {amount}"


def refund(receipt):
    return f"refunded: {receipt}"


@workflow
async def order(ctx, order_id, amount):
    try:
        receipt = await ctx.activity(
            charge, order_id, amount, start_to_close=seconds(30),
            retry=Retry(attempts=5, non_retryable=["CardDeclined"]),
        )
    except ActivityFailed as failed:
        return {"state": "not paid", "why": str(failed)}
    done = await ctx.first(ctx.timer(hours(1)), ctx.signal("call off"))
    if done.index == 0:
        return {"state": "shipped", "receipt": receipt}
    refunded = await ctx.activity(refund, receipt, start_to_close=seconds(30))
    return {"state": "called off", "why": done.value, "refund": refunded}


WORKFLOWS, ACTIVITIES = [order], [charge, refund]

IDS = ["order-17", "order-18"]


def scenario(stage):
    stage.start(order, "order-17", "49.90 EUR", id="order-17")
    stage.start(order, "order-18", "12.00 EUR", id="order-18")
    stage.until(minutes(2))
    stage.signal("order-17", "call off", "found it cheaper")
    stage.until_closed(*IDS)
