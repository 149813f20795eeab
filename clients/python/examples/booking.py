"""A booking of three steps. Where a step fails, what was booked before is undone, the last first."""

from wfserve.workflows import ActivityFailed, Cancellation, Cancelled, NonRetryable, Retry, attempt, seconds, workflow

QUEUES = ("main",)


def book(what, trip):
    if what == "car" and trip == "a trip without cars":
        raise NonRetryable("there is no car left")
    if what == "hotel" and attempt().number == 1:
        raise ConnectionError("the hotel did not answer")
    return f"{what} for {trip}"


def undo(what, trip):
    return f"no {what} for {trip}"


@workflow
async def booking(ctx, trip):
    booked = []
    try:
        for what in ("flight", "hotel", "car"):
            # Where the booking is cancelled, what comes of this step has to be known, so that it is undone too.
            booked.append(await ctx.activity(
                book, what, trip, start_to_close=seconds(10), retry=Retry(attempts=4),
                cancellation=Cancellation.WAIT_CANCELLATION_COMPLETED,
            ))
    except (ActivityFailed, Cancelled) as fault:
        undone = []
        for done in reversed(booked):
            what = done.split(" ")[0]
            undone.append(await ctx.activity(undo, what, trip, start_to_close=seconds(10)))
        return {"trip": trip, "why": str(fault), "undone": undone}
    return {"trip": trip, "booked": booked}


WORKFLOWS, ACTIVITIES = [booking], [book, undo]

IDS = ["booking-1", "booking-2"]


def scenario(stage):
    stage.start(booking, "a trip", id="booking-1")
    stage.start(booking, "a trip without cars", id="booking-2")
    stage.until_closed(*IDS)
