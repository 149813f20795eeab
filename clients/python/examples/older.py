"""Workflows of which an earlier version of this client made the stored histories: examples/histories/older.jsonl.

That version let the code go on after each event of a task, and waited for no child that was cancelled. The
histories are kept as they were made: the code has to agree with them, by the rules of their time.
"""

from wfserve.workflows import Cancelled, hours, seconds, workflow

QUEUES = ("main",)


def charge():
    return "receipt 4711"


def note(text):
    return text


@workflow
async def called_off(ctx):
    """A signal and the end of the timer that it cancels came in one task."""
    timer = ctx.timer(seconds(1))
    await ctx.signal("call off")
    timer.cancel()
    try:
        await timer
    except Cancelled:
        await ctx.activity(note, "the timer was cancelled", start_to_close=seconds(5))
    await ctx.activity(note, "the end", start_to_close=seconds(5))


@workflow
async def paid(ctx):
    """The request to cancel and the receipt came in one task."""
    receipt = None
    try:
        receipt = await ctx.activity(charge, start_to_close=seconds(5))
        await ctx.signal("never")
    except Cancelled:
        await ctx.activity(note, f"refunded {receipt}", start_to_close=seconds(5))
        raise


@workflow
async def child(ctx):
    await ctx.timer(hours(1))


@workflow
async def parent(ctx):
    """It is cancelled while its child waits."""
    try:
        await ctx.child(child, id=f"{ctx.workflow_id}/child")
    except Cancelled:
        await ctx.activity(note, "the child was asked to cancel", start_to_close=seconds(5))
        raise


@workflow
async def counted(ctx, seen=None):
    """Three signals came in one task."""
    seen = [*(seen or []), await ctx.signal("number")]
    while (more := ctx.signal("number")).done:
        seen.append(more.result())
    if len(seen) < 3:
        ctx.continue_as_new(seen)
    return seen


WORKFLOWS, ACTIVITIES = [called_off, paid, child, parent, counted], [charge, note]
IDS = ["called-off-1", "paid-1", "parent-1", "counted-1"]
