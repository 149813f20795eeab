"""A parent with a hundred children: each works out a square, and the parent adds them up."""

from wfserve.workflows import ChildFailed, seconds, workflow

QUEUES = ("main",)
CHILDREN = 100


def square(number):
    return number * number


@workflow
async def child(ctx, number):
    return await ctx.activity(square, number, start_to_close=seconds(10))


@workflow
async def parent(ctx, count):
    try:
        squares = await ctx.gather(*[ctx.child(child, number) for number in range(count)])
    except ChildFailed as failed:
        return {"why": str(failed)}
    return {"children": count, "sum": sum(squares)}


WORKFLOWS, ACTIVITIES = [parent, child], [square]

IDS = ["parent-1"]


def scenario(stage):
    stage.start(parent, CHILDREN, id="parent-1")
    stage.until_closed(*IDS)
