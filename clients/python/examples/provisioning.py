"""A site is set up by three activities at once, with a name that is made once, and kept in repair for three rounds."""

import uuid

from wfserve.workflows import Retry, days, seconds, workflow

QUEUES = ("main",)
ROUNDS = 3


def new_secret():
    """Another one each time, so a workflow makes it once and remembers it."""
    return uuid.uuid4().hex


def keep_secret(site, secret):
    return f"a secret of {len(secret)} letters for {site}"


def make_network(site):
    return f"network of {site}"


def make_disk(site):
    return f"disk of {site}"


def make_machine(site):
    return f"machine of {site}"


def repair(parts):
    return len(parts)


@workflow
async def provisioning(ctx, site, parts=None, rounds=0):
    if parts is None:
        secret = ctx.once(new_secret)
        kept = await ctx.activity(keep_secret, site, secret, start_to_close=seconds(60))
        making = [
            ctx.activity(make, site, start_to_close=seconds(60), retry=Retry(attempts=3))
            for make in (make_network, make_disk, make_machine)
        ]
        parts = [kept, *await ctx.gather(*making)]
    if rounds == ROUNDS:
        return {"site": site, "parts": parts, "rounds": rounds}
    await ctx.first(ctx.timer(days(30)), ctx.signal("repair now"))
    await ctx.activity(repair, parts, start_to_close=seconds(60))
    ctx.continue_as_new(site, parts, rounds + 1)


WORKFLOWS, ACTIVITIES = [provisioning], [keep_secret, make_network, make_disk, make_machine, repair]

IDS = ["site-1"]


def scenario(stage):
    stage.start(provisioning, "site-1", id="site-1")
    stage.until(days(20))
    stage.signal("site-1", "repair now")
    stage.until_closed(*IDS)
