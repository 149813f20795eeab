"""An order that survives being killed: python3 clients/python/examples/survive.py ./serve orders

Kill it while it waits, and run it again: it goes on, and the card is charged once.
"""

import sys
from pathlib import Path

# In the tree the package is found without an installation.
sys.path.append(str(Path(__file__).resolve().parents[1] / "src"))

from wfserve.workflows import run, seconds, workflow


def charge(card):
    print("charging", card, flush=True)
    return "receipt 4711"


@workflow
async def order(ctx, card):
    receipt = await ctx.activity(charge, card, start_to_close=seconds(30))
    await ctx.timer(seconds(10))
    return f"shipped with {receipt}"


if __name__ == "__main__":
    if len(sys.argv) != 3:
        sys.exit("usage: python3 survive.py PROGRAM FOLDER")
    program, folder = sys.argv[1:]
    print(run([program], folder, order, [charge], "order-17", "card 42"))
