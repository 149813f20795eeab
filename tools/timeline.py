#!/usr/bin/env python3
"""Draws a workflow's history as one page: events down, time across.

    ./serve FILE | tools/timeline.py > page.html             draws the last history among the replies
    tools/timeline.py REPLIES > page.html                    the same, of a file of replies
    ./serve --trace FILE | tools/timeline.py > page.html     draws all steps of all shards

Where steps follow the replies, as with --trace, they are drawn in place of a history: the shards side by side,
the steps in the order of their tickets, and transfers as arrows.

Workflow tasks, activities, timers and children are bars from the event that opened them to the one
that ended them: light while they wait, dark while a worker has them. A ring marks an event that was
buffered while a workflow task was started: it stands after events that were made later.
The page needs nothing beside itself. This script only reads replies; no proof covers it.
"""
import sys

import client_package  # noqa: F401
from wfserve.picture import NothingToDraw, page_of


def main():
    try:
        source = open(sys.argv[1], encoding="utf-8") if sys.argv[1:] else sys.stdin
        sys.stdout.write(page_of(source))
    except (NothingToDraw, OSError, UnicodeDecodeError) as fault:
        sys.exit(f"timeline: {fault}")


if __name__ == "__main__":
    main()
