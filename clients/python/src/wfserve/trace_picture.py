"""A trace as a picture: a column for each shard, the steps of all down the page in the order of their tickets.

An arrow goes from the step that read a transfer to the one that delivered it, and a light one from there to
the step that acknowledged it. Which these are is read off the requests. No proof covers this.
"""
from __future__ import annotations

import html
import json
import re
from dataclasses import dataclass
from typing import Dict, List, Optional, Tuple

from wfserve.ids import token_of
from wfserve.types import Json, Request

ROW, COLUMN, LEFT, TOP = 22, 270, 90, 46
KEYS = {"pass", "request", "shard", "ticket"}
# As many letters as a column has room for.
LETTERS = 34
# What no XML may have, in whatever spelling.
NOT_IN_XML = re.compile("[^\t\n\r\x20-\ud7ff\ue000-\ufffd\U00010000-\U0010ffff]")


def escaped(text: str) -> str:
    """A text as XML has it. A letter that XML has not is shown as the sign for one that is not known."""
    return html.escape(NOT_IN_XML.sub("\ufffd", text))


def steps_in(said: List[Json]) -> List[Json]:
    """Those among parsed lines that are steps of a trace, in the order of their tickets."""
    return sorted((line for line in said if set(line) == KEYS), key=lambda step: int(step["ticket"]))


@dataclass
class Transfer:
    """The rows of the steps that read, delivered and acknowledged a transfer."""

    read: Optional[int]
    delivered: int
    acknowledged: Optional[int] = None


def transfers_in(steps: List[Json]) -> List[Tuple[Optional[int], int, Optional[int]]]:
    """For each transfer that was delivered, the steps that read, delivered and acknowledged it, by their rows.

    A turn reads a transfer before it delivers it, so the step that read it is the last one of its pass on
    the sending shard. One that a repeated turn delivers again has an arrow for each.
    """
    reading: Dict[Tuple[int, int, int], int] = {}
    delivered: Dict[Tuple[int, int, int, int], Transfer] = {}
    found: List[Transfer] = []
    for row, step in enumerate(steps):
        request = step["request"]
        if request["op"] == "next_transfer":
            reading[step["pass"], step["shard"], request["to"]] = row
        elif request["op"] == "deliver":
            transfer = request["transfer"]
            source = transfer["from"]
            found.append(Transfer(reading.get((step["pass"], source, step["shard"])), row))
            delivered[step["pass"], source, step["shard"], transfer["number"]] = found[-1]
        elif request["op"] == "acknowledge":
            known = delivered.get((step["pass"], step["shard"], request["to"], request["number"]))
            if known is not None:
                known.acknowledged = row
    return [(one.read, one.delivered, one.acknowledged) for one in found]


def run_of(text: str) -> int:
    """The run that a task token names; 0 where it is none."""
    token = token_of(text)
    return 0 if token is None else token.run


def said_of(request: Request) -> str:
    """The workflow, the run or the transfer that a step is about."""
    if "workflow_id" in request:
        return str(request["workflow_id"])
    if "token" in request:
        return f'run {run_of(request["token"])}'
    if "kind" in request:
        return f'{request["kind"]}, run {request["run"]}'
    if "transfer" in request:
        return f'{request["transfer"]["kind"]} {request["transfer"]["number"]}'
    if "number" in request:
        return str(request["number"])
    return f'to shard {request["to"]}' if "to" in request else ""


def place(steps: List[Json], row: int) -> Tuple[int, int]:
    return LEFT + COLUMN * steps[row]["shard"], TOP + row * ROW


def arrow(steps: List[Json], begin: int, end: int, name: str) -> str:
    """An arrow between two steps. Where both are on one shard, it goes round those between them."""
    (x1, y1), (x2, y2) = place(steps, begin), place(steps, end)
    bow = f"Q{x1 - 28} {(y1 + y2) / 2:.0f} " if x1 == x2 else "L"
    return f'<path d="M{x1} {y1} {bow}{x2} {y2}" class="{name}" marker-end="url(#head)"/>'


def arrows(steps: List[Json]) -> str:
    drawn = []
    for read, delivered, acknowledged in transfers_in(steps):
        if read is not None:
            drawn.append(arrow(steps, read, delivered, "arrow"))
        if acknowledged is not None:
            drawn.append(arrow(steps, delivered, acknowledged, "arrow light"))
    return "".join(drawn)


def drawn_step(steps: List[Json], row: int) -> str:
    step = steps[row]
    op = step["request"]["op"]
    x, y = place(steps, row)
    said = escaped(said_of(step["request"])[:LETTERS - len(op)])
    details = escaped(json.dumps(step["request"], ensure_ascii=False))
    return (
        f'<g><title>{details}</title><text x="8" y="{y + 4}" class="note">{step["ticket"]}</text>'
        f'<text x="50" y="{y + 4}" class="note">{step["pass"]}</text><circle cx="{x}" cy="{y}" r="3"/>'
        f'<text x="{x + 10}" y="{y + 4}" class="said">{escaped(op)} <tspan class="note">{said}</tspan></text></g>'
    )


def columns(steps: List[Json], height: int) -> str:
    """A line for each shard, under its number."""
    parts = ['<text x="8" y="20" class="note">step</text><text x="50" y="20" class="note">lane</text>']
    for shard in range(max(step["shard"] for step in steps) + 1):
        x = LEFT + COLUMN * shard
        parts.append(f'<text x="{x}" y="20" class="note">shard {shard}</text>')
        parts.append(f'<line x1="{x}" y1="28" x2="{x}" y2="{height}" class="grid"/>')
    return "".join(parts)


HEAD = (
    '<defs><marker id="head" viewBox="0 0 8 8" refX="8" refY="4" markerWidth="7" markerHeight="7" orient="auto">'
    '<path d="M0 0 L8 4 L0 8 z" fill="#4c6ef5"/></marker></defs>'
)
STYLE = """
.arrow { fill: none; stroke: #4c6ef5; stroke-width: 1.5; }
.light { stroke-opacity: 0.4; }
.said { paint-order: stroke; stroke: Canvas; stroke-width: 4px; }
"""


def picture(steps: List[Json]) -> str:
    """The trace as SVG."""
    height = TOP + len(steps) * ROW
    width = LEFT + COLUMN * (max(step["shard"] for step in steps) + 1)
    rows = "".join(drawn_step(steps, row) for row in range(len(steps)))
    return (
        f'<svg xmlns="http://www.w3.org/2000/svg" width="{width}" height="{height}" '
        f'viewBox="0 0 {width} {height}">{HEAD}{columns(steps, height)}{arrows(steps)}{rows}</svg>'
    )
