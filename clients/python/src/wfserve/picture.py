"""Draws a workflow's history as one page or one picture: events down, time across. `tools/timeline.py` is its command.

Where steps follow the replies, as with --trace, they are drawn in place of a history: the shards side by side,
the steps in the order of their tickets, and transfers as arrows.

Workflow tasks, activities, timers and children are bars from the event that opened them to the one
that ended them: light while they wait, dark while a worker has them. A ring marks an event that was
buffered while a workflow task was started: it stands after events that were made later.
"""
from __future__ import annotations

import json
from typing import Any, Dict, Iterable, List, Optional, Set, Tuple

from wfserve import trace_picture
from wfserve.errors import WfserveError
from wfserve.events import ENDS, OPENINGS
from wfserve.trace_picture import escaped
from wfserve.types import Event, Json

# As many letters as there is room for beside an event's type.
LETTERS = 24
ROW, LEFT, WIDTH, RIGHT, TOP = 22, 290, 700, 40, 46
KINDS = {"task": "#4c6ef5", "activity": "#2b8a3e", "timer": "#e8590c", "child": "#9c36b5"}
SAID = ("name", "activity_id", "timer_id", "marker_name", "workflow_id", "cause", "reason", "retry", "attempt")


class NothingToDraw(WfserveError):
    """The lines are no replies, or hold neither a history nor steps."""


def said_in(lines: Iterable[str]) -> List[Json]:
    """The replies and the steps that the lines have."""
    said = []
    for number, line in enumerate(lines, 1):
        try:
            value = json.loads(line)
        except ValueError:
            value = None
        if not isinstance(value, dict):
            raise NothingToDraw(f"line {number} is no reply")
        said.append(value)
    return said


def last_history(replies: List[Json]) -> Json:
    """The last reply that answers a history."""
    for reply in reversed(replies):
        if reply.get("ok") == "history":
            return reply
    raise NothingToDraw("there is neither a history nor a trace among these replies")


def held_back(events: List[Event]) -> Set[int]:
    """The ids of the events that were made before one that stands in front of them."""
    held: Set[int] = set()
    latest = 0
    for event in events:
        if event["at"] < latest:
            held.add(event["id"])
        latest = max(latest, event["at"])
    return held


class Bar:
    """What an event opened: from its moment to its end, and since when a worker had it."""

    def __init__(self, event: Event, kind: str):
        self.row: int = event["id"] - 1
        self.kind = kind
        self.begin: int = event["at"]
        self.taken: Optional[int] = event["at"] if kind in ("timer", "child") else None
        self.end: Optional[int] = None
        self.attempt: int = event["attrs"].get("attempt", 1)

    def take(self, at: int, attempt: Optional[int]) -> None:
        """A worker took it at this moment, for its attempt of this number."""
        self.taken = at
        self.attempt = attempt or self.attempt

    def dark_from(self) -> Optional[int]:
        """The moment from which on it is drawn dark, if any: a worker has none of a timer or a child that is pending."""
        return None if self.kind in ("timer", "child") and self.end is None else self.taken


def bars_of(events: List[Event]) -> Dict[int, Bar]:
    """The bars of a history, by the ids of the events that opened them."""
    bars: Dict[Any, Bar] = {}
    for event in events:
        kind, attrs = event["type"], event["attrs"]
        if kind in OPENINGS:
            bars[event["id"]] = Bar(event, OPENINGS[kind].kind)
        opener = bars.get(attrs.get("scheduled"))
        if kind == "WorkflowTaskStarted" and opener:
            opener.take(event["at"], None)
        if kind == "ActivityTaskStarted" and opener:
            opener.take(attrs["taken"], attrs["attempt"])
        ended = bars.get(attrs.get(ENDS.get(kind, "")))
        if ended:
            ended.end = event["at"]
    return bars


class Scale:
    """Moments as places across the page: up to the last event, or to now where the run is open."""

    def __init__(self, events: List[Event], now: Optional[int] = None):
        moments = [event["at"] for event in events] + ([] if now is None else [now])
        self.first, self.last = min(moments), max(moments)

    def x(self, moment: int) -> float:
        """The place of a moment, in pixels from the left."""
        span = max(self.last - self.first, 1)
        return float(LEFT + WIDTH * (moment - self.first) / span)


def rectangle(x: float, y: float, width: float, color: str, opacity: float) -> str:
    """A bar of at least two pixels, as SVG."""
    return (
        f'<rect x="{x:.1f}" y="{y}" width="{max(width, 2):.1f}" height="10" rx="2" '
        f'fill="{color}" fill-opacity="{opacity}"/>'
    )


def drawn_bar(bar: Bar, scale: Scale) -> str:
    """A bar: light up to its taking, dark from there on. One without an end goes on to the right."""
    y, color = TOP + bar.row * ROW - 5, KINDS[bar.kind]
    end = scale.last if bar.end is None else bar.end
    dark = bar.dark_from()
    begin, middle, stop = scale.x(bar.begin), scale.x(end if dark is None else dark), scale.x(end)
    parts = [rectangle(begin, y, middle - begin, color, 0.25)]
    if dark is not None:
        parts.append(rectangle(middle, y, stop - middle, color, 0.45 if bar.end is None else 0.85))
    if bar.attempt > 1:
        parts.append(f'<text x="{stop + 8:.1f}" y="{y + 9}" class="note">attempt {bar.attempt}</text>')
    return "".join(parts)


def label(event: Event) -> Tuple[str, str]:
    """What stands beside an event: its id, its type and the first field that says more."""
    said = next((event["attrs"][key] for key in SAID if key in event["attrs"]), "")
    text = f'{event["id"]}  {event["type"]}'
    return escaped(text), escaped(str(said)[:LETTERS])


def drawn_event(event: Event, scale: Scale, held: Set[int]) -> str:
    """An event's row, as SVG: its name, what it says and its place. One of `held` has a ring: it was buffered."""
    y = TOP + (event["id"] - 1) * ROW
    name, said = label(event)
    ring = f'<circle cx="{scale.x(event["at"]):.1f}" cy="{y}" r="7" class="ring"/>' if event["id"] in held else ""
    details = escaped(json.dumps(event["attrs"], ensure_ascii=False))
    return (
        f'<g><title>at {event["at"]}: {details}</title>'
        f'<text x="8" y="{y + 4}">{name} <tspan class="note">{said}</tspan></text>'
        f'<circle cx="{scale.x(event["at"]):.1f}" cy="{y}" r="3"/>{ring}</g>'
    )


def axis(scale: Scale, height: int) -> str:
    """Five moments across the top, with a line down from each."""
    parts: List[str] = []
    shown: Set[int] = set()
    for step in range(5):
        moment = scale.first + (scale.last - scale.first) * step // 4
        if moment in shown:
            continue
        shown.add(moment)
        x = scale.x(moment)
        parts.append(f'<line x1="{x:.1f}" y1="28" x2="{x:.1f}" y2="{height}" class="grid"/>')
        parts.append(f'<text x="{x:.1f}" y="20" text-anchor="middle" class="note">{moment} ms</text>')
    return "".join(parts)


STYLE = """
:root { color-scheme: light dark; }
body { font: 14px system-ui, sans-serif; margin: 2em; }
svg { font: 12px ui-monospace, monospace; fill: currentColor; }
.note { opacity: 0.65; }
.grid { stroke: currentColor; stroke-opacity: 0.15; }
.ring { fill: none; stroke: #e03131; stroke-width: 2; }
"""


def picture(events: List[Event], style: str = "", now: Optional[int] = None) -> str:
    """The history as SVG. As a file of its own it has its style within. What is pending goes on until now."""
    scale, held = Scale(events, now), held_back(events)
    height = TOP + len(events) * ROW
    width = LEFT + WIDTH + RIGHT + 60
    bars = "".join(drawn_bar(bar, scale) for bar in bars_of(events).values())
    rows = "".join(drawn_event(event, scale, held) for event in events)
    return (
        f'<svg xmlns="http://www.w3.org/2000/svg" width="{width}" height="{height}" '
        f'viewBox="0 0 {width} {height}">{style}{axis(scale, height)}{bars}{rows}</svg>'
    )


def since_the_first(events: List[Event]) -> List[Event]:
    """The events with moments that count from the first one, as those of a wall's clock are long."""
    first = min(event["at"] for event in events)
    counted = []
    for event in events:
        attrs = dict(event["attrs"])
        if "taken" in attrs:
            attrs["taken"] -= first
        counted.append({**event, "at": event["at"] - first, "attrs": attrs})
    return counted


def picture_file(events: List[Event], now: Optional[int] = None) -> str:
    """The history as an SVG file, for a page that shows it as an image. Its moments count from the start.

    Of a run that is open `now` says up to when what is pending goes on.
    """
    first = min(event["at"] for event in events)
    events, now = since_the_first(events), None if now is None else max(now - first, 0)
    dark = "@media (prefers-color-scheme: dark) { svg { color: #e9ecef; } }"
    return picture(events, f"<style>{STYLE}{dark}</style>", now)


def page(history: Json) -> str:
    """A page of HTML that shows a history, given as the reply to `history`."""
    legend = "".join(f'<span style="color:{color}">&#9632;</span> {kind} ' for kind, color in KINDS.items())
    title = escaped(history["run"])
    return (
        f"<!doctype html><html lang=en><meta charset=utf-8><title>{title}</title><style>{STYLE}</style>"
        f"<h1>Run {title}</h1><p>{legend} &mdash; light: waits, dark: a worker has it, "
        f'<span style="color:#e03131">&#9711;</span> was buffered</p>{picture(history["events"])}</html>\n'
    )


def trace_page(steps: List[Json]) -> str:
    """The page of a trace."""
    return (
        f"<!doctype html><html lang=en><meta charset=utf-8><title>All steps</title>"
        f"<style>{STYLE}{trace_picture.STYLE}</style><h1>All steps of all shards</h1>"
        f"<p>From the first one down. An arrow: a transfer is delivered; a light one: it is acknowledged.</p>"
        f"{trace_picture.picture(steps)}</html>\n"
    )


def page_of(lines: Iterable[str]) -> str:
    """The page of the trace among these lines, or else of the last history."""
    said = said_in(lines)
    steps = trace_picture.steps_in(said)
    return trace_page(steps) if steps else page(last_history(said))
