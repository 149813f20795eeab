"""Names for what goes over a line: requests, replies, events, commands."""

from __future__ import annotations

from typing import Any, Dict

# A JSON object, as a line or an answer has it.
Json = Dict[str, Any]
# What a caller asks, and what it is answered.
Request = Json
Reply = Json
# One event of a history: id, at (milliseconds since 1970), type and attrs.
Event = Json
