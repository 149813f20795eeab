"""The forms of ids: which shard has a workflow ID, what a run's id says, and what a task's token says.

docs/PROFILE.md has these forms. Clients need none of them: to them an id is a text. The server and the tools know
by them where a call belongs.
"""

from __future__ import annotations

import base64
import binascii
import enum
import struct
from dataclasses import dataclass
from typing import Optional, Tuple

# FNV-1a of 32 bits.
HASH_BASIS, HASH_PRIME, HASH_MASK = 0x811C9DC5, 0x01000193, 0xFFFFFFFF
# A token's version, kind, shard, run, scheduling event and attempt.
TOKEN_FORM = ">BBHQQI"
TOKEN_BYTES = struct.calcsize(TOKEN_FORM)
TOKEN_VERSION = 1


class TaskKind(enum.IntEnum):
    """What a token is for."""

    WORKFLOW = 1
    ACTIVITY = 2


@dataclass(frozen=True)
class Token:
    """What a task's token says: the run by its number on its shard, the event that scheduled the task, its attempt."""

    kind: int
    shard: int
    run: int
    event: int
    attempt: int

    def text(self) -> str:
        """The token as a worker is given it."""
        parts = (TOKEN_VERSION, self.kind, self.shard, self.run, self.event, self.attempt)
        return base64.b64encode(struct.pack(TOKEN_FORM, *parts)).decode()


def token_text(kind: int, run: int, event: int, attempt: int, shard: int = 0) -> str:
    """The token of a task."""
    return Token(kind, shard, run, event, attempt).text()


def token_of(text: str) -> Optional[Token]:
    """What a text says as a token; None where it is none."""
    try:
        data = base64.b64decode(text, validate=True)
    except (ValueError, binascii.Error):
        return None
    if len(data) != TOKEN_BYTES:
        return None
    _, kind, shard, run, event, attempt = struct.unpack(TOKEN_FORM, data)
    return Token(kind, shard, run, event, attempt)


def shard_of(workflow_id: str, shards: int) -> int:
    """The shard of a workflow ID, as the service has it: FNV-1a, modulo the number of shards."""
    value = HASH_BASIS
    for byte in workflow_id.encode("utf-8", "surrogatepass"):
        value = (value ^ byte) * HASH_PRIME & HASH_MASK
    return value % shards


def shard_of_token(text: str, shards: int) -> Optional[int]:
    """The shard that a task's token names; None where it is no token of a service with so many shards."""
    token = token_of(text)
    return token.shard if token is not None and token.shard < shards else None


def run_id(service: int, shard: int, number: int) -> str:
    """The id of a run: the number of its service, its shard, and its own number there, as a UUID of version 8."""
    text = f"{(service << 80) | (8 << 76) | (shard << 64) | (2 << 62) | number:032x}"
    return "-".join((text[:8], text[8:12], text[12:16], text[16:20], text[20:]))


def run_of_token(text: str, service: int) -> Optional[str]:
    """The run id that a task's token names; None where it is no token."""
    token = token_of(text)
    return None if token is None else run_id(service, token.shard, token.run)


def numbers_of(run: str) -> Optional[Tuple[int, int]]:
    """The shard of a run id and the run's own number there; None where the text is no run id."""
    try:
        value = int(run.replace("-", ""), 16)
    except ValueError:
        return None
    shard, number = value >> 64 & 0xFFF, value & (1 << 62) - 1
    return (shard, number) if run_id(value >> 80, shard, number) == run else None


def service_of(run: str) -> int:
    """The service's number, which each of its run ids has."""
    return int(run[:8] + run[9:13], 16)
