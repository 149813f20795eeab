"""A log's lines, given to a program by hand: what replies it gives, and whether all turns were made."""

import json
import pathlib
import subprocess
from typing import List, Sequence, Tuple

import python_client  # noqa: F401 (it says where the next ones lie)
from wfserve.durable import Settings
from wfserve.durable.edge_log import lines_in, read_header


def lines_of(path: str) -> Tuple[Settings, List[bytes]]:
    """The settings of a log that was never compacted, and its lines for the program."""
    header, *lines = lines_in(str(path))
    return read_header(header, str(path))[0], lines


def replies_of(program: str, settings: Settings, lines: Sequence[bytes], load: Sequence[str] = ()) -> List[bytes]:
    """The replies of a program of its own, which is opened from records where these words say so."""
    given = b"".join(line + b"\n" for line in lines)
    words = [str(pathlib.Path(program)), *settings.options(), *load]
    return subprocess.run(words, input=given, stdout=subprocess.PIPE, check=False).stdout.splitlines()


def sweep_of(settings: Settings, lines: Sequence[bytes], moments: Sequence[int] = ()) -> List[bytes]:
    """All turns of all shards, at the last moment of these lines and of those before them."""
    at, every = max([*moments, *(json.loads(line)["at"] for line in lines[-1_000:])]), range(settings.shards)
    turns = [{"op": "transfer_turn", "from": one, "to": other} for one in every for other in every]
    turns += [{"op": op, "shard": shard} for op in ("dispatch_turn", "timer_turn") for shard in every]
    return [json.dumps({**turn, "at": at}).encode() for turn in turns]


def left_undone(turns: Sequence[bytes], replies: Sequence[bytes]) -> List[Tuple[bytes, bytes]]:
    """The turns of a sweep that found something to do, and what."""
    return [(turn, reply) for turn, reply in zip(turns, replies[-len(turns):]) if b'"ok":"none"' not in reply]
