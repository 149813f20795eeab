"""The program as a co-process: lines go in by one pipe, and their replies come out by another."""

from __future__ import annotations

import json
import os
import re
import subprocess
import threading
from collections import deque
from typing import Deque, Sequence

from wfserve.errors import Ended
from wfserve.types import Reply

# A line that is refused before any step.
NO_CALL = b"{}"
LINES_KEPT = 5
PIPE_BYTES = 1 << 20


# A text has its quotes escaped, so only a key looks so; and no event has such a key.
LINE = re.compile(rb'"line": ?([0-9]+)')


def numbered(text: bytes, expected: int, line: int) -> bytes:
    """A reply's text with its line's number for the caller, in the place of the number that the program expects."""
    begin = b'{"line":%d,' % expected
    if text.startswith(begin):
        return text if line == expected else b'{"line":%d,%s' % (line, text[len(begin):])
    found = LINE.search(text)
    if found is None or int(found[1]) != expected:
        raise Ended(f"the reply to line {line} is to another line: {text[:200]!r}")
    return text if line == expected else b"%s%d%s" % (text[:found.start(1)], line, text[found.end(1):])


def hand_on(line: bytes) -> None:
    """Says a line on standard error, where that is open."""
    try:
        os.write(2, line)
    except OSError:
        pass


class Program:
    """A running program. What it says on standard error is handed on."""

    def __init__(self, command: Sequence[str]):
        self._process = subprocess.Popen(
            command, stdin=subprocess.PIPE, stdout=subprocess.PIPE, stderr=subprocess.PIPE
        )
        process = self._process
        assert process.stdin is not None and process.stdout is not None and process.stderr is not None
        self._input, self._output, self._errors = process.stdin, process.stdout, process.stderr
        self._said: Deque[str] = deque(maxlen=LINES_KEPT)
        # How many replies were read.
        self.replies = 0
        self._listener = threading.Thread(target=self._listen, daemon=True)
        self._listener.start()

    def _listen(self) -> None:
        for line in self._errors:
            self._said.append(line.decode(errors="replace").strip())
            hand_on(line)

    def said(self) -> str:
        """The last of what it said on standard error. It has to have ended."""
        self._listener.join()
        return "; ".join(line for line in self._said if line)

    def write(self, lines: Sequence[bytes]) -> None:
        """Gives it lines. That it has ended shows where its replies are read."""
        try:
            self._input.write(b"".join(line + b"\n" for line in lines))
            self._input.flush()
        except (BrokenPipeError, ValueError):
            pass

    def reply(self, line: int) -> Reply:
        """The next reply, under this number of its line. Ended where there is none."""
        text = self._output.readline()
        if not text.endswith(b"\n"):
            raise self.ended(line)
        self.replies += 1
        reply: Reply = json.loads(numbered(text[:-1], self.replies, line))
        return reply

    def ended(self, line: int) -> Ended:
        """How it ended, which it has to have done; this line was not answered."""
        status = self._process.wait()
        said = self.said()
        return Ended(f"line {line}: the program ended with status {status}" + (f": {said}" if said else ""))

    @property
    def pid(self) -> int:
        """The number of its process."""
        return self._process.pid

    def check_opened(self) -> None:
        """Returns once it has opened and refused what is no call, which makes no step. Ended where it doesn't."""
        self.write([NO_CALL])
        self.reply(0)

    def end_input(self) -> None:
        try:
            self._input.close()
        except BrokenPipeError:
            pass

    def kill(self) -> None:
        """Ends it at once."""
        self._process.kill()
        self.end_input()
        self.wait()

    def wait(self) -> int:
        """Its status, once it has ended. Replies that nobody took are let be: it waits until they are read."""
        while not self._output.closed and self._output.read(PIPE_BYTES):
            pass
        status = self._process.wait()
        self._listener.join()
        self._output.close()
        self._errors.close()
        return status
