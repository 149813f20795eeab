#!/usr/bin/env python3
"""What lines cost that nobody means well with: deep ones, long numbers, long texts, broken UTF-8,
lines at the limit of a line's length and above it, and empty ones.

Usage: bench/hostile.py

Each kind is sent twice, the second time four times as many lines. All are refused before any shard is
asked, so no line leaves a step: what the program holds more after the second time is memory
that was not given back. Where that is above 256 KiB, it is sent a third time, and the script
ends with status 1 if the program then holds as much more again: what a system gives out at once, as
large pages, doesn't come twice. Times are processor times of the program. `rt run` in crates/wfserve
builds it.
"""
import contextlib
import os
import subprocess
import sys
import threading

import first_path

LIMIT = 1_048_576
SLACK = 256 * 1024
# A line's reply comes within some hundredths of a second, on a machine that is busy too.
REPLIES_SECONDS = 300
# Without a workflow ID it is refused, but only once all of it was read.
HEAD, TAIL = b'{"op":"describe","workflow_id":"","unknown":', b"}"


def filled(size, front, middle, back):
    """A line of so many bytes at most, whose unknown member is the middle, many times."""
    room = size - len(HEAD) - len(TAIL) - len(front) - len(back)
    return HEAD + front + middle * (room // len(middle)) + back + TAIL


def kinds(size):
    """Lines of about so many bytes."""
    half = (size - len(HEAD) - len(TAIL)) // 2
    return [("open brackets", HEAD + b"[" * (2 * half)),
            ("brackets", HEAD + b"[" * half + b"]" * half + TAIL),
            ("a number", filled(size, b"1", b"0", b"")),
            ("a fraction", filled(size, b"0.", b"1", b"")),
            ("a text", filled(size, b'"', b"x", b'"')),
            ("a text of escapes", filled(size, b'"', b"\\u0041", b'"')),
            ("a text that does not end", filled(size, b'"', b"x", b"")),
            ("broken UTF-8 at the end", filled(size, b'"', b"x", b'\xe2\x82"')),
            ("members", filled(size, b'{"a":1', b',"a":1', b"}")),
            ("lists", filled(size, b"[0", b",[],{}", b"]"))]


def cases():
    """Names, lines and how many of them at first."""
    yield "empty", b"", 250_000
    for size, count in ((256, 8_000), (16_384, 256), (LIMIT, 8)):
        for name, line in kinds(size):
            yield f"{name}, {len(line):,} bytes", line, count
    yield f"above the limit, {LIMIT + 1:,} bytes", b"x" * (LIMIT + 1), 8
    yield f"above the limit, {16 * LIMIT:,} bytes", b"x" * (16 * LIMIT), 2


def used(pid):
    """Processor seconds of a running process, in and under the kernel."""
    with open(f"/proc/{pid}/stat") as status:
        words = status.read().rpartition(")")[2].split()
    return (int(words[11]) + int(words[12])) / os.sysconf("SC_CLK_TCK")


def held(pid):
    with open(f"/proc/{pid}/status") as status:
        return next(int(line.split()[1]) * 1024 for line in status if line.startswith("VmRSS:"))


def send(program, line, count):
    """Sends so many lines, and reads their replies."""
    def write():
        # Where the program has ended, its replies end too.
        with contextlib.suppress(BrokenPipeError):
            for _ in range(count):
                program.stdin.write(line + b"\n")
            program.stdin.flush()
    writer = threading.Thread(target=write, daemon=True)
    watch = threading.Timer(REPLIES_SECONDS, program.kill)
    watch.daemon = True
    writer.start()
    watch.start()
    for _ in range(count):
        reply = program.stdout.readline()
        if not reply.startswith(b'{"error":'):
            program.kill()
            sys.exit(f"hostile: a line was not refused, but answered: {reply[:200]!r}")
    writer.join()
    watch.cancel()


def measure(name, line, count):
    """Sends a kind of line at both sizes: how many bytes were not given back."""
    with subprocess.Popen([first_path.PROGRAM], stdin=subprocess.PIPE, stdout=subprocess.PIPE) as program:
        send(program, line, count)
        before, began = held(program.pid), used(program.pid)
        send(program, line, 4 * count)
        kept, took = held(program.pid) - before, used(program.pid) - began
        again = kept
        if kept > SLACK:
            send(program, line, 4 * count)
            again = held(program.pid) - before - kept
        program.stdin.close()
        program.stdout.read()
    each = took / (4 * count)
    print(f"{name}: {5 * count:,} lines, {each * 1e6:,.1f} us a line, {before / 1e6:.1f} MB, "
          f"{kept / 1e3:,.0f} kB more at the end", flush=True)
    return min(kept, again)


def main():
    if not os.access(first_path.PROGRAM, os.X_OK):
        sys.exit(f"hostile: {first_path.PROGRAM} is not built; run `rt run` in its folder")
    print(f"load {os.getloadavg()[0]:.1f}")
    most = max(measure(*case) for case in cases())
    if most > SLACK:
        sys.exit(f"hostile: {most:,} bytes were not given back")


if __name__ == "__main__":
    main()
