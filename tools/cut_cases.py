#!/usr/bin/env python3
"""Says in the files of cases behind which lines a case is cut: all but those behind which a poll finds
other hints.

    tools/cut_cases.py FILE.. < OUTPUT

The files are those of tests/cases/data that have `@ cuts`, and OUTPUT is what `tools/case_rows.py`
printed of them. Where a case differs behind a line, the first reply that does has to be a poll's: a
service that is opened again puts the hints of all tasks that wait into their queues, so a task that
was not dispatched yet is hinted once more by its dispatch, and one poll more is answered `stale`; and
a task whose hint was lost or not yet pushed is found where none was. Any other difference is a fault,
and nothing is written then. Cases that fill a queue have no `@ cuts`, since what it holds differs. To look at all lines again, run this without any output first.
"""
import pathlib
import re
import sys

DIFFERS = re.compile(r"^(?:.*/)?([a-z_]+\.cases): (.*): differs cut behind line (\d+)$")
POLL = re.compile(r'"op": ?"poll_')
NUMBER = re.compile(r'"line":(\d+)')


def differences(output):
    """For each file and case the lines behind which it differs, each with the number of the first reply that does."""
    found = {}
    lines = output.splitlines()
    for place, line in enumerate(lines):
        told = DIFFERS.match(line)
        if not told:
            continue
        numbers = [int(NUMBER.search(text).group(1)) if NUMBER.search(text) else None for text in lines[place + 1:place + 3]]
        found.setdefault((told[1], told[2]), []).append((int(told[3]), numbers))
    return found


def is_poll(case, number):
    """Whether the case's line of this number is a poll."""
    asked = [line for line in case.splitlines() if line == ">" or line.startswith("> ")]
    return number is not None and number <= len(asked) and POLL.search(asked[number - 1]) is not None


def rewritten(name, text, found):
    """The file's text, with the lines behind which its cases are not cut."""
    parts = re.split(r"(?m)^(?=## )", text)
    for place, case in enumerate(parts[1:], 1):
        title = case.split("\n", 1)[0][3:]
        cuts = found.get((name, title), [])
        for line, (wanted, got) in cuts:
            if wanted != got or not is_poll(case, wanted):
                sys.exit(f"cut_cases: {name}: {title}: cut behind line {line}, no poll differs first")
        but = "".join(f" {line}" for line, _ in sorted(cuts))
        parts[place] = re.sub(r"(?m)^@ cuts.*$", "@ cuts" + (" but" + but if but else ""), case, count=1)
    return "".join(parts)


def main():
    found = differences(sys.stdin.read())
    texts = {}
    for word in sys.argv[1:]:
        path = pathlib.Path(word)
        texts[path] = rewritten(path.name, path.read_text(), found)
    for path, text in texts.items():
        path.write_text(text)


if __name__ == "__main__":
    main()
