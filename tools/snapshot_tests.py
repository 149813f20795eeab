#!/usr/bin/env python3
"""The built program with snapshots: what it goes on with, chains of them, damage, other settings, a full disk, kills.

    tools/snapshot_tests.py PROGRAM [--cuts N] [--cases N] [--changes N] [--seed S]

PROGRAM is the built `wfserve`, as `rt ci` leaves it in crates/wfserve/out. Drawn lines are cut at N places (40), some
places to a script. What comes after a place is answered by a program that goes on from snapshots, and by one that goes
on from a journal with all lines so far: both have to print the same bytes. So it is with the cases in tests/cases/data
at N drawn places (300). Of a snapshot each line is dropped, doubled and swapped, and N bytes are changed (150). The
seed is printed; with the same one the same lines are drawn. The status is 1 where a test fails, and the folder of all
drawn lines and snapshots is kept then and named.
"""
from __future__ import annotations

import argparse
import collections
import functools
import itertools
import json
import pathlib
import random
import resource
import shutil
import signal as signals
import subprocess
import sys
import tempfile
import threading
import time
import unittest
from collections.abc import Iterable
from dataclasses import dataclass, field
from typing import Any

import snapshot_lines
from journal_program import RESTORED, SECONDS, Line, Tested, start, text
from snapshot_lines import QUEUES, SHARDS, Case, Drawn, all_cases, reads
from wfserve.checkpoint import measured, read_checkpoint
from wfserve.compacting import compact
from wfserve.journal import Journal

# Lines between two places at which a script is cut, at most.
MOST_LINES = 140
# So many lines are handed in before their replies are read, since later ones are drawn from these.
AHEAD = 6
MOST_CUTS = 4
# A service is served by one lane, or by so many, between which barriers are drawn.
LANES = (1, 3)
KILLS = 20
# What every large number of drawn snapshots has.
PIECES = {"head", "counted", "gone", "event", "request_id", "note", "dispatch", "transfer", "end"}
NOTES = {"taken", "ended", "ready", "beat"}
ENOUGH_CUTS, ENOUGH_CASES, ENOUGH_KINDS = 30, 200, 40
OTHER_SETTINGS = "the snapshot is of other settings: --service, --shards or --retention"
NOT_OF_ONE_MOMENT = (
    "the snapshots are not of one moment: transfers were accepted that were not issued, or acknowledged that were not accepted")
BEHIND_SNAPSHOTS = "--save writes records from the first step on, which snapshots don't have: use --snapshot"
cuts = 40
cases = 300
changes = 150
seed = random.randrange(1_000_000)


@dataclass(frozen=True)
class Ran:
    """What a program printed, and how it ended."""

    printed: bytes
    status: int
    said: str


@dataclass
class Part:
    """The lines between two places of a script, and what was made of them."""

    lines: bytes
    by_journal: Ran
    by_snapshots: Ran | None = None
    # Of the snapshots after these lines: what another program writes that loads them, and one that loads the records.
    texts: list[bytes] = field(default_factory=list)
    again: list[bytes] = field(default_factory=list)
    from_records: list[bytes] = field(default_factory=list)


@dataclass
class Service:
    """A drawn service, cut into parts."""

    words: list[str]
    parts: list[Part]


def ran(lines: bytes, *words: str | pathlib.Path, **settings: Any) -> Ran:
    """What the program does that is given these lines, and then the end of its input."""
    done = subprocess.run([str(Tested.program), *map(str, words)], input=lines, capture_output=True, timeout=SECONDS,
                          **settings)
    return Ran(done.stdout, done.returncode, RESTORED.sub("", done.stderr.decode()))


def names(ending: str, shards: int = SHARDS) -> list[str]:
    return [f"shard-{shard:02}.{ending}" for shard in range(shards)]


def texts_in(folder: pathlib.Path) -> list[bytes]:
    """What the files of a folder have, in the order of their names."""
    return [path.read_bytes() for path in sorted(folder.iterdir())]


def put_in(folder: pathlib.Path, texts: Iterable[bytes], ending: str = "snap") -> pathlib.Path:
    """Makes a folder with a file for each shard."""
    folder.mkdir()
    for shard, one in enumerate(texts):
        (folder / f"shard-{shard:02}.{ending}").write_bytes(one)
    return folder


def alone(words: list[str]) -> list[str]:
    """The settings with one pass, by which no text of a snapshot changes.

    Records put the hints of all tasks that wait into the queues, which a low capacity refuses."""
    other = {"--passes": "1", "--capacity": "1024"}
    return [other.get(name, word) for name, word in zip(["", *words], words)]


class Fed:
    """A program that is fed lines as they are drawn, each before a barrier where there are several lanes."""

    def __init__(self, lanes: int, words: Iterable[str | pathlib.Path]):
        self.lines, self.printed, self._barriers = b"", b"", lanes > 1
        self._program = subprocess.Popen([str(Tested.program), *map(str, words)], stdin=subprocess.PIPE,
                                         stdout=subprocess.PIPE, stderr=subprocess.PIPE, bufsize=0)
        self._late = threading.Timer(SECONDS, self._program.kill)
        self._late.start()

    def ask(self, lines: list[Line]) -> list[Line]:
        """The replies to some lines."""
        assert self._program.stdin and self._program.stdout
        asked = [[line, {"barrier": True}] if self._barriers else [line] for line in lines]
        written = text([line for group in asked for line in group]).encode()
        self._program.stdin.write(written)
        self.lines += written
        read = b""
        while read.count(b"\n") < len(lines):
            more = self._program.stdout.read(65_536)
            if not more:
                break
            read += more
        self.printed += read
        return [json.loads(line) for line in read.splitlines()]

    def end(self) -> Ran:
        """Ends its input."""
        more, said = self._program.communicate()
        self._late.cancel()
        return Ran(self.printed + more, self._program.returncode, RESTORED.sub("", said.decode()))


def part_drawn(drawn: Drawn, lanes: int, words: list[str], journal: pathlib.Path) -> Part:
    """Lines that are drawn while a program with a journal answers them, and then all reads."""
    fed, count = Fed(lanes, [*words, "--journal", journal]), drawn.random.randrange(10, MOST_LINES)
    for _ in range(0, count, AHEAD):
        for reply in fed.ask([drawn.line() for _ in range(AHEAD)]):
            drawn.learn(reply)
    for reply in fed.ask(reads(drawn.at)):
        drawn.learn(reply)
    ended = fed.end()
    return Part(fed.lines, ended)


def go_on(part: Part, words: list[str], folder: pathlib.Path, before: pathlib.Path | None) -> None:
    """Has a program go on from snapshots, or begin, with a part's lines, and others from what it leaves in `snap`."""
    snap, again, replayed = folder / "snap", folder / "again", folder / "replayed"
    records = put_in(folder / "rec", [], "rec")
    with Journal(str(folder.parent / "journal" / "journal")) as journal:
        for name, lines in zip(names("rec"), journal.records()):
            (records / name).write_bytes(b"".join(lines))
    for made in (snap, again, replayed):
        made.mkdir()
    opened = [] if before is None else ["--load", before]
    part.by_snapshots = ran(part.lines, *words, *opened, "--snapshot", snap)
    part.texts = texts_in(snap)
    for source, made in ((snap, again), (records, replayed)):
        ran(b"", *alone(words), "--load", source, "--snapshot", made)
    part.again, part.from_records = texts_in(again), texts_in(replayed)


def service_drawn(own: int, count: int, folder: pathlib.Path) -> Service:
    """A service that is drawn by this seed, with so many cuts."""
    draws = random.Random(own)
    lanes = draws.choice(LANES)
    words = ["--shards", str(SHARDS), "--queues", ",".join(QUEUES), "--retention", draws.choice(["0", "1200"]),
             "--passes", str(lanes), "--capacity", draws.choice(["3", "1024"])]
    drawn, parts = Drawn(own, lanes), []
    journal = folder / "journal"
    journal.mkdir()
    before = None
    for number in range(count + 1):
        part = part_drawn(drawn, lanes, words, journal)
        made = folder / f"part-{number}"
        made.mkdir()
        (made / "lines").write_bytes(part.lines)
        go_on(part, words, made, before)
        before = made / "snap"
        parts.append(part)
    return Service(words, parts)


@functools.cache
def kept() -> pathlib.Path:
    """The folder of all that is drawn, which is removed unless a test fails."""
    return pathlib.Path(tempfile.mkdtemp(prefix="snapshot_tests-"))


@functools.cache
def services() -> list[Service]:
    """Drawn services with so many cuts together as are asked for."""
    draws, found, left = random.Random(seed), [], cuts
    while left > 0:
        count = min(left, draws.randrange(1, MOST_CUTS + 1))
        folder = kept() / f"service-{len(found)}"
        folder.mkdir()
        found.append(service_drawn(draws.randrange(1 << 30), count, folder))
        left -= count
    return found


@dataclass(frozen=True)
class CutCase:
    """A case that was cut after a line: what was printed before and then, and the snapshots of both moments."""

    case: Case
    place: int
    by_journal: list[Ran]
    by_snapshots: list[Ran]
    texts: list[bytes]
    again: list[bytes]


def case_cut(case: Case, place: int, folder: pathlib.Path) -> CutCase:
    """A case that is cut after this line."""
    journal, snap, then, again = (folder / name for name in ("journal", "snap", "then", "again"))
    for made in (journal, snap, then, again):
        made.mkdir()
    parts = [b"".join(case.lines[:place]), b"".join(case.lines[place:])]
    by_journal = [ran(part, *case.words, "--journal", journal) for part in parts]
    by_snapshots = [ran(parts[0], *case.words, "--snapshot", snap),
                    ran(parts[1], *case.words, "--load", snap, "--snapshot", then)]
    ran(b"", *case.words, "--load", snap, "--snapshot", again)
    texts = texts_in(snap)
    return CutCase(case, place, by_journal, by_snapshots, texts, texts_in(again))


@functools.cache
def cut_cases() -> list[CutCase]:
    """So many drawn places of cases as are asked for."""
    places = [(case, place) for case in all_cases() for place in range(1, len(case.lines))]
    found = []
    for case, place in random.Random(seed).sample(places, min(cases, len(places))):
        with tempfile.TemporaryDirectory() as folder:
            found.append(case_cut(case, place, pathlib.Path(folder)))
    return found


def piece_of(line: bytes) -> tuple[str, str]:
    """Which kind of line of a snapshot one is, and of an event or a note which."""
    said = json.loads(line)
    if "attrs" in said:
        return "event", said["type"]
    (name,) = set(said) & PIECES
    return name, said["note"]["kind"] if name == "note" else ""


def kinds_in(snapshots: Iterable[bytes]) -> collections.Counter[tuple[str, str]]:
    """How many lines of each kind some snapshots have."""
    return collections.Counter(piece_of(line) for one in snapshots for line in one.splitlines())


class GoneOn(unittest.TestCase):
    """What comes after snapshots is answered as after a journal that has all lines."""

    def each_part(self) -> Iterable[tuple[str, Part]]:
        for number, service in enumerate(services()):
            for place, part in enumerate(service.parts):
                yield f"seed {seed}: {kept()}/service-{number}/part-{place}, {' '.join(service.words)}", part

    def test_replies_are_those_of_a_journal(self) -> None:
        for where, part in self.each_part():
            with self.subTest(where):
                self.assertIn(part.by_journal.status, (0, 1), part.by_journal.said)
                self.assertEqual(part.by_snapshots, part.by_journal)

    def test_a_snapshot_that_is_loaded_is_written_again(self) -> None:
        for where, part in self.each_part():
            with self.subTest(where):
                self.assertEqual(len(part.texts), SHARDS)
                self.assertEqual(part.again, part.texts)

    def test_snapshots_are_those_of_the_whole_record(self) -> None:
        """Chains of snapshots leave what one does that is made of all steps."""
        for where, part in self.each_part():
            with self.subTest(where):
                self.assertEqual(part.from_records, part.texts)

    def test_every_state_is_drawn(self) -> None:
        texts = [one for service in services() for part in service.parts for one in part.texts]
        found = kinds_in([*texts, *(one for cut in cut_cases() for one in cut.texts)])
        print(f"snapshot_tests: {found.total()} lines of snapshots, of {len(found)} kinds", flush=True)
        if cuts >= ENOUGH_CUTS and cases >= ENOUGH_CASES:
            self.assertEqual(PIECES - {piece for piece, _ in found}, set(), f"seed {seed}")
            self.assertEqual(NOTES - {kind for piece, kind in found if piece == "note"}, set(), f"seed {seed}")
            self.assertGreaterEqual(len(found), ENOUGH_KINDS, f"seed {seed}")


class CutCases(unittest.TestCase):
    """The cases go on from snapshots as from a journal, and their first lines print the same beside both."""

    def test_cases_go_on(self) -> None:
        for cut in cut_cases():
            with self.subTest(f"{cut.case.title}, cut after line {cut.place}, seed {seed}"):
                self.assertEqual(cut.by_snapshots, cut.by_journal)
                self.assertEqual(cut.again, cut.texts)


class Folder(unittest.TestCase):
    """A test with a folder of its own."""

    def setUp(self) -> None:
        folder = tempfile.TemporaryDirectory()
        self.addCleanup(folder.cleanup)
        self.folder = pathlib.Path(folder.name)

    def made(self, name: str) -> pathlib.Path:
        folder = self.folder / name
        folder.mkdir()
        return folder

    def refused(self, fault: str, *words: str | pathlib.Path) -> None:
        """The program serves nothing, ends with status 2 and this fault, and leaves all files as they were."""
        before = {path: path.read_bytes() for path in self.folder.rglob("*") if path.is_file()}
        done = ran(text([start("late")]).encode(), *words)
        self.assertEqual((done.printed, done.status, done.said), (b"", 2, f"wfserve: {fault}\n"))
        after = {path: path.read_bytes() for path in self.folder.rglob("*") if path.is_file()}
        self.assertEqual(after, before)


@functools.cache
def damaged_service() -> tuple[list[str], list[bytes], int]:
    """The settings and snapshots of a drawn service, and the shard whose snapshot has most kinds of lines in fewest."""
    def worth(found: tuple[list[str], list[bytes], int]) -> tuple[int, int]:
        lines = found[1][found[2]]
        return len({piece for piece, _ in kinds_in([lines])}), -len(lines)
    return max(((alone(service.words), part.texts, shard) for service in services() for part in service.parts
                for shard in range(SHARDS)), key=worth)


class Damaged(Folder):
    """A text that is no snapshot is refused by its line, and one that is another one's is opened."""

    def setUp(self) -> None:
        super().setUp()
        self.words, texts, shard = damaged_service()
        self.loaded = put_in(self.folder / "loaded", texts)
        self.path, self.whole = self.loaded / names("snap")[shard], texts[shard]
        self.draws = random.Random(seed)

    def status_of(self, damage: str, changed: bytes) -> int:
        """How the program ends that is to open this text. A refusal names a line, and leaves all files."""
        self.path.write_bytes(changed)
        out = self.folder / "out"
        if not out.exists():
            out.mkdir()
        with self.subTest(damage, seed=seed, shard=self.path.name):
            done = ran(text([{"op": "describe", "workflow_id": "w0"}]).encode(), *self.words, "--load", self.loaded,
                       "--snapshot", out)
            self.assertIn(done.status, (0, 1, 2), done.said)
            if done.status != 2:
                self.assert_written(out)
                return done.status
            self.assertEqual(done.printed, b"")
            lines = changed.count(b"\n") + 1
            if done.said != f"wfserve: {self.loaded}: {NOT_OF_ONE_MOMENT}\n":
                self.assertRegex(done.said, rf"^wfserve: {self.path}: (line \d+: |it names a task queue that --queues)")
            if "line " in done.said:
                self.assertIn(int(done.said.split(": line ")[1].split(":")[0]), range(1, lines + 1))
            self.assertEqual(list(out.iterdir()), [])
            self.assertEqual(self.path.read_bytes(), changed)
            return 2
        return -1

    def assert_written(self, out: pathlib.Path) -> None:
        """What was opened is written as a snapshot that is opened and written again."""
        again = self.folder / "again"
        again.mkdir()
        done = ran(b"", *self.words, "--load", out, "--snapshot", again)
        self.assertEqual((done.status, texts_in(again)), (0, texts_in(out)), done.said)
        for folder in (out, again):
            shutil.rmtree(folder)

    def assert_refused(self, texts: Iterable[tuple[str, bytes]]) -> None:
        for damage, one in texts:
            self.assertEqual(self.status_of(damage, one), 2, f"{damage}, seed {seed}")

    def assert_refused_or_opened(self, title: str, texts: Iterable[tuple[str, bytes]]) -> None:
        found = collections.Counter(self.status_of(damage, one) == 2 for damage, one in texts)
        print(f"snapshot_tests: {title}: {found[True]} of {found.total()} are refused", flush=True)
        self.assertGreater(found[True], 0)

    def test_a_line_that_is_left_out_or_doubled_is_refused(self) -> None:
        self.assert_refused(snapshot_lines.without_lines(self.whole))

    def test_a_text_that_is_cut_is_refused(self) -> None:
        self.assert_refused(snapshot_lines.cut(self.whole, self.draws, changes // 3))

    def test_a_text_that_goes_on_is_refused(self) -> None:
        self.assert_refused(snapshot_lines.longer(self.whole))

    def test_lines_that_are_swapped(self) -> None:
        self.assert_refused_or_opened("lines swapped", snapshot_lines.swapped(self.whole))

    def test_bytes_that_are_changed(self) -> None:
        self.assert_refused_or_opened("bytes changed", snapshot_lines.changed(self.whole, self.draws, changes))


class Refused(Folder):
    """What doesn't go together is refused, and all files are left."""

    WORDS = ("--shards", "2", "--queues", "main,other", "--retention", "1000")

    def setUp(self) -> None:
        super().setUp()
        self.loaded, self.records, self.out = self.made("loaded"), self.made("records"), self.made("out")
        lines = text([start("a"), start("b"), {**start("c"), "task_queue": "other"}]).encode()
        done = ran(lines, *self.WORDS, "--snapshot", self.loaded, "--save", self.records)
        self.assertEqual((done.status, done.said), (0, ""))
        self.assertEqual([path.name for path in sorted(self.loaded.iterdir())], names("snap", 2))
        self.assertEqual([path.name for path in sorted(self.records.iterdir())], names("rec", 2))

    def test_options_that_do_not_go_together(self) -> None:
        journal = self.made("journal")
        opened = [*self.WORDS, "--load", self.loaded]
        self.refused(BEHIND_SNAPSHOTS, *opened, "--save", self.out)
        self.refused(BEHIND_SNAPSHOTS, *opened, "--save", self.out, "--snapshot", self.out)
        self.refused("--trace prints a history from its first step on, so it takes no --load",
                     *opened, "--trace")
        self.refused("--journal keeps all records in its folder, so it takes no --snapshot",
                     *self.WORDS, "--journal", journal, "--snapshot", self.out)
        self.assertEqual([*journal.iterdir(), *self.out.iterdir()], [])

    def test_other_settings(self) -> None:
        fault = f"{self.loaded}/shard-00.snap: line 1: {OTHER_SETTINGS}"
        for place, value in ((1, "3"), (5, "1001")):
            with self.subTest(self.WORDS[place - 1]):
                words = [*self.WORDS[:place], value, *self.WORDS[place + 1:]]
                self.refused(fault, *words, "--load", self.loaded, "--snapshot", self.out)
        self.refused(fault, *self.WORDS, "--service", "2", "--load", self.loaded, "--snapshot", self.out)

    def test_a_queue_and_a_shard_that_are_left_out(self) -> None:
        for queues in ("main", "other,third"):
            words = [*self.WORDS[:3], queues, *self.WORDS[4:]]
            done = ran(b"", *words, "--load", self.loaded)
            self.assertRegex(done.said, r"shard-0\d\.snap: it names a task queue that --queues leaves out\n$")
            self.refused(done.said.removeprefix("wfserve: ").rstrip("\n"), *words, "--load", self.loaded)
        self.refused(f"{self.loaded}/shard-01.snap: --shards leaves this snapshot out", "--load", self.loaded)

    def test_a_task_that_waits_in_a_queue_that_is_left_out(self) -> None:
        turns = [{"op": "dispatch_turn", "shard": shard} for shard in range(2)]
        waits = self.made("waits")
        ran(text([start("a"), *turns]).encode(), *self.WORDS, "--snapshot", waits)
        (path,) = [path for path in waits.iterdir() if b"WorkflowTaskScheduled" in path.read_bytes()]
        changed = path.read_bytes().replace(b'"task_queue":"main"},"id":2', b'"task_queue":"none"},"id":2')
        self.assertNotEqual(changed, path.read_bytes())
        path.write_bytes(changed)
        self.refused(f"{path}: it names a task queue that --queues leaves out", *self.WORDS, "--load", waits)

    def test_what_else_lies_in_the_folder(self) -> None:
        record = self.loaded / "shard-00.rec"
        record.write_bytes((self.records / "shard-00.rec").read_bytes())
        self.refused(f"{record}: a record beside snapshots: which of them is to be loaded?",
                     *self.WORDS, "--load", self.loaded)
        record.unlink()
        (self.loaded / "shard-01.snap").unlink()
        self.refused(f"{self.loaded}/shard-01.snap: No such file or directory (os error 2)",
                     *self.WORDS, "--load", self.loaded)

    def test_a_snapshot_of_another_shard(self) -> None:
        first, second = (self.loaded / name for name in names("snap", 2))
        second.write_bytes(first.read_bytes())
        self.refused(f"{second}: line 1: {OTHER_SETTINGS}", *self.WORDS, "--load", self.loaded)

    def test_a_folder_that_is_not_there(self) -> None:
        self.refused(f"{self.folder}/none: No such file or directory (os error 2)", "--snapshot", self.folder / "none")
        file = self.folder / "file"
        file.write_bytes(b"")
        done = ran(b"", "--snapshot", file)
        self.assertEqual((done.status, done.said), (2, f"wfserve: {file}: not a directory\n"))

    def test_more_queues_and_another_capacity_are_taken(self) -> None:
        words = [*self.WORDS[:3], "third,other,main", *self.WORDS[4:], "--capacity", "1"]
        done = ran(b"", *words, "--load", self.loaded, "--snapshot", self.out)
        self.assertEqual((done.status, done.said, texts_in(self.out)), (0, "", texts_in(self.loaded)))


class OfSeveralMoments(Folder):
    """Snapshots of several moments are refused where a transfer moved between these that shows it, else they are opened."""

    WORDS = ("--shards", "2")
    CHILD = {"type": "StartChildWorkflowExecution", "workflow_id": "b", "task_queue": "main", "workflow_type": "w"}
    TURN = {"op": "transfer_turn", "from": 0, "to": 1}
    # What comes before each moment: then the start of a child on the other shard isn't issued, is issued, is accepted
    # there, and is acknowledged.
    PARTS: tuple[list[Line], ...] = (
        [start("a"), {"op": "dispatch_turn", "shard": 0}, {"op": "poll_workflow_task", "task_queue": "main"}],
        [{"op": "complete_workflow_task", "token": "AQEAAAAAAAAAAAABAAAAAAAAAAIAAAAB", "commands": [CHILD]}],
        [{**TURN, "stop": 2}],
        [TURN],
    )

    def setUp(self) -> None:
        super().setUp()
        self.texts: list[list[bytes]] = []
        loaded: list[str | pathlib.Path] = []
        for moment, lines in enumerate(self.PARTS):
            out = self.made(f"moment-{moment}")
            done = ran(text(lines).encode(), *self.WORDS, *loaded, "--snapshot", out)
            self.assertEqual((done.status, done.said), (0, ""), done.printed)
            self.texts.append(texts_in(out))
            loaded = ["--load", out]

    def test_what_the_counts_of_transfers_show_is_refused(self) -> None:
        for first, second in itertools.product(range(len(self.PARTS)), repeat=2):
            issued, accepted, acknowledged = first > 0, second > 1, first > 2
            mixed = put_in(self.folder / f"mixed-{first}-{second}", [self.texts[first][0], self.texts[second][1]])
            words = [*self.WORDS, "--load", mixed]
            with self.subTest(first=first, second=second):
                if not acknowledged <= accepted <= issued:
                    self.refused(f"{mixed}: {NOT_OF_ONE_MOMENT}", *words)
                    continue
                waits = issued and not acknowledged
                done = ran(text([self.TURN]).encode(), *words)
                answer = json.loads(done.printed)["ok"]
                self.assertEqual((done.status, answer), (0, ("already" if accepted else "accepted") if waits else "none"))

    def test_so_are_those_of_a_checkpoint(self) -> None:
        journal = self.made("journal")
        words = [*self.WORDS, "--journal", journal]
        self.assertEqual([ran(text(lines).encode(), *words).status for lines in self.PARTS], [0] * len(self.PARTS))
        compact(str(journal), [str(Tested.program)])
        checkpoint = read_checkpoint(str(journal))
        assert checkpoint
        self.assertEqual(ran(b"", *words).status, 0)
        snapshots = checkpoint.paths(str(journal))
        pathlib.Path(snapshots[0]).write_bytes(self.texts[0][0])
        (journal / "checkpoint").write_bytes(checkpoint.with_snapshots(map(measured, snapshots)).data())
        self.refused(f"{journal}/checkpoint: {NOT_OF_ONE_MOMENT}", *words)


class Written(Folder):
    """Snapshots take their names once all are written, and only where the script had no fault."""

    def written(self, most: int | None = None) -> Ran:
        """What the program does that goes on from a folder's snapshots, and writes them there with a start more."""
        def limit() -> None:
            if most is not None:
                signals.signal(signals.SIGXFSZ, signals.SIG_IGN)
                resource.setrlimit(resource.RLIMIT_FSIZE, (most, most))
        return ran(text([start("b")]).encode(), "--load", self.folder, "--snapshot", self.folder, preexec_fn=limit)

    def test_older_snapshots_stay_on_a_full_disk(self) -> None:
        ran(text([start("a")]).encode(), "--snapshot", self.folder)
        file, draws = self.folder / "shard-00.snap", random.Random(seed)
        older, whole = file.read_bytes(), self.written().printed
        newer = file.read_bytes()
        for most in sorted({0, len(newer) - 1, *(draws.randrange(len(newer)) for _ in range(12))}):
            with self.subTest(bytes=most, seed=seed):
                file.write_bytes(older)
                done = self.written(most)
                self.assertEqual((done.status, done.printed), (2, whole), done.said)
                self.assertIn("File too large", done.said)
                self.assertEqual(file.read_bytes(), older)
        self.assertEqual(self.written(len(newer)).status, 0)
        self.assertEqual(file.read_bytes(), newer)

    def test_a_kill_leaves_the_older_snapshot_or_the_newer_one(self) -> None:
        ran(text([start("a")]).encode(), "--snapshot", self.folder)
        file, draws = self.folder / "shard-00.snap", random.Random(seed)
        older, began = file.read_bytes(), time.monotonic()
        self.written()
        spent, newer = time.monotonic() - began, file.read_bytes()
        for kill in range(KILLS):
            file.write_bytes(older)
            words = [str(Tested.program), "--load", str(self.folder), "--snapshot", str(self.folder)]
            with subprocess.Popen(words, stdin=subprocess.PIPE, stdout=subprocess.DEVNULL) as program:
                assert program.stdin
                program.stdin.write(text([start("b")]).encode())
                program.stdin.close()
                time.sleep(draws.uniform(0, 1.2 * spent))
                program.kill()
            with self.subTest(kill=kill, seed=seed):
                self.assertIn(file.read_bytes(), (older, newer))
        file.write_bytes(older)
        self.assertEqual((self.written().status, file.read_bytes()), (0, newer))

    def test_a_script_that_ends_in_a_fault_writes_nothing(self) -> None:
        with open("/dev/full", "wb") as full:
            done = subprocess.run([str(Tested.program), "--snapshot", str(self.folder)], stdout=full, timeout=SECONDS,
                                  input=text([start("a")]).encode(), stderr=subprocess.PIPE)
        self.assertEqual((done.returncode, list(self.folder.iterdir())), (2, []), done.stderr)


def main(given: list[str]) -> int:
    global cuts, cases, changes, seed
    options = argparse.ArgumentParser(description=__doc__, formatter_class=argparse.RawDescriptionHelpFormatter)
    options.add_argument("program", type=pathlib.Path)
    options.add_argument("--cuts", type=int, default=cuts)
    options.add_argument("--cases", type=int, default=cases)
    options.add_argument("--changes", type=int, default=changes)
    options.add_argument("--seed", type=int, default=seed)
    asked = options.parse_args(given)
    Tested.program, seed = asked.program.resolve(), asked.seed
    cuts, cases, changes = asked.cuts, asked.cases, asked.changes
    print(f"snapshot_tests: seed {seed}, {cuts} cuts, {cases} of cases, {changes} changes", flush=True)
    run = unittest.main(module=__name__, argv=[sys.argv[0]], exit=False)
    if run.result.wasSuccessful():
        shutil.rmtree(kept())
        return 0
    print(f"snapshot_tests: what was drawn is in {kept()}", flush=True)
    return 1


if __name__ == "__main__":
    sys.exit(main(sys.argv[1:]))
