#!/usr/bin/env python3
"""The built program with a journal on disks that fail, that are full, that lose power, and whose bytes are changed.

    tools/journal_faults.py PROGRAM [--seed S] [--every K]

PROGRAM is the built `wfserve`, as `rt ci` leaves it in crates/wfserve/out. With --every K only each Kth byte and call
is tried, from a drawn one on: for a program that is slow. The seed of what is drawn is printed. The status is 1 where a
test fails. A library that is preloaded fails the calls (tools/failing_file.c); it is built by `cc`. The test on a loop
device wants root, losetup, mkfs.ext4 and mount, and is skipped by name elsewhere.
"""
from __future__ import annotations

import contextlib
import errno
import os
import pathlib
import random
import shutil
import signal as signals
import struct
import subprocess
import sys
import tempfile
import time
import unittest
from collections.abc import Callable, Iterable, Iterator
from concurrent.futures import ThreadPoolExecutor
from dataclasses import dataclass
from typing import Any

from journal_program import (
    RESTORED, ROOT, VALUES, Line, Tested, ran, replies_in, run_tests, served, start, steps_in, text, words,
)
from wfserve.errors import JournalDamaged
from wfserve.journal import Journal, JournalSettings, framed

# So many programs run at once.
AT_ONCE = 2
SETTINGS = JournalSettings(("main",), 0, 1, 1)
STEP = b'00{"pass":0,"request":{"at":%d,"op":"history","workflow_id":"a"}}\n'
IMAGE_BYTES = 24 << 20


def tried(count: int) -> Iterator[int]:
    """The numbers below this one, or each Kth of them."""
    return iter(range(random.Random(Tested.seed).randrange(Tested.every), count, Tested.every))


def four_batches() -> list[bytes]:
    """The settings, and three batches of steps."""
    return [framed(SETTINGS.text()), framed(STEP % 1 + STEP % 2), framed(STEP % 3), framed(STEP % 4)]


def lines_of(count: int) -> list[Line]:
    """Lines each of which makes one step."""
    return [{**start("a"), "at": 1, "request_id": "r"}] + [
        {"op": "signal", "name": "s", "workflow_id": "a", "at": at, "request_id": f"r{at}"}
        for at in range(2, count + 1)]


def texts_in(data: bytes) -> list[bytes] | int:
    """The whole batches of a journal's bytes as they stand there, or where these are damaged."""
    with tempfile.TemporaryDirectory() as folder:
        path = pathlib.Path(folder, "journal")
        path.write_bytes(data)
        try:
            with Journal(str(path)) as journal:
                return [data[batch.begin:batch.end] for batch in journal.batches]
        except JournalDamaged as damaged:
            return damaged.at


@contextlib.contextmanager
def fresh(data: bytes | None = None) -> Iterator[pathlib.Path]:
    """A new folder, in memory where that can be had, with a journal of these bytes."""
    with tempfile.TemporaryDirectory(dir="/dev/shm" if os.access("/dev/shm", os.W_OK) else None) as folder:
        if data is not None:
            pathlib.Path(folder, "journal").write_bytes(data)
        yield pathlib.Path(folder)


def at_once(work: Callable[[Any], Any], cases: Iterable[Any]) -> list[Any]:
    """What a function gives for each of the cases, some at once."""
    with ThreadPoolExecutor(AT_ONCE) as threads:
        return list(threads.map(work, cases))


def said_in(done: subprocess.CompletedProcess[str]) -> str:
    """What a program said, but for an opening that took long."""
    return RESTORED.sub("", done.stderr)


class Changed(unittest.TestCase):
    """Each byte of a journal of four batches, set to each of six values."""

    def test_each_byte(self) -> None:
        whole = b"".join(four_batches()) + b"\0" * 6
        cases = [(place, value) for place in tried(len(whole)) for value in VALUES if value != whole[place]]
        dropped = sum(at_once(lambda case: self.change(whole, *case), cases))
        print(f"journal_faults: of {len(cases)} changes {len(cases) - dropped} are refused, "
              f"and {dropped} look like a crash", flush=True)
        if Tested.every == 1:
            self.assertGreater(dropped, 0)

    def change(self, whole: bytes, place: int, value: int) -> bool:
        """Opens the journal with one other byte. Whether that is taken for what a crash left of the last batch."""
        changed = whole[:place] + bytes([value]) + whole[place + 1:]
        ends = [sum(map(len, four_batches()[:count])) for count in range(5)]
        before = max(count for count in range(5) if ends[count] <= place)
        with fresh(changed) as folder:
            file = folder / "journal"
            done = ran([], str(folder))
            after, where = file.read_bytes(), f"byte {place} as {value}"
        if done.returncode == 2:
            self.assertEqual(said_in(done), f"wfserve: {file}: damaged at byte {ends[before]}\n", where)
            self.assertEqual(after, changed, where)
            return False
        # Only in the last batch or after it; and what is left are the batches before it, whole.
        self.assertGreaterEqual(before, 3, where)
        self.assertEqual((done.returncode, done.stdout, said_in(done)), (0, "", ""), where)
        self.assertEqual(after, whole[:ends[before]].ljust(len(whole), b"\0"), where)
        return True


class Preloaded(unittest.TestCase):
    """A program before which a library stands, built for it."""

    @classmethod
    def setUpClass(cls) -> None:
        if not shutil.which("cc"):
            raise unittest.SkipTest("there is no C compiler")
        folder = tempfile.TemporaryDirectory()
        cls.addClassCleanup(folder.cleanup)
        cls.library = str(pathlib.Path(folder.name, "failing.so"))
        source = ROOT / "tools/failing_file.c"
        subprocess.run(["cc", "-O1", "-shared", "-fPIC", "-o", cls.library, source, "-ldl"], check=True)

    def quiet(self, lines: list[Line], data: bytes) -> None:
        """Learns the replies where nothing fails."""
        with fresh(data) as folder:
            self.undisturbed = served(lines, str(folder))
        self.assertEqual(len(self.undisturbed), len(lines))


class Failing(Preloaded):
    """What the program does where calls on its journal fail, or on its standard output."""

    def disturbed(self, lines: list[Line], folder: pathlib.Path, **given: int) -> subprocess.CompletedProcess[str]:
        """What the program does with each line read alone, where a call fails."""
        environment = {**os.environ, "LD_PRELOAD": self.library, **{name: str(value) for name, value in given.items()}}
        with subprocess.Popen(
            words(str(folder)), stdin=subprocess.PIPE, stdout=subprocess.PIPE, stderr=subprocess.PIPE, text=True,
            env=environment,
        ) as program:
            assert program.stdin and program.stdout and program.stderr
            said = ""
            try:
                for line in lines:
                    program.stdin.write(text([line]))
                    program.stdin.flush()
                    said += program.stdout.readline()
            except BrokenPipeError:
                pass
            with contextlib.suppress(BrokenPipeError):
                program.stdin.close()
            said += program.stdout.read()
            return subprocess.CompletedProcess(program.args, program.wait(), said, program.stderr.read())

    def expect(
        self, done: subprocess.CompletedProcess[str], folder: pathlib.Path, lines: list[Line], where: str,
        before: int = 0,
    ) -> None:
        """It ended with status 2, and all that it answered is on the disk, after the steps that were there before."""
        told, kept = replies_in(done.stdout), steps_in(str(folder)) - before
        self.assertEqual(done.returncode, 2, where)
        self.assertEqual(told, self.undisturbed[:len(told)], where)
        # The batch that failed may be there.
        self.assertIn(kept - len(told), (0, 1), where)
        self.assertEqual(served(lines[kept:], str(folder)), self.undisturbed[kept:], where)

    def test_a_disk_that_is_full_at_each_byte(self) -> None:
        """The last batch again, the zeros over what a crash left, and then each batch, are cut where there is no more room."""
        lines, zeros, again = lines_of(4), 1_000, len(framed(SETTINGS.text()))
        begun = framed(SETTINGS.text()) + b"\x1d" + b"\0" * (zeros - 1)
        self.quiet(lines, begun)

        def full(most: int) -> str:
            with fresh(begun) as folder:
                done = self.disturbed(lines, folder, FULL_AFTER=most)
                if done.returncode == 2:
                    self.assertEqual(said_in(done), self.said(folder, errno.ENOSPC), f"{most} bytes")
                    self.expect(done, folder, lines, f"{most} bytes")
                return done.stdout

        # Zeros over zeros are the same at each byte.
        whole = full(1 << 30)
        self.assertEqual(replies_in(whole), self.undisturbed)
        opening = again + zeros
        cases = [*range(0, opening, 97 * Tested.every), *(opening + most for most in tried(1_000)), opening + 1_000]
        said = at_once(full, cases)
        self.assertEqual(said[-1], whole)
        self.assertEqual(sorted(map(len, said)), list(map(len, said)))
        if Tested.every == 1:
            self.assertEqual(len(set(said)), 5)

    def said(self, folder: pathlib.Path, number: int) -> str:
        return f"wfserve: {folder}/journal: {os.strerror(number)} (os error {number})\n"

    def test_each_call_that_fails(self) -> None:
        """Each read, write and sync of a journal: at its making, at its opening, and for each batch."""
        reads = [{"op": "history", "workflow_id": "a", "at": at} for at in range(3)]
        for data, lines in ((b"", lines_of(3)), (b"".join(four_batches()) + b"\0" * 5_000, reads)):
            self.quiet(lines, data)
            number, failed = 1 + random.Random(Tested.seed).randrange(Tested.every), 0
            while self.fail_at(number, data, lines):
                number, failed = number + Tested.every, failed + 1
            print(f"journal_faults: {failed} calls that failed", flush=True)
            if Tested.every == 1:
                self.assertGreater(failed, 6)

    def fail_at(self, number: int, data: bytes, lines: list[Line]) -> bool:
        """Has one call fail. Whether there is such a call."""
        with fresh(data) as folder:
            done = self.disturbed(lines, folder, FAILING_CALL=number)
            if done.returncode != 2:
                self.assertEqual(replies_in(done.stdout), self.undisturbed)
                return False
            self.assertEqual(said_in(done), self.said(folder, errno.EIO), f"call {number}")
            self.expect(done, folder, lines, f"call {number}", data.count(b"\n") - 1 if data else 0)
        return True

    def test_replies_that_can_not_be_told(self) -> None:
        """The batch is on the disk; the program ends by name."""
        lines, begun = lines_of(4), framed(SETTINGS.text()) + b"\0" * 5_000
        self.quiet(lines, begun)
        for number in range(1, 5):
            with fresh(begun) as folder:
                done = self.disturbed(lines, folder, FAILING_REPLY=number)
                said = f"wfserve: standard output: {os.strerror(errno.EIO)} (os error {errno.EIO})\n"
                self.assertEqual(said_in(done), said)
                self.assertEqual(steps_in(str(folder)), number)
                self.expect(done, folder, lines, f"reply {number}")


@dataclass
class Written:
    """A write of the journal (W), a sync (S), or what was told (T)."""

    kind: str
    place: int
    data: bytes


class PowerLost(Preloaded):
    """At each moment between two syncs each byte that was written may be on the disk or not."""

    TEARS = 4

    def recorded(self, lines: list[Line], begun: bytes) -> list[Written]:
        """All that the program writes, syncs and tells, in its order, for lines that come by threes."""
        with fresh(begun) as folder, tempfile.TemporaryFile() as told:
            environment = {**os.environ, "LD_PRELOAD": self.library, "TOLD_WRITES": str(told.fileno())}
            with subprocess.Popen(
                words(str(folder)), stdin=subprocess.PIPE, stdout=subprocess.PIPE, stderr=subprocess.DEVNULL,
                env=environment, pass_fds=(told.fileno(),),
            ) as program:
                assert program.stdin and program.stdout
                for first in range(0, len(lines), 3):
                    program.stdin.write(text(lines[first:first + 3]).encode())
                    program.stdin.flush()
                    for _ in range(3):
                        program.stdout.readline()
                program.stdin.close()
                self.assertEqual(program.wait(), 0)
            told.seek(0)
            return [done for done in parsed(told.read()) if done.kind != "N"]

    def test_what_was_not_synced_is_lost_in_part(self) -> None:
        draws = random.Random(Tested.seed)
        lines = lines_of(60)
        for begun in (b"", framed(SETTINGS.text()) + b"\0" * 9_000):
            self.quiet(lines, begun)
            self.written = merged(self.recorded(lines, begun))
            moments = self.lose(draws, begun, len(lines))
            print(f"journal_faults: {moments} moments at which power was lost", flush=True)
            self.assertGreater(moments, 40)
        # A program that syncs nothing would be found.
        self.written = [done for done in self.written if done.kind != "S"]
        with self.assertRaises(AssertionError):
            self.lose(draws, begun, len(lines))

    def lose(self, draws: random.Random, begun: bytes, count: int) -> int:
        """Looks at what each moment may leave. How many moments there are."""
        synced, pending, replies = begun, [], 0
        for number, done in enumerate(self.written):
            if done.kind == "T":
                replies += done.data.count(b"\n")
            elif done.kind == "S":
                synced, pending = left_of(synced, pending, lambda size: b"\1" * size), []
            else:
                pending.append(done)
            for tear in range(self.TEARS if pending else 1):
                left = left_of(synced, pending, drawn_mask(draws, tear))
                where = f"seed {Tested.seed}, after {number} calls, tear {tear}"
                # Thousands of zeros at the end are as good as some.
                found = texts_in(left.rstrip(b"\0") + b"\0" * min(99, len(left) - len(left.rstrip(b"\0"))))
                self.assertIsInstance(found, list, where)
                steps = sum(batch.count(b"\n") for batch in found[1:])
                self.assertTrue(replies <= steps <= count, where)
                if draws.randrange(60) == 0:
                    self.go_on(left, steps, where)
        self.assertEqual(replies, count)
        return len(self.written)

    def go_on(self, left: bytes, steps: int, where: str) -> None:
        """The program goes on from what is left, as if nothing had been."""
        with fresh(left) as folder:
            self.assertEqual(served(lines_of(60)[steps:], str(folder)), self.undisturbed[steps:], where)


def parsed(data: bytes) -> Iterator[Written]:
    """What the preloaded library told."""
    place = 0
    while place < len(data):
        kind, at, count = struct.unpack_from("<cQQ", data, place)
        yield Written(kind.decode(), at, data[place + 17:place + 17 + count])
        place += 17 + count


def drawn_mask(draws: random.Random, tear: int) -> Callable[[int], bytes]:
    """Which bytes of a write are on the disk: none, all, whole sectors or single bytes of them."""
    def mask(size: int) -> bytes:
        if tear == 0:
            return b"\0" * size
        if tear == 1:
            return draws.choice([b"\1", b"\0"]) * size
        part = 512 if tear == 2 else 1
        share = draws.random()
        return b"".join((b"\1" if draws.random() < share else b"\0") * part for _ in range(0, size, part))[:size]
    return mask


def merged(written: list[Written]) -> list[Written]:
    """The same, with zeros that were written one after the other as one write."""
    found: list[Written] = []
    for one in written:
        last = found[-1] if found else None
        if last and last.kind == one.kind == "W" and last.place + len(last.data) == one.place and not (
                last.data.strip(b"\0") or one.data.strip(b"\0")):
            found[-1] = Written("W", last.place, last.data + one.data)
        else:
            found.append(one)
    return found


def left_of(synced: bytes, writes: list[Written], mask: Callable[[int], bytes]) -> bytes:
    """A file of which the writes since its last sync are there in part, as a mask says. Only zeros are added to it."""
    left = bytearray(synced)
    for write in writes:
        added = write.place + len(write.data) - len(left)
        if added > 0:
            assert not write.data.strip(b"\0") and write.place <= len(left), "more than zeros was added to the file"
            left.extend(b"\0" * (added * sum(mask(16)) // 16))
        elif write.data.strip(b"\0") or left[write.place:write.place + len(write.data)].strip(b"\0"):
            for at, (byte, is_there) in enumerate(zip(write.data, mask(len(write.data))), write.place):
                left[at] = byte if is_there else left[at]
    return bytes(left)


def can_mount() -> bool:
    """Whether a file can be mounted here as a disk with a file system."""
    if os.geteuid() or not all(map(shutil.which, ("losetup", "mkfs.ext4", "mount", "umount"))):
        return False
    with tempfile.TemporaryDirectory() as folder:
        image, top = pathlib.Path(folder, "image"), pathlib.Path(folder, "top")
        top.mkdir()
        image.write_bytes(b"\0" * IMAGE_BYTES)
        made = subprocess.run(["mkfs.ext4", "-q", "-F", image], capture_output=True)
        mounted = subprocess.run(["mount", "-o", "loop", image, top], capture_output=True)
        if mounted.returncode == 0:
            subprocess.run(["umount", top], check=True)
        return made.returncode == mounted.returncode == 0


class LoopDevice(Preloaded):
    """A file system on a file, of which a copy is taken: what its cache had not written yet is not in the copy."""

    ROUNDS = 6

    @classmethod
    def setUpClass(cls) -> None:
        if not can_mount():
            raise unittest.SkipTest("no file can be mounted here: it wants root, losetup, mkfs.ext4 and mount")
        super().setUpClass()

    def setUp(self) -> None:
        self.draws = random.Random(Tested.seed)
        self.folder = self.enterContext(fresh())
        self.image, self.top = self.folder / "image", self.folder / "top"
        self.top.mkdir()
        self.image.write_bytes(b"\0" * IMAGE_BYTES)
        subprocess.run(["mkfs.ext4", "-q", "-F", self.image], check=True)
        self.mounted(self.image)
        (self.top / "kept").mkdir()
        # Fewer zeros than the program makes: it goes through all of them at each opening.
        (self.top / "kept/journal").write_bytes(framed(SETTINGS.text()) + b"\0" * 200_000)
        subprocess.run(["sync", "-f", self.top], check=True)

    def mounted(self, image: pathlib.Path) -> None:
        subprocess.run(["mount", "-o", "loop", image, self.top], check=True)
        self.addCleanup(subprocess.run, ["umount", self.top], stderr=subprocess.DEVNULL)

    def test_what_was_answered_is_on_the_device(self) -> None:
        lines = lines_of(600)
        with fresh() as quiet:
            undisturbed = served(lines, str(quiet))
        done = 0
        for number in range(self.ROUNDS):
            told = self.lose_power(lines[done:])
            where = f"seed {Tested.seed}, round {number}"
            self.assertEqual(told, undisturbed[done:done + len(told)], where)
            now = steps_in(str(self.top / "kept"))
            self.assertGreaterEqual(now, done + len(told), where)
            done = now
        self.assertEqual(served(lines[done:], str(self.top / "kept")), undisturbed[done:], f"seed {Tested.seed}")
        print(f"journal_faults: {done} of {len(lines)} steps before the last loss of power", flush=True)

    def test_a_program_that_does_not_sync_is_found(self) -> None:
        """So the device does lose what was not synced."""
        lines, done = lines_of(600), 0
        for _ in range(self.ROUNDS):
            told = self.lose_power(lines[done:], LD_PRELOAD=self.library, WITHOUT_SYNC="1")
            now = steps_in(str(self.top / "kept"))
            if now < done + len(told):
                return
            done = now
        self.skipTest("on a machine as slow as this one, the cache is written before power is lost")

    def lose_power(self, lines: list[Line], **environment: str) -> list[Line]:
        """Feeds lines, stops the program, and goes on with a copy of the device. The replies that came by then."""
        wanted, said = self.draws.randrange(1, 60), b""
        with subprocess.Popen(
            words(str(self.top / "kept")), stdin=subprocess.PIPE, stdout=subprocess.PIPE, stderr=subprocess.DEVNULL,
            bufsize=0, env={**os.environ, **environment},
        ) as program:
            assert program.stdin and program.stdout
            for line in lines[:wanted]:
                program.stdin.write(text([line]).encode())
                said += program.stdout.readline()
            # Of these no reply is waited for.
            program.stdin.write(text(lines[wanted:wanted + 20]).encode())
            time.sleep(self.draws.uniform(0, 0.003))
            program.send_signal(signals.SIGSTOP)
            time.sleep(0.05)
            os.set_blocking(program.stdout.fileno(), False)
            said += program.stdout.read() or b""
            copy = self.folder / "copy"
            shutil.copyfile(self.image, copy)
            program.kill()
        subprocess.run(["umount", self.top], check=True)
        os.replace(copy, self.image)
        self.mounted(self.image)
        return replies_in(said.decode())


if __name__ == "__main__":
    sys.exit(run_tests(__name__, sys.argv[1:], "every", 1))
