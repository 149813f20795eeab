"""A journal, read without the program: what the program wrote, damage, what a crash leaves, copies while it is served.

WFSERVE_SEED draws other lines.
"""

import contextlib
import io
import json
import os
import pathlib
import random
import subprocess
import tempfile
import threading
import unittest

from support.programs import BUILT, needs_program
from wfserve.errors import JournalDamaged, LogDamaged, OtherJournal
from wfserve.journal import (
    Journal, JournalSettings, check_of, copy_journal, first_settings, framed, last_moment_in, main, write_journal,
)

SEED = int(os.environ.get("WFSERVE_SEED", random.randrange(1 << 32)))
SETTINGS = JournalSettings(("main",), 0, 1, 2)
ENTRY = b'{"pass":0,"request":{"at":%d,"op":"history","workflow_id":"%s"}}\n'


def step(shard, at, workflow_id=b"a"):
    return b"%02d" % shard + ENTRY % (at, workflow_id)


def four_frames(zeros=6):
    """A journal of four batches: its settings and three of steps."""
    texts = [SETTINGS.text(), step(0, 1) + step(1, 2), step(1, 3), step(0, 4, b"\xc3\xa9")]
    return texts, b"".join(framed(text) for text in texts) + b"\0" * zeros


# What a crash may leave of one batch, said once more, as journal_frames/specs/Files has it.


def is_blank(rest):
    return all(byte == 0 for byte in rest)


def is_cut(rest):
    for place, byte in enumerate(rest):
        if byte == 30:
            return is_blank(rest[place + 1:])
        if byte == 29:
            return False
    return True


def is_open(rest):
    for place, byte in enumerate(rest):
        if byte == 0:
            return is_cut(rest[place + 1:])
        if byte in (29, 30):
            return False
    return False


def is_torn(rest):
    return bool(rest) and (is_cut(rest[1:]) if rest[0] == 0 else rest[0] == 29 and is_open(rest[1:]))


class Files(unittest.TestCase):
    def setUp(self):
        folder = tempfile.TemporaryDirectory()
        self.addCleanup(folder.cleanup)
        self.folder = pathlib.Path(folder.name)
        self.path = str(self.folder / "journal")

    def written(self, data):
        pathlib.Path(self.path).write_bytes(data)
        return self.path


class Read(Files):
    def found(self, data):
        """The texts of the batches that are found, or where the file is damaged."""
        try:
            with Journal(self.written(data)) as journal:
                first = [] if journal.settings is None else [journal.settings.text()]
                return first + list(journal.texts())
        except JournalDamaged as damaged:
            return damaged.at

    def test_settings_and_steps(self):
        texts, data = four_frames()
        with Journal(self.written(data)) as journal:
            self.assertEqual((journal.settings, journal.torn, journal.end), (SETTINGS, False, len(data) - 6))
            self.assertEqual([it.shard for it in journal.steps()], [0, 1, 1, 0])
            self.assertEqual([it.entry["request"]["at"] for it in journal.steps()], [1, 2, 3, 4])
            records = [[ENTRY % (1, b"a"), ENTRY % (4, b"\xc3\xa9")], [ENTRY % (2, b"a"), ENTRY % (3, b"a")]]
            self.assertEqual(journal.records(), records)
            self.assertEqual(last_moment_in(self.path), 4)
        self.assertEqual(self.found(data), texts)

    def test_each_byte_set_to_six_values(self):
        """Damage is told with its place. What may be torn is dropped, and then all batches before it are there."""
        texts, data = four_frames()
        ends = [len(b"".join(framed(text) for text in texts[:count])) for count in range(5)]
        torn = 0
        for place in range(len(data)):
            for value in {0, 29, 30, 10, 65, 255} - {data[place]}:
                changed = data[:place] + bytes([value]) + data[place + 1:]
                whole = max(count for count in range(5) if ends[count] <= place)
                # Batches that no changed byte is in are found; after them nothing is whole.
                expected = texts[:whole] if is_torn(changed[ends[whole]:]) else ends[whole]
                self.assertEqual(self.found(changed), expected, (place, value))
                torn += isinstance(expected, list)
                # Only in the last batch, or after it, a change may look like a crash.
                self.assertTrue(isinstance(expected, int) or whole >= 3, (place, value))
        self.assertGreater(torn, ends[4] - ends[3])

    def test_each_cut(self):
        """A file that somebody cut is refused, but where a crash may have left it so."""
        texts, data = four_frames()
        for length in range(len(data) + 1):
            found = self.found(data[:length])
            if length == 0:
                self.assertEqual(found, [])
            elif length > len(data) - 6:
                self.assertEqual(found, texts)
            else:
                self.assertIsInstance(found, int, length)

    def test_each_tear(self):
        """A batch of which each byte was written or not is dropped, unless all were."""
        draws = random.Random(SEED)
        texts, data = four_frames()
        begin = len(data) - 6 - len(framed(texts[3]))
        for _ in range(2_000):
            share = draws.random()
            torn = bytes(byte if draws.random() < share else 0 for byte in data[begin:])
            whole = torn == data[begin:]
            self.assertEqual(self.found(data[:begin] + torn), texts[:3 + whole], f"seed {SEED}")
        with Journal(self.written(data[:begin] + data[begin:-40] + b"\0" * 40)) as journal:
            self.assertTrue(journal.torn)

    def test_a_new_file_has_no_settings(self):
        self.assertIsNone(first_settings(self.path))
        for data in (b"", b"\0", b"\0" * 5_000, b"\x1d{\0\0\0"):
            with Journal(self.written(data)) as journal:
                self.assertEqual((journal.settings, journal.batches, journal.records()), (None, [], []))
            self.assertEqual((first_settings(self.path), last_moment_in(self.path)), (None, 0))
        self.assertEqual(first_settings(self.written(four_frames()[1])), SETTINGS)

    def test_other_files_are_refused_by_name(self):
        head = SETTINGS.text()
        for text in (head.replace(b'"journal":1', b'"journal":2'), b"{}\n", b"x", b"", b"[]\n"):
            with self.assertRaisesRegex(OtherJournal, "journal: no journal of this version"):
                Journal(self.written(framed(text) + b"\0"))
        for text in (b"00", b"00\n", step(2, 1), step(0, 1)[:-1], b"x" + step(0, 1), step(0, 1) + b"\n"):
            with Journal(self.written(framed(head) + framed(step(0, 1)) + framed(text) + b"\0")) as journal:
                with self.assertRaisesRegex(OtherJournal, "journal: batch 2 has a line that is no step"):
                    list(journal.steps())
        with self.assertRaisesRegex(LogDamaged, "damaged at byte 0"):
            Journal(self.written(b"PK\3\4"))

    def test_a_check_is_two_sums(self):
        self.assertEqual(check_of(b""), b"a" * 32)
        # The bytes 1 and 255: the sums are 256, and 1 + 256.
        self.assertEqual(check_of(b"\1\xff"), b"aab" + b"a" * 13 + b"bab" + b"a" * 13)

    def test_it_is_shown(self):
        said, wrong = io.StringIO(), io.StringIO()
        _, data = four_frames()
        with contextlib.redirect_stdout(said), contextlib.redirect_stderr(wrong):
            self.assertEqual(main([self.written(data[:-8] + b"\0" * 8)]), 0)
            self.assertEqual(main([self.written(data[:-6])]), 2)
        self.assertEqual(len(said.getvalue().splitlines()), 4)
        self.assertIn("01 " + (ENTRY % (3, b"a")).decode(), said.getvalue())
        expected = r"after byte \d+ a crash left a part of a batch\njournal: .*damaged at byte \d+\n"
        self.assertRegex(wrong.getvalue(), expected)


def drawn(draws, count):
    """Lines over two shards, each of which makes a step."""
    lines = []
    for at in range(count):
        name = f"w{draws.randrange(9)}"
        start = {"op": "start", "workflow_id": name, "workflow_type": "w", "task_queue": "\"é\\", "request_id": f"r{at}"}
        signal = {"op": "signal", "workflow_id": name, "name": "s", "input": draws.choice(["", "\x1d\0", "é\n", "x" * 99])}
        lines.append({**draws.choice([start, signal, {"op": "describe", "workflow_id": name}]), "at": at})
    return lines


def text_of(lines):
    return "".join(json.dumps(line) + "\n" for line in lines).encode()


@needs_program
class Written(Files):
    words = ["--shards", "2", "--queues", "main,\"é\\", "--retention", "60000", "--service", "3"]
    settings = JournalSettings(("main", "\"é\\"), 60_000, 3, 2)

    def begin(self, zeros):
        """Begins the journal with so many zeros and not 4 MiB, which a build without proofs goes through for seconds."""
        pathlib.Path(self.path).write_bytes(framed(self.settings.text()) + b"\0" * zeros)

    def ran(self, lines, *more):
        ran = subprocess.run([BUILT, *self.words, *more], input=text_of(lines), capture_output=True)
        self.assertLess(ran.returncode, 2, ran.stderr)
        return ran.stdout

    def saved(self, lines, name="saved"):
        """The records that the program saves for these lines, by shards."""
        folder = self.folder / name
        folder.mkdir()
        self.ran(lines, "--save", str(folder))
        return [path.read_bytes() for path in sorted(folder.iterdir())]

    def test_records_are_those_that_are_saved(self):
        lines = drawn(random.Random(SEED), 400)
        self.begin(zeros=100_000)
        for begin in range(0, 400, 100):
            self.ran(lines[begin:begin + 100], "--journal", str(self.folder))
        with Journal(self.path) as journal:
            self.assertEqual(journal.settings, self.settings, f"seed {SEED}")
            self.assertGreaterEqual(len(journal.batches), 5)
            self.assertEqual([b"".join(record) for record in journal.records()], self.saved(lines), f"seed {SEED}")
            self.assertEqual(last_moment_in(self.path), 399)
            first = journal.batches[0]
            self.assertEqual(pathlib.Path(self.path).read_bytes()[first.begin:first.end], framed(self.settings.text()))

    def test_a_written_journal_is_opened(self):
        lines = drawn(random.Random(SEED), 100)
        records = [record.splitlines(keepends=True) for record in self.saved(lines)]
        write_journal(self.path, self.settings, records)
        read = [{"op": "history", "workflow_id": f"w{number}"} for number in range(9)]
        replies = self.ran(lines + read).splitlines()[len(lines):]
        after = self.ran(read, "--journal", str(self.folder)).splitlines()
        unnumbered = [[{**json.loads(line), "line": 0} for line in some] for some in (replies, after)]
        self.assertEqual(*unnumbered, f"seed {SEED}")

    def test_a_copy_of_one_that_is_served(self):
        """Copied at any moment it has all that was answered before, and the program opens it."""
        lines, answered, copies = drawn(random.Random(SEED), 2_000), [], []
        self.begin(zeros=600_000)
        words = [BUILT, *self.words, "--journal", str(self.folder)]
        with subprocess.Popen(words, stdin=subprocess.PIPE, stdout=subprocess.PIPE, stderr=subprocess.DEVNULL) as program:
            def feed():
                for begin in range(0, len(lines), 5):
                    program.stdin.write(text_of(lines[begin:begin + 5]))
                    program.stdin.flush()
                program.stdin.close()
            feeder = threading.Thread(target=feed)
            feeder.start()
            for number, _ in enumerate(program.stdout, 1):
                if number % 100 == 1:
                    copy = str(self.folder / f"copy-{number}")
                    answered.append(number)
                    copies.append(copy)
                    copy_journal(self.path, copy)
            feeder.join()
        with Journal(self.path) as journal:
            whole = [step.line for step in journal.steps()]
        self.assertEqual(len(whole), len(lines))
        for number, copy in zip(answered, copies):
            with Journal(copy) as journal:
                found = [step.line for step in journal.steps()]
                self.assertGreaterEqual(len(found), number)
                self.assertEqual(found, whole[:len(found)], f"seed {SEED}")
        other = self.folder / "other"
        other.mkdir()
        os.rename(copies[-1], other / "journal")
        self.ran([{"op": "describe", "workflow_id": "w0"}], "--journal", str(other))


if __name__ == "__main__":
    unittest.main()
