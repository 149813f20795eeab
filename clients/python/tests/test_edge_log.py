"""The compiled edge's log, as it is read here: torn at each byte, damaged at each byte, in use, and begun."""

import pathlib
import tempfile
import unittest

from support import add_paths

add_paths()
from wfserve.durable import Settings
from wfserve.durable.edge_log import begin_log, framed, header_of, held, lines_in, read_header, record_files
from wfserve.errors import LogDamaged, LogInUse

LINES = [b'{"settings":1}', b'{"op":"start"}', b"", b'{"op":"signal","input":"\xc3\xa4"}', b"7 of them"]
# Two lines as a test of the edge has them (edge/src, line_log).
TWO, WRITTEN = [b"a", b"\xc3\xbc"], b"75d923d9 1 a\n70e927b3 2 \xc3\xbc\n"


class Logs(unittest.TestCase):
    def setUp(self):
        folder = tempfile.TemporaryDirectory()
        self.addCleanup(folder.cleanup)
        self.path = pathlib.Path(folder.name) / "a.log"

    def read(self, data):
        self.path.write_bytes(data)
        return list(lines_in(str(self.path)))

    def ends(self):
        """Where each line ends."""
        return [len(framed(LINES[:count])) for count in range(1, len(LINES) + 1)]

    def test_lines_stand_as_the_edge_writes_them(self):
        self.assertEqual(framed(TWO), WRITTEN)
        self.assertEqual(self.read(framed(LINES)), LINES)
        self.assertEqual(self.read(b""), [])

    def test_a_torn_last_line_is_left_out_wherever_it_was_torn(self):
        data = framed(LINES)
        for size in range(len(data) + 1):
            whole = sum(end <= size for end in self.ends())
            self.assertEqual(self.read(data[:size]), LINES[:whole], f"torn at byte {size}")

    def test_damage_at_any_byte_is_refused(self):
        data = framed(LINES)
        for at in range(len(data)):
            for other in {data[at] ^ 1, data[at] ^ 0x80, ord("\n"), ord("0")} - {data[at]}:
                with self.assertRaisesRegex(LogDamaged, r"line \d, at byte \d+, is damaged"):
                    self.read(data[:at] + bytes([other]) + data[at + 1:])

    def test_a_line_that_was_taken_out_or_doubled_is_found(self):
        data, ends = framed(LINES), self.ends()
        begins = [0] + ends
        for i in range(len(LINES) - 1):
            line = data[begins[i]:ends[i]]
            for changed in (data[:begins[i]] + data[ends[i]:], data[:ends[i]] + line + data[ends[i]:]):
                with self.assertRaises(LogDamaged):
                    self.read(changed)

    def test_zeros_after_the_last_line_are_damage(self):
        with self.assertRaisesRegex(LogDamaged, "line 6"):
            self.read(framed(LINES) + bytes(40))

    def test_a_log_that_is_served_is_not_held(self):
        self.path.touch()
        with held(str(self.path)):
            with self.assertRaisesRegex(LogInUse, "another process has this log open"), held(str(self.path)):
                pass
        with held(str(self.path)):
            pass

    def test_a_log_is_begun_once_and_says_its_settings_and_its_generation(self):
        settings = Settings(shards=2, queues=("a", "b"), capacity=7, retention=5)
        begin_log(str(self.path), settings, 3)
        header, = lines_in(str(self.path))
        self.assertEqual(read_header(header, "a.log"), (settings, 3))
        with self.assertRaises(FileExistsError):
            begin_log(str(self.path), settings, 3)
        self.assertEqual(record_files(str(self.path), 0), [])
        folder = pathlib.Path(f"{self.path}.records-3")
        folder.mkdir()
        for name in ("shard-01.rec", "shard-00.rec", "replies"):
            (folder / name).touch()
        self.assertEqual(record_files(str(self.path), 3), [f"{folder}/shard-00.rec", f"{folder}/shard-01.rec"])
        (folder / "shard-00.snap").touch()
        self.assertEqual(record_files(str(self.path), 3), [f"{folder}/shard-00.snap"])

    def test_a_header_of_another_form_is_refused(self):
        self.assertNotIn(b"compacted", header_of(Settings()))
        for header in (b"{}", b"[]", b"7", b"no", b'{"format":2,"queues":["main"]}', b'{"format":1,"queues":["a"],"more":1}',
                       b'{"format":1}', header_of(Settings()).replace(b'"format":1', b'"format":"1"')):
            with self.assertRaisesRegex(LogDamaged, "a.log: this is no log of format 1"):
                read_header(header, "a.log")

    def test_a_header_of_a_time_before_retentions_has_none(self):
        older = header_of(Settings()).replace(b',"retention":0', b"")
        self.assertEqual(read_header(older, "a.log"), (Settings(), 0))


if __name__ == "__main__":
    unittest.main()
