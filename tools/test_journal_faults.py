"""What may be left of writes that were not synced."""
import struct
import unittest

from journal_faults import Written, left_of, merged, parsed


def all_of(size: int) -> bytes:
    return b"\1" * size


def none_of(size: int) -> bytes:
    return b"\0" * size


def every_other(size: int) -> bytes:
    return (b"\1\0" * size)[:size]


class Left(unittest.TestCase):
    def test_each_byte_is_there_or_not(self) -> None:
        synced, write = b"ab\0\0\0\0\0", Written("W", 2, b"wxyz")
        self.assertEqual(left_of(synced, [write], all_of), b"abwxyz\0")
        self.assertEqual(left_of(synced, [write], none_of), synced)
        self.assertEqual(left_of(synced, [write], every_other), b"abw\0y\0\0")

    def test_what_is_added_is_zeros(self) -> None:
        write = Written("W", 2, b"\0" * 8)
        self.assertEqual(left_of(b"ab", [write], all_of), b"ab" + b"\0" * 8)
        self.assertEqual(left_of(b"ab", [write], every_other), b"ab" + b"\0" * 4)
        self.assertEqual(left_of(b"ab", [write], none_of), b"ab")
        with self.assertRaises(AssertionError):
            left_of(b"ab", [Written("W", 1, b"xy")], all_of)

    def test_zeros_over_a_part_of_a_batch(self) -> None:
        self.assertEqual(left_of(b"a\x1dx\0", [Written("W", 1, b"\0\0\0")], every_other), b"a\0x\0")

    def test_zeros_that_follow_each_other_are_one_write(self) -> None:
        zeros = [Written("W", 0, b"\0\0"), Written("W", 2, b"\0"), Written("S", 0, b""), Written("W", 0, b"x")]
        self.assertEqual(merged(zeros), [Written("W", 0, b"\0\0\0"), *zeros[2:]])
        apart = [Written("W", 0, b"\0"), Written("W", 2, b"\0"), Written("W", 3, b"x")]
        self.assertEqual(merged(apart), apart)

    def test_what_the_library_told(self) -> None:
        told = struct.pack("<cQQ", b"W", 7, 2) + b"hi" + struct.pack("<cQQ", b"S", 0, 0)
        self.assertEqual(list(parsed(told)), [Written("W", 7, b"hi"), Written("S", 0, b"")])


if __name__ == "__main__":
    unittest.main()
