"""The two sums of a check of bytes, of many bytes a moment: that of the bytes, and that of the sums so far.

docs/JOURNAL.md says what they are: `plain` has it in one line. Here blocks are summed as large whole numbers, whose halves are
added until one is left, which is some six times as fast.
"""

from __future__ import annotations

from itertools import accumulate
from typing import Tuple

# Both wrap around at the least number that 64 bits don't reach.
WRAP = 1 << 64
# Bytes of a block, of which each four are a lane of 32 bits: so many lanes are two to this.
BLOCK, DEPTH = 1 << 14, 12
LANE = 32
# Of fewer bytes the plain sums are quicker.
FEW = 1_000
# In each lane its lowest byte, and by depth all lanes of the lower half.
LOWEST = int.from_bytes(b"\xff\0\0\0" * (BLOCK // 4), "little")
HALVES = [(1 << (LANE << depth)) - 1 for depth in range(DEPTH)]


def plain(text: bytes) -> Tuple[int, int]:
    """The sum of the bytes, and the sum of the sums so far."""
    return sum(text) % WRAP, sum(accumulate(text)) % WRAP


def _lanes(number: int, depth: int = DEPTH) -> int:
    """The sum of the lanes of a number."""
    while depth:
        depth -= 1
        number = (number >> (LANE << depth)) + (number & HALVES[depth])
    return number


def _block(text: bytes) -> Tuple[int, int]:
    """What `plain` says of a block."""
    number = int.from_bytes(text, "little")
    parts = [number >> 8 * place & LOWEST for place in range(4)]
    # The sum of each byte as often as bytes stand before it.
    weighted = _lanes(parts[1] + 2 * parts[2] + 3 * parts[3])
    lanes = sum(parts)
    for depth in reversed(range(DEPTH)):
        upper = lanes >> (LANE << depth)
        weighted += _lanes(upper, depth) << depth + 2
        lanes = upper + (lanes & HALVES[depth])
    # Each byte counts in the sum after it and in all later ones.
    return lanes, len(text) * lanes - weighted


class Sums:
    """The two sums of all that was added, piece by piece."""

    def __init__(self) -> None:
        self.bytes = self.sums = 0

    def add(self, piece: bytes) -> None:
        """Adds a piece after all that was added before."""
        for begin in range(0, len(piece), BLOCK):
            block = piece[begin:begin + BLOCK]
            total, sums = plain(block) if len(block) < FEW else _block(block)
            self.sums = (self.sums + len(block) * self.bytes + sums) % WRAP
            self.bytes = (self.bytes + total) % WRAP

    def letters(self) -> bytes:
        """Both as 16 digits to the base 16, the lowest first, as letters from `a` on."""
        return letters(self.bytes) + letters(self.sums)


def letters(number: int) -> bytes:
    """A sum as 16 digits to the base 16, the lowest first, as letters from `a` on."""
    return bytes(97 + (number >> 4 * place) % 16 for place in range(16))
