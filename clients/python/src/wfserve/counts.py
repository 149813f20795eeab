"""Counts as words, for lines that people read."""
from __future__ import annotations


def counted(count: int, one: str, many: str = "") -> str:
    """A count with its word: `1 batch`, `2 batches`. Of most words the plural has an s more."""
    return f"{count} {one if count == 1 else many or one + 's'}"
