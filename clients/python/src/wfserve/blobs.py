"""Texts that are too long for a history: each is kept as a file named by its SHA-256, and the history has the name.

A text of a history has at most 4,096 bytes. A longer one, up to 2 MB, is put into a store, and a short text that names
it is handed on in its place. It is in the store, and synced there, before any line names it. The same text has the same
name, so putting it again changes nothing.

Users see nothing of it: a client and a worker use it by themselves, over a server that keeps blobs and over a
DurableService.
"""

from __future__ import annotations

import contextlib
import hashlib
import os
import pathlib
import re
import threading
import time
from collections import OrderedDict
from typing import Dict, FrozenSet, Iterator, Optional, Protocol

from wfserve.errors import WfserveError

# A blob has at most so many bytes.
MOST_BYTES = 2 << 20
# A text with more bytes than a history holds is put into the store.
LEAST_BYTES = 4_096
# How a text names a blob: its hash, and its length in bytes. No text of JSON begins so.
MARK = "blob:"
NAMED = re.compile(r"blob:([0-9a-f]{64}):([0-9]{1,7})")
HASH = re.compile(r"[0-9a-f]{64}")
# So many bytes of blobs that were put or read are kept in memory.
KEPT_BYTES = 16 << 20
# What was put or read longer ago is put again before it is named: no history may name it any more, and it may be gone. A
# store keeps what it was given, or a history names, for a day and longer.
SURE_SECONDS = 3_600.0


class BlobTooLarge(WfserveError, ValueError):
    """A text has more bytes than a blob may have."""


class BlobMissing(WfserveError):
    """A history names a blob that the store doesn't have: it is of another store, or was deleted with its run."""


class BlobDamaged(WfserveError):
    """The bytes in the store aren't those that the name says."""


class BlobsNotKept(WfserveError, ValueError):
    """The server keeps no blobs, so a text has at most 4,096 bytes there."""


def name_of(data: bytes) -> str:
    """The hash by which a store knows these bytes."""
    return hashlib.sha256(data).hexdigest()


def names_in(text: str) -> FrozenSet[str]:
    """The hashes of all blobs that a text names somewhere."""
    return frozenset(found[1] for found in NAMED.finditer(text))


def checked_size(size: int) -> None:
    """BlobTooLarge where a blob has no so many bytes."""
    if size > MOST_BYTES:
        raise BlobTooLarge(f"a text has {size} bytes, and a blob has at most {MOST_BYTES}: hand on where it lies")


class Store(Protocol):
    """Keeps blobs by their hashes."""

    def put(self, name: str, data: bytes) -> None:
        """Keeps these bytes, whose hash this is. They are on the disk once this returns."""

    def get(self, name: str) -> bytes:
        """The bytes of this hash. BlobMissing where there are none."""


class MemoryStore:
    """A store for tests."""

    def __init__(self) -> None:
        self._kept: Dict[str, bytes] = {}

    def put(self, name: str, data: bytes) -> None:
        """Keeps these bytes."""
        self._kept[name] = data

    def get(self, name: str) -> bytes:
        """The bytes of this hash."""
        if name not in self._kept:
            raise BlobMissing(f"there is no blob {name}")
        return self._kept[name]


class FolderStore:
    """A store in a folder, which its owner alone can read: a file for each blob. Many may use it at a time."""

    def __init__(self, folder: str):
        self.folder = pathlib.Path(folder)
        # What is put again must not be deleted meanwhile.
        self._lock = threading.Lock()

    def put(self, name: str, data: bytes) -> None:
        """Keeps these bytes: written to another name and synced, and then given their name. OSError where that fails."""
        checked_size(len(data))
        path = self._path(name)
        with self._lock:
            if self._is_there(path, len(data)):
                # It counts as put now: what is old and not named anywhere is deleted.
                os.utime(path)
                return
        self._make(path.parent)
        drawn = path.with_name(f"{name}.{os.getpid()}-{threading.get_ident()}.new")
        try:
            with open(os.open(drawn, os.O_WRONLY | os.O_CREAT | os.O_TRUNC, 0o600), "wb") as written:
                written.write(data)
                written.flush()
                os.fsync(written.fileno())
            os.replace(drawn, path)
        except BaseException:
            drawn.unlink(missing_ok=True)
            raise
        sync_folder(path.parent)

    def get(self, name: str) -> bytes:
        """The bytes of this hash. BlobMissing where there are none, BlobDamaged where they were changed."""
        try:
            data = self._path(name).read_bytes()
        except FileNotFoundError:
            raise BlobMissing(f"there is no blob {name}") from None
        if name_of(data) != name:
            raise BlobDamaged(f"the blob {name} is damaged")
        return data

    def names(self) -> Iterator[str]:
        """The hashes of all blobs that are there."""
        for path in sorted(self.folder.glob("??/*")):
            if HASH.fullmatch(path.name):
                yield path.name

    def touch(self, name: str, moment: float) -> None:
        """A history named it at that moment, in seconds since 1970. One that is gone stays gone."""
        try:
            os.utime(self._path(name), (moment, moment))
        except FileNotFoundError:
            pass

    def delete_before(self, moment: float) -> int:
        """Deletes what was put and named last before that moment, in seconds since 1970. How many these were."""
        count = 0
        for path in self.folder.glob("??/*"):
            with self._lock, contextlib.suppress(FileNotFoundError):
                if path.stat().st_mtime < moment:
                    path.unlink()
                    count += 1
        return count

    def _path(self, name: str) -> pathlib.Path:
        if not HASH.fullmatch(name):
            raise BlobMissing(f"{name[:80]!r} is no name of a blob")
        return self.folder / name[:2] / name

    def _is_there(self, path: pathlib.Path, size: int) -> bool:
        """Whether it was put before. One of another length is put again: its disk has lost some of it."""
        try:
            return path.stat().st_size == size
        except FileNotFoundError:
            return False

    def _make(self, folder: pathlib.Path) -> None:
        """Makes a folder, and syncs the one that it lies in."""
        for it in (self.folder, folder):
            try:
                it.mkdir(0o700)
            except FileExistsError:
                continue
            sync_folder(it.parent)


def store_beside(path: str) -> FolderStore:
    """The store of a log, or of a journal's folder: a folder beside it, which has its name with `.blobs` at the end."""
    return FolderStore(f"{os.path.abspath(path)}.blobs")


def copy_blobs(source: FolderStore, other: FolderStore) -> int:
    """Puts all that one store has into another one. How many blobs these were. BlobDamaged where one was changed."""
    count = 0
    for count, name in enumerate(source.names(), 1):
        other.put(name, source.get(name))
    return count


def sync_folder(folder: pathlib.Path) -> None:
    """Has the disk know which names a folder has."""
    descriptor = os.open(folder, os.O_RDONLY)
    try:
        os.fsync(descriptor)
    finally:
        os.close(descriptor)


class Blobs:
    """A codec of a converter: puts long texts into a store, and gets them from there. The last codec of a converter.

    What was put or read last stays in memory, so a replay doesn't ask the store for it again.
    """

    def __init__(self, store: Store, least: int = LEAST_BYTES):
        self._store = store
        # Texts of so many bytes and less are left as they are.
        self._least = least
        self._known: "OrderedDict[str, str]" = OrderedDict()
        # When the store had each of these last.
        self._had: Dict[str, float] = {}
        self._bytes = 0
        self._lock = threading.Lock()

    def encode(self, text: str) -> str:
        """The text, or the name of the blob that has it. BlobTooLarge where it is too long for one."""
        data = text.encode()
        if len(data) <= self._least:
            return text
        checked_size(len(data))
        name = name_of(data)
        if self._found(name) is None or not self._is_sure(name):
            self._store.put(name, data)
            self._keep(name, text)
        return f"{MARK}{name}:{len(data)}"

    def decode(self, text: str) -> str:
        """The text of the blob that is named; any other text stays as it is."""
        named = NAMED.fullmatch(text)
        if named is None:
            return text
        found = self._found(named[1])
        if found is None:
            found = self._store.get(named[1]).decode()
            self._keep(named[1], found)
        return found

    def _found(self, name: str) -> Optional[str]:
        with self._lock:
            text = self._known.get(name)
            if text is not None:
                self._known.move_to_end(name)
            return text

    def _is_sure(self, name: str) -> bool:
        """Whether the store is sure to have a blob still."""
        with self._lock:
            return time.monotonic() < self._had.get(name, -SURE_SECONDS) + SURE_SECONDS

    def _keep(self, name: str, text: str) -> None:
        with self._lock:
            self._had[name] = time.monotonic()
            if name in self._known:
                return
            self._known[name] = text
            self._bytes += len(text)
            while self._bytes > KEPT_BYTES:
                gone, text = self._known.popitem(last=False)
                self._bytes -= len(text)
                del self._had[gone]
