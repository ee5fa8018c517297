"""The archive of a shard: every change with its reply, in order, in files that only grow.

An entry is a change as it was sent; its number is one more than that of the entry before. It is on the disk before it
is sent to pdpd, and so is the record of its reply before the client gets it. So after a kill at most the last entry has
no reply: it may have been applied, and is sent once more.

    MONTH.NUMBER.NAME.log    NUMBER is that of its first entry, NAME the archive's. It may be packed (`gzip`), once a
                             later one has begun, and moved into another folder.
"""
from __future__ import annotations

import ctypes
import errno
import fcntl
import functools
import gzip
import os
import pathlib
import re
import stat
import time
from collections.abc import Callable, Iterable, Iterator
from dataclasses import dataclass

from .domains import sync_folder
from .record import Damaged, Record, encoded, first_prev, record_at, records_in

FILE = re.compile(r"(\d{4}-\d{2})\.(\d{16})\.([0-9a-f]{32})\.log(?:\.gz)?")
# after how many bytes the next file begins
MOST_BYTES = 16 << 20


class Broken(Exception):
    """What was written may not be on the disk: the daemon has to end."""


class NoRoom(Exception):
    """Nothing was written, since the disk took no more."""


class Removed(Exception):
    """Nothing was written, since the last file was removed: only the open one would have it, until the daemon ends."""


def read_from(path: pathlib.Path, offset: int, length: int | None = None) -> bytes:
    """The bytes of a regular file from a place on. (Whoever owns the folder may have put anything else there.)"""
    file = os.open(path, os.O_RDONLY | os.O_NOFOLLOW | os.O_NONBLOCK | os.O_CLOEXEC)
    with open(file, "rb") as opened:
        if not stat.S_ISREG(os.fstat(file).st_mode):
            raise Damaged(f"{path} is no file: look who put it there")
        opened.seek(offset)
        return opened.read() if length is None else opened.read(length)


@functools.lru_cache(maxsize=4)
def unpacked(path: pathlib.Path) -> bytes:
    """The bytes that are packed in a file."""
    try:
        return gzip.decompress(read_from(path, 0))
    except (EOFError, OSError, ValueError) as fault:
        raise Damaged(f"{path} can't be unpacked: {fault}") from None


@dataclass(frozen=True)
class Segment:
    """A file of an archive. `home` is the folder that has what the archive keeps beside its records."""
    path: pathlib.Path
    month: str
    first: int
    name: str
    home: pathlib.Path

    def data(self) -> bytes:
        if self.path.suffix == ".gz":
            return unpacked(self.path)
        return read_from(self.path, 0)

    def records_at(self, offset: int, length: int) -> list[Record]:
        """The record at a place, and the one behind it, of which so many bytes are read; fewer where none is whole."""
        held = unpacked(self.path)[offset:] if self.path.suffix == ".gz" else read_from(self.path, offset, length)
        first = record_at(held, 0, self.name)
        second = record_at(held, first.end, self.name) if first else None
        return [one for one in (first, second) if one]

    def refuse_packed(self) -> None:
        """An error where nothing can be appended."""
        if self.path.suffix == ".gz":
            raise Damaged(f"{self.path} is the archive's last file: unpack it (gunzip)")

    def records(self) -> Iterator[Record]:
        return records_in(self.data(), self.name, str(self.path))


def segments_in(folders: Iterable[pathlib.Path]) -> list[Segment]:
    """The files of an archive, in order. Its home is the first folder that has domains, or else the first one."""
    folders = list(folders)
    home = next((folder for folder in folders if (folder / "domains").is_dir()), folders[0])
    found = [(path, FILE.fullmatch(path.name)) for folder in folders for path in sorted(folder.iterdir())]
    segments = sorted((Segment(path, match[1], int(match[2]), match[3], home) for path, match in found if match),
                      key=lambda one: one.first)
    if len({one.name for one in segments}) > 1:
        raise Damaged(f"{', '.join(map(str, folders))}: files of several archives: name those of one alone")
    for one, other in zip(segments, segments[1:]):
        if one.first == other.first:
            raise Damaged(f"{one.path} and {other.path} begin with the same entry: take one of them away")
    return segments


def sync_all(file: int) -> None:
    """Has the disk keep all that is written to the file system of a file."""
    if ctypes.CDLL(None, use_errno=True).syncfs(file):
        raise OSError(ctypes.get_errno(), os.strerror(ctypes.get_errno()))


class Archive:
    """An archive that is written. `position` is the last entry that has its reply, `last` its record, and `was_again`
    whether it may have been sent twice; `pending` is the one behind it that has none yet."""

    def __init__(self, folder: pathlib.Path, clock: Callable[[], float] = time.time, most_bytes: int = MOST_BYTES):
        self.folder, self.clock, self.most_bytes = folder, clock, most_bytes
        folder.mkdir(mode=0o700, parents=True, exist_ok=True)
        self.lock = os.open(folder / "lock", os.O_RDWR | os.O_CREAT | os.O_CLOEXEC, 0o600)
        try:
            fcntl.flock(self.lock, fcntl.LOCK_EX | fcntl.LOCK_NB)
        except BlockingIOError:
            os.close(self.lock)
            raise Damaged(f"{folder}: another pdpd-replica writes into it: end that one") from None
        self.position, self.pending, self.at, self.file, self.first = 0, None, 0.0, -1, 1
        self.last, self.was_again = None, False
        self.month, self.name, self.size = "", os.urandom(16).hex(), 0
        self.prev = first_prev(self.name)
        try:
            self.open_last()
        except BaseException:
            self.close()
            raise

    def open_last(self) -> None:
        """Reads the last file that has a whole record. What stands behind that was cut, and is taken away."""
        for segment in reversed(segments_in([self.folder])):
            segment.refuse_packed()
            for record in segment.records():
                self.take(record)
                self.size = record.end
            if not self.size:
                segment.path.unlink()
                sync_folder(self.folder)
                continue
            self.month, self.name, self.first = segment.month, segment.name, segment.first
            self.file = os.open(segment.path, os.O_WRONLY | os.O_APPEND | os.O_CLOEXEC)
            if os.fstat(self.file).st_size > self.size:
                os.ftruncate(self.file, self.size)
                os.fsync(self.file)
            return

    def take(self, record: Record) -> None:
        """Notes what a record says."""
        self.prev, self.at = record.digest, record.head["at"]
        if record.head["kind"] == "entry":
            self.pending = record
        else:
            self.position, self.was_again = record.head["n"], record.head["again"]
            self.last, self.pending = self.pending, None

    def now(self) -> float:
        """The moment of a record: the clock's, or the last record's if the clock was set back."""
        return max(self.at, round(self.clock(), 6))

    def refuse_removed(self) -> None:
        """A Removed where the last file has no name any more, as one that was packed."""
        if self.file >= 0 and not os.fstat(self.file).st_nlink:
            raise Removed(f"the last file in {self.folder} was removed: pdpd-shards status tells how it is saved")

    def add_entry(self, head: dict, body: bytes) -> Record:
        """Appends an entry; it is on the disk then."""
        at, number = self.now(), self.position + 1
        month = max(self.month, time.strftime("%Y-%m", time.gmtime(at)))
        if self.file < 0 or month != self.month or self.size >= self.most_bytes:
            self.begin_file(month, number)
        return self.append({**head, "kind": "entry", "n": number, "at": at}, body)

    def add_reply(self, status: int, reply: bytes, is_again: bool) -> Record:
        """Appends the reply to the last entry; it is on the disk then."""
        return self.append({"kind": "reply", "n": self.position + 1, "at": self.now(), "status": status,
                            "again": is_again}, reply)

    def begin_file(self, month: str, number: int) -> None:
        path = self.folder / f"{month}.{number:016d}.{self.name}.log"
        try:
            file = os.open(path, os.O_WRONLY | os.O_CREAT | os.O_APPEND | os.O_CLOEXEC, 0o600)
        except OSError as fault:
            raise NoRoom(f"{path}: {fault.strerror}") from None
        try:
            sync_folder(self.folder)
            # what is kept beside the records of the file before: a start looks after that of the last file alone
            sync_all(file)
        except OSError as fault:
            raise Broken(f"{self.folder}: {fault.strerror}") from None
        if self.file >= 0:
            os.close(self.file)
        self.file, self.month, self.size, self.first = file, month, os.fstat(file).st_size, number

    def append(self, head: dict, body: bytes) -> Record:
        data, digest = encoded(self.name, {**head, "prev": self.prev}, body)
        try:
            left = memoryview(data)
            while left:
                left = left[os.write(self.file, left):]
        except OSError as fault:
            self.take_back(fault)
        try:
            os.fdatasync(self.file)
        except OSError as fault:
            raise Broken(f"{self.folder}: writing failed ({fault.strerror}): look after the disk") from None
        self.size += len(data)
        record = Record({**head, "prev": self.prev}, body, digest, self.size, self.size - len(data))
        self.take(record)
        return record

    def take_back(self, fault: OSError) -> None:
        """Takes away what a write has left that failed in the middle."""
        try:
            os.ftruncate(self.file, self.size)
        except OSError as other:
            raise Broken(f"{self.folder}: {other.strerror}: look after the disk") from None
        if fault.errno in (errno.ENOSPC, errno.EDQUOT, errno.EFBIG):
            raise NoRoom(f"{self.folder}: {fault.strerror}") from None
        raise Broken(f"{self.folder}: {fault.strerror}: look after the disk") from None

    def room(self) -> int:
        """How many bytes the disk has left."""
        at = os.statvfs(self.folder)
        return at.f_bavail * at.f_frsize

    def close(self) -> None:
        for handle in (self.file, self.lock):
            if handle >= 0:
                os.close(handle)
        self.file = self.lock = -1
