"""Keeps the lines of decisions that HAProxy sends: in files of so many bytes, for so many days.

HAProxy holds lines in a ring of its own while this is away, and sends each behind its length (RFC 6587, 3.4.1). A line
of a decision ends with a JSON object, which is kept; others are dropped.
"""
from __future__ import annotations

import grp
import os
import pathlib
import re
import socket
import sys
import threading
import time
from collections.abc import Callable, Iterator

from .server import listening

FILE = re.compile(r"decisions\.\d{8}T\d{6}\.\d{6}Z\.log")
FRAME = re.compile(rb"(\d{1,6}) ")
BEGIN = b' {"begin"'
DAY = 86_400


class BadFrame(Exception):
    """What HAProxy doesn't send."""


def frames_in(connection: socket.socket) -> Iterator[bytes]:
    """The lines that come over a connection."""
    held = b""
    while more := connection.recv(1 << 18):
        held += more
        at = 0
        while found := FRAME.match(held, at):
            end = found.end() + int(found[1])
            if len(held) < end:
                break
            yield held[found.end():end]
            at = end
        held = held[at:]
        if held and not (held[:1].isdigit() and len(held) < 1 << 20):
            raise BadFrame(held[:20])


class Log:
    """The files. Each line is with the kernel once `add` has returned."""

    def __init__(self, folder: pathlib.Path, most_bytes: int, days: int, clock: Callable[[], float] = time.time):
        self.folder, self.most_bytes, self.days, self.clock = folder, most_bytes, days, clock
        self.lock, self.file, self.size, self.began = threading.Lock(), -1, 0, 0.0

    def add(self, line: bytes) -> None:
        """Keeps a line, if it is of a decision."""
        at = line.find(BEGIN)
        if at < 0:
            return
        data = line[at + 1:].strip() + b"\n"
        with self.lock:
            now = self.clock()
            if self.file < 0 or self.size + len(data) > self.most_bytes or now // DAY != self.began // DAY:
                self.begin(now)
            self.write(data)

    def write(self, data: bytes) -> None:
        """Writes a line, whole or not at all: the next one would be taken for its end."""
        left = memoryview(data)
        try:
            while left:
                left = left[os.write(self.file, left):]
        except OSError:
            os.ftruncate(self.file, self.size)
            raise
        self.size += len(data)

    def begin(self, now: float) -> None:
        """Begins a file, and removes those that are too old."""
        if self.file >= 0:
            before, self.file = self.file, -1  # (once it is closed its number is another one's)
            os.close(before)
        name = time.strftime("%Y%m%dT%H%M%S", time.gmtime(now)) + f".{int(now % 1 * 1e6):06d}Z"
        path = self.folder / f"decisions.{name}.log"
        self.file = os.open(path, os.O_WRONLY | os.O_CREAT | os.O_APPEND | os.O_NOFOLLOW | os.O_CLOEXEC, 0o640)
        os.fchmod(self.file, 0o640)
        self.size, self.began = os.fstat(self.file).st_size, now
        for old in files_in(self.folder):
            if old != path and old.stat().st_mtime < now - self.days * DAY:
                old.unlink()


def files_in(folder: pathlib.Path) -> list[pathlib.Path]:
    """The files of decisions, in order."""
    return sorted(path for path in folder.iterdir() if FILE.fullmatch(path.name))


def take(connection: socket.socket, log: Log) -> None:
    """Keeps what comes over one connection."""
    try:
        with connection:
            for line in frames_in(connection):
                log.add(line)
    except (OSError, BadFrame) as fault:
        print(f"pdpd-log: a connection ends: {fault}", file=sys.stderr, flush=True)


def receive(address: str, group: str, log: Log) -> None:
    """Takes connections for ever; who is in the group may connect."""
    server = listening(address)
    if group:
        os.chown(address.removeprefix("unix:"), -1, grp.getgrnam(group).gr_gid)
    while True:
        connection, _ = server.accept()
        threading.Thread(target=take, args=(connection, log), daemon=True).start()
