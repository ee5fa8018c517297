"""Whether another program wrote over a store that a shard's program has open, as a copy by hand does: the shard goes on
with what it holds in memory, and that is lost once it ends.

The files alone tell it (https://www.sqlite.org/fileformat2.html#the_write_ahead_log). The program adds frames to the
log (-wal). It writes into the file only just before it begins the log anew, under the next number. So of what was seen
of the same program before nothing goes, and no frame stands behind a place that it hasn't written.
"""
from __future__ import annotations

import contextlib
import json
import os
import pathlib
import struct
import time
from typing import NamedTuple

from . import listener, talk
from .owned import Folder
from .processes import begin_of
from .settings import LOCKS, Wrong, write_whole
from .trial import FILES

# the heads of a log and of a frame, and the numbers by which a log begins whose sums are of little-endian words, or of
# big-endian ones
HEAD, FRAME = struct.Struct(">8I"), struct.Struct(">6I")
MAGIC = 0x377F0682, 0x377F0683
# numbers of logs go round
ROUND = 2 ** 32
# so many frames of a log are looked at, some 800 MB
MOST = 200_000
# how long the program may take for an answer, in seconds: a watchdog would kill one that takes longer
PATIENCE = 5.0


class NoHead(Exception):
    """The log has none by now."""


class Changing(Exception):
    """The log was begun anew meanwhile."""


class Seen(NamedTuple):
    """What was seen of a shard's files: of which process, when the file was written, how the log begins, how far it
    goes with the sums up to there, and whether something stands behind that."""
    process: str
    written: int
    number: int
    salts: list[int]
    frames: int
    sums: list[int]
    has_gap: bool


class Log:
    """An open log."""

    def __init__(self, file: int):
        self.file = file
        head = os.pread(file, HEAD.size, 0)
        if len(head) < HEAD.size:
            raise NoHead
        magic, _, self.page, self.number, *rest = HEAD.unpack(head)
        self.salts, self.sums = rest[:2], rest[2:]
        self.is_big = bool(magic & 1)
        if magic not in MAGIC or self.added([0, 0], head[:24]) != self.sums:
            raise NoHead
        self.size = FRAME.size + self.page

    def added(self, sums: list[int], data: bytes) -> list[int]:
        """The sums of what comes before, and this."""
        one, other = sums
        words = struct.unpack(f"{'>' if self.is_big else '<'}{len(data) // 4}I", data)
        for first, second in zip(words[::2], words[1::2]):
            one = one + first + other & 0xFFFFFFFF
            other = other + second + one & 0xFFFFFFFF
        return [one, other]

    def head(self, frame: int) -> list[int]:
        """The head of a frame: page, size, two salts, two sums; nothing behind the log's end."""
        found = os.pread(self.file, FRAME.size, HEAD.size + frame * self.size)
        return [*FRAME.unpack(found)] if len(found) == FRAME.size else []

    def goes_to(self, frame: int, sums: list[int]) -> tuple[int, list[int]]:
        """How many frames are the log's, and their sums, where so many are."""
        while (head := self.head(frame)) and head[2:4] == self.salts and frame < MOST:
            data = os.pread(self.file, self.size, HEAD.size + frame * self.size)
            now = self.added(self.added(sums, data[:8]), data[FRAME.size:])
            if now != head[4:]:
                break
            frame, sums = frame + 1, now
        return frame, sums

    def is_later(self, salts: list[int]) -> bool:
        """Whether a frame is of this log, or of one that was begun behind it."""
        return salts == self.salts or 0 < (salts[0] - self.salts[0]) % ROUND < ROUND // 2

    def is_begun(self, number: int) -> bool:
        """Whether a frame is the program's, or one that it is just writing: the first byte of its salts comes last."""
        found = self.head(number)[2:4]
        return bool(found) and [found[0] & 0xFFFFFF, found[1]] == [self.salts[0] & 0xFFFFFF, self.salts[1]]

    def has_gap(self, end: int) -> bool:
        """Whether a frame of the program's stands behind a place that has none, or among the log's one of a later log.
        (What stands at the end is looked at last: the program goes on meanwhile, and writes one behind the other.)"""
        number = 0
        while (found := self.head(number)[2:4]) and number < MOST:
            if found != self.salts if number < end else self.is_later(found):
                return number < end or not self.is_begun(end)
            number += 1
        return False


def note(shard: int) -> pathlib.Path:
    """Where root's tools note what they have seen."""
    return LOCKS / f"{shard}.seen"


def noted(shard: int, process: str) -> Seen | None:
    """What was seen of that process before."""
    with contextlib.suppress(OSError, ValueError, TypeError):
        found = Seen(*json.loads(note(shard).read_text(encoding="ascii")))
        return found if found.process == process else None
    return None


def looked(folder: Folder, process: str, before: Seen | None) -> Seen:
    """What is seen now."""
    with folder.reading(FILES[0]) as store, folder.reading(FILES[1]) as file:
        log, written = Log(file), os.fstat(store).st_mtime_ns
        frame, sums = 0, log.sums
        # (what was noted is gone on with, where the log has it still)
        if before and before.salts == log.salts and 0 < before.frames and \
                log.head(before.frames - 1)[2:] == [*before.salts, *before.sums]:
            frame, sums = before.frames, before.sums
        frame, sums = log.goes_to(frame, sums)
        seen = Seen(process, written, log.number, log.salts, frame, sums, log.has_gap(frame))
        if Log(file).sums != log.sums or os.fstat(store).st_mtime_ns != written:
            raise Changing
        return seen


def is_behind(now: Seen, before: Seen) -> bool:
    """Whether something of what was seen before has gone, or the log has got a gap since. (A failure of power may have
    left one that was there when the program began.)"""
    if now.has_gap and not before.has_gap:
        return True
    if now.salts == before.salts:
        return now.frames < before.frames or (now.frames == before.frames and now.sums != before.sums) or \
            now.written != before.written
    since = (now.number - before.number) % ROUND
    return not 0 < since < ROUND // 2 or (now.salts[0] - before.salts[0]) % ROUND != since


def suspicion(settings, shard: int, pid: int) -> tuple[object, ...] | None:
    """What is seen where it seems so at this moment, in which the program may be writing; else that is noted. Who may
    not look finds nothing, and neither does one who looks before the program takes connections: it may begin the log
    anew until then."""
    process = begin_of(pid)
    before = noted(shard, process)
    with contextlib.suppress(OSError, Wrong), Folder(settings.folder(shard)) as folder:
        if not before and not listener.is_own(settings, shard):
            return None
        try:
            now = looked(folder, process, before)
        except Changing:
            return None
        except NoHead:
            return (process, "no head") if before else None
        if before and is_behind(now, before):
            return process, now.written, now.number, now.salts, *((now.frames, now.sums) if now.has_gap else ())
        if now != before and process:
            write_whole(note(shard), json.dumps(now), 0o600)
    return None


def is_turn_over(settings, shard: int) -> bool:
    """Whether what the program was doing is done: it answers one message behind the other, and writes back what a log
    has with the change that begins it anew."""
    try:
        status, _ = talk.own_reply(settings, shard, "GET", "/operator/domains", "-", PATIENCE)
        return status == 401
    except (*talk.NO_REPLY, Wrong):
        return False


def fault_of(settings, shard: int, pid: int) -> str | None:
    """What is told where a shard's files were written over while that program runs: where it seems so, and still does
    in the same way once what the program was doing is done."""
    now, end = suspicion(settings, shard, pid), time.monotonic() + PATIENCE
    while now and is_turn_over(settings, shard) and time.monotonic() < end:
        before, now = now, suspicion(settings, shard, pid)
        if now == before:
            return told(settings, shard)
    return None


def told(settings, shard: int) -> str:
    """What heals it."""
    store = settings.folder(shard) / FILES[0]
    return (f"another program wrote over {store}, or its log (-wal), while the program of shard {shard} has them open, "
            "as a copy by hand does. What was changed since then, and perhaps before, is in the program's memory alone, "
            "and is lost once it ends. Restart nothing: note what the API gives of its domains, give pdpd-shards put-back "
            f"{shard} BACKUP with the last one from before, and make that again. (If it is known that nothing was "
            f"written, as by touch: rm {note(shard)})")
