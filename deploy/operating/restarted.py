"""What a tool restarts just now, as it notes itself: `status` tells that in place of an alarm."""
from __future__ import annotations

import contextlib
import os
import pathlib
import sys
import time
from collections.abc import Iterable, Iterator

from .processes import begin_of
from .settings import LOCKS, make_locks_folder, write_whole


def note(name: int | str) -> pathlib.Path:
    """Where it notes that of a shard, or of HAProxy."""
    return LOCKS / f"{name}.restarted"


def by(name: int | str) -> str:
    """Which tool restarts it now; empty where none does. (One that was killed may have left its note.)"""
    with contextlib.suppress(OSError, ValueError):
        process, said = note(name).read_text(encoding="utf-8", errors="replace").strip().split("\n")
        return said if begin_of(process.split()[0]) == process else ""
    return ""


@contextlib.contextmanager
def told(names: Iterable[int | str]) -> Iterator[None]:
    """This tool restarts them meanwhile, some of which it may have noted before."""
    now = time.strftime("%H:%M:%S UTC", time.gmtime())
    said = f"{begin_of(os.getpid())}\npdpd-shards {' '.join(sys.argv[1:])} (process {os.getpid()}, since {now})\n"
    mine = [name for name in names if not by(name)]
    try:
        for name in mine:
            with contextlib.suppress(OSError):  # (where its disk is full the alarm is told)
                make_locks_folder()
                write_whole(note(name), said)
        yield
    finally:
        for name in mine:
            with contextlib.suppress(OSError):
                note(name).unlink(missing_ok=True)


class Looks:
    """A look at something that a tool may begin or end to restart meanwhile."""

    def __init__(self, name: int | str):
        self.name, self.before = name, by(name)

    def tool(self) -> str:
        """Which tool restarts it, or did when the look began."""
        return by(self.name) or self.before
