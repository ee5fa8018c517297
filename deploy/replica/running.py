"""What all machines have to have alike, as this one has it now: the program that a shard's pdpd is, of which pdpd-run
notes the SHA-256 just before it starts it, and where messages to domains are led."""
from __future__ import annotations

import hashlib
import pathlib
import re
import time
import zlib

from log.archive import read_from
from log.pdpd import NotSent
from log.record import Damaged

from .shared_log import program_of

# how long the first start of a program is waited for, in seconds
PATIENCE, PAUSE = 60.0, 0.1


class Other(NotSent):
    """Another program takes connections there: it got nothing."""


def digest_of(program: pathlib.Path) -> str:
    return hashlib.sha256(program.read_bytes()).hexdigest()


def digest_in(file: pathlib.Path) -> str | None:
    """What was noted last; None where nothing was. (The folder is another user's.)"""
    try:
        found = read_from(file, 0, 64).decode("ascii")
    except (OSError, ValueError, Damaged):
        return None
    return found if re.fullmatch("[0-9a-f]{64}", found) else None


def map_of(file: pathlib.Path, shards: int) -> str:
    """What stands for a map of domains; nothing where each is in the shard of its name. (Of two lines the first
    counts.)"""
    entries: dict[str, str] = {}
    for line in file.read_text(encoding="utf-8", errors="replace").split("\n") if file.exists() else ():
        words = line.split()
        if len(words) == 2 and words[0] != "NEW" and not words[0].startswith("#"):
            entries.setdefault(*words)
    moved = sorted(pair for pair in entries.items() if pair[1] != str(zlib.crc32(pair[0].encode()) % shards))
    return hashlib.sha256(repr(moved).encode()).hexdigest()[:16] if moved else ""


class Running:
    """What a daemon goes by. `runs` is the file with the program that was started last, and `domains` the map: without
    these the program is that of a file, and nothing is in another shard than that of its name."""

    def __init__(self, shards: int, program: pathlib.Path | None, runs: pathlib.Path | None = None,
                 domains: pathlib.Path | None = None):
        self.shards, self.runs, self.domains = shards, runs, domains
        self.digest = self.wait_for(runs) if runs else digest_of(program)
        self.looked, self.found = (), ""
        self.map = self.map_now()
        self.program = program_of(self.digest, shards, self.map)

    @staticmethod
    def wait_for(file: pathlib.Path) -> str:
        """What was noted last; an error where nothing is for a while."""
        end = time.monotonic() + PATIENCE
        while (found := digest_in(file)) is None:
            if time.monotonic() > end:
                raise ValueError(f"{file} doesn't say which program runs: pdpd wasn't started yet (pdpd-shards "
                                 "restart)")
            time.sleep(PAUSE)
        return found

    def map_now(self) -> str:
        """What stands for the map, which is read where it has changed."""
        if self.domains is None:
            return ""
        at = self.domains.stat() if self.domains.exists() else None
        look = (at.st_ino, at.st_size, at.st_mtime_ns) if at else (0,)
        if look != self.looked:
            self.found, self.looked = map_of(self.domains, self.shards), look
        return self.found

    def other_program(self) -> str:
        """What is wrong; empty where the program is the same. Whoever has a connection before he asks is told of that
        one, or of a later one: its SHA-256 was noted before it was there."""
        found = self.digest if self.runs is None else digest_in(self.runs)
        return "" if found == self.digest else (
            f"pdpd was started as another program, {(found or 'unknown')[:12]} and not {self.digest[:12]}")

    def refuse_other(self) -> None:
        if why := self.other_program():
            raise Other(why)

    def other(self) -> str:
        """What isn't as it was when this began; empty where all is."""
        return self.other_program() or ("" if self.map_now() == self.map else "domains are led to other shards now")
