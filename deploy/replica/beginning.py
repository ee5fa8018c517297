"""Begins the log of a shard with what the first machine has, and says on each machine whether its store is that."""
from __future__ import annotations

import os
import pathlib
import secrets

from log.archive import segments_in
from log.history import changes_in
from operating import supervisor, talk
from operating.settings import Settings, Wrong

from .daemon import BEGINS, name_in
from .shared_log import SharedLog
from .shared_log import Wrong as WrongLog

OWNER = "pdpd-replica"


def write(folder: pathlib.Path, name: str) -> None:
    """Notes that an archive begins with that log. (The folder is another user's, who may have put anything there.)"""
    (folder / BEGINS).unlink(missing_ok=True)
    file = os.open(folder / BEGINS, os.O_WRONLY | os.O_CREAT | os.O_EXCL | os.O_NOFOLLOW, 0o600)
    owner = os.stat(folder)
    with open(file, "w", encoding="ascii") as made:
        os.fchown(file, owner.st_uid, owner.st_gid)
        made.write(f"{name}\n")
        made.flush()
        os.fsync(file)


def name_or_none(folder: pathlib.Path) -> str | None:
    try:
        return name_in(folder)
    except WrongLog:
        return None


def is_of_log(folder: pathlib.Path) -> bool | None:
    """Whether the changes of an archive come from a log in etcd; None where it has none."""
    last = None
    for segment in reversed(segments_in([folder]) if folder.is_dir() else []):
        for last in changes_in([segment]):
            pass
        if last:
            return "log" in last.entry.head
    return None


def aside_of(folder: pathlib.Path) -> pathlib.Path:
    """Where the archive is that a machine had while it was alone."""
    return folder.with_name(f"{folder.name}.alone")


def put_aside(folder: pathlib.Path) -> pathlib.Path:
    """Puts the archive of one machine alone beside, where `pdpd-log --archive` reads it."""
    aside = aside_of(folder)
    if aside.exists():
        raise Wrong(f"{aside} is there already: move it away")
    folder.rename(aside)
    owner = os.stat(aside)
    folder.mkdir(mode=0o700)
    os.chown(folder, owner.st_uid, owner.st_gid)
    return aside


def begin(settings: Settings, shard: int, log: SharedLog, frozen: str = "") -> str:
    """Makes a shard's log if there is none, frozen for a reason if there is one, and has this machine's shard begin
    with it; what was done."""
    folder, by, beginning = pathlib.Path(settings.archives) / str(shard), supervisor.of(settings), log.beginning()
    is_replica = is_of_log(folder)
    if is_replica:
        if not beginning and not log.etcd.get(log.head):
            raise Wrong(f"{folder} has changes of a log that etcd has lost: pdpd-replicas push")
        return "was begun before"
    if beginning and is_replica is False:
        raise Wrong(f"{folder} has changes that aren't in the log: it was begun with what another machine has")
    by.stop_replica(shard)
    try:
        # (its program answers behind all that was sent before)
        has_domains = bool(talk.domains_of(settings, shard))
        if beginning:
            return follow(folder, beginning, has_domains)
        said = f", and the archive until now is {put_aside(folder)}" if is_replica is False else ""
        if not lead(folder, log, has_domains, frozen):
            # another machine has made it just now
            return follow(folder, log.beginning(), has_domains)
        return f"begins here{' with its domains, which the others take from here' * has_domains}{said}"
    finally:
        by.start(shard)


def lead(folder: pathlib.Path, log: SharedLog, has_domains: bool, frozen: str = "") -> bool:
    """Makes the log, which begins with what this machine has; whether there was none. (If this ends in between, the
    machine that knows the name is the one that has what the log begins with.)"""
    name = name_or_none(folder) or secrets.token_hex(32)
    write(folder, name)
    is_made = log.make(name, has_domains, frozen)
    if not is_made:
        (folder / BEGINS).unlink()
    return is_made


def follow(folder: pathlib.Path, beginning: tuple[bool, str] | None, has_domains: bool) -> str:
    """Has this machine begin with a log that is there, if its store is as it has to be."""
    is_full, name = beginning or (True, "")
    if name_or_none(folder) == name:
        return "was begun before"
    if has_domains:
        raise Wrong("the store has domains, and the log was begun with what another machine has: move the shard's "
                    "folders of DATA and ARCHIVES away, or, if nothing is in the log yet, the log")
    if is_full:
        return "begins with domains: take it from a machine that has them (pdpd-replicas join)"
    write(folder, name)
    return "begins here, too"
