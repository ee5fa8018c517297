"""Puts a backup in place of a shard's files, which are kept beside.

The folder is the shard's user's: the files come from a folder in it that root alone can write into, and each step
is by descriptors (`owned`).
"""
from __future__ import annotations

import contextlib
import os
import pathlib
import re
from collections.abc import Iterable, Iterator
from typing import NamedTuple

from . import listener, moving, talk
from .backups import NAME, SUMS, name_of_moment, refuse_damaged
from .owned import PLANTED, Folder
from .settings import MARK, Wrong
from .trial import FILES, STORE, copy_files, domains_in_folder

# where the files of a backup wait, and the name of a folder for those that they replace
COMING = "coming"
ASIDE = re.compile(r"before-[0-9TZ.]+")
# what is to be done about a backup that others can write into, as one that was copied here by another user
FOREIGN = ("isn't root's alone. If you have copied it there: chown root: {0} && chmod 700 {0}; else look who put it "
           "there")
# so many names are told of many
MOST = 12


def folder_aside(place: Folder) -> Folder:
    """A new folder for the files that a backup replaces; behind a put-back that was cut, the one of that."""
    if not place.has(MARK):
        return place.new_folder(f"before-{name_of_moment()}")
    name = place.line(MARK)
    if not ASIDE.fullmatch(name):
        raise Wrong(f"{place.path / MARK} is of no put-back: {PLANTED}")
    return place.closed_folder(name) if place.has(name) else place.new_folder(name)


def keep_aside(place: Folder, aside: Folder, name: str) -> None:
    """Moves one of a shard's files into the folder aside. One that another has copied there, who may have meant it for
    the store, is kept as well; what is no file, or one of another's by a second name, isn't."""
    place.move(name, aside)
    if not aside.has_file(name, place.owner):
        aside.clear(name)


def replace_files(place: Folder, coming: Folder, aside: Folder) -> None:
    """Moves a shard's files away and a backup's in; the disk keeps each step before the next one.

    The store leaves last. If it is away already, what stands in its place is of a put-back that was cut, and goes.
    """
    is_away = aside.has(STORE)
    for name in reversed(FILES):
        if place.has(name) and is_away:
            place.clear(name)
        elif place.has(name):
            keep_aside(place, aside, name)
        place.sync()
        aside.sync()
    for name in reversed(FILES):
        if coming.has(name):
            coming.move(name, place)
        place.sync()


def write_mark(place: Folder, coming: Folder, aside: Folder) -> None:
    """Writes the name of the folder aside into the mark, whole or not at all."""
    coming.write(MARK, f"{aside.path.name}\n", place.owner)
    coming.sync()
    coming.move(MARK, place)
    place.sync()


@contextlib.contextmanager
def leave_nothing(place: Folder, aside: Folder) -> Iterator[None]:
    """After an error before a file was moved, the folders that were made for it go."""
    try:
        yield
    except BaseException:
        if not place.has(MARK) and not os.listdir(aside.fd):
            place.clear(COMING)
            with contextlib.suppress(OSError):  # (what isn't empty is another one)
                os.rmdir(aside.path.name, dir_fd=place.fd)
        raise


class Plan(NamedTuple):
    """What a put-back would do."""
    shard: int
    name: str
    # the domains of the backup, and those that the shard has now (nothing where it doesn't answer)
    domains: list[str]
    before: list[str] | None
    # the domains of the backup whose messages are led to other shards
    astray: dict[str, object]
    # whether its sums have shown that it is as it was made
    is_summed: bool
    # the machine on which it was made, where that isn't this one
    elsewhere: str
    # whether changes are logged
    is_logged: bool

    def lines(self) -> list[str]:
        """What is told before it is done."""
        now, then = None if self.before is None else {*self.before}, {*self.domains}
        lines = [f"shard {self.shard} gets what {self.name} has: {len(then)} domains"]
        if now is None:
            lines.append("what it has now isn't known, since it doesn't answer")
        else:
            lines += [f"away then: {listed(now - then)}", f"there again: {listed(then - now)}"]
            lines.append(f"as they were then: {listed(now & then)}. Policies and attributes are those of then, and "
                         "tokens that were revoked since are valid again")
        if self.elsewhere:
            lines.append(f"it was made on another machine, {self.elsewhere}, and this is {os.uname().nodename}")
        if self.is_logged:
            lines.append("the log of changes isn't told: what it says of since then isn't what the shard has")
        if not self.is_summed:
            lines.append("it has no sums: that all of it is there, and as it was made, isn't known")
        if self.astray:
            lines.append(f"in the shard, but led to another one: {listed(self.astray)}. status tells of each")
        return lines


def listed(names: Iterable[str]) -> str:
    """Names in a line, the first ones of many."""
    ordered = sorted(names)
    more = f" and {len(ordered) - MOST} more" if len(ordered) > MOST else ""
    return f"{len(ordered)}" + (f" ({', '.join(ordered[:MOST])}{more})" if ordered else "")


@contextlib.contextmanager
def backup_of(settings, shard: int, name: str) -> Iterator[Folder]:
    """The open folder of a backup, or of the files that a put-back has kept aside: with these it is undone."""
    is_aside = ASIDE.fullmatch(name) is not None
    if not is_aside and not NAME.fullmatch(name):
        raise Wrong(f"{name!r} is no backup's name: pdpd-shards backups lists them")
    above = settings.folder(shard) if is_aside else pathlib.Path(settings.backups) / str(shard)
    with contextlib.ExitStack() as opened:
        try:
            place = opened.enter_context(Folder(above))
            told = [] if is_aside else [FOREIGN.format(above / name)]
            source = opened.enter_context(place.closed_folder(name, *told))
        except FileNotFoundError:
            raise Wrong(f"{above / name} is no backup: pdpd-shards backups lists them") from None
        if not source.has(STORE):
            raise Wrong(f"{above / name} is no backup, since it has no {STORE}")
        yield source


def refuse_other_shard(shard: int, source: Folder) -> None:
    """An error where a backup says that it is another shard's. (Files that were kept aside say nothing.)"""
    said = source.line("shard") if source.has("shard") else f"{shard}"
    if said.split()[:1] != [str(shard)]:
        raise Wrong(f"{source.path} is a backup of shard {said}, and not of {shard}: its domains would be answered by "
                    "nobody")


def made_elsewhere(source: Folder) -> str:
    """The name of the machine on which a backup was made; nothing where that is this one, or isn't known."""
    said = source.lines("shard")[1:2] if source.has("shard") else []
    return said[0] if said and said[0] not in ("", os.uname().nodename) else ""


def plan(settings, shard: int, name: str) -> Plan:
    """What a put-back would do. The backup is opened."""
    settings.operator()
    with backup_of(settings, shard, name) as source:
        refuse_other_shard(shard, source)
        refuse_damaged(source)
        is_summed = source.has(SUMS) or ASIDE.fullmatch(name) is not None
        elsewhere = made_elsewhere(source)
        domains = domains_in_folder(settings, shard, source)
    try:
        before = talk.domains_of(settings, shard)
    except (listener.Impostor, talk.NoProxy):
        raise
    except Wrong:
        before = None
    known, _ = moving.map_or_why_not(settings)
    places = {name: talk.place(settings, known, name) for name in domains}
    return Plan(shard, name, domains, before, {name: led for name, led in places.items() if led != shard},
                is_summed, elsewhere, bool(settings.audit))


def put_back(settings, planned: Plan) -> pathlib.Path:
    """Puts a backup in place of a shard's files, which are kept beside. Gives where the files before are.

    From before the first file is moved until all of it is there, a mark keeps the shard from starting.
    """
    shard = planned.shard
    with Folder(settings.folder(shard)) as place, backup_of(settings, shard, planned.name) as source:
        place.clear(COMING)
        with place.new_folder(COMING) as coming, folder_aside(place) as aside, leave_nothing(place, aside):
            copy_files(source, coming, place.owner)
            coming.sync()
            with moving.restart_between_messages(settings, shard, are_replaced=True):
                write_mark(place, coming, aside)
                replace_files(place, coming, aside)
                place.clear(COMING)
                place.clear(MARK)
                # before the shard starts: a mark that came back would have what it answers then replaced once more
                place.sync()
            return aside.path


def kept_aside(settings, shard: int) -> list[str]:
    """The names of a shard's folders with files that a put-back has replaced, the oldest first."""
    try:
        names = os.listdir(settings.folder(shard))
    except FileNotFoundError:
        return []
    return sorted(name for name in names if ASIDE.fullmatch(name))
