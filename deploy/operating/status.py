"""How the shards are: what an operator looks at first, and what a monitor asks."""
from __future__ import annotations

import contextlib
import json
import os
import pathlib
import re
import time
from typing import NamedTuple

from . import applied, front, listener, replicas, restarted, room, standing, supervisor, talk, trial
from .backups import COPIED, backups_of, emptied, failure, is_beyond
from .findings import Findings
from .processes import children_of, is_stopped
from .settings import FILE, LOCKS, MARK, BadToken, Settings, Wrong, at_work, read, words_of

# when a backup is too old, in seconds
OLD = 2 * 3600 + 600
# so many digits of a program's SHA-256 are shown
SHOWN = 12
HEADS = "shard", "state", "domains", "file MiB", "log MiB", "entry", "backup", "program"


class Shard(NamedTuple):
    """How a shard is. What can't be told is None."""
    shard: int
    state: str | None
    domains: int | None
    file_bytes: int | None
    log_bytes: int | None
    disk_free_bytes: int | None
    backup_seconds: float | None
    program: str | None
    position: int | None

    def cells(self) -> list[str]:
        """Its row of the table."""
        sizes = ["?" if size is None else f"{size / 2 ** 20:.1f}" for size in (self.file_bytes, self.log_bytes)]
        old = "none" if self.backup_seconds is None else f"{self.backup_seconds / 60:.0f} min ago"
        count, entry = ("-" if number is None else str(number) for number in (self.domains, self.position))
        return [str(self.shard), self.state or "?", count, *sizes, entry, old, (self.program or "?")[:SHOWN]]


class Report(NamedTuple):
    """What is found of all."""
    shards: list[Shard]
    certificate: front.Certificate | None
    findings: Findings
    at_work: str | None

    def exit_status(self) -> int:
        """1 where something is wrong, 2 where it can't be told."""
        return 1 if self.findings.wrong else 2 if self.findings.unknown else 0

    def certificate_days(self) -> float | None:
        """For how many days the certificate is valid."""
        return (self.certificate.last - time.time()) / 86_400 if self.certificate else None

    def text(self) -> str:
        """A table and lines."""
        rows = [list(HEADS), *(shard.cells() for shard in self.shards)] if self.shards else []
        widths = [max(map(len, column)) for column in zip(*rows)]
        lines = ["  ".join(cell.ljust(width) for cell, width in zip(row, widths)).rstrip() for row in rows]
        if self.certificate:
            lines.append(f"the certificate is valid for {self.certificate_days():.0f} days more, for "
                         f"{', '.join(self.certificate.names)}")
        if self.at_work:
            lines.append(f"at work: {self.at_work}")
        lines += self.findings.under_way
        lines += [f"WRONG: {what}" for what in self.findings.wrong]
        lines += [f"CAN'T TELL: {what}" for what in self.findings.unknown]
        return "\n".join([*lines, *([] if self.exit_status() else ["nothing is wrong"])])

    def json(self) -> str:
        """The same for a program."""
        found = {"status": self.exit_status(), "wrong": self.findings.wrong, "unknown": self.findings.unknown,
                 "at_work": self.at_work, "under_way": self.findings.under_way,
                 "certificate_days": self.certificate_days(),
                 "certificate_names": self.certificate.names if self.certificate else [],
                 "shards": [shard._asdict() for shard in self.shards]}
        return json.dumps(found)


def size(path: pathlib.Path) -> int:
    """The bytes of a file; 0 where it isn't there."""
    try:
        return path.lstat().st_size
    except FileNotFoundError:
        return 0


def sizes(settings: Settings, shard: int, findings: Findings) -> list[int | None]:
    """The bytes of a shard's files."""
    with findings.looking(f"the files of shard {shard}"):
        return [size(settings.folder(shard) / name) for name in trial.FILES]
    return [None for _ in trial.FILES]


def age_of_backup(settings: Settings, shard: int, findings: Findings) -> float | None:
    """How many seconds old the newest backup is; nothing where there is none."""
    with findings.looking(f"the backups of shard {shard}"):
        folders = backups_of(settings, shard)
        beyond = [path for path in folders if is_beyond(path)]
        if beyond:
            findings.add(f"shard {shard} has {len(beyond)} backups of moments to come (as {beyond[-1].name}): this "
                         "clock is behind, or was ahead. If it is right now, take these folders away")
        empty = [path for path in folders if not (path / trial.STORE).exists()]
        if empty:
            findings.add(f"{empty[-1]} has the name of a backup of shard {shard}, and no store: take it away")
        folders = [path for path in folders if path not in beyond and path not in empty]
        old = max(0.0, time.time() - folders[-1].stat().st_mtime) if folders else None
        if old is None or old > OLD:
            findings.add(f"shard {shard} has no backup of the last two hours: pdpd-shards backup {shard} makes one, or "
                         "tells why not")
        elif settings.backup_hook and not any(was_copied(path) for path in folders):
            findings.add(f"no backup of shard {shard} of the last two hours was copied away by {settings.backup_hook}: "
                         f"pdpd-shards backup {shard} tells why")
        for found in (emptied(settings, shard), failure(settings, shard)):
            if found:
                findings.add(found)
        return old
    return None


def was_copied(path: pathlib.Path) -> bool:
    """Whether a backup was copied away lately."""
    mark = path / COPIED
    return mark.exists() and time.time() - mark.stat().st_mtime <= OLD


def led_elsewhere(settings: Settings, shard: int, known: dict[str, str], lists: dict[int, list[str]],
                  findings: Findings) -> None:
    """Tells of domains whose messages go to another shard than the one that has them, and of those that nobody has
    where their messages go. `lists` has the domains of each shard that answers."""
    names, astray = lists[shard], {}
    for name in names:
        where = talk.place(settings, known, name)
        if where not in (shard, "moving"):
            # (a shard that doesn't answer may have one of the same name)
            is_alone = isinstance(where, int) and name not in lists.get(
                where, [] if where >= settings.shards else [name])
            astray.setdefault((where, is_alone), []).append(name)
    for (where, is_alone), found in astray.items():
        if isinstance(where, str):
            findings.add(f"shard {shard} has {front.first_of(found)}, which the map of all groups leads to {where}: "
                         "pdpd-replicas carry was cut; give it again")
            continue
        heals = f"; it hasn't that: pdpd-shards remap leads them to shard {shard}" if is_alone else \
            ": look which is right"
        findings.add(f"shard {shard} has {front.first_of(found)}, whose messages go to shard {where}{heals}")
    # (of a domain that the map of all groups leads that one counts)
    lost = sorted(name for name, where in known.items() if where == str(shard) and name not in names
                  and talk.place(settings, known, name) == shard)
    if lost:
        findings.add(f"the map leads {front.first_of(lost)} to shard {shard}, where no such domain is. What was "
                     "removed is taken out of the map by pdpd-shards remap; or an older backup was put back")


def last_words(settings: Settings, shard: int) -> str:
    """What the log of a shard that is away ends with, in words; nothing where that is how it begins."""
    by = supervisor.of(settings)
    try:
        line = by.last_line(by.SHARD.format(shard))
    except OSError:
        return ""
    return f". Its log ends with: {line}" if line and not line.endswith(": begins") else ""


def state_of(settings: Settings, shard: int, lists: dict[int, list[str]],
             findings: Findings) -> tuple[str | None, int | None]:
    """The state of a shard, and how many domains it has, which go into `lists`."""
    try:
        names = talk.domains_of(settings, shard)
    except PermissionError as fault:
        findings.cannot_tell(f"how shard {shard} is: {words_of(fault)}")
        return None, None
    except Wrong as fault:
        findings.add(f"{fault}{last_words(settings, shard) if type(fault) is Wrong else ''}")
        if isinstance(fault, BadToken):
            return ("up" if listener.is_own(settings, shard) else "down"), None
        return {talk.OtherToken: "up", listener.Impostor: "taken"}.get(type(fault), "down"), None
    lists[shard] = names
    return "up", len(names)


def program_of(settings: Settings, shard: int, installed: str | None, is_up: bool, findings: Findings) -> str | None:
    """The SHA-256 of the program that a shard runs; nothing where it runs none."""
    with findings.looking(f"the program of shard {shard}"):
        process = supervisor.of(settings).pid(shard)
        if not process:
            return None
        try:
            found = trial.digest_of(f"/proc/{process}/exe")
        except (FileNotFoundError, ProcessLookupError):
            return None  # (it has ended meanwhile)
        if installed and found != installed and is_up:  # (else it may be what starts it, again and again)
            findings.add(f"shard {shard} runs another program (SHA-256 {found[:SHOWN]}) than {settings.program} "
                         f"({installed[:SHOWN]}): pdpd-shards upgrade")
        return found if is_up or found == installed else None
    return None


def look_at_open_files(settings: Settings, shard: int, findings: Findings) -> None:
    """Whether a shard's program has those files open that its folder has, as it has written them. (Who may not look
    into it was told that.)"""
    with findings.looking(f"the program of shard {shard}"), \
            contextlib.suppress(FileNotFoundError, ProcessLookupError, PermissionError):
        for what in standing.lost_files(settings, shard, supervisor.of(settings).pid(shard)):
            findings.add(what)


def look_at_disk(settings: Settings, shard: int, findings: Findings) -> int | None:
    """The bytes that are left on a shard's disk. It tells where there are few, and where none are kept for that."""
    path, found = settings.folder(shard), None
    with findings.looking(f"the disk of shard {shard}"):
        found = room.on_disk_of(path) if path.exists() else None  # (else what looks at its files tells it)
    if not found:
        return None
    if found.is_scarce():
        findings.add_once(path.stat().st_dev, f"the disk of shard {shard} {found.text()}: "
                          f"{room.advice(settings, shard)}")
        return found.free
    with findings.looking(f"the reserve of shard {shard}"):
        if not room.is_reserved(settings, shard) and not applied.is_lost(settings, shard):
            findings.add(f"shard {shard} has no reserve of {settings.reserve} MiB for the day on which its disk is "
                         "full: pdpd-shards reserve")
    return found.free


def look_at_disks(settings: Settings, findings: Findings) -> None:
    """Whether there is room on the disks of all shards, of the backups and of the logs; and whether the tools can write
    what they write."""
    logs = {"the logs": supervisor.LOGS} if settings.supervisor == "runit" else {}
    places = {"DATA": settings.data, "BACKUPS": settings.backups, **logs, "SOCKETS": settings.sockets,
              str(LOCKS): LOCKS, str(FILE.parent): FILE.parent, "HAPROXY_ETC": settings.haproxy_etc}
    for name, path in places.items():
        with findings.looking(f"the disk of {name}"):
            if os.path.exists(path) and (found := room.on_disk_of(path)).is_scarce():
                findings.add_once(os.stat(path).st_dev, f"the disk of {name} {found.text()}")
    shards = [settings.folder(shard) for shard in range(settings.shards)]
    for path in (*shards, settings.backups, settings.haproxy_etc, FILE.parent, *logs.values(), settings.sockets, LOCKS):
        with findings.looking(f"the file system of {path}"):
            if os.path.exists(path) and (fault := room.fault_of(path)):
                findings.add_once((os.stat(path).st_dev, fault), f"the file system of {path} {fault}")


def look_at_map(settings: Settings, is_at_work: bool, findings: Findings) -> dict[str, str] | None:
    """What the map's file says; nothing where it can't be read, or where it isn't known by which number domains are led
    that it hasn't. It tells of what was cut."""
    known = None
    with findings.looking("the map"):
        applied.refuse_left_behind(settings)
        talk.refuse_other_count(settings)
        known = talk.map_in_file(settings)
    for name, place in (known or {}).items():
        # (a tool that is at work may have it so)
        if place == "moving" and not is_at_work:
            findings.add("no domain can be made: a growth was cut; give pdpd-shards grow again, or remap"
                         if name == "NEW" else
                         f"{name} is moving: if nobody moves it now, give pdpd-shards move again")
    return known


def look_at_settings(settings: Settings, shard: int, findings: Findings) -> Settings:
    """The settings, but for where the shard is, which is as it was started. It tells what wasn't applied."""
    with findings.looking(f"the settings of shard {shard}"):
        own = applied.where_it_is(settings, shard)
        applied.refuse_left_behind(settings)
        if changed := applied.changed(settings, shard):
            findings.add(f"{', '.join(changed)} of {FILE} isn't what shard {shard} was started with: pdpd-shards "
                         f"{'config --write, then ' if {*applied.PLACES} & {*changed} else ''}restart")
        return own
    return applied.where_it_starts(settings, shard)


def shard_report(settings: Settings, shard: int, lists: dict[int, list[str]], installed: str | None,
                 findings: Findings) -> Shard:
    """How a shard is, where it was started."""
    # (what a tool that restarts it changes)
    passing, looks = Findings(), restarted.Looks(shard)
    own = look_at_settings(settings, shard, passing)
    with passing.looking(f"how shard {shard} is"):
        if os.path.lexists(own.folder(shard) / MARK):
            passing.add(f"a backup was put back in part in shard {shard}: give pdpd-shards put-back again")
    with findings.looking(f"the files of shard {shard}"):
        standing.look_at_store(own, shard, findings)
    state, count = state_of(own, shard, lists, passing)
    program = program_of(own, shard, installed, state == "up", passing)
    look_at_open_files(own, shard, findings)
    position, backed_up = replicas.look(settings, shard, passing), age_of_backup(settings, shard, passing)
    if (tool := looks.tool()) and state == "down":
        state = "restarting"
    findings.take(passing, tool, f"shard {shard}")
    return Shard(shard, state, count, *sizes(own, shard, findings), look_at_disk(own, shard, findings),
                 backed_up, program, position)


def goes_on(tool: str | None, findings: Findings) -> bool:
    """Whether a tool is at work. It tells of one that stands still, as by ^Z at its terminal."""
    process = re.search(r"\(process (\d+),", tool or "")
    # (one waits for a program that it has begun, and can't be stopped itself before that runs)
    still = [each for each in (process[1], *children_of(process[1])) if is_stopped(each)] if process else []
    if still:
        findings.add(f"{tool} stands still, and all other tools wait for it: kill -CONT "
                     f"{' '.join(map(str, dict.fromkeys([process[1], *still])))} has it go on")
        return False
    return tool is not None


def look_at_proxy(settings: Settings, lists: dict[int, list[str]], findings: Findings) -> front.Certificate | None:
    """How HAProxy is, and whether it reaches the shards that answer; where it says nothing, that alone."""
    if silent := front.why_silent(settings):
        findings.add(silent)
        return None
    for shard in lists:
        passing, looks = Findings(), restarted.Looks(shard)
        front.look_whether_reached(applied.where_it_starts(settings, shard), shard, passing)
        findings.take(passing, looks.tool(), f"shard {shard}")
    passing, looks = Findings(), restarted.Looks(applied.PROXY)
    found = front.look(settings, passing)
    findings.take(passing, looks.tool(), "HAProxy")
    return found


def report(settings: Settings) -> Report:
    """How all is."""
    findings, installed, lists, tool = Findings(), None, {}, at_work()
    known = look_at_map(settings, goes_on(tool, findings), findings)
    with findings.looking("the program that is installed"):
        settings.refuse_no_program()
        installed = trial.digest_of(settings.program)
        standing.refuse_unrunnable(settings)
    with findings.looking("what HAProxy was started with"):
        if changed := applied.changed_of_logs(settings):
            findings.add(f"{', '.join(changed)} of {FILE} isn't what was applied: pdpd-shards config --write, reload")
    shards = [shard_report(settings, shard, lists, installed, findings) for shard in range(settings.shards)]
    for shard in lists if known is not None else ():
        led_elsewhere(settings, shard, known, lists, findings)
    look_at_disks(settings, findings)
    standing.look(settings, findings)
    replicas.look_at_decisions(settings, findings)
    certificate = look_at_proxy(settings, lists, findings)
    with findings.looking("the shards' ports"):
        if found := listener.warning(settings):
            findings.add(found)
    return Report(shards, certificate, findings, tool)


def report_of_file() -> Report:
    """How all is by the settings' file; where that can't be read, that alone."""
    findings = Findings()
    with findings.looking(str(FILE)):
        return report(read())
    return Report([], None, findings, at_work())
