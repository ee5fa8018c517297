"""Copies of a shard's two files as they stand at one instant, each opened by pdpd before it counts as a
backup.

The process is stopped (SIGSTOP) while they are copied, and messages wait. The copy is what a kill at that
instant would have left, so all that was answered is in it. Files that are copied while it runs may be
refused as damaged, or, worse, open and lack what was answered.
"""
import contextlib
import os
import pathlib
import re
import shutil
import signal
import subprocess
import sys
import time

from . import applied, listener, overwritten, supervisor, talk
from .owned import Folder, run, sum_of
from .standing import user_of_shards
from .settings import Wrong, alone, harmless, put_off_signals, words_of
from .trial import FILES, copy_files, domains_in_backup, refuse_moved

# the name of a backup
NAME = re.compile(r"[0-9]{8}T[0-9]{6}(\.[0-9]{3})?Z")
# after how long settings are looked for again that can't be read
SOON = 60
# by how much a name may be beyond now, in seconds
AHEAD = 60
# how long the program may take that copies a backup away, in seconds
HOOK = 3600.0
# how many letters of a reason are kept
TOLD = 500
# the file in a backup's folder that says that it was
COPIED = "copied"


# the file in a shard's folder of backups that says why the last one that a service tried wasn't made
FAILED = "failed"
# the file of a backup that has its number of domains, and that of the backup before, and the one that has the SHA-256
# of each of its files, as `sha256sum --check` reads it
COUNTS, SUMS = "domains", "sums"


def state_of(pid):
    """The state of a process and when it began; nothing where it is gone."""
    try:
        words = pathlib.Path(f"/proc/{pid}/stat").read_text().rpartition(")")[2].split()
    except OSError:
        return None
    return words[0], words[19]


@contextlib.contextmanager
def pause_process(pid):
    """The process stands still meanwhile; an error where it was killed or went on."""
    os.kill(pid, signal.SIGSTOP)
    try:
        end = time.monotonic() + 2
        while (before := state_of(pid)) is None or before[0] != "T":
            if before is None or time.monotonic() > end:
                raise Wrong("the process doesn't stop")
            time.sleep(0.001)
        yield
        if state_of(pid) != before:
            raise Wrong("the process was killed or went on while its files were copied: copy within one disk")
    finally:
        with contextlib.suppress(ProcessLookupError):
            os.kill(pid, signal.SIGCONT)


def name_of_moment():
    """The name of a folder that is made now: the time, to a thousandth of a second."""
    now = time.time()
    return time.strftime("%Y%m%dT%H%M%S", time.gmtime(now)) + f".{int(now % 1 * 1000):03}Z"


def fill_backup(settings, shard, pid, made):
    """Writes what a backup has into a folder, and gives how long the shard stood still. What was removed from its
    folder is taken from its program, which has it open."""
    with Folder(settings.folder(shard)) as place:
        began = time.perf_counter()
        with put_off_signals(), pause_process(pid):
            copy_files(place, made, is_open_in=pid)
        took = time.perf_counter() - began
    # where its domains are found, for a machine that begins anew
    made.write("shard", f"{shard} of {settings.shards}\n{os.uname().nodename}\n")
    if settings.map.exists():
        made.write(settings.map.name, settings.map.read_text())
    made.sync()
    return took


def sums_of(folder):
    """The SHA-256 of each file of a store in a folder, a line each."""
    lines = ""
    for name in FILES:
        if folder.has(name):
            with folder.reading(name) as file, open(file, "rb", closefd=False) as read:
                lines += f"{sum_of(read, str(folder.path / name))}  {name}\n"
    return lines


def refuse_damaged(folder):
    """An error where the files of a backup aren't those that were copied: of a log that was damaged or cut the program
    reads the beginning alone. (A snapshot, and backups of earlier versions, have no sums.)"""
    if not folder.has(SUMS):
        return
    with folder.reading(SUMS) as file:
        wanted = os.read(file, 1000).decode(errors="replace")
    if wanted != sums_of(folder):
        raise Wrong(f"{folder.path} was damaged or changed since it was made (sha256sum --check {SUMS}): take another "
                    "backup")


def make_lost_folder(settings, shard):
    """Makes the folder of a shard anew that was removed under its program, which has its files open still."""
    folder = settings.folder(shard)
    if not folder.exists():
        user = user_of_shards()
        folder.mkdir(0o700)
        os.chown(folder, *user)


class Lacking(Wrong):
    """A copy lacks what the program answers."""


def names_answered(settings, shard):
    """The domains that a shard's program has; none where it doesn't tell."""
    with contextlib.suppress(Wrong, OSError):
        return {*talk.domains_of(settings, shard)}
    return set()


def refuse_lacking(settings, shard, before, domains):
    """An error where the copy lacks domains that the program had before it was made, and has. (The program goes by what
    it holds in memory: a file that was written over under it is told by nothing else.)"""
    lacks = sorted((before - {*domains}) & names_answered(settings, shard)) if before - {*domains} else []
    if lacks:
        raise Lacking(f"the copy lacks {', '.join(lacks[:5])}{' ..' if lacks[5:] else ''}, {len(lacks)} of the domains "
                      f"that the program of shard {shard} answers: another program wrote over its files, as a copy by "
                      "hand. What was changed since then is in its memory alone, and is lost once it ends: restart "
                      f"nothing, note what the API gives of these, give pdpd-shards put-back {shard} BACKUP, and make "
                      "it again")


def backup(settings, shard):
    """Makes a backup of a shard, and gives its folder, its domains, and how long the shard stood still."""
    with contextlib.suppress(Lacking):  # (a domain may be removed and made anew meanwhile)
        return try_backup(settings, shard)
    return try_backup(settings, shard)


def try_backup(settings, shard):
    """The same, which may lack what came and went meanwhile."""
    settings.refuse_unfinished_put_back(shard)
    listener.refuse_another(settings, shard)
    pid = supervisor.of(settings).pid(shard)
    if not pid:
        raise Wrong(f"shard {shard} doesn't run: start it, or copy its files, which nobody changes, yourself")
    make_lost_folder(settings, shard)
    refuse_moved(settings.folder(shard), pid)
    name, answered = name_of_moment(), names_answered(settings, shard)
    path = pathlib.Path(settings.backups) / str(shard)
    path.parent.mkdir(mode=0o711, exist_ok=True)
    path.mkdir(mode=0o700, exist_ok=True)
    with Folder(path) as folders:
        # what a backup that was killed has left; no other one is under way (`alone`)
        for remnant in path.glob(".[0-9]*"):
            folders.clear(remnant.name)
        try:
            with folders.new_folder(f".{name}") as unfinished:
                took = fill_backup(settings, shard, pid, unfinished)
                domains = domains_in_backup(settings, shard, path / f".{name}")
                refuse_lacking(settings, shard, answered, domains)
                if why := overwritten.fault_of(settings, shard, pid):
                    raise Wrong(f"no backup is made: {why}")
                before, _ = counts_of_newest(settings, shard)
                unfinished.write(COUNTS, f"{len(domains)}\n{before} in the backup before\n")
                unfinished.write(SUMS, sums_of(unfinished))
                unfinished.sync()
            os.rename(f".{name}", name, src_dir_fd=folders.fd, dst_dir_fd=folders.fd)
            folders.clear(FAILED)
            folders.sync()
        finally:
            folders.clear(f".{name}")
    for old in surplus(backups_of(settings, shard), path / name, settings.keep_backups):
        shutil.rmtree(old)
    return path / name, domains, took


def copy_away(settings, shard, path):
    """Has the operator's program copy a backup away, if there is one; an error where it fails."""
    if not settings.backup_hook:
        return
    what = f"no copy of {path} is elsewhere: {settings.backup_hook}"
    # (no pipe, whose end would be waited for: a connection that ssh keeps for later has it open)
    with os.fdopen(os.memfd_create("said"), "w+", errors="replace") as file:
        status, _ = run(what, [settings.backup_hook, shard, path], HOOK, stdout=file)
        file.seek(max(0, file.seek(0, os.SEEK_END) - TOLD))
        said = file.read().strip()
    if status != 0:
        raise Wrong(f"{what} ends with {status}{': ' if said else ''}{said}")
    with Folder(path) as made:
        made.clear(COPIED)
        made.write(COPIED, "")


def surplus(folders, made, most):
    """The oldest backups beyond so many. What was just made stays, and so do those of moments to come: it may be the
    clock that is behind, and they don't count."""
    counted = [path for path in folders if not is_beyond(path)]
    return [path for path in counted[:max(0, len(counted) - most)] if path != made]


def is_beyond(path):
    """Whether a backup's name is a moment that is still to come: a clock was ahead, or is behind."""
    limit = time.strftime("%Y%m%dT%H%M%S", time.gmtime(time.time() + AHEAD))
    return path.name[:len(limit)] > limit


def backups_of(settings, shard):
    """The folders of a shard's backups, the oldest first."""
    place = pathlib.Path(settings.backups) / str(shard)
    try:
        return sorted(place / name for name in os.listdir(place) if NAME.fullmatch(name))
    except FileNotFoundError:
        return []


def counts_of_newest(settings, shard):
    """How many domains a shard's newest backup has, and how many the one before it had; 0 where that isn't known."""
    for folder in backups_of(settings, shard)[-1:]:
        with contextlib.suppress(FileNotFoundError):
            lines = re.fullmatch(r"(\d+)\n(\d+) in the backup before\n", (folder / COUNTS).read_text())
            return (int(lines[1]), int(lines[2])) if lines else (0, 0)
    return 0, 0


def emptied(settings, shard):
    """What is told where a shard's newest backup has no domain, and the one before it had some."""
    now, before = counts_of_newest(settings, shard)
    if now or not before:
        return None
    return (f"shard {shard} has no domain any more, and {before} in the backup before. If that is meant, the next "
            "backup says nothing of it")


def note_failure(settings, shard, why):
    """Notes why a service's backup of a shard wasn't made, until one is: `status` tells it."""
    place = pathlib.Path(settings.backups) / str(shard)
    with contextlib.suppress(Wrong, OSError):  # (of one that can't be noted the log tells, and the age of the others)
        with Folder(place) as folders:
            folders.clear(FAILED)
            folders.write(FAILED, f"{harmless(why)[:TOLD]}\n")


def failure(settings, shard):
    """What is told where the last backup of a shard that a service tried wasn't made, and none since then."""
    path = pathlib.Path(settings.backups) / str(shard) / FAILED
    try:
        with open(path, encoding="utf-8", errors="replace") as file:
            at, why = path.stat().st_mtime, file.read(TOLD).strip()
    except FileNotFoundError:
        at, why = supervisor.of(settings).failed_backup(shard)
    newest = max((folder.stat().st_mtime for folder in backups_of(settings, shard)[-1:]), default=0.0)
    moment = time.strftime("%H:%M UTC", time.gmtime(at))
    return f"the last backup of shard {shard}, at {moment}, failed: {why}" if at > newest else None


def summary(path, domains, took):
    """What is told of a backup."""
    return f"{path}, {len(domains)} domains, still for {took * 1000:.0f} ms"


def tell(what):
    print(harmless(what), file=sys.stderr, flush=True)


def settings_of_shards():
    """By what a backup of each shard is made, which is nothing where that can't be found out; it tells why."""
    settings, fault = applied.read_or_before()
    if fault:
        tell(applied.goes_on(settings, fault))
    try:
        found, other = applied.backed_up(settings) if settings else ([], "")
    except (Wrong, OSError) as fault:
        found, other = [], f"NO BACKUP: {words_of(fault)}"
    if other:
        tell(other)
    return found


def keep_making(seconds):
    """A backup of each shard, again and again. A number of shards or a place that wasn't applied isn't gone by."""
    while True:
        found = settings_of_shards()
        for shard, settings in enumerate(found):
            path = None
            try:
                with alone():
                    path, domains, took = backup(settings, shard)
                print(f"backup of shard {shard}: {summary(path, domains, took)}", flush=True)
                if gone := emptied(settings, shard):
                    tell(f"WRONG: {gone}")
                copy_away(settings, shard, path)
            except (Wrong, OSError, subprocess.SubprocessError) as fault:
                what = "NO BACKUP" if path is None else "NO COPY of the backup"
                tell(f"{what} of shard {shard}: {words_of(fault)}")
                if path is None:
                    note_failure(settings, shard, words_of(fault))
        time.sleep(seconds if found else SOON)
