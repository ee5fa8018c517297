"""A shard carried from one machine to another, as it is between two entries: its store, its archive, the keys of
domains, and the map of domains, which all machines have alike."""
from __future__ import annotations

import contextlib
import io
import json
import os
import pathlib
import pwd
import shutil
import stat
import tarfile
import tempfile
import threading
import time
from collections.abc import Iterator
from typing import BinaryIO

from log.archive import Archive
from operating import holding, listener, replicas, supervisor, talk
from operating.owned import Folder, copy_file
from operating.settings import Settings, Wrong, alone

from . import rows
from .comparing import Verdict
from .leases import Leases
from .shared_log import SharedLog

STORE = ("pdpd.db", "pdpd.db-wal")
# the file of a copy that has the map, and its last one, without which it isn't whole
MAP, END = "map", "end"
# how often a daemon is told that it still has to hold, in seconds; it goes on by itself after some times as much
RENEWED = 5.0
# how long a pdpd may take to start, and HAProxy to answer, in seconds
STARTING, SOON = 60.0, 1.0
OWNERS = {"store": "pdpd", "archive": "pdpd-replica"}


def asked(settings: Settings, shard: int, path: str) -> dict:
    """What a shard's daemon says."""
    connection = replicas.OverSocket(pathlib.Path(settings.audit_run) / str(shard) / "socket")
    try:
        connection.request("GET", path)
        reply = connection.getresponse()
        found = json.loads(reply.read(replicas.LONGEST))
    except replicas.UNTOLD as fault:
        raise Wrong(f"pdpd-replica of shard {shard} doesn't answer: {fault}") from None
    finally:
        connection.close()
    if reply.status != 200:
        raise Wrong(f"pdpd-replica of shard {shard} can't hold: an entry is under way")
    return found


@contextlib.contextmanager
def held(settings: Settings, shard: int) -> Iterator[int]:
    """Meanwhile the daemon applies nothing; the entry at which it is. An error at the end where it went on before."""
    number, is_over, faults = asked(settings, shard, "/hold")["position"], threading.Event(), []

    def renew() -> None:
        while not is_over.wait(RENEWED):
            try:
                if asked(settings, shard, "/hold")["position"] != number:
                    raise Wrong(f"shard {shard} has gone on meanwhile: copy it again")
            except Wrong as fault:
                faults.append(fault)
                return
    renewing = threading.Thread(target=renew)
    renewing.start()
    try:
        yield number
        if not faults and asked(settings, shard, "/hold")["position"] != number:
            faults.append(Wrong(f"shard {shard} has gone on meanwhile: copy it again"))
    finally:
        is_over.set()
        renewing.join()
        with contextlib.suppress(Wrong):
            asked(settings, shard, "/go")
    if faults:
        raise faults[0]


@contextlib.contextmanager
def unchanged(folder: pathlib.Path) -> Iterator[list[pathlib.Path]]:
    """The files of a store, while nothing is applied to it; an error at the end where they were written to all the
    same, as by a pdpd that was started meanwhile."""
    def looks() -> dict[pathlib.Path, tuple]:
        found = {path: path.lstat() for path in (folder / name for name in STORE) if os.path.lexists(path)}
        return {path: (one.st_ino, one.st_size, one.st_mtime_ns) for path, one in found.items()}
    before = looks()
    yield list(before)
    if looks() != before:
        raise Wrong(f"the store in {folder} was written to meanwhile: copy it again")


def add_file(made: tarfile.TarFile, folder: Folder, name: str, to: str) -> None:
    """Adds a file to a copy. (The folder is another user's, who may have put anything there.)"""
    with folder.reading(name) as file, open(file, "rb", closefd=False) as opened:
        made.addfile(made.gettarinfo(arcname=f"{to}/{name}", fileobj=opened), opened)


def add_folder(made: tarfile.TarFile, folder: Folder, to: str) -> None:
    """Adds what a folder has, but for the lock of an archive."""
    found = tarfile.TarInfo(to)
    found.type, found.mode = tarfile.DIRTYPE, 0o700
    made.addfile(found)
    for name in sorted({*os.listdir(folder.fd)} - {"lock"}):
        if stat.S_ISDIR(os.lstat(name, dir_fd=folder.fd).st_mode):
            with Folder(name, folder) as within:
                add_folder(made, within, f"{to}/{name}")
        else:
            add_file(made, folder, name, to)


def write(settings: Settings, shard: int, out: BinaryIO) -> None:
    """Writes a copy of a shard."""
    with tarfile.open(fileobj=out, mode="w|", format=tarfile.PAX_FORMAT) as made:
        with held(settings, shard) as number, unchanged(settings.folder(shard)) as files:
            with Folder(settings.folder(shard)) as store:
                for path in files:
                    add_file(made, store, path.name, "store")
            with Folder(pathlib.Path(settings.archives) / str(shard)) as archive:
                add_folder(made, archive, "archive")
            lines = settings.map.read_bytes() if settings.map.exists() else b""
            found = tarfile.TarInfo(MAP)
            found.size = len(lines)
            made.addfile(found, io.BytesIO(lines))
        # (only now is it known that nothing was applied meanwhile)
        end = tarfile.TarInfo(f"{END}/{number}")
        end.type = tarfile.DIRTYPE
        made.addfile(end)


def extract(given: BinaryIO, places: dict[str, pathlib.Path]) -> tuple[int, str]:
    """Puts a copy into these folders, on the disk; the entry at which it is, and the map."""
    number, lines = None, ""
    try:
        with tarfile.open(fileobj=given, mode="r|") as copy:
            for member in copy:
                kind, _, rest = member.name.partition("/")
                if kind == END:
                    number = int(rest)
                elif member.name == MAP and member.isfile():
                    lines = copy.extractfile(member).read().decode("utf-8")
                elif kind not in places or not is_below(rest) or not (member.isfile() or member.isdir()):
                    raise Wrong(f"{member.name} doesn't belong into a copy of a shard")
                elif member.isdir():
                    (places[kind] / rest).mkdir(mode=0o700, exist_ok=True)
                else:
                    write_synced(places[kind] / rest, copy.extractfile(member))
    except tarfile.TarError as fault:
        raise Wrong(f"the copy isn't whole, or is none: {fault}") from None
    if number is None:
        raise Wrong("the copy isn't whole: its end is missing")
    return number, lines


def is_below(path: str) -> bool:
    """Whether a path leads to what a folder has."""
    return not path.startswith("/") and ".." not in path.split("/")


def write_synced(path: pathlib.Path, given: BinaryIO) -> None:
    with open(os.open(path, os.O_WRONLY | os.O_CREAT | os.O_EXCL, 0o600), "wb") as made, given:
        shutil.copyfileobj(given, made, 1 << 20)
        made.flush()
        os.fsync(made.fileno())


def refuse_bad(archive: pathlib.Path, number: int) -> None:
    """An error where the archive of a copy isn't at that entry."""
    opened = Archive(archive)
    opened.close()
    if opened.position != number or opened.pending:
        raise Wrong(f"the archive of the copy is at entry {opened.position}, and its store at {number}")
    (archive / "lock").unlink()


def compared(settings: Settings, shard: int, log: SharedLog) -> tuple[int, list[str], Verdict | None]:
    """Compares what this machine's store has with those of the other machines: behind which entry, whose, and what is
    wrong."""
    meeting = rows.Meeting(log, lambda: asked(settings, shard, "/figures")["position"])
    with tempfile.TemporaryDirectory(dir=settings.data, prefix="rows-") as made:
        return rows.compare(meeting, lambda: copy_store(settings, shard, pathlib.Path(made)), pathlib.Path(made))


def copy_store(settings: Settings, shard: int, to: pathlib.Path) -> None:
    """Copies the files of a shard's store into a folder, while nothing is applied to it."""
    with unchanged(settings.folder(shard)) as files, Folder(settings.folder(shard)) as store, Folder(to) as target:
        for path in files:
            copy_file(store, target, path.name)


def refuse_begun(settings: Settings, shard: int, folders: dict[str, pathlib.Path]) -> None:
    """An error where a shard has something already. (A program that was started has files, but no domain.)"""
    held = {kind: {one.name for one in folder.iterdir()} if folder.exists() else set()
            for kind, folder in folders.items()}
    for kind, folder in folders.items():
        if folder.is_symlink() or held[kind] - {"lock", "domains", *(STORE if kind == "store" else ())}:
            raise Wrong(f"{folder} isn't empty: a replica that was there goes on by itself; else move it away")
    if held["store"] & set(STORE) and (names := talk.domains_of(settings, shard)):
        raise Wrong(f"{folders['store']} isn't empty: it has {len(names)} domains. Move it away")


def join(settings: Settings, shard: int, given: BinaryIO, log: SharedLog) -> int:
    """Puts a copy in place of a shard that isn't there; the entry at which it is. It may answer again then, if it was
    out."""
    folders = {"store": settings.folder(shard), "archive": pathlib.Path(settings.archives) / str(shard)}
    refuse_begun(settings, shard, folders)
    coming = {kind: folder.with_name(f"{folder.name}.coming") for kind, folder in folders.items()}
    for place in coming.values():
        shutil.rmtree(place, ignore_errors=True)
        place.mkdir(mode=0o700, parents=True)
    number, lines = extract(given, coming)
    refuse_bad(coming["archive"], number)
    entries = entries_of(settings, lines)
    with alone():
        put(settings, shard, folders, coming, log)
        known = talk.map_in_file(settings)
        if known != entries:
            talk.set_in_map(settings, {**dict.fromkeys(known), **entries})
    return number


def entries_of(settings: Settings, lines: str) -> dict[str, str]:
    """The places of domains in a map."""
    found: dict[str, str] = {}
    for number, line in enumerate(lines.split("\n"), 1):
        if line.strip() and not line.lstrip().startswith("#"):
            found.setdefault(*talk.entry_of_line(settings, number, line))
    return found


def forget_lease(settings: Settings, shard: int) -> None:
    """Has HAProxy forget the lease of a shard that is stopped, and waits until nothing is left that it let in by that:
    in its queue, or tried again, or at a process of before a reload."""
    leases = Leases(pathlib.Path(settings.haproxy_run) / "leases.sock", f"{settings.haproxy_etc}/leases.map", shard)
    if not leases.tell(0):
        time.sleep(settings.lease)
    if talk.is_there(settings, SOON):
        talk.settle(settings)
        holding.wait_for_turn(settings, shard)


def give(folder: pathlib.Path, name: str) -> None:
    """Gives a user a folder with all that is in it: the folder last, so that until then nobody else comes into it, and
    could put a link in the place of what is given."""
    owner = pwd.getpwnam(name)
    for path in (*folder.rglob("*"), folder):
        os.chown(path, owner.pw_uid, owner.pw_gid, follow_symlinks=False)


def put(settings: Settings, shard: int, folders: dict, coming: dict, log: SharedLog) -> None:
    """Puts the folders in place while nothing of the shard runs. HAProxy forgets the lease first: the store is older
    than what that was had with."""
    by = supervisor.of(settings)
    try:
        by.stop_replica(shard)
        by.stop(shard)
        forget_lease(settings, shard)
        for kind, folder in coming.items():
            give(folder, OWNERS[kind])
    except BaseException:
        by.start(shard)  # (with what it had: nothing was replaced)
        raise
    for kind, folder in folders.items():
        shutil.rmtree(folder, ignore_errors=True)
        coming[kind].rename(folder)
    os.sync()
    log.take_back()
    by.start(shard)
    listener.wait_for_own(settings, shard, STARTING)
