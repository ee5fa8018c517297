"""Opens a copy of a backup by pdpd, as the user of the shards: a copy that the program refuses is no backup.

The program gets a token of its own, and a socket that its user alone can reach.
"""
from __future__ import annotations

import contextlib
import http.client
import os
import pathlib
import secrets
import select
import shutil
import stat
import subprocess
import time
from collections.abc import Iterator

from .listener import connection_to, ended_after, peer_of
from .owned import PATIENCE, Folder, User, as_user, copy_file, owner_of, run, sum_of, surroundings
from .settings import LOCKS, Wrong, domains_in, make_locks_folder

STORE = "pdpd.db"
FILES = STORE, "pdpd.db-wal"
# the folder of its socket, within that of the tools' lock: its path isn't longer than a socket's may be
SOCKETS = "tried"
# how many bytes the program may answer, and how many letters of what it writes are told
MOST, TOLD = 2 ** 26, 1000
# for how long a program's file is read, in seconds
LONG = 10.0


def digest_of(path: str | os.PathLike[str]) -> str:
    """The SHA-256 of a program's file."""
    with open(path, "rb") as file:
        return sum_of(file, str(path), LONG)


def runs_another(settings, process: int) -> bool:
    """Whether a process runs another program than would be started."""
    try:
        return digest_of(f"/proc/{process}/exe") != digest_of(settings.program)
    except (FileNotFoundError, ProcessLookupError):
        return False  # (it has ended meanwhile)
    except Wrong:
        return True  # (it has no end)


def copy_files(source: Folder, target: Folder, user: User | None = None, is_open_in: int = 0) -> None:
    """Copies the files that are there: just after its first start a shard may have no log yet. Those that a process
    has open, and that were removed, are copied from there."""
    removed: dict[str, str] = {}
    with contextlib.suppress(PermissionError):  # (the unit of backups may not look into the program)
        removed = removed_files(is_open_in) if is_open_in else {}
    if not source.has(STORE) and STORE not in removed:
        raise Wrong(f"{source.path / STORE} isn't there: its program has hardly begun, or the file was removed. "
                    "pdpd-shards status tells; pdpd-shards backup by root takes what its program has open")
    for name in FILES:
        if name in removed:
            copy_opened(source, target, name, removed[name])
        elif source.has(name):
            copy_file(source, target, name, user)


def removed_files(process: int) -> dict[str, str]:
    """Which files of a store a process still has open though they were removed, and where it does. (Their folder may be
    another one now, as a link to a disk to which they were moved.)"""
    found, place = {}, f"/proc/{process}/fd"
    with contextlib.suppress(FileNotFoundError, ProcessLookupError):
        for name in os.listdir(place):
            with contextlib.suppress(FileNotFoundError):
                opened = f"{place}/{name}"
                target, status = os.readlink(opened), os.stat(opened)
                for file in FILES:
                    if target.endswith(f"/{file} (deleted)") and status.st_nlink == 0:
                        found[file] = opened
    return found


def moved_files(folder: pathlib.Path, process: int) -> dict[str, str]:
    """Which files of a store a process has open elsewhere than in the folder, to which they were moved meanwhile."""
    found: dict[str, str] = {}
    opened: dict[str, os.stat_result] = {}
    with contextlib.suppress(FileNotFoundError, ProcessLookupError):
        for name in os.listdir(f"/proc/{process}/fd"):
            with contextlib.suppress(FileNotFoundError):
                place = f"/proc/{process}/fd/{name}"
                opened[os.readlink(place)] = os.stat(place)
    for file in FILES:
        its = {target: status for target, status in opened.items() if stat.S_ISREG(status.st_mode) and status.st_nlink
               and STORE in target and target.endswith("-wal") == file.endswith("-wal")}
        here = os.stat(folder / file) if (folder / file).exists() else None
        if its and not any(here and os.path.samestat(here, status) for status in its.values()):
            found[file] = next(iter(its))
    return found


def refuse_moved(folder: pathlib.Path, process: int) -> None:
    """An error where the program's files aren't those of the folder: a copy of these lacks what it answers. (What is no
    file there, whoever copies it tells.)"""
    with contextlib.suppress(PermissionError):  # (as in `copy_files`)
        for name, place in moved_files(folder, process).items():
            if (folder / name).is_symlink() or (folder / name).exists() and not (folder / name).is_file():
                continue
            raise Wrong(f"{folder / name} isn't what its program has open, which was moved to {place}: pdpd-shards "
                        "status says what to do")


def copy_opened(source: Folder, target: Folder, name: str, opened: str) -> None:
    """Copies a file that was removed from where a process has it open. It has to be a regular one of the user's."""
    file = os.open(opened, os.O_RDONLY | os.O_NONBLOCK | os.O_CLOEXEC)
    try:
        found = os.fstat(file)
        if not stat.S_ISREG(found.st_mode) or found.st_uid != source.owner.uid or found.st_nlink:
            raise Wrong(f"{opened} is no file of the shard's user: look what its program is")
        with target.making(name) as made, open(file, "rb", closefd=False) as read, \
                open(made, "wb", closefd=False) as written:
            shutil.copyfileobj(read, written)
    finally:
        os.close(file)


class Connection(http.client.HTTPConnection):
    """A connection to a program at a socket, and to nobody else there."""

    def __init__(self, path: str, process: int):
        super().__init__("pdpd", timeout=PATIENCE)
        self.path, self.process = path, process

    def connect(self) -> None:
        self.sock = connection_to(self.path, PATIENCE)
        if peer_of(self.sock).process != self.process:
            self.sock.close()
            raise Wrong(f"another program has the socket {self.path}, at which the copy is tried")


def domains_at(path: str, process: int, token: str) -> list[str]:
    """The domains that a program at a socket lists."""
    connection = Connection(path, process)
    fields = {"Authorization": f"Bearer {token}"}
    with contextlib.closing(connection):
        connection.request("GET", "/operator/domains", headers=fields)
        with ended_after(PATIENCE, connection.sock):
            reply = connection.getresponse()
            body = reply.read(MOST)
    if reply.status != 200:
        raise Wrong(f"a program over the copy answers {reply.status}")
    return domains_in(body, "the program over the copy")


def wait_until_listening(server: subprocess.Popen[bytes]) -> None:
    """Waits until a program writes that it listens; an error with what it writes where it ends, or takes too long."""
    end, said, why = time.monotonic() + PATIENCE, b"", ""
    while b"\nlistening " not in b"\n" + said:
        left = end - time.monotonic()
        if left < 0 or not select.select([server.stdout], [], [], left)[0]:
            why = f" (nothing more was said within {PATIENCE:.0f} s)"
            break
        if not (more := os.read(server.stdout.fileno(), 65_536)):
            break
        said = (said + more)[-TOLD:]
    else:
        return
    raise Wrong(f"the copy isn't opened: {said.decode(errors='replace').strip()}{why}")


@contextlib.contextmanager
def socket_folder(user: User) -> Iterator[str]:
    """The path of a socket that the user can make, in a folder of the user's."""
    make_locks_folder()
    with Folder(LOCKS) as above:
        above.clear(SOCKETS)
        with above.new_folder(SOCKETS) as made:
            os.fchown(made.fd, *user)
        try:
            yield f"{LOCKS}/{SOCKETS}/socket"
        finally:
            above.clear(SOCKETS)


@contextlib.contextmanager
def serve(settings, folder: pathlib.Path, path: str, user: User) -> Iterator[int]:
    """Runs pdpd over the files of a folder at a socket, and gives its process."""
    words = [settings.program, "listen", folder / STORE, f"unix:{path}", folder / "token"]
    how = {"stdin": subprocess.DEVNULL, "stdout": subprocess.PIPE, "stderr": subprocess.STDOUT}
    with subprocess.Popen(as_user(user, words), env=surroundings(), **how) as server:
        try:
            wait_until_listening(server)
            yield server.pid
        finally:
            server.kill()


def let_through(folder: Folder, user: User) -> None:
    """Lets other users pass through the folder of all backups, in which each folder is closed to them; an error where
    the user can't pass through those above."""
    mode = os.fstat(folder.fd).st_mode & 0o7777
    if not mode & 0o001:
        os.fchmod(folder.fd, mode | 0o001)
    status, said = run("a look for BACKUPS", as_user(user, ["stat", f"{folder.path}/."]), env=surroundings())
    if status != 0:
        raise Wrong(f"the user of the shards, as whom a backup is opened, can't pass through all folders above "
                    f"{folder.path}: {said}")


def domains_in_backup(settings, shard: int, path: pathlib.Path) -> list[str]:
    """The domains of a backup in a folder that stands where root alone can put one."""
    with Folder(path) as source:
        return domains_in_folder(settings, shard, source)


def domains_in_folder(settings, shard: int, source: Folder) -> list[str]:
    """The domains of a backup, as pdpd lists them over a copy of it. It judges each row as it opens one."""
    user, token = owner_of(settings.folder(shard)), secrets.token_hex(16)
    with Folder(settings.backups) as backups:
        let_through(backups, user)
        backups.clear(".tried")
        try:
            with backups.new_folder(".tried") as tried:
                copy_files(source, tried, user)
                tried.write("token", f"{token}\n", user)
                os.fchown(tried.fd, *user)
                with socket_folder(user) as path, serve(settings, tried.path, path, user) as process:
                    return domains_at(path, process, token)
        except (http.client.HTTPException, KeyError, TypeError, ValueError) as fault:
            raise Wrong(f"a program over the copy answers otherwise than pdpd: {fault!r}") from None
        finally:
            backups.clear(".tried")
