"""What root's tools do with files of a shard's user, who may have put anything into the folder meanwhile.

A folder is opened once, and what it has is named from there: another one may soon have its place. No link is
followed, and a file counts only if it is a regular one of the folder's owner. A whole program that works on such
files is run with the owner's rights.
"""
from __future__ import annotations

import contextlib
import hashlib
import os
import pathlib
import pwd
import shutil
import signal
import stat
import subprocess
import time
from collections.abc import Iterator, Sequence
from typing import Any, BinaryIO, NamedTuple

from .settings import ENDS, Wrong

# How long a command may take, and how long once a signal has come that was put off, in seconds: a healthy one ends
# before. How often is looked for such a signal.
PATIENCE, GRACE, PAUSE = 60.0, 5.0, 0.1
# what is told of things that no tool and no pdpd has made
PLANTED = "look who put it there, and take it away"


class User(NamedTuple):
    """A user and its group, by their numbers."""
    uid: int
    gid: int


def name_of(uid: int) -> str:
    """A user's name, or its number where it has none."""
    try:
        return pwd.getpwuid(uid).pw_name
    except KeyError:
        return str(uid)


def advice(path: pathlib.Path, found: os.stat_result, owner: int) -> str:
    """What is to be done about what isn't its folder's owner's. A file without a second name may be a store that
    somebody has copied there, which must not be taken away; with one, a chown would give away the other file too."""
    if not stat.S_ISREG(found.st_mode) or found.st_nlink != 1:
        return PLANTED
    user = name_of(owner)
    return f"look who put it there. If you did: chown -h {user}:{user} {path}"


def owner_of(path: str | os.PathLike[str]) -> User:
    """Whose a folder is that stands where root alone may put one."""
    found = os.stat(path)
    return User(found.st_uid, found.st_gid)


class Folder:
    """An open folder. Within another one it may be no link; one that stands alone is found by its path."""

    def __init__(self, path: str | os.PathLike[str], within: Folder | None = None):
        self.path = within.path / path if within else pathlib.Path(path)
        how = os.O_RDONLY | os.O_DIRECTORY | os.O_CLOEXEC
        try:
            self.fd = os.open(path, how | os.O_NOFOLLOW, dir_fd=within.fd) if within else os.open(path, how)
        except NotADirectoryError:
            raise Wrong(f"{self.path} is no folder: {PLANTED}") from None
        found = os.fstat(self.fd)
        self.owner = User(found.st_uid, found.st_gid)
        # whether nobody but this tool's user has put anything into it
        self.is_closed = found.st_uid == os.geteuid() and not found.st_mode & 0o022

    def __enter__(self) -> Folder:
        return self

    def __exit__(self, *_fault: object) -> None:
        os.close(self.fd)

    def has(self, name: str) -> bool:
        """Whether there is anything of that name."""
        try:
            os.lstat(name, dir_fd=self.fd)
        except FileNotFoundError:
            return False
        return True

    def has_file(self, name: str, user: User) -> bool:
        """Whether there is a regular file of that name that is the user's, or that has no second name: another's file
        to which the user has made a link has one."""
        found = os.lstat(name, dir_fd=self.fd) if self.has(name) else None
        return found is not None and stat.S_ISREG(found.st_mode) and (found.st_uid == user.uid or found.st_nlink == 1)

    @contextlib.contextmanager
    def reading(self, name: str, *, is_tools: bool = False) -> Iterator[int]:
        """The descriptor of a regular file; an error where there is another thing. It is the folder's owner's, unless
        the folder is closed to others, or a tool may have made it."""
        # (the open of a pipe would wait for whoever writes into it)
        how = os.O_RDONLY | os.O_NOFOLLOW | os.O_NONBLOCK | os.O_CLOEXEC
        try:
            file = os.open(name, how, dir_fd=self.fd)
        except FileNotFoundError:
            raise
        except OSError:
            raise Wrong(f"{self.path / name} can't be opened as a file: {PLANTED}") from None
        try:
            found = os.fstat(file)
            users = {self.owner.uid, *([os.geteuid()] if is_tools else [])}
            if not stat.S_ISREG(found.st_mode) or not (self.is_closed or found.st_uid in users):
                raise Wrong(f"{self.path / name} is no file of the user who has the folder: "
                            f"{advice(self.path / name, found, self.owner.uid)}")
            yield file
        finally:
            os.close(file)

    @contextlib.contextmanager
    def naming(self, name: str) -> Iterator[None]:
        """An error has the whole path of what is made."""
        try:
            yield
        except OSError as fault:
            fault.filename = str(self.path / name)
            raise

    @contextlib.contextmanager
    def making(self, name: str, user: User | None = None) -> Iterator[int]:
        """The descriptor of a new file, which is given to the user."""
        how = os.O_WRONLY | os.O_CREAT | os.O_EXCL | os.O_NOFOLLOW | os.O_CLOEXEC
        with self.naming(name):
            file = os.open(name, how, 0o600, dir_fd=self.fd)
        try:
            os.fchmod(file, 0o600)
            if user:
                os.fchown(file, *user)
            yield file
        finally:
            os.close(file)

    def write(self, name: str, text: str, user: User | None = None) -> None:
        """Writes a new file."""
        with self.making(name, user) as file, open(file, "w", encoding="utf-8", closefd=False) as lines:
            lines.write(text)

    def lines(self, name: str) -> list[str]:
        """The lines of a small file, which a tool may have made."""
        with self.reading(name, is_tools=True) as file:
            return os.read(file, 200).decode(errors="replace").split("\n")

    def line(self, name: str) -> str:
        """The first one."""
        return self.lines(name)[0]

    def new_folder(self, name: str) -> Folder:
        """A new folder into which nobody else can put anything, whoever owns this one."""
        try:
            with self.naming(name):
                os.mkdir(name, 0o700, dir_fd=self.fd)
        except FileExistsError:
            raise Wrong(f"{self.path / name} is there again: {PLANTED}") from None
        return self.closed_folder(name)

    def closed_folder(self, name: str, told: str = f"isn't the folder that a tool made: {PLANTED}") -> Folder:
        """A folder within this one that a tool has made so. Else the error tells that."""
        made = Folder(name, self)
        if not made.is_closed:
            os.close(made.fd)
            raise Wrong(f"{made.path} {told}")
        return made

    def move(self, name: str, other: Folder) -> None:
        """Moves what has a name into another folder, in place of what has the name there."""
        os.rename(name, name, src_dir_fd=self.fd, dst_dir_fd=other.fd)

    def clear(self, name: str) -> None:
        """Removes what has a name, if there is anything, with all that is in it."""
        try:
            os.unlink(name, dir_fd=self.fd)
        except IsADirectoryError:
            with contextlib.suppress(RecursionError):
                shutil.rmtree(name, dir_fd=self.fd)
            if self.has(name):
                raise Wrong(f"{self.path / name} is too deep to be removed: {PLANTED}") from None
        except FileNotFoundError:
            pass

    def sync(self) -> None:
        """Has the disk keep the regular files of the folder, and that they are in it."""
        for name in os.listdir(self.fd):
            # (in the folder of a user others may be, and go meanwhile)
            with contextlib.suppress(FileNotFoundError, Wrong), self.reading(name) as file:
                os.fsync(file)
        os.fsync(self.fd)


def as_user(user: User, words: Sequence[object]) -> list[str]:
    """A command as that user runs it, with no right of root's. It ends with the tool."""
    changes = ["--pdeathsig=KILL"]
    if os.geteuid() == 0 and user.uid != 0:
        changes += [f"--reuid={user.uid}", f"--regid={user.gid}", "--clear-groups", "--no-new-privs"]
    return ["setpriv", *changes, *map(str, words)]


def surroundings(**more: object) -> dict[str, str]:
    """What a user's program has in its environment: nothing else of root's, which that user could read."""
    return {"PATH": os.environ.get("PATH", os.defpath), **{name: str(value) for name, value in more.items()}}


def result_of(child: subprocess.Popen[str], what: str, seconds: float) -> str:
    """What a command says until its end, which has to come."""
    end = time.monotonic() + seconds
    while True:
        try:
            return child.communicate(timeout=PAUSE)[0]
        except subprocess.TimeoutExpired:
            if signal.sigpending() & {*ENDS}:
                end = min(end, time.monotonic() + GRACE)
            if time.monotonic() > end:
                raise Wrong(f"{what} was ended, since it took too long") from None


def run(what: str, words: Sequence[object], seconds: float = PATIENCE, **how: Any) -> tuple[int, str]:
    """Runs a command, which an error calls so, to its end, and gives its status and what it says.

    It is killed where it takes too long. If the tool is told to end meanwhile, and has put that off, it gets a few
    seconds more.
    """
    pipes = {"stdin": subprocess.DEVNULL, "stdout": subprocess.PIPE, "stderr": subprocess.STDOUT}
    with subprocess.Popen([*map(str, words)], text=True, errors="replace", **{**pipes, **how}) as child:
        try:
            said = result_of(child, what, seconds)
        except BaseException:
            child.kill()
            raise
    if child.returncode < 0:
        raise Wrong(f"{what} was ended by signal {-child.returncode}")
    return child.returncode, (said or "").strip()


def sum_of(file: BinaryIO, what: str, seconds: float = PATIENCE) -> str:
    """The SHA-256 of a file, which its user may have made longer than any disk is: an error where it isn't read to its
    end within that time."""
    digest, end = hashlib.sha256(), time.monotonic() + seconds
    while data := file.read(2 ** 20):
        if time.monotonic() > end:
            raise Wrong(f"{what} isn't read to its end within {seconds:.0f} s: look what it is")
        digest.update(data)
    return digest.hexdigest()


def copy_file(source: Folder, target: Folder, name: str, user: User | None = None) -> None:
    """Copies a file under its name, for the user. A file system may have both share their bytes."""
    what = f"the copy of {source.path / name}"
    with source.reading(name) as read, target.making(name, user) as made:
        words = ["cp", "--reflink=auto", f"/proc/self/fd/{read}", f"/proc/self/fd/{made}"]
        status, said = run(what, words, pass_fds=(read, made))
    if status != 0:
        raise Wrong(f"{what} fails: {said}")
