"""Room on the disk of each shard: how much there is, and a file that keeps some of it for the day on which it is full.

A store on a full disk answers each change with 503, a deletion as well, and no domain can be moved away. Once the
reserve is given up these work, and the bytes that they free are used again by the store.
"""
from __future__ import annotations

import os
import shutil
from typing import NamedTuple

from .owned import Folder
from .settings import Wrong

# the file in a shard's folder
NAME = "reserve"
MIB = 2 ** 20
# of a disk with less than this part of it is told, unless it is more than so many bytes; and of one with less than so
# many: a change may have 512 KiB
SCARCE, ENOUGH, LEAST = 0.1, 4096 * MIB, 3 * MIB // 4
# of one that can have fewer files more is told: a backup has seven
FEW = 100


class Room(NamedTuple):
    """The bytes of a disk, and those that are left to users."""
    total: int
    free: int

    def is_scarce(self) -> bool:
        """Whether it is soon full."""
        return self.free < min(SCARCE * self.total, ENOUGH)

    def is_full(self) -> bool:
        """Whether it is so full that changes may be refused."""
        return self.free < LEAST

    def text(self) -> str:
        """What is told of it."""
        return f"has only {self.free / MIB:.1f} MiB of {self.total / MIB:.0f} left"


def on_disk_of(path: str | os.PathLike[str]) -> Room:
    """The room on the disk of a folder."""
    total, _, free = shutil.disk_usage(path)
    return Room(total, free)


def fault_of(path: str | os.PathLike[str]) -> str | None:
    """Why nothing can be made in a folder, however much room its disk has; nothing where that is no reason."""
    found = os.statvfs(path)
    if found.f_flag & os.ST_RDONLY:
        return "is read-only: the kernel's log (dmesg) may say why; mount it for writing"
    if found.f_files and found.f_favail < FEW:
        return f"has room for {found.f_favail} files more alone (df -i): move files away"
    return None


def reserve_of(settings, shard: int) -> int | None:
    """The bytes of a shard's reserve; nothing where there is none. (Of a file with holes, as a copy may have them, its
    blocks of 512 bytes count.)"""
    try:
        found = os.lstat(settings.folder(shard) / NAME)
        return min(found.st_size, found.st_blocks * 512)
    except FileNotFoundError:
        return None


def is_reserved(settings, shard: int) -> bool:
    """Whether a shard has the reserve that the settings want."""
    return (reserve_of(settings, shard) or 0) >= settings.reserve * MIB


def advice(settings, shard: int) -> str:
    """What is told of a shard's reserve where its disk is soon full. (Who may not look into the folder, as the watchdog
    under systemd, doesn't know whether there is one.)"""
    try:
        kept = reserve_of(settings, shard)
    except PermissionError:
        return f"pdpd-shards make-room {shard} gives up what is kept for this"
    if not kept:
        return "move older backups or other files away, or enlarge it"
    return f"pdpd-shards make-room {shard} gives up {kept // MIB} MiB that are kept for this"


def reserve(settings, shard: int) -> None:
    """Keeps room for a shard, unless that is done. An error where its disk would soon be full by it."""
    wanted, path = settings.reserve * MIB, settings.folder(shard)
    if is_reserved(settings, shard):
        return
    with Folder(path) as place:
        place.clear(NAME)
        found = on_disk_of(path)
        if found._replace(free=found.free - wanted).is_scarce():
            raise Wrong(f"no room is kept for shard {shard}: its disk {found.text()}, and RESERVE is "
                        f"{settings.reserve} MiB. Write less, or 0, or enlarge the disk, then give pdpd-shards "
                        f"reserve {shard}")
        try:
            with place.making(NAME, place.owner) as file, open(file, "wb", closefd=False) as written:
                for _ in range(settings.reserve):
                    # (a file system may give zeros no room)
                    written.write(os.urandom(MIB))
                written.flush()
                os.fsync(file)
        except BaseException:
            place.clear(NAME)
            raise


def give_up(settings, shard: int) -> int:
    """Gives up a shard's reserve, and gives how many bytes are left on its disk then."""
    with Folder(settings.folder(shard)) as place:
        if not place.has(NAME):
            raise Wrong(f"shard {shard} has no reserve: move older backups or other files of its disk away, or enlarge "
                        "the disk")
        place.clear(NAME)
    return on_disk_of(settings.folder(shard)).free
