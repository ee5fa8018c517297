"""What an archive has of each domain beside its records: where its changes are, the keys of their bodies, checkpoints.

    domains/D/places          where its changes are, 56 bytes for each: see Place
    domains/D/K.key           the key of the bodies from entry K on, until the domain is removed
    domains/D/K/N.TIME        the checkpoint behind entry N, which was answered at TIME, in microseconds
    domains/D/K/DIGEST.text   a text of such checkpoints, deflated and sealed, under its SHA-256

D is of the SHA-256 of the domain's name. Places and checkpoints only save time: each entry names the domain's entry
before it, so one that is missing among the places is seen, and then all records are read.
"""
from __future__ import annotations

import hashlib
import os
import pathlib
import re
import shutil
import struct
import zlib
from collections.abc import Callable
from typing import NamedTuple

from .sealing import KEY_BYTES, inflated, opened, sealed

PLACE = struct.Struct("<7Q")
KEY = re.compile(r"(\d{16})\.key")
CHECKPOINT = re.compile(r"(\d{16})\.(\d{16})")


class Forgotten(Exception):
    """The key of a body is gone."""


class Place(NamedTuple):
    """Where a change is: its number, the file that begins with entry `first`, the first byte in it, how long its body
    is at the most, when it was answered (microseconds), of which key its body is, and whether it removed the domain."""
    number: int
    first: int
    offset: int
    size: int
    ended: int
    key: int
    removes: int


def folder_of(home: pathlib.Path, domain: str) -> pathlib.Path:
    """Where an archive has what is of a domain."""
    return home / "domains" / hashlib.sha256(domain.encode(errors="replace")).hexdigest()[:32]


def write_synced(path: pathlib.Path, data: bytes) -> None:
    """Writes a file, whole or not at all; it is on the disk then."""
    made = path.with_name(f"{path.name}.new")
    file = os.open(made, os.O_WRONLY | os.O_CREAT | os.O_TRUNC | os.O_NOFOLLOW | os.O_CLOEXEC, 0o600)
    try:
        left = memoryview(data)
        while left:
            left = left[os.write(file, left):]
        os.fsync(file)
    finally:
        os.close(file)
    os.rename(made, path)
    sync_folder(path.parent)


def read_whole(path: pathlib.Path) -> bytes:
    """The bytes of a file, and of no link or pipe: root reads them where another user writes."""
    with open(os.open(path, os.O_RDONLY | os.O_NOFOLLOW | os.O_NONBLOCK | os.O_CLOEXEC), "rb") as file:
        return file.read()


def sync_folder(path: pathlib.Path) -> None:
    handle = os.open(path, os.O_RDONLY | os.O_DIRECTORY)
    try:
        os.fsync(handle)
    finally:
        os.close(handle)


# ---- places

class Places:
    """The places of a domain's changes, in order, read from the disk as they are wanted."""

    def __init__(self, folder: pathlib.Path):
        try:
            # (the open of a pipe would wait for whoever writes into it)
            self.file = os.open(folder / "places", os.O_RDONLY | os.O_NOFOLLOW | os.O_NONBLOCK | os.O_CLOEXEC)
        except FileNotFoundError:
            self.file, self.count = -1, 0
            return
        self.count = os.fstat(self.file).st_size // PLACE.size

    def __len__(self) -> int:
        return self.count

    def __getitem__(self, index: int) -> Place:
        if not 0 <= index < self.count:
            raise IndexError(index)
        return Place(*PLACE.unpack(os.pread(self.file, PLACE.size, index * PLACE.size)))

    def __del__(self) -> None:
        if self.file >= 0:
            os.close(self.file)

    def behind(self, holds: Callable[[Place], bool]) -> int:
        """How many places come before the first one for which that doesn't hold; it holds for none behind that."""
        low, high = 0, self.count
        while low < high:
            middle = (low + high) // 2
            if holds(self[middle]):
                low = middle + 1
            else:
                high = middle
        return low


def add_places(folder: pathlib.Path, places: list[Place], keep: int | None = None) -> None:
    """Appends places, behind the first `keep` ones (all that are there)."""
    file = os.open(folder / "places", os.O_WRONLY | os.O_CREAT | os.O_CLOEXEC | os.O_NOFOLLOW, 0o600)
    try:
        at = (os.fstat(file).st_size // PLACE.size if keep is None else keep) * PLACE.size
        if keep is not None:
            os.ftruncate(file, at)
        data = b"".join(PLACE.pack(*place) for place in places)
        if os.pwrite(file, data, at) != len(data):
            raise OSError("the disk took a part of it alone")
    finally:
        os.close(file)


# ---- keys

def key_at(home: pathlib.Path, domain: str, number: int) -> bytes:
    """The key of that number."""
    try:
        return read_whole(folder_of(home, domain) / f"{number:016d}.key")
    except FileNotFoundError:
        raise Forgotten(f"the domain {domain!r} was forgotten: the key of what it had from entry {number} on is gone"
                        ) from None


def make_key(home: pathlib.Path, domain: str, number: int) -> bytes:
    """A new key, which is on the disk then."""
    folder = folder_of(home, domain)
    if not folder.is_dir():
        folder.mkdir(mode=0o700, parents=True, exist_ok=True)
        sync_folder(home)
        sync_folder(folder.parent)
    key = os.urandom(KEY_BYTES)
    write_synced(folder / f"{number:016d}.key", key)
    return key


def keys_in(folder: pathlib.Path) -> list[int]:
    """The numbers of the keys that a domain has."""
    found = [KEY.fullmatch(path.name) for path in folder.iterdir()] if folder.is_dir() else []
    return sorted(int(match[1]) for match in found if match)


def forget(home: pathlib.Path, domain: str, numbers: list[int]) -> None:
    """Takes away these keys, and the checkpoints under them."""
    folder = folder_of(home, domain)
    for number in numbers:
        path = folder / f"{number:016d}.key"
        # what the file has is written over first: some file systems write that elsewhere
        file = os.open(path, os.O_WRONLY | os.O_NOFOLLOW | os.O_CLOEXEC)
        try:
            os.write(file, bytes(KEY_BYTES))
            os.fsync(file)
        finally:
            os.close(file)
        path.unlink()
        shutil.rmtree(folder / f"{number:016d}", ignore_errors=True)
    sync_folder(folder)


# ---- checkpoints

def checkpoints_in(folder: pathlib.Path) -> list[tuple[int, int, pathlib.Path]]:
    """The number, the time and the path of each checkpoint of a domain, in order."""
    found = []
    for key in keys_in(folder):
        of_key = folder / f"{key:016d}"
        for path in of_key.iterdir() if of_key.is_dir() else ():
            if match := CHECKPOINT.fullmatch(path.name):
                found.append((int(match[1]), int(match[2]), path))
    return sorted(found)


def add_text(folder: pathlib.Path, key: bytes, text: bytes) -> str:
    """Keeps a text, once; its digest."""
    digest = hashlib.sha256(text).hexdigest()
    path = folder / f"{digest}.text"
    if not path.exists():
        write_synced(path, sealed(key, zlib.compress(text)))
    return digest


def text_of(folder: pathlib.Path, key: bytes, digest: str) -> bytes | None:
    """The text of that digest; None where it isn't what was kept."""
    try:
        text = opened(key, read_whole(folder / f"{digest}.text"))
        if hashlib.sha256(text).hexdigest() != digest:  # (earlier versions deflated none)
            text = inflated(text)
    except (OSError, ValueError):
        return None
    return text if hashlib.sha256(text).hexdigest() == digest else None
