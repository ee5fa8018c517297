"""The Unix sockets of programs that take connections at a path, as the kernel tells of them (sock_diag(7)).

A socket's name is what its program has said. In a mount namespace of his own any user can say the path of another's
socket. So of a name those count that are of the same file as the one by which the user meant takes connections.
"""
from __future__ import annotations

import os
import socket
import struct
from collections.abc import Iterator
from typing import NamedTuple

# the question for the sockets that take connections, and for connections, with names, files, other ends and users
DIAGNOSIS, BY_FAMILY, ALL, ERROR, DONE = 4, 20, 0x301, 2, 3
CONNECTED, LISTENS = 1, 10
STATES, SHOWN = 1 << CONNECTED | 1 << LISTENS, 1 | 2 | 4 | 16 | 64
HEAD, QUESTION, FOUND, FIELD = "=IHHII", "=BBHIIIII", "=BBBBIII", "=HH"
# the fields of an answer
NAME, FILE, OTHER_END, QUEUE, USER = 0, 1, 2, 4, 7
# the other end of a connection that has gone
NOBODY = bytes(4)


class UnixSocket(NamedTuple):
    """Its key, which no other one ever has, its state, its name, the file of that, whose it is, its other end, and how
    many connections wait to be taken, of which the kernel tells no more. None is what it doesn't tell."""
    key: str
    state: int
    name: str
    file: bytes | None
    uid: int | None
    other_end: bytes | None
    waiting: int


def answers() -> Iterator[bytes]:
    """The kernel's answers, one for each socket; an error where it tells of none."""
    question = struct.pack(QUESTION, socket.AF_UNIX, 0, 0, STATES, 0, SHOWN, 0, 0)
    with socket.socket(socket.AF_NETLINK, socket.SOCK_RAW, DIAGNOSIS) as asked:
        asked.send(struct.pack(HEAD, 16 + len(question), BY_FAMILY, ALL, 1, 0) + question)
        while True:
            data = asked.recv(1 << 17)
            while data:
                length, kind, *_ = struct.unpack_from(HEAD, data)
                if kind == DONE:
                    return
                if kind == ERROR:
                    number = -struct.unpack_from("=i", data, 16)[0]
                    raise OSError(number, f"the kernel tells of no Unix sockets ({os.strerror(number)})")
                yield data[16:length]
                data = data[(length + 3) & ~3:]


def fields_in(data: bytes) -> dict[int, bytes]:
    """The fields of an answer."""
    found, at = {}, struct.calcsize(FOUND)
    while at + 4 <= len(data):
        length, kind = struct.unpack_from(FIELD, data, at)
        found[kind] = data[at + 4:at + length]
        at += (length + 3) & ~3
    return found


def all_sockets() -> Iterator[UnixSocket]:
    """Those of this machine that have taken connections, or take some."""
    for data in answers():
        _, _, state, _, _, low, high = struct.unpack_from(FOUND, data)
        fields = fields_in(data)
        uid = struct.unpack("=I", fields[USER])[0] if USER in fields else None
        name = os.fsdecode(fields.get(NAME, b"").rstrip(b"\0"))
        queue = struct.unpack_from("=I", fields.get(QUEUE, bytes(8)))[0]
        yield UnixSocket(f"{high}/{low}", state, name, fields.get(FILE), uid, fields.get(OTHER_END),
                         queue if state == LISTENS else 0)


def of_program(path: str, user: int | None = None) -> list[UnixSocket]:
    """Those of whatever takes connections at a path as that user, or as any; all of that name while it takes none."""
    found = [one for one in all_sockets() if one.name == path]
    files = {one.file for one in found if one.state == LISTENS and (user is None or one.uid in (user, None))}
    return [one for one in found if not files or one.file in files]


def connections(path: str, user: int | None = None) -> list[UnixSocket]:
    """The connections to it."""
    return [one for one in of_program(path, user) if one.state == CONNECTED]


def count(path: str, user: int) -> int:
    """How many connections it has, also those that wait to be taken."""
    return sum(one.waiting if one.state == LISTENS else 1 for one in of_program(path, user))


def is_listening(path: str, user: int) -> bool:
    """Whether that user takes connections by a socket that was made at a path, though it may have been removed."""
    return any(one.state == LISTENS and one.name == path and one.uid in (user, None) for one in all_sockets())
