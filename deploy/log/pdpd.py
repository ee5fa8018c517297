"""One conversation with a pdpd, over a connection of its own."""
from __future__ import annotations

import re
import socket
from collections.abc import Callable
from dataclasses import dataclass

from operating.listener import at_port, peer_at_port, peer_of
from operating.listener import connection_to as connection_to_socket

# how long a port's connection may wait to be taken, in seconds
TAKEN = 10.0


class NotSent(Exception):
    """pdpd took no connection: it got nothing."""


class Another(NotSent):
    """Another user's program takes connections there."""

    def __init__(self, uid: int):
        super().__init__("another program takes connections there")
        self.uid = uid


class Lost(Exception):
    """The connection ended on the way: pdpd may have answered, or not."""


@dataclass(frozen=True)
class Reply:
    """A reply as it came."""
    status: int
    data: bytes

    def body(self) -> bytes:
        return self.data.partition(b"\r\n\r\n")[2]


def length_of(data: bytes) -> int | None:
    """How many bytes the first reply has in those that have come; None where that isn't known yet."""
    end = data.find(b"\r\n\r\n")
    if end < 0:
        return None
    found = re.search(rb"\r\ncontent-length: *(\d{1,9})\r\n", data[:end + 2], re.I)
    return end + 4 + (int(found[1]) if found else 0)


def first_reply(data: bytes) -> Reply | None:
    """The first reply, if it is whole."""
    length = length_of(data)
    if length is None or len(data) < length:
        return None
    return Reply(int(data[9:12]), data[:length])


def connection_to(address: str, seconds: float) -> socket.socket:
    """A connection to HOST:PORT, or to the Unix socket unix:PATH."""
    if address.startswith("unix:"):
        return connection_to_socket(address.removeprefix("unix:"), seconds)
    host, _, port = address.rpartition(":")
    made = socket.create_connection((host.strip("[]"), int(port)), timeout=seconds)
    made.setsockopt(socket.IPPROTO_TCP, socket.TCP_NODELAY, 1)
    return made


def refuse_another(connection: socket.socket, user: int) -> None:
    """An Another where a connection isn't taken by that user's program. (Of a port: whoever takes connections there
    now may not be who has taken this one, and one who takes none would keep who connects waiting.)"""
    is_unix = connection.family == socket.AF_UNIX
    found = peer_of(connection) if is_unix else at_port(connection.getpeername()[1])
    if not is_unix and (found is None or found.uid == user):
        found = peer_at_port(connection, TAKEN)
    if found.uid != user:
        raise Another(found.uid)


def replies(address: str, data: bytes, count: int, seconds: float, user: int | None = None,
            refuse: Callable[[], None] = lambda: None) -> list[Reply]:
    """The first `count` replies to messages that are sent together; fewer where the stream ends behind a whole one.
    Another user's program is sent nothing, if a user is given, nor is any where `refuse` raises a NotSent."""
    try:
        connection = connection_to(address, seconds)
    except OSError as fault:
        raise NotSent(str(fault)) from None
    held, found = b"", []
    with connection:
        try:
            if user is not None:
                refuse_another(connection, user)
        except OSError as fault:
            raise NotSent(str(fault)) from None
        refuse()
        try:
            connection.sendall(data)
            while len(found) < count:
                while reply := first_reply(held):
                    found.append(reply)
                    held = held[len(reply.data):]
                if len(found) < count:
                    more = connection.recv(1 << 16)
                    if not more:
                        break
                    held += more
        except OSError as fault:
            if not found:
                raise Lost(str(fault)) from None
    if not found:
        raise Lost("it ended before a reply")
    return found[:count]
