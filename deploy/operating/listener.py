"""Who takes a shard's connections: its own program, or another one.

A shard's socket is in a folder in which its user alone can make one, and which HAProxy's user alone can enter beside
it. A port above 1023 is free for every user of the machine whenever a shard's program ends. Who has the shard's place
answers for it, and is sent the tokens that are sent to the shard. So a tool looks here before it sends a token, and
before it says that a shard is up.
"""
from __future__ import annotations

import contextlib
import errno
import os
import pathlib
import pwd
import re
import select
import socket
import struct
import threading
import time
from collections.abc import Iterator
from typing import Any, NamedTuple

from . import supervisor, unix_sockets
from .owned import owner_of
from .processes import openers
from .settings import Wrong, put_off_signals

# The lists of sockets with the addresses at which one takes connections to 127.0.0.1, the most specific first: if
# there are several, that one has them.
PLACES = (("tcp", "0100007F"), ("tcp6", "0000000000000000FFFF00000100007F"), ("tcp", "0" * 8), ("tcp6", "0" * 32))
LISTENS = "0A"
# the states of a connection that is open, or whose other end has gone
OPEN = "01", "08"
# before an address of IPv4 that a socket of IPv6 has
MAPPED = "0" * 16 + "FFFF0000"
# how many connections a program serves at a time
MOST_SERVED = 64
# how long a Unix socket may take to take a connection, in seconds: the kernel does it
SOON = 5.0
# after how long a shard is looked at again that seems to be another program, and who has taken a connection, in seconds
AGAIN, PAUSE = 0.2, 0.002
# says from which port on every user may take one; one below wants the right CAP_NET_BIND_SERVICE
FREE = pathlib.Path("/proc/sys/net/ipv4/ip_unprivileged_port_start")
# a port in an address at which HAProxy listens
PORT = re.compile(r":(\d{1,5})(?=[,\s-]|$)")


class Listener(NamedTuple):
    """A socket that takes connections: the user that made it, and its number, which no other socket has. Of a Unix
    socket the process that made it, and no number."""
    uid: int
    inode: str
    process: int = 0


class Impostor(Wrong):
    """Another program takes a shard's connections, by this socket."""

    def __init__(self, why: str, found: Listener):
        super().__init__(why)
        self.found = found


def listening(name: str) -> Iterator[list[str]]:
    """The words of each line of a list of sockets that is about one that takes connections; none where the kernel has
    no such list. These come first in it, before ten thousands of connections perhaps."""
    with contextlib.suppress(FileNotFoundError), open(f"/proc/self/net/{name}", encoding="ascii") as lines:
        next(lines)
        for line in lines:
            words = line.split()
            if words[3] != LISTENS:
                return
            yield words


def at_port(port: int) -> Listener | None:
    """The socket that takes connections to 127.0.0.1 and that port, if there is one."""
    for name, address in PLACES:
        for words in listening(name):
            if words[1] == f"{address}:{port:04X}":
                return Listener(int(words[7]), words[9])
    return None


def peer_of(connection: socket.socket) -> Listener:
    """Who takes connections at the other end of one to a Unix socket (SO_PEERCRED, unix(7))."""
    process, uid, _ = struct.unpack("3i", connection.getsockopt(socket.SOL_SOCKET, socket.SO_PEERCRED, 12))
    return Listener(uid, "", process)


def connection_to(path: str, seconds: float) -> socket.socket:
    """A connection to a Unix socket."""
    made = socket.socket(socket.AF_UNIX)
    made.settimeout(seconds)
    try:
        made.connect(path)
    except OSError as fault:
        made.close()
        fault.filename = path
        raise
    return made


@contextlib.contextmanager
def ended_after(seconds: float, made: socket.socket) -> Iterator[None]:
    """A connection ends after that time: what comes byte by byte holds no tool up."""
    timer = threading.Timer(seconds, made.shutdown, [socket.SHUT_RDWR])
    try:
        # a thread takes no signal that the tool has put off (one that has come meanwhile ends the tool from here)
        with put_off_signals():
            timer.start()
        yield
    finally:
        timer.cancel()


def at_socket(path: str) -> Listener | None:
    """Who takes connections at a Unix socket, if somebody does: nothing is said to him."""
    try:
        with connection_to(path, SOON) as connection:
            return peer_of(connection)
    except (FileNotFoundError, ConnectionRefusedError):
        return None


def at(settings, shard: int) -> Listener | None:
    """Who takes a shard's connections, if somebody does."""
    port = settings.port(shard)
    return at_socket(settings.socket(shard)) if port is None else at_port(port)


def connections(settings, shard: int) -> int:
    """How many connections a shard has open, or at its door, by the kernel's lists; as many as it serves where the
    kernel tells of none."""
    port = settings.port(shard)
    if port is None:
        try:
            return unix_sockets.count(settings.socket(shard), owner_of(settings.folder(shard)).uid)
        except OSError:
            return MOST_SERVED
    found = 0
    for name in ("tcp", "tcp6"):
        with contextlib.suppress(FileNotFoundError), open(f"/proc/self/net/{name}", encoding="ascii") as lines:
            rows = (line.split() for line in lines)
            found += sum(row[1].endswith(f":{port:04X}") and row[3] in OPEN for row in rows)
    return found


def shown(address: tuple[Any, ...]) -> str:
    """An address and its port as the kernel's lists have them: each four bytes are a number of this machine."""
    packed = socket.inet_pton(socket.AF_INET6 if ":" in address[0] else socket.AF_INET, address[0])
    words = (packed[at:at + 4][::-1] for at in range(0, len(packed), 4))
    return f"{b''.join(words).hex().upper()}:{address[1]:04X}"


def taken_by(connection: socket.socket) -> Listener | None:
    """Who has taken a connection to a port, and by which socket; nothing while it waits to be taken. (Whoever takes
    connections there now may be another one than then.)"""
    theirs, ours = shown(connection.getpeername()), shown(connection.getsockname())
    ends = (theirs, ours), (MAPPED + theirs, MAPPED + ours)
    for name in ("tcp", "tcp6"):
        with contextlib.suppress(FileNotFoundError), open(f"/proc/self/net/{name}", encoding="ascii") as lines:
            for words in map(str.split, lines):
                if (words[1], words[2]) in ends and words[9] != "0":
                    return Listener(int(words[7]), words[9])
    return None


def peer_at_port(connection: socket.socket, seconds: float) -> Listener:
    """Who takes a connection to a port, within that time; an error where it ends before."""
    end = time.monotonic() + seconds
    while (found := taken_by(connection)) is None:
        if time.monotonic() > end:
            raise TimeoutError(errno.ETIMEDOUT, os.strerror(errno.ETIMEDOUT))
        if select.select([connection], [], [], PAUSE)[0] and not connection.recv(1, socket.MSG_PEEK):
            raise ConnectionResetError(errno.ECONNRESET, os.strerror(errno.ECONNRESET))
    return found


def user_of(process: int) -> int | None:
    """The effective user of a process; nothing where it is gone."""
    try:
        lines = pathlib.Path(f"/proc/{process}/status").read_text(encoding="utf-8", errors="replace").splitlines()
    except OSError:
        return None
    return next(int(line.split()[2]) for line in lines if line.startswith("Uid:"))


def is_seen_open(process: int, listener: Listener) -> bool | None:
    """Whether a process has the socket open; nothing where this one may not look into it."""
    folder = pathlib.Path(f"/proc/{process}/fd")
    try:
        for name in os.listdir(folder):
            # (one that was closed meanwhile)
            with contextlib.suppress(FileNotFoundError):
                if os.readlink(folder / name) == f"socket:[{listener.inode}]":
                    return True
    except PermissionError:
        return None
    except OSError:
        pass
    return False


def has_open(process: int, listener: Listener) -> bool:
    """Whether a process has the socket open; where this one may not look into it, whether it is of the same user."""
    if listener.process:
        return listener.process == process and listener.uid == user_of(process)
    found = is_seen_open(process, listener)
    return user_of(process) == listener.uid if found is None else found


def described(listener: Listener) -> str:
    """The user and the processes of a socket, as far as they are found."""
    try:
        name = pwd.getpwuid(listener.uid).pw_name
    except KeyError:
        name = "no name"
    found = [str(listener.process)] if listener.process else [
        str(process) for process in sorted(int(path.name) for path in pathlib.Path("/proc").glob("[0-9]*"))
        if is_seen_open(process, listener)]
    return f"user {listener.uid} ({name}), process {', '.join(found) or 'unknown'}"


def foreign(settings, shard: int) -> Listener | None:
    """The socket by which another program takes a shard's connections; nothing where its own does, or nobody."""
    found = at(settings, shard)
    while found and not is_of(settings, shard, found):
        # (its own program may have ended, or begun, between the two looks)
        time.sleep(AGAIN)
        before, found = found, at(settings, shard)
        if found == before and not is_of(settings, shard, found):
            return found
    return None


def store_of(settings, shard: int) -> str:
    """The path of a shard's file, as a process has it that opens it."""
    return os.path.realpath(settings.folder(shard) / "pdpd.db")


def words_on(settings, shard: int, found: Listener) -> str:
    """What is told of such a socket."""
    what, more = "socket" if settings.port(shard) is None else "port", ""
    if found.process and found.process in openers(store_of(settings, shard)):
        more = (". (It has the shard's file open. Where it is the shard's own one that its supervisor has lost, as "
                f"where runsv was killed, kill {found.process} is all)")
    return (f"another program has the {what} of shard {shard}, {settings.place(shard)}: {described(found)}. End it, "
            f"and look who could start it{more}")


def another(settings, shard: int) -> str | None:
    """Who else takes a shard's connections, in words; nothing where its own program does, or nobody."""
    found = foreign(settings, shard)
    return words_on(settings, shard, found) if found else None


def is_of(settings, shard: int, found: Listener) -> bool:
    """Whether the process that the supervisor has for a shard has that socket."""
    process = supervisor.of(settings).pid(shard)
    return process != 0 and has_open(process, found)


def is_own(settings, shard: int) -> bool:
    """Whether a shard's own program takes its connections."""
    found = at(settings, shard)
    return found is not None and is_of(settings, shard, found)


def dial(settings, shard: int, seconds: float) -> socket.socket:
    """A connection to whoever has a shard's place."""
    port = settings.port(shard)
    if port is None:
        return connection_to(settings.socket(shard), seconds)
    return socket.create_connection(("127.0.0.1", port), timeout=seconds)


def connect(settings, shard: int, seconds: float) -> socket.socket:
    """A connection to a shard's own program; an error where another one has its place, which is sent nothing."""
    if settings.port(shard) is not None:
        # (who has the port, and takes nothing there, would keep a tool waiting)
        refuse_another(settings, shard)
    made = dial(settings, shard, seconds)
    try:
        found = peer_of(made) if settings.port(shard) is None else peer_at_port(made, seconds)
        if not is_of(settings, shard, found):
            refuse_another(settings, shard)
            # (its own program has begun, or another one has ended, between the looks)
            raise ConnectionResetError(f"shard {shard} has just begun")
    except BaseException:
        made.close()
        raise
    return made


def open_bind(settings, free: int) -> str | None:
    """What is told where they can take a port of HAProxy's: it doesn't start without each of its own."""
    for name in ("TLS_BIND", "PLAIN_BIND", "METRICS"):
        bind = getattr(settings, name.lower())
        if any(int(port) >= free for port in PORT.findall(bind)):
            return (f"every user of this machine can take the port of {name} ({bind}) while HAProxy restarts, and keep "
                    f"it away: ports from {free} on are everybody's")
    return None


def warning(settings) -> str | None:
    """What is told where other users of the machine can take the shards' ports, or HAProxy's."""
    free = int(FREE.read_text(encoding="ascii"))
    if settings.first_port is None or settings.port(settings.shards - 1) < free:
        return open_bind(settings, free)
    return (f"every user of this machine can take a shard's port while its program restarts, and answer in its place: "
            f"FIRST_PORT is {settings.first_port}, and ports from {free} on are everybody's. OPERATING.md says under "
            "Sockets and ports how they get sockets")


def refuse_another(settings, shard: int) -> None:
    """An error where another program takes a shard's connections."""
    if found := foreign(settings, shard):
        raise Impostor(words_on(settings, shard, found), found)


def is_unlinked(settings, shard: int) -> bool:
    """Whether a shard's program takes connections at a Unix socket that was removed from its folder."""
    path = settings.socket(shard)
    with contextlib.suppress(OSError):
        user = owner_of(settings.folder(shard)).uid
        # (in this order: one that just begins has made its socket before it takes any, and one that ends takes none)
        return (unix_sockets.is_listening(path, user) and not os.path.exists(path)
                and unix_sockets.is_listening(path, user))
    return False


def refuse_unlinked(settings, shard: int) -> None:
    """An error where a shard's program has lost its socket: it makes none again."""
    if settings.port(shard) is None and is_unlinked(settings, shard):
        raise Wrong(f"shard {shard} takes no connections: {why_away(settings, shard)}")


def why_away(settings, shard: int) -> str:
    """Why nobody takes a shard's connections, and what heals it."""
    by = supervisor.of(settings)
    # (as where what supervised it was killed, and another one has begun)
    if others := {*openers(store_of(settings, shard))} - {by.pid(shard)}:
        return (f"process {min(others)}, which isn't its supervisor's, has its file open, and it can't start beside "
                f"that: kill {min(others)}")
    if settings.port(shard) is None and is_unlinked(settings, shard):
        return f"its socket {settings.socket(shard)} was removed: pdpd-shards restart {shard} makes it anew"
    return (f"its program doesn't run, and pdpd-shards restart {shard} starts it, or its log says why "
            f"({by.log_of(by.SHARD.format(shard))})")


def wait_for_own(settings, shard: int, seconds: float = 3.0) -> None:
    """Waits until a shard's own program takes its connections; an error where it doesn't soon, so that nobody else is
    sent what comes next."""
    end = time.monotonic() + seconds
    while not is_own(settings, shard):
        refuse_another(settings, shard)
        if time.monotonic() > end:
            raise Wrong(f"shard {shard} takes no connections: {why_away(settings, shard)}")
        time.sleep(0.05)
