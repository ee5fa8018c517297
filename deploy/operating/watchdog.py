"""Kills a pdpd that is stuck, so that its supervisor starts it again.

Each second each shard is asked for a decision, on a connection of the watchdog's own: so nothing that clients do
at HAProxy counts. A program answers one message of each connection in a turn, so the question waits for one of each
that is open, and for no other. Stuck is a program that takes connections and gives no reply for five seconds for each
eight that it has open, by the kernel's list: 0.6 s is the most that a decision request may take under the limits that
are set by default. Its process is killed; what it has answered is kept. A shard that takes no connections is down, or
still opening its file: its supervisor's affair. So is one that has begun to take them meanwhile. One whose place
another program has is taken, and nothing is killed.
"""
import contextlib
import math
import os
import select
import signal
import sys
import threading
import time

from . import applied, listener, overwritten, room, supervisor, talk
from . import settings as setting

# how long one message of each of so many connections may take, and how long is waited between two looks, in seconds
LIMIT, OF_SO_MANY, PAUSE = 5.0, 8, 1.0
# connections of the watchdog's own: one to look who listens, and that of the question
OURS = 2
# for so many seconds after a kill no other shard is killed by one look alone
ROUND = 10.0
# after so many seconds it is looked again whether another program wrote over a store
STORES = 10.0
# a domain that isn't there, and no token: 401 shows that it answers
QUESTION = b"POST /domains/watchdog/pdp HTTP/1.1\r\nHost: pdpd\r\nContent-Length: 2\r\n\r\n{}"


class Kills:
    """The last kill. If several shards give no reply at once it may be the machine that is busy."""

    def __init__(self):
        self.lock, self.shard, self.moment = threading.Lock(), None, 0.0

    def wants_second_look(self, shard):
        """Whether another shard was to be killed a moment ago; if not, this one is."""
        with self.lock:
            now = time.monotonic()
            if self.shard not in (None, shard) and now - self.moment < ROUND:
                return True
            self.shard, self.moment = shard, now
            return False


KILLS = Kills()
# the socket of each shard that was seen to be its own program's
OWN = {}


def patience(settings, shard):
    """How long a shard may give no reply, in seconds, by the connections that it has open beside the watchdog's."""
    return LIMIT * max(1, math.ceil((listener.connections(settings, shard) - OURS) / OF_SO_MANY))


def asked(settings, shard):
    """Whether a shard is `up`, is `silent` though it takes a connection, or is `down`: on a connection of our own."""
    began, left = time.monotonic(), LIMIT
    try:
        with listener.dial(settings, shard, LIMIT) as connection:
            connection.sendall(QUESTION)
            while not select.select([connection], [], [], left)[0]:
                left = patience(settings, shard) - (time.monotonic() - began)
                if left <= 0:
                    return "silent"
            return "up" if connection.recv(1) else "down"
    except (TimeoutError, BlockingIOError):
        return "silent"
    except OSError:
        return "down"


def is_own(settings, shard, socket):
    """Whether a socket is that of the shard's own program. (A supervisor is asked once for each.)"""
    if OWN.get(shard) != socket:
        if listener.another(settings, shard):
            return False
        OWN[shard] = socket
    return True


def taken_at(settings, shard):
    """Who takes a shard's connections; who did before, where its door is full."""
    try:
        return listener.at(settings, shard)
    except BlockingIOError:
        return OWN.get(shard)


def shard_state(settings, shard):
    """`up`, `stuck`, `down` or `taken`, and the socket that took connections before."""
    before = taken_at(settings, shard)
    if before is None:
        return "down", None
    if not is_own(settings, shard, before):
        return "taken", before
    now = asked(settings, shard)
    if now == "silent":
        # (the question may have waited for a program that has only just begun)
        now = "stuck" if taken_at(settings, shard) == before else "down"
    return now, before


def kill(settings, shard, before):
    """Kills the shard's program, if it still is the one with that socket; an error says why none is killed.

    A tool may have started another one.
    """
    process = supervisor.of(settings).pid(shard)
    if taken_at(settings, shard) != before:
        raise setting.Wrong("the program that was stuck has gone meanwhile")
    if not process or not listener.has_open(process, before):
        raise setting.Wrong("its program doesn't run, and another one has its place")
    with contextlib.suppress(ProcessLookupError):
        os.kill(process, signal.SIGKILL)


def tell(what):
    # in one piece, since each shard has a thread of its own
    sys.stderr.write(f"pdpd-watchdog: {what}\n")
    sys.stderr.flush()


def told_state(settings, shard, before):
    """The state of a shard, and its socket; it is told if it is another one than before."""
    now, socket = shard_state(settings, shard)
    if now != before:
        tell(f"shard {shard} is {now}{led(settings, shard, now)}")
    return now, socket


def look_at_disk(shard, before):
    """Tells if a shard's disk has become full, or nearly so, or has room again; gives how it is now."""
    settings = applied.watched(shard)
    try:
        found = room.on_disk_of(settings.folder(shard))
    except FileNotFoundError:
        return before  # (it has never begun)
    now = "full" if found.is_full() else "soon full" if found.is_scarce() else "not full"
    if now != before:
        more = f": its changes may be answered with 503. {room.advice(settings, shard)}" if found.is_full() else ""
        tell(f"the disk of shard {shard} is {now}, it has {found.free / room.MIB:.1f} MiB left{more}")
    return now


class Store:
    """Whether another program seems to have written over a shard's store, as it was seen last, and whether that was
    told."""

    def __init__(self, shard):
        self.shard, self.next, self.seen, self.is_told = shard, 0.0, None, False

    def look(self, state):
        """Tells it where it seems so, and still does in the same way behind a question that was answered. (Who may not
        look into the folder finds nothing.)"""
        if state != "up" or time.monotonic() < self.next:
            return
        settings = applied.watched(self.shard)
        process = supervisor.of(settings).pid(self.shard)
        before, self.seen = self.seen, overwritten.suspicion(settings, self.shard, process) if process else None
        if not self.seen:
            self.next, self.is_told = time.monotonic() + STORES, False
        elif self.seen == before and not self.is_told:
            tell(overwritten.told(settings, self.shard))
            self.is_told = True


def led(settings, shard, now):
    """Has HAProxy send nothing to a shard's place that another user's program has, and ask it again once it is up: what
    is told of that."""
    try:
        # (a port that was only set by now, and that nobody asks, says nothing of the shard)
        if now == "taken" and talk.asked_port(settings, shard) == (settings.port(shard) or 0):
            talk.refuse_another(settings, shard)
        elif now == "taken":
            return f": {listener.another(settings, shard)}"
        elif now == "up":
            talk.lead(settings, shard)
    except setting.Wrong as fault:
        return f": {fault}"
    except OSError as fault:
        return f": HAProxy isn't told: {setting.words_of(fault)}"
    return ""


def look(shard, before):
    """Looks at a shard, tells if it is otherwise than before, kills what is stuck, and gives how it is now."""
    settings = applied.watched(shard)
    now, socket = told_state(settings, shard, before)
    if now == "stuck" and KILLS.wants_second_look(shard):
        tell(f"shard {shard} is looked at once more, since another one was stuck a moment ago")
        now, socket = told_state(settings, shard, now)
    if now == "stuck":
        try:
            kill(settings, shard, socket)
        except (setting.Wrong, OSError, ValueError) as fault:
            # told here, so that how the shard is now isn't lost, and is told once
            tell(f"shard {shard} wasn't killed: {fault}")
    return now


def watch(shard):
    """Watches a shard for ever."""
    now = "not known"  # so one that is up is asked again by HAProxy, which may have been kept from another program
    disk, store = "not full", Store(shard)
    while True:
        try:
            now = look(shard, now)
            disk = look_at_disk(shard, disk)
            store.look(now)
        except Exception as fault:  # pylint: disable=broad-exception-caught
            # a thread that ended would leave its shard unwatched
            why = setting.words_of(fault) if isinstance(fault, (setting.Wrong, OSError)) else repr(fault)
            tell(f"shard {shard} wasn't looked at: {why}")
        time.sleep(PAUSE)


def watch_all():
    """Watches all shards, also those that come later. While the settings can't be read those before them count."""
    count, before = 0, ""
    while True:
        settings, fault = applied.read_or_before()
        if fault != before:
            tell(applied.goes_on(settings, fault) if fault else "the settings can be read again")
        before = fault
        while settings and count < settings.shards:
            threading.Thread(target=watch, args=(count,), daemon=True).start()
            count += 1
        time.sleep(PAUSE)
