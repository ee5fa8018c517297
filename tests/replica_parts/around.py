"""What the core of the daemon rests on: the machine's clocks, HAProxy's processes, the program that runs, and messages
that are under way at pdpd."""
import os
import socket
import zlib
from types import SimpleNamespace

from audit_parts.shared import expect, folder
from log import pdpd
from replica import clocks, daemon
from replica.daemon import Replica
from replica.leases import Leases
from replica.running import Running, map_of

from .core import PROGRAM, Clock, Renewed


class Set(Clock):
    """A clock whose wall clock is set."""

    def __init__(self):
        super().__init__()
        self.off = 0.0

    def time(self):
        return self.now + self.off


def clock_is_set():
    """Once the wall clock was set that is noticed, once, and HAProxy is told the lease's end by what it shows now."""
    clock, one = Set(), Renewed()
    found = clocks.steps(clock)
    expect("nobody sets it", [next(found) for _ in range(3)], [0.0] * 3)
    one.lease.clock, one.lease.until = clock, clock.monotonic() + 4.0
    for off in (-3.0, 5.0):
        before, clock.off = clock.off, off
        expect(f"it is set to {off} s", [round(next(found), 6) for _ in range(2)], [off - before, 0.0])
        expect("the end by the wall clock", round(one.lease.moment() - clock.time(), 6),
               round(one.lease.until - clock.monotonic(), 6))
    told, said = [], []

    def tell():
        told.append(clock.off)
        raise StopIteration
    daemon.core.CLOCK, kept = clock, daemon.core.CLOCK
    clock.off, sleep = 0.0, clock.sleep
    clock.sleep = lambda seconds: (sleep(seconds), setattr(clock, "off", clock.off - (clock.off > -1)))
    try:
        Replica.watch_clock_for_ever(SimpleNamespace(say=said.append, tell_proxy=tell))
    except StopIteration:
        pass
    finally:
        daemon.core.CLOCK = kept
    expect("HAProxy is told", told, [-1.0])
    expect("what is said", said, ["the clock was set by -1.00 s: have it slewed, not set"])


def old_proxies():
    """A HAProxy of before a reload may answer until what it was told is over."""
    one = Leases("/nowhere", "map", 0)
    for said, wanted in (("Uptime_sec: 7", True), ("Uptime_sec: 6", False), ("", False), (None, False)):
        one.said = lambda command, said=said: said if said is None else f"Pid: 9\n{said}\nUptime: 0d"  # noqa: B023
        expect(f"what it says: {said}", one.are_over(5.0), wanted)
    expect("without any", Leases(None, "map", 0).are_over(5.0), True)


def other_programs():
    """A program that isn't the daemon's gets nothing, though it takes the connection."""
    place = folder / "programs"
    place.mkdir()
    (place / "program").write_text(f"{PROGRAM}  -\n")
    one = Running(3, None, place / "program")
    expect("what it goes by", one.program, f"{PROGRAM}/3")
    for what, text, wanted in (("the same", f"{PROGRAM}  -\n", ""),
                               ("another one", "2" * 64, "as another program, 2222"),
                               ("none", "", "unknown"), ("what is none", "x" * 64, "unknown")):
        (place / "program").write_text(text)
        expect(what, wanted in one.other() and bool(wanted) == bool(one.other()), True)
    (place / "program").unlink()
    expect("none is noted", "unknown" in one.other(), True)
    os.mkfifo(place / "program")
    expect("what is no file", "unknown" in one.other(), True)
    (place / "held").write_text("x")
    expect("nobody notes it", Running(1, place / "held").other(), "")
    with socket.socket(socket.AF_UNIX) as listens:
        listens.bind(str(place / "socket"))
        listens.listen()
        try:
            pdpd.replies(f"unix:{place}/socket", b"GET / HTTP/1.1\r\n\r\n", 1, 5.0, None, one.refuse_other)
            found = "sent"
        except pdpd.NotSent:
            found = "refused"
        with listens.accept()[0] as connection:
            expect("what it gets", (found, connection.recv(100)), ("refused", b""))


def other_maps():
    """Machines that lead domains alike have the same that stands for their maps, however these are written."""
    place = folder / "maps"
    place.mkdir()
    (place / "program").write_text("x")
    # (by their names acme, ward and other are in these of three shards)
    own = {name: zlib.crc32(name.encode()) % 3 for name in ("acme", "ward", "other")}
    elsewhere = {name: (shard + 1) % 3 for name, shard in own.items()}

    def of(text):
        (place / "map").write_text(text)
        return map_of(place / "map", 3)
    for what, text in (("an empty one", ""), ("lines that say what names do", f"acme {own['acme']}\nNEW moving\n"),
                       ("words of a person", "# acme 9\n\n")):
        expect(what, of(text), "")
    one = of(f"acme {elsewhere['acme']}\nward {elsewhere['ward']}\n")
    expect("another order, and another line that doesn't count",
           of(f"ward {elsewhere['ward']}\nother {own['other']}\nacme {elsewhere['acme']}\nacme 9\n"), one)
    found = {one, of(f"acme {elsewhere['acme']}\n"), of("acme moving\n"), of(f"ward {elsewhere['ward']}\n")}
    expect("others", (len(found), "" in found), (4, False))
    (place / "map").unlink()
    running = Running(3, place / "program", domains=place / "map")
    expect("none", running.other(), "")
    of(f"acme {elsewhere['acme']}\n")
    expect("one that changes", running.other(), "domains are led to other shards now")
    (place / "map").unlink()
    expect("one that is as it was", running.other(), "")


def left_behind():
    """Nothing is settled while pdpd has a message whose sender has gone, whether it has taken the connection, or takes
    none any more."""
    at = folder / "left"
    one = SimpleNamespace(pdpd=f"unix:{at}", user=None)
    with socket.socket(socket.AF_UNIX) as takes, socket.socket(socket.AF_UNIX) as sends:
        takes.bind(str(at))
        takes.listen()
        expect("nothing was sent", Replica.is_settled(one), True)
        sends.connect(str(at))
        expect("one that waits to be taken", Replica.is_settled(one), False)
        taken, _ = takes.accept()
        expect("one that was taken", Replica.is_settled(one), True)
        sends.close()
        expect("its sender has gone", Replica.is_settled(one), False)
        at.unlink()
        expect("its socket, too", Replica.is_settled(one), False)
        taken.close()
        expect("it is over", Replica.is_settled(one), True)


PARTS = (clock_is_set, old_proxies, other_programs, other_maps, left_behind)
