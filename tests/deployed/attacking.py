"""What attacks on the front share: clients of other addresses, programs in a shard's place, what HAProxy counts, and
a clock of its own for it."""
import contextlib
import csv
import io
import pathlib
import re
import shutil
import socket
import ssl
import threading

from serving import PATIENCE

from .clients import Client
from .machine import PLAIN, admin, listens_at, pid, sh, wait_until
from .machine import place as place_of

WATCHDOG = pathlib.Path("/var/log/pdpd/pdpd-watchdog/current")


def outside(number):
    """An address of an outsider. (All of 127.0.0.0/8 is this machine, and the other tests are 127.0.0.1.)"""
    return f"127.0.9.{number + 1}"


class Outsider(Client):
    """A connection from another address."""

    def __init__(self, number, to=PLAIN):
        self.socket = socket.create_connection(("127.0.0.1", to), PATIENCE, source_address=(outside(number), 0))
        self.socket.setsockopt(socket.IPPROTO_TCP, socket.TCP_NODELAY, 1)
        self.held = b""

    def is_ended(self):
        """Whether the server has ended it."""
        try:
            return not self.socket.recv(65_536, socket.MSG_DONTWAIT)
        except BlockingIOError:
            return False
        except OSError:
            return True


def sends_sealed(number, to, protocol, data):
    """Sends something over TLS by that protocol, from another address, and takes what is said to it at once."""
    context = ssl._create_unverified_context()  # pylint: disable=protected-access
    context.set_alpn_protocols([protocol])
    with contextlib.suppress(OSError), Outsider(number, to).socket as plain, context.wrap_socket(plain) as client:
        client.sendall(data)
        client.settimeout(0.3)
        while client.recv(65_536):
            pass


@contextlib.contextmanager
def outsiders(count, of_each, greeting=b""):
    """So many connections of so many addresses, which say that much and stay."""
    held = []
    try:
        for number in range(count):
            for _ in range(of_each):
                # (one that is ended at once)
                with contextlib.suppress(OSError):
                    held.append(Outsider(number))
                    held[-1].send(greeting)
        yield held
    finally:
        for client in held:
            client.close()


class Crowd:
    """So many connections of so many addresses, which say that much and stay: what is ended is opened again."""

    def __init__(self, count, of_each, greeting):
        self.count, self.of_each, self.greeting = count, of_each, greeting
        self.is_over, self.thread = threading.Event(), threading.Thread(target=self.run)

    def run(self):
        held = {}
        while not self.is_over.is_set():
            for place in range(self.count * self.of_each):
                if place in held and not held[place].is_ended():
                    continue
                with contextlib.suppress(OSError):
                    if place in held:
                        held.pop(place).close()
                    held[place] = Outsider(place // self.of_each)
                    held[place].send(self.greeting)
            self.is_over.wait(0.02)
        for client in held.values():
            client.close()

    def __enter__(self):
        self.thread.start()
        return self

    def __exit__(self, *what):
        self.is_over.set()
        self.thread.join()


def pids():
    return [pid(shard) for shard in range(4)]


def kills():
    """How often the watchdog has found a shard stuck."""
    return WATCHDOG.read_text().count(" is stuck")


def counted(proxy, server, name):
    """A number that HAProxy keeps of a frontend, a backend or a server."""
    rows = csv.DictReader(io.StringIO(admin("show stat").lstrip("# ")))
    return next(int(row[name] or 0) for row in rows if (row["pxname"], row["svname"]) == (proxy, server))


def proxy_mebibytes():
    """The memory that HAProxy holds, and the most that it has held."""
    process = re.search(r"(?m)^Pid: (\d+)", admin("show info"))[1]
    text = pathlib.Path(f"/proc/{process}/status").read_text()
    return tuple(int(re.search(rf"{name}:\s+(\d+)", text)[1]) // 1024 for name in ("VmRSS", "VmHWM"))


class InPlace:
    """In place of a shard's program something that reads each message whole, keeps it, and replies or just ends its
    connection."""

    def __init__(self, shard, reply=b""):
        self.shard, self.reply, self.messages, self.taken = shard, reply, [], []

    def __enter__(self):
        sh(f"sv down /etc/service/pdpd-{self.shard}")
        wait_until(lambda: not pid(self.shard), "a shard isn't ended")
        self.socket = listens_at(place_of(self.shard))
        self.thread = threading.Thread(target=self.serve)
        self.thread.start()
        return self

    def serve(self):
        with contextlib.suppress(OSError):
            while True:
                taken, _ = self.socket.accept()
                self.taken.append(taken)
                threading.Thread(target=self.take_all, args=(taken,), daemon=True).start()

    def take_all(self, taken):
        taken.settimeout(30)
        with contextlib.suppress(OSError), taken:
            while self.take(taken) and self.reply:
                pass

    def take(self, taken):
        """Takes the next message of a connection, if there is one."""
        data, whole = b"", None
        while whole is None or len(data) < whole:
            more = taken.recv(65_536)
            if not more:
                return False
            data += more
            head, end, _ = data.partition(b"\r\n\r\n")
            if end:
                length = re.search(rb"(?i)\r\ncontent-length: *(\d+)", head)
                whole = len(head) + 4 + (int(length[1]) if length else 0)
        self.messages.append(data)
        taken.sendall(self.reply)
        return True

    def __exit__(self, *what):
        with contextlib.suppress(OSError):
            self.socket.shutdown(socket.SHUT_RDWR)
        self.socket.close()
        self.thread.join()
        for taken in self.taken:
            # (HAProxy would keep it)
            with contextlib.suppress(OSError):
                taken.shutdown(socket.SHUT_RDWR)
        sh(f"sv up /etc/service/pdpd-{self.shard}")
        wait_until(lambda: pid(self.shard), "the shard isn't started again")


# ---- a clock of HAProxy's own

SHIM = r"""
#define _GNU_SOURCE
#include <sys/stat.h>
#include <sys/syscall.h>
#include <sys/time.h>
#include <time.h>
#include <unistd.h>
/* by how many seconds the clock is ahead: the bytes of a file */
static long ahead(void) { struct stat file; return stat(AHEAD, &file) ? 0 : file.st_size; }
int clock_gettime(clockid_t clock, struct timespec *at) {
    int failed = syscall(SYS_clock_gettime, clock, at);
    if (!failed && clock == CLOCK_REALTIME) at->tv_sec += ahead();
    return failed;
}
int gettimeofday(struct timeval *at, void *zone) {
    struct timespec now;
    clock_gettime(CLOCK_REALTIME, &now);
    at->tv_sec = now.tv_sec;
    at->tv_usec = now.tv_nsec / 1000;
    return 0;
}
time_t time(time_t *at) {
    struct timespec now;
    clock_gettime(CLOCK_REALTIME, &now);
    if (at) *at = now.tv_sec;
    return now.tv_sec;
}
"""


@contextlib.contextmanager
def proxy_clock(folder):
    """HAProxy runs with a clock of its own meanwhile; gives what sets by how many seconds it is ahead."""
    ahead, shim, script = folder / "ahead", folder / "shim.so", pathlib.Path("/etc/sv/haproxy/run")
    # (the service leaves HAProxy nothing of its environment but where programs are)
    shimmed = folder / "shimmed" / "haproxy"
    shimmed.parent.mkdir()
    shimmed.write_text(f"#!/bin/sh\nLD_PRELOAD={shim} exec {shutil.which('haproxy')} \"$@\"\n")
    shimmed.chmod(0o755)
    (folder / "shim.c").write_text(SHIM)
    sh(f"cc -shared -fPIC -O1 -DAHEAD='\"{ahead}\"' -o {shim} {folder}/shim.c")
    installed = script.readlink()
    script.unlink()
    script.write_text(f"#!/bin/sh\nPATH={shimmed.parent}:$PATH exec {installed}\n")
    script.chmod(0o755)
    ahead.write_bytes(b"x" * 60)
    sh("sv restart haproxy")
    wait_until(is_there, "HAProxy isn't there again")
    try:
        yield lambda seconds: ahead.write_bytes(b"x" * seconds)
    finally:
        script.unlink()
        script.symlink_to(installed)
        sh("sv restart haproxy")
        wait_until(is_there, "HAProxy isn't there again")


def is_there():
    try:
        return "Pid:" in admin("show info")
    except OSError:
        return False
