"""A network whose packets come late in each direction, and are otherwise as they are: resets, too. It is a TUN device
in a network namespace of its own. What is sent to THERE comes back to HERE as if THERE had sent it: the two addresses
of a packet are swapped, which leaves its checksums right. So a program that listens at HERE has its clients at THERE.
"""
import collections
import contextlib
import ctypes
import fcntl
import multiprocessing
import os
import select
import struct
import subprocess
import termios
import time

DEVICE, HERE, THERE = "late0", "10.9.0.1", "10.9.0.2"
# linux/sched.h, linux/if_tun.h
CLONE_NEWNET, TUNSETIFF, IFF_TUN, IFF_NO_PI = 0x4000_0000, 0x4004_54CA, 0x0001, 0x1000
TCP, RST, ROOM = 6, 4, 65_536
FORKED = multiprocessing.get_context("fork")


class NoNetwork(Exception):
    """Such a network can't be made here."""


def device():
    """A TUN device, whose packets are what is read from it and written to it."""
    opened = os.open("/dev/net/tun", os.O_RDWR | os.O_NONBLOCK)
    fcntl.ioctl(opened, TUNSETIFF, struct.pack("16sH22x", DEVICE.encode(), IFF_TUN | IFF_NO_PI))
    for words in (["link", "set", "lo", "up"], ["addr", "add", f"{HERE}/24", "dev", DEVICE],
                  ["link", "set", DEVICE, "mtu", "9000", "txqueuelen", "10000", "up"]):
        subprocess.run(["ip", *words], check=True, stdin=subprocess.DEVNULL)
    return opened


def gone(client, seconds):
    """Waits until all that was sent is acknowledged (tcp(7), SIOCOUTQ), or for so long."""
    until = time.monotonic() + seconds
    while any(fcntl.ioctl(client.socket, termios.TIOCOUTQ, bytes(4))) and time.monotonic() < until:
        time.sleep(0.01)


def swapped(packet):
    return packet[:12] + packet[16:20] + packet[12:16] + packet[20:]


def reset_by(packet):
    """The ports from which and to which a packet of TCP is a reset; none of another."""
    head = (packet[0] & 15) * 4
    if packet[9] != TCP or not packet[head + 13] & RST:
        return None
    return struct.unpack("!HH", packet[head:head + 4])


def relays(opened, delay, end, resets):
    """Lets packets of IPv4 through, so many seconds late, until there is something at `end`; then tells the resets."""
    queue, seen = collections.deque(), set()
    while True:
        left = max(0, queue[0][0] - time.monotonic()) if queue else None
        ready, _, _ = select.select([opened, end], [], [], left)
        now = time.monotonic()
        if opened in ready:
            packet = os.read(opened, ROOM)
            if packet[0] >> 4 == 4:
                seen.add(reset_by(packet))
                queue.append((now + delay, swapped(packet)))
        while queue and queue[0][0] <= now:
            os.write(opened, queue.popleft()[1])
        if end in ready:
            resets.send(seen - {None})
            return


@contextlib.contextmanager
def late(delay):
    """The network, for a process that is in a namespace of its own; what is given ends it, and tells the resets."""
    try:
        opened = device()
    except (OSError, subprocess.CalledProcessError) as error:
        raise NoNetwork(str(error)) from error
    end, ends = os.pipe()
    heard, resets = FORKED.Pipe(duplex=False)
    relay = FORKED.Process(target=relays, args=(opened, delay, end, resets), daemon=True)
    relay.start()

    def resets_seen():
        os.write(ends, b"x")
        return heard.recv()
    try:
        yield resets_seen
    finally:
        relay.terminate()
        relay.join()


def apart(action, *given):
    """What an action gives that is run by a process of its own, in a network namespace of its own."""
    found, told = FORKED.Pipe(duplex=False)

    def runs():
        if ctypes.CDLL(None, use_errno=True).unshare(CLONE_NEWNET):
            told.send(NoNetwork(os.strerror(ctypes.get_errno())))
            return
        try:
            told.send(action(*given))
        except Exception as error:  # pylint: disable=broad-except
            told.send(error)
    process = FORKED.Process(target=runs)
    process.start()
    told.close()
    result = found.recv()
    process.join()
    if isinstance(result, Exception):
        raise result
    return result
