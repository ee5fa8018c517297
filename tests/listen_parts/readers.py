"""Peers that take no replies, or slowly."""
import concurrent.futures
import os
import socket
import threading
import time

from checks import Between
from sent import rows_body
from serve_parts.limits import grown_reply, making_root
from serve_parts.shared import ASK, LIST, PERMIT, in_acme
from serving import DONE, reply

from .shared import clients_of, expect, listening, percentile, timed, within

ROWS = rows_body(524_288)
SHOWS, SHOWN = in_acme("GET pip"), reply("200 OK", ROWS)
LONG, LONG_BYTES = 5, 15_360_000  # a policy whose reply has so many bytes
MEBIBYTES = 1_024  # KiB
DEAF = 8


def deaf(served, room=4_096):
    """A client with little room for what comes."""
    client = served.client()
    client.socket.setsockopt(socket.SOL_SOCKET, socket.SO_RCVBUF, room)
    return client


def memory_now(served):
    """The memory that the program holds now, in KiB."""
    with open(f"/proc/{served.process.pid}/status", encoding="ascii") as lines:
        return int(next(line for line in lines if line.startswith("VmRSS")).split()[1])


def is_there(served, count):
    """Waits until the program has that many descriptors, and tells whether it has."""
    for _ in range(200):
        if len(os.listdir(f"/proc/{served.process.pid}/fd")) == count:
            return True
        time.sleep(0.1)
    return False


def taken_whole(client, length):
    """So many bytes of what comes, or those before the end."""
    found = bytearray(length)
    held = memoryview(found)
    while held and (count := client.socket.recv_into(held)):
        held = held[count:]
    return bytes(found)


def never_reads():
    """A peer that sends messages without an end and takes no reply is read from no more, and dropped after ten seconds;
    meanwhile another is served at once."""
    with listening("never-reads") as served, served.client() as other:
        expect("rows", other.ask(in_acme("PUT pip", ROWS)), DONE)
        before, seats = memory_now(served), len(os.listdir(f"/proc/{served.process.pid}/fd"))
        client, sent = deaf(served), []

        def floods():
            try:
                for _ in range(1_000_000):
                    sent.append(client.socket.send(SHOWS * 50))
            except OSError:
                pass

        thread, began, times = threading.Thread(target=floods, daemon=True), time.monotonic(), []
        thread.start()
        while time.monotonic() < began + 4:
            found, seconds = timed(lambda: other.ask(ASK))
            expect("another, beside one that takes nothing", found, PERMIT)
            times.append(seconds)
            time.sleep(0.01)
        within("the seconds that it waited, half of the times", percentile(times, 0.5), Between(0, 0.2))
        within("the seconds that it waited, but for one of a hundred", percentile(times, 0.99), Between(0, 3))
        within("KiB of memory more", memory_now(served) - before, Between(-MEBIBYTES, 8 * MEBIBYTES))
        expect("it is dropped", is_there(served, seats), True)
        within("after so many seconds", time.monotonic() - began, Between(9, 20))
        client.close(reset=True)
        expect("another goes on", other.ask(ASK), PERMIT)


def slow_readers():
    """A peer that takes its reply slowly, but more than 65,536 bytes in ten seconds, gets it whole."""
    with listening("slow-readers") as served, served.client() as other:
        expect("rows", other.ask(in_acme("PUT pip", ROWS)), DONE)
        with served.client() as client:
            client.socket.setsockopt(socket.SOL_SOCKET, socket.SO_RCVBUF, 65_536)
            client.send(SHOWS * 12)
            found = bytearray()
            while len(found) < 12 * len(SHOWN):
                piece = client.socket.recv(524_288)
                if not piece:
                    break
                found += piece
                time.sleep(0.02)
            expect("twelve replies that were taken slowly", bytes(found) == SHOWN * 12, True)


def bounded():
    """However many take no replies: those under way have at most 32 MiB together and one reply more; the others wait,
    and are answered once there is room."""
    with listening("bounded") as served:
        served.once(*making_root(LONG))
        wanted, before = grown_reply(LONG), memory_now(served)
        with clients_of(served, DEAF) as clients:
            for client in clients:
                client.socket.setsockopt(socket.SOL_SOCKET, socket.SO_RCVBUF, 65_536)
                client.send(ASK)
            time.sleep(3)
            within("KiB of memory more, by eight replies of 15,000", memory_now(served) - before,
                   Between(0, 110 * MEBIBYTES))
            with served.client() as other:
                other.send(LIST)
                expect("a short reply waits, too, while so many bytes are under way", other.is_silent(0.5), True)
                with concurrent.futures.ThreadPoolExecutor(DEAF) as pool:
                    found = list(pool.map(lambda client: taken_whole(client, len(wanted)) == wanted, clients))
                expect("all are answered once they are taken", found, [True] * DEAF)
                expect("and the short reply", other.reply()[:12], b"HTTP/1.1 200")
