"""Many connections at once, and more than there are places."""
import os
import resource
import threading
import time

from checks import Between
from serve_parts.shared import ASK, LIST, PERMIT, creates, listing, serving
from serving import CREATED

from .shared import PLACES, clients_of, expect, listening, percentile, timed, within
from .waiting import LOOKS, looks_at

# How many connections ask without a pause while one more asks now and then, for how many seconds, and how long that one
# waits at most in all but one of a hundred times. Each of its asks waits for at most one of each other.
BUSY, BUSY_SECONDS, BUSY_WAIT = 62, 3, 0.5
# Descriptors that the program may have, of which it needs some for itself.
DESCRIPTORS = 24


def together():
    """A connection that is silent keeps no other waiting; and pieces of 64 come mixed, a byte of each in turn."""
    with listening("together") as served, clients_of(served, PLACES) as clients:
        silent, half, *others = clients
        half.send(ASK[:-1])
        for number, client in enumerate(others):
            expect(f"connection {number} beside a silent one and half a message", client.ask(ASK), PERMIT)
        held = ASK + creates("beta")[:-2]
        for place in range(len(held)):
            for client in others[:8]:
                client.send(held[place:place + 1])
        expect("asks that came byte by byte", [client.reply() for client in others[:8]], [PERMIT] * 8)
        half.send(ASK[-1:])
        expect("the half message, once it is whole", half.reply(), PERMIT)
        expect("the silent one", silent.ask(LIST), listing(["acme"]))


def crowded():
    """Where 64 connections are in the middle of a message, the next waits at the door until one of them ends."""
    with listening("crowded", PDPD_MESSAGE="0") as served, clients_of(served, PLACES) as clients:
        for client in clients:
            client.send(ASK[:-1])
        time.sleep(0.3)
        with served.client() as late:
            late.send(ASK)
            expect("65 connections: the last waits", late.is_silent(0.7), True)
            clients[20].close()
            expect("it is served once another has left", late.reply(), PERMIT)
        for number, client in enumerate(clients):
            if number != 20:
                client.send(ASK[-1:])
                expect(f"connection {number} of 64, whose message is whole now", client.reply(), PERMIT)


def driven_out():
    """Where 64 connections are idle, another takes the place of the one that has been idle for longest; those that owe
    something stay."""
    with listening("driven-out") as served, clients_of(served, PLACES) as clients:
        for client in clients:
            expect("one of 64", client.ask(ASK), PERMIT)
        clients[0].send(ASK[:-1])
        time.sleep(0.3)
        with served.client() as late:
            found, seconds = timed(lambda: late.ask(ASK))
            expect("the 65th", found, PERMIT)
            within("the seconds that it waited", seconds, Between(0, 2))
            expect("the one that was idle for longest", clients[1].all(), b"")
            expect("those behind it", [client.ask(ASK) for client in clients[2:]], [PERMIT] * (PLACES - 2))
            clients[0].send(ASK[-1:])
            expect("one that is in the middle of a message", clients[0].reply(), PERMIT)


def busy():
    """62 connections that ask without a pause, and one more: it waits for at most one ask of each."""
    with listening("busy") as served, clients_of(served, BUSY) as clients, served.client() as one:
        until, counts = time.monotonic() + BUSY_SECONDS, [0] * BUSY

        def asks(number):
            client = clients[number]
            while time.monotonic() < until and client.ask(ASK) == PERMIT:
                counts[number] += 1

        threads = [threading.Thread(target=asks, args=(number,)) for number in range(BUSY)]
        for thread in threads:
            thread.start()
        times = []
        while time.monotonic() < until:
            found, seconds = timed(lambda: one.ask(ASK))
            expect("an ask beside 62 busy connections", found, PERMIT)
            times.append(seconds)
            time.sleep(0.01)
        for thread in threads:
            thread.join()
        within("the seconds that all but one of a hundred waited", percentile(times, 0.99), Between(0, BUSY_WAIT))
        expect("connections that were left out", counts.count(0), 0)


def resets():
    """Connections that are reset inside a message, and with replies under way: others go on."""
    with listening("resets") as served, served.client() as other:
        held = creates("beta")
        for place in range(len(held)):
            client = served.client()
            client.send(held[:place])
            client.close(reset=True)
            expect(f"another, behind a reset after {place} bytes", other.ask(ASK), PERMIT)
        for _ in range(20):
            client = served.client()
            client.send(LIST * 50)
            client.close(reset=True)
            expect("another, behind a reset with replies under way", other.ask(ASK), PERMIT)
        expect("nothing was made", other.ask(LIST), listing(["acme"]))


def descriptors():
    """Where the program may have no more descriptors, connections wait at the door, and those that are taken are served
    meanwhile; it doesn't turn."""
    def limited():
        resource.setrlimit(resource.RLIMIT_NOFILE, (DESCRIPTORS, DESCRIPTORS))

    with serving("descriptors.db", preexec_fn=limited) as served:
        for held, wanted in ((creates("acme"), CREATED), (LIST, listing(["acme"]))):
            expect("within few descriptors", served.once(held), [wanted])
        with clients_of(served, DESCRIPTORS + 6) as clients:
            first = clients[0]
            for client in clients:
                client.send(LIST)
            time.sleep(0.5)
            before, states = served.processor_seconds(), looks_at(served, LOOKS)
            within("processor seconds of a second in which nothing can be taken",
                   served.processor_seconds() - before, Between(0, 0.3))
            within("how often it was found asleep in it", states.count("S"), range(LOOKS // 2, LOOKS + 1))
            expect("one that was taken", [first.reply(), first.ask(LIST)], [listing(["acme"])] * 2)
            open_now = len(os.listdir(f"/proc/{served.process.pid}/fd"))
            within("its descriptors", open_now, Between(DESCRIPTORS - 1, DESCRIPTORS))
            for client in clients[:20]:
                client.close()
            expect("those that waited are served as others leave", [client.reply() for client in clients[-6:]],
                   [listing(["acme"])] * 6)
