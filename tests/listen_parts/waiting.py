"""Connections that say nothing, or too slowly."""
import pathlib
import selectors
import time

from checks import Between
from serve_parts.costs import sleeps
from serve_parts.limits import refusals_in
from serve_parts.shared import ASK, LIST, PERMIT, in_acme
from serving import DONE, UNAVAILABLE

from .readers import ROWS, SHOWS, deaf
from .shared import PLACES, clients_of, expect, listening, timed, within

# How often is looked within a second whether the program sleeps.
LOOKS = 20


def silent():
    """A connection on which nothing comes ends after PDPD_IDLE, also behind a message; others go on."""
    with listening("silent", PDPD_IDLE="1") as served, served.client() as one, served.client() as two:
        expect("a message before the silence", two.ask(ASK), PERMIT)
        for what, client in (("at once", one), ("behind a message", two)):
            found, seconds = timed(client.all)
            expect(f"silence {what}", found, b"")
            within(f"silence {what}: the seconds until it ended", seconds, Between(0, 3))
        expect("another", served.once(ASK), [PERMIT])
        served.kill()
        expect("nothing is said of silence", served.said, b"")


def ended_within(clients, byte_each, limit):
    """Sends each client's next byte now and then until all of them have ended; after how many seconds each did."""
    began, ended, sent = time.monotonic(), {}, 0
    with selectors.DefaultSelector() as selector:
        for number, client in enumerate(clients):
            selector.register(client.socket, selectors.EVENT_READ, number)
        while len(ended) < len(clients) and time.monotonic() < began + limit:
            for number, client in enumerate(clients):
                if number not in ended:
                    try:
                        client.send(byte_each(sent))
                    except OSError:
                        pass
            sent += 1
            for key, _ in selector.select(0.2):
                if key.data not in ended and not clients[key.data].more():
                    ended[key.data] = time.monotonic() - began
                    selector.unregister(key.fileobj)
    return ended


def slow():
    """64 connections that send a byte of a message now and then: each ends after PDPD_MESSAGE, and the next is served
    then; the bytes that come don't make it longer."""
    with listening("slow", PDPD_MESSAGE="2", PDPD_IDLE="30") as served, clients_of(served, PLACES) as clients:
        # (one that has sent nothing for a tenth of a second makes room for the next)
        for client in clients:
            client.send(ASK[:1])
        began = time.monotonic()
        with served.client() as late:
            late.send(ASK)
            ended = ended_within(clients, lambda place: ASK[place + 1:place + 2] or b"x", 10)
            expect("connections that ended", len(ended), PLACES)
            within("the least and the most seconds until one ended", min(ended.values()), Between(1.8, 6))
            within("the most", max(ended.values()), Between(1.8, 6))
            expect("one that waited behind them", late.reply(), PERMIT)
            within("how long it waited", time.monotonic() - began, Between(1.8, 8))


def slow_body():
    """The time of a message is counted from its first byte, whatever part of it is late; a whole one before it has its
    reply."""
    with listening("slow-body", PDPD_MESSAGE="1") as served:
        for what, held in (("half a head", ASK[:20]), ("half a body", ASK[:-3])):
            with served.client() as client:
                client.send(ASK + held)
                expect(f"the reply before {what}", client.reply(), PERMIT)
                found, seconds = timed(client.all)
                expect(f"{what}: all that comes then", found, b"")
                within(f"{what}: the seconds until it ended", seconds, Between(0.8, 4))


def looks_at(served, count):
    """What the program does at so many looks, by letters (proc(5)): S if it sleeps until something comes."""
    states = ""
    for _ in range(count):
        time.sleep(1 / LOOKS)
        states += pathlib.Path(f"/proc/{served.process.pid}/stat").read_text().rpartition(") ")[2][0]
    return states


def unwoken():
    """Where nothing can go on the program sleeps: all places are taken by halves of messages, for which no limit is
    set, and by a peer that takes no reply; and one more waits at the door."""
    with listening("unwoken", PDPD_MESSAGE="0") as served:
        expect("rows", served.once(in_acme("PUT pip", ROWS)), [DONE])
        with deaf(served) as client, clients_of(served, PLACES - 1) as halves, served.client() as late:
            client.send(SHOWS * 12)
            for each in [*halves, late]:
                each.send(ASK[:-1])
            for _ in range(10 * LOOKS):
                if looks_at(served, 3) == "SSS":
                    break
            began, states = sleeps(served), looks_at(served, LOOKS)
            within("how often it went to sleep in a second", sleeps(served) - began, range(4))
            within("how often it was found asleep", states.count("S"), range(LOOKS - 4, LOOKS + 1))


def told():
    """Of connections that are dropped a line is said, of at most ten in a second, and none shows a token."""
    with listening("told", PDPD_IDLE="1", PDPD_MESSAGE="1") as served:
        with clients_of(served, 40) as clients:
            for client in clients:
                client.send(LIST[:-2])
            for client in clients:
                expect("one of forty that are late", client.all(), b"")
        time.sleep(1.2)
        with served.client() as last, served.client() as idle:
            last.send(ASK + LIST[:-2])
            expect("a message of one that is idle then", idle.ask(ASK), PERMIT)
            expect("one more, whose first message was whole", last.all(), PERMIT)
            expect("the idle one", idle.all(), b"")
        served.kill()
        said = served.said.decode()
        lines = [line for line in said.splitlines() if "dropped" in line]
        within("lines about 41 drops", len(lines), Between(11, 31))
        expect("drops of which they tell", refusals_in(lines), 41)
        expect("the last tells of those that were left out", "others before" in lines[-1], True)
        expect("the operator's token in them", "operator-token" in said, False)


def refusals():
    """Of messages that are refused a line is said, of at most ten in a second, and each is told once."""
    with listening("refusals", PDPD_WORK="319") as served:
        with clients_of(served, 40) as clients:
            for client in clients:
                client.send(ASK)
            for client in clients:
                expect("one of forty that are refused", client.reply(), UNAVAILABLE)
        time.sleep(1.2)
        expect("one more", served.once(ASK, LIST)[0], UNAVAILABLE)
        served.kill()
        lines = served.said.decode().splitlines()
        expect("what they name", {"acme: more work than the limit" in line for line in lines}, {True})
        within("lines about 41 refusals", len(lines), Between(2, 31))
        expect("refusals of which they tell", refusals_in(lines), 41)
