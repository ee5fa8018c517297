"""Streams that come in pieces, end early, are none, or are many at once; and large bodies."""
import collections
import threading
import time

from checks import Between
from sent import rows_body
from serving import (
    ABSENT, BAD_HEAD, CREATED, DONE, EXISTS, HEAD_TOO_LARGE, OPERATOR, UNAUTHORIZED, fault, free_port, making, message,
    policy, reply)

from .shared import (
    ASK, LIST, MIB, PERMIT, chance, creates, ends_well, expect, in_acme, listing, make_domain, replies_up_to_end,
    serving, within)


def single_bytes():
    """Each byte of some messages by itself: a reply comes behind the last one, and none before."""
    with serving("bytes.db", 1) as served, served.client() as client:
        for held, wanted in [*making("acme", "acme-token-1"), (ASK, PERMIT), (LIST, listing(["acme"]))]:
            for place in range(len(held)):
                client.send(held[place:place + 1])
                if place % 97 == 0:
                    expect(f"byte {place} of {held[:40]}", client.is_silent(0.002), True)
            expect(f"the bytes of {held[:40]}", client.reply(), wanted)
        client.ends_writing()
        expect("nothing further", client.all(), b"")
        ends_well("single bytes", served)


def places_to_cut(held):
    """Places in a message at which it is cut: at its ends, around the end of its head, and others between."""
    body = held.index(b"\r\n\r\n") + 4
    places = {1, 4, body - 3, body - 1, body, body + 1, len(held) - 1, *range(7, len(held), 23)}
    return sorted(at for at in places if at < len(held))


def cuts():
    """Connections that end inside a head or a body, in three ways: the next is served, and nothing has changed."""
    kept = [LIST, in_acme("GET pap/policies"), ASK]
    with serving("cuts.db") as served:
        make_domain(served)
        wanted = served.once(*kept)
        for held in (creates("beta"), in_acme("POST pap/policies", policy("Deny", "urn:q"))):
            for number, place in enumerate(places_to_cut(held)):
                with served.client() as client:
                    client.send(held[:place])
                    if number % 3 == 1:
                        client.ends_writing()
                        expect(f"{place} bytes and the end", client.all(), b"")
                    client.close(reset=number % 3 == 2)
                if number % 4 == 0:
                    expect(f"after {place} bytes of {held[:30]}", served.once(*kept), wanted)
        expect("after all cuts", served.once(*kept), wanted)


GARBAGE = (
    (b":", BAD_HEAD), (b"\x16\x03\x01\x02\x00\x01\x00\x01\xfc\x03\x03", BAD_HEAD), (b"\0" * 100, BAD_HEAD),
    (b"GET /\xff HTTP/1.1\r\n\r\n", BAD_HEAD), (b"GET / HTTP/2.0\r\n\r\n", BAD_HEAD),
    (b"GET / HTTP/1.1\r\nno colon\r\n\r\n", BAD_HEAD), (b"GET /" + b"a" * 16_378, b""),
    (b"GET /" + b"a" * 16_379, HEAD_TOO_LARGE), (b"", b""), (b"\r\n" * 50, b""),
    (b"GET / HTTP/1.1\r\nContent-Length: 524289\r\n\r\n", fault("413 Payload Too Large", "BodyTooLarge")),
    (b"GET / HTTP/1.1\r\nTransfer-Encoding: chunked\r\n\r\n", fault("501 Not Implemented", "TransferCoding")))


def garbage():
    """Bytes that are no message: the fault's reply and the end, or nothing; and the next connection is served."""
    with serving("garbage.db") as served:
        make_domain(served)
        for data, wanted in GARBAGE:
            expect(f"{data[:40]}", replies_up_to_end(served, data), wanted)
            expect(f"after {data[:40]}", served.once(ASK), [PERMIT])
        for _ in range(30):
            found = replies_up_to_end(served, chance.randbytes(chance.choice((1, 50, 5_000))))
            within("random bytes", found, [b"", BAD_HEAD])
        expect("a fault behind a message, and what follows it", replies_up_to_end(served, ASK + b":" + ASK),
               PERMIT + BAD_HEAD)
        expect("after random bytes", served.once(ASK), [PERMIT])


def silent():
    """A connection that says nothing: the next one waits until it closes, and is then served."""
    with serving("silent.db") as served:
        make_domain(served)
        for reset in (False, True):
            first, second = served.client(), served.client()
            second.send(ASK)
            expect("the second waits", second.is_silent(0.3), True)
            first.close(reset)
            expect("the second is served", second.reply(), PERMIT)
            second.close()
        first, others = served.client(), [served.client() for _ in range(5)]
        for place, other in enumerate(others):
            other.send(creates(f"d{place}"))
            other.ends_writing()
        first.close()
        expect("each of those that wait", [other.all() for other in others], [CREATED] * 5)
        expect("and all that they made", served.once(LIST), [listing(["acme", *(f"d{place}" for place in range(5))])])


def mixed():
    """64 connections at once, a byte of each in turn: they are served one after another, and each gets the
    replies to its own stream."""
    no_route, last = fault("404 Not Found", "NoRoute"), b"GET / HTTP/1.0\r\n\r\n"
    kinds = [(ASK + ASK, PERMIT + PERMIT), (ASK + b":" + ASK, PERMIT + BAD_HEAD), (last + ASK, no_route),
             (ASK + ASK[:50], PERMIT), (LIST, listing(["acme"]))]
    with serving("mixed.db", 66) as served:
        make_domain(served)
        streams = [(served.client(), *kinds[number % len(kinds)]) for number in range(64)]
        for place in range(max(len(held) for _, held, _ in streams)):
            for client, held, _ in streams:
                try:
                    client.send(held[place:place + 1])
                except OSError:  # it has ended, and what follows isn't read
                    pass
        for number, (client, held, wanted) in enumerate(streams):
            with client:
                try:
                    client.ends_writing()
                except OSError:
                    pass
                expect(f"connection {number} of 64", client.all(), wanted)
        expect("after 64 connections", served.once(LIST), [listing(["acme"])])
        ends_well("64 connections", served)


def pipelined():
    """Many messages at once, answered in order, and a stream of many that is read while it is sent."""
    with serving("pipelined.db") as served:
        make_domain(served)
        held = [creates("d1"), LIST, ASK, creates("d1"), message("DELETE", "/operator/domains/d1", OPERATOR),
                message("DELETE", "/operator/domains/d1", OPERATOR), LIST]
        wanted = [CREATED, listing(["acme", "d1"]), PERMIT, EXISTS, DONE, ABSENT, listing(["acme"])]
        expect("messages in one piece", replies_up_to_end(served, b"".join(held)), b"".join(wanted))
        with served.client() as client:
            sender = threading.Thread(target=client.send, args=(ASK * 20_000,))
            sender.start()
            found = collections.Counter(client.reply() for _ in range(20_000))
            sender.join()
            expect("20,000 asks in one stream", found, {PERMIT: 20_000})


def unread():
    """Streams whose replies nobody reads."""
    with serving("unread.db") as served:
        make_domain(served)
        for _ in range(3):
            client = served.client()
            client.socket.setblocking(False)
            sent, until = 0, time.time() + 5
            while sent < 40_000 * len(ASK) and time.time() < until:
                try:
                    sent += client.socket.send(ASK * 100)
                except BlockingIOError:
                    time.sleep(0.2)
                    break
            client.close(reset=True)
            expect("after replies that nobody read", served.once(ASK), [PERMIT])


def replies_at_once(served, data, count):
    """The first replies to what has come whole before the server reads it: until then it serves another connection."""
    first, second = served.client(), served.client()
    second.send(data)
    time.sleep(0.2)
    first.close()
    with second:
        second.ends_writing()
        return [second.reply() for _ in range(count)], second.all()


def many_at_once():
    """Messages of 18 bytes, without a token, as many as come in one read and more: each is answered, and the next
    connection is served."""
    short, no_route = b"GET / HTTP/1.1\r\n\r\n", fault("404 Not Found", "NoRoute")
    with serving("at-once.db") as served:
        make_domain(served)
        for count in (999, 1_000, 1_001, 3_640):
            expect(f"{count} messages in one piece", replies_at_once(served, short * count + ASK, count + 1),
                   ([no_route] * count + [PERMIT], b""))
            expect(f"after {count} messages in one piece", served.once(ASK), [PERMIT])


def large():
    """Bodies and replies about as long as one read, and as long as a body may be."""
    with serving("large.db") as served:
        make_domain(served)
        for length in (65_536, 65_537, 524_288):
            body, shows = rows_body(length), in_acme("GET pip")
            expect(f"a body of {length} bytes, and a reply with it",
                   served.once(in_acme("PUT pip", body), shows, ASK), [DONE, reply("200 OK", body), PERMIT])
            expect("two such replies, read once all is asked for", replies_up_to_end(served, shows * 2 + ASK),
                   reply("200 OK", body) * 2 + PERMIT)


def ask_with(field):
    return in_acme("POST pdp", '{"Request":{}}', f"{field}\r\n")


def closing():
    """A message that closes its connection: its reply is the last, and what follows is dropped."""
    with serving("closing.db") as served:
        make_domain(served)
        for held in (ask_with("Connection: close"), ASK.replace(b"HTTP/1.1", b"HTTP/1.0"),
                     ask_with("Connection: Keep-Alive, Close")):
            with served.client() as client:
                client.send(held + creates("late"))
                expect(f"the last reply to {held[:60]}", client.all(), PERMIT)
        unknown = message("GET", "/domains/zeta/pdp", "acme-token-1", more="Connection: close\r\n")
        expect("a refused message that closes", replies_up_to_end(served, unknown + ASK)[:12], b"HTTP/1.1 405")
        expect("401 leaves it open",
               replies_up_to_end(served, message("POST", "/domains/zeta/pdp", "acme-token-1", "{}") + ASK),
               UNAUTHORIZED + PERMIT)
        expect("what followed was dropped", served.once(LIST), [listing(["acme"])])
        with served.client() as client:
            expect("the last reply to one that stays", client.ask(ask_with("Connection: close")), PERMIT)
            began = time.monotonic()
            expect("the next", served.once(ASK), [PERMIT])
            within("the seconds that it waits for the one that stays", time.monotonic() - began, Between(0, 1))
    for connections in (1, 3):
        with serving("closing.db", connections) as served:
            for _ in range(connections):
                expect(f"one of {connections} connections", served.once(ASK), [PERMIT])
            ends_well(f"{connections} connections", served)
    port = free_port()
    for _ in range(3):
        with serving("closing.db", 1, port=port) as served:
            with served.client() as client:
                client.send(ask_with("Connection: close"))
                expect("on the same port again at once", (served.listens, client.all()), (True, PERMIT))
            served.ended()


def parted():
    """The last reply arrives at one that sends 8 MB behind a fault before it reads; and one that sends on without an
    end is left after two seconds, or after 64 MiB and what the system holds."""
    large = b"POST /domains/acme/pdp HTTP/1.1\r\nContent-Length: 100000000\r\n\r\n"
    wanted = fault("413 Payload Too Large", "BodyTooLarge")
    with serving("parted.db") as served:
        for _ in range(10):
            with served.client() as client:
                client.send(large)
                sent = sends_on(client, [b"x" * 65_536] * 122)
                expect(f"the reply behind {sent} pieces", client.all(), wanted)
        with served.client() as client:
            began = time.monotonic()
            client.send(large)
            sends_on(client, (b"x" * 100 for _ in range(1_000) if not time.sleep(0.01)))
            within("the seconds until one that sends on was left", time.monotonic() - began, Between(1.5, 6))
        with served.client() as client:
            client.send(large)
            within("the MiB that one sends as fast as it can until it is left", sends_on(client, [b"x" * MIB] * 1_000),
                   Between(0, 96))
        expect("the next", served.once(LIST), [listing([])])


def sends_on(client, pieces):
    """Sends pieces as long as they can be sent, and tells how many were."""
    count = 0
    try:
        for count, piece in enumerate(pieces):
            client.send(piece)
    except OSError:
        pass
    return count
