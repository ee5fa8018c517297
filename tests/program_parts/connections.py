"""Sizes of entries and replies, and connections side by side."""
import random

from sent import BAD_HEAD, DONE, HEAD_TOO_LARGE, reply, rows_body

from .entries import BAD_COUNT, malformed
from .shared import (
    ASK, MOST_BYTES, NO_ROUTE, REPLY, asks, entry, expect, in_acme, padded_ask, replay, written)

SHORT = b"GET / HTTP/1.1\r\n\r\n"


# ---- sizes

def sizes():
    """Entries up to the greatest size, and many of them."""
    for length in (65_535, 65_536, 65_537, 131_072, MOST_BYTES - 1, MOST_BYTES):
        data, count = asks(length)
        assert len(data) == length
        expect(f"an entry of {length} bytes", replay(entry(5, 0, data)), (count * written(5, REPLY), b"", 0))
        both = entry(5, 0, data[:-1]) + entry(5, 0, data[-1:])
        expect(f"an entry of {length - 1} bytes, and its last byte", replay(both), (count * written(5, REPLY), b"", 0))
    expect("an entry that is too large", replay(entry(0, 0, ASK) + entry(0, 0, asks(MOST_BYTES + 1)[0])),
           (written(0, REPLY), *malformed(4, BAD_COUNT)))
    expect("the longest entry is no message", replay(entry(2, 0, b":" * MOST_BYTES)), (written(2, BAD_HEAD), b"", 0))
    many = b"".join(entry(number % 64, number, ASK) for number in range(5_000))
    expect("5,000 entries", replay(many), (b"".join(written(number % 64, REPLY) for number in range(5_000)), b"", 0))


def behind_what_is_held():
    """The longest entry behind bytes that are held already: a part of a head, and a body but for its last byte."""
    no_route = written(0, NO_ROUTE)
    rest = b"ET / HTTP/1.1\r\n\r\n"
    found = replay(entry(0, 0, b"G") + entry(0, 0, rest + b"\n" * (MOST_BYTES - len(rest))))
    expect("the longest entry behind a byte of a head", found, (no_route + written(0, HEAD_TOO_LARGE), b"", 0))
    data, count = asks(MOST_BYTES - 1)
    body = b"POST / HTTP/1.1\r\nContent-Length: 524288\r\n\r\n" + b"x" * 524_287
    expect("the longest entry behind a body but for a byte", replay(entry(0, 0, body) + entry(0, 0, b"x" + data)),
           (no_route + count * written(0, REPLY), b"", 0))
    both = (b"".join(entry(number, 0, body) for number in range(64))
            + b"".join(entry(number, 0, b"x" + ASK) for number in range(64)))
    wanted = b"".join(no_route.replace(b"0 ", b"%d " % number, 1) + written(number, REPLY) for number in range(64))
    expect("64 bodies but for a byte, and the bytes", replay(both), (wanted, b"", 0))


def replies():
    """Many replies to one entry, and long ones: longer than what is held before it is written, and as
    long as they can be."""
    for count in (63, 64, 65, 999, 1_000, 1_001, 4_096, 20_000):
        expect(f"{count} messages of one entry", replay(entry(0, 0, SHORT * count + ASK)),
               (written(0, NO_ROUTE) * count + written(0, REPLY), b"", 0))
    for length in (65_400, 65_536, 65_537, 131_072, 524_288):
        body = rows_body(length)
        held = in_acme("PUT pip", body) + in_acme("GET pip") * 3 + ASK
        wanted = written(9, DONE) + written(9, reply("200 OK", body)) * 3 + written(9, REPLY)
        expect(f"replies of {length} bytes and more", replay(entry(9, 0, held)), (wanted, b"", 0))


# ---- connections

def connections():
    """Faults, ends and openings of connections."""
    bad = b":\r\n"
    expect("a fault, and what follows it", replay(entry(0, 0, ASK + bad + ASK) + entry(0, 0, ASK)),
           (written(0, REPLY) + written(0, BAD_HEAD), b"", 0))
    again = entry(0, 0, bad) + entry(0, 0, b"") + entry(0, 0, ASK)
    expect("a connection that is opened again", replay(again), (written(0, BAD_HEAD) + written(0, REPLY), b"", 0))
    expect("closing what isn't open", replay(entry(7, 0, b"") + entry(7, 0, ASK)), (written(7, REPLY), b"", 0))
    last = ASK.replace(b"HTTP/1.1", b"HTTP/1.0")
    closing = entry(0, 0, last + b":") + entry(0, 0, ASK) + entry(0, 0, b"") + entry(0, 0, ASK)
    expect("a message that closes its stream, and what follows it", replay(closing), (2 * written(0, REPLY), b"", 0))
    mixed = b"".join(entry(connection, 0, ASK[at:at + 1]) for at in range(len(ASK)) for connection in (0, 63))
    expect("two connections, a byte of each in turn", replay(mixed), (written(0, REPLY) + written(63, REPLY), b"", 0))


def streams_of_64():
    """For each connection a stream of its own, and the replies to it: asks of many lengths, a fault, a message that
    closes, a head that never ends, a part of a message."""
    for number in range(64):
        held, wanted = [padded_ask(200 + number), SHORT * (number % 3)], [REPLY] + [NO_ROUTE] * (number % 3)
        if number % 7 == 1:
            held, wanted = held + [b":" + ASK], wanted + [BAD_HEAD]
        elif number % 7 == 2:
            held, wanted = held + [b"GET / HTTP/1.0\r\n\r\n" + ASK], wanted + [NO_ROUTE]
        elif number % 7 == 3:
            held = held + [ASK[:number]]
        elif number == 4:
            held, wanted = held + [b"GET /" + b"a" * 20_000], wanted + [HEAD_TOO_LARGE]
        yield number, b"".join(held), wanted


def of_connection(out, number):
    """What the program wrote to one connection, in what it wrote to all."""
    found = []
    while out:
        line, _, out = out.partition(b"\n")
        connection, count = map(int, line.split(b" "))
        found += [out[:count]] * (connection == number)
        out = out[count + 1:]
    return found


def mixed_entries(streams, size, chance):
    """The entries of the streams in turn, of so many bytes each; in a random order and of random sizes, if none is
    given."""
    left, transcript = {number: held for number, held, _ in streams}, []
    while left:
        turn = list(left) if size else [chance.choice(list(left))]
        for number in turn:
            count = size or chance.choice([1, 2, 30, 300])
            transcript.append(entry(number, 0, left[number][:count]))
            left[number] = left[number][count:]
            if not left[number]:
                del left[number]
    return b"".join(transcript)


def many_connections():
    """64 connections whose streams come mixed, a byte of each in turn, in pieces of other sizes and in random ones:
    each gets what its stream gets alone, in one entry."""
    streams = list(streams_of_64())
    for number, held, wanted in streams:
        alone = b"".join(written(number, one) for one in wanted)
        expect(f"the stream of connection {number} alone", replay(entry(number, 0, held)), (alone, b"", 0))
    chance = random.Random(5)
    for size in (1, 7, 64, 100, None):
        out, said, status = replay(mixed_entries(streams, size, chance))
        expect(f"64 streams by {size or 'random'} bytes", (said, status), (b"", 0))
        for number, _, wanted in streams:
            expect(f"connection {number} by {size or 'random'} bytes", of_connection(out, number), wanted)


def used_again():
    """A number that is closed and used again, again and again, while another connection's message is half there."""
    half, rest = entry(1, 0, ASK[:50]), entry(1, 0, ASK[50:])
    pieces = [b":", ASK[:90], b"GET / HTTP/1.0\r\n\r\n", ASK + b"x", b"GET /" + b"a" * 17_000]
    again = b"".join(entry(0, 0, held) + entry(0, 0, b"") + entry(0, 0, ASK) + entry(0, 0, b"") for held in pieces)
    out, said, status = replay(half + again + rest)
    expect("another connection is answered", (of_connection(out, 1), said, status), ([REPLY], b"", 0))
    each = [[BAD_HEAD], [], [NO_ROUTE], [REPLY], [HEAD_TOO_LARGE]]
    expect("each use of the number begins anew", of_connection(out, 0),
           [one for found in each for one in [*found, REPLY]])
