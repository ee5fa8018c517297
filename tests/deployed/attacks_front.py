"""Attacks from outside, on the front: whoever floods it, holds it up or asks oddly kills no shard and keeps nobody
out of what is theirs. Each is bounded in count and time, and ends what it has begun."""
import contextlib
import os
import re
import signal
import subprocess
import sys
import time
from collections import Counter

from checks import Between

from . import clients, slowness
from .attacking import (
    WATCHDOG, Crowd, InPlace, Outsider, counted, kills, outside, outsiders, pids, proxy_clock, proxy_mebibytes)
from .clients import Deciders, decision, many, message, once, read, status
from .http2 import Http2, of_message
from .machine import LIBRARY, PLAIN, backs_up, shards, wait_until

LIST = b"GET", b"/operator/domains"
# two rounds of the watchdog, and a second
TWO_ROUNDS = 13
TLS = 443


def unharmed(checks, what, before):
    """No shard is killed, or said to be stuck; the tools reach each."""
    checks.expect(f"{what}: the programs, and kills", (pids(), kills()), before)
    began = time.time()
    checks.expect(f"{what}: the tools reach all", len(backs_up().splitlines()), 4)
    checks.say(f"{what}: the tools took {time.time() - began:.1f} s")


def connections(machine, checks):
    """One address gets 200 connections. Several fill the front: clients wait, and no shard is killed."""
    machine.operator.clear()
    ask = machine.operator.makes("acme")
    before = pids(), kills()
    with outsiders(1, 300) as held:
        time.sleep(0.5)
        staying = sum(not client.is_ended() for client in held)
        checks.within("of 300 silent ones: those that aren't ended at once", staying, Between(1, 200))
        checks.expect("beside them", decision(once(ask)), "Permit")
    # (addresses of IPv4 stay different ones at a port of IPv6)
    machine.set(CLIENTS=150, OF_SOURCE=100, PLAIN_BIND=f"[::]:{PLAIN} v4v6")
    with Crowd(4, 60, b"HEAD / HTTP/1.1\r\nHost: h\r\n\r\n"):
        wait_until(lambda: connected() == 150, "the front isn't full")
        end, seen = time.time() + TWO_ROUNDS, []
        while time.time() < end:
            seen.append(connected())
            time.sleep(0.1)
        checks.within("how often of ten times the front is full", 10 * seen.count(150) // len(seen), Between(5))
        unharmed(checks, "a full front", before)
    wait_until(lambda: decision(once(ask)) == "Permit", "behind it nobody is answered")
    machine.set(CLIENTS=2000, OF_SOURCE=200, PLAIN_BIND=f"127.0.0.1:{PLAIN}")


def connected():
    """The connections of clients."""
    return counted("pdp", "FRONTEND", "scur")


def streams(machine, checks):
    """44 connections of HTTP/2 with 98 lists each, without a token: no shard is asked or killed."""
    machine.operator.clear()
    ask, before = machine.operator.makes("acme"), (pids(), kills())
    asked, memory = counted("shard0", "pdpd", "stot"), proxy_mebibytes()[0]
    with contextlib.ExitStack() as held:
        found = []
        for number in range(44):
            client = held.enter_context(Http2(PLAIN, source=outside(number)))
            with contextlib.suppress(OSError):
                found += [(client, client.headers(*LIST)) for _ in range(98)]
        checks.expect("beside them", decision(once(ask)), "Permit")
        said = Counter(client.status(stream) for client, stream in found)
        checks.within(f"what became of them: {said}", set(said) <= {401, 429, None} and said[401] > 0, [True])
        time.sleep(TWO_ROUNDS)
        unharmed(checks, "many streams", before)
    checks.within("questions to shard 0: the tools'", counted("shard0", "pdpd", "stot") - asked, Between(0, 12))
    checks.within("MiB that HAProxy took", proxy_mebibytes()[0] - memory, Between(-2000, 200))


def beside_lists(machine, checks, what, token, ask):
    """60 connections list the domains for seven seconds: how long a tenant of shard 0 waits at the most meanwhile, and
    how many lists came to that shard."""
    shown = f'["Authorization"]="Bearer {token}"' if token else ""
    script = machine.folder / "list.lua"
    script.write_text(f'request = function() return wrk.format("GET", nil, {{{shown}}}) end\n')
    words = ["wrk", "-t1", "-c60", "-d7s", "--timeout", "20s", "-s", script, f"http://127.0.0.1:{PLAIN}/operator/domains"]
    longest, answered, before = 0.0, 0, counted("shard0", "pdpd", "stot")
    with subprocess.Popen(words, stdout=subprocess.PIPE, text=True) as wrk:
        time.sleep(1)
        while wrk.poll() is None:
            began = time.time()
            checks.expect(f"a tenant beside lists {what}", decision(once(ask)), "Permit")
            longest, answered = max(longest, time.time() - began), answered + 1
        rate = next(line.strip() for line in wrk.stdout if "requests in" in line)
    came = counted("shard0", "pdpd", "stot") - before - answered
    checks.say(f"{what}: {rate}; the tenant's longest of {answered} took {longest:.2f} s, {came} came to the shard")
    return longest, came


def lists(machine, checks):
    """60 clients list the domains all the time: without a token no shard is asked; with a wrong one they wait their
    turn, and are turned away soon."""
    operator = machine.operator
    operator.clear()
    name = next(f"v{number}" for number in range(99) if slowness.shard_of(f"v{number}") == "0")
    ask = operator.makes(name)
    for what, token, refusals, most in (("without a token", "", 100, 0),
                                        ("with a wrong one", "no-such-token", 0, 10 ** 6),
                                        ("with a wrong one, REFUSALS=100", "no-such-token", 100, 200)):
        machine.set(REFUSALS=refusals)
        # (tokens are known from their first success on, and a reload forgets them)
        checks.expect("before", (decision(once(ask)), operator.names()), ("Permit", [name]))
        longest, came = beside_lists(machine, checks, what, token, ask)
        checks.within(f"{what}: the longest", longest, Between(0, 3))
        checks.within(f"{what}: those that came to the shard", came, Between(0, most))
    checks.expect("the operator's list", operator.names(), [name])
    wrong = message("GET", "/operator/domains", "no-such-token")
    checks.expect("a wrong token's", status(once(wrong)), 429)
    wait_until(lambda: status(once(wrong)) == 401, "the address is turned away for ever")


# ---- a window of nothing

def held_by(checks, what, data, ask, shard):
    """A client that takes nothing of a reply: another one of the shard is answered, and then the first one is."""
    wanted = read(once(data))
    with Http2(PLAIN, window=0, source=outside(0)) as client:
        stream = client.message(data)
        checks.expect(f"{what}: the head of {len(wanted[2])} bytes", client.status(stream), wanted[0])
        began = time.time()
        checks.expect(f"{what}: beside it", decision(once(ask)), "Permit")
        took = time.time() - began
        checks.within(f"{what}: the seconds beside it", took, Between(0, 3))
        checks.expect(f"{what}: what the shard has under way", counted(f"shard{shard}", "pdpd", "scur"), 0)
        client.lets(stream, 2_000_000)
        checks.expect(f"{what}: the body", client.body(stream) == wanted[2], True)
    return len(wanted[2])


# clients that take nothing of a reply, each of so many; together more than a program has places for
CLIENTS, REPLIES = 12, 10


def many_held(checks, ask, shard):
    """More replies that nobody takes than a program has places for connections: it has nothing under way, and others
    are answered."""
    with contextlib.ExitStack() as opened:
        held = [opened.enter_context(Http2(PLAIN, window=0, source=outside(number))) for number in range(CLIENTS)]
        streams = [(client, client.message(slowness.ask_of_large(4))) for client in held for _ in range(REPLIES)]
        found = Counter(client.status(stream) for client, stream in streams)
        checks.expect("replies that nobody takes", found, {200: CLIENTS * REPLIES})
        checks.expect("what the shard has under way", counted(f"shard{shard}", "pdpd", "scur"), 0)
        waits = []
        for _ in range(20):
            began = time.time()
            checks.expect("beside them", decision(once(ask)), "Permit")
            waits.append(time.time() - began)
        checks.within("the longest wait beside them", max(waits), Between(0, 3))
        for client, stream in streams:
            client.lets(stream, 2_000_000)
        checks.expect("they are whole", len({client.body(stream) for client, stream in streams}), 1)


def makes_rows(name, size):
    """Sets rows of about so many bytes."""
    row = '{"AttributeId":"a","Category":"Action","DataType":"string","Entity":"e%d","Value":"%s"}'
    rows = ",".join(row % (number, "v" * 400) for number in range(size // 500))
    found = status(once(message("PUT", f"/domains/{name}/pip", f"{name}-token-1", f'{{"Row":[{rows}]}}')))
    if found != 200:
        raise RuntimeError(f"rows are answered with {found}")


def windows(machine, checks):
    """Over HTTP/2 a client with a window of nothing holds no shard, whatever the size of the reply."""
    machine.operator.clear()
    slowness.makes_large(machine)
    shard = slowness.shard_of("large")
    ask = machine.operator.makes(next(f"b{number}" for number in range(99) if slowness.shard_of(f"b{number}") == shard))
    sizes = [held_by(checks, f"{count} decisions", slowness.ask_of_large(count), ask, shard)
             for count in (1, 3, 4, 6, 8, 10, 12, 14, 16)]
    makes_rows("large", 510_000)
    rows = message("GET", "/domains/large/pip", "large-token-1")
    sizes.append(held_by(checks, "rows", rows, ask, shard))
    more = 1_000_000 - len(read(once(ask_that_includes(0)))[2])
    sizes.append(held_by(checks, "the longest", ask_that_includes(more), ask, shard))
    checks.expect("the longest that is promised", sizes[-1], 1_000_000)
    checks.expect("a longer one", status(once(ask_that_includes(more + 1))), 503)
    with Http2(PLAIN, window=0, source=outside(0)) as client:
        found = [client.message(ask_that_includes(more)) for _ in range(10)]
        checks.expect("ten at a time", [client.status(stream) for stream in found], [200] * 10)
        checks.expect("beside them", decision(once(ask)), "Permit")
    many_held(checks, ask, shard)
    checks.say(f"a window of nothing, at replies of {sizes} bytes: none held the shard")


def ask_that_includes(count):
    """An ask for 16 decisions of the domain `large`, in one of which a value of so many bytes is included."""
    included = b'"Attribute":[{"AttributeId":"urn:b","IncludeInResult":true,"Value":"%b"},' % (b"v" * count)
    body = slowness.ask_of_large(16).partition(b"\r\n\r\n")[2]
    return message("POST", "/domains/large/pdp", "large-token-1", body.replace(b'"Attribute":[', included, 1).decode())


# ---- who may ask how often

def tokens(machine, checks):
    """RATE counts by token and domain, and 4xx by address: an outsider uses up nothing that is a tenant's, and a
    tenant at the outsider's address is still answered."""
    operator = machine.operator
    operator.clear()
    ask = operator.makes("acme")
    other = operator.message("POST", "/acme/tokens", '{"Role":"ask","Token":"acme-token-2"}')
    checks.expect("a second token", status(once(other)), 200)
    second = ask.replace(b"acme-token-1", b"acme-token-2")
    machine.set(RATE=50)
    wrong = [b"GET /domains/acme/pip HTTP/1.1\r\nHost: h\r\n\r\n", ask.replace(b"acme-token-1", b"wrong-token-1")]
    found = Counter(from_outside(data) for data in wrong * 53)
    checks.within(f"an outsider's: {found}", (set(found) <= {401, 429}, found[429] > 2), [(True, True)])
    checks.expect("the tenant behind it", [decision(once(ask)) for _ in range(40)], ["Permit"] * 40)
    checks.expect("another token, at the outsider's address", from_outside(second), 429)
    checks.expect("elsewhere", decision(once(second)), "Permit")
    checks.expect("and then there, too", from_outside(second), 200)
    found = [decision(once(ask)) for _ in range(60)]
    checks.expect("the first one's rate", (set(found), found[-1]), ({"Permit", 429}, 429))
    checks.expect("not the second one's", decision(once(second)), "Permit")
    checks.expect("other cases and blanks are the same token", status(once(ask.replace(b"Bearer ", b"bEARER   "))), 429)
    gone = operator.message("DELETE", "/acme/tokens", '{"Token":"acme-token-2"}')
    checks.expect("the second is taken away", status(once(gone)), 200)
    # (on a slow machine what it has sent may be forgotten)
    wait_until(lambda: from_outside(wrong[0]) == 429, "the outsider isn't turned away")
    checks.expect("and refused", [from_outside(second) for _ in range(2)], [401, 429])
    machine.set(RATE=0, REFUSALS=5)
    checks.expect("the tenant", decision(once(ask)), "Permit")
    odd = b"GET / HTTP/1.2\r\nHost: h\r\n\r\n"
    checks.expect("what HAProxy answers itself", [from_outside(odd) for _ in range(52)], [505] * 50 + [429] * 2)
    checks.expect("the tenant there", from_outside(ask), 200)
    machine.set(REFUSALS=100)


def from_outside(data):
    with Outsider(0) as client:
        return status(client.ask(data))


# ---- bodies without a length

def bodies(machine, checks):
    """A body that comes without its length reaches the shard with it, an empty one too: it ends no connection that
    is kept."""
    operator = machine.operator
    operator.clear()
    ask = operator.makes("acme")
    shard, line = int(slowness.shard_of("acme")), ask.split(b"\r\nContent-Length")[0].split(b"\r\n\r\n")[0]
    coded = line + b"\r\nTransfer-Encoding: chunked\r\n\r\n"
    with InPlace(shard, b"HTTP/1.1 200 OK\r\nContent-Length: 2\r\n\r\n{}") as seen:
        for body in (b"{}", b"", b"x" * 70_000):
            chunks = (b"%x\r\n%b\r\n" % (len(body), body) if body else b"") + b"0\r\n\r\n"
            for what, sends in (("chunked", lambda data=chunks: status(once(coded + data))),
                                ("over HTTP/2", lambda data=body: without_length(line, data))):
                seen.messages.clear()
                checks.expect(f"{what}, {len(body)} bytes", sends(), 200)
                heads = [each.partition(b"\r\n\r\n") for each in seen.messages]
                checks.expect(f"{what}: messages", len(heads), 1)
                head = heads[0][0].lower()
                found = b"\r\ncontent-length: %d" % len(body) in head, b"transfer-encoding" in head, heads[0][2] == body
                checks.expect(f"{what}: its length, a coding, and its body", found, (True, False, True))
    wait_until(lambda: decision(once(ask)) == "Permit", "the shard isn't there again")
    checks.expect("a real shard: empty, chunked", status(once(coded + b"0\r\n\r\n")), 400)
    checks.expect("a real shard: empty, over HTTP/2", without_length(line, b""), 400)


def without_length(head, body):
    """The status of a message whose body comes over HTTP/2 without a length."""
    method, path, fields, _ = of_message(head + b"\r\n\r\n")
    with Http2(PLAIN, source=outside(0)) as client:
        stream = client.headers(method, path, fields, ends=False)
        client.data(stream, body)
        return client.status(stream)


# ---- memory

def memory(machine, checks):
    """Messages under way have a limit, over HTTP/1.1 and HTTP/2, and with it the memory of HAProxy. Half of them are
    for tokens that were accepted."""
    operator = machine.operator
    operator.clear()
    ask = operator.makes("acme")
    machine.set(UNDER_WAY=60)
    checks.expect("a token is accepted", decision(once(ask)), "Permit")
    before = proxy_mebibytes()[0]
    head = b"POST /domains/acme/pdp HTTP/1.1\r\nHost: h\r\nContent-Length: 524288\r\n\r\n"
    # (of each address fewer than have room)
    with outsiders(20, 10, head) as held:
        for client in held:
            # (who was turned away takes nothing more)
            with contextlib.suppress(OSError):
                client.send(b"x" * 500_000)
        refused = counted("pdp", "FRONTEND", "hrsp_5xx")
    checks.within("of 200 bodies over HTTP/1.1: those that had no room", refused, Between(1, 170))
    with contextlib.ExitStack() as entered:
        found = []
        for number in range(20):
            client = entered.enter_context(Http2(PLAIN, source=outside(number)))
            with contextlib.suppress(OSError):
                found += [(client, begins_body(client)) for _ in range(10)]
        checks.expect("the accepted token beside them", decision(once(ask)), "Permit")
        said = Counter(client.status(stream) for client, stream in found)
        checks.within(f"of messages over HTTP/2, {said}: those that had no room", said[503], Between(1, 170))
    wait_until(lambda: decision(once(ask)) == "Permit", "behind it nobody is answered")
    most = proxy_mebibytes()[1] - before
    checks.within("MiB that HAProxy took at the most", most, Between(0, 150))
    checks.say(f"60 of 400 bodies under way: {most} MiB more at the most")
    machine.set(UNDER_WAY=1000)


def begins_body(client):
    """Begins a message over HTTP/2 whose body doesn't end; gives its stream."""
    stream = client.headers(b"POST", b"/domains/acme/pdp", [(b"content-length", b"524288")], ends=False)
    client.data(stream, b"x" * 50_000, ends=False)
    return stream


def handshakes(machine, checks):
    """Who connects to the port of TLS and says nothing has five seconds."""
    began = time.time()
    with contextlib.ExitStack() as held:
        silent = [held.enter_context(Outsider(0, TLS)) for _ in range(20)]
        for client in silent:
            client.all()
        checks.within("seconds until all are ended", time.time() - began, Between(3, 9))


# ---- the watchdog

def standstill(machine, checks):
    """All programs stand still at once, as on a machine that is busy: the first is killed, and each of the others only
    once it was looked at again."""
    machine.operator.clear()
    asks, old, count = many(machine, 8), pids(), len(WATCHDOG.read_text())
    for process in old:
        os.kill(process, signal.SIGSTOP)
    # one goes on meanwhile
    again = re.compile(r"shard (\d) is looked at once more")
    wait_until(lambda: again.search(WATCHDOG.read_text(), count), "no second look")
    going = int(again.search(WATCHDOG.read_text(), count)[1])
    os.kill(old[going], signal.SIGCONT)
    wait_until(lambda: all(new not in (0, before) for shard, (new, before) in enumerate(zip(pids(), old))
                           if shard != going), "those that stand still aren't killed")
    checks.expect("the one that went on", pids()[going], old[going])
    wait_until(lambda: [decision(once(ask)) for ask, _ in asks] == [wanted for _, wanted in asks], "not all are back")


# ---- the clock

def clock(machine, checks):
    """The clock is set back by a minute while HAProxy runs: what a tool holds back is held all the same."""
    machine.operator.clear()
    asks = many(machine, 8)
    sys.path.insert(0, str(LIBRARY))
    from operating import holding, settings, talk
    now = settings.read()
    place = int(slowness.shard_of("d0"))
    with proxy_clock(machine.folder) as is_ahead:
        wait_until(machine.operator.is_answered, "the shards aren't there again")
        is_ahead(0)
        time.sleep(1)
        ask, wanted = asks[0]
        with holding.hold_messages(now, place), clients.Client(PLAIN) as held:
            held.send(ask)
            checks.expect("a message is held back", held.is_silent(2), True)
        with Deciders(asks, 6) as deciders:
            shards("restart", place)
            shards("move", "d0", place, (place + 1) % 4)
        checks.expect("no decision is lost, or another's", deciders.wrong, [])
        began = time.time()
        talk.set_while_it_runs(now, {f"SHARD{(place + 1) % 4}": "held", "HELD": "3/the test's"})
        found = decision(once(ask))
        checks.expect("what a tool held that was killed goes on", (found, 2 < time.time() - began < 9), (wanted, True))
        talk.set_while_it_runs(now, {f"SHARD{(place + 1) % 4}": None, "HELD": None})


ATTACKS = (connections, streams, lists, windows, tokens, bodies, memory, handshakes, standstill, clock)
