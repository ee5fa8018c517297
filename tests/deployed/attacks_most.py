"""The most that somebody without a token can do, and the most memory that HAProxy takes: the figures of the page are
what these parts say."""
import contextlib
import os
import re
import signal
import time
from collections import Counter

from checks import Between

from . import slowness
from .attacking import Outsider, counted, kills, outside, pids, proxy_mebibytes
from .attacks_front import ask_that_includes
from .clients import Load, decision, message, once, read, status
from .http2 import Http2
from .machine import PAGE, PLAIN, admin, pid, sh, wait_until

# how long each is tried, in seconds
LASTS = 10
# connections of one address, fewer than OF_SOURCE, and the threads that keep those of all
MANY, THREADS = 190, 20
# a body that doesn't come whole has five seconds
PART = b"POST /domains/acme/pdp HTTP/1.1\r\nHost: h\r\nContent-Length: 524288\r\n\r\n" + b"x" * 1000


class Waits:
    """A tenant whose token is known asks all the time, each time over a connection of its own."""

    def __init__(self, ask):
        self.ask, self.took, self.found = ask, [], Counter()

    def run(self, seconds):
        end = time.time() + seconds
        while time.time() < end:
            began = time.time()
            self.found[decision(once(self.ask))] += 1
            self.took.append(time.time() - began)
            time.sleep(0.02)
        return self

    def told(self):
        half = sorted(self.took)[len(self.took) // 2]
        return f"a tenant: {dict(self.found)}, half within {half:.3f} s, the longest {max(self.took):.2f} s"


def guesses(ask, number, found):
    """Asks with a wrong token from one of an address's connections."""
    wrong = ask.replace(b"acme-token-1", b"guess-%07d" % number)
    with contextlib.suppress(OSError), Outsider(5) as client:
        found[status(client.ask(wrong))] += 1


def stays(first, count, of_each, greeting):
    """So many connections of so many addresses that say that much; what is ended is opened again."""
    held = {}

    def keep(number):
        for place in range(number, count * of_each, THREADS):
            if place in held and not held[place].is_ended():
                continue
            with contextlib.suppress(OSError):
                if place in held:
                    held.pop(place).close()
                held[place] = Outsider(first + place // of_each)
                held[place].send(greeting)
        time.sleep(0.05)

    return held, Load(keep, THREADS)


def outsider(machine, checks):
    """Without a token, from one address, three and ten: what shards are asked, and how long a tenant waits whose token
    is known. No shard is killed."""
    machine.operator.clear()
    ask, before = machine.operator.makes("acme"), (pids(), kills())
    alone = Waits(ask).run(3)
    checks.say(f"nobody else: {alone.told()}")
    found = Counter()
    began = time.time()
    with Load(lambda number: guesses(ask, number, found), MANY):
        beside = Waits(ask).run(LASTS)
    took = time.time() - began
    checks.say(f"{MANY} connections of one address with wrong tokens: {dict(found)} in {took:.0f} s; {beside.told()}")
    # (those under way at once are counted once they are answered)
    checks.within("messages that shards answer to one address", found[401], Between(1, 100 + 10 * took + MANY))
    checks.expect("the tenant", set(beside.found), {"Permit"})
    checks.within("the tenant's longest, in seconds", max(beside.took), Between(0, 2))
    held, load = stays(10, 3, MANY, PART)
    with load:
        wait_until(lambda: under_way() >= 490, "half of all messages aren't under way")
        unknown = Counter(status(once(ask.replace(b"acme-token-1", b"wrong-token-1"))) for _ in range(20))
        beside = Waits(ask).run(LASTS)
    for client in held.values():
        client.close()
    checks.say(f"{3 * MANY} bodies of three addresses that don't come whole: a token that isn't known "
               f"{dict(unknown)}; {beside.told()}")
    checks.within("what isn't known", unknown[503], Between(1))
    checks.expect("the tenant", set(beside.found), {"Permit"})
    held, load = stays(20, 11, MANY, b"")
    with load:
        wait_until(lambda: counted("pdp", "FRONTEND", "scur") >= 2000, "the front isn't full")
        beside = Waits(ask).run(LASTS)
    for client in held.values():
        client.close()
    checks.say(f"{11 * MANY} silent connections of eleven addresses: {beside.told()}")
    checks.expect("no shard is killed", (pids(), kills()), before)
    wait_until(lambda: decision(once(ask)) == "Permit", "behind it nobody is answered")


def under_way():
    """How many messages are under way."""
    found = re.search(r"conn_cur=(\d+)", admin("show table messages_under_way"))
    return int(found[1]) if found else 0


# ---- the most memory

def peak(load):
    """The most messages that were under way while a load lasts, and the most MiB that HAProxy took meanwhile."""
    before, most_under_way, end = proxy_mebibytes()[0], 0, time.time() + 2 * LASTS
    with load:
        while time.time() < end:
            most_under_way = max(most_under_way, under_way())
            time.sleep(0.05)
    return most_under_way, proxy_mebibytes()[1] - before


def takes_nothing(ask, number):
    """Ten replies over one connection of HTTP/2, of which nothing is taken."""
    with contextlib.suppress(OSError), Http2(PLAIN, window=0, source=outside(60 + number % 10)) as client:
        found = [client.message(ask) for _ in range(10)]
        for stream in found:
            client.status(stream)


def most(machine, checks):
    """HAProxy with as many messages under way as it takes: with bodies that wait for their shard, and with the longest
    replies, which nobody takes. Its memory isn't more than the page's figure."""
    machine.operator.clear()
    slowness.makes_large(machine)
    shard = int(slowness.shard_of("large"))
    longest = ask_that_includes(1_000_000 - len(read(once(ask_that_includes(0)))[2]))
    checks.expect("the longest reply", len(read(once(longest))[2]), 1_000_000)
    long = message("POST", "/domains/large/pdp", "large-token-1", '{"Request":{"x":"%s"}}' % ("x" * 520_000))
    sh("sv down pdpd-watchdog")
    machine.set()  # another process: what the one before took is over
    checks.expect("the token is known", status(once(longest)), 200)
    os.kill(pid(shard), signal.SIGSTOP)
    held, load = stays(40, 10, MANY, long)
    bodies = peak(load)
    for client in held.values():
        client.close()
    os.kill(pid(shard), signal.SIGCONT)
    sh("sv up pdpd-watchdog")
    machine.set()
    wait_until(lambda: status(once(longest)) == 200, "the shard isn't there again")
    replies = peak(Load(lambda number: takes_nothing(longest, number), 3 * THREADS))
    for what, (count, mebibytes) in (("with bodies of 520,000 bytes that wait", bodies),
                                     ("with replies of 1,000,000 bytes that nobody takes", replies)):
        checks.say(f"at most {count} messages under way, {what}: {mebibytes} MiB")
    told = float(re.search(r"([\d.]+) GiB as they stand", re.sub(r"\s+", " ", PAGE.read_text()))[1])
    checks.within("messages under way", bodies[0], Between(500))
    checks.within("MiB, of the page's", max(bodies[1], replies[1]), Between(100, told * 1024))


ATTACKS = (outsider, most)
