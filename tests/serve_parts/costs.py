"""What bytes cost of the processor's time if they come one by one, and a decision that is kept among many; and how
long a reply behind another takes."""
import itertools
import pathlib
import socket
import time

from checks import Between
from growths import compiled
from held import COUNTING, Held

from .shared import ASK, PERMIT, environment, expect, folder, in_acme, make_domain, serving, within

# Bytes that come one by one, how often, and how much longer those behind many others may take than the first.
SINGLE, REPEATED, ROUNDS, MOST_TIMES = 50, 5, 3, 3
# How many decisions are kept, and the most bytes of a request whose decision is.
FEW_KEPT, MOST_KEPT, LONGEST_KEPT = 32, 512, 16_384


def sleeps(served):
    """How often the program has slept until something came."""
    text = pathlib.Path(f"/proc/{served.process.pid}/status").read_text()
    return int(text.partition("\nvoluntary_ctxt_switches:")[2].split()[0])


def send_and_wait(served, client, data):
    """Sends bytes, and waits until the program has read them and waits for more."""
    before = sleeps(served)
    client.send(data)
    while sleeps(served) == before:
        pass


def seconds_of_single_bytes(served, before):
    """The least processor time of some bytes that come one by one behind those that came before."""
    with served.client() as client:
        client.send(before)
        client.is_silent(0.1)
        found = []
        for _ in range(REPEATED):
            began = served.processor_seconds()
            for _ in range(SINGLE):
                send_and_wait(served, client, b"a")
            found.append(served.processor_seconds() - began)
        return min(found)


def head_of(count):
    """A head of so many long fields, behind which a long body is to come."""
    fields = b"".join(b"X-%d-%s:\r\n" % (number, b"n" * 220) for number in range(count))
    return b"POST /domains/acme/pdp HTTP/1.1\r\n%sContent-Length: 524288\r\n\r\n" % fields


def single():
    """A byte of a head or a body takes as long behind many others as behind few."""
    target = b"GET /" + b"a" * 16_000
    small, large = map(head_of, (0, 60))
    with serving("single.db") as served:
        for what, few, more in (("a head", target[:20], target[:14_000]), ("a body behind a long head", small, large),
                                ("a body", small, small + b" " * 520_000)):
            first, last = zip(*([seconds_of_single_bytes(served, before) for before in (few, more)]
                                for _ in range(ROUNDS)))
            within(f"{what}: how much longer its last bytes take than its first", min(last) / min(first),
                   Between(0, MOST_TIMES))


def allocations(library, count):
    """How many allocations a run takes over a head of many fields, and so many bytes of its body, one by one."""
    with serving(f"looks-{count}.db", 1, env=environment(LD_PRELOAD=library)) as served:
        with served.client() as client:
            client.send(head_of(60))
            client.is_silent(0.1)
            for _ in range(count):
                send_and_wait(served, client, b" ")
            client.ends_writing()
            client.all()
        return Held(*map(int, served.ended()[1].split()[-4:])).allocations


def looks():
    """A head is read once, and not again for each byte of its body: these take less than an allocation each."""
    library = compiled(COUNTING, str(folder / "counting.so"))
    few, many = (allocations(library, count) for count in (SINGLE, 2 * SINGLE))
    within(f"allocations that {SINGLE} bytes of a body take", many - few, range(-SINGLE, SINGLE))


def long_ask(number):
    """A decision request whose body is as long as one whose decision is kept, and has its number at the end."""
    return in_acme("POST pdp", f'{{"Request":{{"Action":{{"Id":"{number:04}"}}}}}}'.rjust(LONGEST_KEPT))


def seconds_of_kept(count):
    """The least processor time of asks whose decisions are kept, where so many are: of those that were kept last, each
    asked again when all of them were."""
    with serving(f"kept-{count}.db") as served:
        make_domain(served)
        with served.client() as client:
            replies = {client.ask(long_ask(number)) for number in range(count)}
            expect(f"{count} decisions", replies, {PERMIT})
            found, asked = [], itertools.cycle(map(long_ask, range(count // 2, count)))
            for _ in range(REPEATED * ROUNDS):
                asks = list(itertools.islice(asked, FEW_KEPT))
                began = served.processor_seconds()
                for ask in asks:
                    client.ask(ask)
                found.append(served.processor_seconds() - began)
    return min(found)


def kept():
    """A decision that is kept is found among the most that are as soon as among few."""
    few, many = map(seconds_of_kept, (FEW_KEPT, MOST_KEPT))
    within(f"how much longer an ask takes where {MOST_KEPT} decisions are kept than where {FEW_KEPT} are", many / few,
           Between(0, MOST_TIMES))


# How often two messages are sent together, and the most seconds until both replies are there, at best: of a peer that
# tells late of what it has got, Linux waits for a twenty-fifth of a second.
PAIRS, MOST_SECONDS = 12, 0.02


def at_once():
    """A reply doesn't wait until its peer has told that it got the one before (Nagle's algorithm; RFC 9293, section
    3.7.4)."""
    with serving("undelayed.db") as served:
        make_domain(served)
        found = []
        with served.client() as client:
            for _ in range(PAIRS):
                client.socket.setsockopt(socket.IPPROTO_TCP, socket.TCP_QUICKACK, 0)
                began = time.monotonic()
                client.send(ASK * 2)
                expect("two replies", [client.reply(), client.reply()], [PERMIT] * 2)
                found.append(time.monotonic() - began)
    within("the seconds until two replies were there, at best", min(found), Between(0, MOST_SECONDS))
