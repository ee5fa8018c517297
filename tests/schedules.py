#!/usr/bin/env python3
"""Compares a reactor with the model in Python: schedules of peers and turns, of which some are worked and the others
drawn, as the program xa_schedules answers them and as tests/model/scheduling.py does.

usage: tests/schedules.py PROGRAM [COUNT [SEED]]    so many drawn schedules, 10,000 if none is said
       tests/schedules.py --write                   writes the worked ones and their answers, by the model, to where the
                                                    CI gate runs the program on them; those of long replies aren't
"""
import pathlib
import random
import sys
import tempfile

TESTS = pathlib.Path(__file__).resolve().parent
sys.dont_write_bytecode = True
sys.path[:0] = [str(TESTS / "model"), str(TESTS)]
from counting import CountingServer  # noqa: E402
from growths import compiled  # noqa: E402
from held import COUNTING, counted  # noqa: E402
from routes import TABLE  # noqa: E402
from scheduling import schedule  # noqa: E402
from sent import OPERATOR, growing_policy, making, message  # noqa: E402

TOKEN = "acme-token-1"
ASK, LONG = message("POST", "/domains/acme/pdp", TOKEN, '{"Request":{}}'), 15_360_665  # bytes of the longest reply
ROWS = TESTS.parent / "crates" / "xa_schedules"
COUNT, AT_ONCE = 10_000, 500
LIST, LAST = message("GET", "/operator/domains", OPERATOR), message("GET", "/", OPERATOR).replace(b"1.1", b"1.0")
FAULTS = (b":\r\n\r\n", b"POST / HTTP/1.1\r\nContent-Length: 9999999\r\n\r\n",
          b"POST / HTTP/1.1\r\nTransfer-Encoding: x\r\n\r\n")


def creates(name):
    return message("PUT", f"/operator/domains/{name}", OPERATOR)


# ---- worked schedules

def mixed_rows():
    """Two connections whose bytes come mixed, cut behind each byte."""
    first, second = creates("acme"), LIST
    for place in range(0, len(first) + 1):
        yield ["arrive:2", "turn", f"comes:0:{first[:place].hex()}", f"comes:1:{second[:place].hex()}", "turn",
               f"comes:1:{second[place:].hex()}", f"comes:0:{first[place:].hex()}", "turn", "turn", "got:0", "got:1"]


def failing_rows():
    """Every k-th read, write and arrival fails."""
    for kind in ("read", "write", "accept"):
        for every in range(1, 6):
            yield [f"fails:{kind}:{every}", "arrive:4", *(f"comes:{peer}:{(LIST * 2).hex()}" for peer in range(4)),
                   *["turn"] * 6, *(f"got:{peer}" for peer in range(4))]


def late_rows():
    """Each limit one millisecond before it has passed, and when it has; and a clock that stands."""
    for held, limit in ((b"", 1_000), (LIST[:-1], 2_000)):
        for now in (limit - 1, limit):
            yield ["limits:1000:2000", "arrive:1", f"comes:0:{held.hex()}", "turn", f"time:{now}", "turn", "got:0"]
    for takes, now in ((0, 9_999), (0, 10_000), (1, 119_999), (1, 120_000)):
        yield ["arrive:1", f"comes:0:{LIST.hex()}", f"takes:0:{takes}", "turn", f"time:{now}", "turn", "turn", "got:0"]
    yield ["arrive:1", f"comes:0:{LAST.hex()}", "turn", "time:1999", "turn", "time:2000", "turn"]
    yield ["limits:1000:1000", "arrive:1", f"comes:0:{LIST[:9].hex()}", *["turn"] * 20]


def overdue_rows():
    """Each that is late is closed in that turn: all 64 at once, of which some are quiet, some have sent half a message,
    some take no reply and some were parted with; and one of which a byte comes now and then, also in that turn."""
    def send(kind, held):
        return [f"comes:{peer}:{held.hex()}" for peer in range(kind, 64, 4)]

    deaf = [f"takes:{peer}:0" for peer in range(2, 64, 4)]
    for now in (9_999, 10_000):
        yield ["limits:10000:10000", "arrive:64", *deaf, "turn", *send(1, LIST[:9]), *send(2, LIST), "turn",
               "time:8000", *send(3, LAST), "turn", f"time:{now}", "turn", "turn"]
    for now in (1_999, 2_000):
        drips = [(time, f"comes:0:{LIST[place:place + 1].hex()}", "turn")
                 for place, time in enumerate(("turn", "time:500", "time:1000", "time:1500", f"time:{now}"))]
        yield ["limits:1000:2000", "arrive:1", *(field for drip in drips for field in drip), "got:0"]


def crowded_rows():
    """64 places: one more waits; the idlest goes for it once it has been idle for long enough, and none that owes
    something."""
    for now in (99, 100):
        yield ["arrive:65", "turn", f"comes:0:{LIST[:5].hex()}", "turn", f"time:{now}", "turn", "turn"]
    yield ["arrive:65", "turn", *(f"comes:{peer}:{LIST[:5].hex()}" for peer in range(64)), "turn", "time:5000", "turn"]
    yield ["arrive:64", "turn", "time:500", "turn", "arrive:3", f"comes:64:{LIST.hex()}", "turn", "turn", "got:64"]


def busy_rows():
    """Time passes while others have their shares: nobody's is counted from before what happened to it."""
    deaf, asks = "takes:0:0", f"comes:0:{LIST.hex()}"
    for passes in (4_000, 5_001, 12_000):  # a reply that isn't taken, behind an answer that took so long
        yield [f"passes:{passes}", "arrive:1", asks, deaf, *["turn"] * 4, "got:0"]
    for held in (LIST[:9], b""):  # half a message and silence, on the second, behind an answer on the first
        yield ["limits:3000:3000", "passes:1000", "arrive:2", asks, f"comes:1:{held.hex()}", *["turn"] * 4]
    # all places are taken, and the last reply was sent just now; another comes
    yield ["arrive:64", "turn", "passes:60", asks, *["turn"] * 2, "passes:0", "arrive:1", "ready:0:", *["turn"] * 3]
    # one that was parted with sends on, and is told to end, so that a read never tells that nothing is left
    for now in (1_999, 2_000):
        yield ["arrive:1", f"comes:0:{LAST.hex()}", "turn", f"time:{now}", "comes:0:00", "ready:0:re", "turn"]


def door_rows():
    """The program is told to end, and some wait at the door: they are served; where all places are taken, for a second,
    or until one is free."""
    halves = [f"comes:{peer}:{LIST[:5].hex()}" for peer in range(64)]
    yield ["arrive:1", "turn", "arrive:2", *(f"comes:{peer}:{LIST.hex()}" for peer in (1, 2)), "end", "turn",
           "arrive:1", "turn", "time:1000", "turn", "got:1", "got:2"]
    for now in (999, 1_000):
        yield ["arrive:64", *halves, "turn", "arrive:1", f"comes:64:{LIST.hex()}", "end", "turn", f"time:{now}",
               f"comes:7:{LIST[5:].hex()}", "turn", "ends:9:", "turn", "turn", "turn", "got:64"]


def asking(policy, peers):
    """The first fields of a row: so many peers come, the first of whom makes a domain with that policy."""
    makes = b"".join(sent for sent, _ in making("acme", TOKEN, policy))
    return [f"arrive:{peers}", f"comes:0:{makes.hex()}", *["turn"] * 6]


def marked_rows():
    """When the ten seconds of a reply begin anew: by 65,536 bytes of it, taken in two turns."""
    begins = asking(growing_policy(1, doublings=5).replace("urn:p1", "urn:p"), 2)
    for takes in (32_767, 32_768, 65_536):
        yield [*begins, f"takes:1:{takes}", f"comes:1:{ASK.hex()}", "turn", "time:9000", "ready:1:w", "turn",
               "takes:1:0", "time:10000", "turn", "time:18999", "turn", "time:19000", "turn"]


def held_rows():
    """How many bytes of replies are held, whatever is left of them to be sent: three peers take nearly all of theirs,
    and a fourth lists; it is answered once one of them has taken all."""
    begins = asking(growing_policy(5).replace("urn:p5", "urn:p"), 5)
    for left in (0, 1):
        yield [*begins, *(f"takes:{peer}:{LONG - left}" for peer in (1, 2, 3)),
               *(f"comes:{peer}:{ASK.hex()}" for peer in (1, 2, 3)), "turn", f"comes:4:{LIST.hex()}",
               *(f"takes:{peer}:0" for peer in (1, 2, 3)), "turn", "turn", "takes:1:1", "turn", "turn", "got:4"]


def ending_rows():
    """The program is told to end: with nobody there, with one that is quiet, and with a message under way."""
    for began in (0, 1):  # half a message, for which no limit is set
        yield ["limits:1000:0", "arrive:1", "turn", f"time:{began}", f"comes:0:{LIST[:9].hex()}", "turn", "time:10000",
               "turn", "end", "turn", "time:10001", "turn"]
    for held in (b"", LIST, LIST[:-1]):
        yield ["arrive:1", f"comes:0:{held.hex()}", "turn", "turn", "end", "turn", "time:999", "turn",
               f"comes:0:{LIST[-1:].hex()}", "turn", "time:1000", "turn", "turn", "got:0"]
    yield ["no-clock", "arrive:1", f"comes:0:{LIST.hex()}", "turn"]


def each_route():
    """A message for each row of the table of routes, with the operator's token or a wrong one, and others that have no
    route."""
    parts = {"domain": "a", "kind": "policy", "id": "urn:p", "version": "1.0"}
    routes = [(method, path.format(**parts)) for path, commands in TABLE.items() for method in commands]
    for method, path in (*routes, ("PUT", "/nowhere"), ("PUT", "/operator/domains"), ("PUT", "/domains/NO/pip")):
        for token in (OPERATOR, "no-such-token"):
            yield message(method, path, token)
    yield message("PUT", "/domains/a/pip", OPERATOR).replace(b"\r\n\r\n", b"\r\nContent-Type: text/xml\r\n\r\n")


def split_rows():
    """Changes have an address of their own: at the first one those that ask for a change are turned away, in their
    order among others, and the server learns of none; at the other each is answered, on one connection at a time, for
    which a place is kept and which isn't driven out."""
    change, close = creates("acme"), creates("beta").replace(b"1.1", b"1.0")
    yield ["split", "arrive:1", f"comes:0:{b''.join(each_route()).hex()}", *["turn"] * 45, "got:0"]
    yield ["split", "no-clock", "arrive:1", f"comes:0:{(change + LIST).hex()}", *["turn"] * 3, "got:0"]
    yield ["split", "arrive:2", "arrive-changes:1", f"comes:0:{(LIST + change + LIST).hex()}",
           f"comes:2:{(change + LIST).hex()}", *["turn"] * 4, f"comes:0:{(LIST + close + LIST).hex()}", *["turn"] * 4,
           "got:0", "got:2"]
    for place in range(0, len(change) + 1):  # cut behind each byte, at either address
        yield ["split", "arrive:1", "arrive-changes:1", *(f"comes:{peer}:{change[:place].hex()}" for peer in (0, 1)),
               "turn", *(f"comes:{peer}:{change[place:].hex()}" for peer in (1, 0)), *["turn"] * 2, "got:0", "got:1"]
    yield ["split", "arrive:1", "arrive-changes:1", *(f"takes:{peer}:1" for peer in (0, 1)),  # replies go byte by byte
           *(f"comes:{peer}:{(change + LIST).hex()}" for peer in (0, 1)), *["turn"] * 220, "got:0", "got:1"]
    # one after another, in the order in which they came, also if one sends nothing or is dropped
    yield ["split", "arrive-changes:4", *(f"comes:{peer}:{creates(name).hex()}" for peer, name in enumerate("abcd")),
           "turn", "turn", "ends:0:", "turn", "turn", "time:30000", "turn", "turn", "ends:3:", f"comes:2:{LIST.hex()}",
           "turn", "turn", "time:59999", "turn", "time:60000", *["turn"] * 3, *(f"got:{peer}" for peer in range(4))]
    yield ["split", "arrive-changes:2", f"comes:0:{close.hex()}", f"comes:1:{LIST.hex()}", *["turn"] * 2, "time:1999",
           "turn", "time:2000", *["turn"] * 3, "got:0", "got:1"]
    for now in (9_999, 10_000):  # also if it takes no reply, for as long as any may do so
        yield ["split", "arrive-changes:2", f"comes:0:{change.hex()}", "takes:0:0", f"comes:1:{LIST.hex()}", "turn",
               f"time:{now}", *["turn"] * 3, "got:1"]
    # a place is kept, and none that is taken by others goes for it; it stays while others are driven out
    for now in (99, 100):
        yield ["split", "arrive:64", "turn", f"time:{now}", "turn", "arrive-changes:2", "turn",
               f"comes:64:{LIST.hex()}", "turn", "turn", "got:64"]
    yield ["split", "arrive-changes:1", "turn", "time:50", "arrive:65", "turn", "time:150", "turn", "time:250", "turn"]
    yield ["split", "arrive:63", "turn", *(f"comes:{peer}:{LIST[:5].hex()}" for peer in range(63)), "arrive:1", "turn",
           "time:9000", "turn", "arrive-changes:1", "turn", "turn"]
    # it ends, and some wait at either door
    for now in (999, 1_000):
        yield ["split", "arrive-changes:2", "turn", "arrive:1", f"comes:1:{change.hex()}", f"comes:2:{LIST.hex()}",
               "end", "turn", f"time:{now}", *["turn"] * 3, "time:2000", "turn", "got:1", "got:2"]
    yield ["split", "fails:accept:2", "arrive:3", "arrive-changes:3", *["turn"] * 5, "ends:3:", "ends:4:",
           *["turn"] * 6]


def worked():
    """All of them."""
    for rows in (mixed_rows, failing_rows, late_rows, overdue_rows, crowded_rows, busy_rows, door_rows, marked_rows,
                 ending_rows, split_rows):
        for row in rows():
            yield "\t".join(row)


# ---- drawn schedules

def stream(chance):
    """What a peer sends."""
    kinds = (LIST, LIST, creates(chance.choice("abc")), message("GET", "/x", OPERATOR), LAST, chance.choice(FAULTS),
             b"GE")
    return b"".join(chance.choice(kinds) for _ in range(chance.randrange(0, 5)))


def pieces(chance, held):
    """The bytes in pieces, of which some are of one byte."""
    found = []
    while held:
        size = chance.choice((1, 7, 50, len(held), len(held)))
        found.append(held[:size])
        held = held[size:]
    return found


class Drawn:
    """A schedule that is drawn."""

    def __init__(self, chance):
        self.chance, self.count, self.now, self.left = chance, 0, 0, []
        self.fields = [f"fails:{kind}:{chance.randrange(2, 30)}" for kind in ("read", "write", "accept")
                       if chance.random() < 0.15]
        if chance.random() < 0.3:
            self.fields.insert(0, f"limits:{chance.choice((0, 500, 3000))}:{chance.choice((0, 400, 2000))}")
        self.is_split = chance.random() < 0.4
        if self.is_split:
            self.fields.insert(0, "split")
        if chance.random() < 0.3:
            self.fields.append(f"passes:{chance.choice((1, 30, 400))}")

    def arrive(self):
        count = self.chance.choice((1, 2, 3, 60, 70)) if self.count < 130 else 1
        at_changes = self.is_split and self.chance.random() < 0.4
        self.fields.append(f"arrive-changes:{count}" if at_changes else f"arrive:{count}")
        self.left += [pieces(self.chance, stream(self.chance)) for _ in range(count)]
        self.count += count

    def peer(self):
        """Something that a peer does."""
        number = self.chance.randrange(self.count)
        if self.left[number]:
            self.fields.append(f"comes:{number}:{self.left[number].pop(0).hex()}")
        else:
            takes = self.chance.choice((0, 1, 40, 9_999))
            self.fields.append(self.chance.choice((f"ends:{number}:", f"takes:{number}:{takes}")))

    def ready(self):
        """What the network tells at the next turn, whether it is so or not."""
        for _ in range(self.chance.randrange(1, 6)):
            letters = "".join(letter for letter in "rwe" if self.chance.random() < 0.5)
            self.fields.append(f"ready:{self.chance.randrange(64)}:{letters}")

    def step(self):
        kind = self.chance.random()
        if self.count == 0 or kind < 0.06:
            self.arrive()
        elif kind < 0.5:
            self.peer()
        elif kind < 0.55:
            self.ready()
        elif kind < 0.65:
            self.now += self.chance.choice((1, 50, 100, 399, 1_000, 10_000))
            self.fields.append(f"time:{self.now}")
        elif kind < 0.66:
            self.fields.append("end")
        else:
            self.fields.append("turn")

    def row(self):
        for _ in range(self.chance.randrange(5, 120)):
            self.step()
        shown = self.chance.sample(range(self.count), min(self.count, 4)) if self.count else []
        return "\t".join([*self.fields, "turn", *(f"got:{number}" for number in shown)])


def drawn(count, seed):
    chance = random.Random(seed)
    return [Drawn(chance).row() for _ in range(count)]


def modelled(rows):
    """What the model answers."""
    return [schedule(row, CountingServer(OPERATOR.encode())) for row in rows]


def answered(program, library, rows):
    """What the program answers, and how many bytes of memory it leaves."""
    held, written = counted([program], library, "".join(f"{row}\n" for row in rows).encode())
    return written.decode().split("\n")[:-1], held.left


def write():
    """The rows that the CI gate runs."""
    rows = list(worked())
    (ROWS / "stdin").write_text("".join(f"{row}\n" for row in rows), encoding="ascii")
    (ROWS / "stdout").write_text("".join(f"{answer}\n" for answer in modelled(rows)), encoding="ascii")
    return f"{len(rows)} schedules written"


def compare(program, library, count, seed):
    """The first schedules that are answered otherwise; the number of those that are, and of runs that leave memory."""
    rows, differ = [*worked(), *("\t".join(row) for row in held_rows()), *drawn(count, seed)], 0
    for at in range(0, len(rows), AT_ONCE):
        part = rows[at:at + AT_ONCE]
        answers, left = answered(program, library, part)
        differ += left > 0
        print(f"LEFT: {left} bytes of memory behind schedules from {at} on\n" if left else "", end="")
        for row, found, wanted in zip(part, answers, modelled(part), strict=True):
            differ += found != wanted
            if found != wanted and differ < 4:
                print(f"DIFFERS\n  row    {row[:1500]}\n  found  {found[:1500]}\n  wanted {wanted[:1500]}")
    print(f"tests/schedules.py: {len(rows) - differ} passed, {differ} failed")
    return 1 if differ else 0


def main():
    if sys.argv[1:] == ["--write"]:
        print(write())
        return 0
    program, *more = sys.argv[1:]
    count, seed = [*map(int, more), *(COUNT, 1)[len(more):]]
    with tempfile.TemporaryDirectory() as folder:
        return compare(program, compiled(COUNTING, f"{folder}/counting.so"), count, seed)


if __name__ == "__main__":
    sys.exit(main())
