"""Changes that have an address of their own: what is turned away at the first one, and who is served at the other."""
import contextlib
import socket
import stat
import subprocess
import threading
import time

from api_parts.routes import ROUTES
from said import OCCUPIED, PLACE_BAD, TAKEN, UNMADE, line
from serve_parts.shared import (
    ASK, LIST, PERMIT, PROGRAM, TOKEN_FILE, creates, environment, expect_refusal, folder, listing)
from serving import (
    CREATED, OPERATOR, PATIENCE, UNAUTHORIZED, UNAVAILABLE, Client, free_port, making, message)

from .addresses import client_of
from .shared import PLACES, expect

ADMIN, SILENCE, OK = "acme-token-1", 0.7, b"HTTP/1.1 200 "


class Split:
    """The program at two addresses, which is killed at the end of the `with` statement."""

    def __init__(self, name, changes=None, stdin=subprocess.DEVNULL, **settings):
        self.port, self.changes_port = free_port(), free_port()
        words = [PROGRAM, "listen", str(folder / f"{name}.db"), f"127.0.0.1:{self.port}", TOKEN_FILE,
                 changes or f"127.0.0.1:{self.changes_port}"]
        self.process = subprocess.Popen(words, stdin=stdin, stdout=subprocess.PIPE,
                                        stderr=subprocess.PIPE, env=environment(**settings))
        expect("its line", self.process.stdout.readline(), f"listening 127.0.0.1:{self.port}\n".encode())

    def first(self):
        return Client(self.port)

    def changes(self):
        return Client(self.changes_port)

    def said_of_message(self):
        """The next line that it says of a message; nothing where there is none for a while."""
        at_last = threading.Timer(PATIENCE, self.process.kill)
        at_last.start()
        found = next((line for line in self.process.stderr if b"message of" in line), b"")
        at_last.cancel()
        return found.decode().rstrip("\n")

    def __enter__(self):
        return self

    def __exit__(self, *what):
        self.process.kill()
        self.process.communicate()


def takes_turns(connect):
    """Has the program take a whole turn behind all that was sent before, so that it was read: there is one between two
    replies."""
    with connect() as client:
        for _ in range(2):
            client.ask(LIST)


def make_at(client):
    """Makes `acme` at the address for changes."""
    for held, wanted in making("acme", ADMIN):
        expect("a change at its address", client.ask(held), wanted)


def is_reading(route):
    """Whether it changes nothing: what is got, and a decision."""
    return route.method == "GET" or route.path.endswith("/pdp")


def message_of(route, token=None):
    """A message of that route, in `acme`; by a token that may send it, unless another is given."""
    path = route.path.format(domain="acme", kind="policy", id="urn:p", version="1.0")
    its_own = OPERATOR if "operator" in route.roles else ADMIN
    return message(route.method, path, token or its_own, '{"Request":{}}' if route.reads_body else None)


def routed():
    """Each route at the first address: what changes something is turned away, whoever sends it; all else is answered
    as ever, in the order in which it came. At the other address everything is answered."""
    with Split("routed") as split, split.changes() as changes, split.first() as first:
        make_at(changes)
        for route in ROUTES:
            name = f"{route.method} {route.path}"
            if is_reading(route):
                found = first.ask(message_of(route))
                expect(f"{name} is answered alike", (found, found[:13]), (changes.ask(message_of(route)), OK))
            else:
                for token in (None, OPERATOR, ADMIN, "no-such-token"):
                    expect(f"{name} is turned away", first.ask(message_of(route, token)), UNAVAILABLE)
        for what, held, wanted in (
                ("no route", message("PUT", "/nowhere", ADMIN), b"HTTP/1.1 404 "),
                ("no such method", message("PUT", "/operator/domains", ADMIN), b"HTTP/1.1 405 "),
                ("another media type", message("PUT", "/domains/acme/pip", ADMIN, "{}", "Content-Type: text/xml\r\n"),
                 b"HTTP/1.1 415 ")):
            expect(f"{what} comes before it", first.ask(held)[:13], wanted)
        first.send(LIST + creates("beta") + ASK + creates("gamma") + LIST)
        expect("among others, in order", [first.reply() for _ in range(5)],
               [listing(["acme"]), UNAVAILABLE, PERMIT, UNAVAILABLE, listing(["acme"])])
        expect("no token", first.ask(message("POST", "/domains/acme/pdp", "no-such-token", "{}")), UNAUTHORIZED)
        first.send(creates("beta").replace(b"HTTP/1.1", b"HTTP/1.0"))
        expect("one that is the last of its connection", first.all(), UNAVAILABLE)
        expect("a change, and then it is seen", (changes.ask(creates("beta")), changes.ask(LIST)),
               (CREATED, listing(["acme", "beta"])))


def one_at_a_time():
    """Of several connections for changes the first is served, and the next once it has ended: also if it was reset, if
    its messages came before it ended, and if nothing came on it for too long."""
    with Split("one", PDPD_IDLE="2") as split, contextlib.ExitStack() as stack:
        clients = []
        for name in "abcd":
            clients.append(stack.enter_context(split.changes()))
            clients[-1].send(creates(name) + LIST)
            time.sleep(0.05)
        expect("the first", (clients[0].reply(), clients[0].reply()), (CREATED, listing(["a"])))
        expect("the second waits", clients[1].is_silent(SILENCE), True)
        clients[0].close()
        expect("the second, once it has gone", (clients[1].reply(), clients[1].reply()), (CREATED, listing(["a", "b"])))
        clients[1].close(reset=True)
        expect("the third", (clients[2].reply(), clients[2].reply()), (CREATED, listing(["a", "b", "c"])))
        expect("the fourth, once nothing came on that", (clients[3].reply(), clients[3].reply()),
               (CREATED, listing(["a", "b", "c", "d"])))
        expect("the one before was ended", clients[2].all(), b"")
        clients[3].close()
        with split.changes() as gone:
            gone.send(creates("e"))
        with split.changes() as behind:
            expect("what was sent by one that has gone is done before", behind.ask(LIST), listing(list("abcde")))


def kept():
    """A place is kept for changes: of 64 others, which are in the middle of a message, one waits at the door until
    another has gone, and a change is answered at once."""
    with Split("kept", PDPD_MESSAGE="60") as split, contextlib.ExitStack() as stack:
        clients = [stack.enter_context(split.first()) for _ in range(PLACES - 1)]
        for client in clients:
            client.send(LIST[:-1])
        takes_turns(split.changes)
        with split.first() as last, split.changes() as changes:
            last.send(LIST)
            expect("the 64th waits", last.is_silent(SILENCE), True)
            expect("a change beside them", changes.ask(creates("acme")), CREATED)
            expect("another", changes.ask(creates("beta")), CREATED)
            expect("one of them", clients[7].ask(LIST[-1:]), listing(["acme", "beta"]))
            clients[7].close()
            expect("the 64th, once that has gone", last.reply(), listing(["acme", "beta"]))


def stays():
    """The connection for changes, though it has been idle longest, isn't driven out for others."""
    with Split("stays") as split, contextlib.ExitStack() as stack:
        changes = stack.enter_context(split.changes())
        expect("a change", changes.ask(creates("acme")), CREATED)
        for number in range(2 * PLACES):
            client = stack.enter_context(split.first())
            client.send(LIST)
            expect(f"other {number} has a place, of its own or of one that was driven out", client.reply(),
                   listing(["acme"]))
            time.sleep(0.02)
        expect("that for changes is there still", changes.ask(LIST), listing(["acme"]))


def at_a_path():
    """The address for changes is a Unix socket."""
    path = folder / "changes.sock"
    with Split("path", f"unix:{path}") as split, split.first() as first, \
            client_of(socket.AF_UNIX, str(path)) as changes:
        expect("its mode", stat.S_IMODE(path.stat().st_mode), 0o660)
        make_at(changes)
        expect("an ask at either address", (first.ask(ASK), changes.ask(ASK)), (PERMIT, PERMIT))
        expect("a change at the first", first.ask(creates("beta")), UNAVAILABLE)


def at_the_end():
    """Told to end, the program answers what is under way at either address, and who waits at that for changes."""
    with Split("end", stdin=subprocess.PIPE, PDPD_END="input") as split, split.changes() as one, \
            split.first() as first, split.changes() as other:
        for client in (one, first):
            client.send(creates("acme")[:9])
        other.send(creates("beta"))
        takes_turns(split.first)
        split.process.stdin.close()
        for client, wanted in ((first, UNAVAILABLE), (one, CREATED)):
            expect("a message under way", client.ask(creates("acme")[9:]), wanted)
        one.close()
        expect("who waits", (other.reply(), other.all(), first.all()), (CREATED, b"", b""))
        split.process.stdin = None  # (it is closed, and `communicate` would flush it)
        expect("its status", split.process.wait(timeout=PATIENCE), 0)


def told():
    """A line tells of what was turned away, of which domain it was and why."""
    with Split("told") as split, split.first() as first:
        expect("one", first.ask(creates("acme")), UNAVAILABLE)
        expect("its line", split.said_of_message(),
               "pdpd: refused a message of acme: it asks for a change, and changes are taken at another address")


def unusable():
    """Addresses for changes that can't be had: the line names them."""
    first = f"127.0.0.1:{free_port()}"
    words = ["listen", str(folder / "changes.db"), first, TOKEN_FILE]
    for place in ("here", "127.0.0.1", "unix:"):
        expect_refusal(f"`{place}`", [*words, place], 2, line(place, PLACE_BAD))
    expect_refusal("it goes before PDPD_WORK", [*words, "here"], 2, line("here", PLACE_BAD),
                   env=environment(PDPD_WORK="x"))
    expect_refusal("the first goes before it", [*words[:2], "there", TOKEN_FILE, "here"], 2, line("there", PLACE_BAD))
    nowhere = f"unix:{folder / 'nowhere' / 'socket'}"
    expect_refusal("a folder that isn't there", [*words, nowhere], 5, line(nowhere, UNMADE))
    path = folder / "file"
    path.write_bytes(b"mine")
    expect_refusal("a file stands there", [*words, f"unix:{path}"], 5, line(f"unix:{path}", OCCUPIED))
    with socket.socket() as held:
        held.bind(("127.0.0.1", 0))
        held.listen()
        address = f"127.0.0.1:{held.getsockname()[1]}"
        expect_refusal("a port in use", [*words, address], 5, line(address, TAKEN))
    expect_refusal("the first address itself", [*words, first], 5, line(first, TAKEN))
