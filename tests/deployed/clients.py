"""Clients of the deployment: one message at a time, and loads of many."""
import itertools
import pathlib
import re
import socket
import subprocess
import sys
import threading
import time

sys.path.insert(0, str(pathlib.Path(__file__).resolve().parent.parent))
import serving  # noqa: E402
from serving import making, message, policy  # noqa: E402

from .machine import PLAIN  # noqa: E402


class Client(serving.Client):
    """One connection to a port, or to a Unix socket of that path."""

    def __init__(self, place):
        if not isinstance(place, str):
            super().__init__(place)
            return
        self.socket, self.held = socket.socket(socket.AF_UNIX), b""
        self.socket.settimeout(serving.PATIENCE)
        self.socket.connect(place)


# the fields of a reply that are compared: those that pdpd sends (docs/guide/API.md), in small letters
FIELDS = ("content-type", "content-length", "www-authenticate", "allow")


def read(reply):
    """The status, the compared fields and the body of a reply; None where there is none."""
    head, end, body = reply.partition(b"\r\n\r\n")
    if not end:
        return None
    first, *lines = head.decode("latin-1").split("\r\n")
    fields = {name.lower(): value.strip() for name, _, value in (line.partition(":") for line in lines)}
    return int(first.split()[1]), {name: fields[name] for name in FIELDS if name in fields}, body


def status(reply):
    found = read(reply)
    return found[0] if found else None


# each message by the operator's token or of a changed domain: when it began and ended, where it went, and its reply
SENT = []


def once(data, place=PLAIN):
    """The reply to a message on a connection of its own; empty where the connection ends without one."""
    began, fault = time.time(), ""
    try:
        with Client(place) as client:
            reply = client.ask(data)
    except OSError as error:
        reply, fault = b"", repr(error)
    head = data[:data.index(b"\r\n")]
    if not head.endswith(b"/pdp HTTP/1.1"):
        is_list = b" /operator/domains " in head
        SENT.append((began, time.time(), place, head, reply if is_list else reply[:60], fault))
    return reply


def history_of(domain):
    """What was sent of a domain, with the replies."""
    at = re.compile(rf"/domains/{re.escape(domain)}[/ ]".encode())
    for began, ended, place, head, reply, fault in list(SENT):
        if at.search(head) or b" /operator/domains " in head:
            times = reply.count(f'"{domain}"'.encode())
            listed = f" lists it {times} times" if b" /operator/domains " in head else ""
            yield f"{began:.3f} to {ended:.3f} at {place} {head.decode()}: {reply[:60]!r}{listed} {fault}"


class Operator:
    """Messages by the operator's token, and those that make a domain."""

    def __init__(self, token):
        self.token = token

    def message(self, method, path, body=None):
        return message(method, f"/operator/domains{path}", self.token, body)

    def creates(self, name):
        return self.message("PUT", f"/{name}")

    def names(self):
        """The names of all domains, by the list."""
        reply = read(once(self.message("GET", "")))
        if reply is None or reply[0] != 200:
            raise RuntimeError(f"the list of domains is answered with {reply}")
        return re.findall(r'"([a-z0-9-]+)"', reply[2].decode().partition("[")[2])

    def is_answered(self):
        """Whether the list of domains is there."""
        return status(once(self.message("GET", ""))) == 200

    def clear(self):
        """Removes all domains."""
        for name in self.names():
            once(self.message("DELETE", f"/{name}"))

    def makes(self, name, effect="Permit", text=None):
        """Makes a domain whose root has that effect, or is that text, and gives its ask."""
        token = f"{name}-token-1"
        for data, _ in making(name, token, text or policy(effect), self.token):
            found = status(once(data))
            if found not in (200, 201):
                raise RuntimeError(f"{data[:60]} is answered with {found}")
        return message("POST", f"/domains/{name}/pdp", token, '{"Request":{}}')


def many(machine, count):
    """Domains on all shards, half of which permit and half of which deny: their asks with the decisions."""
    effects = [("Permit", "Deny")[number % 2] for number in range(count)]
    return [(machine.operator.makes(f"d{number}", effect), effect) for number, effect in enumerate(effects)]


def decision(reply):
    """The decision of a reply, or its status where there is none."""
    found = re.search(rb'"Decision":"(\w+)"', reply)
    return found[1].decode() if found else status(reply)


class Load:
    """Threads that call something again and again until the end of the `with` statement."""

    def __init__(self, call, count):
        self.is_over = threading.Event()
        self.fault = None
        self.threads = [threading.Thread(target=self.run, args=(call, number)) for number in range(count)]

    def run(self, call, number):
        try:
            while not self.is_over.is_set():
                call(number)
        except Exception as fault:  # told at the end
            self.fault = fault

    def __enter__(self):
        for thread in self.threads:
            thread.start()
        return self

    def __exit__(self, *what):
        self.is_over.set()
        for thread in self.threads:
            thread.join()
        if self.fault:
            raise self.fault


class Deciders:
    """Threads that ask for decisions, each on a connection of its own; they keep what is wrong."""

    def __init__(self, asks, count=8, also=()):
        """`asks` are messages with their decisions; `also` are statuses that may come as well, which are counted."""
        self.asks, self.also = asks, also
        self.answered, self.lost, self.wrong, self.longest, self.lock = 0, 0, [], 0.0, threading.Lock()
        self.load = Load(self.ask, count)
        self.turn = 0

    def ask(self, _number):
        with self.lock:
            self.turn += 1
            data, wanted = self.asks[self.turn % len(self.asks)]
        began = time.time()
        found = decision(once(data))
        took = time.time() - began
        with self.lock:
            self.answered += 1
            self.longest = max(self.longest, took)
            if found != wanted and found not in self.also:
                self.wrong.append((wanted, found, round(took, 2)))
            self.lost += found != wanted

    def __enter__(self):
        self.load.__enter__()
        return self

    def __exit__(self, *what):
        self.load.__exit__(*what)


class Makers:
    """Threads that make domains, each name once: what was acknowledged, what had no answer, what else was said."""

    def __init__(self, operator, prefix="", count=2, also=(), names=None, pause=0.0):
        self.operator, self.also, self.pause = operator, also, pause
        self.names = names or map(f"{prefix}{{}}".format, itertools.count(1))
        self.acknowledged, self.unanswered, self.refused, self.wrong = [], [], [], []
        self.lock = threading.Lock()
        self.load = Load(self.make, count)

    def make(self, _number):
        time.sleep(self.pause)
        with self.lock:
            name = next(self.names)
        found = status(once(self.operator.creates(name)))
        with self.lock:
            if found == 201:
                self.acknowledged.append(name)
            elif found in self.also:
                self.refused.append(name)
            elif found in (None, 502, 504):
                self.unanswered.append(name)
            else:
                # 409 too: a change that was sent twice
                self.wrong.append((name, found))

    def __enter__(self):
        self.load.__enter__()
        return self

    def __exit__(self, *what):
        self.load.__exit__(*what)


def wrk(script, connections, seconds, at=f"http://127.0.0.1:{PLAIN}"):
    """What wrk says of so many connections that ask for so long."""
    words = ["wrk", "-t1", f"-c{connections}", f"-d{seconds}s", "--latency", "--timeout", "20s"]
    words += ["-s", script, f"{at}/"]
    said = subprocess.run(words, capture_output=True, text=True, check=True).stdout
    bad = re.search(r"Non-2xx or 3xx responses: (\d+)", said)
    errors = re.search(r"Socket errors: .*", said)
    count = int(re.search(r"(\d+) requests in", said)[1])
    middle, slow = (milliseconds(re.search(rf"\n +{part}% +(\S+)", said)[1]) for part in (50, 99))
    rate = float(re.search(r"Requests/sec: +(\S+)", said)[1])
    return {"count": count, "bad": int(bad[1]) if bad else 0, "errors": errors[0] if errors else "",
            "rate": rate, "p50": middle, "p99": slow}


class Crowd:
    """So many clients of wrk that ask until the end of the `with` statement, each time on a connection of their own."""

    def __init__(self, folder, asks, connections):
        self.script = script_of(folder / "crowd.lua", asks, closes=True)
        self.connections, self.found = connections, []
        self.load = Load(lambda _number: self.found.append(wrk(self.script, self.connections, 3)), 1)

    def __enter__(self):
        self.load.__enter__()
        return self

    def __exit__(self, *what):
        self.load.__exit__(*what)

    @property
    def count(self):
        """How many were answered."""
        return sum(found["count"] for found in self.found)

    @property
    def failed(self):
        """How many were answered with another status than 2xx, and what wrk says of those without an answer."""
        return sum(found["bad"] for found in self.found), [found["errors"] for found in self.found if found["errors"]]


def in_a_line(found):
    """What wrk found, in a line."""
    return f"{found['rate']:.0f} asks/s, p50 {found['p50']:.1f} ms, p99 {found['p99']:.1f} ms"


def milliseconds(text):
    """A time as wrk writes it."""
    number, unit = re.fullmatch(r"([\d.]+)(us|ms|s|m)", text).groups()
    return float(number) * {"us": 0.001, "ms": 1, "s": 1000, "m": 60000}[unit]


def script_of(path, asks, *, closes=False):
    """Writes a script of wrk that sends these messages in turn, each on a connection of its own if it closes that."""
    rows, last = [], ',["Connection"]="close"' if closes else ""
    for data in asks:
        head, _, body = data.decode().partition("\r\n\r\n")
        method, target, _ = head.split("\r\n")[0].split(" ")
        token = re.search(r"Bearer (\S+)", head)[1]
        fields = f'["Authorization"]="Bearer {token}",["Content-Type"]="application/json"{last}'
        rows.append(f'wrk.format("{method}","{target}",{{{fields}}},[==[{body}]==])')
    path.write_text("local asks = {}\ninit = function() asks = {" + ",\n".join(rows) + "} end\nlocal at = 0\n"
                    "request = function() at = at % #asks + 1; return asks[at] end\n")
    return str(path)


def silent(place):
    """A connection that says nothing."""
    return Client(place).socket
