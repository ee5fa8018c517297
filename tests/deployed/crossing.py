"""Connections that are kept between tenants: whatever is sent over HTTP/1.1 and HTTP/2, and wherever it is cut, each
reply is its asker's own."""
import itertools
import json
import os
import random
import re
import threading
import time
from collections import Counter

from checks import Between

from . import replies
from .attacking import InPlace, counted, outside
from .clients import Client, Load, message
from .http2 import Http2
from .machine import PAGE, PLAIN, shards, wait_until

# marked decisions in all (by hand CROSSING says how many); those who ask for them, over HTTP/1.1 and over HTTP/2, and
# those who send what is odd
DECISIONS, ASKERS, STREAMERS, ODD = int(os.environ.get("CROSSING", 20_000)), 6, 2, 4
MARK = re.compile(rb'"AttributeId":"urn:mark","DataType":"[^"]*","Value":"([^"]*)"')
EFFECT = re.compile(rb'"Decision":"(\w+)"')
# The ways in which HAProxy and pdpd may frame a message otherwise, as the page has them, with messages of each, by the
# names of `replies.odd_requests`, `cut_and_odd` and `streams_of`. (None makes a connection idle for ten minutes.)
WAYS = {
    "the reply to HEAD": ("HEAD", "HEAD of a decision"),
    "a transfer coding, trailers": (
        "a chunked body", "two codings", "a chunk of no size", "trailers", "a coding in odd letters",
        "a coding behind a control", "an extension of a chunk", "a chunk's size with zeros",
        "a chunk's size beyond all", "HTTP/2, a coding"),
    "a coding beside a length": ("chunked and a length", "no coding and a length"),
    "a body of HTTP/2 without a length": ("HTTP/2",),
    "several lengths, or no number": (
        "two lengths", "a length of letters", "one length twice", "two lengths in a field", "a length beyond all",
        "HTTP/2, another length"),
    "a length with zeros before it": ("a length with zeros",),
    "a length that `Connection` names": ("Connection names the length", "HTTP/2, Connection"),
    "a body that its method doesn't want": ("a reading with a body",),
    "another version": ("HTTP/1.0 that wants to go on", "HTTP/1.2"),
    "`Connection: close`": ("Connection: close", "close among others"),
    "a head that `pdpd` refuses": (
        "a control in a field", "a NUL in a field", "DEL in a field", "a blank before the colon",
        "HTTP/2, a byte beyond ASCII"),
    "a head or a body that is too large": (
        "64 fields", "a field of 16,384 bytes", "a method of 17,000 bytes", "a length too large"),
    "lines that end with LF, or are folded": ("lines that end with LF alone", "a folded field"),
    "lines within a field of HTTP/2": (
        "HTTP/2, lines in a value", "HTTP/2, lines in a name", "HTTP/2, lines in a path", "HTTP/2, lines in a method"),
    "a tunnel": ("CONNECT", "half of a websocket's handshake", "h2c"),
    "`Expect`": ("Expect",),
    "a message that is cut": ("a cut head", "a cut body", "a cut chunk"),
    "a reply that is late, or that nobody waits for": ("one that goes",),
    "a connection that was idle": (),
}


def ways_of_page():
    """The ways that the page names."""
    section = re.search(r"(?ms)^### Kept connections\n(.*?)^## ", PAGE.read_text())[1]
    return re.findall(r"(?m)^\| (.*?) \| .* \|$", section)[1:]


# a reply to nobody's ask
CROSSED = (b'HTTP/1.1 200 OK\r\nContent-Type: application/json\r\nContent-Length: 89\r\n\r\n{"AttributeId":"urn:mark",'
           b'"DataType":"s","Value":"another-1","Decision":"Permit","x":123}')


def marked(name, mark):
    """An ask whose reply has its mark."""
    attribute = {"AttributeId": "urn:mark", "IncludeInResult": True, "Value": mark}
    body = json.dumps({"Request": {"Resource": {"Attribute": [attribute]}}})
    return message("POST", f"/domains/{name}/pdp", f"{name}-token-1", body)


class Tenants:
    """Domains of two shards, whose askers compare each reply with its ask."""

    def __init__(self, operator):
        names = [f"t{number}" for number in range(200)]
        places = {name: shards("where", name).strip() for name in names[:40]}
        chosen = [name for name in places if places[name] in ("0", "1")][:10]
        self.effects = {name: ("Permit", "Deny")[number % 2] for number, name in enumerate(chosen)}
        for name, effect in self.effects.items():
            operator.makes(name, effect)
        self.numbers, self.lock = itertools.count(), threading.Lock()
        self.right, self.wrong, self.lost = Counter(), [], Counter()

    def next(self):
        """The next ask: a domain's name, its mark and its bytes."""
        with self.lock:
            number = next(self.numbers)
        name = list(self.effects)[number % len(self.effects)]
        mark = f"{name}-{number}"
        return name, mark, marked(name, mark)

    def compare(self, how, name, mark, reply):
        """Keeps how a reply to an ask is."""
        marks, effects = MARK.findall(reply), EFFECT.findall(reply)
        with self.lock:
            if not marks and not effects:
                self.lost[reply[9:12]] += 1
            elif (marks, effects) == ([mark.encode()], [self.effects[name].encode()]):
                self.right[how] += 1
            else:
                self.wrong.append((how, name, mark, reply[:600]))

    def asked(self):
        return sum(self.right.values()) + sum(self.lost.values()) + len(self.wrong)

    def asks(self, _number):
        """Asks over HTTP/1.1, one after another and several at once on one connection."""
        with Client(PLAIN) as client:
            for count in (1, 1, 5, 1, 10):
                held = [self.next() for _ in range(count)]
                client.send(b"".join(data for *_, data in held))
                for name, mark, _ in held:
                    self.compare("HTTP/1.1", name, mark, client.reply())

    def streams(self, _number):
        """Asks over HTTP/2, ten at once on one connection."""
        with Http2(PLAIN) as client:
            for _ in range(3):
                held = [(name, mark, client.message(data)) for name, mark, data in (self.next() for _ in range(10))]
                for name, mark, stream in held:
                    body = client.body(stream)
                    self.compare("HTTP/2", name, mark, b"HTTP/1.1 %d " % (client.statuses.get(stream) or 0) + body)


def cut_and_odd(operator, name):
    """More odd messages, by their names, and those that are cut."""
    ask = marked(name, "odd")
    forms = replies.Forms(operator, ask)
    chunks = b"%x\r\n%b\r\n0\r\n" % (len(forms.body), forms.body)
    length = b"\r\nContent-Length: %d" % len(forms.body)
    token = b"\r\nAuthorization: Bearer %b-token-1" % name.encode()
    return {
        "HEAD of a decision": b"HEAD /domains/%b/pip HTTP/1.1%b\r\n\r\n" % (name.encode(), token),
        "trailers": forms.post(forms.coding, chunks + b"Content-Length: 99\r\n\r\n"),
        "a coding in odd letters": forms.post(b"\r\nTransfer-Encoding:\tChUnKeD", chunks + b"\r\n"),
        "a coding behind a control": forms.post(b"\r\nTransfer-Encoding: \x0bchunked" + length, chunks + b"\r\n"),
        "an extension of a chunk": forms.post(forms.coding, chunks.replace(b"\r\n", b';x="\r\n', 1) + b"\r\n"),
        "a chunk's size with zeros": forms.post(forms.coding, b"0" * 30 + chunks + b"\r\n"),
        "a chunk's size beyond all": forms.post(forms.coding, b"1" + b"0" * 16 + chunks + b"\r\n"),
        "no coding and a length": forms.post(b"\r\nTransfer-Encoding: identity" + length),
        "two lengths in a field": forms.post(length + b", %d" % len(forms.body)),
        "a length beyond all": forms.post(b"\r\nContent-Length: %d" % (2 ** 64 + len(forms.body))),
        "one length twice": forms.post(length + length),
        "a length with zeros": forms.post(b"\r\nContent-Length: 000%d" % len(forms.body)),
        "Connection names the length": forms.post(length + b"\r\nConnection: content-length, authorization"),
        "Connection: close": forms.post(length + b"\r\nConnection: close"),
        "close among others": forms.post(length + b"\r\nConnection: x, CLOSE\r\nConnection: upgrade"),
        "a method of 17,000 bytes": b"A" * 17_000 + ask[4:],
        "a cut head": ask[:40], "a cut body": ask[:-9],
        "a cut chunk": forms.post(forms.coding, chunks[:-12]),
        "one that goes": ask,
    }


def streams_of(ask):
    """Odd messages over HTTP/2, by their names: their methods, their paths and their fields."""
    head, _, _ = ask.partition(b"\r\n\r\n")
    path = head.split(b" ")[1]
    fields = [(b"authorization", re.search(rb"Authorization: (.*?)\r\n", head + b"\r\n")[1]),
              (b"content-type", b"application/json")]
    lines = b" HTTP/1.1\r\nContent-Length: 0\r\nX: "
    return {
        "HTTP/2": (b"POST", path, fields),
        "HTTP/2, a coding": (b"POST", path, [*fields, (b"transfer-encoding", b"chunked")]),
        "HTTP/2, another length": (b"POST", path, [*fields, (b"content-length", b"3")]),
        "HTTP/2, Connection": (b"POST", path, [*fields, (b"connection", b"content-length")]),
        "HTTP/2, a byte beyond ASCII": (b"POST", path + b"?\xff", fields),
        "HTTP/2, lines in a value": (b"POST", path, [*fields, (b"x", b"a\r\nContent-Length: 0")]),
        "HTTP/2, lines in a name": (b"POST", path, [*fields, (b"x: a\r\ncontent-length", b"0")]),
        "HTTP/2, lines in a path": (b"POST", path + lines, fields),
        "HTTP/2, lines in a method": (b"POST " + path + lines, path, fields),
    }


class Odd:
    """Sends what is odd, and cuts messages anywhere; over HTTP/2 it ends streams."""

    def __init__(self, operator, name):
        self.ask = marked(name, "odd")
        whole = {what: data for what, (data, _) in replies.odd_requests(operator, self.ask).items()}
        self.messages, self.streams = {**whole, **cut_and_odd(operator, name)}, streams_of(self.ask)
        self.sent, self.random, self.turns = Counter(), random.Random(7), itertools.count()

    def sends(self, number):
        if number % ODD == 0:
            return self.ends_streams()
        what = self.random.choice(list(self.messages))
        data = self.messages[what]
        cut = self.random.random() < 0.3
        with Client(PLAIN) as client:
            client.socket.settimeout(0.5)
            try:
                # another good one behind it, as a smuggler has it
                client.send(data[:self.random.randrange(len(data) + 1)] if cut else data + self.ask)
                if what != "one that goes" and not cut:
                    client.more()
            except OSError:
                pass
            client.close(reset=self.random.random() < 0.5)
        self.sent[what] += 1
        return None

    def ends_streams(self):
        """Over HTTP/2: bodies without a length, whole and cut, and streams that are ended."""
        what = list(self.streams)[next(self.turns) % len(self.streams)]
        method, path, fields = self.streams[what]
        body = self.ask.partition(b"\r\n\r\n")[2]
        with Http2(PLAIN, source=outside(0)) as client:
            try:
                for piece in (body, b"", body[:9], body):
                    stream = client.headers(method, path, fields, ends=False)
                    client.data(stream, piece, ends=self.random.random() < 0.7)
                client.socket.settimeout(0.3)
                client.more()
            except OSError:
                pass
        self.sent[what] += 1


def crossing(machine, checks):
    """Marked decisions of several tenants on connections that HAProxy keeps to the shards, beside odd and cut messages
    of others: no reply is another's, and none is lost."""
    operator = machine.operator
    operator.clear()
    machine.set(OF_SOURCE=0, REFUSALS=0)
    tenants = Tenants(operator)
    with InPlace(0, CROSSED):
        tenants.asks(0)
    checks.expect("a stand-in that gives another's replies is seen", len(tenants.wrong) > 0, True)
    tenants.wrong.clear()
    wait_until(operator.is_answered, "the shard isn't there again")
    odd = Odd(operator, next(iter(tenants.effects)))
    checks.expect("the ways of the page", ways_of_page(), [*WAYS])
    kinds = [*odd.messages, *odd.streams]
    checks.expect("ways without a message", {what for names in WAYS.values() for what in names} - {*kinds}, set())
    before = [(counted(f"shard{shard}", "pdpd", "connect"), counted(f"shard{shard}", "pdpd", "reuse"))
              for shard in (0, 1)]
    with Load(tenants.asks, ASKERS), Load(tenants.streams, STREAMERS), Load(odd.sends, ODD):
        while tenants.asked() < DECISIONS:
            time.sleep(0.2)
    checks.expect("replies that are another's", tenants.wrong[:3], [])
    checks.expect("decisions that are lost, by their statuses", tenants.lost, {})
    made, used = (sum(counted(f"shard{shard}", "pdpd", what) - before[shard][place] for shard in (0, 1))
                  for place, what in enumerate(("connect", "reuse")))
    checks.within("messages on each connection to a shard", used / max(made, 1), Between(2))
    checks.expect("ways that weren't sent", [what for what in kinds if not odd.sent[what]], [])
    checks.say(f"{dict(tenants.right)} marked decisions beside {sum(odd.sent.values())} odd messages, over {made} "
               f"connections to two shards, which were used again {used} times: none was another's")
    machine.set(OF_SOURCE=200, REFUSALS=100)


ATTACKS = (crossing,)
