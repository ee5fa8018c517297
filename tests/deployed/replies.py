"""What is answered through four shards: the API's examples, odd requests, odd paths, the list of domains."""
import json
import os
import shutil
import subprocess
import time

from api_parts.examples import PAGE, bytes_of, error_body
from api_parts.page import read_page
from api_parts.sending import OPERATOR_TOKEN, stepped
from checks import Between

from . import clients
from .clients import Client, Load, message, once, read, status
from .machine import PLAIN, TOP, admin, sh, shards, wait_until

# The examples of docs/guide/API.md that are answered otherwise than by pdpd alone, with what they have here
# (docs/guide/OPERATING.md, "What the proxy answers").
OTHERWISE = {
    # HAProxy's own, whatever its configuration says
    "bad-head": (400, b"<html><body><h1>400 Bad request</h1>\nYour browser sent an invalid request.\n"
                      b"</body></html>\n"),
    # a chunked body that never comes, for which the proxy waits
    "transfer-coding": (408, b'{"Error":"Timeout"}'),
}


def examples(machine, checks):
    """Each example of docs/guide/API.md: every message before it, and its own, are answered as the page says."""
    pages, _ = read_page((TOP / PAGE).read_text(encoding="utf-8"))
    machine.change_token(OPERATOR_TOKEN)
    for example in pages.examples.values():
        if error_body("Unavailable").encode() in example.reply:
            continue  # for want of memory
        machine.operator.clear()
        before = [stepped(pages, step) for step in pages.states[example.state]]
        with Client(PLAIN) as client:
            for data, wanted in before:
                checks.expect(f"before {example.name}: {data[:60]}", read(client.ask(data)), read(wanted))
            found, wanted = read(client.ask(bytes_of(example.head, example.body))), read(example.reply)
        if example.name in OTHERWISE:
            wanted = OTHERWISE[example.name]
            found = found and (found[0], found[2])
        elif found and b"dateTime" in wanted[2]:
            found, wanted = without_moment(found), without_moment(wanted)
        checks.expect(f"the example {example.name}", found, wanted)
    machine.operator.clear()


def without_moment(found):
    """A reply without the moment, which is the clock's."""
    value = json.loads(found[2])
    text = json.dumps(value)
    kept = {name: value for name, value in found[1].items() if name != "content-length"}
    return found[0], kept, clients.re.sub(r"\d{4}-\d\d-\d\dT\d\d:\d\d:\d\dZ", "MOMENT", text)


def desk(machine, checks):
    """The policy author's desk deploys a folder through the proxy, over TLS; again there is nothing to do."""
    operator, folder = machine.operator, machine.folder / "ward"
    operator.clear()
    token = operator.message("POST", "/ward/tokens", '{"Role":"admin","Token":"ward-admin-1"}')
    checks.expect("the domain", [status(once(data)) for data in (operator.creates("ward"), token)], [201, 200])
    shutil.copytree(TOP / "examples" / "ward", folder)
    place = json.loads((folder / "domain.json").read_text())
    (folder / "domain.json").write_text(json.dumps({**place, "Server": "https://localhost", "Domain": "ward"}))
    trusts = {"DALVEZOUR_TOKEN": "ward-admin-1", "SSL_CERT_FILE": "/etc/haproxy/pdpd.crt"}
    for word, *more, wanted in (("deploy", "--yes", "Deployed: number 1."),
                                ("status", "--strict", "is what runs there"),
                                ("deploy", "--yes", "Nothing else was to be done.")):
        words = [TOP / "tools" / "policy" / "policy.py", word, "--program", "none", *more, folder]
        ran = subprocess.run(words, env={**os.environ, **trusts}, capture_output=True, text=True, check=False)
        checks.expect(f"policy {word}: {ran.stdout}{ran.stderr}", (ran.returncode, wanted in ran.stdout), (0, True))
    trusts.pop("SSL_CERT_FILE")
    ran = subprocess.run(words, env={**os.environ, **trusts}, capture_output=True, text=True, check=False)
    found = ran.returncode, "the certificate isn't trusted" in " ".join(ran.stderr.split())
    checks.expect(f"a certificate that isn't trusted: {ran.stderr}", found, (4, True))


# ---- odd requests

def chunked(data):
    return b"%x\r\n%b\r\n0\r\n\r\n" % (len(data), data)


def many_fields(count):
    return b"".join(b"\r\nX-%d: x" % number for number in range(count))


class Forms:
    """A good list of domains and a good ask, of whose requests odd ones are made."""

    def __init__(self, operator, ask):
        head, _, self.body = ask.partition(b"\r\n\r\n")
        self.line, _, fields = head.partition(b"\r\n")
        # the fields of the ask, but for its length
        self.fields = b"".join(b"\r\n" + field for field in fields.split(b"\r\n")
                               if not field.startswith(b"Content-Length"))
        self.authorization = operator.message("GET", "").split(b"\r\n")[1]
        self.coding = b"\r\nTransfer-Encoding: chunked"

    def get(self, version, more=b""):
        return b"GET /operator/domains " + version + b"\r\n" + self.authorization + more + b"\r\n\r\n"

    def post(self, more, data=None):
        return self.line + self.fields + more + b"\r\n\r\n" + (self.body if data is None else data)

    def put_in(self, old, new):
        return self.get(b"HTTP/1.1", b"\r\nHost: h").replace(old, new, 1)

    def upgrade(self, to, more=b""):
        return self.get(b"HTTP/1.1", b"\r\nConnection: Upgrade\r\nUpgrade: " + to + more)


def odd_lines(forms):
    """Versions and methods."""
    return {
        "HTTP/1.0": (forms.get(b"HTTP/1.0"), {505}),
        "HTTP/1.0 that wants to go on": (forms.get(b"HTTP/1.0", b"\r\nConnection: keep-alive"), {505}),
        "HTTP/0.9": (b"GET /operator/domains\r\n\r\n", {400, 505}),
        "HTTP/1.2": (forms.get(b"HTTP/1.2"), {505}),
        "HTTP/3.0": (forms.get(b"HTTP/3.0"), {505}),
        "no version": (forms.get(b"HTTP"), {400}),
        "HEAD": (b"HEAD /operator/domains HTTP/1.1\r\n" + forms.authorization + b"\r\nConnection: close\r\n\r\n",
                 {405}),
        "a method in small letters": (forms.get(b"HTTP/1.1").replace(b"GET", b"get"), {405}),
        "a method that is none": (forms.get(b"HTTP/1.1").replace(b"GET", b"G(T"), {400}),
        "OPTIONS of all": (b"OPTIONS * HTTP/1.1\r\nHost: h\r\n\r\n", {400, 404, 405}),
        "CONNECT": (b"CONNECT localhost:443 HTTP/1.1\r\nHost: h\r\n\r\n", {400, 404, 405}),
        "TRACE": (b"TRACE /operator/domains HTTP/1.1\r\nHost: h\r\n\r\n", {405}),
    }


def odd_fields(forms):
    """Lengths and fields."""
    return {
        "a length too large": (forms.post(b"\r\nContent-Length: 524289", b""), {413}),
        "a length of letters": (forms.post(b"\r\nContent-Length: 1a"), {400}),
        "a length below nothing": (forms.post(b"\r\nContent-Length: -1"), {400}),
        "two lengths": (forms.post(b"\r\nContent-Length: 14\r\nContent-Length: 15"), {400}),
        "a body that doesn't come": (forms.post(b"\r\nContent-Length: 100"), {408}),
        "a NUL in a field": (forms.get(b"HTTP/1.1", b"\r\nX: a\0b"), {400}),
        "a control in a field": (forms.get(b"HTTP/1.1", b"\r\nX: a\x01b"), {400}),
        "DEL in a field": (forms.get(b"HTTP/1.1", b"\r\nX: a\x7fb"), {400}),
        "a blank before the colon": (forms.get(b"HTTP/1.1", b"\r\nX : a"), {400}),
        "a field without a name": (forms.get(b"HTTP/1.1", b"\r\n: a"), {400}),
        "a field without a colon": (forms.get(b"HTTP/1.1", b"\r\nAccept application/json"), {400}),
        "a folded field": (forms.get(b"HTTP/1.1", b"\r\nX: a\r\n b"), {200, 400}),
        "lines that end with LF alone": (forms.get(b"HTTP/1.1").replace(b"\r\n", b"\n"), {200, 400}),
        "empty lines before": (b"\r\n\r\n" + forms.get(b"HTTP/1.1"), {200, 400}),
        "two hosts": (forms.get(b"HTTP/1.1", b"\r\nHost: a\r\nHost: b"), {200, 400}),
        "two tokens": (forms.get(b"HTTP/1.1", b"\r\n" + forms.authorization), {401}),
        "63 fields": (forms.get(b"HTTP/1.1", many_fields(62)), {200}),
        "64 fields": (forms.get(b"HTTP/1.1", many_fields(63)), {431}),
        "120 fields": (forms.get(b"HTTP/1.1", many_fields(119)), {431}),
        "a field of 16,384 bytes": (forms.get(b"HTTP/1.1", b"\r\nCookie: " + b"x" * 16_384), {431}),
    }


def odd_targets(forms):
    """Targets."""
    return {
        "a target of 16,300 bytes": (forms.put_in(b"domains", b"domains?" + b"x" * 16_300), {431}),
        "a blank in the target": (forms.put_in(b"domains", b"dom ains"), {400}),
        "a letter that is no ASCII in the target": (forms.put_in(b"domains", b"dom\xffains"), {400, 404}),
        "a fragment": (forms.put_in(b"domains", b"domains#x"), {200, 400, 404}),
        "an absolute target": (forms.put_in(b"/operator", b"http://h/operator"), {200}),
    }


def odd_bodies(forms):
    """Codings, bodies and upgrades."""
    return {
        "a chunked body": (forms.post(forms.coding, chunked(forms.body)), {200}),
        "a chunk of no size": (forms.post(forms.coding, b"zz\r\n" + forms.body), {400}),
        "a chunked body too large": (forms.post(forms.coding, chunked(b"x" * 524_289)), {413}),
        "chunked and a length": (forms.post(forms.coding + b"\r\nContent-Length: 3", chunked(forms.body)), {200, 400}),
        "two codings": (forms.post(b"\r\nTransfer-Encoding: gzip, chunked", chunked(forms.body)), {400, 422, 501}),
        "a coding that is none": (forms.post(b"\r\nTransfer-Encoding: identity", b""), {400, 501}),
        "Expect": (forms.post(b"\r\nExpect: 100-continue\r\nContent-Length: %d" % len(forms.body)), {200}),
        "half of a websocket's handshake": (forms.upgrade(b"websocket"), {200, 400}),
        "h2c": (forms.upgrade(b"h2c", b"\r\nHTTP2-Settings: AAMAAABkAAQAAP__"), {200}),
        "a reading with a body": (forms.get(b"HTTP/1.1", b"\r\nContent-Length: 2") + b"{}", {200}),
        "524,288 bytes that are no JSON": (forms.post(b"\r\nContent-Length: 524288", b"x" * 524_288), {400}),
    }


def odd_streams(forms):
    """Bytes that are no request, or half of one."""
    return {
        "TLS where there is none": (b"\x16\x03\x01\x02\x00\x01\x00\x01\xfc" + b"\0" * 60, {400, None}),
        "random bytes": (bytes(range(256)) * 8 + b"\r\n\r\n", {400, None}),
        "nothing": (b"", {400, None}),
        "half a head": (forms.get(b"HTTP/1.1")[:30], {None, 400, 408}),
    }


def odd_requests(operator, ask):
    """Requests with the statuses that may come, by RFC 9110 and 9112 and by the page; None: just an end."""
    forms = Forms(operator, ask)
    return {**odd_lines(forms), **odd_fields(forms), **odd_targets(forms), **odd_bodies(forms), **odd_streams(forms)}


def odd_reply(data):
    """The status of the reply to these bytes; 100 (Continue) is passed over."""
    with Client(PLAIN) as client:
        client.send(data)
        if not data or b"\r\n\r\n" not in data.replace(b"\n\n", b"\r\n\r\n"):
            client.ends_writing()
        if b"Expect" in data:
            while client.held.count(b"HTTP/1.1 ") < 2 and not client.held.startswith(b"HTTP/1.1 200"):
                if not client.more():
                    return None
            client.held = client.held[client.held.rindex(b"HTTP/1.1 "):]
        if data.startswith(b"HEAD"):
            return status(client.all())
        return status(client.reply())


def odd(machine, checks):
    """Odd requests: each is answered or its connection ends, and a good one of another client behind it is right."""
    operator = machine.operator
    operator.clear()
    ask = operator.makes("acme")
    for name, (data, wanted) in odd_requests(operator, ask).items():
        found = odd_reply(data)
        checks.within(f"odd: {name}", found, wanted)
        began = time.time()
        checks.expect(f"behind {name}", clients.decision(once(ask)), "Permit")
        checks.within(f"behind {name}: after how many seconds", time.time() - began, Between(0, 1))
    with Client(PLAIN) as client:
        client.send(ask * 50)
        checks.expect("50 at once", [clients.decision(client.reply()) for _ in range(50)], ["Permit"] * 50)
    checks.expect("no domain more", operator.names(), ["acme"])


# ---- paths

PATHS = (
    ("POST", "/domains/acme/pdp", 200), ("POST", "/domains/acme/pdp?x=1", 200),
    ("POST", "http://h/domains/acme/pdp", 200), ("POST", "http://h/domains/%61cme/pdp", 400),
    ("POST", "/domains/%61cme/pdp", 400), ("POST", "/domains/acm%65/pdp", 400),
    ("POST", "/domains/acme%2F/pdp", 400), ("POST", "/domains/acme%00/pdp", 400),
    ("POST", "/domains/%/pdp", 400), ("POST", "/domains/%2e%2e/pdp", 400),
    ("POST", "/domains/acme/%70dp", 404), ("POST", "/domains/acme//pdp", 404),
    ("POST", "//domains/acme/pdp", 404), ("POST", "/./domains/acme/pdp", 404),
    ("POST", "/domains/./acme/pdp", 404), ("POST", "/x/../domains/acme/pdp", 404),
    ("POST", "/domains/acme/pdp/", 404), ("POST", "/domains/acme/pdp;x", 404),
    ("POST", "/domains/acme?x/pdp", 404), ("POST", "/domains//pdp", 404), ("POST", "/DOMAINS/acme/pdp", 404),
    ("POST", "/%64omains/acme/pdp", 404), ("POST", "/domains/ACME/pdp", 401),
    ("POST", "/domains/acme./pdp", 401),
    ("POST", "/domains/beta/pdp", 401), ("GET", "/domains/acme/pap/policy/urn:p/1.0", 200),
    ("GET", "/domains/acme/pap/policy/urn%3Ap/1.0", 200), ("GET", "/domains/acme/pap/policy/a%2Fb/1.0", 404),
    ("GET", "/domains/a%63me/pap/policy/urn:p/1.0", 400),
)
OF_OPERATOR = (
    ("PUT", "/%61cme", 400), ("PUT", "/a%63me", 400), ("PUT", "/acm%65", 400), ("PUT", "/Acme", 400),
    ("PUT", "/", 404), ("PUT", "//acme", 404), ("PUT", "/acme/", 404), ("DELETE", "/%61cme", 400),
    ("PUT", "/acme", 409),
)


def paths(machine, checks):
    """Paths that are written otherwise: none leads to another shard than its domain's."""
    operator = machine.operator
    operator.clear()
    operator.makes("acme")
    operator.makes("beta")
    for method, path, wanted in PATHS:
        body = '{"Request":{}}' if method == "POST" else None
        checks.expect(f"{method} {path}", status(once(message(method, path, "acme-token-1", body))), wanted)
    for method, path, wanted in OF_OPERATOR:
        found = status(once(operator.message(method, path)))
        checks.expect(f"{method} /operator/domains{path}", found, wanted)
    checks.expect("the domains behind it", operator.names(), ["acme", "beta"])


# ---- the list

def impatient(ask):
    """A client that goes after a second, also while its message waits."""
    client = Client(PLAIN)
    client.socket.settimeout(1)
    client.send(ask)
    try:
        client.reply()
    except TimeoutError:
        pass
    client.close()


def listing(machine, checks):
    """The list of all domains is that of one server, or an error; a map that names no shard leads nowhere."""
    operator = machine.operator
    operator.clear()
    names = sorted(f"d{number}{'-' * (number % 3)}" for number in range(26))
    for name in names:
        checks.expect(f"{name} is made", status(once(operator.creates(name))), 201)
    body = json.dumps({"Domain": names}, separators=(",", ":")).encode()
    fields = {"content-type": "application/json", "content-length": str(len(body))}
    checks.expect("the list", read(once(operator.message("GET", ""))), (200, fields, body))
    found = read(once(message("GET", "/operator/domains", "no-such-token")))
    checks.expect("without the token", (found[0], found[1].get("www-authenticate")), (401, "Bearer"))
    sh("sv down /etc/service/pdpd-2")
    time.sleep(0.3)
    began = time.time()
    checks.expect("with a shard away", status(once(operator.message("GET", ""))), 503)
    checks.within("after how many seconds", time.time() - began, Between(0, 14))
    name = next(name for name in names if shards("where", name).strip() == "2")
    with Load(lambda _number: impatient(operator.creates(name)), 6):
        time.sleep(4)
        sh("sv up /etc/service/pdpd-2")
        wait_until(lambda: status(once(operator.creates(name))) == 409,
                   "beside impatient clients the queue stands still", 14)
    wait_until(operator.is_answered, "the list isn't there again", 14)
    admin("add map /etc/haproxy/domains.map lost 63")
    checks.expect("a shard that isn't there", status(once(operator.creates("lost"))), 503)
    checks.expect("and nothing is made", operator.names(), names)
    operator.clear()
