"""What the user of HAProxy tries, whose program talks to outsiders and sees every token; and what HAProxy's newer
versions would make of messages."""
import contextlib
import os
import pathlib
import re
import signal
import subprocess
import sys
import time
from unittest import mock

from checks import Between

from . import slowness
from .attacking import InPlace, counted, is_there, outside, outsiders
from .attacks_local import Local, owner_and_mode
from .clients import decision, message, once, read, status
from .http2 import Http2, of_message
from .machine import LIBRARY, PLAIN, admin, as_user, backs_up, pid, sh, shards, wait_until

PROXY, RUN = "haproxy", "/run/haproxy"
CONFIGURATION = pathlib.Path("/etc/haproxy/haproxy.cfg")
# It puts a link to a file of root's in the place of each socket that HAProxy is about to give away.
LINKER = """
import os, sys
os.chdir(sys.argv[1])
print("begins", flush=True)
while True:
    try:
        for name in os.listdir("."):
            if name.endswith(".tmp") and not os.path.islink(name):
                os.symlink("/var/only-root", "link")
                os.rename("link", name)
                print("linked", flush=True)
    except OSError:
        pass
"""


@contextlib.contextmanager
def slow_proxy(folder):
    """HAProxy runs in place of its service meanwhile; before it gives a socket away it waits for half a second."""
    sh("sv down haproxy")
    wait_until(lambda: not is_there(), "HAProxy isn't ended")
    words = ["strace", "-f", "-qq", "-o", folder / "given", "-e", "trace=chown,fchownat,lchown", "-e",
             "inject=chown,fchownat,lchown:delay_enter=500000", "haproxy", "-W", "-db", "-f", CONFIGURATION]
    nothing = {"stdin": subprocess.DEVNULL, "stdout": subprocess.DEVNULL, "stderr": subprocess.DEVNULL}
    with subprocess.Popen(words, start_new_session=True, **nothing) as traced:
        try:
            wait_until(is_there, "HAProxy doesn't begin")
            yield
        finally:
            os.killpg(traced.pid, signal.SIGKILL)
    sh("sv up haproxy")
    wait_until(is_there, "HAProxy isn't there again")


def proxy_user(machine, checks):
    """The user of HAProxy reads no file that is root's or the shards', and can put nothing where HAProxy, which begins
    as root, gives its sockets away. Where an earlier version left it the folder, a start and an upgrade take it."""
    machine.operator.clear()
    ask = machine.operator.makes("acme")
    backs_up(0)
    closed = ["/etc/pdpd/token", "/run/pdpd/0/token", "/run/pdpd/lock", "/etc/haproxy/pdpd.pem",
              "/etc/haproxy/pdpd.key"]
    closed += sh("ls /var/lib/pdpd/0/pdpd.db* /var/lib/pdpd-backups/0/*/* /var/log/pdpd/*/current").split()
    looks = "; do if cat $file > /dev/null 2>&1; then echo $file; fi; done"
    said = as_user(PROXY, f"for file in {' '.join(closed)}{looks}")
    checks.expect("what it reads", said, "")
    places = "/etc/haproxy /etc/pdpd /run/haproxy /run/pdpd /run/pdpd-shards /usr/local/lib/pdpd /var/lib/pdpd /var/lib/pdpd-backups"
    said = as_user(PROXY, f"find {places} -writable -not -type s 2> /dev/null || true")
    checks.expect("where it writes", said, "")
    sh("umask 077; rm -f /var/only-root; echo 'only root reads this' > /var/only-root")
    for what, command in (("a start", "sv restart haproxy"), ("an upgrade", "pdpd-shards upgrade")):
        sh(f"chown haproxy:haproxy {RUN}; chmod 2775 {RUN}; {command}")
        wait_until(is_there, "HAProxy isn't there again")
        checks.within(f"whose the folder is behind {what}", owner_and_mode(RUN),
                      ("root root 755 directory", "root root 2755 directory"))
    with Local(PROXY, LINKER, RUN) as linker:
        wait_until(lambda: "begins" in linker.said(), "the linker doesn't begin")
        with slow_proxy(machine.folder):
            checks.expect("a tenant", decision(once(ask)), "Permit")
        checks.expect("what it has linked", linker.said(), "begins\n")
    given = re.findall(r'"(\S+\.sock)\.\d+\.tmp"', (machine.folder / "given").read_text())
    places = [f"{RUN}/{name}.sock" for name in ("again", "inner", "lists")]
    checks.expect("sockets that were given away", sorted(given), places)
    checks.expect("the file of root's", owner_and_mode("/var/only-root"), "root root 600 regular file")
    sh("rm /var/only-root")
    shards("restart", 0)


# ---- versions

@contextlib.contextmanager
def as_version(newer):
    """HAProxy runs its file as a newer version would: each condition on versions in it is made for another one."""
    text = CONFIGURATION.read_text()
    CONFIGURATION.write_text(newer(text))
    shards("reload")
    try:
        yield
    finally:
        CONFIGURATION.write_text(text)
        shards("reload")


def newer(text):
    """A configuration in which each condition holds that does for HAProxy from 2.7 on, and no other."""
    return text.replace("version_before(2.7)", "version_before(1.0)").replace("atleast(2.7)", "atleast(1.0)")


def versions(machine, checks):
    """For HAProxy from 2.7 on: what has no length is answered with 501, and comes to no shard; all else comes whole,
    each on a connection of its own."""
    operator = machine.operator
    operator.clear()
    ask = operator.makes("acme")
    shard, line = int(slowness.shard_of("acme")), ask.partition(b"\r\nContent-Length")[0]
    coded = line + b"\r\nTransfer-Encoding: chunked\r\n\r\n"
    conditions = re.findall(r"(?m)^ *\.(?:el)?if (.*)", CONFIGURATION.read_text())
    checks.expect("conditions", conditions, ["version_before(2.7)"] * 2)
    with as_version(newer), InPlace(shard, b"HTTP/1.1 200 OK\r\nContent-Length: 2\r\n\r\n{}") as seen:
        refused = {"chunked": once(coded + b"2\r\n{}\r\n0\r\n\r\n"), "chunked, empty": once(coded + b"0\r\n\r\n")}
        for what, reply in refused.items():
            checks.expect(what, read(reply)[::2], (501, b'{"Error":"TransferCoding"}'))
        checks.expect("over HTTP/2, without a length", by_http2(line + b"\r\n\r\n", b"{}"), 501)
        checks.expect("what came to the shard of these", seen.messages, [])
        checks.expect("with a length", status(once(ask)), 200)
        checks.expect("with a length over HTTP/2", by_http2(ask, None), 200)
        checks.expect("without a body", status(once(message("GET", "/domains/acme/pip", "acme-token-1"))), 200)
        checks.expect("connections", counted(f"shard{shard}", "pdpd", "reuse"), 0)
        bodies = [data.partition(b"\r\n\r\n")[2] for data in seen.messages]
        checks.expect("their bodies", bodies, [b'{"Request":{}}', b'{"Request":{}}', b""])
    wait_until(lambda: decision(once(ask)) == "Permit", "the shard isn't there again")
    led(checks)


def led(checks):
    """What HAProxy 2.6 and 3.0 say where a shard's port is led to, and what an error says."""
    sys.path.insert(0, str(LIBRARY))
    from operating import settings, talk
    how = "by 'stats socket command'"
    said = {f"no need to change the addr, port changed from '291' to '299' {how}": None,
            f"no need to change the addr, no need to change the port {how}": None,
            f"port changed from '291' to '299' {how}": None, "nothing changed": None,
            "No such backend.": "HAProxy: No such backend.",
            "set server <b>/<s> addr requires an address and optionally a port.":
            "HAProxy: set server <b>/<s> addr requires an address and optionally a port."}
    for reply, wanted in said.items():
        at_port = mock.patch.object(talk, "asked_port", return_value=291)
        with mock.patch.object(talk, "admin_reply", return_value=f"{reply}\n"), at_port:
            try:
                found = talk.lead(settings.Settings("FIRST_PORT=299"), 0)
            except settings.Wrong as fault:
                found = str(fault)
        checks.expect(f"HAProxy says {reply}", found, wanted)


def by_http2(data, body):
    """The status of a message over HTTP/2; with a body that has no length, if one is given."""
    with Http2(PLAIN, source=outside(0)) as client:
        if body is None:
            return client.status(client.message(data))
        method, path, fields, _ = of_message(data)
        stream = client.headers(method, path, fields, ends=False)
        client.data(stream, body)
        return client.status(stream)


# ---- what is sent again

def unrepeated(machine, checks):
    """A program that takes a message and ends its connection without a reply has had it once, whatever it asks for: one
    that ends a shard ends one program. The client is told that nobody knows."""
    operator = machine.operator
    operator.clear()
    name = next(f"o{number}" for number in range(99) if slowness.shard_of(f"o{number}") == "0")
    token, at = f"{name}-token-1", f"/domains/{name}"
    kinds = {"a decision": operator.makes(name), "a reading": message("GET", f"{at}/pip", token),
             "a reading with a question": message("GET", f"{at}/pip?x", token),
             "a change": message("PUT", f"{at}/pip", token, '{"Row":[]}'),
             "an upload": message("POST", f"{at}/pap/policies", token, "{}"),
             "a new domain": operator.creates(name), "a removal": operator.message("DELETE", f"/{name}")}
    sh("sv down pdpd-watchdog")  # (it would have nothing sent there)
    with InPlace(0) as seen:
        for what, data in kinds.items():
            seen.messages.clear()
            found = status(once(data))
            checks.expect(f"{what}: the reply, and how often it came", (found, len(seen.messages)), (502, 1))
        seen.messages.clear()
        found = status(once(operator.message("GET", "")))
        # (what Lua asks, HAProxy's own client may ask once more: a reading)
        checks.expect(f"the list: the reply, and whether shard 0 was asked {len(seen.messages)} times, once or twice",
                      (found, len(seen.messages) in (1, 2)), (503, True))
    sh("sv up pdpd-watchdog")
    wait_until(operator.is_answered, "the shard isn't there again")


# ---- frames of HTTP/2

# It sends frames of HTTP/2 that want no reply, as fast as they are taken: of one kind, PRIORITY (RFC 9113, section
# 6.3), or PING with its acknowledgement (6.7).
SENDER = """
import socket, struct, sys, time
kinds = {"priority": b"\\0\\0\\5\\2\\0\\0\\0\\0\\1" + bytes(5), "ping": b"\\0\\0\\10\\6\\1\\0\\0\\0\\0" + bytes(8)}
data = kinds[sys.argv[1]] * 2000
while True:
    try:
        with socket.create_connection(("127.0.0.1", int(sys.argv[2])), 3, source_address=(sys.argv[3], 0)) as connection:
            connection.sendall(b"PRI * HTTP/2.0\\r\\n\\r\\nSM\\r\\n\\r\\n" + bytes(3) + b"\\4" + bytes(5))
            while True:
                connection.sendall(data)
                print("sent", flush=True)
    except OSError:
        time.sleep(0.01)
"""


def frames(machine, checks):
    """One connection of HTTP/2 that sends as many frames as HAProxy takes, none of which is a message: nobody waits for
    seconds beside it."""
    machine.operator.clear()
    ask = machine.operator.makes("acme")
    for kind in ("priority", "ping"):
        with Local("nobody", SENDER, kind, PLAIN, outside(0)) as sender:
            wait_until(lambda: sender.said().count("sent") > 100, "nothing is taken")
            before, answered, longest, end = sender.said().count("sent"), 0, 0.0, time.time() + 8
            while time.time() < end:
                began = time.time()
                checks.expect(f"{kind}: a tenant", decision(once(ask)), "Permit")
                answered, longest = answered + 1, max(longest, time.time() - began)
            sent = (sender.said().count("sent") - before) * 2000
        checks.say(f"{sent} frames, {kind}: the longest of a tenant's {answered} decisions took {longest:.2f} s")
        checks.within(f"{kind}: frames", sent, Between(10_000))
        checks.within(f"{kind}: the seconds of the longest", longest, Between(0, 1.5))


# ---- memory

# messages under way at once, with bodies of so many bytes
HELD, BODY = 40, 500_000


def buffers_used():
    """How many buffers HAProxy has given out."""
    return int(re.search(r"Pool buffer .* (\d+) used", admin("show pools"))[1])


MOST_BUFFERS = 2


def buffers(machine, checks):
    """Each message that waits with its body holds no more of HAProxy's buffers than the limit of all has for it."""
    operator = machine.operator
    operator.clear()
    ask = operator.makes("acme")
    shard = int(slowness.shard_of("acme"))
    long = message("POST", "/domains/acme/pdp", "acme-token-1", '{"Request":{"x":"%s"}}' % ("x" * BODY))
    sh("sv down pdpd-watchdog")
    # (2,000 connections of clients, 1,000 messages, and 200 connections of the tools; a hundred messages are led twice)
    limit = int(re.search(r"tune.buffers.limit (\d+)", CONFIGURATION.read_text())[1])
    checks.expect("the limit of all", limit, 2000 + 200 + 100 + MOST_BUFFERS * 1100)
    before = buffers_used()
    os.kill(pid(shard), signal.SIGSTOP)
    with outsiders(HELD // 10, 10, long):
        wait_until(lambda: counted("pdp", "FRONTEND", "scur") == HELD, "they aren't all there")
        time.sleep(1)
        found = buffers_used() - before
    os.kill(pid(shard), signal.SIGCONT)
    checks.say(f"{HELD} messages hold {found} buffers")
    checks.within(f"buffers of {HELD} messages", found, range(HELD // 2, MOST_BUFFERS * HELD + 1))
    wait_until(lambda: decision(once(ask)) == "Permit", "the shard isn't there")
    sh("sv up pdpd-watchdog")


ATTACKS = (proxy_user, versions, unrepeated, frames, buffers)
