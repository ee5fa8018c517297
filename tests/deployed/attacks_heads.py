"""What an outsider sends that no shard may get, and how he comes in where other machines do."""
import contextlib
import os
import re
import socket
import ssl
import subprocess

from . import slowness
from .attacking import InPlace, Outsider, outside
from .clients import decision, once, status
from .http2 import ENDS_HEADERS, ENDS_STREAM, HEADERS, MOST_OF_A_FRAME, Http2, frame, literal
from .machine import PLAIN, sh, wait_until

CONTINUATION = 9
LONG = b"A" * 17_000
# Heads of HTTP/2 that pdpd would end its connection behind, as their pseudo-fields differ from those of a message, and
# what they are answered with. (With another scheme than http the authority is a part of the target.)
UNLED = {
    "a target with bytes beyond ASCII": ({"query": b"?\xff"}, 400),
    "an authority with bytes beyond ASCII": ({"scheme": b"ftp", "authority": b"\xff"}, 400),
    "a long method": ({"method": LONG}, 431),
    "a websocket": ({"method": b"CONNECT", "protocol": b"websocket"}, 405),
}
MANY_TOKENS = b"GET /operator/domains HTTP/1.1\r\nHost: h\r\n" + b"Authorization: Bearer any-token-1\r\n" * 62 + b"\r\n"
OK = b"HTTP/1.1 200 OK\r\nContent-Type: application/json\r\nContent-Length: 2\r\n\r\n{}"


def by_http2(path, **more):
    """The status of a message with these pseudo-fields in place of its own; `query` stands behind its path."""
    path += more.pop("query", b"")
    pseudo = {"method": b"POST", "scheme": b"https", "path": path, "authority": b"localhost", **more}
    data = b"".join(literal(b":" + name.encode(), value) for name, value in pseudo.items())
    first, rest = data[:MOST_OF_A_FRAME], data[MOST_OF_A_FRAME:]
    parts = [frame(HEADERS, 0 if rest else ENDS_HEADERS, 1, first)]
    if rest:
        parts.append(frame(CONTINUATION, ENDS_HEADERS, 1, rest))
    with Http2(PLAIN, source=outside(0)) as client:
        client.socket.sendall(b"".join(parts))
        client.data(1, b"{}")
        return client.status(1)


def unled(machine, checks):
    """A head that pdpd would refuse goes to no shard: pdpd ends the connection behind it, and another tenant's message
    that was on its way there would be lost."""
    machine.operator.clear()
    name = next(f"u{number}" for number in range(99) if slowness.shard_of(f"u{number}") == "0")
    ask, path = machine.operator.makes(name), f"/domains/{name}/pdp".encode()
    sh("sv down pdpd-watchdog")  # (it would have nothing sent there)
    with InPlace(0, OK) as seen:
        checks.expect("what stands in the shard's place", (status(once(ask)), len(seen.messages)), (200, 1))
        seen.messages.clear()
        for what, (pseudo, wanted) in UNLED.items():
            checks.expect(f"HTTP/2, {what}", (by_http2(path, **pseudo), seen.messages), (wanted, []))
        for what, data, wanted in (("a long method", LONG + b" %b HTTP/1.1\r\nHost: h\r\n\r\n" % path, 431),
                                   ("a list by many tokens", MANY_TOKENS, 401)):
            with Outsider(0) as client:
                checks.expect(f"HTTP/1.1, {what}", (status(client.ask(data)), seen.messages), (wanted, []))
    sh("sv up pdpd-watchdog")
    wait_until(lambda: decision(once(ask)) == "Permit", "the shard isn't there again")


# ---- where other machines come in

MACHINES, GROUP_PORT, MOST = "a=127.0.0.1 b=127.0.8.1", 446, 50


@contextlib.contextmanager
def other_proxy(folder):
    """A HAProxy of one of two machines of a group, beside the one of this machine; gives the folder of certificates."""
    sh(f"mkdir -p {folder}/archives/map && pdpd-replicas certificates {folder}/made {MACHINES}")
    lines = {"HAPROXY_ETC": folder, "HAPROXY_RUN": folder, "ETCD_CERTIFICATES": folder / "made" / "a", "AUDIT": 1,
             "ARCHIVES": folder / "archives", "SELF": "a", "REPLICAS": MACHINES, "GROUP": "one", "TLS_BIND": "",
             "ALL_GROUPS": "one=127.0.0.1,127.0.8.1", "PLAIN_BIND": "127.0.0.1:81", "GROUP_PORT": GROUP_PORT,
             "OF_SOURCE": MOST, "HAPROXY_USER": ""}
    settings = folder / "shards.conf"
    settings.write_text("".join(f'{name}="{value}"\n' for name, value in lines.items()))
    sh("pdpd-shards config --write", env={**os.environ, "PDPD_SETTINGS": str(settings)})
    nothing = {"stdin": subprocess.DEVNULL, "stdout": subprocess.DEVNULL, "stderr": subprocess.DEVNULL}
    with subprocess.Popen(["haproxy", "-db", "-f", folder / "haproxy.cfg"], **nothing) as ran:
        try:
            wait_until(lambda: is_taken("127.0.0.1"), "HAProxy doesn't begin")
            yield folder / "made"
        finally:
            ran.kill()


def is_taken(source):
    """Whether a connection from an address to where machines come in is taken, and stays."""
    try:
        with socket.create_connection(("127.0.0.1", GROUP_PORT), 3, source_address=(source, 0)) as client:
            client.settimeout(0.5)
            return bool(client.recv(1))
    except TimeoutError:
        return True
    except OSError:
        return False


def machine_status(certificates):
    """The status of a reply to a machine's message."""
    context = ssl.create_default_context(cafile=str(certificates / "a" / "ca.crt"))
    context.load_cert_chain(certificates / "b" / "member.crt", certificates / "b" / "member.key")
    where = ("127.0.0.1", GROUP_PORT)
    with socket.create_connection(where, 10, source_address=("127.0.8.1", 0)) as plain:
        with context.wrap_socket(plain, server_hostname="127.0.0.1") as client:
            client.sendall(b"GET /health HTTP/1.1\r\nHost: h\r\n\r\n")
            return int(re.match(rb"HTTP/1\.1 (\d+)", client.recv(100))[1])


def strangers(machine, checks):
    """Where other machines come in, who shows no certificate has no more connections than OF_SOURCE, and a machine as
    many as it wants."""
    with other_proxy(machine.folder / "other") as certificates, contextlib.ExitStack() as held:
        checks.expect("a machine (its shards aren't there)", machine_status(certificates), 503)
        for _ in range(MOST):
            held.enter_context(socket.create_connection(("127.0.0.1", GROUP_PORT), 3, source_address=(outside(0), 0)))
        wait_until(lambda: not is_taken(outside(0)), "a stranger has more of them", 10)
        checks.expect("another one", is_taken(outside(1)), True)
        for _ in range(MOST):
            held.enter_context(socket.create_connection(("127.0.0.1", GROUP_PORT), 3, source_address=("127.0.8.1", 0)))
        checks.expect("a machine beside them", machine_status(certificates), 503)


ATTACKS = (unled, strangers)
