"""The enforcement points of clients/ before a server that tells what came through: the real nginx and HAProxy."""
import contextlib
import json
import os
import pathlib
import re
import shutil
import signal
import socket
import subprocess
import tempfile

from serving import free_port

from .servers import Relay, Scripted, until, whole
from .shared import ASKS, TOP, Acme, expect, match, policy_of, rule, untried

MODULE = "/usr/lib/nginx/modules/ngx_http_js_module.so"
PATIENCE = 60
LOG, MARK = "urn:example:log", "urn:example:mark"
OPEN = ("/open/x", "/open/", "/open/x/y", "/open/a b", "/open/é", "/open/x,y=z@(1)", "/open")
NGINX = """
load_module {module};
{user}daemon off; worker_processes 1; pid {made}/pid; error_log {made}/error.log info;
events {{ worker_connections 256; }}
http {{
    access_log {made}/access.log; client_body_temp_path {made}/1; proxy_temp_path {made}/2; fastcgi_temp_path {made}/3;
    uwsgi_temp_path {made}/4; scgi_temp_path {made}/5; large_client_header_buffers 4 16k;
    include {made}/conf/http.conf;
    server {{ listen 127.0.0.1:{port}; {more} include {made}/conf/server.conf; }}
    {tls}
}}
"""
NGINX_TLS = """server {{ listen 127.0.0.1:{port} ssl; ssl_certificate {made}/one.pem; ssl_certificate_key {made}/one.key;
    ssl_client_certificate {made}/one.pem; ssl_verify_client optional; include {made}/conf/server.conf; }}"""
HAPROXY = """
global
    log stdout format raw local0 info
    nbthread 2
frontend web
    mode http
    log global
    option httplog
    timeout client 30s
    bind 127.0.0.1:{port}
    {tls}
    default_backend pdp-protected
"""
# (it also lets certificates through that nobody trusts)
HAPROXY_TLS = ("bind 127.0.0.1:{port} ssl crt {made}/both.pem ca-file {made}/one.pem verify optional "
               "ca-ignore-err all crt-ignore-err all")


def told(connection, server):
    """Tells the message that came, as the body of a reply."""
    head = server.here.message.decode("latin-1").partition("\r\n\r\n")[0].split("\r\n")
    connection.sendall(whole({"Path": head[0].split(" ")[1], "Method": head[0].split(" ")[0],
                              "Fields": [line.lower() for line in head[1:]]}))


class Guarded:
    """A proxy with its enforcement point before a server that tells what came through."""

    name, lacks = "", ""

    def __init__(self, pdp, echo, made, tls=False, **mapped):
        self.made, self.tls = pathlib.Path(made), tls
        (self.made / "token").write_text(ASKS + "\n")
        mapping = {"Server": pdp, "Domain": "acme", "TokenFile": f"{made}/token", "Protects": echo.url,
                   "Location": "/",
                   "Subject": {"Header": "X-User", "FromAddress": ["127.0.0.1"]}, "Delete": ["X-Remote-User"],
                   "Action": {"GET": "read", "HEAD": "read", "POST": "write"},
                   "Obligations": {LOG: {"Log": f"{made}/log"},
                                   MARK: {"Header": "X-Mark", "Value": "urn:example:who"}}}
        (self.made / "map.json").write_text(json.dumps({**mapping, **mapped}))
        tool = TOP / "clients" / self.name / f"pdp-{self.name}"
        ran = subprocess.run([tool, "write", self.made / "map.json", self.made / "conf"], capture_output=True,
                             text=True, check=False)
        expect(f"the mapping file is right: {ran.stdout}{ran.stderr}", ran.returncode, 0)

    def words(self):
        """The command, once its configuration is written for the ports."""
        raise NotImplementedError

    def starts(self):
        """Starts the proxy on ports that are free; whether it listens."""
        self.port, self.tls_port = free_port(), free_port()
        words = self.words()
        with open(self.made / "said", "ab") as said:
            self.process = subprocess.Popen(words, stdin=subprocess.DEVNULL, stdout=said, stderr=said,
                                            start_new_session=True)
        return until(lambda: self.process.poll() is not None or self.is_open(),
                     PATIENCE) and self.process.poll() is None

    def __enter__(self):
        # another process may take a port that was free a moment ago
        listens = any(self.starts() for _ in range(5))
        expect(f"{self.name} starts: {(self.made / 'said').read_text()}", listens, True)
        return self

    def is_open(self):
        with contextlib.suppress(OSError), socket.create_connection(("127.0.0.1", self.port), 1):
            return True
        return False

    def __exit__(self, *_):
        with contextlib.suppress(ProcessLookupError):
            os.killpg(self.process.pid, signal.SIGTERM)
        try:
            self.process.wait(10)
        except subprocess.TimeoutExpired:
            os.killpg(self.process.pid, signal.SIGKILL)
            self.process.wait(PATIENCE)

    def logs(self):
        """All that was logged."""
        return "".join(path.read_text(errors="replace") for path in self.made.iterdir()
                       if path.name in ("error.log", "access.log", "said"))

    def sent(self, target, *fields, method="GET", body=b"", user="ann", tls=None):
        """The status of a reply, its head, and its body."""
        lines = [f"{method} {target} HTTP/1.1", "Host: app.example",
                 *([] if any(each.lower().startswith("connection:") for each in fields) else ["Connection: close"]),
                 *([f"X-User: {user}"] if user else []), *fields]
        lines += [f"Content-Length: {len(body)}"] if body else []
        with socket.create_connection(("127.0.0.1", self.tls_port if tls else self.port), PATIENCE) as plain:
            with tls.wrap_socket(plain) if tls else plain as connection:
                with contextlib.suppress(ConnectionError):  # (what is refused may not be read)
                    connection.sendall("\r\n".join([*lines, "\r\n"]).encode("utf-8", "surrogateescape") + body)
                held = b""
                with contextlib.suppress(ConnectionError):
                    while data := connection.recv(65_536):
                        held += data
        head, _, rest = held.partition(b"\r\n\r\n")
        return int((re.match(rb"HTTP/1\.1 (\d+)", head) or [0, 0])[1]), head.decode("latin-1"), rest


class Nginx(Guarded):
    name, lacks = "nginx", "nginx and njs (apt-get install nginx libnginx-mod-http-js)"
    more = ""  # that stands in the server beside what is included

    @staticmethod
    def is_there():
        return bool(shutil.which("nginx")) and os.path.exists(MODULE)

    def words(self):
        user = "user root;\n" if os.getuid() == 0 else ""
        tls = NGINX_TLS.format(made=self.made, port=self.tls_port) if self.tls else ""
        (self.made / "nginx.conf").write_text(
            NGINX.format(module=MODULE, made=self.made, port=self.port, user=user, tls=tls, more=self.more))
        return ["nginx", "-p", self.made, "-c", self.made / "nginx.conf", "-e", "stderr"]


class Haproxy(Guarded):
    name, lacks = "haproxy", "HAProxy (apt-get install haproxy)"

    @staticmethod
    def is_there():
        return bool(shutil.which("haproxy"))

    def words(self):
        more = HAPROXY_TLS.format(made=self.made, port=self.tls_port) if self.tls else ""
        if self.tls:
            (self.made / "both.pem").write_text("".join((self.made / f"one.{end}").read_text()
                                                        for end in ("pem", "key")))
        (self.made / "haproxy.cfg").write_text(HAPROXY.format(port=self.port, tls=more))
        return ["haproxy", "-db", "-f", self.made / "haproxy.cfg", "-f", self.made / "conf" / "pdp.cfg"]


def points(*some):
    """The proxies that are there, all or some of them; those that aren't are told."""
    for point in some or (Nginx, Haproxy):
        if point.is_there():
            yield point
        elif point.lacks not in untried:
            untried.append(point.lacks)


def reads(*users, obligations=()):
    """A policy by which these read under /open."""
    starts = "urn:oasis:names:tc:xacml:3.0:function:string-starts-with"
    under = {**match("Resource", "/open"), "MatchId": starts}
    return policy_of("1.0",
                     *(rule(user, match("AccessSubject", user), under, match("Action", "read")) for user in users),
                     obligations=obligations)


@contextlib.contextmanager
def ready(point, document, keep=0, **mapped):
    """The real program that decides by a policy, a proxy before it, and the server that it protects."""
    with tempfile.TemporaryDirectory() as made, Acme() as acme, Relay(acme.served.port) as relay, \
            Scripted(told) as echo:
        acme.decides_by(document)
        with point(relay.url, echo, made, KeptConnections=keep, **mapped) as guarded:
            yield guarded, echo, relay, acme
