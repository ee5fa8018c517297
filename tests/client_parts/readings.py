"""Guards by requests that an application may read otherwise than they do: the recipes for Python's web applications by
some 400 paths, and all of them by other methods than that of the request line."""
import asyncio
import contextlib
import gzip
import json
import os
import socket
import subprocess
import sys
import threading
import time
import urllib.parse
from wsgiref.simple_server import WSGIRequestHandler, make_server

from .guarded import Haproxy, Nginx, points, reads, ready
from .odd_targets import READINGS, REFUSED_TARGETS, odd_targets
from .recipes import flask_elsewhere
from .servers import starts_http2
from .shared import TOP, Acme, expect

import pdp_guards  # noqa: E402, found by shared

SECONDS = 60
URLENCODED, BOUNDARY = "application/x-www-form-urlencoded", "b-1"
MULTIPART = f"multipart/form-data; boundary={BOUNDARY}"
# queries, and forms that are written as one, by which some framework takes another method (Rails and Flask's recipe:
# _method; Symfony: _method; by PHP's rules a dot or a space is an underscore)
NAMED = ("_method=PUT", "a=1&_method=DELETE", "_METHOD=PUT", "a;_method=PUT", "%5fmethod=PUT", "%5F%6d%45thod=PUT",
         "_method[]=PUT", "+_method=PUT", "%20_method=PUT", "a=b?_method=PUT", ".method=PUT", "a[_method]=PUT",
         "a%5B%5Fmethod%5d=PUT", "a[b][_method]=PUT", "X-HTTP-Method-Override=PUT", "a=1&x-http-method%2doverride=PUT",
         "x_http_method=PUT", "X-Method-Override=PUT", "_method", "%5F%4DETHOD=PUT", "%20%20+_method=PUT",
         "+" * 60 + "_method=PUT", "%u005fmethod=PUT", "a=1&%U0058-HTTP-Method-Override=PUT", "%u005b_method=PUT")
# the same in the head of a part of a form, as readers of RFC 2045 to 2047, 2231 and 7578 may have it
HEADS = ('name="_method"', "name=_method", "name='_method'", 'NAME = "_Method"', "name*=utf-8''%5Fmethod",
         'name*0="_me"; name*1="thod"', 'name="%5fmethod"', 'name="\\_method"', 'filename="x"; name="_method"',
         'name="a[_method]"', '\r\n name="_method"', '\r\n\tname="_method"', 'name="=?utf-8?q?=5fmethod?="',
         'name="a"; name="_method"', 'name="X-HTTP-Method-Override"', f'filename="{"a" * 2100}"; name="_method"')
# what names no other method
PLAIN = ("", "a=1&b=2", "method=PUT", "a=_method", "a=x%26_method=y", "payment_method=card", "text=And;+so+on",
         "q=which+method", "note=a%3B%20method")
PLAIN_HEADS = ('name="a"', 'name="method"', 'name="payment_method"', 'name="f"; filename="_method.txt"',
               "name=\"f\"; filename*=utf-8''_method.txt", 'name="f"; filename="a\\\\b"')
FIELDS = ("X-HTTP-Method-Override: PUT", "X-HTTP-Method: PUT", "X-Method-Override: PUT", "x_http_method_override: PUT",
          "X-Original-URL: /closed", "X-Rewrite-URL: /closed", "Script-Name: /open", "SCRIPT_NAME: /open",
          "X-Script-Name: /open",
          "Upgrade: websocket", "Upgrade: h2c", "HTTP2-Settings: x")
METHODS = ("get", "Get", "gET", "G-ET")


def in_parts(head, value="PUT", end="\r\n"):
    """A form of one part with such a head, and another that nobody minds."""
    lines = [f"--{BOUNDARY}", 'Content-Disposition: form-data; name="z"', "", "1", f"--{BOUNDARY}",
             f"Content-Disposition: form-data; {head}", "", value, f"--{BOUNDARY}--", ""]
    return end.join(lines).encode()


class Quiet(WSGIRequestHandler):
    """Tells the path as it came and each field, as gunicorn does, and no type of a body that has none."""

    def get_environ(self):
        fields = {f"HTTP_{name.upper().replace('-', '_')}": value for name, value in self.headers.items()}
        return {**fields, **super().get_environ(), "RAW_URI": self.path,
                "CONTENT_TYPE": self.headers.get("Content-Type") or ""}

    def log_message(self, *_):
        pass


class Wsgi:
    """An application of WSGI on a socket, of the standard library's server."""

    def __init__(self, application):
        self.server = make_server("127.0.0.1", 0, application, handler_class=Quiet)
        self.thread = threading.Thread(target=self.server.serve_forever, args=(0.05, ), daemon=True)
        self.thread.start()

    def __enter__(self):
        return self

    def __exit__(self, *_):
        self.server.shutdown()
        self.server.server_close()
        self.thread.join(SECONDS)

    def sent(self, target, *fields, method="GET", body=b"", kind=""):
        """The status of a reply."""
        lines = [f"{method} {target} HTTP/1.0", "Host: app.example", *fields,
                 *([f"Content-Type: {kind}"] if kind else []), *([f"Content-Length: {len(body)}"] if body else [])]
        held = b""
        with socket.create_connection(self.server.server_address, SECONDS) as connection:
            with contextlib.suppress(OSError):  # (what is refused isn't read)
                connection.sendall("\r\n".join([*lines, "\r\n"]).encode("utf-8", "surrogateescape") + body)
                connection.shutdown(socket.SHUT_WR)
            with contextlib.suppress(ConnectionError):
                while data := connection.recv(65_536):
                    held += data
        return int(held.split(b" ")[1]) if held.startswith(b"HTTP/") else 0


class Asgi:
    """An application of ASGI, which gets a request as servers of ASGI 3.0 give it one (its HTTP specification)."""

    def __init__(self, application):
        self.application = application

    def __enter__(self):
        return self

    def __exit__(self, *_):
        pass

    def sent(self, target, *fields, method="GET", body=b"", kind="", is_gone=False):
        """The status of a reply, also to a client that is gone before its body has come."""
        raw, _, query = target.encode("utf-8", "surrogateescape").partition(b"?")
        named = [*(field.partition(": ")[::2] for field in fields), *([("Content-Type", kind)] if kind else [])]
        scope = {"type": "http", "method": method, "raw_path": raw, "query_string": query, "root_path": "",
                 "path": urllib.parse.unquote_to_bytes(raw).decode("utf-8", "replace"),
                 "headers": [(name.lower().encode(), value.encode()) for name, value in named]}
        # (as a body may come: in pieces)
        events = [{"type": "http.request", "body": body[:7], "more_body": True},
                  {"type": "http.request", "body": body[7:], "more_body": False}][:0 if is_gone else 2]
        said = []

        async def receive():
            return events.pop(0) if events else {"type": "http.disconnect"}

        async def send(event):
            said.append(event.get("status"))
        asyncio.run(self.application(scope, receive, send))
        return said[0]


class Arrived:
    """Applications that tell what arrives: the path as it was decoded, as it came, and the body."""

    def __init__(self):
        self.paths, self.bodies = [], []

    def wsgi(self, environ, start_response):
        path = (environ["SCRIPT_NAME"] + environ["PATH_INFO"]).encode("latin-1").decode("utf-8", "surrogateescape")
        self.paths += [path, environ["RAW_URI"].partition("?")[0]]
        self.bodies.append(environ["wsgi.input"].read(int(environ.get("CONTENT_LENGTH") or 0)))
        start_response("200 OK", [])
        return [b""]

    async def asgi(self, scope, receive, send):
        self.paths += [scope["path"], scope["raw_path"].decode("latin-1")]
        held, is_whole = b"", False
        while not is_whole:
            event = await receive()
            held, is_whole = held + event["body"], not event["more_body"]
        self.bodies.append(held)
        await send({"type": "http.response.start", "status": 200, "headers": []})


def guards(domain):
    """Each guard of a whole application, and what arrives there."""
    for name, guard, server in (("WSGI", pdp_guards.GuardedWSGI, Wsgi), ("ASGI", pdp_guards.GuardedASGI, Asgi)):
        arrived = Arrived()
        with server(guard(getattr(arrived, name.lower()), domain, {}, lambda _: "ann")) as served:
            yield name, served, arrived


def permits(acme, name, paths):
    """What arrived is permitted, however it is read."""
    asked = sorted({each(path) for path in paths for each in (*READINGS, str)})
    found = acme.domain().decide_many([{"subject": "ann", "resource": path.encode("utf-8", "replace").decode(),
                                        "action": "GET"} for path in asked])
    expect(f"{name}: what arrived is permitted, however it is read",
           [path for path, decision in zip(asked, found) if not decision], [])


def open_paths():
    """A policy that lets ann GET what is under /open."""
    return json.loads(json.dumps(reads("ann")).replace('"read"', '"GET"'))


def odd_paths():
    """Some 400 odd paths at the middleware: what arrives is permitted, however it is read."""
    targets = list(dict.fromkeys(odd_targets()))
    expect("how many there are", len(targets) >= 300, True)
    with Acme() as acme:
        acme.decides_by(open_paths())
        for name, served, arrived in guards(acme.domain()):
            for target in ("/open/x", "/open/%C3%A9", "/open/a%20b", "/open/x,y=z@(1)", "/open/x?q=/../x"):
                expect(f"{name}: {target}", served.sent(target), 200)
            statuses = [served.sent(target) for target in targets]
            expect(f"{name}: most are refused with 400, not {sorted(set(statuses))}", statuses.count(400) > 250, True)
            expect(f"{name}: as many arrive as are answered with 200", len(arrived.bodies), 5 + statuses.count(200))
            taken = [target for target in REFUSED_TARGETS if served.sent(target) != 400]
            expect(f"{name}: targets that are refused", taken, [])
            permits(acme, name, arrived.paths)


def odd_methods():
    """What names another method is refused, wherever it stands, and a form arrives as it was sent."""
    sys.path.insert(1, str(TOP / "clients"))
    import mapping
    expect("each guard refuses the same fields", set(pdp_guards.OVERRIDES), set(mapping.REFUSED))
    with Acme() as acme:
        acme.decides_by(open_paths())
        for name, served, arrived in guards(acme.domain()):
            for query in NAMED:
                expect(f"{name}: {query}", served.sent(f"/open/x?{query}"), 400)
            for field in FIELDS:
                expect(f"{name}: {field}", served.sent("/open/x", field), 400)
            for method in METHODS:
                expect(f"{name}: {method}", served.sent("/open/x", method=method), 400)
            forms_of(name, served, pdp_guards.MOST_FORM)
            if name == "ASGI":
                expect("a form that doesn't come", served.sent("/open/x", kind=URLENCODED, is_gone=True), 400)
            expect(f"{name}: none of them arrived", arrived.paths, [])
            bodies = plain_bodies(pdp_guards.MOST_FORM, 1 << 21)
            for kind, body in bodies:
                expect(f"{name}: {kind} {body[:80]!r}", served.sent("/open/x", body=body, kind=kind), 200)
            expect(f"{name}: they arrive as they were sent", arrived.bodies, [body for _, body in bodies])
            for query in PLAIN:
                expect(f"{name}: {query!r}", served.sent(f"/open/x?{query}"), 200)


def plain_bodies(most_form, most):
    """What is let through, each with its type: forms up to a length, and a longer body that isn't one."""
    return [*((URLENCODED, form.encode()) for form in PLAIN), *((MULTIPART, in_parts(head)) for head in PLAIN_HEADS),
            ("application/json", b'"_method=PUT"'), ("", b"a=1"), (f"{URLENCODED}; charset=UTF-8", b"a=1"),
            ("application/octet-stream", b"&_method=" * (most // 9)), (URLENCODED, b"a" * most_form),
            (MULTIPART, in_parts('name="f"; filename="x"', "\xff\xc3\0" * (most_form // 8)))]


def forms_of(name, served, most):
    """Forms that are refused, also for their length."""
    for kind in (URLENCODED, "", f"{URLENCODED.upper()} ; charset=utf-8", "application/x-url-encoded"):
        for form in NAMED:
            expect(f"{name}: {kind} {form}", served.sent("/open/x", body=form.encode(), kind=kind), 400)
    for end in ("\r\n", "\n"):
        for head in HEADS:
            expect(f"{name}: {head!r}", served.sent("/open/x", body=in_parts(head, end=end), kind=MULTIPART), 400)
    for before in (b"\xc3", b"\xe2\x80", b"\xf0\x9f\x98"):
        expect(f"{name}: behind half a letter", served.sent("/open/x", body=b"a=" + before + b"&_method=PUT",
                                                            kind=URLENCODED), 400)
    for kind, form in ((URLENCODED, b"_method=PUT"), (MULTIPART, in_parts('name="_method"')), ("", b"_method=PUT")):
        expect(f"{name}: a form of {kind} that is packed",
               served.sent("/open/x", "Content-Encoding: gzip", body=gzip.compress(form), kind=kind), 400)
    expect(f"{name}: letters in which a method is written otherwise",
           served.sent("/open/x", body=b"a=1", kind=f"{URLENCODED}; charset=utf-16"), 400)
    for kind, size, wanted in ((URLENCODED, most + 1, 413), (MULTIPART, most + 9, 413), ("", most + 1, 413)):
        expect(f"{name}: {kind} of {size} bytes", served.sent("/open/x", body=b"a" * size, kind=kind), wanted)
    if name == "WSGI":
        for fields, body in ((("Transfer-Encoding: chunked", ), b""), (("Transfer-Encoding: chunked", ), b"a=1"),
                             (("Content-Length: 9", ), b""), (("Content-Length: x", ), b"")):
            expect(f"a form whose length isn't told, or that isn't there: {fields}",
                   served.sent("/open/x", *fields, body=body, kind=URLENCODED), 400)


# forms that would take long to look at, if each place in them were tried with each other one
LONG = {URLENCODED: (b"&" + b" " * 900_000, b"[" * 900_000, b"&" + b"%20" * 300_000),
        MULTIPART: (b"content-disposition: " + b" name=" * 150_000, b"content-disposition: " + b"\r\n " * 300_000,
                    b"content-disposition: name=a\r\n" * 30_000, b"content-disposition: name=" + b" " * 900_000)}


class AtPoint:
    """An enforcement point, asked as applications are here."""

    def __init__(self, guarded):
        self.guarded = guarded

    def sent(self, target, *fields, body=b"", kind=""):
        """The status of a reply."""
        named = [f"Content-Type: {kind}"] if kind else []
        return self.guarded.sent(target, *named, *fields, method="POST", body=body)[0]


class LargeNginx(Nginx):
    """It takes forms that are too long, and HTTP/2 at another port."""

    def words(self):
        self.more = f"client_max_body_size 4m; listen 127.0.0.1:{self.tls_port} http2;"
        return super().words()


class SecondHaproxy(Haproxy):
    """It takes HTTP/2 at another port."""

    def words(self):
        words, file = super().words(), self.made / "haproxy.cfg"
        second = f"    bind 127.0.0.1:{self.tls_port} proto h2\n    bind"
        file.write_text(file.read_text().replace("    bind", second, 1))
        return words


def odd_forms():
    """Forms that name another method, at nginx and HAProxy."""
    actions = {"GET": "read", "POST": "read"}
    for point, most in ((LargeNginx, 1 << 20), (SecondHaproxy, 12_000)):
        for held in points(point):
            with ready(held, reads("ann"), Action=actions) as (guarded, echo, _, _):
                served = AtPoint(guarded)
                forms_of(held.name, served, 3 << 20)
                expect(f"{held.name}: none of them arrived", echo.messages, [])
                bodies = plain_bodies(most, 1 << 21)
                for kind, body in bodies:
                    expect(f"{held.name}: {kind} {body[:80]!r}", served.sent("/open/x", body=body, kind=kind), 200)
                arrived = [message.partition(b"\r\n\r\n")[2] for message in echo.messages]
                expect(f"{held.name}: they arrive as they were sent", arrived == [body for _, body in bodies], True)
                expect(f"{held.name}: without a body",
                       [guarded.sent("/open/x", *fields, method="POST")[0] for fields in ((), ("Content-Length: 0",))],
                       [200, 200])
                come_late(guarded)
                over_http2(guarded)
                addressed(guarded, echo)
                statuses = {served.sent("/open/x", body=body, kind=kind) for kind in LONG for body in LONG[kind]}
                expect(f"{held.name}: long ones are answered, and too many parts are refused: {statuses}",
                       {413} <= statuses <= {200, 400, 413}, True)
            with ready(held, reads("ann"), Action=actions, Forms=False) as (guarded, *_):
                expect(f"{held.name}: if no form is to be looked at",
                       AtPoint(guarded).sent("/open/x", body=b"_method=PUT", kind=URLENCODED), 200)


def come_late(guarded):
    """Forms whose parts come one after another."""
    for form, wanted in ((b"a=1&b=2", b" 200 "), (b"a=1&_method=PUT", b" 400 ")):
        head = (f"POST /open/x HTTP/1.1\r\nHost: app.example\r\nConnection: close\r\nX-User: ann\r\n"
                f"Content-Type: {URLENCODED}\r\nContent-Length: {len(form)}\r\n\r\n")
        with socket.create_connection(("127.0.0.1", guarded.port), SECONDS) as connection:
            for part in (head.encode(), form[:5], form[5:]):
                connection.sendall(part)
                time.sleep(0.3)
            expect(f"{guarded.name}: {form!r} in parts", wanted in connection.recv(65_536).partition(b"\r\n")[0], True)


def over_http2(guarded):
    """Forms over HTTP/2, whose length isn't told: HAProxy can't know that it has all of one."""
    nginx = guarded.name == "nginx"
    for form, wanted in ((b"a=1", 200 if nginx else 413), (b"a=1&_method=PUT", 400 if nginx else 413)):
        ran = subprocess.run(
            ["curl", "--silent", "--http2-prior-knowledge", "--max-time", str(SECONDS), "-X", "POST", "-T", "-", "-H",
             f"Content-Type: {URLENCODED}", "-H", "X-User: ann", "-o", os.devnull, "-w", "%{http_code} %{http_version}",
             f"http://127.0.0.1:{guarded.tls_port}/open/x"], input=form, capture_output=True, check=False)
        expect(f"{guarded.name}: {form!r} over HTTP/2", ran.stdout, f"{wanted} 2".encode())


def addressed(guarded, echo):
    """HTTP/2 tells scheme, host and path apart, and HAProxy makes an address of them, as which it may go on: what
    arrives is a path."""
    for scheme, host in (("http", "app.example:80"), ("http", "[::1]"), ("x", "app.example"), ("x", "a/closed"),
                         ("http", "a/closed?"), ("x://a/closed?", "a")):
        before = len(echo.messages)
        starts_http2(guarded.tls_port, (":method", "GET"), (":scheme", scheme), (":authority", host),
                     (":path", "/open/x"), ("x-user", "ann"))
        arrived = [message.split(b" ")[1] for message in echo.messages[before:]]
        wanted = [[b"/open/x"]] if len(scheme) > 1 and "/" not in scheme + host else [[], [b"/open/x"]]
        expect(f"{guarded.name}: {scheme} of {host} over HTTP/2: {arrived}", arrived in wanted, True)


def flask_readings():
    """The same at the decorator: the view that runs is what was asked about, and finds no other method in its form."""
    try:
        import flask
    except ImportError:
        return flask_elsewhere("flask_readings")
    app, paths, names = flask.Flask("tried"), [], []
    with Acme() as acme:
        acme.decides_by(open_paths())
        guard = pdp_guards.Guard(acme.domain(), {}, lambda: "ann", flask.abort, lambda: flask.request)

        def shown(folder, rest):
            paths.append(f"/{folder}/{rest}")
            names.extend(map(str, [*flask.request.args, *flask.request.form, *flask.request.files]))
            return ""
        for folder in ("open", "closed"):
            view = guard("GET", lambda rest, folder=folder: f"/{folder}/{rest}")(
                lambda rest, folder=folder: shown(folder, rest))
            app.add_url_rule(f"/{folder}/<path:rest>", folder, view, methods=["GET", "POST"])
        with Wsgi(app) as served:
            statuses = [served.sent(target) for target in dict.fromkeys(odd_targets())]
            expect(f"Flask: few are answered with 200: {sorted(set(statuses))}", statuses.count(200) < 100, True)
            expect("Flask: as many views run", len(paths), statuses.count(200))
            permits(acme, "Flask", paths)
            flask_forms(served, names)
    return None


def flask_forms(served, names):
    for field in FIELDS:
        expect(f"Flask: {field}", served.sent("/open/x", field), 400)
    for query in NAMED:
        expect(f"Flask: {query}", served.sent(f"/open/x?{query}", method="POST"), 400)
    for kind, body in (*((URLENCODED, form.encode()) for form in NAMED),
                       *((MULTIPART, in_parts(head)) for head in HEADS)):
        status = served.sent("/open/x", method="POST", body=body, kind=kind)
        expect(f"Flask: {body!r}: {status}", status in (200, 400), True)
    found = [name for name in names if name.lower() in ("_method", "_method[]", "a[_method]", "a[b][_method]")
             or name.lower().startswith("x-")]
    expect("Flask: no view has found another method", found, [])
    for kind, body in (*((URLENCODED, form.encode()) for form in PLAIN),
                       *((MULTIPART, in_parts(head)) for head in PLAIN_HEADS)):
        expect(f"Flask: {body!r}", served.sent("/open/x", method="POST", body=body, kind=kind), 200)
