"""What docs/guide/CLIENTS.md shows beside the client: its types, the program in Java, middleware and a decorator."""
import asyncio
import logging
import os
import pathlib
import re
import shutil
import subprocess
import sys
import tempfile
import wsgiref.util

from .servers import Scripted, whole
from .shared import ASKS, PROGRAM, TOP, Acme, expect, match, policy_of, rule, untried

import pdp_guards  # noqa: E402, found by shared
from pdp_client import Domain  # noqa: E402

FOLDER = TOP / "clients"
SECONDS = 300
SYSTEM = pathlib.Path("/usr/bin/python3")
LOG = "urn:example:log"
XACML = b"urn:oasis:names:tc:xacml:1.0:"
logging.getLogger("pdp_guards").addHandler(logging.NullHandler())
# paths that an application may read as another one
ODD_PATHS = ["/open/../closed", "/open/./x", "/./open/x", "/open//x", "//open/x", "/open/x/..", "/open/.", "/open\\x",
             "/open/x;a=b", "/open/%2e%2e/closed", "/open/\x00", "/open/\n", "/open/\x7f", "open/x", ""]


def types():
    """The client, its recipes and the commands have complete types, for Python 3.9."""
    if not shutil.which("mypy"):
        return untried.append("types of the client (apt-get install mypy)")
    with tempfile.TemporaryDirectory() as made:
        for folder, names in (("python", ["pdp_client.py", "pdp_guards.py"]),
                              ("", ["mapping.py", "nginx/pdp-nginx", "haproxy/pdp-haproxy"])):
            words = ["mypy", "--strict", "--python-version", "3.9", "--cache-dir", made, "--scripts-are-modules"]
            ran = subprocess.run([*words, *names], cwd=FOLDER / folder, capture_output=True, text=True, check=False,
                                 timeout=SECONDS)
            expect(f"mypy --strict: {ran.stdout}{ran.stderr}", ran.returncode, 0)
    return None


def wheel():
    """What `make dist` packs of the client is installed by pip, which compares its sums."""
    sys.path.insert(1, str(TOP / "deploy"))
    from wheel import wheel as packed, wheel_name
    if subprocess.run([sys.executable, "-m", "pip", "--version"], capture_output=True, check=False).returncode:
        return untried.append("the wheel of the client (apt-get install python3-pip)")
    with tempfile.TemporaryDirectory() as made:
        path = pathlib.Path(made) / wheel_name("0.1")
        path.write_bytes(packed("0.1"))
        ran = subprocess.run([sys.executable, "-m", "pip", "install", "--no-index", "--no-deps", "--no-cache-dir",
                              "--disable-pip-version-check", "--target", f"{made}/there", path], text=True,
                             capture_output=True, check=False, timeout=SECONDS)
        expect(f"pip installs the wheel: {ran.stderr}", ran.returncode, 0)
        words = [sys.executable, "-B", "-c", "import pdp_client, pdp_guards; print(pdp_client.__file__)"]
        ran = subprocess.run(words, env={**os.environ, "PYTHONPATH": f"{made}/there"}, cwd=made, text=True,
                             capture_output=True, check=False, timeout=SECONDS)
        expect(f"and it is found there: {ran.stderr}", ran.stdout, f"{made}/there/pdp_client.py\n")
        expect("its bytes are always the same", packed("0.1") == path.read_bytes(), True)
    return None


def java():
    """The program in Java compiles without a warning, and grants only for Permit without obligations."""
    if not shutil.which("javac"):
        return untried.append("the program in Java (apt-get install default-jdk-headless)")
    with tempfile.TemporaryDirectory() as made, Acme() as acme:
        subprocess.run(["javac", "-Xlint:all", "-Werror", "-d", made, FOLDER / "java" / "Ask.java"], check=True,
                       timeout=SECONDS)

        def asks(url, *words, token=ASKS):
            ran = subprocess.run(["java", "-XX:TieredStopAtLevel=1", "-cp", made, "Ask", url, "acme", *words],
                                 env={**os.environ, "DALVEZOUR_TOKEN": token, "LC_ALL": "C.UTF-8"}, text=True,
                                 capture_output=True, check=False, timeout=SECONDS)
            return ran.returncode, ran.stdout.split("\n")[0]
        name = 'an "n" \\ \t é\U0001f511'
        acme.decides_by(policy_of("1.0", rule("r", match("AccessSubject", name), match("Resource", "r"),
                                              match("Action", "read"))))
        expect("Java grants", asks(acme.url, name, "r", "read"), (0, "granted"))
        status, said = asks(acme.url, "ben", "r", "read")
        expect(f"Java refuses Deny: {said}", (status, '"Deny"' in said), (1, True))
        expect("Java refuses another's token", asks(acme.url, name, "r", "read", token="another-token")[0], 1)
        exact = b'{"Response":[{"Decision":"Permit","Status":{"StatusCode":{"Value":"%sstatus:ok"}}}]}' % XACML
        for reply in (whole(exact.replace(b'"Permit",', b'"Permit","Obligations":[{"Id":"o"}],')),
                      whole(exact, "302 Found", ["Location: /"]), whole(exact, "503 Service Unavailable")):
            with Scripted(reply) as server:
                expect(f"Java refuses {reply[:60]!r}", (asks(server.url, name, "r", "read")[0], len(server.messages)),
                       (1, 1))
    return None


class Asked:
    """A domain that permits under /open and /logged, the latter with an obligation, and a handler that keeps those."""

    def __init__(self, acme):
        rules = [rule(f"r{place}", match("AccessSubject", "ann"), match("Resource", path), match("Action", "GET"))
                 for place, path in enumerate(("/open/x", "/logged/é", "/open/%2e", *ODD_PATHS))]
        acme.decides_by(policy_of("1.0", *rules, obligations=[(LOG, "Permit")]))
        self.domain, self.logged = acme.domain(), []
        self.handlers = {LOG: lambda each: self.logged.append(each.values("urn:example:who"))}
        self.down = Domain("http://127.0.0.1:9", "acme", ASKS)


def wsgi():
    """Middleware of WSGI: what isn't permitted doesn't arrive."""
    with Acme() as acme:
        asked, arrived = Asked(acme), []

        def application(environ, start_response):
            arrived.append(environ["PATH_INFO"])
            start_response("200 OK", [])
            return [b"there"]

        def sent(path, user="ann", domain=asked.domain, handlers=asked.handlers, **more):
            environ, said = {"PATH_INFO": path, "SCRIPT_NAME": "", "REMOTE_USER": user, **more}, []
            wsgiref.util.setup_testing_defaults(environ)
            before = len(arrived)
            guarded = pdp_guards.GuardedWSGI(application, domain, handlers, lambda held: held["REMOTE_USER"])
            b"".join(guarded(environ, lambda status, fields: said.append(int(status[:3]))))
            return said[0], len(arrived) - before
        expect("a permitted one", (sent("/open/x"), asked.logged), ((200, 1), [["ann"]]))
        expect("a path in two parts", sent("/x", SCRIPT_NAME="/open"), (200, 1))
        expect("a path that isn't ASCII", sent("/logged/é".encode().decode("latin-1")), (200, 1))
        for what, found, wanted in (
                ("another path", sent("/closed"), 403), ("another user", sent("/open/x", "ben"), 403),
                ("another method", sent("/open/x", REQUEST_METHOD="PUT"), 403), ("nobody", sent("/open/x", None), 403),
                ("no handler", sent("/open/x", handlers={}), 403),
                ("no server", sent("/open/x", domain=asked.down), 503),
                ("no UTF-8", sent("/open/\xff"), 400),
                ("another method by a field", sent("/open/x", HTTP_X_HTTP_METHOD_OVERRIDE="PUT"), 400),
                # (as gunicorn gives the application GET /closed/open/x with the field SCRIPT_NAME: /open)
                ("another path by a field", sent("/x", SCRIPT_NAME="/open", HTTP_SCRIPT_NAME="/open"), 400),
                *((f"{path!r}", sent(path), 400) for path in ODD_PATHS)):
            expect(f"WSGI: {what}", found, (wanted, 0))


def asgi():
    """Middleware of ASGI."""
    with Acme() as acme:
        asked, arrived = Asked(acme), []

        async def application(scope, receive, send):
            arrived.append(scope["type"])
            if scope["type"] == "http":
                await send({"type": "http.response.start", "status": 200, "headers": []})

        def sent(path="/open/x", user="ann", domain=asked.domain, handlers=asked.handlers, **more):
            said, before = [], len(arrived)
            scope = {"type": "http", "method": "GET", "path": path, "headers": [], "user": user, **more}

            async def receive():
                return {"type": "http.request", "body": b"", "more_body": False}

            async def send(event):
                said.append(event.get("status", event["type"]))
            guarded = pdp_guards.GuardedASGI(application, domain, handlers, lambda held: held["user"])
            asyncio.run(guarded(scope, receive, send))
            return [*said, None][0], len(arrived) - before
        expect("ASGI: a permitted one", (sent(), asked.logged), ((200, 1), [["ann"]]))
        expect("ASGI: its life", sent(type="lifespan"), (None, 1))
        for what, found, wanted in (
                ("another path", sent("/closed"), 403), ("another user", sent(user="ben"), 403),
                ("another method", sent(method="PUT"), 403), ("nobody", sent(user=None), 403),
                ("no handler", sent(handlers={}), 403), ("no server", sent(domain=asked.down), 503),
                ("a web socket", sent(type="websocket"), "websocket.close"),
                ("unknown", sent(type="x"), "websocket.close"),
                ("another method by a field", sent(headers=[(b"X-HTTP-Method-Override", b"PUT")]), 400),
                ("by an underscore", sent(headers=[(b"x_http_method_override", b"PUT")]), 400),
                ("another path by a field", sent(headers=[(b"script_name", b"/open")]), 400),
                ("a slash that was decoded", sent(raw_path=b"/open%2Fx"), 400),
                ("a dot", sent(raw_path=b"/op%2en/x"), 400),
                *((f"{path!r}", sent(path), 400) for path in ODD_PATHS)):
            expect(f"ASGI: {what}", found, (wanted, 0))


def flask_elsewhere(part):
    """A part by the system's Python, if that one has Flask."""
    is_other = SYSTEM.exists() and SYSTEM.resolve() != pathlib.Path(sys.executable).resolve()
    if not is_other or subprocess.run([SYSTEM, "-c", "import flask"], capture_output=True, check=False).returncode:
        lacks = "the decorator of Flask's views (apt-get install python3-flask)"
        return None if lacks in untried else untried.append(lacks)
    ran = subprocess.run([SYSTEM, TOP / "tests" / "client.py", "--whole", PROGRAM, part], text=True,
                         capture_output=True, check=False, timeout=SECONDS)
    return expect(f"{part}, by the system's Python: {ran.stdout}{ran.stderr}", ran.returncode, 0)


def flask_views():
    """A decorator of Flask's views."""
    try:
        import flask
    except ImportError:
        return flask_elsewhere("flask_views")
    with Acme() as acme:
        acme.decides_by(policy_of("1.0", rule("r", match("AccessSubject", "ann"), match("Resource", "7"),
                                              match("Resource", "record", "urn:example:kind"),
                                              match("Action", "read"))))
        app = flask.Flask("tried")
        guard = pdp_guards.Guard(acme.domain(), {}, lambda: flask.request.headers.get("User"), flask.abort,
                                 lambda: flask.request)

        @app.get("/records/<record>")
        @guard("read", lambda record: {"id": record, "urn:example:kind": "record"})
        def shown(record):
            return f"the record {record}"

        @app.delete("/records/<record>")
        @guard("delete", lambda record: {"id": record, "urn:example:kind": "record"})
        def dropped(record):
            return f"no record {record}"
        client = app.test_client()
        for method, path, user, wanted in (("get", "/records/7", "ann", 200), ("get", "/records/8", "ann", 403),
                                           ("get", "/records/7", "ben", 403), ("delete", "/records/7", "ann", 403)):
            reply = getattr(client, method)(path, headers={"User": user})
            expect(f"Flask: {method} {path} by {user}", (reply.status_code, b"the record" in reply.data),
                   (wanted, wanted == 200))
        expect("Flask: nobody", client.get("/records/7").status_code, 403)
    return None


def page():
    """The Python of the page runs as it stands, beside a server that has what it says."""
    text = (TOP / "docs" / "guide" / "CLIENTS.md").read_text(encoding="utf-8")
    blocks = re.findall(r"(?ms)^```python\n(.*?)^```$", text)
    expect("the page has code", len(blocks) >= 2, True)
    with Acme() as acme:
        acme.operator.create("ward")
        acme.operator.give_token("ward", "admin", "ward-admin-1")
        acme.operator.give_token("ward", "ask", "ward-asks-1")
        code = "\n".join(blocks).replace("http://127.0.0.1:8080", acme.url)
        ran = subprocess.run([sys.executable, "-B", "-c", code], cwd=TOP, text=True, capture_output=True, check=False,
                             env={**os.environ, "PYTHONPATH": str(FOLDER / "python")}, timeout=SECONDS)
        expect(f"the page's code runs: {ran.stderr}", ran.returncode, 0)
        expect("and says", ran.stdout, "".join(f"{said}\n" for said in re.findall(r"(?m)# prints (.*)$", code)))
        expect("its token isn't in what it says", "ward-asks-1" in ran.stdout + ran.stderr, False)
