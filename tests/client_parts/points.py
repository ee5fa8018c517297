"""The enforcement points of clients/, each by the same requests, beside the real program or a server that answers
wrongly."""
import contextlib
import json
import os
import pathlib
import re
import signal
import ssl
import subprocess
import sys
import tempfile
import unicodedata
import urllib.parse
from concurrent.futures import ThreadPoolExecutor

from serving import free_port

from .guarded import LOG, MARK, OPEN, PATIENCE, Haproxy, Nginx, points, reads, ready, told
from .odd_targets import READINGS, REFUSED_FIELDS, REFUSED_QUERIES, REFUSED_TARGETS, odd_targets
from .servers import Scripted, in_pieces, is_silent, keeps, reset, response, result, whole
from .shared import ASKS, TOP, Acme, expect


def grants():
    """What is permitted goes through as it is asked about, and nothing else does."""
    for point in points():
        with ready(point, reads("ann")) as (guarded, echo, _, acme):
            for path in OPEN:
                target = urllib.parse.quote(path, safe="/,=@()")
                status, _, body = guarded.sent(target + "?q=/../x")
                expect(f"{point.name}: {path}", (status, json.loads(body)["Path"] if status == 200 else body),
                       (200, target + "?q=/../x"))
                expect("as the policy says", bool(acme.domain().decide("ann", path, "read")), True)
            status, _, body = guarded.sent("/open/x", method="HEAD")
            expect(f"{point.name}: HEAD", (status, body), (200, b""))
            grants_no_other(point, guarded, echo)
            said = json.loads(guarded.sent("/open/x", "X-Remote-User: root", "x-remote-user: root")[2])["Fields"]
            expect(f"{point.name}: the fields that name a user", [each for each in said if "user" in each],
                   ["x-user: ann"])
            logs = guarded.logs()
            expect(f"{point.name}: no log has the token", ASKS in logs, False)
            expect(f"{point.name}: why it was refused is in the log", "the decision is Deny" in logs, True)


def grants_no_other(point, guarded, echo):
    before = len(echo.messages)
    for what, found in (("another path", guarded.sent("/closed/x")),
                        ("another user", guarded.sent("/open/x", user="ben")),
                        ("nobody", guarded.sent("/open/x", user=None)),
                        ("another action", guarded.sent("/open/x", method="POST", body=b"x")),
                        ("an unknown method", guarded.sent("/open/x", method="DELETE")),
                        ("a method of Object", guarded.sent("/open/x", method="CONSTRUCTOR")),
                        ("the decision itself", guarded.sent("/pdp-decision", method="POST", body=b"{}"))):
        expect(f"{point.name}: {what}: {found[0]}", found[0] in (403, 404, 405), True)
    for what, fields in (("two users", ["X-User: ben"]), ("an empty one more", ["X-User:"])):
        expect(f"{point.name}: {what}", guarded.sent("/open/x", *fields)[0], 400)
    expect(f"{point.name}: none of them arrived", len(echo.messages) - before, 0)


def underscores():
    """What a server reads as the subject's field never goes on, however it is written."""
    for point in points():
        with ready(point, reads("ann")) as (guarded, echo, _, _):
            for field in ("X_User: root", "x-user : root", "X.User: root", "X-USER\t: root", " X-User: root"):
                status, _, body = guarded.sent("/open/x", field)
                arrived = [each for each in json.loads(body)["Fields"] if "root" in each] if status == 200 else []
                expect(f"{point.name}: {field!r}: {status}", (status in (200, 400, 403), arrived), (True, []))
            for field in ("Connection: close, X-User", "Connection: x-user,close"):
                status, _, body = guarded.sent("/open/x", field)
                arrived = [each for each in json.loads(body)["Fields"] if "connection: " in each and "user" in each] \
                    if status == 200 else []
                expect(f"{point.name}: {field}", (status in (200, 400), arrived), (True, []))


# names that some server takes for another field, of those that HTTP allows (RFC 9110, section 5.6.2)
ODD_FIELDS = ("SCRIPT_NAME: /open", "script_name: /open", "PATH_INFO: /open/x", "X_User: root", "X.User: root",
              "X-Remote_User: root", "X_HTTP_Method_Override: POST", "X~Y: z")


class UnderscoringNginx(Nginx):
    more = "underscores_in_headers on; ignore_invalid_headers off;"


class RewritingNginx(Nginx):
    more = ("rewrite ^/open/old/(.*)$ /closed/$1; rewrite ^/closed/new/(.*)$ /open/$1; "
            "rewrite ^/open/args$ /open/args?_method=POST? ;")


def odd_fields():
    """A field whose name a server may read as another one is refused, and `SCRIPT_NAME` moves no path of gunicorn."""
    for point in points(UnderscoringNginx, Haproxy):
        with ready(point, reads("ann")) as (guarded, echo, _, _):
            expect(f"{point.name}: plain names", guarded.sent("/open/x", "X-Any-1: _")[0], 200)
            before = len(echo.messages)
            for field in ODD_FIELDS:
                expect(f"{point.name}: {field}", guarded.sent("/open/closed/x", field)[0], 400)
            expect(f"{point.name}: none of them arrived", len(echo.messages) - before, 0)


def rewrites():
    """What a configuration of nginx rewrites isn't what was asked about: it is refused."""
    for point in points(RewritingNginx):
        with ready(point, reads("ann")) as (guarded, echo, _, _):
            for path in ("/open/x", "/open/%c3%a9", "/open/a%20b"):
                expect(f"as it came: {path}", guarded.sent(path)[0], 200)
            before = len(echo.messages)
            for path, wanted in (("/open/old/x", 500), ("/closed/new/x", 500), ("/open/args", 400)):
                expect(f"rewritten: {path}", guarded.sent(path)[0], wanted)
            expect("none of them arrived", len(echo.messages) - before, 0)


def obligations_there():
    """Obligations are carried out before a request goes on, and one that isn't known lets nothing through."""
    both = [(LOG, "Permit"), (MARK, "Permit")]
    for point in points():
        with ready(point, reads("ann", obligations=both)) as (guarded, echo, _, _):
            status, head, _ = guarded.sent("/open/x")
            expect(f"{point.name}: both are known", (status, "x-mark: ann" in head.lower()), (200, True))
            line = json.loads((guarded.made / "log").read_text())
            expect(f"{point.name}: a line is written",
                   (line["Obligation"], line["Subject"], line["Path"], line["Method"], line["Given"]),
                   (LOG, "ann", "/open/x", "GET", [{"AttributeId": "urn:example:who", "Value": "ann"}]))
            (guarded.made / "log").unlink()
            (guarded.made / "log").mkdir()
            before = len(echo.messages)
            expect(f"{point.name}: where it can't be written", (guarded.sent("/open/x")[0],
                                                                len(echo.messages) - before), (503, 0))
        with ready(point, reads("ann", obligations=both), Obligations={LOG: {"Log": "/dev/null"}}) as held:
            guarded, echo, _, _ = held
            expect(f"{point.name}: one isn't known", (guarded.sent("/open/x")[0], echo.messages), (403, []))


def marked(value):
    """A Permit whose obligation has such a value for a field."""
    return response(result("Permit", Obligations=[
        {"Id": MARK, "AttributeAssignment": [{"AttributeId": "urn:example:who", "Value": value}]}]))


PERMIT = response(result("Permit"))
# what a server answers, and the statuses that may come of it
FAULTY = (
    ("503", whole({"Error": "Unavailable"}, "503 Service Unavailable"), 503),
    ("another domain's token", whole({"Error": "Unauthorized"}, "401 Unauthorized"), 503),
    ("a redirect", whole({"Response": [result("Permit")]}, "302 Found", ["Location: /open"]), 503),
    ("204", whole({"Response": [result("Permit")]}, "204 No Content"), 503),
    ("a body that is cut", PERMIT[:-1], 503), ("a head alone", PERMIT[:30], 503), ("nothing", b"", 503),
    ("a whole body that is cut", whole({"Response": [result("Permit")]}, length="200"), 503),
    ("no length, and an end", whole({"Response": [result("Permit")]}, length=""), 503),
    ("pieces, of which the last isn't there", in_pieces({"Response": [result("Permit")]}), 503),
    ("a way within the proxy", whole({"Response": [result("Deny")]}, fields=["X-Accel-Redirect: @pdp-protected"]), 403),
    ("the same with an error", whole({}, "403 Forbidden", ["X-Accel-Redirect: @pdp-protected"]), 503),
    ("a decision twice", whole(b'{"Response":[{"Decision":"Deny","Decision":"Permit"}]}'), 503),
    ("responses twice", whole(b'{"Response":[{"Decision":"Deny"}],"Response":[{"Decision":"Permit"}]}'), 503),
    ("a second response in the body", whole(json.dumps({"Response": [result("Permit")]}).encode() * 2), 503),
    ("a member twice", whole(b'{"Response":[{"Decision":"Deny","Decision":"Permit"}],"Response":[]}'), 503),
    ("silence", is_silent, 503), ("no response", whole([]), 503),
    ("no JSON", whole(b"Permit"), 503), ("no UTF-8", whole(b'{"Response":["\xff'), 503),
    ("nested", whole(b'{"Response":' + b"[" * 100_000), 503),
    ("nothing in it", whole({"Response": []}), 503),
    ("two results", response(result("Permit"), result("Permit")), 503),
    ("null", whole({"Response": [None]}), 503), ("a text", whole({"Response": ["Permit"]}), 503),
    ("Deny", response(result("Deny")), 403), ("NotApplicable", response(result("NotApplicable")), 403),
    ("Indeterminate", response(result("Indeterminate")), 403), ("permit", response(result("permit")), 403),
    ("a list", response(result(["Permit"])), 403),
    ("odd obligations", response(result("Permit", Obligations={"length": 0})), 503),
    ("obligations that are null", response(result("Permit", Obligations=None)), 503),
    ("odd obligation", response(result("Permit", Obligations=[None])), 403),
    ("one of Object", response(result("Permit", Obligations=[{"Id": "constructor"}])), 403),
    ("an id that is no text", response(result("Permit", Obligations=[{"Id": [MARK]}])), 403),
    ("odd assignments", response(result("Permit", Obligations=[{"Id": LOG, "AttributeAssignment": {"a": 1}}])), 503),
    ("a mark of two lines", marked("a\r\nb: c"), 503), ("a mark that is empty", marked(""), 503),
    ("a mark without value", response(result("Permit", Obligations=[{"Id": MARK}])), 503),
    ("a mark", marked("\\u0061"), 200),
    ("a huge one", whole({"Response": [result("Permit")], "x": "x" * (2 << 20)}), (0, 503)),
    ("Permit", PERMIT, 200))


def faulty():
    """No decision, no passage: whatever is wrong with the reply."""
    for point in points():
        with tempfile.TemporaryDirectory() as made, Scripted(PERMIT) as pdp, Scripted(told) as echo:
            with point(pdp.url, echo, made) as guarded:
                for what, item, wanted in FAULTY:
                    pdp.script, before, asked = [item], len(echo.messages), len(pdp.messages)
                    status = guarded.sent("/open/x")[0]
                    expect(f"{point.name}: {what} by the server: {status}",
                           (status in (wanted if isinstance(wanted, tuple) else (wanted, )),
                            len(echo.messages) - before), (True, int(wanted == 200)))
                    again = 1 + (item in (b"", PERMIT[:30]))
                    expect(f"{point.name}: {what}: asked again only if nothing came",
                           1 <= len(pdp.messages) - asked <= again, True)
                expect(f"{point.name}: no log has the token", ASKS in guarded.logs(), False)
        ended_meanwhile(point)
        with tempfile.TemporaryDirectory() as made, Scripted(told) as echo:
            with point(f"http://127.0.0.1:{free_port()}", echo, made) as guarded:
                expect(f"{point.name}: no server", (guarded.sent("/open/x")[0], echo.messages), (503, []))


def ended_meanwhile(point):
    """If a connection that was kept ends before a byte of a reply, the decision is asked for once more."""
    def once(connection, server):
        if len(server.messages) > 1:
            reset(connection)
        else:
            connection.sendall(PERMIT)
    for more, wanted in ((keeps(PERMIT), (200, 3)), (b"", (503, 3))):
        with tempfile.TemporaryDirectory() as made, Scripted(once, more) as pdp, Scripted(told) as echo:
            with point(pdp.url, echo, made, KeptConnections=1) as guarded:
                expect(f"{point.name}: the first", guarded.sent("/open/x")[0], 200)
                expect(f"{point.name}: the second", (guarded.sent("/open/x")[0], len(pdp.messages)), wanted)


def two_readings():
    """Some 400 odd requests: what goes through is permitted as the protected server has it, however that reads it."""
    targets = list(dict.fromkeys(odd_targets()))
    expect("how many there are", len(targets) >= 300, True)
    for point in points():
        with ready(point, reads("ann")) as (guarded, echo, _, acme):
            statuses, paths = {}, set()
            for target in targets:
                before = len(echo.messages)
                status = guarded.sent(target)[0]
                statuses[status] = statuses.get(status, 0) + 1
                arrived = [held.split(b" ")[1].decode("latin-1").partition("?")[0] for held in echo.messages[before:]]
                if (status == 200) != bool(arrived):
                    expect(f"{point.name}: {target!r} arrives if it is answered with 200", (status, arrived),
                           (status, []))
                paths.update(arrived)
            asked = sorted({each(path) for path in paths for each in READINGS} | {urllib.parse.unquote(path)
                                                                                  for path in paths})
            found = acme.domain().decide_many([{"subject": "ann", "resource": path, "action": "read"}
                                               for path in asked])
            expect(f"{point.name}: what arrived is permitted, however it is read ({statuses})",
                   [path for path, decision in zip(asked, found) if not decision], [])
            expect(f"{point.name}: most are refused with 400 ({statuses})", statuses.get(400, 0) > 250, True)
            before = len(echo.messages)
            for target in REFUSED_TARGETS:
                expect(f"{point.name}: {target}", guarded.sent(target)[0], 400)
            for field in REFUSED_FIELDS:
                expect(f"{point.name}: {field}", guarded.sent("/open/x", field)[0], 400)
            for query in REFUSED_QUERIES:
                expect(f"{point.name}: {query}", guarded.sent(f"/open/x?{query}")[0], 400)
            for target in ("http://app.example/open/x", "http:///open/x", "*"):
                # (the rest of the line is a field's value)
                status = guarded.sent(f"{target} HTTP/2.0\r\nX-Rest:")[0]
                expect(f"{point.name}: a line of HTTP/2 with {target}: {status}", status in (400, 505), True)
            expect(f"{point.name}: none of them arrived", len(echo.messages) - before, 0)


def letters():
    """No normalization changes what the enforcement points take for letters, alone or beside each other."""
    sys.path.insert(1, str(TOP / "clients"))
    import mapping
    plain = f"[{mapping.PLAIN}{mapping.LETTERS}]"
    found = [chr(code) for code in range(0x10000) if re.fullmatch(plain, chr(code))]
    expect("there are letters", len(found) > 30_000, True)
    for form in ("NFC", "NFKC"):
        expect(form, [each for each in found if unicodedata.normalize(form, each) != each], [])
        expect(f"{form} of all together", unicodedata.normalize(form, "".join(found)) == "".join(found), True)
    expect("none combines with another", [each for each in found if unicodedata.combining(each)], [])
    ends = [int(each, 16) for each in re.findall(r"\\u(....)", mapping.LETTERS)]
    edges = sorted({*map(chr, range(33, 127)), *(chr(end + step) for end in ends for step in (-1, 0, 1))})
    for point in points():
        with tempfile.TemporaryDirectory() as made, Scripted(PERMIT) as pdp, Scripted(told) as echo:
            with point(pdp.url, echo, made) as guarded:
                taken = [each for each in edges
                         if guarded.sent("/" + urllib.parse.quote(each, safe="!$&'()*+,=:@"))[0] == 200]
                expect(f"{point.name}: {len(edges)} characters at the ends of what is taken", taken,
                       [each for each in edges if re.fullmatch(plain, each) and each not in "/."])


def certificates():
    """A client's certificate says who asks, whatever it sends; a proxy's certificate lets its field say so."""
    with tempfile.TemporaryDirectory() as made:
        for name in ("one", "two"):
            subprocess.run(["openssl", "req", "-x509", "-newkey", "ec", "-pkeyopt", "ec_paramgen_curve:P-256",
                            "-nodes", "-days", "2", "-subj", f"/CN={name}", "-keyout", f"{made}/{name}.key", "-out",
                            f"{made}/{name}.pem"], check=True, capture_output=True)
        for point in points():
            for subject, user, certificate, wanted in (
                    ({"Certificate": True}, "root", "one", (200, ["x-user: cn=one"])),
                    ({"Certificate": True}, "CN=one", None, (403, [])),
                    ({"Certificate": True}, "CN=one", "two", (None, [])),
                    ({"FromCertificate": ["CN=one"]}, "ann", "one", (200, ["x-user: ann"])),
                    ({"FromCertificate": ["CN=two"]}, "ann", "one", (403, [])),
                    ({"FromAddress": ["127.0.0.2"]}, "ann", None, (403, []))):
                certificate_shown(point, made, subject, user, certificate, wanted)


def certificate_shown(point, made, subject, user, certificate, wanted):
    """What comes of a request with a certificate, one of which isn't trusted: that one ends the connection, or is
    refused."""
    context = ssl.SSLContext(ssl.PROTOCOL_TLS_CLIENT)
    context.check_hostname, context.verify_mode = False, ssl.CERT_NONE
    if certificate:
        context.load_cert_chain(f"{made}/{certificate}.pem", f"{made}/{certificate}.key")
    with Acme() as acme, Scripted(told) as echo:
        acme.decides_by(reads("ann", "CN=one", "CN=two"))
        mapped = {"Header": "X-User", **subject}
        with point(acme.url, echo, made, tls=True, Subject=mapped) as guarded:
            try:
                status, _, body = guarded.sent("/open/x", user=user, tls=context)
            except ssl.SSLError:
                status, body = 0, b""
            fields = json.loads(body)["Fields"] if status == 200 else []
            found = status, [each for each in fields if "user" in each]
            what = f"{point.name}: {subject}, {user} with {certificate}"
            if wanted[0] is None:
                expect(f"{what}: {status}", status in (0, 400, 403), True)
            else:
                expect(what, found, wanted)
            expect(f"{what}: what arrived", len(echo.messages), int(wanted[0] == 200))


def kept():
    """With kept connections many decisions share one; without, each has its own."""
    for point in points():
        # (the program ends a connection that waits for over a second, as one may on a machine that others use)
        for keep, wanted in ((1, range(1, 5)), (0, [20])):
            with ready(point, reads("ann"), keep=keep) as (guarded, _, relay, _):
                found = [guarded.sent("/open/x")[0] for _ in range(20)]
                expect(f"{point.name}: {relay.connections} connections of 20 decisions, {keep} kept",
                       (set(found), relay.connections in wanted), ({200}, True))


# a place of each script outside all that it catches, and the status that an error there comes to
ERRORS = {"nginx": ("pdp.js", "function guard(r) {", "function guard(r) { throw new Error('x');", 500),
          "haproxy": ("pdp.lua", "local is_permitted, fault = pcall(ask, txn)", "error('x')", 503)}


def script_errors():
    """An error of the script lets nothing through."""
    for point in points():
        name, place, error, wanted = ERRORS[point.name]
        with tempfile.TemporaryDirectory() as made, Scripted(PERMIT) as pdp, Scripted(told) as echo:
            guarded = point(pdp.url, echo, made)
            script = guarded.made / "conf" / name
            text = script.read_text()
            expect(f"{point.name}: the place is there", place in text, True)
            script.write_text(text.replace(place, error if name == "pdp.js" else f"{error} {place}"))
            with guarded:
                expect(f"{point.name}: an error", (guarded.sent("/open/x")[0], echo.messages), (wanted, []))


def crowds():
    """Many at once: each has its own answer, and arrives as who asked."""
    def decides(connection, server):
        connection.sendall(PERMIT if b'"ann' in server.here.message else response(result("Deny")))
    for point in points():
        with tempfile.TemporaryDirectory() as made, Scripted(decides) as pdp, Scripted(told) as echo:
            with point(pdp.url, echo, made, KeptConnections=8) as guarded:
                def asks(number):
                    user = f"{'ann' if number % 2 else 'ben'}-{number}"
                    status, _, body = guarded.sent("/open/x", user=user)
                    return status, [each for each in json.loads(body)["Fields"] if "user" in each] \
                        if status == 200 else []
                with ThreadPoolExecutor(32) as pool:
                    found = list(pool.map(asks, range(200)))
                expect(f"{point.name}: 200 requests by 32 clients", found,
                       [(200, [f"x-user: ann-{number}"]) if number % 2 else (403, []) for number in range(200)])
                expect(f"{point.name}: few connections", pdp.connections <= 100, True)


def pages():
    """The commands of the pages protect a location, as they stand but for their ports."""
    for point in points():
        shown_by(point)


def blocks_of(page):
    text = (TOP / "docs" / "guide" / f"{page}.md").read_text(encoding="utf-8")
    return re.findall(r"(?ms)^```sh\n(.*?)^```$", text)


def shown_by(point):
    first, *of_nginx = blocks_of("NGINX")
    block = "\n".join([first, *(of_nginx if point.name == "nginx" else blocks_of("HAPROXY"))])
    with tempfile.TemporaryDirectory() as made, Acme() as acme:
        (pathlib.Path(made) / "clients").symlink_to(TOP / "clients")
        for shown, port in (("8080", acme.served.port), ("8081", free_port()), ("9000", free_port())):
            block = block.replace(f"127.0.0.1:{shown}", f"127.0.0.1:{port}").replace(f"http.server {shown}",
                                                                                     f"http.server {port}")
        with open(f"{made}/said", "wb") as said:
            process = subprocess.Popen(["bash", "-euo", "pipefail", "-c", block], cwd=made, stdin=subprocess.DEVNULL,
                                       stdout=said, stderr=said, start_new_session=True,
                                       env={**os.environ, "PYTHONDONTWRITEBYTECODE": "1"})
        status = process.wait(PATIENCE * 3)
        with contextlib.suppress(ProcessLookupError):
            os.killpg(process.pid, signal.SIGKILL)
        said = pathlib.Path(f"{made}/said").read_text()
        expect(f"{point.name}: no command fails: {said}", status, 0)
        for wanted in ("map.json: 0 faults", "\nthe figures\n", "\n403\n", "\n400\n"):
            expect(f"{point.name}: the page shows {wanted!r}: {said}", wanted in said, True)
