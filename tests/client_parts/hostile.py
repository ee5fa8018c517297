"""The client beside servers that answer wrongly, late or not at all: it never grants by a fault, and sends nothing
twice that it shouldn't."""
import os
import pathlib
import socket
import ssl
import subprocess
import tempfile
import time
from datetime import date, datetime, time as daytime, timedelta, timezone
from decimal import Decimal

from .servers import Scripted, drips, is_silent, keeps, reset, response, result, until, whole
from .shared import ADMIN, expect, raised

from pdp_client import Decision, Domain, Obligation, Operator, Typed  # noqa: E402, found by shared

PERMIT, DENY = response(result("Permit")), response(result("Deny"))
JSON_400 = whole({"Error": "NotJson"}, "400 Bad Request")
# replies that are no decision, and the error that each is
NO_DECISIONS = [
    (whole({"Error": "Unavailable"}, "503 Service Unavailable"), "Refused"),
    (whole({"Error": "Unauthorized"}, "401 Unauthorized"), "Refused"),
    (whole(b"<html>", "502 Bad Gateway"), "Refused"),
    (whole({"Response": [result("Permit")]}, "500 Internal Server Error"), "Refused"),
    (whole({"Response": [result("Permit")]}, "302 Found", ["Location: http://127.0.0.1:1/"]), "Refused"),
    (whole({"Response": [result("Permit")]}, "204 No Content"), "Refused"),
    (PERMIT[:10], "Unanswered"),
    (PERMIT[:-1], "Unanswered"),
    (PERMIT.partition(b"\r\n\r\n")[0], "Unanswered"),
    (whole({"Response": [result("Permit")]}, length=""), "WrongReply"),
    (whole({"Response": [result("Permit")]}, length="-5"), "WrongReply"),
    (whole({"Response": [result("Permit")]}, length="9" * 12), "WrongReply"),
    (whole({"Response": [result("Permit")]}, fields=["Content-Length: 3"]), "WrongReply"),
    (whole({"Response": [result("Permit")]}, fields=["Content-Length: 117"], length="3"), "WrongReply"),
    (whole({"Response": [result("Permit")]}, fields=["Transfer-Encoding: chunked"]), "WrongReply"),
    (b"HTTP/1.1 100 Continue\r\n\r\n" + PERMIT, "WrongReply"),
    (b"HTTP/2 200\r\n\r\n", "WrongReply"),
    (b"SSH-2.0-x\r\n\r\n", "WrongReply"),
    (whole(b""), "WrongReply"), (whole(b"\xff"), "WrongReply"), (whole([]), "WrongReply"), (whole({}), "WrongReply"),
    (whole(b"[" * 200_000), "WrongReply"),
    (whole({"Response": []}), "WrongReply"),
    (whole({"Response": result("Permit")}), "WrongReply"),
    (response(result("Permit"), result("Permit")), "WrongReply"),
    (response(result("Allow")), "WrongReply"), (response(result("permit")), "WrongReply"),
    (response(result(True)), "WrongReply"), (response(result(["Permit"])), "WrongReply"), (response({}), "WrongReply"),
    (response(result("Permit", Obligations={"Id": "o"})), "WrongReply"),
    (response(result("Permit", Obligations=[{}])), "WrongReply"),
    (response(result("Permit", Obligations=None)), "WrongReply"),
    (response(result("Permit", Obligations=[{"Id": "o", "AttributeAssignment": [{"AttributeId": "a"}]}])),
     "WrongReply"),
    (whole(b'{"Response":[{"Decision":"Permit","Status":7}]}'), "WrongReply"),
    (whole(b'{"Response":[{"Decision":"Deny","Decision":"Permit"}]}'), "WrongReply"),
    (whole(b'{"Response":[{"Decision":"Deny"}],"Response":[{"Decision":"Permit"}]}'), "WrongReply"),
]


def decisions():
    """What isn't one whole response grants nothing, and isn't asked again."""
    for reply, wanted in NO_DECISIONS:
        with Scripted(reply, PERMIT) as server:
            fault, said = raised(Domain(server.url, "acme", ADMIN).decide, "ann")
            expect(f"{reply[:120]!r}: {said}", (fault, len(server.messages)), (wanted, 1))
            expect("the token isn't in what is said", ADMIN in str(said), False)
    with Scripted(response(result("Indeterminate", "processing-error"))) as server:
        found = Domain(server.url, "acme", ADMIN).decide_many([{"subject": "ann"}, {"subject": "ben"}])
        expect("one that is Indeterminate is for all", [each.decision for each in found], ["Indeterminate"] * 2)
    for count in (1, 3):
        with Scripted(response(*[result("Permit")] * count)) as server:
            fault, said = raised(Domain(server.url, "acme", ADMIN).permitted, ["a", "b"], "ann")
            expect(f"{count} of two decisions: {said}", (fault, len(server.messages)), ("WrongReply", 1))
    for answer in ("Permit", "Deny", "NotApplicable", "Indeterminate"):
        with Scripted(response(result(answer))) as server:
            expect(answer, bool(Domain(server.url, "acme", ADMIN).decide("ann")), answer == "Permit")
    expect("a decision made by hand",
           [bool(Decision("Permit", "ok", (Obligation("o"),))), bool(Decision("Deny", "ok"))],
           [False, False])


def cuts():
    """A decision is sent once more if the connection ended before a byte, and never else; a change never."""
    ends = (b"", lambda connection, _: reset(connection))
    for end in ends:
        with Scripted(end, PERMIT) as server:
            found = bool(Domain(server.url, "acme", ADMIN).decide("ann"))
            expect("sent again, once", (found, len(server.messages)), (True, 2))
            expect("the very same message", len(set(server.messages)), 1)
        with Scripted(end) as server:
            fault, said = raised(Domain(server.url, "acme", ADMIN).decide, "ann")
            expect(f"and not a third time: {said}", (fault, len(server.messages)), ("Ended", 2))
        with Scripted(end, whole({})) as server:
            for number, change in enumerate((lambda at: Domain(at, "acme", ADMIN).set_rows([]),
                                             lambda at: Operator(at, ADMIN).remove("acme")), 1):
                with Scripted(end, whole({})) as other:
                    fault, said = raised(change, other.url)
                    expect(f"change {number} isn't: {said}", (fault, len(other.messages), "look before" in said),
                           ("Ended", 1, True))
    with Scripted(keeps(PERMIT)) as server:
        domain = Domain(server.url, "acme", ADMIN, keep=30)
        expect("a connection is kept", ([bool(domain.decide("ann")) for _ in range(5)], server.connections),
               ([True] * 5, 1))
    with Scripted(lambda connection, _: (connection.sendall(PERMIT), reset(connection)), DENY) as server:
        domain = Domain(server.url, "acme", ADMIN, keep=30)
        found = [bool(domain.decide("ann")) for _ in range(2)]
        expect("one that ended meanwhile isn't used", (found, server.connections), ([True, False], 2))
    with Scripted(keeps(DENY + PERMIT)) as server:
        domain = Domain(server.url, "acme", ADMIN, keep=30)
        expect("bytes that nobody asked for are no answer, and their connection isn't kept",
               ([bool(domain.decide("ann")) for _ in range(3)], server.connections), ([False] * 3, 3))
    with Scripted(keeps(PERMIT)) as server:
        domain = Domain(server.url, "acme", ADMIN, keep=30)
        expect("before a fork", (bool(domain.decide("ann")), server.connections), (True, 1))
        child = os.fork()
        if child == 0:
            os._exit(0 if domain.decide("ann") else 1)
        expect("a copy of the process has a connection of its own", (os.waitpid(child, 0)[1], server.connections),
               (0, 2))
        expect("and this one keeps its own", (bool(domain.decide("ann")), server.connections), (True, 2))
    later = Scripted(lambda connection, _: (connection.sendall(DENY), time.sleep(0.2), connection.sendall(PERMIT)))
    with later as server:
        domain = Domain(server.url, "acme", ADMIN, keep=30)
        found = []
        for _ in range(3):
            found.append(bool(domain.decide("ann")))
            time.sleep(0.4)
        expect("nor those that come later", (found, server.connections), ([False] * 3, 3))
    with Scripted(keeps(whole({"Response": [result("Deny")]}, fields=["Connection: close"]))) as server:
        domain = Domain(server.url, "acme", ADMIN, keep=30)
        expect("what says close isn't kept", ([bool(domain.decide("ann")) for _ in range(2)], server.connections),
               ([False] * 2, 2))


def slowness():
    """No call takes longer than its seconds, nor holds more than it may."""
    huge = b"HTTP/1.1 200 OK\r\nX: " + b"x" * 40_000
    for name, item, wanted in (
            ("silence", is_silent, "Unanswered"), ("a drip", drips(PERMIT), "Unanswered"),
            ("a drip after a head", lambda held, server: (held.sendall(PERMIT[:60]), drips(PERMIT)(held, server)),
             "Unanswered"),
            ("a head without end", lambda held, server: [held.sendall(huge) for _ in range(100_000)], "WrongReply"),
            ("a huge body", lambda held,
             server: (held.sendall(whole(b"", length=str(40 << 20))), is_silent(held, server)),
             "WrongReply")):
        with Scripted(item, PERMIT) as server:
            began = time.monotonic()
            fault, said = raised(Domain(server.url, "acme", ADMIN, seconds=1).decide, "ann")
            expect(f"{name}: {said}", (fault, len(server.messages)), (wanted, 1))
            expect(f"{name} ends in time", time.monotonic() - began < 15, True)
    taken = socket.create_server(("127.0.0.1", 0))
    closed = f"http://127.0.0.1:{taken.getsockname()[1]}"
    taken.close()
    fault, said = raised(Domain(closed, "acme", ADMIN).decide, "ann")
    expect(f"nobody listens: {said}", (fault, "does it run" in said), ("Unanswered", True))


def secrets():
    """TLS by a CA file; a certificate that isn't trusted, or of another name, gets no message."""
    with tempfile.TemporaryDirectory() as made:
        for name, subject in (("one", "IP:127.0.0.1"), ("two", "IP:127.0.0.1"), ("else", "DNS:pdp.example")):
            subprocess.run(["openssl", "req", "-x509", "-newkey", "ec", "-pkeyopt", "ec_paramgen_curve:P-256",
                            "-nodes",
                            "-days", "2", "-subj", "/CN=x", "-addext", f"subjectAltName={subject}", "-keyout",
                            f"{made}/{name}.key", "-out", f"{made}/{name}.pem"], check=True, capture_output=True)
        for served, trusted, is_right in (("one", "one", True), ("one", "two", False), ("one", None, False),
                                          ("else", "else", False)):
            context = ssl.SSLContext(ssl.PROTOCOL_TLS_SERVER)
            context.load_cert_chain(f"{made}/{served}.pem", f"{made}/{served}.key")
            with Scripted(keeps(PERMIT), tls=context) as server:
                ca = trusted and str(pathlib.Path(made) / f"{trusted}.pem")
                domain = Domain(server.url, "acme", ADMIN, ca_file=ca, keep=30)
                fault, said = raised(domain.decide, "ann")
                if is_right:
                    expect("by its CA", (fault, bool(said), bool(domain.decide("ann")), server.connections),
                           ("", True, True, 1))
                else:
                    expect(f"{served} for {trusted}: {said}", (fault, "ca_file" in said), ("Unanswered", True))
                    expect("no message was sent", server.messages, [])
    with Scripted(PERMIT) as server:
        fault, said = raised(Domain(server.url.replace("http:", "https:"), "acme", ADMIN, seconds=2).decide, "ann")
        expect(f"TLS where none is: {said}", fault, "Unanswered")


def mistakes():
    """What can't be sent is refused before it is, and what is said names it and what to do."""
    with Scripted(PERMIT) as server:
        domain = Domain(server.url, "acme", ADMIN)
        for value, phrase in (
                (1.5, "float"), (float("nan"), "float"), (None, "leave the attribute out"), (Decimal(1), "Decimal"),
                (2**63, "64 bits"), (-2**63 - 1, "64 bits"), ({}, "{}"), ([[1]], "[1]"), ("\ud800", "UTF-8"),
                (datetime(2026, 1, 1), "timezone.utc"), (daytime(9), "timezone.utc"),
                (datetime(2026, 1, 1, tzinfo=timezone(timedelta(seconds=1))), "whole minutes"),
                (datetime(2026, 1, 1, tzinfo=timezone(timedelta(hours=15))), "14 hours"),
                (timedelta(days=3_652_501), "10,000 years"), ([1, 2.0], "float"), (b"x".__class__, "class")):
            fault, said = raised(domain.decide, {"urn:a": value})
            expect(f"{value!r}: {said}", (fault, phrase in said), ("Unsendable", True))
        for name in ("subject-id", "resource-id", "action-id"):
            fault, said = raised(domain.decide, {name: "ann"})
            expect(f"{name}: {said}", (fault, 'write "id"' in said), ("Unsendable", True))
        for call, given in ((domain.decide_many, [{"object": "x"}]), (domain.show, ["policies", "urn:p", "1.0"]),
                            (domain.set_root, "x"), (domain.set_rows, [{"Value": {1, 2}}]),
                            (domain.set_rows, [{"Value": "x" * 600_000}])):
            fault, said = raised(call, *given) if call == domain.show else raised(call, given)
            expect(f"{given!r:.60}: {said}", fault, "Unsendable")
        for at, name, token in (
                ("ftp://x", "acme", ADMIN), ("127.0.0.1:8080", "acme", ADMIN), ("http://127.0.0.1:x", "acme", ADMIN),
                ("http://a:b@127.0.0.1", "acme", ADMIN), ("http://127.0.0.1/?q", "acme", ADMIN),
                ("http://127.0.0.1/\r\nX: y", "acme", ADMIN), ("http://pdp.example", "acme", ADMIN),
                (server.url, "Acme", ADMIN), (server.url, "a/b", ADMIN), (server.url, "", ADMIN),
                (server.url, "acme", "short"), (server.url, "acme", ADMIN + "\n"),
                (server.url, "acme", "x y z w v u")):
            fault, said = raised(Domain, at, name, token)
            expect(f"{at}, {name!r}: {said}", fault, "Unsendable")
            expect("the token isn't in what is said", token in said, False)
        operator = Operator(server.url, ADMIN)
        for name, role, token, phrase in (
                ("acme", "reader", ADMIN, "admin or ask"), ("acme", "ask", "short", "8 to 64"),
                ("acme", "ask", "x y z w v u", "8 to 64"), ("Acme", "ask", ADMIN, "no name of a domain")):
            fault, said = raised(operator.give_token, name, role, token)
            expect(f"{role} {token} of {name}: {said}", (fault, phrase in said), ("Unsendable", True))
        expect("nor is one taken", raised(operator.take_token, "acme", "short")[0], "Unsendable")
        expect("a text for a list", raised(Domain, server.url, "acme", ADMIN, understood="urn:a")[0], "Unsendable")
        expect("plain HTTP by choice", raised(Domain, "http://pdp.example", "acme", ADMIN, allow_http=True)[0], "")
        expect("the token isn't shown", ADMIN in repr(domain) + repr(vars(domain).keys()), False)
        expect("none of it was sent", server.messages, [])
        expect("and a proper one is",
               bool(domain.decide({"id": "ann", "urn:d": date(2026, 1, 1), "urn:t": Typed("time", "1")},
                                                         )), True)
        expect("one message", until(lambda: len(server.messages) == 1), True)
