"""The daemon: who is let through, what it keeps, and that it goes on where pdpd, the disk or a client doesn't."""
import json
import resource
import socket
import threading
import time

from log.archive import segments_in
from log.history import changes_in
from sent import rows_body
from serving import OPERATOR, UNAVAILABLE, Served, message, policy

from .shared import PROGRAM, Logged, expect, folder, kept, log, passed_on, status_of, wait_until

MEDIA = "Content-Type: application/xml\r\n"
ADMIN, ASKS = "acme-admin-1", "acme-asks-1"
TEXT = policy(policy_id="urn:x")
# what is sent, with the status that the page of the API gives it; those of the first are in no entry
REFUSED = [
    (("PUT", "/operator/domains/beta", "another-token"), 401), (("PUT", "/operator/domains/beta", ADMIN), 401),
    (("POST", "/domains/acme/pap/policies", "acme-nobody", TEXT), 401),
    (("POST", "/domains/nobody/pap/policies", ADMIN, TEXT), 401),
    (("POST", "/domains/acme/pap/policies", ASKS, TEXT), 403), (("PUT", "/domains/acme/pip", ASKS, '{"Row":[]}'), 403),
    (("DELETE", "/domains/acme/pap/policy/urn:x/1.0", ASKS), 403),
    (("PUT", "/domains/acme/nothing", ADMIN), 404), (("POST", "/operator/domains/acme/pap", OPERATOR), 404),
    (("PUT", "/domains//pip", ADMIN, "{}"), 404), (("PUT", "/domains/acme/pip/", ADMIN, "{}"), 404),
    (("POST", "/domains/acme/pip", ADMIN, "{}"), 405), (("DELETE", "/domains/acme/pap/root", ADMIN), 405),
    (("PUT", "/operator/domains", OPERATOR), 405),
    (("POST", "/domains/acme/pap/policies", ADMIN, TEXT, MEDIA), 415),
    (("PUT", "/domains/acme/pap/root", ADMIN, "{}", "Content-Type: application/json\r\n" * 2), 415),
    (("POST", "/operator/domains/acme/tokens", OPERATOR, "{}", MEDIA), 415),
]
ADMITTED = [
    (("POST", "/domains/acme/pap/policies", ADMIN, TEXT), 201),
    (("POST", "/domains/acme/pap/policies", ADMIN, TEXT), 200),
    (("POST", "/domains/acme/pap/policies?x=1", ADMIN, "{", "Content-Type: application/json; charset=utf-8\r\n"), 400),
    (("PUT", "http://pdp.example/domains/acme/pip", ADMIN, '{"Row":[]}'), 200),
    (("PUT", "/domains/acme/pap/policy/urn%3Ax/01.0/active", ADMIN), 200),
    (("DELETE", "/domains/acme/pap/policy/urn:x/1.0", ADMIN), 409),
    (("DELETE", "/domains/acme/pap/policy/urn:x/1.0/active", ADMIN, "a body that nobody reads"), 200),
    (("DELETE", "/domains/acme/pap/policy/urn:x/1.0", ADMIN), 200),
    (("DELETE", "/domains/acme/pap/policy/urn:x/1.0", ADMIN), 404),
    (("PUT", "/operator/domains/acme", OPERATOR), 409), (("PUT", "/operator/domains/Acme", OPERATOR), 400),
    (("DELETE", "/operator/domains/nobody", OPERATOR), 404),
]
# bodies of the operator's token routes: pdpd has to answer what the log keeps as it answers what was sent
TOKEN_BODIES = [
    '{"Role":"ask","Token":"secret-token-1"}', '{"Token":"secret-token-2","Role":"admin"}',
    '{"Role":"ask","Token":"short"}',
    '{"Role":"ask","Token":"' + "s" * 65 + '"}', '{"Role":"secret-role-1","Token":"secret-token-3"}',
    '{"Role":"ask","Scope":"secret-scope-1","Token":"secret-token-4"}', '{"Role":"ask"}', '{"Token":"secret-token-5"}',
    '{"Role":"ask","Token":1}', '{"Role":"ask","Token":["secret-token-6"]}', '{"Role":"ask","Token":{"secret":1}}',
    '{"Role":"ask","Token":"secret-token-7"', '["secret-token-8"]', '"secret-token-9"', "7", "null", "", "{}",
    '{"Role":"ask","Token":"secret-token-a","Token":"secret-token-b"}', '{"Role":"ask","Token":"secret token"}',
    '{"Role":"ask","Token":"\\ud800secret-token"}', '{"Role":"ask","Token":NaN}', '{"Role":"ask","Token":1e999}',
    "\ufeff" + '{"Role":"ask","Token":"secret-token-c"}', '{"Role":"ask","Token":"secret\\u002dtoken-d"}',
    '{"Role":"ask","X":' + "[" * 200 + "]" * 200 + ',"Token":"secret-token-e"}',
    ' {"Role" : "ask", "Token" : "secret-token-f"} ',
    '{"Role":"ask","Token":"secret-token-1"} x', '{"Role":1,"Token":"secret-token-g"}',
]


def entries_of(logged):
    return list(changes_in(segments_in([logged.archive])))


def routes():
    """Each is answered as by a pdpd without a daemon; only what may change something is in the archive."""
    with Logged("routes") as logged, Served(PROGRAM, str(folder / "bare.db"), str(logged.token_file)) as bare:
        expect("a domain is made", logged.make_domain(), [201, 200, 200, 201, 200, 200, 200])
        for change in entries_of(logged):
            head, body = change.entry.head, change.body().decode()
            token = next((value.split()[1] for name, value in head["fields"] if name == "authorization"), OPERATOR)
            bare.once(message(head["method"], head["path"], token, body))
        for held, status in [*REFUSED, *ADMITTED]:
            before = len(entries_of(logged))
            found, wanted = logged.change(passed_on(*held)), bare.once(passed_on(*held))[0]
            expect(f"{held[:3]} is answered", (status_of(found), found), (status, wanted))
            expect(f"{held[:3]} is appended", len(entries_of(logged)) - before, int((held, status) in ADMITTED))
        expect("the decision route isn't passed on",
               status_of(logged.change(passed_on("POST", "/domains/acme/pdp", ASKS, '{"Request":{}}'))), 404)
        two = f"PUT /domains/acme/pip HTTP/1.1\r\nAuthorization: Bearer {kept(ADMIN)}\r\n" * 2
        head = two.replace("PUT /domains/acme/pip HTTP/1.1\r\n", "", 2).join(
            ["PUT /domains/acme/pip HTTP/1.1\r\n", "Content-Length: 2\r\n\r\n{}"])
        expect("two tokens", status_of(logged.change(head.encode())), 401)


def tokens():
    """No token stands in the archive, whatever its body is like; and each body is answered as pdpd answers it."""
    with Logged("tokens") as logged, Served(PROGRAM, str(folder / "clear.db"), str(logged.token_file)) as clear:
        logged.make_domain()
        clear.once(message("PUT", "/operator/domains/acme", OPERATOR))
        for method in ("POST", "DELETE"):
            for body in TOKEN_BODIES:
                held = message(method, "/operator/domains/acme/tokens", OPERATOR, body)
                expect(f"{method} {body[:60]!r}", logged.change(held), clear.once(held)[0])
        data = b"".join(segment.data() for segment in segments_in([logged.archive]))
        expect("what is secret in the archive", [word for word in (b"secret", OPERATOR.encode(), ADMIN.encode(),
                                                                   ASKS.encode()) if word in data], [])
        expect("what a token opens", status_of(logged.read(passed_on("GET", "/domains/acme/pip", ADMIN))[0]), 200)
        in_log = message("GET", "/domains/acme/pip", kept(kept(ADMIN)))
        expect("what the log has opens nothing", status_of(logged.read(in_log)[0]), 401)


def blanks():
    """A field with thousands of blanks in its value holds nobody up, whose token isn't known."""
    with Logged("blanks") as logged:
        logged.make_domain()
        for blank in (" ", "\t", " \t"):
            value = f"{blank}a{blank * 7_900}b{blank}"
            began = time.monotonic()
            found = logged.change(f"PUT /domains/acme/pip HTTP/1.1\r\nX-Any:{value}\r\nContent-Length: 2\r\n\r\n{{}}"
                                  .encode())
            expect(f"{blank!r} is answered", (status_of(found), time.monotonic() - began < 3.0), (401, True))
        shown = f"Authorization: \t Bearer {kept(ADMIN)} \t"
        found = logged.change(f"PUT /domains/acme/pip HTTP/1.1\r\n{shown}\r\nContent-Length: 10\r\n\r\n"
                              '{"Row":[]}'.encode())
        expect("blanks around a value", status_of(found), 200)


def going_over():
    """A store from before: its tokens are put in both forms, then the proxy puts digests in their place, and nobody is
    locked out at any time."""
    with Logged("over") as logged:
        make = [("PUT", "/operator/domains/acme", None),
                *(("POST", "/operator/domains/acme/tokens", json.dumps({"Role": "admin", "Token": one}))
                  for one in (ADMIN, kept(ADMIN)))]
        held = [message(method, path, OPERATOR, body) for method, path, body in make]
        expect("in both forms, by pdpd alone", [status_of(one) for one in logged.past_the_log(*held)],
               [201, 200, 200])
        read = "GET", "/domains/acme/pap/policies"
        expect("before", status_of(logged.read(message(*read, ADMIN))[0]), 200)
        expect("behind", status_of(logged.read(passed_on(*read, ADMIN))[0]), 200)
        expect("a change behind",
               status_of(logged.change(passed_on("POST", "/domains/acme/pap/policies", ADMIN, TEXT))), 201)
        logged.make_domain("beta")
        expect("check leaves out what was there before", log("check", "--archive", logged.archive), (
            0, f"{logged.archive}: 7 changes, 0 replies that replay gives otherwise, 0 checkpoints\n  left out, since "
            "they were there before the archive began: acme\n".encode(), ""))
        said = log("state", "--archive", logged.archive, "--domain", "acme", "--at", str(time.time()), folder / "older")
        expect("its state isn't known", (said[0], "was there before its archive began" in said[2]), (2, True))
        logged.change(message("DELETE", "/operator/domains/acme", OPERATOR))
        logged.make_domain()
        said = log("state", "--archive", logged.archive, "--domain", "acme", "--at", str(time.time()), folder / "older")
        expect("once it was removed, it is", (said[0], said[2]), (0, ""))
        expect("check, too", log("check", "--archive", logged.archive)[1].splitlines()[0],
               f"{logged.archive}: 14 changes, 0 replies that replay gives otherwise, 0 checkpoints".encode())


def file_sizes():
    """A pdpd that answers 503 gets the change again until it takes it, and nothing behind it passes."""
    with Logged("sizes") as logged:
        # Python has SIGXFSZ ignored, as pdpd-run has
        logged.pdpd.kill()
        logged.start_pdpd(restore_signals=False)
        logged.make_domain()
        process = logged.pdpd.process.pid
        before = resource.prlimit(process, resource.RLIMIT_FSIZE, (1, resource.RLIM_INFINITY))
        texts = [policy(policy_id=f"urn:s{number}") for number in range(3)]
        found = {}

        def upload(number):
            held = passed_on("POST", "/domains/acme/pap/policies", ADMIN, texts[number])
            found[number] = status_of(logged.change(held))
        clients = [threading.Thread(target=upload, args=(number,)) for number in range(3)]
        for client in clients:
            client.start()
        expect("an entry waits", wait_until(lambda: len(entries_of(logged)) == 8), True)
        time.sleep(0.5)
        expect("nothing passes it", (len(entries_of(logged)), found), (8, {}))
        resource.prlimit(process, resource.RLIMIT_FSIZE, before)
        for client in clients:
            client.join()
        expect("all are made then", found, {0: 201, 1: 201, 2: 201})


def refusing():
    """No room on the disk: 503, and nothing is appended; reading goes on."""
    with Logged("room", room=2 ** 62) as logged:
        expect("without room", logged.change(message("PUT", "/operator/domains/acme", OPERATOR)), UNAVAILABLE)
        expect("nothing is appended", list(logged.archive.glob("*.log")), [])
        logged.kill_daemon()
        logged.room = 1
        logged.start_daemon()
        expect("with room", status_of(logged.change(message("PUT", "/operator/domains/acme", OPERATOR))), 201)


def away():
    """A pdpd that is away: no change is taken, since nobody says who may make it; and another operator's token."""
    with Logged("away") as logged:
        logged.make_domain()
        logged.pdpd.kill()
        held = passed_on("POST", "/domains/acme/pap/policies", ADMIN, TEXT)
        expect("while it is away", logged.change(held), UNAVAILABLE)
        logged.start_pdpd()
        expect("once it is back", status_of(logged.change(held)), 201)
        # the file has another first token than the one with which pdpd was started
        logged.token_file.write_text(f"operator-token-2\n{OPERATOR}\n")
        for token in ("operator-token-2", OPERATOR):
            expect(f"the operator changes to {token}",
                   status_of(logged.change(message("PUT", f"/operator/domains/{token}", token))), 201)
        logged.token_file.write_text("operator-token-2\n")
        held = message("PUT", "/operator/domains/b", OPERATOR)
        expect("the old one is taken away", status_of(logged.change(held)), 401)
        logged.token_file.write_text(f"{OPERATOR}\n")
        expect("that one is in no entry", [change.entry.head for change in entries_of(logged) if "operator-token" in
                                           json.dumps([change.entry.head["fields"], change.body().decode()])], [])


def odd_clients():
    """What HAProxy would not send; and clients that give nothing, which hold nobody up for long."""
    with Logged("odd") as logged:
        logged.make_domain()
        head = f"PUT /domains/acme/pip HTTP/1.1\r\nAuthorization: Bearer {kept(ADMIN)}\r\n".encode()
        whole = head + b'Content-Length: 10\r\n\r\n{"Row":[]}'
        for what, data, status in (
                ("no version", b"PUT /x\r\n\r\n", 400), ("a field without a name", head + b": x\r\n\r\n", 400),
                ("a folded field", head + b"A: x\r\n y\r\n\r\n", 400),
                ("a line feed alone", head + b"A: x\ny\r\n\r\n", 400),
                ("two lengths", head + b"Content-Length: 1\r\nContent-Length: 2\r\n\r\n{}", 400),
                ("a length that is none", head + b"Content-Length: +2\r\n\r\n{}", 400),
                ("a coding", head + b"Transfer-Encoding: chunked\r\n\r\n0\r\n\r\n", 501),
                ("a long body", head + b"Content-Length: 524289\r\n\r\n", 413),
                ("a head without an end", b"PUT / HTTP/1.1\r\nA: " + b"x" * 30_000, 0),
                ("a message behind it", whole + b"DELETE / HTTP/1.1\r\n\r\n", 200)):
            expect(what, status_of(logged.change(data)), status)
        silent = [socket.create_connection(("127.0.0.1", logged.port)) for _ in range(40)]
        began = time.monotonic()
        expect("behind 40 that are silent", status_of(logged.change(whole)), 200)
        expect("it didn't wait long", time.monotonic() - began < 30, True)
        for one in silent:
            one.close()
        held = passed_on("PUT", "/domains/acme/pip", ADMIN, rows_body(520_000))
        expect("a long body is taken", status_of(logged.change(held)), 200)


def damaged():
    """A damaged archive isn't opened: a line says what to do."""
    with Logged("hurt") as logged:
        logged.make_domain()
        logged.kill_daemon()
        (path,) = logged.archive.glob("*.log")
        data = bytearray(path.read_bytes())
        data[300] ^= 4
        path.write_bytes(data)
        expect("it doesn't listen", logged.start_daemon(), b"")
        expect("its status", logged.daemon.wait(), 3)
        expect("what it says", "put this file back from a copy" in logged.said(), True)
        expect("nothing went", path.read_bytes(), bytes(data))


PARTS = (routes, tokens, blanks, going_over, file_sizes, refusing, away, odd_clients, damaged)
