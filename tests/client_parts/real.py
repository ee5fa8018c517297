"""The client beside the real program: what it sends is understood as it was meant."""
import asyncio
import collections
import json
import os
import threading
from datetime import date, datetime, time, timedelta, timezone

from .servers import Relay
from .shared import ADMIN, Acme, expect, match, policy_of, raised, rule

from pdp_client import AsyncDomain, Domain, Listed, Typed, row  # noqa: E402, found by shared

EAST = timezone(timedelta(hours=2))
FUNCTION_3 = "urn:oasis:names:tc:xacml:3.0:function"
# a value, its data type and text by XML Schema, and a value that isn't equal
VALUES = [
    ("strasse", "string", "strasse", "straße"),
    ("straße \u2028 \U0001f511", "string", "straße \u2028 \U0001f511", "strasse"),
    (True, "boolean", "true", False),
    (-2**63, "integer", "-9223372036854775808", -2**63 + 1),
    (2**63 - 1, "integer", "9223372036854775807", 0),
    (date(2026, 2, 28), "date", "2026-02-28Z", date(2026, 3, 1)),
    (time(9, 30, 0, 250_000, timezone.utc), "time", "09:30:00.25Z", time(9, 30, tzinfo=timezone.utc)),
    (time(9, 30, tzinfo=EAST), "time", "07:30:00Z", time(9, 30, tzinfo=timezone.utc)),
    (datetime(2026, 11, 23, 12, tzinfo=EAST), "dateTime", "2026-11-23T10:00:00Z",
     datetime(2026, 11, 23, 12, tzinfo=timezone.utc)),
    (datetime(1, 1, 1, tzinfo=timezone.utc), "dateTime", "0001-01-01T00:00:00Z",
     datetime(9999, 12, 31, 23, 59, 59, 999_999, timezone.utc)),
    (timedelta(days=1, hours=1), "dayTimeDuration", "PT25H", timedelta(days=1)),
    (timedelta(days=-1, microseconds=500_000), "dayTimeDuration", "-PT23H59M59.5S", timedelta(days=-1)),
    (timedelta(days=3_652_500), "dayTimeDuration", "P3652500D", timedelta(0)),
    (b"\x00\xff\x10", "base64Binary", "AP8Q", b"\x00\xff"),
    (b"", "base64Binary", "", b"\x00"),
    (Typed("anyURI", "https://a.example/"), "anyURI", "https://a.example/", Typed("string", "https://a.example/")),
    (Typed("hexBinary", "0fB8"), "hexBinary", "0FB8", Typed("hexBinary", "0f")),
]


def values():
    """Each type of Python is the type of XACML that it stands for: a policy that compares it with its text permits."""
    function = {"dayTimeDuration": FUNCTION_3}
    with Acme() as acme:
        rules = [rule(f"r{place}", match("Resource", json.loads(text) if kind in ("boolean", "integer") else text,
                                         f"urn:v:{place}", kind, *([function[kind]] if kind in function else [])))
                 for place, (_, kind, text, _) in enumerate(VALUES)]
        acme.decides_by(policy_of("1.0", *rules))
        asked = [{"resource": {f"urn:v:{place}": value}} for place, (*_, other) in enumerate(VALUES)
                 for value in (VALUES[place][0], other)]
        found = acme.domain().decide_many(asked)
        for place, (value, *_) in enumerate(VALUES):
            expect(f"{value!r} is what its text says", found[2 * place].decision, "Permit")
            expect(f"and nothing else is {value!r}", found[2 * place + 1].decision, "Deny")
        one = acme.domain()
        expect("a list has all its values", bool(one.decide(resource={"urn:v:0": ["a", "strasse"]})), True)
        expect("and so has a set", bool(one.decide(resource={"urn:v:0": {"a", "strasse"}})), True)
        expect("values of two types", bool(one.decide(resource={"urn:v:3": ["a", -2**63]})), True)
        expect("an empty list is no value", one.decide(resource={"urn:v:0": []}).decision, "Deny")
        expect("nothing at all", one.decide().decision, "Deny")
        expect("no question", one.decide_many([]), [])


PEOPLE = policy_of("1.0", rule("own", match("AccessSubject", "ann"), match("Resource", "even", "urn:example:parity")),
                   rule("all", match("AccessSubject", "root"), match("Action", "read"),
                        match("Environment", "inside", "urn:example:from"),
                        match("urn:example:category", "yes", "urn:example:extra")))


def several():
    """Many decisions: each question has its own answer, whatever they share, in as few messages as there may be."""
    with Acme() as acme, Relay(acme.served.port) as relay:
        acme.decides_by(PEOPLE)
        domain = acme.domain(relay.url)
        names = ["ann", "ben", "root"]
        asked = [{"subject": names[n % 3],
                  "resource": {"id": str(n), "urn:example:parity": "odd" if n % 2 else "even"},
                  "action": {"id": "read"}} for n in range(150)]
        found = domain.decide_many(asked)
        expect("150 answers", [bool(each) for each in found], [n % 3 == 0 and n % 2 == 0 for n in range(150)])
        expect("three messages", relay.messages, 3)
        domain.decide_many(asked, at_once=50)
        expect("of at most 50 each", relay.messages, 6)
        seen = domain.permitted([each["resource"] for each in asked], subject="ann", action="read")
        expect("what ann may see", [each["id"] for each in seen], [str(n) for n in range(0, 150, 2)])
        expect("nothing is asked for nothing", (domain.permitted([], subject="ann"), relay.messages), ([], 9))
        expect("a text alone is an id", bool(domain.decide("ann", {"id": "x", "urn:example:parity": "even"}, "read")),
               True)
        whole = {"subject": "root", "action": "read", "environment": {"urn:example:from": "inside"},
                 "others": {"urn:example:category": {"urn:example:extra": "yes"}}}
        expect("further categories", bool(domain.decide(**whole)), True)
        for lacks in whole:
            expect(f"and none without {lacks}", bool(domain.decide(**{**whole, lacks: None})), False)
        large = [{"subject": "ann", "resource": {"urn:example:parity": ["even", "x" * 30_000 + str(n)]}}
                 for n in range(40)]
        before = relay.messages
        expect("40 large ones are permitted", [bool(each) for each in domain.decide_many(large)], [True] * 40)
        expect("in four messages, by halves", relay.messages - before, 4)
        before = relay.messages
        fault, said = raised(domain.decide, {"urn:a": "x" * 524_288})
        expect(f"one that is too large isn't sent: {said}", (fault, "524288" in said, relay.messages - before),
               ("Unsendable", True, 0))
        spoilt = [{"resource": {"urn:a": Typed("urn:x:unknown", "1")}}, asked[0]]
        expect("what spoils a request is Indeterminate for all that are in it",
               [(each.decision, each.status) for each in domain.decide_many(spoilt)],
               [("Indeterminate", "syntax-error")] * 2)


def obligations():
    """Permit grants only with obligations that are understood, and those are carried out."""
    with Acme() as acme:
        acme.decides_by(policy_of("1.0", rule("ann", match("AccessSubject", "ann")), obligations=[
            ("urn:example:log", "Permit"), ("urn:example:mark", "Permit"), ("urn:example:alarm", "Deny")]))
        for understood, is_granted in (((), False), (["urn:example:log"], False), (["urn:other"], False),
                                       (["urn:example:log", "urn:example:mark"], True)):
            decision = acme.domain(understood=understood).decide("ann")
            expect(f"Permit to who understands {understood}", (decision.decision, bool(decision)),
                   ("Permit", is_granted))
            expect("its property says the same", decision.permit, is_granted)
            expect("the rest is named", decision.not_understood,
                   [name for name in ("urn:example:log", "urn:example:mark") if name not in understood])
        expect("Deny stays Deny", bool(acme.domain(understood=["urn:example:alarm"]).decide("ben")), False)
        done = []
        handlers = {f"urn:example:{name}": lambda each: done.append((each.id[12:], each.values("urn:example:who")))
                    for name in ("log", "alarm")}
        decision = acme.domain().decide("ann")
        expect("one without a handler: nothing is done or granted", (decision.enforce(handlers), done), (False, []))
        handlers["urn:example:mark"] = handlers["urn:example:log"]
        expect("with all handlers", (decision.enforce(handlers), done), (True, [("log", ["ann"]), ("mark", ["ann"])]))
        done.clear()
        expect("those of a Deny", (acme.domain().decide("ben").enforce(handlers), done), (False, [("alarm", ["ben"])]))
        handlers["urn:example:mark"] = lambda _: 1 / 0
        try:
            expect("a handler that fails grants nothing", decision.enforce(handlers), "no answer")
        except ZeroDivisionError:
            expect("a handler that fails is told", True, True)


def administration():
    """Domains, tokens, policies, root and rows."""
    with Acme() as acme:
        operator, admin = acme.operator, acme.admin
        operator.create("other")
        expect("the domains", operator.domains(), ["acme", "other"])
        expect("one that exists", raised(operator.create, "other")[0], "Refused")
        operator.give_token("other", "admin", ADMIN)
        expect("the same token in another", Domain(acme.url, "other", ADMIN).policies(), [])
        operator.take_token("other", ADMIN)
        fault, said = raised(Domain(acme.url, "other", ADMIN).policies)
        expect(f"and no more: {said}", (fault, "401 Unauthorized: the token isn't" in said), ("Refused", True))
        operator.remove("other")
        expect("one domain is left", operator.domains(), ["acme"])
        document = policy_of("1.0", rule("r", match("AccessSubject", "yes", "urn:example:röle/x")))
        document["Policy"]["PolicyId"] = "urn:example:röle/100%"
        named = ("policy", "urn:example:röle/100%", "1.0")
        text = json.dumps(document)
        expect("an upload, and the same again", (admin.upload(text), admin.upload(text.encode())), (True, False))
        fault, said = raised(admin.upload, json.dumps(document, indent=1))
        expect(f"other text: {said}", (fault, said.endswith("id and version: take a new version")), ("Refused", True))
        expect("the list", admin.policies(), [Listed(*named, False)])
        expect("the text", admin.show(*named), text.encode())
        expect("by any message", admin.message("GET", "pip"), b'{"Row":[]}')
        expect("a change", admin.message("PUT", "pip", b'{"Row":[]}'), b"{}")
        for words in (("GET", "pip\r\nX: y"), ("GET", "p p"), ("get", "pip"), ("GET", ""), ("GET X", "pip")):
            expect(f"{words} isn't sent", raised(admin.message, *words)[0], "Unsendable")
        admin.activate(*named)
        expect("it is active", admin.policies(), [Listed(*named, True)])
        fault, said = raised(admin.upload, '{"Policy": {}}')
        expect(f"a document with a fault: {said}", (fault, "`policy check` of the author's desk says" in said),
               ("Refused", True))
        expect("what is active isn't deleted", raised(admin.delete, *named)[0], "Refused")
        admin.set_root("policy", named[1], EarliestVersion="1.0")
        admin.set_rows([row("AccessSubject", "ann", "urn:example:röle/x", "yes"),
                        row("Resource", "r", "urn:example:at", datetime(2026, 1, 1, tzinfo=EAST),
                            issuer="urn:example:hr")])
        expect("the rows", [(each["Entity"], each["Value"], each.get("Issuer")) for each in admin.rows()],
               [("ann", "yes", None), ("r", "2026-01-01T00:00:00+02:00", "urn:example:hr")])
        expect("they count", [bool(acme.domain().decide(name)) for name in ("ann", "ben")], [True, False])
        admin.set_rows(admin.rows())
        expect("set as they are shown", len(admin.rows()), 2)
        expect("asking tokens administer nothing", raised(acme.domain().set_rows, [])[0], "Refused")
        admin.set_root(None)
        expect("without a root", acme.domain().decide("ann").decision, "NotApplicable")
        admin.withdraw(*named)
        admin.delete(*named)
        expect("nothing is left", admin.policies(), [])


class Snatched(collections.deque):
    """What waits, as a thread sees it of which another one takes the last connection a moment later."""

    def __bool__(self):
        return True


def threads():
    """Kept connections over threads and processes: each has the answers to its own questions."""
    with Acme() as acme, Relay(acme.served.port) as relay:
        acme.decides_by(PEOPLE)
        even, odd = ({"urn:example:parity": parity} for parity in ("even", "odd"))
        with acme.domain(relay.url) as domain:
            expect("each closes", [bool(domain.decide("ann", even)) for _ in range(5)], [True] * 5)
            expect("a connection each", relay.connections, 5)
        with acme.domain(relay.url, keep=30) as domain:
            domain._kept = Snatched()
            expect("another thread takes the last that waits", domain.decide("ann", even).permit, True)
            expect("and while they are closed", raised(domain.close), ("", None))
        before = relay.connections
        with acme.domain(relay.url, keep=30, seconds=60) as domain:
            expect("one connection", [bool(domain.decide("ann", each)) for each in (even, odd) * 10],
                   [True, False] * 10)
            expect("for twenty messages", relay.connections - before, 1)
            wrong, lock = [], threading.Lock()

            def asks(number):
                for turn in range(20):
                    found = bool(domain.decide("ann", even if (number + turn) % 2 else odd))
                    if found != bool((number + turn) % 2):
                        with lock:
                            wrong.append((number, turn))
            asking = [threading.Thread(target=asks, args=(number,)) for number in range(6)]
            for each in asking:
                each.start()
            for each in asking:
                each.join()
            expect("no thread has another's answer", wrong, [])
            expect("and 120 messages had few connections", relay.connections < 40, True)
            before = domain.decide("ann", even)
            child = os.fork()
            if child == 0:
                right = all(bool(domain.decide("ann", odd)) is False for _ in range(5))
                os._exit(0 if before and right else 1)
            found = [bool(domain.decide("ann", even)) for _ in range(20)]
            expect("a process and its copy don't mix answers", (os.waitpid(child, 0)[1], found), (0, [True] * 20))


def keeps_and_changes():
    """One that keeps its connection doesn't wait for itself: a change goes by another, at a server that serves one
    connection after another."""
    with Acme(idle=300) as acme:
        acme.decides_by(PEOPLE)
        with Domain(acme.url, "acme", ADMIN, keep=300, seconds=30) as domain:
            for _ in range(3):
                expect("a decision", domain.decide("ben").decision, "Deny")
                domain.set_rows([])
                expect("and a reading", domain.rows(), [])


def under_asyncio():
    """The same calls under asyncio, many at once."""
    with Acme() as acme:
        acme.decides_by(PEOPLE)
        domain = AsyncDomain(acme.domain(seconds=60))
        even, odd = ({"urn:example:parity": parity} for parity in ("even", "odd"))

        async def all_of_it():
            found = await asyncio.gather(*(domain.decide("ann", even if n % 3 else odd) for n in range(30)))
            expect("thirty at once", [bool(each) for each in found], [bool(n % 3) for n in range(30)])
            expect("several", [bool(each) for each in await domain.decide_many(
                {"subject": name, "resource": even} for name in ("ann", "ben"))], [True, False])
            expect("what may be seen", await domain.permitted([even, odd], subject="ann"), [even])
            expect("as a task", (await asyncio.create_task(domain.decide("ann", even))).permit, True)
            for asked in (domain.decide("ben", even), domain.decide_many([]), domain.permitted([])):
                expect("one that isn't awaited isn't true", raised(bool, asked)[0], "Unsendable")
                asked.close()
        asyncio.run(all_of_it())
