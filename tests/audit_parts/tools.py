"""pdpd-log over an archive of known changes: what it tells of them, and what it works out again."""
import base64
import hashlib
import json
import os
import random
import re
import shutil
import subprocess
import time

from log import audit
from log.archive import segments_in
from log.history import by_archive, changes_in
from log.past import past_of
from serving import OPERATOR, decided, policy

from .shared import PROGRAM, SEED, TOP, Logged, expect, folder, kept, log, passed_on, status_of

WARD = TOP / "examples" / "ward"
ALICE = WARD / "request-alice.json"
ACTIVE = "/domains/acme/pap/policy/urn:example:ward:records/1.0/active"
FURTHER = 12
DEAD = decided("NotApplicable").partition(b"\r\n\r\n")[2] + b"\n"


class Walk:
    """An archive of a random walk, with the decisions that pdpd gave after each of its changes."""

    def __init__(self, logged):
        self.logged, self.chance, self.told = logged, random.Random(SEED), []

    def change(self, method, path, token, body=None):
        self.logged.change(passed_on(method, path, token, body))
        time.sleep(0.002)
        for person in ("alice", "bob"):
            request = (WARD / f"request-{person}.json").read_bytes()
            begin = time.time()
            reply = self.logged.read(passed_on("POST", "/domains/acme/pdp", "acme-asks-1", request))[0]
            self.told.append((begin, time.time(), person, reply))

    def step(self):
        rows = json.loads((WARD / "rows.json").read_text())["Row"]
        kind = self.chance.randrange(6)
        if kind == 0:
            self.change(self.chance.choice(("PUT", "DELETE")), ACTIVE, "acme-admin-1")
        elif kind == 1:
            kept_rows = [row for row in rows if self.chance.random() < 0.9]
            self.change("PUT", "/domains/acme/pip", "acme-admin-1", json.dumps({"Row": kept_rows}))
        elif kind == 2:
            root = self.chance.choice(({}, {"PolicyIdReference": {"Id": "urn:example:ward:records"}}))
            self.change("PUT", "/domains/acme/pap/root", "acme-admin-1", json.dumps(root))
        elif kind == 3:
            name, version = f"urn:p/é {self.chance.randrange(5)}", f"1.0{self.chance.randrange(3)}"
            self.change("POST", "/domains/acme/pap/policies", "acme-admin-1", policy("Permit", name, version))
        elif kind == 4:
            body = {"Role": self.chance.choice(("ask", "admin")), "Token": f"token-of-walk-{self.chance.randrange(40)}"}
            self.change("POST", "/operator/domains/acme/tokens", OPERATOR, json.dumps(body))
        else:
            target = f"/domains/acme/pap/policy/urn%3Ap%2F%C3%A9%20{self.chance.randrange(5)}/1.{self.chance.randrange(3)}"
            method, end = self.chance.choice((("PUT", "/active"), ("DELETE", ""), ("DELETE", "/active")))
            self.change(method, target + end, "acme-admin-1")


def walk():
    """A walk, and the archive that it leaves."""
    with Logged("walk") as logged:
        expect("a domain is made", logged.make_domain(), [201, 200, 200, 201, 200, 200, 200])
        walked = Walk(logged)
        for _ in range(FURTHER):
            walked.step()
        # no token has room then
        for number in range(32):
            logged.change(passed_on("POST", "/operator/domains/acme/tokens", OPERATOR,
                                    json.dumps({"Role": "ask", "Token": f"token-of-walk-{number}"})))
        for _ in range(4):
            walked.step()
        logged.make_domain("other")
        return logged.archive, walked.told


def past_decisions():
    """Each decision that pdpd gave is worked out again, from a checkpoint and from all messages."""
    archive, told = walk()
    os.environ["PDPD"] = PROGRAM
    past = past_of(by_archive([archive]), "acme")
    for place, (begin, _, person, reply) in enumerate(told):
        asked = past, begin, (WARD / f"request-{person}.json").read_bytes()
        for how in (audit.decide, audit.decide_by_all):
            found = [(number, one.data) for number, one in how(*asked)]
            expect(f"decision {place}, {how.__name__}", found, [(0, reply)])
    begin, _, person, reply = told[0]
    words = ["--archive", archive, "--domain", "acme", "--at", f"{begin:.6f}", WARD / f"request-{person}.json"]
    for more in ([], ["--all"]):
        wanted = 0, reply.partition(b"\r\n\r\n")[2] + b"\n", ""
        expect("a decision by the command", log("decide", *more, *words), wanted)
    decisions_of(archive, told)
    forged_decisions(archive, told)
    states(archive, told)
    faults(archive)


def line_of(begin, end, person, reply, **more):
    """A line of HAProxy's decision log."""
    digest = hashlib.sha256(reply.partition(b"\r\n\r\n")[2]).hexdigest().upper()
    request = base64.b64encode((WARD / f"request-{person}.json").read_bytes()).decode()
    return {"begin": int(begin * 1e6), "end": int(end * 1e6), "domain": "acme", "who": "-", "status": status_of(reply),
            "reply": digest, "request": request, **more}


def verified(archive, lines):
    path = folder / "decisions"
    path.write_text("".join(f"{line if isinstance(line, str) else json.dumps(line)}\n" for line in lines))
    status, out, said = log("verify", "--archive", archive, path)
    return status, out.decode().splitlines()[-1:], said


def decisions_of(archive, told):
    lines = [line_of(*one) for one in told]
    expect("all lines", verified(archive, lines),
           (0, [f"{len(lines)} same, 0 other, 0 refused, 0 unverified"], ""))
    hashed = dict(lines[0], request_digest="00")
    del hashed["request"]
    refused = dict(lines[0], status=503)
    expect("lines that say less", verified(archive, [lines[0], hashed, refused, json.dumps(lines[1])[:-5], "", "x"]),
           (0, ["1 same, 0 other, 1 refused, 3 unverified"], ""))


def forged_decisions(archive, told):
    """A line that says another reply, moment, domain or request than there was."""
    by_reply = {}
    for one in told:
        by_reply.setdefault(one[3], one)
    first, second = list(by_reply.values())[:2]
    for what, line in (("a reply", line_of(*first[:3], second[3])), ("a domain", line_of(*first, domain="other")),
                       ("a domain that isn't there", line_of(*first, domain="nobody")),
                       ("a moment", line_of(told[0][0] - 3_600, told[0][0] - 3_600, *first[2:])),
                       ("a request", line_of(*first, request=base64.b64encode(b"{").decode()))):
        expect(f"another one: {what}", verified(archive, [line]), (1, ["0 same, 1 other, 0 refused, 0 unverified"], ""))


def states(archive, told):
    """A state as a folder, what differs between two, and the changes in words."""
    at, to = f"{told[0][0]:.6f}", folder / "then"
    status, out, said = log("state", "--archive", archive, "--domain", "acme", "--at", at, to)
    expect("a state is written", (status, len(out.splitlines()) >= 3, said), (0, True, ""))
    held = json.loads((to / "domain.json").read_text())
    expect("its domain", (held["Domain"], held["Rows"]), ("acme", "rows.json"))
    status, out, said = log("state", "--archive", archive, "--domain", "acme", "--at", at, to)
    expect("it isn't written over", (status, "isn't empty" in said), (2, True))
    changes = [change for change in changes_in(segments_in([archive])) if change.domain() == "acme"]
    ends = [f"{changes[place].ended():.6f}" for place in (2, 3, 6)]
    of_acme = ["--archive", archive, "--domain", "acme"]
    for more in (["--random", "40"], ["--requests", ALICE]):
        expect(f"what is made of an upload, {more[0]}", *compared(of_acme, ends[1], ends[2], more))
    expect("what an upload makes", log("diff", *of_acme, "--from", ends[0], "--to", ends[1]),
           (0, b"kept       policy urn:example:ward:records 1.0, not active\n"
               b"Documents, root and rows are the same.\n", ""))
    status, out, _ = log("diff", *of_acme, "--from", "0", "--to", ends[0])
    expect("what the first changes make", (status, [line.split()[0] for line in out.decode().splitlines()]),
           (0, ["the", "token", "token", "Documents,"]))
    explained(archive, ends[2])
    admin = hashlib.sha256(kept("acme-admin-1").encode()).hexdigest()[:8]
    status, out, said = log("changes", "--archive", archive, "--domain", "acme", "--until", ends[2])
    expect("the changes", (status, [line.split("  ", 2)[2] for line in out.decode().splitlines()], said), (0, [
        "operator  creates the domain  201", f"operator  gives the token {admin}, admin  200",
        f"operator  gives the token {hashlib.sha256(kept('acme-asks-1').encode()).hexdigest()[:8]}, ask  200",
        f"admin {admin}  uploads policy urn:example:ward:records 1.0  201",
        f"admin {admin}  activates policy urn:example:ward:records 1.0  200",
        f'admin {admin}  sets the root {{"PolicyIdReference":{{"Id":"urn:example:ward:records"}}}}  200',
        f"admin {admin}  sets the rows: 0 went, 8 came  200"], ""))
    for since, until, wanted in ((repr(changes[4].began()), repr(changes[5].began()), [5, 6]),
                                 (repr(changes[5].ended()), ends[2], [7])):
        _, out, _ = log("changes", "--archive", archive, "--domain", "acme", "--since", since, "--until", until)
        expect("changes from a moment on", [int(line.split()[0]) for line in out.decode().splitlines()], wanted)
    status, out, said = log("changes", "--archive", archive, "--domain", "acme", "--json")
    expect("all changes", (status, [json.loads(line)["entry"] for line in out.splitlines()]),
           (0, [change.number() for change in changes]))
    expect("while a change was under way", log("decide", "--archive", archive, "--domain", "acme", "--at",
                                               repr(changes[5].began()), ALICE)[1].count(b"\n"), 2)
    expect("before the root was set", log("decide", "--archive", archive, "--domain", "acme", "--at",
                                          repr(changes[4].ended()), ALICE), (0, DEAD, ""))


def compared(of_acme, begin, end, more):
    """The lines of `pdpd-log diff` about what differs, and those that the desk's `diff` has of folders of the two
    moments, which end alike; then what was wanted of both."""
    folders = []
    for at in (begin, end):
        folders.append(folder / f"diff-{at}-{more[0]}")
        log("state", *of_acme, "--at", at, folders[-1])
    status, out, _ = log("diff", *of_acme, "--from", begin, "--to", end, *more)
    found = out.decode().splitlines()
    ran = subprocess.run([TOP / "tools" / "policy" / "policy.py", "diff", *folders, *more], capture_output=True,
                         text=True, check=False)
    wanted = ["new        policy urn:example:ward:records 1.0",
              "root       policy urn:example:ward:records; before no root",
              "rows       0 before, 8 after; 8 new, 0 gone"]
    changes = any(re.fullmatch(r"[1-9][0-9]* of [0-9]+ answers? changes?, by .*", line) for line in found)
    return (status, found[:3], found, changes), (ran.returncode, wanted, ran.stdout.splitlines(), True)


def explained(archive, at):
    """The desk explains in the folder of a state what `decide` says: the root and the rows are those of then."""
    to = folder / "explained"
    log("state", "--archive", archive, "--domain", "acme", "--at", at, to)
    body = json.loads(log("decide", "--archive", archive, "--domain", "acme", "--at", at, ALICE)[1])
    words = ["explain", "--policy", to, "--request", ALICE, "--at", str(int(float(at))), "--json"]
    ran = subprocess.run([TOP / "tools" / "policy" / "policy.py", *words], capture_output=True, text=True, check=False)
    found = json.loads(ran.stdout)
    expect("the explanation comes to the decision", (ran.returncode, found["response"]), (0, body))
    expect("and names the policy", "urn:example:ward:records" in json.dumps(found["results"]), True)


def faults(archive):
    """What is wrong is said in a line, and no more."""
    for words, wanted in ((["changes", "--domain", "acme"], "--archive FOLDER is wanted: there is none in /nowhere"),
                          (["check", "--archive", folder / "nothing"], "is no folder"),
                          (["changes", "--archive", archive, "--domain", "nobody"], "no archive has a change"),
                          (["decide", "--archive", archive, "--domain", "acme", "--at", "noon", ALICE], "is no time"),
                          (["decide", "--archive", archive, "--domain", "acme", "--at", "0", folder / "none"], "none")):
        status, out, said = log(*words)
        expect(f"{words[0]}: {wanted}", (status, out, said.count("\n"), wanted in said), (2, b"", 1, True))
    changed = folder / "changed"
    shutil.copytree(archive, changed)
    (path,) = changed.glob("*.log")
    path.write_bytes(path.read_bytes().replace(b"records/1.0/active", b"records/1.1/active", 1))
    status, _, said = log("check", "--archive", changed)
    expect("an archive that was changed", (status, "is damaged" in said), (2, True))
    status, out, said = log("check", "--archive", archive)
    expect("one that wasn't", (status, b", 0 replies that replay gives otherwise" in out, said), (0, True, ""))
    status, out, _ = log("token", input=b"acme-admin-1\n")
    expect("what stands for a token", (status, out.decode().strip()), (0, kept("acme-admin-1")))


PARTS = (past_decisions,)
