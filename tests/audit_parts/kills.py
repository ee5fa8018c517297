"""The daemon, pdpd and HAProxy, killed (SIGKILL) at random moments of a stream of changes, beside clients that ask.

Then each change that was answered is in the archive once, with that reply; none that wasn't is there twice; the replies
are those of the model of the server in tests/model, which gets the archive's messages in order; the store has the rows
of that model; and each decision that HAProxy has logged meanwhile is worked out again.
"""
import collections
import concurrent.futures
import hashlib
import json
import os
import pathlib
import random
import shutil
import subprocess
import threading
import time

from kept import Model, opened, rows_in
from log.archive import segments_in
from log.history import changes_in
from log.messages import bytes_of_entry
from serving import OPERATOR, message, policy

from .proxied import Proxied, decision_lines, is_there
from .shared import GIVEN, PATIENCE, PROGRAM, SEED, TOP, checks, expect, log, status_of, wait_until

CLIENTS = 4
# how many changes are answered between two kills at the most; how long is waited after one that wasn't
MOST_BETWEEN, PAUSE = 10, 0.1
# how long who asks waits between two asks
BETWEEN_ASKS = 0.5
PROXYS = (0, 502, 503, 504)  # what says nothing of a change, or that it wasn't made
ROW = ('{"Row":[{"Category":"AccessSubject","Entity":"alice","AttributeId":"urn:a","DataType":"string",'
       '"Value":"%s"}]}')


class Client(threading.Thread):
    """A client that changes a domain of its own and one that all have, each time otherwise."""

    def __init__(self, logged, number, is_over):
        super().__init__(daemon=True)
        self.logged, self.number, self.is_over = logged, number, is_over
        self.chance, self.sent = random.Random(SEED + number), []

    def change(self, method, path, token, body=None):
        reply = self.logged.change(message(method, path, token, body))
        self.sent.append((method, path, (body or "").encode(), reply))
        if status_of(reply) in PROXYS:
            time.sleep(PAUSE)

    def round(self, at, name, admin):
        path = f"/domains/{name}/pap"
        self.change("POST", f"{path}/policies", admin, policy(self.chance.choice(("Permit", "Deny")), at))
        self.change("PUT", f"{path}/policy/{at}/1.0/active", admin)
        self.change("PUT", f"{path}/root", admin, json.dumps({"PolicyIdReference": {"Id": at}}))
        self.change("PUT", f"/domains/{name}/pip", admin, ROW % at)
        if self.chance.random() < 0.5:
            self.change("DELETE", f"{path}/policy/{at}/1.0/active", admin)
            self.change("DELETE", f"{path}/policy/{at}/1.0", admin)
        if self.chance.random() < 0.3:
            self.change("PUT", f"/operator/domains/{at.replace(':', '-')}", OPERATOR)

    def run(self):
        number = 0
        while not self.is_over.is_set():
            number += 1
            name = self.chance.choice(("shared", f"own-{self.number}"))
            self.round(f"urn:c{self.number}:{number}", name, f"{name}-admin-1")


class Asker(threading.Thread):
    """A client that asks; HAProxy notes each decision."""

    def __init__(self, logged, number, is_over):
        super().__init__(daemon=True)
        self.logged, self.number, self.is_over, self.answered = logged, number, is_over, 0

    def run(self):
        chance = random.Random(SEED + 100 + self.number)
        while not self.is_over.is_set():
            name = chance.choice(("shared", f"own-{self.number % CLIENTS}"))
            body = '{"Request":{"N":%d}}' % self.number
            reply = self.logged.change(message("POST", f"/domains/{name}/pdp", f"{name}-asks-1", body))
            self.answered += status_of(reply) == 200
            time.sleep(BETWEEN_ASKS * (0.5 + chance.random()))


# what is killed together
KILLED = (("daemon",), ("pdpd",), ("haproxy",), ("daemon", "pdpd"), ("daemon", "haproxy"),
          ("daemon", "pdpd", "haproxy"))


def disturb(logged, chance):
    """Kills the daemon, pdpd, HAProxy or several of them, and starts them again, all at once; which it were."""
    which, pause = chance.choice(KILLED), chance.random() * 0.2
    kill = {"haproxy": logged.kill_haproxy, "daemon": logged.kill_daemon, "pdpd": logged.pdpd.kill}
    start = {"haproxy": logged.run_haproxy, "daemon": logged.start_daemon, "pdpd": logged.start_pdpd}
    for name in reversed(which):
        kill[name]()
    time.sleep(pause)
    with concurrent.futures.ThreadPoolExecutor() as starting:
        for one in [starting.submit(start[name]) for name in which]:
            one.result()
    return which


def wait_for_more(clients, chance):
    """Waits until some more changes are answered, and then a moment, within another one."""
    count = lambda: sum(status_of(sent[3]) not in PROXYS for one in clients for sent in list(one.sent))
    wanted = count() + chance.randrange(MOST_BETWEEN + 1)
    wait_until(lambda: count() >= wanted)
    time.sleep(chance.random() * 0.05)
    return count()


def by_name(rows):
    """The rows of tables, under the names of domains in place of their numbers. Where a change was sent twice a number
    or an epoch may be another one, which no reply shows."""
    names = {row[0]: row[1] for row in rows["domains"]}
    found = {table: sorted(repr((names[row[0]], *row[1:])) for row in held) for table, held in rows.items()
             if table not in ("meta", "domains")}
    return {**found, "domains": sorted(names.values())}


def stored_rows(logged):
    """The rows in a copy of the store's files."""
    copy = logged.folder / "copy"
    copy.mkdir()
    for path in logged.folder.glob("store.db*"):
        shutil.copy(path, copy)
    db = opened(copy / "store.db")
    found = rows_in(db)
    db.close()
    return found


def key_of(method, path, body):
    return method, path, hashlib.sha256(body).hexdigest()


def shown(reply):
    """The status and the body of a reply. (HAProxy has other fields.)"""
    return status_of(reply), reply.partition(b"\r\n\r\n")[2]


def compare(changes, sent):
    """What clients were told, and what the archive has."""
    there = collections.Counter(key_of(change.entry.head["method"], change.entry.head["path"], change.body())
                                for change in changes)
    replies = {key_of(change.entry.head["method"], change.entry.head["path"], change.body()): change
               for change in changes}
    told = [(key_of(*one[:3]), one[3]) for one in sent]
    answered = [(key, reply) for key, reply in told if status_of(reply) not in PROXYS]
    expect("no change is sent twice by the test", len({key for key, _ in told}), len(told))
    expect("changes that were answered and aren't in the archive once",
           [key for key, _ in answered if there[key] != 1], [])
    expect("changes that were answered otherwise than the archive says",
           [key for key, reply in answered if there[key] == 1 and shown(replies[key].reply.body) != shown(reply)], [])
    expect("changes that weren't answered and are there twice", [key for key, _ in told if there[key] > 1], [])
    expect("changes that were answered 503 and are there",
           [key for key, reply in told if b"Unavailable" in reply and there[key]], [])
    return len(answered)


def modelled(changes):
    """The model after all messages of an archive, and the numbers of entries that were answered otherwise."""
    model, wrong = Model(OPERATOR), []
    for change in changes:
        held = bytes_of_entry(change.entry.head, change.body(), OPERATOR)
        found = [model.answer(held)]
        if change.is_again():
            found.append(model.answer(held))
        if change.reply.body not in found:
            wrong.append((change.number(), change.reply.body, found))
    return model, wrong


def domains():
    return ["shared", *(f"own-{number}" for number in range(CLIENTS))]


def disturbed(logged, chance):
    """Kills again and again in a stream of changes; what clients were told, how many decisions they got, and what was
    killed when."""
    is_over = threading.Event()
    clients = [Client(logged, number, is_over) for number in range(CLIENTS)]
    askers = [Asker(logged, number, is_over) for number in range(GIVEN.askers)]
    for one in (*clients, *askers):
        one.start()
    told, began = [], time.time()
    for _ in range(GIVEN.kills):
        if time.time() - began > GIVEN.seconds:
            break
        count = wait_for_more(clients, chance)
        told.append((time.time() - began, count, "+".join(disturb(logged, chance))))
    wait_for_more(clients, chance)
    is_over.set()
    for one in (*clients, *askers):
        one.join(4 * PATIENCE)
    expect("all clients have ended", [one for one in (*clients, *askers) if one.is_alive()], [])
    return [sent for one in clients for sent in one.sent], sum(one.answered for one in askers), told


def settled(logged):
    """The number of lines of decisions, once no more come."""
    count = -1
    while count != (count := len(decision_lines(logged))):
        time.sleep(2)
    return count


def kills():
    """Many, at random moments."""
    if not is_there():
        return
    with Proxied("kills") as logged:
        for name in domains():
            expect(f"{name} is made", logged.make_domain(name, message), [201, 200, 200, 201, 200, 200, 200])
        first = len(list(changes_in(segments_in([logged.archive]))))
        began = time.time()
        sent, decisions, told = disturbed(logged, random.Random(SEED))
        last = message("PUT", "/domains/shared/pip", "shared-admin-1", ROW % "the last")
        expect("it goes on", wait_until(lambda: status_of(logged.change(last)) == 200), True)
        lines = settled(logged)
        logged.kill_daemon()
        logged.pdpd.kill()
        changes = list(changes_in(segments_in([logged.archive])))
        answered = compare(changes[first:], sent)
        worked_out(logged, changes, lines)
        again = sum(change.is_again() for change in changes)
        expect("enough was tried", min(answered, lines, again) > 0, True)
        summary = (f"{len(told)} kills in {time.time() - began:.0f} s, seed {SEED}: {len(sent)} changes were sent, "
                   f"{answered} answered; {len(changes)} entries, {again} sent again; {GIVEN.askers} clients got "
                   f"{decisions} decisions, of which {lines} were logged")
        print(f"  {summary}", flush=True)
        record(summary, told)


def worked_out(logged, changes, lines):
    """The model, the store, the decisions and all replies."""
    model, wrong = modelled(changes)
    expect("replies that the model gives otherwise", wrong, [])
    expect("the store has what the model has", by_name(stored_rows(logged)), by_name(model.rows()))
    status, out, said = log("verify", "--archive", logged.archive, logged.decisions)
    expect("all decisions are the same", (status, out, said),
           (0, f"{lines} same, 0 other, 0 refused, 0 unverified\n".encode(), ""))
    status, out, said = log("check", "--archive", logged.archive)
    wanted = f"{logged.archive}: {len(changes)} changes, 0 replies that replay gives otherwise, "
    expect("check", (status, out.decode().startswith(wanted), said), (0, True, ""))
    data = b"".join(segment.data() for segment in segments_in([logged.archive]))
    expect("clear tokens in the archive", [one for one in ("shared-admin-1", OPERATOR) if one.encode() in data], [])


def record(summary, told):
    """Writes what was done, and of which sources, into the file that was named."""
    if not GIVEN.record:
        return
    commit = subprocess.run(["git", "-C", TOP, "rev-parse", "HEAD"], capture_output=True, text=True, check=False).stdout
    digest = hashlib.sha256(pathlib.Path(PROGRAM).read_bytes()).hexdigest()
    # (as `cat deploy/log/*.py | sha256sum`)
    daemon = hashlib.sha256(b"".join(path.read_bytes() for path in sorted((TOP / "deploy" / "log").glob("*.py"))))
    lines = [f"tests/audit.py PDPD kills --kills {GIVEN.kills} --seconds {GIVEN.seconds:g} --askers {GIVEN.askers} "
             f"--seed {SEED}, on {os.cpu_count()} cores with a load of {os.getloadavg()[0]:.0f}",
             time.strftime("%Y-%m-%dT%H:%M:%SZ", time.gmtime()), f"behind commit {commit.strip() or 'unknown'}",
             f"pdpd of SHA-256 {digest}",
             f"deploy/log/*.py, one behind another, of SHA-256 {daemon.hexdigest()}", summary,
             f"{checks.failed} of {checks.count} checks failed", "",
             "seconds  changes answered  killed"]
    GIVEN.record.parent.mkdir(parents=True, exist_ok=True)
    lines += [f"{at:7.1f}  {count:16d}  {which}" for at, count, which in told]
    GIVEN.record.write_text("\n".join(lines) + "\n")


PARTS = (kills,)
