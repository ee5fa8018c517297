"""Three daemons over three members of etcd and three pdpd: what clients are told while parts of them are killed,
stand still, or are away."""
import json
import resource
import signal
import time

from audit_parts.shared import expect, passed_on, status_of, wait_until, within
from log.archive import segments_in
from log.history import changes_in
from replica.shared_log import Entry, Head
from serving import OPERATOR

from .lab import LEASE, LOG, Lab, entry_of_reply

ROW = ('{"Row":[{"Category":"AccessSubject","Entity":"alice","AttributeId":"urn:a","DataType":"string",'
       '"Value":"%s"}]}')
PIP, ADMIN = "/domains/acme/pip", "acme-admin-1"
# how long is waited for what comes in the end, on a machine that others use as well, in seconds
LONG = 90.0


def rows(machine, value, **more):
    """The reply to a change of rows."""
    return machine.change("PUT", PIP, ADMIN, ROW % value, **more)


def quickest(machine):
    """How long the quicker one of two changes takes. (Others use the machine, too; who is waited for is for both.)"""
    found = []
    for number in range(2):
        began = time.monotonic()
        status = status_of(rows(machine, number))
        found.append(time.monotonic() - began if status == 200 else float("inf"))
    return min(found)


def archived(machine):
    """The entries of a machine's archive as the log has them, with the statuses of their replies."""
    found = []
    for one in changes_in(segments_in([machine.archive])):
        head = {name: value for name, value in one.entry.head.items()
                if name in ("domain", "who", "method", "path", "fields")}
        of_log = {name: value for name, value in one.entry.head["log"].items() if name != "name"}
        entry = Entry({**head, **of_log}, one.body())
        expect("the name of an archived entry", entry.name(), one.entry.head["log"]["name"])
        found.append((entry.name(), one.status(), one.reply.body if one.reply else b"", one.is_again()))
    return found


def changes():
    """Changes at each machine are at all of them; what isn't entitled is in no log."""
    with Lab("changes") as lab:
        first, second, third = lab.machines
        expect("a domain", lab.make_domain(first), [201, 200, 200, 201, 200, 200])
        expect("entries", [entry_of_reply(rows(one, one.name)) for one in lab.machines], [7, 8, 9])
        expect("who isn't entitled", [status_of(second.change("PUT", PIP, token, "{}")) for token in
                                      ("acme-asks-1", "nobody-at-all")], [403, 401])
        expect("another operator", status_of(third.change("PUT", "/operator/domains/x", "operator-token-9")), 401)
        expect("the end of the log", lab.log.look().head.number, 9)
        held = [json.loads(one.read(as_admin("GET", PIP))[0].partition(b"\r\n\r\n")[2]) for one in lab.machines]
        expect("the rows at all machines", [[row["Value"] for row in one["Row"]] for one in held], [["c"]] * 3)
        entries = [lab.log.entry(number) for number in range(1, 10)]
        names = [entry.name() for entry in entries]
        expect("their chain", [entry.head["prev"] for entry in entries], [LOG, *names[:-1]])
        look = lab.log.look()
        expect("an append behind a head that has moved, or another one of that number",
               [lab.log.append(head, [entries[-1]]) for head in (Head(8, entries[7].name()), Head(9, "ef" * 32))],
               [False] * 2)
        expect("that changed nothing", (lab.log.look(), lab.log.entry(9)), (look, entries[8]))
        expect("no token of the operator in etcd", any(OPERATOR.encode() in entry.data() for entry in entries), False)
        are_level(lab)
        for one in lab.machines:
            one.daemon.kill()
        kept = [archived(one) for one in lab.machines]
        expect("equal archives", kept[1:], [kept[0]] * 2)
        expect("archives have what etcd has", [one[0] for one in kept[0]], names)


def leases_end(lab):
    """Whether no machine has a lease any more, once what they have is over."""
    return wait_until(lambda: [one.figures().get("lease") for one in lab.machines] == [0] * 3, LONG)


def are_level(lab):
    """Whether all machines have the last entry and a lease, in the end."""
    return wait_until(lab.are_level, LONG)


def as_admin(method, path):
    return passed_on(method, path, ADMIN)


def in_doubt():
    """A daemon that is killed while pdpd stands still sends its entry again; the client of another machine gets the
    reply of one that has applied it once."""
    with Lab("in_doubt", ack="local") as lab:
        first, second, _ = lab.machines
        lab.make_domain(first)
        are_level(lab)
        first.pdpd.process.send_signal(signal.SIGSTOP)
        expect("a change elsewhere", status_of(rows(second, "one")), 200)
        expect("it is recorded here", wait_until(lambda: first.figures().get("pending")), True)
        first.daemon.kill()
        first.daemon.start()
        first.pdpd.process.send_signal(signal.SIGCONT)
        expect("it is applied", wait_until(lambda: first.has(7)), True)
        expect("it was sent again", "entry 7 is sent again" in first.said(), True)
        are_level(lab)
        first.daemon.kill()
        expect("its reply is marked", [one[3] for one in archived(first)], [False] * 6 + [True])


def stands_still():
    """With ACK=all a change waits for a machine whose daemon stands still until its lease is over; then it answers
    no one."""
    with Lab("stands_still") as lab:
        first, second, third = lab.machines
        lab.make_domain(first)
        are_level(lab)
        third.daemon.send(signal.SIGSTOP)
        began = time.monotonic()
        expect("a change", status_of(rows(first, "one")), 200)
        within("the wait, in seconds", round(time.monotonic() - began), range(int(LEASE) - 1, int(LEASE) + 4))
        third.daemon.send(signal.SIGCONT)
        expect("it is level again", are_level(lab), True)
        third.daemon.stop()
        expect("changes once it has ended in good order wait for nobody", quickest(first) < LEASE, True)
        expect("and the others are there", [one.has(9) for one in (first, second)], [True, True])


def without_quorum():
    """Without a quorum a change is refused, and none that was refused is made; leases end. One member away does
    nothing."""
    with Lab("without_quorum") as lab:
        first, second, third = lab.machines
        lab.make_domain(first)
        first.etcd.kill()
        within("with one member away", status_of(rows(first, "one")), [200])
        second.etcd.kill()
        within("with two away", status_of(rows(first, "lost")), [503, 504])
        expect("refused at once", wait_until(lambda: status_of(rows(first, "refused")) == 503), True)
        expect("why", "no change is taken: etcd has no quorum" in first.said(), True)
        expect("leases end", leases_end(lab), True)
        for one in (first, second):
            one.etcd.start()
        expect("they are level again", are_level(lab), True)
        expect("a change", status_of(rows(third, "two")), 200)
        found = [lab.log.entry(number) for number in range(7, lab.log.look().head.number + 1)]
        expect("what was refused", [entry for entry in found if b'"refused"' in entry.body], [])


def refused_by_pdpd():
    """A pdpd whose storage fails refuses: the entry is sent until it is taken, and there is no lease meanwhile."""
    with Lab("refused", ack="local") as lab:
        first, second, _ = lab.machines
        lab.make_domain(first)
        are_level(lab)
        set_file_limit(first.pdpd.process.pid, 0)
        expect("a change elsewhere", status_of(rows(second, "one")), 200)
        expect("the lease ends", wait_until(lambda: first.figures().get("lease") == 0, 3 * LEASE), True)
        expect("the others go on", (status_of(rows(second, "two")), first.figures()["position"]), (200, 6))
        set_file_limit(first.pdpd.process.pid, None)
        # (after a failed write pdpd ends, and its supervisor starts it)
        expect("it is level again", wait_until(lambda: lab.are_level() or restarted(first), LONG), True)


def restarted(machine):
    """Starts a pdpd again that has ended; False."""
    if machine.pdpd.process.poll() is not None:
        machine.start_pdpd()
    return False


def set_file_limit(pid, size):
    most = resource.RLIM_INFINITY
    resource.prlimit(pid, resource.RLIMIT_FSIZE, (most if size is None else size, most))


def frozen():
    """A frozen log takes no change; a replica that is out has no lease, and other programs have none."""
    with Lab("frozen") as lab:
        first, second, third = lab.machines
        lab.make_domain(first)
        lab.log.etcd.put(lab.log.frozen, b"by hand")
        expect("while it is frozen", status_of(rows(first, "one")), 503)
        lab.log.etcd.delete(lab.log.frozen)
        expect("thawed", wait_until(lambda: status_of(rows(first, "one")) == 200), True)
        lab.log.etcd.put(lab.log.outs + b"c", b"by hand")
        expect("one that is out", wait_until(lambda: third.figures().get("lease") == 0), True)
        expect("it takes no change", (status_of(rows(third, "two")), third.figures()["wrong"]), (503, "by hand"))
        expect("nobody waits for it", wait_until(lambda: "c" not in lab.log.others()), True)
        expect("changes elsewhere wait for nobody", quickest(first) < LEASE, True)
        lab.log.etcd.delete(lab.log.outs + b"c")
        expect("it is back", are_level(lab), True)
        lab.log.etcd.put(lab.log.of_program, b"2" * 64)
        expect("no lease with another program",
               leases_end(lab), True)
        expect("and no change", status_of(rows(second, "three")), 503)
        expect("it is told", "all machines have to run the same one" in second.figures()["wrong"], True)


def put_back():
    """Replicas whose log was put back to before what they have applied have no lease, until it has its entries
    again."""
    with Lab("put_back") as lab:
        first = lab.machines[0]
        lab.make_domain(first)
        are_level(lab)
        last = lab.log.entry(6)
        lab.log.etcd.put(lab.log.head, b"5 " + last.head["prev"].encode())
        expect("no lease", leases_end(lab), True)
        expect("it is told", "etcd was put back" in first.figures()["wrong"], True)
        lab.log.etcd.put(lab.log.head, b"6 " + last.name().encode())
        expect("they are level again", are_level(lab), True)


def other_log():
    """Entries of another log are applied by none, whatever their numbers are."""
    with Lab("other_log") as lab:
        first = lab.machines[0]
        lab.make_domain(first)
        are_level(lab)
        false = Entry({**lab.log.entry(6).head, "n": 7, "prev": "cd" * 32}, b"")
        lab.log.etcd.put(lab.log.key(7), false.data())
        lab.log.etcd.put(lab.log.head, b"7 " + false.name().encode())
        is_told = lambda: all("another log" in one.figures()["wrong"] for one in lab.machines)  # noqa: E731
        expect("it is told", wait_until(is_told), True)
        told = [(is_told(), time.sleep(0.2)) for _ in range(15)]
        expect("all the time", {one for one, _ in told}, {True})
        expect("nothing is applied", [one.figures()["position"] for one in lab.machines], [6] * 3)
        damaged = lab.log.entry(6).data().replace(b'"version":1', b'"version":9')
        lab.log.etcd.put(lab.log.key(7), damaged)
        expect("another version", wait_until(lambda: "has version 9" in first.figures()["wrong"]), True)


def differing():
    """A store that was changed past the log answers otherwise than two others: its replica is out, and the rest goes
    on."""
    with Lab("differing", ack="local") as lab:
        first, second, third = lab.machines
        lab.make_domain(first)
        are_level(lab)
        past = as_admin("DELETE", "/domains/acme/pap/policy/urn:example:ward:records/1.0/active")
        expect("where all are answered it isn't taken", status_of(third.read(past)[0]), 503)
        expect("where the daemon sends it is", status_of(third.past_the_log(past)), 200)
        at = "/domains/acme/pap/policy/urn:example:ward:records/1.0"
        expect("a change", status_of(first.change("DELETE", at, ADMIN)), 409)
        expect("it is out", wait_until(lambda: "differ" in third.figures().get("wrong", "")), True)
        expect("it has no lease", wait_until(lambda: third.figures()["lease"] == 0), True)
        expect("the others go on", wait_until(lambda: status_of(rows(second, "on")) == 200), True)


def trimmed():
    """Entries that all have applied are dropped but for the last ones; a replica that is behind them says what to
    do."""
    with Lab("trimmed", **{"log-tail": 3, "ack": "local"}) as lab:
        first, _, third = lab.machines
        lab.make_domain(first)
        third.daemon.kill()
        wait_until(lambda: "c" not in lab.log.others(), 6 * LEASE)
        for number in range(8):
            rows(first, number)
        expect("it is trimmed", wait_until(lambda: int(lab.log.etcd.get(lab.log.trimmed) or 0) == 11), True)
        expect("what is left", [entry.number() for entry in lab.log.entries(12)], [12, 13, 14])
        third.daemon.start()
        expect("what it says", wait_until(lambda: "join" in third.figures().get("wrong", "")), True)
        expect("no lease", third.figures()["lease"], 0)


PARTS = (changes, in_doubt, stands_still, without_quorum, refused_by_pdpd, frozen, put_back, other_log, differing,
         trimmed)
