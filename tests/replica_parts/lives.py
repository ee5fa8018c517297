"""What an operator does: all of etcd is lost, an entry that no pdpd takes, rows that differ, another program."""
import contextlib
import pathlib
import shutil
import socket
import sqlite3
import threading

from audit_parts.shared import expect, log, status_of, wait_until
from replica import core, pushing, rows, skipping
from replica.etcd import Etcd, Member
from replica.shared_log import Entry, Head, SharedLog, Wrong
from serving import OPERATOR

from .etcds import ADMIN, LONG, PIP, archived, are_level, as_admin, set_file_limit
from .etcds import rows as change_rows
from .lab import NAMES, Lab, entry_of_reply

MACHINES = set(NAMES)


def refused(work):
    """Why something is refused; nothing where it isn't."""
    try:
        work()
    except Wrong as fault:
        return str(fault)
    return ""


def lose_etcd(lab):
    """All members are gone, with what they had; new ones begin."""
    for one in lab.machines:
        one.etcd.kill()
        shutil.rmtree(one.folder / "etcd")
    for one in lab.machines:
        one.etcd.start()


def etcd_is_there(lab):
    try:
        lab.log.etcd.get(lab.log.head)
    except Exception:  # noqa: BLE001 (it has no leader yet)
        return False
    return True


def pushed():
    """An etcd that has lost all gets the log from archives: nothing that was applied anywhere is lost, and no change is
    taken until all machines are level."""
    with Lab("pushed", ack="local") as lab:
        first, second, third = lab.machines
        lab.make_domain(first)
        are_level(lab)
        third.daemon.kill()
        change_rows(first, "one")
        expect("a change that the third machine hasn't", entry_of_reply(change_rows(second, "two")), 8)
        wait_until(lambda: first.has(8))
        names = [one[0] for one in archived(first)]
        lose_etcd(lab)
        expect("etcd is there again", wait_until(lambda: etcd_is_there(lab), LONG), True)
        expect("leases end", leases_end_of(lab, first, second), True)
        expect("it is told what to do", "pdpd-replicas push" in first.figures()["wrong"], True)
        third.daemon.start()
        expect("of the one that lacks two", pushing.push(lab.log, third.archive, 0), (0, 6))
        expect("no change is taken", wait_until(lambda: status_of(change_rows(third, "no")) == 503), True)
        is_told = lambda: "etcd was put back" in first.figures().get("wrong", "")  # noqa: E731
        expect("the others say that it lacks something", wait_until(is_told, LONG), True)
        expect("they aren't thawed over", wait_until(lambda: "push on a" in refused(lambda: lab.log.thaw(MACHINES)),
                                                     LONG), True)
        expect("of one that has all", pushing.push(lab.log, second.archive, 0), (6, 8))
        expect("once more", pushing.push(lab.log, first.archive, 3), (8, 8))
        expect("all are level", wait_until(lambda: not refused(lambda: lab.log.thaw(MACHINES)), LONG), True)
        expect("and have their leases", are_level(lab), True)
        expect("the next change", entry_of_reply(change_rows(third, "three")), 9)
        expect("the log is what it was", [lab.log.entry(number).name() for number in range(1, 9)], names)


def leases_end_of(lab, *machines):
    """Whether these have no lease any more."""
    return wait_until(lambda: [one.figures().get("lease") for one in machines] == [0] * len(machines), LONG)


def pushed_wrongly():
    """What isn't this log's is refused and changes nothing; what etcd has otherwise than the archive is put right, and
    a log that lacks its beginning is as good as one that was trimmed."""
    with Lab("pushed_wrongly", ack="local") as lab:
        first, second, third = lab.machines
        lab.make_domain(first)
        are_level(lab)
        entries = [lab.log.entry(number) for number in range(1, 7)]
        other = Entry({**entries[5].head, "prev": "cd" * 32}, b"")
        lab.log.etcd.put(lab.log.head, f"6 {other.name()}".encode())
        expect("another log", "it is another log" in refused(lambda: pushing.push(lab.log, first.archive, 0)), True)
        expect("that changed nothing", (lab.log.look().head.name, lab.log.look().frozen), (other.name(), ""))
        lab.log.etcd.put(lab.log.head, Head(6, entries[5].name()).value())
        lab.log.etcd.put(lab.log.key(4), b"nonsense")
        lab.log.etcd.delete(lab.log.key(5))
        expect("what is damaged in its middle", pushing.push(lab.log, first.archive, 0), (6, 6))
        expect("it is right again", [lab.log.entry(number) for number in range(1, 7)], entries)
        nothing = first.folder / "nothing"
        nothing.mkdir()
        expect("an empty archive has nothing to give", pushing.push(lab.log, nothing, 0), (6, 6))
        lose_etcd(lab)
        wait_until(lambda: etcd_is_there(lab), LONG)
        why = refused(lambda: pushing.push(lab.log, nothing, 0))
        expect("nor can it begin a log whose name it doesn't know", "nothing was applied here" in why, True)
        shutil.copyfile(first.archive / "begins", nothing / "begins")
        expect("one in which nothing was", (pushing.push(lab.log, nothing, 0), lab.log.look().head.number), ((0, 0), 0))
        expect("the last four entries alone", pushing.push(lab.log, second.archive, 4), (0, 6))
        expect("they are there", [one.number() for one in lab.log.entries(3)], [3, 4, 5, 6])
        expect("a new machine can't begin with it", lab.log.beginning(), (True, entries[1].name()))
        lab.log.etcd.put(lab.log.key(7), Entry({**entries[5].head, "n": 7, "prev": "cd" * 32}, b"").data())
        lab.log.etcd.put(lab.log.head, b"7 " + b"ef" * 32)
        why = refused(lambda: pushing.push(lab.log, first.archive, 0))
        expect("another log, and longer", "another log" in why, True)
        lab.log.etcd.put(lab.log.head, Head(6, entries[5].name()).value())
        lab.log.etcd.delete(lab.log.key(7))
        third.daemon.kill()
        wait_until(lambda: "c" not in lab.log.others(), LONG)
        why = refused(lambda: lab.log.thaw(MACHINES))
        expect("a machine that isn't there may have more", "c isn't there" in why, True)
        expect("without it", refused(lambda: lab.log.thaw(MACHINES - {"c"})), "")


def skipped():
    """An entry that every pdpd refuses is skipped once no machine sends it: it stays in the log, none has it, and what
    comes behind it is made."""
    with Lab("skipped", ack="local") as lab:
        first = lab.machines[0]
        lab.make_domain(first)
        are_level(lab)
        for one in lab.machines:
            set_file_limit(one.pdpd.process.pid, 0)
        # (on a busy machine an append may be given up)
        found = lambda: (status_of(change_rows(first, "never", seconds=60)), lab.log.look().head.number)  # noqa: E731
        expect("a change that none takes", wait_until(lambda: found() == (504, 7), LONG), True)
        expect("while changes are taken", "freeze first" in refused(lambda: skipping.skip(lab.log, 7, MACHINES)), True)
        lab.log.freeze("by hand")
        for what, number, machines, why in (("one that was applied", 6, MACHINES, "a has applied entry 6"),
                                            ("one that isn't there", 8, MACHINES, "the entries 1 to 7"),
                                            ("one that a machine may have", 7, MACHINES | {"d"}, "d isn't there")):
            found = refused(lambda number=number, machines=machines: skipping.skip(lab.log, number, machines))
            expect(what, why in found, True)
        expect("it is refused and not skipped", lab.log.skip(7), "")
        skipping.skip(lab.log, 7, MACHINES)
        expect("nobody has it", wait_until(lambda: all(one.has(7) for one in lab.machines), LONG), True)
        for one in lab.machines:
            set_file_limit(one.pdpd.process.pid, None)
            if one.pdpd.process.poll() is not None:
                one.start_pdpd()
        lab.log.thaw(MACHINES)
        expect("the next change", wait_until(lambda: status_of(change_rows(first, "next")) == 200, LONG), True)
        are_level(lab)
        held = [one.read(as_admin("GET", PIP))[0].partition(b"\r\n\r\n")[2] for one in lab.machines]
        expect("what all have", [b'"next"' in one and b'"never"' not in one for one in held], [True] * 3)
        for one in lab.machines:
            one.daemon.kill()
        found = [archived(one) for one in lab.machines]
        expect("what archives say of it", [[one[6][1], one[6][3]] for one in found], [[503, False]] * 3)
        status, said, _ = log("check", "--archive", first.archive)
        expect("a replay knows it", (status, b" 0 replies that replay gives otherwise" in said), (0, True))
        status, said, _ = log("changes", "--archive", first.archive, "--domain", "acme")
        expect("what is told of it", (status, said.count(b"skipped")), (0, 1))


class Outlasted:
    """In place of a pdpd one that gets each message, and is killed before it answers any."""

    def __init__(self, place):
        self.count, self.socket = 0, socket.socket(socket.AF_UNIX)
        pathlib.Path(place).unlink(missing_ok=True)
        self.socket.bind(place)
        self.socket.listen()
        threading.Thread(target=self.work, daemon=True).start()

    def work(self):
        with contextlib.suppress(OSError):
            while True:
                with self.socket.accept()[0] as one:
                    self.count += b"PUT /domains/acme/pip" in one.recv(65_536)

    def close(self):
        self.socket.shutdown(socket.SHUT_RDWR)
        self.socket.close()


def outlasting():
    """An entry with which every pdpd is killed before it has answered is skipped, too: no daemon sends it any more once
    it was asked for, and what comes behind it is made."""
    with Lab("outlasting", ack="local") as lab:
        first = lab.machines[0]
        lab.make_domain(first)
        are_level(lab)
        for one in lab.machines:
            one.pdpd.kill()
        others = [Outlasted(one.changes.removeprefix("unix:")) for one in lab.machines]
        head = {"domain": "acme", "who": "admin", "method": "PUT", "path": PIP, "fields": []}
        change = core.Change(head, b"", core.CLOCK.monotonic() + LONG)
        core.Appending(lab.log, core.CLOCK, lambda look: "", lambda what: None).append([change])
        expect("each has got it", wait_until(lambda: min(one.count for one in others) > 0, LONG), True)
        lab.log.freeze("by hand")
        skipping.skip(lab.log, change.number, MACHINES)
        expect("nobody has it", wait_until(lambda: all(one.has(change.number) for one in lab.machines), LONG), True)
        counts = [one.count for one in others]
        for one, other in zip(lab.machines, others):
            other.close()
            one.start_pdpd()
        lab.log.thaw(MACHINES)
        expect("the next change", wait_until(lambda: status_of(change_rows(first, "next")) == 200, LONG), True)
        expect("it was sent no more", [one.count for one in others], counts)
        expect("all are level", are_level(lab), True)


def meeting_of(lab, machine):
    members = [Member("127.0.0.1", one.client_port) for one in lab.machines]
    return rows.Meeting(SharedLog(Etcd(members), 0, machine.name, lab.log.program),
                        lambda: machine.figures().get("position", -1))


def compared(lab):
    """What the machines find that compare their rows at the same time."""
    found = {}

    def work(machine):
        place = machine.folder / "copy"
        shutil.rmtree(place, ignore_errors=True)
        place.mkdir()

        def copy():
            for name in ("store.db", "store.db-wal"):
                if (machine.folder / name).exists():
                    shutil.copyfile(machine.folder / name, place / name.replace("store", "pdpd"))
        try:
            found[machine.name] = rows.compare(meeting_of(lab, machine), copy, place)
        except Wrong as fault:
            found[machine.name] = str(fault)
    threads = [threading.Thread(target=work, args=(one,)) for one in lab.machines]
    for one in threads:
        one.start()
    for one in threads:
        one.join()
    return found


def rows_compared():
    """The machines compare what they have behind one entry, also while changes come; one whose rows were changed is
    found and is out, and the others go on."""
    with Lab("rows", ack="local") as lab:
        first, _, third = lab.machines
        lab.make_domain(first)
        are_level(lab)
        expect("equal rows", compared(lab), {name: (6, list(NAMES), None) for name in NAMES})
        is_over, statuses = threading.Event(), []

        def change():
            while not is_over.is_set():
                statuses.append(status_of(change_rows(first, len(statuses))))
        changer = threading.Thread(target=change)
        changer.start()
        found = compared(lab)
        is_over.set()
        changer.join()
        expect("while changes come", {one[1:] == (list(NAMES), None) for one in found.values()}, {True})
        expect("behind one entry", len({one[0] for one in found.values()}), 1)
        expect("changes meanwhile", set(statuses), {200})
        are_level(lab)
        third.pdpd.kill()
        base = sqlite3.connect(third.folder / "store.db")
        base.execute("UPDATE sources SET value = 'changed'")
        base.commit()
        base.close()
        third.start_pdpd()
        found = compared(lab)
        verdict = found["a"][2]
        expect("one that was changed by hand", (verdict.alone, {one[2] == verdict for one in found.values()}),
               ("c", {True}))
        lab.log.judge(verdict)
        expect("it is out", wait_until(lambda: "rows behind entry" in third.figures()["wrong"]), True)
        expect("the others go on", wait_until(lambda: status_of(change_rows(first, "on")) == 200), True)


def rows_alone():
    """A machine whose tool is alone compares nothing, and holds up nobody."""
    with Lab("rows_alone", ack="local") as lab:
        first = lab.machines[0]
        lab.make_domain(first)
        before, rows.COMING = rows.COMING, 2.0
        try:
            why = refused(lambda: rows.compare(meeting_of(lab, first), lambda: None, first.folder))
        finally:
            rows.COMING = before
        expect("alone", "no other machine" in why, True)
        expect("no pause is left", lab.log.etcd.get(lab.log.pause), None)
        expect("a change", status_of(first.change("PUT", PIP, ADMIN, '{"Row":[]}')), 200)


def stale_refusals():
    """A machine that has no lease says to nobody that he isn't entitled: he may be, by what it hasn't applied yet."""
    with Lab("stale_refusals", ack="local") as lab:
        first = lab.machines[0]
        lab.make_domain(first)
        are_level(lab)
        expect("with a lease", status_of(first.change("PUT", PIP, "nobody-at-all", "{}")), 401)
        first.daemon.kill()
        lab.log.etcd.put(lab.log.outs + b"a", b"by hand")
        first.daemon.start()
        wait_until(lambda: first.figures().get("wrong") == "by hand", LONG)
        expect("without one", status_of(first.change("PUT", PIP, "nobody-at-all", "{}")), 503)
        expect("for the operator, too", status_of(first.change("PUT", "/operator/domains/x", "operator-token-9")), 503)
        expect("what depends on no state", status_of(first.change("PUT", "/operator/nothing", OPERATOR)), 404)


def unbegun():
    """A daemon that has applied nothing, and to which nothing says that its store is the log's beginning, applies
    nothing and has no lease."""
    with Lab("unbegun", ack="local") as lab:
        first, _, third = lab.machines
        lab.make_domain(first)
        are_level(lab)
        third.daemon.kill()
        shutil.rmtree(third.archive)
        third.daemon.start()
        expect("what it says", wait_until(lambda: "nothing was applied here" in third.figures().get("wrong", "")), True)
        expect("where it is", (third.figures()["position"], third.figures()["lease"]), (0, 0))
        begins = first.archive / "begins"
        (third.archive / "begins").write_text("cd" * 32)
        is_told = lambda: "another log" in third.figures().get("wrong", "")  # noqa: E731
        expect("with the name of another log", (wait_until(is_told), third.figures()["position"]), (True, 0))
        third.daemon.kill()
        third.pdpd.kill()
        for name in ("store.db", "store.db-wal"):
            (third.folder / name).unlink(missing_ok=True)
        third.start_pdpd()
        shutil.copyfile(begins, third.archive / "begins")
        third.daemon.start()
        expect("with the log's name and an empty store", are_level(lab), True)


PARTS = (unbegun, pushed, pushed_wrongly, skipped, outlasting, rows_compared, rows_alone, stale_refusals)
