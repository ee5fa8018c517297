"""What the tools of several machines refuse and tell, without any daemon: copies, the log's beginning, `status`."""
import base64
import io
import subprocess
import tarfile
from types import SimpleNamespace

from audit_parts.shared import TOP, expect, folder, kept
from log.archive import Archive
from log.history import State
from operating.settings import Wrong as WrongSetting
from replica import beginning, certificates, cli, copying, member, moving, options, skipping
from replica import members as etcd_members
from replica.comparing import Verdict
from replica.etcd import Member
from replica.machines import machines_in, refuse_elsewhere
from replica.shared_log import PUSHED, Head, Look, SharedLog, Wrong
from replica.telling import Telling


def written_copy(path, members):
    """A copy of a shard that has these files, a target for each link, and its end if one is named so."""
    with tarfile.open(path, "w") as made:
        for name, target in members:
            one = tarfile.TarInfo(name)
            one.type, one.linkname = (tarfile.SYMTYPE, target) if target else (tarfile.REGTYPE, "")
            made.addfile(one)
    return path


def copies():
    """What leads out of a shard's folders, is a link, or has no end is no copy of a shard, and is written nowhere."""
    place = folder / "copies"
    place.mkdir()
    away = place / "away"
    end = ("end/6", "")
    for what, members, why in (
            ("another folder", [("other/x", ""), end], "doesn't belong"),
            ("a path", [(f"store/{away}", ""), end], "doesn't belong"),
            ("upwards", [("store/../away", ""), end], "doesn't belong"),
            ("a link", [("store/x", str(away)), end], "doesn't belong"),
            ("no end", [("store/x", "")], "its end is missing")):
        places = {kind: place / what.replace(" ", "-") / kind for kind in ("store", "archive")}
        for one in places.values():
            one.mkdir(parents=True)
        with open(written_copy(place / "copy.tar", members), "rb") as given:
            found = why_not(lambda given=given, places=places: copying.extract(given, places))
        expect(what, (why in found, away.exists()), (True, False))
    with tarfile.open(place / "copy.tar", "w") as made:
        one = tarfile.TarInfo("map")
        one.size = 7
        made.addfile(one, io.BytesIO(b"acme 1\n"))
        made.addfile(tarfile.TarInfo("end/6"))
    with open(place / "copy.tar", "rb") as given:
        expect("a copy's entry and its map", copying.extract(given, {}), (6, "acme 1\n"))
    settings = SimpleNamespace(map="MAP")
    expect("its entries", copying.entries_of(settings, "# x\nacme 1\n\nward moving\nacme 2\n"),
           {"acme": "1", "ward": "moving"})
    expect("what is no map", "isn't DOMAIN SHARD" in why_not(lambda: copying.entries_of(settings, "acme x")), True)
    (place / "pdpd.db").write_text("one")
    expect("a store that is as it was", why_not(lambda: copied(place, False)), "")
    expect("one that was written to", "was written to meanwhile" in why_not(lambda: copied(place, True)), True)


def copied(place, is_written):
    with copying.unchanged(place) as files:
        expect("the files of a store", [path.name for path in files], ["pdpd.db"])
        if is_written:
            (place / "pdpd.db-wal").write_text("two")


def why_not(work, kind=WrongSetting):
    try:
        work()
    except kind as fault:
        return str(fault)
    return ""


def beginnings():
    """The first machine's store is what the log begins with, if it has domains or not; another one's has to be empty,
    and begins by itself only if the first one's was."""
    place = folder / "beginnings"
    place.mkdir()
    name, made = "ef" * 32, []
    log_of = lambda is_new: SimpleNamespace(make=lambda *given: made.append(given) or is_new)  # noqa: E731
    expect("the first machine", beginning.lead(place, log_of(True), True), True)
    expect("its log", made, [(beginning.name_in(place), True, "")])
    again = beginning.name_in(place)
    expect("once more, if it was broken off", (beginning.lead(place, log_of(True), True), made[1][0]), (True, again))
    expect("another one is quicker", (beginning.lead(place, log_of(False), False), beginning.name_or_none(place)),
           (False, None))
    for what, is_full, has_domains, wanted in (
            ("none has domains", False, False, name), ("it has some", False, True, None),
            ("the first one has some", True, False, None), ("both have some", True, True, None)):
        why_not(lambda full=is_full, has=has_domains: beginning.follow(place, (full, name), has))
        expect(what, beginning.name_or_none(place), wanted)
        (place / "begins").unlink(missing_ok=True)
    expect("an empty archive", beginning.is_of_log(place), None)
    for number, more, wanted in ((1, {}, False), (2, {"log": {"name": name}}, True)):
        archive = Archive(place / "archive")
        archive.add_entry({"domain": "acme", **more}, b"")
        archive.close()
        expect(f"an archive whose last entry is {number}", beginning.is_of_log(place / "archive"), wanted)
        archive = Archive(place / "archive")
        archive.add_reply(200, b"", False)
        archive.close()
    aside = beginning.put_aside(place / "archive")
    expect("what is put aside", (beginning.is_of_log(aside), list((place / "archive").iterdir())), (True, []))
    expect("a second time", "is there already" in why_not(lambda: beginning.put_aside(place / "archive")), True)


def told_of(**more):
    """What `status` finds wrong of two machines, of which one tells other things than it should."""
    right = {"position": 3, "room": True, "wrong": "", "program": "p", "settings": [5, "all", False]}
    held = SimpleNamespace(machines={"a": 0, "b": 0}, lease=5, ack="all", without_quorum="stop")
    kept = SimpleNamespace(range=lambda *_: [])
    others = {"a": right, "b": {**right, **more}}
    one = SimpleNamespace(look=lambda: Look(Head(3, ""), "", "p", ""), others=lambda: others, outs=b"/out/", etcd=kept)
    return cli.faults_of(held, one)[1]


def statuses():
    """What is wrong is told, and nothing else is."""
    expect("nothing", told_of(), [])
    for what, more, words in (("a longer lease", {"settings": [60, "all", False]}, "b has other settings"),
                              ("another program", {"program": "q"}, "b runs the program q"),
                              ("another number of shards", {"program": "p/3"}, "b runs the program p with SHARDS 3"),
                              ("a full disk", {"room": False}, "b has less room than ROOM"),
                              ("two entries behind", {"position": 1}, "b is 2 entries behind"),
                              ("no lease", {"has_lease": False}, "b decides nothing"),
                              ("what it says itself", {"wrong": "by hand"}, "b: by hand")):
        found = told_of(**more)
        expect(what, (len(found), words in "".join(found)), (1, True))


def broken_copies():
    """A copy during which something was applied has no end, wherever that would stand."""
    place = folder / "broken"
    (place / "archive" / "0").mkdir(parents=True)
    (place / "store").mkdir()
    settings = SimpleNamespace(archives=place / "archive", folder=lambda shard: place / "store", map=place / "map")
    settings.map.write_text("acme 1\n")
    ends = []
    # (what is written goes out by 10 kB)
    for size in range(0, 10_241, 512):
        (place / "store" / "pdpd.db").write_bytes(b"x" * size)
        for positions, wanted in (([5, 5, 5], ""), ([5, 6, 6], "has gone on")):
            why, out = written(settings, positions)
            ends.append((wanted in why and bool(wanted) == bool(why), bool(wanted), b"end/5" in out))
    expect("what is said, and whether there is an end", set(ends), {(True, False, True), (True, True, False)})


def written(settings, positions):
    """Why a copy fails while the daemon is at these entries, one after another, and what is written."""
    left, out, before = iter(positions), io.BytesIO(), copying.asked
    copying.asked = lambda *_: {"position": next(left)}
    try:
        return why_not(lambda: copying.write(settings, 0, out)), out.getvalue()
    finally:
        copying.asked = before


def members():
    """The settings of a member of etcd, also by addresses of IPv6."""
    held = SimpleNamespace(machines={"a": ("10.0.0.1", 2379), "b": ("fd00::2", 2379)}, self="b",
                           etcd_certificates="/etc/pdpd/etcd")
    lines = member.lines(held).splitlines()
    for line in ('ETCD_LISTEN_CLIENT_URLS="https://[fd00::2]:2379"', 'ETCD_LISTEN_PEER_URLS="https://[fd00::2]:2380"',
                 'ETCD_INITIAL_CLUSTER="a=https://10.0.0.1:2380,b=https://[fd00::2]:2380"'):
        expect(line, line in lines, True)


class Asked:
    """A frozen log at entry 7, which no machine has applied. The third machine is gone while it is asked whether all
    stand still, and then it is back; it never says so."""

    def __init__(self):
        self.etcd, self.looks, self.question, self.kept = self, 0, "", []

    def look(self):
        return Look(Head(7, ""), "by hand", "p", "")

    def others(self):
        self.looks += 1
        told = {name: {"position": 6, "stands": self.question} for name in "ab"}
        return told if self.looks == 2 else {**told, "c": {"position": 6, "stands": ""}}

    def skip_key(self, number):
        return b"%d" % number

    def grant(self, seconds):
        return 1

    def transaction(self, holds, puts):
        for one in puts:
            value = base64.b64decode(one["request_put"]["value"]) if "request_put" in one else b""
            self.question = self.question or value.decode().removeprefix("asked ")
            self.kept.append(value)
        return True, []


def skipped_without_one():
    """An entry isn't skipped while a machine may send it that is gone just when it is asked."""
    log, before = Asked(), skipping.PATIENCE
    skipping.PATIENCE = 1.0
    try:
        found = why_not(lambda: skipping.skip(log, 7, {"a", "b", "c"}), Wrong)
    finally:
        skipping.PATIENCE = before
    expect("why", found, "c may send entry 7 still")
    expect("what is left of it", (b"skipped" in log.kept, log.kept[-1]), (False, b""))


def addresses():
    """etcd on another machine is spoken to by certificates alone; in the clear on this one."""
    machines = machines_in("a=127.0.0.1 b=10.0.0.2")
    why = why_not(lambda: options.etcd_of(machines, "a", None), ValueError)
    expect("another machine", "client certificates" in why, True)
    for host, wanted in (("127.0.0.1", ""), ("localhost", ""), ("192.0.2.1", "isn't one of this machine"),
                         ("no-such.invalid", "isn't one of this machine")):
        expect(f"whose address {host} is", wanted in (found := why_not(
            lambda host=host: refuse_elsewhere("a", host), ValueError)) and bool(wanted) == bool(found), True)
    why = why_not(lambda: options.etcd_of(machines, "a", folder / "no-certificates"), ValueError)
    expect("no certificates", "ca.crt isn't there: pdpd-replicas certificates" in why, True)
    found = options.etcd_of(machines_in("a=127.0.0.1:23,b=[::1]"), "b", None)
    expect("this one", [(one.host, one.port, one.tls) for one in found.members],
           [("::1", 2379, None), ("127.0.0.1", 23, None)])


def frozen_for():
    """A reason for which no change is taken stays where another one wants less care, and else gives way."""
    differ = Verdict(7, {"a": [200], "b": [409]}, None).shown()
    for first, second, wanted in (("", "upgrade", "upgrade"), ("upgrade", "growth", "upgrade"),
                                  ("upgrade", differ, differ), (differ, "upgrade", differ), (differ, PUSHED, PUSHED),
                                  (PUSHED, "upgrade", PUSHED), (PUSHED, differ, PUSHED)):
        kept = [first.encode() or None]

        def transaction(holds, puts, kept=kept):
            kept[0] = base64.b64decode(puts[0]["request_put"]["value"])
            return True, []
        log = SharedLog(SimpleNamespace(get=lambda key, kept=kept: kept[0], transaction=transaction), 0, "a", "p")
        expect(f"{second[:20]!r} behind {first[:20]!r}", (log.freeze(second), kept[0]), (wanted, wanted.encode()))


def taken_by(messages):
    """What a domain has behind entries that pdpd has taken."""
    state = State()
    for head, body in messages:
        status = 201 if head["method"] == "PUT" and head["path"].count("/") == 3 else 200
        state.take(SimpleNamespace(entry=SimpleNamespace(head=head), body=lambda body=body: body,
                                   is_again=lambda: False, status=lambda status=status: status))
    return state


def carried():
    """The entries that carry a domain make all that it has, in at most one more token than it has for a while."""
    policy = (TOP / "examples" / "ward" / "policy.json").read_bytes()
    key = ("policy", "urn:example:ward:records", "1.0")
    full = State(True, True, {kept("ask-1"): "ask", kept("admin-1"): "admin"}, {key: policy}, {key}, b'{"x":1}', b"{}")
    alone = State(True, True, {kept("ask-1"): "ask"}, {key: policy})
    for what, state, count in (("all of it", full, 7), ("a domain that has nothing", State(True), 5),
                               ("without an administrator", alone, 7)):
        messages = moving.messages_of(state, "acme")
        expect(what, (taken_by(messages) == state, len(messages)), (True, count))
        shown = {pair[1] for head, _ in messages for pair in head["fields"] if pair[0] == "authorization"}
        expect(f"{what}: by one token", len(shown), 1)


def authority():
    """Certificates for one more machine are of the same authority; what is there isn't replaced."""
    place = folder / "certificates"
    certificates.make(place, machines_in("a=10.0.0.1 b=b.example"))
    first = {path.name: path.read_bytes() for path in (place / "ca.crt", place / "ca.key")}
    certificates.make(place, machines_in("d=10.0.0.4"))
    expect("the authority", {name: (place / name).read_bytes() for name in first}, first)
    for name in "abd":
        for word in ("client", "member"):
            words = ["openssl", "verify", "-CAfile", place / name / "ca.crt", place / name / f"{word}.crt"]
            expect(f"{word} of {name}", subprocess.run(words, capture_output=True, check=False).returncode, 0)
    found = why_not(lambda: certificates.make(place, machines_in("c=10.0.0.3 a=10.0.0.1")))
    expect("one that is there", ("is there already" in found, (place / "c").exists()), (True, False))


def trimming():
    """Of what all have applied fewer entries stay if etcd holds much."""
    kept = {}
    etcd = SimpleNamespace(bytes_in_use=lambda: kept["bytes"], get=lambda key: None)
    log = SimpleNamespace(name="a", etcd=etcd, trimmed=b"", trim=lambda number: kept.update(number=number))
    for held, others, wanted in ((1 << 20, {"a": 5000, "b": 4000}, 3000), (1 << 30, {"a": 5000, "b": 4000}, 3900),
                                 (1 << 30, {"a": 5000, "b": 90}, None)):
        one = Telling(log, 5.0, dict, lambda what: None)
        one.others = {name: {"position": number} for name, number in others.items()}
        kept.update(bytes=held, number=None)
        one.trim(1000)
        expect(f"with {held} bytes, at {others}", kept["number"], wanted)


def taken():
    """A member that answers isn't taken out by mistake; one is found by its name, or by its address before it began."""
    machines = machines_in("a=10.0.0.1 b=10.0.0.2")
    answering = SimpleNamespace(members=[Member(*machines["a"]), Member(*machines["b"])], seconds=1.0,
                                once=lambda *given: {})
    expect("one that answers", "etcd of b answers" in why_not(
        lambda: etcd_members.refuse_running(answering, machines, "b")), True)
    calls, held = [], [{"ID": "1", "name": "a", "peerURLs": ["https://10.0.0.1:2380"]},
                       {"ID": "2", "name": "", "peerURLs": ["https://10.0.0.2:2380"]}]
    etcd = SimpleNamespace(call=lambda path, what, *more: calls.append((path, what)) or {"members": held})
    expect("one that never began", etcd_members.remove(etcd, machines, "b"), True)
    expect("one that isn't there", etcd_members.remove(etcd, machines, "c"), False)
    expect("what is taken out", [what for path, what in calls if path.endswith("remove")], [{"ID": "2"}])


PARTS = (copies, broken_copies, members, beginnings, statuses, skipped_without_one, addresses, frozen_for, carried,
         authority, trimming, taken)
