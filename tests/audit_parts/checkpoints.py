"""What an archive has of each domain beside its records: checkpoints, places, keys; and domains that are forgotten."""
import base64
import contextlib
import gzip
import hashlib
import json
import os
import random
import shutil
import zlib
from unittest import mock

from log import audit, checking, decisions, domains, history, keeping
from log.archive import Archive, segments_in
from log.domains import Forgotten, checkpoints_in, folder_of, keys_in
from log.history import Unknown, by_archive, changes_in
from log.past import Past, state_before
from log.pdpd import Reply
from log.record import Damaged
from log.sealing import MOST_INFLATED, counted, deflated, inflated, opened, sealed
from sent import DONE
from serving import UNAVAILABLE

from .generated import BEGIN, POLICY, WARD, Clock, Writer, table, write_year
from .shared import PROGRAM, SEED, Logged, expect, log
from .shared import kept as shown_token
from .shared import memory as folder

REQUEST = (WARD / "request-alice.json").read_bytes()
MOMENTS = 12
# NIST SP 800-38A, F.5.5: AES-256 in counter mode
KEY = "603deb1015ca71be2b73aef0857d77811f352c073b6108d72d9810a30914dff4"
START, PLAIN = "f0f1f2f3f4f5f6f7f8f9fafbfcfdfeff", "6bc1bee22e409f96e93d7e117393172aae2d8a571e03ac9c9eb76fac45af8e51"
CIPHER = "601ec313775789a5b7a7f504bbf3d228f443e3ca4d62b59aca84e990cacaf5c5"


def sealing():
    """The cipher is that of the standard, and gives back what it took."""
    found = counted(bytes.fromhex(KEY), bytes.fromhex(START), bytes.fromhex(PLAIN)).hex()
    expect("the standard's example", found, CIPHER)
    key = bytes(range(32))
    for body in (b"", b"x", b"y" * 524_288):
        expect(f"{len(body)} bytes", opened(key, sealed(key, body)), body)
    expect("the same body twice", sealed(key, b"the same body") != sealed(key, b"the same body"), True)
    deflating()


# "hello", in a fixed block of RFC 1951, by RFC 1950: its head, the block, and the Adler-32
HELLO = "789ccb48cdc9c907 00062c0215"


def deflating():
    """A body is deflated where that is shorter, and given back; what is cut, changed or too long is refused."""
    data = bytes.fromhex(HELLO)
    expect("the example of RFC 1950", inflated(data), b"hello")
    text = table(random.Random(SEED), 3_500)
    short = deflated(text)
    expect("a table", (inflated(short) == text, len(short) < len(text) / 10), (True, True))
    expect("what wouldn't be shorter", [deflated(body) for body in (b"", b"x", bytes(range(256)))], [None] * 3)
    longest = bytes(MOST_INFLATED)
    expect("the longest", inflated(zlib.compress(longest)) == longest, True)
    for what, wrong in (("cut", data[:-1]), ("empty", b""), ("changed", data[:-1] + b"\0"), ("none", b"hello"),
                        ("too long", zlib.compress(longest + b"x"))):
        expect(f"{what}", raised(lambda wrong=wrong: inflated(wrong)), ValueError)


@contextlib.contextmanager
def often(changes):
    """A checkpoint behind so few changes."""
    before = keeping.MOST_CHANGES
    keeping.MOST_CHANGES = changes
    try:
        yield
    finally:
        keeping.MOST_CHANGES = before


def past_in(path, domain="acme"):
    return Past(by_archive([path])[0], domain)


def compared(path):
    """What `check` says of places and checkpoints. (The replies here aren't pdpd's.)"""
    found = checking.Checked()
    checking.compared(by_archive([path])[0], found)
    return found


def answers(past, moments, how):
    return [[reply.data for _, reply in how(past, at, REQUEST)] for at in moments]


def checkpoints():
    """A decision from the last checkpoint is that of all messages, also where checkpoints or places are spoilt."""
    os.environ["PDPD"] = PROGRAM
    path = folder / "checkpoints"
    with often(10):
        last = write_year(path, 60, 12, seconds=6_000)
    past, chance = past_in(path), random.Random(SEED)
    found = [number for number, _, _ in checkpoints_in(past.folder)]
    expect("checkpoints, ten changes apart", [past.places.behind(lambda one, n=number: one.number <= n)
                                              for number in found], list(range(10, len(past.places) + 1, 10)))
    expect("where one begins", [past.start(count)[0] for count in (9, 10, 19, 25, 60)], [0, 10, 10, 20, 60])
    moments = [chance.uniform(BEGIN + 1, last) for _ in range(MOMENTS)]
    wanted = answers(past, moments, audit.decide_by_all)
    expect("more than one answer", len({str(one) for one in wanted}) > 1, True)
    expect("from checkpoints", answers(past, moments, audit.decide), wanted)
    found = compared(path)
    expect("check", (found.wrong, found.checkpoints), ([], 6))
    spoilt_checkpoint(path, moments, wanted)
    spoilt_places(path, moments, wanted)


def due():
    """One is written behind 1,000 changes of a domain, however short they are."""
    path = folder / "due"
    writer = Writer(path, Clock())
    writer.domain("acme")
    for _ in range(999 - writer.archive.position):
        writer.change("acme", "PUT", f"/domains/acme{POLICY}")
    found = [checkpoints_in(folder_of(path, "acme"))]
    writer.change("acme", "DELETE", f"/domains/acme{POLICY}")
    found.append([number for number, _, _ in checkpoints_in(folder_of(path, "acme"))])
    expect("behind 999 changes, and behind 1,000", found, [[], [1_000]])
    writer.close()


def spoilt_checkpoint(path, moments, wanted):
    """One that is changed is passed over, and told by `check`."""
    copy = shutil.copytree(path, folder / "spoilt-checkpoint")
    for _, _, file in checkpoints_in(folder_of(copy, "acme")):
        data = bytearray(file.read_bytes())
        data[-1] ^= 1
        file.write_bytes(data)
    expect("changed checkpoints", answers(past_in(copy), moments, audit.decide), wanted)
    expect("check tells of them", len(compared(copy).wrong), 6)
    for file in folder_of(copy, "acme").glob("*/*.text"):
        file.unlink()
    expect("no texts", answers(past_in(copy), moments, audit.decide), wanted)


def spoilt_places(path, moments, wanted):
    """One that is missing or another one is seen, and all records are read."""
    for what, change in (("missing", lambda data: data[:56 * 30] + data[56 * 31:]),
                         ("of nothing", lambda data: data[:56 * 30] + bytes(56) + data[56 * 31:]),
                         ("cut", lambda data: data[:56 * 40 + 7])):
        copy = shutil.copytree(path, folder / f"places-{what.replace(' ', '-')}")
        file = folder_of(copy, "acme") / "places"
        file.write_bytes(change(file.read_bytes()))
        expect(f"a place is {what}", answers(past_in(copy), moments, audit.decide), wanted)
        expect(f"a place is {what}: check", compared(copy).wrong != [], True)
    writer = Writer(copy, Clock(BEGIN + 10_000))
    writer.close()
    expect("a start mends what stands at the end", compared(copy).wrong, [])


def moved_away():
    """Old months that are packed and moved into another folder are read there: what was decided is the same."""
    os.environ["PDPD"] = PROGRAM
    path, away = folder / "moved", folder / "moved-away"
    with often(10):
        last = write_year(path, 60, 12)
    chance = random.Random(SEED)
    moments = [chance.uniform(BEGIN + 1, last) for _ in range(MOMENTS)]
    wanted = answers(past_in(path), moments, audit.decide_by_all)
    expect("more than one answer", len({str(one) for one in wanted}) > 1, True)
    segments = segments_in([path])
    expect("a file for each month", [one.month for one in segments], [f"2026-{month:02d}" for month in range(1, 13)])
    away.mkdir()
    for one in segments[:8]:
        if int(one.month[-2:]) % 2:
            (away / f"{one.path.name}.gz").write_bytes(gzip.compress(one.path.read_bytes()))
            one.path.unlink()
        else:
            shutil.move(one.path, away)
    for what, folders in (("the archive first", [path, away]), ("the other folder first", [away, path])):
        past = Past(by_archive(folders)[0], "acme")
        numbers = [past.places[index].number for index in range(len(past.places))]
        expect(f"{what}: each by its place", [past.change_at(index).number() for index in range(len(numbers))], numbers)
        for how in (audit.decide, audit.decide_by_all):
            expect(f"{what}, {how.__name__}", answers(past, moments, how), wanted)
    begin = next(one for one in moments if one < BEGIN + 200 * 86_400)
    words = ["--domain", "acme", "--at", str(begin)]
    ran = log("state", "--archive", path, "--archive", away, *words, folder / "moved-then")
    expect("by the command", (ran[0], ran[2]), (0, ""))
    ran = log("decide", "--all", "--archive", path, *words, WARD / "request-alice.json")
    expect("without that folder", (ran[0], "isn't there: name its folder by --archive" in ran[2]), (2, True))


def other_reply():
    """`check` names an entry that a replay answers otherwise, though chain and checksums are right."""
    with Logged("other-reply") as logged:
        logged.make_domain()
        logged.kill_daemon()
        archive = Archive(logged.archive)
        kept = keeping.Keeping(archive, print)
        body = b'{"PolicyIdReference":{"Id":"urn:example:ward:records"}}'
        for status, reply in ((200, DONE), (409, UNAVAILABLE)):
            more, key = kept.before("acme", archive.position + 1)
            fields = [["content-type", "application/json"], ["authorization", f"Bearer {shown_token('acme-admin-1')}"]]
            head = {"domain": "acme", "who": "admin", "method": "PUT", "path": "/domains/acme/pap/root",
                    "fields": fields, **more}
            kept.behind(archive.add_entry(head, sealed(key, body)), archive.add_reply(status, reply, is_again=False))
        archive.close()
        status, out, said = log("check", "--archive", logged.archive)
        first, second = out.decode().splitlines()
        expect("one of nine", (status, first, said), (1, f"{logged.archive}: 9 changes, 1 replies that replay gives "
                                                         "otherwise, 0 checkpoints", ""))
        expect("which one", second.startswith("  entry 9 was answered"), True)


def forgetting():
    """What a removed domain had can't be read once it is forgotten, also not in the next one of that name; the chain
    holds, and others stay."""
    os.environ["PDPD"] = PROGRAM
    path, clock, chance = folder / "forgetting", Clock(), random.Random(SEED)
    with often(4):
        writer = Writer(path, clock)
        for name in ("acme", "other", "acme"):
            if name == "acme" and writer.archive.position:
                writer.remove("acme")
            writer.domain(name)
            writer.change(name, "PUT", f"/domains/{name}/pip", table(chance, 12))
            clock.now += 100
        writer.close()
    data = b"".join(segment.data() for segment in segments_in([path]))
    expect("bodies in the archive", [word for word in (b"PolicyId", b"urn:example:role") if word in data], [])
    before = [answers(past_in(path, name), [clock.now], audit.decide) for name in ("acme", "other")]
    early = BEGIN + 50
    expect("what it had then", len(state_before(past_in(path), early)[0].documents), 1)
    status, out, said = log("forget", "--archive", path, "--domain", "acme")
    expect("it is forgotten", (status, out, said), (0, f"{path}: 1 keys of acme are gone\n".encode(), ""))
    expect("what it had can't be read", raised(lambda: state_before(past_in(path), early)), Forgotten)
    expect("by no way", raised(lambda: audit.decide_by_all(past_in(path), early, REQUEST)), Forgotten)
    held = {file for file in (path / "domains").rglob("*") if file.is_file()}
    expect("no checkpoint of it is left", [file for file in held if file.parent.name == f"{1:016d}"], [])
    status, out, said = log("changes", "--archive", path, "--domain", "acme")
    expect("what is told of it", (status, out.count(b"(forgotten)"), said), (0, 4, ""))
    behind = [answers(past_in(path, name), [clock.now], audit.decide) for name in ("acme", "other")]
    expect("the next one stays", behind, before)
    ((_, reply),) = audit.decide(past_in(path), clock.now, REQUEST)
    lines = [decided(early, b""), decided(clock.now, reply.body()), decided(clock.now, b"another reply")]
    found = [kind for kind, _ in decisions.verify(by_archive([path]), lines)]
    expect("decisions that were logged: then, and since", found, ["unverified", "same", "other"])
    found = compared(path)
    expect("the chain holds", found.wrong, [])
    checking.replayed(by_archive([path])[0], found)
    expect("check replays the others", (found.forgotten, found.count), ({"acme"}, 12))
    expect("one that is there isn't forgotten", log("forget", "--archive", path, "--domain", "other")[::2],
           (2, "pdpd-log: the domain 'other' is there: remove it first\n"))
    expect("its key stays", len(keys_in(folder_of(path, "other"))), 1)


def found_same():
    """Once a decision is found to be the same it isn't worked out for the other seconds in which it may have been
    given."""
    path, clock, asked = folder / "found", Clock(), []
    writer = Writer(path, clock)
    writer.domain("acme")
    clock.now += 100
    writer.close()

    def in_step(parts):
        for _, message in parts:
            asked.append(message)
            yield Reply(200, b"HTTP/1.1 200 OK\r\n\r\nthe reply")
    with mock.patch.object(decisions, "replay", in_step):
        lines = [decided(clock.now, b"the reply", 20), decided(clock.now + 50, b"another", 20)]
        found = [kind for kind, _ in decisions.verify(by_archive([path]), lines)]
    expect("both", found, ["same", "other"])
    expect("how often they are worked out", sum(b"/pdp " in message for message in asked), 1 + 21)


def decided(at, reply, seconds=0.001):
    """A line of a decision of that moment, which took so long, as HAProxy logs it."""
    begin, digest = round(at * 1e6), hashlib.sha256(reply).hexdigest()
    return json.dumps({"begin": begin, "end": begin + round(seconds * 1e6), "domain": "acme", "who": "00000000",
                       "status": 200, "reply": digest, "request": base64.b64encode(REQUEST).decode()},
                      separators=(",", ":"))


def raised(call):
    """The class of the error that a call ends with."""
    try:
        call()
    except (Forgotten, Unknown, Damaged, ValueError) as fault:
        return type(fault)
    return None


def earlier():
    """An archive of a version that deflated nothing is read, gone on with, and takes more room; one whose key is
    another one's is told to be so."""
    os.environ["PDPD"] = PROGRAM
    paths, sizes, chance = (folder / "earlier", folder / "deflated"), [], random.Random(SEED)
    for path in paths:
        with often(10), contextlib.ExitStack() as stack:
            if path == paths[0]:
                stack.enter_context(mock.patch.object(keeping, "deflated", lambda body: None))
                stack.enter_context(mock.patch.object(domains.zlib, "compress", lambda text: text))
            last = write_year(path, 30, 100, seconds=3_000)
        sizes.append(sum(file.stat().st_size for file in path.rglob("*") if file.is_file()))
    expect(f"bytes: {sizes}", sizes[0] > 3 * sizes[1], True)
    moments = [chance.uniform(BEGIN + 1, last) for _ in range(MOMENTS)]
    wanted = answers(past_in(paths[1]), moments, audit.decide_by_all)
    for how in (audit.decide, audit.decide_by_all):
        expect(f"an earlier version's, {how.__name__}", answers(past_in(paths[0]), moments, how), wanted)
    found = compared(paths[0])
    expect("check", (found.wrong, found.checkpoints), ([], 3))
    codings = {change.entry.head.get("coding") for change in changes_in(segments_in([paths[0]]))}
    writer = Writer(paths[0], Clock(last + 1))
    writer.change("acme", "PUT", "/domains/acme/pip", table(chance, 100))
    writer.close()
    behind = {change.entry.head.get("coding") for change in changes_in(segments_in([paths[0]]))} - codings
    expect("a later version's change behind it", (codings, behind), ({None}, {"deflate"}))
    expect("check, behind it", compared(paths[0]).wrong, [])
    (key,) = folder_of(paths[1], "acme").glob("*.key")
    key.write_bytes(bytes(32))
    expect("another key", raised(lambda: state_before(past_in(paths[1]), last)), Damaged)


def unread():
    """Changes in a row leave what they leave one after another, and of a table that is replaced the body isn't read."""
    path, chance, counts = folder / "unread", random.Random(SEED), []
    writer = Writer(path, Clock())
    writer.domain("acme")
    for _ in range(300):
        kind = chance.random()
        if kind < 0.03:
            writer.remove("acme")
        elif kind < 0.06:
            writer.change("acme", "PUT", "/operator/domains/acme", who="operator", status=chance.choice((201, 409)))
        elif kind < 0.2:
            writer.change("acme", chance.choice(("PUT", "DELETE")), f"/domains/acme{POLICY}")
        else:
            writer.change("acme", "PUT", "/domains/acme/pip", table(chance, 12), status=chance.choice((200, 200, 401)))
    writer.close()
    changes = list(changes_in(segments_in([path])))
    whole = history.State()
    for count, change in enumerate(changes, 1):
        whole.take(change)
        first, found = chance.randrange(count), history.State()
        found.take_all(changes[:first])
        found.take_all(changes[first:count])
        counts.append(found == whole)
    expect(f"states as by one after another, of {len(counts)}", counts.count(False), 0)
    read = []
    with mock.patch.object(history.Change, "body", lambda one: read.append(one) or b'{"Row":[]}'):
        history.State(is_there=True).take_all(change for change in changes if change.sets_rows())
    expect("tables that are read", [change.number() for change in read],
           [[change.number() for change in changes if change.sets_rows()][-1]])


PARTS = (sealing, checkpoints, due, moved_away, other_reply, forgetting, found_same, earlier, unread)
