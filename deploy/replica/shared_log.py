"""The log of a shard in etcd: entries with dense numbers, each of which names the one before by its SHA-256.

    /pdpd/SHARD/head            "N SHA256": the last entry; of an empty log 0 and the log's name, 32 random bytes
    /pdpd/SHARD/log/0000..N     the entries: a line of JSON, and the body of the message
    /pdpd/SHARD/begun           "empty NAME" or "full NAME": whether stores had domains at the beginning; the log's name
    /pdpd/SHARD/program         "SHA256/N[/MAP]": the program that applies them, how many shards all machines have, and
                                what stands for the map of domains
    /pdpd/SHARD/frozen          is there while no change is taken: why
    /pdpd/SHARD/led             by which change of the map of all groups domains are led to this shard, at the least
    /pdpd/SHARD/trimmed         entries up to this one are gone
    /pdpd/SHARD/replica/NAME    what a replica tells of itself, under a lease
    /pdpd/SHARD/out/NAME        why that replica answers nothing, until it is made anew
    /pdpd/SHARD/skip/0000..N    "asked ID" while no replica may send that entry, "skipped" once none ever does
    /pdpd/SHARD/pause           "N ..": no replica goes beyond that entry, the last one when this was put (rows.py)
    /pdpd/SHARD/rows/..         what replicas tell each other of their rows (rows.py)
"""
from __future__ import annotations

import hashlib
import json
import re
from collections.abc import Set
from dataclasses import dataclass, replace

from .comparing import Verdict
from .etcd import Etcd, after, deleting, is_absent, is_value, putting, reading

# pdpd's longest body, and the longest entry, whose head is as long as that of a message
LONGEST_BODY, LONGEST_ENTRY = 524_288, 560_000
VERSION = 1
# how many entries are read at a time, and for how long what etcd had stays to be read, in seconds
MOST_READ, HISTORY = 16, 60.0
# what stands in an entry's head of the message itself
OF_MESSAGE = ("domain", "who", "method", "path", "fields")
SKIPPED = "skipped"
# why a log is frozen to which archives give what it has lost
PUSHED = "its entries are pushed from archives"


def care_of(why: str) -> int:
    """How much has to be looked at before changes are taken again: what somebody has asked for, which of two machines
    is right, or whether any machine has applied more than the log has."""
    return 2 if why == PUSHED else int(bool(re.match(r"(replies to|rows behind) entry \d+ differ", why)))


class Wrong(Exception):
    """The log isn't what this replica can go by, and what is to be done."""


def program_of(digest: str, shards: int, domains: str = "") -> str:
    """What all machines have to have alike: the program; the number of shards, and what stands for the map of domains,
    by which messages are led."""
    return f"{digest}/{shards}{f'/{domains}' * bool(domains)}"


def shown_program(program: str) -> str:
    digest, *more = program.split("/")
    return digest[:12] + "".join(f"{word} {one}" for word, one in zip((" with SHARDS", " and the map"), more))


@dataclass(frozen=True)
class Head:
    """The last entry of a log: its number and its name."""
    number: int
    name: str

    def value(self) -> bytes:
        return f"{self.number} {self.name}".encode()


def head_in(value: bytes | None) -> Head:
    found = re.fullmatch(rb"(\d{1,16}) ([0-9a-f]{64})", value or b"")
    if not found:
        raise Wrong("etcd has no log of this shard: pdpd-replicas init makes the first one; if it had one, "
                    "pdpd-replicas push gives it those of the archives")
    return Head(int(found[1]), found[2].decode())


@dataclass(frozen=True)
class Entry:
    """An entry: its head, which has the number `n` and the name before it `prev`, and a message's body. One that is
    skipped is applied by no replica."""
    head: dict
    body: bytes
    is_skipped: bool = False

    def data(self) -> bytes:
        return json.dumps(self.head, separators=(",", ":"), sort_keys=True).encode() + b"\n" + self.body

    def name(self) -> str:
        return hashlib.sha256(self.data()).hexdigest()

    def number(self) -> int:
        return self.head["n"]


def entry_in(data: bytes) -> Entry:
    """The entry in what etcd has; it is as it was written, or an error."""
    line, _, body = data.partition(b"\n")
    try:
        found = Entry(json.loads(line), body)
        version = found.head["version"]
    except (ValueError, KeyError, TypeError):
        raise Wrong("etcd has an entry that is none: look who wrote it, then pdpd-replicas push") from None
    if version != VERSION:
        raise Wrong(f"an entry has version {version}, and this program knows {VERSION}: pdpd-shards upgrade")
    if found.data() != data:
        raise Wrong("etcd has an entry that isn't as it was written: look who wrote it, then pdpd-replicas push")
    return found


@dataclass(frozen=True)
class Look:
    """What a reading of the log shows at one instant."""
    head: Head
    frozen: str
    program: str
    out: str
    led: int = 0


class SharedLog:
    """The log of one shard. `program` is what this machine applies entries by (`program_of`)."""

    def __init__(self, etcd: Etcd, shard: int, name: str, program: str):
        self.etcd, self.name, self.program = etcd, name, program
        at = f"/pdpd/{shard}".encode()
        self.head, self.frozen, self.of_program = at + b"/head", at + b"/frozen", at + b"/program"
        self.trimmed, self.log = at + b"/trimmed", at + b"/log/"
        self.replicas, self.outs, self.rows = at + b"/replica/", at + b"/out/", at + b"/rows/"
        self.skips, self.pause, self.begun, self.led = at + b"/skip/", at + b"/pause", at + b"/begun", at + b"/led"

    def key(self, number: int) -> bytes:
        return self.log + b"%016d" % number

    def skip_key(self, number: int) -> bytes:
        return self.skips + b"%016d" % number

    # ---- readings

    def look(self) -> Look:
        """The head, by the quorum, and what else counts for this replica."""
        keys = (self.head, self.led, self.frozen, self.of_program, self.outs + self.name.encode())
        _, found = self.etcd.transaction([], [reading(key) for key in keys])
        head, led, *more = [pairs[0][1] if pairs else None for pairs in found]
        return Look(head_in(head), *((value or b"").decode(errors="replace") for value in more), int(led or 0))

    def entry(self, number: int) -> Entry | None:
        found = self.etcd.get(self.key(number))
        return entry_in(found) if found is not None else None

    def entries(self, first: int) -> list[Entry]:
        """Entries from a number on, as many as come at a time, up to the one at which replicas stand still; an error
        where they are gone."""
        _, (pairs, skips, pause) = self.etcd.transaction([], [
            reading(self.key(first), after(self.log), MOST_READ), reading(self.skip_key(first), after(self.skips)),
            reading(self.pause)])
        skipped = {key for key, value in skips if value == SKIPPED.encode()}
        found = [entry_in(value) for _, value in pairs]
        if found and found[0].number() != first:
            raise Wrong(f"entry {first} isn't in etcd any more, which begins with {found[0].number()}: make this "
                        "replica anew of another one (pdpd-replicas join)")
        last = int(pause[0][1].split()[0]) if pause else float("inf")
        return [replace(one, is_skipped=self.skip_key(one.number()) in skipped)
                for one in found if one.number() <= last]

    def skip(self, number: int) -> str:
        """What is said of an entry: nothing, that nobody may send it for now, or that it is skipped."""
        return (self.etcd.get(self.skip_key(number)) or b"").decode(errors="replace")

    def others(self) -> dict[str, dict]:
        """What registered replicas have told last, by their names; this one's too."""
        return {key[len(self.replicas):].decode(): json.loads(value or b"{}")
                for key, value in self.etcd.range(self.replicas, after(self.replicas))}

    # ---- writes

    def is_open(self) -> dict:
        """What has to hold for an append: nothing is frozen."""
        return is_absent(self.frozen)

    def append(self, head: Head, entries: list[Entry]) -> bool:
        """Whether these entries were appended behind that head: if it is the head still, nothing is frozen, and all
        replicas run this program."""
        last = Head(entries[-1].number(), entries[-1].name())
        holds = [is_value(self.head, head.value()), self.is_open(),
                 is_value(self.of_program, self.program.encode())]
        puts = [putting(self.key(one.number()), one.data()) for one in entries]
        return self.etcd.transaction(holds, [*puts, putting(self.head, last.value())])[0]

    def make(self, name: str, is_full: bool = False, frozen: str = "") -> bool:
        """Makes an empty log of that name, which begins with stores that have domains or have none, and may be frozen;
        whether there was none."""
        return self.etcd.transaction([is_absent(self.head)], [
            putting(self.head, Head(0, name).value()), putting(self.of_program, self.program.encode()),
            putting(self.begun, f"{'full' if is_full else 'empty'} {name}".encode()),
            *([putting(self.frozen, frozen.encode())] if frozen else [])])[0]

    def beginning(self) -> tuple[bool, str] | None:
        """Whether stores had domains at the beginning of the log, and its name; nothing where there is no log."""
        found = (self.etcd.get(self.begun) or b"").decode().split()
        return (found[0] == "full", found[1]) if len(found) == 2 else None

    def trim(self, number: int) -> None:
        """Drops the entries up to that number."""
        self.etcd.transaction([], [putting(self.trimmed, b"%d" % number), deleting(self.log, self.key(number + 1)),
                                   deleting(self.skips, self.skip_key(number + 1))])
        self.etcd.drop_history(HISTORY)

    def drop_all(self, tail: int) -> int:
        """Drops the entries that all registered replicas have applied but for the last ones, also where etcd takes
        nothing more; up to which one."""
        positions = [told["position"] for told in self.others().values()]
        number = min(positions) - tail if positions else 0
        if number > 0:
            self.etcd.delete(self.log, self.key(number + 1))
        self.etcd.drop_history()
        return max(number, 0)

    def freeze(self, why: str) -> str:
        """Has no change taken; why none is now. A reason that wants more care than this one stays."""
        while True:
            held = self.etcd.get(self.frozen)
            if held is not None and care_of(held.decode(errors="replace")) >= care_of(why):
                return held.decode(errors="replace")
            holds = is_absent(self.frozen) if held is None else is_value(self.frozen, held)
            if self.etcd.transaction([holds], [putting(self.frozen, why.encode())])[0]:
                return why

    def behind(self) -> list[str]:
        """The registered replicas that haven't applied the last entry."""
        number = self.look().head.number
        return sorted(name for name, told in self.others().items() if told["position"] < number)

    def judge(self, verdict: Verdict) -> None:
        """No change is taken any more while two replicas differ and nobody knows which is right. Once a third one
        shows it, the one that differs is out, and the others go on."""
        if verdict.alone is None:
            self.freeze(verdict.shown())
            return
        self.etcd.put(self.outs + verdict.alone.encode(), verdict.shown().encode())
        self.thaw_from(verdict.what())

    def take_back(self) -> None:
        """Lets this replica answer again, once it is made anew."""
        self.etcd.delete(self.outs + self.name.encode())

    def thaw(self, machines: Set[str]) -> None:
        """Has changes taken again, by this machine's program; an error where a replica has another one, or isn't
        level, or where all machines have to be there and one isn't."""
        look, others = self.look(), self.others()
        if look.frozen == PUSHED and (missing := sorted(machines - others.keys())):
            raise Wrong(f"{', '.join(missing)} isn't there, and may have applied more than the log has: start it. One "
                        "that is lost is taken out of REPLICAS on this machine first")
        for name, told in others.items():
            if told["position"] > look.head.number:
                raise Wrong(f"{name} is at entry {told['position']}, and the log at {look.head.number}: pdpd-replicas "
                            f"push on {name}")
            if told["position"] < look.head.number:
                raise Wrong(f"{name} is at entry {told['position']}, and the log at {look.head.number}: wait for it")
            if told["program"] != self.program:
                raise Wrong(f"{name} has the program {shown_program(told['program'])}, and this machine "
                            f"{shown_program(self.program)}: all machines have to run the same one, and lead domains "
                            "alike (pdpd-shards upgrade, or grow and restart; pdpd-replicas lead)")
        if not self.etcd.transaction([is_value(self.head, look.head.value())], [
                putting(self.of_program, self.program.encode()), deleting(self.frozen)])[0]:
            raise Wrong("something was appended meanwhile: thaw again")

    def thaw_from(self, why: str) -> None:
        """Has changes taken again, if the log is frozen for a reason that begins so."""
        found = self.etcd.get(self.frozen)
        if found and found.decode(errors="replace").startswith(why):
            self.etcd.transaction([is_value(self.frozen, found)], [deleting(self.frozen)])
