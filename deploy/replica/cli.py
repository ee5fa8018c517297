"""pdpd-replicas: several machines that hold the same, over a log in etcd.

  pdpd-replicas certificates FOLDER NAME=ADDRESS..   makes an authority, and certificates in a folder for each machine
  pdpd-replicas etcd [--write]     shows the settings of this machine's member of etcd; writes them to /etc/default/etcd
  pdpd-replicas etcd --anew        has that member begin with nothing, where all of etcd is lost
  pdpd-replicas etcd --join        has it begin with nothing beside the others, once one of them has taken it
  pdpd-replicas take NAME          has etcd take the member of a machine that is new, or has lost its disk
  pdpd-replicas drop NAME          takes a machine out: nobody waits for it, and it decides nothing any more
  pdpd-replicas init               has each shard begin with the log; the first machine makes that, with what it has
  pdpd-replicas status [--json]    how the machines are; ends with 1 where something is wrong
  pdpd-replicas freeze WHY..       has no machine take a change any more; decisions go on
  pdpd-replicas thaw               has them take changes again, by the program that this machine has
  pdpd-replicas copy SHARD         writes all that this machine has of a shard, as it is at one entry
  pdpd-replicas join SHARD         puts what `copy` writes in place of a shard that this machine has lost
  pdpd-replicas move DOMAIN FROM TO   makes in a shard what a domain has in another one, while no change is taken
  pdpd-replicas lead DOMAIN SHARD  has this machine lead a domain's messages to a shard that has it, as each has to
  pdpd-replicas unmake DOMAIN SHARD   removes a domain in a shard to which no machine leads its messages
  pdpd-replicas fill               puts the domains of this group into the map of all groups
  pdpd-replicas carry DOMAIN SHARD GROUP.SHARD   brings a domain to another group, or another shard of this one
  pdpd-replicas follow             has HAProxy go by that map, for ever
  pdpd-replicas rows               compares what the stores have: on all machines at the same time, as each hour
  pdpd-replicas trim               drops from etcd all but the last entries, and has it go on if it was full
  pdpd-replicas push               gives etcd what it has lost, of this machine's archives; then no change is taken
  pdpd-replicas skip SHARD ENTRY   takes out an entry that no pdpd answers, while no change is taken

Settings are in /etc/pdpd/shards.conf, or where PDPD_SETTINGS says. REPLICAS.md is the page on all of it. Exit
status: 0 done, 1 something is wrong, 2 usage.
"""
from __future__ import annotations

import contextlib
import fcntl
import json
import os
import pathlib
import re
import sqlite3
import sys
import time
from collections.abc import Iterator

from log.domains import Forgotten
from log.history import Unknown
from log.record import Damaged
from operating import applied
from operating.settings import (
    DOMAIN, LOCKS, Settings, Wrong, alone, harmless, make_locks_folder, number_in_word, read, words_of)

from . import beginning, certificates, copying, member, members, moving, pushing, regrouping, shared_log, skipping
from .etcd import Down, Etcd, Open, Refused
from .following import Follower
from .groups import NoPlace
from .leases import Leases
from .options import etcd_of
from .running import Running
from .shared_log import SharedLog, shown_program
from .telling import LEAST_TAIL

# how long an answer of etcd is waited for, in seconds
PATIENCE = 10.0
# how long is waited until all machines have applied what was appended before a log was frozen, in seconds
FREEZING = 30.0
# how long is waited until a machine that is taken out has given up its registrations: longer than any of these
LEAVING = 150.0
# the name of a machine
NAME = re.compile("[a-z0-9][a-z0-9-]{0,31}")


@contextlib.contextmanager
def only(name: str) -> Iterator[None]:
    """One tool of that name at a time on this machine."""
    make_locks_folder()
    file = os.open(LOCKS / name, os.O_RDWR | os.O_CREAT | os.O_NOFOLLOW | os.O_CLOEXEC, 0o600)
    try:
        fcntl.flock(file, fcntl.LOCK_EX)
        yield
    finally:
        os.close(file)


def say(what: str) -> None:
    print(harmless(f"pdpd-replicas: {what}"), flush=True)


def etcd_from(settings: Settings) -> Etcd:
    if not settings.machines:
        raise Wrong("REPLICAS is empty: this machine is alone")
    return etcd_of(settings.machines, settings.self, pathlib.Path(settings.etcd_certificates), PATIENCE)


def logs_of(settings: Settings) -> list[SharedLog]:
    """The log of each shard."""
    settings.refuse_no_program()
    etcd = etcd_from(settings)
    program = Running(settings.shards, pathlib.Path(settings.program), domains=settings.map).program
    return [SharedLog(etcd, shard, settings.self, program) for shard in range(settings.shards)]


# ---- commands

def etcd(settings: Settings, words: list[str]) -> None:
    if words == ["--anew"]:
        aside = member.begin(settings, "new")
        return say(f"etcd begins anew here; what it had is in {aside}: once it has begun on all machines, "
                   "pdpd-replicas push")
    if words == ["--join"]:
        member.begin(settings, "existing")
        return say("etcd begins here beside that of the other machines")
    if words != ["--write"]:
        print(member.lines(settings), end="")
        return None
    member.write(settings, "new")
    return say(f"{member.ENVIRONMENT} is written: start etcd anew")


def other_machine(settings: Settings, word: str) -> str:
    """A machine that a word names; an error where it is this one."""
    if word == settings.self:
        raise Wrong("that is this machine: give it on another one")
    if not NAME.fullmatch(word):
        raise Wrong(f"{word!r} is no name of a machine")
    return word


def take(settings: Settings, words: list[str]) -> None:
    name, known = other_machine(settings, words[0]), etcd_from(settings)
    if name not in settings.machines:
        raise Wrong(f"REPLICAS names no machine {name}")
    members.refuse_running(known, settings.machines, name)
    members.remove(known, settings.machines, name)
    members.add(known, settings.machines, name)
    say(f"etcd waits for that of {name}: there pdpd-replicas etcd --join")


def drop(settings: Settings, words: list[str]) -> None:
    name, logs, end = other_machine(settings, words[0]), logs_of(settings), time.monotonic() + LEAVING
    for log in logs:
        log.etcd.put(log.outs + name.encode(), b"it was taken out by hand")
    while (there := [log for log in logs if name in log.others()]) and time.monotonic() < end:
        time.sleep(0.2)
    if there:
        raise Wrong(f"{name} is told that it decides nothing any more, and is registered still: end its pdpd-replica")
    had_one = members.remove(logs[0].etcd, settings.machines, name)
    say(f"{name} decides nothing any more{', and etcd goes on without it' * had_one}: take it out of REPLICAS")


def init(settings: Settings, words: list[str]) -> None:
    logs = logs_of(settings)
    # (a shard that comes while others are frozen takes changes once these do)
    frozen = (logs[0].etcd.get(logs[0].frozen) or b"").decode(errors="replace")
    for shard, log in enumerate(logs):
        with alone():
            say(f"shard {shard} {beginning.begin(settings, shard, log, frozen)}")


def are_frozen(settings: Settings) -> bool:
    """Whether no shard takes a change."""
    return all(log.look().frozen for log in logs_of(settings))


def faults_of(settings: Settings, log: SharedLog) -> tuple[dict, list[str]]:
    """What a shard's log and replicas are, and what is wrong with them."""
    look, others = log.look(), log.others()
    found = [f"{name} isn't there" for name in settings.machines if name not in others]
    found += [f"the log is frozen: {look.frozen}"] * bool(look.frozen)
    found += [f"{name} is out: {(value or b'').decode(errors='replace')}"
              for key, value in log.etcd.range(log.outs, shared_log.after(log.outs))
              if (name := key[len(log.outs):].decode()) in settings.machines]
    for name, told in others.items():
        found += [f"{name}: {told['wrong']}"] * bool(told["wrong"])
        found += [f"{name} decides nothing: its lease is over"] * (
            not told.get("has_lease", True) and not told["wrong"] and told["settings"][2] is False)
        found += [f"{name} has less room than ROOM"] * (not told["room"])
        found += [f"{name} has other settings: LEASE, ACK and WITHOUT_QUORUM are {told['settings']} there"] * (
            told["settings"] != [settings.lease, settings.ack, settings.without_quorum == "go-on"])
        found += [f"{name} runs the program {shown_program(told['program'])}, and the log is of "
                  f"{shown_program(look.program)}"] * (
            told["program"] != look.program and not look.frozen)
        found += [f"{name} is {look.head.number - told['position']} entries behind"] * (
            told["position"] < look.head.number - 1)
    return {"entry": look.head.number, "program": look.program, "machines": {
        name: others.get(name, {}).get("position") for name in settings.machines}}, found


def status(settings: Settings, words: list[str]) -> int:
    shards, wrong = [], []
    for shard, log in enumerate(logs_of(settings)):
        found, faults = faults_of(settings, log)
        shards.append(found)
        wrong += [f"shard {shard}: {fault}" for fault in faults]
    if words == ["--json"]:
        print(json.dumps({"shards": shards, "wrong": wrong}))
        return 1 if wrong else 0
    names = list(settings.machines)
    print("shard  entry  " + "  ".join(f"{name:>8}" for name in names))
    for shard, found in enumerate(shards):
        places = ["-" if found["machines"][name] is None else found["machines"][name] for name in names]
        print(f"{shard:5}  {found['entry']:5}  " + "  ".join(f"{place:>8}" for place in places))
    for fault in wrong:
        print(harmless(f"WRONG: {fault}"))
    return 1 if wrong else 0


def freeze(settings: Settings, words: list[str]) -> None:
    logs, end = logs_of(settings), time.monotonic() + FREEZING
    for shard, log in enumerate(logs):
        if (why := log.freeze(" ".join(words))) != " ".join(words):
            say(f"shard {shard} was frozen before, and stays so for that reason: {why}")
    while (behind := {name for log in logs for name in log.behind()}) and time.monotonic() < end:
        time.sleep(0.1)
    if behind:
        raise Wrong(f"no machine takes a change, and {', '.join(sorted(behind))} hasn't applied all of them yet")
    say("no machine takes a change, and all have applied what there is")


def thaw(settings: Settings, words: list[str]) -> None:
    for log in logs_of(settings):
        log.thaw(settings.machines.keys())
    say("changes are taken")


def push(settings: Settings, words: list[str]) -> None:
    for shard, log in enumerate(logs_of(settings)):
        before, number = pushing.push(log, pathlib.Path(settings.archives) / str(shard), settings.log_tail)
        say(f"shard {shard}: etcd had the entries up to {before}, and has those up to {number}")
    say("no machine takes a change: push on the others, too, then pdpd-replicas thaw")


def trim(settings: Settings, words: list[str]) -> None:
    logs = logs_of(settings)
    numbers = [log.drop_all(LEAST_TAIL) for log in logs]
    logs[0].etcd.give_space_back()
    for log, number in zip(logs, numbers):
        if number:
            log.trim(number)
    say(f"etcd has dropped what was up to the entries {', '.join(map(str, numbers))}, and takes changes")


def skip(settings: Settings, words: list[str]) -> None:
    shard, number = shard_of(settings, words[:1]), number_in_word(words[1])
    if number is None:
        raise Wrong(f"{words[1]!r} is no number of an entry")
    skipping.skip(logs_of(settings)[shard], number, settings.machines.keys())
    say(f"entry {number} of shard {shard} is skipped: compare the rows (pdpd-replicas rows), then thaw")


def rows(settings: Settings, words: list[str]) -> int:
    wrong = 0
    if list(settings.machines) == [settings.self]:
        say("this machine is the only one: there is nobody to compare its rows with")
        return 0
    for shard, log in enumerate(logs_of(settings)):
        # (another one of this machine, as that of the hour, comes first)
        with only("rows"):
            number, names, verdict = copying.compared(settings, shard, log)
        if verdict:
            log.judge(verdict)
        is_whole = names == sorted(settings.machines)
        wrong += bool(verdict) or not is_whole
        said = f"{', '.join(names)} have the same behind entry {number}"
        said += "" if is_whole else ", and others weren't compared"
        say(f"shard {shard}: {verdict.shown() if verdict else said}")
    return 1 if wrong else 0


def make_certificates(words: list[str]) -> None:
    folder, *machines = words
    certificates.make(pathlib.Path(folder), certificates.machines_in(" ".join(machines)))
    say(f"certificates are in {folder}: its ca.key goes to no machine")


def shard_of(settings: Settings, words: list[str]) -> int:
    (word,) = words
    return settings.shard_in(word)


def copy(settings: Settings, words: list[str]) -> None:
    if os.isatty(sys.stdout.fileno()):
        raise Wrong("it writes a store, and wants to be led into a file or another command")
    shard = shard_of(settings, words)
    if out := logs_of(settings)[shard].look().out:
        raise Wrong(f"this machine is out ({out}): copy the shard from another one")
    copying.write(settings, shard, sys.stdout.buffer)


def join(settings: Settings, words: list[str]) -> None:
    shard = shard_of(settings, words)
    number = copying.join(settings, shard, sys.stdin.buffer, logs_of(settings)[shard])
    say(f"shard {words[0]} is at entry {number}; it follows the log from there")


def domain_of(word: str) -> str:
    if not DOMAIN.fullmatch(word):
        raise Wrong(f"{word!r} is no domain's name")
    return word


def refuse_groups(settings: Settings) -> None:
    """An error where the map of all groups leads domains."""
    if settings.groups:
        raise Wrong("there are several groups of machines: pdpd-replicas carry brings a domain to another shard")


def move(settings: Settings, words: list[str]) -> None:
    refuse_groups(settings)
    domain, one, other = domain_of(words[0]), *(settings.shard_in(word) for word in words[1:])
    moving.move(settings, logs_of(settings), domain, one, other)
    say(f"{domain} is in shard {one} and in shard {other}: on each machine pdpd-replicas lead {domain} {other}, then "
        f"pdpd-replicas unmake {domain} {one}")


def lead(settings: Settings, words: list[str]) -> None:
    refuse_groups(settings)
    moving.lead(settings, logs_of(settings), domain_of(words[0]), settings.shard_in(words[1]))
    say(f"messages to {words[0]} go to shard {words[1]} here")


def unmake(settings: Settings, words: list[str]) -> None:
    moving.unmake(settings, logs_of(settings), domain_of(words[0]), settings.shard_in(words[1]))
    say(f"shard {words[1]} has no {words[0]} any more: pdpd-replicas thaw")


def carry(settings: Settings, words: list[str]) -> None:
    domain, shard = domain_of(words[0]), settings.shard_in(words[1])
    behind = regrouping.carry(settings, logs_of(settings), domain, shard, words[2])
    said = f"; {', '.join(behind)} decides nothing until it follows the map" if behind else ""
    say(f"{domain} is at {words[2]}, and shard {shard} here has it no more{said}")


def fill(settings: Settings, words: list[str]) -> int:
    others = regrouping.fill(settings, logs_of(settings))
    for place, count in sorted(others.items()):
        say(f"{count} domains that are here as well are led to {place}")
    say("the map has the domains of this group")
    return 1 if others else 0


def follow() -> None:
    settings = applied.started()
    proxy = Leases(pathlib.Path(settings.haproxy_run) / "leases.sock", f"{settings.haproxy_etc}/leases.map", 0)
    Follower(regrouping.map_of_groups(settings).etcd, settings.places, proxy, settings.lease).run()


# what may follow these words, if anything does
SWITCHES = {"etcd": ("--write", "--anew", "--join"), "status": ("--json",)}
# each word with how many may follow it
COMMANDS = {"etcd": (etcd, 0, 1), "init": (init, 0, 0), "status": (status, 0, 1), "freeze": (freeze, 1, 100),
            "thaw": (thaw, 0, 0), "copy": (copy, 1, 1), "join": (join, 1, 1), "rows": (rows, 0, 0),
            "push": (push, 0, 0), "skip": (skip, 2, 2), "trim": (trim, 0, 0), "take": (take, 1, 1),
            "drop": (drop, 1, 1), "move": (move, 3, 3), "lead": (lead, 2, 2), "unmake": (unmake, 2, 2),
            "fill": (fill, 0, 0), "carry": (carry, 3, 3)}


def is_usage(words: list[str]) -> bool:
    """Whether words are as they are to be."""
    _, least, most = COMMANDS.get(words[0], (None, 1, 0)) if words else (None, 1, 0)
    return least <= len(words) - 1 <= most and {*words[1:]} <= {*SWITCHES.get(words[0], words[1:])}


def main(words: list[str]) -> int:
    # nobody else changes what root makes, however its shell has that
    os.umask(os.umask(0o022) | 0o022)
    try:
        if words[:1] == ["certificates"] and len(words) > 2:
            make_certificates(words[1:])
            return 0
        if words == ["follow"]:
            follow()
        if not is_usage(words):
            print(__doc__, end="")
            return 0 if words in ([], ["--help"], ["-h"]) else 2
        return COMMANDS[words[0]][0](read(), words[1:]) or 0
    except (Down, Open, Refused) as fault:
        print(harmless(f"pdpd-replicas: etcd doesn't answer: {fault}"), file=sys.stderr)
    except (Wrong, shared_log.Wrong, NoPlace, Unknown, Damaged, Forgotten, OSError, ValueError, sqlite3.Error) as fault:
        print(harmless(f"pdpd-replicas: {words_of(fault)}"), file=sys.stderr)
    return 1
