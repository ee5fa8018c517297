#!/usr/bin/env python3
"""Tries deploy/ with the real parts, from the archive on: four shards behind HAProxy, under runit.

usage: tests/deploy.py [PROGRAM] [PART..]   the program, or that which is proved and built of these very sources; the
                                            word `attacks` names all parts that play an adversary

It runs in namespaces of its own (mounts, processes, network), in which all paths and users are those of a
real machine, and leaves nothing behind. It takes the rights of root and Debian's packages haproxy, runit,
curl, wrk, openssl, iproute2, strace, gcc, sqlite3 and systemd; where something is missing it says so and ends with
status 2. The part `clients` fails where one of nginx, libnginx-mod-http-js, mypy, python3-flask,
python3-pip and default-jdk-headless is missing. It gives the commands of docs/guide/OPERATING.md, of the sections that
its end names. What is expected is worked out from the pages and RFC 9110 and 9112, and never by the program.

Some parts have machines of their own: `systemd` and `deb` a Debian that systemd has booted, `containers` what podman
runs, and `replicas` three machines that hold the same (etcd-server), all at the same time. The first ones take
Debian's packages systemd-container, debootstrap, podman, crun, catatonit, netavark, iptables and python3-yaml, and a
Debian that is made of packages from the network, once, and kept in ~/.cache/pdpd-deploy-test (or below
XDG_CACHE_HOME). Where a machine can't run one, the part is skipped, and it is told why.
"""
import os
import pathlib
import subprocess
import sys
import tempfile
import time
import traceback
from collections import Counter

sys.dont_write_bytecode = True
TOP = pathlib.Path(__file__).resolve().parent.parent
sys.path.insert(0, str(TOP / "tests"))

from checks import Checks  # noqa: E402
from deployed import (  # noqa: E402
    attacks_endless, attacks_front, attacks_heads, attacks_local, attacks_logs, attacks_most, attacks_pdpd,
    attacks_posing, attacks_proxy, attacks_tools, audit, backups, booting, changes, clients, containers, crossing,
    dear, deb, elsewhere, enforcement, failures, machine, metrics, misled, misplaced, mistakes, observed, overlooked,
    overlooked_logged, reloads, removal, replicas, replies, slowness, states, surroundings, systemd, units, unseen,
    unwatched)

# the files with parts that play an adversary: ATTACKS, and AUDITED, those that have the log of changes on
ATTACKING = (attacks_front, crossing, attacks_local, attacks_tools, attacks_pdpd, attacks_proxy, attacks_logs,
             attacks_most, attacks_posing, attacks_endless, attacks_heads)
ATTACKS, AUDITED = ([part for file in ATTACKING for part in getattr(file, kind, ())] for kind in ("ATTACKS", "AUDITED"))

PARTS = (
    units.walk, units.decision, units.configurations, reloads.beyond_ascii, reloads.reloaded, units.installed,
    units.calls,
    replies.examples, replies.desk, replies.odd, replies.paths, replies.listing,
    slowness.slow, slowness.slow_readers, slowness.rates,
    failures.restarts, failures.kills, failures.queued, failures.stuck, failures.watched, failures.unkilled,
    dear.in_order, dear.behind_several, failures.held, failures.unstarted, failures.holding, failures.unbalanced,
    backups.backups, backups.checkpoints, backups.emptied, backups.anew,
    changes.moves, changes.crossed, changes.killed, changes.live, changes.keeping, changes.older, enforcement.clients,
    *states.STATES, *mistakes.MISTAKES, *surroundings.SURROUNDINGS, *misplaced.MISPLACED,
    unseen.unseen, overlooked.overlooked, unwatched.unwatched, misled.misled, *observed.OBSERVED,
    *ATTACKS,
    units.certificate, units.want_of_memory, units.upgrade, changes.growth, changes.miscounted, units.status,
    elsewhere.elsewhere,
    audit.audit, unseen.unseen_logged, overlooked_logged.overlooked_logged, audit.restarted_logged, *AUDITED,
    audit.killed_logged,
    metrics.metrics, units.secrets, removal.removal)
# those that have a machine of their own each, with the commands that they want and Debian's packages of these
ALONE = {systemd.systemd: booting.WANTED, deb.deb: booting.WANTED, containers.containers: containers.WANTED,
         replicas.replicas: replicas.WANTED}
# words that name several of them
GROUPS = {"states": states.STATES, "attacks": [*ATTACKS, *AUDITED],
          **{file.__name__.rpartition(".")[2]: [*file.ATTACKS, *getattr(file, "AUDITED", ())] for file in ATTACKING}}


# of so many names is told what became of them, and so many lines of each log are kept
MOST, LINES = 20, 5000


class Logged(Checks):
    """Checks that also tell what was seen, and write all of what they found wrong into a file."""

    def __init__(self, name, log, *, has_domains=True):
        """`has_domains`: names that are compared may be domains of the test's own machine, of which more is told."""
        super().__init__(name)
        self.log, self.has_domains = log, has_domains
        log.write_text("")

    def say(self, what):
        print(f"  {what}", flush=True)

    def expect(self, what, found, wanted):
        if found != wanted:
            with open(self.log, "a") as log:
                told = differences(found, wanted, self.has_domains)
                print(f"\n==== {machine.clock()} FAILED {what}\n{told}", file=log)
        super().expect(what, found, wanted)

    def keep(self, text):
        """Writes more into that file."""
        with open(self.log, "a") as log:
            print(text, file=log)


def differences(found, wanted, has_domains):
    """Both, whole; of collections of names what one lacks, and what became of each such domain."""
    lines = [f"found  {found!r}", f"wanted {wanted!r}"]
    kinds = list, set, tuple
    if isinstance(found, kinds) and isinstance(wanted, kinds) and all(isinstance(it, str) for it in (*found, *wanted)):
        lacks, more = (Counter(one) - Counter(other) for one, other in ((wanted, found), (found, wanted)))
        lines += [f"isn't there: {sorted(lacks.elements())}", f"is there without reason: {sorted(more.elements())}"]
        for name in sorted({*lacks, *more})[:MOST] if has_domains else ():
            lines += [f"-- {name}, which by deploy/ is in shard {machine.where(name)}", *clients.history_of(name)]
    return "\n".join(lines)


def members(word):
    """The names of the parts that a word names."""
    return [part.__name__ for part in GROUPS[word]] if word in GROUPS else [word]


def tried(checks, part, *given):
    """Runs a part, tells how it went, and gives whether it failed. What goes wrong in it has failed."""
    began, failed = time.time(), checks.failed
    try:
        part(*given, checks)
    except Exception:  # the next part is run all the same
        checks.expect(f"{part.__name__}\n{traceback.format_exc()}", "an error", "none")
    print(f"{part.__name__}: {checks.failed - failed} failed, in {time.time() - began:.0f} s", flush=True)
    return checks.failed > failed


def run(folder, program, names):
    """Runs the parts of these names on a machine of the test's own, or all; the walk is always the first."""
    checks, made = Logged("tests/deploy.py", machine.log_of(folder)), machine.Machine(folder)
    made.pack(program)
    try:
        for part in checks.named_parts(PARTS, [units.walk.__name__, *names] if names else []):
            if tried(checks, part, made):
                checks.keep(f"\n==== the logs behind {part.__name__}\n{machine.logs(LINES)}")
            if not made.operator:  # the walk didn't come to its end
                break
    finally:
        if checks.failed:
            print(f"{machine.logs()}\nall that was found, and what became of each domain: {checks.log}")
        made.end()
    return checks.status()


def run_alone(folder, program, names):
    """Runs the parts of these names, each on a machine of its own."""
    os.umask(0o022)
    checks = Logged("tests/deploy.py", machine.log_of(folder), has_domains=False)
    for part in checks.named_parts(ALONE, names):
        tried(checks, part, machine.Alone(pathlib.Path(folder), program))
    return checks.status()


def runnable(parts, looks):
    """The parts, if what they need can be had on this machine, as a call finds out; else none, and it is told why."""
    try:
        if parts:
            looks()
        return parts
    except booting.Skipped as why:
        print("\n".join(f"{part}: skipped: {why}" for part in parts), flush=True)
        return []


def run_inside(program, names):
    """What is run within the namespaces."""
    is_alone = names and {*names} <= {part.__name__ for part in ALONE}
    return (run_alone if is_alone else run)(os.environ[machine.INSIDE], program, names)


def run_all(program, names):
    """Runs the parts of these names, or all, in namespaces of their own, and gives the status."""
    alone = [part.__name__ for part in ALONE if not names or part.__name__ in names]
    others = [name for name in names if name not in alone]
    has_others = bool(others) or not names
    # (this one wants no other Debian)
    three = [part for part in alone if part == replicas.replicas.__name__]
    alone = [part for part in alone if part not in three]
    if os.geteuid() == 0:  # (without its rights nothing can be found out)
        alone = runnable(alone, booting.refuse_without_cgroups)
    wanted = [commands for part, commands in ALONE.items() if part.__name__ in (*alone, *three)]
    if lacks := list(machine.missing(program, [*([machine.WANTED] if has_others else []), *wanted])):
        print("\n".join(f"tests/deploy.py: missing: {what}" for what in lacks))
        return 2
    words = [os.path.abspath(__file__), *([program] if program else [])]
    statuses = [machine.enter([*words, *others])] if has_others else []
    alone = [*runnable(alone, booting.make_roots), *three]
    return max([*statuses, *(run_at_once(words, alone) if alone[1:] else run_one(words, alone))], default=0)


def run_one(words, names):
    """Runs the part of that name, if there is one, on its machine, and gives the status."""
    try:
        return [machine.enter([*words, name]) for name in names]
    finally:
        booting.remove_groups(machine.name_of_test())


def run_at_once(words, names):
    """Runs parts that have machines of their own at the same time, shows what each has said when it has ended, and
    gives the statuses."""
    machine.end_when_told()
    said = [tempfile.TemporaryFile("w+", errors="replace") for _ in names]
    ran = [subprocess.Popen([sys.executable, *words, name], stdout=file, stderr=subprocess.STDOUT)
           for name, file in zip(names, said)]
    try:
        for one, file in zip(ran, said):
            one.wait()
            file.seek(0)
            print(file.read(), end="", flush=True)
    finally:
        for one in ran:
            one.terminate()
        statuses = [one.wait() for one in ran]
    return statuses


def main():
    words = sys.argv[1:]
    is_named = words and (os.sep in words[0] or os.path.isfile(words[0]))
    program = os.path.abspath(words.pop(0)) if is_named else None
    names = [name for word in words for name in members(word)]
    # (a name that no part has ends it here)
    Checks("tests/deploy.py").named_parts([*PARTS, *ALONE], names)
    return (run_inside if machine.INSIDE in os.environ else run_all)(program, names)


if __name__ == "__main__":
    sys.exit(main())
