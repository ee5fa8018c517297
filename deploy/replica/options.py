"""What pdpd-replica is told of replicas, and the daemon that it becomes then."""
from __future__ import annotations

import argparse
import pathlib

from log.abandoned import is_any_left
from log.archive import Archive

from .daemon import Replica
from .etcd import PATIENCE, Etcd, Member, context_in
from .groups import NUMBER, Follows, Map, etcd_of_group, groups_in
from .leases import Leases
from .machines import Machines, is_here, machines_in, refuse_elsewhere
from .running import Running
from .shared_log import SharedLog


def add(parser: argparse.ArgumentParser) -> None:
    """Adds the words of replicas."""
    parser.add_argument("--replicas", metavar="NAME=HOST[:PORT],..")
    parser.add_argument("--name", metavar="NAME")
    parser.add_argument("--shard", type=int, default=0, metavar="N")
    parser.add_argument("--shards", type=int, default=1, metavar="COUNT")
    parser.add_argument("--certificates", type=pathlib.Path, metavar="FOLDER")
    parser.add_argument("--program", type=pathlib.Path, metavar="FILE")
    parser.add_argument("--runs", type=pathlib.Path, metavar="FILE")
    parser.add_argument("--map", type=pathlib.Path, metavar="FILE")
    parser.add_argument("--lease", type=float, default=5.0, metavar="SECONDS")
    parser.add_argument("--ack", choices=("all", "local"), default="all")
    parser.add_argument("--without-quorum", choices=("stop", "go-on"), default="stop")
    parser.add_argument("--log-tail", type=int, default=10_000, metavar="ENTRIES")
    parser.add_argument("--proxy", type=pathlib.Path, metavar="SOCKET")
    parser.add_argument("--leases", default="", metavar="MAP")
    parser.add_argument("--groups", metavar="NAME=HOST,HOST..")
    parser.add_argument("--group", metavar="NAME")
    parser.add_argument("--led", type=pathlib.Path, metavar="FOLDER")


def etcd_of(machines: Machines, name: str, certificates: pathlib.Path | None, seconds: float = PATIENCE) -> Etcd:
    """The members of etcd, this machine's first; by client certificates, unless all are on this machine."""
    if name not in machines:
        raise ValueError(f"{name!r} is none of the machines {', '.join(machines)}")
    if certificates is None and not all(is_here(host) for host, _ in machines.values()):
        raise ValueError("etcd on other machines is spoken to by client certificates alone: name their folder")
    context = context_in(certificates) if certificates else None
    order = sorted(machines, key=lambda one: one != name)
    return Etcd([Member(*machines[one], context) for one in order], seconds)


def follows_of(given: argparse.Namespace) -> Follows | None:
    """What the daemon has of the map of all groups; nothing where there is one group."""
    if not given.groups:
        return None
    groups = groups_in(given.groups)
    if given.group not in groups or not given.led:
        raise ValueError("with --groups there are --group, which is one of them, and --led, too")
    etcd = etcd_of_group(next(iter(groups.values())), given.certificates, PATIENCE)
    return Follows(Map(etcd), given.group, given.shard, given.led / NUMBER)


def replica_of(given: argparse.Namespace, archive: Archive, user: int | None) -> Replica:
    """The daemon that these options make."""
    if not given.name or not (given.program or given.runs):
        raise ValueError("with --replicas there are --name and --program, or --runs, too")
    if not given.pdpd.startswith("unix:"):
        raise ValueError("with --replicas pdpd takes changes at a Unix socket")
    is_any_left(given.pdpd)  # (where the kernel doesn't tell of connections it can't begin)
    machines = machines_in(given.replicas)
    if given.name in machines:
        refuse_elsewhere(given.name, machines[given.name][0])
    etcd = etcd_of(machines, given.name, given.certificates)
    running = Running(given.shards, given.program, given.runs, given.map)
    return Replica(archive, given.pdpd, given.token, given.room, user=user, lease=given.lease, ack=given.ack,
                   log=SharedLog(etcd, given.shard, given.name, running.program), running=running,
                   leases=Leases(given.proxy, given.leases, given.shard),
                   goes_on=given.without_quorum == "go-on", tail=given.log_tail, follows=follows_of(given))
