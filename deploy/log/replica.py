"""pdpd-replica: keeps a log of the changes of one shard, and applies each to pdpd once it is in the log.

  pdpd-replica --archive FOLDER --listen ADDRESS --pdpd ADDRESS --token FILE [--room BYTES]
      [--user NAME]
      [--replicas NAME=HOST[:PORT],.. --name NAME --shard N --shards COUNT --program FILE|--runs FILE [--map FILE]
       [--certificates FOLDER] [--lease SECONDS] [--ack all|local] [--without-quorum stop|go-on] [--log-tail ENTRIES]
       [--proxy SOCKET --leases MAP] [--groups NAME=HOST,HOST.. --group NAME --led FOLDER]]

HAProxy sends it each change (PUT, POST and DELETE, but for requests for decisions). ADDRESS is HOST:PORT or unix:PATH.
That of pdpd is the one at which it takes changes (CHANGES-ADDRESS of pdpd listen).
FILE's lines are the operator's tokens. No change is taken while the disk has fewer than BYTES left (64,000,000).
NAME is the user of pdpd: nothing is sent to another one's program in its place.
With --replicas the log is in the etcd of these machines, of which this one has that name, and FILE is the program pdpd
that all of them run, or has the SHA-256 of the one that was started last; HAProxy is told at SOCKET, in MAP, until when
this machine may answer (docs/guide/REPLICAS.md). With --groups the etcd of the first group has the map of domains, by
which this machine leads them as FOLDER says (pdpd-replicas follow).
Exit status: 2 usage, 3 the archive isn't what was written, 4 the disk failed; else it runs until it is killed.
"""
from __future__ import annotations

import argparse
import pathlib
import pwd
import sys

from replica import options

from .archive import Archive
from .daemon import Daemon
from .record import Damaged
from .server import Server

EXIT_DAMAGED, EXIT_DISK = 3, 4


def options_in(words: list[str]) -> argparse.Namespace:
    parser = argparse.ArgumentParser(prog="pdpd-replica", description=__doc__,
                                     formatter_class=argparse.RawDescriptionHelpFormatter)
    parser.add_argument("--archive", type=pathlib.Path, required=True, metavar="FOLDER")
    parser.add_argument("--listen", required=True, metavar="ADDRESS")
    parser.add_argument("--pdpd", required=True, metavar="ADDRESS")
    parser.add_argument("--token", type=pathlib.Path, required=True, metavar="FILE")
    parser.add_argument("--room", type=int, default=64_000_000, metavar="BYTES")
    parser.add_argument("--user", metavar="NAME")
    options.add(parser)
    return parser.parse_args(words)


def main(words: list[str]) -> int:
    given = options_in(words)
    try:
        archive = Archive(given.archive)
        user = pwd.getpwnam(given.user).pw_uid if given.user else None
        if given.replicas:
            daemon = options.replica_of(given, archive, user)
        else:
            daemon = Daemon(archive, given.pdpd, given.token, given.room, user=user)
        server = Server(given.listen, daemon.reply_to)
    except Damaged as fault:
        print(f"pdpd-replica: {fault}", file=sys.stderr)
        return EXIT_DAMAGED
    except (OSError, ValueError, KeyError) as fault:
        reason = [str(found) for name in ("filename", "strerror") if (found := getattr(fault, name, None))]
        print(f"pdpd-replica: {': '.join(reason) or fault}", file=sys.stderr)
        return EXIT_DISK
    daemon.start()
    print(f"listening {given.listen}", flush=True)
    server.serve()
    return 0
