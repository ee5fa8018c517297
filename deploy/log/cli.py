"""pdpd-log: what was changed and decided, and when, worked out again from the archives of pdpd-replica.

  pdpd-log changes --domain D [--since TIME] [--until TIME] [--json]   who changed what, with which reply
  pdpd-log decide --domain D --at TIME [--all] REQUEST                 the decision at a moment, byte for byte
  pdpd-log state --domain D --at TIME FOLDER                           policies, root and rows of a moment as a folder
  pdpd-log diff --domain D --from TIME --to TIME                       what differs between two moments; and, by
      [--requests FILE] [--random N]                                   requests, which answers, as `policy diff` says
  pdpd-log check                                                       chain, checksums, checkpoints, replies by replay
  pdpd-log verify [--hours N] [--note FILE] DECISIONS                  each line of a decision log, worked out again
  pdpd-log receive --listen unix:PATH --bytes N --days N FOLDER        keeps the lines that HAProxy sends, for ever
  pdpd-log token                                                       what stands for the token of standard input
  pdpd-log forget --domain D                                           makes what a removed domain had unreadable

--archive FOLDER names the folder of an archive, and may stand several times: without it those below PDPD_ARCHIVES, or
/var/lib/pdpd-replica, are read. PDPD names the program that replays, and POLICY the author's desk. TIME is as
2026-11-29T15:00:00Z, or seconds since 1970.
Exit status: 0 as it was said, 1 something isn't, 2 usage or an archive that can't be read.
"""
from __future__ import annotations

import argparse
import json
import os
import pathlib
import sys
import time

from . import audit, checking, decisions, desk, domains, receiving
from .domains import Forgotten
from .history import Unknown, by_archive
from .messages import TOKEN, kept_token
from .past import Past, past_of, pasts_of, state_before
from .record import Damaged
from .replaying import Failed
from .sealing import Sealing

# where the archives of the shards are
ARCHIVES = os.environ.get("PDPD_ARCHIVES", "/var/lib/pdpd-replica")
# where pdpd-shards notes which there are
NOTES = pathlib.Path(os.environ.get("PDPD_SETTINGS", "/etc/pdpd/shards.conf")).parent / "applied"


def folders_of(given: argparse.Namespace) -> list[pathlib.Path]:
    """The folders that are named, else those of the shards of this machine."""
    named = given.archive or [path for path in sorted(pathlib.Path(ARCHIVES).glob("*")) if path.is_dir()]
    if not named:
        raise Unknown(f"--archive FOLDER is wanted: there is none in {ARCHIVES}")
    return named


def lost_in(given: argparse.Namespace) -> list[pathlib.Path]:
    """The folders of archives that were there, as pdpd-shards has noted it, and have none, if no folder is named."""
    notes = [] if given.archive else sorted(NOTES.glob("*.archive"))
    folders = [pathlib.Path(ARCHIVES) / note.stem for note in notes]
    return [folder for folder in folders if not any(folder.glob("*.log*"))]


def harmless(text: str) -> str:
    """A line as it is printed: what a tenant has written in it steers no terminal, and begins no line."""
    return "".join(one if one.isprintable() else ascii(one)[1:-1] for one in text)


def past(given: argparse.Namespace) -> Past:
    """The archive of the domain that is named."""
    return past_of(by_archive(folders_of(given)), given.domain)


def changes(given: argparse.Namespace) -> int:
    since = audit.time_in(given.since) if given.since else 0.0
    until = audit.time_in(given.until) if given.until else float("inf")
    for one in audit.changes_shown(past(given), since, until):
        print(json.dumps(one) if given.json else harmless("  ".join(map(str, one.values()))))
    return 0


def decide(given: argparse.Namespace) -> int:
    work_out = audit.decide_by_all if given.all else audit.decide
    found = work_out(past(given), audit.time_in(given.at), given.request.read_bytes())
    for number, reply in found:
        if len(found) > 1:
            print(f"entry {found[1][0]} was under way: {'behind' if number else 'before'} it", file=sys.stderr)
        sys.stdout.buffer.write(reply.body() + b"\n")
        sys.stdout.buffer.flush()
    return 0


def state(given: argparse.Namespace) -> int:
    found, under_way = state_before(past(given), audit.time_in(given.at))
    if not found.is_there:
        raise Unknown(f"there was no domain {given.domain!r} then")
    for name in audit.write_state(found, given.domain, given.folder):
        print(f"wrote {given.folder / name}")
    if under_way:
        print(f"entry {under_way.number()} was under way: this is the state before it", file=sys.stderr)
    return 0


def diff(given: argparse.Namespace) -> int:
    held = past(given)
    old, new = (state_before(held, audit.time_in(word))[0] for word in (given.since, given.until))
    for line in audit.kept_differences(old, new):
        print(harmless(line))
    words = [*(["--requests", str(given.requests.resolve())] if given.requests else []),
             *(["--random", str(given.random)] if given.random else [])]
    return desk.compared(old, new, given.domain, words)


def check(given: argparse.Namespace) -> int:
    lost = lost_in(given)
    for folder in lost:
        print(f"{folder}: the archive that was there isn't: bring its files back, or name them by --archive")
    is_wrong = bool(lost)
    for segments in by_archive(folders_of(given)):
        found = checking.check(segments)
        print(f"{segments[0].home}: {found.count} changes, {len(found.wrong)} replies that replay gives otherwise, "
              f"{found.checkpoints} checkpoints")
        for why, names in (("were there before the archive began", found.older), ("were forgotten", found.forgotten)):
            if names:
                print(harmless(f"  left out, since they {why}: {', '.join(sorted(names))}"))
        print("".join(f"  {harmless(line)}\n" for line in found.wrong[:20]), end="")
        is_wrong = is_wrong or bool(found.wrong)
    return int(is_wrong)


def become_owner(folder: pathlib.Path) -> None:
    """Goes on as the user that has an archive: what stands in its folder may lead anywhere."""
    if os.geteuid() == 0 and (found := folder.stat()).st_uid:
        os.setgroups([])
        os.setgid(found.st_gid)
        os.setuid(found.st_uid)


def forget(given: argparse.Namespace) -> int:
    """Of each time for which the domain was there, but for one that isn't over."""
    folders = folders_of(given)   # before this user is theirs, who can't list the folder that they stand in
    become_owner(folders[0])
    held = pasts_of(by_archive(folders), given.domain)
    if not held:
        raise Unknown(f"no archive has a change of the domain {given.domain!r}")
    for one in held:
        over = one.over()
        if not over and domains.keys_in(one.folder):
            raise Unknown(f"the domain {given.domain!r} is there: remove it first")
        domains.forget(one.home, given.domain, over)
        print(f"{one.home}: {len(over)} keys of {given.domain} are gone")
    return 0


def verify(given: argparse.Namespace) -> int:
    counts = dict.fromkeys(decisions.KINDS, 0)
    since = time.time() - 3_600 * given.hours if given.hours else 0.0
    for kind, line in decisions.verify(by_archive(folders_of(given)), decisions.lines_of(given.decisions, since)):
        counts[kind] += 1
        if kind == "other":
            print(f"other: {harmless(line)}")
    print(", ".join(f"{count} {kind}" for kind, count in counts.items()))
    if given.note:
        domains.write_synced(given.note, json.dumps({"at": time.time(), **counts}).encode() + b"\n")
    return int(counts["other"] > 0)


def receive(given: argparse.Namespace) -> int:
    receiving.receive(given.listen, given.group, receiving.Log(given.folder, given.bytes, given.days))
    return 0


def token(given: argparse.Namespace) -> int:
    found = sys.stdin.readline().strip()
    if not TOKEN.fullmatch(found):
        raise Unknown("a token has 8 to 64 visible ASCII characters")
    print(kept_token(found))
    return 0


def add_of_decisions(verifies: argparse.ArgumentParser, receives: argparse.ArgumentParser) -> None:
    """Adds the words of the two commands that are about lines of decisions."""
    verifies.add_argument("--hours", type=float, metavar="N", help="the lines of the last hours alone")
    verifies.add_argument("--note", type=pathlib.Path, metavar="FILE", help="writes the counts into a file, as JSON")
    verifies.add_argument("decisions", type=pathlib.Path, metavar="DECISIONS")
    receives.add_argument("--listen", required=True, metavar="unix:PATH")
    receives.add_argument("--group", default="", metavar="NAME")
    receives.add_argument("--bytes", type=int, required=True, metavar="N")
    receives.add_argument("--days", type=int, required=True, metavar="N")
    receives.add_argument("folder", type=pathlib.Path, metavar="FOLDER")


def words_in(words: list[str]) -> argparse.Namespace:
    parser = argparse.ArgumentParser(prog="pdpd-log", description=__doc__,
                                     formatter_class=argparse.RawDescriptionHelpFormatter)
    every = argparse.ArgumentParser(add_help=False)
    every.add_argument("--archive", type=pathlib.Path, action="append", metavar="FOLDER")
    of_one = argparse.ArgumentParser(add_help=False, parents=[every])
    of_one.add_argument("--domain", required=True, metavar="D")
    commands = parser.add_subparsers(required=True, metavar="WORD")

    def command(call, parent):
        made = commands.add_parser(call.__name__, parents=[parent])
        made.set_defaults(call=call)
        return made

    made = command(changes, of_one)
    made.add_argument("--since", metavar="TIME")
    made.add_argument("--until", metavar="TIME")
    made.add_argument("--json", action="store_true")
    made = command(decide, of_one)
    made.add_argument("--at", required=True, metavar="TIME")
    made.add_argument("--all", action="store_true", help="replay all messages of the domain, and no checkpoint")
    made.add_argument("request", type=pathlib.Path, metavar="REQUEST")
    made = command(state, of_one)
    made.add_argument("--at", required=True, metavar="TIME")
    made.add_argument("folder", type=pathlib.Path, metavar="FOLDER")
    made = command(diff, of_one)
    made.add_argument("--from", required=True, dest="since", metavar="TIME")
    made.add_argument("--to", required=True, dest="until", metavar="TIME")
    made.add_argument("--requests", type=pathlib.Path, metavar="FILE", help="requests, for the desk's `diff`")
    made.add_argument("--random", type=int, metavar="N", help="has it make N requests")
    command(check, every)
    add_of_decisions(command(verify, every), command(receive, every))
    command(token, every)
    command(forget, of_one)
    return parser.parse_args(words)


def main(words: list[str]) -> int:
    given = words_in(words)
    try:
        return given.call(given)
    except (Unknown, Damaged, Failed, Forgotten, Sealing, OSError) as fault:
        print(f"pdpd-log: {harmless(str(fault))}", file=sys.stderr)
        return 2
