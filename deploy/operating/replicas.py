"""What logs changes and decisions, with AUDIT and DECISIONS: how far it is, and why it isn't there."""
from __future__ import annotations

import contextlib
import http.client
import json
import os
import pathlib
import socket
import time
from collections.abc import Iterable, Iterator

from log.history import look_at_end
from log.record import Damaged

from . import applied, supervisor
from .findings import Findings
from .processes import removed_files
from .settings import Settings, Wrong

FIGURES = ("position", "waiting", "pending", "archive_bytes", "room_bytes")
# and what one of an earlier version doesn't tell
LAST = "last_change_timestamp_seconds"
LONGEST = 4_096
# how long a question waits, and an entry may be without its reply before that is told, in seconds
PATIENCE, PENDING = 2.0, 3.0
# after how long decisions should have been worked out again, in seconds
VERIFIED = 26 * 3600
# by how much the last change may be beyond now, in seconds
AHEAD = 60
# what the nightly job tells of (pdpd-log verify)
KINDS = ("same", "other", "refused", "unverified")
# as whom what logs runs
USER = "pdpd-replica"
# what is raised where nothing is told
UNTOLD = OSError, http.client.HTTPException, ValueError, KeyError, TypeError, RecursionError


class OverSocket(http.client.HTTPConnection):
    """A connection to the daemon of a shard."""

    def __init__(self, path: pathlib.Path):
        super().__init__("pdpd-replica", timeout=PATIENCE)
        self.path = path

    def connect(self) -> None:
        self.sock = connected(self.path)


def connected(path: pathlib.Path) -> socket.socket:
    """A connection to a socket; an error where nobody takes it."""
    made = socket.socket(socket.AF_UNIX)
    made.settimeout(PATIENCE)
    try:
        made.connect(str(path))
    except OSError:
        made.close()
        raise
    return made


def figures(settings: Settings, shard: int) -> dict[str, float] | None:
    """What the daemon of a shard tells of itself; nothing where it doesn't answer. (Its user may answer anything.)"""
    settings = applied.of(settings, applied.PROXY)
    connection = OverSocket(pathlib.Path(settings.audit_run) / str(shard) / "socket")
    try:
        connection.request("GET", "/figures")
        held = json.loads(connection.getresponse().read(LONGEST))
        more = ["lease"] if settings.machines else []
        return {**{name: float(held[name]) for name in (*FIGURES, *more)}, LAST: float(held.get(LAST, 0))}
    except PermissionError:
        raise
    except UNTOLD:
        return None
    finally:
        connection.close()


def decided(folder: pathlib.Path) -> Iterable[tuple[str, float]]:
    """What the nightly job has found, and when. (Its user may have written anything there.)"""
    with open(os.open(folder / "verified", os.O_RDONLY | os.O_NOFOLLOW | os.O_NONBLOCK), encoding="ascii") as file:
        held = json.loads(file.read(LONGEST))
    return [(name, float(held[name])) for name in (*KINDS, "at")]


def wait_until_there(settings: Settings, shards: Iterable[int], seconds: float) -> None:
    """Waits until the daemons of these shards answer, for so long at the most: a change for one that isn't there is
    answered with 503 at once."""
    end = time.monotonic() + seconds
    for shard in shards if settings.audit else ():
        while figures(settings, shard) is None and time.monotonic() < end:
            time.sleep(0.05)


def unit_of(settings: Settings, shard: int) -> str:
    """How the supervisor calls the daemon of a shard."""
    return f"pdpd-replica{'-' if settings.supervisor == 'runit' else '@'}{shard}"


def why_silent(settings: Settings, shard: int) -> str:
    """Why a daemon doesn't answer whose archive is well: its socket was removed, or its log says it."""
    by, unit = supervisor.of(settings), unit_of(settings, shard)
    path = pathlib.Path(settings.audit_run) / str(shard) / "socket"
    if by.supervised(unit) and not path.exists():
        return f"the socket {path} of pdpd-replica isn't there: restart {unit}"
    line = by.last_line(unit)
    return f"pdpd-replica doesn't answer: the log of {unit} {f'ends with: {line}' if line else 'says why'}"


def why_away(settings: Settings, shard: int) -> str:
    """Why the daemon of a shard doesn't answer."""
    folder = pathlib.Path(settings.archives) / str(shard)
    try:
        if folder.is_dir():
            look_at_end(folder)
    except PermissionError:
        raise
    except Damaged as fault:
        return str(fault)
    except UNTOLD as fault:
        return f"{folder} can't be read ({fault!r})"
    return why_silent(settings, shard)


def removed_under(settings: Settings, unit: str, folder: str) -> Iterator[str]:
    """What is told of files that were removed while a service writes into them."""
    for file, place in removed_files(supervisor.of(settings).supervised(unit)).items():
        if file.startswith(f"{folder}/"):
            # (root alone can open what the daemon has open, and follows no link that the daemon's user has put there)
            yield (f"{file} was removed while {unit} writes into it, and what is in it is lost once that ends: runuser "
                   f"-u {USER} -- sh -c 'umask 077; cat > {file}' < {place} saves it. Then take away what it was packed "
                   f"into, and restart {unit}")


def refuse_removed(settings: Settings, shards: Iterable[int], *, are_all: bool = False) -> None:
    """An error where what logs changes of these shards, or with all of them decisions, has a file open that was
    removed: it would be lost by a restart."""
    with contextlib.suppress(Wrong):  # (what was applied may be spoiled: a reload writes it anew)
        settings = applied.of(settings, applied.PROXY)
    units = [(unit_of(settings, shard), f"{settings.archives}/{shard}") for shard in shards if settings.audit]
    if are_all and settings.decisions:
        units.append(("pdpd-decisions", settings.decision_log))
    for unit, folder in units:
        for what in removed_under(settings, unit, folder):
            raise Wrong(f"nothing was stopped: {what}")


def look_at_verified(settings: Settings, findings: Findings) -> None:
    """What the nightly job has found, and whether it ran."""
    try:
        found = dict(decided(pathlib.Path(settings.decision_log)))
    except UNTOLD:
        return  # (none has run yet)
    if found["other"]:
        findings.add(f"{found['other']:.0f} decisions aren't those that are worked out again: pdpd-log verify "
                     f"{settings.decision_log} names the lines")
    if time.time() - found["at"] > VERIFIED:
        findings.add("decisions weren't worked out again for over 26 hours: the log of pdpd-verify says why")


def look(settings: Settings, shard: int, findings: Findings) -> int | None:
    """The last entry of a shard that is answered. It tells why no change is taken, where none is."""
    with findings.looking("what HAProxy was started with"):
        settings = applied.of(settings, applied.PROXY)
    if not settings.audit:
        return None
    with findings.looking(f"the log of changes of shard {shard}"):
        found = figures(settings, shard)
        end = time.monotonic() + PENDING
        while found and found["pending"] and time.monotonic() < end:
            time.sleep(0.2)
            before, found = found, figures(settings, shard)
            if found and found["position"] != before["position"]:
                break
        if found is None:
            findings.add(f"no change of shard {shard} is taken: {why_away(settings, shard)}")
            return None
        changes = applied.where_it_is(settings, shard).changes(shard)
        if not os.path.exists(changes):
            findings.add(f"no change of shard {shard} is taken: {changes} isn't there, where it takes them: "
                         f"pdpd-shards restart {shard} makes it")
        if found.get("lease") == 0:
            findings.add(f"shard {shard} decides nothing on this machine, whose lease is over: pdpd-replicas status")
        for what in removed_under(settings, unit_of(settings, shard), f"{settings.archives}/{shard}"):
            findings.add(f"no change of shard {shard} is taken: {what}")
        if (ahead := found[LAST] - time.time()) > AHEAD:
            findings.add(f"the archive of shard {shard} is {ahead / 3600:.1f} hours beyond this clock, which was "
                         "ahead, or is behind: changes are logged as of that moment until then. If the clock is right "
                         f"now, begin another archive: stop {unit_of(settings, shard)}, move what is in "
                         f"{settings.archives}/{shard} elsewhere, remove {applied.FOLDER}/{shard}.archive, and start "
                         "it")
        position = int(found["position"])
        if found["pending"] and time.monotonic() >= end:
            findings.add(f"entry {position + 1} of shard {shard} gets no reply, and no change passes it: the log of "
                         f"pdpd-replica-{shard} says why")
        if found["room_bytes"] < 0:
            findings.add(f"no change of shard {shard} is taken: the disk of {settings.archives} has less than "
                         f"{settings.room} bytes left (ROOM)")
        return position
    return None


def look_at_decisions(settings: Settings, findings: Findings) -> None:
    """Whether lines of decisions are taken."""
    with findings.looking("what HAProxy was started with"):
        settings = applied.of(settings, applied.PROXY)
    if not settings.decisions:
        return
    with findings.looking("what was verified"):
        look_at_verified(settings, findings)
    with findings.looking("the files of decisions"):
        for what in removed_under(settings, "pdpd-decisions", settings.decision_log):
            findings.add(what)
    with findings.looking("the log of decisions"):
        try:
            connected(pathlib.Path(settings.audit_run) / "decisions" / "socket").close()
        except (FileNotFoundError, ConnectionError, TimeoutError):
            findings.add("no line of a decision is kept: pdpd-decisions isn't there, and its log says why")
