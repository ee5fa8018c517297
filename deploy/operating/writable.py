"""Who beside root can change what root runs or goes by: the settings, what is installed, HAProxy's files, the services,
the backups."""
from __future__ import annotations

import os
import pathlib
import stat
from collections.abc import Iterator

from . import supervisor
from .findings import Findings
from .owned import name_of
from .settings import FILE, LIBRARY, LOCKS, Settings

# files of HAProxy's folder: its configuration, its rules, its maps, and sections of one's own
OF_PROXY = "haproxy.cfg", "domains.lua", "domains.map", "pdpd-own.cfg", "leases.map"
# the settings of etcd, which runit reads as root (member.py)
ENVIRONMENT = pathlib.Path("/etc/default/etcd")
# so many are told
MOST = 5


def places(settings: Settings) -> Iterator[pathlib.Path]:
    """The files and folders that are to be root's, as far as they are there."""
    proxy = pathlib.Path(settings.haproxy_etc)
    yield from (FILE.parent, FILE, FILE.parent / "applied", *(FILE.parent / "applied").glob("*"))
    yield from (proxy, *(proxy / name for name in OF_PROXY))
    yield from (LIBRARY, *LIBRARY.rglob("*"), pathlib.Path(settings.program))
    backups = pathlib.Path(settings.backups)
    yield from (pathlib.Path(settings.data), backups, *(backups / str(shard) for shard in range(settings.shards)))
    yield from (LOCKS, *supervisor.of(settings).files())
    if settings.backup_hook:
        yield pathlib.Path(settings.backup_hook)
    if settings.machines:
        certificates = pathlib.Path(settings.etcd_certificates)
        yield from (ENVIRONMENT, certificates, *certificates.glob("*"))


def others_of(path: pathlib.Path) -> str | None:
    """Who beside root can change a file or a folder, in words; nothing where nobody can. (Of a link that counts to
    which it leads: who can change the link can change its folder.)"""
    try:
        found = os.stat(path)
    except FileNotFoundError:
        return None
    if found.st_uid != 0:
        return f"the user {name_of(found.st_uid)}"
    if found.st_mode & stat.S_IWOTH and not (stat.S_ISDIR(found.st_mode) and found.st_mode & stat.S_ISVTX):
        return "everybody"
    if found.st_mode & stat.S_IWGRP and found.st_gid != 0:
        return f"the group {found.st_gid}"
    return None


def look(settings: Settings, findings: Findings) -> None:
    """Whether anybody can."""
    with findings.looking("who can change what root runs"):
        found = {str(path): who for path in dict.fromkeys(places(settings)) if (who := others_of(path))}
        for path, who in [*found.items()][:MOST]:
            findings.add(f"{who} can change {path}, by which root's tools go: look what was changed, then chown root "
                         f"{path} && chmod go-w {path}")
        if len(found) > MOST:
            findings.add(f"so it is with {len(found) - MOST} more, as {[*found][MOST]}")
