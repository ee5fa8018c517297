"""The settings with which each shard, and HAProxy, were started by a tool: what services go by.

What is written into the settings' file is live only once a tool has applied it: a program that ends by itself, or a
machine that starts again, goes on with what was applied. `pdpd-run` reads the same files.
"""
from __future__ import annotations

import contextlib
import copy
import pathlib
from collections.abc import Iterable, Iterator

from . import trial
from .settings import FILE, Settings, Wrong, read, text_of, words_of, write_whole

FOLDER = FILE.parent / "applied"
# the settings of a shard's program
OF_SHARD = ("PROGRAM", "SOCKETS", "FIRST_PORT", "DATA", "TOKEN", "WORK", "READING", "AUDIT")
# and of what logs changes and decisions, which goes by what was applied to HAProxy
OF_LOGS = ("AUDIT_RUN", "ARCHIVES", "ROOM", "DECISION_LOG", "DECISION_BYTES", "DECISION_DAYS", "REPLICAS", "SELF",
           "ETCD_CERTIFICATES", "LEASE", "ACK", "WITHOUT_QUORUM", "LOG_TAIL", "GROUP", "ALL_GROUPS")
# those of a shard that say where it listens
PLACES = ("SOCKETS", "FIRST_PORT")
# in whose settings a watchdog finds those of HAProxy
PROXY = "haproxy"
# the last settings that could be read, by the name of their file
LAST: dict[str, Settings] = {}


def place(name: int | str) -> pathlib.Path:
    """The file with what was applied to a shard or to HAProxy."""
    return FOLDER / f"{name}.conf"


def apply(settings: Settings, name: int | str) -> None:
    """Has a shard, or what watches HAProxy, go by these settings from its next start on."""
    FOLDER.mkdir(exist_ok=True)
    FOLDER.chmod(0o755)  # (whatever root's umask is: `pdpd-run` looks into it as the user pdpd)
    write_whole(place(name), settings.text)


def note_kept(settings: Settings, shards: Iterable[int]) -> None:
    """Notes of shards that answer that there is a store, and an archive of changes: where one isn't there any more, as
    where its disk isn't mounted, no empty one is begun in its place (`pdpd-run`). (Of several machines one that has
    lost its store begins with nothing, and the log says what it lacks.)"""
    for shard in shards if not settings.machines else ():
        archive = pathlib.Path(settings.archives) / str(shard)
        kept = {"store": (settings.folder(shard) / trial.STORE).exists(),
                "archive": settings.audit and archive.is_dir() and any(archive.glob("*.log"))}
        for kind, is_there in kept.items():
            if is_there and not (note := FOLDER / f"{shard}.{kind}").exists():
                FOLDER.mkdir(exist_ok=True)
                write_whole(note, "")


def is_lost(settings: Settings, shard: int) -> bool:
    """Whether a shard's store isn't there, and was."""
    return (FOLDER / f"{shard}.store").exists() and not (settings.folder(shard) / trial.STORE).exists()


def apply_where_none(settings: Settings, shards: list[int]) -> None:
    """The same of shards to which nothing was applied: those that are new, and those of earlier versions."""
    for shard in shards:
        if not place(shard).exists():
            apply(settings, shard)


def of(settings: Settings, name: int | str) -> Settings:
    """What was applied to a shard or to HAProxy; these settings where nothing was."""
    if not place(name).exists():
        return settings
    try:
        return Settings(text_of(place(name)), place(name))
    except Wrong as fault:
        heals = "reload" if name == PROXY else f"restart {name}"
        raise Wrong(f"{fault}; pdpd-shards {heals} writes it anew") from None


def started() -> Settings:
    """What was applied to HAProxy; the settings of the file where nothing was."""
    return Settings(text_of(place(PROXY)), place(PROXY)) if place(PROXY).exists() else read()


def where_it_is(settings: Settings, shard: int) -> Settings:
    """These settings, but for where a shard's program listens and has its files, which is as it was applied."""
    found, own = copy.copy(settings), of(settings, shard)
    for name in (*PLACES, "DATA"):
        setattr(found, name.lower(), getattr(own, name.lower()))
    return found


def where_it_starts(settings: Settings, shard: int) -> Settings:
    """The same of a start, which writes anew what was applied: these settings alone where that can't be read."""
    with contextlib.suppress(Wrong):
        return where_it_is(settings, shard)
    return settings


def differing(before: Settings, settings: Settings, names: tuple[str, ...]) -> list[str]:
    """Those of these settings that are otherwise."""
    return [name for name in names if getattr(before, name.lower()) != getattr(settings, name.lower())]


def changed(settings: Settings, shard: int) -> list[str]:
    """The names of the settings that a shard's program was started with otherwise."""
    return differing(of(settings, shard), settings, OF_SHARD)


def changed_of_logs(settings: Settings) -> list[str]:
    """The names of the settings that what logs was started with otherwise; none where nothing is logged."""
    before = of(settings, PROXY)
    return differing(before, settings, OF_LOGS) if before.audit or before.decisions else []


def logs_go_otherwise(settings: Settings) -> bool:
    """Whether what logs was started otherwise, or as nobody knows, since what was applied can't be read."""
    try:
        return bool(changed_of_logs(settings))
    except Wrong:
        return True


def kept_places(settings: Settings) -> Iterator[tuple[str, int | str, str]]:
    """The settings of folders in which something is kept, each with to whom they are applied, and a file in it."""
    yield "HAPROXY_ETC", PROXY, "haproxy.cfg"
    for shard in range(settings.shards):
        yield "DATA", shard, f"{shard}/{trial.STORE}"
        if settings.audit:
            yield "ARCHIVES", PROXY, str(shard)


def refuse_left_behind(settings: Settings) -> None:
    """An error where the settings name another folder than was applied for what is kept, and that isn't there: an empty
    one would be begun, and all domains be away."""
    for name, whose, file in kept_places(settings):
        new = pathlib.Path(getattr(settings, name.lower()))
        old = new
        with contextlib.suppress(Wrong):  # (what can't be read is told elsewhere, and is written anew)
            old = pathlib.Path(getattr(of(settings, whose), name.lower()))
        if old != new and (old / file).exists() and not (new / file).exists():
            raise Wrong(f"{name} of {FILE} is {new}, and what is kept is in {old}: write that again. A start would "
                        "begin an empty one")


def read_or_before() -> tuple[Settings | None, str]:
    """The settings of the file, or, where it can't be read, those before, and why; a service has to go on. One that has
    only begun has those that were applied to HAProxy; without these there are none."""
    try:
        LAST[FILE.name] = read()
        return LAST[FILE.name], ""
    except (Wrong, OSError) as fault:
        if FILE.name not in LAST and place(PROXY).exists():
            with contextlib.suppress(Wrong, OSError):
                LAST[FILE.name] = Settings(text_of(place(PROXY)), place(PROXY))
        return LAST.get(FILE.name), words_of(fault)


def goes_on(settings: Settings | None, fault: str) -> str:
    """What a service tells while the settings can't be read."""
    return f"{fault}: {'what was set before goes on' if settings else 'nothing was set before, so nothing is done'}"


def backed_up(settings: Settings) -> tuple[list[Settings], str]:
    """By what a backup of each shard is made: how many there are, and where its files are, is as it was applied; and
    what is told where the settings have it otherwise."""
    count = of(settings, PROXY).shards
    found = [copy.copy(settings) for _ in range(count)]
    for shard, own in enumerate(found):
        own.shards, own.data = count, of(settings, shard).data
    others = [name for name in ("SHARDS", "DATA")
              if any(getattr(own, name.lower()) != getattr(settings, name.lower()) for own in found)]
    return found, f"{', '.join(others)} of {FILE} isn't what was applied: that goes on" if others else ""


def watched(shard: int) -> Settings | None:
    """By what a watchdog asks a shard: through HAProxy or not as HAProxy was started, and where the shard is."""
    settings, _ = read_or_before()
    if settings is None:
        return None
    found, own = of(settings, PROXY), of(settings, shard)
    for name in OF_SHARD:
        setattr(found, name.lower(), getattr(own, name.lower()))
    return found
