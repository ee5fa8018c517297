"""How the files of the deployment stand, beside what the shards and HAProxy answer: whether others can read what is
secret, stores that no shard has, and whether what looks after the shards runs."""
from __future__ import annotations

import os
import pathlib
import pwd
import stat
import time
from collections.abc import Iterator
from typing import NamedTuple

from . import applied, installed, overwritten, replicas, restarted, supervisor, talk, trial, writable
from .findings import Findings
from .owned import User, advice, as_user, name_of, run, surroundings
from .processes import is_stopped
from .settings import FILE, LIBRARY, Settings, Wrong

# the user of the shards' programs, as their services have it
USER = "pdpd"
# what SQLite may have beside a store
BESIDE = f"{trial.STORE}-journal", f"{trial.STORE}-shm"
# a file with as many bytes is no key
LARGE = 2 ** 20
# after how long is looked again for a service that doesn't run: a supervisor starts it again within a second
AGAIN = 1.5


def mode_of(path: str | os.PathLike[str]) -> os.stat_result | None:
    """What the system says of a file; nothing where there is none."""
    try:
        return os.stat(path)
    except FileNotFoundError:
        return None


def user_of_shards() -> User:
    """As whom the shards run."""
    try:
        found = pwd.getpwnam(USER)
    except KeyError:
        raise Wrong(f"there is no user {USER}, as whom the shards run, and none could start again: useradd --system "
                    f"--home-dir /nonexistent --shell /usr/sbin/nologin {USER}") from None
    return User(found.pw_uid, found.pw_gid)


def refuse_unrunnable(settings: Settings) -> None:
    """An error where a shard that is stopped wouldn't start again: its program can't be run, or not by its user."""
    settings.refuse_no_program()
    user = user_of_shards()
    for path in (settings.program, LIBRARY / "pdpd-run", LIBRARY / "pdpd-hold"):
        status, _ = run(f"a look for {path}", as_user(user, ["test", "-x", path]), env=surroundings())
        if status != 0:
            raise Wrong(f"the user {USER} can't run {path}, and no shard could start again: chmod 755 it and the "
                        "folders above, or install the archive again. Restart no shard before")
    places = (applied.place(0), FILE)
    path = next((path for path in places if path.exists()), None)
    status, _ = run(f"a look for {path}", as_user(user, ["test", "-r", path]), env=surroundings()) if path else (0, "")
    if status != 0:
        raise Wrong(f"the user {USER} can't read {path}, and no shard could start again: chmod 644 it, and 755 the "
                    "folders above (the token alone is secret). Restart no shard before")


def secrets(settings: Settings) -> Iterator[tuple[pathlib.Path, int]]:
    """The operator's token and the certificate's key, also copies beside them of such names, each with what others may
    not do with it. (A certificate may be a group's, as that of Debian's ssl-cert.)"""
    token, certificate = pathlib.Path(settings.token), pathlib.Path(settings.certificate)
    yield from ((path, 0o077) for path in (token, *sorted(token.parent.glob(f"{token.name}?*"))))
    if settings.tls_bind.strip():
        yield certificate, 0o007
        yield from ((path, 0o007) for path in sorted(certificate.parent.glob(f"{certificate.stem}*")) if has_key(path))


def has_key(path: pathlib.Path) -> bool:
    """Whether a file has a key that others can read."""
    found = mode_of(path)
    return bool(found and stat.S_ISREG(found.st_mode) and found.st_mode & 0o007 and found.st_size < LARGE
                and b"PRIVATE KEY-----" in path.read_bytes())


def look_at_secrets(settings: Settings, findings: Findings) -> None:
    """Whether others can read the operator's token or the certificate's key, or come to what shards keep elsewhere."""
    with findings.looking("who can read what is secret"):
        for path, others in secrets(settings):
            if not (found := mode_of(path)):
                continue
            if found.st_mode & others:
                findings.add(f"others than root can read or change {path}: chmod 600 {path}, and replace what is in it")
            if found.st_uid != 0:
                findings.add(f"{path} isn't root's: chown root {path}, and replace what is in it")
    for above in (settings.backups, *([settings.archives] if settings.audit else [])):
        for folder in (pathlib.Path(above) / str(shard) for shard in range(settings.shards)):
            with findings.looking(str(folder)):
                if (found := mode_of(folder)) and found.st_mode & 0o077:
                    findings.add(f"others than its owner can come into {folder}, and read policies and rows: chmod 700 "
                                 f"{folder}")


class Fault(NamedTuple):
    """What is wrong with a shard's files, and whether it couldn't start again by that."""
    what: str
    is_fatal: bool = True


def faults_of_folder(folder: pathlib.Path, shard: int) -> Iterator[Fault]:
    """What is wrong with a shard's folder: it isn't its user's, or others may come in."""
    found = mode_of(folder)
    if not found:
        return  # (what looks at the files tells it)
    owner = name_of(found.st_uid)
    if owner != USER:
        yield Fault(f"{folder} is the user {owner}'s, and the program of shard {shard} can't come into it: chown "
                    f"{USER}:{USER} {folder}")
    elif found.st_mode & 0o077:
        yield Fault(f"others than the user {USER} may come into {folder}, or change what is in it: chmod 700 {folder}",
                    False)
    elif found.st_mode & 0o700 != 0o700:
        yield Fault(f"the user {USER} may not write into {folder}, and shard {shard} can't start again: chmod 700 "
                    f"{folder}")


def faults_of_file(path: pathlib.Path, owner: int, shard: int) -> Iterator[Fault]:
    """What is wrong with a file of a store, which has to be its folder's owner's, and for nobody else."""
    try:
        found = os.lstat(path)
    except FileNotFoundError:
        return
    user = name_of(owner)
    if not stat.S_ISREG(found.st_mode):
        return
    if found.st_uid != owner:
        yield Fault(f"{path} isn't the user's who has its folder, and shard {shard} can't start with it: "
                    f"{advice(path, found, owner)}")
    elif found.st_mode & 0o077:
        yield Fault(f"others than its owner can read {path}: runuser -u {user} -- chmod 600 {path}", False)
    elif found.st_mode & 0o600 != 0o600:
        yield Fault(f"its owner may not write {path}, and shard {shard} can't start again: runuser -u {user} -- chmod "
                    f"600 {path}")


def faults_of_store(settings: Settings, shard: int) -> Iterator[Fault]:
    """What is wrong with a shard's files and their folder, also with those that SQLite has beside a store."""
    folder, found = settings.folder(shard), [*faults_of_folder(settings.folder(shard), shard)]
    yield from found
    if folder.exists() and not any(fault.what.startswith(f"{folder} is the user") for fault in found):
        for name in (*trial.FILES, *BESIDE):
            yield from faults_of_file(folder / name, os.stat(folder).st_uid, shard)


def look_at_store(settings: Settings, shard: int, findings: Findings) -> None:
    """Whether a shard's files and their folder are its user's, for that user alone."""
    for fault in faults_of_store(settings, shard):
        findings.add(fault.what)


def lost_files(settings: Settings, shard: int, process: int) -> list[str]:
    """What is told of the files of a store that a shard's program has open, and that its folder hasn't any more, or
    that another program wrote over."""
    folder = settings.folder(shard)
    found = [f"{folder / name} was removed while the program of shard {shard} has it open, and all of it is lost once "
             f"that ends. Don't restart it: run pdpd-shards backup {shard}, which takes it from the program, and put "
             "that backup back" for name in trial.removed_files(process)]
    found += [f"{folder / name} isn't what the program of shard {shard} has open, which was moved to {place}: what is "
              f"answered goes there. Don't restart it: move what stands in {folder} away, and that back"
              for name, place in trial.moved_files(folder, process).items()]
    if not found and (why := overwritten.fault_of(settings, shard, process)):
        found.append(why)
    return found


def refuse_unstartable(settings: Settings, shard: int) -> None:
    """An error where a shard that is stopped wouldn't start again by its files, or would by others."""
    if process := supervisor.of(settings).pid(shard):
        for what in lost_files(settings, shard, process):
            raise Wrong(f"nothing was stopped: {what}")
        for fault in faults_of_store(settings, shard):
            if fault.is_fatal:
                raise Wrong(f"nothing was stopped: {fault.what}")


def look_at_sockets(settings: Settings, findings: Findings) -> None:
    """Whether others may come into a folder of a shard's socket, or put one in its place."""
    if settings.first_port is not None:
        return
    above = pathlib.Path(settings.sockets)
    # each with its owner, and what others may not do there (pdpd-run)
    places = (above, "root", 0o022), *((above / str(shard), USER, 0o027) for shard in range(settings.shards))
    for folder, owner, others in places:
        with findings.looking(str(folder)):
            found = mode_of(folder)
            if found and (found.st_mode & others or name_of(found.st_uid) != owner):
                findings.add(f"others may come into {folder}, or change what is in it: pdpd-shards restart closes it")


def look_beyond(settings: Settings, findings: Findings) -> None:
    """Whether there are stores of shards beyond SHARDS: nobody's messages are led to them."""
    with findings.looking("the folders of DATA"):
        count = max(settings.shards, talk.shards_in_configuration(settings) or 0)
        numbers = sorted(int(name) for name in os.listdir(settings.data) if name.isdecimal() and len(name) < 4)
        beyond = [number for number in numbers if number >= count
                  and (settings.folder(number) / trial.STORE).exists()]
        if beyond:
            findings.add(f"{settings.folder(beyond[0])} has a store, and SHARDS is {settings.shards}: nobody is led to "
                         f"it. pdpd-shards grow {beyond[-1] + 1}, then pdpd-shards remap; or move the folder away")


def look_at_settings(_settings: Settings, findings: Findings) -> None:
    """Whether there is a file of settings: where it was lost, those that are installed would be applied."""
    if not FILE.exists():
        findings.add(f"{FILE} isn't there, and what was set in it counts no more: put it back before you run anything "
                     f"else. What HAProxy was started with is in {applied.place(applied.PROXY)}")


def restarted_now(settings: Settings) -> set[str]:
    """The services that a tool restarts with their shards just now."""
    by = supervisor.of(settings)
    shards = [shard for shard in range(settings.shards) if restarted.by(shard)]
    return {name for shard in shards for name in (by.SHARD.format(shard), replicas.unit_of(settings, shard))}


def look_at_supervision(settings: Settings, findings: Findings) -> None:
    """Whether what ends is started again."""
    by = supervisor.of(settings)
    shards = [*map(by.SHARD.format, range(settings.shards))]
    with findings.looking("what looks after services"):
        for process in by.standing_still([*shards, *by.beside(range(settings.shards)), "haproxy"]):
            findings.add(f"what looks after services stands still (process {process}), and starts none again: kill "
                         f"-CONT {process}")
        for name in (*shards, "haproxy"):
            if is_stopped(process := by.supervised(name)):
                findings.add(f"what holds {name} stands still (process {process}), and doesn't end it: kill -CONT "
                             f"{process}")
        before = restarted_now(settings)
        found = {name: by.ends_for_good(name) for name in (*shards, "haproxy")}
        after = restarted_now(settings)
        for name, why in found.items():
            if why and name not in before | after:
                findings.add(f"{name} isn't started again once it ends: it {why}")


def look_at_starts(settings: Settings, findings: Findings) -> None:
    """Whether the next start of the machine brings all services, and what is logged is kept."""
    by = supervisor.of(settings)
    names = [*map(by.SHARD.format, range(settings.shards)), *by.beside(range(settings.shards)), "haproxy"]
    with findings.looking("what starts with the machine"):
        for name in names:
            if not by.starts_with_machine(name):
                findings.add(f"{name} doesn't start with the machine: pdpd-shards services has it so")
    with findings.looking("the logs"):
        if unlogged := by.unlogged(names):
            time.sleep(AGAIN)
        for name in by.unlogged(unlogged):
            findings.add(f"nobody takes the lines of {name}, or will after the machine's next start: pdpd-shards "
                         "services")
        for name, what in by.lost_logs(names):
            findings.add(f"the log of {name} {what}: sv restart {settings.services}/{name}/log")


def look_at_services(settings: Settings, findings: Findings) -> None:
    """Whether what looks after the shards runs: the watchdog, the backups, and what some settings switch on."""
    by = supervisor.of(settings)
    if not by.is_there():
        findings.add(f"runsvdir doesn't run, which has all services run: setsid runsvdir -P {settings.services} > "
                     "/dev/null 2>&1 &")
    with findings.looking("the services beside the shards"):
        before = restarted_now(settings)
        names = [name for name in by.beside(range(settings.shards)) if not by.is_running(name)]
        if names:
            time.sleep(AGAIN)
        for name in names:
            if not by.is_running(name) and name not in before | restarted_now(settings):
                findings.add(f"{name} doesn't run: pdpd-shards services starts it, or its log says why")


def look(settings: Settings, findings: Findings) -> None:
    """All of it, but for the files of shards."""
    for one in (look_at_settings, look_at_secrets, writable.look, installed.look, look_at_sockets, look_beyond,
                look_at_services, look_at_supervision, look_at_starts):
        one(settings, findings)
