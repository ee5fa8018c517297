"""pdpd-shards: several pdpd, each over a file of its own, behind HAProxy.

  pdpd-shards config [--write]         shows the configuration of HAProxy; writes it, if HAProxy finds no fault in it
  pdpd-shards services                 has the supervisor run all of it, now and after each start
  pdpd-shards reload                   has HAProxy read its files: its configuration, the certificate
  pdpd-shards restart [SHARD]          restarts the shards one after another, or one
  pdpd-shards upgrade                  has all of it run what a new archive has brought
  pdpd-shards status [--json]          how they are; ends with 1 where something is wrong, 2 where it can't tell;
                                       --prometheus in its place gives the text that Prometheus reads
  pdpd-shards where DOMAIN             which shard a domain is in
  pdpd-shards backup [SHARD]           copies shards' files as they are at one instant, and opens each copy
  pdpd-shards backups                  lists the backups, and what a put-back has replaced
  pdpd-shards put-back SHARD BACKUP    puts a backup in place of a shard's files; asks first, or --yes stands behind it
  pdpd-shards move DOMAIN FROM TO      moves a domain from one shard to another
  pdpd-shards remap                    makes the map anew, of where each domain is
  pdpd-shards grow SHARDS              makes more shards
  pdpd-shards make-room SHARD          gives up what is kept of a shard's disk for the day on which it is full
  pdpd-shards reserve [SHARD]          keeps it again
  pdpd-shards watchdog                 kills shards that are stuck, for ever
  pdpd-shards figures                  answers who asks for figures of the shards, for ever
  pdpd-shards keep-backups SECONDS     makes backups again and again, for ever

Settings are in /etc/pdpd/shards.conf, or where PDPD_SETTINGS says. OPERATING.md is the page on all of it.
Exit status: 0 done, 1 something is wrong, 2 usage, or status can't tell.
"""
import contextlib
import os
import sqlite3
import subprocess
import sys

from . import (
    applied, backups, chains, figures, front, installed, listener, metrics, moving, proxy, replicas, replicated,
    restarted, restoring, room, status, supervisor, talk, trial, watchdog, written)
from .settings import (
    DOMAIN, FILE, Wrong, alone, end_in_order, errors_of, harmless, number_in_word, read, words_of)


def say(what):
    print(harmless(f"pdpd-shards: {what}"), flush=True)


def tell_warning(what):
    print(harmless(f"pdpd-shards: WARNING: {what}"), file=sys.stderr, flush=True)


def warn(settings):
    """Tells of settings of earlier versions, and where other users of the machine can take ports."""
    found = listener.warning(settings)
    for what in (*settings.advice(), *([found] if found else [])):
        tell_warning(what)


@contextlib.contextmanager
def my_turn():
    """One tool at a time, by the settings as they are then: it may have waited for a growth."""
    with alone():
        yield read()


def shards_in(settings, words):
    """The shard of a word, or all."""
    return [settings.shard_in(word) for word in words] or range(settings.shards)


def keep_room(settings):
    """Keeps room on each shard's disk, and tells where there is none to keep."""
    for shard in range(settings.shards):
        try:
            with alone():
                room.reserve(settings, shard)
        except (Wrong, OSError) as fault:
            tell_warning(words_of(fault))


def config(settings, words):
    if words == ["--write"]:
        applied.refuse_left_behind(settings)
        written.write_configuration(settings)
        warn(settings)
        then = "restart, and then reload, have the shards and HAProxy go there" if written.leads_elsewhere(settings) \
            else "reload has HAProxy read it"
        say(f"{settings.haproxy_etc}/haproxy.cfg is written and valid; pdpd-shards {then}")
    else:
        print(proxy.configuration(settings), end="")


def services(settings, words):
    talk.refuse_other_count(settings)
    settings.operator()
    warn(settings)
    by = supervisor.of(settings)
    for shard in range(settings.shards):
        if not by.pid(shard):
            applied.apply(settings, shard)
        elif names := {*applied.PLACES} & {*applied.changed(settings, shard)}:
            raise Wrong(f"{', '.join(sorted(names))} of {FILE} isn't what shard {shard} was started with: write that "
                        "again, or give pdpd-shards config --write, restart, and then reload")
    applied.apply_where_none(settings, range(settings.shards))
    # (what logs goes by it, and with runit HAProxy)
    if has_other_logs := applied.logs_go_otherwise(settings):
        replicas.refuse_removed(settings, range(settings.shards), are_all=True)
    applied.apply(settings, applied.PROXY)
    by.set_up(range(settings.shards))
    if has_other_logs:
        by.restart_logs(range(settings.shards))
    by.start_proxy()
    if not talk.is_there(settings):
        # (by a reload it would go on with sockets that another one took, which was started beside it)
        by.restart_proxy()
        if not talk.is_there(settings) and (why := talk.why_away(settings)):
            raise Wrong(f"HAProxy doesn't start. Its log says: {why}")
    for shard in range(settings.shards):
        talk.wait_until_up(settings, shard)
    applied.note_kept(settings, range(settings.shards))
    installed.note(is_upgrade=False)
    keep_room(settings)
    say(f"{settings.shards} shards answer, under {settings.supervisor}")


def reload(settings, words):
    talk.check(f"{settings.haproxy_etc}/haproxy.cfg")
    # (HAProxy takes any text for a map, and any configuration)
    if found := front.led_beyond(settings):
        tell_warning(found)
    if talk.shards_in_configuration(settings) is None:
        raise Wrong(f"{settings.haproxy_etc}/haproxy.cfg isn't of this deployment, as that of HAProxy's package: give "
                    "pdpd-shards config --write before")
    if written.leads_elsewhere(settings):
        raise Wrong(f"{settings.haproxy_etc}/haproxy.cfg leads where the shards aren't yet: give pdpd-shards restart, "
                    "and then reload")
    # a process that begins while another tool holds messages back would know nothing of it
    by, before, count = supervisor.of(settings), front.names_shown(settings), front.certificates_shown(settings)
    with alone():
        if has_other_logs := applied.logs_go_otherwise(settings):
            replicas.refuse_removed(settings, range(settings.shards), are_all=True)
        talk.reload(settings, by)
        if has_other_logs:
            by.restart_logs(range(settings.shards))
    chains.note(settings)
    say("HAProxy has read its files")
    if (now := front.names_shown(settings)) and (lost := sorted(before - now)):
        tell_warning(f"the certificate isn't valid for {', '.join(lost)} any more, as the one before was, but for "
                     f"{', '.join(sorted(now))}: clients that ask for another name refuse it")
    if 0 < (left := front.certificates_shown(settings)) < count:
        tell_warning(f"clients are shown {left} of certificates, and were shown {count}: if those between don't stand "
                     f"behind the first one in {settings.certificate} any more, clients that haven't them refuse it")


def restart(settings, words):
    if not words:
        talk.refuse_other_count(settings)
    shards = shards_in(settings, words)
    if words and talk.asks_elsewhere(settings):
        raise Wrong(f"{FILE} has the shards at other places than they are, and all have to restart for that: give "
                    "pdpd-shards restart, or write the places of before again")
    try_program(settings, shards)
    restart_in_turn(settings, shards)


def restart_in_turn(settings, shards):
    if talk.asks_elsewhere(settings):
        with alone(), restarted.told([*shards, applied.PROXY]):
            moving.restart_elsewhere(settings)
        return say("all shards are restarted, where the settings say, and HAProxy asks them there")
    with restarted.told(shards):
        for shard in shards:
            with my_turn() as settings, moving.restart_between_messages(settings, shard):
                pass
            say(f"shard {shard} is restarted")


def try_program(settings, shards, *, is_upgrade=False):
    """Makes a backup of each of these shards that runs another program than would be started, by an upgrade of all. The
    one that would be started opens it, as it would the shard's files; if it can't, nothing is stopped."""
    for shard in shards:
        process = supervisor.of(settings).pid(shard)
        # (what keeps one down that doesn't run may be what the other one mends)
        if not process or not (is_upgrade or trial.runs_another(settings, process)):
            continue
        try:
            make_backup(settings, shard)
        except (Wrong, OSError) as fault:
            raise Wrong(f"nothing was stopped: no backup of shard {shard} could be made and opened by "
                        f"{settings.program}: {words_of(fault)}") from None


def upgrade(settings, words):
    by = supervisor.of(settings)
    talk.refuse_other_count(settings)
    talk.refuse_lost_map(settings)
    replicas.refuse_removed(settings, range(settings.shards), are_all=True)
    settings.operator()
    try_program(settings, range(settings.shards), is_upgrade=True)
    with restarted.told([*range(settings.shards), applied.PROXY]):
        written.write_configuration(settings)
        warn(settings)
        with alone():
            by.renew()
        # (one of an earlier version takes one connection at a time, and HAProxy keeps them once it has its new file)
        restart_in_turn(settings, range(settings.shards))
        with alone():
            by.restart_logs(range(settings.shards))
            talk.reload(settings, by)
    installed.note(is_upgrade=True)
    say("HAProxy, the watchdog and the backups run what is installed")
    keep_room(settings)


def show_status(settings, words):
    found = status.report_of_file()
    text = {"--json": found.json, "--prometheus": lambda: metrics.text_of(found)}.get("".join(words), found.text)
    print(harmless(text()))
    return found.exit_status()


def where(settings, words):
    (domain,) = words
    if not DOMAIN.fullmatch(domain):
        raise Wrong(f"{domain!r} is no domain's name")
    print(talk.place(settings, talk.map_in_file(settings), domain))


def make_backup(settings, shard):
    """Makes a backup of a shard, and gives its folder."""
    with alone():
        path, domains, took = backups.backup(settings, shard)
    say(f"backup of shard {shard}: {backups.summary(path, domains, took)}")
    return path


def backup(settings, words):
    ends = 0
    for shard in shards_in(settings, words):
        path = make_backup(settings, shard)
        if found := backups.emptied(settings, shard):
            print(harmless(f"WRONG: {found}"), flush=True)
            ends = 1
        backups.copy_away(settings, shard, path)
    return ends


def list_backups(settings, words):
    for shard in range(settings.shards):
        with contextlib.suppress(PermissionError):
            for name in restoring.kept_aside(settings, shard):
                print(shard, name)
        # the newest one is the last line of a shard
        for path in backups.backups_of(settings, shard):
            print(shard, path.name)


def is_wanted(lines, words):
    """Whether the operator wants what is told."""
    print(harmless("\n".join(lines)), flush=True)
    if words == ["--yes"]:
        return True
    if not sys.stdin.isatty():
        raise Wrong("nothing was changed: there is no terminal to ask at; --yes behind it says that it is wanted")
    return input("Is that wanted? yes or no: ").strip().lower() in ("y", "yes")


def put_back(settings, words):
    shard, name, *more = words
    with alone():
        planned = restoring.plan(settings, settings.shard_in(shard), name)
    if not is_wanted(planned.lines(), more):
        say("nothing was changed")
        return 1
    with alone():
        aside = restoring.put_back(settings, planned)
    say(f"shard {shard} is that of {name}: {len(planned.domains)} domains. `pdpd-shards put-back {shard} {aside.name}` "
        f"undoes it; the files before are in {aside}")
    return 0


def move(settings, words):
    domain, one, other = words[0], *map(settings.shard_in, words[1:])
    try_program(settings, (one, other))
    with my_turn() as settings:
        took = moving.move(settings, domain, one, other)
    say(f"{domain} is in shard {other}; both shards were away for {took:.2f} s")


def grow(settings, words):
    shards = number_in_word(*words)
    if shards is None:
        raise Wrong("a number of shards is wanted")
    with my_turn() as settings:
        count = moving.grow(settings, shards)
    with restarted.told(range(settings.shards, shards)):
        keep_room(larger := read())
        for shard in range(settings.shards, shards):
            try:
                backups.copy_away(larger, shard, make_backup(larger, shard))
            except (Wrong, OSError) as fault:
                tell_warning(words_of(fault))
    say(f"there are {shards} shards; {count} domains stay where they were")


def remap(settings, words):
    with my_turn() as settings:
        count, changed, twice = moving.remap(settings)
    for name, place in sorted(changed.items()):
        say(f"{name}: no line is needed any more" if place is None else f"{name} is led to {place}")
    for name in twice:
        say(f"{name} is in several shards: look which is right")
    say(f"the map leads each of {count} domains to a shard that has it")


def make_room(settings, words):
    (word,) = words
    shard = settings.shard_in(word)
    with alone():
        left = room.give_up(settings, shard)
    say(f"the disk of shard {shard} has {left / room.MIB:.1f} MiB left. Now move domains away, or remove policies; "
        f"once there is room again give pdpd-shards reserve {shard}")


def reserve(settings, words):
    for shard in shards_in(settings, words):
        with alone():
            room.reserve(settings, shard)
        say(f"shard {shard} has {settings.reserve} MiB for the day on which its disk is full")


def keep_backups(settings, words):
    seconds = number_in_word(*words)
    if seconds is None:
        raise Wrong("a number of seconds is wanted")
    backups.keep_making(seconds)


# each word with the numbers of words that may stand behind it
WORDS = {
    "config": (config, (0, 1)),
    "services": (services, (0,)),
    "reload": (reload, (0,)),
    "restart": (restart, (0, 1)),
    "upgrade": (upgrade, (0,)),
    "status": (show_status, (0, 1)),
    "where": (where, (1,)),
    "backup": (backup, (0, 1)),
    "backups": (list_backups, (0,)),
    "put-back": (put_back, (2, 3)),
    "move": (move, (3,)),
    "remap": (remap, (0,)),
    "grow": (grow, (1,)),
    "make-room": (make_room, (1,)),
    "reserve": (reserve, (0, 1)),
    "watchdog": (lambda settings, words: watchdog.watch_all(), (0,)),
    "figures": (lambda settings, words: figures.serve(), (0,)),
    "keep-backups": (keep_backups, (1,)),
}


# the words that may stand last behind some words
SWITCHES = {"config": (1, ("--write",)), "status": (1, ("--json", "--prometheus")), "put-back": (3, ("--yes",))}
# services, which go on with what was set before where the settings can't be read
SERVICES = ("watchdog", "figures", "keep-backups")
# what starts or copies what is kept
CHANGES = ("services", "reload", "restart", "upgrade", "backup", "put-back", "move", "remap", "grow", "make-room",
           "reserve")
# what reads the settings itself
READERS = (*SERVICES, "status")


def is_usage(words):
    """Whether words are as they are to be."""
    _, counts = WORDS.get(words[0] if words else "", (None, ()))
    place, switches = SWITCHES.get(words[0] if words else "", (None, ()))
    return len(words) - 1 in counts and (len(words) - 1 != place or words[-1] in switches)


def main(words):
    end_in_order()
    # nobody else changes what root makes, however its shell has that
    os.umask(os.umask(0o022) | 0o022)
    if words in (["--help"], ["-h"], ["help"]):
        print(__doc__, end="")
        return 0
    if not is_usage(words):
        print(__doc__, file=sys.stderr)
        return 2
    try:
        if os.geteuid() and (words[0] in CHANGES or words[-1] == "--write"):
            raise Wrong(f"only root can do that: run pdpd-shards {' '.join(words)} as root")
        settings = None if words[0] in READERS else read()
        if settings:
            replicated.refuse(settings, words[0])
        if words[0] in CHANGES:
            applied.refuse_left_behind(settings)
        return WORDS[words[0]][0](settings, words[1:]) or 0
    except (Wrong, OSError, sqlite3.Error, subprocess.SubprocessError, EOFError) as fault:
        for error in errors_of(fault):
            is_late = isinstance(error, TimeoutError) and not error.strerror
            said = "no reply came in time: pdpd-shards status tells of whom" if is_late else words_of(error)
            print(harmless(f"pdpd-shards: {said}"), file=sys.stderr)
        return 1
