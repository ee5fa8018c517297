"""Writes what HAProxy reads: its configuration and its rules in Lua, and at first empty maps. A refusal changes
nothing."""
import contextlib
import re

from . import applied, grouped, replicated, talk
from .proxy import configuration, mode, server
from .settings import FILE, LIBRARY, Wrong, text_of, words_of, write_whole

CONFIGURATION, RULES = "haproxy.cfg", "domains.lua"
# where HAProxy's own configuration, as of its package, is kept
BEFORE = "haproxy.cfg.before-pdpd"


def write_configuration(settings, *, is_growth=False):
    """Writes what HAProxy reads, if it finds no fault in it. A growth alone may change the number of shards."""
    if not is_growth:
        talk.refuse_other_count(settings)
    if not settings.tls_bind.strip() and not settings.plain_bind.strip():
        raise Wrong(f"{FILE}: TLS_BIND and PLAIN_BIND are empty: no client could connect")
    talk.refuse_lost_map(settings)
    place, rules, text = beside(settings, CONFIGURATION), beside(settings, RULES), configuration(settings)
    with tried(settings, text):
        if place.exists() and talk.shards_in_configuration(settings) is None:
            place.rename(beside(settings, BEFORE))
        write_whole(rules, (LIBRARY / RULES).read_text())
        write_whole(place, text, mode(settings))


def leads_elsewhere(settings):
    """Whether HAProxy's file leads to other places than those where a tool has started the shards."""
    text = text_of(beside(settings, CONFIGURATION))
    count = min(settings.shards, talk.shards_in_configuration(settings) or 0)
    places = [server(applied.of(settings, shard), shard) for shard in range(count)]
    return any(not re.search(rf"(?m)^    server pdpd {re.escape(place)}(\s|$)", text) for place in places)


def refuse_kept(path):
    """An error where a file can't be replaced, as one that something is mounted on, or that is read-only."""
    try:
        if path.exists():
            write_whole(path, text_of(path), path.stat().st_mode & 0o777)
    except OSError as fault:
        raise Wrong(f"{path} can't be replaced ({words_of(fault)}): nothing was changed") from None


def refuse_untaken(settings):
    """An error where HAProxy doesn't take what these settings make, or it couldn't be written. Nothing is changed."""
    talk.refuse_lost_map(settings)
    for path in (FILE, settings.map, beside(settings, CONFIGURATION), beside(settings, RULES)):
        refuse_kept(path)
    with tried(settings, configuration(settings)):
        pass


def beside(settings, name):
    """A file of HAProxy's folder."""
    return settings.map.with_name(name)


@contextlib.contextmanager
def tried(settings, text):
    """HAProxy takes that configuration, with the rules that are installed. What is written for the trial is gone behind
    it, and a map as well that is made for the first configuration, if that is refused."""
    files = {name: beside(settings, f"{name}.new") for name in (CONFIGURATION, RULES)}
    grouped.make_files(settings)
    maps = [settings.map, *([replicated.file(settings)] if settings.machines else []),
            *([grouped.file(settings), grouped.moved(settings)] if settings.groups else [])]
    made = [path for path in maps if not path.exists()]
    for path in made:
        write_whole(path, "")
    try:
        write_whole(files[RULES], (LIBRARY / RULES).read_text())
        loads = f"lua-load {settings.haproxy_etc}/{RULES}"
        write_whole(files[CONFIGURATION], text.replace(f"{loads}\n", f"{loads}.new\n"), mode(settings))
        check(files[CONFIGURATION])
        yield
    except BaseException:
        for path in made:
            path.unlink()
        raise
    finally:
        for path in files.values():
            path.unlink(missing_ok=True)


def check(path):
    """That HAProxy takes the configuration; its reasons, if it doesn't."""
    try:
        talk.check(path)
    except Wrong as fault:
        _, *reasons = str(fault).splitlines()
        if not reasons:
            raise  # (HAProxy couldn't be asked)
        head = f"HAProxy doesn't take what pdpd-shards config shows, as {path.name}:"
        raise Wrong("\n".join([head, *reasons])) from None
