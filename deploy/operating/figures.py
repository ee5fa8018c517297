"""Figures of the shards and of what logs their changes, in the text format of Prometheus.

Each second each shard is asked for a decision, in its turn behind all that waits: so the time that it takes is what a
client waits. HAProxy leads who asks for figures to a socket here, which nobody else may connect to.
"""
import contextlib
import os
import pathlib
import shutil
import socketserver
import threading
import time

from . import applied, replicas, status, supervisor, talk, trial
from . import settings as setting
from .findings import Findings

PAUSE, PATIENCE = 1.0, 25.0
# how often domains are counted, which wants a list of each shard, in seconds
COUNTED = 60.0
SOCKET = setting.LOCKS / "figures.sock"
LONGEST_HEAD = 16_384
# name, kind, what it is
HELP = {
    "pdpd_shard_up": ("gauge", "1 where a shard answers a request for a decision"),
    "pdpd_shard_wait_seconds": ("gauge", "how long the last such request waited for its turn and took"),
    "pdpd_shard_restarts_total": ("counter", "how often another process of a shard was seen"),
    "pdpd_shard_store_bytes": ("gauge", "the bytes of a shard's files"),
    "pdpd_shard_domains": ("gauge", "the domains of a shard"),
    "pdpd_shard_backup_age_seconds": ("gauge", "how old the newest backup of a shard is"),
    "pdpd_disk_free_bytes": ("gauge", "what the disk of a place has left"),
    "pdpd_replica_up": ("gauge", "1 where the daemon answers that logs a shard's changes"),
    "pdpd_replica_position": ("counter", "the last entry of a shard that is answered"),
    "pdpd_replica_last_change_timestamp_seconds": ("gauge", "the moment of a shard's last change, as it is logged"),
    "pdpd_replica_waiting": ("gauge", "changes that wait for their turn at the daemon"),
    "pdpd_replica_pending": ("gauge", "1 while an entry has no reply"),
    "pdpd_replica_archive_bytes": ("gauge", "the archive's files of a shard, but for what was moved away"),
    "pdpd_replica_room_bytes": ("gauge", "what the disk of the archive has left above ROOM"),
    "pdpd_decisions_verified": ("gauge", "the lines of decisions that were worked out again last, by what was found"),
    "pdpd_decisions_verified_at_seconds": ("gauge", "when that was"),
}


class Seen:
    """What was seen of one shard."""

    def __init__(self):
        self.process, self.restarts, self.is_up, self.wait = 0, 0, False, 0.0
        self.domains, self.counted = None, 0.0

    def look(self, settings, shard):
        process = supervisor.of(settings).pid(shard)
        if process and process != self.process:
            self.restarts += bool(self.process)
            self.process = process
        began = time.monotonic()
        try:
            code, _ = talk.shard_reply(settings, shard, "POST", "/domains/figures/pdp", "-", in_turn=True,
                                       timeout=PATIENCE, body=b"{}")
        except talk.NO_REPLY:
            code = 0
        self.is_up, self.wait = code == 401, time.monotonic() - began
        if self.is_up and time.monotonic() > self.counted + COUNTED:
            self.counted = time.monotonic()
            try:
                self.domains = len(talk.domains_of(settings, shard))
            except setting.Wrong:
                self.domains = None


SEEN = {}


def settings_now():
    """The settings, or those before where they can't be read."""
    settings, why = applied.read_or_before()
    if settings is None:
        raise setting.Wrong(why)
    return settings


def watch(shard):
    """Looks at a shard for ever."""
    while True:
        try:
            SEEN[shard].look(applied.watched(shard) or settings_now(), shard)
        except Exception as fault:  # pylint: disable=broad-exception-caught
            SEEN[shard].is_up = False
            print(f"pdpd-shards: shard {shard} wasn't looked at: {fault!r}", flush=True)
        time.sleep(PAUSE)


def size_of(path):
    try:
        return os.lstat(path).st_size
    except OSError:
        return None


def of_shard(settings, shard):
    """The names, labels and values of a shard's figures; those that `status` tells, too, have its names."""
    seen, label = SEEN.get(shard) or Seen(), f'shard="{shard}"'
    yield "pdpd_shard_up", label, int(seen.is_up)
    yield "pdpd_shard_wait_seconds", label, round(seen.wait, 4)
    yield "pdpd_shard_restarts_total", label, seen.restarts
    for name in trial.FILES:
        yield "pdpd_shard_store_bytes", f'{label},file="{name}"', size_of(settings.folder(shard) / name)
    yield "pdpd_shard_domains", label, seen.domains
    # (what it finds wrong is for `status` to tell)
    old = status.age_of_backup(settings, shard, Findings())
    yield "pdpd_shard_backup_age_seconds", label, None if old is None else round(old, 1)


def of_replica(settings, shard):
    """What the daemon tells of itself."""
    held = None
    with contextlib.suppress(PermissionError):
        held = replicas.figures(settings, shard)
    if held is None:
        return [("pdpd_replica_up", 0)]
    return [("pdpd_replica_up", 1), *((f"pdpd_replica_{name}", value) for name, value in held.items())]


def verified(settings):
    """What the nightly job has found."""
    try:
        *kinds, (_, at) = replicas.decided(pathlib.Path(settings.decision_log))
    except replicas.UNTOLD:
        return []
    return [*(("pdpd_decisions_verified", f'kind="{kind}"', count) for kind, count in kinds),
            ("pdpd_decisions_verified_at_seconds", "", at)]


def all_figures(settings):
    """Each figure's name, labels and value."""
    for shard in range(settings.shards):
        yield from of_shard(settings, shard)
        if settings.audit:
            yield from ((name, f'shard="{shard}"', value) for name, value in of_replica(settings, shard))
    places = {"DATA": settings.data, "BACKUPS": settings.backups}
    if settings.audit:
        places["ARCHIVES"] = settings.archives
    for name, path in places.items():
        if os.path.isdir(path):
            yield "pdpd_disk_free_bytes", f'place="{name}"', shutil.disk_usage(path).free
    yield from verified(settings) if settings.decisions else ()


def text(settings):
    """All of it, in the text format 0.0.4."""
    lines = {}
    for name, labels, value in all_figures(settings):
        if value is not None:
            lines.setdefault(name, []).append(f"{name}{{{labels}}} {value}" if labels else f"{name} {value}")
    return "".join(f"# HELP {name} {HELP[name][1]}\n# TYPE {name} {HELP[name][0]}\n" + "\n".join(held) + "\n"
                   for name, held in lines.items())


class Answer(socketserver.StreamRequestHandler):
    """Answers HAProxy, whatever it asks."""
    timeout = 5

    def handle(self):
        # (whoever asked may have gone)
        with contextlib.suppress(OSError):
            self.answer()

    def answer(self):
        head = b""
        while b"\r\n\r\n" not in head and len(head) < LONGEST_HEAD:
            if not (more := self.connection.recv(4_096)):
                return
            head += more
        body = text(settings_now()).encode()
        self.wfile.write(b"HTTP/1.1 200 OK\r\nContent-Type: text/plain; version=0.0.4\r\nConnection: close\r\n"
                         b"Content-Length: %d\r\n\r\n%s" % (len(body), body))


class Server(socketserver.ThreadingUnixStreamServer):
    daemon_threads = True


def serve():
    """Looks at all shards, and answers, for ever."""
    settings = settings_now()
    setting.make_locks_folder()
    SOCKET.unlink(missing_ok=True)
    before = os.umask(0o117)
    server = Server(str(SOCKET), Answer)
    os.umask(before)
    if settings.haproxy_user:
        shutil.chown(SOCKET, group=settings.haproxy_user)
    threading.Thread(target=server.serve_forever, daemon=True).start()
    while True:
        for shard in range(len(SEEN), settings_now().shards):
            SEEN[shard] = Seen()
            threading.Thread(target=watch, args=(shard,), daemon=True).start()
        time.sleep(PAUSE)
