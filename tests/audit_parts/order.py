"""The daemon's own steps: what is on the disk before what, what is held of who waits, and its checkpoints."""
import contextlib
import hashlib
import os
import signal
import threading
import time

from log import archive as archives
from log import daemon as daemons
from log.archive import Archive, segments_in
from log.domains import checkpoints_in, folder_of
from log.messages import Message
from log.server import MOST_MESSAGES
from sent import rows_body
from serving import OPERATOR, UNAVAILABLE, free_port

from .shared import TOP, Logged, expect, folder, passed_on, status_of, wait_until

DONE = b"HTTP/1.1 200 OK\r\nContent-Length: 2\r\n\r\n{}"
ADMIN = "acme-admin-1"


class Steps(daemons.Daemon):
    """A daemon whose clients may make each change, and whose pdpd is told here."""

    def refusal(self, message, who):
        return None

    def say(self, what):
        pass


@contextlib.contextmanager
def instead(module, name, value):
    """Another value meanwhile."""
    before = getattr(module, name)
    setattr(module, name, value)
    try:
        yield before
    finally:
        setattr(module, name, before)


def made(name, port=0):
    """A daemon over an archive of its own."""
    token = folder / f"{name}-token"
    token.write_text(f"{OPERATOR}\n")
    return Steps(Archive(folder / name), f"127.0.0.1:{port}", token, 1)


def change(body=b"{}"):
    return Message("PUT", "/domains/acme/pip", (("authorization", "Bearer x"),), body)


def records(daemon):
    return sum(len(list(segment.records())) for segment in segments_in([daemon.archive.folder]))


def synced():
    """The entry is on the disk before pdpd gets it, and its reply before the client does."""
    daemon, told = made("synced"), []

    def to_pdpd(*_):
        told.append("pdpd gets it")
        return [daemons.Reply(200, DONE)]

    def to_disk(file):
        real(file)
        told.append(f"{records(daemon)} records are on the disk")

    with instead(archives.os, "fdatasync", to_disk) as real, instead(daemons, "replies", to_pdpd):
        daemon.start()
        for number in (1, 2):
            expect(f"change {number}", daemon.reply_to(change()), DONE)
            told.append("the client has its reply")
    expect("the order", told, [
        "1 records are on the disk", "pdpd gets it", "2 records are on the disk", "the client has its reply",
        "3 records are on the disk", "pdpd gets it", "4 records are on the disk", "the client has its reply"])


def withdrawn():
    """Of a change whose client waited for its turn in vain nothing is held, and it is never made."""
    daemon = made("withdrawn", free_port())
    with instead(daemons, "TURN", 0.01):
        for _ in range(20):
            expect("without a turn", daemon.reply_to(change(b"x" * 500_000)), UNAVAILABLE)
    expect("changes that are held", len(daemon.waiting), 0)
    expect("what is told of them", b'"waiting": 0' in daemon.figures(), True)
    with instead(daemons, "replies", lambda *_: [daemons.Reply(200, DONE)]):
        daemon.start()
        expect("the next one", daemon.reply_to(change(b'{"Row":[]}')), DONE)
    expect("all that is appended", daemon.archive.position, 1)


def bounded():
    """However many clients send, the daemon holds so many messages, and no more of each than pdpd takes."""
    with Logged("bounded") as logged:
        logged.make_domain()
        os.kill(logged.pdpd.process.pid, signal.SIGSTOP)
        held = passed_on("PUT", "/domains/acme/pip", ADMIN, rows_body(520_000))
        for _ in range(100):
            threading.Thread(target=logged.change, args=(held,), daemon=True).start()

        def said(word):
            with open(f"/proc/{logged.daemon.pid}/status", encoding="ascii") as lines:
                return next(int(line.split()[1]) for line in lines if line.startswith(word))
        # (two more take connections and make changes, and one writes checkpoints)
        expect("messages at a time", wait_until(lambda: said("Threads") >= MOST_MESSAGES), True)
        time.sleep(1)
        expect("threads", said("Threads") <= MOST_MESSAGES + 3, True)
        expect("kilobytes", said("VmHWM") < 120_000, True)


def checkpoint_of_daemon():
    """The daemon writes a checkpoint behind 2 MB of a domain's bodies, and keeps each text once."""
    with Logged("checkpoint") as logged:
        logged.make_domain()
        own, texts = folder_of(logged.archive, "acme"), [rows_body(520_000), rows_body(510_000)]

        def rows(*places):
            return [status_of(logged.change(passed_on("PUT", "/domains/acme/pip", ADMIN, texts[place])))
                    for place in places]
        expect("1.5 MB", rows(0, 1, 0), [200] * 3)
        expect("no checkpoint yet", checkpoints_in(own), [])
        expect("2 MB", rows(0), [200])
        expect("one", wait_until(lambda: [number for number, _, _ in checkpoints_in(own)] == [11]), True)
        expect("2 MB more", rows(1, 0, 1, 0), [200] * 4)
        expect("another one", wait_until(lambda: [number for number, _, _ in checkpoints_in(own)] == [11, 15]), True)
        wanted = [(TOP / "examples" / "ward" / "policy.json").read_text(), texts[0],
                  '{"PolicyIdReference":{"Id":"urn:example:ward:records"}}']
        expect("the texts of both", sorted(file.name for file in own.glob("*/*.text")),
               sorted(f"{hashlib.sha256(text.encode()).hexdigest()}.text" for text in wanted))


PARTS = (synced, withdrawn, bounded, checkpoint_of_daemon)
