"""Who keeps the lines of decisions: what comes in pieces, files of so many bytes and days, which lines are kept, and a
disk that is full."""
import errno
import os
import pathlib
import socket
import threading
from unittest import mock

from log.receiving import Log, files_in, take

from .generated import BEGIN, Clock
from .shared import expect
from .shared import memory as folder

LINE = b'127.0.0.1:1 pdp shard0/pdpd POST "/domains/acme/pdp" 200 {"begin":%d,"end":2,"domain":"acme"}\n'
USUAL = b'127.0.0.1:1 pdp shard0/pdpd GET "/domains/acme/pip" 200 -\n'
KEPT = '{"begin":%d,"end":2,"domain":"acme"}\n'


def framed(*lines):
    return b"".join(b"%d %s" % (len(line), line) for line in lines)


def made(name, most_bytes=1 << 20, days=3):
    path = folder / name
    path.mkdir()
    clock = Clock()
    return path, clock, Log(path, most_bytes, days, clock)


def texts_in(path):
    return [file.read_text() for file in files_in(path)]


def sent(log, *pieces):
    """Sends pieces over a connection."""
    ours, theirs = socket.socketpair()
    taker = threading.Thread(target=take, args=(theirs, log))
    taker.start()
    with ours:
        for piece in pieces:
            ours.sendall(piece)
    taker.join(10)
    expect("the connection is over", taker.is_alive(), False)


def lines():
    """A line of a decision is kept, however it comes; another one isn't, nor what is no frame."""
    data = framed(LINE % 1, USUAL, LINE % 2, USUAL, LINE % 3)
    for size in (1, 7, 64, len(data)):
        path, _, log = made(f"pieces-{size}")
        sent(log, *(data[at:at + size] for at in range(0, len(data), size)))
        expect(f"pieces of {size} bytes", texts_in(path), ["".join(KEPT % number for number in (1, 2, 3))])
    path, _, log = made("cut-frames")
    sent(log, framed(LINE % 1) + framed(LINE % 2)[:-1])
    sent(log, b"x" + framed(LINE % 3))
    sent(log, framed(LINE % 4))
    expect("a line that was cut, and no frame", texts_in(path), [KEPT % 1 + KEPT % 4])
    expect("who may read it", {f"{file.stat().st_mode & 0o777:o}" for file in files_in(path)}, {"640"})


def files():
    """A file has so many bytes or a day, and goes after so many days; nothing else goes."""
    length = len(KEPT % 1)
    path, clock, log = made("files", most_bytes=2 * length)
    for number in range(1, 6):
        clock.now += 1
        log.add(LINE % number)
    expect("two lines each", texts_in(path), [KEPT % 1 + KEPT % 2, KEPT % 3 + KEPT % 4, KEPT % 5])
    clock.now = BEGIN + 86_400
    log.add(LINE % 6)
    expect("the next day", texts_in(path)[-1], KEPT % 6)
    other = path / "notes"
    other.touch()
    clock.now = files_in(path)[0].stat().st_mtime + 4 * 86_400
    log.add(LINE % 7)
    expect("four days later", (texts_in(path), other.exists()), ([KEPT % 7], True))


def failing(word, fault, *given):
    """Has a call of the system that is of a descriptor or of a path in the test's folder fail, or do a part."""
    real = getattr(os, word)

    def call(first, *more, **named):
        if isinstance(first, pathlib.Path) and folder not in first.parents:
            return real(first, *more, **named)
        if given:
            real(first, *given)
        raise OSError(fault, os.strerror(fault))
    return mock.patch.object(os, word, call)


def half_a_line():
    """Where a file can't be begun, or a line not be written whole, that line is lost and no other, and who is connected
    stays so."""
    path, clock, log = made("half-a-line")
    log.add(LINE % 1)
    clock.now += 86_400
    with failing("open", errno.ENOSPC):
        expect("no file", raised(lambda: log.add(LINE % 2)), errno.ENOSPC)
    ours, theirs = socket.socketpair()  # (which has the number of the file that was closed)
    with ours, theirs:
        log.add(LINE % 3)
        ours.sendall(b"x")
        expect("who is connected", theirs.recv(1), b"x")
    with failing("write", errno.ENOSPC, b'{"beg'):
        expect("a part of a line", raised(lambda: log.add(LINE % 4)), errno.ENOSPC)
    log.add(LINE % 5)
    expect("all others", texts_in(path), [KEPT % 1, KEPT % 3 + KEPT % 5])


def raised(call):
    """The number of the error that a call raises; None where it raises none."""
    try:
        call()
    except OSError as fault:
        return fault.errno
    return None


PARTS = (lines, files, half_a_line)
