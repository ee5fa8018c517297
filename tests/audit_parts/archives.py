"""The archive alone: cut at each byte, changed in each byte, packed, begun anew each month, and without room."""
import contextlib
import gzip
import os
import resource
import shutil
import signal

from log.archive import Archive, NoRoom, segments_in
from log.history import by_archive, changes_in
from log.record import Damaged

from .shared import expect, memory as folder

HEAD = {"domain": "acme", "who": "admin", "method": "PUT", "path": "/domains/acme/pip", "fields": []}
REPLY = b"HTTP/1.1 200 OK\r\nContent-Length: 2\r\n\r\n{}"


class Clock:
    """A clock that is set by hand."""

    def __init__(self, now=1_790_000_000.0):
        self.now = now

    def __call__(self):
        return self.now


@contextlib.contextmanager
def opened(path, clock=None, **more):
    archive = Archive(path, clock or Clock(), **more)
    try:
        yield archive
    finally:
        archive.close()


def add(archive, body):
    archive.add_entry(HEAD, body)
    archive.add_reply(200, REPLY, is_again=False)


def made(name, bodies):
    """An archive with these changes, and the path of its file."""
    path = folder / name
    with opened(path) as archive:
        for body in bodies:
            add(archive, body)
    (segment,) = segments_in([path])
    return path, segment.path


def ends_of_records(path):
    return [0, *(record.end for record in segments_in([path])[0].records())]


def cuts():
    """Cut at any byte, as a kill leaves it: what is whole is there, the rest goes, and it goes on."""
    # the last body looks like the records of another archive
    forged = made("forging", [b"x"])[1].read_bytes()
    path, file = made("cut", [b"one", b"two\n", forged])
    data, ends = file.read_bytes(), ends_of_records(path)
    for length in range(len(data) + 1):
        file.write_bytes(data[:length])
        whole = sum(end <= length for end in ends) - 1
        with opened(path) as archive:
            found = archive.position, archive.pending is not None
            expect(f"cut at byte {length}", found, (whole // 2, whole % 2 == 1))
            if whole:
                expect(f"cut at byte {length}: the rest went", file.stat().st_size, ends[whole])
            if length % 97 == 0:
                if archive.pending:
                    archive.add_reply(200, REPLY, is_again=True)
                add(archive, b"behind")
        if length % 97 == 0:
            found = [change.entry.body for change in changes_in(by_archive([path])[0])]
            expect(f"cut at byte {length}: it goes on", found[-1:], [b"behind"])
        for one in path.glob("*.log"):
            one.unlink()


def damages():
    """A bit that is another one: in the last record that is as a cut; before it nothing is opened or dropped."""
    path, file = made("damaged", [b"one", b"two", b"three"])
    data, ends = file.read_bytes(), ends_of_records(path)
    for at in range(len(data)):
        for bit in ((0, 5) if at % 3 else range(8)):
            changed = bytearray(data)
            changed[at] ^= 1 << bit
            file.write_bytes(changed)
            found = None
            try:
                with opened(path) as archive:
                    found = archive.position, archive.pending is not None
            except Damaged as fault:
                found = "put this file back" in str(fault)
            expect(f"bit {bit} of byte {at}", found, True if at < ends[-2] else (2, True))
            if found is True:
                expect(f"bit {bit} of byte {at}: nothing went", file.read_bytes(), bytes(changed))


def changed_by_hand():
    """A record that was written anew, with its own digest, breaks the chain."""
    path, file = made("rewritten", [b"one", b"two", b"three"])
    other, other_file = made("other", [b"ONE", b"two", b"three"])
    name = file.name.split(".")[2].encode()
    data, ends, other_data = file.read_bytes(), ends_of_records(path), other_file.read_bytes()
    other_end = ends_of_records(other)[1]
    file.write_bytes(other_data[:other_end] + data[ends[1]:])
    for what, wanted in ((other_data[:other_end], "damaged"), (data[:ends[1]] + data[ends[3]:], "doesn't follow")):
        file.write_bytes(what + (data[ends[1]:] if wanted == "damaged" else b""))
        try:
            list(changes_in(by_archive([path])[0]))
            found = "nothing was found"
        except Damaged as fault:
            found = str(fault)
        expect(f"{name!r} {wanted}", wanted in found, True)


def months():
    """A file for each month, and behind so many bytes; the tools read them packed and in another folder."""
    path, clock = folder / "months", Clock()
    with opened(path, clock, most_bytes=3_000) as archive:
        for number in range(30):
            add(archive, b"%d" % number)
            if number == 20:
                clock.now += 40 * 86_400
            if number == 25:
                clock.now -= 80 * 86_400  # a clock that is set back
    segments = segments_in([path])
    expect("the months", sorted({one.month for one in segments}), ["2026-09", "2026-10"])
    expect("further files", len(segments) > 3, True)
    away = folder / "months-away"
    away.mkdir()
    for one in segments[:2]:
        (away / f"{one.path.name}.gz").write_bytes(gzip.compress(one.path.read_bytes()))
        one.path.unlink()
    found = list(changes_in(by_archive([path, away])[0]))
    expect("packed and moved", [int(change.entry.body) for change in found], list(range(30)))
    times = [at for change in found for at in (change.began(), change.ended())]
    expect("no time goes back", times, sorted(times))
    with opened(path, clock) as archive:
        expect("it is opened without them", archive.position, 30)
    shutil.rmtree(away)
    segments_in([path])[1].path.unlink()
    try:
        list(changes_in(by_archive([path])[0]))
        found = "nothing"
    except Damaged as fault:
        found = str(fault)
    expect("a file is missing", "a file before it is missing" in found, True)


def no_room():
    """A write that fails in the middle leaves nothing behind, and a second writer isn't let in."""
    path, file = made("small", [b"one"])
    before = file.read_bytes()
    child = os.fork()
    if not child:
        signal.signal(signal.SIGXFSZ, signal.SIG_IGN)
        resource.setrlimit(resource.RLIMIT_FSIZE, (len(before) + 100, len(before) + 100))
        try:
            with opened(path) as archive:
                archive.add_entry(HEAD, b"x" * 1_000)
        except NoRoom:
            os._exit(7)
        os._exit(1)
    expect("it says that nothing was written", os.waitstatus_to_exitcode(os.waitpid(child, 0)[1]), 7)
    expect("and nothing was", file.read_bytes(), before)
    with opened(path) as archive:
        try:
            Archive(path)
            found = "it is opened twice"
        except Damaged as fault:
            found = str(fault)
        expect("a second one", "another pdpd-replica" in found, True)
        add(archive, b"two")
        expect("the first one goes on", archive.position, 2)


PARTS = (cuts, damages, changed_by_hand, months, no_room)
