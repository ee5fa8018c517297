"""How the program ends."""
import os
import signal
import subprocess
import time

from checks import Between
from said import INPUT_BAD, UNCLOSED, line
from serve_parts.shared import (
    ASK, LIST, PERMIT, PROGRAM, TOKEN_FILE, creates, environment, expect_refusal, folder, listing, serving)
from serving import CREATED, free_port

from .shared import PLACES, clients_of, expect, listening, timed, within

LEFT = 41  # bytes: the header of a log, and none of a commit
WAITING = 6  # connections that wait beside those that have a place


def by_input():
    """When its input ends the program takes no more connections, answers what is under way, closes the store and ends
    with status 0."""
    with listening("by-input") as served, clients_of(served, 3) as (quiet, fresh, half):
        expect("one before the end", quiet.ask(ASK), PERMIT)
        half.send(creates("beta")[:-2])
        time.sleep(0.3)
        served.process.stdin.close()
        time.sleep(0.3)
        try:
            served.client().close()
            found = "taken"
        except ConnectionRefusedError:
            found = "refused"
        expect("one that comes after the end", found, "refused")
        expect("one that is there and asks soon", fresh.ask(ASK), PERMIT)
        half.send(creates("beta")[-2:])
        expect("a message that was under way", half.reply(), CREATED)
        rest, seconds = timed(lambda: (quiet.all(), fresh.all(), half.all()))
        expect("nothing more", rest, (b"", b"", b""))
        within("the seconds until all have ended", seconds, Between(0, 6))
        served.process.stdin = None
        expect("the end", served.ended(), (b"", b"", 0))
        expect("the log is written back", (folder / "by-input.db-wal").stat().st_size, LEFT)
    with serving("by-input.db") as served:
        expect("what was answered is there", served.once(LIST), [listing(["acme", "beta"])])


def at_the_door():
    """Those that wait at the door when its input ends, more than there are places, are served."""
    with listening("at-the-door") as served:
        served.process.send_signal(signal.SIGSTOP)
        with clients_of(served, PLACES + WAITING) as clients:
            for client in clients:
                client.send(ASK)
            served.process.stdin.close()
            served.process.send_signal(signal.SIGCONT)
            expect("asks of those that waited", [client.reply() for client in clients], [PERMIT] * (PLACES + WAITING))
            expect("nothing more", [client.all() for client in clients], [b""] * (PLACES + WAITING))
        served.process.stdin = None
        expect("the end", served.ended(), (b"", b"", 0))


def half_a_message():
    """Half a message, for whose rest no limit is set, doesn't keep the program from ending."""
    with listening("half-a-message", PDPD_MESSAGE="0") as served, served.client() as client:
        client.send(ASK[:-1])
        time.sleep(0.3)
        served.process.stdin.close()
        expect("it is waited for", client.is_silent(8), True)
        expect("and not for ever", client.is_silent(6), False)
        client.close()
        served.process.stdin = None
        expect("the end", served.ended()[2], 0)


def by_terminal():
    """The end of a terminal, which is typed by ^D at the beginning of a line, ends the program; other lines don't, also
    if several are there at once."""
    path, (terminal, its_end) = folder / "by-terminal.db", os.openpty()
    address = f"127.0.0.1:{free_port()}"
    with subprocess.Popen([PROGRAM, "listen", str(path), address, TOKEN_FILE], stdin=its_end, stdout=subprocess.PIPE,
                          stderr=subprocess.PIPE, env=environment(PDPD_END="input")) as process:
        expect("its line", process.stdout.readline(), f"listening {address}\n".encode())
        os.write(terminal, b"one\ntwo\nthree\n")
        time.sleep(0.5)
        expect("it goes on behind lines", process.poll(), None)
        os.write(terminal, b"four\nfive\n\x04")
        try:
            status = process.wait(10)
        except subprocess.TimeoutExpired:
            status = "it goes on"
            process.kill()
        expect("its status, behind ^D", status, 0)
    for held in (terminal, its_end):
        os.close(held)
    expect("the log is written back", (folder / "by-terminal.db-wal").stat().st_size, LEFT)


def by_signal():
    """A signal ends the program at any moment, and what was answered is there."""
    with listening("by-signal") as served, served.client() as client:
        expect("a change", client.ask(creates("beta")), CREATED)
        served.process.send_signal(signal.SIGTERM)
        expect("its status", served.process.wait(10), -signal.SIGTERM)
    with serving("by-signal.db") as served:
        expect("what was answered is there", served.once(LIST), [listing(["acme", "beta"])])


def written_over():
    """A log that another program wrote over isn't written back: status 4, and it isn't said that all is there."""
    with listening("written-over") as served:
        log = folder / "written-over.db-wal"
        held = log.read_bytes()
        expect("a change", served.once(creates("beta")), [CREATED])
        log.write_bytes(held)
        served.process.stdin.close()
        served.process.stdin = None
        expect("the end", served.ended(), (b"", line(folder / "written-over.db", UNCLOSED), 4))
    with serving("written-over.db") as served:
        expect("what was answered isn't there", served.once(LIST), [listing(["acme"])])


def input_unwatched():
    """Input that can't be watched: status 5. Where PDPD_END isn't set, it isn't looked at."""
    address = f"127.0.0.1:{free_port()}"
    expect_refusal("input that is no stream", ["listen", str(folder / "input.db"), address, TOKEN_FILE], 5, INPUT_BAD,
                   env=environment(PDPD_END="input"))
    words = [PROGRAM, "listen", str(folder / "input.db"), address, TOKEN_FILE]
    with subprocess.Popen(words, stdin=subprocess.DEVNULL, stdout=subprocess.PIPE, stderr=subprocess.PIPE,
                          env={name: held for name, held in environment().items() if name != "PDPD_END"}) as process:
        expect("without it the program listens", process.stdout.readline(), f"listening {address}\n".encode())
        time.sleep(0.3)
        expect("and goes on", process.poll(), None)
        process.kill()
