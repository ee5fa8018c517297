#!/usr/bin/env python3
"""Decisions a second, and how long they wait, of the proved `pdpd listen` by 1, 8 and 64 connections and by 1,000
clients through HAProxy, beside `pdpd serve`, nginx and a loop in C.

Usage: bench/listen.py [--write] [PDPD]     PDPD: the built program (build/pdpd, which `make pdpd` makes)
                                            --write: the table is written into docs/PERFORMANCE.md too

The decision is that of bench/serve.py by ten rules, the same bytes each time, so that its response is kept. nginx has
one process and replies `return 200` to the same request, by as many bytes. bench/bare.c (compiled by cc) receives it
and sends such a reply over epoll, and does nothing else: what the system takes by itself. `pdpd serve` takes one
connection after another, so one connection asks it, or HAProxy, which sends it one message at a time.

The server has a processor of its own. The client is wrk, in C; its script in Lua is read once, before the run. It has
two other processors, with a thread on each; behind HAProxy one, and HAProxy, of one thread, another. Each of five runs
asks each kind in turn for two seconds, and the medians are told: decisions a second, half of the times that wrk waited
and all but one in a hundred of them, the microseconds of the server's processor for a decision, and how much of its
processor the server took. Where that is less than all of it, the server waited for the client, or for HAProxy, or the
host of a virtual machine took the processor. System calls are counted by strace, in a run apart, where nothing stands
between.

Memory is what another `pdpd listen` holds (VmRSS), over one domain: with 64 connections, each of which has asked once;
with 64 messages of the greatest size, of each of which the last byte hasn't come; and with 64 replies of 512 KiB that
nobody takes. Behind the table stand the aims; a missed one ends the script with status 1. wrk, nginx, haproxy, strace
and cc (gcc) are Debian's packages: without wrk nothing is measured, and what else isn't here is left out.
"""
import contextlib
import os
import pathlib
import re
import shutil
import socket
import statistics
import subprocess
import sys
import tempfile
import time
from typing import NamedTuple

sys.dont_write_bytecode = True
# (it also makes what tests share importable)
from serve import CORES, PERMIT, PROGRAM, TOKEN, counted_calls, in_words, lua, nginx, on_one_core, parts, \
    start_server, ten_rules
from page import Machine, shown
from sent import message, rows_body
from serving import OPERATOR, Client, Served, processor_seconds_of

HERE = pathlib.Path(__file__).resolve().parent
ROUNDS, SECONDS, SECONDS_OF_CALLS, CLIENTS, PLACES, PROXIED = 5, 2, 1, (1, 8, 64), 64, 1_000
# the processors of the client, where nothing stands between; else the client's, and that of HAProxy
TWO, CLIENT, BETWEEN = CORES[:-1][:2] or CORES, CORES[:1], CORES[1:-1][:1] or CORES
SERVE, LISTEN, NGINX, BARE = "pdpd serve", "pdpd listen", "nginx, `return 200`", "a bare loop in C"
# the greatest body of a message; and how many replies of that size are asked for, of which the system holds some
LARGEST, ASKED = 524_288, 50
HAPROXY = """global
    maxconn 4000
    nbthread 1
defaults
    mode http
    timeout connect 5s
    timeout client 60s
    timeout server 60s
    timeout queue 60s
    http-reuse always
frontend all
    bind 127.0.0.1:{front}
    default_backend server
backend server
    server one 127.0.0.1:{port} maxconn {most}
"""


class Kind(NamedTuple):
    """A server, how many clients ask it at once, the process that answers, and the port at which it is asked."""
    server: str
    clients: int
    pid: int
    port: int


class Run(NamedTuple):
    """What one run of a kind found; `faults` is what wrk says of requests that went wrong."""
    rate: float
    p50: float
    p99: float
    micros: float
    count: int
    faults: str


# ---- what is measured

def milliseconds(said, share):
    """The time within which that share of the requests was answered, as wrk says it."""
    number, unit = re.search(rf"\n +{share}% +([0-9.]+)(us|ms|s|m)\n", said).groups()
    return float(number) * {"us": 0.001, "ms": 1, "s": 1_000, "m": 60_000}[unit]


def asked(kind, script, seconds=SECONDS):
    """One run of a kind."""
    cores = CLIENT if kind.clients == 1 or kind.clients > PLACES else TWO
    command = ["taskset", "-c", ",".join(map(str, cores)), "wrk", f"-t{len(cores) if kind.clients > 1 else 1}",
               f"-c{kind.clients}", f"-d{seconds}s", "--latency", "--timeout", "30s", "-s", script,
               f"http://127.0.0.1:{kind.port}/"]
    before = processor_seconds_of(kind.pid)
    said = subprocess.run(command, capture_output=True, text=True, check=True).stdout
    spent = processor_seconds_of(kind.pid) - before
    count = int(re.search(r"(\d+) requests in", said)[1])
    if not count:
        sys.exit(f"bench/listen.py: {kind.server} answers nothing to {kind.clients} in {seconds} s:\n{said}")
    faults = ", ".join(re.findall("Non-2xx.*|Socket errors.*", said))
    return Run(float(re.search(r"Requests/sec: +([0-9.]+)", said)[1]), milliseconds(said, 50), milliseconds(said, 99),
               spent / count * 1e6, count, faults)


def measured(kinds, script):
    """The runs of each kind, all kinds in turn; and the system calls of a request, of those that have no proxy."""
    runs, calls = {}, {}
    for _ in range(ROUNDS):
        for kind in kinds:
            runs.setdefault(kind, []).append(asked(kind, script))
    for kind in kinds:
        if kind.clients <= PLACES and shutil.which("strace"):
            calls[kind] = counted_calls(kind.pid, lambda kind=kind: asked(kind, script, SECONDS_OF_CALLS).count)
    return runs, calls


def medians(runs):
    """The medians of what runs found, each by itself."""
    return Run(*(statistics.median(column) for column in list(zip(*runs))[:5]),
               "; ".join(sorted({run.faults for run in runs if run.faults})))


def print_kinds(found, calls):
    print(f"{'':42}{'clients':>8}{'a second':>11}{'p50, ms':>9}{'p99, ms':>9}{'us':>7}{'busy':>6}   system calls")
    for kind, run in found.items():
        many = f"{kind.clients:,}"
        line = (f"{kind.server:42}{many:>8}{run.rate:>11,.0f}{run.p50:>9.2f}{run.p99:>9.2f}{run.micros:>7.1f}"
                f"{run.rate * run.micros / 1e4:>5.0f}%   {in_words(calls.get(kind, {}))}{run.faults}")
        print(line.rstrip(), flush=True)


# ---- aims

def aims(found, calls):
    """What is aimed at: its name, what was found, and the least and the most that is wanted."""
    run = {(kind.server, kind.clients): each for kind, each in found.items()}
    of = {(kind.server, kind.clients): sum(each.values()) for kind, each in calls.items()}
    at_once, alone = (LISTEN, 64), (LISTEN, 1)
    yield "processor by 64, in that of serve by one", run[at_once].micros / run[SERVE, 1].micros, 0, 1.05
    for server, least in ((NGINX, 1.15), (BARE, 0.75)):
        if (server, 64) in run:
            yield f"rate by 64, in that of {server}", run[at_once].rate / run[server, 64].rate, least, None
    if of:
        yield "system calls by 64", of[at_once], 0, 2.1
        yield "system calls by one", of[alone], 0, 3.0


def print_aims(found, calls):
    """Prints the aims; whether one is missed."""
    missed = False
    print(f"\n{'aims':64}{'found':>8}   wanted")
    for what, value, least, most in aims(found, calls):
        # as it is shown
        fails = not least <= round(value, 2) <= (most or value + 1)
        wanted = f"at most {most:.2f}" if most else f"at least {least:.2f}"
        print(f"{what:64}{value:>8.2f}   {wanted}{', missed' if fails else ''}")
        missed |= fails
    return missed


# ---- memory

def memory_of(served):
    """The memory that the program holds, in MiB, once it holds no more than half a second before."""
    held = []
    while len(held) < 6 or held[-1] != held[-6]:
        with open(f"/proc/{served.process.pid}/status", encoding="ascii") as lines:
            held.append(int(next(line for line in lines if line.startswith("VmRSS")).split()[1]) / 1_024)
        time.sleep(0.1)
    return held[-1]


def with_clients(served, what):
    """The memory of the program once each of as many clients as it has places has done something."""
    with contextlib.ExitStack() as stack:
        for _ in range(PLACES):
            client = stack.enter_context(Client(served.port))
            client.socket.setsockopt(socket.SOL_SOCKET, socket.SO_RCVBUF, 4_096)
            what(client)
        return memory_of(served)


def print_memory(folder, token, ask):
    """Prints what memory the program holds."""
    rows = message("PUT", "/domains/acme/pip", TOKEN, rows_body(LARGEST))
    shows = message("GET", "/domains/acme/pip", TOKEN)

    def fill(client):
        client.send(rows[:-1])

    found = []
    for what, before in ((lambda client: client.ask(ask), []), (fill, []),
                         (lambda client: client.send(shows * ASKED), [rows])):
        # each of a program of its own, since memory that was freed isn't all given back
        with Served(PROGRAM, f"{folder}/memory-{len(found)}.db", token, command="listen") as served:
            served.once(*ten_rules()[0], *before)
            found += [memory_of(served), with_clients(served, what)]
    print(f"memory of {LISTEN}, MiB: {found[0]:.1f}, with 64 idle {found[1]:.1f}, with 64 messages of 512 KiB but for "
          f"a byte {found[3]:.1f};\nover 512 KiB of rows {found[4]:.1f}, with 64 replies of them that nobody takes "
          f"{found[5]:.1f}")


# ---- the servers

def as_long(port, ask):
    """What starts an nginx whose reply is as long as pdpd's, by one that runs: its head is longer, its body shorter."""
    body = PERMIT.partition(b"\r\n\r\n")[2].decode()
    with Client(port) as client:
        more = len(client.ask(ask.replace(b"\r\n", b"\r\nHost: pdp.example\r\n", 1))) - len(PERMIT)
    return lambda port, folder: nginx(port, folder, body[:len(body) - more])


def bare(port, folder, body):
    """The loop in C."""
    subprocess.run(["cc", "-O2", "-o", f"{folder}/bare", HERE / "bare.c"], check=True)
    return subprocess.Popen([f"{folder}/bare", str(port), body, PERMIT], preexec_fn=on_one_core)


def between(server, port, folder):
    """HAProxy before a port, on processors of its own."""
    def start(front, _):
        config = pathlib.Path(folder) / f"{port}.cfg"
        # (it has some more connections than that, and pdpd ends one for the 65th)
        most = 1 if server == SERVE else 30
        config.write_text(HAPROXY.format(front=front, port=port, most=most), encoding="ascii")
        return subprocess.Popen(["haproxy", "-db", "-f", config], stdout=subprocess.DEVNULL, stderr=subprocess.DEVNULL,
                                preexec_fn=lambda: os.sched_setaffinity(0, BETWEEN))
    return start


@contextlib.contextmanager
def started(start, folder):
    """A server that runs until the end of the `with` statement, and its port."""
    process, port = start_server(start, folder)
    try:
        yield process.pid, port
    finally:
        process.terminate()
        process.wait()


@contextlib.contextmanager
def servers(folder, token, ask, setup):
    """Each server with the process that answers and its port: one for the client and one for HAProxy."""
    with contextlib.ExitStack() as stack:
        found = {}
        for server, command in ((SERVE, "serve"), (LISTEN, "listen")):
            for number in range(2):
                served = stack.enter_context(Served(PROGRAM, f"{folder}/{command}-{number}.db", token, command=command,
                                                    preexec_fn=on_one_core))
                served.once(*setup)
                if served.once(ask, ask) != [PERMIT, PERMIT]:
                    sys.exit(f"bench/listen.py: {server} doesn't answer as it has to")
                found.setdefault(server, []).append((served.process.pid, served.port))
        if shutil.which("nginx"):
            with started(nginx, folder) as (_, port):
                start = as_long(port, ask)
            found[NGINX] = [stack.enter_context(started(start, folder))] * 2
        if shutil.which("cc"):
            body = parts(ask)[2]
            found[BARE] = [stack.enter_context(started(lambda port, folder: bare(port, folder, body), folder))] * 2
        yield found


def kinds_of(found, folder, stack):
    """All kinds that are asked: servers by themselves, and behind a HAProxy each."""
    for server, ((pid, port), _) in found.items():
        for clients in CLIENTS if server != SERVE else (1,):
            yield Kind(server, clients, pid, port)
    for server, (_, (pid, port)) in found.items():
        if shutil.which("haproxy"):
            _, front = stack.enter_context(started(between(server, port, folder), folder))
            yield Kind(f"{server}, HAProxy", PROXIED, pid, front)


def table():
    """Prints all lines; the status of the script."""
    machine = Machine()
    setup, ask = ten_rules()
    with tempfile.TemporaryDirectory() as folder:
        token, script = pathlib.Path(folder) / "token", pathlib.Path(folder) / "load.lua"
        token.write_text(f"{OPERATOR}\n")
        script.write_text(lua(ask))
        with servers(folder, str(token), ask, setup) as found, contextlib.ExitStack() as stack:
            runs, calls = measured(list(kinds_of(found, folder, stack)), script)
        found = {kind: medians(each) for kind, each in runs.items()}
        print_kinds(found, calls)
        missed = print_aims(found, calls)
        print_memory(folder, str(token), ask)
    print(machine.told())
    return 1 if missed or any(run.faults for run in found.values()) else 0


def main():
    if not os.path.isfile(PROGRAM):
        sys.exit(f"bench/listen.py: {PROGRAM} is not there: `make pdpd` builds it")
    missing = [name for name in ("wrk", "nginx", "haproxy", "strace", "cc") if not shutil.which(name)]
    if missing:
        print(f"not here, and left out: {', '.join(missing)} (Debian's packages of these names; cc is in gcc)")
    if "wrk" in missing:
        return 2
    return shown("listen.py", table)


if __name__ == "__main__":
    sys.exit(main())
