#!/usr/bin/env python3
"""What a check of an enforcement point (clients/) adds to a request: nginx and HAProxy before a server, with a check
and without, by 1 and 64 clients.

usage: bench/guards.py [--write] [PROGRAM]   the program, or that which is proved and built of these very sources; with
                                             --write the table is written into docs/PERFORMANCE.md too

It takes nginx, libnginx-mod-http-js, haproxy and wrk. The protected server is nginx, which replies `return 200`. Five
rounds ask each kind in turn for two seconds, and the median of the rounds is told. Each check is one decision by a
policy of one rule, over kept connections to a HAProxy that leads to one `pdpd listen`, by kept connections too; every
request is permitted, which is looked at. Clients, proxies and servers share the processors with whatever else runs: the
load of the machine is told.
"""
import contextlib
import os
import pathlib
import re
import shutil
import statistics
import subprocess
import sys
import tempfile

sys.dont_write_bytecode = True
TOP = pathlib.Path(__file__).resolve().parent.parent
sys.path[:0] = [str(TOP / "bench"), str(TOP / "tests")]
import checks  # noqa: E402
from page import Machine, shown, words  # noqa: E402

PROGRAM = os.path.abspath(words()[0]) if words() else checks.program_named([])
sys.argv[1:] = [PROGRAM, "--listen", *(word for word in sys.argv[1:] if word == "--write")]

from client_parts import guarded, servers, shared  # noqa: E402
from serving import free_port  # noqa: E402

ROUNDS, SECONDS, CLIENTS, KEPT = 5, 2, (1, 64), 64
ORIGIN = """daemon off; worker_processes 1; pid {made}/origin.pid; error_log {made}/origin.log; {user}
events {{ worker_connections 1024; }}
http {{ access_log off; client_body_temp_path {made}/6; proxy_temp_path {made}/7; fastcgi_temp_path {made}/8;
    uwsgi_temp_path {made}/9; scgi_temp_path {made}/10; keepalive_requests 1000000;
    server {{ listen 127.0.0.1:{origin}; location / {{ return 200 'there'; }} }}
    server {{ listen 127.0.0.1:{plain}; location / {{ proxy_pass http://127.0.0.1:{origin}; }} }} }}
"""
# before the program, of whose 64 places some are left, and before the protected server without a check
HAPROXY = """
global
    nbthread 2
defaults
    mode http
    timeout client 30s
    timeout connect 5s
    timeout queue 10s
    timeout server 30s
frontend front
    bind 127.0.0.1:{front}
    default_backend shard
backend shard
    http-reuse always
    server pdpd 127.0.0.1:{pdpd} maxconn 60
frontend plain
    bind 127.0.0.1:{plain}
    default_backend origin
backend origin
    server origin 127.0.0.1:{origin}
"""
SHOWN = {"nginx": "nginx, njs", "haproxy": "HAProxy, Lua"}


class Address:
    """What stands for a server that is protected."""

    def __init__(self, port):
        self.url = f"http://127.0.0.1:{port}"


@contextlib.contextmanager
def running(*command):
    process = subprocess.Popen(command, stdin=subprocess.DEVNULL, stdout=subprocess.DEVNULL, stderr=subprocess.DEVNULL)
    try:
        yield process
    finally:
        process.terminate()
        process.wait(30)


def milliseconds(text, unit):
    return float(text) * {"us": 0.001, "ms": 1, "s": 1000}[unit]


def asked(port, clients):
    """Requests a second, p50 and p99 in milliseconds, by so many clients."""
    command = ["wrk", "-t", str(min(clients, 2)), "-c", str(clients), "-d", f"{SECONDS}s", "--latency", "--timeout",
               "20s", "-H", "X-User: ann", f"http://127.0.0.1:{port}/open/x"]
    said = subprocess.run(command, capture_output=True, text=True, check=True).stdout
    if found := re.search("Non-2xx.*|Socket errors.*", said):
        sys.exit(f"bench/guards.py: not every request is permitted: {found[0]}")
    p50, p99 = (milliseconds(*re.search(rf"{part}%\s+([0-9.]+)(us|ms|s)\b", said).groups()) for part in (50, 99))
    return float(re.search(r"Requests/sec:\s+([0-9.]+)", said)[1]), p50, p99


@contextlib.contextmanager
def kinds(made, acme):
    """The port of each kind, by what it is and whether it checks."""
    origin, front, plain, plain_nginx = (free_port() for _ in range(4))
    user = "user root;" if os.getuid() == 0 else ""
    (made / "origin.conf").write_text(ORIGIN.format(made=made, user=user, origin=origin, plain=plain_nginx))
    (made / "front.cfg").write_text(HAPROXY.format(front=front, pdpd=acme.served.port, plain=plain, origin=origin))
    with contextlib.ExitStack() as stack:
        stack.enter_context(running("nginx", "-p", made, "-c", made / "origin.conf", "-e", "stderr"))
        stack.enter_context(running("haproxy", "-db", "-f", made / "front.cfg"))
        found = {("nginx", False): plain_nginx, ("haproxy", False): plain}
        for point in guarded.points():
            folder = made / point.name
            folder.mkdir()
            started = stack.enter_context(point(f"http://127.0.0.1:{front}", Address(origin), folder,
                                                KeptConnections=KEPT))
            found[point.name, True] = started.port
        if shared.checks.failed or not all(servers.until(lambda port=port: answers(port)) for port in found.values()):
            sys.exit("bench/guards.py: not all of it starts")
        yield found


def answers(port):
    return subprocess.run(["curl", "-sf", "-o", "/dev/null", "-H", "X-User: ann", f"http://127.0.0.1:{port}/open/x"],
                          check=False).returncode == 0


def table():
    """Asks all kinds in turn, and prints the medians."""
    machine = Machine()
    with tempfile.TemporaryDirectory() as made, shared.Acme(idle=30) as acme:
        acme.decides_by(guarded.reads("ann"))
        with kinds(pathlib.Path(made), acme) as ports:
            found = {}
            for _ in range(ROUNDS):
                for clients in CLIENTS:
                    for kind, port in ports.items():
                        found.setdefault((*kind, clients), []).append(asked(port, clients))
    print(f"{'':28}{'clients':>8}{'requests/s':>12}{'p50, ms':>10}{'p99, ms':>10}")
    for name in dict.fromkeys(name for name, _ in ports):
        for clients in CLIENTS:
            rows = [[statistics.median(column) for column in zip(*found[name, checked, clients])]
                    for checked in (False, True)]
            for what, (rate, p50, p99) in zip(("no check", "a check"), rows):
                print(f"{SHOWN[name] + ', ' + what:28}{clients:>8}{rate:>12,.0f}{p50:>10.2f}{p99:>10.2f}")
            print(f"{'  what the check adds':28}{clients:>8}{'':>12}{rows[1][1] - rows[0][1]:>10.2f}"
                  f"{rows[1][2] - rows[0][2]:>10.2f}")
    print(machine.told())
    return 0


def main():
    lacks = [what for what, there in (("wrk", shutil.which("wrk")), ("curl", shutil.which("curl")),
                                      ("nginx libnginx-mod-http-js", guarded.Nginx.is_there()),
                                      ("haproxy", guarded.Haproxy.is_there())) if not there]
    if lacks:
        print(f"bench/guards.py: missing: apt-get install {' '.join(lacks)}")
        return 2
    if not checks.is_program("bench/guards.py", PROGRAM):
        return 2
    return shown("guards.py", table)


if __name__ == "__main__":
    sys.exit(main())
