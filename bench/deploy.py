#!/usr/bin/env python3
"""Decisions a second and their times through what deploy/ sets up: 1, 2 and 4 shards, 1, 100 and 1,000 clients.

usage: bench/deploy.py [--write] [PROGRAM]   the program, or that which is proved and built of these very sources;
                                             with --write the table is written into docs/PERFORMANCE.md too

In namespaces of its own, as tests/deploy.py, and with what that one wants, and nginx. The asks are of
examples/ward, whose policy names the clock, so that each response is worked out; 16 domains of it are
asked in turn, by wrk, for four seconds each, at a plain port, once over TLS, and once with the log of
decisions. Beside them stand one shard with other settings, and nginx, which replies `return 200`, in the place
of shard 0 behind the same HAProxy. All clients have one address, so OF_SOURCE is 0. Server, proxy and clients
have the same cores, and share them with whatever else runs: the load of the machine is told.
"""
import json
import os
import pathlib
import subprocess
import sys
import time

sys.dont_write_bytecode = True
TOP = pathlib.Path(__file__).resolve().parent.parent
sys.path.insert(0, str(TOP / "tests"))

from deployed import clients, machine  # noqa: E402
from page import shown, words  # noqa: E402
from serving import message  # noqa: E402

WARD, DOMAINS, SECONDS, CLIENTS = TOP / "examples" / "ward", 16, 4, (1, 100, 1000)
REPLY = '{"Response":[{"Decision":"Deny","Status":{"StatusCode":{"Value":"urn:oasis:names:tc:xacml:1.0:status:ok"}}}]}'


def read(file):
    return (WARD / file).read_text()


def ward(operator, name):
    """Makes a domain of the ward's example, and gives its ask."""
    token, at = f"{name}-token-1", f"/domains/{name}"
    root = json.dumps({"PolicyIdReference": {"Id": "urn:example:ward:records"}})
    for data in (operator.creates(name),
                 operator.message("POST", f"/{name}/tokens", json.dumps({"Role": "admin", "Token": token})),
                 message("POST", f"{at}/pap/policies", token, read("policy.json")),
                 message("PUT", f"{at}/pap/policy/urn:example:ward:records/1.0/active", token),
                 message("PUT", f"{at}/pap/root", token, root), message("PUT", f"{at}/pip", token, read("rows.json"))):
        if clients.status(clients.once(data)) not in (200, 201):
            sys.exit(f"bench/deploy.py: {data[:60]} isn't answered with success")
    return message("POST", f"{at}/pdp", token, read("request-alice.json"))


def print_line(what, count, found):
    note = f"   {found['bad']} errors {found['errors']}" if found["bad"] or found["errors"] else ""
    print(f"{what:36}{count:>8}{found['rate']:>12,.0f}{found['p50']:>10.2f}{found['p99']:>10.2f}{note}", flush=True)


def nginx(folder):
    """nginx in the place of shard 0."""
    (folder / "nginx.conf").write_text(f"""daemon off; master_process off; pid {folder}/pid; error_log {folder}/error.log;
events {{ worker_connections 512; }}
http {{ access_log off; default_type application/xacml+json; client_body_temp_path {folder}/b; proxy_temp_path {folder}/p;
  fastcgi_temp_path {folder}/f; uwsgi_temp_path {folder}/u; scgi_temp_path {folder}/s;
  server {{ listen unix:{machine.place(0)}; location / {{ return 200 '{REPLY}'; }} }} }}
""")
    return subprocess.Popen(["nginx", "-c", f"{folder}/nginx.conf", "-p", str(folder)], stdout=subprocess.DEVNULL,
                            stderr=subprocess.DEVNULL)


def domains_over(made, count):
    """Has so many shards serve all domains, and gives the script of their asks."""
    pathlib.Path("/etc/haproxy/haproxy.cfg").unlink()
    made.set(SHARDS=count, PLAIN_BIND=f"127.0.0.1:{machine.PLAIN}", OF_SOURCE=0)
    made.operator.clear()
    return clients.script_of(made.folder / "asks.lua", [ward(made.operator, f"w{number}") for number in range(DOMAINS)])


def with_decisions(made, measured):
    """Measures with the log of decisions."""
    machine.sh("useradd --system --home-dir /nonexistent --shell /usr/sbin/nologin pdpd-replica")
    made.set(DECISIONS=1)
    machine.shards("services")
    measured()
    made.set(DECISIONS=0)
    machine.sh("sv down /etc/service/pdpd-decisions")


def measure(made):
    """All kinds, one after another."""
    for count in (1, 2, 4):
        script = domains_over(made, count)
        for many in CLIENTS:
            what = f"{count} shard{'s' if count > 1 else ''} behind HAProxy"
            print_line(what, many, clients.wrk(script, many, SECONDS))
    print_line("4 shards, over TLS", 100, clients.wrk(script, 100, SECONDS, "https://localhost"))
    with_decisions(made, lambda: print_line("4 shards, DECISIONS=1", 100, clients.wrk(script, 100, SECONDS)))
    script = domains_over(made, 1)
    for value in (1, 4, 8):
        made.set(MAXCONN=value)
        print_line(f"1 shard, MAXCONN={value}", 100, clients.wrk(script, 100, SECONDS))
    # (the watchdog has HAProxy send nothing to another user's program in a shard's place)
    machine.sh("sv down /etc/service/pdpd-watchdog /etc/service/pdpd-0 && sleep 1")
    server = nginx(made.folder)
    time.sleep(1)
    for many in CLIENTS:
        print_line("nginx, `return 200`, behind HAProxy", many, clients.wrk(script, many, SECONDS))
    server.terminate()
    server.wait()


def table(made):
    """Prints all lines, between the loads of the machine before and behind."""
    print(f"load of the machine before: {os.getloadavg()[0]:.1f}, on {os.cpu_count()} cores")
    print(f"{'':36}{'clients':>8}{'decisions/s':>12}{'p50, ms':>10}{'p99, ms':>10}")
    measure(made)
    print(f"load of the machine behind: {os.getloadavg()[0]:.1f}")


def main():
    program = os.path.abspath(words()[0]) if words() else None
    machine.WANTED["nginx"] = "nginx"
    if lacks := list(machine.missing(program)):
        print("\n".join(f"bench/deploy.py: missing: {what}" for what in lacks))
        return 2
    if machine.INSIDE not in os.environ:
        return machine.enter([os.path.abspath(__file__), *sys.argv[1:]])
    made = machine.Machine(os.environ[machine.INSIDE])
    made.pack(program)
    for _ in made.walk():
        pass
    made.operator = clients.Operator(pathlib.Path("/etc/pdpd/token").read_text().strip())
    shown("deploy.py", lambda: table(made))
    made.end()
    return 0


if __name__ == "__main__":
    sys.exit(main())
