#!/usr/bin/env python3
"""Decision requests a second over a socket, and the processor time that one takes, of the proved `pdpd serve`; beside
nginx, which answers `return 200`, or a file.

Usage: bench/serve.py [--write] [PDPD]     PDPD: the built program (build/pdpd, which `make pdpd` makes)
                                           --write: the table is written into docs/PERFORMANCE.md too

The server has one core, and the client another: one connection, requests one at a time, each behind the reply to the
one before, by wrk. Each kind has some rounds of two seconds, all kinds in turn, so that all have the same minute; the
best round counts. Processor time is the server's own, user and system, as /proc has it to the nanosecond. System calls
are counted by strace, in a round apart. nginx has one process, and replies as many bytes as the ask of ten rules gets:
`return 200` to the same POST, and a file to a GET. nginx, wrk and strace are Debian's packages: what isn't here is
left out. Beside them stands a program of some lines of C (compiled by cc) that receives and sends the same bytes and
does nothing else: what the system takes for a request by itself. On a disturbed machine all this says little.

The asks are that of bench/asks.py, of a policy of ten rules with a match each, of which the last permits, and the
first ones of examples/company and examples/ward. One that is kept is the same bytes again; one that is worked out has
other blanks at its end each time. The policy of examples/ward names the clock, so that no response is kept. At last,
the ask of ten rules without wrk: in pieces of 100 without waiting, by a client in Python.
"""
import json
import os
import pathlib
import re
import shutil
import signal
import subprocess
import sys
import tempfile
import threading
import time

sys.dont_write_bytecode = True
TOP = os.path.dirname(os.path.dirname(os.path.abspath(__file__)))
sys.path.insert(0, f"{TOP}/tests")
from page import shown, words  # noqa: E402
from serving import OPERATOR, Client, Served, decided, free_port, message, processor_seconds_of  # noqa: E402

PROGRAM = os.path.abspath(words()[0] if words() else os.path.join(TOP, "build/pdpd"))
IDS = "urn:oasis:names:tc:xacml:1.0:"
RULES = "urn:oasis:names:tc:xacml:3.0:rule-combining-algorithm:deny-overrides"
TOKEN, ROUNDS, SECONDS, PIECE = "domain-token-1", 3, 2, 100
PERMIT = decided("Permit")
CORES = sorted(os.sched_getaffinity(0))


# ---- the asks

def rule(number):
    match = {"MatchId": IDS + "function:string-equal",
             "AttributeValue": {"DataType": "string", "Value": f"read-{number}"},
             "AttributeDesignator": {"Category": "Action", "AttributeId": IDS + "action:action-id",
                                     "DataType": "string", "MustBePresent": False}}
    return {"RuleId": str(number), "Effect": "Permit", "Target": {"AnyOf": [{"AllOf": [{"Match": [match]}]}]}}


def ten_rules():
    """The messages that make the domain of ten rules, and its ask."""
    text = json.dumps({"Policy": {"PolicyId": "urn:p", "Version": "1.0", "RuleCombiningAlgId": RULES,
                                  "Rule": [rule(number) for number in range(10)]}})
    found = [("AccessSubject", "subject:subject-id", "person-000000"),
             ("Resource", "resource:resource-id", "a-document"), ("Action", "action:action-id", "read-9")]
    body = json.dumps({"Request": {category: {"Attribute": [{"AttributeId": IDS + name, "Value": value}]}
                                   for category, name, value in found}}, separators=(",", ":"))
    made = [message("PUT", "/operator/domains/acme", OPERATOR),
            message("POST", "/operator/domains/acme/tokens", OPERATOR, json.dumps({"Role": "admin", "Token": TOKEN})),
            message("POST", "/domains/acme/pap/policies", TOKEN, text),
            message("PUT", "/domains/acme/pap/policy/urn:p/1.0/active", TOKEN),
            message("PUT", "/domains/acme/pap/root", TOKEN, json.dumps({"PolicyIdReference": {"Id": "urn:p"}}))]
    return made, message("POST", "/domains/acme/pdp", TOKEN, body)


def example(name):
    """The messages of the example's transcript up to its first ask, and that ask."""
    setup, rest = [], pathlib.Path(f"{TOP}/examples/{name}/transcript").read_bytes()
    while rest:
        heading, _, rest = rest.partition(b"\n")
        connection, _, count = map(int, heading.split())
        held, rest = rest[:count], rest[count + 1:]
        if connection == 2:
            return setup, held
        setup.append(held)
    sys.exit(f"the transcript of {name} asks nothing")


def parts(ask):
    """The path, the token and the body of an ask."""
    head, _, body = ask.decode().partition("\r\n\r\n")
    return head.split(" ")[1], re.search(r"Bearer (\S+)", head).group(1), body


def other(ask, number):
    """The ask with other blanks at its end, by the number."""
    path, token, body = parts(ask)
    return message("POST", path, token, body + "".join(" \t"[number >> place & 1] for place in range(10)))


# ---- what is measured

class Round:
    """How many requests there were, and the seconds and processor seconds that they took."""

    def __init__(self, pid, load):
        before, began = processor_seconds_of(pid), time.perf_counter()
        self.count = load()
        self.spent, self.processor = time.perf_counter() - began, processor_seconds_of(pid) - before
        if self.count == 0:
            sys.exit(f"no request was answered in {SECONDS} s: the machine is too busy, or the program too slow")


def counted_calls(pid, load):
    """How many of each system call there are for one request."""
    with tempfile.NamedTemporaryFile("r") as said:
        tracer = subprocess.Popen(["strace", "-c", "-U", "calls,name", "-o", said.name, "-p", str(pid)],
                                  stderr=subprocess.DEVNULL)
        time.sleep(0.5)
        count = load()
        tracer.send_signal(signal.SIGINT)
        tracer.wait()
        return {name: int(calls) / count
                for calls, name in re.findall(r"(?m)^ *(\d+) (\w+)$", said.read()) if name != "total"}


def in_words(calls):
    """The system calls that a request has in one of twenty times at least."""
    return ", ".join(f"{each:.1f} {name}" for name, each in sorted(calls.items(), key=lambda it: -it[1])
                     if each >= 0.05)


def print_best(name, rounds, calls=""):
    """Prints the best of the rounds, and the system calls of a request."""
    best = max(rounds, key=lambda it: it.count / it.spent)
    processor = min(it.processor / it.count for it in rounds)
    print(f"{name:44}{best.count / best.spent:12,.0f}{processor * 1e6:14.1f}   {calls}".rstrip(), flush=True)


# ---- the loads

ASKS = """wrk.method, wrk.path = "POST", "{path}"
wrk.headers["Authorization"], wrk.headers["Content-Type"] = "Bearer {token}", "application/json"
wrk.body = [==[{body}]==]
"""
OTHERS = """local number = 0
local bodies = {}
for at = 0, 999 do
    local blanks = ""
    for place = 0, 9 do blanks = blanks .. (math.floor(at / 2 ^ place) % 2 == 0 and " " or "\\t") end
    bodies[at] = wrk.body .. blanks
end
request = function()
    number = (number + 1) % 1000
    return wrk.format(nil, nil, nil, bodies[number])
end
"""


def by_wrk(port, script, folder):
    """Requests of wrk on one connection, from a core of its own."""
    path = pathlib.Path(folder) / "load.lua"

    def load():
        path.write_text(script)
        words = ["taskset", "-c", str(CORES[0]), "wrk", "-t1", "-c1", "--timeout", "30s", f"-d{SECONDS}s", "-s",
                 str(path), f"http://127.0.0.1:{port}/"]
        said = subprocess.run(words, capture_output=True, text=True, check=True).stdout
        if "Non-2xx" in said or "Socket errors" in said:
            sys.exit(said)
        return int(re.search(r"(\d+) requests in", said).group(1))
    return load


def lua(ask, others=False):
    path, token, body = parts(ask)
    return ASKS.format(path=path, token=token, body=body) + (OTHERS if others else "")


def in_pieces(port, asks):
    """Pieces of many asks; a thread of its own reads the replies."""
    def load():
        pieces = [b"".join(asks[(at + place) % len(asks)] for place in range(PIECE))
                  for at in range(0, max(len(asks), PIECE), PIECE)]
        sent, until = 0, time.perf_counter() + SECONDS
        with Client(port) as client:
            found = []

            def read():
                length = 0
                while data := client.socket.recv(1_048_576):
                    length += len(data)
                found.append(length)
            reader = threading.Thread(target=read)
            reader.start()
            while time.perf_counter() < until:
                for piece in pieces:
                    client.send(piece)
                    sent += PIECE
            client.ends_writing()
            reader.join()
        if found != [sent * len(PERMIT)]:
            sys.exit(f"{found} bytes of replies to {sent} asks")
        return sent
    return load


# ---- the servers

def on_one_core():
    os.sched_setaffinity(0, {CORES[-1]})


def nginx(port, folder, text=PERMIT.partition(b"\r\n\r\n")[2].decode()):
    """nginx with one process in the foreground; the body of its reply is that of the ask of ten rules, or this text."""
    (pathlib.Path(folder) / "reply").write_text(text)
    (pathlib.Path(folder) / "nginx.conf").write_text(f"""daemon off; master_process off; pid {folder}/pid; error_log {folder}/error.log;
events {{ worker_connections 1024; }}
http {{ access_log off; sendfile on; keepalive_requests 1000000000; default_type application/xacml+json;
  client_body_temp_path {folder}/b; proxy_temp_path {folder}/p; fastcgi_temp_path {folder}/f; uwsgi_temp_path {folder}/u; scgi_temp_path {folder}/s;
  server {{ listen 127.0.0.1:{port}; root {folder}; location = /reply {{ }} location / {{ return 200 '{text}'; }} }} }}
""")
    return subprocess.Popen(["nginx", "-c", f"{folder}/nginx.conf", "-p", folder], preexec_fn=on_one_core,
                            stdout=subprocess.DEVNULL, stderr=subprocess.DEVNULL)


BARE = """#include <arpa/inet.h>
#include <netinet/tcp.h>
#include <stdlib.h>
#include <string.h>
int main(int count, char **words) {
  static char held[65536];
  struct sockaddr_in at = { .sin_family = AF_INET, .sin_port = htons(atoi(words[1])), .sin_addr = { htonl(INADDR_LOOPBACK) } };
  int yes = 1, door = socket(AF_INET, SOCK_STREAM, 0);
  setsockopt(door, SOL_SOCKET, SO_REUSEADDR, &yes, sizeof yes);
  if (bind(door, (void *)&at, sizeof at) || listen(door, 8)) return 1;
  for (;;) {
    int one = accept(door, 0, 0);
    setsockopt(one, IPPROTO_TCP, TCP_NODELAY, &yes, sizeof yes);
    while (recv(one, held, sizeof held, 0) > 0) send(one, words[2], strlen(words[2]), 0);
    close(one);
  }
}
"""


def bare(port, folder):
    """The program that receives and sends, and does nothing else; each request comes in one piece."""
    (pathlib.Path(folder) / "bare.c").write_text(BARE)
    subprocess.run(["cc", "-O2", "-include", "unistd.h", "-o", f"{folder}/bare", f"{folder}/bare.c"], check=True)
    return subprocess.Popen([f"{folder}/bare", str(port), PERMIT.decode()], preexec_fn=on_one_core)


def measure(kinds):
    """Some rounds of each kind, all kinds in turn, and then its system calls."""
    rounds = {name: [] for name, _, _ in kinds}
    for _ in range(ROUNDS):
        for name, pid, load in kinds:
            rounds[name].append(Round(pid, load))
    for name, pid, load in kinds:
        print_best(name, rounds[name], in_words(counted_calls(pid, load)) if shutil.which("strace") else "")


def start_server(start, folder):
    """The process that is started on a free port, once it answers there, and the port."""
    port = free_port()
    server = start(port, folder)
    for _ in range(300):
        try:
            Client(port).close()
            break
        except ConnectionRefusedError:
            time.sleep(0.1)
    return server, port


def by_others(ask, folder, missing):
    """The kinds of the servers beside ours, and their processes."""
    kinds, servers = [], []
    if "nginx" not in missing:
        server, port = start_server(nginx, folder)
        kinds += [("nginx, `return 200`", server.pid, by_wrk(port, lua(ask), folder)),
                  ("nginx, a file", server.pid, by_wrk(port, 'wrk.path = "/reply"\n', folder))]
        servers.append(server)
    if "cc" not in missing:
        server, port = start_server(bare, folder)
        kinds.append(("receives and sends, and nothing else", server.pid, by_wrk(port, lua(ask), folder)))
        servers.append(server)
    return kinds, servers


def main():
    if not os.path.isfile(PROGRAM):
        sys.exit(f"bench/serve.py: {PROGRAM} is not there: `make pdpd` builds it")
    missing = [name for name in ("wrk", "nginx", "strace", "cc") if not shutil.which(name)]
    if missing:
        print(f"not here, and left out: {', '.join(missing)} (Debian's packages of these names; cc is in gcc)")
    print(f"{'one connection':44}{'decisions/s':>12}{'us each':>14}   system calls each")
    with tempfile.TemporaryDirectory() as folder:
        token = pathlib.Path(folder) / "token"
        token.write_text(f"{OPERATOR}\n")
        with Served(PROGRAM, f"{folder}/bench.db", str(token), preexec_fn=on_one_core) as served:
            pid, port = served.process.pid, served.port
            asks = {}
            for name, (setup, ask) in {"ten rules": ten_rules(), "company": example("company"),
                                       "ward": example("ward")}.items():
                served.once(*setup)
                asks[name] = ask
            assert served.once(asks["ten rules"], other(asks["ten rules"], 1)) == [PERMIT, PERMIT]
            kinds = [(f"{name}, {how}", pid, by_wrk(port, lua(ask, others), folder)) for name, ask in asks.items()
                     for how, others in (("kept", False), ("worked out", True)) if (name, how) != ("ward", "kept")]
            beside, servers = by_others(asks["ten rules"], folder, missing)
            try:
                if "wrk" not in missing:
                    measure(kinds + beside)
            finally:
                for server in servers:
                    server.terminate()
                    server.wait()
            each = [other(asks["ten rules"], number) for number in range(1000)]
            alone = [("ten rules, kept, in pieces of 100", [asks["ten rules"]]),
                     ("ten rules, worked out, in pieces of 100", each)]
            for name, held in alone:
                print_best(name, [Round(pid, in_pieces(port, held)) for _ in range(ROUNDS)])


if __name__ == "__main__":
    sys.exit(shown("serve.py", main))
