"""By hand: how many decisions a second one machine of three gives, and all three, and how long a change takes. The
machines are namespaces of one computer, and wrk has a share of it too."""
import concurrent.futures
import json
import os
import re
import statistics
import subprocess
import time

from . import chaos
from .three import NAMES, address

SECONDS, CONNECTIONS, CHANGES, CLIENTS = 8, 8, 60, 16


def asking(three):
    """The file by which wrk asks for a decision again and again."""
    body = (chaos.WARD / "request-alice.json").read_text().replace("]]", "] ]")
    place = three.folder / "ask.lua"
    place.write_text(f'wrk.method, wrk.body = "POST", [[{body}]]\nwrk.headers["Content-Type"] = "application/json"\n'
                     f'wrk.headers["Authorization"] = "Bearer {chaos.ASKS}"\n')
    return place


def decisions(three, names):
    """How many decisions a second these machines give together; an error where any was none."""
    at = "/domains/ward/pdp"
    words = ["wrk", "-t1", f"-c{CONNECTIONS}", f"-d{SECONDS}", "-s", str(asking(three))]
    ran = [subprocess.Popen([*words, f"http://{address(name)}{at}"], stdout=subprocess.PIPE, text=True)
           for name in names]
    said = [one.communicate()[0] for one in ran]
    if wrong := [one for one in said if "Non-2xx" in one or "Socket errors" in one]:
        raise RuntimeError(wrong[0])
    return sum(float(re.search(r"Requests/sec: +([\d.]+)", one)[1]) for one in said)


def change(client):
    """How long each of some changes took, one after another, in milliseconds."""
    found, rows = [], (chaos.WARD / "rows.json").read_text()
    for number in range(CHANGES):
        began = time.monotonic()
        if client.sent(NAMES[number % 3], "PUT", "/domains/ward/pip", chaos.ADMIN, rows)[0] == 200:
            found.append(1000 * (time.monotonic() - began))
    return sorted(found)


def crowd(client):
    """How many changes a second so many clients make together, at all machines, each in a domain of its own."""
    names, rows = [f"crowd-{number}" for number in range(CLIENTS)], (chaos.WARD / "rows.json").read_text()
    for name in names:
        at = f"/operator/domains/{name}"
        client.sent("a", "PUT", at, client.operator)
        client.sent("a", "POST", f"{at}/tokens", client.operator, json.dumps({"Role": "admin", "Token": chaos.ADMIN}))
    made, end = [0] * CLIENTS, time.monotonic() + SECONDS

    def work(number):
        while time.monotonic() < end:
            at = f"/domains/{names[number]}/pip"
            made[number] += client.sent(NAMES[number % 3], "PUT", at, chaos.ADMIN, rows)[0] == 200
    with concurrent.futures.ThreadPoolExecutor(CLIENTS) as pool:
        list(pool.map(work, range(CLIENTS)))
    return sum(made) / SECONDS


def figures(three, client, checks):
    times = change(client)
    checks.say(f"{CLIENTS} clients: {crowd(client):.0f} changes a second, load {os.getloadavg()[0]:.1f}")
    checks.expect("changes", len(times), CHANGES)
    median, most = statistics.median(times), times[len(times) * 9 // 10]
    checks.say(f"a change: median {median:.0f} ms, 90%: {most:.0f} ms, one client")
    for names in ("a", "abc", "a", "abc"):
        found = decisions(three, names)
        checks.say(f"{len(names)} machine(s): {found:.0f} decisions a second, load {os.getloadavg()[0]:.1f}")
