"""Figures as Debian's Prometheus reads them, each alert made to fire, and whether decisions are answered."""
import collections
import contextlib
import json
import pathlib
import re
import subprocess
import time
import urllib.error
import urllib.parse
import urllib.request

from checks import Between

from . import audit, drawn
from .clients import Load
from .machine import LIBRARY, PAGE, SETTINGS, TOP, as_user, pid, sh, shards, wait_until

INSIDE = "http://127.0.0.1:405"
PROMETHEUS = "http://127.0.0.1:9090"
DECISIONS = pathlib.Path("/var/log/pdpd-decisions")
VERIFIED = DECISIONS / "verified"
# the dashboard of the last run
DRAWN = TOP / "build" / "dashboard.svg"
NIGHTLY = f"setpriv --reuid=pdpd-replica --regid=pdpd-replica --clear-groups {LIBRARY}/pdpd-replica-run verify"


def status_of(path):
    try:
        with urllib.request.urlopen(INSIDE + path, timeout=30) as reply:
            return reply.status
    except urllib.error.HTTPError as fault:
        return fault.code


def asked(path, **words):
    """What Prometheus says."""
    query = f"?{urllib.parse.urlencode(words)}" if words else ""
    with urllib.request.urlopen(f"{PROMETHEUS}/api/v1/{path}{query}", timeout=30) as reply:
        return json.load(reply)["data"]


def firing():
    return {one["labels"]["alertname"] for one in asked("alerts")["alerts"] if one["state"] == "firing"}


@contextlib.contextmanager
def prometheus(folder):
    """Prometheus with the files that are installed: it looks at the rules each second, waits for no alert's `for`, and
    reads figures each five seconds, which on a busy machine take more than one."""
    made, place = folder / "prometheus", LIBRARY / "prometheus"
    made.mkdir()
    rules = re.sub(r"(?m)^ +for: .*\n", "", (place / "alerts.yml").read_text())
    (made / "alerts.yml").write_text(rules)
    text = (place / "prometheus.yml").read_text().replace(str(place), str(made))
    text = text.replace("scrape_interval: 15s", "scrape_interval: 5s").replace("evaluation_interval: 15s",
                                                                               "evaluation_interval: 1s")
    (made / "prometheus.yml").write_text(text)
    words = ["prometheus", f"--config.file={made}/prometheus.yml", f"--storage.tsdb.path={made}/data",
             "--web.listen-address=127.0.0.1:9090"]
    with open(made / "log", "wb") as log, subprocess.Popen(words, stdout=log, stderr=log) as process:
        try:
            wait_until(is_ready, lambda: (made / "log").read_text()[-2000:])
            yield
        finally:
            process.kill()


def is_ready():
    try:
        return len(asked("query", query="pdpd_shard_up == 1")["result"]) > 0
    except OSError:
        return False


def down(name):
    return sh(f"sv down /etc/service/{name}")


def up(name):
    return sh(f"sv up /etc/service/{name}")


# ---- what makes each alert fire, and what ends it

def shard_down(machine, checks):
    down("pdpd-1")
    yield "ShardDown"
    checks.expect("health, without a shard", [status_of("/health"), status_of("/ready")], [503, 503])
    name = next(f"m{number}" for number in range(100) if sh(f"pdpd-shards where m{number}").strip() == "1")
    checks.expect("a message for it", audit.sent("GET", f"/domains/{name}/pip", "nobody-at-all")[0], 503)
    yield "Unavailable"
    up("pdpd-1")


def shard_restarts(machine, checks):
    for _ in range(4):
        sh(f"kill -KILL {pid(3)}")
        time.sleep(3)
    yield "ShardRestarts"


def shard_waits(machine, checks):
    """Again and again a shard stands for four seconds, and each of its messages waits."""
    process = pid(2)
    with Load(lambda _: sh(f"kill -STOP {process}; sleep 4; kill -CONT {process}; sleep 0.5"), 1):
        yield "ShardWaits"


def old_backup(machine, checks):
    shards("backup")
    sh("touch -d '3 hours ago' /var/lib/pdpd-backups/0/*/")
    yield "BackupOld"
    shards("backup", 0)


def full_disk(machine, checks):
    sh("mount -t tmpfs -o size=8m,mode=711 small /var/lib/pdpd-backups")
    yield "DiskFull"
    sh("umount /var/lib/pdpd-backups")


def replica_down(machine, checks):
    down("pdpd-replica-2")
    yield "ReplicaDown"
    time.sleep(1.5)
    checks.expect("health, without a daemon", [status_of("/health"), status_of("/ready")], [200, 503])
    up("pdpd-replica-2")


def replica_stuck(machine, checks):
    name = next(f"s{number}" for number in range(100) if sh(f"pdpd-shards where s{number}").strip() == "0")
    process = pid(0)
    as_user("pdpd", f"prlimit --pid {process} --fsize=1:")
    checks.expect("a change that pdpd can't keep", audit.sent("PUT", f"/operator/domains/{name}",
                                                              machine.operator.token)[0], 504)
    yield "ReplicaStuck"
    as_user("pdpd", f"prlimit --pid {process} --fsize=unlimited:")
    change = "PUT", f"/operator/domains/{name}", machine.operator.token
    wait_until(lambda: audit.sent(*change)[0] == 409, "it isn't made")


def no_room(machine, checks):
    held = re.search(r"(?m)^ROOM=(.*)$", SETTINGS.read_text())[1].strip(chr(34))
    machine.set(ROOM=2 ** 60)
    yield "NoRoom"
    machine.set(ROOM=held)


def other_decision(machine, checks):
    file = sorted(DECISIONS.glob("*.log"))[-1]
    line = json.loads(file.read_text().splitlines()[-1])
    forged = json.dumps({**line, "reply": "0" * 64}, separators=(",", ":"))
    before = file.read_text()
    file.write_text(f"{before}{forged}\n")
    ran = subprocess.run(NIGHTLY.split(), capture_output=True, check=False)
    checks.expect("the nightly job fails", ran.returncode, 1)
    yield "OtherDecision"
    file.write_text(before)
    checks.expect("the job without it", sh(NIGHTLY).split(",")[1].strip(), "0 other")


def not_verified(machine, checks):
    held = json.loads(VERIFIED.read_text())
    VERIFIED.write_text(json.dumps({**held, "at": time.time() - 100_000}))
    yield "NotVerified"
    sh(NIGHTLY)


def lines_lost(machine, checks):
    """Nobody takes HAProxy's lines for a while."""
    taker = pathlib.Path("/etc/service/haproxy/log/supervise/pid").read_text().strip()
    sh(f"kill -STOP {taker}")
    for _ in range(150):
        audit.sent("GET", f"/operator/domains/{'x' * 900}", machine.operator.token)
    yield "LinesLost"
    sh(f"kill -CONT {taker}")


def figures_gone(machine, checks):
    down("pdpd-figures")
    yield "FiguresGone"
    up("pdpd-figures")


CAUSES = (shard_waits, shard_down, shard_restarts, lines_lost, old_backup, full_disk, replica_down, replica_stuck,
          no_room, other_decision, not_verified, figures_gone)


def flooded(checks):
    """A user of the machine asks for figures as fast as he can: few are worked out in a second, and a tenant waits for
    none of them."""
    found, took, began = collections.Counter(), [], time.time()

    def asks(number):
        found[status_of(("/metrics", "/shards")[number % 2])] += 1
    with Load(asks, 50):
        while time.time() < began + 5 or not took:
            at = time.time()
            checks.expect("a tenant beside it", audit.ask_ward(audit.TOKENS["ask"]), 200)
            took.append(time.time() - at)
    lasted = time.time() - began
    checks.say(f"50 connections that ask for figures: {dict(found)} in {lasted:.1f} s; a tenant's longest decision "
               f"{max(took):.2f} s")
    checks.within("figures that were given, of both kinds", found[200], Between(2, 2 * 10 * (lasted + 2)))
    checks.within("those that weren't", found[429], Between(1))


def told(page):
    """The alerts of the page's table, with their expressions."""
    section = re.search(r"(?ms)^## Metrics\n(.*?)^## ", page)[1]
    return {name: rule.replace("\\|", "|") for name, rule in re.findall(r"(?m)^\| (\w+) \| `(.+?)`", section)}


def rules():
    text = (LIBRARY / "prometheus" / "alerts.yml").read_text()
    return dict(re.findall(r"alert: (\w+)\n +expr: (.+)", text))


def draw(board, began):
    """Draws the dashboard of what Prometheus has seen since a moment."""
    now = time.time()
    span = {"start": began, "end": now, "step": max(1, int((now - began) / 90))}

    def found(expression):
        return asked("query_range", query=expression, **span)["result"]
    DRAWN.write_text(drawn.drawn(board, found, began, now))


def empty(board):
    """The expressions of the dashboard that find nothing. (Where a reading has taken too long its figures are away for
    a moment.)"""
    left = {target["expr"] for panel in board["panels"] for target in panel["targets"]}

    def all_found():
        left.difference_update({one for one in left if asked("query", query=one)["result"]})
        return not left
    with contextlib.suppress(RuntimeError):
        wait_until(all_found, "", 60)
    return sorted(left)


def metrics(machine, checks):
    """Each alert fires once, and each expression of the dashboard finds something, which is drawn."""
    audit.switch_on(machine)
    for command in audit.commands("Metrics"):
        checks.say(f"$ {command}\n    {sh(command).strip()[-300:]}")
    wait_until(lambda: status_of("/ready") == 200, "it isn't ready")
    checks.expect("health", status_of("/health"), 200)
    checks.expect("the page's table", told(PAGE.read_text()), rules())
    checks.expect("a domain", audit.make_ward(machine.operator.token), [201, 200, 200, 201, 200, 200, 200])
    audit.sent("POST", "/domains/ward/pdp", audit.TOKENS["ask"], (audit.WARD / "request-alice.json").read_text())
    wait_until(lambda: any(path.stat().st_size for path in DECISIONS.glob("*.log")), "no decision is logged")
    flooded(checks)
    sh(NIGHTLY)
    shards("backup")
    began = time.time()
    with prometheus(machine.folder):
        seen = {name for name in firing() if name not in ("DiskFull", "ShardRestarts")}
        checks.expect("what fires though all is well", seen, set())
        fired = set()
        for cause in CAUSES:
            for name in cause(machine, checks):
                wait_until(lambda name=name: name in firing(), f"{name} doesn't fire", 60)
                fired.add(name)
        checks.expect("alerts that didn't fire", set(rules()) - fired, set())
        wait_until(is_ready, "the figures don't come back")
        board = json.loads((LIBRARY / "prometheus" / "dashboard.json").read_text())
        checks.expect("expressions of the dashboard that find nothing", empty(board), [])
        draw(board, began)
    wait_until(lambda: status_of("/ready") == 200, "it isn't ready again")
