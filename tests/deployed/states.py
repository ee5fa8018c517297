"""Broken states of the deployment, each of which `pdpd-shards status` tells; what a person can write into its files;
and what its tools refuse before they stop anything."""
import json
import os
import pathlib
import re
import shutil
import signal
import subprocess
import time

from .clients import decision, once
from .clients import status as status_of
from .machine import SETTINGS, admin, backs_up, pid, sh, shards, user_words, wait_until

MAP, TOKEN = pathlib.Path("/etc/haproxy/domains.map"), pathlib.Path("/etc/pdpd/token")
CERTIFICATE = pathlib.Path("/etc/haproxy/pdpd.pem")
PIDS = range(4)


def asked(*words, user=None):
    """The status of a `pdpd-shards`, and what it says."""
    command = [*(user_words(user) if user else []), "pdpd-shards", *map(str, words)]
    ran = subprocess.run(command, capture_output=True, text=True, check=False, stdin=subprocess.DEVNULL, timeout=300)
    return ran.returncode, ran.stdout + ran.stderr


def tells(checks, what, wanted, status=1):
    """Looks whether `status` tells that, and ends so."""
    found, said = asked("status")
    checks.expect(f"{what}: {said}", (found, wanted in said), (status, True))


def is_well(checks, what):
    """Looks whether `status` finds nothing wrong."""
    found, said = asked("status")
    checks.expect(f"behind {what}: {said}", found, 0)


def broken(machine, checks):
    """Each of these states ended with status 0 once, and no word of it."""
    machine.operator.clear()
    ask = machine.operator.makes("ward")
    for _ in range(2):
        backs_up()
    shards("remap")
    is_well(checks, "the beginning")
    for state in (other_map, other_configuration, lost_domains, lost_map, cut_remaps, certificates, full_disk,
                  backups_to_come, other_program, no_proxy, monitored):
        state(machine, checks, ask)
        is_well(checks, state.__name__)


def other_map(machine, checks, ask):
    """HAProxy runs another map than the file's."""
    place = int(shards("where", "ward"))
    admin(f"add map {MAP} ward {(place + 1) % 4}")
    checks.expect("ward is away", status_of(once(ask)), 401)
    tells(checks, "another map", f"WRONG: HAProxy leads 1 domains otherwise than {MAP} says (ward)")
    shards("remap")
    checks.expect("and there again", decision(once(ask)), "Permit")


def other_configuration(machine, checks, ask):
    """Settings that aren't written, and a configuration that isn't read."""
    sh(f"sed -i 's/^RATE=.*/RATE=77/' {SETTINGS}")
    tells(checks, "settings that aren't written", "haproxy.cfg isn't what the settings and the installed version make")
    shards("config", "--write")
    tells(checks, "a file that isn't read", "HAProxy runs another configuration than /etc/haproxy/haproxy.cfg has")
    machine.set(RATE=0)
    sh(f"sed -i 's/^TLS_BIND=.*/TLS_BIND=:444/' {SETTINGS}")
    tells(checks, "a place where nobody is answered", "WRONG: a client's question at TLS_BIND (:444) isn't answered")
    sh(f"sed -i 's/^TLS_BIND=.*/TLS_BIND=:443/' {SETTINGS}")
    unapplied(machine, checks, ask)


def unapplied(machine, checks, ask):
    """What is written for a shard is told, and isn't live before it is applied, however the shard is started."""
    held = SETTINGS.read_text()
    place = int(shards("where", "ward"))
    # (pdpd-run, which reads what was applied, is the user pdpd, whatever umask root's shell has)
    sh("rm -r /etc/pdpd/applied; umask 077; pdpd-shards restart; pdpd-shards reload")
    sh(f"sed -i 's/^FIRST_PORT=.*/FIRST_PORT=388/; s/^READING=.*/READING=15000000/' {SETTINGS}")
    os.kill(old := pid(place), signal.SIGKILL)
    wait_until(lambda: pid(place) not in (0, old), "the shard isn't started again")
    checks.expect("a shard that is started again", decision(once(ask)), "Permit")
    words = pathlib.Path(f"/proc/{pid(place)}/environ").read_text().split("\0")
    checks.expect("its settings", [word for word in words if word.startswith("PDPD_REA")], ["PDPD_READING=16000000"])
    os.kill(old := pid(place), signal.SIGSTOP)
    wait_until(lambda: pid(place) not in (0, old), "the watchdog doesn't look where the shard is")
    tells(checks, "settings that aren't applied", f"FIRST_PORT, READING of {SETTINGS} isn't what shard 0 was started "
          "with")
    SETTINGS.write_text(re.sub("(?m)^READING=.*", "READING=15000000", held))
    tells(checks, "one that isn't applied", f"READING of {SETTINGS} isn't what shard 3 was started with: pdpd-shards")
    shards("restart")
    words = pathlib.Path(f"/proc/{pid(place)}/environ").read_text().split("\0")
    checks.expect("once it is applied", "PDPD_READING=15000000" in words, True)
    SETTINGS.write_text(held)
    shards("restart")


def lost_domains(machine, checks, ask):
    """The map leads to a shard that hasn't the domain."""
    with open(MAP, "a") as lines:
        lines.write("ghost 2\nfar 9\n")
    shards("reload")
    tells(checks, "a lost domain", "the map leads ghost to shard 2, where no such domain is")
    tells(checks, "a shard that isn't there", "leads to shards that there aren't: far")
    said = shards("remap")
    checks.expect(f"what is taken out: {said}", [name in MAP.read_text() for name in ("ghost", "far")], [False, False])


def lost_map(machine, checks, ask):
    """The map is lost: it is made anew as it was."""
    place = int(shards("where", "ward"))
    shards("move", "ward", place, (place + 1) % 4)
    before = MAP.read_text()
    MAP.write_text("")
    shards("reload")
    checks.expect("ward is away", status_of(once(ask)), 401)
    tells(checks, "a map that is lost", f"shard {(place + 1) % 4} has ward, whose messages go to shard {place}")
    shards("remap")
    checks.expect("the map, and ward", (MAP.read_text(), decision(once(ask))), (before, "Permit"))
    shards("move", "ward", (place + 1) % 4, place)
    shards("remap")


def cut_remaps(machine, checks, ask):
    """A remap that fails changes nothing, and one that is well opens what a growth that was cut has left closed."""
    sh("sv down /etc/service/pdpd-0")
    before = MAP.read_text()
    found, said = asked("remap")
    checks.expect(f"a remap while a shard is down: {said}", (found, MAP.read_text()), (1, before))
    sh("sv up /etc/service/pdpd-0")
    wait_until(machine.operator.is_answered, "the shard stays away")
    with open(MAP, "a") as lines:
        lines.write("NEW moving\n")
    shards("reload")
    checks.expect("no domain is made", status_of(once(machine.operator.creates("closed"))), 503)
    tells(checks, "a growth that was cut", "no domain can be made: a growth was cut")
    shards("remap")
    checks.expect("one is made", status_of(once(machine.operator.creates("closed"))), 201)
    once(machine.operator.message("DELETE", "/closed"))


def certificates(machine, checks, ask):
    """One that is soon over, one whose time is over, and one that isn't read yet."""
    held = CERTIFICATE.read_text()
    for days, wanted in ((3, "the certificate is valid for 3.0 days more"), (-3, "the certificate has expired")):
        CERTIFICATE.write_text(new_certificate(machine.folder, days))
        tells(checks, "one that isn't read", f"clients are shown another certificate than {CERTIFICATE} has")
        shards("reload")
        tells(checks, f"{days} days", f"WRONG: {wanted}")
    CERTIFICATE.write_text(held)
    shards("reload")


def new_certificate(folder, days):
    """A certificate with its key that ends so many days from now."""
    last = time.strftime("%Y%m%d%H%M%SZ", time.gmtime(time.time() + days * 86_400))
    place = folder / "authority"
    shutil.rmtree(place, ignore_errors=True)
    place.mkdir()
    (place / "index.txt").write_text("")
    (place / "ca.cnf").write_text(
        f"[ca]\ndefault_ca = it\n[it]\ndatabase = {place}/index.txt\nnew_certs_dir = {place}\nrand_serial = yes\n"
        "default_md = sha256\npolicy = any\n[any]\ncommonName = supplied\n")
    sh(f"cd {place}; openssl req -newkey ec -pkeyopt ec_paramgen_curve:P-256 -nodes -subj /CN=localhost -keyout key "
       f"-out request 2>&1; openssl ca -batch -config ca.cnf -selfsign -keyfile key -in request -out crt -notext "
       f"-startdate 20200101000000Z -enddate {last} 2>&1")
    return (place / "crt").read_text() + (place / "key").read_text()


def full_disk(machine, checks, ask):
    """A shard's own disk is full."""
    place = "/var/lib/pdpd/3"
    # (its own folder is mounted away, and comes back)
    owner = "uid=$(id -u pdpd),gid=$(id -g pdpd)"
    sh(f"sv -w 30 stop /etc/service/pdpd-3; mount -t tmpfs -o size=1m,mode=700,{owner} full {place}; "
       "rm /etc/pdpd/applied/3.store; sv up /etc/service/pdpd-3")
    wait_until(machine.operator.is_answered, "shard 3 stays away")
    try:
        sh(f"dd if=/dev/zero of={place}/filler bs=64k 2>/dev/null || true")
        tells(checks, "a full disk", "WRONG: the disk of shard 3 has only 0.0 MiB of 1 left")
    finally:
        # (a backup may look at it for a moment)
        sh(f"sv -w 30 stop /etc/service/pdpd-3; until umount {place}; do sleep 0.2; done; sv up /etc/service/pdpd-3")
    wait_until(machine.operator.is_answered, "shard 3 stays away")


def backups_to_come(machine, checks, ask):
    """Backups of a clock that was ahead: they are told, and what is made now is kept."""
    place = pathlib.Path("/var/lib/pdpd-backups/1")
    newest = sorted(path for path in place.iterdir())[-1]
    for year in (2097, 2098, 2099):
        shutil.copytree(newest, place / f"{year}0101T000000.000Z")
    tells(checks, "backups to come", "shard 1 has 3 backups of moments to come (as 20990101T000000.000Z)")
    sh(f"sed -i 's/^KEEP_BACKUPS=.*/KEEP_BACKUPS=3/' {SETTINGS}")
    made = re.search(r"/1/([^,]+), ", backs_up(1))[1]
    left = [path.name for path in sorted(place.iterdir())]
    checks.expect(f"what was just made is there: {left}", (made in left, len(left)), (True, 3 + 3))
    sh(f"sed -i 's/^KEEP_BACKUPS=.*/KEEP_BACKUPS=48/' {SETTINGS}; rm -r {place}/209*")


def other_program(machine, checks, ask):
    """The program that is installed isn't the one that runs. An upgrade to one that can't start stops nothing."""
    before = [pid(shard) for shard in PIDS]
    sh(f"echo PROGRAM=/bin/false >> {SETTINGS}")
    tells(checks, "another program", "shard 2 runs another program (SHA-256 ")
    said = shards("upgrade", status=1)
    checks.expect(f"an upgrade to one that can't start: {said}", "nothing was stopped" in said, True)
    checks.expect("what runs", [pid(shard) for shard in PIDS], before)
    sh(f"sed -i '/^PROGRAM=/d' {SETTINGS}")


def no_proxy(machine, checks, ask):
    """HAProxy is away: each tool says so."""
    place = int(shards("where", "ward"))
    sh("sv down /etc/service/haproxy")
    wait_until(lambda: asked("reload")[0] == 1, "HAProxy stays")
    for words in (("status",), ("restart", 0), ("move", "ward", place, (place + 1) % 4), ("reload",), ("remap",)):
        found, said = asked(*words)
        checks.expect(f"{words} without HAProxy: {said}", (found, "HAProxy doesn't answer at" in said, "Errno" in said),
                      (1, True, False))
    sh("sv up /etc/service/haproxy")
    wait_until(machine.operator.is_answered, "HAProxy stays away")


def monitored(machine, checks, ask):
    """A monitor's user, who may see little, is told that; and what it is told is JSON as well."""
    found, said = asked("status", user="nobody")
    checks.expect(f"nobody's: {said}", (found, "CAN'T TELL: " in said, "Traceback" in said, "WRONG" in said),
                  (2, True, False, False))
    found, said = asked("status", "--json")
    report = json.loads(said)
    states = [(shard["state"], len(shard["program"])) for shard in report["shards"]]
    checks.expect("as JSON", (found, report["status"], report["wrong"], states), (0, 0, [], [("up", 64)] * 4))
    checks.expect("days of the certificate", 0 < report["certificate_days"] < 31, True)


def removed(machine, checks):
    """A store's files, or the whole folder, are removed under its program: status tells it, and a backup and its
    put-back save all that was acknowledged, also behind the removal."""
    machine.operator.clear()
    machine.operator.makes("ward")
    place = int(shards("where", "ward"))
    folder, made = f"/var/lib/pdpd/{place}", ["ward"]
    names = (name for name in map("after{}".format, range(100)) if int(shards("where", name)) == place)
    for command in (f"rm {folder}/pdpd.db {folder}/pdpd.db-wal", f"rm -r {folder}"):
        sh(command)
        made.append(next(names))
        behind = machine.operator.makes(made[-1])
        tells(checks, command, f"/{place}/pdpd.db was removed while the program of shard {place} has it")
        backup = re.search(rf"/{place}/([^,]+), ", backs_up(place))[1]
        shards("put-back", place, backup, "--yes")
        checks.expect(f"what was acknowledged, behind {command}", (decision(once(behind)), machine.operator.names()),
                      ("Permit", sorted(made)))
    shards("reserve", place)


# What a person may write into a file, and a word of what is told. The tools that read it are asked then.
WRITTEN = (
    (SETTINGS, b'LOG="stdout\n', "a quote has no end"),
    (SETTINGS, b"DATA=/caf\xe9\n", "isn't UTF-8"),
    (SETTINGS, b"DATA=$HOME/x\n", "a shell reads them otherwise"),
    (SETTINGS, b"SHARDS\n", "it is no NAME=VALUE"),
    # (what a shell would read as another value, or as another number)
    (SETTINGS, b"KEEP_BACKUPS=40\r\n", "has carriage returns"),
    (SETTINGS, b"DATA=/var/lib/pdpd#2\n", "nor # without quotes"),
    (SETTINGS, b"FIRST_PORT=0388\n", "without a zero before it"),
    (TOKEN, b"\n", "is no token"),
    (TOKEN, b"abc\n", "is no token"),
    (TOKEN, b"my secret pass phrase\n", "is no token"),
    (TOKEN, b"t\xc3\xb6ken-token\n", "is no token"),
    (MAP, b"acme\n", "isn't DOMAIN SHARD"),
    (MAP, b"acme 1 2\n", "isn't DOMAIN SHARD"),
    (MAP, b"acme one\n", "isn't DOMAIN SHARD"),
    (MAP, b"caf\xe9 1\n", "isn't UTF-8"),
)


def written(machine, checks):
    """Whatever a person writes into a file, the tools tell it in words, stop nothing, and go on once it is mended."""
    machine.operator.clear()
    ask = machine.operator.makes("ward")
    tools = {SETTINGS: (("status",), ("backup", 0), ("where", "ward")), TOKEN: (("status",), ("restart",), ("grow", 4)),
             MAP: (("status",), ("where", "ward"), ("move", "ward", 0, 1))}
    before = [pid(shard) for shard in PIDS]
    for file, text, wanted in WRITTEN:
        held = file.read_bytes()
        file.write_bytes(text)
        for words in tools[file]:
            found, said = asked(*words)
            checks.expect(f"{words} with {text} in {file}: {said}",
                          (found, wanted in said, "Traceback" in said, "Errno" in said), (1, True, False, False))
        file.write_bytes(held)
    checks.expect("what runs", [pid(shard) for shard in PIDS], before)
    with open(MAP, "a") as lines:
        lines.write("# a line that HAProxy passes over\n")
    checks.expect("a comment in the map", asked("where", "ward")[0], 0)
    token_away(checks)
    interrupted(machine, checks)
    checks.expect("behind it", decision(once(ask)), "Permit")


def token_away(checks):
    """The token isn't there: that is told, and no shard is said to be down."""
    sh(f"mv {TOKEN} {TOKEN}.away")
    found, said = asked("status")
    rows = re.findall(r"(?m)^\d +(\w+) ", said)
    seen = found, "the operator's token isn't there" in said, "HAProxy doesn't" in said, rows
    checks.expect(f"no token: {said}", seen, (1, True, False, ["up"] * 4))
    found, said = asked("restart", 0)
    checks.expect(f"a restart without it: {said}", (found, "the operator's token isn't there" in said), (1, True))
    sh(f"mv {TOKEN}.away {TOKEN}")


def interrupted(machine, checks):
    """^C while a tool is still being loaded, which takes longer here: it ends by it, and says nothing."""
    place = machine.folder / "slow"
    place.mkdir()
    (place / "sqlite3.py").write_text("import time\nprint('loading', flush=True)\ntime.sleep(60)\n")
    how = {"stdout": subprocess.PIPE, "stderr": subprocess.PIPE, "text": True}
    words = ["env", "--default-signal=INT", f"PYTHONPATH={place}", "pdpd-shards", "status"]
    with subprocess.Popen(words, **how) as tool:
        tool.stdout.readline()
        tool.send_signal(signal.SIGINT)
        _, said = tool.communicate(timeout=30)
    checks.expect("a ^C at the beginning", (tool.returncode, said), (-signal.SIGINT, ""))


def refused(machine, checks):
    """What can be seen to be a mistake is told before anything is stopped, and what HAProxy refuses is told with its
    reason."""
    machine.operator.clear()
    ask = machine.operator.makes("ward")
    place, before = int(shards("where", "ward")), [pid(shard) for shard in PIDS]
    others = [shard for shard in PIDS if shard != place]
    said = shards("move", "ward", others[0], others[1], status=1)
    checks.expect(f"a move from elsewhere: {said}", f"ward is in shard {place}" in said, True)
    said = shards("move", "nosuch", 1, 2, status=1)
    checks.expect(f"a move of nothing: {said}", "nothing was stopped" in said, True)
    put_backs(checks, machine, place, others[0])
    for line, wanted in (("TLS_BIND=256.0.0.1:443", "invalid address"), ("CERTIFICATE=/nowhere.pem", "/nowhere.pem"),
                         ("HAPROXY_USER=nosuch", "nosuch")):
        held = SETTINGS.read_text()
        SETTINGS.write_text(f"{held}{line}\n")
        said = shards("config", "--write", status=1)
        SETTINGS.write_text(held)
        checks.expect(f"{line}: {said}", ("HAProxy doesn't take" in said, wanted in said), (True, True))
    checks.expect("what runs", [pid(shard) for shard in PIDS], before)
    undone(machine, checks, ask, place)


def put_backs(checks, machine, place, other):
    """A put-back of another shard's backup, of none, and one that nobody confirms."""
    name = re.search(rf"/{place}/([^,]+), ", backs_up(place))[1]
    folder = pathlib.Path("/var/lib/pdpd-backups")
    shutil.copytree(folder / str(place) / name, folder / str(other) / name)
    said = shards("put-back", other, name, "--yes", status=1)
    checks.expect(f"another shard's: {said}", f"is a backup of shard {place} of 4, and not of {other}" in said, True)
    shutil.rmtree(folder / str(other) / name)
    for wrong in ("../../pdpd/3", "20260101", "before-20000101T000000.000Z"):
        said = shards("put-back", place, wrong, "--yes", status=1)
        checks.expect(f"{wrong}: {said}", "pdpd-shards backups lists them" in said, True)
    said = shards("put-back", place, name, status=1)
    checks.expect(f"nobody is asked: {said}", ("nothing was changed" in said, "--yes" in said), (True, True))


def undone(machine, checks, ask, place):
    """What goes and comes by a put-back is told, tokens too, and its undo is a command."""
    names = (name for name in map("put{}".format, range(100)) if int(shards("where", name)) == place)
    revoked, later = next(names), next(names)
    by_token = machine.operator.makes(revoked)
    name = re.search(rf"/{place}/([^,]+), ", backs_up(place))[1]
    machine.operator.makes(later)
    for path, body in (("/ward", None), (f"/{revoked}/tokens", json.dumps({"Token": f"{revoked}-token-1"}))):
        once(machine.operator.message("DELETE", path, body))
    checks.expect("the token is revoked", status_of(once(by_token)), 401)
    said = shards("put-back", place, name, "--yes")
    told = (f"away then: 1 ({later})", "there again: 1 (ward)", f"as they were then: 1 ({revoked}). Policies and "
            "attributes are those of then, and tokens that were revoked since are valid again")
    checks.expect(f"what is told: {said}", [words in said for words in told], [True] * 3)
    checks.expect("the token, then", decision(once(by_token)), "Permit")
    checks.expect("ward is there again", decision(once(ask)), "Permit")
    words = re.search(r"`pdpd-shards (put-back \S+ before-\S+)` undoes it", said)[1].split()
    checks.expect("it is listed", " ".join(words[1:]) in shards("backups"), True)
    shards(*words, "--yes")
    checks.expect("as before", (machine.operator.names(), status_of(once(by_token))), (sorted([revoked, later]), 401))


STATES = (broken, removed, written, refused)
