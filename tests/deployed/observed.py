"""What the deployment tells and keeps: its logs, a disk that is full, copies of backups elsewhere, numbers for
Prometheus, and what an operator adds to HAProxy's configuration."""
import hashlib
import pathlib
import re
import shutil

from .clients import decision, making, message, once, policy
from .clients import status as status_of
from .machine import LIBRARY, PAGE, SETTINGS, backs_up, pid, sh, shards, wait_until
from .states import asked, is_well, tells

LOGS = pathlib.Path("/var/log/pdpd")
OWN = pathlib.Path("/etc/haproxy/pdpd-own.cfg")
WATCHDOG = LOGS / "pdpd-watchdog" / "current"


def write(name, value):
    """Writes another value of a setting into its file."""
    sh(f"sed -i 's|^{name}=.*|{name}={value}|' {SETTINGS}")


# ---- logs

def lines_in(folder):
    """The lines of a folder of logs, without their moments."""
    return [line.partition(" ")[2] for file in sorted((LOGS / folder).glob("[@c]*")) if file.name != "config"
            for line in file.read_text(errors="replace").splitlines()]


def kinds(folder, domain):
    """What the lines of a folder begin with that name the domain, each with its method and status."""
    found = [re.match(rf'(\S+) .* (\w+) "[^"]*/{domain}(?:/[^"]*)?" (-?\d+) ', line) for line in lines_in(folder)]
    return [match.groups() for match in found if match]


def take_down(shard):
    """Ends a shard's program, and waits until runit starts none."""
    sh(f"sv -w 60 stop /etc/service/pdpd-{shard}")


def last_change(machine, name):
    """Makes a domain, and waits until the log has that: whatever was asked before is there, too."""
    once(machine.operator.creates(name))
    wait_until(lambda: kinds("changes", name), f"the log of changes has no {name}")


def logs(machine, checks):
    """Changes, what failed, and all else have logs of their own: no flood pushes out who changed what."""
    machine.operator.clear()
    ask = machine.operator.makes("logged")
    for _ in range(3):
        once(ask)
    once(message("GET", "/domains/logged/pap/policies", "logged-token-1"))
    once(message("POST", "/domains/logged/pdp", "another-token-1", '{"Request":{}}'))
    once(message("PUT", "/operator/domains/logged", "another-token-1"))
    place = int(shards("where", "logged"))
    take_down(place)
    checks.expect("a decision of a shard that is away", status_of(once(ask)), 503)
    checks.expect("and a change", status_of(once(machine.operator.message("DELETE", "/logged"))), 503)
    sh(f"sv up /etc/service/pdpd-{place}")
    wait_until(machine.operator.is_answered, "the shard stays away")
    checks.expect("its removal", status_of(once(machine.operator.message("DELETE", "/logged"))), 200)
    last_change(machine, "last")
    made = making("logged", "logged-token-1", policy("Permit"), machine.operator.token)
    wanted = [(data.split()[0].decode(), reply.split()[1].decode()) for data, reply in made] + [("DELETE", "200")]
    found = kinds("changes", "logged")
    checks.expect("changes", found, [("change", *each) for each in wanted])
    checks.expect("what failed", kinds("haproxy", "logged"), [("fault", "POST", "503"), ("fault", "DELETE", "503")])
    own = [line for line in lines_in("haproxy") if line.startswith("-:- ") and "<HTTPCLIENT>" in line]
    checks.expect("and of HAProxy's own questions", own, [])
    found = sorted(kinds("decisions", "logged"))
    checks.expect("decisions and readings", found, [("decision", "POST", "200")] * 3 + [("reading", "GET", "200")])
    found = sorted(kinds("refused", "logged"))
    checks.expect("all else", found, [("refused", "POST", "401"), ("refused", "PUT", "401")])
    flooded(machine, checks)
    undecided(machine, checks)


def flooded(machine, checks):
    """Decisions beyond the size of their log push out decisions alone, by what an operator wrote there."""
    config = LOGS / "decisions" / "config"
    held = config.read_text()
    config.write_text(re.sub(r"(?m)^s\d+$", "s4000", re.sub(r"(?m)^n\d+$", "n2", held)))
    before = config.read_text()
    sh("sv restart /etc/service/haproxy/log")
    ask = machine.operator.makes("flood")
    for _ in range(300):
        once(ask)
    last_change(machine, "behind")
    checks.expect("what the operator wrote", config.read_text(), before)
    sizes = sum(path.stat().st_size for path in (LOGS / "decisions").glob("[@c]*"))
    checks.expect(f"the bytes of decisions: {sizes}", sizes < 20_000, True)
    checks.expect("who changed what before", [name for name in ("logged", "last") if not kinds("changes", name)], [])
    limits = [re.findall(r"(?m)^[snt]\d+$", (LOGS / name / "config").read_text()) for name in ("changes", "haproxy")]
    checks.expect("by size, days and number", [len(found) for found in limits], [3, 3])
    config.write_text(held)
    sh("sv restart /etc/service/haproxy/log")


def undecided(machine, checks):
    """Without LOG_DECISIONS changes and what failed are logged, and nothing else."""
    try:
        machine.set(LOG_DECISIONS=0)
        logged_without(machine, checks)
    finally:
        machine.set(LOG_DECISIONS="")


def logged_without(machine, checks):
    """What is logged of decisions, one of a shard that is away, and of changes."""
    ask = machine.operator.makes("silent")
    for _ in range(3):
        once(ask)
    once(message("POST", "/domains/silent/pdp", "another-token-1", '{"Request":{}}'))
    place = int(shards("where", "silent"))
    take_down(place)
    checks.expect("a decision of a shard that is away", status_of(once(ask)), 503)
    sh(f"sv up /etc/service/pdpd-{place}")
    wait_until(machine.operator.is_answered, "the shard stays away")
    once(machine.operator.message("DELETE", "/silent"))
    last_change(machine, "afterwards")
    found = [kinds(folder, "silent") for folder in ("changes", "haproxy", "decisions")]
    checks.expect("what is logged", ({kind for kind, _, _ in found[0]}, *found[1:]),
                  ({"change"}, [("fault", "POST", "503")], []))


# ---- a full disk

# The MiB of the disk, and those that are kept: more than the log, which is written back into the file as the program
# ends for a move.
DISK, KEPT = 16, 6


def full(machine, checks):
    """A shard's disk is full: its changes are refused, and nothing is lost. status and the watchdog tell it. What was
    kept for that is given up, and the shard goes on without a start: policies can be removed, and a domain moved."""
    machine.operator.clear()
    place = 3
    folder = f"/var/lib/pdpd/{place}"
    write("RESERVE", KEPT)
    owner = "uid=$(id -u pdpd),gid=$(id -g pdpd)"
    sh(f"sv -w 60 stop /etc/service/pdpd-{place}; mount -t tmpfs -o size={DISK}m,mode=700,{owner} full {folder}; "
       f"rm /etc/pdpd/applied/{place}.store; sv up /etc/service/pdpd-{place}")
    wait_until(machine.operator.is_answered, "the shard stays away")
    try:
        tells(checks, "nothing is kept", f"shard {place} has no reserve of {KEPT} MiB")
        write("RESERVE", 100)
        said = shards("reserve", place, status=1)
        checks.expect(f"too much to keep: {said}", f"no room is kept for shard {place}: " in said, True)
        write("RESERVE", KEPT)
        shards("reserve", place)
        found = sh(f"stat -c '%s %U %a' {folder}/reserve")
        checks.expect("what is kept, and whose", found, f"{KEPT * 2 ** 20} pdpd 600\n")
        filled(machine, checks, place)
    finally:
        sh(f"sv -w 60 stop /etc/service/pdpd-{place}; umount {folder}; sv up /etc/service/pdpd-{place}")
        write("RESERVE", 32)
    wait_until(machine.operator.is_answered, "the shard stays away")


def filled(machine, checks, place):
    """The disk is filled up, and what was kept is given up."""
    name = next(name for name in map("fill{}".format, range(100)) if int(shards("where", name)) == place)
    ask, token, at = machine.operator.makes(name), f"{name}-token-1", f"/domains/{name}/pap"
    kept, answers = [], []
    for size in (60_000, 6_000, 600, 60):
        for _ in range(200):
            key = f"urn:f{len(kept)}"
            text = policy("Permit", key, description="x" * size)
            answers.append(status_of(once(message("POST", f"{at}/policies", token, text))))
            if answers[-1] != 201:
                break
            kept.append(key)
    checks.expect(f"the disk is full behind {len(kept)} policies", ({*answers}, answers[-1]), ({201, 503}, 503))
    remove = message("DELETE", f"{at}/policy/{kept[0]}/1.0", token)
    checks.expect("a removal, then", status_of(once(remove)), 503)
    checks.expect("and a decision", decision(once(ask)), "Permit")
    tells(checks, "a full disk", f"the disk of shard {place} has only ")
    tells(checks, "what helps", f"pdpd-shards make-room {place} gives up {KEPT} MiB that are kept for this")
    unseen(checks, place)
    line = f"pdpd-watchdog: the disk of shard {place} is full"
    wait_until(lambda: line in WATCHDOG.read_text(), "the watchdog doesn't tell it")
    before, count = pid(place), WATCHDOG.read_text().count(f"the disk of shard {place} is not full")
    said = shards("make-room", place)
    told = re.search(rf"the disk of shard {place} has {KEPT}\.\d MiB left", said)
    checks.expect(f"what is told: {said}", told is not None, True)
    checks.expect("a removal, with room", status_of(once(remove)), 200)
    found = [key for key in kept[1:] if status_of(once(message("GET", f"{at}/policy/{key}/1.0", token))) != 200]
    checks.expect("acknowledged policies that aren't there", found, [])
    checks.expect("without a start", pid(place), before)
    wait_until(lambda: WATCHDOG.read_text().count(f"the disk of shard {place} is not full") > count,
               "the watchdog doesn't tell that there is room")
    other = (place + 1) % 4
    shards("move", name, place, other)
    checks.expect("the domain is moved", (int(shards("where", name)), decision(once(ask))), (other, "Permit"))
    found = [key for key in kept[1:] if status_of(once(message("GET", f"{at}/policy/{key}/1.0", token))) != 200]
    checks.expect("acknowledged policies that aren't there behind it", found, [])
    said = shards("make-room", place, status=1)
    checks.expect(f"nothing more is kept: {said}", f"shard {place} has no reserve" in said, True)


def unseen(checks, place):
    """Who may not look into the folder is told that its disk is full all the same: a monitor, and the watchdog as its
    unit has it, root without rights over files."""
    found, said = asked("status", user="nobody")
    checks.expect(f"a monitor: {said}", (found, f"the disk of shard {place} has only " in said), (1, True))
    command = "from operating import watchdog; print(watchdog.look_at_disk(%d, ''))" % place
    said = sh(f"cd {LIBRARY}; setpriv --bounding-set=-all,+kill python3 -B -c \"{command}\" 2>&1")
    checks.expect(f"the watchdog: {said}", (f"the disk of shard {place} is full" in said, said.split("\n")[-2]),
                  (True, "full"))


# ---- copies of backups

def script_of_page():
    """The program that the page shows for BACKUP_HOOK, the command that makes its key, and those that make a backup
    of a copy."""
    text = PAGE.read_text()
    script = re.search(r"(?ms)^```bash\n(#!/bin/bash\n# pdpd-copy.*?)^```", text)[1]
    key = re.search(r"(?m)^    # (openssl req .*-keyout backups.key.*)$", text)[1]
    back = re.search(r"(?m)^    # (mkdir .*)\n    # (openssl cms -decrypt .*)$", text)
    return script, key, "; ".join(back.groups())


def copied(machine, checks):
    """A backup is copied away, encrypted, by the page's program, and put back from there."""
    machine.operator.clear()
    ask = machine.operator.makes("away")
    place = int(shards("where", "away"))
    script, key, back = script_of_page()
    there = re.search(r"(?m)^to=(/mnt/\S+)/", script)[1]
    sh(f"mount -t tmpfs elsewhere /mnt; mkdir {there}; cd {machine.folder}; {key} 2>&1; cp backups.crt /etc/pdpd/")
    hook = pathlib.Path("/etc/pdpd/pdpd-copy")
    hook.write_text(script)
    hook.chmod(0o755)
    write("BACKUP_HOOK", hook)
    try:
        name = re.search(rf"/{place}/([^,]+), ", backs_up(place))[1]
        (copy,) = pathlib.Path(there).iterdir()
        found = [word for word in (b"away", b"SQLite", b"domains.map") if word in copy.read_bytes()]
        checks.expect("what can be read in it", found, [])
        folder = pathlib.Path(f"/var/lib/pdpd-backups/{place}/{name}")
        kept = {path.name: path.read_bytes() for path in folder.glob("pdpd.db*")}
        shutil.rmtree(folder)
        once(machine.operator.message("DELETE", "/away"))
        sh(back.replace("FILE", str(copy)).replace("backups.key", f"{machine.folder}/backups.key")
           .replace("/N/TIME", f"/{place}/{name}"))
        found = {path.name: path.read_bytes() for path in folder.glob("pdpd.db*")}
        checks.expect("the files are the same", found == kept, True)
        shards("put-back", place, name, "--yes")
        checks.expect("and the domain is there again", decision(once(ask)), "Permit")
        uncopied(checks, place)
    finally:
        write("BACKUP_HOOK", "")
        sh("umount /mnt")
    sh("sv restart /etc/service/pdpd-backups")
    backs_up()
    shards("remap")
    is_well(checks, "copies")


def uncopied(checks, place):
    """A copy that fails is told, also by status, and the backup stands."""
    before = len(shards("backups").splitlines())
    write("BACKUP_HOOK", "/bin/false")
    sh("rm -f /var/lib/pdpd-backups/*/*/copied")
    found, said = asked("backup", place)
    checks.expect(f"a copy that fails: {said}", (found, "no copy of " in said, "/bin/false ends with 1" in said),
                  (1, True, True))
    checks.expect("the backup stands", len(shards("backups").splitlines()), before + 1)
    tells(checks, "no copy", f"no backup of shard {place} of the last two hours was copied away by /bin/false")
    log = LOGS / "pdpd-backups" / "current"
    count = log.read_text().count("NO COPY of the backup of shard 0")
    sh("sv restart /etc/service/pdpd-backups")
    wait_until(lambda: log.read_text().count("NO COPY of the backup of shard 0") > count, "the log doesn't tell it")


# ---- numbers

SAMPLE = re.compile(r'([a-z_]+)(?:\{((?:[a-z0-9_]+="[^"\\\n]*",?)*)\})? (-?[0-9.e+-]+)')


def samples(text):
    """The samples of Prometheus's text format, each by its name and labels; an error where a line is none."""
    found, typed = {}, set()
    for line in text.splitlines():
        if line.startswith("# TYPE "):
            typed.add(line.split()[2])
        elif not line.startswith("# HELP "):
            name, labels, value = SAMPLE.fullmatch(line).groups()
            found[name, labels or ""] = float(value)
            if name not in typed:
                raise RuntimeError(f"{name} has no type before it")
    return found


def measured(machine, checks):
    """The numbers of status are those of the machine."""
    machine.operator.clear()
    machine.operator.makes("ward")
    backs_up()
    shards("remap")
    place = int(shards("where", "ward"))
    ended, text = asked("status", "--prometheus")
    found = samples(text)
    checks.expect("its end", ended, 0)
    checks.expect("shards that are up", [found["pdpd_shard_up", f'shard="{shard}"'] for shard in range(4)], [1.0] * 4)
    checks.expect("domains", found["pdpd_shard_domains", f'shard="{place}"'], 1.0)
    checks.expect("what is wrong", found["pdpd_wrong", ""], 0.0)
    size = pathlib.Path(f"/var/lib/pdpd/{place}/pdpd.db").stat().st_size
    its = f'shard="{place}",file="pdpd.db"'
    checks.expect("the bytes of a file", found["pdpd_shard_store_bytes", its], float(size))
    digest = hashlib.sha256((LIBRARY / "pdpd").read_bytes()).hexdigest()
    checks.expect("the program", found["pdpd_shard_program_info", f'shard="{place}",sha256="{digest}"'], 1.0)
    checks.expect("the certificate", 0 < found["pdpd_certificate_valid_seconds", ""] < 31 * 86_400, True)
    take_down(2)
    ended, text = asked("status", "--prometheus")
    sh("sv up /etc/service/pdpd-2")
    found = samples(text)
    seen = ended, found["pdpd_shard_up", 'shard="2"'], found["pdpd_wrong", ""] > 0
    checks.expect("one is away", seen, (1, 0.0, True))
    wait_until(machine.operator.is_answered, "the shard stays away")
    own_sections(checks)


def own_sections(checks):
    """What an operator adds to HAProxy's configuration is told until it is applied, stays, and is checked."""
    is_well(checks, "before")
    OWN.write_text("frontend numbers\n    bind 127.0.0.1:404\n"
                   "    http-request use-service prometheus-exporter if { path /metrics }\n")
    tells(checks, "a section of one's own", "haproxy.cfg isn't what the settings and the installed version make")
    for _ in range(2):
        shards("config", "--write")
    shards("reload")
    said = sh("curl --silent http://127.0.0.1:404/metrics")
    checks.expect("HAProxy's own numbers", "haproxy_process_" in said, True)
    is_well(checks, "a section of one's own")
    OWN.write_text("frontend numbers\n    bind nonsense\n")
    said = shards("config", "--write", status=1)
    checks.expect(f"one that HAProxy refuses: {said}", ("HAProxy doesn't take" in said, "nonsense" in said),
                  (True, True))
    OWN.unlink()
    shards("config", "--write")
    shards("reload")
    is_well(checks, "without it")


OBSERVED = (logs, full, copied, measured)
