"""The archive, the walk from nothing, configurations and units, and what is left at the end."""
import hashlib
import os
import pathlib
import re
import shutil
import subprocess
import sys
import time

from checks import Between

from .clients import Deciders, Makers, Operator, making, many, message, once
from .clients import status as status_of
from .machine import LIBRARY, PAGE, PLAIN, SETTINGS, TOP, as_user, backs_up, pid, sh, shards, wait_until

MACHINES = "a=10.0.0.1 b=10.0.0.2 c=10.0.0.3"
SWITCHES = ("FIRST_PORT=288", "CONNECTIONS=1000000;IDLE=4;KEEP=0;RETRY=0;MAXCONN=1;FIRST_PORT=288", "THREADS=4",
            "MAXCONN=4", "RATE=100", "PLAIN_BIND=127.0.0.1:8081",
            "TLS_BIND=;PLAIN_BIND=127.0.0.1:8081", "TLS_BIND=[::]:443 v4v6", "HAPROXY_USER=", "LOG=/dev/log local0",
            "LOG=/dev/log local0;LOG_DECISIONS=0", "THREADS=4;RATE=5;CHANGE_RATE=5;LOG_DECISIONS=0",
            "CLIENTS=10;UNDER_WAY=10;OF_SOURCE=0;REFUSALS=0", "AUDIT=1",
            *(f"DECISIONS=1;DECISION_REQUESTS={words}" for words in ("whole", "digest", "none")),
            "DECISIONS=1;LOG_DECISIONS=0", "AUDIT=1;METRICS=127.0.0.1:405", "METRICS=127.0.0.1:405",
            *(f"AUDIT=1;SELF=a;REPLICAS={MACHINES};ACK={word}" for word in ("all", "local")))
CURL = "curl --silent --show-error --cacert /etc/haproxy/pdpd.crt"
DOMAINS = "https://localhost/operator/domains"
C_LIBRARY = {"linux-vdso.so.1", "libc.so.6", "ld-linux-x86-64.so.2"}
WRONG = ("SHARDS=0", "SHARDS=65", "SHARDS=four", "MAXCONN=61", "FIRST_PORT=no", f"SOCKETS=/{'x' * 100}", "SOCKETS=run",
         "NO_SUCH=1", "a line", "SUPERVISOR=cron", "AUDIT=1\nREPLICAS=a=10.0.0.1", "SELF=a\nREPLICAS=a=10.0.0.1",
         "AUDIT=1\nSELF=a\nREPLICAS=a", "ACK=some", "TLS_BIND=", "LOG_DECISIONS=2", "DECISION_REQUESTS=some",
         *(f"AUDIT=1\nSELF=a\nREPLICAS=a=10.0.0.1\n{lines}" for lines in (
             "ALL_GROUPS=one=10.0.0.1", "GROUP=two\nALL_GROUPS=one=10.0.0.1", "GROUP=one\nALL_GROUPS=one=10.0.0.2",
             "GROUP=one\nALL_GROUPS='one=10.0.0.1 two=10.0.0.1'", "GROUP=one\nALL_GROUPS=one", "GROUP_PORT=0")),
         "GROUP=one\nALL_GROUPS=one=10.0.0.1")


def walk(machine, checks):
    """The commands of the page, from nothing to an answer over TLS."""
    count = 0
    for command, said in machine.walk():
        count += 1
        checks.say(f"$ {command}" + "".join(f"\n    {line}" for line in said.splitlines()[-3:]))
    checks.within("commands, beside that of the packages", count, range(10))
    listed = sh(f'{CURL} -H "Authorization: Bearer $(cat /etc/pdpd/token)" {DOMAINS}')
    checks.expect("the list over TLS", listed, '{"Domain":["acme"]}')
    second = sh(f'{CURL} --http1.1 -o /dev/null -w "%{{http_code}}" {DOMAINS}')
    checks.expect("without a token, over HTTP/1.1", second, "401")
    checks.expect("whose the programs are", {owner(pid(shard)) for shard in range(4)}, {"pdpd"})
    files = pathlib.Path("/var/lib/pdpd").glob("[0-3]/*")
    checks.expect("who may read the files", {mode(path) for path in files}, {"600"})
    machine.set(PLAIN_BIND=f"127.0.0.1:{PLAIN}")
    machine.operator = Operator(pathlib.Path("/etc/pdpd/token").read_text().strip())


def decision(machine, checks):
    """The messages of docs/guide/API.md up to a first decision, over TLS, as the page says."""
    page = (TOP / "docs" / "guide" / "API.md").read_text()
    block = re.search(r"(?ms)^## From nothing to a decision\n(.*?)^## ", page)[1]
    lines = [line for line in block.splitlines() if line.startswith("curl ") and "--retry" not in line]
    settings = re.findall(r"(?m)^    # ((?:operator=|at=|\(umask 077; sed ).*?)(?:; alias.*)?$", PAGE.read_text())
    checks.expect("what is set before", [line.split("=")[0][:6] for line in settings], ["(umask", "operat", "at"])
    first = "\n".join(settings)
    trusting = 'curl() { command curl --silent --cacert /etc/haproxy/pdpd.crt "$@"; echo; }'
    said = sh("\n".join([first, trusting, "cd /usr/local/share/doc/pdpd", *lines])).splitlines()
    checks.expect("messages", (len(lines), [line for line in said if line][:7]), (8, ["{}"] * 7))
    checks.expect(f"a decision: {said[-1]}", re.search(r'"Decision":"(Permit|Deny)"', said[-1]) is not None, True)


def owner(process):
    return sh(f"stat -c %U /proc/{process}").strip()


def mode(path):
    return f"{path.stat().st_mode & 0o777:o}"


def made_with(folder, text, **more):
    """Writes settings into a folder, and gives what `pdpd-shards config --write` says and its status. `more` is in its
    environment."""
    at = folder / "settings"
    at.mkdir(exist_ok=True)
    (at / "haproxy.cfg").unlink(missing_ok=True)
    settings = at / "shards.conf"
    settings.write_text(f"HAPROXY_ETC={at}\nHAPROXY_RUN={at}\n{text}\n")
    surroundings = {**os.environ, "PDPD_SETTINGS": str(settings), **more}
    words = ["pdpd-shards", "config", "--write"]
    ran = subprocess.run(words, env=surroundings, capture_output=True, text=True, check=False)
    return ran.returncode, ran.stdout + ran.stderr


def configurations(machine, checks):
    """HAProxy takes the configuration for 1, 2 and 4 shards and each switch; wrong settings are told."""
    machines = f"AUDIT=1\nSELF=a\nREPLICAS='{MACHINES}'"
    made = machine.folder / "certificates"
    sh(f"pdpd-replicas certificates {made} {MACHINES}")
    for count, switch in [(1, ""), (2, ""), *((4, switch) for switch in ("", *SWITCHES))]:
        lines = "\n".join(re.sub("=(.*)", r'="\1"', word) for word in switch.split(";"))
        found, said = made_with(machine.folder, f"SHARDS={count}\nETCD_CERTIFICATES={made}/a\n{lines}")
        checks.expect(f"{count} shards, {switch}: {said}", found, 0)
        if not switch:
            said = sh(f"haproxy -c -f {machine.folder}/settings/haproxy.cfg 2>&1")
            checks.expect(f"{count} shards, what HAProxy warns of: {said}", "[WARNING]" in said, False)
    for line in WRONG:
        found, said = made_with(machine.folder, line)
        checks.expect(f"{line}: {said}", (found, "shards.conf" in said), (1, True))
    found, said = made_with(machine.folder, "MAXCONN=60")
    checks.expect(f"more than a shard may have: {said}", (found, "of 64 a shard ends one for the" in said), (0, True))
    checks.expect("no word", "pdpd-shards: several pdpd" in shards(status=2), True)
    found, said = made_with(machine.folder, "CERTIFICATE=/no/such.pem")
    checks.expect(f"a certificate that isn't there: {said}", (found, "'/no/such.pem'" in said), (1, True))
    found, said = made_with(machine.folder, f"{machines}\nETCD_CERTIFICATES=/no/such")
    checks.expect(f"no certificates: {said}", (found, "pdpd-replicas certificates makes it" in said), (1, True))
    leases = machine.folder / "settings" / "leases.map"
    leases.unlink()
    found, _ = made_with(machine.folder, "AUDIT=1\nSELF=a\nREPLICAS=a=10.0.0.1\nCERTIFICATE=/no/such.pem")
    checks.expect("a map that a refused configuration leaves", (found, leases.exists()), (1, False))
    said = [shards("--help"), shards("status", "--xml", status=2)]
    checks.expect("its help", [text.strip() for text in said], [shards(status=2).strip()] * 2)
    containers = TOP / "deploy" / "container"
    checks.expect("the sidecar", sh(f"haproxy -c -q -f {containers}/haproxy-sidecar.cfg"), "")
    scripts = f"{LIBRARY}/pdpd-run {LIBRARY}/pdpd-hold {LIBRARY}/pdpd-replica-run {LIBRARY}/runit/*"
    scripts += f" {containers}/pdpd-contained {TOP}/deploy/debian/p*"
    sh(f"for script in {scripts}; do sh -n $script; done")


def installed(machine, checks):
    """The units, the checksums, a second installation elsewhere, and that the drawing is that of its text."""
    packed_again(machine, checks)
    units = "./pdpd@0.service ./pdpd-place@0.service ./pdpd-watchdog.service ./pdpd-backup@0.service ./pdpd-backup@0.timer"
    units += " ./pdpd-replica@0.service ./pdpd-decisions.service ./pdpd-verify.service ./pdpd-verify.timer"
    units += " ./pdpd-figures.service ./pdpd-rows.service ./pdpd-rows.timer ./pdpd-map.service"
    said = sh(f"cd /etc/systemd/system && systemd-analyze verify {units} 2>&1 || true")
    checks.expect("the units", said, "")
    there = machine.folder / "elsewhere"
    (archive,) = machine.folder.glob("pdpd-*.tar.gz")
    folder = next(path for path in machine.folder.glob("pdpd-*") if path.is_dir())
    # (as an earlier version left it)
    (there / "opt" / "pdpd" / "lib" / "pdpd" / "container").mkdir(parents=True)
    sh(f"DESTDIR={there} {folder}/deploy/install /opt/pdpd")
    checks.expect("what is built in the archive alone", [*there.rglob("container")], [])
    for file in ("etc/systemd/system/pdpd@.service", "opt/pdpd/lib/pdpd/runit/pdpd",
                 "opt/pdpd/lib/pdpd/prometheus/prometheus.yml"):
        text = (there / file).read_text()
        found = "/opt/pdpd/lib/pdpd/p" in text, "/usr/local" in text
        checks.expect(f"the place in {file}", found, (True, False))
    said = sh(f"{there}/opt/pdpd/lib/pdpd/pdpd-shards 2>&1 || true")
    checks.expect("it runs", said.startswith("pdpd-shards:"), True)
    lost = lost_links(folder / "docs" / "guide" / "OPERATING.md")
    checks.expect("links of the page that lead nowhere in the archive", lost, [])
    needed = sh(f"ldd {folder}/pdpd").split("\n")
    libraries = {line.split()[0].rpartition("/")[2] for line in needed if line.strip()}
    checks.expect("what the program needs: the C library", libraries, C_LIBRARY)
    sh(f"echo >> {folder}/pdpd")
    said = sh(f"{folder}/deploy/install {there}/x 2>&1 || true")
    checks.expect("a program that is another", "FAILED" in said, True)
    with open(folder / "pdpd", "r+b") as program:
        program.truncate(os.path.getsize(folder / "pdpd") - 1)
    checks.within("the bytes of the archive", archive.stat().st_size, Between(10_001))
    drawn = sh(f"{TOP}/deploy/draw.py --show")
    checks.expect("the drawing is that of its text", drawn, (TOP / "docs" / "guide" / "deployment.svg").read_text())


def packed_again(machine, checks):
    """The same files are packed into the same bytes, whenever that is. (The time in a gzip file is in seconds.)"""
    (archive,) = machine.folder.glob("pdpd-*.tar.gz")
    folder = machine.folder / "packed"
    wait_until(lambda: time.time() > archive.stat().st_mtime + 2, "the clock stands still")
    sh(f"{TOP}/deploy/dist.py --program {LIBRARY}/pdpd --to {folder}")
    digests = [hashlib.sha256((at / archive.name).read_bytes()).hexdigest() for at in (machine.folder, folder)]
    checks.expect("the archive, packed twice", digests[0] == digests[1], True)
    digest = hashlib.sha256((LIBRARY / "pdpd").read_bytes()).hexdigest()
    lines = pathlib.Path("/usr/local/share/doc/pdpd/PROGRAM").read_text().splitlines()
    said = sh(f"{next(machine.folder.glob('pdpd-*/deploy/install'))} {machine.folder}/told")
    checks.expect(f"which program it is: {said}", [line.endswith(f", SHA-256 {digest}") for line in
                                                   (lines[0], said.splitlines()[0])], [True, True])
    script = ("import sys; sys.path.insert(0, 'deploy'); import dist, programs; programs.proved_program = "
              "lambda name: None; dist.program_of(None)")
    said = sh(f"cd {TOP}; python3 -Bc \"{script}\" 2>&1 || true")
    checks.expect(f"without one that is proved: {said}", "deploy/dist.py --program PATH" in said, True)


def calls(machine, checks):
    """The system calls of a shard, from the shell on, are those that its unit allows."""
    at, unit = machine.folder / "calls", pathlib.Path("/etc/systemd/system/pdpd@.service").read_text()
    (at / "0").mkdir(parents=True)
    (at / "shards.conf").write_text(f"DATA={at}\nSOCKETS={at}\n")
    surroundings = {**os.environ, "PDPD_SETTINGS": str(at / "shards.conf"), "LC_ALL": "C"}
    run = LIBRARY / "pdpd-run", "0"
    words = ["strace", "-f", "-o", at / "trace", *run]
    messages = making("acme", "acme-token-1", operator=pathlib.Path("/etc/pdpd/token").read_text().strip())
    with subprocess.Popen(words, env=surroundings, stdout=subprocess.PIPE, stderr=subprocess.STDOUT) as traced:
        said = [traced.stdout.readline()]
        while not said[-1].startswith((b"listening ", b"pdpd-run: ")) and said[-1]:
            said.append(traced.stdout.readline())
        checks.expect(f"what it says of variables: {said}", [line for line in said if b"PDPD_" in line], [])
        again = subprocess.run(run, env=surroundings, capture_output=True, text=True, check=False)
        checks.expect(f"a second one: {again.stderr}", (again.returncode, "has it open" in again.stderr), (4, True))
        try:
            answers = [status_of(once(data, f"{at}/0/socket")) for data, _ in messages]
        finally:
            # (it is told to end, and answers what is under way)
            sh(f"kill $(cat /proc/{traced.pid}/task/{traced.pid}/children)")
            checks.expect("its end", traced.wait(30), 0)
    checks.expect("its answers", answers, [201, 200, 201, 200, 200])
    made = set(re.findall(r"(?m)^\d+ +(\w+)\(", (at / "trace").read_text()))
    checks.expect("it makes system calls: those that it doesn't", {"execve", "fdatasync", "accept4"} - made, set())
    checks.expect("and none that the unit forbids", sorted(made - allowed_by(unit)), [])


def allowed_by(unit):
    """The system calls that the lines SystemCallFilter of a unit leave (systemd.exec(5))."""
    sets, name = {}, ""
    for line in sh("systemd-analyze syscall-filter --no-pager").splitlines():
        word = line.strip()
        if line.startswith("@"):
            name = word
        elif word and not word.startswith("#"):
            sets.setdefault(name, []).append(word)

    def members(word):
        return set().union(*map(members, sets[word])) if word in sets else {word}

    allowed = set()
    for line in re.findall(r"(?m)^SystemCallFilter=(.*)", unit):
        named = set().union(*map(members, line.lstrip("~").split()))
        allowed = allowed - named if line.startswith("~") else allowed | named
    return allowed


# What no other start mends: the exit status of docs/guide/RUNNING.md for a mistake in the settings, and systemd's own
# (systemd.exec(5)) where it can't hand over the token.
MISTAKE, CREDENTIALS = 2, 243
# with so many bytes of addresses the shell and what comes before pdpd begin, and pdpd itself finds no memory
SCANT = 14 * 2 ** 20


def want_of_memory(machine, checks):
    """A shard that finds no memory is started again, however often: by its unit, as systemd.service(5) has it, and by
    runit here."""
    unit = pathlib.Path("/etc/systemd/system/pdpd@.service").read_text()
    settings = dict(re.findall(r"(?m)^(Restart|RestartSec|RestartPreventExitStatus|StartLimitIntervalSec)=(.*)", unit))
    prevented = set(settings.pop("RestartPreventExitStatus", "").split())
    wanted = {"Restart": "always", "RestartSec": "50ms", "StartLimitIntervalSec": "0"}
    checks.expect("how the unit starts it again", settings, wanted)
    checks.expect("the ends behind which it doesn't, of statuses and signals", prevented,
                  {str(MISTAKE), str(CREDENTIALS)})
    log, reason = pathlib.Path("/var/log/pdpd/pdpd-3/current"), "pdpd listen: out of memory"
    supervisor = int(sh("pgrep -f -x 'runsv pdpd-3'"))
    before = log.read_text().count(reason)
    # (what it may be at the most stays, so that it can be set back)
    sh(f"prlimit --pid {supervisor} --as={SCANT}: && kill -KILL {pid(3)}")
    try:
        wait_until(lambda: log.read_text().count(reason) > before + 1, "it isn't started again and again")
    finally:
        sh(f"prlimit --pid {supervisor} --as=unlimited:")
    wait_until(machine.operator.is_answered, "it isn't there again")


def lost_links(page):
    """The files to which a page leads, and that aren't there."""
    targets = re.findall(r"\]\(([^)#:]+)[^):]*\)", page.read_text())
    return sorted({target for target in targets if not (page.parent / target).exists()})


def certificate(machine, checks):
    """A new certificate, put where the page says: who trusts it alone is answered, and who trusts the old
    one alone isn't."""
    sh(f"""cp /etc/haproxy/pdpd.crt {machine.folder}/old.crt; umask 077; cd /etc/haproxy
    openssl req -x509 -newkey ec -pkeyopt ec_paramgen_curve:P-256 -nodes -days 30 -subj /CN=localhost \
        -addext subjectAltName=DNS:localhost -keyout pdpd.key -out pdpd.crt 2>&1; cat pdpd.crt pdpd.key > pdpd.pem""")
    shards("reload")
    found = [sh(f'curl --silent --cacert {trusted} -o /dev/null -w "%{{http_code}}" {DOMAINS} || true')
             for trusted in ("/etc/haproxy/pdpd.crt", machine.folder / "old.crt")]
    checks.expect("the new certificate, and the old one", found, ["401", "000"])


def upgrade(machine, checks):
    """The archive is installed again under load, as a newer one would be: all runs what is installed then, and
    nothing is lost. A file of another schema is refused, and stays as it was."""
    machine.operator.clear()
    asks = many(machine, 8)
    (archive,) = machine.folder.glob("pdpd-*.tar.gz")
    names = (*(f"pdpd-{shard}" for shard in range(4)), "pdpd-watchdog", "pdpd-backups")
    before = {name: service(name) for name in names}
    with Deciders(asks, 6) as deciders, Makers(machine.operator, "u") as makers:
        sh(f"mkdir {machine.folder}/again && tar xf {archive} -C {machine.folder}/again")
        sh(f"{machine.folder}/again/pdpd-*/deploy/install /usr/local")
        said = shards("upgrade")
    checks.expect("no decision is lost, or another's", deciders.wrong, [])
    checks.expect("no change is lost, or made twice", makers.wrong + makers.unanswered, [])
    made = set(makers.acknowledged)
    checks.expect("each change is there", made - set(machine.operator.names()), set())
    checks.expect("what still runs as before", [name for name in names if service(name) == before[name]], [])
    runs = {os.path.samefile(f"/proc/{pid(shard)}/exe", LIBRARY / "pdpd") for shard in range(4)}
    checks.expect("all shards run what is installed", runs, {True})
    checks.expect("each is told", said.count("is restarted"), 4)
    checks.say(f"an upgrade: {deciders.answered} decisions, the longest after {deciders.longest:.2f} s, and "
               f"{len(made)} changes")
    another_schema(machine, checks)


def service(name):
    """The process of a service."""
    return pathlib.Path(f"/etc/service/{name}/supervise/pid").read_text().strip()


def another_schema(machine, checks):
    """A file whose tables are of another schema."""
    name = re.search(r"/0/([^,]+), ", backs_up(0))[1]
    folder = machine.folder / "schema"
    shutil.copytree(f"/var/lib/pdpd-backups/0/{name}", folder)
    sys.path.insert(0, str(LIBRARY))
    from operating import carrying
    with carrying.open_store(folder / "pdpd.db") as base:
        base.execute("UPDATE meta SET schema_no = schema_no + 1")
    before = (folder / "pdpd.db").read_bytes()
    words = ["pdpd", "listen", folder / "pdpd.db", "127.0.0.1:7199", "/etc/pdpd/token"]
    ran = subprocess.run(words, capture_output=True, text=True, check=False, timeout=20)
    found = ran.returncode, "not a store of this program (schema)" in ran.stderr
    checks.expect(f"another schema: {ran.stderr}", found, (4, True))
    checks.expect("and the file stays", (folder / "pdpd.db").read_bytes(), before)


def status(machine, checks):
    """What `pdpd-shards status` says while all is well, and while a shard is away."""
    backs_up()
    shards("remap")
    said = shards("status")
    count = len(re.findall(r"(?m)^\d+ +up ", said))
    checks.expect("each shard is up", count, int(re.search(r"(?m)^SHARDS=(\d+)", SETTINGS.read_text())[1]))
    checks.expect("its last line", said.splitlines()[-1], "nothing is wrong")
    sh("sv down /etc/service/pdpd-1")
    said = shards("status", status=1)
    found = re.search(r"(?m)^1 +down ", said), "WRONG: shard 1 takes no connections" in said, "nothing is wrong" in said
    checks.expect("one is away", (found[0] is not None, *found[1:]), (True, True, False))
    checks.expect("it has no backup", "shard 1 doesn't run" in shards("backup", 1, status=1), True)
    token = pathlib.Path("/etc/pdpd/token")
    held = token.read_text()
    token.write_text("another-token-1\n")
    said = shards("status", status=1)
    found = re.search(r"(?m)^0 +up +- ", said) is not None, "shard 0 was started with another operator's token" in said
    checks.expect("with a token that has changed", found, (True, True))
    token.write_text(held)
    sh("sv up /etc/service/pdpd-1")
    shards("restart", 1)


# what is kept, and what other users have to come through to get there
KEPT = ("/var/lib/pdpd", "/var/lib/pdpd-backups", "/var/log/pdpd", "/run/pdpd", "/etc/pdpd/token",
        "/etc/haproxy/pdpd.pem", "/etc/haproxy/pdpd.key")


def secrets(machine, checks):
    """No token stands in a log, in a store, in a backup, or in what a process was started with; and no other user reads
    what is kept, or a log."""
    operator = machine.operator
    operator.clear()
    asks = many(machine, 8)
    wrong = "no-such-token-1"
    sent = [*(ask for ask, _ in asks), message("GET", "/operator/domains", wrong), message("HEAD", "/", wrong),
            message("GET", "/domains/d1/pip/none?x", wrong), operator.message("GET", "/no-such-route"),
            message("POST", "/domains/d1/pap/policies", "d1-token-1", "{")]
    checks.expect("all are answered", [status_of(once(data)) is None for data in sent], [False] * len(sent))
    backs_up()
    name = re.findall(r"(?m)^1 (\S+)", shards("backups"))[-1]
    shards("put-back", 1, name, "--yes")
    token = pathlib.Path("/etc/pdpd/token").read_text().strip()
    logs = sh("cat /var/log/pdpd/refused/current")
    checks.expect("the log of what was refused has those messages", "/domains/d1/pip/none" in logs, True)
    for word in (token, wrong, *(f"d{number}-token-1" for number in range(8))):
        found = sh(f"grep -rlaF -- {word} /var/log/pdpd /var/lib/pdpd /var/lib/pdpd-backups || true")
        checks.expect(f"where the token {word[:6]}.. stands", found, "")
        started = [path for path in pathlib.Path("/proc").glob("[0-9]*/*")
                   if path.name in ("cmdline", "environ") and word.encode() in bytes_of(path)]
        checks.expect(f"processes that were started with {word[:6]}..", started, [])
    for user in ("nobody", "haproxy"):
        said = as_user(user, f"find {' '.join(KEPT)} -type f -readable 2> /dev/null || true")
        checks.expect(f"what {user} can read", said, "")
    said = as_user("pdpd", f"find {' '.join(KEPT)} -type f -readable 2> /dev/null || true").split()
    its = re.compile(r"/var/lib/pdpd/\d/|/run/pdpd/\d/token")
    checks.expect("what pdpd can read beside its own", [path for path in said if not its.match(path)], [])
    found = sh("stat -c '%U %a' /var/lib/pdpd-backups /run/pdpd")
    checks.expect("what others can pass through alone", found, "root 711\n" * 2)
    checks.expect("folders of shards", sh("find /var/lib/pdpd/? -maxdepth 0 -not -perm 700"), "")
    count = len(sh("find /var/lib/pdpd-backups -name pdpd.db; find /var/log/pdpd -name current").split())
    checks.within("files that nobody else could read", count, Between(11))


def bytes_of(path):
    """What a file of a process has; nothing where the process is gone."""
    try:
        return path.read_bytes()
    except OSError:
        return b""
