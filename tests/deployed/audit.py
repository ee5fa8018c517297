"""The log of changes and the decision log: the commands of the page, over what is installed."""
import collections
import json
import pathlib
import re
import subprocess
import time

from checks import Between

from .clients import Load, Makers
from .machine import LIBRARY, PAGE, PLAIN, SETTINGS, TOP, backs_up, sh, shards, wait_until

DECISIONS, ARCHIVES = pathlib.Path("/var/log/pdpd-decisions"), pathlib.Path("/var/lib/pdpd-replica")
# HAProxy's logs, each of its kinds of lines (docs/guide/OPERATING.md, Logs)
LOGS = pathlib.Path("/var/log/pdpd")
WARD = TOP / "examples" / "ward"
# how many of the page's commands switch it on
SWITCH = 3
# for how long daemon, pdpd and HAProxy are killed at the most, in seconds
KILLING = 240
TOKENS = {"admin": "ward-audit-admin", "ask": "ward-audit-asks"}


def commands(name):
    """Those of a section of the page, in order."""
    section = re.search(rf"(?ms)^## {name}\n(.*?)^## ", PAGE.read_text())[1]
    return re.findall(r"(?m)^    # (.*)$", section)


def switch_on(machine):
    """Gives the page's commands that switch the log of changes on, unless it is on; what they say."""
    if machine.is_audited:
        return []
    machine.is_audited = True
    return [f"$ {command}\n    {sh(command).strip()[-200:]}" for command in commands("Audit")[:SWITCH]]


def sent(method, path, token, body=None):
    """The status and the body of a reply through HAProxy."""
    words = ["curl", "--silent", "--max-time", "60", "-w", "\n%{http_code}", "-X", method, "-H",
             f"Authorization: Bearer {token}", f"http://127.0.0.1:{PLAIN}{path}"]
    if body is not None:
        words += ["-H", "Content-Type: application/json", "--data-binary", body]
    ran = subprocess.run(words, capture_output=True, text=True, check=False)
    text, _, status = ran.stdout.rpartition("\n")
    return int(status), text


def make_ward(operator):
    """The domain `ward` anew; the statuses."""
    at, pap = "/operator/domains/ward", "/domains/ward/pap"
    sent("DELETE", at, operator)
    steps = [("PUT", at, operator), *(("POST", f"{at}/tokens", operator, json.dumps({"Role": role, "Token": token}))
                                      for role, token in TOKENS.items()),
             ("POST", f"{pap}/policies", TOKENS["admin"], (WARD / "policy.json").read_text()),
             ("PUT", f"{pap}/policy/urn:example:ward:records/1.0/active", TOKENS["admin"]),
             ("PUT", f"{pap}/root", TOKENS["admin"], '{"PolicyIdReference":{"Id":"urn:example:ward:records"}}'),
             ("PUT", "/domains/ward/pip", TOKENS["admin"], (WARD / "rows.json").read_text())]
    return [sent(*step)[0] for step in steps]


def audit(machine, checks):
    """AUDIT=1 is switched on under a tenant, and each command of the page is given as it stands."""
    operator = machine.operator.token
    sent("PUT", "/operator/domains/before", operator)
    put = sh("echo before-admin-1 | pdpd-log token").strip()
    for token in ("before-admin-1", put):
        sent("POST", "/operator/domains/before/tokens", operator, json.dumps({"Role": "admin", "Token": token}))
    found = collections.Counter()

    def ask(_):
        found[sent("GET", "/domains/before/pip", "before-admin-1")[0]] += 1
    checks.expect("before", sent("GET", "/domains/before/pip", "before-admin-1")[0], 200)
    with Load(ask, 1):
        for line in switch_on(machine):
            checks.say(line)
        seen = found[200]
        wait_until(lambda: found[200] > seen + 5, "the tenant isn't let in")
    checks.expect("what the tenant gets all the time", set(found), {200})
    wait_until(lambda: sent("PUT", "/operator/domains/behind", operator)[0] in (201, 409), "no change is taken")
    logged = decisions_in_logs()
    decided = decided_of_ward(operator, DECISIONS, checks)
    in_logs_of_proxy(logged, checks)
    past_the_log(operator, checks)
    backs_up()
    looked_at(checks)
    folder = machine.folder / "audit"
    folder.mkdir()
    said = said_by_page(lambda command: sh(command, cwd=folder), operator, checks)
    compare(said, decided, folder / "ward-then", checks)
    kept(operator, checks)


def past_the_log(operator, checks):
    """Where HAProxy asks a shard no change is taken, also of the operator's; what is read is."""
    at = f"-H 'Authorization: Bearer {operator}' --unix-socket /run/pdpd-shards/0/socket http://localhost/operator/domains"
    asked = "curl --silent --output /dev/null --write-out '%{http_code}' "
    found = [sh(f"{asked} {words}") for words in (f"-X PUT {at}/past", f"-X DELETE {at}/ward", at)]
    checks.expect("past the daemon", found, ["503", "503", "200"])
    listed = sent("GET", "/operator/domains", operator)[1]
    checks.expect("what was made of it", ('"past"' in listed, '"ward"' in listed), (False, True))
    changes = pathlib.Path("/run/pdpd-shards/0/changes")
    found = changes.owner(), changes.group(), f"{changes.stat().st_mode & 0o777:o}"
    checks.expect("who may connect to the daemon's", found, ("pdpd", "haproxy", "660"))


def decided_of_ward(operator, decisions, checks):
    """Makes the domain anew, and gives a decision of it, once its line is there and the next second has begun: the
    page's commands name whole ones."""
    checks.expect("a domain", make_ward(operator), [201, 200, 200, 201, 200, 200, 200])
    decided = sent("POST", "/domains/ward/pdp", TOKENS["ask"], (WARD / "request-alice.json").read_text())
    second = int(time.time()) + 1
    wait_until(lambda: time.time() >= second, "the clock stands still")
    wait_until(lambda: count_of_decisions(decisions) > 0, "no decision is logged")
    return decided


def said_by_page(run, operator, checks):
    """Gives the page's commands behind those that switch the log on, as they stand; what each says, by its word."""
    said = {}
    for command in commands("Audit")[SWITCH:]:
        if command.startswith("pdpd-log forget"):
            checks.expect("the domain is removed", sent("DELETE", "/operator/domains/ward", operator)[0], 200)
        said[command.split()[1]] = run(command)
        checks.say(f"$ {command}\n    " + "\n    ".join(said[command.split()[1]].splitlines()[-3:]))
    return said


def count_of_decisions(decisions=DECISIONS):
    """The lines of decisions."""
    return sum(len(path.read_text().splitlines()) for path in decisions.glob("*.log"))


def looked_at(checks):
    """`pdpd-shards status` tells the last entry of each shard, and what logs nothing."""
    shard = int(shards("where", "ward"))
    found = re.search(rf"(?m)^{shard} +up .* (\d+) +\S+ min ago", shards("status"))
    checks.expect("the last entry of the shard, beyond those of the domain", found and int(found[1]) >= 7, True)
    away = f"no change of shard {shard} is taken: pdpd-replica doesn't answer"
    for service, told in ((f"pdpd-replica-{shard}", away), ("pdpd-decisions", "no line of a decision is kept")):
        sh(f"sv down /etc/service/{service}")
        checks.expect(f"without {service}", f"WRONG: {told}" in shards("status", status=1), True)
        sh(f"sv up /etc/service/{service}")
    (path,) = (ARCHIVES / str(shard)).glob("*.log")
    held = path.read_bytes()
    path.write_bytes(held[:40] + b"x" + held[41:])
    sh(f"sv restart /etc/service/pdpd-replica-{shard} || true")
    told = f"WRONG: no change of shard {shard} is taken: {path} is damaged at byte 0, and whole records"
    checks.expect("a damaged archive", told in shards("status", status=1), True)
    path.write_bytes(held)
    sh(f"sv up /etc/service/pdpd-replica-{shard}")
    wait_until(lambda: "no change" not in sh("pdpd-shards status || true"), "the daemon isn't there again")


def lines_with(folder, words):
    """How many such lines a log of HAProxy has."""
    files = [*(LOGS / folder).glob("current"), *(LOGS / folder).glob("@*")]
    return sum(len(re.findall(words, path.read_text(errors="replace"))) for path in files)


def decisions_in_logs():
    """How many lines the logs of HAProxy have of decisions of the domain, by their names."""
    return {name: lines_with(name, '"/domains/ward/pdp" 200 ') for name in ("changes", "haproxy", "decisions")}


def ask_ward(token):
    """The status of a request for a decision."""
    return sent("POST", "/domains/ward/pdp", token, (WARD / "request-alice.json").read_text())[0]


def in_logs_of_proxy(logged, checks):
    """HAProxy's own logs have their kinds of lines beside. A decision that was given is in its own log alone, and with
    LOG_DECISIONS=0 it is there, too."""
    checks.expect("a token that isn't the domain's", ask_ward("ward-nobody"), 401)
    refused = r'(?m) refused .* POST "/domains/ward/pdp" 401 '
    wait_until(lambda: lines_with("refused", refused), "what was refused isn't logged")
    change = r'(?m) change .* changes\d+/?\S* PUT "/domains/ward/pip" 200 '
    wait_until(lambda: lines_with("changes", change), "the change isn't logged")
    before, text = count_of_decisions(), SETTINGS.read_text()
    SETTINGS.write_text(re.sub(r"(?m)^LOG_DECISIONS=.*$", "LOG_DECISIONS=0", text))
    for words in (("config", "--write"), ("reload",)):
        shards(*words)
    checks.expect("a decision with LOG_DECISIONS=0", ask_ward(TOKENS["ask"]), 200)
    wait_until(lambda: count_of_decisions() == before + 1, "it isn't logged")
    SETTINGS.write_text(text)
    for words in (("config", "--write"), ("reload",)):
        shards(*words)
    given = [name for name, count in decisions_in_logs().items() if count > logged[name]]
    checks.expect("logs of HAProxy that have a decision", given, [])


def compare(said, decided, state, checks):
    """What the commands say; the last state is in that folder."""
    checks.expect("the changes", len(said["changes"].splitlines()) >= 7, True)
    what = re.compile(r'"Decision":"\w+"')
    checks.expect("the decision", what.findall(said["decide"]), what.findall(decided[1]))
    checks.expect("the state", (state / "domain.json").exists(), True)
    checks.expect("the difference", "new        policy urn:example:ward:records 1.0" in said["diff"], True)
    found = re.findall(r"(\d+) replies that replay gives otherwise", said["check"])
    checks.expect("check", (len(found) > 0, set(found)), (True, {"0"}))
    checks.expect("verify", re.findall(r"[1-9]\d* same, 0 other", said["verify"]) != [], True)
    checks.expect("forget", "1 keys of ward are gone" in said["forget"], True)


def kept(operator, checks):
    """What stands on the disk, and who may read it."""
    words = "|".join([*TOKENS.values(), operator])
    places = f"/var/lib/pdpd-replica /var/lib/pdpd /var/lib/pdpd-backups /var/log/pdpd {DECISIONS}"
    secret = sh(f"grep -rlE '{words}' {places} || true")
    checks.expect("files that have a token", secret, "")
    clear = sh("grep -rlE 'urn:example:role|PolicyId' /var/lib/pdpd-replica || true")
    checks.expect("files of the archive that have policies or rows", clear, "")
    files = [path for path in pathlib.Path("/var/lib/pdpd-replica").glob("*/*.log")]
    checks.expect("whose the archives are, and who may read them",
                  {(path.owner(), f"{path.stat().st_mode & 0o777:o}") for path in files}, {("pdpd-replica", "600")})
    found = {(path.owner(), path.group(), f"{path.stat().st_mode & 0o777:o}") for path in DECISIONS.glob("*.log")}
    checks.expect("and the lines of decisions", found, {("pdpd-replica", "pdpd-replica", "640")})


def restarted_logged(machine, checks):
    """Restarts in a stream of changes that are logged: each is answered, and none is made twice."""
    switch_on(machine)
    with Makers(machine.operator, "logged", pause=0.02) as makers:
        for _ in range(2):
            shards("restart")
    checks.expect("changes without success", (makers.wrong, makers.unanswered), ([], []))
    checks.within("those that were made", len(makers.acknowledged), Between(20))
    checks.expect("and are there", {*makers.acknowledged} - {*machine.operator.names()}, set())


def killed_logged(machine, checks):
    """Daemon, pdpd and HAProxy are killed in a stream of changes beside 60 who ask, 200 times unless that takes too
    long."""
    said = sh(f"{TOP}/tests/audit.py {LIBRARY}/pdpd kills --kills 200 --seconds {KILLING} --askers 60")
    checks.say(said.strip().splitlines()[0].strip())
    checks.expect("tests/audit.py kills", ", 0 failed" in said, True)
