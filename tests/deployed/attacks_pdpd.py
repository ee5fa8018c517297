"""What the user pdpd tries: it puts things into its own folders, so that root's tools do what it can't do itself."""
import contextlib
import os
import pathlib
import re
import shlex
import sqlite3
import subprocess
import sys
import time
import zlib
from unittest import mock

from checks import Between

from .attacks_local import Local, asked_status, owner_and_mode
from .clients import decision, once, policy
from .machine import LIBRARY, PAGE, as_user, backs_up, pid, sh, shards, wait_until

SECRET = "only root reads this"
# things that the user pdpd puts in place of a file, each as a command of the shell with {} for the file
THINGS = {
    "a link to a file of root's": "ln -s /var/only-root {}",
    "a link to an endless file": "ln -s /dev/zero {}",
    "a pipe": "mkfifo {}",
    "a folder": "mkdir {}",
}


@contextlib.contextmanager
def planted(path, command):
    """Meanwhile something else is in place of a file of pdpd's, which the user pdpd put there."""
    as_user("pdpd", f"mv {path} {path}.kept; {command.format(path)}")
    try:
        yield
    finally:
        sh(f"rm -rf {path}; mv {path}.kept {path}")


def make_secret():
    """A file that root alone can read, on the disk of the shards."""
    sh(f"umask 077; echo '{SECRET}' > /var/only-root")
    return owner_and_mode("/var/only-root")


def backed_up(machine, checks):
    """A backup of a shard in whose folder pdpd has put other things: none is followed, none is waited for, and nothing
    of root's comes into a backup."""
    machine.operator.clear()
    backs_up(3)
    secret, before, place = make_secret(), shards("backups"), pathlib.Path("/var/lib/pdpd/3")
    plants = [(f"{what} in place of {name}", name, command)
              for name in ("pdpd.db", "pdpd.db-wal") for what, command in THINGS.items()]
    # (the kernel may let pdpd make such a link, fs.protected_hardlinks)
    plants.append(("a hard link to a file of root's", "pdpd.db-wal", ""))
    for what, name, command in plants:
        with planted(place / name, command):
            if not command:
                sh(f"ln /var/only-root {place / name}")
            began = time.time()
            said = shards("backup", 3, status=1)
            found = f"{place / name} " in said, "look who put it there" in said
            checks.expect(f"{what}: {said}", found, (True, True))
            checks.within(f"{what}: the seconds", time.time() - began, Between(0, 20))
    checks.expect("no backup counts", shards("backups"), before)
    found = sh(f"grep -rl '{SECRET}' /var/lib/pdpd-backups /var/lib/pdpd || true")
    checks.expect("what is copied of root's", found, "")
    checks.expect("the file of root's", owner_and_mode("/var/only-root"), secret)
    backs_up(3)


# It swaps the folder in which the files of a backup wait, as often as it can, for one of its own with links to a file
# of root's.
SWAPPER = """
import os, sys
os.chdir(sys.argv[1])
number = 0
while True:
    try:
        os.rename("coming", f"c{number}")
        os.mkdir("coming")
        for name in ("pdpd.db", "pdpd.db-wal", "evil"):
            os.symlink("/var/only-root", f"coming/{name}")
        print("swapped", flush=True)
        number += 1
    except OSError:
        pass
"""


# It has something else in place of the store and of its log, as often as it can: a link to a file of root's, a pipe, a
# folder, and the store again.
EXCHANGER = """
import os, sys
os.chdir(sys.argv[1])
makes = {"link": lambda: os.symlink("/var/only-root", "link"), "pipe": lambda: os.mkfifo("pipe"),
         "folder": lambda: os.mkdir("folder")}
for make in makes.values():
    make()
files = "pdpd.db", "pdpd.db-wal"
for file in files:
    os.link(file, f"{file}.kept")
while True:
    for name in makes:
        for file in files:
            os.unlink(file)
            os.rename(name, file)
            print("swapped", flush=True)
            os.rename(file, name)
            os.link(f"{file}.kept", file)
"""
# It tells whether what root alone reads has come into the folder of a trial, which is pdpd's then.
READER = """
import time
while True:
    time.sleep(0.005)
    for name in ("pdpd.db", "pdpd.db-wal"):
        try:
            with open(f"/var/lib/pdpd-backups/.tried/{name}", "rb") as file:
                if b"only root reads this" in file.read():
                    print("leaked", flush=True)
        except OSError:
            pass
"""
# Once the folder of a trial is there, and pdpd's, it fills it with links to root's, has links and folders change
# places, and takes the store's place.
TRIED = """
import os
place = "/var/lib/pdpd-backups/.tried"
while True:
    try:
        os.chdir(place)
        for name in ("pdpd.db", "pdpd.db-wal", "token", "evil"):
            os.symlink("/var/only-root", "link")
            os.rename("link", name)
        for number in range(50):
            os.mkdir(f"d{number}")
            os.symlink("/var/target", f"d{number}/inside")
            print("swapped", flush=True)
            os.rename(f"d{number}", f"e{number}")
            os.symlink("/var/target", f"d{number}")
    except OSError:
        pass
"""


def swapped_as_copied(checks, place):
    """The store and its log are swapped for links to a file of root's once they were looked at, and before they are
    copied: the copies are those of what was looked at."""
    sys.path.insert(0, str(LIBRARY))
    from operating import backups, owned, settings
    run, moments = owned.run, []

    def swaps(what, words, *more, **how):
        name = what.rpartition("/")[2]
        if not what.endswith(f"{place}/{name}"):
            return run(what, words, *more, **how)
        moments.append(name)
        with planted(place / name, "ln -s /var/only-root {}"):
            return run(what, words, *more, **how)

    with mock.patch.object(owned, "run", swaps), settings.alone():
        try:
            path, names, _ = backups.backup(settings.read(), 3)
        except settings.Wrong as fault:
            path, names = place, str(fault)
    checks.expect("what was swapped as it was copied", moments, ["pdpd.db", "pdpd.db-wal"])
    checks.expect("what is copied", (len(names) > 0, sh(f"grep -rl '{SECRET}' {path} || true")), (True, ""))
    checks.expect("its domains", isinstance(names, list), True)


def swapped(machine, checks):
    """Backups of a shard whose user swaps the store in its folder, and then all in the folder of the trial, which is
    its own then: each counts or says why it doesn't, and nothing of root's is read, changed, given away or removed."""
    machine.operator.clear()
    names = [machine.operator.creates(f"s{number}") for number in range(8)]
    for data in names:
        once(data)
    place, target = pathlib.Path("/var/lib/pdpd/3"), pathlib.Path("/var/target")
    backs_up(3)
    secret = make_secret()
    swapped_as_copied(checks, place)
    sh(f"umask 077; mkdir -p {target}; echo '{SECRET}' > {target}/file")
    for what, program, words in (("the store", EXCHANGER, [place]), ("the trial", TRIED, [])):
        began, ends = time.time(), []
        with Local("pdpd", program, *words) as swapper, Local("pdpd", READER) as reader:
            for _ in range(3):
                ran = subprocess.run(["pdpd-shards", "backup", "3"], capture_output=True, text=True, check=False)
                ends.append(ran.returncode)
                checks.within(f"{what} is swapped: {ran.stdout + ran.stderr}", "Traceback" in ran.stderr, [False])
            checks.within(f"{what}: how often it is swapped", swapper.said().count("swapped"), Between(1))
            checks.expect(f"{what}: what pdpd reads of root's", reader.said(), "")
        checks.say(f"{what} is swapped: {ends.count(0)} of {len(ends)} backups count")
        checks.within(f"{what}: the seconds", time.time() - began, Between(0, 400))
        sh(f"cd {place}; for file in pdpd.db pdpd.db-wal; do if [ -e $file.kept ]; then rm -rf $file link pipe folder; "
           "mv $file.kept $file; fi; done")
        found = owner_and_mode("/var/only-root"), sh(f"cat /var/only-root {target}/file"), os.listdir(target)
        checks.expect(f"{what}: what is root's", found, (secret, f"{SECRET}\n" * 2, ["file"]))
        found = sh(f"grep -rl '{SECRET}' /var/lib/pdpd-backups /var/lib/pdpd || true")
        checks.expect(f"{what}: what is copied of it", found, "")
    said = shards("backup", 3)
    checks.expect(f"behind it: {said}", (machine.operator.is_answered(), " 0 domains" in said), (True, False))
    checks.expect("what is left", sorted(os.listdir("/var/lib/pdpd-backups")), ["0", "1", "2", "3"])
    sh(f"rm -r /var/only-root {target}")


# the programs that change files, and the places on the page that aren't pdpd's
CHANGES = re.compile(r"(?:^|[;&|(] *)(?:sqlite3|chmod|chown|cp|mv|rm|ln|tar|install|touch|mkdir|rsync|tee) +\S")
NOT_ITS = re.compile(r"/etc/|/usr/local|pdpd-0\.1|/var/lib/pdpd-backups|\$at")


def commands_on(page):
    """The commands of a page: lines of its blocks, what is indented behind a prompt, and what stands in its prose."""
    blocks = "".join(re.findall(r"(?ms)^```sh\n(.*?)^```", page))
    lines = [*blocks.splitlines(), *re.findall(r"(?m)^ {4,}# (.*)", page)]
    return [*lines, *re.findall(r"`([^`]+)`", re.sub(r"(?ms)^```.*?^```", "", page))]


def by_hand(machine, checks):
    """No command of the page has root change what is in a folder of pdpd's: where pdpd has put a link there, the page's
    own way to a file without free pages leaves root's file as it is. Else it does what it is for."""
    page = PAGE.read_text()
    found = [line for line in commands_on(page) if CHANGES.search(line) and not NOT_ITS.search(line)]
    checks.expect("commands that root would run there", found, [])
    block = re.search(r"(?ms)^## What stays.*?^    # (sv .*?)\n\n", page)
    commands = re.sub(r"(pdpd[-/]|restart )0", r"\g<1>3", block[1].replace("    # ", ""))
    machine.operator.clear()
    names = [name for name in map("v{}".format, range(40)) if zlib.crc32(name.encode()) % 4 == 3]
    for name in names:
        machine.operator.makes(name, text=policy("Permit", description="y" * 60_000))
    for name in names[1:]:
        once(machine.operator.message("DELETE", f"/{name}"))
    file = pathlib.Path("/var/lib/pdpd/3/pdpd.db")
    shards("restart", 3)
    sh(commands)
    wait_until(machine.operator.is_answered, "the shard isn't there again")
    with sqlite3.connect(f"file:{file}?mode=ro&immutable=1", uri=True) as base:
        checks.expect("free pages", base.execute("PRAGMA freelist_count").fetchone(), (0,))
    base.close()
    checks.expect("its domain", machine.operator.names(), names[:1])
    sh(f"umask 077; cp {file} /var/only-root.db; sqlite3 /var/only-root.db 'CREATE TABLE t AS SELECT 1; DROP TABLE t'")
    digest = sh("sha256sum /var/only-root.db")
    sh("sv down pdpd-3")
    wait_until(lambda: not pid(3), "a shard isn't ended")
    with planted(file, "ln -s /var/only-root.db {}"):
        words = ["bash", "-c", commands.partition("sv up")[0]]
        ran = subprocess.run(words, capture_output=True, text=True, check=False)
        checks.within(f"with a link in its place: {ran.stderr}", "unable to open" in ran.stderr, [True])
        checks.expect("the file of root's", sh("sha256sum /var/only-root.db"), digest)
    sh("rm /var/only-root.db*; sv up pdpd-3")
    wait_until(machine.operator.is_answered, "the shard isn't there again")


def put_backs(machine, checks):
    """A put-back into a folder that pdpd swaps things in: nothing that is linked there is changed, given away or
    filled, and a mark that no put-back wrote is refused before anything is moved."""
    machine.operator.clear()
    backs_up(3)
    secret, place = make_secret(), pathlib.Path("/var/lib/pdpd/3")
    name = re.findall(r"(?m)^3 (\S+)", shards("backups"))[-1]
    with Local("pdpd", SWAPPER, place) as swapper:
        for _ in range(3):
            words = ["pdpd-shards", "put-back", "3", name, "--yes"]
            ran = subprocess.run(words, capture_output=True, text=True, check=False)
            checks.say(f"with a folder that is swapped: {ran.returncode} {ran.stdout + ran.stderr}".strip())
        checks.within("how often the folder is swapped", swapper.said().count("swapped"), Between(1))
    found = owner_and_mode("/var/only-root"), pathlib.Path("/var/only-root").read_text().strip()
    checks.expect("the file of root's", found, (secret, SECRET))
    # the swapper leaves more names than a command line has room for
    sh(f"find {place} -maxdepth 1 '(' -name coming -o -name 'c[0-9]*' ')' -exec rm -rf '{{}}' +")
    shards("put-back", 3, name, "--yes")
    checks.expect("behind it", (machine.operator.is_answered(), asked_status().count(" up ")), (True, 4))
    marks(machine, checks, place, name)
    things(machine, checks, place, name)


def marks(machine, checks, place, name):
    """Marks that pdpd writes."""
    mark, before = place / "put-back-unfinished", sorted(os.listdir("/var"))
    sh("mkdir -p /var/target")
    hostile = {"a name that leads elsewhere": "echo ../../../target > {}", "an absolute name": "echo /var/target > {}",
               "no name": "echo > {}", "a name that is a link": "echo before-1 > {}; ln -s /var/target before-1",
               "a link": "ln -s /var/only-root {}", "a pipe": "mkfifo {}"}
    for what, command in hostile.items():
        as_user("pdpd", f"cd {place}; {command.format(mark)}")
        said = shards("put-back", 3, name, "--yes", status=1)
        checks.expect(f"a mark, {what}: {said}", "look who put it there" in said, True)
        found = os.listdir("/var/target"), (place / "pdpd.db").exists()
        checks.expect(f"a mark, {what}: what is moved", found, ([], True))
        sh(f"rm -rf {mark} {place}/before-1")
    sh("rmdir /var/target")
    checks.expect("what is new in /var", sorted(os.listdir("/var")), before)


def things(machine, checks, place, name):
    """Things in the place of the shard's own files, and in that of the folder that files come from: they go, and the
    backup is put back."""
    sh("sv down /etc/service/pdpd-3")
    wait_until(lambda: not pid(3), "a shard isn't ended")
    for what, command in THINGS.items():
        for file in ("pdpd.db", "pdpd.db-wal", "coming"):
            as_user("pdpd", f"cd {place}; rm -rf {file}; {command.format(file)}")
        shards("put-back", 3, name, "--yes")
        checks.expect(f"{what}: behind it", machine.operator.is_answered(), True)
        aside = [path for path in place.glob("before-*/*") if not path.is_file() or path.is_symlink()]
        checks.expect(f"{what}: kept aside", aside, [])
    deep = "import os\nfor _ in range(3000): os.mkdir('d'); os.chdir('d')"
    as_user("pdpd", f"cd {place}; mkdir coming; cd coming; python3 -c {shlex.quote(deep)}")
    said = shards("put-back", 3, name, "--yes", status=1)
    checks.expect(f"a folder that is very deep: {said}", "look who put it there" in said, True)
    sh(f"rm -rf {place}/coming")
    checks.expect("the file of root's", owner_and_mode("/var/only-root"), "root root 600 regular file")


def moved(machine, checks):
    """A move between shards of which one has a link to a store of root's in its place: that is neither read nor
    changed, and the domain stays. The program that carries waits for no pipe, and reads nothing without an end."""
    machine.operator.clear()
    ask = machine.operator.makes("mover")
    one = int(shards("where", "mover"))
    other = (one + 1) % 4
    backs_up(other)
    name = re.findall(rf"(?m)^{other} (\S+)", shards("backups"))[-1]
    sh(f"umask 077; cp /var/lib/pdpd-backups/{other}/{name}/pdpd.db /var/only-root.db")
    digest, place = sh("sha256sum /var/only-root.db"), f"/var/lib/pdpd/{other}"
    sh(f"sv down /etc/service/pdpd-{other}")
    wait_until(lambda: not pid(other), "a shard isn't ended")
    # (a log beside it would be taken for the other store's)
    as_user("pdpd", f"cd {place}; mkdir kept; mv pdpd.db* kept; ln -s /var/only-root.db pdpd.db")
    said = shards("move", "mover", one, other, status=1)
    checks.expect(f"a store of root's: {said}", "can't be" in said, True)
    found = sh("sha256sum /var/only-root.db; ls /var/only-root.db*")
    checks.expect("it is as it was", found, f"{digest}/var/only-root.db\n")
    sh(f"cd {place}; rm -f pdpd.db*; mv kept/* .; rmdir kept; sv up /etc/service/pdpd-{other}")
    wait_until(machine.operator.is_answered, "the shard isn't there again")
    checks.expect("the domain is where it was", (int(shards("where", "mover")), decision(once(ask))), (one, "Permit"))
    shards("move", "mover", one, other)
    checks.expect("and moves", (int(shards("where", "mover")), decision(once(ask))), (other, "Permit"))
    sh("rm -f /var/only-root*")
    make_secret()
    sh("install -d -o pdpd /tmp/carried")
    for number, (what, command) in enumerate(THINGS.items()):
        file = f"/tmp/carried/{number}.db"
        carries = f"timeout 20 /usr/bin/python3 -IB {LIBRARY}/operating/carrying.py mover {file} {file}"
        said = as_user("pdpd", f"{command.format(file)}; {carries} || echo ends with $?")
        checks.expect(f"{what} in place of a store: {said}", "look who put it there\nends with 5" in said, True)


def reserves(_machine, checks):
    """The room that is kept, while pdpd has other things in its place: they go, and nothing that they lead to."""
    secret, file = make_secret(), pathlib.Path("/var/lib/pdpd/3/reserve")
    for what, command in THINGS.items():
        for word, is_kept in (("reserve", True), ("make-room", False)):
            as_user("pdpd", f"rm -rf {file}; {command.format(file)}")
            shards(word, 3)
            found = owner_and_mode(file) if os.path.lexists(file) else "nothing"
            checks.expect(f"{word}, {what}", found, "pdpd pdpd 600 regular file" if is_kept else "nothing")
    checks.expect("the file of root's", owner_and_mode("/var/only-root"), secret)
    shards("reserve", 3)


def copies_of_token(machine, checks):
    """The copy of the token's file that a shard reads: pdpd can put nothing beside it, and what an earlier version let
    it put there isn't followed."""
    secret, folder = make_secret(), "/run/pdpd/3"
    tries = f"ln -s /var/only-root {folder}/other", f"mv {folder}/token {folder}/x"
    said = as_user("pdpd", "; ".join(f"{command} 2>&1 || true" for command in tries))
    checks.expect("what pdpd may put there", said.count("Permission denied"), 2)
    sh(f"chown pdpd {folder}; chmod 700 {folder}")
    as_user("pdpd", f"cd {folder}; rm -f token; ln -s /var/only-root token")
    shards("restart", 3)
    found = owner_and_mode("/var/only-root"), owner_and_mode(f"{folder}/token")
    checks.expect("the link, and the copy", found, (secret, "pdpd root 400 regular file"))
    sh("rm /var/only-root")


def listed(_machine, checks):
    """What is in a shard's place lists names that no domain has, or something else: no tool takes it, or puts it into a
    command to HAProxy."""
    sys.path.insert(0, str(LIBRARY))
    from operating import settings
    deep = "[" * 100_000
    for body in ('{"Domain":["a;shutdown frontend pdp"]}', '{"Domain":["a\\nb"]}', '{"Domain":["HELD"]}',
                 '{"Domain":[1]}', '{"Domain":"acme"}', '{"Domain":null}', "{}", "[]", "", deep, '{"Domain":' + deep):
        try:
            found = settings.domains_in(body.encode(), "it")
        except settings.Wrong as wrong:
            found = str(wrong)
        wanted = "it answers with no list of domains: it isn't pdpd, or is damaged"
        checks.expect(f"a list as {body[:40]}", found, wanted)
    checks.expect("a list of two", settings.domains_in(b'{"Domain":["acme","b-2"]}', "it"), ["acme", "b-2"])


ATTACKS = (backed_up, swapped, by_hand, put_backs, moved, reserves, copies_of_token, listed)
