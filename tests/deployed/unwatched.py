"""What colleagues and other programs do beside the deployment: a copy without its blocks, rights for a copy program,
another program that rotates logs, a backup copied over a running shard, a certificate without those between, what is
stopped. `pdpd-shards status` tells each, or what is run then, with what heals it."""
import os
import pathlib
import re
import signal
import socket
import subprocess
import sys
import tempfile
import threading
import time

from .clients import decision, once
from .clients import status as status_of
from .machine import LIBRARY, SETTINGS, as_user, backs_up, instead_of, sh, shards, wait_until
from .states import CERTIFICATE, MAP, TOKEN, asked, is_well, tells
from .surroundings import BACKUPS, LOGS, SERVICES, STORES, mounted, with_settings

MIB = 2 ** 20


def unwatched(machine, checks):
    """Each of these ended with status 0 once, or with advice that didn't heal."""
    machine.operator.clear()
    ask = machine.operator.makes("ward")
    shards("remap")
    backs_up()
    is_well(checks, "the beginning")
    for one in (sparse_reserve, readable_copies, open_logs, rotated_logs, copied_over, linked_store, kept_connection,
                full_places, lost_chain, stopped_proxy, stopped_child, removed_sockets, just_made,
                others_configuration, no_network):
        one(machine, checks)
        is_well(checks, one.__name__)
        checks.expect(f"behind {one.__name__}", decision(once(ask)), "Permit")


def sparse_reserve(machine, checks):
    """A copy has left holes in a reserve, as `rsync --sparse` does: it keeps no room."""
    path = STORES / "1" / "reserve"
    as_user("pdpd", f"rm {path}; umask 077; truncate -s 32M {path}")
    tells(checks, "a reserve of holes", "WRONG: shard 1 has no reserve of 32 MiB")
    shards("reserve", 1)
    found = os.stat(path)
    checks.expect("what is kept", (found.st_size, found.st_blocks * 512 >= 32 * MIB), (32 * MIB, True))


def readable_copies(machine, checks):
    """Others may read the backups, or a copy of the token or of the key."""
    sh(f"chmod -R a+rX {BACKUPS}")
    wanted = f"WRONG: others than its owner can come into {BACKUPS}/2, and read policies and rows: chmod 700 {BACKUPS}/2"
    tells(checks, "backups for everybody", wanted)
    sh(f"chmod 700 {BACKUPS}/[0-9]; chmod 711 {BACKUPS}")
    is_well(checks, "the rights of before")
    token, key = TOKEN.with_name("token.old"), CERTIFICATE.with_suffix(".key")
    token.write_bytes(TOKEN.read_bytes())
    for path in (token, key):
        path.chmod(0o644)
        tells(checks, f"{path} for everybody", f"WRONG: others than root can read or change {path}: chmod 600 {path}")
        path.chmod(0o600)
    token.unlink()


def open_logs(machine, checks):
    """Others may write into a log's folder, whose `config` may name a program that svlogd runs."""
    folder = LOGS / "changes"
    sh(f"chmod o+w {folder}")
    tells(checks, "a log for everybody", f"WRONG: everybody can change {folder}, by which root's tools go")
    sh(f"chmod go-w {folder}")


def rotated_logs(machine, checks):
    """Another program has renamed a log, as logrotate does: its lines go on there, until that is packed or removed."""
    log = LOGS / "changes" / "current"
    sh(f"mv {log} {log}.1; install -m 640 /dev/null {log}")
    heals = f"sv restart {SERVICES}/haproxy/log"
    tells(checks, "a log that was renamed", f"the log of haproxy goes on in {log}.1: let no other program rotate it, "
          f"since svlogd does: {heals}")
    sh(heals)
    once(machine.operator.creates("rotated"))
    wait_until(lambda: "/operator/domains/rotated" in log.read_text(), "no line comes")
    once(machine.operator.message("DELETE", "/rotated"))


def copied_over(machine, checks):
    """A backup's files are copied over those of a shard that runs. It goes on with what it holds in memory: no backup
    that lacks what it answers counts as one."""
    place = int(shards("where", "ward"))
    names = [name for name in map("later{}".format, range(100)) if int(shards("where", name)) == place][:3]
    kept = BACKUPS / str(place) / re.search(rf"/{place}/([^,]+), ", backs_up(place))[1]
    for name in names:
        checks.expect(f"{name} is made", status_of(once(machine.operator.creates(name))), 201)
    sh(f"cp {kept}/pdpd.db* {STORES}/{place}/")
    found, said = asked("backup", place)
    checks.expect(f"a backup: {said}", (found, f"the copy lacks {', '.join(sorted(names))}" in said), (1, True))
    sh(f"sv restart {SERVICES}/pdpd-backups")
    wanted = f"WRONG: the last backup of shard {place}, at "
    wait_until(lambda: wanted in asked("status")[1], lambda: asked("status")[1])
    tells(checks, "a copy over a running shard's files", "another program wrote over its files, as a copy by hand")
    shards("put-back", place, kept.name, "--yes")
    for name in names:
        once(machine.operator.creates(name))
    backs_up(place)
    for name in names:
        once(machine.operator.message("DELETE", f"/{name}"))
    sh(f"rm -rf {STORES}/{place}/before-*")


def linked_store(machine, checks):
    """A folder is moved to another disk while its shard runs, and a link stands in its place: the program has the files
    open that `mv` has removed."""
    place = int(shards("where", "ward"))
    folder, other = STORES / str(place), pathlib.Path("/run/other-disk")
    sh(f"mkdir {other}; mv {folder} {other}/; ln -s {other}/{place} {folder}")
    name = next(name for name in map("linked{}".format, range(100)) if int(shards("where", name)) == place)
    checks.expect("a change", status_of(once(machine.operator.creates(name))), 201)
    tells(checks, "a store that was moved to another disk", f"WRONG: {folder}/pdpd.db was removed while the program of "
          f"shard {place} has it open")
    found, said = asked("restart", place)
    checks.expect(f"a restart: {said}", (found, "nothing was stopped" in said), (1, True))
    shards("put-back", place, re.search(rf"/{place}/([^,]+), ", backs_up(place))[1], "--yes")
    checks.expect("what was acknowledged", name in machine.operator.names(), True)
    once(machine.operator.message("DELETE", f"/{name}"))
    sh(f"sv -w 30 stop {SERVICES}/pdpd-{place}; rm {folder}; mv {other}/{place} {folder}; rm -rf {folder}/before-*; "
       f"sv up {SERVICES}/pdpd-{place}; rmdir {other}")
    wait_until(machine.operator.is_answered, "a shard stays away", 60)


def kept_connection(machine, checks):
    """The program that copies backups away leaves one behind that has its output open, as ssh with ControlPersist: the
    backup is over once the program is."""
    program = machine.folder / "copy-away"
    program.write_text("#!/bin/bash\nsleep 100 &\necho copied $2\nexit $((3 * $1))\n")
    program.chmod(0o755)
    with with_settings(SETTINGS.read_bytes() + f"BACKUP_HOOK={program}\n".encode()):
        began = time.monotonic()
        found, said = asked("backup", 0)
        checks.expect(f"a copy: {said}", (found, time.monotonic() - began < 60), (0, True))
        found, said = asked("backup", 1)
        checks.expect(f"one that fails: {said}", (found, "ends with 3: copied /" in said), (1, True))


def full_places(machine, checks):
    """The disk of the settings is full, and that of the tools' lock, which works all the same."""
    for place in (SETTINGS.parent, pathlib.Path("/run/pdpd")):
        held = machine.folder / "full-place"
        sh(f"cp -a {place} {held}")
        mode = f"{place.stat().st_mode & 0o777:o}"
        with mounted(f"-t tmpfs -o size=1m,mode={mode} none", place):
            sh(f"cp -a {held}/. {place}/; ! dd if=/dev/zero of={place}/full bs=1k > /dev/null 2>&1")
            tells(checks, f"{place} is full", f"WRONG: the disk of {place} has only 0.0 MiB of 1 left")
            found, said = asked("make-room", 1)
            checks.expect(f"a tool meanwhile: {said}", (found, "No space left" in said), (0, False))
            shards("reserve", 1)
        sh(f"rm -r {held}")


def lost_chain(machine, checks):
    """A certificate is renewed without the one between: clients that know the root alone refuse it."""
    place, held = machine.folder / "renewed", CERTIFICATE.read_bytes()
    place.mkdir()
    makes = "openssl req -newkey ec -pkeyopt ec_paramgen_curve:P-256 -nodes"
    sh(f"""cd {place}; exec 2> /dev/null
        {makes} -x509 -days 30 -subj /CN=root -keyout root.key -out root.crt
        for name in between localhost; do {makes} -subj /CN=$name -keyout $name.key -out $name.csr; done
        echo basicConstraints=critical,CA:TRUE > is-authority; echo subjectAltName=DNS:localhost > has-name
        openssl x509 -req -days 30 -in between.csr -CA root.crt -CAkey root.key -CAcreateserial -extfile is-authority \\
            -out between.crt
        openssl x509 -req -days 30 -in localhost.csr -CA between.crt -CAkey between.key -CAcreateserial \\
            -extfile has-name -out localhost.crt""")
    files = {name: (place / name).read_bytes() for name in ("localhost.crt", "between.crt", "localhost.key")}
    CERTIFICATE.write_bytes(b"".join(files.values()))
    found, said = asked("reload")
    checks.expect(f"with the one between: {said}", (found, "WARNING" in said), (0, False))
    CERTIFICATE.write_bytes(files["localhost.crt"] + files["localhost.key"])
    found, said = asked("reload")
    checks.expect(f"without it: {said}", (found, "clients are shown 1 of certificates, and were shown 2" in said),
                  (0, True))
    CERTIFICATE.write_bytes(held)
    shards("reload")


def stopped_proxy(machine, checks):
    """HAProxy's first process stands still: it answers, and takes no new configuration."""
    process = int((SERVICES / "haproxy" / "supervise" / "pid").read_text())
    os.kill(process, signal.SIGSTOP)
    heals = f"kill -CONT {process}"
    tells(checks, "a stopped HAProxy", f"WRONG: what holds haproxy stands still (process {process}), and doesn't end "
          f"it: {heals}")
    sh(heals)


def stopped_child(machine, checks):
    """A tool waits for a program that it has begun, and that stands still, as by ^Z between its fork and its start."""
    mark = machine.folder / "stopped"
    with instead_of(machine.folder, "sv", f'touch {mark}; kill -STOP $$; exec $REAL "$@"'):
        tool = subprocess.Popen(["pdpd-shards", "restart", "1"], stdout=subprocess.DEVNULL)
    try:
        wait_until(mark.exists, "the tool begins nothing")
        found, said = asked("status")
        heals = re.search(r"stands still, and all other tools wait for it: (kill -CONT .*) has it go on", said)
        checks.expect(f"a tool whose program is stopped: {said}", (found, heals is not None), (1, True))
        while tool.poll() is None:
            sh(f"for each in /proc/{tool.pid}/task/*/children; do kill -CONT $(cat $each) 2> /dev/null || true; done")
    finally:
        tool.wait(timeout=120)
    checks.expect("the tool", tool.returncode, 0)


def removed_sockets(machine, checks):
    """What cleans /run has removed the sockets of all shards."""
    sh("rm -r /run/pdpd-shards")
    found, said = asked("services")
    wanted = "its socket /run/pdpd-shards/0/socket was removed: pdpd-shards restart 0 makes it anew"
    checks.expect(f"services: {said}", (found, wanted in said), (1, True))
    shards("restart")


def just_made(_machine, checks):
    """A socket that a program just makes, or has left as it ended, isn't one that was removed under it: tools would
    refuse a shard that begins."""
    sys.path.insert(0, str(LIBRARY))
    from operating import listener, settings
    read, is_over, found = settings.read(), threading.Event(), set()

    def looks():
        while not is_over.is_set():
            found.add(listener.is_unlinked(read, 0))
    thread = threading.Thread(target=looks)
    with tempfile.TemporaryDirectory(dir="/run") as read.data:
        read.sockets = read.data
        read.folder(0).mkdir()
        thread.start()
        for _ in range(300):
            with socket.socket(socket.AF_UNIX) as made:
                made.bind(read.socket(0))
                made.listen(1)
                time.sleep(0.005)
            os.unlink(read.socket(0))
        is_over.set()
        thread.join()
    checks.expect("removed sockets among those that are just made or left", found, {False})


def others_configuration(machine, checks):
    """HAProxy's package has put its own configuration there; a line of the map leads nowhere."""
    proxy = MAP.with_name("haproxy.cfg")
    held, lines = proxy.read_bytes(), MAP.read_text()
    proxy.write_text("defaults\n    mode http\n    timeout client 5s\nfrontend of-package\n    bind 127.0.0.1:405\n")
    found, said = asked("reload")
    checks.expect(f"that of its package: {said}", (found, "pdpd-shards config --write before" in said), (1, True))
    proxy.write_bytes(held)
    MAP.write_text(f"{lines}acme 9\n")
    found, said = asked("reload")
    checks.expect(f"a shard that isn't there: {said}", (found, "WARNING: " in said and "aren't: acme" in said),
                  (0, True))
    MAP.write_text(lines)
    shards("reload")
    with with_settings(SETTINGS.read_bytes() + b"SOCKETS=/run/of-a-colleague\n"):
        found, said = asked("restart", 2)
        seen = found, "give pdpd-shards restart, or" in said
        checks.expect(f"one shard, where all would go elsewhere: {said}", seen, (1, True))


def no_network(machine, checks):
    """The machine's own network is down: HAProxy isn't blamed alone."""
    sh("ip link set lo down")
    try:
        tells(checks, "without lo", "or a firewall or the network (ip link show lo) keeps clients away")
    finally:
        sh("ip link set lo up")
