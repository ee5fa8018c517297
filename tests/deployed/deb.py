"""The package of Debian, on a machine that systemd has booted: installed, upgraded, removed and purged."""
import hashlib
import os
import re
import shutil
import time

from .booting import booted
from .clients import Operator, decision, once
from .machine import PLAIN, commands_of_page, pack, sh, wait_until
from .systemd import pid

# in place of the archive and the user the package brings, and it makes a token
BROUGHT = re.compile(r"sha256sum |\S+/deploy/install |useradd |.*openssl rand ")
APT = "DEBIAN_FRONTEND=noninteractive apt-get"
INSTALL = APT + " install -y ./{} 2>&1"


def deb(made, checks):
    """A machine from nothing to a purge."""
    package = packed_twice(made, checks)
    compared(made, checks, package)
    with booted(made.folder / "deb") as machine:
        shutil.copy(package, machine.root / "root")
        for later, change in (("pdpd_0.2_amd64.deb", "true"), ("pdpd_0.3_amd64.deb", "echo '# more' >> {}")):
            pack_later(package, machine.root / "root" / later, change)
        before = machine.sh("sha256sum /etc/haproxy/haproxy.cfg")
        operator, ask = begin(machine, checks, package.name)
        manuals(machine, checks)
        upgrades(machine, checks, operator)
        checks.expect("a domain after both upgrades", decision(once(ask)), "Permit")
        removal(machine, checks, before)
        begin_again(machine, checks, "pdpd_0.3_amd64.deb", ask)
        purge(machine, checks, before)


def packed_twice(made, checks):
    """The package; packed again at another time, by whoever has other habits, it has the same bytes."""
    folders = [made.folder / name for name in ("once", "twice")]
    pack(folders[0], made.program, "deb.py")
    (package,) = folders[0].glob("*.deb")
    wait_until(lambda: time.time() > package.stat().st_mtime + 2, "the clock stands still")
    before = os.umask(0o077)
    pack(folders[1], made.program, "deb.py", TZ="Asia/Tokyo", LC_ALL="C")
    os.umask(before)
    digests = {hashlib.sha256((folder / package.name).read_bytes()).hexdigest() for folder in folders}
    checks.expect("packages, packed twice", len(digests), 1)
    checks.expect("its checksum", sh(f"cd {folders[0]} && sha256sum --check *.sha256"), f"{package.name}: OK\n")
    return package


def compared(made, checks, package):
    """The package has all that the archive has, but for what installs it and the files for containers."""
    there = made.folder / "unpacked"
    sh(f"mkdir {there}; tar -C {there} -xf {made.packed()}; dpkg-deb -x {package} {there}/package")
    (archive,) = there.glob("pdpd-*")
    held = {path.name for path in (there / "package").rglob("*") if path.is_file()}
    lacks = {str(path.relative_to(archive)) for path in archive.rglob("*") if path.is_file() and path.name not in held}
    containers = {str(path.relative_to(archive)) for path in (archive / "deploy" / "container").iterdir()}
    checks.expect("what the package hasn't", lacks, {"SHA256SUMS", "deploy/install", *containers})


def pack_later(package, path, change):
    """Packs a later version of a package, in which the settings are changed."""
    at = path.with_suffix("")
    version, settings = path.name.split("_")[1], at / "etc" / "pdpd" / "shards.conf"
    sh(f"""dpkg-deb -R {package} {at}; sed -i 's/^Version: .*/Version: {version}/' {at}/DEBIAN/control
        {change.format(settings)}; dpkg-deb --root-owner-group -Znone --build {at} {path}; rm -r {at}""")


def begin(machine, checks, name):
    """Installs it, gives the page's other commands, and makes a domain."""
    checks.say(machine.sh(INSTALL.format(name)).splitlines()[-1])
    checks.expect("files that aren't as packed", machine.sh("dpkg --verify pdpd"), "")
    checks.expect("the token", machine.sh("stat -c '%U %a' /etc/pdpd/token; wc -c < /etc/pdpd/token"), "root 600\n49")
    for user in ("pdpd", "pdpd-replica"):
        checks.expect(f"the shell of {user}", machine.sh(f"getent passwd {user} | cut -d: -f7"), "/usr/sbin/nologin")
    checks.expect("it starts nothing by itself", machine.sh("pgrep -c -u pdpd || true"), "0")
    for command in commands_of_page():
        if not BROUGHT.match(command):
            machine.sh(command)
    machine.sh(f"sed -i 's/^PLAIN_BIND=.*/PLAIN_BIND=127.0.0.1:{PLAIN}/' /etc/pdpd/shards.conf; "
               "pdpd-shards config --write; pdpd-shards reload; pdpd-shards backup")
    operator = Operator(machine.sh("cat /etc/pdpd/token"))
    checks.expect("the page's domain", operator.names(), ["acme"])
    program = machine.sh(f"readlink /proc/{pid(machine, 'pdpd@0')}/exe")
    checks.expect("where the program is", program, "/usr/lib/pdpd/pdpd")
    return operator, operator.makes("kept")


def manuals(machine, checks):
    """The manual pages are found, have what the commands say of themselves, and no mistake in their form."""
    for name, words in (("pdpd", ("pdpd serve DATABASE", "Exit statuses: 0 done;")),
                        ("pdpd-shards", ("pdpd-shards grow SHARDS", "Exit status: 0 done, 1 something is wrong")),
                        ("pdpd-log", ("pdpd-log changes --domain D", "Exit status: 0 as it was said"))):
        page = machine.sh(f"MANWIDTH=150 man --warnings {name} 2>&1 | col -b")
        checks.expect(f"man {name}", ([word for word in words if word not in page], "warning" in page), ([], False))


def upgrades(machine, checks, operator):
    """Settings that were edited stay, with no question where the package's are as before; programs run on."""
    def running():
        return machine.sh("systemctl show -p MainPID --value pdpd@0 pdpd@1 pdpd@2 pdpd@3")

    machine.sh("sed -i 's/^RATE=.*/RATE=7777/' /etc/pdpd/shards.conf")
    before = running()
    said = machine.sh(INSTALL.format("pdpd_0.2_amd64.deb"))
    checks.expect("it says what starts the new program", "pdpd-shards upgrade" in said, True)
    # (without that word it would ask which settings are to stay)
    machine.sh(f"{INSTALL.format('pdpd_0.3_amd64.deb')} -o Dpkg::Options::=--force-confold")
    checks.expect("the version", machine.sh("dpkg-query -W -f '${Version}' pdpd"), "0.3")
    checks.expect("the edited setting", machine.sh("grep ^RATE= /etc/pdpd/shards.conf"), "RATE=7777")
    checks.expect("the package's", machine.sh("tail -n 1 /etc/pdpd/shards.conf.dpkg-dist"), "# more")
    checks.expect("programs run on", running(), before)
    machine.sh("pdpd-shards upgrade")
    checks.expect("each program is another", set(running().split()) & set(before.split()), set())
    wait_until(operator.is_answered, machine.tail)


def removal(machine, checks, before):
    """Nothing of it runs or has failed, HAProxy has its own configuration, and settings, token and stores stay."""
    machine.sh(f"{APT} remove -y pdpd 2>&1")
    checks.expect("units", machine.sh("systemctl list-units --all --plain --no-legend 'pdpd*'"), "")
    checks.expect("what is started with the machine", machine.run("find /etc/systemd -name 'pdpd*.wants' -o "
                                                                  "-type l -name 'pdpd*'").stdout, "")
    checks.expect("what has failed", machine.failed(), [])
    checks.expect("what runs", machine.sh("pgrep -c -u pdpd || true"), "0")
    checks.expect("HAProxy", machine.show("haproxy", "ActiveState"), "active")
    checks.expect("its configuration", machine.sh("sha256sum /etc/haproxy/haproxy.cfg"), before)
    for path in ("/etc/pdpd/shards.conf", "/etc/pdpd/token", "/var/lib/pdpd/0/pdpd.db", "/etc/haproxy/domains.map"):
        checks.expect(path, machine.holds(f"test -e {path}"), True)
    checks.expect("what was added to HAProxy's unit",
                  machine.holds("test -e /etc/systemd/system/haproxy.service.d"), False)
    checks.expect("commands", machine.holds("test -e /usr/bin/pdpd-shards || test -e /usr/lib/pdpd"), False)


def begin_again(machine, checks, name, ask):
    """Installed again over what stays, it has each domain."""
    machine.sh(INSTALL.format(name))
    machine.sh("pdpd-shards config --write; pdpd-shards services")
    checks.expect("a domain of before", decision(once(ask)), "Permit")


def purge(machine, checks, before):
    """Settings and the token go; what was kept stays, and is told."""
    said = machine.sh(f"{APT} purge -y pdpd 2>&1")
    checks.expect("it tells what stays", "still in /var/lib/pdpd" in said, True)
    gone = "/etc/pdpd /etc/systemd/system/pdpd-backup@.service.d /usr/lib/pdpd /lib/systemd/system/pdpd@.service"
    checks.expect("what is still there", machine.sh(f"ls -d {gone} 2> /dev/null || true"), "")
    checks.expect("the store, and a backup",
                  machine.holds("test -e /var/lib/pdpd/0/pdpd.db && ls /var/lib/pdpd-backups/0/*/pdpd.db"), True)
    checks.expect("HAProxy's configuration", machine.sh("sha256sum /etc/haproxy/haproxy.cfg"), before)
    checks.expect("what has failed", machine.failed(), [])
