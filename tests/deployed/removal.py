"""The page's commands that take the deployment away, which are the last that the machine is given."""
import os
import pathlib
import re

from .machine import PAGE, sh

# what the page says is still there, and what was installed
KEPT = ("/etc/pdpd", "/var/lib/pdpd", "/var/lib/pdpd-backups", "/var/log/pdpd")
GONE = ("/usr/local/lib/pdpd", "/usr/local/bin", "/usr/local/share/doc/pdpd", "/etc/systemd/system", "/etc/sv",
        "/etc/service", "/etc/haproxy")
# the programs of a deployment
PROGRAMS = {"pdpd", "haproxy", "svlogd", "runsv", "pdpd-shards"}


def commands():
    """Those of the page, without systemd's."""
    section = re.search(r"(?ms)^### Removing it\n(.*?)^### ", PAGE.read_text())[1]
    return [line for line in re.findall(r"(?m)^    # (.*)$", section) if not line.startswith("systemctl ")]


def ours(folder):
    """The names of a deployment that a folder has."""
    words = r"pdpd.*|haproxy|haproxy\.cfg.*|domains\..*|leases\..*"
    return [name for name in sorted(os.listdir(folder)) if re.fullmatch(words, name)] if os.path.isdir(folder) else []


def running():
    """The programs of a deployment that run on the machine. (What another part has killed, and nobody has waited for,
    has ended.)"""
    found = set()
    for path in pathlib.Path("/proc").glob("[0-9]*/stat"):
        try:
            name, state = re.fullmatch(r"\d+ \((.*)\) (\S) .*", path.read_text(), re.DOTALL).groups()
        except OSError:
            continue  # (it has ended)
        if state not in "ZX":
            found.add(name)
    return found & PROGRAMS


def removal(machine, checks):
    """Nothing that was installed is left, and nothing runs; what the shards kept is there."""
    before = pathlib.Path("/etc/haproxy/haproxy.cfg.before-pdpd")
    before.write_text("# the machine's own\n")
    checks.expect("what runs before", "pdpd" in running() and "haproxy" in running(), True)
    for command in commands():
        checks.say(f"# {command}")
        sh(command)
    # (no names of domains, of which more would be told, by a program that is away now)
    checks.expect("what runs", " ".join(sorted(running())), "")
    checks.expect("what is installed", {folder: ours(folder) for folder in GONE if ours(folder)},
                  {"/etc/haproxy": ["haproxy.cfg", "pdpd.crt", "pdpd.key", "pdpd.pem"]})
    checks.expect("HAProxy's configuration", pathlib.Path("/etc/haproxy/haproxy.cfg").read_text(),
                  "# the machine's own\n")
    checks.expect("what is kept", [folder for folder in KEPT if not os.path.isdir(folder)], [])
    checks.expect("a store", os.path.exists("/var/lib/pdpd/0/pdpd.db"), True)
