"""Debian 12 with systemd as its first process, in a container of systemd-nspawn, within the test's own namespaces.

debootstrap makes its files once, and they are kept packed in a folder that all clones share. Each clone unpacks them
into build/: what a test writes goes over that, and is gone at the end. A machine has the test's network, in which there
is nobody else. Limits of memory (MemoryMax) and of addresses (IPAddressDeny) have no effect in such a container.
"""
import contextlib
import hashlib
import os
import pathlib
import shlex
import shutil
import subprocess
import tempfile
import time

from .machine import PATIENCE, TOP, sh, wait_until

SUITE, MIRROR = "bookworm", "http://deb.debian.org/debian"
PACKAGES = ("systemd-sysv", "dbus", "udev", "kmod", "haproxy", "python3", "openssl", "curl", "iproute2", "procps",
            "man-db", "etcd-server")
# Which files these are: others have other names. Debian's own, packed, and with the packages that are booted.
KEY = hashlib.sha256(" ".join((SUITE, *PACKAGES)).encode()).hexdigest()[:8]
CACHE = pathlib.Path(os.environ.get("XDG_CACHE_HOME") or pathlib.Path.home() / ".cache") / "pdpd-deploy-test"
SLIM, FULL = CACHE / f"{SUITE}-slim-{KEY}.tar", CACHE / f"{SUITE}-{KEY}.tar"
# the latter, unpacked
ROOT = TOP / "build" / FULL.stem
WANTED = {"systemd-nspawn": "systemd-container", "debootstrap": "debootstrap", "nsenter": "util-linux"}
# how systemd-nspawn ends where the machine in it is to be started again (exit-status.h of systemd)
FORCE_RESTART = 133
SURROUNDINGS = {"PATH": "/usr/local/sbin:/usr/local/bin:/usr/sbin:/usr/bin:/sbin:/bin", "HOME": "/root",
                "LC_ALL": "C.UTF-8"}


class Skipped(Exception):
    """Why this machine can't run a part."""


def cgroups():
    """The folders in which groups of processes are made, of either version."""
    top = pathlib.Path("/sys/fs/cgroup")
    return [top] if (top / "cgroup.controllers").exists() else [path for path in top.glob("*") if path.is_dir()]


def refuse_without_cgroups():
    """No container begins where no group of processes can be made."""
    if not cgroups() or not all(os.access(path, os.W_OK) for path in cgroups()) or sh(
            "findmnt -rno OPTIONS -T /sys/fs/cgroup").startswith("ro"):
        raise Skipped("no groups of processes can be made in /sys/fs/cgroup")


def make_roots():
    """Has both Debians be there: packed, which takes some minutes once, and the network of Debian's packages; and the
    one that is booted unpacked, once for each clone."""
    if not (SLIM.exists() and FULL.exists()):
        for folder in (CACHE, ROOT.parent):
            folder.mkdir(parents=True, exist_ok=True)
        with tempfile.TemporaryDirectory(dir=TOP / "build") as folder:
            fetch(pathlib.Path(folder) / "debian")
    if not ROOT.is_dir():
        # (it is whole where it has its name)
        unfinished = ROOT.with_name(f"{ROOT.name}.{os.getpid()}")
        sh(f"mkdir -p {unfinished}; tar -C {unfinished} --numeric-owner -xpf {FULL}; mv -T {unfinished} {ROOT}")


def fetch(made):
    """Makes both Debians of Debian's packages, and packs them."""
    print(f"a Debian is made and kept in {CACHE}, once", flush=True)
    # (what it mounts there is gone with it, however it ends)
    run_fetching("unshare", "--mount", "debootstrap", "--variant=minbase", SUITE, made, MIRROR)
    packed(made, SLIM)
    add_packages(made)
    packed(made, FULL)


def run_fetching(*words):
    """Runs what fetches Debian's packages, however long it takes."""
    ran = subprocess.run([*map(str, words)], capture_output=True, text=True, check=False)
    if ran.returncode != 0:
        raise Skipped(f"Debian's packages can't be fetched: {(ran.stdout + ran.stderr).strip()[-300:]}")


def packed(made, path):
    """Packs a Debian, and gives it its name when it is whole."""
    unfinished = path.with_name(f"{path.name}.{os.getpid()}")
    left_out = " ".join(f"--exclude=./{each}" for each in ("var/cache/apt/*", "var/lib/apt/lists/*", "dev/*"))
    sh(f"tar -C {made} --numeric-owner {left_out} -cf {unfinished} . && mv {unfinished} {path}")


def add_packages(made):
    """Adds what is booted, and leaves it as a machine that was never booted."""
    # (no service starts on this machine meanwhile)
    policy = made / "usr" / "sbin" / "policy-rc.d"
    policy.write_text("#!/bin/sh\nexit 101\n")
    policy.chmod(0o755)
    shutil.copy("/etc/resolv.conf", made / "etc" / "resolv.conf")
    # (nobody needs what a machine of a test has written after it has lost its power)
    (made / "etc" / "dpkg" / "dpkg.cfg.d" / "test").write_text("force-unsafe-io\n")
    run_fetching("env", "DEBIAN_FRONTEND=noninteractive", "LC_ALL=C", "chroot", made, "apt-get", "install", "-y",
                 "--no-install-recommends", *PACKAGES)
    policy.unlink()
    sh(f"systemctl --root={made} disable etcd")  # (a machine of several begins it)
    # (with it each package that is installed has an index of all manual pages be made anew)
    (made / "var" / "lib" / "man-db" / "auto-update").unlink(missing_ok=True)
    (made / "etc" / "machine-id").write_text("")


class Booted:
    """A machine that is booted, and how commands are run in it."""

    def __init__(self, folder):
        self.folder = pathlib.Path(folder)
        self.root, self.said = self.folder / "root", self.folder / "console"
        self.outer = None
        upper, work = self.folder / "upper", self.folder / "work"
        for path in (self.root, upper, work):
            path.mkdir(parents=True)
        sh(f"mount -t overlay overlay -o lowerdir={ROOT},upperdir={upper},workdir={work} {self.root}")

    def boot(self):
        """Starts it, and waits until nothing more is to be started."""
        # (systemd-nspawn notes its machines there)
        sh("mountpoint -q /run || mount -t tmpfs -o mode=755 run /run; ip link set lo up")
        words = ["systemd-nspawn", "--quiet", f"--directory={self.root}", "--machine=pdpd-test", "--register=no",
                 "--keep-unit", "--boot", "--console=pipe"]
        with open(self.said, "ab") as console:
            self.outer = subprocess.Popen(words, stdin=subprocess.DEVNULL, stdout=console, stderr=console,
                                          preexec_fn=lambda: join_groups(self.folder.parent.name))
        self.wait_until_booted()

    def wait_until_booted(self):
        self.wait_for(r"systemctl is-system-running 2>&1 | grep -qE '^(running|degraded)$'", "it isn't booted")

    def first(self):
        """Its first process; None where there is none."""
        with contextlib.suppress(OSError):
            found = pathlib.Path(f"/proc/{self.outer.pid}/task/{self.outer.pid}/children").read_text().split()
            return int(found[0]) if found else None
        return None

    def run(self, command):
        """Runs a command of the shell in it, and gives its end."""
        enters = ["nsenter", f"--target={self.first() or 0}", "--mount", "--uts", "--ipc", "--net", "--pid", "--cgroup"]
        words = [*enters, "env", "-i", *(f"{name}={value}" for name, value in SURROUNDINGS.items()),
                 "bash", "-ec", f"cd /root\n{command}"]
        how = {"stdin": subprocess.DEVNULL, "stdout": subprocess.PIPE, "stderr": subprocess.STDOUT}
        return subprocess.run(words, check=False, text=True, errors="replace", timeout=PATIENCE, **how)

    def sh(self, command, status=0):
        """Runs a command of the shell in it, and gives what it wrote; an error where it ends otherwise."""
        ran = self.run(command)
        if ran.returncode != status:
            raise RuntimeError(f"{command}\nends with {ran.returncode}, not {status}:\n{ran.stdout[-3000:]}")
        return ran.stdout.strip()

    def holds(self, command):
        """Whether a command ends well."""
        return self.run(command).returncode == 0

    def wait_for(self, command, what, seconds=240.0):
        """Waits until a command ends well."""
        wait_until(lambda: self.holds(command), lambda: f"{what}: {self.tail()}", seconds)

    def tail(self):
        """The end of what it has logged."""
        said = self.run("journalctl --no-pager -b -n 30; systemctl --failed --no-legend").stdout
        return f"{self.said.read_text(errors='replace')[-1000:]}\n{said}"

    def show(self, unit, name):
        """A property of a unit (systemctl show)."""
        return self.sh(f"systemctl show --property={name} --value {shlex.quote(unit)}")

    def state(self, unit):
        """What a unit is, and what became of it."""
        return self.show(unit, "ActiveState"), self.show(unit, "Result")

    def failed(self):
        """The units that have failed."""
        lines = self.sh("systemctl --failed --plain --no-legend --no-pager").splitlines()
        return [line.split()[0] for line in lines]

    def reboot(self):
        """Has it end, and boot again."""
        self.run("systemctl reboot")
        # (with --keep-unit systemd-nspawn leaves the second start to whoever has started it)
        status = self.outer.wait(PATIENCE)
        if status != FORCE_RESTART:
            raise RuntimeError(f"a reboot ends systemd-nspawn with {status}")
        self.boot()

    def end(self):
        """Ends it, and takes away what it has left outside."""
        if self.outer and self.outer.poll() is None:
            self.run("systemctl poweroff")
            try:
                self.outer.wait(60)
            except subprocess.TimeoutExpired:
                if first := self.first():
                    os.kill(first, 9)
                self.outer.kill()
                self.outer.wait()
        sh(f"umount {self.root}")


def join_groups(name):
    """Has this process be in groups of that name: systemd would take those of another test's machine for its own."""
    for top in cgroups():
        if len(cgroups()) == 1 or top.name in ("systemd", "unified"):
            (top / name).mkdir(exist_ok=True)
            (top / name / "cgroup.procs").write_text("0")


def remove_groups(name):
    """Removes the groups of that name, and podman's, once they are empty."""
    end = time.time() + 10
    while time.time() < end:
        for path in (top / each for top in cgroups() for each in (name, "libpod_parent")):
            for folder, _, _ in os.walk(path, topdown=False):
                with contextlib.suppress(OSError):
                    os.rmdir(folder)
        # (what was killed in them has to go first)
        if not any((top / name).exists() for top in cgroups()):
            return
        time.sleep(0.1)


@contextlib.contextmanager
def booted(folder):
    """A machine that is booted."""
    made = Booted(folder)
    try:
        made.boot()
        yield made
    finally:
        made.end()
