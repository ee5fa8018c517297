"""systemd starts, stops and kills shards."""
import pathlib
import subprocess

from .closing import close_archives_folder, close_sockets_folder, refuse_no_user
from .processes import last_of
from .services import further, logging, program_of, run
from .settings import write_whole


# what etcd may do
ETCD_MAY = (
    "NoNewPrivileges=yes", "ProtectSystem=strict", "ReadWritePaths=/var/lib/etcd", "ProtectHome=yes", "PrivateTmp=yes",
    "PrivateDevices=yes", "ProtectClock=yes", "ProtectKernelTunables=yes", "ProtectKernelModules=yes",
    "ProtectKernelLogs=yes", "ProtectControlGroups=yes", "ProtectProc=invisible", "RestrictNamespaces=yes",
    "RestrictSUIDSGID=yes", "LockPersonality=yes", "CapabilityBoundingSet=", "SystemCallArchitectures=native",
    "SystemCallFilter=@system-service", "SystemCallFilter=~@privileged", "LimitCORE=0")


class Systemd:
    """Units pdpd@N, pdpd-replica@N, pdpd-backup@N.timer, pdpd-watchdog and haproxy."""
    UNITS = pathlib.Path("/etc/systemd/system")
    ETCD = UNITS / "etcd.service.d/pdpd.conf"
    PLACES, PROXY = UNITS / "pdpd-backup@.service.d/backups.conf", UNITS / "haproxy.service.d/pdpd.conf"
    MACHINES = UNITS / "pdpd-replica@.service.d/replicas.conf", UNITS / "pdpd-map.service.d/replicas.conf"
    SHARD = "pdpd@{}"

    def __init__(self, settings):
        self.settings = settings

    def pid(self, shard):
        """The process of a shard's program; 0 where there is none."""
        return program_of(int(run("systemctl", "show", "--property=MainPID", "--value", f"pdpd@{shard}") or 0))

    def stop(self, shard):
        run("systemctl", "stop", f"pdpd@{shard}")

    def start(self, shard):
        run("systemctl", "start", f"pdpd@{shard}")
        if self.settings.audit:
            # it has a copy of the token, too
            run("systemctl", "restart", f"pdpd-replica@{shard}")

    def stop_replica(self, shard):
        run("systemctl", "stop", f"pdpd-replica@{shard}")

    def has_etcd(self):
        """Whether there is a service of etcd: Debian's package brings it."""
        return True

    def end_etcd(self):
        """Ends this machine's etcd. (systemd kills it if it waits for the others.)"""
        run("systemctl", "stop", "etcd")

    def start_etcd(self):
        run("systemctl", "start", "etcd")

    def beside(self, shards):
        """The units beside those of these shards and of HAProxy."""
        return [*(f"pdpd-backup@{shard}.timer" for shard in shards),
                *(f"pdpd-replica@{shard}" for shard in shards if self.settings.audit),
                *further(self.settings), *(["pdpd-verify.timer"] if self.settings.decisions else []),
                *(["pdpd-rows.timer"] if self.settings.machines else []), "pdpd-watchdog"]

    def is_there(self):
        """Whether systemd runs."""
        return True

    def supervised(self, name):
        """The process of a unit that it supervises; 0 where there is none."""
        return int(run("systemctl", "show", "--property=MainPID", "--value", name) or 0)

    def ends_for_good(self, name):
        """Why a unit isn't started again once it ends; nothing where it is."""
        found = run("systemctl", "show", "--property=Restart", "--value", name)
        return f"has Restart={found}: systemctl cat {name} tells where" if found != "always" else ""

    def standing_still(self, names):
        """None: systemd is the first process."""
        return []

    def is_running(self, name):
        """Whether systemd runs a unit."""
        return subprocess.run(["systemctl", "is-active", "--quiet", name], check=False).returncode == 0

    def starts_with_machine(self, name):
        """Whether systemd runs a unit after each start of the machine."""
        return subprocess.run(["systemctl", "is-enabled", "--quiet", name], check=False).returncode == 0

    def files(self):
        """The units that are the administrator's, and what they are given more."""
        return [self.UNITS, *self.UNITS.glob("pdpd*"), *self.UNITS.glob("*.service.d/*.conf")]

    def log_of(self, name):
        """Where the log of a unit is."""
        return f"journalctl -u {name}"

    def last_lines(self, name, count=20):
        """The last lines that the programs of a unit have written."""
        words = ["journalctl", "--quiet", "--no-pager", "--output=cat", f"--lines={count}",
                 f"_SYSTEMD_UNIT={name}.service"]
        return subprocess.run(words, capture_output=True, text=True, errors="replace", check=False).stdout.splitlines()

    def last_line(self, name):
        """The last one."""
        return last_of(self.last_lines(name, 1))

    def failed_backup(self, shard):
        """When the unit of a shard's backups failed, and why: what the tool has said last, else what systemd calls it;
        never where the last one didn't."""
        unit = f"pdpd-backup@{shard}"
        shown = run("systemctl", "show", "--timestamp=unix", "--property=Result,ExecMainExitTimestamp",
                    f"{unit}.service")
        found = dict(line.split("=", 1) for line in shown.splitlines())
        ended = found.get("ExecMainExitTimestamp", "").lstrip("@")
        result = found.get("Result", "success")
        if result == "success" or not ended.isdecimal():
            return 0.0, ""
        lines = [line for line in self.last_lines(unit) if line.startswith(("pdpd-shards: ", "WRONG: "))]
        return float(ended), last_of(lines).removeprefix("pdpd-shards: ").removeprefix("WRONG: ") or \
            f"systemd calls it {result!r}"

    def lost_logs(self, names):
        """None: the journal has them."""
        return []

    def unlogged(self, names):
        """None: the journal takes them."""
        return []

    def reload_proxy(self):
        run("systemctl", "reload", "haproxy")

    def allow_backups(self):
        """Has the unit of backups, which may change nothing else, write where BACKUPS says."""
        place = pathlib.Path(self.settings.backups)
        place.mkdir(mode=0o711, exist_ok=True)
        self.add_to_unit(self.PLACES, f'ReadWritePaths="-{place}"')

    def allow_machines(self):
        """Has the units of the daemons, which reach nothing but this machine, reach etcd on the others."""
        first = next(iter(self.settings.groups.values()), {})  # (which has the map)
        if self.settings.machines:
            hosts = " ".join(dict.fromkeys(host for host, _ in (*self.settings.machines.values(), *first.values())))
            for path in self.MACHINES:
                self.add_to_unit(path, f"IPAddressAllow={hosts}")
            self.confine_etcd()

    def confine_etcd(self):
        """Has etcd confined from its next start on: Debian's unit confines it less."""
        self.add_to_unit(self.ETCD, *ETCD_MAY)
        run("systemctl", "daemon-reload")

    def close_sockets_folder(self):
        """Does so now, and before each start of HAProxy: Debian's package gives the folder to HAProxy's user."""
        close_sockets_folder(self.settings)
        command = f'/usr/bin/install -d -o root -g root -m 755 "{self.settings.haproxy_run}"'
        # (the journal drops lines beyond its rate, and with those of decisions those of changes)
        self.add_to_unit(self.PROXY, f"ExecStartPre={command}", "LogRateLimitIntervalSec=0")

    def add_to_unit(self, path, *lines):
        """Writes a file with lines that systemd adds to a service's unit."""
        path.parent.mkdir(mode=0o755, exist_ok=True)
        write_whole(path, "".join(f"{line}\n" for line in ("[Service]", *(line.replace("%", "%%") for line in lines))))

    def set_up(self, shards):
        """Has these shards, and what belongs to them, run now and after each start of the machine."""
        self.allow_backups()
        self.close_sockets_folder()
        refuse_no_user(self.settings)
        close_archives_folder(self.settings)
        self.allow_machines()
        run("systemctl", "daemon-reload")
        run("systemctl", "enable", "--now", *(f"pdpd@{shard}" for shard in shards), *self.beside(shards))

    def start_proxy(self):
        run("systemctl", "enable", "haproxy")
        self.restart_proxy()

    def restart_proxy(self):
        run("systemctl", "restart", "haproxy")

    def restart_logs(self, shards):
        """Has what logs go by what was applied."""
        for name in logging(self.settings, "pdpd-replica@{}", shards):
            run("systemctl", "restart", name)

    def renew(self):
        """Has services run what is installed now, but for the shards and HAProxy."""
        self.allow_backups()
        self.close_sockets_folder()
        close_archives_folder(self.settings)
        run("systemctl", "daemon-reload")
        run("systemctl", "restart", "pdpd-watchdog", *further(self.settings))
