"""runit starts, stops and kills shards."""
import contextlib
import os
import pathlib
import re
import shutil
import signal
import subprocess
import time

from .closing import close_archives_folder, close_sockets_folder, refuse_no_user
from .processes import REMOVED, children_of, end_of, has_program, is_stopped, last_of, open_files, parent_of
from .services import further, logging, program_of, run
from .settings import LIBRARY, Wrong

# how long a program that is told to end may take: it answers what is under way
PATIENCE = 10
# after how long runit has seen a new service: runsvdir looks each five seconds
SEEN = 10
# where its services are logged (runit/log)
LOGS = pathlib.Path("/var/log/pdpd")
# the script that Debian's package brings for machines without systemd
SCRIPT = "/etc/init.d/haproxy"


class Runit:
    """Services pdpd-N, pdpd-replica-N, pdpd-backups, pdpd-watchdog and haproxy."""
    BESIDE = ("pdpd-watchdog", "pdpd-backups")
    SHARD = "pdpd-{}"

    def __init__(self, settings):
        self.services = pathlib.Path(settings.services)
        self.folders = pathlib.Path(settings.service_folders)
        self.settings, self.has_replicas = settings, bool(settings.audit)

    def sv(self, word, name):
        try:
            return run("sv", word, str(self.services / name))
        except Wrong as fault:
            if self.starts_with_machine(name):
                raise
            raise Wrong(f"{fault}. pdpd-shards services has runit look after it again") from None

    def process(self, name):
        """The process of a service; 0 where there is none."""
        try:
            return int((self.services / name / "supervise" / "pid").read_text().strip() or 0)
        except FileNotFoundError:
            return 0

    def pid(self, shard):
        return program_of(self.process(f"pdpd-{shard}"))

    def beside(self, shards):
        """The services beside those of these shards and of HAProxy."""
        replicas = [f"pdpd-replica-{shard}" for shard in shards if self.has_replicas]
        return [*(["pdpd-etcd", "pdpd-rows"] if self.settings.machines else []), *replicas, *further(self.settings),
                *(["pdpd-verify"] if self.settings.decisions else []), *self.BESIDE]

    def is_there(self):
        """Whether something looks after services."""
        return has_program("runsvdir")

    def supervised(self, name):
        """The process of a service that runit supervises; 0 where there is none."""
        return self.process(name)

    def ends_for_good(self, name):
        """Why a service isn't started again once it ends; nothing where it is."""
        try:
            is_once = "want down" in (self.services / name / "supervise" / "stat").read_text()
        except FileNotFoundError:
            return ""
        return "was told so by sv once: pdpd-shards services has it started again" if is_once else ""

    def standing_still(self, names):
        """The processes that look after these services and stand still, as by SIGSTOP, and so start none again."""
        above = {parent_of(process) for name in names if (process := self.process(name))}
        above |= {parent_of(process) for process in above}
        return sorted(process for process in above if process > 1 and is_stopped(process))

    def is_running(self, name):
        """Whether runit runs a service, and that doesn't stand still."""
        return self.process(name) != 0 and not is_stopped(self.process(name))

    def starts_with_machine(self, name):
        """Whether runit runs a service once it looks into its folder anew."""
        return (self.services / name / "run").exists() and not (self.services / name / "down").exists()

    def files(self):
        """The folders and scripts by which runit starts what there is of the deployment."""
        names = sorted({*self.folders.glob("pdpd-*"), self.folders / "haproxy"})
        # (a log's `config` may name a program, which svlogd runs)
        logs = [LOGS, *LOGS.glob("*"), *LOGS.glob("*/config")]
        return [self.services, self.folders, *names, *(place / name for place in names for name in ("run", "log/run")),
                *logs]

    def log_of(self, name):
        """Where the log of a service is."""
        return str(LOGS / name / "current")

    def last_lines(self, name):
        """The last lines of it, without their moments."""
        return [line.partition(" ")[2] for line in end_of(self.log_of(name))]

    def last_line(self, name):
        """The last one."""
        return last_of(self.last_lines(name))

    def unlogged(self, names):
        """Those of these services that run and whose lines nobody takes, or wouldn't after the machine's next start."""
        return [name for name in names if self.process(name)
                and (not self.is_running(f"{name}/log") or (self.services / name / "log" / "down").exists())]

    def failed_backup(self, shard):
        """When one failed, and why: never, since the service of backups notes it, and goes on."""
        return 0.0, ""

    def lost_logs(self, names):
        """Those of these services whose log goes into a file that was removed, or that another program renamed, each
        with the words for that. (svlogd itself gives one a name with @.)"""
        for name in names:
            files = {pathlib.Path(file) for file in open_files(self.process(f"{name}/log"))}
            if any(file.name.endswith(REMOVED) for file in files):
                yield name, "was removed, and its lines are lost"
            elif others := sorted(file for file in files if LOGS in file.parents
                                  and re.fullmatch(r"current\W.+", file.name)):
                yield name, f"goes on in {others[0]}: let no other program rotate it, since svlogd does"

    def is_down(self, shard):
        """Whether a shard's program has ended, and runit starts none."""
        state = self.sv("status", f"pdpd-{shard}").partition(";")[0]
        return state.startswith("down:") and "want up" not in state

    def stop(self, shard):
        """Stops a shard's program, and waits until runit knows that it is to start none. One that doesn't end in good
        order is killed.

        If a program has ended within its first second, runit hears an order only a second later. A `sv up`
        before that would do nothing, and the shard would stay away.
        """
        self.sv("down", f"pdpd-{shard}")
        end = time.monotonic() + PATIENCE
        while not self.is_down(shard):
            if time.monotonic() > end and (process := self.pid(shard)):
                with contextlib.suppress(ProcessLookupError):
                    os.kill(process, signal.SIGKILL)
            if time.monotonic() > end + PATIENCE:
                raise Wrong(f"shard {shard} doesn't end")
            time.sleep(0.02)

    def start(self, shard):
        self.sv("up", f"pdpd-{shard}")
        if self.has_replicas:
            # it has a copy of the token, too
            self.sv("restart", f"pdpd-replica-{shard}")

    def stop_replica(self, shard):
        self.sv("stop", f"pdpd-replica-{shard}")

    def confine_etcd(self):
        """Nothing is to be written: its service starts it with no rights but its user's."""

    def has_etcd(self):
        """Whether there is a service of etcd yet."""
        return self.starts_with_machine("pdpd-etcd")

    def end_etcd(self):
        """Ends this machine's etcd, which would wait for the others: what it has isn't wanted any more."""
        self.sv("down", "pdpd-etcd")
        end = time.monotonic() + PATIENCE
        while self.process("pdpd-etcd"):
            self.sv("kill", "pdpd-etcd")
            if time.monotonic() > end:
                raise Wrong("etcd doesn't end")
            time.sleep(0.1)

    def start_etcd(self):
        self.sv("up", "pdpd-etcd")

    def reload_proxy(self):
        self.sv("2", "haproxy")

    def restart_proxy(self):
        # (one of its processes that stands still wouldn't end, and its first one waits for the others)
        for process in children_of(self.process("haproxy")):
            if is_stopped(process):
                os.kill(process, signal.SIGKILL)
        self.sv("restart", "haproxy")

    def add(self, name, kind):
        """Puts a service where runit finds it; `kind` is the file of runit/ that it runs."""
        folder, link = self.folders / name, self.services / name
        (folder / "log").mkdir(parents=True, exist_ok=True)
        for place, file in ((folder / "run", kind), (folder / "log" / "run", "log")):
            place.unlink(missing_ok=True)
            place.symlink_to(LIBRARY / "runit" / file)
        if not link.is_symlink():
            link.symlink_to(folder)
        for place in (folder, folder / "log"):
            (place / "down").unlink(missing_ok=True)  # (with it runit would start none)

    def set_up(self, shards):
        if not (shutil.which("sv") and self.services.is_dir()):
            raise Wrong(f"there is neither systemd nor runit with its folder {self.services}: install runit")
        refuse_no_user(self.settings)
        names = [*(f"pdpd-{shard}" for shard in shards), *self.beside(shards)]
        for name in names:
            self.add(name, re.sub("-[0-9]+$", "", name))
        for name in names:
            self.run_now(name)

    def run_now(self, name):
        """Has a service run that runit hasn't seen yet, or that was taken down."""
        end = time.monotonic() + SEEN
        while not self.is_seen(name):
            if time.monotonic() > end:
                raise Wrong(f"runit doesn't look after {self.services}: start it, `runsvdir -P {self.services}`")
            time.sleep(0.1)
        for each in (name, f"{name}/log"):
            self.sv("up", each)
            self.sv("cont", each)  # (one that stands still, as by SIGSTOP, goes on)

    def is_seen(self, name):
        """Whether runit has the service."""
        words = ["sv", "status", str(self.services / name)]
        return subprocess.run(words, capture_output=True, check=False).returncode == 0

    def start_proxy(self):
        if os.path.exists(SCRIPT) and not (self.services / "haproxy").is_symlink():
            # It would start a second one with the same configuration, now or at the machine's next start. (Once
            # the service is there Debian's runit has the script stop that one.)
            run(SCRIPT, "stop")
            run("update-rc.d", "haproxy", "disable")
        self.add("haproxy", "haproxy")
        self.run_now("haproxy")

    def restart_logs(self, shards):
        for name in logging(self.settings, "pdpd-replica-{}", shards):
            self.sv("restart", name)

    def renew(self):
        close_sockets_folder(self.settings)
        close_archives_folder(self.settings)
        for name in (*further(self.settings), *self.BESIDE, "haproxy/log"):
            self.sv("restart", name)
