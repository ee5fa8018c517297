"""Three machines that stand beside each other: namespaces for mounts, processes and the network each, with the paths
of real ones, joined by a bridge; and the network from which clients ask them."""
import os
import pathlib
import re
import signal
import subprocess
import sys
import time

if __name__ == "__main__":
    sys.dont_write_bytecode = True
    sys.path[:0] = [str(pathlib.Path(__file__).resolve().parent.parent)]

from deployed.machine import PATIENCE, TOP, Machine, sh  # noqa: E402

NAMES = ("a", "b", "c")
OPERATOR = "operator-of-three-machines"
SHARDS = 2
NET, NET_6 = "10.99.0", "fd99::"
# by hand: whether the machines know each other by addresses of IPv6
IS_6 = os.environ.get("REPLICAS_IPV6") == "1"
PAGE = TOP / "docs" / "guide" / "REPLICAS.md"


def number(name):
    return ord(name) - ord("a") + 1


def address(name):
    """Where clients ask a machine."""
    return f"{NET}.{number(name)}"


def known_as(name):
    """The address by which machines know one, as REPLICAS has it."""
    return f"[{NET_6}{number(name)}]" if IS_6 else address(name)


class Three:
    """The machines. All that runs on them ends with the test, whose namespace of processes they are in."""

    def __init__(self, folder, archive):
        self.folder, self.archive, self.holders, self.outer = pathlib.Path(folder), archive, {}, {}
        sh("mount --make-rprivate / && mount -t tmpfs -o mode=755 run /run && mkdir -p /run/lock /run/netns")
        # (what a disk costs isn't what is tried here)
        sh(f"mkdir -p {self.folder}/disks && mount -t tmpfs -o size=8g,mode=755 disks {self.folder}/disks")
        sh("ip link set lo up && ip link add name machines type bridge && ip link set machines up && "
           f"ip address add {NET}.254/24 dev machines && ip address add {NET_6}fe/64 dev machines nodad")
        for name in NAMES:
            self.make(name)

    def make(self, name):
        """Makes a machine with a network, on which runit runs, and in whose folder the archive is."""
        sh(f"ip netns add {name} && ip link add to-{name} type veth peer name eth0 netns {name} && "
           f"ip link set to-{name} master machines up && ip -n {name} address add {address(name)}/24 dev eth0 && "
           f"ip -n {name} address add {NET_6}{number(name)}/64 dev eth0 nodad && "
           f"ip -n {name} link set eth0 up && ip -n {name} link set lo up")
        disk = self.folder / "disks" / name
        disk.mkdir()
        words = ["ip", "netns", "exec", name, "unshare", "--mount", "--pid", "--uts", "--ipc", "--fork", "--kill-child",
                 "--mount-proc", sys.executable, __file__, disk]
        with open(self.folder / f"{name}.said", "wb") as said:
            holder = subprocess.Popen([str(word) for word in words], stdin=subprocess.DEVNULL, stdout=said, stderr=said)
        end = time.time() + PATIENCE
        while not (disk / "ready").exists():
            if holder.poll() is not None or time.time() > end:
                raise RuntimeError((self.folder / f"{name}.said").read_text())
            time.sleep(0.05)
        self.outer[name] = holder
        self.holders[name] = int(pathlib.Path(f"/proc/{holder.pid}/task/{holder.pid}/children").read_text().split()[0])
        self.run(name, f"cp {self.archive} {self.archive}.sha256 {disk}")

    def remove(self, name):
        """Has a machine be gone, with its network, its disk, and the certificates that were made for it: another one of
        that name may come."""
        # (with its first process all that runs on it ends)
        os.kill(self.holders.pop(name), signal.SIGKILL)
        self.outer.pop(name).wait(PATIENCE)
        sh(f"ip link delete to-{name}; ip netns delete {name}; rm -r {self.folder}/disks/{name}")
        self.run("a", f"rm -r made/{name}")

    def words(self, name, command):
        """Those that run a command of the shell on a machine, in its folder."""
        kinds = ["--mount", "--pid", "--net", "--uts", "--ipc"]
        at = f"cd {self.folder}/disks/{name}; "
        return ["nsenter", f"--target={self.holders[name]}", *kinds, "--", "bash", "-ec", at + command]

    def run(self, name, command, status=0, **how):
        """Runs a command of the shell on a machine, and gives what it wrote; an error where it ends otherwise."""
        ran = subprocess.run(self.words(name, command), stdin=subprocess.DEVNULL, stdout=subprocess.PIPE,
                             stderr=subprocess.STDOUT, text=True, check=False, timeout=PATIENCE, **how)
        if status is not None and ran.returncode != status:
            raise RuntimeError(f"{name}: {command}\nends with {ran.returncode}:\n{ran.stdout[-3000:]}")
        return ran.stdout

    def everywhere(self, command, status=0):
        """Runs a command on all machines at the same time; what each wrote."""
        how = {"stdin": subprocess.DEVNULL, "stdout": subprocess.PIPE, "stderr": subprocess.STDOUT, "text": True}
        ran = {name: subprocess.Popen(self.words(name, command.replace("{machine}", name)), **how) for name in NAMES}
        said = {name: one.communicate(timeout=PATIENCE)[0] for name, one in ran.items()}
        if failed := [name for name, one in ran.items() if one.returncode != status]:
            raise RuntimeError(f"{failed[0]}: {command}\n{said[failed[0]][-3000:]}")
        return said

    def cut(self, name, is_cut=True):
        """Takes a machine off the network, or brings it back."""
        sh(f"ip link set to-{name} {'down' if is_cut else 'up'}")

    def part(self, name, other, is_parted=True):
        """Has two machines reach each other no more, though both reach the third; or again."""
        for one, far in ((name, other), (other, name)):
            for place in (f"{address(far)}/32", f"{NET_6}{number(far)}/128"):
                sh(f"ip -n {one} route {'add' if is_parted else 'delete'} blackhole {place}")

    def signal(self, name, service, number, is_holder=False):
        """Sends a signal to the program of a service; of a shard's to pdpd itself, or to what holds its input."""
        child = "/proc/$pid/task/$pid/children"
        of_shard = f"pid=$(cat {child}); " if re.fullmatch(r"pdpd-\d+", service) and not is_holder else ""
        self.run(name, f"{{ pid=$(cat /etc/service/{service}/supervise/pid); {of_shard}kill -{number} $pid; }} "
                 "2> /dev/null || true")

    def sleep(self, name, seconds):
        """Has the programs of all services of a machine stand still for so long, as where it is paused."""
        self.run(name, "all=; for one in $(cat /etc/service/*/supervise/pid); do "
                 "all=\"$all $one $(cat /proc/$one/task/*/children 2> /dev/null || true)\"; done; "
                 f"kill -STOP $all 2> /dev/null || true; sleep {seconds:.1f}; kill -CONT $all 2> /dev/null || true")

    def logs(self, lines=20):
        """The ends of all logs."""
        command = f"tail -n {lines} /var/log/pdpd/*/current 2>&1"
        return "".join(f"==== {name}\n{self.run(name, command, None)}" for name in self.holders)


def commands(section, number):
    """The commands of a block of the page, below a heading of any depth."""
    text = re.search(rf"(?ms)^##+ {section}\n(.*?)^##", PAGE.read_text())[1]
    block = re.findall(r"(?ms)^```sh\n(.*?)^```", text)[number]
    block = re.sub(r"10\.99\.0\.(\d)", rf"[{NET_6}\1]", block) if IS_6 else block
    lines = block.replace("\\\n", " ").splitlines()
    return [line for line in lines if line.strip() and not line.startswith("apt-get ")]


def prepare(three, name):
    """Gives a machine what is carried to it: its certificates, the operator's token, that of TLS; and settings."""
    three.run("a", f"tar c -C made/{name} . > {three.folder}/{name}.tar")
    three.run(name, f"mkdir -p /etc/pdpd/etcd && tar x -C /etc/pdpd/etcd -f {three.folder}/{name}.tar")
    three.run(name, f"cd /etc/haproxy && umask 077 && echo {OPERATOR} > /etc/pdpd/token && openssl req -x509 "
              "-newkey ec -pkeyopt ec_paramgen_curve:P-256 -nodes -days 30 -subj /CN=localhost -keyout k -out c "
              "2> /dev/null && cat c k > pdpd.pem")
    three.run(name, f"sed -i 's/^SHARDS=.*/SHARDS={SHARDS}/; s/^PLAIN_BIND=.*/PLAIN_BIND=:80/; "
              "s/^REFUSALS=.*/REFUSALS=0/; s/^RESERVE=.*/RESERVE=0/' /etc/pdpd/shards.conf")


def install_later(three, name, program):
    """Installs a later archive, in which a command has put another program, beside what runs."""
    three.run(name, f"cd pdpd-0.1 && {program} && grep -v '  pdpd$' SHA256SUMS > sums && sha256sum pdpd >> sums && "
              "mv sums SHA256SUMS && deploy/install /usr/local")


def hold(folder):
    """Is a machine: runit, over folders of its own."""
    Machine(folder)
    os.makedirs("/etc/service", exist_ok=True)
    (pathlib.Path(folder) / "ready").touch()
    os.execvp("runsvdir", ["runsvdir", "-P", "/etc/service"])


if __name__ == "__main__":
    hold(sys.argv[1])
