"""The files for containers, run by podman and crun: the image, the services of compose.yaml, and the pod of pdpd.yaml.

Images aren't fetched: Debian's is made of its packages (`booting`), and HAProxy's is imitated, as Debian's program with
the user 99. What compose.yaml says of each service is given to `podman run` word for word, by `words_of_service`; a key
that isn't known there is an error.
"""
import json
import os
import pathlib
import re
import shutil
import signal
import subprocess
import tarfile
import time

from .booting import ROOT, SLIM
from .kubelet import LIVENESS, READINESS, STARTUP, Kubelet
from .machine import PATIENCE, TOP, sh, wait_until
from .systemd import LIMITS

WANTED = {"podman": "podman", "crun": "crun", "catatonit": "catatonit", "/usr/lib/podman/netavark": "netavark",
          "iptables": "iptables", "debootstrap": "debootstrap"}
SHARD_USER, PROXY_USER = 7100, 99
READER = "import json, sys, yaml; print(json.dumps(list(yaml.safe_load_all(open(sys.argv[1])))))"
PATH = "ENV PATH=/usr/local/sbin:/usr/local/bin:/usr/sbin:/usr/bin:/sbin:/bin"
# where HAProxy's image would come from, and how it is started there
PROXY = f"""FROM docker.io/library/debian:12-slim
COPY . /
RUN install -d -o {PROXY_USER} -g {PROXY_USER} /var/lib/haproxy
USER {PROXY_USER}
ENTRYPOINT ["haproxy", "-W", "-db", "-f", "/usr/local/etc/haproxy/haproxy.cfg"]
"""
# keys of a service that are for whoever starts several, or builds
PASSED_OVER = ("image", "build", "depends_on", "command", "entrypoint")


class Podman:
    """podman, with all that it keeps in the test's folder."""

    def __init__(self, folder):
        self.folder = folder
        folder.mkdir()
        sh("ip link set lo up; mount -t tmpfs -o mode=755 run /run")
        # crun refuses two versions of groups of processes whose second one has a controller; alone the first is taken
        if pathlib.Path("/sys/fs/cgroup/unified").is_dir():
            sh("umount /sys/fs/cgroup/unified")
        # podman would raise these over what a machine allows whose root may not
        hard = sh("ulimit -Hn").strip()
        self.limits = [f"--ulimit=nofile={hard}:{hard}", "--ulimit=nproc=4096:4096"]
        (folder / "containers.conf").write_text(
            f'[containers]\ndefault_ulimits = ["nofile={hard}:{hard}", "nproc=4096:4096"]\n'
            '[engine]\ncgroup_manager = "cgroupfs"\nevents_logger = "file"\n')
        os.environ["CONTAINERS_CONF"] = str(folder / "containers.conf")

    def ended(self, *words, data=None):
        """Runs podman to its end."""
        at = self.folder
        # (podman takes no longer path than 50 characters for the second)
        first = ["podman", "--root", at / "store", "--runroot", "/run/podman", "--tmpdir", "/run/libpod",
                 "--network-config-dir", at / "net", "--cgroup-manager=cgroupfs", "--storage-driver=overlay",
                 "--events-backend=file"]
        return subprocess.run([*map(str, [*first, *words])], check=False, input=data, capture_output=True, text=True,
                              timeout=PATIENCE)

    def __call__(self, *words, data=None):
        """What it says; an error where it fails."""
        ran = self.ended(*words, data=data)
        if ran.returncode != 0:
            raise RuntimeError(f"podman {' '.join(map(str, words))} ends with {ran.returncode}: {ran.stderr[-2000:]}")
        return ran.stdout.strip()

    def inspect(self, name, what):
        """What podman knows of a container."""
        return self("inspect", name, "--format", f"{{{{{what}}}}}")

    def process(self, name, program):
        """The process of a program in a container, as this machine counts them."""
        lines = self("top", name, "hpid", "comm").splitlines()
        return next(int(line.split()[0]) for line in lines if line.split()[1:] == [program])

    def end(self):
        """Ends all containers."""
        self.ended("pod", "rm", "-fa", "-t", "0")
        self.ended("rm", "-fa", "-t", "0")
        self.ended("volume", "prune", "-f")


def documents(path):
    """The documents of a file of YAML, as Debian's package python3-yaml reads them."""
    ran = subprocess.run(["/usr/bin/python3", "-c", READER, str(path)], capture_output=True, text=True, check=False)
    if ran.returncode != 0:
        raise RuntimeError(f"missing: apt-get install python3-yaml, or {path} isn't YAML: {ran.stderr[-500:]}")
    return json.loads(ran.stdout)


def containers(made, checks):
    """The image, then both files that run it."""
    podman = Podman(made.folder / "podman")
    try:
        with tarfile.open(made.packed()) as archive:
            archive.extractall(made.folder)
        (folder,) = (path for path in made.folder.glob("pdpd-*") if path.is_dir())
        for part, given in ((build, [folder]), (ends, [made.folder]), (composed, [folder, made.folder / "composed"]),
                            (pod, [folder, made.folder / "pod"])):
            began = time.time()
            part(podman, checks, *given)
            podman.end()
            checks.say(f"{part.__name__}, in {time.time() - began:.0f} s")
    finally:
        podman.end()
        shutil.rmtree(made.folder / "podman", ignore_errors=True)


def build(podman, checks, folder):
    """The images: Debian's, HAProxy's imitated, and pdpd's, by the Dockerfile in the archive."""
    podman("import", "-q", "-c", PATH, SLIM, "docker.io/library/debian:12-slim")
    context, libraries = podman.folder / "haproxy", "usr/lib/x86_64-linux-gnu"
    # (their names are those of the links by which they are found)
    sh(f"""at={ROOT}/{libraries} program={ROOT}/usr/sbin/haproxy
        needed=$($at/ld-linux-x86-64.so.2 --inhibit-cache --library-path $at --list $program | grep -o "$at/[^ ]*")
        install -D -t {context}/usr/sbin $program; install -D -t {context}/{libraries} $needed""")
    how = ["--network=none", "--pull=never", "-q", "--format", "docker"]
    podman("build", *how, "-t", "docker.io/library/haproxy:2.6", "-f", "-", context, data=PROXY)
    podman("build", *how, "-t", "pdpd:0.1", "-f", folder / "deploy" / "container" / "Dockerfile", folder)
    held = "ls /usr/local/lib/pdpd; command -v python3 || echo no Python"
    said = podman("run", "--rm", "--network=none", *podman.limits, "--entrypoint", "/bin/sh", "pdpd:0.1", "-c", held)
    checks.expect("what the image has", said.split("\n"), ["pdpd", "pdpd-contained", "no Python"])


def ends(podman, checks, folder):
    """Where the program can't go on, the container ends with its status, so that it counts as failed."""
    token = folder / "another-user-s"
    token.write_text("token-of-the-test-1\n")
    token.chmod(0o600)
    ran = podman.ended("run", "--rm", "--network=none", "--read-only", *podman.limits, "-v",
                       f"{token}:/run/secrets/pdpd-token:ro", "pdpd:0.1")
    checks.expect(f"a token that it can't read: {ran.stderr.strip()[-200:]}", ran.returncode, 2)


# ---- compose.yaml

def words_of_service(service, folder, known, limits):
    """What `podman run` is told of a service."""
    words = [f"--ulimit={name}={most}:{most}" for name, most in service.get("ulimits", {}).items()]
    words += limits
    for key, value in service.items():
        if key in ("cap_drop", "security_opt"):
            words += [f"--{key.replace('_', '-')}={each.replace('no-new-privileges:true', 'no-new-privileges')}"
                      for each in value]
        elif key == "network_mode":
            words.append(f"--network=container:{value.removeprefix('service:')}")
        elif key == "volumes":
            words += [f"--volume={folder / each if each.startswith('./') else each}" for each in value]
        elif key == "secrets":
            words += [f"--volume={folder / known[each]['file']}:/run/secrets/{each}:ro" for each in value]
        elif key == "ports":
            words += [f"--publish={each}" for each in value]
        elif key in ("mem_limit", "restart"):
            words.append(f"--{key.replace('mem_limit', 'memory')}={value}")
        elif key == "read_only":
            words += ["--read-only"] * value
        elif key == "healthcheck":
            words += ["--no-healthcheck"] * value["disable"]
        elif key not in (*PASSED_OVER, "ulimits"):
            raise RuntimeError(f"compose.yaml has {key}, of which this test knows nothing")
    if "entrypoint" in service:
        words.append(f"--entrypoint={json.dumps(service['entrypoint'])}")
    return [*words, service["image"], *service.get("command", [])]


def prepare(file, folder):
    """What stands beside compose.yaml, as its head says; gives the operator's token."""
    etc = folder / "haproxy"
    etc.mkdir(parents=True)
    settings = dict(re.findall(r"([A-Z_]+)=(\S*)", file.read_text().partition("services:")[0]))
    (folder / "shards.conf").write_text("".join(f"{name}={value}\n" for name, value in settings.items()))
    surroundings = {**os.environ, "PDPD_SETTINGS": str(folder / "shards.conf")}
    written = subprocess.run([TOP / "deploy" / "pdpd-shards", "config"], env=surroundings, check=True,
                             capture_output=True, text=True).stdout
    (etc / "haproxy.cfg").write_text(written)
    (etc / "domains.map").write_text("")
    shutil.copy(TOP / "deploy" / "domains.lua", etc)
    sh(f"""umask 077; cd {folder}; openssl req -x509 -newkey ec -pkeyopt ec_paramgen_curve:P-256 -nodes -days 30 \
        -subj /CN=localhost -addext subjectAltName=DNS:localhost -keyout key -out crt 2>&1
        cat crt key > haproxy/pdpd.pem
        chown {PROXY_USER} haproxy/pdpd.pem; chmod 400 haproxy/pdpd.pem
        openssl rand -hex 24 > token; chown {SHARD_USER} token; chmod 400 token""")
    return (folder / "token").read_text().strip()


def composed(podman, checks, archive, folder):
    """The services of compose.yaml: TLS from outside, what confines a shard, kills, restarts and health."""
    at = archive / "deploy" / "container"
    (file,) = documents(at / "compose.yaml")
    token = prepare(at / "compose.yaml", folder)
    services = file["services"]
    for name in sorted(services, key=lambda it: (it != "net", "network_mode" not in services[it], it)):
        words = words_of_service(services[name], folder, file["secrets"], podman.limits)
        podman("run", "-d", "--name", name, *words)
    asks = f"curl --silent --cacert {folder}/crt -H 'Authorization: Bearer {token}' https://localhost/operator/domains"

    def answer(more=""):
        return sh(f"{asks}{more} || true").strip()

    def wait_for(wanted, what):
        wait_until(lambda: answer() == wanted, lambda: f"{what}: {answer()}\n{logs(podman)}")

    wait_for('{"Domain":[]}', "no answer at the published port")
    checks.expect("a domain is made", answer("/acme -X PUT"), "{}")
    listed = '{"Domain":["acme"]}'
    for shard in ("pdpd0", "pdpd1"):
        confined(podman, checks, shard)
        checks.expect(f"{shard} is healthy", is_healthy(podman, shard), True)
        killed = podman.process(shard, "pdpd")
        sh(f"kill -KILL {killed}")
        wait_until(lambda: is_another(podman, shard, killed), lambda: logs(podman))
        wait_for(listed, f"after a kill of {shard}")
        checks.expect("it is started again", podman.inspect(shard, ".RestartCount"), "1")
    for name in ("haproxy", "pdpd0"):
        podman("restart", "-t", "0", name)
        wait_for(listed, f"after a restart of {name}")
    podman("kill", "-s", "USR2", "haproxy")
    wait_for(listed, "after a reload")
    stopped = podman.process("pdpd1", "pdpd")
    sh(f"kill -STOP {stopped}")
    checks.expect("a stopped one isn't healthy", is_healthy(podman, "pdpd1"), False)
    sh(f"kill -CONT {stopped}")
    wait_for(listed, "it goes on")


def is_healthy(podman, name):
    """What the image's check finds of a container; an error where podman itself fails. Where podman's time for it is
    over before the check's own, on a busy machine, it is made again."""
    for _ in range(3):
        ran = podman.ended("healthcheck", "run", name)
        if ran.returncode in (0, 1):
            return ran.returncode == 0
        if "exceeded timeout" not in ran.stderr:
            break
    raise RuntimeError(f"the check of {name} ends with {ran.returncode}: {ran.stderr[-500:]}")


def is_another(podman, name, process):
    """Whether a container has another program than that process."""
    try:
        return podman.process(name, "pdpd") != process
    except (RuntimeError, StopIteration):
        return False


def confined(podman, checks, shard):
    """What the kernel says of a shard's program (proc(5)); the container's first process is the shell."""
    of_process = pathlib.Path("/proc") / str(podman.process(shard, "pdpd"))
    text = (of_process / "status").read_text()
    lines = dict(line.split(":", 1) for line in text.splitlines())
    found = {name: lines[name].split()[0] for name in ("Uid", "Gid", "CapEff", "CapBnd", "NoNewPrivs", "Seccomp")}
    wanted = {"Uid": str(SHARD_USER), "Gid": str(SHARD_USER), "CapEff": "0" * 16, "CapBnd": "0" * 16,
              "NoNewPrivs": "1", "Seccomp": "2"}
    checks.expect(f"{shard} is confined", found, wanted)
    checks.expect("it ignores SIGXFSZ", int(lines["SigIgn"], 16) >> signal.SIGXFSZ - 1 & 1, 1)
    checks.expect("its root can't be written to", podman.ended("exec", shard, "touch", "/x").returncode, 1)
    limits = (of_process / "limits").read_text()
    checks.expect("its limits", {name: re.search(rf"(?m)^Max {name} +(\d+)", limits)[1] for name in LIMITS}, LIMITS)
    checks.expect("its memory", podman.inspect(shard, ".HostConfig.Memory"), str(2 * 2 ** 30))


def logs(podman):
    """The ends of all containers' logs."""
    names = podman("ps", "-a", "--format", "{{.Names}}").split()
    return "\n".join(f"{name}: {ran.stdout[-500:]}{ran.stderr[-500:]}" for name in names
                     for ran in [podman.ended("logs", "--tail", "8", name)])


# ---- pdpd.yaml

def as_pod(at, folder):
    """The StatefulSet as a pod, for `podman play kube`: its template word for word, but for where volumes come from."""
    (found,) = (each for each in documents(at / "pdpd.yaml") if each["kind"] == "StatefulSet")
    spec = found["spec"]["template"]["spec"]
    for container in spec["containers"]:
        is_shard = "pdpd" in container["image"]
        container["image"] = "localhost/pdpd:0.1" if is_shard else f"docker.io/library/{container['image']}"
    for volume in spec["volumes"]:
        # (podman 4.3 has no secrets of that kind)
        if volume.pop("secret", None):
            volume["hostPath"] = {"path": str(folder / "secret"), "type": "Directory"}
    spec["volumes"].append({"name": "data", "persistentVolumeClaim": {"claimName": "pdpd-data"}})
    sidecar = (at / "haproxy-sidecar.cfg").read_text()
    claim = {"accessModes": ["ReadWriteOnce"], "resources": {"requests": {"storage": "1Gi"}}}
    return [
        {"apiVersion": "v1", "kind": "ConfigMap", "metadata": {"name": "pdpd-sidecar"},
         "data": {"haproxy.cfg": sidecar}},
        {"apiVersion": "v1", "kind": "PersistentVolumeClaim", "metadata": {"name": "pdpd-data"}, "spec": claim},
        {"apiVersion": "v1", "kind": "Pod", "metadata": {"name": "pdpd-0", "labels": {"app": "pdpd"}},
         "spec": {**spec, "restartPolicy": "Always"}}]


def pod(podman, checks, archive, folder):
    """A shard and its sidecar: messages by the sidecar alone, the probes of the YAML, and a stopped program, which is
    started again because its liveness probe fails."""
    (folder / "secret").mkdir(parents=True)
    token = folder / "secret" / "token"
    token.write_text("token-of-the-test-1\n")
    sh(f"chown -R 0:{SHARD_USER} {folder}/secret; chmod 440 {token}")
    found = as_pod(archive / "deploy" / "container", folder)
    (folder / "pod.yaml").write_text("---\n".join(f"{json.dumps(each)}\n" for each in found))
    podman("play", "kube", folder / "pod.yaml")
    infra = podman("pod", "inspect", "pdpd-0", "--format", "{{.InfraContainerID}}")
    address = podman.inspect(infra, "range .NetworkSettings.Networks}}{{.IPAddress}}{{end")
    kubelet = Kubelet(podman, "pdpd-0", address, found[-1]["spec"]["containers"])
    code = 'curl --silent --max-time 6 --output /dev/null --write-out "%{http_code}" http://'
    if not kubelet.started("pdpd"):
        raise RuntimeError(f"the shard's startup probe fails: {logs(podman)}")
    made = f"{code}{address}:7000/operator/domains/acme -X PUT -H 'Authorization: Bearer token-of-the-test-1' || true"
    checks.expect("a domain is made through the sidecar", sh(made), "201")
    checks.expect("the shard's own port, from outside", sh(f"{code}{address}:7100/ || true"), "000")
    confined = [podman.inspect("pdpd-0-haproxy", f".HostConfig.{name}") for name in ("ReadonlyRootfs", "Memory")]
    checks.expect("the sidecar is confined", confined, ["true", str(512 * 2 ** 20)])
    wanted = dict.fromkeys([("pdpd", STARTUP), ("pdpd", LIVENESS), ("haproxy", LIVENESS), ("haproxy", READINESS)], True)
    checks.expect("the probes", kubelet.holding(), wanted)
    checks.expect("failed probes, and what is started again, while all run", kubelet.watch(6), (set(), None))
    restarted(podman, checks, kubelet)
    checks.expect("the domain is there", sh(made), "409")


def restarted(podman, checks, kubelet):
    """Stops a pod's program: the shard is started again for its liveness probe, and the sidecar isn't."""
    name = "pdpd-0-pdpd"
    process = podman.process(name, "pdpd")
    sh(f"kill -STOP {process}")
    checks.expect("failed probes, and what is started again, while pdpd is stopped", kubelet.watch(40),
                  ({("pdpd", LIVENESS), ("haproxy", READINESS)}, "pdpd"))
    wait_until(lambda: is_another(podman, name, process), lambda: f"it isn't started again: {logs(podman)}", 20)
    checks.expect("its startup probe", kubelet.started("pdpd"), True)
