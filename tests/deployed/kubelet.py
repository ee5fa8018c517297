"""What stands for Kubernetes' kubelet, of which podman has nothing: it asks a pod's probes as the YAML has them, from
outside, and starts a container again where its startup or liveness probe has failed as often as it may, for no other
reason. A probe that the YAML doesn't have is never asked.
"""
import concurrent.futures
import subprocess
import time

from .machine import PATIENCE

# Kubernetes' own values, where a probe has none
DEFAULTS = {"periodSeconds": 10, "timeoutSeconds": 1, "failureThreshold": 3}
KNOWN = {*DEFAULTS, "httpGet", "exec"}
STARTUP, LIVENESS, READINESS = "startupProbe", "livenessProbe", "readinessProbe"


class Kubelet:
    """The probes of a pod that podman runs. Each is named by its container and its kind."""

    def __init__(self, podman, pod, address, containers):
        self.podman, self.pod, self.address = podman, pod, address
        self.probes = {(each["name"], kind): {**DEFAULTS, **each[kind]} for each in containers
                       for kind in (STARTUP, LIVENESS, READINESS) if kind in each}
        for name, probe in self.probes.items():
            if set(probe) - KNOWN or ("httpGet" in probe) == ("exec" in probe):
                raise RuntimeError(f"{name} is {probe}, of which this test knows nothing")

    def succeeds(self, name):
        """Whether a probe succeeds, asked once."""
        probe = self.probes[name]
        if "exec" in probe:
            return self.runs(name[0], probe["exec"]["command"], probe["timeoutSeconds"])
        asked = probe["httpGet"]
        if set(asked) != {"path", "port"}:
            raise RuntimeError(f"{name} asks {asked}, of which this test knows nothing")
        ran = subprocess.run(
            ["curl", "--silent", "--max-time", str(probe["timeoutSeconds"]), "--output", "/dev/null", "--write-out",
             "%{http_code}", f"http://{self.address}:{asked['port']}{asked['path']}"],
            capture_output=True, text=True, check=False, timeout=PATIENCE)
        return ran.returncode == 0 and 200 <= int(ran.stdout) < 400

    def runs(self, container, command, seconds):
        """Whether a command in a container ends with 0 in time; an error where podman itself fails."""
        began = time.time()
        ran = self.podman.ended("exec", f"{self.pod}-{container}", *command)
        if ran.returncode == 125:
            raise RuntimeError(f"podman can't run {command} in {container}: {ran.stderr[-500:]}")
        return ran.returncode == 0 and time.time() - began <= seconds

    def holding(self):
        """Which probes succeed, asked once each."""
        return {name: self.succeeds(name) for name in self.probes}

    def started(self, container):
        """Whether a container's startup probe succeeds before it has failed as often as it may."""
        name = container, STARTUP
        for _ in range(self.probes[name]["failureThreshold"]):
            if self.succeeds(name):
                return True
            time.sleep(self.probes[name]["periodSeconds"])
        return False

    def watch(self, seconds):
        """Asks liveness and readiness of all containers for so long, or until one is started again. Gives which probes
        failed at least once, and the container that was started again, None if none was."""
        names = [name for name in self.probes if name[1] != STARTUP]
        end, due, failures = time.time() + seconds, dict.fromkeys(names, 0.0), dict.fromkeys(names, 0)
        failed = set()
        with concurrent.futures.ThreadPoolExecutor(len(names) or 1) as pool:
            while time.time() < end:
                asked = [name for name in names if due[name] <= time.time()]
                due.update({name: time.time() + self.probes[name]["periodSeconds"] for name in asked})
                for name, succeeds in zip(asked, pool.map(self.succeeds, asked)):
                    failures[name] = 0 if succeeds else failures[name] + 1
                    failed |= set() if succeeds else {name}
                for name in asked:
                    if name[1] == LIVENESS and failures[name] >= self.probes[name]["failureThreshold"]:
                        self.podman("restart", "-t", "0", f"{self.pod}-{name[0]}")
                        return failed, name[0]
                time.sleep(0.1)
        return failed, None
