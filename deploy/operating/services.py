"""What systemd and runit have in common: commands that are run, a shard's program, and which services there are."""
import os
import pathlib
import subprocess

from .processes import REMOVED, children_of
from .settings import Wrong

# what holds the pipe of a program's input: the program is its child
HOLDER = "/pdpd-hold"


def run(*words):
    result = subprocess.run(words, capture_output=True, text=True, check=False)
    if result.returncode != 0:
        raise Wrong(f"{' '.join(map(str, words))}: {(result.stderr or result.stdout).strip()}")
    return result.stdout.strip()


def holder_of(process):
    """The path of the script that holds a shard's program, by the process that is supervised; nothing where it does
    not."""
    try:
        words = pathlib.Path(f"/proc/{process}/cmdline").read_text(errors="replace").split("\0")
    except (FileNotFoundError, ProcessLookupError):
        return ""
    return next((word for word in words[:2] if word.endswith(HOLDER)), "")


def program_of(process):
    """The process of a shard's program, by the one that is supervised; 0 where it runs none yet."""
    if not process or not os.path.exists(f"/proc/{process}"):
        return 0
    if not holder_of(process):
        return process  # (of an earlier version)
    return next(iter(children_of(process)), 0)


def further(settings):
    """The services that some settings switch on."""
    return [*(["pdpd-decisions"] if settings.decisions else []), *(["pdpd-figures"] if settings.metrics else []),
            *(["pdpd-map"] if settings.groups else [])]


def logging(settings, replica, shards):
    """The services that log changes and decisions."""
    return [*(replica.format(shard) for shard in shards if settings.audit),
            *(["pdpd-decisions"] if settings.decisions else []), *(["pdpd-map"] if settings.groups else [])]


def was_removed(link):
    """Whether a process has a file open that was removed, as the link of /proc to it says."""
    try:
        return os.readlink(link).endswith(REMOVED)
    except FileNotFoundError:
        return False  # (it was closed meanwhile)
