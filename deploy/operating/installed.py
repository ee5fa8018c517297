"""Whether what is installed is as it was installed, is what runs, and is the only one there is."""
from __future__ import annotations

import os
import pathlib
import subprocess

from . import applied, supervisor
from .findings import Findings
from .services import holder_of
from .settings import LIBRARY, Settings, text_of, write_whole

# the SHA-256 of each file that deploy/install has put there, as `sha256sum --check` reads it
LIST = LIBRARY / "INSTALLED"
# which list was installed when `services` began, or `upgrade` had all of it run
NOTE = applied.FOLDER / "installed"
# where the archive and Debian's package put it
PLACES = pathlib.Path("/usr/local/lib/pdpd"), pathlib.Path("/usr/lib/pdpd")


def changed_files() -> list[str]:
    """The names of the files that aren't as they were installed."""
    ran = subprocess.run(["sha256sum", "--check", "--quiet", LIST.name], cwd=LIBRARY, capture_output=True, text=True,
                         check=False, env={**os.environ, "LC_ALL": "C"})
    return [line.rpartition(": FAILED")[0] for line in ran.stdout.splitlines() if ": FAILED" in line]


def note(*, is_upgrade: bool) -> None:
    """Notes that what is installed runs: an upgrade has all of it run, and without a note it has just begun."""
    if LIST.exists() and (is_upgrade or not NOTE.exists()):
        NOTE.parent.mkdir(exist_ok=True)
        write_whole(NOTE, text_of(LIST))


def look(settings: Settings, findings: Findings) -> None:
    """All of it."""
    with findings.looking("what is installed"):
        if LIST.exists() and (names := changed_files()):
            more = f", and {len(names) - 1} files more" if names[1:] else ""
            findings.add(f"{LIBRARY / names[0]}{more} isn't as it was installed: the installation was cut, or it was "
                         "changed by hand. Install the archive again, then pdpd-shards upgrade")
        elif LIST.exists() and NOTE.exists() and text_of(NOTE) != text_of(LIST):
            findings.add("not all that runs is what is installed: pdpd-shards upgrade")
    with findings.looking("where it is installed"):
        holder = pathlib.Path(holder_of(supervisor.of(settings).supervised(supervisor.of(settings).SHARD.format(0))))
        if holder.is_absolute() and holder.parent != LIBRARY:
            findings.add(f"shard 0 runs what is installed in {holder.parent}, and this is {LIBRARY / 'pdpd-shards'}: "
                         f"run {holder.parent / 'pdpd-shards'}")
        others = [place for place in PLACES if place != LIBRARY and (place / "pdpd-shards").exists()]
        if LIBRARY in PLACES and others:
            findings.add(f"there is a second installation in {others[0]}, beside {LIBRARY}: remove the one that isn't "
                         "wanted")
