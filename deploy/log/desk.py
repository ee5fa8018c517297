"""Two states compared by the policy author's desk, which reads them as folders."""
from __future__ import annotations

import os
import pathlib
import subprocess
import sys
import tempfile

from .audit import write_state
from .history import State
from .replaying import Failed

# where the desk is: installed beside this, or in the sources
HERE = pathlib.Path(__file__).resolve().parents[1]
PLACES = HERE / "policy.pyz", HERE.parent / "tools" / "policy" / "policy.py"


def place() -> str:
    """The desk that POLICY names, else the one beside this."""
    if named := os.environ.get("POLICY"):
        return os.path.abspath(named)
    found = next((str(path) for path in PLACES if path.exists()), None)
    if found is None:
        raise Failed(f"the author's desk isn't there ({PLACES[0]}): POLICY=PATH names it")
    return found


def compared(old: State, new: State, domain: str, words: list[str]) -> int:
    """Has the desk's `diff` write what differs between two states; its exit status. The words are options of it."""
    with tempfile.TemporaryDirectory() as folder:
        for state, name in ((old, "before"), (new, "after")):
            write_state(state, domain, pathlib.Path(folder) / name)
        sys.stdout.flush()
        return subprocess.run([sys.executable, place(), "diff", "before", "after", *words], cwd=folder,
                              check=False).returncode
