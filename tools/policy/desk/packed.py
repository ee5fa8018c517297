"""The desk as one file (tools/policy/pack.py): which one it is, and its page."""
from __future__ import annotations

import platform
import zipfile

from .model import HOME, IS_PACKED

# that of pdpd (crates/pdpd/src/help.rt)
VERSION = "0.1"
PAGE, SUM = "README.md", "SUM"


def held(name: str) -> str:
    """A text that is packed with the desk, or stands beside it."""
    if IS_PACKED:
        with zipfile.ZipFile(HOME) as archive:
            return archive.read(name).decode()
    return (HOME / name).read_text(encoding="utf-8")


def version() -> str:
    """What `--version` says."""
    whence = f"packed of {held(SUM).strip()}" if IS_PACKED else "in a clone"
    return f"policy {VERSION}, {whence}, Python {platform.python_version()}"


def page() -> int:
    """Shows the page."""
    print(held(PAGE))
    return 0
