#!/usr/bin/env python3
"""Packs the policy author's desk as one file that Python runs (zipapp): its modules, those it uses, its page.

usage: tools/policy/pack.py [FILE]    build/policy.pyz where FILE is left out

The bytes are the same each time, whoever packs them.
"""
from __future__ import annotations

import hashlib
import io
import pathlib
import sys
import zipfile

sys.dont_write_bytecode = True
TOOL = pathlib.Path(__file__).resolve().parent
TOP = TOOL.parents[1]
SHEBANG = b"#!/usr/bin/env python3\n"
# the first moment that a ZIP file can hold
WHEN = (1980, 1, 1, 0, 0, 0)
MAIN = b'''"""The policy author's desk: `policy page` shows its page."""
import sys

if sys.version_info < (3, 9):
    sys.exit("policy: Python from 3.9 is wanted, and this is %d.%d" % sys.version_info[:2])

from desk.cli import main

sys.exit(main())
'''


def members() -> dict[str, bytes]:
    """The files, by their names."""
    found = {"__main__.py": MAIN, "README.md": (TOOL / "README.md").read_bytes()}
    for folder, name in ((TOOL / "desk", "desk"), (TOP / "tests" / "model", "model")):
        found |= {f"{name}/{path.name}": path.read_bytes() for path in sorted(folder.glob("*.py"))}
    found["client/pdp_client.py"] = (TOP / "clients" / "python" / "pdp_client.py").read_bytes()
    digest = hashlib.sha256(repr(sorted(found.items())).encode()).hexdigest()
    return {**found, "SUM": digest[:16].encode()}


def packed() -> bytes:
    """The bytes of the one file."""
    made = io.BytesIO()
    with zipfile.ZipFile(made, "w", zipfile.ZIP_DEFLATED) as archive:
        for name, held in sorted(members().items()):
            entry = zipfile.ZipInfo(name, WHEN)
            entry.compress_type, entry.external_attr = zipfile.ZIP_DEFLATED, 0o644 << 16
            archive.writestr(entry, held)
    return SHEBANG + made.getvalue()


def main() -> int:
    path = pathlib.Path(sys.argv[1]) if sys.argv[1:] else TOP / "build" / "policy.pyz"
    path.parent.mkdir(parents=True, exist_ok=True)
    path.write_bytes(packed())
    path.chmod(0o755)
    print(f"{path}: {path.stat().st_size:,} bytes")
    return 0


if __name__ == "__main__":
    sys.exit(main())
