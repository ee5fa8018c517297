"""Certificates by which the machines' etcd, its members and its clients know each other: made by openssl."""
from __future__ import annotations

import grp
import os
import pathlib
import re
import subprocess

from operating.settings import Wrong

from .machines import Machines, machines_in

DAYS = "3650"
KEY = ("-newkey", "ec", "-pkeyopt", "ec_paramgen_curve:prime256v1", "-nodes")
# who reads which key, on a machine
READERS = {"client.key": "pdpd-replica", "member.key": "etcd"}


def openssl(*words: object, given: str = "") -> None:
    ran = subprocess.run(["openssl", *map(str, words)], input=given, capture_output=True, text=True, check=False)
    if ran.returncode:
        raise Wrong(f"openssl {words[0]}: {ran.stderr.strip()[-300:]}")


def make(folder: pathlib.Path, machines: Machines) -> None:
    """Makes the authority, or goes by the one that the folder has, and a folder for each machine. (etcd's own gateway
    is a client of it, so its certificate says both.)"""
    key, authority = folder / "ca.key", folder / "ca.crt"
    if folder.exists() and not (key.exists() and authority.exists()):
        raise Wrong(f"{folder} is there already, and has no ca.key and ca.crt")
    if there := [name for name in machines if (folder / name).exists()]:
        raise Wrong(f"{folder / there[0]} is there already")
    os.umask(0o077)
    if not folder.exists():
        folder.mkdir(parents=True)
        openssl("req", "-x509", *KEY, "-days", DAYS, "-subj", "/CN=pdpd-replicas", "-keyout", key, "-out", authority)
    for name, (host, _) in machines.items():
        place = folder / name
        place.mkdir()
        (place / "ca.crt").write_bytes(authority.read_bytes())
        kind = "IP" if re.fullmatch(r"[0-9.]+|.*:.*", host) else "DNS"
        for word in ("client", "member"):
            more = place / f"{word}.ext"
            more.write_text(f"subjectAltName={kind}:{host}\nextendedKeyUsage=clientAuth"
                            f"{',serverAuth' * (word == 'member')}\n")
            asks = place / f"{word}.csr"
            openssl("req", "-new", *KEY, "-subj", f"/CN={name}", "-keyout", place / f"{word}.key", "-out", asks)
            openssl("x509", "-req", "-in", asks, "-CA", authority, "-CAkey", key, "-CAcreateserial", "-days", DAYS,
                    "-extfile", more, "-out", place / f"{word}.crt")
            more.unlink()
            asks.unlink()


def close(folder: pathlib.Path) -> None:
    """Has each key of a machine read by who needs it, and by root."""
    for name in ("ca.crt", "client.crt", "member.crt", *READERS):
        if not (folder / name).is_file():
            raise Wrong(f"{folder / name} isn't there: pdpd-replicas certificates makes it")
    folder.chmod(0o755)
    for name in ("ca.crt", "client.crt", "member.crt"):
        (folder / name).chmod(0o644)
    for name, group in READERS.items():
        try:
            os.chown(folder / name, 0, grp.getgrnam(group).gr_gid)
        except KeyError:
            raise Wrong(f"there is no group {group}") from None
        (folder / name).chmod(0o640)


__all__ = ["close", "machines_in", "make"]
