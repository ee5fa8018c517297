"""This machine's member of etcd: its settings, and how it begins."""
from __future__ import annotations

import pathlib
import time

from operating import supervisor
from operating.settings import Settings, Wrong, write_whole

from . import certificates, members

ENVIRONMENT, DATA = pathlib.Path("/etc/default/etcd"), pathlib.Path("/var/lib/etcd/pdpd")


def lines(settings: Settings, state: str = "new") -> str:
    """The environment of Debian's etcd. A member that has nothing yet begins with the others, or beside them if they
    are there (existing)."""
    if not settings.machines:
        raise Wrong("REPLICAS is empty: this machine is alone")
    machines, folder = settings.machines, settings.etcd_certificates
    clients, peers = members.url(machines, settings.self), members.url(machines, settings.self, members.PEER)
    cluster = ",".join(f"{name}={members.url(machines, name, members.PEER)}" for name in machines)
    values = {
        "NAME": settings.self, "DATA_DIR": DATA, "LISTEN_CLIENT_URLS": clients, "ADVERTISE_CLIENT_URLS": clients,
        "LISTEN_PEER_URLS": peers, "INITIAL_ADVERTISE_PEER_URLS": peers,
        "INITIAL_CLUSTER": cluster, "INITIAL_CLUSTER_STATE": state, "INITIAL_CLUSTER_TOKEN": "pdpd",
        "CERT_FILE": f"{folder}/member.crt", "KEY_FILE": f"{folder}/member.key",
        "TRUSTED_CA_FILE": f"{folder}/ca.crt", "CLIENT_CERT_AUTH": "true", "PEER_CERT_FILE": f"{folder}/member.crt",
        "PEER_KEY_FILE": f"{folder}/member.key", "PEER_TRUSTED_CA_FILE": f"{folder}/ca.crt",
        "PEER_CLIENT_CERT_AUTH": "true", "PRE_VOTE": "true", "AUTO_COMPACTION_RETENTION": "1h",
        "QUOTA_BACKEND_BYTES": str(2 << 30), "LOGGER": "zap", "LOG_LEVEL": "warn"}
    return "".join(f'ETCD_{name}="{value}"\n' for name, value in values.items())


def write(settings: Settings, state: str) -> None:
    text = lines(settings, state)
    certificates.close(pathlib.Path(settings.etcd_certificates))
    write_whole(ENVIRONMENT, text)
    supervisor.of(settings).confine_etcd()


def begin(settings: Settings, state: str) -> pathlib.Path:
    """Puts what this machine's member has beside, and starts it, if there is a service of it yet; where that is."""
    by, aside = supervisor.of(settings), DATA.with_name(f"{DATA.name}.{int(time.time())}")
    has_etcd = by.has_etcd()
    write(settings, state)
    if has_etcd:
        by.end_etcd()
    if DATA.exists():
        DATA.rename(aside)
    if has_etcd:
        by.start_etcd()
    return aside
