"""The rules of HAProxy with REPLICAS: a machine answers as long as its lease says, which HAProxy compares with its
clock for each message."""
import pathlib

from . import grouped
from .settings import Wrong

FILE = "leases.map"
# what pdpd-shards doesn't do with one machine of several, and what is done in its place
REFUSED = {
    "put-back": "a backup that is put back on one machine alone would part it from the log: move the shard's folders "
                "of DATA and ARCHIVES away, and take it from another machine by pdpd-replicas copy and join",
    "move": "a domain is moved on all machines: pdpd-replicas move",
}


def refuse(settings, word):
    """An error where a command would part this machine from the others."""
    if settings.groups and word in ("grow", "remap"):
        raise Wrong("the map of all groups leads domains: pdpd-replicas carry brings one to another shard. The number "
                    "of shards stays")
    if settings.machines and word in REFUSED:
        raise Wrong(REFUSED[word])
    if settings.machines and word in ("grow", "remap"):
        from replica import cli, etcd, shared_log  # (which go by settings, too)
        try:
            is_frozen = cli.are_frozen(settings)
        except (etcd.Down, etcd.Open, etcd.Refused, shared_log.Wrong) as fault:
            raise Wrong(str(fault)) from None
        if not is_frozen:
            raise Wrong("changes are taken, and other machines would lead them otherwise than this one: pdpd-replicas "
                        "freeze first, and thaw once it was done on all")


def file(settings):
    """The map of leases: until when each shard may answer, in milliseconds since 1970. The daemons tell it."""
    return pathlib.Path(settings.haproxy_etc) / FILE


def socket_line(settings):
    """Where the daemons tell it. They may do no more there than what a lease wants, and are of HAProxy's group."""
    if not settings.machines:
        return ""
    user = settings.haproxy_user
    rights = f" user {user} group {user}" if user else ""
    return f"    stats socket {settings.haproxy_run}/leases.sock mode 660{rights} level user\n"


def rules(settings, refusal):
    """A decision or a reading is answered while the lease of its shard lasts; a list, while all do."""
    if not settings.machines:
        return ""
    lists = "".join(f"    http-request {refusal} if METH_GET {{ path /operator/domains }} "
                    f"!{{ str(LEASE{shard}),map_str_int({file(settings)}),sub(txn.now) -m int gt 0 }}"
                    f"{grouped.but(settings)}\n" for shard in range(settings.shards))
    return f"""\
    # until when this machine may answer; its clock says whether that is over
    http-request set-var(txn.now) date(0,ms)
    http-request set-var(txn.lease) str(LEASE),concat(,txn.shard,),map_str_int({file(settings)}) if has_shard
    acl has_lease var(txn.lease),sub(txn.now) -m int gt 0
    acl for_decision path_reg ^/domains/[^/]+/pdp$
    http-request {refusal} if has_shard METH_GET !has_lease
    http-request {refusal} if has_shard METH_POST for_decision !has_lease
{lists}"""


def inner_rules(settings, refusal):
    """Who asks whether decisions are answered is told what clients are."""
    if not settings.machines:
        return ""
    return f"""\
    http-request set-var(txn.now) date(0,ms)
    http-request set-var(txn.lease) str(LEASE),concat(,txn.shard,),map_str_int({file(settings)})
    acl has_lease var(txn.lease),sub(txn.now) -m int gt 0
    http-request {refusal} if {{ path /domains/health/pdp }} !has_lease
"""
