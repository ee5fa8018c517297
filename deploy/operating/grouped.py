"""The rules of HAProxy with ALL_GROUPS: which group of machines has a domain, by a map that pdpd-map keeps, and how a
message comes to a machine of another group, or to another one of the same (passing.py).

It goes there once, over TLS with certificates of both, as its client has sent it; the machine that gets it has its own
copy of the map, and answers 503 for a domain that is in another group by that.
"""
import functools
import os
import pathlib
import pwd

from replica.groups import MAP, MOVED, parts_of

from . import passing
from .binding import bind
from .settings import Wrong, text_of, write_whole

# the field by which the other machine knows whose message it is
SOURCE = "x-pdpd-source"
# certificate and key of a machine, in one file
PEM = "haproxy.pem"
# what isn't done for a message to another machine, and to the machines that are known
BUT, BUT_MACHINES = " !is_elsewhere", " !is_machine"
ELSEWHERE = "    acl is_elsewhere var(txn.elsewhere) -m found\n"


def has_others(settings):
    """Whether messages may go to other machines."""
    return bool(settings.groups or passing.others(settings))


def file(settings):
    """The map."""
    return settings.places / MAP


def moved(settings):
    """What HAProxy was told since it began, which goes before the map."""
    return settings.places / MOVED


def make_files(settings):
    """Makes what HAProxy reads beside its file: certificate and key of this machine, as etcd's member has them, and the
    folder of the map, which pdpd-map's user has, in that of the archives, which is root's."""
    if not has_others(settings):
        return
    parts = [pathlib.Path(settings.etcd_certificates) / name for name in ("member.crt", "member.key")]
    if missing := [path for path in parts if not path.is_file()]:
        raise Wrong(f"{missing[0]} isn't there: pdpd-replicas certificates makes it")
    write_whole(parts[0].with_name(PEM), "".join(map(text_of, parts)), 0o600)
    if settings.groups and not settings.places.exists():
        try:
            user = pwd.getpwnam("pdpd-replica")
        except KeyError:
            raise Wrong("there is no user pdpd-replica, as which the map of domains is kept") from None
        settings.places.parent.mkdir(mode=0o751, exist_ok=True)
        settings.places.mkdir(mode=0o700)
        os.chown(settings.places, user.pw_uid, user.pw_gid)


@functools.lru_cache(1)
def places_in(path, _moment):
    """Where domains are, by the copy of the map that this machine has."""
    return dict(line.split(" ", 1) for line in text_of(path).splitlines() if not line.startswith("#"))


def place(settings, domain):
    """The shard of this machine that has a domain, by that copy; its place where another group has it, and nothing
    where no group has."""
    path = pathlib.Path(file(settings))
    found = places_in(path, path.stat().st_mtime_ns).get(domain) if path.exists() else None
    if found is None:
        return None
    group, shard = parts_of(found)
    return shard if group == settings.group else found


def global_lines(settings):
    """Where the rules in Lua find it."""
    if not settings.groups:
        return "    unsetenv PDPD_GROUP\n"
    return f"""\
    setenv PDPD_GROUP {settings.group}
    setenv PDPD_GROUPS {file(settings)}
    setenv PDPD_MOVED {moved(settings)}
"""


def but(settings):
    """The end of a condition that a message to another machine doesn't meet."""
    return BUT if has_others(settings) else ""


def place_rules(settings, refusal):
    """Where a domain is, as a message comes in. What has come from another machine goes to no third one."""
    if not settings.groups:
        return ELSEWHERE if has_others(settings) else ""
    return f"""\
    http-request set-var(txn.place) var(txn.domain),map({moved(settings)})
    acl has_place var(txn.place) -m found
    http-request set-var(txn.place) var(txn.domain),map({file(settings)}) if !has_place
    acl is_here var(txn.place),field(1,.) -m str {settings.group}
    http-request set-var(txn.elsewhere) int(1) if has_place !is_here
{ELSEWHERE}\
    http-request {refusal} if is_elsewhere {{ fe_name machines }}
"""


def shard_rules(settings, refusal):
    """Which shard of this machine has the domain, looked up once more: what waits has lost its token's clear text. What
    isn't in the map is nowhere, if the map is known to be the last one."""
    if not settings.groups:
        return ""
    leases = f"{settings.haproxy_etc}/leases.map"
    return f"""\
    http-request set-var(txn.now) date(0,ms)
    acl has_map str(MAPPED),map_str_int({leases}) -m found
    acl has_fresh_map str(MAPPED),map_str_int({leases}),sub(txn.now) -m int gt 0
    acl has_domain var(txn.domain) -m found
    http-request {refusal} if has_domain !has_map
    http-request set-var(txn.place) var(txn.domain),map({moved(settings)}) if !is_elsewhere
    http-request {refusal} if has_place !is_here !is_elsewhere
    http-request {refusal} if has_domain !has_place !has_fresh_map
    http-request set-var(txn.shard) var(txn.place),field(2,.) if has_place is_here !is_elsewhere
"""


def reply_rules(settings, refusal):
    """A shard that has lost a domain to another one while a message waited for it hasn't refused the message."""
    if not settings.groups:
        return ""
    now = f"var(txn.domain),map({moved(settings)})"
    return f"""\
    acl was_told {now} -m found
    acl is_as_told {now},strcmp(txn.place) eq 0
    http-response {refusal} if {{ status 401 404 }} has_place !is_elsewhere was_told !is_as_told
"""


def use_rules(settings):
    """Where a message to another machine goes."""
    if not settings.groups:
        return passing.use_rule(settings)
    return f"""\
    http-request set-var(txn.group) var(txn.place),field(1,.) if is_elsewhere
{passing.use_rule(settings)}\
    use_backend group_%[var(txn.group)] if is_elsewhere
"""


def again_rules(settings, refusal):
    """A message that was led to a shard goes to no other machine."""
    refused = f"    http-request {refusal} if is_elsewhere\n" if settings.groups else ""
    return place_rules(settings, refusal) + refused


def hosts(settings):
    """The addresses of all machines."""
    every = [settings.machines, *settings.groups.values()]
    return " ".join(sorted({host for machines in every for host, _ in machines.values()}))


def first_rules(settings, source_rules):
    """Where other machines come in, which say whose message it is. (Whoever shows no certificate has so long for that.)
    """
    return f"""\
    {bind(f"{own_host(settings)}:{settings.group_port}")} ssl crt {settings.etcd_certificates}/{PEM} ca-file \
{settings.etcd_certificates}/ca.crt verify required alpn http/1.1
    maxconn {settings.clients}
    acl is_machine src {hosts(settings)}
{source_rules}\
    # the other machine ends what is idle, long before: a message on a connection that ends would be lost
    timeout client 60s
    timeout http-keep-alive 60s
    acl is_health path /health
    http-request set-log-level silent if METH_GET is_health
    http-request use-service lua.pdpd_health if METH_GET is_health
    http-request set-src req.hdr({SOURCE})
    http-request del-header {SOURCE}
"""


def shown(host):
    return f"[{host}]" if ":" in host else host


def own_host(settings):
    return shown(settings.machines[settings.self][0])


def servers(settings, machines):
    """Machines, as HAProxy has them."""
    return "".join(f"    server {name} {shown(host)}:{settings.group_port}\n" for name, (host, _) in machines.items())


def backends(settings, accepts):
    """The machines of the other groups, and the others of this one."""
    found = {f"group_{name}": machines for name, machines in settings.groups.items() if name != settings.group}
    found |= {passing.OTHERS: passing.others(settings)} if passing.others(settings) else {}
    return "".join(backend(settings, name, machines, accepts) for name, machines in found.items())


def backend(settings, name, machines, accepts):
    """Machines to which messages are led; those that decide nothing now are asked for nothing. (With `retry-on
    empty-response` HAProxy 2.6 ended clients' connections without a reply.)"""
    by = f"{settings.etcd_certificates}/{PEM} ca-file {settings.etcd_certificates}/ca.crt verify required"
    return f"""
backend {name}
    # (as long as the other machine may take)
    timeout connect 2s
    timeout server 60s
    timeout check 5s
    retries 3
    option redispatch 1
    balance leastconn
{accepts}\
    http-request set-header {SOURCE} %[src]
    option httpchk
    http-check send meth GET uri /health ver HTTP/1.1 hdr host pdpd
    default-server ssl crt {by} check inter 2s fall 2 rise 1 pool-purge-delay 2s
{servers(settings, machines)}\
"""
