"""The rules of HAProxy with AUDIT=1: changes go to pdpd-replica, and a token's digest stands for it; and the decision
log, with DECISIONS. What goes to another machine is logged there."""
from .grouped import but

# A change waits at the daemon for its turn and then for its reply, ten seconds each, and is asked about before. On
# several machines it may wait for a lease, too.
CHANGE_TIMEOUT = 25
ASKS = "    acl asks path_reg ^/domains/[^/]+/pdp$\n"


def token_rules(settings):
    """Below /domains/ nothing that a client shows is passed on, but its digest: what stands in logs, stores and backups
    opens nothing then, since HAProxy would hash it again. (`fhdr`, since a token may have commas.)"""
    if not settings.audit:
        return ""
    shows_one = f"of_tenant is_bearer has_one_token{but(settings)}"
    return rf"""    http-request set-var(txn.token) req.fhdr(authorization),regsub(^bearer\ +,,i) if {shows_one}
    http-request del-header authorization if of_tenant{but(settings)}
    acl has_bearer var(txn.token) -m found
    http-request set-header authorization "Bearer %[var(txn.token),sha2(256),ub64enc]" if has_bearer
"""


def change_rules(settings):
    """Changes go to the daemon of their shard; requests for decisions and what is read go to pdpd."""
    if not settings.audit:
        return ""
    return f"""\
    acl is_change method PUT DELETE
    acl is_post method POST
{ASKS}\
    use_backend changes%[var(txn.shard)] if has_shard is_change
    use_backend changes%[var(txn.shard)] if has_shard is_post !asks
"""


# what a line has of the request, and how
REQUESTS = {"whole": ("request", "req.body,base64"), "digest": ("request_digest", "req.body,sha2(256),hex"),
            "none": None}
# the longest line, and the lines that wait while nobody takes them
MOST_LINE, RING = 65_535, 16 << 20


def decision_rules(settings):
    """What the line of a decision has. A request is logged whole, by its digest alone, or not; with another status than
    200 no decision was given, and the line is the proxy's usual one. (`is_ask` is of the rules of kinds.)"""
    if not settings.decisions:
        return ""
    kept = REQUESTS[settings.decision_requests]
    request = f',"{kept[0]}":"%[var(txn.request)]"' if kept else ""
    asked = f"METH_POST is_ask is_named{but(settings)}"
    rule = f"    http-request set-var(txn.request) {kept[1]} if {asked}\n" if kept else ""
    line = (f'{{"begin":%[var(txn.begin)],"end":%[date(0,us)],"domain":"%[var(txn.domain)]","who":"%[var(txn.asker)]",'
            f'"status":200,"reply":"%[res.body,sha2(256),hex]"{request}}}')
    return f"""\
    # (what is in a shard's place may answer for any path, and what is no domain's name could end the text of a line)
    acl is_named var(txn.domain) -m reg ^[a-z0-9][a-z0-9-]*$
    http-request set-var(txn.begin) date(0,us) if {asked}
{rule}\
    http-request set-var(txn.asker) req.fhdr(authorization),word(-1,' '),sha2(256),bytes(0,4),hex,lower if {asked}
    acl was_asked var(txn.begin) -m found
    acl is_decided status 200
    http-response wait-for-body time 12s if was_asked
    http-response set-var-fmt(txn.decision) '{line}' if was_asked is_decided
    http-response set-log-level debug if was_asked is_decided
"""


def decision_log(settings, usual):
    """Where the frontend's lines go: those of decisions, which have the level debug, to pdpd-decisions alone."""
    if not settings.decisions:
        return ""
    return f"""\
    log ring@decisions len {MOST_LINE} format raw local1 debug
    log-format "{usual} %[var(txn.decision)]"
"""


def decision_ring(settings):
    """Lines wait here for who keeps them, so that no message waits for a disk."""
    if not settings.decisions:
        return ""
    return f"""
ring decisions
    format raw
    maxlen {MOST_LINE}
    size {RING}
    timeout connect 1s
    timeout server 10s
    server keeper unix@{settings.audit_run}/decisions/socket log-proto octet-count
"""


def backends(settings, rules):
    """The daemons, with rules of the proxy's."""
    if not settings.audit:
        return ""
    seconds = CHANGE_TIMEOUT + (2 * settings.lease if settings.machines else 0)
    return "".join(f"""
backend changes{shard}
    # the daemon takes one message of each connection
    http-reuse never
    option http-server-close
    timeout server {seconds}s
{rules}\
    server replica unix@{settings.audit_run}/{shard}/socket
""" for shard in range(settings.shards))
