"""The rules of HAProxy by which a message is led once more whose connection to its shard failed.

A connection to a Unix socket that isn't there fails at once, and HAProxy tries it again without a pause. So each shard
has a second server, which is HAProxy itself: it waits until the socket is there, as a port is waited for, looks up
where the message goes by then, and leads it there. A message has this once: the host that it names says so, of which
pdpd takes any. Behind a kill those come here that were in the queue, and those that came before it was known.
"""
# messages that wait here at a time, and as many that wait to be taken
MOST = 100
HOST = "again"
# the tools' own are told at once that a shard is away
NEVER = f"    http-request set-header host {HOST}\n"


def most(settings):
    """How many connections that takes; none to ports, which are tried again after a pause."""
    return MOST if settings.first_port is None else 0


def server(settings):
    """The second server of a shard, to which alone messages are led that fail at the first."""
    if settings.first_port is not None:
        return ""
    return f"""\
    balance roundrobin
    option redispatch 1
    server again unix@{settings.haproxy_run}/again.sock
"""


def frontend(settings, rights, refusal, domain_rules, route_rules):
    """Where such a message comes in; the rules say whose it is, and where it goes."""
    if settings.first_port is not None:
        return ""
    return f"""
# For messages whose connection to their shard has failed.
frontend again
    option dontlog-normal
    maxconn {MOST}
    bind unix@{settings.haproxy_run}/again.sock {rights}
    http-request set-log-level silent
    http-request {refusal} if {{ req.hdr(host) -m str {HOST} }}
    http-request set-header host {HOST}
    http-request wait-for-body time 5s
{domain_rules}\
    http-request lua.pdpd_again
{route_rules}"""
