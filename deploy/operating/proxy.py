"""The configuration of HAProxy before the shards.

HAProxy keeps connections to each shard, lets so many messages to it at a time (maxconn), and the others queue in
HAProxy. What pdpd would answer by closing a connection, and what both could take for messages of different lengths,
ends here. So does what one client could take away from all others: connections, messages under way, memory.
"""
import hashlib
import pathlib

from . import again, audited, grouped, known, logged, monitored, passing, replicated
from . import settings as setting
from .binding import bind

JSON = "content-type application/json string"
# Which bytes no field may have; pdpd would close the connection (RFC 9110, section 5.5).
CONTROLS = r"[\x00-\x08\x0b\x0c\x0e-\x1f\x7f]"
# which no target has; the same (RFC 9112, section 3.2)
NO_TARGET = r"[^\x21-\x7e]"
# The longest message (16,384 bytes more) and the longest reply that a client gets each fit into a buffer. So pdpd gets
# no message before its last byte is here, and is rid of its reply whether the client takes it or not.
MOST_BODY, MOST_REPLY, BUFFER = 524_288, 1_000_000, 1_048_576
# how many bytes of a client the machine takes before HAProxy does
AT_ONCE = 65_536
# lists of all domains that are put together at a time
LISTS = 4
# what stands in the configuration where its own digest comes
DIGEST = "@digest@"
# the file with sections of the operator's own
OWN, OWN_HEAD = "pdpd-own.cfg", "\n# ---- of "
# connections of the tools, of the watchdog and of lists, beside those of clients
SPARE = 200
# whose a message is: an address, of IPv6 the network that one machine may have
SOURCE = "src,ipmask(32,64)"


def answers(status, code, fields="", how="return"):
    """The end of a rule that answers with an error."""
    return f"""{how} status {status} {JSON} '{{"Error":"{code}"}}'{fields}"""


def global_part(settings):
    user = settings.haproxy_user
    rights = f"    user {user}\n    group {user}\n" if user else ""
    # (each message to another machine has a connection there)
    most = settings.clients * (2 if grouped.has_others(settings) else 1) + SPARE + again.most(settings)
    buffers = most + 2 * (settings.under_way + again.most(settings))
    return f"""\
global
    nbthread {settings.threads}
{rights}\
    # a second HAProxy that is started by mistake would share the ports, and the shards
    noreuseport
    # clients have fewer, so the tools always get a connection
    maxconn {most}
    tune.bufsize {BUFFER}
    # the most memory: a buffer for each connection, and two for each message
    tune.buffers.limit {buffers}
    tune.maxrewrite 1024
    # as much of one connection is worked through before the others' turn: a buffer full of frames takes seconds
    tune.rcvbuf.client {AT_ONCE}
    tune.http.maxhdr 128
    tune.h2.max-concurrent-streams 10
    hard-stop-after 15s
    stats socket {settings.haproxy_run}/admin.sock mode 660 level admin expose-fd listeners
{replicated.socket_line(settings)}\
    log {settings.log}{logged.level(settings)}
    ssl-default-bind-options ssl-min-ver TLSv1.2 no-tls-tickets
    # before the file that reads them
    setenv PDPD_SHARDS {settings.shards}
    setenv PDPD_MAXCONN {settings.maxconn}
    setenv PDPD_RUN {settings.haproxy_run}
    {f"setenv PDPD_SOCKETS {settings.sockets}" if settings.first_port is None else "unsetenv PDPD_SOCKETS"}
    setenv PDPD_MAP {settings.map}
{grouped.global_lines(settings)}\
    setenv PDPD_AUDIT {settings.audit}
    # which configuration this is, for pdpd-shards status
    setenv PDPD_DIGEST {DIGEST}
    lua-load {settings.haproxy_etc}/domains.lua
"""


def defaults_part(settings):
    codes = {400: "BadHead", 408: "Timeout", 502: "Unknown", 503: "Unavailable", 504: "Unknown"}
    line = """    http-error status {} {} '{{"Error":"{}"}}'\n"""
    errors = "".join(line.format(status, JSON, code) for status, code in codes.items())
    return f"""
defaults
    mode http
    log global
    option dontlognull
{logged.errors_apart(settings)}\
    log-format "{logged.LINE}"
    timeout http-request 5s
    # how long a handshake of TLS may take, a connection may be idle, and a client may take nothing of its reply
    timeout client 5s
    # how long a source waits for each reply that has asked too much without a token
    timeout tarpit 1s
    # also the pause before a refused connection is tried again: 15 make 3 s, in which a pdpd has to be back
    timeout connect 200ms
    retries 15
    retry-on conn-failure
    # whoever has left the queue isn't asked for
    option abortonclose
    # how long a message waits for its turn, and then for its reply
    timeout queue 10s
    timeout server 12s
    # Any message goes on any connection to its shard that is free. HAProxy alone ends one that is (pdpd-run).
    .if version_before(2.7)
    http-reuse always
    .else
    # (an empty body of HTTP/2 would be passed on as a chunked one, behind which pdpd ends the connection)
    http-reuse never
    option http-server-close
    .endif
    # never but to HAProxy itself (again): another shard would answer for a domain that it hasn't
    no option redispatch
{errors}"""


def binds(settings):
    """Where clients come in, and how many may."""
    lines = f"    {bind(settings.plain_bind)}\n" if settings.plain_bind else ""
    if settings.tls_bind:
        lines += f"    {bind(settings.tls_bind)} ssl crt {settings.certificate} alpn h2,http/1.1\n"
    return f"{lines}    maxconn {settings.clients}\n"


def source_rules(settings, but=""):
    """How many connections one client may have at a time; `but` is the end of the condition."""
    most = settings.of_source
    connections_end = f"    tcp-request connection reject if {{ sc0_conn_cur gt {most} }}{but}\n" if most else ""
    return f"""\
    tcp-request connection track-sc0 {SOURCE} table connections_of_source
{connections_end}"""


DOMAIN_RULES = """\
    http-request set-var(txn.domain) path,field(3,/) if { path_beg /domains/ }
    http-request set-var(txn.domain) path,field(4,/) if { path_beg /operator/domains/ }
"""


def head_rules():
    """What is answered by the head alone."""
    return f"""\
    http-request {answers(405, "BadMethod")} if METH_HEAD
    http-request {answers(505, "Version")} unless {{ req.ver -m str 1.1 2.0 }}
    http-request {answers(413, "BodyTooLarge")} if {{ req.hdr_val(content-length) gt {MOST_BODY} }}
    http-request set-var(txn.head) req.hdrs,length
    http-request set-var(txn.line) url,length
    http-request set-var(txn.head) var(txn.head),add(txn.line)
    http-request set-var(txn.line) method,length
    http-request set-var(txn.head) var(txn.head),add(txn.line)
    http-request {answers(431, "HeadTooLarge")} if {{ var(txn.head) -m int gt 16200 }}
    # (one of the 64 that pdpd takes is HAProxy's own)
    http-request {answers(431, "HeadTooLarge")} if {{ req.fhdr_cnt gt 63 }}
    http-request {answers(400, "BadHead")} if {{ req.hdrs -m reg '{CONTROLS}' }}
    # (over HTTP/2 a target may have any byte, and CONNECT with :protocol comes as GET with a field Upgrade)
    http-request {answers(400, "BadHead")} if {{ url -m reg '{NO_TARGET}' }}
    http-request {answers(405, "BadMethod")} if {{ req.ver 2.0 }} {{ req.fhdr(upgrade) -m found }}
    # pdpd decodes the domain's part once it has found the route, and no domain's name needs a percent
    http-request {answers(400, "BadDomain")} if {{ var(txn.domain) -m sub % }}
    # The list of all domains is asked of all shards: who shows no token, or several, asks none of them. (With 62 of
    # them there would be more fields than pdpd takes.)
    acl is_list path /operator/domains
    http-request {answers(401, "Unauthorized", " hdr www-authenticate Bearer")} if is_list METH_GET !has_one_token
"""


def body_rules():
    """The whole body first: a slow client holds no shard. One without a length (chunked, HTTP/2) gets one.

    HAProxy 3.0 passes a chunked body that gets a length on as an empty one, and no version between was tried.
    """
    return f"""\
    http-request wait-for-body time 5s
    http-request {answers(413, "BodyTooLarge")} if {{ req.body_size gt {MOST_BODY} }}
    acl has_length req.hdr(content-length) -m found
    acl has_coding req.hdr(transfer-encoding) -m found
    acl has_body req.body_len gt 0
    .if version_before(2.7)
    # (an empty body of HTTP/2 would be passed on as a chunked one)
    http-request set-header content-length %[req.body_len] if !has_length has_coding
    http-request set-header content-length %[req.body_len] if !has_length {{ req.ver 2.0 }}
    http-request del-header transfer-encoding if has_length
    .else
    http-request {answers(501, "TransferCoding")} if has_coding
    http-request {answers(501, "TransferCoding")} if !has_length has_body
    .endif
"""


def there(settings, condition):
    """Has a message wait for its shard's socket."""
    return f"    http-request lua.pdpd_there if {condition}\n" if settings.first_port is None else ""


def placed(settings, file):
    """The shard of a domain: by the map, else by its name."""
    where = f" if{grouped.but(settings)}" if grouped.has_others(settings) else ""
    by_map = grouped.shard_rules(settings, answers(503, "Unavailable")) or f"""\
    http-request set-var(txn.shard) var(txn.domain),map({file}){where}
    acl has_domain var(txn.domain) -m found
"""
    by_name = f"var(txn.domain),crc32,mod({settings.shards}) if has_domain !has_shard{grouped.but(settings)}"
    return f"""\
{by_map}\
    acl has_shard var(txn.shard) -m found
    http-request set-var(txn.shard) {by_name}
"""


def route_rules(settings):
    """Whose message it is, looked up at the moment at which it comes into the shard's queue."""
    file = settings.map
    return f"""\
    # a tool holds some messages back while it restarts a shard or moves a domain
    http-request lua.pdpd_wait if {{ str(HELD),map({file}) -m found }}{grouped.but(settings)}
    http-request {answers(503, "Unavailable")} if {{ var(txn.held) -m found }}
{placed(settings, file)}\
    # while the number of shards grows no domain is made
    acl makes_domain method PUT
    acl is_stopped str(NEW),map({file}) -m found
    http-request {answers(503, "Unavailable")} if makes_domain {{ path_beg /operator/domains/ }} is_stopped
    # a reply that fits into no buffer, or that is passed on before it is whole, would let a client hold the shard
    http-response {answers(503, "Unavailable")} if has_domain {{ res.hdr_val(content-length) gt {MOST_REPLY} }}
    http-response wait-for-body time 12s
{replicated.rules(settings, answers(503, "Unavailable"))}\
{grouped.reply_rules(settings, answers(503, "Unavailable"))}\
{grouped.use_rules(settings)}\
    use_backend lists if METH_GET {{ path /operator/domains }}
{audited.change_rules(settings)}\
    use_backend shard%[var(txn.shard)] if has_shard
    use_backend shard0 if !has_domain
    # the map names a shard that isn't there
    default_backend shardmoving
"""


def frontends(settings):
    """Where clients come in, up to the shards' queues."""
    away = f"{{ str(AWAY),map({settings.map}) -m found }}{grouped.but(settings)}"
    routes, refusal = route_rules(settings), answers(503, "Unavailable")
    rules = message_rules(settings) + there(settings, away) + routes
    again_rules = DOMAIN_RULES + grouped.again_rules(settings, refusal)
    second = again.frontend(settings, rights(settings), refusal, again_rules, routes)
    log = audited.decision_log(settings, logged.LINE)
    first = f"\nfrontend pdp\n{binds(settings)}{log}{source_rules(settings)}{rules}"
    if not grouped.has_others(settings):
        return first + second
    machines = f"{log}{grouped.first_rules(settings, source_rules(settings, grouped.BUT_MACHINES))}{rules}"
    return f"{first}\nfrontend machines\n{machines}{second}"


def message_rules(settings):
    """What is done with a message before it is led anywhere."""
    return (logged.kind_rules() + DOMAIN_RULES + grouped.place_rules(settings, answers(503, "Unavailable"))
            + passing.rules(settings) + known.rules(settings, answers, SOURCE) + head_rules() + body_rules()
            + audited.token_rules(settings) + audited.decision_rules(settings) + logged.level_rules(settings)
            + logged.LED)


def rights(settings):
    """Who may connect to a socket of HAProxy's own."""
    user = settings.haproxy_user
    return f"mode 660 user {user} group {user}" if user else "mode 660"


def other_parts(settings):
    """The frontend of the tools, the list of all domains, and what is counted."""
    return f"""
# For the watchdog and the tools, which name the shard: before all others in its queue, or in their turn.
frontend inner
    option dontlog-normal
    bind unix@{settings.haproxy_run}/inner.sock {rights(settings)}
    http-request set-priority-class int(-100) unless {{ req.hdr(x-turn) -m found }}
    http-request set-var(txn.shard) req.hdr(x-shard)
{there(settings, "{ req.hdr(x-turn) -m found }")}\
    http-request del-header x-shard
    http-request del-header x-turn
{again.NEVER}\
{replicated.inner_rules(settings, answers(503, "Unavailable"))}{monitored.inner_rules(settings)}\
    use_backend shard%[var(txn.shard)]

# A few lists are put together at a time, and the others wait.
backend lists
    timeout server 40s
{known.ACCEPTS}\
    server self unix@{settings.haproxy_run}/lists.sock maxconn {LISTS}

frontend list
    option dontlog-normal
    bind unix@{settings.haproxy_run}/lists.sock {rights(settings)}
    http-request use-service lua.pdpd_domains

# where a domain is that moves for too long
backend shardmoving
    http-request {answers(503, "Unavailable")}

backend connections_of_source
    stick-table type ipv6 size 100k expire 60s store conn_cur

# of messages without a token that was accepted lately: gpc1 all, gpc0 those that a shard answered with 4xx
backend messages_of_source
    stick-table type ipv6 size 100k expire 60s store conn_cur,gpc0_rate(10s),gpc1_rate(10s)

backend messages_under_way
    stick-table type integer size 1 expire 60s store conn_cur

# by the digest of a token and a domain; gpt0 is 1 once it is refused, and gpc0 counts changes
backend accepted
    stick-table type binary len 32 size 100k expire 10m store gpt0,http_req_rate(10s),gpc0_rate(10s)
"""


def server(settings, shard):
    """Where HAProxy asks a shard."""
    return f"unix@{settings.socket(shard)}" if settings.port(shard) is None else settings.place(shard)


def backends(settings):
    return "".join(f"""
backend shard{shard}
{known.ACCEPTS}\
    # (so messages wait in this server's queue)
    use-server pdpd if TRUE
    server pdpd {server(settings, shard)} maxconn {settings.maxconn}
{again.server(settings)}\
""" for shard in range(settings.shards))


def own_part(settings):
    """What the operator adds: sections of a file beside HAProxy's, which no tool writes."""
    path = pathlib.Path(settings.haproxy_etc) / OWN
    return f"{OWN_HEAD}{path}\n\n{setting.text_of(path)}" if path.exists() else ""


def mode(settings):
    """How the whole file is kept: who may not read the operator's own sections may not read it."""
    path = pathlib.Path(settings.haproxy_etc) / OWN
    return 0o644 & (path.stat().st_mode if path.exists() else 0o644)


def configuration(settings):
    """The whole file."""
    text = "".join((
        f"# Written by `pdpd-shards config`, of {setting.FILE}: what is changed here is lost. Sections of your own stand "
        f"in {settings.haproxy_etc}/{OWN}.\n",
        global_part(settings), defaults_part(settings), frontends(settings), other_parts(settings),
        backends(settings), audited.backends(settings, known.ACCEPTS),
        grouped.backends(settings, known.ACCEPTS),
        audited.decision_ring(settings),
        monitored.frontend(settings), own_part(settings)))
    return text.replace(DIGEST, hashlib.sha256(text.encode()).hexdigest()[:16])
