"""The rules of HAProxy by which a token is known that was accepted lately: what it may ask, and what is left to those
without one.

The digest of a token and of its domain (of none, if it is the operator's) is kept once a reply was success (`ACCEPTS`).
So nobody uses up what is another's. A message has the counters 1 and 2: 0 is its connection's, and is tracked for that
alone. 1 counts by token, if that was accepted, and else by source; 2 counts all messages.
"""
# in a backend: keeps that a token was accepted, unless it was refused since. (No counter is left that would.)
ACCEPTS = """\
    acl was_refused_since var(txn.who),table_gpt0(accepted) eq 1
    stick store-response var(txn.who) table accepted if { status 200:299 } { var(txn.who) -m found } !was_refused_since
"""
# whose a message is. (What pdpd refuses however good the token is, as `Basic TOKEN`, says nothing of that.)
WHO = """\
    acl of_tenant path_beg /domains/
    http-request set-var(txn.tenant) path,field(3,/) if of_tenant
    acl has_one_token req.fhdr_cnt(authorization) eq 1
    acl is_bearer req.fhdr(authorization) -m reg -i ^bearer\\ +[!-~]+$
    http-request set-var(txn.who) "req.fhdr(authorization),word(-1,' '),concat(/,txn.tenant),sha2(256)" if has_one_token \
is_bearer
    acl was_accepted var(txn.who),in_table(accepted) -m bool
    acl was_refused_since var(txn.who),table_gpt0(accepted) eq 1
    http-request set-var(txn.accepted) int(1) if has_one_token was_accepted !was_refused_since
    acl is_accepted var(txn.accepted) -m found
"""


def refusals(settings, answers):
    """What is answered beyond REFUSALS."""
    if not settings.refusals:
        return ""
    slowly = answers(429, "TooMany", how="tarpit")
    return f"""\
    http-request {slowly} if !is_accepted {{ sc1_gpc0_rate gt {settings.refusals} }}
    # (who sends more and ends each at once would push other lines out of the log)
    http-request set-log-level silent if !is_accepted {{ sc1_gpc1_rate gt {10 * settings.refusals} }}
    http-request {slowly} if !is_accepted {{ sc1_gpc1_rate gt {10 * settings.refusals} }}
"""


def rules(settings, answers, source):
    """All of them; `source` is whose a message is that shows no token."""
    too_many, unavailable = answers(429, "TooMany"), answers(503, "Unavailable")
    rate, of_source = "", ""
    if settings.of_source:
        of_source = f"""\
    http-request {too_many} if !is_accepted {{ sc1_conn_cur gt {settings.of_source} }}
"""
    if settings.rate:
        rate = f"""\
    http-request {too_many} if is_accepted of_tenant {{ sc1_http_req_rate gt {settings.rate} }}
"""
    if settings.change_rate:
        rate += f"""\
    http-request sc-inc-gpc0(1) if is_accepted of_tenant of_change
    http-request {too_many} if is_accepted of_tenant of_change {{ sc1_gpc0_rate gt {settings.change_rate} }}
"""
    return f"""\
{WHO}\
    http-request track-sc1 var(txn.who) table accepted if is_accepted
    http-request track-sc1 {source} table messages_of_source if !is_accepted
{of_source}\
    http-request sc-inc-gpc1(1) if !is_accepted
    http-request track-sc2 int(0) table messages_under_way
    http-request {unavailable} if {{ sc2_conn_cur gt {settings.under_way} }}
    http-request {unavailable} if !is_accepted {{ sc2_conn_cur gt {settings.under_way // 2} }}
{refusals(settings, answers)}{rate}\
    http-response sc-set-gpt0(1) 1 if is_accepted {{ status 401 }}
    http-response sc-inc-gpc0(1) if {{ status 400:499 }} !is_accepted
"""
