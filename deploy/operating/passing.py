"""The rules of HAProxy with REPLICAS by which a machine that may not answer leads a decision or a reading to another
one of its group.

With ACK=all no machine decides without an acknowledged change, so the other one's answer is as good. With ACK=local who
was told of a change here may ask here alone, and gets 503. A change goes nowhere else: its client may send it again.
"""
# the other machines, as HAProxy has them, and what says that a message goes there
OTHERS, PASSED = "others", 2


def others(settings):
    """The machines to which messages may be led."""
    if settings.ack != "all":
        return {}
    return {name: place for name, place in settings.machines.items() if name != settings.self}


def rules(settings):
    """Whether a message goes there, as it comes in from a client: its shard has no lease, or is away for over a second
    (GONE); a list of all domains wants all shards. What comes from another machine goes to no third one."""
    if not others(settings):
        return ""
    leases = f"{settings.haproxy_etc}/leases.map"
    shard = f"""\
    http-request set-var(txn.asks) var(txn.domain),map({settings.map})
    acl is_in_map var(txn.asks) -m found
    acl names_domain var(txn.domain) -m found
    http-request set-var(txn.asks) var(txn.domain),crc32,mod({settings.shards}) if names_domain !is_in_map
"""
    if settings.groups:
        shard = "    http-request set-var(txn.asks) var(txn.place),field(2,.) if has_place is_here\n"
    then = "others_are_there !{ fe_name machines }"
    goes = f"    http-request set-var(txn.elsewhere) int({PASSED}) if"
    lists = "".join(f"{goes} METH_GET {{ path /operator/domains }} {why} {then}\n" for one in range(settings.shards)
                    for why in (f"!{{ str(LEASE{one}),map_str_int({leases}),sub(txn.now) -m int gt 0 }}",
                                f"{{ str(GONE{one}),map({settings.map}) -m found }}"))
    return f"""\
    # what this machine may not answer another one is asked for, once
    http-request set-var(txn.now) date(0,ms)
{shard}\
    http-request set-var(txn.until) str(LEASE),concat(,txn.asks,),map_str_int({leases})
    acl may_answer var(txn.until),sub(txn.now) -m int gt 0
    acl is_gone str(GONE),concat(,txn.asks,),map({settings.map}) -m found
    acl asks_shard var(txn.asks) -m reg ^[0-9]+$
    acl asks_only var(txn.what) -m str decision reading
    acl others_are_there nbsrv({OTHERS}) gt 0
{goes} !may_answer asks_only asks_shard !is_elsewhere {then}
{goes} is_gone asks_only asks_shard !is_elsewhere {then}
{lists}"""


def use_rule(settings):
    """Where it goes then."""
    return f"    use_backend {OTHERS} if {{ var(txn.elsewhere) -m int {PASSED} }}\n" if others(settings) else ""
