"""The rules of HAProxy with METRICS: figures in the text format of Prometheus, and whether decisions are answered."""
from .binding import bind

# how often each kind of figures is given in a second: HAProxy works them out in its only thread
MOST = 10


def frontend(settings):
    """Figures of HAProxy at /metrics, those of the shards at /shards; /health is 200 only where each shard answers
    requests for decisions, /ready only where changes are taken as well."""
    if not settings.metrics:
        return ""
    return f"""
# For who looks after all this: no client needs to reach it.
frontend metrics
    option dontlog-normal
    {bind(settings.metrics)}
    maxconn 50
    stick-table type string len 16 size 2 expire 60s store gpc0_rate(1s)
    acl is_figures path /metrics /shards
    http-request track-sc0 path if is_figures
    http-request return status 429 if is_figures {{ sc0_gpc0_rate ge {MOST} }}
    http-request sc-inc-gpc0(0) if is_figures
    http-request use-service prometheus-exporter if METH_GET {{ path /metrics }}
    http-request use-service lua.pdpd_health if METH_GET {{ path /health /ready }}
    http-request return status 404 unless METH_GET {{ path /shards }}
    default_backend figures

backend figures
    server pdpd-shards unix@/run/pdpd/figures.sock
"""


def inner_rules(settings):
    """Who asks whether changes are taken is led to the daemon."""
    if not (settings.metrics and settings.audit):
        return ""
    return """\
    http-request set-var(txn.changes) int(1) if { req.hdr(x-changes) -m found }
    http-request del-header x-changes
    use_backend changes%[var(txn.shard)] if { var(txn.changes) -m found }
"""
